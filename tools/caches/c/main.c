/* Times and hit ratios of the cache of sflight_cache.h; tools/caches/run runs it. */
#include "sflight_cache.h"
#include <math.h>
#include <pthread.h>
#include <stdint.h>
#include <stdio.h>
#include <stdlib.h>
#include <string.h>
#include <time.h>

enum { ROUNDS = 225, GETS = 40000, DRAWN = 1 << 16, KEYS = 1000, TRACE = 1000000, TRACE_KEYS = 100000, VALUES = 4000, MOST = 4 };

typedef struct {
    char text[24];
    size_t len;
} key;

static char page[] = "<html></html>";

static int load(void *context, const uint8_t *key, size_t len, sflight_cache_loaded *loaded) {
    if (context) ++*(int *)context;
    (void)key;
    (void)len;
    loaded->value = page;
    return SFLIGHT_CACHE_LOADED;
}

static double now(void) {
    struct timespec at;
    clock_gettime(CLOCK_MONOTONIC, &at);
    return (double)at.tv_sec * 1e9 + (double)at.tv_nsec;
}

struct reader {
    pthread_t thread;
    pthread_barrier_t *begin;
    sflight_cache *cache;
    const key *const *keys;
    int count;
};

static void get(sflight_cache *cache, const key *of) {
    sflight_value value;
    if (sflight_cache_get(cache, (const uint8_t *)of->text, of->len, &value) > SFLIGHT_CACHE_JOINED || value.at != page) abort();
    sflight_cache_release(cache, &value);
}

static void *run(void *arg) {
    struct reader *r = arg;
    /* All are there before the clock runs. */
    pthread_barrier_wait(r->begin);
    pthread_barrier_wait(r->begin);
    for (int n = 0, at = 0; n < GETS; n++) {
        get(r->cache, r->keys[at]);
        if (++at == r->count) at = 0;
    }
    return NULL;
}

static int by_size(const void *a, const void *b) {
    double x = *(const double *)a, y = *(const double *)b;
    return (x > y) - (x < y);
}

static sflight_cache *cache_of(uint64_t values, void *loads) {
    sflight_cache *cache = sflight_cache_open(&(sflight_cache_options){.limit = values, .entries = values, .load = load, .context = loads});
    if (!cache) abort();
    return cache;
}

/* Each thread gets so many keys in turn; the next one's begin so much further. */
static void measure(const char *what, int threads, const key *const *keys, int count, int further) {
    sflight_cache *cache = cache_of(VALUES, NULL);
    double times[ROUNDS];
    for (int round = -1; round < ROUNDS; round++) {
        struct reader readers[MOST];
        pthread_barrier_t begin;
        pthread_barrier_init(&begin, NULL, (unsigned)threads + 1);
        for (int i = 0; i < threads; i++) {
            readers[i] = (struct reader){.begin = &begin, .cache = cache, .keys = keys + i * further, .count = count};
            if (pthread_create(&readers[i].thread, NULL, run, &readers[i])) abort();
        }
        pthread_barrier_wait(&begin);
        double from = now();
        pthread_barrier_wait(&begin);
        for (int i = 0; i < threads; i++) pthread_join(readers[i].thread, NULL);
        /* The first round loads. */
        if (round >= 0) times[round] = (now() - from) / ((double)GETS * threads);
        pthread_barrier_destroy(&begin);
    }
    sflight_cache_close(cache);
    qsort(times, ROUNDS, sizeof *times, by_size);
    printf("%-22s %-22s %d threads: least %4.0f median %4.0f\n", "sflight_cache.h", what, threads, times[0], times[ROUNDS / 2]);
}

/* The key of each number, which all who draw it share. */
static key names[TRACE];

static void name_all(void) {
    for (int i = 0; i < TRACE; i++) names[i].len = (size_t)snprintf(names[i].text, sizeof names[i].text, "/page-%06d.html", i);
}

/* Keys by zipf with the exponent 1.01. */
static void draw(const key **drawn, int draws, int keys) {
    static double upto[TRACE_KEYS];
    double sum = 0;
    uint64_t state = 1;
    for (int i = 0; i < keys; i++) upto[i] = sum += pow(i + 1, -1.01);
    for (int i = 0; i < draws; i++) {
        state = state * 6364136223846793005u + 1442695040888963407u;
        double at = (double)(state >> 11) / 9007199254740992.0 * sum;
        int low = 0, high = keys - 1;
        while (low < high) {
            int middle = (low + high) / 2;
            if (upto[middle] < at) low = middle + 1;
            else high = middle;
        }
        drawn[i] = &names[low];
    }
}

static void ratio(const key *const *trace, int gets, int values) {
    int loads = 0;
    sflight_cache *cache = cache_of((uint64_t)values, &loads);
    for (int i = 0; i < gets; i++) get(cache, trace[i]);
    sflight_cache_close(cache);
    printf("%-22s %6d values: %.2f\n", "sflight_cache.h", values, 100 - 100.0 * loads / gets);
}

/* How many gets hit in caches for 1, 5 and 20 % of so many keys. */
static void ratios(const key *const *trace, int gets, int keys) {
    ratio(trace, gets, keys / 100);
    ratio(trace, gets, keys / 20);
    ratio(trace, gets, keys / 5);
}

static int by_name(const void *a, const void *b) {
    const key *const *x = a, *const *y = b;
    return strcmp((*x)->text, (*y)->text);
}

/* It tells that of the trace in this file, which has a key a line. */
static void ratios_of(const char *path) {
    static key lines[TRACE];
    static const key *trace[TRACE], *sorted[TRACE];
    int gets = 0, keys = 0;
    FILE *file = fopen(path, "r");
    if (!file) abort();
    for (; gets < TRACE && fscanf(file, "%23s", lines[gets].text) == 1; gets++) {
        lines[gets].len = strlen(lines[gets].text);
        trace[gets] = sorted[gets] = &lines[gets];
    }
    fclose(file);
    qsort(sorted, (size_t)gets, sizeof *sorted, by_name);
    for (int i = 0; i < gets; i++) keys += i == 0 || by_name(&sorted[i], &sorted[i - 1]) != 0;
    const char *name = strrchr(path, '/');
    printf("Hit ratio of %d gets over %d keys, %s: %%\n", gets, keys, name ? name + 1 : path);
    ratios(trace, gets, keys);
}

int main(int count, char **words) {
    static const key *keys[TRACE];
    for (int i = 1; i < count; i++) ratios_of(words[i]);
    if (count > 1) return 0;
    name_all();
    puts("A hit: ns, all threads together, divided by their gets");
    for (int threads = 1; threads <= MOST; threads += MOST - 1) {
        keys[0] = &names[1];
        measure("one key", threads, keys, 1, 0);
        draw(keys, MOST * DRAWN, KEYS);
        measure("1,000 keys by zipf", threads, keys, DRAWN, DRAWN);
    }
    printf("A miss with an empty load, in a full cache of %d values: ns\n", VALUES);
    for (int i = 0; i < MOST * GETS; i++) keys[i] = &names[i];
    for (int threads = 1; threads <= MOST; threads += MOST - 1) measure("a miss", threads, keys, GETS, GETS);
    puts("Hit ratio of 1,000,000 gets over 100,000 keys by zipf: %");
    draw(keys, TRACE, TRACE_KEYS);
    ratios(keys, TRACE, TRACE_KEYS);
    return 0;
}
