/* Puts a pool of sflight_do.h under load, with Forgets, timeouts and loads that ask for other keys, and records it in a file:
 *
 *     record LOG [ROUNDS [LOADS [SEED]]]
 *     ./sfctl merge LOG | ./sfctl check --timed
 *
 * ROUNDS is how many calls and Forgets each thread makes (100), and LOADS what the pool is opened for
 * (0, loads is the usual size; one that is opened for 1 grows). It is built with c/sflight_do.c and
 * c/sflight_record.c. */
#include "sflight_do.h"
#include <pthread.h>
#include <sched.h>
#include <stdio.h>
#include <stdlib.h>
#include <string.h>
#include <time.h>

enum { THREADS = 8, KEYS = 6 };

static sflight_pool *pool;
static long rounds = 100;
static unsigned first_seed;

struct asking {
    unsigned *seed;
    int key;
};

static void pause_for(unsigned *seed) {
    if (rand_r(seed) % 3 == 0) nanosleep(&(struct timespec){0, rand_r(seed) % 60000}, NULL);
    else if (rand_r(seed) % 2 == 0) sched_yield();
}

static void ask(int key, unsigned *seed);

static uint64_t load(void *context, const uint8_t *name, size_t len) {
    struct asking *asking = context;
    (void)name;
    (void)len;
    pause_for(asking->seed);
    /* A greater key alone, so that no two threads wait for each other. */
    if (asking->key + 1 < KEYS && rand_r(asking->seed) % 8 == 0) ask(asking->key + 1, asking->seed);
    return 1;
}

static size_t name_of(int key, char name[80]) {
    return (size_t)snprintf(name, 80, "%.*skey %d", key % 3 * 25, "a long key of a recording, loads stands as it is ..", key);
}

static void ask(int key, unsigned *seed) {
    char name[80];
    size_t len = name_of(key, name);
    struct asking asking = {seed, key};
    int64_t timeout = rand_r(seed) % 3 == 0 ? rand_r(seed) % 40000 : SFLIGHT_DO_FOREVER;
    sflight_got got;
    if (sflight_do(pool, (const uint8_t *)name, len, load, &asking, timeout, &got) == SFLIGHT_DO_NO_MEMORY) abort();
}

static void *serve(void *at) {
    unsigned seed = first_seed * 1000 + (unsigned)(size_t)at;
    for (long i = 0; i < rounds; i++) {
        char name[80];
        int key = rand_r(&seed) % KEYS;
        if (rand_r(&seed) % 5 == 0) {
            size_t len = name_of(key, name);
            sflight_do_forget(pool, (const uint8_t *)name, len);
        } else {
            ask(key, &seed);
        }
        if (rand_r(&seed) % 16 == 0) pause_for(&seed);
    }
    return NULL;
}

static int write_file(void *file, const char *text, size_t len) {
    return fwrite(text, 1, len, file) == len ? 0 : 1;
}

static int fails(const char *what) {
    fprintf(stderr, "record: %s\n", what);
    return 2;
}

int main(int count, char **words) {
    pthread_t threads[THREADS];
    sflight_recorded recorded;
    unsigned long loads = 0;
    if (count > 2) rounds = atol(words[2]);
    if (count > 3) loads = strtoul(words[3], NULL, 10);
    if (count > 4) first_seed = (unsigned)strtoul(words[4], NULL, 10);
    if (count < 2 || rounds < 1 || loads > SFLIGHT_MOST_CELLS) {
        fputs("usage: record LOG [ROUNDS [LOADS [SEED]]]\n", stderr);
        return 2;
    }
    FILE *file = fopen(words[1], "w");
    pool = sflight_do_open((uint32_t)loads, NULL);
    if (!file || !pool) return fails("no file or no pool");
    int code = sflight_do_record(pool, write_file, file);
    if (code != SFLIGHT_DO_DONE) return fails("the recording has not begun");
    for (size_t i = 0; i < THREADS; i++) {
        if (pthread_create(&threads[i], NULL, serve, (void *)i) != 0) return fails("no thread");
    }
    for (size_t i = 0; i < THREADS; i++) pthread_join(threads[i], NULL);
    sflight_do_stop(pool, &recorded);
    if (recorded.failed != 0 || fclose(file) != 0) return fails("the log is not written");
    sflight_stats stats = sflight_do_statistics(pool);
    printf("%llu events, %llu lost; %llu loads, %llu joins, %llu Forgets\n", (unsigned long long)recorded.events, (unsigned long long)recorded.lost,
           (unsigned long long)stats.loads, (unsigned long long)stats.joins, (unsigned long long)stats.forgets);
    sflight_do_close(pool);
    return recorded.events > 0 && recorded.lost == 0 ? 0 : 1;
}
