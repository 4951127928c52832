/* A page server over sflight_cache.h: GET /NAME answers a page, which takes 50 ms to make and is
 * then kept; POST /NAME writes the page anew and forgets it, so that no GET that begins after the
 * answer gets an older one. PURGE /TAG does so for all pages whose name begins with the tag and a
 * hyphen. Four threads serve; a hundred requests for one missing page make one. A page that is a
 * minute old is made anew while it is still answered, and one that cannot be made stays for an hour.
 *
 *     cache_server PORT     on 127.0.0.1; port 0 is one that is free, and is printed
 *
 * Built and run by tools/check, with c/sflight_cache.c and c/sflight_do.c. */
#include "sflight_cache.h"
#include <arpa/inet.h>
#include <pthread.h>
#include <signal.h>
#include <stdatomic.h>
#include <stdio.h>
#include <stdlib.h>
#include <string.h>
#include <sys/socket.h>
#include <time.h>
#include <unistd.h>

enum { WORKERS = 4, PAGE = 256, REQUEST = 4096 };

#define SECOND INT64_C(1000000000)

/* The store behind the cache: how often it was written. */
static atomic_uint revision = 1;
static sflight_cache *cache;
static int listener;

static int make_page(void *context, const uint8_t *name, size_t len, sflight_cache_loaded *loaded) {
    (void)context;
    const uint8_t *hyphen = memchr(name, '-', len);
    if (len == 7 && memcmp(name, "nothing", len) == 0) return SFLIGHT_CACHE_MISSING;
    if (hyphen) sflight_cache_add_tag(loaded, name, (size_t)(hyphen - name));
    char *page = malloc(PAGE);
    if (!page) return SFLIGHT_CACHE_FAILED;
    unsigned seen = atomic_load(&revision);
    nanosleep(&(struct timespec){0, 50000000}, NULL);
    snprintf(page, PAGE, "page %.*s of revision %u\n", (int)(len < 64 ? len : 64), (const char *)name, seen);
    loaded->value = page;
    loaded->weight = strlen(page);
    return SFLIGHT_CACHE_LOADED;
}

static void drop_page(void *context, void *page) {
    (void)context;
    free(page);
}

static void answer(int client, const char *status, const char *body) {
    char text[REQUEST];
    int len = snprintf(text, sizeof text,
                       "HTTP/1.0 %s\r\nContent-Type: text/plain\r\nContent-Length: %zu\r\n\r\n%s", status,
                       strlen(body), body);
    for (int sent = 0; sent < len;) {
        ssize_t n = write(client, text + sent, (size_t)(len - sent));
        if (n <= 0) return;
        sent += (int)n;
    }
}

static void serve(int client) {
    char text[REQUEST];
    size_t len = 0;
    /* A client that sends nothing for ten seconds is let go. */
    setsockopt(client, SOL_SOCKET, SO_RCVTIMEO, &(struct timeval){10, 0}, sizeof(struct timeval));
    while (len < sizeof text - 1 && !memchr(text, '\n', len)) {
        ssize_t n = read(client, text + len, sizeof text - 1 - len);
        if (n <= 0) return;
        len += (size_t)n;
    }
    text[len] = 0;
    char method[8], name[256];
    if (sscanf(text, "%7s /%255[^ \r\n]", method, name) != 2) {
        answer(client, "400 Bad Request", "a request is GET /NAME, POST /NAME or PURGE /TAG\n");
        return;
    }
    if (strcmp(method, "PURGE") == 0) {
        sflight_cache_forget_tag(cache, (const uint8_t *)name, strlen(name));
        answer(client, "200 OK", "purged\n");
        return;
    }
    if (strcmp(method, "POST") == 0) {
        atomic_fetch_add(&revision, 1);
        sflight_cache_forget(cache, (const uint8_t *)name, strlen(name));
        answer(client, "200 OK", "written\n");
        return;
    }
    sflight_value page;
    const sflight_cache_how how = {.timeout = 10 * SECOND};
    int code = sflight_cache_get_with(cache, (const uint8_t *)name, strlen(name), &how, &page);
    if (code == SFLIGHT_CACHE_MISSING) {
        answer(client, "404 Not Found", "there is no such page\n");
        return;
    }
    if (!sflight_cache_has_value(code)) {
        answer(client, "503 Service Unavailable", "the page could not be made\n");
        return;
    }
    answer(client, "200 OK", page.at);
    sflight_cache_release(cache, &page);
}

static void *work(void *unused) {
    (void)unused;
    for (int client; (client = accept(listener, NULL, NULL)) >= 0; close(client)) serve(client);
    return NULL;
}

int main(int count, char **words) {
    struct sockaddr_in address = {.sin_family = AF_INET, .sin_addr.s_addr = htonl(INADDR_LOOPBACK)};
    socklen_t size = sizeof address;
    address.sin_port = htons((uint16_t)(count > 1 ? atoi(words[1]) : 8080));
    signal(SIGPIPE, SIG_IGN);
    cache = sflight_cache_open(&(sflight_cache_options){
        .limit = 64 << 20, .entries = 100000, .load = make_page, .drop = drop_page, .ttl = 70 * SECOND,
        .refresh_after = 60 * SECOND, .stale_if_error = 3600 * SECOND, .missing_ttl = SECOND, .jitter = 0.1});
    listener = socket(AF_INET, SOCK_STREAM, 0);
    if (!cache || listener < 0 || bind(listener, (struct sockaddr *)&address, size) || listen(listener, 128)
        || getsockname(listener, (struct sockaddr *)&address, &size)) {
        perror("cache_server");
        return 1;
    }
    printf("http://127.0.0.1:%d/\n", ntohs(address.sin_port));
    fflush(stdout);
    pthread_t threads[WORKERS];
    for (int i = 0; i < WORKERS; i++)
        if (pthread_create(&threads[i], NULL, work, NULL)) abort();
    for (int i = 0; i < WORKERS; i++) pthread_join(threads[i], NULL);
    return 0;
}
