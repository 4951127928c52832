/* For tests that include sflight_do.c and sflight_cache.c after this: it plays threads by a schedule. One
 * thread runs at a time, and before each step that others can see it may be another one's turn, as a random
 * number says. A schedule has a number, and is played again by it. Steps are the atomics, the locks, the
 * waits, the library's functions, in whose places macros are put here, and the points in the code. A thread
 * that is no actor of a play runs as ever. Each function of the library is one step. */
#ifndef SFLIGHT_SCHEDULES_H
#define SFLIGHT_SCHEDULES_H

#ifndef _GNU_SOURCE
#define _GNU_SOURCE
#endif
#include "sflight.h"
#include <errno.h>
#include <linux/futex.h>
#include <pthread.h>
#include <sched.h>
#include <semaphore.h>
#include <stdatomic.h>
#include <stdbool.h>
#include <stdint.h>
#include <stdio.h>
#include <stdlib.h>
#include <string.h>
#include <stdarg.h>
#include <sys/random.h>
#include <sys/syscall.h>
#include <time.h>
#include <unistd.h>

enum {
    MOST_ACTORS = 6,
    WAKES = 256,
    MOST_STEPS = 400000, /* a play that takes more of them hangs */
    SWITCHES = 3,        /* one step in so many is followed by another thread's */
    STALLS = 40,         /* one in so many stops its thread for long, */
    STALLS_AFTER = 8,    /* and of those after which others have to find something, */
    LONG = 400           /* for so many steps of others at most */
};

static struct {
    int actors, now;
    uint64_t number, random, steps;
    int waited; /* so many steps in turn were of actors that wait */
    bool is_over[MOST_ACTORS];
    unsigned stalled[MOST_ACTORS];
    sem_t turn[MOST_ACTORS], end;
    unsigned wakes[WAKES][2]; /* by the word that is slept on, and the bit of the reason */
    bool (*waits)(int actor, const char *where); /* whether the actor waits at the step of this name */
    struct { atomic_uintptr_t *at; uintptr_t to; } late[MOST_ACTORS]; /* what the actor has stored, and others do not see */
} play;

static _Thread_local int actor = -1;

static inline uint64_t random_number(void) {
    play.random ^= play.random << 13;
    play.random ^= play.random >> 7;
    play.random ^= play.random << 17;
    return play.random * 0x9e3779b97f4a7c15u >> 24;
}

static inline unsigned random_below(unsigned most) { return (unsigned)(random_number() % most); }

/* Another actor's turn, if there is one that is not stopped. */
static inline void hand_over(bool is_blocked) {
    int next = -1, found = 0;
    /* Where all that are not stopped wait, those go on that are. */
    for (int round = play.waited > 2 * play.actors; round < 2 && next < 0; round++) {
        for (int i = 0; i < play.actors; i++) {
            if (play.is_over[i] || (i == actor && (is_blocked || play.is_over[actor]))) continue;
            if (round == 0 && play.stalled[i] > 0) {
                play.stalled[i]--;
                continue;
            }
            if (random_below((unsigned)++found) == 0) next = i;
        }
    }
    if (next < 0) next = actor;
    if (next == actor) return;
    play.stalled[next] = 0;
    play.now = next;
    int me = actor;
    bool is_over = play.is_over[me];
    sem_post(&play.turn[next]);
    if (is_over) return;
    while (sem_wait(&play.turn[me]) != 0) {}
}

/* Others see what the actor has stored. */
static inline void show(int who) {
    if (play.late[who].at) atomic_store_explicit(play.late[who].at, play.late[who].to, memory_order_release);
    play.late[who].at = NULL;
}

static inline void point(bool is_blocked) {
    if (actor < 0) {
        if (is_blocked) sched_yield();
        return;
    }
    if (++play.steps > MOST_STEPS) {
        printf("FAILED: schedule %llu hangs\n", (unsigned long long)play.number);
        fflush(stdout);
        _exit(1);
    }
    play.waited = is_blocked ? play.waited + 1 : 0;
    if (!is_blocked && random_below(STALLS) == 0) play.stalled[actor] = random_below(LONG);
    if (is_blocked || play.stalled[actor] > 0 || random_below(SWITCHES) == 0) hand_over(is_blocked);
    show(actor);
}

/* Others see the store at once, or when the actor has made its next step. */
static inline void store_late(atomic_uintptr_t *at, uintptr_t to) {
    if (actor >= 0 && random_below(2)) {
        play.late[actor].at = at;
        play.late[actor].to = to;
        return;
    }
    atomic_store_explicit(at, to, memory_order_release);
    point(false);
}

/* A step with a name, where a test may let the actor wait. An actor that is stopped after a step that
 * others have to find is often stopped for long. */
static inline void point_at(const char *where) {
    if (actor >= 0 && strncmp(where, "before ", 7) != 0 && random_below(STALLS_AFTER) == 0)
        play.stalled[actor] = random_below(LONG);
    point(false);
    while (actor >= 0 && play.waits && play.waits(actor, where)) point(true);
}

/* The parts of the C library that block. */

static inline int played_lock(pthread_mutex_t *lock) {
    if (actor < 0) return pthread_mutex_lock(lock);
    point(false);
    while (pthread_mutex_trylock(lock) != 0) point(true);
    return 0;
}

static inline int played_unlock(pthread_mutex_t *lock) {
    int code = pthread_mutex_unlock(lock);
    point(false);
    return code;
}

static inline unsigned *wakes_of(const void *word, unsigned bit) { return &play.wakes[(uintptr_t)word / 64 % WAKES][bit]; }

/* A futex. Every other schedule wakes threads for no reason; in the rest one that nobody wakes sleeps. */
static inline long played_futex(void *at, int what, unsigned value, const struct timespec *deadline, void *other, unsigned which) {
    if (actor < 0) return (syscall)(SYS_futex, at, what, value, deadline, other, which);
    if ((what & FUTEX_CMD_MASK) == FUTEX_WAKE_BITSET) {
        point(false);
        for (unsigned bit = 0; bit < 2; bit++) *wakes_of(at, bit) += which >> bit & 1;
        point_at("woken");
        return 1;
    }
    point_at("before sleep");
    unsigned bit = which >> 1, before = *wakes_of(at, bit); /* it sleeps for one reason */
    /* An actor that changes the word later, and wakes, finds the thread asleep. */
    if (*(volatile unsigned *)at != value) {
        errno = EAGAIN;
        return -1;
    }
    bool is_late = false;
    do {
        point(true);
        is_late = deadline && random_below(16) == 0;
    } while (!is_late && play.number % 2 == 0 && *wakes_of(at, bit) == before);
    errno = ETIMEDOUT;
    return is_late ? -1 : 0;
}

/* All actors pass a fence. Every third schedule is of a system that has none for all threads. */
static inline long played_membarrier(void) {
    point(false);
    if (play.number % 3 == 0) return -1;
    for (int i = 0; i < play.actors; i++) show(i);
    return 0;
}

static inline int played_nanosleep(const struct timespec *time, struct timespec *left) {
    if (actor < 0) return nanosleep(time, left);
    point(true);
    return 0;
}

static inline int played_yield(void) {
    if (actor < 0) return sched_yield();
    point(true);
    return 0;
}

static inline ssize_t played_random(void *to, size_t size, unsigned flags) {
    if (play.random == 0) return getrandom(to, size, flags);
    for (size_t i = 0; i < size; i++) ((uint8_t *)to)[i] = (uint8_t)random_number();
    return (ssize_t)size;
}

#undef atomic_load
#undef atomic_store
#undef atomic_exchange
#undef atomic_fetch_add
#undef atomic_fetch_sub
#undef atomic_compare_exchange_strong
#undef atomic_compare_exchange_weak
#undef atomic_fetch_and
#define atomic_load(at) (point(false), atomic_load_explicit(at, memory_order_seq_cst))
#define atomic_store(at, to) (point(false), atomic_store_explicit(at, to, memory_order_seq_cst))
#define atomic_exchange(at, to) (point(false), atomic_exchange_explicit(at, to, memory_order_seq_cst))
#define atomic_fetch_add(at, by) (point(false), atomic_fetch_add_explicit(at, by, memory_order_seq_cst))
#define atomic_fetch_sub(at, by) (point(false), atomic_fetch_sub_explicit(at, by, memory_order_seq_cst))
#define atomic_fetch_and(at, by) (point(false), atomic_fetch_and_explicit(at, by, memory_order_seq_cst))
#define atomic_compare_exchange_strong(at, from, to) \
    (point(false), \
     atomic_compare_exchange_strong_explicit(at, from, to, memory_order_seq_cst, memory_order_seq_cst))
#define atomic_compare_exchange_weak(at, from, to) \
    (point(false), \
     atomic_compare_exchange_weak_explicit(at, from, to, memory_order_seq_cst, memory_order_seq_cst))

#define pthread_mutex_lock played_lock
#define pthread_mutex_unlock played_unlock
#define sched_yield played_yield
#define nanosleep played_nanosleep
#define getrandom played_random
#define syscall(number, ...) played_##number(__VA_ARGS__)
#define played_SYS_futex played_futex
#define played_SYS_membarrier(...) played_membarrier()

/* The points in the code, by which a test lets an actor wait. */
#define SFLIGHT_POINT(where) point_at(where)
#define SFLIGHT_STORE(at, to) store_late(at, to)

/* Plays. */

struct part {
    pthread_t thread;
    sem_t begin;
    int number;
    void (*run)(int number);
};

static struct part parts[MOST_ACTORS];

static inline void *acts(void *at) {
    struct part *part = at;
    for (;;) {
        while (sem_wait(&part->begin) != 0) {}
        if (!part->run) return NULL;
        while (sem_wait(&play.turn[part->number]) != 0) {}
        actor = part->number;
        part->run(part->number);
        play.is_over[actor] = true;
        bool is_end = true;
        for (int i = 0; i < play.actors; i++) is_end = is_end && play.is_over[i];
        if (is_end) sem_post(&play.end);
        else hand_over(true);
        actor = -1;
    }
}

/* Numbers the play: what is random from here on is so by its number. */
static inline void begin_play(uint64_t number, int actors) {
    play.number = number;
    play.random = (number + 1) * 0xbf58476d1ce4e5b9u | 1;
    for (int i = 0; i < 8; i++) random_number();
    play.actors = actors;
    play.steps = 0;
    play.waited = 0;
    play.waits = NULL;
    memset(play.is_over, 0, sizeof play.is_over);
    memset(play.stalled, 0, sizeof play.stalled);
    memset(play.late, 0, sizeof play.late);
}

/* Each actor runs this with its number. Returns when all have ended. */
static inline void play_all(void (*run)(int number)) {
    for (int i = 0; i < play.actors; i++) {
        parts[i].run = run;
        sem_post(&parts[i].begin);
    }
    play.now = (int)random_below((unsigned)play.actors);
    sem_post(&play.turn[play.now]);
    while (sem_wait(&play.end) != 0) {}
}

/* The threads of the actors, which play one schedule after the other. */
static inline void open_plays(void) {
    /* Threads that run one after the other do so sooner on one processor. Which one it is the system has chosen: where several such
     * tests run beside each other they would all share the first. */
    cpu_set_t one;
    int here = sched_getcpu();
    if (here >= 0 && here < CPU_SETSIZE) {
        CPU_ZERO(&one);
        CPU_SET(here, &one);
        sched_setaffinity(0, sizeof one, &one);
    }
    sem_init(&play.end, 0, 0);
    for (int i = 0; i < MOST_ACTORS; i++) {
        sem_init(&play.turn[i], 0, 0);
        sem_init(&parts[i].begin, 0, 0);
        parts[i].number = i;
        if (pthread_create(&parts[i].thread, NULL, acts, &parts[i])) abort();
    }
}

static inline void close_plays(void) {
    for (int i = 0; i < MOST_ACTORS; i++) {
        parts[i].run = NULL;
        sem_post(&parts[i].begin);
        pthread_join(parts[i].thread, NULL);
    }
}

#endif
