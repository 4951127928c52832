/* The library decides which thread leads, which ones join, what a Forget ends and what is current
 * (sflight.h). This file runs the load, and puts to sleep and wakes the threads that joined.
 *
 * A leader settles its call under the lock of the call's post, and a thread that gives up leaves the
 * call under it. So the holders that the library counts as the call is settled are those threads that
 * will have the value: each has one of the counts that `share` adds, and none of them gives up later.
 * The lock is a bit beside the call's generation. No other call ever waits for it, even if the leader
 * of a call that nobody joined leaves it locked, which saves an exchange. */
#ifndef _GNU_SOURCE
#define _GNU_SOURCE
#endif
#include "sflight_inside.h"
#include <errno.h>
#include <linux/futex.h>
#include <limits.h>
#include <sched.h>
#include <stdlib.h>
#include <string.h>
#include <sys/random.h>
#include <sys/syscall.h>
#include <unistd.h>

/* A step between two that other threads may see. Tests stop threads here. */
#ifndef SFLIGHT_POINT
#define SFLIGHT_POINT(where) ((void)0)
#endif

enum {
    TRIES = 64,       /* of an asking or a Forget in the library */
    CROWD = 1000000,  /* nanoseconds until one asks again that found a crowd, or the largest group full */
    FEW_CELLS = 64,
    WIDER = 8         /* a new table has so many times the cells of the last at most */
};

const char *sflight_version(void) { return SFLIGHT_VERSION; }

/* Seats. */

enum { FREE, TAKEN, CLOSED };

_Thread_local struct near sflight_inside_near[NEAR];

static pthread_key_t exits;
static bool is_exit_made;
static pthread_once_t once = PTHREAD_ONCE_INIT;

/* The thread does not use the seat any more. Where the pool is closed, nobody else frees it. */
static void give_back(struct near *at) {
    int state = TAKEN;
    if (at->pool != 0 && !atomic_compare_exchange_strong(&at->seat->state, &state, FREE)) free(at->seat);
    at->pool = 0;
}

static void leave_thread(void *all) {
    for (int i = 0; i < NEAR; i++) give_back((struct near *)all + i);
}

static void make_exit(void) { is_exit_made = pthread_key_create(&exits, leave_thread) == 0; }

/* A library that was loaded with this in it may be unloaded while threads go on. */
__attribute__((destructor)) static void no_exit(void) {
    if (is_exit_made) pthread_key_delete(exits);
}

/* A seat for the thread: one that nobody has, or a new one. Where there is no memory, that of the
 * pool, whose lock the caller has then. */
static struct seat *arrive(sflight_pool *pool, struct near *at) {
    give_back(at);
    pthread_once(&once, make_exit);
    pthread_mutex_lock(&pool->lock);
    struct seat *seat = pool->seats;
    for (int state = FREE; seat; seat = seat->next, state = FREE) {
        if (atomic_compare_exchange_strong(&seat->state, &state, TAKEN)) break;
    }
    if (!seat && (seat = aligned_alloc(CACHE_LINE, sizeof *seat))) {
        memset(seat, 0, sizeof *seat);
        if (sflight_split(&pool->root.handle, &seat->handle) == SFLIGHT_DONE) {
            atomic_init(&seat->state, TAKEN);
            seat->next = pool->seats;
            pool->seats = seat;
        } else {
            free(seat);
            seat = NULL;
        }
    }
    if (!seat) return &pool->root;
    pthread_mutex_unlock(&pool->lock);
    /* What its last owner leads still ends by another seat, or by this one again: it would count as led here for good. */
    seat->leading = 0;
    *at = (struct near){pool->number, seat};
    if (is_exit_made) pthread_setspecific(exits, sflight_inside_near);
    return seat;
}

/* A handle for one call of the library, which runs no other function of the program. */
static inline struct seat *enter(sflight_pool *pool) {
    struct near *at = &sflight_inside_near[pool->number % NEAR];
    return at->pool == pool->number ? at->seat : arrive(pool, at);
}

static inline void leave(sflight_pool *pool, struct seat *seat) {
    if (seat == &pool->root) pthread_mutex_unlock(&pool->lock);
}

struct seat *sflight_inside_arrive(sflight_pool *pool) {
    struct seat *seat = arrive(pool, &sflight_inside_near[pool->number % NEAR]);
    if (seat != &pool->root) return seat;
    leave(pool, seat);
    return NULL;
}

static struct asking *new_asking(struct seat *seat) {
    struct asking *asking = malloc(sizeof *asking);
    if (!asking) return NULL;
    *asking = (struct asking){SFLIGHT_CALL_NONE, NULL};
    if (sflight_make(&seat->handle, &asking->call) == SFLIGHT_DONE) return asking;
    free(asking);
    return NULL;
}

static struct asking *take_asking(sflight_pool *pool) {
    struct seat *seat = enter(pool);
    struct asking *asking = seat->free;
    if (asking) seat->free = asking->next;
    else asking = new_asking(seat);
    leave(pool, seat);
    return asking;
}

/* A call ends that the thread has led. It may have begun by another seat. */
static void leads_no_more(struct seat *seat) {
    if (seat->leading > 0) seat->leading--;
}

static void put_asking(sflight_pool *pool, struct asking *asking, bool led) {
    struct seat *seat = enter(pool);
    asking->next = seat->free;
    seat->free = asking;
    if (led) leads_no_more(seat);
    leave(pool, seat);
}

static void free_seat(struct seat *seat) {
    for (struct asking *asking = seat->free, *next; asking; asking = next) {
        next = asking->next;
        sflight_free(&asking->call);
        free(asking);
    }
    sflight_close(&seat->handle);
}

/* Growth. */

/* Posts for a table that is about to be made, of at most so many cells. They are there before anybody
 * can lead a call of the table, so that no memory is missing in the middle of a call. */
static bool make_posts(sflight_pool *pool, uint64_t table, uint64_t cells) {
    if (atomic_load(&pool->posts[table])) return true;
    if (cells > SFLIGHT_MOST_CELLS) cells = SFLIGHT_MOST_CELLS;
    /* Pages of it that are never used take no memory. */
    char *made = calloc(cells + 1, sizeof(struct post));
    if (!made) return false;
    pool->made[table] = made;
    pool->room[table] = cells;
    struct post *posts = (struct post *)(made + sizeof *posts - (uintptr_t)made % sizeof *posts);
    atomic_store_explicit(&pool->posts[table], posts, memory_order_release);
    return true;
}

/* Makes room, unless another thread does. A handle gets to know a table that another one has made as it makes room itself. */
static uint32_t grow(sflight_pool *pool) {
    sflight_size size = {0};
    uint32_t code = SFLIGHT_BUSY;
    if (atomic_exchange(&pool->is_growing, true)) return code;
    struct seat *seat = enter(pool);
    sflight_measure(&seat->handle, &size);
    if (size.tables == TABLES) code = SFLIGHT_FULL;
    else if (!make_posts(pool, size.tables, size.cells * WIDER)) code = SFLIGHT_NO_MEMORY;
    else code = sflight_grow(&seat->handle);
    sflight_measure(&seat->handle, &size);
    leave(pool, seat);
    if (size.cells > pool->room[size.tables - 1]) abort();
    if (size.cells > atomic_load(&pool->cells)) atomic_store(&pool->cells, (unsigned)size.cells);
    atomic_store(&pool->is_growing, false);
    return code;
}

/* Posts. */

static struct post *post_of(sflight_pool *pool, const sflight_id *id) {
    return &atomic_load_explicit(&pool->posts[id->table], memory_order_acquire)[id->cell];
}

/* Marks in a post's word, beside the generation that they are of. */
enum {
    LOCKED = 1,  /* somebody settles the call, or gives up */
    AWAITED = 2, /* somebody waits for that */
    SLEPT = 4,   /* somebody waits until the call is told */
    TOLD = 8,
    MARKS = 16
};

enum { FOR_LOCK = 1, FOR_VALUE = 2 };

/* The word of the call: its marks are none where another call of the cell had the word last. */
static uint64_t word_of(uint64_t word, uint64_t generation) {
    return word / MARKS == generation ? word : generation * MARKS;
}

/* Sleeps while the word is this, until the deadline at the latest. Returns whether that has passed. */
static bool sleep_on(struct post *post, uint64_t word, const struct timespec *deadline, unsigned what) {
    /* The lower half of the word: both processors have it first. */
    long code = syscall(SYS_futex, &post->word, FUTEX_WAIT_BITSET | FUTEX_PRIVATE_FLAG, (uint32_t)word, deadline, NULL, what);
    return code != 0 && errno == ETIMEDOUT;
}

static void wake(struct post *post, unsigned what) {
    syscall(SYS_futex, &post->word, FUTEX_WAKE_BITSET | FUTEX_PRIVATE_FLAG, INT_MAX, NULL, NULL, what);
}

/* Takes the lock of the call's post; or returns false, where the call is told. */
static bool lock_post(struct post *post, uint64_t generation) {
    unsigned long long found = atomic_load(&post->word);
    for (;;) {
        uint64_t word = word_of(found, generation);
        if (word & TOLD) return false;
        uint64_t next = word | (word & LOCKED ? AWAITED : LOCKED);
        if (next != found && !atomic_compare_exchange_weak(&post->word, &found, next)) continue;
        if (!(word & LOCKED)) return true;
        sleep_on(post, next, NULL, FOR_LOCK);
        found = atomic_load(&post->word);
    }
}

static void unlock_post(struct post *post) {
    uint64_t word = atomic_fetch_and(&post->word, ~(unsigned long long)(LOCKED | AWAITED));
    if (word & AWAITED) wake(post, FOR_LOCK);
}

/* Waits until the call is told, until the deadline at the latest. Returns false if it is not: then the
 * thread has the lock of the post. */
static bool wait_told(struct post *post, uint64_t generation, const struct timespec *deadline) {
    for (;;) {
        unsigned long long found = atomic_load(&post->word);
        uint64_t next = word_of(found, generation) | SLEPT;
        if (next & TOLD) return true;
        if (next != found && !atomic_compare_exchange_strong(&post->word, &found, next)) continue;
        SFLIGHT_POINT("before sleep");
        if (sleep_on(post, next, deadline, FOR_VALUE)) return !lock_post(post, generation);
    }
}

/* The fields are atomic since the thread that writes them next learns of this through the library. */
static void write_post(struct post *post, const sflight_got *got) {
    atomic_store_explicit(&post->value, got->value, memory_order_relaxed);
    atomic_store_explicit(&post->joiners, got->joiners, memory_order_relaxed);
    atomic_store_explicit(&post->table, got->stamp.table, memory_order_relaxed);
    atomic_store_explicit(&post->slot, got->stamp.slot, memory_order_relaxed);
    atomic_store_explicit(&post->age, got->stamp.age, memory_order_relaxed);
}

static void read_post(struct post *post, sflight_got *got) {
    got->value = atomic_load_explicit(&post->value, memory_order_relaxed);
    got->joiners = (uint32_t)atomic_load_explicit(&post->joiners, memory_order_relaxed);
    got->led = false;
    got->stamp.table = atomic_load_explicit(&post->table, memory_order_relaxed);
    got->stamp.slot = atomic_load_explicit(&post->slot, memory_order_relaxed);
    got->stamp.age = atomic_load_explicit(&post->age, memory_order_relaxed);
}

/* Calls. */

static void note(struct noted *noted, sflight_pool *pool) {
    noted->by = atomic_load_explicit(&pool->recorder, memory_order_acquire);
    if (noted->by) calls_of(noted->by)->begins(noted);
}

/* Takes the lock of the key that a cache's recording has, and returns it; null where there is none. */
static pthread_mutex_t *lock_of(const struct noted *noted, const uint8_t *key, size_t len) {
    pthread_mutex_t *lock = noted->by ? calls_of(noted->by)->lock_of(noted->by, key, len) : NULL;
    if (lock) pthread_mutex_lock(lock);
    return lock;
}

static void leave_call(sflight_pool *pool, struct asking *asking) {
    uint64_t value;
    SFLIGHT_POINT("before leave");
    struct seat *seat = enter(pool);
    sflight_leave(&seat->handle, &asking->call, &value);
    leave(pool, seat);
}

/* Settles the call with what was got, and tells that to whoever joined it. */
static void settle(sflight_pool *pool, struct asking *asking, const sflight_id *id, sflight_got *got, struct noted *noted) {
    struct post *post = post_of(pool, id);
    sflight_audience audience;
    SFLIGHT_POINT("before settle");
    lock_post(post, id->generation);
    struct seat *seat = enter(pool);
    uint32_t code = sflight_settle(&seat->handle, &asking->call, got->value, &audience);
    add(&seat->in_use, (uint64_t)-1);
    leave(pool, seat);
    SFLIGHT_POINT("settled");
    if (code != SFLIGHT_TOLD) return; /* the post may be another call's already */
    /* Each of them has come into the call, and waits until it is told, or finds that it is. */
    got->joiners = (uint32_t)(audience.holders - 1);
    if (audience.forgotten) got->stamp = (sflight_do_stamp){0};
    if (got->joiners > 0) {
        if (pool->share) pool->share(got->value, got->joiners);
        if (noted->by) calls_of(noted->by)->tells(noted, got->joiners);
        write_post(post, got);
        SFLIGHT_POINT("before tell");
        if (atomic_exchange(&post->word, id->generation * MARKS | TOLD) & (SLEPT | AWAITED)) wake(post, FOR_LOCK | FOR_VALUE);
    }
    leave_call(pool, asking);
    /* A Forget that closed the call may have left its part of a record with the recorder. */
    struct recorder *by = audience.forgotten && !noted->by ? atomic_load(&pool->recorder) : NULL;
    if (by) calls_of(by)->told(by, noted, id, true);
    if (noted->by) noted->is_forgotten = audience.forgotten;
}

/* Waits for the value of the call that was joined. Returns false if the deadline has passed before. */
static bool join(sflight_pool *pool, struct asking *asking, const sflight_id *id, const struct timespec *deadline, sflight_got *got,
                 struct noted *noted) {
    struct post *post = post_of(pool, id);
    bool is_told = wait_told(post, id->generation, deadline);
    if (is_told) read_post(post, got);
    /* The asking may have begun before the recording of its call. */
    if (atomic_load(&post->recorded) == id->generation) calls_of(pool->kept)->leaves(noted, post, is_told);
    leave_call(pool, asking);
    if (!is_told) unlock_post(post);
    return is_told;
}

struct timespec sflight_inside_deadline(int64_t timeout) {
    struct timespec at;
    clock_gettime(CLOCK_MONOTONIC, &at);
    int64_t part = at.tv_nsec + (timeout > 0 ? timeout % 1000000000 : 0);
    at.tv_sec += (timeout > 0 ? timeout / 1000000000 : 0) + part / 1000000000;
    at.tv_nsec = part % 1000000000;
    return at;
}

static bool is_over(const struct timespec *deadline) {
    struct timespec now = sflight_inside_deadline(0);
    return now.tv_sec > deadline->tv_sec || (now.tv_sec == deadline->tv_sec && now.tv_nsec >= deadline->tv_nsec);
}

/* Asks until the call leads or has joined: SFLIGHT_LED or SFLIGHT_JOINED; SFLIGHT_PENDING, where the deadline passes first; or
 * SFLIGHT_NO_MEMORY. The lock, if there is one, is that of lock_of. A crowd ends as its call is settled, which takes that lock too. */
static uint32_t ask(sflight_pool *pool, struct asking *asking, const uint8_t *key, size_t len, const struct timespec *deadline, pthread_mutex_t *lock,
                    sflight_id *id, sflight_got *got) {
    for (;;) {
        sflight_stamp stamp;
        bool is_more = false;
        SFLIGHT_POINT("before ask");
        struct seat *seat = enter(pool);
        uint32_t code = sflight_ask(&seat->handle, &asking->call, key, len, TRIES, id, &stamp);
        if (code == SFLIGHT_LED) {
            add(&seat->loads, 1);
            add(&seat->in_use, 1);
            is_more = ++seat->leading > seat->most;
            if (is_more) seat->most = seat->leading;
        }
        if (code == SFLIGHT_JOINED) add(&seat->joins, 1);
        leave(pool, seat);
        SFLIGHT_POINT("asked");
        if (code == SFLIGHT_LED) {
            *got = (sflight_got){.led = true, .stamp = {stamp.table + 1, stamp.slot, stamp.age}};
            /* More lead at one time than ever. The group grows before it is full, so that nobody waits for that. */
            unsigned cells = atomic_load_explicit(&pool->cells, memory_order_relaxed);
            if (is_more && (atomic_fetch_add(&pool->most, 1) + 1) * 2 > cells && cells < SFLIGHT_MOST_CELLS) grow(pool);
            return code;
        }
        if (code == SFLIGHT_FULL) code = grow(pool);
        if (code == SFLIGHT_JOINED || code == SFLIGHT_NO_MEMORY) return code;
        if (code == SFLIGHT_BUSY) {
            sched_yield();
        } else if (code != SFLIGHT_DONE) {
            if (deadline && is_over(deadline)) return SFLIGHT_PENDING;
            if (lock) pthread_mutex_unlock(lock);
            nanosleep(&(struct timespec){0, CROWD}, NULL);
            if (lock) pthread_mutex_lock(lock);
        }
    }
}

uint32_t sflight_inside_ask(sflight_pool *pool, const uint8_t *key, size_t len, const struct timespec *deadline, struct doing *d) {
    note(&d->noted, pool);
    d->is_moved = false;
    d->asking = take_asking(pool);
    if (!d->asking) return SFLIGHT_NO_MEMORY;
    pthread_mutex_t *lock = lock_of(&d->noted, key, len);
    uint32_t code = ask(pool, d->asking, key, len, deadline, lock, &d->id, &d->got);
    if (code == SFLIGHT_LED && d->noted.by) calls_of(d->noted.by)->leads(&d->noted, post_of(pool, &d->id), d->id.generation, key, len);
    if (lock) pthread_mutex_unlock(lock);
    if (code == SFLIGHT_LED) d->stamp = d->got.stamp;
    if (code != SFLIGHT_LED && code != SFLIGHT_JOINED) put_asking(pool, d->asking, false);
    return code;
}

void sflight_inside_move(sflight_pool *pool, struct doing *d) {
    struct seat *seat = enter(pool);
    leads_no_more(seat);
    leave(pool, seat);
    d->is_moved = true;
}

void sflight_inside_settle(sflight_pool *pool, struct doing *d) {
    if (d->noted.by) calls_of(d->noted.by)->settles(&d->noted);
    settle(pool, d->asking, &d->id, &d->got, &d->noted);
    if (d->noted.by) calls_of(d->noted.by)->told(d->noted.by, &d->noted, &d->id, d->noted.is_forgotten);
    put_asking(pool, d->asking, !d->is_moved);
}

bool sflight_inside_wait(sflight_pool *pool, struct doing *d, const struct timespec *deadline) {
    bool is_told = join(pool, d->asking, &d->id, deadline, &d->got, &d->noted);
    put_asking(pool, d->asking, false);
    return is_told;
}

int sflight_do_and_keep(sflight_pool *pool, const uint8_t *key, size_t len, sflight_load *load, sflight_keep *keep, void *context,
                        int64_t timeout, sflight_got *got) {
    struct timespec at, *deadline = NULL;
    struct doing d;
    if (timeout != SFLIGHT_DO_FOREVER) {
        at = sflight_inside_deadline(timeout);
        deadline = &at;
    }
    int code = SFLIGHT_DO_DONE;
    switch (sflight_inside_ask(pool, key, len, deadline, &d)) {
    case SFLIGHT_LED:
        d.got.value = load(context, key, len);
        if (keep) keep(context, key, len, d.got.value, &d.got.stamp);
        sflight_inside_settle(pool, &d);
        break;
    case SFLIGHT_JOINED:
        if (!sflight_inside_wait(pool, &d, deadline)) code = SFLIGHT_DO_TIMED_OUT;
        break;
    case SFLIGHT_PENDING: return SFLIGHT_DO_TIMED_OUT;
    default: return SFLIGHT_DO_NO_MEMORY;
    }
    if (code == SFLIGHT_DO_DONE) *got = d.got;
    return code;
}

int sflight_do(sflight_pool *pool, const uint8_t *key, size_t len, sflight_load *load, void *context, int64_t timeout, sflight_got *got) {
    return sflight_do_and_keep(pool, key, len, load, NULL, context, timeout, got);
}

bool sflight_do_forget(sflight_pool *pool, const uint8_t *key, size_t len) {
    struct noted noted = {0};
    sflight_id id;
    uint32_t code;
    note(&noted, pool);
    pthread_mutex_t *lock = lock_of(&noted, key, len);
    do {
        SFLIGHT_POINT("before forget");
        struct seat *seat = enter(pool);
        code = sflight_forget(&seat->handle, key, len, TRIES, &id);
        if (code != SFLIGHT_BUSY) add(&seat->forgets, 1);
        leave(pool, seat);
        if (code == SFLIGHT_BUSY) sched_yield();
    } while (code == SFLIGHT_BUSY);
    if (lock) {
        calls_of(noted.by)->closes_key(&noted, key, len);
        pthread_mutex_unlock(lock);
    }
    SFLIGHT_POINT("forgotten");
    /* The call may be of a recording that has begun since this began. */
    struct recorder *by = noted.by || code != SFLIGHT_DONE ? noted.by : atomic_load(&pool->recorder);
    if (by) calls_of(by)->forgot(by, &noted, code == SFLIGHT_DONE ? &id : NULL, key, len);
    return code == SFLIGHT_DONE;
}

void sflight_inside_forget_call(sflight_pool *pool, const uint8_t *key, size_t len, const struct doing *d) {
    const sflight_stamp stamp = {d->stamp.table - 1, d->stamp.slot, d->stamp.age};
    uint32_t code;
    do {
        SFLIGHT_POINT("before forget");
        struct seat *seat = enter(pool);
        code = sflight_forget_call(&seat->handle, key, len, &d->id, &stamp, TRIES);
        leave(pool, seat);
        if (code == SFLIGHT_BUSY) sched_yield();
    } while (code == SFLIGHT_BUSY);
}

bool sflight_do_is_still(sflight_pool *pool, const sflight_do_stamp *stamp) {
    if (stamp->table == 0) return false;
    const sflight_stamp at = {stamp->table - 1, stamp->slot, stamp->age};
    struct seat *seat = enter(pool);
    bool is_still = sflight_is_still(&seat->handle, &at);
    leave(pool, seat);
    return is_still;
}

static void count(sflight_stats *stats, struct seat *seat) {
    stats->loads += atomic_load_explicit(&seat->loads, memory_order_relaxed);
    stats->joins += atomic_load_explicit(&seat->joins, memory_order_relaxed);
    stats->forgets += atomic_load_explicit(&seat->forgets, memory_order_relaxed);
    stats->in_use += atomic_load_explicit(&seat->in_use, memory_order_relaxed);
}

sflight_stats sflight_do_statistics(sflight_pool *pool) {
    sflight_stats stats = {0};
    pthread_mutex_lock(&pool->lock);
    count(&stats, &pool->root);
    for (struct seat *seat = pool->seats; seat; seat = seat->next) count(&stats, seat);
    pthread_mutex_unlock(&pool->lock);
    /* A load that ends by another seat meanwhile may have been seen to end alone. */
    if (stats.in_use > INT64_MAX) stats.in_use = 0;
    return stats;
}

sflight_pool *sflight_do_open(uint32_t loads, void (*share)(uint64_t value, uint32_t others)) {
    static atomic_ullong pools;
    uint64_t seeds[2];
    sflight_size size = {0};
    if (loads > SFLIGHT_MOST_CELLS) return NULL;
    sflight_pool *pool = aligned_alloc(CACHE_LINE, sizeof *pool);
    if (!pool) return NULL;
    memset(pool, 0, sizeof *pool);
    pool->number = atomic_fetch_add(&pools, 1) + 1;
    pool->share = share;
    if (getrandom(seeds, sizeof seeds, 0) == sizeof seeds && sflight_open(&pool->root.handle, loads ? loads : FEW_CELLS, seeds[0], seeds[1]) == SFLIGHT_DONE
        && sflight_measure(&pool->root.handle, &size) == SFLIGHT_DONE && make_posts(pool, 0, size.cells)) {
        atomic_init(&pool->cells, (unsigned)size.cells);
        pthread_mutex_init(&pool->lock, NULL);
        return pool;
    }
    sflight_close(&pool->root.handle);
    free(pool->made[0]);
    free(pool);
    return NULL;
}

void sflight_do_close(sflight_pool *pool) {
    if (!pool) return;
    if (pool->kept) calls_of(pool->kept)->closes(pool);
    struct near *at = &sflight_inside_near[pool->number % NEAR];
    if (at->pool == pool->number) give_back(at);
    for (struct seat *seat = pool->seats, *next; seat; seat = next) {
        next = seat->next;
        free_seat(seat);
        /* The memory of one that a thread has yet is freed by that thread. */
        if (atomic_exchange(&seat->state, CLOSED) == FREE) free(seat);
    }
    free_seat(&pool->root);
    for (int i = 0; i < TABLES; i++) free(pool->made[i]);
    pthread_mutex_destroy(&pool->lock);
    free(pool);
}
