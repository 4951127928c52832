/* Declarations that sflight_do.c, sflight_record.c and sflight_cache.c share. They are no part of the interface:
 * programs include sflight_do.h. */
#ifndef SFLIGHT_INSIDE_H
#define SFLIGHT_INSIDE_H

#include "sflight_do.h"
#include <pthread.h>
#include <stdatomic.h>
#include <time.h>

/* So many bytes has a line of the processor's cache: what different threads write lies in different
 * lines. */
enum { CACHE_LINE = 64 };

struct recorder;
struct record;

/* The part of an asking, or of a Forget, in a recording. Where `by` is null it is not recorded, and the
 * other fields say nothing. */
struct noted {
    struct recorder *by;
    uint64_t recording, from;
    struct record *record; /* of the call that the asking leads; in a cache also of the value that a get holds */
    bool is_forgotten;     /* whether a Forget had closed that */
    bool is_late;          /* in a cache: whether nobody knows when the get began */
};

/* A call's place, by its table and cell: whoever leads or holds the call reads and writes it, and
 * nobody else. The cell's next call has another generation. */
struct post {
    _Alignas(CACHE_LINE) atomic_ullong word; /* the generation and marks; sleepers wait for its lower half */
    atomic_ullong value, joiners, table, slot, age; /* what was got, once the call is told */
    atomic_ullong recorded;         /* the generation of the call that the next one is of */
    _Atomic(struct record *) record;
};

/* The functions by which a recording follows a call. They stand in sflight_record.c, and are reached
 * through the pool's recorder, so that a program that records nothing does without them. */
struct recording {
    /* An asking or a Forget begins. */
    void (*begins)(struct noted *noted);
    /* The asking leads, and is about to load. */
    void (*leads)(struct noted *noted, struct post *post, uint64_t generation, const uint8_t *key,
                  size_t len);
    /* The asking is about to settle its call. */
    void (*settles)(struct noted *noted);
    /* The asking has settled its call, which so many others hold; nobody has been told yet. */
    void (*tells)(struct noted *noted, uint64_t others);
    /* The asking has told the holders of its call. Where a Forget had closed the call, the event of that
     * Forget comes, or came. */
    void (*told)(struct recorder *by, struct noted *noted, const sflight_id *id, bool is_forgotten);
    /* The asking, which holds the post's call, has its value or gives up. */
    void (*leaves)(struct noted *noted, struct post *post, bool is_told);
    /* A Forget has ended. `by` is not null, and `id` is where it closed no call. */
    void (*forgot)(struct recorder *by, const struct noted *noted, const sflight_id *id,
                   const uint8_t *key, size_t len);
    /* The pool is being closed. */
    void (*closes)(sflight_pool *pool);
    /* The pool's cache is being closed: its recording ends, and its entries keep their records. */
    void (*stops)(sflight_pool *pool);

    /* The rest is for caches. */

    /* The lock that askings and Forgets of the key have around the call of the library. Null in a pool that is no
     * cache's. */
    pthread_mutex_t *(*lock_of)(struct recorder *by, const uint8_t *key, size_t len);
    /* A Forget has closed what the key has. With that lock. */
    void (*closes_key)(const struct noted *noted, const uint8_t *key, size_t len);
    /* A get begins. */
    void (*watches)(struct noted *noted);
    /* The call's load function is about to be called, or its value is to be put. The clock is that of the tags. */
    void (*runs)(const struct noted *noted, uint64_t clock);
    /* An entry is made of what the call has loaded, with tags at these places; is_any: each ForgetTag ends it. Returns the
     * entry's record, or null. */
    struct record *(*attaches)(const struct noted *noted, const uint32_t *places, unsigned count, bool is_any);
    /* The record's entry is about to be in the cache. */
    void (*keeps)(struct record *record);
    /* The record's entry has left the cache. Where a Forget took it out, that began at `from`, or else it is 0. */
    void (*loses)(struct record *record, bool makes_room, uint64_t from);
    /* The record's entry is freed. */
    void (*drops)(struct record *record);
    /* A get has found the record's entry, and holds the record from now on if it is of its recording. Returns false
     * where the entry has left. */
    bool (*holds)(struct noted *noted, struct record *record);
    /* The get lets go of the record that it holds, if it holds one, and has what that is of or not. */
    void (*enters)(struct noted *noted, bool has);
    /* The call that is led is to be settled with what another has loaded, whose entry is in the cache. */
    void (*returns)(const struct noted *noted, struct record *other, bool is_get);
    /* A tag was forgotten. */
    void (*forgot_tag)(const struct noted *noted, uint32_t place, uint64_t number);
};

/* At the head of every cache. */
struct cache_head {
    sflight_pool *pool;
    uint64_t expected; /* about how many entries */
};

/* How many values of a cache a thread has in use without a count of its own for each. */
enum { HOLDS = 8 };

struct sflight_entry;

/* A place for one of them (sflight_cache.c). The seat's owner takes it, and any thread may free it. */
struct hold {
    atomic_uintptr_t entry;               /* what is in use there; 0: nothing */
    _Atomic(struct sflight_entry *) owed; /* entries that have left the cache, and wait until it is free */
};

/* A thread's share of a pool. Its owner is the thread whose `sflight_inside_near` has it, or nobody:
 * then any thread can take it. */
struct seat {
    _Alignas(CACHE_LINE) sflight_handle handle;
    struct asking *free;
    struct seat *next; /* of all seats of the pool */
    atomic_int state;
    int leading, most; /* calls that the owner leads, and the most at one time */
    /* Written by the owner alone, and read by any thread. The sum over all seats says how many there
     * are: a load may begin by one and end by another. */
    atomic_ullong loads, joins, forgets, in_use, hits, misses;
    /* What the owner holds of the pool's cache. */
    _Alignas(CACHE_LINE) struct hold holds[HOLDS];
};

/* A thread keeps seats of so many pools. */
enum { NEAR = 8 };

struct near {
    uint64_t pool; /* its number, from 1 on */
    struct seat *seat;
};

extern _Thread_local struct near sflight_inside_near[NEAR];

struct asking {
    sflight_call call;
    struct asking *next;
};

enum { TABLES = SFLIGHT_MOST_TABLES };

struct sflight_pool {
    uint64_t number; /* no other pool of the process ever has it */
    void (*share)(uint64_t value, uint32_t others);
    _Atomic(struct recorder *) recorder; /* while it is recorded */
    _Atomic(struct post *) posts[TABLES];
    void *made[TABLES];       /* the memory of the posts */
    uint64_t room[TABLES];    /* how many posts; by the thread that has set is_growing */
    atomic_uint cells;        /* of the last table */
    atomic_uint most;         /* the sum of what the seats have led at one time */
    atomic_bool is_growing;
    pthread_mutex_t lock; /* protects the rest */
    struct seat root;     /* used with the lock, where there is no memory for a seat */
    _Atomic(struct seat *) seats; /* written with the lock; none is taken out before the end */
    bool is_recorded; /* from sflight_do_record until sflight_do_stop has returned */
    bool is_changing; /* whether one of the two is running */
    struct recorder *kept; /* of every recording, since a call may outlive its own */
};

/* At the head of every recorder. */
struct recorder_head {
    const struct recording *calls;
};

static inline void add(atomic_ullong *to, uint64_t more) {
    atomic_store_explicit(to, atomic_load_explicit(to, memory_order_relaxed) + more, memory_order_relaxed);
}

/* One call of sflight_do_and_keep in its parts, for a cache that asks for several keys before it waits
 * for any, and whose loads go on in other threads. */
struct doing {
    struct asking *asking;
    sflight_id id;
    sflight_got got; /* of a call that is led: its value is what it will be settled with */
    sflight_do_stamp stamp; /* of a call that is led: other threads read it while the call is settled */
    struct noted noted;
    bool is_moved;
};

/* Asks for the key. Returns SFLIGHT_LED: sflight_inside_settle ends it, in any thread. SFLIGHT_JOINED:
 * sflight_inside_wait ends it, in this thread. SFLIGHT_PENDING, where the deadline has passed before, or
 * SFLIGHT_NO_MEMORY: it has ended. The deadline may be null. */
uint32_t sflight_inside_ask(sflight_pool *pool, const uint8_t *key, size_t len,
                            const struct timespec *deadline, struct doing *doing);

/* Another thread is about to go on with the call that this one leads. */
void sflight_inside_move(sflight_pool *pool, struct doing *doing);

/* Settles the call that is led. */
void sflight_inside_settle(sflight_pool *pool, struct doing *doing);

/* Waits for the call that was joined. Returns false where the deadline passes first. */
bool sflight_inside_wait(sflight_pool *pool, struct doing *doing, const struct timespec *deadline);

/* Forgets that call of the key alone, and what it was settled with. */
void sflight_inside_forget_call(sflight_pool *pool, const uint8_t *key, size_t len,
                                const struct doing *doing);

/* Returns the deadline of a call that begins now. */
struct timespec sflight_inside_deadline(int64_t timeout);

/* A seat for the thread where it has none, or null where there is no memory. */
struct seat *sflight_inside_arrive(sflight_pool *pool);

static inline struct seat *seat_of(sflight_pool *pool) {
    struct near *at = &sflight_inside_near[pool->number % NEAR];
    return at->pool == pool->number ? at->seat : sflight_inside_arrive(pool);
}

static inline const struct recording *calls_of(const struct recorder *by) {
    return ((const struct recorder_head *)by)->calls;
}

#endif
