/* Singleflight with Forget, by keys: which caller leads the load of a key, which ones join it, what a
 * Forget ends, and what is current.
 *
 * The library decides these, and that is proved. No function here blocks, takes a lock or starts a
 * thread: a program runs the load, keeps the value, and puts to sleep and wakes the callers that
 * joined. sflight_do.h does that for programs with threads.
 *
 *     sflight_handle me = SFLIGHT_HANDLE_NONE;
 *     sflight_call call = SFLIGHT_CALL_NONE;
 *     sflight_open(&me, 64, seed0, seed1);        // once; each further thread: sflight_split
 *     sflight_make(&me, &call);
 *     switch (sflight_ask(&me, &call, key, len, 64, &id, &stamp)) {
 *     case SFLIGHT_LED:
 *         value = load(key);
 *         if (sflight_settle(&me, &call, value, &audience) == SFLIGHT_TOLD) {
 *             // wake the callers that sleep for id
 *             sflight_leave(&me, &call, &last);
 *         }
 *         break;
 *     case SFLIGHT_JOINED:
 *         // sleep until woken for id
 *         sflight_look(&me, &call, &value);
 *         sflight_leave(&me, &call, &last);
 *     }
 *
 * One thread at a time uses a handle, and one a call; any thread may. A call may be asked with one
 * handle of its group, and settled, looked at or left with another. Each function refuses wrong use
 * with a code and changes nothing then.
 *
 * Your duties, which the library cannot check:
 * - A handle or a call is all zeros, or as the last function left it. It is never used after it was
 *   copied elsewhere.
 * - `key` has `len` bytes (it may be null where len is 0). Outputs are yours to write, and overlap
 *   nothing else.
 * - No function is called from a signal handler, or from the forked child of a process with threads.
 * - malloc, realloc and free come from one allocator, and align blocks as the C standard asks.
 *
 * The library is for Linux on x86-64 and arm64. On x86-64 it needs a processor of the level
 * x86-64-v2 (SSE4.2 and POPCNT): sflight_open returns SFLIGHT_OLD_PROCESSOR on an older one. It needs
 * no executable stack. It has no landing pads for indirect branches (IBT, BTI), so a program that
 * links it statically runs without that. */
#ifndef SFLIGHT_H
#define SFLIGHT_H

#include <stdbool.h>
#include <stddef.h>
#include <stdint.h>

/* The version of this header. The number is for comparisons: 10,000 per major version, and 100 per
 * minor version. */
#define SFLIGHT_VERSION_MAJOR 0
#define SFLIGHT_VERSION_MINOR 2
#define SFLIGHT_VERSION_PATCH 0
#define SFLIGHT_VERSION_NUMBER \
    (SFLIGHT_VERSION_MAJOR * 10000 + SFLIGHT_VERSION_MINOR * 100 + SFLIGHT_VERSION_PATCH)
#define SFLIGHT_VERSION "0.2.0"

/* A program opens a group by this name, which the libraries of another minor version lack: they do
 * not link. By the name without a version, for programs that look names up as they run, sflight_open
 * is in every library. SFLIGHT_ANY_VERSION, defined before this header, lets it be that one here. */
#ifndef SFLIGHT_ANY_VERSION
#define sflight_open sflight_open_of_version_0_2
#endif

#ifdef __cplusplus
extern "C" {
#endif

#if defined(__GNUC__)
#define SFLIGHT_MUST_USE __attribute__((warn_unused_result))
#else
#define SFLIGHT_MUST_USE
#endif

/* Stands in the types of functions that the headers over this one call. From C++17 on, one that may
 * throw an exception does not fit them. */
#if defined(__cplusplus) && __cplusplus >= 201703L
#define SFLIGHT_NOEXCEPT noexcept
#else
#define SFLIGHT_NOEXCEPT
#endif

/* What a thread needs to call: about 700 bytes on the heap. All zeros is one that is not open. */
typedef struct sflight_handle {
    void *at;
    bool live;
} sflight_handle;

/* One asking at a time: idle, leading, or holding. 64 bytes on the heap, which askings one after
 * another use. All zeros is one that is not open. */
typedef struct sflight_call {
    void *at;
    bool live;
} sflight_call;

/* A handle and a call that are not open, for initialisers and assignments. */
#ifdef __cplusplus
#define SFLIGHT_HANDLE_NONE sflight_handle()
#define SFLIGHT_CALL_NONE sflight_call()
#else
#define SFLIGHT_HANDLE_NONE ((sflight_handle){0})
#define SFLIGHT_CALL_NONE ((sflight_call){0})
#endif

/* Which call of the group: no two calls have one name, ever. While a call is open, or held, no other
 * call has its table and cell. */
typedef struct sflight_id {
    uint32_t table;      /* from 0; below SFLIGHT_MOST_TABLES */
    uint32_t cell;       /* from 0; below the table's cells, at most SFLIGHT_MOST_CELLS */
    uint64_t generation; /* from 1 */
} sflight_id;

/* Says of a value whether a Forget of its key has ended it: plain bytes, to be kept with the value. */
typedef struct sflight_stamp {
    uint64_t table;
    uint64_t slot;
    uint64_t age;
} sflight_stamp;

/* Who is told of a Settle. */
typedef struct sflight_audience {
    uint64_t holders; /* how many hold the call: its leader, and all that joined and have not left */
    bool joined;      /* whether somebody joined it, also one that has left since */
    bool forgotten;   /* whether a Forget had closed it: its value has no stamp then */
} sflight_audience;

/* How large a group is. */
typedef struct sflight_size {
    uint64_t tables; /* how many it has, as far as the handle knows */
    uint64_t passed; /* how many of the first are not looked at any more */
    uint64_t cells;  /* how many calls can be open at a time in the last */
} sflight_size;

/* How a function ended. */
enum sflight_code {
    SFLIGHT_DONE = 0,          /* it is done */
    SFLIGHT_LED = 1,           /* the call leads the key's new call */
    SFLIGHT_JOINED = 2,        /* the call has joined the key's open one */
    SFLIGHT_ALONE = 3,         /* settled; nobody had joined it, and no Forget had closed it: it is idle */
    SFLIGHT_TOLD = 4,          /* settled: whoever holds it is told */
    SFLIGHT_LAST = 5,          /* left, by the last that held it */
    SFLIGHT_PENDING = 6,       /* not settled yet */
    SFLIGHT_NOTHING = 7,       /* there was nothing to forget */
    SFLIGHT_CLEARED = 8,       /* the call was settled: its value's stamp is ended */
    SFLIGHT_FULL = 9,          /* there is no room for a new call: sflight_grow makes some */
    SFLIGHT_CROWDED = 10,      /* the key's call is held as often as can be counted */
    SFLIGHT_BUSY = 11,         /* in each try another thread changed a word in between: try again */
    SFLIGHT_WRONG_STATE = 12,  /* not in a state for this, or of two groups */
    SFLIGHT_NOT_OPEN = 13,     /* a handle or a call is not open */
    SFLIGHT_BAD_NUMBER = 14,   /* a number is out of its range */
    SFLIGHT_NO_MEMORY = 15,    /* there is no memory; nothing was changed */
    SFLIGHT_OLD_PROCESSOR = 16 /* the processor is below x86-64-v2 */
};

/* Limits of a group. */
#define SFLIGHT_MOST_TABLES 24u
#define SFLIGHT_MOST_CELLS 1048576u   /* open calls per table */
#define SFLIGHT_MOST_HOLDERS 1048575u /* of one call */

/* Returns a sentence that says what the code means, for logs. */
static inline const char *sflight_strerror(uint32_t code)
{
    switch (code) {
    case SFLIGHT_DONE: return "done";
    case SFLIGHT_LED: return "the call leads the key's new call";
    case SFLIGHT_JOINED: return "the call has joined the key's open one";
    case SFLIGHT_ALONE: return "settled, and told to nobody";
    case SFLIGHT_TOLD: return "settled, and told to whoever holds the call";
    case SFLIGHT_LAST: return "left, by the last that held the call";
    case SFLIGHT_PENDING: return "the call is not settled yet";
    case SFLIGHT_NOTHING: return "there was nothing to forget";
    case SFLIGHT_CLEARED: return "the call was settled, and its stamp is ended";
    case SFLIGHT_FULL: return "there is no room for a new call";
    case SFLIGHT_CROWDED: return "the key's call is held as often as can be counted";
    case SFLIGHT_BUSY: return "another thread changed a word in each try";
    case SFLIGHT_WRONG_STATE: return "a handle or a call is not in a state for this function";
    case SFLIGHT_NOT_OPEN: return "a handle or a call is not open";
    case SFLIGHT_BAD_NUMBER: return "a number is out of range";
    case SFLIGHT_NO_MEMORY: return "out of memory";
    case SFLIGHT_OLD_PROCESSOR: return "the processor is below x86-64-v2";
    default: return "not a code of this library";
    }
}

/* Each function that returns a uint32_t returns one of these codes. Its comment names those that it
 * can return. Where a function is refused, it has changed nothing and written nothing. */

/* Opens a group with room for 1 to SFLIGHT_MOST_CELLS open calls, and its first handle. Draw the
 * seeds at random (getrandom) and keep them secret. Returns SFLIGHT_DONE; SFLIGHT_BAD_NUMBER;
 * SFLIGHT_WRONG_STATE where the handle is open; SFLIGHT_NO_MEMORY; SFLIGHT_OLD_PROCESSOR. */
SFLIGHT_MUST_USE
uint32_t sflight_open(sflight_handle *handle, uint64_t cells, uint64_t seed0, uint64_t seed1);

/* Makes another handle of the group, for another thread. Returns SFLIGHT_DONE; SFLIGHT_NOT_OPEN;
 * SFLIGHT_WRONG_STATE where the other is open; SFLIGHT_NO_MEMORY. */
SFLIGHT_MUST_USE
uint32_t sflight_split(sflight_handle *handle, sflight_handle *other);

/* Closes the handle, and does nothing to one that is not open. The group ends with its last handle
 * and its last call. */
void sflight_close(sflight_handle *handle);

/* Makes a call of the group, which is idle. Returns SFLIGHT_DONE; SFLIGHT_NOT_OPEN;
 * SFLIGHT_WRONG_STATE where the call is open; SFLIGHT_NO_MEMORY. */
SFLIGHT_MUST_USE
uint32_t sflight_make(sflight_handle *handle, sflight_call *call);

/* Frees an idle call. Returns SFLIGHT_DONE; SFLIGHT_NOT_OPEN; SFLIGHT_WRONG_STATE where it leads or
 * holds. */
uint32_t sflight_free(sflight_call *call);

/* Asks for the key with an idle call. It tries so often where other threads are quicker. Returns
 * SFLIGHT_LED: *id and *stamp are written, and the program loads and calls sflight_settle.
 * SFLIGHT_JOINED: *id is written, and the call is held until sflight_leave. Else nothing is written,
 * and the call is idle still: SFLIGHT_FULL, SFLIGHT_CROWDED, SFLIGHT_BUSY, SFLIGHT_WRONG_STATE,
 * SFLIGHT_NOT_OPEN. */
SFLIGHT_MUST_USE
uint32_t sflight_ask(sflight_handle *handle, sflight_call *call, const uint8_t *key, size_t len,
                     uint32_t tries, sflight_id *id, sflight_stamp *stamp);

/* Settles the call that is led, for good. It cannot fail. Returns SFLIGHT_ALONE: the call is idle,
 * and nobody was told the value. SFLIGHT_TOLD: *audience is written, and the call is held until
 * sflight_leave. SFLIGHT_WRONG_STATE; SFLIGHT_NOT_OPEN. */
SFLIGHT_MUST_USE
uint32_t sflight_settle(sflight_handle *handle, sflight_call *call, uint64_t value,
                        sflight_audience *audience);

/* Looks whether the call that is held is settled. Returns SFLIGHT_DONE: what it was settled with is
 * written, and the call is held still. SFLIGHT_PENDING; SFLIGHT_WRONG_STATE; SFLIGHT_NOT_OPEN. */
SFLIGHT_MUST_USE
uint32_t sflight_look(sflight_handle *handle, sflight_call *call, uint64_t *value);

/* Leaves the call that is held, settled or not: it is idle. Returns SFLIGHT_LAST: it was settled, and
 * this was the last to hold it; what it was settled with is written, and no other holder is told so.
 * SFLIGHT_DONE; SFLIGHT_WRONG_STATE; SFLIGHT_NOT_OPEN. */
uint32_t sflight_leave(sflight_handle *handle, sflight_call *call, uint64_t *value);

/* Forgets the key: a caller that asks after it has returned is in a new call. Returns SFLIGHT_DONE:
 * it has closed the key's open call, whose id is written. SFLIGHT_NOTHING: the key had none. What was
 * stamped before is ended in both cases. SFLIGHT_BUSY; SFLIGHT_NOT_OPEN. */
SFLIGHT_MUST_USE
uint32_t sflight_forget(sflight_handle *handle, const uint8_t *key, size_t len, uint32_t tries,
                        sflight_id *id);

/* Forgets one call of the key, and what it was settled with, and leaves a newer call as it is.
 * Returns SFLIGHT_DONE: it was open, and is closed. SFLIGHT_CLEARED: it was not, and its stamp is
 * ended. SFLIGHT_BUSY; SFLIGHT_NOT_OPEN. */
SFLIGHT_MUST_USE
uint32_t sflight_forget_call(sflight_handle *handle, const uint8_t *key, size_t len,
                             const sflight_id *id, const sflight_stamp *stamp, uint32_t tries);

/* Returns whether no Forget has ended what has the stamp. False for a handle that is not open. */
SFLIGHT_MUST_USE
bool sflight_is_still(sflight_handle *handle, const sflight_stamp *stamp);

/* Makes room for more open calls: a table of eight times as many cells as the last one that the handle
 * knows, and at most SFLIGHT_MOST_CELLS; or the handle gets to know the one that another thread has
 * made. Nobody waits for it. Returns SFLIGHT_DONE; SFLIGHT_FULL where the group is the largest there
 * is; SFLIGHT_NO_MEMORY; SFLIGHT_NOT_OPEN. */
SFLIGHT_MUST_USE
uint32_t sflight_grow(sflight_handle *handle);

/* Writes how large the group is. Returns SFLIGHT_DONE; SFLIGHT_NOT_OPEN. */
uint32_t sflight_measure(sflight_handle *handle, sflight_size *size);

#ifdef __cplusplus
}
#endif

#endif
