/* A cache that any number of threads use at once, and waits that block, for C and C++: pcache_parts.c, which is compiled with the
 * program, over the library of pcache_c.h and POSIX threads. It is tested, and not proved; what is proved is the cache of each part.
 *
 * It is several caches, the parts, each behind a lock of its own; a key is in the part that its hash says. A request is a number in
 * its part, which any thread may use. Every call of pcache_c.h on a cache or a request is made in the part, as this one:
 *
 *   pcache_handle *cache = pcache_parts_enter(parts, request.part);
 *   code = pcache_request_write(cache, request.number, bytes, bytes_len, 0);
 *   pcache_parts_leave(parts, request.part, 1);
 *
 * Codes are those of pcache_c.h. PCACHE_NO_MEMORY is also that of a mutex or a condition variable which the system did not give.
 *
 * Nothing tells these mistakes: a null pointer where none is said to be taken; a part that no call gave; a number in another part than
 * its own; to enter a part while in one, or to leave one that was not entered; to wait, read, view, open, close or count while in one;
 * to end the parts while another thread is in a call; to cancel a thread in a call (pthread_cancel).
 *
 *   gcc program.c -I build/c build/c/pcache_parts.c build/c/libpcache_c.a build/c/libpcache_heap.a -pthread */
#ifndef PCACHE_PARTS_H
#define PCACHE_PARTS_H

#include "pcache_c.h"

#ifdef __cplusplus
extern "C" {
#endif

typedef struct pcache_parts pcache_parts;

/* What parts are made with. All that is not set is zero. */
typedef struct pcache_parts_options {
    size_t parts;                /* two threads wait for each other only in the same one; 0 is 16 */
    uint32_t policy;             /* this and the next are those of pcache_cache_new_with */
    uint32_t bounded;
    size_t limit;                /* each part has an even share, and stores nothing that weighs more */
    size_t watermark;            /* likewise; 0 is none */
    uint64_t age_timeout_millis; /* 0 is ten seconds */
    uint64_t nap_millis;         /* the longest sleep before a wait asks by itself; 0 is 100 */
    const uint8_t *seed;         /* 16 bytes that were drawn at random; NULL has the system draw them */
    /* Called with `given` after each wake of a part, by the thread that wakes, which is in no part; NULL for nothing. So what cannot
     * sleep here can be told, as an event loop by an eventfd or a pipe. */
    void (*woken)(void *given, size_t part);
    void *given;
} pcache_parts_options;

typedef struct pcache_parts_request {
    size_t part;
    uint64_t number;
} pcache_parts_request;

/* After each code but PCACHE_OK `*parts` is NULL. PCACHE_BAD_VALUE for a policy that is none, and a watermark below the number of parts;
 * PCACHE_IO if the system drew no seed; PCACHE_NO_MEMORY. */
uint32_t pcache_parts_new(pcache_parts **parts, const pcache_parts_options *options);
/* Ends all caches, and with them their open requests. NULL is nothing. */
void pcache_parts_end(pcache_parts *parts);

/* The part that a key is in. */
size_t pcache_parts_place(const pcache_parts *parts, const uint8_t *key, size_t key_len);
/* Waits for the part's lock, and returns the cache: it is this thread's until it leaves. */
pcache_handle *pcache_parts_enter(pcache_parts *parts, size_t part);
/* With `wakes` not 0, whoever sleeps in this part asks again: to be said after begin, write, finish, release, hand_permit, publish,
 * disable, renew, serve_on and end, and after look or take by a request that holds the permit. A wake too many costs time; one that is
 * left out leaves a sleeper asleep until the next one, or for `nap_millis`. */
void pcache_parts_leave(pcache_parts *parts, size_t part, int wakes);

/* pcache_request_new and pcache_request_end in the key's part; the latter wakes. */
uint32_t pcache_parts_open(pcache_parts *parts, const uint8_t *key, size_t key_len, const uint8_t *tag, size_t tag_len,
                           pcache_parts_request *request);
uint32_t pcache_parts_close(pcache_parts *parts, pcache_parts_request request);

/* Deadlines are milliseconds of CLOCK_MONOTONIC. This one is so many from now: take it once, and hand it to each wait of what has to be
 * done by then. One of 0 has passed, and so asks once; UINT64_MAX never does. */
uint64_t pcache_parts_deadline(uint64_t most_millis);
/* The moment by CLOCK_REALTIME. A wait asks at such moments, so look-ups are to be made at those too. */
pcache_moment pcache_parts_now(void);

/* These sleep until there is an answer or the deadline has passed, and hand over what was said last: `outcome` is PCACHE_WAITS then, and
 * `more` is 2. If another thread ends the request meanwhile, they return PCACHE_BAD_HANDLE. */
uint32_t pcache_parts_wait(pcache_parts *parts, pcache_parts_request request, uint64_t deadline, uint32_t *outcome);
uint32_t pcache_parts_read(pcache_parts *parts, pcache_parts_request request, uint64_t deadline, uint8_t *out, size_t out_room,
                           size_t *len, uint32_t *more);
uint32_t pcache_parts_view(pcache_parts *parts, pcache_parts_request request, uint64_t deadline, pcache_handle *view,
                           const uint8_t **at, size_t *len, uint32_t *more);
/* What these are made of, for other questions: in a part, lets others in and sleeps until a wake, for `nap_millis` at most, and is in
 * the part again. Returns 0, without sleep, if the deadline has passed. */
int pcache_parts_sleep(pcache_parts *parts, size_t part, uint64_t deadline);

/* Sums over the parts, which are asked one after the other: calls that are made meanwhile may be in some of the sums. */
uint32_t pcache_parts_totals(pcache_parts *parts, pcache_cache_counts *out);
uint32_t pcache_parts_counted(pcache_parts *parts, pcache_counted *out);

#ifdef __cplusplus
}
#endif

#endif
