/* What pcache_parts.h declares. In C99 over POSIX.1-2008; a C++ compiler reads it too. */
#ifndef _POSIX_C_SOURCE
#define _POSIX_C_SOURCE 200809L
#endif
#include "pcache_parts.h"

#include <fcntl.h>
#include <pthread.h>
#include <stdlib.h>
#include <string.h>
#include <time.h>
#include <unistd.h>

/* What stands for a 0 in the options. A sleep needs an end: a permit grows too old, and a request's time to wait runs out, without a
 * call that could wake anyone. */
enum { PARTS = 16, AGE_MILLIS = 10000, NAP_MILLIS = 100 };
enum { LINE = 128 };

typedef struct locked {
    pthread_mutex_t mutex;
    pthread_cond_t changed; /* goes by CLOCK_MONOTONIC, so that no deadline moves when the clock is set */
    pcache_handle cache;
} locked;

/* Processors fetch lines of memory in pairs. Each part has pairs of its own, so that threads in different parts share none. */
typedef union padded {
    locked it;
    char lines[(sizeof(locked) + LINE - 1) / LINE * LINE];
} padded;

struct pcache_parts {
    size_t count;
    padded *all;
    uint64_t nap;
    void (*woken)(void *given, size_t part);
    void *given;
};

/* ---- making and ending ---- */

static uint32_t draw(uint8_t *seed) {
    int from = open("/dev/urandom", O_RDONLY | O_CLOEXEC);
    ssize_t len = from < 0 ? -1 : read(from, seed, 16);
    if (from >= 0) close(from);
    return len == 16 ? PCACHE_OK : PCACHE_IO;
}

/* How much of a whole the part at `place` has. */
static size_t share(size_t whole, size_t parts, size_t place) { return whole / parts + (place < whole % parts); }

static int condition_init(pthread_cond_t *made) {
    pthread_condattr_t how;
    int failed = pthread_condattr_init(&how);
    if (failed) return failed;
    failed = pthread_condattr_setclock(&how, CLOCK_MONOTONIC);
    if (!failed) failed = pthread_cond_init(made, &how);
    pthread_condattr_destroy(&how);
    return failed;
}

static void locked_end(locked *at) {
    pcache_end(&at->cache);
    pthread_cond_destroy(&at->changed);
    pthread_mutex_destroy(&at->mutex);
}

/* The part at `place` of `parts`. After another code than PCACHE_OK there is nothing to end. */
static uint32_t locked_new(locked *at, const pcache_parts_options *options, const uint8_t *seed, size_t parts, size_t place) {
    uint64_t age = options->age_timeout_millis;
    uint32_t code;
    if (age == 0) age = AGE_MILLIS;
    if (pthread_mutex_init(&at->mutex, NULL)) return PCACHE_NO_MEMORY;
    if (condition_init(&at->changed)) {
        pthread_mutex_destroy(&at->mutex);
        return PCACHE_NO_MEMORY;
    }
    memset(&at->cache, 0, sizeof at->cache);
    code = pcache_cache_new_with(&at->cache, seed, 16, options->policy, options->bounded, share(options->limit, parts, place),
                                 share(options->watermark, parts, place), age);
    if (code != PCACHE_OK) locked_end(at);
    return code;
}

/* Parts that are none yet, with room for so many. */
static pcache_parts *room_for(size_t count) {
    pcache_parts *made = (pcache_parts *)calloc(1, sizeof *made);
    void *all = NULL;
    if (made == NULL) return NULL;
    if (count > SIZE_MAX / sizeof(padded) || posix_memalign(&all, LINE, count * sizeof(padded))) {
        free(made);
        return NULL;
    }
    made->all = (padded *)all;
    return made;
}

uint32_t pcache_parts_new(pcache_parts **parts, const pcache_parts_options *options) {
    size_t count = options->parts;
    uint8_t seed[16];
    uint32_t code = PCACHE_OK;
    pcache_parts *made;
    *parts = NULL;
    if (count == 0) count = PARTS;
    /* A part with a share of 0 would have no watermark. */
    if (options->watermark > 0 && options->watermark < count) return PCACHE_BAD_VALUE;
    if (options->seed)
        memcpy(seed, options->seed, sizeof seed);
    else
        code = draw(seed);
    if (code != PCACHE_OK) return code;
    made = room_for(count);
    if (made == NULL) return PCACHE_NO_MEMORY;
    made->nap = options->nap_millis;
    if (made->nap == 0) made->nap = NAP_MILLIS;
    made->woken = options->woken;
    made->given = options->given;
    while (code == PCACHE_OK && made->count < count) {
        code = locked_new(&made->all[made->count].it, options, seed, count, made->count);
        if (code == PCACHE_OK) made->count++;
    }
    if (code == PCACHE_OK)
        *parts = made;
    else
        pcache_parts_end(made);
    return code;
}

void pcache_parts_end(pcache_parts *parts) {
    if (parts == NULL) return;
    for (size_t i = 0; i < parts->count; i++) locked_end(&parts->all[i].it);
    free(parts->all);
    free(parts);
}

/* ---- in a part ---- */

size_t pcache_parts_place(const pcache_parts *parts, const uint8_t *key, size_t key_len) {
    uint8_t hash[16];
    uint64_t number = 0;
    if (parts->count == 1) return 0;
    pcache_hash_key(key, key_len, hash, sizeof hash); /* refuses another length of a hash, and nothing else */
    for (int i = 0; i < 8; i++) number |= (uint64_t)hash[i] << 8 * i;
    return (size_t)(number % parts->count);
}

/* A mutex of the default kind refuses only mistakes, those that the header names; so does a condition variable below. */
pcache_handle *pcache_parts_enter(pcache_parts *parts, size_t part) {
    locked *at = &parts->all[part].it;
    pthread_mutex_lock(&at->mutex);
    return &at->cache;
}

void pcache_parts_leave(pcache_parts *parts, size_t part, int wakes) {
    locked *at = &parts->all[part].it;
    if (wakes) pthread_cond_broadcast(&at->changed);
    pthread_mutex_unlock(&at->mutex);
    if (wakes && parts->woken) parts->woken(parts->given, part);
}

uint32_t pcache_parts_open(pcache_parts *parts, const uint8_t *key, size_t key_len, const uint8_t *tag, size_t tag_len,
                           pcache_parts_request *request) {
    uint32_t code;
    request->part = pcache_parts_place(parts, key, key_len);
    code = pcache_request_new(pcache_parts_enter(parts, request->part), key, key_len, tag, tag_len, &request->number);
    pcache_parts_leave(parts, request->part, 0);
    return code;
}

uint32_t pcache_parts_close(pcache_parts *parts, pcache_parts_request request) {
    uint32_t code = pcache_request_end(pcache_parts_enter(parts, request.part), request.number);
    pcache_parts_leave(parts, request.part, 1);
    return code;
}

/* ---- waits ---- */

static uint64_t millis_now(void) {
    struct timespec now;
    clock_gettime(CLOCK_MONOTONIC, &now);
    return (uint64_t)now.tv_sec * 1000 + (uint64_t)now.tv_nsec / 1000000;
}

uint64_t pcache_parts_deadline(uint64_t most_millis) {
    uint64_t next = millis_now() + 1; /* the millisecond that has begun does not count */
    return most_millis > UINT64_MAX - next ? UINT64_MAX : next + most_millis;
}

pcache_moment pcache_parts_now(void) {
    struct timespec now;
    pcache_moment moment;
    clock_gettime(CLOCK_REALTIME, &now);
    moment.secs = (uint64_t)now.tv_sec;
    moment.nanos = (uint32_t)now.tv_nsec;
    return moment;
}

int pcache_parts_sleep(pcache_parts *parts, size_t part, uint64_t deadline) {
    locked *at = &parts->all[part].it;
    uint64_t now = millis_now(), until = deadline;
    struct timespec end;
    if (now >= deadline) return 0;
    if (deadline - now > parts->nap) until = now + parts->nap;
    end.tv_sec = (time_t)(until / 1000);
    end.tv_nsec = (long)(until % 1000) * 1000000;
    pthread_cond_timedwait(&at->changed, &at->mutex, &end);
    return 1;
}

uint32_t pcache_parts_wait(pcache_parts *parts, pcache_parts_request request, uint64_t deadline, uint32_t *outcome) {
    pcache_handle *cache = pcache_parts_enter(parts, request.part);
    uint32_t code;
    do {
        pcache_moment now = pcache_parts_now();
        code = pcache_request_wait(cache, request.number, now.secs, now.nanos, outcome);
    } while (code == PCACHE_OK && *outcome == PCACHE_WAITS && pcache_parts_sleep(parts, request.part, deadline));
    pcache_parts_leave(parts, request.part, 0);
    return code;
}

uint32_t pcache_parts_read(pcache_parts *parts, pcache_parts_request request, uint64_t deadline, uint8_t *out, size_t out_room,
                           size_t *len, uint32_t *more) {
    pcache_handle *cache = pcache_parts_enter(parts, request.part);
    uint32_t code;
    do {
        code = pcache_request_read(cache, request.number, out, out_room, len, more);
    } while (code == PCACHE_OK && *more == 2 && pcache_parts_sleep(parts, request.part, deadline));
    pcache_parts_leave(parts, request.part, 0);
    return code;
}

uint32_t pcache_parts_view(pcache_parts *parts, pcache_parts_request request, uint64_t deadline, pcache_handle *view,
                           const uint8_t **at, size_t *len, uint32_t *more) {
    pcache_handle *cache = pcache_parts_enter(parts, request.part);
    uint32_t code;
    do {
        code = pcache_request_view(cache, request.number, view, at, len, more);
    } while (code == PCACHE_OK && *more == 2 && pcache_parts_sleep(parts, request.part, deadline));
    pcache_parts_leave(parts, request.part, 0);
    return code;
}

/* ---- sums ---- */

uint32_t pcache_parts_totals(pcache_parts *parts, pcache_cache_counts *out) {
    pcache_cache_counts all = {0, 0, 0, 0, 0, 0}, one;
    for (size_t i = 0; i < parts->count; i++) {
        uint32_t code = pcache_cache_totals(pcache_parts_enter(parts, i), &one);
        pcache_parts_leave(parts, i, 0);
        if (code != PCACHE_OK) return code;
        all.stored_bytes += one.stored_bytes;
        all.bodies += one.bodies;
        all.weight += one.weight;
        all.entries += one.entries;
        all.evicted_weight += one.evicted_weight;
        all.evicted_entries += one.evicted_entries;
    }
    *out = all;
    return PCACHE_OK;
}

uint32_t pcache_parts_counted(pcache_parts *parts, pcache_counted *out) {
    pcache_counted all = {0, 0, 0, 0, 0}, one;
    for (size_t i = 0; i < parts->count; i++) {
        uint32_t code = pcache_cache_counted(pcache_parts_enter(parts, i), &one);
        pcache_parts_leave(parts, i, 0);
        if (code != PCACHE_OK) return code;
        all.hits += one.hits;
        all.stale_hits += one.stale_hits;
        all.misses += one.misses;
        all.waits += one.waits;
        all.fills += one.fills;
    }
    *out = all;
    return PCACHE_OK;
}
