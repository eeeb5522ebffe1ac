/* Caches that eight threads use, each cache behind a mutex of its own: a million calls, in which requests move between threads, bodies
 * are read along while they are written, and views are let go by another thread without a mutex. Each byte that is read is compared
 * with what was written. `bench/plays/from_c.sh` plays it under ThreadSanitizer too. */
#include "pcache_c.h"

#include <pthread.h>
#include <stdio.h>
#include <stdlib.h>
#include <string.h>

enum { THREADS = 8, PARTS = 4, KEYS = 64, BODY = 3000, CALLS = 125000 };

/* A cache, and a request that some thread left for the next one. */
typedef struct part {
    pthread_mutex_t mutex;
    pcache_handle cache;
    uint64_t left;
    int is_left;
} part;

static part parts[PARTS];
/* Views that wait for a thread that lets them go. */
static pthread_mutex_t views_mutex = PTHREAD_MUTEX_INITIALIZER;
static pcache_handle views[THREADS];

typedef struct worker {
    pthread_t thread;
    uint64_t random;
    unsigned calls, hits, fills, waits;
} worker;

static void check(worker *who, const char *what, uint32_t code, uint32_t wanted) {
    who->calls++;
    if (code != wanted) {
        fprintf(stderr, "%s: code %u, and not %u\n", what, (unsigned)code, (unsigned)wanted);
        exit(1);
    }
}

static unsigned draw(worker *who, unsigned below) {
    who->random = who->random * 6364136223846793005u + 1442695040888963407u;
    return (unsigned)(who->random >> 33) % below;
}

/* The byte of a key's body at a place. */
static uint8_t byte_at(unsigned key, size_t at) { return (uint8_t)(key * 7 + at % 251); }

static void compare(unsigned key, size_t from, const uint8_t *bytes, size_t len) {
    for (size_t i = 0; i < len; i++) {
        if (bytes[i] != byte_at(key, from + i)) {
            fprintf(stderr, "key %u has a wrong byte at %zu\n", key, from + i);
            exit(1);
        }
    }
}

/* Leaves a view for another thread, and lets go of the one that was left there. No mutex of a cache is held. */
static void hand_over(worker *who, pcache_handle view) {
    unsigned place = draw(who, THREADS);
    pthread_mutex_lock(&views_mutex);
    pcache_handle older = views[place];
    views[place] = view;
    pthread_mutex_unlock(&views_mutex);
    if (older.tag != 0) check(who, "end of a view", pcache_end(&older), PCACHE_OK);
}

/* Reads what there is of a body, in pieces, each under the mutex; the bytes are looked at without it. */
static void read_body(worker *who, part *at, uint64_t request, unsigned key) {
    size_t from = 0;
    for (;;) {
        pcache_handle view = {0, 0};
        const uint8_t *bytes;
        size_t len;
        uint32_t more;
        pthread_mutex_lock(&at->mutex);
        check(who, "view", pcache_request_view(&at->cache, request, &view, &bytes, &len, &more), PCACHE_OK);
        pthread_mutex_unlock(&at->mutex);
        if (more != 1) return;
        compare(key, from, bytes, len);
        from += len;
        hand_over(who, view);
    }
}

/* Fills a key in two pieces, and lets others in between. One fill in eight is cut off. */
static void fill(worker *who, part *at, uint64_t request, unsigned key) {
    uint8_t body[BODY];
    pcache_handle head = {0, 0}, meta = {0, 0};
    const pcache_meta said = {{1, 0}, {1, 0}, {60, 0}, 0, 0};
    size_t stored, evicted;
    int whole = draw(who, 8) != 0;
    for (size_t i = 0; i < BODY; i++) body[i] = byte_at(key, i);
    check(who, "head", pcache_head_new(&head, 200), PCACHE_OK);
    check(who, "meta", pcache_meta_new(&meta, &head, &said), PCACHE_OK);
    pthread_mutex_lock(&at->mutex);
    check(who, "miss", pcache_request_miss(&at->cache, request), PCACHE_OK);
    check(who, "set meta", pcache_request_set_meta(&at->cache, request, &meta), PCACHE_OK);
    check(who, "begin", pcache_request_begin(&at->cache, request), PCACHE_OK);
    check(who, "write", pcache_request_write(&at->cache, request, body, BODY / 2, 0), PCACHE_OK);
    pthread_mutex_unlock(&at->mutex);
    check(who, "end of a head", pcache_end(&head), PCACHE_OK);
    check(who, "end of a meta", pcache_end(&meta), PCACHE_OK);
    if (!whole) return;
    pthread_mutex_lock(&at->mutex);
    check(who, "write", pcache_request_write(&at->cache, request, body + BODY / 2, BODY - BODY / 2, 1), PCACHE_OK);
    uint32_t code = pcache_request_finish(&at->cache, request, &stored, &evicted);
    check(who, "finish", code == PCACHE_REMOVED ? PCACHE_OK : code, PCACHE_OK);
    pthread_mutex_unlock(&at->mutex);
    who->fills++;
}

/* Ends a request, or leaves it for another thread, which ends it. The mutex is held. */
static void leave(worker *who, part *at, uint64_t request) {
    if (at->is_left) check(who, "end of what was left", pcache_request_end(&at->cache, at->left), PCACHE_OK);
    at->is_left = draw(who, 2) == 0;
    at->left = request;
    if (!at->is_left) check(who, "end", pcache_request_end(&at->cache, request), PCACHE_OK);
}

static void serve(worker *who) {
    unsigned key = draw(who, KEYS);
    part *at = &parts[key % PARTS];
    uint8_t name[2] = {(uint8_t)('a' + key % 16), (uint8_t)('a' + key / 16)};
    uint64_t request;
    uint32_t found, held = 0, outcome, was;
    pthread_mutex_lock(&at->mutex);
    check(who, "request", pcache_request_new(&at->cache, name, 2, name, 0, &request), PCACHE_OK);
    if (draw(who, 64) == 0) check(who, "purge", pcache_request_purge(&at->cache, request, &was), PCACHE_OK);
    check(who, "look", pcache_request_look(&at->cache, request, 1, 0, &found), PCACHE_OK);
    if (found)
        check(who, "take", pcache_request_take(&at->cache, request, PCACHE_IS_FRESH, 1, 0), PCACHE_OK);
    else
        check(who, "held", pcache_request_held(&at->cache, request, &held), PCACHE_OK);
    pthread_mutex_unlock(&at->mutex);
    if (found) {
        who->hits++;
        read_body(who, at, request, key);
    } else if (held == 1) {
        fill(who, at, request, key);
    }
    pthread_mutex_lock(&at->mutex);
    if (held == 2) {
        check(who, "wait", pcache_request_wait(&at->cache, request, 1, 0, &outcome), PCACHE_OK);
        who->waits++;
    }
    leave(who, at, request);
    pthread_mutex_unlock(&at->mutex);
}

static void *work(void *given) {
    worker *who = given;
    while (who->calls < CALLS) serve(who);
    return NULL;
}

int main(void) {
    const uint8_t seed[16] = {7, 7, 7, 7, 7, 7, 7, 7, 7, 7, 7, 7, 7, 7, 7, 7};
    worker workers[THREADS];
    worker all = {0};
    pcache_cache_counts totals;
    for (unsigned i = 0; i < PARTS; i++) {
        pthread_mutex_init(&parts[i].mutex, NULL);
        /* Three quarters of the bodies have room, so some are evicted. */
        check(&all, "cache", pcache_cache_new(&parts[i].cache, seed, 16, KEYS / PARTS * BODY * 3 / 4, 0, 10000), PCACHE_OK);
    }
    for (unsigned i = 0; i < THREADS; i++) {
        workers[i] = (worker){.random = i + 1};
        if (pthread_create(&workers[i].thread, NULL, work, &workers[i]) != 0) return 1;
    }
    for (unsigned i = 0; i < THREADS; i++) {
        pthread_join(workers[i].thread, NULL);
        all.calls += workers[i].calls;
        all.hits += workers[i].hits;
        all.fills += workers[i].fills;
    }
    for (unsigned i = 0; i < PARTS; i++) {
        check(&all, "totals", pcache_cache_totals(&parts[i].cache, &totals), PCACHE_OK);
        if (totals.stored_bytes > KEYS / PARTS * BODY * 3 / 4) return 1;
        check(&all, "end", pcache_end(&parts[i].cache), PCACHE_OK);
    }
    /* Views are good after their caches. */
    for (unsigned i = 0; i < THREADS; i++)
        if (views[i].tag != 0) check(&all, "end of a view", pcache_end(&views[i]), PCACHE_OK);
    printf("8 threads, a million calls: %s\n", all.calls >= 1000000 && all.hits > 0 && all.fills > 0 ? "each byte was right" : "too few");
    return 0;
}
