/* A cache from C: a fill, a hit, a wait with a body that is read while it comes, a purge and an eviction.
 * It prints what examples_rust/cache.rs prints. */
#include "pcache_c.h"

#include <stdio.h>
#include <stdlib.h>
#include <string.h>

static pcache_handle cache = {0, 0};

static void check(const char *what, uint32_t code, uint32_t wanted) {
    if (code != wanted) {
        fprintf(stderr, "%s: code %u, and not %u\n", what, (unsigned)code, (unsigned)wanted);
        exit(1);
    }
}

static const uint8_t *bytes(const char *text) { return (const uint8_t *)text; }

static uint64_t request_for(const char *key) {
    uint64_t request;
    check("open", pcache_request_new(&cache, bytes(key), strlen(key), bytes("1"), 1, &request), PCACHE_OK);
    return request;
}

/* Looks up at second 1, and says whether something was found. */
static uint32_t look(uint64_t request) {
    uint32_t found;
    check("look", pcache_request_look(&cache, request, 1, 0, &found), PCACHE_OK);
    return found;
}

static uint32_t held(uint64_t request) {
    uint32_t held;
    check("held", pcache_request_held(&cache, request, &held), PCACHE_OK);
    return held;
}

/* Begins a write of a response that is fresh until second 60, with a variance of 16 bytes or none. */
static void begin_with(uint64_t request, const uint8_t *variance, size_t variance_len) {
    pcache_handle head = {0, 0}, meta = {0, 0};
    pcache_meta said = {{0, 0}, {0, 0}, {60, 0}, 0, 0};
    check("head", pcache_head_new(&head, 200), PCACHE_OK);
    check("meta", pcache_meta_new(&meta, &head, &said), PCACHE_OK);
    check("miss", pcache_request_miss(&cache, request), PCACHE_OK);
    check("set meta", pcache_request_set_meta(&cache, request, &meta), PCACHE_OK);
    check("vary", pcache_request_vary(&cache, request, variance, variance_len), PCACHE_OK);
    check("begin", pcache_request_begin(&cache, request), PCACHE_OK);
    check("end head", pcache_end(&head), PCACHE_OK);
    check("end meta", pcache_end(&meta), PCACHE_OK);
}

static void begin(uint64_t request) { begin_with(request, bytes(""), 0); }

static void begin_varying(uint64_t request, const uint8_t *variance) { begin_with(request, variance, 16); }

static void finish(uint64_t request) {
    size_t stored, evicted;
    check("finish", pcache_request_finish(&cache, request, &stored, &evicted), PCACHE_OK);
    printf("stored %zu evicted %zu\n", stored, evicted);
}

static void fill(const char *key, const char *body) {
    uint64_t request = request_for(key);
    uint32_t found = look(request);
    printf("%s: found %u held %u, ", key, (unsigned)found, (unsigned)held(request));
    begin(request);
    check("write", pcache_request_write(&cache, request, bytes(body), strlen(body), 1), PCACHE_OK);
    finish(request);
    check("end", pcache_request_end(&cache, request), PCACHE_OK);
}

/* Reads into a buffer of two bytes, and prints what came: `-` for nothing yet, `.` at the end, `!` where the body was cut off. */
static void read_once(uint64_t request) {
    uint8_t buffer[2];
    size_t len;
    uint32_t more;
    check("read", pcache_request_read(&cache, request, buffer, sizeof buffer, &len, &more), PCACHE_OK);
    if (more == 1)
        printf("%.*s", (int)len, (const char *)buffer);
    else
        printf("%s", more == 0 ? "." : more == 3 ? "!" : "-");
}

static void hit(const char *key) {
    uint64_t request = request_for(key);
    uint32_t phase;
    if (look(request) == 0) {
        printf("%s: nothing\n", key);
        check("end", pcache_request_end(&cache, request), PCACHE_OK);
        return;
    }
    pcache_handle meta = {0, 0};
    pcache_servable servable;
    check("meta", pcache_request_meta(&cache, request, &meta), PCACHE_OK);
    check("servable", pcache_meta_servable(&meta, 1, 0, &servable), PCACHE_OK);
    check("end meta", pcache_end(&meta), PCACHE_OK);
    check("take", pcache_request_take(&cache, request, servable.fresh ? PCACHE_IS_FRESH : PCACHE_IS_EXPIRED, 1, 0), PCACHE_OK);
    check("phase", pcache_request_phase(&cache, request, &phase), PCACHE_OK);
    printf("%s: fresh %u phase %u ", key, (unsigned)servable.fresh, (unsigned)phase);
    for (int i = 0; i < 3; i++) read_once(request);
    printf("\n");
    check("finish hit", pcache_request_finish_hit(&cache, request), PCACHE_OK);
    check("end", pcache_request_end(&cache, request), PCACHE_OK);
}

/* Two requests for one key: one writes, the other waits, and reads along. */
static void wait_and_read(void) {
    uint64_t writer = request_for("bb"), waiter = request_for("bb");
    uint32_t outcome;
    look(writer);
    look(waiter);
    printf("held %u and %u, ", (unsigned)held(writer), (unsigned)held(waiter));
    check("wait", pcache_request_wait(&cache, waiter, 1, 0, &outcome), PCACHE_OK);
    printf("wait %u ", (unsigned)outcome);
    begin(writer);
    check("wait", pcache_request_wait(&cache, waiter, 1, 0, &outcome), PCACHE_OK);
    printf("then %u\n", (unsigned)outcome);
    printf("found %u, ", (unsigned)look(waiter));
    check("take", pcache_request_take(&cache, waiter, PCACHE_IS_FRESH, 1, 0), PCACHE_OK);
    read_once(waiter);
    check("write", pcache_request_write(&cache, writer, bytes("he"), 2, 0), PCACHE_OK);
    read_once(waiter);
    read_once(waiter);
    check("write", pcache_request_write(&cache, writer, bytes("y"), 1, 1), PCACHE_OK);
    read_once(waiter);
    read_once(waiter);
    printf(" ");
    finish(writer);
    check("end", pcache_request_end(&cache, writer), PCACHE_OK);
    check("end", pcache_request_end(&cache, waiter), PCACHE_OK);
}

/* A request that reads a stale body while another renews it, and then the new one: nothing of the older body is left. */
static void stale_then_fresh(void) {
    uint64_t writer = request_for("ee"), reader = request_for("ee");
    uint32_t outcome;
    look(writer);
    check("take", pcache_request_take(&cache, writer, PCACHE_IS_EXPIRED, 1, 0), PCACHE_OK);
    look(reader);
    check("take", pcache_request_take(&cache, reader, PCACHE_IS_EXPIRED, 1, 0), PCACHE_OK);
    printf("held %u and %u, ", (unsigned)held(writer), (unsigned)held(reader));
    read_once(reader);
    printf(" ");
    begin(writer);
    check("write", pcache_request_write(&cache, writer, bytes("xyz"), 3, 1), PCACHE_OK);
    finish(writer);
    check("wait", pcache_request_wait(&cache, reader, 1, 0, &outcome), PCACHE_OK);
    printf("wait %u found %u, ", (unsigned)outcome, (unsigned)look(reader));
    check("take", pcache_request_take(&cache, reader, PCACHE_IS_FRESH, 1, 0), PCACHE_OK);
    for (int i = 0; i < 3; i++) read_once(reader);
    printf("\n");
    check("end", pcache_request_end(&cache, writer), PCACHE_OK);
    check("end", pcache_request_end(&cache, reader), PCACHE_OK);
}

/* A body whose writer gives up half way: who reads along gets what was written, and knows that it was cut off. */
static void cut_off(void) {
    uint64_t writer = request_for("ff"), reader = request_for("ff");
    size_t len;
    look(writer);
    begin(writer);
    printf("found %u, ", (unsigned)look(reader));
    check("take", pcache_request_take(&cache, reader, PCACHE_IS_FRESH, 1, 0), PCACHE_OK);
    check("write", pcache_request_write(&cache, writer, bytes("ab"), 2, 0), PCACHE_OK);
    read_once(reader);
    check("no length", pcache_request_body_length(&cache, reader, &len), PCACHE_NONE);
    check("no range", pcache_request_seek(&cache, reader, 0, 1), PCACHE_BAD_VALUE);
    check("end", pcache_request_end(&cache, writer), PCACHE_OK);
    read_once(reader);
    printf("\n");
    check("end", pcache_request_end(&cache, reader), PCACHE_OK);
}

static void purge(const char *key) {
    uint64_t request = request_for(key);
    uint32_t was;
    check("purge", pcache_request_purge(&cache, request, &was), PCACHE_OK);
    printf("purge %s: %u\n", key, (unsigned)was);
    check("end", pcache_request_end(&cache, request), PCACHE_OK);
}

/* The length of a body before it is read, and the body and a range of it without a copy. The views are good after the request
 * has ended and the body was purged. */
static void without_a_copy(void) {
    uint64_t request = request_for("ee");
    pcache_handle whole = {0, 0}, range = {0, 0}, none = {0, 0};
    const uint8_t *body, *part, *nothing;
    size_t len, body_len, part_len, none_len;
    uint32_t more;
    look(request);
    check("take", pcache_request_take(&cache, request, PCACHE_IS_FRESH, 1, 0), PCACHE_OK);
    check("length", pcache_request_body_length(&cache, request, &len), PCACHE_OK);
    check("view", pcache_request_view(&cache, request, &whole, &body, &body_len, &more), PCACHE_OK);
    printf("length %zu: %.*s ", len, (int)body_len, (const char *)body);
    check("view of the end", pcache_request_view(&cache, request, &none, &nothing, &none_len, &more), PCACHE_OK);
    printf("then %u, ", (unsigned)more);
    check("full", pcache_request_view(&cache, request, &whole, &nothing, &none_len, &more), PCACHE_BAD_HANDLE);
    check("past the end", pcache_request_seek(&cache, request, 3, 3), PCACHE_BAD_VALUE);
    check("seek", pcache_request_seek(&cache, request, 1, SIZE_MAX), PCACHE_OK);
    check("view", pcache_request_view(&cache, request, &range, &part, &part_len, &more), PCACHE_OK);
    check("end", pcache_request_end(&cache, request), PCACHE_OK);
    printf("from 1: %.*s\n", (int)part_len, (const char *)part);
    purge("ee");
    printf("still %.*s and %.*s\n", (int)body_len, (const char *)body, (int)part_len, (const char *)part);
    check("end view", pcache_end(&whole), PCACHE_OK);
    check("end view", pcache_end(&range), PCACHE_OK);
    check("end none", pcache_end(&none), PCACHE_BAD_HANDLE);
}

static void print_totals(void) {
    pcache_cache_counts totals;
    check("totals", pcache_cache_totals(&cache, &totals), PCACHE_OK);
    printf("%llu bytes of %zu bodies, %zu of %zu tracked, %zu of %zu evicted\n", (unsigned long long)totals.stored_bytes,
           totals.bodies, totals.weight, totals.entries, totals.evicted_weight, totals.evicted_entries);
}

/* What the calls were, of those that were done. */
static void print_counted(void) {
    pcache_counted counted;
    check("counted", pcache_cache_counted(&cache, &counted), PCACHE_OK);
    printf("%llu hits, %llu stale, %llu misses, %llu waits, %llu fills\n", (unsigned long long)counted.hits,
           (unsigned long long)counted.stale_hits, (unsigned long long)counted.misses, (unsigned long long)counted.waits,
           (unsigned long long)counted.fills);
}

/* Two variants of one key, told apart by a hash of what a request says in the fields of Vary. */
static void variants(void) {
    uint8_t english[16], german[16];
    uint32_t same;
    check("hash", pcache_hash_key(bytes("en"), 2, english, 16), PCACHE_OK);
    check("hash", pcache_hash_key(bytes("de"), 2, german, 16), PCACHE_OK);
    uint64_t first = request_for("ff");
    look(first);
    begin_varying(first, english);
    check("write", pcache_request_write(&cache, first, bytes("hey"), 3, 1), PCACHE_OK);
    printf("english: ");
    finish(first);
    check("end", pcache_request_end(&cache, first), PCACHE_OK);
    uint64_t other = request_for("ff");
    check("nothing yet", pcache_request_look_for(&cache, other, german, 16, &same), PCACHE_NONE);
    look(other);
    check("no hash", pcache_request_look_for(&cache, other, german, 15, &same), PCACHE_BAD_VALUE);
    check("look for", pcache_request_look_for(&cache, other, german, 16, &same), PCACHE_OK);
    printf("german: same %u, ", (unsigned)same);
    uint32_t found = look(other);
    printf("found %u held %u, ", (unsigned)found, (unsigned)held(other));
    begin_varying(other, german);
    check("write", pcache_request_write(&cache, other, bytes("hi"), 2, 1), PCACHE_OK);
    finish(other);
    check("end", pcache_request_end(&cache, other), PCACHE_OK);
    const uint8_t *wanted[2] = {english, german};
    for (int i = 0; i < 2; i++) {
        uint64_t again = request_for("ff");
        found = look(again);
        check("look for", pcache_request_look_for(&cache, again, wanted[i], 16, &same), PCACHE_OK);
        if (same == 0) found = look(again);
        printf("found %u same %u: ", (unsigned)found, (unsigned)same);
        check("take", pcache_request_take(&cache, again, PCACHE_IS_FRESH, 1, 0), PCACHE_OK);
        read_once(again);
        read_once(again);
        printf("\n");
        check("end", pcache_request_end(&cache, again), PCACHE_OK);
    }
}

/* A stale body is served while another request renews it, and with the head of an answer that is not stored. */
static void served_on(void) {
    uint64_t renewing = request_for("ff"), serving = request_for("ff");
    uint32_t phase;
    pcache_handle head = {0, 0};
    check("limit", pcache_request_limit_waits(&cache, serving, 500), PCACHE_OK);
    look(renewing);
    look(serving);
    check("not stale", pcache_request_serve_updating(&cache, serving), PCACHE_WRONG_CALL);
    check("take", pcache_request_take(&cache, renewing, PCACHE_IS_EXPIRED, 1, 0), PCACHE_OK);
    check("take", pcache_request_take(&cache, serving, PCACHE_IS_EXPIRED, 1, 0), PCACHE_OK);
    printf("held %u and %u, ", (unsigned)held(renewing), (unsigned)held(serving));
    check("held already", pcache_request_limit_waits(&cache, serving, 500), PCACHE_WRONG_CALL);
    uint32_t outcome;
    check("wait", pcache_request_wait(&cache, serving, 1, 0, &outcome), PCACHE_OK);
    printf("wait %u", (unsigned)outcome);
    check("wait", pcache_request_wait(&cache, serving, 1, 500000000, &outcome), PCACHE_OK);
    printf(" and %u", (unsigned)outcome);
    uint64_t secs;
    uint32_t nanos;
    check("waited", pcache_request_waited(&cache, serving, &secs, &nanos), PCACHE_OK);
    check("never waited", pcache_request_waited(&cache, renewing, &secs, &nanos), PCACHE_NONE);
    printf(" after %u.%09u s, ", (unsigned)secs, (unsigned)nanos);
    check("updating", pcache_request_serve_updating(&cache, serving), PCACHE_OK);
    check("phase", pcache_request_phase(&cache, serving, &phase), PCACHE_OK);
    printf("phase %u ", (unsigned)phase);
    read_once(serving);
    check("head", pcache_head_new(&head, 304), PCACHE_OK);
    check("serve on", pcache_request_serve_on(&cache, renewing, &head, PCACHE_ORIGIN_NOT_CACHE), PCACHE_OK);
    check("end", pcache_end(&head), PCACHE_OK);
    check("phase", pcache_request_phase(&cache, renewing, &phase), PCACHE_OK);
    printf(" and %u held %u\n", (unsigned)phase, (unsigned)held(renewing));
    check("end", pcache_request_end(&cache, renewing), PCACHE_OK);
    check("end", pcache_request_end(&cache, serving), PCACHE_OK);
}

/* A request hands its permit to another one for the same key, and ends; that one fills the key. */
static void handed_on(void) {
    uint64_t first = request_for("gg"), second = request_for("gg"), waiter = request_for("gg");
    uint32_t outcome;
    look(first);
    look(waiter);
    printf("held %u and %u, ", (unsigned)held(first), (unsigned)held(second));
    check("hand to itself", pcache_request_hand_permit(&cache, first, first), PCACHE_WRONG_CALL);
    check("hand", pcache_request_hand_permit(&cache, first, second), PCACHE_OK);
    printf("then %u and %u, ", (unsigned)held(first), (unsigned)held(second));
    check("hand again", pcache_request_hand_permit(&cache, first, second), PCACHE_WRONG_CALL);
    check("end", pcache_request_end(&cache, first), PCACHE_OK);
    check("hand to none", pcache_request_hand_permit(&cache, second, first), PCACHE_BAD_HANDLE);
    check("wait", pcache_request_wait(&cache, waiter, 1, 0, &outcome), PCACHE_OK);
    printf("wait %u ", (unsigned)outcome);
    begin(second);
    check("write", pcache_request_write(&cache, second, bytes("new"), 3, 1), PCACHE_OK);
    check("wait", pcache_request_wait(&cache, waiter, 1, 0, &outcome), PCACHE_OK);
    printf("then %u, ", (unsigned)outcome);
    finish(second);
    check("end", pcache_request_end(&cache, second), PCACHE_OK);
    check("end", pcache_request_end(&cache, waiter), PCACHE_OK);
}

/* A stale body is confirmed: it is renewed where it still stands, and nothing is where it was removed meanwhile. */
static void confirmed(void) {
    for (int is_removed = 0; is_removed < 2; is_removed++) {
        uint64_t request = request_for("gg");
        uint32_t set;
        pcache_handle meta = {0, 0};
        look(request);
        check("take", pcache_request_take(&cache, request, PCACHE_IS_EXPIRED, 1, 0), PCACHE_OK);
        check("meta", pcache_request_meta(&cache, request, &meta), PCACHE_OK);
        if (is_removed) purge("gg");
        check("renew", pcache_request_renew(&cache, request, &meta, &set), PCACHE_OK);
        printf("renewed %u ", (unsigned)set);
        read_once(request);
        printf("\n");
        check("end", pcache_end(&meta), PCACHE_OK);
        check("end", pcache_request_end(&cache, request), PCACHE_OK);
    }
}

/* A request that cannot use a fill waits no longer once the one that fills it says which it is. Another one waits on. */
static void published(void) {
    const uint64_t unusable[2] = {206, 501}, said[1] = {501};
    uint64_t writer = request_for("hh"), other = request_for("hh"), picky, token;
    uint32_t outcome;
    check("open", pcache_request_new_with_unusable(&cache, bytes("hh"), 2, bytes("1"), 1, unusable, 2, &picky), PCACHE_OK);
    look(writer);
    look(other);
    look(picky);
    check("no permit", pcache_request_publish(&cache, picky, said, 1), PCACHE_NONE);
    check("wait", pcache_request_wait(&cache, picky, 1, 0, &outcome), PCACHE_OK);
    printf("wait %u, ", (unsigned)outcome);
    check("not abandoned", pcache_request_abandoned(&cache, picky, &token), PCACHE_NONE);
    check("publish", pcache_request_publish(&cache, writer, said, 1), PCACHE_OK);
    check("wait", pcache_request_wait(&cache, other, 1, 0, &outcome), PCACHE_OK);
    printf("published: wait %u", (unsigned)outcome);
    check("wait", pcache_request_wait(&cache, picky, 1, 0, &outcome), PCACHE_OK);
    check("abandoned", pcache_request_abandoned(&cache, picky, &token), PCACHE_OK);
    printf(" and %u for %u held %u\n", (unsigned)outcome, (unsigned)token, (unsigned)held(picky));
    check("end", pcache_request_end(&cache, picky), PCACHE_OK);
    check("end", pcache_request_end(&cache, other), PCACHE_OK);
    check("end", pcache_request_end(&cache, writer), PCACHE_OK);
}

static uint32_t within(uint64_t request, size_t count) {
    uint32_t within;
    check("count", pcache_request_count_body(&cache, request, count, &within), PCACHE_OK);
    return within;
}

static uint32_t exceeds(uint64_t request) {
    uint32_t exceeds;
    check("exceeds", pcache_request_exceeds_head(&cache, request, &exceeds), PCACHE_OK);
    return exceeds;
}

/* A response that is too large is not stored, as its request finds while it comes. */
static void too_large(void) {
    uint64_t request = request_for("hh");
    check("limit", pcache_request_limit_body(&cache, request, 4), PCACHE_OK);
    check("limit", pcache_request_limit_head(&cache, request, 10), PCACHE_OK);
    look(request);
    printf("head %u ", (unsigned)exceeds(request));
    begin(request);
    printf("then %u, ", (unsigned)exceeds(request));
    printf("body %u ", (unsigned)within(request, 4));
    printf("then %u, ", (unsigned)within(request, 1));
    check("disable", pcache_request_disable(&cache, request, PCACHE_RESPONSE_TOO_LARGE), PCACHE_OK);
    check("limit a disabled one", pcache_request_limit_body(&cache, request, 4), PCACHE_WRONG_CALL);
    check("limit a disabled one", pcache_request_limit_head(&cache, request, 4), PCACHE_WRONG_CALL);
    check("end", pcache_request_end(&cache, request), PCACHE_OK);
    hit("hh");
}

/* What may not be called is refused. */
static void refused(void) {
    uint64_t request = request_for("aa");
    size_t stored, evicted, len;
    uint32_t more;
    uint8_t buffer[1];
    pcache_cache_counts totals;
    pcache_counted counted;
    pcache_handle none = {0, 0};
    check("finish first", pcache_request_finish(&cache, request, &stored, &evicted), PCACHE_WRONG_CALL);
    check("read first", pcache_request_read(&cache, request, buffer, 1, &len, &more), PCACHE_WRONG_CALL);
    check("seek first", pcache_request_seek(&cache, request, 0, 1), PCACHE_WRONG_CALL);
    check("take first", pcache_request_take(&cache, request, PCACHE_IS_FRESH, 1, 0), PCACHE_NONE);
    check("status", pcache_request_take(&cache, request, 7, 1, 0), PCACHE_BAD_VALUE);
    check("end", pcache_request_end(&cache, request), PCACHE_OK);
    check("end again", pcache_request_end(&cache, request), PCACHE_BAD_HANDLE);
    check("miss after the end", pcache_request_miss(&cache, request), PCACHE_BAD_HANDLE);
    check("no cache", pcache_cache_totals(&none, &totals), PCACHE_BAD_HANDLE);
    check("no cache", pcache_cache_counted(&none, &counted), PCACHE_BAD_HANDLE);
    printf("refused what may not be called\n");
}

int main(void) {
    const uint8_t seed[16] = {7, 7, 7, 7, 7, 7, 7, 7, 7, 7, 7, 7, 7, 7, 7, 7};
    check("cache", pcache_cache_new(&cache, seed, 16, 6, 0, 10000), PCACHE_OK);
    fill("aa", "hi");
    hit("aa");
    wait_and_read();
    hit("bb");
    print_totals();
    fill("cc", "no");
    print_totals();
    hit("aa");
    purge("bb");
    purge("bb");
    hit("bb");
    print_totals();
    fill("ee", "abc");
    stale_then_fresh();
    cut_off();
    without_a_copy();
    variants();
    served_on();
    handed_on();
    confirmed();
    published();
    too_large();
    refused();
    print_counted();
    /* A request that is open goes with its cache. */
    look(request_for("dd"));
    check("end", pcache_end(&cache), PCACHE_OK);
    check("end again", pcache_end(&cache), PCACHE_BAD_HANDLE);
    return 0;
}
