/* One cache in 16 parts that eight threads use by pcache_parts.h, in a million calls. Keys that nobody has are asked for by 200 requests
 * at once, and fetched once; bodies are read along while they are written; waits sleep until a wake or their deadline; requests move
 * from thread to thread. Each byte that is read is compared. What it prints does not depend on who comes first. Nobody asks by itself
 * here, so a wake that is left out leaves a thread asleep until its deadline, half a minute later, and then the program ends with 1.
 *
 * An argument says how many calls there are. `bench/plays/from_c.sh` plays it, also under ThreadSanitizer. */
#include "pcache_parts.h"

#include <poll.h>
#include <pthread.h>
#include <stdio.h>
#include <stdlib.h>
#include <string.h>
#include <time.h>
#include <unistd.h>

enum { THREADS = 8, EACH = 25, ROUNDS = 100, PERMITS = 20, REFUSALS = 20, KEYS = 64 };
enum { BODY = 2400, PIECE = 600, LIMIT = 64 << 20, PATIENCE = 30000 };

typedef struct worker {
    pthread_t thread;
    void (*play)(struct worker *who);
    pcache_parts *parts;
    pcache_parts_request request; /* of a helper: what it does something to */
    pcache_counted counted;
    unsigned long calls, most, answers;
    unsigned number, cold;
    uint64_t random;
} worker;

static pthread_barrier_t together;

static void fail(const char *what, const char *why, unsigned number) {
    fprintf(stderr, "%s: %s %u\n", what, why, number);
    exit(1);
}

static void check(worker *who, const char *what, uint32_t code, uint32_t wanted) {
    who->calls++;
    if (code != wanted) fail(what, "another code than is due:", code);
}

static unsigned draw(worker *who, unsigned below) {
    who->random = who->random * 6364136223846793005u + 1442695040888963407u;
    return (unsigned)(who->random >> 33) % below;
}

/* The byte of a key's body at a place. */
static uint8_t byte_at(unsigned key, size_t at) { return (uint8_t)(key * 7 + at % 251); }

static void nap(unsigned millis) {
    const struct timespec most = {0, (long)millis * 1000000};
    nanosleep(&most, NULL);
}

/* ---- the calls of a request ---- */

static pcache_parts_request request_for(worker *who, char kind, unsigned key) {
    const uint8_t name[3] = {(uint8_t)kind, (uint8_t)(key / 256), (uint8_t)(key % 256)};
    pcache_parts_request request;
    check(who, "open", pcache_parts_open(who->parts, name, sizeof name, name, 0, &request), PCACHE_OK);
    return request;
}

static void done(worker *who, pcache_parts_request request) {
    check(who, "close", pcache_parts_close(who->parts, request), PCACHE_OK);
}

/* Looks up. What is found is taken, and 0 returned; else what the request holds: 1, the permit, or 2, a read lock. */
static uint32_t look(worker *who, pcache_parts_request request) {
    const pcache_moment now = pcache_parts_now();
    uint32_t found, held = 0;
    pcache_handle *cache = pcache_parts_enter(who->parts, request.part);
    check(who, "look", pcache_request_look(cache, request.number, now.secs, now.nanos, &found), PCACHE_OK);
    if (found)
        check(who, "take", pcache_request_take(cache, request.number, PCACHE_IS_FRESH, now.secs, now.nanos), PCACHE_OK);
    else
        check(who, "held", pcache_request_held(cache, request.number, &held), PCACHE_OK);
    pcache_parts_leave(who->parts, request.part, 0);
    who->counted.hits += found;
    return held;
}

/* Whether a sleep lasted until its deadline: then it was not ended by a wake, whatever was answered at last. */
static int is_late(uint64_t deadline) { return pcache_parts_deadline(0) > deadline; }

/* Waits until another request ends the wait, and says how. */
static uint32_t await(worker *who, pcache_parts_request request) {
    const uint64_t deadline = pcache_parts_deadline(PATIENCE);
    uint32_t outcome;
    check(who, "wait", pcache_parts_wait(who->parts, request, deadline, &outcome), PCACHE_OK);
    if (outcome == PCACHE_WAITS || is_late(deadline)) fail("wait", "nothing by its deadline, of thread", who->number);
    who->counted.waits++;
    return outcome;
}

/* Goes on as a miss, and begins a write. Others read along from here on. */
static void begin(worker *who, pcache_parts_request request) {
    const pcache_meta said = {{1, 0}, {1, 0}, {(uint64_t)1 << 40, 0}, 0, 0};
    pcache_handle head = {0, 0}, meta = {0, 0}, *cache;
    check(who, "head", pcache_head_new(&head, 200), PCACHE_OK);
    check(who, "meta", pcache_meta_new(&meta, &head, &said), PCACHE_OK);
    cache = pcache_parts_enter(who->parts, request.part);
    check(who, "miss", pcache_request_miss(cache, request.number), PCACHE_OK);
    check(who, "set meta", pcache_request_set_meta(cache, request.number, &meta), PCACHE_OK);
    check(who, "begin", pcache_request_begin(cache, request.number), PCACHE_OK);
    pcache_parts_leave(who->parts, request.part, 1);
    check(who, "end of a head", pcache_end(&head), PCACHE_OK);
    check(who, "end of a meta", pcache_end(&meta), PCACHE_OK);
    who->counted.misses++;
}

static void write_on(worker *who, pcache_parts_request request, const uint8_t *bytes, size_t len, uint32_t eof) {
    pcache_handle *cache = pcache_parts_enter(who->parts, request.part);
    check(who, "write", pcache_request_write(cache, request.number, bytes, len, eof), PCACHE_OK);
    pcache_parts_leave(who->parts, request.part, 1);
}

/* Stores what was written, unless its key was purged meanwhile. */
static void finish(worker *who, pcache_parts_request request) {
    size_t stored, evicted;
    pcache_handle *cache = pcache_parts_enter(who->parts, request.part);
    uint32_t code = pcache_request_finish(cache, request.number, &stored, &evicted);
    pcache_parts_leave(who->parts, request.part, 1);
    if (code == PCACHE_OK) who->counted.fills++;
    check(who, "finish", code == PCACHE_REMOVED ? PCACHE_OK : code, PCACHE_OK);
}

/* Fills a key piece by piece, or the first pieces alone. */
static void fill(worker *who, pcache_parts_request request, unsigned key, size_t most) {
    uint8_t piece[PIECE];
    begin(who, request);
    for (size_t from = 0; from < most; from += PIECE) {
        for (size_t i = 0; i < PIECE; i++) piece[i] = byte_at(key, from + i);
        write_on(who, request, piece, PIECE, from + PIECE == BODY);
    }
    if (most == BODY) finish(who, request);
}

/* Reads what comes next of a body, or sleeps until something does, and compares it. Returns its length, and 0 at the end. */
static size_t read_next(worker *who, pcache_parts_request request, unsigned key, size_t from, uint32_t *more) {
    const uint64_t deadline = pcache_parts_deadline(PATIENCE);
    pcache_handle view = {0, 0};
    const uint8_t *bytes;
    size_t len;
    check(who, "view", pcache_parts_view(who->parts, request, deadline, &view, &bytes, &len, more), PCACHE_OK);
    if (*more == 2 || is_late(deadline)) fail("view", "nothing by its deadline, of thread", who->number);
    if (*more != 1) return 0;
    for (size_t i = 0; i < len; i++)
        if (bytes[i] != byte_at(key, from + i)) fail("view", "a wrong byte of key", key);
    check(who, "end of a view", pcache_end(&view), PCACHE_OK);
    return len;
}

/* Reads a body that was taken to its end. Of one that must not be cut off, all has to come. */
static void read_all(worker *who, pcache_parts_request request, unsigned key, int may_be_cut) {
    size_t from = 0, len;
    uint32_t more;
    while ((len = read_next(who, request, key, from, &more)) > 0) from += len;
    if (!(more == 0 && from == BODY) && !(may_be_cut && more == 3)) fail("view", "a body ended early, of key", key);
}

/* ---- what the threads play together ---- */

/* Each thread has 25 requests for the key, and the fill begins when all 200 have asked: one has the permit, and 199 wait. */
static void ask_cold(worker *who, unsigned key) {
    pcache_parts_request requests[EACH];
    uint32_t held[EACH];
    for (unsigned i = 0; i < EACH; i++) {
        requests[i] = request_for(who, 'c', key);
        held[i] = look(who, requests[i]);
        if (held[i] == 0) fail("look", "found before it was fetched: key", key);
    }
    pthread_barrier_wait(&together);
    for (unsigned i = 0; i < EACH; i++)
        if (held[i] == 1) fill(who, requests[i], key, BODY);
    for (unsigned i = 0; i < EACH; i++) {
        if (held[i] == 2) {
            if (await(who, requests[i]) != PCACHE_WAS_DONE) fail("wait", "not by the fill, of key", key);
            if (look(who, requests[i]) != 0) fail("look", "not found although it was fetched: key", key);
            read_all(who, requests[i], key, 0);
        }
        done(who, requests[i]);
    }
}

static void ask_all_cold(worker *who) {
    for (unsigned key = 0; key < who->cold; key++) ask_cold(who, key);
}

/* Purges every eighth of the cold keys. */
static void purge(worker *who) {
    for (unsigned key = who->number; key < who->cold; key += THREADS) {
        pcache_parts_request request = request_for(who, 'c', key);
        pcache_handle *cache = pcache_parts_enter(who->parts, request.part);
        uint32_t was;
        check(who, "purge", pcache_request_purge(cache, request.number, &was), PCACHE_OK);
        pcache_parts_leave(who->parts, request.part, 1);
        who->answers += was;
        done(who, request);
    }
}

/* Two threads talk: each writes a body, byte by byte, and reads along with that of the other. Who is not woken is late each time. */
static void talk(worker *who) {
    const unsigned other = who->number ^ 1;
    pcache_parts_request mine = request_for(who, 't', who->number), theirs;
    uint32_t more;
    if (look(who, mine) != 1) fail("look", "no permit to talk, of thread", who->number);
    begin(who, mine);
    pthread_barrier_wait(&together);
    theirs = request_for(who, 't', other);
    if (look(who, theirs) != 0) fail("look", "nobody to talk to, of thread", who->number);
    for (size_t round = 0; round < ROUNDS; round++) {
        const uint8_t byte = byte_at(who->number, round);
        if (who->number % 2 == 0) write_on(who, mine, &byte, 1, 0);
        who->answers += read_next(who, theirs, other, round, &more);
        if (who->number % 2 == 1) write_on(who, mine, &byte, 1, 0);
    }
    write_on(who, mine, &(const uint8_t){0}, 0, 1);
    finish(who, mine);
    done(who, mine);
    if (read_next(who, theirs, other, ROUNDS, &more) != 0 || more != 0) fail("view", "no end of it, to thread", who->number);
    done(who, theirs);
}

/* Each thread has the permit of each key once, and closes its request without a word, which wakes the next. */
static void pass_permits(worker *who) {
    for (unsigned key = 0; key < PERMITS; key++) {
        pcache_parts_request request = request_for(who, 'p', key);
        uint32_t held = look(who, request);
        pthread_barrier_wait(&together);
        while (held == 2) {
            if (await(who, request) != PCACHE_WAS_DANGLING) fail("wait", "not by a close, of key", key);
            held = look(who, request);
        }
        who->answers += held;
        nap(1); /* the others are asleep by then, most of the time */
        done(who, request);
    }
}

/* The one with the permit says that the response is not to be stored. By that one wake all others are told to pass. */
static void refuse(worker *who) {
    for (unsigned key = 0; key < REFUSALS; key++) {
        pcache_parts_request request = request_for(who, 'r', key);
        const uint32_t held = look(who, request);
        pthread_barrier_wait(&together);
        if (held == 1) {
            nap(1);
            check(who, "disable", pcache_request_disable(pcache_parts_enter(who->parts, request.part), request.number,
                                                         PCACHE_ORIGIN_NOT_CACHE), PCACHE_OK);
            pcache_parts_leave(who->parts, request.part, 1);
        } else {
            who->answers += await(who, request) == PCACHE_WAS_GIVE_UP;
        }
        pthread_barrier_wait(&together); /* a close wakes too */
        done(who, request);
    }
}

/* The sums may be asked for while others are at work. */
static void see_sums(worker *who) {
    pcache_cache_counts totals;
    pcache_counted counted;
    check(who, "totals", pcache_parts_totals(who->parts, &totals), PCACHE_OK);
    check(who, "counted", pcache_parts_counted(who->parts, &counted), PCACHE_OK);
    if (totals.weight > LIMIT || counted.fills > counted.misses) fail("sums", "more than the limit:", (unsigned)totals.weight);
}

/* A request that one thread left to be read to its end by another. */
static pthread_mutex_t left_mutex = PTHREAD_MUTEX_INITIALIZER;
static struct left {
    pcache_parts_request request;
    unsigned key;
    int is;
} left[THREADS];

static void take_over(worker *who, struct left next) {
    struct left *place = &left[draw(who, THREADS)], older;
    pthread_mutex_lock(&left_mutex);
    older = *place;
    *place = next;
    pthread_mutex_unlock(&left_mutex);
    if (!older.is) return;
    read_all(who, older.request, older.key, 1);
    done(who, older.request);
}

/* One request in 64 purges its key first, and one fill in 8 is cut off. Half of what is found is left for another thread. */
static void serve(worker *who) {
    const unsigned key = draw(who, KEYS);
    pcache_parts_request request = request_for(who, 's', key);
    uint32_t held, was;
    if (draw(who, 256) == 0) see_sums(who);
    if (draw(who, 64) == 0) {
        pcache_handle *cache = pcache_parts_enter(who->parts, request.part);
        check(who, "purge", pcache_request_purge(cache, request.number, &was), PCACHE_OK);
        pcache_parts_leave(who->parts, request.part, 1);
    }
    while ((held = look(who, request)) == 2) await(who, request);
    if (held == 0 && draw(who, 2) == 0) {
        take_over(who, (struct left){request, key, 1});
        return;
    }
    if (held == 0)
        read_all(who, request, key, 1);
    else
        fill(who, request, key, draw(who, 8) == 0 ? BODY / 2 : BODY);
    done(who, request);
}

static void serve_on(worker *who) {
    while (who->calls < who->most) serve(who);
}

/* ---- what one thread sees ---- */

static void *run(void *given) {
    worker *who = given;
    who->play(who);
    return NULL;
}

static void start(worker *who, void (*play)(worker *)) {
    who->play = play;
    if (pthread_create(&who->thread, NULL, run, who) != 0) fail("start", "no thread", who->number);
}

/* Another thread, which does something to a request of this one. */
static worker helper_of(const worker *who, pcache_parts_request request) {
    worker helper = {0};
    helper.parts = who->parts;
    helper.request = request;
    return helper;
}

static void close_soon(worker *who) {
    nap(20);
    done(who, who->request);
}

static void fill_soon(worker *who) {
    nap(20);
    fill(who, who->request, 0, BODY);
}

/* Nobody wakes, and the parts have no nap: a sleep lasts until its deadline. (The system may end one early, and so once more.) */
static void see_a_sleep(worker *who) {
    const uint64_t deadline = pcache_parts_deadline(300);
    unsigned sleeps = 0;
    pcache_parts_enter(who->parts, 0);
    while (pcache_parts_sleep(who->parts, 0, deadline)) sleeps++;
    pcache_parts_leave(who->parts, 0, 0);
    if (!is_late(deadline) || sleeps > 2) fail("sleep", "it ended early, each of", sleeps);
}

/* A wait and a read that nobody ends, which so last until their deadline. */
static void see_deadlines(worker *who, pcache_parts_request waiter, pcache_parts_request reader) {
    const uint64_t soon = pcache_parts_deadline(30), later = pcache_parts_deadline(60);
    uint32_t outcome, more;
    uint8_t byte;
    size_t len;
    check(who, "wait", pcache_parts_wait(who->parts, waiter, soon, &outcome), PCACHE_OK);
    if (!is_late(soon)) fail("wait", "it ended early, by", outcome);
    printf("a wait until its deadline: %u\n", (unsigned)outcome);
    check(who, "read", pcache_parts_read(who->parts, reader, later, &byte, 1, &len, &more), PCACHE_OK);
    if (!is_late(later)) fail("read", "it ended early, by", more);
    printf("a read until its deadline: %u\n", (unsigned)more);
}

/* What ends a wait without a call, what does not, and what another thread may do to one who sleeps. */
static void see_waits(void) {
    const pcache_parts_options options = {.limit = 1 << 20};
    worker me = {0}, helper;
    pcache_parts_request holder, waiter, limited, writer, reader;
    uint32_t outcome, more;
    uint8_t byte;
    size_t len;
    check(&me, "parts", pcache_parts_new(&me.parts, &options), PCACHE_OK);
    holder = request_for(&me, 'w', 0);
    waiter = request_for(&me, 'w', 0);
    limited = request_for(&me, 'w', 0);
    writer = request_for(&me, 'w', 1);
    reader = request_for(&me, 'w', 1);
    check(&me, "limit", pcache_request_limit_waits(pcache_parts_enter(me.parts, limited.part), limited.number, 150), PCACHE_OK);
    pcache_parts_leave(me.parts, limited.part, 0);
    if (look(&me, holder) != 1 || look(&me, waiter) != 2 || look(&me, limited) != 2) fail("look", "not one permit for", 3);
    if (look(&me, writer) != 1) fail("look", "no permit for", 1);
    begin(&me, writer);
    if (look(&me, reader) != 0) fail("look", "no write to read along, of", 1);
    see_deadlines(&me, waiter, reader);
    printf("a wait with a limit of its own: %u\n", (unsigned)await(&me, limited));
    helper = helper_of(&me, waiter);
    start(&helper, close_soon);
    check(&me, "wait", pcache_parts_wait(me.parts, waiter, UINT64_MAX, &outcome), PCACHE_BAD_HANDLE);
    pthread_join(helper.thread, NULL);
    printf("a wait whose request another thread closed: refused\n");
    helper = helper_of(&me, writer);
    start(&helper, close_soon);
    check(&me, "read", pcache_parts_read(me.parts, reader, UINT64_MAX, &byte, 1, &len, &more), PCACHE_OK);
    pthread_join(helper.thread, NULL);
    printf("a read along with a write that another thread closed: %u\n", (unsigned)more);
    pcache_parts_end(me.parts); /* and with it the requests that are open */
}

static void tell(void *given, size_t part) {
    (void)part;
    if (write(*(const int *)given, "", 1) != 1) fail("write", "a pipe is not written:", 1);
}

/* A cache whose permits last for 150 milliseconds. Its hook writes to a pipe, as for an event loop: this thread sleeps in poll, and
 * asks only when a byte came. */
static void see_a_hook(void) {
    int ends[2];
    pcache_parts_options options = {.parts = 1, .limit = 1 << 20, .age_timeout_millis = 150, .woken = tell, .given = &ends[1]};
    worker me = {0}, helper;
    pcache_parts_request first, second;
    pcache_moment now;
    uint32_t outcome;
    char byte;
    struct pollfd watched;
    if (pipe(ends) != 0) fail("pipe", "none for", 1);
    check(&me, "parts", pcache_parts_new(&me.parts, &options), PCACHE_OK);
    first = request_for(&me, 'h', 0);
    second = request_for(&me, 'h', 0);
    if (look(&me, first) != 1 || look(&me, second) != 2) fail("look", "not one permit for", 2);
    check(&me, "wait", pcache_parts_wait(me.parts, second, pcache_parts_deadline(5000), &outcome), PCACHE_OK);
    printf("a wait for a permit that grows too old: %u\n", (unsigned)outcome);
    if (look(&me, second) != 1 || look(&me, first) != 2) fail("look", "no new permit for", 2);
    helper = helper_of(&me, second);
    start(&helper, fill_soon);
    outcome = PCACHE_WAITS;
    watched = (struct pollfd){.fd = ends[0], .events = POLLIN};
    while (outcome == PCACHE_WAITS && poll(&watched, 1, PATIENCE) == 1 && read(ends[0], &byte, 1) == 1) {
        now = pcache_parts_now();
        check(&me, "wait", pcache_request_wait(pcache_parts_enter(me.parts, 0), first.number, now.secs, now.nanos, &outcome), PCACHE_OK);
        pcache_parts_leave(me.parts, 0, 0);
    }
    printf("a wait of an event loop: %u\n", (unsigned)outcome);
    pthread_join(helper.thread, NULL);
    pcache_parts_end(me.parts);
    close(ends[0]);
    close(ends[1]);
}

/* Fills 40 keys of a cache, and prints how many bodies stay. */
static void see_what_stays(const char *what, const pcache_parts_options *options) {
    worker me = {0};
    pcache_cache_counts totals;
    check(&me, "parts", pcache_parts_new(&me.parts, options), PCACHE_OK);
    for (unsigned key = 0; key < 40; key++) {
        pcache_parts_request request = request_for(&me, 'l', key);
        if (look(&me, request) != 1) fail("look", "no permit for a new key:", key);
        fill(&me, request, key, BODY);
        done(&me, request);
    }
    check(&me, "totals", pcache_parts_totals(me.parts, &totals), PCACHE_OK);
    printf("%s: %zu bodies\n", what, totals.bodies);
    pcache_parts_end(me.parts);
}

/* Limits are shared among the parts, and what may not be made is refused, and leaves nothing behind. */
static void see_options(void) {
    static const uint8_t seed[16] = {7};
    pcache_parts_options options = {.parts = 4, .limit = 20000, .seed = seed};
    worker me = {0};
    see_what_stays("20000 bytes for bodies", &options);
    options.bounded = 1;
    see_what_stays("20000 bytes for all that is kept", &options);
    options = (pcache_parts_options){.parts = 4, .limit = 1 << 20, .watermark = 6};
    see_what_stays("a watermark of 6", &options);
    options.watermark = 3;
    check(&me, "a watermark for three of four parts", pcache_parts_new(&me.parts, &options), PCACHE_BAD_VALUE);
    options.watermark = 0;
    options.policy = 4;
    check(&me, "a policy that is none", pcache_parts_new(&me.parts, &options), PCACHE_BAD_VALUE);
    options.parts = SIZE_MAX;
    check(&me, "too many parts", pcache_parts_new(&me.parts, &options), PCACHE_NO_MEMORY);
    pcache_parts_end(me.parts);
}

/* ---- all of it ---- */

static worker workers[THREADS];

/* Plays with all threads, and returns the sum of their answers. */
static unsigned long play(void (*what)(worker *)) {
    unsigned long answers = 0;
    for (unsigned i = 0; i < THREADS; i++) {
        workers[i].answers = 0;
        start(&workers[i], what);
    }
    for (unsigned i = 0; i < THREADS; i++) {
        pthread_join(workers[i].thread, NULL);
        answers += workers[i].answers;
    }
    return answers;
}

static void add(pcache_counted *to, const pcache_counted *more) {
    to->hits += more->hits;
    to->misses += more->misses;
    to->waits += more->waits;
    to->fills += more->fills;
}

/* Compares what the cache counted with what the threads and this one did. */
static void compare_counts(const worker *me) {
    pcache_counted all = me->counted, counted;
    for (unsigned i = 0; i < THREADS; i++) add(&all, &workers[i].counted);
    if (pcache_parts_counted(me->parts, &counted) != PCACHE_OK || memcmp(&all, &counted, sizeof all) != 0)
        fail("counted", "others than were made, as of hits", (unsigned)counted.hits);
}

static void play_all(worker *me) {
    pcache_counted counted;
    pcache_cache_counts totals;
    play(ask_all_cold);
    check(me, "counted", pcache_parts_counted(me->parts, &counted), PCACHE_OK);
    printf("%u cold keys, each asked for by 200 requests: %lu fetched, %lu waited and read along\n", workers[0].cold,
           (unsigned long)counted.fills, (unsigned long)counted.hits);
    if (counted.waits != counted.hits || counted.misses != counted.fills) fail("counted", "waits", (unsigned)counted.waits);
    printf("purged: %lu\n", play(purge));
    check(me, "totals", pcache_parts_totals(me->parts, &totals), PCACHE_OK);
    printf("left: %zu bodies, %lu bytes\n", totals.bodies, (unsigned long)totals.stored_bytes);
    printf("4 pairs of threads talked: %lu bytes\n", play(talk));
    printf("%d keys: %lu permits, one after the other\n", PERMITS, play(pass_permits));
    printf("%d responses that are not stored: %lu gave up\n", REFUSALS, play(refuse));
    see_a_sleep(me);
    see_waits();
    see_a_hook();
    see_options();
    play(serve_on);
    for (unsigned i = 0; i < THREADS; i++)
        if (left[i].is) {
            read_all(me, left[i].request, left[i].key, 1);
            done(me, left[i].request);
        }
    compare_counts(me);
}

int main(int argc, char **argv) {
    const unsigned long calls = argc > 1 ? strtoul(argv[1], NULL, 10) : 1000000;
    pcache_parts_options options = {.limit = LIMIT, .bounded = 1, .age_timeout_millis = 10 * PATIENCE, .nap_millis = UINT64_MAX};
    worker me = {0};
    check(&me, "parts", pcache_parts_new(&me.parts, &options), PCACHE_OK);
    pthread_barrier_init(&together, NULL, THREADS);
    for (unsigned i = 0; i < THREADS; i++) {
        workers[i].parts = me.parts;
        workers[i].number = i;
        workers[i].random = i + 1;
        workers[i].most = calls / THREADS;
        workers[i].cold = (unsigned)(calls / 4000);
    }
    play_all(&me);
    pcache_parts_end(me.parts);
    pthread_barrier_destroy(&together);
    printf("8 threads, %lu calls: each byte was right, and the cache counted what they did\n", calls);
    return 0;
}
