/* How many requests for memory the decisions on a stored response make: none. Each kind of decision is made a thousand times, and
 * malloc, realloc and calloc count their calls meanwhile (with glibc, whose own are called for them). */
#include "pcache_c.h"

#include <stdio.h>
#include <stdlib.h>
#include <string.h>

void *__libc_malloc(size_t size);
void *__libc_realloc(void *at, size_t size);
void *__libc_calloc(size_t count, size_t size);

static unsigned long asked_for;

void *malloc(size_t size) {
    asked_for++;
    return __libc_malloc(size);
}

void *realloc(void *at, size_t size) {
    asked_for++;
    return __libc_realloc(at, size);
}

void *calloc(size_t count, size_t size) {
    asked_for++;
    return __libc_calloc(count, size);
}

static void check(const char *what, uint32_t code) {
    if (code != PCACHE_OK) {
        fprintf(stderr, "%s: code %u\n", what, (unsigned)code);
        exit(1);
    }
}

static const uint8_t *bytes(const char *text) { return (const uint8_t *)text; }

/* What is stored: fresh for an hour from the second 1000 on, with both validators, for each Accept-Encoding. */
static void store(pcache_handle *meta) {
    static const char *const fields[][2] = {
        {"date", "Thu, 01 Jan 1970 00:16:40 GMT"},
        {"content-type", "text/html"},
        {"cache-control", "public, max-age=3600, stale-while-revalidate=60, stale-if-error=600"},
        {"vary", "Accept-Encoding, Accept-Language"},
        {"etag", "\"33a64df551425fcc55e4d42a148795d9f25f89d4\""},
        {"last-modified", "Thu, 01 Jan 1970 00:10:00 GMT"},
        {"age", "5"},
    };
    pcache_handle head = {0, 0};
    pcache_meta said = {0};
    size_t i;
    check("head", pcache_head_new(&head, 200));
    for (i = 0; i < sizeof fields / sizeof *fields; i++)
        check("field", pcache_head_add(&head, bytes(fields[i][0]), strlen(fields[i][0]), bytes(fields[i][1]), strlen(fields[i][1])));
    said.created.secs = said.updated.secs = 1000;
    said.fresh_until.secs = 4600;
    check("meta", pcache_meta_new(meta, &head, &said));
    check("end", pcache_end(&head));
}

/* A request with usual fields, and one more. */
static void ask(pcache_handle *asked, const char *method, const char *name, const char *value) {
    static const char *const fields[][2] = {
        {"host", "example.org"},
        {"accept", "text/html,application/xhtml+xml"},
        {"accept-encoding", "gzip, br"},
        {"accept-language", "en, de"},
        {"user-agent", "one/1.0"},
    };
    size_t i;
    check("request", pcache_asked_new(asked, bytes(method), strlen(method), bytes("/news"), 5));
    for (i = 0; i < sizeof fields / sizeof *fields; i++)
        check("field", pcache_asked_add(asked, bytes(fields[i][0]), strlen(fields[i][0]), bytes(fields[i][1]), strlen(fields[i][1])));
    if (*name) check("field", pcache_asked_add(asked, bytes(name), strlen(name), bytes(value), strlen(value)));
}

/* The decision on a request at a second: `does`, what it is to be, and how many requests for memory a thousand of them made. */
static void decide(const char *what, uint64_t now, pcache_handle *meta, const char *method, const char *name, const char *value) {
    pcache_handle asked = {0, 0}, original = {0, 0};
    pcache_decision out = {0};
    pcache_terms terms = {0};
    unsigned long before;
    int i;
    terms.at.secs = now;
    terms.requested.secs = 1000;
    terms.is_alone = 1;
    ask(&asked, method, name, value);
    ask(&original, "GET", "", "");
    before = asked_for;
    for (i = 0; i < 1000; i++) check("decide", pcache_decide_stored(&terms, &asked, meta, &original, &out));
    printf("%s: does %u reuse %u answer %u: %lu requests\n", what, (unsigned)out.does, (unsigned)out.reuse, (unsigned)out.answer, asked_for - before);
    check("end", pcache_end(&asked));
    check("end", pcache_end(&original));
}

/* The same of what else is asked on the way: the validators, what becomes of a failure, and of a request for which nothing is stored. */
static void decide_besides(pcache_handle *meta) {
    pcache_handle asked = {0, 0}, original = {0, 0};
    pcache_decision decision = {0};
    pcache_outcome outcome = {0};
    pcache_terms terms = {0};
    uint8_t tag[64], since[64];
    size_t tag_len, since_len;
    unsigned long before;
    int i;
    terms.at.secs = 4900;
    terms.requested.secs = 1000;
    ask(&asked, "GET", "", "");
    ask(&original, "GET", "", "");
    before = asked_for;
    for (i = 0; i < 1000; i++) {
        check("validators", pcache_meta_validators(meta, tag, sizeof tag, since, sizeof since, &tag_len, &since_len));
        check("failed", pcache_decide_failed(&terms, &asked, meta, &original, &outcome));
        check("missing", pcache_decide_missing(&asked, &decision));
    }
    printf("validators, a failure, nothing stored: %lu requests\n", asked_for - before);
    check("end", pcache_end(&asked));
    check("end", pcache_end(&original));
}

int main(void) {
    pcache_handle meta = {0, 0};
    store(&meta);
    printf("what is stored: some requests: %s\n", asked_for ? "yes" : "no");
    decide("fresh", 1060, &meta, "GET", "", "");
    decide("fresh, with directives", 1060, &meta, "GET", "cache-control", "max-age=600, min-fresh=10, max-stale");
    decide("a HEAD", 1060, &meta, "HEAD", "", "");
    decide("a client that has it", 1060, &meta, "GET", "if-none-match", "\"1\", W/\"2\", \"33a64df551425fcc55e4d42a148795d9f25f89d4\"");
    decide("a client that has it since", 1060, &meta, "GET", "if-modified-since", "Thu, 01 Jan 1970 00:15:00 GMT");
    decide("a range", 1060, &meta, "GET", "range", "bytes=0-9");
    decide("stale while it is validated", 4630, &meta, "GET", "", "");
    decide("to be validated", 4900, &meta, "GET", "", "");
    decide("wanted from the store alone", 4900, &meta, "GET", "cache-control", "only-if-cached");
    decide_besides(&meta);
    check("end", pcache_end(&meta));
    return 0;
}
