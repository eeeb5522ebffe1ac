/* What HTTP's rules of caching decide of requests and responses, from C. It prints what examples_rust/decisions.rs prints. */
#include "pcache_c.h"

#include <stdio.h>
#include <stdlib.h>
#include <string.h>

static void check(const char *what, uint32_t code, uint32_t wanted) {
    if (code != wanted) {
        fprintf(stderr, "%s: code %u, and not %u\n", what, (unsigned)code, (unsigned)wanted);
        exit(1);
    }
}

static const uint8_t *bytes(const char *text) { return (const uint8_t *)text; }

static void ask(pcache_handle *asked, const char *method, const char *name, const char *value) {
    check("request", pcache_asked_new(asked, bytes(method), strlen(method), bytes("/news"), 5), PCACHE_OK);
    if (*name) check("field", pcache_asked_add(asked, bytes(name), strlen(name), bytes(value), strlen(value)), PCACHE_OK);
}

static void answer(pcache_handle *head, uint16_t status) { check("head", pcache_head_new(head, status), PCACHE_OK); }

static void add(pcache_handle *head, const char *name, const char *value) {
    check("field", pcache_head_add(head, bytes(name), strlen(name), bytes(value), strlen(value)), PCACHE_OK);
}

static void end(pcache_handle *handle) { check("end", pcache_end(handle), PCACHE_OK); }

static pcache_terms at(uint64_t now) {
    pcache_terms terms = {0};
    terms.at.secs = now;
    terms.requested.secs = 1000;
    terms.is_alone = 1;
    return terms;
}

static void missing(const char *what, const char *name, const char *value) {
    pcache_handle asked = {0, 0};
    pcache_decision out;
    ask(&asked, "GET", name, value);
    check("missing", pcache_decide_missing(&asked, &out), PCACHE_OK);
    printf("%s: does %u\n", what, (unsigned)out.does);
    end(&asked);
}

static void stored(const char *what, uint64_t now, pcache_handle *meta, pcache_handle *original, const char *name, const char *value) {
    pcache_handle asked = {0, 0};
    pcache_decision out;
    pcache_terms terms = at(now);
    ask(&asked, "GET", name, value);
    check("stored", pcache_decide_stored(&terms, &asked, meta, original, &out), PCACHE_OK);
    printf("%s: does %u reuse %u answer %u age %u\n", what, (unsigned)out.does, (unsigned)out.reuse, (unsigned)out.answer, (unsigned)out.age);
    end(&asked);
}

static void tell(const char *what, const pcache_outcome *out, pcache_handle *kept) {
    printf("%s: does %u reason %u answer %u age %u", what, (unsigned)out->does, (unsigned)out->reason, (unsigned)out->answer, (unsigned)out->age);
    if (kept->tag) {
        pcache_meta says;
        check("says", pcache_meta_says(kept, &says), PCACHE_OK);
        printf(", fresh until %llu", (unsigned long long)says.fresh_until.secs);
    }
    printf("\n");
}

static void fetched(const char *what, const char *method, pcache_handle *response, pcache_handle *kept) {
    pcache_handle asked = {0, 0};
    pcache_outcome out;
    pcache_terms terms = at(1000);
    ask(&asked, method, "", "");
    check("fetched", pcache_decide_fetched(kept, &terms, &asked, response, &out), PCACHE_OK);
    tell(what, &out, kept);
    end(&asked);
    end(response);
}

static void validated(const char *what, uint64_t now, pcache_handle *meta, pcache_handle *response) {
    pcache_handle asked = {0, 0}, kept = {0, 0}, none = {0, 0};
    pcache_outcome out;
    pcache_terms terms = at(now);
    ask(&asked, "GET", "", "");
    check("validated", pcache_decide_validated(&kept, &terms, &asked, meta, &none, response, &out), PCACHE_OK);
    tell(what, &out, &kept);
    if (kept.tag) end(&kept);
    end(&asked);
    end(response);
}

static void failed(const char *what, uint64_t now, pcache_handle *meta) {
    pcache_handle asked = {0, 0}, none = {0, 0};
    pcache_outcome out;
    pcache_terms terms = at(now);
    ask(&asked, "GET", "", "");
    uint32_t code = pcache_decide_failed(&terms, &asked, meta, &none, &out);
    if (code == PCACHE_NONE) printf("%s: nothing\n", what);
    else tell(what, &out, &none);
    end(&asked);
}

int main(void) {
    pcache_handle response = {0, 0}, meta = {0, 0}, kept = {0, 0}, none = {0, 0}, original = {0, 0};
    missing("nothing stored", "", "");
    missing("only-if-cached", "Cache-Control", "only-if-cached");

    answer(&response, 200);
    add(&response, "Cache-Control", "max-age=60, stale-if-error=30");
    add(&response, "ETag", "\"1\"");
    add(&response, "Vary", "Accept-Language");
    add(&response, "Connection", "x-hop");
    add(&response, "X-Hop", "1");
    fetched("a 200", "GET", &response, &meta);
    uint8_t internal[256], header[256];
    size_t internal_len, header_len;
    check("write", pcache_meta_write(&meta, internal, sizeof internal, header, sizeof header - 1, &internal_len, &header_len), PCACHE_OK);
    header[header_len] = 0;
    printf("its hop is stored: %u\n", (unsigned)(strstr((const char *)header, "x-hop") != 0));

    stored("at 1020", 1020, &meta, &none, "", "");
    stored("if none match", 1020, &meta, &none, "If-None-Match", "W/\"1\"");
    stored("at 1060", 1060, &meta, &none, "", "");
    ask(&original, "GET", "Accept-Language", "en");
    stored("in German", 1020, &meta, &original, "Accept-Language", "de");
    stored("in English", 1020, &meta, &original, "Accept-Language", "en");
    uint8_t tag[16], since[16];
    size_t tag_len, since_len;
    check("short", pcache_meta_validators(&meta, tag, 1, since, sizeof since, &tag_len, &since_len), PCACHE_BAD_VALUE);
    check("validators", pcache_meta_validators(&meta, tag, sizeof tag, since, sizeof since, &tag_len, &since_len), PCACHE_OK);
    printf("validators %.*s and %zu bytes\n", (int)tag_len, (const char *)tag, since_len);

    answer(&response, 304);
    add(&response, "ETag", "\"1\"");
    add(&response, "Cache-Control", "max-age=100");
    validated("a 304", 1061, &meta, &response);
    answer(&response, 304);
    add(&response, "ETag", "\"2\"");
    validated("another 304", 1061, &meta, &response);
    answer(&response, 503);
    validated("a 503", 1061, &meta, &response);
    answer(&response, 200);
    add(&response, "Cache-Control", "private");
    validated("a 200 for one user", 1061, &meta, &response);
    failed("no answer at 1061", 1061, &meta);
    failed("no answer at 1200", 1200, &meta);

    answer(&response, 200);
    fetched("a POST", "POST", &response, &kept);
    answer(&response, 201);
    add(&response, "Location", "/news/7");
    add(&response, "Content-Location", "http://other.example/news");
    uint8_t location[64], content[64];
    size_t location_len = 0, content_len = 0;
    check("no URI", pcache_taken_away(&response, bytes("/news"), 5, location, sizeof location, content, sizeof content, &location_len, &content_len), PCACHE_BAD_VALUE);
    check("taken away", pcache_taken_away(&response, bytes("http://example.org/news"), 23, location, sizeof location, content, sizeof content, &location_len, &content_len), PCACHE_OK);
    printf("it takes away %.*s and %zu bytes\n", (int)location_len, (const char *)location, content_len);
    end(&response);
    answer(&response, 404);
    fetched("a POST in vain", "POST", &response, &kept);
    check("a meta is no request", pcache_asked_add(&meta, bytes("a"), 1, bytes("b"), 1), PCACHE_WRONG_KIND);
    check("no method", pcache_asked_new(&kept, bytes("G T"), 3, bytes("/"), 1), PCACHE_BAD_VALUE);
    end(&original);
    end(&meta);
    return 0;
}
