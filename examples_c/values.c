/* Hashes, what Cache-Control says, a meta and its bytes, and an eviction manager, from C. It prints
 * what examples_rust/values.rs prints. */
#include "pcache_c.h"

#include <stdio.h>
#include <stdlib.h>
#include <string.h>

static void check(const char *what, uint32_t code, uint32_t wanted) {
    if (code != wanted) {
        fprintf(stderr, "%s: code %u, and not %u\n", what, (unsigned)code, (unsigned)wanted);
        exit(1);
    }
}

static const uint8_t *bytes(const char *text) { return (const uint8_t *)text; }

static void print_hash(const char *what, const uint8_t *hash) {
    printf("%s ", what);
    for (int i = 0; i < 16; i++) printf("%02x", hash[i]);
    printf("\n");
}

static void hashes(void) {
    uint8_t primary[16], variance[16], combined[16];
    check("hash", pcache_hash_key(bytes("aa"), 2, primary, 16), PCACHE_OK);
    print_hash("primary", primary);
    pcache_handle builder = {0, 0};
    check("variance", pcache_variance_new(&builder), PCACHE_OK);
    check("add", pcache_variance_add(&builder, bytes("accept"), 6, bytes("text/html"), 9), PCACHE_OK);
    check("finish", pcache_variance_finish(&builder, variance, 16), PCACHE_OK);
    print_hash("variance", variance);
    check("combined", pcache_combined_hash(primary, 16, variance, 16, combined, 16), PCACHE_OK);
    print_hash("combined", combined);
    check("combined of none", pcache_combined_hash(primary, 16, variance, 0, combined, 16), PCACHE_OK);
    printf("no variance: %s\n", memcmp(primary, combined, 16) == 0 ? "the primary hash" : "another");
}

static void add(pcache_handle *head, const char *name, const char *value) {
    check("field", pcache_head_add(head, bytes(name), strlen(name), bytes(value), strlen(value)), PCACHE_OK);
}

static void responses(void) {
    pcache_handle head = {0, 0}, control = {0, 0}, meta = {0, 0}, again = {0, 0};
    check("head", pcache_head_new(&head, 200), PCACHE_OK);
    check("no control", pcache_control_read(&control, &head), PCACHE_NONE);
    check("not stored", pcache_resp_cacheable(&meta, &head, 0, 0, 5, 1000, 0), PCACHE_NONE);
    add(&head, "Cache-Control", "public, max-age=60, stale-while-revalidate=10");
    add(&head, "Content-Type", "text/html");
    check("control", pcache_control_read(&control, &head), PCACHE_OK);
    pcache_answers said;
    check("answers", pcache_control_answers(&control, &said), PCACHE_OK);
    printf("cacheable %u authorized %u fresh %u/%llu while %u/%llu error %u/%llu\n", (unsigned)said.cacheable,
           (unsigned)said.authorized, (unsigned)said.has_fresh, (unsigned long long)said.fresh_secs,
           (unsigned)said.has_stale_while_revalidate, (unsigned long long)said.stale_while_revalidate_secs,
           (unsigned)said.has_stale_if_error, (unsigned long long)said.stale_if_error_secs);
    check("stored", pcache_resp_cacheable(&meta, &head, 0, 0, 5, 1000, 0), PCACHE_OK);
    pcache_meta says;
    check("says", pcache_meta_says(&meta, &says), PCACHE_OK);
    printf("created %llu fresh until %llu while %u error %u\n", (unsigned long long)says.created.secs,
           (unsigned long long)says.fresh_until.secs, (unsigned)says.stale_while_revalidate_secs,
           (unsigned)says.stale_if_error_secs);
    uint64_t at[3] = {1059, 1065, 1100};
    for (int i = 0; i < 3; i++) {
        pcache_servable may;
        check("servable", pcache_meta_servable(&meta, at[i], 0, &may), PCACHE_OK);
        printf("at %llu: fresh %u while %u error %u\n", (unsigned long long)at[i], (unsigned)may.fresh,
               (unsigned)may.while_revalidating, (unsigned)may.after_error);
    }
    uint8_t internal[256], header[256];
    size_t internal_len = 0, header_len = 0;
    check("lengths", pcache_meta_write(&meta, internal, 0, header, 0, &internal_len, &header_len), PCACHE_BAD_VALUE);
    check("write", pcache_meta_write(&meta, internal, sizeof internal, header, sizeof header, &internal_len, &header_len), PCACHE_OK);
    printf("internal %zu bytes, header %zu bytes\n", internal_len, header_len);
    check("read", pcache_meta_read(&again, internal, internal_len, header, header_len), PCACHE_OK);
    check("says again", pcache_meta_says(&again, &says), PCACHE_OK);
    printf("read back: fresh until %llu\n", (unsigned long long)says.fresh_until.secs);
    check("garbage", pcache_meta_read(&control, internal, 1, header, header_len), PCACHE_UNREADABLE);
    check("a head is no meta", pcache_meta_says(&head, &says), PCACHE_WRONG_KIND);
    check("end", pcache_end(&head), PCACHE_OK);
    check("end twice", pcache_end(&head), PCACHE_BAD_HANDLE);
    check("end", pcache_end(&control), PCACHE_OK);
    check("end", pcache_end(&meta), PCACHE_OK);
    check("end", pcache_end(&again), PCACHE_OK);
}

/* The head of a response as it came, read in one call, and its fields by name and one by one. */
static void received(void) {
    const char *text = "HTTP/1.1 301 Moved\r\nVary: accept\r\nLocation: /b \r\nvary: cookie\r\n\r\nbody";
    pcache_handle head = {0, 0};
    size_t taken, count, name_len, value_len;
    uint16_t status;
    uint8_t name[16], value[16];
    check("half a head", pcache_head_read(&head, bytes(text), 30, &taken), PCACHE_NONE);
    check("no head", pcache_head_read(&head, bytes("HTTP/3"), 6, &taken), PCACHE_UNREADABLE);
    check("head", pcache_head_read(&head, bytes(text), strlen(text), &taken), PCACHE_OK);
    check("status", pcache_head_status(&head, &status), PCACHE_OK);
    check("count", pcache_head_count(&head, bytes("VARY"), 4, &count), PCACHE_OK);
    printf("status %u, then %s, vary %zu times\n", (unsigned)status, text + taken, count);
    check("value", pcache_head_value(&head, bytes("Vary"), 4, 1, value, sizeof value, &value_len), PCACHE_OK);
    printf("the last is %.*s\n", (int)value_len, (const char *)value);
    check("past the last", pcache_head_value(&head, bytes("vary"), 4, 2, value, sizeof value, &value_len), PCACHE_NONE);
    check("no room", pcache_head_value(&head, bytes("vary"), 4, 0, value, 2, &value_len), PCACHE_BAD_VALUE);
    for (size_t i = 0;; i++) {
        uint32_t code = pcache_head_field(&head, i, name, sizeof name, value, sizeof value, &name_len, &value_len);
        if (code == PCACHE_NONE) break;
        check("field", code, PCACHE_OK);
        printf("%.*s: %.*s\n", (int)name_len, (const char *)name, (int)value_len, (const char *)value);
    }
    check("end", pcache_end(&head), PCACHE_OK);
}

static const uint8_t seed[16] = {1, 2, 3};
static const pcache_entry plain = {0, 0, 0, 0};

static void admit(pcache_handle *manager, const char *key, const char *tag, size_t weight) {
    uint8_t hash[16];
    check("hash", pcache_hash_key(bytes(key), strlen(key), hash, 16), PCACHE_OK);
    check("admit", pcache_manager_admit(manager, hash, 16, hash, 0, bytes(tag), strlen(tag), &plain, weight, 1060, 0), PCACHE_OK);
    for (;;) {
        uint8_t primary[16], variance[16], text[64];
        pcache_entry gone;
        uint32_t code = pcache_manager_next(manager, primary, 16, variance, 16, &gone);
        if (code == PCACHE_NONE) break;
        check("next", code, PCACHE_OK);
        check("tag", pcache_manager_tag(manager, text, sizeof text), PCACHE_OK);
        printf("%s lets go, with tag %.*s,", key, (int)gone.tag_len, (const char *)text);
        print_hash("", primary);
    }
}

static uint32_t touch(pcache_handle *manager, const char *key, const char *tag) {
    uint8_t hash[16];
    uint32_t was = 9;
    check("hash", pcache_hash_key(bytes(key), strlen(key), hash, 16), PCACHE_OK);
    check("access", pcache_manager_access(manager, hash, 16, hash, 0, bytes(tag), strlen(tag), &plain, 1, 1060, 0, &was), PCACHE_OK);
    return was;
}

static void print_totals(pcache_handle *manager) {
    pcache_totals now;
    check("totals", pcache_manager_totals(manager, &now), PCACHE_OK);
    printf("weight %zu entries %zu evicted %zu/%zu\n", now.weight, now.entries, now.evicted_weight, now.evicted_entries);
}

static void managers(void) {
    pcache_handle manager = {0, 0}, second = {0, 0};
    check("manager", pcache_simple_lru_new(&manager, seed, 16, 4, 0), PCACHE_OK);
    admit(&manager, "a", "ann", 2);
    admit(&manager, "b", "bob", 2);
    printf("a was there: %u\n", (unsigned)touch(&manager, "a", "ann"));
    admit(&manager, "c", "", 2);
    print_totals(&manager);
    uint8_t file[512];
    size_t len = 0;
    check("length", pcache_manager_save(&manager, 0, file, 0, &len), PCACHE_BAD_VALUE);
    check("save", pcache_manager_save(&manager, 0, file, sizeof file, &len), PCACHE_OK);
    printf("file of %zu bytes\n", len);
    check("second", pcache_simple_lru_new(&second, seed, 16, 4, 0), PCACHE_OK);
    check("no file", pcache_manager_load(&second, file, len - 1), PCACHE_UNREADABLE);
    check("load", pcache_manager_load(&second, file, len), PCACHE_OK);
    print_totals(&second);
    uint8_t hash[16];
    uint32_t was = 9;
    check("hash", pcache_hash_key(bytes("c"), 1, hash, 16), PCACHE_OK);
    check("remove", pcache_manager_remove(&second, hash, 16, hash, 0, hash, 0, &plain), PCACHE_OK);
    check("peek", pcache_manager_peek(&second, hash, 16, hash, 0, hash, 0, &plain, &was), PCACHE_OK);
    printf("c is there: %u\n", (unsigned)was);
    check("increment", pcache_manager_increment(&second, hash, 16, hash, 0, hash, 0, &plain, 9, 2), PCACHE_OK);
    print_totals(&second);
    check("end", pcache_end(&second), PCACHE_OK);
    check("sharded", pcache_sharded_lru_new(&second, seed, 16, 4, 0), PCACHE_OK);
    admit(&second, "a", "", 2);
    admit(&second, "b", "", 2);
    print_totals(&second);
    check("end", pcache_end(&second), PCACHE_OK);
    check("end", pcache_end(&manager), PCACHE_OK);
}

int main(void) {
    hashes();
    responses();
    received();
    managers();
    return 0;
}
