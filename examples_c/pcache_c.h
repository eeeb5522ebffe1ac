/* The proved cache, for C and C++. docs/FROM_C.md says what a caller has to uphold, and walks through a
 * request.
 *
 * A handle is kept by the caller and begins as all zeros. It leads to an object of one kind, and is ended
 * once. Bytes go in as a pointer and a length, and come out in a buffer of the caller's. Pointers are never
 * null, those of empty buffers neither.
 *
 * Threads: a handle may be used by one thread at a time, whichever that is, so a lock around each handle is
 * enough. Two calls on one handle at once are the caller's fault, and nothing tells them. Calls on different
 * handles may run at once, also on a cache, a view of one of its bodies and a meta of one of its requests.
 * A request is a number of its cache, so its calls are calls on the cache's handle. pcache_parts.h has a
 * cache behind such locks, and waits that block.
 *
 * bench/make/archives.py makes what is linked, proved or not, which pcache_is_proved tells:
 *   gcc program.c -I build/c build/c/libpcache_c.a build/c/libpcache_heap.a */
#ifndef PCACHE_C_H
#define PCACHE_C_H

#include <stddef.h>
#include <stdint.h>

#ifdef __cplusplus
extern "C" {
#endif

/* What each function returns. */
enum {
    PCACHE_OK = 0,
    PCACHE_NO_MEMORY = 1,        /* memory that was asked for was not given */
    PCACHE_BAD_HANDLE = 2,       /* no object, or one where there was to be none */
    PCACHE_WRONG_KIND = 3,       /* the object is of another kind */
    PCACHE_BAD_VALUE = 4,        /* a number, text or length that the call does not take */
    PCACHE_UNREADABLE = 5,       /* bytes that cannot be read */
    PCACHE_NONE = 6,             /* there is nothing to hand over */
    PCACHE_WRONG_CALL = 7,       /* the call may not be made now */
    PCACHE_INVALID_HEAD = 8,
    PCACHE_TOO_LARGE = 9,
    PCACHE_INCOMPLETE = 10,
    PCACHE_REMOVED = 11,
    PCACHE_EXHAUSTED = 12,
    PCACHE_IO = 13,
    PCACHE_SUPERSEDED = 14       /* a newer body of the key stands */
};

/* An object, or nothing if all is zero. The fields are the library's. */
typedef struct pcache_handle {
    uint64_t tag;
    void *at;
} pcache_handle;

/* Ends an object of any kind and frees what it has. The handle is nothing from then on. */
uint32_t pcache_end(pcache_handle *handle);

/* 1 if the archive was built by the proof, 0 if it was compiled without one. */
uint32_t pcache_is_proved(void);

/* ---- hashes: 16 bytes each ---- */

uint32_t pcache_hash_key(const uint8_t *key, size_t key_len, uint8_t *out, size_t out_len);
/* No variance is one of no bytes. */
uint32_t pcache_combined_hash(const uint8_t *primary, size_t primary_len, const uint8_t *variance,
                              size_t variance_len, uint8_t *out, size_t out_len);
uint32_t pcache_variance_new(pcache_handle *variance);
/* The name is UTF-8. The last value of a name stands. */
uint32_t pcache_variance_add(pcache_handle *variance, const uint8_t *name, size_t name_len,
                             const uint8_t *value, size_t value_len);
/* Ends the handle. PCACHE_NONE if nothing was added. */
uint32_t pcache_variance_finish(pcache_handle *variance, uint8_t *out, size_t out_len);

/* ---- heads of responses, and Cache-Control ---- */

uint32_t pcache_head_new(pcache_handle *head, uint16_t status);
uint32_t pcache_head_add(pcache_handle *head, const uint8_t *name, size_t name_len,
                         const uint8_t *value, size_t value_len);

/* The head at the start of the bytes in which a response came, up to its empty line: `taken` is its length, and the body begins
 * there. PCACHE_NONE if it has not ended yet: ask again with more bytes. PCACHE_UNREADABLE for bytes that are no head, and for one
 * with more than 256 fields. */
uint32_t pcache_head_read(pcache_handle *head, const uint8_t *bytes, size_t bytes_len, size_t *taken);

/* Seconds count only if their flag is not 0. */
typedef struct pcache_answers {
    uint64_t fresh_secs;
    uint64_t stale_while_revalidate_secs;
    uint64_t stale_if_error_secs;
    uint32_t cacheable; /* 0 no, 1 yes, 2 as by default */
    uint32_t authorized;
    uint32_t has_fresh;
    uint32_t has_stale_while_revalidate;
    uint32_t has_stale_if_error;
} pcache_answers;

/* PCACHE_NONE if the head has no Cache-Control. */
uint32_t pcache_control_read(pcache_handle *control, pcache_handle *head);
uint32_t pcache_control_answers(pcache_handle *control, pcache_answers *out);
/* PCACHE_NONE if the response is not to be stored. The meta has the fields of the head but those that Cache-Control
 * names, as in private="x"; the head stays as it is. */
uint32_t pcache_resp_cacheable(pcache_handle *meta, pcache_handle *head, uint32_t authorization,
                               uint32_t stale_while_revalidate_secs, uint32_t stale_if_error_secs,
                               uint64_t now_secs, uint32_t now_nanos);

/* ---- metas of stored responses ---- */

/* Since 1970-01-01 00:00:00 UTC. */
typedef struct pcache_moment {
    uint64_t secs;
    uint32_t nanos;
} pcache_moment;

typedef struct pcache_meta {
    pcache_moment created;
    pcache_moment updated;
    pcache_moment fresh_until;
    uint32_t stale_while_revalidate_secs;
    uint32_t stale_if_error_secs;
} pcache_meta;

typedef struct pcache_servable {
    uint32_t fresh;
    uint32_t while_revalidating;
    uint32_t after_error;
} pcache_servable;

/* A meta of all fields of the head, also of those that pcache_resp_cacheable leaves out: store its metas instead. */
uint32_t pcache_meta_new(pcache_handle *meta, pcache_handle *head, const pcache_meta *said);
uint32_t pcache_meta_says(pcache_handle *meta, pcache_meta *out);
/* What the response varies on: 16 bytes, or PCACHE_NONE. */
uint32_t pcache_meta_variance(pcache_handle *meta, uint8_t *out, size_t out_len);
/* Sets that; no variance is one of no bytes. A meta that renews a stored one has to have its variance: else that is found as another
 * variant from then on. */
uint32_t pcache_meta_vary(pcache_handle *meta, const uint8_t *variance, size_t variance_len);
uint32_t pcache_meta_servable(pcache_handle *meta, uint64_t now_secs, uint32_t now_nanos,
                              pcache_servable *out);
uint32_t pcache_meta_read(pcache_handle *meta, const uint8_t *internal, size_t internal_len,
                          const uint8_t *header, size_t header_len);
/* Says both lengths first. PCACHE_BAD_VALUE if a buffer is too short, and nothing is written. */
uint32_t pcache_meta_write(pcache_handle *meta, uint8_t *internal, size_t internal_room,
                           uint8_t *header, size_t header_room, size_t *internal_len,
                           size_t *header_len);

/* ---- the status and the fields of a head: of one that was made or read, and of a meta (as of a stored response) ---- */

uint32_t pcache_head_status(pcache_handle *head, uint16_t *status);
/* How many values a name has, in any case: 0 where there is no such field. */
uint32_t pcache_head_count(pcache_handle *head, const uint8_t *name, size_t name_len, size_t *count);
/* The value with this number, from 0, of those of a name in any case. Says its length first. PCACHE_BAD_VALUE if the buffer is too
 * short, and nothing is written; PCACHE_NONE past the last one. */
uint32_t pcache_head_value(pcache_handle *head, const uint8_t *name, size_t name_len, size_t index,
                           uint8_t *out, size_t out_room, size_t *len);
/* The field with this number, from 0: a name in lower case, and a value. A name with several values is there once for each, one
 * after another. Says both lengths first. PCACHE_BAD_VALUE if a buffer is too short, and nothing is written; PCACHE_NONE past the
 * last one. Each call goes through the fields before it. */
uint32_t pcache_head_field(pcache_handle *head, size_t index, uint8_t *name, size_t name_room,
                           uint8_t *value, size_t value_room, size_t *name_len, size_t *value_len);

/* ---- heads of requests ---- */

/* PCACHE_BAD_VALUE for a method that is none. */
uint32_t pcache_asked_new(pcache_handle *asked, const uint8_t *method, size_t method_len,
                          const uint8_t *target, size_t target_len);
uint32_t pcache_asked_add(pcache_handle *asked, const uint8_t *name, size_t name_len,
                          const uint8_t *value, size_t value_len);

/* ---- what HTTP's rules of caching decide (RFC 9111) ---- */

/* What a decision goes by besides heads. All zeros but the moments: a shared cache that guesses no lifetimes. */
typedef struct pcache_terms {
    pcache_moment at;           /* of the decision: of a response, when it was received */
    pcache_moment requested;    /* when the request was sent that the stored response answered, or that validated it last */
    uint32_t is_private;        /* the cache is that of one user */
    uint32_t repeated_is_stale; /* a response is stale that says its lifetime twice; else the first one counts */
    uint32_t most_guessed_secs; /* the most that a lifetime is guessed to be, or 0 for no guess */
    uint32_t is_alone;          /* the stored response is the only one that could be chosen for the request */
    uint32_t is_processed;      /* its body was processed before it was stored, as decoded */
} pcache_terms;

enum { PCACHE_SERVE = 0, PCACHE_VALIDATE = 1, PCACHE_FETCH = 2, PCACHE_ONLY_IF_CACHED = 3 };
enum { PCACHE_REUSE_FRESH = 0, PCACHE_REUSE_WHILE_REVALIDATING = 1, PCACHE_REUSE_ACCEPTED = 2 };
enum { PCACHE_ANSWER_FULL = 0, PCACHE_ANSWER_RANGE = 1, PCACHE_ANSWER_NOT_MODIFIED = 2 };

/* What becomes of a request. The last three count with PCACHE_SERVE alone. */
typedef struct pcache_decision {
    uint32_t does;
    uint32_t reuse;
    uint32_t answer;
    uint32_t age; /* the Age to send */
} pcache_decision;

uint32_t pcache_decide_missing(pcache_handle *asked, pcache_decision *out);
/* With a meta that the store has. `original` has the head of the request that it was stored for, or nothing where that had the
 * same fields as this one (as where the key tells variants apart). */
uint32_t pcache_decide_stored(const pcache_terms *terms, pcache_handle *asked, pcache_handle *meta,
                              pcache_handle *original, pcache_decision *out);
/* With which fields to validate: If-None-Match and If-Modified-Since, of which one of no bytes is not sent. Says both lengths
 * first. PCACHE_BAD_VALUE if a buffer is too short, and nothing is written. */
uint32_t pcache_meta_validators(pcache_handle *meta, uint8_t *tag, size_t tag_room, uint8_t *since,
                                size_t since_room, size_t *tag_len, size_t *since_len);

enum {
    PCACHE_STORE = 0,       /* pass it on, and store it with the meta in `kept` */
    PCACHE_FRESHEN = 1,     /* it is a 304: answer with what is stored, with the meta in `kept`, and store that if `reason` is 0 */
    PCACHE_FETCH_AGAIN = 2, /* send the request again, without conditions */
    PCACHE_SERVE_STALE = 3, /* it is an error: answer with what is stored */
    PCACHE_UPDATE = 4,      /* pass it on (it answers a HEAD); the meta of what is stored is the one in `kept` now */
    PCACHE_MARK_STALE = 5,  /* pass it on (it answers a HEAD), and remove what is stored */
    PCACHE_INVALIDATE = 6,  /* pass it on, and purge its target */
    PCACHE_PASS_ON = 7      /* pass it on, and store nothing, for the reason that is said */
};
enum {
    PCACHE_METHOD_NOT_UNDERSTOOD = 1,
    PCACHE_STATUS_NOT_FINAL = 2,
    PCACHE_STATUS_NOT_UNDERSTOOD = 3,
    PCACHE_NO_STORE_ASKED = 4,
    PCACHE_NO_STORE_SAID = 5,
    PCACHE_PRIVATE_SAID = 6,
    PCACHE_AUTHORIZED = 7,
    PCACHE_NOTHING_ALLOWS_IT = 8
};

/* What becomes of a response: `reason` counts with PCACHE_FRESHEN and PCACHE_PASS_ON, `answer` with PCACHE_FRESHEN and
 * PCACHE_SERVE_STALE, `age` with the latter. */
typedef struct pcache_outcome {
    uint32_t does;
    uint32_t reason;
    uint32_t answer;
    uint32_t age;
} pcache_outcome;

/* Of the response to a request that was sent on as it came: after PCACHE_FETCH, and again after PCACHE_FETCH_AGAIN. */
uint32_t pcache_decide_fetched(pcache_handle *kept, const pcache_terms *terms, pcache_handle *asked,
                               pcache_handle *response, pcache_outcome *out);
/* Of the response to one that was sent with the validators of what is stored: after PCACHE_VALIDATE. */
uint32_t pcache_decide_validated(pcache_handle *kept, const pcache_terms *terms, pcache_handle *asked,
                                 pcache_handle *meta, pcache_handle *original,
                                 pcache_handle *response, pcache_outcome *out);
/* If no response came to it. PCACHE_NONE if what is stored may not answer. */
uint32_t pcache_decide_failed(const pcache_terms *terms, pcache_handle *asked, pcache_handle *meta,
                              pcache_handle *original, pcache_outcome *out);

/* Which URIs a response to an unsafe method takes away besides its target, whose URI is handed in: those of its Location and
 * of its Content-Location, if they are of the target's origin; one of no bytes is none. Says both lengths first.
 * PCACHE_BAD_VALUE if a buffer is too short, and nothing is written, or if the target is no URI. */
uint32_t pcache_taken_away(pcache_handle *response, const uint8_t *target, size_t target_len,
                           uint8_t *location, size_t location_room, uint8_t *content_location,
                           size_t content_location_room, size_t *location_len,
                           size_t *content_location_len);

/* ---- eviction managers ---- */

/* What stands beside the hashes and the tag of an entry's key. `has_variance` and `tag_len` are
 * written, and not read. */
typedef struct pcache_entry {
    uint64_t id;
    uint32_t has_id;
    uint32_t has_variance;
    size_t tag_len;
} pcache_entry;

typedef struct pcache_totals {
    size_t weight;
    size_t entries;
    size_t evicted_weight;
    size_t evicted_entries;
    size_t waiting; /* evicted, and not handed over yet */
} pcache_totals;

/* The seed is 16 bytes that the caller drew at random. A watermark of 0 is none. */
uint32_t pcache_simple_lru_new(pcache_handle *manager, const uint8_t *seed, size_t seed_len,
                               size_t limit, size_t watermark);
uint32_t pcache_sharded_lru_new(pcache_handle *manager, const uint8_t *seed, size_t seed_len,
                                size_t limit, size_t watermark);
/* PCACHE_WRONG_CALL while evicted entries wait to be handed over. */
uint32_t pcache_manager_admit(pcache_handle *manager, const uint8_t *primary, size_t primary_len,
                              const uint8_t *variance, size_t variance_len, const uint8_t *tag,
                              size_t tag_len, const pcache_entry *entry, size_t weight,
                              uint64_t fresh_until_secs, uint32_t fresh_until_nanos);
/* `most` is what the weight may become, or 0. */
uint32_t pcache_manager_increment(pcache_handle *manager, const uint8_t *primary,
                                  size_t primary_len, const uint8_t *variance, size_t variance_len,
                                  const uint8_t *tag, size_t tag_len, const pcache_entry *entry,
                                  size_t delta, size_t most);
uint32_t pcache_manager_access(pcache_handle *manager, const uint8_t *primary, size_t primary_len,
                               const uint8_t *variance, size_t variance_len, const uint8_t *tag,
                               size_t tag_len, const pcache_entry *entry, size_t weight,
                               uint64_t fresh_until_secs, uint32_t fresh_until_nanos,
                               uint32_t *was);
uint32_t pcache_manager_remove(pcache_handle *manager, const uint8_t *primary, size_t primary_len,
                               const uint8_t *variance, size_t variance_len, const uint8_t *tag,
                               size_t tag_len, const pcache_entry *entry);
uint32_t pcache_manager_peek(pcache_handle *manager, const uint8_t *primary, size_t primary_len,
                             const uint8_t *variance, size_t variance_len, const uint8_t *tag,
                             size_t tag_len, const pcache_entry *entry, uint32_t *was);
uint32_t pcache_manager_totals(pcache_handle *manager, pcache_totals *out);
/* The next evicted entry: its hashes go to two buffers of 16. PCACHE_NONE after the last. */
uint32_t pcache_manager_next(pcache_handle *manager, uint8_t *primary, size_t primary_len,
                             uint8_t *variance, size_t variance_len, pcache_entry *out);
/* The tag of the entry that was handed over last. */
uint32_t pcache_manager_tag(pcache_handle *manager, uint8_t *out, size_t out_len);
/* Says the length first. Shard 0 of a manager with one list, 0 to 15 of one in shards. */
uint32_t pcache_manager_save(pcache_handle *manager, size_t shard, uint8_t *out, size_t out_room,
                             size_t *len);
uint32_t pcache_manager_load(pcache_handle *manager, const uint8_t *bytes, size_t bytes_len);

/* ---- a cache with its requests ---- */

/* A request is a number that is good for the cache that gave it, until it is ended; one that was
 * ended is refused as PCACHE_BAD_HANDLE, and one that another cache gave may name another request. A
 * call that may not be made where the request stands is PCACHE_WRONG_CALL and changes nothing. */

typedef struct pcache_cache_counts {
    uint64_t stored_bytes; /* of complete bodies: at most the limit */
    size_t bodies;         /* at most the watermark, if there is one */
    size_t weight;
    size_t entries;
    size_t evicted_weight;
    size_t evicted_entries;
} pcache_cache_counts;

/* What a cache counted since it was made: only calls that returned PCACHE_OK count. Each count stops at its largest number. */
typedef struct pcache_counted {
    uint64_t hits;       /* pcache_request_take as fresh */
    uint64_t stale_hits; /* pcache_request_take as expired */
    uint64_t misses;     /* pcache_request_miss; a request that took a stale body before is in both counts */
    uint64_t waits;      /* pcache_request_wait that said how the wait ended */
    uint64_t fills;      /* pcache_request_finish that stored a body */
} pcache_counted;

/* Where a request stands. */
enum {
    PCACHE_DISABLED = 0,
    PCACHE_UNINIT = 1,
    PCACHE_BYPASS = 2,
    PCACHE_KEY = 3,
    PCACHE_HIT = 4,
    PCACHE_MISS = 5,
    PCACHE_STALE = 6,
    PCACHE_STALE_UPDATING = 7,
    PCACHE_EXPIRED = 8,
    PCACHE_REVALIDATED = 9,
    PCACHE_REVALIDATED_NO_CACHE = 10
};

/* What a hit is worth. */
enum {
    PCACHE_IS_EXPIRED = 0,
    PCACHE_FORCE_EXPIRED = 1,
    PCACHE_FORCE_EXPIRED_SERVE_STALE = 2,
    PCACHE_FORCE_MISS = 3,
    PCACHE_FAILED_HIT_FILTER = 4,
    PCACHE_IS_FRESH = 5,
    PCACHE_FORCE_FRESH = 6
};

/* Why nothing is stored. */
enum {
    PCACHE_NEVER_ENABLED = 0,
    PCACHE_ORIGIN_NOT_CACHE = 1,
    PCACHE_RESPONSE_TOO_LARGE = 2,
    PCACHE_PREDICTED_TOO_LARGE = 3,
    PCACHE_STORAGE_ERROR = 4,
    PCACHE_INTERNAL_ERROR = 5,
    PCACHE_DEFERRED = 6,
    PCACHE_DECLINED_TO_UPSTREAM = 7,
    PCACHE_UPSTREAM_ERROR = 8,
    PCACHE_LOCK_GIVE_UP = 9,
    PCACHE_LOCK_TIMEOUT = 10,
    PCACHE_LOCK_RETRY_LIMIT = 11,
    PCACHE_CUSTOM_REASON = 12
};

/* How a wait ended, if it is over. */
enum {
    PCACHE_WAITS = 0,
    PCACHE_WAS_DONE = 1,
    PCACHE_WAS_TRANSIENT_ERROR = 2,
    PCACHE_WAS_DANGLING = 3,
    PCACHE_WAS_WAIT_TIMEOUT = 4,
    PCACHE_WAS_AGE_TIMEOUT = 5,
    PCACHE_WAS_GIVE_UP = 6,
    PCACHE_WAS_ABANDONED = 7
};

/* The seed is 16 bytes that the caller drew at random. A watermark of 0 is none. The limit counts the bytes of bodies. */
uint32_t pcache_cache_new(pcache_handle *cache, const uint8_t *seed, size_t seed_len, size_t limit,
                          size_t watermark, uint64_t age_timeout_millis);
/* The same with a limit that counts all that is kept for a response: its body, its head, and 512 bytes for the rest. */
uint32_t pcache_cache_new_bounded(pcache_handle *cache, const uint8_t *seed, size_t seed_len,
                                  size_t limit, size_t watermark, uint64_t age_timeout_millis);
/* Which bodies go where there is no room: the one that was used least recently; the oldest; the oldest that was not used; by SIEVE. */
enum {
    PCACHE_LRU = 0,
    PCACHE_FIFO = 1,
    PCACHE_CLOCK = 2,
    PCACHE_SIEVE = 3
};
/* A cache by a policy; its limit counts as that of `pcache_cache_new_bounded` if `bounded` is not 0. The others are by PCACHE_LRU. */
uint32_t pcache_cache_new_with(pcache_handle *cache, const uint8_t *seed, size_t seed_len, uint32_t policy, uint32_t bounded,
                               size_t limit, size_t watermark, uint64_t age_timeout_millis);
uint32_t pcache_cache_totals(pcache_handle *cache, pcache_cache_counts *out);
uint32_t pcache_cache_counted(pcache_handle *cache, pcache_counted *out);
/* The tag is UTF-8. */
uint32_t pcache_request_new(pcache_handle *cache, const uint8_t *key, size_t key_len,
                            const uint8_t *tag, size_t tag_len, uint64_t *request);
/* The same for a request that cannot use the fills with these tokens, numbers to which the caller gives a meaning: it waits no longer
 * for one that publishes such a token. */
uint32_t pcache_request_new_with_unusable(pcache_handle *cache, const uint8_t *key, size_t key_len, const uint8_t *tag, size_t tag_len,
                                          const uint64_t *tokens, size_t count, uint64_t *request);
uint32_t pcache_request_end(pcache_handle *cache, uint64_t request);
uint32_t pcache_request_phase(pcache_handle *cache, uint64_t request, uint32_t *phase);
/* What was found stays with the request until it is taken or passed. */
uint32_t pcache_request_look(pcache_handle *cache, uint64_t request, uint64_t now_secs,
                             uint32_t now_nanos, uint32_t *found);
uint32_t pcache_request_take(pcache_handle *cache, uint64_t request, uint32_t status,
                             uint64_t now_secs, uint32_t now_nanos);
uint32_t pcache_request_pass(pcache_handle *cache, uint64_t request);
/* The variant that the request wants, a hash of 16 bytes, given what was found under its key: `same` is 1 if that is it, and it stays
 * to be taken. Else it is let go, the key has the variance from then on, and the next look-up is for the variant. What was stored
 * before the body under the key came is not found from then on, so a purge of the key reaches all variants.
 * PCACHE_NONE if nothing was found. */
uint32_t pcache_request_look_for(pcache_handle *cache, uint64_t request, const uint8_t *variance,
                                 size_t variance_len, uint32_t *same);
uint32_t pcache_request_miss(pcache_handle *cache, uint64_t request);
/* A copy of the meta of what was found, else of what the request serves or fills. */
uint32_t pcache_request_meta(pcache_handle *cache, uint64_t request, pcache_handle *meta);
/* These two copy the meta; its handle keeps it. */
uint32_t pcache_request_set_meta(pcache_handle *cache, uint64_t request, pcache_handle *meta);
/* Only the body that the request found is renewed: `set` is 0 if that is no longer what is stored under the key, and then nothing that
 * is stored changes. The request serves what it found, with this meta, in both cases. */
uint32_t pcache_request_renew(pcache_handle *cache, uint64_t request, pcache_handle *meta, uint32_t *set);
/* The same with a copy of the head of that answer alone, which is not stored, for a reason: what is stored stays as it is, and what
 * the request holds is released as the reason says. */
uint32_t pcache_request_serve_on(pcache_handle *cache, uint64_t request, pcache_handle *head, uint32_t reason);
/* The request's fetch begins now, which a look-up notes too: a response whose fetch began before a purge of its key, or of its URL (the
 * key without a variance), and whose write begins after it, is not stored, and that write finishes as PCACHE_REMOVED. Who fetches
 * without a look-up, or once more, calls this first: a fetch whose begin was not noted counts as one from before all purges. */
uint32_t pcache_request_begin_fetch(pcache_handle *cache, uint64_t request);
/* A stale body is served while another request renews it. PCACHE_WRONG_CALL in any phase but PCACHE_STALE. */
uint32_t pcache_request_serve_updating(pcache_handle *cache, uint64_t request);
/* The variance of the response that is to be stored, after its meta was set and before its write begins; no
 * variance is one of no bytes. A key that has another variance loses it. */
uint32_t pcache_request_vary(pcache_handle *cache, uint64_t request, const uint8_t *variance,
                             size_t variance_len);
uint32_t pcache_request_begin(pcache_handle *cache, uint64_t request);
/* How many bytes the body that is filled, and the text of its head (the second of pcache_meta_write), have at most. Nothing is refused by
 * them: who sets them counts each piece before it is written, and asks of the head once the write has begun; `within` 0, or `exceeds` 1,
 * says to disable the request for PCACHE_RESPONSE_TOO_LARGE. Setting the body's limit counts from 0 again; without a limit each is within
 * it. PCACHE_WRONG_CALL of the first two if the request is disabled, of the third if it was as one that was never enabled. */
uint32_t pcache_request_limit_body(pcache_handle *cache, uint64_t request, size_t most);
uint32_t pcache_request_limit_head(pcache_handle *cache, uint64_t request, size_t most);
uint32_t pcache_request_count_body(pcache_handle *cache, uint64_t request, size_t count, uint32_t *within);
uint32_t pcache_request_exceeds_head(pcache_handle *cache, uint64_t request, uint32_t *exceeds);
uint32_t pcache_request_write(pcache_handle *cache, uint64_t request, const uint8_t *bytes,
                              size_t bytes_len, uint32_t eof);
/* `stored` is what the entry weighs: the bytes of the body, or all that is kept for it, as the limit of the cache counts.
 * PCACHE_NONE if there is no write. PCACHE_REMOVED if its key was purged since it began, PCACHE_SUPERSEDED if a newer body of the
 * key stands. */
uint32_t pcache_request_finish(pcache_handle *cache, uint64_t request, size_t *stored,
                               size_t *evicted);
/* `more` is 1 if bytes were written to the buffer, 2 if nothing is there yet, 0 at the end of all that was to be read, and 3
 * where the body was cut off: its write was dropped before its end was announced. What came is not the whole body then, and a
 * proxy that sends it on in chunks sends no last chunk, and closes the connection. */
uint32_t pcache_request_read(pcache_handle *cache, uint64_t request, uint8_t *out, size_t out_room,
                             size_t *len, uint32_t *more);
/* The same without a copy: what comes next, all that was read, is kept in the empty handle `view`, and lies at `at` until that
 * is ended by pcache_end, whatever becomes of the request and of the cache. Where `more` is not 1 the handle stays empty. */
uint32_t pcache_request_view(pcache_handle *cache, uint64_t request, pcache_handle *view, const uint8_t **at, size_t *len,
                             uint32_t *more);
/* The length of the body that is read, before it is read, and whatever the range. PCACHE_NONE as long as a write goes on, if
 * it was cut off, and without a reader. */
uint32_t pcache_request_body_length(pcache_handle *cache, uint64_t request, size_t *len);
/* Reads a complete body again from `start` to before `end`, or to the body's end if `end` is past it, as SIZE_MAX.
 * PCACHE_BAD_VALUE if the body has no byte at `start`, if `end` is before it, and for a reader of a write. */
uint32_t pcache_request_seek(pcache_handle *cache, uint64_t request, size_t start, size_t end);
uint32_t pcache_request_finish_hit(pcache_handle *cache, uint64_t request);
/* 0 for nothing, 1 for the permit, 2 for a read lock. */
uint32_t pcache_request_held(pcache_handle *cache, uint64_t request, uint32_t *held);
uint32_t pcache_request_wait(pcache_handle *cache, uint64_t request, uint64_t now_secs,
                             uint32_t now_nanos, uint32_t *outcome);
/* At most so long a request waits for locks, over all its waits: set it before the look-up. PCACHE_WRONG_CALL if it holds a lock, or
 * fills the key. Then a wait ends by PCACHE_WAS_WAIT_TIMEOUT. */
uint32_t pcache_request_limit_waits(pcache_handle *cache, uint64_t request, uint64_t most_millis);
/* How long it waited for locks, over all its waits that ended. PCACHE_NONE if none ended. */
uint32_t pcache_request_waited(pcache_handle *cache, uint64_t request, uint64_t *secs, uint32_t *nanos);
/* Of the request with the permit: who waits for it, and cannot use a fill with one of these tokens, waits no longer. They stand in place
 * of those that it published before; none take these back. PCACHE_NONE if the request does not hold the permit. */
uint32_t pcache_request_publish(pcache_handle *cache, uint64_t request, const uint64_t *tokens, size_t count);
/* The token for which the request's last wait that ended by PCACHE_WAS_ABANDONED was abandoned. PCACHE_NONE if none was. */
uint32_t pcache_request_abandoned(pcache_handle *cache, uint64_t request, uint64_t *token);
/* PCACHE_NONE if the request holds nothing. */
uint32_t pcache_request_release(pcache_handle *cache, uint64_t request, uint32_t reason);
/* The permit goes to another request of the same cache and for the same key (keys are not compared), which lets go of a lock that it
 * held before; its fetch counts as begun when this one's did. PCACHE_WRONG_CALL if the request holds no permit, if the other one is
 * disabled, and for one number twice. */
uint32_t pcache_request_hand_permit(pcache_handle *cache, uint64_t request, uint64_t to);
uint32_t pcache_request_disable(pcache_handle *cache, uint64_t request, uint32_t reason);
uint32_t pcache_request_purge(pcache_handle *cache, uint64_t request, uint32_t *was);
uint32_t pcache_request_expire(pcache_handle *cache, uint64_t request, uint64_t now_secs,
                               uint32_t now_nanos, uint32_t *was);

#ifdef __cplusplus
}
#endif

#endif
