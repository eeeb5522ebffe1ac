//! The functions of the library as `pcache_c.h` declares them, its structs and its codes, and nothing else:
//! `bench/pages/exports.py --check` compares this file and the header with the sources. All is unsafe; the rest of the crate is a
//! safe way to it.
#![allow(missing_docs, dead_code)]

/// A handle: the library's two words.
#[repr(C)]
pub struct PcacheHandle {
    pub tag: u64,
    pub at: *mut u8,
}

#[repr(C)]
#[derive(Clone, Copy, Debug, Default)]
pub struct PcacheMoment {
    pub secs: u64,
    pub nanos: u32,
}

#[repr(C)]
#[derive(Clone, Copy, Debug, Default)]
pub struct PcacheMeta {
    pub created: PcacheMoment,
    pub updated: PcacheMoment,
    pub fresh_until: PcacheMoment,
    pub stale_while_revalidate_secs: u32,
    pub stale_if_error_secs: u32,
}

#[repr(C)]
#[derive(Clone, Copy, Debug, Default)]
pub struct PcacheServable {
    pub fresh: u32,
    pub while_revalidating: u32,
    pub after_error: u32,
}

#[repr(C)]
#[derive(Clone, Copy, Debug, Default)]
pub struct PcacheAnswers {
    pub fresh_secs: u64,
    pub stale_while_revalidate_secs: u64,
    pub stale_if_error_secs: u64,
    pub cacheable: u32,
    pub authorized: u32,
    pub has_fresh: u32,
    pub has_stale_while_revalidate: u32,
    pub has_stale_if_error: u32,
}

#[repr(C)]
#[derive(Clone, Copy, Debug, Default)]
pub struct PcacheEntry {
    pub id: u64,
    pub has_id: u32,
    pub has_variance: u32,
    pub tag_len: usize,
}

#[repr(C)]
#[derive(Clone, Copy, Debug, Default)]
pub struct PcacheTotals {
    pub weight: usize,
    pub entries: usize,
    pub evicted_weight: usize,
    pub evicted_entries: usize,
    pub waiting: usize,
}

#[repr(C)]
#[derive(Clone, Copy, Debug, Default)]
pub struct PcacheCacheCounts {
    pub stored_bytes: u64,
    pub bodies: usize,
    pub weight: usize,
    pub entries: usize,
    pub evicted_weight: usize,
    pub evicted_entries: usize,
}

#[repr(C)]
#[derive(Clone, Copy, Debug, Default)]
pub struct PcacheCounted {
    pub hits: u64,
    pub stale_hits: u64,
    pub misses: u64,
    pub waits: u64,
    pub fills: u64,
}

#[repr(C)]
#[derive(Clone, Copy, Debug, Default)]
pub struct PcacheTerms {
    pub at: PcacheMoment,
    pub requested: PcacheMoment,
    pub is_private: u32,
    pub repeated_is_stale: u32,
    pub most_guessed_secs: u32,
    pub is_alone: u32,
    pub is_processed: u32,
}

#[repr(C)]
#[derive(Clone, Copy, Debug, Default)]
pub struct PcacheDecision {
    pub does: u32,
    pub reuse: u32,
    pub answer: u32,
    pub age: u32,
}

#[repr(C)]
#[derive(Clone, Copy, Debug, Default)]
pub struct PcacheOutcome {
    pub does: u32,
    pub reason: u32,
    pub answer: u32,
    pub age: u32,
}

pub const OK: u32 = 0;
pub const NO_MEMORY: u32 = 1;
pub const BAD_HANDLE: u32 = 2;
pub const WRONG_KIND: u32 = 3;
pub const BAD_VALUE: u32 = 4;
pub const UNREADABLE: u32 = 5;
pub const NONE: u32 = 6;
pub const WRONG_CALL: u32 = 7;
pub const INVALID_HEAD: u32 = 8;
pub const TOO_LARGE: u32 = 9;
pub const INCOMPLETE: u32 = 10;
pub const REMOVED: u32 = 11;
pub const EXHAUSTED: u32 = 12;
pub const IO: u32 = 13;
pub const SUPERSEDED: u32 = 14;

extern "C" {
    pub fn pcache_is_proved() -> u32;
    pub fn pcache_asked_add(
        handle: *mut PcacheHandle,
        name: *const u8,
        name_len: usize,
        value: *const u8,
        value_len: usize,
    ) -> u32;
    pub fn pcache_asked_new(
        handle: *mut PcacheHandle,
        method: *const u8,
        method_len: usize,
        target: *const u8,
        target_len: usize,
    ) -> u32;
    pub fn pcache_cache_counted(cache: *mut PcacheHandle, out: *mut PcacheCounted) -> u32;
    pub fn pcache_cache_new(
        cache: *mut PcacheHandle,
        seed: *const u8,
        seed_len: usize,
        limit: usize,
        watermark: usize,
        age_timeout_millis: u64,
    ) -> u32;
    pub fn pcache_cache_new_bounded(
        cache: *mut PcacheHandle,
        seed: *const u8,
        seed_len: usize,
        limit: usize,
        watermark: usize,
        age_timeout_millis: u64,
    ) -> u32;
    pub fn pcache_cache_new_with(
        cache: *mut PcacheHandle,
        seed: *const u8,
        seed_len: usize,
        policy: u32,
        bounded: u32,
        limit: usize,
        watermark: usize,
        age_timeout_millis: u64,
    ) -> u32;
    pub fn pcache_cache_totals(cache: *mut PcacheHandle, out: *mut PcacheCacheCounts) -> u32;
    pub fn pcache_combined_hash(
        primary: *const u8,
        primary_len: usize,
        variance: *const u8,
        variance_len: usize,
        out: *mut u8,
        out_len: usize,
    ) -> u32;
    pub fn pcache_control_answers(control: *mut PcacheHandle, out: *mut PcacheAnswers) -> u32;
    pub fn pcache_control_read(control: *mut PcacheHandle, head: *mut PcacheHandle) -> u32;
    pub fn pcache_decide_failed(
        terms: *const PcacheTerms,
        request: *mut PcacheHandle,
        meta: *mut PcacheHandle,
        original: *mut PcacheHandle,
        out: *mut PcacheOutcome,
    ) -> u32;
    pub fn pcache_decide_fetched(
        kept: *mut PcacheHandle,
        terms: *const PcacheTerms,
        request: *mut PcacheHandle,
        response: *mut PcacheHandle,
        out: *mut PcacheOutcome,
    ) -> u32;
    pub fn pcache_decide_missing(request: *mut PcacheHandle, out: *mut PcacheDecision) -> u32;
    pub fn pcache_decide_stored(
        terms: *const PcacheTerms,
        request: *mut PcacheHandle,
        meta: *mut PcacheHandle,
        original: *mut PcacheHandle,
        out: *mut PcacheDecision,
    ) -> u32;
    pub fn pcache_decide_validated(
        kept: *mut PcacheHandle,
        terms: *const PcacheTerms,
        request: *mut PcacheHandle,
        meta: *mut PcacheHandle,
        original: *mut PcacheHandle,
        response: *mut PcacheHandle,
        out: *mut PcacheOutcome,
    ) -> u32;
    pub fn pcache_end(handle: *mut PcacheHandle) -> u32;
    pub fn pcache_hash_key(key: *const u8, key_len: usize, out: *mut u8, out_len: usize) -> u32;
    pub fn pcache_head_add(
        handle: *mut PcacheHandle,
        name: *const u8,
        name_len: usize,
        value: *const u8,
        value_len: usize,
    ) -> u32;
    pub fn pcache_head_count(head: *mut PcacheHandle, name: *const u8, name_len: usize, count: *mut usize) -> u32;
    pub fn pcache_head_field(
        head: *mut PcacheHandle,
        index: usize,
        name: *mut u8,
        name_room: usize,
        value: *mut u8,
        value_room: usize,
        name_len: *mut usize,
        value_len: *mut usize,
    ) -> u32;
    pub fn pcache_head_new(handle: *mut PcacheHandle, status: u16) -> u32;
    pub fn pcache_head_read(handle: *mut PcacheHandle, bytes: *const u8, bytes_len: usize, taken: *mut usize) -> u32;
    pub fn pcache_head_status(head: *mut PcacheHandle, status: *mut u16) -> u32;
    pub fn pcache_head_value(
        head: *mut PcacheHandle,
        name: *const u8,
        name_len: usize,
        index: usize,
        out: *mut u8,
        out_room: usize,
        len: *mut usize,
    ) -> u32;
    pub fn pcache_manager_access(
        manager: *mut PcacheHandle,
        primary: *const u8,
        primary_len: usize,
        variance: *const u8,
        variance_len: usize,
        tag: *const u8,
        tag_len: usize,
        entry: *const PcacheEntry,
        weight: usize,
        fresh_until_secs: u64,
        fresh_until_nanos: u32,
        was: *mut u32,
    ) -> u32;
    pub fn pcache_manager_admit(
        manager: *mut PcacheHandle,
        primary: *const u8,
        primary_len: usize,
        variance: *const u8,
        variance_len: usize,
        tag: *const u8,
        tag_len: usize,
        entry: *const PcacheEntry,
        weight: usize,
        fresh_until_secs: u64,
        fresh_until_nanos: u32,
    ) -> u32;
    pub fn pcache_manager_increment(
        manager: *mut PcacheHandle,
        primary: *const u8,
        primary_len: usize,
        variance: *const u8,
        variance_len: usize,
        tag: *const u8,
        tag_len: usize,
        entry: *const PcacheEntry,
        delta: usize,
        most: usize,
    ) -> u32;
    pub fn pcache_manager_load(
        manager: *mut PcacheHandle,
        bytes: *const u8,
        bytes_len: usize,
    ) -> u32;
    pub fn pcache_manager_next(
        manager: *mut PcacheHandle,
        primary: *mut u8,
        primary_len: usize,
        variance: *mut u8,
        variance_len: usize,
        out: *mut PcacheEntry,
    ) -> u32;
    pub fn pcache_manager_peek(
        manager: *mut PcacheHandle,
        primary: *const u8,
        primary_len: usize,
        variance: *const u8,
        variance_len: usize,
        tag: *const u8,
        tag_len: usize,
        entry: *const PcacheEntry,
        was: *mut u32,
    ) -> u32;
    pub fn pcache_manager_remove(
        manager: *mut PcacheHandle,
        primary: *const u8,
        primary_len: usize,
        variance: *const u8,
        variance_len: usize,
        tag: *const u8,
        tag_len: usize,
        entry: *const PcacheEntry,
    ) -> u32;
    pub fn pcache_manager_save(
        manager: *mut PcacheHandle,
        shard: usize,
        out: *mut u8,
        out_len: usize,
        len: *mut usize,
    ) -> u32;
    pub fn pcache_manager_tag(manager: *mut PcacheHandle, out: *mut u8, out_len: usize) -> u32;
    pub fn pcache_manager_totals(manager: *mut PcacheHandle, out: *mut PcacheTotals) -> u32;
    pub fn pcache_meta_new(
        meta: *mut PcacheHandle,
        head: *mut PcacheHandle,
        said: *const PcacheMeta,
    ) -> u32;
    pub fn pcache_meta_read(
        meta: *mut PcacheHandle,
        internal: *const u8,
        internal_len: usize,
        header: *const u8,
        header_len: usize,
    ) -> u32;
    pub fn pcache_meta_says(meta: *mut PcacheHandle, out: *mut PcacheMeta) -> u32;
    pub fn pcache_meta_servable(
        meta: *mut PcacheHandle,
        now_secs: u64,
        now_nanos: u32,
        out: *mut PcacheServable,
    ) -> u32;
    pub fn pcache_meta_validators(
        meta: *mut PcacheHandle,
        tag: *mut u8,
        tag_room: usize,
        since: *mut u8,
        since_room: usize,
        tag_len: *mut usize,
        since_len: *mut usize,
    ) -> u32;
    pub fn pcache_meta_variance(meta: *mut PcacheHandle, out: *mut u8, out_len: usize) -> u32;
    pub fn pcache_meta_vary(meta: *mut PcacheHandle, variance: *const u8, variance_len: usize) -> u32;
    pub fn pcache_meta_write(
        meta: *mut PcacheHandle,
        internal: *mut u8,
        internal_len: usize,
        header: *mut u8,
        header_len: usize,
        internal_len: *mut usize,
        header_len: *mut usize,
    ) -> u32;
    pub fn pcache_request_abandoned(cache: *mut PcacheHandle, request: u64, token: *mut u64) -> u32;
    pub fn pcache_request_begin(cache: *mut PcacheHandle, request: u64) -> u32;
    pub fn pcache_request_body_length(
        cache: *mut PcacheHandle,
        request: u64,
        len: *mut usize,
    ) -> u32;
    pub fn pcache_request_count_body(cache: *mut PcacheHandle, request: u64, count: usize, within: *mut u32) -> u32;
    pub fn pcache_request_disable(cache: *mut PcacheHandle, request: u64, reason: u32) -> u32;
    pub fn pcache_request_end(cache: *mut PcacheHandle, request: u64) -> u32;
    pub fn pcache_request_exceeds_head(cache: *mut PcacheHandle, request: u64, exceeds: *mut u32) -> u32;
    pub fn pcache_request_expire(
        cache: *mut PcacheHandle,
        request: u64,
        now_secs: u64,
        now_nanos: u32,
        was: *mut u32,
    ) -> u32;
    pub fn pcache_request_finish(
        cache: *mut PcacheHandle,
        request: u64,
        stored: *mut usize,
        evicted: *mut usize,
    ) -> u32;
    pub fn pcache_request_finish_hit(cache: *mut PcacheHandle, request: u64) -> u32;
    pub fn pcache_request_hand_permit(cache: *mut PcacheHandle, request: u64, to: u64) -> u32;
    pub fn pcache_request_held(cache: *mut PcacheHandle, request: u64, held: *mut u32) -> u32;
    pub fn pcache_request_limit_body(cache: *mut PcacheHandle, request: u64, most: usize) -> u32;
    pub fn pcache_request_limit_head(cache: *mut PcacheHandle, request: u64, most: usize) -> u32;
    pub fn pcache_request_limit_waits(cache: *mut PcacheHandle, request: u64, most_millis: u64) -> u32;
    pub fn pcache_request_look(
        cache: *mut PcacheHandle,
        request: u64,
        now_secs: u64,
        now_nanos: u32,
        found: *mut u32,
    ) -> u32;
    pub fn pcache_request_look_for(
        cache: *mut PcacheHandle,
        request: u64,
        variance: *const u8,
        variance_len: usize,
        same: *mut u32,
    ) -> u32;
    pub fn pcache_request_meta(
        cache: *mut PcacheHandle,
        request: u64,
        meta: *mut PcacheHandle,
    ) -> u32;
    pub fn pcache_request_miss(cache: *mut PcacheHandle, request: u64) -> u32;
    pub fn pcache_request_new(
        cache: *mut PcacheHandle,
        key: *const u8,
        key_len: usize,
        tag: *const u8,
        tag_len: usize,
        request: *mut u64,
    ) -> u32;
    pub fn pcache_request_new_with_unusable(
        cache: *mut PcacheHandle,
        key: *const u8,
        key_len: usize,
        tag: *const u8,
        tag_len: usize,
        tokens: *const u64,
        count: usize,
        request: *mut u64,
    ) -> u32;
    pub fn pcache_request_pass(cache: *mut PcacheHandle, request: u64) -> u32;
    pub fn pcache_request_phase(cache: *mut PcacheHandle, request: u64, phase: *mut u32) -> u32;
    pub fn pcache_request_publish(
        cache: *mut PcacheHandle,
        request: u64,
        tokens: *const u64,
        count: usize,
    ) -> u32;
    pub fn pcache_request_purge(cache: *mut PcacheHandle, request: u64, was: *mut u32) -> u32;
    pub fn pcache_request_read(
        cache: *mut PcacheHandle,
        request: u64,
        out: *mut u8,
        out_len: usize,
        len: *mut usize,
        more: *mut u32,
    ) -> u32;
    pub fn pcache_request_release(cache: *mut PcacheHandle, request: u64, reason: u32) -> u32;
    pub fn pcache_request_renew(
        cache: *mut PcacheHandle,
        request: u64,
        meta: *mut PcacheHandle,
        set: *mut u32,
    ) -> u32;
    pub fn pcache_request_seek(
        cache: *mut PcacheHandle,
        request: u64,
        start: usize,
        end: usize,
    ) -> u32;
    pub fn pcache_request_serve_on(
        cache: *mut PcacheHandle,
        request: u64,
        head: *mut PcacheHandle,
        reason: u32,
    ) -> u32;
    pub fn pcache_request_begin_fetch(cache: *mut PcacheHandle, request: u64) -> u32;
    pub fn pcache_request_serve_updating(cache: *mut PcacheHandle, request: u64) -> u32;
    pub fn pcache_request_set_meta(
        cache: *mut PcacheHandle,
        request: u64,
        meta: *mut PcacheHandle,
    ) -> u32;
    pub fn pcache_request_take(
        cache: *mut PcacheHandle,
        request: u64,
        status: u32,
        now_secs: u64,
        now_nanos: u32,
    ) -> u32;
    pub fn pcache_request_vary(
        cache: *mut PcacheHandle,
        request: u64,
        variance: *const u8,
        variance_len: usize,
    ) -> u32;
    pub fn pcache_request_view(
        cache: *mut PcacheHandle,
        request: u64,
        view: *mut PcacheHandle,
        at: *mut *const u8,
        len: *mut usize,
        more: *mut u32,
    ) -> u32;
    pub fn pcache_request_wait(
        cache: *mut PcacheHandle,
        request: u64,
        now_secs: u64,
        now_nanos: u32,
        outcome: *mut u32,
    ) -> u32;
    pub fn pcache_request_waited(cache: *mut PcacheHandle, request: u64, secs: *mut u64, nanos: *mut u32) -> u32;
    pub fn pcache_request_write(
        cache: *mut PcacheHandle,
        request: u64,
        bytes: *const u8,
        bytes_len: usize,
        eof: u32,
    ) -> u32;
    pub fn pcache_resp_cacheable(
        meta: *mut PcacheHandle,
        head: *mut PcacheHandle,
        authorization: u32,
        stale_while_revalidate_secs: u32,
        stale_if_error_secs: u32,
        now_secs: u64,
        now_nanos: u32,
    ) -> u32;
    pub fn pcache_sharded_lru_new(
        handle: *mut PcacheHandle,
        seed: *const u8,
        seed_len: usize,
        limit: usize,
        watermark: usize,
    ) -> u32;
    pub fn pcache_simple_lru_new(
        handle: *mut PcacheHandle,
        seed: *const u8,
        seed_len: usize,
        limit: usize,
        watermark: usize,
    ) -> u32;
    pub fn pcache_taken_away(
        response: *mut PcacheHandle,
        target: *const u8,
        target_len: usize,
        location: *mut u8,
        location_room: usize,
        content_location: *mut u8,
        content_location_room: usize,
        location_len: *mut usize,
        content_location_len: *mut usize,
    ) -> u32;
    pub fn pcache_variance_add(
        handle: *mut PcacheHandle,
        name: *const u8,
        name_len: usize,
        value: *const u8,
        value_len: usize,
    ) -> u32;
    pub fn pcache_variance_finish(handle: *mut PcacheHandle, out: *mut u8, out_len: usize) -> u32;
    pub fn pcache_variance_new(handle: *mut PcacheHandle) -> u32;
}
