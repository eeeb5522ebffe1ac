//! A cache in parts, each behind a lock.

use crate::error::done;
use crate::{hash_key, raw, Error, Handle, Request};
use std::collections::hash_map::RandomState;
use std::hash::{BuildHasher, Hasher};
use std::sync::{Arc, Condvar, Mutex, MutexGuard, PoisonError};
use std::time::Duration;

/// What the limit of a cache counts.
#[derive(Clone, Copy, Debug, Default, PartialEq, Eq)]
pub enum Counts {
    /// The bytes of complete bodies alone, as in pingora-cache: heads come on top.
    Bodies,
    /// All that is kept for a stored response: its body, its head, and 512 bytes for the rest.
    #[default]
    Entries,
}

/// Which bodies go where there is no room for another one.
#[derive(Clone, Copy, Debug, Default, PartialEq, Eq)]
#[repr(u32)]
pub enum Policy {
    /// The one that was used least recently, as in pingora-cache.
    #[default]
    Lru = 0,
    /// The oldest.
    Fifo = 1,
    /// The oldest that was not used since it was looked at last.
    Clock = 2,
    /// One that was not used since a hand passed it (SIEVE).
    Sieve = 3,
}

/// What a cache is made with.
#[derive(Clone, Debug)]
pub struct Options {
    /// How many bytes what is stored may have together, as `counts` says. Each part has an even share of it, and stores nothing
    /// larger.
    pub limit: usize,
    /// What the limit counts.
    pub counts: Counts,
    /// Which bodies go where there is no room.
    pub policy: Policy,
    /// How many complete bodies there may be, or 0 for any number. Each part has an even share of it.
    pub watermark: usize,
    /// How long a permit may be held, before another request gets one.
    pub age_timeout: Duration,
    /// How many parts there are: two threads wait for each other only if their keys are in the same one.
    pub parts: usize,
    /// What the tables hash under. It is drawn at random and kept secret, where clients choose keys: `None` draws it.
    pub seed: Option<[u8; 16]>,
}

impl Default for Options {
    /// 64 MiB for all that is kept, by LRU, in 16 parts, any number of bodies, permits of ten seconds, a seed that is drawn.
    fn default() -> Options {
        Options {
            limit: 64 << 20,
            counts: Counts::Entries,
            policy: Policy::Lru,
            watermark: 0,
            age_timeout: Duration::from_secs(10),
            parts: 16,
            seed: None,
        }
    }
}

/// The counts of a cache: the sums over its parts.
#[derive(Clone, Copy, Debug, Default, PartialEq, Eq)]
pub struct CacheTotals {
    /// The bytes of the complete bodies, at most the limit.
    pub stored_bytes: u64,
    /// The complete bodies.
    pub bodies: usize,
    /// The weight of what the managers track.
    pub weight: usize,
    /// The entries that they track.
    pub entries: usize,
    /// The weight of all that was evicted.
    pub evicted_weight: usize,
    /// The entries that were evicted.
    pub evicted_entries: usize,
}

/// What a cache counted since it was made: the sums over its parts. Only calls that succeeded count.
#[derive(Clone, Copy, Debug, Default, PartialEq, Eq)]
pub struct CacheCounted {
    /// What was found and taken as fresh ([`Request::take`]).
    pub hits: u64,
    /// What was found and taken as expired.
    pub stale_hits: u64,
    /// Requests that went on as a miss, to fill their key ([`Request::fill`]). One that took a stale body before is in both counts.
    pub misses: u64,
    /// Waits for a lock that ended, in whichever way.
    pub waits: u64,
    /// Bodies that were stored.
    pub fills: u64,
}

/// What a lock holds.
pub(crate) struct Guarded {
    handle: Handle,
    /// How many threads wait for a change.
    pub(crate) waiting: usize,
}

impl Guarded {
    pub(crate) fn raw(&mut self) -> *mut raw::PcacheHandle {
        &mut self.handle.0
    }
}

pub(crate) struct Part {
    guarded: Mutex<Guarded>,
    /// Notified by each call that may end a wait, or has bytes for who reads along.
    pub(crate) changed: Condvar,
}

impl Part {
    /// No call leaves a part half way by a panic, so a lock that is poisoned is as good as another.
    pub(crate) fn lock(&self) -> MutexGuard<'_, Guarded> {
        self.guarded.lock().unwrap_or_else(PoisonError::into_inner)
    }

    pub(crate) fn notify(&self, guarded: &Guarded) {
        if guarded.waiting > 0 {
            self.changed.notify_all();
        }
    }
}

/// A cache that any number of threads may use. A clone is the same cache, which ends with the last of its clones and requests.
#[derive(Clone)]
pub struct Cache(Arc<[Part]>);

fn drawn() -> [u8; 16] {
    // Each state has keys of its own, which the system drew.
    let mut seed = [0; 16];
    for half in seed.chunks_mut(8) {
        half.copy_from_slice(&RandomState::new().build_hasher().finish().to_le_bytes());
    }
    seed
}

/// How much of a whole the part at `place` of `parts` has.
fn share(whole: usize, parts: usize, place: usize) -> usize {
    whole / parts + usize::from(place < whole % parts)
}

impl Cache {
    /// A cache.
    ///
    /// # Errors
    /// [`Error::BadValue`] for no parts, and for a watermark that is less than the number of parts; [`Error::NoMemory`].
    pub fn new(options: &Options) -> Result<Cache, Error> {
        let parts = options.parts;
        if parts == 0 || (options.watermark > 0 && options.watermark < parts) {
            return Err(Error::BadValue);
        }
        let millis = u64::try_from(options.age_timeout.as_millis()).unwrap_or(u64::MAX);
        let seed = options.seed.unwrap_or_else(drawn);
        let (policy, bounded) = (options.policy as u32, u32::from(options.counts == Counts::Entries));
        let mut all = Vec::with_capacity(parts);
        for place in 0..parts {
            let mut handle = Handle::new();
            let (limit, watermark) = (share(options.limit, parts, place), share(options.watermark, parts, place));
            // SAFETY: the handle has nothing, and the seed has 16 bytes.
            done(unsafe { raw::pcache_cache_new_with(&mut handle.0, seed.as_ptr(), 16, policy, bounded, limit, watermark, millis) })?;
            all.push(Part { guarded: Mutex::new(Guarded { handle, waiting: 0 }), changed: Condvar::new() });
        }
        Ok(Cache(all.into()))
    }

    /// A request for a key. The tag is kept with the key's entry.
    ///
    /// # Errors
    /// [`Error::NoMemory`], [`Error::Exhausted`].
    pub fn request(&self, key: &[u8], tag: &str) -> Result<Request, Error> {
        let mut number = 0;
        let place = self.place(key);
        // SAFETY: the slices hold what they say for the call, and the handle is this call's while it is locked.
        done(unsafe {
            let mut part = self.0[place].lock();
            raw::pcache_request_new(part.raw(), key.as_ptr(), key.len(), tag.as_ptr(), tag.len(), &mut number)
        })?;
        Ok(Request::new(self.clone(), place, number))
    }

    /// A request for a key that cannot use the fills with these tokens, numbers to which the caller gives a meaning: it stops waiting
    /// for a request that publishes one of them ([`Request::publish`]).
    ///
    /// # Errors
    /// As of [`Cache::request`].
    pub fn request_with_unusable(&self, key: &[u8], tag: &str, tokens: &[u64]) -> Result<Request, Error> {
        let mut number = 0;
        let place = self.place(key);
        let (key_len, tag_len, count) = (key.len(), tag.len(), tokens.len());
        let (key, tag, tokens) = (key.as_ptr(), tag.as_ptr(), tokens.as_ptr());
        // SAFETY: the slices hold what they say for the call, and the handle is this call's while it is locked.
        done(unsafe {
            let mut part = self.0[place].lock();
            raw::pcache_request_new_with_unusable(part.raw(), key, key_len, tag, tag_len, tokens, count, &mut number)
        })?;
        Ok(Request::new(self.clone(), place, number))
    }

    /// What it has. The parts are asked one after the other, so calls that are made meanwhile may be in some of the sums.
    ///
    /// # Errors
    /// None of this crate's making.
    pub fn totals(&self) -> Result<CacheTotals, Error> {
        let mut all = CacheTotals::default();
        for part in self.0.iter() {
            let mut out = raw::PcacheCacheCounts::default();
            // SAFETY: a struct of the library's layout.
            done(unsafe { raw::pcache_cache_totals(part.lock().raw(), &mut out) })?;
            all.stored_bytes = all.stored_bytes.saturating_add(out.stored_bytes);
            all.bodies = all.bodies.saturating_add(out.bodies);
            all.weight = all.weight.saturating_add(out.weight);
            all.entries = all.entries.saturating_add(out.entries);
            all.evicted_weight = all.evicted_weight.saturating_add(out.evicted_weight);
            all.evicted_entries = all.evicted_entries.saturating_add(out.evicted_entries);
        }
        Ok(all)
    }

    /// What it counted since it was made. The parts are asked one after the other, as for [`Cache::totals`].
    ///
    /// # Errors
    /// None of this crate's making.
    pub fn counted(&self) -> Result<CacheCounted, Error> {
        let mut all = CacheCounted::default();
        for part in self.0.iter() {
            let mut out = raw::PcacheCounted::default();
            // SAFETY: a struct of the library's layout.
            done(unsafe { raw::pcache_cache_counted(part.lock().raw(), &mut out) })?;
            all.hits = all.hits.saturating_add(out.hits);
            all.stale_hits = all.stale_hits.saturating_add(out.stale_hits);
            all.misses = all.misses.saturating_add(out.misses);
            all.waits = all.waits.saturating_add(out.waits);
            all.fills = all.fills.saturating_add(out.fills);
        }
        Ok(all)
    }

    pub(crate) fn part(&self, place: usize) -> &Part {
        &self.0[place]
    }

    fn place(&self, key: &[u8]) -> usize {
        if self.0.len() == 1 {
            return 0;
        }
        let hash = hash_key(key);
        let mut number = [0; 8];
        number.copy_from_slice(&hash[..8]);
        (u64::from_le_bytes(number) % self.0.len() as u64) as usize
    }
}
