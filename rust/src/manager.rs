//! The eviction managers alone.

use crate::error::done;
use crate::{raw, Error, Handle, Hash, Moment};
use std::sync::{Mutex, MutexGuard, PoisonError};
use std::time::SystemTime;

/// The key of an entry.
#[derive(Clone, Debug, Default, PartialEq, Eq, Hash)]
pub struct Key {
    /// The hash of the key.
    pub primary: Hash,
    /// The hash of what the response varies on.
    pub variance: Option<Hash>,
    /// The tag.
    pub tag: String,
    /// A number that tells bodies of one key apart.
    pub id: Option<u64>,
}

impl Key {
    fn variance(&self) -> &[u8] {
        self.variance.as_ref().map_or(&[], |hash| hash)
    }

    fn raw(&self) -> raw::PcacheEntry {
        raw::PcacheEntry {
            id: self.id.unwrap_or(0),
            has_id: u32::from(self.id.is_some()),
            ..raw::PcacheEntry::default()
        }
    }
}

// A call of the library about one entry of a manager: what it takes of the key, and then what else it takes.
macro_rules! of_entry {
    ($call:ident, $manager:expr, $key:expr $(, $more:expr)*) => {{
        let variance = $key.variance();
        // SAFETY: the handle has a manager, and the slices of the key hold what they say for the call.
        done(unsafe {
            raw::$call(
                &mut $manager.0 .0,
                $key.primary.as_ptr(),
                16,
                variance.as_ptr(),
                variance.len(),
                $key.tag.as_ptr(),
                $key.tag.len(),
                &$key.raw(),
                $($more),*
            )
        })
    }};
}

/// The counts of a manager.
#[derive(Clone, Copy, Debug, Default, PartialEq, Eq)]
pub struct Totals {
    /// The sum of the weights of the entries.
    pub weight: usize,
    /// The number of entries.
    pub entries: usize,
    /// The sum of the weights of all that was evicted.
    pub evicted_weight: usize,
    /// The number of entries that were evicted.
    pub evicted_entries: usize,
}

/// An eviction manager: it tracks weights, and evicts what was used longest ago. It stores no bodies.
///
/// ```
/// use pcache::{hash_key, Key, Manager, Moment};
///
/// # fn main() -> Result<(), pcache::Error> {
/// let key = |name: &str| Key { primary: hash_key(name.as_bytes()), ..Key::default() };
/// let mut manager = Manager::simple(&[7; 16], 4, 0)?;
/// assert!(manager.admit(&key("a"), 3, Moment::now())?.is_empty());
/// assert_eq!(manager.admit(&key("b"), 3, Moment::now())?, [key("a")]);
/// # Ok(())
/// # }
/// ```
pub struct Manager(Handle);

impl Manager {
    /// One with one list. The seed is drawn at random and kept secret, where clients choose keys. A watermark of 0 is none.
    ///
    /// # Errors
    /// [`Error::NoMemory`].
    pub fn simple(seed: &[u8; 16], limit: usize, watermark: usize) -> Result<Manager, Error> {
        let mut handle = Handle::new();
        // SAFETY: the handle has nothing.
        done(unsafe { raw::pcache_simple_lru_new(&mut handle.0, seed.as_ptr(), 16, limit, watermark) })?;
        Ok(Manager(handle))
    }

    /// One in 16 shards, each with a list.
    ///
    /// # Errors
    /// [`Error::NoMemory`].
    pub fn sharded(seed: &[u8; 16], limit: usize, watermark: usize) -> Result<Manager, Error> {
        let mut handle = Handle::new();
        // SAFETY: the handle has nothing.
        done(unsafe { raw::pcache_sharded_lru_new(&mut handle.0, seed.as_ptr(), 16, limit, watermark) })?;
        Ok(Manager(handle))
    }

    /// Admits an entry, and returns what was evicted.
    ///
    /// # Errors
    /// [`Error::NoMemory`], [`Error::BadValue`] for a moment that is none.
    pub fn admit(&mut self, key: &Key, weight: usize, fresh_until: Moment) -> Result<Vec<Key>, Error> {
        of_entry!(pcache_manager_admit, self, key, weight, fresh_until.secs, fresh_until.nanos)?;
        self.evicted()
    }

    /// Adds to a weight, up to `most` (0 leaves it as it is), and returns what was evicted.
    ///
    /// # Errors
    /// [`Error::NoMemory`].
    pub fn increment(&mut self, key: &Key, delta: usize, most: usize) -> Result<Vec<Key>, Error> {
        of_entry!(pcache_manager_increment, self, key, delta, most)?;
        self.evicted()
    }

    /// Notes that an entry was used, and says whether it was there; if not, it is admitted with this weight.
    ///
    /// # Errors
    /// [`Error::NoMemory`], [`Error::BadValue`] for a moment that is none.
    pub fn access(&mut self, key: &Key, weight: usize, fresh_until: Moment) -> Result<bool, Error> {
        let mut was = 0;
        of_entry!(pcache_manager_access, self, key, weight, fresh_until.secs, fresh_until.nanos, &mut was)?;
        Ok(was != 0)
    }

    /// Removes an entry, if it is there.
    ///
    /// # Errors
    /// [`Error::NoMemory`].
    pub fn remove(&mut self, key: &Key) -> Result<(), Error> {
        of_entry!(pcache_manager_remove, self, key)
    }

    /// Whether an entry is there; it counts as no use.
    ///
    /// # Errors
    /// [`Error::NoMemory`].
    pub fn peek(&mut self, key: &Key) -> Result<bool, Error> {
        let mut was = 0;
        of_entry!(pcache_manager_peek, self, key, &mut was)?;
        Ok(was != 0)
    }

    /// The counts.
    ///
    /// # Errors
    /// None of this crate's making.
    pub fn totals(&mut self) -> Result<Totals, Error> {
        let mut out = raw::PcacheTotals::default();
        // SAFETY: a struct of the library's layout.
        done(unsafe { raw::pcache_manager_totals(&mut self.0 .0, &mut out) })?;
        Ok(Totals {
            weight: out.weight,
            entries: out.entries,
            evicted_weight: out.evicted_weight,
            evicted_entries: out.evicted_entries,
        })
    }

    /// The list of a shard as bytes, for a file: shard 0 of a manager with one list, 0 to 15 of one in shards.
    ///
    /// # Errors
    /// [`Error::BadValue`] for another shard, [`Error::NoMemory`].
    pub fn save(&mut self, shard: usize) -> Result<Vec<u8>, Error> {
        let mut out = vec![0; 1];
        loop {
            let mut len = 0;
            // SAFETY: a buffer of the length that is said.
            match done(unsafe {
                raw::pcache_manager_save(&mut self.0 .0, shard, out.as_mut_ptr(), out.len(), &mut len)
            }) {
                Err(Error::BadValue) if len > out.len() => out.resize(len, 0),
                Err(error) => return Err(error),
                Ok(()) => {
                    out.truncate(len);
                    return Ok(out);
                }
            }
        }
    }

    /// Loads what [`Manager::save`] gave.
    ///
    /// # Errors
    /// [`Error::Unreadable`], [`Error::NoMemory`].
    pub fn load(&mut self, bytes: &[u8]) -> Result<(), Error> {
        // SAFETY: the slice holds what it says for the call.
        done(unsafe { raw::pcache_manager_load(&mut self.0 .0, bytes.as_ptr(), bytes.len()) })
    }

    // All that was evicted and not handed over.
    fn evicted(&mut self) -> Result<Vec<Key>, Error> {
        let mut all = Vec::new();
        loop {
            let (mut key, mut variance, mut entry) = (Key::default(), [0; 16], raw::PcacheEntry::default());
            let primary = key.primary.as_mut_ptr();
            // SAFETY: two buffers of 16 bytes, and a struct of the library's layout.
            match done(unsafe {
                raw::pcache_manager_next(&mut self.0 .0, primary, 16, variance.as_mut_ptr(), 16, &mut entry)
            }) {
                Err(Error::Nothing) => return Ok(all),
                other => other?,
            }
            let mut tag = vec![0; entry.tag_len];
            // SAFETY: a buffer of the length that was said.
            done(unsafe { raw::pcache_manager_tag(&mut self.0 .0, tag.as_mut_ptr(), tag.len()) })?;
            key.tag = String::from_utf8(tag).map_err(|_| Error::Unreadable)?;
            key.variance = if entry.has_variance != 0 { Some(variance) } else { None };
            key.id = if entry.has_id != 0 { Some(entry.id) } else { None };
            all.push(key);
        }
    }
}

/// What pingora-cache asks of an eviction manager, beside its files. It names no error, so where memory is refused a manager panics,
/// as an allocation in Rust does.
pub trait EvictionManager: Send + Sync {
    /// The sum of the weights.
    fn total_size(&self) -> usize;
    /// The number of entries.
    fn total_items(&self) -> usize;
    /// The sum of the weights that were evicted.
    fn evicted_size(&self) -> usize;
    /// The number of entries that were evicted.
    fn evicted_items(&self) -> usize;
    /// Admits an entry, and returns what was evicted.
    fn admit(&self, item: Key, size: usize, fresh_until: SystemTime) -> Vec<Key>;
    /// Adds to a weight, up to a bound, and returns what was evicted.
    fn increment_weight(&self, item: &Key, delta: usize, max_weight: Option<usize>) -> Vec<Key>;
    /// Removes an entry.
    fn remove(&self, item: &Key);
    /// Notes that an entry was used, and says whether it was there.
    fn access(&self, item: &Key, size: usize, fresh_until: SystemTime) -> bool;
    /// Whether an entry is there.
    fn peek(&self, item: &Key) -> bool;
}

/// A manager behind a lock, for any number of threads, in the shape of pingora-cache's trait.
pub struct SharedManager(Mutex<Manager>);

impl SharedManager {
    /// Shares a manager.
    pub fn new(manager: Manager) -> SharedManager {
        SharedManager(Mutex::new(manager))
    }

    fn lock(&self) -> MutexGuard<'_, Manager> {
        self.0.lock().unwrap_or_else(PoisonError::into_inner)
    }

    fn now(&self) -> Totals {
        granted(self.lock().totals())
    }
}

fn granted<T>(answer: Result<T, Error>) -> T {
    match answer {
        Ok(value) => value,
        Err(error) => panic!("the manager refused: {error}"),
    }
}

impl EvictionManager for SharedManager {
    fn total_size(&self) -> usize {
        self.now().weight
    }

    fn total_items(&self) -> usize {
        self.now().entries
    }

    fn evicted_size(&self) -> usize {
        self.now().evicted_weight
    }

    fn evicted_items(&self) -> usize {
        self.now().evicted_entries
    }

    fn admit(&self, item: Key, size: usize, fresh_until: SystemTime) -> Vec<Key> {
        granted(self.lock().admit(&item, size, fresh_until.into()))
    }

    fn increment_weight(&self, item: &Key, delta: usize, max_weight: Option<usize>) -> Vec<Key> {
        // A bound of 0 leaves each weight as it is, and a missing entry comes in with 1, as with 1.
        let most = max_weight.map_or(0, |most| most.max(1));
        granted(self.lock().increment(item, delta, most))
    }

    fn remove(&self, item: &Key) {
        granted(self.lock().remove(item));
    }

    fn access(&self, item: &Key, size: usize, fresh_until: SystemTime) -> bool {
        granted(self.lock().access(item, size, fresh_until.into()))
    }

    fn peek(&self, item: &Key) -> bool {
        granted(self.lock().peek(item))
    }
}
