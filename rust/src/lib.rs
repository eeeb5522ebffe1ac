//! The cache of a HTTP proxy, proved, for programs with threads.
//!
//! The library below keeps bodies within a limit, lets one request fill a key while the others wait or read along, and says
//! whether a stored response may be served. `docs/FROM_C.md` says what of it is proved. This crate is a safe way to it: it is
//! tested, and not proved, and [`is_proved`] says which of the two archives is linked.
//!
//! A [`Cache`] is several caches, each behind a lock; a key is in one of them. It may be used from any number of threads. A
//! [`Request`] moves between threads, and what it waits for wakes it.
//!
//! ```
//! use pcache::{Cache, Head, HitStatus, Looked, Meta, Moment, Options, Read, Said};
//!
//! # fn main() -> Result<(), pcache::Error> {
//! let cache = Cache::new(&Options { limit: 1 << 20, ..Options::default() })?;
//! let now = Moment::now();
//!
//! // The first request for a key finds nothing, and gets the permit to fill it.
//! let mut request = cache.request(b"/news", "")?;
//! assert_eq!(request.look(now)?, Looked::Permit);
//! let until = Moment { secs: now.secs + 60, ..now };
//! let said = Said { created: now, updated: now, fresh_until: until, ..Said::default() };
//! let mut meta = Meta::new(&mut Head::new(200)?, &said)?;
//! let mut fill = request.fill(&mut meta, None)?;
//! fill.write("breaking")?;
//! assert_eq!(fill.finish(" news")?.evicted, 0);
//!
//! // The next one finds it, and reads it without a copy.
//! let mut request = cache.request(b"/news", "")?;
//! assert_eq!(request.look(now)?, Looked::Found);
//! assert!(request.meta()?.servable(now)?.fresh);
//! request.take(HitStatus::Fresh, now)?;
//! let read = request.view()?;
//! drop(request);
//! assert!(matches!(read, Read::Bytes(body) if &*body == b"breaking news"));
//! # Ok(())
//! # }
//! ```
#![warn(missing_docs)]

mod cache;
mod decisions;
mod error;
mod manager;
mod meta;
mod put;
mod raw;
mod request;

pub use cache::{Cache, CacheCounted, CacheTotals, Counts, Options, Policy};
pub use decisions::{Answer, Asked, Decision, NotStored, Outcome, Reuse, Terms};
pub use error::Error;
pub use manager::{EvictionManager, Key, Manager, SharedManager, Totals};
pub use meta::{Answers, Head, Meta, Moment, Said, Servable};
pub use put::{Put, PutOptions};
pub use request::{Fill, Held, HitStatus, Looked, Phase, Read, Reason, Request, Stored, View, WaitEnd};

/// A hash of 16 bytes.
pub type Hash = [u8; 16];

/// Whether the linked archive was built by the proof. One that was not does the same, if its sources are those of the proof.
pub fn is_proved() -> bool {
    // SAFETY: it takes nothing.
    unsafe { raw::pcache_is_proved() == 1 }
}

/// The hash of a key.
///
/// ```
/// assert_ne!(pcache::hash_key(b"a"), pcache::hash_key(b"b"));
/// ```
pub fn hash_key(key: &[u8]) -> Hash {
    let mut out = [0; 16];
    // SAFETY: both slices hold what they say for the call. It refuses another length than 16 alone.
    unsafe { raw::pcache_hash_key(key.as_ptr(), key.len(), out.as_mut_ptr(), 16) };
    out
}

/// The hash of a key and a variance: that of the key, if there is none.
///
/// # Errors
/// [`Error::NoMemory`].
pub fn combined_hash(primary: &Hash, variance: Option<&Hash>) -> Result<Hash, Error> {
    let variance: &[u8] = variance.map_or(&[], |hash| hash);
    let mut out = [0; 16];
    // SAFETY: the slices hold what they say for the call.
    error::done(unsafe {
        raw::pcache_combined_hash(primary.as_ptr(), 16, variance.as_ptr(), variance.len(), out.as_mut_ptr(), 16)
    })?;
    Ok(out)
}

/// What a response varies on: names with their values, as one hash.
///
/// ```
/// # fn main() -> Result<(), pcache::Error> {
/// let mut variance = pcache::Variance::new()?;
/// variance.add("accept-language", b"en")?;
/// assert!(variance.finish()?.is_some());
/// assert_eq!(pcache::Variance::new()?.finish()?, None);
/// # Ok(())
/// # }
/// ```
pub struct Variance(Handle);

impl Variance {
    /// A variance of no names.
    ///
    /// # Errors
    /// [`Error::NoMemory`].
    pub fn new() -> Result<Variance, Error> {
        let mut handle = Handle::new();
        // SAFETY: the handle has nothing.
        error::done(unsafe { raw::pcache_variance_new(&mut handle.0) })?;
        Ok(Variance(handle))
    }

    /// Adds a name. The last value of a name stands.
    ///
    /// # Errors
    /// [`Error::NoMemory`].
    pub fn add(&mut self, name: &str, value: &[u8]) -> Result<(), Error> {
        // SAFETY: the slices hold what they say for the call.
        error::done(unsafe {
            raw::pcache_variance_add(&mut self.0 .0, name.as_ptr(), name.len(), value.as_ptr(), value.len())
        })
    }

    /// The hash, or none if nothing was added.
    ///
    /// # Errors
    /// [`Error::NoMemory`].
    pub fn finish(mut self) -> Result<Option<Hash>, Error> {
        let mut out = [0; 16];
        // SAFETY: the buffer has 16 bytes.
        let given = error::done(unsafe { raw::pcache_variance_finish(&mut self.0 .0, out.as_mut_ptr(), 16) });
        error::if_any(given.map(|()| out))
    }
}

/// A handle of the library's, ended once by `Drop`.
struct Handle(raw::PcacheHandle);

// SAFETY: the object behind a handle is of no thread: the library keeps nothing beside it, memory comes from malloc, and what two
// objects share (the bytes of a view) is counted by atomic steps. It may so be used by one thread at a time, whichever.
unsafe impl Send for Handle {}

impl Handle {
    fn new() -> Handle {
        Handle(raw::PcacheHandle { tag: 0, at: std::ptr::null_mut() })
    }
}

impl Drop for Handle {
    fn drop(&mut self) {
        // SAFETY: the handle is this one's alone; one that has nothing is told by its tag.
        unsafe { raw::pcache_end(&mut self.0) };
    }
}
