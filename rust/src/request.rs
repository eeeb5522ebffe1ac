//! A request of a cache, what it found, and what it fills.

use crate::cache::{Cache, Part};
use crate::error::{done, if_any};
use crate::{raw, Error, Handle, Hash, Head, Meta, Moment};
use std::ops::Deref;
use std::sync::PoisonError;
use std::time::{Duration, Instant};

/// What a look-up found.
#[derive(Clone, Copy, Debug, PartialEq, Eq)]
#[must_use]
pub enum Looked {
    /// A response: ask its [`Request::meta`], and take it or pass it over.
    Found,
    /// Nothing, and this request is the one that may fill the key.
    Permit,
    /// Nothing, and another request fills the key: wait for it.
    Waits,
    /// Nothing, and no lock.
    Nothing,
}

/// What a request holds of its key's lock.
#[derive(Clone, Copy, Debug, PartialEq, Eq)]
pub enum Held {
    /// Nothing.
    Nothing,
    /// The permit to fill the key.
    Permit,
    /// A read lock: another request has the permit.
    ReadLock,
}

/// What a hit is worth.
#[derive(Clone, Copy, Debug, PartialEq, Eq)]
#[repr(u32)]
pub enum HitStatus {
    /// Its time is over: it may be read, renewed or filled anew, and the lock is asked for.
    Expired = 0,
    /// The same, for a reason of the caller's.
    ForceExpired = 1,
    /// The same, to be served stale.
    ForceExpiredServeStale = 2,
    /// It is passed over, and the request goes on as if nothing was found.
    ForceMiss = 3,
    /// The same, since a filter refused it.
    FailedHitFilter = 4,
    /// It is served.
    Fresh = 5,
    /// The same, for a reason of the caller's.
    ForceFresh = 6,
}

/// Where a request stands.
#[derive(Clone, Copy, Debug, PartialEq, Eq)]
#[allow(missing_docs)]
pub enum Phase {
    Disabled,
    Uninit,
    Bypass,
    Key,
    Hit,
    Miss,
    Stale,
    StaleUpdating,
    Expired,
    Revalidated,
    RevalidatedNoCache,
}

const PHASES: [Phase; 11] = [
    Phase::Disabled,
    Phase::Uninit,
    Phase::Bypass,
    Phase::Key,
    Phase::Hit,
    Phase::Miss,
    Phase::Stale,
    Phase::StaleUpdating,
    Phase::Expired,
    Phase::Revalidated,
    Phase::RevalidatedNoCache,
];

/// Why nothing is stored.
#[derive(Clone, Copy, Debug, PartialEq, Eq)]
#[repr(u32)]
#[allow(missing_docs)]
pub enum Reason {
    OriginNotCache = 1,
    ResponseTooLarge = 2,
    PredictedTooLarge = 3,
    StorageError = 4,
    InternalError = 5,
    Deferred = 6,
    DeclinedToUpstream = 7,
    UpstreamError = 8,
    LockGiveUp = 9,
    LockTimeout = 10,
    LockRetryLimit = 11,
    Custom = 12,
}

/// How a wait ended.
#[derive(Clone, Copy, Debug, PartialEq, Eq)]
pub enum WaitEnd {
    /// The key was filled, or its write can be read along with: look again.
    Done,
    /// The fill failed: look again, one of those who waited gets the permit.
    TransientError,
    /// The permit was dropped without a word: look again.
    Dangling,
    /// This request waited for as long as it may: pass.
    WaitTimeout,
    /// The permit was held for too long: look again, a new one is given.
    AgeTimeout,
    /// The response is not to be stored: pass, that is ask the origin, and store nothing.
    GiveUp,
    /// What is filled is of no use to this request, as its token says ([`Request::abandoned`]): pass.
    Abandoned,
}

impl WaitEnd {
    fn of(number: u32) -> Option<WaitEnd> {
        Some(match number {
            1 => WaitEnd::Done,
            2 => WaitEnd::TransientError,
            3 => WaitEnd::Dangling,
            4 => WaitEnd::WaitTimeout,
            5 => WaitEnd::AgeTimeout,
            6 => WaitEnd::GiveUp,
            7 => WaitEnd::Abandoned,
            _ => return None,
        })
    }

    /// Whether the request looks again; else it passes.
    pub fn looks_again(self) -> bool {
        matches!(self, WaitEnd::Done | WaitEnd::TransientError | WaitEnd::Dangling | WaitEnd::AgeTimeout)
    }
}

/// What a read gave.
#[derive(Clone, Copy, Debug, PartialEq, Eq)]
pub enum Read<T> {
    /// What came next.
    Bytes(T),
    /// All was given that was to be read.
    End,
    /// The body was cut off: its write was dropped before its end was announced. What came is not the whole body.
    CutOff,
    /// Nothing is there yet.
    NotYet,
}

impl<T> Read<T> {
    fn of(more: u32, bytes: impl FnOnce() -> T) -> Read<T> {
        match more {
            1 => Read::Bytes(bytes()),
            0 => Read::End,
            3 => Read::CutOff,
            _ => Read::NotYet,
        }
    }
}

/// Bytes of a body that were not copied. They are good as long as this is, whatever becomes of the request and the cache.
pub struct View {
    _handle: Handle,
    at: *const u8,
    len: usize,
}

// SAFETY: the bytes are written by nobody, the handle is of no thread, and it is used by `Drop` alone.
unsafe impl Send for View {}
unsafe impl Sync for View {}

impl Deref for View {
    type Target = [u8];

    fn deref(&self) -> &[u8] {
        if self.len == 0 {
            return &[];
        }
        // SAFETY: the bytes lie there until the handle is ended, and nothing writes to them.
        unsafe { std::slice::from_raw_parts(self.at, self.len) }
    }
}

impl AsRef<[u8]> for View {
    fn as_ref(&self) -> &[u8] {
        self
    }
}

/// How a fill ended.
#[derive(Clone, Copy, Debug, PartialEq, Eq)]
pub struct Stored {
    /// What its entry weighs: the bytes of the body, or all that is kept for it, as the limit of the cache counts.
    pub weight: usize,
    /// How many other bodies were evicted for it.
    pub evicted: usize,
}

/// At most so long a wait sleeps before it asks again: a permit grows too old without a call that could wake anyone.
const NAP: Duration = Duration::from_millis(100);

/// A request, ended by `Drop`: a permit that it holds is dropped, and a write that it did not finish is cut off. It owns a share of its
/// cache, and may move to another thread.
pub struct Request {
    cache: Cache,
    place: usize,
    number: u64,
}

impl Request {
    pub(crate) fn new(cache: Cache, place: usize, number: u64) -> Request {
        Request { cache, place, number }
    }

    fn part(&self) -> &Part {
        self.cache.part(self.place)
    }

    // SAFETY of each call below: the handle is the call's alone while its part is locked, the number is good until `Drop`, slices
    // hold what they say for the call, and what is written to is this call's.
    fn call(&mut self, call: impl FnOnce(*mut raw::PcacheHandle, u64) -> u32) -> Result<(), Error> {
        done(call(self.part().lock().raw(), self.number))
    }

    // The same for a call that others may wait for, whether it succeeds or not.
    fn change(&mut self, call: impl FnOnce(*mut raw::PcacheHandle, u64) -> u32) -> Result<(), Error> {
        let mut part = self.part().lock();
        let code = call(part.raw(), self.number);
        self.part().notify(&part);
        done(code)
    }

    // Asks until it gets an answer or the deadline passed, and sleeps in between.
    fn until<T>(
        &self,
        deadline: Instant,
        mut ask: impl FnMut(*mut raw::PcacheHandle, u64) -> Result<Option<T>, Error>,
    ) -> Result<Option<T>, Error> {
        let mut part = self.part().lock();
        loop {
            if let Some(answer) = ask(part.raw(), self.number)? {
                return Ok(Some(answer));
            }
            let left = deadline.saturating_duration_since(Instant::now());
            if left == Duration::ZERO {
                return Ok(None);
            }
            part.waiting += 1;
            let woken = self.part().changed.wait_timeout(part, left.min(NAP));
            part = woken.unwrap_or_else(PoisonError::into_inner).0;
            part.waiting -= 1;
        }
    }

    /// Where it stands.
    ///
    /// # Errors
    /// None of this crate's making, as of [`Request::held`].
    pub fn phase(&mut self) -> Result<Phase, Error> {
        let mut phase = 0;
        self.call(|cache, request| unsafe { raw::pcache_request_phase(cache, request, &mut phase) })?;
        PHASES.get(phase as usize).copied().ok_or(Error::Other(phase))
    }

    /// What it holds of its key's lock.
    ///
    /// # Errors
    /// None of this crate's making.
    pub fn held(&mut self) -> Result<Held, Error> {
        let mut held = 0;
        self.call(|cache, request| unsafe { raw::pcache_request_held(cache, request, &mut held) })?;
        Ok(held_of(held))
    }

    /// Looks the key up. What was found stays with the request until it is taken or passed over.
    ///
    /// # Errors
    /// [`Error::WrongCall`] if what was found before still waits, or the phase is neither Key nor Stale; [`Error::NoMemory`],
    /// [`Error::Exhausted`], [`Error::BadValue`] for a moment that is none.
    pub fn look(&mut self, now: Moment) -> Result<Looked, Error> {
        let (mut found, mut held) = (0, 0);
        // A second look-up lets go of a permit, which ends the waits of others.
        self.change(|cache, request| unsafe {
            match raw::pcache_request_look(cache, request, now.secs, now.nanos, &mut found) {
                raw::OK => raw::pcache_request_held(cache, request, &mut held),
                code => code,
            }
        })?;
        Ok(match (found, held_of(held)) {
            (0, Held::Permit) => Looked::Permit,
            (0, Held::ReadLock) => Looked::Waits,
            (0, Held::Nothing) => Looked::Nothing,
            _ => Looked::Found,
        })
    }

    /// Takes what was found. Fresh, it is a hit, and is read; expired, the request is stale and asks for the lock; missed, it goes on
    /// as if nothing was found.
    ///
    /// # Errors
    /// [`Error::Nothing`] if nothing was found, else as of [`Request::look`].
    pub fn take(&mut self, status: HitStatus, now: Moment) -> Result<(), Error> {
        // As of `look`: a permit that is held is let go.
        self.change(|cache, request| unsafe {
            raw::pcache_request_take(cache, request, status as u32, now.secs, now.nanos)
        })
    }

    /// Lets go of what was found.
    ///
    /// # Errors
    /// [`Error::Nothing`] if nothing was found.
    pub fn pass(&mut self) -> Result<(), Error> {
        self.call(|cache, request| unsafe { raw::pcache_request_pass(cache, request) })
    }

    /// Whether what was found is the variant that this request wants, a hash of what it asks for by the names of Vary. If not, it is
    /// let go, and the next look-up is for the variant. What was stored before the body under the key came is not found from then on,
    /// so a purge of the key reaches all variants.
    ///
    /// ```
    /// use pcache::{Cache, Head, Looked, Meta, Moment, Options, Said};
    ///
    /// # fn main() -> Result<(), pcache::Error> {
    /// let cache = Cache::new(&Options { limit: 1 << 20, ..Options::default() })?;
    /// let now = Moment::now();
    /// let said = Said { created: now, updated: now, fresh_until: now, ..Said::default() };
    /// let (english, german) = (pcache::hash_key(b"en"), pcache::hash_key(b"de"));
    /// let mut first = cache.request(b"/news", "")?;
    /// assert_eq!(first.look(now)?, Looked::Permit);
    /// first.fill(&mut Meta::new(&mut Head::new(200)?, &said)?, Some(&english))?.finish("breaking")?;
    ///
    /// let mut other = cache.request(b"/news", "")?;
    /// assert_eq!(other.look(now)?, Looked::Found);
    /// assert!(!other.look_for(&german)?);
    /// assert_eq!(other.look(now)?, Looked::Permit);
    /// other.fill(&mut Meta::new(&mut Head::new(200)?, &said)?, Some(&german))?.finish("Eilmeldung")?;
    /// # Ok(())
    /// # }
    /// ```
    ///
    /// # Errors
    /// [`Error::WrongCall`] in another phase than Key and Stale, [`Error::Nothing`] if nothing was found.
    pub fn look_for(&mut self, variance: &Hash) -> Result<bool, Error> {
        let mut same = 0;
        self.call(|cache, request| unsafe {
            raw::pcache_request_look_for(cache, request, variance.as_ptr(), variance.len(), &mut same)
        })?;
        Ok(same != 0)
    }

    /// A copy of the meta of what was found, else of what the request serves or fills.
    ///
    /// # Errors
    /// [`Error::Nothing`] without one, [`Error::NoMemory`].
    pub fn meta(&mut self) -> Result<Meta, Error> {
        let mut meta = Handle::new();
        self.call(|cache, request| unsafe { raw::pcache_request_meta(cache, request, &mut meta.0) })?;
        Ok(Meta(meta))
    }

    /// Begins to fill the key: goes on as a miss, with this meta and this variance. From here on others read along. Only the request
    /// that holds the permit should; one without it fetches beside another.
    ///
    /// # Errors
    /// [`Error::WrongCall`] if it may not miss or write, [`Error::NoMemory`], [`Error::Exhausted`], [`Error::Removed`].
    pub fn fill(&mut self, meta: &mut Meta, variance: Option<&Hash>) -> Result<Fill<'_>, Error> {
        let variance: &[u8] = variance.map_or(&[], |hash| hash);
        let meta = &mut meta.0 .0;
        self.change(|cache, request| unsafe {
            let mut code = raw::pcache_request_miss(cache, request);
            if code == raw::OK {
                code = raw::pcache_request_set_meta(cache, request, meta);
            }
            if code == raw::OK {
                code = raw::pcache_request_vary(cache, request, variance.as_ptr(), variance.len());
            }
            if code == raw::OK {
                code = raw::pcache_request_begin(cache, request);
            }
            code
        })?;
        Ok(Fill { request: self })
    }

    // Adds bytes to the write, which are copied.
    pub(crate) fn add(&mut self, bytes: &[u8], eof: bool) -> Result<(), Error> {
        self.change(|cache, request| unsafe {
            raw::pcache_request_write(cache, request, bytes.as_ptr(), bytes.len(), u32::from(eof))
        })
    }

    // Stores the body that was written.
    pub(crate) fn finish_write(&mut self) -> Result<Stored, Error> {
        let (mut weight, mut evicted) = (0, 0);
        self.change(|cache, request| unsafe { raw::pcache_request_finish(cache, request, &mut weight, &mut evicted) })?;
        Ok(Stored { weight, evicted })
    }

    /// Sets how many bytes the body that is filled has at most, and counts none so far. Nothing is refused by it: who sets it counts
    /// each piece before it is written ([`Request::count_body`]).
    ///
    /// # Errors
    /// [`Error::WrongCall`] if it is disabled.
    pub fn limit_body(&mut self, most: usize) -> Result<(), Error> {
        self.call(|cache, request| unsafe { raw::pcache_request_limit_body(cache, request, most) })
    }

    /// Counts so many bytes more of the body, and says whether those so far are within the limit. If not, the request is to be disabled
    /// for [`Reason::ResponseTooLarge`]. Without a limit they are.
    ///
    /// # Errors
    /// None of this crate's making.
    pub fn count_body(&mut self, count: usize) -> Result<bool, Error> {
        let mut within = 0;
        self.call(|cache, request| unsafe { raw::pcache_request_count_body(cache, request, count, &mut within) })?;
        Ok(within != 0)
    }

    /// Sets how many bytes the head of the response that is filled has at most, as the text that is stored. Nothing is refused by it:
    /// who sets it asks once the write has begun ([`Request::exceeds_head`]).
    ///
    /// # Errors
    /// [`Error::WrongCall`] if it is disabled.
    pub fn limit_head(&mut self, most: usize) -> Result<(), Error> {
        self.call(|cache, request| unsafe { raw::pcache_request_limit_head(cache, request, most) })
    }

    /// Whether the head that its write stores is longer than the limit. Without a limit, and before the write begins, it is not.
    ///
    /// # Errors
    /// None of this crate's making.
    pub fn exceeds_head(&mut self) -> Result<bool, Error> {
        let mut exceeds = 0;
        self.call(|cache, request| unsafe { raw::pcache_request_exceeds_head(cache, request, &mut exceeds) })?;
        Ok(exceeds != 0)
    }

    /// Serves a stale body on, of which the origin said that it is good, with this meta's moments, head and variance ([`Meta::vary`]).
    /// Only the body that this request found is renewed, and the result says whether it was: if it is no longer what is stored under the
    /// key, nothing that is stored changes, and the answer is for this request alone.
    ///
    /// # Errors
    /// [`Error::WrongCall`] if it is not stale, [`Error::NoMemory`].
    pub fn renew(&mut self, meta: &mut Meta) -> Result<bool, Error> {
        let (meta, mut set) = (&mut meta.0 .0, 0);
        self.change(|cache, request| unsafe { raw::pcache_request_renew(cache, request, meta, &mut set) })?;
        Ok(set != 0)
    }

    /// Serves a stale body on, of which the origin said that it is good, with the head of that answer, which is not stored, for a reason:
    /// what is stored stays as it is, and what the request holds of the lock is released as the reason says.
    ///
    /// # Errors
    /// [`Error::WrongCall`] if it is not stale, or holds the permit and the reason is one of those who wait; [`Error::NoMemory`].
    pub fn serve_on(&mut self, head: &mut Head, reason: Reason) -> Result<(), Error> {
        let head = &mut head.0 .0;
        self.change(|cache, request| unsafe { raw::pcache_request_serve_on(cache, request, head, reason as u32) })
    }

    /// Notes that its fetch begins now, as a look-up does: its response is not stored if the key, or the URL (the key without a variance), is
    /// purged from now on until the fill begins. Who fetches without a look-up, or once more, calls this first: a fetch whose begin was
    /// not noted counts as one from before all purges.
    ///
    /// # Errors
    /// None of an open request.
    pub fn begin_fetch(&mut self) -> Result<(), Error> {
        self.call(|cache, request| unsafe { raw::pcache_request_begin_fetch(cache, request) })
    }

    /// Serves a stale body while another request renews it: the phase says so from then on.
    ///
    /// # Errors
    /// [`Error::WrongCall`] if it is not stale.
    pub fn serve_updating(&mut self) -> Result<(), Error> {
        self.call(|cache, request| unsafe { raw::pcache_request_serve_updating(cache, request) })
    }

    /// Reads on into a buffer, which has room for a byte at least.
    ///
    /// # Errors
    /// [`Error::WrongCall`] without a body to read, [`Error::BadValue`] for an empty buffer, [`Error::NoMemory`].
    pub fn read(&mut self, out: &mut [u8]) -> Result<Read<usize>, Error> {
        let (mut len, mut more) = (0, 0);
        self.call(|cache, request| unsafe {
            raw::pcache_request_read(cache, request, out.as_mut_ptr(), out.len(), &mut len, &mut more)
        })?;
        Ok(Read::of(more, || len))
    }

    /// Reads on without a copy: all that is there, at once.
    ///
    /// # Errors
    /// [`Error::WrongCall`] without a body to read, [`Error::NoMemory`].
    pub fn view(&mut self) -> Result<Read<View>, Error> {
        view_of(self.part().lock().raw(), self.number)
    }

    /// The same, and waits for bytes until the deadline passed: [`Read::NotYet`] then.
    ///
    /// # Errors
    /// As of [`Request::view`].
    pub fn view_until(&mut self, deadline: Instant) -> Result<Read<View>, Error> {
        let read = self.until(deadline, |cache, request| {
            Ok(match view_of(cache, request)? {
                Read::NotYet => None,
                read => Some(read),
            })
        })?;
        Ok(read.unwrap_or(Read::NotYet))
    }

    /// The length of the body that is read, if its end is known.
    ///
    /// # Errors
    /// None of this crate's making.
    pub fn body_length(&mut self) -> Result<Option<usize>, Error> {
        let mut len = 0;
        if_any(self.call(|cache, request| unsafe { raw::pcache_request_body_length(cache, request, &mut len) }).map(|()| len))
    }

    /// Reads a complete body again from `start` to before `end`, or to its end.
    ///
    /// # Errors
    /// [`Error::BadValue`] if it has no such range, or a write is read; [`Error::WrongCall`] without a body to read.
    pub fn seek(&mut self, start: usize, end: Option<usize>) -> Result<(), Error> {
        let end = end.unwrap_or(usize::MAX);
        self.call(|cache, request| unsafe { raw::pcache_request_seek(cache, request, start, end) })
    }

    /// Ends what is read.
    ///
    /// # Errors
    /// [`Error::WrongCall`] where nothing may be read.
    pub fn finish_hit(&mut self) -> Result<(), Error> {
        self.call(|cache, request| unsafe { raw::pcache_request_finish_hit(cache, request) })
    }

    /// Waits for locks for at most so long, over all waits: set it before the look-up. A longer wait ends by [`WaitEnd::WaitTimeout`].
    ///
    /// # Errors
    /// [`Error::WrongCall`] if it holds a lock, or fills the key.
    pub fn limit_waits(&mut self, most: Duration) -> Result<(), Error> {
        let millis = u64::try_from(most.as_millis()).unwrap_or(u64::MAX);
        self.call(|cache, request| unsafe { raw::pcache_request_limit_waits(cache, request, millis) })
    }

    /// How the wait for the permit's holder ended, or nothing while it goes on.
    ///
    /// # Errors
    /// [`Error::WrongCall`] without a read lock, [`Error::BadValue`] for a moment that is none.
    pub fn wait(&mut self, now: Moment) -> Result<Option<WaitEnd>, Error> {
        wait_of(self.part().lock().raw(), self.number, now)
    }

    /// The same, and sleeps until the wait ended or the deadline passed: nothing then. Its moments are those of the clock,
    /// so the look-ups of the key's requests have to be made at those too ([`Moment::now`]).
    ///
    /// # Errors
    /// [`Error::WrongCall`] without a read lock.
    pub fn wait_until(&mut self, deadline: Instant) -> Result<Option<WaitEnd>, Error> {
        self.until(deadline, |cache, request| wait_of(cache, request, Moment::now()))
    }

    /// How long it waited for locks, over all its waits that ended, if one did.
    ///
    /// # Errors
    /// None of this crate's making.
    pub fn waited(&mut self) -> Result<Option<Duration>, Error> {
        let (mut secs, mut nanos) = (0, 0);
        let given = self.call(|cache, request| unsafe { raw::pcache_request_waited(cache, request, &mut secs, &mut nanos) });
        if_any(given.map(|()| Duration::new(secs, nanos)))
    }

    /// Publishes what was found out about the fill, as tokens: numbers to which the caller gives a meaning. Who waits for this request,
    /// and cannot use a fill with one of them ([`Cache::request_with_unusable`]), waits no longer. They stand in place of those that it
    /// published before.
    ///
    /// # Errors
    /// [`Error::Nothing`] if it does not hold the permit, [`Error::NoMemory`].
    pub fn publish(&mut self, tokens: &[u64]) -> Result<(), Error> {
        self.change(|cache, request| unsafe {
            raw::pcache_request_publish(cache, request, tokens.as_ptr(), tokens.len())
        })
    }

    /// The token for which its last wait that ended by [`WaitEnd::Abandoned`] was abandoned, if one was.
    ///
    /// # Errors
    /// None of this crate's making.
    pub fn abandoned(&mut self) -> Result<Option<u64>, Error> {
        let mut token = 0;
        if_any(self.call(|cache, request| unsafe { raw::pcache_request_abandoned(cache, request, &mut token) }).map(|()| token))
    }

    /// Gives the permit back, with what the reason tells those who wait.
    ///
    /// # Errors
    /// [`Error::WrongCall`] for a reason of those who wait, [`Error::Nothing`] if nothing is held.
    pub fn release(&mut self, reason: Reason) -> Result<(), Error> {
        self.change(|cache, request| unsafe { raw::pcache_request_release(cache, request, reason as u32) })
    }

    /// Hands the permit to another request for the same key, which then fills or renews it in this one's place: so a stale body is
    /// served to its end by one request, and renewed by another. Its fetch counts as begun when this one looked up, or said so. A lock that
    /// the other one held is let go. Keys are not compared.
    ///
    /// # Errors
    /// [`Error::WrongCall`] if this request holds no permit, if the other one is disabled, or is of another cache or part.
    pub fn hand_permit(&mut self, to: &mut Request) -> Result<(), Error> {
        if !std::ptr::eq(self.part(), to.part()) {
            return Err(Error::WrongCall);
        }
        let to = to.number;
        self.change(|cache, request| unsafe { raw::pcache_request_hand_permit(cache, request, to) })
    }

    /// Stores nothing from here on, and gives back all that is held, with what the reason tells those who wait.
    ///
    /// # Errors
    /// [`Error::WrongCall`] for a reason of those who wait, of a request that holds the permit.
    pub fn disable(&mut self, reason: Reason) -> Result<(), Error> {
        self.change(|cache, request| unsafe { raw::pcache_request_disable(cache, request, reason as u32) })
    }

    /// Removes what stands under the key, and says whether anything was there.
    ///
    /// # Errors
    /// [`Error::WrongCall`] if the request looked and took something, [`Error::NoMemory`].
    pub fn purge(&mut self) -> Result<bool, Error> {
        let mut was = 0;
        self.change(|cache, request| unsafe { raw::pcache_request_purge(cache, request, &mut was) })?;
        Ok(was != 0)
    }

    /// Ends the freshness of what stands under the key, and says whether a body was there.
    ///
    /// # Errors
    /// As of [`Request::purge`], and [`Error::BadValue`] for a moment that is none.
    pub fn expire(&mut self, now: Moment) -> Result<bool, Error> {
        let mut was = 0;
        self.change(|cache, request| unsafe {
            raw::pcache_request_expire(cache, request, now.secs, now.nanos, &mut was)
        })?;
        Ok(was != 0)
    }
}

impl Drop for Request {
    fn drop(&mut self) {
        // The number is good until here, so nothing is refused.
        let _ = self.change(|cache, request| unsafe { raw::pcache_request_end(cache, request) });
    }
}

fn held_of(number: u32) -> Held {
    match number {
        1 => Held::Permit,
        2 => Held::ReadLock,
        _ => Held::Nothing,
    }
}

fn view_of(cache: *mut raw::PcacheHandle, request: u64) -> Result<Read<View>, Error> {
    let mut handle = Handle::new();
    let (mut at, mut len, mut more) = (std::ptr::null(), 0, 0);
    // SAFETY: the caller has the part locked, and the handle of the view has nothing.
    done(unsafe { raw::pcache_request_view(cache, request, &mut handle.0, &mut at, &mut len, &mut more) })?;
    Ok(Read::of(more, || View { _handle: handle, at, len }))
}

fn wait_of(cache: *mut raw::PcacheHandle, request: u64, now: Moment) -> Result<Option<WaitEnd>, Error> {
    let mut outcome = 0;
    // SAFETY: the caller has the part locked.
    done(unsafe { raw::pcache_request_wait(cache, request, now.secs, now.nanos, &mut outcome) })?;
    Ok(WaitEnd::of(outcome))
}

/// A write of a request: what is written is read along by others as it comes. If it is dropped before it is finished, its request is
/// still in the write, and cuts it off when it ends.
#[must_use]
pub struct Fill<'r> {
    request: &'r mut Request,
}

impl Fill<'_> {
    /// Adds bytes, which are copied.
    ///
    /// # Errors
    /// [`Error::NoMemory`].
    pub fn write(&mut self, bytes: impl AsRef<[u8]>) -> Result<(), Error> {
        self.request.add(bytes.as_ref(), false)
    }

    /// Adds the last bytes, and stores the body.
    ///
    /// # Errors
    /// [`Error::Removed`] if the key was purged since the write began, [`Error::Superseded`] if a newer body of the key stands,
    /// [`Error::NoMemory`]: the write is gone, and nothing is stored.
    pub fn finish(self, last: impl AsRef<[u8]>) -> Result<Stored, Error> {
        self.request.add(last.as_ref(), true)?;
        self.request.finish_write()
    }

    /// As [`Request::count_body`], for a piece that is about to be written.
    ///
    /// # Errors
    /// None of this crate's making.
    pub fn count_body(&mut self, count: usize) -> Result<bool, Error> {
        self.request.count_body(count)
    }

    /// As [`Request::exceeds_head`].
    ///
    /// # Errors
    /// None of this crate's making.
    pub fn exceeds_head(&mut self) -> Result<bool, Error> {
        self.request.exceeds_head()
    }
}
