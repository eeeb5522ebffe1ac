//! What HTTP's rules of caching decide of a request and of its response (RFC 9111).

use crate::error::{done, if_any};
use crate::{raw, Error, Handle, Head, Meta, Moment};

/// What a decision goes by besides heads.
#[derive(Clone, Copy, Debug, Default, PartialEq, Eq)]
pub struct Terms {
    /// The moment: of a response, when it was received.
    pub now: Moment,
    /// When the request was sent that the stored response answered, or that validated it last.
    pub requested: Moment,
    /// The cache is that of one user, and not shared.
    pub is_private: bool,
    /// A response is stale that says its lifetime twice; else the first one counts.
    pub repeated_is_stale: bool,
    /// The most seconds that a lifetime is guessed to be, or 0 for no guess.
    pub most_guessed: u32,
    /// The stored response is the only one that could be chosen for the request.
    pub is_alone: bool,
    /// Its body was processed before it was stored, as decoded.
    pub is_processed: bool,
}

impl Terms {
    /// Those of a proxy at a moment, which guesses no lifetimes, and whose keys tell variants apart.
    pub fn at(now: Moment) -> Terms {
        Terms { now, requested: now, is_alone: true, ..Terms::default() }
    }

    fn raw(&self) -> raw::PcacheTerms {
        raw::PcacheTerms {
            at: self.now.raw(),
            requested: self.requested.raw(),
            is_private: u32::from(self.is_private),
            repeated_is_stale: u32::from(self.repeated_is_stale),
            most_guessed_secs: self.most_guessed,
            is_alone: u32::from(self.is_alone),
            is_processed: u32::from(self.is_processed),
        }
    }
}

/// What the client gets of a stored response.
#[derive(Clone, Copy, Debug, PartialEq, Eq)]
pub enum Answer {
    /// The whole.
    Full,
    /// The range that it asks for, if there is one.
    Range,
    /// A 304 for its own condition.
    NotModified,
}

fn answer_of(number: u32) -> Answer {
    [Answer::Full, Answer::Range, Answer::NotModified][(number as usize).min(2)]
}

/// Why a stored response is served.
#[derive(Clone, Copy, Debug, PartialEq, Eq)]
pub enum Reuse {
    /// It is fresh.
    Fresh,
    /// It may be stale while it is validated.
    WhileRevalidating,
    /// The client accepts it stale.
    AcceptedStale,
}

/// What becomes of a request.
#[derive(Clone, Copy, Debug, PartialEq, Eq)]
pub enum Decision {
    /// It is answered with what is stored: why it may be, what the client gets, and the Age to send.
    Serve(Reuse, Answer, u32),
    /// It is forwarded with [`Meta::validators`] in place of the client's own conditions.
    Validate,
    /// It is forwarded as it is.
    Fetch,
    /// It is answered with 504.
    OnlyIfCached,
}

/// Why a response may not be stored: the condition of RFC 9111 section 3 that does not hold.
#[derive(Clone, Copy, Debug, PartialEq, Eq)]
pub enum NotStored {
    /// The method of its request is not GET.
    MethodNotUnderstood = 1,
    /// Its status is an interim one.
    StatusNotFinal,
    /// Its status is 206, 304, or with `must-understand` one that is not understood.
    StatusNotUnderstood,
    /// The request has `no-store`.
    NoStoreAsked,
    /// The response has `no-store`.
    NoStoreSaid,
    /// It is for one user, and the cache is shared.
    PrivateSaid,
    /// The request has an Authorization, the cache is shared, and no directive allows it.
    Authorized,
    /// Nothing in it allows it.
    NothingAllowsIt,
}

const REASONS: [NotStored; 8] = [
    NotStored::MethodNotUnderstood,
    NotStored::StatusNotFinal,
    NotStored::StatusNotUnderstood,
    NotStored::NoStoreAsked,
    NotStored::NoStoreSaid,
    NotStored::PrivateSaid,
    NotStored::Authorized,
    NotStored::NothingAllowsIt,
];

/// What becomes of a response.
pub enum Outcome {
    /// It is passed on, and stored with this meta.
    Store(Meta),
    /// It is a 304: the stored response with this meta answers the request, and is stored if the flag says so.
    Freshen(Meta, bool, Answer),
    /// The request is sent again, without conditions.
    FetchAgain,
    /// It is an error, and the stored response answers in its place, with this Age.
    ServeStale(Answer, u32),
    /// It answers a HEAD and is passed on; what is stored has this meta now.
    Update(Meta),
    /// It answers a HEAD and is passed on; what is stored is stale now.
    MarkStale,
    /// It is passed on, and what is stored for its target is purged.
    Invalidate,
    /// It is passed on and not stored, for this reason.
    PassOn(NotStored),
}

/// The head of a request.
///
/// ```
/// use pcache::{Answer, Asked, Decision, Head, Moment, Outcome, Reuse, Terms};
///
/// # fn main() -> Result<(), pcache::Error> {
/// let mut asked = Asked::new("GET", b"/news")?;
/// let then = Terms::at(Moment { secs: 1000, nanos: 0 });
/// assert_eq!(asked.decide_missing()?, Decision::Fetch);
/// let mut response = Head::new(200)?;
/// response.add("Cache-Control", b"max-age=60")?;
/// response.add("ETag", b"\"1\"")?;
/// let mut meta = match asked.decide_fetched(&then, &mut response)? {
///     Outcome::Store(meta) => meta,
///     _ => panic!("it is stored"),
/// };
/// let now = Terms { now: Moment { secs: 1020, nanos: 0 }, ..then };
/// assert_eq!(asked.decide_stored(&now, &mut meta, None)?, Decision::Serve(Reuse::Fresh, Answer::Full, 20));
/// let late = Terms { now: Moment { secs: 1060, nanos: 0 }, ..then };
/// assert_eq!(asked.decide_stored(&late, &mut meta, None)?, Decision::Validate);
/// assert_eq!(meta.validators()?, (b"\"1\"".to_vec(), Vec::new()));
/// # Ok(())
/// # }
/// ```
pub struct Asked(Handle);

impl Asked {
    /// A head with this method and target, and no fields.
    ///
    /// # Errors
    /// [`Error::BadValue`] for a method that is none, [`Error::NoMemory`].
    pub fn new(method: &str, target: &[u8]) -> Result<Asked, Error> {
        let mut handle = Handle::new();
        // SAFETY: the slices hold what they say for the call, and the handle has nothing.
        done(unsafe {
            raw::pcache_asked_new(&mut handle.0, method.as_ptr(), method.len(), target.as_ptr(), target.len())
        })?;
        Ok(Asked(handle))
    }

    /// Adds a field beside those of the same name.
    ///
    /// # Errors
    /// [`Error::BadValue`] for a name or a value that is none, [`Error::NoMemory`].
    pub fn add(&mut self, name: &str, value: &[u8]) -> Result<(), Error> {
        // SAFETY: the slices hold what they say for the call.
        done(unsafe { raw::pcache_asked_add(&mut self.0 .0, name.as_ptr(), name.len(), value.as_ptr(), value.len()) })
    }

    /// What becomes of it if nothing is stored.
    ///
    /// # Errors
    /// None of this crate's making.
    pub fn decide_missing(&mut self) -> Result<Decision, Error> {
        let mut out = raw::PcacheDecision::default();
        // SAFETY: a struct of the library's layout, as in the calls below.
        done(unsafe { raw::pcache_decide_missing(&mut self.0 .0, &mut out) })?;
        Ok(decision_of(&out))
    }

    /// What becomes of it if a response with this meta is stored, which answered the `original`, or a request with the same
    /// fields as this one.
    ///
    /// # Errors
    /// [`Error::BadValue`] for a moment that is none.
    pub fn decide_stored(&mut self, terms: &Terms, meta: &mut Meta, original: Option<&mut Asked>) -> Result<Decision, Error> {
        let (mut none, mut out) = (Handle::new(), raw::PcacheDecision::default());
        let original = original.map_or(&mut none.0, |it| &mut it.0 .0);
        // SAFETY: three handles, each of its own.
        done(unsafe { raw::pcache_decide_stored(&terms.raw(), &mut self.0 .0, &mut meta.0 .0, original, &mut out) })?;
        Ok(decision_of(&out))
    }

    /// What becomes of the response to it, if it was forwarded as it is.
    ///
    /// # Errors
    /// [`Error::BadValue`] for a moment that is none, [`Error::NoMemory`].
    pub fn decide_fetched(&mut self, terms: &Terms, response: &mut Head) -> Result<Outcome, Error> {
        let (mut kept, mut out) = (Handle::new(), raw::PcacheOutcome::default());
        // SAFETY: three handles, each of its own.
        done(unsafe {
            raw::pcache_decide_fetched(&mut kept.0, &terms.raw(), &mut self.0 .0, &mut response.0 .0, &mut out)
        })?;
        Ok(outcome_of(kept, &out))
    }

    /// What becomes of the response to it, if it was forwarded with the validators of this meta.
    ///
    /// # Errors
    /// [`Error::BadValue`] for a moment that is none, [`Error::NoMemory`], [`Error::Unreadable`] only if the response
    /// updates what is stored, and the two heads have more than 24,576 names together.
    pub fn decide_validated(&mut self, terms: &Terms, meta: &mut Meta, original: Option<&mut Asked>, response: &mut Head) -> Result<Outcome, Error> {
        let (mut kept, mut none, mut out) = (Handle::new(), Handle::new(), raw::PcacheOutcome::default());
        let original = original.map_or(&mut none.0, |it| &mut it.0 .0);
        // SAFETY: five handles, each of its own.
        done(unsafe {
            let (asked, response) = (&mut self.0 .0, &mut response.0 .0);
            raw::pcache_decide_validated(&mut kept.0, &terms.raw(), asked, &mut meta.0 .0, original, response, &mut out)
        })?;
        Ok(outcome_of(kept, &out))
    }

    /// What the client gets of a stored response with this meta, and the Age to send, if no response came to the request that was
    /// forwarded with its validators; or nothing, if it may not be served.
    ///
    /// # Errors
    /// [`Error::BadValue`] for a moment that is none.
    pub fn decide_failed(&mut self, terms: &Terms, meta: &mut Meta, original: Option<&mut Asked>) -> Result<Option<(Answer, u32)>, Error> {
        let (mut none, mut out) = (Handle::new(), raw::PcacheOutcome::default());
        let original = original.map_or(&mut none.0, |it| &mut it.0 .0);
        // SAFETY: three handles, each of its own.
        let given = done(unsafe { raw::pcache_decide_failed(&terms.raw(), &mut self.0 .0, &mut meta.0 .0, original, &mut out) });
        if_any(given.map(|()| (answer_of(out.answer), out.age)))
    }
}

fn decision_of(out: &raw::PcacheDecision) -> Decision {
    let reuse = [Reuse::Fresh, Reuse::WhileRevalidating, Reuse::AcceptedStale][(out.reuse as usize).min(2)];
    match out.does {
        0 => Decision::Serve(reuse, answer_of(out.answer), out.age),
        1 => Decision::Validate,
        2 => Decision::Fetch,
        _ => Decision::OnlyIfCached,
    }
}

fn outcome_of(kept: Handle, out: &raw::PcacheOutcome) -> Outcome {
    match out.does {
        0 => Outcome::Store(Meta(kept)),
        1 => Outcome::Freshen(Meta(kept), out.reason == 0, answer_of(out.answer)),
        2 => Outcome::FetchAgain,
        3 => Outcome::ServeStale(answer_of(out.answer), out.age),
        4 => Outcome::Update(Meta(kept)),
        5 => Outcome::MarkStale,
        6 => Outcome::Invalidate,
        _ => Outcome::PassOn(REASONS[(out.reason.max(1) as usize - 1).min(7)]),
    }
}
