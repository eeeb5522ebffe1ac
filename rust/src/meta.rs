//! Heads of responses, what their Cache-Control says, and metas of stored responses.

use crate::error::{done, if_any};
use crate::{raw, Error, Handle, Hash};
use std::time::{Duration, SystemTime, UNIX_EPOCH};

/// A moment: seconds and nanoseconds since 1970-01-01 00:00:00 UTC.
#[derive(Clone, Copy, Debug, Default, PartialEq, Eq, PartialOrd, Ord, Hash)]
pub struct Moment {
    /// The seconds.
    pub secs: u64,
    /// The nanoseconds, below 1,000,000,000.
    pub nanos: u32,
}

impl Moment {
    /// What the clock says. The library reads no clock: each call that depends on the time takes a moment.
    pub fn now() -> Moment {
        SystemTime::now().into()
    }

    fn of(raw: raw::PcacheMoment) -> Moment {
        Moment { secs: raw.secs, nanos: raw.nanos }
    }

    pub(crate) fn raw(self) -> raw::PcacheMoment {
        raw::PcacheMoment { secs: self.secs, nanos: self.nanos }
    }
}

impl From<SystemTime> for Moment {
    /// A moment before 1970 counts as 1970.
    fn from(time: SystemTime) -> Moment {
        let since = time.duration_since(UNIX_EPOCH).unwrap_or(Duration::ZERO);
        Moment { secs: since.as_secs(), nanos: since.subsec_nanos() }
    }
}

/// What the Cache-Control of a response says, in seconds.
#[derive(Clone, Copy, Debug, PartialEq, Eq)]
pub struct Answers {
    /// Whether it may be stored, or nothing if that is left to the status.
    pub cacheable: Option<bool>,
    /// Whether it may be stored if its request had an Authorization.
    pub authorized: bool,
    /// For how long it is fresh.
    pub fresh: Option<u64>,
    /// For how long after that it may be served while it is revalidated.
    pub stale_while_revalidate: Option<u64>,
    /// For how long after that it may be served if the origin fails.
    pub stale_if_error: Option<u64>,
}

/// The head of a response.
pub struct Head(pub(crate) Handle);

impl Head {
    /// A head of HTTP/1.1 with this status and no fields.
    ///
    /// # Errors
    /// [`Error::BadValue`] for a number that is no status, [`Error::NoMemory`].
    pub fn new(status: u16) -> Result<Head, Error> {
        let mut handle = Handle::new();
        // SAFETY: the handle has nothing.
        done(unsafe { raw::pcache_head_new(&mut handle.0, status) })?;
        Ok(Head(handle))
    }

    /// The head at the start of the bytes in which a response came, and how many bytes it has: the body begins there. Nothing if it
    /// has not ended yet: ask again with more bytes.
    ///
    /// ```
    /// # fn main() -> Result<(), pcache::Error> {
    /// let bytes = b"HTTP/1.1 200 OK\r\nAge: 7\r\nVary: a\r\nVary: b\r\n\r\nbody";
    /// let (mut head, taken) = pcache::Head::read(bytes)?.expect("a whole head");
    /// assert_eq!((head.status()?, &bytes[taken..]), (200, &b"body"[..]));
    /// assert_eq!((head.count("VARY")?, head.value("vary", 1)?), (2, Some(b"b".to_vec())));
    /// assert!(pcache::Head::read(&bytes[..taken - 1])?.is_none());
    /// assert_eq!(pcache::Head::read(b"SMTP").err(), Some(pcache::Error::Unreadable));
    /// # Ok(())
    /// # }
    /// ```
    ///
    /// # Errors
    /// [`Error::Unreadable`] for bytes that are no head, and for one with more than 256 fields; [`Error::NoMemory`].
    pub fn read(bytes: &[u8]) -> Result<Option<(Head, usize)>, Error> {
        let (mut handle, mut taken) = (Handle::new(), 0);
        // SAFETY: the handle has nothing, and the slice holds what it says for the call.
        let given = done(unsafe { raw::pcache_head_read(&mut handle.0, bytes.as_ptr(), bytes.len(), &mut taken) });
        if_any(given.map(|()| (Head(handle), taken)))
    }

    /// Adds a field beside those of the same name.
    ///
    /// # Errors
    /// [`Error::BadValue`] for a name or a value that is none, [`Error::NoMemory`], [`Error::Unreadable`] for a full head.
    pub fn add(&mut self, name: &str, value: &[u8]) -> Result<(), Error> {
        // SAFETY: the slices hold what they say for the call.
        done(unsafe { raw::pcache_head_add(&mut self.0 .0, name.as_ptr(), name.len(), value.as_ptr(), value.len()) })
    }

    /// What Cache-Control says, if there is one.
    ///
    /// # Errors
    /// [`Error::NoMemory`].
    pub fn answers(&mut self) -> Result<Option<Answers>, Error> {
        let mut control = Handle::new();
        let mut out = raw::PcacheAnswers::default();
        // SAFETY: two handles that are this call's, and a struct of the library's layout.
        match done(unsafe { raw::pcache_control_read(&mut control.0, &mut self.0 .0) }) {
            Err(Error::Nothing) => return Ok(None),
            other => other?,
        }
        done(unsafe { raw::pcache_control_answers(&mut control.0, &mut out) })?;
        let seconds = |has: u32, secs: u64| if has != 0 { Some(secs) } else { None };
        Ok(Some(Answers {
            cacheable: [Some(false), Some(true), None][(out.cacheable as usize).min(2)],
            authorized: out.authorized != 0,
            fresh: seconds(out.has_fresh, out.fresh_secs),
            stale_while_revalidate: seconds(out.has_stale_while_revalidate, out.stale_while_revalidate_secs),
            stale_if_error: seconds(out.has_stale_if_error, out.stale_if_error_secs),
        }))
    }

    /// Which URIs this response to an unsafe method takes away besides its target, whose URI is handed in: those of its Location and
    /// of its Content-Location, if they are of the target's origin. One of no bytes is none.
    ///
    /// ```
    /// # fn main() -> Result<(), pcache::Error> {
    /// let mut head = pcache::Head::new(201)?;
    /// head.add("Location", b"/news/7")?;
    /// head.add("Content-Location", b"http://other.example/news")?;
    /// assert_eq!(head.taken_away(b"http://example.org/news")?, (b"http://example.org/news/7".to_vec(), Vec::new()));
    /// # Ok(())
    /// # }
    /// ```
    ///
    /// # Errors
    /// [`Error::BadValue`] for a target that is no URI, [`Error::NoMemory`].
    pub fn taken_away(&mut self, target: &[u8]) -> Result<(Vec<u8>, Vec<u8>), Error> {
        let head = &mut self.0 .0;
        let (at, len) = (target.as_ptr(), target.len());
        texts(256, 256, |one, two, first, second| unsafe {
            raw::pcache_taken_away(head, at, len, one.as_mut_ptr(), one.len(), two.as_mut_ptr(), two.len(), first, second)
        })
    }

    /// The meta to store the response with, or nothing if it is not to be stored. `authorized` says that the request had an
    /// Authorization; `windows` are the seconds for which it may be served stale while it is revalidated, and if the origin fails,
    /// where it says nothing of that. The meta has the fields of this head
    /// but those that Cache-Control names, as in `private="x"`.
    ///
    /// # Errors
    /// [`Error::NoMemory`], and [`Error::BadValue`] for a moment that is none.
    pub fn meta(&mut self, authorized: bool, windows: (u32, u32), now: Moment) -> Result<Option<Meta>, Error> {
        let mut meta = Handle::new();
        let head = &mut self.0 .0;
        // SAFETY: the handle of the meta has nothing, and the head is another.
        let given = done(unsafe {
            raw::pcache_resp_cacheable(&mut meta.0, head, u32::from(authorized), windows.0, windows.1, now.secs, now.nanos)
        });
        if_any(given.map(|()| Meta(meta)))
    }
}

/// The moments and windows of a meta.
#[derive(Clone, Copy, Debug, Default, PartialEq, Eq)]
pub struct Said {
    /// When the response was made.
    pub created: Moment,
    /// When it was renewed last.
    pub updated: Moment,
    /// Up to when it is fresh.
    pub fresh_until: Moment,
    /// For how many seconds after that it may be served while it is revalidated.
    pub stale_while_revalidate: u32,
    /// For how many seconds after that it may be served if the origin fails.
    pub stale_if_error: u32,
}

/// Whether a response may be served.
#[derive(Clone, Copy, Debug, Default, PartialEq, Eq)]
pub struct Servable {
    /// It is fresh.
    pub fresh: bool,
    /// It may be served while another request renews it.
    pub while_revalidating: bool,
    /// It may be served since the origin failed.
    pub after_error: bool,
}

/// The meta of a stored response: its head, with its moments.
pub struct Meta(pub(crate) Handle);

impl Meta {
    /// A meta of all fields of a head, which is copied: also of those that [`Head::meta`] leaves out.
    ///
    /// # Errors
    /// [`Error::NoMemory`], and [`Error::BadValue`] for a moment that is none.
    pub fn new(head: &mut Head, said: &Said) -> Result<Meta, Error> {
        let said = raw::PcacheMeta {
            created: said.created.raw(),
            updated: said.updated.raw(),
            fresh_until: said.fresh_until.raw(),
            stale_while_revalidate_secs: said.stale_while_revalidate,
            stale_if_error_secs: said.stale_if_error,
        };
        let mut meta = Handle::new();
        // SAFETY: the handle of the meta has nothing, the head is another, and the struct has the library's layout.
        done(unsafe { raw::pcache_meta_new(&mut meta.0, &mut head.0 .0, &said) })?;
        Ok(Meta(meta))
    }

    /// A meta of the bytes that [`Meta::write`] gave.
    ///
    /// # Errors
    /// [`Error::Unreadable`], [`Error::NoMemory`].
    pub fn read(internal: &[u8], header: &[u8]) -> Result<Meta, Error> {
        let mut meta = Handle::new();
        // SAFETY: the slices hold what they say for the call.
        done(unsafe {
            raw::pcache_meta_read(&mut meta.0, internal.as_ptr(), internal.len(), header.as_ptr(), header.len())
        })?;
        Ok(Meta(meta))
    }

    /// Its moments and windows.
    ///
    /// # Errors
    /// None of this crate's making.
    pub fn says(&mut self) -> Result<Said, Error> {
        let mut out = raw::PcacheMeta::default();
        // SAFETY: a struct of the library's layout.
        done(unsafe { raw::pcache_meta_says(&mut self.0 .0, &mut out) })?;
        Ok(Said {
            created: Moment::of(out.created),
            updated: Moment::of(out.updated),
            fresh_until: Moment::of(out.fresh_until),
            stale_while_revalidate: out.stale_while_revalidate_secs,
            stale_if_error: out.stale_if_error_secs,
        })
    }

    /// What the response varies on, as a hash, if it does.
    ///
    /// ```
    /// # fn main() -> Result<(), pcache::Error> {
    /// let mut meta = pcache::Meta::new(&mut pcache::Head::new(200)?, &pcache::Said::default())?;
    /// assert_eq!(meta.variance()?, None);
    /// let english = pcache::hash_key(b"en");
    /// meta.vary(Some(&english))?;
    /// assert_eq!(meta.variance()?, Some(english));
    /// # Ok(())
    /// # }
    /// ```
    ///
    /// # Errors
    /// None of this crate's making.
    pub fn variance(&mut self) -> Result<Option<Hash>, Error> {
        let mut out = [0; 16];
        // SAFETY: the buffer has the length that is said.
        let given = done(unsafe { raw::pcache_meta_variance(&mut self.0 .0, out.as_mut_ptr(), out.len()) });
        if_any(given.map(|()| out))
    }

    /// Sets that. A meta that renews a stored one has to have its variance: else that is found as another variant from then on.
    ///
    /// # Errors
    /// None of this crate's making.
    pub fn vary(&mut self, variance: Option<&Hash>) -> Result<(), Error> {
        let variance: &[u8] = variance.map_or(&[], |hash| hash);
        // SAFETY: the slice holds what it says for the call.
        done(unsafe { raw::pcache_meta_vary(&mut self.0 .0, variance.as_ptr(), variance.len()) })
    }

    /// Whether the response may be served at a moment.
    ///
    /// # Errors
    /// [`Error::BadValue`] for a moment that is none.
    pub fn servable(&mut self, now: Moment) -> Result<Servable, Error> {
        let mut out = raw::PcacheServable::default();
        // SAFETY: a struct of the library's layout.
        done(unsafe { raw::pcache_meta_servable(&mut self.0 .0, now.secs, now.nanos, &mut out) })?;
        Ok(Servable {
            fresh: out.fresh != 0,
            while_revalidating: out.while_revalidating != 0,
            after_error: out.after_error != 0,
        })
    }

    /// Its bytes, for a file: all but its header, and the text of its header.
    ///
    /// # Errors
    /// [`Error::NoMemory`].
    pub fn write(&mut self) -> Result<(Vec<u8>, Vec<u8>), Error> {
        let meta = &mut self.0 .0;
        texts(64, 512, |internal, header, first, second| unsafe {
            raw::pcache_meta_write(meta, internal.as_mut_ptr(), internal.len(), header.as_mut_ptr(), header.len(), first, second)
        })
    }

    /// The length of the text of its head, which is what a cache that counts entries counts for it. A proxy that stores no longer ones
    /// than it allows asks for it before the fill, as it counts the bytes of a body while they come.
    ///
    /// ```
    /// # fn main() -> Result<(), pcache::Error> {
    /// let mut head = pcache::Head::new(200)?;
    /// head.add("age", b"3")?;
    /// let mut meta = pcache::Meta::new(&mut head, &pcache::Said::default())?;
    /// assert_eq!(meta.head_length()?, "HTTP/1.1 200\r\nage: 3\r\n\r\n".len());
    /// # Ok(())
    /// # }
    /// ```
    ///
    /// # Errors
    /// [`Error::NoMemory`].
    pub fn head_length(&mut self) -> Result<usize, Error> {
        let (mut one, mut two) = ([0; 0], [0; 0]);
        let (mut internal, mut header) = (0, 0);
        // SAFETY: buffers without a byte, and two lengths, which are said first.
        match done(unsafe {
            raw::pcache_meta_write(&mut self.0 .0, one.as_mut_ptr(), 0, two.as_mut_ptr(), 0, &mut internal, &mut header)
        }) {
            Ok(()) | Err(Error::BadValue) => Ok(header),
            Err(error) => Err(error),
        }
    }

    /// The values of If-None-Match and If-Modified-Since with which to validate what is stored. One of no bytes is not sent.
    ///
    /// # Errors
    /// [`Error::NoMemory`].
    pub fn validators(&mut self) -> Result<(Vec<u8>, Vec<u8>), Error> {
        let meta = &mut self.0 .0;
        // SAFETY: two buffers of the lengths that are said, as in the calls of `texts` below.
        texts(64, 64, |tag, since, first, second| unsafe {
            raw::pcache_meta_validators(meta, tag.as_mut_ptr(), tag.len(), since.as_mut_ptr(), since.len(), first, second)
        })
    }

    /// The status and the fields of its head, the names in lower case.
    ///
    /// ```
    /// # fn main() -> Result<(), pcache::Error> {
    /// let mut head = pcache::Head::new(404)?;
    /// head.add("ETag", b"\"1\"")?;
    /// let mut meta = pcache::Meta::new(&mut head, &pcache::Said::default())?;
    /// assert_eq!(meta.head()?, (404, vec![("etag".to_string(), b"\"1\"".to_vec())]));
    /// # Ok(())
    /// # }
    /// ```
    ///
    /// # Errors
    /// [`Error::NoMemory`].
    pub fn head(&mut self) -> Result<(u16, Vec<(String, Vec<u8>)>), Error> {
        // (one call for the text takes less time than a call for each field)
        let (_, text) = self.write()?;
        let mut fields = Vec::with_capacity(16);
        for line in text.split(|it| *it == b'\n').skip(1).filter_map(|it| it.strip_suffix(b"\r")).take_while(|it| !it.is_empty()) {
            let colon = line.iter().position(|it| *it == b':').ok_or(Error::Unreadable)?;
            let name = String::from_utf8(line[..colon].to_vec()).map_err(|_| Error::Unreadable)?;
            let value = line[colon..].strip_prefix(b": ").ok_or(Error::Unreadable)?;
            fields.push((name, value.to_vec()));
        }
        Ok((self.status()?, fields))
    }
}

/// What a head says and the head of a meta too: its status, and its fields by name and by number.
macro_rules! head_of {
    ($($owner:ty),*) => {$(
        impl $owner {
            /// Its status.
            ///
            /// # Errors
            /// None of this crate's making.
            pub fn status(&mut self) -> Result<u16, Error> {
                status_in(&mut self.0)
            }

            /// How many values a name has, in any case.
            ///
            /// # Errors
            /// None of this crate's making.
            pub fn count(&mut self, name: &str) -> Result<usize, Error> {
                count_in(&mut self.0, name)
            }

            /// The value with this number, from 0, of those of a name in any case; nothing past the last one.
            ///
            /// # Errors
            /// None of this crate's making.
            pub fn value(&mut self, name: &str, index: usize) -> Result<Option<Vec<u8>>, Error> {
                value_in(&mut self.0, name, index)
            }

            /// The field with this number, from 0: a name in lower case, and a value. A name with several values is there once for each, one
            /// after another. Nothing past the last one.
            ///
            /// # Errors
            /// None of this crate's making.
            pub fn field(&mut self, index: usize) -> Result<Option<(String, Vec<u8>)>, Error> {
                field_in(&mut self.0, index)
            }
        }
    )*};
}

head_of!(Head, Meta);

// SAFETY of each call below: the handle is the caller's alone, slices hold what they say for the call, and what is written to is the
// function's own.

fn status_in(handle: &mut Handle) -> Result<u16, Error> {
    let mut status = 0;
    done(unsafe { raw::pcache_head_status(&mut handle.0, &mut status) })?;
    Ok(status)
}

fn count_in(handle: &mut Handle, name: &str) -> Result<usize, Error> {
    let mut count = 0;
    done(unsafe { raw::pcache_head_count(&mut handle.0, name.as_ptr(), name.len(), &mut count) })?;
    Ok(count)
}

fn value_in(handle: &mut Handle, name: &str, index: usize) -> Result<Option<Vec<u8>>, Error> {
    let read = texts(256, 0, |out, _, len, _| unsafe {
        raw::pcache_head_value(&mut handle.0, name.as_ptr(), name.len(), index, out.as_mut_ptr(), out.len(), len)
    });
    Ok(if_any(read)?.map(|(value, _)| value))
}

fn field_in(handle: &mut Handle, index: usize) -> Result<Option<(String, Vec<u8>)>, Error> {
    let read = texts(64, 256, |name, value, first, second| unsafe {
        let (one, two) = (name.as_mut_ptr(), value.as_mut_ptr());
        raw::pcache_head_field(&mut handle.0, index, one, name.len(), two, value.len(), first, second)
    });
    let Some((name, value)) = if_any(read)? else {
        return Ok(None);
    };
    Ok(Some((String::from_utf8(name).map_err(|_| Error::Unreadable)?, value)))
}

/// Two texts that a call writes to two buffers, whose lengths it says: with more room, if there was too little.
fn texts(
    first_room: usize,
    second_room: usize,
    mut call: impl FnMut(&mut [u8], &mut [u8], &mut usize, &mut usize) -> u32,
) -> Result<(Vec<u8>, Vec<u8>), Error> {
    let (mut one, mut two) = (vec![0; first_room], vec![0; second_room]);
    loop {
        let (mut first, mut second) = (0, 0);
        match done(call(&mut one, &mut two, &mut first, &mut second)) {
            Err(Error::BadValue) if first > one.len() || second > two.len() => {
                one.resize(first.max(1), 0);
                two.resize(second.max(1), 0);
            }
            Err(error) => return Err(error),
            Ok(()) => {
                one.truncate(first);
                two.truncate(second);
                return Ok((one, two));
            }
        }
    }
}
