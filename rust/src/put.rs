//! Responses that are pushed in.

use crate::{Cache, Error, Hash, Head, Moment, Request, Stored};

/// What a put goes by.
#[derive(Clone, Copy, Debug, Default, PartialEq, Eq)]
pub struct PutOptions {
    /// For how many seconds past its freshness the response may be served while it is revalidated, and if the origin fails, where
    /// it says nothing of that.
    pub windows: (u32, u32),
    /// How many bytes a body has at most.
    pub most_body: Option<usize>,
    /// The variant that it is.
    pub variance: Option<Hash>,
}

// How far it has come.
enum At {
    // The head has not ended: its bytes so far, without empty lines before it.
    Head(Vec<u8>),
    // So many bytes of the body are missing, or it lasts to the end; and how many have come.
    Body(Option<usize>, usize),
    // Nothing is stored.
    Declined,
    Failed(Error),
}

/// A response that is pushed in for a key, in pieces of the bytes in which it came (RFC 9112). Its head says whether it is stored, as
/// [`Head::meta`] of a request without an Authorization; where it is not, further pieces are ignored. The body has as many bytes as the
/// first Content-Length says, and what follows is ignored; without one that can be read it lasts to the end. It takes no permit, so
/// what is fetched meanwhile for the key is stored too, and of both what began last is served. A put that is dropped stores nothing.
///
/// ```
/// use pcache::{Cache, Moment, Options, PutOptions};
///
/// # fn main() -> Result<(), pcache::Error> {
/// let cache = Cache::new(&Options { limit: 1 << 20, ..Options::default() })?;
/// let mut put = cache.put(b"/news", "", &PutOptions::default())?;
/// for piece in ["HTTP/1.1 200 OK\r\nCache-Con", "trol: max-age=60\r\nContent-Length: 8\r\n\r\nbrea", "king"] {
///     assert!(put.feed(piece, Moment::now())?);
/// }
/// assert!(put.finish()?.is_some());
/// assert_eq!(cache.totals()?.stored_bytes, 8);
/// # Ok(())
/// # }
/// ```
pub struct Put {
    // Ended once the put has failed or is declined, which cuts its write off.
    request: Option<Request>,
    options: PutOptions,
    at: At,
}

// Where an empty line ends that the bytes have from a place on: of its line feed the one after.
fn after_empty_line(bytes: &[u8], from: usize) -> Option<usize> {
    (from..bytes.len()).find(|&at| {
        let before = bytes[..at].strip_suffix(b"\r").unwrap_or(&bytes[..at]);
        bytes[at] == b'\n' && before.ends_with(b"\n")
    }).map(|at| at + 1)
}

fn is_blank(byte: &u8) -> bool {
    matches!(byte, b'\r' | b'\n')
}

// How many bytes the body of a head has, if it does not last to the end.
fn size_of(head: &mut Head) -> Result<Option<usize>, Error> {
    if matches!(head.status()?, 204 | 304) {
        return Ok(Some(0));
    }
    let length = head.value("content-length", 0)?;
    Ok(length.and_then(|value| String::from_utf8(value).ok()?.parse().ok()))
}

impl Put {
    pub(crate) fn new(request: Request, options: &PutOptions) -> Put {
        Put { request: Some(request), options: *options, at: At::Head(Vec::new()) }
    }

    /// Takes in the next piece. Says whether the response is to be stored, as far as that is known: once it is not, it stays so.
    ///
    /// # Errors
    /// [`Error::Unreadable`] for a head that is none, [`Error::TooLarge`] for a body that is longer than it may be,
    /// [`Error::NoMemory`], [`Error::Exhausted`], [`Error::BadValue`] for a moment that is none, [`Error::Removed`] if the key was purged
    /// since its write began. Nothing is stored then, and later calls fail for the same.
    pub fn feed(&mut self, piece: impl AsRef<[u8]>, now: Moment) -> Result<bool, Error> {
        let taken = self.take(piece.as_ref(), now);
        if let Err(error) = taken {
            self.at = At::Failed(error);
        }
        if taken != Ok(true) {
            self.request = None;
        }
        taken
    }

    /// Ends the response. Returns what became of its body, or nothing if it was not to be stored.
    ///
    /// # Errors
    /// [`Error::Incomplete`] if its head has not ended, or bytes of its body are missing; as of [`Put::feed`]. Nothing is stored then.
    pub fn finish(mut self) -> Result<Option<Stored>, Error> {
        match (&self.at, &mut self.request) {
            (At::Body(left @ (None | Some(0)), count), Some(request)) => {
                // The piece that completed the body was said to be the last.
                if left.is_none() || *count == 0 {
                    request.add(&[], true)?;
                }
                request.finish_write().map(Some)
            }
            (At::Declined, _) => Ok(None),
            (At::Failed(error), _) => Err(*error),
            _ => Err(Error::Incomplete),
        }
    }

    fn take(&mut self, piece: &[u8], now: Moment) -> Result<bool, Error> {
        match &mut self.at {
            At::Head(bytes) => {
                let blank = if bytes.is_empty() { piece.iter().take_while(|byte| is_blank(byte)).count() } else { 0 };
                // An empty line has at most three bytes with the end of the line before it.
                let from = bytes.len().saturating_sub(2);
                bytes.extend_from_slice(&piece[blank..]);
                if after_empty_line(bytes, from).is_none() {
                    return Ok(true);
                }
                let bytes = std::mem::take(bytes);
                let (head, taken) = Head::read(&bytes)?.ok_or(Error::Unreadable)?;
                Ok(self.begin(head, now)? && self.write(&bytes[taken..])?)
            }
            At::Body(..) => self.write(piece),
            At::Declined => Ok(false),
            At::Failed(error) => Err(*error),
        }
    }

    // Begins the write, if the response with this head is to be stored.
    fn begin(&mut self, mut head: Head, now: Moment) -> Result<bool, Error> {
        let size = size_of(&mut head)?;
        let is_too_large = matches!((size, self.options.most_body), (Some(size), Some(most)) if size > most);
        let meta = if is_too_large { None } else { head.meta(false, self.options.windows, now)? };
        match (meta, &mut self.request) {
            (Some(mut meta), Some(request)) => {
                // The write goes on with the request.
                let _ = request.fill(&mut meta, self.options.variance.as_ref())?;
                self.at = At::Body(size, 0);
                Ok(true)
            }
            _ => {
                self.at = At::Declined;
                Ok(false)
            }
        }
    }

    // Writes what of the bytes belongs to the body.
    fn write(&mut self, bytes: &[u8]) -> Result<bool, Error> {
        if let (At::Body(left, count), Some(request)) = (&mut self.at, &mut self.request) {
            let part = &bytes[..left.map_or(bytes.len(), |left| left.min(bytes.len()))];
            *left = left.map(|left| left - part.len());
            *count = count.saturating_add(part.len());
            if matches!(self.options.most_body, Some(most) if *count > most) {
                return Err(Error::TooLarge);
            }
            if !part.is_empty() {
                request.add(part, *left == Some(0))?;
            }
        }
        Ok(true)
    }
}

impl Cache {
    /// A response that is pushed in for a key. The tag is kept with the key's entry.
    ///
    /// # Errors
    /// As of [`Cache::request`].
    pub fn put(&self, key: &[u8], tag: &str, options: &PutOptions) -> Result<Put, Error> {
        Ok(Put::new(self.request(key, tag)?, options))
    }
}
