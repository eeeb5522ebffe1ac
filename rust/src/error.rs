use crate::raw;
use std::fmt;

/// Why a call was refused. What was refused left everything as it was, unless the call says otherwise.
#[derive(Clone, Copy, Debug, PartialEq, Eq, Hash)]
#[non_exhaustive]
pub enum Error {
    /// Memory that was asked for was not given.
    NoMemory,
    /// A number, text or length that the call does not take.
    BadValue,
    /// Bytes that cannot be read.
    Unreadable,
    /// There is nothing to hand over.
    Nothing,
    /// The call may not be made where the request stands.
    WrongCall,
    /// The head of a response is none.
    InvalidHead,
    /// A body is larger than what was allowed.
    TooLarge,
    /// A body ended before its end.
    Incomplete,
    /// The key of a write was purged, or its entry evicted, since it began.
    Removed,
    /// The numbers of writes or of locks are used up.
    Exhausted,
    /// Input or output failed.
    Io,
    /// A newer body of the key stands.
    Superseded,
    /// A code of the library that this crate cannot cause, as one of a handle.
    Other(u32),
}

impl Error {
    pub(crate) fn of(code: u32) -> Error {
        match code {
            raw::NO_MEMORY => Error::NoMemory,
            raw::BAD_VALUE => Error::BadValue,
            raw::UNREADABLE => Error::Unreadable,
            raw::NONE => Error::Nothing,
            raw::WRONG_CALL => Error::WrongCall,
            raw::INVALID_HEAD => Error::InvalidHead,
            raw::TOO_LARGE => Error::TooLarge,
            raw::INCOMPLETE => Error::Incomplete,
            raw::REMOVED => Error::Removed,
            raw::EXHAUSTED => Error::Exhausted,
            raw::IO => Error::Io,
            raw::SUPERSEDED => Error::Superseded,
            _ => Error::Other(code),
        }
    }
}

impl fmt::Display for Error {
    fn fmt(&self, to: &mut fmt::Formatter<'_>) -> fmt::Result {
        to.write_str(match self {
            Error::NoMemory => "memory that was asked for was not given",
            Error::BadValue => "a number, text or length that the call does not take",
            Error::Unreadable => "bytes that cannot be read",
            Error::Nothing => "there is nothing to hand over",
            Error::WrongCall => "the call may not be made where the request stands",
            Error::InvalidHead => "the head of the response is none",
            Error::TooLarge => "the body is too large",
            Error::Incomplete => "the body ended before its end",
            Error::Removed => "the key was removed since its write began",
            Error::Exhausted => "the numbers of writes or locks are used up",
            Error::Io => "input or output failed",
            Error::Superseded => "a newer body of the key stands",
            Error::Other(code) => return write!(to, "code {code}"),
        })
    }
}

impl std::error::Error for Error {}

/// What a call gave, if there was something: that there is nothing is no error then.
pub(crate) fn if_any<T>(given: Result<T, Error>) -> Result<Option<T>, Error> {
    match given {
        Ok(it) => Ok(Some(it)),
        Err(Error::Nothing) => Ok(None),
        Err(error) => Err(error),
    }
}

pub(crate) fn done(code: u32) -> Result<(), Error> {
    if code == raw::OK {
        Ok(())
    } else {
        Err(Error::of(code))
    }
}
