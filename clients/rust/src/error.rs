//! Why a call has no reply.

use crate::{endings, sys, Errno};
use std::fmt;

/// Why a call has no reply. A step was made only after [`Error::NoText`] and [`Error::RecordingFailed`].
#[derive(Clone, Copy, PartialEq, Eq, Hash)]
#[non_exhaustive]
pub enum Error {
    /// The model answers this errno, and nothing changes: it is also counted as an answer.
    Errno(Errno),
    /// The caller, or the LWP at its turn, doesn't run, and nothing changes: it is also counted as an answer.
    Held,
    /// A user is not one of 1001 to 1064.
    Invalid,
    /// A stop handler has at most 16 rules.
    TooManyRules,
    /// Memory ran out before a step was made.
    NoMemory,
    /// Memory ran out for the text of an answer: [`Session::last_line`](crate::Session::last_line) has it.
    NoText,
    /// The user has had 2^64 - 1 answers.
    TooMany,
    /// The step was made, and can't be recorded: [`Session::record_error`](crate::Session::record_error) says why. The
    /// session has ended, and its later calls return this too.
    RecordingFailed,
    /// The library that was linked isn't of this crate's version, so no session is opened.
    OtherLibrary,
}

impl Error {
    /// The error for a code of the library, which isn't ANSWERED.
    pub(crate) fn of_code(code: u32) -> Error {
        match code {
            sys::NO_MEMORY => Error::NoMemory,
            sys::INVALID => Error::Invalid,
            sys::NO_TEXT => Error::NoText,
            sys::TOO_MANY => Error::TooMany,
            sys::NOT_OPEN => Error::RecordingFailed, // which has closed it
            _ => unreachable!("the library answers code {code}"),
        }
    }
}

impl fmt::Debug for Error {
    fn fmt(&self, f: &mut fmt::Formatter<'_>) -> fmt::Result {
        endings::error_is_shown();
        match self {
            Error::Errno(errno) => f.debug_tuple("Errno").field(errno).finish(),
            Error::Held => f.write_str("Held"),
            Error::Invalid => f.write_str("Invalid"),
            Error::TooManyRules => f.write_str("TooManyRules"),
            Error::NoMemory => f.write_str("NoMemory"),
            Error::NoText => f.write_str("NoText"),
            Error::TooMany => f.write_str("TooMany"),
            Error::RecordingFailed => f.write_str("RecordingFailed"),
            Error::OtherLibrary => f.write_str("OtherLibrary"),
        }
    }
}

impl fmt::Display for Error {
    fn fmt(&self, f: &mut fmt::Formatter<'_>) -> fmt::Result {
        endings::error_is_shown();
        match self {
            Error::Errno(errno) => errno.fmt(f),
            Error::Held => f.pad("The caller or the LWP doesn't run, and the step isn't made"),
            Error::Invalid => f.pad("A user is not 1001 to 1064"),
            Error::TooManyRules => f.pad("A stop handler has at most 16 rules"),
            Error::NoMemory => f.pad("Out of memory, and no step is made"),
            Error::NoText => f.pad("Out of memory for the text of an answer"),
            Error::TooMany => f.pad("The user has had all its answers"),
            Error::RecordingFailed => f.pad("A step can't be recorded, and the session has ended"),
            Error::OtherLibrary => {
                let (library, own) = (sys::version(), env!("CARGO_PKG_VERSION"));
                f.pad(&format!(
                    "The linked libtracehost.a is of version {library}, and this crate of {own}"
                ))
            }
        }
    }
}

impl std::error::Error for Error {}

impl From<Errno> for Error {
    fn from(errno: Errno) -> Error {
        Error::Errno(errno)
    }
}
