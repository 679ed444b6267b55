//! What goes wrong.

use std::error;
use std::fmt;

/// The mesh replies with an error.
#[derive(Debug, Clone, Copy, PartialEq, Eq, Hash)]
#[non_exhaustive]
pub enum Errno {
    /// ENOENT: there is none of this name.
    NotFound,
    /// EEXIST: the name is in use.
    NameInUse,
    /// EBADF: there is no such handle.
    Handle,
    /// ENXIO: the provider carries an error, the handle is dead, or the disk of a pull doesn't stand.
    Gone,
    /// EPERM: the access counts forbid it, or the handle wasn't opened for it.
    Access,
    /// EOVERFLOW: a count would pass its limit.
    Count,
    /// EBUSY: it is in use.
    Busy,
    /// EINVAL: an offset, a length or a size doesn't fit.
    Range,
    /// EIO: a range past the end, or a disk that failed.
    Transfer,
    /// ELOOP: a geom would reach itself.
    Loop,
    /// EDEEP: a geom would have too great a rank.
    Depth,
    /// A number that this crate doesn't know.
    Other(u32),
}

/// Each error in the order of its number, with its name, the host's number, and what it says.
const ERRORS: [(Errno, &str, Option<i32>, &str); 11] = [
    (Errno::NotFound, "ENOENT", Some(2), "there is none of this name"),
    (Errno::NameInUse, "EEXIST", Some(17), "the name is in use"),
    (Errno::Handle, "EBADF", Some(9), "there is no such handle"),
    (
        Errno::Gone,
        "ENXIO",
        Some(6),
        "the provider carries an error, the handle is dead, or the disk of a pull doesn't stand",
    ),
    (
        Errno::Access,
        "EPERM",
        Some(1),
        "the access counts forbid it, or the handle wasn't opened for it",
    ),
    (Errno::Count, "EOVERFLOW", Some(75), "a count would pass its limit"),
    (Errno::Busy, "EBUSY", Some(16), "it is in use"),
    (
        Errno::Range,
        "EINVAL",
        Some(22),
        "an offset, a length or a size doesn't fit",
    ),
    (
        Errno::Transfer,
        "EIO",
        Some(5),
        "a range past the end, or a disk that failed",
    ),
    (Errno::Loop, "ELOOP", Some(40), "a geom would reach itself"),
    (Errno::Depth, "EDEEP", None, "a geom would have too great a rank"),
];

impl Errno {
    /// The error of a reply; None for 0.
    pub(crate) fn of(number: u32) -> Option<Errno> {
        let place = number.checked_sub(1)? as usize;
        Some(ERRORS.get(place).map_or(Errno::Other(number), |row| row.0))
    }

    /// The name in the reports of `geomrun`, as `ENOENT`.
    pub fn name(self) -> &'static str {
        ERRORS.iter().find(|row| row.0 == self).map_or("unknown", |row| row.1)
    }

    /// What the error says.
    pub fn about(self) -> &'static str {
        ERRORS
            .iter()
            .find(|row| row.0 == self)
            .map_or("a number of a later library", |row| row.3)
    }

    /// Linux's number, where it has one.
    pub fn raw_os_error(self) -> Option<i32> {
        ERRORS.iter().find(|row| row.0 == self)?.2
    }
}

impl fmt::Display for Errno {
    fn fmt(&self, out: &mut fmt::Formatter<'_>) -> fmt::Result {
        match self {
            Errno::Other(number) => write!(out, "error {number}"),
            known => write!(out, "{}: {}", known.name(), known.about()),
        }
    }
}

impl error::Error for Errno {}

/// The library doesn't take a call. Nothing has changed.
#[derive(Debug, Clone, Copy, PartialEq, Eq, Hash)]
#[non_exhaustive]
pub enum Refusal {
    /// Memory was wanting. The same call may be made again.
    NoMemory,
    /// The mesh is closed.
    Closed,
    /// The mesh is open already.
    Open,
    /// A name, a number, a text or data doesn't have its form.
    Wrong,
    /// The mesh isn't so that this can be done: there is no such actor, or the answer isn't one to what was asked.
    Unfit,
    /// There is too little room for bytes.
    Room,
    /// A code that this crate doesn't know.
    Other(i32),
}

impl fmt::Display for Refusal {
    fn fmt(&self, out: &mut fmt::Formatter<'_>) -> fmt::Result {
        out.write_str(match self {
            Refusal::NoMemory => "memory was wanting",
            Refusal::Closed => "the mesh is closed",
            Refusal::Open => "the mesh is open already",
            Refusal::Wrong => "a name, a number, a text or data doesn't have its form",
            Refusal::Unfit => "the mesh isn't so that this can be done",
            Refusal::Room => "there is too little room for bytes",
            Refusal::Other(code) => return write!(out, "the library answers {code}"),
        })
    }
}

impl error::Error for Refusal {}

/// Why a call has no result.
#[derive(Debug, Clone, PartialEq, Eq)]
#[non_exhaustive]
pub enum Error {
    /// The mesh replies with an error.
    Geom(Errno),
    /// The library doesn't take the call.
    Call(Refusal),
    /// A header isn't one: the first line against the grammar, from 1 on, or 0 where the size of a disk doesn't fit.
    Header {
        /// The line.
        line: u32,
    },
    /// The header has so many `disk` lines, and other disks were given.
    Disks {
        /// The lines of the header.
        lines: usize,
        /// The disks that were given.
        given: usize,
    },
    /// The header has no actor of this name.
    Actor(String),
    /// The request isn't out, and its reply was taken already.
    NotOut,
    /// The reply can't come before a disk has answered that answers later.
    Waits,
    /// The text of a mesh has a line of another form.
    Text(String),
}

impl fmt::Display for Error {
    fn fmt(&self, out: &mut fmt::Formatter<'_>) -> fmt::Result {
        match self {
            Error::Geom(errno) => errno.fmt(out),
            Error::Call(refusal) => refusal.fmt(out),
            Error::Header { line: 0 } => out.write_str("the size of a disk doesn't fit"),
            Error::Header { line } => write!(out, "line {line} of the header is against the grammar"),
            Error::Disks { lines, given } => {
                write!(out, "the header has {lines} lines of disks, and {given} were given")
            }
            Error::Actor(name) => write!(out, "the header has no actor {name}"),
            Error::NotOut => out.write_str("the request isn't out, and its reply was taken already"),
            Error::Waits => out.write_str("the reply waits for a disk that answers later"),
            Error::Text(line) => write!(out, "{line:?} is no line of a mesh"),
        }
    }
}

impl error::Error for Error {
    fn source(&self) -> Option<&(dyn error::Error + 'static)> {
        match self {
            Error::Geom(errno) => Some(errno),
            Error::Call(refusal) => Some(refusal),
            _ => None,
        }
    }
}

impl From<Errno> for Error {
    fn from(errno: Errno) -> Error {
        Error::Geom(errno)
    }
}

impl From<Refusal> for Error {
    fn from(refusal: Refusal) -> Error {
        Error::Call(refusal)
    }
}
