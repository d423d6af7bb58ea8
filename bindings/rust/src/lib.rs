//! Riegeli/records files in memory, read, checked, searched, repaired and written by the calls of libriegeli.
//!
//! ```
//! let mut file = Vec::new();
//! let mut writer = riegeli::Writer::new(&mut file, riegeli::Options::default())?;
//! for line in ["one", "two", "three"] {
//!     writer.write(line.as_bytes())?;
//! }
//! writer.finish()?;
//!
//! for record in riegeli::Reader::new(&file).records() {
//!     let record = record?;
//!     println!("{} {}", record.position, String::from_utf8_lossy(&record.bytes));
//! }
//! # Ok::<(), riegeli::Error>(())
//! ```
//!
//! The promises of the calls are proved, and `docs/LIBRARY.md` of the repository tells them; this crate is only tested. A file
//! that is too large to be read at once can be mapped, by a crate for that: nobody may change it meanwhile.

#![warn(missing_docs)]

pub mod sys;

mod reader;
mod writer;

pub use reader::{Chunk, Chunks, Found, Piece, Reader, Record, Records, Recovered, Region, Repaired};
pub use sys::Totals;
pub use writer::{Options, Pad, Writer};

use std::fmt;
use std::io;
use std::sync::Arc;

/// Why reading stops, or bytes are passed over, in the order in which reasons are judged.
#[derive(Clone, Copy, Debug, PartialEq, Eq)]
#[non_exhaustive]
pub enum Reason {
    /// The file doesn't begin with the 64 bytes that each record file begins with.
    NoSignature = 1,
    /// Fewer bytes are left than a chunk header has.
    Short,
    /// The chunk header has another hash than it says.
    HeaderHash,
    /// The file ends within the chunk.
    Truncated,
    /// The chunk has too much data to be loaded.
    TooLarge,
    /// A block header within the chunk is wrong.
    BlockHeader,
    /// The data has another hash than the chunk header says.
    DataHash,
    /// The data isn't what the chunk header says, or can't be decoded.
    Contents,
    /// The chunk is compressed.
    Compressed,
    /// The chunk is transposed.
    Transposed,
    /// The chunk is of a kind that isn't known.
    UnknownKind,
    /// Block headers tell of other chunks than this one.
    Contradicted,
}

impl Reason {
    fn of(number: u32) -> Reason {
        use Reason::*;
        const ALL: [Reason; 12] = [
            NoSignature,
            Short,
            HeaderHash,
            Truncated,
            TooLarge,
            BlockHeader,
            DataHash,
            Contents,
            Compressed,
            Transposed,
            UnknownKind,
            Contradicted,
        ];
        ALL[number as usize - 1]
    }
}

/// Why a call of a reader or a writer failed.
#[derive(Clone, Debug)]
#[non_exhaustive]
pub enum Error {
    /// The file has a fault.
    Fault {
        /// Where its chunk begins, or for a wrong block header where its block begins.
        place: u64,
        /// What is wrong there.
        reason: Reason,
    },
    /// A repair ended at a region of more bytes than may be passed over.
    Stopped(Region),
    /// What was asked for can't be: a file of more than 2^60 bytes, a place where no chunk can begin, options out of range.
    Argument,
    /// There is too little memory.
    Memory,
    /// A file could not be written.
    Io(Arc<io::Error>),
}

impl fmt::Display for Error {
    fn fmt(&self, out: &mut fmt::Formatter<'_>) -> fmt::Result {
        match self {
            Error::Fault { place, reason } => write!(out, "refused {place} {reason:?}"),
            Error::Stopped(it) => write!(out, "stopped {} {} {:?}", it.begin, it.end, it.reason),
            Error::Argument => write!(out, "an argument of libriegeli is out of range"),
            Error::Memory => write!(out, "out of memory"),
            Error::Io(error) => error.fmt(out),
        }
    }
}

impl std::error::Error for Error {
    fn source(&self) -> Option<&(dyn std::error::Error + 'static)> {
        match self {
            Error::Io(error) => Some(&**error),
            _ => None,
        }
    }
}

impl From<io::Error> for Error {
    fn from(error: io::Error) -> Error {
        Error::Io(Arc::new(error))
    }
}

/// What a status of a call says that isn't `DONE`, where `fault` is the fault that it told.
fn error_of(status: u32, fault: &sys::Fault) -> Error {
    match status {
        sys::FAULT => Error::Fault {
            place: fault.place,
            reason: Reason::of(fault.why),
        },
        sys::MEMORY => Error::Memory,
        _ => Error::Argument,
    }
}

/// Panics where the library has another version than the header that `sys` repeats, since its structs may have other fields.
fn check_version() {
    // SAFETY: this function has stayed the same in each version.
    let version = unsafe { sys::riegeli_version() };
    assert_eq!(version, sys::VERSION, "the version of libriegeli, and the one that the crate riegeli is for");
}

/// HighwayHash-64 of bytes under the key of the format.
pub fn hash(bytes: &[u8]) -> u64 {
    // SAFETY: the pointer is that of a slice, which is never null, and its length stands beside it.
    unsafe { sys::riegeli_hash(bytes.as_ptr(), bytes.len()) }
}
