use crate::{check_version, error_of, sys, Error};
use std::io::{self, Write};

/// The most bytes of a record that is written.
const LONGEST: usize = 1 << 24;
/// The most that `Options` may have of `chunk` and of `every`.
const MOST: u64 = 1 << 24;

/// Whether padding is laid, so that the first chunk of records begins at a block, and the file ends at one.
#[derive(Clone, Copy, Debug, Default, PartialEq, Eq)]
pub enum Pad {
    /// Nowhere.
    #[default]
    None,
    /// Before the chunks of records.
    Start,
    /// After them.
    End,
    /// Before and after them.
    Both,
}

/// How records are put into chunks.
#[derive(Clone, Copy, Debug, PartialEq, Eq)]
pub struct Options {
    /// The records of a chunk cost at most so many bytes together, where a record costs its bytes and 8 more: 1 to 2^24.
    pub chunk: u64,
    /// A chunk has at most so many records: 1 to 2^24.
    pub every: Option<u64>,
    /// Where padding is laid.
    pub pad: Pad,
}

impl Default for Options {
    fn default() -> Options {
        Options {
            chunk: 1 << 20,
            every: None,
            pad: Pad::None,
        }
    }
}

/// Writes a record file as records come. Those of chunks that aren't full yet are held until `finish`. A writer that is dropped
/// writes them too, but only `finish` tells of an error, so it has to be called.
#[derive(Debug)]
#[must_use = "only `finish` tells of an error"]
pub struct Writer<W: Write> {
    /// Until `finish` gives it back.
    to: Option<W>,
    options: sys::Options,
    /// The records that wait: their bytes, and where each ends.
    values: Vec<u8>,
    ends: Vec<u64>,
    at: u64,
    room: Vec<u8>,
    /// What each call gives once one has failed.
    failed: Option<Error>,
}

impl<W: Write> Writer<W> {
    /// A writer to anything. Options that are out of range are `Error::Argument`.
    pub fn new(to: W, options: Options) -> Result<Writer<W>, Error> {
        check_version();
        let limits = 1..=MOST;
        if !limits.contains(&options.chunk) || options.every.is_some_and(|it| !limits.contains(&it)) {
            return Err(Error::Argument);
        }
        Ok(Writer {
            to: Some(to),
            options: sys::Options {
                chunk: options.chunk,
                every: options.every.unwrap_or(0),
                pad: options.pad as u32,
            },
            values: Vec::new(),
            ends: Vec::new(),
            at: 0,
            room: Vec::new(),
            failed: None,
        })
    }

    /// Puts a record of at most 2^24 bytes behind those before. A longer one is `Error::Argument` and left out, and the next one
    /// may be put; after any other error the file isn't whole, and each later call gives the same one.
    pub fn write(&mut self, record: &[u8]) -> Result<(), Error> {
        self.check()?;
        if record.len() > LONGEST {
            return Err(Error::Argument);
        }
        self.values.extend_from_slice(record);
        self.ends.push(self.values.len() as u64);
        let cost = self.values.len() as u64 + 8 * self.ends.len() as u64;
        if cost > self.options.chunk.saturating_mul(4).max(1 << 20) {
            self.put(false)?;
        }
        Ok(())
    }

    /// Writes what was held, and gives back what is written to.
    pub fn finish(mut self) -> Result<W, Error> {
        self.end()
    }

    fn end(&mut self) -> Result<W, Error> {
        self.put(true)?;
        let mut to = self.to.take().expect("the writer has not ended");
        to.flush()?;
        Ok(to)
    }

    fn check(&self) -> Result<(), Error> {
        self.failed.clone().map_or(Ok(()), Err)
    }

    /// Lays the chunks that are full, or at last all, and writes them.
    fn put(&mut self, last: bool) -> Result<(), Error> {
        self.check()?;
        // This stays if what is written to panics.
        self.failed = Some(io::Error::other("an earlier write panicked").into());
        let put = self.lay(last);
        self.failed = put.clone().err();
        put
    }

    fn lay(&mut self, last: bool) -> Result<(), Error> {
        let mut written = sys::Written::default();
        loop {
            // SAFETY: each pointer is that of a slice with its length, or of a struct of this call alone.
            let status = unsafe {
                sys::riegeli_write(
                    self.values.as_ptr(),
                    self.values.len(),
                    self.ends.as_ptr(),
                    self.ends.len(),
                    &self.options,
                    self.at,
                    last.into(),
                    &mut written,
                    self.room.as_mut_ptr(),
                    self.room.len(),
                )
            };
            match status {
                sys::DONE => break,
                sys::ROOM => self.room.resize((written.end - self.at) as usize, 0),
                _ => return Err(error_of(status, &sys::Fault::default())),
            }
        }
        let size = (written.end - self.at) as usize;
        let to = self.to.as_mut().expect("the writer has not ended");
        to.write_all(&self.room[..size])?;
        self.at = written.end;
        let laid = written.records as usize;
        let bytes = if laid == 0 { 0 } else { self.ends[laid - 1] };
        self.values.drain(..bytes as usize);
        self.ends.drain(..laid);
        self.ends.iter_mut().for_each(|end| *end -= bytes);
        if size > 0 {
            // Padding at the start is laid once.
            self.options.pad &= !(Pad::Start as u32);
        }
        Ok(())
    }
}

impl<W: Write> Drop for Writer<W> {
    fn drop(&mut self) {
        if self.to.is_some() {
            let _ = self.end();
        }
    }
}
