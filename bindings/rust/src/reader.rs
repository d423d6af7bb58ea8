use crate::{check_version, error_of, sys, Error, Reason, Totals};

/// A file whose bytes are in memory.
#[derive(Clone, Copy, Debug)]
pub struct Reader<'a> {
    file: &'a [u8],
}

/// The records of one chunk.
#[derive(Clone, Debug, PartialEq, Eq)]
pub struct Chunk {
    /// Where it begins. Record i has the position `begin + i`.
    pub begin: u64,
    /// Where the next one begins.
    pub end: u64,
    /// The bytes of the records, one behind another.
    pub values: Vec<u8>,
    /// Where each record ends among them.
    pub ends: Vec<u64>,
}

/// A record of a file.
#[derive(Clone, Debug, PartialEq, Eq)]
pub struct Record {
    /// Where its chunk begins, and as many more as there are records before it in that.
    pub position: u64,
    /// What the record holds.
    pub bytes: Vec<u8>,
}

/// A record that was found, and where its chunk begins.
#[derive(Clone, Debug, PartialEq, Eq)]
pub struct Found {
    /// Its position.
    pub position: u64,
    /// Where its chunk begins.
    pub begin: u64,
    /// What the record holds.
    pub bytes: Vec<u8>,
}

/// Bytes that are passed over.
#[derive(Clone, Copy, Debug, PartialEq, Eq)]
pub struct Region {
    /// Where they begin.
    pub begin: u64,
    /// Where they end.
    pub end: u64,
    /// Why no chunk is found there.
    pub reason: Reason,
}

/// What reading past damage meets.
#[derive(Clone, Debug, PartialEq, Eq)]
pub enum Piece {
    /// A chunk that is intact.
    Records(Chunk),
    /// Bytes that are passed over.
    Skipped(Region),
}

/// A repaired file.
#[derive(Clone, Debug, PartialEq, Eq)]
pub struct Repaired {
    /// The bytes of the file.
    pub file: Vec<u8>,
    /// A line `skipped BEGIN END REASON` for each region that is passed over.
    pub lines: String,
}

impl Chunk {
    /// How many records there are.
    pub fn len(&self) -> usize {
        self.ends.len()
    }

    /// Whether there is none.
    pub fn is_empty(&self) -> bool {
        self.ends.is_empty()
    }

    /// The records, of which none is copied.
    pub fn iter(&self) -> impl Iterator<Item = &[u8]> {
        let mut begin = 0;
        self.ends.iter().map(move |&end| {
            let record = &self.values[begin..end as usize];
            begin = end as usize;
            record
        })
    }

    fn record(&self, i: usize) -> Record {
        let begin = if i == 0 { 0 } else { self.ends[i - 1] };
        Record {
            position: self.begin + i as u64,
            bytes: self.values[begin as usize..self.ends[i] as usize].to_vec(),
        }
    }
}

impl<'a> Reader<'a> {
    /// A reader of a file. Nothing of it is judged yet.
    pub fn new(file: &'a [u8]) -> Reader<'a> {
        check_version();
        Reader { file }
    }

    /// Judges the whole file, and counts what it holds.
    pub fn verify(&self) -> Result<Totals, Error> {
        let (mut totals, mut fault) = Default::default();
        // SAFETY: each pointer is that of a slice with its length, or of a struct of this call alone; so in all calls here.
        let status = unsafe { sys::riegeli_verify(self.file.as_ptr(), self.file.len(), &mut totals, &mut fault) };
        match status {
            sys::DONE => Ok(totals),
            _ => Err(error_of(status, &fault)),
        }
    }

    /// The records, up to the first fault, which comes behind them.
    pub fn records(&self) -> Records<'a> {
        Records {
            chunks: self.chunks(),
            current: None,
        }
    }

    /// The chunks of records, up to the first fault, which comes behind them. A compressed or transposed chunk is one.
    pub fn chunks(&self) -> Chunks<'a> {
        self.chunks_between(0, self.file.len() as u64)
    }

    /// The chunks from a place up to another one, both of which `split` gave. A chunk that reaches past the second is
    /// `Error::Argument`.
    pub fn chunks_between(&self, begin: u64, end: u64) -> Chunks<'a> {
        Chunks {
            reader: *self,
            at: begin,
            end: end.min(self.file.len() as u64),
            rooms: Rooms::new(self.file.len()),
            has_ended: false,
        }
    }

    /// What is still found intact, and the regions that are passed over between. A compressed or transposed chunk is one.
    pub fn recover(&self) -> Recovered<'a> {
        Recovered {
            reader: *self,
            at: 0,
            rooms: Rooms::new(self.file.len()),
            has_ended: false,
        }
    }

    /// The first record at a position or behind it.
    pub fn at(&self, position: u64) -> Result<Option<Found>, Error> {
        self.found(|found, value, fault| unsafe {
            let (file, size) = (self.file.as_ptr(), self.file.len());
            sys::riegeli_seek(file, size, position, found, value.as_mut_ptr(), value.len(), fault)
        })
    }

    /// The first record that isn't less than a key, in a file without fault whose records are in order.
    pub fn find(&self, key: &[u8]) -> Result<Option<Found>, Error> {
        self.found(|found, value, fault| unsafe {
            let (file, size) = (self.file.as_ptr(), self.file.len());
            sys::riegeli_find(file, size, key.as_ptr(), key.len(), found, value.as_mut_ptr(), value.len(), fault)
        })
    }

    /// Where the first chunk begins at a position or behind it; the size of the file where none does.
    pub fn split(&self, at: u64) -> Result<u64, Error> {
        let (mut begin, mut fault) = Default::default();
        let status = unsafe { sys::riegeli_split(self.file.as_ptr(), self.file.len(), at, &mut begin, &mut fault) };
        match status {
            sys::DONE | sys::NOTHING => Ok(begin),
            _ => Err(error_of(status, &fault)),
        }
    }

    /// The file of all chunks that are still found intact, where no region of more than `most` bytes is passed over.
    pub fn repair(&self, most: u64) -> Result<Repaired, Error> {
        let (mut made, mut lines) = (vec![0; self.file.len() + (1 << 17)], vec![0; 1 << 16]);
        loop {
            let mut repaired = sys::Repaired::default();
            let mut region = sys::Region::default();
            let status = unsafe {
                sys::riegeli_repair(
                    self.file.as_ptr(),
                    self.file.len(),
                    most,
                    &mut repaired,
                    made.as_mut_ptr(),
                    made.len(),
                    lines.as_mut_ptr(),
                    lines.len(),
                    &mut region,
                )
            };
            let (bytes, told) = (repaired.bytes as usize, repaired.lines as usize);
            match status {
                sys::DONE => {
                    made.truncate(bytes);
                    lines.truncate(told);
                    let lines = String::from_utf8_lossy(&lines).into_owned();
                    return Ok(Repaired { file: made, lines });
                }
                sys::ROOM => (made, lines) = (vec![0; bytes], vec![0; told]),
                sys::FAULT => return Err(Error::Stopped(region_of(region.begin, region.end, region.why))),
                _ => return Err(error_of(status, &sys::Fault::default())),
            }
        }
    }

    fn found(&self, find: impl Fn(&mut sys::Found, &mut [u8], &mut sys::Fault) -> u32) -> Result<Option<Found>, Error> {
        let mut value = vec![0; self.file.len().min(1 << 20)];
        loop {
            let (mut found, mut fault) = Default::default();
            let status = find(&mut found, &mut value, &mut fault);
            match status {
                sys::DONE => {
                    return Ok(Some(Found {
                        position: found.position,
                        begin: found.begin,
                        bytes: value[..found.bytes as usize].to_vec(),
                    }));
                }
                sys::ROOM => value = vec![0; found.bytes as usize],
                sys::NOTHING => return Ok(None),
                _ => return Err(error_of(status, &fault)),
            }
        }
    }

    /// Whether the chunk there is compressed or transposed: byte 24 of its header tells, where no block header counts.
    fn why_unread(&self, begin: u64) -> Reason {
        const BLOCK: u64 = 1 << 16;
        let mut place = begin + 24;
        if begin % BLOCK == 0 || begin / BLOCK < place / BLOCK {
            place += 24;
        }
        match self.file[place as usize] {
            b't' => Reason::Transposed,
            _ => Reason::Compressed,
        }
    }
}

fn region_of(begin: u64, end: u64, why: u32) -> Region {
    Region {
        begin,
        end,
        reason: Reason::of(why),
    }
}

/// Room for the records of a chunk: by doubling, since a chunk that doesn't fit is decoded twice.
#[derive(Debug)]
struct Rooms {
    values: Vec<u8>,
    ends: Vec<u64>,
}

impl Rooms {
    fn new(size: usize) -> Rooms {
        Rooms {
            values: vec![0; size.min(1 << 20)],
            ends: vec![0; size.min(1 << 17)],
        }
    }

    fn grow(&mut self, bytes: u64, records: u64) {
        if bytes as usize > self.values.len() {
            self.values = vec![0; bytes.next_power_of_two() as usize];
        }
        if records as usize > self.ends.len() {
            self.ends = vec![0; records.next_power_of_two() as usize];
        }
    }

    fn chunk(&self, begin: u64, end: u64, bytes: u64, records: u64) -> Chunk {
        Chunk {
            begin,
            end,
            values: self.values[..bytes as usize].to_vec(),
            ends: self.ends[..records as usize].to_vec(),
        }
    }
}

/// Goes over the chunks of records of a file.
#[derive(Debug)]
pub struct Chunks<'a> {
    reader: Reader<'a>,
    at: u64,
    end: u64,
    rooms: Rooms,
    has_ended: bool,
}

impl Chunks<'_> {
    /// The next chunk of records.
    fn step(&mut self) -> Result<Option<Chunk>, Error> {
        let file = self.reader.file;
        // A file without bytes has a fault too.
        while self.at < self.end || file.is_empty() {
            let (begin, mut chunk, mut fault) = (self.at, sys::Chunk::default(), sys::Fault::default());
            let status = unsafe {
                sys::riegeli_read_chunk(
                    file.as_ptr(),
                    file.len(),
                    begin,
                    &mut chunk,
                    self.rooms.values.as_mut_ptr(),
                    self.rooms.values.len(),
                    self.rooms.ends.as_mut_ptr(),
                    self.rooms.ends.len(),
                    &mut fault,
                )
            };
            match status {
                sys::DONE if chunk.end > self.end => return Err(Error::Argument),
                sys::DONE => self.at = chunk.end,
                sys::ROOM => self.rooms.grow(chunk.bytes, chunk.records),
                sys::NOTHING => return Ok(None),
                _ => return Err(error_of(status, &fault)),
            }
            match (status, chunk.what) {
                (sys::DONE, sys::RECORDS) => {
                    return Ok(Some(self.rooms.chunk(begin, chunk.end, chunk.bytes, chunk.records)));
                }
                (sys::DONE, sys::UNREAD) => {
                    return Err(Error::Fault {
                        place: begin,
                        reason: self.reader.why_unread(begin),
                    });
                }
                _ => (),
            }
        }
        Ok(None)
    }
}

impl Iterator for Chunks<'_> {
    type Item = Result<Chunk, Error>;

    fn next(&mut self) -> Option<Self::Item> {
        if self.has_ended {
            return None;
        }
        let next = self.step().transpose();
        self.has_ended = !matches!(next, Some(Ok(_)));
        next
    }
}

/// Goes over the records of a file.
#[derive(Debug)]
pub struct Records<'a> {
    chunks: Chunks<'a>,
    /// The chunk that is gone over, and how many of its records were given.
    current: Option<(Chunk, usize)>,
}

impl Iterator for Records<'_> {
    type Item = Result<Record, Error>;

    fn next(&mut self) -> Option<Self::Item> {
        loop {
            if let Some((chunk, given)) = &mut self.current {
                if *given < chunk.len() {
                    *given += 1;
                    return Some(Ok(chunk.record(*given - 1)));
                }
            }
            match self.chunks.next()? {
                Ok(chunk) => self.current = Some((chunk, 0)),
                Err(error) => return Some(Err(error)),
            }
        }
    }
}

/// Goes over what is still found intact in a file.
#[derive(Debug)]
pub struct Recovered<'a> {
    reader: Reader<'a>,
    at: u64,
    rooms: Rooms,
    has_ended: bool,
}

impl Recovered<'_> {
    fn step(&mut self) -> Result<Option<Piece>, Error> {
        let file = self.reader.file;
        loop {
            let mut piece = sys::Piece::default();
            let status = unsafe {
                sys::riegeli_recover(
                    file.as_ptr(),
                    file.len(),
                    self.at,
                    &mut piece,
                    self.rooms.values.as_mut_ptr(),
                    self.rooms.values.len(),
                    self.rooms.ends.as_mut_ptr(),
                    self.rooms.ends.len(),
                )
            };
            match status {
                sys::DONE | sys::FAULT => self.at = piece.end,
                sys::ROOM => {
                    self.rooms.grow(piece.bytes, piece.records);
                    continue;
                }
                sys::NOTHING => return Ok(None),
                _ => return Err(error_of(status, &sys::Fault::default())),
            }
            match piece.what {
                sys::RECORDS => {
                    let chunk = self.rooms.chunk(piece.begin, piece.end, piece.bytes, piece.records);
                    return Ok(Some(Piece::Records(chunk)));
                }
                sys::UNREAD => {
                    let reason = self.reader.why_unread(piece.begin);
                    return Ok(Some(Piece::Skipped(Region {
                        begin: piece.begin,
                        end: piece.end,
                        reason,
                    })));
                }
                sys::REGION => return Ok(Some(Piece::Skipped(region_of(piece.begin, piece.end, piece.why)))),
                _ => (),
            }
        }
    }
}

impl Iterator for Recovered<'_> {
    type Item = Result<Piece, Error>;

    fn next(&mut self) -> Option<Self::Item> {
        if self.has_ended {
            return None;
        }
        let next = self.step().transpose();
        self.has_ended = !matches!(next, Some(Ok(_)));
        next
    }
}
