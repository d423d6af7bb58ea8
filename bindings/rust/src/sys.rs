//! What `riegeli.h` declares. Its manual, `docs/LIBRARY.md`, says what each call promises and what its caller has to see to.
#![allow(missing_docs)]

pub const VERSION: u32 = 1;

pub const DONE: u32 = 0;
pub const FAULT: u32 = 1;
pub const ARGUMENT: u32 = 2;
pub const MEMORY: u32 = 3;
pub const ROOM: u32 = 4;
pub const NOTHING: u32 = 5;

pub const RECORDS: u32 = 1;
pub const PASSIVE: u32 = 2;
pub const UNREAD: u32 = 3;
pub const REGION: u32 = 4;

#[repr(C)]
#[derive(Clone, Copy, Debug, Default)]
pub struct Fault {
    pub place: u64,
    pub why: u32,
}

/// What a file holds.
#[repr(C)]
#[derive(Clone, Copy, Debug, Default)]
pub struct Totals {
    /// How many chunks, the signature among them.
    pub chunks: u64,
    /// How many records that can be read.
    pub records: u64,
    /// How many bytes, not of the records alone.
    pub bytes: u64,
    /// How many chunks that are compressed or transposed.
    pub unread: u64,
}

#[repr(C)]
#[derive(Clone, Copy, Debug, Default)]
pub struct Chunk {
    pub end: u64,
    pub records: u64,
    pub bytes: u64,
    pub what: u32,
}

#[repr(C)]
#[derive(Clone, Copy, Debug, Default)]
pub struct Found {
    pub position: u64,
    pub begin: u64,
    pub bytes: u64,
}

#[repr(C)]
#[derive(Clone, Copy, Debug, Default)]
pub struct Repaired {
    pub bytes: u64,
    pub lines: u64,
}

#[repr(C)]
#[derive(Clone, Copy, Debug, Default)]
pub struct Region {
    pub begin: u64,
    pub end: u64,
    pub why: u32,
}

#[repr(C)]
#[derive(Clone, Copy, Debug, Default)]
pub struct Piece {
    pub begin: u64,
    pub end: u64,
    pub records: u64,
    pub bytes: u64,
    pub what: u32,
    pub why: u32,
}

#[repr(C)]
#[derive(Clone, Copy, Debug, Default)]
pub struct Options {
    pub chunk: u64,
    pub every: u64,
    pub pad: u32,
}

#[repr(C)]
#[derive(Clone, Copy, Debug, Default)]
pub struct Written {
    pub end: u64,
    pub records: u64,
}

extern "C" {
    pub fn riegeli_version() -> u32;

    pub fn riegeli_hash(bytes: *const u8, count: usize) -> u64;

    pub fn riegeli_verify(file: *const u8, size: usize, totals: *mut Totals, fault: *mut Fault) -> u32;

    pub fn riegeli_read_chunk(
        file: *const u8,
        size: usize,
        at: u64,
        chunk: *mut Chunk,
        values: *mut u8,
        values_room: usize,
        ends: *mut u64,
        ends_room: usize,
        fault: *mut Fault,
    ) -> u32;

    pub fn riegeli_recover(
        file: *const u8,
        size: usize,
        at: u64,
        piece: *mut Piece,
        values: *mut u8,
        values_room: usize,
        ends: *mut u64,
        ends_room: usize,
    ) -> u32;

    pub fn riegeli_split(file: *const u8, size: usize, at: u64, begin: *mut u64, fault: *mut Fault) -> u32;

    pub fn riegeli_seek(
        file: *const u8,
        size: usize,
        at: u64,
        found: *mut Found,
        value: *mut u8,
        value_room: usize,
        fault: *mut Fault,
    ) -> u32;

    pub fn riegeli_find(
        file: *const u8,
        size: usize,
        key: *const u8,
        key_size: usize,
        found: *mut Found,
        value: *mut u8,
        value_room: usize,
        fault: *mut Fault,
    ) -> u32;

    pub fn riegeli_repair(
        file: *const u8,
        size: usize,
        most: u64,
        repaired: *mut Repaired,
        room: *mut u8,
        room_size: usize,
        lines: *mut u8,
        lines_size: usize,
        region: *mut Region,
    ) -> u32;

    pub fn riegeli_write(
        values: *const u8,
        values_size: usize,
        ends: *const u64,
        count: usize,
        options: *const Options,
        at: u64,
        last: u32,
        written: *mut Written,
        room: *mut u8,
        room_size: usize,
    ) -> u32;
}
