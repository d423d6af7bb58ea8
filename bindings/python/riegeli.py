"""Riegeli/records files: long sequences of byte records, kept so that a damaged file still gives up most of them.

    import riegeli

    with riegeli.Writer("x.riegeli") as writer:
        for line in [b"one", b"two", b"three"]:
            writer.write(line)

    with riegeli.Reader("x.riegeli") as reader:
        for record in reader:
            print(record)

A file is a list of chunks, which hold the records. The position of a record is the byte where its chunk begins, plus the
number of records before it in that chunk. Compressed and transposed chunks are not read: to read past one is a `Fault`.

The work is done by the calls of libriegeli, whose promises are proved; docs/LIBRARY.md of the repository tells them. This
module hands them memory and makes objects of what they answer, and is only tested. It needs CPython on Linux. The library is
looked for in the file or folder that the environment variable RIEGELI_LIBRARY names, where that is set; else beside this
file, where the repository builds and installs it, and where the system looks for libraries.

A file is mapped, not read at once. Nobody may change it while a `Reader` is open; if it is made shorter meanwhile, the system
may end the process by SIGBUS. The calls run without the interpreter's lock, so threads work side by side.
"""
from __future__ import annotations

import array
import contextlib
import ctypes
import enum
import io
import itertools
import mmap
import operator
import os
import stat
import threading
import uuid
import warnings
from collections.abc import Iterable, Iterator, Sequence
from typing import NamedTuple, Union

__all__ = [
    "Chunk", "Error", "Fault", "Found", "Reader", "Reason", "Region", "Repaired", "Stopped", "Totals", "Writer", "hash", "repair",
    "verify",
]
__version__ = "1.0.0"

# What `riegeli_version` has to answer.
_VERSION = 1
_DONE, _FAULT, _ARGUMENT, _MEMORY, _ROOM, _NOTHING = range(6)
# What a chunk or a piece of a damaged file is.
_RECORDS, _UNREAD, _REGION = 1, 3, 4
# At each multiple of this a block header stands, of 24 bytes.
_BLOCK = 1 << 16
# The most bytes of a record that is written, the most that a chunk's records cost, and the most records of a chunk.
_MOST = 1 << 24
_PADS = {None: 0, "start": 1, "end": 2, "both": 3}

_Path = Union[str, bytes, "os.PathLike[str]", "os.PathLike[bytes]"]


class Reason(enum.IntEnum):
    """Why reading stops, or bytes are passed over, in the order in which reasons are judged."""

    NoSignature = 1
    Short = 2
    HeaderHash = 3
    Truncated = 4
    TooLarge = 5
    BlockHeader = 6
    DataHash = 7
    Contents = 8
    Compressed = 9
    Transposed = 10
    UnknownKind = 11
    Contradicted = 12


class Error(Exception):
    """What is wrong with a file, and no wrong call: a `Fault`, or `Stopped`."""


class Fault(Error):
    """The file has a fault at the byte `place`, for the `Reason` that `reason` tells."""

    def __init__(self, place: int, reason: int) -> None:
        super().__init__(place, reason)
        self.place = place
        self.reason = Reason(reason)

    def __str__(self) -> str:
        return f"refused {self.place} {self.reason.name}"


class Region(NamedTuple):
    """The bytes from `begin` up to `end`, which were passed over for the `Reason` that `reason` tells."""

    begin: int
    end: int
    reason: Reason


class Stopped(Error):
    """A repair ended at a region of more bytes than may be passed over. What comes before it was made."""

    def __init__(self, region: Region) -> None:
        super().__init__(region)
        self.region = region

    def __str__(self) -> str:
        return f"stopped {self.region.begin} {self.region.end} {self.region.reason.name}"


class Totals(NamedTuple):
    """How many chunks a file has, records that can be read, bytes, and compressed or transposed chunks, which are left unread."""

    chunks: int
    records: int
    bytes: int
    unread: int


class Found(NamedTuple):
    """A record that was found: its position, its bytes, and where its chunk begins."""

    position: int
    record: bytes
    begin: int


class Repaired(NamedTuple):
    """How many bytes a repaired file has, and the regions that were passed over."""

    bytes: int
    regions: list[Region]


class Chunk(Sequence):
    """The records of one chunk: a sequence of `bytes`.

    begin, end  where the chunk begins, and where the next one does; record i has the position begin + i
    values      the bytes of the records, one behind another
    ends        where each record ends among them, an `array` of numbers

    Who looks at `values` and `ends` pays nothing for each record; `list(chunk)` makes an object of each.
    """

    __slots__ = "begin", "end", "values", "ends"

    def __init__(self, begin: int, end: int, values: bytes, ends: array.array[int]) -> None:
        self.begin = begin
        self.end = end
        self.values = values
        self.ends = ends

    def __len__(self) -> int:
        return len(self.ends)

    def __getitem__(self, place: int | slice) -> bytes | list[bytes]:
        if isinstance(place, slice):
            return [self[i] for i in range(*place.indices(len(self)))]
        end = self.ends[place]
        i = place if place >= 0 else place + len(self)
        return self.values[self.ends[i - 1] if i > 0 else 0 : end]

    def __iter__(self) -> Iterator[bytes]:
        return map(self.values.__getitem__, map(slice, itertools.chain((0,), self.ends), self.ends))

    def __eq__(self, other: object) -> bool:
        if not isinstance(other, Chunk):
            return NotImplemented
        return (self.begin, self.end, self.values, self.ends) == (other.begin, other.end, other.values, other.ends)

    def items(self) -> Iterator[tuple[int, bytes]]:
        """Each record with its position before it."""
        return zip(itertools.count(self.begin), self)

    def __repr__(self) -> str:
        return f"<riegeli.Chunk {self.begin}..{self.end}, {len(self)} records>"


class Reader:
    """Reads a file: an iterable of its records, and a context manager.

    The records are those of the file's front up to its first fault, which is raised behind them as a `Fault`. Several
    threads may use a reader, each with iterators of its own. After `close` every call raises `ValueError`.
    """

    def __init__(self, path: _Path) -> None:
        """Opens a file, which has to be a regular one. Nothing of it is judged yet."""
        self._begin(*_mapped(path), path)

    @classmethod
    def over(cls, data: bytes | bytearray | memoryview | mmap.mmap) -> Reader:
        """A reader of a file whose bytes are in memory."""
        reader = cls.__new__(cls)
        reader._begin(memoryview(data).cast("B") if memoryview(data).nbytes else b"", None, None)
        return reader

    def _begin(self, data: object, about: os.stat_result | None, path: _Path | None) -> None:
        self._data, self._about, self._path, self.size = data, about, path, len(data)
        # Room for a found record, while no call uses it.
        self._spare: list[ctypes.Array] = []

    def close(self) -> None:
        """Gives the file up. A call that another thread is in ends as ever."""
        self._data = None

    def __enter__(self) -> Reader:
        self._lent()
        return self

    def __exit__(self, *_: object) -> None:
        self.close()

    def __repr__(self) -> str:
        return f"<riegeli.Reader {'of bytes' if self._path is None else repr(self._path)}{'' if self._data is not None else ', closed'}>"

    def __reduce__(self) -> tuple[object, ...]:
        """A copy, by pickle too, opens the file anew, by its absolute path; bytes in memory are handed on."""
        with self._lent():
            if self._path is None:
                return type(self).over, (bytes(self._data),)
            return type(self), (os.path.abspath(self._path),)

    def __iter__(self) -> Iterator[bytes]:
        return self.records()

    def records(self, begin: int = 0, end: int | None = None) -> Iterator[bytes]:
        """The records of the chunks from `begin` up to `end`, as `chunks` tells."""
        return itertools.chain.from_iterable(self.chunks(begin, end))

    def items(self, begin: int = 0, end: int | None = None) -> Iterator[tuple[int, bytes]]:
        """The same, each with its position before it."""
        return itertools.chain.from_iterable(map(Chunk.items, self.chunks(begin, end)))

    def chunks(self, begin: int = 0, end: int | None = None) -> Iterator[Chunk]:
        """The chunks of records from the one that begins at `begin` up to `end`, or to the end of the file.

        Both have to be places where a chunk begins, as `split` gives them; a chunk that reaches past `end` is a
        `ValueError`. So parts that end where the next one begins have no record in common and leave none out.
        """
        end = self.size if end is None else min(_number(end), self.size)
        room = _Rooms(self.size)
        chunk, fault = _Chunk(), _Fault()
        at = _number(begin)
        # A file without bytes has a fault too.
        while at < end or self.size == 0:
            status = self._call("riegeli_read_chunk", at, chunk, *room.values(), *room.ends(), fault)
            if status == _ROOM:
                room.grow(chunk.bytes, chunk.records)
                continue
            if status == _NOTHING:
                return
            _raise(status, fault, f"no chunk can begin at {at}")
            if chunk.end > end:
                raise ValueError(f"no chunk begins at {end}: the one at {at} ends at {chunk.end}")
            if chunk.what == _UNREAD:
                raise Fault(at, self._why_unread(at))
            if chunk.what == _RECORDS:
                yield Chunk(at, chunk.end, *room.given(chunk.bytes, chunk.records))
            at = chunk.end

    def recover(self) -> Iterator[bytes | Region]:
        """The records of each chunk that is still found intact, and between them the regions that are passed over.

        A chunk that is compressed or transposed counts as such a region. No `Fault` is raised.
        """
        for piece in self.recover_chunks():
            if isinstance(piece, Region):
                yield piece
            else:
                yield from piece

    def recover_chunks(self) -> Iterator[Chunk | Region]:
        """The same by chunks."""
        room = _Rooms(self.size)
        piece = _Piece()
        at = 0
        while True:
            status = self._call("riegeli_recover", at, piece, *room.values(), *room.ends())
            if status == _ROOM:
                room.grow(piece.bytes, piece.records)
                continue
            if status == _NOTHING:
                return
            if status != _FAULT:
                _raise(status, None, f"no piece begins at {at}")
            if piece.what == _RECORDS:
                yield Chunk(piece.begin, piece.end, *room.given(piece.bytes, piece.records))
            elif piece.what == _REGION:
                yield Region(piece.begin, piece.end, Reason(piece.why))
            elif piece.what == _UNREAD:
                yield Region(piece.begin, piece.end, self._why_unread(piece.begin))
            at = piece.end

    def at(self, position: int) -> Found | None:
        """The first record at a position or behind it, or None where there is none.

        Only the headers on the way and the chunk of the record are judged.
        """
        return self._found("riegeli_seek", _number(position))

    def find(self, key: bytes) -> Found | None:
        """The first record that isn't less than a key, or None, in a file without fault whose records are in order.

        Where they aren't, it is one that isn't less, and the first or right behind one that is less.
        """
        key = _bytes(key)
        return self._found("riegeli_find", key, len(key))

    def split(self, at: int) -> int:
        """Where the first chunk begins at a position or behind it; the size of the file where none does.

        So many read one file: who has the part from one position up to another reads the chunks from the split of the first
        up to the split of the second.
        """
        begin, fault = ctypes.c_uint64(), _Fault()
        status = self._call("riegeli_split", _number(at), begin, fault)
        if status != _NOTHING:
            _raise(status, fault)
        return begin.value

    def verify(self) -> Totals:
        """Judges the whole file, and counts what it holds."""
        totals, fault = _Totals(), _Fault()
        _raise(self._call("riegeli_verify", totals, fault), fault)
        return Totals(totals.chunks, totals.records, totals.bytes, totals.unread)

    def repair(self, to: _Path, most: int | None = None) -> Repaired:
        """Makes the file `to` of all chunks that are still found intact, and tells the regions that are passed over.

        Where one of them has more than `most` bytes it is raised as `Stopped`, and `to` is the file of all chunks before
        it. A file that is there stays until the new one takes its place. It may not be the one that is read.
        """
        most = (1 << 64) - 1 if most is None else _number(most)
        if self._about is not None and os.path.exists(to) and os.path.samestat(self._about, os.stat(to)):
            raise ValueError(f"{to!r} is the file that is read")
        with _NewFile(to) as file:
            descriptor = file.fileno()
            repaired, lines, region = _Repaired(), ctypes.create_string_buffer(1 << 16), _Region()
            size = self.size + (1 << 17)
            while True:
                # What a full disk has no place for is told here, and not by a signal later.
                os.posix_fallocate(descriptor, 0, size)
                with mmap.mmap(descriptor, size) as room, _lent(room) as made:
                    status = self._call("riegeli_repair", most, repaired, *made, lines, len(lines), region)
                if status != _ROOM:
                    break
                size = max(repaired.bytes, 1)
                lines = ctypes.create_string_buffer(max(repaired.lines, 1))
            if status != _FAULT:
                _raise(status, None)
            os.truncate(descriptor, repaired.bytes)
        if status == _FAULT:
            raise Stopped(Region(region.begin, region.end, Reason(region.why)))
        words = [line.split() for line in lines.raw[: repaired.lines].decode().splitlines()]
        return Repaired(repaired.bytes, [Region(int(begin), int(end), Reason[why]) for _, begin, end, why in words])

    def _found(self, name: str, *sought: object) -> Found | None:
        found, fault = _Found(), _Fault()
        try:
            value = self._spare.pop()
        except IndexError:
            value = ctypes.create_string_buffer(min(self.size, 1 << 20) or 1)
        try:
            status = self._call(name, *sought, found, value, len(value), fault)
            if status == _ROOM:
                value = ctypes.create_string_buffer(found.bytes)
                status = self._call(name, *sought, found, value, len(value), fault)
            if status == _NOTHING:
                return None
            _raise(status, fault)
            return Found(found.position, ctypes.string_at(value, found.bytes), found.begin)
        finally:
            self._spare.append(value)

    def _why_unread(self, begin: int) -> Reason:
        """Whether the chunk there is compressed or transposed: byte 24 of its header tells, where no block header counts."""
        place = begin + 24
        if begin % _BLOCK == 0 or begin // _BLOCK < place // _BLOCK:
            place += 24
        return Reason.Transposed if bytes(memoryview(self._data)[place : place + 1]) == b"t" else Reason.Compressed

    def _call(self, name: str, *words: object) -> int:
        """Calls a function of the library over the file."""
        with self._lent() as file:
            return getattr(_library, name)(*file, *words)

    def _lent(self) -> contextlib.AbstractContextManager[tuple[int, int]]:
        data = self._data
        if data is None:
            raise ValueError("the reader is closed")
        return _lent(data)


class Writer:
    """Makes a record file of records as they come, and is a context manager.

    It is made under another name in the same folder, and `close` puts it in its place. A file that is there stays until then,
    and where an exception ends the `with`. A pipe or a device is written as records come.

    chunk  the records of a chunk cost at most so many bytes together, where a record costs its bytes and 8 more; a record
           that costs more stands alone in its chunk
    every  a chunk has at most so many records
    pad    "start": the first chunk of records begins at a block; "end": the file ends at a block; "both": both

    The file is what `riegeli write` makes of the same records with the same options. A writer that is dropped without `close`
    makes none, and warns of it. When a call fails no file is made, and each later call says so. Several threads may use a
    writer: each record whose `write` has returned is in the file, also where another thread closes it.
    """

    def __init__(self, path: _Path, chunk: int = 1 << 20, every: int | None = None, pad: str | None = None) -> None:
        self._new: _NewFile | None = None
        if not 1 <= chunk <= _MOST:
            raise ValueError(f"chunk is from 1 to {_MOST}, and not {chunk}")
        if every is not None and not 1 <= every <= _MOST:
            raise ValueError(f"every is from 1 to {_MOST}, and not {every}")
        if pad not in _PADS:
            raise ValueError(f"pad is start, end, both or None, and not {pad!r}")
        self._path = path
        self._options = _Options(chunk, every or 0, _PADS[pad])
        # What waits costs at most so much until chunks are laid.
        self._most = max(4 * chunk, 1 << 20)
        self._waiting: list[bytes] = []
        self._cost = 0
        self._at = 0
        self._room = ctypes.create_string_buffer(1 << 16)
        self._lock = threading.Lock()
        self._ended: str | None = None
        self._new = _NewFile(path)

    def write(self, record: bytes) -> None:
        """Puts a record behind those before, of at most 16,777,216 bytes."""
        record = _record(record)
        self._take((record,), len(record) + 8)

    def write_all(self, records: Iterable[bytes]) -> None:
        """Puts records behind those before, in their order."""
        taken, cost = [], 0
        try:
            for record in map(_record, records):
                taken.append(record)
                cost += len(record) + 8
                # Not one by one, since the lock costs more than a short record.
                if cost > 1 << 16:
                    batch, taken = taken, []
                    self._take(batch, cost)
                    cost = 0
        finally:
            if taken:
                self._take(taken, cost)

    def flush(self) -> None:
        """Writes the chunks that are full. The last one stays open, since records may follow: `close` writes it."""
        with self._lock:
            self._check_open()
            self._put_full()

    def close(self) -> None:
        """Writes what was held, and puts the file in its place. Nothing is synced."""
        with self._lock:
            if self._ended == _CLOSED:
                return
            failed, self._ended = self._ended, _CLOSED
            if failed is not None:
                raise ValueError(failed)
            with self._new:
                self._put(last=True)

    def __enter__(self) -> Writer:
        self._check_open()
        return self

    def __exit__(self, kind: object, *_: object) -> None:
        if kind is None:
            self.close()
        else:
            with self._lock:
                self._discard(_CLOSED)

    def __del__(self) -> None:
        if self._new is not None and self._ended is None:
            self._discard(_CLOSED)
            warnings.warn(f"the riegeli.Writer of {self._path!r} was not closed, and its file is not made", RuntimeWarning)

    def __repr__(self) -> str:
        state = "closed" if self._ended == _CLOSED else "failed" if self._ended else f"{self._at} bytes"
        return f"<riegeli.Writer {self._path!r}, {state}>"

    def _check_open(self) -> None:
        if self._ended is not None:
            raise ValueError(self._ended)

    def _take(self, records: Iterable[bytes], cost: int) -> None:
        with self._lock:
            self._check_open()
            self._waiting += records
            self._cost += cost
            if self._cost > self._most:
                self._put_full()

    def _discard(self, why: str) -> None:
        """Takes no more records, and makes no file."""
        if self._ended is None:
            self._new.discard()
        self._ended = why

    def _put_full(self) -> None:
        try:
            self._put(last=False)
        except BaseException:
            self._discard(_FAILED)
            raise

    def _put(self, last: bool) -> None:
        """Lays the chunks that are full, or with `last` all, and writes them."""
        laid, size = self._lay(last)
        left = memoryview(self._room)[:size]
        while left:
            left = left[self._new.file.write(left) :]
        self._at += size
        del self._waiting[:laid]
        self._cost = sum(map(len, self._waiting)) + 8 * len(self._waiting)
        if size > 0:
            # Padding at the start is laid once.
            self._options.pad &= ~_PADS["start"]

    def _lay(self, last: bool) -> tuple[int, int]:
        """Lays chunks in the room: how many records are in them, and how many bytes they have."""
        records = self._waiting
        values = b"".join(records)
        # One more than there are records, so that there is memory also for none.
        ends = array.array("Q", itertools.accumulate(map(len, records), initial=0))
        place = ends.buffer_info()[0] + ends.itemsize
        written = _Written()
        while True:
            status = _library.riegeli_write(
                values, len(values), place, len(records), self._options, self._at, last, written, self._room, len(self._room)
            )
            if status != _ROOM:
                break
            self._room = ctypes.create_string_buffer(written.end - self._at)
        _raise(status, None, "the records could not be laid")
        return written.records, written.end - self._at


def verify(path: _Path) -> Totals:
    """Judges a whole file, and counts what it holds."""
    with Reader(path) as reader:
        return reader.verify()


def repair(path: _Path, to: _Path, most: int | None = None) -> Repaired:
    """Makes the file `to` of all chunks of a file that are still found intact, as `Reader.repair` tells."""
    with Reader(path) as reader:
        return reader.repair(to, most)


def hash(data: bytes | bytearray | memoryview) -> int:
    """HighwayHash-64 of bytes under the key of the format."""
    with _lent(data if memoryview(data).nbytes else b"") as bytes_and_size:
        return _library.riegeli_hash(*bytes_and_size)


# Why a writer takes no more records.
_CLOSED, _FAILED = "the writer is closed", "an earlier call of this writer failed, and its file is not made"


def _raise(status: int, fault: _Fault | None, wrong: str = "the file has more than 2^60 bytes") -> None:
    """Raises what a status tells, unless that is `_DONE`."""
    if status == _FAULT:
        raise Fault(fault.place, fault.why)
    if status == _ARGUMENT:
        raise ValueError(wrong)
    if status == _MEMORY:
        raise MemoryError
    if status != _DONE:
        raise RuntimeError(f"libriegeli answered {status}")


def _number(number: int) -> int:
    """A number that fits the calls, which would cut a larger one."""
    number = operator.index(number)
    if not 0 <= number < 1 << 64:
        raise ValueError(f"{number} is no number from 0 to 2^64 - 1")
    return number


def _record(record: object) -> bytes:
    """A record as `bytes`, where it isn't too long to be written."""
    if type(record) is not bytes:
        record = _bytes(record)
    if len(record) > _MOST:
        raise ValueError(f"a record has at most {_MOST} bytes, and not {len(record)}")
    return record


def _bytes(data: object) -> bytes:
    try:
        return bytes(memoryview(data))
    except TypeError:
        raise TypeError(f"a bytes-like object is required, not {type(data).__name__!r}") from None


def _mapped(path: _Path) -> tuple[bytes | mmap.mmap, os.stat_result]:
    """The bytes of a file, and what the system tells of it."""
    with open(path, "rb", buffering=0, opener=lambda path, flags: os.open(path, flags | os.O_NONBLOCK)) as file:
        about = os.fstat(file.fileno())
        if not stat.S_ISREG(about.st_mode):
            raise ValueError(f"{path!r} is no regular file")
        return mmap.mmap(file.fileno(), 0, access=mmap.ACCESS_READ) if about.st_size else b"", about


class _NewFile:
    """A file that takes the place of a path once all went well, with its mode. A pipe or a device there is opened itself."""

    def __init__(self, path: _Path) -> None:
        try:
            mode = os.stat(path).st_mode
        except FileNotFoundError:
            mode = None
        self._new = None
        if mode is not None and not stat.S_ISREG(mode):
            self.file = open(path, "wb", buffering=0)
            return
        # A link stays, and what it leads to is replaced.
        self._path = os.path.realpath(os.fsdecode(path))
        self._new = f"{self._path}.{uuid.uuid4().hex}.new"
        try:
            self.file = open(self._new, "x+b", buffering=0)
        except OSError as error:
            error.filename = os.fspath(path)
            raise
        if mode is not None:
            os.fchmod(self.file.fileno(), stat.S_IMODE(mode))

    def __enter__(self) -> io.FileIO:
        return self.file

    def __exit__(self, kind: object, *_: object) -> None:
        if kind is not None:
            self.discard()
            return
        try:
            self.file.close()
            if self._new is not None:
                os.replace(self._new, self._path)
        except BaseException:
            self.discard()
            raise

    def discard(self) -> None:
        self.file.close()
        if self._new is not None:
            os.unlink(self._new)


class _Rooms:
    """Room for the records of a chunk: their bytes, and where they end. It grows as chunks need it."""

    def __init__(self, size: int) -> None:
        # Never without an element, so that there is memory to point at.
        self._values = ctypes.create_string_buffer(min(size, 1 << 20) or 1)
        self._ends = array.array("Q", bytes(8 * (min(size, 1 << 17) or 1)))

    def grow(self, size: int, records: int) -> None:
        """Makes room for a chunk, and by doubling for larger ones, since one that doesn't fit is decoded twice."""
        if size > len(self._values):
            self._values = ctypes.create_string_buffer(max(size, 2 * len(self._values)))
        if records > len(self._ends):
            self._ends = array.array("Q", bytes(8 * max(records, 2 * len(self._ends))))

    def values(self) -> tuple[object, int]:
        return self._values, len(self._values)

    def ends(self) -> tuple[int, int]:
        return self._ends.buffer_info()

    def given(self, size: int, records: int) -> tuple[bytes, array.array[int]]:
        return ctypes.string_at(self._values, size), self._ends[:records]


class _View(ctypes.Structure):
    """`Py_buffer` of CPython, by which memory of any object is lent, also such that can only be read."""

    _fields_ = [
        ("buf", ctypes.c_void_p),
        ("obj", ctypes.c_void_p),
        ("len", ctypes.c_ssize_t),
        ("itemsize", ctypes.c_ssize_t),
        ("readonly", ctypes.c_int),
        ("ndim", ctypes.c_int),
        ("format", ctypes.c_void_p),
        ("shape", ctypes.c_void_p),
        ("strides", ctypes.c_void_p),
        ("suboffsets", ctypes.c_void_p),
        ("internal", ctypes.c_void_p),
    ]


_get_buffer = ctypes.pythonapi.PyObject_GetBuffer
_get_buffer.argtypes = [ctypes.py_object, ctypes.POINTER(_View), ctypes.c_int]
_release_buffer = ctypes.pythonapi.PyBuffer_Release
_release_buffer.argtypes, _release_buffer.restype = [ctypes.POINTER(_View)], None


class _lent:
    """Lends the memory of an object: where it is, and how many bytes it has. It stays there as long as it is lent."""

    def __init__(self, data: object) -> None:
        self._data, self._view = data, _View()

    def __enter__(self) -> tuple[int, int]:
        _get_buffer(self._data, self._view, 0)
        return self._view.buf, self._view.len

    def __exit__(self, *_: object) -> None:
        _release_buffer(self._view)


def _struct(**fields: type) -> type[ctypes.Structure]:
    """A struct of riegeli.h."""
    return type("_Struct", (ctypes.Structure,), {"_fields_": list(fields.items())})


_u32, _u64, _size, _memory = ctypes.c_uint32, ctypes.c_uint64, ctypes.c_size_t, ctypes.c_void_p

_Fault = _struct(place=_u64, why=_u32)
_Totals = _struct(chunks=_u64, records=_u64, bytes=_u64, unread=_u64)
_Chunk = _struct(end=_u64, records=_u64, bytes=_u64, what=_u32)
_Found = _struct(position=_u64, begin=_u64, bytes=_u64)
_Repaired = _struct(bytes=_u64, lines=_u64)
_Region = _struct(begin=_u64, end=_u64, why=_u32)
_Piece = _struct(begin=_u64, end=_u64, records=_u64, bytes=_u64, what=_u32, why=_u32)
_Options = _struct(chunk=_u64, every=_u64, pad=_u32)
_Written = _struct(end=_u64, records=_u64)

_to = ctypes.POINTER
_file = _memory, _size
_CALLS = {
    "riegeli_version": [_u32],
    "riegeli_hash": [_u64, *_file],
    "riegeli_verify": [_u32, *_file, _to(_Totals), _to(_Fault)],
    "riegeli_read_chunk": [_u32, *_file, _u64, _to(_Chunk), _memory, _size, _memory, _size, _to(_Fault)],
    "riegeli_recover": [_u32, *_file, _u64, _to(_Piece), _memory, _size, _memory, _size],
    "riegeli_split": [_u32, *_file, _u64, _to(_u64), _to(_Fault)],
    "riegeli_seek": [_u32, *_file, _u64, _to(_Found), _memory, _size, _to(_Fault)],
    "riegeli_find": [_u32, *_file, ctypes.c_char_p, _size, _to(_Found), _memory, _size, _to(_Fault)],
    "riegeli_repair": [_u32, *_file, _u64, _to(_Repaired), _memory, _size, _memory, _size, _to(_Region)],
    "riegeli_write": [
        _u32, ctypes.c_char_p, _size, _memory, _size, _to(_Options), _u64, _u32, _to(_Written), _memory, _size
    ],
}


def _load() -> ctypes.CDLL:
    name = f"libriegeli.so.{_VERSION}"
    named = os.environ.get("RIEGELI_LIBRARY")
    if named:
        places = [os.path.join(named, name) if os.path.isdir(named) else named]
    else:
        here = os.path.dirname(os.path.abspath(__file__))
        files = [os.path.join(here, *folders, name) for folders in ([], ["..", "c", "out", "lib"], ["..", ".."])]
        places = [*filter(os.path.exists, files), name]
    try:
        library = ctypes.CDLL(places[0])
        for call, (answer, *words) in _CALLS.items():
            function = getattr(library, call)
            function.argtypes, function.restype = words, answer
    except (OSError, AttributeError) as error:
        wanted = "bindings/c/build makes it, and RIEGELI_LIBRARY says where it is"
        raise ImportError(f"riegeli: the library could not be loaded ({error}); {wanted}") from None
    if library.riegeli_version() != _VERSION:
        raise ImportError(f"riegeli: {places[0]} is version {library.riegeli_version()}, and this module is for {_VERSION}")
    return library


_library = _load()
