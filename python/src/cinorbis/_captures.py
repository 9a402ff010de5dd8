"""Packed records, and captures: files of them."""

import io
import operator
import os
from ctypes import byref
from dataclasses import dataclass
from pathlib import Path
from types import TracebackType
from typing import Iterator, Optional, SupportsIndex, Union, overload

import numpy as np

from ._arrays import Bits, GivenBits, GivenReadings, Readings, address, fixed, lent, taken
from ._header import DEFAULT_ALLOWANCE, LARGEST_N, LARGEST_RECORD, Refusal
from ._native import Numbers, allowance, call, number, struct
from ._refused import Refused, raise_if
from ._rods import Rod, RodRead
from ._shown import Shown
from ._spread import awaited, spread
from ._telegrams import Telegram, TelegramRead
from ._words import NUMBERS, Found, dimension, length

_Part, _Written, _Index = struct("part"), struct("written"), struct("index")
_Entry, _Front = struct("entry"), struct("front")
_BLOCK = 16  # records from one entry of the library's table to the next
_BLOCK_BYTES = _BLOCK * LARGEST_RECORD
_PIECE = 1 << 20  # bytes of a file that are looked at together


def record_length(r: SupportsIndex, m: SupportsIndex) -> int:
    """How many bytes a record of RM(r,m) takes.

    >>> record_length(2, 5)
    49
    """
    r, m = number(r), number(m)
    found = call("cinorbis_record_length")(16 * m + r) if r <= m <= 8 else 0
    raise_if(0 if found else Refusal.PARAMETERS)
    return found


def write_record(r: SupportsIndex, m: SupportsIndex, readings: GivenReadings) -> bytes:
    """The bytes of a record of n readings, none beyond 2,047 either way.

    >>> write_record(1, 2, [5, -2, 3, 1]).hex(" ")
    '21 00 5f fe 00 30 01'
    """
    room = np.empty(LARGEST_RECORD, np.uint8)
    return room[: write_record_into(room, 0, r, m, readings)].tobytes()


def write_record_into(
    buffer: Bits, place: SupportsIndex, r: SupportsIndex, m: SupportsIndex, readings: GivenReadings
) -> int:
    """Writes a record into an array of bytes from a place on: the place after it."""
    array = taken(readings, "readings", 1, ("int16",))
    room = lent(buffer, "buffer", (0,), "uint8", array)
    at = operator.index(place)
    at = at if 0 <= at < 1 << 64 else (1 << 64) - 1  # no room there either
    written = _Written()
    inputs = (number(r), number(m), at, address(array), array.size)
    refusal = call("cinorbis_write_record")(*inputs, address(room), room.size, byref(written))
    if refusal:
        raise Refused(refusal, place=written.place)
    return int(written.next)


def unpack(part: GivenBits, *, out: Optional[Readings] = None) -> Readings:
    """The readings of a record's packed part: all its bytes but the first.

    >>> unpack(bytes.fromhex("00 5f fe 00 30 01"))
    array([ 5, -2,  3,  1], dtype=int16)
    """
    array = taken(part, "part", 1, ("uint8",))
    readings = lent(out, "out", (array.size * 2 // 3,), "int16", array)
    buffers = (address(array), array.size, address(readings), readings.size)
    raise_if(call("cinorbis_unpack")(*buffers, byref(Numbers())))
    return readings


@dataclass(frozen=True)
class Index:
    """The library's index of a whole capture: ``starts`` has the place of every 16th record."""

    records: int
    used: int
    starts: tuple[int, ...]


def index_of(data: GivenBits) -> Index:
    """The index of a capture in memory; refused as 1 or 8 where the capture is not whole.

    >>> index_of(write_record(0, 0, [-3]) * 17)
    Index(records=17, used=51, starts=(0, 48))
    """
    array = taken(data, "data", 1, ("uint8",))
    table, index = np.zeros(_entries(array.size), np.uint64), _Index()
    buffers = (address(array), array.size, address(table), table.size)
    raise_if(call("cinorbis_index_make")(*buffers, byref(index)))
    starts = table[: (index.records + _BLOCK - 1) // _BLOCK]
    return Index(index.records, index.used, tuple(starts.tolist()))


def _entries(size: int) -> int:
    """Entries that suffice for a capture of that size, whose records have 3 bytes or more."""
    return (size // 3 + _BLOCK - 1) // _BLOCK + 1


@dataclass(frozen=True)
class Record:
    """A record: its number and where it starts in its capture, its code, and its bytes."""

    number: int
    start: int
    r: int
    m: int
    data: bytes

    @classmethod
    def first(cls, data: GivenBits) -> "Record":
        """The record that some bytes begin with; refused as 1, 8 or 9 where there is none.

        >>> Record.first(bytes.fromhex("21 00 5f fe 00 30 01 21 00"))
        Record(number=0, start=0, r=1, m=2, data=b'!\\x00_\\xfe\\x000\\x01')
        """
        array = taken(data, "data", 1, ("uint8",))
        part = _Part()
        raise_if(call("cinorbis_record")(address(array), array.size, byref(part)))
        return cls(0, 0, part.r, part.m, array[: 1 + part.length].tobytes())

    @property
    def readings(self) -> Readings:
        """Its n readings; a packed -2,048, the modem's bottom rail, is read as -2,047."""
        return unpack(self.data[1:])

    def search(self, *, allowed: SupportsIndex = DEFAULT_ALLOWANCE) -> Found:
        """The best word for its readings."""
        data = np.frombuffer(self.data, np.uint8)
        n, k = length(self.m), dimension(self.r, self.m)
        bits, word = np.zeros(k, np.uint8), np.zeros(n, np.uint8)
        next_best, numbers = np.zeros(LARGEST_N, np.uint8), Numbers()
        limit, search = allowance(allowed), call("cinorbis_search_record")
        inputs = (limit, address(data), data.size)
        outputs = (address(bits), k, address(word), n, address(next_best), byref(numbers))
        raise_if(awaited(lambda: search(*inputs, *outputs), limit), numbers)
        fixed(bits, word, next_best)
        return Found(bits, word, numbers.penalty, numbers.gap, numbers.visits, next_best[:k])


    def telegram(self) -> TelegramRead:
        """The telegram that its readings show, where it is a word of RM(2,5)."""
        if (self.r, self.m) == (1, 5):
            both = "RM(1,5) holds rod positions, and each of their words is a telegram's, too"
            raise ValueError(f"record {self.number}: {both}: nothing tells them apart")
        if (self.r, self.m) != (2, 5):
            raise ValueError(f"record {self.number}: RM({self.r},{self.m}) holds no telegrams")
        return Telegram.read(self.readings)

    def rod(self) -> RodRead:
        """The rod position that its readings show, where it is a word of RM(1,m)."""
        if self.r != 1:
            raise ValueError(f"record {self.number}: RM({self.r},{self.m}) holds no rod positions")
        return Rod.read(self.m, self.readings)


@dataclass(frozen=True, eq=False, repr=False)
class Answer(Shown):
    """What the search of a record of a capture gave: ``found``, or the refusal."""

    number: int
    start: int
    r: int
    m: int
    readings: Readings
    found: Optional[Found]
    refused: Optional[Refused]


class Capture:
    """A file of packed records, with the library's index: any record is found in 15 steps or fewer.

    A capture that stops in the middle of a record, or goes on with a byte that begins none, opens
    with the whole records before that: ``torn`` is then the refusal (8 or 1), ``used`` how many
    bytes are whole records, and ``size`` how many there are.

    The file is read piece by piece as it is needed. It is not mapped into memory: a mapped file
    that becomes shorter ends the process, and here it is an error.

    >>> import tempfile, pathlib
    >>> path = pathlib.Path(tempfile.mkdtemp()) / "tilt.cap"
    >>> with Capture.create(path) as capture:
    ...     capture.append(1, 2, [5, -2, 3, 1])
    ...     capture.append(1, 3, [9, 9, 9, 9, 9, 9, 9, -1])
    ...     len(capture), capture[0].readings, capture[-1].search().penalty
    0
    1
    (2, array([ 5, -2,  3,  1], dtype=int16), 1)
    """

    path: Path
    writable: bool
    torn: Optional[Refused]
    used: int
    size: int

    def __init__(self, path: Union[str, "os.PathLike[str]"], *, writable: bool = False) -> None:
        self.path = Path(path)
        self.writable = writable
        self._memory: Optional[Bits] = None
        self._file: Optional[io.FileIO] = io.FileIO(self.path, "r+" if writable else "r")
        try:
            self.refresh()
        except BaseException:
            self._file.close()
            raise

    @classmethod
    def of(cls, data: GivenBits) -> "Capture":
        """A capture that is in memory already, to read.

        >>> Capture.of(bytes.fromhex("21 00 5f fe 00 30 01 21 00"))
        <Capture 'bytes': 1 records, 7 bytes, torn at byte 7 of 9>
        """
        self = cls.__new__(cls)
        self.path, self.writable, self._file = Path("bytes"), False, None
        self._memory = taken(data, "data", 1, ("uint8",)).copy()
        self.refresh()
        return self

    @classmethod
    def open(cls, path: Union[str, "os.PathLike[str]"], *, writable: bool = False) -> "Capture":
        """Opens a capture to read, or to append to as well."""
        return cls(path, writable=writable)

    @classmethod
    def create(cls, path: Union[str, "os.PathLike[str]"]) -> "Capture":
        """A new, empty capture; a file that exists is not overwritten."""
        open(path, "xb").close()
        return cls(path, writable=True)

    def refresh(self) -> None:
        """Looks at the file again, and makes a new index."""
        if self._memory is not None:
            self.size = self._memory.size
        else:
            self.size = os.fstat(self._opened().fileno()).st_size
        self.torn = None
        self._table: list[int] = []
        self._records = self.used = 0
        while self.used < self.size and self.torn is None:
            self._index_piece()

    def _index_piece(self) -> None:
        """Adds the records of the file's next piece to the index.

        A piece that is not the last counts up to its last whole block of records, so that the
        next one begins with a block: its entries are those of the whole capture's table.
        """
        piece = self._bytes(self.used, min(_PIECE, self.size - self.used))
        table, front = np.zeros(_entries(piece.size), np.uint64), _Front()
        refusal = call("cinorbis_index_front")(
            address(piece), piece.size, address(table), table.size, byref(front)
        )
        raise_if(refusal)
        records, used = front.records, front.used
        if self.used + piece.size < self.size and front.ended in (Refusal.DONE, Refusal.TORN):
            if records % _BLOCK:
                used = int(table[records // _BLOCK])
            records -= records % _BLOCK
        elif front.ended:
            self.torn = Refused(front.ended)
        entries = table[: (records + _BLOCK - 1) // _BLOCK]
        self._table += (entries + np.uint64(self.used)).tolist()
        self._records += records
        self.used += used

    def _opened(self) -> io.FileIO:
        if self._file is None or self._file.closed:
            raise ValueError("the capture is closed, or not a file")
        return self._file

    def _bytes(self, place: int, count: int) -> Bits:
        """Some bytes of the capture."""
        if self._memory is not None:
            return self._memory[place : place + count]
        data = os.pread(self._opened().fileno(), count, place)
        if len(data) < count:
            hint = "refresh() looks at it again"
            raise OSError(
                f"{self.path}: the file has become shorter than {self.used} bytes; {hint}"
            )
        return np.frombuffer(data, np.uint8)

    def close(self) -> None:
        """Closes the file."""
        if self._file is not None:
            self._file.close()

    def __enter__(self) -> "Capture":
        return self

    def __exit__(
        self,
        kind: Optional[type[BaseException]],
        error: Optional[BaseException],
        trace: Optional[TracebackType],
    ) -> None:
        self.close()

    def __len__(self) -> int:
        return self._records

    def __repr__(self) -> str:
        tear = f", torn at byte {self.used} of {self.size}" if self.torn else ""
        return f"<Capture {str(self.path)!r}: {self._records} records, {self.used} bytes{tear}>"

    def _block(self, w: int) -> tuple[int, Bits]:
        """Where the block of record w starts, and its bytes or more."""
        start = self._table[w // _BLOCK]
        return start, self._bytes(start, min(_BLOCK_BYTES, self.used - start))

    def _start(self, w: int) -> int:
        """Where record w starts, with a pad bit or not."""
        start, block = self._block(w)
        place = 0
        for _ in range(w % _BLOCK):
            place += call("cinorbis_record_length")(int(block[place]))
        return start + place

    @overload
    def __getitem__(self, w: SupportsIndex) -> Record: ...

    @overload
    def __getitem__(self, w: slice) -> list[Record]: ...

    def __getitem__(self, w: Union[SupportsIndex, slice]) -> Union[Record, list[Record]]:
        """Record w, counted from 0, or from the end where w is negative; or a list of several.

        A record with a pad bit is refused as 9.
        """
        if isinstance(w, slice):
            return [self[i] for i in range(*w.indices(self._records))]
        given = operator.index(w)
        i = given + self._records if given < 0 else given
        if not 0 <= i < self._records:
            raise IndexError(f"record {given}: the capture has {self._records}")
        start, block = self._block(i)
        table, entry = np.zeros(1, np.uint64), _Entry()
        refusal = call("cinorbis_index_find")(
            *(i % _BLOCK, address(block), block.size, address(table), table.size, byref(entry))
        )
        raise_if(refusal)
        data = block[entry.start - 1 : entry.start + entry.length].tobytes()
        return Record(i, start + entry.start - 1, entry.r, entry.m, data)

    def __iter__(self) -> Iterator[Record]:
        """The records in order. Ends with `Refused` at one with a pad bit; `answers` goes on."""
        for w in range(self._records):
            yield self[w]

    def answers(
        self, *, allowed: SupportsIndex = 1_000_000, first: int = 0, at_once: int = 64
    ) -> Iterator[Answer]:
        """Each record searched, in order, from record ``first`` on, refused ones too.

        The allowance is by default that of the program `cinorbis`. ``at_once`` records are
        searched together by a loop in C.
        """
        limit = allowance(allowed)
        while first < self._records:
            count = min(at_once, self._records - first)
            start, after = self._start(first), -(-(first + count) // _BLOCK)
            end = self._table[after] if after < len(self._table) else self.used
            batch = _searched(self._bytes(start, end - start), limit, count, first, start)
            if len(batch) != count:
                problem = "is no longer what it was when the capture was opened"
                raise OSError(f"{self.path}: record {first + len(batch)} {problem}")
            yield from batch
            first += count

    def _to_write(self) -> io.FileIO:
        if not self.writable:
            hint = "Capture.open(path, writable=True) appends"
            raise ValueError(f"the capture is open to read; {hint}")
        file = self._opened()
        if self.torn:
            hint = "cut() drops what is behind its last whole record"
            raise ValueError(f"the capture is torn at byte {self.used} of {self.size}; {hint}")
        if os.fstat(file.fileno()).st_size != self.size:
            raise ValueError("another program has changed the file; refresh() looks at it again")
        return file

    def append(self, r: SupportsIndex, m: SupportsIndex, readings: GivenReadings) -> int:
        """Writes a record at the capture's end: its number.

        What is refused, or fails, leaves the file as it was.
        """
        row = taken(readings, "readings", 1, ("int16",))
        self._add(r, m, row[None, :])
        return self._records - 1

    def extend(self, r: SupportsIndex, m: SupportsIndex, readings: GivenReadings) -> int:
        """Writes a record for each row of a 2-D array, or none: how many.

        A reading that is refused as 4 has its place counted through all rows.
        """
        rows = taken(readings, "readings", 2, ("int16",))
        self._add(r, m, rows)
        return len(rows)

    def _add(self, r: SupportsIndex, m: SupportsIndex, rows: Readings) -> None:
        """Appends records to the block at the end, and to new ones, by the library's own call."""
        file, width = self._to_write(), rows.shape[1]
        block, index, written = np.zeros(_BLOCK_BYTES, np.uint8), _Index(), _Written()
        start, entry, entries, made = self.used, np.zeros(1, np.uint64), [], []
        if self._records % _BLOCK:
            start, bytes_there = self._block(self._records - 1)
            block[: self.used - start] = bytes_there
            index.records, index.used = self._records % _BLOCK, self.used - start
        for i in range(len(rows)):
            if index.records == _BLOCK:
                start, index = start + index.used, _Index()
            before = index.used
            refusal = call("cinorbis_index_append")(
                *(number(r), number(m), address(rows) + i * width * rows.itemsize, width),
                *(address(block), block.size, address(entry), entry.size),
                *(byref(index), byref(written)),
            )
            if refusal:
                there = i * width + written.place if refusal == Refusal.ENTRY else 0
                raise Refused(refusal, place=there)
            if before == 0:
                entries.append(start + int(entry[0]))
            made.append(block[before : index.used].tobytes())
        self._write(file, b"".join(made))
        self._table += entries
        self._records += len(rows)

    def _write(self, file: io.FileIO, data: bytes) -> None:
        """Writes at the file's end, all or nothing."""
        try:
            done = os.pwrite(file.fileno(), data, self.size)
            if done != len(data):
                raise OSError(f"{self.path}: only {done} of {len(data)} bytes could be written")
        except OSError:
            os.ftruncate(file.fileno(), self.size)
            raise
        self.size = self.used = self.size + len(data)

    def cut(self) -> int:
        """Drops what is behind the last whole record of a torn capture: how many bytes."""
        if not self.writable:
            raise ValueError("the capture is open to read; Capture.open(path, writable=True)")
        dropped = self.size - self.used
        os.ftruncate(self._opened().fileno(), self.used)
        self.refresh()
        return dropped


def _searched(data: Bits, limit: int, count: int, number: int, place: int) -> list[Answer]:
    """The answers of the first records of some bytes, at most ``count``.

    The first has that number, and starts at that place of its capture.
    """
    starts, numbers = np.zeros(count, np.uint64), np.zeros(count, NUMBERS)
    refusals, readings = np.zeros(count, np.uint32), np.zeros((count, LARGEST_N), np.int16)
    bits, word, next_best = (np.zeros((count, LARGEST_N), np.uint8) for _ in range(3))
    done: list[int] = []

    def work(first: int, end: int, stop: int) -> None:
        rows = call("cinorbis_rows_records")(
            *(limit, address(data), data.size, address(starts), address(readings), address(bits)),
            *(address(word), address(next_best), address(numbers), address(refusals), count, stop),
        )
        done.append(rows)

    spread(work, 1, 1, count * limit)  # in one part: a record starts where the one before it ends
    fixed(readings, bits, word, next_best)
    answers = []
    for i in range(done[0]):
        start, refusal, given = int(starts[i]), int(refusals[i]), numbers[i]
        m, r = divmod(int(data[start]), 16)
        n, k = length(m), dimension(r, m)
        penalty, gap, visits = int(given["penalty"]), int(given["gap"]), int(given["visits"])
        if refusal:
            found, refused = None, Refused(refusal, int(given["place"]), penalty, visits)
        else:
            found = Found(bits[i, :k], word[i, :n], penalty, gap, visits, next_best[i, :k])
            refused = None
        where = (number + i, place + start)
        answers.append(Answer(*where, r, m, readings[i, :n], found, refused))
    return answers
