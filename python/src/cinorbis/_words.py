"""Words and searches, one at a time and many at once."""

from ctypes import byref
from dataclasses import dataclass
from typing import Any, Callable, NamedTuple, Optional, Sequence, SupportsIndex, Union, overload

import numpy as np
import numpy.typing as npt

from ._arrays import Bits, GivenBits, GivenReadings, address, exact, fixed, lent, taken
from ._header import DEFAULT_ALLOWANCE, LARGEST_N, STRUCTS, Refusal
from ._native import Numbers, allowance, call, number
from ._refused import Refused, raise_if
from ._shown import Rows, Shown, is_number
from ._spread import NO_WALK, awaited, spread

Counts = npt.NDArray[np.uint64]
Refusals = npt.NDArray[np.uint32]
OneRow = Union[int, "np.integer[Any]"]
ManyRows = Union[slice, Sequence[int], npt.NDArray[Any]]
NUMBERS = np.dtype([(field, np.uint64) for field in STRUCTS["numbers"]])
_length, _dimension = call("cinorbis_length"), call("cinorbis_dimension")


@dataclass(frozen=True, eq=False, repr=False)
class Found(Shown):
    """The word found. The arrays are read-only.

    Attributes:
        bits: its k information bits.
        word: its n bits.
        penalty: the sum of the sizes of the readings that it contradicts.
        gap: how much all readings together must change before another word is found
            (0: the call does not give it).
        visits: what the walk looked at (0: there was none, or the call does not give it).
        runner_up: the information bits of the next best word (empty: the call does not give it).
    """

    bits: Bits
    word: Bits
    penalty: int
    gap: int
    visits: int
    runner_up: Bits


@dataclass(frozen=True, eq=False, repr=False)
class FoundMany(Rows):
    """Many answers, a row for each word. ``found[i]`` is row i as one answer.

    ``found[100:200]`` and ``found[found.refusal == 0]`` are the answers of those rows.
    Where ``refusal`` is not 0 the row's bits, word and runner_up are 0, and the numbers are those
    that the refusal carries.
    """

    bits: Bits
    word: Bits
    penalty: Counts
    gap: Counts
    visits: Counts
    runner_up: Bits
    refusal: Refusals
    place: Counts

    @overload
    def __getitem__(self, i: OneRow) -> Found: ...

    @overload
    def __getitem__(self, i: ManyRows) -> "FoundMany": ...

    def __getitem__(self, i: Any) -> Union[Found, "FoundMany"]:
        """Row i as one answer, raising its refusal; or several rows."""
        if not is_number(i):
            return self._some(i)
        penalty, gap, visits = int(self.penalty[i]), int(self.gap[i]), int(self.visits[i])
        if self.refusal[i]:
            raise Refused(int(self.refusal[i]), int(self.place[i]), penalty, visits)
        return Found(self.bits[i], self.word[i], penalty, gap, visits, self.runner_up[i])


def length(m: SupportsIndex) -> int:
    """n, the bits of a word: 2^m.

    >>> length(5)
    32
    """
    n = _length(number(m))
    raise_if(0 if n else Refusal.PARAMETERS)
    return n


def dimension(r: SupportsIndex, m: SupportsIndex) -> int:
    """k, the information bits of RM(r,m).

    >>> dimension(2, 5)
    16
    """
    k = _dimension(number(r), number(m))
    raise_if(0 if k else Refusal.PARAMETERS)
    return k


class _Sizes(NamedTuple):
    """A code for the library, its n and k (0 where it will be refused), and a row of names."""

    r: int
    m: int
    n: int
    k: int
    row: Optional[Bits]


def _sizes(r: SupportsIndex, m: SupportsIndex, named: Optional[GivenBits]) -> _Sizes:
    r, m = number(r), number(m)
    n, k = _length(m), _dimension(r, m)
    if named is None:
        return _Sizes(r, m, n, k, None)
    row = taken(named, "named", 1, ("uint8",))
    return _Sizes(r, m, n, max(k - int(np.count_nonzero(row)), 0), row)


_CODED = {
    (name, shortened): call(f"cinorbis_{name}{'_shortened' if shortened else ''}")
    for name in ("encode", "inverse")
    for shortened in (False, True)
}


def _coded(name: str, sizes: _Sizes, given: Bits, out: Optional[Bits]) -> Bits:
    r, m, n, k, row = sizes
    made = lent(out, "out", (n if name == "encode" else k,), "uint8", given)
    if row is not None and out is not None and np.may_share_memory(made, row):
        raise ValueError("out: it overlaps the row of named indices")
    numbers = Numbers()
    names = () if row is None else (address(row), row.size)
    buffers = (address(given), given.size, address(made), made.size, byref(numbers))
    raise_if(_CODED[name, row is not None](r, m, *names, *buffers), numbers)
    return made


def encode(
    r: SupportsIndex,
    m: SupportsIndex,
    bits: GivenBits,
    *,
    named: Optional[GivenBits] = None,
    out: Optional[Bits] = None,
) -> Bits:
    """The word of k information bits.

    Args:
        named: a shortened set: n bits, 1 at each information index that is to be 0 as well.
        out: an array of n bytes to write the word to.

    >>> encode(1, 3, [1, 0, 0, 0])
    array([1, 1, 1, 1, 0, 0, 0, 0], dtype=uint8)
    """
    return _coded("encode", _sizes(r, m, named), taken(bits, "bits", 1, ("uint8",)), out)


def inverse(
    r: SupportsIndex,
    m: SupportsIndex,
    word: GivenBits,
    *,
    named: Optional[GivenBits] = None,
    out: Optional[Bits] = None,
) -> Bits:
    """The information bits of a word; refused as 5 where no bits give it.

    >>> inverse(1, 3, [1, 1, 1, 1, 0, 0, 0, 0])
    array([1, 0, 0, 0], dtype=uint8)
    """
    return _coded("inverse", _sizes(r, m, named), taken(word, "word", 1, ("uint8",)), out)


class _Way(NamedTuple):
    """A way from readings to a word: its number in native/rows.c, and its calls."""

    code: int
    plain: Callable[..., int]
    within: Optional[Callable[..., int]] = None
    runner_up: bool = False


_QUICK = _Way(0, call("cinorbis_quick"))
_SEARCH = _Way(1, call("cinorbis_search"), call("cinorbis_search_within"), True)
_EARLY = _Way(2, call("cinorbis_early"), call("cinorbis_early_within"))
_FIRST_ORDER = _Way(3, call("cinorbis_first_order"))
_QUICK_SHORTENED = _Way(4, call("cinorbis_quick_shortened"))
_SEARCH_SHORTENED = _Way(
    5, call("cinorbis_search_shortened"), call("cinorbis_search_within_shortened"), True
)
_SEARCH_FLOAT = _Way(6, call("cinorbis_search_float"), call("cinorbis_search_float_within"), True)


def _one(
    way: _Way, sizes: _Sizes, readings: npt.NDArray[Any], allowed: Optional[SupportsIndex] = None
) -> Found:
    r, m, n, k, row = sizes
    # bits, word and runner-up in one array: one allocation a call
    room = np.zeros(k + n + LARGEST_N, np.uint8)
    at, numbers = address(room), Numbers()
    before: tuple[Any, ...] = (r, m)
    function = way.plain
    if allowed is not None:
        assert way.within
        function, before = way.within, (r, m, allowance(allowed))
    if row is not None:
        before += (address(row), row.size)
    outputs: tuple[Any, ...] = (at, k, at + k, n)
    if way.runner_up:
        outputs += (at + k + n,)
    arguments = (*before, address(readings), readings.size, *outputs, byref(numbers))
    raise_if(awaited(lambda: function(*arguments), 0 if allowed is None else before[2]), numbers)
    fixed(room)
    bits, word, next_best = room[:k], room[k : k + n], room[k + n : 2 * k + n]
    if not way.runner_up:
        next_best = next_best[:0]
    return Found(bits, word, numbers.penalty, numbers.gap, numbers.visits, next_best)


def search(
    r: SupportsIndex,
    m: SupportsIndex,
    readings: GivenReadings,
    *,
    allowed: Optional[SupportsIndex] = None,
    named: Optional[GivenBits] = None,
) -> Found:
    """The one best word for n readings: plus speaks for 0, minus for 1.

    Args:
        readings: int16, or float32 that are whole numbers (not with ``named``).
        allowed: how many visits the walk may take; 200,000 where it is not given.
        named: a shortened set: n bits, 1 at each information index that is to be 0 as well.

    >>> search(1, 2, [5, -2, 3, 1])
    Found(bits='011', word='0101', penalty=1, gap=1, visits=9, runner_up='000')
    """
    if named is not None:
        array = taken(readings, "readings", 1, ("int16",))
        return _one(_SEARCH_SHORTENED, _sizes(r, m, named), array, allowed)
    array = taken(readings, "readings", 1, ("int16", "float32"))
    if array.dtype == np.float32:
        return _one(_SEARCH_FLOAT, _sizes(r, m, None), exact(array), allowed)
    return _one(_SEARCH, _sizes(r, m, None), array, allowed)


def quick(
    r: SupportsIndex,
    m: SupportsIndex,
    readings: GivenReadings,
    *,
    named: Optional[GivenBits] = None,
) -> Found:
    """The quick reading, which may miss the best word: bits, word and penalty.

    >>> weak = [0, 0, 0, -1, 1, 1, 1, 0]
    >>> quick(1, 3, weak).penalty, search(1, 3, weak).penalty
    (1, 0)
    """
    array = taken(readings, "readings", 1, ("int16",))
    return _one(_QUICK if named is None else _QUICK_SHORTENED, _sizes(r, m, named), array)


def early(
    r: SupportsIndex,
    m: SupportsIndex,
    readings: GivenReadings,
    *,
    allowed: Optional[SupportsIndex] = None,
) -> Found:
    """The best word: at once where the quick reading is surely right, else by the search.

    Bits, word and penalty are given. With ``allowed=0`` it never walks: what is not surely right
    is then refused as 6.

    >>> early(1, 2, [-1, 2, 2, 2], allowed=0).word
    array([0, 0, 0, 0], dtype=uint8)
    """
    return _one(_EARLY, _sizes(r, m, None), taken(readings, "readings", 1, ("int16",)), allowed)


def first_order(r: SupportsIndex, m: SupportsIndex, readings: GivenReadings) -> Found:
    """The best word of RM(1,m) without a walk; any r but 1 is refused as 1.

    >>> first_order(1, 2, [5, -2, 3, 1])
    Found(bits='011', word='0101', penalty=1, gap=1, visits=0, runner_up='')
    """
    return _one(_FIRST_ORDER, _sizes(r, m, None), taken(readings, "readings", 1, ("int16",)))


# refusals that are the same for every row
_OF_THE_CALL = (
    Refusal.PARAMETERS,
    Refusal.INPUT_LENGTH,
    Refusal.OUTPUT_LENGTH,
    Refusal.NAMED,
)


def _many(
    way: _Way,
    sizes: _Sizes,
    readings: npt.NDArray[Any],
    allowed: SupportsIndex = DEFAULT_ALLOWANCE,
    threads: Optional[int] = None,
) -> FoundMany:
    r, m, n, k, row = sizes
    limit = allowance(allowed)
    count, width = readings.shape
    if count == 0:  # what would be wrong with every row is wrong with no rows too
        _tried(way, sizes, np.zeros(width, readings.dtype))
    names = np.zeros(1, np.uint8) if row is None else row
    bits, word = np.zeros((count, k), np.uint8), np.zeros((count, n), np.uint8)
    next_best = np.zeros((count, k if way.runner_up else 0), np.uint8)
    numbers, refusals = np.zeros(count, NUMBERS), np.zeros(count, np.uint32)
    rows = call("cinorbis_rows")

    def work(i: int, end: int, stop: int) -> None:
        rows(
            *(way.code, r, m, limit, address(names), names.size),
            *(address(readings) + i * width * readings.itemsize, width),
            *(address(bits) + i * k, k, address(word) + i * n, n),
            *(address(next_best) + i * next_best.shape[1], address(numbers) + i * NUMBERS.itemsize),
            *(address(refusals) + i * refusals.itemsize, end - i, stop),
        )

    spread(work, count, threads, limit if way.within else NO_WALK)
    if count and refusals[0] in _OF_THE_CALL:
        raise Refused(int(refusals[0]))
    fixed(bits, word, next_best, numbers, refusals)
    reported = (numbers["penalty"], numbers["gap"], numbers["visits"])
    return FoundMany(bits, word, *reported, next_best, refusals, numbers["place"])


def _tried(way: _Way, sizes: _Sizes, zeros: npt.NDArray[Any]) -> None:
    """Raises what would be refused of any row of this width."""
    try:
        _one(way, sizes, zeros, 0 if way.within else None)
    except Refused as refused:
        if refused.number in _OF_THE_CALL:
            raise


def search_many(
    r: SupportsIndex,
    m: SupportsIndex,
    readings: GivenReadings,
    *,
    allowed: SupportsIndex = DEFAULT_ALLOWANCE,
    named: Optional[GivenBits] = None,
    threads: Optional[int] = None,
) -> FoundMany:
    """`search` for each row of a 2-D array, in as many threads as there are processors.

    A row that is refused has its number in ``refusal``; what is wrong with all rows (the
    code, their length, the named indices) is raised.

    >>> search_many(1, 2, np.array([[5, -2, 3, 1], [1, 0, 0, 0]], np.int16)).refusal
    array([0, 7], dtype=uint32)
    """
    if named is not None:
        array = taken(readings, "readings", 2, ("int16",))
        return _many(_SEARCH_SHORTENED, _sizes(r, m, named), array, allowed, threads)
    array = taken(readings, "readings", 2, ("int16", "float32"))
    if array.dtype == np.float32:
        return _many(_SEARCH_FLOAT, _sizes(r, m, None), exact(array), allowed, threads)
    return _many(_SEARCH, _sizes(r, m, None), array, allowed, threads)


def quick_many(
    r: SupportsIndex,
    m: SupportsIndex,
    readings: GivenReadings,
    *,
    named: Optional[GivenBits] = None,
    threads: Optional[int] = None,
) -> FoundMany:
    """`quick` for each row of a 2-D array."""
    array = taken(readings, "readings", 2, ("int16",))
    way = _QUICK if named is None else _QUICK_SHORTENED
    return _many(way, _sizes(r, m, named), array, threads=threads)


def early_many(
    r: SupportsIndex,
    m: SupportsIndex,
    readings: GivenReadings,
    *,
    allowed: SupportsIndex = DEFAULT_ALLOWANCE,
    threads: Optional[int] = None,
) -> FoundMany:
    """`early` for each row of a 2-D array."""
    array = taken(readings, "readings", 2, ("int16",))
    return _many(_EARLY, _sizes(r, m, None), array, allowed, threads)


def first_order_many(
    r: SupportsIndex, m: SupportsIndex, readings: GivenReadings, *, threads: Optional[int] = None
) -> FoundMany:
    """`first_order` for each row of a 2-D array."""
    array = taken(readings, "readings", 2, ("int16",))
    return _many(_FIRST_ORDER, _sizes(r, m, None), array, threads=threads)


def _coded_many(name: str, sizes: _Sizes, given: Bits) -> tuple[Bits, Counts, Refusals]:
    """The rows, and the place and refusal of each."""
    r, m, n, k, row = sizes
    count, width = given.shape
    names = np.zeros(max(n, 1), np.uint8) if row is None else row
    out = np.zeros((count, n if name == "encode" else k), np.uint8)
    numbers, refusals = np.zeros(count, NUMBERS), np.zeros(count, np.uint32)
    if count == 0:
        try:
            _coded(name, sizes, np.zeros(width, np.uint8), None)
        except Refused as refused:
            if refused.number in _OF_THE_CALL:
                raise
    rows, wide = call("cinorbis_rows_coded"), out.shape[1]

    def work(i: int, end: int, stop: int) -> None:
        rows(
            *(int(name == "inverse"), r, m, address(names), names.size),
            *(address(given) + i * width, width, address(out) + i * wide, wide),
            *(address(numbers) + i * NUMBERS.itemsize, address(refusals) + i * refusals.itemsize),
            *(end - i, stop),
        )

    spread(work, count, None, NO_WALK)
    if count and refusals[0] in _OF_THE_CALL:
        raise Refused(int(refusals[0]))
    return out, numbers["place"], refusals


def encode_many(
    r: SupportsIndex, m: SupportsIndex, bits: GivenBits, *, named: Optional[GivenBits] = None
) -> Bits:
    """`encode` for each row of a 2-D array.

    A byte that is no bit is refused as 4; ``place`` counts through all rows.

    >>> encode_many(1, 2, np.array([[0, 1, 1], [0, 0, 1]], np.uint8))
    array([[0, 1, 0, 1],
           [1, 1, 1, 1]], dtype=uint8)
    """
    array = taken(bits, "bits", 2, ("uint8",))
    out, places, refusals = _coded_many("encode", _sizes(r, m, named), array)
    if refusals.any():
        row = int(np.argmax(refusals != 0))
        raise Refused(int(refusals[row]), place=row * array.shape[1] + int(places[row]))
    return out


def inverse_many(
    r: SupportsIndex, m: SupportsIndex, word: GivenBits, *, named: Optional[GivenBits] = None
) -> tuple[Bits, Refusals]:
    """`inverse` for each row of a 2-D array: information bits, and each row's refusal or 0."""
    array = taken(word, "word", 2, ("uint8",))
    out, _, refusals = _coded_many("inverse", _sizes(r, m, named), array)
    return out, refusals
