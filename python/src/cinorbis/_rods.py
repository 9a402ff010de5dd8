"""Rod positions: words of RM(1,m) that carry a number and a marker."""

from ctypes import byref, c_uint64
from dataclasses import dataclass
from typing import Any, Optional, SupportsIndex, Union, overload

import numpy as np
import numpy.typing as npt

from ._arrays import Bits, GivenReadings, Readings, address, clean, fixed, taken
from ._header import Refusal
from ._native import Numbers, call, number
from ._refused import Refused, raise_if
from ._shown import Rows, is_number
from ._spread import NO_WALK, spread
from ._words import NUMBERS, Counts, ManyRows, OneRow, Refusals, _length


@dataclass(frozen=True)
class Rod:
    """A rod position.

    Attributes:
        m: of its word, which has 2^m bits; 1 to 8.
        position: 0 to 2^m - 1.

    >>> rod = Rod(m=7, position=93)
    >>> print(rod)
    position 93 of 0 to 127
    >>> readings = rod.readings(100)
    >>> Rod.read(7, readings).rod == rod
    True

    On a link that is turned over it is refused by its marker:

    >>> Rod.read(7, -readings)
    Traceback (most recent call last):
    ...
    cinorbis.Refused: refused 13: the telegram's marker is set, as when the link is turned over

    A word with m = 5 is the word of a telegram, too, and of another length than m no word is read:
    a link that carries both takes another m for the rod.
    """

    m: int
    position: int

    def __post_init__(self) -> None:
        self.word()  # the library's own tests

    def word(self) -> Bits:
        """Its word of RM(1,m), 2^m bits."""
        m, numbers = number(self.m), Numbers()
        word = np.empty(_length(m), np.uint8)
        inputs = (m, number(self.position), address(word), word.size)
        raise_if(call("cinorbis_rod_write")(*inputs, byref(numbers)), numbers)
        return word

    def readings(self, size: SupportsIndex) -> Readings:
        """Its word as clean readings of that size."""
        return clean(self.word(), size)

    def __str__(self) -> str:
        return f"position {self.position} of 0 to {2**self.m - 1}"

    @classmethod
    def read(cls, m: SupportsIndex, readings: GivenReadings) -> "RodRead":
        """The position that 2^m readings show."""
        array = taken(readings, "readings", 1, ("int16",))
        position, numbers, given = c_uint64(), Numbers(), number(m)
        inputs = (given, address(array), array.size)
        raise_if(call("cinorbis_rod_read")(*inputs, byref(position), byref(numbers)), numbers)
        return RodRead(cls(given, position.value), numbers.penalty, numbers.gap)

    @staticmethod
    def read_many(
        m: SupportsIndex, readings: GivenReadings, *, threads: Optional[int] = None
    ) -> "RodsRead":
        """The positions of a 2-D array, 2^m readings a row.

        >>> rods = [Rod(3, 5), Rod(3, 0)]
        >>> Rod.read_many(3, np.stack([rod.readings(9) for rod in rods])).position
        array([5, 0])
        """
        array, given = taken(readings, "readings", 2, ("int16",)), number(m)
        count, width = array.shape
        Rod(given, 0)  # refuses an m that is not from 1 to 8
        raise_if(Refusal.INPUT_LENGTH if width != _length(given) else Refusal.DONE)
        position, numbers = np.zeros(count, np.uint64), np.zeros(count, NUMBERS)
        refusals = np.zeros(count, np.uint32)

        def work(i: int, end: int, stop: int) -> None:
            call("cinorbis_rows_rods")(
                *(given, address(array) + i * width * array.itemsize, width),
                address(position) + i * position.itemsize,
                *(address(numbers) + i * NUMBERS.itemsize, address(refusals) + i * 4),
                *(end - i, stop),
            )

        spread(work, count, threads, NO_WALK)
        whole = np.where(refusals == 0, position.astype(np.int64), -1)
        every = np.full(count, given, np.int64)
        fixed(every, whole, numbers, refusals)
        return RodsRead(every, whole, numbers["penalty"], numbers["gap"], refusals)


@dataclass(frozen=True)
class RodRead:
    """A rod position, and penalty and gap of its word."""

    rod: Rod
    penalty: int
    gap: int


@dataclass(frozen=True, eq=False, repr=False)
class RodsRead(Rows):
    """Many rod positions, an entry for each; ``read[i]`` is one, and ``read[100:200]`` are several.

    Where ``refusal`` is not 0, ``position`` is -1.
    """

    m: npt.NDArray[np.int64]
    position: npt.NDArray[np.int64]
    penalty: Counts
    gap: Counts
    refusal: Refusals

    @overload
    def __getitem__(self, i: OneRow) -> RodRead: ...

    @overload
    def __getitem__(self, i: ManyRows) -> "RodsRead": ...

    def __getitem__(self, i: Any) -> Union[RodRead, "RodsRead"]:
        """Entry i as one position, or several; one raises its refusal, without a place."""
        if not is_number(i):
            return self._some(i)
        penalty, gap = int(self.penalty[i]), int(self.gap[i])
        if self.refusal[i]:
            raise Refused(int(self.refusal[i]), penalty=penalty)
        return RodRead(Rod(int(self.m[i]), int(self.position[i])), penalty, gap)
