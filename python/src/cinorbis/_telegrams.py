"""The tilt telegram. A tilt has no sign here: its direction is a word, "port" or "starboard"."""

import math
from ctypes import byref
from dataclasses import dataclass
from typing import Any, Optional, SupportsIndex, Union, overload

import numpy as np
import numpy.typing as npt

from ._arrays import Bits, GivenBits, GivenReadings, Readings, address, clean, fixed, taken
from ._header import DEFAULT_ALLOWANCE, STRUCTS, Refusal
from ._native import Numbers, allowance, call, number, struct
from ._refused import Refused, raise_if
from ._shown import Rows, is_number
from ._spread import spread
from ._words import NUMBERS, Counts, ManyRows, OneRow, Refusals, inverse

_Fields = struct("telegram")
_FIELDS = np.dtype([(field, np.uint64) for field in STRUCTS["telegram"]])
_LENGTH = 32  # readings of RM(2,5)


@dataclass(frozen=True)
class Telegram:
    """What a tilt head says.

    Attributes:
        cylinder: 0 to 7.
        tilt: in degrees, 0 to 15 in steps of 0.01, never negative.
        to: ``"port"`` or ``"starboard"``; None where the tilt is zero.

    >>> telegram = Telegram(cylinder=5, tilt=12.34, to="port")
    >>> print(telegram)
    cylinder 5, 12.34 degrees to port
    >>> readings = telegram.readings(100)
    >>> Telegram.read(readings).telegram == telegram
    True

    On a link that is turned over it is refused by its marker:

    >>> Telegram.read(-readings)
    Traceback (most recent call last):
    ...
    cinorbis.Refused: refused 13: the telegram's marker is set, as when the link is turned over
    """

    cylinder: int
    tilt: float
    to: Optional[str] = None

    def __post_init__(self) -> None:
        tilt = float(self.tilt)
        if not math.isfinite(tilt):
            raise ValueError(f"the tilt is {tilt}; it has to be a number of degrees")
        if math.copysign(1, tilt) < 0:
            hint = 'its direction is a word, to="port" or to="starboard"'
            raise ValueError(f"the tilt is {tilt}; a tilt has no sign: {hint}")
        if tilt < 1e9 and abs(tilt * 100 - round(tilt * 100)) > 1e-6:
            hint = "round(tilt, 2) makes it one"
            raise ValueError(f"the tilt is {tilt}; it is no multiple of 0.01 degrees; {hint}")
        hundredths = round(tilt * 100)
        if self.to not in ("port", "starboard") and not (self.to is None and hundredths == 0):
            raise ValueError(f'to is {self.to!r}; it has to be "port" or "starboard"')
        object.__setattr__(self, "tilt", hundredths / 100)
        self.word()  # the library's own tests
        if hundredths == 0:
            object.__setattr__(self, "to", None)

    @property
    def hundredths(self) -> int:
        """The tilt in hundredths of a degree."""
        return round(self.tilt * 100)

    def word(self) -> Bits:
        """Its word of RM(2,5), 32 bits."""
        word, numbers = np.empty(_LENGTH, np.uint8), Numbers()
        fields = (number(self.cylinder), int(self.to == "port"), number(self.hundredths))
        write = call("cinorbis_telegram_write")
        raise_if(write(*fields, address(word), word.size, byref(numbers)), numbers)
        return word

    def bits(self) -> Bits:
        """Its 16 information bits."""
        return inverse(2, 5, self.word())

    def readings(self, size: SupportsIndex) -> Readings:
        """Its word as clean readings of that size."""
        return clean(self.word(), size)

    def __str__(self) -> str:
        tilt = f"{self.hundredths // 100}.{self.hundredths % 100:02}"
        return f"cylinder {self.cylinder}, {tilt} degrees" + (f" to {self.to}" if self.to else "")

    @classmethod
    def read(
        cls, readings: GivenReadings, *, allowed: Optional[SupportsIndex] = None
    ) -> "TelegramRead":
        """The telegram that 32 readings show."""
        array = taken(readings, "readings", 1, ("int16",))
        fields, numbers = _Fields(), Numbers()
        buffers = (address(array), array.size, byref(fields), byref(numbers))
        if allowed is None:
            refusal = call("cinorbis_telegram_read")(*buffers)
        else:
            refusal = call("cinorbis_telegram_read_within")(allowance(allowed), *buffers)
        raise_if(refusal, numbers)
        return TelegramRead(cls._of(fields), numbers.penalty, numbers.gap, numbers.visits)

    @classmethod
    def of_bits(cls, bits: GivenBits) -> "Telegram":
        """The telegram of 16 information bits.

        >>> print(Telegram.of_bits([1, 0, 1, 1, 1, 0, 0, 1, 1, 0, 1, 0, 0, 1, 0, 0]))
        cylinder 5, 12.34 degrees to port
        """
        array = taken(bits, "bits", 1, ("uint8",))
        fields, numbers = _Fields(), Numbers()
        of_bits = call("cinorbis_telegram_of_bits")
        raise_if(of_bits(address(array), array.size, byref(fields), byref(numbers)), numbers)
        return cls._of(fields)

    @classmethod
    def _of(cls, fields: Any) -> "Telegram":
        tilt, to = fields.tilt / 100, "port" if fields.direction else "starboard"
        return cls(fields.cylinder, tilt, to if fields.tilt else None)

    @staticmethod
    def read_many(
        readings: GivenReadings,
        *,
        allowed: SupportsIndex = DEFAULT_ALLOWANCE,
        threads: Optional[int] = None,
    ) -> "TelegramsRead":
        """The telegrams of a 2-D array, 32 readings a row.

        >>> one, other = Telegram(1, 2.5, "port"), Telegram(1, 0.5, "starboard")
        >>> read = Telegram.read_many(np.stack([one.readings(9), other.readings(9)]))
        >>> read.tilt, read.to
        (array([2.5, 0.5]), array(['port', 'starboard'], dtype='<U9'))
        """
        array = taken(readings, "readings", 2, ("int16",))
        limit = allowance(allowed)
        count, width = array.shape
        raise_if(Refusal.INPUT_LENGTH if width != _LENGTH else 0)
        fields, numbers = np.zeros(count, _FIELDS), np.zeros(count, NUMBERS)
        refusals = np.zeros(count, np.uint32)

        def work(i: int, end: int, stop: int) -> None:
            call("cinorbis_rows_telegrams")(
                *(limit, address(array) + i * width * array.itemsize, width),
                *(address(fields) + i * _FIELDS.itemsize, address(numbers) + i * NUMBERS.itemsize),
                *(address(refusals) + i * refusals.itemsize, end - i, stop),
            )

        spread(work, count, threads, min(limit, DEFAULT_ALLOWANCE))  # above RM(2,5)'s whole tree
        tilt = np.where(refusals == 0, fields["tilt"] / 100, np.nan)
        sides = np.where(fields["direction"] == 1, "port", "starboard")
        to = np.where(fields["tilt"] == 0, "", sides)
        cylinder = fields["cylinder"].astype(np.int64)
        fixed(cylinder, tilt, to, numbers, refusals)
        found = (numbers["penalty"], numbers["gap"], numbers["visits"])
        return TelegramsRead(cylinder, tilt, to, *found, refusals)


@dataclass(frozen=True)
class TelegramRead:
    """A telegram, and the penalty, gap and visits of the search for its word."""

    telegram: Telegram
    penalty: int
    gap: int
    visits: int


@dataclass(frozen=True, eq=False, repr=False)
class TelegramsRead(Rows):
    """Many telegrams, an entry for each; ``read[i]`` is one, and ``read[100:200]`` are several.

    Where ``refusal`` is not 0, ``tilt`` is NaN and ``to`` empty; ``to`` is empty for a tilt of
    zero too.
    """

    cylinder: npt.NDArray[np.int64]
    tilt: npt.NDArray[np.float64]
    to: npt.NDArray[np.str_]
    penalty: Counts
    gap: Counts
    visits: Counts
    refusal: Refusals

    @overload
    def __getitem__(self, i: OneRow) -> TelegramRead: ...

    @overload
    def __getitem__(self, i: ManyRows) -> "TelegramsRead": ...

    def __getitem__(self, i: Any) -> Union[TelegramRead, "TelegramsRead"]:
        """Entry i as one telegram, or several; one raises its refusal, without a place."""
        if not is_number(i):
            return self._some(i)
        penalty, gap, visits = int(self.penalty[i]), int(self.gap[i]), int(self.visits[i])
        if self.refusal[i]:
            raise Refused(int(self.refusal[i]), penalty=penalty, visits=visits)
        to = str(self.to[i]) or None
        telegram = Telegram(int(self.cylinder[i]), float(self.tilt[i]), to)
        return TelegramRead(telegram, penalty, gap, visits)
