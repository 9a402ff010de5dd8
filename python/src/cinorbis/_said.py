"""What the readings of a record say, as a telegram or a rod position, in words and as tables."""

from typing import Any, NamedTuple, Optional, Union

import numpy as np

from ._arrays import Readings
from ._refused import Refused
from ._rods import Rod
from ._telegrams import Telegram
from ._words import search

# the columns of the desk page's tables (docs/RULES.md, §11 and §18)
TELEGRAMS = "record refusal cylinder tilt_degrees direction penalty gap sure_percent".split()
RODS = "record refusal m position penalty gap sure_percent".split()


class Said(NamedTuple):
    """A telegram or a rod position, or the refusal; and penalty and gap where they are known."""

    r: int
    m: int
    message: Union[Telegram, Rod, None]
    refused: Optional[Refused]
    penalty: Optional[int]
    gap: Optional[int]
    sure: int  # in thousandths

    def __str__(self) -> str:
        return str(self.message or self.refused)


def kind_of(r: int, m: int) -> str:
    """What the words of a code can be."""
    if (r, m) == (2, 5):
        return "telegram"
    return "rod" if r == 1 else ""


def said(r: int, m: int, readings: Readings, allowed: int) -> Said:
    """What readings of a code that `kind_of` names say."""
    message: Union[Telegram, Rod, None] = None
    refused, penalty, gap = None, None, None
    try:
        if r == 1:
            rod = Rod.read(m, readings)
            message, penalty, gap = rod.rod, rod.penalty, rod.gap
        else:
            read = Telegram.read(readings, allowed=allowed)
            message, penalty, gap = read.telegram, read.penalty, read.gap
    except Refused as why:
        refused, (penalty, gap) = why, _known(r, m, readings, allowed)
    return Said(r, m, message, refused, penalty, gap, _sure(r, m, readings, gap or 0))


def _known(r: int, m: int, readings: Readings, allowed: int) -> tuple[Optional[int], Optional[int]]:
    """Penalty and gap of a refused message's word, which the readers do not report."""
    if (r, m) == (2, 5) or r == 1:
        try:
            found = search(r, m, readings, allowed=allowed)
            return found.penalty, found.gap
        except Refused:
            pass
    return None, None


def _sure(r: int, m: int, readings: Readings, gap: int) -> int:
    """How sure an answer is, in thousandths, as the desk page counts it.

    It is the gap as a part of the gap of a record of the same loudness whose readings are all right
    and all of one size: the code's least distance, 2^(m-r), times the mean size.
    """
    total = int(np.abs(readings.astype(np.int64)).sum())
    return min(1000, 1000 * gap * readings.size // (total << (m - r))) if total else 0


def row_of(number: int, one: Said) -> list[Any]:
    """The columns of TELEGRAMS or RODS.

    A tilt has no sign, and its direction is a word; what a refusal does not carry is empty.
    """
    message: list[Any] = ["", "", ""] if one.r == 2 else [one.m, ""]
    if isinstance(one.message, Telegram):
        tilt = f"{one.message.hundredths // 100}.{one.message.hundredths % 100:02}"
        message = [one.message.cylinder, tilt, one.message.to or "level"]
    elif one.message is not None:
        message = [one.m, one.message.position]
    numbers: list[Any] = ["", "", ""]
    if one.gap is not None:
        numbers = [one.penalty, one.gap, f"{one.sure // 10}.{one.sure % 10}"]
    return [number, one.refused.number if one.refused else 0, *message, *numbers]
