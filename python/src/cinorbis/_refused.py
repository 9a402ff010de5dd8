"""The one exception for what the library refuses."""

from typing import Any

from ._header import TEXTS, Refusal


class Refused(Exception):
    """The library refused a call: the number of the refusal, and what it carries.

    >>> import cinorbis
    >>> try:
    ...     cinorbis.search(1, 2, [1, 0, 0, 0])
    ... except cinorbis.Refused as refused:
    ...     print(refused.number, refused.name, refused.penalty, refused.visits)
    7 TIED 0 9

    Attributes:
        number: as the C header counts them, 1 and up; `Refusal` has their names.
        name: the header's name of it, such as ``"TIED"``.
        text: the header's sentence.
        place: the lowest wrong entry (4) or frozen index (5), else 0.
        penalty: the least penalty under 7, else 0.
        visits: those of the walk under 7, the allowance under 6, else 0.
    """

    def __init__(self, number: int, place: int = 0, penalty: int = 0, visits: int = 0) -> None:
        super().__init__(int(number), place, penalty, visits)
        self.number = int(number)
        self.place = place
        self.penalty = penalty
        self.visits = visits

    @property
    def name(self) -> str:
        return Refusal(self.number).name if self.number in TEXTS else "UNKNOWN"

    @property
    def text(self) -> str:
        return TEXTS.get(self.number, "no refusal has this number")

    def __str__(self) -> str:
        carried: dict[int, str] = {
            Refusal.ENTRY: f" (place {self.place})",
            Refusal.NOT_A_WORD: f" (index {self.place})",
            Refusal.OUT_OF_VISITS: f" (allowed: {self.visits})",
            Refusal.TIED: f" (penalty {self.penalty}, {self.visits} visits)",
        }
        return f"refused {self.number}: {self.text}{carried.get(self.number, '')}"

    def __repr__(self) -> str:
        carried = f"place={self.place}, penalty={self.penalty}, visits={self.visits}"
        return f"Refused({self.number}, {self.name}, {carried})"

    def __eq__(self, other: object) -> bool:
        return isinstance(other, Refused) and self.args == other.args

    def __hash__(self) -> int:
        return hash(self.args)


Refused.__module__ = "cinorbis"  # the name that a caller writes is the one that a traceback shows


def raise_if(refusal: int, numbers: Any = None) -> None:
    """Raises the refusal, with the library's numbers where the call gave some; 0 is none."""
    if refusal:
        if numbers is None:
            raise Refused(refusal)
        raise Refused(refusal, numbers.place, numbers.penalty, numbers.visits)
