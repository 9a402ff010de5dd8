"""Position orders: maps as objects."""

from ctypes import byref
from dataclasses import dataclass
from typing import Any, Optional, Union

import numpy as np
import numpy.typing as npt

from ._arrays import Bits, GivenBits, address, fixed, lent, taken, text
from ._header import Refusal
from ._native import Numbers, call, number
from ._refused import Refused, raise_if
from ._shown import Fixed
from ._words import _length


@dataclass(frozen=True, eq=False, repr=False, init=False)
class Map(Fixed):
    """A map of the 2^m positions: position j reads position A·j + b, bits modulo 2.

    ``table`` is A, m by m bits: row p gives bit p, column q reads bit q, bit 0 least. ``row`` is
    b. A map that no map undoes is refused as 11.

    >>> f = Map([[1, 1], [0, 1]], [0, 1])
    >>> f.positions
    array([2, 3, 1, 0])
    >>> f.reorder(np.array([5, -2, 3, 1], np.int16))
    array([ 3,  1, -2,  5], dtype=int16)
    >>> ~f @ f == Map.identity(2)
    True

    ``f @ g`` reorders as f and then g do, in the way that arrays are indexed:
    ``(f @ g).positions`` is ``f.positions[g.positions]``.
    """

    table: Bits
    row: Bits
    __array_ufunc__ = None  # NumPy leaves @ alone: an array is reordered by reorder()

    def __init__(self, table: Any, row: GivenBits) -> None:
        b = taken(row, "row", 1, ("uint8",)).copy()
        if b.size == 0 and hasattr(table, "__len__") and len(table) == 0:
            table = np.empty((0, 0), np.uint8)
        a = taken(table, "table", 2, ("uint8",)).copy()
        undone = np.empty((b.size, b.size), np.uint8), np.empty_like(b)
        _undo(number(b.size), a, b, *undone)  # the library's own tests
        fixed(a, b)
        self._set(a, b)

    def _set(self, table: Bits, row: Bits) -> "Map":
        object.__setattr__(self, "table", table)
        object.__setattr__(self, "row", row)
        return self

    @property
    def m(self) -> int:
        return int(self.row.size)

    @property
    def positions(self) -> npt.NDArray[np.int64]:
        """Which position each position reads: ``x[f.positions]`` is ``f.reorder(x)``."""
        every = np.arange(1 << self.m, dtype=np.int16)
        found: npt.NDArray[np.int64] = self.reorder(every).astype(np.int64)
        return found

    @classmethod
    def identity(cls, m: int) -> "Map":
        """The map that moves nothing."""
        return cls(np.eye(m, dtype=np.uint8), np.zeros(m, np.uint8))

    @classmethod
    def random(cls, m: int, seed: Union[int, np.random.Generator, None] = None) -> "Map":
        """Any map of 2^m positions, each equally likely."""
        draw = np.random.default_rng(seed)
        while True:
            table, row = draw.integers(0, 2, (m, m), np.uint8), draw.integers(0, 2, m, np.uint8)
            try:
                return cls(table, row)
            except Refused as refused:
                if refused.number != Refusal.MAP:
                    raise

    def __invert__(self) -> "Map":
        table, row = np.empty_like(self.table), np.empty_like(self.row)
        _undo(self.m, self.table, self.row, table, row)
        fixed(table, row)
        return Map.__new__(Map)._set(table, row)

    def __matmul__(self, other: object) -> "Map":
        if not isinstance(other, Map):
            return NotImplemented
        table, row = np.empty_like(self.table), np.empty_like(self.row)
        arrays = (self.table, self.row, other.table, other.row, table, row)
        buffers = [one for array in arrays for one in (address(array), array.size)]
        raise_if(call("cinorbis_product_map")(self.m, *buffers, byref(Numbers())))
        fixed(table, row)
        return Map.__new__(Map)._set(table, row)

    def reorder(self, given: Any, *, out: Optional[npt.NDArray[Any]] = None) -> npt.NDArray[Any]:
        """n readings (int16, or a list) or n bits (uint8, or bytes) in the map's order."""
        if isinstance(given, memoryview):
            given = np.asarray(given)
        is_bits = isinstance(given, (bytes, bytearray))
        is_bits |= isinstance(given, np.ndarray) and given.dtype == np.uint8
        kind, what = ("uint8", "word") if is_bits else ("int16", "readings")
        array = taken(given, what, 1, (kind,))
        made = lent(out, "out", (_length(self.m),), kind, array, self.table, self.row)
        arrays = (self.table, self.row, array, made)
        buffers = [one for array in arrays for one in (address(array), array.size)]
        numbers = Numbers()
        reorder = call("cinorbis_reorder_word" if is_bits else "cinorbis_reorder")
        raise_if(reorder(self.m, *buffers, byref(numbers)), numbers)
        return made

    def __eq__(self, other: object) -> bool:
        if not isinstance(other, Map):
            return NotImplemented
        return np.array_equal(self.table, other.table) and np.array_equal(self.row, other.row)

    def __hash__(self) -> int:
        return hash((self.table.tobytes(), self.row.tobytes()))

    def __repr__(self) -> str:
        return f"Map({[text(one) for one in self.table]}, '{text(self.row)}')"


def _undo(m: int, table: Bits, row: Bits, table_out: Bits, row_out: Bits) -> None:
    """Writes the map that undoes a map; raises what the library refuses."""
    arrays = (table, row, table_out, row_out)
    buffers = [one for array in arrays for one in (address(array), array.size)]
    raise_if(call("cinorbis_undo_map")(m, *buffers, byref(Numbers())))
