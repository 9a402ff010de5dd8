"""What answers share: they are compared and shown entry by entry, and their arrays stay fixed."""

import operator
from dataclasses import fields
from typing import Any, TypeVar

import numpy as np

from ._arrays import fixed, text

_Rows = TypeVar("_Rows", bound="Rows")


class Fixed:
    """Arrays that are read-only, and stay so when it is copied or unpickled."""

    def __setstate__(self, state: dict[str, Any]) -> None:
        """NumPy's own arrays come back writable."""
        fixed(*(value for value in state.values() if isinstance(value, np.ndarray)))
        self.__dict__.update(state)


class Shown(Fixed):
    """Equality entry by entry, and bits as strings where it is shown."""

    def __eq__(self, other: object) -> bool:
        if type(other) is not type(self):
            return NotImplemented
        names = [field.name for field in fields(self)]
        return all(_equal(getattr(self, name), getattr(other, name)) for name in names)

    __hash__ = None  # type: ignore[assignment]

    def __repr__(self) -> str:
        parts = []
        for field in fields(self):
            value = getattr(self, field.name)
            if isinstance(value, np.ndarray):
                bits = value.ndim == 1 and value.dtype == np.uint8
                value = f"'{text(value)}'" if bits else f"<{value.dtype.name}, shape {value.shape}>"
            parts.append(f"{field.name}={value}")
        return f"{type(self).__name__}({', '.join(parts)})"


def _equal(one: Any, other: Any) -> bool:
    floats = isinstance(one, np.ndarray) and one.dtype.kind == "f"
    return bool(np.array_equal(one, other, equal_nan=floats))


class Rows(Shown):
    """Many answers, an entry or a row of each field for each."""

    def __len__(self) -> int:
        return len(getattr(self, fields(self)[0].name))

    def _some(self: _Rows, which: Any) -> _Rows:
        """The rows of a slice, or of a 1-D array or list of numbers or booleans."""
        if not isinstance(which, slice):
            which = np.asarray(which)
            which = which.astype(np.int64) if which.size == 0 else which
            if which.ndim != 1 or which.dtype.kind not in "biu":
                takes = "a row's number, a slice, or a 1-D array of numbers or booleans"
                raise TypeError(f"an index is {takes}")
        names = [field.name for field in fields(self)]
        arrays = [getattr(self, name)[which] for name in names]
        fixed(*arrays)
        return type(self)(*arrays)


def is_number(given: Any) -> bool:
    """Whether an index names one row."""
    try:
        operator.index(given)
    except TypeError:
        return False
    return True
