"""Readings of real soft values."""

from dataclasses import dataclass
from typing import Any, SupportsFloat, SupportsIndex

import numpy as np
import numpy.typing as npt

from ._arrays import Readings, fixed
from ._header import LARGEST_READING
from ._shown import Shown


@dataclass(frozen=True, eq=False, repr=False)
class Rounded(Shown):
    """Readings made of real values, and how far they are from them.

    Attributes:
        readings: int16, one for each value.
        change: of each row, the sum of the sizes of all differences between readings and scaled
            values. A gap above it means that the word found is the best one for the values too:
            readings have to change by the gap, all together, before another word is found.
    """

    readings: Readings
    change: npt.NDArray[np.float64]


def readings_of(
    values: Any, scale: SupportsFloat, *, largest: SupportsIndex = LARGEST_READING
) -> Rounded:
    """Real soft values times ``scale``, rounded to readings and clipped at ``largest``.

    A scale that makes a clean value some hundreds keeps what a modem's values tell. For a capture
    ``largest`` is 2,047.

    >>> values = [0.52, -0.213, 0.3, 0.1]
    >>> rounded = readings_of(values, 100)
    >>> rounded.readings
    array([ 52, -21,  30,  10], dtype=int16)
    >>> float(rounded.change.round(3))
    0.3
    """
    most, factor = int(largest), float(scale)
    if not 1 <= most <= LARGEST_READING:
        raise ValueError(f"largest is {most}; it has to be from 1 to {LARGEST_READING}")
    if not 0 < factor < np.inf:
        hint = "a negative one would turn every bit over"
        raise ValueError(f"scale is {factor}; it has to be a number above 0: {hint}")
    wide = np.asarray(values)
    if wide.dtype.kind not in "fiu" or wide.ndim == 0:
        raise TypeError(f"values: real numbers in rows are needed, not {type(values).__name__}")
    scaled = wide.astype(np.float64) * factor
    if np.isnan(scaled).any():
        place = int(np.flatnonzero(np.isnan(scaled))[0])
        hint = "0 in its place speaks for neither bit"
        raise ValueError(f"values: the one at place {place} is not a number; {hint}")
    whole = np.clip(np.rint(scaled), -most, most)
    readings, change = whole.astype(np.int16), np.asarray(np.abs(whole - scaled).sum(axis=-1))
    fixed(readings, change)
    return Rounded(readings, change)
