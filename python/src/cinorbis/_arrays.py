"""What goes into the library's buffers and comes out, tested so that no call gets wrong memory."""

from typing import Any, Sequence, SupportsIndex, Union

import numpy as np
import numpy.typing as npt

from ._header import LARGEST_READING

Bits = npt.NDArray[np.uint8]
Readings = npt.NDArray[np.int16]
Floats = npt.NDArray[np.float32]
GivenBits = Union[Bits, Sequence[int], bytes, bytearray, memoryview]
GivenReadings = Union[Readings, Floats, Sequence[int], memoryview]

# by type and this machine's byte order: the other order has another key
_NAMES = {np.dtype(name): name for name in ("uint8", "int16", "float32")}
# what represents a whole number that does not fit: the library refuses it, at its place
_NO_ENTRY = {"uint8": 255, "int16": -32768}


def _whole_numbers(given: Any, what: str, kind: str) -> npt.NDArray[Any]:
    """Python's whole numbers as an array."""
    wide = np.asarray(given, dtype=object)
    low, high = np.iinfo(kind).min, np.iinfo(kind).max
    for value in wide.flat:
        if isinstance(value, bool) or not isinstance(value, (int, np.integer)):
            hint = "floats are taken as a NumPy array of float32, by search alone"
            raise TypeError(f"{what}: {value!r} is not a whole number; {hint}")
    fit = [value if low <= value <= high else _NO_ENTRY[kind] for value in wide.flat]
    return np.array(fit, dtype=kind).reshape(wide.shape)


def taken(given: Any, what: str, dimensions: int, kinds: tuple[str, ...]) -> npt.NDArray[Any]:
    """The array to hand to the library, which is the given one, not a copy.

    It has to be one of ``kinds`` in this machine's byte order, with its entries side by side.
    A list of whole numbers becomes an array of the first kind.
    """
    if (
        type(given) is np.ndarray
        and given.ndim == dimensions
        and _NAMES.get(given.dtype) in kinds
        and given.flags.c_contiguous
        and given.flags.aligned
    ):
        return given
    if isinstance(given, (bytes, bytearray)) and "uint8" in kinds:
        given = np.frombuffer(given, np.uint8) if len(given) else np.empty(0, np.uint8)
    if isinstance(given, memoryview):
        given = np.asarray(given)  # with its own element type, which is looked at below
    if not isinstance(given, np.ndarray):
        if isinstance(given, (str, dict, set)) or not hasattr(given, "__len__"):
            name = type(given).__name__
            raise TypeError(f"{what}: {name} is neither a NumPy array nor a list of whole numbers")
        given = _whole_numbers(given, what, kinds[0])
        if given.size == 0 and given.ndim < dimensions:
            given = given.reshape((0,) * dimensions)
    if isinstance(given, np.ma.MaskedArray):
        hint = ".filled(0) makes masked readings speak for neither bit"
        raise TypeError(f"{what}: a masked array; {hint}")
    return _fitting(given, what, dimensions, kinds)


def _fitting(
    array: npt.NDArray[Any], what: str, dimensions: int, kinds: tuple[str, ...]
) -> npt.NDArray[Any]:
    """The array, or an error that says what is wrong with it and what helps."""
    native = array.dtype.newbyteorder("=").name
    size = array.dtype.itemsize
    if array.ndim != dimensions:
        wanted = {1: "one row", 2: "rows, a 2-D array"}[dimensions]
        raise ValueError(f"{what}: the shape is {array.shape}; it has to be {wanted}")
    if native in kinds and not array.dtype.isnative:
        hint = f".astype('{native}') turns it"
        raise TypeError(f"{what}: {array.dtype.str} has the other byte order; {hint}")
    if array.dtype.name not in kinds:
        wanted = " or ".join(kinds)
        hint = "; readings_of makes readings of real values" if array.dtype.kind == "f" else ""
        raise TypeError(f"{what}: the type is {array.dtype.name}; it has to be {wanted}{hint}")
    if not array.flags.c_contiguous:
        hint = "numpy.ascontiguousarray makes a copy that does"
        raise ValueError(
            f"{what}: its entries do not lie side by side (strides {array.strides}); {hint}"
        )
    if not array.flags.aligned:
        hint = ".copy() makes an array that does"
        raise ValueError(f"{what}: its entries do not lie at multiples of {size} bytes; {hint}")
    return array


def exact(readings: npt.NDArray[Any]) -> npt.NDArray[Any]:
    """Floats, with NaN in place of any fraction below 2^-126, so that the library refuses it.

    In the default float mode it does so anyway. But any library of this process that was built
    with -ffast-math may have set the mode in which such a fraction is taken for 0. Bits are not
    subject to a mode.
    """
    size = readings.view(np.uint32) & 0x7FFFFFFF
    tiny = (size != 0) & (size < 0x00800000)
    return np.where(tiny, np.float32("nan"), readings) if tiny.any() else readings


def lent(
    out: Any, what: str, shape: tuple[int, ...], kind: str, *inputs: npt.NDArray[Any]
) -> npt.NDArray[Any]:
    """The array that a call may write: a new one, or the caller's after every test."""
    if out is None:
        return np.empty(shape, kind)
    if not isinstance(out, np.ndarray):
        raise TypeError(f"{what}: {type(out).__name__} is not a NumPy array")
    array = taken(out, what, len(shape), (kind,))
    if not array.flags.writeable:
        raise ValueError(f"{what}: the array is read-only")
    if any(np.may_share_memory(array, one) for one in inputs):
        raise ValueError(f"{what}: it overlaps an input")
    return array


def fixed(*arrays: npt.NDArray[Any]) -> None:
    """Makes arrays read-only."""
    for array in arrays:
        array.flags.writeable = False


def clean(word: Bits, size: SupportsIndex) -> Readings:
    """A word as clean readings of that size."""
    given = int(size)
    if not 1 <= given <= LARGEST_READING:
        raise ValueError(f"size is {given}; it has to be from 1 to {LARGEST_READING}")
    return np.where(word == 1, -given, given).astype(np.int16)


def address(array: npt.NDArray[Any]) -> int:
    """The address of an array: never null, even if it has no entries."""
    found: int = array.__array_interface__["data"][0]  # as .ctypes.data, which takes longer
    assert found
    return found


def text(bits: Bits) -> str:
    """Bits as a string, [0] leftmost."""
    return (bits + 48).tobytes().decode("ascii")
