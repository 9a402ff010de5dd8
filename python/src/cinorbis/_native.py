"""The shared object, found beside this file; its version is compared, its calls are typed."""

import ctypes
import operator
from pathlib import Path
from typing import Any, Callable, SupportsIndex

from ._header import CALLS, STRUCTS, VERSION

NAME = f"libcinorbis.so.{VERSION}"  # not plain .so, which Python would take for a module of its own
_KINDS: dict[str, Any] = {"u": ctypes.c_uint32, "s": ctypes.c_uint64, "p": ctypes.c_void_p}

# native/rows.c, in the same letters; a dot: nothing is returned
_ROWS = {
    "cinorbis_rows": ".uuuupspspspspppsp",
    "cinorbis_rows_coded": ".uuupspspsppsp",
    "cinorbis_rows_telegrams": ".upspppsp",
    "cinorbis_rows_rods": ".upspppsp",
    "cinorbis_rows_records": "sups" + 7 * "p" + "sp",
}


def _load() -> ctypes.CDLL:
    path = Path(__file__).with_name(NAME)
    try:
        library = ctypes.CDLL(str(path))
    except OSError as error:
        raise ImportError(f"cinorbis: {path} cannot be loaded on this machine: {error}") from error
    for name, kinds in {**CALLS, **_ROWS}.items():
        try:
            function = getattr(library, name)
        except AttributeError:
            message = f"cinorbis: {path} has no {name}: it is not the library of this package"
            raise ImportError(message) from None
        function.restype = None if kinds[0] == "." else _KINDS[kinds[0]]
        function.argtypes = [_KINDS[kind] for kind in kinds[1:]]
    found = library.cinorbis_version()
    if found != VERSION:
        raise ImportError(f"cinorbis: {path} has version {found}, this package needs {VERSION}")
    return library


_library = _load()


def call(name: str) -> Callable[..., int]:
    """The C call of that name."""
    found: Callable[..., int] = getattr(_library, name)
    return found


def struct(name: str) -> Any:
    """The header's struct of that name, all of whose fields have 64 bits, as a ctypes type."""
    fields = [(field, ctypes.c_uint64) for field in STRUCTS[name]]
    return type(name, (ctypes.Structure,), {"_fields_": fields})


Numbers = struct("numbers")


def number(value: SupportsIndex) -> int:
    """A number for a uint32_t argument.

    What does not fit becomes the largest, which every call refuses; ctypes would cut it in silence.
    """
    given = operator.index(value)
    return given if 0 <= given <= 0xFFFFFFFF else 0xFFFFFFFF


def allowance(value: SupportsIndex) -> int:
    """An allowance of visits: any 32-bit number."""
    given = operator.index(value)
    if not 0 <= given <= 0xFFFFFFFF:
        raise ValueError(f"allowed is {given}; an allowance of visits is from 0 to {0xFFFFFFFF}")
    return given
