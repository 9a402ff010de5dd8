"""Cinorbis: a proved decoder of Reed-Muller codes, over NumPy arrays.

>>> search(1, 2, [5, -2, 3, 1])
Found(bits='011', word='0101', penalty=1, gap=1, visits=9, runner_up='000')

RM(r,m), 0 <= r <= m <= 8, has words of n = 2^m bits. A reading is a signed number for each bit,
int16: plus speaks for 0, minus for 1, and the size says how sure the modem is. An array of another
type, byte order or stride is a TypeError or ValueError, never a silent copy; what the library
refuses is `Refused`, with the number of the rules.
"""

from ._captures import (
    Answer,
    Capture,
    Index,
    Record,
    index_of,
    record_length,
    unpack,
    write_record,
    write_record_into,
)
from ._header import DEFAULT_ALLOWANCE, VERSION, Refusal
from ._maps import Map
from ._refused import Refused
from ._release import RELEASE
from ._rods import Rod, RodRead, RodsRead
from ._soft import Rounded, readings_of
from ._telegrams import Telegram, TelegramRead, TelegramsRead
from ._words import (
    Found,
    FoundMany,
    dimension,
    early,
    early_many,
    encode,
    encode_many,
    first_order,
    first_order_many,
    inverse,
    inverse_many,
    length,
    quick,
    quick_many,
    search,
    search_many,
)

__version__ = f"{VERSION}.{RELEASE}"
__all__ = [
    "Answer",
    "Capture",
    "DEFAULT_ALLOWANCE",
    "Found",
    "FoundMany",
    "Index",
    "Map",
    "Record",
    "Refusal",
    "Refused",
    "Rod",
    "RodRead",
    "RodsRead",
    "Rounded",
    "Telegram",
    "TelegramRead",
    "TelegramsRead",
    "VERSION",
    "dimension",
    "early",
    "early_many",
    "encode",
    "encode_many",
    "first_order",
    "first_order_many",
    "index_of",
    "inverse",
    "inverse_many",
    "length",
    "quick",
    "quick_many",
    "readings_of",
    "record_length",
    "search",
    "search_many",
    "unpack",
    "write_record",
    "write_record_into",
]
