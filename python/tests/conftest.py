"""Shared by the tests: how Hypothesis draws, and outcomes in place of exceptions."""

import numpy as np
import pytest
from hypothesis import settings

import cinorbis as c

settings.register_profile("cinorbis", deadline=None, max_examples=150, derandomize=True)
settings.load_profile("cinorbis")


def outcome(call, *given, **more):
    """What a call returns, or its refusal."""
    try:
        return call(*given, **more)
    except c.Refused as refused:
        return refused


def refuses(number, call, place=0):
    """That a call is refused so."""
    with pytest.raises(c.Refused) as caught:
        call()
    assert (caught.value.number, caught.value.place) == (number, place)
    assert str(caught.value).startswith(f"refused {number}: ")


def packed(r, m, readings):
    """The bytes of a record, by §7 of the rules."""
    bits = f"{m:04b}{r:04b}" + "".join(f"{int(x) & 4095:012b}" for x in readings)
    bits += "0" * (-len(bits) % 8)
    return bytes(int(bits[i : i + 8], 2) for i in range(0, len(bits), 8))


def some(count, seed=3, most=5):
    """Codes with readings that a record holds."""
    draw = np.random.default_rng(seed)
    for _ in range(count):
        m = int(draw.integers(0, most + 1))
        yield int(draw.integers(0, m + 1)), m, draw.integers(-2047, 2048, 1 << m).astype(np.int16)
