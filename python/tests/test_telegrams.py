"""Telegrams: all 24,008 of them, both ways; no face has a signed tilt."""

import numpy as np
import pytest
from conftest import outcome, refuses
from hypothesis import given
from hypothesis import strategies as st

import cinorbis as c
from cinorbis import Telegram

SIDES = ("port", "starboard")


def every():
    for cylinder in range(8):
        yield Telegram(cylinder, 0)
        for hundredths in range(1, 1501):
            for to in SIDES:
                yield Telegram(cylinder, hundredths / 100, to)


def test_all_of_them():
    """Their bits by the table of §11, read back, and refused on a link that is turned over."""
    sent = list(every())
    assert len(sent) == len(set(sent)) == 24008
    words = np.stack([one.word() for one in sent])
    assert len(np.unique(words, axis=0)) == 24008
    fields = [one.cylinder << 13 | (one.to == "port") << 12 | one.hundredths << 1 for one in sent]
    bits = (np.array(fields)[:, None] >> np.arange(15, -1, -1) & 1).astype(np.uint8)
    assert np.array_equal(c.encode_many(2, 5, bits), words)
    assert [Telegram.of_bits(one) for one in bits[::7]] == sent[::7]
    assert np.array_equal(sent[77].bits(), bits[77])
    rows = np.where(words == 1, -3, 3).astype(np.int16)
    read = Telegram.read_many(rows)
    assert len(read) == 24008 and not read.refusal.any() and not read.penalty.any()
    columns = zip(read.cylinder.tolist(), read.tilt.tolist(), read.to.tolist())
    assert [Telegram(cylinder, tilt, to or None) for cylinder, tilt, to in columns] == sent
    assert (read.tilt >= 0).all() and not np.signbit(read.tilt).any()
    over = Telegram.read_many(-rows)
    assert (over.refusal == 13).all() and np.isnan(over.tilt).all() and (over.to == "").all()


@given(st.lists(st.integers(-3, 3), min_size=32, max_size=32))
def test_never_both_ways(readings):
    def refusal(row):
        got = outcome(Telegram.read, row)
        return got.number if isinstance(got, c.Refused) else 0

    one, other = refusal(readings), refusal([-x for x in readings])
    shown = (0, 14, 15)
    assert {one, other} == {7} or (
        (one == 13) == (other in shown) and (other == 13) == (one in shown)
    )


@pytest.mark.parametrize("threads", [1, 2])
def test_many_is_one_by_one(threads):
    draw = np.random.default_rng(2)
    rows = draw.integers(-9, 10, (300, 32)).astype(np.int16)
    rows[7], rows[8, 3] = 0, -32768
    for more in ({}, {"allowed": 150}):
        many = Telegram.read_many(rows, threads=threads, **more)
        for i, row in enumerate(rows):
            one, got = outcome(Telegram.read, row, **more), outcome(many.__getitem__, i)
            if isinstance(one, c.Refused):
                assert (got.number, got.penalty, got.visits) == (
                    one.number,
                    one.penalty,
                    one.visits,
                )
                assert many.refusal[i] == one.number
            else:
                assert got == one
    assert len(Telegram.read_many(rows[:0])) == 0
    for array in (many.cylinder, many.tilt, many.to, many.penalty, many.refusal):
        with pytest.raises(ValueError):
            array[0] = array[1]


def test_refusals():
    refuses(16, lambda: Telegram(8, 0))
    refuses(16, lambda: Telegram(-1, 0))
    refuses(16, lambda: Telegram(2**32, 0))
    refuses(14, lambda: Telegram(0, 15.01, "port"))
    refuses(14, lambda: Telegram(0, 3e9, "starboard"))
    refuses(15, lambda: Telegram(0, 0, "port"))
    refuses(14, lambda: Telegram.of_bits([0] * 4 + [1] * 11 + [0]))
    refuses(15, lambda: Telegram.of_bits([0, 0, 0, 1] + [0] * 12))
    refuses(13, lambda: Telegram.of_bits([0] * 15 + [1]))
    refuses(2, lambda: Telegram.of_bits([0] * 15))
    refuses(4, lambda: Telegram.of_bits([0] * 15 + [2]), place=15)
    refuses(7, lambda: Telegram.read([0] * 32))
    refuses(6, lambda: Telegram.read([1] * 32, allowed=3))
    refuses(4, lambda: Telegram.read([1] * 31 + [-32768]), place=31)
    refuses(2, lambda: Telegram.read([1] * 31))
    refuses(2, lambda: Telegram.read_many(np.zeros((3, 31), np.int16)))


def test_no_signed_tilt():
    for tilt in (-12.34, -0.01, -0.0, -3000, np.float64(-1)):
        for to in (None, *SIDES):
            with pytest.raises(ValueError, match="no sign"):
                Telegram(5, tilt, to)
    for tilt in (0.005, float("nan"), float("inf"), float("-inf")):
        with pytest.raises(ValueError):
            Telegram(0, tilt, "port")
    for to in (None, "", "left", "Port", 1, -1):
        with pytest.raises(ValueError, match="port"):
            Telegram(0, 1, to)
    with pytest.raises(ValueError):
        Telegram(0, 0, "up")


def test_shown():
    assert str(Telegram(5, 12.34, "port")) == "cylinder 5, 12.34 degrees to port"
    assert str(Telegram(3, 0.07, "starboard")) == "cylinder 3, 0.07 degrees to starboard"
    assert str(Telegram(3, 0)) == "cylinder 3, 0.00 degrees"
    assert Telegram(3, 0, "starboard") == Telegram(3, 0) and Telegram(3, 0).to is None
    assert Telegram(3, 0.1 + 0.2, "port") == Telegram(3, 0.3, "port")
    for size in (0, -1, 32768):
        with pytest.raises(ValueError):
            Telegram(3, 0).readings(size)
