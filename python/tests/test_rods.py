"""Rod positions: all 510 of them, both ways, and where they meet telegrams."""

import numpy as np
import pytest
from conftest import outcome, refuses
from hypothesis import given
from hypothesis import strategies as st

import cinorbis as c
from cinorbis import Rod, Telegram


def word_of(m, position):
    """By §18 of the rules: 1 where the position has an odd number of ones at the zeros of j."""
    return [bin(position & ~j).count("1") % 2 for j in range(1 << m)]


@pytest.mark.parametrize("m", range(1, 9))
def test_all_of_them(m):
    rods = [Rod(m, position) for position in range(1 << m)]
    words = np.stack([rod.word() for rod in rods])
    assert words.tolist() == [word_of(m, rod.position) for rod in rods]
    rows = np.where(words == 1, -3, 3).astype(np.int16)
    read = Rod.read_many(m, rows)
    assert read.position.tolist() == list(range(1 << m)) and not read.penalty.any()
    assert not read.refusal.any() and [read[i].rod for i in range(1 << m)] == rods
    over = Rod.read_many(m, -rows)
    assert (over.refusal == 13).all() and (over.position == -1).all() and not over.gap.any()
    for rod, row in zip(rods, rows):
        assert Rod.read(m, row).rod == rod and np.array_equal(rod.readings(3), row)
        refuses(13, lambda: Rod.read(m, -row))


@given(st.integers(1, 4), st.data())
def test_never_both_ways(m, data):
    readings = data.draw(st.lists(st.integers(-3, 3), min_size=1 << m, max_size=1 << m))
    one, other = outcome(Rod.read, m, readings), outcome(Rod.read, m, [-x for x in readings])
    kinds = {getattr(got, "number", 0) for got in (one, other)}
    assert kinds in ({0, 13}, {7})
    if kinds == {0, 13}:
        shown, sign = (one, 1) if isinstance(one, c.RodRead) else (other, -1)
        found = c.search(1, m, [sign * x for x in readings])
        assert (shown.penalty, shown.gap) == (found.penalty, found.gap)
        assert shown.rod.position == int("".join(map(str, found.bits[:-1])), 2)


@pytest.mark.parametrize("threads", [1, 2])
def test_many_is_one_by_one(threads):
    draw = np.random.default_rng(2)
    for m in (1, 3, 6):
        rows = draw.integers(-9, 10, (300, 1 << m)).astype(np.int16)
        rows[7], rows[8, 1] = 0, -32768
        many = Rod.read_many(m, rows, threads=threads)
        for i, row in enumerate(rows):
            one, got = outcome(Rod.read, m, row), outcome(many.__getitem__, i)
            if isinstance(one, c.Refused):
                assert (got.number, got.penalty) == (one.number, one.penalty)
                assert many.position[i] == -1
            else:
                assert got == one and many.position[i] == one.rod.position
        assert {0, 4, 7, 13} >= set(many.refusal.tolist()) > {4, 7, 13}
        assert many[100:200] == Rod.read_many(m, rows[100:200])
        assert len(Rod.read_many(m, rows[:0])) == 0


def test_refusals():
    for m in (0, 9, -1, 2**32):
        refuses(1, lambda: Rod(m, 0))
        refuses(1, lambda: Rod.read(m, [1]))
        refuses(1, lambda: Rod.read_many(m, np.ones((2, 1), np.int16)))
    refuses(16, lambda: Rod(3, 8))
    refuses(16, lambda: Rod(3, -1))
    refuses(16, lambda: Rod(8, 2**32))
    refuses(2, lambda: Rod.read(3, [1] * 7))
    refuses(2, lambda: Rod.read_many(3, np.ones((2, 7), np.int16)))
    refuses(4, lambda: Rod.read(2, [1, 2, -32768, 3]), place=2)
    refuses(7, lambda: Rod.read(3, [0] * 8))
    refuses(13, lambda: Rod.read(2, [5, -2, 3, 1]))
    assert Rod.read(2, [-5, 2, -3, -1]) == c.RodRead(Rod(2, 1), 1, 1)
    assert str(Rod(3, 5)) == "position 5 of 0 to 7"
    with pytest.raises(TypeError):
        Rod(3, 1.5)
    with pytest.raises(ValueError, match="size"):
        Rod(3, 5).readings(0)


def test_with_five_they_are_telegrams():
    """All words of RM(1,5) with the marker 0 are those of telegrams: the length has to differ."""
    for position in range(32):
        readings = Rod(5, position).readings(9)
        shown = Telegram.read(readings).telegram
        assert shown.cylinder == 0 and shown.to in (None, "starboard") and shown.tilt <= 10.99
        assert np.array_equal(shown.word(), Rod(5, position).word())
        record = c.Record.first(c.write_record(1, 5, readings))
        assert record.rod().rod == Rod(5, position)
        with pytest.raises(ValueError, match="nothing tells them apart"):
            record.telegram()


def test_records():
    with_rod = c.Record.first(c.write_record(1, 7, Rod(7, 93).readings(400)))
    assert with_rod.rod() == c.RodRead(Rod(7, 93), 0, 64 * 400)
    with pytest.raises(ValueError, match=r"RM\(1,7\) holds no telegrams"):
        with_rod.telegram()
    with_tilt = c.Record.first(c.write_record(2, 5, Telegram(3, 1.5, "port").readings(400)))
    assert with_tilt.telegram().telegram == Telegram(3, 1.5, "port")
    with pytest.raises(ValueError, match=r"RM\(2,5\) holds no rod positions"):
        with_tilt.rod()
    with pytest.raises(ValueError, match=r"RM\(2,4\) holds no telegrams"):
        c.Record.first(c.write_record(2, 4, [1] * 16)).telegram()
