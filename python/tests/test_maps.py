"""Maps of positions: the laws of a group, and that the best word follows."""

import numpy as np
import pytest
import reference as ref
from conftest import outcome, refuses
from hypothesis import given
from hypothesis import strategies as st

import cinorbis as c
from cinorbis import Map

seeds = st.integers(0, 2**32)


def positions(f):
    """A·j + b for each j, by §12."""
    j = np.arange(1 << f.m)[:, None] >> np.arange(f.m) & 1
    return ((j @ f.table.T.astype(int) + f.row) % 2) @ (1 << np.arange(f.m))


@given(st.integers(0, 8), seeds)
def test_laws(m, seed):
    draw = np.random.default_rng(seed)
    f, g, h = (Map.random(m, draw) for _ in range(3))
    one = Map.identity(m)
    x = draw.integers(-32767, 32768, 1 << m).astype(np.int16)
    w = draw.integers(0, 2, 1 << m).astype(np.uint8)
    assert np.array_equal(f.positions, positions(f))
    assert sorted(f.positions) == list(range(1 << m))
    assert np.array_equal(f.reorder(x), x[positions(f)])
    assert np.array_equal(f.reorder(w), w[positions(f)])
    assert np.array_equal((f @ g).reorder(x), g.reorder(f.reorder(x)))
    assert np.array_equal((f @ g).positions, f.positions[g.positions])
    assert f @ ~f == ~f @ f == one and ~~f == f and f @ one == one @ f == f
    assert (f @ g) @ h == f @ (g @ h) and ~(f @ g) == ~g @ ~f and hash(~~f) == hash(f)


@given(st.sampled_from([(1, 3), (2, 3), (1, 4), (2, 4), (0, 2)]), seeds)
def test_the_best_word_follows(code, seed):
    r, m = code
    draw = np.random.default_rng(seed)
    f = Map.random(m, draw)
    x = draw.integers(-9, 10, 1 << m).astype(np.int16)
    old, new = outcome(c.search, r, m, x), outcome(c.search, r, m, f.reorder(x))
    if isinstance(old, c.Refused):
        assert (new.number, new.penalty) == (7, old.penalty) == (7, ref.best(r, m, x)[2])
    else:
        assert np.array_equal(new.word, f.reorder(old.word))
        assert (new.penalty, new.gap) == (old.penalty, old.gap)


def test_refusals():
    refuses(11, lambda: Map([[1, 1], [1, 1]], [0, 0]))
    refuses(11, lambda: Map([[2, 1], [0, 1]], [0, 0]))
    refuses(11, lambda: Map([[1, 1], [0, 1]], [0, 2]))
    refuses(2, lambda: Map([[1, 1]], [0, 0]))
    refuses(1, lambda: Map.identity(9))
    refuses(2, lambda: Map.identity(2) @ Map.identity(3))
    refuses(2, lambda: Map.identity(2).reorder([1, 2, 3]))
    refuses(3, lambda: Map.identity(1).reorder([1, 2], out=np.zeros(3, np.int16)))
    refuses(4, lambda: Map.identity(1).reorder([1, -32768]), place=1)
    refuses(4, lambda: Map.identity(1).reorder(np.array([1, 2], np.uint8)), place=1)
    with pytest.raises(TypeError):
        Map.identity(2) @ np.zeros(4)
    with pytest.raises(TypeError, match="float32"):
        Map.identity(2).reorder(np.zeros(4, np.float32))
    with pytest.raises(ValueError, match="table"):
        Map([1, 0], [0, 0])
    with pytest.raises(ValueError):
        Map.identity(2).table[0, 0] = 0
    assert Map.identity(2) != 5 and repr(Map.identity(2)) == "Map(['10', '01'], '00')"
