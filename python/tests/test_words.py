"""Words and searches against brute force and the walk by its text; rows against single calls."""

import os
import signal
import subprocess
import sys
import threading
import time

import numpy as np
import pytest
import reference as ref
from conftest import outcome, refuses
from hypothesis import given, settings
from hypothesis import strategies as st

import cinorbis as c

MOST = 2**32 - 1
SMALL = [(r, m) for m in range(9) for r in range(m + 1) if len(ref.kinds(r, m)) <= 12]
WALKED = [(r, m) for r, m in SMALL if m <= 4]


@st.composite
def code_and_readings(draw, codes=SMALL):
    r, m = draw(st.sampled_from(codes))
    size = draw(st.sampled_from((1, 3, 40, 2047, 32767)))
    row = draw(st.lists(st.integers(-size, size), min_size=1 << m, max_size=1 << m))
    return r, m, np.array(row, np.int16)


@st.composite
def row_of_names(draw, r, m):
    indices = ref.kinds(r, m)
    named = draw(st.sets(st.sampled_from(indices), max_size=len(indices) - 1))
    return np.array([i in named for i in range(1 << m)], np.uint8)


def is_brute_force(found, r, m, readings, named=None):
    """That an outcome is the best word, or the tie; whether it is a word."""
    bits, word, penalty, gap = ref.best(r, m, readings, named)
    if gap == 0:
        assert (found.number, found.penalty) == (7, penalty)
        return False
    assert np.array_equal(found.bits, bits) and np.array_equal(found.word, word)
    assert found.penalty == penalty
    return True


@pytest.mark.parametrize("r, m", SMALL)
def test_every_word(r, m):
    bits, words = ref.every_word(r, m)
    assert c.length(m) == words.shape[1] and c.dimension(r, m) == bits.shape[1]
    assert np.array_equal(c.encode_many(r, m, bits), words)
    back, refusals = c.inverse_many(r, m, words)
    assert np.array_equal(back, bits) and not refusals.any()
    for i in {0, 1, len(bits) // 2, len(bits) - 1}:
        assert np.array_equal(c.encode(r, m, bits[i]), words[i])
        assert np.array_equal(c.inverse(r, m, words[i]), bits[i])


@given(code_and_readings())
def test_search_is_brute_force(case):
    r, m, readings = case
    found = outcome(c.search, r, m, readings, allowed=MOST)
    if is_brute_force(found, r, m, readings):
        assert found.gap == ref.best(r, m, readings)[3] > 0
        next_best = c.encode(r, m, found.runner_up)
        assert ref.penalty(readings, next_best) == found.penalty + found.gap
    assert outcome(c.search, r, m, readings.astype(np.float32), allowed=MOST) == found
    is_brute_force(outcome(c.early, r, m, readings, allowed=MOST), r, m, readings)
    if r == 1:
        first = outcome(c.first_order, r, m, readings)
        if is_brute_force(first, r, m, readings):
            assert first.gap == found.gap


@given(code_and_readings(WALKED), st.integers(0, 60))
@settings(max_examples=80)
def test_the_walk(case, allowed):
    r, m, readings = case
    held, visits, _ = ref.walk(r, m, readings)
    found = outcome(c.search, r, m, readings, allowed=MOST)
    assert found.visits == visits
    if isinstance(found, c.Found):
        assert found.runner_up.tolist() == [held[1][1][i] for i in ref.kinds(r, m)]
    within = outcome(c.search, r, m, readings, allowed=allowed)
    if allowed < visits:
        assert (within.number, within.visits, within.penalty) == (6, allowed, 0)
    else:
        assert within == found  # a larger allowance changes nothing
    if visits <= c.DEFAULT_ALLOWANCE:
        assert outcome(c.search, r, m, readings) == found
        assert outcome(c.search, r, m, readings.astype(np.float32)) == found
        names = np.zeros(1 << m, np.uint8)
        assert outcome(c.search, r, m, readings, named=names) == found
        early = outcome(c.early, r, m, readings)
        assert early == outcome(c.early, r, m, readings, allowed=MOST)
    bits, word, penalty = ref.quick(r, m, readings)
    fast = c.quick(r, m, readings)
    assert np.array_equal(fast.bits, bits) and np.array_equal(fast.word, word)
    assert fast.penalty == penalty


@given(st.data(), code_and_readings())
def test_demand_3_turned_over(data, case):
    """Readings negated by a word have the old best word plus it, with the same penalty and gap."""
    r, m, readings = case
    k = c.dimension(r, m)
    bits = np.array(data.draw(st.lists(st.integers(0, 1), min_size=k, max_size=k)), np.uint8)
    by = c.encode(r, m, bits)
    old = outcome(c.search, r, m, readings, allowed=MOST)
    new = outcome(c.search, r, m, np.where(by == 1, -readings, readings), allowed=MOST)
    if isinstance(old, c.Refused):
        assert (new.number, new.penalty) == (7, old.penalty)
    else:
        assert np.array_equal(new.word, old.word ^ by)
        assert np.array_equal(new.bits, old.bits ^ bits)
        assert (new.penalty, new.gap) == (old.penalty, old.gap)
    if by.all() or (m <= 4 and not ref.walk(r, m, readings)[2]):
        assert new.visits == old.visits


@given(st.data(), code_and_readings())
@settings(max_examples=80)
def test_shortened(data, case):
    r, m, readings = case
    named = data.draw(row_of_names(r, m))
    bits, words = ref.every_word(r, m, named)
    assert np.array_equal(c.encode_many(r, m, bits, named=named), words)
    at = data.draw(st.integers(0, len(bits) - 1))
    assert np.array_equal(c.encode(r, m, bits[at], named=named), words[at])
    assert np.array_equal(c.inverse(r, m, words[at], named=named), bits[at])
    found = outcome(c.search, r, m, readings, allowed=MOST, named=named)
    is_brute_force(found, r, m, readings, named)
    if m <= 4:
        fast = c.quick(r, m, readings, named=named)
        assert fast.penalty == ref.quick(r, m, readings, named)[2]


NAMES = ["encode", "inverse", "quick", "search", "early", "first_order"]


@given(st.data(), st.sampled_from(NAMES), st.booleans())
@settings(max_examples=400)
def test_demand_1_refusals_in_their_order(data, name, shortened):
    """Any numbers: the refusal is the first that applies, by its place; what is lent stays."""
    r = data.draw(st.integers(-1, 4))
    m = data.draw(st.one_of(st.integers(-1, 4), st.just(2**32 + 2)))
    code = 0 <= r <= m <= 8
    good = code and (name != "first_order" or (r == 1 and m >= 1))
    n, k = (1 << m, len(ref.kinds(r, m))) if code else (4, 3)
    expected, more = None if good else (1, 0), {}
    if shortened and name not in ("early", "first_order"):
        named = data.draw(st.lists(st.integers(0, 2), min_size=max(n - 1, 0), max_size=n + 1))
        if data.draw(st.booleans()):
            named = [0] * n
        fits = len(named) == n and max(named, default=0) <= 1
        fits = fits and good and all(i in ref.kinds(r, m) for i in range(n) if named[i])
        if fits:
            k -= sum(named)
        expected = expected or (None if fits and k > 0 else (12, 0))
        more["named"] = named
    is_bits = name in ("encode", "inverse")
    right = k if name == "encode" else n
    size = max(right + data.draw(st.sampled_from([0, 0, 0, 0, -1, 1])), 0)
    values = [0, 1, 1, 0, 1, 2, 255, 300, -1] if is_bits else [1, 9, -7, -32768, 40000, 32767]
    entries = data.draw(st.lists(st.sampled_from(values), min_size=size, max_size=size))
    if data.draw(st.booleans()):
        entries = [x & 1 if is_bits else x % 9 for x in entries]
    bad = [j for j, x in enumerate(entries) if (x not in (0, 1) if is_bits else abs(x) > 32767)]
    expected = expected or ((2, 0) if size != right else None)
    out = None
    if is_bits and data.draw(st.booleans()):
        fit = n if name == "encode" else k
        out = more["out"] = np.full(
            max(fit + data.draw(st.sampled_from([0, 0, 1])), 0), 77, np.uint8
        )
        expected = expected or ((3, 0) if out.size != fit else None)
    expected = expected or ((4, bad[0]) if bad else None)
    got = outcome(getattr(c, name), r, m, entries, **more)
    if expected:
        assert (got.number, got.place) == expected
        assert out is None or (out == 77).all()
    elif isinstance(got, c.Refused):
        assert got.number == (5 if name == "inverse" else 7) and name not in ("encode", "quick")


def test_every_refusal_of_words():
    floats = np.array([1, 0.5, np.nan, 3], np.float32)
    refuses(1, lambda: c.search(3, 2, [0] * 4))
    refuses(1, lambda: c.search(0, 9, [0] * 512))
    refuses(1, lambda: c.first_order(2, 3, [0] * 8))
    refuses(1, lambda: c.length(9))
    refuses(1, lambda: c.dimension(3, 2))
    refuses(2, lambda: c.search(1, 2, [1, 2, 3]))
    refuses(2, lambda: c.search(1, 2, []))
    refuses(2, lambda: c.search(1, 2, np.zeros(0, np.float32)))
    refuses(3, lambda: c.encode(1, 2, [0, 1, 1], out=np.zeros(5, np.uint8)))
    refuses(4, lambda: c.search(1, 2, [1, 2, -32768, 3]), place=2)
    refuses(4, lambda: c.search(1, 2, floats), place=1)
    refuses(4, lambda: c.encode(1, 2, [0, 2, 1]), place=1)
    refuses(5, lambda: c.inverse(1, 2, [1, 0, 0, 0]))
    refuses(6, lambda: c.search(1, 2, [5, -2, 3, 1], allowed=8))
    refuses(7, lambda: c.search(1, 2, [0, 0, 0, 0]))
    refuses(12, lambda: c.search(1, 2, [1, 2, 3, 4], named=[1, 0, 0, 0]))
    assert outcome(c.search, 1, 2, [5, -2, 3, 1], allowed=8).visits == 8
    assert c.Refused(99).name == "UNKNOWN" and "no refusal" in str(c.Refused(99))
    assert repr(c.Refused(7, penalty=3)) == "Refused(7, TIED, place=0, penalty=3, visits=0)"


@pytest.mark.parametrize("r, m", [(2, 5), (1, 3), (0, 0), (2, 8), (8, 8)])
@pytest.mark.parametrize("threads", [1, 3])
def test_many_is_one_by_one(r, m, threads):
    """native/rows.c, row by row."""
    rows = np.random.default_rng(5).integers(-60, 61, (200, 1 << m), np.int16)
    rows[17], rows[18, 0] = 0, -32768
    named = np.zeros(1 << m, np.uint8)
    if c.dimension(r, m) > 1:
        named[ref.kinds(r, m)[0]] = 1
    floats = rows.astype(np.float32)
    floats[19, 0] = 0.5
    some = {"allowed": 3000}
    for name, given, more in [
        ("search", rows, some),
        ("search", floats, some),
        ("search", rows, {"named": named, **some}),
        ("early", rows, some),
        ("quick", rows, {}),
        ("quick", rows, {"named": named}),
    ] + ([("first_order", rows, {})] if r == 1 else []):
        many = getattr(c, f"{name}_many")(r, m, given, threads=threads, **more)
        assert len(many) == 200
        for i in range(200):
            one = outcome(getattr(c, name), r, m, given[i], **more)
            assert outcome(many.__getitem__, i) == one
            if many.refusal[i]:
                assert not many.bits[i].any() and not many.word[i].any()
                assert not many.runner_up[i].any() and one.number == many.refusal[i]


def test_words_many_is_one_by_one():
    draw = np.random.default_rng(6)
    for r, m in [(1, 3), (2, 5), (3, 8)]:
        named = np.zeros(1 << m, np.uint8)
        named[ref.kinds(r, m)[1]] = 1
        for more in ({}, {"named": named}):
            k = c.dimension(r, m) - int(named.sum() if more else 0)
            bits = draw.integers(0, 2, (40, k), np.uint8)
            words = c.encode_many(r, m, bits, **more)
            words[3:9, 0] ^= 1
            words[5, 1] = 7
            back, refusals = c.inverse_many(r, m, words, **more)
            for i in range(40):
                if i not in range(3, 9):
                    assert np.array_equal(words[i], c.encode(r, m, bits[i], **more))
                one = outcome(c.inverse, r, m, words[i], **more)
                if isinstance(one, c.Refused):
                    assert refusals[i] == one.number and not back[i].any()
                else:
                    assert refusals[i] == 0 and np.array_equal(back[i], one)


LONG = {
    "threads=1": "cinorbis.search_many(4, 8, rows, threads=1)",
    "threads=2": "cinorbis.search_many(4, 8, rows, threads=2)",
    "one": "cinorbis.search(4, 8, rows[0], allowed=most)",
    "record": "cinorbis.Record.first(data).search(allowed=most)",
    "records": "list(cinorbis.Capture.of(data * 3).answers(allowed=most))",
    "one thread": "cinorbis.search_many(4, 8, rows, allowed=most, threads=1)",
    "two threads": "cinorbis.search_many(4, 8, rows, allowed=most, threads=2)",
    "a few rows": "cinorbis.search_many(4, 8, rows[:3], allowed=most)",
    "early": "cinorbis.early_many(4, 8, rows, allowed=most)",
    "many short": "cinorbis.search_many(4, 8, np.tile(rows, (20, 1)), threads=1)",
    "encode": "while True: cinorbis.encode_many(8, 8, np.zeros((40_000, 256), np.uint8))",
}


@pytest.mark.parametrize("name", LONG)
def test_an_interrupt_ends_it(name):
    """Hours of work: ctrl-C ends it within a second, whatever the allowance."""
    code = f"""if True:
        import cinorbis, numpy as np
        rows = np.random.default_rng(1).integers(-99, 100, (4000, 256)).astype(np.int16)
        data, most = cinorbis.write_record(4, 8, rows[0]), 2**32 - 1
        print("begun", flush=True)
        {LONG[name]}
        print("done")
    """
    pipes = {"stdout": subprocess.PIPE, "stderr": subprocess.PIPE, "text": True}

    def heard():  # a shell without job control starts its background jobs with ctrl-C ignored
        signal.signal(signal.SIGINT, signal.SIG_DFL)

    run = subprocess.Popen([sys.executable, "-c", code], preexec_fn=heard, **pipes)
    assert run.stdout.readline() == "begun\n"
    time.sleep(0.3)
    begun = time.monotonic()
    run.send_signal(signal.SIGINT)
    try:
        out, err = run.communicate(timeout=10)
    except subprocess.TimeoutExpired:
        run.kill()
        raise
    assert "done" not in out and "KeyboardInterrupt" in err
    assert time.monotonic() - begun < 3  # a second, and what a busy machine adds


def test_an_interrupt_stops_the_rows():
    """What is interrupted does not go on in the background after the row that it is at."""
    rows = np.random.default_rng(1).integers(-99, 100, (4000, 256)).astype(np.int16)
    before = signal.signal(signal.SIGINT, signal.default_int_handler)
    try:
        threading.Timer(0.3, os.kill, [os.getpid(), signal.SIGINT]).start()
        with pytest.raises(KeyboardInterrupt):
            c.search_many(4, 8, rows, allowed=2_000_000, threads=2)
    finally:
        signal.signal(signal.SIGINT, before)
    deadline = time.monotonic() + 2
    while threading.active_count() > 1 and time.monotonic() < deadline:
        time.sleep(0.01)
    assert threading.active_count() == 1


def test_many_refuses_as_a_whole():
    every = (c.search_many, c.quick_many, c.early_many, c.first_order_many)
    for call in every:
        for shape in [(5, 3), (0, 3), (5, 5)]:
            refuses(2, lambda: call(1, 2, np.zeros(shape, np.int16)))
        for rows in (0, 3):
            refuses(1, lambda: call(3, 2, np.zeros((rows, 4), np.int16)))
        with pytest.raises(ValueError, match="threads"):
            call(1, 2, np.zeros((3, 4), np.int16), threads=0)
    for rows in (0, 3):
        readings, bits = np.zeros((rows, 4), np.int16), np.zeros((rows, 3), np.uint8)
        refuses(12, lambda: c.search_many(1, 2, readings, named=[1, 0, 0, 0]))
        refuses(12, lambda: c.encode_many(1, 2, bits, named=[1, 0, 0, 0]))
        refuses(2, lambda: c.inverse_many(1, 2, bits))
        refuses(1, lambda: c.encode_many(3, 2, bits))
    none = c.search_many(1, 2, np.zeros((0, 4), np.int16))
    assert len(none) == 0 and none.bits.shape == (0, 3) and none.word.shape == (0, 4)
    refuses(4, lambda: c.encode_many(1, 2, [[0, 0, 0], [0, 3, 0]]), place=4)
