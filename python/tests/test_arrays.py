"""What is no array for the library: a clear error, and nothing is written."""

import copy
import dataclasses
import pickle
import shutil
import subprocess
import sys

import numpy as np
import pytest

import cinorbis as c

GOOD = np.array([5, -2, 3, 1], np.int16)
ODD = np.frombuffer(b"\0" + GOOD.tobytes() + b"\0", np.uint8)[1:9].view(np.int16)


@pytest.mark.parametrize(
    "readings, kind, words",
    [
        (GOOD.astype(np.int32), TypeError, "int32"),
        (GOOD.astype(np.int64), TypeError, "int16 or float32"),
        (GOOD.astype(np.float64), TypeError, "float64; it has to be int16 or float32; readings_of"),
        (GOOD.astype(np.uint16), TypeError, "uint16"),
        (GOOD.astype(bool), TypeError, "bool"),
        (GOOD.astype(object), TypeError, "object"),
        (GOOD.astype(">i2"), TypeError, "byte order"),
        (GOOD.astype(">f4"), TypeError, "byte order"),
        (np.repeat(GOOD, 2)[::2], ValueError, "side by side"),
        (GOOD[::-1], ValueError, "side by side"),
        (ODD, ValueError, "multiples of 2"),
        (GOOD.reshape(2, 2), ValueError, "one row"),
        (np.ma.masked_equal(GOOD, 3), TypeError, "masked"),
        (np.int16(3), TypeError, "neither"),
        (5, TypeError, "neither"),
        (None, TypeError, "NoneType"),
        ({5, -2, 3, 1}, TypeError, "set"),
        ("5 -2 3 1", TypeError, "str"),
        ([5, -2, 3, 1.0], TypeError, "1.0"),
        ([5, -2, 3, True], TypeError, "True"),
        ([[5, -2, 3, 1]], ValueError, "(1, 4)"),
        (memoryview(GOOD.astype(np.int32)), TypeError, "int32"),
        (memoryview(GOOD.tobytes()), TypeError, "uint8"),
        (memoryview(np.repeat(GOOD, 2))[::2], ValueError, "side by side"),
    ],
)
def test_wrong_readings(readings, kind, words):
    with pytest.raises(kind) as caught:
        c.search(1, 2, readings)
    assert words in str(caught.value) and "readings" in str(caught.value)


@pytest.mark.parametrize(
    "readings, kind, words",
    [
        (GOOD, ValueError, "2-D"),
        (np.zeros((2, 4), np.int32), TypeError, "int32"),
        (np.zeros((2, 8), np.int16)[:, ::2], ValueError, "side by side"),
        (np.zeros((4, 2), np.int16).T, ValueError, "side by side"),
        (np.zeros((2, 4), ">i2"), TypeError, "byte order"),
    ],
)
def test_wrong_rows(readings, kind, words):
    for many in (c.search_many, c.quick_many, c.early_many, c.first_order_many):
        with pytest.raises(kind) as caught:
            many(1, 2, readings)
        assert words in str(caught.value)


def test_read_only_inputs_are_fine_and_answers_are_fixed():
    given = GOOD.copy()
    given.flags.writeable = False
    found = c.search(1, 2, given)
    assert found == c.search(1, 2, [5, -2, 3, 1]) == c.search(1, 2, (5, -2, 3, 1))
    assert found != c.search(1, 2, [9, 9, 9, 8]) and found != 5
    many = c.search_many(1, 2, GOOD[None, :])
    arrays = [found.bits, found.word, found.runner_up, many.bits, many.word, many.runner_up]
    for array in arrays + [many.penalty, many.gap, many.visits, many.refusal, many.place]:
        with pytest.raises(ValueError):
            array[0] = 1
    with pytest.raises(dataclasses.FrozenInstanceError):
        found.penalty = 2
    assert pickle.loads(pickle.dumps(found)) == found
    refused = c.Refused(7, penalty=3)
    assert pickle.loads(pickle.dumps(refused)) == refused


def test_views_of_memory():
    """A memoryview has an element type of its own: it is never read as bytes."""
    bits, word = np.array([0, 1, 1], np.uint8), np.array([0, 1, 0, 1], np.uint8)
    assert np.array_equal(c.encode(1, 2, memoryview(bits)), word)
    assert c.search(1, 2, memoryview(GOOD)) == c.search(1, 2, GOOD)
    assert c.Record.first(memoryview(c.write_record(1, 2, GOOD))).m == 2
    assert np.array_equal(c.Map.identity(2).reorder(memoryview(word)), word)
    for wrong in ("int8", "int16", "uint16", "float32"):
        with pytest.raises(TypeError, match=wrong):
            c.encode(1, 2, memoryview(bits.astype(wrong)))
    with pytest.raises(TypeError, match="int16"):  # eight bytes, a word of RM(1,3)
        c.inverse(1, 3, memoryview(np.zeros(4, np.int16)))
    with pytest.raises(ValueError, match="one row"):
        c.inverse(1, 2, memoryview(bytes(4)).cast("B", (2, 2)))
    with pytest.raises(ValueError, match="side by side"):
        c.inverse(1, 2, memoryview(bytes(8))[::2])


def test_rows_of_answers():
    """Slices, numbers and masks, as of an array; what is fixed stays so."""
    rows = np.array([[5, -2, 3, 1], [0, 0, 0, 0], [9, 9, -9, -8]], np.int16)
    found = c.search_many(1, 2, rows)
    for which in (slice(1, 3), [1, 2], np.array([1, 2]), np.array([False, True, True])):
        some = found[which]
        assert some == c.search_many(1, 2, rows[1:]) and len(some) == 2
        assert some.refusal.tolist() == [7, 0] and some[1] == found[2] == found[np.int64(-1)]
        for array in (some.bits, some.word, some.penalty, some.refusal):
            assert not array.flags.writeable
    assert len(found[found.refusal == 0]) == 2 and len(found[5:]) == len(found[[]]) == 0
    for wrong in ("bits", 1.0, None, (0, 1, 2.5), [[0, 1]]):
        with pytest.raises(TypeError, match="a slice, or a 1-D array"):
            found[wrong]
    for beyond in (3, -4, [3]):
        with pytest.raises(IndexError):
            found[beyond]
    telegrams = [c.Telegram(1, i / 100, "port").readings(9) for i in range(1, 4)]
    read = c.Telegram.read_many(np.stack([*telegrams, -telegrams[0]]))
    assert read[1:3].tilt.tolist() == [0.02, 0.03] and read[read.refusal == 0] == read[:3]
    assert read[3:] == read[[3]] and np.isnan(read[3:].tilt).all() and read[:3] != read[1:]


def test_copies_are_fixed_too():
    """NumPy unpickles arrays that can be written to."""
    rows = np.array([[5, -2, 3, 1], [0, 0, 0, 0]], np.int16)
    answer = next(c.Capture.of(c.write_record(1, 2, GOOD)).answers())
    every = [c.search(1, 2, GOOD), c.search_many(1, 2, rows), c.Map.random(3, 1), answer]
    every += [c.Telegram.read_many(np.ones((2, 32), np.int16)), c.readings_of([0.5, 1], 9)]
    for one in every:
        for again in (pickle.loads(pickle.dumps(one)), copy.copy(one), copy.deepcopy(one)):
            assert again == one and repr(again) == repr(one)
            arrays = [x for x in vars(again).values() if isinstance(x, np.ndarray)]
            assert arrays and not any(array.flags.writeable for array in arrays)
    assert not pickle.loads(pickle.dumps(answer)).found.bits.flags.writeable


def test_real_values():
    draw = np.random.default_rng(3)
    for kind in (np.float64, np.float32, np.float16):
        values = draw.normal(0, 1, (40, 32)).astype(kind)
        rounded = c.readings_of(values, 500)
        scaled = values.astype(np.float64) * 500
        assert np.array_equal(rounded.readings, np.rint(scaled))
        assert rounded.readings.dtype == np.int16
        assert np.allclose(rounded.change, np.abs(np.rint(scaled) - scaled).sum(axis=1))
        assert (rounded.change <= 16).all()
    clipped = c.readings_of([3.0, -3.0, np.inf, 0.2], 1000, largest=2047)
    assert clipped.readings.tolist() == [2047, -2047, 2047, 200] and clipped.change == np.inf
    assert c.readings_of([1, -2], 7).readings.tolist() == [7, -14]
    assert c.readings_of(np.zeros((0, 4)), 1).readings.shape == (0, 4)
    with pytest.raises(ValueError, match="place 1 is not a number"):
        c.readings_of([0.0, np.nan], 3)
    for scale in (0, -1, np.inf, np.nan):
        with pytest.raises(ValueError, match="above 0"):
            c.readings_of([1.0], scale)
    for largest in (0, 32768):
        with pytest.raises(ValueError, match="largest"):
            c.readings_of([1.0], 1, largest=largest)
    for wrong in (["a"], [1j], 3.0, [True]):
        with pytest.raises(TypeError, match="real numbers"):
            c.readings_of(wrong, 1)


def test_a_gap_above_the_change():
    """The word found is the best one for the real values, by brute force."""
    draw = np.random.default_rng(4)
    words = c.encode_many(1, 3, (np.arange(16)[:, None] >> np.arange(4) & 1).astype(np.uint8))
    sure = 0
    for values in draw.normal(0, 1, (300, 8)):
        rounded = c.readings_of(values, 3)
        found = c.search_many(1, 3, rounded.readings[None, :])
        if found.gap[0] > rounded.change:
            best = words[np.argmax(np.where(words == 1, -values, values).sum(axis=1))]
            assert np.array_equal(found.word[0], best)
            sure += 1
    assert 50 < sure < 300


def test_outputs():
    bits = np.array([0, 1, 1], np.uint8)
    for out, kind, words in [
        (np.zeros(4, np.int16), TypeError, "int16"),
        ([0, 0, 0, 0], TypeError, "list"),
        (np.zeros(8, np.uint8)[::2], ValueError, "side by side"),
        (np.zeros((1, 4), np.uint8), ValueError, "(1, 4)"),
    ]:
        with pytest.raises(kind) as caught:
            c.encode(1, 2, bits, out=out)
        assert words in str(caught.value) and not np.any(out)
    given = np.zeros(4, np.uint8)
    given.flags.writeable = False
    with pytest.raises(ValueError, match="read-only"):
        c.encode(1, 2, bits, out=given)
    both = np.array([0, 1, 1, 7, 7], np.uint8)
    with pytest.raises(ValueError, match="overlaps"):
        c.encode(1, 2, both[:3], out=both[1:])
    assert both.tolist() == [0, 1, 1, 7, 7]
    names = np.zeros(4, np.uint8)
    with pytest.raises(ValueError, match="overlaps"):
        c.encode(1, 2, bits, named=names, out=names)
    out = np.full(4, 9, np.uint8)
    assert c.encode(1, 2, bits, out=out) is out and out.tolist() == [0, 1, 0, 1]


def test_tiny_floats_in_any_float_mode(tmp_path):
    """A library built with -ffast-math sets, when it is loaded, the mode in which fractions below
    2^-126 are taken for 0: they are refused all the same."""
    compiler = shutil.which("cc")
    if not compiler:
        pytest.skip("no C compiler")
    (tmp_path / "fast.c").write_text("int nothing(void) { return 0; }")
    fast = tmp_path / "fast.so"
    command = [compiler, "-shared", "-fPIC", "-ffast-math", "-o", fast, tmp_path / "fast.c"]
    subprocess.run(command, check=True)
    code = """if True:
        import ctypes, sys
        import numpy as np, cinorbis
        x = np.array([[5, -2, 3, 1], [5, -2, 3, 1e-40], [-0.0, 1, 1, 1]], np.float32)
        ctypes.CDLL(sys.argv[1])
        for row in x:
            try:
                print(cinorbis.search(1, 2, row).bits)
            except cinorbis.Refused as refused:
                print(refused.number, refused.place)
        print(cinorbis.search_many(1, 2, x).refusal)
    """
    command = [sys.executable, "-c", code, fast]
    run = subprocess.run(command, capture_output=True, text=True, check=True)
    assert run.stdout == "[0 1 1]\n4 3\n[0 0 0]\n[0 4 0]\n"


def test_numbers_that_do_not_fit():
    for r, m in [(2**32 + 1, 2), (1, 2**32 + 2), (-1, 2), (1, -1), (2**64 + 1, 2**64 + 2)]:
        for call in (c.search, c.quick, c.early, c.first_order, c.write_record):
            with pytest.raises(c.Refused) as caught:
                call(r, m, GOOD)
            assert caught.value.number == 1
    for allowed in (-1, 2**32):
        for call in (c.search, c.early):
            with pytest.raises(ValueError, match="allowance"):
                call(1, 2, GOOD, allowed=allowed)
        with pytest.raises(ValueError, match="allowance"):
            c.search_many(1, 2, GOOD[None, :], allowed=allowed)
    with pytest.raises(TypeError):
        c.search(1, 2, GOOD, allowed=1.5)
    with pytest.raises(TypeError):
        c.search(1.0, 2, GOOD)
    assert c.search(np.int64(1), np.uint8(2), GOOD, allowed=np.int32(9)).visits == 9
