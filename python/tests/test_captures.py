"""Records and captures: files that are whole, torn, changed and cut; the program's own lines."""

import os
from pathlib import Path

import numpy as np
import pytest
from conftest import outcome, packed, refuses, some
from hypothesis import given, settings
from hypothesis import strategies as st

import cinorbis as c
from cinorbis import _captures

STORED = Path(os.environ.get("CINORBIS_TOP", Path(__file__).parents[2])) / "tests" / "captures"


def test_append_and_find(tmp_path):
    path, kept = tmp_path / "a", list(some(200))
    with c.Capture.create(path) as capture:
        for w, (r, m, readings) in enumerate(kept):
            assert capture.append(r, m, readings) == w
            if w % 17 == 0:
                assert np.array_equal(capture[w].readings, readings) and len(capture) == w + 1
        fresh = c.Capture.open(path)
        assert (len(fresh), fresh.used, fresh.size) == (len(capture), capture.used, capture.size)
        assert fresh._table == capture._table
    assert path.read_bytes() == b"".join(packed(*one) for one in kept)
    index = c.index_of(path.read_bytes())
    assert index == c.Index(200, fresh.used, tuple(fresh._table))
    for w, one in enumerate(fresh):
        r, m, readings = kept[w]
        assert (one.number, one.r, one.m, one.data) == (w, r, m, packed(r, m, readings))
        assert np.array_equal(one.readings, readings)
    assert fresh[-1].number == 199 and np.array_equal(fresh[-200].readings, kept[0][2])
    for w in (200, -201, 10**30):
        with pytest.raises(IndexError):
            fresh[w]
    with pytest.raises(TypeError):
        fresh["1"]
    with pytest.raises(ValueError, match="open to read"):
        fresh.append(*kept[0])
    with pytest.raises(FileExistsError):
        c.Capture.create(path)
    fresh.close()
    for use in (fresh.refresh, lambda: fresh[0], lambda: list(fresh.answers())):
        with pytest.raises(ValueError, match="closed"):
            use()


def test_extend_is_append(tmp_path):
    rows = np.random.default_rng(2).integers(-2047, 2048, (100, 32)).astype(np.int16)
    with c.Capture.create(tmp_path / "a") as one, c.Capture.create(tmp_path / "b") as other:
        for row in rows:
            one.append(2, 5, row)
        assert other.extend(2, 5, rows[:41]) == 41 and other.extend(2, 5, rows[41:]) == 59
        assert other.extend(2, 5, rows[:0]) == 0
        assert one._table == other._table
        bad = rows.copy()
        bad[3, 4] = 2048
        refuses(4, lambda: other.extend(2, 5, bad), place=3 * 32 + 4)
        refuses(2, lambda: other.append(2, 5, [1]))
        refuses(1, lambda: other.append(3, 2, [1]))
        assert len(other) == 100 and np.array_equal(other[99].readings, rows[99])
    assert (tmp_path / "a").read_bytes() == (tmp_path / "b").read_bytes()


@given(st.integers(0, 40), st.integers(0, 2000), st.sampled_from([6160, 7000, 1 << 20]))
@settings(max_examples=60)
def test_torn_opens_with_its_front(count, cut, piece):
    """The front by brute force, in pieces of any size."""
    kept = [packed(*one) for one in some(count, seed=count)] * 3
    whole = b"".join(kept)
    data = whole[: len(whole) - min(cut, len(whole))]
    front = 0
    while front < len(kept) and sum(map(len, kept[: front + 1])) <= len(data):
        front += 1
    before, _captures._PIECE = _captures._PIECE, piece
    try:
        capture, stray = c.Capture.of(data), None
        stray = c.Capture.of(data[: capture.used] + b"\x90" + data)
    finally:
        _captures._PIECE = before
    used = sum(map(len, kept[:front]))
    assert (len(capture), capture.used, capture.size) == (front, used, len(data))
    assert capture.torn == (None if used == len(data) else c.Refused(8))
    assert [one.data for one in capture] == kept[:front]
    assert stray.torn == c.Refused(1) and len(stray) == front and stray.used == used


def test_slices_of_a_capture():
    capture = c.Capture.of(b"".join(packed(*one) for one in some(40)))
    every = list(capture)
    for which in (slice(None), slice(5, 9), slice(-3, None), slice(None, None, -7), slice(50, 60)):
        assert capture[which] == every[which]


def test_torn_file(tmp_path):
    path = tmp_path / "torn"
    path.write_bytes(packed(1, 2, [5, -2, 3, 1]) * 2 + b"\x21\x00")
    with c.Capture.open(path, writable=True) as capture:
        assert "torn at byte 14 of 16" in repr(capture) and len(capture) == 2
        with pytest.raises(ValueError, match="torn at byte 14 of 16"):
            capture.append(0, 0, [1])
        assert path.stat().st_size == 16
        assert capture.cut() == 2 and capture.torn is None
        assert capture.append(0, 0, [1]) == 2
        with open(path, "ab") as other:
            other.write(packed(0, 0, [2]))
        with pytest.raises(ValueError, match="another program"):
            capture.append(0, 0, [1])
        capture.refresh()
        assert len(capture) == 4 and capture[3].readings.tolist() == [2]
    assert path.stat().st_size == 20
    assert len(c.Capture.open(os.devnull)) == 0
    with pytest.raises(ValueError, match="open to read"):
        c.Capture.open(path).cut()


def test_a_shorter_file_is_an_error(tmp_path):
    path = tmp_path / "a"
    path.write_bytes(packed(2, 5, [1] * 32) * 1000)
    capture = c.Capture.open(path)
    os.truncate(path, 100)
    for use in (lambda: capture[900], lambda: list(capture), lambda: list(capture.answers())):
        with pytest.raises(OSError, match="shorter"):
            use()
    path.write_bytes(b"\x90" * 49000)
    with pytest.raises(OSError, match="no longer"):
        list(capture.answers())
    refuses(1, lambda: capture[900])
    path.write_bytes(packed(2, 5, [1] * 32) * 2 + b"\x52")
    capture.refresh()
    assert len(capture) == 2 and capture.torn == c.Refused(8)


def test_answers_are_searches():
    kept = list(some(100)) + [(0, 0, np.array([0], np.int16))]
    data = b"".join(packed(*one) for one in kept[:50]) + bytes.fromhex("00 00 11")
    capture = c.Capture.of(data + b"".join(packed(*one) for one in kept[50:]))
    assert len(capture) == 102
    refuses(9, lambda: capture[50])
    for first, at_once in [(0, 1024), (0, 7), (49, 1), (50, 16), (101, 5), (102, 5)]:
        answers = list(capture.answers(first=first, at_once=at_once))
        assert [one.number for one in answers] == list(range(first, 102))
        for one in answers:
            if one.number == 50:
                assert one.refused == c.Refused(9) and one.found is None
                continue
            record = capture[one.number]
            assert (one.start, one.r, one.m) == (record.start, record.r, record.m)
            assert np.array_equal(one.readings, record.readings)
            got = outcome(record.search, allowed=1_000_000)
            assert got == outcome(c.search, record.r, record.m, record.readings, allowed=1_000_000)
            assert got == (one.found or one.refused)


@pytest.mark.parametrize("name", sorted(path.stem for path in STORED.glob("*.bin")))
def test_the_programs_own_lines(name):
    """The stored captures, whose lines the proved program writes."""
    capture = c.Capture.of((STORED / f"{name}.bin").read_bytes())
    lines, refused = [], 0
    for one in capture.answers():
        if one.found:
            found, bits = one.found, "".join(map(str, one.found.bits))
            numbers = f"penalty {found.penalty} margin {found.gap} visits {found.visits}"
            lines.append(f"{one.number} info {bits} {numbers}")
        else:
            lines.append(f"{one.number} refused {one.refused.number}")
            refused += 1
    if capture.torn:
        lines.append(f"{len(capture)} refused {capture.torn.number}")
    lines.append(f"{len(capture) - refused} read, {refused + bool(capture.torn)} refused\n")
    assert "\n".join(lines) == (STORED / f"{name}.out").read_text()


def test_records():
    example = bytes.fromhex("21 00 5F FE 00 30 01")
    assert c.write_record(1, 2, [5, -2, 3, 1]) == example
    for r, m, readings in some(60, seed=9, most=8):
        data = c.write_record(r, m, readings)
        assert data == packed(r, m, readings) and len(data) == c.record_length(r, m)
        assert np.array_equal(c.unpack(data[1:]), readings)
        assert c.Record.first(data + b"more") == c.Record(0, 0, r, m, data)
    assert c.unpack(bytes.fromhex("80 00")).tolist() == [-2047]
    room = np.full(20, 7, np.uint8)
    assert c.write_record_into(room, 5, 1, 2, [5, -2, 3, 1]) == 12
    assert room[5:12].tobytes() == example and (room[:5] == 7).all() and (room[12:] == 7).all()
    before = room.copy()
    refuses(1, lambda: c.write_record(3, 2, [0] * 4))
    refuses(2, lambda: c.write_record(1, 2, [0] * 3))
    refuses(4, lambda: c.write_record(1, 2, [0, 0, 2048, 0]), place=2)
    refuses(3, lambda: c.write_record_into(room, 14, 1, 2, [0] * 4))
    refuses(3, lambda: c.write_record_into(room, 2**70, 1, 2, [0] * 4))
    refuses(3, lambda: c.write_record_into(room, -1, 1, 2, [0] * 4))
    refuses(2, lambda: c.unpack(b"1234"))
    refuses(2, lambda: c.unpack(b""))
    refuses(3, lambda: c.unpack(b"12", out=np.zeros(2, np.int16)))
    refuses(1, lambda: c.record_length(3, 2))
    refuses(1, lambda: c.record_length(1, 16))
    refuses(1, lambda: c.Record.first(b"\x90"))
    refuses(8, lambda: c.Record.first(example[:6]))
    refuses(8, lambda: c.Record.first(b""))
    refuses(9, lambda: c.Record.first(bytes.fromhex("00 00 11")))
    refuses(1, lambda: c.index_of(example + b"\x90"))
    refuses(8, lambda: c.index_of(example + b"\x21"))
    assert np.array_equal(room, before)
    with pytest.raises(ValueError, match="read-only"):
        c.write_record_into(np.frombuffer(bytes(20), np.uint8), 0, 1, 2, [0] * 4)
