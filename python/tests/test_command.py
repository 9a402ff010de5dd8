"""The command, as a person and as a pipe meet it."""

import builtins
import csv
import io
import os
import re
import subprocess
import sys

from pathlib import Path

import pytest
from conftest import packed

import cinorbis as c
from cinorbis.__main__ import Progress, main

TOP = Path(os.environ.get("CINORBIS_TOP", Path(__file__).parents[2]))
EXAMPLE = bytes.fromhex("21 00 5F FE 00 30 01")
TIED = bytes.fromhex("00 00 00")


@pytest.fixture
def run(capsys):
    def one(*arguments):
        try:
            status = main([str(one) for one in arguments])
        except SystemExit as stop:
            status = stop.code
        out, err = capsys.readouterr()
        return status, out, err

    return one


def test_show(run, tmp_path):
    path = tmp_path / "a"
    telegram = c.Telegram(5, 12.34, "port")
    path.write_bytes(EXAMPLE + TIED + c.write_record(2, 5, telegram.readings(90)))
    status, out, err = run("show", path)
    assert (status, err) == (0, "") and out.count("record ") == 3
    for words in (
        "word      0101",
        "penalty   1; 1 of the readings contradict the word",
        "gap       1 to the next best word",
        "runner-up 000",
        "refused 7: tied",
        "telegram  cylinder 5, 12.34 degrees to port",
        "next best ",
    ):
        assert words in out
    status, out, err = run("show", path, 2)
    assert (
        status == 0 and out.startswith("record 2, byte 10: RM(2,5)") and out.count("record ") == 1
    )
    assert run("show", path, -1)[1] == out
    over = tmp_path / "over"
    over.write_bytes(c.write_record(2, 5, -telegram.readings(90)))
    assert "telegram  refused 13: the telegram's marker is set" in run("show", over)[1]
    for w in (3, -4):
        status, out, err = run("show", path, w)
        assert (status, out) == (1, "") and f"has no record {w}: it has 0 to 2" in err
    assert run("show", path, "x")[0] == 2
    (tmp_path / "none").write_bytes(b"")
    assert run("show", tmp_path / "none") == (0, "no records\n", "")
    assert "it has none" in run("show", tmp_path / "none", 0)[2]


def test_list(run, tmp_path):
    path = tmp_path / "a"
    path.write_bytes(EXAMPLE * 3 + TIED + EXAMPLE[:5])
    status, out, err = run("list", path)
    assert status == 1 and out.endswith("\n3 read, 1 refused\n")
    assert out.splitlines()[0] == "0 RM(1,2) bits 011 penalty 1 gap 1 visits 9"
    stops = "it stops at byte 24 of 29, in record 4: only 5 bytes of it are there"
    assert err == f"cinorbis-capture: {path}: {stops}\n"
    status, out, err = run("list", "--csv", path)
    rows = list(csv.DictReader(io.StringIO(out)))
    assert [row["refusal"] for row in rows] == ["0", "0", "0", "7"]
    assert rows[0]["bits"] == "011" and rows[3]["penalty"] == "0" and rows[3]["byte"] == "21"
    assert run("list", path, "--allowed", 8)[1].count("refused 6") == 3
    path.write_bytes(EXAMPLE + b"\x90")
    status, out, err = run("list", path)
    assert status == 1 and "at byte 7 of 8, in record 1: that byte begins no record" in err
    (tmp_path / "text").write_text("1 2 5 -2 3 1\n")
    status, out, err = run("list", tmp_path / "text")
    assert status == 0 and "looks like text" in err and out.startswith("0 RM(1,3)")
    (tmp_path / "none").write_bytes(b"")
    assert run("list", tmp_path / "none") == (0, "0 read, 0 refused\n", "")
    for wrong, words in [(tmp_path, "directory"), (tmp_path / "nothing", "No such file")]:
        status, out, err = run("list", wrong)
        assert status == 1 and words in err and out == "" and len(err.splitlines()) == 1


def test_make_and_back(run, tmp_path):
    path, other = tmp_path / "a", tmp_path / "b"
    arguments = ("--count", 50, "--noise", 0.3, "--seed", 4)
    status, out, err = run("make", path, *arguments)
    assert (status, out) == (0, "") and "50 telegrams, 2450 bytes" in err
    assert len(run("telegrams", path)[1].splitlines()) == 50
    assert run("make", other, *arguments)[0] == 0 and path.read_bytes() == other.read_bytes()
    status, out, err = run("make", path, "--count", 3)
    assert status == 1 and "exists already" in err and path.stat().st_size == 50 * 49
    assert run("make", path, "--count", 3, "--code", 1, 4, "--force")[0] == 0
    assert path.stat().st_size == 3 * 25
    status, out, err = run("readings", path)
    lines = [line for line in out.splitlines() if not line.startswith("#")]
    again = [list(map(int, line.split())) for line in lines]
    assert status == 0
    assert b"".join(c.write_record(r, m, row) for r, m, *row in again) == path.read_bytes()
    path.write_bytes(EXAMPLE + bytes.fromhex("00 00 11"))
    status, out, err = run("readings", path)
    assert status == 1 and "# record 1: refused 9" in out and "pad bit" in err
    assert run("make", tmp_path / "c", "--count", 0)[0] == 0
    assert (tmp_path / "c").stat().st_size == 0
    for wrong in (
        ["--code", 5, 3],
        ["--code", -1, 3],
        ["--count", "x"],
        ["--count", -1],
        ["--noise", "nan"],
        ["--size", 2048],
        ["--seed", -1],
        ["--cylinder", 8],
    ):
        status, out, err = run("make", tmp_path / "d", *wrong)
        assert status == 2 and err and not (tmp_path / "d").exists()
    assert run("make", tmp_path / "no" / "e")[0] == 1
    assert run()[0] == 2 and run("nothing")[0] == 2 and run("--help")[0] == 0


def test_telegrams(run, tmp_path):
    path = tmp_path / "a"
    sent = [c.Telegram(1, 2.5, "port"), c.Telegram(2, 0.07, "starboard"), c.Telegram(3, 0)]
    rows = [one.readings(9) for one in sent]
    records = [packed(2, 5, row) for row in (*rows, -rows[0])]
    path.write_bytes(b"".join([*records, EXAMPLE, TIED]))
    status, out, err = run("telegrams", path, "--csv")
    assert status == 0 and "2 left out" in err
    assert out.splitlines() == [
        "record,cylinder,tilt,to,penalty,gap,refusal",
        "0,1,2.50,port,0,72,0",
        "1,2,0.07,starboard,0,72,0",
        "2,3,0.00,,0,72,0",
        "3,,,,,,13",
    ]
    status, out, err = run("telegrams", path, "--table")
    assert status == 0 and "2 left out" in err
    assert out.splitlines() == [
        "record,refusal,cylinder,tilt_degrees,direction,penalty,gap,sure_percent",
        "0,0,1,2.50,port,0,72,100.0",
        "1,0,2,0.07,starboard,0,72,100.0",
        "2,0,3,0.00,level,0,72,100.0",
        "3,13,,,,0,72,100.0",
    ]
    status, out, err = run("telegrams", path)
    assert out.splitlines()[:3] == [f"{w} {one}, gap 72" for w, one in enumerate(sent)]
    assert out.splitlines()[3].startswith("3 refused 13: ")


def test_rods(run, tmp_path):
    """Tilt and rod on one link, of different lengths."""
    path, sent = tmp_path / "a", [c.Rod(7, 93), c.Telegram(2, 1.25, "port")]
    records = [packed(1, 7, sent[0].readings(9)), packed(2, 5, sent[1].readings(9))]
    records += [packed(1, 7, -sent[0].readings(9)), packed(2, 5, -sent[1].readings(9)), TIED]
    path.write_bytes(b"".join(records))
    status, out, err = run("rods", path)
    assert status == 0 and out.splitlines()[0] == "0 position 93 of 0 to 127, gap 576"
    assert out.splitlines()[1].startswith("2 refused 13: ")
    assert "RM(1,m) are no rod positions: 3 left out" in err
    status, out, err = run("rods", path, "--csv")
    head = "record,refusal,m,position,penalty,gap,sure_percent"
    assert out.splitlines() == [head, "0,0,7,93,0,576,100.0", "2,13,7,,0,576,100.0"]
    status, out, err = run("telegrams", path, "--table")
    assert out.splitlines()[1:] == ["1,0,2,1.25,port,0,72,100.0", "3,13,,,,0,72,100.0"]
    assert "RM(2,5) are no telegrams: 3 left out" in err
    status, out, err = run("list", path, "--messages")
    assert out.splitlines()[0].endswith("; rod: position 93 of 0 to 127")
    assert out.splitlines()[1].endswith("; telegram: cylinder 2, 1.25 degrees to port")
    assert "; telegram: refused 13" in out.splitlines()[3] and "; " not in out.splitlines()[4]
    status, out, err = run("list", path, "--messages", "--csv")
    rows = list(csv.DictReader(io.StringIO(out)))
    assert rows[0]["message"] == "rod: position 93 of 0 to 127" and rows[4]["message"] == ""
    out = run("show", path)[1]
    assert "  rod       position 93 of 0 to 127\n" in out
    assert "  telegram  cylinder 2, 1.25 degrees to port\n" in out and "tell" not in out
    path.write_bytes(packed(1, 5, c.Rod(5, 7).readings(9)))
    assert "each word of RM(1,5) is a telegram's, too" in run("show", path)[1]
    assert run("make", path, "--rods", 6, "--count", 90, "--noise", 0.2, "--force")[0] == 0
    assert path.stat().st_size == 90 * 97 and "refused" not in run("rods", path)[1]
    assert run("make", path, "--rods", 6, "--code", 1, 6)[0] == 2
    assert run("make", path, "--rods", 0)[0] == 2
    pytest.importorskip("matplotlib")
    run("make", path, "--rods", 4, "--count", 50, "--noise", 1.5, "--force")
    assert run("rods", path, "--plot", tmp_path / "r.svg") == (0, "", "")
    labels = re.findall(r"<!-- (.*?) -->", (tmp_path / "r.svg").read_text())
    assert {"rod position", "record", "100 %", "0 to 15"} <= set(labels)


@pytest.mark.parametrize("command, folder", [("telegrams", "tilts"), ("rods", "rods")])
def test_the_pages_table(run, command, folder):
    """The stored tables, which the page's own code is compared with (tests/desk/calls.mjs)."""
    stored = TOP / "tests" / folder
    status, out, err = run(command, stored / "capture.bin", "--table")
    assert status == 0 and out == (stored / "table.csv").read_text()


def test_plot(run, tmp_path, monkeypatch):
    path, picture = tmp_path / "a", tmp_path / "t.svg"
    run("make", path, "--count", 60, "--noise", 0.8)
    real = builtins.__import__

    def without(name, *rest, **more):
        if name.startswith("matplotlib"):
            raise ImportError(name)
        return real(name, *rest, **more)

    with monkeypatch.context() as patched:
        patched.setattr(builtins, "__import__", without)
        status, out, err = run("telegrams", path, "--plot", picture)
    assert status == 1 and "needs matplotlib" in err and len(err.splitlines()) == 1
    pytest.importorskip("matplotlib")
    assert run("telegrams", path, "--plot", picture) == (0, "", "")
    drawn = picture.read_text()
    labels = re.findall(r"<!-- (.*?) -->", drawn)
    assert "tilt in degrees" in labels and "record" in labels
    sides = [one for one in labels if one.endswith(("to port", "to starboard"))]
    assert len(sides) >= 2 and all(one[0].isdigit() for one in sides)  # no sign
    # starboard is up: an svg counts downwards, and writes the axis from the bottom
    places = re.findall(r"<!-- ([^>]*) -->.*?translate\([\d.]+ ([\d.]+)\)", drawn, re.S)
    port = [float(y) for label, y in places if label.endswith("to port")]
    starboard = [float(y) for label, y in places if label.endswith("to starboard")]
    assert port and starboard and min(port) > max(starboard)
    run("telegrams", path, "--plot", tmp_path / "again.svg")
    assert (tmp_path / "again.svg").read_text() == drawn
    status, out, err = run("telegrams", path, "--plot", tmp_path / "t.xyz")
    assert status == 1 and "cannot draw" in err


def test_pipes(tmp_path):
    path = tmp_path / "a"
    path.write_bytes(EXAMPLE * 5000)
    module = f"'{sys.executable}' -m cinorbis"
    head = subprocess.run(f"{module} list {path} | head -n 1", shell=True, capture_output=True)
    assert head.stdout == b"0 RM(1,2) bits 011 penalty 1 gap 1 visits 9\n" and head.stderr == b""
    full = subprocess.run(f"{module} list {path} >/dev/full", shell=True, capture_output=True)
    line = b"cinorbis-capture: cannot go on: [Errno 28] No space left on device\n"
    assert (full.returncode, full.stderr) == (1, line)
    command = [sys.executable, "-m", "cinorbis", "list", "-"]
    piped = subprocess.run(command, input=EXAMPLE + b"\x21", capture_output=True)
    assert piped.returncode == 1 and piped.stdout.endswith(b"1 read, 0 refused\n")
    assert b"at byte 7 of 8" in piped.stderr


def test_progress(capsys, monkeypatch):
    """A bar where a person watches, nothing in a pipe."""
    now = [0.0]
    monkeypatch.setattr("time.monotonic", lambda: now[0])
    for watched in (True, False):
        bar = Progress(1280, watched)
        for done in range(0, 1281, 64):
            now[0] += 1
            bar.at(done)
        bar.end()
        err = capsys.readouterr().err
        assert ("640 of 1,280" in err) == watched
        assert err.endswith("\r\x1b[K") if watched else err == ""
