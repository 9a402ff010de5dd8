"""What is in a capture, in words, as a table or a picture; and captures made to try things on.

Exit status: 0 done; 1 the capture stops in the middle, or cannot be read or written (what could be
shown was shown); 2 wrong arguments.
"""

import argparse
import csv
import math
import os
import sys
import time
from typing import Any, Callable, Iterator, NoReturn, Optional, Sequence

import numpy as np

from . import Answer, Capture, Record, Refusal, Refused, Rod, Telegram
from . import DEFAULT_ALLOWANCE, dimension, encode_many, record_length
from ._arrays import text
from ._said import RODS, TELEGRAMS, Said, kind_of, row_of, said

# not `cinorbis`, which is the proved program
SCRIPT = "cinorbis-capture"
TELEGRAM = (2, 5)
BOTH = (1, 5)
APART = "nothing in it tells which one was sent"
LARGEST = 2047  # of a record's readings


class Stop(Exception):
    """A message for the user, and the status to exit with."""

    def __init__(self, message: str, status: int = 1) -> None:
        super().__init__(message)
        self.status = status


def say(message: str) -> None:
    print(f"{SCRIPT}: {message}", file=sys.stderr)


class Progress:
    """A bar on standard error where a person watches and the work takes a while; else nothing."""

    def __init__(self, total: int, watched: Optional[bool] = None) -> None:
        self.total, self.begun, self.last, self.shown = total, time.monotonic(), 0.0, False
        self.watched = sys.stderr.isatty() if watched is None else watched

    def at(self, done: int) -> None:
        now = time.monotonic() if self.watched and done % 64 == 0 else self.last
        if now - self.last < 0.1 or now - self.begun < 0.5:
            return
        self.last, self.shown = now, True
        full = 30 * done // max(self.total, 1)
        left = (now - self.begun) * (self.total - done) / max(done, 1)
        bar = "#" * full + "." * (30 - full)
        sys.stderr.write(f"\r[{bar}] {done:,} of {self.total:,}, {left:.0f} s left \x1b[K")
        sys.stderr.flush()

    def end(self) -> None:
        if self.shown:
            sys.stderr.write("\r\x1b[K")
            sys.stderr.flush()


# ---- reading


def opened(name: str) -> Capture:
    try:
        capture = Capture.of(sys.stdin.buffer.read()) if name == "-" else Capture.open(name)
    except OSError as error:
        raise Stop(f"cannot read {name}: {error.strerror or error}") from None
    front = capture._bytes(0, min(capture.size, 4096))
    printable = (front >= 32) & (front < 127) | (front >= 9) & (front <= 13)
    if front.size and bool(printable.all()):
        hint = "sample/pack makes one from readings in text"
        say(f"{name} looks like text; a capture is packed records, and {hint}")
    return capture


def tear(capture: Capture, name: str) -> int:
    """Says where a capture is torn: the status to exit with."""
    if not capture.torn:
        return 0
    where = f"at byte {capture.used} of {capture.size}, in record {len(capture)}"
    if capture.torn.number == Refusal.TORN:
        say(f"{name}: it stops {where}: only {capture.size - capture.used} bytes of it are there")
    else:
        say(f"{name}: it stops {where}: that byte begins no record of any code")
    return 1


def answers(capture: Capture, allowed: int) -> Iterator[Answer]:
    bar = Progress(len(capture))
    try:
        for answer in capture.answers(allowed=allowed):
            yield answer
            bar.at(answer.number + 1)
    finally:
        bar.end()


def records(capture: Capture) -> Iterator[Optional[Record]]:
    """The records in order; None in place of one with a pad bit, which only RM(0,0) has."""
    bar = Progress(len(capture))
    try:
        for w in range(len(capture)):
            try:
                yield capture[w]
            except Refused:
                yield None
            bar.at(w + 1)
    finally:
        bar.end()


def shown(answer: Answer, allowed: int) -> str:
    """A record in words."""
    n, k = 1 << answer.m, dimension(answer.r, answer.m)
    code = f"RM({answer.r},{answer.m}), {n} readings of {k} information bits"
    lines = [f"record {answer.number}, byte {answer.start}: {code}"]
    for i in range(0, n, 16):
        row = " ".join(f"{value:5}" for value in answer.readings[i : i + 16].tolist())
        lines.append(f"  {'readings' if not i else '':10}{row}")
    found = answer.found
    if found is None:
        return "\n".join([*lines, f"  {answer.refused}"])
    against = np.where(found.word == 1, answer.readings > 0, answer.readings < 0)
    wrong = f"{np.count_nonzero(against)} of the readings contradict the word"
    lines += [
        f"  word      {text(found.word)}",
        f"  bits      {text(found.bits)}",
        f"  penalty   {found.penalty}; {wrong}",
        f"  gap       {found.gap} to the next best word",
        f"  visits    {found.visits}",
        f"  runner-up {text(found.runner_up)}",
    ]
    kind = kind_of(answer.r, answer.m)
    if kind:
        what = said(answer.r, answer.m, answer.readings, allowed)
        lines.append(f"  {kind:9} {what}")
        if (answer.r, answer.m) == BOTH:
            lines.append(f"{'':12}each word of RM(1,5) is a telegram's, too: {APART}")
    if (answer.r, answer.m) == TELEGRAM:
        try:
            lines.append(f"  next best {Telegram.of_bits(found.runner_up)}")
        except Refused as other:
            lines.append(f"  next best no telegram: {other.text}")
    return "\n".join(lines)


def show(given: argparse.Namespace) -> int:
    with opened(given.capture) as capture:
        if given.record is None:
            for answer in answers(capture, given.allowed):
                print(shown(answer, given.allowed))
            if not len(capture) and not capture.torn:
                print("no records")
            return tear(capture, given.capture)
        count, status = len(capture), tear(capture, given.capture)
        w = given.record + count if given.record < 0 else given.record
        if not 0 <= w < count:
            there = f"it has 0 to {count - 1}" if count else "it has none"
            raise Stop(f"{given.capture} has no record {given.record}: {there}")
        answer = next(capture.answers(allowed=given.allowed, first=w, at_once=1))
        print(shown(answer, given.allowed))
        return status


LIST = ["record", "byte", "r", "m", "refusal", "bits", "penalty", "gap", "visits", "runner_up"]


def list_row(one: Answer) -> list[Any]:
    """A record as the columns of LIST."""
    row: list[Any] = [one.number, one.start, one.r, one.m]
    if one.found is not None:
        found = one.found
        numbers = [found.penalty, found.gap, found.visits]
        return row + [0, text(found.bits), *numbers, text(found.runner_up)]
    assert one.refused is not None
    tied = one.refused.number == Refusal.TIED
    carried = [one.refused.penalty, "", one.refused.visits] if tied else ["", "", ""]
    return row + [one.refused.number, "", *carried, ""]


def list_message(one: Answer, allowed: int) -> str:
    """What a record says, where its code has telegrams or rod positions."""
    kind = kind_of(one.r, one.m)
    return f"{kind}: {said(one.r, one.m, one.readings, allowed)}" if kind else ""


def list_(given: argparse.Namespace) -> int:
    with opened(given.capture) as capture:
        table = csv.writer(sys.stdout, lineterminator="\n")
        if given.csv:
            table.writerow(LIST + ["message"] * given.messages)
        refused = 0
        for one in answers(capture, given.allowed):
            refused += one.refused is not None
            message = list_message(one, given.allowed) if given.messages else ""
            if given.csv:
                table.writerow(list_row(one) + [message] * given.messages)
                continue
            line = f"{one.number} RM({one.r},{one.m}) {one.refused}"
            if one.found is not None:
                found = one.found
                numbers = f"penalty {found.penalty} gap {found.gap} visits {found.visits}"
                line = f"{one.number} RM({one.r},{one.m}) bits {text(found.bits)} {numbers}"
            print(f"{line}; {message}" if message else line)
        if not given.csv:
            print(f"{len(capture) - refused} read, {refused} refused")
        return tear(capture, given.capture)


# ---- telegrams and rod positions

TILTS = ["record", "cylinder", "tilt", "to", "penalty", "gap", "refusal"]


def tilt_row(number: int, one: Said) -> list[Any]:
    """A telegram as the columns of TILTS: the tilt has no sign, and its direction is a word."""
    telegram = one.message
    if not isinstance(telegram, Telegram):
        return [number, "", "", "", "", "", one.refused.number if one.refused else ""]
    tilt = f"{telegram.hundredths // 100}.{telegram.hundredths % 100:02}"
    return [number, telegram.cylinder, tilt, telegram.to or "", one.penalty, one.gap, 0]


def told(given: argparse.Namespace, kind: str, columns: list[str], others: str) -> int:
    """The records of one kind, as lines, a table or a picture."""
    draw = plotter(kind) if given.plot else None
    with opened(given.capture) as capture:
        table = csv.writer(sys.stdout, lineterminator="\n")
        tilts = given.csv and not given.table and kind == "telegram"
        if given.csv or given.table:
            table.writerow(TILTS if tilts else columns)
        points: list[tuple[int, Any]] = []
        left = 0
        for one in records(capture):
            if one is None or kind_of(one.r, one.m) != kind:
                left += 1
                continue
            what = said(one.r, one.m, one.readings, given.allowed)
            points.append((one.number, what.message))
            if given.csv or given.table:
                table.writerow(tilt_row(one.number, what) if tilts else row_of(one.number, what))
            elif not given.plot:
                print(f"{one.number} {what}" + ("" if what.refused else f", gap {what.gap}"))
        if left:
            say(f"{others}: {left} left out")
        if draw:
            try:
                draw(points, given.plot)
            except (OSError, ValueError) as error:
                raise Stop(f"cannot draw {given.plot}: {error}") from None
        return tear(capture, given.capture)


def telegrams(given: argparse.Namespace) -> int:
    others = "records of other codes than RM(2,5) are no telegrams"
    return told(given, "telegram", TELEGRAMS, others)


def rods(given: argparse.Namespace) -> int:
    given.allowed = DEFAULT_ALLOWANCE  # a rod position is read without a walk
    return told(given, "rod", RODS, "records of other codes than RM(1,m) are no rod positions")


def plotter(kind: str) -> Callable[[list[tuple[int, Any]], str], None]:
    """The drawing function, or a clear line where there is no matplotlib: before any work."""
    try:
        import matplotlib  # noqa: F401

        from . import _plot
    except ImportError:
        hint = "Debian: python3-matplotlib; pip: matplotlib"
        raise Stop(f"--plot needs matplotlib, which is not installed ({hint})") from None
    if kind == "telegram":
        return _plot.tilts
    return _plot.rods


# ---- making


def rolling(count: int, draw: np.random.Generator) -> Iterator[tuple[float, Optional[str]]]:
    """The tilts of a boat that rolls: each is near the one before."""
    height = 0.0
    for _ in range(count):
        height = float(np.clip(0.97 * height + draw.normal(0, 0.8), -15, 15))
        tilt = round(abs(height), 2)
        yield tilt, ("port" if height < 0 else "starboard") if tilt else None


def moving(i: int, most: int) -> int:
    """The position of a rod that goes up and down."""
    return round(most * (0.5 - 0.5 * math.cos(i * math.pi / 60)))


def words(given: argparse.Namespace, draw: np.random.Generator) -> Iterator[Any]:
    """The words to send, some thousand at a time."""
    tilts = rolling(given.count, draw)
    for first in range(0, given.count, 4096):
        rows = min(4096, given.count - first)
        if given.code:
            r, m = given.code
            yield encode_many(r, m, draw.integers(0, 2, (rows, dimension(r, m)), np.uint8))
            continue
        made = []
        for i in range(first, first + rows):
            if given.rods:
                made.append(Rod(given.rods, moving(i, 2**given.rods - 1)).word())
                continue
            cylinder = i % 8 if given.cylinder is None else given.cylinder
            made.append(Telegram(cylinder, *next(tilts)).word())
        yield np.stack(made)


def make(given: argparse.Namespace) -> int:
    r, m = given.code or ((1, given.rods) if given.rods else TELEGRAM)
    try:
        step = record_length(r, m)
    except Refused as refused:
        raise Stop(f"RM({r},{m}): {refused.text}", 2) from None
    if os.path.exists(given.out) and not given.force:
        raise Stop(f"{given.out} exists already; --force overwrites it")
    draw = np.random.default_rng(given.seed)
    bar = Progress(given.count)
    try:
        open(given.out, "wb").close()
        with Capture.open(given.out, writable=True) as capture:
            for sent in words(given, draw):
                clean = np.where(sent == 1, -given.size, given.size)
                noisy = np.rint(clean + draw.normal(0, given.noise * given.size, clean.shape))
                capture.extend(r, m, np.clip(noisy, -LARGEST, LARGEST).astype(np.int16))
                bar.at(len(capture))
    except OSError as error:
        raise Stop(f"cannot write {given.out}: {error.strerror or error}") from None
    finally:
        bar.end()
    what = "rod positions" if given.rods else "telegrams"
    what = f"random words of RM({r},{m})" if given.code else what
    how = f"noise {given.noise:g} of size {given.size}, seed {given.seed}"
    say(f"{given.count} {what}, {given.count * step} bytes, {how}")
    return 0


def readings(given: argparse.Namespace) -> int:
    with opened(given.capture) as capture:
        print("# r m, then the 2^m readings: one record a line")
        refused = 0
        for w in range(len(capture)):
            try:
                one = capture[w]
            except Refused as refusal:
                print(f"# record {w}: {refusal}")
                refused += 1
                continue
            print(one.r, one.m, "", " ".join(map(str, one.readings.tolist())))
        if refused:
            say(f"records with a pad bit are only named: {refused}")
        return tear(capture, given.capture) or int(refused > 0)


# ---- arguments


def whole(low: int, high: int) -> Callable[[str], int]:
    def one(given: str) -> int:
        try:
            value = int(given)
        except ValueError:
            raise argparse.ArgumentTypeError(f"{given!r} is not a whole number") from None
        if not low <= value <= high:
            raise argparse.ArgumentTypeError(f"{value} is not from {low} to {high}")
        return value

    return one


def noise(given: str) -> float:
    try:
        value = float(given)
    except ValueError:
        value = -1.0
    if not 0 <= value <= 100:
        raise argparse.ArgumentTypeError(f"{given!r} is not a number from 0 to 100")
    return value


def parser() -> argparse.ArgumentParser:
    called = os.path.basename(sys.argv[0])
    prog = called if called == SCRIPT else "python3 -m cinorbis"
    top = argparse.ArgumentParser(
        prog=prog, description=__doc__, formatter_class=argparse.RawDescriptionHelpFormatter
    )
    commands = top.add_subparsers(dest="command", required=True, metavar="COMMAND")

    def command(name: str, what: Any, summary: str) -> argparse.ArgumentParser:
        made = commands.add_parser(name, help=summary, description=summary)
        made.set_defaults(what=what)
        return made

    def of_capture(name: str, what: Any, summary: str) -> argparse.ArgumentParser:
        made = command(name, what, summary)
        made.add_argument("capture", metavar="CAPTURE", help="packed records; - is standard input")
        return made

    def searched(name: str, what: Any, summary: str) -> argparse.ArgumentParser:
        made = of_capture(name, what, summary)
        visits: Any = {"type": whole(0, 2**32 - 1), "default": 1_000_000, "metavar": "VISITS"}
        made.add_argument("--allowed", help="visits allowed to a search (1000000)", **visits)
        return made

    table = "as a table for other programs"
    one = searched("show", show, "records in words: code, readings, answer, telegram, or refusal")
    number = "its number from 0; -1 is the last (default: all)"
    one.add_argument("record", metavar="RECORD", type=int, nargs="?", help=number)
    one = searched("list", list_, "a line for each record, and a total")
    one.add_argument("--csv", action="store_true", help=table)
    message = "add what each says as a telegram or a rod position"
    one.add_argument("--messages", action="store_true", help=message)
    for name, what, summary in (
        ("telegrams", telegrams, "the tilt telegrams: records of RM(2,5)"),
        ("rods", rods, "the rod positions: records of RM(1,m)"),
    ):
        one = of_capture(name, what, summary) if what == rods else searched(name, what, summary)
        one.add_argument("--csv", action="store_true", help=table)
        page = "as the table that the desk page saves"
        one.add_argument("--table", action="store_true", help=page)
        picture = "draw them, to an .svg, .png or .pdf (needs matplotlib)"
        one.add_argument("--plot", metavar="FILE", help=picture)
    of_capture("readings", readings, "back to the text that sample/pack takes")

    one = command("make", make, "a capture of telegrams, rod positions or random words, with noise")
    one.add_argument("out", metavar="CAPTURE", help="the file to write")
    for name, kind, default, metavar, summary in (
        ("--cylinder", whole(0, 7), None, "C", "telegrams of one cylinder (default: all in turn)"),
        ("--count", whole(0, 10**9), 100, "N", "how many records (100)"),
        ("--size", whole(1, LARGEST), 400, "S", "of a clean reading (400)"),
        ("--noise", noise, 0.4, "X", "normal noise, in sizes of a clean reading (0.4)"),
        ("--seed", whole(0, 2**63), 1, "N", "the same seed makes the same capture (1)"),
    ):
        one.add_argument(name, type=kind, default=default, metavar=metavar, help=summary)
    kinds = one.add_mutually_exclusive_group()
    moving = "positions of a moving rod, as words of RM(1,M), in place of telegrams"
    kinds.add_argument("--rods", type=whole(1, 8), metavar="M", help=moving)
    random = "random words of RM(R,M) in place of telegrams"
    kinds.add_argument("--code", nargs=2, type=whole(0, 99), metavar=("R", "M"), help=random)
    one.add_argument("--force", action="store_true", help="overwrite a file that exists")
    return top


def main(arguments: Optional[Sequence[str]] = None) -> int:
    given = parser().parse_args(arguments)
    try:
        status: int = given.what(given)
        sys.stdout.flush()
        return status
    except Stop as stop:
        say(str(stop))
        return stop.status
    except BrokenPipeError:  # | head
        _quiet()
        return 0
    except OSError as error:
        _quiet()
        say(f"cannot go on: {error}")
        return 1
    except KeyboardInterrupt:
        say("interrupted")
        return 130


def _quiet() -> None:
    """Sends what is left of standard output nowhere, so that the last flush does not fail."""
    os.dup2(os.open(os.devnull, os.O_WRONLY), sys.stdout.fileno())


def run() -> NoReturn:
    sys.exit(main())


if __name__ == "__main__":
    run()
