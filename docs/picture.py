#!/usr/bin/env python3
"""docs/picture.py, from the repository's root: draws docs/link.svg. A word goes over the hull twice, once as agreed and once with plus taken for
one; what the search finds is what the program writes for both records (sample/decode), not numbers of this script's own."""
import os
import re
import subprocess
import sys
import tempfile

sys.path.insert(0, "tests")
import program_reference as reference

R, M = 1, 3
READINGS = [38, -41, 35, -12, 44, -30, -9, -36]
UNIT, WIDE, TALL = 46, 430, 366
INK, SOFT, FOR_ZERO, FOR_ONE, AGAINST = "#1f2933", "#7b8794", "#2b6cb0", "#b7791f", "#c53030"


def decode(rows):
    """what the program writes for records of these readings"""
    with tempfile.NamedTemporaryFile() as f:
        f.write(b"".join(reference.pack(R, M, row) for row in rows))
        f.flush()
        out = subprocess.run(["sample/decode", f.name], stdout=subprocess.PIPE, check=True).stdout.decode()
    return re.findall(r"info (\d+) penalty (\d+) margin (\d+) visits (\d+)", out)


def word_of(bits):
    """the word of information bits, by the tests' own reference"""
    return reference.word_of(reference.row_of([int(b) for b in bits], reference.information(R, M)), M)


def text(x, y, words, size=13, fill=INK, anchor="start", weight="normal"):
    return f'<text x="{x}" y="{y}" font-size="{size}" fill="{fill}" text-anchor="{anchor}" font-weight="{weight}">{words}</text>'


def panel(left, title, row, answer):
    bits, penalty, gap, visits = answer
    word = word_of(bits)
    middle = 145
    out = [text(left, 28, title, 15, weight="bold")]
    out.append(f'<line x1="{left}" y1="{middle}" x2="{left + UNIT * len(row)}" y2="{middle}" stroke="{SOFT}"/>')
    for j, (reading, bit) in enumerate(zip(row, word)):
        x = left + UNIT * j + 8
        against = reading != 0 and (reading < 0) != (bit == 1)
        fill = AGAINST if against else FOR_ONE if reading < 0 else FOR_ZERO
        high = 2 * abs(reading)
        y = middle if reading < 0 else middle - high
        out.append(f'<rect x="{x}" y="{y}" width="{UNIT - 16}" height="{high}" fill="{fill}" fill-opacity="0.85"/>')
        out.append(text(x + UNIT / 2 - 8, middle + high + 15 if reading < 0 else middle - high - 5, reading, 11, SOFT, "middle"))
        out.append(text(x + UNIT / 2 - 8, 275, bit, 17, INK, "middle", "bold"))
    last = f"<tspan font-weight='bold' text-decoration='underline'>{bits[-1]}</tspan>"
    out.append(text(left, 303, f"word found; information bits {bits[:-1]}{last}"))
    out.append(text(left, 323, f"penalty {penalty}, gap {gap}, {visits} visits"))
    return out


def legend():
    """what the colours mean"""
    out, x = [], 20
    for fill, words in (FOR_ZERO, "speaks for 0"), (FOR_ONE, "speaks for 1"), (AGAINST, "contradicted by the word found"):
        out.append(f'<rect x="{x}" y="{TALL - 25}" width="14" height="14" fill="{fill}" fill-opacity="0.85"/>')
        out.append(text(x + 20, TALL - 13, words))
        x += 140
    return out


def main():
    turned = [-x for x in READINGS]
    answers = decode([READINGS, turned])
    shapes = panel(20, "as agreed: plus speaks for 0", READINGS, answers[0])
    shapes += panel(20 + WIDE, "turned over: every reading negated", turned, answers[1])
    shapes += legend()
    label = f"RM({R},{M}): a word's readings, and the same ones negated; both decode cleanly, with the last information bit inverted"
    svg = f'<svg xmlns="http://www.w3.org/2000/svg" viewBox="0 0 {2 * WIDE} {TALL}" font-family="sans-serif" role="img" aria-label="{label}">\n'
    svg += f'<rect width="{2 * WIDE}" height="{TALL}" fill="white"/>\n' + "\n".join(shapes) + "\n</svg>\n"
    with open("docs/link.svg", "w", encoding="utf-8") as f:
        f.write(svg)


os.chdir(os.path.join(os.path.dirname(os.path.abspath(__file__)), ".."))
main()
