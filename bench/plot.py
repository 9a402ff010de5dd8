#!/usr/bin/env python3
"""plot.py GROW.txt TABLE.md PLOT.svg: reads what `bench grow` printed and writes a table (Markdown) and a plot (SVG) of visits per word,
a panel for each noise."""
import math
import os
import platform
import subprocess
import sys

LEFT, TOP, WIDE, HIGH, APART = 76, 62, 240, 300, 56
COLOURS = {"3": "#7b8794", "4": "#8a6d3b", "5": "#2f855a", "6": "#b7791f", "7": "#6b46c1", "8": "#2b6cb0"}  # by m


def machine():
    """the processor's name, as lscpu has it"""
    printed = subprocess.run(["lscpu"], stdout=subprocess.PIPE, text=True, check=True, env={**os.environ, "LC_ALL": "C"}).stdout
    names = [line.split(":", 1)[1].strip() for line in printed.split("\n") if line.startswith("Model name")]
    return f"{names[0] if names else 'a processor without a name'} ({platform.machine()})"


def rows(path):
    with open(path, encoding="utf-8") as f:
        names = f.readline().split()
        return [dict(zip(names, line.split())) for line in f if line.strip()]


def table(data, path):
    levels = sorted({d["noise"] for d in data})
    codes = {}
    for d in data:
        codes.setdefault((int(d["m"]), int(d["r"]), int(d["k"])), {})[d["noise"]] = d
    head = "| code | k | " + " | ".join(f"visits, noise {n} | µs | out of visits" for n in levels) + " |"
    lines = [
        "# How the search's cost grows",
        "",
        "`bench/run grow`: the search with the default allowance, 200,000 visits, of 64 random words for each code and noise.",
        "The columns are mean visits, mean time per word, and how many words ran out of visits.",
        "Noise is normal, as a multiple of the word's size.",
        f"Visits are those of the written walk, the same on every machine; times are of one run on {machine()}, not emulated.",
        "",
        head,
        "|---|---|" + "---|---|---|" * len(levels),
    ]
    for (m, r, k), by in sorted(codes.items()):
        cells = []
        for n in levels:
            d = by[n]
            cells.append(f"{float(d['visits']):.0f} | {float(d['ns']) / 1000:.1f} | {d['refused']} of 64")
        lines.append(f"| RM({r},{m}) | {k} | " + " | ".join(cells) + " |")
    with open(path, "w", encoding="utf-8") as f:
        f.write("\n".join(lines) + "\n")


def panel(left, noise, data, y_most):
    """The codes RM(r,m) at one noise: r along the axis, a line for each m."""
    r_most = max(int(d["r"]) for d in data)

    def at(d):
        y = math.log10(max(float(d["visits"]), 1)) / y_most
        return left + int(d["r"]) / r_most * WIDE, TOP + HIGH - y * HIGH

    out = [f'<text x="{left}" y="{TOP - 12}" font-weight="bold">noise {noise}</text>']
    for y in range(y_most + 1):
        at_y = TOP + HIGH - y / y_most * HIGH
        out.append(f'<line x1="{left}" y1="{at_y:.1f}" x2="{left + WIDE}" y2="{at_y:.1f}" stroke="#ddd"/>')
        if left == LEFT:
            out.append(f'<text x="{left - 8}" y="{at_y + 4:.1f}" text-anchor="end">{10 ** y:,}</text>')
    for r in range(r_most + 1):
        at_x = left + r / r_most * WIDE
        out.append(f'<line x1="{at_x:.1f}" y1="{TOP}" x2="{at_x:.1f}" y2="{TOP + HIGH}" stroke="#eee"/>')
        out.append(f'<text x="{at_x:.1f}" y="{TOP + HIGH + 18}" text-anchor="middle">{"r = " if r == 0 else ""}{r}</text>')
    for m, colour in COLOURS.items():
        codes = sorted((d for d in data if d["m"] == m and d["noise"] == noise), key=lambda d: int(d["r"]))
        line = " ".join("%.1f,%.1f" % at(d) for d in codes)
        out.append(f'<polyline points="{line}" fill="none" stroke="{colour}" stroke-width="1.2" stroke-opacity="0.6"/>')
        for d in codes:
            x, y = at(d)
            fill = "white" if int(d["refused"]) else colour
            name = f'<title>RM({d["r"]},{m}): {float(d["visits"]):,.0f} visits</title>'
            out.append(f'<circle cx="{x:.1f}" cy="{y:.1f}" r="3.4" fill="{fill}" stroke="{colour}" stroke-width="1.5">{name}</circle>')
        x, y = at(codes[-1])
        out.append(f'<text x="{x + 6:.1f}" y="{y - 6:.1f}" font-size="11" fill="{colour}">m = {m}</text>')
    return out


def plot(data, path):
    y_most = math.ceil(max(math.log10(max(float(d["visits"]), 1)) for d in data))
    levels = sorted({d["noise"] for d in data})
    width, height = LEFT + len(levels) * (WIDE + APART), TOP + HIGH + 62
    out = [
        f'<svg xmlns="http://www.w3.org/2000/svg" viewBox="0 0 {width} {height}" font-family="sans-serif" font-size="12">',
        f'<rect width="{width}" height="{height}" fill="white"/>',
        f'<text x="{LEFT}" y="20" font-size="14">Visits per word of RM(r,m): r along the axis, a line for each m from 3 to 8</text>',
    ]
    for i, noise in enumerate(levels):
        out += panel(LEFT + i * (WIDE + APART), noise, data, y_most)
    foot = "Hollow: some of the 64 words needed more than 200,000 visits. Noise is a multiple of the word's size."
    out.append(f'<text x="{LEFT}" y="{height - 14}">{foot}</text>')
    out.append("</svg>")
    with open(path, "w", encoding="utf-8") as f:
        f.write("\n".join(out) + "\n")


def main():
    data = rows(sys.argv[1])
    table(data, sys.argv[2])
    plot(data, sys.argv[3])


main()
