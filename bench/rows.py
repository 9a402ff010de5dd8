"""bench/rows.py [WORDS]: noisy words of RM(2,5) searched from Python: one call per word, and the loop in C by one thread and by all.

Needs the package cinorbis (tools/wheel). The sides take turns, the least of five rounds counts, and all must agree."""

import sys
import time

import numpy as np

import cinorbis

COUNT = int(sys.argv[1]) if len(sys.argv) > 1 else 10_000
draw = np.random.default_rng(1)
words = cinorbis.encode_many(2, 5, draw.integers(0, 2, (COUNT, 16), np.uint8))
rows = np.rint(np.where(words == 1, -400, 400) + draw.normal(0, 200, words.shape)).astype(np.int16)


def one_by_one():
    return np.stack([cinorbis.search(2, 5, row).bits for row in rows])


SIDES = {
    "a call a word": one_by_one,
    "rows, one thread": lambda: cinorbis.search_many(2, 5, rows, threads=1).bits,
    "rows, all threads": lambda: cinorbis.search_many(2, 5, rows).bits,
}
least = dict.fromkeys(SIDES, float("inf"))
for _ in range(5):
    found = []
    for name, side in SIDES.items():
        begun = time.perf_counter()
        found.append(side())
        least[name] = min(least[name], time.perf_counter() - begun)
    assert all(np.array_equal(one, found[0]) for one in found)
slowest = least["a call a word"]
print(f"| {COUNT:,} words of RM(2,5), noise 0.5 | ms | ratio |\n|---|---|---|")
for name, seconds in least.items():
    print(f"| {name} | {1000 * seconds:.1f} | {seconds / slowest:.2f} |")
