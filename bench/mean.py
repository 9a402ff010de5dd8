"""bench/mean.py FILE FILE: the table of `bench/run against`, from what both of its programs wrote: the geometric mean of their ratios, code by code.

The last columns, of calls that a change has not touched, show how far from 1 a ratio may be by chance."""

import math
import sys

CALLS = ("search, noisy", "search, no word", "search of floats, noisy", "quick reading", "inverse")
with open(sys.argv[1], encoding="utf-8") as first, open(sys.argv[2], encoding="utf-8") as second:
    pairs = list(zip((line.split() for line in first), (line.split() for line in second), strict=True))
print(f"| code | {' | '.join(CALLS)} |\n|{'---|' * (1 + len(CALLS))}")
searches = {}
for one, other in pairs:
    code = f"RM({one[0]},{one[1]})"
    means = [math.sqrt(float(x) * float(y)) for x, y in zip(one[2:], other[2:], strict=True)]
    searches[code] = means[:2]
    print(f"| {code} | {' | '.join(f'{mean:.3f}' for mean in means)} |")
worst = max(searches, key=lambda code: max(searches[code]))
every = [ratio for both in searches.values() for ratio in both]
print(f"search: worst ratio {max(searches[worst]):.3f} at {worst}, geometric mean {math.exp(sum(map(math.log, every)) / len(every)):.3f}")
