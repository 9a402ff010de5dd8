"""Telegrams through a noisy hull: how each way of reading them fares, and a picture of it.

    python3 examples/bench.py [PICTURE.svg]

Needs the package cinorbis (tools/wheel makes it); the picture needs matplotlib.
"""

import sys

import numpy as np

import cinorbis
from cinorbis import Telegram

COUNT, SIZE = 4000, 400
NOISES = (0.2, 0.4, 0.6, 0.8, 1.0, 1.2)
COLUMNS = ("quick right", "best right", "refused", "wrong", "sure at once")

# %% Telegrams of all cylinders, drawn at random
draw = np.random.default_rng(7)
sent = [
    Telegram(int(draw.integers(8)), int(draw.integers(1, 1501)) / 100, str(to))
    for to in draw.choice(["port", "starboard"], COUNT)
]
words = np.stack([telegram.word() for telegram in sent])
clean = np.where(words == 1, -SIZE, SIZE)


# %% One noise: the share of telegrams that each way of reading gets right
def fared(noise: float) -> tuple[float, ...]:
    """The shares of COLUMNS, and the visits that a search takes."""
    noisy = clean + draw.normal(0, noise * SIZE, clean.shape)
    heard = np.clip(np.rint(noisy), -SIZE, SIZE).astype(np.int16)  # clipped at the word's own size
    quick = cinorbis.quick_many(2, 5, heard)
    best = cinorbis.search_many(2, 5, heard)
    # with no visits it answers only where the quick reading is surely right
    early = cinorbis.early_many(2, 5, heard, allowed=0)
    read = Telegram.read_many(heard)
    right = (read.refusal == 0) & (best.word == words).all(axis=1)
    shares = (
        (quick.word == words).all(axis=1),
        right,
        read.refusal != 0,
        (read.refusal == 0) & ~right,
        early.refusal == 0,
    )
    return *(float(share.mean()) for share in shares), float(best.visits.mean())


print("noise  " + "  ".join(f"{name:>12}" for name in COLUMNS) + "  visits a word")
table = []
for noise in NOISES:
    row = fared(noise)
    table.append(row)
    print(
        f"{noise:5.1f}  " + "  ".join(f"{share:12.1%}" for share in row[:-1]) + f"  {row[-1]:13.0f}"
    )

# %% A picture
if len(sys.argv) > 1:
    try:
        import matplotlib
    except ImportError:
        sys.exit("the picture needs matplotlib, which is not installed")
    matplotlib.use("Agg")
    from matplotlib import pyplot

    figure, axes = pyplot.subplots(figsize=(7, 4), layout="constrained")
    for column, name in enumerate(COLUMNS):
        axes.plot(NOISES, [100 * row[column] for row in table], marker="o", label=name)
    axes.set_xlabel("noise, in sizes of a clean reading")
    axes.set_ylabel("telegrams, percent")
    axes.set_title(f"{COUNT:,} telegrams through a noisy hull")
    axes.legend(fontsize="small")
    figure.savefig(sys.argv[1])
