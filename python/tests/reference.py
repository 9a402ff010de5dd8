"""The rules (docs/RULES.md) once more in NumPy, by their definitions, without the package."""

from functools import lru_cache
from itertools import product

import numpy as np


def kinds(r, m, named=None):
    """The information indices (§1.1), less the named ones (§15)."""
    return [
        i
        for i in range(1 << m)
        if bin(i).count("1") >= m - r and not (named is not None and named[i])
    ]


def word_of(m, u):
    n = 1 << m
    return np.array(
        [sum(int(u[i]) for i in range(n) if i & j == j) % 2 for j in range(n)], np.uint8
    )


@lru_cache(None)
def _all(m, indices):
    rows = np.array([[int(i & j == j) for j in range(1 << m)] for i in indices], np.int64)
    bits = np.array(list(product((0, 1), repeat=len(indices))), np.int64)
    return bits.astype(np.uint8), (bits @ rows % 2).astype(np.uint8)


def every_word(r, m, named=None):
    """All information bits and all words, row by row."""
    return _all(m, tuple(kinds(r, m, named)))


def penalty(readings, words):
    wide = np.asarray(readings, np.int64)
    return (np.abs(wide) * np.where(words == 1, wide > 0, wide < 0)).sum(-1)


def best(r, m, readings, named=None):
    """(bits, word, penalty, gap) of the best word; a gap of 0 is a tie."""
    bits, words = every_word(r, m, named)
    losses = penalty(readings, words)
    order = np.sort(losses)
    at = int(np.argmin(losses))
    return bits[at], words[at], int(order[0]), int(order[1] - order[0])


def value(readings, path):
    """The value at index len(path), by the steps of §4."""
    n = len(readings)
    if n == 1:
        return readings[0]
    low, high = readings[: n // 2], readings[n // 2 :]
    if len(path) < n // 2:
        return value(
            [
                min(abs(x), abs(y)) * (1 if (x < 0) == (y < 0) else -1) if x and y else 0
                for x, y in zip(low, high)
            ],
            path,
        )
    a = word_of(n.bit_length() - 2, path[: n // 2])
    return value([y - x if bit else y + x for x, y, bit in zip(low, high, a)], path[n // 2 :])


def walk(r, m, readings, allowed=1 << 40, named=None):
    """§5: what is held at the end as [(penalty, path)], the visits (None: out of them), and
    whether a value was 0 at an information index."""
    readings, information = [int(x) for x in readings], set(kinds(r, m, named))
    held, visits, zero = [], 0, False
    stack = [(0, [], None)]
    while stack:
        loss, path, bit = stack.pop()
        if bit is not None:
            if visits == allowed:
                return held, None, zero
            visits += 1
            if len(held) == 2 and loss >= held[1][0]:
                continue
            path = path + [bit]
        if len(path) == 1 << m:
            if not held or loss < held[0][0]:
                held = [(loss, path)] + held[:1]
            else:
                held = [held[0], (loss, path)]
            continue
        here = value(readings, path)
        first = int(here < 0) if len(path) in information else 0
        zero |= here == 0 and len(path) in information

        def extended(b):
            return (
                loss + (abs(here) if (here > 0 and b == 1) or (here < 0 and b == 0) else 0),
                path,
                b,
            )

        if len(path) in information:
            stack.append(extended(1 - first))
        stack.append(extended(first))
    return held, visits, zero


def quick(r, m, readings, named=None):
    path, information = [], set(kinds(r, m, named))
    for i in range(1 << m):
        path.append(int(value([int(x) for x in readings], path) < 0) if i in information else 0)
    word = word_of(m, path)
    return (
        np.array([path[i] for i in sorted(information)], np.uint8),
        word,
        int(penalty(readings, word)),
    )
