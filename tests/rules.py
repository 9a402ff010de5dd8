"""The rules (docs/RULES.md) in plain Python, by their text alone and sharing nothing with the crates: the code, penalties, values and the walk.
For tests/program_reference.py; the tests of the Python package have a reference of their own, python/tests/reference.py."""
import functools


# ---- the code (§1); a row of named indices leaves a smaller set (§15)
def information(r, m, named=None):
    """For each index, whether it carries information."""
    return [bin(i).count("1") >= m - r and not (named is not None and named[i]) for i in range(2**m)]


def word_of(u, m):
    """Word bit j is the sum modulo 2 of all u_i where every one-bit of j is also a one-bit of i."""
    n = 2**m
    return [sum(u[i] for i in range(n) if i & j == j) % 2 for j in range(n)]


def row_of(bits, info):
    rest = iter(bits)
    return [next(rest) if kind else 0 for kind in info]


# ---- penalties (§3)
def loss(value, bit):
    return abs(value) if (value > 0 and bit == 1) or (value < 0 and bit == 0) else 0


def penalty(readings, word):
    return sum(loss(value, bit) for value, bit in zip(readings, word))


# ---- values (§4)
def lower(x, y):
    size = min(abs(x), abs(y))
    return size if x * y > 0 else -size if x * y < 0 else 0


def fold(u):
    """The word of a row of choices, by halves."""
    if len(u) == 1:
        return u
    h = len(u) // 2
    a, b = fold(u[:h]), fold(u[h:])
    return [x ^ y for x, y in zip(a, b)] + b


def value_from(readings):
    """The value at the index after the choices u. The row for a block of 2^level indices depends on the choices before it alone."""
    top = len(readings).bit_length() - 1

    @functools.lru_cache(maxsize=5000)
    def row(level, before):
        if level == top:
            return readings
        h = 2**level
        start = len(before) // (2 * h) * (2 * h)
        above = row(level + 1, before[:start])
        if start == len(before):
            return [lower(x, y) for x, y in zip(above[:h], above[h:])]
        a = fold(list(before[start:]))
        return [y - x if bit else y + x for x, y, bit in zip(above[:h], above[h:], a)]

    return lambda u: row(0, tuple(u))[0]


# ---- the walk (§5)
class OutOfVisits(Exception):
    pass


class Walk:
    """A walk that has ended: the held paths with their penalties, best and second; the visits, None if they ran out; and whether a value was 0 at an
    information index."""

    def __init__(self, readings, info, allowed):
        self.value, self.info, self.allowed = value_from(readings), info, allowed
        self.held, self.visits, self.zero = [], 0, False
        try:
            self.onward([], 0)
        except OutOfVisits:
            self.visits = None

    def extend(self, path, cost, bit):
        if self.visits == self.allowed:
            raise OutOfVisits
        self.visits += 1
        if len(self.held) < 2 or cost < self.held[1][0]:
            self.onward(path + [bit], cost)

    def onward(self, path, cost):
        if len(path) == len(self.info):
            if not self.held or cost < self.held[0][0]:
                self.held = [(cost, path)] + self.held[:1]
            else:
                self.held = [self.held[0], (cost, path)]
            return
        here = self.value(path)
        if not self.info[len(path)]:
            self.extend(path, cost + loss(here, 0), 0)
            return
        self.zero |= here == 0
        first = 1 if here < 0 else 0
        self.extend(path, cost + loss(here, first), first)
        self.extend(path, cost + loss(here, 1 - first), 1 - first)
