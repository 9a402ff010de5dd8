"""What the program must write for any bytes, from docs/RULES.md alone and sharing nothing with the crates: records, the walk of tests/rules.py, and
a list of all words where there are at most 2^12, with which the walk has to agree."""
import functools

from rules import Walk, information, penalty, row_of, word_of

ALLOWED = 1_000_000


# ---- penalty and gap over all words
def best_of_all(r, m, readings):
    info = information(r, m)
    k = sum(info)
    all_bits = [[(w >> (k - 1 - i)) & 1 for i in range(k)] for w in range(2**k)]
    found = sorted((penalty(readings, word_of(row_of(b, info), m)), b) for b in all_bits)
    return found[0][1], found[0][0], found[1][0] - found[0][0]


@functools.lru_cache
def search(r, m, readings):
    """('found', bits, penalty, gap, visits), or ('refused', number)."""
    info = information(r, m)
    walk = Walk(readings, info, ALLOWED)
    if walk.visits is None:
        return ("refused", 6)
    (least, row), (next_least, _) = walk.held
    answer = [bit for bit, kind in zip(row, info) if kind], least, next_least - least
    if sum(info) <= 12:
        by_list = best_of_all(r, m, readings)
        assert by_list[1:] == answer[1:] and (answer[2] == 0 or by_list[0] == answer[0]), (r, m, readings)
    if answer[2] == 0:
        return ("refused", 7)
    return ("found", *answer, walk.visits)


# ---- records and lines
def pack(r, m, readings, pad=0):
    """4 bits m, 4 bits r, 12 bits for each reading in two's complement, then the pad (only m = 0 has one)."""
    text = f"{m:04b}{r:04b}" + "".join(f"{v & 0xFFF:012b}" for v in readings)
    if m == 0:
        text += f"{pad:04b}"
    return bytes(int(text[i : i + 8], 2) for i in range(0, len(text), 8))


def output(capture):
    """the bytes that the program writes for a capture"""
    read = refused = 0
    out = []
    at = 0
    while at < len(capture):
        m, r = capture[at] >> 4, capture[at] & 15
        size = (12 * 2**m + 7) // 8
        text = "".join(f"{b:08b}" for b in capture[at + 1 : at + 1 + size])
        if m > 8 or r > m:
            result = ("refused", 1)
        elif len(text) < 8 * size:
            result = ("refused", 8)
        elif "1" in text[12 * 2**m : 8 * size]:
            result = ("refused", 9)
        else:
            fields = [int(text[12 * j : 12 * j + 12], 2) for j in range(2**m)]
            # the bottom rail, -2,048, is read as -2,047
            result = search(r, m, tuple(max(-2047, f - 4096) if f >= 2048 else f for f in fields))
        w = read + refused
        if result[0] == "found":
            _, bits, least, gap, visits = result
            out.append(f"{w} info {''.join(map(str, bits))} penalty {least} margin {gap} visits {visits}")
            read += 1
        else:
            out.append(f"{w} refused {result[1]}")
            refused += 1
            if result[1] in (1, 8):
                break
        at += 1 + size
    out.append(f"{read} read, {refused} refused")
    return "".join(line + "\n" for line in out).encode()
