"""Values as C: an expression's text, and what has to be known of it to write it at another place than where it is made."""
import re

from .module import BITS

CTYPE = {"i1": "bool", "i8": "uint8_t", "i16": "uint16_t", "i32": "uint32_t", "i64": "uint64_t", "float": "float", "ptr": "unsigned char *"}
PRODUCTS, SUMS, ORDERS = ("*", "/", "%"), ("+", "-"), ("<", "<=", ">", ">=", "==", "!=")
NEGATED = {"==": "!=", "!=": "==", "<": ">=", ">=": "<", "<=": ">", ">": "<="}
SIGN = {"add": "+", "sub": "-", "mul": "*", "udiv": "/", "urem": "%", "and": "&", "or": "|", "xor": "^", "shl": "<<", "lshr": ">>", "fadd": "+",
        "fsub": "-", "eq": "==", "ne": "!=", "ult": "<", "ule": "<=", "slt": "<", "olt": "<", "ole": "<=", "oeq": "=="}


class Expression:
    """text      as it is written
    sign      its outermost sign; None: it binds closer than any
    reads     the variables that it reads
    memory    whether it reads memory
    call      whether it makes a call
    safe      whether it may be made where it is not needed: nothing in it can go wrong, and it reads and calls nothing outside
    parts     of a comparison: left, sign, right, and whether of floats; of an address: what is indexed, and the index"""

    def __init__(self, text, sign=None, of=(), reads=(), memory=False, call=False, safe=True, parts=None):
        self.text, self.sign, self.parts = text, sign, parts
        self.reads = frozenset(reads).union(*(o.reads for o in of))
        self.memory = memory or any(o.memory for o in of)
        self.call = call or any(o.call for o in of)
        self.safe = safe and not self.memory and all(o.safe for o in of)
        self.opposite = None

    def under(self, sign, left=False):
        """As an operand of a sign, in brackets unless everyone knows that it needs none."""
        bare = (not self.sign or sign in SUMS and (self.sign in PRODUCTS or left and self.sign in SUMS)
                or sign in ORDERS and self.sign in SUMS + PRODUCTS)
        return self.text if bare else f"({self.text})"

    def closed(self):
        """As an operand of a cast or a sign before it."""
        return self.under(None)


def joined(sign, a, b, safe=True):
    return Expression(f"{a.under(sign, True)} {sign} {b.under(sign)}", sign, (a, b), safe=safe)


def compared(sign, a, b, floats=False):
    e = joined(sign, a, b)
    e.parts = (a, sign, b, floats)
    return e


def negated(e):
    """Not e. Of floats !(x < y) is not x >= y, since neither holds of what is no number."""
    if not e.opposite:
        if e.sign in ORDERS and e.parts and not e.parts[3]:
            a, sign, b, _ = e.parts
            e.opposite = compared(NEGATED[sign], a, b)
        else:
            e.opposite = Expression(f"!{e.closed()}", None, (e,))
        e.opposite.opposite = e
    return e.opposite


def number(kind, n, typed):
    """A constant of so many bits; typed, or if it is large, it says of which type."""
    n %= 2 ** BITS[kind]
    if kind == "i64" and (typed or n >= 2 ** 31):
        return f"UINT64_C({n})"
    return f"{n}u" if kind == "i32" and (typed or n >= 2 ** 31) else str(n)


# ---------------------------------------------------------------- one of two values


def selected(kind, condition, a, b):
    """condition ? a : b in the form of which gcc makes no jump: both are made, so both have to be safe. gcc sees a minimum or maximum of
    numbers with a sign only where they are compared as such, and jumps where a comparison with a sign decides between unsigned numbers."""
    of = (condition, a, b)
    left, sign, right, floats = condition.parts or (None, None, None, False)
    texts = (left and left.text, right and right.text)
    if (a.text, b.text) == ("1", "0") and kind == "i8":
        return Expression(condition.text, condition.sign, of)
    bare = [re.fullmatch(r"signed32\((.*)\)", text) for text in texts] if kind == "i32" and sign == "<" else [None]
    if all(bare) and {a.text, b.text} == {found[1] for found in bare}:
        which = "lesser" if a.text == bare[0][1] else "greater"
        return Expression(f"{which}_i32({bare[0][1]}, {bare[1][1]})", None, of)
    absolute = bare[0] and (a.text, b.text) == (f"0 - {bare[0][1]}", bare[0][1])
    if sign == "<" and (set(texts) == {a.text, b.text} or absolute and texts[1] == "0"):
        return Expression(f"{condition.text} ? {a.text} : {b.text}", "?", of)
    return Expression(f"either_{kind}({condition.text}, {a.text}, {b.text})", None, of)
