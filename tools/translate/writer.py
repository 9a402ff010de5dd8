"""One function as statements: its instructions become expressions, its blocks if, while and switch.

A value that is used once is not written where it is made but kept back (`pending`) until its use; a block's last instruction writes down
whatever is still kept back. `flush` is what holds an expression in its place: it writes those down that the next thing would change."""
import re
import struct
from collections import Counter, defaultdict

from .expressions import CTYPE, SIGN, Expression, compared, joined, negated, number
from .module import ALIGN, BITS, is_name, stop
from .places import kind
from .statements import Assign, Do, If, Jump, Return, Switch, While


class Writer:
    def __init__(self, function, table, names):
        self.function, self.table, self.names = function, table, names
        self.out = []  # the statements of the list that is being written
        self.declared = {}  # variables and their kinds
        self.pending, self.kinds = {}, {}  # values that are not yet written, and the kinds of all that were kept back
        self.left = Counter(function.uses)  # how many uses of each value are still to come
        self.args = {name: kind_ for kind_, name in function.args}
        self.emitted = set()
        self.escaping = escaping_places(function, table)

    def statements(self):
        """All of the function; stops if a block or a value is left over."""
        self.region("start", None, [])
        if set(self.function.blocks) != self.emitted:
            stop("a block that was not written", f"{self.function.origin} {sorted(set(self.function.blocks) - self.emitted)}")
        if any(self.left.values()) or self.pending:
            stop("a value that was not used", f"{self.function.origin} {+self.left}")
        return self.out

    # ---------------------------------------------------------------- variables and values

    def variable(self, value, its_kind):
        name = self.names.get(value) or value[1:].replace(".", "_")
        if self.declared.setdefault(name, its_kind) != its_kind:
            stop("two kinds of value have one name", f"{self.function.origin} {name}")
        return name

    def place(self, name):
        return self.variable(name, kind(self.function, name))

    def constant(self, type_, text, typed):
        if type_ == "i1":
            return text
        if type_ == "float":
            value = struct.unpack(">d", bytes.fromhex(text[2:]))[0] if text.startswith("0x") else float(text)
            if value != value or abs(value) == float("inf"):
                stop("a constant that is no number", f"{self.function.origin} {text}")
            return f"{value!r}f"
        return number(type_, int(text), typed)

    def get(self, type_, value, typed=False):
        """A value where it is used."""
        if not is_name(value):
            text = self.constant(type_, value, typed)
            return Expression(text, "-" if text.startswith("-") else None)
        self.left[value] -= 1
        if value in self.pending:
            return self.pending[value] if self.left[value] else self.pending.pop(value)
        if value in self.function.base:
            return self.address(*self.function.base[value])
        name = self.names[value] if value in self.args else self.variable(value, type_)
        if value in self.args and self.function.export and type_ == "ptr":
            return Expression(f"(unsigned char *){name}", "()", reads=[name])
        return Expression(name, reads=[name])

    def address(self, place, offset):
        name = self.place(place)
        if kind(self.function, place).startswith("bytes"):
            return Expression(f"{name}.b + {offset}" if offset else f"{name}.b", "+" if offset else None, parts=(f"{name}.b", str(offset)))
        return Expression(f"(unsigned char *)&{name} + {offset}" if offset else f"(unsigned char *)&{name}", "+" if offset else "()")

    def keep(self, value, its_kind, e):
        """A new value: it is kept back if it is used once, or is but a name. A call is never kept back past a read of memory or a call."""
        self.kinds[value] = its_kind
        if e.memory or e.call:
            self.flush(lambda other: other.call)
        if self.left[value] == 1 or re.fullmatch(r"\w+", e.text) and not e.memory:
            self.pending[value] = e
        else:
            self.out.append(Assign(self.variable(value, its_kind), its_kind, e))

    def flush(self, which=lambda e: True):
        for value in [value for value, e in self.pending.items() if which(e)]:
            e = self.pending.pop(value)
            self.out.append(Assign(self.variable(value, self.kinds[value]), self.kinds[value], e))

    def before_write(self, place=None):
        """What was read and is now going to be written, a variable or (place None) memory, is read before."""
        outside = place is None or place in self.escaping or kind(self.function, place).startswith("bytes")
        name = self.place(place) if place else None
        self.flush(lambda e: name in e.reads or outside and (e.memory or e.call))

    def held(self, type_, address):
        """A variable, or a slice's part, that is the whole of what is read or written at an address: its text and place."""
        function, (place, offset) = self.function, self.function.base.get(address, (None, 0))
        if place and (function.places[place].align % ALIGN[type_ if type_ != "i1" else "i8"] or offset % ALIGN[type_ if type_ != "i1" else "i8"]):
            stop("an access that is not aligned", f"{function.origin} {address}")
        if place and function.places[place].type == type_ and not offset:
            return self.place(place), place
        if place in function.slices and (offset, type_) in ((0, "ptr"), (8, "i64")):
            return self.place(place) + (".n" if offset else ".at"), place
        return None, None

    # ---------------------------------------------------------------- instructions, by their forms

    def load(self, i):
        text, place = self.held(i.type, i.at)
        if text:
            self.left[i.at] -= 1
            return self.keep(i.result, i.type, Expression(text, reads=[self.place(place)], memory=place in self.escaping))
        at = self.get("ptr", i.at)
        self.keep(i.result, i.type, Expression(element(at) if i.type == "i8" else f"get_{i.type}({at.text})", None, (at,), memory=True))

    def store(self, i):
        text, place = self.held(i.type, i.at)
        e = self.get(i.type, i.value)
        if text:
            self.left[i.at] -= 1
            self.before_write(place)
            if i.type == "i1" and e.sign in ("&", "|", "^"):  # which C makes an int
                e = Expression(f"(uint8_t)({e.text})", None, (e,))
            self.out.append(Assign(text, i.type, e))
            return
        at = self.get("ptr", i.at)
        self.before_write()
        self.out.append(Do(f"{element(at)} = {e.text};", (at, e)) if i.type == "i8" else Do(f"put_{i.type}({at.text}, {e.text});"))

    def step(self, i):
        if i.result in self.function.base:
            self.left[i.at] -= 1
            return
        at, by = self.get("ptr", i.at), self.get("i64", i.by)
        if i.by == "0":
            return self.keep(i.result, "ptr", at)
        e = joined("+", at, by)
        e.parts = (at.closed(), by.text)
        self.keep(i.result, "ptr", e)

    def pair(self, i):
        at, length = self.get("ptr", i.at), self.get("i64", i.length)
        same = at.text.endswith(".at") and length.text == at.text[:-3] + ".n"
        self.keep(i.result, "slice", Expression(at.text[:-3] if same else f"slice_of({at.text}, {length.text})", None, (at, length)))

    def two(self, i):
        how, right = i.how, i.right
        power = int(right).bit_length() - 1 if how in ("mul", "udiv") and i.type == "i64" and right.isdigit() else 0
        if power >= 8 and int(right) == 1 << power:  # the same, in the form in which gcc sees that bytes make up a number
            how, right = {"mul": "shl", "udiv": "lshr"}[how], str(power)
        a, b = self.get(i.type, i.left, how == "shl" or not is_name(right)), self.get(i.type, right)
        if i.type == "i1":
            if how not in ("and", "or", "xor"):
                stop("arithmetic of bools", f"{self.function.origin} {i.result}")
            return self.keep(i.result, "i1", negated(a) if how == "xor" and right == "true" else joined(SIGN[how], a, b))
        if how in ("add", "sub") and right == "0":
            return self.keep(i.result, i.type, a)
        # a division by 0 and a shift by too much mean nothing: they are made only where the module makes them
        safe = how not in ("udiv", "urem", "shl", "lshr") or not is_name(right) and int(right) != 0
        if i.type in ("i8", "i16"):
            if how in ("mul", "shl"):  # C would multiply with a sign
                a = Expression(f"(uint32_t){a.closed()}", None, (a,))
            return self.keep(i.result, i.type, Expression(f"({CTYPE[i.type]})({joined(SIGN[how], a, b).text})", None, (a, b), safe=safe))
        self.keep(i.result, i.type, joined(SIGN[how], a, b, safe))

    def compare(self, i):
        a, b = self.get(i.type, i.left, not is_name(i.right)), self.get(i.type, i.right)
        if i.how == "slt":
            a = Expression(f"signed{BITS[i.type]}({a.text})" if is_name(i.left) else i.left, None, (a,))
            b = Expression(f"signed{BITS[i.type]}({b.text})" if is_name(i.right) else i.right, None, (b,))
        self.keep(i.result, "i1", compared(SIGN[i.how], a, b, i.type == "float"))

    def cast(self, i):
        if i.how == "sext" and i.type == "i1" or i.how == "fptoui" and not is_name(i.value):
            stop("a line of no known form", f"{self.function.origin} {i.result}")
        if not is_name(i.value):
            return self.keep(i.result, i.to, Expression(cast_constant(i)))
        e = self.get(i.type, i.value)
        if i.to == "i1":
            return self.keep(i.result, "i1", compared("!=", Expression(e.closed(), None, (e,)), Expression("0")))
        text = f"signed{BITS[i.type]}({e.text})" if i.how == "sext" else e.closed()
        self.keep(i.result, i.to, Expression(f"({CTYPE[i.to]}){text}", None, (e,), safe=i.how != "fptoui"))

    def minus(self, i):
        e = self.get("float", i.value)
        self.keep(i.result, "float", Expression(f"-{e.closed()}", "-", (e,)))

    def count(self, i):
        e = self.get(i.type, i.value)
        name = {"ctpop": "ones", "ctlz": "zeros_above", "cttz": "zeros_below"}[i.how]
        self.keep(i.result, i.type, Expression(f"{name}{i.type[1:]}({e.text})", None, (e,)))

    def move(self, i):
        function = self.function
        own = [function.base[v][0] if v in function.base else "argument" if v in self.args else None for v in (i.to, i.source)]
        if i.source in self.args and i.to in function.copied.values():
            self.left.subtract((i.to, i.source))  # the argument itself is the place
        elif None in own or own[0] == own[1]:
            stop("a copy that may overlap", f"{function.origin} {i.to} {i.source}")
        elif own == [i.to, i.source] and kind(function, i.to) == kind(function, i.source) and function.places[i.to].size == int(i.size):
            self.left.subtract((i.to, i.source))
            self.flush(lambda e: e.call)  # it may write the source
            self.before_write(i.to)
            source = Expression(self.place(i.source), reads=[self.place(i.source)], memory=True)
            self.out.append(Assign(self.place(i.to), kind(function, i.to), source))
        elif i.source in function.slices and i.size == "16":
            self.left[i.source] -= 1
            at = self.get("ptr", i.to)
            self.before_write()
            self.out.append(Do(f"put_slice({at.text}, {self.place(i.source)});"))
        else:
            to, source = self.get("ptr", i.to), self.get("ptr", i.source)
            self.before_write()
            if own[0] in function.places:
                self.before_write(own[0])
            self.out.append(Do(f"copy({to.text}, {source.text}, {i.size});"))

    def fill(self, i):
        at, e = self.get("ptr", i.at), self.get("i8", i.value)
        self.before_write()
        self.out.append(Do(f"fill({at.text}, {e.text}, {i.size});"))

    def call(self, i):
        callee = self.table[i.callee]
        result = i.args[0][1] if callee.ends else None  # the place that the result is assigned to
        given = [self.given(callee, k, type_, value) for k, (type_, value) in enumerate(i.args) if not (k == 0 and result)]
        self.flush(lambda e: e.memory or e.call)
        e = Expression(f"{callee.name}({', '.join(x.text for x in given)})", None, given, call=True, safe=callee.plain)
        if result:
            self.left[result] -= 1
        if result and self.function.uses[result] > 1:
            self.before_write(result)
            self.out.append(Assign(self.place(result), kind(self.function, result), e))
        elif i.result and self.left[i.result]:
            self.keep(i.result, i.type, e)
        else:
            self.out.append(Do(f"(void){e.text};" if i.result or result else f"{e.text};"))

    def given(self, callee, k, type_, value):
        """An argument of a call."""
        if k not in callee.copied:
            return self.get(type_, value)
        if value in self.function.places:
            self.left[value] -= 1
            name = self.place(value)
            return Expression(name, reads=[name], memory=value in self.escaping or value not in self.function.slices)
        if self.kinds.get(value) == "slice":
            return self.get("slice", value)
        at = self.get("ptr", value)
        return Expression(f"get_slice({at.text})", None, (at,), memory=True)

    def trap(self, _):
        self.flush()
        self.out.append(Do("stuck();"))

    # ---------------------------------------------------------------- blocks

    def region(self, label, after, loops, entering=False):
        """All from a block on until the block `after`. loops has each loop and switch around, the innermost last: of a loop the first block and
        the block behind it, of a switch None. entering: this block is the first of the innermost loop. Returns whether `after` is reached."""
        while True:
            if not entering and label == after:
                return True
            if not entering and loops and loops[-1] and label in loops[-1]:
                self.out.append(Jump("continue" if label == loops[-1][0] else "break"))
                return False
            if not entering and re.match("loop|repeat", label):
                label = self.loop(label, loops)
            else:
                label = self.block(label, after, loops)
            entering = False
            if label in (True, False):
                return label

    def block(self, label, after, loops):
        """A block, and what it parts into; the block to go on at, or whether the end of the region is reached."""
        block = self.function.blocks[label]
        if label in self.emitted and not (len(block) == 1 and block[0].form == "return" and not block[0].value or is_end(block)):
            stop("a jump that is no if, while or switch", f"{self.function.origin} {label}")
        self.emitted.add(label)
        last = block[-1]
        returned = self.function.ends and last.form == "return"
        for i in block[:-2 if returned else -1]:
            getattr(self, i.form)(i)
        if last.form == "jump":
            self.flush()
            return last.to
        if last.form in ("branch", "switch"):
            return (self.branch if last.form == "branch" else self.switch)(last, after, loops)
        if last.form == "unreachable":
            self.flush()
            if len(block) < 2 or block[-2].form != "trap":
                self.out.append(Do("unreachable();"))
            return False
        e = self.get(last.type, last.value) if last.value else None
        self.flush()
        if returned:
            self.left.subtract((block[-2].to, block[-2].source))
            e = Expression(self.place(block[-2].source))
        self.out.append(Return(e))
        return False

    def part(self, label, after, loops, entering=False):
        """A region as a list of its own, and whether its end is reached."""
        around, self.out = self.out, []
        falls = self.region(label, after, loops, entering)
        statements, self.out = self.out, around
        return statements, falls

    def loop(self, label, loops):
        """A loop, by the toolchain's labels: loop.N ends at after.N-1, repeat.N at filled.N+1. Anything else is found to be no loop."""
        name, n = label.split(".")
        behind = f"after.{int(n) - 1}" if name == "loop" else f"filled.{int(n) + 1}"
        body, _ = self.part(label, label, loops + [(label, behind)], True)
        self.out.append(While(None, body))
        return behind if behind in self.function.blocks else False

    def meeting(self, label):
        """The block where what was parted meets again, if it does: by the toolchain's labels its number follows that of the last part."""
        name, _, n = label.partition(".")
        join = f"join.{int(n) + 1}" if name in ("else", "noarm", "default") else None
        return join if join in self.function.blocks else None

    def branch(self, last, after, loops):
        condition = self.get("i1", last.value)
        self.flush()
        join = self.meeting(last.no)
        first, falls = self.part(last.yes, join or after, loops)
        second, falls_too = self.part(last.no, join or after, loops)
        jump = len(second) == 1 and (isinstance(second[0], Jump) or isinstance(second[0], Return) and not second[0].value)
        # the part that goes on, or the longer one, comes last
        if falls and (not first or not falls_too) or not falls and not falls_too and jump:
            condition, first, second, falls, falls_too = negated(condition), second, first, falls_too, falls
        if falls:
            self.out.append(If(condition, first, second))
        else:
            self.out += [If(condition, first, []), *second]
        return (join or True) if falls or falls_too else False

    def switch(self, last, after, loops):
        value = self.get(last.type, last.value)
        self.flush()
        parts = defaultdict(list)
        for n, to in last.cases:
            parts[to].append(n)
        parts[last.default].append(None)
        join, met, arms = self.meeting(last.default), False, []
        for to, cases in parts.items():
            body, falls = self.part(to, join or after, loops + [None])
            arms.append((cases, body + [Jump("break")] if falls else body))
            met = met or falls
        self.out.append(Switch(value, arms))
        return (join or True) if met else False


def cast_constant(i):
    """A constant as another type has it."""
    n = {"true": 1, "false": 0}.get(i.value)
    n = int(i.value) % 2 ** BITS[i.type] if n is None else n
    n -= 2 ** BITS[i.type] if i.how == "sext" and n >> BITS[i.type] - 1 else 0
    return ("true" if n % 2 else "false") if i.to == "i1" else number(i.to, n, False)


def element(at):
    """The byte at an address."""
    return f"{at.parts[0]}[{at.parts[1]}]" if at.parts else f"*{at.closed()}"


def is_end(block):
    """What is proved not to be reached may be written wherever it is met."""
    return all(i.form in ("trap", "unreachable") for i in block)


def escaping_places(function, table):
    """The places whose address goes somewhere: others may read and write them."""
    found = set()
    for i in function.instructions():
        values = i.operands()
        if i.form == "call":
            callee = table[i.callee]
            values = [value for k, (_, value) in enumerate(i.args) if k not in callee.copied and not (k == 0 and callee.ends)]
        elif i.form == "move":
            values = [value for value in values if not (value in function.slices and i.size == "16")]
        elif i.form == "store":
            values = [i.value]
        elif i.form == "load" or i.form == "step" and i.result in function.base:
            values = []
        found |= {function.base[value][0] for value in values if value in function.base}
    return found
