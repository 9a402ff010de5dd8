"""Reading the module: its functions, their blocks and instructions.

Each form of instruction has one line in FORMS, and a line of any other form stops the translation."""
import re
from collections import Counter, namedtuple

BITS = {"i1": 1, "i8": 8, "i16": 16, "i32": 32, "i64": 64}
ALIGN = {"i8": 1, "i16": 2, "i32": 4, "i64": 8, "float": 4, "ptr": 8}  # bytes; an access has to be aligned like this


class Refused(Exception):
    """Why there is no C of this module, in one line."""


def stop(why, what):
    raise Refused(f"{why}: {what}")


def is_name(value):
    """Whether an operand is a value of the function, and not a constant."""
    return value.startswith("%")


T = r"i1|i8|i16|i32|i64|float|ptr"
V = r"%[a-z0-9.]+"
X = rf"(?:{V}|-?[0-9]+|true|false|-?[0-9.]+e[+-][0-9]+|0x[0-9A-F]+)"  # a value or a constant
F = r'@(?:"[^"]+"|[a-z0-9_.]+)'
EXTENDED = "(?:zeroext |signext )?"
RESULT = rf"(?P<result>{V}) = "
FORMS = {
    "place": rf"{RESULT}alloca (?:(?P<type>{T})|\[(?P<size>[0-9]+) x i8\]), align (?P<align>[0-9]+)",
    "load": rf"{RESULT}load (?P<type>{T}), ptr (?P<at>{V}), align (?P<align>[0-9]+)(?P<bool>, !range !2)?(?:, !noundef !1)?",
    "store": rf"store (?P<type>{T}) (?P<value>{X}), ptr (?P<at>{V}), align (?P<align>[0-9]+)",
    "step": rf"{RESULT}getelementptr (?:inbounds nuw )?i8, ptr (?P<at>{V}), i64 (?P<by>{X})",
    "two": rf"{RESULT}(?P<how>add|sub|mul|udiv|urem|and|or|xor|shl|lshr|fadd|fsub)(?: nuw| nsw)* (?P<type>{T}) (?P<left>{X}), (?P<right>{X})",
    "compare": rf"{RESULT}(?:icmp|fcmp) (?P<how>eq|ne|ult|ule|slt|olt|ole|oeq) (?P<type>{T}) (?P<left>{X}), (?P<right>{X})",
    "cast": rf"{RESULT}(?P<how>zext|sext|trunc|trunc nuw|fptoui) (?P<type>{T}) (?P<value>{X}) to (?P<to>{T})",
    "minus": rf"{RESULT}fneg float (?P<value>{X})",
    "count": rf"{RESULT}call (?P<type>i8|i32|i64) @llvm\.(?P<how>ctpop|ctlz|cttz)\.(?P=type)\((?P=type) (?P<value>{X})(?:, i1 false)?\)",
    "null": rf"{RESULT}icmp eq ptr (?P<value>{V}), null",
    "fence": rf"{RESULT}call float @llvm\.arithmetic\.fence\.f32\(float (?P<value>{X})\)",
    "jump": rf"br label %(?P<to>[a-z0-9.]+)",
    "branch": rf"br i1 (?P<value>{X}), label %(?P<yes>[a-z0-9.]+), label %(?P<no>[a-z0-9.]+)",
    "switch": rf"switch (?P<type>{T}) (?P<value>{V}), label %(?P<default>[a-z0-9.]+) \[(?P<cases>.*)\]",
    "return": rf"ret (?:void|(?P<type>{T}) (?P<value>{X}))",
    "unreachable": r"unreachable",
    "trap": r"call void @llvm\.trap\(\)",
    "move": rf"call void @llvm\.memmove\.p0\.p0\.i64\(ptr (?P<to>{V}), ptr (?P<source>{V}), i64 (?P<size>[0-9]+), i1 false\)",
    "fill": rf"call void @llvm\.memset\.p0\.i64\(ptr (?P<at>{V}), i8 (?P<value>{X}), i64 (?P<size>[0-9]+), i1 false\)",
    "call": rf"(?:{RESULT})?call (?:void|{EXTENDED}(?P<type>{T})) (?P<callee>{F})\((?P<args>.*)\)",
}
FORMS = {name: re.compile(form) for name, form in FORMS.items()}
# which parts of a form are values; those of a call are its arguments. A pair is an address and a length, made by places.py.
OPERANDS = {"load": ["at"], "store": ["value", "at"], "step": ["at", "by"], "two": ["left", "right"], "compare": ["left", "right"],
            "cast": ["value"], "minus": ["value"], "count": ["value"], "null": ["value"], "fence": ["value"],
            "branch": ["value"], "switch": ["value"], "return": ["value"],
            "move": ["to", "source"], "fill": ["at", "value"], "pair": ["at", "length"]}
LAST = ("jump", "branch", "switch", "return", "unreachable")  # the forms that end a block
# what the intrinsics are called by; a call of another one is of no known form
INTRINSIC = re.compile(r"@llvm\.")

DEFINE = re.compile(rf"define (?P<internal>internal )?(?:void|(?:noundef )?{EXTENDED}(?P<type>{T})) (?P<name>{F})\((?P<args>.*)\) #0 \{{")
SYSTEM = r"noundef i64 @(?:read|write)\(i32 noundef, ptr noundef, i64 noundef\) #1"  # the program's
# what stands outside of functions; !2 is what FORMS takes for a bool
OUTSIDE = re.compile(rf"|;.*|declare (?:{SYSTEM}|.*@llvm\..*)|source_filename = .*|target .*|attributes #.*|"
                     r"!2 = !\{i8 0, i8 2\}|!(?!2 )[a-z0-9.]+ = .*")

# A place of memory of a function: one number of this type, or (type None) so many bytes.
Place = namedtuple("Place", "type size align")


class Instruction:
    """A form, and its parts by their names in FORMS; a part that the line does not have is None."""

    def __init__(self, form, **parts):
        self.form, self.result = form, None
        self.__dict__.update(parts)

    def operands(self):
        """The values that it uses, one by one."""
        parts = [value for _, value in self.args] if self.form == "call" else [getattr(self, part) for part in OPERANDS.get(self.form, ())]
        return [value for value in parts if value and is_name(value)]

    def rename(self, names):
        """Uses other values instead of those in names."""
        def last(value):
            while value in names:
                value = names[value]
            return value

        if self.form == "call":
            self.args = [(kind, last(value)) for kind, value in self.args]
        for part in OPERANDS.get(self.form, ()):
            setattr(self, part, last(getattr(self, part)))

    def targets(self):
        """The blocks that it can go on at."""
        if self.form == "switch":
            return [self.default] + [to for _, to in self.cases]
        return {"jump": lambda: [self.to], "branch": lambda: [self.yes, self.no]}.get(self.form, list)()


class Function:
    """A function of the module. places.py and names.py add what they find out about it."""

    def __init__(self, head):
        self.origin = head["name"][1:].strip('"')
        self.name, self.export, self.type = self.origin.replace("::", "_"), not head["internal"], head["type"]
        self.args = [(arg.split()[0], arg.split()[-1]) for arg in head["args"].split(", ") if arg]
        self.blocks, self.places, self.uses = {}, {}, Counter()

    def instructions(self):
        return [instruction for block in self.blocks.values() for instruction in block]

    def count_uses(self):
        self.uses = Counter(value for instruction in self.instructions() for value in instruction.operands())


def read_instruction(line):
    for name, form in FORMS.items():
        if match := form.fullmatch(line):
            break
    else:
        stop("a line of no known form", line)
    found = Instruction(name, **match.groupdict())
    if name in ("load", "store") and int(found.align) != ALIGN.get(found.type):
        stop("an access that is not aligned", line)
    if name == "count" and found.how != "ctpop" and found.type != "i64":
        stop("a line of no known form", line)
    if name == "switch":
        found.cases = [(int(number), to) for number, to in re.findall(r"i[0-9]+ ([0-9]+), label %([a-z0-9.]+)", found.cases)]
    if name == "call":
        if INTRINSIC.match(found.callee):
            stop("a line of no known form", line)
        found.callee = found.callee[1:].strip('"')
        found.args = [(arg.split()[0], arg.split()[-1]) for arg in found.args.split(", ") if arg]
    return found


def read_function(head, lines):
    """The function whose first line was read; takes the lines up to its last."""
    function, block = Function(head), None
    for line in lines:
        if line == "}":
            break
        if label := re.match(r"([a-z0-9.]+):", line):
            block = function.blocks[label[1]] = []
        elif line.startswith("  ") and block is not None:
            line = line.strip()
            while line.startswith("switch") and not line.endswith("]"):
                line += " " + next(lines).strip()
            block.append(read_instruction(line))
        elif line:
            stop("a line of no known form", line)
    for label, block in function.blocks.items():
        if not block or block[-1].form not in LAST or any(i.form in LAST for i in block[:-1]):
            stop("a block that does not end once", f"{function.origin}, {label}")
    return function


def take_nulls(function):
    """An export hands on 4096 for an address from C that is null, which the header forbids: C takes every address as it is. Sums of floats are as they
    are written where the file compiles at all, and need no fence."""
    names = {}
    for block in function.blocks.values():
        for i, at in [(i, at) for at, i in enumerate(block) if i.form == "null"]:
            one, much, step = block[at + 1 : at + 4]
            known = (one.form, much.form, step.form) == ("cast", "two", "step") and (one.how, one.value) == ("zext", i.result)
            known = known and (much.how, much.left, much.right) == ("mul", one.result, "4096") and (step.at, step.by) == (i.value, much.result)
            if not known or not function.export or i.value not in [name for _, name in function.args]:
                stop("an address that is compared", f"{function.origin} {i.value}")
            names[step.result] = i.value
            i.gone = one.gone = much.gone = step.gone = True
        names.update((i.result, i.value) for i in block if i.form == "fence")
        block[:] = [i for i in block if i.form != "fence" and not getattr(i, "gone", False)]
    for i in function.instructions():
        i.rename(names)


def read_module(text):
    """All functions that the module defines, in its order."""
    functions, lines = [], iter(text.split("\n"))
    for line in lines:
        if head := DEFINE.fullmatch(line):
            functions.append(read_function(head, lines))
            take_nulls(functions[-1])
        elif not OUTSIDE.fullmatch(line):
            stop("a line of no known form", line)
    return functions
