"""The library or the program as one file of C99, made of the text of its LLVM module.

The module has few forms of instruction (module.py), and each has its C (writer.py). These are the rules, and why the C means what the module means.

Numbers
- Every number is unsigned and as wide as in the module. Sums, differences and products wrap in C as in the module; what the module says of
  them besides (nuw, nsw) is proved and not used. C makes 8 and 16 bits wider before it calculates: the result is cut again by a cast, and
  products and shifts to the left start from uint32_t, since C would make them with a sign.
- Nothing is converted to a number with a sign in a way that C leaves open: for a signed comparison or extension the bits are copied.
- A division by 0 or a shift by too much means nothing in the module either, and is proved not to occur. It is made nowhere else than
  the module makes it.
- There are only sums, differences, negations and comparisons of floats, as floats: nothing that a compiler could contract. The file does not
  compile where floats are wider than floats or may be reordered. !(x < y) is not written as x >= y: neither holds of what is no number.

Memory
- A place whose address goes nowhere is a variable. All other memory is bytes, in unions that are aligned as the module says; a number in it is
  read and written by get_ and put_: a copy of its bytes or, for compilers like gcc, an access that may alias anything. So nothing depends on the
  types that a caller's memory was declared with.
- Every access is aligned to its size, or there is no translation; processors that fault otherwise do not.
- A copy is memcpy only between places that cannot overlap: two places of the function, or one of them and memory that came from outside.
- A place that every block writes before it reads it, or that is written once with what never changes, is no variable but the value.
- What a function copies from memory before it does anything else, and does not touch there again, is handed over by value; and so is what it
  copies to memory last of all, its result.

Order
- A value that is used once is written where it is used, in the same block. It is written down before, into a variable of its own, if what comes
  next could change it: a write to a variable that it reads; a write to memory or a call, if it reads memory.
- A call is never moved across another call, a write to memory or a read of memory. So no two operands of a C expression are such that their
  order, which C leaves open, matters.
- The values of an if are both made, without a jump, only if nothing in them can go wrong: no memory, no division, no variable without a value.

Blocks come from if, match and while, and are written as such; any other jump stops the translation, as does a block or a value that is left
over, an export that is not as in the header, or a line of any other form."""
import hashlib
import re

from . import around
from .around import comment, wrapped
from .exports import check_export, declared_calls
from .expressions import CTYPE
from .module import ALIGN, Function, DEFINE, Refused, read_module, stop
from .names import choose_names, name_places, read_sources
from .places import find_by_value, find_pairs, kind, simplify
from .statements import Assign, Return, improve, lines_of
from .writer import Writer

__all__ = ["Refused", "library", "program"]


class Main:
    """What a program exports, as a header would have it."""

    result, text, names = "int", "void", []


MAIN = {"main": Main}


def library(module, header, crates=None):
    """The C of the library: the module's text, the header's text, and the folder of the crates for names and comments."""
    version, calls = declared_calls(header)
    functions, table = read(module, calls, crates)
    for function in functions:
        if function.export:
            check_export(function, calls[function.name])
    body = bodies(functions, table, calls)
    head = around.LIBRARY_HEAD.format(checksum=checksum(module)) + around.C99
    return head + around.LIBRARY_INCLUDES.format(version=version) + rest(functions, table, calls, body, around.CONDITIONS + "\n", "")


def program(module, crates=None):
    """The C of the program, whose one export is main and which calls read and write."""
    functions, table = read(module, MAIN, crates)
    for name in ("read", "write"):
        table[name] = Function(DEFINE.fullmatch(f"define internal i64 @{name}(i32 noundef %a0, ptr noundef %a1, i64 noundef %a2) #0 {{"))
        table[name].name, table[name].slices = f"system_{name}", set()
        table[name].copied, table[name].ends, table[name].plain = {}, [], False
    body = bodies(functions, table, MAIN)
    head = around.PROGRAM_HEAD.format(checksum=checksum(module)) + around.C99
    return head + around.PROGRAM_INCLUDES + rest(functions, table, MAIN, body, around.CONDITIONS + "\n", around.READ_AND_WRITE)


def checksum(module):
    """As tools/checksum has it: without the line that says where the module lay."""
    lines = [line for line in module.splitlines(True) if not line.startswith("; ModuleID")]
    return hashlib.sha256("".join(lines).encode()).hexdigest()[:16]


def read(module, calls, crates):
    """The functions, simplified, and all by their names in the module."""
    functions = read_module(module)
    table = {function.origin: function for function in functions}
    if len({function.name for function in functions}) < len(functions):
        stop("two functions have one name", "in C")
    exports = {function.name for function in functions if function.export}
    if exports != set(calls):
        stop("an export that is not in the header, or a call that is not in the module", " ".join(sorted(exports ^ set(calls))))
    known = read_sources(crates) if crates else {}
    for function in functions:
        function.plain = False
        name_places(function, known.get(function.origin))
        simplify(function, function.variables)
    return functions, table


def bodies(functions, table, calls):
    """The functions as C, one by one."""
    for function in functions:
        for i in function.instructions():
            if i.form == "call" and i.callee not in table:
                stop("a call of what the module does not have", f"{function.origin} {i.callee}")
    find_by_value(functions, table)
    for function in functions:
        find_pairs(function, table)
    return [written(function, table, calls) for function in functions]


def written(function, table, calls):
    names = choose_names(function, calls[function.name].names if function.export else None)
    writer = Writer(function, table, names)
    statements = writer.statements()
    arguments = {names[name] for _, name in function.args if name in names}
    improve(statements, arguments, function.type)
    if statements and isinstance(statements[-1], Return) and not statements[-1].value:
        statements.pop()
    # a function of sums and choices alone may be called where it is not needed
    function.plain = bool(statements) and all(isinstance(s, (Assign, Return)) and s.value.safe for s in statements)
    lines = lines_of(statements)
    unused = [name for _, name in function.args if name in names and not function.uses[name]]
    head = [*declarations(writer.declared, arguments, lines), *(f"    (void){names[name]};" for name in unused)]
    function.kinds = {kind_ for kind_ in writer.declared.values() if kind_.startswith("bytes")}
    source = function.source
    title = f"{function.origin}, {source.file}" + (f". {source.comment}" if source.comment else "") if source else function.origin
    text = [line for long in [signature(function, calls, names) + " {", *head, *lines] for line in wrapped(long)]
    return "\n".join([comment(title), *text, "}", "", ""])


def declarations(declared, arguments, lines):
    """The variables that occur, by their types; those that the source has no name for come last. gcc makes no vectors of a bool."""
    words, groups = set(re.findall(r"\w+", "\n".join(lines))), {}
    for name, kind_ in declared.items():
        if name in words and name not in arguments:
            groups.setdefault("uint8_t" if kind_ == "i1" else CTYPE.get(kind_, kind_), []).append(name)
    order = lambda name: (1, int(re.findall(r"\d+", name)[0]), name) if re.fullmatch(r"r\d+(_\d+)?", name) else (0, 0, name)
    star = lambda type_: "*" if type_.endswith("*") else ""
    return [f"    {type_.rstrip(' *')} {', '.join(star(type_) + name for name in sorted(groups[type_], key=order))};" for type_ in sorted(groups)]


def signature(function, calls, names):
    """The function's head; with names None, as it is declared ahead."""
    if function.export:
        return f"{calls[function.name].result} {function.name}({calls[function.name].text})"
    declared = lambda type_, name: f"{type_}{name}" if type_.endswith("*") else f"{type_} {name}" if name else type_
    args = [declared(kind(function, function.copied[k]) if k in function.copied else CTYPE[type_], names[name] if names else "")
            for k, (type_, name) in enumerate(function.args) if k or not function.ends]
    result = kind(function, function.ends[0]) if function.ends else CTYPE.get(function.type, "void")
    return "static " + declared(result, f"{function.name}({', '.join(args) or 'void'})")


def rest(functions, table, calls, texts, conditions, system):
    """All after the includes."""
    body = "".join(texts)
    kinds = sorted({kind_ for function in functions for kind_ in function.kinds}, key=lambda name: [int(n) for n in re.findall(r"\d+", name)])
    held = [(how, type_) for type_ in ALIGN for how in ("get", "put") if type_ != "i8" and re.search(rf"\b{how}_{type_}\(", body)]
    place = {function.origin: k for k, function in enumerate(functions)}
    ahead = sorted({i.callee for function in functions for i in function.instructions() if i.form == "call"
                    and place.get(i.callee, -1) > place[function.origin]}, key=place.get)
    out = conditions + around.VECTORS + around.TOOLS
    out += "".join(around.union(kind_) for kind_ in kinds) + "\n"
    out += "".join(f"{how.upper()}({type_}, {CTYPE[type_].strip()})\n" for how, type_ in held) + "\n"
    out += around.used_helpers(body) + system
    out += "".join("\n".join(wrapped(signature(table[name], calls, None) + ";")) + "\n" for name in ahead) + "\n"
    return (out + stretches(functions, texts)).rstrip("\n") + "\n"


def stretches(functions, texts):
    """The functions, with those of hot crates between the lines that ask for vectors."""
    out, on = "", False
    for function, text in zip(functions, texts):
        if (function.origin.split("::")[0] in around.HOT) != on:
            on = not on
            out += around.VECTORS_ON if on else around.VECTORS_OFF
        out += text
    return out + (around.VECTORS_OFF if on else "")
