#!/usr/bin/env python3
"""tools/header.py calls | version | python | page: include/cinorbis.h is read here, and nowhere else but by compilers.

Prints the names of the calls, the version, Python's module of the header or that of the desk page (desk/src/header.mjs, which is kept). As a module it
gives the header's constants, refusals, structs and calls. It knows the few forms that the header is written in; any other ends it with the line."""
import re
import sys
from pathlib import Path
from typing import Dict, List, NamedTuple, Optional

PATH = Path(__file__).resolve().parent.parent / "include" / "cinorbis.h"
PIECES = {
    "comment": r"/\*(.*?)\*/",
    "constant": r"#define CINORBIS_(\w+) (\d+)u?(?=\n)",
    "directive": r"#(?:[^\n]*\\\n)*[^\n]*",
    "refusals": r"enum cinorbis_refusal \{(.*?)\};",
    "texts": r"static inline const char \*cinorbis_refusal_text\(uint32_t refusal\) \{(.*?)\n\}",
    "struct": r"typedef struct \{(.*?)\} cinorbis_(\w+);",
    "alignment": r"struct cinorbis_padded \{[^}]*\};",
    "type": r"typedef [^;{]*;",
    "call": r"(?:(CINORBIS_CALL) )?(\w+) (cinorbis_\w+)\(([^)]*)\);",
    "linkage": r'extern "C" \{|\}',
}
# how ctypes is to hand over each type: u is 32 bits, s a length (64 bits); p is a pointer
KINDS = {"uint32_t": "u", "cinorbis_size": "s"}


class Argument(NamedTuple):
    name: str
    type: str
    const: bool
    pointer: bool  # as *name or name[count]
    count: Optional[int]


class Call(NamedTuple):
    name: str
    mark: Optional[str]  # CINORBIS_CALL
    returned: str
    arguments: List[Argument]
    text: str  # the comment above it, on one line
    refuses: Optional[List[str]]  # the names that the comment gives, in its order; `The same ..` refuses as the call before
    promises: List[str]


def plain(comment: str) -> str:
    return " ".join(re.sub(r"\n \*", "\n", comment).split())


class Header:
    def __init__(self, text: str) -> None:
        self.text = text
        self.constants: Dict[str, int] = {}
        self.refusals: Dict[str, int] = {}
        self.texts: Dict[str, str] = {}
        self.structs: Dict[str, Dict[str, str]] = {}  # a field's type, by its name; a struct in another is laid out in place
        self.calls: Dict[str, Call] = {}
        comment, at = "", 0
        while text[at:].strip():
            at += len(text[at:]) - len(text[at:].lstrip())
            for piece, form in PIECES.items():
                found = re.compile(form, re.S).match(text, at)
                if found:
                    break
            else:
                raise SystemExit(f"{PATH.name}, line {text.count(chr(10), 0, at) + 1}: tools/header.py does not know this form")
            if piece in ("constant", "refusals", "texts", "struct"):
                getattr(self, f"take_{piece}")(*found.groups())
            elif piece == "call":
                self.take_call(plain(comment), *found.groups())
            comment, at = found[1] if piece == "comment" else "", found.end()

    def take_constant(self, name: str, value: str) -> None:
        self.constants[name] = int(value)

    def take_refusals(self, body: str) -> None:
        for entry in re.sub(r"/\*.*?\*/", "", body, flags=re.S).split(","):
            name, value = re.fullmatch(r"CINORBIS_(\w+) = (\d+)", entry.strip()).groups()
            self.refusals[name] = int(value)

    def take_texts(self, body: str) -> None:
        for name, strings in re.findall(r'case CINORBIS_(\w+):\s+return ((?:"[^"]*"\s*)+);', body):
            self.texts[name] = "".join(re.findall(r'"([^"]*)"', strings))

    def take_struct(self, body: str, name: str) -> None:
        fields: Dict[str, str] = {}
        for entry in re.sub(r"/\*.*?\*/", "", body, flags=re.S).split(";")[:-1]:
            kind, field = entry.split()
            fields.update(self.structs.get(kind.replace("cinorbis_", ""), {field: kind}))
        self.structs[name] = fields

    def take_call(self, text: str, mark: Optional[str], returned: str, name: str, listed: str) -> None:
        arguments = []
        for part in [] if listed == "void" else listed.split(","):
            const, kind, pointer, argument, count = re.fullmatch(r"(const )?(\w+) (\*?)(\w+)(?:\[(\d+)\])?", " ".join(part.split())).groups()
            arguments.append(Argument(argument, kind, bool(const), bool(pointer or count), int(count) if count else None))
        sentence = re.search(r"Refuses (.*?)(?:\.(?: |$)|;)", re.sub(r"\([^()]*\)", "", text))
        refuses = re.findall(r"\b[A-Z][A-Z_]{2,}\b", sentence[1]) if sentence else None
        if text.startswith("The same") and not sentence:
            refuses = list(self.calls.values())[-1].refuses
        promise = re.search(r"Promise: ([\w:, ]+)\.", text)
        self.calls[name] = Call(name, mark, returned, arguments, text, refuses, promise[1].split(", ") if promise else [])


def read() -> Header:
    return Header(PATH.read_text(encoding="utf-8"))


def python(header: Header) -> str:
    """The header as a Python module: constants, the refusals and their texts, the structs' fields, and how to make each call."""
    out = ['"""Made from the C header by tools/header.py."""\n', "from enum import IntEnum", "from typing import Final\n"]
    out += [f"{name}: Final = {value}" for name, value in header.constants.items()]
    out += ["\n\nclass Refusal(IntEnum):", '    """Why a call refused, by the names of the C header."""\n']
    out += [f"    {name} = {number}" for name, number in header.refusals.items()]
    out.append("\n\nTEXTS: Final[dict[int, str]] = {")
    out += [f'    Refusal.{name}: "{header.texts[name]}",' for name in header.refusals]
    out.append("}\nSTRUCTS: Final = {")
    out += [f'    "{name}": {tuple(fields)!r},'.replace("'", '"') for name, fields in header.structs.items()]
    out.append("}\n# u: uint32_t, s: a length, p: a pointer; the result first\nCALLS: Final = {")
    for call in header.calls.values():
        kinds = "".join("p" if each.pointer else KINDS[each.type] for each in call.arguments)
        out.append(f'    "{call.name}": "{KINDS[call.returned]}{kinds}",')
    return "\n".join(out) + "\n}\n"


def page(header: Header) -> str:
    """The header as a module of the desk page: constants, the refusals, and where each field of a struct is."""
    out = ["/* The numbers of include/cinorbis.h, written by tools/figures --write. */"]
    out += [f"export const {name} = {value};" for name, value in header.constants.items()]
    out.append("export const REFUSAL = {")
    out += [f"    {name}: {number}," for name, number in header.refusals.items()]
    out.append("};\n/* the place of each field in its struct, and the struct's size, in bytes */\nexport const STRUCT = {")
    for name, fields in header.structs.items():
        places = ", ".join(f"{field}: {8 * at}" for at, field in enumerate([*fields, "size"]))
        out.append(f"    {name}: {{ {places} }},")
    return "\n".join(out) + "\n};\n"


def main(wanted: str) -> None:
    header = read()
    printed = {"version": lambda: f"{header.constants['VERSION']}\n", "calls": lambda: "\n".join(header.calls) + "\n"}
    printed.update(python=lambda: python(header), page=lambda: page(header))
    if wanted not in printed:
        sys.exit(f"header.py: {wanted} is not one of {' '.join(printed)}")
    sys.stdout.write(printed[wanted]())


if __name__ == "__main__":
    main(sys.argv[1] if len(sys.argv) == 2 else "")
