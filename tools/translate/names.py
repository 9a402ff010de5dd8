"""Names and comments from the source. They change nothing but which places are kept as variables.

The toolchain lays out the places of a function in an order: the result, the copied arguments, then the variables as they come in the source. The
names are given by that order; a name that is given wrongly would mislead a reader and nothing else."""
import os
import re

TAKEN = set("auto bool break case char const continue default do double else enum extern false float for goto if inline int long main copy "
            "fill register restrict return short signed sizeof slice static struct switch true typedef union unsigned void volatile while".split())
LET = re.compile(r"\blet (?:mut )?(\w+)\b(?!::)|\blet [\w:]+\(([\w, ]*)\)|\bfor (\w+) in\b|[\w:]+\(([\w, ]+)\) =>|\{([\w, \n]+),?\s*\} =>")
HEAD = re.compile(r"((?:^ *//.*\n)*)^( *)(?:pub )?(?:impl (\w+)|(?:extern \"C\" )?fn (\w+)\(([^)]*)\))", re.M)


class Source:
    """What the source says of a function: its file, the comment above it, the names of its arguments and variables in their order."""

    def __init__(self, file, comment, args, variables):
        self.file, self.comment, self.args, self.variables = file, comment, args, variables


def read_sources(crates):
    """A function's whole name -> Source, for all crates in a folder."""
    known = {}
    for crate in sorted(os.listdir(crates)):
        for file in sorted(os.listdir(os.path.join(crates, crate, "src"))):
            with open(os.path.join(crates, crate, "src", file), encoding="utf-8") as f:
                path = crate if file in ("lib.rt", "main.rt") else f"{crate}::{file[:-3]}"
                read_source(f.read(), path, f"crates/{crate}/src/{file}", known)
    return known


def read_source(text, path, file, known):
    inside = ""  # the type whose functions these are
    for head in HEAD.finditer(text):
        comment, indent, type_, name, args = head.groups()
        if type_:
            inside = f"::{type_}"
            continue
        end = text.find(f"\n{indent}}}", head.end())
        body = re.sub("//.*", "", text[max(text.rfind(f"\n{indent}{{\n", head.end(), end), head.end()):end])
        lets = [next(filter(None, let.groups()), "") for let in LET.finditer(body)]
        variables = [name for let in lets for name in re.split(r"[,\s]+", let) if name and name != "_"]
        words = " ".join(re.sub("^ *// ?", "", line) for line in comment.splitlines())
        given = [arg.split(":")[0].split()[-1].lstrip("&") for arg in args.split(",") if arg.strip()]
        known[path + (inside if indent else "") + f"::{name}"] = Source(file, words, given, variables)


def name_places(function, source):
    """The names that are wanted: function.arg_names; function.copies and function.variables, of places. Before anything is simplified."""
    args = source.args if source else []
    extra = len(function.args) - len(args)  # 1 if the first is where the result goes
    function.arg_names = ["out"] * extra + args if source and extra in (0, 1) else [name[1:] for _, name in function.args]
    function.source, function.variables, function.copies = source, {}, {}
    if not source:
        return
    order = [i.result for i in function.instructions() if i.form == "place"]
    number = {name: k for k, (_, name) in enumerate(function.args)}
    for i in function.blocks["start"]:
        if i.form == "move" and i.source in number and i.to in order:
            function.copies[i.to] = function.arg_names[number[i.source]]
    order = [name for name in order if name not in function.copies]
    if order and (function.type or extra == 1):
        function.copies[order.pop(0)] = "result"
    if len(source.variables) <= len(order):
        function.variables = dict(zip(order, source.variables))


def choose_names(function, header_names):
    """value -> name in C, each once. header_names: of an export's arguments."""
    names = {}

    def choose(value, wanted):
        name, k = wanted, 2
        while name in TAKEN or name in names.values() or re.fullmatch(r"r[0-9]+(_[0-9]+)?", name):  # rN are values without a name
            name, k = f"{wanted}_x{k}" if wanted[-1].isdigit() else f"{wanted}{k}", k + 1
        names[value] = name

    for k, (_, arg) in enumerate(function.args):
        if k or not function.ends:
            choose(arg, header_names[k] if function.export else function.arg_names[k])
    for k, place in function.copied.items():
        names[place] = names[function.args[k][1]]
    for place, wanted in {**function.variables, **function.copies}.items():
        if place in function.places and place not in names:
            choose(place, wanted)
    return names
