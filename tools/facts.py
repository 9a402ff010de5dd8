#!/usr/bin/env python3
"""tools/facts.py theorems | promises: docs/THEOREMS.md or docs/PROMISES.md, made of docs/theorems.txt or docs/promises.txt: every name becomes a link to
the file and line that define it, a demand's sentence is taken from docs/RULES.md, what an edit rules out from its head, and the tests that run a call are
found. tools/figures --write writes both pages. It ends with an error if a name is not there or may be several, if a sentence of a demand has no entry,
or if a public call has none.

Both sources are pages in Markdown, but for this:
- in theorems.txt `= TEXT` below a fact gives the names that state it; `@ FILE ..` tells in which files to look where a name alone does not;
  `### 1.2` stands for the second sentence of the first demand
- in promises.txt a call has `contract`, `no second outcome` and `ruled out`: edits or their slips, as CRATE/LABEL."""
import collections
import functools
import glob
import os
import re
import sys

import header

TOP = os.path.join(os.path.dirname(os.path.abspath(__file__)), "..")
Place = collections.namedtuple("Place", "path line owner")  # the owner of a field, a constructor or a variant is its type
# an item at the start of a line of specs/, a field or a constructor below it; an item of code, a variant of an enum
SPEC = re.compile(r"(?:(?:abbrev|unfoldable|pub|record|data) )*([^\s(){}:-][^\s(){}:]*)(?= |:|$)")
FIELD = re.compile(r" +(?:pub )?([^\s(){}:]+) :")
ITEM = re.compile(r"\s*(?:pub(?:\(crate\))? )?(?:extern \"C\" )?(?:fn|struct|enum|trait|const|type) (\w+)")
VARIANT = re.compile(r"    (\w+)(?:\(| \{|,)")


@functools.lru_cache(None)
def read(path):
    with open(os.path.join(TOP, path), encoding="utf-8") as f:
        return f.read()


def paths(pattern):
    return sorted(os.path.relpath(path, TOP) for path in glob.glob(os.path.join(TOP, pattern), recursive=True))


@functools.lru_cache(None)
def definitions():
    """Where each name is defined: laws, definitions, records, fields and constructors; functions, types, constants and variants."""
    found = collections.defaultdict(list)
    for path in paths("crates/*/specs/*.antt") + paths("crates/*/proofs/*.antt") + paths("crates/*/src/**/*.rt"):
        spec, owner, enum, seen = path.endswith(".antt"), None, False, set()
        for at, line in enumerate(read(path).split("\n"), 1):
            outer = (None if line.startswith(("use ", "--")) else SPEC.match(line)) if spec else ITEM.match(line)
            inner = FIELD.match(line) if spec else VARIANT.match(line) if enum else None
            if outer and not line.startswith(" "):
                owner, enum = outer[1], " enum " in f" {line}"
            name = (outer or inner or [None, None])[1]
            if name and (name, owner) not in seen:
                seen.add((name, owner))
                found[name].append(Place(path, at, owner if name != owner else None))
    return found


def candidates(name):
    """The places of a name; OWNER.FIELD and CRATE::NAME have their own only."""
    start, _, last = re.match(r"(?:(\S+)(\.|::))?(\S+)", name).groups()
    places = definitions().get(last, [])
    own = [place for place in places if start and (place.owner == start or place.path.startswith(f"crates/{start}/"))]
    return own if start and "." in name.split(" ")[0] else own or places


def edit(label):
    """The file, the line and the head of an edit, or of a slip in one that holds several."""
    crate, _, name = label.partition("/")
    for path in paths(f"crates/{crate}/must-fail/*.edit"):
        for at, line in enumerate(read(path).split("\n"), 1):
            if line.startswith(f"# slip {name}: ") or at == 1 and path.endswith(f"/{name}.edit"):
                return path, at, line.removeprefix("# ").removeprefix(f"slip {name}: ")
    return None


def linked(text, where, files=(), crates=(), ending=".antt"):
    """The text with each name in code marks as a link. A name that is defined in several files is a field of the record named before it, or one in the
    files given, in those of the other names, or in the crates given. A function may have the name of a definition: the ending tells which is meant."""
    marked = re.findall(r"`([^`]+)`", text)
    # a crate's name is that of something in it where a file is given that defines it
    listing = {f"crates/{file}" for file in files}
    crate = {name for name in marked if paths(f"crates/{name}") and not any(place.path in listing for place in candidates(name))}
    names = [name for name in marked if "/" not in name and name != "requires" and name not in crate]
    meant = [[place for place in candidates(name) if place.path.endswith(ending)] or candidates(name) for name in names]
    known = {places[0].path for places in meant if len(places) == 1}
    known |= {f"crates/{path}" for path in marked if "/" in path}
    first, within, owner = [f"crates/{file}" for file in files], tuple(f"crates/{crate}/" for crate in crates), None
    targets = {}
    for name in names:
        places = candidates(name) or sys.exit(f"{where}: nothing is called {name}")
        listed = next((file for file in first if any(place.path == file for place in places)), None)
        for narrower in (
            lambda place: owner and place.owner == owner,
            lambda place: place.path == listed,
            lambda place: ending == ".rt" and place.path.endswith(ending),
            lambda place: place.path in known,
            lambda place: place.path.startswith(within),
            lambda place: place.owner is None,
            lambda place: place.path.endswith(ending),
        ):
            if len(places) > 1:
                places = [place for place in places if narrower(place)] or places
        if len({place.path for place in places}) > 1:
            sys.exit(f"{where}: more than one thing is called {name}: {' '.join(sorted({place.path for place in places}))}")
        targets[name] = f"{places[0].path}#L{places[0].line}"
        owner = name if places[0].owner is None else owner
    for path in marked:
        if re.fullmatch(r"\w+/(?:specs|proofs|src)/[\w/]+\.(?:antt|rt)", path):
            targets[path] = f"crates/{path}" if read(f"crates/{path}") else None
        elif re.fullmatch(r"\w+/\w+", path):
            found = edit(path) or sys.exit(f"{where}: there is no edit {path}")
            targets[path] = f"{found[0]}#L{found[1]}"
    return re.sub(r"`([^`]+)`", lambda found: f"[{found[0]}](../{targets[found[1]]})" if found[1] in targets else found[0], text)


def wrapped(page):
    """The page with no line above 160 characters, as its source is: links are what make them long, and none is broken."""
    out = []
    for line in page.split("\n"):
        inner = " " * len(re.match(r" *(?:- )?", line)[0])
        while len(line) > 160:
            # a space in a link's name, or in code, is no place to break at
            spaces = [space.start() for space in re.finditer(r"\[[^\]]*\]|`[^`]*`| ", line) if space[0] == " " and len(inner) < space.start() <= 160]
            if line.startswith("#") or not spaces:
                break
            out.append(line[: spaces[-1]])
            line = inner + line[spaces[-1] + 1 :]
        out.append(line)
    return "\n".join(out)


def demand_sentences():
    """The sentences of the three demands, by number: 1.1, 1.2 .."""
    section = re.search(r"^## The three demands\n(.*?)^## ", read("docs/RULES.md"), re.M | re.S)[1]
    found = {}
    for number, text in re.findall(r"^(\d)\. (.*?)(?=^\d\. |\n\n|\Z)", section, re.M | re.S):
        for at, sentence in enumerate(re.split(r"(?<=\.)\s+", " ".join(text.split())), 1):
            found[f"{number}.{at}"] = sentence
    return found


def theorems():
    sentences, out = demand_sentences(), []
    for block in re.split(r"\n(?=- |#|\n)", read("docs/theorems.txt")):
        where = f"docs/theorems.txt: {block[:62]}"
        number = re.fullmatch(r"### (\d\.\d)", block)
        if number:
            block += "\n\n" + (sentences.pop(number[1], "") or sys.exit(f"{where}: the demands have no such sentence"))
        files = " ".join(re.findall(r"\n  @ (.*)", block)).split()
        head, equals, stated = re.sub(r"\n  @ .*", "", block).partition("\n  = ")
        if block.startswith("- ") and not equals:
            sys.exit(f"{where}: no line gives the names that state it")
        out.append(f"{head}\n  - {linked(stated, where, files)}" if equals else block)
    if sentences:
        sys.exit(f"docs/theorems.txt: nothing states sentence {' '.join(sentences)} of the demands")
    return wrapped("<!-- Written by tools/figures --write from docs/theorems.txt. -->\n" + "\n".join(out))


def run_by(heads, exported, where):
    """The tests from outside that make the calls, each by its name in C or by that of tests/outside/call.h; a call that C does not see has no line."""
    calls = {name for names in exported.values() for name in names}
    made = calls if "*" in "".join(heads) else {name for head in heads for name in exported.get(head, calls & {head.split("::")[-1]})}
    tests = set()
    for name in made:
        form = re.compile(rf"\b{name}\b|(?<![\w.>]){name.replace('cinorbis_', '', 1)}\(")
        running = {path for path in paths("tests/outside/*.c") if form.search(read(path))}
        tests |= running or sys.exit(f"{where}: no test of tests/outside calls {name}")
    return "\n- run by: " + ", ".join(f"[`{os.path.basename(path)}`](../{path})" for path in sorted(tests)) if tests else ""


def public_calls():
    """The public functions of the crates under those heads of crates.txt that speak of calls or of the outside."""
    for head, listed in re.findall(r"^(# .*)\n((?:\w.*\n)+)", read("crates.txt"), re.M):
        for crate in re.findall(r"^(\w+)(?: staticlib)?:", listed, re.M) if re.search("call|outside", head) else ():
            for path in [] if paths(f"crates/{crate}/src/main.rt") else paths(f"crates/{crate}/src/*.rt"):
                yield from (f"{crate}::{name}" for name in re.findall(r"^pub (?:extern \"C\" )?fn (\w+)", read(path), re.M))


def promises():
    calls, exported, heads, out = header.read().calls, collections.defaultdict(list), [], []
    for call in calls.values():
        for promise in call.promises or sys.exit(f"include/cinorbis.h: {call.name} names no promise"):
            exported[promise].append(call.name)
    for block in re.split(r"\n(?=- |#|\n)", read("docs/promises.txt")):
        first, _, rest = block.partition("\n" if "\n  - " in block else ":")
        where = f"docs/promises.txt: {' '.join(heads)}: {first}"
        if block.startswith("#"):
            heads = re.findall(r"`([\w:*]+)`", block) if block.startswith("### ") else []
        elif heads and first == "- ruled out":
            block = first + ":"
            for label in rest.split():
                path, at, head = edit(label) or sys.exit(f"{where}: there is no edit {label}")
                crate, _, name = label.partition("/")
                block += f"\n  - [{crate}: {name.replace('_', ' ')}](../{path}#L{at}): {head}"
            block += run_by(heads, exported, where)
        elif heads and block.startswith("- "):
            block = f"{first}:" + linked(rest, where, crates=[heads[0].split("::")[0] if "::" in heads[0] else "pumpbox"])
        elif "\n  - " in block:  # inner functions, and those of the program
            crates = re.findall(r"`(\w+)(?:::\w+)?`", first)
            parts = [(part, ".rt" if part.startswith("  - functions") else ".antt") for part in re.split(r"\n(?=  - )", rest)]
            block = f"{first}\n" + "\n".join(linked(part, where, crates=crates, ending=ending) for part, ending in parts)
        out.append(block)
    said = set(re.findall(r"[\w:]+", " ".join(re.findall(r"^### .*|^- `.*|  - functions:.*(?:\n    .*)*", read("docs/promises.txt"), re.M))))
    missing = [name for name in {*public_calls(), *exported} if not {name, name.split("::")[1]} & {*said, *calls}]
    if missing:
        sys.exit(f"docs/promises.txt: no section has {' '.join(sorted(missing))}")
    return wrapped("<!-- Written by tools/figures --write from docs/promises.txt. -->\n" + "\n".join(out))


if __name__ == "__main__":
    if sys.argv[1:] not in (["theorems"], ["promises"]):
        sys.exit("facts.py theorems | promises")
    sys.stdout.write({"theorems": theorems, "promises": promises}[sys.argv[1]]())
