#!/usr/bin/env python3
"""The text to be believed: the definitions that the contracts of public calls rest on. They are found by following names: from a contract to the
definitions that it cites, from these to those that they cite, down to the toolchain's library.

    tools/believed.py CALL..              of these calls alone (search_within, telegram::read, cinorbis_encode, program): the definitions as text, with
                                          their comments, each after those that it cites, and last the contracts
    tools/believed.py >docs/BELIEVED.md   of all calls, with the amount for each: the tests compare the file with what this prints

tools/cost prints the amount; tests/part-theorems compares the files with the table in docs/TRUST.md."""
import glob
import os
import re
import signal
import sys

TOP = os.path.join(os.path.dirname(os.path.abspath(__file__)), "..")

# The program has no public function: these say how it runs, what it writes if no read and no write failed, and what it complains of.
PROGRAM = [("spec", "crates/cinorbis/specs/Runs.antt", name) for name in ("Ran", "HandsOver", "AllWent")]
PROGRAM.append(("spec", "crates/rounds/specs/Situation.antt", "complaint_of"))


def read(path):
    with open(os.path.join(TOP, path), encoding="utf-8") as f:
        return f.read()


def imports(text, ghost=""):
    """What the names and the short module names of a file mean: modules."""
    names, modules = {}, {}
    for module, listed, short in re.findall(rf"^{ghost}use (\S+?)(?:\.{{([^}}]*)}}| as (\S+?));?$", text, re.M):
        if short:
            modules[short] = module
        for name in listed.split(","):
            names[name.strip().split(" as ")[-1]] = module
    return names, modules


def operators(names):
    """What stands in a text for an operator among the names: `≡` for `◌≡◌`."""
    return {part: name for name in names if "«" not in name for part in name.split("◌") if part and part != name}


class Item:
    """A definition: its lines of code, its text with the comments, and whether it is a record, data or something else."""

    def __init__(self, kind, line, comments):
        self.kind, self.lines, self.text = kind, [line], comments + [line]


class Specs:
    """A file of specs/: its definitions, and which one a name belongs to (a field to its record, a constructor to its type)."""

    def __init__(self, path):
        text = read(path)
        self.names, self.modules = imports(text)
        self.items, self.owner = {}, {}
        self.operators = {}
        item, comments = None, []
        for line in text.split("\n"):
            if line.lstrip().startswith("--"):
                comments.append(line)
                continue
            head = re.match(r"(?:pub )?(record|data) (\S+)", line)
            signature = re.match(r"(?:(?:abbrev|unfoldable|pub) )*(\S+) :", line)
            if head or signature:
                kind, name = head.groups() if head else ("function", signature.group(1))
                item = self.items[name] = Item(kind, line, comments)
                self.owner[name] = name
            elif item and line.strip() and not line.startswith("use "):
                part = re.match(r" +(?:pub )?(\S+) :", line) if item.kind != "function" else None
                if part:
                    self.owner.setdefault(part.group(1), name)
                item.lines.append(line)
                item.text += comments + [line]
            comments = []
        self.operators = operators([*self.owner, *self.names])

    def whole(self, word):
        """The name that a word of the text stands for."""
        return self.operators.get(word, word)

    def constructs(self, name):
        """Whether the name is a constructor of one of the file's types."""
        return name in self.owner and self.owner[name] != name and self.items[self.owner[name]].kind == "data"


class Types:
    """The types that a crate's code declares."""

    def __init__(self, crate):
        self.found = {}
        for path in sorted(glob.glob(os.path.join(TOP, f"crates/{crate}/src/**/*.rt"), recursive=True)):
            path = os.path.relpath(path, TOP)
            text = read(path)
            used = {name: other for other, name in re.findall(r"^use (\w+)::(\w+);", text, re.M)}
            for comments, whole, name in re.findall(r"^((?://[^\n]*\n)*)(pub (?:enum|struct) (\w+) \{\n.*?^\})", text, re.M | re.S):
                item = Item("type", "", comments.split("\n")[:-1])
                item.text[-1:] = whole.split("\n")
                item.lines = [line for line in whole.split("\n") if not line.strip().startswith("//")]
                self.found[name] = (path, item, used)


def meant(name, module):
    """A definition of this project, or nothing for one of the toolchain's."""
    found = re.match(r"Rattle\.(\w+)\.specs\.(.*)$", module or "")
    if not found or not os.path.isdir(os.path.join(TOP, "crates", found[1])):
        return None
    crate, rest = found.groups()
    parts = [part for part in rest.split(".") if part != "TheVariants"]
    if parts[0] == "declared":
        return ("type", crate, parts[-1])
    return ("spec", f"crates/{crate}/specs/{'/'.join(parts)}.antt", name)


TOKEN = re.compile(r"(?:(?<![\w.·-])([A-Za-z]\w*)\.(?=[^\s.]))?([^\s(){}\[\],;⌜⌝.λ]+)|([(){}\[\]λ])")


def free(text, bound=(), patterns=None):
    """The names in a text that it does not bind itself, each with the short module name before it, if there is one: parameters, and what λ and let
    bind up to the end of their scope, are left out, and so are fields that are taken out of a record. `patterns` tells which names of the left-hand
    side of an equation are constructors: all others there are parameters."""
    text = re.sub(r"(--|//).*", " ", text)
    text = re.sub(r"(?<![^\s(])\.[^\s(){}\[\],;⌜⌝]+", " ", text)
    scopes = [(0, name) for name in bound]
    scopes += [(0, name) for names in re.findall(r"[({]((?:[^\s(){}:=]+\s+)+):\s", text) for name in names.split()]
    found, depth, open_lets = [], 0, []
    if patterns:
        left, _, text = text.partition(" =") if " =" in text else text.partition("=\n")
        for short, name, _ in TOKEN.findall(left):
            if short or patterns(name):
                found.append((short, name))
            elif name:
                scopes.append((0, name))
    at = 0
    while at < len(text):
        token = TOKEN.search(text, at)
        if not token:
            break
        at = token.end()
        short, name, mark = token.groups()
        if mark == "λ":
            binders, _, _ = text[at:].partition(".")
            at += len(binders) + 1
            for part in re.findall(r"\(([^:)]*):|([^\s():]+)", re.sub(r"\(([^:)]*):[^)]*\)", r"(\1:", binders)):
                scopes += [(depth, word) for word in " ".join(part).split()]
        elif mark and mark in "({[":
            depth += 1
        elif mark:
            depth -= 1
            scopes = [(d, word) for d, word in scopes if d <= depth]
        elif name == "let":
            binder = re.compile(r"\s*([^\s:=]+)").match(text, at)
            open_lets.append(binder.group(1))
            at = binder.end()
        elif name == "in" and open_lets:
            scopes.append((depth, open_lets.pop()))
        elif short or name not in {word for _, word in scopes}:
            found.append((short, name))
    return found


def cited(file, name):
    """The names that a definition of a file of specs/ cites."""

    def constructor(word):
        word = file.whole(word)
        if word in file.names:
            module = file.names[word]
            root = meant(word, module)
            if not root:
                return True
            return "TheVariants" in module or (root[0] == "spec" and Reach.specs(root[1]).constructs(word))
        return file.constructs(word)

    item = file.items[name]
    if item.kind != "function":
        own = [part for part, owner in file.owner.items() if owner == name and part != name]
        return free("\n".join(item.lines), own)
    chunks = []
    begins = re.compile(r"\S" if "◌" in name else rf"{re.escape(name)}(\s|$)")
    for at, line in enumerate(item.lines):
        if begins.match(line) and (at or "◌" not in name):
            chunks.append([line])
        elif chunks:
            chunks[-1].append(line)
    signature = item.lines[: len(item.lines) - sum(len(chunk) for chunk in chunks)]
    found = free("\n".join(signature))
    for chunk in chunks:
        found += free("\n".join(chunk)[0 if "◌" in name else len(name) :], (), constructor)
    return found


class Reach:
    """All definitions that some roots rest on, each with those that it cites."""

    files, types = {}, {}

    @classmethod
    def specs(cls, path):
        cls.files[path] = cls.files.get(path) or Specs(path)
        return cls.files[path]

    @classmethod
    def declared(cls, crate):
        cls.types[crate] = cls.types.get(crate) or Types(crate)
        return cls.types[crate].found

    def __init__(self, roots):
        self.items, self.cites = {}, {}
        for root in roots:
            self.visit(root)

    def visit(self, root):
        """The definition's key, or nothing."""
        kind, where, name = root
        if kind == "type":
            if name not in self.declared(where):
                return None
            path, item, used = self.declared(where)[name]
            key = (path, name)
            roots = [("type", used.get(word, where), word) for _, word in free("\n".join(item.lines))]
        else:
            file = self.specs(where)
            owner = file.owner.get(name)
            if not owner:
                return None
            key, item = (where, owner), file.items[owner]
            roots = []
            for short, word in cited(file, owner) if key not in self.items else []:
                word = word if short else file.whole(word)
                if short or word in file.names:
                    roots.append(meant(word, file.modules.get(short) if short else file.names[word]))
                elif word in file.owner:
                    roots.append(("spec", where, word))
        if key not in self.items:
            self.items[key], self.cites[key] = item, set()
            for other in filter(None, roots):
                self.cites[key].add(self.visit(other))
            self.cites[key] -= {None, key}
        return key

    def order(self):
        """The files, each after those whose definitions its own cite, in the order of crates.txt where that leaves a choice."""
        crates = {name: i for i, name in enumerate(re.findall(r"^(\w+)(?: staticlib)?:", read("crates.txt"), re.M))}
        paths = sorted({path for path, _ in self.items}, key=lambda path: (crates[path.split("/")[1]], "/src/" not in path, path))
        done = []

        def put(path):
            if path in done:
                return
            for other in sorted({file for key in self.cites if key[0] == path for file, _ in self.cites[key]} - {path}, key=paths.index):
                put(other)
            done.append(path)

        for path in paths:
            put(path)
        return done

    def text(self, path):
        """What is believed of one file: its first comment, and its definitions in their order."""
        comments = "--" if path.endswith(".antt") else "//"
        head = re.match(rf"(?:{comments}.*\n)*", read(path)).group(0).rstrip("\n")
        # in a file of code the first comment speaks of the whole crate
        parts = [head] if path.endswith(".antt") and head else []
        known = self.specs(path).items if path.endswith(".antt") else self.declared(path.split("/")[1])
        parts += ["\n".join(self.items[path, name].text) for name in known if (path, name) in self.items]
        return "\n\n".join(parts)


def public():
    """The source files of the libraries under those heads of crates.txt that speak of calls or of the outside."""
    head = ""
    for line in read("crates.txt").split("\n"):
        source = os.path.join(TOP, "crates", re.split("[ :]", line)[0], "src")
        if line.startswith("#"):
            head = line
        elif ":" in line and re.search("call|outside", head) and not os.path.exists(f"{source}/main.rt"):
            for path in sorted(glob.glob(f"{source}/**/*.rt", recursive=True)):
                yield os.path.relpath(path, TOP)


def contracts(path):
    """The public calls of a file, each with its contract as text and the definitions that it cites: of a module that the crate keeps to itself, only its
    exports to C. A function that asks something of its caller is an inner one."""
    text = read(path)
    crate, module = path.split("/")[1], os.path.basename(path)[: -len(".rt")]
    whole = module == "lib" or re.search(rf"^pub mod {module};", read(os.path.join(os.path.dirname(path), "lib.rt")), re.M)
    names, modules = imports(text, "ghost ")
    for contract, name in re.findall(rf"^(pub (?:extern \"C\" ){'?' if whole else ''}fn (\w+).*?)^\{{", text, re.M | re.S):
        if "requires" in contract:
            continue
        arguments = re.findall(r"(\w+): ", contract.split("ensures")[0])
        stands = operators(names)
        # a definition may have the name of the function
        said = contract.replace(f"fn {name}", "fn", 1)
        cites = [(short, word if short else stands.get(word, word)) for short, word in free(said, arguments)]
        roots = [meant(word, modules.get(short) if short else names.get(word)) for short, word in cites]
        yield f"{crate}::{name}", contract.rstrip(), [root for root in roots if root]


def calls():
    """Every public call, and the program: its contract as text, and the definitions that it cites."""
    found = {}
    for path in public():
        for name, contract, roots in contracts(path):
            found[name] = (contract, roots)
    found["program"] = ("", PROGRAM)
    return found


def believed():
    """Of all public contracts and of what the program writes: lines by file and name."""
    reach = Reach([root for _, roots in calls().values() for root in roots])
    assert all((where, name) in reach.items for _, where, name in PROGRAM)
    return {key: item.lines for key, item in reach.items.items()}


def figures(found):
    """How many lines of definitions, in how many files, and how many of types."""
    definitions = {key: lines for key, lines in found.items() if key[0].endswith(".antt")}
    count = sum(len(lines) for lines in definitions.values())
    return count, len({path for path, _ in definitions}), sum(len(lines) for lines in found.values()) - count


def amount(found):
    count, files, types = figures(found)
    return f"{count} lines of definitions in {files} files, and {types} lines of types that the code declares"


def chosen(name, known):
    """The call that is meant: by its whole name, or by its last part where only one call has it."""
    found = [call for call in known if call == name] or [call for call in known if call.split("::")[-1] == name]
    if len(found) != 1:
        sys.exit(f"believed.py: {name} is {'several calls: ' + ', '.join(found) if found else 'no public call; they are: ' + ', '.join(known)}")
    return found[0]


def show(names):
    known = calls()
    wanted = [chosen(name, known) for name in names]
    reach = Reach([root for call in wanted for root in known[call][1]])
    for path in reach.order():
        print(f"==== {path}\n\n{reach.text(path)}\n")
    for call in wanted:
        print(f"==== {call}\n\n{known[call][0] or 'Ran, of what one run leaves; HandsOver and AllWent; complaint_of'}\n")
    print(amount({key: item.lines for key, item in reach.items.items()}))


def whole():
    known = calls()
    reach = Reach([root for _, roots in known.values() for root in roots])
    print("# The text to be believed\n")
    print("All definitions that the contracts of public calls rest on, with their comments, each after those that it cites, and the contracts themselves.")
    print("Made by `tools/believed.py >docs/BELIEVED.md`, and compared by the tests; `tools/believed.py CALL` prints what one call rests on.")
    print("To be read beside [RULES.md](RULES.md): a contract says what these definitions say, and the checker sees to it that the code does that.\n")
    print(f"There are {amount({key: item.lines for key, item in reach.items.items()})}: comments and blank lines are not counted.")
    print("By call:\n\n| Call | lines of definitions | lines of types |\n|---|---|---|")
    for call, (_, roots) in known.items():
        count, _, types = figures({key: item.lines for key, item in Reach(roots).items.items()})
        print(f"| `{call}` | {count} | {types} |")
    print("\n## Definitions")
    for path in reach.order():
        print(f"\n### {path[len('crates/'):]}\n\n```text\n{reach.text(path)}\n```")
    print("\n## Contracts")
    for call, (contract, _) in known.items():
        if contract:
            print(f"\n### {call}\n\n```text\n{contract}\n```")


if __name__ == "__main__":
    signal.signal(signal.SIGPIPE, signal.SIG_DFL)
    if len(sys.argv) > 1:
        show(sys.argv[1:])
    else:
        whole()
