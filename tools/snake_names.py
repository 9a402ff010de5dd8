#!/usr/bin/env python3
"""Brings the repository's own definitions and lemmas to snake case, after port.py has turned the rest (docs/PORT.md): run once, at the top, with the
commit before port.py as HEAD. A name in camel case becomes one in snake case everywhere; a name joined by dashes gets underscores, but keeps a dash
between two names of functions (`length-transform`). Types, modules, names of the library and names that a check makes of the code stay as they are.
Files of proofs, code, edits and the tables of names in docs/ are turned alike. With --list it prints old and new names, and writes nothing."""
import collections
import glob
import os
import re
import subprocess
import sys

TOKEN = re.compile(r"(?<![\w'₀-₉-])[^\W\d][\w'₀-₉-]*")
DECLARED = re.compile(r"^\s*(?:(?:pub|abbrev|unfoldable|data|record|let) )*([^\W\d][\w'₀-₉-]*)\s*(?::|(?==)|\()", re.M)
FUNCTION = re.compile(r"^\s*(?:(?:pub|abbrev|unfoldable) )*(?:abbrev|unfoldable) (?:pub )?([a-z][\w'₀-₉-]*)", re.M)
IMPORT = re.compile(r"^(?:ghost )?use (\S+?)\.\{([^}]*)\}", re.M)
STD = set("length take drop append map sum set get_or get_d replicate add sub mul div mod pow suc zero cond max min ltb leb eqb not and or filter".split())


def was(path):
    """The text before port.py."""
    return subprocess.run(["git", "show", f"HEAD:{path}"], capture_output=True, text=True).stdout


def snake(word):
    word = re.sub(r"^x([0-9A-F]{2})$", lambda m: "x" + m[1].lower(), word)
    word = word.replace("getD", "get_or").replace("get_d", "get_or")
    word = re.sub(r"(?<=[a-z0-9])([A-Z])", lambda m: "_" + m[1].lower(), word)
    return word


def new_name(old, functions):
    parts = [snake(p) for p in old.split("-")]
    if len(parts) == 1:
        return parts[0]

    def split(at):
        """The parts from at on as names of functions, or None."""
        if at == len(parts):
            return []
        for end in range(len(parts), at, -1):
            name = "_".join(parts[at:end])
            if name in functions:
                rest = split(end)
                if rest is not None:
                    return [name] + rest
        return None

    groups = split(0)
    return "-".join(groups) if groups and len(groups) > 1 else "_".join(parts)


def main():
    files = glob.glob("crates/*/specs/*.antt") + glob.glob("crates/*/proofs/**/*.antt", recursive=True)
    files = sorted(files + glob.glob("crates/*/src/**/*.rt", recursive=True))
    texts = {p: open(p, encoding="utf-8").read() for p in files}
    foreign, declared, functions, tokens = set(), set(), set(STD), {}
    labels = set()
    for p, t in texts.items():
        tokens[p] = set(TOKEN.findall(t))
        for path, names in IMPORT.findall(t):
            if not re.match(r"Rattle\.(?:" + "|".join(OWN) + r")\.", path):
                for n in names.split(","):
                    foreign.update(x for x in n.split() if x != "as")
        if p.endswith(".antt"):
            for m in DECLARED.finditer(t):
                line = t[m.start() : t.find("\n", m.start() + 1)]
                if re.search(r": (?:tie|goal)\.", line):
                    labels.add(m[1])
                else:
                    declared.add(m[1])
            functions.update(snake(n).replace("-", "_") for n in FUNCTION.findall(t) if "/specs/" in p)
        else:
            labels.update(n.replace("_", "-") for n in re.findall(r"\b[a-z]\w*_\w+\b", t))
    alltokens = set().union(*tokens.values())
    names = {}
    for n in sorted(alltokens):
        if not re.match(r"[a-z]", n) or n in foreign or re.search(r"-(?:Inv|Need|Measure)-", n):
            continue
        if n.endswith("-spec") and n not in functions:
            continue
        camel = bool(re.search(r"[A-Z]", n))
        if camel or ("-" in n and n in declared and n not in labels):
            names[n] = new_name(n, functions)
    names = {o: n for o, n in names.items() if o != n}
    # names that fall together: a lemma that would have its definition's name gets `_lem`
    back = collections.defaultdict(list)
    for o, n in names.items():
        back[n].append(o)
    for n, olds in back.items():
        camel = [o for o in olds if re.search(r"[A-Z]", o)]
        for o in olds:
            if "-" in o and len(olds) > 1:
                names[o] = n + "_lem"
        assert len(camel) < 2 and len(olds) < 3, olds
    for o, n in list(names.items()):
        if n in declared and n in alltokens and n not in names:
            if "-" in o:
                names[o] = n + "_lem"
            elif n in foreign:
                names[o] = n + "_of"
            else:
                names[n] = n + "_lem"
    for o, n in list(names.items()):
        if "--list" in sys.argv:
            print(o, n)
    if "--list" in sys.argv:
        return
    proof_of = re.compile(r"crates/\w+/proofs/.*/")
    code = set(re.findall(r"\bfn (\w+)", "\n".join(texts[p] for p in files if p.endswith(".rt")))) # functions keep their names
    fields = set()
    for t in texts.values():
        for record in re.finditer(r"^( *)(?:pub )?record [^\n]*where\n((?:\1 +[^\n]*\n|\n)+)", t, re.M):
            fields.update(re.findall(r"^\s*(?:pub )?([a-z][\w'₀-₉-]*) :", record[2], re.M))

    def turn(text, path):
        made = bool(proof_of.match(path)) # projections there may be of records that the check makes of the code

        def one(m):
            name = m[0]
            if name not in names or name in code and not path.endswith(".antt"):
                return name
            if made and text[m.start() - 1] == "." and not re.search(r"[A-Z]", name) and name not in fields:
                return name
            return names[name]

        return TOKEN.sub(one, text)

    extra = glob.glob("crates/*/must-fail/*.edit") + ["docs/theorems.txt", "docs/promises.txt"]
    ported = dict(names)
    for p in glob.glob("crates/*/specs/*.antt"): # names that port.py turned already, for the edits and the tables
        for m in DECLARED.finditer(was(p)):
            o = m[1]
            n = o.replace("-", "_")
            if "-" in o and o not in names and n in declared and o not in alltokens:
                ported[o] = names.get(n, n)
            n = snake(o)
            if o != n and o not in ported and n in declared:
                ported[o] = names.get(n, n)
    for p in files:
        t = turn(texts[p], p)
        if t != texts[p]:
            open(p, "w", encoding="utf-8").write(t)
    names = ported
    for p in filter(os.path.exists, extra):
        text = open(p, encoding="utf-8").read()
        t = turn(text, "")
        if t != text:
            open(p, "w", encoding="utf-8").write(t)


OWN = [l.split(":")[0].split()[0] for l in open("crates.txt") if ":" in re.sub("#.*", "", l)]
if __name__ == "__main__":
    main()
