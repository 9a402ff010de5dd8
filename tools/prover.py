#!/usr/bin/env python3
"""What asks the Rattle kit's prover for more than `rt` has commands for: tools/module (the LLVM module), tests/part-edits (all that it says of an edit),
tools/seconds, tools/cost and tools/landings (what a check costs). From the repository's root:

    tools/prover.py sum CRATE              one checksum of all that is proved of the crate and of those below it, and of the kit
    tools/prover.py words CRATE            the prover's words for the crate as crates.txt has it, one per line, over built libraries
    tools/prover.py prove WHO CRATE LOG [VERB]    has rt prove the crate and what is below it (by rt VERB, else check), unless `rt ci` did; WHO says
                                           on standard error what is proved, and LOG keeps all that rt said
    tools/prover.py note                   notes that `rt ci` has proved everything as it stands (tests/run does that)
    tools/prover.py left CRATE             status 0 if the libraries below the crate are those that `rt ci` left"""
import functools
import hashlib
import os
import re
import subprocess
import sys
import time

TOP = os.path.realpath(os.path.join(os.path.dirname(os.path.abspath(__file__)), ".."))
NOTED = "target/proved"


@functools.lru_cache(None)
def crates(top=TOP):
    """The lines of crates.txt: a crate, whether it is a static library, and what it names."""
    with open(os.path.join(top, "crates.txt"), encoding="utf-8") as f:
        lines = re.findall(r"^(\w+)( +staticlib)?[^:#\n]*:([^#\n]*)", f.read(), re.M)
    return {name: (bool(static), needs.split()) for name, static, needs in lines}


def below(crate, top=TOP):
    """The crates of the repository below one, each after those that it names."""
    found = []
    for one in crates(top)[crate][1]:
        if one in crates(top):
            found += [each for each in [*below(one, top), one] if each not in found]
    return found


@functools.lru_cache(None)
def kit():
    return os.path.dirname(subprocess.run(["rt", "doc"], stdout=subprocess.PIPE, check=True, text=True).stdout.strip())


@functools.lru_cache(None)
def version():
    return subprocess.run(["rt", "version"], stdout=subprocess.PIPE, check=True, text=True).stdout.strip()


@functools.lru_cache(None)
def own_sum(crate, top=TOP):
    """A checksum of a crate's line and of its text."""
    found = hashlib.sha256(repr((crate, crates(top)[crate])).encode())
    for part in ("src", "specs", "proofs"):
        for folder, folders, names in os.walk(os.path.join(top, "crates", crate, part)):
            folders.sort()
            for name in sorted(names):
                path = os.path.join(folder, name)
                with open(path, "rb") as f:
                    found.update(repr((os.path.relpath(path, top), f.read())).encode())
    return found.hexdigest()


def sum_of(crate, top=TOP):
    return hashlib.sha256(repr([version(), *(own_sum(one, top) for one in [*below(crate, top), crate])]).encode()).hexdigest()


def rlib(crate, top=TOP):
    return os.path.join(top, "crates", crate, "out/rlib", f"{crate}.rlib")


def left(crate, top=TOP):
    """Whether `rt ci` has proved the crate as it stands, and the libraries below it are those that it left: rt's own have a stamp."""
    path = os.path.join(top, NOTED)
    if not os.path.exists(path):
        return False
    with open(path, encoding="utf-8") as f:
        if f"{crate} {sum_of(crate, top)}\n" not in f.readlines():
            return False
    return all(os.path.exists(f"{rlib(one, top)}/format") and not os.path.exists(f"{rlib(one, top)}/../stamp") for one in below(crate, top))


def words(crate, top=TOP):
    """As rt gives them: libraries are the repository's own, or the kit's."""
    static, needs = crates(top)[crate]
    root = "src/main.rt" if os.path.exists(os.path.join(top, "crates", crate, "src/main.rt")) else "src/lib.rt"
    found = ["--crate-name", crate, root]
    for one in ["std", *needs]:
        found += ["--extern", f"{one}={rlib(one, top) if one in crates(top) else f'{kit()}/rlibs/{one}.rlib'}"]
    found += ["-L", f"dependency={kit()}/rlibs"]
    for one in below(crate, top):
        found += ["-L", f"dependency={os.path.dirname(rlib(one, top))}"]
    found += ["--antt-project", f"{kit()}/rattle/logic/antt-project.json", "--logic-built", f"{kit()}/logic_built", "--links", f"{crate}="]
    if static or root.endswith("main.rt"):
        for one in below(crate, top):
            found += ["--links", f"{one}="]
    return found + (["--crate-type", "staticlib"] if static else [])


def command(verb, crate, top=TOP):
    return [f"{kit()}/bin/rattle", verb, *words(crate, top)]


def prove(who, crate, log, verb="check", top=TOP):
    """Whether rt proves the crate and what is below it."""
    if verb == "check" and left(crate, top):
        return True
    print(f"{who}: proving {crate} and what it is made of, {len(below(crate, top)) + 1} crates in all; from scratch that takes some minutes", file=sys.stderr)
    said = []
    how = {"stdin": subprocess.DEVNULL, "stdout": subprocess.PIPE, "stderr": subprocess.STDOUT, "text": True, "errors": "replace"}
    with open(log, "w", encoding="utf-8") as kept, subprocess.Popen(["rt", verb], cwd=os.path.join(top, "crates", crate), **how) as child:
        for line in child.stdout:
            kept.write(line)
            said.append(line)
            begun = re.match(r"rt: chose --jobs \d+ for (\w+)$", line)
            if begun:
                print(f"{who}: {begun[1]}", file=sys.stderr)
    if child.returncode:
        sys.stderr.write("".join(said[-20:]))
    return child.returncode == 0


def build_below(crate, top=TOP):
    """Has rt build the libraries that a crate names, and those below them; whether all are proved."""
    how = {"stdin": subprocess.DEVNULL, "stdout": subprocess.DEVNULL, "stderr": subprocess.DEVNULL}
    needs = [one for one in crates(top)[crate][1] if one in crates(top)]
    return all(subprocess.run(["rt", "lib"], cwd=os.path.join(top, "crates", one), **how).returncode == 0 for one in needs)


def measure(crate, top=TOP):
    """One check of a crate from scratch over built libraries: seconds, processor seconds, the most memory that it held (MiB), and whether it proved it."""
    start, null = time.time(), subprocess.DEVNULL
    child = subprocess.Popen([*command("check", crate, top), "--jobs", "1"], cwd=os.path.join(top, "crates", crate), stdin=null, stdout=null, stderr=null)
    _, status, used = os.wait4(child.pid, 0)
    child.returncode = os.waitstatus_to_exitcode(status)
    return time.time() - start, used.ru_utime + used.ru_stime, used.ru_maxrss / 1024, child.returncode == 0


def main(words_given):
    form = [*words_given[:1], len(words_given) - 1]
    if form in (["sum", 1], ["words", 1], ["left", 1]) and words_given[1] in crates():
        if form[0] == "left":
            return not left(words_given[1])
        print(sum_of(words_given[1]) if form[0] == "sum" else "\n".join(words(words_given[1])))
        return 0
    if form in (["prove", 3], ["prove", 4]) and words_given[2] in crates():
        return not prove(*words_given[1:])
    if form == ["note", 0]:
        os.makedirs(os.path.join(TOP, "target"), exist_ok=True)
        with open(os.path.join(TOP, NOTED), "w", encoding="utf-8") as f:
            f.writelines(f"{crate} {sum_of(crate)}\n" for crate in crates())
        return 0
    sys.exit(__doc__)


if __name__ == "__main__":
    sys.exit(main(sys.argv[1:]))
