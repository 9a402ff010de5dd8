"""Runs a module's text, line by line: what its functions return and leave in memory. It shares nothing with tools/translate.

Memory is rows of cells, a byte or a part of an address each; an address is a row and a place in it."""
import re
import struct

BITS = {"i1": 1, "i8": 8, "i16": 16, "i32": 32, "i64": 64}
SIZE = {"i8": 1, "i16": 2, "i32": 4, "i64": 8, "float": 4, "ptr": 8}


def signed(x, bits):
    return x - (1 << bits) if x >> (bits - 1) else x


def as_float(x):
    return struct.unpack("<f", struct.pack("<f", x))[0]


TWO = {"add": lambda x, y: x + y, "sub": lambda x, y: x - y, "mul": lambda x, y: x * y, "udiv": lambda x, y: x // y, "urem": lambda x, y: x % y,
       "and": lambda x, y: x & y, "or": lambda x, y: x | y, "xor": lambda x, y: x ^ y, "shl": lambda x, y: x << y, "lshr": lambda x, y: x >> y}
ORDER = {"eq": lambda x, y: x == y, "ne": lambda x, y: x != y, "ult": lambda x, y: x < y, "ule": lambda x, y: x <= y,
         "olt": lambda x, y: x < y, "ole": lambda x, y: x <= y, "oeq": lambda x, y: x == y}


class Machine:
    def __init__(self, text):
        self.functions = {}
        for name, args, body in re.findall(r'^define [^@]*@"?([^"(]+)"?\(([^\n]*)\) #0 \{\n(.*?)^\}', text, re.M | re.S):
            blocks = {}
            body = re.sub(r"\[\n(.*?)\n *\]", lambda m: "[" + " ".join(m[1].split()) + "]", body, flags=re.S)
            for line in body.splitlines():
                label = re.match(r"([a-z0-9.]+):", line)
                if label:
                    block = blocks[label[1]] = []
                elif line.strip():
                    block.append(line.strip())
            self.functions[name] = [arg.split()[-1] for arg in args.split(", ") if arg], blocks

    def run(self, name, args):
        names, blocks = self.functions[name]
        values, label = dict(zip(names, args)), "start"
        while True:
            for line in blocks[label]:
                word = line.split()[0]
                if word == "br":
                    to = re.findall(r"label %([a-z0-9.]+)", line)
                    label = to[0] if len(to) == 1 or self.value(values, "i1", line.split()[2].rstrip(",")) else to[1]
                elif word == "switch":
                    kind, value = re.match(r"switch (\w+) ([^,]+),", line).groups()
                    chosen = {int(n): to for n, to in re.findall(r"i\d+ (\d+), label %([a-z0-9.]+)", line)}
                    label = chosen.get(self.value(values, kind, value), re.search(r"label %([a-z0-9.]+) \[", line)[1])
                elif word == "ret":
                    return None if line == "ret void" else self.value(values, *line.split()[1:3])
                elif word == "store":
                    kind, value, at = re.match(r"store (\w+) (\S+), ptr (\S+),", line).groups()
                    self.store(values[at], kind, self.value(values, kind, value))
                elif word == "call":
                    self.call(values, line)
                else:
                    result, rest = line.split(" = ", 1)
                    values[result] = self.make(values, rest)

    def value(self, values, kind, text):
        if text.startswith("%"):
            return values[text]
        if kind == "i1":
            return int(text == "true")
        return float(text) if kind == "float" else int(text) % (1 << BITS[kind])

    def load(self, address, kind):
        row, at = address
        cells = row[at:at + SIZE[kind]]
        if kind == "ptr":
            return cells[0]
        whole = bytes(cells)
        return struct.unpack("<f", whole)[0] if kind == "float" else int.from_bytes(whole, "little")

    def store(self, address, kind, value):
        row, at = address
        if kind == "ptr":
            row[at:at + 8] = [value] + [None] * 7
        else:
            row[at:at + SIZE[kind]] = struct.pack("<f", value) if kind == "float" else value.to_bytes(SIZE[kind], "little")

    def call(self, values, line):
        name, args = re.search(r'@"?([^"(]+)"?\((.*)\)', line).groups()
        given = [self.value(values, arg.split()[0], arg.split()[-1]) for arg in args.split(", ") if arg]
        if name.startswith("llvm.memmove"):
            (to, t), (source, s), n = given[0], given[1], given[2]
            to[t:t + n] = source[s:s + n]
        elif name.startswith("llvm.memset"):
            (to, t), byte, n = given[:3]
            to[t:t + n] = [byte] * n
        elif name.startswith("llvm.ctpop"):
            return bin(given[0]).count("1")
        elif name.startswith("llvm.ctlz"):
            return 64 - given[0].bit_length()
        elif name.startswith("llvm.cttz"):
            return (given[0] & -given[0]).bit_length() - 1 if given[0] else 64
        else:
            return self.run(name, given)

    def make(self, values, text):
        """The result of an instruction."""
        word, rest = text.split(" ", 1)
        if word == "alloca":
            kind = rest.split(", align")[0]
            return [[None] * (int(re.search(r"\d+", kind)[0]) if kind.startswith("[") else SIZE[kind]), 0]
        if word == "load":
            kind, at = re.match(r"(\w+), ptr (\S+),", rest).groups()
            return self.load(values[at], kind)
        if word == "getelementptr":
            at, by = re.search(r"ptr (\S+), i64 (\S+)", rest).groups()
            return [values[at][0], values[at][1] + self.value(values, "i64", by)]
        if word == "call":
            return self.call(values, text)
        if word in ("icmp", "fcmp"):
            how, kind, x, y = rest.replace(",", "").split()
            x, y = self.value(values, kind, x), self.value(values, kind, y)
            return int(signed(x, BITS[kind]) < signed(y, BITS[kind]) if how == "slt" else ORDER[how](x, y))
        if word == "fneg":
            return -self.value(values, "float", rest.split()[1])
        if word in ("fadd", "fsub"):
            _, x, y = rest.replace(",", "").split()
            x, y = self.value(values, "float", x), self.value(values, "float", y)
            return as_float(x + y if word == "fadd" else x - y)
        if word in TWO:
            kind, x, y = rest.replace(",", "").replace("nuw ", "").replace("nsw ", "").split()
            return TWO[word](self.value(values, kind, x), self.value(values, kind, y)) % (1 << BITS[kind])
        kind, x, to = re.match(r"(?:nuw )?(\w+) (\S+) to (\w+)", rest).groups()
        x = self.value(values, kind, x)
        if word == "fptoui":
            return int(x)
        return (signed(x, BITS[kind]) if word == "sext" else x) % (1 << BITS[to])
