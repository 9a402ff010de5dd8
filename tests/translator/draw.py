"""Modules drawn at random, in the toolchain's forms: reads, writes and calls in any order, in ifs, loops and switches. Each export takes a
number, a length and the address of 64 bytes, of which the first 48 hold numbers and the last 16 floats, and returns a number."""
import random

HELPERS = """
define internal noundef i32 @"box::bump"(ptr noundef %a0, i32 noundef %a1) #0 {
start:
  %r0 = load i32, ptr %a0, align 4, !noundef !1
  %r1 = add i32 %r0, %a1
  store i32 %r1, ptr %a0, align 4
  %r2 = mul i32 %r1, 3
  ret i32 %r2
}

define internal noundef i32 @"box::peek"(ptr noundef %a0, i64 noundef %a1) #0 {
start:
  %r0 = and i64 %a1, 7
  %r1 = mul i64 %r0, 4
  %r2 = getelementptr i8, ptr %a0, i64 %r1
  %r3 = load i32, ptr %r2, align 4, !noundef !1
  ret i32 %r3
}

define internal noundef i32 @"box::mix"(i32 noundef %a0, i32 noundef %a1) #0 {
start:
  %r0 = alloca i32, align 4
  %r1 = icmp slt i32 %a0, %a1
  br i1 %r1, label %then.1, label %else.2

then.1:
  %r2 = sub i32 %a1, %a0
  store i32 %r2, ptr %r0, align 4
  br label %join.3

else.2:
  store i32 %a0, ptr %r0, align 4
  br label %join.3

join.3:
  %r3 = load i32, ptr %r0, align 4, !noundef !1
  ret i32 %r3
}

define internal void @"box::turn"(ptr noundef %a0, ptr noundef %a1, i32 noundef %a2) #0 {
start:
  %r0 = alloca [24 x i8], align 8
  %r1 = alloca [24 x i8], align 8
  call void @llvm.memmove.p0.p0.i64(ptr %r1, ptr %a1, i64 24, i1 false)
  call void @llvm.memmove.p0.p0.i64(ptr %r0, ptr %r1, i64 24, i1 false)
  %r2 = getelementptr i8, ptr %r1, i64 4
  %r3 = load i32, ptr %r2, align 4, !noundef !1
  %r4 = xor i32 %r3, %a2
  store i32 %r4, ptr %r0, align 4
  call void @llvm.memmove.p0.p0.i64(ptr %a0, ptr %r0, i64 24, i1 false)
  ret void
}

define internal noundef i64 @"box::total"(ptr noundef %a0, i64 noundef %a1) #0 {
start:
  %r0 = alloca [16 x i8], align 8
  %r1 = alloca i64, align 8
  call void @llvm.memmove.p0.p0.i64(ptr %r0, ptr %a0, i64 16, i1 false)
  %r2 = load ptr, ptr %r0, align 8, !noundef !1
  %r3 = getelementptr i8, ptr %r0, i64 8
  %r4 = load i64, ptr %r3, align 8, !noundef !1
  store i64 %a1, ptr %r1, align 8
  %r5 = load i8, ptr %r2, align 1, !noundef !1
  %r6 = zext i8 %r5 to i64
  %r7 = add i64 %r6, %r4
  store i8 9, ptr %r2, align 1
  %r8 = load i64, ptr %r1, align 8, !noundef !1
  %r9 = add i64 %r7, %r8
  ret i64 %r9
}
"""
MODULE = """source_filename = "drawn"
{functions}
declare void @llvm.memmove.p0.p0.i64(ptr, ptr, i64, i1 immarg) #1
attributes #0 = {{ nounwind }}
!1 = !{{}}
!2 = !{{i8 0, i8 2}}
"""
NUMBERS = ("i8", "i16", "i32", "i64")
BITS = {"i1": 1, "i8": 8, "i16": 16, "i32": 32, "i64": 64}
SIZE = {"i8": 1, "i16": 2, "i32": 4, "i64": 8, "float": 4}


class Drawn:
    """One export. The places: two for each type, a bool, one i32 whose address is handed around, 24 bytes twice, a slice and an address."""

    def __init__(self, name, seed):
        self.random, self.lines, self.count, self.labels = random.Random(seed), [], 0, 0
        self.values = {kind: [] for kind in (*NUMBERS, "i1", "float")}
        self.places = {kind: [self.place(kind, SIZE[kind]) for _ in range(2)] for kind in (*NUMBERS, "float")}
        self.flag, self.shared, self.address = self.place("i8", 1), self.place("i32", 4), self.place("ptr", 8)
        self.rows, self.slice = [self.place("[24 x i8]", 8) for _ in range(2)], self.place("[16 x i8]", 8)
        self.values["i32"].append("%a0")
        self.values["i64"].append("%a1")
        self.begin()
        self.some(self.random.randint(4, 12), 2)
        last = self.value("i32")
        self.text = "\n".join([f"define noundef i32 @{name}(i32 noundef %a0, i64 noundef %a1, ptr noundef %a2) #0 {{", "start:", *self.lines,
                               f"  ret i32 {last}", "}"])

    def put(self, line):
        self.lines.append("  " + line)

    def new(self, line, kind=None):
        name = f"%r{self.count}"
        self.count += 1
        self.put(f"{name} = {line}")
        if kind:
            self.values[kind].append(name)
        return name

    def place(self, kind, align):
        return self.new(f"alloca {kind}, align {align}")

    def begin(self):
        for kind, places in self.places.items():
            for k, place in enumerate(places):
                self.put(f"store {kind} {'1.500000e+00' if kind == 'float' else k + 3}, ptr {place}, align {SIZE[kind]}")
        self.write_flag("true")
        self.put(f"store i32 77, ptr {self.shared}, align 4")
        self.put(f"store ptr %a2, ptr {self.address}, align 8")
        for row in self.rows:
            self.put(f"call void @llvm.memset.p0.i64(ptr {row}, i8 5, i64 24, i1 false)")
        self.make_slice()

    def value(self, kind):
        """One that there is, most often a late one, or a constant."""
        have = self.values[kind]
        if have and self.random.random() < 0.85:
            return have[max(0, len(have) - 1 - int(self.random.expovariate(0.6)))]
        if kind == "i1":
            return self.random.choice(("true", "false"))
        return self.random.choice(("2.500000e-01", "-3.000000e+00")) if kind == "float" else str(self.random.choice((0, 1, 5, 127, -1)))

    # ---------------------------------------------------------------- instructions

    def some(self, n, depth):
        kinds = [self.read, self.write, self.sum, self.compare, self.cast, self.read_memory, self.write_memory, self.call, self.copy, self.floats,
                 self.hazard, self.hazard, self.hazard]
        for _ in range(n):
            if depth and self.random.random() < 0.2:
                self.random.choice((self.branch, self.loop, self.switch))(depth - 1)
            else:
                self.random.choice(kinds)()

    def read(self):
        kind = self.random.choice((*NUMBERS, "i32", "flag", "shared"))
        if kind == "flag":
            byte = self.new(f"load i8, ptr {self.flag}, align 1, !range !2, !noundef !1")
            self.new(f"trunc nuw i8 {byte} to i1", "i1")
        else:
            place, kind = (self.shared, "i32") if kind == "shared" else (self.random.choice(self.places[kind]), kind)
            self.new(f"load {kind}, ptr {place}, align {SIZE[kind]}, !noundef !1", kind)

    def write_flag(self, value):
        byte = self.new(f"zext i1 {value} to i8")
        self.put(f"store i8 {byte}, ptr {self.flag}, align 1")

    def write(self):
        kind = self.random.choice((*NUMBERS, "i32", "i32", "flag", "shared"))
        if kind == "flag":
            return self.write_flag(self.value("i1"))
        place, kind = (self.shared, "i32") if kind == "shared" else (self.random.choice(self.places[kind]), kind)
        self.put(f"store {kind} {self.value(kind)}, ptr {place}, align {SIZE[kind]}")

    def sum(self):
        kind, how = self.random.choice(NUMBERS), self.random.choice("add sub mul and or xor udiv urem shl lshr".split())
        left, right = self.value(kind), self.value(kind)
        if how in ("udiv", "urem"):
            right = self.random.choice(("3", "256" if kind != "i8" else "16", self.new(f"or {kind} {right}, 1")))
        elif how in ("shl", "lshr"):
            right = self.random.choice(("1", "3", self.new(f"and {kind} {right}, {BITS[kind] - 1}")))
        self.new(f"{how} {kind} {left}, {right}", kind)

    def compare(self):
        kind, how = self.random.choice(NUMBERS), self.random.choice("eq ne ult ule slt".split())
        self.new(f"icmp {how} {kind} {self.value(kind)}, {self.value(kind)}", "i1")
        if self.random.random() < 0.3:
            self.new(f"{self.random.choice(('and', 'or', 'xor'))} i1 {self.value('i1')}, {self.value('i1')}", "i1")

    def cast(self):
        small, large = sorted(self.random.sample(range(4), 2))
        if self.random.random() < 0.5:
            self.new(f"{self.random.choice(('zext', 'sext'))} {NUMBERS[small]} {self.value(NUMBERS[small])} to {NUMBERS[large]}", NUMBERS[large])
        else:
            self.new(f"trunc {NUMBERS[large]} {self.value(NUMBERS[large])} to {NUMBERS[small]}", NUMBERS[small])
        if self.random.random() < 0.3:
            self.new(f"zext i1 {self.value('i1')} to i32", "i32")
            self.new(f"call i32 @llvm.ctpop.i32(i32 {self.value('i32')})", "i32")
            count = self.new(f"call i64 @llvm.{self.random.choice(('ctpop', 'ctlz', 'cttz'))}.i64(i64 {self.value('i64')})", "i64")
            self.put(f"store i64 {count}, ptr {self.new('getelementptr i8, ptr %a2, i64 32')}, align 8")

    def where(self, size):
        """An aligned address in memory: of the caller, by the place that holds it, or of the function."""
        base, room = self.random.choice((("%a2", 48), (None, 48), (self.rows[0], 24), (self.rows[1], 24)))
        base = base or self.new(f"load ptr, ptr {self.address}, align 8, !noundef !1")
        offset = self.random.randrange(0, room, size)
        return self.new(f"getelementptr i8, ptr {base}, i64 {offset}") if offset else base

    def read_memory(self):
        kind = self.random.choice(NUMBERS)
        self.new(f"load {kind}, ptr {self.where(SIZE[kind])}, align {SIZE[kind]}, !noundef !1", kind)

    def write_memory(self):
        kind = self.random.choice(NUMBERS)
        self.put(f"store {kind} {self.value(kind)}, ptr {self.where(SIZE[kind])}, align {SIZE[kind]}")

    def make_slice(self):
        at = self.new("getelementptr i8, ptr %a2, i64 8")
        self.put(f"store ptr {at}, ptr {self.slice}, align 8")
        length = self.new(f"getelementptr i8, ptr {self.slice}, i64 8")
        self.put(f"store i64 {self.value('i64')}, ptr {length}, align 8")

    def call(self):
        which = self.random.randrange(6)
        if which == 0:
            self.new(f'call i32 @"box::bump"(ptr {self.where(4)}, i32 {self.value("i32")})', "i32")
        elif which == 1:
            self.new(f'call i32 @"box::bump"(ptr {self.shared}, i32 {self.value("i32")})', "i32")
        elif which == 2:
            self.new(f'call i32 @"box::peek"(ptr %a2, i64 {self.value("i64")})', "i32")
        elif which == 3:
            self.new(f'call i32 @"box::mix"(i32 {self.value("i32")}, i32 {self.value("i32")})', "i32")
        elif which == 4:
            self.put(f'call void @"box::turn"(ptr {self.rows[0]}, ptr {self.random.choice(self.rows)}, i32 {self.value("i32")})')
        else:
            if self.random.random() < 0.5:
                self.make_slice()
            self.new(f'call i64 @"box::total"(ptr {self.slice}, i64 {self.value("i64")})', "i64")

    def copy(self):
        to, source = self.random.choice((self.rows, self.rows[::-1], ("%a2", self.rows[0]), (self.rows[1], "%a2")))
        self.put(f"call void @llvm.memmove.p0.p0.i64(ptr {to}, ptr {source}, i64 {self.random.choice((8, 24))}, i1 false)")

    def floats(self):
        at = self.new(f"getelementptr i8, ptr %a2, i64 {self.random.choice((48, 52, 56, 60))}")
        if self.random.random() < 0.4:
            return self.put(f"store float {self.value('float')}, ptr {at}, align 4")
        self.new(f"load float, ptr {at}, align 4, !noundef !1", "float")
        if self.random.random() < 0.5:
            self.new(f"{self.random.choice(('fadd', 'fsub'))} float {self.value('float')}, {self.value('float')}", "float")
        self.new(f"fneg float {self.value('float')}", "float")
        self.new(f"fcmp {self.random.choice(('olt', 'ole', 'oeq'))} float {self.value('float')}, {self.value('float')}", "i1")

    def hazard(self):
        """Something is read, then something happens that may change it, and then the first is used, once."""
        place, offset = self.random.choice(self.places["i32"]), self.random.choice((0, 4, 8))
        at = self.new(f"getelementptr i8, ptr %a2, i64 {offset}")
        reads = (f"load i32, ptr {place}, align 4, !noundef !1", f"load i32, ptr {at}, align 4, !noundef !1",
                 f"load i32, ptr {self.shared}, align 4, !noundef !1", f'call i32 @"box::bump"(ptr {at}, i32 {self.value("i32")})',
                 f'call i32 @"box::bump"(ptr {self.shared}, i32 3)')
        first = self.new(self.random.choice(reads))
        which = self.random.randrange(4)
        second = self.new(self.random.choice(reads)) if which < 2 else self.value("i32")
        if which == 2:
            self.put(f"store i32 {self.value('i32')}, ptr {place}, align 4")
        elif which == 3:
            self.put(f"store i32 {self.value('i32')}, ptr {at}, align 4")
        end = self.new("getelementptr i8, ptr %a2, i64 44")
        self.put(f"store i32 {self.new(f'sub i32 {first}, {second}')}, ptr {end}, align 4")

    # ---------------------------------------------------------------- blocks

    def label(self, name):
        self.labels += 1
        return f"{name}.{self.labels}"

    def inside(self, depth, n):
        """Instructions whose values nobody sees afterwards."""
        kept = {kind: list(values) for kind, values in self.values.items()}
        self.some(n, depth)
        self.values = kept

    def branch(self, depth):
        then, other, join = self.label("then"), self.label("else"), self.label("join")
        self.put(f"br i1 {self.value('i1')}, label %{then}, label %{other}")
        simple = self.random.random() < 0.4  # both write one place: a choice
        place, kind = self.random.choice([(place, kind) for kind in ("i8", "i32", "float") for place in self.places[kind]])
        for label in (then, other):
            self.lines.append(f"{label}:")
            if simple:
                value = self.value(kind)
                if kind != "float" and self.random.random() < 0.5:
                    value = self.new(f"{self.random.choice(('sub', 'add', 'xor'))} {kind} {value}, {self.value(kind)}")
                self.put(f"store {kind} {value}, ptr {place}, align {SIZE[kind]}")
            else:
                self.inside(depth, self.random.randint(0, 4))
            self.put(f"br label %{join}")
        self.lines.append(f"{join}:")

    def loop(self, depth):
        after, loop, body = self.label("after"), self.label("loop"), self.label("body")
        counter = self.new("add i64 0, 0")  # a place of its own would have to stand at the start: the rows have room
        self.put(f"store i64 {counter}, ptr {self.places['i64'][1]}, align 8")
        self.put(f"br label %{loop}")
        self.lines.append(f"{loop}:")
        now = self.new(f"load i64, ptr {self.places['i64'][1]}, align 8, !noundef !1")
        more = self.new(f"icmp ult i64 {now}, 3")
        self.put(f"br i1 {more}, label %{body}, label %{after}")
        self.lines.append(f"{body}:")
        kept, self.places["i64"] = self.places["i64"], self.places["i64"][:1]
        self.inside(0, self.random.randint(1, 4))
        self.places["i64"] = kept
        again = self.new(f"load i64, ptr {self.places['i64'][1]}, align 8, !noundef !1")
        self.put(f"store i64 {self.new(f'add i64 {again}, 1')}, ptr {self.places['i64'][1]}, align 8")
        self.put(f"br label %{loop}")
        self.lines.append(f"{after}:")

    def switch(self, depth):
        arms = [self.label("arm") for _ in range(2)]
        default, join = self.label("default"), self.label("join")
        subject = self.new(f"and i32 {self.value('i32')}, 3")
        self.put(f"switch i32 {subject}, label %{default} [")
        self.lines += [f"    i32 0, label %{arms[0]}", f"    i32 2, label %{arms[1]}", "  ]"]
        for label in (*arms, default):
            self.lines.append(f"{label}:")
            self.inside(depth, self.random.randint(0, 3))
            self.put(f"br label %{join}")
        self.lines.append(f"{join}:")


def module(seeds):
    """A module with one export for each seed."""
    return MODULE.format(functions=HELPERS + "\n".join(Drawn(f"cinorbis_drawn{seed}", seed).text for seed in seeds))
