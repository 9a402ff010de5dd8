"""Small modules, and the C that each has to become: every form of instruction, every rule that holds a read, a write or a call in its place,
and what is refused. An export takes a number %a0, a length %a1 and an address %a2, and returns a number."""

HEADER = "#define CINORBIS_VERSION 1\nCINORBIS_CALL uint32_t cinorbis_t(uint32_t number, cinorbis_size length, uint8_t *memory);\n"
HEAD = "define noundef i32 @cinorbis_t(i32 noundef %a0, i64 noundef %a1, ptr noundef %a2) #0 {\nstart:\n"
TAIL = "}\n\nattributes #0 = { nounwind }\n!1 = !{}\n!2 = !{i8 0, i8 2}\n"
# functions that a case calls: one that reads and writes memory, one that takes and gives 8 bytes, one that takes a slice
HELPERS = """define internal noundef i32 @"box::bump"(ptr noundef %a0) #0 {
start:
  %r0 = load i32, ptr %a0, align 4
  store i32 5, ptr %a0, align 4
  ret i32 %r0
}

define internal void @"box::turn"(ptr noundef %a0, ptr noundef %a1) #0 {
start:
  %r0 = alloca [8 x i8], align 4
  call void @llvm.memmove.p0.p0.i64(ptr %r0, ptr %a1, i64 8, i1 false)
  store i32 1, ptr %r0, align 4
  call void @llvm.memmove.p0.p0.i64(ptr %a0, ptr %r0, i64 8, i1 false)
  ret void
}

define internal noundef i64 @"box::total"(ptr noundef %a0) #0 {
start:
  %r0 = alloca [16 x i8], align 8
  call void @llvm.memmove.p0.p0.i64(ptr %r0, ptr %a0, i64 16, i1 false)
  %r1 = load ptr, ptr %r0, align 8
  store i8 1, ptr %r1, align 1
  %r2 = getelementptr i8, ptr %r0, i64 8
  %r3 = load i64, ptr %r2, align 8
  ret i64 %r3
}

"""


# one that writes before it copies its argument
HELPERS += """define internal noundef i32 @"box::late"(ptr noundef %a0, ptr noundef %a1) #0 {
start:
  %r0 = alloca [8 x i8], align 4
  store i32 6, ptr %a0, align 4
  call void @llvm.memmove.p0.p0.i64(ptr %r0, ptr %a1, i64 8, i1 false)
  %r1 = load i32, ptr %r0, align 4
  ret i32 %r1
}

"""


def module(body):
    """A whole module of an export's body, with the helpers that it calls."""
    helpers = [text + "}\n\n" for text in HELPERS.split("}\n\n") if text and f"@{text.split('@')[1].split('(')[0]}(" in body]
    return "".join(helpers) + HEAD + body + TAIL


def cases(text):
    """What a line after `==` names, with the body above the line `--` and what is below it."""
    for part in text.split("\n== ")[1:]:
        name, rest = part.split("\n", 1)
        body, expected = (rest + "\n").split("--\n")
        yield name, body, expected.rstrip("\n")


BECOMES = """
== a sum of 8 bits is cut
  %r0 = load i8, ptr %a2, align 1
  %r1 = add i8 %r0, 200
  %r2 = lshr i8 %r1, 1
  %r3 = zext i8 %r2 to i32
  ret i32 %r3
--
    (void)number;
    (void)length;
    return (uint32_t)(uint8_t)((uint8_t)(*((unsigned char *)memory) + 200) >> 1);
== a product of 16 bits is made without a sign
  %r0 = trunc i32 %a0 to i16
  %r1 = load i16, ptr %a2, align 2
  %r2 = mul i16 %r0, %r1
  %r3 = shl i16 %r2, 3
  %r4 = sext i16 %r3 to i32
  ret i32 %r4
--
    (void)length;
    return (uint32_t)signed16((uint16_t)((uint32_t)(uint16_t)((uint32_t)(uint16_t)number
        * get_i16((unsigned char *)memory)) << 3));
== 32 and 64 bits wrap by themselves
  %r0 = sub nsw i32 3, %a0
  %r1 = mul i32 %r0, -1
  %r2 = add nuw i64 %a1, 5000000000
  %r3 = trunc i64 %r2 to i32
  %r4 = xor i32 %r1, %r3
  ret i32 %r4
--
    (void)memory;
    return ((3 - number) * 4294967295u) ^ (uint32_t)(length + UINT64_C(5000000000));
== divisions, and powers of two as shifts
  %r0 = udiv i32 %a0, 10
  %r1 = urem i32 %a0, %r0
  %r2 = udiv i64 %a1, 65536
  %r3 = mul i64 %r2, 256
  %r4 = trunc i64 %r3 to i32
  %r5 = add i32 %r1, %r4
  ret i32 %r5
--
    (void)memory;
    return number % (number / 10) + (uint32_t)((length >> 16) << 8);
== brackets
  %r0 = load i32, ptr %a2, align 4
  %r1 = sub i32 %a0, 1
  %r2 = sub i32 %r0, %r1
  %r3 = mul i32 %r2, 7
  %r4 = shl i32 1, %r3
  %r5 = sub i32 %r4, 2
  %r6 = sub i32 %r5, %a0
  %r7 = and i32 %r6, 12
  ret i32 %r7
--
    (void)length;
    return ((1u << ((get_i32((unsigned char *)memory) - (number - 1)) * 7)) - 2 - number) & 12;
== comparisons with and without a sign
  %r0 = icmp slt i32 %a0, -5
  %r1 = icmp ule i64 %a1, 9
  %r2 = icmp ne i32 %a0, 4
  %r3 = and i1 %r0, %r1
  %r4 = xor i1 %r2, true
  %r5 = or i1 %r3, %r4
  %r6 = zext i1 %r5 to i32
  ret i32 %r6
--
    (void)memory;
    return (uint32_t)(((signed32(number) < -5) & (length <= 9)) | (number == 4));
== signs of 8 and 64 bits
  %r0 = load i8, ptr %a2, align 1
  %r1 = sext i8 %r0 to i64
  %r2 = icmp slt i64 %r1, %a1
  %r3 = sext i16 -2 to i32
  %r4 = zext i1 %r2 to i32
  %r5 = add i32 %r4, %r3
  ret i32 %r5
--
    (void)number;
    return (uint32_t)(signed64((uint64_t)signed8(*((unsigned char *)memory))) < signed64(length))
        + 4294967294u;
== floats; what is not less need not be greater
  %r0 = load float, ptr %a2, align 4
  %r1 = fadd float %r0, 0x3FB99999A0000000
  %r2 = fneg float %r1
  %r3 = fsub float %r2, -2.500000e+00
  %r4 = fcmp olt float %r3, 1.000000e+00
  %r5 = xor i1 %r4, true
  br i1 %r5, label %then.1, label %else.2

then.1:
  ret i32 7

else.2:
  %r6 = fptoui float %r3 to i32
  ret i32 %r6
--
    float r3;
    (void)number;
    (void)length;
    r3 = -(get_float((unsigned char *)memory) + 0.10000000149011612f) - (-2.5f);
    if (!(r3 < 1.0f)) {
        return 7;
    }
    return (uint32_t)r3;
== counts of bits
  %r0 = load i8, ptr %a2, align 1
  %r1 = call i8 @llvm.ctpop.i8(i8 %r0)
  %r2 = zext i8 %r1 to i64
  %r3 = call i64 @llvm.ctlz.i64(i64 %a1, i1 false)
  %r4 = call i64 @llvm.cttz.i64(i64 %r3, i1 false)
  %r5 = call i64 @llvm.ctpop.i64(i64 %r4)
  %r6 = add i64 %r2, %r5
  %r7 = trunc i64 %r6 to i32
  %r8 = call i32 @llvm.ctpop.i32(i32 %a0)
  %r9 = add i32 %r7, %r8
  ret i32 %r9
--
    return (uint32_t)((uint64_t)ones8(*((unsigned char *)memory))
        + ones64(zeros_below64(zeros_above64(length)))) + ones32(number);
== a place that is written before it is read is the value
  %r0 = alloca i32, align 4
  %r1 = add i32 %a0, 1
  store i32 %r1, ptr %r0, align 4
  %r2 = load i32, ptr %r0, align 4
  ret i32 %r2
--
    (void)length;
    (void)memory;
    return number + 1;
== a place that is read in another block is a variable
  %r0 = alloca i32, align 4
  %r1 = add i32 %a0, 1
  store i32 %r1, ptr %r0, align 4
  %r2 = icmp eq i64 %a1, 0
  br i1 %r2, label %then.1, label %else.2

then.1:
  store i32 6, ptr %r0, align 4
  br label %join.3

else.2:
  br label %join.3

join.3:
  %r3 = load i32, ptr %r0, align 4
  ret i32 %r3
--
    uint32_t r0;
    (void)memory;
    r0 = number + 1;
    if (length == 0) {
        r0 = 6;
    }
    return r0;
== a place that is written once, with an argument, is the argument
  %r0 = alloca i64, align 8
  store i64 %a1, ptr %r0, align 8
  %r1 = icmp eq i32 %a0, 0
  br i1 %r1, label %then.1, label %else.2

then.1:
  %r2 = load i64, ptr %r0, align 8
  %r3 = trunc i64 %r2 to i32
  ret i32 %r3

else.2:
  %r4 = load i32, ptr %a2, align 4
  ret i32 %r4
--
    if (number == 0) {
        return (uint32_t)length;
    }
    return get_i32((unsigned char *)memory);
== a byte that is only a bool is one
  %r0 = alloca i8, align 1
  %r1 = icmp eq i32 %a0, 0
  %r2 = zext i1 %r1 to i8
  store i8 %r2, ptr %r0, align 1
  %r3 = icmp eq i64 %a1, 0
  br i1 %r3, label %then.1, label %else.2

then.1:
  %r4 = zext i1 true to i8
  store i8 %r4, ptr %r0, align 1
  br label %join.3

else.2:
  br label %join.3

join.3:
  %r5 = load i8, ptr %r0, align 1, !range !2, !noundef !1
  %r6 = trunc nuw i8 %r5 to i1
  br i1 %r6, label %then.4, label %else.5

then.4:
  ret i32 1

else.5:
  ret i32 %a0
--
    uint8_t r0;
    (void)memory;
    r0 = number == 0;
    if (length == 0) {
        r0 = true;
    }
    return either_i32(r0, 1, number);
== a byte that is also something else is none
  %r0 = alloca i8, align 1
  %r1 = icmp eq i32 %a0, 0
  %r2 = zext i1 %r1 to i8
  store i8 %r2, ptr %r0, align 1
  br i1 %r1, label %then.1, label %else.2

then.1:
  store i8 3, ptr %r0, align 1
  br label %join.3

else.2:
  br label %join.3

join.3:
  %r3 = load i8, ptr %r0, align 1
  %r4 = zext i8 %r3 to i32
  ret i32 %r4
--
    uint8_t r0, r1;
    (void)length;
    (void)memory;
    r1 = number == 0;
    r0 = (uint8_t)r1;
    if (r1) {
        r0 = 3;
    }
    return (uint32_t)r0;
== numbers in memory
  %r0 = getelementptr inbounds nuw i8, ptr %a2, i64 2
  %r1 = load i16, ptr %r0, align 2
  %r2 = mul i64 %a1, 4
  %r3 = getelementptr i8, ptr %a2, i64 %r2
  store i32 %a0, ptr %r3, align 4
  %r4 = getelementptr i8, ptr %a2, i64 8
  store i64 %a1, ptr %r4, align 8
  %r5 = getelementptr i8, ptr %a2, i64 %a1
  store i8 1, ptr %r5, align 1
  %r6 = zext i16 %r1 to i32
  ret i32 %r6
--
    uint16_t r1;
    r1 = get_i16(((unsigned char *)memory) + 2);
    put_i32(((unsigned char *)memory) + length * 4, number);
    put_i64(((unsigned char *)memory) + 8, length);
    ((unsigned char *)memory)[length] = 1;
    return (uint32_t)r1;
== bytes of its own, aligned, filled and copied
  %r0 = alloca [8 x i8], align 4
  %r1 = alloca [8 x i8], align 4
  call void @llvm.memset.p0.i64(ptr %r0, i8 0, i64 8, i1 false)
  %r2 = getelementptr i8, ptr %r0, i64 4
  store i32 %a0, ptr %r2, align 4
  call void @llvm.memmove.p0.p0.i64(ptr %r1, ptr %r0, i64 8, i1 false)
  call void @llvm.memmove.p0.p0.i64(ptr %r2, ptr %a2, i64 4, i1 false)
  call void @llvm.memmove.p0.p0.i64(ptr %a2, ptr %r1, i64 8, i1 false)
  %r3 = load i32, ptr %r2, align 4
  ret i32 %r3
--
    bytes8_4 r0, r1;
    (void)length;
    fill(r0.b, 0, 8);
    put_i32(r0.b + 4, number);
    r1 = r0;
    copy(r0.b + 4, (unsigned char *)memory, 4);
    copy((unsigned char *)memory, r1.b, 8);
    return get_i32(r0.b + 4);
== what is copied first and last is handed over by value
  %r0 = alloca [8 x i8], align 4
  %r1 = alloca [8 x i8], align 4
  call void @llvm.memmove.p0.p0.i64(ptr %r0, ptr %a2, i64 8, i1 false)
  call void @"box::turn"(ptr %r1, ptr %r0)
  %r2 = load i32, ptr %r1, align 4
  ret i32 %r2
--
    bytes8_4 r0, r1;
    (void)number;
    (void)length;
    copy(r0.b, (unsigned char *)memory, 8);
    r1 = box_turn(r0);
    return get_i32(r1.b);
== but not if a call hands over other memory
  %r0 = alloca [8 x i8], align 4
  call void @llvm.memset.p0.i64(ptr %r0, i8 0, i64 8, i1 false)
  call void @"box::turn"(ptr %a2, ptr %r0)
  %r2 = load i32, ptr %r0, align 4
  ret i32 %r2
--
    bytes8_4 r0;
    (void)number;
    (void)length;
    fill(r0.b, 0, 8);
    box_turn((unsigned char *)memory, r0);
    return get_i32(r0.b);
== nor if something is written before it is copied
  %r0 = alloca [8 x i8], align 4
  call void @llvm.memset.p0.i64(ptr %r0, i8 0, i64 8, i1 false)
  %r1 = call i32 @"box::late"(ptr %r0, ptr %r0)
  ret i32 %r1
--
    bytes8_4 r0;
    (void)number;
    (void)length;
    (void)memory;
    fill(r0.b, 0, 8);
    return box_late(r0.b, r0.b);
== a slice that is made to be handed over is a value
  %r0 = alloca [16 x i8], align 8
  store ptr %a2, ptr %r0, align 8
  %r1 = getelementptr i8, ptr %r0, i64 8
  store i64 %a1, ptr %r1, align 8
  %r2 = call i64 @"box::total"(ptr %r0)
  %r3 = trunc i64 %r2 to i32
  ret i32 %r3
--
    (void)number;
    return (uint32_t)box_total(slice_of((unsigned char *)memory, length));
== a slice in memory is copied out
  %r0 = call i64 @"box::total"(ptr %a2)
  %r1 = trunc i64 %r0 to i32
  ret i32 %r1
--
    (void)number;
    (void)length;
    return (uint32_t)box_total(get_slice((unsigned char *)memory));
== a slice that is kept, changed and put to memory
  %r0 = alloca [16 x i8], align 8
  %r1 = getelementptr i8, ptr %r0, i64 8
  store ptr %a2, ptr %r0, align 8
  store i64 %a1, ptr %r1, align 8
  %r2 = load i64, ptr %r1, align 8
  store i64 3, ptr %r1, align 8
  call void @llvm.memmove.p0.p0.i64(ptr %a2, ptr %r0, i64 16, i1 false)
  %r3 = trunc i64 %r2 to i32
  ret i32 %r3
--
    slice r0;
    uint64_t r2;
    (void)number;
    r0.at = (unsigned char *)memory;
    r0.n = length;
    r2 = r0.n;
    r0.n = 3;
    put_slice((unsigned char *)memory, r0);
    return (uint32_t)r2;
== a variable's write holds its reads back
  %r0 = alloca i32, align 4
  store i32 %a0, ptr %r0, align 4
  br label %loop.2

loop.2:
  %r1 = load i32, ptr %r0, align 4
  %r2 = icmp ult i32 %r1, 100
  br i1 %r2, label %body.3, label %after.1

body.3:
  %r3 = load i32, ptr %r0, align 4
  %r4 = mul i32 %r3, 2
  store i32 %r4, ptr %r0, align 4
  %r5 = load i64, ptr %a2, align 8
  %r6 = zext i32 %r3 to i64
  %r7 = add i64 %r5, %r6
  store i64 %r7, ptr %a2, align 8
  br label %loop.2

after.1:
  %r8 = load i32, ptr %r0, align 4
  ret i32 %r8
--
    uint32_t r0, r3;
    (void)length;
    r0 = number;
    while (r0 < 100) {
        r3 = r0;
        r0 = r0 * 2;
        put_i64((unsigned char *)memory, get_i64((unsigned char *)memory) + (uint64_t)r3);
    }
    return r0;
== a write to memory holds reads of memory back
  %r0 = load i32, ptr %a2, align 4
  %r1 = getelementptr i8, ptr %a2, i64 4
  store i32 %a0, ptr %r1, align 4
  ret i32 %r0
--
    uint32_t r0;
    (void)length;
    r0 = get_i32((unsigned char *)memory);
    put_i32(((unsigned char *)memory) + 4, number);
    return r0;
== a write to memory holds a call back
  %r0 = call i32 @"box::bump"(ptr %a2)
  store i32 %a0, ptr %a2, align 4
  ret i32 %r0
--
    uint32_t r0;
    (void)length;
    r0 = box_bump((unsigned char *)memory);
    put_i32((unsigned char *)memory, number);
    return r0;
== a call holds reads of memory back
  %r0 = load i32, ptr %a2, align 4
  %r1 = call i32 @"box::bump"(ptr %a2)
  %r2 = sub i32 %r0, %r1
  ret i32 %r2
--
    uint32_t r0;
    (void)number;
    (void)length;
    r0 = get_i32((unsigned char *)memory);
    return r0 - box_bump((unsigned char *)memory);
== a read of memory holds a call back
  %r0 = call i32 @"box::bump"(ptr %a2)
  %r1 = load i32, ptr %a2, align 4
  %r2 = sub i32 %r0, %r1
  ret i32 %r2
--
    uint32_t r0;
    (void)number;
    (void)length;
    r0 = box_bump((unsigned char *)memory);
    return r0 - get_i32((unsigned char *)memory);
== a call holds a call back
  %r0 = call i32 @"box::bump"(ptr %a2)
  %r1 = call i32 @"box::bump"(ptr %a2)
  %r2 = sub i32 %r0, %r1
  ret i32 %r2
--
    uint32_t r0;
    (void)number;
    (void)length;
    r0 = box_bump((unsigned char *)memory);
    return r0 - box_bump((unsigned char *)memory);
== a fill holds reads of memory back
  %r0 = load i32, ptr %a2, align 4
  call void @llvm.memset.p0.i64(ptr %a2, i8 0, i64 8, i1 false)
  ret i32 %r0
--
    uint32_t r0;
    (void)number;
    (void)length;
    r0 = get_i32((unsigned char *)memory);
    fill((unsigned char *)memory, 0, 8);
    return r0;
== a copy holds calls and reads back
  %r0 = alloca [8 x i8], align 4
  %r1 = alloca [8 x i8], align 4
  call void @llvm.memset.p0.i64(ptr %r0, i8 0, i64 8, i1 false)
  %r2 = call i32 @"box::bump"(ptr %r0)
  call void @llvm.memmove.p0.p0.i64(ptr %r1, ptr %r0, i64 8, i1 false)
  %r3 = load i32, ptr %r1, align 4
  call void @llvm.memmove.p0.p0.i64(ptr %r1, ptr %a2, i64 8, i1 false)
  %r4 = load i32, ptr %r1, align 4
  %r5 = sub i32 %r2, %r3
  %r6 = sub i32 %r5, %r4
  ret i32 %r6
--
    bytes8_4 r0, r1;
    uint32_t r2, r3;
    (void)number;
    (void)length;
    fill(r0.b, 0, 8);
    r2 = box_bump(r0.b);
    r1 = r0;
    r3 = get_i32(r1.b);
    copy(r1.b, (unsigned char *)memory, 8);
    return r2 - r3 - get_i32(r1.b);
== a variable whose address is handed on is memory
  %r0 = alloca i32, align 4
  store i32 %a0, ptr %r0, align 4
  %r1 = load i32, ptr %r0, align 4
  %r2 = call i32 @"box::bump"(ptr %r0)
  %r3 = load i32, ptr %r0, align 4
  %r4 = sub i32 %r1, %r2
  %r5 = sub i32 %r4, %r3
  ret i32 %r5
--
    uint32_t r0, r1, r2;
    (void)length;
    (void)memory;
    r0 = number;
    r1 = r0;
    r2 = box_bump((unsigned char *)&r0);
    return r1 - r2 - r0;
== a slice's copy holds a call back that may write it
  %r0 = alloca [16 x i8], align 8
  %r1 = alloca [16 x i8], align 8
  store ptr %a2, ptr %r0, align 8
  %r2 = getelementptr i8, ptr %r0, i64 8
  store i64 %a1, ptr %r2, align 8
  %r3 = call i32 @"box::bump"(ptr %r2)
  call void @llvm.memmove.p0.p0.i64(ptr %r1, ptr %r0, i64 16, i1 false)
  %r4 = load ptr, ptr %r1, align 8
  store i8 0, ptr %r4, align 1
  %r5 = getelementptr i8, ptr %r1, i64 8
  %r6 = load i64, ptr %r5, align 8
  %r7 = trunc i64 %r6 to i32
  %r8 = sub i32 %r3, %r7
  ret i32 %r8
--
    slice r0, r1;
    uint32_t r3;
    (void)number;
    r0.at = (unsigned char *)memory;
    r0.n = length;
    r3 = box_bump((unsigned char *)&r0 + 8);
    r1 = r0;
    *r1.at = 0;
    return r3 - (uint32_t)r1.n;
== a value that nothing changes waits
  %r0 = alloca i32, align 4
  store i32 1, ptr %r0, align 4
  %r1 = load i32, ptr %a2, align 4
  store i32 2, ptr %r0, align 4
  %r2 = icmp eq i64 %a1, 0
  br i1 %r2, label %then.1, label %else.2

then.1:
  %r3 = load i32, ptr %r0, align 4
  %r4 = add i32 %r3, %a0
  ret i32 %r4

else.2:
  ret i32 %r1
--
    uint32_t r0, r1;
    r0 = 1;
    r0 = 2;
    r1 = get_i32((unsigned char *)memory);
    return either_i32(length == 0, r0 + number, r1);
== a call whose result is not used
  %r0 = call i32 @"box::bump"(ptr %a2)
  ret i32 %a0
--
    (void)length;
    (void)box_bump((unsigned char *)memory);
    return number;
== while, and what it is left by
  %r0 = alloca i64, align 8
  store i64 0, ptr %r0, align 8
  br label %loop.2

loop.2:
  %r1 = load i64, ptr %r0, align 8
  %r2 = icmp ult i64 %r1, %a1
  br i1 %r2, label %body.3, label %after.1

body.3:
  %r3 = load i64, ptr %r0, align 8
  %r4 = getelementptr i8, ptr %a2, i64 %r3
  %r5 = load i8, ptr %r4, align 1
  %r6 = icmp eq i8 %r5, 0
  br i1 %r6, label %then.4, label %else.5

then.4:
  ret i32 1

else.5:
  br label %join.6

join.6:
  %r7 = load i64, ptr %r0, align 8
  %r8 = add i64 %r7, 1
  store i64 %r8, ptr %r0, align 8
  br label %loop.2

after.1:
  ret i32 0
--
    uint64_t r0;
    (void)number;
    r0 = 0;
    while (r0 < length) {
        if (((unsigned char *)memory)[r0] == 0) {
            return 1;
        }
        r0 = r0 + 1;
    }
    return 0;
== switch
  %r0 = alloca i32, align 4
  switch i32 %a0, label %default.4 [
    i32 0, label %arm.1
    i32 5, label %arm.2
    i32 6, label %arm.2
    i32 7, label %arm.3
  ]

arm.1:
  store i32 10, ptr %r0, align 4
  br label %join.5

arm.2:
  store i32 20, ptr %r0, align 4
  br label %join.5

arm.3:
  ret i32 3

default.4:
  unreachable

join.5:
  %r1 = load i32, ptr %r0, align 4
  ret i32 %r1
--
    uint32_t r0;
    (void)length;
    (void)memory;
    switch (number) {
    case 0:
        r0 = 10;
        break;
    case 5:
    case 6:
        r0 = 20;
        break;
    case 7:
        return 3;
    default:
        unreachable();
    }
    return r0;
== what is never reached
  %r0 = icmp eq i32 %a0, 0
  br i1 %r0, label %then.1, label %else.2

then.1:
  call void @llvm.trap()
  unreachable

else.2:
  %r1 = load i32, ptr %a2, align 4
  ret i32 %r1
--
    (void)length;
    if (number == 0) {
        stuck();
    }
    return get_i32((unsigned char *)memory);
== the greater of two with a sign is chosen without a jump
  %r0 = icmp slt i32 %a0, 9
  %r1 = trunc i64 %a1 to i32
  %r2 = add i32 %r1, 0
  %r3 = icmp slt i32 %a0, %r2
  br i1 %r3, label %then.1, label %else.2

then.1:
  ret i32 %r2

else.2:
  ret i32 %a0
--
    uint32_t r2;
    (void)memory;
    r2 = (uint32_t)length;
    return greater_i32(number, r2);
== so is one of any two that may both be made
  %r0 = load i32, ptr %a2, align 4
  %r1 = icmp eq i32 %r0, 0
  br i1 %r1, label %then.1, label %else.2

then.1:
  %r2 = sub i32 0, %a0
  ret i32 %r2

else.2:
  ret i32 7
--
    (void)length;
    return either_i32(get_i32((unsigned char *)memory) == 0, 0 - number, 7);
== but not if one divides
  %r0 = icmp eq i32 %a0, 0
  br i1 %r0, label %then.1, label %else.2

then.1:
  ret i32 7

else.2:
  %r1 = udiv i32 100, %a0
  ret i32 %r1
--
    (void)length;
    (void)memory;
    if (number == 0) {
        return 7;
    }
    return 100 / number;
== or shifts by a number that only the condition bounds
  %r0 = icmp ult i32 %a0, 32
  br i1 %r0, label %then.1, label %else.2

then.1:
  %r1 = shl i32 1, %a0
  ret i32 %r1

else.2:
  ret i32 0
--
    (void)length;
    (void)memory;
    if (number < 32) {
        return 1u << number;
    }
    return 0;
== or reads memory
  %r0 = icmp eq i64 %a1, 0
  br i1 %r0, label %then.1, label %else.2

then.1:
  ret i32 7

else.2:
  %r1 = load i32, ptr %a2, align 4
  ret i32 %r1
--
    (void)number;
    if (length == 0) {
        return 7;
    }
    return get_i32((unsigned char *)memory);
== or reads a variable that may have no value
  %r0 = alloca i32, align 4
  %r1 = icmp eq i32 %a0, 0
  br i1 %r1, label %then.1, label %else.2

then.1:
  store i32 9, ptr %r0, align 4
  br label %join.3

else.2:
  store i8 1, ptr %a2, align 1
  br label %join.3

join.3:
  br i1 %r1, label %then.4, label %else.5

then.4:
  %r2 = load i32, ptr %r0, align 4
  ret i32 %r2

else.5:
  ret i32 0
--
    uint32_t r0;
    uint8_t r1;
    (void)length;
    r1 = number == 0;
    if (r1) {
        r0 = 9;
    } else {
        *((unsigned char *)memory) = 1;
    }
    if (r1) {
        return r0;
    }
    return 0;
== or writes memory
  %r0 = icmp eq i64 %a1, 0
  br i1 %r0, label %then.1, label %else.2

then.1:
  ret i32 7

else.2:
  %r1 = call i32 @"box::bump"(ptr %a2)
  ret i32 %r1
--
    (void)number;
    if (length == 0) {
        return 7;
    }
    return box_bump((unsigned char *)memory);
== a number's bytes are put at once
  store i8 7, ptr %a2, align 1
  %r0 = urem i64 %a1, 256
  %r1 = trunc i64 %r0 to i8
  store i8 %r1, ptr %a2, align 1
  %r2 = udiv i64 %a1, 256
  %r3 = urem i64 %r2, 256
  %r4 = trunc i64 %r3 to i8
  %r5 = getelementptr i8, ptr %a2, i64 1
  store i8 %r4, ptr %r5, align 1
  %r6 = udiv i64 %a1, 65536
  %r7 = urem i64 %r6, 256
  %r8 = trunc i64 %r7 to i8
  %r9 = getelementptr i8, ptr %a2, i64 2
  store i8 %r8, ptr %r9, align 1
  %r10 = udiv i64 %a1, 16777216
  %r11 = urem i64 %r10, 256
  %r12 = trunc i64 %r11 to i8
  %r13 = getelementptr i8, ptr %a2, i64 3
  store i8 %r12, ptr %r13, align 1
  %r14 = udiv i64 %a1, 4294967296
  %r15 = urem i64 %r14, 256
  %r16 = trunc i64 %r15 to i8
  %r17 = getelementptr i8, ptr %a2, i64 4
  store i8 %r16, ptr %r17, align 1
  %r18 = udiv i64 %a1, 1099511627776
  %r19 = urem i64 %r18, 256
  %r20 = trunc i64 %r19 to i8
  %r21 = getelementptr i8, ptr %a2, i64 5
  store i8 %r20, ptr %r21, align 1
  %r22 = udiv i64 %a1, 281474976710656
  %r23 = urem i64 %r22, 256
  %r24 = trunc i64 %r23 to i8
  %r25 = getelementptr i8, ptr %a2, i64 6
  store i8 %r24, ptr %r25, align 1
  %r26 = udiv i64 %a1, 72057594037927936
  %r27 = urem i64 %r26, 256
  %r28 = trunc i64 %r27 to i8
  %r29 = getelementptr i8, ptr %a2, i64 7
  store i8 %r28, ptr %r29, align 1
  ret i32 0
--
    (void)number;
    *((unsigned char *)memory) = 7;
    put_eight((unsigned char *)memory, length);
    return 0;
"""
REFUSED = """
== a form that is not known
  %r0 = sdiv i32 %a0, 3
  ret i32 %r0
--
a line of no known form: %r0 = sdiv i32 %a0, 3
== a function of LLVM that is not known
  %r0 = call i32 @llvm.bswap.i32(i32 %a0)
  ret i32 %r0
--
a line of no known form: %r0 = call i32 @llvm.bswap.i32(i32 %a0)
== a count that has no C
  %r0 = call i32 @llvm.ctlz.i32(i32 %a0, i1 false)
  ret i32 %r0
--
a line of no known form: %r0 = call i32 @llvm.ctlz.i32(i32 %a0, i1 false)
== a product of floats, which could be contracted
  %r0 = load float, ptr %a2, align 4
  %r1 = fmul float %r0, %r0
  ret i32 %a0
--
a line of no known form: %r1 = fmul float %r0, %r0
== an access that is not aligned
  %r0 = load i32, ptr %a2, align 1
  ret i32 %r0
--
an access that is not aligned: %r0 = load i32, ptr %a2, align 1
== an access that is not aligned in its place
  %r0 = alloca [8 x i8], align 4
  %r1 = getelementptr i8, ptr %r0, i64 2
  store i32 %a0, ptr %r1, align 4
  ret i32 %a0
--
an access that is not aligned: cinorbis_t %r1
== an access that is wider than its place is aligned
  %r0 = alloca [8 x i8], align 4
  store i64 %a1, ptr %r0, align 8
  ret i32 %a0
--
an access that is not aligned: cinorbis_t %r0
== a copy of one part of memory to another
  %r0 = getelementptr i8, ptr %a2, i64 8
  call void @llvm.memmove.p0.p0.i64(ptr %a2, ptr %r0, i64 16, i1 false)
  ret i32 %a0
--
a copy that may overlap: cinorbis_t %a2 %r0
== a copy inside one place
  %r0 = alloca [8 x i8], align 4
  %r1 = getelementptr i8, ptr %r0, i64 4
  call void @llvm.memmove.p0.p0.i64(ptr %r0, ptr %r1, i64 4, i1 false)
  ret i32 %a0
--
a copy that may overlap: cinorbis_t %r0 %r1
== a number that is read as another
  %r0 = alloca i32, align 4
  store i32 %a0, ptr %r0, align 4
  %r1 = load float, ptr %r0, align 4
  ret i32 %a0
--
a place of one number is used as another: cinorbis_t %r0
== a jump into the middle
  %r0 = icmp eq i32 %a0, 0
  br i1 %r0, label %then.1, label %else.2

then.1:
  store i8 1, ptr %a2, align 1
  br label %middle.3

else.2:
  br label %middle.3

middle.3:
  store i8 2, ptr %a2, align 1
  ret i32 0
--
a jump that is no if, while or switch: cinorbis_t middle.3
== a block without an end
  %r0 = add i32 %a0, 1
--
a block that does not end once: cinorbis_t, start
== arithmetic of bools
  %r0 = icmp eq i32 %a0, 0
  %r1 = add i1 %r0, true
  %r2 = zext i1 %r1 to i32
  ret i32 %r2
--
arithmetic of bools: cinorbis_t %r1
== a bool with a sign
  %r0 = icmp eq i32 %a0, 0
  %r1 = sext i1 %r0 to i32
  ret i32 %r1
--
a line of no known form: cinorbis_t %r1
== a float that is no number
  %r0 = load float, ptr %a2, align 4
  %r1 = fadd float %r0, 0x7FF8000000000000
  store float %r1, ptr %a2, align 4
  ret i32 %a0
--
a constant that is no number: cinorbis_t 0x7FF8000000000000
== a call of what is not there
  %r0 = call i32 @"other::call"(i32 %a0)
  ret i32 %r0
--
a call of what the module does not have: cinorbis_t other::call
"""
# changes of a whole module or of its header: what is replaced, by what, and what is said
CHANGED = (
    ("module", "attributes #0", "@table = global i32 0\nattributes #0", "a line of no known form: @table = global i32 0"),
    ("module", "!2 = !{i8 0, i8 2}", "!2 = !{i8 0, i8 3}", "a line of no known form: !2 = !{i8 0, i8 3}"),
    ("module", "@cinorbis_t(", "@cinorbis_u(", "an export that is not in the header, or a call that is not in the module: cinorbis_t cinorbis_u"),
    ("module", "i64 noundef %a1", "i32 noundef %a1", "an export unlike the header: cinorbis_t"),
    ("module", "define noundef i32", "define noundef i64", "an export unlike the header: cinorbis_t"),
    ("header", "cinorbis_size length, ", "", "an export unlike the header: cinorbis_t"),
    ("header", "uint8_t *memory", "uint8_t *memory, uint32_t more", "an export unlike the header: cinorbis_t"),
    ("header", "uint8_t *memory", "uint32_t memory", "an export unlike the header: cinorbis_t"),
    ("header", "uint32_t cinorbis_t", "int32_t cinorbis_t", "an export unlike the header: cinorbis_t"),
)
