#!/usr/bin/env python3
"""Writes the rows of `llvm-as`, and of `llvm-link` of one text without `-S`, among crates/tool_table's stored input and output.

The bitcode of each text is made here by a small encoder of the bitstream container (blocks, abbreviations, records), from records that are
written by hand from docs/bitcode.md; the 80 bytes of the empty text are written out whole. What is told of a run is written by hand from
docs/commands.md. Nothing is taken from the program.

    tests/assemble.py            writes the rows
    tests/assemble.py --check    tells whether they are what it would write
"""
import sys

sys.dont_write_bytecode = True
from stored import content, printed, store_part

# What the script says of each run, and what is told of it.
RUNS = []

# ---- the container: bits, least significant first


class Bits:
    def __init__(self):
        self.bits = []

    def fixed(self, number, width):
        self.bits += [number >> k & 1 for k in range(width)]

    def vbr(self, number, width):
        """Chunks of one bit less than the width, low first; the top bit says that another follows."""
        while number >> (width - 1):
            self.fixed(number % (1 << (width - 1)) | 1 << (width - 1), width)
            number >>= width - 1
        self.fixed(number, width)

    def align(self):
        self.bits += [0] * (-len(self.bits) % 32)

    def bytes(self):
        return bytes(sum(bit << k for k, bit in enumerate(self.bits[at:at + 8])) for at in range(0, len(self.bits), 8))


def put_block(out, outer, number, entries, width=3):
    """A block with ids of so many bits, three unless it is said, in a block whose ids have so many as `outer`."""
    out.fixed(1, outer)
    out.vbr(number, 8)
    out.vbr(width, 4)
    out.align()
    count_at = len(out.bits)
    out.fixed(0, 32)
    for put in entries:
        put(out)
    out.fixed(0, width)
    out.align()
    words = (len(out.bits) - count_at) // 32 - 1
    out.bits[count_at:count_at + 32] = [words >> k & 1 for k in range(32)]


def record(code, *operands, width=3):
    """A record without an abbreviation, in a block whose ids have so many bits."""
    def put(out):
        out.fixed(3, width)
        for number in [code, len(operands), *operands]:
            out.vbr(number, 6)
    return put


def block(number, *entries):
    return lambda out: put_block(out, 3, number, entries)


def byte_record(bytes_):
    """The abbreviation of a record of bytes (VBR 6, Array, Fixed 8), and record 1 of these bytes by it."""
    def put(out):
        out.fixed(2, 3)
        out.vbr(3, 5)
        for encoding, width in [(2, 6), (3, None), (1, 8)]:
            out.fixed(0, 1)
            out.fixed(encoding, 3)
            if width is not None:
                out.vbr(width, 5)
        out.fixed(4, 3)
        out.vbr(1, 6)
        out.vbr(len(bytes_), 6)
        for byte in bytes_:
            out.fixed(byte, 8)
    return put


def top(*blocks, width=3):
    """The magic number, and these blocks, each with its number and entries; their ids have so many bits."""
    out = Bits()
    for byte in [0x42, 0x43, 0xC0, 0xDE]:
        out.fixed(byte, 8)
    for number, entries in blocks:
        put_block(out, 2, number, entries, width)
    return out.bytes()


PRODUCER = (13, [byte_record(b"integer profile 1")])


def bitcode(table, *entries):
    """Version 2: the producer, the string table, and the module: VERSION and these entries."""
    return top(PRODUCER, (23, [byte_record(table)]), (8, [record(1, 2), *entries]))


def first_version(*entries):
    """Version 1: the producer and the module, with no string table."""
    return top(PRODUCER, (8, [record(1, 1), *entries]))


def in_line(name):
    """A name in version 1: its size and its bytes."""
    return [len(name), *name]


# ---- records of a module, version 2 of the table: a text is an offset and a size, and so is a name

SOURCE, LAYOUT, TRIPLE, VARIABLE, FUNCTION, ALIAS = 2, 3, 4, 5, 6, 7
EXTERNAL, INTERNAL, WEAK, EXTERN_WEAK = 0, 2, 6, 10

# Types, of which each names earlier ones.
PTR, VOID = record(2), record(3)


def int_type(width):
    return record(1, width)


def types(*entries):
    return block(17, *entries)


# Codes of instructions: 10 and that of the opcode.
ADD, CALL, RET, BR, UNREACHABLE = 11, 37, 40, 41, 43

# A block begins with BLOCK, and a body with PARAMS.
PARAMS, BLOCK = 1, 2


def body(*entries):
    return block(12, *entries)


# Constants: a form and what it holds. A value is 0 and an index, or a constant.
def integer(number):
    return [1, number]


NULL, UNDEF, POISON, ZEROS = [2], [3], [4], [5]


def of_global(number):
    return [6, number]


def listed(*constants):
    return [7, len(constants), *(number for constant in constants for number in constant)]


def string(bytes_):
    return [8, len(bytes_), *bytes_]


def value(number):
    return [0, number]


# ---- the modules

# The module of an empty text, byte for byte: 36 bytes of the producer and 44 of an empty string table and an empty module.
EMPTY = bytes.fromhex(
    "42 43 C0 DE 35 0C 00 00 06 00 00 00 1A 64 4C 10 83 28 CD 8D AE EC AC 4C 0E 04 4E EE CD 2C 8D AD 0C 24 06 00"
    "5D 0C 00 00 02 00 00 00 1A 64 4C 10 03 00 00 00 21 0C 00 00 05 00 00 00"
    "0B 02 21 11 03 00 00 00 01 00 00 00 00 00 00 00 00 00 00 00")

BYTE = "@x = global i8 255"
BYTE_CODE = bitcode(b"x", types(int_type(8)), record(VARIABLE, 0, 1, EXTERNAL, 0, 0, 0, 1, *integer(255)))

SUM = "define i32 @main() { %1 = add i32 40, 2 ret i32 %1 }"
SUM_CODE = bitcode(
    b"main", types(int_type(32)), record(FUNCTION, 0, 4, EXTERNAL, 1, 0, 0, 0),
    body(record(PARAMS), record(BLOCK, 0), record(ADD, 0, 0, 0, *integer(40), *integer(2)), record(RET, 1, 0, *value(0))))

# A sum loop as clang prints it, and its bitcode: each block, its instructions, and an alignment of 4 as 3.
LOOP = """; ModuleID = 'sum.c'
source_filename = "sum.c"
target datalayout = "e-m:e-p270:32:32-p271:32:32-p272:64:64-i64:64-i128:128-f80:128-n8:16:32:64-S128"
target triple = "x86_64-unknown-linux-gnu"

; Function Attrs: noinline nounwind optnone uwtable
define dso_local i32 @main() #0 {
  %1 = alloca i32, align 4
  %2 = alloca i32, align 4
  %3 = alloca i32, align 4
  store i32 0, ptr %1, align 4
  store i32 0, ptr %2, align 4
  store i32 0, ptr %3, align 4
  br label %4

4:                                    ; preds = %11, %0
  %5 = load i32, ptr %3, align 4
  %6 = icmp slt i32 %5, 5
  br i1 %6, label %7, label %14

7:
  %8 = load i32, ptr %3, align 4
  %9 = load i32, ptr %2, align 4
  %10 = add nsw i32 %9, %8
  store i32 %10, ptr %2, align 4
  br label %11

11:
  %12 = load i32, ptr %3, align 4
  %13 = add nsw i32 %12, 1
  store i32 %13, ptr %3, align 4
  br label %4, !llvm.loop !2

14:
  %15 = load i32, ptr %2, align 4
  ret i32 %15
}

attributes #0 = { noinline nounwind optnone uwtable "frame-pointer"="all" }

!llvm.module.flags = !{!0}
!llvm.ident = !{!1}

!0 = !{i32 1, !"wchar_size", i32 4}
!1 = !{!"clang version 18.1.3"}
!2 = distinct !{!2, !3}
!3 = !{!"llvm.loop.mustprogress"}
"""
LOOP_LAYOUT = b"e-m:e-p270:32:32-p271:32:32-p272:64:64-i64:64-i128:128-f80:128-n8:16:32:64-S128"
LOOP_TRIPLE = b"x86_64-unknown-linux-gnu"


def alloca():
    return record(35, 0, 0, 0, 3)


def load(address):
    return record(33, 0, 0, 0, *value(address), 3)


def store(number, address):
    return record(34, 0, 0, *number, *value(address), 3)


LOOP_TABLE = b"sum.c" + LOOP_LAYOUT + LOOP_TRIPLE + b"main"
LOOP_CODE = bitcode(
    LOOP_TABLE, record(SOURCE, 0, 5), record(LAYOUT, 5, len(LOOP_LAYOUT)), record(TRIPLE, 5 + len(LOOP_LAYOUT), 24),
    types(int_type(32), PTR, int_type(1)), record(FUNCTION, 5 + len(LOOP_LAYOUT) + 24, 4, EXTERNAL, 1, 0, 0, 0),
    body(record(PARAMS),
         record(BLOCK, 0), alloca(), alloca(), alloca(), store(integer(0), 0), store(integer(0), 1), store(integer(0), 2), record(BR, 0, 1),
         record(BLOCK, 0), load(2), record(24, 0, 0, 9, 0, *value(3), *integer(5)), record(BR, 1, *value(4), 2, 4),
         record(BLOCK, 0), load(2), load(1), record(ADD, 0, 2, 0, *value(6), *value(5)), store(value(7), 1), record(BR, 0, 3),
         record(BLOCK, 0), load(2), record(ADD, 0, 2, 0, *value(8), *integer(1)), store(value(9), 2), record(BR, 0, 1),
         record(BLOCK, 0), load(1), record(RET, 1, 0, *value(10))))

# Each text, and its bitcode.
MODULES = [
    ("", EMPTY),
    ('source_filename = "a" @a = global i1 0',
     bitcode(b"a", record(SOURCE, 0, 1), types(int_type(1)), record(VARIABLE, 0, 1, EXTERNAL, 0, 0, 0, 1, *integer(0)))),
    (BYTE, BYTE_CODE),
    (SUM, SUM_CODE),
    # A text that stands twice is in the table once, and an empty one nowhere.
    ('target triple = "" target datalayout = "e" source_filename = "e" @e = external global i1',
     bitcode(b"e", record(SOURCE, 0, 1), record(LAYOUT, 0, 1), record(TRIPLE, 0, 0), types(int_type(1)),
             record(VARIABLE, 0, 1, EXTERNAL, 0, 0, 0, 0))),
    # Types each once, behind their parts, and then the structs; an alignment of 8 is 4, its power and one more.
    ("%P = type <{ i8, ptr }> %O = type opaque @p = internal constant %P <{ i8 7, ptr @p }>, align 8 @z = extern_weak global [3 x { i8 }]",
     bitcode(b"POpz",
             types(int_type(8), PTR, record(6, 0), record(5, 0, 0), record(4, 3, 3), record(7, 1, 2, 0, 1, 0, 1), record(7, 2, 0, 1, 1)),
             record(VARIABLE, 2, 1, INTERNAL, 1, 2, 4, 1, *listed(integer(7), of_global(0))),
             record(VARIABLE, 3, 1, EXTERN_WEAK, 0, 4, 0, 0))),
    # Integers by their bits: low and high halves where the type has more than 64.
    ("@m = global i8 -1 @w = global i65 -1 @h = global [2 x i8] c\"hi\" @n = global ptr null @u = global i8 undef @o = global i8 poison @q = global [2 x i8] zeroinitializer",
     bitcode(b"mwhnuoq",
             types(int_type(8), int_type(65), record(4, 2, 0), PTR),
             record(VARIABLE, 0, 1, EXTERNAL, 0, 0, 0, 1, *integer(255)),
             record(VARIABLE, 1, 1, EXTERNAL, 0, 1, 0, 1, 1, 2**64 - 1, 1),
             record(VARIABLE, 2, 1, EXTERNAL, 0, 2, 0, 1, *string(b"hi")),
             record(VARIABLE, 3, 1, EXTERNAL, 0, 3, 0, 1, *NULL),
             record(VARIABLE, 4, 1, EXTERNAL, 0, 0, 0, 1, *UNDEF),
             record(VARIABLE, 5, 1, EXTERNAL, 0, 0, 0, 1, *POISON),
             record(VARIABLE, 6, 1, EXTERNAL, 0, 2, 0, 1, *ZEROS))),
    # An alias of a variable, and one of a function: behind both kinds, of which it names one.
    ("@x = global i32 5 @y = alias i32, ptr @x @g = internal alias i32 (i8), ptr @f define i32 @f(i8 %0) { unreachable }",
     bitcode(b"xfyg", types(int_type(32), int_type(8)),
             record(VARIABLE, 0, 1, EXTERNAL, 0, 0, 0, 1, *integer(5)),
             record(FUNCTION, 1, 1, EXTERNAL, 1, 0, 0, 1, 1),
             record(ALIAS, 2, 1, EXTERNAL, 0, 0, 0), record(ALIAS, 3, 1, INTERNAL, 1, 0, 0, 1, 1, 1),
             body(record(PARAMS, 0), record(BLOCK, 0), record(UNREACHABLE)))),
    # Names of values and blocks, each its size and one more, and its offset; a name of a function may be one of a value.
    ("define i32 @f(i32 %f, i1 %c) { entry: %y = add nsw i32 %f, 2 br i1 %c, label %a, label %entry2 a: ret i32 %y entry2: br label %a }",
     bitcode(b"fcentryyaentry2", types(int_type(32), int_type(1)),
             record(FUNCTION, 0, 1, EXTERNAL, 1, 0, 0, 2, 0, 1),
             body(record(PARAMS, 2, 0, 2, 1),
                  record(BLOCK, 6, 2), record(ADD, 2, 7, 2, 0, *value(0), *integer(2)), record(BR, 1, *value(1), 1, 2),
                  record(BLOCK, 2, 8), record(RET, 1, 0, *value(2)),
                  record(BLOCK, 7, 9), record(BR, 0, 1)))),
    # Calls: of a function, and of a variadic one with one argument behind the fixed ones.
    ("declare i32 @putchar(i32) declare void @v(...) define void @main() { %1 = call i32 @putchar(i32 65) call void (...) @v(i32 %1) ret void }",
     bitcode(b"putcharvmain", types(int_type(32), VOID),
             record(FUNCTION, 0, 7, EXTERNAL, 0, 0, 0, 1, 0), record(FUNCTION, 7, 1, EXTERNAL, 0, 1, 1, 0), record(FUNCTION, 8, 4, EXTERNAL, 1, 1, 0, 0),
             body(record(PARAMS), record(BLOCK, 0),
                  record(CALL, 0, 0, 0, 1, 0, *of_global(0), 1, *integer(65)),
                  record(CALL, 1, 1, 0, *of_global(1), 1, 0, *value(0)),
                  record(RET, 0)))),
    # A name of any bytes, but a zero byte.
    ('@"\\FF\\0A" = weak global i1 true',
     bitcode(b"\xff\n", types(int_type(1)), record(VARIABLE, 0, 2, WEAK, 0, 0, 0, 1, *integer(1)))),
    (LOOP, LOOP_CODE),
]


# ---- the rows


def run(given, words, told):
    """A run of which the script says this, and what is told of it behind its words."""
    RUNS.append((f"{given}run {words}\n", f"> {words}\n{told}"))


def file_of(text, name="assembled.ll"):
    return f"clear\nfile {name}\n{content(text)}"


def input_of(text):
    return f"clear\ninput\n{content(text)}"


def line(text):
    return f"errors\n| {text}\n"


def modules():
    """Each text by `llvm-as`, to standard output; and linked alone, which changes none of them."""
    for text, code in MODULES:
        run(file_of(text), "llvm-as -o - assembled.ll", f"status 0\nfiles assembled.ll\noutput\n{printed(code)}")
        run("", "llvm-link assembled.ll", f"status 0\nfiles assembled.ll\noutput\n{printed(code)}")


def names():
    """Where the result goes: `.bc` in place of `.ll`, or behind; standard output where the input is standard input."""
    run(file_of(BYTE), "llvm-as assembled.ll", f"status 0\nfiles assembled.ll\nwrote assembled.bc\n{printed(BYTE_CODE)}")
    # Standard input is not touched where it is no input.
    run(file_of(SUM, "dir/a.ll.txt") + "input\n+ ?\n", "llvm-as dir/a.ll.txt", f"status 0\nfiles dir/a.ll.txt\nwrote dir/a.ll.txt.bc\n{printed(SUM_CODE)}")
    run(file_of(BYTE, "a"), "llvm-as -o b.ll a", f"status 0\nfiles a\nwrote b.ll\n{printed(BYTE_CODE)}")
    # The file that was read may be written over; what it then holds begins with no token.
    run("", "llvm-as -o=a a", f"status 0\nfiles a\nwrote a\n{printed(BYTE_CODE)}")
    run("", "llvm-as a", f"status 1\nfiles a\n{line('llvm-as: a:1:1: no item here')}")
    run(input_of(SUM), "llvm-as -", f"status 0\ninput {len(SUM)}\noutput\n{printed(SUM_CODE)}")
    run(input_of(BYTE), "llvm-as", f"status 0\ninput {len(BYTE)}\noutput\n{printed(BYTE_CODE)}")
    run(input_of(BYTE), "llvm-as -- -", f"status 0\ninput {len(BYTE)}\noutput\n{printed(BYTE_CODE)}")
    run(input_of(BYTE), "llvm-as - -o x.bc", f"status 0\ninput {len(BYTE)}\nwrote x.bc\n{printed(BYTE_CODE)}")
    run(file_of(""), "llvm-as assembled.ll", f"status 0\nfiles assembled.ll\nwrote assembled.bc\n{printed(EMPTY)}")
    run(file_of(BYTE), "llvm-link -o b.bc assembled.ll", f"status 0\nfiles assembled.ll\nwrote b.bc\n{printed(BYTE_CODE)}")
    run(input_of(BYTE), "llvm-link -", f"status 0\ninput {len(BYTE)}\noutput\n{printed(BYTE_CODE)}")


def refusals():
    """Texts that are refused, each kind once: nothing is written, and the file of the output stays as it was."""
    deep = "".join(f"%T{n} = type {{ %T{n - 1} }}\n" for n in range(1, 65))
    twice = "".join(f"%T{n} = type {{ %T{n - 1}, %T{n - 1} }}\n" for n in range(1, 21))
    for text, told in [
        ("@x = global i32 1 ?", ":1:19: bad byte"),
        ("@x = global", ":1:12: no item here"),
        ("@x = global float 0.0", ":1:13: left out: float"),
        ("@x = global " + 65 * "[1 x ", ":1:333: too deep"),
        ("@x = global i32 1 @x = global i32 2", ":1:19: duplicate, first at 1:1"),
        ("define i32 @f() { ret i32 %x }", ":1:27: unknown name %x"),
        ("define i32 @f() { %2 = add i32 1, 1 ret i32 %2 }", ":1:19: number 1 expected, 2 found"),
        ("@x = global i8 256", ":1:16: constant out of range"),
        ("%T0 = type { i32 }\n" + deep, ":65:1: too deep"),
        ("%T = type { %T }", ":1:1: contains itself"),
        ("%T0 = type {}\n" + twice, ":21:1: too large"),
        ("target datalayout = \"E\"", ": invalid V1 at module"),
        ("@x = global i32 1 define internal i32 @f() { br label %0 }", ": invalid V8 at %0 of @f"),
    ]:
        run(file_of(text) + "file assembled.bc\n+ ; kept\n", "llvm-as assembled.ll", f"status 1\nfiles assembled.ll\n{line(f'llvm-as: assembled.ll{told}')}")
        run("", "llvm-link -o assembled.bc assembled.ll", f"status 1\nfiles assembled.ll\n{line(f'llvm-link: assembled.ll{told}')}")
    # No run wrote the file.
    run("", "llvm-as -o - assembled.bc", f"status 0\nfiles assembled.bc\noutput\n{printed(EMPTY)}")
    counted = "each 0 262145 @a#=global i1 0\\x0a\n"
    run(f"clear\nfile assembled.ll\n{counted}", "llvm-as assembled.ll", f"status 1\nfiles assembled.ll\n{line('llvm-as: assembled.ll: too many variables: 262145')}")
    # A text that begins as bitcode does is a text like any other.
    run("clear\nfile a.bc\n= 42 43 c0 de\n", "llvm-as -o - a.bc", f"status 1\nfiles a.bc\n{line('llvm-as: a.bc:1:1: no item here')}")
    run(f"clear\nfile a.bc\n= {EMPTY.hex(' ')}\n", "llvm-as a.bc", f"status 1\nfiles a.bc\n{line('llvm-as: a.bc:1:1: no item here')}")
    run("clear\ninput\n= 42 43 c0 de\n", "llvm-as", f"status 1\ninput 4\n{line('llvm-as: -:1:1: no item here')}")


def sinks():
    """What is taken is a front of the bitcode where a call fails or no room is left, and the answer is that it cannot be written."""
    short = input_of(BYTE)
    told = f"status 1\ninput {len(BYTE)}\n"
    for tool in ["llvm-as", "llvm-link"]:
        words, refused = f"{tool} -", line(f"{tool}: cannot write -")
        run(short + "fails output 1\n", words, told + refused)
        run(short + "room output 0\n", words, told + refused)
        run(short + "room output 1\n", words, f"{told}output\n+ B\n{refused}")
        size = len(BYTE_CODE)
        run(short + f"room output {size - 1}\n", words, f"{told}output\n{printed(BYTE_CODE[:-1])}{refused}")
        run(short + f"room output {size}\n", words, f"status 0\ninput {len(BYTE)}\noutput\n{printed(BYTE_CODE)}")
    # A standard error that takes nothing changes no answer.
    run(short + "fails output 1\nroom errors 0\n", "llvm-as -", told)
    # A text that is refused is not written, so no call fails.
    run(input_of("@x = global i8 256") + "fails output 1\n", "llvm-as", f"status 1\ninput 18\n{line('llvm-as: -:1:16: constant out of range')}")


def files():
    """The first call of the files reads, the second writes. Of a file that a write was asked for is told what it holds then."""
    kept = file_of(BYTE) + "file assembled.bc\n+ ; kept\n"
    run(kept + "fails files 2\n", "llvm-as assembled.ll", f"status 1\nfiles assembled.ll\nwrote assembled.bc\n+ ; kept\n{line('llvm-as: cannot write assembled.bc')}")
    run(kept + "fails files 2\n", "llvm-link assembled.ll -o assembled.bc", f"status 1\nfiles assembled.ll\nwrote assembled.bc\n+ ; kept\n{line('llvm-link: cannot write assembled.bc')}")
    run(kept + "fails files 1\n", "llvm-as assembled.ll", f"status 1\nfiles assembled.ll\n{line('llvm-as: cannot read assembled.ll')}")
    run(input_of(BYTE) + "fails files 1\n", "llvm-as - -o out.bc", f"status 1\ninput {len(BYTE)}\n{line('llvm-as: cannot write out.bc')}")
    # Standard output fails for no file, and no file for standard output.
    run(kept + "fails output 1\n", "llvm-as assembled.ll", f"status 0\nfiles assembled.ll\nwrote assembled.bc\n{printed(BYTE_CODE)}")
    run(kept + "fails files 2\n", "llvm-as -o - assembled.ll", f"status 0\nfiles assembled.ll\noutput\n{printed(BYTE_CODE)}")


def main():
    if bitcode(b"", types()) != EMPTY:
        sys.exit("the encoder does not make the module of an empty text")
    for table in [modules, names, refusals, sinks, files]:
        table()
    store_part("assemble", RUNS)


if __name__ == "__main__":
    main()
