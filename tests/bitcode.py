#!/usr/bin/env python3
"""Writes the rows of bitcode that is read among crates/tool_table's stored input and output: by `llvm-dis`, and as an input of `llvm-link`,
`llvm-extract` and `lli`. Modules that are spelled otherwise, and fronts of streams, are those of tests/record_spellings.py; one record that breaks
each rule in each kind of block is in tests/record_faults.py.

The bitcode is made by the encoder of tests/assemble.py from records that are written by hand from docs/bitcode.md, or written out byte for
byte; so are canonical texts (docs/language.md), refusals, and what is told of runs (docs/commands.md, docs/running.md). Nothing is taken from
the program.

    tests/bitcode.py            writes the rows
    tests/bitcode.py --check    tells whether they are what it would write
"""
import sys

sys.dont_write_bytecode = True
from assemble import (
    ADD, BLOCK, BR, BYTE, BYTE_CODE, CALL, EMPTY, EXTERNAL, FUNCTION, INTERNAL, LAYOUT, LOOP_LAYOUT, MODULES, PARAMS, PRODUCER, PTR,
    RET, SOURCE, SUM_CODE, VARIABLE, bitcode, block, body, byte_record, file_of, integer, int_type, line, of_global, record, string, top,
    types, value)
from record_faults import TAKEN, refused as faults
from record_spellings import FIRST_EMPTY, OTHERWISE, SAME, X_LINES, cut
from stored import content, printed, store_part
from streams import GREAT_COUNT, LONG_VBR, SEVENTEEN

LOAD = 33

# What the script says of each run, and what is told of it.
RUNS = []


def run(given, words, told):
    """A run of which the script says this, and what is told of it behind its words."""
    RUNS.append((f"{given}run {words}\n", f"> {words}\n{told}"))


def stored(code, name="spelled.bc"):
    """What the script says of a file that holds these bytes."""
    return f"file {name}\n= {code.hex(' ')}\n"


def given_by(code):
    """The same of standard input."""
    return f"clear\ninput\n= {code.hex(' ')}\n"


def lines(*of):
    return "".join(f"{each}\n" for each in of)


def stream(text, name="output"):
    """What a stream took; nothing is told of one that took nothing."""
    return f"{name}\n{printed(text.encode())}" if text else ""


# ---- modules and their canonical texts

SUM_LINES = ["define i32 @main() {", "0:", "  %1 = add i32 40, 2", "  ret i32 %1", "}"]

LOOP_LINES = [
    'source_filename = "sum.c"', f'target datalayout = "{LOOP_LAYOUT.decode()}"', 'target triple = "x86_64-unknown-linux-gnu"', "define i32 @main() {",
    "0:", "  %1 = alloca i32, align 4", "  %2 = alloca i32, align 4", "  %3 = alloca i32, align 4", "  store i32 0, ptr %1, align 4",
    "  store i32 0, ptr %2, align 4", "  store i32 0, ptr %3, align 4", "  br label %4",
    "4:", "  %5 = load i32, ptr %3, align 4", "  %6 = icmp slt i32 %5, 5", "  br i1 %6, label %7, label %14",
    "7:", "  %8 = load i32, ptr %3, align 4", "  %9 = load i32, ptr %2, align 4", "  %10 = add nsw i32 %9, %8", "  store i32 %10, ptr %2, align 4", "  br label %11",
    "11:", "  %12 = load i32, ptr %3, align 4", "  %13 = add nsw i32 %12, 1", "  store i32 %13, ptr %3, align 4", "  br label %4",
    "14:", "  %15 = load i32, ptr %2, align 4", "  ret i32 %15", "}"]

# The canonical texts of the modules of tests/assemble.py, in their order.
TEXTS = [
    [],
    ['source_filename = "a"', "@a = global i1 false"],
    ["@x = global i8 -1"],
    SUM_LINES,
    ['source_filename = "e"', 'target datalayout = "e"', 'target triple = ""', "@e = external global i1"],
    ["%P = type <{ i8, ptr }>", "%O = type opaque", "@p = internal constant %P <{ i8 7, ptr @p }>, align 8", "@z = extern_weak global [3 x { i8 }]"],
    ["@m = global i8 -1", "@w = global i65 -1", '@h = global [2 x i8] c"hi"', "@n = global ptr null", "@u = global i8 undef", "@o = global i8 poison",
     "@q = global [2 x i8] zeroinitializer"],
    ["@x = global i32 5", "@y = alias i32, ptr @x", "@g = internal alias i32 (i8), ptr @f", "define i32 @f(i8 %0) {", "1:", "  unreachable", "}"],
    ["define i32 @f(i32 %f, i1 %c) {", "entry:", "  %y = add nsw i32 %f, 2", "  br i1 %c, label %a, label %entry2", "a:", "  ret i32 %y", "entry2:",
     "  br label %a", "}"],
    ["declare i32 @putchar(i32)", "declare void @v(...)", "define void @main() {", "0:", "  %1 = call i32 @putchar(i32 65)", "  call void (...) @v(i32 %1)",
     "  ret void", "}"],
    ['@"\\FF\\0A" = weak global i1 true'],
    LOOP_LINES,
]

def with_byte(code, at, byte):
    return code[:at] + bytes([byte]) + code[at + 1:]


def one_variable(*operands, table=b"x", behind=()):
    return bitcode(table, types(int_type(8)), record(VARIABLE, *operands), *behind)


A_VARIABLE = [0, 1, EXTERNAL, 0, 0, 0, 0]
A_MAIN = record(FUNCTION, 0, 4, EXTERNAL, 1, 0, 0, 0)

# Bytes that spell no module, or none that is valid, and what is told of them. Records are counted from 0, over the whole stream: the producer, the
# table, VERSION, and so on.
REFUSED = [
    (b"", "bit 0: bad magic"),
    (b"@x = global i32 1", "bit 0: bad magic"),
    (bytes.fromhex("42 43 c0 df"), "bit 0: bad magic"),
    (with_byte(FIRST_EMPTY, 8, 7), "bit 64: bad block length"),
    (LONG_VBR, "bit 34: vbr too long"),
    (SEVENTEEN, "bit 1058: nested too deep"),
    (GREAT_COUNT, "bit 507: truncated"),
    (top((13, [byte_record(b"integer profile 2")]), (8, [record(1, 2), types()])), "foreign producer"),
    (top((8, [record(1, 2), types()])), "foreign producer"),
    (top((13, [])), "foreign producer"),
    (top((13, [byte_record(b"integer profile 1"), record(1, *b"integer profile 1")])), "bad record 1 in block 13, rule 5"),
    (top((13, [byte_record(b"integer profile 1"), record(2)])), "unknown record 2 in block 13"),
    (with_byte(FIRST_EMPTY, 49, 0x60), "version 3"),
    (with_byte(FIRST_EMPTY, 49, 0x40), "bad record 1 in block 8, rule 5"),
    (EMPTY[:36], "bad record 1 in block 8, rule 5"),
    (EMPTY[:52], "bad record 2 in block 8, rule 5"),
    (top(PRODUCER, (23, [byte_record(b"")]), (8, [record(1, 0), types()])), "version 0"),
    (top(PRODUCER, (23, [byte_record(b"")]), (8, [record(1, 1), types()])), "bad record 2 in block 8, rule 5"),
    (top(PRODUCER, (23, [byte_record(b"")]), (8, [record(1), types()])), "bad record 2 in block 8, rule 1"),
    (top(PRODUCER, (23, [byte_record(b"")]), (8, [types()])), "bad record 2 in block 17, rule 5"),
    (top(PRODUCER, (23, []), (8, [record(1, 2), types()])), "bad record 1 in block 23, rule 5"),
    (top(PRODUCER, (23, [record(1, 256)]), (8, [record(1, 2), types()])), "bad record 1 in block 23, rule 3"),
    (top(PRODUCER, (23, [byte_record(b"")]), (23, [byte_record(b"")])), "bad record 2 in block 23, rule 5"),
    (top(PRODUCER, (23, [byte_record(b"")]), (8, [record(1, 2), types()]), (8, [])), "bad record 3 in block 8, rule 5"),
    (top(PRODUCER, (23, [byte_record(b"")]), (9, [])), "unknown record 0 in block 9"),
    (bitcode(b""), "bad record 3 in block 17, rule 5"),
    (bitcode(b"", types(), record(9)), "unknown record 9 in block 8"),
    (bitcode(b"", types(), types()), "bad record 3 in block 17, rule 5"),
    (bitcode(b"", types(record(8))), "unknown record 8 in block 17"),
    (bitcode(b"", block(99)), "unknown record 0 in block 99"),
    (bitcode(b"", record(LAYOUT, 0, 0), record(SOURCE, 0, 0), types()), "bad record 4 in block 8, rule 5"),
    (bitcode(b"main", types(int_type(32)), A_MAIN), "bad record 5 in block 12, rule 5"),
    (one_variable(*A_VARIABLE, 0), "bad record 4 in block 8, rule 1"),
    (one_variable(*A_VARIABLE[:-1]), "bad record 4 in block 8, rule 1"),
    (one_variable(0, 1, EXTERNAL, 0, 7, 0, 0), "bad record 4 in block 8, rule 2"),
    (one_variable(0, 1, 99, 0, 0, 0, 0), "bad record 4 in block 8, rule 3"),
    (one_variable(0, 1, EXTERNAL, 2, 0, 0, 0), "bad record 4 in block 8, rule 3"),
    (one_variable(0, 0, EXTERNAL, 0, 0, 0, 0), "bad record 4 in block 8, rule 4"),
    (one_variable(*A_VARIABLE, behind=[record(VARIABLE, *A_VARIABLE)]), "bad record 5 in block 8, rule 4"),
    (one_variable(0, 1, EXTERNAL, 0, 0, 0, 1, *string(b"h")), "bad record 4 in block 8, rule 6"),
    (one_variable(0, 1, EXTERNAL, 0, 0, 18, 0), "bad record 4 in block 8, rule 7"),
    (one_variable(0, 2, EXTERNAL, 0, 0, 0, 0), "bad record 4 in block 8, rule 8"),
    # Of several rules the least is told.
    (one_variable(0, 2, 99, 0, 0, 18, 0), "bad record 4 in block 8, rule 3"),
    (bitcode(b"", types(int_type(129))), "bad record 3 in block 17, rule 3"),
    (bitcode(b"", types(record(4, 1, 0))), "bad record 3 in block 17, rule 2"),
    (bitcode(b"main", types(int_type(32)), A_MAIN, body()), "bad record 5 in block 12, rule 5"),
    # Spelled, and not valid.
    (bitcode(b"E", record(LAYOUT, 0, 1), types()), "invalid V1 at module"),
    (bitcode(b"f", types(int_type(32)), record(FUNCTION, 0, 1, INTERNAL, 1, 0, 0, 0), body(record(PARAMS), record(BLOCK, 0), record(BR, 0, 0))), "invalid V8 at %0 of @f"),
]

def disassembled():
    """Modules by `llvm-dis`: spelled otherwise, and as `llvm-as` writes them."""
    for code, text in OTHERWISE + [(code, X_LINES) for code in SAME] + TAKEN:
        run("clear\n" + stored(code), "llvm-dis -o - spelled.bc", f"status 0\nfiles spelled.bc\n{stream(lines(*text))}")
    for (given, code), text in zip(MODULES, TEXTS, strict=True):
        run(file_of(given), "llvm-as -o spelled.bc assembled.ll", f"status 0\nfiles assembled.ll\nwrote spelled.bc\n{printed(code)}")
        run("", "llvm-dis -o - spelled.bc", f"status 0\nfiles spelled.bc\n{stream(lines(*text))}")
        # What is written is the text of the same module.
        run("", "llvm-dis spelled.bc", f"status 0\nfiles spelled.bc\nwrote spelled.ll\n{printed(lines(*text).encode())}")
        run("", "llvm-as -o - spelled.ll", f"status 0\nfiles spelled.ll\noutput\n{printed(code)}")


def places():
    """Where the text goes, and what a failed call leaves."""
    text = "@x = global i8 -1\n"
    size = len(BYTE_CODE)
    run(given_by(EMPTY), "llvm-dis -", "status 0\ninput 80\n")
    run(given_by(BYTE_CODE), "llvm-dis", f"status 0\ninput {size}\n{stream(text)}")
    run(given_by(BYTE_CODE), "llvm-dis - -o x.ll", f"status 0\ninput {size}\nwrote x.ll\n{printed(text.encode())}")
    run(given_by(BYTE_CODE) + "fails output 1\n", "llvm-dis", f"status 1\ninput {size}\n{line('llvm-dis: cannot write -')}")
    run(given_by(BYTE_CODE) + "room output 17\n", "llvm-dis", f"status 1\ninput {size}\noutput\n+ @x = global i8 -1\n{line('llvm-dis: cannot write -')}")
    # Nothing is written of an empty module, so nothing fails.
    run(given_by(EMPTY) + "fails output 1\n", "llvm-dis", "status 0\ninput 80\n")
    run("clear\n" + stored(BYTE_CODE, "dir/a"), "llvm-dis dir/a", f"status 0\nfiles dir/a\nwrote dir/a.ll\n{printed(text.encode())}")
    run("clear\n" + stored(EMPTY, "e.bc"), "llvm-dis e.bc -o f.ll", "status 0\nfiles e.bc\nwrote f.ll\n")
    kept = "clear\n" + stored(BYTE_CODE, "a.bc") + "file a.ll\n+ ; kept\n"
    run(kept + "fails files 2\n", "llvm-dis a.bc", f"status 1\nfiles a.bc\nwrote a.ll\n+ ; kept\n{line('llvm-dis: cannot write a.ll')}")
    run(kept + "fails files 1\n", "llvm-dis a.bc", f"status 1\nfiles a.bc\n{line('llvm-dis: cannot read a.bc')}")
    # A file may be written over that was read; what it then holds is no bitcode.
    run(kept, "llvm-dis a.bc -o a.bc", f"status 0\nfiles a.bc\nwrote a.bc\n{printed(text.encode())}")
    run("", "llvm-dis a.bc", f"status 1\nfiles a.bc\n{line('llvm-dis: a.bc: bit 0: bad magic')}")


def refused():
    """Bytes that are refused: nothing is written, and the file of the output stays as it was."""
    for code, told in cut() + faults():
        run(given_by(code), "llvm-dis -", f"status 1\ninput {len(code)}\n{line(f'llvm-dis: -: {told}')}")
    for code, told in REFUSED:
        run("clear\n" + stored(code) + "file spelled.ll\n+ ; kept\n", "llvm-dis spelled.bc", f"status 1\nfiles spelled.bc\n{line(f'llvm-dis: spelled.bc: {told}')}")
    run("", "llvm-as -o - spelled.ll", f"status 0\nfiles spelled.ll\noutput\n{printed(EMPTY)}")
    # A standard error that takes nothing changes no answer.
    run(given_by(b"?") + "room errors 0\n", "llvm-dis -", "status 1\ninput 1\n")


# ---- bitcode as an input of the other tools

# A part that lacks a function, one that defines it, and what they are linked to.
CALLS = "declare i32 @g() define i32 @main() { %1 = call i32 @g() ret i32 %1 }"
CALLS_CODE = bitcode(
    b"gmain", types(int_type(32)), record(FUNCTION, 0, 1, EXTERNAL, 0, 0, 0, 0), record(FUNCTION, 1, 4, EXTERNAL, 1, 0, 0, 0),
    body(record(PARAMS), record(BLOCK, 0), record(CALL, 0, 0, 0, 0, *of_global(0), 0), record(RET, 1, 0, *value(0))))
GIVES = "define i32 @g() { ret i32 7 }"
GIVES_BODY = body(record(PARAMS), record(BLOCK, 0), record(RET, 1, 0, *integer(7)))
GIVES_CODE = bitcode(b"g", types(int_type(32)), record(FUNCTION, 0, 1, EXTERNAL, 1, 0, 0, 0), GIVES_BODY)
BOTH_CODE = bitcode(
    b"gmain", types(int_type(32)), record(FUNCTION, 0, 1, EXTERNAL, 1, 0, 0, 0), record(FUNCTION, 1, 4, EXTERNAL, 1, 0, 0, 0), GIVES_BODY,
    body(record(PARAMS), record(BLOCK, 0), record(CALL, 0, 0, 0, 0, *of_global(0), 0), record(RET, 1, 0, *value(0))))
BOTH_LINES = ["define i32 @g() {", "0:", "  ret i32 7", "}", "define i32 @main() {", "0:", "  %1 = call i32 @g()", "  ret i32 %1", "}"]


def written(text, name):
    return f"file {name}\n{content(text)}"


def linked():
    """Bitcode, and texts, by `llvm-link`; and what that wrote, by the tools that read."""
    texts = written(CALLS, "a.ll") + written(GIVES, "b.ll")
    codes = stored(CALLS_CODE, "a.bc") + stored(GIVES_CODE, "b.bc")
    both = stream(lines(*BOTH_LINES))
    first = True
    for one in ["a.ll", "a.bc"]:
        for other in ["b.ll", "b.bc"]:
            run("clear\n" + texts + codes if first else "", f"llvm-link -o z.bc {one} {other}", f"status 0\nfiles {one} {other}\nwrote z.bc\n{printed(BOTH_CODE)}")
            run("", f"llvm-link -S {one} {other}", f"status 0\nfiles {one} {other}\n{both}")
            first = False
    run("", "lli z.bc", "status 7\nfiles z.bc\n")
    run("", "llvm-dis -o z.ll z.bc", f"status 0\nfiles z.bc\nwrote z.ll\n{printed(lines(*BOTH_LINES).encode())}")
    run("", "lli z.ll", "status 7\nfiles z.ll\n")
    run("", "llvm-link -o y.bc z.bc", f"status 0\nfiles z.bc\nwrote y.bc\n{printed(BOTH_CODE)}")
    # The other order makes the same module of these.
    run("", "llvm-link -S b.bc a.bc", f"status 0\nfiles b.bc a.bc\n{both}")
    # A conflict names inputs of either kind, and one that lacks a function is linked all the same.
    run("", "llvm-link b.bc b.ll", f"status 1\nfiles b.bc b.ll\n{line('llvm-link: conflict: two strong: @g in b.bc and b.ll')}")
    run("", "llvm-link a.bc", f"status 0\nfiles a.bc\noutput\n{printed(CALLS_CODE)}")
    # From standard input; and what is spelled otherwise is written as one spelling.
    run(f"input\n= {CALLS_CODE.hex(' ')}\n", "llvm-link -S - b.ll", f"status 0\nfiles b.ll\ninput {len(CALLS_CODE)}\n{both}")
    for code, text in OTHERWISE[1:2] + [(code, X_LINES) for code in SAME]:
        run("clear\n" + stored(code), "llvm-link -S spelled.bc", f"status 0\nfiles spelled.bc\n{stream(lines(*text))}")
    for code in SAME:
        run("clear\n" + stored(code), "llvm-link spelled.bc", f"status 0\nfiles spelled.bc\noutput\n{printed(BYTE_CODE)}")
    # A weak definition of bitcode gives way to a strong one of a text.
    weak = bitcode(b"x", types(int_type(8)), record(VARIABLE, 0, 1, 6, 0, 0, 0, 1, *integer(1)))
    run("clear\n" + stored(weak, "w.bc") + written(BYTE, "x.ll"), "llvm-link w.bc x.ll", f"status 0\nfiles w.bc x.ll\noutput\n{printed(BYTE_CODE)}")


def ran():
    """Bitcode that `lli` runs, from a file and from standard input."""
    run("clear\n" + stored(SUM_CODE), "lli spelled.bc", "status 42\nfiles spelled.bc\n")
    run(given_by(SUM_CODE), "lli -", f"status 42\ninput {len(SUM_CODE)}\n")
    run(given_by(SUM_CODE), "lli", f"status 42\ninput {len(SUM_CODE)}\n")
    run("clear\n" + stored(OTHERWISE[2][0]), "lli spelled.bc", "status 42\nfiles spelled.bc\n")
    run("", "lli --max-steps=1 spelled.bc", f"status 124\nfiles spelled.bc\n{line('lli: steps used up')}")
    run("clear\n" + stored(CALLS_CODE, "a.bc"), "lli a.bc", f"status 123\nfiles a.bc\n{line('lli: unresolved @g')}")
    run("clear\n" + stored(EMPTY, "e.bc"), "lli e.bc", f"status 123\nfiles e.bc\n{line('lli: no main')}")
    # The program has standard input for its own where its bitcode comes from a file, and else none.
    hears = bitcode(
        b"getcharmain", types(int_type(32)), record(FUNCTION, 0, 7, EXTERNAL, 0, 0, 0, 0), record(FUNCTION, 7, 4, EXTERNAL, 1, 0, 0, 0),
        body(record(PARAMS), record(BLOCK, 0), record(CALL, 0, 0, 0, 0, *of_global(0), 0), record(RET, 1, 0, *value(0))))
    run("clear\n" + stored(hears) + "input\n+ A\n", "lli spelled.bc", "status 65\nfiles spelled.bc\ninput 1\n")
    run(given_by(hears), "lli -", f"status 255\ninput {len(hears)}\n")
    # Its arguments are the name of the bitcode, and the words behind.
    counts = bitcode(
        b"main", types(int_type(32), PTR), record(FUNCTION, 0, 4, EXTERNAL, 1, 0, 0, 2, 0, 1),
        body(record(PARAMS, 0, 0), record(BLOCK, 0), record(RET, 1, 0, *value(0))))
    run("clear\n" + stored(counts), "lli spelled.bc one two", "status 3\nfiles spelled.bc\n")
    # It prints while it runs.
    prints = bitcode(
        b"putcharmain", types(int_type(32)), record(FUNCTION, 0, 7, EXTERNAL, 0, 0, 0, 1, 0), record(FUNCTION, 7, 4, EXTERNAL, 1, 0, 0, 0),
        body(record(PARAMS), record(BLOCK, 0), record(CALL, 0, 0, 0, 1, 0, *of_global(0), 1, *integer(75)), record(RET, 1, 0, *integer(0))))
    run("clear\n" + stored(prints), "lli spelled.bc", "status 0\nfiles spelled.bc\noutput\n+ K\n")
    run("fails output 1\n", "lli spelled.bc", f"status 1\nfiles spelled.bc\n{line('lli: cannot write -')}")


def extracted():
    """Parts of bitcode."""
    code = bitcode(
        b"xfh", types(int_type(32), PTR), record(VARIABLE, 0, 1, INTERNAL, 0, 0, 0, 1, *integer(1)), record(FUNCTION, 1, 1, EXTERNAL, 1, 0, 0, 0),
        record(FUNCTION, 2, 1, INTERNAL, 1, 0, 0, 0),
        body(record(PARAMS), record(BLOCK, 0), record(LOAD, 0, 0, 0, *of_global(0), 0), record(RET, 1, 0, *value(0))),
        body(record(PARAMS), record(BLOCK, 0), record(RET, 1, 0, *integer(2))))
    run("clear\n" + stored(code), "llvm-extract -S --func=f spelled.bc",
        f"status 0\nfiles spelled.bc\n{stream(lines('@x = external global i32', 'define i32 @f() {', '0:', '  %1 = load i32, ptr @x', '  ret i32 %1', '}'))}")
    run("", "llvm-extract -S --delete --func=f spelled.bc",
        f"status 0\nfiles spelled.bc\n{stream(lines('@x = global i32 1', 'define i32 @h() {', '0:', '  ret i32 2', '}'))}")
    h = bitcode(b"h", types(int_type(32)), record(FUNCTION, 0, 1, EXTERNAL, 1, 0, 0, 0), body(record(PARAMS), record(BLOCK, 0), record(RET, 1, 0, *integer(2))))
    run("", "llvm-extract --func=h -o h.bc spelled.bc", f"status 0\nfiles spelled.bc\nwrote h.bc\n{printed(h)}")
    run("", "llvm-extract -S h.bc --func h", f"status 0\nfiles h.bc\n{stream(lines('define i32 @h() {', '0:', '  ret i32 2', '}'))}")
    run("", "llvm-extract --func=none spelled.bc", f"status 1\nfiles spelled.bc\n{line('llvm-extract: no symbol @none')}")
    run(given_by(h), "llvm-extract -S --func=h", f"status 0\ninput {len(h)}\n{stream(lines('define i32 @h() {', '0:', '  ret i32 2', '}'))}")


# The tools that read a text or bitcode, over one input that they refuse.
READERS = [("llvm-link", "llvm-link -o out.bc spelled.bc"), ("llvm-extract", "llvm-extract --func=f -o out.bc spelled.bc"), ("lli", "lli spelled.bc one")]


def refused_by_all():
    """Bitcode that is refused, by each tool that reads it. Bytes that do not begin as bitcode does are a text."""
    for code, told in REFUSED:
        if not code.startswith(bytes.fromhex("42 43 c0 de")):
            continue
        for tool, words in READERS:
            run("clear\n" + stored(code), words, f"status 1\nfiles spelled.bc\n{line(f'{tool}: spelled.bc: {told}')}")
    for tool, words in READERS:
        run("clear\n" + stored(bytes.fromhex("42 43 c0 df")), words, f"status 1\nfiles spelled.bc\n{line(f'{tool}: spelled.bc:1:1: no item here')}")
        run("clear\n" + stored(bytes.fromhex("42 43 c0 de")), words, f"status 1\nfiles spelled.bc\n{line(f'{tool}: spelled.bc: foreign producer')}")
    # The first input that is refused is told, whichever it is, and a conflict of those before it is not.
    given = "clear\n" + stored(EMPTY[:52], "bad.bc") + "file bad.ll\n+ ?\n" + stored(GIVES_CODE, "b.bc")
    run(given, "llvm-link b.bc b.bc bad.bc bad.ll", f"status 1\nfiles b.bc b.bc bad.bc bad.ll\n{line('llvm-link: bad.bc: bad record 2 in block 8, rule 5')}")
    run("", "llvm-link b.bc bad.ll bad.bc", f"status 1\nfiles b.bc bad.ll bad.bc\n{line('llvm-link: bad.ll:1:1: bad byte')}")
    # A program that is refused reads nothing and prints nothing.
    run("input\n+ A\n", "lli bad.bc", f"status 1\nfiles bad.bc\n{line('lli: bad.bc: bad record 2 in block 8, rule 5')}")


TABLES = [disassembled, places, refused, linked, ran, extracted, refused_by_all]


def main():
    if bitcode(b"", types()) != EMPTY:
        sys.exit("the encoder does not make the module of an empty text")
    for table in TABLES:
        table()
    store_part("bitcode", RUNS)


if __name__ == "__main__":
    main()
