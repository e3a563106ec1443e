#!/usr/bin/env python3
"""Writes the rows of programs that run among crates/tool_table's stored input and output: texts that `lli` is given, and what is told
of their runs.

Results of the scalar instructions, of the intrinsics over integers and of `printf` are those of tests/scalars.py, tests/intrinsics.py
and tests/printf.py, which reckon in Python's whole numbers; all else is written here by hand from docs/running.md and docs/commands.md.
Nothing is taken from the program.

    tests/running.py            writes the rows
    tests/running.py --check    tells whether they are what it would write
"""
import sys

sys.dont_write_bytecode = True
import intrinsics
import printf
import scalars
from stored import content, printed, store_part

# What the script says of each run, and what is told of it.
RUNS = []


def run_of(name, before, status, line, out, words, given, took, said):
    """A run of a file, and what is told of it: its status, the bytes that standard input gave, its output, and the line of its end."""
    stdin = "" if given is None else f"input\n{content(given)}"
    RUNS.append((
        f"{before}{stdin}{said}run lli {words}\n",
        f"> lli {words}\nstatus {status}\nfiles {name}\n" + ("" if took is None else f"input {took}\n")
        + (f"output\n{printed(out.encode('latin-1'))}" if out else "") + (f"errors\n| lli: {line}\n" if line else "")))


def run(text, *told):
    """A run of a text, and what is told of it."""
    run_of("run.ll", f"clear\nfile run.ll\n{content(text)}", *told)


def ends(text, status, out="", words="run.ll", given=None, took=None, said=""):
    """A program that ends with a status of its own."""
    run(text, status, "", out, words, given, took, said)


# The statuses of ends that a program does not choose.
STATUS = {"memory limit": 122, "stack limit": 121, "no main": 123, "steps used up": 124, "cannot read -": 1, "cannot write -": 1}


def status_of(line):
    """The status of an end that is told by this line."""
    return 125 if line.startswith("undefined: ") else 123 if line.startswith("unresolved ") else STATUS[line]


def stops(text, line, out="", words="run.ll", given=None, took=None, said=""):
    """A program whose end is told by a line."""
    run(text, status_of(line), line, out, words, given, took, said)


def undefined(text, kind, **more):
    """A program that does what is undefined."""
    stops(text, f"undefined: {kind}", **more)


def main_of(body, *before):
    """A text whose main has this body, behind other entries."""
    return " ".join([*before, "define i32 @main() {", body, "}"])


def tests(ty, value):
    """What tells by its status whether %r is a number, 1 or 0; poison is undefined there."""
    return f"%same = icmp eq {ty} %r, {value} br i1 %same, label %yes, label %no yes: ret i32 1 no: ret i32 0"


PUTCHAR = "declare i32 @putchar(i32)"
PUTS = "declare i32 @puts(ptr)"
GETCHAR = "declare i32 @getchar()"
MALLOC = "declare ptr @malloc(i64)"
FREE = "declare void @free(ptr)"
PRINTF = "declare i32 @printf(ptr, ...)"
STRLEN = "declare i64 @strlen(ptr)"
POISON_BRANCH = "branch on poison"


def leaf(number):
    """An operand as it is written."""
    return "poison" if number in (scalars.POISON, None) else str(number)


def scalar(line, ty, result):
    """A line that gives %r, and what it is: a number, poison, or undefined."""
    if result in ("zero", "over"):
        undefined(main_of(f"{line} ret i32 2"), {"zero": "division by zero", "over": "division overflow"}[result])
    elif result in (scalars.POISON, None):
        undefined(main_of(f"{line} {tests(ty, 0)}"), POISON_BRANCH)
    else:
        ends(main_of(f"{line} {tests(ty, result)}"), 1)


def arithmetic():
    """Instructions over integers, at edges of many widths."""
    for op, flags, width, a, b in scalars.chosen_binary():
        words = " ".join([op, *flags])
        scalar(f"%r = {words} i{width} {leaf(a)}, {leaf(b)}", f"i{width}", scalars.tried(scalars.binary, op, flags, width, a, b))
    for predicate, flags, width, a, b in scalars.chosen_compare():
        words = " ".join(["icmp", *flags, predicate])
        scalar(f"%r = {words} i{width} {leaf(a)}, {leaf(b)}", "i1", scalars.icmp(predicate, flags, width, a, b))
    for op, flags, source, target, a in scalars.chosen_cast():
        if op in ("trunc", "zext", "sext"):
            words = " ".join([op, *flags])
            scalar(f"%r = {words} i{source} {leaf(a)} to i{target}", f"i{target}", scalars.cast(op, flags, source, target, a))
    # The status is the low byte of what main gives.
    ends(main_of("%1 = add i32 40, 2 ret i32 %1"), 42)
    ends(main_of("ret i32 -1"), 255)
    ends(main_of("ret i32 256"), 0)
    undefined(main_of("ret i32 poison"), "poison argument")
    ends(main_of("ret i32 undef"), 0)


def pointers():
    """Comparisons and casts of pointers, which go by the address."""
    # The first variable stands at 65,536.
    variable = "@v = global i8 0"
    ends(main_of("%r = ptrtoint ptr @v to i64 " + tests("i64", 65536), variable), 1)
    ends(main_of("%r = ptrtoint ptr @v to i16 " + tests("i16", 0), variable), 1)
    ends(main_of("%r = ptrtoint ptr @v to i128 " + tests("i128", 65536), variable), 1)
    ends(main_of("%p = inttoptr i64 65536 to ptr %r = icmp eq ptr %p, @v " + tests("i1", 1), variable), 1)
    ends(main_of("%p = inttoptr i128 18446744073709617152 to ptr %r = icmp eq ptr %p, @v " + tests("i1", 1), variable), 1)
    ends(main_of("%p = inttoptr i8 -1 to ptr %r = ptrtoint ptr %p to i64 " + tests("i64", 255)), 1)
    ends(main_of("%p = inttoptr i64 -1 to ptr %r = icmp slt ptr %p, @v " + tests("i1", 1), variable), 1)
    ends(main_of("%p = inttoptr i64 -1 to ptr %r = icmp ugt ptr %p, @v " + tests("i1", 1), variable), 1)
    ends(main_of("%r = icmp eq ptr null, zeroinitializer " + tests("i1", 1)), 1)
    undefined(main_of("%p = inttoptr i64 poison to ptr %r = icmp eq ptr %p, @v " + tests("i1", 1), variable), POISON_BRANCH)
    undefined(main_of("%r = ptrtoint ptr poison to i32 " + tests("i32", 1)), POISON_BRANCH)
    # An address without a block reaches the live block that holds it.
    ends(main_of("%p = inttoptr i64 65536 to ptr %r = load i8, ptr %p " + tests("i8", 7), "@v = global i8 7"), 1)
    undefined(main_of("%p = inttoptr i64 65537 to ptr %r = load i8, ptr %p ret i32 0", "@v = global i8 7"), "outside a block")


def choices():
    """select, freeze, phi, br and switch."""
    ends(main_of("%r = select i1 true, i32 3, i32 poison " + tests("i32", 3)), 1)
    ends(main_of("%r = select i1 false, i32 poison, i32 4 " + tests("i32", 4)), 1)
    undefined(main_of("%r = select i1 false, i32 3, i32 poison " + tests("i32", 3)), POISON_BRANCH)
    undefined(main_of("%r = select i1 poison, i32 3, i32 3 " + tests("i32", 3)), POISON_BRANCH)
    # A condition that is poison makes every leaf poison.
    undefined(main_of("%s = select i1 poison, [2 x i8] [i8 1, i8 2], [2 x i8] [i8 1, i8 2] %r = extractvalue [2 x i8] %s, 1 " + tests("i8", 2)), POISON_BRANCH)
    ends(main_of("%s = select i1 true, [2 x i8] [i8 1, i8 poison], [2 x i8] [i8 poison, i8 2] %r = extractvalue [2 x i8] %s, 0 " + tests("i8", 1)), 1)
    ends(main_of("%s = select i1 false, ptr null, ptr @v %r = icmp eq ptr %s, @v " + tests("i1", 1), "@v = global i8 0"), 1)
    ends(main_of("%p = add nsw i32 2147483647, 1 %r = freeze i32 %p " + tests("i32", 0)), 1)
    ends(main_of("%r = freeze i32 5 " + tests("i32", 5)), 1)
    ends(main_of("%f = freeze ptr poison %r = icmp eq ptr %f, null " + tests("i1", 1)), 1)
    ends(main_of("%f = freeze [2 x i8] [i8 9, i8 poison] %a = extractvalue [2 x i8] %f, 0 %b = extractvalue [2 x i8] %f, 1 %r = add i8 %a, %b " + tests("i8", 9)), 1)
    # The phis of a block are read before any of them is given.
    swap = "br label %l l: %a = phi i32 [ 11, %0 ], [ %b, %l ] %b = phi i32 [ 22, %0 ], [ %a, %l ] %i = phi i32 [ 0, %0 ], [ %j, %l ] %j = add i32 %i, 1 %c = icmp eq i32 %j, {} br i1 %c, label %e, label %l e: ret i32 %a"
    ends(main_of(swap.format(1)), 11)
    ends(main_of(swap.format(2)), 22)
    ends(main_of(swap.format(3)), 11)
    # What is not chosen may be poison.
    ends(main_of("br i1 true, label %a, label %b a: br label %b b: %r = phi i32 [ poison, %0 ], [ 8, %a ] ret i32 %r"), 8)
    undefined(main_of("br i1 false, label %a, label %b a: br label %b b: %r = phi i32 [ poison, %0 ], [ 8, %a ] ret i32 %r"), "poison argument")
    ends(main_of("br i1 true, label %a, label %b a: br label %c b: br label %c c: %s = phi { i8, i32 } [ { i8 1, i32 2 }, %a ], [ { i8 3, i32 4 }, %b ] %r = extractvalue { i8, i32 } %s, 1 ret i32 %r"), 2)
    ends(main_of("br i1 false, label %a, label %b a: br label %c b: br label %c c: %s = phi { i8, i32 } [ { i8 1, i32 2 }, %a ], [ { i8 3, i32 4 }, %b ] %r = extractvalue { i8, i32 } %s, 1 ret i32 %r"), 4)
    undefined(main_of("br i1 poison, label %a, label %b a: ret i32 1 b: ret i32 2"), POISON_BRANCH)
    ends(main_of("br i1 undef, label %a, label %b a: ret i32 1 b: ret i32 2"), 2)
    switch = "switch {0} {1}, label %d [ {0} 1, label %a {0} -1, label %b {0} 5, label %a ] a: ret i32 1 b: ret i32 2 d: ret i32 3"
    ends(main_of(switch.format("i32", 1)), 1)
    ends(main_of(switch.format("i32", 4294967295)), 2)
    ends(main_of(switch.format("i8", 255)), 2)
    ends(main_of(switch.format("i8", 5)), 1)
    ends(main_of(switch.format("i128", 340282366920938463463374607431768211455)), 2)
    ends(main_of(switch.format("i64", 0)), 3)
    undefined(main_of(switch.format("i32", "poison")), POISON_BRANCH)
    ends(main_of("switch i1 true, label %d [ ] d: ret i32 3"), 3)
    undefined(main_of("switch i1 poison, label %d [ ] d: ret i32 3"), POISON_BRANCH)
    undefined(main_of("unreachable"), "unreachable")
    undefined(main_of("br label %a a: unreachable"), "unreachable")
    undefined(main_of("br i1 true, label %a, label %b a: unreachable b: ret i32 0"), "unreachable")
    ends(main_of("br i1 false, label %a, label %b a: unreachable b: ret i32 6"), 6)


def steps_of_addresses():
    """getelementptr: how far, and where it gives poison."""
    table = "@t = global [4 x i32] [i32 10, i32 20, i32 30, i32 40]"
    loads = "%r = load i32, ptr %p ret i32 %r"
    ends(main_of("%p = getelementptr [4 x i32], ptr @t, i64 0, i64 2 " + loads, table), 30)
    ends(main_of("%p = getelementptr i32, ptr @t, i8 3 " + loads, table), 40)
    ends(main_of("%q = getelementptr i32, ptr @t, i64 3 %p = getelementptr i32, ptr %q, i32 -2 " + loads, table), 20)
    ends(main_of("%i = add i8 253, 0 %q = getelementptr i32, ptr @t, i64 3 %p = getelementptr i32, ptr %q, i8 %i " + loads, table), 10)
    ends(main_of("%p = getelementptr i8, ptr @t, i128 4 " + loads, table), 20)
    # An index is cut to 64 bits: 2^64 + 1 is 1.
    ends(main_of("%p = getelementptr i32, ptr @t, i128 18446744073709551617 " + loads, table), 20)
    ends(main_of("%p = getelementptr i32, ptr @t, i64 -1 %r = ptrtoint ptr %p to i64 " + tests("i64", 65532), table), 1)
    # Addresses go on at 0 behind 2^64 - 1.
    ends(main_of("%p = getelementptr i8, ptr null, i64 -1 %q = getelementptr i8, ptr %p, i64 2 %r = ptrtoint ptr %q to i64 " + tests("i64", 1)), 1)
    ends(main_of("%p = getelementptr [4 x i32], ptr @t, i64 1 %r = ptrtoint ptr %p to i64 " + tests("i64", 65552), table), 1)
    # Fields stand at their alignments; those of a packed struct stand side by side.
    mixed = "%S = type { i8, i64, i16, [3 x i8] }"
    ends(main_of("%p = getelementptr %S, ptr null, i64 0, i32 1 %r = ptrtoint ptr %p to i64 " + tests("i64", 8), mixed), 1)
    ends(main_of("%p = getelementptr %S, ptr null, i64 0, i32 3, i64 2 %r = ptrtoint ptr %p to i64 " + tests("i64", 20), mixed), 1)
    ends(main_of("%p = getelementptr %S, ptr null, i64 1 %r = ptrtoint ptr %p to i64 " + tests("i64", 24), mixed), 1)
    packed = "%S = type <{ i8, i64, i16, [3 x i8] }>"
    ends(main_of("%p = getelementptr %S, ptr null, i64 2, i32 2 %r = ptrtoint ptr %p to i64 " + tests("i64", 37), packed), 1)
    ends(main_of("%p = getelementptr [0 x i32], ptr null, i64 5, i64 3 %r = ptrtoint ptr %p to i64 " + tests("i64", 12)), 1)
    # Sizes of integers are rounded up to their alignments.
    for ty, size in [("i1", 1), ("i7", 1), ("i9", 2), ("i17", 4), ("i33", 8), ("i65", 16), ("i128", 16), ("ptr", 8), ("{ }", 0), ("[3 x i24]", 12), ("{ i32, i8 }", 8), ("<{ i32, i8 }>", 5)]:
        ends(main_of(f"%p = getelementptr {ty}, ptr null, i64 1 %r = ptrtoint ptr %p to i64 " + tests("i64", size)), 1)
    # With inbounds the start and the end of a live block are the last addresses that are no poison.
    address = "%r = ptrtoint ptr %p to i64 "
    ends(main_of("%p = getelementptr inbounds i32, ptr @t, i64 4 " + address + tests("i64", 65552), table), 1)
    undefined(main_of("%p = getelementptr inbounds i8, ptr @t, i64 17 " + address + tests("i64", 65553), table), POISON_BRANCH)
    undefined(main_of("%p = getelementptr inbounds i8, ptr @t, i64 -1 " + address + tests("i64", 65535), table), POISON_BRANCH)
    # The base itself lies outside, though the sum does not.
    undefined(main_of("%q = getelementptr i8, ptr @t, i64 20 %p = getelementptr inbounds i8, ptr %q, i64 -10 " + address + tests("i64", 65546), table), POISON_BRANCH)
    # The exact sum lies outside, though it is inside modulo 2^64.
    undefined(main_of("%p = getelementptr inbounds i64, ptr @t, i64 2305843009213693952 " + address + tests("i64", 65536), table), POISON_BRANCH)
    # Without a block, or with one that has ended, nothing is checked.
    ends(main_of("%q = inttoptr i64 65536 to ptr %p = getelementptr inbounds i8, ptr %q, i64 99 " + address + tests("i64", 65635), table), 1)
    ends(main_of("%m = call ptr @malloc(i64 4) call void @free(ptr %m) %p = getelementptr inbounds i8, ptr %m, i64 5 " + address + tests("i64", 65541), MALLOC, FREE), 1)
    # nusw and nuw change nothing.
    ends(main_of("%p = getelementptr nusw nuw i8, ptr @t, i64 99 " + address + tests("i64", 65635), table), 1)
    undefined(main_of("%p = getelementptr i8, ptr poison, i64 0 " + address + tests("i64", 0)), POISON_BRANCH)
    undefined(main_of("%p = getelementptr i8, ptr null, i64 poison " + address + tests("i64", 0)), POISON_BRANCH)
    undefined(main_of("%p = getelementptr [2 x i8], ptr null, i64 0, i32 poison " + address + tests("i64", 0)), POISON_BRANCH)


def memory():
    """alloca, load and store."""
    # What is fresh is zero; variables and allocas follow one another with 16 bytes between.
    ends(main_of("%p = alloca i32 %r = load i32, ptr %p ret i32 %r"), 0)
    ends(main_of("%p = alloca i32 %q = alloca i32 %a = ptrtoint ptr %p to i64 %b = ptrtoint ptr %q to i64 %r = sub i64 %b, %a " + tests("i64", 20)), 1)
    ends(main_of("%p = alloca i8 %q = alloca i64 %a = ptrtoint ptr %p to i64 %b = ptrtoint ptr %q to i64 %r = sub i64 %b, %a " + tests("i64", 24)), 1)
    ends(main_of("%p = alloca i8, align 64 %q = alloca i8, i32 3 %s = alloca i8 %a = ptrtoint ptr %q to i64 %b = ptrtoint ptr %s to i64 %r = sub i64 %b, %a " + tests("i64", 19)), 1)
    ends(main_of("%q = alloca i8 %p = alloca i8, align 4096 %r = ptrtoint ptr %p to i64 " + tests("i64", 69632)), 1)
    undefined(main_of("%p = alloca i8, i32 poison ret i32 0"), "poison argument")
    # A count has no sign.
    stops(main_of("%p = alloca i8, i32 -1 ret i32 0"), "memory limit")
    ends(main_of("%p = alloca i32, i32 0 %q = alloca i8 %a = ptrtoint ptr %p to i64 %b = ptrtoint ptr %q to i64 %r = sub i64 %b, %a " + tests("i64", 16)), 1)
    ends(main_of("%p = alloca [268435456 x i8] ret i32 5"), 5)
    stops(main_of("%p = alloca [268435456 x i8] %q = alloca i8 ret i32 5"), "memory limit")
    # The blocks of allocas end when their function returns.
    ends("define void @f() { %p = alloca [268435456 x i8] ret void } " + main_of("call void @f() call void @f() ret i32 4"), 4)
    undefined("define ptr @f() { %p = alloca i32 ret ptr %p } " + main_of("%p = call ptr @f() %r = load i32, ptr %p ret i32 %r"), "ended block")
    # Little endian.
    halves = "%p = alloca i32 store i32 -2023406815, ptr %p "
    ends(main_of(halves + "%r = load i8, ptr %p " + tests("i8", 0x21)), 1)
    ends(main_of(halves + "%q = getelementptr i8, ptr %p, i64 3 %r = load i8, ptr %q " + tests("i8", 0x87)), 1)
    ends(main_of(halves + "%r = load i16, ptr %p " + tests("i16", 0x4321)), 1)
    ends(main_of("%p = alloca i128 store i128 18446744073709551617, ptr %p %q = getelementptr i64, ptr %p, i64 1 %r = load i64, ptr %q " + tests("i64", 1)), 1)
    # The bits above an odd width are zero, and a load cuts to its width.
    ends(main_of("%p = alloca i16 store i9 -1, ptr %p %r = load i16, ptr %p " + tests("i16", 511)), 1)
    ends(main_of("%p = alloca i8 store i8 -1, ptr %p %r = load i7, ptr %p " + tests("i7", 127)), 1)
    ends(main_of("%p = alloca i8 store i8 2, ptr %p %r = load i1, ptr %p " + tests("i1", 0)), 1)
    # One poison byte makes a number poison, and leaves its neighbours alone.
    undefined(main_of("%p = alloca i32 store i8 poison, ptr %p %r = load i32, ptr %p " + tests("i32", 0)), POISON_BRANCH)
    ends(main_of("%p = alloca i32 store i8 poison, ptr %p %q = getelementptr i8, ptr %p, i64 1 %r = load i8, ptr %q " + tests("i8", 0)), 1)
    ends(main_of("%p = alloca i32 store i32 poison, ptr %p store i32 9, ptr %p %r = load i32, ptr %p " + tests("i32", 9)), 1)
    undefined(main_of("%p = alloca i64 store i17 poison, ptr %p %q = getelementptr i8, ptr %p, i64 2 %r = load i8, ptr %q " + tests("i8", 0)), POISON_BRANCH)
    ends(main_of("%p = alloca i64 store i17 poison, ptr %p %q = getelementptr i8, ptr %p, i64 3 %r = load i8, ptr %q " + tests("i8", 0)), 1)
    undefined(main_of("%p = alloca ptr store ptr poison, ptr %p %q = getelementptr i8, ptr %p, i64 7 %r = load i8, ptr %q " + tests("i8", 0)), POISON_BRANCH)
    # A pointer keeps its block in memory; as a number it is its address.
    ends(main_of("%p = alloca ptr store ptr @v, ptr %p %q = load ptr, ptr %p %r = load i32, ptr %q ret i32 %r", "@v = global i32 12"), 12)
    ends(main_of("%p = alloca ptr store ptr @v, ptr %p %r = load i64, ptr %p " + tests("i64", 65536), "@v = global i32 12"), 1)
    ends(main_of("%p = alloca i64 store i64 65536, ptr %p %q = load ptr, ptr %p %r = load i32, ptr %q ret i32 %r", "@v = global i32 13"), 13)
    # A pointer that was put together from its bytes has no block: a freed block is then outside of all, and not ended.
    freed = "%m = call ptr @malloc(i64 4) %p = alloca ptr store ptr %m, ptr %p call void @free(ptr %m) "
    undefined(main_of(freed + "%q = load ptr, ptr %p %r = load i32, ptr %q ret i32 %r", MALLOC, FREE), "ended block")
    undefined(main_of(freed + "%b = load i8, ptr %p store i8 %b, ptr %p %q = load ptr, ptr %p %r = load i32, ptr %q ret i32 %r", MALLOC, FREE), "outside a block")
    # Arrays and structs go leaf by leaf, and leave padding alone.
    ends(main_of("%p = alloca i64 store i64 -1, ptr %p store { i8, i32 } { i8 0, i32 0 }, ptr %p %r = load i64, ptr %p " + tests("i64", 0xFFFFFF00)), 1)
    ends(main_of("%p = alloca [3 x i16] store [3 x i16] [i16 1, i16 2, i16 3], ptr %p %v = load [3 x i16], ptr %p %r = extractvalue [3 x i16] %v, 2 " + tests("i16", 3)), 1)
    ends(main_of("%p = alloca { i8, [2 x { i16, ptr }] } store { i8, [2 x { i16, ptr }] } { i8 1, [2 x { i16, ptr }] [{ i16, ptr } { i16 2, ptr null }, { i16, ptr } { i16 3, ptr null }] }, ptr %p "
                 "%q = getelementptr i8, ptr %p, i64 24 %r = load i16, ptr %q " + tests("i16", 3)), 1)
    ends(main_of("%p = alloca { } store { } zeroinitializer, ptr %p %v = load { }, ptr %p ret i32 3"), 3)
    # Only the first leaf is asked for the alignment.
    ends(main_of("%p = alloca [9 x i8], align 8 %q = getelementptr i8, ptr %p, i64 1 store <{ i8, i32, i32 }> <{ i8 1, i32 2, i32 3 }>, ptr %p, align 8 %r = load i32, ptr %q, align 1 ret i32 %r"), 2)
    undefined(main_of("%p = alloca [9 x i8], align 8 %q = getelementptr i8, ptr %p, i64 1 %r = load i32, ptr %q ret i32 %r"), "misaligned")
    undefined(main_of("%p = alloca [16 x i8], align 8 %q = getelementptr i8, ptr %p, i64 4 %r = load i64, ptr %q ret i32 0"), "misaligned")
    ends(main_of("%p = alloca [9 x i8], align 8 %q = getelementptr i8, ptr %p, i64 1 %r = load i64, ptr %q, align 1 ret i32 0"), 0)
    undefined(main_of("%p = alloca [40 x i8], align 16 %q = getelementptr i8, ptr %p, i64 8 store i128 1, ptr %q ret i32 0"), "misaligned")
    undefined(main_of("%p = alloca i8, align 64 store i8 1, ptr %p, align 128 ret i32 0", "@v = global i8 0"), "misaligned")
    # The checks of an access come in their order.
    undefined(main_of("%r = load i32, ptr poison ret i32 %r"), "poison address")
    undefined(main_of("%r = load { }, ptr poison ret i32 0"), "poison address")
    undefined(main_of("store { } zeroinitializer, ptr poison ret i32 0"), "poison address")
    ends(main_of("%r = load { }, ptr null, align 4 ret i32 2"), 2)
    undefined(main_of("store i32 1, ptr null ret i32 0"), "outside a block")
    undefined(main_of("%q = getelementptr i8, ptr @v, i64 1 %r = load i32, ptr %q ret i32 0", "@v = global i32 0"), "outside a block")
    undefined(main_of("%q = getelementptr i8, ptr @v, i64 1 store i32 1, ptr %q ret i32 0", "@v = constant i32 0"), "outside a block")
    undefined(main_of("store i32 1, ptr @v ret i32 0", "@v = constant i32 0"), "write to constant")
    undefined(main_of("store i16 1, ptr %q ret i32 0".replace("%q", "getelementptr (i8, ptr @v, i64 1)"), "@v = constant i32 0"), "write to constant")
    undefined(main_of("%m = call ptr @malloc(i64 4) call void @free(ptr %m) %q = getelementptr i8, ptr %m, i64 77 %r = load i64, ptr %q ret i32 0", MALLOC, FREE), "ended block")
    # A pointer that left its block does not reach the block beside it.
    undefined(main_of("%q = getelementptr i8, ptr @a, i64 17 %r = load i8, ptr %q ret i32 0", "@a = global i8 1", "@b = global i8 2"), "outside a block")
    ends(main_of("%q = getelementptr i8, ptr @a, i64 17 %n = ptrtoint ptr %q to i64 %p = inttoptr i64 %n to ptr %r = load i8, ptr %p %s = zext i8 %r to i32 ret i32 %s", "@a = global i8 1", "@b = global i8 2"), 2)
    undefined(main_of("%r = load i8, ptr @main ret i32 0"), "outside a block")


def parts():
    """extractvalue and insertvalue."""
    ends(main_of("%r = extractvalue { i32, i8 } { i32 5, i8 6 }, 0 ret i32 %r"), 5)
    ends(main_of("%r = extractvalue [2 x { i8, [2 x i32] }] [{ i8, [2 x i32] } { i8 1, [2 x i32] [i32 2, i32 3] }, { i8, [2 x i32] } { i8 4, [2 x i32] [i32 5, i32 6] }], 1, 1, 0 ret i32 %r"), 5)
    ends(main_of("%a = insertvalue { i32, i8 } { i32 5, i8 6 }, i32 9, 0 %r = extractvalue { i32, i8 } %a, 0 ret i32 %r"), 9)
    ends(main_of("%a = insertvalue { i8, { i32, i32 } } undef, { i32, i32 } { i32 7, i32 8 }, 1 %r = extractvalue { i8, { i32, i32 } } %a, 1, 1 ret i32 %r"), 8)
    ends(main_of("%a = insertvalue { i32, i32 } poison, i32 3, 1 %r = extractvalue { i32, i32 } %a, 1 ret i32 %r"), 3)
    undefined(main_of("%a = insertvalue { i32, i32 } poison, i32 3, 1 %r = extractvalue { i32, i32 } %a, 0 ret i32 %r"), "poison argument")
    undefined(main_of("%a = insertvalue [2 x i32] zeroinitializer, i32 poison, 0 %r = extractvalue [2 x i32] %a, 0 ret i32 %r"), "poison argument")
    ends(main_of("%a = insertvalue [2 x i32] zeroinitializer, i32 poison, 0 %r = extractvalue [2 x i32] %a, 1 ret i32 %r"), 0)
    ends(main_of("%r = extractvalue { ptr, i32 } { ptr @v, i32 1 }, 0 %s = load i32, ptr %r ret i32 %s", "@v = global i32 14"), 14)


def calls():
    """call and ret: what may be called, and as what."""
    add = "define i32 @add(i32 %a, i32 %b) { %s = add i32 %a, %b ret i32 %s }"
    ends(add + main_of("%r = call i32 @add(i32 40, i32 2) ret i32 %r"), 42)
    ends(add + main_of("%p = select i1 true, ptr @add, ptr null %r = call i32 %p(i32 1, i32 2) ret i32 %r"), 3)
    ends(main_of("%r = call i32 @twice(i32 4) ret i32 %r", add, "@twice = alias i32 (i32), ptr @double define i32 @double(i32 %a) { %r = call i32 @add(i32 %a, i32 %a) ret i32 %r }"), 8)
    ends("define i32 @fib(i32 %n) { %c = icmp ult i32 %n, 2 br i1 %c, label %a, label %b a: ret i32 %n b: %m = sub i32 %n, 1 %x = call i32 @fib(i32 %m) %k = sub i32 %n, 2 %y = call i32 @fib(i32 %k) %r = add i32 %x, %y ret i32 %r } "
         + main_of("%r = call i32 @fib(i32 12) ret i32 %r"), 144)
    # Values of several leaves go in and out.
    ends("define { i32, [2 x i32] } @turn({ i32, [2 x i32] } %v) { %a = extractvalue { i32, [2 x i32] } %v, 0 %b = extractvalue { i32, [2 x i32] } %v, 1, 1 %w = insertvalue { i32, [2 x i32] } %v, i32 %a, 1, 1 %x = insertvalue { i32, [2 x i32] } %w, i32 %b, 0 ret { i32, [2 x i32] } %x } "
         + main_of("%t = call { i32, [2 x i32] } @turn({ i32, [2 x i32] } { i32 1, [2 x i32] [i32 2, i32 3] }) %a = extractvalue { i32, [2 x i32] } %t, 0 %b = extractvalue { i32, [2 x i32] } %t, 1, 0 %c = extractvalue { i32, [2 x i32] } %t, 1, 1 %d = mul i32 %a, 16 %e = mul i32 %b, 4 %f = add i32 %d, %e %r = add i32 %f, %c ret i32 %r"), 57)
    ends("define void @set(ptr %p, i32 %n) { store i32 %n, ptr %p ret void } " + main_of("%p = alloca i32 call void @set(ptr %p, i32 77) %r = load i32, ptr %p ret i32 %r"), 77)
    # Poison may be handed over and given back.
    ends("define i32 @second(i32 %a, i32 %b) { ret i32 %b } " + main_of("%r = call i32 @second(i32 poison, i32 6) ret i32 %r"), 6)
    undefined("define i32 @first(i32 %a, i32 %b) { ret i32 %a } " + main_of("%r = call i32 @first(i32 poison, i32 6) ret i32 %r"), "poison argument")
    # The callee has to be a function of the same shape.
    undefined(main_of("%r = call i32 poison() ret i32 %r"), "poison address")
    undefined(main_of("%r = call i32 null() ret i32 %r"), "no function")
    undefined(main_of("%r = call i32 @v() ret i32 %r", "@v = global i32 0"), "no function")
    undefined(main_of("%p = getelementptr i8, ptr @main, i64 1 %r = call i32 %p() ret i32 %r"), "no function")
    ends(main_of("%p = inttoptr i64 4611686018427387904 to ptr %r = call i32 %p() ret i32 %r", "define i32 @f() { ret i32 31 }"), 31)
    # The second function stands 16 bytes behind the first.
    ends(main_of("%p = getelementptr i8, ptr @f, i64 16 %r = call i32 %p() ret i32 %r", "define i32 @f() { ret i32 31 }", "define i32 @g() { ret i32 32 }"), 32)
    undefined(add + main_of("%p = select i1 true, ptr @add, ptr null %r = call i32 %p(i32 1) ret i32 %r"), "another function type")
    undefined(add + main_of("%p = select i1 true, ptr @add, ptr null %r = call i64 %p(i32 1, i32 2) ret i32 0"), "another function type")
    undefined(add + main_of("%p = select i1 true, ptr @add, ptr null %r = call i32 (i32, i32, ...) %p(i32 1, i32 2) ret i32 0"), "another function type")
    undefined(add + main_of("%p = select i1 true, ptr @add, ptr null call void %p(i32 1, i32 2) ret i32 0"), "another function type")
    # Struct names do not tell shapes apart.
    ends("%A = type { i32 } %B = type { i32 } define i32 @f(%A %a) { %r = extractvalue %A %a, 0 ret i32 %r } "
         + main_of("%p = select i1 true, ptr @f, ptr null %b = insertvalue %B undef, i32 21, 0 %r = call i32 %p(%B %b) ret i32 %r"), 21)
    # What an address has comes before what is handed over.
    undefined(main_of("%p = select i1 true, ptr @putchar, ptr null %r = call i32 %p(i64 poison) ret i32 %r", PUTCHAR), "another function type")
    undefined(main_of("%r = call i32 @putchar(i32 poison) ret i32 %r", PUTCHAR), "poison argument")
    # Declared and not defined, with nothing that calls it: it is not missing.
    ends(main_of("ret i32 1", "declare void @nope()"), 1)
    # An extern_weak function that is nowhere defined has the address 0.
    ends(main_of("%c = icmp eq ptr @w, null %r = zext i1 %c to i32 ret i32 %r", "declare extern_weak void @w()"), 1)
    undefined(main_of("call void @w() ret i32 0", "declare extern_weak void @w()"), "no function")


def streams():
    """putchar, puts, getchar, and what is held between."""
    ends(main_of("%1 = call i32 @putchar(i32 65) %2 = call i32 @putchar(i32 10) ret i32 %1", PUTCHAR), 65, "A\n")
    ends(main_of("%r = call i32 @putchar(i32 321) ret i32 %r", PUTCHAR), 65, "A")
    ends(main_of("%r = call i32 @putchar(i32 -1) " + tests("i32", 255), PUTCHAR), 1, "\xff")
    ends(main_of("%1 = add nsw i32 2147483647, 1 %2 = call i32 @putchar(i32 75) ret i32 0", PUTCHAR), 0, "K")
    ends(main_of("%r = call i32 @puts(ptr @s) ret i32 %r", PUTS, '@s = constant [6 x i8] c"hello\\00"'), 0, "hello\n")
    ends(main_of("%r = call i32 @puts(ptr @s) ret i32 %r", PUTS, "@s = global i8 0"), 0, "\n")
    ends(main_of("%p = getelementptr i8, ptr @s, i64 3 %r = call i32 @puts(ptr %p) ret i32 %r", PUTS, '@s = constant [9 x i8] c"a\\0A\\00bc\\FF\\00d\\00"'), 0, "bc\xff\n")
    undefined(main_of("%r = call i32 @puts(ptr @s) ret i32 %r", PUTS, '@s = constant [2 x i8] c"hi"'), "outside a block")
    undefined(main_of("%r = call i32 @puts(ptr null) ret i32 %r", PUTS), "outside a block")
    undefined(main_of("%r = call i32 @puts(ptr poison) ret i32 %r", PUTS), "poison argument")
    undefined(main_of("%p = alloca [3 x i8] store i8 65, ptr %p %q = getelementptr i8, ptr %p, i64 1 store i8 poison, ptr %q %r = call i32 @puts(ptr %p) ret i32 %r", PUTS), "poison argument")
    undefined(main_of("%1 = call i32 @putchar(i32 65) unreachable", PUTCHAR), "unreachable", out="A")
    # Input is read where getchar finds none, and no more once it gave nothing.
    ends(main_of("%r = call i32 @getchar() ret i32 %r", GETCHAR), 255, given="", took=0)
    ends(main_of("%r = call i32 @getchar() ret i32 %r", GETCHAR), 97, given="abc", took=3)
    ends(main_of("%1 = call i32 @getchar() %2 = call i32 @getchar() %3 = call i32 @getchar() %r = call i32 @getchar() ret i32 %r", GETCHAR), 255, given="abc", took=3)
    ends(main_of("%1 = call i32 @getchar() %r = call i32 @getchar() ret i32 %r", GETCHAR), 98, given="abc", took=2, said="piece 2\n")
    copy = main_of("br label %l l: %c = call i32 @getchar() %z = icmp slt i32 %c, 0 br i1 %z, label %e, label %p p: %w = call i32 @putchar(i32 %c) br label %l e: ret i32 0", GETCHAR, PUTCHAR)
    ends(copy, 0, "one\ntwo", given="one\ntwo", took=7)
    ends(copy, 0, "one\ntwo", given="one\ntwo", took=7, said="piece 1\n")
    # A read that fails: what was put before it is there.
    stops(copy, "cannot read -", given="hello", took=0, said="fails input 1\n")
    stops(copy, "cannot read -", out="he", given="hello", took=2, said="piece 2\nfails input 2\n")
    stops(copy, "cannot read -", out="hell", given="hello", took=4, said="piece 2\nfails input 3\n")
    # Output is written before input is read, so a write that fails leaves the second read undone.
    stops(copy, "cannot write -", given="hello", took=2, said="piece 2\nfails output 1\n")
    stops(copy, "cannot write -", out="he", given="hello", took=4, said="piece 2\nfails output 2\n")
    stops(main_of("%1 = call i32 @putchar(i32 65) ret i32 0", PUTCHAR), "cannot write -", said="fails output 1\n")
    stops(main_of("%1 = call i32 @putchar(i32 65) unreachable", PUTCHAR), "cannot write -", said="fails output 1\n")
    stops(main_of("%r = call i32 @puts(ptr @s) ret i32 %r", PUTS, '@s = constant [6 x i8] c"hello\\00"'), "cannot write -", out="hel", said="room output 3\n")
    # Nothing was put, so no write fails.
    ends(main_of("ret i32 9"), 9, said="fails output 1\n")
    # A run of its input alone touches no input that it does not ask for.
    ends(main_of("ret i32 9"), 9, given="abc")


def host():
    """The other host functions."""
    ends(main_of("call void @exit(i32 300) unreachable", "declare void @exit(i32)"), 44)
    ends(main_of("%1 = call i32 @putchar(i32 66) call void @exit(i32 -1) unreachable", "declare void @exit(i32)", PUTCHAR), 255, "B")
    undefined(main_of("call void @exit(i32 poison) unreachable", "declare void @exit(i32)"), "poison argument")
    ends("define void @f() { call void @exit(i32 3) unreachable } " + main_of("call void @f() ret i32 0", "declare void @exit(i32)"), 3)
    ends(main_of("call void @abort() unreachable", "declare void @abort()"), 134)
    ends(main_of("%1 = call i32 @putchar(i32 67) call void @abort() unreachable", "declare void @abort()", PUTCHAR), 134, "C")
    ends("define void @f() { call void @abort() unreachable } " + main_of("call void @f() ret i32 0", "declare void @abort()"), 134)
    ends("define i32 @f() { call void @abort() ret i32 7 } " + main_of("%1 = call i32 @f() ret i32 %1", "declare void @abort()"), 134)
    # malloc: a block of alignment 16, fresh memory is zero.
    ends(main_of("%p = call ptr @malloc(i64 4) %r = load i32, ptr %p ret i32 %r", MALLOC), 0)
    ends(main_of("%q = alloca i8 %p = call ptr @malloc(i64 0) %r = ptrtoint ptr %p to i64 " + tests("i64", 65568), MALLOC), 1)
    undefined(main_of("%p = call ptr @malloc(i64 4) %r = load i64, ptr %p, align 1 ret i32 0", MALLOC), "outside a block")
    undefined(main_of("%p = call ptr @malloc(i64 poison) ret i32 0", MALLOC), "poison argument")
    stops(main_of("%p = call ptr @malloc(i64 268435457) ret i32 0", MALLOC), "memory limit")
    stops(main_of("%p = call ptr @malloc(i64 -1) ret i32 0", MALLOC), "memory limit")
    ends(main_of("%p = call ptr @malloc(i64 268435456) %q = getelementptr i8, ptr %p, i64 268435455 store i8 7, ptr %q %r = load i8, ptr %q %s = zext i8 %r to i32 ret i32 %s", MALLOC), 7)
    ends(main_of("%p = call ptr @malloc(i64 268435456) call void @free(ptr %p) %q = call ptr @malloc(i64 268435456) ret i32 2", MALLOC, FREE), 2)
    # free: the start of a live block of malloc, or null.
    ends(main_of("call void @free(ptr null) ret i32 1", FREE), 1)
    undefined(main_of("%p = call ptr @malloc(i64 4) call void @free(ptr %p) call void @free(ptr %p) ret i32 1", MALLOC, FREE), "bad free")
    undefined(main_of("%p = call ptr @malloc(i64 4) %q = getelementptr i8, ptr %p, i64 1 call void @free(ptr %q) ret i32 1", MALLOC, FREE), "bad free")
    undefined(main_of("%p = alloca i8 call void @free(ptr %p) ret i32 1", FREE), "bad free")
    undefined(main_of("call void @free(ptr @v) ret i32 1", FREE, "@v = global i8 0"), "bad free")
    undefined(main_of("call void @free(ptr poison) ret i32 1", FREE), "poison argument")
    ends(main_of("%p = call ptr @malloc(i64 4) %n = ptrtoint ptr %p to i64 %q = inttoptr i64 %n to ptr call void @free(ptr %q) ret i32 1", MALLOC, FREE), 1)
    # strlen
    ends(main_of("%r = call i64 @strlen(ptr @s) " + tests("i64", 5), STRLEN, '@s = constant [6 x i8] c"hello\\00"'), 1)
    ends(main_of("%r = call i64 @strlen(ptr @s) " + tests("i64", 0), STRLEN, "@s = global i8 0"), 1)
    undefined(main_of("%r = call i64 @strlen(ptr @s) ret i32 0", STRLEN, '@s = constant [5 x i8] c"hello"'), "outside a block")
    undefined(main_of("%r = call i64 @strlen(ptr poison) ret i32 0", STRLEN), "poison argument")
    undefined(main_of("%p = alloca i8 store i8 poison, ptr %p %r = call i64 @strlen(ptr %p) ret i32 0", STRLEN), "poison argument")
    # Copies and fills: by the names of C, and by LLVM's.
    table = "@t = global [8 x i8] [i8 1, i8 2, i8 3, i8 4, i8 5, i8 6, i8 7, i8 8]"
    loads = "%r = load i64, ptr @t, align 1 "
    for name in ["memcpy", "memmove"]:
        c = f"declare ptr @{name}(ptr, ptr, i64)"
        ends(main_of(f"%q = getelementptr i8, ptr @t, i64 4 %p = call ptr @{name}(ptr @t, ptr %q, i64 4) {loads}" + tests("i64", 0x0807060508070605), c, table), 1)
        ends(main_of(f"%q = getelementptr i8, ptr @t, i64 4 %p = call ptr @{name}(ptr %q, ptr @t, i64 4) %r = icmp eq ptr %p, %q " + tests("i1", 1), c, table), 1)
        ends(main_of(f"%p = call ptr @{name}(ptr null, ptr null, i64 0) ret i32 1", c), 1)
        undefined(main_of(f"%p = call ptr @{name}(ptr null, ptr null, i64 1) ret i32 1", c), "outside a block")
        undefined(main_of(f"%p = call ptr @{name}(ptr @t, ptr @t, i64 poison) ret i32 1", c, table), "poison argument")
        undefined(main_of(f"%p = call ptr @{name}(ptr poison, ptr @t, i64 0) ret i32 1", c, table), "poison argument")
        undefined(main_of(f"%p = call ptr @{name}(ptr @t, ptr @t, i64 9) ret i32 1", c, table), "outside a block")
        undefined(main_of(f"%p = call ptr @{name}(ptr @k, ptr @t, i64 1) ret i32 1", c, table, "@k = constant i8 0"), "write to constant")
        # The source is checked before the target.
        undefined(main_of(f"%m = call ptr @malloc(i64 1) call void @free(ptr %m) %p = call ptr @{name}(ptr @k, ptr %m, i64 1) ret i32 1", c, "@k = constant i8 0", MALLOC, FREE), "ended block")
    overlap = "%q = getelementptr i8, ptr @t, i64 2 "
    undefined(main_of(overlap + "%p = call ptr @memcpy(ptr %q, ptr @t, i64 4) ret i32 1", "declare ptr @memcpy(ptr, ptr, i64)", table), "overlap")
    undefined(main_of("%q = getelementptr i8, ptr @t, i64 1 %p = call ptr @memcpy(ptr @t, ptr %q, i64 2) ret i32 1", "declare ptr @memcpy(ptr, ptr, i64)", table), "overlap")
    ends(main_of(overlap + "%p = call ptr @memcpy(ptr %q, ptr %q, i64 4) " + loads + tests("i64", 0x0807060504030201), "declare ptr @memcpy(ptr, ptr, i64)", table), 1)
    ends(main_of(overlap + "%p = call ptr @memmove(ptr %q, ptr @t, i64 4) " + loads + tests("i64", 0x0807040302010201), "declare ptr @memmove(ptr, ptr, i64)", table), 1)
    ends(main_of(overlap + "%p = call ptr @memmove(ptr @t, ptr %q, i64 4) " + loads + tests("i64", 0x0807060506050403), "declare ptr @memmove(ptr, ptr, i64)", table), 1)
    # A pointer is copied with its block, and piece by piece it is one too.
    ends(main_of("%a = alloca ptr %b = alloca ptr store ptr @v, ptr %a %p = call ptr @memcpy(ptr %b, ptr %a, i64 8) %q = load ptr, ptr %b %r = load i32, ptr %q ret i32 %r", "declare ptr @memcpy(ptr, ptr, i64)", "@v = global i32 19"), 19)
    pieces = "%a = alloca ptr %b = alloca ptr store ptr @v, ptr %a %p = call ptr @memcpy(ptr %b, ptr %a, i64 3) %c = getelementptr i8, ptr %a, i64 {0} %d = getelementptr i8, ptr %b, i64 3 %e = call ptr @memcpy(ptr %d, ptr %c, i64 {1}) %q = load ptr, ptr %b "
    beyond = "%f = getelementptr inbounds i8, ptr %q, i64 9 %r = icmp eq ptr %f, null "
    undefined(main_of(pieces.format(3, 5) + beyond + tests("i1", 0), "declare ptr @memcpy(ptr, ptr, i64)", "@v = global i64 19"), POISON_BRANCH)
    # Where pieces are missing it is an address without a block.
    ends(main_of(pieces.format(3, 4) + beyond + tests("i1", 0), "declare ptr @memcpy(ptr, ptr, i64)", "@v = global i64 19"), 1)
    memset = "declare ptr @memset(ptr, i32, i64)"
    ends(main_of("%p = call ptr @memset(ptr @t, i32 511, i64 2) " + loads + tests("i64", 0x080706050403FFFF), memset, table), 1)
    ends(main_of("%p = call ptr @memset(ptr null, i32 1, i64 0) ret i32 1", memset), 1)
    undefined(main_of("%p = call ptr @memset(ptr @t, i32 poison, i64 0) ret i32 1", memset, table), "poison argument")
    undefined(main_of("%p = call ptr @memset(ptr @t, i32 1, i64 9) ret i32 1", memset, table), "outside a block")
    ends(main_of("%m = call ptr @malloc(i64 268435456) %p = call ptr @memset(ptr %m, i32 7, i64 268435456) %q = getelementptr i8, ptr %m, i64 268435455 %b = load i8, ptr %q %r = zext i8 %b to i32 ret i32 %r", MALLOC, memset), 7)
    for bits in [64, 32]:
        for name, result in [("memcpy", 0x0807060508070605), ("memmove", 0x0807060508070605)]:
            c = f"declare void @llvm.{name}.p0.p0.i{bits}(ptr, ptr, i{bits}, i1)"
            ends(main_of(f"%q = getelementptr i8, ptr @t, i64 4 call void @llvm.{name}.p0.p0.i{bits}(ptr @t, ptr %q, i{bits} 4, i1 false) {loads}" + tests("i64", result), c, table), 1)
            undefined(main_of(f"call void @llvm.{name}.p0.p0.i{bits}(ptr @t, ptr null, i{bits} 1, i1 true) ret i32 0", c, table), "outside a block")
            undefined(main_of(f"call void @llvm.{name}.p0.p0.i{bits}(ptr @t, ptr @t, i{bits} poison, i1 false) ret i32 0", c, table), "poison argument")
            ends(main_of(f"call void @llvm.{name}.p0.p0.i{bits}(ptr null, ptr null, i{bits} 0, i1 false) ret i32 3", c), 3)
        c = f"declare void @llvm.memset.p0.i{bits}(ptr, i8, i{bits}, i1)"
        ends(main_of(f"call void @llvm.memset.p0.i{bits}(ptr @t, i8 -1, i{bits} 3, i1 false) {loads}" + tests("i64", 0x0807060504FFFFFF), c, table), 1)
        undefined(main_of(f"call void @llvm.memset.p0.i{bits}(ptr @t, i8 poison, i{bits} 0, i1 false) ret i32 0", c, table), "poison argument")
        undefined(main_of(f"call void @llvm.memset.p0.i{bits}(ptr @t, i8 0, i{bits} 9, i1 false) ret i32 0", c, table), "outside a block")
        ends(main_of(f"call void @llvm.memset.p0.i{bits}(ptr null, i8 1, i{bits} 0, i1 false) ret i32 3", c), 3)
    overlap_of = "declare void @llvm.memcpy.p0.p0.i64(ptr, ptr, i64, i1)"
    undefined(main_of(overlap + "call void @llvm.memcpy.p0.p0.i64(ptr %q, ptr @t, i64 4, i1 false) ret i32 0", overlap_of, table), "overlap")
    for name in ["start", "end"]:
        ends(main_of(f"%p = alloca i32 call void @llvm.lifetime.{name}.p0(i64 4, ptr %p) %r = load i32, ptr %p ret i32 %r", f"declare void @llvm.lifetime.{name}.p0(i64, ptr)"), 0)
        ends(main_of(f"%p = alloca i32 call void @llvm.lifetime.{name}.p0(ptr %p) %r = load i32, ptr %p ret i32 %r", f"declare void @llvm.lifetime.{name}.p0(ptr)"), 0)
        ends(main_of(f"call void @llvm.lifetime.{name}.p0(i64 -1, ptr null) ret i32 3", f"declare void @llvm.lifetime.{name}.p0(i64, ptr)"), 3)
        undefined(main_of(f"call void @llvm.lifetime.{name}.p0(ptr poison) ret i32 0", f"declare void @llvm.lifetime.{name}.p0(ptr)"), "poison argument")
    # A definition of that name is no host function.
    ends(main_of("%r = call i32 @putchar(i32 1) ret i32 %r", "define i32 @putchar(i32 %c) { ret i32 50 }"), 50)


def over_integers():
    """Intrinsics over integers: four rows of each stem, at edges of the widths."""
    for stem in intrinsics.STEMS:
        for turn, width in enumerate([16, 32, 64, 128] if stem == "bswap" else [1, 8, 32, 128]):
            rows = list(intrinsics.some(stem, width))
            for operands in dict.fromkeys([rows[(7 * turn + 3) % len(rows)], rows[(11 * turn + len(stem)) % len(rows)]]):
                intrinsic(stem, width, operands)
    # By hand: 100 and 100 are 200, more than the 127 of eight bits with a sign.
    added = "%v = call {{ i8, i1 }} @llvm.sadd.with.overflow.i8(i8 100, i8 100) %a = extractvalue {{ i8, i1 }} %v, {0} %r = zext {1} %a to i32 ret i32 %r"
    for place, ty, result in [(0, "i8", 200), (1, "i1", 1)]:
        ends(main_of(added.format(place, ty), "declare { i8, i1 } @llvm.sadd.with.overflow.i8(i8, i8)"), result)
    # 1000 0001 1000 0000 shifted up by one has 0000 0011 above.
    ends(main_of("%a = call i8 @llvm.fshl.i8(i8 -127, i8 -128, i8 1) %r = zext i8 %a to i32 ret i32 %r", "declare i8 @llvm.fshl.i8(i8, i8, i8)"), 3)


def intrinsic(stem, width, operands):
    """One call of an intrinsic over integers, and what it gives."""
    ty, name = f"i{width}", intrinsics.name(stem, width)
    types = [ty, "i1" if stem in intrinsics.ASKED else ty, ty][: len(operands)]
    arguments = ", ".join(f"{it} {leaf(operand)}" for it, operand in zip(types, operands))
    if stem not in intrinsics.TOLD:
        result = intrinsics.result(stem, width, operands)
        text = f"%r = call {ty} @{name}({arguments}) "
        before = f"declare {ty} @{name}({', '.join(types)})"
        if result is None:
            undefined(main_of(text + tests(ty, 0), before), POISON_BRANCH)
        else:
            ends(main_of(text + tests(ty, result), before), 1)
        return
    pair = f"{{ {ty}, i1 }}"
    first, second = intrinsics.result(stem, width, operands)
    text = f"%v = call {pair} @{name}({arguments}) "
    before = f"declare {pair} @{name}({', '.join(types)})"
    if first is None:
        undefined(main_of(text + f"%r = extractvalue {pair} %v, 0 " + tests(ty, 0), before), POISON_BRANCH)
        undefined(main_of(text + f"%r = extractvalue {pair} %v, 1 " + tests("i1", 0), before), POISON_BRANCH)
    else:
        ends(main_of(text + f"%r = extractvalue {pair} %v, 0 " + tests(ty, first), before), 1)
        ends(main_of(text + f"%r = extractvalue {pair} %v, 1 " + tests("i1", second), before), 1)


def constant_text(name, text):
    """A constant that holds a text, followed by a zero byte."""
    data = "".join(chr(b) if 32 <= b <= 126 and b not in (34, 92) else f"\\{b:02X}" for b in text.encode("latin-1"))
    return f'@{name} = constant [{len(text.encode("latin-1")) + 1} x i8] c"{data}\\00"'


def prints(pattern, *arguments):
    """A call of printf whose arguments are numbers of 32 or 64 bits or texts, and what it writes."""
    given, before, text = [], [], pattern
    for number, (ty, value) in enumerate(arguments):
        if ty == "ptr":
            before.append(constant_text(f"s{number}", value))
            given.append(f"ptr @s{number}")
        else:
            given.append(f"{ty} {value}")
    return main_of(f"%r = call i32 (ptr, ...) @printf({', '.join(['ptr @f', *given])}) ret i32 %r", PRINTF, constant_text("f", text), *before)


def writes(expected, pattern, *arguments):
    """A call of printf, and what it writes."""
    ends(prints(pattern, *arguments), len(expected), expected)


def printing():
    """printf: conversions of every kind, and what it refuses."""
    writes("hello", "hello")
    writes("7 -7|", "%d %d|", ("i32", 7), ("i32", -7))
    writes("   42|42   |00042|+42| 42", "%5d|%-5d|%05d|%+d|% d", ("i32", 42), ("i32", 42), ("i32", 42), ("i32", 42), ("i32", 42))
    writes("4294967295 beef BEEF 10", "%u %x %X %o", ("i32", -1), ("i32", 48879), ("i32", 48879), ("i32", 8))
    writes("-5 -9223372036854775808 18446744073709551615 123456789abcdef", "%ld %lld %lu %lx", ("i64", -5), ("i64", -9223372036854775808), ("i64", -1), ("i64", 81985529216486895))
    writes("-1 -1 255 65535", "%hhd %hd %hhu %hu", ("i32", 255), ("i32", 65535), ("i32", -1), ("i32", -1))
    writes("3 -3 4", "%zu %td %jd", ("i64", 3), ("i64", -3), ("i64", 4))
    writes("Hi\n", "%c%c%c", ("i32", 72), ("i32", 361), ("i32", 10))
    writes("  A|B  |", "%3c|%-3c|", ("i32", 65), ("i32", 66))
    writes("hello, world!", "%s, %s!", ("ptr", "hello"), ("ptr", "world"))
    writes("    abcd|abcd    |ab|     abc", "%8s|%-8s|%.2s|%8.3s", ("ptr", "abcd"), ("ptr", "abcd"), ("ptr", "abcd"), ("ptr", "abcd"))
    writes("100% 1", "100%% %i", ("i32", 1))
    writes("005||     00a|010     |", "%.3d|%.0d|%8.3x|%-8.3o|", ("i32", 5), ("i32", 0), ("i32", 10), ("i32", 8))
    writes("", "")
    # Nineteen bytes, of four kinds of conversion.
    writes("  -42|7   |00ff|ab\n", "%5d|%-4u|%04x|%s\n", ("i32", -42), ("i32", 7), ("i32", 255), ("ptr", "ab"))
    # Arguments that no conversion takes are passed over.
    writes("x", "x", ("i32", 1), ("i64", "poison"))
    # A precision reads no further byte.
    ends(main_of("%r = call i32 (ptr, ...) @printf(ptr @f, ptr @s) ret i32 %r", PRINTF, constant_text("f", "%.2s"), '@s = constant [2 x i8] c"hi"'), 2, "hi")
    undefined(main_of("%r = call i32 (ptr, ...) @printf(ptr @f, ptr @s) ret i32 %r", PRINTF, constant_text("f", "%s"), '@s = constant [2 x i8] c"hi"'), "outside a block")
    undefined(prints("%d", ("i64", 1)), "bad format")
    undefined(prints("%ld", ("i32", 1)), "bad format")
    undefined(prints("%s", ("i64", 1)), "bad format")
    undefined(prints("%d"), "bad format")
    undefined(prints("%d %d", ("i32", 1)), "bad format")
    undefined(prints("%f", ("i64", 1)), "bad format")
    undefined(prints("abc%"), "bad format")
    undefined(prints("%#x", ("i32", 1)), "bad format")
    undefined(prints("%d", ("i32", "poison")), "poison argument")
    # Where the type is another, that is told, and not that it is poison; and the first that is undefined.
    undefined(prints("%d", ("i64", "poison")), "bad format")
    undefined(prints("%d %s", ("i32", "poison"), ("i32", 1)), "poison argument")
    undefined(main_of("%r = call i32 (ptr, ...) @printf(ptr poison) ret i32 %r", PRINTF), "poison argument")
    undefined(main_of("%r = call i32 (ptr, ...) @printf(ptr @f) ret i32 %r", PRINTF, '@f = constant [2 x i8] c"hi"'), "outside a block")
    # Nothing is written where anything is undefined.
    undefined(prints("abc %d", ("i32", "poison")), "poison argument")
    for pattern, arguments, expected in printf.whole():
        if arguments and all(isinstance(it, int) for it in arguments) and len(expected) < 100 and "l" not in pattern:
            writes(expected, pattern, *[("i32", it % 2**32) for it in arguments])


def limits():
    """Steps, frames and live bytes."""
    two = main_of("%1 = call i32 @putchar(i32 65) %2 = call i32 @putchar(i32 10) ret i32 0", PUTCHAR)
    ends(two, 0, "A\n", words="--max-steps=3 run.ll")
    stops(two, "steps used up", out="A\n", words="--max-steps=2 run.ll")
    stops(two, "steps used up", out="A", words="--max-steps=1 run.ll")
    stops(two, "steps used up", words="--max-steps=0 run.ll")
    ends(two, 0, "A\n", words="-max-steps 4294967296 run.ll")
    # Phis cost nothing: a branch into a block and its phis are one step. Three rounds: 1 + 3 * 3 + 1 steps.
    loop = main_of("br label %l l: %i = phi i32 [ 0, %0 ], [ %j, %l ] %k = phi i32 [ 5, %0 ], [ %i, %l ] %j = add i32 %i, 1 %c = icmp eq i32 %j, 3 br i1 %c, label %e, label %l e: ret i32 %k")
    ends(loop, 1, words="--max-steps=11 run.ll")
    stops(loop, "steps used up", words="--max-steps=10 run.ll")
    # A call is a step, and so is each instruction of what is called, its return too.
    called = "define i32 @f() { %r = add i32 1, 2 ret i32 %r } " + main_of("%r = call i32 @f() ret i32 %r")
    ends(called, 3, words="--max-steps=4 run.ll")
    stops(called, "steps used up", words="--max-steps=3 run.ll")
    # A constructor's call is no step, and its instructions are.
    constructed = main_of("%r = load i32, ptr @v ret i32 %r", "@v = global i32 1", "define void @c() { store i32 8, ptr @v ret void }",
                          "@llvm.global_ctors = appending global [1 x { i32, ptr, ptr }] [{ i32, ptr, ptr } { i32 1, ptr @c, ptr null }]")
    ends(constructed, 8, words="--max-steps=4 run.ll")
    stops(constructed, "steps used up", words="--max-steps=3 run.ll")
    # What is due is entered before the bound is looked at.
    stops(main_of("ret i32 1", "declare i32 @getchar()", "define i32 @f(i32 %n) { ret i32 %n }", "@llvm.global_ctors = appending global [1 x { i32, ptr, ptr }] [{ i32, ptr, ptr } { i32 1, ptr @f, ptr null }]"),
          "undefined: another function type", words="--max-steps=0 run.ll")
    ends(main_of("ret i32 1", "declare void @abort()", "@llvm.global_ctors = appending global [1 x { i32, ptr, ptr }] [{ i32, ptr, ptr } { i32 1, ptr @abort, ptr null }]"), 134, words="--max-steps=0 run.ll")
    # An instruction that ends the run is a step too, so it has to be left.
    stops(main_of("unreachable"), "steps used up", words="--max-steps=0 run.ll")
    undefined(main_of("unreachable"), "unreachable", words="--max-steps=1 run.ll")
    # Frames weigh 1 and the leaves of their parameters and results, 4,194,304 together.
    stops("define i32 @main() { %1 = call i32 @main() ret i32 %1 }", "stack limit")
    deep = "define i32 @f(i32 %n) {{ %c = icmp eq i32 %n, 0 br i1 %c, label %z, label %s z: ret i32 7 s: %m = sub i32 %n, 1 %r = call i32 @f(i32 %m) ret i32 %r }} define i32 @main() {{ %r = call i32 @f(i32 {}) ret i32 %r }}"
    # f weighs 5 and main 2: 838,860 frames of f weigh 4,194,300.
    ends(deep.format(838859), 7)
    stops(deep.format(838860), "stack limit")
    # With two values more main weighs 4, so that all weigh 4,194,304; with three it weighs 5.
    full = deep.format(838859).replace("@main() { ", "@main() { %a = add i32 0, 0 %b = add i32 0, 0 ")
    ends(full, 7)
    stops(full.replace("%b = ", "%b = add i32 0, 0 %d = "), "stack limit")
    # g weighs 60,004 and main 1: 69 frames of g weigh 4,140,276.
    array = "define void @g(i32 %n, [60000 x i8] %x) {{ %c = icmp eq i32 %n, 0 br i1 %c, label %z, label %s z: ret void s: %m = sub i32 %n, 1 call void @g(i32 %m, [60000 x i8] %x) ret void }} define i32 @main() {{ call void @g(i32 {}, [60000 x i8] zeroinitializer) ret i32 8 }}"
    ends(array.format(68), 8)
    stops(array.format(69), "stack limit")
    wide = "define [60000 x i8] @f() { ret [60000 x i8] zeroinitializer } "
    ends(wide + main_of("%r = call [60000 x i8] @f() ret i32 1"), 1)
    # Live bytes at opening.
    ends(main_of("ret i32 1", "@big = global [268435456 x i8] zeroinitializer"), 1)
    stops(main_of("ret i32 1", "@big = global [268435457 x i8] zeroinitializer"), "memory limit")
    stops(main_of("ret i32 1", "@big = global [268435456 x i8] zeroinitializer", "@more = constant i8 1"), "memory limit")
    # Variables nowhere defined have no block.
    ends(main_of("ret i32 1", "@big = global [268435456 x i8] zeroinitializer", "@more = external global i8"), 1)
    # The words of main live too: "run.ll" takes 7 bytes, the array 16.
    stops("@big = global [268435440 x i8] zeroinitializer define i32 @main(i32 %n, ptr %v) { ret i32 %n }", "memory limit")
    ends("@big = global [268435433 x i8] zeroinitializer define i32 @main(i32 %n, ptr %v) { ret i32 %n }", 1)
    stops("@big = global [268435434 x i8] zeroinitializer define i32 @main(i32 %n, ptr %v) { ret i32 %n }", "memory limit")
    # Two ends at once: a missing name comes before main, and that before memory.
    stops("@big = global [268435457 x i8] zeroinitializer @p = global ptr @nope @nope = external global i8", "unresolved @nope")
    stops("@big = global [268435457 x i8] zeroinitializer", "no main")


def opening():
    """Variables, main, its words, constructors and aliases."""
    ends(main_of("%a = ptrtoint ptr @b to i64 %r = sub i64 %a, 65536 " + tests("i64", 24), "@a = global i8 0", "@b = global i64 0"), 1)
    ends(main_of("%a = ptrtoint ptr @b to i64 %r = sub i64 %a, 65536 " + tests("i64", 64), "@a = global i8 0", "@b = global i8 0, align 64"), 1)
    ends(main_of("%a = ptrtoint ptr @b to i64 %r = sub i64 %a, 65536 " + tests("i64", 17), "@a = global i8 0", "@e = external global i64", "@b = global i8 0"), 1)
    # Variables name each other, in any order.
    ends(main_of("%a = load ptr, ptr @a %b = load ptr, ptr %a %r = icmp eq ptr %b, @a " + tests("i1", 1), "@a = global ptr @b", "@b = global ptr @a"), 1)
    ends(main_of("%p = load ptr, ptr @p %r = load i32, ptr %p ret i32 %r", "@t = constant [3 x i32] [i32 1, i32 2, i32 3]", "@p = global ptr getelementptr ([3 x i32], ptr @t, i64 0, i64 2)"), 3)
    ends(main_of("%r = load i32, ptr @v ret i32 %r", "@v = global i32 ptrtoint (ptr @v to i32)"), 0)
    # With inbounds a constant address before its variable's start or after its end is poison. @t has 16 bytes.
    far = lambda words, offset: ["%q = load ptr, ptr @p %r = ptrtoint ptr %q to i64 " + tests("i64", 65536 + offset), "@t = global [4 x i32] zeroinitializer", f"@p = global ptr getelementptr {words}(i8, ptr @t, i64 {offset})"]
    ends(main_of(*far("inbounds ", 16)), 1)
    undefined(main_of(*far("inbounds ", 17)), POISON_BRANCH)
    undefined(main_of(*far("inbounds ", -1)), POISON_BRANCH)
    ends(main_of(*far("", 17)), 1)
    ends(main_of("%p = getelementptr { i8, i32 }, ptr @v, i64 0, i32 1 %r = load i32, ptr %p ret i32 %r", "@v = global { i8, i32 } { i8 1, i32 70 }"), 70)
    undefined(main_of("%r = load i32, ptr @v ret i32 %r", "@v = global i32 poison"), "poison argument")
    ends(main_of("%r = load i32, ptr @v ret i32 %r", "@v = global i32 undef"), 0)
    # Names that are missing, in the order of the symbols, and only where they are used.
    stops(main_of("call void @nope() ret i32 0", "declare void @nope()"), "unresolved @nope")
    stops(main_of("%r = load i8, ptr @b ret i32 0", "@b = external global i8", "@p = global ptr @a", "@a = external global i8"), "unresolved @b")
    stops(main_of("ret i32 0", "@p = global ptr @a", "@a = external global i8"), "unresolved @a")
    stops(main_of("ret i32 0", 'declare void @"a b"()', 'define void @f() { call void @"a b"() ret void }'), 'unresolved @"a b"')
    ends(main_of("ret i32 0", "@a = external global i8"), 0)
    ends(main_of("%r = load i32, ptr @opt ret i32 %r", "@opt = available_externally global i32 3").replace("%r = load i32, ptr @opt ret i32 %r", "ret i32 4"), 4)
    # No main: none, a local one, one of another type, or a variable.
    stops("define i32 @f() { ret i32 0 }", "no main")
    stops("", "no main", words="run.ll")
    stops("define internal i32 @main() { ret i32 1 }", "no main")
    stops("define void @main() { ret void }", "no main")
    stops("define i32 @main(i32 %n) { ret i32 1 }", "no main")
    stops("define i32 @main(i32 %n, i64 %v) { ret i32 1 }", "no main")
    stops("define i64 @main() { ret i64 1 }", "no main")
    stops("declare i32 @main()", "no main")
    stops("@main = global i32 0", "no main")
    ends("define weak i32 @main() { ret i32 3 }", 3)
    # An alias may be main.
    ends("define i32 @start() { ret i32 13 } @main = alias i32 (), ptr @start", 13)
    stops("define i32 @start() { ret i32 13 } @main = internal alias i32 (), ptr @start", "no main")
    # The words: the first is the name of the input.
    count = "define i32 @main(i32 %n, ptr %v) { ret i32 %n }"
    ends(count, 1)
    ends(count, 3, words="run.ll one two")
    ends(count, 4, words='run.ll "" -o --')
    echo = PUTS + " define i32 @main(i32 %n, ptr %v) { br label %l l: %i = phi i32 [ 0, %0 ], [ %j, %l ] %p = getelementptr ptr, ptr %v, i32 %i %s = load ptr, ptr %p %x = call i32 @puts(ptr %s) %j = add i32 %i, 1 %c = icmp eq i32 %j, %n br i1 %c, label %e, label %l e: ret i32 0 }"
    ends(echo, 0, "run.ll\n")
    ends(echo, 0, "run.ll\none\n\nthree\n", words='run.ll one "" three')
    # Behind the words stands a null, and behind that nothing.
    ends("define i32 @main(i32 %n, ptr %v) { %p = getelementptr ptr, ptr %v, i32 %n %q = load ptr, ptr %p %c = icmp eq ptr %q, null %r = zext i1 %c to i32 ret i32 %r }", 1, words="run.ll x")
    undefined("define i32 @main(i32 %n, ptr %v) { %m = add i32 %n, 1 %p = getelementptr ptr, ptr %v, i32 %m %q = load ptr, ptr %p ret i32 0 }", "outside a block", words="run.ll x")
    # Words may be written.
    ends("define i32 @main(i32 %n, ptr %v) { %s = load ptr, ptr %v store i8 90, ptr %s %x = call i32 @puts(ptr %s) ret i32 0 } " + PUTS, 0, "Zun.ll\n")
    # The first word stands behind the variables: "run.ll" and its zero take 7 bytes, then 16, and the array stands at a multiple of 8.
    ends("@v = global i8 0 define i32 @main(i32 %n, ptr %v) { %s = load ptr, ptr %v %a = ptrtoint ptr %s to i64 %b = ptrtoint ptr %v to i64 %x = sub i64 %a, 65536 %y = sub i64 %b, 65536 %z = mul i64 %x, 100 %r = add i64 %y, %z %same = icmp eq i64 %r, 1740 br i1 %same, label %yes, label %no yes: ret i32 1 no: ret i32 0 }", 1)
    # Constructors come by priority, which has no sign, and in the order of the array; a null is passed over.
    letters = " ".join(f"define void @{c}() {{ %x = call i32 @putchar(i32 {ord(c)}) ret void }}" for c in "abcd") + " " + PUTCHAR + " "
    row = "{{ i32, ptr, ptr }} {{ i32 {}, ptr {}, ptr null }}"
    array = lambda *rows: f"@llvm.global_ctors = appending global [{len(rows)} x {{ i32, ptr, ptr }}] [{', '.join(row.format(*it) for it in rows)}] "
    finish = main_of("%x = call i32 @putchar(i32 109) ret i32 0")
    ends(letters + array((65535, "@a"), (1, "@b"), (65535, "@c"), (0, "@d")) + finish, 0, "dbacm")
    ends(letters + array((-1, "@a"), (2147483647, "@b"), (7, "null"), (7, "@c")) + finish, 0, "cbam")
    ends(letters + array((1, "@a"), (1, "@a")) + finish, 0, "aam")
    ends(letters + "@llvm.global_ctors = appending global [0 x { i32, ptr, ptr }] [] " + finish, 0, "m")
    ends(letters + array((1, "null"), (2, "null")) + finish, 0, "m")
    # Destructors are not called.
    ends(letters + array((1, "@a")).replace("global_ctors", "global_dtors") + finish, 0, "m")
    # A constructor that ends the run ends it before main.
    undefined(letters + array((1, "@a"), (2, "@u"), (3, "@b")) + "define void @u() { unreachable } " + finish, "unreachable", out="a")
    undefined(letters + array((1, "@a"), (2, "@u"), (3, "@b")) + "define i32 @u() { ret i32 0 } " + finish, "another function type", out="a")
    # Aliases stand for what they name.
    ends(main_of("%r = load i32, ptr @a ret i32 %r", "@v = global i32 9", "@a = alias i32, ptr @v"), 9)
    ends(main_of("%r = load i32, ptr @a ret i32 %r", "@v = global [2 x i32] [i32 9, i32 10]", "@b = alias i64, ptr @v", "@a = private alias i32, ptr @v"), 9)
    ends(main_of("%r = icmp eq ptr @a, @v " + tests("i1", 1), "@v = global i8 9", "@a = internal alias i8, ptr @v"), 1)


def orders():
    """Two kinds of undefined behaviour at once: the first by the rules is told."""
    undefined(main_of("%1 = sdiv i32 poison, 0 ret i32 %1"), "division by zero")
    undefined(main_of("%1 = sdiv i32 -2147483648, poison ret i32 %1"), "division by zero")
    undefined(main_of("%1 = udiv i32 1, 0 unreachable"), "division by zero")
    undefined(main_of("%1 = srem i8 -128, -1 %2 = sdiv i8 1, 0 ret i32 0"), "division overflow")
    undefined(main_of("store i32 poison, ptr null ret i32 poison"), "outside a block")
    undefined(main_of("%q = getelementptr i8, ptr @v, i64 1 %r = load i32, ptr %q, align 4 ret i32 0", "@v = global i32 0"), "outside a block")
    undefined(main_of("store i32 1, ptr @v, align 64 ret i32 0", "@a = global i8 0", "@v = constant i32 0"), "write to constant")
    undefined(main_of("%r = call i32 poison(i32 poison) ret i32 %r"), "poison address")
    undefined(main_of("%p = call ptr @memcpy(ptr @t, ptr null, i64 4) ret i32 0", "declare ptr @memcpy(ptr, ptr, i64)", "@t = constant i32 0"), "outside a block")
    undefined(main_of("%q = getelementptr i8, ptr @t, i64 1 %p = call ptr @memcpy(ptr %q, ptr @t, i64 4) ret i32 0", "declare ptr @memcpy(ptr, ptr, i64)", "@t = global [8 x i8] zeroinitializer"), "overlap")
    undefined(main_of("%q = getelementptr i8, ptr @t, i64 1 %p = call ptr @memcpy(ptr %q, ptr @t, i64 8) ret i32 0", "declare ptr @memcpy(ptr, ptr, i64)", "@t = global [8 x i8] zeroinitializer"), "outside a block")
    # What runs first is told first.
    undefined(main_of("%1 = call i32 @f(i32 poison) ret i32 poison", "define i32 @f(i32 %n) { %c = icmp eq i32 %n, 0 br i1 %c, label %a, label %b a: ret i32 0 b: unreachable }"), POISON_BRANCH)


TABLES = [arithmetic, pointers, choices, steps_of_addresses, memory, parts, calls, streams, host, over_integers, printing, limits, opening, orders]


def main():
    for table in TABLES:
        table()
    store_part("running", RUNS)


if __name__ == "__main__":
    main()
