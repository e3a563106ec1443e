#!/usr/bin/env python3
"""Writes the rows of linked bitcode that runs among crates/tool_table's stored input and output: texts, the bitcode that `llvm-link` makes
of them, the text that `llvm-dis` makes of that, and what is told where `lli` runs the one and the other.

The parts and the linked text are those of tests/links.py, and the runs those of tests/linked_runs.py, which runs what `llvm-link -S` makes:
so bitcode and text have to print the same and end the same way. The bitcode is made by the encoder of tests/assemble.py from records that
are written here by hand from docs/bitcode.md. Nothing is taken from the program.

    tests/linked_bitcode.py            writes the rows
    tests/linked_bitcode.py --check    tells whether they are what it would write

The rows stand where tests/stored.py says.
"""
import sys

sys.dont_write_bytecode = True
import linked_runs
import running
from assemble import (
    ADD, ALIAS, BLOCK, BR, CALL, EXTERNAL, EXTERN_WEAK, FUNCTION, INTERNAL, NULL, PARAMS, PTR, RET, UNDEF, VARIABLE, VOID, bitcode, body, int_type,
    integer, listed, of_global, record, types, value)
from stored import content, printed, store_part

# What the script says of each run, and what is told of it.
RUNS = running.RUNS

# Codes: 10 and that of the opcode; of linkages; and of types that hold others.
SUB, ICMP, TRUNC, PTRTOINT, SELECT, LOAD, STORE, EXTRACT, INSERT = 12, 24, 25, 28, 30, 33, 34, 38, 39
COMMON, APPENDING = 8, 9
ARRAY, STRUCT, NAMED, DEFINE = 4, 5, 6, 7
EQ = 1
I32 = int_type(32)


def variable(offset, size, linkage, ty, *initialiser, alignment=0):
    """A variable that is not constant, and what it holds at first, if it is defined."""
    return record(VARIABLE, offset, size, linkage, 0, ty, alignment, *([1, *initialiser] if initialiser else [0]))


def function(offset, size, linkage, returns=0, parameters=()):
    """A function with a body."""
    return record(FUNCTION, offset, size, linkage, 1, returns, 0, len(parameters), *parameters)


def block_of(*lines):
    """The body of a function without parameters that has one block."""
    return body(record(PARAMS), record(BLOCK, 0), *lines)


def call_of(number):
    """%n = call i32 @f(), of the global of this number; the type 0 is i32."""
    return record(CALL, 0, 0, 0, 0, *of_global(number), 0)


def prints(letter, number):
    """%n = call i32 @putchar(i32 letter)."""
    return record(CALL, 0, 0, 0, 1, 0, *of_global(number), 1, *integer(ord(letter)))


def load(ty, *address):
    return record(LOAD, 0, 0, ty, *address, 0)


def returned(number, ty=0):
    """ret, of the value of this number."""
    return record(RET, 1, ty, *value(number))


def gives(number):
    """{ ret i32 number }"""
    return block_of(record(RET, 1, 0, *integer(number)))


# { ret void } behind one letter.
def letter(character, putchar):
    return block_of(prints(character, putchar), record(RET, 0))


# Two variables that name each other: @b, @a and main.
RING = bitcode(
    b"bamain", types(PTR, I32, int_type(1)), variable(0, 1, EXTERNAL, 0, *of_global(1)), variable(1, 1, EXTERNAL, 0, *of_global(0)), function(2, 4, EXTERNAL, 1),
    block_of(load(0, *of_global(1)), load(0, *value(0)), record(ICMP, 0, 0, EQ, 0, *value(1), *of_global(1)),
             record(SELECT, 0, 1, *value(2), *integer(7), *integer(9)), returned(3, 1)))
# @f, main, @g, @f.2 and @f.1.
OWN = bitcode(
    b"fmaingf.2f.1", types(I32), function(0, 1, INTERNAL), function(1, 4, EXTERNAL), function(5, 1, EXTERNAL), function(6, 3, INTERNAL), function(9, 3, EXTERNAL),
    gives(1), block_of(call_of(0), call_of(2), record(ADD, 0, 0, 0, *value(0), *value(1)), returned(2)), block_of(call_of(3), returned(0)), gives(2), gives(40))
# @f that is strong, and main.
STRONG = bitcode(b"fmain", types(I32), function(0, 1, EXTERNAL), function(1, 4, EXTERNAL), gives(2), block_of(call_of(0), returned(0)))
# @a, @c of 8 bytes with an alignment of 16, which is 4, its power, and one more; and main.
SHARED = bitcode(
    b"acmain", types(int_type(8), int_type(64), I32, PTR), variable(0, 1, EXTERNAL, 0, *integer(0)), variable(1, 1, COMMON, 1, *integer(0), alignment=5), function(2, 4, EXTERNAL, 2),
    block_of(record(PTRTOINT, 0, 0, 3, *of_global(1), 1), record(SUB, 0, 0, 1, *value(0), *integer(65536)), record(TRUNC, 0, 0, 1, *value(1), 2), returned(2, 2)))


def called_first(names, first, second, *functions):
    """An array of two constructors, putchar, and functions of one letter each: the types i32, ptr, a pair's, the array's, and void."""
    constructors = listed(*(listed(integer(65535), of_global(number), NULL) for number in (first, second)))
    return bitcode(
        b"llvm.global_ctorsputchar" + names, types(I32, PTR, record(STRUCT, 0, 0, 1, 1), record(ARRAY, 2, 2), VOID), variable(0, 17, APPENDING, 3, *constructors),
        record(FUNCTION, 17, 7, EXTERNAL, 0, 0, 0, 1, 0), *functions)


PRINTS_M = block_of(prints("m", 1), record(RET, 1, 0, *integer(0)))
# putchar, @a, main and @b; then putchar, @b, @a and main.
A_FIRST = called_first(b"amainb", 2, 4, function(24, 1, EXTERNAL, 4), function(25, 4, EXTERNAL), function(29, 1, EXTERNAL, 4), letter("a", 1), PRINTS_M, letter("b", 1))
B_FIRST = called_first(b"bamain", 2, 3, function(24, 1, EXTERNAL, 4), function(25, 1, EXTERNAL, 4), function(26, 4, EXTERNAL), letter("b", 1), letter("a", 1), PRINTS_M)


def asking(linkage, *initialiser):
    """@opt, and a main of three blocks that asks whether it is null."""
    return bitcode(
        b"optmain", types(I32, PTR, int_type(1)), variable(0, 3, linkage, 0, *initialiser), function(3, 4, EXTERNAL),
        body(record(PARAMS), record(BLOCK, 0), record(ICMP, 0, 0, EQ, 1, *of_global(0), *NULL), record(BR, 1, *value(0), 1, 2),
             record(BLOCK, 0), record(RET, 1, 0, *integer(5)), record(BLOCK, 0), load(0, *of_global(0)), returned(1)))


ABSENT, THERE = asking(EXTERN_WEAK), asking(EXTERNAL, *integer(8))
# @main.1, and main.
OTHER_MAIN = bitcode(b"main.1main", types(I32), function(0, 6, INTERNAL), function(6, 4, EXTERNAL), gives(1), gives(6))
# %T of i32, %T.1 of i64 and %U of i32; then @g, whose parameter is a %U, and main, which calls it with a %T.
STRUCTS = bitcode(
    b"TT.1Ugmain",
    types(I32, int_type(64), record(NAMED, 2), record(NAMED, 0), record(DEFINE, 0, 1, 0, 0, 1), record(DEFINE, 0, 1, 1, 1, 3), record(DEFINE, 0, 1, 0, 4, 1)),
    function(5, 1, EXTERNAL, 0, [2]), function(6, 4, EXTERNAL),
    body(record(PARAMS, 0), record(BLOCK, 0), record(EXTRACT, 0, 2, *value(0), 1, 0), returned(1)),
    block_of(record(INSERT, 0, 3, *UNDEF, 0, *integer(9), 1, 0), record(CALL, 0, 0, 0, 1, 3, *of_global(0), 1, *value(0)), returned(1)))
# @v, @v.1, @p and main.
INSIDE = bitcode(
    b"vv.1pmain", types(I32, PTR), variable(0, 1, INTERNAL, 0, *integer(1)), variable(1, 3, INTERNAL, 0, *integer(2)), variable(4, 1, EXTERNAL, 1, *of_global(1)), function(5, 4, EXTERNAL),
    block_of(load(1, *of_global(2)), load(0, *value(0)), returned(1)))
# @llvm, @llvm_.1 and main.
RESERVED = bitcode(b"llvmllvm_.1main", types(I32), function(0, 4, INTERNAL), function(4, 7, INTERNAL), function(11, 4, EXTERNAL), gives(1), gives(2), block_of(call_of(1), returned(0)))


def alias_of_function(offset, size, linkage, target):
    """An alias of the type i32 ()."""
    return record(ALIAS, offset, size, linkage, 1, 0, 0, 0, target)


# main and @f, and the alias @g behind them; then @f and main.
ALIAS_LAST = bitcode(b"mainfg", types(I32), function(0, 4, EXTERNAL), function(4, 1, EXTERNAL), alias_of_function(5, 1, EXTERNAL, 1), block_of(call_of(2), returned(0)), gives(2))
ALIAS_FIRST = bitcode(b"fmaing", types(I32), function(0, 1, EXTERNAL), function(1, 4, EXTERNAL), alias_of_function(5, 1, EXTERNAL, 0), gives(2), block_of(call_of(2), returned(0)))
# @x, @p of two pointers, main, and the alias @y, which is the global 3.
ALIAS_WRITTEN = bitcode(
    b"xpmainy", types(I32, PTR, record(ARRAY, 2, 1)), variable(0, 1, EXTERNAL, 0, *integer(5)), variable(1, 1, EXTERNAL, 2, *listed(of_global(3), of_global(0))), function(2, 4, EXTERNAL),
    record(ALIAS, 6, 1, EXTERNAL, 0, 0, 0),
    block_of(record(STORE, 0, 0, *integer(6), *of_global(3), 0), load(0, *of_global(0)), returned(0)))
# @llvm, @f, main, and the alias @llvm_.1.
ALIAS_RESERVED = bitcode(
    b"llvmfmainllvm_.1", types(I32), function(0, 4, INTERNAL), function(4, 1, EXTERNAL), function(5, 4, EXTERNAL), alias_of_function(9, 7, INTERNAL, 1),
    gives(1), gives(2), block_of(call_of(3), returned(0)))
# @v, @h, @f and main.
PARTED = bitcode(
    b"vhfmain", types(I32, PTR), variable(0, 1, EXTERNAL, 0, *integer(4)), function(1, 1, EXTERNAL), function(2, 1, EXTERNAL), function(3, 4, EXTERNAL),
    gives(3), block_of(call_of(1), load(0, *of_global(0)), record(ADD, 0, 0, 0, *value(0), *value(1)), returned(2)), block_of(call_of(2), returned(0)))

# In the order of `worked` of tests/linked_runs.py.
CODES = [RING, OWN, STRONG, STRONG, SHARED, A_FIRST, B_FIRST, ABSENT, THERE, THERE, OTHER_MAIN, STRUCTS, INSIDE, RESERVED, ALIAS_LAST, ALIAS_FIRST, ALIAS_WRITTEN, ALIAS_RESERVED, PARTED]


def run(given, words, told):
    """A run of which the script says this, and what is told of it behind its words."""
    RUNS.append((f"{given}run {words}\n", f"> {words}\n{told}"))


def linked(names, parts, text, runs, code):
    """Parts linked to bitcode, that made a text, and runs of both."""
    files = "".join(f"file {name}\n{content(part)}" for name, part in zip(names, parts, strict=True))
    run(f"clear\n{files}", f"llvm-link -o linked.bc {' '.join(names)}", f"status 0\nfiles {' '.join(names)}\nwrote linked.bc\n{printed(code)}")
    run("", "llvm-dis linked.bc", f"status 0\nfiles linked.bc\nwrote linked.ll\n{printed(text.encode())}")
    for name in ["linked.bc", "linked.ll"]:
        for status, line, out, words, given, took, said in runs:
            running.run_of(name, "", status, line, out, words.replace("linked.ll", name), given, took, said)


def main():
    for row, code in zip(linked_runs.worked(), CODES, strict=True):
        linked(*row, code)
    store_part("linked_bitcode", RUNS)


if __name__ == "__main__":
    main()
