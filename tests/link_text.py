#!/usr/bin/env python3
"""Writes the rows of `llvm-link -S` of one text among crates/tool_table's stored input and output.

The texts and their canonical texts are those of tests/canonical.py; beside them stand runs over standard input, over sinks that fail or
are full, and over files. What is told is written here by hand from docs/commands.md; nothing is taken from the program.

    tests/link_text.py            writes the rows
    tests/link_text.py --check    tells whether they are what it would write
"""
import sys

sys.dont_write_bytecode = True
import canonical
from assemble import EXTERNAL, VARIABLE, bitcode, int_type, record, types
from canonical import bytes_of
from stored import content, printed, store_part

# What the script says of each run, and what is told of it.
RUNS = []


def stream(name, text):
    return f"{name}\n{printed(bytes_of(text))}" if text else ""


def run(given, words, told):
    """A run of which the script says this, and what is told of it behind its words."""
    RUNS.append((f"{given}run {words}\n", f"> {words}\n{told}"))


def file_of(text):
    return f"clear\nfile canonical.ll\n{content(bytes_of(text))}"


def row(text, told):
    """A text in a file, and its canonical text."""
    run(file_of(text), "llvm-link -S -o - canonical.ll", f"status 0\nfiles canonical.ll\n{stream('output', told)}")


def piped(text, *lines):
    """The same from standard input."""
    run(f"clear\ninput\n{content(bytes_of(text))}", "llvm-link -S -", f"status 0\ninput {len(bytes_of(text))}\n{stream('output', canonical.text_of(lines))}")


def streams():
    """Texts from standard input."""
    piped("@x = global i8 255", "@x = global i8 -1")
    piped("@\"a b\" = global i1 1 @\"c\" = constant ptr @\"a b\"", "@\"a b\" = global i1 true", "@c = constant ptr @\"a b\"")
    piped("")
    piped("declare i32 @putchar(i32) define i32 @main() { %1 = call i32 @putchar(i32 65) %2 = call i32 @putchar(i32 10) ret i32 0 }",
          "declare i32 @putchar(i32)", "define i32 @main() {", "0:", "  %1 = call i32 @putchar(i32 65)", "  %2 = call i32 @putchar(i32 10)", "  ret i32 0", "}")


def sinks():
    """What is taken is a front of the text where a call fails or no room is left, and the answer is that it cannot be written."""
    short = "clear\ninput\n+ @x = global i8 255\n"
    refused = "errors\n| llvm-link: cannot write -\n"
    run(short + "fails output 1\n", "llvm-link -S -", f"status 1\ninput 18\n{refused}")
    run(file_of("@x = global i8 255") + "fails output 1\n", "llvm-link -S -o - canonical.ll", f"status 1\nfiles canonical.ll\n{refused}")
    run(short + "room output 0\n", "llvm-link -S -", f"status 1\ninput 18\n{refused}")
    run(short + "room output 1\n", "llvm-link -S -", f"status 1\ninput 18\noutput\n+ @\n{refused}")
    run(short + "room output 17\n", "llvm-link -S -", f"status 1\ninput 18\noutput\n+ @x = global i8 -1\n{refused}")
    run(short + "room output 18\n", "llvm-link -S -", "status 0\ninput 18\noutput\n| @x = global i8 -1\n")
    # One call takes the whole of a short text.
    run(short + "fails output 2\n", "llvm-link -S -", "status 0\ninput 18\noutput\n| @x = global i8 -1\n")
    # Nothing is written of an empty text, so nothing fails.
    run("clear\ninput\nroom output 0\nfails output 1\n", "llvm-link -S -", "status 0\ninput 0\n")
    # A standard error that takes nothing changes no answer.
    run(short + "fails output 1\nroom errors 0\n", "llvm-link -S -", "status 1\ninput 18\n")
    # A text of several pieces, of which the front is taken: 10 lines of 19 bytes, 90 of 20, 200 of 21, and 5 bytes more.
    several = "clear\ninput\neach 0 400 @x#=global i8 255\\x0a\nroom output 6195\n"
    front = "".join(f"| @x{n} = global i8 -1\n" for n in range(300))
    run(several, "llvm-link -S -", f"status 1\ninput 7890\noutput\n{front}+ @x300\n{refused}")


def files():
    """The first call of the files reads, the second writes."""
    file = file_of("@x = global i8 255")
    run(file, "llvm-link -S -o out.ll canonical.ll", "status 0\nfiles canonical.ll\nwrote out.ll\n| @x = global i8 -1\n")
    # What was written is read, and printed as it is.
    run("", "llvm-link -S -o - out.ll", "status 0\nfiles out.ll\noutput\n| @x = global i8 -1\n")
    run("", "llvm-link --S out.ll", "status 0\nfiles out.ll\noutput\n| @x = global i8 -1\n")
    # A file may be written over that was read, and standard output fails for no file.
    run("fails output 1\n", "llvm-link -S out.ll -o out.ll", "status 0\nfiles out.ll\nwrote out.ll\n| @x = global i8 -1\n")
    # Of a file that a write was asked for is told what it holds then: here what it held before.
    run(file + "file out.ll\n+ ; kept\nfails files 2\n", "llvm-link -S -o out.ll canonical.ll", "status 1\nfiles canonical.ll\nwrote out.ll\n+ ; kept\nerrors\n| llvm-link: cannot write out.ll\n")
    run("", "llvm-link -S out.ll", "status 0\nfiles out.ll\n")
    # From standard input to a file: the first call writes.
    run("clear\ninput\n+ @x = global i8 255\n", "llvm-link -S - -o out.ll", "status 0\ninput 18\nwrote out.ll\n| @x = global i8 -1\n")
    run("clear\ninput\n+ @x = global i8 255\nfails files 1\n", "llvm-link -S - -o out.ll", "status 1\ninput 18\nerrors\n| llvm-link: cannot write out.ll\n")
    # The empty text makes an empty file.
    run("clear\ninput\n", "llvm-link -S - -o out.ll", "status 0\ninput 0\nwrote out.ll\n")


def refusals():
    """A text that is refused is not printed, nor is a file written."""
    run(file_of("@x = global i8 255 declare internal void @f()"), "llvm-link -S -o - canonical.ll", "status 1\nfiles canonical.ll\nerrors\n| llvm-link: canonical.ll: invalid V2 at @f\n")
    run(file_of("@x = global i8 255 @y = global i8 256"), "llvm-link -S -o out.ll canonical.ll", "status 1\nfiles canonical.ll\nerrors\n| llvm-link: canonical.ll:1:35: constant out of range\n")


def changed():
    """One text that linking changes, one text twice, and bitcode of no producer."""
    twice = "errors\n| llvm-link: conflict: two strong: @x in canonical.ll and canonical.ll\n"
    run(file_of("@x = global i8 255"), "llvm-link canonical.ll canonical.ll", f"status 1\nfiles canonical.ll canonical.ll\n{twice}")
    run("", "llvm-link -S canonical.ll canonical.ll -o out.ll", f"status 1\nfiles canonical.ll canonical.ll\n{twice}")
    row("@x = available_externally global i8 255", "@x = external global i8\n")
    run("", "llvm-link canonical.ll", "status 0\nfiles canonical.ll\noutput\n" + printed(bitcode(b"x", types(int_type(8)), record(VARIABLE, 0, 1, EXTERNAL, 0, 0, 0, 0))))
    row("define available_externally void @f() { ret void }", "declare void @f()\n")
    row("@x = appending global [0 x i8] zeroinitializer", "@x = appending global [0 x i8] []\n")
    run("clear\nfile canonical.ll\n= 4243c0de\n", "llvm-link -S canonical.ll", "status 1\nfiles canonical.ll\nerrors\n| llvm-link: canonical.ll: foreign producer\n")
    # An appending list, empty or not, is what it is.
    row("@x = appending global [0 x i8] [] @y = appending global [1 x i8] [i8 255]", "@x = appending global [0 x i8] []\n@y = appending global [1 x i8] [i8 -1]\n")


def main():
    for table in canonical.TABLES:
        table()
    for text, told in canonical.ROWS:
        row(text, told)
    for table in [streams, sinks, files, refusals, changed]:
        table()
    store_part("link_text", RUNS)


if __name__ == "__main__":
    main()
