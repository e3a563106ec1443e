#!/usr/bin/env python3
"""Writes the rows of `llvm-extract` among crates/tool_table's stored input and output.

Parts of texts are written here by hand from docs/extracting.md and docs/language.md ("Canonical text"), and their bitcode by the encoder
of tests/assemble.py from records that are written by hand from docs/bitcode.md. What is told of a run is written by hand from
docs/commands.md. Nothing is taken from the program.

    tests/extracting.py            writes the rows
    tests/extracting.py --check    tells whether they are what it would write
"""
import sys

sys.dont_write_bytecode = True
from assemble import (ALIAS, BLOCK, CALL, EMPTY, EXTERNAL, FUNCTION, PARAMS, RET, VARIABLE, VOID,
                      bitcode, body, input_of, int_type, integer, line, of_global, record, types)
from stored import content, printed, store_part

# What the script says of each run, and what is told of it.
RUNS = []


def run(given, words, told):
    """A run of which the script says this, and what is told of it behind its words."""
    RUNS.append((f"{given}run {words}\n", f"> {words}\n{told}"))


def file_of(text):
    return f"clear\nfile extracted.ll\n{content(text)}"


def told_of(*lines):
    return "".join(f"| {text}\n" for text in lines)


def output(*lines):
    return "output\n" + told_of(*lines) if lines else ""


def part(words, *lines):
    """Words that select of the text that is in the file, and the lines of the part that they keep."""
    run("", " ".join(["llvm-extract -S", *words.split(), "extracted.ll"]), f"status 0\nfiles extracted.ll\n{output(*lines)}")


def missing(words, symbol):
    """Words of which one names no definition of its kind; nothing is written."""
    run("", " ".join(["llvm-extract", *words.split(), "extracted.ll"]), f"status 1\nfiles extracted.ll\n{line(f'llvm-extract: no symbol {symbol}')}")


def of(text):
    """The text that the rows behind this one are about. Of it with no words nothing is kept."""
    run(file_of(text), "llvm-extract -S extracted.ll", "status 0\nfiles extracted.ll\n")


# The functions of the text that docs/extracting.md has as its example, as they are written.
F = ["define i32 @f() {", "0:", "  %1 = call i32 @g(ptr @x)", "  ret i32 %1", "}"]
G = ["define i32 @g(ptr %p) {", "0:", "  %1 = load i32, ptr %p", "  ret i32 %1", "}"]
H = ["define void @h() {", "0:", "  ret void", "}"]


def example():
    """What is named stays, what it names is declared, and all else is left out."""
    of("""@x = internal global i32 1
define internal i32 @f() {
  %1 = call i32 @g(ptr @x)
  ret i32 %1
}
define i32 @g(ptr %p) {
  %1 = load i32, ptr %p
  ret i32 %1
}
define void @h() {
  ret void
}
""")
    part("--func=f", "@x = external global i32", *F, "declare i32 @g(ptr)")
    part("--func=f --recursive", "@x = external global i32", *F, *G)
    part("--func g", *G)
    part("-func=h", *H)
    part("--glob=x", "@x = global i32 1")
    # The order is that of the module, and not that of the words.
    part("--func=h --func=g", *G, *H)
    part("--func=h --glob=x", "@x = global i32 1", *H)
    # A name that is given twice says no more.
    part("--func=f --func=f", "@x = external global i32", *F, "declare i32 @g(ptr)")
    part("--glob=x --glob x", "@x = global i32 1")
    # All is kept but what is chosen; what is called is chosen first.
    part("--delete", "@x = global i32 1", *F, *G, *H)
    part("--delete --func=f", "@x = global i32 1", *G, *H)
    part("--delete --func=f --recursive", "@x = global i32 1", *H)
    part("--delete --func=g", "@x = global i32 1", *F, "declare i32 @g(ptr)", *H)
    part("--delete --glob=x --func=h", "@x = external global i32", *F, *G)
    part("--delete --glob=x --func=f --func=g --func=h")
    part("--recursive")


def recursion():
    """Only callees are chosen, through cycles; a function of which the address alone is taken is declared."""
    of("define void @a() { call void @b() ret void } define void @b() { call void @c(ptr @d) ret void } "
       "define void @c(ptr %0) { call void @a() ret void } define void @d() { call void @e() ret void } define void @e() { call void @a() ret void }")
    a = ["define void @a() {", "0:", "  call void @b()", "  ret void", "}"]
    b = ["define void @b() {", "0:", "  call void @c(ptr @d)", "  ret void", "}"]
    c = ["define void @c(ptr %0) {", "1:", "  call void @a()", "  ret void", "}"]
    d = ["define void @d() {", "0:", "  call void @e()", "  ret void", "}"]
    e = ["define void @e() {", "0:", "  call void @a()", "  ret void", "}"]
    part("--func=a --recursive", *a, *b, *c, "declare void @d()")
    part("--func=c --recursive", *a, *b, *c, "declare void @d()")
    part("--func=e --recursive", *a, *b, *c, "declare void @d()", *e)
    part("--func=d --recursive", *a, *b, *c, *d, *e)
    part("--func=a --recursive --delete", "declare void @a()", *d, *e)
    part("--func=d", *d, "declare void @e()")
    # What is declared is called, and not chosen.
    of("declare i32 @putchar(i32) define i32 @f() { %1 = call i32 @putchar(i32 65) ret i32 %1 } define void @g() { ret void }")
    f = ["declare i32 @putchar(i32)", "define i32 @f() {", "0:", "  %1 = call i32 @putchar(i32 65)", "  ret i32 %1", "}"]
    part("--func=f --recursive", *f)
    part("--func=g --delete", *f)
    # A variable calls nothing.
    of("@t = global ptr @f define void @f() { ret void }")
    part("--glob=t --recursive", "@t = global ptr @f", "declare void @f()")


def both_ways():
    """What is called is chosen too; what is left out of the one part makes up the other."""
    of("@v = internal global i32 4 define internal i32 @h() { ret i32 3 } define i32 @f() { %1 = call i32 @h() %2 = load i32, ptr @v %3 = add i32 %1, %2 ret i32 %3 } define i32 @main() { %1 = call i32 @f() ret i32 %1 }")
    h = ["define i32 @h() {", "0:", "  ret i32 3", "}"]
    f = ["define i32 @f() {", "0:", "  %1 = call i32 @h()", "  %2 = load i32, ptr @v", "  %3 = add i32 %1, %2", "  ret i32 %3", "}"]
    part("--func=f --recursive", "@v = external global i32", *h, *f)
    part("--func=f --recursive --delete", "@v = global i32 4", "declare i32 @f()", "define i32 @main() {", "0:", "  %1 = call i32 @f()", "  ret i32 %1", "}")
    missing("--func=nope", "@nope")


def linkages():
    """What is kept is seen from outside, and stays else as it is; what is declared is external, or extern_weak where it was."""
    of("@a = private global i8 1, align 4 @b = weak global i8 2 @c = extern_weak global i8 @d = external constant i8 @e = linkonce_odr constant i8 3 @f = common global i8 0 "
       "@t = internal global [6 x ptr] [ptr @a, ptr @b, ptr @c, ptr @d, ptr @e, ptr @f]")
    t = "@t = global [6 x ptr] [ptr @a, ptr @b, ptr @c, ptr @d, ptr @e, ptr @f]"
    declared = ["@c = extern_weak global i8", "@d = external constant i8"]
    part("--glob=t", "@a = external global i8, align 4", "@b = external global i8", *declared, "@e = external constant i8", "@f = external global i8", t)
    part("--delete", "@a = global i8 1, align 4", "@b = weak global i8 2", *declared, "@e = linkonce_odr constant i8 3", "@f = common global i8 0", t)
    part("--delete --glob=t", "@a = global i8 1, align 4", "@b = weak global i8 2", "@e = linkonce_odr constant i8 3", "@f = common global i8 0")
    part("--glob=e --glob=a", "@a = global i8 1, align 4", "@e = linkonce_odr constant i8 3")
    missing("--glob=a --glob=d", "@d")
    missing("--glob=c", "@c")
    # A function that may be nowhere stays so where a kept one calls it, and goes where none does.
    of("declare extern_weak i8 @w(i8 %n) define internal i8 @f() { %1 = call i8 @w(i8 1) ret i8 %1 } define void @g() { ret void }")
    part("--func=f", "declare extern_weak i8 @w(i8)", "define i8 @f() {", "0:", "  %1 = call i8 @w(i8 1)", "  ret i8 %1", "}")
    part("--func=g", "define void @g() {", "0:", "  ret void", "}")
    missing("--func=w", "@w")
    # An entry with a body or an initialiser is a definition, whatever its linkage.
    of("@x = available_externally global i8 1 define available_externally i8 @f(i8 %n, i8 %0) { ret i8 %n } define weak_odr i8 @g(i8 %n) { %1 = call i8 @f(i8 %n, i8 2) ret i8 %1 }")
    part("--glob=x --func=f", "@x = available_externally global i8 1", "define available_externally i8 @f(i8 %n, i8 %0) {", "1:", "  ret i8 %n", "}")
    part("--func=g", "declare i8 @f(i8, i8)", "define weak_odr i8 @g(i8 %n) {", "0:", "  %1 = call i8 @f(i8 %n, i8 2)", "  ret i8 %1", "}")
    part("--func=f --delete", "@x = available_externally global i8 1", "declare i8 @f(i8, i8)", "define weak_odr i8 @g(i8 %n) {", "0:", "  %1 = call i8 @f(i8 %n, i8 2)", "  ret i8 %1", "}")


def appending():
    """An appending variable that is named and not kept is one of no elements."""
    of("@a = appending global [1 x i32] [i32 1] define ptr @f() { ret ptr @a }")
    f = ["define ptr @f() {", "0:", "  ret ptr @a", "}"]
    part("--func=f", "@a = appending global [0 x i32] []", *f)
    part("--glob=a", "@a = appending global [1 x i32] [i32 1]")
    part("--glob=a --delete", "@a = appending global [0 x i32] []", *f)
    part("--func=f --delete", "@a = appending global [1 x i32] [i32 1]")
    part("--func=f --glob=a", "@a = appending global [1 x i32] [i32 1]", *f)
    of("@a = appending constant [2 x [1 x i16]] [[1 x i16] [i16 7], [1 x i16] undef], align 8 @p = global ptr @a")
    part("--glob=p", "@a = appending constant [0 x [1 x i16]] [], align 8", "@p = global ptr @a")
    # What constructors name is not called by what is kept.
    of("@llvm.global_ctors = appending global [1 x { i32, ptr, ptr }] [{ i32, ptr, ptr } { i32 1, ptr @c, ptr null }] define internal void @c() { ret void } define i32 @main() { ret i32 0 }")
    constructors = "@llvm.global_ctors = appending global [1 x { i32, ptr, ptr }] [{ i32, ptr, ptr } { i32 1, ptr @c, ptr null }]"
    c = ["define void @c() {", "0:", "  ret void", "}"]
    part("--glob=llvm.global_ctors", constructors, "declare void @c()")
    part("--glob=llvm.global_ctors --recursive", constructors, "declare void @c()")
    part("--func=c", *c)
    part("--func=main --delete", constructors, *c)


def aliases():
    """A definition and its aliases are chosen together, and an alias that is not kept and is named is declared behind all others of its kind."""
    of("@x = global i32 5 @y = alias i32, ptr @x define i32 @main() { store i32 6, ptr @y %1 = load i32, ptr @x ret i32 %1 }")
    main = ["define i32 @main() {", "0:", "  store i32 6, ptr @y", "  %1 = load i32, ptr @x", "  ret i32 %1", "}"]
    part("--alias=y", "@x = global i32 5", "@y = alias i32, ptr @x")
    part("--glob=x", "@x = global i32 5", "@y = alias i32, ptr @x")
    part("--alias=y --alias y --glob=x", "@x = global i32 5", "@y = alias i32, ptr @x")
    part("--alias=y --delete", "@x = external global i32", "@y = external global i32", *main)
    part("--func=main", "@x = external global i32", "@y = external global i32", *main)
    part("--func=main -alias=y", "@x = global i32 5", "@y = alias i32, ptr @x", *main)
    # Each option has its own kind.
    missing("--glob=y", "@y")
    missing("--func=y", "@y")
    missing("--alias=x", "@x")
    missing("--alias=main", "@main")
    # An alias of a function is called, and what it stands for is chosen with it.
    of("@g = internal alias i32 (i8), ptr @f define internal i32 @f(i8 %0) { ret i32 1 } define i32 @main() { %1 = call i32 @g(i8 7) ret i32 %1 } define void @h() { ret void }")
    alias = "@g = alias i32 (i8), ptr @f"
    f = ["define i32 @f(i8 %0) {", "1:", "  ret i32 1", "}"]
    main = ["define i32 @main() {", "0:", "  %1 = call i32 @g(i8 7)", "  ret i32 %1", "}"]
    part("--func=main", *main, "declare i32 @g(i8)")
    part("--func=main --func=h", *main, *H, "declare i32 @g(i8)")
    part("--func=main --recursive", alias, *f, *main)
    part("--func=f", alias, *f)
    part("--alias=g --func=f", alias, *f)
    part("--alias=g --delete", *main, *H, "declare i32 @g(i8)")
    part("--func=main --delete --recursive", *H)
    # What is declared of a variable is as constant as the alias's target, which nothing names.
    of("@x = constant i8 1 @y = private alias i8, ptr @x @z = alias i8, ptr @x define i8 @f() { %1 = load i8, ptr @z %2 = load i8, ptr @y %3 = add i8 %1, %2 ret i8 %3 } @w = global i8 2")
    f = ["define i8 @f() {", "0:", "  %1 = load i8, ptr @z", "  %2 = load i8, ptr @y", "  %3 = add i8 %1, %2", "  ret i8 %3", "}"]
    part("--func=f --glob=w", "@w = global i8 2", "@y = external constant i8", "@z = external constant i8", *f)
    part("--alias=y", "@x = constant i8 1", "@y = alias i8, ptr @x", "@z = alias i8, ptr @x")


def texts():
    """Structs and the three texts stay."""
    of_texts = ["source_filename = \"s.c\"", "target datalayout = \"e\"", "target triple = \"t\"", "%T = type { i8, %U }", "%U = type <{ ptr }>", "%O = type opaque"]
    given = file_of("%T = type { i8, %U } %U = type <{ ptr }> source_filename = \"s.c\" target triple = \"t\" @x = global %T { i8 1, %U <{ ptr @y }> } %O = type opaque @y = global i8 2 target datalayout = \"e\"")
    run(given, "llvm-extract -S extracted.ll", f"status 0\nfiles extracted.ll\n{output(*of_texts)}")
    part("--glob=x", *of_texts, "@x = global %T { i8 1, %U <{ ptr @y }> }", "@y = external global i8")
    part("--glob=x --delete", *of_texts, "@y = global i8 2")
    of("")
    part("--delete --recursive")
    # A name of any bytes, and one that is no identifier.
    of("@\"a b\" = global i8 1 @\"1\" = internal global ptr @\"a b\" @-$._ = global i8 3")
    part("--glob=a\\x20b --glob=-$._", "@\"a b\" = global i8 1", "@-$._ = global i8 3")
    part("--glob=1", "@\"a b\" = external global i8", "@\"1\" = global ptr @\"a b\"")
    missing("--glob a", "@a")
    missing("--func=a\\x20b", "@\"a b\"")
    missing("--glob=\\xff", "@\"\\\\FF\"")


def symbols():
    """The first name that is not there is told: functions first, then variables, then aliases."""
    of("@x = global i8 1 @y = external global i8 @a = alias i8, ptr @x declare void @d() define void @f() { call void @d() ret void }")
    missing("--func=none", "@none")
    missing("--func=x", "@x")
    missing("--func=d", "@d")
    missing("--glob=f", "@f")
    missing("--glob=y", "@y")
    missing("--alias=z --glob=y --func=f --func=h --func=g", "@h")
    missing("--alias=z --glob=v --glob=u --func=f", "@v")
    missing("--alias=a --alias=z --alias=b --glob=x", "@z")
    # With --delete too, and with -S.
    missing("--delete --func=none", "@none")
    missing("-S --recursive --delete --glob=none", "@none")
    # Nothing is written, and the file of the output stays as it was.
    run("file out.ll\n+ ; kept\n", "llvm-extract -S --func=none -o out.ll extracted.ll", f"status 1\nfiles extracted.ll\n{line('llvm-extract: no symbol @none')}")
    run("", "llvm-extract -S out.ll", "status 0\nfiles out.ll\n")
    # No call fails where none is made.
    run("fails output 1\n", "llvm-extract --func=none extracted.ll", f"status 1\nfiles extracted.ll\n{line('llvm-extract: no symbol @none')}")


def streams():
    """Texts from standard input, and files that are written."""
    given = "@x = internal global i8 255 @y = global i8 1"
    size = len(given)
    run(input_of(given), "llvm-extract -S --glob=x -", f"status 0\ninput {size}\n{output('@x = global i8 -1')}")
    run(input_of(given), "llvm-extract --delete --glob y -S", f"status 0\ninput {size}\n{output('@x = global i8 -1')}")
    run(input_of(given), "llvm-extract -S --glob=x -o out.ll", f"status 0\ninput {size}\nwrote out.ll\n| @x = global i8 -1\n")
    # What was written is read, and a file may be written over that was read.
    run("", "llvm-extract -S -o out.ll --delete out.ll", "status 0\nfiles out.ll\nwrote out.ll\n| @x = global i8 -1\n")
    run("", "llvm-extract --glob=y out.ll", f"status 1\nfiles out.ll\n{line('llvm-extract: no symbol @y')}")
    # A front of the part is there where a write fails, or nothing.
    refused = line("llvm-extract: cannot write -")
    run(input_of(given) + "fails output 1\n", "llvm-extract -S --glob=x -", f"status 1\ninput {size}\n{refused}")
    run(input_of(given) + "room output 17\n", "llvm-extract -S --glob=x -", f"status 1\ninput {size}\noutput\n+ @x = global i8 -1\n{refused}")
    run(input_of(given) + "room output 18\n", "llvm-extract -S --glob=x -", f"status 0\ninput {size}\n{output('@x = global i8 -1')}")
    # Nothing is written of an empty part, so nothing fails.
    run(input_of(given) + "room output 0\nfails output 1\n", "llvm-extract -S -", f"status 0\ninput {size}\n")
    kept = file_of(given) + "file out.ll\n+ ; kept\n"
    run(kept + "fails files 2\n", "llvm-extract -S --glob=x -o out.ll extracted.ll", f"status 1\nfiles extracted.ll\nwrote out.ll\n+ ; kept\n{line('llvm-extract: cannot write out.ll')}")
    run(kept + "fails files 1\n", "llvm-extract -S --glob=x -o out.ll extracted.ll", f"status 1\nfiles extracted.ll\n{line('llvm-extract: cannot read extracted.ll')}")
    # The empty part makes an empty file.
    run("", "llvm-extract -S -o out.ll extracted.ll", "status 0\nfiles extracted.ll\nwrote out.ll\n")


def refusals():
    """A text, or bitcode, that is refused is told before a name that is not there."""
    run(file_of("@x = global i8 256"), "llvm-extract -S --func=none extracted.ll", f"status 1\nfiles extracted.ll\n{line('llvm-extract: extracted.ll:1:16: constant out of range')}")
    run(file_of("declare internal void @f()"), "llvm-extract --func=f -o out.bc extracted.ll", f"status 1\nfiles extracted.ll\n{line('llvm-extract: extracted.ll: invalid V2 at @f')}")
    run(file_of("@x = global"), "llvm-extract -S extracted.ll", f"status 1\nfiles extracted.ll\n{line('llvm-extract: extracted.ll:1:12: no item here')}")
    run("clear\nfile extracted.ll\n= 42 43 c0 de\n", "llvm-extract --func=none extracted.ll", f"status 1\nfiles extracted.ll\n{line('llvm-extract: extracted.ll: foreign producer')}")


def codes():
    """Without -S bitcode is written."""
    run(file_of("@x = internal global i32 5 @y = internal alias i32, ptr @x @z = global i8 1"), "llvm-extract --alias=y extracted.ll",
        "status 0\nfiles extracted.ll\noutput\n" + printed(bitcode(
            b"xy", types(int_type(32)), record(VARIABLE, 0, 1, EXTERNAL, 0, 0, 0, 1, *integer(5)), record(ALIAS, 1, 1, EXTERNAL, 0, 0, 0))))
    run("", "llvm-extract extracted.ll", f"status 0\nfiles extracted.ll\noutput\n{printed(EMPTY)}")
    run("", "llvm-extract --glob=z -o out.bc extracted.ll",
        "status 0\nfiles extracted.ll\nwrote out.bc\n" + printed(bitcode(b"z", types(int_type(8)), record(VARIABLE, 0, 1, EXTERNAL, 0, 0, 0, 1, *integer(1)))))
    # The function that is called is declared, and has its place in the order.
    run(file_of("define internal void @main() { call void @v() ret void } define void @u() { ret void } define void @v() { call void @u() ret void }"), "llvm-extract --func=main extracted.ll",
        "status 0\nfiles extracted.ll\noutput\n" + printed(bitcode(
            b"mainv", types(VOID), record(FUNCTION, 0, 4, EXTERNAL, 1, 0, 0, 0), record(FUNCTION, 4, 1, EXTERNAL, 0, 0, 0, 0),
            body(record(PARAMS), record(BLOCK, 0), record(CALL, 0, 0, 0, *of_global(1), 0), record(RET, 0)))))


def main():
    for table in [example, recursion, both_ways, linkages, appending, aliases, texts, symbols, streams, refusals, codes]:
        table()
    store_part("extracting", RUNS)


if __name__ == "__main__":
    main()
