#!/usr/bin/env python3
"""The script of crates/module_table that asks about linked parts: parts as texts, what is asked of them together, and the answers.

Every answer is written here by hand from the rules of docs/linking.md; nothing is taken from the program.

    tests/linkage.py            writes the rows of module_table, those of tests/canonical.py and tests/validity.py among them
    tests/linkage.py --check    tells whether they are what it would write

A line of the script begins with one of these; others say nothing.

| line | what it says |
|---|---|
| `clear` | drops all parts |
| `part` | begins a part, whose text is said by the lines behind |
| `\\| TEXT`, `+ TEXT` | this text with a line feed, and without |
| `conflict` | asks for the conflict that is told |
| `symbols` | asks for all symbols in their order |
| `home NAME` | asks where the shared symbol of that name is defined |
| `own PART NAME` | asks where the part's own symbol of that name is defined |
| `bind PART NAME` | asks what the name means in the part |
| `places` | asks where each symbol stands |

A name is the rest of its line; in names and texts `\\\\` is a backslash and `\\xHH` any byte. The answer to a question is the
question behind `> `, and lines. Parts are told by number, from 0. Where parts are in conflict, the answer to every question is
that conflict.

| of | the answer |
|---|---|
| a conflict | `KIND: @NAME in PART and PART`, or `none` |
| symbols | for each a line `variable SYMBOL`, `function SYMBOL` or `alias SYMBOL`; a SYMBOL is `@NAME` or, of a part's own, `@NAME of part PART` |
| a home | `variable @NAME of part PART`, also `function` and `alias`; `none` where no part defines it; `no symbol` where there is none |
| what a name means | the definition as of a home, `appended @NAME`, `host @NAME`, `null`, `unresolved`, or `no entry` where the part has none of the name |
| places | behind each symbol and a colon: `address A, size S, alignment N` of a variable that is defined, `number N` of a function, `nowhere` of a variable that is not; of an alias the address or the number of what it means |
"""
import sys

sys.dont_write_bytecode = True
from stored import content

HEAD = "==== linked\n"

# Parts, each with what is asked of them: a question and the lines of its answer.
ROWS = []


def given(*parts):
    """Parts of which something is asked."""
    ROWS.append((parts, []))


def says(questions, *lines):
    """What is asked of the parts, and the answer: one that several questions have stands once behind them."""
    for question in questions.split("; "):
        ROWS[-1][1].append((question, lines))


def told(line, *parts):
    """Parts in conflict."""
    given(*parts)
    says("conflict", line)


# Conflicts.


def table():
    """One of each kind."""
    told("function and variable: @x in 0 and 1", "declare void @x()", "@x = global i32 1")
    told("two strong: @x in 0 and 1", "define void @x() { ret void }", "@x = global i32 1")
    told("appending and plain: @x in 0 and 1", "@x = appending global [1 x i32] [i32 1]", "@x = external global [1 x i32]")
    told("element shape: @x in 0 and 1", "@x = appending global [1 x i32] [i32 1]", "@x = appending global [1 x i64] [i64 1]")
    told("constness: @x in 0 and 1", "@x = appending constant [1 x i32] [i32 1]", "@x = appending global [1 x i32] [i32 1]")
    # The same with the parts the other way round.
    told("function and variable: @x in 0 and 1", "@x = global i32 1", "declare void @x()")
    told("two strong: @x in 0 and 1", "@x = global i32 1", "define void @x() { ret void }")
    told("appending and plain: @x in 0 and 1", "@x = external global [1 x i32]", "@x = appending global [1 x i32] [i32 1]")
    told("element shape: @x in 0 and 1", "@x = appending global [1 x i64] [i64 1]", "@x = appending global [1 x i32] [i32 1]")
    told("constness: @x in 0 and 1", "@x = appending global [1 x i32] [i32 1]", "@x = appending constant [1 x i32] [i32 1]")
    # Every question is answered with the conflict.
    told("two strong: @x in 0 and 1", "@x = global i32 1 @y = global i32 2", "@x = global i32 1")
    says("symbols; home y; own 0 y; bind 0 y; bind 1 nothing; places", "two strong: @x in 0 and 1")


def strong():
    """Two external definitions: variables, functions, aliases, whatever their types."""
    told("two strong: @x in 0 and 1", "@x = global i32 1", "@x = global i32 1")
    told("two strong: @x in 0 and 1", "@x = constant i8 1", "@x = global [2 x i64] zeroinitializer")
    told("two strong: @f in 0 and 1", "define i32 @f() { ret i32 1 }", "define void @f(i8 %x) { ret void }")
    told("two strong: @x in 0 and 1", "@x = global i32 1", "@y = global i32 2 @x = alias i32, ptr @y")
    told("two strong: @x in 0 and 1", "@y = internal global i32 2 @x = alias i32, ptr @y", "@x = global i32 1")
    told("two strong: @g in 0 and 1", "define i32 @f() { ret i32 2 } @g = alias i32 (), ptr @f", "define internal i32 @f() { ret i32 5 } @g = alias i32 (), ptr @f")
    # A target that another part defines before, or behind.
    told("two strong: @x in 0 and 1", "@x = global i32 1", "@x = global i32 2 @y = alias i32, ptr @x")
    told("two strong: @x in 0 and 1", "@x = global i32 2 @y = alias i32, ptr @x", "@x = global i32 1 @y = weak global i32 3")
    # An alias of the same thing is a definition all the same.
    told("two strong: @y in 0 and 1", "@x = internal global i32 1 @y = alias i32, ptr @x", "@x = internal global i32 1 @y = alias i32, ptr @x")
    # A name that is no identifier, and one that is the same in another spelling.
    told("two strong: @a b in 0 and 1", "@\"a b\" = global i32 1", "@\"a\\20b\" = global i32 1")
    told("two strong: @7 in 0 and 1", "@\"7\" = global i32 1", "@\"7\" = global i32 1")
    told("two strong: @\\xff in 0 and 1", "@\"\\FF\" = global i32 1 @\"\\FE\" = global i32 1", "@\"\\ff\" = global i32 1")
    # The first pair of definitions is not of the first entries.
    told("two strong: @x in 1 and 2", "@x = external global i32", "@x = global i32 1", "@x = global i32 2")
    told("two strong: @x in 1 and 3", "@x = weak global i32 0", "@x = global i32 1", "@x = common global i32 0", "@x = global i32 2")
    told("two strong: @x in 0 and 2", "@x = global i32 1", "@y = global i32 1", "@x = global i32 2", "@x = global i32 3 @y = global i32 1")
    told("two strong: @f in 0 and 2", "define void @f() { ret void }", "define available_externally void @f() { ret void }", "define void @f() { ret void }")
    # No two strong ones.
    for one, other in [("@x = global i32 1", "@x = available_externally global i32 1"), ("@x = global i32 1", "@x = external global i32"), ("@x = global i32 1", "@x = extern_weak global i32"),
                       ("@x = global i32 1", "@x = internal global i32 1"), ("@x = global i32 1", "@x = private global i32 1"), ("@x = internal global i32 1", "@x = internal global i32 1"),
                       ("@x = private global i32 1", "@x = internal global i32 1"), ("@x = weak global i32 1", "@x = weak global i32 1"), ("@x = global i32 1", "@X = global i32 1")]:
        given(one, other)
        says("conflict", "none")
        given(other, one)
        says("conflict", "none")


def kinds():
    """Functions and variables."""
    told("function and variable: @x in 0 and 1", "@x = external global i32", "declare i32 @x()")
    told("function and variable: @x in 0 and 1", "@x = extern_weak global i32", "declare extern_weak i32 @x()")
    told("function and variable: @x in 0 and 1", "@x = weak global i32 1", "define weak i32 @x() { ret i32 1 }")
    told("function and variable: @x in 0 and 1", "@x = available_externally global i32 1", "declare i32 @x()")
    told("function and variable: @x in 0 and 1", "declare i32 @x()", "@x = common global i32 0")
    told("function and variable: @putchar in 0 and 1", "@putchar = external global i32", "declare i32 @putchar(i32)")
    # An alias is what its target is.
    told("function and variable: @x in 0 and 1", "define internal i32 @f() { ret i32 1 } @x = alias i32 (), ptr @f", "@x = external global i32")
    told("function and variable: @x in 0 and 1", "declare i32 @x()", "@v = internal global i32 1 @x = alias i32, ptr @v")
    told("function and variable: @x in 0 and 1", "@x = weak global i32 1", "define internal i32 @f() { ret i32 1 } @x = alias i32 (), ptr @f")
    given("@x = external global i32", "@v = internal global i32 1 @x = alias i32, ptr @v")
    says("conflict", "none")
    given("declare i32 @x()", "define internal i32 @f() { ret i32 1 } @x = alias i32 (), ptr @f")
    says("conflict", "none")
    # The first pair that differs.
    told("function and variable: @x in 0 and 2", "@x = external global i32", "@x = global i32 1", "declare void @x()", "declare void @x()")
    told("function and variable: @x in 0 and 1", "declare void @x()", "@x = external global i32", "@x = external global i32")
    told("function and variable: @x in 0 and 3", "declare void @x()", "declare void @x()", "define void @x() { ret void }", "@x = external global i32")
    told("function and variable: @x in 1 and 2", "@y = global i32 1", "declare void @x()", "@x = external global i32")


def appended():
    """Appended arrays: what they meet, the shape of their elements, constants."""
    array = "@x = appending global [1 x i32] [i32 1]"
    for other in ["@x = global [1 x i32] [i32 1]", "@x = weak global [1 x i32] [i32 1]", "@x = common global [1 x i32] zeroinitializer", "@x = external global [1 x i32]", "@x = extern_weak global [1 x i32]",
                  "@x = available_externally global [1 x i32] [i32 1]", "@x = linkonce_odr constant [1 x i32] [i32 1]", "@v = internal global [1 x i32] [i32 1] @x = alias [1 x i32], ptr @v"]:
        told("appending and plain: @x in 0 and 1", array, other)
        told("appending and plain: @x in 0 and 1", other, array)
    for other in ["@x = internal global [1 x i32] [i32 1]", "@x = private global i64 1", "define internal void @x() { ret void }"]:
        given(array, other)
        says("conflict", "none")
    # Lengths and alignments may differ.
    given(array, "@x = appending global [3 x i32] [i32 2, i32 3, i32 4], align 16", "@x = appending global [0 x i32] zeroinitializer")
    says("conflict", "none")
    # An array of no elements has an element type all the same.
    told("element shape: @x in 0 and 1", array, "@x = appending global [0 x i64] zeroinitializer")
    told("element shape: @x in 0 and 1", "@x = appending global [1 x ptr] [ptr null]", "@x = appending global [1 x i64] [i64 0]")
    told("element shape: @x in 0 and 1", "@x = appending global [1 x { i32 }] [{ i32 } { i32 1 }]", array)
    told("element shape: @x in 0 and 1", "@x = appending global [1 x { i32 }] [{ i32 } { i32 1 }]", "@x = appending global [1 x <{ i32 }>] [<{ i32 }> <{ i32 1 }>]")
    told("element shape: @x in 0 and 1", "@x = appending global [1 x { i32, i8 }] [{ i32, i8 } zeroinitializer]", "@x = appending global [1 x { i32, i16 }] [{ i32, i16 } zeroinitializer]")
    told("element shape: @x in 0 and 1", "@x = appending global [1 x [2 x i8]] [[2 x i8] zeroinitializer]", "@x = appending global [1 x [3 x i8]] [[3 x i8] zeroinitializer]")
    told("element shape: @x in 0 and 1", "@x = appending global [1 x { i32 }] [{ i32 } { i32 1 }]", "@x = appending global [1 x { i32, i32 }] [{ i32, i32 } zeroinitializer]")
    given("@x = appending global [1 x { i32, [2 x ptr] }] [{ i32, [2 x ptr] } zeroinitializer]", "@x = appending global [2 x { i32, [2 x ptr] }] [{ i32, [2 x ptr] } zeroinitializer, { i32, [2 x ptr] } zeroinitializer]")
    says("conflict", "none")
    given("@x = appending constant [1 x i32] [i32 1]", "@x = appending constant [1 x i32] [i32 1]")
    says("conflict", "none")
    # The first pair that differs.
    told("appending and plain: @x in 0 and 2", array, array, "@x = external global [1 x i32]", "@x = external global [1 x i32]")
    told("appending and plain: @x in 0 and 2", "@x = external global [1 x i32]", "@x = external global [1 x i32]", array)
    told("element shape: @x in 0 and 2", array, array, "@x = appending global [1 x i64] [i64 1]", "@x = appending global [1 x i8] [i8 1]")
    told("element shape: @x in 0 and 1", array, "@x = appending global [1 x i64] [i64 1]", array, "@x = appending global [1 x i64] [i64 1]")
    told("constness: @x in 0 and 2", array, array, "@x = appending constant [1 x i32] [i32 1]", "@x = appending constant [1 x i32] [i32 1]")
    told("constness: @x in 1 and 3", "@y = global i32 1", "@x = appending constant [1 x i32] [i32 1]", "", array)


# For each kind of conflict its words, and what two parts have under a name. The first entry of each is a variable.
TWO = {1: ("two strong", "@# = global i32 1", "@# = global i32 2"),
       2: ("function and variable", "@# = external global i32", "declare void @#()"),
       3: ("appending and plain", "@# = appending global [1 x i32] [i32 1]", "@# = external global [1 x i32]"),
       4: ("element shape", "@# = appending global [1 x i32] [i32 1]", "@# = appending global [1 x i64] [i64 1]"),
       5: ("constness", "@# = appending constant [1 x i32] [i32 1]", "@# = appending global [1 x i32] [i32 1]")}


def two_symbols():
    """Two symbols in conflict: the first in the order of symbols is told, of whatever kind the conflicts are, and whatever the parts."""
    for words, one, other in TWO.values():
        for _, other_one, other_other in TWO.values():
            told(f"{words}: @x in 0 and 1", f"{one.replace('#', 'x')}\n{other_one.replace('#', 'a')}", f"{other_other.replace('#', 'a')}\n{other.replace('#', 'x')}")
            # The pair of the symbol that is told is not the least one.
            told(f"{words}: @x in 0 and 2", f"{one.replace('#', 'x')}\n{other_one.replace('#', 'a')}", other_other.replace("#", "a"), other.replace("#", "x"))
    # Variables stand before functions, and aliases behind both.
    told("two strong: @v in 0 and 1", "define void @f() { ret void } @v = global i32 1", "define void @f() { ret void } @v = global i32 1")
    told("two strong: @v in 1 and 2", "define void @f() { ret void }", "define void @f() { ret void } @v = global i32 1", "@v = global i32 1")
    told("two strong: @f in 0 and 2", "define internal i32 @t() { ret i32 2 } @a = alias i32 (), ptr @t define i32 @f() { ret i32 3 }", "define i32 @a() { ret i32 4 }", "define i32 @f() { ret i32 5 }")
    told("two strong: @f in 1 and 2", "@t = internal global i32 2 @a = alias i32, ptr @t", "@a = global i32 4 define i32 @f() { ret i32 5 }", "define i32 @f() { ret i32 6 }")
    # A name whose first strong definition is no alias stands where it was named first.
    told("two strong: @a in 1 and 2", "@a = external global i32 @b = global i32 1", "@a = global i32 1", "@t = internal global i32 2 @a = alias i32, ptr @t", "@b = global i32 2")
    # One whose first strong definition is an alias stands last.
    told("two strong: @b in 0 and 3", "@a = external global i32 @b = global i32 1", "@t = internal global i32 2 @a = alias i32, ptr @t", "@a = global i32 1", "@b = global i32 2")
    # A symbol that is a function in its first entry stands among the functions.
    told("two strong: @v in 1 and 2", "declare void @x()", "@x = external global i32 @v = global i32 1", "@v = global i32 2")
    told("function and variable: @x in 0 and 1", "declare void @x()", "@x = external global i32 define void @f() { ret void }", "define void @f() { ret void }")
    # And so does one that is defined as the other kind.
    told("two strong: @f in 0 and 1", "define void @f() { ret void } declare void @x()", "define void @f() { ret void } @x = global i32 1")
    told("function and variable: @x in 0 and 1", "@x = external global i32 @v = global i32 1", "define void @x() { ret void } @v = global i32 2")
    # Of an alias and an appending definition the first counts, and where that is the alias the name stands among the aliases.
    told("two strong: @f in 0 and 1", "@v = private global i32 1 @x = alias i32, ptr @v define void @f() { ret void }", "@x = appending global [1 x i32] [i32 1] define void @f() { ret void }")
    told("appending and plain: @x in 0 and 1", "@x = appending global [1 x i32] [i32 1] define void @f() { ret void }", "@v = private global i32 1 @x = alias i32, ptr @v define void @f() { ret void }")
    told("two strong: @z in 0 and 1", "@v = private global i32 1 @x = alias i32, ptr @v @z = global i32 1", "@x = appending global [1 x i32] [i32 1] @z = global i32 2")
    # Aliases stand in the order of first alias entry.
    told("two strong: @b in 0 and 1", "@t = internal global i32 1 @b = alias i32, ptr @t @a = alias i32, ptr @t", "@t = internal global i32 1 @a = alias i32, ptr @t @b = alias i32, ptr @t")
    told("two strong: @b in 0 and 2", "@a = external global i32 @t = internal global i32 1 @b = alias i32, ptr @t", "@t = internal global i32 1 @a = alias i32, ptr @t", "@a = global i32 1 @b = global i32 1")
    # Of a part the variables come first, in the order of its text.
    told("two strong: @b in 0 and 1", "define void @c() { ret void } @b = global i32 1 @a = global i32 1", "@a = global i32 1 @b = global i32 1 define void @c() { ret void }")


def two_kinds():
    """One symbol in two conflicts: the least kind is told, though another kind has a lesser pair, then the least pair."""
    declared, strong_one, function = "@x = external global [1 x i32]", "@x = global [1 x i32] [i32 1]", "declare void @x()"
    array, wide, sealed = "@x = appending global [1 x i32] [i32 1]", "@x = appending global [1 x i64] [i64 1]", "@x = appending constant [1 x i32] [i32 1]"
    # 1 and 2.
    told("two strong: @x in 0 and 1", "define void @x() { ret void }", strong_one)
    told("two strong: @x in 1 and 2", function, strong_one, strong_one)
    told("two strong: @x in 0 and 2", strong_one, function, strong_one)
    # 1 and 3.
    told("two strong: @x in 1 and 2", array, strong_one, strong_one)
    told("two strong: @x in 0 and 2", strong_one, array, strong_one)
    # 1 and 4.
    told("two strong: @x in 2 and 3", array, wide, strong_one, strong_one)
    told("two strong: @x in 0 and 3", strong_one, array, wide, strong_one)
    # 1 and 5.
    told("two strong: @x in 2 and 3", array, sealed, strong_one, strong_one)
    told("two strong: @x in 0 and 3", strong_one, sealed, array, strong_one)
    # 2 and 3.
    told("function and variable: @x in 0 and 1", array, function)
    told("function and variable: @x in 0 and 1", function, array)
    told("function and variable: @x in 0 and 2", array, declared, function)
    told("function and variable: @x in 0 and 2", declared, array, function)
    # 2 and 4.
    told("function and variable: @x in 0 and 2", array, wide, function)
    told("function and variable: @x in 0 and 1", function, array, wide)
    # 2 and 5.
    told("function and variable: @x in 0 and 2", array, sealed, function)
    told("function and variable: @x in 0 and 3", sealed, sealed, array, function)
    # 3 and 4.
    told("appending and plain: @x in 0 and 2", array, wide, declared)
    told("appending and plain: @x in 0 and 1", declared, array, wide)
    # 3 and 5.
    told("appending and plain: @x in 0 and 2", array, sealed, declared)
    told("appending and plain: @x in 0 and 1", declared, sealed, array)
    # 4 and 5.
    told("element shape: @x in 0 and 1", sealed, wide)
    told("element shape: @x in 0 and 2", array, sealed, wide)
    told("element shape: @x in 0 and 3", sealed, array, array, "@x = appending constant [1 x i8] [i8 1]")
    # All five.
    told("two strong: @x in 4 and 5", array, wide, sealed, function, strong_one, strong_one)


# The pairs of linkages.

# What a part has under the name `x`, as a variable and as a function.
VARIABLES = {"external": "@x = global i32 1", "common": "@x = common global i32 0", "weak": "@x = weak global i32 1", "weak_odr": "@x = weak_odr global i32 1", "linkonce": "@x = linkonce global i32 1",
             "linkonce_odr": "@x = linkonce_odr global i32 1", "available_externally": "@x = available_externally global i32 1", "appending": "@x = appending global [1 x i32] [i32 1]", "private": "@x = private global i32 1",
             "internal": "@x = internal global i32 1", "declared": "@x = external global i32", "extern_weak": "@x = extern_weak global i32", "alias": "@t = private global i32 1 @x = alias i32, ptr @t"}
FUNCTIONS = {"external": "define i32 @x() { ret i32 1 }", "weak": "define weak i32 @x() { ret i32 1 }", "weak_odr": "define weak_odr i32 @x() { ret i32 1 }", "linkonce": "define linkonce i32 @x() { ret i32 1 }",
             "linkonce_odr": "define linkonce_odr i32 @x() { ret i32 1 }", "available_externally": "define available_externally i32 @x() { ret i32 1 }", "private": "define private i32 @x() { ret i32 1 }",
             "internal": "define internal i32 @x() { ret i32 1 }", "declared": "declare i32 @x()", "extern_weak": "declare extern_weak i32 @x()", "alias": "define private i32 @t() { ret i32 1 } @x = alias i32 (), ptr @t"}
# Which of two parts defines the shared symbol: `0` the first, `1` the second; `u` neither, and `n` neither and null; `+` both append;
# `.` there is none, since each has its own; `s` and `p` are conflicts, two strong, and appending and plain. The columns of each
# table are the linkages of the second part, in the order of its lines.
OF_VARIABLES = """
external              s 0 0 0 0 0 0 p 0 0 0 0 s
common                1 0 0 0 0 0 0 p 0 0 0 0 1
weak                  1 1 0 0 0 0 0 p 0 0 0 0 1
weak_odr              1 1 0 0 0 0 0 p 0 0 0 0 1
linkonce              1 1 1 1 0 0 0 p 0 0 0 0 1
linkonce_odr          1 1 1 1 0 0 0 p 0 0 0 0 1
available_externally  1 1 1 1 1 1 u p u u u u 1
appending             p p p p p p p + 0 0 p p p
private               1 1 1 1 1 1 u 1 . . u n 1
internal              1 1 1 1 1 1 u 1 . . u n 1
declared              1 1 1 1 1 1 u p u u u u 1
extern_weak           1 1 1 1 1 1 u p n n u n 1
alias                 s 0 0 0 0 0 0 p 0 0 0 0 s
"""
OF_FUNCTIONS = """
external              s 0 0 0 0 0 0 0 0 0 s
weak                  1 0 0 0 0 0 0 0 0 0 1
weak_odr              1 0 0 0 0 0 0 0 0 0 1
linkonce              1 1 1 0 0 0 0 0 0 0 1
linkonce_odr          1 1 1 0 0 0 0 0 0 0 1
available_externally  1 1 1 1 1 u u u u u 1
private               1 1 1 1 1 u . . u n 1
internal              1 1 1 1 1 u . . u n 1
declared              1 1 1 1 1 u u u u u 1
extern_weak           1 1 1 1 1 u n n u n 1
alias                 s 0 0 0 0 0 0 0 0 0 s
"""


def pair(kind, texts, one, other, which):
    """Two parts that have these linkages of one name."""
    linkages = (one, other)
    given(texts[one], texts[other])
    if which in "sp":
        says("conflict", {"s": "two strong", "p": "appending and plain"}[which] + ": @x in 0 and 1")
        return
    says("conflict", "none")
    if which in "01+":
        winner = int(which) if which in "01" else 0
        says("home x", f"{'alias' if linkages[winner] == 'alias' else kind} @x of part {winner}")
        defined = f"{kind} @{'t' if linkages[winner] == 'alias' else 'x'} of part {winner}"
        shared = "appended @x" if linkages[winner] == "appending" else defined
    else:
        says("home x", {".": "no symbol", "u": "none", "n": "none"}[which])
        shared = {".": None, "u": "unresolved", "n": "null"}[which]
    for part, linkage in enumerate(linkages):
        is_own = linkage in ("private", "internal")
        says(f"own {part} x", f"{kind} @x of part {part}" if is_own else "no symbol")
        says(f"bind {part} x", f"{kind} @x of part {part}" if is_own else shared)


def pairs():
    """Every pair of linkages of one name, both orders."""
    for kind, texts, whole in [("variable", VARIABLES, OF_VARIABLES), ("function", FUNCTIONS, OF_FUNCTIONS)]:
        lines = [line.split() for line in whole.split("\n") if line]
        for one, *marks in lines:
            for (other, *_), mark in zip(lines, marks, strict=True):
                pair(kind, texts, one, other, mark)


def three():
    """Three parts and more: the greatest rank, then the first."""
    strong_one, declared, seen = "define i32 @f() { ret i32 1 }", "declare i32 @f()", "define available_externally i32 @f() { ret i32 1 }"
    weak, once = "define weak i32 @f() { ret i32 1 }", "define linkonce_odr i32 @f() { ret i32 1 }"
    for parts, winner in [((weak, once, strong_one), 2), ((strong_one, weak, once), 0), ((once, strong_one, weak), 1), ((once, weak, weak), 1), ((once, once, weak), 2), ((weak, once, weak), 0), ((once, once, once), 0),
                          ((declared, once, weak), 2), ((declared, declared, once), 2), ((seen, declared, weak), 2), ((seen, once, declared), 1), ((declared, weak, strong_one, weak), 2), ((once, declared, weak, once, weak), 2)]:
        given(*parts)
        says("symbols", "function @f")
        says("home f", f"function @f of part {winner}")
        says("; ".join(f"bind {part} f" for part in range(len(parts))), f"function @f of part {winner}")
        says("places", "function @f: number 0")
    # Some parts keep theirs to themselves.
    given("define internal i32 @f() { ret i32 1 }", "define weak i32 @f() { ret i32 2 }", "define private i32 @f() { ret i32 3 }", "define linkonce i32 @f() { ret i32 4 }", "declare i32 @f()")
    says("symbols", "function @f of part 0", "function @f", "function @f of part 2")
    says("home f", "function @f of part 1")
    says("own 0 f; bind 0 f", "function @f of part 0")
    says("own 2 f; bind 2 f", "function @f of part 2")
    says("own 1 f; own 3 f; own 4 f; own 5 f", "no symbol")
    says("bind 1 f; bind 3 f; bind 4 f", "function @f of part 1")
    says("places", "function @f of part 0: number 0", "function @f: number 1", "function @f of part 2: number 2")
    # Only own ones: no part sees that of another.
    given("define internal i32 @f() { ret i32 1 }", "declare i32 @f()", "define private i32 @f() { ret i32 3 }")
    says("symbols", "function @f of part 0", "function @f", "function @f of part 2")
    says("home f", "none")
    says("bind 1 f", "unresolved")
    says("bind 2 f", "function @f of part 2")


# Symbols.


def orders():
    """The order of symbols."""
    given()
    says("conflict", "none")
    says("symbols")
    says("places")
    says("home x", "no symbol")
    says("bind 0 x", "no entry")
    given("")
    says("symbols")
    given("", "", "")
    says("symbols")
    says("bind 2 x; bind 3 x", "no entry")
    given("@b = external global ptr @a = global ptr @b define i32 @main() { ret i32 0 }", "@a = external global ptr @b = global ptr @a")
    says("symbols", "variable @b", "variable @a", "function @main")
    says("home b", "variable @b of part 1")
    says("home a", "variable @a of part 0")
    says("bind 0 b; bind 1 b", "variable @b of part 1")
    says("bind 0 a; bind 1 a", "variable @a of part 0")
    says("bind 1 main", "no entry")
    says("places", "variable @b: address 65536, size 8, alignment 8", "variable @a: address 65560, size 8, alignment 8", "function @main: number 0")
    given("define internal i32 @f() { ret i32 1 } define i32 @main() { %1 = call i32 @f() %2 = call i32 @g() %3 = add i32 %1, %2 ret i32 %3 } declare i32 @g()",
          "define internal i32 @f() { ret i32 2 } define i32 @g() { %1 = call i32 @f() ret i32 %1 } define i32 @f.1() { ret i32 40 }")
    says("symbols", "function @f of part 0", "function @main", "function @g", "function @f of part 1", "function @f.1")
    says("home g", "function @g of part 1")
    says("home f", "no symbol")
    says("own 1 f; bind 1 f", "function @f of part 1")
    says("own 0 f; bind 0 f", "function @f of part 0")
    says("bind 0 f.1", "no entry")
    says("bind 1 f.1", "function @f.1 of part 1")
    # Variables of all parts stand before functions of any, and each where it was named first.
    given("declare void @f() @v = global i32 1", "@w = global i32 2 @v = external global i32 define void @g() { ret void } define void @f() { ret void }", "@u = global i32 3 @w = external global i32 declare void @g()")
    says("symbols", "variable @v", "variable @w", "variable @u", "function @f", "function @g")
    says("places", "variable @v: address 65536, size 4, alignment 4", "variable @w: address 65556, size 4, alignment 4", "variable @u: address 65576, size 4, alignment 4", "function @f: number 0", "function @g: number 1")
    # In a part the order of the text counts within each kind.
    given("define void @b() { ret void } @y = global i8 1 declare void @a() @x = global i8 2")
    says("symbols", "variable @y", "variable @x", "function @b", "function @a")
    # The same name in each part, and names of one part only.
    given("@x = weak global i8 1 @a = global i8 1", "@b = global i8 1 @x = weak global i8 1", "@c = global i8 1 @x = weak global i8 1")
    says("symbols", "variable @x", "variable @a", "variable @b", "variable @c")
    # A declaration alone is a symbol.
    given("@x = external global i32 declare void @f()")
    says("symbols", "variable @x", "function @f")
    says("home x; home f", "none")
    says("bind 0 x; bind 0 f", "unresolved")
    says("places", "variable @x: nowhere", "function @f: number 0")
    # Names that are no identifiers; names that differ in one byte, in case, in length.
    given("@\"a b\" = global i8 1 @\"7\" = global i8 2 @a = global i8 3", "@aa = global i8 4 @A = global i8 5 @\"a b\" = external global i8")
    says("symbols", "variable @a b", "variable @7", "variable @a", "variable @aa", "variable @A")
    says("bind 1 a b", "variable @a b of part 0")
    says("bind 0 7", "variable @7 of part 0")
    says("bind 0 aa; bind 1 a; bind 0 A; bind 1 7", "no entry")
    given("@\"\\FF\" = global i8 1", "@\"\\FE\" = global i8 2 @\"\\ff\" = external global i8")
    says("symbols", "variable @\\xff", "variable @\\xfe")
    says("bind 1 \\xff", "variable @\\xff of part 0")
    given("@\"a\\5Cb\" = global i8 1", "@\"a\\\\b\" = external global i8")
    says("symbols", "variable @a\\\\b")
    says("bind 1 a\\\\b", "variable @a\\\\b of part 0")
    # A part twice.
    given("@x = weak global i8 1 @y = internal global i8 2", "@x = weak global i8 1 @y = internal global i8 2")
    says("symbols", "variable @x", "variable @y of part 0", "variable @y of part 1")
    says("home x", "variable @x of part 0")
    says("bind 1 y", "variable @y of part 1")
    # Structs have names of their own.
    given("%x = type { i32 } @x = global %x zeroinitializer", "%x = type { i64 } @y = global %x zeroinitializer @x = external global %x")
    says("symbols", "variable @x", "variable @y")
    says("places", "variable @x: address 65536, size 4, alignment 4", "variable @y: address 65560, size 8, alignment 8")


def declarations():
    """Declarations before definitions and behind them."""
    for first, other in [("declare i32 @f()", "define i32 @f() { ret i32 1 }"), ("declare i32 @f()", "define weak i32 @f() { ret i32 1 }"), ("declare extern_weak i32 @f()", "define linkonce i32 @f() { ret i32 1 }"),
                         # The types need not be alike.
                         ("declare void @f(i64, ptr)", "define i32 @f() { ret i32 1 }"), ("declare i32 @f(ptr, ...)", "define i32 @f(ptr %0) { ret i32 1 }")]:
        for parts in [(first, other), (other, first)]:
            given(*parts)
            says("symbols", "function @f")
            says("home f; bind 0 f; bind 1 f", f"function @f of part {parts.index(other)}")
            says("places", "function @f: number 0")
    for first, other in [("@x = external global i32", "@x = global i32 1"), ("@x = external constant i32", "@x = weak global i32 1"), ("@x = extern_weak global i32", "@x = linkonce_odr constant i32 1"),
                         # The place is that of the definition: its type and its alignment.
                         ("@x = external global i64, align 64", "@x = global i32 1"), ("@x = external global [0 x i8]", "@x = common global i32 0")]:
        for parts in [(first, other), (other, first)]:
            given(*parts)
            says("symbols", "variable @x")
            says("home x; bind 0 x; bind 1 x", f"variable @x of part {parts.index(other)}")
            says("places", "variable @x: address 65536, size 4, alignment 4")
    # Its place in the order is that of the declaration.
    given("@b = external global i32 @a = global i32 1", "@c = global i32 1 @b = global i32 2")
    says("symbols", "variable @b", "variable @a", "variable @c")
    says("places", "variable @b: address 65536, size 4, alignment 4", "variable @a: address 65556, size 4, alignment 4", "variable @c: address 65576, size 4, alignment 4")
    given("declare void @b() define void @a() { ret void }", "define void @c() { ret void } define void @b() { ret void }")
    says("symbols", "function @b", "function @a", "function @c")
    says("places", "function @b: number 0", "function @a: number 1", "function @c: number 2")
    # Two declarations, and a part that has none.
    given("declare i32 @f()", "@y = global i32 1", "declare i32 @f()", "define i32 @f() { ret i32 1 }")
    says("bind 0 f; bind 2 f; bind 3 f; home f", "function @f of part 3")
    says("bind 1 f", "no entry")


def own_names():
    """A name that is a variable in one part and a function in another, of which one is the part's own."""
    for linkage in ("internal", "private"):
        given(f"@x = {linkage} global i32 1", "define i32 @x() { ret i32 2 }")
        says("conflict", "none")
        says("symbols", "variable @x of part 0", "function @x")
        says("home x; bind 1 x", "function @x of part 1")
        says("own 0 x; bind 0 x", "variable @x of part 0")
        says("places", "variable @x of part 0: address 65536, size 4, alignment 4", "function @x: number 0")
        given("declare i32 @x()", f"@x = {linkage} global i32 1")
        says("symbols", "variable @x of part 1", "function @x")
        says("home x", "none")
        says("bind 0 x", "unresolved")
        says("bind 1 x", "variable @x of part 1")
        given(f"define {linkage} i32 @x() {{ ret i32 2 }}", "@x = global i32 1")
        says("symbols", "variable @x", "function @x of part 0")
        says("bind 0 x", "function @x of part 0")
        says("bind 1 x", "variable @x of part 1")
        given("@x = external global i32", f"define {linkage} i32 @x() {{ ret i32 2 }}", "@x = weak global i32 1")
        says("symbols", "variable @x", "function @x of part 1")
        says("bind 0 x; bind 2 x; home x", "variable @x of part 2")
        says("bind 1 x; own 1 x", "function @x of part 1")
        # Both are own ones, of unlike kinds.
        given(f"define {linkage} i32 @x() {{ ret i32 2 }}", "@x = internal global i32 1")
        says("conflict", "none")
        says("symbols", "variable @x of part 1", "function @x of part 0")
        says("home x", "no symbol")
        # The others are in conflict all the same.
        told("two strong: @x in 0 and 2", "@x = global i32 1", f"@x = {linkage} global i32 1", "@x = global i32 1")
        told("function and variable: @x in 0 and 2", "declare void @x()", f"@x = {linkage} global i32 1", "@x = external global i32")
        # extern_weak everywhere but in the part that has its own.
        given("@x = extern_weak global i32", f"@x = {linkage} global i32 1")
        says("bind 0 x", "null")
        says("bind 1 x", "variable @x of part 1")
    # Own names of one part; the number of the part tells them apart.
    given("", "@x = internal global i8 1", "", "@x = internal global i8 1 @y = private global i8 1")
    says("symbols", "variable @x of part 1", "variable @x of part 3", "variable @y of part 3")
    says("own 0 x; own 2 x; own 1 y", "no symbol")
    says("bind 0 x; bind 2 x; bind 1 y", "no entry")
    says("own 3 y; bind 3 y", "variable @y of part 3")
    # A variable of one part's own that names another: the name in its part.
    given("@v = internal global i32 1 define i32 @main() { ret i32 0 }", "@v = internal global i32 2 @p = global ptr @v")
    says("symbols", "variable @v of part 0", "variable @v of part 1", "variable @p", "function @main")
    says("bind 1 v", "variable @v of part 1")
    says("bind 0 p", "no entry")


# Commons.


def commons():
    """The largest wins, and of equals the first; the greatest alignment of all counts."""
    one, four, eight = ("@c = common global i8 0", "@c = common global i32 0", "@c = common global i64 0")
    # Two sizes, which part wins, the size, the alignment.
    for parts, winner, size, alignment in [((one, one), 0, 1, 1), ((one, four), 1, 4, 4), ((four, one), 0, 4, 4), ((one, eight), 1, 8, 8), ((eight, one), 0, 8, 8), ((four, four), 0, 4, 4), ((four, eight), 1, 8, 8), ((eight, four), 0, 8, 8),
                                           ((eight, eight), 0, 8, 8), ((one, four, eight), 2, 8, 8), ((eight, four, one), 0, 8, 8), ((four, eight, one), 1, 8, 8), ((one, eight, eight), 1, 8, 8), ((four, one, four), 0, 4, 4),
                                           ((one, four, four, one), 1, 4, 4)]:
        given(*parts)
        says("symbols", "variable @c")
        says("home c; " + "; ".join(f"bind {part} c" for part in range(len(parts))), f"variable @c of part {winner}")
        says("places", f"variable @c: address 65536, size {size}, alignment {alignment}")
    # Alignments that are stated, of a winner and of those that lose. They count in place of that of the type, though it be greater.
    for parts, winner, size, alignment in [((four + ", align 16", eight + ", align 8"), 1, 8, 16), ((eight + ", align 8", four + ", align 16"), 0, 8, 16), ((one + ", align 32", four), 1, 4, 32), ((four, one + ", align 2"), 0, 4, 4),
                                           ((eight + ", align 1", one), 0, 8, 1), ((eight + ", align 1", four), 0, 8, 4), ((eight + ", align 1", four + ", align 2"), 0, 8, 2), ((four + ", align 2", four + ", align 8"), 0, 4, 8),
                                           ((one + ", align 4", one + ", align 2", one + ", align 8"), 0, 1, 8), ((four + ", align 1",), 0, 4, 1), ((four,), 0, 4, 4), ((one + ", align 65536", eight), 1, 8, 65536)]:
        given(*parts)
        says("home c", f"variable @c of part {winner}")
        says("places", f"variable @c: address 65536, size {size}, alignment {alignment}")
    # Sizes, not names or kinds of types.
    for parts, winner, size, alignment in [(("@c = common global i32 0", "@c = common global [4 x i8] zeroinitializer"), 0, 4, 4), (("@c = common global [4 x i8] zeroinitializer", "@c = common global i32 0"), 0, 4, 4),
                                           (("@c = common global [5 x i8] zeroinitializer", "@c = common global i32 0"), 0, 5, 4), (("@c = common global { i8, i32 } zeroinitializer", "@c = common global i64 0"), 0, 8, 8),
                                           (("@c = common global i1 0", "@c = common global <{ i8, i32 }> zeroinitializer"), 1, 5, 1), (("@c = common global i24 0", "@c = common global [3 x i8] zeroinitializer"), 0, 4, 4),
                                           (("@c = common global ptr null", "@c = common global i128 0"), 1, 16, 16), (("@c = common global {} zeroinitializer", "@c = common global i8 0"), 1, 1, 1),
                                           (("%T = type { i16, i64 } @c = common global %T zeroinitializer", "%T = type { i8 } @c = common global %T zeroinitializer"), 0, 16, 8),
                                           (("%T = type { i8 } @c = common global %T zeroinitializer", "%T = type { i16, i64 } @c = common global %T zeroinitializer"), 1, 16, 8)]:
        given(*parts)
        says("home c", f"variable @c of part {winner}")
        says("places", f"variable @c: address 65536, size {size}, alignment {alignment}")
    # Another winner, and other entries: their alignments, or those of commons that lose to it, play no part.
    given("@c = common global i64 0, align 32", "@c = global i8 1")
    says("home c", "variable @c of part 1")
    says("places", "variable @c: address 65536, size 1, alignment 1")
    given("@c = weak global i64 0, align 32", "@c = common global i8 0")
    says("home c", "variable @c of part 1")
    says("places", "variable @c: address 65536, size 1, alignment 1")
    given("@c = common global i8 0, align 2", "@c = external global i64, align 64", "@c = available_externally global i64 0, align 128", "@c = common global i8 0")
    says("home c; bind 1 c; bind 2 c; bind 3 c", "variable @c of part 0")
    says("places", "variable @c: address 65536, size 1, alignment 2")
    given("@c = common global i8 0", "@c = internal global i64 0, align 64", "@c = common global i8 0")
    says("places", "variable @c: address 65536, size 1, alignment 1", "variable @c of part 1: address 65600, size 8, alignment 64")
    given("@a = global i8 0 @c = common global i32 0, align 16 define i32 @main() { ret i32 0 }", "@c = common global i64 0, align 8")
    says("places", "variable @a: address 65536, size 1, alignment 1", "variable @c: address 65568, size 8, alignment 16", "function @main: number 0")
    # Of weak ones the first wins, though a later one is larger.
    given("@c = weak global i8 0", "@c = weak_odr global i64 0")
    says("home c", "variable @c of part 0")
    says("places", "variable @c: address 65536, size 1, alignment 1")


# Definitions that count as declarations.


def seen_elsewhere():
    """available_externally beside external, weak, alone, and what counts as a declaration of it."""
    seen, function = "@x = available_externally global i32 1", "define available_externally i32 @f() { ret i32 1 }"
    given(seen)
    says("symbols", "variable @x")
    says("home x", "none")
    says("bind 0 x", "unresolved")
    says("places", "variable @x: nowhere")
    given(function)
    says("home f", "none")
    says("bind 0 f", "unresolved")
    says("places", "function @f: number 0")
    for other in ["@x = global i32 2", "@x = weak global i32 2", "@x = linkonce global i32 2", "@x = common global i32 0"]:
        for parts in [(seen, other), (other, seen), (seen, seen, other), (seen, other, seen)]:
            given(*parts)
            says("conflict", "none")
            says("home x; bind 0 x; bind 1 x", f"variable @x of part {parts.index(other)}")
            says("places", "variable @x: address 65536, size 4, alignment 4")
    for other in ["define i32 @f() { ret i32 2 }", "define weak i32 @f() { ret i32 2 }", "define linkonce_odr i32 @f() { ret i32 2 }"]:
        for parts in [(function, other), (other, function)]:
            given(*parts)
            says("home f; bind 0 f; bind 1 f", f"function @f of part {parts.index(other)}")
    # Its alignment and its type play no part.
    given("@x = available_externally global i64 1, align 64", "@x = global i8 2")
    says("places", "variable @x: address 65536, size 1, alignment 1")
    given(seen, "@x = extern_weak global i32")
    says("bind 0 x; bind 1 x", "unresolved")
    given(seen, "@x = external global i32", seen)
    says("home x", "none")
    says("bind 2 x", "unresolved")
    # A host function is reached in its place.
    given("define available_externally i32 @putchar(i32 %0) { ret i32 7 }")
    says("home putchar", "none")
    says("bind 0 putchar", "host @putchar")


def null():
    """extern_weak alone, with a declaration, with a definition."""
    variable, function = "@x = extern_weak global i32", "declare extern_weak i32 @f()"
    given(variable)
    says("symbols", "variable @x")
    says("home x", "none")
    says("bind 0 x", "null")
    says("places", "variable @x: nowhere")
    given(function)
    says("symbols", "function @f")
    says("home f", "none")
    says("bind 0 f", "null")
    says("places", "function @f: number 0")
    given(variable, variable, variable)
    says("bind 0 x; bind 1 x; bind 2 x", "null")
    given(function, function)
    says("bind 0 f; bind 1 f", "null")
    for parts in [(variable, "@x = external global i32"), ("@x = external global i32", variable), (variable, variable, "@x = external global i32"), (variable, "@x = external constant i64", variable)]:
        given(*parts)
        says("home x", "none")
        says("bind 0 x; bind 1 x", "unresolved")
        says("places", "variable @x: nowhere")
    for parts in [(function, "declare i32 @f()"), ("declare void @f(i8)", function)]:
        given(*parts)
        says("bind 0 f; bind 1 f", "unresolved")
    for other in ["@x = global i32 8", "@x = weak global i32 8", "@x = linkonce global i32 8", "@x = common global i32 0"]:
        for parts in [(variable, other), (other, variable), (variable, variable, other)]:
            given(*parts)
            says("home x; bind 0 x; bind 1 x", f"variable @x of part {parts.index(other)}")
    for parts in [(function, "define i32 @f() { ret i32 1 }"), ("define linkonce_odr i32 @f() { ret i32 1 }", function)]:
        given(*parts)
        says("home f; bind 0 f; bind 1 f", f"function @f of part {0 if parts[1] == function else 1}")
    # An alias defines it.
    given(variable, "@v = private global i32 1 @x = alias i32, ptr @v")
    says("bind 0 x; bind 1 x", "variable @v of part 1")
    # Some names are null and others are not.
    given("@x = extern_weak global i32 @y = extern_weak global i32 @z = extern_weak global i32", "@y = external global i32 @z = global i32 1")
    says("bind 0 x", "null")
    says("bind 1 x", "no entry")
    says("bind 0 y; bind 1 y", "unresolved")
    says("bind 0 z; bind 1 z", "variable @z of part 1")
    says("places", "variable @x: nowhere", "variable @y: nowhere", "variable @z: address 65536, size 4, alignment 4")


def hosts():
    """Names of host functions: declared, defined, declared as variables."""
    for name, declared in [("putchar", "declare i32 @putchar(i32)"), ("puts", "declare i32 @puts(ptr)"), ("getchar", "declare i32 @getchar()"), ("exit", "declare void @exit(i32)"), ("abort", "declare void @abort()"),
                           ("malloc", "declare ptr @malloc(i64)"), ("free", "declare void @free(ptr)"), ("memcpy", "declare ptr @memcpy(ptr, ptr, i64)"), ("memmove", "declare ptr @memmove(ptr, ptr, i64)"),
                           ("memset", "declare ptr @memset(ptr, i32, i64)"), ("strlen", "declare i64 @strlen(ptr)"), ("llvm.memcpy.p0.p0.i64", "declare void @llvm.memcpy.p0.p0.i64(ptr, ptr, i64, i1)"),
                           ("llvm.memset.p0.i32", "declare void @llvm.memset.p0.i32(ptr, i8, i32, i1)"), ("llvm.lifetime.start.p0", "declare void @llvm.lifetime.start.p0(i64, ptr)"),
                           ("printf", "declare i32 @printf(ptr, ...)"), ("llvm.ctpop.i8", "declare i8 @llvm.ctpop.i8(i8)"),
                           # The declared type plays no part.
                           ("putchar", "declare void @putchar(ptr, i8)"), ("malloc", "declare i32 @malloc(...)")]:
        given(declared)
        says("symbols", f"function @{name}")
        says(f"home {name}", "none")
        says(f"bind 0 {name}", f"host @{name}")
        says("places", f"function @{name}: number 0")
    # What is defined is no host's.
    for linkage in ["", "weak ", "linkonce_odr "]:
        for parts in [("declare i32 @putchar(i32)", f"define {linkage}i32 @putchar(i32 %0) {{ ret i32 1 }}"), (f"define {linkage}i32 @putchar(i32 %0) {{ ret i32 1 }}", "declare i32 @putchar(i32)")]:
            given(*parts)
            says("home putchar; bind 0 putchar; bind 1 putchar", f"function @putchar of part {1 if parts[0].startswith('declare') else 0}")
    given("declare i32 @putchar(i32)", "define internal i32 @putchar(i32 %0) { ret i32 1 }")
    says("symbols", "function @putchar", "function @putchar of part 1")
    says("bind 0 putchar", "host @putchar")
    says("bind 1 putchar; own 1 putchar", "function @putchar of part 1")
    given("declare i32 @puts(ptr)", "define internal i32 @f(ptr %0) { ret i32 1 } @puts = alias i32 (ptr), ptr @f")
    says("bind 0 puts; bind 1 puts", "function @f of part 1")
    # A host function is not null, and no declaration is needed beside it.
    given("declare extern_weak i32 @putchar(i32)")
    says("bind 0 putchar", "host @putchar")
    given("declare extern_weak i32 @putchar(i32)", "declare i32 @putchar(i32)")
    says("bind 0 putchar; bind 1 putchar", "host @putchar")
    # A variable of that name is no host's.
    given("@putchar = external global i32")
    says("symbols", "variable @putchar")
    says("bind 0 putchar", "unresolved")
    says("places", "variable @putchar: nowhere")
    given("@malloc = extern_weak global ptr")
    says("bind 0 malloc", "null")
    given("@strlen = global i64 1", "@strlen = external global i64")
    says("bind 0 strlen; bind 1 strlen", "variable @strlen of part 0")
    given("@puts = internal global i8 1", "declare i32 @puts(ptr)")
    says("bind 0 puts", "variable @puts of part 0")
    says("bind 1 puts", "host @puts")
    # Names that are like those of the host.
    given("declare i32 @Putchar(i32) declare i32 @putchar.1(i32) declare i32 @put(i32) declare i32 @putcharx(i32) declare i32 @fputc(i32)")
    says("bind 0 Putchar; bind 0 putchar.1; bind 0 put; bind 0 putcharx; bind 0 fputc", "unresolved")
    # A part that does not name it has no entry of it.
    given("declare i32 @putchar(i32)", "")
    says("bind 1 putchar; bind 0 puts", "no entry")


# Aliases.


def aliases():
    """What aliases are bound to, and where they stand."""
    given("@x = global i32 5 @y = alias i32, ptr @x define i32 @main() { ret i32 0 }")
    says("symbols", "variable @x", "function @main", "alias @y")
    says("home y", "alias @y of part 0")
    says("bind 0 y; bind 0 x", "variable @x of part 0")
    says("places", "variable @x: address 65536, size 4, alignment 4", "function @main: number 0", "alias @y: address 65536")
    given("define weak i32 @g() { ret i32 1 } define i32 @main() { %1 = call i32 @g() ret i32 %1 }", "define i32 @f() { ret i32 2 } @g = alias i32 (), ptr @f")
    says("symbols", "function @main", "function @f", "alias @g")
    says("home g", "alias @g of part 1")
    says("bind 0 g; bind 1 g; bind 1 f", "function @f of part 1")
    says("bind 0 f", "no entry")
    says("places", "function @main: number 0", "function @f: number 1", "alias @g: number 1")
    # The other way round.
    given("define i32 @f() { ret i32 2 } @g = alias i32 (), ptr @f", "define weak i32 @g() { ret i32 1 } define i32 @main() { ret i32 0 }")
    says("symbols", "function @f", "function @main", "alias @g")
    says("bind 1 g", "function @f of part 0")
    says("places", "function @f: number 0", "function @main: number 1", "alias @g: number 0")
    # A declared name that an alias defines is an alias symbol, and stands in the order of aliases.
    given("@b = external global i32 @a = external global i32 @c = global i32 1", "@t = internal global i32 2 @a = alias i32, ptr @t @b = alias i32, ptr @t")
    says("symbols", "variable @c", "variable @t of part 1", "alias @a", "alias @b")
    says("bind 0 a; bind 0 b; bind 1 a; bind 1 b", "variable @t of part 1")
    says("places", "variable @c: address 65536, size 4, alignment 4", "variable @t of part 1: address 65556, size 4, alignment 4", "alias @a: address 65556", "alias @b: address 65556")
    # What is behind is looked up in the part of the alias, never by its name in another part.
    given("@y = external global i32 @x = internal global i32 1", "@x = internal global i32 2 @y = alias i32, ptr @x", "@x = global i32 3 @y = external global i32")
    says("symbols", "variable @x of part 0", "variable @x of part 1", "variable @x", "alias @y")
    says("bind 0 y; bind 1 y; bind 2 y; bind 1 x", "variable @x of part 1")
    says("bind 0 x", "variable @x of part 0")
    says("bind 2 x", "variable @x of part 2")
    given("declare i32 @g() define i32 @f() { ret i32 1 }", "define private i32 @f() { ret i32 2 } @g = alias i32 (), ptr @f")
    says("bind 0 g; bind 1 g; own 1 f", "function @f of part 1")
    says("bind 0 f; home f", "function @f of part 0")
    says("symbols", "function @f", "function @f of part 1", "alias @g")
    says("places", "function @f: number 0", "function @f of part 1: number 1", "alias @g: number 1")
    # The target is an external definition that wins over those of other parts.
    given("@x = weak global i8 1 @y = external global i32", "@x = global i32 2 @y = alias i32, ptr @x", "@x = common global i64 0")
    says("bind 0 x; bind 1 x; bind 2 x; bind 0 y; bind 1 y", "variable @x of part 1")
    says("symbols", "variable @x", "alias @y")
    says("places", "variable @x: address 65536, size 4, alignment 4", "alias @y: address 65536")
    given("define available_externally i32 @f() { ret i32 1 } declare i32 @g()", "define i32 @f() { ret i32 2 } @g = alias i32 (), ptr @f")
    says("bind 0 f; bind 0 g", "function @f of part 1")
    # Own aliases: they are alias symbols wherever they stand, and no other part sees them.
    given("@x = global i32 1 @y = internal alias i32, ptr @x", "@y = global i32 2 @z = global i32 3")
    says("symbols", "variable @x", "variable @y", "variable @z", "alias @y of part 0")
    says("own 0 y", "alias @y of part 0")
    says("bind 0 y", "variable @x of part 0")
    says("bind 1 y; home y", "variable @y of part 1")
    says("places", "variable @x: address 65536, size 4, alignment 4", "variable @y: address 65556, size 4, alignment 4", "variable @z: address 65576, size 4, alignment 4", "alias @y of part 0: address 65536")
    given("@x = private global i32 1 @y = private alias i32, ptr @x", "@x = private global i32 2 @y = private alias i32, ptr @x", "@y = external global i32")
    says("symbols", "variable @x of part 0", "variable @x of part 1", "variable @y", "alias @y of part 0", "alias @y of part 1")
    says("bind 0 y", "variable @x of part 0")
    says("bind 1 y", "variable @x of part 1")
    says("bind 2 y", "unresolved")
    says("places", "variable @x of part 0: address 65536, size 4, alignment 4", "variable @x of part 1: address 65556, size 4, alignment 4", "variable @y: nowhere", "alias @y of part 0: address 65536", "alias @y of part 1: address 65556")
    # An own alias where another part has a function of the name, and one whose target another part defines otherwise.
    given("declare i32 @g()", "define i32 @f() { ret i32 1 } @g = internal alias i32 (), ptr @f", "define i32 @g() { ret i32 2 } define weak i32 @f() { ret i32 3 }")
    says("symbols", "function @g", "function @f", "alias @g of part 1")
    says("bind 0 g; bind 2 g", "function @g of part 2")
    says("bind 1 g; bind 1 f; bind 2 f", "function @f of part 1")
    says("places", "function @g: number 0", "function @f: number 1", "alias @g of part 1: number 1")
    # Several aliases of one target; an alias at another type; the order of first alias entry, part by part.
    given("@x = global i64 1 @b = alias i32, ptr @x @a = alias [8 x i8], ptr @x", "@a = external global i64 @t = private global i8 1 @c = alias i8, ptr @t @b = external global i8")
    says("symbols", "variable @x", "variable @t of part 1", "alias @b", "alias @a", "alias @c")
    says("bind 1 a; bind 0 a; bind 1 b", "variable @x of part 0")
    says("places", "variable @x: address 65536, size 8, alignment 8", "variable @t of part 1: address 65560, size 1, alignment 1", "alias @b: address 65536", "alias @a: address 65536", "alias @c: address 65560")
    # An own alias and a shared one stand in one order.
    given("@c = external global i32 @x = global i32 1 @a = internal alias i32, ptr @x", "@t = private global i32 1 @b = alias i32, ptr @t @a = alias i32, ptr @t @c = private alias i32, ptr @t", "@t = internal global i32 2 @c = alias i32, ptr @t")
    says("symbols", "variable @x", "variable @t of part 1", "variable @t of part 2", "alias @a of part 0", "alias @b", "alias @a", "alias @c of part 1", "alias @c")
    says("bind 0 a", "variable @x of part 0")
    says("bind 1 a; bind 1 c", "variable @t of part 1")
    says("bind 0 c; bind 2 c", "variable @t of part 2")
    # Each rank loses to an alias; a declaration and extern_weak too.
    for other in ["@y = weak global i32 1", "@y = linkonce_odr global i32 1", "@y = common global i64 0", "@y = available_externally global i32 1", "@y = external global i32", "@y = extern_weak global i32"]:
        for parts in [(other, "@x = internal global i32 1 @y = alias i32, ptr @x"), ("@x = internal global i32 1 @y = alias i32, ptr @x", other)]:
            winner = 1 if parts[0] == other else 0
            given(*parts)
            says("symbols", f"variable @x of part {winner}", "alias @y")
            says("home y", f"alias @y of part {winner}")
            says("bind 0 y; bind 1 y", f"variable @x of part {winner}")
            says("places", f"variable @x of part {winner}: address 65536, size 4, alignment 4", "alias @y: address 65536")
    # An alias of a function that may take more arguments, and main.
    given("define internal i32 @f(ptr %0) { ret i32 1 } @main = alias i32 (ptr, ...), ptr @f", "declare i32 @main(...)")
    says("symbols", "function @f of part 0", "alias @main")
    says("bind 1 main", "function @f of part 0")


# Places.


def places():
    """Addresses, sizes, alignments and numbers."""
    given("@a = global i8 1 @b = global i16 1 @c = global i32 1 @d = global i64 1 @e = global i128 1 @f = global ptr null @g = global i1 true")
    says("places", "variable @a: address 65536, size 1, alignment 1", "variable @b: address 65554, size 2, alignment 2", "variable @c: address 65572, size 4, alignment 4", "variable @d: address 65592, size 8, alignment 8",
         "variable @e: address 65616, size 16, alignment 16", "variable @f: address 65648, size 8, alignment 8", "variable @g: address 65672, size 1, alignment 1")
    given("@a = global i24 1 @b = global i48 1 @c = global i65 1 @d = global i9 1 @e = global i8 1")
    says("places", "variable @a: address 65536, size 4, alignment 4", "variable @b: address 65560, size 8, alignment 8", "variable @c: address 65584, size 16, alignment 16", "variable @d: address 65616, size 2, alignment 2",
         "variable @e: address 65634, size 1, alignment 1")
    given("@a = global { i8, i64, i8 } zeroinitializer @b = global <{ i8, i64, i8 }> zeroinitializer @c = global [3 x { i16, i8 }] zeroinitializer @d = global {} zeroinitializer @e = global [0 x i64] zeroinitializer @f = global i8 1")
    says("places", "variable @a: address 65536, size 24, alignment 8", "variable @b: address 65576, size 10, alignment 1", "variable @c: address 65602, size 12, alignment 2", "variable @d: address 65630, size 0, alignment 1",
         "variable @e: address 65648, size 0, alignment 8", "variable @f: address 65664, size 1, alignment 1")
    # Alignments that are stated, greater and less than those of types.
    given("@a = global i8 1, align 64 @b = global i64 1, align 1 @c = global i8 1, align 65536 @d = global i32 1, align 2")
    says("places", "variable @a: address 65536, size 1, alignment 64", "variable @b: address 65553, size 8, alignment 1", "variable @c: address 131072, size 1, alignment 65536", "variable @d: address 131090, size 4, alignment 2")
    # What is not defined takes no room, and no function does.
    given("@a = external global [100 x i64] @b = global i8 1 declare void @f() @c = extern_weak global i64 @d = available_externally global i64 1 @e = global i8 1 define void @g() { ret void }")
    says("places", "variable @a: nowhere", "variable @b: address 65536, size 1, alignment 1", "variable @c: nowhere", "variable @d: nowhere", "variable @e: address 65553, size 1, alignment 1", "function @f: number 0", "function @g: number 1")
    # Functions are counted in their order, declared and host ones too.
    given("declare i32 @putchar(i32) define internal void @f() { ret void } declare extern_weak void @n()", "define internal void @f() { ret void } define void @g() { ret void }", "declare void @g() define i32 @main() { ret i32 0 }")
    says("places", "function @putchar: number 0", "function @f of part 0: number 1", "function @n: number 2", "function @f of part 1: number 3", "function @g: number 4", "function @main: number 5")
    # The room is that of the definition.
    given("@x = external global i8 @y = global i8 1", "@x = weak global i64 1", "@x = global [3 x i16] zeroinitializer, align 8")
    says("places", "variable @x: address 65536, size 6, alignment 8", "variable @y: address 65558, size 1, alignment 1")
    # Types of a part are those of its own structs.
    given("%T = type { i8 } @a = global %T zeroinitializer", "%T = type { i64, i8 } @b = global %T zeroinitializer @c = global [2 x %T] zeroinitializer")
    says("places", "variable @a: address 65536, size 1, alignment 1", "variable @b: address 65560, size 16, alignment 8", "variable @c: address 65592, size 32, alignment 8")
    # Appended arrays: all elements, and the greatest alignment that is stated, or that of the type.
    given("@x = appending global [1 x i32] [i32 1] @y = global i8 1", "@x = appending global [3 x i32] [i32 2, i32 3, i32 4]")
    says("home x", "variable @x of part 0")
    says("bind 0 x; bind 1 x", "appended @x")
    says("places", "variable @x: address 65536, size 16, alignment 4", "variable @y: address 65568, size 1, alignment 1")
    given("@x = appending global [1 x i32] [i32 1], align 1", "@x = appending global [1 x i32] [i32 2]")
    says("places", "variable @x: address 65536, size 8, alignment 1")
    given("@x = appending global [1 x i32] [i32 1]", "@x = appending global [1 x i32] [i32 2], align 2", "@x = appending global [2 x i32] [i32 2, i32 5], align 32", "@x = appending global [0 x i32] zeroinitializer, align 8")
    says("places", "variable @x: address 65536, size 16, alignment 32")
    given("@a = global i8 1 @x = appending global [0 x i64] zeroinitializer", "@x = appending global [0 x i64] [], align 1", "@b = global i8 1")
    says("places", "variable @a: address 65536, size 1, alignment 1", "variable @x: address 65553, size 0, alignment 1", "variable @b: address 65569, size 1, alignment 1")
    given("@x = appending global [0 x i64] zeroinitializer", "@b = external global i8 @x = appending global [2 x i64] [i64 1, i64 2]")
    says("home x", "variable @x of part 0")
    says("places", "variable @x: address 65536, size 16, alignment 8", "variable @b: nowhere")
    given("@x = appending global [1 x { i8, i32 }] [{ i8, i32 } zeroinitializer]", "@x = internal global i8 1", "@x = appending global [2 x { i8, i32 }] [{ i8, i32 } zeroinitializer, { i8, i32 } { i8 1, i32 2 }]")
    says("symbols", "variable @x", "variable @x of part 1")
    says("bind 0 x; bind 2 x", "appended @x")
    says("bind 1 x", "variable @x of part 1")
    says("places", "variable @x: address 65536, size 24, alignment 4", "variable @x of part 1: address 65576, size 1, alignment 1")
    given("@llvm.global_ctors = appending global [1 x { i32, ptr, ptr }] [{ i32, ptr, ptr } { i32 65535, ptr @a, ptr null }] define void @a() { ret void }",
          "@llvm.global_ctors = appending global [1 x { i32, ptr, ptr }] [{ i32, ptr, ptr } { i32 65535, ptr @b, ptr null }] define void @b() { ret void }")
    says("symbols", "variable @llvm.global_ctors", "function @a", "function @b")
    says("bind 1 llvm.global_ctors", "appended @llvm.global_ctors")
    says("places", "variable @llvm.global_ctors: address 65536, size 48, alignment 8", "function @a: number 0", "function @b: number 1")
    # An appended array of one part is appended all the same.
    given("@x = appending constant [2 x i8] [i8 1, i8 2], align 4")
    says("home x", "variable @x of part 0")
    says("bind 0 x", "appended @x")
    says("places", "variable @x: address 65536, size 2, alignment 4")


TABLES = [table, strong, kinds, appended, two_symbols, two_kinds, pairs, three, orders, declarations, own_names, commons, seen_elsewhere, null, hosts, aliases, places]


def written():
    """The script, and what is told."""
    for rows in TABLES:
        rows()
    stdin = (HEAD + "".join("clear\n" + "".join("part\n" + content(part) for part in parts) + "".join(question + "\n" for question, _ in asked) for parts, asked in ROWS)).encode()
    stdout = "".join(f"> {question}\n" + "".join(line + "\n" for line in lines) for _, asked in ROWS for question, lines in asked).encode()
    return stdin, stdout


if __name__ == "__main__":
    import module_table
    module_table.main()
