#!/usr/bin/env python3
"""Writes the rows of names and numbers at the end of crates/tool_table's stored input and output: texts, and how
`llvm-as` tells what is wrong with them. A text with which nothing is wrong is judged by `llvm-extract`, which then tells that the function
`absent` is not there.

What a text comes to is written here by hand from the rules of docs/language.md; nothing is taken from the program. `‹` stands
before the place that is told, `›` before the first place of a duplicate; a place is line:column, in bytes, from 1.

    tests/names.py            writes the rows
    tests/names.py --check    tells whether they are what it would write
"""
import sys

sys.dont_write_bytecode = True
from stored import content, store_part

OPEN, FIRST = "‹", "›"
CASES = []


def place_before(mark, text):
    """Where the byte behind the mark stands once both marks are gone."""
    front = text[:text.index(mark)].replace(OPEN, "").replace(FIRST, "")
    return f"{front.count(chr(10)) + 1}:{len(front.rsplit(chr(10), 1)[-1].encode()) + 1}"


def plain(text):
    return text.replace(OPEN, "").replace(FIRST, "")


def refused(text, told):
    CASES.append((plain(text), f"{place_before(OPEN, text)}: {told}"))


def module(text):
    CASES.append((text, "module"))


def invalid(text, told):
    """A module, which is not valid."""
    CASES.append((text, f" invalid {told}"))


def too_large(parts, name, product):
    """A module of which one function has more than 2^31 blocks times values."""
    CASES.append((parts, f" function too large: {name}, {product}"))


def again(text):
    refused(text, f"duplicate, first at {place_before(FIRST, text)}")


def unknown(text, name):
    refused(text, f"unknown name {name}")


def number(text, expected, found):
    refused(text, f"number {expected} expected, {found} found")


def outside(text):
    refused(text, "constant out of range")


def deep(text):
    refused(text, "too deep")


def holds(text):
    refused(text, "contains itself")


def large(text):
    refused(text, "too large")


def many(parts, kind, count):
    CASES.append((parts, f"too many {kind}: {count}"))


def worked():
    """One of each."""
    outside("@x = global i8 ‹256")
    holds("‹%T = type { %T }")
    unknown("define i32 @f() { ret i32 ‹%x }", "%x")
    number("define i32 @f() { ‹%2 = add i32 1, 1 ret i32 %2 }", 1, "2")
    again("›@x = global i32 1 ‹@x = global i32 2")
    large("@x = global ‹[1099511627776 x i16] zeroinitializer")
    module("@b = external global ptr @a = global ptr @b define i32 @main() { %1 = load ptr, ptr @a %2 = load ptr, ptr %1 "
           "%3 = icmp eq ptr %2, @a %4 = select i1 %3, i32 7, i32 9 ret i32 %4 }")
    module("@a = external global ptr @b = global ptr @a")


def duplicates():
    """The later token is told, with the first of that name."""
    again("›%T = type { i32 } ‹%T = type opaque")
    again("›%T = type opaque %U = type opaque ‹%\"T\" = type { ptr }")
    again("declare void ›@f() ‹@f = global i1 0")
    again("›@f = global i1 0 define void ‹@f() { ret void }")
    again("declare void ›@f() declare void ‹@f()")
    again("›@a = global i1 0 ‹@\"a\" = global i1 0")
    again("›@\"a b\" = global i1 0 ‹@\"a\\20b\" = global i1 0")
    again("@a = global i1 0 ›@b = global i1 0 ‹@b = global i1 0 @a = global i1 0 @b = global i1 0")
    # Parameters, blocks and results of a function share one name space.
    again("define void @f(i32 ›%x, i32 ‹%x) { ret void }")
    again("define void @f(i32 ›%x) { ‹x: ret void }")
    again("define void @f(i32 ›%x) { br label %x ‹x: ret void }")
    again("define void @f(i32 ›%x) { ‹%x = add i1 0, 0 ret void }")
    again("define void @f() { ›%a = add i1 0, 0 ‹%a = add i1 0, 0 ret void }")
    again("define void @f() { ›a: br label %b b: ret void ‹a: ret void }")
    again("define void @f() { ›a: ‹%a = add i1 0, 0 ret void }")
    again("define void @f() { ›%a = add i1 0, 0 br label %b b: br label %c ‹a: ret void c: ret void }")
    again("declare i32 @g() define void @f() { ›%a = call i32 @g() ‹%\"a\" = call i32 @g() ret void }")
    # Texts that stand once.
    again("›source_filename = \"a\" ‹source_filename = \"b\"")
    again("›source_filename = \"a\" @x = global i1 0 ‹source_filename = \"a\" @x = global i1 0")
    again("target ›datalayout = \"e\"\ntarget ‹datalayout = \"e\"")
    again("target ›triple = \"a\" target datalayout = \"e\" target ‹triple = \"a\"")
    module("target triple = \"a\" source_filename = \"a\" target datalayout = \"a\"")
    # What is no duplicate.
    module("define void @f(i32 %x) { ret void } define void @g(i32 %x) { ret void }")
    module("%x = type opaque @x = global i1 0 define void @f(i1 %x) { ret void }")
    module("define i1 @f(i1 %0, i1 %\"0\") { ret i1 %\"0\" }")
    module("declare void @f(i32 %x, i32 %x)")


def aliases():
    """Aliases share the name space of variables and functions."""
    module("@x = global i32 5 @y = alias i32, ptr @x define i32 @main() { store i32 6, ptr @y %1 = load i32, ptr @y ret i32 %1 }")
    module("@g = alias i32 (), ptr @f define i32 @f() { ret i32 1 }")
    invalid("@g = internal alias i32 (ptr, ...), ptr @f declare i32 @f(ptr, ...)", "V19 at @g")
    module("@p = global ptr @y @y = alias i32, ptr @p")
    invalid("@y = alias i32, ptr @z @z = alias i32, ptr @y", "V19 at @y")
    again("@x = global i1 0 ›@f = alias i1, ptr @x define void ‹@f() { ret void }")
    again("define void ›@f() { ret void } ‹@f = alias void (), ptr @f")
    again("›@x = global i1 0 ‹@x = alias i1, ptr @x")
    again("@x = global i1 0 ›@a = alias i1, ptr @x ‹@a = alias i1, ptr @x")
    unknown("@a = alias i32, ptr ‹@b", "@b")
    unknown("%b = type opaque @a = alias i32, ptr ‹@b", "@b")
    unknown("@x = global i1 0 @a = alias ‹%T, ptr @x", "%T")
    unknown("define void @f() { ret void } @a = alias void (i32, ‹%T), ptr @f", "%T")
    unknown("@a = alias ‹%T, ptr @b", "%T")
    large("@x = global i1 0 @a = alias ‹[1099511627777 x i8], ptr @x")
    outside("@x = global i1 0 @a = alias [‹-1 x i8], ptr @x")
    # Its own name is judged before its type, its type before its target.
    again("›@x = global i1 0 ‹@x = alias %T, ptr @y")
    unknown("@x = alias void (‹%T), ptr @y", "%T")


def unknowns():
    """Nothing has the name, or a value stands for a block, or a block for a value."""
    unknown("@v = global ‹%T zeroinitializer", "%T")
    unknown("%T = type { [2 x ‹%U] }", "%U")
    unknown("declare void @f(ptr, ‹%T)", "%T")
    unknown("declare ‹%\"T U\" @f()", "%\"T U\"")
    unknown("@p = global { ptr, ptr } { ptr @p, ptr ‹@q }", "@q")
    unknown("define void @f() { call void ‹@g() ret void }", "@g")
    unknown("define i32 @f() { ret i32 ‹%x }", "%x")
    unknown("define void @f() { br label ‹%x }", "%x")
    unknown("define void @f(i1 %x) { br label ‹%x }", "%x")
    unknown("define void @f() { %1 = add i1 0, 0 br label ‹%1 }", "%1")
    unknown("define i32 @f() { a: ret i32 ‹%a }", "%a")
    unknown("define i32 @f() { ret i32 ‹%0 }", "%0")
    unknown("define i32 @f() { br label %a a: %1 = add i32 ‹%a, 1 ret i32 %1 }", "%a")
    unknown("define i32 @f() { ret i32 ‹%007 }", "%7")
    unknown("define i32 @f() { ret i32 ‹%000000000000000000000000000000123456789012345678901234567890 }", "%123456789012345678901234567890")
    unknown("@p = global ptr ‹@\"a b\\\\\\5c\"", "@\"a b\\5C\\5C\"")
    unknown("@p = global ptr ‹@\"\\c3\\a4\"", "@\"\\C3\\A4\"")
    unknown("@p = global ptr ‹@\"7\"", "@\"7\"")
    unknown("@p = global ptr ‹@\"a.$_-7\"", "@a.$_-7")
    unknown("define i32 @f(i32 %x) { ret i32 %x } define i32 @g() { ret i32 ‹%x }", "%x")
    unknown("declare i32 @f(i32 %x, i32 %x) define i32 @g() { ret i32 ‹%x }", "%x")
    unknown("define void @f() { br label %a a: %1 = phi i32 [ 1, %0 ], [ 2, ‹%b ] ret void }", "%b")
    unknown("define void @f(i32 %b) { br label %a a: %1 = phi i32 [ 1, ‹%b ] ret void }", "%b")
    unknown("define void @f() { switch i8 0, label %0 [ i8 1, label ‹%c ] }", "%c")
    unknown("define i32 @f(i32 %\"0\") { ret i32 ‹%0 }", "%0")
    unknown("define i32 @f(i32 %0) { ret i32 ‹%\"0\" }", "%\"0\"")
    module("@p = global ptr @f @q = global %T zeroinitializer %T = type { i8 } define i32 @f() { br label %b a: ret i32 %x "
           "b: %x = add i32 1, 1 br label %a }")


def numbers():
    """A number that is written is the next one; parameters, blocks and results count together."""
    number("define void @f(i32 ‹%1) { ret void }", 0, "1")
    number("define void @f(i32 %0, i32 ‹%0) { ret void }", 1, "0")
    number("define void @f(i32 %0, i32 ‹%2) { ret void }", 1, "2")
    number("define void @f() { ‹5: ret void }", 0, "5")
    number("define void @f() { br label %7 ‹7: ret void }", 1, "7")
    number("define void @f(i32 %0) { br label %2 ‹1: ret void }", 2, "1")
    number("define i32 @f() { br label %5 ‹5: ret i32 0 }", 1, "5")
    number("define i32 @f() { br label %1 ‹2: ret i32 0 }", 1, "2")
    number("define i32 @f(i1 %0) { br i1 %0, label %3, label %4 ‹3: ret i32 1 4: ret i32 2 }", 2, "3")
    number("define i32 @f() { br label %1 1: %2 = phi i32 [ 0, %0 ], [ %5, %1 ] ‹%5 = add i32 %2, 1 br label %1 }", 3, "5")
    number("define i32 @f() { %1 = add i32 %5, 1 ‹%5 = add i32 1, 1 ret i32 %1 }", 2, "5")
    number("define void @f() { 00: ‹%0030 = add i1 0, 0 ret void }", 1, "30")
    number("define void @f() { ‹%007 = add i1 0, 0 ret void }", 1, "7")
    number("define void @f(i32 %0) { ‹%000 = add i1 0, 0 ret void }", 2, "0")
    number("define void @f() { ‹%0340282366920938463463374607431768211457000 = add i1 0, 0 ret void }", 1,
           "340282366920938463463374607431768211457000")
    number("define void @f() { ‹%123456789012345678901234567890123456789012345678901234567890 = add i1 0, 0 ret void }", 1,
           "123456789012345678901234567890123456789012345678901234567890")
    number("declare i32 @g() define void @f() { call i32 @g() ‹%1 = add i1 0, 0 ret void }", 2, "1")
    number("declare void @g() define void @f() { %1 = call void @g() ‹%1 = add i1 0, 0 ret void }", 2, "1")
    number("define void @f() { add i1 0, 0 ‹%1 = add i1 0, 0 ret void }", 2, "1")
    module("declare void @g() define void @f() { call void @g() store i1 0, ptr null %1 = add i1 0, 0 ret void }")
    module("define void @f(i32 %a, i32 %0) { x: %b = add i1 0, 0 %1 = add i1 0, 0 br label %2 2: ret void }")
    module("define i32 @f(i32, i32 %1, i32) { %4 = add i32 %0, %2 br label %5 5: ret i32 %4 }")
    module("define void @f(i32 %00) { 01: ret void }")


def ranges():
    """From -2^(N-1) to 2^N - 1 at iN, as 128 bits at any other type; alignments and indices from 0 to 2^32 - 1; lengths from 0."""
    module("@x = global i8 -128")
    module("@x = global i8 255")
    outside("@x = global i8 ‹-129")
    module("@x = global i1 -1 @y = global i1 1")
    outside("@x = global i1 ‹2")
    outside("@x = global i1 ‹-2")
    module("@x = global i128 340282366920938463463374607431768211455")
    outside("@x = global i128 ‹340282366920938463463374607431768211456")
    invalid("@x = global ptr 340282366920938463463374607431768211455", "V18 at @x")
    outside("@x = global ptr ‹340282366920938463463374607431768211456")
    outside("@x = global ptr ‹-170141183460469231731687303715884105729")
    invalid("%T = type { i8 } @x = global %T 256", "V18 at @x")
    outside("@x = global { i8, i8 } { i8 255, i8 ‹256 }")
    outside("@x = global [2 x { i8 }] [{ i8 } { i8 0 }, { i8 } { i8 ‹-129 }]")
    outside("@x = global ptr getelementptr (i8, ptr @x, i32 ‹4294967296)")
    outside("@x = global i8 trunc (i16 ‹65536 to i8)")
    outside("@x = global i8 add (i8 255, i8 ‹256)")
    outside("define void @f() { %1 = add i8 255, ‹256 ret void }")
    outside("define void @f() { %1 = icmp eq i8 ‹256, 256 ret void }")
    outside("define i8 @f() { ret i8 ‹300 }")
    outside("define void @f() { br label %1 1: %2 = phi i8 [ 0, %0 ], [ ‹300, %1 ] br label %1 }")
    outside("define void @f() { switch i8 0, label %0 [ i8 1, label %0 i8 ‹256, label %0 ] }")
    outside("define void @f() { %1 = getelementptr i8, ptr null, i32 ‹-2147483649 ret void }")
    outside("define void @f() { call void ‹340282366920938463463374607431768211456() ret void }")
    invalid("@x = global i8 0, align 4294967295", "V7 at @x")
    outside("@x = global i8 0, align ‹4294967296")
    outside("@x = global i8 0, align ‹-1")
    outside("define void @f() { %1 = alloca i8, align ‹-1 ret void }")
    outside("define void @f() { %1 = load i8, ptr null, align ‹4294967296 ret void }")
    outside("define void @f() { store i8 0, ptr null, align ‹-4 ret void }")
    invalid("@x = global [-0 x i8] [], align -0", "V7 at @x")
    outside("@x = global [‹-1 x i8] zeroinitializer")
    outside("define void @f() { %1 = extractvalue { i8 } undef, ‹-1 ret void }")
    outside("define void @f() { %1 = extractvalue [1 x { i8 }] undef, 0, ‹4294967296 ret void }")
    outside("define void @f() { %1 = insertvalue { i8 } undef, i8 0, 0, ‹4294967296 ret void }")
    module("declare void @f(ptr align -1) align 4294967296")


def loops():
    """A struct contains itself by value; its own name is told."""
    holds("‹%A = type { %B } %B = type { %A }")
    holds("‹%T = type { [0 x %T] }")
    holds("‹%T = type <{ i8, { ptr, %T } }>")
    holds("%A = type { %B } ‹%B = type { i8, { %B } }")
    holds("@x = global i1 0 %A = type { %B } ‹%B = type { i8, %C } %C = type { %B }")
    holds("@x = global [2 x %T] zeroinitializer %A = type { %T } ‹%T = type { %T }")
    holds("@x = global [1099511627776 x { [2 x %T], i64 }] zeroinitializer ‹%T = type { %T }")
    module("%T = type { ptr }")
    module("%A = type { %B, %B } %B = type { i8 } %C = type { %A, %B }")


def sizes():
    """An array length or a size passes 2^40, or the parts pass 2^20, and no type written inside does so."""
    module("@x = global [1099511627776 x i8] zeroinitializer")
    large("@x = global ‹[1099511627777 x {}] zeroinitializer")
    large("@x = global ‹[340282366920938463463374607431768211456 x i8] zeroinitializer")
    large("@x = global { i8, ‹[1099511627777 x i8] } zeroinitializer")
    large("@x = global [0 x ‹[1099511627776 x i16]] zeroinitializer")
    large("%T = type { ‹[1099511627776 x i16] }")
    large("‹%T = type { [1099511627776 x i8], i8 }")
    module("%T = type <{ [1099511627775 x i8], i8 }>")
    large("%T = type { [1099511627776 x i8], ‹%U } %U = type { [1099511627776 x i8], i8 }")
    large("@x = global ‹%U zeroinitializer %U = type { [1099511627776 x i8], i8 }")
    large("@x = global ‹[1099511627777 x %T] zeroinitializer %T = type { %T }")
    large("define void @f() { %1 = alloca ‹[1099511627777 x i8] ret void }")
    large("define void @f() { %1 = getelementptr ‹[1099511627777 x i8], ptr null, i64 0 ret void }")
    invalid("%T = type opaque @x = global [1099511627776 x { i64, %T }] zeroinitializer", "V6 at @x")


def orders():
    """The least place is told; at one place the kinds in the order of their rules."""
    outside("@x = global i8 ‹256 @x = global i8 0")
    again("›@x = global i8 0 ‹@x = global i8 256")
    unknown("declare void @f() declare ‹%T @f()", "%T")
    again("%T = type {} @a = global i1 0 ›@b = global i1 0 ‹@b = global %U 0 @c = global %V 0")
    unknown("@a = global ptr ‹@z @a = global i1 0", "@z")
    again("›%T = type {} ‹%T = type { [1099511627776 x i8], i8 }")
    again("›%T = type { i8 } ‹%T = type { %T }")
    large("@x = global ‹{ i8, %U, [1099511627776 x i8] } zeroinitializer %U = type { i8 }")
    unknown("@x = global { ‹%U, [1099511627777 x i8] } zeroinitializer", "%U")
    outside("@x = global [‹-1 x [1099511627777 x i8]] zeroinitializer")
    again("›source_filename = \"a\" @x = global i1 0 ‹source_filename = \"a\" @x = global i1 0")
    number("define void @f(i32 ‹%1, i32 %x, i32 %x) { ret void }", 0, "1")
    unknown("define void @f() { %1 = add i8 ‹%y, 256 ret void }", "%y")
    unknown("define void @f() { br i1 ‹%c, label %x, label %y }", "%c")
    outside("define void @f() { switch i8 ‹256, label %x [ i8 1, label %y ] }")
    unknown("define void @f() { switch i8 0, label ‹%x [ i8 256, label %y ] }", "%x")
    unknown("define void @f() { call void (‹%T) @g(i32 %x) ret void }", "%T")


def places():
    """Each place where an integer, a type, a value or a block stands."""
    past = "340282366920938463463374607431768211456"
    for text in ["%1 = add i8 ‹256, %x", "%1 = icmp eq i8 0, ‹-129", "%1 = trunc i8 ‹256 to i1", f"%1 = ptrtoint ptr ‹{past} to i8",
                 "%1 = select i1 ‹2, i8 %x, i8 %x", "%1 = select i1 1, i8 ‹256, i8 %x", "%1 = select i1 1, i8 0, i8 ‹256", "%1 = freeze i8 ‹-129",
                 f"%1 = load i8, ptr ‹{past}, align -1", "store i8 ‹256, ptr %x", f"store i8 0, ptr ‹{past}, align -1",
                 "%1 = alloca i8, i8 ‹256, align -1", f"%1 = getelementptr i8, ptr ‹{past}, i8 256", "call void @g(i8 0, i8 ‹256)",
                 "%1 = extractvalue [1 x i8] [i8 ‹256], 4294967296", "%1 = insertvalue { i8 } { i8 ‹256 }, i8 256, 0",
                 "%1 = insertvalue { i8 } undef, i8 ‹256, 4294967296", "%1 = alloca [‹-1 x i8], i8 256", "%1 = freeze <{ [‹-1 x i8] }> %x"]:
        outside(f"declare void @g(i8, i8) define void @f() {{ {text} ret void }}")
    for end in ["br i1 ‹2, label %x, label %y", "switch i8 ‹256, label %x [ ]", "ret { i8 } { i8 ‹256 }"]:
        outside(f"define void @f() {{ {end} }}")
    for constant in ["trunc (i8 ‹256 to i1)", "inttoptr (i8 ‹256 to ptr)", f"ptrtoint (ptr ‹{past} to %T)", "sub (i8 ‹256, i8 256)", "xor (i8 0, i8 ‹-129)",
                     f"getelementptr (i8, ptr ‹{past}, i8 256)", "getelementptr ([‹-1 x %T], ptr null)", "<{ i8 ‹256, i8 256 }>"]:
        outside(f"@x = global ptr {constant}")
    for text in ["%1 = add ‹%T %x, %y", "%1 = icmp eq ‹%T %x, %y", "%1 = zext i8 0 to ‹%T", "%1 = select i1 0, ‹%T %x, i8 0", "%1 = phi ‹%T [ %x, %y ]",
                 "%1 = load ‹%T, ptr %x", "store ‹%T %x, ptr %y", "%1 = alloca ‹%T, i8 256", "%1 = alloca i8, ‹%T %x", "%1 = getelementptr ‹%T, ptr %x",
                 "%1 = call ‹%T @g()", "call void null(i8 0, ‹%T %x)", "%1 = extractvalue ‹%T %x, -1", "%1 = insertvalue { i8 } undef, ‹%T %x, -1"]:
        unknown(f"define void @f() {{ {text} ret void }}", "%T")
    for end in ["ret ‹%T %x", "br ‹%T %x, label %y, label %z", "switch ‹%T %x, label %y [ ]", "switch i8 0, label %0 [ ‹%T 0, label %y ]"]:
        unknown(f"define void @f() {{ {end} }}", "%T")
    for text in ["%1 = add i8 ‹%x, 256", "%1 = add i8 0, ‹%x", "%1 = icmp eq i8 0, ‹%x", "%1 = trunc i8 ‹%x to %T", "%1 = select i1 ‹%x, %T 0, i8 0",
                 "%1 = select i1 0, i8 0, i8 ‹%x", "%1 = freeze i8 ‹%x", "%1 = load i8, ptr ‹%x, align -1", "store i8 ‹%x, ptr %y", "store i8 0, ptr ‹%x, align -1",
                 "%1 = alloca i8, i8 ‹%x, align -1", "%1 = getelementptr i8, ptr ‹%x, i8 256", "%1 = getelementptr i8, ptr null, i8 ‹%x", "call void ‹%x(i8 256)",
                 "call void null(i8 0, i8 ‹%x)", "%1 = extractvalue [1 x i8] ‹%x, -1", "%1 = insertvalue { i8 } undef, i8 ‹%x, -1"]:
        unknown(f"define void @f() {{ {text} ret void }}", "%x")
    for end in ["ret i8 ‹%x", "br i1 0, label ‹%x, label %y", "br i1 0, label %0, label ‹%x", "switch i8 ‹%x, label %y [ ]"]:
        unknown(f"define void @f() {{ {end} }}", "%x")


def tower(times, base, count):
    """`%T0 = type { BASE }`, each further struct that of the line before, so many times."""
    lines = [f"%T0 = type {{{' ' + base + ' ' if base else ''}}}"]
    for n in range(1, count):
        lines.append(f"%T{n} = type {{ {', '.join([f'%T{n - 1}'] * times)} }}")
    return lines


def towers():
    def told_at(lines, row):
        return "\n".join(lines[:row - 1] + [OPEN + lines[row - 1]] + lines[row:])

    deep(told_at(tower(1, "i32", 65), 65))
    module("\n".join(tower(1, "i32", 64)))
    large(told_at(tower(2, "", 21), 21))
    module("\n".join(tower(2, "", 20)))
    module("\n".join(tower(1, "i32", 9)))
    # A use before the definition is told where it stands.
    deep("@x = global ‹%T64 zeroinitializer\n" + "\n".join(tower(1, "i32", 65)))
    # The array nests 65 deep, and so does the struct that holds it, which stands first.
    deep("@x = global ‹{ ptr, [1 x %T63] } zeroinitializer\n" + "\n".join(tower(1, "i32", 64)))
    module("@x = global [1 x %T62] zeroinitializer\n" + "\n".join(tower(1, "i32", 64)))
    # Too deep and too large at one place.
    deep("@x = global ‹[1099511627777 x %T63] zeroinitializer\n" + "\n".join(tower(1, "i32", 64)))
    deep("define void @f() { %1 = alloca ‹[1 x %T63] ret void }\n" + "\n".join(tower(1, "i32", 64)))
    deep("declare void @f(ptr, ‹{ i8, %T63 })\n" + "\n".join(tower(1, "i32", 64)))
    deep("‹%U = type { [1 x %T63] }\n" + "\n".join(tower(1, "i32", 64)))


def counts():
    """262,144 of each kind; structs, then variables, then functions, then aliases; no place. A text is a list of its parts: a
    text as it is, or a line for each number below a count."""
    def variables(n):
        return (n, "@a#=global i1 0\n")

    def structs(n):
        return (n, "%a#=type opaque\n")

    def functions(n):
        return (n, "declare void @f#()\n")

    many([variables(262145)], "variables", 262145)
    many([functions(262145)], "functions", 262145)
    many([structs(262145)], "structs", 262145)
    many([functions(262145), variables(262146)], "variables", 262146)
    many([variables(262145), structs(262146)], "structs", 262146)
    module([variables(262144)])
    # The count for aliases is theirs and the greater of the others.
    many([variables(262144), "@y = alias i1, ptr @a0\n"], "aliases", 262145)
    module([variables(262143), "@y = alias i1, ptr @a0\n"])
    many([variables(200000), functions(262143), "@y = alias i1, ptr @a0\n@z = alias i1, ptr @a0\n"], "aliases", 262145)
    # A count comes before any place; items count, those that are there twice too.
    many([(262145, "@a = global i1 0\n")], "variables", 262145)
    many(["@z = global i8 256\n", variables(262144)], "variables", 262145)


def modules():
    """Texts that are modules, as they are written."""
    module("")
    module("; no item\nattributes #0 = { cold }\n!llvm.ident = !{!0}\n!0 = !{!\"me\"}")
    module("define internal i32 @f() { ret i32 1 } define i32 @main() { %1 = call i32 @f() %2 = call i32 @g() %3 = add i32 %1, %2 ret i32 %3 } declare i32 @g()")
    module("@a = global i8 0 @c = common global i32 0, align 16 define i32 @main() { %1 = ptrtoint ptr @c to i64 %2 = sub i64 %1, 65536 %3 = trunc i64 %2 to i32 ret i32 %3 }")
    module("declare i32 @putchar(i32) define internal void @a() { %1 = call i32 @putchar(i32 97) ret void } @llvm.global_ctors = appending global [1 x { i32, ptr, ptr }] [{ i32, ptr, ptr } { i32 65535, ptr @a, ptr null }]")
    module("@opt = extern_weak global i32 define i32 @main() { %1 = icmp eq ptr @opt, null br i1 %1, label %2, label %3 2: ret i32 5 3: %4 = load i32, ptr @opt ret i32 %4 }")
    module("%T = type { i32 } declare i32 @g(%T) define i32 @main() { %1 = insertvalue %T undef, i32 9, 0 %2 = call i32 @g(%T %1) ret i32 %2 }")
    module("%T = type { i64 } %U = type { i32 } define i32 @g(%U %0) { %2 = extractvalue %U %0, 0 ret i32 %2 }")
    module("define i32 @main() { %1 = add nsw i32 2147483647, 1 %2 = icmp eq i32 %1, 0 br i1 %2, label %3, label %4 3: ret i32 1 4: ret i32 2 }")
    module("define i32 @main() { %1 = mul i128 170141183460469231731687303715884105728, 2 %2 = sdiv i128 -170141183460469231731687303715884105728, -1 %3 = icmp eq i128 %1, 0 %4 = select i1 %3, i32 3, i32 4 ret i32 %4 }")
    module("define i32 @main() { br label %l l: %a = phi i32 [ 11, %0 ], [ %b, %l ] %b = phi i32 [ 22, %0 ], [ %a, %l ] %i = phi i32 [ 0, %0 ], [ %j, %l ] %j = add i32 %i, 1 %c = icmp eq i32 %j, 3 br i1 %c, label %e, label %l e: ret i32 %a }")
    invalid("define i32 @f(i1 %c) { br i1 %c, label %a, label %b a: %v = add i32 1, 2 br label %b b: ret i32 %v }", "V10 at instruction 3 of @f")
    module("declare ptr @malloc(i64) declare ptr @memset(ptr, i32, i64) declare void @free(ptr) define i32 @main() { %1 = call ptr @malloc(i64 4) %2 = call ptr @memset(ptr %1, i32 1, i64 4) call void @free(ptr %1) ret i32 0 }")
    # Modules that are not valid.
    invalid("target datalayout = \"E\" define void @f() { br label %0 }", "V1 at module")
    invalid("@a = alias i32, ptr @b @b = external global i32", "V19 at @a")
    # 46,341 blocks with one value each, told before any rule: the layout is foreign too.
    too_large(["target datalayout = \"E\"\ndefine void @f() {\n%v=add i1 0,0\n", (46340, "br label %b# b#:%v#=add i1 0,0\n"), "ret void\n}\n"], "@f", 46341 * 46341)


TABLES = [worked, duplicates, aliases, unknowns, numbers, ranges, loops, sizes, orders, places, towers, counts, modules]


def words(answer):
    """A module is taken by a tool that judges it and then looks for a function that no text here has, so that nothing is written."""
    return "llvm-extract --func=absent names.ll" if answer == "module" else "llvm-as names.ll"


def told(text, answer):
    """What the program prints of the run."""
    if answer == "module":
        line = "llvm-extract: no symbol @absent"
    elif answer.startswith("too many"):
        line = f"llvm-as: names.ll: {answer}"
    else:
        line = f"llvm-as: names.ll:{answer}"
    # The test program writes a backslash twice.
    line = line.replace("\\", "\\\\")
    return f"> {words(answer)}\nstatus 1\nfiles names.ll\nerrors\n| {line}\n"


def main():
    for table in TABLES:
        table()
    store_part("names", [(f"clear\nfile names.ll\n{content(text)}run {words(answer)}\n", told(text, answer)) for text, answer in CASES])


if __name__ == "__main__":
    main()
