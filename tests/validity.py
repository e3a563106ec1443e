#!/usr/bin/env python3
"""The cases of crates/module_table that ask whether a text is valid: texts, and what is told of each.

What a text comes to is written here by hand from the rules of docs/language.md ("Valid"), or told by the search of tests/paths.py;
nothing is taken from the program. Each text is a list of items whose names and numbers are in order. One line tells it:

    ok                                   the module is valid
    invalid Vk at ENTITY                 the first failure, of the first entity and there of the least rule
    function too large: @F, PRODUCT      the first such function, before any rule; the product of blocks and values

An ENTITY is `module`, `@x` for a variable, an alias or a function, `%b of @f` for a block, and `instruction k of @f` for an
instruction or the end of a block, counted from 0 through the whole function, ends included. Names are spelled as in canonical
text.

    tests/validity.py                   writes the rows of module_table, those of tests/canonical.py and tests/linkage.py among them
    tests/validity.py --check           tells whether they are what it would write
    tests/validity.py --large FOLDER    writes the texts that are too large for rows as files N.ll, and what is told of each as N.told
                                        (`bench/validity` times them)
"""
import pathlib
import sys

sys.dont_write_bytecode = True
import paths

HEAD = "==== valid\n"

# What is told of a valid text.
ACCEPTED = "ok"

# Texts, each with what is told of it. One of many lines is a list of its parts: a text as it is, or a line for each number below a
# count.
CASES = []

# The same of texts that take more time than rows should.
LARGE = []


def valid(text):
    CASES.append((text, ACCEPTED))


def refused(text, told):
    CASES.append((text, f"invalid {told}"))


def too_large(name, product):
    return f"function too large: {name}, {product}"


def body(line):
    return f"define void @f() {{ {line} ret void }}"


def held(line):
    """Valid as the first instruction of a function."""
    valid(body(line))


def broken(line, rule):
    """The first instruction of a function fails this rule."""
    refused(body(line), f"V{rule} at instruction 0 of @f")


def worked():
    """One of each rule."""
    refused("target datalayout = \"E\"", "V1 at module")
    refused("declare internal void @f()", "V2 at @f")
    refused("@c = common global i32 1", "V3 at @c")
    refused("@a = appending global i32 0", "V4 at @a")
    refused("declare void @llvm.nope()", "V5 at @llvm.nope")
    refused("declare i8 @llvm.bswap.i8(i8)", "V5 at @llvm.bswap.i8")
    refused("%T = type opaque @v = global %T zeroinitializer", "V6 at @v")
    refused("@x = global i32 0, align 3", "V7 at @x")
    refused("define void @f() { br label %0 }", "V8 at %0 of @f")
    refused("define void @f() { br label %a a: %x = phi i32 [ 1, %0 ], [ 2, %a ] ret void }", "V9 at instruction 1 of @f")
    refused("define i32 @f(i1 %c) { br i1 %c, label %a, label %b a: %v = add i32 1, 2 br label %b b: ret i32 %v }", "V10 at instruction 3 of @f")
    refused("define i32 @f(i64 %0) { ret i32 %0 }", "V11 at instruction 0 of @f")
    refused("define void @f() { %1 = add ptr null, null ret void }", "V12 at instruction 0 of @f")
    refused("define void @f() { %1 = zext i32 1 to i8 ret void }", "V13 at instruction 0 of @f")
    refused("define void @f() { store i32 0, i32 0 ret void }", "V14 at instruction 0 of @f")
    refused("define void @f() { %1 = getelementptr { i32 }, ptr null, i32 0, i32 1 ret void }", "V15 at instruction 0 of @f")
    refused("define void @f() { %1 = extractvalue { i32 } undef, 1 ret void }", "V16 at instruction 0 of @f")
    refused("define i32 @f() { ret void }", "V17 at instruction 0 of @f")
    refused("@x = global i1 null", "V18 at @x")
    refused("@a = alias i32, ptr @b @b = external global i32", "V19 at @a")
    refused("@g = weak alias i32 (), ptr @f define i32 @f() { ret i32 1 }", "V19 at @g")
    valid("@x = global i32 5 @y = alias i32, ptr @x define i32 @main() { store i32 6, ptr @y %1 = load i32, ptr @x ret i32 %1 }")
    # No path reaches the use.
    valid("define i32 @f(i1 %c) { br i1 %c, label %a, label %b a: %v = add i32 1, 2 br label %b b: ret i32 0 u: ret i32 %v }")
    # The values of phis go round.
    valid("define i32 @main() { br label %l l: %a = phi i32 [ 11, %0 ], [ %b, %l ] %b = phi i32 [ 22, %0 ], [ %a, %l ] "
          "%i = phi i32 [ 0, %0 ], [ %j, %l ] %j = add i32 %i, 1 %c = icmp eq i32 %j, 3 br i1 %c, label %e, label %l e: ret i32 %a }")


def layouts():
    """V1: no component of the layout is `E`, or begins `p:` with another size than 64."""
    valid("target datalayout = \"e-p:64:64:64-p1:32:32-p270:32:32-i64:64\"")
    valid("target datalayout = \"\" target triple = \"E\"")
    valid("target triple = \"x-E-p:32:32\" source_filename = \"E\"")
    refused("target datalayout = \"e-p:32:32\"", "V1 at module")
    refused("target datalayout = \"e-m:e-p:64:64-i64:64-E\"", "V1 at module")
    refused("target datalayout = \"e-p:64:64-p:16:16\"", "V1 at module")


def linkages():
    """V2: what is only declared is `external` or `extern_weak`, what is defined is not `extern_weak`."""
    valid("declare extern_weak void @f() @x = extern_weak constant i32")
    valid("@x = available_externally global i32 0 define available_externally void @f() { ret void }")
    valid("declare external void @f() define external void @g() { ret void } @x = external global i8")
    refused("define extern_weak void @f() { ret void }", "V2 at @f")
    refused("declare weak_odr void @f()", "V2 at @f")
    refused("declare available_externally void @\"f g\"()", "V2 at @\"f g\"")
    refused("@a = extern_weak alias i32, ptr @x @x = global i32 0", "V2 at @a")
    refused("declare common void @f()", "V2 at @f")


def commons():
    """V3: `common` is for variables that are not constant, with the initialiser 0, `false`, `null` or `zeroinitializer`."""
    valid("@a = common global ptr null @b = common global i1 false @c = common global i8 -0")
    valid("@c = common global [2 x { i8, ptr }] zeroinitializer, align 65536")
    refused("@c = common constant i32 0", "V3 at @c")
    refused("@c = common global i32 undef", "V3 at @c")
    refused("@c = common global [1 x i32] [i32 0]", "V3 at @c")
    refused("define common void @f() { ret void }", "V3 at @f")
    refused("@a = common alias i32, ptr @x @x = global i32 0", "V3 at @a")


def appending():
    """V4: `appending` is for variables of an array type whose elements name no struct, with a bracketed list, or
    `zeroinitializer` at length 0."""
    valid("@a = appending global [0 x i8] zeroinitializer")
    valid("@a = appending constant [2 x { i8, [3 x ptr] }] [{ i8, [3 x ptr] } zeroinitializer, { i8, [3 x ptr] } undef] @b = appending global [0 x ptr] []")
    refused("@a = appending global [1 x i32] zeroinitializer", "V4 at @a")
    refused("@a = appending global [0 x i32] undef", "V4 at @a")
    refused("%T = type { i32 } @a = appending global [0 x %T] []", "V4 at @a")
    refused("%T = type { i32 } @a = appending global [1 x { i8, [2 x %T] }] [{ i8, [2 x %T] } zeroinitializer]", "V4 at @a")
    refused("@a = appending global [2 x i8] c\"ab\"", "V4 at @a")
    refused("@a = appending global { i32 } { i32 0 }", "V4 at @a")
    refused("define appending void @f() { ret void }", "V4 at @f")
    refused("@a = appending alias [1 x i32], ptr @x @x = global [1 x i32] [i32 0]", "V4 at @a")


def intrinsics():
    """V5: a name that begins `llvm.` is an intrinsic that is only called, or a list of constructors or of what is used."""
    valid("declare i16 @llvm.bswap.i16(i16) define i16 @f(i16 %x) { %1 = call i16 @llvm.bswap.i16(i16 %x) ret i16 %1 }")
    valid("declare void @llvm() @llvm_used = global [0 x ptr] [] @llvmx.used = global i8 0")
    valid("@llvm.global_ctors = appending global [2 x { i32, ptr, ptr }] [{ i32, ptr, ptr } { i32 -1, ptr @a, ptr @x }, "
          "{ i32, ptr, ptr } { i32 0, ptr null, ptr undef }] @x = global i8 0 @a = alias void (), ptr @f define void @f() { ret void }")
    valid("@llvm.global_dtors = appending global [0 x { i32, ptr, ptr }] zeroinitializer @llvm.used = appending global [1 x ptr] [ptr @f] declare void @f()")
    valid("@llvm.compiler.used = appending constant [0 x ptr] zeroinitializer declare { i128, i1 } @llvm.umul.with.overflow.i128(i128, i128)")
    valid("declare void @llvm.memcpy.p0.p0.i64(ptr, ptr, i64, i1) declare void @llvm.memset.p0.i32(ptr, i8, i32, i1) declare i1 @llvm.ctpop.i1(i1)")
    valid("declare void @llvm.lifetime.start.p0(i64, ptr) declare void @llvm.lifetime.end.p0(i64, ptr) declare i128 @llvm.fshr.i128(i128, i128, i128)")
    valid("declare void @llvm.lifetime.start.p0(ptr) declare void @llvm.lifetime.end.p0(ptr)")
    # The type that is called is the one that is written, elements of what is used may be anything, and a list is no intrinsic.
    valid("declare i8 @llvm.ctpop.i8(i8) " + body("%1 = call i16 @llvm.ctpop.i8(i16 1)"))
    valid("@llvm.used = appending global [1 x ptr] [ptr null]")
    valid("@llvm.used = appending global [1 x ptr] [ptr @x] @x = internal global ptr @llvm.used")
    # The address of an intrinsic, in an initialiser, an operand, an alias, a list, and within a callee.
    refused("@p = global ptr @llvm.abs.i32 declare i32 @llvm.abs.i32(i32, i1)", "V5 at @p")
    refused("@p = global [1 x { i64 }] [{ i64 } { i64 ptrtoint (ptr @llvm.ctpop.i8 to i64) }] declare i8 @llvm.ctpop.i8(i8)", "V5 at @p")
    refused("declare i8 @llvm.ctpop.i8(i8) define void @f() { store i8 0, ptr null store ptr @llvm.ctpop.i8, ptr null ret void }", "V5 at instruction 1 of @f")
    refused("declare i8 @llvm.ctpop.i8(i8) declare void @g(ptr) define void @f() { call void @g(ptr @llvm.ctpop.i8) ret void }", "V5 at instruction 0 of @f")
    refused("declare i8 @llvm.ctpop.i8(i8) define ptr @f() { ret ptr @llvm.ctpop.i8 }", "V5 at instruction 0 of @f")
    refused("declare i8 @llvm.ctpop.i8(i8) define i8 @f() { %1 = call i8 getelementptr (i8, ptr @llvm.ctpop.i8, i32 0)(i8 1) ret i8 %1 }", "V5 at instruction 0 of @f")
    refused("@a = alias i8 (i8), ptr @llvm.ctpop.i8 declare i8 @llvm.ctpop.i8(i8)", "V5 at @a")
    refused("@llvm.used = appending global [1 x ptr] [ptr @llvm.ctpop.i8] declare i8 @llvm.ctpop.i8(i8)", "V5 at @llvm.used")
    # Other types, names and widths than the table has, and what is defined.
    refused("define i32 @llvm.abs.i32(i32 %x, i1 %y) { ret i32 %x }", "V5 at @llvm.abs.i32")
    refused("declare i32 @llvm.abs.i32(i32)", "V5 at @llvm.abs.i32")
    refused("declare i8 @llvm.ctpop.i08(i8)", "V5 at @llvm.ctpop.i08")
    refused("declare i64 @llvm.ctpop.i129(i64)", "V5 at @llvm.ctpop.i129")
    refused("declare { i8, i1 } @llvm.sadd.with.overflow.i8(i8, i8, ...)", "V5 at @llvm.sadd.with.overflow.i8")
    refused("%P = type { i8, i1 } declare %P @llvm.sadd.with.overflow.i8(i8, i8)", "V5 at @llvm.sadd.with.overflow.i8")
    refused("@llvm.x = global i32 0", "V5 at @llvm.x")
    refused("@llvm.x = alias i32, ptr @x @x = global i32 0", "V5 at @llvm.x")
    refused("@p = global ptr @llvm.x @llvm.x = alias i32, ptr @x @x = global i32 0", "V5 at @llvm.x")
    refused("@llvm.used = global [0 x ptr] []", "V5 at @llvm.used")
    refused("@llvm.used = external global [0 x ptr]", "V5 at @llvm.used")
    refused("@llvm.used = appending global [1 x i64] [i64 0]", "V5 at @llvm.used")
    refused("@llvm.global_ctors = appending global [0 x i32] zeroinitializer", "V5 at @llvm.global_ctors")
    refused("@llvm.ctors = appending global [0 x { i32, ptr, ptr }] zeroinitializer", "V5 at @llvm.ctors")
    refused("declare i32 @llvm.memset.p0.i64(ptr, i8, i64, i1)", "V5 at @llvm.memset.p0.i64")
    refused("declare void @llvm.memset.p0.i64(ptr, i32, i64, i1)", "V5 at @llvm.memset.p0.i64")
    refused("declare void @llvm.memcpy.p0.p0.i32(ptr, ptr, i64, i1)", "V5 at @llvm.memcpy.p0.p0.i32")
    refused("declare void @llvm.lifetime.start.p0(i32, ptr)", "V5 at @llvm.lifetime.start.p0")
    refused("declare i16 @llvm.ctlz.i16(i16)", "V5 at @llvm.ctlz.i16")
    refused("declare i16 @llvm.fshl.i16(i16, i16)", "V5 at @llvm.fshl.i16")
    refused("declare i16 @llvm.ctpop.i32(i32)", "V5 at @llvm.ctpop.i32")
    refused("define void @llvm.used() { ret void }", "V5 at @llvm.used")
    # What is not of the form of a constructor.
    refused("@llvm.global_ctors = appending global [1 x { i32, ptr, ptr }] [{ i32, ptr, ptr } zeroinitializer]", "V5 at @llvm.global_ctors")
    refused("@llvm.global_ctors = appending global [1 x { i32, ptr, ptr }] [{ i32, ptr, ptr } { i32 1, ptr @x, ptr null }] @x = global i8 0", "V5 at @llvm.global_ctors")
    refused("@llvm.global_ctors = appending global [1 x { i32, ptr, ptr }] [{ i32, ptr, ptr } { i32 1, ptr @a, ptr null }] @a = alias i8, ptr @x @x = global i8 0", "V5 at @llvm.global_ctors")
    refused("@llvm.global_ctors = appending global [1 x { i32, ptr, ptr }] [{ i32, ptr, ptr } { i32 undef, ptr @f, ptr null }] declare void @f()", "V5 at @llvm.global_ctors")
    refused("@llvm.global_dtors = appending global [1 x { i32, ptr, ptr }] [{ i32, ptr, ptr } { i32 1, ptr undef, ptr null }]", "V5 at @llvm.global_dtors")
    refused("@llvm.global_dtors = appending global [1 x { i64, ptr, ptr }] [{ i64, ptr, ptr } { i64 1, ptr null, ptr null }]", "V5 at @llvm.global_dtors")
    refused("@llvm.global_dtors = appending global [1 x { i32, ptr, ptr }] [{ i64, ptr, ptr } { i64 1, ptr null, ptr null }]", "V5 at @llvm.global_dtors")
    refused("@llvm.global_dtors = appending global [1 x { i32, ptr, ptr }] [{ i32, ptr, ptr } { i64 1, ptr null, ptr null }]", "V5 at @llvm.global_dtors")
    refused("@llvm.global_dtors = appending global [1 x { i32, ptr, ptr }] [{ i32, ptr, ptr } <{ i32 1, ptr null, ptr null }>]", "V5 at @llvm.global_dtors")


def types():
    """V6: what is handed on has a layout of at most 65,536 leaves, what lies in memory has a layout; `void` is a return type alone."""
    valid("%T = type opaque @v = external global %T @w = external global [2 x { %T }]")
    valid("@v = global [65537 x i8] zeroinitializer " + body("%1 = alloca [65537 x i8] %2 = getelementptr [65537 x i8], ptr %1, i32 0"))
    valid("declare [65536 x i8] @f({ [32768 x i8], [16384 x { ptr, i128 }] })")
    valid("define { } @f([0 x i8] %x, { } %y) { store [0 x i8] %x, ptr null ret { } %y }")
    refused("declare void @f([65537 x i8])", "V6 at @f")
    refused("declare { i8, [65536 x { }], [65536 x i8] } @f()", "V6 at @f")
    refused("declare void @f(void)", "V6 at @f")
    refused("declare [1 x void] @f()", "V6 at @f")
    refused("%T = type opaque declare void @f(ptr, %T)", "V6 at @f")
    refused("%T = type { i8, %U } %U = type { [0 x %V] } %V = type opaque define %T @f() { unreachable }", "V6 at @f")
    refused("@v = external global void", "V6 at @v")
    refused("@v = external global [2 x { i8, void }]", "V6 at @v")
    refused("%T = type opaque @v = global [0 x %T] zeroinitializer", "V6 at @v")
    refused("@a = alias void, ptr @x @x = global i8 0", "V6 at @a")
    refused("@a = alias void (i8, void), ptr @f define void @f() { ret void }", "V6 at @a")
    refused("%T = type opaque @a = alias void (%T), ptr @f define void @f() { ret void }", "V6 at @a")
    refused("%T = type opaque @a = alias %T (), ptr @f define void @f() { ret void }", "V6 at @a")
    # A struct's body is nothing that an entity writes, parts of a list are no operands, and an alias's plain type needs no layout.
    valid("@v = global [1 x [65537 x i8]] [[65537 x i8] zeroinitializer] @x = appending global [1 x [1099511627776 x i8]] [[1099511627776 x i8] zeroinitializer]")
    valid("%T = type { void }")
    valid("%T = type opaque @a = alias %T, ptr @x @x = global i8 0 @b = alias void (ptr, ...), ptr @f define void @f() { ret void }")
    broken("%1 = alloca void", 6)
    broken("%1 = load void, ptr null", 6)
    broken("%1 = load [65537 x i8], ptr null", 6)
    broken("store [65537 x i8] zeroinitializer, ptr null", 6)
    broken("%1 = getelementptr void, ptr null, i32 0", 6)
    broken("%1 = insertvalue [65537 x i8] undef, i8 0, 0", 6)
    broken("%1 = extractvalue { i8, [65536 x i8] } undef, 0", 6)
    broken("call void (void) null(void undef)", 6)
    broken("call void (...) null(void undef)", 6)
    broken("call void getelementptr (void, ptr null, i32 0)()", 6)
    broken("call void ([65537 x i8]) null([65537 x i8] undef)", 6)
    broken("%1 = call [65537 x i8] null()", 6)
    broken("call void ([65537 x i8]) null()", 6)
    broken("%1 = freeze void undef", 6)
    broken("%1 = trunc i8 1 to void", 6)
    broken("%1 = alloca i8, void undef", 6)
    broken("%1 = ptrtoint ptr getelementptr ({ void }, ptr null, i32 0) to i64", 6)
    held("%1 = load [65536 x i8], ptr null store [65536 x i8] %1, ptr null")
    refused("%T = type opaque define void @f() { %1 = alloca [0 x %T] ret void }", "V6 at instruction 0 of @f")
    refused("%T = type opaque define void @f() { %1 = getelementptr %T, ptr null, i32 0 ret void }", "V6 at instruction 0 of @f")
    refused("%T = type opaque define void @f() { br label %a a: %x = phi %T [ undef, %0 ] ret void }", "V6 at instruction 1 of @f")
    refused("define [65537 x i8] @f() { ret [65537 x i8] undef }", "V6 at @f")
    # Operands of constant expressions.
    refused("@v = global ptr getelementptr ([65537 x i8], ptr @v, [65537 x i8] undef)", "V6 at @v")
    refused("%T = type opaque @v = global ptr getelementptr (%T, ptr @v, i32 0)", "V6 at @v")
    refused("@v = global i64 ptrtoint (void undef to i64)", "V6 at @v")
    refused("@v = global ptr inttoptr (i64 0 to void)", "V6 at @v")
    refused("@v = global i8 add ([65537 x i8] undef, i8 1)", "V6 at @v")
    refused("@v = global i8 add (i8 1, [65537 x i8] undef)", "V6 at @v")
    refused("@v = global [1 x i8] [void undef]", "V6 at @v")


def alignments():
    """V7: a power of two, at most 65,536."""
    valid("@x = global i32 0, align 65536 @y = external global i8, align 1")
    held("%1 = alloca i8, align 65536 %2 = load i128, ptr %1, align 1 store i8 0, ptr %1, align 32768")
    # What is dropped is not judged.
    valid("declare void @f(ptr align 3) align 3")
    refused("@x = global i32 0, align 0", "V7 at @x")
    refused("@x = external global i32, align 131072", "V7 at @x")
    refused("@x = global i32 0, align 4294967295", "V7 at @x")
    broken("%1 = alloca i8, align 131072", 7)
    broken("%1 = load i8, ptr null, align 6", 7)
    broken("store i8 0, ptr null, align 0", 7)


def entries():
    """V8: nothing goes to the entry block, be it reached or not."""
    valid("define void @f() { br label %a a: br label %a }")
    valid("define void @f() { unreachable 1: br label %1 }")
    refused("define void @f(i1 %c) { e: br label %a a: br i1 %c, label %b, label %e b: ret void }", "V8 at %e of @f")
    refused("define void @f(i8 %x) { switch i8 %x, label %1 [ i8 1, label %0 ] 1: ret void }", "V8 at %0 of @f")
    refused("define void @\"f g\"() { \"a b\": ret void b: br label %\"a b\" }", "V8 at %\"a b\" of @\"f g\"")
    refused("define void @f() { \"0\": br label %\"0\" }", "V8 at %\"0\" of @f")


def phis():
    """V9: first in their block, one entry for each incoming edge, and equal ones for one block."""
    valid("define i32 @f(i1 %c) { br i1 %c, label %1, label %1 1: %2 = phi i32 [ 5, %0 ], [ 5, %0 ] ret i32 %2 }")
    valid("define i8 @f(i1 %c) { br i1 %c, label %1, label %1 1: %2 = phi i8 [ -1, %0 ], [ 255, %0 ] ret i8 %2 }")
    valid("define i32 @f() { br label %a u: br label %a a: %x = phi i32 [ 2, %u ], [ 1, %0 ] ret i32 %x }")
    valid("define i32 @f(i8 %c, i32 %v) { switch i8 %c, label %a [ i8 1, label %a i8 2, label %b ] a: %x = phi i32 [ %v, %0 ], [ %v, %0 ] "
          "%y = phi i1 [ true, %0 ], [ 1, %0 ] ret i32 %x b: ret i32 0 }")
    refused("define i32 @f(i1 %c) { br i1 %c, label %1, label %1 1: %2 = phi i32 [ 5, %0 ] ret i32 %2 }", "V9 at instruction 1 of @f")
    refused("define i32 @f(i1 %c) { br i1 %c, label %1, label %1 1: %2 = phi i32 [ 5, %0 ], [ 6, %0 ] ret i32 %2 }", "V9 at instruction 1 of @f")
    refused("define i32 @f(i1 %c, i32 %v) { br i1 %c, label %1, label %1 1: %2 = phi i32 [ 5, %0 ], [ %v, %0 ] ret i32 %2 }", "V9 at instruction 1 of @f")
    refused("define ptr @f(i1 %c) { br i1 %c, label %1, label %1 1: %2 = phi ptr [ inttoptr (i8 1 to ptr), %0 ], [ inttoptr (i16 1 to ptr), %0 ] ret ptr %2 }", "V9 at instruction 1 of @f")
    refused("define i32 @f() { br label %a a: %x = add i32 1, 1 %y = phi i32 [ 1, %0 ] ret i32 %y }", "V9 at instruction 2 of @f")
    refused("define i32 @f() { br label %a a: %x = phi i32 [ 1, %0 ], [ 1, %0 ] ret i32 %x }", "V9 at instruction 1 of @f")
    refused("define i32 @f() { br label %a b: ret i32 0 a: %x = phi i32 [ 1, %b ] ret i32 %x }", "V9 at instruction 2 of @f")
    refused("define i32 @f() { %1 = phi i32 [ 1, %0 ] ret i32 %1 }", "V9 at instruction 0 of @f")
    refused("define i32 @f() { ret i32 0 u: %x = phi i32 [ 1, %0 ] ret i32 %x }", "V9 at instruction 1 of @f")


def definedness():
    """V10: on every path to a use the value was defined; a phi uses its value at the end of the block that it comes from."""
    valid("define i32 @f(i1 %c) { br label %l l: %x = phi i32 [ 0, %0 ], [ %y, %l ] %y = add i32 %x, 1 br i1 %c, label %l, label %e e: ret i32 %y }")
    valid("define i32 @f() { ret i32 0 u: %x = add i32 %y, 1 %y = add i32 %x, 1 br label %u }")
    valid("define i32 @f(i1 %c, i32 %p) { br i1 %c, label %a, label %b b: %y = add i32 %p, 1 br label %d a: %x = add i32 %p, 2 br label %d "
          "d: %z = phi i32 [ %y, %b ], [ %x, %a ] ret i32 %z }")
    # Blocks in any order, a definition in a loop that is left, and one that is passed on both arms.
    valid("define i32 @f() { br label %b a: ret i32 %x b: %x = add i32 1, 1 br label %a }")
    valid("define i32 @f(i1 %c) { br label %l l: %x = add i32 1, 1 br i1 %c, label %l, label %m m: br i1 %c, label %m, label %e e: ret i32 %x }")
    valid("define i32 @f(i1 %c) { %x = add i32 1, 1 br i1 %c, label %a, label %b a: br label %d b: br label %d d: ret i32 %x }")
    # An unreachable block leads to the use.
    valid("define i32 @f() { %x = add i32 1, 1 br label %b u: br label %b b: ret i32 %x }")
    # A value that is used by a phi only on the edge from an unreachable block.
    valid("define i32 @f() { br label %a u: %x = add i32 %x, 1 br label %a a: %y = phi i32 [ %x, %u ], [ 0, %0 ] ret i32 %y }")
    refused("define i32 @f() { %x = add i32 %y, 1 %y = add i32 1, 1 ret i32 %x }", "V10 at instruction 0 of @f")
    refused("define i32 @f() { %x = add i32 1, %x ret i32 %x }", "V10 at instruction 0 of @f")
    refused("define i32 @f(i1 %c) { br i1 %c, label %a, label %b a: %x = add i32 1, 1 br label %b b: %y = add i32 1, 1 ret i32 %x }", "V10 at instruction 4 of @f")
    refused("define i32 @f(i1 %c) { br i1 %c, label %a, label %b a: %x = add i32 1, 1 br label %b b: %y = phi i32 [ 0, %a ], [ %x, %0 ] ret i32 %y }",
            "V10 at instruction 3 of @f")
    refused("define i32 @f(i1 %c) { br label %l l: %x = phi i32 [ %y, %0 ], [ %y, %l ] %y = add i32 %x, 1 br i1 %c, label %l, label %e e: ret i32 %y }",
            "V10 at instruction 1 of @f")
    refused("define i32 @f(i1 %c) { br i1 %c, label %a, label %b a: %x = add i32 1, 1 br label %d b: %y = add i32 1, 1 br label %d d: ret i32 %x }",
            "V10 at instruction 5 of @f")
    # A phi's own value on the edge into the loop, and a value of the loop before it is made.
    refused("define i32 @f() { br label %l l: %x = phi i32 [ %x, %0 ], [ 1, %l ] br label %l }", "V10 at instruction 1 of @f")
    refused("define void @f(i1 %c) { br label %l l: br i1 %c, label %a, label %b a: store i32 %x, ptr null br label %l b: %x = add i32 1, 1 br label %l }",
            "V10 at instruction 2 of @f")
    # A callee, a condition, an index, an inserted part, and a return.
    refused("define void @f() { call void %x() %x = inttoptr i64 1 to ptr ret void }", "V10 at instruction 0 of @f")
    refused("define void @f(i1 %c) { br i1 %c, label %a, label %b a: %x = add i1 1, 1 br label %b b: br i1 %x, label %d, label %d d: ret void }", "V10 at instruction 3 of @f")
    refused("define void @f() { %1 = getelementptr i8, ptr null, i32 %2 %2 = add i32 1, 1 ret void }", "V10 at instruction 0 of @f")
    refused("define void @f() { br label %a b: ret void a: %x = insertvalue { i32 } undef, i32 %y, 0 %y = add i32 1, 1 br label %b }", "V10 at instruction 2 of @f")


def written():
    """V11: a local value has the type that is written for it, struct by struct name."""
    valid("%T = type { i32 } define %T @f(%T %x, { i32 } %y) { %z = insertvalue %T %x, i32 1, 0 %w = insertvalue { i32 } %y, i32 1, 0 ret %T %z }")
    valid("define i1 @f(i64 %x, ptr %p) { %y = icmp eq i64 %x, %x %q = getelementptr i8, ptr %p, i64 %x %z = select i1 %y, ptr %q, ptr %p store i1 %y, ptr %z ret i1 %y }")
    refused("%T = type { i32 } define { i32 } @f(%T %x) { ret { i32 } %x }", "V11 at instruction 0 of @f")
    refused("%T = type { i32 } %U = type { i32 } define void @f(%T %x) { store %U %x, ptr null ret void }", "V11 at instruction 0 of @f")
    refused("declare i64 @g() define i32 @f(i32 %x) { %y = call i64 @g() %z = add i32 %x, %y ret i32 %z }", "V11 at instruction 1 of @f")
    refused("define i32 @f() { br label %a b: ret i32 %x a: %x = add i64 1, 1 br label %b }", "V11 at instruction 1 of @f")
    refused("define void @f({ i8 } %x) { %1 = extractvalue <{ i8 }> %x, 0 ret void }", "V11 at instruction 0 of @f")
    refused("define i8 @f() { br label %l l: %x = phi i8 [ 0, %0 ], [ %y, %l ] %y = add i16 1, 1 br label %l }", "V11 at instruction 1 of @f")
    refused("define void @f(i8 %x) { switch i16 %x, label %a [ ] a: ret void }", "V11 at instruction 0 of @f")
    # A local without a type fails where it is used first.
    refused("define void @f() { br label %b a: store i32 %x, ptr null ret void b: %x = call void null() br label %a }", "V11 at instruction 1 of @f")


def arithmetic():
    """V12: arithmetic is on integers, `icmp` on integers or, without `samesign`, on `ptr`; a select has an `i1` and two arms of one type."""
    held("%1 = icmp slt ptr null, undef %2 = select i1 %1, { ptr } undef, { ptr } zeroinitializer")
    held("%1 = icmp eq i1 true, false %2 = xor i1 %1, true %3 = shl i128 1, 200 %4 = freeze ptr null")
    held("%1 = icmp samesign ult i8 1, 2")
    broken("%1 = icmp samesign eq ptr null, null", 12)
    broken("%1 = icmp eq { i32 } undef, undef", 12)
    broken("%1 = or [2 x i8] undef, undef", 12)
    broken("%1 = select i32 1, i8 1, i8 2", 12)
    broken("%1 = select i1 1, i32 1, i64 2", 12)
    refused("%T = type { i8 } %U = type { i8 } " + body("%1 = select i1 1, %T undef, %U undef"), "V12 at instruction 0 of @f")


def casts():
    """V13: `trunc` narrows, `zext` and `sext` widen integers; `ptrtoint` goes from `ptr` to an integer, `inttoptr` the other way."""
    held("%1 = trunc i2 1 to i1 %2 = zext i1 %1 to i2 %3 = sext i127 -1 to i128")
    held("%1 = ptrtoint ptr null to i1 %2 = inttoptr i1 %1 to ptr %3 = ptrtoint ptr %2 to i128 %4 = inttoptr i128 %3 to ptr")
    broken("%1 = trunc i8 1 to i8", 13)
    broken("%1 = sext i8 1 to i8", 13)
    broken("%1 = zext i8 1 to ptr", 13)
    broken("%1 = trunc ptr null to i8", 13)
    broken("%1 = ptrtoint i64 0 to i32", 13)
    broken("%1 = ptrtoint ptr null to ptr", 13)
    broken("%1 = inttoptr ptr null to ptr", 13)
    broken("%1 = inttoptr i64 0 to i64", 13)
    broken("%1 = sext { i8 } undef to i16", 13)


def addresses():
    """V14: an address is a `ptr`, and an `alloca` counts by an integer."""
    held("%1 = alloca i8, i1 true %2 = alloca [0 x i8], i128 0 %3 = alloca { }, i64 -1")
    held("store volatile { } undef, ptr null %1 = load volatile [0 x ptr], ptr undef store ptr null, ptr poison")
    broken("%1 = load i32, i64 0", 14)
    broken("%1 = load i8, { ptr } undef", 14)
    broken("store i8 0, i8 0", 14)
    broken("%1 = alloca i8, ptr null", 14)
    broken("%1 = alloca i8, { i32 } undef", 14)


def indices():
    """V15: a base `ptr`, integer indices; each behind the first goes into an array, or is a number of type `i32` that a struct has a field for."""
    held("%1 = getelementptr [0 x i8], ptr null, i1 true, i128 5 %2 = getelementptr i8, ptr null")
    held("%1 = getelementptr { i8, [2 x { i16 }] }, ptr null, i64 -7, i32 1, i8 undef, i32 0")
    valid("%T = type { i8, %U } %U = type <{ ptr, [1 x i8] }> define void @f(i64 %x) { %1 = getelementptr %T, ptr null, i64 %x, i32 1, i32 1, i64 %x ret void }")
    broken("%1 = getelementptr { i32 }, ptr null, i32 0, i64 0", 15)
    broken("%1 = getelementptr { i32 }, ptr null, i32 0, i32 -1", 15)
    broken("%1 = getelementptr { i32, i32 }, ptr null, i32 0, i32 undef", 15)
    broken("%1 = getelementptr { i32, i32 }, ptr null, i32 0, i32 zeroinitializer", 15)
    broken("%1 = getelementptr i8, ptr null, i32 0, i32 0", 15)
    broken("%1 = getelementptr ptr, ptr null, i32 0, i32 0", 15)
    broken("%1 = getelementptr { }, ptr null, i32 0, i32 0", 15)
    broken("%1 = getelementptr i8, i64 0, i32 0", 15)
    broken("%1 = getelementptr i8, ptr null, ptr null", 15)
    broken("%1 = getelementptr [2 x i8], ptr null, i32 0, ptr null", 15)
    refused("define void @f(i32 %x) { %1 = getelementptr { i32 }, ptr null, i32 0, i32 %x ret void }", "V15 at instruction 0 of @f")


def aggregates():
    """V16: the indices of `extractvalue` and `insertvalue` lead to a part, and what is inserted has its type."""
    held("%1 = extractvalue [2 x i8] undef, 1 %2 = insertvalue { i8, [1 x { ptr }] } undef, ptr null, 1, 0, 0")
    valid("%T = type { i8, %U } %U = type { ptr } define %U @f(%T %x) { %1 = extractvalue %T %x, 1 %2 = insertvalue %T %x, %U %1, 1 ret %U %1 }")
    broken("%1 = extractvalue [2 x i8] undef, 2", 16)
    broken("%1 = extractvalue i8 1, 0", 16)
    broken("%1 = extractvalue { } undef, 0", 16)
    broken("%1 = extractvalue { ptr } undef, 0, 0", 16)
    broken("%1 = insertvalue { i8 } undef, i16 0, 0", 16)
    broken("%1 = insertvalue { i8, [2 x i8] } undef, i8 0, 1", 16)
    broken("%1 = insertvalue [2 x i8] undef, i8 0, 4294967295", 16)
    refused("%U = type { ptr } %V = type { ptr } " + body("%1 = insertvalue { %U } undef, %V undef, 0"), "V16 at instruction 0 of @f")


def calls():
    """V17: calls and ends of blocks."""
    valid("declare void @g(i32, ...) " + body("call void (i32, ...) @g(i32 1, i64 2, ptr null) call void (i32, ...) @g(i32 1) call void (...) @g()"))
    held("call void null() %1 = call i32 (ptr) undef(ptr null) call void inttoptr (i64 16 to ptr)()")
    valid("define i8 @f(i8 %x, i1 %c) { switch i1 %c, label %a [ i1 true, label %b i1 false, label %a ] a: switch i8 %x, label %b [ i8 -1, label %b i8 1, label %b ] b: ret i8 %x }")
    # The type that is called is the one that is written.
    valid("declare i64 @g(i8) " + body("%1 = call i32 @g(i32 1)"))
    valid("declare void @g() define i32 @f(ptr %g) { call void %g() br i1 undef, label %a, label %a a: ret i32 undef }")
    valid("define void @f() { switch i128 0, label %a [ ] a: unreachable }")
    broken("call void (i32, i32) null(i32 1)", 17)
    broken("call void (i32) null(i32 1, i32 2)", 17)
    broken("call void (i32) null(i64 1)", 17)
    broken("call void (i32, ...) null()", 17)
    broken("call void (i32, ...) null(ptr null)", 17)
    broken("%1 = call void null()", 17)
    broken("call void 5()", 17)
    broken("call void ptrtoint (ptr null to i64)()", 17)
    broken("call void { ptr null }()", 17)
    refused("define void @f(i64 %x) { call void %x() ret void }", "V17 at instruction 0 of @f")
    refused("declare void @g() define void @f() { %x = call void @g() ret void }", "V17 at instruction 0 of @f")
    refused("define void @f() { ret i32 0 }", "V17 at instruction 0 of @f")
    refused("define i32 @f() { ret i64 0 }", "V17 at instruction 0 of @f")
    refused("%T = type { i8 } define %T @f() { ret { i8 } undef }", "V17 at instruction 0 of @f")
    refused("define void @f() { br i8 1, label %a, label %a a: ret void }", "V17 at instruction 0 of @f")
    refused("define void @f() { switch ptr null, label %a [ ] a: ret void }", "V17 at instruction 0 of @f")
    refused("define void @f() { switch i8 1, label %a [ i8 -1, label %a i8 255, label %a ] a: ret void }", "V17 at instruction 0 of @f")
    refused("define void @f() { switch i8 1, label %a [ i16 1, label %a ] a: ret void }", "V17 at instruction 0 of @f")
    refused("define void @f() { switch i8 1, label %a [ i8 1, label %a i8 undef, label %a ] a: ret void }", "V17 at instruction 0 of @f")
    refused("define void @f(i1 %c) { switch i1 %c, label %a [ i1 true, label %a i1 -1, label %a ] a: ret void }", "V17 at instruction 0 of @f")


def constants():
    """V18: a constant fits its type."""
    valid("@x = global [3 x i8] c\"a\\00b\" @y = global [0 x i8] c\"\" @z = global [0 x ptr] [] @u = global { } { } @v = global { } zeroinitializer @w = global i32 zeroinitializer")
    valid("%T = type <{ i8, ptr }> @x = global %T <{ i8 255, ptr @x }> @y = global [2 x %T] [%T undef, %T <{ i8 1, ptr @f }>] declare void @f()")
    valid("@x = global i64 ptrtoint (ptr @x to i64) @y = global ptr inttoptr (i64 add (i64 ptrtoint (ptr @x to i64), i64 1) to ptr) "
          "@z = global i8 trunc (i64 sub (i64 ptrtoint (ptr @x to i64), i64 ptrtoint (ptr @y to i64)) to i8)")
    valid("@x = global ptr getelementptr ({ i8, [2 x i16] }, ptr @x, i64 1, i32 1, i64 0) @y = global { i8, ptr, i1 } { i8 poison, ptr undef, i1 true }")
    refused("@x = global i32 true", "V18 at @x")
    refused("@x = global ptr 0", "V18 at @x")
    refused("@x = global i32 @x", "V18 at @x")
    refused("@x = global [2 x i8] c\"abc\"", "V18 at @x")
    refused("@x = global [2 x i16] c\"ab\"", "V18 at @x")
    refused("@x = global [1 x i8] { i8 0 }", "V18 at @x")
    refused("@x = global { i8 } [i8 0]", "V18 at @x")
    refused("@x = global { } []", "V18 at @x")
    refused("@x = global [0 x i8] { }", "V18 at @x")
    refused("@x = global [2 x i8] [i8 0]", "V18 at @x")
    refused("@x = global [1 x i8] [i8 0, i8 0]", "V18 at @x")
    refused("@x = global [1 x i8] [i16 0]", "V18 at @x")
    refused("@x = global { i8, i8 } { i8 0 }", "V18 at @x")
    refused("@x = global { i8 } { i8 0, i8 0 }", "V18 at @x")
    refused("@x = global <{ i8 }> { i8 0 }", "V18 at @x")
    refused("@x = global { i8, { i8, i1 } } { i8 0, { i8, i1 } { i8 0, i1 null } }", "V18 at @x")
    refused("%T = type { i8 } @x = global %T <{ i8 0 }>", "V18 at @x")
    refused("%T = type { i8 } @x = global { %T } { { i8 } { i8 0 } }", "V18 at @x")
    # Constant expressions.
    refused("@x = global i64 trunc (i32 1 to i8)", "V18 at @x")
    refused("@x = global i8 trunc (i8 1 to i8)", "V18 at @x")
    refused("@x = global i64 ptrtoint (i64 1 to i64)", "V18 at @x")
    refused("@x = global ptr inttoptr (ptr @x to ptr)", "V18 at @x")
    refused("@x = global i8 add (i8 1, i16 1)", "V18 at @x")
    refused("@x = global i16 xor (i8 1, i8 1)", "V18 at @x")
    refused("@x = global ptr add (ptr @x, ptr @x)", "V18 at @x")
    refused("@x = global i64 sub (i64 ptrtoint (ptr @x to i64), i64 null)", "V18 at @x")
    refused("@x = global i64 sub (i64 null, i64 1)", "V18 at @x")
    refused("@x = global i64 ptrtoint (ptr 5 to i64)", "V18 at @x")
    refused("@x = global ptr getelementptr (i8, ptr 5, i32 1)", "V18 at @x")
    refused("@x = global ptr getelementptr (i8, ptr @x, i32 null)", "V18 at @x")
    refused("@x = global i64 getelementptr (i8, ptr @x, i32 1)", "V18 at @x")
    refused("@x = global ptr getelementptr (i8, ptr @x, ptr @x)", "V18 at @x")
    refused("@x = global ptr getelementptr (i8, i64 0, i32 1)", "V18 at @x")
    refused("@x = global ptr getelementptr ({ i8 }, ptr @x, i32 0, i32 1)", "V18 at @x")
    refused("@x = global ptr getelementptr ({ i8 }, ptr @x, i32 0, i64 0)", "V18 at @x")
    # Operands.
    refused("define i8 @f() { ret i8 null }", "V18 at instruction 0 of @f")
    refused("define void @f() { br i1 null, label %a, label %a a: ret void }", "V18 at instruction 0 of @f")
    broken("%1 = add i8 1, null", 18)
    broken("%1 = icmp eq ptr null, 0", 18)
    broken("store [2 x i8] c\"a\", ptr null", 18)
    broken("%1 = alloca i8, i32 true", 18)
    broken("call void inttoptr (ptr null to ptr)()", 18)
    broken("call void (ptr) null(ptr 0)", 18)
    broken("%1 = select i1 null, i8 1, i8 2", 18)
    broken("%1 = getelementptr i8, ptr 5, i32 1", 18)


def aliases():
    """V19: an alias and what it is of are external, private or internal, the target is defined, and the type is a function type
    exactly where the target is a function."""
    valid("@a = private alias i32, ptr @x @x = internal constant i32 0 @b = internal alias i8, ptr @y @y = private global i32 0")
    valid("@a = alias i32 (i8, ...), ptr @f define private void @f() { ret void } @b = alias i64, ptr @x @x = global i32 0")
    refused("@a = alias i32, ptr @f define void @f() { ret void }", "V19 at @a")
    refused("@a = alias i32 (), ptr @x @x = global i32 0", "V19 at @a")
    refused("@a = alias i32, ptr @b @b = alias i32, ptr @x @x = global i32 0", "V19 at @a")
    refused("@a = alias i32, ptr @a", "V19 at @a")
    refused("@a = alias i32, ptr @x @x = weak global i32 0", "V19 at @a")
    refused("@a = alias i32, ptr @x @x = common global i32 0", "V19 at @a")
    refused("@a = alias void (), ptr @f define linkonce_odr void @f() { ret void }", "V19 at @a")
    refused("@a = alias void (), ptr @f declare void @f()", "V19 at @a")
    refused("@a = alias i32, ptr @x @x = available_externally global i32 0", "V19 at @a")
    refused("@a = linkonce_odr alias i32, ptr @x @x = global i32 0", "V19 at @a")
    refused("@a = available_externally alias i32, ptr @x @x = global i32 0", "V19 at @a")
    refused("@a = alias [0 x ptr], ptr @x @x = appending global [0 x ptr] []", "V19 at @a")
    refused("@a = alias [0 x ptr], ptr @llvm.used @llvm.used = appending global [0 x ptr] []", "V19 at @a")


def orders():
    """Two rules fail: the first entity is told, and there the least rule. Variables come first, then aliases, then functions."""
    refused("@x = global i32 null, align 3 target datalayout = \"E\"", "V1 at module")
    refused("@c = common constant i32 1, align 3", "V3 at @c")
    refused("@llvm.x = common global i32 1", "V3 at @llvm.x")
    refused("@x = global i32 null, align 3", "V7 at @x")
    refused("@x = global i32 null @y = common global i32 1", "V18 at @x")
    refused("define i32 @f() { ret void } @x = global i1 null", "V18 at @x")
    refused("define i32 @f() { ret void } @a = alias i32, ptr @b @b = external global i32", "V19 at @a")
    refused("@a = alias i32, ptr @b @b = external global i32, align 3", "V7 at @b")
    refused("@a = weak alias void, ptr @b @b = external global i32", "V6 at @a")
    refused("define appending void @f(void %x) { ret void }", "V4 at @f")
    refused("declare internal void @llvm.nope()", "V2 at @llvm.nope")
    refused("define i32 @f() { ret void } define extern_weak void @g() { ret void }", "V17 at instruction 0 of @f")
    refused("define void @g() { ret i32 0 } define i32 @f() { ret void }", "V17 at instruction 0 of @g")
    refused("define void @f([65537 x i8] %x) { br label %0 }", "V6 at @f")
    refused("define void @f() { %1 = alloca i8, align 3 br label %0 }", "V8 at %0 of @f")
    refused("define i32 @f() { a: %x = phi i32 [ 1, %b ] br label %a b: unreachable }", "V8 at %a of @f")
    refused("define void @f() { %1 = zext i32 1 to i8 %2 = add ptr null, null ret void }", "V13 at instruction 0 of @f")
    refused("define i32 @f() { br label %b a: ret void b: %1 = add ptr null, null br label %a }", "V17 at instruction 1 of @f")
    refused("define i32 @f(i64 %x) { %y = add i32 %z, %x %z = add i32 1, 1 ret i32 %y }", "V10 at instruction 0 of @f")
    refused("define void @f(i64 %x) { br label %a a: %y = phi i32 [ %x, %0 ], [ %x, %0 ] ret void }", "V9 at instruction 1 of @f")
    refused("define void @f(i64 %x) { br label %a a: %y = phi i32 [ %z, %0 ] %z = add i32 1, 1 %v = phi i32 [ 1, %0 ] ret void }", "V10 at instruction 1 of @f")
    refused("define void @f(i64 %x) { %y = add ptr %x, 1 ret void }", "V11 at instruction 0 of @f")
    refused("declare i8 @llvm.ctpop.i8(i8) " + body("store ptr @llvm.ctpop.i8, i8 null, align 3"), "V5 at instruction 0 of @f")
    broken("%1 = load [65537 x i8], ptr null, align 3", 6)
    broken("%1 = load i8, i64 null, align 3", 7)
    broken("%1 = add ptr 0, 0", 12)
    broken("%1 = extractvalue { i8 } zeroinitializer, 1 store i8 %1, ptr null", 16)
    broken("call void (i64) null(i32 null)", 17)


# Each place of an operand, with the type that is written there. `X` is what stands in it.
PLACES = [("%a = add i32 X, 1", "i32"), ("%a = ashr i32 1, X", "i32"), ("%a = icmp eq ptr X, null", "ptr"), ("%a = icmp ult ptr null, X", "ptr"),
          ("%a = trunc i32 X to i8", "i32"), ("%a = ptrtoint ptr X to i8", "ptr"), ("%a = inttoptr i64 X to ptr", "i64"),
          ("%a = select i1 X, i8 1, i8 2", "i1"), ("%a = select i1 1, i8 X, i8 2", "i8"), ("%a = select i1 1, i8 1, i8 X", "i8"), ("%a = freeze ptr X", "ptr"),
          ("%a = load i8, ptr X", "ptr"), ("store i32 X, ptr null", "i32"), ("store i32 0, ptr X", "ptr"), ("%a = alloca i8, i32 X", "i32"),
          ("%a = getelementptr i8, ptr X, i32 1", "ptr"), ("%a = getelementptr i8, ptr null, i32 X", "i32"), ("%a = getelementptr [2 x i8], ptr null, i32 0, i64 X", "i64"),
          ("%a = call i32 (i32) null(i32 X)", "i32"), ("%a = call i32 (i32, ...) null(i32 1, i64 X)", "i64"), ("call void (i8, { ptr }) null(i8 1, { ptr } X)", "{ ptr }"),
          ("%a = extractvalue { i8 } X, 0", "{ i8 }"), ("%a = insertvalue { i8 } X, i8 1, 0", "{ i8 }"), ("%a = insertvalue { i8 } undef, i8 X, 0", "i8"),
          ("br i1 X, label %b, label %b b:", "i1"), ("switch i16 X, label %b [ i16 1, label %b ] b:", "i16")]


def places():
    """In each place of an operand: the address of an intrinsic, a value that is not defined yet, one of another type, and a
    constant that does not fit."""
    for line, ty in PLACES:
        refused("declare i8 @llvm.ctpop.i8(i8) " + body(line.replace("X", "getelementptr (i8, ptr @llvm.ctpop.i8, i32 1)")), "V5 at instruction 0 of @f")
        broken(f"{line.replace('X', '%x')} %x = load {ty}, ptr null", 10)
        refused(body(line.replace("X", "%x")).replace("()", "(i24 %x)", 1), "V11 at instruction 0 of @f")
        broken(line.replace("X", "c\"zz\""), 18)
        held(f"%x = load {ty}, ptr null {line.replace('X', '%x')}")
        held(line.replace("X", "poison"))
    # A callee, a value of a phi, and what is returned.
    refused("declare i8 @llvm.ctpop.i8(i8) " + body("call void inttoptr (i64 ptrtoint (ptr @llvm.ctpop.i8 to i64) to ptr)()"), "V5 at instruction 0 of @f")
    refused("define void @f(i24 %x) { call void %x() ret void }", "V17 at instruction 0 of @f")
    broken("call void c\"zz\"()", 17)
    held("%x = load ptr, ptr null call void %x() call void poison()")
    for value, rule in [("@llvm.ctpop.i8", 5), ("%y", 10), ("%x", 11), ("c\"zz\"", 18)]:
        refused("declare i8 @llvm.ctpop.i8(i8) define void @f(i24 %x) { br label %b b: %a = phi ptr [ VALUE, %0 ] %y = load ptr, ptr null ret void }".replace("VALUE", value),
                f"V{rule} at instruction 1 of @f")
        refused("declare i8 @llvm.ctpop.i8(i8) define ptr @f(i24 %x) { br i1 0, label %b, label %c b: %y = load ptr, ptr null br label %c c: ret ptr VALUE }".replace("VALUE", value),
                f"V{rule} at instruction 3 of @f")


def chain(count, results, parameters=""):
    """`@f`, with so many blocks, each with so many additions and a branch to the next one."""
    names = "vwxyzuts"[:results]
    made = "".join(f"%{name}#=add i1 0,0 " for name in names)
    return [f"define void @f({parameters}) {{\na:{made.replace('#', '')}\n", (count - 1, f"br label %b# b#:{made}\n"), "ret void\n}\n"]


def products():
    """Blocks times values of a function are at most 2^31."""
    LARGE.append((chain(16384, 1), ACCEPTED))
    LARGE.append((chain(16385, 1), ACCEPTED))
    CASES.append((chain(46341, 1), too_large("@f", 2147488281)))
    # 2^31, and one parameter more.
    LARGE.append((chain(16384, 8), ACCEPTED))
    LARGE.append((chain(16384, 8, "i1 %p"), too_large("@f", 2147500032)))
    # Before any rule.
    CASES.append((["target datalayout = \"E\" @x = global i1 null declare internal void @g()\n"] + chain(46341, 1), too_large("@f", 2147488281)))
    # Parameters and written results of void calls are values: 46,340 blocks with as many results, and two parameters.
    CASES.append((["define void @f(i1 %p, ptr %g) {\na:\n", (46338, "br label %b# b#:%v#=call void %g()\n"),
                   "%v=call void %g() %w=call void %g() br label %c c:ret void }\n"], too_large("@f", 2147488280)))
    # The first function that is too large.
    LARGE.append((["define i32 @g() { ret void }\n"] + chain(16384, 8, "i1 %p, i1 %q") +
                  ["define void @h() {\n", (46341, "%v#=add i1 0,0 br label %b# b#:\n"), "ret void }\n"], too_large("@f", 2147516416)))


def searched():
    """V10 of functions whose blocks lead to each other at random, judged by a plain search over paths (tests/paths.py)."""
    for text, number in paths.cases():
        CASES.append((text, ACCEPTED if number is None else f"invalid V10 at instruction {number} of @f"))


def speeds():
    """Texts that a judge which compares pairs, or walks for each use, takes long for."""
    # 46,340 blocks with one value each: with one block more it is too large.
    LARGE.append((chain(46340, 1), ACCEPTED))
    # 500,000 instructions in one block.
    LARGE.append((["define i32 @f(i32 %v0) {\n%v=add i32 %v0, 1\n", (499998, "%w#=add i32 %v, %v0\n"), "ret i32 %v\n}\n"], ACCEPTED))
    # A switch of 100,000 cases to one block, with a phi of 100,001 entries.
    LARGE.append((["define i32 @f(i32 %c) {\na:switch i32 %c, label %b [\n", (100000, "i32 #, label %b\n"), "]\nb:%v=phi i32 [ 1, %a ]\n",
                   (100000, ", [ 1, %a ]\n"), "ret i32 %v\n}\n"], ACCEPTED))


def programs():
    """What clang 19 prints for forty C programs, at -O0 and at -O2 (tests/programs)."""
    for text in sorted((pathlib.Path(__file__).resolve().parent / "programs").glob("*.ll")):
        valid(text.read_text().rstrip("\n"))


TABLES = [worked, layouts, linkages, commons, appending, intrinsics, types, alignments, entries, phis, definedness, written, arithmetic, casts,
          addresses, indices, aggregates, calls, constants, aliases, places, orders, searched, products, speeds, programs]


def script(text):
    """The lines of the input that stand for a text, or for its parts."""
    if isinstance(text, str):
        return text + "\n"
    return "".join(part if isinstance(part, str) else f"# {part[0]} {part[1]}" for part in text)


def spelled(text):
    """The text itself."""
    return "".join(part if isinstance(part, str) else "".join(part[1].replace("#", str(n)) for n in range(part[0])) for part in text)


def write_large(folder):
    """The large texts, and what is told of each."""
    for number, (text, told) in enumerate(LARGE):
        (folder / f"{number}.ll").write_text(spelled(text))
        (folder / f"{number}.told").write_text(f"{told}\n")


def written():
    """The cases, and what is told of them."""
    for table in TABLES:
        table()
    stdin = "".join(HEAD + script(text) for text, _ in CASES).encode()
    stdout = "".join(f"{told}\n" for _, told in CASES).encode()
    return stdin, stdout


def main():
    if sys.argv[1:2] == ["--large"]:
        written()
        write_large(pathlib.Path(sys.argv[2]))
        return
    import module_table
    module_table.main()


if __name__ == "__main__":
    main()
