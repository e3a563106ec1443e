#!/usr/bin/env python3
"""Writes the section `syntax` of crates/arena_table: texts, and what each comes to.

What a text comes to is written here by hand from the rules of docs/language.md, and from clang's own modules by
counting their lines; nothing is taken from the program. In a refused text `‹` stands before the first bad place.

    tests/phrases.py            writes the section `syntax` of crates/arena_table
    tests/phrases.py --check    tells whether they are what it would write
"""
import pathlib
import re
import sys

sys.dont_write_bytecode = True
from stored import store_section

HERE = pathlib.Path(__file__).resolve().parent

CASES = []

# The line that begins a text whose items are told by their parts.
PARTS = "==== parts\n"


def accepted(text, structs=0, variables=0, declared=0, defined=0, blocks=0, instructions=0, others=0, aliases=0):
    """Read as so many items of each kind. Aliases are told where there are some."""
    told = f", {aliases} aliases" if aliases else ""
    CASES.append((text, f"{structs} structs, {variables} variables, {declared} declared, {defined} defined, "
                        f"{blocks} blocks, {instructions} instructions, {others} others{told}"))


def parts(text, told):
    """Read, and told by the parts of its items."""
    CASES.append((PARTS + text, told))


# `int sum = 0; for (int i = 0; i < 5; i++) sum += i; return sum;`, as clang 18 prints it, with fewer attributes.
LOOP = """; ModuleID = 'sum.c'
source_filename = \"sum.c\"
target datalayout = \"e-m:e-p270:32:32-p271:32:32-p272:64:64-i64:64-i128:128-f80:128-n8:16:32:64-S128\"
target triple = \"x86_64-unknown-linux-gnu\"

; Function Attrs: noinline nounwind optnone uwtable
define dso_local i32 @main() #0 {
  %1 = alloca i32, align 4
  %2 = alloca i32, align 4
  %3 = alloca i32, align 4
  store i32 0, ptr %1, align 4
  store i32 0, ptr %2, align 4
  store i32 0, ptr %3, align 4
  br label %4

4:                                    ; preds = %11, %0
  %5 = load i32, ptr %3, align 4
  %6 = icmp slt i32 %5, 5
  br i1 %6, label %7, label %14

7:
  %8 = load i32, ptr %3, align 4
  %9 = load i32, ptr %2, align 4
  %10 = add nsw i32 %9, %8
  store i32 %10, ptr %2, align 4
  br label %11

11:
  %12 = load i32, ptr %3, align 4
  %13 = add nsw i32 %12, 1
  store i32 %13, ptr %3, align 4
  br label %4, !llvm.loop !2

14:
  %15 = load i32, ptr %2, align 4
  ret i32 %15
}

attributes #0 = { noinline nounwind optnone uwtable \"frame-pointer\"=\"all\" }

!llvm.module.flags = !{!0}
!llvm.ident = !{!1}

!0 = !{i32 1, !\"wchar_size\", i32 4}
!1 = !{!\"clang version 18.1.3\"}
!2 = distinct !{!2, !3}
!3 = !{!\"llvm.loop.mustprogress\"}
"""

# Every word that is dropped, where it may stand.
DROPPED = """@a = dso_local dso_preemptable default hidden protected unnamed_addr local_unnamed_addr global i32 1
declare ccc zeroext signext noext inreg noalias i32 @b(ptr nocapture nofree nonnull noundef readnone readonly writeonly writable returned immarg nest allocptr allocalign dead_on_unwind align 8 align(8) dereferenceable(8) dereferenceable_or_null(8) sret(i32) captures(none) range(i32 0, 8) initializes((0, 4)) nofpclass(nan) %x)
declare fastcc void @c() unnamed_addr local_unnamed_addr #0 \"a\" \"b\"=\"c\" align 4 section \"s\" alwaysinline builtin cold convergent hot inlinehint minsize mustprogress nobuiltin nocallback noduplicate nofree noinline norecurse noredzone noreturn nosync nounwind optnone optsize readnone readonly writeonly speculatable ssp sspreq sspstrong willreturn uwtable uwtable(sync) memory(none) alignstack(4) allockind(\"alloc\") allocsize(0)
declare coldcc void @d()
"""


def place_of(marked):
    before = marked.encode().split("‹".encode())[0]
    line = before.count(b"\n") + 1
    column = len(before) - before.rfind(b"\n")
    return f"{line}:{column}"


def refused(marked, kind="no item here"):
    assert marked.count("‹") == 1, marked
    CASES.append((marked.replace("‹", ""), f"{place_of(marked)}: {kind}"))


def left_out(marked):
    """Refused at the token behind the mark, which is told as it is spelled."""
    word = re.match(r"[%@]?[-\w$.]+|\.\.\.|\*|#\w+|@\"[^\"]*\"", marked.split("‹")[1]).group(0)
    refused(marked, f"left out: {word}")


def body(text, blocks=1, instructions=1, **more):
    accepted("define void @f() {\n" + text + "\n}\n", defined=1, blocks=blocks, instructions=instructions, **more)


def one(text, **more):
    """An instruction in a block that ends."""
    body(text + "\nret void", instructions=2, **more)


def bad(marked, kind="no item here"):
    refused("define void @f() {\n" + marked + "\nret void\n}\n", kind)


def gone(marked):
    left_out("define void @f() {\n" + marked + "\nret void\n}\n")


def items():
    accepted("")
    accepted("; a comment alone")
    accepted('source_filename = "a.c"', others=1)
    refused("source_filename = ‹")
    refused("source_filename ‹\"a\"")
    refused("source_filename = ‹c\"a\"")
    refused('source_filename = "a" ‹"b"')
    accepted('target datalayout = "e"\ntarget triple = "x86_64"', others=2)
    refused('target ‹other = "e"')
    refused('target datalayout ‹"e"')
    refused('target triple = ‹x86')
    refused('target‹')
    accepted("%T = type opaque\n%U = type {}\n%V = type { i32, ptr }\n%W = type <{ i8, %V }>\n%\"a b\" = type { [0 x %T] }", structs=5)
    refused("%T = type‹")
    refused("%T = type ‹i32")
    refused("%T = type { i32, ‹}")
    refused("%T = type { i32 ‹i32 }")
    refused("%T = type <{ i32 } ‹%U = type opaque")
    refused("%T ‹type opaque")
    left_out("‹%0 = type {}")
    left_out("%T = type { ‹%0 }")
    accepted("attributes #0 = { nounwind \"a\"=\"b\" memory(none) [ ( }", others=1)
    accepted("attributes #7 = { }", others=1)
    refused("attributes ‹0 = { }")
    refused("attributes #0 = { a ‹{ } }")
    refused("attributes #0 = { a‹")
    refused("attributes #0 = ‹( )")
    accepted("!0 = !{}\n!1 = !{i32 1, !\"a\", !{!{!0}, (([<>]))}}\n!named = !{!0}\n!2 = distinct !{!2}", others=4)
    accepted("!3 = !DILocation(line: 1, column: 2, scope: !{!4})\n!4 = distinct !DISubprogram(name: \"f\")", others=2)
    refused("!0 = !{ ( ‹} )")
    refused("!0 = !{ [ ] ‹")
    refused("!0 = ‹{ }")
    refused("!0 = distinct ‹distinct !{}")
    refused("!0 = !Node‹{ }")
    refused("!0 ‹!{}")
    refused("‹!{}")
    refused("‹i32 1")
    refused("‹}")
    refused("‹[")
    refused("%T = type opaque ‹}")


def variables():
    accepted("@x = global i32 1", variables=1)
    accepted("@x = external global i32\n@y = extern_weak constant i8", variables=2)
    linkages = ["private", "internal", "available_externally", "linkonce", "linkonce_odr", "weak", "weak_odr", "common", "appending"]
    accepted("".join(f"@{word} = {word} global i32 0\n" for word in linkages), variables=9)
    accepted("@\"a b\" = dso_local dso_preemptable default hidden protected unnamed_addr local_unnamed_addr constant i8 2", variables=1)
    accepted("@x = global i32 1, align 4, section \"s\", !dbg !0, !a !{ i32 1 }, section \"t\"", variables=1)
    accepted("@x = global i32 1, section \"s\", align 4", variables=1)
    accepted("@x = external global [2 x i32], align 8", variables=1)
    refused("@x = global‹")
    refused("@x = global ‹")
    refused("@x = global i32‹")
    refused("@x = global i32 ‹i32")
    refused("@x = external global i32 ‹1")
    refused("@x = extern_weak global ptr ‹null")
    refused("@x = internal global i32 ‹, align 4")
    refused("@x = internal ‹internal global i32 1")
    refused("@x = hidden ‹internal global i32 1")
    refused("@x ‹global i32 1")
    refused("@x = ‹i32 1")
    refused("@x = global i32 1, align 4, ‹align 4")
    refused("@x = global i32 1, align ‹x")
    refused("@x = global i32 1, ‹")
    refused("@x = global i32 1, section ‹s")
    refused("@x = global i32 1, !dbg ‹!dbg")
    refused("@x = global i32 1 ‹align 4")
    refused("@x = global i32 1 ‹?", "bad byte")
    left_out("‹@0 = global i32 1")
    left_out("@x = ‹thread_local global i32 1")
    left_out("@x = ‹addrspace(1) global i32 1")
    left_out("@x = ‹externally_initialized global i32 1")
    accepted("@x = alias i32, ptr @y", aliases=1)
    left_out("@x = ‹ifunc void (), ptr @y")
    left_out("@x = global i32 1, ‹comdat")
    left_out("@x = global ‹float 0.0")


def aliases():
    accepted("@x = alias i32, ptr @y\n@z = alias [2 x { i8, %T }], ptr @\"a b\"", aliases=2)
    accepted("@f = alias void (), ptr @g\n@h = alias i32 (i32, ptr), ptr @g\n@i = alias ptr (ptr, ...), ptr @g\n@j = alias void (...), ptr @g", aliases=4)
    accepted("@x = alias void, ptr @y\n@y = alias ptr, ptr @y\n@z = alias %T (%T), ptr @z", aliases=3)
    words = ["private", "internal", "available_externally", "linkonce", "linkonce_odr", "weak", "weak_odr", "common", "appending", "external", "extern_weak"]
    accepted("".join(f"@{word} = {word} alias i32, ptr @y\n" for word in words), aliases=11)
    accepted("@x = dso_local dso_preemptable default hidden protected unnamed_addr local_unnamed_addr alias i8, ptr @y", aliases=1)
    accepted("@x = internal hidden unnamed_addr alias i32 (i8), ptr @f\n@y = global i32 1\n@z = alias i32, ptr @y", variables=1, aliases=2)
    accepted("@x = alias " + "[1 x " * 64 + "i8" + "]" * 64 + ", ptr @y", aliases=1)
    accepted("@x = alias void (" + "[1 x " * 64 + "i8" + "]" * 64 + "), ptr @y", aliases=1)
    refused("@x = alias‹")
    refused("@x = alias ‹, ptr @y")
    refused("@x = alias ‹1, ptr @y")
    refused("@x = alias ‹..., ptr @y")
    refused("@x = alias i32‹")
    refused("@x = alias i32 ‹ptr @y")
    refused("@x = alias i32 ‹1, ptr @y")
    refused("@x = alias i32 ‹@y")
    refused("@x = alias i32, ‹")
    refused("@x = alias i32, ‹@y")
    refused("@x = alias i32, ‹i32 @y")
    refused("@x = alias i32, ptr‹")
    refused("@x = alias i32, ptr ‹%y")
    refused("@x = alias i32, ptr ‹null")
    refused("@x = alias i32, ptr ‹getelementptr (i8, ptr @y, i64 1)")
    refused("@x = alias i32, ptr @y @z‹")
    refused("@x = alias i32, ptr @y‹, align 4")
    refused("@x = alias i32, ptr @y‹, section \"s\"")
    refused("@x = alias i32, ptr @y‹, !dbg !0")
    refused("@x = alias i32 (‹")
    refused("@x = alias i32 (i8 ‹i8), ptr @f")
    refused("@x = alias i32 (i8, ‹), ptr @f")
    refused("@x = alias i32 (‹, i8), ptr @f")
    refused("@x = alias i32 (i8 ‹%a), ptr @f")
    refused("@x = alias i32 (i8 ‹noundef), ptr @f")
    refused("@x = alias i32 (... ‹, i8), ptr @f")
    refused("@x = alias i32 (i8, ... ‹, i8), ptr @f")
    refused("@x = alias i32 (i8‹")
    refused("@x = alias i32 (i8)‹")
    refused("@x = alias i32 () ‹(), ptr @f")
    refused("@x = alias i32 () ‹ptr @f")
    refused("@x = alias ‹alias i32, ptr @y")
    refused("@x = alias ‹internal i32, ptr @y")
    refused("@x = internal ‹internal alias i32, ptr @y")
    refused("@x = hidden ‹internal alias i32, ptr @y")
    refused("@x = alias ‹hidden i32, ptr @y")
    refused("@x ‹alias i32, ptr @y")
    refused("‹alias i32, ptr @y")
    refused("%x = ‹alias i32, ptr @y")
    refused("@x = global ‹alias i32, ptr @y")
    refused("@x = alias i32, ptr @y ‹?", "bad byte")
    refused("@x = alias " + "[1 x " * 64 + "‹{}", "too deep")
    refused("@x = alias void (" + "{" * 64 + "‹{", "too deep")
    refused("@x = alias void (i8, " + "[1 x " * 64 + "‹<{ }>", "too deep")
    left_out("‹@0 = alias i32, ptr @y")
    left_out("@x = alias i32, ptr ‹@0")
    left_out("@x = alias ‹%0, ptr @y")
    left_out("@x = alias i32 (‹%0), ptr @f")
    left_out("@x = alias i32‹*, ptr @y")
    left_out("@x = alias i32 () ‹*, ptr @y")
    left_out("@x = alias <‹4 x i32>, ptr @y")
    left_out("@x = ‹thread_local alias i32, ptr @y")
    left_out("@x = ‹addrspace(1) alias i32, ptr @y")
    left_out("@x = alias i32, ptr ‹addrspace(1) @y")
    left_out("@x = ‹externally_initialized alias i32, ptr @y")
    left_out("@x = alias i32, ptr ‹bitcast (ptr @y to ptr)")
    left_out("@x = alias i32, ptr ‹addrspacecast (ptr @y to ptr)")
    left_out("@x = alias i32, ptr @y ‹comdat")
    for word in ["half", "bfloat", "float", "double", "fp128", "x86_fp80", "ppc_fp128", "x86_amx", "metadata", "token"]:
        left_out(f"@x = alias ‹{word}, ptr @y")
        left_out(f"@x = alias void (i8, ‹{word}), ptr @f")


def types():
    accepted("@a = external global i1\n@b = external global i128\n@c = external global i64\n@d = external global i007", variables=4)
    accepted("@a = external global [0 x [2 x { i8, <{ ptr, %T }> }]]\n@b = external global void\n@c = external global <{ }>", variables=3)
    for width in ["i0", "i129", "i00", "i99999999999999999999999999"]:
        left_out(f"@a = external global ‹{width}")
    refused("@a = external global ‹i")
    refused("@a = external global ‹I32")
    refused("@a = external global [ ‹i32 ]")
    refused("@a = external global [ 2 ‹i32 ]")
    refused("@a = external global [ 2 x i32 ‹")
    refused("@a = external global [ 2 x ‹]")
    refused("@a = external global { i32, ‹}")
    refused("@a = external global { ‹, i32 }")
    refused("@a = external global <{ i32 } ‹")
    refused("@a = external global <{ i32 ‹>")
    refused("@a = external global <‹i32")
    left_out("@a = external global <‹4 x i32>")
    left_out("@a = external global i32‹*")
    left_out("@a = external global i32 ‹addrspace(1)")
    for word in ["half", "bfloat", "float", "double", "fp128", "x86_fp80", "ppc_fp128", "x86_amx", "metadata", "token"]:
        left_out(f"@a = external global ‹{word}")
    left_out("@a = external global ‹%0")
    accepted("@a = external global " + "[1 x " * 64 + "i8" + "]" * 64, variables=1)
    refused("@a = external global " + "[1 x " * 64 + "‹[1 x i8" + "]" * 65, "too deep")
    refused("@a = external global " + "{" * 64 + "‹{", "too deep")
    refused("@a = external global " + "[1 x " * 64 + "‹<{}>", "too deep")
    refused("%T = type { " + "[1 x " * 63 + "‹{}", "too deep")
    refused("@x = global " + "[1 x " * 64 + "‹[1 x ", "too deep")


def constants():
    accepted("@a = global i8 -5\n@b = global i1 true\n@c = global i1 false\n@d = global ptr null\n@e = global i8 undef\n"
             "@f = global i8 poison\n@g = global [2 x i8] zeroinitializer\n@h = global ptr @a\n@i = global [2 x i8] c\"a\\00\"\n"
             "@j = global i8 99999999999999999999999999999999999999999999999999", variables=10)
    accepted("@a = global [2 x i8] [i8 1, i8 2]\n@b = global {} {}\n@c = global { i8, ptr } { i8 1, ptr @a }\n"
             "@d = global <{ i8 }> <{ i8 3 }>\n@e = global [0 x i8] []", variables=5)
    accepted("@a = global ptr getelementptr (i8, ptr @b, i64 1)\n"
             "@b = global ptr getelementptr inbounds nuw nusw ([2 x i8], ptr @b, i64 0, i64 1)\n"
             "@c = global i64 ptrtoint (ptr @a to i64)\n@d = global ptr inttoptr (i64 1 to ptr)\n@e = global i32 trunc (i64 ptrtoint (ptr @a to i64) to i32)\n"
             "@f = global i64 add nuw nsw (i64 1, i64 2)\n@g = global i64 sub (i64 1, i64 2)\n@h = global i64 xor (i64 1, i64 2)", variables=8)
    refused("@a = global i8 ‹x")
    refused("@a = global i8 ‹%x")
    refused("@a = global i8 ‹\"a\"")
    refused("@a = global [1 x i8] [ ‹1 ]")
    refused("@a = global [1 x i8] [ i8 ‹]")
    refused("@a = global [1 x i8] [ i8 1, ‹]")
    refused("@a = global { i8 } { i8 1 ‹i8 2 }")
    refused("@a = global <{ i8 }> <{ i8 1 ‹>")
    refused("@a = global ptr getelementptr ‹i8, ptr @b")
    refused("@a = global ptr getelementptr (i8 ‹)")
    refused("@a = global ptr getelementptr (i8, ptr @b, ‹)")
    refused("@a = global ptr getelementptr inbounds ‹inbounds (i8, ptr @b)")
    refused("@a = global ptr getelementptr ‹nsw (i8, ptr @b)")
    refused("@a = global i64 ptrtoint (ptr @a ‹i64)")
    refused("@a = global i64 ptrtoint (ptr @a to i64 ‹")
    refused("@a = global i64 ptrtoint ‹nuw (ptr @a to i64)")
    refused("@a = global i64 add (i64 1 ‹)")
    refused("@a = global i64 add (i64 1, i64 2 ‹, i64 3)")
    refused("@a = global i64 xor ‹nuw (i64 1, i64 2)")
    refused("@a = global i64 ‹mul (i64 1, i64 2)")
    refused("@a = global i1 ‹icmp eq (i64 1, i64 2)")
    left_out("@a = global ptr ‹addrspacecast (ptr @b to ptr)")
    left_out("@a = global ptr ‹bitcast (ptr @b to ptr)")
    left_out("@a = global ptr ‹blockaddress(@f, %x)")
    left_out("@a = global i32 ‹s0x1F")
    left_out("@a = global i32 ‹u0x1F")
    left_out("@a = global ptr ‹@0")
    nest = "[1 x " * 63 + "[1 x i8]" + "]" * 63
    accepted("@a = global i8 " + "[i8 " * 64 + "1" + "]" * 64, variables=1)
    refused("@a = global i8 " + "[i8 " * 64 + "‹[i8 1" + "]" * 65, "too deep")
    refused("@a = global i8 " + "[i8 " * 64 + "‹add (i8 1, i8 1)", "too deep")
    accepted("@a = global i8 " + "[i8 " * 63 + "[" + nest + " undef" + "]" * 64, variables=1)
    refused("@a = global i8 [" + "[1 x " * 64 + "‹[1 x i8]", "too deep")


def functions():
    accepted("declare void @f()\ndeclare i32 @g(i32, ptr %x, ...)\ndeclare void @h(...)", declared=3)
    accepted("declare !dbg !0 !a !{} extern_weak dso_local unnamed_addr fastcc zeroext i8 @f(i8 signext %0, ptr noundef nonnull align 8 dereferenceable(4) %p) unnamed_addr #0 \"a\" \"b\"=\"c\" align 4 section \"s\"", declared=1)
    accepted("declare coldcc void @f()\ndeclare ccc void @g()", declared=2)
    parameter = ("zeroext signext noext inreg noalias nocapture nofree nonnull noundef readnone readonly writeonly writable returned immarg nest "
                 "allocptr allocalign dead_on_unwind align 4 align(8) dereferenceable(4) dereferenceable_or_null(4) sret(%T) captures(none) range(i8 0, 5) initializes((0, 4)) nofpclass(nan inf)")
    accepted(f"declare void @f(ptr {parameter} %x)", declared=1)
    accepted(f"declare {parameter} ptr @f()", declared=1)
    behind = ("unnamed_addr local_unnamed_addr #1 \"k\" \"k\"=\"v\" align 4 section \"s\" alwaysinline builtin cold convergent hot inlinehint minsize mustprogress nobuiltin nocallback "
              "noduplicate nofree noinline norecurse noredzone noreturn nosync nounwind optnone optsize readnone readonly writeonly speculatable ssp sspreq sspstrong willreturn uwtable "
              "uwtable(sync) memory(argmem: read) alignstack(8) allockind(\"alloc,(\") allocsize(0,1)")
    accepted(f"declare void @f() {behind}", declared=1)
    accepted(f"define void @f() {behind} !dbg !1 {{\nret void\n}}", defined=1, blocks=1, instructions=1)
    accepted("define internal hidden fastcc noundef i32 @f(i32 noundef %a, i8 %0, ptr) #0 !dbg !5 !x !{!y} {\n%1 = add i32 %a, 1\nret i32 %1\n}", defined=1, blocks=1, instructions=2)
    accepted("define void @f() { ret void ret void a: unreachable 7: ret void \"8\": br label %a }", defined=1, blocks=5, instructions=5)
    refused("declare‹")
    refused("declare void ‹f()")
    refused("declare void @f ‹")
    refused("declare void @f(i32 ‹i32)")
    refused("declare void @f(i32, ‹)")
    refused("declare void @f(i32, ... ‹, i32)")
    refused("declare void @f(‹, i32)")
    refused("declare void @f(i32 %x ‹%y)")
    refused("declare void @f(i32 %x ‹noundef)")
    refused("declare internal ‹internal void @f()")
    refused("declare fastcc ‹coldcc void @f()")
    refused("declare void @f() ‹fastcc")
    refused("declare void @f() align ‹(4)")
    refused("declare void @f() memory ‹")
    refused("declare void @f() memory(‹")
    refused("declare void @f() memory(a ‹]")
    refused("declare void @f() !dbg ‹!0")
    refused("declare void @f() \"a\" = ‹b")
    refused("declare void @f() ‹zeroext")
    refused("declare void @f(i32 ‹nounwind)")
    refused("declare align ‹x ptr @f()")
    refused("define void @f() ‹")
    refused("define void @f() { ‹}")
    refused("define void @f() { a: ‹}")
    refused("define void @f() { ret void ‹")
    refused("define void @f() { ret void } ‹}")
    refused("define ‹!dbg !0 void @f() { ret void }")
    refused("define void @f() !dbg ‹{ ret void }")
    refused("define void @f() { a: ‹b: ret void }")
    left_out("define void @f(i32, ‹...) { ret void }")
    left_out("define void @f(‹...) { ret void }")
    left_out("define ‹%0 @f() { ret void }")
    left_out("define void ‹@0() { ret void }")
    left_out("declare void @f(‹float)")
    left_out("declare ‹cc 10 void @f()")
    left_out("declare void @f(ptr ‹byval(i32) %x)")
    for word in ["byref(i8)", "inalloca(i8)", "preallocated(i8)", "elementtype(i8)", "swiftself", "swifterror", "swiftasync"]:
        left_out(f"declare void @f(ptr ‹{word} %x)")
    for word in ["personality ptr @p", "gc \"x\"", "prefix i8 1", "prologue i8 1", "strictfp", "naked", "comdat"]:
        left_out(f"declare void @f() ‹{word}")
    left_out("‹module asm \"x\"")
    left_out("‹uselistorder ptr @x, { 1, 0 }")
    left_out("‹uselistorder_bb @f, %x, { 1, 0 }")


def instructions():
    for opcode, flags in [("add", "nuw nsw"), ("sub", "nsw nuw"), ("mul", "nuw"), ("shl", "nsw"), ("udiv", "exact"), ("sdiv", "exact"), ("lshr", "exact"),
                          ("ashr", "exact"), ("urem", ""), ("srem", ""), ("and", ""), ("or", "disjoint"), ("xor", "")]:
        one(f"%x = {opcode} {flags} i32 %a, 5, !dbg !3, !a !{{}}")
        bad(f"{opcode} i32 %a ‹%b")
        bad(f"{opcode} i32 %a, ‹i32 %b")
        bad(f"{opcode} ‹volatile i32 %a, %b")
        bad(f"{opcode} i32 %a, %b, ‹%c")
    bad("%x = add nuw ‹nuw i32 %a, %b")
    bad("%x = udiv exact ‹exact i32 %a, %b")
    bad("%x ‹add i32 %a, %b")
    bad("%x = ‹%y = add i32 %a, %b")
    bad("%x = ‹i32 1")
    bad("‹foo i32 1")
    bad("%x = add i32 ‹, 1")
    for predicate in ["eq", "ne", "ugt", "uge", "ult", "ule", "sgt", "sge", "slt", "sle"]:
        one(f"%x = icmp {predicate} i32 %a, %b")
    one("icmp samesign ult ptr %a, null, !dbg !0")
    bad("icmp ‹i32 %a, %b")
    bad("icmp eq ‹samesign i32 %a, %b")
    bad("icmp eq i32 %a ‹to i32")
    for opcode, flags in [("trunc", "nuw nsw"), ("zext", "nneg"), ("sext", ""), ("ptrtoint", ""), ("inttoptr", "")]:
        one(f"%x = {opcode} {flags} i32 %a to i64, !dbg !0")
        bad(f"{opcode} i32 %a ‹i64")
        bad(f"{opcode} i32 %a to ‹1")
        bad(f"{opcode} ‹exact i32 %a to i64")
    one("%x = select i1 %c, i32 1, i32 %b, !p !0")
    bad("select i1 %c, i32 1 ‹i32 2")
    bad("select i1 %c, i32 1, ‹2")
    bad("select i1 %c ‹i32 1")
    one("%x = freeze i32 %a")
    bad("freeze ‹1")
    bad("freeze i32 ‹, 1")
    bad("freeze i32 %a, ‹1")
    one("%x = phi i32 [ 0, %a ], [ %y, %b ], !dbg !0")
    one("%x = phi ptr [ null, %0 ]")
    bad("phi i32 ‹0")
    bad("phi i32 [ 0 ‹]")
    bad("phi i32 [ 0, ‹1 ]")
    bad("phi i32 [ 0, %a ], ‹0")
    bad("phi i32 [ 0, %a ], !dbg !0, ‹[ 1, %b ]")
    one("%x = load i32, ptr %p")
    one("%x = load volatile i32, ptr @g, align 4, !tbaa !5, !dbg !6")
    bad("load i32 ‹ptr %p")
    bad("load i32, ptr %p, align ‹x")
    bad("load i32, ptr %p, align 4, ‹align 4")
    bad("load i32, ptr %p, !dbg !0, ‹align 4")
    bad("load volatile ‹volatile i32, ptr %p")
    gone("load ‹atomic i32, ptr %p seq_cst, align 4")
    one("store i32 1, ptr %p")
    one("store volatile i32 %x, ptr %p, align 4, !dbg !6")
    bad("%x = ‹store i32 1, ptr %p")
    bad("store i32 1 ‹ptr %p")
    bad("store i32 1, ptr %p, ‹4")
    one("%x = alloca i32")
    one("%x = alloca %T, i32 4, align 16, !a !0")
    one("%x = alloca i32, align 4")
    one("%x = alloca i32, i64 %n")
    one("%x = alloca i32, !a !0, !b !1")
    bad("alloca ‹4")
    bad("alloca i32, ‹4")
    bad("alloca i32, align 4, ‹i32 4")
    gone("alloca ‹inalloca i32")
    gone("alloca i32, ‹addrspace(5)")
    one("%x = getelementptr i32, ptr %p")
    one("%x = getelementptr inbounds nuw nusw %T, ptr %p, i32 0, i64 %i, !dbg !0")
    bad("getelementptr i32 ‹ptr %p")
    bad("getelementptr i32, ptr %p, ‹0")
    bad("getelementptr ‹nsw i32, ptr %p")
    bad("getelementptr i32, ptr %p, !dbg !0, ‹i32 0")
    gone("getelementptr ‹inrange i32, ptr %p")
    one("call void @g()")
    one("%x = tail call fastcc noundef i32 @g(i32 noundef 1, ptr align 4 %p) #3 \"a\"=\"b\" nounwind, !dbg !0")
    one("%x = musttail call i32 (ptr, ...) @printf(ptr @s, i32 %x)")
    one("notail call i32 (...) %p()")
    one("call i32 () %p()")
    one("%x = call void @g()")
    bad("call ‹@g()")
    bad("call void @g ‹, 1")
    bad("call void @g(‹1)")
    bad("call void @g(i32 1, ‹)")
    bad("call void @g(i32 1 ‹i32 2)")
    bad("call i32 (i32, ... ‹, i32) @g()")
    bad("call i32 (i32, ‹) @g()")
    bad("tail ‹tail call void @g()")
    bad("call ‹tail void @g()")
    bad("call void @g() #0 ‹fastcc")
    bad("call void @g(), ‹#0")
    one("%x = extractvalue { i32, i8 } %a, 1, 0, !dbg !0")
    bad("extractvalue { i32 } %a, ‹i32 0")
    bad("extractvalue { i32 } %a, ‹!dbg !0")
    bad("extractvalue { i32 } %a, 0, !dbg !0, ‹1")
    one("%x = insertvalue { i32, i8 } poison, i32 %a, 0")
    bad("insertvalue { i32 } %a, ‹0")
    bad("insertvalue { i32 } %a, i32 1, ‹i32 0")
    for word in ["fneg", "fadd", "fsub", "fmul", "fdiv", "frem", "fcmp", "fptrunc", "fpext", "fptoui", "fptosi", "uitofp", "sitofp", "bitcast", "addrspacecast",
                 "extractelement", "insertelement", "shufflevector", "cmpxchg", "atomicrmw", "landingpad", "va_arg", "callbr", "invoke", "catchpad", "cleanuppad", "catchswitch"]:
        gone(f"%x = ‹{word} i32 %a")
    for word in ["fence", "resume", "cleanupret", "catchret", "indirectbr", "callbr", "invoke"]:
        gone(f"‹{word} i32 %a")
    gone("‹#dbg_value(i32 1, !0, !DIExpression(), !1)")
    gone("add <‹4 x i32> %a, %b")
    gone("add i32 ‹@0, 1")
    gone("%x = load ‹%0, ptr %p")


def endings():
    body("ret void, !dbg !0")
    body("ret i32 5, !dbg !0")
    body("ret { i32 } { i32 1 }")
    body("br label %a")
    body("br label %0, !dbg !0")
    body("br i1 %c, label %a, label %\"b c\", !prof !1")
    body("switch i32 %x, label %a [ ]")
    body("switch i32 %x, label %a [ i32 0, label %b i32 1, label %c ], !dbg !0")
    body("unreachable, !dbg !0")
    body("%1 = add i32 1, 2\nbr label %b\nb: %2 = phi i32 [ %1, %0 ]\nret void\nret void", blocks=3, instructions=5)
    refused("define void @f() { ret ‹}")
    refused("define void @f() { ret void ‹5 }")
    refused("define void @f() { ret i32 ‹}")
    left_out("define void @f() { br ‹%0 }")
    refused("define void @f() { br label ‹a }")
    refused("define void @f() { br i1 %c, label %a ‹}")
    refused("define void @f() { br i1 %c ‹label %a, label %b }")
    refused("define void @f() { br label %a, ‹label %b }")
    refused("define void @f() { switch i32 %x, label %a ‹}")
    refused("define void @f() { switch i32 %x, label %a [ i32 0 ‹label %b ] }")
    refused("define void @f() { switch i32 %x, label %a [ i32 0, label %b ‹, i32 1, label %c ] }")
    refused("define void @f() { switch i32 %x, label %a [ i32 ‹%y, label %b ] }")
    refused("define void @f() { unreachable ‹5 }")
    refused("define void @f() { %x = ‹ret void }")
    refused("define void @f() { %x = ‹br label %a }")
    refused("define void @f() { add i32 1, 2 ‹}")


def text_ends():
    refused("‹\"a", "bad byte")
    refused("@x = global i32 1 ‹\x01", "bad byte")
    refused("@x = external global i32\n‹^", "bad byte")
    refused("@x = global ‹$", "bad byte")
    refused("‹global ?")
    refused("\n\n   @x =\n\t‹=")


def values():
    """A type and a constant."""
    for text in ["i1 true", "i128 -5", "ptr null", "ptr @x", "%T undef", "{} {}", "[2 x i8] c\"ab\"", "{ i8, ptr } { i8 1, ptr poison }", "<{ i8 }> <{ i8 1 }>",
                 "ptr getelementptr inbounds nuw ({ i8 }, ptr @x, i64 0, i32 0)", "i64 ptrtoint (ptr @x to i64)", "i8 add nsw nuw (i8 1, i8 2)", "i8 xor (i8 1, i8 2)"]:
        accepted(f"@a = global {text}", variables=1)
    for text in ["‹i129 5", "‹%7 undef"]:
        left_out(f"@a = global {text}")
    for text in ["void‹", "{ i8, ‹} zeroinitializer", "[1 x i8] [i8 false, ‹]", "ptr getelementptr ‹exact (i8, ptr @x)", "i8 sub nsw ‹nsw (i8 1, i8 2)", "i8 xor ‹nsw (i8 1, i8 2)", "i8 ‹mul (i8 1, i8 2)"]:
        refused(f"@a = global {text}")
    accepted("@a = global " + "[1 x " * 64 + "i8" + "]" * 64 + " undef", variables=1)
    refused("@a = global " + "[1 x " * 64 + "‹[1 x i8" + "]" * 65 + " undef", "too deep")
    accepted("@a = global {} " + "{ {} " * 63 + "{}" + " }" * 63, variables=1)
    refused("@a = global {} " + "{ {} " * 64 + "‹{}" + " }" * 64, "too deep")
    refused("@x = global " + "[1 x " * 64 + "‹")
    refused("@x = global " + "[1 x " * 64 + "‹[1 x ", "too deep")
    refused("@x = global [‹" + "[" * 199)


def of(text, first, last="unreachable"):
    """A function with this body, told by its first instruction and its first block's end."""
    parts("define void @f() " + text, f"definition f, 0 parameters: {first}, then {last}" if first else f"definition f, 0 parameters: {last}")


def phrases():
    """What instructions and ends are read as, with flags as the sum of their codes."""
    of("{ %r = add nsw i32 %x, 1 unreachable }", "add 2")
    of("{ l: or disjoint i8 1, %y, !a !0 unreachable }", "or 8")
    of("{ %0 = icmp ult ptr %p, null unreachable }", "icmp 0 ult")
    of("{ %r = sext i8 %x to i32 unreachable }", "sext 0")
    of("{ %r = select i1 %c, i8 1, i8 2 unreachable }", "select")
    of("{ %r = freeze i8 undef, !a !{} unreachable }", "freeze")
    of("{ %r = phi i8 [ 1, %a ], [ %x, %1 ], !a !0 unreachable }", "phi of 2")
    of("{ %r = load i8, ptr %p, align 4, !a !0 unreachable }", "load 0 aligned")
    of("{ store volatile i8 1, ptr @g, !a !0 unreachable }", "store 256")
    of("{ %r = alloca i8, i32 4, align 8 unreachable }", "alloca counted aligned")
    of("{ %r = alloca i8, align 8 unreachable }", "alloca aligned")
    of("{ %r = getelementptr inbounds %t, ptr %p, i32 0, i32 1 unreachable }", "getelementptr 64 of 3")
    of("{ call void @f() unreachable }", "call of 0")
    of("{ %r = tail call fastcc noundef i32 (ptr, ...) @f(ptr noundef @g, i8 1) #0, !a !0 unreachable }", "call typed of 2")
    of("{ call void @f(i8 signext 1) nounwind \"a\"=\"b\" memory(none) unreachable }", "call of 1")
    of("{ %r = extractvalue { i8, i8 } %x, 1 unreachable }", "extractvalue of 1")
    of("{ %r = extractvalue %t %x, 1, 0, !a !0 unreachable }", "extractvalue of 2")
    of("{ %r = insertvalue %t %x, i8 1, 0 unreachable }", "insertvalue of 1")
    of("{ ret void, !a !0 }", None, "ret void")
    of("{ 0: ret [2 x i8] zeroinitializer }", None, "ret")
    of("{ a: br label %b b: unreachable }", None, "br")
    of("{ br i1 %c, label %a, label %1 }", None, "br of 2")
    of("{ switch i8 1, label %d [ ] }", None, "switch of 0")
    of("{ switch i8 %x, label %d [ i8 1, label %a i8 2, label %b ], !a !0 }", None, "switch of 2")
    of("{ unreachable }", None, "unreachable")
    for text in ["‹}", "l: ‹}", "br label %a‹", "tail ‹ret void }", "ret void ‹i8 }", "%r = ‹store i8 1, ptr %p unreachable }", "%r = icmp ‹i8 1, 2 unreachable }",
                 "%r = load i8, ptr %p, align 4, ‹align 8 unreachable }", "%r = alloca i8, !a !0, ‹align 8 unreachable }", "%r = phi i8 [ %a, ‹1 ] unreachable }",
                 "%r = extractvalue %t %x ‹unreachable }", "%r = extractvalue %t %x, ‹!a !0 unreachable }", "call void @f(i8 1,‹) unreachable }",
                 "call i8 (...‹, i8) @f() unreachable }", "call i8 (i8, ...‹, i8) @f() unreachable }", "switch i8 %x, label %d [ i8 1, label %a‹, i8 2, label %b ] }"]:
        refused("define void @f() { " + text)


def texts():
    """Whole texts, one after another, and what becomes of their parts."""
    accepted(LOOP, defined=1, blocks=5, instructions=21, others=10)
    accepted(DROPPED, variables=1, declared=3)
    accepted("@x = global i1 true @y = constant i128 -1", variables=2)
    accepted("@x = external global i32 @y = extern_weak constant ptr, align 8", variables=2)
    accepted("@x = global i32 1, align 4, section \"s\", !m !0, !n !{}", variables=1)
    accepted("%a = type opaque %b = type { i32, %a } %c = type <{ }>", structs=3)
    accepted("declare !m !0 !n !{i32 1} extern_weak i32 @f(i32 %a, ptr, ...)", declared=1)
    accepted("declare void @f(...)", declared=1)
    accepted("define internal void @f(i32, ptr noundef %p) !m !0 { ret void }", defined=1, blocks=1, instructions=1)
    accepted("define void @f() { \"a b\": br label %\"c d\" \"c d\": unreachable 5: ret void }", defined=1, blocks=3, instructions=3)
    accepted("attributes #0 = { nounwind \"a\"=\"b\" align=4 (x) \"c\" }", others=1)
    accepted("!0 = !{!1, [{(<i32>)}]} !n = distinct !DIFile(a: \"b\", c: (1))", others=2)
    accepted("@x = global [2 x { i8, [1 x i8] }] zeroinitializer", variables=1)
    accepted("@x = global ptr getelementptr inbounds (i8, ptr @y, i64 1)", variables=1)
    accepted("@x = global [3 x i8] c\"a\\00b\"", variables=1)
    accepted("target triple = \"a\" target datalayout = \"b\" source_filename = \"c\"", others=3)
    parts("@x = weak constant i8 -5, align 16 declare void @f(i8, ...) %a = type <{ i8 }>", "weak constant x with a value, aligned 16; declaration at 1:36 of f, 1 parameters, variadic; packed a at 1:61 of 1")
    parts("@x = external global i8 %a = type { i8, ptr } %b = type opaque", "external variable x; plain a at 1:25 of 2; opaque b at 1:47")
    parts("@y = alias i32, ptr @x @g = internal alias void (ptr, ...), ptr @f", "alias y of x; internal alias g of f, 1 parameters, variadic")
    parts("source_filename = \"a\" target triple = \"b\" target datalayout = \"c\" attributes #0 = { } !0 = !{}",
          "file at 1:1; triple at 1:30; layout at 1:50; attributes at 1:67; metadata at 1:87")


def refusals():
    refused("@x = global i32 1 ‹?", "bad byte")
    for text in ["@x = global‹", "@x = global i32‹", "‹x", "source_filename ‹\"a\"", "source_filename = ‹a", "target ‹\"a\"", "target triple = ‹3", "%a = ‹opaque", "%a = type { i32, ‹}",
                 "%a = type <{ i32 }‹", "@x = external global i32 ‹5", "@x = extern_weak global i32 ‹5", "@x = global i32 1, align 4, ‹align 4", "@x = global i32 1 ‹dso_local",
                 "@x = dso_local ‹external global i32", "declare void @f(i32,‹)", "declare void @f(...‹, i32)", "declare void @f() ‹{", "define void @f() { ‹}", "define void @f() {\n a: ‹}",
                 "attributes #0 = { ‹{ }", "!0 = !{ ( ‹} )", "!0 = distinct ‹{}"]:
        refused(text)
    for text in ["@x = global ‹float 0.0", "‹%0 = type {}", "@x = global ‹%0 zeroinitializer", "‹@0 = global i32 1", "define void @f(‹...) { ret void }", "define void @f(i32, ‹...) { ret void }",
                 "@x = global <‹4 x i32> undef", "@x = global ‹i0 0", "@x = global ‹i129 0", "@x = global i32 ‹s0x1F", "@x = global i32 ‹u0xFF", "@x = global i32‹* null",
                 "@x = global ‹half 0", "@x = global ‹bfloat 0", "@x = global ‹double 0", "@x = global ‹fp128 0", "@x = global ‹x86_fp80 0", "@x = global ‹ppc_fp128 0", "@x = global ‹x86_amx 0",
                 "declare void @f(‹metadata)", "declare ‹token @f()", "@x = ‹addrspace(1) global i32 0", "@x = global i32 0, ‹comdat", "@x = ‹thread_local global i32 0",
                 "@x = ‹externally_initialized global i32 0", "@x = ‹ifunc i32, ptr @y", "‹module asm \"nop\"", "‹uselistorder_bb", "‹uselistorder", "@x = global ptr ‹blockaddress(@f, %a)",
                 "@x = global ptr ‹bitcast (ptr @y to ptr)", "@x = global ptr ‹addrspacecast (ptr @y to ptr)"]:
        left_out(text)
    refused("‹$c = comdat any", "bad byte")
    refused("@x = global i32 ‹^5", "bad byte")
    for before, words in [
            ("define void @f() { %a = ", ["fneg", "fadd", "fsub", "fmul", "fdiv", "frem", "fcmp", "fptrunc", "fpext", "fptoui", "fptosi", "uitofp", "sitofp", "extractelement", "insertelement",
                                          "shufflevector", "cmpxchg", "atomicrmw", "invoke", "landingpad", "catchswitch", "va_arg", "callbr"]),
            ("define void @f() { ", ["fence", "resume", "cleanupret", "catchret", "catchpad", "cleanuppad", "indirectbr", "asm"]),
            ("declare void @f(ptr ", ["byval", "byref", "inalloca", "preallocated", "elementtype", "swiftself", "swifterror", "swiftasync"]),
            ("declare void @f() ", ["personality", "gc", "prefix", "prologue", "strictfp", "naked"]),
            ("declare ", ["cc"]), ("define void @f() { %a = load ", ["atomic"]), ("@x = global ptr getelementptr ", ["inrange"])]:
        for word in words:
            left_out(before + "‹" + word)


def count(pattern, text):
    return len(re.findall(pattern, text, re.M))


def clang(path):
    """A module as clang printed it: counted by its lines, up to the first word that the language leaves out."""
    text = path.read_text()
    word = re.search(r"(?<![\w.\"!])(double|float|fpext|sitofp|fdiv|fmul|<\d+ x)(?![\w\"])", re.sub(r";.*", lambda m: " " * len(m.group(0)), text))
    if word:
        at = word.start() + (1 if word.group(0).startswith("<") else 0)
        CASES.append((text, place_of(text[:at] + "‹") + ": left out: " + re.match(r"\d+|\w+", text[at:]).group(0)))
        return
    bodies = re.findall(r"^define .*?\{\n(.*?)^\}", text, re.M | re.S)
    joined = "\n".join(bodies)
    lines = [line for line in re.sub(r"\[\n.*?\n +\]", "", joined, flags=re.S).split("\n") if line.startswith("  ")]
    labels = count(r"^[-\w$.]+:", joined)
    unlabelled = sum(1 for body in bodies if not re.match(r"[-\w$.]+:", body))
    accepted(text, structs=count(r"^%.* = type ", text), variables=count(r"^@.* (global|constant) ", text), declared=count(r"^declare ", text),
             defined=len(bodies), blocks=labels + unlabelled, instructions=len(lines),
             others=count(r"^(source_filename|target |attributes |!)", text))


def main():
    for table in [items, variables, aliases, types, constants, functions, instructions, endings, text_ends, values, phrases, texts, refusals]:
        table()
    for path in sorted((HERE / "modules").glob("*.ll")):
        clang(path)
    stdin = "\n====\n".join(text for text, _ in CASES).encode()
    stdout = "".join(line + "\n" for _, line in CASES).encode()
    store_section("arena_table", "syntax", stdin, stdout)


if __name__ == "__main__":
    main()
