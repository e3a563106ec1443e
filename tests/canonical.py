#!/usr/bin/env python3
"""The cases of crates/module_table that ask for canonical texts: texts, and how each is printed.

What is printed is written here by hand from the rules of docs/language.md ("Canonical text"); nothing is taken from the program.
Each text is valid, has no available_externally definition and no appending `zeroinitializer`, so that linking it alone gives
its own module. Texts are in Latin-1: each character is the byte of its number.

    tests/canonical.py            writes the rows of module_table, those of tests/validity.py and tests/linkage.py among them
    tests/canonical.py --check    tells whether they are what it would write
"""
import sys

sys.dont_write_bytecode = True

HEAD = "==== canonical\n"
END = "====\n"

# Texts, each with its canonical text.
ROWS = []


def bytes_of(text):
    return text.encode("latin-1")


def whole(text):
    """The text that its parts come to: a text as it is, (n, text) for so many times, or (m, n, text) for each number from m to n."""
    if isinstance(text, str):
        return text
    parts = [part if isinstance(part, str) else part[1] * part[0] if len(part) == 2
             else "".join(part[2].replace("#", str(n)) for n in range(part[0], part[1])) for part in text]
    return "".join(parts)


def text_of(lines):
    return "".join(line + "\n" for line in lines)


def row(text, *lines):
    """A text, and the lines of its canonical text."""
    ROWS.append((whole(text), text_of(lines)))


def same(*lines):
    """A text that is canonical as it stands."""
    row(text_of(lines), *lines)


def inside(text, *lines, parameters="", before=""):
    """Instructions of a function whose one block has no name, and how they are printed. The parameters, which have names, and the
    items before it are canonical as they stand."""
    row(f"{before}define void @f({parameters}) {{ {text} ret void }}",
        *before.splitlines(), f"define void @f({parameters}) {{", "0:", *("  " + line for line in lines), "  ret void", "}")


def held(*lines, parameters="", before=""):
    """Instructions that are canonical as they stand."""
    inside("\n".join(lines), *lines, parameters=parameters, before=before)


def ended(text, *lines, result="void", parameters="", before=""):
    """The blocks of a function, and how they are printed."""
    row(f"{before}define {result} @f({parameters}) {{ {text} }}", *before.splitlines(), f"define {result} @f({parameters}) {{", *lines, "}")


def worked():
    """Texts with one line of each kind."""
    row("@x = global i8 255", "@x = global i8 -1")
    row("@x = global i8 127", "@x = global i8 127")
    row("@\"a b\" = global i1 1 @\"c\" = constant ptr @\"a b\"", "@\"a b\" = global i1 true", "@c = constant ptr @\"a b\"")
    row("")
    row("declare i32 @putchar(i32) define i32 @main() { %1 = call i32 @putchar(i32 65) %2 = call i32 @putchar(i32 10) ret i32 0 }",
          "declare i32 @putchar(i32)",
          "define i32 @main() {",
          "0:",
          "  %1 = call i32 @putchar(i32 65)",
          "  %2 = call i32 @putchar(i32 10)",
          "  ret i32 0",
          "}")
    row("@x = global i32 5 @y = alias i32, ptr @x define i32 @main() { store i32 6, ptr @y %1 = load i32, ptr @x ret i32 %1 }",
        "@x = global i32 5",
        "@y = alias i32, ptr @x",
        "define i32 @main() {",
        "0:",
        "  store i32 6, ptr @y",
        "  %1 = load i32, ptr @x",
        "  ret i32 %1",
        "}")
    # A sum loop as clang prints it.
    row("""; ModuleID = 'sum.c'
source_filename = "sum.c"
target datalayout = "e-m:e-p270:32:32-p271:32:32-p272:64:64-i64:64-i128:128-f80:128-n8:16:32:64-S128"
target triple = "x86_64-unknown-linux-gnu"

; Function Attrs: noinline nounwind optnone uwtable
define dso_local i32 @main() #0 {
  %1 = alloca i32, align 4
  %2 = alloca i32, align 4
  store i32 0, ptr %1, align 4
  store i32 0, ptr %2, align 4
  br label %3

3:                                                ; preds = %6, %0
  %4 = load i32, ptr %2, align 4
  %5 = icmp slt i32 %4, 5
  br i1 %5, label %6, label %9

6:                                                ; preds = %3
  %7 = load i32, ptr %2, align 4
  %8 = add nsw i32 %7, 1
  store i32 %8, ptr %2, align 4
  br label %3, !llvm.loop !2

9:                                                ; preds = %3
  %10 = load i32, ptr %1, align 4
  ret i32 %10
}

attributes #0 = { noinline nounwind optnone uwtable "frame-pointer"="all" }

!llvm.module.flags = !{!0}
!llvm.ident = !{!1}

!0 = !{i32 1, !"wchar_size", i32 4}
!1 = !{!"clang version 18.1.3"}
!2 = distinct !{!2, !3}
!3 = !{!"llvm.loop.mustprogress"}
""",
        "source_filename = \"sum.c\"",
        "target datalayout = \"e-m:e-p270:32:32-p271:32:32-p272:64:64-i64:64-i128:128-f80:128-n8:16:32:64-S128\"",
        "target triple = \"x86_64-unknown-linux-gnu\"",
        "define i32 @main() {",
        "0:",
        "  %1 = alloca i32, align 4",
        "  %2 = alloca i32, align 4",
        "  store i32 0, ptr %1, align 4",
        "  store i32 0, ptr %2, align 4",
        "  br label %3",
        "3:",
        "  %4 = load i32, ptr %2, align 4",
        "  %5 = icmp slt i32 %4, 5",
        "  br i1 %5, label %6, label %9",
        "6:",
        "  %7 = load i32, ptr %2, align 4",
        "  %8 = add nsw i32 %7, 1",
        "  store i32 %8, ptr %2, align 4",
        "  br label %3",
        "9:",
        "  %10 = load i32, ptr %1, align 4",
        "  ret i32 %10",
        "}")


def texts():
    """The texts of a module: in a fixed order, between quotes."""
    row("target triple = \"t\" target datalayout = \"e\" source_filename = \"s\"",
        "source_filename = \"s\"", "target datalayout = \"e\"", "target triple = \"t\"")
    row("@x = global i8 0 target triple = \"x86_64-unknown-linux-gnu\"", "target triple = \"x86_64-unknown-linux-gnu\"", "@x = global i8 0")
    row("target datalayout = \"\\65-m:\\65-p:64:64\"", "target datalayout = \"e-m:e-p:64:64\"")
    row("source_filename = \"\" target datalayout = \"\" target triple = \"\"",
        "source_filename = \"\"", "target datalayout = \"\"", "target triple = \"\"")
    row("source_filename = \"a \\22q\\22 \\\\ \\5c \\0a\\00\\7f\\ff~\\7E\\20.c\"", "source_filename = \"a \\22q\\22 \\5C \\5C \\0A\\00\\7F\\FF~~ .c\"")
    row("target triple = \"\\e4\\\\\\22-\\41\"", "target triple = \"\\E4\\5C\\22-A\"")
    # Bytes as they are in the text, a line feed among them.
    row("source_filename = \"\tone\r\ntwo\x01\x7f\x80\xff; three\"", "source_filename = \"\\09one\\0D\\0Atwo\\01\\7F\\80\\FF; three\"")
    row("source_filename=\"a\"target datalayout=\"e\"target triple=\"b\"",
        "source_filename = \"a\"", "target datalayout = \"e\"", "target triple = \"b\"")


def structs():
    """Named structs: opaque, plain, packed, empty, nested, in the order of the text."""
    row("%A=type opaque", "%A = type opaque")
    row("%A=type{i8,ptr,[2 x i16]}", "%A = type { i8, ptr, [2 x i16] }")
    row("%A=type<{i8,ptr}>", "%A = type <{ i8, ptr }>")
    row("%A = type { } %B = type <{ }> %C = type {} %D = type <{}>", "%A = type {}", "%B = type <{}>", "%C = type {}", "%D = type <{}>")
    row("%C = type { %B, { %A, <{ i1 }> }, [0 x {}] } %A = type opaque %B = type <{ [3 x %D], { } }> %D = type { ptr }",
        "%C = type { %B, { %A, <{ i1 }> }, [0 x {}] }", "%A = type opaque", "%B = type <{ [3 x %D], {} }>", "%D = type { ptr }")
    row("%\"A\" = type opaque %\"a b\" = type { %\"A\" } %\"7\" = type { ptr } %-7 = type { %\"7\", %\"a\\20b\", %\"-7b\" } %\"-7b\" = type {}",
        "%A = type opaque", "%\"a b\" = type { %A }", "%\"7\" = type { ptr }", "%-7 = type { %\"7\", %\"a b\", %-7b }", "%-7b = type {}")
    # Names that are words of the language, and a struct of the name of a local.
    row("%i32 = type { i32 } %type = type { %i32 } %opaque = type opaque @x = global %type zeroinitializer "
        "define %i32 @f(%i32 %i32) { ret %i32 %i32 }",
        "%i32 = type { i32 }", "%type = type { %i32 }", "%opaque = type opaque", "@x = global %type zeroinitializer",
        "define %i32 @f(%i32 %i32) {", "0:", "  ret %i32 %i32", "}")
    # Unused ones stay, two of one body too.
    same("%A = type { i32 }", "%B = type { i32 }", "@x = global %B { i32 1 }")
    # `void` in a body that nothing is of.
    same("%A = type { void }")


def variables():
    """Linkages, constness and alignments of variables; what is dropped of them."""
    row("@a = private global i32 1 @b = internal global i32 2 @c = linkonce global i32 3 @d = linkonce_odr global i32 4 @e = weak global i32 5 "
        "@f = weak_odr global i32 6 @g = common global i32 0 @h = appending global [1 x i32] [i32 7] @i = external global i32 "
        "@j = extern_weak global i32 @k = global i32 8",
        "@a = private global i32 1", "@b = internal global i32 2", "@c = linkonce global i32 3", "@d = linkonce_odr global i32 4",
        "@e = weak global i32 5", "@f = weak_odr global i32 6", "@g = common global i32 0", "@h = appending global [1 x i32] [i32 7]",
        "@i = external global i32", "@j = extern_weak global i32", "@k = global i32 8")
    row("@a = private constant i32 1 @b = internal constant i32 2 @c = linkonce constant i32 3 @d = linkonce_odr constant i32 4 @e = weak constant i32 5 "
        "@f = weak_odr constant i32 6 @h = appending constant [1 x i32] [i32 7] @i = external constant i32 @j = extern_weak constant i32 @k = constant i32 8",
        "@a = private constant i32 1", "@b = internal constant i32 2", "@c = linkonce constant i32 3", "@d = linkonce_odr constant i32 4",
        "@e = weak constant i32 5", "@f = weak_odr constant i32 6", "@h = appending constant [1 x i32] [i32 7]",
        "@i = external constant i32", "@j = extern_weak constant i32", "@k = constant i32 8")
    row("@a = global i8 0, align 1 @b = external global i8, align 2 @c = extern_weak constant i8, align 0065536 @d = internal global i8 1, align 32 "
        "@e = common global i8 0, align 16 @f = appending global [0 x ptr] [], align 8",
        "@a = global i8 0, align 1", "@b = external global i8, align 2", "@c = extern_weak constant i8, align 65536",
        "@d = internal global i8 1, align 32", "@e = common global i8 0, align 16", "@f = appending global [0 x ptr] [], align 8")
    row("@a = common global i1 false @b = common global ptr null @c = common global { i8, [2 x i16] } zeroinitializer @d = common global i128 -0 "
        "@e = common global i1 0",
        "@a = common global i1 false", "@b = common global ptr null", "@c = common global { i8, [2 x i16] } zeroinitializer",
        "@d = common global i128 0", "@e = common global i1 false")
    # Declared variables of any type.
    same("%T = type opaque", "@a = external global %T", "@b = external constant [0 x %T]", "@c = extern_weak global ptr", "@d = external global {}",
         "@e = external global <{ i8, {} }>")
    # Words, sections and metadata that are dropped.
    row("@a = internal unnamed_addr constant i8 1, section \"s\", align 4, !foo !0 @b = dso_local global i8 2, align 2 @c = hidden local_unnamed_addr global i8 3 "
        "@d = external dso_local global i8, align 1, !foo !0, !bar !0 @e = protected global i8 4 @f = dso_preemptable default global i8 5, section \"\\22\\00\" "
        "@g = weak hidden unnamed_addr constant i8 6, section \".a b\" !0 = !{}",
        "@a = internal constant i8 1, align 4", "@b = global i8 2, align 2", "@c = global i8 3", "@d = external global i8, align 1",
        "@e = global i8 4", "@f = global i8 5", "@g = weak constant i8 6")
    row("@a = global i8 1, !foo !{}, section \"s\", !bar !{!0, i32 5, {}}, align 8, section \"t\" !0 = !{} "
        "@b = unnamed_addr hidden dso_local default protected local_unnamed_addr dso_preemptable unnamed_addr constant i8 2",
        "@a = global i8 1, align 8", "@b = constant i8 2")
    # What `llvm-link` has names of its own for.
    row("@llvm.used = appending global [2 x ptr] [ptr @x, ptr @f], section \"llvm.metadata\" @x = internal global i8 0 "
        "@llvm.compiler.used = appending global [1 x ptr] [ptr getelementptr (i8, ptr @x, i64 0)], section \"llvm.metadata\" "
        "@llvm.global_ctors = appending global [2 x { i32, ptr, ptr }] [{ i32, ptr, ptr } { i32 65535, ptr @f, ptr null }, { i32, ptr, ptr } { i32 -1, ptr null, ptr @x }] "
        "@llvm.global_dtors = appending global [0 x { i32, ptr, ptr }] [] define internal void @f() { ret void }",
        "@llvm.used = appending global [2 x ptr] [ptr @x, ptr @f]", "@x = internal global i8 0",
        "@llvm.compiler.used = appending global [1 x ptr] [ptr getelementptr (i8, ptr @x, i64 0)]",
        "@llvm.global_ctors = appending global [2 x { i32, ptr, ptr }] [{ i32, ptr, ptr } { i32 65535, ptr @f, ptr null }, { i32, ptr, ptr } { i32 -1, ptr null, ptr @x }]",
        "@llvm.global_dtors = appending global [0 x { i32, ptr, ptr }] []",
        "define internal void @f() {", "0:", "  ret void", "}")


def types():
    """Every form of a type, in every bracket, with and without parts."""
    row("@a = external global i1 @b = external global i2 @c = external global i127 @d = external global i128 @e = external global ptr",
        "@a = external global i1", "@b = external global i2", "@c = external global i127", "@d = external global i128", "@e = external global ptr")
    row("@a = external global [ 3 x [ 007 x i8 ] ] @b = external global[-0 x{}] @c = external global [ 1099511627776 x i8 ]",
        "@a = external global [3 x [7 x i8]]", "@b = external global [0 x {}]", "@c = external global [1099511627776 x i8]")
    row("@a = external global{}@b = external global <{ }> @c = external global{{},<{}>,[2 x{ptr}]} @d = external global < { < { i8 } > , { i16 , ptr } } >",
        "@a = external global {}", "@b = external global <{}>", "@c = external global { {}, <{}>, [2 x { ptr }] }",
        "@d = external global <{ <{ i8 }>, { i16, ptr } }>")
    # An array 64 deep, and a struct 64 deep.
    row("@a = external global " + "[ 1 x " * 64 + "i8" + " ]" * 64 + " @b = external global " + "{" * 64 + "}" * 64,
        "@a = external global " + "[1 x " * 64 + "i8" + "]" * 64, "@b = external global " + "{ " * 63 + "{}" + " }" * 63)
    same("declare void @f(i1, i128, ptr, [2 x i8], { i8, ptr }, <{ i8 }>, {}, <{}>)", "declare [2 x { ptr }] @g()", "declare { i8, [0 x ptr] } @h()", "declare <{}> @i()")


def integers():
    """Signed decimal, by the width of the type; at `i1`, `true` and `false`."""
    row("@a = global i1 0 @b = global i1 1 @c = global i1 -1 @d = global i1 true @e = global i1 false @f = global i1 -0 @g = global i1 01",
        "@a = global i1 false", "@b = global i1 true", "@c = global i1 true", "@d = global i1 true", "@e = global i1 false",
        "@f = global i1 false", "@g = global i1 true")
    row("@a = global i2 1 @b = global i2 2 @c = global i2 3 @d = global i2 -2 @e = global i7 63 @f = global i7 64 @g = global i7 127 @h = global i7 -64",
        "@a = global i2 1", "@b = global i2 -2", "@c = global i2 -1", "@d = global i2 -2", "@e = global i7 63", "@f = global i7 -64",
        "@g = global i7 -1", "@h = global i7 -64")
    row("@a = global i8 0 @b = global i8 127 @c = global i8 128 @d = global i8 255 @e = global i8 -128 @f = global i8 -1 @g = global i8 0007 @h = global i8 -007 "
        "@i = global i8 -0 @j = global i8 00 @k = global i8 100 @l = global i8 -100",
        "@a = global i8 0", "@b = global i8 127", "@c = global i8 -128", "@d = global i8 -1", "@e = global i8 -128", "@f = global i8 -1",
        "@g = global i8 7", "@h = global i8 -7", "@i = global i8 0", "@j = global i8 0", "@k = global i8 100", "@l = global i8 -100")
    row("@a = global i32 2147483647 @b = global i32 2147483648 @c = global i32 4294967295 @d = global i32 -2147483648 @e = global i32 -1 @f = global i32 4294967286",
        "@a = global i32 2147483647", "@b = global i32 -2147483648", "@c = global i32 -1", "@d = global i32 -2147483648", "@e = global i32 -1",
        "@f = global i32 -10")
    row("@a = global i64 9223372036854775807 @b = global i64 9223372036854775808 @c = global i64 18446744073709551615 @d = global i64 -9223372036854775808 "
        "@e = global i64 4294967296 @f = global i64 18446744073709551606 @g = global i64 -1",
        "@a = global i64 9223372036854775807", "@b = global i64 -9223372036854775808", "@c = global i64 -1", "@d = global i64 -9223372036854775808",
        "@e = global i64 4294967296", "@f = global i64 -10", "@g = global i64 -1")
    row("@a = global i128 170141183460469231731687303715884105727 @b = global i128 170141183460469231731687303715884105728 "
        "@c = global i128 340282366920938463463374607431768211455 @d = global i128 -170141183460469231731687303715884105728 @e = global i128 18446744073709551616 "
        "@f = global i128 -18446744073709551617 @g = global i128 0000000000000000000000000000000000000000000000000000000000001 @h = global i128 -1 "
        "@i = global i128 100000000000000000000000000000000000000",
        "@a = global i128 170141183460469231731687303715884105727", "@b = global i128 -170141183460469231731687303715884105728",
        "@c = global i128 -1", "@d = global i128 -170141183460469231731687303715884105728", "@e = global i128 18446744073709551616",
        "@f = global i128 -18446744073709551617", "@g = global i128 1", "@h = global i128 -1", "@i = global i128 100000000000000000000000000000000000000")
    row("@a = global i65 18446744073709551615 @b = global i65 18446744073709551616 @c = global i65 36893488147419103231 @d = global i127 170141183460469231731687303715884105727 "
        "@e = global i127 85070591730234615865843651857942052864 @f = global i63 9223372036854775807 @g = global i63 4611686018427387903 @h = global i33 4294967296",
        "@a = global i65 18446744073709551615", "@b = global i65 -18446744073709551616", "@c = global i65 -1", "@d = global i127 -1",
        "@e = global i127 -85070591730234615865843651857942052864", "@f = global i63 -1", "@g = global i63 4611686018427387903", "@h = global i33 -4294967296")
    # In every place where an integer stands.
    inside("%a = add i8 200, 255 %b = icmp ult i1 1, 0 %c = select i1 -1, i8 128, i8 0127 %d = zext i8 255 to i16 %e = freeze i2 2 store i64 18446744073709551615, ptr null "
           "%g = alloca i8, i8 255 %h = getelementptr i8, ptr null, i8 255 %i = insertvalue { i8 } { i8 255 }, i8 254, 0",
           "%a = add i8 -56, -1", "%b = icmp ult i1 true, false", "%c = select i1 true, i8 -128, i8 127", "%d = zext i8 -1 to i16", "%e = freeze i2 -2",
           "store i64 -1, ptr null", "%g = alloca i8, i8 -1", "%h = getelementptr i8, ptr null, i8 -1", "%i = insertvalue { i8 } { i8 -1 }, i8 -2, 0")


def nested(open_mark, inner, close_mark, depth):
    """A bracket with so many levels."""
    return open_mark * (depth - 1) + inner + close_mark * (depth - 1)


def constant_nested(depth):
    """The constant of a struct with so many levels, the innermost of which is empty."""
    return "{}" if depth == 1 else "{ " + nested("{ ", "{}", " }", depth - 1) + " " + constant_nested(depth - 1) + " }"


def constants():
    """Every form of a constant, at types that have it."""
    row("@a = global ptr null @b = global i32 undef @c = global ptr poison @d = global { i8, ptr } zeroinitializer @e = global i32 zeroinitializer @f = global i1 zeroinitializer "
        "@g = global ptr zeroinitializer @h = global [2 x i8] undef @i = global ptr @h @j = global i1 poison @k = global {} undef",
        "@a = global ptr null", "@b = global i32 undef", "@c = global ptr poison", "@d = global { i8, ptr } zeroinitializer",
        "@e = global i32 zeroinitializer", "@f = global i1 zeroinitializer", "@g = global ptr zeroinitializer", "@h = global [2 x i8] undef",
        "@i = global ptr @h", "@j = global i1 poison", "@k = global {} undef")
    row("@a = global[2 x i8][i8 1,i8 255]@b = global[ 0 x i8 ][ ]@c = global [1 x [2 x i1]] [[2 x i1] [i1 1, i1 0]] @d = global [0 x ptr] []",
        "@a = global [2 x i8] [i8 1, i8 -1]", "@b = global [0 x i8] []", "@c = global [1 x [2 x i1]] [[2 x i1] [i1 true, i1 false]]", "@d = global [0 x ptr] []")
    row("@a = global{i8,ptr}{i8 1,ptr@a}@b = global{}{}@c = global { { }, i1 } { { } { }, i1 true } @d = global { } { }",
        "@a = global { i8, ptr } { i8 1, ptr @a }", "@b = global {} {}", "@c = global { {}, i1 } { {} {}, i1 true }", "@d = global {} {}")
    row("@a = global<{i8,ptr}><{i8 1,ptr@a}>@b = global<{}><{}>@c = global < { < { } > } > < { < { } > < { } > } > @d = global <{ i8 }> < { i8 2 } >",
        "@a = global <{ i8, ptr }> <{ i8 1, ptr @a }>", "@b = global <{}> <{}>", "@c = global <{ <{}> }> <{ <{}> <{}> }>", "@d = global <{ i8 }> <{ i8 2 }>")
    row("%T = type { i8, %U } %U = type <{ [2 x ptr] }> %E = type {} @a = global %T { i8 7, %U <{ [2 x ptr] [ptr null, ptr @a] }> } @b = global [2 x %E] [%E {}, %E zeroinitializer]",
        "%T = type { i8, %U }", "%U = type <{ [2 x ptr] }>", "%E = type {}", "@a = global %T { i8 7, %U <{ [2 x ptr] [ptr null, ptr @a] }> }",
        "@b = global [2 x %E] [%E {}, %E zeroinitializer]")
    row("@a = global [3 x i8] c\"a b\" @b = global [0 x i8] c\"\" @c = global [8 x i8] c\"\\00\\\\\\22\\5c\\0a\\7f\\ff~\" @d = global [2 x i8] c\"\\41\\e4\" "
        "@e = constant [6 x i8] c\"hello\\00\" @f = global [5 x i8] c\"\t\n\x80'c\" @g = global [2 x i8] [i8 104, i8 105]",
        "@a = global [3 x i8] c\"a b\"", "@b = global [0 x i8] c\"\"", "@c = global [8 x i8] c\"\\00\\5C\\22\\5C\\0A\\7F\\FF~\"", "@d = global [2 x i8] c\"A\\E4\"",
        "@e = constant [6 x i8] c\"hello\\00\"", "@f = global [5 x i8] c\"\\09\\0A\\80'c\"", "@g = global [2 x i8] [i8 104, i8 105]")
    row("@a = global [256 x i8] c\"" + hexes(0, 256).lower() + "\"", "@a = global [256 x i8] c\"\\00" + ALL_BYTES + "\"")
    # Expressions: one space before their parentheses, none inside.
    row("@x = global [4 x { i8, i16 }] zeroinitializer @a = global ptr getelementptr([4 x{i8,i16}],ptr@x,i64 0,i64 3,i32 1) "
        "@b = global ptr getelementptr inbounds ( i8 , ptr @x , i32 -1 ) @c = global ptr getelementptr (ptr, ptr null, i8 255) "
        "@d = global ptr getelementptr ({ i8, [2 x i16] }, ptr @x, i64 1, i32 1, i1 1)",
        "@x = global [4 x { i8, i16 }] zeroinitializer", "@a = global ptr getelementptr ([4 x { i8, i16 }], ptr @x, i64 0, i64 3, i32 1)",
        "@b = global ptr getelementptr inbounds (i8, ptr @x, i32 -1)", "@c = global ptr getelementptr (ptr, ptr null, i8 -1)",
        "@d = global ptr getelementptr ({ i8, [2 x i16] }, ptr @x, i64 1, i32 1, i1 true)")
    row("@x = global i8 0 " + " ".join(f"@{name} = global ptr getelementptr {flags} (i8, ptr @x, i64 1)" for name, flags in [
        ("a", "inbounds"), ("b", "nusw"), ("c", "nuw"), ("d", "nusw inbounds"), ("e", "nuw inbounds"), ("f", "nuw nusw"), ("g", "nuw nusw inbounds"), ("h", "nusw nuw inbounds")]),
        "@x = global i8 0",
        "@a = global ptr getelementptr inbounds (i8, ptr @x, i64 1)", "@b = global ptr getelementptr nusw (i8, ptr @x, i64 1)",
        "@c = global ptr getelementptr nuw (i8, ptr @x, i64 1)", "@d = global ptr getelementptr inbounds nusw (i8, ptr @x, i64 1)",
        "@e = global ptr getelementptr inbounds nuw (i8, ptr @x, i64 1)", "@f = global ptr getelementptr nusw nuw (i8, ptr @x, i64 1)",
        "@g = global ptr getelementptr inbounds nusw nuw (i8, ptr @x, i64 1)", "@h = global ptr getelementptr inbounds nusw nuw (i8, ptr @x, i64 1)")
    row("@x = global i8 0 @a = global i64 ptrtoint(ptr@x to i64)@b = global ptr inttoptr ( i64 16 to ptr ) @c = global i8 trunc (i64 ptrtoint (ptr @x to i64) to i8) "
        "@d = global i1 trunc (i2 3 to i1) @e = global i128 ptrtoint (ptr null to i128)",
        "@x = global i8 0", "@a = global i64 ptrtoint (ptr @x to i64)", "@b = global ptr inttoptr (i64 16 to ptr)",
        "@c = global i8 trunc (i64 ptrtoint (ptr @x to i64) to i8)", "@d = global i1 trunc (i2 -1 to i1)", "@e = global i128 ptrtoint (ptr null to i128)")
    row("@a = global i8 add(i8 1,i8 2)@b = global i8 add nuw (i8 1, i8 2) @c = global i8 add nsw (i8 1, i8 2) @d = global i8 add nsw nuw (i8 1, i8 2) @e = global i8 add nuw nsw (i8 1, i8 2) "
        "@f = global i8 sub (i8 1, i8 2) @g = global i8 sub nuw (i8 255, i8 2) @h = global i8 sub nsw nuw ( i8 3 , i8 2 ) @i = global i8 sub nsw (i8 1, i8 2) @j = global i1 xor (i1 1, i1 0)",
        "@a = global i8 add (i8 1, i8 2)", "@b = global i8 add nuw (i8 1, i8 2)", "@c = global i8 add nsw (i8 1, i8 2)", "@d = global i8 add nuw nsw (i8 1, i8 2)",
        "@e = global i8 add nuw nsw (i8 1, i8 2)", "@f = global i8 sub (i8 1, i8 2)", "@g = global i8 sub nuw (i8 -1, i8 2)", "@h = global i8 sub nuw nsw (i8 3, i8 2)",
        "@i = global i8 sub nsw (i8 1, i8 2)", "@j = global i1 xor (i1 true, i1 false)")
    row("@x = global i8 0 @y = global i8 0 @a = global i64 add nsw (i64 ptrtoint (ptr @x to i64), i64 sub nuw nsw (i64 ptrtoint (ptr @y to i64), i64 xor (i64 ptrtoint (ptr @x to i64), i64 -1)))",
        "@x = global i8 0", "@y = global i8 0",
        "@a = global i64 add nsw (i64 ptrtoint (ptr @x to i64), i64 sub nuw nsw (i64 ptrtoint (ptr @y to i64), i64 xor (i64 ptrtoint (ptr @x to i64), i64 -1)))")
    # 64 deep.
    row("@a = global " + nested("{", "{}", "}", 64) + " " + constant_nested(64) + " @b = global " + "[1 x" * 63 + "{}" + "]" * 63 + "zeroinitializer",
        "@a = global " + nested("{ ", "{}", " }", 64) + " " + constant_nested(64), "@b = global " + "[1 x " * 63 + "{}" + "]" * 63 + " zeroinitializer")
    same("@x = global ptr " + "getelementptr (i8, ptr " * 64 + "@x" + ", i64 1)" * 64)
    # In instructions.
    inside("store[2 x i8]c\"a\\22\",ptr@x store{}{},ptr null store[0 x ptr][],ptr undef store <{ i8, i1 }> <{ i8 255, i1 1 }>, ptr poison "
           "store ptr getelementptr nuw nusw (i8, ptr @x, i64 1), ptr inttoptr (i64 8 to ptr) %1 = add i64 ptrtoint (ptr @x to i64), add nsw nuw (i64 1, i64 2) "
           "store { i8, [2 x i1] } { i8 1, [2 x i1] zeroinitializer }, ptr getelementptr (i8, ptr @x, i8 1)",
           "store [2 x i8] c\"a\\22\", ptr @x", "store {} {}, ptr null", "store [0 x ptr] [], ptr undef", "store <{ i8, i1 }> <{ i8 -1, i1 true }>, ptr poison",
           "store ptr getelementptr nusw nuw (i8, ptr @x, i64 1), ptr inttoptr (i64 8 to ptr)", "%1 = add i64 ptrtoint (ptr @x to i64), add nuw nsw (i64 1, i64 2)",
           "store { i8, [2 x i1] } { i8 1, [2 x i1] zeroinitializer }, ptr getelementptr (i8, ptr @x, i8 1)", before="@x = global i8 0\n")


def hexes(first, behind):
    """Two digits in upper case behind a backslash for each byte."""
    return "".join(f"\\{byte:02X}" for byte in range(first, behind))


# The bytes from 1 on as they stand between quotes.
ALL_BYTES = (hexes(1, 32) + " !\\22#$%&'()*+,-./0123456789:;<=>?@ABCDEFGHIJKLMNOPQRSTUVWXYZ[\\5C]^_`abcdefghijklmnopqrstuvwxyz{|}~" + hexes(127, 256))
# Those that may stand there as they are, and how they are printed.
PLAIN_BYTES = "".join(chr(byte) for byte in range(1, 256) if byte not in (34, 92))
PLAIN_PRINTED = ALL_BYTES.replace("\\22", "").replace("\\5C", "")


def names():
    """Bare where they are identifiers, else between quotes, with two digits for what is not printed."""
    row("@\"\\01\\02\\03\\04\\05\\06\\07\\08\\09\\0a\\0b\\0c\\0d\\0e\\0f\\10\\11\\12\\13\\14\\15\\16\\17\\18\\19\\1a\\1b\\1c\\1d\\1e\\1f "
        "!\\22#$%&'()*+,-./0123456789:;<=>?@ABCDEFGHIJKLMNOPQRSTUVWXYZ[\\\\]^_`abcdefghijklmnopqrstuvwxyz{|}~" + hexes(127, 256).lower() + "\" = global i8 0",
        "@\"" + ALL_BYTES + "\" = global i8 0")
    row(f"@\"{PLAIN_BYTES}\" = global i8 0", f"@\"{PLAIN_PRINTED}\" = global i8 0")
    row(f"define void @f(i8 %\"{hexes(1, 256)}\") {{ ret void }}", f"define void @f(i8 %\"{ALL_BYTES}\") {{", "0:", "  ret void", "}")
    row(f"define void @f() {{ \"{hexes(1, 256).lower()}\": br label %\"b\\22\" \"b\\22\": br label %\"b\\22\" }}",
        "define void @f() {", f"\"{ALL_BYTES}\":", "  br label %\"b\\22\"", "\"b\\22\":", "  br label %\"b\\22\"", "}")
    row(f"%\"{PLAIN_BYTES}\" = type opaque", f"%\"{PLAIN_PRINTED}\" = type opaque")
    # Identifiers.
    row("@\"a\" = global i8 0 @\"-\" = global i8 0 @\"$\" = global i8 0 @\".\" = global i8 0 @\"_\" = global i8 0 @\"...\" = global i8 0 @\"-7\" = global i8 0 @\"a-$._9Z\" = global i8 0 "
        "@\"\\5f\\41\" = global i8 0",
        "@a = global i8 0", "@- = global i8 0", "@$ = global i8 0", "@. = global i8 0", "@_ = global i8 0", "@... = global i8 0", "@-7 = global i8 0",
        "@a-$._9Z = global i8 0", "@_A = global i8 0")
    # No identifiers.
    row("@\"7\" = global i8 0 @\"0\" = global i8 0 @\"007\" = global i8 0 @\"7a\" = global i8 0 @\"a b\" = global i8 0 @\" \" = global i8 0 @\"a:\" = global i8 0 @\"@a\" = global i8 0 @\"%a\" = global i8 0 "
        "@\"a\\22\" = global i8 0 @\"\\c3\\a4\" = global i8 0 @\"\xc3\xa5\" = global i8 0 @\"a,b\" = global i8 0 @\"a*\" = global i8 0 @\"\\5c\" = global i8 0 @\"\\\\5c\" = global i8 0",
        "@\"7\" = global i8 0", "@\"0\" = global i8 0", "@\"007\" = global i8 0", "@\"7a\" = global i8 0", "@\"a b\" = global i8 0", "@\" \" = global i8 0", "@\"a:\" = global i8 0",
        "@\"@a\" = global i8 0", "@\"%a\" = global i8 0", "@\"a\\22\" = global i8 0", "@\"\\C3\\A4\" = global i8 0", "@\"\\C3\\A5\" = global i8 0", "@\"a,b\" = global i8 0",
        "@\"a*\" = global i8 0", "@\"\\5C\" = global i8 0", "@\"\\5C5c\" = global i8 0")
    # Words of the language as names.
    row("@i32 = global i8 0 @global = global ptr @\"i32\" @define = alias i8, ptr @i32 define void @void(i32 %i32) { ret: br label %\"label\" label: %\"to\" = add i32 %\"i32\", %i32 br label %x "
        "x: %\"ret void\" = zext i32 %to to i64 ret void }",
        "@i32 = global i8 0", "@global = global ptr @i32", "@define = alias i8, ptr @i32",
        "define void @void(i32 %i32) {", "ret:", "  br label %label", "label:", "  %to = add i32 %i32, %i32", "  br label %x", "x:", "  %\"ret void\" = zext i32 %to to i64", "  ret void", "}")
    # Labels: bare ones, quoted ones, names that begin with a digit or a sign, and dots.
    ended("\"a\": br label %\"b c\" \"b c\": br label %\"7\" \"7\": br label %-7 -7: br label %\"7a\" 7a: br label %... ...: br label %$ $: br label %\"\\22\" \"\\22\": br label %\"-\" -: br label %a.1 \"a.1\": ret void",
          "a:", "  br label %\"b c\"", "\"b c\":", "  br label %\"7\"", "\"7\":", "  br label %-7", "-7:", "  br label %\"7a\"", "\"7a\":", "  br label %...", "...:", "  br label %$", "$:",
          "  br label %\"\\22\"", "\"\\22\":", "  br label %-", "-:", "  br label %a.1", "a.1:", "  ret void")
    # A number and a name of the same digits.
    row("define i1 @f(i1 %0, i1 %\"0\", i1 %\"1\", i1 %1) { \"2\": %2 = and i1 %0, %\"0\" %\"3\" = or i1 %1, %\"1\" br label %3 3: ret i1 %\"3\" }",
        "define i1 @f(i1 %0, i1 %\"0\", i1 %\"1\", i1 %1) {", "\"2\":", "  %2 = and i1 %0, %\"0\"", "  %\"3\" = or i1 %1, %\"1\"", "  br label %3", "3:", "  ret i1 %\"3\"", "}")
    row("define i32 @\"f g\"(i32 %\"a b\", i32 %\"c\") { %\"d e\" = add i32 %\"a b\", %c %\"f\" = call i32 @\"f g\"(i32 %\"d e\", i32 %\"\\63\") %\"f\\20g\" = sub i32 0, 1 ret i32 %f }",
        "define i32 @\"f g\"(i32 %\"a b\", i32 %c) {", "0:", "  %\"d e\" = add i32 %\"a b\", %c", "  %f = call i32 @\"f g\"(i32 %\"d e\", i32 %c)", "  %\"f g\" = sub i32 0, 1", "  ret i32 %f", "}")


def numbering():
    """Parameters, blocks and results without a name count together from 0."""
    row("define i32 @f(i32, i32 %1, i32) { %4 = add i32 %0, %2 br label %5 5: ret i32 %4 }",
        "define i32 @f(i32 %0, i32 %1, i32 %2) {", "3:", "  %4 = add i32 %0, %2", "  br label %5", "5:", "  ret i32 %4", "}")
    row("define i32 @f(i32 %a, i32, i32 %b, ptr) { add i32 %a, %0 %c = add i32 %3, %b br label %4 sub i32 %c, %3 ret i32 %5 }",
        "define i32 @f(i32 %a, i32 %0, i32 %b, ptr %1) {", "2:", "  %3 = add i32 %a, %0", "  %c = add i32 %3, %b", "  br label %4", "4:", "  %5 = sub i32 %c, %3", "  ret i32 %5", "}")
    # Blocks without a label, and a label that is written with zeros before it.
    ended("br i1 %c, label %1, label %2 ret void ret void", "0:", "  br i1 %c, label %1, label %2", "1:", "  ret void", "2:", "  ret void", parameters="i1 %c")
    ended("00: %001 = add i8 1, 2 br label %0002 2: %3 = add i8 %01, 3 ret void", "0:", "  %1 = add i8 1, 2", "  br label %2", "2:", "  %3 = add i8 %1, 3", "  ret void")
    # A named entry takes no number.
    ended("e: %0 = add i8 1, 2 br label %1 1: %2 = add i8 %0, 3 br label %m m: %n = add i8 %2, 1 %3 = add i8 %n, 1 ret void",
          "e:", "  %0 = add i8 1, 2", "  br label %1", "1:", "  %2 = add i8 %0, 3", "  br label %m", "m:", "  %n = add i8 %2, 1", "  %3 = add i8 %n, 1", "  ret void")
    # A call counts where it returns something; a store and a void call do not.
    row("declare i32 @g() declare void @h() define i32 @f() { call i32 @g() call void @h() store i8 0, ptr null call i32 @g() %3 = call i32 @g() ret i32 %2 }",
        "declare i32 @g()", "declare void @h()", "define i32 @f() {", "0:", "  %1 = call i32 @g()", "  call void @h()", "  store i8 0, ptr null", "  %2 = call i32 @g()", "  %3 = call i32 @g()",
        "  ret i32 %2", "}")
    # Each function begins anew; ten and more.
    row("define i8 @f(i8) { ret i8 %0 } define i8 @g(i8) { add i8 %0, 1 " + " ".join(f"add i8 %{n}, 1" for n in range(2, 12)) + " ret i8 %12 }",
        "define i8 @f(i8 %0) {", "1:", "  ret i8 %0", "}", "define i8 @g(i8 %0) {", "1:", "  %2 = add i8 %0, 1", "  %3 = add i8 %2, 1", "  %4 = add i8 %3, 1", "  %5 = add i8 %4, 1",
        "  %6 = add i8 %5, 1", "  %7 = add i8 %6, 1", "  %8 = add i8 %7, 1", "  %9 = add i8 %8, 1", "  %10 = add i8 %9, 1", "  %11 = add i8 %10, 1", "  %12 = add i8 %11, 1", "  ret i8 %12", "}")
    row(["define void @f(){", (1, 110, "%#=add i8 0,1\n"), "ret void}"], "define void @f() {", "0:", *(f"  %{n} = add i8 0, 1" for n in range(1, 110)), "  ret void", "}")
    # Uses before definitions, and blocks that nothing reaches.
    ended("br label %3 1: %2 = add i8 %4, 1 ret i8 %2 3: %4 = add i8 1, 1 br label %1 5: %6 = add i8 %6, 1 br label %5",
          "0:", "  br label %3", "1:", "  %2 = add i8 %4, 1", "  ret i8 %2", "3:", "  %4 = add i8 1, 1", "  br label %1", "5:", "  %6 = add i8 %6, 1", "  br label %5", result="i8")
    # What a `declare` names says nothing.
    row("declare void @f(i32 %x, i32 %\"a b\", i32, ptr %x)", "declare void @f(i32, i32, i32, ptr)")


def aliases():
    """Aliases stand between variables and functions: of a plain type, or of a function type."""
    row("define i32 @f() { ret i32 1 } @h = internal alias i32 (), ptr @f @y = alias i32, ptr @x @x = global i32 0",
        "@x = global i32 0", "@h = internal alias i32 (), ptr @f", "@y = alias i32, ptr @x", "define i32 @f() {", "0:", "  ret i32 1", "}")
    row("@x = global i8 0 @a = external alias i8, ptr @x @b = private alias i8, ptr @x @c = internal alias i8, ptr @x @d = alias i8, ptr @x",
        "@x = global i8 0", "@a = alias i8, ptr @x", "@b = private alias i8, ptr @x", "@c = internal alias i8, ptr @x", "@d = alias i8, ptr @x")
    row("define void @f() { ret void } @a=alias void(),ptr@f @b = alias i8(i16,ptr),ptr@f @c = alias void(...),ptr@f @d = private alias ptr ( i8 , ... ) , ptr @f "
        "@e = alias {i8,ptr}([2 x i8],{},<{i1}>,...), ptr @f",
        "@a = alias void (), ptr @f", "@b = alias i8 (i16, ptr), ptr @f", "@c = alias void (...), ptr @f", "@d = private alias ptr (i8, ...), ptr @f",
        "@e = alias { i8, ptr } ([2 x i8], {}, <{ i1 }>, ...), ptr @f", "define void @f() {", "0:", "  ret void", "}")
    row("%T = type { i8 } @x = internal constant %T zeroinitializer @a = alias %T, ptr @x @b = alias [2 x{ptr,%T}], ptr @x @c = alias {}, ptr @x @d = alias %T(%T), ptr @f "
        "define internal void @f() { ret void } @e = alias ptr, ptr @x",
        "%T = type { i8 }", "@x = internal constant %T zeroinitializer", "@a = alias %T, ptr @x", "@b = alias [2 x { ptr, %T }], ptr @x", "@c = alias {}, ptr @x", "@d = alias %T (%T), ptr @f",
        "@e = alias ptr, ptr @x", "define internal void @f() {", "0:", "  ret void", "}")
    row("@\"a b\" = global i8 0 @\"c\\22\" = alias i8, ptr @\"a b\" @\"d\" = private alias i8, ptr @\"a\\20b\" @\"7\" = alias i8, ptr @\"a b\"",
        "@\"a b\" = global i8 0", "@\"c\\22\" = alias i8, ptr @\"a b\"", "@d = private alias i8, ptr @\"a b\"", "@\"7\" = alias i8, ptr @\"a b\"")
    # Dropped words, and aliases in constants and calls.
    row("@x = global i8 0 @a = internal dso_local unnamed_addr alias i8, ptr @x @b = hidden alias i8, ptr @x @p = global ptr @a @q = global ptr getelementptr (i8, ptr @b, i64 1) "
        "@g = dso_local local_unnamed_addr alias i8 (i8), ptr @f define i8 @f(i8 %n) { %1 = call i8 @g(i8 %n) %2 = load i8, ptr @a ret i8 %1 }",
        "@x = global i8 0", "@p = global ptr @a", "@q = global ptr getelementptr (i8, ptr @b, i64 1)", "@a = internal alias i8, ptr @x", "@b = alias i8, ptr @x",
        "@g = alias i8 (i8), ptr @f", "define i8 @f(i8 %n) {", "0:", "  %1 = call i8 @g(i8 %n)", "  %2 = load i8, ptr @a", "  ret i8 %1", "}")


def functions():
    """Declarations and definitions: linkages, parameters, and what is dropped."""
    row("define void @a() { ret void } define private void @b() { ret void } define internal void @c() { ret void } define linkonce void @d() { ret void } "
        "define linkonce_odr void @e() { ret void } define weak void @f() { ret void } define weak_odr void @g() { ret void } define external void @h() { ret void }",
        *(line for head in ["void @a", "private void @b", "internal void @c", "linkonce void @d", "linkonce_odr void @e", "weak void @f", "weak_odr void @g", "void @h"]
          for line in [f"define {head}() {{", "0:", "  ret void", "}"]))
    row("declare void @a() declare external void @b() declare extern_weak void @c() declare extern_weak i8 @d(i8)",
        "declare void @a()", "declare void @b()", "declare extern_weak void @c()", "declare extern_weak i8 @d(i8)")
    row("declare i32@f(i32,ptr,[2 x i8])declare void@g( )declare ptr @h(...) declare i8 @i(i8,...) declare i8 @j ( i8 , ptr , ... )",
        "declare i32 @f(i32, ptr, [2 x i8])", "declare void @g()", "declare ptr @h(...)", "declare i8 @i(i8, ...)", "declare i8 @j(i8, ptr, ...)")
    row("%T = type { i8 } define %T@f(%T%x,{i8,ptr}%y,<{}>%z,ptr%\"p q\"){ret %T%x}define[1 x i8]@g(){ret[1 x i8][i8 200]}",
        "%T = type { i8 }", "define %T @f(%T %x, { i8, ptr } %y, <{}> %z, ptr %\"p q\") {", "0:", "  ret %T %x", "}",
        "define [1 x i8] @g() {", "0:", "  ret [1 x i8] [i8 -56]", "}")
    # Declarations and definitions keep the order of the text.
    row("declare void @b() @v = global i8 0 define void @a() { call void @b() call void @c() ret void } %T = type {} declare void @c() define internal void @d() { unreachable } source_filename = \"s\"",
        "source_filename = \"s\"", "%T = type {}", "@v = global i8 0", "declare void @b()", "define void @a() {", "0:", "  call void @b()", "  call void @c()", "  ret void", "}",
        "declare void @c()", "define internal void @d() {", "0:", "  unreachable", "}")
    # Several blocks, each of a line of its own.
    same("define i32 @f(i1 %c, i32 %n) {", "e:", "  br i1 %c, label %a, label %b", "a:", "  %x = add i32 %n, 1", "  br label %d", "b:", "  %y = add i32 %n, 2", "  %z = mul i32 %y, %y", "  br label %d",
         "d:", "  %r = phi i32 [ %x, %a ], [ %z, %b ]", "  ret i32 %r", "}", "define void @g() {", "0:", "  ret void", "}")
    # Names of intrinsics, declared and called.
    row("declare void @llvm.memcpy.p0.p0.i64(ptr noalias nocapture writeonly, ptr noalias nocapture readonly, i64, i1 immarg) #1 declare void @llvm.memset.p0.i64(ptr, i8, i64, i1) "
        "declare void @llvm.lifetime.start.p0(i64 immarg, ptr nocapture) declare i8 @llvm.ctpop.i8(i8) define void @f(ptr %p) { call void @llvm.memcpy.p0.p0.i64(ptr align 4 %p, ptr align 4 %p, i64 0, i1 false) "
        "call void @llvm.memset.p0.i64(ptr %p, i8 255, i64 1, i1 1) %a = call i8 @llvm.ctpop.i8(i8 200) ret void } attributes #1 = { nocallback nofree nounwind willreturn memory(argmem: readwrite) }",
        "declare void @llvm.memcpy.p0.p0.i64(ptr, ptr, i64, i1)", "declare void @llvm.memset.p0.i64(ptr, i8, i64, i1)", "declare void @llvm.lifetime.start.p0(i64, ptr)",
        "declare i8 @llvm.ctpop.i8(i8)", "define void @f(ptr %p) {", "0:", "  call void @llvm.memcpy.p0.p0.i64(ptr %p, ptr %p, i64 0, i1 false)",
        "  call void @llvm.memset.p0.i64(ptr %p, i8 -1, i64 1, i1 true)", "  %a = call i8 @llvm.ctpop.i8(i8 -56)", "  ret void", "}")


def arithmetic():
    """Binary instructions: each opcode, with its flags in every order."""
    for word in ["add", "sub", "mul", "shl"]:
        inside(f"%1 = {word} i32 1, %x %2 = {word} nuw i32 1, %x %3 = {word} nsw i32 %x, -1 %4 = {word} nuw nsw i32 %x, 2 %5 = {word} nsw nuw i32 %x, %x {word} i1 1, 0",
               f"%1 = {word} i32 1, %x", f"%2 = {word} nuw i32 1, %x", f"%3 = {word} nsw i32 %x, -1", f"%4 = {word} nuw nsw i32 %x, 2", f"%5 = {word} nuw nsw i32 %x, %x",
               f"%6 = {word} i1 true, false", parameters="i32 %x")
    for word in ["udiv", "sdiv", "lshr", "ashr"]:
        inside(f"%1={word} i64 %x,3 %2={word} exact i64 %x,%x %3 = {word} exact i8 255, 128", f"%1 = {word} i64 %x, 3", f"%2 = {word} exact i64 %x, %x", f"%3 = {word} exact i8 -1, -128",
               parameters="i64 %x")
    for word in ["urem", "srem", "and", "xor"]:
        inside(f"%a = {word} i128 %x, 340282366920938463463374607431768211455 {word} i1 true, 1", f"%a = {word} i128 %x, -1", f"%1 = {word} i1 true, true", parameters="i128 %x")
    inside("%1 = or i8 %x, 128 %2 = or disjoint i8 %x, 127 %3 = or i1 0, poison %4 = or disjoint i8 undef, zeroinitializer",
           "%1 = or i8 %x, -128", "%2 = or disjoint i8 %x, 127", "%3 = or i1 false, poison", "%4 = or disjoint i8 undef, zeroinitializer", parameters="i8 %x")


def compares():
    """`icmp` with each predicate, and `samesign`."""
    for word in ["eq", "ne", "ugt", "uge", "ult", "ule", "sgt", "sge", "slt", "sle"]:
        inside(f"%a = icmp {word} i8 %x, 255 icmp {word} ptr null, %p", f"%a = icmp {word} i8 %x, -1", f"%1 = icmp {word} ptr null, %p", parameters="i8 %x, ptr %p")
    inside("%1 = icmp samesign ult i8 %x, 200 %2 = icmp samesign sgt i1 1, false", "%1 = icmp samesign ult i8 %x, -56", "%2 = icmp samesign sgt i1 true, false", parameters="i8 %x")
    inside("%1 = icmp eq ptr @g, getelementptr inbounds (i8, ptr @g, i64 1) %2 = icmp ne i64 ptrtoint (ptr @g to i64), 0",
           "%1 = icmp eq ptr @g, getelementptr inbounds (i8, ptr @g, i64 1)", "%2 = icmp ne i64 ptrtoint (ptr @g to i64), 0", before="@g = external global i8\n")


def casts():
    """Casts and their flags."""
    inside("%1 = trunc i32 %x to i8 %2 = trunc nuw i32 %x to i8 %3 = trunc nsw i32 %x to i8 %4 = trunc nuw nsw i32 %x to i8 %5 = trunc nsw nuw i32 %x to i1 trunc i2 3 to i1",
           "%1 = trunc i32 %x to i8", "%2 = trunc nuw i32 %x to i8", "%3 = trunc nsw i32 %x to i8", "%4 = trunc nuw nsw i32 %x to i8", "%5 = trunc nuw nsw i32 %x to i1", "%6 = trunc i2 -1 to i1",
           parameters="i32 %x")
    inside("%1 = zext i8 %x to i16 %2 = zext nneg i8 %x to i128 %3 = zext i1 1 to i8 %4 = sext i8 %x to i9 %5 = sext i127 -1 to i128",
           "%1 = zext i8 %x to i16", "%2 = zext nneg i8 %x to i128", "%3 = zext i1 true to i8", "%4 = sext i8 %x to i9", "%5 = sext i127 -1 to i128", parameters="i8 %x")
    inside("%1=ptrtoint ptr%p to i64 %2 = ptrtoint ptr null to i1 %3 = inttoptr i64 %1 to ptr %4 = inttoptr i128 -1 to ptr %5 = inttoptr i1 true to ptr",
           "%1 = ptrtoint ptr %p to i64", "%2 = ptrtoint ptr null to i1", "%3 = inttoptr i64 %1 to ptr", "%4 = inttoptr i128 -1 to ptr", "%5 = inttoptr i1 true to ptr", parameters="ptr %p")


def choices():
    """`select`, `freeze` and `phi`."""
    inside("%1 = select i1 %c, i32 1, i32 %x %2 = select i1 1, ptr null, ptr undef %3 = select i1 poison, { i8, i1 } { i8 255, i1 1 }, { i8, i1 } zeroinitializer %4=select i1 0,[0 x i8][],[0 x i8]c\"\" "
           "%5 = select i1 %c, {} {}, {} undef",
           "%1 = select i1 %c, i32 1, i32 %x", "%2 = select i1 true, ptr null, ptr undef", "%3 = select i1 poison, { i8, i1 } { i8 -1, i1 true }, { i8, i1 } zeroinitializer",
           "%4 = select i1 false, [0 x i8] [], [0 x i8] c\"\"", "%5 = select i1 %c, {} {}, {} undef", parameters="i1 %c, i32 %x")
    inside("%1 = freeze i32 %x %2 = freeze ptr poison %3 = freeze { i8, ptr } undef freeze i1 1 %5 = freeze [2 x i8] c\"\\ff0\"",
           "%1 = freeze i32 %x", "%2 = freeze ptr poison", "%3 = freeze { i8, ptr } undef", "%4 = freeze i1 true", "%5 = freeze [2 x i8] c\"\\FF0\"", parameters="i32 %x")
    ended("br i1 %c, label %a, label %\"b c\" a: br label %\"b c\" \"b c\": %1 = phi i8 [255,%0],[%x,%a] %2 = phi i1 [ 1, %0 ], [ false, %a ] %3 = phi ptr [ null, %a ], [ @g, %0 ] "
          "%4 = phi { i8, ptr } [ { i8 200, ptr @g }, %0 ], [ undef, %a ] %5=phi[0 x i8][[],%0],[zeroinitializer,%a] phi i64[ptrtoint(ptr@g to i64),%0],[-1,%a] br label %7 7: %8 = phi i8 [ %1, %\"b c\" ] ret void",
          "0:", "  br i1 %c, label %a, label %\"b c\"", "a:", "  br label %\"b c\"", "\"b c\":", "  %1 = phi i8 [ -1, %0 ], [ %x, %a ]", "  %2 = phi i1 [ true, %0 ], [ false, %a ]",
          "  %3 = phi ptr [ null, %a ], [ @g, %0 ]", "  %4 = phi { i8, ptr } [ { i8 -56, ptr @g }, %0 ], [ undef, %a ]", "  %5 = phi [0 x i8] [ [], %0 ], [ zeroinitializer, %a ]",
          "  %6 = phi i64 [ ptrtoint (ptr @g to i64), %0 ], [ -1, %a ]", "  br label %7", "7:", "  %8 = phi i8 [ %1, %\"b c\" ]", "  ret void", parameters="i1 %c, i8 %x", before="@g = external global i8\n")
    ended("br label %l l: %a = phi i32 [ 11, %0 ], [ %b, %l ] %b = phi i32 [ 22, %0 ], [ %a, %l ] %i = phi i32 [ 0, %0 ], [ %j, %l ] %j = add i32 %i, 1 %c = icmp eq i32 %j, 3 br i1 %c, label %e, label %l e: ret i32 %a",
          "0:", "  br label %l", "l:", "  %a = phi i32 [ 11, %0 ], [ %b, %l ]", "  %b = phi i32 [ 22, %0 ], [ %a, %l ]", "  %i = phi i32 [ 0, %0 ], [ %j, %l ]", "  %j = add i32 %i, 1",
          "  %c = icmp eq i32 %j, 3", "  br i1 %c, label %e, label %l", "e:", "  ret i32 %a", result="i32")
    # Two entries for one block, which are alike: both stay.
    ended("br i1 %c, label %1, label %1 1: %2 = phi i8 [ -1, %0 ], [ 255, %0 ] ret void", "0:", "  br i1 %c, label %1, label %1", "1:", "  %2 = phi i8 [ -1, %0 ], [ -1, %0 ]", "  ret void",
          parameters="i1 %c")


def memory():
    """`load`, `store` and `alloca`, with and without alignments and counts."""
    inside("%1 = load i8, ptr %p %2 = load volatile i8, ptr %p %3 = load i8, ptr %p, align 1 %4=load volatile{i8,ptr},ptr%p,align 65536 %5 = load [0 x i8], ptr null, align 08 load ptr, ptr undef, align 4",
           "%1 = load i8, ptr %p", "%2 = load volatile i8, ptr %p", "%3 = load i8, ptr %p, align 1", "%4 = load volatile { i8, ptr }, ptr %p, align 65536", "%5 = load [0 x i8], ptr null, align 8",
           "%6 = load ptr, ptr undef, align 4", parameters="ptr %p")
    inside("store i8 255, ptr %p store volatile i1 1, ptr %p store ptr %p, ptr %p, align 8 store volatile [2 x i8] [i8 1, i8 200], ptr %p, align 0001 store{}{},ptr null,align 2 store { } undef, ptr poison",
           "store i8 -1, ptr %p", "store volatile i1 true, ptr %p", "store ptr %p, ptr %p, align 8", "store volatile [2 x i8] [i8 1, i8 -56], ptr %p, align 1", "store {} {}, ptr null, align 2",
           "store {} undef, ptr poison", parameters="ptr %p")
    inside("%1 = alloca i32 %2 = alloca i32, align 4 %3 = alloca i32, i64 10 %4 = alloca i32, i64 %n, align 16 %5=alloca{i8,ptr},i1 1,align 65536 alloca [2 x i8], i8 255 %7 = alloca ptr, i128 0, align 1 %8 = alloca {}",
           "%1 = alloca i32", "%2 = alloca i32, align 4", "%3 = alloca i32, i64 10", "%4 = alloca i32, i64 %n, align 16", "%5 = alloca { i8, ptr }, i1 true, align 65536", "%6 = alloca [2 x i8], i8 -1",
           "%7 = alloca ptr, i128 0, align 1", "%8 = alloca {}", parameters="i64 %n")
    held("%x = alloca %T, align 8", "%y = load %T, ptr %x, align 8", "store %T %y, ptr %x, align 8", before="%T = type { i8, i16 }\n")


def addresses():
    """`getelementptr`: its flags in every order, and its indices."""
    inside("%1 = getelementptr inbounds nusw nuw i8, ptr %p, i64 1 %2 = getelementptr inbounds nuw nusw i8, ptr %p, i64 1 %3 = getelementptr nusw inbounds nuw i8, ptr %p, i64 1 "
           "%4 = getelementptr nusw nuw inbounds i8, ptr %p, i64 1 %5 = getelementptr nuw inbounds nusw i8, ptr %p, i64 1 %6 = getelementptr nuw nusw inbounds i8, ptr %p, i64 1",
           *(f"%{n} = getelementptr inbounds nusw nuw i8, ptr %p, i64 1" for n in range(1, 7)), parameters="ptr %p")
    inside("%1 = getelementptr inbounds i8, ptr %p, i64 1 %2 = getelementptr nusw i8, ptr %p, i64 1 %3 = getelementptr nuw i8, ptr %p, i64 1 %4 = getelementptr inbounds nusw i8, ptr %p, i64 1 "
           "%5 = getelementptr nusw inbounds i8, ptr %p, i64 1 %6 = getelementptr inbounds nuw i8, ptr %p, i64 1 %7 = getelementptr nuw inbounds i8, ptr %p, i64 1 %8 = getelementptr nusw nuw i8, ptr %p, i64 1 "
           "%9 = getelementptr nuw nusw i8, ptr %p, i64 1 %10 = getelementptr i8, ptr %p, i64 1",
           "%1 = getelementptr inbounds i8, ptr %p, i64 1", "%2 = getelementptr nusw i8, ptr %p, i64 1", "%3 = getelementptr nuw i8, ptr %p, i64 1",
           "%4 = getelementptr inbounds nusw i8, ptr %p, i64 1", "%5 = getelementptr inbounds nusw i8, ptr %p, i64 1", "%6 = getelementptr inbounds nuw i8, ptr %p, i64 1",
           "%7 = getelementptr inbounds nuw i8, ptr %p, i64 1", "%8 = getelementptr nusw nuw i8, ptr %p, i64 1", "%9 = getelementptr nusw nuw i8, ptr %p, i64 1", "%10 = getelementptr i8, ptr %p, i64 1",
           parameters="ptr %p")
    inside("%1 = getelementptr[4 x{i8,[2 x i16]}],ptr%p,i64%n,i8 255,i32 1,i1 1 %2 = getelementptr %T, ptr %p, i32 0, i32 1, i128 -1 getelementptr i8, ptr null, i64 undef "
           "%4 = getelementptr ptr, ptr getelementptr (i8, ptr @g, i64 1), i64 ptrtoint (ptr @g to i64)",
           "%1 = getelementptr [4 x { i8, [2 x i16] }], ptr %p, i64 %n, i8 -1, i32 1, i1 true", "%2 = getelementptr %T, ptr %p, i32 0, i32 1, i128 -1", "%3 = getelementptr i8, ptr null, i64 undef",
           "%4 = getelementptr ptr, ptr getelementptr (i8, ptr @g, i64 1), i64 ptrtoint (ptr @g to i64)", parameters="ptr %p, i64 %n", before="%T = type <{ i8, [3 x i8] }>\n@g = external global i8\n")
    # Without an index.
    held("%1 = getelementptr i8, ptr %p", "%2 = getelementptr inbounds { i8, ptr }, ptr null", parameters="ptr %p")


def calls():
    """Calls with and without results, arguments and more arguments; the function type is written only where it is variadic."""
    inside("call void @v() call void()@v()call void @w(i8 255, ptr null) call void (i8, ptr) @w(i8 1, ptr @g) %1 = call i8 @r(i1 1) %x = call i8 (i1) @r(i1 false) call i8 @r(i1 undef)",
           "call void @v()", "call void @v()", "call void @w(i8 -1, ptr null)", "call void @w(i8 1, ptr @g)", "%1 = call i8 @r(i1 true)", "%x = call i8 @r(i1 false)", "%2 = call i8 @r(i1 undef)",
           before="@g = external global i8\ndeclare void @v()\ndeclare void @w(i8, ptr)\ndeclare i8 @r(i1)\n")
    inside("%1 = call i32 (ptr, ...) @printf(ptr @s) %2 = call i32(ptr,...)@printf(ptr@s,i32 -1,i1 1,ptr%p) call i32 (ptr, ...) @printf(ptr null, [2 x i8] c\"ab\", { i8 } { i8 255 })",
           "%1 = call i32 (ptr, ...) @printf(ptr @s)", "%2 = call i32 (ptr, ...) @printf(ptr @s, i32 -1, i1 true, ptr %p)",
           "%3 = call i32 (ptr, ...) @printf(ptr null, [2 x i8] c\"ab\", { i8 } { i8 -1 })", parameters="ptr %p", before="@s = external constant [3 x i8]\ndeclare i32 @printf(ptr, ...)\n")
    inside("call void (...) @g() call void(...)@g(i8 200,{}{}) %1 = call ptr ( i8 , [2 x i8] , ... ) %p ( i8 1 , [2 x i8] zeroinitializer )", "call void (...) @g()", "call void (...) @g(i8 -56, {} {})",
           "%1 = call ptr (i8, [2 x i8], ...) %p(i8 1, [2 x i8] zeroinitializer)", parameters="ptr %p", before="declare void @g(...)\n")
    # What is called: a local, a constant, an expression.
    inside("call void %p() call void null() call void undef(i8 1) %1 = call i8 poison() call void inttoptr (i64 16 to ptr)() %2 = call i8 getelementptr inbounds (i8, ptr @g, i64 1)(i8 0) "
           "call void(...)inttoptr(i64 16 to ptr)(i8 0) call void zeroinitializer()",
           "call void %p()", "call void null()", "call void undef(i8 1)", "%1 = call i8 poison()", "call void inttoptr (i64 16 to ptr)()", "%2 = call i8 getelementptr inbounds (i8, ptr @g, i64 1)(i8 0)",
           "call void (...) inttoptr (i64 16 to ptr)(i8 0)", "call void zeroinitializer()", parameters="ptr %p", before="@g = external global i8\n")
    # Results of every kind of type, and arguments of every kind of constant.
    inside("%1 = call ptr @a() %2 = call { i8, ptr } @b() %3 = call [2 x i8] @c() %4 = call %T @d(%T undef, %T { i8 255 }) %5 = call <{}> @\"e f\"(<{}> <{}>) call void @h({ i8, ptr } %2, [2 x i8] %3, ptr @a, ptr %1, i64 add (i64 1, i64 2))",
           "%1 = call ptr @a()", "%2 = call { i8, ptr } @b()", "%3 = call [2 x i8] @c()", "%4 = call %T @d(%T undef, %T { i8 -1 })", "%5 = call <{}> @\"e f\"(<{}> <{}>)",
           "call void @h({ i8, ptr } %2, [2 x i8] %3, ptr @a, ptr %1, i64 add (i64 1, i64 2))",
           before="%T = type { i8 }\ndeclare ptr @a()\ndeclare { i8, ptr } @b()\ndeclare [2 x i8] @c()\ndeclare %T @d(%T, %T)\ndeclare <{}> @\"e f\"(<{}>)\ndeclare void @h({ i8, ptr }, [2 x i8], ptr, ptr, i64)\n")
    # Marks of tail calls, conventions and attributes are dropped.
    row("declare void @v() declare i8 @r(i8, ptr) define void @f(ptr %p) { tail call void @v() notail call void @v() "
        "%1 = tail call fastcc zeroext i8 @r(i8 signext 1, ptr noundef nonnull align 8 dereferenceable(8) %p) #0 %2 = call coldcc i8 @r(i8 zeroext 200, ptr nocapture %p) nounwind "
        "call ccc void @v() \"a\"=\"b\" \"c\" %x = notail call noundef i8 (i8, ptr) @r(i8 noundef 1, ptr align 4 null) #0 memory(none) willreturn ret void } attributes #0 = { nounwind }",
        "declare void @v()", "declare i8 @r(i8, ptr)", "define void @f(ptr %p) {", "0:", "  call void @v()", "  call void @v()", "  %1 = call i8 @r(i8 1, ptr %p)", "  %2 = call i8 @r(i8 -56, ptr %p)",
        "  call void @v()", "  %x = call i8 @r(i8 1, ptr null)", "  ret void", "}")
    row("declare i8 @r(i8) define i8 @f(i8 %x) { %1 = musttail call i8 @r(i8 %x) ret i8 %1 }",
        "declare i8 @r(i8)", "define i8 @f(i8 %x) {", "0:", "  %1 = call i8 @r(i8 %x)", "  ret i8 %1", "}")


def aggregates():
    """`extractvalue` and `insertvalue`."""
    inside("%1 = extractvalue { i8, [2 x ptr] } %s, 0 %2=extractvalue{i8,[2 x ptr]}%s,1,1 %3 = extractvalue [2 x i8] c\"ab\", 001 extractvalue { { { i1 } } } { { { i1 } } { { i1 } { i1 1 } } }, 0, 0, 0",
           "%1 = extractvalue { i8, [2 x ptr] } %s, 0", "%2 = extractvalue { i8, [2 x ptr] } %s, 1, 1", "%3 = extractvalue [2 x i8] c\"ab\", 1",
           "%4 = extractvalue { { { i1 } } } { { { i1 } } { { i1 } { i1 true } } }, 0, 0, 0", parameters="{ i8, [2 x ptr] } %s")
    inside("%1 = insertvalue { i8, [2 x ptr] } %s, i8 255, 0 %2=insertvalue{i8,[2 x ptr]}%1,ptr null,1,1 %3 = insertvalue [2 x i1] undef, i1 1, 01 insertvalue %T poison, { i8 } { i8 128 }, 0 %5 = insertvalue %T zeroinitializer, i8 -1, 0, 0",
           "%1 = insertvalue { i8, [2 x ptr] } %s, i8 -1, 0", "%2 = insertvalue { i8, [2 x ptr] } %1, ptr null, 1, 1", "%3 = insertvalue [2 x i1] undef, i1 true, 1",
           "%4 = insertvalue %T poison, { i8 } { i8 -128 }, 0", "%5 = insertvalue %T zeroinitializer, i8 -1, 0, 0", parameters="{ i8, [2 x ptr] } %s", before="%T = type <{ { i8 }, ptr }>\n")


def ends():
    """`ret`, `br`, `switch` and `unreachable`."""
    ended("ret i8 255", "0:", "  ret i8 -1", result="i8")
    ended("ret i1 1", "0:", "  ret i1 true", result="i1")
    ended("ret{i8,ptr}{i8 1,ptr null}", "0:", "  ret { i8, ptr } { i8 1, ptr null }", result="{ i8, ptr }")
    ended("ret [0 x i8] [ ]", "0:", "  ret [0 x i8] []", result="[0 x i8]")
    ended("ret <{ }> < { } >", "0:", "  ret <{}> <{}>", result="<{}>")
    ended("ret ptr getelementptr nuw inbounds (i8, ptr @f, i64 1)", "0:", "  ret ptr getelementptr inbounds nuw (i8, ptr @f, i64 1)", result="ptr")
    ended("unreachable", "0:", "  unreachable")
    ended("br label%a a:br label%1 1:br i1 true,label%a,label%1", "0:", "  br label %a", "a:", "  br label %1", "1:", "  br i1 true, label %a, label %1")
    ended("br i1 %c, label %a, label %\"b c\" a: br i1 0, label %a, label %a \"b c\": br i1 undef, label %a, label %\"b c\"",
          "0:", "  br i1 %c, label %a, label %\"b c\"", "a:", "  br i1 false, label %a, label %a", "\"b c\":", "  br i1 undef, label %a, label %\"b c\"", parameters="i1 %c")
    ended("switch i32 %x, label %a [ ] a: switch i32 1,label%b[]b: unreachable", "0:", "  switch i32 %x, label %a [ ]", "a:", "  switch i32 1, label %b [ ]", "b:", "  unreachable", parameters="i32 %x")
    ended("switch i8 %x, label %a [ i8 1, label %b ] a: switch i8 %x,label%b[i8 255,label%a i8 128,label%\"c d\"i8 127,label%b i8 0,label%b] b: ret void \"c d\": ret void",
          "0:", "  switch i8 %x, label %a [ i8 1, label %b ]", "a:", "  switch i8 %x, label %b [ i8 -1, label %a i8 -128, label %\"c d\" i8 127, label %b i8 0, label %b ]", "b:", "  ret void",
          "\"c d\":", "  ret void", parameters="i8 %x")
    ended("switch i1 %c, label %1 [ i1 1, label %2 i1 false, label %1 ] 1: switch i128 0, label %2 [ i128 340282366920938463463374607431768211455, label %2 i128 -170141183460469231731687303715884105728, label %1\n] 2: unreachable",
          "0:", "  switch i1 %c, label %1 [ i1 true, label %2 i1 false, label %1 ]", "1:", "  switch i128 0, label %2 [ i128 -1, label %2 i128 -170141183460469231731687303715884105728, label %1 ]", "2:", "  unreachable",
          parameters="i1 %c")
    # As clang prints one, over several lines.
    ended("switch i32 %x, label %3 [\n    i32 1, label %1\n    i32 -2, label %2\n  ]\n\n1:                                                ; preds = %0\n  br label %3\n\n2:\n  br label %3\n\n3:\n  %4 = phi i32 [ 0, %0 ], [ 1, %1 ], [ 2, %2 ]\n  ret i32 %4",
          "0:", "  switch i32 %x, label %3 [ i32 1, label %1 i32 -2, label %2 ]", "1:", "  br label %3", "2:", "  br label %3", "3:", "  %4 = phi i32 [ 0, %0 ], [ 1, %1 ], [ 2, %2 ]", "  ret i32 %4",
          result="i32", parameters="i32 %x")


def dropped():
    """Attributes, conventions and metadata leave no trace."""
    # Each dropped word of a parameter or a result, in a declaration, a definition and a call.
    row("declare zeroext i8 @a(i8 zeroext, i8 signext %x, i8 inreg, ptr noalias nocapture, ptr nofree nonnull noundef, ptr readnone, ptr readonly, ptr writeonly, ptr writable, i8 returned) "
        "declare void @b(ptr sret({ i8, [2 x i8] }) %r, ptr nest, ptr align 8, ptr align(16), ptr dereferenceable(8), ptr dereferenceable_or_null(4), i8 range(i8 0, 5)) declare noundef nonnull ptr @c(ptr allocptr, i64 allocalign, ptr dead_on_unwind)",
        "declare i8 @a(i8, i8, i8, ptr, ptr, ptr, ptr, ptr, ptr, i8)", "declare void @b(ptr, ptr, ptr, ptr, ptr, ptr, i8)", "declare ptr @c(ptr, i64, ptr)")
    row("declare noext i8 @a(i8 noext, ptr captures(none), ptr captures(address, read_provenance), i8 immarg, ptr initializes((0, 4), (8, 12)), ptr nofpclass(nan inf), ptr align 3 align ( 5 ) readnone readnone)",
        "declare i8 @a(i8, ptr, ptr, i8, ptr, ptr, ptr)")
    row("define noundef signext i8 @f(i8 noundef signext %0, ptr noalias nocapture noundef readonly align 4 dereferenceable(4) %1, ptr nonnull align(8) %a) { %3 = load i8, ptr %1 ret i8 %3 }",
        "define i8 @f(i8 %0, ptr %1, ptr %a) {", "2:", "  %3 = load i8, ptr %1", "  ret i8 %3", "}")
    row("define zeroext i8 @f(ptr sret({ i8 }) align 4 %0, i8 zeroext signext noext inreg returned immarg range(i8 0, 9) nofpclass() %x, ptr noalias nocapture nofree nonnull noundef readnone readonly writeonly writable nest allocptr "
        "dead_on_unwind align 3 align (7) dereferenceable(1) dereferenceable_or_null(2) captures(none) initializes((0, 1)), i64 allocalign %\"n\") { ret i8 1 }",
        "define i8 @f(ptr %0, i8 %x, ptr %1, i64 %n) {", "2:", "  ret i8 1", "}")
    # The same, and all that may stand behind the arguments, of a call.
    row("define void @f(ptr %p) { %1 = call fastcc zeroext signext noext inreg align 2 range(i8 0, 9) i8 %p(ptr sret({ i8 }) align 4 %p, i8 zeroext signext noext inreg returned immarg range(i8 0, 9) nofpclass() 255, "
        "ptr noalias nocapture nofree nonnull noundef readnone readonly writeonly writable nest allocptr dead_on_unwind align 3 align (7) dereferenceable(1) dereferenceable_or_null(2) captures(none) initializes((0, 1)) null, i64 allocalign 1) "
        "alwaysinline builtin cold convergent hot inlinehint minsize mustprogress nobuiltin nocallback noduplicate nofree noinline norecurse noredzone noreturn nosync nounwind optnone optsize readnone readonly writeonly "
        "speculatable ssp sspreq sspstrong willreturn uwtable uwtable(async) memory(none) alignstack(8) allockind(\"free\") allocsize(0) unnamed_addr local_unnamed_addr #0 \"a\" \"b\"=\"c\" align 3 section \"s\", !foo !0 ret void }",
        "define void @f(ptr %p) {", "0:", "  %1 = call i8 %p(ptr %p, i8 -1, ptr null, i64 1)", "  ret void", "}")
    row("declare void @f() alwaysinline builtin cold convergent hot inlinehint minsize mustprogress nobuiltin nocallback noduplicate nofree noinline norecurse noredzone noreturn nosync nounwind optnone optsize readnone readonly "
        "writeonly speculatable ssp sspreq sspstrong willreturn uwtable uwtable(sync) memory(read, argmem: none) alignstack(16) allockind(\"alloc\") allocsize(1) unnamed_addr local_unnamed_addr #3 \"a\" \"b\"=\"c\" align 3 section \"s\" @x = global i8 0",
        "@x = global i8 0", "declare void @f()")
    # Each dropped word behind the parameters.
    row("define void @f() alwaysinline builtin cold convergent hot inlinehint minsize mustprogress nobuiltin nocallback noduplicate nofree noinline norecurse noredzone noreturn nosync nounwind optnone optsize "
        "readnone readonly writeonly speculatable ssp sspreq sspstrong willreturn uwtable uwtable(sync) memory(argmem: read, inaccessiblemem: none) alignstack(16) allockind(\"alloc,zeroed\") allocsize(0,1) unnamed_addr "
        "local_unnamed_addr #0 #12 \"a\" \"b\"=\"c\\22\" align 3 section \".t\" !foo !0 !bar !{i8 1} { ret void }",
        "define void @f() {", "0:", "  ret void", "}")
    row("define void @f() unnamed_addr #0 section \"s\" align 16 { ret void } declare void @g() local_unnamed_addr nounwind willreturn memory(none) \"a\"=\"b\" attributes #0 = { noinline optnone \"x\"=\"{\" }",
        "define void @f() {", "0:", "  ret void", "}", "declare void @g()")
    row("define internal dso_local fastcc void @a() unnamed_addr { ret void } define hidden coldcc void @b() { ret void } define protected ccc void @c() { ret void } define weak dso_local hidden void @d() { ret void } "
        "declare extern_weak dso_local fastcc i8 @e() declare dso_preemptable default void @g()",
        "define internal void @a() {", "0:", "  ret void", "}", "define void @b() {", "0:", "  ret void", "}", "define void @c() {", "0:", "  ret void", "}",
        "define weak void @d() {", "0:", "  ret void", "}", "declare extern_weak i8 @e()", "declare void @g()")
    # Metadata, behind items and every instruction.
    row("declare !foo !0 !bar !1 void @g() define i8 @f(ptr %p, i8 %x, i1 %c) !foo !0 { %1 = add i8 %x, 1, !foo !0 %2 = icmp eq i8 %1, 0, !foo !1, !bar !0 %3 = zext i8 %x to i16, !foo !0 %4 = select i1 %c, i8 1, i8 2, !foo !0 "
        "%5 = freeze i8 %x, !foo !0 %6 = load i8, ptr %p, align 1, !foo !0 store i8 1, ptr %p, !foo !0 store i8 1, ptr %p, align 1, !foo !0 %7 = alloca i8, align 1, !foo !0 %8 = alloca i8, i8 1, !foo !0 %9 = alloca i8, !foo !0 "
        "%10 = getelementptr i8, ptr %p, i8 1, !foo !0 call void @g(), !foo !0 %11 = extractvalue { i8 } undef, 0, !foo !0 %12 = insertvalue { i8 } undef, i8 1, 0, !foo !0 %13 = load i8, ptr %p, !foo !0 br i1 %c, label %14, label %15, !foo !0 "
        "14: switch i8 %x, label %15 [ i8 1, label %15 ], !foo !0 15: %16 = phi i8 [ 1, %0 ], [ 2, %14 ], [ 2, %14 ], !foo !0 br label %17, !foo !0 17: br i1 %c, label %18, label %19 18: ret i8 1, !foo !0 19: unreachable, !foo !0 } "
        "!0 = !{} !1 = distinct !{!1, !0, i32 5, !\"a}\"} !named = !{!0, !1} !2 = !{!{}, ptr @g, null}",
        "declare void @g()", "define i8 @f(ptr %p, i8 %x, i1 %c) {", "0:", "  %1 = add i8 %x, 1", "  %2 = icmp eq i8 %1, 0", "  %3 = zext i8 %x to i16", "  %4 = select i1 %c, i8 1, i8 2", "  %5 = freeze i8 %x",
        "  %6 = load i8, ptr %p, align 1", "  store i8 1, ptr %p", "  store i8 1, ptr %p, align 1", "  %7 = alloca i8, align 1", "  %8 = alloca i8, i8 1", "  %9 = alloca i8", "  %10 = getelementptr i8, ptr %p, i8 1",
        "  call void @g()", "  %11 = extractvalue { i8 } undef, 0", "  %12 = insertvalue { i8 } undef, i8 1, 0", "  %13 = load i8, ptr %p", "  br i1 %c, label %14, label %15", "14:", "  switch i8 %x, label %15 [ i8 1, label %15 ]",
        "15:", "  %16 = phi i8 [ 1, %0 ], [ 2, %14 ], [ 2, %14 ]", "  br label %17", "17:", "  br i1 %c, label %18, label %19", "18:", "  ret i8 1", "19:", "  unreachable", "}")
    # Items that say nothing: nothing is printed.
    row("attributes #0 = { nounwind \"a\"=\"b\" align=4 } attributes #7 = {} !0 = !{} !llvm.ident = !{!0} !1 = distinct !{} !2 = !DIFile(filename: \"a\", directory: \"b\") !3 = distinct !{!3, !{}, [1 x i8] c\"(\"} "
        "!4 = distinct !DICompileUnit(language: DW_LANG_C11, file: !2, emissionKind: 1, producer: \"(}\", x: !{}) !llvm.module.flags = !{} !5 = !{!\"a\", |, *}")
    row("; nothing\n\n\t; at all")
    row("\r\n \t\n")


def spacing():
    """The text as it comes: spaces, tabs, line ends and comments of every kind, or none."""
    row("@x=global[2 x{i8,<{i1}>}][{i8,<{i1}>}{i8 1,<{i1}><{i1 0}>},{i8,<{i1}>}zeroinitializer],align 4@y=global ptr@x",
        "@x = global [2 x { i8, <{ i1 }> }] [{ i8, <{ i1 }> } { i8 1, <{ i1 }> <{ i1 false }> }, { i8, <{ i1 }> } zeroinitializer], align 4", "@y = global ptr @x")
    row("define i32@f(i32%x,i1%c){br i1%c,label%a,label%b a:%1=add i32%x,1 ret i32%1 b:switch i32%x,label%a[i32 1,label%a]}",
        "define i32 @f(i32 %x, i1 %c) {", "0:", "  br i1 %c, label %a, label %b", "a:", "  %1 = add i32 %x, 1", "  ret i32 %1", "b:", "  switch i32 %x, label %a [ i32 1, label %a ]", "}")
    row("@x\r\n=\r\n\tglobal\t[\t2\tx\ti8\t]\r\n[\ti8\t1\t,\ti8\t2\t]\t,\talign\t2\r\n", "@x = global [2 x i8] [i8 1, i8 2], align 2")
    row("\n\n  define   void \t @f   (  i8   %x  ,  ptr   %p  )   {\n\n\n  a:  ret void }", "define void @f(i8 %x, ptr %p) {", "a:", "  ret void", "}")
    row(";\n; \"a comment\n@x = ; { ( [ \" c\"\nglobal ;;; i8\ni8 ; align 4\n5 ;@y = global i8 6\n;", "@x = global i8 5")
    row("define void @f(i8 ; first\n%x, ; second\ni8) ; attributes\n{ ; block\na: ; label\n%1 = add i8 %x, ; left\n%0 ; right\nret void ; end\n} ; of it", "define void @f(i8 %x, i8 %0) {", "a:", "  %1 = add i8 %x, %0", "  ret void", "}")
    row("define void @f(ptr %p) { call void %p ( i8 1 ) call void ( i8 , ... ) %p ( i8 1 , ptr getelementptr( i8 , ptr @q , i8 1 ) ) ret void } @q = external global i8",
        "@q = external global i8", "define void @f(ptr %p) {", "0:", "  call void %p(i8 1)", "  call void (i8, ...) %p(i8 1, ptr getelementptr (i8, ptr @q, i8 1))", "  ret void", "}")
    row("define void @f(){\"a\":%x=alloca{i8},i8 2,align 2 store{i8}{i8 1},ptr%x br label%\"b\"b:%y=phi i8[1,%a],[2,%b]br label%b}",
        "define void @f() {", "a:", "  %x = alloca { i8 }, i8 2, align 2", "  store { i8 } { i8 1 }, ptr %x", "  br label %b", "b:", "  %y = phi i8 [ 1, %a ], [ 2, %b ]", "  br label %b", "}")


def long():
    """Texts of many thousands of bytes."""
    row([(0, 700, "@x#=global i8 255\n")], *(f"@x{n} = global i8 -1" for n in range(700)))
    row(["@s=constant[5000 x i8]c\"", (4999, "z"), "\\00\""], "@s = constant [5000 x i8] c\"" + "z" * 4999 + "\\00\"")
    row(["@a=global[1500 x i8][i8 1", (1499, ",i8 200"), "]"], "@a = global [1500 x i8] [i8 1" + ", i8 -56" * 1499 + "]")
    row(["@\"", (3000, "\\e4"), "\"=global i8 0"], "@\"" + "\\E4" * 3000 + "\" = global i8 0")
    # Of so many bytes: 21 and the letters.
    for size in [4095, 4096, 4097, 8192]:
        row(["source_filename=\"", (size - 21, "a"), "\""], "source_filename = \"" + "a" * (size - 21) + "\"")


TABLES = [worked, texts, structs, variables, types, integers, constants, names, numbering, aliases, functions, arithmetic, compares, casts, choices, memory, addresses, calls, aggregates,
          ends, dropped, spacing, long]


def written():
    """The cases, and what is printed of them."""
    for table in TABLES:
        table()
    stdin = bytes_of("".join(HEAD + text + "\n" for text, _ in ROWS))
    stdout = bytes_of("".join(printed + END for _, printed in ROWS))
    return stdin, stdout


if __name__ == "__main__":
    import module_table
    module_table.main()
