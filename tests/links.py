#!/usr/bin/env python3
"""Writes the rows of linked modules among crates/tool_table's stored input and output: texts, and the text of the one module that
`llvm-link -S` makes of them, or the line that tells why it makes none.

What comes out is written here by hand from the rules of docs/linking.md and docs/language.md ("Canonical text"); nothing is taken
from the program. The parts are named a.ll, b.ll and so on where no names are given.

    tests/links.py            writes the rows
    tests/links.py --check    tells whether they are what it would write
"""
import sys

sys.dont_write_bytecode = True
from assemble import BYTE_CODE
from stored import content, printed, store_part

# Names and texts of parts, the linked text or None, and what stands on standard error behind the tool's name.
ROWS = []
# What the script says of each run, and what is told of it.
RUNS = []


def whole(text):
    """The text that its parts come to: a text as it is, or (n, text) for each number below n."""
    if isinstance(text, str):
        return text
    return "".join(part if isinstance(part, str) else "".join(part[1].replace("#", str(n)) for n in range(part[0])) for part in text)


def stream(name, text):
    """What the test program prints of what a stream took."""
    return f"{name}\n{printed(text.encode())}" if text else ""


def run(names, texts, words, result):
    """A run over files of these names, and what is told of it."""
    files = "".join(f"file {name}\n{content(text)}" for name, text in zip(names, texts, strict=True) if name != "-")
    given = "".join(f"input\n{content(text)}" for name, text in zip(names, texts, strict=True) if name == "-")
    read = " ".join(name for name in names if name != "-")
    took = "".join(f"input {len(whole(text).encode())}\n" for name, text in zip(names, texts, strict=True) if name == "-")
    RUNS.append((f"clear\n{files}{given}run llvm-link {words}\n", f"> llvm-link {words}\nstatus {0 if not result.startswith('errors') else 1}\n" + (f"files {read}\n" if read else "") + took + result))


def names_of(texts):
    return [f"{'abcdefghijklmnopqrstuvwxyz'[n]}.ll" for n in range(len(texts))]


def linked(text, *texts, names=None):
    """Texts, and the text of their linked module, which begins behind a line feed."""
    names = names or names_of(texts)
    ROWS.append((names, list(map(whole, texts)), text[1:], ""))
    run(names, texts, "-S -o - " + " ".join(names), stream("output", text[1:]))


def refused(line, *texts, names=None, words="-S -o - "):
    """Texts of which no module is made: nothing is written."""
    names = names or names_of(texts)
    ROWS.append((names, list(map(whole, texts)), None, line))
    run(names, texts, words + " ".join(names), stream("errors", f"llvm-link: {line}\n"))


def worked():
    """One of each."""
    # Two variables that name each other across parts.
    linked("""
@b = global ptr @a
@a = global ptr @b
define i32 @main() {
0:
  %1 = load ptr, ptr @a
  %2 = load ptr, ptr %1
  %3 = icmp eq ptr %2, @a
  %4 = select i1 %3, i32 7, i32 9
  ret i32 %4
}
""", "@b = external global ptr @a = global ptr @b define i32 @main() { %1 = load ptr, ptr @a %2 = load ptr, ptr %1 %3 = icmp eq ptr %2, @a %4 = select i1 %3, i32 7, i32 9 ret i32 %4 }",
           "@a = external global ptr @b = global ptr @a")
    # Two functions that each part keeps to itself, and a name that a new one may not take.
    linked("""
define internal i32 @f() {
0:
  ret i32 1
}
define i32 @main() {
0:
  %1 = call i32 @f()
  %2 = call i32 @g()
  %3 = add i32 %1, %2
  ret i32 %3
}
define i32 @g() {
0:
  %1 = call i32 @f.2()
  ret i32 %1
}
define internal i32 @f.2() {
0:
  ret i32 2
}
define i32 @f.1() {
0:
  ret i32 40
}
""", "define internal i32 @f() { ret i32 1 } define i32 @main() { %1 = call i32 @f() %2 = call i32 @g() %3 = add i32 %1, %2 ret i32 %3 } declare i32 @g()",
           "define internal i32 @f() { ret i32 2 } define i32 @g() { %1 = call i32 @f() ret i32 %1 } define i32 @f.1() { ret i32 40 }", names=["p.ll", "q.ll"])
    refused("conflict: two strong: @x in x.ll and y.ll", "@x = global i32 1", "@x = global i32 2", names=["x.ll", "y.ll"], words="-o z.bc ")
    # The strong one wins in both orders.
    weak, strong, main = "define weak i32 @f() { ret i32 1 }", "define i32 @f() { ret i32 2 }", "declare i32 @f() define i32 @main() { %1 = call i32 @f() ret i32 %1 }"
    for texts in [(weak, strong, main), (strong, weak, main)]:
        linked("""
define i32 @f() {
0:
  ret i32 2
}
define i32 @main() {
0:
  %1 = call i32 @f()
  ret i32 %1
}
""", *texts)
    # The larger common, with the greatest alignment.
    linked("""
@a = global i8 0
@c = common global i64 0, align 16
define i32 @main() {
0:
  %1 = ptrtoint ptr @c to i64
  %2 = sub i64 %1, 65536
  %3 = trunc i64 %2 to i32
  ret i32 %3
}
""", "@a = global i8 0 @c = common global i32 0, align 16 define i32 @main() { %1 = ptrtoint ptr @c to i64 %2 = sub i64 %1, 65536 %3 = trunc i64 %2 to i32 ret i32 %3 }",
           "@c = common global i64 0, align 8")
    # Appended arrays, in both orders.
    first = ("@llvm.global_ctors = appending global [1 x { i32, ptr, ptr }] [{ i32, ptr, ptr } { i32 65535, ptr @a, ptr null }] declare i32 @putchar(i32) "
             "define void @a() { %1 = call i32 @putchar(i32 97) ret void } define i32 @main() { %1 = call i32 @putchar(i32 109) ret i32 0 }")
    second = "@llvm.global_ctors = appending global [1 x { i32, ptr, ptr }] [{ i32, ptr, ptr } { i32 65535, ptr @b, ptr null }] declare i32 @putchar(i32) define void @b() { %1 = call i32 @putchar(i32 98) ret void }"
    linked("""
@llvm.global_ctors = appending global [2 x { i32, ptr, ptr }] [{ i32, ptr, ptr } { i32 65535, ptr @a, ptr null }, { i32, ptr, ptr } { i32 65535, ptr @b, ptr null }]
declare i32 @putchar(i32)
define void @a() {
0:
  %1 = call i32 @putchar(i32 97)
  ret void
}
define i32 @main() {
0:
  %1 = call i32 @putchar(i32 109)
  ret i32 0
}
define void @b() {
0:
  %1 = call i32 @putchar(i32 98)
  ret void
}
""", first, second, names=["p.ll", "q.ll"])
    linked("""
@llvm.global_ctors = appending global [2 x { i32, ptr, ptr }] [{ i32, ptr, ptr } { i32 65535, ptr @b, ptr null }, { i32, ptr, ptr } { i32 65535, ptr @a, ptr null }]
declare i32 @putchar(i32)
define void @b() {
0:
  %1 = call i32 @putchar(i32 98)
  ret void
}
define void @a() {
0:
  %1 = call i32 @putchar(i32 97)
  ret void
}
define i32 @main() {
0:
  %1 = call i32 @putchar(i32 109)
  ret i32 0
}
""", second, first, names=["q.ll", "p.ll"])
    # A variable that may be null, alone and defined.
    opt = "@opt = extern_weak global i32 define i32 @main() { %1 = icmp eq ptr @opt, null br i1 %1, label %2, label %3 2: ret i32 5 3: %4 = load i32, ptr @opt ret i32 %4 }"
    main = """define i32 @main() {
0:
  %1 = icmp eq ptr @opt, null
  br i1 %1, label %2, label %3
2:
  ret i32 5
3:
  %4 = load i32, ptr @opt
  ret i32 %4
}
"""
    linked("\n@opt = extern_weak global i32\n" + main, opt)
    linked("\n@opt = global i32 8\n" + main, opt, "@opt = global i32 8")
    linked("\n@opt = global i32 8\n" + main, "@opt = global i32 8", opt)
    # A local main beside another.
    linked("""
define internal i32 @main.1() {
0:
  ret i32 1
}
define i32 @main() {
0:
  ret i32 6
}
""", "define internal i32 @main() { ret i32 1 }", "define i32 @main() { ret i32 6 }")
    # Structs of one name.
    linked("""
%T = type { i32 }
%T.1 = type { i64 }
%U = type { i32 }
define i32 @g(%U %0) {
1:
  %2 = extractvalue %U %0, 0
  ret i32 %2
}
define i32 @main() {
0:
  %1 = insertvalue %T undef, i32 9, 0
  %2 = call i32 @g(%T %1)
  ret i32 %2
}
""", "%T = type { i32 } declare i32 @g(%T) define i32 @main() { %1 = insertvalue %T undef, i32 9, 0 %2 = call i32 @g(%T %1) ret i32 %2 }",
           "%T = type { i64 } %U = type { i32 } define i32 @g(%U %0) { %2 = extractvalue %U %0, 0 ret i32 %2 }")
    # A local is renamed inside another variable's initialiser too.
    linked("""
@v = internal global i32 1
@v.1 = internal global i32 2
@p = global ptr @v.1
define i32 @main() {
0:
  %1 = load ptr, ptr @p
  %2 = load i32, ptr %1
  ret i32 %2
}
""", "@v = internal global i32 1", "@v = internal global i32 2 @p = global ptr @v define i32 @main() { %1 = load ptr, ptr @p %2 = load i32, ptr %1 ret i32 %2 }")
    # No new name begins as an intrinsic's.
    linked("""
define internal i32 @llvm() {
0:
  ret i32 1
}
define internal i32 @llvm_.1() {
0:
  ret i32 2
}
define i32 @main() {
0:
  %1 = call i32 @llvm_.1()
  ret i32 %1
}
""", "define internal i32 @llvm() { ret i32 1 }", "define internal i32 @llvm() { ret i32 2 } define i32 @main() { %1 = call i32 @llvm() ret i32 %1 }")


def conflicts():
    """The line of each kind, and the names in it."""
    array = "@x = appending global [1 x i32] [i32 1]"
    refused("conflict: function and variable: @x in a.ll and b.ll", "declare void @x()", "@x = global i32 1")
    refused("conflict: two strong: @x in a.ll and b.ll", "define void @x() { ret void }", "@x = global i32 1")
    refused("conflict: appending and plain: @x in a.ll and b.ll", array, "@x = external global [1 x i32]")
    refused("conflict: element shape: @x in a.ll and b.ll", array, "@x = appending global [1 x i64] [i64 1]")
    refused("conflict: constness: @x in a.ll and b.ll", "@x = appending constant [1 x i32] [i32 1]", array)
    refused("conflict: two strong: @x in x.ll and y.ll", "@x = global i32 1", "@y = global i32 2 @x = alias i32, ptr @y", names=["x.ll", "y.ll"])
    refused("conflict: two strong: @x in b.ll and d.ll", "@x = external global i32", "@x = global i32 1", "@y = global i32 1", "@x = global i32 1")
    # A name is spelled as in canonical text.
    refused('conflict: two strong: @"a b" in a.ll and b.ll', '@"a b" = global i32 1', '@"a\\20b" = global i32 1')
    refused('conflict: two strong: @"\\C3\\A4\\22\\5C" in a.ll and b.ll', '@"\\c3\\a4\\22\\5c" = global i32 1', '@"\\C3\\A4\\22\\\\" = global i32 1')
    refused('conflict: function and variable: @"7" in a.ll and b.ll', '@"7" = global i32 1', 'declare void @"7"()')
    refused("conflict: two strong: @a-b.$_7 in a.ll and b.ll", "@a-b.$_7 = global i32 1", '@"a-b.$_7" = global i32 1')
    # Standard input, and a file that is there twice.
    refused("conflict: two strong: @x in - and b.ll", "@x = global i32 1", "@x = global i32 2", names=["-", "b.ll"])
    RUNS.append(("clear\nfile a.ll\n+ @x = global i32 1\nrun llvm-link -S a.ll a.ll\n", "> llvm-link -S a.ll a.ll\nstatus 1\nfiles a.ll a.ll\nerrors\n| llvm-link: conflict: two strong: @x in a.ll and a.ll\n"))
    # A conflict comes before all counts.
    refused("conflict: two strong: @z in a.ll and b.ll", [(131073, "@a#=global i1 0\n"), "@z = global i1 0"], [(131073, "@b#=global i1 0\n"), "@z = global i1 0"])


def counts():
    """262,144 of each kind, and 2^40 appended bytes."""
    refused("too many variables: 262146", [(131073, "@a#=global i1 0\n")], [(131073, "@b#=global i1 0\n")])
    large = "@x = appending global [1 x [1099511627776 x i8]] [[1099511627776 x i8] zeroinitializer]"
    refused("too many appended bytes: 2199023255552", large, large)
    # The kinds in their order.
    refused("too many structs: 262145", [(131073, "%a#=type opaque\n"), (131073, "@a#=global i1 0\n")], [(131072, "%b#=type opaque\n"), (131073, "@b#=global i1 0\n")])
    refused("too many variables: 262146", [(131073, "declare void @f#()\n"), (131073, "@a#=global i1 0\n")], [(131074, "declare void @g#()\n"), (131073, "@b#=global i1 0\n")])
    refused("too many functions: 262147", [(131073, "declare void @f#()\n"), "@y = global i1 0 @a = alias i1, ptr @y"], [(131074, "declare void @g#()\n")])
    refused("too many aliases: 262145", [(131072, "@a#=global i1 0\n"), large], [(131071, "@b#=global i1 0\n"), "@y = alias i1, ptr @b0\n", large])
    # Names that the parts share count once.
    refused("too many appended bytes: 2199023255552", [(131073, "@a#=weak global i1 0\n"), large], [(131073, "@a#=weak global i1 0\n"), large])


def renamed():
    """A part's own names: kept where they are free, else with the least number that no part has."""
    # Kept, whatever is declared nowhere else.
    linked("""
@v = internal global i32 1
@w = private global i32 2
define internal void @f() {
0:
  ret void
}
""", "@v = internal global i32 1", "@w = private global i32 2 define internal void @f() { ret void }")
    # A shared name comes first, wherever it stands; a declaration is one too.
    linked("""
@v.1 = internal global i32 1
@p = global ptr @v.1
@v = external global i32
@q = global ptr @v
""", "@v = internal global i32 1 @p = global ptr @v", "@v = external global i32 @q = global ptr @v")
    # A name that a later part has is taken.
    linked("""
@v = internal global i8 1
@v.3 = internal global i8 2
@p = global ptr @v.3
@v.1 = external global i8
@v.2 = private global i8 4
""", "@v = internal global i8 1", "@v = internal global i8 2 @p = global ptr @v", "@v.1 = external global i8 @v.2 = private global i8 4")
    # Names that were given, to three parts and more.
    linked("""
@v = internal global i8 1
@v.1 = internal global i8 2
@v.2 = internal global i8 3
@v.3 = private global i8 4
""", "@v = internal global i8 1", "@v = internal global i8 2", "@v = internal global i8 3", "@v = private global i8 4")
    # A name with a number is renamed with one more.
    linked("""
@f.1 = internal global i8 1
define internal i32 @f() {
0:
  ret i32 2
}
define internal i32 @f.2() {
0:
  ret i32 3
}
define internal i32 @f.1.1() {
0:
  ret i32 4
}
define i32 @g() {
0:
  %1 = call i32 @f.2()
  %2 = call i32 @f.1.1()
  ret i32 %2
}
""", "@f.1 = internal global i8 1 define internal i32 @f() { ret i32 2 }", "define internal i32 @f() { ret i32 3 } define internal i32 @f.1() { ret i32 4 } define i32 @g() { %1 = call i32 @f() %2 = call i32 @f.1() ret i32 %2 }")
    # Names are given in the order of symbols: variables of all parts before functions.
    linked("""
@x = internal global i8 2
define internal void @x.1() {
0:
  ret void
}
define void @g() {
0:
  call void @x.1()
  ret void
}
define void @h() {
0:
  store i8 0, ptr @x
  ret void
}
""", "define internal void @x() { ret void } define void @g() { call void @x() ret void }", "@x = internal global i8 2 define void @h() { store i8 0, ptr @x ret void }")
    # Names between quotes stay so; one that was bare may come to need them, and the other way round.
    linked("""
@"a b" = internal global i8 1
@"7" = internal global i8 2
@"a b.1" = internal global i8 3
@"7.1" = internal global i8 4
@"\\FF" = external global i8
""", '@"a b" = internal global i8 1 @"7" = internal global i8 2', '@"a b" = internal global i8 3 @"7" = internal global i8 4 @"\\ff" = external global i8')
    # Everywhere that a name can stand.
    linked("""
@v = internal global i64 1
@v.1 = internal global i64 2
@a = global { ptr, [2 x ptr], i64 } { ptr @v.1, [2 x ptr] [ptr @f.1, ptr @v.1], i64 ptrtoint (ptr @v.1 to i64) }
@b = constant ptr getelementptr inbounds (i8, ptr @v.1, i64 4)
@c = global i64 add (i64 ptrtoint (ptr @f.1 to i64), i64 ptrtoint (ptr getelementptr (i64, ptr @v.1, i64 ptrtoint (ptr @v.1 to i64)) to i64))
define internal i64 @f() {
0:
  ret i64 1
}
define internal i64 @f.1(i64 %v, ptr %f) {
0:
  ret i64 %v
}
define i64 @g(i1 %v, ptr %f) {
0:
  br i1 %v, label %x, label %y
x:
  %1 = load i64, ptr @v.1
  store ptr @v.1, ptr @a, align 8
  %2 = call i64 @f.1(i64 %1, ptr @f.1)
  br label %y
y:
  %3 = phi ptr [ @v.1, %0 ], [ %f, %x ]
  %4 = icmp eq ptr %3, @v.1
  %5 = select i1 %4, ptr @f.1, ptr @v.1
  %6 = getelementptr i64, ptr @v.1, i64 1
  %7 = ptrtoint ptr @f.1 to i64
  %8 = insertvalue { ptr, i64 } undef, ptr @v.1, 0
  %9 = freeze ptr @v.1
  %10 = call i64 (...) %9(ptr @f.1)
  switch i64 %7, label %z [ i64 1, label %z ]
z:
  ret i64 ptrtoint (ptr @v.1 to i64)
}
""", "@v = internal global i64 1 define internal i64 @f() { ret i64 1 }",
           "@v = internal global i64 2 @a = global { ptr, [2 x ptr], i64 } { ptr @v, [2 x ptr] [ptr @f, ptr @v], i64 ptrtoint (ptr @v to i64) } @b = constant ptr getelementptr inbounds (i8, ptr @v, i64 4) "
           "@c = global i64 add (i64 ptrtoint (ptr @f to i64), i64 ptrtoint (ptr getelementptr (i64, ptr @v, i64 ptrtoint (ptr @v to i64)) to i64)) "
           "define internal i64 @f(i64 %v, ptr %f) { ret i64 %v } define i64 @g(i1 %v, ptr %f) { br i1 %v, label %x, label %y x: %1 = load i64, ptr @v store ptr @v, ptr @a, align 8 %2 = call i64 @f(i64 %1, ptr @f) br label %y "
           "y: %3 = phi ptr [ @v, %0 ], [ %f, %x ] %4 = icmp eq ptr %3, @v %5 = select i1 %4, ptr @f, ptr @v %6 = getelementptr i64, ptr @v, i64 1 %7 = ptrtoint ptr @f to i64 "
           "%8 = insertvalue { ptr, i64 } undef, ptr @v, 0 %9 = freeze ptr @v %10 = call i64 (...) %9(ptr @f) switch i64 %7, label %z [ i64 1, label %z ] z: ret i64 ptrtoint (ptr @v to i64) }")
    # An own name hides the shared one in its part, and there alone.
    linked("""
@x = global i32 1
@p = global ptr @x
@x.1 = internal global i32 2
@q = global ptr @x.1
@r = global ptr @x
""", "@x = global i32 1 @p = global ptr @x", "@x = internal global i32 2 @q = global ptr @x", "@x = external global i32 @r = global ptr @x")
    # The other way round: the own one stands first.
    linked("""
@x.1 = private global i32 2
@q = global ptr @x.1
@x = weak global i32 1
@p = global ptr @x
""", "@x = private global i32 2 @q = global ptr @x", "@x = weak global i32 1 @p = global ptr @x")
    # Numbers of two digits: of names that were given, and of names that a part has.
    linked("\n@v = internal global i8 0\n" + "".join(f"@v.{n} = internal global i8 {n}\n" for n in range(1, 11)), *(f"@v = internal global i8 {n}" for n in range(11)))
    linked("\n@v = global i8 0\n" + "".join(f"@v.{n} = external global i8\n" for n in range(1, 10)) + "@v.11 = external global i8\n@v.010 = external global i8\n@v.10 = internal global i8 1\n",
           "@v = global i8 0", "".join(f"@v.{n} = external global i8\n" for n in (1, 2, 3, 4, 5, 6, 7, 8, 9, 11, "010")) + "@v = internal global i8 1")
    # A name of digits alone.
    linked("""
%"7" = type { i8 }
%"7.1" = type { i16 }
@"7" = internal global %"7" zeroinitializer
@"7.1" = internal global %"7.1" zeroinitializer
""", '%"7" = type { i8 } @"7" = internal global %"7" zeroinitializer', '%"7" = type { i16 } @"7" = internal global %"7" zeroinitializer')
    # Of an own llvm and a shared one; numbers behind llvm_.
    linked("""
@llvm_.1 = internal global i8 1
@llvm = global i8 2
@llvm_.3 = internal global i8 3
@p = global ptr @llvm_.3
@llvm_.2 = global i8 4
""", "@llvm = internal global i8 1", "@llvm = global i8 2", "@llvm = internal global i8 3 @p = global ptr @llvm @llvm_.2 = global i8 4")


def structs():
    """Structs of one name: one where names and bodies are equal all the way down, else two."""
    # Equal ones are one.
    linked("""
%T = type { i32, ptr }
@a = global %T zeroinitializer
@b = global %T { i32 1, ptr @a }
""", "%T = type { i32, ptr } @a = global %T zeroinitializer", "%T = type { i32, ptr } @b = global %T { i32 1, ptr @a } @a = external global %T")
    # Unequal ones are two, and each type says which.
    linked("""
%T = type { i32 }
%T.1 = type { i64 }
@a = global %T zeroinitializer
@b = global [2 x { %T.1, ptr }] zeroinitializer
define %T.1 @f(%T.1 %x, ptr %p) {
0:
  %1 = load %T.1, ptr %p
  %2 = alloca %T.1
  %3 = getelementptr %T.1, ptr %2, i32 0, i32 0
  store %T.1 %1, ptr %2
  %4 = extractvalue %T.1 %1, 0
  %5 = insertvalue { %T.1, i8 } undef, %T.1 %x, 0
  %6 = call %T.1 @f(%T.1 %x, ptr getelementptr (%T.1, ptr @b, i64 1))
  %7 = call i32 (%T.1, ...) %p(%T.1 zeroinitializer, [1 x %T.1] [%T.1 { i64 1 }])
  %8 = select i1 true, %T.1 %1, %T.1 %6
  %9 = freeze %T.1 %8
  ret %T.1 %9
}
""", "%T = type { i32 } @a = global %T zeroinitializer",
           "%T = type { i64 } @b = global [2 x { %T, ptr }] zeroinitializer define %T @f(%T %x, ptr %p) { %1 = load %T, ptr %p %2 = alloca %T %3 = getelementptr %T, ptr %2, i32 0, i32 0 store %T %1, ptr %2 %4 = extractvalue %T %1, 0 "
           "%5 = insertvalue { %T, i8 } undef, %T %x, 0 %6 = call %T @f(%T %x, ptr getelementptr (%T, ptr @b, i64 1)) %7 = call i32 (%T, ...) %p(%T zeroinitializer, [1 x %T] [%T { i64 1 }]) %8 = select i1 true, %T %1, %T %6 %9 = freeze %T %8 ret %T %9 }")
    # Equal bodies whose inner structs are unequal.
    linked("""
%S = type { %T, i8 }
%T = type { i32 }
%S.1 = type { %T.1, i8 }
%T.1 = type { i64 }
@a = global %S zeroinitializer
@b = global %S.1 zeroinitializer
""", "%S = type { %T, i8 } %T = type { i32 } @a = global %S zeroinitializer", "%S = type { %T, i8 } %T = type { i64 } @b = global %S zeroinitializer")
    # Inner structs of equal bodies and unlike names.
    linked("""
%S = type { %A }
%A = type { i32 }
%S.1 = type { %B }
%B = type { i32 }
@a = global %S zeroinitializer
@b = global %S.1 zeroinitializer
""", "%S = type { %A } %A = type { i32 } @a = global %S zeroinitializer", "%S = type { %B } %B = type { i32 } %A = type { i32 } @b = global %S zeroinitializer")
    # A struct that shares with a later one of its name, not with the first.
    linked("""
%T = type { i8 }
%T.1 = type { i16 }
%T.2 = type { i32 }
@a = global %T zeroinitializer
@b = global %T.1 zeroinitializer
@c = global %T.1 zeroinitializer
@d = global %T zeroinitializer
@e = global %T.2 zeroinitializer
""", "%T = type { i8 } @a = global %T zeroinitializer", "%T = type { i16 } @b = global %T zeroinitializer", "%T = type { i16 } @c = global %T zeroinitializer", "%T = type { i8 } @d = global %T zeroinitializer",
           "%T = type { i32 } @e = global %T zeroinitializer")
    # A new name occurs in no part, though a later one has it.
    linked("""
%T = type { i8 }
%T.2 = type { i16 }
%T.1 = type { i32 }
@a = global %T.2 zeroinitializer
""", "%T = type { i8 }", "%T = type { i16 } @a = global %T zeroinitializer", "%T.1 = type { i32 }")
    # One whose name was kept for another gets a number behind its own; the last shares with the one that was renamed.
    linked("""
%T = type { i8 }
%T.2 = type { i16 }
%T.1 = type { i8 }
%T.1.1 = type { i16 }
""", "%T = type { i8 }", "%T = type { i16 } %T.1 = type { i8 }", "%T.1 = type { i16 } %T = type { i16 }")
    # Opaque ones are equal to each other alone.
    linked("""
%S = type opaque
%S.1 = type {}
@p = external global %S
@q = external global %S.1
@r = external global %S
""", "%S = type opaque @p = external global %S", "%S = type {} @q = external global %S", "%S = type opaque @r = external global %S")
    # Packed ones are not those without.
    linked("""
%S = type <{ i8, i32 }>
%S.1 = type { i8, i32 }
@a = global %S <{ i8 1, i32 2 }>
@b = global %S.1 { i8 1, i32 2 }
""", "%S = type <{ i8, i32 }> @a = global %S <{ i8 1, i32 2 }>", "%S = type { i8, i32 } @b = global %S { i8 1, i32 2 }")
    # A struct that nothing names is kept, and one that what is dropped names.
    linked("""
%U = type { i8 }
%T = type { i32 }
%V = type { %T }
define void @f() {
0:
  ret void
}
""", "%U = type { i8 } %T = type { i32 } define weak void @f() { %1 = alloca %T ret void }", "%V = type { %T } %T = type { i32 } define void @f() { ret void }")
    # Names of structs and of entries are apart; a struct's name may need quotes.
    linked("""
%"a b" = type { i8 }
%"a b.1" = type { i16 }
@"a b" = internal global %"a b" zeroinitializer
@"a b.1" = internal global %"a b.1" zeroinitializer
""", '%"a b" = type { i8 } @"a b" = internal global %"a b" zeroinitializer', '%"a b" = type { i16 } @"a b" = internal global %"a b" zeroinitializer')
    # A struct named llvm is a struct as any other.
    linked("""
%llvm = type { i8 }
%llvm.1 = type { i16 }
""", "%llvm = type { i8 }", "%llvm = type { i16 }")
    # Several of one part at once, in the order of its text.
    linked("""
%A = type { i8 }
%B = type { %A, %A }
%C = type { ptr }
%B.1 = type { %A.1, %A.1 }
%A.1 = type { i16 }
@b = global %B zeroinitializer
@c = global { %C, %B.1 } zeroinitializer
""", "%A = type { i8 } %B = type { %A, %A } %C = type { ptr } @b = global %B zeroinitializer", "%B = type { %A, %A } %C = type { ptr } %A = type { i16 } @c = global { %C, %B } zeroinitializer")


def commons():
    """The larger, of equals the first; an alignment is stated where there are two or more."""
    linked("\n@c = common global i32 0\n", "@c = common global i32 0")
    linked("\n@c = common global i32 0\n", "@c = external global i64, align 64", "@c = common global i32 0")
    linked("\n@c = common global i64 0, align 8\n", "@c = common global i64 0", "@c = common global i32 0")
    linked("\n@c = common global i64 0, align 8\n", "@c = common global i32 0", "@c = common global i64 0")
    linked("\n@c = common global i32 0, align 4\n", "@c = common global i32 0", "@c = common global [4 x i8] zeroinitializer")
    linked("\n@c = common global [4 x i8] zeroinitializer, align 4\n", "@c = common global [4 x i8] zeroinitializer", "@c = common global i32 0")
    linked("\n@c = common global i64 0, align 32\n", "@c = common global i8 0, align 32", "@c = common global i64 0, align 1", "@c = common global i32 0")
    linked("\n@c = common global i64 0, align 2\n", "@c = common global i64 0, align 2", "@c = common global i8 0")
    # Another winner has its own alignment, and no part has that of a common that loses.
    linked("\n@c = global i32 1\n", "@c = common global i64 0, align 32", "@c = global i32 1", "@c = common global i8 0")
    linked("\n@c = common global i8 0, align 2\n", "@c = weak global i64 1, align 32", "@c = common global i8 0, align 2")
    # A part's own one is no common.
    linked("""
@c = common global i8 0
@c.1 = internal global i64 0
@p = global ptr @c.1
""", "@c = common global i8 0", "@c = internal global i64 0 @p = global ptr @c")


def appended():
    """The elements of all parts behind each other, in one list."""
    linked("\n@x = appending global [6 x i8] [i8 1, i8 2, i8 3, i8 4, i8 5, i8 6], align 16\n", "@x = appending global [2 x i8] [i8 1, i8 2], align 4", "@x = appending global [1 x i8] [i8 3], align 16", "@x = appending global [3 x i8] [i8 4, i8 5, i8 6]")
    # No elements.
    linked("\n@x = appending global [0 x i64] []\n", "@x = appending global [0 x i64] zeroinitializer")
    linked("\n@x = appending global [1 x i64] [i64 1], align 8\n", "@x = appending global [0 x i64] zeroinitializer", "@x = appending global [1 x i64] [i64 1], align 8")
    linked("\n@x = appending constant [1 x i64] [i64 1], align 1\n", "@x = appending constant [1 x i64] [i64 1]", "@x = appending constant [0 x i64] [], align 1")
    # Where it stands is where it was first named; a part between has none.
    linked("""
@a = global i8 1
@x = appending global [2 x ptr] [ptr @a, ptr @b]
@b = global i8 2
""", "@a = global i8 1 @x = appending global [1 x ptr] [ptr @a]", "", "@b = global i8 2 @x = appending global [1 x ptr] [ptr @b]")
    # Names in elements are those of their part.
    linked("""
@llvm.used = appending global [3 x ptr] [ptr @v, ptr @f.1, ptr @v.1]
@v = internal global i8 1
@v.1 = internal global i8 2
define internal void @f() {
0:
  ret void
}
define internal void @f.1() {
0:
  ret void
}
""", "@llvm.used = appending global [1 x ptr] [ptr @v] @v = internal global i8 1 define internal void @f() { ret void }", "@v = internal global i8 2 @llvm.used = appending global [2 x ptr] [ptr @f, ptr @v] define internal void @f() { ret void }")
    # Elements that are lists.
    linked("\n@x = appending global [3 x { i8, [2 x i16] }] [{ i8, [2 x i16] } { i8 -1, [2 x i16] [i16 1, i16 2] }, { i8, [2 x i16] } zeroinitializer, { i8, [2 x i16] } undef]\n",
           "@x = appending global [1 x { i8, [2 x i16] }] [{ i8, [2 x i16] } { i8 255, [2 x i16] [i16 1, i16 2] }]", "@x = appending global [2 x { i8, [2 x i16] }] [{ i8, [2 x i16] } zeroinitializer, { i8, [2 x i16] } undef]")
    # One that a part keeps to itself is no part of it.
    linked("""
@x = appending global [1 x i8] [i8 1]
@x.1 = internal global [1 x i8] c"\\02"
""", "@x = appending global [1 x i8] [i8 1]", '@x = internal global [1 x i8] c"\\02"')


def declared():
    """What no part defines, and what counts as a declaration."""
    # available_externally becomes a declaration, of its type, constness and alignment.
    linked("""
@x = external constant i32, align 8
declare i32 @f(i32, ptr)
""", "@x = available_externally constant i32 5, align 8 define available_externally i32 @f(i32 %a, ptr %0) { ret i32 %a }")
    # It is the first entry that is declared.
    linked("""
@x = external global i64
declare void @f(i8)
""", "@x = external global i64 declare void @f(i8 %named)", "@x = available_externally constant i32 5, align 8 define available_externally i32 @f(i32 %a, ptr %0) { ret i32 %a }")
    linked("""
@x = external constant i32, align 8
declare i32 @f(i32, ptr)
""", "@x = available_externally constant i32 5, align 8 define available_externally i32 @f(i32 %a, ptr %0) { ret i32 %a }", "@x = external global i64 declare void @f(i8)")
    # Beside a definition nothing is left of it, but what it names stays declared.
    linked("""
@x = global i32 6
@y = external global i8
define linkonce i32 @f() {
0:
  ret i32 2
}
declare void @g()
""", "@x = available_externally global i32 5 @y = external global i8 define available_externally i32 @f() { call void @g() store i8 1, ptr @y ret i32 1 } declare void @g()", "@x = global i32 6 define linkonce i32 @f() { ret i32 2 }")
    # extern_weak exactly where all entries are.
    linked("\n@w = extern_weak global i32\ndeclare extern_weak void @f()\n", "@w = extern_weak global i32 declare extern_weak void @f()", "@w = extern_weak constant i8 declare extern_weak i32 @f(ptr)")
    linked("\n@w = external global i32\ndeclare void @f()\n", "@w = extern_weak global i32 declare extern_weak void @f()", "@w = external global i8 declare i32 @f(ptr)")
    linked("\n@w = external global i8, align 2\ndeclare i32 @f(ptr, ...)\n", "@w = external global i8, align 2 declare i32 @f(ptr, ...)", "@w = extern_weak global i32 declare extern_weak void @f()")
    linked("\n@w = external global i32\n", "@w = extern_weak global i32", "@w = available_externally global i32 1")
    # A host name stays declared, as it was first declared; a definition takes its place.
    linked("\ndeclare i32 @putchar(i32)\ndeclare i32 @printf(ptr, ...)\n", "declare i32 @putchar(i32) declare i32 @printf(ptr, ...)", "declare void @putchar() declare i32 @printf(ptr)")
    linked("""
define i32 @putchar(i32 %0) {
1:
  ret i32 %0
}
""", "declare i32 @putchar(i32)", "define i32 @putchar(i32) { ret i32 %0 }")
    linked("\ndeclare extern_weak i32 @putchar(i32)\n", "declare extern_weak i32 @putchar(i32)", "declare extern_weak i32 @putchar(i64)")
    # A definition counts, whatever the declarations were: its linkage, constness, type and alignment.
    linked("""
@x = weak_odr constant [2 x i8] c"hi", align 2
@y = global i8 1
define linkonce_odr i32 @f(ptr %p) {
0:
  ret i32 3
}
""", "@x = external global i64, align 64 declare void @f()", '@y = global i8 1 @x = weak_odr constant [2 x i8] c"hi", align 2 define linkonce_odr i32 @f(ptr %p) { ret i32 3 }', "@x = extern_weak global i8 declare extern_weak void @f()")
    # What only a declaration names, in an order of its own.
    linked("""
@b = external global i32
@a = external global i32
declare void @g()
declare void @f()
""", "declare void @g()", "@b = external global i32 declare void @f()", "@a = external global i32 declare void @g()")


def kept():
    """What wins, what is dropped, and what is kept though nothing names it."""
    linked("""
define linkonce void @f() {
0:
  ret void
}
define linkonce_odr void @g() {
0:
  ret void
}
""", "define linkonce void @f() { ret void }", "define linkonce_odr void @g() { ret void } define linkonce_odr void @f() { unreachable }")
    # A loser's body goes, with its blocks and numbers; what it alone names stays.
    linked("""
define i32 @f(i32 %0) {
1:
  ret i32 %0
}
declare i32 @only()
define internal i32 @own() {
0:
  ret i32 4
}
""", "define weak i32 @f(i32 %x) { %1 = call i32 @only() %2 = call i32 @own() ret i32 %2 } declare i32 @only() define internal i32 @own() { ret i32 4 }", "define i32 @f(i32) { ret i32 %0 }")
    # Weak before linkonce, and the first of two weak ones.
    linked("""
@x = weak global i32 2
define weak_odr i32 @f() {
0:
  ret i32 2
}
""", "@x = linkonce global i64 1 define linkonce i64 @f() { ret i64 1 }", "@x = weak global i32 2 define weak_odr i32 @f() { ret i32 2 }", "@x = weak_odr global i8 3 define weak i8 @f() { ret i8 3 }")
    # The order is that of first entries, though a later part defines.
    linked("""
@b = global i8 2
@a = global i8 1
define void @g() {
0:
  ret void
}
define void @f() {
0:
  call void @g()
  ret void
}
""", "@b = external global i8 @a = global i8 1 declare void @g() define void @f() { call void @g() ret void }", "define void @g() { ret void } @b = global i8 2")
    # Local names, blocks and what an instruction says stay as they are.
    linked("""
@x = global i32 0
define i32 @f(i32 %0, i32 %x) {
entry:
  %1 = add nuw nsw i32 %0, %x
  %"x y" = mul i32 %1, -3
  br label %2
2:
  %3 = phi i32 [ %1, %entry ], [ %"x y", %2 ]
  %4 = load volatile i32, ptr @x, align 2
  %5 = icmp ult i32 %3, %4
  br i1 %5, label %2, label %6
6:
  ret i32 %3
}
""", "declare i32 @f(i32, i32)", "@x = global i32 0 define i32 @f(i32 %0, i32 %x) { entry: %1 = add nsw nuw i32 %0, %x %\"x y\" = mul i32 %1, -3 br label %2 2: %3 = phi i32 [ %1, %entry ], [ %\"x y\", %2 ] "
           "%4 = load volatile i32, ptr @x, align 2 %5 = icmp ult i32 %3, %4 br i1 %5, label %2, label %6 6: ret i32 %3 }")
    # Nothing at all, and parts that say nothing.
    linked("\n", "")
    linked("\n", "", "", "; nothing\n")
    linked("\n@x = global i8 -1\n", "", "@x = global i8 255", "")
    # From standard input.
    linked("\n@x = external global i8\n@y = global i8 1\n", "@x = external global i8", "@y = global i8 1", names=["a.ll", "-"])


def texts():
    """Source name, layout and triple: each that of the first part that has one."""
    linked("""
source_filename = "s"
target datalayout = "e"
target triple = "t"
@x = external global i8
""", 'target triple = "t" @x = external global i8', 'source_filename = "s" target triple = "u"', 'source_filename = "v" target datalayout = "e" target triple = "w"')
    linked('\nsource_filename = "a.c"\n', 'source_filename = "a.c"', 'source_filename = "b.c"')
    linked('\nsource_filename = ""\ntarget triple = "x"\n', 'source_filename = ""', 'source_filename = "b.c" target triple = "x"')
    linked('\ntarget datalayout = "e-p:64:64"\n', "", 'target datalayout = "e-p:64:64"', 'target datalayout = "e"')


def aliases():
    """Aliases stand between variables and functions, each bound to its own target."""
    linked("""
@g = alias i32 (), ptr @f
define i32 @main() {
0:
  %1 = call i32 @g()
  ret i32 %1
}
define i32 @f() {
0:
  ret i32 2
}
""", "define weak i32 @g() { ret i32 1 } define i32 @main() { %1 = call i32 @g() ret i32 %1 }", "define i32 @f() { ret i32 2 } @g = alias i32 (), ptr @f")
    # The other way round.
    linked("""
@g = alias i32 (), ptr @f
define i32 @f() {
0:
  ret i32 2
}
define i32 @main() {
0:
  %1 = call i32 @g()
  ret i32 %1
}
""", "define i32 @f() { ret i32 2 } @g = alias i32 (), ptr @f", "define weak i32 @g() { ret i32 1 } define i32 @main() { %1 = call i32 @g() ret i32 %1 }")
    # A name is written as its own symbol, not as that of the target.
    linked("""
@x = global i32 5
@p = global [2 x ptr] [ptr @y, ptr @x]
@y = alias i32, ptr @x
define i32 @main() {
0:
  store i32 6, ptr @y
  %1 = load i32, ptr @x
  ret i32 %1
}
""", "@x = global i32 5 @y = alias i32, ptr @x define i32 @main() { store i32 6, ptr @y %1 = load i32, ptr @x ret i32 %1 }", "@y = external global i32 @x = external global i32 @p = global [2 x ptr] [ptr @y, ptr @x]")
    # A renamed target, and own aliases that are renamed.
    linked("""
@x = internal global i32 1
@p = global ptr @y
@x.1 = internal global i32 2
@q = global ptr @y.1
@y = internal alias i32, ptr @x
@y.1 = private alias i8, ptr @x.1
@z = alias i32, ptr @x.1
""", "@x = internal global i32 1 @y = internal alias i32, ptr @x @p = global ptr @y", "@x = internal global i32 2 @y = private alias i8, ptr @x @z = alias i32, ptr @x @q = global ptr @y")
    # A shared name keeps its own, and the own alias of that name is renamed, wherever it stands.
    linked("""
@x = global i32 1
@p = global ptr @y.1
@y = global i32 3
@y.1 = internal alias i32, ptr @x
""", "@x = global i32 1 @y = internal alias i32, ptr @x @p = global ptr @y", "@y = global i32 3")
    # Names of aliases are given last.
    linked("""
@x = global i32 1
@a = internal global i8 1
@a.2 = internal alias i32, ptr @x
define internal void @a.1() {
0:
  ret void
}
""", "@x = global i32 1 @a = internal alias i32, ptr @x", "define internal void @a() { ret void }", "@a = internal global i8 1")
    # An own alias whose new name would be an intrinsic's.
    linked("""
@llvm_.1 = internal alias i32 (), ptr @f
define internal i32 @llvm() {
0:
  ret i32 1
}
define i32 @f() {
0:
  ret i32 2
}
define i32 @main() {
0:
  %1 = call i32 @llvm_.1()
  ret i32 %1
}
""", "define internal i32 @llvm() { ret i32 1 }", "define i32 @f() { ret i32 2 } @llvm = internal alias i32 (), ptr @f define i32 @main() { %1 = call i32 @llvm() ret i32 %1 }")
    # Function types with structs, and one that may take more.
    linked("""
%T = type { i32 }
%T.1 = type { i64 }
@v = global %T.1 zeroinitializer
@a = alias %T.1 (%T.1, ptr, ...), ptr @f
@b = alias %T.1, ptr @v
define internal %T.1 @f(%T.1 %x, ptr %p) {
0:
  ret %T.1 %x
}
""", "%T = type { i32 }", "%T = type { i64 } @v = global %T zeroinitializer define internal %T @f(%T %x, ptr %p) { ret %T %x } @a = alias %T (%T, ptr, ...), ptr @f @b = alias %T, ptr @v")
    # What an alias defines was declared, weak, common or seen elsewhere in other parts.
    linked("""
@t = private global i32 7
@a = alias i32, ptr @t
@b = alias i32, ptr @t
@c = alias i8, ptr @t
@d = alias i32, ptr @t
""", "@d = extern_weak global i8 @a = external global i32 @b = common global i64 0 @c = weak global i8 1",
           "@t = private global i32 7 @a = alias i32, ptr @t @b = alias i32, ptr @t @c = alias i8, ptr @t @d = alias i32, ptr @t", "@c = linkonce_odr global i64 1 @b = available_externally global i32 3")
    # The order of first alias entry.
    linked("""
@t = internal global i8 1
@t.1 = internal global i8 2
@b = alias i8, ptr @t
@c = alias i8, ptr @t.1
@a = alias i8, ptr @t.1
""", "@a = external global i8 @t = internal global i8 1 @b = alias i8, ptr @t", "@t = internal global i8 2 @c = alias i8, ptr @t @a = alias i8, ptr @t @b = external global i8")
    # A target that other parts declare or define weakly.
    linked("""
@y = alias i32 (), ptr @f
define i32 @f() {
0:
  ret i32 1
}
""", "define weak i32 @f() { ret i32 3 } declare i32 @y()", "define i32 @f() { ret i32 1 } @y = alias i32 (), ptr @f", "define linkonce i32 @f() { ret i32 4 }")


def together():
    """Three parts that have something of each."""
    linked("""
source_filename = "one.c"
target triple = "x86_64-linux-gnu"
%pair = type { i32, ptr }
%node = type { %pair, ptr }
%pair.1 = type { i64, ptr }
%node.1 = type { %pair.1, ptr }
@table = external constant [4 x %pair]
@count = internal global i32 0
@llvm.global_ctors = appending global [2 x { i32, ptr, ptr }] [{ i32, ptr, ptr } { i32 1, ptr @start, ptr null }, { i32, ptr, ptr } { i32 2, ptr @start.2, ptr @count.1 }]
@shared = common global %node zeroinitializer, align 16
@count.1 = internal global i64 7
@hook = extern_weak global i8
@start.1 = global i8 1
@size = constant i64 ptrtoint (ptr getelementptr (%pair, ptr null, i64 1) to i64)
@run = alias void (i32), ptr @start.2
define internal void @start() {
0:
  %1 = load i32, ptr @count
  %2 = add i32 %1, 1
  store i32 %2, ptr @count
  call void @run(i32 %2)
  ret void
}
declare i32 @puts(ptr)
define weak_odr %node.1 @make(%pair.1 %0, i1 %flag) {
entry:
  br i1 %flag, label %1, label %2
1:
  call void @start.2(i32 0)
  br label %2
2:
  %3 = insertvalue %node.1 { %pair.1 { i64 1, ptr @count.1 }, ptr @shared }, %pair.1 %0, 0
  ret %node.1 %3
}
define internal void @start.2(i32 %0) {
1:
  store i32 %0, ptr @count.1
  ret void
}
declare extern_weak void @stop()
""", 'source_filename = "one.c" %pair = type { i32, ptr } %node = type { %pair, ptr } @table = external constant [4 x %pair] @count = internal global i32 0 '
           "@llvm.global_ctors = appending global [1 x { i32, ptr, ptr }] [{ i32, ptr, ptr } { i32 1, ptr @start, ptr null }] @shared = common global %node zeroinitializer "
           "define internal void @start() { %1 = load i32, ptr @count %2 = add i32 %1, 1 store i32 %2, ptr @count call void @run(i32 %2) ret void } declare void @run(i32) declare i32 @puts(ptr)",
           'target triple = "x86_64-linux-gnu" %pair = type { i64, ptr } %node = type { %pair, ptr } @shared = common global i8 0, align 16 @count = internal global i64 7 '
           "@llvm.global_ctors = appending global [1 x { i32, ptr, ptr }] [{ i32, ptr, ptr } { i32 2, ptr @start, ptr @count }] @hook = extern_weak global i8 @run = alias void (i32), ptr @start "
           "define weak_odr %node @make(%pair %0, i1 %flag) { entry: br i1 %flag, label %1, label %2 1: call void @start(i32 0) br label %2 2: %3 = insertvalue %node { %pair { i64 1, ptr @count }, ptr @shared }, %pair %0, 0 ret %node %3 } "
           "define internal void @start(i32) { store i32 %0, ptr @count ret void } declare i64 @puts(...)",
           'source_filename = "three.c" target triple = "other" %pair = type { i32, ptr } @start.1 = global i8 1 @hook = extern_weak global i64 @size = constant i64 ptrtoint (ptr getelementptr (%pair, ptr null, i64 1) to i64) '
           "define linkonce %pair @make(%pair %x) { call void @stop() ret %pair %x } declare extern_weak void @stop() define available_externally i32 @puts(ptr %0) { ret i32 3 } define weak void @run(i32 %x) { call void @stop() ret void }")


def told(given, words, result):
    """A run over what is given, and what is told of it behind its words."""
    RUNS.append((f"clear\n{given}run {words}\n", f"> {words}\n{result}"))


def ends():
    """What is judged first, where a result goes, and what is at a limit."""
    # The bitcode of what two texts come to.
    parts = "file a.ll\n+ @x = external global i8\nfile b.ll\n+ @x = global i8 255\n"
    told(parts, "llvm-link a.ll b.ll", f"status 0\nfiles a.ll b.ll\noutput\n{printed(BYTE_CODE)}")
    told(parts, "llvm-link a.ll b.ll -o z.bc", f"status 0\nfiles a.ll b.ll\nwrote z.bc\n{printed(BYTE_CODE)}")
    # An input that is refused, bitcode or text, is told before any conflict.
    clash = "file x.ll\n+ @x = global i32 1\nfile y.ll\n+ @x = global i32 2\n"
    told(clash + "file c.bc\n= 42 43 c0 de\n", "llvm-link x.ll c.bc y.ll", "status 1\nfiles x.ll c.bc y.ll\nerrors\n| llvm-link: c.bc: foreign producer\n")
    told(clash + "file c.bc\n= 42 43 c0 de\n", "llvm-link c.bc x.ll y.ll", "status 1\nfiles c.bc x.ll y.ll\nerrors\n| llvm-link: c.bc: foreign producer\n")
    refused("c.ll:1:16: constant out of range", "@x = global i32 1", "@x = global i32 2", "@x = global i8 256")
    # Where a conflict is told no file is written, and a standard error that fails changes no answer.
    told(clash + "file z.bc\n+ kept\n", "llvm-link x.ll y.ll -o z.bc", "status 1\nfiles x.ll y.ll\nerrors\n| llvm-link: conflict: two strong: @x in x.ll and y.ll\n")
    told(clash + "fails errors 1\n", "llvm-link x.ll y.ll -o z.bc", "status 1\nfiles x.ll y.ll\n")
    # Of several symbols in conflict the first in their order is told: x stands before y, and variables before functions.
    refused("conflict: two strong: @x in c.ll and d.ll", "@x = external global i32 @y = global i32 1", "@y = global i32 1", "@x = global i32 1", "@x = global i32 1")
    refused("conflict: two strong: @v in b.ll and c.ll", "define void @f() { ret void }", "define void @f() { ret void } @v = global i32 1", "@v = global i32 1")
    # 2^40 bytes exactly.
    half = "@x = appending global [1 x [549755813888 x i8]] [[549755813888 x i8] zeroinitializer]"
    linked("""
@x = appending global [2 x [549755813888 x i8]] [[549755813888 x i8] zeroinitializer, [549755813888 x i8] zeroinitializer]
""", half, half)
    # What one part extracts and another declares.
    linked("""
@v = global i32 4
define i32 @h() {
0:
  ret i32 3
}
define i32 @f() {
0:
  %1 = call i32 @h()
  %2 = load i32, ptr @v
  %3 = add i32 %1, %2
  ret i32 %3
}
define i32 @main() {
0:
  %1 = call i32 @f()
  ret i32 %1
}
""", "@v = external global i32 define i32 @h() { ret i32 3 } define i32 @f() { %1 = call i32 @h() %2 = load i32, ptr @v %3 = add i32 %1, %2 ret i32 %3 }",
           "@v = global i32 4 declare i32 @f() define i32 @main() { %1 = call i32 @f() ret i32 %1 }")


TABLES = [worked, conflicts, counts, renamed, structs, commons, appended, declared, kept, texts, aliases, together, ends]


def main():
    for table in TABLES:
        table()
    store_part("links", RUNS)


if __name__ == "__main__":
    main()
