"""Sets of parts that tests/outside/regroup.py tries first: what two goes once got wrong, or could.
Between two parts is a line `---`."""

# The main of a set: what a function returns and what is in a variable.
MAIN = """declare i32 @f()
@x = external global i32
define i32 @main() { %1 = call i32 @f() %2 = load i32, ptr @x %3 = add i32 %1, %2 ret i32 %3 }
"""

# An alias in one part that is appended in another, and a later symbol with a conflict of its own.
APPENDED_ALIAS = """@z = global i32 0
@x = alias i32, ptr @z
---
@y = global i32 1
---
@x = appending global [1 x i32] [i32 5]
@y = global i32 2
"""
DECLARED_ALIAS = """@x = external global i32
---
@z = global i32 0
@x = alias i32, ptr @z
@y = global i32 1
---
@x = appending global [1 x i32] [i32 5]
@y = global i32 2
"""

# Names that are made fresh twice, and names that later parts have.
FRESH = """@x = internal global i32 1
define internal i32 @f() { %1 = load i32, ptr @x ret i32 %1 }
define i32 @main() { %1 = call i32 @f() %2 = call i32 @g() %3 = sub i32 %2, %1 ret i32 %3 }
declare i32 @g()
---
@x = internal global i32 30
define internal i32 @f() { %1 = load i32, ptr @x ret i32 %1 }
define i32 @g() { %1 = call i32 @f() %2 = call i32 @h() %3 = add i32 %2, %1 ret i32 %3 }
declare i32 @h()
---
@x = global i32 5
@x.1 = global i32 600
define i32 @f() { ret i32 7 }
---
@x.1.1 = global i32 8
@f.1 = internal global i32 9
declare i32 @f.2()
define i32 @h() { %1 = load i32, ptr @f.1 ret i32 %1 }
"""

# A main of a part's own before the one that counts, and functions of the host's names.
OWN_MAIN = """define internal i32 @main() { ret i32 1 }
---
define private i32 @abort() { ret i32 2 }
define i32 @f() { %1 = call i32 @abort() %2 = call i32 @putchar(i32 65) ret i32 %1 }
declare i32 @putchar(i32)
---
@main = alias i32 (), ptr @start
define internal i32 @start() { %1 = call i32 @f() %2 = call i32 @putchar(i32 66) ret i32 %2 }
define internal i32 @putchar(i32 %n) { ret i32 3 }
declare i32 @f()
---
declare void @abort()
define void @g() { call void @abort() ret void }
"""

# Commons of which one is larger and others are aligned more, and a function that gives way.
COMMON = f"""{MAIN}@a = common global i8 0
---
@b = global i8 1
@x = common global i64 0
define linkonce i32 @f() {{ ret i32 5 }}
---
@a = global i8 1, align 2
@x = common global i8 0, align 128
---
@x = common global i32 0, align 64
define weak i32 @f() {{ %1 = ptrtoint ptr @x to i32 ret i32 %1 }}
"""

# Null where each entry is weak, and unresolved where one is not.
WEAK = """@x = global i32 4
@w = extern_weak global i8
define i32 @f() { %1 = icmp eq ptr @w, null %2 = zext i1 %1 to i32 ret i32 %2 }
---
@w = extern_weak global i8
---
"""
NULL, UNRESOLVED = WEAK + MAIN, WEAK + MAIN + "@w = available_externally global i8 1\n"

# Structs of one name: the second body comes twice, and the fresh name is taken.
STRUCTS = f"""%T = type {{ i8 }}
{MAIN}---
%T = type {{ i64 }}
@x = global %T {{ i64 7 }}
---
%T = type {{ i64 }}
%T.1 = type opaque
@v = external global %T.1
declare i32 @by(%T)
define i32 @f() {{ %1 = call i32 @by(%T {{ i64 9 }}) ret i32 %1 }}
---
%T = type {{ i64 }}
define i32 @by(%T %t) {{ %1 = extractvalue %T %t, 0 %2 = trunc i64 %1 to i32 ret i32 %2 }}
"""

# Arrays of which some state an alignment, and one is empty.
ARRAYS = """@a = global i8 1
@x = appending global [1 x i32] [i32 5]
declare i32 @f()
define i32 @main() { %1 = call i32 @f() ret i32 %1 }
---
@x = appending global [0 x i32] zeroinitializer, align 32
---
@x = appending global [2 x i32] [i32 6, i32 7], align 4
@p = global ptr getelementptr (i32, ptr @x, i64 2)
define i32 @f() { %1 = load ptr, ptr @p %2 = load i32, ptr %1 %3 = call i32 @g(i32 %2) ret i32 %3 }
define i32 @g(i32 %n) { %1 = ptrtoint ptr @x to i32 %2 = add i32 %1, %n ret i32 %2 }
"""

SETS = [tuple(text.split("---\n")) for text in (
    APPENDED_ALIAS, DECLARED_ALIAS, FRESH, OWN_MAIN, COMMON, NULL, UNRESOLVED, STRUCTS, ARRAYS)]
