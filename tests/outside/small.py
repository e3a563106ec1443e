"""Small sets of parts at random, for tests/outside/regroup.py: few names, each of which may be
anything in each part, so that most sets are in conflict, and many in more than one."""

NAMES = ["x", "y", "z", "x.1"]
# What a part may have under a name, `@`; `#` is a number. The forms of a list that bring no
# conflict with others of it come first.
VARIABLES = [
    "@ = external global i32", "@ = external constant i8, align 16", "@ = extern_weak global i32",
    "@ = common global i32 0", "@ = common global i64 0, align 4",
    "@ = common global i8 0, align 32",
    "@ = weak global i16 #", "@ = weak_odr constant i32 #",
    "@ = linkonce global i32 #", "@ = linkonce_odr constant i8 #",
    "@ = available_externally global i32 #", "@ = internal global i64 #",
    "@ = private constant i32 #", "@ = internal alias i32, ptr @own",
    "@ = global i32 #", "@ = constant i8 #, align 16",
    "@ = alias i32, ptr @own", "@ = alias i8, ptr @own",
    "@ = appending global [1 x i32] [i32 #]", "@ = appending global [1 x i32] [i32 #], align 16",
    "@ = appending global [0 x i32] zeroinitializer", "@ = appending constant [1 x i32] [i32 #]",
    "@ = appending global [1 x ptr] [ptr @own]",
]
FUNCTIONS = [
    "declare i32 @()", "declare extern_weak i32 @()", "define weak i32 @() { ret i32 # }",
    "define linkonce_odr i32 @() { ret i32 # }",
    "define available_externally i32 @() { ret i32 # }",
    "define internal i32 @() { ret i32 # }", "@ = private alias i32 (), ptr @mine",
    "define i32 @() { ret i32 # }", "@ = alias i32 (), ptr @mine",
]
MILD = {"variable": VARIABLES[:14], "function": FUNCTIONS[:7]}
WILD = {"variable": VARIABLES, "function": FUNCTIONS}
OWN = "@own = internal global i32 #\ndefine internal i32 @mine() { ret i32 # }"
SHOW = """declare i32 @printf(ptr, ...)
@text = private constant [5 x i8] c"%lx \\00"
define internal void @show(ptr %p) {{ %i = ptrtoint ptr %p to i64 \
%z = call i32 (ptr, ...) @printf(ptr @text, i64 %i) %c = icmp ult i64 %i, 65536 \
br i1 %c, label %no, label %more more: %f = icmp slt i64 %i, 4611686018427387904 \
br i1 %f, label %yes, label %call yes: %b = load i8, ptr %p %w = zext i8 %b to i64 \
%y = call i32 (ptr, ...) @printf(ptr @text, i64 %w) ret void \
call: %r = call i32 %p() %v = zext i32 %r to i64 \
%u = call i32 (ptr, ...) @printf(ptr @text, i64 %v) ret void no: ret void }}
define i32 @main() {{ {} ret i32 0 }}"""


def small(chance, count):
    """The texts of a set. Where there is none in conflict, one part shows what it has."""
    texts, number, shown = [], 0, chance.below(count)
    kinds = {name: chance.one_of(["variable"] * 3 + ["function"]) for name in NAMES}
    forms = {name: MILD if chance.below(3) == 0 else WILD for name in NAMES}
    for part in range(count):
        names = [name for name in NAMES if chance.below(5) < 3]
        lines = [OWN]
        for name in names:
            kind = kinds[name] if chance.below(12) else chance.one_of(list(WILD))
            lines.append(chance.one_of(forms[name][kind]).replace("@", f"@{name}", 1))
        lines = "\n".join(sorted(lines, key=lambda _: chance.below(1000)))
        while "#" in lines:
            number = (number + 1) % 100
            lines = lines.replace("#", str(number), 1)
        if part == shown:
            calls = [f"call void @show(ptr @{name})" for name in [*names, "own", "mine"]]
            lines += "\n" + SHOW.format(" ".join(calls))
        texts.append(lines + "\n")
    return texts
