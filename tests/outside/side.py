#!/usr/bin/env python3
"""Runs parts side by side, never merged, and compares that with what `llvm-link` and `lli` make of them: the same bytes on standard output,
the same line on standard error, the same status; for several words, inputs and bounds on steps.

The run in here (tests/outside/machine.py over tests/outside/parts.py) is a plain one, written from docs/running.md, docs/linking.md and
docs/language.md; nothing is taken from the program.

    tests/outside/side.py [--tool PROGRAM] [SET ..]    ./ir-tools, and all sets, unless others are named

| set | parts |
|---|---|
| `own` | the rows of this script, on what the others leave out |
| `random` | COUNT sets of two to six parts at random, of few names, so that linkages of each kind meet |
| `links` | the rows of tests/links.py: those with a main, and those without it with a further part, which tells what lies in memory or calls a function |
| `linked_runs` | the rows of tests/linked_runs.py, with their words, inputs and bounds |
| `again` | those of them that are rows of tests/links.py too; the gate runs these, and `linked_runs` has them |
| `running` | the programs of tests/running.py, of one part each |
| `linked` | the programs of tests/linked: parts that clang-19 printed at -O0 and at -O2, in both orders, and some at one level beside others at the other |
| `programs` | the programs of tests/programs at -O0 and at -O2, cut in two by `llvm-extract` |

Each is run without a bound, with the number of steps that it takes here, one less and one more, with half of them and with none. A program
that takes more than MOST steps is compared at that bound and at half of it, and a short one is run with OTHERS too. Parts in conflict are
compared by the line that tells of it.
"""
import pathlib
import shlex
import subprocess
import sys
import tempfile

sys.dont_write_bytecode = True
HERE = pathlib.Path(__file__).resolve().parent
sys.path[:0] = [str(HERE), str(HERE.parent)]
import linked_runs
import links
import paths
import programs
import running
from machine import Run, Side
from parts import I32, PTR, VOID, Part, spelled

# How many steps a run takes in here at most, and with how many a program is run with other words and another input too.
MOST, FEW = 100000, 3000
# How many sets of parts are made at random.
COUNT = 400
OTHERS = ["one", "", "-22", "\xff"], b"a Line\n\xff\x00 22 x\nlast"


class Case:
    """Parts, and the words and inputs that they are run with."""

    def __init__(self, name, texts, given=((), b"")):
        self.name, self.texts, self.given = name, texts, [given] if isinstance(given, tuple) else given


class Compared:
    """Counts of what was compared, and what differed."""

    def __init__(self, tool):
        self.tool, self.cases, self.conflicts, self.runs, self.long, self.differing = tool, 0, 0, 0, 0, []

    def told(self, room, *words, given=b""):
        """The status, standard output and standard error of the program."""
        made = subprocess.run([self.tool, *(word.encode("latin-1") for word in words)], input=given, capture_output=True, cwd=room, timeout=600)
        return made.returncode, made.stdout, made.stderr

    def same(self, case, which, ours, theirs):
        if ours != theirs:
            self.differing.append(case.name)
            print(f"{case.name}, {which}:\n  side by side {str(ours)[:300]}\n  by {pathlib.Path(self.tool).name} {str(theirs)[:300]}")

    def compare(self, case):
        """Links the parts of a case, and runs what was linked."""
        self.cases += 1
        with tempfile.TemporaryDirectory() as room:
            names = [f"{number}.ll" for number in range(len(case.texts))]
            for name, text in zip(names, case.texts):
                (pathlib.Path(room) / name).write_bytes(text.encode("latin-1"))
            side, told = Side(case.texts), self.told(room, "llvm-link", "-S", "-o", "linked.ll", *names)
            conflict = side.conflict()
            if conflict:
                self.conflicts += 1
                kind, name, one, other = conflict
                line = f"llvm-link: conflict: {kind}: {spelled(name)} in {names[one]} and {names[other]}\n"
                self.same(case, "the conflict", (1, b"", line.encode("latin-1")), told)
                return
            self.same(case, "linking", (0, b"", b""), told)
            self.same(case, "linking to bitcode", (0, b"", b""), self.told(room, "llvm-link", "-o", "linked.bc", *names))
            for words, given in case.given:
                self.compare_runs(case, side, room, list(words), given)

    def compare_runs(self, case, side, room, words, given):
        """Runs with these words and this input, at several bounds, and a short program with OTHERS too."""
        for module in ["linked.ll", "linked.bc"]:
            steps = self.compare_run(case, side, room, module, words, given, lambda steps: {0, steps // 2, steps - 1, steps, steps + 1})
            if steps <= FEW and (words, given) != OTHERS:
                self.compare_run(case, side, room, module, *OTHERS, lambda steps: {steps - 1})

    def compare_run(self, case, side, room, module, words, given, bounds_of):
        """Runs a module at several bounds, and without one where it ends; gives the number of steps."""
        arguments = [word.encode("latin-1") for word in [module, *words]]
        whole = Run(side, arguments, given)
        ended, steps = whole.advance(MOST), whole.steps
        is_long = ended == (124, "steps used up")
        self.long += is_long
        run = Run(side, arguments, given)
        for bound in sorted(bound for bound in bounds_of(steps) if 0 <= bound <= MOST):
            self.compare_bound(case, room, module, words, given, run.advance(bound), bytes(run.output), bound)
        if not is_long:
            self.compare_bound(case, room, module, words, given, ended, bytes(whole.output), None)
        return steps

    def compare_bound(self, case, room, module, words, given, ended, output, bound):
        self.runs += 1
        status, line = ended
        ours = status, output, (f"lli: {line}\n" if line else "").encode("latin-1")
        theirs = self.told(room, "lli", *([] if bound is None else [f"--max-steps={bound}"]), module, *words, given=given)
        self.same(case, f"{module} {words} {given[:40]!r}, bound {bound}", ours, theirs)


# ---- sets of parts


def simple(ty):
    """A type as it is written, where that needs no name; else i64."""
    return f"i{ty[1]}" if ty[0] == "int" else ty[0] if ty in (PTR, VOID) else "i64"


def ends_in(ty):
    """The end of a body that gives something of this type."""
    return "ret void" if ty == VOID else f"ret {simple(ty)} {'null' if ty == PTR else '1'}"


def defining(side):
    """A text that defines what the parts leave undefined."""
    found = []
    for symbol in side.symbols:
        if symbol[0] is None and side.meaning(symbol) == ("unresolved",):
            entry = side.entries[symbol][0]
            if entry.is_variable():
                found.append(f"{spelled(symbol[1])} = global i64 {len(found) + 77}")
            else:
                found.append(f"define {simple(entry.returns)} {spelled(symbol[1])}({', '.join(simple(ty) for ty, _ in entry.parameters)}) {{ {ends_in(entry.returns)} }}")
    return "\n".join(found)


def telling(side):
    """The body of a main that writes what lies in memory, from the start of each variable on."""
    found = []
    for symbol, size, _ in side.rooms():
        for at in range(side.places()[symbol][1], side.places()[symbol][1] + min(size, 48)):
            found.append(f"%b{at} = load i8, ptr inttoptr (i64 {at} to ptr) %f{at} = freeze i8 %b{at} %z{at} = zext i8 %f{at} to i32 %c{at} = call i32 @putchar(i32 %z{at})")
    return "\n".join([*found, "ret i32 0"])


def status_from(ty):
    """The end of a main whose status tells %r, of this type."""
    if ty == VOID:
        return "ret i32 0"
    word = "ptrtoint" if ty == PTR else "add" if ty == I32 else "zext" if ty[1] < 32 else "trunc"
    return f"%t = {word} {simple(ty)} %r{', 0' if ty == I32 else ' to i32'} ret i32 %t"


def calling(side):
    """The bodies of mains that call a function by its address each, where its types are integers and pointers."""
    for number, symbol in enumerate(side.functions):
        entry = side.homes[symbol]
        if entry is not None and all(ty[0] in ("int", "ptr", "void") for ty in [entry.returns, *(ty for ty, _ in entry.parameters)]):
            given = ", ".join("ptr inttoptr (i64 65536 to ptr)" if ty == PTR else f"{simple(ty)} 1" for ty, _ in entry.parameters)
            result = "%r = " if entry.returns != VOID else ""
            yield f"{result}call {simple(entry.returns)} inttoptr (i64 {2**62 + 16 * number} to ptr)({given}) {status_from(entry.returns)}"


def probed(name, texts):
    """Cases of parts without a main, each with a further part that has one."""
    side = Side(texts)
    if side.conflict() or (None, "putchar") in side.entries and side.entries[None, "putchar"][0].is_variable():
        return
    for number, body in enumerate([telling(side), *calling(side)]):
        last = f"{defining(side)}\ndeclare i32 @putchar(i32)\ndefine i32 @main() {{ {body} }}"
        yield Case(f"{name}, main {number}", [*texts, last])


def of_links(_):
    """The rows of tests/links.py that are linked or in conflict, but for very long ones."""
    for table in links.TABLES:
        links.ROWS.clear()
        table()
        for number, (_, texts, _, line) in enumerate(links.ROWS):
            name = f"links, {table.__name__} {number}"
            if line and not line.startswith("conflict: ") or sum(map(len, texts)) > 100000:
                continue
            has_main = any(entry.name == "main" for part, text in enumerate(texts) for entry in Part(part, text).entries)
            yield from [Case(name, texts)] if has_main or line else probed(name, texts)


def given_by(told):
    """The words and inputs of the rows of a script."""
    found = []
    for _, _, _, words, given, _, _ in told:
        words = shlex.split(words)
        words = tuple(words[next(n for n, word in enumerate(words) if not word.startswith("--max-steps")) + 1:])
        given = given or b""
        it = words, given if isinstance(given, bytes) else given.encode("latin-1")
        found += [it] if it not in found else []
    return found


def collected(tables):
    """What tables of rows run: a name, texts, and words and inputs."""
    found, table_name = [], ""

    def linked(parts, _, *runs, names=None):
        found.append(Case(f"{table_name} {len(found)}", [linked_runs.whole(part) for part in parts], given_by(runs)))

    def run(text, *told):
        found.append(Case(f"{table_name} {len(found)}", [text if isinstance(text, str) else links.whole(text)], given_by([told])))

    before = linked_runs.linked, running.run
    linked_runs.linked, running.run = linked, run
    for table in tables:
        table_name = f"{table.__module__}, {table.__name__}"
        table()
    linked_runs.linked, running.run = before
    return found


def of_linked_runs(_):
    """The rows of tests/linked_runs.py."""
    return collected(linked_runs.TABLES)


def of_again(_):
    """Those of them that are rows of tests/links.py too."""
    return collected([linked_runs.again])


def of_running(_):
    """The rows of tests/running.py."""
    return collected(running.TABLES)


def frames(count):
    """Parts that call each other, so many frames of 60,005 beside one of 2: there is room for 69."""
    def turn(name, other):
        return (f"declare i32 @{other}([60000 x i8], i32) define i32 @{name}([60000 x i8] %a, i32 %n) {{ %c = icmp eq i32 %n, 1 br i1 %c, label %z, label %s "
                f"z: ret i32 7 s: %m = sub i32 %n, 1 %r = call i32 @{other}([60000 x i8] %a, i32 %m) ret i32 %r }}")
    main = f"declare i32 @f([60000 x i8], i32) define i32 @main() {{ %r = call i32 @f([60000 x i8] zeroinitializer, i32 {count}) ret i32 %r }}"
    return main, turn("f", "g"), turn("g", "f")


def constructors(*rows):
    """The array of constructors."""
    elements = ", ".join(f"{{ i32, ptr, ptr }} {{ i32 {priority}, ptr {function}, ptr null }}" for priority, function in rows)
    return f"@llvm.global_ctors = appending global [{len(rows)} x {{ i32, ptr, ptr }}] [{elements}]"


PUT = "declare i32 @putchar(i32)"
MAIN = "define i32 @main() { %p = call i32 @putchar(i32 109) ret i32 %p }"
TWICE = "define i32 @main() { %1 = call ptr @f() %2 = load i32, ptr %1 store i32 9, ptr %1 %3 = load i32, ptr @x %4 = add i32 %2, %3 ret i32 %4 }"

# Parts that turn on what the other sets do not: each a tuple of texts.
OWN = [
    frames(69), frames(70),
    # A pointer to what another part had on its stack, in a variable of its own, on the heap, and by its address alone.
    ("declare ptr @f() @x = global i32 1 " + TWICE, "define ptr @f() { %1 = alloca i32 ret ptr %1 }"),
    ("declare ptr @f() @x = internal global i32 1 " + TWICE, "@x = internal global i32 5 define ptr @f() { ret ptr @x }"),
    ("declare ptr @f() @x = external global i32 " + TWICE, "@x = global i32 5 define ptr @f() { %1 = ptrtoint ptr @x to i64 %2 = inttoptr i64 %1 to ptr ret ptr %2 }"),
    ("declare ptr @f() @x = global i32 1 " + TWICE, "declare ptr @malloc(i64) declare void @free(ptr) define ptr @f() { %1 = call ptr @malloc(i64 4) call void @free(ptr %1) ret ptr %1 }"),
    ("declare ptr @f() @x = global i32 1 " + TWICE, "@y = constant i32 5 define ptr @f() { ret ptr @y }"),
    ("declare ptr @f() @x = global i32 1 " + TWICE, "@y = global [3 x i8] c\"abc\" define ptr @f() { ret ptr @y }"),
    ("declare ptr @f() @x = global i32 1 " + TWICE, "@y = global [8 x i8] c\"abcdefgh\", align 4 define ptr @f() { ret ptr getelementptr (i8, ptr @y, i64 1) }"),
    # A part takes a variable for longer than it is.
    ("@x = external global [4 x i32] define i32 @main() { %1 = load i32, ptr getelementptr inbounds ([4 x i32], ptr @x, i64 0, i64 3) ret i32 %1 }", "@x = global i32 5"),
    ("@x = external global [4 x i32] define i32 @main() { %1 = load i32, ptr getelementptr ([4 x i32], ptr @x, i64 0, i64 3) ret i32 %1 }",
     "@x = global i32 5 @y = global i32 6"),
    ("@x = external global [4 x i32] define i32 @main() { %1 = load i32, ptr getelementptr inbounds ([4 x i32], ptr @x, i64 0, i64 3) ret i32 %1 }",
     "@x = global [4 x i32] [i32 5, i32 6, i32 7, i32 8]"),
    # Elements of all parts, each with a name of its part's own.
    ("@x = appending global [1 x ptr] [ptr @v] @v = internal global i32 3 define i32 @main() { %1 = load ptr, ptr getelementptr ([1 x ptr], ptr @x, i64 2) %2 = load i32, ptr %1 ret i32 %2 }",
     "@x = appending global [1 x ptr] [ptr @v] @v = internal global i32 4", "@x = appending global [1 x ptr] [ptr @v] @v = internal global i32 5"),
    # A weak function that is nowhere, one that is seen elsewhere, and one that a host has.
    ("declare extern_weak i32 @f() define i32 @main() { %1 = call i32 @f() ret i32 %1 }", "declare extern_weak i32 @f()"),
    ("declare i32 @f() define i32 @main() { %1 = call i32 @f() ret i32 %1 }", "define available_externally i32 @f() { ret i32 3 }",
     "define weak i32 @f() { ret i32 4 }", "define linkonce i32 @f() { ret i32 5 }"),
    (PUT + MAIN, "define available_externally i32 @putchar(i32 %c) { ret i32 3 }"),
    ("declare extern_weak i32 @putchar(i32) " + MAIN, "declare extern_weak i32 @putchar(i32)"),
    # Function types by their shapes.
    ("%T = type { i32, %U } %U = type { i8 } declare i32 @f(%T) define i32 @main() { %1 = call i32 @f(%T { i32 3, %U { i8 4 } }) ret i32 %1 }",
     "%U = type { i32, %T } %T = type { i8 } define i32 @f(%U %x) { %1 = extractvalue %U %x, 1, 0 %2 = zext i8 %1 to i32 ret i32 %2 }"),
    ("%T = type { i32, i8 } declare i32 @f(%T) define i32 @main() { %1 = call i32 @f(%T { i32 3, i8 4 }) ret i32 %1 }",
     "%T = type <{ i32, i8 }> define i32 @f(%T %x) { ret i32 4 }"),
    ("declare i32 @f(...) define i32 @main() { %1 = call i32 (...) @f() ret i32 %1 }", "define i32 @f() { ret i32 4 }"),
    ("declare i32 @f(...) define i32 @main() { %1 = call i32 @f() ret i32 %1 }", "define i32 @f() { ret i32 4 }"),
    ("declare void @putchar(ptr) define i32 @main() { call void @putchar(ptr null) ret i32 1 }", PUT),
    # Constructors that the host has, that end the run, that are no function of that type, and that destroy.
    (constructors((5, "@abort")) + " declare void @abort() " + PUT + MAIN, constructors((4, "@c")) + PUT + " define void @c() { %1 = call i32 @putchar(i32 99) ret void }"),
    (constructors((5, "@main")) + PUT + MAIN, constructors((5, "@c"), (5, "@c")) + PUT + " define internal void @c() { %1 = call i32 @putchar(i32 99) ret void }"),
    (constructors((5, "@c")) + " declare void @c() " + PUT + MAIN,
     constructors((5, "@c")) + " declare void @exit(i32) define internal void @c() { call void @exit(i32 77) ret void }", "define void @c() { ret void }"),
    (constructors((5, "@d"), (1, "null")) + " @d = internal alias void (), ptr @c define internal void @c() { %1 = call i32 @putchar(i32 100) ret void } " + PUT + MAIN,
     constructors((5, "@c")).replace("ctors", "dtors") + " define void @c() { unreachable }"),
    (constructors((5, "@c")) + PUT + MAIN + " declare extern_weak void @c()", constructors((3, "@c")) + " declare extern_weak void @c()"),
    # Mains: by an alias, of another type, hidden by one of a part's own, of no part, a variable.
    ("@main = alias i32 (), ptr @start define internal i32 @start() { ret i32 3 }", "define internal i32 @main() { ret i32 4 }"),
    ("define i64 @main() { ret i64 3 }", "define internal i32 @main() { ret i32 4 }"),
    ("define weak i32 @main() { ret i32 3 }", "@main = alias i32 (), ptr @main.1 define i32 @main.1() { ret i32 5 }"),
    ("declare i32 @main()", "define internal i32 @main() { ret i32 4 }"), ("@main = global i32 3", "define internal i32 @main() { ret i32 4 }"),
    ("define i32 @main(i32 %n, ptr %v) { %1 = getelementptr ptr, ptr %v, i32 %n %2 = load ptr, ptr %1 %3 = icmp eq ptr %2, null %4 = zext i1 %3 to i32 %5 = add i32 %4, %n ret i32 %5 }",
     "@main.1 = global i32 1"),
    # What is missing: named by an own function, by an alias's target, by an initialiser, and by what does not count.
    ("declare void @z() @y = external global i32 define internal void @f() { call void @z() ret void } define i32 @main() { ret i32 1 }",
     "@x = global ptr @y @y = external global i32"),
    ("@a = alias i32 (), ptr @f declare i32 @z() define internal i32 @f() { %1 = call i32 @z() ret i32 %1 } define i32 @main() { ret i32 1 }", "declare i32 @a()"),
    ("define weak i32 @f() { %1 = call i32 @z() ret i32 %1 } declare i32 @z() define i32 @main() { %1 = call i32 @f() ret i32 %1 }", "define i32 @f() { ret i32 8 }"),
    ("@\"a b\\FF\" = external global i32 define i32 @main() { %1 = load i32, ptr @\"a b\\ff\" ret i32 %1 }", "declare void @f()"),
    # One variable more than there is room for, of all parts.
    ("@x = global [134217728 x i8] zeroinitializer define i32 @main() { %1 = alloca i8 ret i32 1 }", "@y = global [134217727 x i8] zeroinitializer"),
    ("@x = global [134217728 x i8] zeroinitializer define i32 @main() { %1 = alloca i16 ret i32 1 }", "@y = global [134217727 x i8] zeroinitializer"),
    ("@x = global [134217728 x i8] zeroinitializer define i32 @main(i32 %n, ptr %v) { ret i32 1 }", "@y = global [134217727 x i8] zeroinitializer"),
]


def of_own(_):
    """The rows of this script."""
    return [Case(f"own {number}", list(texts)) for number, texts in enumerate(OWN)]


# ---- parts at random

# What a part may have of a variable and of a function under a name: linkages of declarations, and of definitions.
DECLARED, DEFINED = ["external", "external", "extern_weak"], ["", "weak", "weak_odr", "linkonce", "linkonce_odr", "internal", "private", "available_externally"]
TYPES = ["i8", "i16", "i32", "i64", "i128", "[3 x i16]", "%T", "ptr"]
STRUCTS = ["{ i8, i32 }", "{ i32, i8 }", "<{ i8, i32 }>", "{ i8, i32 }", "{ i8, [2 x i16] }"]


class Chosen:
    """A part at random: a struct, variables, an appended array, a constructor, functions and aliases, of names that other parts have too."""

    def __init__(self, chance, number):
        self.chance, self.number, self.whole, self.has_list = chance, number, {}, chance.below(3) == 0
        lines = [f"%T = type {chance.one_of(STRUCTS)}", PUT]
        self.names = [name for name in ("a", "b", "c", "d") if chance.below(4)] or ["a"]
        lines += [self.variable(name) for name in self.names]
        lines += [self.appended()] if self.has_list else []
        lines += [self.constructor()] if chance.below(3) == 0 else []
        self.functions = [name for name in ("f", "g", "h") if chance.below(4)] or ["f"]
        lines += [self.function(name) for name in self.functions]
        lines += [self.alias(name) for name in ("b", "c", "e", "g", "k") if name not in self.names + self.functions and chance.below(2)]
        self.text = "\n".join(filter(None, lines))

    def linkage(self):
        """Of a definition: one that is external is rare, so that conflicts are."""
        linkage = self.chance.one_of(DEFINED)
        return linkage if linkage or self.chance.below(3) == 0 else self.chance.one_of(DEFINED)

    def variable(self, name):
        ty = self.chance.one_of(TYPES)
        stated = self.chance.one_of(["", "", ", align 1", ", align 4", ", align 32"])
        if self.chance.below(3) == 0:
            return f"@{name} = {self.chance.one_of(DECLARED)} global {ty}{stated}"
        if self.chance.below(5) == 0:
            return f"@{name} = common global {ty} {'null' if ty == 'ptr' else 'zeroinitializer'}{stated}"
        linkage = self.linkage()
        self.whole[name] = linkage in ("", "internal", "private")
        value = self.chance.below(120) if ty[0] == "i" else f"@{self.chance.one_of(self.names)}" if ty == "ptr" else "[i16 1, i16 2, i16 -3]" if ty[0] == "[" else "zeroinitializer"
        return f"@{name} = {linkage} {self.chance.one_of(['global', 'global', 'global', 'constant'])} {ty} {value}{stated}"

    def appended(self):
        """An array that is appended; now and then it has other elements, is constant or is plain, so that there is a conflict."""
        count, which = self.chance.below(3), self.chance.below(12)
        if which == 0:
            return "@list = external global [2 x ptr]"
        ty = "i64" if which == 1 else "ptr"
        elements = ", ".join("i64 65536" if which == 1 else f"ptr @{self.chance.one_of(self.names)}" for _ in range(count))
        return f"@list = appending {'constant' if which == 2 else 'global'} [{count} x {ty}] [{elements}]"

    def constructor(self):
        linkage = self.chance.one_of(["internal", "internal", "weak", "linkonce", "private"])
        body = f"%k = call i32 @putchar(i32 {65 + self.number}) store i8 {self.number + 1}, ptr @{self.chance.one_of(self.names)} ret void"
        return f"{constructors((self.chance.below(3), '@init'))} define {linkage} void @init() {{ {body} }}"

    def function(self, name):
        if self.chance.below(40) == 0:
            return f"@{name} = external global i32"
        if self.chance.below(3) == 0:
            return f"declare {self.chance.one_of(DECLARED)} i32 @{name}(i32)"
        linkage = self.linkage()
        self.whole[name] = linkage in ("", "internal", "private")
        return f"define {linkage} i32 @{name}(i32 %n) {{ %c = icmp sgt i32 %n, 0 br i1 %c, label %go, label %no no: ret i32 {self.chance.below(99)} go: %m = sub i32 %n, 1 {self.statements()} }}"

    def statements(self):
        """Instructions on what the part has by name, and a result that depends on each."""
        found, sum_of = [], "%m"
        for n in range(1 + self.chance.below(5)):
            found.append(self.statement(n))
            found.append(f"%s{n} = add i32 {sum_of}, %x{n} %k{n} = call i32 @putchar(i32 %s{n})")
            sum_of = f"%s{n}"
        return " ".join([*found, f"ret i32 {sum_of}"])

    def statement(self, n):
        variable, function = f"@{self.chance.one_of(self.names)}", f"@{self.chance.one_of(self.functions)}"
        if self.has_list and self.chance.below(3) == 0:
            return f"%p{n} = load ptr, ptr getelementptr (ptr, ptr @list, i64 {self.chance.below(4)}) %l{n} = load i8, ptr %p{n} %x{n} = zext i8 %l{n} to i32"
        return self.chance.one_of([
            f"%x{n} = call i32 {function}(i32 %m)", f"%x{n} = call i32 {function}(i32 %m)", f"%x{n} = ptrtoint ptr {variable} to i32", f"%x{n} = ptrtoint ptr {function} to i32",
            f"%l{n} = load i8, ptr {variable} %x{n} = zext i8 %l{n} to i32", f"%x{n} = load i32, ptr {variable}, align 1", f"store i8 {self.chance.below(100)}, ptr {variable} %x{n} = add i32 %m, 1",
            f"%l{n} = getelementptr %T, ptr {variable}, i64 0, i32 1 %b{n} = load i8, ptr %l{n} %x{n} = sext i8 %b{n} to i32", f"%x{n} = ptrtoint ptr getelementptr (%T, ptr {variable}, i64 1) to i32",
            f"%l{n} = icmp eq ptr {variable}, null %x{n} = zext i1 %l{n} to i32", f"%l{n} = icmp eq ptr {function}, null %x{n} = select i1 %l{n}, i32 7, i32 5"])

    def alias(self, name):
        """An alias of what the part defines, or nothing."""
        targets = [target for target in self.functions + self.names if self.whole.get(target) and (target in self.functions) == (name in "gk")]
        linkage = self.chance.one_of(["", "internal"])
        return f"@{name} = {linkage} alias {'i32 (i32)' if name in 'gk' else 'i8'}, ptr @{self.chance.one_of(targets)}" if targets else ""


def of_random(_):
    """Parts at random; behind them one that defines what is missing, and one whose main calls a function."""
    chance = paths.Chance(20261129)
    for number in range(COUNT):
        texts = [Chosen(chance, part).text for part in range(1 + chance.below(4))]
        more = [defining(Side(texts))] if chance.below(8) else []
        yield Case(f"random {number}", [*texts, *more, "declare i32 @f(i32) define i32 @main() { %r = call i32 @f(i32 3) ret i32 %r }"])


def read(path):
    return pathlib.Path(path).read_bytes().decode("latin-1")


def given_to(program):
    """The words and the input of a program."""
    return tuple(programs.ARGUMENTS.get(program.name, [])), programs.INPUTS.get(program.name, b"")


def of_linked(_):
    """The programs of tests/linked: at each level, in the other order, and with the levels by turns."""
    for program in programs.programs(programs.FOLDERS[1]):
        one, other = [[read(path) for path in program.texts(level)] for level in programs.LEVELS]
        mixed = [[pair[(n + first) % 2] for n, pair in enumerate(zip(one, other))] for first in (0, 1)]
        for which, texts in [("O0", one), ("O2", other), ("O0, turned round", one[::-1]), ("O2, turned round", other[::-1]), ("O0 and O2", mixed[0]), ("O2 and O0", mixed[1])]:
            yield Case(f"linked, {program.name} at {which}", texts, given_to(program))


def of_programs(tool):
    """The programs of tests/programs at both levels, cut in two."""
    for program in programs.programs(programs.FOLDERS[0]):
        for level in programs.LEVELS:
            with tempfile.TemporaryDirectory() as room:
                texts = [read(path) for path in programs.cut([tool, "llvm-extract"], program.texts(level)[0], room)]
            yield Case(f"programs, {program.name} at O{level}", texts, given_to(program))


SETS = {"own": of_own, "random": of_random, "links": of_links, "linked_runs": of_linked_runs, "again": of_again, "running": of_running, "linked": of_linked, "programs": of_programs}


def main(words):
    tool = str(HERE.parents[1] / "ir-tools")
    if words[:1] == ["--tool"]:
        tool, words = str(pathlib.Path(words[1]).resolve()), words[2:]
    differs = False
    for name in words or [name for name in SETS if name != "again"]:
        compared = Compared(tool)
        for case in SETS[name](tool):
            compared.compare(case)
        print(f"{name}: {compared.cases} sets of parts, {compared.conflicts} of them in conflict, {compared.runs} runs compared, {compared.long} programs that take more than {MOST} steps, "
              f"{len(compared.differing)} differences", flush=True)
        differs = differs or bool(compared.differing)
    sys.exit(1 if differs else 0)


if __name__ == "__main__":
    main(sys.argv[1:])
