#!/usr/bin/env python3
"""Writes the rows of linked programs that run among crates/tool_table's stored input and output: texts, the text that `llvm-link -S` makes of
them, and what is told where `lli` runs that; and the rows of programs that print or read more than is held at once.

What the parts are linked to is that of tests/links.py, or written here by hand from docs/linking.md; what a run prints and how it ends is
that of the parts side by side, by hand from docs/running.md. Nothing is taken from the program.

    tests/linked_runs.py            writes the rows
    tests/linked_runs.py --check    tells whether they are what it would write
"""
import re
import sys

sys.dont_write_bytecode = True
import links
import running
from running import GETCHAR, MALLOC, PRINTF, PUTCHAR, PUTS, main_of
from stored import content, printed, store_part

# What the script says of each run, and what is told of it. Runs of one text, `run.ll`, are put there by tests/running.py.
RUNS = running.RUNS


def whole(part):
    """The text of a part: as it is, or of its entries, one a line. A function stands on one line, with ` / ` between its own."""
    return part if isinstance(part, str) else "\n".join(entry.replace(" / ", " ") for entry in part)


def laid_out(entry):
    """The lines of an entry in canonical text. A block begins with its name."""
    function = re.fullmatch(r"(define .*?\)) \{ (.*) \}", entry)
    if not function:
        return [entry]
    lines = [re.sub(r"^(\S+:) ", r"\1\n  ", line) for line in function[2].split(" / ")]
    return [f"{function[1]} {{", *(line if ":\n" in line else f"  {line}" for line in lines), "}"]


def canonical(text):
    """The linked text: as it is, or of its entries."""
    return text if isinstance(text, str) else "".join(f"{line}\n" for entry in text for line in laid_out(entry))


def ends(status, out="", words="linked.ll", given=None, took=None, said=""):
    """A run of what was linked, which ends with a status of its own."""
    return status, "", out, words, given, took, said


def stops(line, out="", words="linked.ll", given=None, took=None, said=""):
    """A run of what was linked, whose end is told by a line."""
    return running.status_of(line), line, out, words, given, took, said


def linked(parts, text, *runs, names=None):
    """Parts, what they are linked to, and runs of that."""
    names = names or [f"{letter}.ll" for letter, _ in zip("abcdef", parts)]
    files = "".join(f"file {name}\n{content(whole(part))}" for name, part in zip(names, parts, strict=True))
    words = f"llvm-link -S -o linked.ll {' '.join(names)}"
    RUNS.append((f"clear\n{files}run {words}\n", f"> {words}\nstatus 0\nfiles {' '.join(names)}\nwrote linked.ll\n{printed(canonical(text).encode())}"))
    for told in runs:
        running.run_of("linked.ll", "", *told)


def rows_of(table):
    """The rows of a table of tests/links.py that have a main: the names of the parts, the parts, and what they are linked to."""
    links.ROWS.clear()
    table()
    return [(names, parts, text) for names, parts, text, _ in links.ROWS if text and "@main()" in text]


def worked():
    """What tests/links.py links, run: names of the parts, the parts, what they are linked to, and runs of that."""
    told = [
        # Two variables that name each other across parts.
        [ends(7)],
        # Each part has its own @f: eight steps, with the returns.
        [ends(3), ends(3, words="--max-steps=8 linked.ll"), stops("steps used up", words="--max-steps=7 linked.ll")],
        # A strong and a weak one, in both orders.
        [ends(2)], [ends(2)],
        # The larger common at the greatest alignment: 65,568 is 32 behind the first variable.
        [ends(32)],
        # Constructors, in both orders of the parts; a write that fails, and one that takes a front.
        [ends(0, "abm"), stops("cannot write -", said="fails output 1\n"), stops("cannot write -", "ab", said="room output 2\n")], [ends(0, "bam")],
        # What may be null: alone it is, else it is what another part defines.
        [ends(5)], [ends(8)], [ends(8)],
        # A main that a part keeps to itself is none.
        [ends(6), ends(6, words="linked.ll and more words")],
        # Structs of one name; a call by a struct of another name and the same shape.
        [ends(9)],
        # A name inside another variable's initialiser, and a name that would be an intrinsic's.
        [ends(2)], [ends(2)],
        # Aliases: of a function before and behind a weak one of the name, of a variable that is written by its alias, and one that is renamed.
        [ends(2)], [ends(2)], [ends(6)], [ends(2)],
        # What was cut in two.
        [ends(7)],
    ]
    rows = [row for table in (links.worked, links.aliases, links.ends) for row in rows_of(table)]
    return [(*row, runs) for row, runs in zip(rows, told, strict=True)]


def again():
    """What tests/links.py links, and what is not linked."""
    for names, parts, text, runs in worked():
        linked(parts, text, *runs, names=names)
    # Where there is a conflict no file is written, so none can be run.
    RUNS.append(("clear\nfile x.ll\n+ @x = global i32 1\nfile y.ll\n+ @x = global i32 2\nrun llvm-link x.ll y.ll -o z.bc\n",
                 "> llvm-link x.ll y.ll -o z.bc\nstatus 1\nfiles x.ll y.ll\nerrors\n| llvm-link: conflict: two strong: @x in x.ll and y.ll\n"))
    RUNS.append(("run lli z.bc\n", "> lli z.bc\nstatus 1\nfiles z.bc\nerrors\n| lli: cannot read z.bc\n"))
    # The local main before and behind the other.
    local, main = "define internal i32 @main() { 0: ret i32 1 }", "define i32 @main() { 0: ret i32 6 }"
    linked([[main], [local]], [main, local.replace("@main", "@main.1")], ends(6))
    linked([[local]], [local], stops("no main"))


def winners():
    """A function and a variable that several parts define: each part has the definition of greatest rank, and of equals the first."""
    main = "define i32 @main() { 0: %1 = call i32 @f() / %2 = load i32, ptr @v / %3 = mul i32 %1, 10 / %4 = add i32 %3, %2 / ret i32 %4 }"

    def part(n, linkage):
        return [f"@v = {linkage}global i32 {n}", f"define {linkage}i32 @f() {{ 0: ret i32 {n} }}"]

    once, weak, odr, strong, last = part(1, "linkonce "), part(2, "weak "), part(3, "weak_odr "), part(4, ""), part(5, "linkonce_odr ")
    for others, best in [([], once), ([last], once), ([weak, odr], weak), ([odr, weak], odr), ([weak, strong, last], strong)]:
        linked([[*once, main], *others], [*best, main], ends(11 * int(best[0][-1])))
    # A common variable comes before a weak one, and behind a strong one.
    common = "@v = common global i32 0"
    linked([[*once, main], weak, [common]], [common, weak[1], main], ends(20))
    linked([[*odr, main], [common], strong], [*strong, main], ends(44))


def commons():
    """The largest common gives the room, and a definition that is none may give more."""
    main = "define i32 @main() { 0: store i64 -1, ptr @c, align 4 / %1 = load i32, ptr getelementptr (i8, ptr @c, i64 4) / %2 = and i32 %1, 77 / ret i32 %2 }"
    small = ["@c = common global i32 0", main]
    linked([small], small, stops("undefined: outside a block"))
    linked([small, ["@c = weak global i64 1"]], small, stops("undefined: outside a block"))
    linked([small, ["@c = common global [3 x i32] zeroinitializer"]], ["@c = common global [3 x i32] zeroinitializer, align 4", main], ends(77))
    linked([["@c = global [2 x i32] [i32 5, i32 6]"], small], ["@c = global [2 x i32] [i32 5, i32 6]", main], ends(77))


def own():
    """Names that each part keeps to itself: variables, functions and texts."""

    def step(name, variable, by):
        return f"define internal i32 @{name}() {{ 0: %1 = load i32, ptr @{variable} / %2 = add i32 %1, {by} / store i32 %2, ptr @{variable} / ret i32 %2 }}"

    def gives(name, callee):
        return f"define i32 @{name}() {{ 0: %1 = call i32 @{callee}() / ret i32 %1 }}"

    # Each counts for itself: 11, 22, 12, 24. The variable @next of the last part keeps its name, since variables come first.
    main = ("define i32 @main() { 0: %1 = call i32 @next() / %2 = call i32 @other() / %3 = call i32 @next() / %4 = call i32 @other() / "
            "%5 = mul i32 %3, 5 / %6 = add i32 %5, %4 / %7 = call i32 @third() / %8 = add i32 %6, %7 / ret i32 %8 }")
    third = "define i32 @third() { 0: %1 = load i32, ptr @next / ret i32 %1 }"
    linked([["@n = internal global i32 10", step("next", "n", 1), main, "declare i32 @other()", "declare i32 @third()"],
            ["@n = internal global i32 20", step("next", "n", 2), gives("other", "next")],
            ["@next = internal global i32 5", third]],
           ["@n = internal global i32 10", "@n.1 = internal global i32 20", "@next = internal global i32 5",
            step("next.1", "n", 1), main.replace("@next", "@next.1"), gives("other", "next.2"), third, step("next.2", "n.1", 2)],
           ends(89))
    # Three parts with a function of one name, and others that have the first new names.
    main = ("define i32 @main() { 0: %1 = call i32 @f() / %2 = call i32 @g() / %3 = call i32 @h() / %4 = mul i32 %2, 10 / %5 = mul i32 %3, 100 / "
            "%6 = add i32 %1, %4 / %7 = add i32 %6, %5 / ret i32 %7 }")

    def gives_number(name, n, linkage="internal "):
        return f"define {linkage}i32 @{name}() {{ 0: ret i32 {n} }}"

    first, second = gives_number("f.1", 40, ""), gives_number("f.2", 41, "")
    linked([[gives_number("f", 3), main, "declare i32 @g()", "declare i32 @h()"], [gives_number("f", 5), gives("g", "f"), first], [second, gives_number("f", 1), gives("h", "f")]],
           [gives_number("f", 3), main, gives("g", "f.3"), gives("h", "f.4"), gives_number("f.3", 5), first, second, gives_number("f.4", 1)], ends(153))
    # Texts of one name, and printf from both parts.
    one, two, short, long = ('private constant [4 x i8] c"one\\00"', 'private constant [4 x i8] c"two\\00"',
                             'private constant [7 x i8] c"%s %d\\0A\\00"', 'private constant [8 x i8] c"[%s|%d]\\00"')

    def prints(head, tail, f, s, n):
        return f"define i32 @{head}() {{ 0: %1 = call i32 (ptr, ...) @printf(ptr @{f}, ptr @{s}, i32 {n}) / {tail} }}"

    call, back = "%2 = call i32 @say() / %3 = add i32 %1, %2 / ret i32 %3", "ret i32 %1"
    first = [f"@s = {one}", f"@f = {short}", PRINTF, prints("main", call, "f", "s", 1), "declare i32 @say()"]
    second = [f"@s = {two}", f"@f = {long}", prints("say", back, "f", "s", 2), PRINTF]
    linked([first, second], [f"@s = {one}", f"@f = {short}", f"@s.1 = {two}", f"@f.1 = {long}", PRINTF, prints("main", call, "f", "s", 1), prints("say", back, "f.1", "s.1", 2)],
           ends(13, "one 1\n[two|2]"), stops("cannot write -", "one 1\n[tw", said="room output 9\n"))
    linked([second, first], [f"@s = {two}", f"@f = {long}", f"@s.1 = {one}", f"@f.1 = {short}", prints("say", back, "f", "s", 2), PRINTF, prints("main", call, "f.1", "s.1", 1)],
           ends(13, "one 1\n[two|2]"))


def constructors():
    """Constructors of three parts, by priority and then by the order of the parts; a null is passed over."""

    def array(*rows):
        elements = ", ".join(f"{{ i32, ptr, ptr }} {{ i32 {n}, ptr {function}, ptr null }}" for n, function in rows)
        return f"@llvm.global_ctors = appending global [{len(rows)} x {{ i32, ptr, ptr }}] [{elements}]"

    def letter(name, c, head="internal void", tail="ret void"):
        return f"define {head} @{name}() {{ 0: %1 = call i32 @putchar(i32 {ord(c)}) / {tail} }}"

    last, main = letter("soon", "b"), letter("main", "m", "i32", "ret i32 0")
    a = [array((65535, "@init"), (100, "@soon")), letter("init", "a"), last, PUTCHAR]
    b = [array((100, "@init"), (7, "null")), PUTCHAR, letter("init", "c")]
    c = [array((0, "@init")), letter("init", "d"), main, PUTCHAR]
    linked([a, b, c], [array((65535, "@init"), (100, "@soon"), (100, "@init.1"), (7, "null"), (0, "@init.2")),
                       letter("init", "a"), last, PUTCHAR, letter("init.1", "c"), letter("init.2", "d"), main], ends(0, "dbcam"))
    linked([c, b, a], [array((0, "@init"), (100, "@init.1"), (7, "null"), (65535, "@init.2"), (100, "@soon")),
                       letter("init", "d"), main, PUTCHAR, letter("init.1", "c"), letter("init.2", "a"), last], ends(0, "dcbam"))
    # One of another type ends the run before main, and before those behind it.
    wrong = [array((50, "@wrong")), "define i32 @wrong() { 0: ret i32 0 }"]
    linked([c, wrong, a], [array((0, "@init"), (50, "@wrong"), (65535, "@init.1"), (100, "@soon")),
                           letter("init", "d"), main, PUTCHAR, wrong[1], letter("init.1", "a"), last], stops("undefined: another function type", "d"))


def aliases():
    """Aliases across parts, of what a part keeps to itself."""
    main = ("define i32 @main() { 0: store i32 7, ptr @v / %1 = call i32 @twice(i32 21) / %2 = call i32 @read() / %3 = load i32, ptr @w / "
            "%4 = add i32 %1, %2 / %5 = add i32 %4, %3 / ret i32 %5 }")
    twice, double = "@twice = alias i32 (i32), ptr @double", "define internal i32 @double(i32 %x) { 0: %1 = add i32 %x, %x / ret i32 %1 }"
    read = "define i32 @read() { 0: %1 = load i32, ptr @w / ret i32 %1 }"
    linked([["@v = external global i32", "@w = internal global i32 9", main, "declare i32 @twice(i32)", "declare i32 @read()"],
            ["@w = internal global i32 5", "@v = alias i32, ptr @w", twice, double, read]],
           ["@w = internal global i32 9", "@w.1 = internal global i32 5", "@v = alias i32, ptr @w.1", twice, main, read.replace("@w", "@w.1"), double], ends(58))
    # One of them is main, and another part has a weak one.
    weak, start = "define weak i32 @main() { 0: ret i32 1 }", "define internal i32 @start() { 0: ret i32 3 }"
    first = ["@main = alias i32 (), ptr @start", "define internal i32 @start() { 0: %1 = call i32 @f() / ret i32 %1 }", "declare i32 @f()"]
    second = [start, "define i32 @f() { 0: %1 = call i32 @start() / ret i32 %1 }"]
    text = [*first[:2], second[1].replace("@start", "@start.1"), start.replace("@start", "@start.1")]
    linked([first, second], text, ends(3))
    linked([[weak], first, second], text, ends(3))
    linked([first], first, stops("unresolved @f"))


def maybe():
    """What may be null, stays so where each part says so, and is not there where one asks for it."""
    main = ("define i32 @main() { 0: %1 = icmp eq ptr @hook, null / br i1 %1, label %none, label %some / some: %2 = call i32 @hook() / ret i32 %2 / "
            "none: %3 = icmp eq ptr @opt, null / %4 = select i1 %3, i32 5, i32 6 / ret i32 %4 }")
    opt, hook, there, asks = "@opt = extern_weak global i32", "declare extern_weak i32 @hook()", "@opt = linkonce global i32 8", "define linkonce_odr i32 @hook() { 0: ret i32 40 }"
    first = [opt, main, hook]
    linked([first, ["@opt = extern_weak global i64", "declare extern_weak void @hook()"]], first, ends(5))
    linked([first, [there]], [there, main, hook], ends(6))
    linked([first, [asks]], [opt, main, asks], ends(40))
    linked([first, ["declare i32 @hook()"]], [opt, main, "declare i32 @hook()"], stops("unresolved @hook"))


def elsewhere():
    """What is available_externally is no definition: another part has it, the host has it, or it is missing."""
    main = "define i32 @main() { 0: %1 = call i32 @f() / %2 = load i32, ptr @v / %3 = mul i32 %1, 10 / %4 = add i32 %3, %2 / ret i32 %4 }"
    first = ["@v = available_externally global i32 1", "define available_externally i32 @f() { 0: ret i32 1 }", main]
    variable, function = "@v = weak global i32 4", "define linkonce i32 @f() { 0: ret i32 3 }"
    linked([first], ["@v = external global i32", "declare i32 @f()", main], stops("unresolved @v"))
    linked([first, [variable]], [variable, "declare i32 @f()", main], stops("unresolved @f"))
    linked([first, [variable], [function]], [variable, function, main], ends(34))
    main = "define i32 @main() { 0: %1 = call i32 @putchar(i32 65) / ret i32 %1 }"
    linked([["define available_externally i32 @putchar(i32 %c) { 0: ret i32 7 }", main], [PUTCHAR]], [PUTCHAR, main], ends(65, "A"))


def structs():
    """Structs of one name and unlike bodies: each part reads memory by its own, and a call needs one shape."""
    struct, other = "%pair = type { i32, i8 }", "%pair = type { i8, i32 }"
    main = "define i32 @main() { 0: %1 = call i32 @read(ptr @p) / ret i32 %1 }"
    read = ("define i32 @read(ptr %p) {{ 0: %1 = load i8, ptr %p / %2 = getelementptr {}, ptr %p, i64 0, i32 1 / %3 = load i32, ptr %2 / "
            "%4 = zext i8 %1 to i32 / %5 = mul i32 %4, 10 / %6 = add i32 %5, %3 / ret i32 %6 }}")
    # 258 has the low byte 2; behind the 3 the bytes are zero.
    value = "@p = global %pair { i32 258, i8 3 }"
    linked([[struct, value, main, "declare i32 @read(ptr)"], [other, read.format("%pair")]],
           [struct, other.replace("%pair", "%pair.1"), value, main, read.format("%pair.1")], ends(23))
    main = "define i32 @main() { 0: %1 = call i32 @take(%pair { i32 4, i8 2 }) / ret i32 %1 }"
    take = "define i32 @take({0} %x) {{ 0: %1 = extractvalue {0} %x, {1} / ret i32 %1 }}"
    linked([[struct, main, "declare i32 @take(%pair)"], [struct, take.format("%pair", 0)]], [struct, main, take.format("%pair", 0)], ends(4))
    linked([[struct, main, "declare i32 @take(%pair)"], [other, take.format("%pair", 1)]],
           [struct, other.replace("%pair", "%pair.1"), main, take.format("%pair.1", 1)], stops("undefined: another function type"))


def hosts():
    """A part's definition stands for the host's in each part, one of its own in that part alone."""
    text = '@s = private constant [2 x i8] c"A\\00"'
    main = "define i32 @main() { 0: %1 = call i32 @puts(ptr @s) / %2 = call i32 @putchar(i32 66) / %3 = call i32 @own() / %4 = add i32 %1, %3 / ret i32 %4 }"
    puts = "define i32 @puts(ptr %s) { 0: %1 = load i8, ptr %s / %2 = zext i8 %1 to i32 / %3 = call i32 @putchar(i32 %2) / ret i32 50 }"
    mine, calls = "define internal i32 @putchar(i32 %c) { 0: ret i32 9 }", "define i32 @own() { 0: %1 = call i32 @putchar(i32 67) / ret i32 %1 }"
    first, renamed = [text, PUTS, PUTCHAR, main, "declare i32 @own()"], [it.replace("@putchar", "@putchar.1") for it in (calls, mine)]
    linked([first, [puts, PUTCHAR], [mine, calls]], [text, puts, PUTCHAR, main, *renamed], ends(59, "AB"))
    linked([first, [mine, calls]], [text, PUTS, PUTCHAR, main, *renamed], ends(9, "A\nB"))


def traffic():
    """Parts that read and print by turns share one input and one output; the words are main's, wherever it stands."""
    main = ("define i32 @main(i32 %n, ptr %v) { 0: br label %next / next: %c = call i32 @getchar() / %end = icmp slt i32 %c, 0 / br i1 %end, label %done, label %one / "
            "one: call void @take(i32 %c) / br label %next / done: %k = call i32 @taken() / %t = mul i32 %n, 10 / %r = add i32 %t, %k / ret i32 %r }")
    # Prints a letter in the other case, and passes over the byte behind it.
    take = ("define void @take(i32 %c) { 0: %1 = xor i32 %c, 32 / %2 = call i32 @putchar(i32 %1) / %3 = call i32 @getchar() / "
            "%4 = load i32, ptr @k / %5 = add i32 %4, 1 / store i32 %5, ptr @k / ret void }")
    taken = "define i32 @taken() { 0: %1 = load i32, ptr @k / ret i32 %1 }"
    linked([[GETCHAR, "declare void @take(i32)", "declare i32 @taken()", main], [PUTCHAR, "@k = internal global i32 0", GETCHAR, take, taken]],
           ["@k = internal global i32 0", GETCHAR, take, taken, main, PUTCHAR],
           ends(10, given="", took=0), ends(10, given="", took=0, words="--max-steps=10 linked.ll"), stops("steps used up", given="", took=0, words="--max-steps=9 linked.ll"),
           ends(33, "HEY", words="linked.ll x y", given="h.e.y", took=5), ends(23, "HEY", words='linked.ll ""', given="h.e.y.", took=6, said="piece 1\n"),
           # A read fails in one part, and in the other, each behind the output so far; a write fails before the second read.
           stops("cannot read -", "H", given="h.e.y", took=2, said="piece 2\nfails input 2\n"), stops("cannot read -", "H", given="h.e.y", took=1, said="piece 1\nfails input 2\n"),
           stops("cannot write -", given="h.e.y", took=1, said="piece 1\nfails output 1\n"), stops("cannot write -", took=65536, said=LARGE_INPUT + "fails output 1\n"))


def kinds():
    """What a definition is counts, not what other parts declare: constants, and types of functions."""
    main = "define i32 @main() { 0: store i32 6, ptr @k / %1 = load i32, ptr @k / ret i32 %1 }"
    for declared, defined, told in [("@k = external global i32", "@k = constant i32 5", stops("undefined: write to constant")), ("@k = external constant i32", "@k = global i32 5", ends(6))]:
        linked([[declared, main], [defined]], [defined, main], told)
    main = "define i32 @main() { 0: %1 = call i64 @f(i64 5) / %2 = trunc i64 %1 to i32 / ret i32 %2 }"
    for ty, told in [("i32", stops("undefined: another function type")), ("i64", ends(5))]:
        f = f"define {ty} @f({ty} %x) {{ 0: ret {ty} %x }}"
        linked([["declare i64 @f(i64)", main], [f]], [f, main], told)


def missing():
    """Names that no part has: variables first, and only where what counts names them."""
    main, late = "define i32 @main() { 0: %1 = call i32 @g() / %2 = call i32 @late() / %3 = add i32 %1, %2 / ret i32 %3 }", "define i32 @late() { 0: ret i32 4 }"
    weak, strong = "define weak i32 @g() { 0: %1 = load i32, ptr @x / ret i32 %1 }", "define i32 @g() { 0: ret i32 50 }"
    a, b, x = [main, "declare i32 @g()", "declare i32 @late()"], ["@x = external global i32", weak], "@x = global i32 30"
    linked([a, b], ["@x = external global i32", main, weak, "declare i32 @late()"], stops("unresolved @x"))
    linked([a, b, [x]], [x, main, weak, "declare i32 @late()"], stops("unresolved @late"))
    linked([a, b, [x], [late]], [x, main, weak, late], ends(34))
    linked([a, b, [strong, late]], ["@x = external global i32", main, strong, late], ends(54))


def places():
    """Variables and functions lie in the order of symbols, that of first entries, whichever part defines them."""
    f, g = "define i32 @f() { 0: ret i32 1 }", "define i32 @g() { 0: ret i32 2 }"
    main = ("define i32 @main() { 0: %1 = ptrtoint ptr @c to i32 / %2 = ptrtoint ptr @b to i32 / %3 = sub i32 %1, %2 / "
            "%4 = ptrtoint ptr @main to i32 / %5 = ptrtoint ptr @f to i32 / %6 = sub i32 %4, %5 / %7 = add i32 %3, %6 / ret i32 %7 }")
    first, second = ["@b = external global i64", "@a = global i8 1", f, "declare i32 @g()"], ["@c = global i8 3", "@b = global i64 2", main, g, "declare i32 @f()"]
    # b at 65,536, a at 65,560, c at 65,577: 41; main 32 behind f.
    linked([first, second], ["@b = global i64 2", "@a = global i8 1", "@c = global i8 3", f, g, main], ends(73))
    # c at 65,536, b at 65,560: -24; f 32 behind main.
    linked([second, first], ["@c = global i8 3", "@b = global i64 2", "@a = global i8 1", main, g, f], ends(200))


def tables():
    """Functions that one part calls by the other's table, which names what it keeps to itself."""
    op, given = "define internal i32 @op(i32 %x) { 0: %1 = add i32 %x, 1 / ret i32 %1 }", "define i32 @given(i32 %x) { 0: %1 = call i32 @op(i32 %x) / ret i32 %1 }"
    main = ("define i32 @main() { 0: %1 = load ptr, ptr @table / %2 = call i32 %1(i32 5) / %3 = load ptr, ptr getelementptr (ptr, ptr @table, i64 1) / "
            "%4 = call i32 %3(i32 5) / %5 = mul i32 %2, 10 / %6 = add i32 %5, %4 / ret i32 %6 }")
    table, other = "@table = constant [2 x ptr] [ptr @op, ptr @given]", "define internal i32 @op(i32 %x) { 0: %1 = mul i32 %x, 3 / ret i32 %1 }"
    linked([["@table = external constant [2 x ptr]", op, given, main], [table, other, "declare i32 @given(i32)"]],
           [table.replace("@op", "@op.1"), op, given, main, other.replace("@op", "@op.1")], ends(156))


def limits():
    """Bytes, frames and steps of all parts together."""
    main = "define i32 @main() { 0: %1 = load i8, ptr @x / %2 = zext i8 %1 to i32 / ret i32 %2 }"
    x, y, z = "@x = global [134217728 x i8] zeroinitializer", "@y = global [134217728 x i8] zeroinitializer", "@z = global i8 0"
    # What does not count takes no room.
    linked([[x, main], ["@x = weak global [268435456 x i8] zeroinitializer", y]], [x, y, main], ends(0))
    linked([[x, main], [y], [z]], [x, y, z, main], stops("memory limit"))

    def turn(name, other, last):
        return (f"define i32 @{name}(i32 %n) {{ 0: %c = icmp eq i32 %n, 0 / br i1 %c, label %z, label %s / z: ret i32 {last} / "
                f"s: %m = sub i32 %n, 1 / %r = call i32 @{other}(i32 %m) / ret i32 %r }}")

    # Each of the frames weighs 5, and main 2: there is room for 838,860 of them.
    for n in [1, 838859, 838860]:
        main = f"define i32 @main() {{ 0: %r = call i32 @even(i32 {n}) / ret i32 %r }}"
        runs = [ends(9), ends(9, words="--max-steps=10 linked.ll"), stops("steps used up", words="--max-steps=9 linked.ll")] if n == 1 else [ends(9)] if n % 2 else [stops("stack limit")]
        linked([[turn("even", "odd", 1), "declare i32 @odd(i32)", main], [turn("odd", "even", 9), "declare i32 @even(i32)"]], [turn("even", "odd", 1), turn("odd", "even", 9), main], *runs)


def halts():
    """A part that ends the run, with what was put out before it."""
    main = "define i32 @main() { 0: %1 = call i32 @putchar(i32 97) / call void @stop() / ret i32 1 }"
    first = [PUTCHAR, main, "declare void @stop()"]
    stop = "define void @stop() { 0: %1 = call i32 @putchar(i32 98) / call void @exit(i32 300) / unreachable }"
    linked([first, ["declare void @exit(i32)", stop, PUTCHAR]], [PUTCHAR, main, stop, "declare void @exit(i32)"],
           ends(44, "ab"), stops("cannot write -", said="fails output 1\n"), stops("cannot write -", "a", said="room output 1\n"), ends(44, "ab", said="fails output 2\n"))
    stop = "define void @stop() { 0: %1 = call i32 @putchar(i32 99) / unreachable }"
    linked([first, [stop, PUTCHAR]], [PUTCHAR, main, stop], stops("undefined: unreachable", "ac"))
    stop = "define weak void @stop() { 0: call void @abort() / unreachable }"
    linked([first, ["declare void @abort()", stop]], [PUTCHAR, main, stop, "declare void @abort()"], ends(134, "a"))


def alone():
    """Programs of one text."""
    # A sum loop as clang prints it: 7 steps in the entry, 6 times 3, 5 times 5, 5 times 4, and 2.
    running.ends(SUM, 10)
    running.ends(SUM, 10, words="--max-steps=72 run.ll")
    running.stops(SUM, "steps used up", words="--max-steps=71 run.ll")
    running.ends("@opt = extern_weak global i32 define i32 @main() { %1 = icmp eq ptr @opt, null br i1 %1, label %2, label %3 2: ret i32 5 3: %4 = load i32, ptr @opt ret i32 %4 }", 5)
    running.ends(main_of("%1 = mul i128 170141183460469231731687303715884105728, 2 %2 = icmp eq i128 %1, 0 %3 = select i1 %2, i32 3, i32 4 ret i32 %3"), 3)
    running.ends("declare ptr @malloc(i64) declare ptr @memset(ptr, i32, i64) declare ptr @memcpy(ptr, ptr, i64) declare void @free(ptr) define i32 @main() { "
                 "%1 = call ptr @malloc(i64 4) %2 = call ptr @memset(ptr %1, i32 1, i64 4) %3 = alloca i32 %4 = call ptr @memcpy(ptr %3, ptr %1, i64 4) call void @free(ptr %1) %5 = load i32, ptr %3 ret i32 %5 }", 1)
    running.ends("@x = global i32 5 @y = alias i32, ptr @x define i32 @main() { store i32 6, ptr @y %1 = load i32, ptr @x ret i32 %1 }", 6)


SUM = """; ModuleID = 'sum.c'
source_filename = "sum.c"
target datalayout = "e-m:e-p270:32:32-p271:32:32-p272:64:64-i64:64-i128:128-f80:128-n8:16:32:64-S128"
target triple = "x86_64-unknown-linux-gnu"
define dso_local i32 @main() #0 {
  %1 = alloca i32, align 4
  %2 = alloca i32, align 4
  %3 = alloca i32, align 4
  store i32 0, ptr %1, align 4
  store i32 0, ptr %2, align 4
  store i32 0, ptr %3, align 4
  br label %4
4:                                    ; preds = %11, %0
  %5 = load i32, ptr %3, align 4
  %6 = icmp slt i32 %5, 5
  br i1 %6, label %7, label %14
7:
  %8 = load i32, ptr %3, align 4
  %9 = load i32, ptr %2, align 4
  %10 = add nsw i32 %9, %8
  store i32 %10, ptr %2, align 4
  br label %11
11:
  %12 = load i32, ptr %3, align 4
  %13 = add nsw i32 %12, 1
  store i32 %13, ptr %3, align 4
  br label %4, !llvm.loop !2
14:
  %15 = load i32, ptr %2, align 4
  ret i32 %15
}
attributes #0 = { noinline nounwind optnone uwtable "frame-pointer"="all" }
!llvm.module.flags = !{!0}
!0 = !{i32 1, !"wchar_size", i32 4}
!2 = distinct !{!2, !3}
!3 = !{!"llvm.loop.mustprogress"}
"""

# What is held, and what is read at once. Then 200,000 bytes, no two lines of which are alike, and how the script says them.
FULL = 65536
LARGE = "".join(f"{n}abcd\n" for n in range(10000, 30000))
LARGE_INPUT = "input\neach 10000 30000 #abcd\\x0a\n"
ROOM = "room output 1000000\n"
COPY = ("declare i32 @getchar() declare i32 @putchar(i32) define i32 @main() { br label %l l: %1 = call i32 @getchar() %2 = icmp slt i32 %1, 0 br i1 %2, label %e, label %p "
        "p: %3 = call i32 @putchar(i32 %1) br label %l e: ret i32 0 }")


def fills(count):
    """A program that prints so many bytes, one by one."""
    return main_of(f"br label %l l: %i = phi i32 [ 0, %0 ], [ %j, %l ] %x = call i32 @putchar(i32 65) %j = add i32 %i, 1 %c = icmp eq i32 %j, {count} br i1 %c, label %e, label %l e: ret i32 3", PUTCHAR)


def much_output():
    """Output is written when 65,536 bytes are there, all of them at once."""
    running.stops(fills(200000), "cannot write -", out=2 * FULL * "A", said=ROOM + "fails output 3\n")
    # Where exactly so many were put no write comes behind the first.
    running.ends(fills(FULL), 3, out=FULL * "A", said="fails output 2\n")
    # What is never asked for, nor ended, is written on the way: the write that fails is made in step 131,072 of 2^32.
    running.stops(main_of("br label %l l: %1 = call i32 @putchar(i32 65) br label %l", PUTCHAR), "cannot write -", words="--max-steps=4294967296 run.ll", said=ROOM + "fails output 1\n")
    # 100,000 bytes by one call, behind one that is held.
    large = "%x = call i32 @putchar(i32 120) %p = call ptr @malloc(i64 100001) %q = call ptr @memset(ptr %p, i32 65, i64 100000)"
    before = [PUTCHAR, PUTS, PRINTF, MALLOC, "declare ptr @memset(ptr, i32, i64)", '@f = constant [3 x i8] c"%s\\00"']
    for call in ["@puts(ptr %p)", "(ptr, ...) @printf(ptr @f, ptr %p)"]:
        text = main_of(f"{large} %r = call i32 {call} ret i32 0", *before)
        running.stops(text, "cannot write -", out="xAAAA", said="room output 5\n")
        running.stops(text, "cannot write -", said="fails output 1\n")


def much_input():
    """Input is read by at most 65,536 bytes, where none are there, and no more once a read gave none; what was put out before is written first."""
    # Four reads of 200,000 bytes, and one that gives none; three writes of 65,536, and one of the rest before the last read.
    running.ends(COPY, 0, out=LARGE, took=200000, said=LARGE_INPUT + ROOM + "fails input 6\nfails output 5\n")
    running.stops(COPY, "cannot write -", took=FULL, said=LARGE_INPUT + ROOM + "fails output 1\n")
    running.stops(COPY, "cannot write -", out=LARGE[:FULL], took=2 * FULL, said=LARGE_INPUT + ROOM + "fails output 2\n")
    running.stops(COPY, "cannot read -", out=LARGE[:FULL], took=FULL, said=LARGE_INPUT + ROOM + "fails input 2\n")
    running.stops(COPY, "cannot read -", out="hi", given="hi", took=2, said="fails input 2\n")
    # All bytes counted and summed.
    counts = main_of("br label %l l: %n = phi i32 [ 0, %0 ], [ %m, %p ] %s = phi i32 [ 0, %0 ], [ %t, %p ] %c = call i32 @getchar() %z = icmp slt i32 %c, 0 br i1 %z, label %e, label %p "
                     "p: %m = add i32 %n, 1 %t = add i32 %s, %c br label %l e: %x = call i32 (ptr, ...) @printf(ptr @f, i32 %n, i32 %s) ret i32 %x", GETCHAR, PRINTF, '@f = constant [7 x i8] c"%d %d\\0A\\00"')
    told = f"200000 {sum(LARGE.encode())}\n"
    for said in ["fails input 6\n", "piece 1000\nfails input 202\n", "piece 1\n"]:
        running.ends(counts, len(told), out=told, took=200000, said=LARGE_INPUT + said)
    for said, took in [("fails input 1\n", 0), ("fails input 4\n", 3 * FULL), ("fails input 5\n", 200000), ("piece 1000\nfails input 66\n", 65000), ("piece 1000\nfails input 201\n", 200000)]:
        running.stops(counts, "cannot read -", took=took, said=LARGE_INPUT + said)
    # A program that asks for so many bytes loses no more than the reads that these take, and gives the last of them.
    for count, took in [(1, FULL), (FULL, FULL), (FULL + 1, 2 * FULL), (200000, 200000)]:
        text = main_of(f"br label %l l: %i = phi i32 [ 0, %0 ], [ %j, %l ] %b = call i32 @getchar() %j = add i32 %i, 1 %c = icmp eq i32 %j, {count} br i1 %c, label %e, label %l e: ret i32 %b", GETCHAR)
        running.ends(text, ord(LARGE[count - 1]), took=took, said=LARGE_INPUT + "fails input 5\n")


def turns():
    """Output is written before a read, and not before a getchar that finds a byte, or the end that was found before."""
    text = main_of("%1 = call i32 @putchar(i32 63) %2 = call i32 @getchar() %3 = call i32 @putchar(i32 33) %4 = call i32 @getchar() %5 = call i32 @putchar(i32 46) ret i32 %4", PUTCHAR, GETCHAR)
    # Two bytes come by one read: `?` is written before it, and the rest at the end.
    running.ends(text, 98, out="?!.", given="ab", took=2, said="fails output 3\n")
    running.stops(text, "cannot write -", out="?", given="ab", took=2, said="fails output 2\n")
    running.stops(text, "cannot write -", out="?!", given="ab", took=2, said="room output 2\n")
    running.stops(text, "cannot write -", given="ab", said="fails output 1\n")
    running.stops(text, "cannot read -", out="?", given="ab", took=0, said="fails input 1\n")
    # Two reads, each behind a write.
    running.ends(text, 98, out="?!.", given="ab", took=2, said="piece 1\nfails output 4\n")
    running.stops(text, "cannot write -", out="?!", given="ab", took=2, said="piece 1\nfails output 3\n")
    running.stops(text, "cannot write -", out="?", given="ab", took=1, said="piece 1\nfails output 2\n")
    running.stops(text, "cannot read -", out="?!", given="ab", took=1, said="piece 1\nfails input 2\n")
    # No read behind one that gave nothing, and so no write before it.
    running.ends(text, 255, out="?!.", given="", took=0, said="fails input 2\nfails output 3\n")
    running.stops(text, "cannot write -", out="?", given="", took=0, said="fails output 2\n")
    running.stops(text, "cannot read -", out="?!", given="a", took=1, said="fails input 2\n")
    running.ends(text, 255, out="?!.", given="a", took=1, said="fails input 3\nfails output 4\n")


def parted():
    """What was cut in two is linked again, and runs as before."""
    first = ["@v = external global i32", "define i32 @h() { 0: ret i32 3 }", "define i32 @f() { 0: %1 = call i32 @h() / %2 = load i32, ptr @v / %3 = add i32 %1, %2 / ret i32 %3 }"]
    main = "define i32 @main() { 0: %1 = call i32 @f() / ret i32 %1 }"
    linked([first, ["@v = global i32 4", "declare i32 @f()", main]], ["@v = global i32 4", *first[1:], main], ends(7))


TABLES = [again, winners, commons, own, constructors, aliases, maybe, elsewhere, structs, hosts, traffic, kinds, missing, places, tables, limits, parted, halts, alone, much_output, much_input, turns]


def main():
    for table in TABLES:
        table()
    store_part("linked_runs", RUNS)


if __name__ == "__main__":
    main()
