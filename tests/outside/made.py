"""Parts at random, for tests/outside/regroup.py. Parts of one set share a few names, so that
linkages of every kind meet, and names that a linker has to make up are taken now and then.

Each entry is one line. Each part prints what it sees, in a function of its own (`@p0`, `@p1` and
so on): where each of its names is, what is there, and what each of its functions returns. One part
has the `main` that calls these.
"""

VARIABLES = ["a", "b", "c", "a.1", "b.1", "a.2", "a.1.1"]
FUNCTIONS = ["f", "g", "f.1", "g.1"]
LISTS = ["list", "list.1"]
# A function of the host, which parts may define as well.
HOST = "puts"
TYPES = ["i8", "i16", "i32", "i32", "i64", "i128", "ptr", "ptr", "[3 x i16]", "%T", "%U"]
# Bodies of structs, with a value each.
BODIES = {"{ i8, i32 }": "{ i8 #, i32 % }", "{ i32, i8 }": "{ i32 #, i8 % }",
          "<{ i8, i32 }>": "<{ i8 #, i32 % }>",
          "{ i8, [2 x i16] }": "{ i8 #, [2 x i16] [i16 %, i16 %] }"}
OPAQUE = ["opaque", "opaque", "{ i8 }", "{ %T }"]
DEFINED = ["", "weak", "weak_odr", "linkonce", "linkonce_odr", "internal", "private",
           "available_externally"]
SHARED = ["", "weak", "weak_odr", "linkonce", "linkonce_odr"]
LOCAL, STRONG = ("internal", "private"), ("", "internal", "private")
ALIGNMENTS = ["", "", "", ", align 1", ", align 8", ", align 32"]
ELEMENTS = ["ptr", "ptr", "i32", "{ i8, ptr }"]

# What each part has to print with: each its own, or each the same.
TEXT = '@text = {} constant [5 x i8] c"%lx \\00"'
SHOW = ("define {} void @show(ptr %p) {{ %i = ptrtoint ptr %p to i64 "
        "%z = call i32 (ptr, ...) @printf(ptr @text, i64 %i) %c = icmp eq i64 %i, 0 "
        "br i1 %c, label %no, label %yes yes: %b = load i8, ptr %p %f = freeze i8 %b "
        "%w = zext i8 %f to i32 %y = call i32 @putchar(i32 %w) ret void no: ret void }}")
TRY = ("define {} i32 @try(ptr %p, i32 %n) {{ %c = icmp eq ptr %p, null "
       "%i = ptrtoint ptr %p to i64 %a = call i32 (ptr, ...) @printf(ptr @text, i64 %i) "
       "br i1 %c, label %no, label %yes yes: %r = call i32 %p(i32 %n) %w = zext i32 %r to i64 "
       "%z = call i32 (ptr, ...) @printf(ptr @text, i64 %w) ret i32 %r no: ret i32 -1 }}")
HELPERS = ["declare i32 @printf(ptr, ...)", "declare i32 @putchar(i32)", TEXT, SHOW, TRY]


class Plan:
    """What the parts of one set have in common. A name that is wild may be anything in any part;
    of any other name all shared entries are of one kind, and at most one is strong."""

    def __init__(self, chance):
        self.chance = chance
        names = VARIABLES + FUNCTIONS + LISTS
        is_wild = chance.below(2) == 0
        self.wild = {name for name in names if is_wild and chance.below(4) == 0}
        self.types = {name: chance.one_of(TYPES) for name in names}
        self.elements = {name: chance.one_of(ELEMENTS) for name in LISTS}
        self.constant = {name for name in VARIABLES + LISTS if chance.below(4) == 0}
        self.strong, self.declared, self.defined, self.counts = set(), set(), set(), {}
        self.tag = 0

    def new_tag(self):
        self.tag += 1
        return self.tag

    def linkage(self, name, choices):
        """Of a definition: a name that is not wild gets no second strong one."""
        linkage = self.chance.one_of(choices + [""] * 6 if name in self.wild else choices)
        if not linkage and name not in self.wild:
            linkage = "weak" if name in self.strong else ""
            self.strong.add(name)
        if linkage not in LOCAL + ("available_externally",):
            self.defined.add(name)
        return linkage

    def is_wanted(self, name):
        """Whether the parts so far declare a name, and none defines it."""
        return name in self.declared and name not in self.defined

    def may_alias(self, name):
        return name in self.wild or name not in self.strong


class Part:
    """One part. `has` maps a name to what it is there: "variable", "function" or "list"."""

    def __init__(self, plan, number, count):
        self.plan, self.chance, self.number = plan, plan.chance, number
        self.is_last = number == count - 1
        self.lines, self.has, self.strong, self.later = [], {}, [], []
        self.structs()
        for name in VARIABLES + FUNCTIONS + LISTS:
            self.enter(name)
        self.helpers()
        for write, name in self.later:
            self.lines.append(write(name))
        self.constructors()
        self.host()
        self.locals()

    def text(self):
        return "\n".join(filter(None, self.lines)) + "\n"

    def structs(self):
        chance = self.chance
        if chance.below(3) == 0:
            self.lines.append(f'source_filename = "{chance.one_of("abc")}.c"')
        self.body = chance.one_of(list(BODIES)[:1] * 3 + list(BODIES))
        self.lines += [f"%T = type {self.body}", "%U = type { %T, ptr }"]
        if chance.below(2):
            self.lines.append(f"%O = type {chance.one_of(OPAQUE)}")
            self.lines.append("@opaque = external global %O")
        if chance.below(3) == 0:
            self.lines.append(f"%T.1 = type {chance.one_of(list(BODIES))}")

    # ---- what a name is

    def enter(self, name):
        """Decides what the part has of a name; what names others is written later."""
        chance, is_wild = self.chance, name in self.plan.wild
        is_wanted = self.is_last and self.plan.is_wanted(name) and chance.below(16) > 0
        if not is_wanted and chance.below(3 if is_wild or name in LISTS else 2) == 0:
            return
        kind = "function" if name in FUNCTIONS else "list" if name in LISTS else "variable"
        if is_wild and chance.below(3) == 0:
            kind = chance.one_of(["variable", "function", "list", "list"])
        self.has[name] = kind
        if kind == "list":
            self.later.append((self.list, name))
        elif not is_wanted and chance.below(3 if is_wild else 6) == 0 and self.plan.may_alias(name):
            self.enter_alias(name)
        elif not is_wanted and chance.below(3) == 0:
            self.declare(name, kind)
        else:
            self.define(name, kind, is_wanted)

    def enter_alias(self, name):
        """An alias that is not local is strong."""
        linkage = self.chance.one_of(STRONG)
        if not linkage:
            self.plan.strong.add(name)
            self.plan.defined.add(name)
        self.later.append((lambda name: self.alias(name, linkage), name))

    def declare(self, name, kind):
        linkage = self.chance.one_of(["external", "external", "external", "extern_weak"])
        if self.is_last and name not in self.plan.defined and self.chance.below(16):
            linkage = "extern_weak"
        if linkage == "external":
            self.plan.declared.add(name)
        if kind == "function":
            self.lines.append(f"declare {linkage} i32 @{name}(i32)")
            return
        ty = self.type_of(name)
        ty = "%O" if ty == "i8" and any(line.startswith("%O") for line in self.lines) else ty
        form = self.chance.one_of(["global", "constant"])
        self.lines.append(f"@{name} = {linkage} {form} {ty}{self.chance.one_of(ALIGNMENTS)}")

    def define(self, name, kind, is_wanted):
        chance = self.chance
        if kind == "variable" and name not in self.plan.constant and chance.below(4) == 0:
            ty = chance.one_of([self.plan.types[name], chance.one_of(TYPES)])
            value = "null" if ty == "ptr" else "zeroinitializer"
            self.lines.append(f"@{name} = common global {ty} {value}{chance.one_of(ALIGNMENTS)}")
            self.plan.defined.add(name)
            return
        choices = SHARED if is_wanted else DEFINED[:-1] if self.is_last else DEFINED
        linkage = self.plan.linkage(name, choices)
        if linkage == "available_externally":
            self.plan.declared.add(name)
        if linkage in STRONG:
            self.strong.append(name)
        self.later.append((lambda name: self.definition(name, kind, linkage), name))

    def type_of(self, name):
        """That of the plan, and now and then another one."""
        return self.plan.types[name] if self.chance.below(8) else self.chance.one_of(TYPES)

    # ---- what is written

    def named(self, kind):
        return [name for name, found in self.has.items() if found == kind]

    def pointer(self):
        """A constant pointer to what the part has."""
        names = self.named("variable") + self.named("function")
        return f"@{self.chance.one_of(names)}" if names and self.chance.below(4) else "null"

    def value(self, ty):
        if ty[0] == "i":
            return str(self.chance.below(120))
        if ty == "ptr":
            return self.pointer()
        if ty == "%T":
            low, high = self.chance.below(100), self.chance.below(100)
            return BODIES[self.body].replace("#", str(low)).replace("%", str(high))
        return "[i16 1, i16 2, i16 -3]" if ty == "[3 x i16]" else "zeroinitializer"

    def definition(self, name, kind, linkage):
        if kind == "function":
            return self.function(name, linkage)
        ty = self.type_of(name)
        form = "constant" if name in self.plan.constant else "global"
        return (f"@{name} = {linkage} {form} {ty} {self.value(ty)}"
                f"{self.chance.one_of(ALIGNMENTS)}")

    def function(self, name, linkage):
        """Returns its tag, and calls and shows what the part has."""
        tag, chance = self.plan.new_tag(), self.chance
        body = "".join(self.statement(n) for n in range(chance.below(3)))
        return (f"define {linkage} i32 @{name}(i32 %n) {{ %c = icmp sgt i32 %n, 0 "
                f"br i1 %c, label %go, label %no no: ret i32 {tag} "
                f"go: %m = sub i32 %n, 1 {body}ret i32 {tag + 1000} }}")

    def statement(self, n):
        chance, functions = self.chance, self.named("function")
        if functions and chance.below(2):
            return f"%r{n} = call i32 @try(ptr @{chance.one_of(functions)}, i32 %m) "
        names = [name for name in self.named("variable") if name not in self.plan.constant]
        if names and chance.below(3) == 0:
            name = chance.one_of(names)
            return (f"%q{n} = icmp eq ptr @{name}, null %s{n} = select i1 %q{n}, ptr @own, "
                    f"ptr @{name} store i8 {chance.below(100)}, ptr %s{n} ")
        return f"call void @show(ptr {self.shown()}) "

    def shown(self):
        names = self.named("variable")
        return f"@{self.chance.one_of(names)}" if names else "@own"

    def list(self, name):
        """An array that is appended; of a wild name it may be of other elements, or plain."""
        chance, plan = self.chance, self.plan
        is_wild = name in plan.wild
        if is_wild and chance.below(4) == 0:
            return f"@{name} = {chance.one_of(['external', 'extern_weak'])} global [2 x ptr]"
        if chance.below(12) == 0:
            self.has[name] = "variable"
            return f"@{name} = internal global [1 x ptr] [ptr {self.pointer()}]"
        ty = plan.elements.get(name, "ptr") if not is_wild or chance.below(3) else "i64"
        is_constant = (name in plan.constant) != (is_wild and chance.below(4) == 0)
        count = chance.below(4)
        elements = ", ".join(f"{ty} {self.element(ty)}" for _ in range(count))
        plan.counts[name] = plan.counts.get(name, 0) + count
        value = f"[{elements}]" if count or chance.below(2) else "zeroinitializer"
        form = "constant" if is_constant else "global"
        return (f"@{name} = appending {form} [{count} x {ty}] {value}"
                f"{chance.one_of(ALIGNMENTS)}")

    def element(self, ty):
        if ty[0] == "{":
            return f"{{ i8 {self.chance.below(99)}, ptr {self.pointer()} }}"
        return self.value(ty)

    def alias(self, name, linkage):
        """An alias of what the part has, or of its own entries."""
        kind, chance = self.has[name], self.chance
        targets = [target for target in self.strong if self.has[target] == kind]
        target = chance.one_of(targets) if targets else "own" if kind == "variable" else "mine"
        ty = "i32 (i32)" if kind == "function" else chance.one_of(["i8", "i32", "%T"])
        return f"@{name} = {linkage} alias {ty}, ptr @{target}"

    def helpers(self):
        """What prints, of a linkage that is the part's own or is shared, and an own entry each."""
        linkage = self.chance.one_of(["internal", "internal", "private", "linkonce_odr", "weak"])
        self.lines += [line.format(linkage) for line in HELPERS]
        self.lines.append(f"@own = internal global i32 {self.number + 70}")
        self.lines.append(f"define private i32 @mine(i32 %n) {{ ret i32 {self.number + 80} }}")

    def constructors(self):
        """Constructors that are the part's own or are shared, and what is used."""
        chance = self.chance
        if chance.below(3) == 0:
            ty, names = "{ i32, ptr, ptr }", ["@init", chance.one_of(["@init", "null", "@init.1"])]
            rows = ", ".join(f"{ty} {{ i32 {chance.below(3)}, ptr {name}, ptr null }}"
                             for name in names)
            array = chance.one_of(["ctors", "ctors", "ctors", "dtors"])
            self.lines.append(f"@llvm.global_{array} = appending global [2 x {ty}] [{rows}]")
            for name in ("init", "init.1"):
                linkage = chance.one_of(["internal", "internal", "weak", "linkonce", "private"])
                self.lines.append(
                    f"define {linkage} void @{name}() {{ "
                    f"%y = call i32 @putchar(i32 {65 + self.plan.new_tag() % 60}) "
                    f"call void @show(ptr {self.shown()}) store i32 {self.number}, ptr @own "
                    f"ret void }}")
        if chance.below(4) == 0:
            self.lines.append(f"@llvm.used = appending global [1 x ptr] [ptr {self.pointer()}]")

    def host(self):
        """A function of the host's name: declared, or defined."""
        chance = self.chance
        self.has_host = chance.below(4) == 0
        if not self.has_host:
            return
        if chance.below(2):
            linkage = chance.one_of(["", "", "extern_weak"])
            self.lines.append(f"declare {linkage} i32 @{HOST}(ptr)")
            return
        linkage = chance.one_of(["weak", "linkonce_odr", "internal", "internal",
                                 "available_externally"])
        self.lines.append(f"define {linkage} i32 @{HOST}(ptr %p) {{ "
                          f"%y = call i32 @putchar(i32 {97 + self.number}) ret i32 5 }}")

    def locals(self):
        """Names that a linker may have to change with care, and a main of the part's own."""
        chance = self.chance
        if chance.below(6) == 0:
            self.lines.append(f"@llvm = internal global i32 {self.number}")
        if chance.below(12) == 0:
            self.lines.append(f"@llvm_.1 = weak global i32 {self.number}")
        if chance.below(6) == 0:
            self.lines.append(f'@"a b" = private global i32 {self.number}')
        self.has_struct_call = chance.below(8) == 0
        if self.has_struct_call:
            self.lines.append(f"define weak i32 @by(%T %t) {{ ret i32 {self.plan.new_tag()} }}")

    # ---- what it prints

    def probe(self):
        """The function that prints all that the part sees."""
        found = []
        for name in self.named("variable"):
            found.append(f"call void @show(ptr @{name})")
            if self.plan.types[name] == "%T" and self.chance.below(3) == 0:
                found.append(f"call void @show(ptr getelementptr (%T, ptr @{name}, i64 0, i32 1))")
        for name in self.named("list"):
            found += self.seen_list(name)
        for name in self.named("function"):
            found.append(f"%f{len(found)} = call i32 @try(ptr @{name}, i32 2)")
        found.append("%e = call i32 (ptr, ...) @printf(ptr @text, i64 ptrtoint "
                     "(ptr getelementptr (%T, ptr @own, i64 0, i32 1) to i64))")
        if self.has_host:
            found.append(f"%h = call i32 @{HOST}(ptr @text)")
        if self.has_struct_call:
            found.append("%t = call i32 @by(%T zeroinitializer)")
        return f"define void @p{self.number}() {{ {' '.join(found)} ret void }}"

    def seen_list(self, name):
        """Shows the elements of all parts of a list of pointers, and the first bytes of others."""
        if name in self.plan.wild:
            return [f"call void @show(ptr @{name})"]
        size = {"i32": 4, "ptr": 8}.get(self.plan.elements.get(name), 16)
        return [f"call void @show(ptr getelementptr (i8, ptr @{name}, i64 {size * n}))"
                for n in range(self.plan.counts.get(name, 0))]


def main_of(part, count):
    """The lines of the main that calls what each part prints with."""
    others = [f"declare void @p{number}()" for number in range(count) if number != part.number]
    calls = " ".join(f"call void @p{number}()" for number in range(count))
    body = f"{{ {calls} %v = load i32, ptr @own ret i32 %v }}"
    if part.chance.below(8) == 0:
        return [*others, f"define internal i32 @start() {body}", "@main = alias i32 (), ptr @start"]
    return [*others, f"define i32 @main() {body}"]


def other_main(part):
    """A main that does not count, or is weak."""
    linkage = part.chance.one_of(["internal", "internal", "private", "linkonce", "weak"])
    if linkage == "private":
        return "@main = private alias i32 (i32), ptr @mine"
    return f"define {linkage} i32 @main() {{ ret i32 {part.number} }}"


def made(chance, count):
    """The texts of a set of parts."""
    plan = Plan(chance)
    parts = [Part(plan, number, count) for number in range(count)]
    chosen = chance.below(count)
    for part in parts:
        part.lines.append(part.probe())
        if part.number == chosen:
            part.lines += main_of(part, count)
        elif chance.below(6) == 0:
            part.lines.append(other_main(part))
    order = sorted(parts, key=lambda _: chance.below(1000))
    return [part.text() for part in order]
