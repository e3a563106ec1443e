"""Modules that are cut in two and joined again, for tests/outside/regroup.py."""
import re

import made
import programs
from tool import entities, kind_of_end, steps_by

NAME = r'@("[^"]*"|[-\w$.]+)'
FUNCTION = re.compile(rf"(declare|define)\b[^@]*?{NAME} ?\(")
GLOBAL = re.compile(rf"{NAME} = (.*)", re.S)
# How many sets of parts are made until one is not in conflict.
TRIES = 50
# Those of tests/modules without a type that the language leaves out.
MODULES = sorted(path for path in (programs.HERE / "modules").glob("*.ll")
                 if not re.search(r"\bdouble\b", path.read_text("latin-1")))
LOCAL = re.compile(r"\b(internal|private) ")


class Symbols:
    """The entries of a text: of each its kind, its name, whether it is a definition, and its
    text without the linkages that are local ones."""

    def __init__(self, text):
        self.variables, self.functions, self.aliases = [], [], []
        self.defined, self.local = {}, set()
        for entity in entities(text):
            self.enter(entity)

    def enter(self, entity):
        head = entity.partition("\n")[0]
        found = FUNCTION.match(head)
        if found:
            self.functions.append(found[2])
            self.note(found[2], entity, found[0], found[1] == "define")
        found = GLOBAL.match(head)
        if found:
            linkage, kind = re.match(r"(.*?)\b(global|constant|alias)\b", found[2]).groups()
            is_declared = re.search(r"\b(?:external|extern_weak)\b", linkage)
            (self.aliases if kind == "alias" else self.variables).append(found[1])
            self.note(found[1], entity, linkage, not is_declared)

    def note(self, name, entity, head, is_defined):
        if is_defined:
            self.defined[name] = LOCAL.sub("", entity, count=1) if LOCAL.search(head) else entity
        if LOCAL.search(head):
            self.local.add(name)


def order_of(texts):
    """The names of the symbols of parts without local ones, or of one part, kind by kind."""
    parts = [Symbols(text) for text in texts]
    aliases = list(dict.fromkeys(name for part in parts for name in part.aliases))
    plain = [dict.fromkeys(name for part in parts for name in kind(part))
             for kind in (lambda part: part.variables, lambda part: part.functions)]
    return [[name for name in names if name not in aliases] for names in plain] + [aliases]


def bare(name):
    """A name as a word of the command line has it."""
    return name[1:-1] if name[0] == '"' else name


class Cut:
    """A module, and words that choose what is cut out of it."""

    def __init__(self, chance, tool):
        self.kinds, self.words, self.given, self.text = [], [], b"", ""
        self.source, self.steps = "made", steps_by(chance)
        if chance.below(2):
            self.linked(chance, tool)
        else:
            self.program(chance, tool)
        self.choose(chance)

    def link(self, tool, texts):
        """The text that parts are linked to, or nothing where they are in conflict."""
        names = [f"{number}.ll" for number in range(len(texts))]
        for name, text in zip(names, texts):
            tool.write(name, text)
        return tool.run("llvm-link", "-S", "-o", "-", *names)[1].decode("latin-1")

    def linked(self, chance, tool):
        """What made parts are linked to: the first set that is not in conflict."""
        for _ in range(TRIES):
            texts = made.made(chance, 1 + chance.below(3))
            self.text = self.link(tool, [text.encode("latin-1") for text in texts])
            if self.text:
                break

    def program(self, chance, tool):
        """A program that clang-19 printed, of one part or linked."""
        which = chance.below(5)
        if which == 0:
            path = chance.one_of(MODULES)
            self.text, self.source = path.read_text("latin-1"), path.name
            return
        program = chance.one_of(programs.programs(programs.FOLDERS[which == 1]))
        texts = [path.read_bytes() for path in program.texts(chance.one_of(programs.LEVELS))]
        self.text = self.link(tool, texts) if len(texts) > 1 else texts[0].decode("latin-1")
        self.source = program.name
        self.words = programs.ARGUMENTS.get(program.name, [])
        self.given = programs.INPUTS.get(program.name, b"")

    def choose(self, chance):
        """Chooses names: each at random, the first ones of each kind, or a few."""
        symbols = Symbols(self.text)
        kinds = [("--func", symbols.functions), ("--glob", symbols.variables),
                 ("--alias", symbols.aliases)]
        self.chosen, way = [], chance.below(4)
        for option, names in kinds:
            names = [name for name in names if name in symbols.defined]
            if way == 0:
                names = [name for name in names if chance.below(2)]
            elif way == 1:
                names = names[:chance.below(len(names) + 1)]
            elif names:
                names = [chance.one_of(names) for _ in range(chance.below(3))]
            self.chosen += [f"{option}={bare(name)}" for name in names]
        self.chosen = sorted(self.chosen, key=lambda _: chance.below(1000))
        self.flags = ["--recursive"] if chance.below(4) == 0 else []
        self.is_turned = chance.below(3) > 0

    # ---- comparisons

    def halves(self, tool):
        """The texts of both halves, what is chosen and what is not, or the other way round."""
        tool.write("module.ll", self.text.encode("latin-1"))
        found = []
        for delete in ([], ["--delete"])[::-1 if self.is_turned else 1]:
            words = ["llvm-extract", "-S", "-o", "-", *delete, *self.flags, *self.chosen]
            found.append(tool.run(*words, "module.ll"))
        return found

    def differences(self, tool):
        """What differs, a line each."""
        self.kinds = ["cuts"]
        halves = self.halves(tool)
        for status, _, errors in halves:
            if status or errors:
                return [f"not extracted: {status} {errors.decode('latin-1').strip()}"]
        for name, (_, output, _) in zip(("one.ll", "other.ll"), halves):
            tool.write(name, output)
        joined = tool.run("llvm-link", "-S", "-o", "-", "one.ll", "other.ll")
        if joined[0] or joined[2]:
            return [f"not joined: {joined[0]} {joined[2].decode('latin-1').strip()}"]
        plain = tool.run("llvm-link", "-S", "-o", "-", "module.ll")[1].decode("latin-1")
        found = self.compare_definitions(Symbols(plain), joined[1].decode("latin-1"))
        texts = [output.decode("latin-1") for _, output, _ in halves]
        return [*found, *self.compare_runs(tool, texts, joined[1])]

    def compare_definitions(self, module, joined):
        """Each definition once, under its name, and a local one as external."""
        symbols = Symbols(joined)
        every = symbols.variables + symbols.functions + symbols.aliases
        for name in every:
            if every.count(name) > 1:
                yield f"twice: @{name}"
        for name in symbols.local:
            yield f"local: @{name}"
        for name in {**module.defined, **symbols.defined}:
            one, other = module.defined.get(name), symbols.defined.get(name)
            if one != other:
                yield f"definition: @{name} is {one!r:.200}; joined it is {other!r:.200}"

    def compare_runs(self, tool, texts, joined):
        """The ends, where the order of symbols stays."""
        if order_of(texts) != order_of([self.text]):
            return
        self.kinds.append("cuts of the same order")
        symbols = Symbols(self.text)
        if "main" in symbols.local and "main" not in symbols.variables:
            self.kinds.append("cuts with a local main")
            return
        once, again = (tool.end_of(module, self.steps, *self.words, given=self.given)
                       for module in (self.text.encode("latin-1"), joined))
        self.kinds.append(kind_of_end(once))
        if once != again:
            yield f"end: of the module {once!r:.300}; of its halves joined {again!r:.300}"

    # ---- smaller cases

    def size(self):
        return len(entities(self.text)) + len(self.chosen)

    def without(self, first, last):
        """The same without these entries, or without these words."""
        case, every = Cut.__new__(Cut), entities(self.text)
        case.__dict__.update(self.__dict__)
        case.text = "\n".join(every[:first] + every[last:]) + "\n"
        first, last = max(0, first - len(every)), max(0, last - len(every))
        case.chosen = self.chosen[:first] + self.chosen[last:]
        return case

    def files(self):
        words = " ".join([*self.flags, *self.chosen])
        first = "what --delete keeps" if self.is_turned else "what is chosen"
        return {"module.ll": self.text,
                "words.txt": f"{words}\nThe first half is {first}.\n"
                             f"{self.source}, run with {self.words} and {self.given!r}\n"}
