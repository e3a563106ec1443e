"""Parts that are linked in every grouping that keeps their order, for tests/outside/regroup.py.

A grouping is a number, of a part, or a tuple of groupings that are linked: `(0, 1, 2)` is all at
once, `((0, 1), 2)` the first two first, `((0,), 1)` has a part that is linked alone.
"""
import itertools
import re

import made
import small
from tool import STEPS, entities, kind_of_end, steps_by

# How many groupings of a set of parts are tried.
MOST = 5
CONFLICT = re.compile(rb"llvm-link: conflict: ([a-z ]+): (@.*) in (\S+) and (\S+)\n")


def intervals(first, last):
    """The ways to cut the numbers from first to last in groups."""
    if first == last:
        yield []
    for middle in range(first + 1, last + 1):
        for rest in intervals(middle, last):
            yield [(first, middle), *rest]


def groupings(first, last):
    """The groupings of these parts in which at least two are linked each time."""
    if last - first == 1:
        return [first]
    return [grouping for cut in intervals(first, last) if len(cut) > 1
            for grouping in itertools.product(*(groupings(*pair) for pair in cut))]


def parts_of(grouping):
    """The parts of a grouping."""
    if isinstance(grouping, int):
        return [grouping]
    return [part for inner in grouping for part in parts_of(inner)]


def alone(grouping, part):
    """A grouping in which one part is linked alone before it is linked with others."""
    if isinstance(grouping, int):
        return (grouping,) if grouping == part else grouping
    return tuple(alone(inner, part) for inner in grouping)


def made_set(chance):
    """A set of parts at random, and some groupings of it."""
    count = chance.one_of([2, 2, 3, 3, 3, 4])
    make, at_once = chance.one_of([made.made, made.made, small.small]), tuple(range(count))
    texts = make(chance, count)
    tried = [one for one in groupings(0, count) if one != at_once]
    tried = sorted(tried, key=lambda _: chance.below(1000))[:MOST - 1]
    tried.append(alone(chance.one_of([at_once, *tried]), chance.below(count)))
    tried += [(at_once,)] if chance.below(4) == 0 else []
    return Grouped(texts, tried, chance.below(4) == 0, steps_by(chance))


def given_set(texts):
    """These parts, in all groupings, and in those of all at once with one part linked alone."""
    count = len(texts)
    at_once = tuple(range(count))
    tried = [*groupings(0, count), *(alone(at_once, part) for part in at_once), (at_once,)]
    return Grouped(texts, [one for one in tried if one != at_once], True, STEPS)


class Grouped:
    """A set of parts, and the groupings that are tried. What is linked first is handed on as text
    or as bitcode."""

    def __init__(self, texts, tried, is_text, steps):
        self.texts, self.groupings, self.is_text = texts, tried, is_text
        self.steps, self.kinds = steps, []

    # ---- links

    def result(self, tool, grouping):
        """What linking in a grouping gives: ("linked", bytes), ("conflict", kind, name, the inputs),
        ("inner conflict",) or ("refused", the line)."""
        results = [self.result(tool, each) for each in grouping if not isinstance(each, int)]
        for result in results:
            if result[0] == "refused":
                return result
        if any(result[0] != "linked" for result in results):
            return ("inner conflict",)
        names = tuple(self.input_of(tool, each) for each in grouping)
        if names not in self.known:
            self.known[names] = self.link(tool, names)
        return self.known[names]

    def link(self, tool, names):
        form = ["-S"] if self.is_text else []
        status, output, errors = tool.run("llvm-link", *form, "-o", "-", *names)
        if (status, errors) == (0, b""):
            return "linked", output
        found = CONFLICT.fullmatch(errors)
        if status != 1 or output or not found:
            return "refused", errors.decode("latin-1")
        kind, name, one, other = (word.decode("latin-1") for word in found.groups())
        return "conflict", kind, name, (names.index(one), names.index(other))

    def input_of(self, tool, grouping):
        """The name of the file with the result of a grouping. Groupings of the same parts that
        give the same bytes share one file."""
        if isinstance(grouping, int):
            return f"{grouping}.ll"
        linked = self.result(tool, grouping)[1]
        key = tuple(parts_of(grouping)), linked
        if key not in self.files_of:
            self.files_of[key] = f"joined{len(self.files_of)}.bc"
            tool.write(self.files_of[key], linked)
        return self.files_of[key]

    # ---- comparisons

    def differences(self, tool):
        """What differs, a line each."""
        self.known, self.files_of, self.kinds = {}, {}, ["sets of parts"]
        for number, text in enumerate(self.texts):
            tool.write(f"{number}.ll", text.encode("latin-1"))
        at_once = self.result(tool, tuple(range(len(self.texts))))
        if at_once[0] == "refused":
            return [f"refused: {at_once[1].strip()}"]
        if at_once[0] == "linked":
            self.kinds.append(kind_of_end(tool.end_of(at_once[1], self.steps)))
        else:
            self.kinds.append(f"conflicts: {at_once[1]}")
        return [line for grouping in self.groupings
                for line in self.compare(tool, at_once, grouping)]

    def compare(self, tool, at_once, grouping):
        result = self.result(tool, grouping)
        self.kinds.append("groupings")
        if result[0] == "refused":
            yield f"refused: {result[1].strip()}, of {grouping}"
        elif result[0] == "inner conflict":
            self.kinds.append("groupings with an inner conflict")
            if at_once[0] == "linked":
                yield f"inner conflict: {grouping}, and none at once"
        elif result[0] != at_once[0]:
            yield f"conflict or not: at once {shown(at_once)}; {grouping} {shown(result)}"
        elif result[0] == "conflict":
            yield from self.compare_conflicts(at_once, result, grouping)
        elif at_once[1] != result[1]:
            self.kinds.append("groupings with other names")
            ends = [tool.end_of(linked[1], self.steps) for linked in (at_once, result)]
            if ends[0] != ends[1]:
                yield f"end: at once {ends[0]}; {grouping} {ends[1]}"

    def compare_conflicts(self, at_once, result, grouping):
        """The kind and the name, and the parts: those of the inputs that have them."""
        if at_once[1:3] != result[1:3]:
            yield f"conflict: at once {shown(at_once)}; {grouping} {shown(result)}"
            return
        wanted = tuple(next(number for number, inner in enumerate(grouping)
                            if part in parts_of(inner)) for part in at_once[3])
        if wanted != result[3]:
            yield f"parts: at once {shown(at_once)}; {grouping} {shown(result)}, not {wanted}"

    # ---- smaller cases

    def size(self):
        return sum(len(entities(text)) for text in self.texts)

    def without(self, first, last):
        """The same without these entries."""
        texts, number = [], 0
        for text in self.texts:
            kept = []
            for entity in entities(text):
                kept += [] if first <= number < last else [entity]
                number += 1
            texts.append("\n".join(kept) + "\n")
        return Grouped(texts, self.groupings, self.is_text, self.steps)

    def files(self):
        return {f"{number}.ll": text for number, text in enumerate(self.texts)}


def shown(result):
    """A result in a line."""
    if result[0] == "conflict":
        return f"{result[1]}: {result[2]} in inputs {result[3][0]} and {result[3][1]}"
    return "linked" if result[0] == "linked" else str(result)
