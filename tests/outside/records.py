#!/usr/bin/env python3
"""A second reading of the record table, by docs/bitcode.md alone: which block or record of a stream is refused first, and by which rule. The container
is read as tests/streams.py does. `llvm-dis` must tell the same of each row of tests/bitcode.py, and of copies of modules' bitcode in which records are
changed (operands, codes, order, blocks). What is taken here it may refuse as no valid module only.

    tests/outside/records.py [PROGRAM [COUNT]]    ./ir-tools and 1,000 copies, unless others are named
"""
import pathlib
import random
import re
import subprocess
import sys

sys.dont_write_bytecode = True
ROOT = pathlib.Path(__file__).resolve().parents[2]
sys.path.insert(0, str(ROOT / "tests"))
import assemble
import bitcode as rows
import streams

sys.setrecursionlimit(10_000)

PRODUCER, TABLE, MODULE, TYPES, BODY = 13, 23, 8, 17, 12
LISTED = {PRODUCER, TABLE, MODULE, TYPES, BODY}
LIMIT = 262_144
VOID, PTR = ("void",), ("ptr",)


class Refused(Exception):
    """What is told of a stream."""


def bad(block, at, rule):
    return Refused(f"bad record {at} in block {block}, rule {rule}")


def unknown(block, code):
    return Refused(f"unknown record {code} in block {block}")


def misplaced(block, at):
    return bad(block, at, 5) if block in LISTED else unknown(block, 0)


def tree(data):
    """Blocks, each `(id, entries)`, and records, each `(None, code, operands)`, without BLOCKINFO."""
    open_, info = [[]], 0
    for entry in streams.entries(data):
        if entry[0] == "block":
            info += entry[1] == 0
            open_[-1].append((entry[1], []))
            open_.append(open_[-1][-1][1])
        elif entry[0] == "end":
            info -= entry[1] == 0
            open_.pop()
            if entry[1] == 0:
                open_[-1].pop()
        elif entry[0] == "record":
            open_[-1].append((None, entry[1], list(entry[3])))
    return open_[0]


class Operands:
    """The operands of a record, taken one by one, and the rules that it breaks."""

    def __init__(self, operands):
        self.left, self.broken, self.stopped = list(reversed(operands)), set(), False

    def ask(self, rule, holds):
        if not holds and not self.stopped:
            self.broken.add(rule)

    def stop(self, rule):
        self.ask(rule, False)
        self.stopped = True

    def also(self, rule, holds):
        """Of the record as a whole."""
        if not holds:
            self.broken.add(rule)

    def next(self):
        if not self.stopped and not self.left:
            self.stop(1)
        return 0 if self.stopped else self.left.pop()

    def below(self, limit, rule=3):
        number = self.next()
        self.ask(rule, number < limit)
        return number

    def times(self, count, read):
        """So many values, as long as what follows is known."""
        values = []
        while len(values) < count and not self.stopped:
            values.append(read())
        return values

    def counted(self, read):
        return self.times(self.next(), read)

    def finish(self, block, at):
        """Refuses the record by the least rule that it breaks."""
        if self.left and not self.stopped:
            self.broken.add(1)
        if self.broken:
            raise bad(block, at, min(self.broken))


# ---- texts: None stands for all that pass the end of the table and are not empty


class Texts:
    def __init__(self, table):
        self.table = table

    def at(self, o, offset, size):
        if o.stopped:
            return b"?"
        inside = offset + size <= len(self.table)
        o.ask(8, inside)
        return bytes(self.table[offset:offset + size]) if inside else None if size else b""

    def middle(self, o):
        if self.table is None:
            return bytes(byte % 256 for byte in o.counted(lambda: o.below(256)))
        offset, size = o.next(), o.next()
        return self.at(o, offset, size)

    def last(self, o):
        if self.table is None:
            return bytes(byte % 256 for byte in o.times(len(o.left), lambda: o.below(256)))
        return self.middle(o)

    def named(self, o, text):
        o.ask(4, text is None or text and 0 not in text)
        return text

    def label(self, o):
        """A name in brackets, or nothing for a local without one."""
        size = o.next()
        if not size:
            return []
        if self.table is None:
            return [self.named(o, bytes(byte % 256 for byte in o.times(size - 1, lambda: o.below(256))))]
        return [self.named(o, self.at(o, o.next(), size - 1))]


# ---- types


# What each struct is by its number: None, or whether it is packed and its fields.


def measured(structs, ty):
    """Nesting, parts, alignment, and size or None; an exception where a struct holds itself."""
    return measured_once(structs, ty, (), {})


def measured_once(structs, ty, seen, known):
    """The same, behind the structs that were seen on the way, where those types are known."""
    if ty not in known:
        known[ty] = measured_anew(structs, ty, seen, known)
    return known[ty]


def measured_anew(structs, ty, seen, known):
    if ty[0] == "int":
        align = next(align for width, align in [(8, 1), (16, 2), (32, 4), (64, 8), (128, 16)] if ty[1] <= width)
        return 0, 1, align, -(-((ty[1] + 7) // 8) // align) * align
    if ty in (PTR, VOID):
        return (0, 1, 8, 8) if ty == PTR else (0, 1, 1, None)
    if ty[0] == "array":
        nesting, parts, align, size = measured_once(structs, ty[2], seen, known)
        return nesting + 1, parts + 1, align, None if size is None else ty[1] * size
    if ty[0] == "named":
        if ty[1] in seen:
            raise RecursionError
        if structs.get(ty[1]) is None:
            return 1, 1, 1, None
        packed, fields = structs[ty[1]]
        seen = (*seen, ty[1])
    else:
        packed, fields = ty[1], ty[2]
    each = {field: measured_once(structs, field, seen, known) for field in fields}
    size, greatest = 0, 1
    for field in fields:
        align, field_size = each[field][2:]
        greatest = max(greatest, align)
        size = None if size is None or field_size is None else (size if packed else -(-size // align) * align) + field_size
    align = 1 if packed else greatest
    return (1 + max([each[field][0] for field in fields], default=0), 1 + sum(each[field][1] for field in fields), align,
            None if size is None else -(-size // align) * align)


def fits(structs, ty):
    try:
        nesting, parts, _, size = measured(structs, ty)
    except RecursionError:
        return False
    return nesting <= 64 and parts <= 2**20 and (ty[0] != "array" or ty[1] <= 2**40) and (size is None or size <= 2**40)


def type_of(o, code, types, structs):
    """A type by its record. What a broken rule leaves open is some type."""
    def earlier():
        place = o.below(len(types), 2)
        return types[place] if place < len(types) else VOID
    if code == 1:
        width = o.next()
        o.ask(3, 1 <= width <= 128)
        return ("int", width if 1 <= width <= 128 else 1)
    if code in (2, 3):
        return PTR if code == 2 else VOID
    if code == 4:
        length = o.next()
        return ("array", length, earlier())
    if code == 5:
        packed = o.below(2)
        return ("struct", packed, tuple(o.times(len(o.left), earlier)))
    return ("named", o.below(structs, 2))


def defined(o, types, texts):
    """A struct by its record, and its name."""
    kind = o.below(3)
    count = o.next()
    fields = []
    while len(fields) < count and not o.stopped:
        place = o.below(len(types), 2)
        fields.append(types[place] if place < len(types) else VOID)
    o.ask(3, kind < 2 or not count)
    return (None if kind == 2 else (kind, tuple(fields))), texts.named(o, texts.last(o))


def types_block(inside, at, texts):
    types, structs, names = [], {}, []
    count = sum(entry[0] is None and entry[1] == 7 for entry in inside)
    for entry in inside:
        if entry[0] is not None:
            raise misplaced(entry[0], at)
        code, o = entry[1], Operands(entry[2])
        if not 1 <= code <= 7:
            raise unknown(TYPES, code)
        after, known = dict(structs), list(types)
        if code == 7:
            body, name = defined(o, types, texts)
            after[len(names)] = body
            o.also(4, name not in names)
            o.also(7, len(names) < LIMIT)
        else:
            o.also(5, not names)
            known.append(type_of(o, code, types, count))
        o.also(7, all(fits(after, ty) for ty in [*known, *(("named", number) for number in range(count))]))
        o.finish(TYPES, at)
        names += [name] if code == 7 else []
        types, structs, at = known, after, at + 1
    return types, structs, at


# ---- what records of entries and lines hold

WRAPS, EXACT, VOLATILE = 1 | 2, 4, 256
FLAGS = {**dict.fromkeys(range(1, 34), 0), **dict.fromkeys([1, 2, 3, 8, 15], WRAPS), **dict.fromkeys([4, 5, 9, 10], EXACT), 12: 8, 14: 32, 16: 16,
         **dict.fromkeys([23, 24], VOLATILE), 26: 64 | 128 | 1}


class Numbers:
    """What indices stand for, and how what has them is read."""

    def __init__(self, texts, targets, aliases):
        self.texts, self.targets, self.globals = texts, targets, targets + aliases
        self.types, self.structs, self.values, self.blocks = [], {}, 0, 0

    def ty(self, o):
        place = o.below(len(self.types), 2)
        return self.types[place] if place < len(self.types) else VOID

    def flags(self, o, opcode):
        number = o.next()
        o.ask(3, number & ~FLAGS[opcode] == 0)

    def alignment(self, o):
        o.below(18, 7)

    def parts(self, ty):
        """The types of the parts, one for all or one each, or None."""
        if ty[0] == "array":
            return ty[1], lambda place: ty[2]
        fields = ty[2] if ty[0] == "struct" else (self.structs.get(ty[1]) or (0, None))[1] if ty[0] == "named" else None
        if fields is None:
            return None
        return len(fields), lambda place: fields[place] if place < len(fields) else VOID

    def constant(self, o, ty, deep=64):
        self.of_form(o, o.next(), ty, deep)

    def of_form(self, o, form, ty, deep):
        if o.stopped:
            return
        if form == 1:
            self.integer(o, ty)
        elif form in (2, 6):
            o.ask(6, ty == PTR)
            if form == 6:
                o.below(self.globals, 2)
        elif form == 8:
            count = o.next()
            o.times(count, lambda: o.below(256))
            o.ask(6, ty == ("array", count, ("int", 8)))
        elif form in (7, 9, 10, 11):
            if deep == 0:
                o.stop(7)
            else:
                {7: self.listed, 9: self.element, 10: self.cast, 11: self.computed}[form](o, ty, deep - 1)
        elif form not in (3, 4, 5):
            o.stop(3)

    def integer(self, o, ty):
        if ty[0] != "int":
            return o.stop(6)
        low = o.next()
        high = o.next() if ty[1] > 64 else 0
        o.ask(3, low + (high << 64) < 1 << ty[1])

    def listed(self, o, ty, deep):
        count, parts = o.next(), self.parts(ty)
        o.ask(6, parts is not None and parts[0] == count)
        place = 0
        while place < count and not o.stopped:
            self.constant(o, parts[1](place) if parts else VOID, deep)
            place += 1

    def element(self, o, ty, deep):
        o.ask(6, ty == PTR)
        self.flags(o, 26)
        self.ty(o)
        self.constant(o, PTR, deep)
        o.counted(lambda: self.constant(o, self.ty(o), deep))

    def cast(self, o, ty, deep):
        o.ask(3, o.next() in (15, 18, 19) or o.stopped)
        self.constant(o, self.ty(o), deep)

    def computed(self, o, ty, deep):
        opcode = o.next()
        o.ask(3, opcode in (1, 2, 13))
        self.flags(o, opcode if opcode in (1, 2, 13) else 13)
        self.constant(o, ty, deep)
        self.constant(o, ty, deep)

    def value(self, o, ty):
        number = o.next()
        if number == 0:
            o.below(self.values, 2)
        else:
            self.of_form(o, number, ty, 64)

    def typed(self, o):
        self.value(o, self.ty(o))

    def block(self, o):
        o.below(self.blocks, 2)

    def choice(self, o, choices):
        """0 or 1, and what that says."""
        number = o.next()
        if number < len(choices):
            choices[number]()
        else:
            o.stop(3)


def call(k, o):
    """The label in brackets where there is a result."""
    place = o.next()
    if place >= len(k.types):
        o.stop(2)
    result = [k.texts.label(o)] if place < len(k.types) and k.types[place] != VOID else []
    o.below(2)
    fixed = o.counted(lambda: k.ty(o))
    k.value(o, PTR)
    count, place = o.next(), 0
    while place < count and not o.stopped:
        k.value(o, fixed[place] if place < len(fixed) else k.ty(o))
        place += 1
    return result


def some(o, read):
    count = o.next()
    o.ask(1, count > 0)
    return o.times(count, read)


def line(k, o, opcode):
    """An instruction or an end: the label of its result, in brackets, where it has one."""
    if opcode == 27:
        return call(k, o)
    result = [] if opcode in (24, 30, 31, 32, 33) else [k.texts.label(o)]
    if opcode <= 19 or opcode in (23, 24, 26):
        k.flags(o, opcode)
    if opcode <= 14:
        if opcode == 14:
            o.ask(3, 1 <= o.next() <= 10 or o.stopped)
        ty = k.ty(o)
        k.value(o, ty), k.value(o, ty)
    elif opcode <= 19:
        k.typed(o), k.ty(o)
    elif opcode == 20:
        ty = k.ty(o)
        k.value(o, ("int", 1)), k.value(o, ty), k.value(o, ty)
    elif opcode in (21, 28, 29):
        k.typed(o)
        if opcode == 29:
            k.typed(o)
        if opcode != 21:
            some(o, lambda: o.below(2**32))
    elif opcode == 22:
        ty = k.ty(o)
        some(o, lambda: (k.value(o, ty), k.block(o)))
    elif opcode in (23, 24):
        k.ty(o) if opcode == 23 else k.typed(o)
        k.value(o, PTR), k.alignment(o)
    elif opcode == 25:
        k.ty(o), k.choice(o, [lambda: None, lambda: k.typed(o)]), k.alignment(o)
    elif opcode == 26:
        k.ty(o), k.value(o, PTR), o.counted(lambda: k.typed(o))
    else:
        ending(k, o, opcode)
    return result


def ending(k, o, opcode):
    if opcode == 30:
        k.choice(o, [lambda: None, lambda: k.typed(o)])
    elif opcode == 31:
        k.choice(o, [lambda: k.block(o), lambda: (k.value(o, ("int", 1)), k.block(o), k.block(o))])
    elif opcode == 32:
        ty = k.ty(o)
        k.value(o, ty), k.block(o), o.counted(lambda: (k.constant(o, ty), k.block(o)))


# ---- a body

FIRST, BEGIN, LINE, NEXT = range(4)


def gives(k, entry):
    """Whether a record of a body gives a value."""
    if entry[0] is not None or not 11 <= entry[1] <= 43 or entry[1] - 10 in (24, 30, 31, 32, 33):
        return False
    if entry[1] == 37:
        return bool(entry[2]) and entry[2][0] < len(k.types) and k.types[entry[2][0]] != VOID
    return True


def body_block(k, inside, at, parameters):
    k.values = parameters + sum(gives(k, entry) for entry in inside)
    k.blocks = sum(entry[0] is None and entry[1] == 2 for entry in inside)
    due, names = FIRST, []
    for entry in inside:
        if entry[0] is not None:
            raise misplaced(entry[0], at)
        code, o = entry[1], Operands(entry[2])
        if code == 1:
            new, may, due = o.times(parameters, lambda: k.texts.label(o)), due == FIRST, BEGIN
        elif code == 2:
            new, may, due = [k.texts.label(o)], due in (BEGIN, NEXT), LINE
        elif 11 <= code <= 43:
            new, may, due = line(k, o, code - 10), due == LINE, NEXT if code >= 40 else LINE
        else:
            raise unknown(BODY, code)
        o.also(5, may)
        for name in (name for label in new for name in label):
            o.also(4, name not in names)
            names.append(name)
        o.finish(BODY, at)
        at += 1
    if due != NEXT:
        raise bad(BODY, at, 5)
    return at


# ---- the module


def entry_of(k, o, code):
    """The name of a variable, function or alias; and of a function that is defined, how many parameters it has."""
    name = k.texts.named(o, k.texts.middle(o))
    o.below(11)
    due = None
    if code == 5:
        o.below(2)
        ty = k.ty(o)
        k.alignment(o)
        k.choice(o, [lambda: None, lambda: k.constant(o, ty)])
    elif code == 6:
        is_defined = o.below(2)
        k.ty(o), o.below(2)
        parameters = o.counted(lambda: k.ty(o))
        due = len(parameters) if is_defined else None
    else:
        k.choice(o, [lambda: k.ty(o), lambda: (k.ty(o), o.below(2), o.counted(lambda: k.ty(o)))])
        o.below(k.targets, 2)
    return name, due


class Module:
    """What was read of the module's block: the place of what came last, names, counts, and bodies that are due."""

    def __init__(self, inside, at, table):
        counts = {code: sum(entry[0] is None and entry[1] == code for entry in inside) for code in (5, 6, 7)}
        self.at, self.last, self.table, self.names, self.due = at, 0, table, [], []
        self.k, self.counts = Numbers(Texts(table), counts[5] + counts[6], counts[7]), {5: 0, 6: 0, 7: 0}

    def may_follow(self, place):
        if place == 1:
            return self.last == 0
        return 1 <= self.last < place if place <= 5 else 5 <= self.last <= place

    def block(self, number, inside):
        if number == TYPES and self.may_follow(5):
            self.k.types, self.k.structs, self.at = types_block(inside, self.at, self.k.texts)
            self.last = 5
        elif number == BODY and self.may_follow(9) and self.due:
            self.at = body_block(self.k, inside, self.at, self.due.pop(0))
            self.last = 9
        else:
            raise misplaced(number, self.at)

    def record(self, code, operands):
        o, due, name = Operands(operands), None, []
        if code == 1:
            if len(operands) == 1 and self.last == 0 and operands[0] not in (1, 2):
                raise Refused(f"version {operands[0]}")
            number = o.next()
            o.also(5, len(operands) != 1 or number == (1 if self.table is None else 2))
        elif code <= 4:
            self.k.texts.last(o)
        else:
            name, due = entry_of(self.k, o, code)
            o.also(4, name not in self.names)
            self.counts[code] += 1
            o.also(7, (self.counts[code] if code < 7 else self.counts[7] + max(self.counts[5], self.counts[6])) <= LIMIT)
            self.names.append(name)
        place = code if code <= 4 else code + 1
        o.also(5, self.may_follow(place))
        o.finish(MODULE, self.at)
        self.due += [] if due is None else [due]
        self.at, self.last = self.at + 1, place

    def end(self):
        if self.last < 5:
            raise bad(TYPES if self.last else MODULE, self.at, 5)
        if self.due:
            raise bad(BODY, self.at, 5)
        return self.at


def bytes_record(o, block, at, count=None):
    """The bytes of a record that has nothing else."""
    bytes_ = o.times(len(o.left) if count is None else count, lambda: o.below(256))
    o.finish(block, at)
    return bytes_


def producer(inside):
    for at, entry in enumerate(inside):
        if entry[0] is not None:
            raise misplaced(entry[0], at)
        if entry[1] != 1:
            raise unknown(PRODUCER, entry[1])
        if at:
            o = Operands(entry[2])
            o.also(5, False)
            bytes_record(o, PRODUCER, at, 17)
    return len(inside)


def string_table(inside, at):
    if not inside:
        raise bad(TABLE, at, 5)
    for place, entry in enumerate(inside):
        if entry[0] is not None:
            raise misplaced(entry[0], at + place)
        if entry[1] != 1:
            raise unknown(TABLE, entry[1])
        o = Operands(entry[2])
        o.also(5, place == 0)
        table = bytes_record(o, TABLE, at + place)
    return table, at + 1


def judged(top):
    """Refuses blocks and records that stand for no module."""
    inside = top[0][1] if top and top[0][0] == PRODUCER else []
    first = next((entry for entry in inside if entry[0] is None), (None, 0, []))
    if first[1:] != (1, list(b"integer profile 1")):
        raise Refused("foreign producer")
    at, table, rest = producer(inside), None, top[1:]
    if rest and rest[0][0] == TABLE:
        table, at = string_table(rest[0][1], at)
        rest = rest[1:]
    if not rest:
        raise bad(MODULE, at, 5)
    if rest[0][0] != MODULE:
        raise misplaced(rest[0][0], at)
    m = Module(rest[0][1], at, table)
    for entry in rest[0][1]:
        if entry[0] is not None:
            m.block(*entry)
        elif 1 <= entry[1] <= 7:
            m.record(*entry[1:])
        else:
            raise unknown(MODULE, entry[1])
    at = m.end()
    if rest[1:]:
        raise misplaced(rest[1][0], at)


KINDS = {"BadMagic": "bad magic", "VbrTooLong": "vbr too long", "BadBlockLength": "bad block length", "NestedTooDeep": "nested too deep",
         "BadAbbreviation": "bad abbreviation", "Truncated": "truncated"}


def told(data):
    """What is told of a stream, or None."""
    try:
        judged(tree(data))
    except streams.Fault as fault:
        return f"bit {fault.args[1]}: {KINDS[fault.args[0]]}"
    except Refused as refused:
        return str(refused)
    return None


# ---- beside the program


def called(program, data):
    """The line of `llvm-dis`, or None where it writes a text."""
    run = subprocess.run([program, "llvm-dis", "-", "-o", "-"], input=data, capture_output=True, timeout=60)
    return run.stderr.decode().removeprefix("llvm-dis: -: ").rstrip("\n") if run.returncode else None


def agrees(mine, its):
    """What is taken here may be no valid module."""
    return mine == its or mine is None and re.match(r"invalid V\d+ at |function too large: ", its) is not None


def spelled(entries):
    """These blocks and records as a stream, without abbreviations."""
    def putting(entry):
        if entry[0] is None:
            return assemble.record(entry[1], *entry[2])
        return lambda out: assemble.put_block(out, 3, entry[0], [putting(each) for each in entry[1]])
    return assemble.top(*((number, [putting(each) for each in inside]) for number, inside in entries))


def lists_of(entries):
    """The entries of each block, and those at the top."""
    return [entries, *(inside for entry in entries if entry[0] is not None for inside in lists_of(entry[1]))]


def copied(entries):
    return [(entry[0], copied(entry[1])) if entry[0] is not None else (None, entry[1], list(entry[2])) for entry in entries]


NUMBERS = [0, 1, 2, 3, 5, 7, 11, 12, 17, 18, 64, 128, 129, 255, 256, 2**32 - 1, 2**32, 2**40, 2**63, 2**64 - 1]


def change_operands(entry, dice):
    """Another number for an operand, one operand more or one less, or another code."""
    way, operands = dice.randrange(6), entry[2]
    if way < 3 and operands:
        place = dice.randrange(len(operands))
        operands[place] = max(0, min(2**64 - 1, dice.choice([*NUMBERS, operands[place] + 1, operands[place] - 1])))
    elif way == 3 and operands:
        del operands[dice.randrange(len(operands))]
    elif way == 4:
        operands.insert(dice.randrange(len(operands) + 1), dice.choice(NUMBERS))
    return (None, dice.choice([*range(14), *range(20, 46)]), operands) if way == 5 else entry


def change_order(entries, inside, place, dice):
    """The entry is put elsewhere, put twice, or left out."""
    way = dice.randrange(3)
    other = dice.choice([each for each in lists_of(entries) if inside[place][0] is not None or each is not entries])
    if way == 1:
        inside.insert(dice.randrange(len(inside) + 1), copied([inside[place]])[0])
    else:
        moved = inside.pop(place)
        if way == 0 and other is not moved[1]:
            other.insert(dice.randrange(len(other) + 1), moved)


def changed(entries, dice):
    """A copy in which one record or two, or a block, is changed."""
    copy = copied(entries)
    for _ in range(dice.choice([1, 1, 1, 2])):
        inside = dice.choice([each for each in lists_of(copy) if each])
        place = dice.randrange(len(inside))
        if inside[place][0] is None and dice.randrange(4):
            inside[place] = change_operands(inside[place], dice)
        else:
            change_order(copy, inside, place, dice)
    return copy


def written_by_hand():
    """The streams of tests/bitcode.py."""
    return [code for code, _ in [*rows.faults(), *rows.cut(), *rows.REFUSED, *rows.TAKEN, *rows.OTHERWISE]] + [*rows.SAME, *(code for _, code in rows.MODULES)]


def originals(program):
    """The modules of tests/assemble.py, and small ones of tests/modules, as trees."""
    found = [code for _, code in rows.MODULES[1:]]
    for path in sorted((ROOT / "tests" / "modules").glob("*.ll")):
        run = subprocess.run([program, "llvm-as", "-o", "-", "-"], input=path.read_bytes(), capture_output=True)
        found += [run.stdout] if run.returncode == 0 and len(run.stdout) < 2_000 else []
    return [tree(code) for code in found]


def main():
    program = sys.argv[1] if len(sys.argv) > 1 else str(ROOT / "ir-tools")
    count = int(sys.argv[2]) if len(sys.argv) > 2 else 1_000
    dice, wrong, taken, told_apart = random.Random(23), 0, 0, set()
    by_hand, trees = written_by_hand(), originals(program)
    for turn, code in enumerate([*by_hand, *(spelled(changed(trees[n % len(trees)], dice)) for n in range(count))]):
        mine, its = told(code), called(program, code)
        taken += mine is None
        told_apart.add(re.sub(r"record \d+", "record", mine or "taken"))
        if not agrees(mine, its):
            wrong += 1
            print(f"stream {turn}: {mine} here, {its} of the program\n{code.hex()}")
    print(f"{len(by_hand)} streams by hand, {count} copies of {len(trees)} modules, {taken} taken, {len(told_apart)} different answers, {wrong} wrong")
    return 1 if wrong else 0


if __name__ == "__main__":
    sys.exit(main())
