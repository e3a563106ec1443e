#!/usr/bin/env python3
"""A run of parts side by side, never merged, as tests/outside/side.py makes it: memory, host functions, constants, instructions, frames.

Written from docs/running.md: a frame knows its part, a name is looked up in its part by what the parts mean together (tests/outside/parts.py),
memory is a list of blocks with a cell for each byte. Results of the scalar instructions, of the intrinsics over integers and of `printf` are
those of tests/scalars.py, tests/intrinsics.py and tests/printf.py. Nothing is taken from the program.

A value is a list of leaves. A leaf is a number, POISON or a pointer, which is the number of a block or None and an address.
"""
import bisect
import collections
import functools
import operator
import re

import intrinsics
import printf
import scalars
from parts import I1, I8, I32, I64, PTR, VOID, Parts, align_of, inside, leaves_of, rounded, size_of, slots, spelled

POISON = scalars.POISON


class End(Exception):
    """The end of a run: its status, and the line that tells of it, if there is one."""

    def __init__(self, status, line=""):
        self.told = status, line


def undefined(kind):
    return End(125, f"undefined: {kind}")


# ---- memory


class Block:
    """A block. A cell is a byte, POISON, or a pointer and which piece of it; cells are left out that are as all were before, at first zero."""

    def __init__(self, start, size, kind):
        self.start, self.size, self.kind, self.is_live, self.cells, self.before = start, size, kind, True, {}, 0

    def some(self, at, count):
        """So many cells from a place on."""
        return [self.cells.get(k, self.before) for k in range(at, at + count)]

    def holds(self, address, count):
        return self.is_live and self.start <= address and address + count <= self.start + self.size


def byte_of(cell):
    """A cell as a byte; piece k of a pointer is byte k of its address."""
    return cell[0][1] >> 8 * cell[1] & 255 if isinstance(cell, tuple) else cell


class Memory:
    """Blocks in the order of their addresses."""

    def __init__(self):
        self.blocks, self.starts, self.free, self.live, self.is_sealed = [], [], 65536, 0, False

    def add(self, size, align, kind):
        """A new block, and a pointer to it."""
        if self.live + size > 2**28:
            raise End(122, "memory limit")
        start = rounded(self.free, align)
        self.blocks.append(Block(start, size, kind))
        self.starts.append(start)
        self.live, self.free = self.live + size, start + size + 16
        return len(self.blocks) - 1, start

    def end(self, pointer, kind):
        """Ends a block of that kind at its start."""
        number, address = pointer
        if number is None:
            number = bisect.bisect(self.starts, address) - 1
        block = self.blocks[number] if number >= 0 else None
        if block is None or not block.is_live or block.start != address or block.kind != kind:
            raise undefined("bad free")
        self.live -= block.size
        block.is_live, block.cells = False, None

    def bounds(self, pointer):
        """Where the pointer's live block starts and ends, or None."""
        block = None if pointer[0] is None else self.blocks[pointer[0]]
        return (block.start, block.start + block.size) if block is not None and block.is_live else None

    def access(self, pointer, count, align, writes):
        """The checks of an access, in their order; the block, and the place in it."""
        if pointer == POISON:
            raise undefined("poison address")
        if count == 0:
            return None, 0
        number, address = pointer
        if number is not None and not self.blocks[number].is_live:
            raise undefined("ended block")
        number = bisect.bisect(self.starts, address) - 1 if number is None else number
        if number < 0 or not self.blocks[number].holds(address, count):
            raise undefined("outside a block")
        block = self.blocks[number]
        if writes and self.is_sealed and block.kind == "constant":
            raise undefined("write to constant")
        if address % align:
            raise undefined("misaligned")
        return block, address - block.start

    def load(self, pointer, leaf, align):
        count = 8 if leaf == PTR else (leaf[1] + 7) // 8
        block, at = self.access(pointer, count, align, False)
        cells = block.some(at, count)
        if POISON in cells:
            return POISON
        if leaf == PTR and isinstance(cells[0], tuple) and cells == [(cells[0][0], k) for k in range(8)]:
            return cells[0][0]
        number = int.from_bytes(map(byte_of, cells), "little")
        return (None, number) if leaf == PTR else number % 2 ** leaf[1]

    def store(self, pointer, leaf, align, value):
        count = 8 if leaf == PTR else (leaf[1] + 7) // 8
        block, at = self.access(pointer, count, align, True)
        if value == POISON:
            block.cells.update((at + k, POISON) for k in range(count))
        elif leaf == PTR:
            block.cells.update((at + k, (value, k)) for k in range(8))
        else:
            block.cells.update(zip(range(at, at + count), value.to_bytes(count, "little")))

    def copy(self, to, source, count, may_overlap):
        if count == 0:
            return
        one, at = self.access(source, count, 1, False)
        other, there = self.access(to, count, 1, True)
        if not may_overlap and one is other and at != there and abs(at - there) < count:
            raise undefined("overlap")
        other.cells.update(zip(range(there, there + count), one.some(at, count)))

    def fill(self, to, byte, count):
        block, at = self.access(to, count, 1, True)
        if block is not None and count == block.size:
            block.cells, block.before = {}, byte
        elif count:
            block.cells.update(dict.fromkeys(range(at, at + count), byte))

    def string(self, pointer, most=None):
        """The bytes before the first zero, and no more than so many."""
        found = bytearray()
        while most is None or len(found) < most:
            byte = self.load(pointer, I8, 1)
            if byte == POISON:
                raise undefined("poison argument")
            if byte == 0:
                break
            found.append(byte)
            pointer = pointer[0], (pointer[1] + 1) % 2**64
        return bytes(found)


# ---- host functions: their types, and what they do with a run and the leaves of their arguments


def fixed(returns, *parameters):
    return returns, parameters, False


def write(run, data, result):
    run.output += data
    return [result]


def give(result, _):
    """A result, where something was done."""
    return result


def leave(status):
    raise End(status % 256)


def free(run, pointer):
    if pointer[1] != 0:
        run.memory.end(pointer, "heap")
    return []


def next_byte(run):
    if run.taken == len(run.input):
        return [2**32 - 1]
    run.taken += 1
    return [run.input[run.taken - 1]]


HOST = {
    "putchar": ([fixed(I32, I32)], lambda run, c: write(run, bytes([c % 256]), c % 256)),
    "puts": ([fixed(I32, PTR)], lambda run, p: write(run, run.memory.string(p) + b"\n", 0)),
    "getchar": ([fixed(I32)], next_byte),
    "exit": ([fixed(VOID, I32)], lambda run, status: leave(status)),
    "abort": ([fixed(VOID)], lambda run: leave(134)),
    "malloc": ([fixed(PTR, I64)], lambda run, size: [run.memory.add(size, 16, "heap")]),
    "free": ([fixed(VOID, PTR)], free),
    "memcpy": ([fixed(PTR, PTR, PTR, I64)], lambda run, to, source, n: give([to], run.memory.copy(to, source, n, False))),
    "memmove": ([fixed(PTR, PTR, PTR, I64)], lambda run, to, source, n: give([to], run.memory.copy(to, source, n, True))),
    "memset": ([fixed(PTR, PTR, I32, I64)], lambda run, to, byte, n: give([to], run.memory.fill(to, byte % 256, n))),
    "strlen": ([fixed(I64, PTR)], lambda run, p: [len(run.memory.string(p))]),
    "printf": ([(I32, (PTR,), True)], None),
}
for size in (I32, I64):
    HOST[f"llvm.memcpy.p0.p0.i{size[1]}"] = [fixed(VOID, PTR, PTR, size, I1)], lambda run, to, source, n, _: give([], run.memory.copy(to, source, n, False))
    HOST[f"llvm.memmove.p0.p0.i{size[1]}"] = [fixed(VOID, PTR, PTR, size, I1)], lambda run, to, source, n, _: give([], run.memory.copy(to, source, n, True))
    HOST[f"llvm.memset.p0.i{size[1]}"] = [fixed(VOID, PTR, I8, size, I1)], lambda run, to, byte, n, _: give([], run.memory.fill(to, byte, n))
for word in ("start", "end"):
    HOST[f"llvm.lifetime.{word}.p0"] = [fixed(VOID, I64, PTR), fixed(VOID, PTR)], lambda run, *_: []

INTRINSIC = re.compile(rf"llvm\.({'|'.join(map(re.escape, sorted(intrinsics.STEMS, key=len, reverse=True)))})\.i([1-9][0-9]*)")
CONVERSION = re.compile(r"%([-0+ ]*)([0-9]*)((?:\.[0-9]*)?)(hh|h|ll|l|j|z|t|)([diuxXocs])")


@functools.lru_cache(None)
def intrinsic(name):
    """The type of an intrinsic over integers and what gives its result, or None."""
    found = INTRINSIC.fullmatch(name)
    if not found or int(found[2]) > 128 or found[1] == "bswap" and int(found[2]) % 16:
        return None
    stem, width = found[1], int(found[2])
    ty = ("int", width)
    count = 1 if stem in intrinsics.UNARY else 3 if stem in intrinsics.FUNNEL else 2
    given = [ty, I1] if stem in intrinsics.ASKED else [ty] * count

    def leaves(_, *operands):
        result = intrinsics.result(stem, width, [None if leaf == POISON else leaf for leaf in operands])
        return [POISON if leaf is None else leaf for leaf in (result if isinstance(result, tuple) else [result])]

    return [fixed(("struct", False, (ty, I1)) if stem in intrinsics.TOLD else ty, *given)], leaves


def host_function(name):
    """The types of a host function and what it does, or None."""
    return HOST.get(name) or intrinsic(name)


def converted(memory, conversion, arguments):
    """What a conversion writes of the next argument."""
    flags, width, precision, length, kind = conversion.groups()
    if int("0" + width) > 4095 or int("0" + precision[1:]) > 4095 or length and kind in "cs" or not arguments:
        raise undefined("bad format")
    shape, leaf = arguments.popleft()
    if shape != (PTR if kind == "s" else I64 if length in ("l", "ll", "j", "z", "t") else I32):
        raise undefined("bad format")
    if leaf == POISON:
        raise undefined("poison argument")
    if kind == "s":
        text = memory.string(leaf, int("0" + precision[1:]) if precision else None)
        return printf.text(flags, width, precision, kind, text.decode("latin-1"))
    return printf.text(flags, width, precision, kind, chr(leaf % 256)) if kind == "c" else printf.number(flags, width, precision, length, kind, leaf)


def printed(memory, shapes, leaves):
    """What `printf` writes."""
    if leaves[0] == POISON:
        raise undefined("poison argument")
    pattern, at, text = memory.string(leaves[0]).decode("latin-1"), 0, ""
    arguments = collections.deque(zip(shapes[1:], leaves[1:]))
    while at < len(pattern):
        conversion = CONVERSION.match(pattern, at)
        if pattern[at] != "%" or pattern.startswith("%%", at):
            text, at = text + pattern[at], at + (2 if pattern[at] == "%" else 1)
        elif conversion:
            text, at = text + converted(memory, conversion, arguments), conversion.end()
        else:
            raise undefined("bad format")
    return text.encode("latin-1")


# ---- constants


def shifted(bounds, pointer, is_inbounds, terms):
    """A pointer moved by a sum of indices, with their widths, times sizes."""
    if pointer == POISON or any(index == POISON for index, _, _ in terms):
        return POISON
    exact = pointer[1] + sum(scalars.minus(64, scalars.minus(width, index) % 2**64) * size for index, width, size in terms)
    found = bounds(pointer) if is_inbounds else None
    if found and not (found[0] <= pointer[1] <= found[1] and found[0] <= exact <= found[1]):
        return POISON
    return pointer[0], exact % 2**64


def converted_leaf(word, flags, source, target, leaf):
    """The result of a cast."""
    if word == "ptrtoint" and leaf != POISON:
        return leaf[1] % 2 ** target[1]
    if word == "inttoptr" and leaf != POISON:
        return None, leaf % 2**64
    return POISON if leaf == POISON else scalars.cast(word, flags, source[1], target[1], leaf)


def computed(word, flags, width, one, other):
    """The result of a binary instruction."""
    try:
        return scalars.binary(word, flags, width, one, other)
    except scalars.Undefined as kind:
        raise undefined({"DivisionByZero": "division by zero", "DivisionOverflow": "division overflow"}[str(kind)]) from None


def zeros(shape):
    """A value of zeros; a null pointer has the address 0."""
    return [(None, 0) if leaf == PTR else 0 for _, leaf in slots(shape)]


class Constants:
    """What the constants of a part are: shapes by its structs, names by what they mean in it."""

    def __init__(self, side, part):
        self.side, self.part, self.shape = side, part, part.shape

    def address(self, name):
        symbol = self.side.symbol_in(self.part.number, name)
        word = self.side.meaning(symbol)[0]
        if word in ("null", "unresolved"):
            return (None, 0) if word == "null" else POISON
        return self.side.placed[self.side.behind(symbol)]

    def bounds(self, pointer):
        """Where the variable lies that a pointer is to."""
        if pointer[0] is None:
            return None
        symbol, size, _ = self.side.roomed[pointer[0]]
        start = self.side.placed[symbol][1]
        return start, start + size

    def leaves(self, ty, form):
        """The leaves of a constant."""
        word, shape = form[0], self.shape(ty)
        if word == "integer":
            return [form[1] % 2 ** shape[1]]
        if word in ("undef", "zero", "poison"):
            return [POISON] * leaves_of(shape) if word == "poison" else zeros(shape)
        if word == "list":
            return [leaf for element in form[1] for leaf in self.leaves(*element)]
        if word == "bytes":
            return list(form[1].encode("latin-1"))
        return [self.leaf(form)]

    def leaf(self, form):
        """A constant that is a pointer or an expression."""
        if form[0] in ("null", "global"):
            return (None, 0) if form[0] == "null" else self.address(form[1])
        if form[0] == "cast":
            _, word, source, value, target = form
            return converted_leaf(word, (), source, target, self.leaves(source, value)[0])
        if form[0] == "binary":
            _, word, flags, ty, one, other = form
            return computed(word, flags, ty[1], self.leaves(ty, one)[0], self.leaves(ty, other)[0])
        _, flags, source, operands = form
        indices = [(self.leaves(ty, value)[0], ty[1]) for ty, value in operands[1:]]
        return shifted(self.bounds, self.leaves(*operands[0])[0], "inbounds" in flags, terms(self.shape(source), indices))

    def stores(self, ty, form, at):
        """What lies where in fresh memory, which is zero, when a constant is stored: offsets, leaves' shapes and leaves."""
        shape = self.shape(ty)
        if form[0] == "list":
            for n, element in enumerate(form[1]):
                yield from self.stores(*element, at + inside(shape, n)[1])
        elif form[0] not in ("zero", "undef"):
            for (offset, leaf), value in zip(slots(shape), self.leaves(ty, form)):
                yield at + offset, leaf, value


def terms(shape, indices):
    """The indices of a getelementptr with their widths and the sizes that they count; a field is so many bytes away."""
    found = [(*indices[0], size_of(shape))] if indices else []
    for index, width in indices[1:]:
        if shape[0] == "array":
            shape = shape[2]
            found.append((index, width, size_of(shape)))
        else:
            shape, offset, _ = inside(shape, index)
            found.append((offset, 64, 1))
    return found


# ---- functions


# Where the type of a result stands in a form.
WHERE_TYPE = {"binary": 3, "cast": 5, "freeze": 1, "phi": 1, "load": 1}


class Code:
    """A function of a part, its instructions made ready: each is a function of a run and a frame."""

    def __init__(self, constants, function):
        self.constants, self.function, self.shape = constants, function, constants.shape
        self.signature = constants.part.signature(function.returns, [ty for ty, _ in function.parameters], function.variadic)
        self.shapes = {name: self.shape(ty) for ty, name in function.parameters}
        for block in function.blocks.values():
            self.shapes.update((name, self.result(form)) for name, form in block if name is not None)
        self.weight = 1 + sum(map(leaves_of, self.shapes.values()))
        self.ready = {name: None for name in function.blocks}

    def actions(self, name):
        """The instructions of a block behind its phis; they are made ready where the block is first entered."""
        if self.ready[name] is None:
            self.ready[name] = [self.action(name, result, form) for result, form in self.function.blocks[name] if form[0] != "phi"]
        return self.ready[name]

    def result(self, form):
        """The shape of what an instruction gives."""
        word = form[0]
        if word in ("select", "extract", "insert"):
            shape = self.shape(form[2][0] if word == "select" else form[1][0])
            for index in form[2] if word == "extract" else ():
                shape = inside(shape, index)[0]
            return shape
        if word in ("icmp", "alloca", "gep"):
            return I1 if word == "icmp" else PTR
        return self.shape(form[1][0] if word == "call" else form[WHERE_TYPE[word]])

    def value(self, ty, value):
        """What gives the leaves of a value, of the values of a frame."""
        if value[0] == "local":
            return operator.itemgetter(value[1])
        known = self.constants.leaves(ty, value)
        return lambda values: known

    def leaf(self, ty, value):
        """The same of the one leaf of an integer or a pointer."""
        if value[0] == "local":
            name = value[1]
            return lambda values: values[name][0]
        known = self.constants.leaves(ty, value)[0]
        return lambda values: known

    def edge(self, source, target):
        """What goes from a block to another: its phis are read together."""
        phis = [(name, form[1], form[2]) for name, form in self.function.blocks[target] if form[0] == "phi"]
        moves = [(name, self.value(ty, incoming[source])) for name, ty, incoming in phis if source in incoming]

        def follow(frame):
            frame.values.update([(name, value(frame.values)) for name, value in moves])
            frame.block, frame.position = self.actions(target), 0
        return follow

    def action(self, block, result, form):
        """What an instruction does to a run and the newest frame."""
        made = getattr(self, "do_" + form[0])
        if form[0] in ("br", "branch", "switch"):
            return made(block, *form[1:])
        if form[0] in ("store", "ret", "unreachable"):
            return made(*form[1:])
        if form[0] in ("call", "alloca"):
            return made(result, *form[1:])
        gives = made(*form[1:])

        def act(run, frame):
            frame.values[result] = gives(run, frame.values)
        return act

    def do_binary(self, word, flags, ty, one, other):
        a, b, width = self.leaf(ty, one), self.leaf(ty, other), ty[1]
        return lambda run, values: [computed(word, flags, width, a(values), b(values))]

    def do_icmp(self, predicate, flags, ty, one, other):
        a, b = self.leaf(ty, one), self.leaf(ty, other)

        def address(leaf):
            return leaf[1] if leaf != POISON else POISON

        if ty == PTR:
            return lambda run, values: [scalars.icmp(predicate, flags, 64, address(a(values)), address(b(values)))]
        return lambda run, values: [scalars.icmp(predicate, flags, ty[1], a(values), b(values))]

    def do_cast(self, word, flags, source, value, target):
        a = self.leaf(source, value)
        return lambda run, values: [converted_leaf(word, flags, source, target, a(values))]

    def do_select(self, condition, one, other):
        which, arms = self.leaf(*condition), (self.value(*other), self.value(*one))

        def chosen(_, values):
            number = which(values)
            return [POISON] * len(arms[0](values)) if number == POISON else arms[number](values)
        return chosen

    def do_freeze(self, ty, value):
        a, fresh = self.value(ty, value), zeros(self.shape(ty))
        return lambda run, values: [zero if leaf == POISON else leaf for leaf, zero in zip(a(values), fresh)]

    def do_load(self, ty, address, align):
        a, shape = self.leaf(PTR, address), self.shape(ty)
        aligned = align_of(shape) if align is None else align
        return lambda run, values: run.loaded(a(values), aligned, slots(shape))

    def do_store(self, ty, value, address, align):
        a, v, shape = self.leaf(PTR, address), self.value(ty, value), self.shape(ty)
        aligned = align_of(shape) if align is None else align
        return lambda run, frame: run.stored(a(frame.values), aligned, slots(shape), v(frame.values))

    def do_alloca(self, result, ty, count, align):
        n, size = self.leaf(*count), size_of(self.shape(ty))
        aligned = align_of(self.shape(ty)) if align is None else align

        def act(run, frame):
            number = n(frame.values)
            if number == POISON:
                raise undefined("poison argument")
            pointer = run.memory.add(number * size, aligned, "stack")
            frame.allocas.append(pointer)
            frame.values[result] = [pointer]
        return act

    def do_gep(self, flags, source, operands):
        base, shape, is_inbounds = self.leaf(*operands[0]), self.shape(source), "inbounds" in flags
        indices = [(self.leaf(*operand), operand[0][1]) for operand in operands[1:]]

        def moved(run, values):
            return [shifted(run.memory.bounds, base(values), is_inbounds, terms(shape, [(index(values), width) for index, width in indices]))]
        return moved

    def do_call(self, result, written, callee, arguments):
        signature, called = self.constants.part.signature(*written), self.leaf(PTR, callee)
        shapes = [self.shape(ty) for ty, _ in arguments]
        given = [self.value(*argument) for argument in arguments]

        def act(run, frame):
            leaves = [value(frame.values) for value in given]
            address = called(frame.values)
            if address == POISON:
                raise undefined("poison address")
            run.call(address[1], signature, shapes, leaves, result)
        return act

    def part_of(self, ty, indices):
        """Where the leaves of a part of a value begin and end."""
        shape, begin = self.shape(ty), 0
        for index in indices:
            shape, _, before = inside(shape, index)
            begin += before
        return begin, begin + leaves_of(shape)

    def do_extract(self, whole, indices):
        value, (begin, end) = self.value(*whole), self.part_of(whole[0], indices)
        return lambda run, values: value(values)[begin:end]

    def do_insert(self, whole, new, indices):
        value, other, (begin, end) = self.value(*whole), self.value(*new), self.part_of(whole[0], indices)
        return lambda run, values: [*value(values)[:begin], *other(values), *value(values)[end:]]

    def do_ret(self, operand):
        value = self.value(*operand) if operand else lambda values: []
        return lambda run, frame: run.leave(value(frame.values))

    def do_unreachable(self):
        def act(run, frame):
            raise undefined("unreachable")
        return act

    def do_br(self, block, target):
        follow = self.edge(block, target)
        return lambda run, frame: follow(frame)

    def do_branch(self, block, condition, one, other):
        number, edges = self.leaf(I1, condition), (self.edge(block, other), self.edge(block, one))

        def act(run, frame):
            which = number(frame.values)
            if which == POISON:
                raise undefined("branch on poison")
            edges[which](frame)
        return act

    def do_switch(self, block, ty, value, otherwise, cases):
        number, last = self.leaf(ty, value), self.edge(block, otherwise)
        edges = {}
        for case, target in cases:
            edges.setdefault(self.constants.leaves(ty, case)[0], self.edge(block, target))

        def act(run, frame):
            which = number(frame.values)
            if which == POISON:
                raise undefined("branch on poison")
            edges.get(which, last)(frame)
        return act


# ---- a run


class Side(Parts):
    """Parts side by side, with what a run of them needs: places, and functions by their numbers."""

    def __init__(self, texts):
        super().__init__(texts, lambda name: host_function(name) is not None)
        if self.conflict():
            return
        self.roomed, self.placed = self.rooms(), self.places()
        self.constants = [Constants(self, part) for part in self.parts]
        self.codes = {}

    def callee(self, address):
        """What an address has: a Code, the name of a host function, or None."""
        number, rest = divmod(address - 2**62, 16)
        if address < 2**62 or rest or number >= len(self.functions):
            return None
        if number not in self.codes:
            word, *more = self.meaning(self.functions[number])
            is_code = word == "definition" and more[0].kind == "function"
            self.codes[number] = Code(self.constants[more[0].part], more[0]) if is_code else more[0] if word == "host" else None
        return self.codes[number]

    def main(self):
        """The address of main and whether it takes arguments, or None."""
        symbol = (None, "main")
        if symbol not in self.entries or self.homes[self.behind(symbol)] is None or self.homes[self.behind(symbol)].kind != "function":
            return None
        address = self.placed[self.behind(symbol)][1]
        signature = self.callee(address).signature
        return {fixed(I32): (address, False), fixed(I32, I32, PTR): (address, True)}.get(signature)

    def constructors(self):
        """The addresses of constructors, in the order in which they are called."""
        symbol, found = (None, "llvm.global_ctors"), []
        for part, ty, form in self.pieces(symbol) if self.homes.get(symbol) else []:
            priority, function = self.constants[part].leaves(ty, form)[:2]
            found += [(priority, function[1])] if function[1] else []
        return [address for _, address in sorted(found, key=lambda it: it[0])]


class Frame:
    """A function under way: its values by their names, its block's instructions, and the name that its caller has for the result."""

    __slots__ = ("code", "values", "block", "position", "allocas", "to")

    def __init__(self, code, values, to):
        self.code, self.values, self.to, self.allocas = code, values, to, []
        self.block, self.position = code.actions(next(iter(code.function.blocks))), 0


class Run:
    """A run of parts: opened, and advanced up to a bound of steps."""

    def __init__(self, side, words, given):
        self.side, self.input, self.taken, self.output = side, given, 0, bytearray()
        self.memory, self.frames, self.due, self.steps, self.weight = Memory(), [], collections.deque(), 0, 0
        self.ended = None
        self.tried(lambda: self.open(words))

    def tried(self, act):
        try:
            act()
        except End as end:
            self.ended = end.told

    def open(self, words):
        """Memory as it is at first, and what is to be entered."""
        missing = self.side.missing()
        if missing:
            raise End(123, f"unresolved {spelled(missing[1])}")
        main = self.side.main()
        if main is None:
            raise End(123, "no main")
        for symbol, size, align in self.side.roomed:
            self.memory.add(size, align, "constant" if self.side.homes[symbol].kind == "variable" and self.side.homes[symbol].constant else "variable")
        arguments = self.arguments(words) if main[1] else []
        for symbol, _, _ in self.side.roomed:
            self.initial(symbol)
        self.memory.is_sealed = True
        self.due.extend((address, fixed(VOID), []) for address in self.side.constructors())
        self.due.append((main[0], fixed(I32, I32, PTR) if main[1] else fixed(I32), arguments))

    def arguments(self, words):
        """The count of the words, and a pointer to the array of them."""
        pointers = []
        for word in words:
            pointers.append(self.memory.add(len(word) + 1, 1, "variable"))
            for k, byte in enumerate(word):
                self.memory.store((pointers[-1][0], pointers[-1][1] + k), I8, 1, byte)
        array = self.memory.add(8 * (len(words) + 1), 8, "variable")
        for k, pointer in enumerate([*pointers, (None, 0)]):
            self.memory.store((array[0], array[1] + 8 * k), PTR, 1, pointer)
        return [[len(words)], [array]]

    def initial(self, symbol):
        """What a variable holds at first."""
        number, start = self.side.placed[symbol]
        at = 0
        for part, ty, form in self.side.pieces(symbol):
            constants = self.side.constants[part]
            for offset, leaf, value in constants.stores(ty, form, at):
                self.memory.store((number, start + offset), leaf, 1, value)
            at += size_of(constants.shape(ty))

    def loaded(self, pointer, align, places):
        """The leaves of a value, the first one at an alignment."""
        if pointer == POISON:
            raise undefined("poison address")
        return [self.memory.load((pointer[0], (pointer[1] + offset) % 2**64), leaf, 1 if n else align) for n, (offset, leaf) in enumerate(places)]

    def stored(self, pointer, align, places, value):
        if pointer == POISON:
            raise undefined("poison address")
        for n, ((offset, leaf), it) in enumerate(zip(places, value)):
            self.memory.store((pointer[0], (pointer[1] + offset) % 2**64), leaf, 1 if n else align, it)

    def call(self, address, signature, shapes, leaves, to):
        """Enters the function at an address, or has the host do its work."""
        callee = self.side.callee(address)
        if callee is None:
            raise undefined("no function")
        if isinstance(callee, str):
            self.host(callee, signature, shapes, [leaf for value in leaves for leaf in value], to)
            return
        if callee.signature != signature:
            raise undefined("another function type")
        if self.weight + callee.weight > 4194304:
            raise End(121, "stack limit")
        self.weight += callee.weight
        names = [name for _, name in callee.function.parameters]
        self.frames.append(Frame(callee, dict(zip(names, leaves)), to))

    def host(self, name, signature, shapes, leaves, to):
        signatures, does = host_function(name)
        if signature not in signatures:
            raise undefined("another function type")
        if name == "printf":
            text = printed(self.memory, shapes, leaves)
            result = write(self, text, len(text) % 2**32)
        elif POISON in leaves and not intrinsic(name):
            raise undefined("poison argument")
        else:
            result = does(self, *leaves)
        self.hand(to, result)

    def hand(self, to, value):
        """The result goes to the function that called, if one did."""
        if self.frames and to is not None:
            self.frames[-1].values[to] = value

    def leave(self, value):
        """The newest frame is left, and its allocas end."""
        frame = self.frames.pop()
        self.weight -= frame.code.weight
        for pointer in frame.allocas:
            self.memory.end(pointer, "stack")
        if not self.frames and not self.due:
            raise undefined("poison argument") if value[0] == POISON else End(value[0] % 256)
        self.hand(frame.to, value)

    def advance(self, bound):
        """Goes on until so many steps were made: the status and the line of the end."""
        if self.ended is None:
            self.tried(lambda: self.advanced(bound))
        return self.ended or (124, "steps used up")

    def advanced(self, bound):
        while True:
            while not self.frames and self.due:
                address, signature, leaves = self.due.popleft()
                self.call(address, signature, signature[1], leaves, None)
            if self.steps >= bound:
                return
            self.steps += 1
            frame = self.frames[-1]
            frame.position += 1
            frame.block[frame.position - 1](self, frame)
