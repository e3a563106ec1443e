#!/usr/bin/env python3
"""A second reading of docs/running.md, 'Blocks', 'Access' and 'Cells': plays the calls of the section
`memory` of crates/leaf_table in Python, and compares.

A block is its bytes, and what of them is poison or a piece of a pointer. It stands outside the gate.

    tests/outside/memory.py         tells where it answers otherwise than crates/leaf_table/stdout
"""
import pathlib
import sys

sys.dont_write_bytecode = True
sys.path.insert(0, str(pathlib.Path(__file__).resolve().parents[1]))
from stored import CRATES, sections

LIMIT = 2**28
KINDS = ("variable", "constant", "stack", "heap")


class Undefined(Exception):
    """Undefined behaviour, by its name."""


class Barred(Exception):
    """A call that memory cannot be asked."""


class Block:
    """A live block: its start, its kind, its bytes, and what of them is poison or piece k of a pointer, by offset."""

    def __init__(self, start, size, kind):
        self.start, self.kind, self.bytes, self.marks = start, kind, bytearray(size), {}

    def cell(self, at):
        return self.marks.get(at, self.bytes[at])

    def put(self, at, cells):
        for k, cell in enumerate(cells):
            self.marks.pop(at + k, None)
            if isinstance(cell, int):
                self.bytes[at + k] = cell
            else:
                self.marks[at + k] = cell


def scalar(word):
    """poison, a number, or a pointer: its block or None, and its address."""
    if word == "poison":
        return "poison"
    if ":" not in word:
        return int(word)
    block, address = word.split(":")
    return None if block == "-" else int(block), int(address)


def shown(value):
    """As leaf_table prints it."""
    if isinstance(value, tuple):
        return f"{'-' if value[0] is None else value[0]}:{value[1]}"
    return str(value)


def size_of(leaf):
    return 8 if leaf == "ptr" else (int(leaf[1:]) + 7) // 8


def byte_of(cell):
    """A cell as a byte: a piece is a byte of its address."""
    return cell if isinstance(cell, int) else cell[0][1] >> 8 * cell[1] & 255


class Memory:
    def __init__(self):
        self.blocks, self.next, self.sealed = [], 65536, False

    def live(self):
        return sum(len(block.bytes) for block in self.blocks if block)

    def known(self, value):
        """A pointer's block is one that was made."""
        if isinstance(value, int) or (isinstance(value, tuple) and value[0] is not None and value[0] >= len(self.blocks)):
            raise Barred
        return value

    def add(self, size, align, kind):
        if align not in [2**k for k in range(17)]:
            raise Barred
        if self.live() + size > LIMIT:
            return "too many live bytes"
        start = -(-self.next // align) * align
        self.blocks.append(Block(start, size, kind))
        self.next = start + size + 16
        return f"{len(self.blocks) - 1}:{start}"

    def end(self, pointer, kind):
        if self.known(pointer) is None or kind not in KINDS[2:]:
            raise Barred
        if pointer != "poison":
            for number, block in enumerate(self.blocks):
                if block and block.start == pointer[1] and block.kind == kind and pointer[0] in (None, number):
                    self.blocks[number] = None
                    return "done"
        raise Undefined("bad free")

    def bounds(self, pointer):
        block = None if self.known(pointer)[0] is None else self.blocks[pointer[0]]
        return f"{block.start} to {block.start + len(block.bytes)}" if block else "none"

    def access(self, pointer, count, align, writes):
        """The block and the offset, or the first check that fails."""
        if self.known(pointer) == "poison":
            raise Undefined("poison address")
        number, address = pointer
        if number is None:
            homes = [block for block in self.blocks if block and block.start <= address and address + count <= block.start + len(block.bytes)]
            block = homes[0] if homes else None
        else:
            block = self.blocks[number]
            if block is None:
                raise Undefined("ended block")
        if block is None or address < block.start or address + count > block.start + len(block.bytes):
            raise Undefined("outside a block")
        if writes and self.sealed and block.kind == "constant":
            raise Undefined("write to constant")
        if address % align:
            raise Undefined("misaligned")
        return block, address - block.start

    def load(self, address, leaf, align):
        self.may(leaf, "poison")
        block, at = self.access(address, size_of(leaf), align, False)
        cells = [block.cell(at + k) for k in range(size_of(leaf))]
        if None in cells:
            return "poison"
        if leaf == "ptr" and isinstance(cells[0], tuple) and cells == [(cells[0][0], k) for k in range(8)]:
            return shown(cells[0][0])
        number = sum(byte_of(cell) << 8 * k for k, cell in enumerate(cells))
        return shown((None, number)) if leaf == "ptr" else str(number % 2 ** int(leaf[1:]))

    def may(self, leaf, value):
        """A leaf of 1 to 128 bits or a pointer, and a value of it."""
        if leaf == "ptr":
            if isinstance(value, int):
                raise Barred
            self.known(value)
        elif not 1 <= int(leaf[1:]) <= 128 or isinstance(value, tuple) or (isinstance(value, int) and value >= 2 ** int(leaf[1:])):
            raise Barred

    def store(self, address, leaf, align, value):
        self.may(leaf, value)
        block, at = self.access(address, size_of(leaf), align, True)
        if value == "poison":
            cells = [None] * size_of(leaf)
        elif leaf == "ptr":
            cells = [(value, k) for k in range(8)]
        else:
            cells = [value >> 8 * k & 255 for k in range(size_of(leaf))]
        block.put(at, cells)
        return "done"

    def fill(self, to, byte, count):
        if self.known(to) == "poison":
            raise Undefined("poison address")
        if count:
            block, at = self.access(to, count, 1, True)
            block.bytes[at : at + count] = bytes([byte]) * count
            block.marks = {k: mark for k, mark in block.marks.items() if not at <= k < at + count}
        return "done"

    def copy(self, to, source, count, may_overlap):
        self.known(to)
        self.known(source)
        if count == 0:
            return "done"
        one, at = self.access(source, count, 1, False)
        other, place = self.access(to, count, 1, True)
        if not may_overlap and one is other and at != place and abs(at - place) < count:
            raise Undefined("overlap")
        moved = {k - at + place: mark for k, mark in one.marks.items() if at <= k < at + count}
        other.bytes[place : place + count] = bytes(one.bytes[at : at + count])
        other.marks = {k: mark for k, mark in other.marks.items() if not place <= k < place + count} | moved
        return "done"


def answer(memory, line):
    word, *rest = line.split()
    if word == "add":
        return memory.add(int(rest[0]), int(rest[1]), rest[2])
    if word == "end":
        return memory.end(scalar(rest[0]), rest[1])
    if word == "bounds":
        return memory.bounds(scalar(rest[0]))
    if word == "seal":
        memory.sealed = True
        return "done"
    if word == "live":
        return str(memory.live())
    if len(rest) < 3:
        return "no such call"
    if word == "load":
        return memory.load(scalar(rest[0]), rest[1], int(rest[2]))
    if word == "store":
        return memory.store(scalar(rest[0]), rest[1], int(rest[2]), scalar(rest[3]))
    if word == "fill":
        return memory.fill(scalar(rest[0]), int(rest[1]), int(rest[2]))
    return memory.copy(scalar(rest[0]), scalar(rest[1]), int(rest[2]), rest[3] == "may")


def rows(file):
    return sections((CRATES / "leaf_table" / file).read_bytes())["memory"].decode().splitlines()


def main():
    memory, wrong, calls = Memory(), 0, 0
    for line, expected in zip(rows("stdin"), rows("stdout"), strict=True):
        if line.startswith("#"):
            memory, here = Memory(), line
        else:
            calls += 1
            try:
                here = f"{line}: {answer(memory, line)}"
            except Undefined as kind:
                here = f"{line}: undefined behaviour: {kind}"
            except Barred:
                here = f"{line}: barred"
        if here != expected:
            wrong += 1
            print(f"{expected}\n  here {here}")
    print(f"{calls} calls, {wrong} otherwise")
    sys.exit(1 if wrong else 0)


if __name__ == "__main__":
    main()
