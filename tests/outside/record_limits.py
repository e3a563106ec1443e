#!/usr/bin/env python3
"""The counts of structs, variables, functions and aliases that bitcode may have (docs/bitcode.md, rule 7): 262,144 are taken, and the record of one more
is refused; of aliases the variables count with them. Streams of version 1, some 0.9 MB each, in which each record is by an abbreviation; the index of
the record that is told is counted by hand.

    tests/outside/record_limits.py [PROGRAM]    ./ir-tools, unless another is named
"""
import pathlib
import subprocess
import sys

sys.dont_write_bytecode = True
ROOT = pathlib.Path(__file__).resolve().parents[2]
sys.path.insert(0, str(ROOT / "tests"))
from assemble import ALIAS, FUNCTION, PRODUCER, VARIABLE, Bits, in_line, record, top
from record_spellings import FIXED, LITERAL, defined

DEFINE = 7
LIMIT = 262_144
NAME = [(FIXED, 8)] * 3


def number(of, width):
    """A number as bits, the least significant first."""
    return "".join(str(of >> place & 1) for place in range(width))


def put(putter):
    """What the encoder of tests/assemble.py puts, as bits."""
    out = Bits()
    putter(out)
    return "".join(str(int(bit)) for bit in out.bits)


def block(outer, of, at, inside):
    """A block that begins at that bit and has what is made of the bit behind its count of words."""
    head = number(1, outer) + put(lambda out: out.vbr(of, 8)) + put(lambda out: out.vbr(3, 4))
    head += "0" * (-(at + len(head)) % 32)
    bits = inside(at + len(head) + 32) + "000"
    bits += "0" * (-(at + len(head) + len(bits)) % 32)
    return head + number(len(bits) // 32, 32) + bits


def many(fields, count):
    """A definition of these literals round a name, and so many records by it, each with another name of three bytes."""
    names = (number(1 + k // 65_025 % 255, 8) + number(1 + k // 255 % 255, 8) + number(1 + k % 255, 8) for k in range(count))
    return put(defined(*fields)) + "".join("001" + name for name in names)


def structs(at, count):
    fields = [(LITERAL, DEFINE), (LITERAL, 2), (LITERAL, 0), *NAME]
    return block(3, 17, at, lambda _: many(fields, count))


def entries(code, zeros, first, at, count):
    """Behind the one type `i8` and this variable, so many records of that code, of which all but the name is 0."""
    listed = block(3, 17, at, lambda _: put(record(1, 8)))
    return listed + first + many([(LITERAL, code), (LITERAL, 3), *NAME, *[(LITERAL, 0)] * zeros], count)


X = put(record(VARIABLE, *in_line(b"x"), 0, 0, 0, 0, 1, 1, 1))

# What is behind VERSION, how many of it are the most, and the block and index of the next. The producer and VERSION are records 0 and 1, `i8` is 2,
# and `@x` is 3.
ROWS = [
    (structs, LIMIT, 17, 2 + LIMIT),
    (lambda at, count: entries(VARIABLE, 5, "", at, count), LIMIT, 8, 3 + LIMIT),
    (lambda at, count: entries(FUNCTION, 5, "", at, count), LIMIT, 8, 3 + LIMIT),
    (lambda at, count: entries(ALIAS, 4, X, at, count), LIMIT - 1, 8, 4 + LIMIT - 1),
]


def stream(behind, count):
    front = top(PRODUCER)
    version = put(record(1, 1))
    bits = block(2, 8, 8 * len(front), lambda at: version + behind(at + len(version), count))
    return front + int(bits[::-1], 2).to_bytes(len(bits) // 8, "little")


def main():
    program = sys.argv[1] if len(sys.argv) > 1 else str(ROOT / "ir-tools")
    wrong = 0
    for behind, most, of, at in ROWS:
        for count, told in [(most, b""), (most + 1, f"llvm-dis: -: bad record {at} in block {of}, rule 7\n".encode())]:
            run = subprocess.run([program, "llvm-dis", "-", "-o", "-"], input=stream(behind, count), stdout=subprocess.DEVNULL, stderr=subprocess.PIPE)
            if (run.returncode, run.stderr) != (1 if told else 0, told):
                wrong += 1
                print(f"{count} in block {of}: status {run.returncode}, {run.stderr[:120]}")
    print(f"{2 * len(ROWS)} streams, {wrong} wrong")
    return 1 if wrong else 0


if __name__ == "__main__":
    sys.exit(main())
