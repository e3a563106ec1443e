#!/usr/bin/env python3
"""The scalar instructions over Python's whole numbers, written from the LLVM Language Reference.

    tests/scalars.py             writes the section `scalars` of crates/leaf_table
    tests/scalars.py --check     tells whether they are what it would write
    tests/scalars.py --module    prints the rows as LLVM constants to fold, to compare with opt outside the gate

A line of stdin is an instruction, whose line of stdout has the results on all operands of 4 bits, or a row with operands of its own.
Integers are numbers from 0 to 2**width - 1. POISON is poison, and an undefined result is an exception.
"""
import itertools
import sys

sys.dont_write_bytecode = True
from stored import store_section

POISON = "poison"


class Undefined(Exception):
    pass


def minus(width, number):
    """The number as a signed one: the sign bit weighs -2**(width - 1)."""
    top = number >> (width - 1)
    return number - (top << width)


def bits(width, whole):
    return whole & ((1 << width) - 1)


def representable(width, whole, sign):
    """Whether reading the low bits back gives the same whole number."""
    low = bits(width, whole)
    return (minus(width, low) if sign else low) == whole


def wrapping(flags, width, unsigned, signed):
    if "nuw" in flags and not representable(width, unsigned, False):
        return POISON
    if "nsw" in flags and not representable(width, signed, True):
        return POISON
    return bits(width, unsigned)


def toward_zero(a, b):
    size = abs(a) // abs(b)
    return size if (a < 0) == (b < 0) else -size


def shift_left(flags, width, a, b):
    if b >= width:
        return POISON
    result = bits(width, a << b)
    if "nuw" in flags and result >> b != a:
        return POISON
    # bits shifted out must agree with the resulting sign bit
    if "nsw" in flags and minus(width, result) >> b != minus(width, a):
        return POISON
    return result


def shift_right(flags, width, a, b, sign):
    if b >= width:
        return POISON
    if "exact" in flags and (a >> b) << b != a:
        return POISON
    return bits(width, minus(width, a) >> b) if sign else a >> b


def binary(op, flags, width, a, b):
    if op in ("udiv", "sdiv", "urem", "srem"):
        if b == POISON or b == 0:
            raise Undefined("DivisionByZero")
    if POISON in (a, b):
        return POISON
    sa, sb = minus(width, a), minus(width, b)
    if op in ("sdiv", "srem") and a == 1 << (width - 1) and sb == -1:
        raise Undefined("DivisionOverflow")
    if op == "add":
        return wrapping(flags, width, a + b, sa + sb)
    if op == "sub":
        return wrapping(flags, width, a - b, sa - sb)
    if op == "mul":
        return wrapping(flags, width, a * b, sa * sb)
    if op == "udiv":
        return POISON if "exact" in flags and a % b else a // b
    if op == "urem":
        return a % b
    if op == "sdiv":
        quotient = toward_zero(sa, sb)
        return POISON if "exact" in flags and quotient * sb != sa else bits(width, quotient)
    if op == "srem":
        return bits(width, sa - toward_zero(sa, sb) * sb)
    if op == "shl":
        return shift_left(flags, width, a, b)
    if op in ("lshr", "ashr"):
        return shift_right(flags, width, a, b, op == "ashr")
    if op == "and":
        return a & b
    if op == "or":
        return POISON if "disjoint" in flags and a & b else a | b
    assert op == "xor"
    return a ^ b


def icmp(predicate, flags, width, a, b):
    if POISON in (a, b):
        return POISON
    if "samesign" in flags and (a ^ b) >> (width - 1):
        return POISON
    if predicate[0] == "s":
        a, b = minus(width, a), minus(width, b)
    tests = {"eq": a == b, "ne": a != b, "gt": a > b, "ge": a >= b, "lt": a < b, "le": a <= b}
    return int(tests[predicate if predicate in ("eq", "ne") else predicate[1:]])


def cast(op, flags, source, target, a):
    if a == POISON:
        return POISON
    if op == "trunc":
        result = bits(target, a)
        if "nuw" in flags and result != a:
            return POISON
        if "nsw" in flags and minus(target, result) != minus(source, a):
            return POISON
        return result
    if op == "zext":
        return POISON if "nneg" in flags and a >> (source - 1) else a
    if op == "sext":
        return bits(target, minus(source, a))
    assert op in ("ptrtoint", "inttoptr")
    return bits(target, a)


WRAPS = [(), ("nuw",), ("nsw",), ("nuw", "nsw")]
EXACT = [(), ("exact",)]
BINARY = [
    ("add", WRAPS), ("sub", WRAPS), ("mul", WRAPS), ("udiv", EXACT), ("sdiv", EXACT), ("urem", [()]),
    ("srem", [()]), ("shl", WRAPS), ("lshr", EXACT), ("ashr", EXACT), ("and", [()]),
    ("or", [(), ("disjoint",)]), ("xor", [()]),
]
PREDICATES = ["eq", "ne", "ugt", "uge", "ult", "ule", "sgt", "sge", "slt", "sle"]


def chosen_binary():
    """Rows at the edges of each instruction and flag, over many widths."""
    widths = itertools.cycle([1, 7, 8, 32, 64, 65, 127, 128])
    for op, sets in BINARY:
        for flags in sets:
            seen = 0
            for width in itertools.islice(widths, 5 if len(sets) > 1 else 7):
                least, most, ones = 1 << (width - 1), (1 << (width - 1)) - 1, (1 << width) - 1
                pairs = [
                    (most, 1), (least, ones), (ones, ones), (ones, 1), (least, 1), (0, 1), (most, ones),
                    (least, least), (ones, width), (most, 2), (3 & ones, 1), (ones, POISON), (POISON, 1),
                    (least, 0), (least, width - 1), (ones, 2 & ones),
                ]
                a, b = pairs[(seen * 5 + len(op) + 3 * len(flags) + sum(map(ord, op))) % len(pairs)]
                seen += 1
                b = bits(width, b) if b != POISON else b
                yield op, flags, width, a, b
    for row in [
        ("sub", ("nuw",), 8, 0, 1), ("sdiv", (), 8, 128, 255), ("urem", (), 8, 7, POISON),
        ("shl", (), 8, 1, 8), ("ashr", ("exact",), 8, 253, 1), ("or", ("disjoint",), 4, 1, 3),
        ("sdiv", (), 128, 1 << 127, (1 << 128) - 1), ("srem", (), 128, 1 << 127, (1 << 128) - 1),
        ("mul", (), 128, 1 << 127, 2), ("mul", ("nuw",), 128, 1 << 127, 2),
        ("mul", ("nsw",), 128, 1 << 127, (1 << 128) - 1), ("mul", ("nsw",), 128, (1 << 64) - 1, 1 << 63),
        ("add", ("nsw",), 128, (1 << 127) - 1, 1), ("add", ("nuw",), 128, (1 << 128) - 1, 1),
        ("add", (), 128, (1 << 128) - 1, 2), ("sub", ("nsw",), 128, 1 << 127, 1), ("sub", (), 128, 0, 1),
        ("shl", ("nsw",), 128, (1 << 128) - 1, 127), ("shl", ("nsw",), 128, 1, 127),
        ("shl", ("nuw",), 128, 1, 127), ("ashr", (), 128, 1 << 127, 127), ("lshr", (), 128, 1 << 127, 127),
        ("srem", (), 8, 249, 2), ("srem", (), 8, 7, 254), ("sdiv", (), 8, 249, 2), ("sdiv", ("exact",), 8, 248, 2),
        ("udiv", (), 8, 7, 0), ("sdiv", (), 8, POISON, 0), ("sdiv", (), 8, POISON, 255), ("udiv", (), 8, 7, POISON),
        ("add", ("nsw",), 32, 2147483647, 1), ("sdiv", (), 1, 1, 1), ("mul", ("nsw",), 1, 1, 1),
        ("add", ("nsw",), 1, 1, 1), ("shl", ("nsw",), 1, 1, 0),
    ]:
        yield row


def chosen_compare():
    for index, predicate in enumerate(PREDICATES):
        for width in ([1, 8, 128] if index % 2 else [7, 65, 64]):
            least, ones = 1 << (width - 1), (1 << width) - 1
            a, b = [(least, 0), (0, ones), (ones, least), (least, least)][(index + width) % 4]
            yield predicate, (), width, a, b
    yield "slt", ("samesign",), 8, 255, 1
    yield "ult", ("samesign",), 8, 255, 254
    yield "sgt", ("samesign",), 128, 1 << 127, (1 << 128) - 1
    yield "eq", (), 32, POISON, 1
    yield "ne", (), 32, 1, POISON


def chosen_cast():
    for row in [
        ("trunc", ("nsw",), 16, 8, 255), ("trunc", (), 16, 8, 255), ("trunc", ("nuw",), 16, 8, 255),
        ("trunc", ("nuw",), 16, 8, 256), ("trunc", ("nsw",), 16, 8, 0xFF80), ("trunc", ("nuw",), 16, 8, 0xFF80),
        ("trunc", ("nuw", "nsw"), 128, 127, (1 << 127) - 1), ("trunc", ("nsw",), 128, 127, (1 << 127) - 1),
        ("trunc", (), 128, 1, (1 << 128) - 1), ("trunc", (), 65, 64, POISON), ("trunc", ("nsw",), 8, 1, 255),
        ("zext", ("nneg",), 8, 16, 255), ("zext", (), 8, 16, 255), ("zext", ("nneg",), 8, 16, 127),
        ("zext", (), 127, 128, (1 << 127) - 1), ("zext", ("nneg",), 1, 128, 1), ("zext", (), 7, 65, POISON),
        ("sext", (), 8, 16, 255), ("sext", (), 8, 16, 127), ("sext", (), 1, 128, 1), ("sext", (), 127, 128, 1 << 126),
        ("sext", (), 64, 65, 1 << 63), ("sext", (), 7, 8, POISON),
        ("ptrtoint", (), 64, 8, 0x10102), ("ptrtoint", (), 64, 128, (1 << 64) - 1), ("ptrtoint", (), 64, 64, POISON),
        ("inttoptr", (), 8, 64, 255), ("inttoptr", (), 128, 64, (1 << 64) + 7), ("inttoptr", (), 65, 64, POISON),
    ]:
        yield row


def leaf(value):
    return "p" if value == POISON else str(value)


def address(value):
    return "p" if value == POISON else f"at:{value}"


# what a pointer compares by, which arm is chosen, and what stands in the place of poison: written by hand
BY_HAND = [
    ("icmp eq 64 in:1:65536 at:65536", "1"), ("icmp ult 64 in:1:65536 in:1:9223372036854775808", "1"),
    ("icmp slt 64 in:1:65536 in:1:9223372036854775808", "0"),
    ("select 1 3 p", "3"), ("select 0 p 3", "3"), ("select 0 3 p", "p"), ("select p 3 3", "p"),
    ("select 1 in:2:9 p", "in:2:9"),
    ("freeze p", "0"), ("freeze pointer p", "at:0"), ("freeze 5", "5"), ("freeze pointer in:2:9", "in:2:9"),
]


def rows():
    """Instructions at edges of many widths, as (line, result)."""
    for op, flags, width, a, b in chosen_binary():
        yield " ".join((op,) + flags + (str(width), leaf(a), leaf(b))), shown(tried(binary, op, flags, width, a, b))
    for predicate, flags, width, a, b in chosen_compare():
        words = ("icmp",) + flags + (predicate, str(width), leaf(a), leaf(b))
        yield " ".join(words), shown(icmp(predicate, flags, width, a, b))
    for op, flags, source, target, a in chosen_cast():
        given = address(a) if op == "ptrtoint" else leaf(a)
        result = cast(op, flags, source, target, a)
        words = (op,) + flags + (str(source), str(target), given)
        yield " ".join(words), address(result) if op == "inttoptr" else shown(result)
    yield from BY_HAND


OPERANDS = list(range(16)) + [POISON]


def lines():
    """The instructions at width 4, as (line, results on all operands)."""
    for op, sets in BINARY:
        for flags in sets:
            yield " ".join((op,) + flags), [tried(binary, op, flags, 4, a, b) for a in OPERANDS for b in OPERANDS]
    for predicate in PREDICATES:
        for flags in [(), ("samesign",)]:
            yield " ".join(("icmp",) + flags + (predicate,)), [icmp(predicate, flags, 4, a, b) for a in OPERANDS for b in OPERANDS]
    for op, sets, targets in (("trunc", WRAPS, (1, 2, 3)), ("zext", [(), ("nneg",)], (5, 8)), ("sext", [()], (5, 8))):
        for flags in sets:
            for target in targets:
                yield " ".join((op,) + flags + (str(target),)), [cast(op, flags, 4, target, a) for a in OPERANDS]


def tried(call, *words):
    try:
        return call(*words)
    except Undefined as kind:
        return {"DivisionByZero": "zero", "DivisionOverflow": "over"}[str(kind)]


def shown(result):
    return {POISON: "p", "zero": "z", "over": "o"}.get(result) or format(result, "x")


def module():
    out = []
    for index, (op, flags, width, a, b) in enumerate(chosen_binary()):
        operand = lambda value: "poison" if value == POISON else str(value)
        words = " ".join((op,) + flags)
        out.append(f"define i{width} @f{index}() {{\n  %r = {words} i{width} {operand(a)}, {operand(b)}\n  ret i{width} %r\n}}")
    return "\n".join(out)


def stdin():
    return "".join(line + "\n" for line, _ in lines()) + "".join(f"row {line}\n" for line, _ in rows())


def stdout():
    told = "".join(line + ": " + " ".join(map(shown, results)) + "\n" for line, results in lines())
    return told + "".join(f"row {line}: {result}\n" for line, result in rows())


def main():
    if "--module" in sys.argv[1:]:
        print(module())
    else:
        store_section("leaf_table", "scalars", stdin().encode(), stdout().encode())


if __name__ == "__main__":
    main()
