#!/usr/bin/env python3
"""Writes the stored input and output of crates/stream_table.

The streams are laid out here bit by bit, or are files that llvm-as-19 made. What each comes to is told by a reader of
the container that stands in this file and shares nothing with the program, and was written from the format's
description (LLVM Bitcode File Format). What llvm-bcanalyzer-19 says of the files of LLVM was taken down by hand, and
stands beside them in ANALYZER.

    tests/streams.py            writes the stored input and output
    tests/streams.py --check    tells whether they are what it would write
"""
import sys

sys.dont_write_bytecode = True
from stored import store

MAGIC = bytes.fromhex("4243c0de")
LETTERS = "abcdefghijklmnopqrstuvwxyzABCDEFGHIJKLMNOPQRSTUVWXYZ0123456789._"


class Fault(Exception):
    pass


class Bits:
    """A place in the bits of some bytes."""

    def __init__(self, data):
        self.number = int.from_bytes(data, "little")
        self.size = 8 * len(data)
        self.at = 0

    def fixed(self, width):
        if self.at + width > self.size:
            raise Fault("Truncated", self.at)
        value = (self.number >> self.at) & ((1 << width) - 1)
        self.at += width
        return value

    def vbr(self, width):
        begin, value, shift = self.at, 0, 0
        while True:
            if self.at + width > self.size:
                raise Fault("Truncated", begin)
            chunk = self.fixed(width)
            data = chunk & ((1 << (width - 1)) - 1)
            if shift >= 64 or data << shift >= 1 << 64:
                raise Fault("VbrTooLong", begin)
            value |= data << shift
            shift += width - 1
            if not chunk >> (width - 1):
                return value

    def align(self):
        rest = -self.at % 32
        if self.at + rest > self.size:
            raise Fault("Truncated", self.at)
        self.at += rest


class Block:
    def __init__(self, number, width, given, count_bit=0, words=0):
        self.number, self.width, self.given, self.own = number, width, list(given), []
        self.count_bit, self.words, self.target = count_bit, words, None


def operand(bits, left, first):
    """One operand of a definition; `left` counts it and those behind it."""
    begin = bits.at
    if bits.fixed(1):
        return ("literal", bits.vbr(8)), begin
    at = bits.at
    encoding = bits.fixed(3)
    if encoding in (1, 2):
        width_at = bits.at
        width = bits.vbr(5)
        if width == 0:
            return ("literal", 0), width_at
        if encoding == 1 and width > 64 or encoding == 2 and (width == 1 or width > 32):
            raise Fault("BadAbbreviation", width_at)
        return (("fixed", "vbr")[encoding - 1], width), at
    if encoding == 3 and not first and left == 2:
        return ("array",), at
    if encoding == 4:
        return ("char6",), at
    if encoding == 5 and not first and left == 1:
        return ("blob",), at
    raise Fault("BadAbbreviation", at)


def definition(bits):
    at = bits.at
    count = bits.vbr(5)
    if not 1 <= count <= 64:
        raise Fault("BadAbbreviation", at)
    operands = []
    for left in range(count, 0, -1):
        if operands and operands[-1] == ("array",):
            begin = bits.at
            if bits.fixed(1):
                raise Fault("BadAbbreviation", begin)
            bits.at = begin
            element, place = operand(bits, 0, True)
            if element[0] == "literal":
                raise Fault("BadAbbreviation", place)
            operands.append(element)
        else:
            operands.append(operand(bits, left, not operands)[0])
    return operands


def value(bits, kind):
    if kind[0] == "literal":
        return kind[1]
    if kind[0] == "fixed":
        return bits.fixed(kind[1])
    if kind[0] == "vbr":
        return bits.vbr(kind[1])
    return ord(LETTERS[bits.fixed(6)])


def record(bits, operands, info):
    """The code, the operands, and the blob or None, by the operands of an abbreviation."""
    at = bits.at
    code = value(bits, operands[0])
    if code >= 1 << 32:
        raise Fault("BadAbbreviation", at)
    values, blob = [], None

    def one(kind):
        at = bits.at
        number = value(bits, kind)
        if info and code == 1 and not values and number >= 1 << 32:
            raise Fault("BadAbbreviation", at)
        values.append(number)

    index = 1
    while index < len(operands):
        kind = operands[index]
        if kind[0] == "array":
            for _ in range(bits.vbr(6)):
                one(operands[index + 1])
            break
        if kind[0] == "blob":
            size = bits.vbr(6)
            bits.align()
            if bits.at + 8 * size > bits.size:
                raise Fault("Truncated", bits.at)
            blob = bytes(bits.fixed(8) for _ in range(size))
            bits.align()
            break
        one(kind)
        index += 1
    return code, values, blob


def enter(bits, stack, given):
    at = bits.at
    number = bits.vbr(8)
    if number >= 1 << 32:
        raise Fault("BadAbbreviation", at)
    if len(stack) == 17:
        raise Fault("NestedTooDeep", at)
    at = bits.at
    width = bits.vbr(4)
    if not 2 <= width <= 32:
        raise Fault("BadAbbreviation", at)
    bits.align()
    at = bits.at
    words = bits.fixed(32)
    stack.append(Block(number, width, given.get(number, []), at, words))
    return ("block", number, width, words)


UNABBREVIATED = [("vbr", 6), ("array",), ("vbr", 6)]


def entries(data):
    """The entries and definitions of a stream, one by one, or a fault."""
    if data[:4] != MAGIC:
        raise Fault("BadMagic", 0)
    bits = Bits(data)
    bits.at = 32
    stack, given = [Block(None, 2, [])], {}
    while True:
        block = stack[-1]
        if len(stack) == 1 and bits.at == bits.size:
            yield ("whole",)
            return
        at = bits.at
        number = bits.fixed(block.width)
        info = block.number == 0
        if len(stack) == 1 and number != 1 or number == 1 and info:
            raise Fault("BadAbbreviation", at)
        if number == 0:
            bits.align()
            if (bits.at - block.count_bit) // 32 - 1 != block.words:
                raise Fault("BadBlockLength", block.count_bit)
            stack.pop()
            yield ("end", block.number)
        elif number == 1:
            yield enter(bits, stack, given)
        elif number == 2:
            if info and block.target is None:
                raise Fault("BadAbbreviation", at)
            operands = definition(bits)
            if info:
                there = given.setdefault(block.target, [])
                there.append(operands)
                yield ("define", 3 + len(there), operands)
            else:
                block.own.append(operands)
                yield ("define", 3 + len(block.given) + len(block.own), operands)
        else:
            known = block.given + block.own
            if number == 3:
                operands = UNABBREVIATED
            elif number - 4 < len(known):
                operands = known[number - 4]
            else:
                raise Fault("BadAbbreviation", at)
            code, values, blob = record(bits, operands, info)
            if info and code == 1:
                if not values:
                    raise Fault("BadAbbreviation", at)
                block.target = values[0]
            yield ("record", code, number, values, blob)


def spelled(kind):
    return " ".join(str(part) for part in kind)


def read_row(data):
    told = []
    try:
        for entry in entries(data):
            if entry[0] == "block":
                told.append("block {} width {} words {}".format(*entry[1:]))
            elif entry[0] == "end":
                told.append("end")
            elif entry[0] == "define":
                told.append("define {}:".format(entry[1]) + "".join(" " + spelled(kind) for kind in entry[2]))
            elif entry[0] == "record":
                _, code, number, values, blob = entry
                text = f"record {code} by {number}:" + "".join(f" {one}" for one in values)
                if blob is not None:
                    text += " blob" + "".join(f" {byte}" for byte in blob)
                told.append(text)
            else:
                told.append("whole")
    except Fault as fault:
        # definitions that no entry follows are not told
        while told and told[-1].startswith("define"):
            told.pop()
        told.append("{} {}".format(*fault.args))
    return "; ".join(told)


def tree_row(data):
    told = ""
    try:
        for entry in entries(data):
            if entry[0] == "block":
                told += f"block {entry[1]}; "
            elif entry[0] == "end":
                told += "end; "
            elif entry[0] == "record":
                _, code, _, values, blob = entry
                told += f"record {code}:" + "".join(f" {one}" for one in values) + " blob"
                told += "".join(f" {byte}" for byte in blob or b"") + "; "
    except Fault as fault:
        return "{} {}".format(*fault.args)
    return told


def judge_row(data):
    try:
        list(entries(data))
    except Fault as fault:
        return "{} {}".format(*fault.args)
    return "whole"


def dump(data, whole):
    """The text that tells a stream."""
    lines, stack, rows = [], [], {}
    total = [0, 0, 0]

    def count(which, number):
        total[which] += 1
        rows.setdefault(number, [0, 0, 0])[which] += 1

    for entry in entries(data):
        if entry[0] == "end":
            stack.pop()
        indent = "  " * len(stack)
        if entry[0] == "block":
            lines.append(indent + "block {} width {} words {}".format(*entry[1:]))
            stack.append(entry[1])
            count(0, entry[1])
        elif entry[0] == "end":
            lines.append(f"{indent}end {entry[1]}")
        elif entry[0] == "define":
            lines.append(f"{indent}abbreviation {entry[1]}: " + ", ".join(spelled(kind) for kind in entry[2]))
            count(2, stack[-1])
        elif entry[0] == "record":
            _, code, number, values, blob = entry
            text = f"{indent}record {code} by {number}:" + "".join(f" {one}" for one in values)
            lines.append(text + (f" blob {len(blob)}" if blob is not None else ""))
            count(1, stack[-1])
    told = lines if whole else []
    for number in sorted(rows):
        told = told + ["block {}: {} blocks, {} records, {} abbreviations".format(number, *rows[number])]
    told = told + ["total: {} blocks, {} records, {} abbreviations".format(*total)]
    return "".join(line + "\n" for line in told)


# --- the streams -----------------------------------------------------------------------------------------------------

EMPTY_MODULE = bytes.fromhex(
    "4243c0de350c0000060000001a644c108328cd8daeecac4c0e044eeecd2c8dad0c240600210c0000060000001a644cd0822048c4000000000100"
    "00000000000000000000"
)

# a count of 2^64 - 1 operands, and no operand
GREAT_COUNT = bytes.fromhex(
    "4243c0de210c0000000000000b40100441100483a2288aa2288aa2288aa2288aa2288aa2288aa2288aa2288aa2288aa2288aa2288aa2288aa228"
    "8aa2288aa200"
)

# BLOCKINFO gives block 9 two abbreviations; that block has one of its own, with an array of letters and with a blob
ABBREVIATED = bytes.fromhex(
    "4243c0de01080000020000000741e21062080000251000000c000000740330ff74808c0b64b4d0a00000000068656c6c6f00000042c808302236"
    "0819d81f2308c1ffffffffffffffffff0300"
)

LONG_VBR = bytes.fromhex("4243c0de" + "fd" + "ff" * 11)
SEVENTEEN = MAGIC + bytes.fromhex("2108000000000000") * 17

# each of the rules on abbreviations, broken once, with the bit of the field that is refused
REFUSED = [
    ("the top level holds a definition", "4243c0de02000000", 32),
    ("an id that is not defined", "4243c0de210c00000000000004000000", 96),
    ("a width of 1", "4243c0de2104000000000000", 42),
    ("a width of 33", "4243c0de2124010000000000", 42),
    ("a block id of 2^32", "4243c0de01020202420c000000000000", 34),
    ("no operands", "4243c0de210c00000000000002000000", 99),
    ("65 operands", "4243c0de210c0000000000008a040000", 99),
    ("encoding 0", "4243c0de210c0000000000000a000000", 105),
    ("encoding 6", "4243c0de210c0000000000000a0c0000", 105),
    ("a field of 65 bits", "4243c0de210c0000000000000a120900", 108),
    ("chunks of 1 bit", "4243c0de210c0000000000000a140000", 108),
    ("chunks of 33 bits", "4243c0de210c0000000000000a140500", 108),
    ("an array that is first", "4243c0de210c00000000000012860000", 105),
    ("an array that is last", "4243c0de210c00000000000012680000", 109),
    ("an array that is third to last", "4243c0de210c00000000000022680000", 109),
    ("an element that is a literal", "4243c0de210c0000000000001a680f00", 112),
    ("an element that is an array", "4243c0de210c0000000000001a680600", 113),
    ("an element that is a blob", "4243c0de210c0000000000001a680a00", 113),
    ("an element of 0 bits", "4243c0de210c0000000000001a680200", 116),
    ("a blob that is first", "4243c0de210c0000000000000a0a0000", 105),
    ("a blob that is not last", "4243c0de210c0000000000001aa80000", 109),
    ("a code of 2^32", "4243c0de210c0000000000000341100441020000", 99),
    ("a block in BLOCKINFO", "4243c0de010c0000000000004118000000000000", 96),
    ("a definition before its block is named", "4243c0de010c0000000000000a080000", 96),
    ("a record that names no block", "4243c0de010c0000000000000b000000", 96),
    ("a named block of 2^32", "4243c0de010c0000000000000b02100441102400", 111),
]

# what llvm-as-19 makes of a module of three lines: a function `main` of type `i32 ()` that returns 0
THREE_LINES = bytes.fromhex(
    "4243c0de3514000005000000620c30244a59be66ddfbb5bf0b51804c01000000210c0000390100000b02210002000000190000000781239141c8"
    "0449061032399201840c250508191e048b62800c450242920b42641032143808184b0a3232884870c421234412878c1041920264c808b1142043"
    "468820c901323284580e9091214490a182a20219c307cb1519328c8c25101d3a74c80000892000000a00000022660410b24282c910524282c990"
    "71c250480a092643c605423226080a9a230083126420600400001a210c4900feb20ca900420000000000000000000000002000890d02457b0200"
    "00623100c30000003308801cc4e11c6614013d88433884c38c4280077978077398710ce6000fed100ef4800e330c421ec2c11dcea11c6630053d"
    "88433884831bcc033dc8433d8c033dcc788c7470077b08077948877070077a700376788770208719cc110eec900ee1300f6e300fe3f00ef0500e"
    "3310c41dde211cd8211dc2611e6630893bbc833bd04339b4033cbc833c84033bccf0147660077b68073768877268073780877090877060077628"
    "0776f8057678877780875f08877118877298877998812ceef00eeee00ef5c00eec300362c8a11ce4a11ccca11ce4a11cdc611cca211cc4811dca"
    "6106d6904339c84339984339c84339b8c33894433888033b94c32fbc833cfc823bd4033bb0c30cc7698770588772708374680778608774188774"
    "a08719ce530fee000ff2500ee4900ee3400fe1200eec500e3320281ddcc11ec2411ed2211cdc811edce01ce4e11dea011e66185138b0433a9c83"
    "3bcc50247660077b68073760877778077898514cf4900ff0500e331e6a1eca611ce8211ddec11d7e011ee4a11ccc211df0610654858338ccc33b"
    "b0433dd04339fcc23ce4433b88c33bb0c38cc50a877998877718877408077a28077298815ce3100eecc00ee5500ef33023c1d2411ee4e117d8e1"
    "1dde011e6648193bb0833db4831b84c3388c4339ccc33cb8c139c8c33bd4033ccc48b471080776600771088771588719dbc60eec600fede006f0"
    "200fe5300fe5200ff6500e6e100ee3300ee5300ff3e006e9e00ee4500ef83023e2ec611cc2811dd8e117ec211de6211dc4211dd8211de8211f66"
    "209d3bbc433db80339948339cc58bc7070077778077a08077a488777708719cbe70eef300fe1e00ee9400fe9a00fe530c3010373a8077718875f"
    "988770708774a08774d087729881844139e0c338b0433d904339cc40c4a01dcaa11de0411edec11c662463300ee1c00eec300fe9400fe5304321"
    "837518077348875fa0877c80877298b194013c8cc33c94c338d0433abc833bccc38cc50c48211542611ee6211dcec11d528114664c67300eef20"
    "0fefe006ef500ff4300fe9400ee5e006e6200fe1d00ee530a3408376680779080700a91800002d0000000b0a7228877780077a587098433db8c3"
    "38b04339d0c382e61cc6a10de8411ec2c11de6211de8211ddec11d1634e3600ee7500fe1200fe4400fe1200fe7500ef4b0808107792887706007"
    "7678877108077a28077258709cc338b4013ba4833d94c3026b1cd8211cdce11cdc201ce4611cdc201ce8811ec2611cd0a11cc8611cc2811dd861"
    "c1010ff4200fe1500ff4800e0b8875180773488705cf38bc833bd84339c8c33994833b8c43398c033dc8033b00000000d11000000600000007cc"
    "3ca4833b9c033b94033da0833c94433890c30100000061200000050000001304412c1000000001000000941100001c0000007120000003000000"
    "320e10228400b60200000000000000005d0c0000060000001203940e6d61696e31392e312e37612e6c6c000000000000"
)

# what llvm-bcanalyzer-19 tells of it outside BLOCKINFO: a block by its id; a record by its code, its count of operands, the
# sum of each operand times its place from 1, and the length of its blob; and the end of a block
TOLD = """
block 13; 1 10 3059 0; 2 1 0 0; end; block 8; 1 1 2 0; block 17; 1 1 5 0; 25 1 0 0; 7 1 32 0; 21 2 2 0; 16 0 0 0
2 0 0 0; end; 16 4 945 0; 8 21 94 0; 13 1 317 0; block 22; 6 4 906 0; 6 5 1400 0; 6 5 1522 0; 6 7 2888 0; 6 6 2084 0; 6 12 8090 0
6 15 11951 0; 6 12 7807 0; 6 8 3718 0; 6 12 8349 0; 6 30 47979 0; 6 8 3876 0; 6 16 13886 0; 6 24 31526 0; 6 14 10759 0; 6 14 10855 0; 6 16 14183 0; 6 6 2130 0
6 10 5614 0; 6 5 1567 0; 6 15 12853 0; 6 16 14677 0; 6 11 6835 0; 6 8 3717 0; 6 9 4828 0; 6 18 17406 0; 6 9 4509 0; 6 27 37816 0; 6 17 16537 0; 6 8 3723 0
6 11 7117 0; 6 11 7128 0; 6 14 11249 0; 6 8 3741 0; 6 8 3828 0; 6 9 4758 0; 6 10 5848 0; 6 11 7133 0; 6 11 5945 0; 6 19 18960 0; 6 5 1526 0; end
block 21; 1 5 1663 0; 1 7 3020 0; 1 13 9764 0; 1 13 9743 0; 1 12 8132 0; 1 7 2808 0; 1 22 25235 0; 1 7 3083 0; 1 4 1031 0; 1 15 12844 0; end
block 26; 1 12 8160 0; 1 0 0 0; end; block 12; 1 1 1 0; block 11; 1 1 1 0; 2 0 0 0; end; 10 1 1 0; end
block 14; 3 2 620 0; end; end; block 23; 1 0 0 14; end
"""

# what llvm-as-19 makes of a module with two variables, a declared function, and one of four blocks
FOUR_BLOCKS = bytes.fromhex(
    "4243c0de3514000005000000620c30244a59be66ddfbb5bf0b51804c01000000210c0000650100000b02210002000000190000000781239141c8"
    "0449061032399201840c250508191e048b628010450242920b42841032143808184b0a3242884870c421234412878c1041920264c808b1142043"
    "468820c901324284580e9011224490a182a20219c307cb1519428c8c25101d3a74c80000892000000d00000022660410b2428209115242820991"
    "71c250480a092644c60542422608149a23407220e608c0a0080345981908982308a6004600004a0f08111241868c1409013442189660fc652140"
    "804201eea08200188201000000000000080400008654024100010000000000000000000008c090ca200a0000000000000000000000000190d820"
    "50382d0000200b04000005000000321e980c19114c908c092647c604439215800000b1180000c30000003308801cc4e11c6614013d88433884c3"
    "8c4280077978077398710ce6000fed100ef4800e330c421ec2c11dcea11c6630053d88433884831bcc033dc8433d8c033dcc788c7470077b0807"
    "7948877070077a700376788770208719cc110eec900ee1300f6e300fe3f00ef0500e3310c41dde211cd8211dc2611e6630893bbc833bd04339b4"
    "033cbc833c84033bccf0147660077b680737688772680737808770908770600776280776f8057678877780875f08877118877298877998812cee"
    "f00eeee00ef5c00eec300362c8a11ce4a11ccca11ce4a11cdc611cca211cc4811dca6106d6904339c84339984339c84339b8c33894433888033b"
    "94c32fbc833cfc823bd4033bb0c30cc7698770588772708374680778608774188774a08719ce530fee000ff2500ee4900ee3400fe1200eec500e"
    "3320281ddcc11ec2411ed2211cdc811edce01ce4e11dea011e66185138b0433a9c833bcc50247660077b68073760877778077898514cf4900ff0"
    "500e331e6a1eca611ce8211ddec11d7e011ee4a11ccc211df0610654858338ccc33bb0433dd04339fcc23ce4433b88c33bb0c38cc50a87799887"
    "7718877408077a28077298815ce3100eecc00ee5500ef33023c1d2411ee4e117d8e11dde011e6648193bb0833db4831b84c3388c4339ccc33cb8"
    "c139c8c33bd4033ccc48b471080776600771088771588719dbc60eec600fede006f0200fe5300fe5200ff6500e6e100ee3300ee5300ff3e006e9"
    "e00ee4500ef83023e2ec611cc2811dd8e117ec211de6211dc4211dd8211de8211f66209d3bbc433db80339948339cc58bc7070077778077a0807"
    "7a488777708719cbe70eef300fe1e00ee9400fe9a00fe530c3010373a8077718875f988770708774a08774d087729881844139e0c338b0433d90"
    "4339cc40c4a01dcaa11de0411edec11c662463300ee1c00eec300fe9400fe5304321837518077348875fa0877c80877298b194013c8cc33c94c3"
    "38d0433abc833bccc38cc50c48211542611ee6211dcec11d528114664c67300eef200fefe006ef500ff4300fe9400ee5e006e6200fe1d00ee530"
    "a3408376680779080700a91800002d0000000b0a7228877780077a587098433db8c338b04339d0c382e61cc6a10de8411ec2c11de6211de8211d"
    "dec11d1634e3600ee7500fe1200fe4400fe1200fe7500ef4b08081077928877060077678877108077a28077258709cc338b4013ba4833d94c302"
    "6b1cd8211cdce11cdc201ce4611cdc201ce8811ec2611cd0a11cc8611cc2811dd861c1010ff4200fe1500ff4800e0b8875180773488705cf38bc"
    "833bd84339c8c33994833b8c43398c033dc8033b00000000d11000000600000007cc3ca4833b9c033b94033da0833c94433890c3010000006120"
    "00001a0000001304442c10000000020000003445510e00000000c30d836006b30c81108c1814000882017124b30403168308cc120c0315031108"
    "0207e1400a000000b6105496104417300488710285c400cb620541630881600a017303c4e034c401144433451800000000000000712000000300"
    "0000320e10228403cd0200000000000000005d0c000007000000120394146770707574736d61696e31392e312e376d2e6c6c00000000"
)

# its summary by llvm-bcanalyzer-19, taken down by hand: by the id of a block its instances, records and abbreviations
ANALYZER = {
    0: (1, 3, 20), 8: (1, 7, 3), 11: (2, 5, 4), 12: (1, 9, 0), 13: (1, 2, 2), 14: (2, 10, 1), 17: (1, 11, 6),
    21: (1, 10, 0), 22: (1, 41, 0), 23: (1, 1, 1), 26: (1, 2, 0),
}


class Writer:
    """Streams laid out bit by bit."""

    def __init__(self):
        self.bits = []
        self.open = []
        self.put(0xDEC04342, 32)

    def put(self, number, width):
        self.bits += [number >> place & 1 for place in range(width)]
        return self

    def vbr(self, number, width):
        while number >> (width - 1):
            self.put(number & ((1 << (width - 1)) - 1) | 1 << (width - 1), width)
            number >>= width - 1
        return self.put(number, width)

    def align(self):
        return self.put(0, -len(self.bits) % 32)

    def enter(self, number, width, outer):
        self.put(1, outer).vbr(number, 8).vbr(width, 4).align()
        self.open.append(len(self.bits))
        return self.put(0, 32)

    def end(self, width):
        self.put(0, width).align()
        at = self.open.pop()
        words = (len(self.bits) - at) // 32 - 1
        self.bits[at:at + 32] = [words >> place & 1 for place in range(32)]
        return self

    def define(self, width, operands):
        self.put(2, width).vbr(len(operands), 5)
        for kind in operands:
            if kind[0] == "literal":
                self.put(1, 1).vbr(kind[1], 8)
            else:
                self.put(0, 1).put(["fixed", "vbr", "array", "char6", "blob"].index(kind[0]) + 1, 3)
                if len(kind) > 1:
                    self.vbr(kind[1], 5)
        return self

    def record(self, width, code, operands):
        self.put(3, width).vbr(code, 6).vbr(len(operands), 6)
        for number in operands:
            self.vbr(number, 6)
        return self

    def data(self):
        return sum(bit << place for place, bit in enumerate(self.bits)).to_bytes((len(self.bits) + 7) // 8, "little")


def each_operand():
    """Each kind of operand of a definition, and a record by each."""
    w = Writer().enter(20, 4, 2)
    w.define(4, [("literal", 5), ("fixed", 7), ("vbr", 6), ("fixed", 0), ("vbr", 0), ("literal", 300), ("fixed", 64)])
    w.define(4, [("fixed", 3), ("array",), ("char6",)])
    w.define(4, [("vbr", 4), ("char6",), ("blob",)])
    w.define(4, [("literal", 2), ("array",), ("fixed", 1)])
    w.put(4, 4).put(127, 7).vbr(1000, 6).put(2**64 - 1, 64)
    w.put(5, 4).put(6, 3).vbr(3, 6).put(0, 6).put(63, 6).put(62, 6)
    w.put(5, 4).put(1, 3).vbr(0, 6)
    w.put(6, 4).vbr(9, 4).put(26, 6).vbr(3, 6).align().put(0x030201, 24).align()
    w.put(6, 4).vbr(10, 4).put(52, 6).vbr(0, 6).align().align()
    w.put(7, 4).vbr(0, 6)
    return w.end(4).data()


def blockinfo():
    """BLOCKINFO gives definitions to blocks 30 and 31 by turns; a block of 31 defines one more; the ids descend."""
    w = Writer().enter(0, 3, 2)
    w.record(3, 1, [31]).define(3, [("literal", 1)]).define(3, [("literal", 2), ("vbr", 6)])
    w.record(3, 1, [30]).define(3, [("fixed", 4)])
    w.record(3, 1, [31, 9]).define(3, [("literal", 3), ("array",), ("fixed", 8)])
    w.record(3, 2, [7]).end(3)
    w.enter(31, 5, 2).define(5, [("literal", 4), ("blob",)])
    w.put(4, 5).put(5, 5).vbr(77, 6).put(6, 5).vbr(2, 6).put(255, 8).put(0, 8)
    w.put(7, 5).vbr(1, 6).align().put(65, 8).align()
    w.enter(30, 3, 5).put(4, 3).put(15, 4).end(3).end(5)
    w.enter(30, 6, 2).put(4, 6).put(0, 4).end(6)
    return w.data()


def definitions_alone():
    """A block with two definitions behind a record, and then only its end."""
    w = Writer().enter(40, 3, 2).record(3, 2**32 - 1, [2**64 - 1])
    return w.define(3, [("char6",)]).define(3, [("vbr", 32)]).end(3).data()


def early_definition():
    """A definition, and then an id that is not defined: no entry follows."""
    return Writer().enter(9, 3, 2).define(3, [("fixed", 3)]).put(7, 3).align().data()


def nested():
    """Sixteen blocks, one in the other."""
    w = Writer().enter(1, 2, 2)
    for number in range(2, 17):
        w.enter(number, 2, 2)
    for _ in range(16):
        w.end(2)
    return w.data()


def long_text():
    """A block whose text is longer than what is gathered for one write."""
    w = Writer().enter(50, 3, 2)
    for number in range(1500):
        w.record(3, number % 20, [number % 30] * 10)
    return w.end(3).data()


LAID_OUT = [each_operand(), blockinfo(), definitions_alone(), early_definition(), nested()]

CUTS = [0, 4, 8, 12, 16, 20, 24, 28, 32, 36, 40, 44, 48, 52, 56, 60, 64, 68]

# where the container's own table says that a cut module stops
CUT_AT = {8: 64, 12: 96, 16: 126, 20: 157, 24: 189, 28: 221, 32: 253, 40: 320, 44: 352, 48: 382, 52: 414, 56: 448, 60: 480,
          64: 512}


def changed():
    data = bytearray(EMPTY_MODULE)
    data[8] = 7
    return bytes(data)


def stream_rows():
    rows = []

    def row(word, data, answer):
        rows.append((f"{word} {data.hex()}", f"{word} {answer}"))

    for length in CUTS:
        data = EMPTY_MODULE[:length]
        answer = read_row(data)
        if length in CUT_AT:
            assert answer.endswith(f"Truncated {CUT_AT[length]}"), (length, answer)
        elif length:
            assert answer.endswith("whole")
        row("read", data, answer)
    for data, fault in [(changed(), "BadBlockLength 64"), (LONG_VBR, "VbrTooLong 34"), (SEVENTEEN, "NestedTooDeep 1058"),
                        (GREAT_COUNT, "Truncated 507")]:
        answer = read_row(data)
        assert answer.endswith(fault), (answer, fault)
        row("read", data, answer)
        row("judge", data, fault)
    for _, data, bit in REFUSED:
        data = bytes.fromhex(data)
        answer = read_row(data)
        assert answer.endswith(f"BadAbbreviation {bit}"), (answer, bit)
        row("read", data, answer)
    for data in [ABBREVIATED] + LAID_OUT:
        row("read", data, read_row(data))
        row("tree", data, tree_row(data))
        row("judge", data, judge_row(data))
    row("tree", EMPTY_MODULE[:36], tree_row(EMPTY_MODULE[:36]))
    row("tree", changed(), "BadBlockLength 64")
    told = "".join(one.strip() + "; " for line in TOLD.strip().split("\n") for one in line.split(";"))
    row("sums", THREE_LINES, told)
    row("judge", FOUR_BLOCKS, "whole")
    row("fields", MAGIC + bytes.fromhex("6810"), "40 1")
    rows.append(("write forty", "write 4243c0de6800"))
    rows.append(("write first block", "write " + EMPTY_MODULE[:36].hex()))
    two = Writer().enter(8, 3, 2).record(3, 1, [1, 40]).enter(17, 4, 3).end(4).end(3).put(9, 4).data()
    rows.append(("write two blocks", "write " + two.hex()))
    return rows


def dump_rows():
    rows = []
    streams = [EMPTY_MODULE, MAGIC, b"define i32 @main() { ret i32 0 }", ABBREVIATED, THREE_LINES, FOUR_BLOCKS] + LAID_OUT
    streams += [changed(), LONG_VBR, SEVENTEEN, GREAT_COUNT]
    streams += [EMPTY_MODULE[:length] for length in CUTS] + [bytes.fromhex(data) for _, data, _ in REFUSED]
    for data in streams:
        for word in ("whole", "counts"):
            try:
                answer = "\n" + dump(data, word == "whole")
            except Fault as fault:
                answer = " {} {}\n".format(*fault.args)
            rows.append((f"{word} {data.hex()}", word + answer))
    for data in (long_text(), FOUR_BLOCKS):
        # the first call of the sink takes 100 bytes, the second fails
        rows.append((f"short {data.hex()}", "short WriteFault\n" + dump(data, True)[:100] + "\n"))
    rows.append((f"whole {long_text().hex()}", "whole\n" + dump(long_text(), True)))
    for number, counts in ANALYZER.items():
        line = "block {}: {} blocks, {} records, {} abbreviations\n".format(number, *counts)
        assert line in dump(FOUR_BLOCKS, False), line
    assert dump(FOUR_BLOCKS, False).count("\n") == len(ANALYZER) + 1
    return rows


def main():
    streams, dumps = stream_rows(), dump_rows()
    stdin = "".join(line + "\n" for line, _ in streams + dumps)
    stdout = "".join([answer + "\n" for _, answer in streams] + [answer for _, answer in dumps])
    store("stream_table", stdin.encode(), stdout.encode())


if __name__ == "__main__":
    main()
