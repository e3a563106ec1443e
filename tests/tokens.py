#!/usr/bin/env python3
"""Writes what crates/leaf_table prints of the texts of its section `tokens`, from the rules of tokens, words and numbers
in docs/language.md, in an implementation of its own.

    tests/tokens.py            writes the section of crates/leaf_table/stdout
    tests/tokens.py --check    tells whether it is what it would write
"""
import re
import sys

sys.dont_write_bytecode = True
from stored import CRATES, sections, store_section

NAME = rb"[-a-zA-Z$._][-a-zA-Z$._0-9]*"
STRING = rb'"((?:[^"\\]|\\[0-9a-fA-F]{2}|\\\\)*)"'
FEW = 40


def spelled(inside):
    return re.sub(rb"\\(\\|[0-9a-fA-F]{2})", lambda m: b"\\" if m[1] == b"\\" else bytes([int(m[1], 16)]), inside)


def is_name(inside):
    return inside != b"" and b"\0" not in spelled(inside)


def candidates(text, at):
    """The tokens of every kind that begin here, as (kind, length, what the string in it stands for or None)."""

    def plain(kind, pattern):
        found = re.compile(pattern).match(text, at)
        if found:
            yield kind, len(found[0]), None

    def quoted(kind, pattern, test):
        found = re.compile(pattern, re.S).match(text, at)
        if found and test(found[1]):
            yield kind, len(found[0]), spelled(found[1])

    yield from plain("Label", rb"[-a-zA-Z$._0-9]+:")
    yield from quoted("Label", STRING + rb":", is_name)
    yield from plain("Word", rb"[a-zA-Z_][a-zA-Z_0-9]*")
    yield from plain("Integer", rb"-?[0-9]+")
    for kind, number, mark in (("GlobalName", "UnnamedGlobal", rb"@"), ("LocalName", "UnnamedLocal", rb"%")):
        yield from plain(kind, mark + NAME)
        yield from quoted(kind, mark + STRING, is_name)
        yield from plain(number, mark + rb"[0-9]+")
    yield from quoted("Quoted", STRING, lambda inside: True)
    yield from quoted("ByteString", rb"c" + STRING, lambda inside: True)
    yield from plain("MetaName", rb"!" + NAME)
    yield from plain("MetaNumber", rb"![0-9]+")
    yield from plain("MetaMark", rb"!")
    yield from plain("Group", rb"#[0-9]+")
    yield from plain("RecordMark", rb"#[a-zA-Z][a-zA-Z_0-9]*")
    yield from plain("Punctuation", rb"\.\.\.|[=,()\[\]{}<>*|:]")


def tokens(text):
    """The tokens as (place, kind, spelling, string), and then the place of the end and whether it is a bad byte."""
    all_of, at = [], 0

    def place():
        return text.count(b"\n", 0, at) + 1, at - text.rfind(b"\n", 0, at)

    while True:
        at = re.compile(rb"(?:[ \t\r\n]|;[^\n]*)*").match(text, at).end()
        if at == len(text):
            return all_of, place(), False
        found = [c for c in candidates(text, at) if not (c[0] == "Word" and text[at : at + c[1]] == b"c" and text[at + c[1] : at + c[1] + 1] == b'"')]
        if not found:
            return all_of, place(), True
        kind, length, string = max(found, key=lambda c: c[1])
        all_of.append((place(), kind, text[at : at + length], string))
        at += length


MARKS = {m: 11 + n for n, m in enumerate(["=", ",", "(", ")", "[", "]", "{", "}", "<", ">", "..."])}
SINGLE = """source_filename target datalayout triple type opaque global constant declare define attributes distinct section
align x to label void ptr""".split()
ROLES = {43: "dso_local dso_preemptable default hidden protected", 44: "unnamed_addr local_unnamed_addr",
    45: "ccc fastcc coldcc", 46: """zeroext signext noext inreg noalias nocapture nonnull noundef writable returned immarg
nest allocptr allocalign dead_on_unwind""", 47: "nofree readnone readonly writeonly", 48: """alwaysinline builtin cold
convergent hot inlinehint minsize mustprogress nobuiltin nocallback noduplicate noinline norecurse noredzone noreturn nosync
nounwind optnone optsize speculatable ssp sspreq sspstrong willreturn""", 49: """dereferenceable dereferenceable_or_null sret
captures range initializes nofpclass""", 50: "memory alignstack allockind allocsize", 51: "uwtable",
    52: "tail musttail notail", 53: "true", 54: "false", 55: "null", 56: "undef", 57: "poison", 58: "zeroinitializer",
    61: "alias"}
WORDS = {w: (22 + n, None) for n, w in enumerate(SINGLE)}
WORDS.update({w: (code, None) for code, words in ROLES.items() for w in words.split()})
HOLDING = {42: """external private internal available_externally linkonce linkonce_odr weak weak_odr common appending
extern_weak""", 59: "nuw nsw exact disjoint nneg samesign inbounds nusw volatile",
    60: "eq ne ugt uge ult ule sgt sge slt sle"}
CODES = {42: range(11), 59: [1, 2, 4, 8, 16, 32, 64, 128, 256], 60: range(1, 11)}
for code, words in HOLDING.items():
    WORDS.update({w: (code, held) for w, held in zip(words.split(), CODES[code])})
OPCODES = """add sub mul udiv sdiv urem srem shl lshr ashr and or xor icmp trunc zext sext ptrtoint inttoptr select freeze
phi load store alloca getelementptr call extractvalue insertvalue ret br switch unreachable""".split()
WORDS.update({w: (100 + n, n) for n, w in enumerate(OPCODES, 1)})
LEFT_OUT = set("""half bfloat float double fp128 x86_fp80 ppc_fp128 x86_amx metadata token addrspace comdat thread_local
externally_initialized ifunc module asm uselistorder uselistorder_bb blockaddress bitcast addrspacecast fneg fadd fsub fmul
fdiv frem fcmp fptrunc fpext fptoui fptosi uitofp sitofp extractelement insertelement shufflevector atomic fence cmpxchg
atomicrmw invoke landingpad resume cleanupret catchret catchswitch catchpad cleanuppad indirectbr callbr va_arg byval byref
inalloca preallocated elementtype swiftself swifterror swiftasync personality gc prefix prologue cc strictfp naked
inrange""".split())
KINDS = {"Label": 1, "Integer": 2, "GlobalName": 3, "LocalName": 4, "UnnamedLocal": 4, "Quoted": 5, "ByteString": 6,
    "MetaName": 7, "MetaNumber": 8, "MetaMark": 9, "Group": 10, "UnnamedGlobal": 0, "RecordMark": 0}


def class_of(kind, spelling):
    """The class of a token, and what it holds, if it does."""
    if kind == "Punctuation":
        return MARKS.get(spelling, 0), None
    if kind != "Word":
        return KINDS[kind], None
    width = re.fullmatch(r"i([0-9]+)", spelling)
    if width:
        return (41, int(width[1])) if 1 <= int(width[1]) <= 128 else (0, None)
    return WORDS.get(spelling, (0, None))


def is_left_out(kind, spelling, before):
    if kind == "Word":
        width = re.fullmatch(r"i([0-9]+)", spelling)
        return spelling in LEFT_OUT or spelling[:3] in ("s0x", "u0x") or bool(width and not 1 <= int(width[1]) <= 128)
    return kind in ("UnnamedGlobal", "RecordMark") or (kind == "Integer" and before == "<") or spelling == "*"


def shown(content):
    return b" = " + b"".join(bytes([b]) if 32 <= b < 127 and b != 92 else b"\\%02x" % b for b in content)


def number(digits):
    value = int(digits)
    return b"%d %s %s" % (value, *(b"%d" % value if value < 1 << n else b"-" for n in (64, 128)))


def meaning(kind, spelling, string, held):
    if string is not None:
        return shown(string)
    if kind == "Integer":
        minus = spelling[:1] == b"-"
        return b" = " + (b"-" if minus else b"") + number(spelling[minus:])
    if kind == "Label":
        return b" = number " + number(spelling[:-1]) if spelling[:-1].isdigit() else shown(spelling[:-1])
    if kind == "UnnamedLocal":
        return b" = number " + number(spelling[1:])
    if kind in ("GlobalName", "LocalName"):
        return shown(spelling[1:])
    return b"" if held is None else b" = %d" % held


def brackets(mark, text):
    """Where the cursor stands behind skipped brackets, or at the first token that does not go on with them."""
    found, end, _ = tokens(text)
    marks = [spelling for _, kind, spelling, _ in found]
    closing, unclosed = {b"(": b")", b"[": b"]", b"{": b"}", b"<": b">"}, []
    for n, spelling in enumerate(marks):
        if mark == b"}":
            if n == 0 and spelling != b"{" or n > 0 and spelling == b"{":
                return found[n][0], False
            if n > 0 and spelling == b"}":
                return (found[n + 1][0] if n + 1 < len(found) else end), True
            continue
        if n == 0 and spelling != mark:
            return found[0][0], False
        if spelling in closing:
            unclosed.append(closing[spelling])
        elif spelling in closing.values():
            if unclosed.pop() != spelling:
                return found[n][0], False
            if not unclosed:
                return (found[n + 1][0] if n + 1 < len(found) else end), True
    return end, False


def tell(text):
    if text[:1] == b"?":
        place, skipped = brackets(text[1:2], text[2:])
        yield b"%d:%d %s" % (*place, b"skipped" if skipped else b"refused")
        return
    found, end, bad = tokens(text)
    before = ""
    for n, (place, kind, spelling, string) in enumerate(found):
        word = spelling.decode("latin-1")
        code, held = class_of(kind, word)
        out = b" (left out)" if is_left_out(kind, word, before) else b""
        before = word
        if len(found) <= FEW or n + 1 == len(found):
            yield b"%d:%d %s %d %s%s%s" % (*place, kind.encode(), code, spelling, meaning(kind, spelling, string, held), out)
    yield b"%d:%d %s behind %d" % (*end, b"bad byte" if bad else b"end", len(found))


SIZES = b"Token 32, Number 16, Integer 32, PlacedName 24, PlacedText 24, Local 32, Option<Local> 40\n"


def told(stdin):
    """What the program must print of these texts, which lines `====` separate."""
    texts = re.split(rb"\n====\n", b"\n" + stdin[:-1])
    texts[0] = texts[0][1:]
    return SIZES + b"".join(line + b"\n" for text in texts for line in tell(text))


def main():
    stdin = sections((CRATES / "leaf_table" / "stdin").read_bytes())["tokens"]
    store_section("leaf_table", "tokens", stdin, told(stdin))


if __name__ == "__main__":
    main()
