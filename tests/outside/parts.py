#!/usr/bin/env python3
"""Parts, as tests/outside/side.py runs them: a reader of the language's texts, types laid out, and what a name means where several parts
stand side by side.

Written from docs/language.md, docs/running.md ("Layout") and docs/linking.md; nothing is taken from the program. The reader is for texts that
are valid: what the language drops is passed over, and what it refuses is not looked for. Texts are in Latin-1, a character for each byte.

A type is a tuple: ("int", N), ("ptr",), ("void",), ("array", count, type), ("struct", packed, types) or ("named", name). A shape is a type
without ("named", ..), whose opaque structs are ("opaque",). A constant, a value and an instruction are tuples that begin with a word.
"""
import functools
import re

STRING = r'"(?:[^"\\]|\\[0-9a-fA-F]{2}|\\\\)*"'
NAME = rf"[-a-zA-Z$._][-a-zA-Z$._0-9]*|{STRING}"
TOKEN = re.compile(rf"""(?:[ \t\r\n]|;[^\n]*)*(?:
    (?P<label>[-a-zA-Z$._0-9]+:|{STRING}:)|(?P<bytes>c{STRING})|(?P<string>{STRING})|(?P<word>[a-zA-Z_][a-zA-Z_0-9]*)|(?P<integer>-?[0-9]+)
    |(?P<global>@(?:{NAME}))|(?P<local>%(?:{NAME}|[0-9]+))|(?P<meta>![-a-zA-Z$._0-9]*)|(?P<group>\#[0-9]+)|(?P<mark>\.\.\.|[=,()\[\]{{}}<>*|])|(?P<end>\Z))""", re.X)

LINKAGES = {"external", "private", "internal", "available_externally", "linkonce", "linkonce_odr", "weak", "weak_odr", "common", "appending", "extern_weak"}
BINARY = {"add", "sub", "mul", "udiv", "sdiv", "urem", "srem", "shl", "lshr", "ashr", "and", "or", "xor"}
CASTS = {"trunc", "zext", "sext", "ptrtoint", "inttoptr"}
FLAGS = {"nuw", "nsw", "exact", "disjoint", "nneg", "samesign", "inbounds", "nusw", "volatile"}
CALLS = {"call", "tail", "musttail", "notail"}
INSTRUCTIONS = BINARY | CASTS | CALLS | {"icmp", "select", "freeze", "phi", "load", "store", "alloca", "getelementptr", "extractvalue", "insertvalue", "ret", "br", "switch", "unreachable"}
PLAIN_CONSTANTS = {"null": "null", "undef": "undef", "poison": "poison", "zeroinitializer": "zero"}
CONSTANTS = {"true", "false", "getelementptr", *BINARY, *CASTS, *PLAIN_CONSTANTS}
ITEMS = {"source_filename", "target", "declare", "define", "attributes"}
CLOSING = {"(": ")", "[": "]", "{": "}", "<": ">"}

I1, I8, I32, I64, PTR, VOID = ("int", 1), ("int", 8), ("int", 32), ("int", 64), ("ptr",), ("void",)


def unquoted(text):
    """The characters that a string stands for, without its quotes."""
    return re.sub(r"\\(\\|[0-9a-fA-F]{2})", lambda found: "\\" if found[1] == "\\" else chr(int(found[1], 16)), text[1:-1])


def identifier(text):
    """A name as a string, or a number where it has digits alone and no quotes."""
    return unquoted(text) if text.startswith('"') else int(text) if text.isdigit() else text


def value_of(kind, text):
    """What a token holds."""
    if kind == "label":
        return identifier(text[:-1])
    if kind in ("global", "local"):
        return identifier(text[1:])
    if kind in ("bytes", "string"):
        return unquoted(text.removeprefix("c"))
    return int(text) if kind == "integer" else text


def tokens_of(text):
    """The tokens of a text, each with its kind, and one of kind `end`."""
    found, at = [], 0
    while not found or found[-1][0] != "end":
        token = TOKEN.match(text, at)
        kind = token.lastgroup
        found.append((kind, value_of(kind, token[kind])))
        at = token.end()
    return found


class Entry:
    """What a part has under a name. A function has `returns`, `parameters` (types with names), `variadic` and `blocks`; a variable `ty`,
    `align`, `constant` and `initial`; an alias `target`, and `of_function`."""

    def __init__(self, part, kind, name, linkage, **more):
        self.part, self.kind, self.name, self.linkage = part, kind, name, linkage
        self.__dict__.update(more)

    def is_variable(self):
        """Whether it is of the kind of a variable; an alias is by its type."""
        return not self.of_function if self.kind == "alias" else self.kind == "variable"

    def is_definition(self):
        """Whether it has an initialiser or a body that counts, or is an alias."""
        written = {"variable": lambda: self.initial is not None, "function": lambda: self.blocks is not None, "alias": lambda: True}[self.kind]()
        return written and self.linkage != "available_externally"

    def is_local(self):
        return self.linkage in ("private", "internal")

    def symbol(self):
        """What the name is of: a part and a name, the part None where all share it."""
        return (self.part if self.is_local() else None, self.name)


class Part:
    """The module of a text: its structs, and its entries in order, variables before functions before aliases."""

    def __init__(self, number, text):
        self.number, self.tokens, self.at = number, tokens_of(text), 0
        self.structs, entries = {}, []
        while self.kind() != "end":
            entry = self.item()
            entries += [entry] if entry else []
        self.entries = [entry for kind in ("variable", "function", "alias") for entry in entries if entry.kind == kind]

    # ---- tokens

    def kind(self, ahead=0):
        return self.tokens[self.at + ahead][0]

    def take(self):
        self.at += 1
        return self.tokens[self.at - 1][1]

    def sees(self, *texts):
        """Whether a word or mark is one of these."""
        kind, value = self.tokens[self.at]
        return kind in ("word", "mark") and value in texts

    def accept(self, text):
        """Takes this word or mark where it is there."""
        if self.sees(text):
            self.at += 1
            return True
        return False

    def expect(self, text):
        assert self.accept(text), (text, self.tokens[self.at - 3: self.at + 3])

    def bracketed(self):
        """Passes over what stands in brackets, with them."""
        closing = CLOSING[self.take()]
        while not self.sees(closing):
            if self.sees(*CLOSING):
                self.bracketed()
            else:
                self.take()
        self.take()

    def dropped(self, stop):
        """Passes over words that have no effect, up to a token of which `stop` is true; gives the linkage among them."""
        linkage = None
        while not stop():
            if self.sees(*CLOSING):
                self.bracketed()
            else:
                word = self.take()
                linkage = word if word in LINKAGES else linkage
        return linkage

    def list_of(self, closing, element):
        """What stands up to a bracket, with commas."""
        found = []
        while not self.accept(closing):
            found.append(element())
            self.accept(",")
        return found

    def metadata(self):
        """Passes over the metadata at the end of an instruction or a variable."""
        while self.sees(",") and self.kind(1) == "meta":
            self.at += 3
            if self.sees("{"):
                self.bracketed()

    def alignment(self):
        """The alignment that is stated, or None."""
        if self.sees(",") and self.tokens[self.at + 1] == ("word", "align"):
            self.at += 3
            return self.tokens[self.at - 1][1]
        return None

    # ---- items

    def item(self):
        """The next item: its entry, where it has one."""
        kind, value = self.tokens[self.at]
        if kind == "global":
            return self.named_item()
        self.take()
        if kind == "local":
            self.struct_item(value)
        elif kind == "meta" or value == "attributes":
            while not self.sees("{", "("):
                self.take()
            self.bracketed()
        elif value in ("declare", "define"):
            return self.function(value == "define")
        else:
            self.at += 3 if value == "target" else 2
        return None

    def struct_item(self, name):
        self.expect("=")
        self.expect("type")
        self.structs[name] = None if self.accept("opaque") else self.type()

    def named_item(self):
        """A variable or an alias."""
        name = self.take()
        self.expect("=")
        written = self.dropped(lambda: self.sees("global", "constant", "alias"))
        word, linkage = self.take(), written or "external"
        ty = self.type()
        if word == "alias":
            of_function = self.accept("(")
            if of_function:
                self.list_of(")", lambda: self.accept("...") or self.type())
            self.expect(",")
            self.expect("ptr")
            return Entry(self.number, "alias", name, linkage, target=self.take(), of_function=of_function)
        initial = None if written in ("external", "extern_weak") else self.constant()
        align = None
        while self.sees(","):
            stated = self.alignment()
            align = align if stated is None else stated
            if stated is None and self.kind(1) == "meta":
                self.metadata()
            elif stated is None:
                self.at += 3
        return Entry(self.number, "variable", name, linkage, ty=ty, align=align, constant=word == "constant", initial=initial)

    def in_metadata(self):
        """Whether a bracket here is one of metadata."""
        return self.tokens[self.at - 1] == ("meta", "!")

    def starts_type(self):
        kind, value = self.tokens[self.at]
        return not self.in_metadata() and (kind == "local" or self.sees("[", "{", "<", "ptr", "void") or kind == "word" and re.fullmatch("i[0-9]+", value) is not None)

    def function(self, is_defined):
        linkage = self.dropped(self.starts_type) or "external"
        returns = self.type()
        name = self.take()
        self.expect("(")
        given = self.list_of(")", self.parameter)
        self.counter = 0
        parameters = [(ty, self.numbered(local)) for ty, local in filter(None, given)]
        self.dropped(lambda: self.sees("{") and not self.in_metadata() if is_defined else self.starts_item())
        blocks = self.body() if is_defined else None
        return Entry(self.number, "function", name, linkage, returns=returns, parameters=parameters, variadic=None in given, blocks=blocks)

    def starts_item(self):
        return self.kind() in ("end", "local", "global", "meta") or self.sees(*ITEMS)

    def parameter(self):
        """A type and a name or None; None alone for the dots."""
        if self.accept("..."):
            return None
        ty = self.type()
        self.dropped(lambda: self.kind() == "local" or self.sees(",", ")"))
        return ty, self.take() if self.kind() == "local" else None

    def numbered(self, name):
        """A local name, or the next number where it has none."""
        if name is None or isinstance(name, int):
            self.counter += 1
            return self.counter - 1
        return name

    # ---- types and constants

    def type(self):
        word = self.tokens[self.at]
        self.at += 1
        if word[0] == "local":
            return ("named", word[1])
        if word[1] == "[":
            count = self.take()
            self.expect("x")
            element = self.type()
            self.expect("]")
            return ("array", count, element)
        if word[1] == "<":
            self.expect("{")
            fields = self.list_of("}", self.type)
            self.expect(">")
            return ("struct", True, tuple(fields))
        if word[1] == "{":
            return ("struct", False, tuple(self.list_of("}", self.type)))
        return (word[1],) if word[1] in ("ptr", "void") else ("int", int(word[1][1:]))

    def flags(self):
        found = []
        while self.sees(*FLAGS):
            found.append(self.take())
        return tuple(found)

    def constant(self):
        kind, value = self.tokens[self.at]
        self.at += 1
        if kind in ("integer", "bytes", "global"):
            return (kind, value)
        if value in ("true", "false"):
            return ("integer", int(value == "true"))
        if value in PLAIN_CONSTANTS:
            return (PLAIN_CONSTANTS[value],)
        if value in ("[", "{"):
            return ("list", self.list_of(CLOSING[value], self.operand))
        if value == "<":
            self.expect("{")
            elements = self.list_of("}", self.operand)
            self.expect(">")
            return ("list", elements)
        return self.expression(value)

    def expression(self, word):
        flags = self.flags()
        self.expect("(")
        if word == "getelementptr":
            source = self.type()
            self.expect(",")
            return ("gep", flags, source, self.list_of(")", self.operand))
        ty, value = self.operand()
        if word in CASTS:
            self.expect("to")
            form = ("cast", word, ty, value, self.type())
        else:
            self.expect(",")
            form = ("binary", word, flags, ty, value, self.operand()[1])
        self.expect(")")
        return form

    def value(self):
        return ("local", self.take()) if self.kind() == "local" else self.constant()

    def operand(self):
        """A type and a value."""
        ty = self.type()
        return ty, self.value()

    # ---- bodies

    def body(self):
        """Blocks: names, each with its instructions, which are results and forms. The form of the last one is an end."""
        self.expect("{")
        blocks = {}
        while not self.accept("}"):
            name = self.numbered(self.take() if self.kind() == "label" else None)
            blocks[name] = [self.instruction()]
            while blocks[name][-1][1][0] not in ("ret", "br", "branch", "switch", "unreachable"):
                blocks[name].append(self.instruction())
        return blocks

    def instruction(self):
        """The name of its result or None, and its form."""
        name = None
        if self.kind() == "local":
            name = self.take()
            self.expect("=")
        form = self.form(self.take())
        self.metadata()
        gives = name is not None or not (form[0] in ("store", "ret", "br", "branch", "switch", "unreachable") or form[0] == "call" and form[1][0] == VOID)
        return self.numbered(name) if gives else None, form

    def form(self, word):
        if word in BINARY:
            return ("binary", word, self.flags(), *self.two())
        if word in CASTS:
            flags = self.flags()
            ty, value = self.operand()
            self.expect("to")
            return ("cast", word, flags, ty, value, self.type())
        if word in CALLS:
            return self.call(word)
        return getattr(self, "form_" + word)()

    def two(self):
        """A type and two values."""
        ty, one = self.operand()
        self.expect(",")
        return ty, one, self.value()

    def behind(self):
        """The operand behind a comma."""
        self.expect(",")
        return self.operand()

    def label(self):
        self.expect("label")
        return self.take()

    def call(self, word):
        """The function type, the callee and the arguments."""
        if word != "call":
            self.expect("call")
        self.dropped(self.starts_type)
        returns, written = self.type(), None
        if self.accept("("):
            written = self.list_of(")", lambda: None if self.accept("...") else self.type())
        callee = self.value()
        self.expect("(")
        arguments = self.list_of(")", self.argument)
        self.dropped(lambda: self.kind() in ("local", "label") or self.sees(",", "}", *INSTRUCTIONS))
        types = [ty for ty, _ in arguments] if written is None else [ty for ty in written if ty is not None]
        return ("call", (returns, tuple(types), written is not None and None in written), callee, arguments)

    def argument(self):
        ty = self.type()
        self.dropped(lambda: self.kind() in ("local", "integer", "global", "bytes") or self.sees("[", "{", "<", *CONSTANTS) or self.passed_alignment())
        return ty, self.value()

    def passed_alignment(self):
        """Passes over `align N`, whose number is no value."""
        if self.accept("align"):
            if self.sees("("):
                self.bracketed()
            else:
                self.take()
        return self.kind() in ("local", "integer", "global", "bytes") or self.sees("[", "{", "<", *CONSTANTS)

    def form_icmp(self):
        flags = self.flags()
        predicate = self.take()
        return ("icmp", predicate, flags, *self.two())

    def form_select(self):
        return ("select", self.operand(), self.behind(), self.behind())

    def form_freeze(self):
        return ("freeze", *self.operand())

    def form_phi(self):
        ty, incoming = self.type(), {}
        while not incoming or self.sees(",") and self.tokens[self.at + 1] == ("mark", "["):
            self.accept(",")
            self.expect("[")
            value = self.value()
            self.expect(",")
            incoming.setdefault(self.take(), value)
            self.expect("]")
        return ("phi", ty, incoming)

    def form_load(self):
        self.flags()
        ty = self.type()
        address = self.behind()[1]
        return ("load", ty, address, self.alignment())

    def form_store(self):
        self.flags()
        ty, value = self.operand()
        address = self.behind()[1]
        return ("store", ty, value, address, self.alignment())

    def form_alloca(self):
        ty, count = self.type(), (I32, ("integer", 1))
        if self.sees(",") and self.kind(1) != "meta" and self.tokens[self.at + 1] != ("word", "align"):
            count = self.behind()
        return ("alloca", ty, count, self.alignment())

    def form_getelementptr(self):
        flags, source = self.flags(), self.type()
        operands = []
        while self.sees(",") and self.kind(1) != "meta":
            operands.append(self.behind())
        return ("gep", flags, source, operands)

    def indices(self):
        found = []
        while self.sees(",") and self.kind(1) == "integer":
            self.at += 2
            found.append(self.tokens[self.at - 1][1])
        return found

    def form_extractvalue(self):
        return ("extract", self.operand(), self.indices())

    def form_insertvalue(self):
        return ("insert", self.operand(), self.behind(), self.indices())

    def form_ret(self):
        ty = self.type()
        return ("ret", None if ty == VOID else (ty, self.value()))

    def form_br(self):
        if self.sees("label"):
            return ("br", self.label())
        condition = self.operand()[1]
        self.expect(",")
        one = self.label()
        self.expect(",")
        return ("branch", condition, one, self.label())

    def form_switch(self):
        ty, value = self.operand()
        self.expect(",")
        otherwise, cases = self.label(), []
        self.expect("[")
        while not self.accept("]"):
            case = self.operand()[1]
            self.expect(",")
            cases.append((case, self.label()))
        return ("switch", ty, value, otherwise, cases)

    def form_unreachable(self):
        return ("unreachable",)

    def shape(self, ty):
        """The type with the names of structs replaced by their bodies."""
        if ty[0] == "named":
            body = self.structs[ty[1]]
            return ("opaque",) if body is None else self.shape(body)
        if ty[0] == "array":
            return ("array", ty[1], self.shape(ty[2]))
        return ("struct", ty[1], tuple(map(self.shape, ty[2]))) if ty[0] == "struct" else ty

    def signature(self, returns, parameters, variadic):
        """The shapes of a function type."""
        return self.shape(returns), tuple(map(self.shape, parameters)), variadic


# ---- layout


def rounded(number, align):
    return (number + align - 1) // align * align


@functools.lru_cache(None)
def align_of(shape):
    if shape[0] == "int":
        return next((align for align in (1, 2, 4, 8) if shape[1] <= 8 * align), 16)
    if shape[0] == "array":
        return align_of(shape[2])
    if shape[0] == "struct":
        return 1 if shape[1] else max(map(align_of, shape[2]), default=1)
    return 8 if shape == PTR else 1


@functools.lru_cache(None)
def offsets(shape):
    """Where the fields of a struct begin, and where the last one ends."""
    found, end = [], 0
    for field in shape[2]:
        begin = rounded(end, 1 if shape[1] else align_of(field))
        found.append(begin)
        end = begin + size_of(field)
    return found, end


@functools.lru_cache(None)
def size_of(shape):
    if shape[0] == "int":
        return rounded((shape[1] + 7) // 8, align_of(shape))
    if shape[0] == "array":
        return shape[1] * size_of(shape[2])
    if shape[0] == "struct":
        return rounded(offsets(shape)[1], align_of(shape))
    return 8 if shape == PTR else 0


@functools.lru_cache(None)
def leaves_of(shape):
    """How many leaves a value has."""
    if shape[0] == "array":
        return shape[1] * leaves_of(shape[2])
    return sum(map(leaves_of, shape[2])) if shape[0] == "struct" else int(shape[0] in ("int", "ptr"))


@functools.lru_cache(None)
def slots(shape):
    """The leaves of a value: how far each lies behind its first byte, and its shape."""
    if shape[0] == "array":
        step = size_of(shape[2])
        return tuple((n * step + at, leaf) for n in range(shape[1]) for at, leaf in slots(shape[2]))
    if shape[0] == "struct":
        return tuple((begin + at, leaf) for begin, field in zip(offsets(shape)[0], shape[2]) for at, leaf in slots(field))
    return ((0, shape),) if shape[0] in ("int", "ptr") else ()


def inside(shape, index):
    """The element or the field with that index, how far it lies behind the first byte, and how many leaves stand before it."""
    if shape[0] == "array":
        return shape[2], index * size_of(shape[2]), index * leaves_of(shape[2])
    return shape[2][index], offsets(shape)[0][index], sum(map(leaves_of, shape[2][:index]))


# ---- several parts

RANK = {"appending": 4, "external": 4, "private": 4, "internal": 4, "common": 3, "weak": 2, "weak_odr": 2, "linkonce": 1, "linkonce_odr": 1, "extern_weak": 0}


def spelled(name):
    """A name as canonical text spells it, behind `@`."""
    if re.fullmatch(r"[-a-zA-Z$._][-a-zA-Z$._0-9]*", name):
        return "@" + name
    return '@"' + "".join(byte if " " <= byte <= "~" and byte not in '"\\' else f"\\{ord(byte):02X}" for byte in name) + '"'


class Parts:
    """Parts side by side: symbols, homes, conflicts, meanings and places. A meaning is ("definition", entry), ("appended", symbol),
    ("host", name), ("null",) or ("unresolved",)."""

    def __init__(self, texts, is_host):
        self.parts, self.is_host = [Part(number, text) for number, text in enumerate(texts)], is_host
        self.entries = {}
        for part in self.parts:
            for entry in part.entries:
                self.entries.setdefault(entry.symbol(), []).append(entry)
        self.homes = {symbol: self.home(symbol) for symbol in self.entries}
        self.variables = self.plain(True)
        self.functions = self.plain(False)
        self.aliases = self.alias_symbols()
        self.symbols = self.variables + self.functions + self.aliases

    def definitions(self, symbol):
        return [entry for entry in self.entries[symbol] if entry.is_definition()]

    def size(self, entry):
        return size_of(self.parts[entry.part].shape(entry.ty)) if entry.kind == "variable" else 0

    def home(self, symbol):
        """The definition that counts, or None: of greatest rank, among commons the largest, and of equals the first."""
        def weight(entry):
            return RANK[entry.linkage], self.size(entry) if entry.linkage == "common" else 0
        return max(self.definitions(symbol), key=weight, default=None)

    def is_alias(self, symbol):
        return self.homes[symbol] is not None and self.homes[symbol].kind == "alias"

    def plain(self, variables):
        """The symbols of one kind that are no alias, in the order of first entry."""
        return [symbol for symbol, entries in self.entries.items() if not self.is_alias(symbol) and entries[0].is_variable() == variables]

    def alias_symbols(self):
        """The symbols that are aliases, in the order of first alias entry."""
        found = {entry.symbol(): None for part in self.parts for entry in part.entries if entry.kind == "alias"}
        return [symbol for symbol in found if self.is_alias(symbol)]

    def symbol_in(self, part, name):
        """What a name is of in a part: the part's own symbol, if it has one."""
        return (part, name) if (part, name) in self.entries else (None, name)

    def behind(self, symbol):
        """The symbol that an alias stands for, and any other itself."""
        home = self.homes[symbol]
        return self.symbol_in(home.part, home.target) if home is not None and home.kind == "alias" else symbol

    def meaning(self, symbol):
        symbol = self.behind(symbol)
        home, entries = self.homes[symbol], self.entries[symbol]
        if home is not None:
            return ("appended", symbol) if home.linkage == "appending" else ("definition", home)
        if symbol[0] is None and not entries[0].is_variable() and self.is_host(symbol[1]):
            return ("host", symbol[1])
        return ("null",) if symbol[0] is None and all(entry.linkage == "extern_weak" for entry in entries) else ("unresolved",)

    def clash(self, kind, one, other):
        """Whether two entries of one name are in conflict of this kind."""
        appending = [entry.linkage == "appending" for entry in (one, other)]
        if kind == "two strong":
            return all(entry.is_definition() and entry.linkage == "external" for entry in (one, other))
        if kind == "function and variable":
            return one.is_variable() != other.is_variable()
        if kind == "appending and plain":
            return appending[0] != appending[1]
        if kind == "element shape":
            return all(appending) and self.element(one) != self.element(other)
        return all(appending) and one.constant != other.constant

    def element(self, entry):
        """The shape of the elements of an appended array."""
        return self.parts[entry.part].shape(entry.ty[2])

    def conflict(self):
        """The first conflict: its kind, its name and two parts; or None."""
        for symbol in self.symbols:
            entries = self.entries[symbol] if symbol[0] is None else []
            for kind in ("two strong", "function and variable", "appending and plain", "element shape", "constness"):
                for n, one in enumerate(entries):
                    for other in entries[n + 1:]:
                        if self.clash(kind, one, other):
                            return kind, symbol[1], one.part, other.part
        return None

    def alignment(self, entry):
        return align_of(self.parts[entry.part].shape(entry.ty)) if entry.align is None else entry.align

    def room(self, symbol):
        """The bytes and the alignment of a variable that is defined."""
        home, definitions = self.homes[symbol], self.definitions(symbol)
        if home.linkage == "appending":
            stated = [entry.align for entry in definitions if entry.align is not None]
            return sum(entry.ty[1] for entry in definitions) * size_of(self.element(home)), max(stated, default=None) or self.alignment(home)
        commons = [self.alignment(entry) for entry in definitions if entry.linkage == home.linkage == "common"]
        return self.size(home), max(commons, default=self.alignment(home))

    def rooms(self):
        """The variables that lie in memory, in the order of symbols, with their bytes and alignments."""
        return [(symbol, *self.room(symbol)) for symbol in self.variables if self.homes[symbol] is not None]

    def places(self):
        """The address of each variable that is defined, with the number of its block, and of each function, which has none."""
        found, free = {}, 65536
        for number, (symbol, size, align) in enumerate(self.rooms()):
            found[symbol] = (number, rounded(free, align))
            free = rounded(free, align) + size + 16
        for number, symbol in enumerate(self.functions):
            found[symbol] = (None, 2**62 + 16 * number)
        return found

    def pieces(self, symbol):
        """What a variable holds at first: parts, types and constants, one behind the other."""
        home = self.homes[symbol]
        if home.linkage != "appending":
            return [(home.part, home.ty, home.initial)]
        return [(entry.part, *element) for entry in self.definitions(symbol) if entry.initial[0] == "list" for element in entry.initial[1]]

    def names_used(self):
        """The symbols that are named in what the parts have of initialisers and bodies, where those count."""
        found = set()
        for symbol in self.symbols:
            home = self.homes[symbol]
            counting = [] if home is None else self.definitions(symbol) if home.linkage == "appending" else [home]
            for entry in counting:
                forms = {"variable": lambda e: e.initial, "function": lambda e: list(e.blocks.values()), "alias": lambda e: None}[entry.kind](entry)
                found.update(self.symbol_in(entry.part, name) for name in globals_in(forms))
        return found

    def missing(self):
        """The first symbol that means nothing and is used, or None."""
        used = self.names_used()
        return next((symbol for symbol in self.symbols if symbol in used and self.meaning(symbol) == ("unresolved",)), None)


def globals_in(form):
    """The global names in a form, at any depth."""
    if isinstance(form, dict):
        form = list(form.values())
    if isinstance(form, (tuple, list)):
        if len(form) == 2 and form[0] == "global" and isinstance(form[1], str):
            return [form[1]]
        return [name for inner in form for name in globals_in(inner)]
    return []
