#!/usr/bin/env python3
"""Lists every text of an error that the sources can print, and says whether docs/errors.md has it.

    tests/errors.py            lists them
    tests/errors.py --check    names each that is on no line of the page

A text is found by what the sources do with it, in whichever file that is; `FINDERS` says how.
"""
import pathlib
import re
import sys

ROOT = pathlib.Path(__file__).resolve().parent.parent
PAGE = ROOT / "docs" / "errors.md"
STRING = r'b?"((?:[^"\\]|\\.)*)"'


def sources():
    """The code of each file, without comments and contracts. A test program is no tool."""
    for path in sorted(ROOT.glob("crates/*/src/**/*.rt")):
        root = ROOT / "crates" / path.relative_to(ROOT / "crates").parts[0]
        if not (root / "stdout").exists():
            yield re.sub(r"^\s*(//|ghost |ensures |requires ).*$", "", path.read_text(), flags=re.M)


def lines_written(code):
    """Lines written in pieces, after the tool's name, with `*` for what a run fills in."""
    for call in re.findall(r"write_pieces\(\s*errors,\s*&\[(.*?)\]", code, re.S):
        pieces = re.findall(STRING + r"|([a-z_]+(?:\([a-z_]*\))?)", call)
        line = "".join("*" if name else text for text, name in pieces)
        line = re.sub(r"^\*: |\\n$", "", line)
        yield re.sub(r"\*:\*(?=: \w|$)", "*", line)  # a place: its line and its column


def texts_handed_on(code):
    """Texts that a call hands, with standard error, to what writes such a line."""
    for call in re.findall(r"\b\w+\(\s*errors,[^;{}\[]*?\)(?=[\s,;}])", code, re.S):
        yield from (text.strip(": ") for text in re.findall(STRING, call))


def kinds(code):
    """The words of a kind of refusal or of undefined behaviour."""
    yield from re.findall(r"\b\w+Kind::\w+ => " + STRING, code)
    if "enum UndefinedKind" in code:
        yield from re.findall(r"^\s*\w+ " + STRING + r" \d+,$", code, re.M)


def left_out(code):
    """The words that are left out of the language."""
    for table in re.findall(r"static LEFT_OUT[^=]*= \[(.*?)\];", code, re.S):
        yield from re.findall(STRING, table)


def rules(code):
    """The numbers of rules: of validity, and of records."""
    asked = re.findall(r"\basked\((\d+)", code)
    asked += re.findall(r"VerifyFault::Invalid \{\s*rule: (\d+)", code)
    yield from ("V" + number for number in asked)
    records = re.findall(r"\.(?:refuse|ask|also|stop)\((\d+)", code)
    records += re.findall(r"::BadRecord \{[^}]*\brule: (\d+)", code)
    yield from ("rule " + number for number in records)


FINDERS = [lines_written, texts_handed_on, kinds, left_out, rules]


def texts():
    """The texts of each finder. One that finds none no longer knows the sources."""
    found = {finder: {} for finder in FINDERS}
    for code in sources():
        for finder in FINDERS:
            found[finder].update(dict.fromkeys(text for text in finder(code) if text))
    for finder, its in found.items():
        if not its:
            sys.exit(f"tests/errors.py: {finder.__name__} finds nothing in the sources")
        # A line with nothing but what is filled in says nothing of its own.
        yield finder, [text for text in its if re.search(r"[a-z0-9]", text)]


def page_spans():
    """What the page has between backquotes, and each word of its indented blocks."""
    page = re.sub(r"^```$.*?^```$", "", PAGE.read_text(), flags=re.M | re.S)
    blocks = re.findall(r"^    .*$", page, re.M)
    return re.findall(r"`([^`\n]+)`", page) + [word for line in blocks for word in line.split()]


def is_there(text, spans):
    """Whether a span has the text, its gaps filled, at its start or after a colon."""
    gaps_filled = ".+?".join(re.escape(part) for part in text.split("*"))
    pattern = re.compile(rf"(?:.*: )?{gaps_filled}(?:$| |:)")
    return any(pattern.match(span) for span in spans)


def main():
    spans, missing = page_spans(), []
    for finder, found in texts():
        for text in found:
            if "--check" not in sys.argv[1:]:
                print(f"{finder.__name__}: {text}")
            elif not is_there(text, spans):
                missing.append(f"docs/errors.md lacks: {text}")
    sys.exit("\n".join(missing) if missing else 0)


if __name__ == "__main__":
    main()
