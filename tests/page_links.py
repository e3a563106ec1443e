#!/usr/bin/env python3
"""Checks the links of the pages, and the paths that they name.

    tests/page_links.py          README.md, CONTRIBUTING.md, CHANGELOG.md, docs/*.md, */README.md
    tests/page_links.py PAGE ..  these pages

The last line has the counts.

A link leads to a file of the checkout, and what follows its `#` is a heading of that file, by
GitHub's rule. A path in a code block or between backquotes is there: from the top of the checkout,
from `crates/`, or, where it begins with `src/`, `specs/` or `proofs/`, from a crate that the same
paragraph names. In specs/ and proofs/ the ending `.antt` may be left out. `*` and words in
capitals, as NAME, mean any name. A file name alone, as `machine.rt`, is of a file in `crates/`,
`tests/`, `bench/` or `man/`. Each crate has one row in docs/architecture.md, which names its
public modules, and whose definitions are there.
"""
import functools
import pathlib
import re
import sys

ROOT = pathlib.Path(__file__).resolve().parent.parent
FENCED = re.compile(r"^ *```.*?^ *```", re.S | re.M)
INDENTED = re.compile(r"(?:(?<=\n\n)|\A)(?:(?: {4}.*)?\n)+", re.M)
LINK = re.compile(r"\[(?:[^\[\]]|\[[^\]]*\])*\]\(\s*<?([^)\s>]*)")
SPAN = re.compile(r"(`+)(.+?)\1", re.S)
TOPS = r"(?:crates|docs|tests|examples|release|bench|man|\.ci)/"
IN_BLOCK = re.compile(r"(?<![\w./$-])" + TOPS + r"[\w./*-]*")
INNER = r"(?:src|specs|proofs)/"
# What is made by a build or a run, so that a checkout does not have it.
IS_MADE = re.compile(r"/out\b")


def pages():
    """All pages, when none is named."""
    found = [ROOT / name for name in ("README.md", "CONTRIBUTING.md", "CHANGELOG.md")]
    return found + sorted(ROOT.glob("docs/*.md")) + sorted(ROOT.glob("*/README.md"))


def blanked(pattern, text):
    """The text with each match emptied, but for its line ends."""
    return pattern.sub(lambda match: re.sub(r"[^\n]", " ", match[0]), text)


def prose(text):
    """A page without its code blocks; lines keep their numbers."""
    return blanked(INDENTED, blanked(FENCED, text))


def blocks(text, without):
    """The code blocks of a page, from it and from it without them; lines keep their numbers."""
    pairs = zip(text, without)
    return "".join(each if each != other or each == "\n" else " " for each, other in pairs)


@functools.lru_cache(maxsize=None)
def anchors(path):
    """The anchors of a page: of each heading, its letters, digits, `-` and `_`, in lower case, each
    space as `-`; a repeated one with `-1`, `-2` and so on."""
    found, counts = set(), {}
    for heading in re.findall(r"^#{1,6} +(.*?) *#* *$", prose(path.read_text()), re.M):
        heading = re.sub(r"\[([^\]]*)\]\([^)]*\)", r"\1", heading)
        anchor = re.sub(r"[^\w\- ]", "", heading.lower()).replace(" ", "-")
        count = counts.get(anchor, 0)
        counts[anchor] = count + 1
        found.add(f"{anchor}-{count}" if count else anchor)
    return found


def link_fault(page, target):
    """What is wrong of a link, or nothing."""
    if re.match(r"[a-z]+:", target):
        return None
    name, _, anchor = target.partition("#")
    path = (page.parent / name).resolve() if name else page
    if not path.exists():
        return f"no file {name}"
    if ROOT not in [path, *path.parents]:
        return f"{name} is outside the checkout"
    if anchor and anchor not in anchors(path):
        return f"no heading #{anchor} in {path.relative_to(ROOT)}"
    return None


@functools.lru_cache(maxsize=None)
def is_there(path):
    """Whether a path from the top exists, with `*` and words in capitals as any name."""
    if (ROOT / path).exists() or IS_MADE.search(path):
        return True
    pattern = re.sub(r"\b[A-Z]{2,}\b", "*", path.rstrip("/"))
    is_definition = re.search(r"/(specs|proofs)/", pattern)
    patterns = [pattern, f"{pattern}.antt"] if is_definition else [pattern]
    return any(True for pattern in patterns for _ in ROOT.glob(pattern))


@functools.lru_cache(maxsize=None)
def crates():
    return {path.name for path in (ROOT / "crates").iterdir() if path.is_dir()}


@functools.lru_cache(maxsize=None)
def file_names():
    tops = ("crates", "tests", "bench", "man")
    return {path.name for top in tops for path in (ROOT / top).rglob("*.*")}


def places(word, paragraph):
    """The paths that a word between backquotes may mean, or none where it is no path."""
    if re.fullmatch(TOPS + r"[\w./*-]*", word):
        return [word]
    if word.split("/")[0] in crates() and "/" in word:
        return [f"crates/{word}"]
    if re.fullmatch(INNER + r"[\w./*-]*", word):
        named = crates() & set(re.findall(r"`(\w+)[`/]", paragraph))
        return [f"crates/{crate}/{word}" for crate in sorted(named) or ["*"]]
    if re.fullmatch(r"\w+\.(rt|antt|py)", word):
        return [word]
    return []


def path_fault(tried):
    """What is wrong where none of these paths exists, or nothing."""
    if any(is_there(path) or path in file_names() for path in tried):
        return None
    return f"no {' or '.join(tried)}"


def paragraphs(text):
    """The paragraphs, list items and rows of a page, each with the number of its first line."""
    begin = 0
    for match in re.finditer(r"\n(?=\n|- |\d+\. |\| )|\Z", text):
        yield text.count("\n", 0, begin) + 1, text[begin:match.start()]
        begin = match.end()


def has_definition(crate, name):
    """Whether the specs of a crate have a file of that name, or a file that defines it."""
    files = ROOT.glob(f"crates/{crate}/specs/**/*.antt")
    return is_there(f"crates/{crate}/specs/{name}") or any(
        re.search(rf"\bpub {name}\b", path.read_text()) for path in files)


def row_faults(text):
    """What is wrong of the rows of crates: a crate without one, a public module that its row does
    not name, a definition that is not there."""
    rows = re.findall(r"^\| `(\w+)` \|(?:.*\|)?(.*)\|$", text, re.M)
    rows = [(crate, cell) for crate, cell in rows if crate in crates()]
    for crate in sorted(crates() - {crate for crate, _ in rows}):
        yield f"no row of {crate}"
    for crate, cell in rows:
        root = ROOT / "crates" / crate / "src" / "lib.rt"
        code = root.read_text() if root.exists() else ""
        for module in re.findall(r"^pub mod (\w+)", code, re.M):
            if not re.search(rf"^\| `{crate}` \|.*`{module}`", text, re.M):
                yield f"no module {module} of {crate}"
        named = [crate, *re.findall(r"of `(\w+)`", cell)]
        for name in re.findall(r"`([A-Z]\w*(?:/\w+)*)`", cell):
            if not any(has_definition(it, name) for it in named):
                yield f"no {name} in the specs of {' or '.join(named)}"


def faults(page):
    """For each link, path and crate of a page its line and what is wrong of it, or nothing."""
    text = prose(page.read_text())
    for number, part in paragraphs(blanked(SPAN, text)):
        for target in LINK.findall(part):
            yield number, link_fault(page, target)
    for number, part in paragraphs(text):
        for word in [word for _, span in SPAN.findall(part) for word in span.split()]:
            tried = places(word.rstrip(",;:"), part)
            if tried:
                yield number, path_fault(tried)
    code = blocks(page.read_text(), text)
    for match in IN_BLOCK.finditer(code):
        yield code.count("\n", 0, match.start()) + 1, path_fault([match[0]])
    if page == ROOT / "docs" / "architecture.md":
        for fault in row_faults(text):
            yield 1, fault


def main():
    passed = failed = 0
    for page in [pathlib.Path(word).resolve() for word in sys.argv[1:]] or pages():
        for number, fault in faults(page):
            passed, failed = passed + (not fault), failed + bool(fault)
            if fault:
                print(f"{page.relative_to(ROOT)}:{number}: {fault}")
    print(f"{passed} passed, {failed} failed")
    sys.exit(1 if failed else 0)


if __name__ == "__main__":
    main()
