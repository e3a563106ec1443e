#!/usr/bin/env python3
"""Runs the commands of pages, and compares what they print with what the page shows.

    tests/pages.py [--tool TOOL] PAGE ..    README.md, docs/lesson.md ..

The last line has the counts.

A command is a line of a code block (indented by four spaces, or between ```) that begins with `$ `.
It goes on in the next line after a backslash, and to the end of a here-document. What it shows are
the lines up to the next command or the end of the block; a line `...` or `…` of them means any
lines. Where a comment (`# ..`) is on the command's line and no output is shown, it only has to end
with status 0. Standard output and standard error are compared together, as a terminal shows them.

The commands of a page run in the order of the page, in one scratch folder that has what the
checkout has: `./ir-tools` is TOOL there (./ir-tools of the checkout where none is given), and the
tools can be called by their names too. What they write has to be in `scratch/`. A command of a
program that is not installed is skipped with the rest of its block; one that has `…`, and one of
NOT_RUN, is skipped alone.
"""
import argparse
import os
import pathlib
import re
import shlex
import shutil
import subprocess
import sys
import tempfile

ROOT = pathlib.Path(__file__).resolve().parent.parent
# What a page names and a test of it does not run.
NOT_RUN = ("git clone", ".ci/run", "tests/quick", "tests/real/", "rt ", "man ", "apt", "sudo ")
# What begins a further command within a line.
SEPARATORS = {"|", "||", "&&", ";", ";;", "&", "(", ")", "|&"}


class Command:
    """A command of a page: its line's number, its text, and the lines that are shown after it."""

    def __init__(self, number, text):
        self.number, self.text, self.shown = number, text, []

    def is_complete(self):
        """Whether no further line belongs to it."""
        ends = re.findall(r"<<-?\s*'?(\w+)'?", self.text)
        if ends:
            return self.text.split("\n")[-1].strip() == ends[-1]
        return tokens(self.text) is not None

    def has_comment(self):
        return re.search(r"\s# ", self.text) is not None and not self.shown

    def pattern(self):
        """What its output has to match."""
        def matched(line):
            return r"(?:.*\n)*" if line in ("...", "…") else re.escape(line) + "\n"
        return "".join(map(matched, self.shown))


def blocks(text):
    """The code blocks of a page, each as lines with their numbers."""
    block, fence = [], None
    for number, line in enumerate([*text.split("\n"), ""], 1):
        is_fence = line.strip().startswith("```")
        if fence is not None and not is_fence:
            block.append((number, line[fence:]))
        elif fence is None and line.startswith("    "):
            block.append((number, line[4:]))
        elif fence is None and not is_fence and not line.strip() and block:
            block.append((number, ""))
        else:
            yield block
            is_opening = is_fence and fence is None
            block, fence = [], len(line) - len(line.lstrip()) if is_opening else None
    yield block


def commands(block):
    """The commands of a block."""
    found = []
    for number, line in block:
        if found and not found[-1].is_complete():
            found[-1].text += "\n" + line
        elif line.startswith("$ "):
            found.append(Command(number, line[2:]))
        elif found:
            found[-1].shown.append(line)
    for command in found:
        while command.shown and not command.shown[-1]:
            command.shown.pop()
    return found


def tokens(text):
    """The words and operators of a shell's line, or nothing where a quote leaves it open."""
    lexer = shlex.shlex(text.replace("\\\n", " "), posix=True, punctuation_chars=True)
    lexer.whitespace_split = True
    try:
        return list(lexer)
    except ValueError:
        return None


def programs(text):
    """The programs that a command calls."""
    if "<<" in text:
        text = text.split("\n")[0]
    is_first = True
    for word in tokens(text) or []:
        if is_first and word not in SEPARATORS and not re.match(r"\w+=", word):
            yield word
            is_first = False
        elif word in SEPARATORS:
            is_first = True


class Room:
    """A scratch folder that has what the checkout has, in which the commands of a page run."""

    def __init__(self, folder, tool):
        self.top, names = folder / "top", (ROOT / "release" / "tools").read_text().split()
        for it in (self.top, self.top / "scratch", folder / "home", folder / "bin"):
            it.mkdir()
        for it in ROOT.iterdir():
            if it.name == "examples":
                shutil.copytree(it, self.top / it.name)
            elif it.name not in (".git", ".built", "scratch", "ir-tools"):
                (self.top / it.name).symlink_to(it)
        self.call(self.top / "ir-tools", tool)
        for name in ["ir-tools", *names]:
            self.call(folder / "bin" / name, tool, *([] if name == "ir-tools" else [name]))
        self.environment = dict(os.environ, HOME=str(folder / "home"), LC_ALL="C")
        self.environment["PATH"] = f"{folder / 'bin'}{os.pathsep}{os.environ['PATH']}"
        self.files = self.found()

    @staticmethod
    def call(path, *words):
        """Writes a script that calls these words with its own behind them."""
        path.write_text(f'#!/bin/sh\nexec {shlex.join(words)} "$@"\n')
        path.chmod(0o755)

    def found(self):
        """The files that are there, but for those in scratch/."""
        paths = [*self.top.iterdir(), *(self.top / "examples").rglob("*")]
        return {str(path.relative_to(self.top)) for path in paths}

    def run(self, text):
        made = subprocess.run(["sh", "-c", text], cwd=self.top, env=self.environment, timeout=600,
                              stdin=subprocess.DEVNULL, stdout=subprocess.PIPE,
                              stderr=subprocess.STDOUT)
        return made.returncode, made.stdout.decode(errors="backslashreplace")

    def lacks(self, text):
        """The first program of a command that is not installed, or nothing."""
        for word in programs(text):
            if self.run(f"command -v -- {shlex.quote(word)}")[0] != 0 and "/" not in word:
                return word
        return None


class Checked:
    """What came of the commands of all pages."""

    def __init__(self):
        self.passed, self.failed = 0, 0

    def add(self, where, wrong):
        """Counts a command, with what is wrong of it, or nothing."""
        if wrong:
            print(f"{where}: {wrong}")
        self.passed, self.failed = self.passed + (not wrong), self.failed + bool(wrong)

    def check_command(self, where, room, command):
        status, output = room.run(command.text)
        if command.has_comment():
            wrong = f"status {status}, {output!r}" if status else None
        else:
            output += "" if output.endswith("\n") or not output else "\n"
            wrong = None
            if not re.fullmatch(command.pattern(), output):
                wrong = f"$ {command.text}\n  shows {command.shown}\n  prints {output!r}"
        self.add(where, wrong)

    def check_page(self, page, tool):
        with tempfile.TemporaryDirectory() as folder:
            room = Room(pathlib.Path(folder), tool)
            for block in blocks((ROOT / page).read_text()):
                for command in commands(block):
                    where = f"{page}:{command.number}"
                    if command.text.startswith(NOT_RUN) or "…" in command.text:
                        continue
                    lacking = room.lacks(command.text)
                    if lacking:
                        print(f"{where}: skipped with the rest of its block: no {lacking}")
                        break
                    self.check_command(where, room, command)
            left = ", ".join(sorted(room.found() - room.files))
            self.add(page, f"its commands leave behind {left}" if left else None)


def main():
    words = argparse.ArgumentParser()
    words.add_argument("--tool", default=str(ROOT / "ir-tools"))
    words.add_argument("pages", nargs="+", metavar="PAGE")
    given, checked = words.parse_args(), Checked()
    for page in given.pages:
        checked.check_page(page, str(pathlib.Path(given.tool).resolve()))
    print(f"{checked.passed} passed, {checked.failed} failed")
    sys.exit(1 if checked.failed else 0)


if __name__ == "__main__":
    main()
