#!/usr/bin/env python3
"""Extracts each function of the modules in tests/programs alone, and asks LLVM 19: llvm-as-19 whether the part is accepted, and
llvm-extract-19 which symbols are left of it, defined or declared.

    tests/outside/extracted.py TOOL    by the ir-tools program of this name

A line for each function of which LLVM's tools say otherwise, and how many were compared. Two are otherwise, the same function at two
levels: `llvm-extract` here keeps a definition's aliases with it, and llvm-extract-19 leaves the alias out.
"""
import pathlib
import re
import subprocess
import sys

PROGRAMS = pathlib.Path(__file__).resolve().parent.parent / "programs"


def symbols(text):
    """The symbols of a text: which kind each is, and whether it is defined."""
    found = {}
    for name, rest in re.findall(r'^@("[^"]*"|[\w.$-]+) = (.*)', text, re.M):
        is_alias = re.search(r"\balias\b", rest) is not None
        found[name] = "alias" if is_alias else "variable", is_alias or not re.search(r"\b(external|extern_weak)\b", rest)
    for word, name in re.findall(r'^(define|declare)\b[^@]*@("[^"]*"|[\w.$-]+)\(', text, re.M):
        found[name] = "function", word == "define"
    return found


def extracted(tool, name, path):
    """The text of one function of a module, as a tool extracts it."""
    return subprocess.run([*tool, "-S", f"--func={name}", path], stdout=subprocess.PIPE, check=True).stdout.decode()


def main(tool):
    count = 0
    for path in sorted(PROGRAMS.glob("*.ll")):
        for name in re.findall(r"^define [^@]*@([\w.$-]+)\(", path.read_text(), re.M):
            here, there = extracted([tool, "llvm-extract"], name, path), extracted(["llvm-extract-19"], name, path)
            accepted = subprocess.run(["llvm-as-19", "-o", "/dev/null", "-"], input=here.encode(), check=False).returncode == 0
            if not accepted or symbols(here) != symbols(there):
                print(f"{path.name}, @{name}: {'other symbols' if accepted else 'refused'}")
            count += 1
    print(f"{count} functions compared")


main(sys.argv[1])
