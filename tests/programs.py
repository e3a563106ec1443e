#!/usr/bin/env python3
"""Programs in C: what clang-19 prints of them, what they do as native programs, and whether `lli` does the same.

    tests/programs.py --make        compiles each with clang-19 and runs it; writes the texts and results.txt of both folders
    tests/programs.py --check       each program has its texts and its line of results.txt, and they are of this very source
    tests/programs.py --run TOOL    runs each text by the ir-tools program of this name, and compares output and status
    tests/programs.py --link TOOL   the same of linked texts alone, run by lli-19
    tests/programs.py --cut TOOL    as --run, of what llvm-extract-19 cuts in two and this links

tests/programs has forty programs of one part, NAME.c, which are also cut in two by `llvm-extract` and linked again; tests/linked has programs
of several parts, NAME.1.c, NAME.2.c and so on, which `llvm-link` makes one, in their order: as text, and for `lli` as bitcode too. A program is run three times: as made at -O0, at -O2, and at -O1 with a trap at whatever is undefined. The
three must agree. Each line of results.txt has the name, the sources' checksum, the status, and the output as a Python literal.
"""
import ast
import hashlib
import pathlib
import re
import subprocess
import sys
import tempfile

HERE = pathlib.Path(__file__).resolve().parent
FOLDERS = [HERE / "programs", HERE / "linked"]
LEVELS = (0, 2)
# The flags of examples/cflags, and one for the linker of native programs.
FLAGS = [*(HERE.parent / "examples" / "cflags").read_text().split(), "-Wl,-no-pie"]
# These are compiled with no flag but the level.
PLAIN = {"bits", "fibonacci", "list", "machine", "matrix", "queens", "setup", "sieve", "sort", "text"}
# Some parts have tentative definitions, which are one variable; others are C++, of which the language has no exceptions and no guards.
MORE = {"common": ["-fcommon"], "odr": ["-x", "c++", "-fno-exceptions", "-fno-rtti", "-fno-threadsafe-statics"]}
# The texts of these are made for a target without comdats, and before any pass drops what is available elsewhere.
TEXTS = {"odr": ["-target", "x86_64-apple-macosx10.15", "-Xclang", "-disable-llvm-passes"]}
# Of this one llvm-extract-19 writes an alias of a function that it leaves out, which llvm-as-19 refuses too.
UNCUT = {"setup"}
# The arguments of those that are given some, and the inputs of those that read.
ARGUMENTS = {"echo": ["one", "-22", "three", "400", "", "-"]}
INPUTS = {
    "count": b"one two\tthree\n\n  four  \n\xff\x00last",
    "turn": b"Hello, World\nab cd\tef\n\nno line feed",
    "input": b"a line\nanother One\n\nthe last",
}


class Program:
    """A program of a folder: its name, and its sources in their order."""

    def __init__(self, folder, name, sources):
        self.folder, self.name, self.sources = folder, name, sources
        self.flags = [] if name in PLAIN and len(sources) == 1 else FLAGS + (MORE.get(name, []) if len(sources) > 1 else [])

    def checksum(self):
        return hashlib.sha256(b"".join(path.read_bytes() for path in self.sources)).hexdigest()[:16]

    def texts(self, level):
        """The texts of its parts at a level."""
        return [path.with_name(f"{path.name[:-2]}.O{level}.ll") for path in self.sources]

    def ran(self, *flags):
        """The status and the output of the native program, made with these flags."""
        with tempfile.TemporaryDirectory() as room:
            subprocess.run(["clang-19", "-w", *flags, "-o", f"{room}/program", *self.sources], check=True)
            return told([f"{room}/program", *ARGUMENTS.get(self.name, [])], self.name)

    def make(self):
        """Writes its texts, and gives its line of results.txt."""
        for level in LEVELS:
            for source, text in zip(self.sources, self.texts(level), strict=True):
                subprocess.run(["clang-19", "-w", f"-O{level}", *self.flags, *TEXTS.get(self.name, []), "-S", "-emit-llvm", "-o", text.name, source.name], cwd=self.folder, check=True)
        runs = [self.ran(f"-O{level}", *self.flags) for level in LEVELS]
        runs.append(self.ran("-O1", *MORE.get(self.name, []), "-fsanitize=undefined", "-fsanitize-trap=undefined"))
        if len(set(runs)) != 1 or runs[0][0] < 0:
            sys.exit(f"{self.name}: the runs differ: {runs}")
        return f"{self.name} {self.checksum()} {runs[0][0]} {runs[0][1]!r}\n"

    def wrong(self, found):
        """What its texts and its line of results.txt lack."""
        if found.get(self.name, ("",))[0] != self.checksum():
            yield f"{self.name}: not of this source"
        for level in LEVELS:
            for source, path in zip(self.sources, self.texts(level), strict=True):
                text = path.read_text() if path.exists() else ""
                if not re.search(rf'^source_filename = "{re.escape(source.name)}"$', text, re.M):
                    yield f"{path.name}: no text of {source.name}"

    def runs(self, tool, cutter, runner):
        """What runs of its texts give, each with a word on which it is: of what is linked alone where another tool runs it, of what is cut alone where another cuts it."""
        words, ours = ARGUMENTS.get(self.name, []), runner[0] == tool
        uncut = cutter[0] != tool and (self.name in UNCUT or len(self.sources) > 1)
        for level in [] if uncut else LEVELS:
            texts = self.texts(level)
            with tempfile.TemporaryDirectory() as room:
                if len(texts) == 1:
                    if ours and cutter[0] == tool:
                        yield f"O{level}", told([*runner, *texts, *words], self.name)
                    texts = cut(cutter, texts[0], room)
                for name, text in [("linked.ll", ["-S"]), ("linked.bc", [])][:2 if ours else 1]:
                    subprocess.run([tool, "llvm-link", *text, "-o", f"{room}/{name}", *texts], check=True)
                    yield f"O{level}, {name}", told([*runner, f"{room}/{name}", *words], self.name)


def cut(cutter, text, room):
    """Two parts of a text: every second function that it defines, and all else."""
    names = re.findall(r"^define [^@]*@([\w.$-]+)\(", text.read_text(), re.M)[::2]
    chosen = [f"--func={name}" for name in names]
    parts = [f"{room}/chosen.ll", f"{room}/others.ll"]
    for part, more in zip(parts, [[], ["--delete"]], strict=True):
        subprocess.run([*cutter, "-S", *chosen, *more, "-o", part, text], check=True)
    return parts


def told(words, name):
    """The status and the output of a run."""
    made = subprocess.run([str(word) for word in words], input=INPUTS.get(name, b""), stdout=subprocess.PIPE, timeout=600)
    return made.returncode, made.stdout


def programs(folder):
    """The programs of a folder, by their names."""
    sources = {}
    for path in sorted(folder.glob("*.c")):
        sources.setdefault(path.name.split(".")[0], []).append(path)
    return [Program(folder, name, paths) for name, paths in sorted(sources.items())]


def results(folder):
    """What each program of a folder does: its checksum, its status and its output."""
    found = {}
    for line in (folder / "results.txt").read_text().splitlines():
        name, source, status, output = line.split(" ", 3)
        found[name] = source, int(status), ast.literal_eval(output)
    return found


def make():
    """Writes the texts, and what the programs do."""
    for folder in FOLDERS:
        (folder / "results.txt").write_text("".join(program.make() for program in programs(folder)))


def check():
    """What is missing, or of another source."""
    for folder in FOLDERS:
        found, here = results(folder), programs(folder)
        yield from [f"{name}: no such program" for name in found if name not in [it.name for it in here]]
        for program in here:
            yield from program.wrong(found)


def run(tool, cutter, runner):
    """Each run: nothing, or what is otherwise than with the native program."""
    for folder in FOLDERS:
        found = results(folder)
        for program in programs(folder):
            for which, told_here in program.runs(tool, cutter, runner):
                is_same = told_here == found[program.name][1:]
                yield None if is_same else f"{program.name}, {which}: {told_here}, and natively {found[program.name][1:]}"


def main():
    if sys.argv[1:] == ["--make"]:
        make()
        return
    tool = sys.argv[2] if len(sys.argv) > 2 else None
    ours = [tool, "llvm-extract"], [tool, "lli"]
    tools = {"--run": ours, "--link": (ours[0], ["lli-19"]), "--cut": (["llvm-extract-19"], ours[1])}.get(sys.argv[1])
    checked = list(run(tool, *tools) if tools else check())
    wrong = [it for it in checked if it]
    for it in wrong:
        print(f"tests/programs.py: {it}")
    if tools:
        print(f"{len(checked) - len(wrong)} passed, {len(wrong)} failed")
    sys.exit(1 if wrong else 0)


if __name__ == "__main__":
    main()
