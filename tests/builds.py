#!/usr/bin/env python3
"""Whether the builds of examples/make, ninja, cmake and bazel do what they say.

    tests/builds.py --run TOOL [BUILD ..]    those that are named, or all but bazel, which takes
                                             minutes, with the ir-tools program TOOL
    tests/builds.py --check                  examples/words/expected.txt is what the native program
                                             prints

A build is made in a copy of examples/. Its program must print what the native one does; a second
build must make nothing; after a change of a header, of a source, or of neither, only what depends
on it is made; and a copy at another place must give the same bytes, file by file. With Bazel a
program of 200 files is built too. What needs a command that is not there is skipped, with one line.
"""
import gzip
import pathlib
import shutil
import subprocess
import sys
import tempfile
import time

ROOT = pathlib.Path(__file__).resolve().parent.parent
WORDS = ROOT / "examples" / "words"
BAZEL = ["bazel", "--nohome_rc", "--output_user_root=../../root", "--max_idle_secs=10"]
MANY = 200


class Build:
    """A build: its folder, the command that it needs, what builds and what checks, its outputs."""

    def __init__(self, folder, needs, build, check, out):
        self.folder, self.needs, self.build, self.check, self.out = folder, needs, build, check, out

    def missing(self):
        return [name for name in ["clang-19", *self.needs] if shutil.which(name) is None]


BUILDS = {
    "make": Build("make", ["make"], [["make"]], ["make", "check"], "out"),
    "ninja": Build("ninja", ["ninja"], [["ninja"]], ["ninja", "check"], "out"),
    "cmake": Build("cmake", ["cmake", "make"], [["cmake", "-B", "out"],
                   ["cmake", "--build", "out"]], ["ctest", "--test-dir", "out"], "out"),
    "cmake-ninja": Build("cmake", ["cmake", "ninja"], [["cmake", "-G", "Ninja", "-B", "out"],
                         ["cmake", "--build", "out"]], ["ctest", "--test-dir", "out"], "out"),
    "bazel": Build("bazel", ["bazel"], [[*BAZEL, "build", "words"]], [*BAZEL, "test", "words_test"],
                   "bazel-bin"),
}


def called(words, folder):
    """Calls a command that must end with status 0."""
    made = subprocess.run(words, cwd=folder, stdin=subprocess.DEVNULL, capture_output=True)
    if made.returncode != 0:
        sys.stderr.buffer.write(made.stdout + made.stderr)
        sys.exit(f"tests/builds.py: {' '.join(words)}: status {made.returncode}")


def copied(tool, room):
    """A copy of the examples, with the program where they look for it."""
    room = pathlib.Path(room)
    shutil.copytree(ROOT / "examples", room / "examples",
                    ignore=shutil.ignore_patterns("out", "bazel-*"))
    shutil.copy(tool, room / "ir-tools")
    (room / "release").mkdir()
    (room / "release" / "ir-tools.gz").write_bytes(gzip.compress(pathlib.Path(tool).read_bytes()))
    return room / "examples"


def outputs(folder):
    """The texts and modules under a folder: when each was written, and its bytes."""
    files = [path for kind in ("*.ll", "*.bc") for path in folder.rglob(kind)]
    return {str(path.relative_to(folder)): (path.stat().st_mtime_ns, path.read_bytes())
            for path in files}


def made_by(build, folder):
    """The names of what a build writes, without folder and ending."""
    before = outputs(folder / build.out)
    time.sleep(0.02)
    for words in build.build:
        called(words, folder)
    after = outputs(folder / build.out)
    return {pathlib.Path(name).stem for name in after if before.get(name) != after[name]}


def changes(build, examples):
    """Builds again after changes: for each what was made, and what should have been."""
    folder = examples / build.folder
    yield "nothing yet", made_by(build, folder), {"main", "read", "table", "libc", "words"}
    called(build.check, folder)
    yield "nothing", made_by(build, folder), set()
    edits = [("words/words.h", {"main", "read", "table", "words"}), ("libc.c", {"libc", "words"}),
             ("words/table.c", {"table", "words"}), ("words/main.c", {"main", "words"})]
    for name, wanted in edits:
        path = examples / name
        with path.open("a") as file:
            file.write(f"static int new_in_{path.stem} __attribute__((used)) = 1;\n")
        yield f"a change of {name}", made_by(build, folder), wanted
    called(build.check, folder)


def wrong(name, tool):
    """What a build does otherwise than it should."""
    build = BUILDS[name]
    with tempfile.TemporaryDirectory() as room, tempfile.TemporaryDirectory() as other:
        first, second = copied(tool, room), copied(tool, other)
        for examples in (first, second):
            made_by(build, examples / build.folder)
        one, two = ({name: data for name, (_, data) in
                     outputs(examples / build.folder / build.out).items()}
                    for examples in (first, second))
        if one != two:
            yield f"{name}: a copy at another place has other bytes"
        shutil.rmtree(second)
        second = copied(tool, pathlib.Path(other) / "again")
        for what, made, wanted in changes(build, second):
            if made != wanted:
                yield f"{name}: after {what}, made {sorted(made)}, not {sorted(wanted)}"
        if name == "bazel":
            yield from many(build, first / build.folder)
            for folder in (first, second):
                called([*BAZEL, "shutdown"], folder / "bazel")


def many(build, folder):
    """A program of many files, of which only the one that is changed is compiled again."""
    names = [f"part{i}" for i in range(MANY)]
    for i, name in enumerate(names):
        (folder / f"{name}.c").write_text(f"int {name}(int x) {{ return x * {i} + 1; }}\n")
    calls = "".join(f"int {name}(int);\n" for name in names)
    total = " + ".join(f"{name}(1)" for name in names)
    (folder / "whole.c").write_text(f"{calls}int main(void) {{ return ({total}) % 251; }}\n")
    sources = ", ".join(f'"{name}.c"' for name in [*names, "whole"])
    with (folder / "BUILD").open("a") as file:
        file.write(f'ir_program(name = "many", srcs = [{sources}])\n')
    it = Build("bazel", [], [[*BAZEL, "build", "many"]], None, build.out)
    made = made_by(it, folder)
    if not made >= {*names, "whole", "many"}:
        yield f"bazel: of {MANY} files, {len(made)} were made"
    (folder / "part77.c").write_text("int part77(int x) { return x * 77 + 2; }\n")
    made = made_by(it, folder)
    if made != {"part77", "many"}:
        yield f"bazel: after a change of one file of {MANY}, made {sorted(made)}"
    status = subprocess.run(["../../ir-tools", "lli", "bazel-bin/many.bc"], cwd=folder).returncode
    if status != (MANY * (MANY - 1) // 2 + MANY + 1) % 251:
        yield f"bazel: the program of {MANY} files ends with status {status}"


def check():
    """Whether the program's output is that of the native program."""
    if shutil.which("clang-19") is None:
        print("tests/builds.py: skipped: clang-19 not there")
        return
    with tempfile.TemporaryDirectory() as room:
        sources = sorted(str(path) for path in WORDS.glob("*.c"))
        subprocess.run(["clang-19", "-O1", "-o", f"{room}/words", *sources], check=True)
        with (WORDS / "input.txt").open("rb") as given:
            printed = subprocess.run([f"{room}/words", "input.txt"], stdin=given, check=True,
                                     stdout=subprocess.PIPE).stdout
    if printed != (WORDS / "expected.txt").read_bytes():
        yield "examples/words/expected.txt is not what the native program prints"


def run(tool, names):
    """What is wrong with these builds."""
    for name in names or [it for it in BUILDS if it != "bazel"]:
        missing = BUILDS[name].missing()
        if missing:
            print(f"tests/builds.py: {name}: skipped: {', '.join(missing)} not there")
            continue
        yield from wrong(name, str(pathlib.Path(tool).resolve()))


def main():
    words = sys.argv[1:]
    if words[:1] == ["--check"]:
        found = list(check())
    elif words[:1] == ["--run"] and len(words) > 1:
        found = list(run(words[1], words[2:]))
    else:
        sys.exit(__doc__)
    for line in found:
        print(f"tests/builds.py: {line}")
    sys.exit(1 if found else 0)


if __name__ == "__main__":
    main()
