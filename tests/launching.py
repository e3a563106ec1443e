#!/usr/bin/env python3
"""Tests of release/install and of the launcher ./ir-tools; the last line has the counts.

    tests/launching.py TOOL    installs and launches this ir-tools program

The launcher is tested in a small checkout made for it: one source, a release of that source, and a
command in place of the toolchain's `rt`. What must not be written is left to a user without rights
where root runs the tests.
"""
import gzip
import os
import pathlib
import re
import shutil
import subprocess
import sys
import tempfile
import unittest

ROOT = pathlib.Path(__file__).resolve().parent.parent
TOOLS = (ROOT / "release" / "tools").read_text().split()
# A user without rights, where the tests are run by root.
NOBODY = {"user": 65534, "group": 65534, "extra_groups": []} if os.geteuid() == 0 else {}
TOOL = None


def call(words, more=None, **options):
    """Runs words with some variables set."""
    environment = dict(os.environ, **(more or {}))
    return subprocess.run(list(map(str, words)), env=environment, capture_output=True, text=True,
                          stdin=subprocess.DEVNULL, timeout=600, **options)


def script(path, text):
    """Writes a shell script."""
    path.write_text("#!/bin/sh\n" + text)
    path.chmod(0o755)


class Scratch(unittest.TestCase):
    """Tests in a scratch folder that all users can enter."""

    def setUp(self):
        self.room = pathlib.Path(tempfile.mkdtemp())
        self.room.chmod(0o755)
        self.addCleanup(self.remove)
        self.answer = self.room / "answer.ll"
        shutil.copy(ROOT / "examples" / "answer.ll", self.answer)

    def remove(self):
        subprocess.run(["chmod", "-R", "u+w", self.room], check=True)
        shutil.rmtree(self.room)

    def files(self, folder):
        return sorted(str(path.relative_to(folder)) for path in folder.rglob("*"))


class Install(Scratch):
    """release/install"""

    def install(self, *words, more=None, **options):
        program = [] if "--uninstall" in words else [f"--program={TOOL}"]
        return call([ROOT / "release" / "install", *program, *words], more, **options)

    def test_into_a_folder_with_a_blank_in_its_name(self):
        prefix = self.room / "it's a $folder"
        made = self.install(prefix)
        self.assertEqual((made.returncode, made.stderr), (0, ""))
        version = (ROOT / "VERSION").read_text().strip()
        self.assertTrue(made.stdout.startswith(f"ir-tools {version}\n"), made.stdout)
        for folder in ("libexec/ir-tools/ir-tools", "bin/", "share/doc/ir-tools/"):
            self.assertIn(f"{prefix}/{folder}", made.stdout)
        names = sorted(it.name for it in (prefix / "bin").iterdir())
        self.assertEqual(names, sorted(["ir-tools", *TOOLS]))
        for tool in ["ir-tools", *TOOLS]:
            self.assertEqual(len((prefix / "bin" / tool).read_text().splitlines()), 3)
        pages = sorted(it.name for it in (ROOT / "man").glob("*.1"))
        self.assertEqual(sorted(it.name for it in (prefix / "share/man/man1").glob("*")), pages)
        self.assertTrue((prefix / "share/doc/ir-tools/README.md").is_file())
        self.assertTrue((prefix / "share/doc/ir-tools/examples/answer.ll").is_file())

        linked, program = self.room / "linked.bc", prefix / "bin"
        self.assertEqual(call([program / "llvm-link", self.answer, "-o", linked]).returncode, 0)
        self.assertEqual(call([program / "lli", linked, "one", ""]).returncode, 42)
        self.assertEqual(call([program / "ir-tools", "lli", linked]).returncode, 42)
        made = call([program / "llvm-as", "a b", "c"])
        self.assertEqual(made.stderr, "llvm-as: usage: too many files at word 2\n")

        self.assertEqual(self.install("--uninstall", prefix).returncode, 0)
        self.assertEqual(self.files(prefix), [])

    def test_again_with_other_names(self):
        self.assertEqual(self.install(self.room).returncode, 0)
        made = self.install("--name-prefix=ir-", "--name-suffix=-1", self.room)
        self.assertEqual((made.returncode, made.stderr), (0, ""))
        names = sorted(f"ir-{tool}-1" for tool in ["ir-tools", *TOOLS])
        self.assertEqual(sorted(it.name for it in (self.room / "bin").iterdir()), names)
        self.assertEqual(call([self.room / "bin" / "ir-lli-1", self.answer]).returncode, 42)
        self.assertEqual(self.install("--uninstall", self.room).returncode, 0)
        self.assertEqual(self.files(self.room), ["answer.ll"])

    def test_for_a_package(self):
        made = self.install("/usr", more={"DESTDIR": str(self.room / "package")})
        self.assertEqual((made.returncode, made.stderr), (0, ""))
        launcher = (self.room / "package/usr/bin/lli").read_text()
        self.assertIn("exec '/usr/libexec/ir-tools/ir-tools' lli", launcher)

    def test_into_a_folder_that_cannot_be_written(self):
        (self.room / "file").touch()
        made = self.install(self.room / "file" / "prefix")
        line = f"release/install: cannot write {self.room}/file/prefix\n"
        self.assertEqual((made.returncode, made.stderr), (1, line))

    def test_a_folder_of_another_user(self):
        prefix = self.room / "prefix"
        prefix.mkdir()
        prefix.chmod(0o555)
        try:
            made = self.install(prefix, **NOBODY)
        except PermissionError:
            self.skipTest("another user cannot read this checkout")
        line = f"release/install: cannot write {prefix}\n"
        self.assertEqual((made.returncode, made.stderr), (1, line))

    def test_what_cannot_be_completed_is_undone(self):
        (self.room / "share").touch()
        made = self.install(self.room)
        self.assertEqual((made.returncode, made.stderr.count("\n")), (1, 1), made.stderr)
        self.assertEqual(self.files(self.room), ["answer.ll", "share"])

    def test_files_of_others_stay(self):
        (self.room / "bin").mkdir()
        (self.room / "bin" / "lli").write_text("another lli")
        made = self.install(self.room)
        self.assertEqual(made.returncode, 1)
        self.assertIn(f"{self.room}/bin/lli was not installed by this", made.stderr)
        self.assertEqual(self.files(self.room), ["answer.ll", "bin", "bin/lli"])
        self.assertEqual((self.room / "bin" / "lli").read_text(), "another lli")

    def test_what_a_machine_lacks(self):
        script(self.room / "uname", '[ "$1" = -s ] && echo Linux || echo aarch64')
        script(self.room / "getconf", "echo glibc 2.31")
        path = f"{self.room}:{os.environ['PATH']}"
        wanted = re.search(r"^glibc (.*)$", (ROOT / "release" / "MANIFEST").read_text(), re.M)[1]
        made = self.install(self.room / "prefix", more={"PATH": path})
        lines = [
            "release/install: the processor is aarch64, and the program needs x86_64",
            f"release/install: glibc is 2.31, and the program needs glibc {wanted} or newer",
        ]
        self.assertEqual((made.returncode, made.stderr.splitlines()), (1, lines))
        self.assertFalse((self.room / "prefix").exists())

    def test_a_program_that_does_not_work(self):
        script(self.room / "wrong", "exit 41")
        program = f"--program={self.room}/wrong"
        made = call([ROOT / "release" / "install", program, self.room / "prefix"])
        self.assertEqual(made.returncode, 1)
        self.assertIn("FAILED", made.stderr)
        self.assertIn("ended with status 41 and not with 42", made.stderr)


class Launcher(Scratch):
    """./ir-tools"""

    def setUp(self):
        super().setUp()
        self.top = self.room / "top"
        source = self.top / "crates" / "ir_tools" / "src"
        source.mkdir(parents=True)
        (source / "main.rt").write_text("// a source\n")
        (self.top / "crates.txt").write_text("ir_tools\n")
        shutil.copytree(ROOT / "release", self.top / "release")
        shutil.copy(ROOT / "ir-tools", self.top)
        # (the copies of a checkout that cannot be written)
        subprocess.run(["chmod", "-R", "u+w", self.top], check=True)
        with gzip.open(self.top / "release" / "ir-tools.gz", "wb", 1) as packed:
            packed.write(pathlib.Path(TOOL).read_bytes())
        self.sources = call([self.top / "release" / "sum"]).stdout
        (self.top / "release" / "MANIFEST").write_text(f"sources {self.sources}")
        shutil.copy(TOOL, self.room / "built")
        build = f"mkdir -p out && cp {self.room}/built out/ir_tools"
        script(self.room / "rt", f"{build} && echo rt: running out/ir_tools\n")
        self.variables = {"RT": str(self.room / "rt"), "XDG_CACHE_HOME": str(self.room / "cache")}

    def launch(self, *words, name="ir-tools", **options):
        return call([self.top / name, *words], self.variables, **options)

    def is_silent(self, made):
        self.assertEqual((made.returncode, made.stdout, made.stderr), (42, "", ""))

    def programs(self, folder):
        """The programs below a folder, and what else a run left there that is no mark."""
        return [it for it in folder.rglob("*") if it.is_file() and it.name != "sources"]

    def make_read_only(self):
        subprocess.run(["chmod", "-R", "a-w,a+rX", self.top], check=True)

    def test_is_unpacked_once(self):
        self.is_silent(self.launch("lli", self.answer))
        [program] = self.programs(self.top / ".built")
        self.assertEqual(program.parent.name, self.sources.strip())
        time = program.stat().st_mtime_ns
        self.is_silent(self.launch("lli", self.answer))
        [program] = self.programs(self.top / ".built")
        self.assertEqual(program.stat().st_mtime_ns, time)

    def test_is_built_where_sources_differ(self):
        self.is_silent(self.launch("lli", self.answer))
        source = self.top / "crates" / "ir_tools" / "src" / "main.rt"
        old = source.read_text()
        source.write_text("// another\n")
        # (also where its time says that it is old)
        os.utime(source, (1, 1))
        made = self.launch("lli", self.answer)
        self.assertEqual((made.returncode, made.stderr.splitlines()[-1]), (42, "ir-tools: built"))
        self.is_silent(self.launch("lli", self.answer))
        source.write_text(old)
        self.is_silent(self.launch("lli", self.answer))
        (source.parent / "more.rt").touch()
        self.assertIn("sources differ", self.launch("lli", self.answer).stderr)

    def test_a_program_that_is_not_proved(self):
        self.variables["RT"] = str(self.room / "false")
        script(self.room / "false", "echo an open goal; exit 1\n")
        (self.top / "crates.txt").write_text("more\n")
        made = self.launch("lli", self.answer)
        self.assertEqual(made.returncode, 2)
        self.assertIn("an open goal\nir-tools: the program is not proved", made.stderr)
        self.assertEqual(self.files(self.top / ".built"), [])

    def test_names_of_tools(self):
        for tool in TOOLS:
            for name in (tool, f"{tool}-19", f"{tool}-19.1.7"):
                (self.room / name).symlink_to(self.top / "ir-tools")
                made = call([self.room / name, "-x"], self.variables)
                self.assertTrue(made.stderr.startswith(f"{tool}: usage: "), made.stderr)
        shutil.copy(self.top / "ir-tools", self.top / "lli")
        self.is_silent(self.launch(self.answer, name="lli"))
        for name in ("ir-tools-1", "another"):
            (self.room / name).symlink_to(self.top / "ir-tools")
            self.is_silent(call([self.room / name, "lli", self.answer], self.variables))

    def test_a_copy_without_its_checkout(self):
        shutil.copy(ROOT / "ir-tools", self.room / "lli")
        made = call([self.room / "lli", self.answer])
        self.assertEqual((made.returncode, made.stderr.count("\n")), (2, 1))
        self.assertIn("no checkout in", made.stderr)

    def test_a_checkout_that_cannot_be_written(self):
        self.make_read_only()
        (self.room / "cache").mkdir()
        (self.room / "cache").chmod(0o777)
        for _ in range(2):
            self.is_silent(self.launch("lli", self.answer, **NOBODY))
            [program] = self.programs(self.room / "cache" / "ir-tools")
            self.assertEqual(program.parent.parent, self.room / "cache" / "ir-tools")
            self.assertEqual(program.parent.name, self.sources.strip())
        self.assertFalse((self.top / ".built").exists())

    def test_where_nothing_can_be_written(self):
        self.make_read_only()
        self.variables["XDG_CACHE_HOME"] = str(self.top / "cache")
        made = self.launch("lli", self.answer, **NOBODY)
        self.assertEqual((made.returncode, made.stderr.count("\n")), (2, 1), made.stderr)
        line = f"ir-tools: cannot write {self.top}/.built or {self.top}/cache/ir-tools"
        self.assertIn(line, made.stderr)

    def test_several_at_once(self):
        words = [str(self.top / "ir-tools"), "lli", self.answer]
        runs = [subprocess.Popen(words, env=dict(os.environ, **self.variables)) for _ in range(12)]
        self.assertEqual({run.wait(600) for run in runs}, {42})
        self.assertEqual(len(self.programs(self.top / ".built")), 1)


def main():
    global TOOL
    TOOL = pathlib.Path(sys.argv[1]).resolve()
    tests = unittest.defaultTestLoader.loadTestsFromModule(sys.modules[__name__])
    result = unittest.TextTestRunner(stream=sys.stdout, verbosity=0).run(tests)
    failed = len(result.failures) + len(result.errors)
    print(f"{result.testsRun - failed - len(result.skipped)} passed, {failed} failed")
    sys.exit(1 if failed else 0)


if __name__ == "__main__":
    main()
