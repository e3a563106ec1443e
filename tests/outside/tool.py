"""What both kinds of cases of tests/outside/regroup.py use: the program in a folder of its own,
the entries of a text, and how a case is reduced."""
import pathlib
import re
import subprocess

# How many steps a program is run for, and at most how many where it is stopped early.
STEPS, FEW = 20000, 400
# How often a case is tried while it is made smaller.
TRIES = 800


class Tool:
    """The program, with a folder for its files. No module is run twice."""

    def __init__(self, program, room):
        self.program, self.room, self.ends = program, pathlib.Path(room), {}
        self.killed = []

    def run(self, *words, given=b""):
        """The status, standard output and standard error."""
        words = [word.encode("latin-1") for word in words]
        made = subprocess.run([self.program, *words], input=given, capture_output=True,
                              cwd=self.room, timeout=600)
        if made.returncode < 0:
            self.killed.append(f"killed: {made.args} by signal {-made.returncode}")
        return made.returncode, made.stdout, made.stderr

    def write(self, name, data):
        (self.room / name).write_bytes(data)

    def end_of(self, module, steps, *words, given=b""):
        """The output and the end of a module."""
        if (module, words, given) not in self.ends:
            self.write("run", module)
            made = self.run("lli", f"--max-steps={steps}", "run", *words, given=given)
            self.ends[module, words, given] = made
        return self.ends[module, words, given]


def steps_by(chance):
    """A bound on steps."""
    return chance.one_of([STEPS, STEPS, STEPS, chance.below(FEW)])


def kind_of_end(end):
    """What the end of a run is counted as."""
    status, _, line = end
    words = line.decode("latin-1").partition(": ")[2].strip()
    return "runs: " + (re.sub(r" @.*", "", words) if words else "exit")


def entities(text):
    """The entries of a text: a function with its body is one."""
    found, is_inside = [], False
    for line in text.splitlines():
        if is_inside:
            found[-1] += "\n" + line
            is_inside = line != "}"
        else:
            found.append(line)
            is_inside = line.startswith("define") and not line.rstrip().endswith("}")
    return found


def kinds_of(differences):
    """What differs, without what it is in."""
    return {line.partition(":")[0] for line in differences}


def smaller(case, tool):
    """A case with fewer entries, by as many tries as are allowed, in which the same differs. The
    last entries, which name others and are named by none, are left out first."""
    wanted, tries = kinds_of(case.differences(tool)), 0
    size = max(1, case.size() // 4)
    while wanted:
        end, is_changed = case.size(), False
        while end > 0 and tries < TRIES:
            tried, tries = case.without(max(0, end - size), end), tries + 1
            if kinds_of(tried.differences(tool)) & wanted:
                case, is_changed = tried, True
            end -= size
        if tries >= TRIES or size == 1 and not is_changed:
            break
        size = max(1, size // 2)
    return case
