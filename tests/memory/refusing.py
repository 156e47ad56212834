"""What the tests of refused memory share: their checks, the library that refuses a call for memory, and runs of the program in which it
does.

Python imports it as a module; it tests nothing by itself.
"""
import os
import shutil
import subprocess
from dataclasses import dataclass

import calling
from senders import Peer

HERE = os.path.dirname(os.path.realpath(__file__))
# How long a run may take.
SECONDS = 60
# The bytes of a slot.
SLOT = 2097152
checks = []


def check(name, holds, seen=""):
    checks.append(bool(holds))
    if not holds:
        print(f"WRONG: {name}{seen != '' and ': ' or ''}{str(seen)[:400]}", flush=True)
    return holds


def report(name):
    """Prints how many checks there were, and gives the status."""
    wrong = checks.count(False)
    print(f"{name}: {len(checks)} checks, {wrong} of them wrong")
    return 1 if wrong else 0


def build(folder):
    """Builds the library in this folder, and gives its path."""
    made = f"{folder}/refuse.so"
    flags = ["-O2", "-Wall", "-Wextra", "-Werror", "-shared", "-fPIC", "-fvisibility=hidden"]
    subprocess.run([calling.compiler(), *flags, "-o", made, f"{HERE}/refuse.c"], check=True)
    return made


def environment(library, mark, number):
    """That of a run whose call for memory of this number is refused, which then makes the file `mark`."""
    if os.path.exists(mark):
        os.remove(mark)
    return {**os.environ, "LD_PRELOAD": library, "REFUSE": str(number), "REFUSED": mark}


def count_of(is_refused):
    """How many calls for memory a run makes, where `is_refused` says whether it makes one of a number from 1, and makes those before."""
    most = 1
    while is_refused(most):
        most *= 2
    least = most // 2
    while most - least > 1:
        middle = (least + most) // 2
        least, most = (middle, most) if is_refused(middle) else (least, middle)
    return least


@dataclass
class Ran:
    """What a run left: whether a call was refused, its status, what it wrote, and the lines that `list` prints then."""

    refused: bool
    status: int
    out: bytes
    err: bytes
    lines: list


class Bench:
    """A folder with a spool, and the library that refuses memory."""

    def __init__(self, program, folder):
        self.program, self.folder = program, folder
        self.spool, self.before, self.target, self.mark = (f"{folder}/{name}" for name in ("spool", "before", "target", "refused"))
        self.library = build(folder)

    def plain(self, *words, given=b"", spool=None):
        command = [self.program, spool or self.spool, *words]
        return subprocess.run(command, input=given, capture_output=True, timeout=SECONDS, check=False)

    def list(self, spool=None):
        return self.plain("list", spool=spool).stdout.splitlines()

    def environment(self, number):
        """That of a run whose call for memory of this number is refused."""
        return environment(self.library, self.mark, number)

    def make(self, name, slots=2, size=SLOT, spool=None):
        """Makes an empty spool of so many slots, in place of one that is there. (A FILE of another length isn't formatted.)"""
        if os.path.exists(spool or self.spool):
            os.remove(spool or self.spool)
        done = self.plain("format", str(slots), str(size), spool=spool)
        check(f"{name}: format", (done.returncode, done.stderr) == (0, b""), done)

    def lay(self, row, slots=2, size=SLOT):
        """Makes the spool that the row begins with, of so many slots, and an empty one beside it."""
        self.make(row.name, slots, size)
        for words, given in row.first:
            self.plain(*words, given=given)
        self.keep()
        if "TARGET" in row.words:
            self.make(row.name, slots, size, self.target)
            shutil.copy(self.target, f"{self.before}.target")

    def keep(self):
        """Keeps the spool as it stands, for `restore`."""
        shutil.copy(self.spool, self.before)

    def restore(self):
        shutil.copy(self.before, self.spool)

    def run(self, row, number):
        """The row, with the call of this number refused. (Where it has a second spool, its lines are behind those of the first.)"""
        self.restore()
        has_target = "TARGET" in row.words
        if has_target:
            shutil.copy(f"{self.before}.target", self.target)
        how = {"input": row.given, "env": self.environment(number), "capture_output": True, "timeout": SECONDS}
        with Peer(row.replies) as peer:
            named = {"PLACE": peer.place, "TARGET": self.target}
            words = [named.get(word, word) for word in row.words]
            done = subprocess.run([self.program, self.spool, *words], check=False, **how)
        lines = self.list() + (self.list(self.target) if has_target else [])
        return Ran(os.path.exists(self.mark), done.returncode, done.stdout, done.stderr, lines)


def changes_nothing(ran, whole):
    """Whether a run ended as the whole one, but for lines that say why, for each of which memory is wanted anew: those that it has are
    lines of the whole one, in their order."""
    left = iter(whole.err.splitlines(keepends=True))
    is_part = all(line in left for line in ran.err.splitlines(keepends=True))
    return (ran.status, ran.out, ran.lines) == (whole.status, whole.out, whole.lines) and is_part


def lacks(name, row, ran, before, whole):
    """Checks a run of the row in which a call was refused, and which didn't end as the whole one."""
    first, *more = ran.err.splitlines() or [b""]
    is_told = first == b"bridge: no memory" and (not more or bool(row.tells) and len(more) == 1 and more[0].startswith(row.tells))
    check(f"{name}: no memory", ran.status == 70 and is_told, ran)
    check(f"{name}: the output begins as without a refusal", whole.out.startswith(ran.out) or ran.out in row.says, ran.out)
    check(f"{name}: what is acknowledged is there", row.keeps(before, ran, whole), ran)
