"""The libraries of the repository's crates, as the kit proves them: built once, and kept in this clone for edits/try and bin/check.

A library is kept by the sum of its files, of those below it and of the kit, so what is kept never goes stale. What isn't kept is
made by `rt ci` over a copy of the crates, which takes what it proved on this machine before. All lies in git's own folder: in any
other place of the clone `rt ci` refuses a file of sources that no check reads. Without git nothing is kept.
"""
import contextlib
import functools
import os
import re
import shutil
import subprocess
import tempfile
import time

import project
from project import TOP

KIT = os.path.dirname(os.path.dirname(os.path.realpath(shutil.which("rt") or "rt")))
# What the kit runs a program on once it is built.
OF_RUN = ("args", "stdin", "stdout", "status")
# What a check takes of memory, at most, as far as is known.
MEMORY = 3_000_000_000
# What is kept of a crate as it isn't any longer goes after this time with no use, in seconds.
UNUSED = 86_400


def run(words, folder):
    """Runs a command in the folder, and returns what came of it, with all that it said as one text."""
    how = {"stdin": subprocess.DEVNULL, "stdout": subprocess.PIPE, "stderr": subprocess.STDOUT, "text": True, "errors": "replace"}
    return subprocess.run(words, cwd=folder, check=False, **how)


def processors():
    """Returns how many checks, or jobs of one, to do side by side."""
    with open("/proc/meminfo", encoding="utf-8") as it:
        free = 1024 * int(re.search(r"MemAvailable:\s*(\d+)", it.read())[1])
    return max(1, min(len(os.sched_getaffinity(0)), free // MEMORY))


@functools.lru_cache(maxsize=None)
def stamp_of(crate):
    """Returns the sum of all that the crate's proof is made from."""
    files = [(path, project.read(crate, path)) for part in project.PARTS for path in project.files_of(crate, part)]
    return project.sum_of(project.kit(), project.uses()[crate], files, [stamp_of(it) for it in project.below(crate)])


def folder_of_git():
    """Returns the folder in which git keeps the state of this clone, or None."""
    git = f"{TOP}/.git"
    if os.path.isfile(git):
        with open(git, encoding="utf-8") as it:
            git = os.path.join(TOP, it.read().strip().removeprefix("gitdir: "))
    return git if os.path.isdir(git) else None


class Libraries(contextlib.AbstractContextManager):
    """Crates that are proved as they stand, with the libraries of those that others stand on."""

    def __init__(self, crates, say):
        self.say = say
        self.names = [it for it in project.uses() if it in crates]
        git = folder_of_git()
        self.lost = None if git else tempfile.mkdtemp(prefix="bridge-libraries-")
        self.home = self.lost or f"{git}/bridge-libraries"
        os.makedirs(self.home, exist_ok=True)
        # (what stands now, and not what stands once they are proved)
        self.stamps = {it: stamp_of(it) for it in self.names}
        if any(not self.is_proved(it) for it in self.names):
            self.prove()
        for it in filter(self.is_proved, self.names):
            os.utime(self.place(it))

    def __exit__(self, *_):
        if self.lost:
            shutil.rmtree(self.lost, ignore_errors=True)

    def place(self, name):
        return f"{self.home}/{name}-{self.stamps[name]}"

    def library(self, name):
        return f"{self.place(name)}/{name}.rlib"

    def is_proved(self, name):
        return os.path.isdir(self.place(name))

    def prove(self):
        """Has the kit prove a copy of the crates, and keeps what it proved."""
        with tempfile.TemporaryDirectory(prefix="new-", dir=self.home) as room:
            root = f"{room}/repository"
            copy_crates(self.names, root)
            self.say(f"the proofs of {len(self.names)} crates")
            ran = run(["rt", "ci"], root)
            for name in self.names:
                out = f"{root}/crates/{name}/out"
                if os.path.isfile(f"{out}/rlib/{name}.rlib/format"):
                    self.keep(name, f"{out}/rlib")
                elif os.path.isfile(f"{out}/{name}"):
                    os.makedirs(f"{room}/{name}")
                    self.keep(name, f"{room}/{name}")
        if ran.returncode:
            self.say("\n".join(ran.stdout.rstrip().split("\n")[-20:]))

    def keep(self, name, made):
        """Keeps what was made of a crate, and drops what was kept of it before and isn't used any longer."""
        for it in os.listdir(self.home):
            path = f"{self.home}/{it}"
            with contextlib.suppress(OSError):
                if it.startswith(f"{name}-") and path != self.place(name) and os.stat(path).st_mtime < time.time() - UNUSED:
                    shutil.rmtree(path, ignore_errors=True)
        with contextlib.suppress(OSError):
            # (another call may have kept the same meanwhile)
            os.rename(made, self.place(name))

    def words(self, crate):
        """Returns the words of a check of the crate over these libraries, in its folder."""
        of_kit = ["std", *[it for it in project.uses()[crate] if it not in project.uses()]]
        named = [(it, f"{KIT}/rlibs/{it}.rlib") for it in of_kit]
        named += [(it, self.library(it)) for it in project.uses()[crate] if it in project.uses()]
        root = "src/lib.rt" if os.path.isfile(f"{TOP}/crates/{crate}/src/lib.rt") else "src/main.rt"
        words = ["--crate-name", crate, root, "-L", f"dependency={KIT}/rlibs"]
        words += [word for name, place in named for word in ("--extern", f"{name}={place}")]
        words += [word for it in project.below(crate) for word in ("-L", f"dependency={self.place(it)}")]
        return [*words, "--antt-project", f"{KIT}/rattle/logic/antt-project.json", "--logic-built", f"{KIT}/logic_built"]


def copy_crates(names, root):
    """Copies these crates to a new folder, as the top of a repository of theirs alone."""
    os.makedirs(f"{root}/.git")
    for name in names:
        for part in project.PARTS:
            if os.path.isdir(f"{TOP}/crates/{name}/{part}"):
                shutil.copytree(f"{TOP}/crates/{name}/{part}", f"{root}/crates/{name}/{part}")
        for part in OF_RUN:
            if os.path.isfile(f"{TOP}/crates/{name}/{part}"):
                shutil.copy(f"{TOP}/crates/{name}/{part}", f"{root}/crates/{name}")
    with open(f"{TOP}/crates.txt", encoding="utf-8") as whole, open(f"{root}/crates.txt", "w", encoding="utf-8") as few:
        few.writelines(line for line in whole if re.match(r"\s*(\w*)", line)[1] in names)
    shutil.copy(f"{TOP}/HANDLES", root)
