"""The library that sees and fails the calls of a program: how it is built, a program is started under it, and what it wrote down is
read. See calls.c for its words."""
import glob
import os
import shutil
import subprocess
from dataclasses import dataclass

PROBE = {"input": b"#include <dlfcn.h>\n", "capture_output": True, "check": False}
HERE = os.path.dirname(os.path.realpath(__file__))


def compiler():
    """The system's compiler of C that has the headers of the C library, or None."""
    for name in ("cc", "gcc", "clang"):
        found = shutil.which(name)
        if found is not None and subprocess.run([found, "-x", "c", "-fsyntax-only", "-"], **PROBE).returncode == 0:
            return found
    return None


def build(folder):
    """Builds the library in this folder, and gives its path."""
    made = f"{folder}/calls.so"
    flags = ["-O2", "-Wall", "-Wextra", "-Werror", "-shared", "-fPIC", "-fvisibility=hidden"]
    sources = sorted(glob.glob(f"{HERE}/calls*.c"))
    subprocess.run([compiler(), *flags, "-o", made, *sources, "-ldl", "-lpthread"], check=True)
    return made


@dataclass
class Call:
    """A call as it was written down: by its kind the fields mean what calls.c says."""

    kind: str
    fd: int
    at: int
    asked: int
    result: int
    error: int
    data: bytes


def read_calls(path):
    """The calls that were written down, in order. One that a kill cut off is left out."""
    calls = []
    with open(path, "rb") as log:
        while (line := log.readline()).endswith(b"\n"):
            kind, *numbers, length = line.decode().split()
            data = log.read(int(length))
            if log.read(1) != b"\n":
                break
            calls.append(Call(kind, *map(int, numbers), data))
    return calls


class Seen:
    """Where the calls of one program are written down, and the environment that has them written down."""

    def __init__(self, library, folder, file, plan=(), shorten=1, name="calls"):
        self.log = f"{folder}/{name}.log"
        if os.path.exists(self.log):
            os.remove(self.log)
        words = {"LD_PRELOAD": library, "CALLS_LOG": self.log, "CALLS_FILE": file, "CALLS_PLAN": " ".join(plan)}
        self.environment = {**os.environ, **words, "CALLS_SHORTEN": str(shorten)}

    def calls(self):
        return read_calls(self.log)


def fails(call, at, error, last=None):
    """The word of a plan by which these calls of a kind fail with this errno, or come to 'short' or 'torn': the one of the number
    `at`, or all up to `last`."""
    return f"{call}@{at}-{at if last is None else last}={error}"
