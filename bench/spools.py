"""What the measurements over spool files share: the program, full spools, times, and bytes that are read.

Python imports it as a module; it measures nothing by itself.
"""
import contextlib
import os
import pathlib
import re
import resource
import shutil
import signal
import statistics
import struct
import subprocess
import sys
import tempfile
import time

TOP = pathlib.Path(__file__).resolve().parent.parent
MEBIBYTE = 1 << 20
SLOTS = 8


def program():
    """The program that is measured: $BRIDGE, or else the one of bin/bridge, which is built where a source changed. bin/bridge
    looks at all sources when it is started, so it isn't timed itself."""
    if "BRIDGE" in os.environ:
        return os.environ["BRIDGE"]
    if subprocess.run([TOP / "bin/build", "--llvm"], stdin=subprocess.DEVNULL).returncode != 0:
        sys.exit(f"{sys.argv[0]}: there is no program to measure")
    return str(TOP / "bin/.build/bridge")


@contextlib.contextmanager
def working_folder():
    """A new folder below $BENCH_FOLDER, else below bin/.build, so that it is on a real file system. It is removed."""
    build = TOP / "bin/.build"
    build.mkdir(parents=True, exist_ok=True)
    signal.signal(signal.SIGTERM, lambda *_: sys.exit(1))
    with tempfile.TemporaryDirectory(prefix="bench.", dir=os.environ.get("BENCH_FOLDER", build)) as folder:
        yield folder


def write_spool(bridge, path, size, data, full=SLOTS):
    """Makes a spool of SLOTS slots of `size` bytes, of which the first `full` are full of groups of one RELP event each,
    with a text of `data` bytes, by the layout in docs/DEVICE.md. Returns how many events it has."""
    done = subprocess.run([bridge, path, "format", str(SLOTS), str(size)], stdin=subprocess.DEVNULL, capture_output=True)
    if done.returncode != 0:
        sys.exit(f"{sys.argv[0]}: format ended with {done.returncode}: {done.stderr.decode()}")
    number = 0
    with open(path, "r+b") as file:
        text = b"x" * data
        head = b"\1" + struct.pack(">IIB", 29 + data, 1, 1)
        per_slot = (size - 18) // (38 + data)
        for slot in range(full):
            file.seek(12288 + slot * size)
            file.write(b"\1" + struct.pack(">QQ", slot + 1, number))
            for start in range(number, number + per_slot, 10000):
                stop = min(number + per_slot, start + 10000)
                file.write(b"".join(
                    head + struct.pack(">QQQI", 1 << 32, i, i + 2, data) + text
                    for i in range(start, stop)))
            number += per_slot
            file.write(b"\0" * (size - 17 - per_slot * (38 + data)))
        file.flush()
        os.fsync(file.fileno())
    return number


def run_of(path):
    """How often the spool was opened for storing, by its register."""
    with open(path, "rb") as file:
        file.seek(4096)
        # A cell: gate, ordinal, length; and its content, which begins with the version and the run.
        cells = [struct.unpack(">BQIBQ", file.read(4096)[:22]) for _ in range(2)]
    return max((ordinal, run) for gate, ordinal, _, _, run in cells if gate == 1)[1]


def timed(command):
    """Runs the command with an empty input, its output to nowhere, and returns how many seconds it took: by the clock, and
    of processors."""
    before, start = resource.getrusage(resource.RUSAGE_CHILDREN), time.perf_counter()
    done = subprocess.run(command, stdin=subprocess.DEVNULL, stdout=subprocess.DEVNULL, stderr=subprocess.PIPE)
    taken, after = time.perf_counter() - start, resource.getrusage(resource.RUSAGE_CHILDREN)
    if done.returncode != 0:
        sys.exit(f"{sys.argv[0]}: {command} ended with {done.returncode}: {done.stderr.decode()}")
    return taken, after.ru_utime + after.ru_stime - before.ru_utime - before.ru_stime


def medians(times):
    """The medians of what `timed` returned: by the clock, and of processors."""
    return [statistics.median(it) for it in zip(*times)]


def bytes_read(command, path, folder):
    """How many bytes of the file at `path` the command reads, by strace; None where strace isn't there, or may not
    trace."""
    strace, log = shutil.which("strace"), f"{folder}/trace"
    if strace is None or subprocess.run([strace, "-o", log, "true"], capture_output=True).returncode != 0:
        return None
    calls = "trace=read,readv,pread64,preadv,preadv2"
    timed([strace, "-o", log, "-P", path, "-s", "0", "-e", calls, *command])
    with open(log, encoding="utf-8") as lines:
        return sum(int(found.group(1)) for found in (re.search(r" = (\d+)$", line) for line in lines) if found)
