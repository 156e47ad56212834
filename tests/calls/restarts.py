"""A server that is killed while its disk fails, started again on the same running machine, and cut off from power later: what it
acknowledged stands on the disk. Between the program and FILE stands a memory of the system's (page_cache.c), which goes on from one
program to the next."""
import concurrent.futures
import os
import shutil
import subprocess
import tempfile
import threading
import time

import calling
import serving
from serving import LumberLink, RelpLink, names_in, text_of

SLOTS, SLOT_BYTES = 6, 262144
# Of how many bytes events are, and which sync of the first start is the first that fails.
RUNS = [(length, sync) for length in (100, 30000) for sync in range(4, 16)]


class Sender(threading.Thread):
    """Sends one event after another until it is told to stop, and keeps the names of those that are acknowledged."""

    def __init__(self, name, make, port, length):
        super().__init__(daemon=True)
        self.name, self.make, self.port, self.length = name, make, port, length
        self.over, self.acknowledged, self.next = threading.Event(), [], 0

    def run(self):
        while not self.over.is_set():
            try:
                link = self.make(self.port, 2)
                while not self.over.is_set():
                    text = text_of(self.name, self.next, self.length)
                    self.next += 1
                    link.store(text if self.make is RelpLink else [text])
                    self.acknowledged += names_in([text])
            except (OSError, ValueError):
                time.sleep(0.005)


def serve_for(server, environment, seconds, name, length):
    """Serves two senders for so long, and kills the server. Gives its status and what was acknowledged."""
    server.start("--workers", "2", places=("relp", "lumberjack"), environment=environment)
    makes = (("relp", RelpLink), ("lumberjack", LumberLink))
    senders = [Sender(f"{name}{place[0]}", make, server.ports[place], length) for place, make in makes]
    for sender in senders:
        sender.start()
    time.sleep(seconds)
    status, _ = server.kill()
    for sender in senders:
        sender.over.set()
    for sender in senders:
        sender.join(10)
    return status, {name for sender in senders for name in sender.acknowledged}


def one_run(program, cache, length, sync):
    """What is wrong with what the power cut leaves, or nothing, and how many events were acknowledged."""
    with tempfile.TemporaryDirectory() as folder:
        server = serving.Server(program, folder, SLOTS, SLOT_BYTES)
        disk = f"{folder}/disk"
        shutil.copyfile(server.spool, disk)
        words = {"LD_PRELOAD": cache, "CACHE_FILE": server.spool, "CACHE_DISK": disk, "CACHE_DIRTY": f"{folder}/dirty"}
        failing = {**os.environ, **words, "CACHE_FAILS": str(sync)}
        _, first = serve_for(server, failing, 0.5, "a", length)
        status, second = serve_for(server, {**failing, "CACHE_FAILS": "0"}, 0.4, "b", length)
        done = subprocess.run([program, disk, "list", "--as", "relp"], capture_output=True, check=False)
        name = f"sync {sync} fails, {length} bytes"
        if status != -9:
            return f"{name}: the second start ended with {status}", 0
        if done.returncode:
            return f"{name}: {done.stderr.decode().strip()}", len(first | second)
        missing = (first | second) - set(names_in(done.stdout.split(b"\n")))
        return missing and f"{name}: {len(missing)} acknowledged events are missing", len(first | second)


def restarts(check, program, _library, folder):
    """Of each run nothing that was acknowledged is missing after the power cut."""
    cache = f"{folder}/page_cache.so"
    flags = ["-O2", "-Wall", "-Wextra", "-Werror", "-shared", "-fPIC", "-fvisibility=hidden"]
    subprocess.run([calling.compiler(), *flags, "-o", cache, f"{calling.HERE}/page_cache.c", "-ldl", "-lpthread"], check=True)
    with concurrent.futures.ThreadPoolExecutor(4) as pool:
        ended = list(pool.map(lambda run: one_run(program, cache, *run), RUNS))
    wrong = [said for said, _ in ended if said]
    check("started again after a disk that failed: a power cut takes nothing that was acknowledged", not wrong, "; ".join(wrong[:3]))
    count = sum(count for _, count in ended)
    check("started again after a disk that failed: events were acknowledged", count >= 20 * len(RUNS), count)
