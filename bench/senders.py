"""Senders of RELP, Lumberjack and the collector, and the bare loop beside them: `senders.c`, built and run, and what it prints; and
`syncs.c`, which counts a server's syncs.

Python imports it as a module; it measures nothing by itself.
"""
import os
import pathlib
import statistics
import struct
import subprocess

TOKEN = "11111111-2222-3333-4444-555555555555"
ACK_TOKEN = "aaaaaaaa-2222-3333-4444-555555555555"
# The most events of a group on the disk that one frame, window or request makes: a frame of RELP is one, a batch of Lumberjack and a
# request to the collector, with ids or without, have more.
GROUP = {"relp": 1, "lumberjack": 256, "hec": 10_000, "ids": 10_000}


def source(name):
    return pathlib.Path(__file__).with_name(name)


def build(folder):
    """Builds the program in the folder, and gives its path."""
    tokens = (f'-DTOKEN="{TOKEN}"', f'-DACK_TOKEN="{ACK_TOKEN}"')
    subprocess.run(["gcc", "-O2", "-Wall", "-pthread", *tokens, "-o", f"{folder}/senders", source("senders.c")], check=True)
    return f"{folder}/senders"


class Syncs:
    """The library that counts syncs, built in the folder; it makes each take so many microseconds longer."""

    def __init__(self, folder, longer=0):
        self.library, self.folder, self.longer = f"{folder}/syncs.so", folder, longer
        subprocess.run(["gcc", "-O2", "-Wall", "-shared", "-fPIC", "-o", self.library, source("syncs.c"), "-ldl"], check=True)

    def path(self, name):
        return f"{self.folder}/{name}.syncs"

    def environment(self, name):
        """That of a program whose syncs are counted under this name, from 0."""
        pathlib.Path(self.path(name)).write_bytes(bytes(8))
        return {**os.environ, "LD_PRELOAD": self.library, "SYNCS_COUNT": self.path(name), "SYNCS_LONGER": str(self.longer)}

    def count(self, name):
        return struct.unpack("=q", pathlib.Path(self.path(name)).read_bytes())[0]


class Sent:
    """What a run of the senders printed of one server: events a second, and their ratios to the bare loop, of which each is of a turn to
    the mean of the loop before it and after it; and the microseconds of an answer."""

    def __init__(self, turns, loops, times):
        self.rates = [events / seconds for events, seconds in turns]
        self.events = sum(events for events, _ in turns)
        self.half, self.most = times
        self.rate = statistics.median(self.rates) if turns else 0
        self.bare = statistics.median(loops) if loops else 0
        around = zip(loops, loops[1:])
        self.ratios = sorted(rate * 2 / (before + after) for rate, (before, after) in zip(self.rates, around))

    def ratio(self):
        """The median of the ratios, and between which half of them lie."""
        return spread(self.ratios)

    def times(self, other):
        """The same of the ratios to another server's turns."""
        return spread(sorted(rate / before for rate, before in zip(self.rates, other.rates) if before))


def spread(ratios):
    """The median, and between which half of them lie."""
    count = len(ratios)
    if not ratios:
        return "none"
    return f"{figure(statistics.median(ratios))} ({figure(ratios[count // 4])} to {figure(ratios[count - 1 - count // 4])})"


def figure(ratio):
    return f"{ratio:,.0f}" if ratio >= 100 else f"{ratio:.1f}" if ratio >= 10 else f"{ratio:.2f}" if ratio >= 0.1 else f"{ratio:.2g}"


def run(program, servers, links, ahead, look, length, window, turns, seconds, file="-", environment=None):
    """Runs the program, whose head says what its words are. A server is a list of its places, pairs of a protocol and a port. Gives what
    came of each server, in order; and the events a second of the bare loop."""
    group = min(window, *(GROUP[protocol] for places in servers for protocol, _ in places)) if servers else window
    spelled = ",".join("+".join(f"{protocol}:{port}" for protocol, port in places) for places in servers)
    words = [spelled, links, ahead, look, length, window, group, turns, seconds, file]
    done = subprocess.run([program, *map(str, words)], stdout=subprocess.PIPE, text=True, check=True, env=environment)
    loops, sent, times = [], [[] for _ in servers], [(0, 0) for _ in servers]
    for kind, *numbers in (line.split() for line in done.stdout.splitlines()):
        if kind == "times":
            times[int(numbers[0])] = tuple(map(int, numbers[1:]))
        elif kind == "loop":
            loops.append(int(numbers[0]) / float(numbers[1]))
        else:
            sent[int(numbers[0])].append((int(numbers[1]), float(numbers[2])))
    bare = statistics.median(loops) if loops else 0
    return [Sent(turns_of_one, loops, its) for turns_of_one, its in zip(sent, times)], bare
