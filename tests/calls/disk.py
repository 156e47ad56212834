"""Events by each protocol while calls on FILE fail, and what a power cut at each later moment would leave."""
import hashlib
import http.client
import random
import socket
import subprocess
import time
from dataclasses import dataclass

import calling
import serving
from answers import acknowledged
from platter import Platter, is_bad_sync, is_good_sync
from serving import ACK_TOKEN, TOKEN, HecLink, LumberLink, RelpLink, names_in, text_of
from spool import NotSpool, read_spool

# For events of so many bytes: how large the slots are, so that some events fill one.
SLOT_SIZES = {100: 4096, 9000: 40960, 100000: 262144}


@dataclass(frozen=True)
class Way:
    """How events come in: by which protocol, how many at once, and what the server's words are beside."""

    protocol: str
    count: int
    manner: tuple = ()


# A frame of RELP, a window, a request; and frames of RELP that one write sends, of which the server stores what fits as one group.
WAYS = {"relp": Way("relp", 1), "lumberjack": Way("lumberjack", 2), "hec": Way("hec", 2), "runs": Way("relp", 3, ("--group",))}


class Feed:
    """A sender by one protocol, which sends an event, or some as one window or request or as frames at once, until all are
    acknowledged."""

    def __init__(self, server, way, length):
        self.server, self.port, self.protocol, self.length = server, server.ports[way.protocol], way.protocol, length
        self.links, self.next, self.count = {}, 0, way.count

    def link(self, word):
        """The connection for this token, or the only one."""
        makes = {"relp": lambda: RelpLink(self.port), "lumberjack": lambda: LumberLink(self.port)}
        if word not in self.links:
            self.links[word] = makes[self.protocol]() if self.protocol in makes else HecLink(self.port, token=word)
        return self.links[word]

    def drop(self):
        for link in self.links.values():
            if self.protocol == "relp":
                link.drop()
            else:
                link.close()
        self.links.clear()

    def store(self, tries):
        """Sends what is next, at most so many times. Gives whether it was acknowledged. Every other request to the collector is by
        the token with ack ids."""
        texts = [text_of(self.protocol, number, self.length) for number in range(self.next, self.next + self.count)]
        self.next += self.count
        word = (TOKEN, ACK_TOKEN)[self.next // self.count % 2] if self.protocol == "hec" else ""
        for _ in range(tries):
            if self.server.child.poll() is not None:
                break
            try:
                link = self.link(word)
                if self.protocol == "relp":
                    link.store_all(texts)
                elif self.protocol == "lumberjack":
                    link.store(texts)
                else:
                    link.store(texts, 0.02)
                return True
            except (OSError, http.client.HTTPException, ValueError):
                self.drop()
                time.sleep(0.01)
        return False


@dataclass
class Run:
    """A server under the library: the calls, FILE before them, whether all was acknowledged to the sender, how the server ended, and
    standard error."""

    calls: list
    before: bytes
    is_stored: bool
    status: int
    errors: str


def is_up(server, port):
    """Whether the server listens there; it may have ended instead."""
    while server.child.poll() is None:
        try:
            socket.create_connection(("127.0.0.1", port), 5).close()
            return True
        except OSError:
            time.sleep(0.005)
    return False


def said_of(seen):
    """What was said so far, and whether the last line about FILE says how it is since the last call of it."""
    calls = seen.calls()
    fails = [call.result < 0 for call in calls if call.kind in ("read", "write", "sync")]
    said = b"".join(call.data for call in calls if call.kind == "say")
    return said, True not in fails or said.endswith(b"FILE is well again\n") != fails[-1]


def is_said(seen):
    """Whether that is so, and no line came for a tenth of a second. (Lines are written by a thread of their own.)"""
    before, holds = said_of(seen)
    if not holds or b" of FILE failed" not in before:
        return holds
    time.sleep(0.1)
    return said_of(seen) == (before, True)


def serve(program, library, folder, way, length, plan=(), tries=8, stores=4):
    """Serves a sender with calls that fail as planned, and kills the server then."""
    # (three at a time need room for those that are sent again, too)
    server = serving.Server(program, folder, 12 if way.count > 2 else 6, SLOT_SIZES[length])
    with open(server.spool, "rb") as file:
        before = file.read()
    seen = calling.Seen(library, folder, server.spool, plan)
    server.start("--workers", "2", *way.manner, places=[way.protocol], environment=seen.environment)
    feed = Feed(server, way, length)
    done = is_up(server, feed.port) and [feed.store(tries) for _ in range(stores)]
    serving.wait_until(lambda: is_said(seen), 2)
    status, errors = server.kill()
    feed.drop()
    return Run(seen.calls(), before, bool(done) and all(done), status, errors)


class Lister:
    """What is in an image: by spool.py, and of some of them by `list` too."""

    def __init__(self, program, folder):
        self.program, self.path, self.known, self.listed = program, f"{folder}/image", {}, 0

    def names(self, image):
        """The names of the events in it, in order; or None and why it is no spool."""
        key = hashlib.sha256(image).digest()
        if key not in self.known:
            try:
                self.known[key] = names_in(read_spool(image)), ""
            except NotSpool as error:
                self.known[key] = None, str(error)
        return self.known[key]

    def list(self, image):
        """What `list` prints of it: the same names, or None and what is said."""
        self.listed += 1
        with open(self.path, "wb") as file:
            file.write(image)
        done = subprocess.run([self.program, self.path, "list", "--as", "relp"], capture_output=True, check=False)
        return (names_in(done.stdout.split(b"\n")), "") if done.returncode == 0 else (None, done.stderr.decode().strip())


def half(seed):
    """Which pages the system happened to have put on the disk."""
    chance = random.Random(seed)
    return lambda page: chance.random() < 0.5


def cuts(run, since, puts):
    """Power cuts, one after another, each as the number of the next call and what is left on the disk: at the end of each time between
    two syncs after the first `since` ones, where of the pages that were written since none or some had come to the disk. Of a sync
    that fails `puts` says which pages it had put there."""
    platter, syncs = Platter(run.before), 0
    for number, call in enumerate([*run.calls, calling.Call("sync", -1, 0, 1, 0, 0, b"")]):
        if is_good_sync(call) or is_bad_sync(call):
            if syncs >= since:
                yield number, platter.after_cut()
                yield number, platter.after_cut(half(number))
            syncs += 1
        platter.see(call, puts)


def cut_faults(run, lister, since=0, puts=lambda page: False, most_listed=3):
    """What is wrong with what power cuts leave: each event that was acknowledged before the cut is in it. So many of them, the last
    one among these, are shown to `list` too, which has to read the same."""
    acks, faults, left = acknowledged(run.calls), [], list(cuts(run, since, puts))
    shown = set(random.Random(since).sample(range(len(left)), min(most_listed, len(left))))
    for place, (number, image) in enumerate(left):
        due, (names, said) = {name for at, name in acks if at < number}, lister.names(image)
        if names is None:
            faults.append(f"a cut at call {number}: not a spool: {said}")
        elif not due <= set(names):
            faults.append(f"a cut at call {number}: {len(due - set(names))} of {len(due)} acknowledged events are missing")
        if place in shown and (listed := lister.list(image))[0] != names:
            faults.append(f"a cut at call {number}: list reads {listed}, and {names} is due")
    return faults


def order_faults(calls):
    """What is wrong with the order of writes, syncs and acknowledgments, where no call failed: the bytes of a group are written, they
    are synced, its gate is opened, the gate is synced, and only then its events are acknowledged."""
    faults = []
    for at, name in acknowledged(calls):
        mark = f"ev:{name}:".encode()
        kinds, is_group = [], False
        for call in calls[:at]:
            if call.kind == "write" and mark in call.data:
                kinds, is_group = ["group"], True
            elif is_group and call.kind == "write":
                kinds.append("gate" if call.data == b"\1" else "group")
            elif is_group and is_good_sync(call):
                kinds.append("sync")
        order = [kind for place, kind in enumerate(kinds) if place == 0 or kinds[place - 1] != kind]
        if order[:4] != ["group", "sync", "gate", "sync"]:
            faults.append(f"{name}: acknowledged after {order[:4]}")
    return faults
