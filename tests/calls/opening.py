"""How FILE is opened, made and found gone: block devices, locks, a `format` that is stopped, and a FILE that is removed."""
import errno
import fcntl
import http.client
import os
import shutil
import stat
import subprocess
import time

import calling
import serving
from edges import OPEN, SLOTS_AT, node_of
from platter import add, is_bad_sync, is_good_sync
from serving import RelpLink, text_of

IN_USE = 80


def run(program, *words, given=b""):
    """What a command of the program gives: its status, what it prints, and its lines on standard error."""
    try:
        done = subprocess.run([program, *words], input=given, capture_output=True, check=False, timeout=30)
    except subprocess.TimeoutExpired:
        return None, b"", "it did not end"
    return done.returncode, done.stdout, done.stderr.decode()


def is_refused(seen, path, why="in use", status=IN_USE):
    """Whether a command ended because this file couldn't be opened."""
    return seen[0] == status and seen[1] == b"" and seen[2].startswith(f"bridge: {path}: {why}\n")


# ---- block devices


class Loop:
    """A block device over a file, with a second node of it."""

    def __init__(self, folder, size):
        self.file, self.node = f"{folder}/device", f"{folder}/node"
        with open(self.file, "wb") as file:
            file.truncate(size)
        done = subprocess.run(["losetup", "-f", "--show", self.file], capture_output=True, text=True, check=False)
        self.path = done.stdout.strip() if done.returncode == 0 else None
        if self.path is not None:
            os.mknod(self.node, 0o600 | stat.S_IFBLK, os.stat(self.path).st_rdev)

    def close(self):
        if self.path is not None:
            subprocess.run(["losetup", "-d", self.path], check=False, capture_output=True)


def loop_of(folder, size):
    """Such a device, or None where this machine has none for us."""
    if os.geteuid() != 0 or shutil.which("losetup") is None:
        return None
    try:
        loop = Loop(folder, size)
    except OSError:
        return None
    return loop if loop.path is not None else None


def nodes(check, program, _library, folder):
    """A block device is in use whatever the node by which it is opened, and one with a mounted file system isn't opened."""
    loop = loop_of(folder, SLOTS_AT + 4 * 65536)
    if loop is None:
        print("calls: SKIPPED: block devices: there is no loop device here, or no right to one")
        return
    try:
        check("a block device: it is formatted", run(program, loop.path, "format", "4", "65536")[0] == 0)
        server = serving.Server(program, folder, None)
        server.spool = loop.path
        server.start(places=("relp",))
        link = RelpLink(server.ports["relp"])
        link.store(text_of("relp", 1))
        relp = f"--relp=127.0.0.1:{serving.free_ports(1)[0]}"
        tries = [["serve", relp, "--quiet"], ["list"], ["rescue"], ["drain", "relp"], ["replay", "relp"], ["skip", "0"], ["format", "4", "65536"]]
        for words in tries:
            for path in (loop.path, loop.node):
                seen = run(program, path, *words)
                check(f"a block device in use: {words[0]} by {'its node' if path == loop.path else 'another node'}", is_refused(seen, path), seen)
        other = f"{folder}/other"
        run(program, other, "format", "4", "65536")
        for words in ([loop.node, "move", other, "1"], [other, "move", loop.node, "1"]):
            seen = run(program, *words)
            check("a block device in use: move by another node", is_refused(seen, loop.node), seen)
        link.store(text_of("relp", 2))
        link.drop()
        server.kill()
        seen = run(program, loop.node, "list", "--as", "relp")
        check("a block device: by another node the spool is the same", seen[1].split(b"\n")[:-1] == [text_of("relp", 1), text_of("relp", 2)], seen)
        seen = run(program, loop.path, "move", loop.node, "1")
        check("a block device: it is one file by two nodes", seen[0] == 73 and "are one file" in seen[2], seen)
    finally:
        loop.close()
    mounted(check, program, folder)


def mounted(check, program, folder):
    """A device with a file system that is mounted isn't opened, whatever its node is."""
    os.makedirs(f"{folder}/second")
    loop = loop_of(f"{folder}/second", 16 << 20)
    place = f"{folder}/mounted"
    os.makedirs(place)
    try:
        if subprocess.run(["mkfs.ext4", "-q", "-F", loop.path], check=False, capture_output=True).returncode:
            print("calls: SKIPPED: a device that is mounted: mkfs.ext4 is missing")
            return
        if subprocess.run(["mount", loop.path, place], check=False, capture_output=True).returncode:
            print("calls: SKIPPED: a device that is mounted: nothing may be mounted here")
            return
        for path in (loop.path, loop.node):
            seen = run(program, path, "format", "4", "65536")
            check("a mounted device isn't formatted", is_refused(seen, path, "its file system is mounted", 73), seen)
    finally:
        subprocess.run(["umount", place], check=False, capture_output=True)
        loop.close()


# ---- what every opening does


def first_calls(check, program, library, folder):
    """Before anything of FILE is read it is locked and synced, and the system is to forget what it has of it. A sync that fails is made
    once more, and where that fails too FILE isn't opened. `rescue` leaves the memory as it is."""
    path = f"{folder}/spool"
    run(program, path, "format", "2", "4096")
    hello = b"2 syslog 5 hello\n"
    for words in (["list"], ["replay", "relp"], ["drain", "relp"], ["skip", "0"]):
        seen = calling.Seen(library, folder, path)
        subprocess.run([program, path, *words], env=seen.environment, input=OPEN + hello, capture_output=True, check=False)
        calls = [call for call in seen.calls() if call.kind in ("lock", "sync", "advise", "read")]
        kinds = [call.kind for call in calls if call.kind != "lock" or call.data == node_of(path)]
        before = kinds[: kinds.index("read")]
        check(f"{words[0]}: FILE is locked, synced and forgotten before it is read", before[:3] == ["lock", "sync", "advise"], kinds[:8])
        check(f"{words[0]}: it is forgotten whole", {(call.at, call.asked) for call in calls if call.kind == "advise"} == {(0, 4)}, calls[:4])
    for last, status in (1, 0), (2, 73):
        seen = calling.Seen(library, folder, path, [calling.fails("sync", 1, errno.EIO, last)])
        done = subprocess.run([program, path, "list"], env=seen.environment, capture_output=True, check=False)
        is_said = done.stderr.decode().startswith(f"bridge: {path}: a sync failed\n")
        check(f"list where {last} syncs fail", done.returncode == status and is_said == (status == 73), done)
    seen = calling.Seen(library, folder, path)
    subprocess.run([program, path, "rescue"], env=seen.environment, capture_output=True, check=False)
    kinds = {call.kind for call in seen.calls() if call.kind in ("sync", "advise", "write")}
    check("rescue: FILE is neither synced nor forgotten", kinds == set(), kinds)


def many_ranges(check, program, library, folder):
    """Of what was written since the last good sync bridge keeps 64 ranges that lie apart, to write them back where a sync fails. So before a
    65th is written FILE is synced: `format` closes the gates of 200 slots."""
    path = f"{folder}/spool"
    run(program, path, "format", "200", "4096")
    seen = calling.Seen(library, folder, path)
    done = subprocess.run([program, path, "format", "200", "4096"], env=seen.environment, capture_output=True, check=False)
    ranges, most, writes = [], 0, 0
    for call in seen.calls():
        if call.kind == "write":
            ranges, writes = add(ranges, call.at, call.at + call.asked), writes + 1
            most = max(most, len(ranges))
        elif is_good_sync(call):
            ranges = []
    check("format of many slots: status", done.returncode == 0 and writes > 200, (done, writes))
    check("format of many slots: FILE is synced before a 65th range", most == 64, most)


def order_of_locks(check, program, library, folder):
    """The two files of a `move` are locked in one order, whichever is named first."""
    paths = [f"{folder}/first", f"{folder}/second"]
    for path in paths:
        run(program, path, "format", "2", "4096")
    orders = []
    for source, target in (paths, paths[::-1]):
        seen = calling.Seen(library, folder, source)
        done = subprocess.run([program, source, "move", target, "1"], env=seen.environment, capture_output=True, check=False)
        locked = [call.data for call in seen.calls() if call.kind == "lock" and call.result == 0]
        check("move: status", done.returncode == 0, done)
        check("move: both are locked", sorted(locked) == sorted(node_of(path) for path in paths), locked)
        orders.append(locked)
    check("move: they are locked in one order", orders[0] == orders[1], orders)


def unreadable(check, program, library, folder):
    """What was written and not synced can't be read any more after a sync that failed, but can be written: FILE is well again after that,
    and what was acknowledged stands."""
    server, link, seen = None, None, None
    texts = [text_of("relp", number, 9000) for number in range(4)]
    for plan, lost in ((), ""), (None, None):
        if plan is None:
            # (the whole pages of the second group, whose first sync fails)
            calls = seen.calls()
            at = next(number for number, call in enumerate(calls) if call.kind == "write" and texts[1] in call.data)
            group = calls[at]
            lost = f"{-(-group.at // 4096) * 4096}-{(group.at + len(group.data)) // 4096 * 4096}"
            plan = [calling.fails("sync", 1 + sum(call.kind == "sync" and call.asked == 1 for call in calls[:at]), errno.EIO)]
        server = serving.Server(program, folder, 8, 65536)
        seen = calling.Seen(library, folder, server.spool, plan)
        server.start("--workers", "1", places=("relp",), environment={**seen.environment, "CALLS_UNREAD": lost})
        stored = []
        for text in texts:
            for _ in range(6):
                try:
                    link = link or RelpLink(server.ports["relp"])
                    link.store(text)
                    stored.append(text)
                    break
                except (OSError, ValueError):
                    link = None
        server.kill()
        link = None
    calls = seen.calls()
    check("a range that can't be read: there was one", any(map(is_bad_sync, calls)) and any(call.kind == "read" and call.error for call in calls))
    check("a range that can't be read: all is stored", stored == texts, len(stored))
    listed = server.list()
    check("a range that can't be read: what was acknowledged stands", set(texts) <= set(listed), len(listed))


# ---- FILE that is gone


def health_of(port):
    link = http.client.HTTPConnection("127.0.0.1", port, timeout=10)
    link.request("GET", "/health")
    return link.getresponse().status


def gone(check, program, _library, folder):
    """A tenth of a second after FILE is removed, renamed or another one stands in its place nothing more is acknowledged, `/health` is 503 and a line says why;
    once it is back it is well again."""

    def replace(path):
        shutil.copyfile(path, f"{path}.copy")
        os.rename(path, f"{path}.away")
        os.rename(f"{path}.copy", path)

    ways = {
        "removed": (os.remove, None),
        "renamed": (lambda path: os.rename(path, f"{path}.away"), lambda path: os.rename(f"{path}.away", path)),
        "replaced": (replace, lambda path: os.rename(f"{path}.away", path)),
    }
    for name, (leave, back) in ways.items():
        server, port = serving.Server(program, folder, 8, 65536), serving.free_ports(1)[0]
        server.start("--workers", "2", "--status", f"127.0.0.1:{port}", places=("relp",))
        link = RelpLink(server.ports["relp"])
        link.store(text_of("relp", 1))
        check(f"a FILE to be {name}: it is well", health_of(port) == 200)
        leave(server.spool)
        # (it is looked for a tenth of a second after the last look)
        time.sleep(0.2)
        acknowledged = 0
        for number in (2, 3):
            try:
                link = link or RelpLink(server.ports["relp"])
                link.store(text_of("relp", number))
                acknowledged += 1
            except (OSError, ValueError):
                link = None
        check(f"a FILE that is {name}: nothing is acknowledged", acknowledged == 0, acknowledged)
        check(f"a FILE that is {name}: /health is 503", health_of(port) == 503)
        if back is not None:
            back(server.spool)
            RelpLink(server.ports["relp"]).store(text_of("relp", 4))
            check(f"a FILE that was {name} and is back: /health is 200", health_of(port) == 200)
        status, errors = server.kill()
        due = ["bridge: FILE was removed or renamed; nothing is acknowledged until FILE is well again"]
        due += ["bridge: FILE is well again"] if back is not None else []
        check(f"a FILE that is {name}: what is said", status == -9 and errors.splitlines() == due, (status, errors))
        if back is not None:
            stored = server.list()
            check(f"a FILE that was {name}: what was acknowledged stands", {text_of("relp", 1), text_of("relp", 4)} <= set(stored), stored)


# ---- a `format` that is stopped


def stopped(check, program, library, folder):
    """A `format` that is killed leaves no FILE, and the next one isn't hindered; nor by what an earlier one left under FILE's own name. Two
    at once are kept apart, and what isn't of zeros stays."""
    path = f"{folder}/spool"
    words = ["format", "2", "262144"]
    for number in (1, 3, 9):
        # (it stops before this write)
        seen = calling.Seen(library, folder, f"{path}.unfinished", [calling.fails("write", number, "stop")], name="stopped")
        with subprocess.Popen([program, path, *words], env=seen.environment, stdout=subprocess.DEVNULL) as child:
            os.waitpid(child.pid, os.WUNTRACED)
            second = run(program, path, *words)
            child.kill()
        check(f"a format that stops before write {number}: a second one", is_refused(second, path), second)
        check("a format that is killed: no FILE is left", not os.path.exists(path) and os.path.exists(f"{path}.unfinished"))
    os.remove(seen.log)
    check("after one that was killed", run(program, path, "format", "2", "4096")[0] == 0 and run(program, path, "list")[0] == 0)
    check("nothing else is left", sorted(os.listdir(folder)) == ["spool"], os.listdir(folder))
    size = SLOTS_AT + 2 * 4096
    for content, status in (b"", 0), (bytes(size - 5000), 0), (bytes(9000) + b"x", 65), (bytes(size + 1), 65):
        with open(path, "wb") as file:
            file.write(content)
        node = os.stat(path).st_ino
        done = run(program, path, "format", "2", "4096")
        with open(path, "rb") as file:
            kept = file.read() == content
        check(f"a FILE of {len(content)} bytes", done[0] == status and kept == (status == 65) and os.stat(path).st_ino == node, done)
    os.remove(path)
    # (by its calls: FILE comes to its name once it is synced, and the folder is synced after that)
    seen = calling.Seen(library, folder, f"{path}.unfinished")
    os.mkfifo(f"{path}.unfinished")
    done = subprocess.run([program, path, "format", "2", "4096"], env=seen.environment, capture_output=True, check=False)
    calls = seen.calls()
    came = next((number for number, call in enumerate(calls) if call.kind == "rename" and call.data == path.encode()), 0)
    check("format: FILE comes to its name", done.returncode == 0 and came > 0, done)
    after = [call.data for call in calls[came:] if call.kind == "sync" and call.result == 0]
    check("format: then its folder is synced", node_of(folder) in after, after)
    file_calls = [call for call in calls[:came] if call.kind == "write" or is_good_sync(call) or call.kind == "sync" and call.data == node_of(path)]
    check("format: before that all of it is synced", file_calls and file_calls[-1].kind == "sync", file_calls[-2:])


def locked(check, program, _library, folder):
    """A FILE in use has a status of its own, of each command, and none of what is held of it is touched."""
    path = f"{folder}/spool"
    run(program, path, "format", "2", "4096")
    with open(path, "r+b") as file:
        before = file.read()
        fcntl.flock(file, fcntl.LOCK_EX)
        relp = f"--relp=127.0.0.1:{serving.free_ports(1)[0]}"
        tries = [["list"], ["rescue"], ["drain", "relp"], ["replay", "relp"], ["skip", "0"], ["format", "2", "4096"], ["serve", relp, "--quiet"]]
        for words in tries:
            seen = run(program, path, *words)
            check(f"{words[0]} of a FILE in use", is_refused(seen, path) and len(seen[2].splitlines()) == 1, seen)
        fcntl.flock(file, fcntl.LOCK_UN)
        file.seek(0)
        check("a FILE in use stays as it was", file.read() == before)
    with open(path, "rb") as file:
        fcntl.flock(file, fcntl.LOCK_SH)
        check("list beside another list", run(program, path, "list")[0] == 0)
