"""FILE as the system keeps it, sockets whose calls fail or never answer, and a standard error that nobody reads."""
import datetime
import errno
import fcntl
import http.client
import itertools
import json
import os
import pty
import re
import socket
import stat
import subprocess
import time

import calling
import serving
from serving import HecLink, LumberLink, RelpLink, text_of

GIB = 1 << 30
SLOTS_AT = 12288
OPEN = b"1 open 50 relp_version=0\nrelp_software=a,1,b\ncommands=syslog\n"
# Errors of an accept that pass, and some that can't.
PASSING = (errno.EPROTO, errno.EHOSTDOWN, errno.ENOBUFS, errno.ENFILE, errno.EMFILE, errno.ENOMEM)
LASTING = (errno.EBADF, errno.EINVAL, errno.ENOTSOCK, errno.EOPNOTSUPP)


def format_under(program, library, folder, path, slots, size):
    """Formats a spool under the library. Gives its status and the calls. A FILE that is new is one of another name meanwhile."""
    seen = calling.Seen(library, folder, path if os.path.lexists(path) else f"{path}.unfinished", name="format")
    done = subprocess.run([program, path, "format", str(slots), str(size)], env=seen.environment, capture_output=True, check=False)
    return done.returncode, seen.calls()


def node_of(path):
    """The file or folder of this path, as a sync is written down with it."""
    seen = os.stat(path)
    return f"{seen.st_dev} {seen.st_ino}".encode()


def syncs_folder(calls, folder):
    """Whether the folder was synced after the call that may have made FILE, the last that opens a path to write."""
    made = max((number for number, call in enumerate(calls) if call.kind == "open" and call.asked & os.O_CREAT), default=len(calls))
    return any(call.kind == "sync" and call.result == 0 and call.data == node_of(folder) for call in calls[made:])


def formats(check, program, library, folder):
    """FILE's name is durable, it is nobody else's to read, and a link is followed."""
    old = os.umask(0)
    try:
        status, calls = format_under(program, library, folder, f"{folder}/plain", 2, 4096)
    finally:
        os.umask(old)
    check("format: status", status == 0, status)
    check("format: the folder is synced", syncs_folder(calls, folder))
    first = next((number for number, call in enumerate(calls) if call.kind == "sync"), len(calls))
    filled = [(call.at, call.result) for call in calls[:first] if call.kind == "write"]
    check("format: FILE is filled before its first sync", filled == [(0, SLOTS_AT + 2 * 4096)], filled)
    mode = stat.S_IMODE(os.stat(f"{folder}/plain").st_mode)
    check("format: FILE's mode", mode == 0o600, oct(mode))
    made = [oct(call.at) for call in calls if call.kind == "open" and call.asked & os.O_CREAT]
    check("format: FILE is made with that mode", set(made) == {"0o600"}, made)
    os.makedirs(f"{folder}/far/away")
    os.makedirs(f"{folder}/near")
    for name, target in ("absolute", f"{folder}/far/away/one"), ("relative", "../far/away/two"):
        link = f"{folder}/near/{name}"
        os.symlink(target, link)
        status, calls = format_under(program, library, folder, link, 2, 4096)
        check(f"format by a link, {name}: status", status == 0, status)
        check(f"format by a link, {name}: the target's folder is synced", syncs_folder(calls, f"{folder}/far/away"))


def beyond_4_gib(check, program, library, folder):
    """What is stored in a slot beyond 4 GiB is written there, and nothing in front of it."""
    path, slot = f"{folder}/large", SLOTS_AT + 4 * GIB
    with open(path, "wb") as file:
        file.truncate(SLOTS_AT + 5 * GIB)
    status, _ = format_under(program, library, folder, path, 5, GIB)
    check("4 GiB: status", status == 0, status)
    with open(path, "r+b") as file:
        head = os.pread(file.fileno(), 17, SLOTS_AT)
        check("4 GiB: the first slot is open", head[:1] == b"\1", head)
        # (the same spool with its first entry in the last slot)
        os.pwrite(file.fileno(), bytes(18), SLOTS_AT)
        os.pwrite(file.fileno(), head, slot)
    seen = calling.Seen(library, folder, path, name="large")
    text = text_of("relp", 1)
    sent = OPEN + b"2 syslog %d %s\n" % (len(text), text)
    done = subprocess.run([program, path, "replay", "relp"], input=sent, env=seen.environment, capture_output=True, check=False)
    check("4 GiB: the event is acknowledged", done.returncode == 0 and b"2 rsp 6 200 OK" in done.stdout, done)
    written = [call for call in seen.calls() if call.kind == "write" and text in call.data]
    check("4 GiB: it is written there", [call.at // slot for call in written] == [1], [call.at for call in written])
    with open(path, "rb") as file:
        check("4 GiB: it stands there", text in os.pread(file.fileno(), 4096, slot))
        before = [os.pread(file.fileno(), 8192, at).strip(b"\0") for at in (SLOTS_AT, SLOTS_AT + GIB)]
        check("4 GiB: nothing stands in front of it", before == [b"", b""], before)
    done = subprocess.run([program, path, "list", "--as", "relp"], capture_output=True, check=False)
    check("4 GiB: it is listed", done.stdout == text + b"\n", done)
    os.remove(path)


def shrunk(check, program, library, folder):
    """A FILE that became shorter than it was as it was opened is a disk that fails, and isn't extended."""
    path = f"{folder}/shrunk"
    format_under(program, library, folder, path, 2, 4096)
    for length in (SLOTS_AT + 10, 4096):
        with open(path, "r+b") as file:
            file.truncate(SLOTS_AT + 2 * 4096)
        format_under(program, library, folder, path, 2, 4096)
        pipes = {"stdin": subprocess.PIPE, "stdout": subprocess.PIPE, "stderr": subprocess.PIPE}
        with subprocess.Popen([program, path, "replay", "relp"], **pipes) as child:
            child.stdin.write(OPEN)
            child.stdin.flush()
            opened = child.stdout.read(len(b"1 rsp 66 ")) == b"1 rsp 66 "
            os.truncate(path, length)
            out, err = child.communicate(b"2 syslog 5 hello\n", timeout=30)
        check(f"a FILE that shrank to {length}: status", opened and child.returncode == 73, (opened, child.returncode, err))
        check(f"a FILE that shrank to {length}: no acknowledgment", b"2 rsp" not in out, out)
        check(f"a FILE that shrank to {length}: it isn't extended", os.stat(path).st_size == length, os.stat(path).st_size)


# ---- frames that one read brings


def groups(check, program, library, folder):
    """Three frames of RELP that one read brings, with `--group`: four calls of FILE, then one answer for all. Without it four calls and
    an answer for each. A read asks for 1,024 bytes as long as none is full. Where one of the four calls fails, none of the three is
    answered, and all or none of them stand in the spool, which the next connection stores them in again."""
    texts = [text_of("relp", number) for number in range(3)]
    four = ["write", "sync", "write", "sync"]
    for words, times in ((), 3), (("--group",), 1):
        name = " ".join(("three frames of one read", *words))
        server, seen = start(program, library, folder, words=("--workers", "1", *words))
        link = RelpLink(server.ports["relp"])
        link.store_all(texts)
        link.drop()
        server.kill()
        calls = [call for call in seen.calls() if call.kind in ("read", "write", "sync", "recv", "send")]
        came = max((number for number, call in enumerate(calls) if call.kind == "recv" and texts[0] in call.data), default=0)
        after = [call.kind for call in calls[came + 1 :] if call.kind != "recv"]
        check(f"{name}: the calls", after == [*four, "send"] * times, after)
        reads = {call.asked for call in calls[: came + 1] if call.kind == "recv"}
        check(f"{name}: how much a read asks for", reads == {1024}, reads)
    for place, kind in enumerate(four):
        name = f"a run of frames whose {kind} {place // 2 + 1} fails"
        server, seen = start(program, library, folder, words=("--workers", "1", "--group"))
        link = RelpLink(server.ports["relp"])
        done = [call.kind for call in seen.calls()].count(kind)
        server.kill()
        link.drop()
        number = done + 1 + place // 2
        server, seen = start(program, library, folder, [calling.fails(kind, number, errno.EIO)], words=("--workers", "1", "--group"))
        link = RelpLink(server.ports["relp"])
        try:
            said = link.store_all(texts)
        except ConnectionError:
            said = []
        link.drop()
        again = RelpLink(server.ports["relp"])
        again.store(b"again")
        again.drop()
        server.kill()
        stored = server.list()
        check(f"{name}: no answer", said == [], said)
        check(f"{name}: all or none", stored in ([b"again"], [*texts, b"again"]), stored)


# ---- sockets


def start(program, library, folder, plan=(), shorten=1, words=("--workers", "1"), places=("relp",), to=None):
    """A server under the library, and where its calls are written down."""
    server = serving.Server(program, folder)
    seen = calling.Seen(library, folder, server.spool, plan, shorten)
    server.start(*words, places=places, to=to, environment=seen.environment)
    return server, seen


def lines_said(calls):
    """The lines on standard error, each with when it ended, in seconds."""
    lines, text = [], b""
    for call in calls:
        if call.kind == "say":
            text += call.data
            if text.endswith(b"\n"):
                lines.append((call.at, text))
                text = b""
    return lines


def accepts(check, program, library, folder):
    """Errors of an accept that pass are waited out, and said once a minute at most; others end the server."""
    count = 240
    for error in PASSING:
        name = errno.errorcode[error]
        server, seen = start(program, library, folder, [calling.fails("accept", 1, error, count)], 1000)
        try:
            link = RelpLink(server.ports["relp"], 10)
            link.store(b"hello")
            is_served = True
            link.drop()
        except OSError:
            is_served = False
        status, _ = server.kill()
        calls = seen.calls()
        check(f"accept, {name}: the place goes on serving", is_served and status == -9, status)
        steps = [call for call in calls if call.kind in ("accept", "sleep")]
        waits = [wait.at // 1000000 for step, wait in zip(steps, steps[1:]) if step.error == error and wait.kind == "sleep"]
        check(f"accept, {name}: it waits a tenth of a second at first", waits[:1] == [100], waits[:3])
        check(f"accept, {name}: it waits a second at most, and once for each", len(waits) == count and set(waits[9:]) == {1000}, waits[:12])
        said = [at for at, line in lines_said(calls) if b"can't accept" in line]
        check(f"accept, {name}: it is said", len(said) >= 2, said)
        # (they are written by a thread of their own, a little later than they are said)
        check(f"accept, {name}: once a minute at most", said[-1] - said[0] >= 60 * (len(said) - 2), said)
    for error in LASTING:
        server, seen = start(program, library, folder, [calling.fails("accept", 1, error, 1000000)], 1000)
        status, _, errors = server.finish(20)
        tries = sum(call.kind == "accept" for call in seen.calls())
        check(f"accept, {errno.errorcode[error]}: it ends", status == 74 and "net fault" in errors and tries == 1, (status, errors, tries))


def interrupted(check, program, library, folder):
    """A call on a socket that a signal interrupted is tried again."""
    words = [calling.fails(call, at, errno.EINTR, at + 2) for call in ("recv", "send") for at in (1, 6)]
    for place, make in ("relp", RelpLink), ("lumberjack", LumberLink), ("hec", HecLink):
        server, seen = start(program, library, folder, words, places=(place,))
        try:
            link = make(server.ports[place], 10)
            for number in range(4):
                text = text_of(place, number)
                link.store(text if place == "relp" else [text])
            link.link.close()
            is_stored = True
        except OSError:
            is_stored = False
        server.kill()
        calls = seen.calls()
        met = {call.kind for call in calls if call.error == errno.EINTR}
        accepted = sum(call.kind == "accept" and call.result >= 0 for call in calls)
        check(f"interrupted, {place}: it was", met == {"recv", "sent"}, met)
        check(f"interrupted, {place}: all is served on one connection", is_stored and accepted == 1, (is_stored, accepted))


def options_of(calls, fd, since):
    """What was set of a socket after that call, up to its close."""
    found = {}
    for call in calls[since + 1 :]:
        if call.fd == fd and call.kind == "close":
            break
        if call.fd == fd and call.kind == "option" and call.result == 0:
            level, name, value = map(int, call.data.split())
            found.setdefault((level, name), value)
    return found


def check_options(check, name, found, seconds):
    """Checks what was set of a socket: how long it waits for its peer, and that small writes aren't held back."""
    times = [found.get((socket.SOL_SOCKET, option), 0) / 1000000 for option in (socket.SO_RCVTIMEO, socket.SO_SNDTIMEO)]
    check(f"{name}: its reads and writes wait {seconds} s at most", times == [seconds, seconds], times)
    check(f"{name}: nothing is held back", found.get((socket.IPPROTO_TCP, socket.TCP_NODELAY)) == 1, found)


def silent_senders(check, program, library, folder):
    """A sender that says nothing any more doesn't keep its worker."""
    server, seen = start(program, library, folder, shorten=1000)
    silent = RelpLink(server.ports["relp"])
    since, is_served = time.monotonic(), False
    try:
        link = RelpLink(server.ports["relp"], 10)
        link.store(b"hello")
        link.drop()
        is_served = True
    except OSError:
        pass
    took = time.monotonic() - since
    status, _ = server.kill()
    silent.drop()
    check("a silent sender: the next one is served", is_served and status == -9 and took >= 0.5, (is_served, status, took))
    calls = seen.calls()
    accepted = [(number, call.result) for number, call in enumerate(calls) if call.kind == "accept" and call.result >= 0]
    for number, fd in accepted:
        check_options(check, "a sender's connection", options_of(calls, fd, number), 600)


def silent_receiver(check, program, library, folder):
    """A receiver that says nothing any more is dialed again."""
    with socket.create_server(("127.0.0.1", 0)) as mute:
        server, seen = start(program, library, folder, shorten=1000, to=mute.getsockname()[1])
        link = RelpLink(server.ports["relp"])
        link.store(b"hello")
        mute.settimeout(20)
        peers = []
        try:
            peers = [mute.accept()[0] for _ in range(3)]
        except OSError:
            pass
        check("a silent receiver: it is dialed again", len(peers) == 3, len(peers))
        link.drop()
        check("a silent receiver: the server goes on", server.kill()[0] == -9)
        for peer in peers:
            peer.close()
    calls = seen.calls()
    dialed = [(number, call.fd) for number, call in enumerate(calls) if call.kind == "dial" and call.result == 0]
    for number, fd in dialed[:2]:
        check_options(check, "a receiver's connection", options_of(calls, fd, number), 90)


# ---- a standard error that nobody reads

# How many syncs fail, one after another with good ones between them: each is said, and so is that FILE is well again after it.
FAULTS = 700
DROPPED = re.compile(rb"bridge: ([0-9]+) lines were dropped here")


def read_for(stream, holds, seconds=20):
    """What the stream gives until that holds of it, or as long as so many seconds take."""
    limit, text = time.monotonic() + seconds, b""
    os.set_blocking(stream.fileno(), False)
    while not holds(text) and time.monotonic() < limit:
        text += stream.read() or b""
        time.sleep(0.01)
    return text


def unread_lines(check, program, library, folder):
    """Where nobody reads standard error and its pipe is full, all are served as ever. What is written later are the first lines, and how
    many were dropped after them."""
    plan = [calling.fails("sync", 20 + 6 * number, errno.EIO) for number in range(FAULTS)]
    (status,) = serving.free_ports(1)
    server, seen = start(program, library, folder, plan, words=("--workers", "2", "--status", f"127.0.0.1:{status}"))
    link = RelpLink(server.ports["relp"], 5)
    fcntl.fcntl(server.child.stderr.fileno(), fcntl.F_SETPIPE_SZ, 4096)
    limit, stored = time.monotonic() + 120, 0
    while stored < 2 * FAULTS and time.monotonic() < limit:
        try:
            link.store(b"event %d" % stored)
            stored += 1
        except TimeoutError:
            break
        except OSError:
            link.drop()
            link = RelpLink(server.ports["relp"], 5)
    link.drop()
    check("unread lines: all is stored", stored == 2 * FAULTS, stored)
    asker = http.client.HTTPConnection("127.0.0.1", status, timeout=10)
    asker.request("GET", "/health")
    check("unread lines: the health is told", asker.getresponse().status == 200)
    text = read_for(server.child.stderr, DROPPED.search)
    found = DROPPED.search(text)
    lines = [line for line in text[: found.start() if found else 0].splitlines() if b" sender " not in line and b" FILE " in line]
    check("unread lines: those dropped are counted", found and len(lines) >= 900, (found, len(lines)))
    pairs = [b"bridge: a sync of FILE failed; nothing is acknowledged until FILE is well again", b"bridge: FILE is well again"]
    check("unread lines: the first are written, in order", lines == [pairs[number % 2] for number in range(len(lines))])
    server.kill()
    failed = sum(call.kind == "sync" and call.error == errno.EIO for call in seen.calls())
    told = len(lines) + int(found.group(1)) if found else 0
    # (others than those of FILE are few, and among them)
    check("unread lines: each is written or counted", 2 * failed - 1 <= told <= 2 * failed + 50, (failed, told))


def unread_end(check, program, library, folder):
    """A server that ends where nobody reads standard error doesn't wait for that."""
    server, _ = start(program, library, folder, words=("--workers", "1", "--talks", "1"))
    link = RelpLink(server.ports["relp"])
    fcntl.fcntl(server.child.stderr.fileno(), fcntl.F_SETPIPE_SZ, 4096)
    with open(f"/proc/{server.child.pid}/fd/2", "wb", buffering=0) as pipe:
        os.set_blocking(pipe.fileno(), False)
        try:
            while pipe.write(bytes(64)):
                pass
        except BlockingIOError:
            pass
    link.link.sendall(b"no frame\n")
    link.drop()
    since = time.monotonic()
    try:
        status = server.child.wait(10)
    except subprocess.TimeoutExpired:
        status = None
    check("an unread end: it ends", status == 0 and time.monotonic() - since < 6, (status, time.monotonic() - since))
    server.kill()


def last_lines(words):
    """Runs a command whose standard error is the stream that JOURNAL_STREAM names, and returns how it ended and its lines there."""
    read, write = os.pipe()
    seen = os.fstat(write)
    environment = {**os.environ, "JOURNAL_STREAM": f"{seen.st_dev}:{seen.st_ino}"}
    with subprocess.Popen(words, env=environment, stdin=subprocess.DEVNULL, stdout=subprocess.DEVNULL, stderr=write) as child:
        os.close(write)
        with os.fdopen(read, "rb") as stream:
            lines = stream.read().decode().splitlines()
    return child.returncode, lines


def journal(check, program, library, folder):
    """Lines have how grave they are before them where standard error is the stream that JOURNAL_STREAM names; and else the time, with
    --log-time, or nothing."""
    del library
    for is_named, is_timed in itertools.product((True, False), repeat=2):
        server = serving.Server(program, folder)
        (port,) = serving.free_ports(1)
        read, write = os.pipe()
        seen = os.fstat(write)
        environment = {**os.environ, "JOURNAL_STREAM": f"{seen.st_dev}:{seen.st_ino + (not is_named)}"}
        words = [program, server.spool, "serve", "--relp", f"127.0.0.1:{port}", "--workers", "1", "--talks", "1", *["--log-time"] * is_timed]
        began = time.time()
        with subprocess.Popen(words, env=environment, stdout=subprocess.DEVNULL, stderr=write) as child:
            os.close(write)
            with serving.connect(port) as link:
                link.sendall(b"no frame\n")
            child.wait(20)
        with os.fdopen(read, "rb") as stream:
            lines = stream.read().decode().splitlines()
        if is_timed and not is_named:
            stamps, lines = zip(*(line.split(" ", 1) for line in lines))
            times = [datetime.datetime.strptime(it, "%Y-%m-%dT%H:%M:%S.%fZ").replace(tzinfo=datetime.timezone.utc) for it in stamps]
            check("journal: the time", all(began - 1 < it.timestamp() < time.time() + 1 for it in times) and times == sorted(times), stamps)
        starts = ("bridge: bridge ", "bridge: listening on ", "bridge: sender ")
        due = [prefix * is_named + start for prefix, start in zip(("<6>", "<6>", "<4>"), starts)]
        holds = len(lines) == 3 and all(line.startswith(start) for line, start in zip(lines, due))
        check(f"journal: {'the' if is_named else 'not the'} stream{', with --log-time' * is_timed}", holds, lines)
    # That FILE isn't well is an error, though its line speaks of when it will be.
    server = serving.Server(program, folder)
    (port,) = serving.free_ports(1)
    read, write = os.pipe()
    seen = os.fstat(write)
    words = [program, server.spool, "serve", "--relp", f"127.0.0.1:{port}", "--workers", "1", "--talks", "1"]
    environment = {**os.environ, "JOURNAL_STREAM": f"{seen.st_dev}:{seen.st_ino}"}
    with subprocess.Popen(words, env=environment, stdout=subprocess.DEVNULL, stderr=write) as child:
        os.close(write)
        with serving.connect(port) as link:
            # (it listens before it opens FILE, and answers after that)
            link.sendall(OPEN)
            link.recv(1)
            os.rename(server.spool, f"{server.spool}.away")
            # (it is looked for once in a tenth of a second)
            time.sleep(0.2)
            link.sendall(b"2 syslog 1 a\n")
            try:
                while link.recv(4096):
                    pass
            except ConnectionResetError:
                # (the server has ended)
                pass
        os.rename(f"{server.spool}.away", server.spool)
        child.wait(20)
    with os.fdopen(read, "rb") as stream:
        lines = stream.read().decode().splitlines()
    said = "bridge: FILE was removed or renamed; nothing is acknowledged until FILE is well again"
    check("journal: a FILE that isn't well is an error", f"<3>{said}" in lines, lines)
    # So is each line with which a command ends, also where FILE isn't opened and where the words are wrong.
    serve = ["serve", "--relp", f"127.0.0.1:{serving.free_ports(1)[0]}", "--quiet"]
    server = serving.Server(program, folder)
    file = server.spool
    with open(file, "r+b") as held:
        fcntl.flock(held, fcntl.LOCK_EX)
        seen = last_lines([program, file, *serve])
    check("journal: FILE in use", seen == (80, [f"<3>bridge: {file}: in use"]), seen)
    seen = last_lines([program, f"{file}.none", *serve])
    check("journal: no FILE", seen == (73, [f"<3>bridge: {file}.none: not found"]), seen)
    seen = last_lines([program, file, *serve, "--quiet"])
    holds = seen[0] == 64 and len(seen[1]) == 2 and all(line.startswith("<3>bridge: ") for line in seen[1])
    check("journal: an option that is wrong", holds, seen)
    seen = last_lines([program, file, "skip", "x"])
    holds = seen[0] == 64 and len(seen[1]) == 2 and all(line.startswith("<3>bridge: ") for line in seen[1])
    check("journal: a word that is wrong", holds, seen)
    seen = last_lines([program, file, "rescue"])
    holds = seen[0] == 0 and len(seen[1]) == 1 and seen[1][0].startswith("<3>bridge: slots: ")
    check("journal: a rescue", holds, seen)
    # (the number of the last run, in the register's first cell)
    with open(file, "r+b") as held:
        held.seek(4110)
        held.write(bytes.fromhex("00000000001fffff"))
    seen = last_lines([program, file, *serve])
    check("journal: no run is left", seen == (76, ["<3>bridge: run 2097151 was the last"]), seen)


def on_terminal(words):
    """Runs a command whose standard output is a terminal, and returns what that was given."""
    near, far = pty.openpty()
    with subprocess.Popen(words, stdout=far) as child:
        child.wait(20)
    os.close(far)
    shown = b""
    try:
        while piece := os.read(near, 4096):
            shown += piece
    except OSError:
        pass
    os.close(near)
    return shown.decode()


def terminal(check, program, library, folder):
    """To a terminal `list` writes control characters of events as escapes, in JSON as elsewhere; a pipe gets the bytes of each form."""
    path, text = f"{folder}/shown", "a\x1b[2Jb\x7fc\u0085d\u00a0e\tf\u009bg\u00c3"
    format_under(program, library, folder, path, 2, 4096)
    frame = text.encode()
    sent = OPEN + b"2 syslog %d %s\n" % (len(frame), frame)
    subprocess.run([program, path, "replay", "relp"], input=sent, capture_output=True, check=False)
    # (a JSON string has escapes of its own below U+0020, and none above)
    string, shown_string = "a\\u001b[2Jb\x7fc\u0085d\u00a0e\\tf\u009bg\u00c3", "a\\u001b[2Jb\\u007fc\\u0085d\u00a0e\\tf\\u009bg\u00c3"
    rows = {
        "relp": (text, "a\\u001b[2Jb\\u007fc\\u0085d\u00a0e\tf\\u009bg\u00c3"),
        "json": (f'{{"message":"{string}"}}', f'{{"message":"{shown_string}"}}'),
        "hec": (f'{{"event":"{string}"}}', f'{{"event":"{shown_string}"}}'),
    }
    for form, (line, due) in rows.items():
        words = [program, path, "list", "--as", form]
        done = subprocess.run(words, capture_output=True, check=False)
        check(f"terminal: a pipe gets the bytes, as {form}", done.stdout == line.encode() + b"\n", done)
        shown = on_terminal(words)
        check(f"terminal: it gets escapes, as {form}", shown.expandtabs() == f"{due}\r\n".expandtabs(), shown)
        if form != "relp":
            check(f"terminal: the same value, as {form}", list(json.loads(shown).values()) == [text], shown)
