"""What the tests of `serve` share: the server's process, senders of each protocol, and a receiver of RELP.

Python imports it as a module; it tests nothing by itself. Senders and the receiver are written from the protocols, and share nothing
with bridge.
"""
import http.client
import json
import os
import pathlib
import re
import shutil
import socket
import struct
import subprocess
import threading
import time
import uuid

TOP = os.path.dirname(os.path.dirname(os.path.realpath(__file__)))
TOKEN = "11111111-2222-3333-4444-555555555555"
ACK_TOKEN = "aaaaaaaa-2222-3333-4444-555555555555"
# What an event is known by, wherever its text stands: its sender and its number there.
NAME = re.compile(rb"ev:([a-z]+\d*:\d+):")


def text_of(sender, number, length=0):
    """The text of the event of this number of a sender, of so many bytes at least."""
    return f"ev:{sender}:{number}:".ljust(length, "x").encode()


def names_in(texts):
    """The names of the events in these texts, in order."""
    return [found.group(1).decode() for text in texts for found in NAME.finditer(text)]


def free_ports(count):
    """So many ports of this machine at which nobody listens."""
    held = [socket.create_server(("127.0.0.1", 0)) for _ in range(count)]
    ports = [one.getsockname()[1] for one in held]
    for one in held:
        one.close()
    return ports


def connect(port, patience=20):
    """A connection to this port of this machine, once somebody listens there."""
    limit = time.monotonic() + patience
    while True:
        try:
            link = socket.create_connection(("127.0.0.1", port), timeout=patience)
            link.setsockopt(socket.IPPROTO_TCP, socket.TCP_NODELAY, 1)
            return link
        except ConnectionRefusedError:
            if time.monotonic() > limit:
                raise
            time.sleep(0.01)


def wait_until(holds, seconds):
    """Whether it comes to hold within so many seconds."""
    limit = time.monotonic() + seconds
    while not holds():
        if time.monotonic() > limit:
            return False
        time.sleep(0.02)
    return True


# How the lines on standard error begin that say what befalls the net.
OF_THE_NET = ("bridge: listening on ", "bridge: can't listen on ", "bridge: sender ", "bridge: senders at ", "bridge: senders wait ", "bridge: receiver ")
OF_THE_NET += ("bridge: run ", "bridge: connection ", "bridge: FILE has no room", "bridge: FILE has room again")


# How those begin or end that say what a server needs, as it begins.
OF_THE_START, OF_NEEDS = "bridge: bridge ", ": raise the limit\n"


def begins(line):
    """Whether it is a line with which a server begins."""
    return line.startswith(OF_THE_START) or line.endswith(OF_NEEDS)


def lines_apart(errors):
    """The lines of a standard error that say what befalls the net, and the rest, both without those with which a server begins."""
    lines = [line for line in errors.splitlines(keepends=True) if not begins(line)]
    of_the_net = [line for line in lines if line.startswith(OF_THE_NET)]
    return [line.rstrip("\n") for line in of_the_net], "".join(line for line in lines if not line.startswith(OF_THE_NET))


class Server:
    """bridge over one spool, and its ports: `relp`, `lumberjack` and `hec`. The spool is made anew, unless `slots` is None. What it said of
    the net is in `said` once it has ended."""

    # The words that each start has beside those of its caller, as `--group`.
    manner = ()

    def __init__(self, program, folder, slots=8, size=4194304):
        self.program, self.folder, self.child, self.said, self.begun = program, folder, None, [], []
        self.ports = dict(zip(("relp", "lumberjack", "hec"), free_ports(3)))
        self.spool = f"{folder}/spool"
        if slots is None:
            return
        if os.path.exists(self.spool):
            os.remove(self.spool)
        subprocess.run([program, self.spool, "format", str(slots), str(size)], check=True, stdout=subprocess.DEVNULL)

    def start(self, *words, places=("relp", "lumberjack", "hec"), to=None, environment=None, limit=None, tokens=None):
        """Starts it at these places, forwarding to the port `to` where there is one, with this environment or that of the caller, so many
        descriptors at most, and the tokens of this file, where there is one."""
        said = [word for place in places for word in (f"--{place}", f"127.0.0.1:{self.ports[place]}")]
        if to is not None:
            said += ["--forward", "relp", "--to", f"127.0.0.1:{to}"]
        known = ["--token", TOKEN, "--ack-token", ACK_TOKEN] if tokens is None else ["--tokens", tokens]
        command = [self.program, self.spool, "serve", *said, *known, *self.manner, *words]
        pipes = {"stdin": subprocess.DEVNULL, "stdout": subprocess.PIPE, "stderr": subprocess.PIPE}
        if limit is not None:
            command[:0] = ["sh", "-c", f'ulimit -n {limit} && exec "$0" "$@"']
        self.child = subprocess.Popen(command, env=environment, **pipes)

    def end(self, err):
        """Keeps what it said. Gives its status, and its errors but those of the net and of its start."""
        status, self.child = self.child.returncode, None
        self.begun = [line.rstrip("\n") for line in err.decode().splitlines(keepends=True) if begins(line)]
        self.said, errors = lines_apart(err.decode())
        return status, errors

    def finish(self, seconds=60):
        """Its status, what it printed, and its errors but those of the net, once it ended. It is killed where it doesn't in that time."""
        try:
            out, err = self.child.communicate(timeout=seconds)
        except subprocess.TimeoutExpired:
            self.child.kill()
            out, err = self.child.communicate()
            err += b"(it did not end)"
        status, errors = self.end(err)
        return status, out.decode(), errors

    def kill(self):
        """Kills it, and gives its status, which is -9 where it hadn't ended by itself, and its errors but those of the net."""
        if self.child is None:
            return None, ""
        self.child.kill()
        _, err = self.child.communicate()
        return self.end(err)

    def writes(self):
        """How many times it has written to FILE so far (what it sends isn't among its writes)."""
        with open(f"/proc/{self.child.pid}/io", encoding="ascii") as counts:
            return int(dict(line.split(":") for line in counts)["syscw"])

    def processor_seconds(self):
        """How long it has had a processor so far."""
        fields = pathlib.Path(f"/proc/{self.child.pid}/stat").read_text().rsplit(")", 1)[1].split()
        return (int(fields[11]) + int(fields[12])) / os.sysconf("SC_CLK_TCK")

    def list(self):
        """The texts of the events in the spool, while no server has it."""
        done = subprocess.run([self.program, self.spool, "list", "--as", "relp"], check=True, stdout=subprocess.PIPE)
        return done.stdout.split(b"\n")[:-1]


# ---- RELP


def word(stream):
    """The bytes up to the next space or line feed, and that one; none at the end."""
    given = b""
    while (byte := stream.read(1)) not in (b" ", b"\n", b""):
        given += byte
    return given, byte


def read_frame(stream):
    """The next frame of RELP: its number, its command and its data; None at the end."""
    number, _ = word(stream)
    command, _ = word(stream)
    length, last = word(stream)
    if not length or last == b"":
        return None
    data = b""
    if last == b" ":
        data = stream.read(int(length))
        if stream.read(1) == b"":
            return None
    return int(number), command, data


class RelpLink:
    """An open session of RELP, of a sender."""

    OFFERS = b"relp_version=0\nrelp_software=tests,1,x\ncommands=syslog"

    def __init__(self, port, patience=20):
        self.link = connect(port, patience)
        self.stream = self.link.makefile("rb")
        self.number = 0
        self.frame(b"open", self.OFFERS)
        self.reply()

    def frame(self, command, data):
        self.number += 1
        self.link.sendall(b"%d %s %d %s\n" % (self.number, command, len(data), data) if data else b"%d %s 0\n" % (self.number, command))
        return self.number

    def send(self, text):
        """Sends an event, and gives the number of its frame."""
        return self.frame(b"syslog", text)

    def reply(self, due=b"200"):
        """The number of the next frame that is answered, with data that begins so."""
        frame = read_frame(self.stream)
        if frame is None or frame[1] != b"rsp" or not frame[2].startswith(due):
            raise ConnectionError(f"no reply of success: {frame}")
        return frame[0]

    def store(self, text):
        """Sends an event, and waits until it is acknowledged."""
        number = self.send(text)
        while self.reply() != number:
            pass

    def store_all(self, texts):
        """Sends these events at once, and waits until as many answers of success came. Gives their numbers, in order."""
        numbers = range(self.number + 1, self.number + len(texts) + 1)
        self.number += len(texts)
        self.link.sendall(b"".join(text_of_frame(number, b"syslog", text) for number, text in zip(numbers, texts)))
        return [self.reply() for _ in texts]

    def close(self):
        """Ends the session, as RELP wants it."""
        number = self.frame(b"close", b"")
        while self.reply(b"") != number:
            pass
        self.drop()

    def drop(self):
        # (the connection is closed once its reader is too)
        self.stream.close()
        self.link.close()


class RelpReceiver:
    """A receiver of RELP in threads of its own, which keeps what came. Each `drops`th event it answers no more on that connection, and
    says that it ends. It answers the texts of `refused` with 500."""

    def __init__(self, drops=0, port=0):
        self.texts, self.drops, self.links, self.refused = [], drops, 0, set()
        self.listener = socket.create_server(("127.0.0.1", port))
        self.port = self.listener.getsockname()[1]
        threading.Thread(target=self.accept, daemon=True).start()

    def accept(self):
        while True:
            try:
                link, _ = self.listener.accept()
            except OSError:
                return
            self.links += 1
            threading.Thread(target=self.take, args=(link,), daemon=True).start()

    def take(self, link):
        with link, link.makefile("rb") as stream:
            try:
                while (frame := read_frame(stream)) is not None and self.answer(link, *frame):
                    pass
                # (with bytes unread a close would take back what the peer hasn't read of the answers)
                link.shutdown(socket.SHUT_WR)
                while stream.read(65536):
                    pass
            except (OSError, ValueError):
                pass

    def answer(self, link, number, command, data):
        """Keeps what the frame brings, and answers it. Gives whether the connection goes on."""
        if command == b"syslog":
            self.texts.append(data)
            if self.drops and len(self.texts) % self.drops == 0:
                return False
        said = b"200 OK\nrelp_version=0\ncommands=syslog" if command == b"open" else b"200 OK"
        if command == b"syslog" and data in self.refused:
            said = b"500 refused"
        link.sendall(b"%d rsp %d %s\n" % (number, len(said), said))
        return command != b"close"

    def close(self):
        self.listener.close()


class ClosingReceiver:
    """Accepts connections, closes each at once, and counts them; until it refuses them."""

    def __init__(self):
        self.links = 0
        self.listener = socket.create_server(("127.0.0.1", 0))
        self.port = self.listener.getsockname()[1]
        self.thread = threading.Thread(target=self.accept, daemon=True)
        self.thread.start()

    def accept(self):
        while True:
            try:
                link, _ = self.listener.accept()
            except OSError:
                return
            self.links += 1
            link.close()

    def refuse(self):
        """Accepts no more: whoever connects then is refused."""
        # (a close alone would leave the accept that waits)
        self.listener.shutdown(socket.SHUT_RDWR)
        self.thread.join()
        self.listener.close()


# ---- the collector's protocol


class HecLink:
    """A connection of a client of the HTTP Event Collector, with a channel of its own."""

    def __init__(self, port, patience=20, token=ACK_TOKEN):
        self.link = http.client.HTTPConnection("127.0.0.1", port, timeout=patience)
        self.link.sock, self.link.auto_open = connect(port, patience), 0
        self.fields = {"Authorization": f"Splunk {token}", "X-Splunk-Request-Channel": str(uuid.uuid4())}

    def ask(self, path, body):
        """The body of the answer to a request, whose status is 200."""
        self.link.request("POST", f"/services/collector/{path}", body, self.fields)
        reply = self.link.getresponse()
        text = reply.read()
        if reply.status != 200:
            raise ConnectionError(f"{reply.status}: {text!r}")
        return json.loads(text)

    def post(self, texts):
        """Sends these events as one request, and gives its ack id, or None by the token without."""
        return self.ask("event", b"".join(json.dumps({"event": text.decode()}).encode() for text in texts)).get("ackId")

    def store(self, texts, seconds=20):
        """Sends these events as one request, and waits until its id is acknowledged, or it is answered by the token without ids."""
        number = self.post(texts)
        limit = time.monotonic() + seconds
        while number is not None and not self.ask("ack", json.dumps({"acks": [number]}))["acks"][str(number)]:
            if time.monotonic() > limit:
                raise ConnectionError(f"id {number} isn't acknowledged")
            time.sleep(0.005)

    def close(self):
        self.link.close()


# ---- Lumberjack


def lumberjack_client(port, *words):
    """The client of examples/, which sends what is written to its input."""
    command = [f"{TOP}/examples/lumberjack_client", f"127.0.0.1:{port}", *words]
    return subprocess.Popen(command, stdin=subprocess.PIPE, stdout=subprocess.PIPE, stderr=subprocess.PIPE)


class LumberLink:
    """A connection of Lumberjack, of a sender."""

    def __init__(self, port, patience=20):
        self.link = connect(port, patience)

    def store(self, texts):
        """Sends these events as a window, and waits until it is acknowledged whole."""
        frames = [b"2W" + struct.pack(">I", len(texts))]
        for number, text in enumerate(texts, 1):
            payload = json.dumps({"message": text.decode()}).encode()
            frames.append(b"2J" + struct.pack(">II", number, len(payload)) + payload)
        self.link.sendall(b"".join(frames))
        known = 0
        while known < len(texts):
            frame = b""
            while len(frame) < 6:
                piece = self.link.recv(6 - len(frame))
                if not piece:
                    raise ConnectionError("no acknowledgment")
                frame += piece
            known = struct.unpack(">I", frame[2:])[0]

    def close(self):
        self.link.close()


class RelpWatch:
    """Stands between a sender of RELP and a server, hands on what each says, and keeps the texts that the server acknowledged."""

    def __init__(self, to):
        self.to, self.texts = to, []
        self.listener = socket.create_server(("127.0.0.1", 0))
        self.port = self.listener.getsockname()[1]
        threading.Thread(target=self.accept, daemon=True).start()

    def accept(self):
        while True:
            try:
                link, _ = self.listener.accept()
            except OSError:
                return
            threading.Thread(target=self.watch, args=(link,), daemon=True).start()

    def watch(self, link):
        with link:
            try:
                server = connect(self.to, 1)
                server.settimeout(None)
            except OSError:
                return
            sent = {}
            with server:
                answers = threading.Thread(target=self.hand_back, args=(server, link, sent), daemon=True)
                answers.start()
                self.hand_on(link, server, sent)
                answers.join()

    def hand_on(self, link, server, sent):
        with link.makefile("rb") as stream:
            try:
                while (frame := read_frame(stream)) is not None:
                    if frame[1] == b"syslog":
                        sent[frame[0]] = frame[2]
                    server.sendall(text_of_frame(*frame))
            except (OSError, ValueError):
                pass
        end(server)

    def hand_back(self, server, link, sent):
        with server.makefile("rb") as stream:
            try:
                while (frame := read_frame(stream)) is not None:
                    if frame[1] == b"rsp" and frame[2].startswith(b"200") and frame[0] in sent:
                        self.texts.append(sent[frame[0]])
                    link.sendall(text_of_frame(*frame))
            except (OSError, ValueError):
                pass
        end(link)

    def close(self):
        self.listener.close()


def text_of_frame(number, command, data):
    """The bytes of a frame of RELP."""
    return b"%d %s %d %s\n" % (number, command, len(data), data) if data else b"%d %s 0\n" % (number, command)


def end(link):
    """Ends a connection both ways, as far as it isn't ended."""
    try:
        link.shutdown(socket.SHUT_RDWR)
    except OSError:
        pass


# ---- rsyslog


def has_rsyslog():
    """Whether rsyslog with imrelp and omrelp is installed."""
    os.environ["PATH"] += ":/usr/sbin:/sbin"
    found = all(any(pathlib.Path("/usr/lib").glob(f"**/{module}.so")) for module in ("imrelp", "omrelp", "imfile"))
    return found and shutil.which("rsyslogd") is not None


class Rsyslog:
    """A real rsyslog with a configuration of its own, whose work lies in `folder`."""

    def __init__(self, folder, name, text):
        path = f"{folder}/{name}.conf"
        os.makedirs(f"{folder}/{name}")
        pathlib.Path(path).write_text(f'global(workDirectory="{folder}/{name}" maxMessageSize="128k")\n{text}')
        command = ["rsyslogd", "-n", "-f", path, "-i", f"{folder}/{name}.pid"]
        self.child = subprocess.Popen(command, stdout=subprocess.DEVNULL, stderr=subprocess.DEVNULL)

    @classmethod
    def sender(cls, folder, source, port):
        """One that sends the lines of a file by RELP to this port, and again until they are acknowledged."""
        return cls(folder, "sender", f"""module(load="imfile" mode="inotify") module(load="omrelp")
template(name="raw" type="string" string="%rawmsg%")
input(type="imfile" file="{source}" tag="x" addMetadata="off" freshStartTail="off")
action(type="omrelp" target="127.0.0.1" port="{port}" template="raw" action.resumeRetryCount="-1" action.resumeInterval="1")
""")

    @classmethod
    def receiver(cls, folder, port, collected):
        """One that takes events by RELP at this port, and writes each as a line of a file."""
        return cls(folder, "receiver", f"""module(load="imrelp")
input(type="imrelp" port="{port}" address="127.0.0.1")
template(name="whole" type="string" string="%rawmsg%\\n")
action(type="omfile" file="{collected}" template="whole" asyncWriting="off")
""")

    def stop(self):
        """Ends it, once it has written what it took."""
        self.child.terminate()
        try:
            self.child.wait(20)
        except subprocess.TimeoutExpired:
            self.child.kill()
            self.child.wait()
