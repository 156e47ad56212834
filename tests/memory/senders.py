"""What the test of refused memory runs: the rows, a peer that is dialed, a server with a sender at each of its places, and streams of
texts of many lengths."""
import json
import os
import socket
import struct
import threading
from dataclasses import dataclass, field

import serving
from serving import ACK_TOKEN, TOKEN

CHANNEL = "cccccccc-2222-3333-4444-555555555555"
OPEN = b"1 open 50 relp_version=0\nrelp_software=a,1,b\ncommands=syslog\n"
MOST_TEXT = 131072


def near(powers):
    """These powers of two and their neighbours."""
    return [(1 << power) + more for power in powers for more in (-1, 0, 1)]


LENGTHS = [*range(301), *near(range(9, 17)), MOST_TEXT - 1, MOST_TEXT]


def request(path, body, token=ACK_TOKEN):
    head = f"POST /services/collector/{path} HTTP/1.1\r\nAuthorization: Splunk {token}\r\n"
    return f"{head}X-Splunk-Request-Channel: {CHANNEL}\r\nContent-Length: {len(body)}\r\n\r\n".encode() + body


def reply(body):
    return f"HTTP/1.1 200 OK\r\nContent-Type: application/json\r\nContent-Length: {len(body)}\r\n\r\n{body}".encode()


def window(payloads):
    """A window of Lumberjack, with a JSON frame for each payload."""
    frames = (b"2J" + struct.pack(">II", number, len(payload)) + payload for number, payload in enumerate(payloads, 1))
    return b"2W" + struct.pack(">I", len(payloads)) + b"".join(frames)


def windows(payloads):
    """Windows of Lumberjack, each of one JSON frame."""
    return b"".join(window([payload]) for payload in payloads)


@dataclass
class Row:
    """A run of the program: the runs before it that make its spool, its words, in which PLACE stands for the peer's and TARGET for
    another spool, what it is given, what the peer replies, its status, how many lines `list` has after it, what of the output
    acknowledges an event each, what it may print in place of the output's beginning, how many refused calls may change nothing, how
    many come after an acknowledgment at least, and how the line on standard error begins that may follow the one on the memory."""

    name: str
    words: list
    given: bytes = b""
    first: list = field(default_factory=list)
    replies: bytes = b""
    status: int = 0
    left: int = 0
    acks: tuple = ()
    says: tuple = ()
    # (one of them is the call for the block that is freed at the start, so that the C library keeps memory)
    spares: int = 8
    late: int = 0
    tells: bytes = b""

    def acknowledged(self, out):
        """How many events this output acknowledges."""
        return sum(count for text, count in self.acks if text in out)

    def keeps(self, before, ran, whole):
        """Whether `list` has the first of the events of the whole run, with those that are acknowledged; where the run moves, each that it
        had before, in one spool or in both; where it forwards or makes a spool, all that it had before, or what the whole run leaves;
        and else what it had before."""
        if self.words[0] == "replay":
            return ran.lines == whole.lines[: len(ran.lines)] and len(ran.lines) >= self.acknowledged(ran.out)
        if self.words[0] == "move":
            return {line.split()[-1] for line in ran.lines} == {line.split()[-1] for line in before}
        return ran.lines == before or (self.words[0] in ("drain", "format") and ran.lines == whole.lines)


HELLO = [(["replay", "relp"], OPEN + b"2 syslog 5 hello\n3 close 0\n")]
HEC_OUT = ["--out-token", TOKEN, "--out-channel", CHANNEL, "--polls", "2"]
ASKS = request("ack", b'{"acks":[4294967296]}')
STORED = reply('{"text":"Success","code":0}')
SUCCESS, NOT_YET, TRUE = (reply(text) for text in ('{"text":"Success","code":0,"ackId":7}', '{"acks":{"7":false}}', '{"acks":{"7":true}}'))
ROWS = [
    Row("an event by RELP", ["replay", "relp"], HELLO[0][1], left=1, acks=((b"\n2 rsp 6 200 OK\n", 1),)),
    Row(
        "a window of Lumberjack",
        ["replay", "lumberjack"],
        b'2W\0\0\0\x022J\0\0\0\x01\0\0\0\x07{"a":1}2J\0\0\0\x02\0\0\0\x02{}',
        left=2,
        acks=((b"2A\0\0\0\x02", 2),),
    ),
    Row(
        "a long event by RELP after one that was acknowledged",
        ["replay", "relp"],
        OPEN + b"2 syslog 5 hello\n3 syslog 100000 %s\n" % (b"x" * 100000),
        left=2,
        acks=((b"\n2 rsp 6 200 OK\n", 1), (b"\n3 rsp 6 200 OK\n", 1)),
        late=1,
    ),
    Row(
        "a large window of Lumberjack after one that was acknowledged",
        ["replay", "lumberjack"],
        window([b"{}"]) + window([b"{}"] * 40),
        left=41,
        acks=((b"2A\0\0\0\x01", 1), (b"2A\0\0\0\x28", 40)),
        spares=10,
        late=10,
    ),
    Row(
        "requests of the collector with an id",
        ["replay", "hec", "--token", TOKEN, "--ack-token", ACK_TOKEN],
        request("event", b'{"event":"a"}') + ASKS + ASKS + request("raw", b"p\r\n\nq"),
        left=3,
        acks=((b'{"acks":{"4294967296":true}}', 1),),
        late=10,
    ),
    Row(
        "requests of the collector without an id",
        ["replay", "hec", "--token", TOKEN],
        request("event", b'{"event":"a"}', TOKEN) + request("event", b'{"event":"b"}', TOKEN),
        left=2,
        acks=((STORED, 1), (STORED * 2, 1)),
        late=5,
    ),
    Row("a collector that doesn't confirm", ["drain", "hec", *HEC_OUT], SUCCESS + NOT_YET * 2, HELLO, status=69, left=1),
    Row("a collector that confirms", ["drain", "hec", *HEC_OUT], SUCCESS + NOT_YET + TRUE, HELLO),
    Row("a receiver at a place", ["drain", "relp", "PLACE"], b"", HELLO, b"1 rsp 6 200 OK\n2 rsp 6 200 OK\n"),
]


class Peer:
    """Listens at a place, and gives each link these bytes; none: nobody listens."""

    def __init__(self, replies):
        self.replies, self.place, self.listener = replies, "nowhere", None

    def __enter__(self):
        if self.replies:
            self.listener = socket.create_server(("127.0.0.1", 0))
            self.place = f"127.0.0.1:{self.listener.getsockname()[1]}"
            threading.Thread(target=self.accept, daemon=True).start()
        return self

    def accept(self):
        try:
            link, _ = self.listener.accept()
            with link:
                link.sendall(self.replies)
                while link.recv(65536):
                    pass
        except OSError:
            pass

    def __exit__(self, *_):
        if self.listener is not None:
            # (a close alone would leave the accept that waits)
            self.listener.shutdown(socket.SHUT_RDWR)
            self.listener.close()


# ---- a server


@dataclass
class Served:
    """What a server left: whether a call was refused, its status, its line, how many events are pending, and which were acknowledged to
    a sender and are neither pending nor came to the receiver."""

    refused: bool
    status: int
    line: str
    err: str
    left: int
    missing: set


def relp_events(port, known):
    link = serving.RelpLink(port, 5)
    link.store(b"first")
    known.add(b"first")
    texts = [b"second", b"third"]
    link.store_all(texts)
    known.update(texts)
    link.drop()


def lumber_events(port, known):
    texts = [b"one", b"two", b"three"]
    serving.LumberLink(port, 5).store(texts)
    known.update(texts)


def hec_events(port, known):
    link = serving.HecLink(port, 5, TOKEN)
    texts = [b"b", b"c"]
    link.post(texts)
    known.update(texts)
    link.close()


def send(sender, port, known):
    try:
        sender(port, known)
    except (OSError, ValueError, serving.http.client.HTTPException):
        pass


def serve_once(bench, manner, number):
    """A server with one connection at each of its places, which forwards, with these words too; with the call for memory of this number
    refused."""
    server, receiver, known = serving.Server(bench.program, bench.folder, 2, 2097152), serving.RelpReceiver(), set()
    server.start("--workers", "1", "--talks", "1", *manner, to=receiver.port, environment=bench.environment(number))
    senders = [(relp_events, "relp"), (lumber_events, "lumberjack"), (hec_events, "hec")]
    threads = [threading.Thread(target=send, args=(sender, server.ports[place], known)) for sender, place in senders]
    for thread in threads:
        thread.start()
    # (where the server has ended, nobody listens any more)
    while any(thread.is_alive() for thread in threads) and server.child.poll() is None:
        threads[0].join(0.01)
    status, line, err = server.finish()
    pending = server.list()
    receiver.close()
    there = b"\n".join([*pending, *receiver.texts])
    return Served(os.path.exists(bench.mark), status, line, err, len(pending), {text for text in known if text not in there})


# ---- texts of many lengths


def texts(lengths):
    return [b"x" * length for length in lengths]


def lengths_runs(lengths):
    """Rows whose texts have these lengths, as far as a text of the form can have it: by each protocol in, and by each out."""
    relp = b"".join(b"%d syslog %d %s\n" % (number, len(text), text) for number, text in enumerate(texts(lengths), 2))
    stored = [(["replay", "relp"], OPEN + relp)]
    objects = [json.dumps({"e": "x" * (length - 9)}).encode() for length in lengths if length >= 9]
    # (an event of no characters is refused)
    events = [json.dumps({"event": "x" * (length - 13)}).encode() for length in lengths if length > 13]
    lines = [text for text in texts(lengths) if text]
    hec = ["replay", "hec", "--token", TOKEN]
    answers = b"".join(b"%d rsp 6 200 OK\n" % number for number in range(1, len(lengths) + 3))
    count = len(lengths)
    return [
        Row("events by RELP", *stored[0], left=count),
        Row("payloads of Lumberjack", ["replay", "lumberjack"], windows(objects), left=len(objects)),
        Row("events of the collector", hec, b"".join(request("event", text, TOKEN) for text in events), left=len(events)),
        Row("lines of the collector", hec, b"".join(request("raw", text, TOKEN) for text in lines), left=len(lines)),
        Row("forwarded by RELP", ["drain", "relp"], answers, stored),
    ]
