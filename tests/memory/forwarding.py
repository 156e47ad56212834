"""Texts of many lengths, and what they go through: rows of commands, and receivers of Lumberjack and of the collector's protocol that keep
what comes. They are written from the protocols, and share nothing with bridge.

Python imports it as a module; it tests nothing by itself.
"""
import json
import socket
import struct
import threading

from senders import CHANNEL, HEC_OUT, LENGTHS, MOST_TEXT, OPEN, SUCCESS, TRUE, Row, reply

# Events of different lengths, and what `move` or a session prints that took or confirmed the first of them.
EVENTS = [(["replay", "relp"], OPEN + b"2 syslog 5 hello\n3 syslog 2 hi\n4 syslog 1 x\n")]
MOVED, CONFIRMED = (tuple(b"%d %s, %d left\n" % (some, done, 3 - some) for some in range(3)) for done in (b"moved", b"confirmed"))
# Commands that tests/memory/run doesn't have.
COMMANDS = [
    Row("format", ["format", "2", "4096"], first=EVENTS),
    Row("list", ["list"], first=EVENTS, left=3),
    *(Row(f"list as {form}", ["list", "--as", form], first=EVENTS, left=3) for form in ("relp", "json", "hec")),
    *(Row(f"load {protocol}", ["load", protocol, "1", "3"], first=EVENTS, left=3) for protocol in ("relp", "lumberjack", "hec")),
    Row("move", ["move", "TARGET", "7"], first=EVENTS, left=3, says=MOVED),
    Row("skip", ["skip", "1"], first=EVENTS, left=2),
    Row("rescue", ["rescue"], first=EVENTS, left=3, tells=b"bridge: slots: 1 sound, 1 closed, 0 at fault; not all entries were printed"),
    Row("a receiver of Lumberjack", ["drain", "lumberjack"], b"2A\0\0\0\3", EVENTS),
    Row("a receiver of Lumberjack at a place", ["drain", "lumberjack", "PLACE"], b"", EVENTS, b"2A\0\0\0\3", says=CONFIRMED),
    Row("a collector at a place", ["drain", "hec", "PLACE", *HEC_OUT], b"", EVENTS, SUCCESS + TRUE, says=CONFIRMED),
    # (what is wrong with the words is said on a line of its own)
    Row("words that are no command", ["drain"], first=EVENTS, status=64, left=3, spares=100),
]


def texts_of(draw, count):
    """Texts of each length in LENGTHS and of so many drawn, and of bytes that take six each in JSON."""
    lengths = LENGTHS + [draw.randrange(MOST_TEXT + 1) for _ in range(count)]
    return [b"x" * length for length in lengths] + [b"\x01" * length for length in LENGTHS[300:]]


def frames_of(texts):
    """A session of RELP that sends these texts."""
    return OPEN + b"".join(b"%d syslog %d %s\n" % (number, len(text), text) for number, text in enumerate(texts, 2))


def object_of(name, text):
    return json.dumps({name: text.decode()}, separators=(",", ":")).encode()


class Receiver:
    """Listens at a port, and keeps what the links bring, a text of JSON an event."""

    def __init__(self):
        self.texts = []
        self.listener = socket.create_server(("127.0.0.1", 0))
        self.port = self.listener.getsockname()[1]
        threading.Thread(target=self.accept, daemon=True).start()

    def accept(self):
        while True:
            try:
                link, _ = self.listener.accept()
            except OSError:
                return
            threading.Thread(target=self.take, args=(link,), daemon=True).start()

    def take(self, link):
        with link, link.makefile("rb") as stream:
            try:
                while (answer := self.read(stream)) is not None:
                    link.sendall(answer)
            except (OSError, ValueError, struct.error):
                pass

    def close(self):
        # (a close alone would leave the accept that waits)
        self.listener.shutdown(socket.SHUT_RDWR)
        self.listener.close()


class LumberReceiver(Receiver):
    """Acknowledges each window of JSON frames once it is whole."""

    def read(self, stream):
        head = stream.read(6)
        if len(head) < 6:
            return None
        kind, count = struct.unpack(">2sI", head)
        if kind != b"2W":
            raise ValueError(head)
        for number in range(1, count + 1):
            kind, sequence, length = struct.unpack(">2sII", stream.read(10))
            if (kind, sequence) != (b"2J", number):
                raise ValueError(kind)
            self.texts.append(stream.read(length))
        return b"2A" + struct.pack(">I", count)


class HecReceiver(Receiver):
    """A collector that confirms each request at once."""

    def read(self, stream):
        length = None
        while (line := stream.readline()) not in (b"", b"\r\n"):
            name, _, value = line.partition(b":")
            if name.lower() == b"content-length":
                length = int(value)
        if line == b"":
            return None
        rest = stream.read(length).decode()
        while rest:
            _, end = json.JSONDecoder().raw_decode(rest)
            self.texts.append(rest[:end].encode())
            rest = rest[end:]
        return reply('{"text":"Success","code":0}')
