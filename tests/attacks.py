"""The attacks of tests/siege: peers that nobody wants, each for some seconds, many connections at once. Of what they send only STAGED may
be stored, in which nothing is wrong. siege runs this file as a process of its own:

    attacks.py NAME RELP,LUMBERJACK,HEC SECONDS       the ports of the server's places; prints how often what came of it, as words
"""
import random
import resource
import socket
import struct
import sys
import threading
import time
import uuid
import zlib

sys.dont_write_bytecode = True

from serving import ACK_TOKEN, TOKEN

RELP, LUMBERJACK, HEC = range(3)
POST = b"POST /services/collector/%s HTTP/1.1\r\n"
# An event of a window of Lumberjack that is cut off later.
STAGED = b"x" * 62000
MAY, MAY_ASK = (b"Authorization: Splunk %s\r\n" % token.encode() for token in (TOKEN, ACK_TOKEN))


class Attack:
    """What all peers of one attack share: the ports, until when it lasts, and what came of it."""

    def __init__(self, ports, seconds):
        self.ports, self.end, self.counts, self.lock = ports, time.monotonic() + seconds, {}, threading.Lock()
        self.chance, self.kept = random.Random(1), []

    def lasts(self):
        return time.monotonic() < self.end

    def rest(self):
        """Waits until the attack ends."""
        time.sleep(max(0, self.end - time.monotonic()))

    def count(self, what, number=1):
        with self.lock:
            self.counts[what] = self.counts.get(what, 0) + number

    def connect(self, place, patience=3):
        link = socket.create_connection(("127.0.0.1", self.ports[place % len(self.ports)]), timeout=patience)
        link.setsockopt(socket.IPPROTO_TCP, socket.TCP_NODELAY, 1)
        return link

    def peers(self, count, talk):
        """So many peers at once, each of which does this again and again."""

        def again(number):
            while self.lasts():
                try:
                    talk(number)
                except (OSError, EOFError) as error:
                    self.count(type(error).__name__)
                    time.sleep(0.01)

        threads = [threading.Thread(target=again, args=(number,), daemon=True) for number in range(count)]
        for thread in threads:
            thread.start()
        for thread in threads:
            thread.join(max(0, self.end + 1 - time.monotonic()))

    def hold(self, count, place, sent):
        """So many connections, on each of which this is sent, and then nothing more."""
        for _ in range(count):
            try:
                link = self.connect(place, 5)
                self.kept.append(link)
                link.sendall(sent)
                self.count("held")
            except OSError as error:
                self.count(type(error).__name__)
        self.rest()


# ---- slow and silent ones


def drips(attack):
    """200 connections that send a byte each half a second."""
    texts = (
        b"1 open 200 relp_version=0\nrelp_software=x,1,y\n",
        b"2W\0\0\0\x05" + b"2J\0\0\0\1\0\1\0\0",
        POST % b"event" + b"X-A: aaaaaaaaaaaaaaaaaaaaaaaaaa\r\n",
    )
    for number in range(200):
        try:
            attack.kept.append(attack.connect(number))
        except OSError:
            attack.count("not connected")
    for place in range(len(min(texts, key=len))):
        for number, link in enumerate(attack.kept):
            try:
                link.sendall(texts[number % 3][place : place + 1])
                attack.count("bytes")
            except OSError:
                attack.count("cut")
        time.sleep(0.5)
        if not attack.lasts():
            break


def crowd(attack):
    """1,200 that connect and say nothing, more than are served at once."""
    for number in range(1200):
        link = socket.socket()
        link.setblocking(False)
        link.connect_ex(("127.0.0.1", attack.ports[number % 3]))
        attack.kept.append(link)
    attack.count("connecting", len(attack.kept))
    attack.rest()


def unread(attack):
    """40 that send on and on what is answered, and read no answer."""
    asked = (b"1 open 0\n" + b"2 other 0\n" * 6000, b"GET /services/collector/health HTTP/1.1\r\n\r\n" * 1000)

    def talk(number):
        link = attack.connect((RELP, HEC)[number % 2])
        attack.kept.append(link)
        while attack.lasts():
            link.sendall(asked[number % 2])
            attack.count("sent")

    attack.peers(40, talk)


# ---- those that break the protocol


def resets(attack):
    """30 that connect and reset the connection, some in the middle of a frame."""

    def talk(number):
        link = attack.connect(number)
        link.setsockopt(socket.SOL_SOCKET, socket.SO_LINGER, struct.pack("ii", 1, 0))
        if number % 2:
            link.send(attack.chance.choice((b"1 op", b"2W\0", b"POST /", b"\x16\x03\x01")))
        link.close()
        attack.count("reset")

    attack.peers(30, talk)


def garbage(attack):
    """60 that send 64 bytes drawn at random."""

    def talk(number):
        with attack.connect(number) as link:
            link.sendall(attack.chance.randbytes(64))
            attack.count("sent")
            while link.recv(1000):
                pass

    attack.peers(60, talk)


def heads(attack):
    """20 whose heads of requests never end, and 20 whose heads come two bytes at a time."""
    long = POST % b"event" + b"".join(b"X-%02d: %s\r\n" % (number, b"a" * 240) for number in range(62))

    def talk(number):
        with attack.connect(HEC) as link:
            if number % 2:
                for at in range(0, len(long), 2):
                    link.send(long[at : at + 2])
                attack.count("heads")
                return
            link.sendall(POST % b"event")
            while attack.lasts():
                link.sendall(b"X-A: %s\r\n" % (b"b" * 1000))
                attack.count("lines")

    attack.peers(40, talk)


def windows(attack):
    """16 that announce windows of up to 2^32 - 1 events, or send a compressed frame of 2^24 bytes."""
    packed = zlib.compress(b"2J\0\0\0\1" + struct.pack(">I", 1 << 24) + bytes(1 << 24), 1)

    def talk(number):
        with attack.connect(LUMBERJACK) as link:
            if number % 2:
                link.sendall(b"2W\0\0\0\1" + b"2C" + struct.pack(">I", len(packed)) + packed)
            else:
                link.sendall(b"2W" + struct.pack(">I", attack.chance.choice((1 << 31, (1 << 32) - 1, 65537))) + b"2J\0\0\0\1\0\0\0\2{")
                link.shutdown(socket.SHUT_WR)
            attack.count("windows")
            link.recv(100)

    attack.peers(16, talk)


# ---- those that cost memory and time


def bodies(attack):
    """200 that send a request with no token, and all of its body but the last byte."""
    length = 1048576
    attack.hold(200, HEC, POST % b"event" + b"Content-Length: %d\r\n\r\n" % length + b"{" * (length - 1))


def staged(attack):
    """200 that send what is kept until a batch is whole, and all of a long frame but the last byte, by Lumberjack; and as much by RELP."""
    frames = b"".join(b"2J" + struct.pack(">II", number, len(STAGED)) + STAGED for number in range(1, 5))
    unfinished = b"2J" + struct.pack(">II", 5, 131072) + b"y" * 131071
    for place, sent in (LUMBERJACK, b"2W\0\0\xff\xff" + frames + unfinished), (RELP, b"1 open 0\n2 syslog 131072 " + b"y" * 131071):
        for _ in range(100):
            try:
                link = attack.connect(place, 5)
                attack.kept.append(link)
                link.sendall(sent)
                attack.count("held")
            except OSError as error:
                attack.count(type(error).__name__)
    attack.rest()


def costly(attack):
    """14 with a token whose requests take long to judge, and are refused: chunks of a byte each, values in one another, blanks, an event
    that isn't one after many that are; and queries of 10,000 ids."""
    cut = b'{"event":"%s' % (b"a" * 100000)
    texts = [b'{"event":%s%s}' % (b"[" * 120, b"]" * 120) * 400 + b"x", b'{"event":1}' * 9999 + b"x", b" " * 1000000, b"[" * 100000]
    texts += [b"{%s" % b",".join(b'"k%d":1' % number for number in range(9000))]
    asked = [POST % b"event" + MAY + b"Content-Length: %d\r\n\r\n%s" % (len(text), text) for text in texts]
    chunks = b"".join(b"1\r\n%c\r\n" % one for one in cut) + b"0\r\n\r\n"
    asked.append(POST % b"event" + MAY + b"Transfer-Encoding: chunked\r\n\r\n" + chunks)
    query = b'{"acks":[%s]}' % b",".join(b"%d" % attack.chance.randrange(1 << 60) for _ in range(10000))
    channel = b"ack?channel=%s" % str(uuid.uuid4()).encode()
    asked.append(POST % channel + MAY_ASK + b"Content-Length: %d\r\n\r\n%s" % (len(query), query))

    def talk(number):
        with attack.connect(HEC, 10) as link, link.makefile("rb") as stream:
            link.sendall(asked[number % len(asked)])
            attack.count(f"answered {int(stream.readline().split()[1])}")

    attack.peers(14, talk)


ATTACKS = {one.__name__: one for one in (drips, crowd, unread, resets, garbage, heads, windows, bodies, staged, costly)}


def main(name, ports, seconds):
    _, most = resource.getrlimit(resource.RLIMIT_NOFILE)
    resource.setrlimit(resource.RLIMIT_NOFILE, (most, most))
    attack = Attack([int(port) for port in ports.split(",")], float(seconds))
    ATTACKS[name](attack)
    print(", ".join(f"{number} {what}" for what, number in sorted(attack.counts.items())), flush=True)


if __name__ == "__main__":
    main(*sys.argv[1:])
