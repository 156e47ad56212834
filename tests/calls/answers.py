"""What the bytes that went over a server's sockets acknowledge, read from the calls that it made. Written from the protocols; it shares
nothing with bridge."""
import json
import os
import re
import struct
import sys
from dataclasses import dataclass, field

sys.path.insert(0, os.path.dirname(os.path.dirname(os.path.realpath(__file__))))

from serving import names_in


@dataclass
class Talk:
    """A connection that was accepted: all that came, and what was sent with the numbers of the calls that sent it."""

    place: str
    came: bytearray = field(default_factory=bytearray)
    sent: list = field(default_factory=list)

    def answers(self):
        """All that was sent."""
        return b"".join(data for _, data in self.sent)

    def call_of(self, end):
        """The call that sent the last of so many bytes."""
        for number, data in self.sent:
            end -= len(data)
            if end <= 0:
                return number
        raise ValueError("bytes that weren't sent")


def place_of(came):
    """By which protocol a peer speaks that begins so."""
    return "lumberjack" if came[:1] == b"2" else "hec" if came[:1] in (b"P", b"G") else "relp"


def talks_of(calls):
    """The connections that were accepted, in order."""
    talks, opened, begun = [], {}, {}
    for number, call in enumerate(calls):
        if call.kind == "accept" and call.result >= 0:
            opened[call.result] = Talk("")
            talks.append(opened[call.result])
        elif call.fd not in opened:
            continue
        elif call.kind == "recv" and call.result > 0:
            opened[call.fd].came += call.data
        elif call.kind == "send":
            begun[call.fd] = number
        elif call.kind == "sent" and call.result <= 0:
            del begun[call.fd]
        elif call.kind == "sent":
            opened[call.fd].sent.append((begun[call.fd], calls[begun[call.fd]].data[: call.result]))
            del begun[call.fd]
        elif call.kind == "close":
            del opened[call.fd]
    # (a send that a kill cut off may have come to the peer all the same)
    for fd, number in begun.items():
        if fd in opened:
            opened[fd].sent.append((number, calls[number].data))
    for talk in talks:
        talk.place = place_of(talk.came)
    return talks


def relp_frames(stream):
    """The frames of RELP that are whole: number, command, data, and the place after each."""
    at = 0
    while (head := re.compile(rb"(\d+) (\w+) (\d+)[ \n]").match(stream, at)) is not None:
        length = int(head[3])
        end = head.end() + length + 1 if length else head.end()
        if end > len(stream):
            return
        yield int(head[1]), head[2], bytes(stream[head.end() : head.end() + length]), end
        at = end


def acked_by_relp(talk):
    texts = {number: data for number, command, data, _ in relp_frames(talk.came) if command == b"syslog"}
    for number, command, data, end in relp_frames(talk.answers()):
        if command == b"rsp" and data.startswith(b"200") and number in texts:
            yield talk.call_of(end), names_in([texts[number]])


def windows_of(stream):
    """The windows of Lumberjack: of each one the payloads, by sequence number."""
    windows, at = [], 0
    while at + 6 <= len(stream):
        if stream[at : at + 2] == b"2W":
            windows.append({})
            at += 6
            continue
        if at + 10 > len(stream):
            break
        number, length = struct.unpack(">II", stream[at + 2 : at + 10])
        windows[-1][number] = bytes(stream[at + 10 : at + 10 + length])
        at += 10 + length
    return windows


def acked_by_lumberjack(talk):
    windows, answers = windows_of(talk.came), talk.answers()
    for place in range(0, len(answers) - 5, 6):
        number = struct.unpack(">I", answers[place + 2 : place + 6])[0]
        if not windows:
            return
        known = [text for at, text in windows[0].items() if at <= number]
        yield talk.call_of(place + 6), names_in(known)
        if number >= max(windows[0]):
            windows.pop(0)


def messages_of(stream):
    """The requests or replies of HTTP that are whole: head, body and the place after each."""
    at = 0
    while (end := stream.find(b"\r\n\r\n", at)) >= 0:
        head = bytes(stream[at:end])
        length = re.search(rb"(?i)content-length: *(\d+)", head)
        at = end + 4 + (int(length[1]) if length else 0)
        if at > len(stream):
            return
        yield head, bytes(stream[end + 4 : at]), at


def acked_by_hec(talk):
    held = {}
    for (_, asked, _), (head, body, end) in zip(messages_of(talk.came), messages_of(talk.answers())):
        said = json.loads(body) if head.startswith(b"HTTP/1.1 200") else {}
        if said.get("text") == "Success" and "ackId" in said:
            held[str(said["ackId"])] = names_in([asked])
        elif said.get("text") == "Success":
            yield talk.call_of(end), names_in([asked])
        for number, known in said.get("acks", {}).items():
            if known:
                yield talk.call_of(end), held.get(number, [])


READERS = {"relp": acked_by_relp, "lumberjack": acked_by_lumberjack, "hec": acked_by_hec}


def acknowledged(calls):
    """The names of the events that were acknowledged, each with the number of the call that sent the acknowledgment, in order."""
    found = [(number, name) for talk in talks_of(calls) for number, names in READERS[talk.place](talk) for name in names]
    return sorted(found)
