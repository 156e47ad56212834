"""Reads the image of a spool as docs/DEVICE.md has it. Written from that page; it shares nothing with bridge."""
import struct

CELLS, SLOTS = (4096, 8192), 12288


class NotSpool(Exception):
    """The image breaks a rule of the layout."""


def demand(holds, what):
    if not holds:
        raise NotSpool(what)


def take(image, at, form):
    """What stands there in this form of numbers, and the place after it."""
    end = at + struct.calcsize(form)
    demand(end <= len(image), f"the end within {form} at {at}")
    return *struct.unpack(form, image[at:end]), end


def read_register(image):
    """The cursor of the cell that counts."""
    cells = [take(image, at + 1, ">QI") for at in CELLS if image[at] == 1]
    demand(cells and len({ordinal for ordinal, _, _ in cells}) == len(cells), "cells")
    _, length, at = max(cells)
    version, _, cursor, _ = take(image, at, ">BQQ")
    demand(version == 1 and length == 17 or version == 2 and length >= 19, "a register's content")
    return cursor


def read_entries(group, count):
    """The texts of a group, which has so many entries."""
    texts, at = [], 0
    for _ in range(count):
        origin, _, _, _, length, at = take(group, at, ">BQQQI")
        demand(1 <= origin <= 5 and at + length <= len(group), "an entry")
        texts.append(group[at : at + length])
        at += length
    demand(count > 0 and at == len(group), "the length of a group")
    return texts


def read_slot(slot):
    """The texts of an open slot."""
    texts, at = [], 17
    while slot[at] == 1:
        length, count, begin = take(slot, at + 1, ">II")
        at = begin + length
        demand(at < len(slot), "a group beyond its slot")
        texts += read_entries(slot[begin:at], count)
    return texts


def read_spool(image):
    """The texts of all entries whose number is the cursor or above, in order. Raises NotSpool."""
    demand(len(image) >= SLOTS and image[:8] == b"RLBSPOOL", "magic")
    count, size, _ = take(image, 8, ">IQ")
    demand(len(image) == SLOTS + count * size, "length")
    cursor = read_register(image)
    slots = [image[SLOTS + place * size : SLOTS + (place + 1) * size] for place in range(count)]
    held = sorted((*take(slot, 1, ">QQ")[:2], read_slot(slot)) for slot in slots if slot[0] == 1)
    demand(held, "slots")
    texts, base, due = [], held[0][1], held[0][0]
    for ordinal, first, more in held:
        demand(ordinal == due and first == base + len(texts), "the order of slots")
        texts, due = texts + more, due + 1
    demand(base <= cursor <= base + len(texts), "cursor")
    return texts[cursor - base :]
