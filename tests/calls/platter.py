"""What a disk holds, reckoned from the calls that a program made on FILE, as Linux keeps it: a write changes pages in memory, which are
dirty then; a sync that succeeds puts the dirty pages on the disk; and a sync that fails marks them clean, so that no later sync puts
them there unless they are written again. What a read gives is what the memory holds, whatever the disk does."""
from errno import EINTR

PAGE = 4096


def is_good_sync(call):
    return call.kind == "sync" and call.asked == 1 and call.result == 0


def is_bad_sync(call):
    return call.kind == "sync" and call.asked == 1 and call.result != 0


class Platter:
    """FILE in memory and on the disk."""

    def __init__(self, image):
        self.memory, self.disk, self.dirty = bytearray(image), bytearray(image), set()

    def put(self, page):
        self.disk[page * PAGE : (page + 1) * PAGE] = self.memory[page * PAGE : (page + 1) * PAGE]

    def see(self, call, puts=lambda page: False):
        """Goes on by a call. Of a sync that fails, `puts` says which pages it had put on the disk before it failed."""
        if call.kind == "write" and call.data:
            end = call.at + len(call.data)
            self.memory[call.at : end] = call.data
            self.dirty.update(range(call.at // PAGE, (end - 1) // PAGE + 1))
        elif is_good_sync(call) or is_bad_sync(call):
            for page in self.dirty:
                if call.result == 0 or puts(page):
                    self.put(page)
            self.dirty.clear()

    def after_cut(self, puts=lambda page: False):
        """What a power cut leaves, where the system had put some of the dirty pages on the disk by itself."""
        left = bytearray(self.disk)
        for page in self.dirty:
            if puts(page):
                left[page * PAGE : (page + 1) * PAGE] = self.memory[page * PAGE : (page + 1) * PAGE]
        return bytes(left)


def add(ranges, start, end):
    """The ranges, as a list in order without overlaps, with one more."""
    kept = [(a, b) for a, b in ranges if b < start or end < a]
    touched = [(a, b) for a, b in ranges if not (b < start or end < a)]
    return sorted(kept + [(min([start] + [a for a, _ in touched]), max([end] + [b for _, b in touched]))])


def covers(ranges, start, end):
    return any(a <= start and end <= b for a, b in ranges)


def healing_faults(calls, image):
    """What is wrong with what follows failed calls: once a write or a sync failed, the ranges that were written since the last good
    sync are read, written back as they were read and synced, before anything else is done; and from the start again where one of
    these fails too. Gives lines, none where all is well."""
    faults, memory = [], bytearray(image)
    unsynced, healing, read, rewritten = [], False, [], []
    for number, call in enumerate(calls):
        if call.kind == "read":
            end = call.at + max(call.result, 0)
            if healing and not covers(unsynced, call.at, call.at + call.asked):
                faults.append(f"call {number}: a read at {call.at} of {call.asked} bytes before the disk was well again")
            if healing and call.result > 0:
                read = add(read, call.at, end)
        elif call.kind == "write":
            data, end = call.data, call.at + len(call.data)
            if not healing:
                unsynced = add(unsynced, call.at, call.at + call.asked)
            elif not covers(unsynced, call.at, call.at + call.asked):
                faults.append(f"call {number}: a write at {call.at} of {call.asked} bytes before the disk was well again")
            elif not covers(read, call.at, end) or memory[call.at : end] != data:
                faults.append(f"call {number}: a write at {call.at} of {call.asked} bytes that isn't what was read there")
            elif data:
                rewritten = add(rewritten, call.at, end)
            memory[call.at : end] = data
            if call.result < 0 and call.error != EINTR:
                healing, read, rewritten = True, [], []
        elif is_bad_sync(call):
            healing, read, rewritten = True, [], []
        elif is_good_sync(call):
            if healing and not all(covers(rewritten, start, end) for start, end in unsynced):
                faults.append(f"call {number}: a sync without {unsynced} having been written back")
            unsynced, healing, read, rewritten = [], False, [], []
    return faults
