"""The kernel's trace of the requests to a device, and which flush makes a write durable by it."""
import bisect
import os
import re

import images
import native

EVENTS = ("block_rq_issue", "block_rq_complete")
REQUEST = re.compile(r"(block_rq_issue|block_rq_complete): \d+,\d+ (\S+) (?:\d+ )?\(.*?\) (\d+) \+ (\d+)")
SECTOR = 512


class Watch:
    """Has the kernel trace when each request goes to a device and when it is answered."""

    def __init__(self, room):
        self.to, self.tracing = f"{room}/requests", f"{room}/tracing"
        os.makedirs(self.tracing)
        native.mount("nodev", self.tracing, "tracefs")
        self.at = f"{self.tracing}/instances/powercuts-{os.getpid()}"
        os.mkdir(self.at)
        self.say("trace_clock", "mono")
        self.say("buffer_size_kb", "8192")

    def say(self, file, text):
        with open(f"{self.at}/{file}", "w", encoding="utf-8") as it:
            it.write(text)

    def begin(self, device):
        for it in EVENTS:
            self.say(f"events/block/{it}/filter", f"dev == {os.major(device) << 20 | os.minor(device)}")
            self.say(f"events/block/{it}/enable", "1")

    def end(self):
        for it in EVENTS:
            self.say(f"events/block/{it}/enable", "0")
        with open(f"{self.at}/trace", encoding="utf-8") as it, open(self.to, "w", encoding="utf-8") as to:
            to.write(it.read())
        self.leave()

    def leave(self):
        """Takes the trace's instance away, which no unmounting does."""
        os.rmdir(self.at)
        native.unmount(self.tracing)


class Request:
    """A write or discard: its first sector and how many, when it was answered, and how many of its sectors no record has yet."""

    def __init__(self, first, count):
        self.first, self.count, self.answered, self.waiting = first, count, None, count

    def has(self, first, count):
        return self.waiting and self.first <= first and first + count <= self.first + self.count


def traced(path):
    """Returns the writes of a trace in the order in which they were sent, and the moments at which flushes were sent."""
    with open(path, encoding="utf-8") as it:
        lines = [m.groups() for m in map(REQUEST.search, it) if m]
    writes, flushes, under_way = [], [], {}
    for moment, (what, kind, first, count) in enumerate(lines):
        place, is_write = (int(first), int(count)), "W" in kind or "D" in kind
        if what == EVENTS[0] and place[1] == 0 and kind.startswith("F"):
            flushes.append(moment)
        elif what == EVENTS[0] and place[1] and is_write:
            writes.append(Request(*place))
            under_way.setdefault(place, []).append(writes[-1])
        elif what == EVENTS[1] and under_way.get(place) and is_write:
            under_way[place].pop(0).answered = moment
    return writes, flushes


def covered(records, path):
    """Returns of each record the flush that makes it durable, and of how many that is a later flush than the next one.

    That is the first flush that was sent after the write was answered: a write that was under way when a flush was sent
    need not be durable by it, although it was recorded first.
    """
    writes, flushes = traced(path)
    # (binding the loop device makes one of its own, before anything is mounted)
    at_flush = [i for i, it in enumerate(records) if it[0] == images.FLUSH]
    if at_flush[:1] == [0] and len(at_flush) == len(flushes) + 1:
        at_flush.pop(0)
    if len(at_flush) != len(flushes):
        raise ValueError(f"{len(at_flush)} flushes were recorded, and {len(flushes)} were sent")
    out, begun, late = [None] * len(records), 0, 0
    for i, (kind, offset, length, _) in enumerate(records):
        if kind == images.FLUSH:
            continue
        while begun < len(writes) and not writes[begun].waiting:
            begun += 1
        first, count = offset // SECTOR, length // SECTOR
        request = next(it for it in writes[begun : begun + 4096] if it.has(first, count))
        request.waiting -= count
        later = range(bisect.bisect(at_flush, i), len(at_flush))
        after = next((n for n in later if request.answered is not None and flushes[n] > request.answered), None)
        out[i] = None if after is None else at_flush[after]
        late += after is not None and after != later[0]
    return out, late
