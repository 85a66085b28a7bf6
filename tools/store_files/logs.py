"""Log and edits files: a header, and entries after gates."""
import struct
from typing import NamedTuple, Optional

from .cells import MOST_TIME, Damaged, plain_bytes, read_cell, tagged_bytes

MAGIC, HEADER, OPEN = b"HWL1", 16, 0xA5
PLAIN, END, TAGGED = 1, 2, 3
MOST_BODY, MOST_CELLS, MOST_NUMBER, MOST_REGION = 1_048_576, 1_024, 2**48 - 1, 64


class Entry(NamedTuple):
    region: int
    number: int
    time: int
    table: bytes
    cells: tuple

    def is_plain(self):
        return not self.table and not any(cell.tags for cell in self.cells)


class LogText(NamedTuple):
    """What a log or edits file says: its entries, where the gate before each frame stands, and the count of its end frame if it has one."""

    entries: list
    gates: list
    ended: Optional[int]
    # where the gate stands at which the text ends; None where the file has at most 17 bytes
    last_gate: Optional[int]

    def bytes_of(self, index):
        """How many bytes an entry takes, with the gate before it."""
        after = self.gates[index + 1] if index + 1 < len(self.gates) else self.last_gate
        return after - self.gates[index]


class Reader:
    """Goes over a log's bytes, entry by entry; what it has read stands where damage comes too."""

    def __init__(self, data, number, region=0):
        """`number` is that of the file's name, `region` too, of an edits file."""
        self.data, self.number, self.region = data, number, region
        self.entries, self.gates, self.ended, self.gate = [], [], None, HEADER

    def read(self):
        """The whole text, or Damaged."""
        if len(self.data) <= HEADER + 1:
            return LogText([], [], None, None)
        version = self.version()
        while self.ended is None and self.is_open():
            self.frame(version)
        return LogText(self.entries, self.gates, self.ended, self.gate)

    def version(self):
        for version in (1, 2):
            if self.data[:HEADER] == header(self.number, version):
                return version
        raise Damaged(0)

    def is_open(self):
        return self.data[self.gate] == OPEN and self.gate != len(self.data) - 1

    def frame(self, version):
        """Reads the frame after an open gate, and stands at the next gate."""
        if len(self.data) < self.gate + 6:
            raise Damaged(self.gate)
        kind, length = struct.unpack_from(">BI", self.data, self.gate + 1)
        start = self.gate + 6
        # After the frame stands one byte more, the next gate.
        if length > MOST_BODY or start + length >= len(self.data):
            raise Damaged(self.gate)
        if kind == END:
            self.end_frame(start, length)
        elif kind == PLAIN or kind == TAGGED and version == 2:
            self.entry(start, start + length, kind)
        else:
            raise Damaged(self.gate)
        self.gate = start + length

    def end_frame(self, start, length):
        count = int.from_bytes(self.data[start : start + length], "big")
        if length != 8 or count != len(self.entries) or self.data[start + length] == OPEN:
            raise Damaged(self.gate)
        self.ended = count
        self.gates.append(self.gate)

    def entry(self, start, end, kind):
        try:
            entry = read_entry(self.data, start, end, kind)
        except Damaged:
            raise Damaged(self.gate) from None
        if self.region and entry.region != self.region:
            raise Damaged(self.gate)
        self.entries.append(entry)
        self.gates.append(self.gate)


def read_log(data, number, region=0):
    return Reader(data, number, region).read()


def read_entry(data, start, end, kind):
    """The entry whose body is `data[start:end]`."""
    at, table = start + 20, b""
    if kind == TAGGED and at < end:
        table = bytes(data[at + 1 : at + 1 + data[at]])
        at += 1 + data[at]
    if end < at + 4:
        raise Damaged(0)
    region, number, time = struct.unpack_from(">IQQ", data, start)
    count = int.from_bytes(data[at : at + 4], "big")
    if not 1 <= region <= MOST_REGION or not 1 <= number <= MOST_NUMBER or time > MOST_TIME or not 1 <= count <= MOST_CELLS:
        raise Damaged(0)
    at, cells = at + 4, []
    for _ in range(count):
        cell, at = read_cell(data, at, end, kind == TAGGED)
        cells.append(cell)
    entry = Entry(region, number, time, table, tuple(cells))
    if at != end or (kind == PLAIN) != entry.is_plain():
        raise Damaged(0)
    return entry


def header(number, version=2):
    return MAGIC + struct.pack(">IQ", version, number)


def entry_frame(entry):
    """Kind, length and body."""
    body = struct.pack(">IQQ", entry.region, entry.number, entry.time)
    if not entry.is_plain():
        body += bytes([len(entry.table)]) + entry.table
    spelled = plain_bytes if entry.is_plain() else tagged_bytes
    body += struct.pack(">I", len(entry.cells)) + b"".join(map(spelled, entry.cells))
    return struct.pack(">BI", PLAIN if entry.is_plain() else TAGGED, len(body)) + body


def log_bytes(entries, number, version=2, is_ended=False):
    """A whole file."""
    frames = [entry_frame(entry) for entry in entries] + [struct.pack(">BIQ", END, 8, len(entries))] * is_ended
    return header(number, version) + b"".join(bytes([OPEN]) + frame for frame in frames) + b"\0"
