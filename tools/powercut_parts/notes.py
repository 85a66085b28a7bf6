"""What the library notes of a program's calls, and what a log's bytes say is committed."""
import struct
from typing import NamedTuple

CREATE, WRITE, SYNC, RENAME, REMOVE, MKDIR, TRUNCATE = 1, 2, 3, 4, 5, 6, 7
HEAD = struct.Struct("<9q")
# Of a log or edits file: its header, an open gate, a frame's head, the kinds of an entry, its region and number.
HEADER, OPEN, FRAME, ENTRIES, REGION, NUMBER = 16, 0xA5, 5, (1, 3), slice(0, 4), slice(4, 12)


class Note(NamedTuple):
    """The beginning or the end of a call."""

    is_end: bool
    thread: int
    call: int
    result: int
    done: int
    offset: int
    path: str
    second: str
    data: bytes


def notes_of(path):
    """Returns the notes in a file, in order."""
    with open(path, "rb") as it:
        held = it.read()
    at, out = 0, []
    while at + HEAD.size <= len(held):
        phase, thread, call, result, done, offset, *lengths = HEAD.unpack_from(held, at)
        at += HEAD.size
        if at + sum(lengths) > len(held):
            # (the program was killed here)
            break
        first, second = at + lengths[0], at + lengths[0] + lengths[1]
        texts = held[at:first].decode(errors="replace"), held[first:second].decode(errors="replace")
        at = second + lengths[2]
        out.append(Note(phase == 1, thread, call, result, done, offset, *texts, held[second:at]))
    return out


def committed_in(log):
    """Returns the greatest number of each region among the entries of a log that stand after open gates."""
    at, last = HEADER, {}
    while at < len(log) and log[at] == OPEN:
        kind, size = log[at + 1] if at + 1 < len(log) else 0, int.from_bytes(log[at + 2 : at + 1 + FRAME], "big")
        body = log[at + 1 + FRAME : at + 1 + FRAME + size]
        if kind in ENTRIES and len(body) == size:
            region, number = int.from_bytes(body[REGION], "big"), int.from_bytes(body[NUMBER], "big")
            last[region] = max(number, last.get(region, 0))
        at += 1 + FRAME + size
    return last


def raise_to(of, found):
    """Raises the number of each region to the one found."""
    for region, number in found.items():
        of[region] = max(number, of.get(region, 0))
