"""Store files: flushed cells of one region, in order."""
import struct
from typing import NamedTuple

from .cells import MOST_FAMILY, Damaged, plain_bytes, read_cell, tagged_bytes, version_key
from .logs import MOST_NUMBER, OPEN

FIRST, SECOND = b"HWS1", b"HWS2"


class StoreText(NamedTuple):
    word: bytes
    region: int
    # 1 where the store stands in the place of the region's stores with lower numbers
    scope: int
    # empty where the store is of all families
    family: bytes
    flushed_from: int
    flushed_to: int
    # (number, cell), in order
    cells: list


class Fields:
    """Takes fields from the front, one after the other."""

    def __init__(self, data, at):
        self.data, self.at = data, at

    def take(self, size):
        """The next bytes, and where they stand. A field that isn't whole is damage at its first byte."""
        at = self.at
        if len(self.data) < at + size:
            raise Damaged(at)
        self.at += size
        return bytes(self.data[at : at + size]), at

    def number(self, size):
        field, at = self.take(size)
        return int.from_bytes(field, "big"), at


def read_store(data, region):
    """The store of this region's file; None where there is none: at most one byte, or a closed gate."""
    if len(data) <= 1 or data[0] != OPEN:
        return None
    fields = Fields(data, 1)
    word = demand(fields.take(4), lambda it: it in (FIRST, SECOND))
    demand(fields.number(4), lambda it: it == region)
    scope, family = read_scope(fields) if word == SECOND else (0, b"")
    flushed_from, from_at = fields.number(8)
    if flushed_from == 0:
        raise Damaged(from_at)
    flushed_to, to_at = fields.number(8)
    demand((flushed_from, from_at), lambda it: it <= flushed_to)
    demand((flushed_to, to_at), lambda it: it <= MOST_NUMBER)
    count, _ = fields.number(8)
    store = StoreText(word, region, scope, family, flushed_from, flushed_to, [])
    read_pairs(fields, store, count)
    return store


def demand(field, holds):
    value, at = field
    if not holds(value):
        raise Damaged(at)
    return value


def read_scope(fields):
    scope = demand(fields.number(1), lambda it: it <= 1)
    length = demand(fields.number(1), lambda it: it <= MOST_FAMILY and not (scope and it))
    return scope, fields.take(length)[0]


def read_pairs(fields, store, count):
    """Reads so many numbered cells into the store; nothing stands after them."""
    last, is_tagged = None, store.word == SECOND
    for _ in range(count):
        number, at = fields.number(8)
        try:
            cell, fields.at = read_cell(fields.data, fields.at, len(fields.data), is_tagged)
        except Damaged:
            raise Damaged(at) from None
        key = version_key(number, cell)
        is_covered = store.flushed_from <= number <= store.flushed_to and store.family in (b"", cell.family)
        if not is_covered or last is not None and key <= last:
            raise Damaged(at)
        store.cells.append((number, cell))
        last = key
    if fields.at != len(fields.data):
        raise Damaged(fields.at)


def store_bytes(store):
    """A whole file, with its gate open."""
    head = bytes([OPEN]) + store.word + struct.pack(">I", store.region)
    if store.word == SECOND:
        head += bytes([store.scope, len(store.family)]) + store.family
    head += struct.pack(">QQQ", store.flushed_from, store.flushed_to, len(store.cells))
    spelled = tagged_bytes if store.word == SECOND else plain_bytes
    return head + b"".join(struct.pack(">Q", number) + spelled(cell) for number, cell in store.cells)
