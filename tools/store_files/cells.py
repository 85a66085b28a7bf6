"""A cell: its fields, its plain and its tagged spelling, and the order of numbered cells."""
import struct
from typing import NamedTuple

PUT = 4
KINDS = {PUT: "put", 8: "delete", 10: "delete-family-version", 12: "delete-column", 14: "delete-family"}
CODES = {word: code for code, word in KINDS.items()}

MOST_KEY, LEAST_KEY, MOST_VALUE = 65_673, 14, 65_536
MOST_ROW, MOST_FAMILY, MOST_QUALIFIER, MOST_TAGS = 32_767, 127, 32_767, 4_096
MOST_TIME = 2**63 - 1

LENGTHS = struct.Struct(">IIH")
STAMP = struct.Struct(">QB")


class Damaged(Exception):
    """No such text stands here. `at` is the offset that FORMAT gives for the first thing that is wrong."""

    def __init__(self, at):
        super().__init__(f"damaged at {at}")
        self.at = at


class Cell(NamedTuple):
    row: bytes
    family: bytes
    qualifier: bytes
    timestamp: int
    kind: int
    value: bytes
    tags: bytes = b""

    def key(self):
        """All but value and tags, so that keys stand in the order of cells."""
        return self.row, self.family, self.qualifier, -self.timestamp, -self.kind


def version_key(number, cell):
    """Where the cell of this edit stands among numbered cells."""
    return (*cell.key(), -number)


def plain_bytes(cell):
    key_length = len(cell.row) + len(cell.family) + len(cell.qualifier) + 12
    head = LENGTHS.pack(key_length, len(cell.value), len(cell.row)) + cell.row
    return head + bytes([len(cell.family)]) + cell.family + cell.qualifier + STAMP.pack(cell.timestamp, cell.kind) + cell.value


def tagged_bytes(cell):
    return plain_bytes(cell) + struct.pack(">H", len(cell.tags)) + cell.tags


def read_cell(data, at, end, is_tagged):
    """The cell that `data[at:end]` begins with, and where it ends. Damaged has an offset from `at`."""
    cell, after = read_plain(data, at, end)
    return read_tags(data, at, after, end, cell) if is_tagged else (cell, after)


def read_plain(data, at, end):
    size = end - at
    if size < 8:
        raise Damaged(size)
    key_length, value_length = struct.unpack_from(">II", data, at)
    if not LEAST_KEY <= key_length <= MOST_KEY:
        raise Damaged(0)
    if value_length > MOST_VALUE:
        raise Damaged(4)
    if size < 8 + key_length + value_length:
        raise Damaged(size)
    row, family, qualifier = read_names(data, at, key_length)
    value_at = at + 8 + key_length
    timestamp, kind = STAMP.unpack_from(data, value_at - 9)
    if timestamp > MOST_TIME:
        raise Damaged(key_length - 1)
    if kind not in KINDS:
        raise Damaged(key_length + 7)
    after = value_at + value_length
    return Cell(row, family, qualifier, timestamp, kind, bytes(data[value_at:after])), after


def read_names(data, at, key_length):
    """Row, family and qualifier of a key that is there as a whole."""
    row_length = int.from_bytes(data[at + 8 : at + 10], "big")
    if not 1 <= row_length <= MOST_ROW or row_length + 13 > key_length:
        raise Damaged(8)
    family_length = data[at + 10 + row_length]
    if not 1 <= family_length <= MOST_FAMILY or row_length + family_length + 12 > key_length:
        raise Damaged(10 + row_length)
    qualifier_length = key_length - row_length - family_length - 12
    if qualifier_length > MOST_QUALIFIER:
        raise Damaged(11 + row_length + family_length)
    family_at = at + 11 + row_length
    qualifier_at = family_at + family_length
    return bytes(data[at + 10 : at + 10 + row_length]), bytes(data[family_at:qualifier_at]), bytes(data[qualifier_at : qualifier_at + qualifier_length])


def read_tags(data, at, after, end, cell):
    """The cell with the tags that stand after its plain spelling, and where these end."""
    if end < after + 2:
        raise Damaged(end - at)
    length = int.from_bytes(data[after : after + 2], "big")
    if length > MOST_TAGS:
        raise Damaged(after - at)
    if end < after + 2 + length:
        raise Damaged(end - at)
    return cell._replace(tags=bytes(data[after + 2 : after + 2 + length])), after + 2 + length
