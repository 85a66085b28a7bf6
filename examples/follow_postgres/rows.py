"""Writes entries as lines of COPY."""
import hashlib
from urllib.parse import unquote_to_bytes

COLUMNS = 'store, file, place, region, number, written, table_name, item, "row", family, qualifier, ts, type, value, tags'
TYPES = {b"put": b"4", b"delete": b"8", b"delete-family-version": b"10", b"delete-column": b"12", b"delete-family": b"14"}
ITEMS = [b"%d" % item for item in range(1, 1025)]


def field(token):
    """Returns the bytes of a token as COPY takes them for a bytea."""
    if b"%" in token or b"\\" in token:
        return b"\\\\x" + unquote_to_bytes(token).hex().encode()
    return b"" if token == b"-" else token


def row(front, item, line):
    """Returns the line of a cell."""
    words = line.split()
    _, _, key, family, qualifier, ts, kind, value = words[:8]
    tags = words[8] if len(words) == 9 else b"-"
    if b"%" in line or b"\\" in line or b"-" in (key, family, qualifier, value):
        key, family, qualifier, value = field(key), field(family), field(qualifier), field(value)
    return b"\t".join((front, item, key, family, qualifier, ts, TYPES[kind], value, field(tags)))


def rows(store, entry):
    """Returns the lines of an entry's cells."""
    front = b"\t".join((store, *entry.words[1:6], field(entry.table)))
    lines = [row(front, item, line) for item, line in zip(ITEMS, entry.cells)]
    return b"\n".join(lines) + b"\n"


def digest(entry):
    """Returns the SHA-256 of an entry's lines, in hexadecimal."""
    return hashlib.sha256(b"".join(entry.lines)).hexdigest()
