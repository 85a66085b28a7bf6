"""Tokens, and the lines in which the program prints logs and cells."""
import re

from .cells import KINDS, version_key

PLAIN = frozenset(range(0x21, 0x7F)) - {0x25}


def token(data):
    if data == b"":
        return "-"
    if data == b"-":
        return "%2D"
    return "".join(chr(byte) if byte in PLAIN else f"%{byte:02X}" for byte in data)


def untoken(text):
    """The bytes of a token as the program prints or reads one; ValueError where it is none."""
    if text == "-":
        return b""
    if not re.fullmatch(r"([!-$&-~]|%[0-9A-Fa-f]{2})+", text):
        raise ValueError(f"{text} is no token")
    return re.sub(rb"%(..)", lambda found: bytes([int(found[1], 16)]), text.encode())


def cell_line(number, cell):
    words = [token(it) for it in (cell.row, cell.family, cell.qualifier)]
    words += [str(cell.timestamp), KINDS[cell.kind], token(cell.value)] + [token(cell.tags)] * bool(cell.tags)
    return f"cell {number} {' '.join(words)}"


def entry_lines(entry, head):
    yield f"{head} {entry.region} {entry.number} {entry.time} {len(entry.cells)}"
    if entry.table:
        yield f"table {token(entry.table)}"
    yield from (cell_line(entry.number, cell) for cell in entry.cells)


def dump_lines(name, text):
    """What `dump` prints of a log or old log."""
    yield str(name).replace("-", " ")
    for entry in text.entries:
        yield from entry_lines(entry, "entry")
    if text.ended is not None:
        yield f"ended {text.ended}"


def show_lines(text):
    """What `show` prints of log-1."""
    regions = {}
    for entry in text.entries:
        for cell in entry.cells:
            regions.setdefault(entry.region, {})[version_key(entry.number, cell)] = (entry.number, cell)
    for region in sorted(regions):
        yield f"region {region}"
        yield from (cell_line(*regions[region][key]) for key in sorted(regions[region]))


def ship_lines(file, text, first):
    """What `ship` prints of one log's entries after the first so many, with a record after each 64 and after the last one."""
    for place, entry in enumerate(text.entries[first:], first + 1):
        yield from entry_lines(entry, f"ship {file} {place}")
        if (place - first) % 64 == 0:
            yield f"position {file} {place}"
