"""Reads what `hwal ship` prints."""
from collections import namedtuple

# Of an entry: where it stands, whose it is, and its lines as printed; the words of its first line, the name of its table, the lines of
# its cells.
Entry = namedtuple("Entry", "file place region number lines words table cells")


class NotShipped(Exception):
    """The text is none that `ship` prints."""


class Reader:
    """Gives the whole entries of an output, one after the other. Afterwards `position` is the last one that was printed, and `refusal`
    the words of a line that refuses, each None where there was no such line."""

    def __init__(self, lines):
        self.lines, self.position, self.refusal = lines, None, None

    def __iter__(self):
        # An entry is whole once the next one or a position stands after it: the last lines of a call that was cut off are none.
        begun = None
        for line in self.lines:
            word = line[:5]
            if word == b"cell " or word == b"table":
                begun.append(line)
            elif word == b"ship ":
                if begun:
                    yield entry_of(begun)
                begun = [line]
            elif word == b"posit" and line.endswith(b"\n"):
                if begun:
                    yield entry_of(begun)
                begun = None
                _, file, entries = line.split()
                self.position = int(file), int(entries)
            elif word == b"refus":
                self.refusal = line.decode().split()[1:]


def entry_of(lines):
    """Returns the entry that has these lines."""
    words = lines[0].split()
    table, first = (lines[1].split()[1], 2) if lines[1].startswith(b"table ") else (b"-", 1)
    if len(lines) - first != int(words[6]):
        raise NotShipped(f"entry {words[2].decode()} of log {words[1].decode()} has not its {words[6].decode()} cells")
    return Entry(int(words[1]), int(words[2]), int(words[3]), int(words[4]), lines, words, table, lines[first:])
