"""The names of a store's files, and their order."""
import re
from typing import NamedTuple

KINDS = ("log", "old", "store", "edits")
MOST_NUMBER, MOST_REGION = 2**62, 64
FORM = re.compile(r"(log|old)-(0|[1-9][0-9]*)|(store|edits)-(0|[1-9][0-9]*)-(0|[1-9][0-9]*)")


class Name(NamedTuple):
    """In the order of names."""

    kind_place: int
    region: int
    number: int

    @property
    def kind(self):
        return KINDS[self.kind_place]

    def __str__(self):
        return f"{self.kind}-{self.number}" if self.kind in ("log", "old") else f"{self.kind}-{self.region}-{self.number}"


def name_of(kind, number, region=0):
    return Name(KINDS.index(kind), region, number)


def parse(text):
    """The name that a file bears, or None where it isn't seen."""
    found = FORM.fullmatch(text)
    if not found:
        return None
    name = name_of("log" if found[1] == "log" else "old", int(found[2])) if found[1] else name_of(found[3], int(found[5]), int(found[4]))
    return name if name.region < 2**32 and name.number < 2**64 else None


def is_in_range(name, names):
    """Whether an opening takes the name, among these of the folder."""
    if name.number > MOST_NUMBER:
        return False
    if name.kind == "log":
        return name_of("old", name.number) not in names
    return name.kind == "old" or 1 <= name.region <= MOST_REGION
