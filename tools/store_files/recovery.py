"""The first damage among files, what is flushed of them, and what they recover to."""
from .cells import Damaged, version_key
from .logs import LogText, read_log
from .names import is_in_range
from .stores import StoreText, read_store


def text_of(name, data):
    """What the bytes of a file say: a LogText, a StoreText, None of a store that isn't there; or Damaged is raised."""
    if name.kind == "store":
        return read_store(data, name.region)
    return read_log(data, name.number, name.region if name.kind == "edits" else 0)


def look(name, names, read):
    """The text of one file, or the Damaged that an opening finds in it. Of an old log the name alone is looked at."""
    if not is_in_range(name, names):
        return Damaged(0)
    try:
        return None if name.kind == "old" else text_of(name, read(name))
    except Damaged as damage:
        return damage


def read_all(names, read):
    """What an opening finds in each file, by name; `read` gives a file's bytes."""
    return {name: look(name, names, read) for name in sorted(names)}


def refusal(texts):
    """What an opening says of files that aren't sound, without the word `refused`; None of sound ones."""
    for name, text in sorted(texts.items()):
        if isinstance(text, Damaged):
            return f"damaged {name} {text.at}"
    return disagreement(texts)


def logged(texts):
    """Each entry of each log and edits file, with the file's name, in the order of names and of each file."""
    return [(name, entry) for name, text in sorted(texts.items()) if isinstance(text, LogText) for entry in text.entries]


def disagreement(texts):
    """The least region and number under which two entries differ, with the first two files of such."""
    seen, found = {}, []
    for name, entry in logged(texts):
        first, known = seen.setdefault((entry.region, entry.number), (name, entry))
        if known != entry:
            found.append((entry.region, entry.number, first, name))
    if not found:
        return None
    region, number, first, second = min(found, key=lambda it: it[:2])
    return f"disagree {first} {second} {region} {number}"


class Region:
    """What a region's store files say, and the entries of logs and edits files that are of it."""

    def __init__(self):
        self.stores, self.entries = {}, {}

    def counting(self):
        """The store files that count, by rising number."""
        least = max((number for number, store in self.stores.items() if store.scope == 1), default=0)
        return [self.stores[number] for number in sorted(self.stores) if number >= least]

    def flushed(self):
        """Up to which number each family is flushed; the key b"" is the region as a whole."""
        flushed = {b"": 0}
        for store in self.counting():
            flushed[store.family] = max(store.flushed_to, flushed.get(store.family, 0))
        return flushed

    def last(self):
        return max([store.flushed_to for store in self.counting()] + list(self.entries), default=0)

    def cells(self):
        """The numbered cells that the files recover to, in order."""
        found, flushed = {}, self.flushed()
        for store in self.counting():
            found.update((version_key(number, cell), (number, cell)) for number, cell in store.cells)
        for number, entry in self.entries.items():
            found.update((version_key(number, cell), (number, cell)) for cell in entry.cells if is_left(number, cell.family, flushed))
        return [found[key] for key in sorted(found)]


def is_left(number, family, flushed):
    """Whether a logged cell is above what is flushed of its family."""
    return number > max(flushed[b""], flushed.get(family, 0))


def regions_of(texts):
    """Each region that the files have something of. Where entries disagree the first one counts."""
    regions = {}
    for name, text in texts.items():
        if isinstance(text, StoreText):
            regions.setdefault(name.region, Region()).stores[name.number] = text
    for _, entry in logged(texts):
        regions.setdefault(entry.region, Region()).entries.setdefault(entry.number, entry)
    return dict(sorted(regions.items()))
