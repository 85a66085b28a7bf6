"""What a folder recovers to, by the program itself, and whether that is what was put."""
import hashlib
import os
import re
import subprocess
from typing import NamedTuple

import folders

STORE = folders.STORES[0]


class Opened(NamedTuple):
    """What is wrong with an opening, and by region the last number and the cells."""

    wrong: list
    last: dict
    cells: dict


class Put(NamedTuple):
    """What was put, by region and number the cells; and by region the cells that a compaction may have taken away."""

    entries: dict
    dropped: dict


def hwal(program, room, *words, given=b""):
    """Runs a command in the folder, and returns its status, its output and its causes."""
    done = subprocess.run([program, *words], cwd=room, input=given, capture_output=True, timeout=120)
    return done.returncode, done.stdout.decode(), done.stderr.decode()


def cells_of(lines):
    """Returns (number, row, family, qualifier, timestamp, kind) to value and tags of the lines that begin with `cell`."""
    out = {}
    for line in lines:
        word = line.split(" ")
        if word[0] == "cell":
            out[(int(word[1]), *word[2:7])] = tuple(word[7:])
    return out


def entries_in(program, room, files):
    """Returns what the logs among these files hold: by region and number the cells, as `dump` prints them."""
    folders.fill(f"{room}/{STORE}", files)
    out = {}
    for number in sorted({int(it.split("-")[1]) for it in files if it.startswith(("log-", "old-"))}):
        status, said, _ = hwal(program, room, "dump", str(number))
        if status:
            raise ValueError(f"dump {number} ended with {status}: {said}")
        for part in re.split(r"^entry ", said, flags=re.M)[1:]:
            region, edit = (int(it) for it in part.split(" ", 2)[:2])
            add(out, region, edit, cells_of(part.splitlines()))
    return out


def add(entries, region, edit, cells):
    if entries.setdefault(region, {}).setdefault(edit, cells) != cells:
        raise ValueError(f"two entries {region} {edit} differ")


class Openings:
    """Opens folders with the program, each content once."""

    def __init__(self, program, room):
        self.program, self.room, self.known = program, room, {}

    def open(self, files):
        key = tuple(sorted((name, hashlib.sha256(data).digest()) for name, data in files.items()))
        if key not in self.known:
            self.known[key] = self.opened(files)
        return self.known[key]

    def opened(self, files):
        """Recovers the folder twice, and scans all regions."""
        folders.fill(f"{self.room}/{STORE}", files)
        said = []
        for turn in ("recover", "recover again"):
            status, out, causes = hwal(self.program, self.room, "recover")
            if status:
                return Opened([f"REFUSED {turn} ended with {status}: {(out + causes).strip()[:160]}"], {}, {})
            said.append(out)
        wrong = [f"recover says {said[0].split()} and then {said[1].split()}"] if said[0] != said[1] else []
        left = [it for it in os.listdir(f"{self.room}/{STORE}") if it.startswith(("log-", "edits-"))]
        if left:
            wrong.append(f"recover leaves {left}")
        found = [tuple(map(int, it)) for it in re.findall(r"^recovered (\d+) (\d+) (\d+)$", said[0], re.M)]
        more, cells = self.scanned({region: (last, count) for region, last, count in found})
        return Opened(wrong + more, {region: last for region, last, _ in found}, cells)

    def scanned(self, recovered):
        """Returns what is wrong with the scans, and by region the cells."""
        top = max(recovered, default=1)
        script = f"time 1\nregions {top}\nhandlers 1\n" + "".join(f"scan 1 {r} - -\n" for r in range(1, top + 1))
        status, out, causes = hwal(self.program, self.room, "run", given=script.encode())
        if status:
            return [f"REFUSED run ended with {status}: {(out[-80:] + causes).strip()[:160]}"], {}
        wrong, cells = [], {region: {} for region in range(1, top + 1)}
        for part in re.split(r"^reply ", out, flags=re.M)[1:]:
            lines = part.splitlines()
            region, last, count = map(int, re.match(r"1 (\d+) scan (\d+) (\d+)$", lines[0]).groups())
            cells[region] = cells_of(lines[1:])
            if (last, count) != recovered.get(region, (0, 0)):
                wrong.append(f"region {region}: recovered {recovered.get(region, (0, 0))}, scanned {(last, count)}")
        return wrong, cells


def judge(opened, acknowledged, begun, put):
    """Returns what is wrong with an opening: what was acknowledged is there, of each region the entries up to one number,
    each once, and no other cell."""
    wrong = list(opened.wrong)
    is_refused = any(it.startswith("REFUSED") for it in wrong)
    for region in sorted({*acknowledged, *opened.last, *begun}):
        found = opened.last.get(region, 0)
        if found < acknowledged.get(region, 0):
            wrong.append(f"LOST region {region}: {found} of {acknowledged[region]} acknowledged")
        if found > begun.get(region, 0):
            wrong.append(f"region {region}: {found}, and only {begun.get(region, 0)} were begun")
        if not is_refused:
            wrong += wrong_cells(region, found, opened.cells.get(region, {}), put)
    return wrong


def wrong_cells(region, found, has, put):
    """Returns what is wrong with the cells that a region has, where it goes up to the number found."""
    entries, wanted = put.entries.get(region, {}), {}
    wrong = [f"region {region}: no entry {it} was written" for it in range(1, found + 1) if it not in entries]
    for number in range(1, found + 1):
        wanted.update(entries.get(number, {}))
    lacking = {it for it in wanted if has.get(it) != wanted[it]}
    if lacking and (lacking & has.keys() or lacking != put.dropped.get(region, set()) & wanted.keys()):
        wrong.append(f"LOST region {region}: {len(lacking)} of {len(wanted)} cells, as {min(lacking)}")
    more = [it for it in has if it not in wanted]
    if more:
        wrong.append(f"region {region}: {len(more)} cells that are not of edits 1 to {found}, as {more[0]}")
    return wrong
