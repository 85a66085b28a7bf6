#!/usr/bin/env python3
"""Measures a major compaction of hwal beside RocksDB's CompactRange over the same cells, in rounds that alternate.

usage: bench/compactions.py PROGRAM [--former PROGRAM] [--filler PROGRAM] [--cells N,N..] [--files N] [--rounds N] [--dir FOLDER]
       [--realtime]

PROGRAM is a built hwal (crates/hwal/out/hwal); --former is another one, which has rows of its own, and --filler the one that
makes the stores (PROGRAM). RocksDB's is bench/bin/rocks_compact, which bench/build.sh makes. 250,000, 500,000 and 1,000,000
cells in 8 files, 3 rounds; FOLDER is one in memory (/dev/shm).

The cells are those of the load's generator, in one region: rows of 8 bytes in no order, so each file's cells fall among those
of the others. Behind the first file each tenth cell is a delete of a put of the file before, which a major compaction drops
with the put. hwal gets each file's cells by a script that ends with a flush; RocksDB as keys that sort alike.

hwal's compaction opens the store first, as each command does, and RocksDB's opens nothing: so "recover", the opening alone, has
a row of its own. Each row has user and system time, by the best round and the median: on a busy machine the clock shows the
scheduler, and --realtime (root; `chrt -r 10`) keeps neighbours from it. The clock's best stands behind them, and the most memory
of the whole process.
"""
import argparse
import os
import re
import shutil
import statistics
import subprocess
import sys
import tempfile
import time

HERE = os.path.dirname(os.path.realpath(__file__))
MASK = (1 << 64) - 1
FRONT = ["chrt", "-r", "10"] if "--realtime" in sys.argv else []


def rows_of(cells):
    """Yields the first rows of the load's generator, so many."""
    x = 0
    for _ in range(cells):
        x = (6364136223846793005 * x + 1442695040888963407) & MASK
        yield x


def write_script(path, places, each, rows, olds):
    """Writes the script of one file's puts and deletes, line by line: what this process holds is told as a program's memory too."""
    with open(path, "w", encoding="ascii") as out:
        out.write("time 1000\nregions 1\nhandlers 1\n")
        for place in places:
            row, old = next(rows), next(olds) if place >= each + 5 else None
            if (place - places[0]) % 1000 == 0:
                out.write(f"put 1 1 async {min(1000, places[-1] + 1 - place)}\n")
            if places[0] and place % 10 == 9:
                out.write(f"cell {token(old.to_bytes(8, 'big'))} f q {place - each - 4} delete -\n")
            else:
                out.write(f"cell {token(row.to_bytes(8, 'big'))} f q {place + 1} put {token(bytes([row & 255]) * (1 + (row >> 60)))}\n")
        out.write("flush 1 1\n")


def token(word):
    return "".join(f"%{byte:02X}" for byte in word)


def run(words, folder, stdin=None):
    """Returns what a program printed, its user and system seconds, its seconds by the clock and its most memory in MiB."""
    with open(stdin or os.devnull, "rb") as given:
        start = time.monotonic()
        started = subprocess.Popen(words, cwd=folder, stdin=given, stdout=subprocess.PIPE)
        said = started.stdout.read().decode()
        _, status, used = os.wait4(started.pid, 0)
        clock = time.monotonic() - start
    if status:
        sys.exit(f"compactions: {' '.join(words)} ended with {status}: {said[-200:]}")
    return said, used.ru_utime + used.ru_stime, clock, used.ru_maxrss / 1024


class Table:
    def __init__(self):
        self.rows = {}

    def note(self, row, seconds, clock, memory):
        self.rows.setdefault(row, []).append((seconds, clock, memory))

    def show(self, cells):
        for row, all_of in self.rows.items():
            used = [it[0] for it in all_of]
            print(
                f"| {cells:,} | {row} | {min(used):.2f} | {statistics.median(used):.2f} | {min(used) / cells * 1e6:.2f}"
                f" | {min(it[1] for it in all_of):.2f} | {max(it[2] for it in all_of):.0f} |"
            )


def of_hwal(table, name, program, made, work):
    """Notes an opening and a compaction, each of a copy of the store."""
    for row, words in ((f"{name}: recover", ["recover"]), (f"{name}: compact major", ["compact", "major", "1"])):
        shutil.rmtree(work, ignore_errors=True)
        shutil.copytree(made, work)
        said, *used = run([*FRONT, program, *words], work)
        table.note(row, *used)
    return re.search(r"compacted 1 (\d+) (\d+)", said).groups()


def measure(given, cells, folder):
    table, made, programs = Table(), f"{folder}/made", {"hwal": given.program}
    if given.former:
        programs["former hwal"] = os.path.abspath(given.former)
    os.makedirs(f"{made}/hwal-store")
    # The olds are the rows of the deletes: those of one file and 5 places before.
    each, rows, olds = cells // given.files, rows_of(cells), rows_of(cells)
    for file in range(given.files):
        write_script(f"{folder}/script", range(file * each, (file + 1) * each), each, rows, olds)
        if " flush ok " not in run([given.filler, "run"], made, f"{folder}/script")[0]:
            sys.exit("compactions: a flush was not made")
    # The logs go, so that only store files are opened from here on.
    run([given.filler, "recover"], made)
    rocks = f"{HERE}/bin/rocks_compact"
    for _ in range(given.rounds):
        kept = {of_hwal(table, name, program, made, f"{folder}/work") for name, program in programs.items()}
        if os.path.exists(rocks):
            shutil.rmtree(f"{folder}/rocks", ignore_errors=True)
            run([rocks, "fill", f"{folder}/rocks", str(cells), str(given.files)], folder)
            said = run([*FRONT, rocks, "compact", f"{folder}/rocks"], folder)[0]
            found = dict(re.findall(r"(\w+)=([\d.]+)", said))
            table.note("RocksDB: CompactRange", float(found["used"]), float(found["clock"]), float(found["memory"]))
            kept.add((found["before"], found["after"]))
        if len(kept) != 1:
            sys.exit(f"compactions: not the same cells: {kept}")
    table.show(cells)
    shutil.rmtree(made)


def main():
    took = argparse.ArgumentParser(description=__doc__, formatter_class=argparse.RawDescriptionHelpFormatter)
    took.add_argument("program")
    took.add_argument("--former")
    took.add_argument("--filler")
    took.add_argument("--cells", default="250000,500000,1000000")
    took.add_argument("--files", type=int, default=8)
    took.add_argument("--rounds", type=int, default=3)
    took.add_argument("--dir", default="/dev/shm")
    took.add_argument("--realtime", action="store_true")
    given = took.parse_args()
    given.program = os.path.abspath(given.program)
    given.filler = os.path.abspath(given.filler or given.program)
    print("| cells | | user and system seconds, best | median | microseconds a cell | clock, best | MiB at most |\n|---|---|---|---|---|---|---|")
    for cells in map(int, given.cells.split(",")):
        folder = tempfile.mkdtemp(prefix="compactions-", dir=given.dir)
        try:
            measure(given, cells, folder)
        finally:
            shutil.rmtree(folder, ignore_errors=True)


main()
