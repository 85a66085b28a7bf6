#!/usr/bin/env python3
"""Measures hwal by clock beside RocksDB, LevelDB and the C++ shape of its path, in rounds that alternate.

usage: bench/rounds.py PROGRAM [--former PROGRAM] [--groups PROGRAM] [--rounds N]
       [--parts puts,busy,scans,openings,loads,memory,groups] [--dir DISK] [--shm RAM] [--realtime]

PROGRAM is a built hwal (crates/hwal/out/hwal); --former is another one, which has rows of its own. The peers come from
bench/build.sh. DISK is a folder on a real disk (/var/tmp), RAM one in memory (/dev/shm). With 11 rounds it takes some six
minutes on four processors with nothing else to do; a busy machine shows its scheduler, unless each row runs with --realtime
(root; `chrt -r 10`). It prints tables.

--groups is a built hwal_groups (crates/hwal_groups/out/hwal_groups), which the part `groups` wants: 16 handlers over one folder
and over four folders of one disk, on DISK and in RAM, puts and commits a second. It is measured only where it is named.

Puts of hwal are told in two ways. "run" is the time of a whole `hwal run` less one with no puts, so the reading of the script
and the printing of the report are in it. "handlers" goes from the making of the log's file to its last write, as the file
system tells both (in ticks of up to 4 ms): the handlers' own work, which is what the peers' figures are. A scan's time goes in
the same way from a roll, which makes a log's file, to the put behind the scans: nothing is printed within it.
"""
import argparse
import ctypes
import os
import re
import shutil
import signal
import statistics
import struct
import subprocess
import sys
import tempfile
import time

HERE = os.path.dirname(os.path.realpath(__file__))
MASK = (1 << 64) - 1


def times_of(path):
    """Returns when a file was made and when it was written last, in seconds (statx, x86-64 Linux)."""
    got = ctypes.create_string_buffer(256)
    if ctypes.CDLL(None, use_errno=True).statx(-100, os.fsencode(path), 0, 0xFFF, got) != 0:
        sys.exit(f"rounds: statx of {path} failed")
    # struct statx: atime, btime, ctime, mtime at 64, 80, 96, 112
    made, written = (struct.unpack_from("qI", got.raw, at) for at in (80, 112))
    return made[0] + made[1] / 1e9, written[0] + written[1] / 1e9


def puts(handlers, regions, each, durability="sync"):
    """Returns a script of puts of one cell, of the load's generator, which the peers have too."""
    out = [f"time 1000\nregions {regions}\nhandlers {handlers}\n"]
    for handler in range(1, handlers + 1):
        x = handler - 1
        for call in range(1, each + 1):
            x = (6364136223846793005 * x + 1442695040888963407) & MASK
            row = "".join(f"%{b:02X}" for b in x.to_bytes(8, "big"))
            value = f"%{x & 255:02X}" * (1 + (x >> 60))
            out.append(f"put {handler} {1 + (x >> 33) % regions} {durability} 1\ncell {row} f q {call} put {value}\n")
    return "".join(out)


def filling(cells):
    """Returns one region's puts of so many cells, a thousand in each."""
    x, out = 0, []
    for first in range(0, cells, 1000):
        out.append("put 1 1 async 1000\n")
        for call in range(first, first + 1000):
            x = (6364136223846793005 * x + 1442695040888963407) & MASK
            row = "".join(f"%{b:02X}" for b in x.to_bytes(8, "big"))
            out.append(f"cell {row} f q {call} put v{x & 0xFFFFFF:08}\n")
    return "".join(out)


class Bench:
    def __init__(self, given):
        self.given, self.rows = given, {}
        self.front = ["chrt", "-r", "10"] if given.realtime else []
        self.disk, self.ram = tempfile.mkdtemp(prefix="rounds-", dir=given.dir), tempfile.mkdtemp(prefix="rounds-", dir=given.shm)
        self.programs = {"hwal": os.path.abspath(given.program)}
        if given.former:
            self.programs["former hwal"] = os.path.abspath(given.former)

    def note(self, table, row, value):
        self.rows.setdefault(table, {}).setdefault(row, []).append(value)

    def room(self, store=None):
        at = f"{self.disk}/room"
        shutil.rmtree(at, ignore_errors=True)
        os.makedirs(f"{at}/hwal-store")
        if store:
            shutil.copytree(store, f"{at}/hwal-store", dirs_exist_ok=True)
        return at

    def run(self, program, words, script="", at=None):
        """Runs hwal, and returns the seconds that it took and what it printed."""
        began = time.monotonic()
        ran = subprocess.run([*self.front, program, *words], cwd=at, input=script.encode(), capture_output=True, check=False)
        took = time.monotonic() - began
        if ran.returncode:
            sys.exit(f"rounds: {' '.join(words)} ended with {ran.returncode}: {ran.stdout[-200:]} {ran.stderr[-200:]}")
        return took, ran.stdout.decode()

    def peer(self, words, key="ops"):
        """Runs a peer in a fresh folder, and returns the figure that it tells."""
        at = f"{self.disk}/peer"
        shutil.rmtree(at, ignore_errors=True)
        ran = subprocess.run([*self.front, *[it.replace("@D", at) for it in words]], capture_output=True, text=True, check=False)
        shutil.rmtree(at, ignore_errors=True)
        found = re.search(rf"\b{key}=([\d.]+)", ran.stdout)
        return float(found[1]) if found else float("nan")

    def one_round(self, table, counts, secs):
        for protocol in ("one", "gate"):
            rate = self.peer([f"{HERE}/bin/fixed", f"{self.disk}/fixed", secs, "72", "1", protocol, "data", "grow"], "commits")
            self.note(table, f"the disk alone, {protocol}: commits", rate)
        for handlers, count in counts:
            who = f"{handlers} handlers" if handlers > 1 else "one handler"
            for peer, words in (("the shape in C++", ["hwalref"]), ("RocksDB", ["rocksdb"]), ("LevelDB", ["leveldb"])):
                if os.path.exists(f"{HERE}/bin/{words[0]}"):
                    self.note(table, f"{who}: {peer}", self.peer([f"{HERE}/bin/{words[0]}", "put", "@D", str(handlers), "4", secs]))
            for name, program in self.programs.items():
                script, empty = puts(handlers, 4, count // handlers), puts(handlers, 4, 0)
                none = self.run(program, ["run"], empty, self.room())[0]
                at = self.room()
                took = self.run(program, ["run"], script, at)[0] - none
                made, written = times_of(f"{at}/hwal-store/log-1")
                self.note(table, f"{who}: {name}, run", count / max(1e-9, took))
                self.note(table, f"{who}: {name}, handlers", count / max(1e-9, written - made))

    def puts(self):
        for _ in range(self.given.rounds):
            self.one_round("puts a second", [(1, 8_000), (4, 16_000), (16, 32_000)], "0.4")

    def busy(self):
        """The same with every processor kept busy by another program."""
        others = [subprocess.Popen([sys.executable, "-c", "while True: pass"]) for _ in range(os.cpu_count() or 4)]
        try:
            for _ in range(max(3, self.given.rounds // 2)):
                self.one_round("puts a second, every processor busy", [(1, 1_500), (4, 4_000), (16, 8_000)], "0.4")
        finally:
            for it in others:
                it.kill()

    def groups(self):
        """The same puts over one folder and over four, each with a log of its own; beside them hwal over its one folder."""
        if not self.given.groups:
            sys.exit("rounds: the part groups wants --groups PROGRAM")
        count, table = 32_000, "16 handlers, 8 regions: {} a second, {}"
        script = puts(16, 8, count // 16)
        rows = [("hwal, one folder", self.programs["hwal"], "run", ["hwal-store"])]
        for many in (1, 4):
            folders = [f"hwal-store-{k}" for k in range(1, many + 1)]
            rows.append((f"groups, {'four folders' if many == 4 else 'one folder'}", os.path.abspath(self.given.groups), str(many), folders))
        for _ in range(self.given.rounds):
            for where, within in (("on a disk", self.disk), ("in memory", self.ram)):
                for row, program, word, folders in rows:
                    took, commits = self.group_run(f"{within}/groups", program, word, folders, script)
                    self.note(table.format("puts", where), row, count / took)
                    self.note(table.format("commits", where), row, commits / took)
                    self.note(f"16 handlers, 8 regions: puts a commit, {where}", row, count / commits)

    def group_run(self, at, program, word, folders, script):
        """Runs a script in fresh folders, and returns the seconds from the making of the first log to the last write, and the commits."""
        shutil.rmtree(at, ignore_errors=True)
        for it in folders:
            os.makedirs(f"{at}/{it}")
        counted = {**os.environ, "LD_PRELOAD": f"{HERE}/bin/syncs.so", "SYNCS": f"{self.ram}/syncs"}
        if os.path.exists(counted["SYNCS"]):
            os.remove(counted["SYNCS"])
        ran = subprocess.run([*self.front, program, word], cwd=at, input=script.encode(), capture_output=True, check=False, env=counted)
        if ran.returncode:
            sys.exit(f"rounds: {program} {word} ended with {ran.returncode}: {ran.stdout[-200:]} {ran.stderr[-200:]}")
        times = [times_of(f"{at}/{it}/log-1") for it in folders if os.path.exists(f"{at}/{it}/log-1")]
        with open(counted["SYNCS"], "rb") as it:
            commits = struct.unpack("QQ", it.read(16))[0]
        return max(1e-9, max(it[1] for it in times) - min(it[0] for it in times)), max(1, commits)

    def scans(self):
        cells, count = 100_000, 20
        head = "time 1000\nregions 1\nhandlers 1\n"
        lone = "put 1 1 sync 1\ncell zz{0} f q 1 put v\n"
        behind = lone.format(1) + "roll 1\n" + "scan 1 1 - -\n" * count + lone.format(2)
        table = "cells a second of scans of 100,000 cells"
        for _ in range(max(3, self.given.rounds // 2)):
            for name, program in self.programs.items():
                # the puts of a run are its segments, and the next run's base
                at = self.room()
                self.run(program, ["run"], head + filling(cells) + behind, at)
                made, written = times_of(f"{at}/hwal-store/log-2")
                self.note(table, f"{name}: the same run put them", cells * count / (written - made))
                self.run(program, ["recover"], "", at)
                before = set(os.listdir(f"{at}/hwal-store"))
                self.run(program, ["run"], head + behind, at)
                last = max((it for it in set(os.listdir(f"{at}/hwal-store")) - before if it.startswith("log-")), key=lambda it: int(it[4:]))
                made, written = times_of(f"{at}/hwal-store/{last}")
                self.note(table, f"{name}: they are the base", cells * count / (written - made))
            for peer, word in (("RocksDB", "rocksdb"), ("LevelDB", "leveldb")):
                self.note(table, peer, self.peer([f"{HERE}/bin/{word}", "scan", "@D", str(cells)], "cells_per_s"))

    def openings(self):
        table = "cells a second of openings"
        count = 336_000
        # short lines, so that one script of at most 16 MiB has them all
        out = ["time 1000\nregions 4\nhandlers 1\n"]
        for call in range(count):
            place = (call * 2_654_435_761) % 9_999_991
            out.append(f"put 1 {1 + call % 4} async 1\ncell r{place:07} f q 1 put v\n")
        for name, program in self.programs.items():
            # each its own log: a former program may not read what a later one writes
            at = self.room()
            self.run(program, ["run"], "".join(out), at)
            shutil.copytree(f"{at}/hwal-store", f"{self.disk}/{name}")
        for peer in ("rocksdb", "leveldb"):
            subprocess.run([f"{HERE}/bin/{peer}", "fill", f"{self.disk}/{peer}", "26", "count", str(count)], capture_output=True, check=False)
        for _ in range(max(5, self.given.rounds // 2)):
            for name, program in self.programs.items():
                at = self.room(f"{self.disk}/{name}")
                took, said = self.run(program, ["recover"], "", at)
                cells = sum(int(it) for it in re.findall(r"recovered \d+ \d+ (\d+)", said))
                self.note(table, f"{name}, {cells:,} cells", cells / took)
            for peer, word in (("RocksDB", "rocksdb"), ("LevelDB", "leveldb")):
                shutil.rmtree(f"{self.disk}/peer", ignore_errors=True)
                shutil.copytree(f"{self.disk}/{word}", f"{self.disk}/peer")
                ran = subprocess.run([*self.front, f"{HERE}/bin/{word}", "recover", f"{self.disk}/peer"], capture_output=True, text=True, check=False)
                found = re.search(r"cells=(\d+).*cells_per_s=(\d+)", ran.stdout)
                if found:
                    self.note(table, f"{peer}, {int(found[1]):,} cells", float(found[2]))

    def loads(self):
        for each in (1_000, 4_000, 10_000):
            for name, program in self.programs.items():
                at = f"{self.ram}/load"
                shutil.rmtree(at, ignore_errors=True)
                os.makedirs(at)
                took, most = self.told(program, ["load", "--start", "1", "--handlers", "16", "--regions", "4", "--count", str(each)], "", at)
                self.note("loads of 16 handlers: seconds, and MiB at most", f"{name}, {each:,} calls each: seconds", took)
                self.note("loads of 16 handlers: seconds, and MiB at most", f"{name}, {each:,} calls each: MiB", most)

    def told(self, program, words, script, at):
        """Runs hwal in a process of its own, and returns the seconds and the most memory in MiB."""
        with open(f"{self.ram}/script", "w", encoding="utf-8") as it:
            it.write(script)
        code = (
            "import resource,subprocess,sys,time\nt=time.monotonic()\n"
            "r=subprocess.run(sys.argv[2:],stdin=open(sys.argv[1]),stdout=subprocess.DEVNULL)\n"
            "print(r.returncode,time.monotonic()-t,resource.getrusage(resource.RUSAGE_CHILDREN).ru_maxrss/1024)"
        )
        ran = subprocess.run([sys.executable, "-c", code, f"{self.ram}/script", *self.front, program, *words], cwd=at, capture_output=True, text=True, check=False)
        status, took, most = ran.stdout.split()
        if status != "0":
            sys.exit(f"rounds: {' '.join(words)} ended with {status}")
        return float(took), float(most)

    def memory(self):
        """A script of as many one-cell puts as 16 MiB hold, in a folder in memory."""
        lines, size, call = ["time 1000\nregions 4\nhandlers 1\n"], 30, 0
        while True:
            call += 1
            line = f"put 1 {1 + call % 4} async 1\ncell r{call * 7919 % 9999991:07} f q {call} put v{call % 100000:05}\n"
            if size + len(line) > 16_777_216:
                break
            lines.append(line)
            size += len(line)
        for name, program in self.programs.items():
            at = f"{self.ram}/memory"
            shutil.rmtree(at, ignore_errors=True)
            os.makedirs(at)
            took, most = self.told(program, ["run"], "".join(lines), at)
            self.note("a script of 16 MiB", f"{name}, {call - 1:,} puts: seconds", took)
            self.note("a script of 16 MiB", f"{name}, {call - 1:,} puts: MiB at most", most)

    def show(self):
        for table, rows in self.rows.items():
            print(f"\n| {table} | best | median | least |\n|---|---|---|---|")
            for row, values in rows.items():
                digits = 0 if max(values) > 1000 else 2
                print(f"| {row} | {max(values):,.{digits}f} | {statistics.median(values):,.{digits}f} | {min(values):,.{digits}f} |")
        sys.stdout.flush()


def main():
    parser = argparse.ArgumentParser(description=__doc__, formatter_class=argparse.RawDescriptionHelpFormatter)
    parser.add_argument("program")
    parser.add_argument("--former")
    parser.add_argument("--groups")
    parser.add_argument("--rounds", type=int, default=11)
    parser.add_argument("--parts", default="puts,busy,scans,openings,loads,memory")
    parser.add_argument("--dir", default="/var/tmp")
    parser.add_argument("--shm", default="/dev/shm")
    parser.add_argument("--realtime", action="store_true")
    bench = Bench(parser.parse_args())
    # so that a run that is ended shows what it has
    signal.signal(signal.SIGTERM, lambda *_: sys.exit(1))
    try:
        for part in bench.given.parts.split(","):
            getattr(bench, part)()
            print(f"{part}: done at {time.strftime('%H:%M:%S')}", file=sys.stderr)
    finally:
        bench.show()
        shutil.rmtree(bench.disk, ignore_errors=True)
        shutil.rmtree(bench.ram, ignore_errors=True)


main()
