#!/usr/bin/env python3
"""What a store costs by how many cells it holds: bytes on the disk, time and memory of its openings.

usage: bench/scale.py PROGRAM CELLS..

For each number of cells it writes logs as docs/FORMAT.md has them (one region, one cell an entry, rows of 8 digits in no order, values of
8 bytes, a million entries a log), and gives `recover` twice, which writes the store files first and then reads them, and `run` of one
put. Times are those of the clock and of user and system together; memory is the most that the system counts of the process.
"""
import os
import random
import resource
import struct
import subprocess
import sys
import tempfile
import time

LOG_ENTRIES = 1_000_000
PUT = b"time 1\nregions 1\nhandlers 1\nput 1 1 sync 1\ncell row f q now put v\n"


def write_log(path, number, entries, chance):
    """Writes a log of so many entries, which go on from those of the logs below."""
    first = (number - 1) * LOG_ENTRIES + 1
    with open(path, "wb") as log:
        log.write(b"HWL1" + struct.pack(">IQ", 2, number))
        for sequence in range(first, first + entries):
            row, value = b"%08d" % chance.randrange(10**8), b"%08x" % chance.getrandbits(32)
            cell = struct.pack(">IIH", 22, 8, 8) + row + b"\x01fq" + struct.pack(">QB", 1000, 4) + value
            body = struct.pack(">IQQI", 1, sequence, 1000, 1) + cell
            log.write(b"\xa5\x01" + struct.pack(">I", len(body)) + body)
        log.write(b"\x00")


def measured(program, folder, *words, given=b""):
    """Runs the program in a process that is measured alone; returns seconds by the clock, of the processor, and the most KiB."""
    reading, writing = os.pipe()
    child = os.fork()
    if child == 0:
        began = time.monotonic()
        ran = subprocess.run([program, *words], cwd=folder, input=given, capture_output=True, check=False)
        used = resource.getrusage(resource.RUSAGE_CHILDREN)
        took = time.monotonic() - began
        os.write(writing, f"{ran.returncode} {took} {used.ru_utime + used.ru_stime} {used.ru_maxrss}".encode())
        os._exit(0)
    os.close(writing)
    os.waitpid(child, 0)
    status, *figures = os.read(reading, 200).decode().split()
    os.close(reading)
    if status != "0":
        sys.exit(f"{' '.join(words)} ended with {status}")
    return [float(figure) for figure in figures]


def size_of(folder):
    return sum(entry.stat().st_size for entry in os.scandir(folder) if not entry.name.startswith("old-"))


def main():
    if len(sys.argv) < 3 or not all(word.isdigit() for word in sys.argv[2:]):
        print(__doc__.strip())
        return 2
    program = os.path.realpath(sys.argv[1])
    print("       cells                       bytes a cell   seconds     user   memory MiB   bytes of memory a cell")
    for cells in map(int, sys.argv[2:]):
        with tempfile.TemporaryDirectory(prefix="hwal-scale-") as folder:
            store = f"{folder}/hwal-store"
            os.mkdir(store)
            for number, first in enumerate(range(0, cells, LOG_ENTRIES), 1):
                write_log(f"{store}/log-{number}", number, min(LOG_ENTRIES, cells - first), random.Random(number))
            for what, words, given in (("recover, of logs", ["recover"], b""), ("recover, of stores", ["recover"], b""), ("run of one put", ["run"], PUT)):
                before = size_of(store)
                took, used, most = measured(program, folder, *words, given=given)
                print(f"{cells:12,}  {what:24} {before / cells:12.1f} {took:9.2f} {used:8.2f} {most / 1024:12.0f} {most * 1024 / cells:14.0f}", flush=True)
    return 0


if __name__ == "__main__":
    sys.exit(main())
