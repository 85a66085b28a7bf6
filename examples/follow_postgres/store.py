"""A store's folder as its follower sees it: the lock, the logs, and the calls of the program."""
import contextlib
import fcntl
import os
import re
import struct
import subprocess
from collections import namedtuple

NAME = re.compile(r"(log|old)-([1-9][0-9]*)")
HEADER, OPEN, ENTRIES = 16, 0xA5, (1, 3)

# A log's file: whether it is an old one, and its path.
Log = namedtuple("Log", "old path")


class Store:
    """The store in the folder `hwal-store` of a working directory."""

    def __init__(self, directory, hwal):
        self.directory, self.hwal = os.path.realpath(directory), os.path.realpath(hwal)
        self.folder = os.path.join(self.directory, "hwal-store")
        # of each log that was counted, by number and inode: the place of its next gate, and how many entries stand in front of that
        self.counted = {}

    @contextlib.contextmanager
    def shared(self):
        """Shares the store's lock with other readers, so that no program writes meanwhile. Gives False where one has it already."""
        try:
            folder = os.open(self.folder, os.O_RDONLY | os.O_DIRECTORY)
        except (FileNotFoundError, NotADirectoryError):
            yield True
            return
        try:
            try:
                fcntl.flock(folder, fcntl.LOCK_SH | fcntl.LOCK_NB)
            except BlockingIOError:
                yield False
                return
            yield True
        finally:
            os.close(folder)

    def logs(self):
        """Returns the logs by number. Of a number that a log and an old log have, the log counts."""
        found = {}
        try:
            names = os.listdir(self.folder)
        except (FileNotFoundError, NotADirectoryError):
            return found
        for name in names:
            match = NAME.fullmatch(name)
            path = os.path.join(self.folder, name)
            if match and os.path.isfile(path) and not (match[1] == "old" and int(match[2]) in found):
                found[int(match[2])] = Log(match[1] == "old", path)
        return dict(sorted(found.items()))

    def looks(self, logs):
        """Returns what tells whether any log has changed."""
        try:
            stats = [os.stat(log.path) for log in logs.values()]
        except FileNotFoundError:
            return None
        return [(number, log.old, it.st_ino, it.st_size, it.st_mtime_ns) for (number, log), it in zip(logs.items(), stats)]

    def entries_of(self, number, path):
        """Counts the entries of a log by its gates and lengths, from where it was counted before. It needs no lock: of a log that is
        written it tells what was committed so far."""
        try:
            with open(path, "rb") as log:
                key = number, os.fstat(log.fileno()).st_ino
                gate, entries = self.counted.get(key, (HEADER, 0))
                log.seek(gate)
                while len(front := log.read(6)) == 6 and front[0] == OPEN and front[1] in ENTRIES:
                    gate, entries = gate + 6 + struct.unpack(">I", front[2:])[0], entries + 1
                    log.seek(gate)
        except FileNotFoundError:
            return 0
        self.counted[key] = gate, entries
        return entries

    def behind(self, position):
        """Counts the entries that stand behind a position, as the logs are now."""
        file, entries = position
        counts = {number: self.entries_of(number, log.path) for number, log in self.logs().items() if number >= file}
        return max(sum(counts.values()) - entries, 0)

    def ship(self, position, spool, most):
        """Puts what `ship` prints into a file, so that the store is locked no longer than that takes. After so many bytes the call is
        ended. Returns its status, or None where it was ended."""
        words = [self.hwal, "ship", str(position[0]), str(position[1])]
        child = subprocess.Popen(words, cwd=self.directory, stdin=subprocess.DEVNULL, stdout=subprocess.PIPE)
        try:
            while piece := child.stdout.read1(1 << 20):
                spool.write(piece)
                if spool.tell() >= most:
                    return None
            return child.wait()
        finally:
            child.kill()
            child.stdout.close()
            child.wait()

    def recover(self):
        """Opens the store; returns the status and the last line."""
        ran = subprocess.run([self.hwal, "recover"], cwd=self.directory, stdin=subprocess.DEVNULL, capture_output=True)
        return ran.returncode, (ran.stdout.decode().splitlines() or [""])[-1]
