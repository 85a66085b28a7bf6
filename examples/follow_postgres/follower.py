"""A follower's rounds: what it looks at, takes, waits for and refuses."""
import tempfile
import time
from dataclasses import dataclass
from typing import Optional

from .psql import Lost, Psql
from .records import Batch, Records, Taken
from .rows import digest
from .shipped import NotShipped, Reader

# A call of `ship` is ended once it has printed so much, and the next one goes on. A transaction ends with so much too.
SPOOL_BYTES, BATCH_BYTES = 256 << 20, 8 << 20
PUT_BACK = "the store was put back from an older copy, or is another one. Nothing was changed"


class Refused(Exception):
    """The follower can't go on by itself. It has a status as `hwal` has it."""

    def __init__(self, status, why):
        super().__init__(why)
        self.status = status


class Waits(Exception):
    """Something is to be waited for."""


@dataclass
class Settings:
    name: str
    begin: Optional[int]
    batch: int
    recover: bool


class Follower:
    """Follows a store into a database. A session lasts as long as its connection does; each begins by reading the record again."""

    def __init__(self, store, connect, settings, say):
        self.store, self.connect, self.settings, self.say = store, connect, settings, say
        self.records = self.known = self.waiting = None

    def open(self):
        """Begins a session where there is none."""
        if self.records:
            return
        session = Psql(self.connect())
        try:
            self.records = Records(session, self.settings.name, self.settings.begin)
        except Taken:
            session.close()
            raise Waits("another follower has this store") from None
        self.known = None
        self.say("the record is {} {}".format(*self.records.position))

    def close(self):
        if self.records:
            self.records.session.close()
        self.records = None

    def round(self):
        """Takes what is there. Returns whether it has all, and waits for nothing."""
        try:
            self.open()
            while self.look():
                pass
            self.records.see(0, None)
            return True
        except Waits as why:
            self.wait(why)
        except Lost as why:
            self.close()
            self.say(f"waits for the database: {why}")
        except Refused as why:
            self.behind(why)
            self.close()
            raise
        return False

    def wait(self, why):
        """Says what is waited for, and how far the database is behind."""
        behind = self.behind(why)
        self.say(f"waits: {why}" + ("" if behind is None else f"; {behind} entries behind"))

    def behind(self, why):
        """Returns how many entries the database is behind, and says there why; None without a session."""
        if not self.records:
            return None
        behind = self.store.behind(self.records.position)
        try:
            self.records.see(behind, str(why))
        except Lost:
            self.close()
        return behind

    def look(self):
        """Ships what is new, and takes it. Returns whether more is there."""
        if self.known != self.store.looks(self.store.logs()):
            with tempfile.TemporaryFile(prefix="hwal-ship-") as spool:
                logs, start, status = self.ship(spool)
                if self.waiting and self.settings.recover:
                    self.recover()
                    return True
                spool.seek(0)
                self.take(Reader(spool), start, status)
            if status is None:
                return True
            self.known = self.store.looks(logs)
        if self.waiting:
            raise Waits(f"log {self.waiting} waits for the store to be opened, by `hwal recover`, a `run` or --recover")
        return False

    def ship(self, spool):
        """Ships what is new into a file, under one hold of the store's lock; nothing where the store is to be opened first. Returns the
        logs, where it began, and the call's status."""
        with self.store.shared() as free:
            if not free:
                raise Waits("a program has the store")
            logs = self.store.logs()
            self.waiting = self.open_log(logs)
            if self.waiting and self.settings.recover:
                return logs, None, None
            start = self.start(logs)
            return logs, start, self.store.ship(start, spool, SPOOL_BYTES)

    def open_log(self, logs):
        """Returns the number of the log that no opening has made an old one, where it has entries: the highest one. A program that was
        killed may have left entries in it that a loss of power would take away. All other logs are durable."""
        highest = max(logs, default=0)
        if highest and not logs[highest].old and self.store.entries_of(highest, logs[highest].path):
            return highest
        return None

    def recover(self):
        """Opens the store."""
        status, line = self.store.recover()
        if status in (1, 5, 6):
            raise Waits(f"`hwal recover` ended with {status}")
        if status:
            raise Refused(status, f"`hwal recover` ended with {status}: {line}")
        self.say("opened the store")

    def start(self, logs):
        """Returns the position to ship from: in front of the entry that was taken last, so that it can be looked at again; where its
        log was deleted with nothing left to take in it, the record."""
        last, position = self.records.last, self.records.position
        if not last:
            return position
        if last.file in logs:
            return last.file, last.place - 1
        if not logs:
            raise Waits("no log is there")
        if max(logs) < last.file:
            raise Refused(10, f"log {last.file}, which was taken, isn't there, and none above it: {PUT_BACK}")
        if position[0] == last.file:
            raise Refused(10, f"log {last.file} was deleted before all of it was known to be taken. Nothing was changed")
        return position

    def take(self, shipped, start, status):
        """Takes the entries that were shipped, but for those of the log that waits to be opened."""
        entries = iter(shipped)
        try:
            if start != self.records.position:
                self.compare(next(entries, None), shipped)
            self.copy(entries)
        except (NotShipped, KeyError, IndexError, ValueError) as why:
            raise Refused(6, f"`hwal ship` ended with {status}, and printed what it never prints: {why}") from None
        if status == 0:
            # All lower logs are taken, and of the one that waits nothing.
            end = (self.waiting, 0) if self.waiting else shipped.position
            self.records.pass_on(max(self.records.position, end))
        elif status in (7, 10):
            words = f"`hwal ship` refused {' '.join(shipped.refusal or [])}"
            why = PUT_BACK if self.records.last else "--from says with which log to begin"
            raise Refused(status, f"{words}: {why}" if status == 10 else words)
        elif status is not None:
            raise Waits(f"`hwal ship` ended with {status}")

    def compare(self, entry, shipped):
        """The entry that was taken last must be there, as it was."""
        last = self.records.last
        if entry is None and shipped.position is None and (shipped.refusal or ["disk"])[0] != "position":
            return
        if entry is None or (entry.file, entry.place) != (last.file, last.place):
            raise Refused(10, f"entry {last.place} of log {last.file}, which was taken, isn't there: {PUT_BACK}")
        if digest(entry) != last.digest:
            raise Refused(10, f"entry {last.place} of log {last.file} isn't the one that was taken: {PUT_BACK}")

    def copy(self, entries):
        """Takes entries into the database."""
        batch, told = Batch(self.records, self.settings.batch, BATCH_BYTES), time.monotonic()
        try:
            for entry in entries:
                if self.waiting and entry.file >= self.waiting:
                    break
                self.check(entry)
                batch.add(entry)
                if batch.count == 0 and time.monotonic() - told > 1:
                    told = time.monotonic()
                    self.say(f"{batch.taken} entries taken")
        except (Refused, NotShipped):
            batch.drop()
            raise
        batch.commit()
        batch.settle()
        if batch.taken:
            self.say("{} entries taken, the record is {} {}".format(batch.taken, *self.records.position))

    def check(self, entry):
        """A region's numbers follow one another in its store's logs. Where they don't, entries are missing or come twice."""
        last = self.records.numbers.get(entry.region)
        if last is not None and entry.number != last + 1:
            where = f"entry {entry.place} of log {entry.file} is number {entry.number} of region {entry.region}, after number {last}"
            raise Refused(10, f"{where}: {PUT_BACK}")
