"""The record of a store in the database, and the entries that are taken with it."""
import os
import time
from collections import namedtuple

from .psql import quoted
from .rows import COLUMNS, digest, rows

SCHEMA = os.path.join(os.path.dirname(os.path.realpath(__file__)), "schema.sql")
# The advisory locks of followers have this number and that of their store.
FOLLOWERS = 1752654188
SEEN_SECONDS = 10

Last = namedtuple("Last", "file place digest")


class Taken(Exception):
    """Another follower has the store."""


class Records:
    """What a follower knows of its store in the database, read once it has the store's advisory lock. The lock ends with the session."""

    def __init__(self, session, name, begin):
        self.session = session
        # Only where it isn't there: whoever reads would keep it from being replaced.
        if session.ask("select to_regclass('hwal.lag') is null") == [["t"]]:
            with open(SCHEMA, "rb") as schema:
                session.send(schema.read())
            session.wait(session.mark())
        session.ask(f"insert into hwal.stores (name, file, entries) values ({quoted(name)}, 1, 0) on conflict do nothing")
        self.store = int(session.ask(f"select store from hwal.stores where name = {quoted(name)}")[0][0])
        if session.ask(f"select pg_try_advisory_lock({FOLLOWERS}, {self.store})") != [["t"]]:
            raise Taken()
        if begin:
            session.ask(f"update hwal.stores set file = {begin}, entries = 0 where store = {self.store} and last_file is null")
        kept = session.ask(f"select file, entries, last_file, last_place, encode(last_digest, 'hex') from hwal.stores where store = {self.store}")[0]
        self.position = int(kept[0]), int(kept[1])
        self.last = Last(int(kept[2]), int(kept[3]), kept[4]) if kept[2] else None
        self.numbers, self.seen = self.last_numbers(), (None, None, 0)

    def last_numbers(self):
        """Returns the last number of each region that has entries."""
        newest = f"(select max(number) from hwal.cells where store = {self.store} and region = r)"
        found = self.session.ask(f"select r, {newest} from generate_series(1, 64) r")
        return {int(region): int(number) for region, number in found if number}

    def move(self, position, last):
        """Moves the record in the open transaction and commits it. Returns the mark to wait for."""
        taken = f"{last.file}, {last.place}, '\\x{last.digest}'" if last else "null, null, null"
        words = f"{self.store}, {self.position[0]}, {self.position[1]}, {position[0]}, {position[1]}, {taken}"
        self.session.send(f"do $$ begin perform hwal.record({words}); end $$;\ncommit;\n".encode())
        self.position, self.last = position, last
        return self.session.mark()

    def pass_on(self, position):
        """Moves the record past logs in which no entry is left."""
        if position != self.position:
            self.session.send(b"begin;\n")
            self.session.wait(self.move(position, self.last))

    def see(self, behind, waits_for):
        """Says in the database what the follower saw; nothing, where it said the same a short time ago."""
        now = time.monotonic()
        if self.seen[:2] == (behind, waits_for) and now < self.seen[2] + SEEN_SECONDS:
            return
        self.seen = behind, waits_for, now
        complete = ", complete_at = now()" if behind == 0 and not waits_for else ""
        why = quoted(waits_for) if waits_for else "null"
        self.session.ask(f"update hwal.stores set looked_at = now(), entries_behind = {behind}, waits_for = {why}{complete} where store = {self.store}")


class Batch:
    """Entries on their way into the database. A transaction has so many of them, and the record after the last one. While the database
    ends a transaction the next one is sent."""

    def __init__(self, records, entries, most_bytes):
        self.records, self.most, self.most_bytes = records, entries, most_bytes
        self.bytes = self.count = self.taken = 0
        self.entry = self.mark = None

    def add(self, entry):
        """Takes an entry, and commits where the transaction is full."""
        if self.count == 0:
            self.records.session.send(f"begin;\ncopy hwal.cells ({COLUMNS}) from stdin;\n".encode())
        text = rows(b"%d" % self.records.store, entry)
        self.records.session.send(text)
        self.records.numbers[entry.region] = entry.number
        self.entry, self.count, self.bytes = entry, self.count + 1, self.bytes + len(text)
        if self.count >= self.most or self.bytes >= self.most_bytes:
            self.commit()

    def commit(self):
        """Commits what was added, with the record; waits until the transaction before this one is committed."""
        if self.count == 0:
            return
        self.records.session.send(b"\\.\n")
        last = Last(self.entry.file, self.entry.place, digest(self.entry))
        mark = self.records.move((self.entry.file, self.entry.place), last)
        self.settle()
        self.mark, self.taken = mark, self.taken + self.count
        self.count = self.bytes = 0

    def settle(self):
        """Waits until what was committed is."""
        if self.mark:
            self.records.session.wait(self.mark)
        self.mark = None

    def drop(self):
        """Leaves out what was added since the last commit."""
        if self.count:
            self.records.session.send(b"\\.\nrollback;\n")
            self.records.session.wait(self.records.session.mark())
        self.count = 0
