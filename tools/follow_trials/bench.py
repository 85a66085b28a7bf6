"""What a trial works with: a database, a store, the program and its followers."""
import os
import signal
import subprocess
import tempfile
import time

from follow_postgres.compare import dumped, first_difference, followed
from follow_postgres.psql import Lost, Psql
from follow_postgres.server import Server
from follow_postgres.store import Store

from .scripts import script

PATIENCE = 60


class Wrong(Exception):
    """A rule was broken."""


class Bench:
    """One database, and one store after the other that is followed into it."""

    def __init__(self, program, follower, folder, chance):
        self.program, self.path, self.folder, self.chance = program, follower, folder, chance
        self.server = Server(f"{folder}/database")
        self.server.start()
        self.stores, self.done, self.whole = 0, {}, 1.0
        self.followers = []

    # ---- the store

    def begin_store(self):
        self.stores += 1
        self.name = f"store {self.stores}"
        os.mkdir(f"{self.folder}/{self.stores}")
        self.store = Store(f"{self.folder}/{self.stores}", self.program)
        self.logs, self.copies, self.time = {}, 0, 1000

    def hwal(self, *words, given=b"", killed_after=None):
        """Runs the program; again, where the follower has the store just then. Returns its status."""
        for _ in range(1200):
            with tempfile.TemporaryFile() as script_file:
                script_file.write(given)
                script_file.seek(0)
                how = {"cwd": self.store.directory, "stdin": script_file, "stdout": subprocess.DEVNULL, "stderr": subprocess.PIPE}
                child = subprocess.Popen([self.program, *words], **how)
                try:
                    said = child.communicate(timeout=killed_after or 300)[1]
                except subprocess.TimeoutExpired:
                    child.kill()
                    child.communicate()
                    return -signal.SIGKILL
            if child.returncode != 5 or b"another program uses the store" not in said:
                return child.returncode
            time.sleep(0.05)
        raise Wrong(f"`hwal {' '.join(words)}` never got the store")

    def write(self, calls, killed_after=None):
        """Gives the store a script; it counts for nothing how much of it is done where the run is killed."""
        self.time += 1000
        status = self.hwal("run", given=script(self.chance, calls, self.time), killed_after=killed_after)
        if status != (-signal.SIGKILL if killed_after and status else 0):
            raise Wrong(f"run ended with {status}")

    def recover(self):
        if self.hwal("recover"):
            raise Wrong("the store doesn't open")

    def expected(self):
        """Returns the lines of all logs, those that were deleted too. An old log is dumped once."""
        for number, log in self.store.logs().items():
            if number not in self.logs or not log.old:
                self.logs[number] = dumped(self.store, number)
        return [line for number in sorted(self.logs) for line in self.logs[number]]

    # ---- the follower

    def follow(self, rounds=4000, recover=False, batch=1000, around=None):
        """Starts a follower, in this environment beside its own."""
        words = [self.path, "--store", self.store.directory, "--name", self.name, "--database", self.server.database(), "--batch", str(batch)]
        words += ["--every", "0.05", "--rounds", str(rounds)] + (["--recover"] if recover else [])
        said = open(f"{self.folder}/said", "ab")
        child = subprocess.Popen(words, env={**os.environ, "HWAL": self.program, **(around or {})}, stdin=subprocess.DEVNULL, stdout=said, stderr=said)
        self.followers.append(child)
        return child

    def end(self, child):
        """Kills a follower, where it still runs."""
        child.kill()
        child.wait()
        self.followers.remove(child)

    def finish(self, child, allowed):
        """Waits for a follower; it has to end with one of these statuses."""
        try:
            status = child.wait(PATIENCE * 5)
        except subprocess.TimeoutExpired:
            raise Wrong("a follower doesn't end") from None
        finally:
            self.end(child)
        if status not in allowed:
            raise Wrong(f"a follower ended with {status}, not with {allowed}")
        return status

    def take_all(self, recover=False):
        """Lets followers look until one has all."""
        for _ in range(PATIENCE):
            if self.finish(self.follow(rounds=1, recover=recover), (0, 5)) == 0:
                return
            time.sleep(0.2)
        raise Wrong("the follower never has all")

    # ---- the database

    def session(self):
        for _ in range(PATIENCE):
            try:
                return Psql(self.server.database())
            except Lost:
                time.sleep(0.2)
        raise Wrong("the database doesn't come back")

    def table(self):
        session = self.session()
        try:
            return followed(session, self.name)
        finally:
            session.close()

    def ask(self, query):
        session = self.session()
        try:
            return session.ask(query)
        finally:
            session.close()

    def compare(self):
        """The table is exactly what the logs have."""
        difference = first_difference(self.table(), self.expected())
        if difference:
            raise Wrong(difference)

    def keep_from(self):
        return int(self.ask(f"select coalesce(max(keep_from), 0) from hwal.lag where name = '{self.name}'")[0][0])

    def stop(self):
        for child in list(self.followers):
            self.end(child)
        self.server.stop()
