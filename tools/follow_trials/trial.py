"""What happens to a follower, its database and its store, one thing a round."""
import os
import shutil
import signal
import time

from follow_postgres.compare import first_difference

from .bench import Bench, Wrong

ROUNDS_OF_A_STORE = 25


class Trial(Bench):
    """Rounds; each ends with the table compared with the logs."""

    def sometime(self):
        time.sleep(self.chance.random() * self.whole)

    def quiet(self):
        began = time.monotonic()
        self.write(3000)
        self.take_all(recover=True)
        self.whole = 1.2 * (time.monotonic() - began)

    def follower(self):
        self.write(3000)
        self.recover()
        child = self.follow()
        self.sometime()
        self.end(child)

    def commit(self):
        self.write(3000)
        self.recover()
        killing = os.path.join(os.path.dirname(os.path.realpath(__file__)), "killing")
        at, when = self.chance.randint(1, 3), self.chance.choice(["before", "after"])
        around = {"PATH": f"{killing}:{os.environ['PATH']}", "REAL_PSQL": shutil.which("psql"), "KILL_AT": str(at), "KILL_WHEN": when}
        self.finish(self.follow(rounds=20, around=around), (0, -signal.SIGKILL))

    def database(self):
        self.write(3000)
        self.recover()
        child = self.follow()
        self.sometime()
        self.server.stop("immediate")
        self.server.start()
        self.sometime()
        self.end(child)

    def store_killed(self):
        recover = self.done.get("store_killed", 0) % 2 == 1
        child = self.follow(recover=recover)
        self.write(1000)
        self.write(3000, killed_after=0.02 + self.chance.random() * self.whole / 2)
        self.sometime()
        self.end(child)
        if recover:
            self.take_all(recover=True)
            return
        logs = self.store.logs()
        self.finish(self.follow(rounds=2), (0, 5))
        if not logs[max(logs)].old:
            self.untaken(max(logs))

    def untaken(self, log):
        count = self.ask(f"select count(*) from hwal.cells join hwal.stores s using (store) where s.name = '{self.name}' and cells.file >= {log}")
        if count != [["0"]]:
            raise Wrong(f"{count[0][0]} cells were taken of log {log}, which was not opened")

    def deleted(self):
        self.expected()
        for number, log in self.store.logs().items():
            if log.old and number < self.keep_from():
                os.remove(log.path)
        self.write(1500)
        child = self.follow(recover=True)
        self.sometime()
        self.end(child)

    def put_back(self):
        grown = self.chance.randrange(3)
        folder, kept = self.store.folder, f"{self.store.folder}-copy"
        shutil.copytree(folder, kept)
        self.write(2500)
        self.take_all(recover=True)
        before = self.table()
        os.rename(folder, f"{folder}-now")
        os.rename(kept, folder)
        for _ in range(grown):
            self.write(3000)
            self.recover()
        self.finish(self.follow(rounds=1), (10,))
        self.finish(self.follow(rounds=1, recover=True), (10,))
        difference = first_difference(self.table(), before)
        if difference:
            raise Wrong(f"a store that was put back changed the table: {difference}")
        shutil.rmtree(folder)
        os.rename(f"{folder}-now", folder)

    def two(self):
        self.write(3000)
        self.recover()
        one, other = self.follow(), self.follow()
        self.sometime()
        self.end(self.chance.choice([one, other]))
        self.write(1000)
        self.recover()
        self.sometime()
        self.end(other if other in self.followers else one)

    def all(self):
        self.write(1500)
        child = self.follow(recover=True)
        self.write(3000, killed_after=0.02 + self.chance.random() * self.whole / 2)
        self.server.stop("immediate")
        self.end(child)
        self.server.start()

    def round(self, number):
        """One round; returns what happened, and how many cells the table has of the store."""
        if number % ROUNDS_OF_A_STORE == 0:
            self.begin_store()
            self.write(500)
            self.take_all(recover=True)
        things = [self.quiet, self.follower, self.commit, self.database, self.store_killed, self.deleted, self.put_back, self.two, self.all]
        happens = things[number % len(things)]
        happens()
        self.recover()
        self.take_all()
        self.compare()
        name = happens.__name__
        self.done[name] = self.done.get(name, 0) + 1
        return name
