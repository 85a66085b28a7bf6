"""Shows a follower at work: a database, two stores, and kills of all three."""
import os
import random
import shutil
import signal
import subprocess
import tempfile
import time

from .compare import dumped, first_difference, followed
from .psql import Lost, Psql
from .server import NoServer, Server
from .store import Store

PUTS, HANDLERS, REGIONS, PATIENCE = 480, 4, 3, 50


def say(line):
    print(f"demo: {line}", flush=True)


def script(number, chance):
    """Returns a script of puts, and of some deletes, over few rows."""
    lines = [f"time {1000 * number}", f"regions {REGIONS}", f"handlers {HANDLERS}"]
    for call in range(PUTS):
        kind, value = ("put", f"{number}.{call}") if chance.random() < 0.9 else ("delete-column", "-")
        lines += [f"put {1 + call % HANDLERS} {chance.randint(1, REGIONS)} sync 1", f"cell row{chance.randrange(40)} f q now {kind} {value}"]
    return "\n".join(lines).encode() + b"\n"


class Demo:
    """Works in a folder that goes afterwards."""

    def __init__(self, here):
        self.follower, self.chance, self.running = os.path.join(here, "follow-postgres"), random.Random(1), {}
        self.hwal = os.environ.get("HWAL", os.path.join(here, "..", "hwal"))

    def run(self):
        """Returns the status."""
        folder = tempfile.mkdtemp(prefix="hwal-demo-")
        os.chmod(folder, 0o755)
        try:
            self.server = Server(f"{folder}/database")
            say(f"a database of its own in {self.server.folder}, with its socket there")
            self.server.start()
        except NoServer as why:
            say(str(why))
            shutil.rmtree(folder)
            return 1
        try:
            self.stores = {name: Store(f"{folder}/{name}", self.hwal) for name in ("orders", "users")}
            return self.show()
        finally:
            for child in self.running.values():
                child.kill()
            self.server.stop()
            shutil.rmtree(folder, ignore_errors=True)

    def show(self):
        for name, store in self.stores.items():
            os.mkdir(store.directory)
            if store.recover()[0]:
                say(f"{store.hwal} doesn't run")
                return 1
            self.follow(name)
        for name in self.stores:
            self.write(name, 1)
        if self.compare():
            return 1
        for name in self.stores:
            self.write(name, 2)
        self.kill_run("orders", 3)
        say("kills both followers, stops the database as if it were killed, and starts all again")
        for child in self.running.values():
            child.kill()
        self.server.stop("immediate")
        self.server.start()
        for name in self.stores:
            self.follow(name)
        self.write("users", 4)
        status = self.compare()
        self.show_views()
        return status

    def follow(self, name):
        """Starts a follower, in place of the one before it."""
        words = [self.follower, "--store", self.stores[name].directory, "--name", name, "--database", self.server.database(), "--recover"]
        self.running[name] = subprocess.Popen(words + ["--every", "0.2"])

    def write(self, name, number):
        """Runs a script on a store; again, where the follower has the store just then."""
        for _ in range(PATIENCE):
            child = self.start_run(name, number)
            said = child.communicate()[1]
            if child.returncode == 0:
                say(f"{PUTS} puts into `{name}`")
                return
            time.sleep(0.2)
        say(f"`run` on `{name}` ended with {child.returncode}: {said.decode()}")

    def start_run(self, name, number):
        given = tempfile.TemporaryFile()
        given.write(script(number, self.chance))
        given.seek(0)
        how = {"cwd": self.stores[name].directory, "stdin": given, "stdout": subprocess.DEVNULL, "stderr": subprocess.PIPE}
        return subprocess.Popen([self.hwal, "run"], start_new_session=True, **how)

    def kill_run(self, name, number):
        """Kills a run once some of its puts are in the log."""
        store = self.stores[name]
        for _ in range(PATIENCE):
            before = store.behind((1, 0))
            child = self.start_run(name, number)
            while child.poll() is None and store.behind((1, 0)) < before + PUTS // 4:
                time.sleep(0.001)
            if child.poll() is None:
                os.killpg(child.pid, signal.SIGKILL)
            child.communicate()
            if child.returncode == -signal.SIGKILL:
                say(f"a run of `{name}` was killed after {store.behind((1, 0)) - before} puts")
                return
            time.sleep(0.2)

    def session(self):
        for _ in range(PATIENCE):
            try:
                return Psql(self.server.database())
            except Lost:
                time.sleep(0.2)
        raise Lost("the database doesn't come back")

    def compare(self):
        """Waits until the followers have all; returns whether something differs."""
        status = 0
        for name, store in self.stores.items():
            for _ in range(PATIENCE):
                want = [line for number in store.logs() for line in dumped(store, number)]
                have = self.table(name)
                if have == want:
                    break
                time.sleep(0.5)
            difference = first_difference(have, want)
            status = 1 if difference else status
            say(f"`{name}`: {len(want)} cells in its logs, {len(have)} in the database; {difference or '0 differences'}")
        return status

    def table(self, name):
        """Returns what the database has of a store; nothing, where its follower has not begun."""
        session = self.session()
        try:
            return followed(session, name)
        except Lost:
            return []
        finally:
            session.close()

    def show_views(self):
        fields = """region, encode("row", 'escape'), encode(family, 'escape'), encode(qualifier, 'escape'), ts, encode(value, 'escape')"""
        queries = [
            ("hwal.lag", "select name, file, entries, entries_behind, coalesce(waits_for, '-'), keep_from from hwal.lag order by name"),
            ("hwal.newest of `orders`, deletes masked", f"""select {fields} from hwal.newest where name = 'orders' order by region, "row" limit 5"""),
        ]
        session = self.session()
        for what, query in queries:
            say(what)
            for row in session.ask(query):
                print("  " + "  ".join(row))
        session.close()
