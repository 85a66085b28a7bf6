"""How fast a follower is, beside COPY of the same lines."""
import time

from follow_postgres.rows import COLUMNS

from .bench import Wrong

SCRIPT_PUTS = 200_000


def timed(work):
    began = time.monotonic()
    work()
    return time.monotonic() - began


def write_store(trial, entries):
    """Writes so many entries of one cell each."""
    trial.begin_store()
    for first in range(0, entries, SCRIPT_PUTS):
        lines = ["time 1700000000000", "regions 4", "handlers 1"]
        for put in range(first, min(first + SCRIPT_PUTS, entries)):
            lines += [f"put 1 {1 + put % 4} async 1", f"cell {trial.chance.randrange(10**8):08d} f q now put value{put}"]
        if trial.hwal("run", given="\n".join(lines).encode() + b"\n"):
            raise Wrong("the store can't be written")
    trial.recover()


def speed(trial, entries):
    """Follows so many entries, and copies the same lines, in turn; prints both figures."""
    write_store(trial, entries)
    lines = f"{trial.folder}/lines"
    follows, copies = [], []
    for number in range(3):
        trial.name = f"speed {number}"
        follows.append(timed(lambda: trial.finish(trial.follow(rounds=1, batch=4096), (0,))))
        session = trial.session()
        session.ask("create table if not exists hwal.copied (like hwal.cells including all)")
        session.ask("truncate hwal.copied")
        where = f"store = (select store from hwal.stores where name = '{trial.name}') order by file, place, item"
        session.ask(f"\\copy (select {COLUMNS} from hwal.cells where {where}) to '{lines}'\nselect 1")
        copies.append(timed(lambda: session.ask(f"\\copy hwal.copied ({COLUMNS}) from '{lines}'\nselect 1")))
        session.close()
    print(f"entries of one cell: {entries}, a second:          best   median")
    for what, times in (("the follower, from its start to its end", follows), ("COPY of the same lines, one transaction", copies)):
        print(f"{what:40} {entries / min(times):12,.0f} {entries / sorted(times)[1]:8,.0f}")
