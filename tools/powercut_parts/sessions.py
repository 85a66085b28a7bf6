"""What is recorded: lists of steps, each a command of the program or something that happens around it."""
from typing import Any, NamedTuple

from scripts import large, puts, script, turns


class Step(NamedTuple):
    """`hwal` is a command that has to end well, and `any` one that may fail; `killed` kills a run after so many records;
    `pause` lets the system's own timers write; `folder` makes a folder and syncs nothing; `fill` leaves so many bytes free,
    and `free` makes room again. `fails` names the sync of a command during which a write fails, and its number."""

    what: str
    words: Any
    given: bytes = b""
    fails: str = ""


def command(*words, given=b"", what="hwal", fails=""):
    return Step(what, list(words), given, fails)


def run(*a, **k):
    return command("run", given=script(*a, **k))


def killed(records, *a):
    return Step("killed", records, script(*a))


def tried(seed):
    """A run that may find no room, and an opening after it."""
    return [command("run", given=script(seed, 2, 4, 20, big=0.4), what="any"), command("recover", what="any")]


def life(seed):
    """Runs, kills, openings, deletes, compactions."""
    first = [run(seed, 3, 2, 12), Step("pause", 6), killed(60, seed + 1, 3, 4, 30), command("recover"), run(seed + 2, 3, 2, 10, deletes=0.3)]
    compacted = [command("compact", "minor", "1"), command("compact", "major", "2")]
    return first + compacted + [killed(150, seed + 3, 3, 4, 30), run(seed + 4, 3, 3, 8), command("compact", "major", "1")]


def again(seed):
    """What goes on with a store on a file system that was cut."""
    return [command("recover"), run(seed + 7, 3, 3, 8, flush=0.1, roll=0.1)]


def load(seed):
    return [command("load", "--start", str(seed), "--handlers", "3", "--regions", "3", "--count", "40")]


def groups(seed):
    return [command("groups", "3", given=script(seed, 6, 6, 10)), command("groups", "3", given=script(seed + 1, 6, 3, 6))]


def born(seed):
    """Killed while the folder and its first files are made."""
    return [killed(1, seed, 2, 2, 9), killed(3, seed + 1, 2, 2, 9), killed(6, seed + 2, 2, 2, 9), run(seed + 3, 2, 2, 5)]


def full(seed):
    """No room left: calls that fail."""
    return [run(seed, 2, 2, 8), Step("fill", 400000), *tried(seed + 1), *tried(seed + 2), Step("free", None), command("recover"), run(seed + 3, 2, 2, 8)]


# The sessions in which nothing fails but for want of room: their steps by a seed.
SESSIONS = {
    "log": lambda seed: [command("log", given=puts(seed, 30)), Step("pause", 6)],
    "one": lambda seed: [run(seed, 2, 1, 40), run(seed + 1, 2, 1, 15)],
    "four": lambda seed: [run(seed, 3, 4, 14)],
    "sixteen": lambda seed: [run(seed, 6, 16, 6, flush=0.04, roll=0.04)],
    "small": lambda seed: [run(seed, 2, 4, 20, big=0)],
    "load": load,
    "life": life,
    "groups": groups,
    "large": lambda seed: [command("run", given=large(seed, 2, 3, 3)), command("recover")],
    "born": born,
    "hand": lambda seed: [Step("folder", "hwal-store"), command("log", given=puts(seed, 10)), command("recover")],
    "full": full,
}


def before(seed):
    return command("run", given=turns(seed))


def later(seed):
    return command("run", given=turns(seed + 1))


# The sessions in which a sync fails: what is done before, and the command whose syncs fail, one each time.
FAILING = {
    "fail-log": lambda seed: ([], command("log", given=puts(seed, 6))),
    "fail-first": lambda seed: ([], before(seed)),
    "fail-run": lambda seed: ([before(seed)], later(seed)),
    "fail-recover": lambda seed: ([before(seed)], command("recover")),
    "fail-minor": lambda seed: ([before(seed), later(seed)], command("compact", "minor", "1")),
    "fail-major": lambda seed: ([before(seed), later(seed)], command("compact", "major", "1")),
    "fail-twice": lambda seed: ([before(seed)], later(seed)),
}

NAMES = [*SESSIONS, *FAILING]
