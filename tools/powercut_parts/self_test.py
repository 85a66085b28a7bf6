"""The trial with syncs left out: it has to find what they guard."""
import plans
import side_by_side
from trial import Depth

# What is left out, in which session, what has to be found there, and on which file systems it may be: ext4 writes a file out
# before it is renamed over another one, synced or not.
ALL = ("ext4", "xfs", "btrfs")
LEFT_OUT = [("writes", "one", "lost", ALL), ("files", "one", "lost", ALL), ("copies", "fail-first", "lost", ("xfs",)), ("folders", "hand", "rules", ALL)]
DEPTH = Depth(moments=60)


def tried(given, way, room):
    """Returns 0 where each was found, and 1 where one wasn't."""
    items = [(kind, *it) for *it, kinds in LEFT_OUT for kind in given.fs if kind in kinds]
    def work(item, at):
        kind, skip, session, _ = item
        return plans.Plan(way._replace(skip=skip), DEPTH, kind, session, given.seed).tried(at)
    missed = 0
    for (kind, skip, session, what), answer, trouble in side_by_side.each(work, items, given.jobs, room):
        found = trouble or sum(count.faults()[what] for _, count in answer)
        cuts = sum(count.numbers["cuts"] for _, count in answer or [])
        missed += not (isinstance(found, int) and found)
        print(f"{kind} {session}, without {skip}: {what} {found} in {cuts} cuts", flush=True)
    print(f"powercuts: self-test FAILED: {missed} not found" if missed else "powercuts: self-test ok: each was found")
    return 1 if missed else 0
