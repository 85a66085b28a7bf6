"""The table that is printed."""
from trial import FAULTS, Count

COLUMNS = [*Count.NUMBERS[1:], *FAULTS, "wrong", "seconds"]
WIDTHS = [max(6, len(it) + 1) for it in COLUMNS]
SHOWN = 6


def row(title, values):
    return f"{title:32}" + "".join(f"{value:>{width}}" for value, width in zip(values, WIDTHS))


def head():
    return row("", COLUMNS)


def line(title, count, seconds):
    numbers = [count.numbers[it] for it in Count.NUMBERS[1:]]
    return row(title, [*numbers, *count.faults().values(), len(count.wrong), f"{seconds:.0f}"])


def wrong(count):
    """Returns lines of what was wrong first."""
    out = []
    for it in count.wrong[:SHOWN]:
        fails = f"sync {it['fails']} fails, " if "fails" in it else ""
        place = f"after {it['moment']} of {it['of']} records, choice {it['choice']} ({it['what']}, {it['chosen']} of {it['loose']})"
        out.append(f"    {fails}{place}: {it['wrong'][:200]}")
    return out


def sums(done):
    """Returns the lines of the sums by file system, and in all; `done` is a list of (kind, count, seconds)."""
    out = []
    for kind in [*dict.fromkeys(it[0] for it in done), "all"]:
        whole, seconds = Count(), 0
        for other, count, took in done:
            if kind in ("all", other):
                whole.add(count)
                seconds += took
        out.append(line(f"{kind}: {whole.numbers['recordings']} recordings", whole, seconds))
    return out
