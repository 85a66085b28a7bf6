"""Which moments of a recording are tried, and which of its loose writes an image has."""
import images


def is_edge(records, at):
    """Whether a flush comes next, or nothing."""
    return at == len(records) or records[at][0] == images.FLUSH


def moments_of(records, start, end, most, chance):
    """Returns which moments are tried, as counts of records: mostly those before and after a flush, few after the last command, and
    always the one at which it has ended."""
    edges = [at for at in range(start, end + 1) if at < len(records) and is_edge(records, at) or at and is_edge(records, at - 1)]
    rest = sorted({*range(start, end + 1)} - {*edges})
    after = list(range(end + 1, len(records) + 1))
    if len(edges) + len(rest) + len(after) > most:
        few = lambda of, share: chance.sample(of, min(len(of), max(1, int(most * share))))
        edges, rest, after = few(edges, 0.65), few(rest, 0.25), few(after, 0.1)
    return sorted({*edges, *rest, *after, end})


def choices_of(loose, is_before_flush, subsets, chance):
    """Gives what an image has of the writes that aren't durable: a word for it, which ones, and which one of them is torn."""
    yield "all", loose, None
    if is_before_flush and loose:
        yield "none", [], None
        for _ in range(subsets):
            part = chance.choice((0.2, 0.5, 0.8))
            chosen = [it for it in loose if chance.random() < part]
            yield "some", chosen, chance.choice(chosen) if chosen and chance.random() < 0.7 else None
        if len(loose) > 1:
            yield "last", loose[-1:], None
            yield "torn", loose, chance.choice(loose)
