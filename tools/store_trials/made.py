"""Stores made by chance."""
from store_files import names
from store_files.cells import CODES, Cell
from store_files.logs import Entry, log_bytes
from store_files.stores import FIRST, SECOND, StoreText, store_bytes
from store_files.cells import version_key

FAMILIES = (b"f", b"g", b"family")


def cell(chance, is_plain=False):
    row = chance.choice((b"r", b"r2", b"row \xff", bytes(chance.randrange(256) for _ in range(1 + chance.randrange(3)))))
    value = bytes(chance.randrange(256) for _ in range(chance.choice((0, 1, 1, 5, 40))))
    tags = b"" if is_plain or chance.random() < 0.8 else bytes(chance.randrange(256) for _ in range(1 + chance.randrange(4)))
    kind = chance.choice((4, 4, 4, *CODES.values()))
    return Cell(row, chance.choice(FAMILIES), chance.choice((b"", b"q", b"q2")), chance.choice((0, 1, 2, 9, 2**63 - 2)), kind, value, tags)


def cells(chance, is_plain=False):
    return tuple(cell(chance, is_plain) for _ in range(chance.choice((1, 1, 1, 2, 3, 7))))


def edits(chance, regions, is_plain):
    """Entries of these regions, in an order that a log may have them in: each region's numbers rise by one."""
    last, made = dict.fromkeys(regions, 0), []
    for _ in range(chance.choice((0, 1, 3, 8, 25))):
        region = chance.choice(regions)
        last[region] += 1
        table = b"" if is_plain or chance.random() < 0.7 else b"t%d" % chance.randrange(3)
        made.append(Entry(region, last[region], chance.randrange(2**20), table, cells(chance, is_plain)))
    return made


def spelled(chance):
    """A folder whose files are spelled by the reader's own rules: logs, edits files and stores that fit together, mostly."""
    regions = chance.sample(range(1, 65), chance.choice((1, 1, 2, 4)))
    is_former = chance.random() < 0.3
    made = edits(chance, regions, is_former)
    files, logs = {}, 1 + chance.randrange(3)
    numbers = sorted(chance.sample(range(1, 12), logs))
    size = 1 + len(made) // logs
    for at, number in enumerate(numbers):
        part = made[at * size : (at + 1) * size]
        body = log_bytes(part, number, 1 if is_former else 2, is_ended=chance.random() < 0.5)
        files[f"{chance.choice(('log', 'log', 'log', 'old'))}-{number}"] = body + torn(chance)
    for region in regions:
        files.update(stores_of(chance, region, [it for it in made if it.region == region], is_former))
        if chance.random() < 0.2:
            copied = [it for it in made if it.region == region and chance.random() < 0.5]
            files[f"edits-{region}-{max(numbers) + 1}"] = log_bytes(copied, max(numbers) + 1) + torn(chance)
    return files


def torn(chance):
    """What may stand after the gate at which a text ends."""
    return bytes(chance.randrange(256) for _ in range(chance.choice((0, 0, 0, 1, 30))))


def stores_of(chance, region, made, is_former):
    files = {}
    for number in sorted(chance.sample(range(1, 9), chance.choice((0, 1, 2, 3)))):
        first = 1 + chance.randrange(len(made) + 1)
        last = first + chance.randrange(len(made) + 2)
        is_second = not is_former or chance.random() < 0.3
        family = chance.choice(FAMILIES) if is_second and chance.random() < 0.4 else b""
        scope = int(is_second and not family and chance.random() < 0.3)
        held = {version_key(it.number, one): (it.number, one) for it in made if first <= it.number <= last for one in it.cells}
        kept = [pair if is_second else (pair[0], pair[1]._replace(tags=b"")) for _, pair in sorted(held.items()) if family in (b"", pair[1].family)]
        text = StoreText(SECOND if is_second else FIRST, region, scope, family, first, last, kept)
        data = store_bytes(text)
        files[f"store-{region}-{number}"] = data if chance.random() < 0.9 else chance.choice((b"\0" + data[1:], data[:1], b""))
    return files


def script(chance, time):
    """A script of calls by chance, as `run` takes one."""
    from store_files.printed import cell_line

    regions, handlers = chance.choice((1, 2, 4)), chance.choice((1, 1, 3))
    lines = [f"time {time}", f"regions {regions}", f"handlers {handlers}"] + [f"table t{time}"] * (chance.random() < 0.3)
    for _ in range(chance.choice((1, 5, 20, 60))):
        handler, region = 1 + chance.randrange(handlers), 1 + chance.randrange(regions)
        call = chance.choice(("put",) * 8 + ("flush", "flush-family", "roll"))
        if call == "put":
            given = cells(chance)
            lines.append(f"put {handler} {region} {chance.choice(('sync', 'async'))} {len(given)}")
            lines += ["cell" + cell_line(0, it).removeprefix("cell 0") for it in given]
        else:
            lines.append({"flush": f"flush {handler} {region}", "flush-family": f"flush {handler} {region} f", "roll": f"roll {handler}"}[call])
    return "\n".join(lines).encode() + b"\n"


def by_the_program(chance, room):
    """A folder that some sessions of the program leave, some of which are killed."""
    room.lay({})
    for session in range(chance.choice((1, 2, 3))):
        if chance.random() < 0.3:
            room.kill(["run"], script(chance, session), chance.random() * 0.02)
        else:
            room.run(["run"], script(chance, session))
        after = chance.random()
        if after < 0.3:
            room.run(["recover"] if after < 0.15 else ["compact", chance.choice(("minor", "major")), "1"])
    return room.found()


def changed(chance, files):
    """The folder with one to three changes from outside."""
    files = dict(files)
    for _ in range(chance.choice((1, 1, 2, 3))):
        if files:
            name = chance.choice(sorted(files))
            files.update(chance.choice((flip, flip, flip, cut, append, take_name))(chance, files, name))
    return {name: data for name, data in files.items() if data is not None}


def flip(chance, files, name):
    data = bytearray(files[name] or b"")
    if data:
        at = chance.randrange(min(len(data), chance.choice((20, 60, len(data)))))
        data[at] = chance.choice((0, 1, 2, 3, 0xA5, 0xFF, chance.randrange(256), (data[at] + 1) % 256, (data[at] - 1) % 256))
    return {name: bytes(data)}


def cut(chance, files, name):
    return {name: (files[name] or b"")[: chance.randrange(len(files[name] or b"") + 1)]}


def append(chance, files, name):
    return {name: (files[name] or b"") + bytes(chance.choice((0, 0xA5, chance.randrange(256))) for _ in range(1 + chance.randrange(40)))}


def take_name(chance, files, name):
    """The file under another name, or a copy of a log under another number with the right header."""
    was, data = names.parse(name), files[name] or b""
    number, region = chance.choice((1, 2, was.number + 1, was.number, 2**62, 2**62 + 1)), chance.choice((was.region, was.region + 1, 0, 64, 65))
    if was.kind == "log" and chance.random() < 0.6:
        return {f"log-{was.number + 20}": data[:8] + (was.number + 20).to_bytes(8, "big") + data[16:]}
    kind = chance.choice(("log", "old")) if was.kind in ("log", "old") else was.kind
    return {name: None, str(names.name_of(kind, number, 0 if kind in ("log", "old") else region)): data}
