"""Reads rows with deletes by `get` of hwal and from the database."""
import subprocess

from follow_postgres.compare import hexadecimal


def cells_of_rows(chance, count):
    """Returns a script that puts and deletes over so many rows, and gets each of them."""
    lines, asked = ["time 9", "regions 2", "handlers 1"], []
    for _ in range(count * 6):
        cells = chance.choice([1, 2, 3])
        row = chance.randrange(count)
        lines.append(f"put 1 {1 + row % 2} async {cells}")
        for _ in range(cells):
            kind = chance.choice(["put"] * 4 + ["delete", "delete-column", "delete-family", "delete-family-version"])
            value = f"v{chance.randrange(1000)}" if kind == "put" else "-"
            lines.append(f"cell r{row} {chance.choice('fg')} {chance.choice('-abc')} {chance.randint(1, 6)} {kind} {value}")
    for row in range(count):
        asked.append((1 + row % 2, f"r{row}", chance.choice([1, 1, 2, 3, 10])))
        lines.append("get 1 {} {} {}".format(*asked[-1]))
    return "\n".join(lines).encode() + b"\n", asked


def answers(report):
    """Returns the cells of each get of a report."""
    given = []
    for words in (line.split() for line in report.decode().splitlines()):
        if words[0] == "reply" and words[3] == "get":
            given.append([])
        elif words[0] == "cell" and given:
            _, number, row, family, qualifier, ts, kind, value, *tags = words
            assert kind == "put"
            given[-1].append([number, *map(hexadecimal, (row, family, qualifier)), ts, hexadecimal(value), hexadecimal((tags or ["-"])[0])])
    return given


def compare_gets(trial, count):
    """Compares the gets of hwal with those of the database. Returns the line of a difference, or None."""
    fields = """number, encode("row", 'hex'), encode(family, 'hex'), encode(qualifier, 'hex'), ts, encode(value, 'hex'), encode(tags, 'hex')"""
    trial.begin_store()
    text, asked = cells_of_rows(trial.chance, count)
    ran = subprocess.run([trial.program, "run"], cwd=trial.store.directory, input=text, capture_output=True, check=True)
    given = answers(ran.stdout)
    trial.take_all(recover=True)
    session = trial.session()
    shown = cells = 0
    for (region, row, versions), want in zip(asked, given, strict=True):
        key = f"'\\x{row.encode().hex()}'"
        where = f"name = '{trial.name}' and region = {region} and \"row\" = {key}"
        ways = [f"hwal.get('{trial.name}', {region}, {key}, {versions})", f"hwal.versions where {where} and version <= {versions}"]
        for way in ways + ([f"hwal.newest where {where}"] if versions == 1 else []):
            have = session.ask(f"select {fields} from {way} order by family, qualifier, ts desc")
            if have != want:
                return f"get {region} {row} {versions}: hwal gives {want}, {way} {have}"
        shown, cells = shown + bool(want), cells + len(want)
    session.close()
    print(f"gets: {len(asked)} rows of {len(trial.expected())} cells, {shown} with {cells} cells that are seen; 0 differences")
    return None
