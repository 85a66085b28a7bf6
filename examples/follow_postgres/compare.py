"""Compares the table with what `hwal dump` prints of a store's logs. It shares no code with the follower's way from lines to rows."""
import subprocess
import time
from urllib.parse import unquote_to_bytes

PATIENCE = 100
CODES = {"put": 4, "delete": 8, "delete-family-version": 10, "delete-column": 12, "delete-family": 14}
FIELDS = """file, place, item, region, number, written, encode(table_name, 'hex'), encode("row", 'hex'), encode(family, 'hex'),
    encode(qualifier, 'hex'), ts, type, encode(value, 'hex'), encode(tags, 'hex')"""


def hexadecimal(token):
    return b"".hex() if token == "-" else unquote_to_bytes(token).hex()


def read(store, *words):
    """Runs a command that reads; again, where a program has the store just then."""
    for _ in range(PATIENCE):
        ran = subprocess.run([store.hwal, *words], cwd=store.directory, stdin=subprocess.DEVNULL, capture_output=True, check=False)
        if ran.returncode != 5:
            break
        time.sleep(0.1)
    ran.check_returncode()
    return ran


def dumped(store, number):
    """Returns the lines that the table has to have of a log, as `hwal dump` prints it."""
    ran = read(store, "dump", str(number))
    lines, place, item, entry, table = [], 0, 0, None, ""
    for words in (line.split(" ") for line in ran.stdout.decode().splitlines()):
        if words[0] == "entry":
            place, item, entry, table = place + 1, 0, words[1:4], ""
        elif words[0] == "table":
            table = hexadecimal(words[1])
        elif words[0] == "cell":
            item += 1
            _, number_again, row, family, qualifier, ts, kind, value, *tags = words
            assert number_again == entry[1], f"cell {words} of entry {entry}"
            cell = [hexadecimal(row), hexadecimal(family), hexadecimal(qualifier), ts, CODES[kind], hexadecimal(value), hexadecimal((tags or ["-"])[0])]
            lines.append("\t".join(map(str, [number, place, item, *entry, table, *cell])))
    return lines


def followed(session, name):
    """Returns the lines that the table has of a store."""
    query = f"select {FIELDS} from hwal.cells join hwal.stores s using (store) where s.name = '{name}' order by 1, 2, 3"
    query = query.replace("file,", "cells.file,", 1)
    return ["\t".join(row) for row in session.ask(query)]


def first_difference(have, want):
    """Returns what the first line is that differs; None where none does."""
    for place, (one, other) in enumerate(zip(have, want)):
        if one != other:
            return f"line {place}: the table has {one}, the logs {other}"
    if len(have) != len(want):
        longer, whose = (have, "the table") if len(have) > len(want) else (want, "the logs")
        return f"{whose} alone has {abs(len(have) - len(want))} lines, as {longer[min(len(have), len(want))]}"
    return None
