"""The row files of crates/rows/data (docs/ROWS.md): the files that they begin with, and their steps."""
import os
import re


class Form(Exception):
    """The row is in a wrong form, as some are that a test wants so."""


class Step:
    def __init__(self, words):
        # fails: a call of the disk is to fail, which a real folder can't be asked for
        self.words, self.script, self.fails = words, [], False


class Row:
    def __init__(self):
        self.origin, self.files, self.steps = None, {}, []


def expand(text, turn):
    """A line of a script, with what stands in braces written out."""

    def written(found):
        if found[0] == "{{":
            return "{"
        return str(turn) if found[1] == "i" else found[3] * int(found[2])

    return re.sub(r"\{\{|\{(i|(\d+)\*(.))\}", written, text)


def repeated(lines):
    """The lines with each repeat written out, as (turn or None, line)."""
    at = 0
    while at < len(lines):
        if not lines[at].startswith("repeat "):
            yield None, lines[at]
            at += 1
            continue
        end = lines.index("done", at)
        for turn in range(1, int(lines[at].split()[1]) + 1):
            yield from ((turn, line) for line in lines[at + 1 : end])
        at = end + 1


def parse(path):
    with open(path, encoding="latin1") as file:
        lines = [line for line in file.read().split("\n") if line and not line.startswith("#")]
    row, taken = Row(), None
    try:
        for turn, line in repeated(lines):
            taken = take(row, line, turn, taken)
    except (ValueError, IndexError) as cause:
        raise Form(str(cause)) from None
    return row


def take(row, line, turn, taken):
    """Takes one line into the row; returns the name of the file that later `+` lines are of."""
    word, _, rest = line.partition(" ")
    if word == "file":
        name, _, given = rest.partition(" ")
        row.files[name] = bytes.fromhex(given)
        return name
    if word == "+":
        if taken:
            row.files[taken] += bytes.fromhex(rest)
        return taken
    if word == "from":
        row.origin = rest
    elif word == "$":
        row.steps.append(Step(rest.split()))
    elif word in ("<", "<-"):
        row.steps[-1].script.append(expand(rest, turn) + "\n" * (word == "<"))
    elif word == "fail":
        row.steps[-1].fails = True
    elif word not in (">", ">-", "status", "left", "bytes", "output"):
        raise Form(line)
    return None


def folders(data, name, run):
    """Each folder that the row comes by, from its first files on, as {name: bytes}. `run` runs a step on a folder and returns what it
    leaves. A step whose disk is to fail ends the row, as what it leaves can't be had here."""
    row = parse(os.path.join(data, f"{name}.row"))
    files = {}
    if row.origin:
        *_, files = folders(data, row.origin, run)
    files = {**files, **row.files}
    yield files
    for step in row.steps:
        if step.fails:
            return
        files = run(files, step.words, "".join(step.script).encode("latin1"))
        yield files
