"""The two pages: the promise as it stands in the sources, and under it each definition that it names, by file."""
import re

from . import words
from .reach import reached
from .sources import Definition, ROOT, file_of, named_in

STOPS = {(f"crates/{crate}/specs/{file}.antt", name): said for (crate, file, name), said in words.STOPS.items()}
LATER = (f"crates/{words.LATER[0]}/specs/{words.LATER[1]}.antt", words.LATER[2])
MADE = "Made by `tools/headline` from the sources; don't edit it."


class Missing(Exception):
    """Something that the page names by hand and that isn't in the sources."""


def top(path, name):
    found = named_in(file_of(path), name) if file_of(path) else None
    if not found:
        raise Missing(f"{path} has no {name}")
    return found


def only(definition, fields):
    """The definition with these fields alone, to see what they name."""
    kept = [line for line in definition.text if re.match(rf"  pub ({'|'.join(fields)}) :", line)]
    return Definition(definition.name, definition.path, definition.line, [], definition.text[:1] + kept)


def clause(path, call, name):
    """A clause of a call, as its lines stand."""
    with open(f"{ROOT}/{path}", encoding="utf-8") as file:
        text = file.read()
    found = re.search(rf"pub fn {call}<.*?\n    (ensures {name} \{{.*?\}})\n", text, re.S)
    if not found:
        raise Missing(f"{path}: {call} has no clause {name}")
    return "\n".join(line.strip() if at == 0 else "    " + line.strip() for at, line in enumerate(found[1].split("\n")))


def linked(definition):
    return f"[{definition.path.removeprefix('crates/')}](../{definition.path})"


def block(definitions):
    """Definitions of one file in its order, each with its comment."""
    kind = "rust" if definitions[0].is_rust else "text"
    texts = ["\n".join(it.comment + it.text) for it in definitions]
    return f"```{kind}\n" + "\n\n".join(texts) + "\n```\n"


def by_file(definitions):
    """A heading and a block for each file, in the order in which the files are first named."""
    files = {}
    for it in definitions:
        files.setdefault(it.path, []).append(it)
    for path, those in files.items():
        those.sort(key=lambda it: it.line)
        yield f"### {linked(those[0])}\n\n{block(those)}"


def size(definitions):
    lines = sum(len(it.text) for it in definitions)
    return f"{len(definitions)} definitions, {lines} lines in {len({it.path for it in definitions})} files"


def places(names, known):
    """Names of definitions and fields as a cell of a table; each has to be there."""
    for name in names:
        owner, _, field = name.partition(".")
        if owner not in known or field and not re.search(rf"^  pub {field} :", "\n".join(known[owner].text), re.M):
            raise Missing(f"{name} is not among the definitions of the page")
    return ", ".join(f"`{name}`" for name in names)


def sentence():
    """README's sentence: its first quoted line."""
    with open(f"{ROOT}/README.md", encoding="utf-8") as file:
        found = re.search(r"^> \*(.*)\*$", file.read(), re.M)
    if not found:
        raise Missing("README has no quoted sentence")
    lost = [part for part, _, _ in words.SENTENCE if part not in found[1]]
    if lost:
        raise Missing(f"README's sentence doesn't say '{lost[0]}'")
    return found[1]


def stops_table(definitions):
    met = [it for it in definitions if (it.path, it.name) in STOPS]
    rows = [f"| `{it.name}` | {linked(it)} | {STOPS[it.path, it.name][0]} | [{STOPS[it.path, it.name][1][:-3]}]({STOPS[it.path, it.name][1]}) |" for it in met]
    return "| Name | Where | What it says | More |\n|---|---|---|---|\n" + "\n".join(rows) + "\n"


def is_shown(definition, first):
    return (definition.path, definition.name) not in STOPS and definition is not first


def way(first, ends):
    """The definitions between a clause and the headline."""
    return [top(*it) for it in ends] + [first]


def run_page():
    first = top("crates/run_model/specs/Headline.antt", "IsHeadline")
    between = [top(f"crates/{path}", name) for path, name in (("load_run/specs/Commands.antt", "run"), ("run_command/specs/Ends.antt", "RunEnds"),
        ("run_command/specs/Ends.antt", "RunsScript"), ("run_command/specs/Ends.antt", "EndsRun"), ("run_command/specs/Ends.antt", "IsRunReport"))]
    core = [it for it in reached([only(first, words.SAID)], STOPS.keys() | {LATER})[1:] if (it.path, it.name) != LATER]
    whole = reached([first], STOPS)
    known = {it.name: it for it in between + whole}
    said = [it for it in core if is_shown(it, first)]
    more = [it for it in whole if is_shown(it, first) and it not in said]
    rows = [f"| *{part}* | {places(where, known)} | {what} |" for part, where, what in words.SENTENCE]
    beyond = [f"| {places([name], known)} | {what} |" for name, what in words.BEYOND]
    return "\n".join([
        f"# The headline\n\n{MADE}\n\nREADME says of `run`:\n\n> *{sentence()}*\n",
        f"This page has what that sentence stands on, down to cells and files: {size(said + [first])}; and what the contract says beyond it: {size(more)}.",
        "Whoever agrees with these, and with what is asked of a disk, agrees with what is proved, and needs to read no proof and no code. "
        "[HEADLINE_GROUPS](HEADLINE_GROUPS.md) has the same of `run_groups`.\n",
        "| Words | Where | What they are |\n|---|---|---|", *rows, "", "## How to read a definition\n", words.SIGNS,
        "## From the call to the headline\n\nThe clause of `run` ([command.rt](../crates/load_run/src/command.rt)) that carries the sentence:\n",
        "```text\n" + clause("crates/load_run/src/command.rt", "run", "ends") + "\n```\n",
        "So it is of a source, a disk and a sink that have a model (`told`). Which images a disk has after each of its calls is the contract of `Disk` "
        "([disk.rt](../crates/disk_images/src/disk.rt)), in words in [MODEL](MODEL.md#the-disk): that a disk keeps it is assumed. Where the word is `run`, "
        "`profile` is the record `run`, and the statement is its `ends`:\n", *by_file(between),
        f"The headline itself, {linked(first)}:\n", block([first]), "## What the sentence stands on\n", *by_file(said),
        "## What the contract says beyond the sentence\n", "| Field | What it says |\n|---|---|", *beyond, "", *by_file(more),
        "## Where the page stops\n", stops_table(whole)])


def groups_page():
    first = top("crates/groups_model/specs/Headline.antt", "IsGroupsHeadline")
    between = [top("crates/groups_command/specs/Ends.antt", name) for name in ("GroupsEnd", "RunsGroups", "EndsGroups", "IsGroupsReport")]
    known_of_run = reached([top("crates/run_model/specs/Headline.antt", "IsHeadline")], STOPS)
    own = [it for it in reached([first], STOPS) if it not in known_of_run and is_shown(it, first)]
    known = {it.name: it for it in between + own + [first]}
    rows = [f"| {places([name], known)} | {what} |" for name, what in words.GROUPS]
    return "\n".join([
        f"# The headline on several disks\n\n{MADE}\n\n`run_groups` runs a script on one to four disks, each with a log of its own for its group's regions.",
        "Its headline says of each region and of each disk what [HEADLINE](HEADLINE.md) says of `run`. "
        f"This page has what that page hasn't: {size(own + [first])}.",
        "An image is chosen for each disk by itself: what a crash leaves on one says nothing of the others.\n",
        "| Where | What it says |\n|---|---|", *rows, "",
        "## From the call to the headline\n\nThe clause of `run_groups` ([command.rt](../crates/groups_command/src/command.rt)):\n",
        "```text\n" + clause("crates/groups_command/src/command.rt", "run_groups", "ends") + "\n```\n", *by_file(between),
        f"The headline itself, {linked(first)}:\n", block([first]), "## What it stands on\n", *by_file(own)])


PAGES = [("docs/HEADLINE.md", run_page), ("docs/HEADLINE_GROUPS.md", groups_page)]
