"""What the program and the reader say of one folder."""
import os
import shutil
import subprocess
import time

from store_files import names, printed, recovery
from store_files.cells import Damaged
from store_files.logs import log_bytes
from store_files.stores import store_bytes


class Room:
    """A folder of one's own, in which a store is laid and the program is run."""

    def __init__(self, program, folder):
        self.program, self.folder, self.store = program, folder, os.path.join(folder, "hwal-store")

    def lay(self, files):
        shutil.rmtree(self.store, ignore_errors=True)
        os.mkdir(self.store)
        for name, data in files.items():
            with open(os.path.join(self.store, name), "wb") as file:
                file.write(data)

    def found(self):
        """The files that are there."""
        files = {}
        for name in os.listdir(self.store) if os.path.isdir(self.store) else ():
            with open(os.path.join(self.store, name), "rb") as file:
                files[name] = file.read()
        return files

    def run(self, words, script=b""):
        """Status and lines."""
        ran = subprocess.run([self.program, *words], cwd=self.folder, input=script, capture_output=True, timeout=120)
        return ran.returncode, ran.stdout.decode().splitlines()

    def kill(self, words, script, after):
        with subprocess.Popen([self.program, *words], cwd=self.folder, stdin=subprocess.PIPE, stdout=subprocess.DEVNULL, stderr=subprocess.DEVNULL) as ran:
            try:
                ran.stdin.write(script)
                ran.stdin.close()
                time.sleep(after)
            except BrokenPipeError:
                pass
            ran.kill()


def outcome(name, data):
    """A log's text, or its Damaged."""
    try:
        return recovery.text_of(name, data)
    except Damaged as damage:
        return damage


def refused(name, damage):
    return 7, [f"refused damaged {name} {damage.at}"]


def dumped(files, number):
    for name in (names.name_of("log", number), names.name_of("old", number)):
        if name in files:
            text = outcome(name, files[name])
            return refused(name, text) if isinstance(text, Damaged) else (0, [*printed.dump_lines(name, text), "end 0"])
    return 0, ["none", "end 0"]


def shown(files):
    name = names.name_of("log", 1)
    text = outcome(name, files[name]) if name in files else None
    if isinstance(text, Damaged):
        return refused(name, text)
    return 0, [*(printed.show_lines(text) if text else ()), "end 0"]


def shipped(files, first):
    """What `ship FIRST 0` prints, without its records."""
    logs = {}
    for name in sorted(files, reverse=True):
        if name.kind in ("log", "old"):
            logs[name.number] = name
    lines, number = [], first
    while number in logs:
        text = outcome(logs[number], files[logs[number]])
        if isinstance(text, Damaged):
            status, refusal = refused(logs[number], text)
            return status, lines + refusal
        lines += [line for line in printed.ship_lines(number, text, 0) if not line.startswith("position ")]
        is_past = text.ended is not None or max(logs) > number
        number += 1
        if not is_past:
            return 0, lines + ["end 0"]
    return (10, lines + [f"refused position {number} 0"]) if max(logs, default=0) > number else (0, lines + ["end 0"])


def without_records(answer):
    status, lines = answer
    return status, [line for line in lines if not line.startswith("position ")]


def recovered(texts):
    refusal = recovery.refusal(texts)
    if refusal:
        return 7, [f"refused {refusal}"]
    regions = recovery.regions_of(texts).items()
    return 0, [f"recovered {number} {it.last()} {len(it.cells())}" for number, it in regions if it.last()] + ["end 0"]


def contents(texts):
    """By region the last number, and the lines of the cells in order."""
    return {number: (it.last(), [printed.cell_line(*pair) for pair in it.cells()]) for number, it in recovery.regions_of(texts).items() if it.last()}


def scanned(room, regions):
    """The same by the program: a run that scans each region."""
    script = "time 0\nregions 64\nhandlers 1\n" + "".join(f"scan 1 {region} - -\n" for region in regions)
    status, lines = room.run(["run"], script.encode())
    found = {}
    for line in lines:
        words = line.split()
        if words[0] == "reply":
            cells = []
            found[regions[int(words[2]) - 1]] = (int(words[4]), cells)
        elif words[0] == "cell":
            cells.append(line)
    return status, {region: it for region, it in found.items() if it[0]}


def spelled_again(name, data, text):
    """Whether the reader's own spelling of a text is that of the file."""
    if name.kind == "store":
        return store_bytes(text) == data if text else True
    if text is None or text.last_gate is None:
        return True
    made = log_bytes(text.entries, name.number, data[7], text.ended is not None)
    return made[: text.last_gate] == data[: text.last_gate]


def differences(room, given):
    """(what was asked, the program's answer, the reader's answer) where they differ. The room has the folder."""
    files = {names.parse(name): data for name, data in given.items() if names.parse(name)}
    room.lay(given)
    texts = recovery.read_all(files, files.get)
    logs = sorted({name.number for name in files if name.kind in ("log", "old")})
    asked = [(["show"], shown(files))] + [(["dump", str(it)], dumped(files, it)) for it in logs[:6] + [max(logs, default=0) + 1] if it < 2**64]
    for words, wanted in asked:
        yield " ".join(words), room.run(words), wanted
    if min(logs, default=1) <= 2**63:
        first = max(min(logs, default=1), 1)
        yield f"ship {first} 0", without_records(room.run(["ship", str(first), "0"])), shipped(files, first)
    for name, text in texts.items():
        if not isinstance(text, Damaged) and not (text is None and name.kind == "old"):
            yield f"spelling of {name}", True, spelled_again(name, files[name], text)
    yield from openings(room, texts)


def openings(room, texts):
    before = room.found()
    answer = room.run(["recover"])
    wanted = recovered(texts)
    yield "recover", answer, wanted
    if wanted[0]:
        yield "the files after a refusal", room.found() == before, True
        return
    after = {names.parse(name): data for name, data in room.found().items() if names.parse(name)}
    opened = recovery.read_all(after, after.get)
    yield "the files after recover", (recovery.refusal(opened), contents(opened)), (None, contents(texts))
    regions = sorted(contents(texts)) + [64]
    yield "scans", scanned(room, regions), (0, contents(texts))
