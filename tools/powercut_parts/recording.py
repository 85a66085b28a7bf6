"""Runs the steps of a session on a file system that is recorded."""
import os
import pickle
import subprocess
import time
from typing import NamedTuple

import around
import disks
import folders


class Way(NamedTuple):
    """How sessions are recorded: the program, the recorder, the library, and what beside the program."""

    program: str
    recorder: str
    library: str
    is_noisy: bool = False
    skip: str = ""


def record(way, kind, image, steps, room, seed):
    """Runs the steps on a copy of the image, recorded; the recording is what lies in the folder `room` then, and what is returned."""
    os.makedirs(room)
    disk = disks.Recorded(kind, image, room, way.recorder)
    noise = around.Noise(f"{disk.at}/noise", seed) if way.is_noisy else None
    work = f"{disk.at}/work"
    out = {"kind": kind, "image": image, "start": disk.done(), "steps": [], "stores": folders.stores_in(work), "work": work}
    try:
        if noise:
            noise.start()
        for at, step in enumerate(steps):
            if step.what in around.AROUND:
                around.AROUND[step.what](disk.at, step.words)
            else:
                out["steps"].append(ran(way, disk, work, step, room, at))
    finally:
        if noise:
            noise.end()
        disk.end()
    with open(f"{room}/recording", "wb") as it:
        pickle.dump(out, it)
    return out


def ran(way, disk, work, step, room, at):
    """Runs a command, and returns what is recorded of it."""
    said = {"CALLS": f"{room}/notes-{at}", "SHARED": disk.shared, "SKIP": way.skip, "FAIL": step.fails}
    env = {**os.environ, "LD_PRELOAD": way.library, **{f"POWERCUT_{name}": value for name, value in said.items()}}
    words = command_of(way.program, ["run"] if step.what == "killed" else step.words)
    with open(f"{room}/script", "wb") as it:
        it.write(step.given)
    with open(f"{room}/script", "rb") as it, open(f"{room}/out-{at}", "wb") as out:
        process = subprocess.Popen(words, cwd=work, stdin=it, stdout=out, stderr=subprocess.STDOUT, env=env)
        status = ended(process, disk, step)
    if step.what == "hwal" and status and not step.fails:
        with open(f"{room}/out-{at}", errors="replace", encoding="utf-8") as it:
            raise OSError(f"{words} ended with {status}: {it.read()[-300:]}")
    return {"line": words, "notes": f"notes-{at}", "status": status, "done": disk.done(), "stores": looked_at(work)}


def command_of(program, words):
    """Returns the program and its words: `groups` is a program of its own."""
    return [groups_of(program), *words[1:]] if words[0] == "groups" else [program, *words]


def groups_of(program):
    """Returns the program of `groups`: beside the other one, or in its own crate."""
    beside = f"{os.path.dirname(program)}/hwal_groups"
    return beside if os.path.isfile(beside) else f"{os.path.dirname(program)}/../../hwal_groups/out/hwal_groups"


def ended(process, disk, step):
    """Waits for a command, or kills it after so many records; returns its status."""
    begun = disk.done()
    try:
        while step.what == "killed" and process.poll() is None and disk.done() < begun + step.words:
            time.sleep(0.0005)
        if step.what == "killed":
            process.kill()
        return process.wait(300)
    finally:
        process.kill()


def looked_at(work):
    """Returns the stores as they read, or None where the file system doesn't let them be read any more."""
    try:
        return folders.stores_in(work)
    except OSError:
        return None


def loaded(room):
    """Returns a recording that was kept."""
    with open(f"{room}/recording", "rb") as it:
        return {**pickle.load(it), "image": f"{room}/base.img"}
