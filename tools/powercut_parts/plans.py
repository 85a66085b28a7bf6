"""Records a session and tries its cuts: a whole session once, or a command with each of its syncs failing in turn."""
import json
import os
import random
import re
import shutil
import subprocess

import disks
import images
import native
import notes
import past
import sessions
from recording import record
from trial import Count, Trial

# How many moments of a recording in which a sync fails are tried, and among how many syncs the second failure is drawn.
MOMENTS, SECOND = 12, 30


class Plan:
    """A session on a file system: how it is recorded and tried, and where what went wrong is kept."""

    def __init__(self, way, depth, kind, session, seed, keep=None, share=(1, 1)):
        self.way, self.depth, self.kind, self.session, self.seed, self.keep, self.share = way, depth, kind, session, seed, keep, share
        self.title = f"{kind} {session} {seed}" + (f" share {share[0]}" if share[1] > 1 else "")

    def tried(self, room):
        """Returns (title, count) of what was recorded."""
        os.makedirs(room, exist_ok=True)
        image = disks.prepared(self.kind, room)
        if self.session in sessions.FAILING:
            return [(self.title, self.failures(image, room))]
        count, left = self.cuts(image, sessions.SESSIONS[self.session](self.seed), room, self.title, self.depth)
        out = [(self.title, count)]
        for number, path in enumerate(left, 1):
            title = f"{self.title} again {number}"
            out.append((title, self.cuts(path, sessions.again(self.seed), room, title, self.depth._replace(again=0))[0]))
        return out

    def cuts(self, image, steps, room, title, depth, is_failing=False):
        """Records the steps, and returns the count of the cuts and the images to go on from."""
        at = f"{room}/recording"
        recording = record(self.way, self.kind, image, steps, at, self.seed)
        first = past.first_failure(at, recording) if is_failing else None
        if is_failing and first is None:
            shutil.rmtree(at)
            return Count(recordings=1), []
        trial = Trial(self.way.program, recording, at, room)
        count = trial.cuts(depth, self.seed, first)
        count.numbers["failures"] = int(is_failing)
        if count.wrong and self.keep:
            kept(at, image, f"{self.keep}/{re.sub('[^a-z0-9-]', '-', title)}", count.wrong)
        shutil.rmtree(at)
        return count, trial.left

    def failures(self, image, room):
        """Lets each sync of the session's command fail in turn: an opening at once, and then the power is cut."""
        before, command = sessions.FAILING[self.session](self.seed)
        image = self.after(image, before, f"{room}/before.img", room)
        count, depth = Count(), self.depth._replace(moments=min(self.depth.moments, MOMENTS), again=0)
        chance = random.Random(self.seed)
        first, every = self.share
        for name, turn in self.syncs(image, command, room)[first - 1 :: every]:
            if self.depth.is_over():
                break
            steps = [command._replace(fails=f"{name} {turn}", what="any"), sessions.command("recover", what="any")]
            if self.session == "fail-twice":
                steps.insert(1, sessions.command("recover", what="any", fails=f"* {chance.randint(1, SECOND)}"))
            one = self.failure(image, steps, room, f"{self.title} {name} {turn}", depth)
            for it in one.wrong:
                it["fails"] = f"{name} {turn}"
            count.add(one)
        return count

    def failure(self, image, steps, room, title, depth):
        """Returns the count of a recording in which a sync fails; one that can't be tried is wrong, and keeps no other from it."""
        try:
            return self.cuts(image, steps, room, title, depth, is_failing=True)[0]
        except (OSError, ValueError) as e:
            native.release(room)
            shutil.rmtree(f"{room}/recording", ignore_errors=True)
            out = Count(recordings=1)
            out.wrong = [{"moment": 0, "of": 0, "choice": 0, "what": "", "chosen": 0, "loose": 0, "torn": None, "wrong": f"UNTRIED {e}"}]
            return out

    def after(self, image, steps, to, room):
        """Returns an image of the file system after these commands."""
        if not steps:
            return image
        images.copy(image, to)
        mount = disks.Mount(self.kind, to, f"{room}/cut")
        for step in steps:
            with open(f"{room}/script", "wb") as it:
                it.write(step.given)
            ended(self.way.program, step, f"{mount.at}/work", f"{room}/script")
        mount.end()
        return to

    def syncs(self, image, command, room):
        """Returns (file, number) of each sync that the command makes."""
        at = f"{room}/recording"
        recording = record(self.way, self.kind, image, [command], at, self.seed)
        times, out = {}, []
        for it in notes.notes_of(f"{at}/{recording['steps'][0]['notes']}"):
            if it.call == notes.SYNC and it.is_end:
                name = os.path.basename(it.path)
                times[name] = times.get(name, 0) + 1
                out.append((name, times[name]))
        shutil.rmtree(at)
        return out


def ended(program, step, work, script):
    with open(script, "rb") as given:
        done = subprocess.run([program, *step.words], cwd=work, stdin=given, capture_output=True, timeout=300)
    if done.returncode:
        raise OSError(f"{step.words} ended with {done.returncode}: {done.stdout[-300:]}")


def kept(at, image, to, wrong):
    """Keeps a recording, for `--of`, and what was wrong."""
    shutil.rmtree(to, ignore_errors=True)
    os.makedirs(to)
    images.copy(image, f"{to}/base.img")
    for name in os.listdir(at):
        if name in ("records", "requests", "recording") or name.startswith(("notes-", "out-")):
            shutil.copy(f"{at}/{name}", f"{to}/{name}")
    with open(f"{to}/wrong", "w", encoding="utf-8") as it:
        it.write("".join(json.dumps(line) + "\n" for line in wrong))
