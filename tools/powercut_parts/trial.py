"""Cuts of one recording: which images there are, and what is wrong with what they leave."""
import os
import random
import time
from typing import NamedTuple

import choices
import disks
import folders
import images
import past
import requests
import stores
import truth

RULES = ("content", "absent", "name", "removed")
# What is counted of the lines that say what is wrong: a word for it, and what such a line has.
FAULTS = {"lost": "LOST", "rules": "RULE", "refused": "REFUSED", "unmounted": "MOUNT"}


class Depth(NamedTuple):
    """How much of a recording is tried."""

    moments: int = 300
    subsets: int = 3
    sector: int = 512
    is_junk: bool = False
    only: int | None = None
    again: int = 0
    end: float | None = None

    def is_over(self):
        """Whether no further moment is to be tried."""
        return self.end is not None and time.time() > self.end


class Count:
    """What was tried, and what was wrong."""

    NUMBERS = ("recordings", "records", "flushes", "late", "failures", "puts", "moments", "cuts", "stores", *RULES)

    def __init__(self, **numbers):
        self.numbers = dict.fromkeys(self.NUMBERS, 0) | numbers
        self.wrong = []

    def add(self, other):
        for name, number in other.numbers.items():
            self.numbers[name] += number
        self.wrong += other.wrong

    def faults(self):
        return {word: sum(mark in it["wrong"] for it in self.wrong) for word, mark in FAULTS.items()}


class Trial:
    """Tries cuts of a recording that lies in a folder; `room` is a folder of its own."""

    def __init__(self, program, recording, at, room):
        self.program, self.recording, self.at, self.room = program, recording, at, room
        os.makedirs(f"{room}/opening", exist_ok=True)
        self.records = images.records_of(f"{at}/records")
        self.cover, late = requests.covered(self.records, f"{at}/requests")
        self.put = truth.put_in(recording, at, program, f"{room}/opening")
        self.past, self.openings = past.Past(at, recording), stores.Openings(program, f"{room}/opening")
        flushes = sum(it[0] == images.FLUSH for it in self.records)
        self.count, self.left = Count(recordings=1, records=len(self.records), flushes=flushes, late=late), []

    def cuts(self, depth, seed, first=None):
        """Tries cuts, from the moment `first` on where it is given. Returns the count; `left` has images to go on from."""
        chance, steps = random.Random(seed), self.recording["steps"]
        start = self.recording["start"] if first is None else first
        moments = choices.moments_of(self.records, start, steps[-1]["done"], depth.moments, chance) if depth.only is None else [depth.only]
        again = set(chance.sample(moments, min(depth.again, len(moments))))
        cuts = images.Cuts(self.recording["image"], self.records, self.cover, self.room)
        for at, k in enumerate(moments):
            if depth.is_over():
                moments = moments[:at]
                break
            cuts.move_to(k)
            self.past.move_to(k)
            self.moment(k, cuts, depth, seed, chance, k in again)
        cuts.end()
        self.past.move_to(len(self.records))
        self.count.numbers["puts"] = sum(sum(it.acknowledged.values()) for it in self.past.folders.values())
        self.count.numbers["moments"], self.count.numbers["stores"] = len(moments), len(self.openings.known)
        return self.count

    def moment(self, k, cuts, depth, seed, chance, is_kept):
        """Tries the images of one moment, and keeps the last of them where it is gone on from."""
        shown = list(choices.choices_of(cuts.loose, choices.is_edge(self.records, k), depth.subsets, chance))
        for number, (what, chosen, torn) in enumerate(shown):
            path = cuts.build(chosen, torn, (random.Random(f"{seed} {k} {number}"), depth.sector, depth.is_junk))
            if is_kept and number == len(shown) - 1:
                self.left.append(f"{self.room}/from-{k}.img")
                images.copy(path, self.left[-1])
            self.count.numbers["cuts"] += 1
            place = {"moment": k, "of": len(self.records), "choice": number, "what": what, "chosen": len(chosen), "loose": len(cuts.loose), "torn": torn}
            self.count.wrong += [{**place, "wrong": it} for it in self.cut(path)]

    def cut(self, path):
        """Mounts an image, and returns what is wrong with it."""
        try:
            mount = disks.Mount(self.recording["kind"], path, f"{self.room}/cut")
        except OSError as e:
            return [f"MOUNT {e}"]
        try:
            found = folders.stores_in(f"{mount.at}/work")
        except OSError as e:
            return [f"READ {e}"]
        finally:
            mount.end()
        return [f"{name} {it}" for name in self.past.folders for it in self.judged(name, found.get(name, {}))]

    def judged(self, name, files):
        """Returns what is wrong with the files of a folder: by the rules, and by what the program makes of them."""
        folder = self.past.folders[name]
        if not files and not folder.files and not folder.acknowledged:
            return []
        for it in folder.used(files):
            self.count.numbers[it] += 1
        broken = [f"RULE {it}" for it in folder.wrong(files)]
        return broken + stores.judge(self.openings.open(files), folder.acknowledged, folder.begun, self.put.get(name, stores.Put({}, {})))
