"""What the program had done, and what it had acknowledged, at later and later moments of a recording."""
import os

import folders
import notes
import rules


class Past:
    def __init__(self, room, recording):
        self.work, self.events, self.at = recording["work"], [], 0
        self.folders = {it: rules.Folder(recording["stores"].get(it, {})) for it in folders.STORES}
        done = recording["start"]
        for step in recording["steps"]:
            path = f"{room}/{step['notes']}"
            for note in notes.notes_of(path) if os.path.exists(path) else []:
                done = max(done, note.done)
                self.events.append((done, "note", note))
            done = max(done, step["done"])
            self.events.append((done, "step", step))
        if not any(what == "note" for _, what, _ in self.events):
            raise OSError("no call was noted: is the program linked to the C library dynamically?")

    def move_to(self, k):
        """Goes to the moment after k records."""
        while self.at < len(self.events) and self.events[self.at][0] <= k:
            _, what, it = self.events[self.at]
            self.at += 1
            if what == "note":
                self.note(it)
            elif it["stores"] is not None:
                for name in self.folders:
                    self.end_step(name, it)

    def note(self, note):
        below, _, name = os.path.relpath(note.path, self.work).partition("/")
        if below in self.folders and note.call != notes.MKDIR:
            self.folders[below].noted(note, name, os.path.basename(note.second))

    def end_step(self, name, step):
        folder, files = self.folders[name], step["stores"].get(name, {})
        if step["status"]:
            folder.resume(files)
        elif folder.is_doubtful:
            # (an opening that ended well has renewed each such file, or must answer for all that it left)
            self.folders[name] = rules.Folder(files)
            floor(self.folders[name], folder)
        elif {it: bytes(file.now) for it, file in folder.files.items()} != folders.without_parts(files):
            raise ValueError(f"{name} isn't what the notes say after {step['line']}")
        else:
            floor(folder, rules.Folder(files))

    def contents(self):
        """Returns the files of each folder, as the program wrote them."""
        return {name: {it: bytes(file.now) for it, file in folder.files.items()} for name, folder in self.folders.items() if folder.files}


def floor(folder, other):
    """What is acknowledged or begun of the other folder is so of this one."""
    notes.raise_to(folder.acknowledged, other.acknowledged)
    notes.raise_to(folder.begun, other.begun)


def first_failure(room, recording):
    """Returns the count of records at which a call first failed, or None."""
    for step in recording["steps"]:
        path = f"{room}/{step['notes']}"
        for note in notes.notes_of(path) if os.path.exists(path) else []:
            if note.is_end and note.call == notes.SYNC and note.result < 0:
                return note.done
    return None
