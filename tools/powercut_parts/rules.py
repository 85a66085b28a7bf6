"""The crash rules of the disk, over the calls that a program made on one folder: what a crash may leave.

A `Folder` is given the calls in order, each when it begins and when it ends, and says of the files that a real crash left
whether the rules allow them. A call that has begun and not ended may have been done or not. Names are pinned by an fsync
of the folder; a file's content by its own fsync, from the moment on at which its name is pinned too. Nothing is pinned by a
call that failed, nor by a later fsync of a file whose fsync failed once: the kernel may answer Ok and write nothing.

A `NAME.part` is no file of a store, and is judged by nothing. Once it is renamed over NAME the name has its bytes, and until
that is durable a crash may leave the file that had the name before, with what the disk has of it.
"""
import folders
import notes


class File:
    """What reads give, up to where it was synced, the ranges written since, whether its existence is pinned, and its names."""

    def __init__(self, name, data=None):
        self.now, self.synced, self.dirty, self.names = bytearray(data or b""), len(data or b""), [], [name]
        self.is_pinned, self.is_doubtful = data is not None, False
        # (the file over which this one was renamed, as long as a crash may bring it back)
        self.former = None
        # (how much of `dirty`, and what length, an fsync that ended has written: durable once the name is)
        self.waits = None

    def write(self, at, data):
        if len(self.now) < at + len(data):
            self.now.extend(bytes(at + len(data) - len(self.now)))
        self.now[at : at + len(data)] = data
        self.dirty.append((at, at + len(data)))

    def pin(self, synced, count):
        self.synced, self.dirty, self.is_pinned, self.waits = synced, self.dirty[count:], True, None

    def wrong(self, left):
        """Returns what is wrong with these bytes as what a crash left under the file's name, or None."""
        why = self.unlike(left)
        return why if why and (self.former is None or self.former.wrong(left)) else None

    def unlike(self, left):
        if not self.synced <= len(left) <= len(self.now):
            return f"content length {len(left)} of {self.synced}..{len(self.now)}"
        if left[: self.synced] == self.now[: self.synced]:
            return None
        loose = bytearray(self.synced)
        for start, end in self.dirty:
            end = min(end, self.synced)
            loose[start:end] = b"\1" * max(0, end - start)
        for at in range(self.synced):
            if left[at] != self.now[at] and not loose[at]:
                return f"{'content' if self.dirty else 'pinned'} byte {at} is {left[at]:02x}, synced as {self.now[at]:02x}"
        return None


class Folder:
    def __init__(self, files):
        files = folders.without_parts(files)
        self.files = {name: File(name, data) for name, data in files.items()}
        self.removed, self.parts, self.is_settled, self.under_way = [], {}, True, {}
        # (by region: up to which number puts may be acknowledged, and which number may be in a log at all)
        self.acknowledged, self.begun = {}, {}
        for name, data in files.items():
            if name.startswith(("log-", "edits-", "old-")):
                notes.raise_to(self.acknowledged, notes.committed_in(data))
                notes.raise_to(self.begun, notes.committed_in(data))

    @property
    def is_doubtful(self):
        """Whether a file stands of which a sync failed."""
        return any(it.is_doubtful for it in self.files.values())

    def noted(self, note, name, second):
        """Takes a note in; `name` is empty for the folder itself. What a failed call left isn't known, and nothing is pinned."""
        if not note.is_end:
            self.under_way[note.thread] = self.begin(note, name, second)
            return
        kept = self.under_way.pop(note.thread)
        if note.call != notes.SYNC:
            return
        if note.result >= 0:
            self.end_sync(name, kept)
        elif name:
            self.of(name)[name].is_doubtful = True

    def of(self, name):
        """Returns where the file of this name is kept."""
        return self.parts if name.endswith(folders.PART) else self.files

    def begin(self, note, name, second):
        """Does what the call may have done from now on: what it changes isn't pinned. Returns what its end is to pin."""
        file = self.of(name).get(name)
        if name.endswith(folders.PART) and note.call in (notes.CREATE, notes.RENAME, notes.REMOVE):
            self.begin_part(note.call, name, second)
        elif note.call == notes.CREATE and file is None:
            self.files[name], self.is_settled = File(name), False
        elif note.call == notes.WRITE:
            file.write(note.offset, note.data)
            if name.startswith("log-") and name in self.files:
                notes.raise_to(self.begun, notes.committed_in(file.now))
        elif note.call == notes.TRUNCATE:
            raise ValueError("a file is cut off")
        elif note.call == notes.RENAME:
            self.files[second], self.is_settled = self.files.pop(name), False
            file.names = [*(it for it in file.names if it != second), second]
        elif note.call == notes.REMOVE:
            self.removed.append(self.files.pop(name))
        elif note.call == notes.SYNC and name:
            is_log = name.startswith("log-") and not name.endswith(folders.PART)
            return len(file.now), len(file.dirty), notes.committed_in(file.now) if is_log else {}
        elif note.call == notes.SYNC:
            return list(self.files.items()), list(self.removed)
        return None

    def begin_part(self, call, name, second):
        """Makes, removes or puts in its place the copy of a file."""
        if call == notes.CREATE:
            self.parts[name] = File(name)
        elif call == notes.REMOVE:
            self.parts.pop(name, None)
        else:
            new, old = self.parts.pop(name), self.files[second]
            new.names, new.former, new.is_pinned = [second], old, old.is_pinned
            self.files[second], self.is_settled = new, False

    def end_sync(self, name, kept):
        if not name:
            self.settle(*kept)
        elif name in self.parts:
            if not self.parts[name].is_doubtful:
                self.parts[name].pin(*kept[:2])
        elif not self.files[name].is_doubtful:
            file, (length, count, committed) = self.files[name], kept
            notes.raise_to(self.acknowledged, committed)
            if self.is_settled:
                file.pin(length, count)
                file.names = [name]
            else:
                file.waits = (length, count)

    def settle(self, files, removed):
        for name, file in files:
            file.is_pinned, file.names, file.former = True, [name], None
            if file.waits:
                file.pin(*file.waits)
        self.removed = [it for it in self.removed if not any(it is other for other in removed)]
        self.is_settled = True

    def resume(self, files):
        """After a program was killed or failed: what its last calls did is looked at, and pinned by nothing."""
        self.under_way, files = {}, folders.without_parts(files)
        for name, data in files.items():
            file = self.files.get(name) or self.given_back(name, files)
            if bytes(file.now) != data:
                file.dirty.append((0, max(len(data), len(file.now))))
                file.now = bytearray(data)
        for name in [it for it in self.files if it not in files]:
            self.removed.append(self.files.pop(name))

    def given_back(self, name, files):
        """Returns the file of a name that a call was to take away, and didn't."""
        for other in [it for it, file in self.files.items() if it not in files and name in file.names]:
            self.files[name] = self.files.pop(other)
        for file in [it for it in self.removed if name in it.names]:
            self.files[name] = file
            self.removed = [it for it in self.removed if it is not file]
        if name not in self.files:
            raise ValueError(f"{name} is there, and was not made")
        return self.files[name]

    def wrong(self, left):
        """Returns what the rules forbid of the files that a crash left."""
        wrong, known, left = [], set(), folders.without_parts(left)
        for file in self.files.values():
            known.update(file.names)
            there = [it for it in file.names if it in left]
            if not there and file.is_pinned:
                wrong.append(f"{'name' if len(file.names) > 1 else 'pinned'} {' and '.join(file.names)} absent")
            wrong += wrong_under(there, file, left, "")
        for file in self.removed:
            known.update(file.names)
            wrong += wrong_under([it for it in file.names if it in left and it not in self.files], file, left, ", removed")
        return wrong + [f"removed {it} stands, and may not" for it in left if it not in known]

    def used(self, left):
        """Returns which rules these files need: where they aren't what reads gave."""
        out, left = set(), folders.without_parts(left)
        for name, file in self.files.items():
            there = [it for it in file.names if it in left]
            if not there:
                out.add("absent")
            elif there != [name]:
                out.add("name")
            if there and left[there[0]] != file.now:
                out.add("content")
        if any(it in left and it not in self.files for file in self.removed for it in file.names):
            out.add("removed")
        return out


def wrong_under(there, file, left, which):
    """Returns what is wrong with a file that stands under these names."""
    wrong = [f"name stands as {' and '.join(there)}{which}"] if len(there) > 1 else []
    found = [(it, file.wrong(left[it])) for it in there]
    return wrong + [f"{it}{which}: {why}" for it, why in found if why]
