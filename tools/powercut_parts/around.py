"""What happens around the program on the file system that it works on."""
import errno
import os
import random
import threading
import time

import native


class Noise(threading.Thread):
    """Another program: writes, renames, removes and syncs files of its own."""

    def __init__(self, folder, seed):
        super().__init__(daemon=True)
        self.folder, self.chance, self.is_over = folder, random.Random(seed), False

    def run(self):
        whole = os.open(self.folder, os.O_RDONLY)
        while not self.is_over:
            self.step(whole, self.chance.random(), f"{self.folder}/n{self.chance.randint(1, 9)}")
            time.sleep(self.chance.choice((0.001, 0.005, 0.02)))
        os.close(whole)

    def step(self, whole, what, name):
        if what < 0.5 or not os.path.exists(name):
            with open(name, "ab") as it:
                it.write(os.urandom(self.chance.randint(1, 9000)))
                it.flush()
                if what < 0.25:
                    os.fsync(it.fileno())
        elif what < 0.65:
            os.rename(name, f"{self.folder}/n{self.chance.randint(1, 9)}")
        elif what < 0.8:
            os.remove(name)
        else:
            native.LIBC.syncfs(whole)

    def end(self):
        self.is_over = True
        self.join()


def fill(at, room):
    """Fills the file system, and makes so many bytes free again."""
    with open(f"{at}/noise/filler", "ab", buffering=0) as it:
        try:
            while True:
                it.write(bytes(1 << 20))
                os.fsync(it.fileno())
        except OSError as e:
            if e.errno != errno.ENOSPC:
                raise
        it.truncate(max(0, os.fstat(it.fileno()).st_size - room))
        os.fsync(it.fileno())


# By a step's word, what it does with the file system and the step's number or name.
AROUND = {
    "pause": lambda at, seconds: time.sleep(seconds),
    "folder": lambda at, name: os.mkdir(f"{at}/work/{name}"),
    "fill": fill,
    "free": lambda at, _: os.remove(f"{at}/noise/filler"),
}
