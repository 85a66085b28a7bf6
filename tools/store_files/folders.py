"""The files of a folder, read under the lock that a program shares which reads."""
import fcntl
import os

from .names import parse


class InUse(Exception):
    """Another program writes the store."""


class Folder:
    """A folder whose lock is held, shared, until `close`. Files that have no name of a store are passed over, as are folders and pipes."""

    def __init__(self, path):
        self.path = os.path.realpath(path)
        self.lock = os.open(self.path, os.O_RDONLY | os.O_DIRECTORY)
        try:
            fcntl.flock(self.lock, fcntl.LOCK_SH | fcntl.LOCK_NB)
        except BlockingIOError:
            self.close()
            raise InUse(f"another program uses the store {self.path}") from None
        self.names = sorted(name for name in map(parse, os.listdir(self.lock)) if name and os.path.isfile(self.path_of(name)))

    def __enter__(self):
        return self

    def __exit__(self, *_):
        self.close()

    def close(self):
        os.close(self.lock)

    def path_of(self, name):
        return os.path.join(self.path, str(name))

    def read(self, name):
        with open(self.path_of(name), "rb") as file:
            return file.read()
