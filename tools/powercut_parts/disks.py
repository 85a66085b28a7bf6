"""File systems that are mounted from a file, through a loop device, and in part recorded."""
import os
import struct
import subprocess
import time

import images
import kinds
import native
import requests

HERE = os.path.dirname(os.path.realpath(__file__))


def build(into):
    """Builds the recorder and the library, and returns their paths."""
    flags = native.ran("pkg-config", "--cflags", "--libs", "fuse3").split()
    native.ran("cc", "-O2", "-o", f"{into}/recorder", f"{HERE}/recorder.c", *flags)
    native.ran("cc", "-O2", "-shared", "-fPIC", "-o", f"{into}/calls.so", f"{HERE}/calls.c")
    return f"{into}/recorder", f"{into}/calls.so"


class Mount:
    """A file system that is mounted from a file through a loop device."""

    def __init__(self, kind, path, at):
        device, held = native.attached(path)
        try:
            self.mount(kind, device, at)
        finally:
            os.close(held)

    def mount(self, kind, device, at):
        self.at = at
        os.makedirs(at, exist_ok=True)
        _, _, named, options = kinds.KINDS[kind]
        native.mount(device, at, named, options)

    def end(self):
        native.unmount(self.at)


class WatchedMount(Mount):
    """One whose requests are traced. It holds the device until the trace ends, so that nobody else takes it meanwhile."""

    def __init__(self, kind, path, room):
        self.watch = requests.Watch(room)
        device, self.held = native.attached(path)
        self.watch.begin(os.fstat(self.held).st_rdev)
        self.mount(kind, device, f"{room}/mnt")

    def end(self):
        native.unmount(self.at)
        self.watch.end()
        os.close(self.held)


def prepared(kind, room):
    """Makes an empty file system with the folder to work in, durable, and returns its image."""
    image = f"{room}/empty.img"
    kinds.make(kind, image)
    mount = Mount(kind, image, f"{room}/cut")
    for it in ("work", "noise"):
        os.mkdir(f"{mount.at}/{it}")
    mount.end()
    return image


class Recorded:
    """A file system whose writes and flushes are recorded, mounted at `at`. Below it lies a copy of the image."""

    def __init__(self, kind, image, room, recorder):
        self.room, self.live, self.records, self.shared = room, f"{room}/live.img", f"{room}/records", f"{room}/shared"
        images.copy(image, self.live)
        os.makedirs(f"{room}/fuse")
        self.process = subprocess.Popen([recorder, self.live, self.records, self.shared, f"{room}/fuse", "-f", "-s"])
        for _ in range(500):
            if os.path.exists(f"{room}/fuse/disk"):
                break
            time.sleep(0.02)
        self.mount = WatchedMount(kind, f"{room}/fuse/disk", room)
        self.at = self.mount.at

    def done(self):
        """Returns how many records are done."""
        with open(self.shared, "rb") as it:
            return struct.unpack("<2Q", it.read(16))[1]

    def end(self):
        self.mount.end()
        native.detach(f"{self.room}/fuse")
        self.process.wait(120)
        os.remove(self.live)
