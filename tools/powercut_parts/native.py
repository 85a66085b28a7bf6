"""The system's calls for loop devices, mounts and holes in files."""
import ctypes
import errno
import fcntl
import glob
import os
import struct
import subprocess
import time

LIBC = ctypes.CDLL(None, use_errno=True)
LIBC.fallocate.argtypes = [ctypes.c_int, ctypes.c_int, ctypes.c_int64, ctypes.c_int64]
KEEP_SIZE, PUNCH_HOLE = 1, 2
NEW_NAMESPACE, PRIVATE_BELOW, DETACH = 0x20000, 1 << 18 | 1 << 14, 2
# (calls of loop devices, and the flag of one that is freed once nobody holds it)
GET_FREE, CONFIGURE, AUTOCLEAR = 0x4C82, 0x4C0A, 4

def ran(*words):
    """Runs a command that has to end well, and returns what it printed."""
    done = subprocess.run(words, capture_output=True, text=True)
    if done.returncode:
        raise OSError(f"{' '.join(words)}: {done.stderr.strip()[:300]}")
    return done.stdout.strip()


def failure(what):
    return OSError(ctypes.get_errno(), f"{what}: {os.strerror(ctypes.get_errno())}")


def punch(fd, offset, length):
    """Makes a range of a file zero."""
    if LIBC.fallocate(fd, KEEP_SIZE | PUNCH_HOLE, offset, length):
        raise failure("fallocate")


def mount(source, at, kind, options=""):
    if LIBC.mount(source.encode(), at.encode(), kind.encode(), 0, options.encode()):
        raise failure(f"mount {kind}")


def unmount(at):
    """Waits for up to a minute while the mount is busy."""
    for _ in range(1200):
        if LIBC.umount2(at.encode(), 0) == 0:
            return
        time.sleep(0.05)
    raise failure(f"{at} stays mounted")


def detach(at):
    """Takes a mount down at once, though a loop device may hold a file of it for a while."""
    if LIBC.umount2(at.encode(), DETACH):
        raise failure(f"{at} stays mounted")


def attached(path):
    """Returns a loop device on the file, and a descriptor that holds it: it goes once that is closed and nothing is mounted."""
    control = os.open("/dev/loop-control", os.O_RDWR)
    file = os.open(path, os.O_RDWR)
    try:
        # (another program may take the device in between)
        for _ in range(1000):
            device = f"/dev/loop{fcntl.ioctl(control, GET_FREE)}"
            held = configured(device, file)
            if held is not None:
                return device, held
            time.sleep(0.002)
        raise OSError(errno.EBUSY, "no loop device is free")
    finally:
        os.close(file)
        os.close(control)


def configured(device, file):
    """Returns a descriptor of the device, bound to the file, or None where another program has taken it."""
    held = os.open(device, os.O_RDWR)
    try:
        fcntl.ioctl(held, CONFIGURE, struct.pack("<II52xI", file, 0, AUTOCLEAR).ljust(304, b"\0"))
        return held
    except OSError as e:
        os.close(held)
        if e.errno != errno.EBUSY:
            raise
        return None


def hide_mounts():
    """Gives this process and those that it starts mounts of their own: they end with the last of these processes."""
    if LIBC.unshare(NEW_NAMESPACE) or LIBC.mount(b"none", b"/", None, PRIVATE_BELOW, None):
        raise failure("unshare")


def release(room):
    """Takes down what is still mounted below a folder, the last first."""
    with open("/proc/self/mounts", encoding="utf-8") as it:
        below = [at for at in (line.split(" ")[1] for line in it) if at.startswith(f"{room}/")]
    for at in reversed(below):
        # (an instance of the kernel's trace outlives its mount)
        for it in glob.glob(f"{at}/instances/powercuts-{os.getpid()}"):
            os.rmdir(it)
        unmount(at)
