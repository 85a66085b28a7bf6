"""The file systems that are tried, and what a machine has to have for them."""
import os
import shutil

import native

EXT4 = "mkfs.ext4 -q -F -N 2048 -E lazy_itable_init=0,lazy_journal_init=0"

# Of each kind: the size of its image in MiB, how it is made, the type to mount, the options. (Recordings of one xfs may be tried side
# by side, hence nouuid.)
KINDS = {
    "ext4": (96, f"{EXT4} -b 4096 -J size=8", "ext4", ""),
    "ext4-journal": (96, f"{EXT4} -b 4096 -J size=8", "ext4", "data=journal"),
    "ext4-1k": (96, f"{EXT4} -b 1024 -J size=4", "ext4", ""),
    "ext4-fast": (96, f"{EXT4} -b 4096 -J size=8 -O fast_commit", "ext4", ""),
    "xfs": (300, "mkfs.xfs -q -f", "xfs", "nouuid"),
    "xfs-4k": (300, "mkfs.xfs -q -f -s size=4096", "xfs", "nouuid"),
    "btrfs": (256, "mkfs.btrfs -q -f", "btrfs", ""),
    "btrfs-nocow": (256, "mkfs.btrfs -q -f", "btrfs", "nodatacow"),
    "btrfs-zstd": (256, "mkfs.btrfs -q -f", "btrfs", "compress-force=zstd"),
}


def make(kind, path):
    """Makes an empty file system of this kind in a new file."""
    size, how, _, _ = KINDS[kind]
    with open(path, "wb") as it:
        it.truncate(size << 20)
    native.ran(*how.split(), path)


def lacking(kinds):
    """Returns what the trial wants and this machine doesn't have."""
    with open("/proc/filesystems", encoding="utf-8") as it:
        known = it.read().split()
    wanted = {"root": os.geteuid() == 0, "FUSE (/dev/fuse)": os.path.exists("/dev/fuse")}
    wanted |= {"loop devices (/dev/loop-control)": os.path.exists("/dev/loop-control"), "tracefs in the kernel": "tracefs" in known}
    wanted |= {it: shutil.which(it) for it in ("cc", "pkg-config", "fusermount3")}
    if shutil.which("pkg-config"):
        wanted["libfuse3 with its headers"] = has_fuse()
    for kind in kinds:
        _, how, named, _ = KINDS[kind]
        wanted |= {how.split()[0]: shutil.which(how.split()[0]), f"{named} in the kernel": named in known}
    return [it for it, there in wanted.items() if not there]


def has_fuse():
    try:
        native.ran("pkg-config", "--exists", "fuse3")
        return True
    except OSError:
        return False
