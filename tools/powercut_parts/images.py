"""The records of a disk, and the images that a power cut may leave of it."""
import errno
import mmap
import os
import struct

import native

WRITE, ZERO, FLUSH, FAILED = 1, 2, 3, 4
HEAD = struct.Struct("<3Q")
PIECE = 1 << 20


def copy(path, to, is_sparse=False):
    """Copies a file with its holes; unless it is known to be sparse, ranges of zeros become holes too."""
    source, target = os.open(path, os.O_RDONLY), os.open(to, os.O_RDWR | os.O_CREAT | os.O_TRUNC, 0o600)
    size = os.fstat(source).st_size
    os.ftruncate(target, size)
    for start, end in data_ranges(source, size):
        for at in range(start, end, PIECE):
            piece = os.pread(source, min(end - at, PIECE), at)
            if is_sparse or piece.count(0) != len(piece):
                os.pwrite(target, piece, at)
    os.close(source)
    os.close(target)


def data_ranges(fd, size):
    """Gives the ranges of a file that are no holes."""
    end = 0
    while end < size:
        try:
            start = os.lseek(fd, end, os.SEEK_DATA)
        except OSError as e:
            if e.errno == errno.ENXIO:
                return
            raise
        end = os.lseek(fd, start, os.SEEK_HOLE)
        yield start, end


def records_of(path):
    """Returns the records, in order: kind, offset, length, bytes."""
    with open(path, "rb") as it:
        if os.fstat(it.fileno()).st_size == 0:
            return []
        held = memoryview(mmap.mmap(it.fileno(), 0, prot=mmap.PROT_READ))
    at, out = 0, []
    while at < len(held):
        kind, offset, length = HEAD.unpack_from(held, at)
        at += HEAD.size
        data = held[at : at + length] if kind == WRITE else None
        at += length if kind == WRITE else 0
        out.append((kind, offset, length, data))
    return out


def apply(fd, record):
    """Does what a record says."""
    kind, offset, length, data = record
    if kind == WRITE:
        os.pwrite(fd, data, offset)
    elif kind == ZERO:
        native.punch(fd, offset, length)


def tear(fd, record, chance, sector, is_junk):
    """Does a part of what a record says: some of its sectors; or all but one, which gets bytes that nobody wrote."""
    kind, offset, length, data = record
    starts = range(0, length, sector)
    junk = chance.choice(starts) if is_junk else None
    for at in starts:
        size = min(sector, length - at)
        if at == junk:
            os.pwrite(fd, chance.randbytes(size), offset + at)
        elif is_junk or chance.random() < 0.5:
            os.pwrite(fd, data[at : at + size] if kind == WRITE else bytes(size), offset + at)


class Cuts:
    """The images of a recording, of later and later moments."""

    def __init__(self, image, records, cover, room):
        self.records, self.cover, self.durable, self.image = records, cover, f"{room}/durable.img", f"{room}/cut.img"
        copy(image, self.durable)
        self.fd, self.seen, self.loose = os.open(self.durable, os.O_RDWR), 0, []

    def move_to(self, k):
        """Goes to the moment after the first k records. `loose` has the writes then that no flush among them covers."""
        waiting = self.loose + [i for i in range(self.seen, k) if self.records[i][0] in (WRITE, ZERO)]
        self.seen, self.loose = k, []
        for i in waiting:
            if self.cover[i] is not None and self.cover[i] < k:
                apply(self.fd, self.records[i])
            else:
                self.loose.append(i)

    def build(self, chosen, torn, how):
        """Builds the image that has the chosen ones of the loose writes, one of them torn; returns its path."""
        copy(self.durable, self.image, is_sparse=True)
        fd = os.open(self.image, os.O_RDWR)
        for i in chosen:
            if i == torn:
                tear(fd, self.records[i], *how)
            else:
                apply(fd, self.records[i])
        os.close(fd)
        return self.image

    def end(self):
        os.close(self.fd)
