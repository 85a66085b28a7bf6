// A file system of one file, `disk`, that records what is done to it, and fails writes when asked to.
//
// usage: recorder IMAGE RECORDS SHARED MOUNTPOINT [fuse options]
//
// IMAGE holds the bytes of the file. Each write, each range made zero and each flush is appended to RECORDS in the order
// in which they are done: a head of 24 bytes (kind, offset, length; 8 bytes each, little-endian), and the bytes of a write.
// A loop device on the file turns each write of a file system into a write here, and each flush of the disk's cache into
// an fsync. SHARED is a file of 32 bytes that others map: how many records were begun, how many are done, how many of the
// next writes are to fail, and how many have failed. A write that fails changes nothing, is recorded without its bytes, and
// is answered with EIO. It is to be run with -s (one request after the other).
#define FUSE_USE_VERSION 31
#define _GNU_SOURCE
#include <errno.h>
#include <fcntl.h>
#include <fuse.h>
#include <stdint.h>
#include <stdio.h>
#include <stdlib.h>
#include <string.h>
#include <sys/mman.h>
#include <sys/stat.h>
#include <sys/uio.h>
#include <unistd.h>

enum { WRITE = 1, ZERO = 2, FLUSH = 3, FAILED = 4 };
enum { BEGUN = 0, DONE = 1, TO_FAIL = 2, HAVE_FAILED = 3, WORDS = 4 };
static int image, records;
static volatile uint64_t *shared;

static void add(int word, uint64_t more) { __atomic_add_fetch(&shared[word], more, __ATOMIC_SEQ_CST); }

static void begin(void) { add(BEGUN, 1); }

static void end(uint64_t kind, uint64_t offset, uint64_t length, const char *bytes) {
    uint64_t head[3] = {kind, offset, length};
    struct iovec parts[2] = {{head, sizeof head}, {(void *)bytes, bytes ? length : 0}};
    ssize_t whole = sizeof head + parts[1].iov_len;
    if (writev(records, parts, 2) != whole) {
        perror("recorder: records");
        abort();
    }
    add(DONE, 1);
}

static int is_disk(const char *path) { return strcmp(path, "/disk") == 0; }

static int do_getattr(const char *path, struct stat *st, struct fuse_file_info *fi) {
    (void)fi;
    memset(st, 0, sizeof *st);
    if (strcmp(path, "/") == 0) {
        st->st_mode = S_IFDIR | 0700;
        st->st_nlink = 2;
        return 0;
    }
    struct stat under;
    if (!is_disk(path) || fstat(image, &under) != 0) return -ENOENT;
    st->st_mode = S_IFREG | 0600;
    st->st_nlink = 1;
    st->st_size = under.st_size;
    return 0;
}

static int do_readdir(const char *path, void *buf, fuse_fill_dir_t fill, off_t at, struct fuse_file_info *fi, enum fuse_readdir_flags flags) {
    (void)path, (void)at, (void)fi, (void)flags;
    fill(buf, "disk", NULL, 0, 0);
    return 0;
}

static int do_open(const char *path, struct fuse_file_info *fi) {
    (void)fi;
    return is_disk(path) ? 0 : -ENOENT;
}

static int do_read(const char *path, char *into, size_t size, off_t at, struct fuse_file_info *fi) {
    (void)path, (void)fi;
    ssize_t n = pread(image, into, size, at);
    return n < 0 ? -errno : (int)n;
}

static int is_to_fail(void) {
    if (!__atomic_load_n(&shared[TO_FAIL], __ATOMIC_SEQ_CST)) return 0;
    add(TO_FAIL, -1);
    add(HAVE_FAILED, 1);
    return 1;
}

static int do_write(const char *path, const char *bytes, size_t size, off_t at, struct fuse_file_info *fi) {
    (void)path, (void)fi;
    begin();
    if (is_to_fail()) {
        end(FAILED, at, size, NULL);
        return -EIO;
    }
    ssize_t n = pwrite(image, bytes, size, at);
    if (n != (ssize_t)size) {
        perror("recorder: image");
        abort();
    }
    end(WRITE, at, size, bytes);
    return (int)n;
}

static int do_fsync(const char *path, int data, struct fuse_file_info *fi) {
    (void)path, (void)data, (void)fi;
    begin();
    end(FLUSH, 0, 0, NULL);
    return 0;
}

static int do_fallocate(const char *path, int mode, off_t at, off_t size, struct fuse_file_info *fi) {
    (void)path, (void)fi;
    if (!(mode & (FALLOC_FL_PUNCH_HOLE | FALLOC_FL_ZERO_RANGE))) return -EOPNOTSUPP;
    begin();
    if (fallocate(image, FALLOC_FL_PUNCH_HOLE | FALLOC_FL_KEEP_SIZE, at, size) != 0) {
        perror("recorder: hole");
        abort();
    }
    end(ZERO, at, size, NULL);
    return 0;
}

static void *do_init(struct fuse_conn_info *conn, struct fuse_config *config) {
    conn->max_write = 1 << 20;
    config->kernel_cache = 0;
    config->direct_io = 1;
    return NULL;
}

static const struct fuse_operations calls = {
    .init = do_init, .getattr = do_getattr, .readdir = do_readdir, .open = do_open, .read = do_read,
    .write = do_write, .fsync = do_fsync, .fallocate = do_fallocate,
};

int main(int argc, char **argv) {
    if (argc < 5) {
        fprintf(stderr, "usage: recorder IMAGE RECORDS SHARED MOUNTPOINT [fuse options]\n");
        return 2;
    }
    image = open(argv[1], O_RDWR);
    records = open(argv[2], O_WRONLY | O_CREAT | O_APPEND, 0600);
    int file = open(argv[3], O_RDWR | O_CREAT, 0600);
    if (image < 0 || records < 0 || file < 0 || ftruncate(file, WORDS * 8) != 0) {
        perror("recorder");
        return 1;
    }
    shared = mmap(NULL, WORDS * 8, PROT_READ | PROT_WRITE, MAP_SHARED, file, 0);
    if (shared == MAP_FAILED) {
        perror("recorder");
        return 1;
    }
    argv[3] = argv[0];
    return fuse_main(argc - 3, argv + 3, &calls, NULL);
}
