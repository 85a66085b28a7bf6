// A library for LD_PRELOAD that notes each call of a program that changes or pins files, and leaves out or fails syncs.
//
// POWERCUT_CALLS is the file to which notes are appended, POWERCUT_SHARED the recorder's file of counts. A note is written
// before the call and one after it, each with how many records the recorder had done at that moment. A note's head has
// nine numbers of 8 bytes (little-endian): phase (0 before, 1 after), thread, call, result, records done, offset, and the
// lengths of a path, of a second path and of bytes, which follow.
//
// POWERCUT_SKIP leaves calls out that the program believes were made, so that the trial is seen to find what they guard:
// `files` (each fsync of a file), `writes` (every other one), `folders` (fsync of a folder), `around` (fsync of the working
// directory alone), `copies` (fsync of a NAME.part).
//
// POWERCUT_FAIL is `NAME N`: while the Nth fsync of the file or folder NAME runs (`*`: of any), the first write that
// reaches the disk fails.
#define _GNU_SOURCE
#include <errno.h>
#include <fcntl.h>
#include <limits.h>
#include <stdarg.h>
#include <stdint.h>
#include <stdio.h>
#include <stdlib.h>
#include <string.h>
#include <sys/mman.h>
#include <sys/stat.h>
#include <sys/syscall.h>
#include <sys/uio.h>
#include <unistd.h>

enum { CREATE = 1, WRITE = 2, SYNC = 3, RENAME = 4, REMOVE = 5, MKDIR = 6, TRUNCATE = 7 };
enum { DONE = 1, TO_FAIL = 2, WORDS = 4 };
static int notes = -1;
static volatile uint64_t *shared;
static const char *skip = "";
static char fail_name[256];
static int fail_turn;

__attribute__((constructor)) static void start(void) {
    const char *to = getenv("POWERCUT_CALLS"), *of = getenv("POWERCUT_SHARED"), *less = getenv("POWERCUT_SKIP"), *fail = getenv("POWERCUT_FAIL");
    if (!to || !of) return;
    if (less) skip = less;
    if (fail && sscanf(fail, "%255s %d", fail_name, &fail_turn) != 2) fail_turn = 0;
    int file = (int)syscall(SYS_openat, AT_FDCWD, of, O_RDWR | O_CLOEXEC);
    void *map = mmap(NULL, WORDS * 8, PROT_READ | PROT_WRITE, MAP_SHARED, file, 0);
    // A descriptor above those that a program takes first.
    int low = (int)syscall(SYS_openat, AT_FDCWD, to, O_WRONLY | O_APPEND | O_CREAT | O_CLOEXEC, 0600);
    notes = fcntl(low, F_DUPFD_CLOEXEC, 200);
    syscall(SYS_close, low);
    syscall(SYS_close, file);
    if (map == MAP_FAILED || notes < 0) {
        perror("powercuts: calls");
        abort();
    }
    shared = map;
}

static void note(uint64_t phase, uint64_t call, int64_t result, uint64_t offset, const char *path, const char *second, const void *bytes, size_t length) {
    if (notes < 0) return;
    int kept = errno;
    uint64_t head[9] = {phase, (uint64_t)syscall(SYS_gettid), call, (uint64_t)result, shared[DONE], offset, strlen(path), strlen(second), length};
    struct iovec parts[4] = {{head, sizeof head}, {(void *)path, head[6]}, {(void *)second, head[7]}, {(void *)bytes, length}};
    if (writev(notes, parts, 4) != (ssize_t)(sizeof head + head[6] + head[7] + length)) {
        perror("powercuts: notes");
        abort();
    }
    errno = kept;
}

static void whole_path(char *into, const char *path) {
    int kept = errno;
    if (path[0] == '/') snprintf(into, PATH_MAX, "%s", path);
    else {
        char here[PATH_MAX / 2];
        if (!getcwd(here, sizeof here)) here[0] = 0;
        snprintf(into, PATH_MAX, "%s/%s", here, path);
    }
    errno = kept;
}

static void path_of(char *into, int fd) {
    int kept = errno;
    char link[64];
    snprintf(link, sizeof link, "/proc/self/fd/%d", fd);
    ssize_t n = readlink(link, into, PATH_MAX - 1);
    into[n < 0 ? 0 : n] = 0;
    errno = kept;
}

static int opened(int at, const char *path, int flags, mode_t mode) {
    if (!(flags & O_CREAT)) return (int)syscall(SYS_openat, at, path, flags, mode);
    char whole[PATH_MAX];
    whole_path(whole, path);
    note(0, CREATE, 0, 0, whole, "", NULL, 0);
    int fd = (int)syscall(SYS_openat, at, path, flags, mode);
    note(1, CREATE, fd, 0, whole, "", NULL, 0);
    return fd;
}

#define OPEN(name)                                            \
    int name(const char *path, int flags, ...) {              \
        va_list more;                                         \
        va_start(more, flags);                                \
        mode_t mode = flags & (O_CREAT | O_TMPFILE) ? va_arg(more, mode_t) : 0; \
        va_end(more);                                         \
        return opened(AT_FDCWD, path, flags, mode);           \
    }
OPEN(open)
OPEN(open64)

#define OPENAT(name)                                          \
    int name(int at, const char *path, int flags, ...) {      \
        va_list more;                                         \
        va_start(more, flags);                                \
        mode_t mode = flags & (O_CREAT | O_TMPFILE) ? va_arg(more, mode_t) : 0; \
        va_end(more);                                         \
        return opened(at, path, flags, mode);                 \
    }
OPENAT(openat)
OPENAT(openat64)

static ssize_t written(int fd, const void *bytes, size_t length, off_t at) {
    char path[PATH_MAX];
    path_of(path, fd);
    note(0, WRITE, 0, at, path, "", bytes, length);
    ssize_t n = syscall(SYS_pwrite64, fd, bytes, length, at);
    note(1, WRITE, n, at, path, "", NULL, 0);
    return n;
}
ssize_t pwrite(int fd, const void *bytes, size_t length, off_t at) { return written(fd, bytes, length, at); }
ssize_t pwrite64(int fd, const void *bytes, size_t length, off64_t at) { return written(fd, bytes, length, at); }

static int is_copy(const char *path) {
    const char *dot = strrchr(path, '.');
    return dot && !strcmp(dot, ".part");
}

static int is_left_out(int fd, const char *path) {
    static int turn;
    struct stat st;
    if (!skip[0] || fstat(fd, &st) != 0) return 0;
    if (S_ISDIR(st.st_mode)) {
        char here[PATH_MAX];
        if (!getcwd(here, sizeof here)) return 0;
        return !strcmp(skip, "folders") || (!strcmp(skip, "around") && !strcmp(path, here));
    }
    if (!strcmp(skip, "copies")) return is_copy(path);
    return !strcmp(skip, "files") || (!strcmp(skip, "writes") && __atomic_fetch_add(&turn, 1, __ATOMIC_SEQ_CST) % 2);
}

static int is_to_fail(const char *path) {
    static int turn;
    const char *slash = strrchr(path, '/');
    if (!fail_turn || (strcmp(fail_name, "*") && strcmp(fail_name, slash ? slash + 1 : path))) return 0;
    return __atomic_add_fetch(&turn, 1, __ATOMIC_SEQ_CST) == fail_turn;
}

static int synced(int fd, long number) {
    char path[PATH_MAX];
    path_of(path, fd);
    int fails = is_to_fail(path);
    note(0, SYNC, 0, 0, path, "", NULL, 0);
    if (fails) __atomic_store_n(&shared[TO_FAIL], 1, __ATOMIC_SEQ_CST);
    int status = is_left_out(fd, path) ? 0 : (int)syscall(number, fd);
    if (fails) __atomic_store_n(&shared[TO_FAIL], 0, __ATOMIC_SEQ_CST);
    note(1, SYNC, status, 0, path, "", NULL, 0);
    return status;
}
int fsync(int fd) { return synced(fd, SYS_fsync); }
int fdatasync(int fd) { return synced(fd, SYS_fdatasync); }

int rename(const char *from, const char *to) {
    char old[PATH_MAX], new[PATH_MAX];
    whole_path(old, from);
    whole_path(new, to);
    note(0, RENAME, 0, 0, old, new, NULL, 0);
    int status = (int)syscall(SYS_renameat2, AT_FDCWD, from, AT_FDCWD, to, 0);
    note(1, RENAME, status, 0, old, new, NULL, 0);
    return status;
}

int unlink(const char *path) {
    char whole[PATH_MAX];
    whole_path(whole, path);
    note(0, REMOVE, 0, 0, whole, "", NULL, 0);
    int status = (int)syscall(SYS_unlinkat, AT_FDCWD, path, 0);
    note(1, REMOVE, status, 0, whole, "", NULL, 0);
    return status;
}

int mkdir(const char *path, mode_t mode) {
    char whole[PATH_MAX];
    whole_path(whole, path);
    note(0, MKDIR, 0, 0, whole, "", NULL, 0);
    int status = (int)syscall(SYS_mkdirat, AT_FDCWD, path, mode);
    note(1, MKDIR, status, 0, whole, "", NULL, 0);
    return status;
}

static int cut(int fd, off_t length) {
    char path[PATH_MAX];
    path_of(path, fd);
    note(0, TRUNCATE, 0, length, path, "", NULL, 0);
    int status = (int)syscall(SYS_ftruncate, fd, length);
    note(1, TRUNCATE, status, length, path, "", NULL, 0);
    return status;
}
int ftruncate(int fd, off_t length) { return cut(fd, length); }
int ftruncate64(int fd, off64_t length) { return cut(fd, length); }
