/* Counts the commits of a program that is run with this before the C library (LD_PRELOAD): a commit ends with a write of one
   byte, its gate. The count stands in the first 8 bytes of the file that SYNCS names, so that it is there however the program
   ends; the syncs stand in the next 8. */
#define _GNU_SOURCE
#include <dlfcn.h>
#include <fcntl.h>
#include <stdlib.h>
#include <sys/mman.h>
#include <unistd.h>
static unsigned long none[2], *count = none;
__attribute__((constructor)) static void begin(void) {
  const char *path = getenv("SYNCS");
  int fd = path ? open(path, O_RDWR | O_CREAT, 0644) : -1;
  if (fd < 0 || ftruncate(fd, 16)) return;
  void *at = mmap(0, 16, PROT_READ | PROT_WRITE, MAP_SHARED, fd, 0);
  if (at != MAP_FAILED) count = at;
  close(fd);
}
ssize_t pwrite(int fd, const void *bytes, size_t n, off_t at) {
  static ssize_t (*real)(int, const void *, size_t, off_t);
  if (!real) real = (ssize_t (*)(int, const void *, size_t, off_t))dlsym(RTLD_NEXT, "pwrite");
  if (n == 1) __atomic_fetch_add(&count[0], 1, __ATOMIC_RELAXED);
  return real(fd, bytes, n, at);
}
static int synced(int fd, const char *name, int (**real)(int)) {
  if (!*real) *real = (int (*)(int))dlsym(RTLD_NEXT, name);
  __atomic_fetch_add(&count[1], 1, __ATOMIC_RELAXED);
  return (*real)(fd);
}
int fsync(int fd) { static int (*real)(int); return synced(fd, "fsync", &real); }
int fdatasync(int fd) { static int (*real)(int); return synced(fd, "fdatasync", &real); }
