/* Loaded before the C library: writes down what a program does to its disk, and refuses one call of it.

   DISK_TELL names a file to which each write at a place and each sync that succeeds is appended: a W, the offset and the size in 8 bytes each, and the
   bytes; or an S. DISK_AT is the number of the call that fails, from 1 on, among the opens for writing, the reads and writes at a place, the lengths
   and the syncs; DISK_HALF, where it is set, lets a write that fails leave the first half of its bytes. DISK_COUNT names a file to which the count of
   calls is written at the end. */
#define _GNU_SOURCE
#include <errno.h>
#include <fcntl.h>
#include <stdarg.h>
#include <stdint.h>
#include <stdio.h>
#include <stdlib.h>
#include <string.h>
#include <sys/stat.h>
#include <sys/syscall.h>
#include <unistd.h>

static unsigned long made;

static int is_refused(void) {
    const char *at = getenv("DISK_AT");
    made++;
    if (!at || strtoul(at, NULL, 10) != made)
        return 0;
    errno = EIO;
    return 1;
}

/* Appends bytes to the file of DISK_TELL. */
static void tell(const char *bytes, size_t size) {
    const char *path = getenv("DISK_TELL");
    int file = path ? (int)syscall(SYS_openat, AT_FDCWD, path, O_WRONLY | O_CREAT | O_APPEND, 0600) : -1;
    if (file < 0)
        return;
    if (syscall(SYS_write, file, bytes, size) != (long)size)
        abort();
    syscall(SYS_close, file);
}

static void tell_write(uint64_t at, const void *from, uint64_t size) {
    char *bytes = malloc(17 + size);
    if (!bytes)
        abort();
    bytes[0] = 'W';
    memcpy(bytes + 1, &at, 8);
    memcpy(bytes + 9, &size, 8);
    memcpy(bytes + 17, from, size);
    tell(bytes, 17 + size);
    free(bytes);
}

__attribute__((destructor)) static void tell_count(void) {
    const char *path = getenv("DISK_COUNT");
    char text[32];
    int file = path ? (int)syscall(SYS_openat, AT_FDCWD, path, O_WRONLY | O_CREAT | O_TRUNC, 0600) : -1;
    if (file < 0)
        return;
    int size = snprintf(text, sizeof text, "%lu\n", made);
    if (syscall(SYS_write, file, text, size) != size)
        abort();
    syscall(SYS_close, file);
}

static ssize_t written(int file, const void *from, size_t size, off_t at) {
    if (is_refused()) {
        if (getenv("DISK_HALF"))
            syscall(SYS_pwrite64, file, from, size / 2, at);
        errno = EIO;
        return -1;
    }
    ssize_t done = syscall(SYS_pwrite64, file, from, size, at);
    if (done > 0)
        tell_write((uint64_t)at, from, (uint64_t)done);
    return done;
}

ssize_t pwrite(int file, const void *from, size_t size, off_t at) { return written(file, from, size, at); }
ssize_t pwrite64(int file, const void *from, size_t size, off64_t at) { return written(file, from, size, at); }

ssize_t pread(int file, void *into, size_t size, off_t at) { return is_refused() ? -1 : syscall(SYS_pread64, file, into, size, at); }
ssize_t pread64(int file, void *into, size_t size, off64_t at) { return is_refused() ? -1 : syscall(SYS_pread64, file, into, size, at); }

static int synced(int file, long call) {
    if (is_refused())
        return -1;
    int done = (int)syscall(call, file);
    if (done == 0)
        tell("S", 1);
    return done;
}

int fsync(int file) { return synced(file, SYS_fsync); }
int fdatasync(int file) { return synced(file, SYS_fdatasync); }

int statx(int folder, const char *restrict path, int flags, unsigned mask, struct statx *restrict found) {
    return is_refused() ? -1 : (int)syscall(SYS_statx, folder, path, flags, mask, found);
}

/* Opens for writing alone are counted. */
static int opened(int folder, const char *path, int flags, mode_t mode) {
    if ((flags & O_ACCMODE) == O_RDWR && is_refused())
        return -1;
    return (int)syscall(SYS_openat, folder, path, flags, mode);
}

#define MODE(flags, mode) \
    mode_t mode = 0; \
    if ((flags) & (O_CREAT | O_TMPFILE)) { va_list more; va_start(more, flags); mode = va_arg(more, mode_t); va_end(more); }

int open(const char *path, int flags, ...) { MODE(flags, mode) return opened(AT_FDCWD, path, flags, mode); }
int open64(const char *path, int flags, ...) { MODE(flags, mode) return opened(AT_FDCWD, path, flags, mode); }
int openat(int folder, const char *path, int flags, ...) { MODE(flags, mode) return opened(folder, path, flags, mode); }
int openat64(int folder, const char *path, int flags, ...) { MODE(flags, mode) return opened(folder, path, flags, mode); }
