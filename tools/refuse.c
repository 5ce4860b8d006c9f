/* Loaded before the C library: refuses one call, or each from one on, of a program.

   REFUSE names the kind: allocation (malloc, calloc, realloc, aligned_alloc, posix_memalign), read (read, recv, recvfrom), write (write, send, sendto).
   REFUSE_AT is the number of the call that fails, from 1 on; REFUSE_ALL, where it is set, lets all behind it fail too.
   REFUSE_WORD, where it is set, is the first word of the programs that are meant; children with another one are left alone.
   REFUSE_TELL names a file to which the count of calls of this kind is written at the end. */
#define _GNU_SOURCE
#include <dlfcn.h>
#include <errno.h>
#include <fcntl.h>
#include <stdio.h>
#include <stdlib.h>
#include <string.h>
#include <sys/socket.h>
#include <sys/syscall.h>
#include <unistd.h>

static unsigned long made, fails_at;
static int ready, fails_on;
static char kind;

/* Whether this program's first word is the one that is meant. */
static int is_meant(const char *word) {
    char text[4096] = {0};
    int file = word ? open("/proc/self/cmdline", O_RDONLY) : -1;
    if (file < 0)
        return 1;
    long size = syscall(SYS_read, file, text, sizeof text - 1);
    close(file);
    return size > 0 && strcmp(text + strlen(text) + 1, word) == 0;
}

static void prepare(void) {
    const char *word = getenv("REFUSE"), *at = getenv("REFUSE_AT");
    ready = 1;
    kind = word && is_meant(getenv("REFUSE_WORD")) ? word[0] : 0;
    fails_at = at ? strtoul(at, NULL, 10) : 0;
    fails_on = getenv("REFUSE_ALL") != NULL;
}

static int is_refused(char of) {
    if (!ready)
        prepare();
    if (kind != of)
        return 0;
    made++;
    return made == fails_at || (fails_on && fails_at != 0 && made > fails_at);
}

__attribute__((destructor)) static void tell(void) {
    const char *path = getenv("REFUSE_TELL");
    char text[32];
    int file = path ? open(path, O_WRONLY | O_CREAT | O_TRUNC, 0600) : -1;
    if (file < 0)
        return;
    int size = snprintf(text, sizeof text, "%lu\n", made);
    kind = 0;
    if (write(file, text, (size_t)size) != size)
        abort();
    close(file);
}

extern void *__libc_malloc(size_t), *__libc_calloc(size_t, size_t), *__libc_realloc(void *, size_t), *__libc_memalign(size_t, size_t);

static void *no_memory(void) {
    errno = ENOMEM;
    return NULL;
}

void *malloc(size_t size) { return is_refused('a') ? no_memory() : __libc_malloc(size); }
void *calloc(size_t count, size_t size) { return is_refused('a') ? no_memory() : __libc_calloc(count, size); }
void *realloc(void *old, size_t size) { return is_refused('a') ? no_memory() : __libc_realloc(old, size); }
void *aligned_alloc(size_t align, size_t size) { return is_refused('a') ? no_memory() : __libc_memalign(align, size); }

int posix_memalign(void **into, size_t align, size_t size) {
    void *found = is_refused('a') ? NULL : __libc_memalign(align, size);
    if (!found)
        return ENOMEM;
    *into = found;
    return 0;
}

#define REAL(name) ((__typeof__(&name))dlsym(RTLD_NEXT, #name))

ssize_t read(int file, void *into, size_t size) {
    static ssize_t (*real)(int, void *, size_t);
    if (!real)
        real = REAL(read);
    if (!is_refused('r'))
        return real(file, into, size);
    errno = EIO;
    return -1;
}

ssize_t write(int file, const void *from, size_t size) {
    static ssize_t (*real)(int, const void *, size_t);
    if (!real)
        real = REAL(write);
    if (!is_refused('w'))
        return real(file, from, size);
    errno = EIO;
    return -1;
}

ssize_t recv(int file, void *into, size_t size, int flags) {
    static __typeof__(&recv) real;
    if (!real)
        real = REAL(recv);
    if (!is_refused('r'))
        return real(file, into, size, flags);
    errno = EIO;
    return -1;
}

ssize_t recvfrom(int file, void *into, size_t size, int flags, struct sockaddr *who, socklen_t *length) {
    static __typeof__(&recvfrom) real;
    if (!real)
        real = REAL(recvfrom);
    if (!is_refused('r'))
        return real(file, into, size, flags, who, length);
    errno = EIO;
    return -1;
}

ssize_t send(int file, const void *from, size_t size, int flags) {
    static __typeof__(&send) real;
    if (!real)
        real = REAL(send);
    if (!is_refused('w'))
        return real(file, from, size, flags);
    errno = EIO;
    return -1;
}

ssize_t sendto(int file, const void *from, size_t size, int flags, const struct sockaddr *to, socklen_t length) {
    static __typeof__(&sendto) real;
    if (!real)
        real = REAL(sendto);
    if (!is_refused('w'))
        return real(file, from, size, flags, to, length);
    errno = EIO;
    return -1;
}
