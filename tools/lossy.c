/* Loaded before the C library: of the datagrams that a program sends, one in LOSSY (default 5) is lost, as drawn from its process number and the time. */
#define _GNU_SOURCE
#include <dlfcn.h>
#include <stdlib.h>
#include <sys/socket.h>
#include <time.h>
#include <unistd.h>

typedef ssize_t send_call(int, const void *, size_t, int);
typedef ssize_t sendto_call(int, const void *, size_t, int, const struct sockaddr *, socklen_t);

static int is_lost(void) {
    static unsigned seed;
    static int one_in;
    if (one_in == 0) {
        const char *word = getenv("LOSSY");
        one_in = word ? atoi(word) : 5;
        seed = (unsigned)getpid() * 2654435761u ^ (unsigned)time(NULL);
    }
    return rand_r(&seed) % one_in == 0;
}

ssize_t send(int socket, const void *bytes, size_t size, int flags) {
    static send_call *real;
    if (!real)
        real = (send_call *)dlsym(RTLD_NEXT, "send");
    return is_lost() ? (ssize_t)size : real(socket, bytes, size, flags);
}

ssize_t sendto(int socket, const void *bytes, size_t size, int flags, const struct sockaddr *to, socklen_t length) {
    static sendto_call *real;
    if (!real)
        real = (sendto_call *)dlsym(RTLD_NEXT, "sendto");
    return is_lost() ? (ssize_t)size : real(socket, bytes, size, flags, to, length);
}
