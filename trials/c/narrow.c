/* A library to be loaded before the system's, by which every second connection that is accepted has a send buffer of 64 KiB at the most.
   So the system takes little of an answer that its client doesn't. deaf.py compiles this. */
#define _GNU_SOURCE
#include <dlfcn.h>
#include <stdatomic.h>
#include <sys/socket.h>

enum { SEND_BUFFER_BYTES = 65536 };

static atomic_uint accepted;

static int narrowed(int connection) {
    int bytes = SEND_BUFFER_BYTES / 2; /* the system has twice what is asked for */
    if (connection >= 0 && atomic_fetch_add(&accepted, 1) % 2)
        setsockopt(connection, SOL_SOCKET, SO_SNDBUF, &bytes, sizeof bytes);
    return connection;
}

int accept4(int listener, struct sockaddr *restrict peer, socklen_t *restrict len, int flags) {
    static int (*of_the_system)(int, struct sockaddr *, socklen_t *, int);
    if (!of_the_system)
        of_the_system = dlsym(RTLD_NEXT, "accept4");
    return narrowed(of_the_system(listener, peer, len, flags));
}

int accept(int listener, struct sockaddr *restrict peer, socklen_t *restrict len) {
    return accept4(listener, peer, len, 0);
}
