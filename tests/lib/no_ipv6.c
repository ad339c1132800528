// Refuses each IPv6 socket with the error whose number NO_IPV6 gives: a process that preloads it before the C library has
// no IPv6.
#define _GNU_SOURCE
#include <dlfcn.h>
#include <errno.h>
#include <stdlib.h>
#include <sys/socket.h>

int socket(int family, int type, int protocol) {
    const char *number = getenv("NO_IPV6");
    if (family == AF_INET6 && number != NULL) {
        errno = atoi(number);
        return -1;
    }
    int (*real)(int, int, int) = (int (*)(int, int, int))dlsym(RTLD_NEXT, "socket");
    return real(family, type, protocol);
}
