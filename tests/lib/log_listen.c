// Appends a line to the file that LISTENING names before each listen(): `unix MODE FOLDER` with the octal modes of a Unix
// socket's file and of the folder in which it stands, or `tcp ADDRESS`. A process preloads it before the C library.
#define _GNU_SOURCE
#include <arpa/inet.h>
#include <dlfcn.h>
#include <libgen.h>
#include <netinet/in.h>
#include <stdio.h>
#include <stdlib.h>
#include <string.h>
#include <sys/socket.h>
#include <sys/stat.h>
#include <sys/un.h>

static unsigned mode_of(const char *path) {
    struct stat found;
    return stat(path, &found) == 0 ? found.st_mode & 07777 : 07777;
}

static void log_unix(FILE *file, const struct sockaddr_un *address) {
    char path[sizeof address->sun_path + 1] = {0};
    memcpy(path, address->sun_path, sizeof address->sun_path);
    unsigned mode = mode_of(path);
    fprintf(file, "unix %o %o\n", mode, mode_of(dirname(path)));
}

static void log_tcp(FILE *file, const struct sockaddr_storage *address) {
    char text[INET6_ADDRSTRLEN] = "?";
    const void *bytes = address->ss_family == AF_INET ? (const void *)&((const struct sockaddr_in *)address)->sin_addr
                                                      : (const void *)&((const struct sockaddr_in6 *)address)->sin6_addr;
    inet_ntop(address->ss_family, bytes, text, sizeof text);
    fprintf(file, "tcp %s\n", text);
}

int listen(int descriptor, int backlog) {
    struct sockaddr_storage address = {0};
    socklen_t length = sizeof address;
    const char *path = getenv("LISTENING");
    FILE *file = path == NULL ? NULL : fopen(path, "a");
    if (file != NULL && getsockname(descriptor, (struct sockaddr *)&address, &length) == 0) {
        if (address.ss_family == AF_UNIX) log_unix(file, (const struct sockaddr_un *)&address);
        else log_tcp(file, &address);
    }
    if (file != NULL) fclose(file);
    int (*real)(int, int) = (int (*)(int, int))dlsym(RTLD_NEXT, "listen");
    return real(descriptor, backlog);
}
