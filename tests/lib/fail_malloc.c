// Fails the allocation whose number REFUSE gives, counted from 1, and then creates a file `refused`. It writes how many
// allocations there were into the file that COUNTED names. A process preloads it before the C library.
#define _GNU_SOURCE
#include <dlfcn.h>
#include <errno.h>
#include <fcntl.h>
#include <stddef.h>
#include <stdio.h>
#include <stdlib.h>
#include <unistd.h>

static long allocations = 0;

static int must_fail(void) {
    const char *number = getenv("REFUSE");
    if (number == NULL || ++allocations != atol(number)) return 0;
    int marker = open("refused", O_CREAT | O_WRONLY, 0600);
    if (marker >= 0) close(marker);
    return 1;
}

void *malloc(size_t size) {
    static void *(*real)(size_t) = NULL;
    if (real == NULL) real = (void *(*)(size_t))dlsym(RTLD_NEXT, "malloc");
    if (must_fail()) {
        errno = ENOMEM;
        return NULL;
    }
    return real(size);
}

void *realloc(void *block, size_t size) {
    static void *(*real)(void *, size_t) = NULL;
    if (real == NULL) real = (void *(*)(void *, size_t))dlsym(RTLD_NEXT, "realloc");
    if (must_fail()) {
        errno = ENOMEM;
        return NULL;
    }
    return real(block, size);
}

__attribute__((destructor)) static void write_count(void) {
    const char *path = getenv("COUNTED");
    FILE *file = path == NULL ? NULL : fopen(path, "w");
    if (file == NULL) return;
    fprintf(file, "%ld\n", allocations);
    fclose(file);
}
