// Moves the system clock to the second that the file FAR_CLOCK has, if there is such a file. A process preloads it before
// the C library. Other clocks stay.
#define _GNU_SOURCE
#include <dlfcn.h>
#include <stdio.h>
#include <stdlib.h>
#include <time.h>

int clock_gettime(clockid_t clock, struct timespec *now) {
    int (*real)(clockid_t, struct timespec *) = (int (*)(clockid_t, struct timespec *))dlsym(RTLD_NEXT, "clock_gettime");
    int status = real(clock, now);
    const char *path = getenv("FAR_CLOCK");
    FILE *file = clock == CLOCK_REALTIME && path != NULL ? fopen(path, "r") : NULL;
    long long seconds;
    if (file != NULL) {
        if (fscanf(file, "%lld", &seconds) == 1) now->tv_sec = seconds;
        fclose(file);
    }
    return status;
}
