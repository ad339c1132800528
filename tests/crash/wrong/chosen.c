// The number of the mutant that runs, counted from 1, by the environment variable WRONG; 0 (none) without it.
#include <stdlib.h>

unsigned chosen(void) {
    const char *number = getenv("WRONG");
    return number ? (unsigned)atoi(number) : 0;
}
