/* What the programs of this folder share: a check that counts, and ports. A program defines PROGRAM, its name. */
#ifndef CHECK_H
#define CHECK_H

#include <stdio.h>
#include <stdlib.h>
#include <string.h>

#include "../../bindings/c/nauvelppi.h"

#define COUNT(a) (sizeof(a) / sizeof((a)[0]))
#define PORT(byte) (0x04000400u + 4u * (byte))

static unsigned passed;

static inline void check(int holds, const char *name, const char *what)
{
    if (!holds) {
        printf(PROGRAM ": %s: %s\n", name, what);
        exit(1);
    }
    passed++;
}

static inline int all_passed(void)
{
    printf(PROGRAM ": %u checks passed\n", passed);
    return 0;
}

#endif
