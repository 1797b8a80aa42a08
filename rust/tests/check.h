/* What the programs in C share: a check that ends them, and bytes shown. */
#ifndef CHECK_H
#define CHECK_H

#include <stdio.h>
#include <stdlib.h>

#include "mundrefol.h"

#define CHECK(holds)                                                        \
    do {                                                                    \
        if (!(holds)) {                                                     \
            printf("%s:%d: not so: %s\n", __FILE__, __LINE__, #holds);      \
            exit(1);                                                        \
        }                                                                   \
    } while (0)

static void show(const char *what, const uint8_t *bytes, size_t count)
{
    printf("%s", what);
    for (size_t i = 0; i < count; i++)
        printf(" %d", bytes[i]);
    printf("\n");
}

#endif
