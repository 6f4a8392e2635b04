/* A condition of a test: if it is false, the line is printed and the program ends. */
#ifndef SHOULD_H
#define SHOULD_H

#include <stdio.h>
#include <stdlib.h>

#define SHOULD(what)                                                   \
    do {                                                               \
        if (!(what)) {                                                 \
            fprintf(stderr, "%s:%d: %s\n", __FILE__, __LINE__, #what); \
            exit(1);                                                   \
        }                                                              \
    } while (0)

#endif
