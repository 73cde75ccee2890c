/* check.h: what the test programs check with: the first check that fails is printed, and ends the program with 1. */
#ifndef ZELLUNKAY_CHECK_H
#define ZELLUNKAY_CHECK_H

#include <stdio.h>
#include <stdlib.h>

#define CHECK(holds)                                                       \
    do {                                                                   \
        if (!(holds)) {                                                    \
            fprintf(stderr, "%s:%d: %s\n", __FILE__, __LINE__, #holds);    \
            exit(1);                                                       \
        }                                                                  \
    } while (0)

#endif
