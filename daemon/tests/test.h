/* What each test says when something is not as it has to be. */
#ifndef DUALNETD_TEST_H
#define DUALNETD_TEST_H

#include <stdio.h>
#include <stdlib.h>

#define EXPECT(test)                                                          \
    do {                                                                      \
        if (!(test)) {                                                        \
            fprintf(stderr, "%s:%d: not so: %s\n", __FILE__, __LINE__, #test); \
            exit(1);                                                          \
        }                                                                     \
    } while (0)

#endif
