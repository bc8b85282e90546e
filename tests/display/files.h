/* What the tests of the display's entry share: files of at most MOST bytes, read whole. */
#ifndef FILES_H
#define FILES_H

#include <stdint.h>
#include <stdio.h>
#include <stdlib.h>

#define MOST (1024 * 1024)

static size_t read_file(const char *name, uint8_t *to)
{
    FILE *in = fopen(name, "rb");
    size_t length;

    if (in == NULL) {
        fprintf(stderr, "cannot open %s\n", name);
        exit(2);
    }
    length = fread(to, 1, MOST, in);
    fclose(in);
    return length;
}

#endif
