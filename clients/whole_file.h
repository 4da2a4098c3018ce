/* Reading a file for the programs here. */
#ifndef WHOLE_FILE_H
#define WHOLE_FILE_H

#include <stdint.h>
#include <stdio.h>
#include <stdlib.h>

/* All that is left of an open file, in memory that grows as it is read; NULL if it cannot be read. */
static uint8_t *whole_stream(FILE *file, size_t *length)
{
    size_t room = 65536, count = 0;
    uint8_t *bytes = malloc(room);
    while (bytes != NULL) {
        count += fread(bytes + count, 1, room - count, file);
        if (count < room)
            break;
        uint8_t *more = room > SIZE_MAX / 2 ? NULL : realloc(bytes, room * 2);
        if (more == NULL)
            free(bytes);
        bytes = more;
        room *= 2;
    }
    if (bytes != NULL && ferror(file)) {
        free(bytes);
        bytes = NULL;
    }
    *length = count;
    return bytes;
}

/* The whole file; NULL if it cannot be read. */
static uint8_t *whole_file(const char *name, size_t *length)
{
    FILE *file = fopen(name, "rb");
    if (file == NULL)
        return NULL;
    uint8_t *bytes = whole_stream(file, length);
    fclose(file);
    return bytes;
}

#endif
