#include "file.h"
#include "room.h"

#include <errno.h>
#include <stdio.h>
#include <stdlib.h>
#include <string.h>

uint8_t *read_file(const char *name, size_t most, size_t *length)
{
    FILE *file = fopen(name, "rb");
    if (!file)
        return NULL;
    uint8_t *buffer = room_for(most + 1), *bytes = NULL;
    *length = fread(buffer, 1, most + 1, file);
    int problem = ferror(file) ? errno : 0;
    fclose(file);
    if (!problem) {
        bytes = room_for(*length);
        memcpy(bytes, buffer, *length);
    }
    free(buffer);
    errno = problem;
    return bytes;
}
