#include "room.h"

#include <errno.h>
#include <stdio.h>
#include <stdlib.h>
#include <string.h>

void complain(const char *name, const char *problem)
{
    fflush(stdout); /* what was shown so far comes first */
    fprintf(stderr, "bench: %s: %s\n", name, problem);
}

uint8_t *room_for(size_t bytes)
{
    uint8_t *room = calloc(bytes ? bytes : 1, 1);
    if (!room) {
        complain("memory", strerror(ENOMEM));
        exit(1);
    }
    return room;
}
