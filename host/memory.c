#define _POSIX_C_SOURCE 200809L
#include "memory.h"
#include "chuenphrao.h"
#include "deck.h"
#include "file.h"
#include "room.h"

#include <errno.h>
#include <stdlib.h>
#include <string.h>
#include <sys/stat.h>

enum { DELAY_BYTES = 4 };

static char *name_beside(const char *deck)
{
    static const char ending[] = ".deck", memory[] = ".memory";
    size_t length = strlen(deck), last = sizeof ending - 1;
    if (length >= last && !strcmp(deck + length - last, ending))
        length -= last;
    char *name = (char *)room_for(length + sizeof memory);
    memcpy(name, deck, length);
    memcpy(name + length, memory, sizeof memory);
    return name;
}

/* Null where the file can be a memory's, else why not. */
static const char *problem_of(const uint8_t *file, size_t length)
{
    if (!file)
        return strerror(errno);
    if (length < DELAY_BYTES)
        return "under 4 bytes, too short for a memory's delay";
    return length > DELAY_BYTES + MEMORY_MOST ? "over 65,540 bytes, too long for a memory and its delay" : NULL;
}

static bool read_named(const char *name, bus_memory *found)
{
    size_t length = 0;
    uint8_t *file = read_file(name, DELAY_BYTES + MEMORY_MOST, &length);
    const char *problem = problem_of(file, length);
    if (problem) {
        complain(name, problem);
    } else {
        bus_memory given = {.length = length - DELAY_BYTES, .before = file + DELAY_BYTES};
        given.delay = number_at(file) | (uint32_t)number_at(file + 2) << 16;
        *found = copy_memory(&given);
    }
    free(file);
    return !problem;
}

/* A link that leads nowhere is there, and cannot be read. A name that is too long is no file's. */
bool read_memory(const char *deck, bus_memory *found)
{
    struct stat about;
    char *name = name_beside(deck);
    *found = (bus_memory){0};
    bool there = !lstat(name, &about) || (errno != ENOENT && errno != ENAMETOOLONG);
    bool fine = !there || read_named(name, found);
    free(name);
    return fine;
}

static uint8_t *copy(const uint8_t *bytes, size_t length)
{
    return memcpy(room_for(length), bytes, length);
}

bus_memory copy_memory(const bus_memory *of)
{
    bus_memory made = *of;
    if (of->before) {
        made.before = copy(of->before, of->length);
        made.after = copy(of->before, of->length);
    }
    return made;
}

void free_memory(bus_memory *of)
{
    free(of->before);
    free(of->after);
}
