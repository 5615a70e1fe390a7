/* The memory on a deck's bus, in a file of its own beside the deck: NAME.memory beside NAME.deck, and where a deck's
   name does not end so, with .memory added. It has the delay in four bytes, low byte first, then the memory's bytes. */
#ifndef MEMORY_H
#define MEMORY_H

#include <stdbool.h>
#include <stddef.h>
#include <stdint.h>

typedef struct {
    uint32_t delay;
    size_t length;
    uint8_t *before, *after; /* its bytes before a run and after it; null where a deck has no memory */
} bus_memory;

/* Reads the memory of the deck of that name, if it has one. False where the file cannot be read, is too short or too
   long, which is complained of. */
bool read_memory(const char *deck, bus_memory *found);

/* Another with the bytes that this one has before a run. */
bus_memory copy_memory(const bus_memory *of);

void free_memory(bus_memory *of);

#endif
