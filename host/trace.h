/* A deck's run attempt by attempt. */
#ifndef TRACE_H
#define TRACE_H

#include "deck.h"
#include "memory.h"

/* The attempts to be shown, counted from 1. */
typedef struct {
    uint32_t from, to;
} window;

/* Of each attempt in the window its word, outcome and request, its sample or with a memory the external lines, what it
   did with the memory, and what it changed. One run of the whole deck was not refused by 9, 24, 1-4 or 16, and its
   words were shown before. */
void show_trace(const sections *deck, const bus_memory *memory, uint32_t marking, const window *asked);

#endif
