/* What a person reads of a memory on the bus. */
#ifndef BUS_H
#define BUS_H

#include "memory.h"

/* How many accesses, inputs, outputs and waits a run's attempts were, and each byte that it changed. The waits are all
   together: of accesses for BUSY and REPLY to be low, of inputs and outputs for REPLY. */
void show_memory(const bus_memory *of, const uint8_t *requests, unsigned attempts);

/* A line, after so many spaces, of the attempt with this place: the address that is kept, the word taken in, each
   byte stored, before and after. None for an attempt that is no access, no input and no output. */
void show_access(const bus_memory *of, const uint8_t *requests, unsigned place, int indent);

#endif
