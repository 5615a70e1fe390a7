/* What a person reads of a deck that was run. */
#ifndef SHOW_H
#define SHOW_H

#include "chuenphrao.h"
#include "deck.h"
#include "memory.h"
#include "trace.h"

typedef struct {
    const char *name; /* of the deck's file */
    uint32_t marking; /* that the run named */
    sections deck;
    bus_memory memory;
    report report;
    const uint8_t *requests, *state; /* as the engine left them */
} outcome;

/* Answer, counts, each attempt's request, the memory if there is one, the state before and after. Where a window
   is given, a trace of its attempts in the place of the requests. */
void show(const outcome *ran, const window *traced);

/* Answer, counts, LC and flag byte in one line. */
void show_line(const outcome *ran);

#endif
