/* A deck cut into runs. Without a memory each has the words and rows of the whole, the state that the one before
   handed back, and the rest of the request buffer. A run is the same however its samples are cut (crate cuts,
   hostInParts): the runs together write the requests, leave the state and come to the counts of the one run, if that
   does not refuse the deck by 9, 24 or 1-4.

   A memory keeps more than a state holds. With one, each run begins with the first sample again, and has the next ones
   besides: a run over the first samples is the beginning of the run (crate memory_laws, first-part). What is told of it
   is what the next samples did. */
#ifndef CUT_H
#define CUT_H

#include "chuenphrao.h"
#include "deck.h"
#include "memory.h"

typedef struct {
    const sections *deck;    /* the one that is cut */
    const bus_memory *start; /* the memory that it starts with */
    uint32_t marking;
    unsigned used;           /* how many of its samples so far */
    uint32_t microcycles;    /* that they cost */
    uint8_t *requests;       /* a place for each of its samples */
    uint8_t *before;         /* the state before the last ones */
    uint8_t *after;          /* and the one after them; before any run, the deck's own */
    bus_memory memory;       /* its bytes likewise */
    uint8_t *part;           /* the deck of one run */
    size_t length;           /* of that deck */
    unsigned samples;        /* how many it has */
} cut;

cut begin_cut(const sections *deck, const bus_memory *start, uint32_t marking);

/* Runs the next samples, as many as are asked for and no more than are left. A refusal ends it all: no other run may follow. */
report run_next(cut *of, unsigned samples);

void end_cut(cut *of);

#endif
