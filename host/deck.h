/* Where a deck's sections lie, for showing them beside what the engine answers. */
#ifndef DECK_H
#define DECK_H

#include <stdbool.h>
#include <stddef.h>
#include <stdint.h>

typedef struct {
    unsigned words, rows, samples; /* counts */
    const uint8_t *first;          /* the deck's first byte */
    const uint8_t *word;           /* the first word */
    const uint8_t *state;          /* the state's first byte */
    const uint8_t *sample;         /* the first sample */
} sections;

/* Counts are 0 and pointers null, and the result false, where the length is not what the counts say or
   there is not exactly one state. */
bool find_sections(const uint8_t *deck, size_t length, sections *found);

/* The number of two bytes, low byte first. */
unsigned number_at(const uint8_t *bytes);

#endif
