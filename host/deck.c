#include "deck.h"
#include "chuenphrao.h"

unsigned number_at(const uint8_t *bytes)
{
    return bytes[0] | (unsigned)bytes[1] << 8;
}

typedef struct {
    const uint8_t *at;
    size_t left;
} cursor;

/* Passes a count and as many items; null where they are not all there. */
static const uint8_t *pass(cursor *deck, size_t item, unsigned *count)
{
    if (deck->left < 2)
        return NULL;
    *count = number_at(deck->at);
    const uint8_t *items = deck->at + 2;
    size_t bytes = *count * item;
    if (deck->left - 2 < bytes)
        return NULL;
    deck->at = items + bytes;
    deck->left -= 2 + bytes;
    return items;
}

bool find_sections(const uint8_t *deck, size_t length, sections *found)
{
    cursor at = {deck, length};
    sections deck_has = {.first = deck};
    unsigned states = 0;
    bool whole = (deck_has.word = pass(&at, WORD_BYTES, &deck_has.words)) && pass(&at, ROW_BYTES, &deck_has.rows)
        && (deck_has.state = pass(&at, STATE_BYTES, &states))
        && (deck_has.sample = pass(&at, SAMPLE_BYTES, &deck_has.samples))
        && states == 1 && at.left == 0;
    *found = whole ? deck_has : (sections){0};
    return whole;
}
