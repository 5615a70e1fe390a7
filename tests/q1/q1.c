/* Each TR is a check: IB and IW with every option, under both markings, from a state that holds SYNC and IACK. What they leave of the
   two is held to Q1 as a table of its two terms. An input that loads TR loads the complement: Q1 is false of it wherever it was true,
   and mostly true where TR14 was high, so that a Q1 read too late is seen. */
#include "../../host/chuenphrao.h"

#include <stdbool.h>
#include <stdio.h>
#include <string.h>

enum { TRS = 65536, OPTIONS = 8, TOLD = 25 /* failures that are told; the rest are counted */ };
enum { RMW = 4, REPLY = 1, COMPUTE = 4, SYNC = 2, IACK = 4 };
enum { TR = 32, MARKS = 37, WORD_AT = 2, STATE_AT = 2 + WORD_BYTES + 2 + 2, SAMPLE_AT = STATE_AT + STATE_BYTES + 2 };

/* A bit of TR, and what it is in the term. */
typedef struct {
    unsigned bit, level;
} input;

/* Each term ends with its TR14, which both have. */
static const input terms[2][8] = {
    {{13, 1}, {14, 0}},
    {{12, 0}, {11, 1}, {10, 0}, {9, 1}, {8, 1}, {7, 1}, {6, 1}, {14, 0}},
};

static bool holds(const input *term, unsigned tr)
{
    for (;; term++) {
        if ((tr >> term->bit) % 2 != term->level)
            return false;
        if (term->bit == 14)
            return true;
    }
}

/* One word, no rows, a state with this TR and one sample. */
static void put(uint8_t *deck, unsigned top, unsigned b, unsigned tr)
{
    const uint8_t word[WORD_BYTES] = {(uint8_t)(b << 4 | 2), (uint8_t)top};
    const uint8_t sample[SAMPLE_BYTES] = {(uint8_t)~tr, (uint8_t)(~tr >> 8), REPLY | COMPUTE};
    memset(deck, 0, SAMPLE_AT + SAMPLE_BYTES);
    deck[0] = deck[STATE_AT - 2] = deck[SAMPLE_AT - 2] = 1;
    memcpy(deck + WORD_AT, word, WORD_BYTES);
    deck[STATE_AT + TR] = (uint8_t)tr;
    deck[STATE_AT + TR + 1] = (uint8_t)(tr >> 8);
    deck[STATE_AT + MARKS] = SYNC | IACK;
    memcpy(deck + SAMPLE_AT, sample, SAMPLE_BYTES);
}

/* Whether an input leaves SYNC and IACK as they have to be. */
static bool right(unsigned top, unsigned b, unsigned tr, uint32_t marking, bool falls)
{
    static unsigned wrong;
    uint8_t deck[SAMPLE_AT + SAMPLE_BYTES], requests[REQUEST_BYTES], state[STATE_BYTES];
    put(deck, top, b, tr);
    report is = run(deck, sizeof deck, requests, sizeof requests, state, sizeof state, marking);
    if (is.answer == ANSWER_DONE && is.attempts == 1 && (state[MARKS] & (SYNC | IACK)) == (falls ? 0 : SYNC | IACK))
        return true;
    if (wrong++ < TOLD)
        printf("code %02X, b %u, TR %04X, marking %u: answer %u, marks %X\n", top, b, tr, marking, is.answer, state[MARKS]);
    return false;
}

int main(void)
{
    unsigned passed = 0, failed = 0, high = 0;
    for (unsigned tr = 0; tr < TRS; tr++) {
        bool q1 = holds(terms[0], tr) || holds(terms[1], tr), fine = true;
        for (unsigned i = 0; i < 4 * OPTIONS && fine; i++) {
            unsigned top = 0xE0 + i / OPTIONS, b = i % OPTIONS;
            fine = right(top, b, tr, MARKING_CP1661B, b < RMW) && right(top, b, tr, MARKING_CP1621B, b < RMW || q1);
        }
        high += q1;
        passed += fine;
        failed += !fine;
    }
    printf("Q1 is true of %u TR\n", high);
    printf("%u passed, %u failed\n", passed, failed);
    return failed != 0;
}
