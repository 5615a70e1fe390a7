/* One input of the fuzzer: a call of the engine, without and with a memory, or of the assembler, or of the lister and the
   profile. */
#ifndef CALL_H
#define CALL_H

#include "../../host/chuenphrao.h"
#include "../../host/deck.h"

enum { DECK_ROOM = 3 * DECK_MOST }; /* for decks that are too long too */

typedef struct {
    const uint8_t *deck;
    size_t deck_len, requests_len, state_len, memory_len;
    uint32_t marking, delay;
    sections has; /* the deck's, all 0 where it is not whole */
    bool shown;   /* by the bench host in full, and not in a line */
} call;

/* The call that a fuzzer's bytes stand for. It is good until the next. */
call shape(const uint8_t *bytes, size_t length);

/* The refusal among 9, 24 and 1-4 that the papers give the call, or 0 for one that is run. */
unsigned refusal(const call *made);

/* Runs the engine on the call and holds what it leaves to 01. */
void check(const call *made);

/* Runs it with a memory on the bus and holds what it leaves to the papers. */
void check_memory(const call *made);

/* What both hold: kinds and values of the requests of so many attempts; that a state handed back is in range; that microcycles
   fit, and attempts the samples, where the call is not refused as a whole. */
void check_requests(const uint8_t *requests, uint32_t attempts);
void check_state(const uint8_t *state);
void check_counts(const call *made, bool refused, report is);

/* Which function an input calls, by the top bits of its first byte; with both set the engine's run is shown too. */
enum { CALLS_ENGINE, CALLS_ASSEMBLER, CALLS_LISTER };

/* Calls the assembler or the lister on a fuzzer's bytes and holds what it leaves to the paper. */
void check_listing(const uint8_t *bytes, size_t length);

/* Calls the check of the service profile on words that the lister answered so. */
void check_profile(const uint8_t *words, size_t length, listing_report listed);

/* A buffer of this length, the same one each time for the number: the end or the start of it is against a page that
   cannot be touched. */
enum { DECK_LENT, REQUESTS_LENT, STATE_LENT, MEMORY_LENT, INPUT_LENT, OUTPUT_LENT, BUFFERS };
uint8_t *lend(unsigned number, bool at_end, size_t length);

/* What a buffer is filled with, by the end that it is against; and whether it still is. */
extern const uint8_t fills[2];
bool filled(const uint8_t *from, const uint8_t *to, uint8_t fill);

/* Ends the program, saying what does not hold. */
void expect(bool holds, const char *what);

/* Where that is said: the fuzzer takes standard error away, as the host complains there. */
extern int said;

#endif
