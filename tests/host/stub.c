/* In the place of engine and lister where a memory checker cannot run programs for its processor. The engine gives the answer in the
   environment's ANSWER, whatever the marking: an attempt for each sample, and where attempts are refused only 18, with every
   kind of request in turn and one that does not exist, and a state of ones but for LC, which counts the attempts. It goes on from the
   deck's LC, and without an attempt leaves the deck's state, so that a deck can be cut. With a memory, each output adds 1 to the byte
   at the address of the last access. */
#include "../../host/chuenphrao.h"
#include "../../host/deck.h"

#include <stdio.h>
#include <stdlib.h>
#include <string.h>

enum { LC = 28, REFUSED = 18, REQUESTS = KINDS + 1 };

static void write_request(uint8_t *request, unsigned i)
{
    unsigned kind = i % REQUESTS;
    request[0] = request[1] = kind > KIND_NONE && kind < KIND_WAIT ? (uint8_t)i : 0;
    request[2] = (uint8_t)kind;
    request[3] = 0;
}

report run(const uint8_t *deck, size_t deck_len, uint8_t *requests, size_t requests_len, uint8_t *state,
           size_t state_len, uint32_t marking)
{
    (void)marking;
    const char *wanted = getenv("ANSWER");
    uint32_t answer = (uint32_t)atoi(wanted ? wanted : "0");
    volatile uint8_t all = 0;
    for (size_t i = 0; i < deck_len; i++)
        all ^= deck[i]; /* each byte handed in can be read */
    for (size_t i = 0; i < requests_len; i++)
        all ^= requests[i];
    if (answer != ANSWER_NO_REPLY && (answer >= ANSWER_DECK || (answer && answer < ANSWER_NO_WORD)))
        return (report){.answer = answer};
    sections has;
    unsigned before = find_sections(deck, deck_len, &has) ? number_at(has.state + LC) : 0;
    unsigned most = answer ? REFUSED - before : has.samples, attempts = has.samples < most ? has.samples : most;
    for (unsigned i = 0; i < attempts; i++)
        write_request(requests + (size_t)i * REQUEST_BYTES, before + i);
    if (attempts) {
        memset(state, 255, state_len);
        state[LC] = (uint8_t)(before + attempts);
        state[LC + 1] = (uint8_t)((before + attempts) >> 8);
    } else if (has.state) {
        memcpy(state, has.state, state_len);
    }
    return (report){.answer = attempts < has.samples ? answer : 0, .attempts = attempts, .microcycles = 2 * attempts};
}

report run_with_memory(const uint8_t *deck, size_t deck_len, uint8_t *memory, size_t memory_len, uint32_t delay,
                       uint8_t *requests, size_t requests_len, uint8_t *state, size_t state_len, uint32_t marking)
{
    (void)delay;
    volatile uint8_t all = 0;
    for (size_t i = 0; i < memory_len; i++)
        all ^= memory[i];
    report made = run(deck, deck_len, requests, requests_len, state, state_len, marking);
    size_t kept = memory_len;
    for (unsigned i = 0; i < made.attempts; i++) {
        const uint8_t *request = requests + (size_t)i * REQUEST_BYTES;
        unsigned kind = request[2];
        if (kind >= KIND_READ && kind <= KIND_WRITE_ACKNOWLEDGE)
            kept = number_at(request);
        if ((kind == KIND_WORD_OUT || kind == KIND_BYTE_OUT) && kept < memory_len)
            memory[kept]++;
    }
    return made;
}

/* A line with each word's address. Of four words it refuses two, one with 2 and one with 6, until they are NOP; with UNLISTED in
   the environment it refuses all, whatever they are. */
listing_report list_words(const uint8_t *words, size_t words_len, uint8_t *text, size_t text_len)
{
    static const uint8_t nop[WORD_BYTES] = {0x00, 0xFF};
    listing_report made = {0};
    if (getenv("UNLISTED"))
        return (listing_report){.answer = LISTING_ROOM, .length = LISTING_MOST};
    for (uint32_t i = 0; i < words_len / WORD_BYTES; i++) {
        if (i % 2 && memcmp(words + i * WORD_BYTES, nop, WORD_BYTES))
            return (listing_report){.answer = i % 4 == 1 ? LISTING_WORDS : LISTING_CODE, .at = i};
        made.length += (uint32_t)snprintf((char *)text + made.length, text_len - made.length, "%03X line\n", i);
    }
    return made;
}
