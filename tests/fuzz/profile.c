/* What the paper promises of the check of the service profile. */
#include "call.h"

#include <stdlib.h>
#include <string.h>

enum { RULES = 4, COMPUTE_REPLY = 5, SAMPLES = 64 };

/* A fault for the fuzzer to find, at a rule that no seed breaks. */
static void plant(profile_report *is)
{
#ifdef PLANTED
    const char *fault = getenv("FAULT");
    if (fault && !strcmp(fault, "rule") && is->rule == RULES)
        is->rule--;
#else
    (void)is;
#endif
}

/* With the words' end and with their start against what cannot be touched. */
static profile_report twice(const uint8_t *words, size_t length)
{
    profile_report is[2];
    for (unsigned at_end = 0; at_end < 2; at_end++) {
        uint8_t *lent = lend(INPUT_LENT, at_end, length);
        memcpy(lent, words, length);
        is[at_end] = profile(lent, length);
        plant(&is[at_end]);
        expect(!memcmp(lent, words, length), "the words are unchanged");
    }
    expect(!memcmp(&is[0], &is[1], sizeof is[0]), "the same words are answered the same");
    return is[0];
}

static bool breaks(unsigned rule, const uint8_t *word, size_t address)
{
    unsigned code = word[1];
    bool jmp = code < 0x08, conditional = code >= 0x10 && code < 0x20;
    switch (rule) {
    case 1: return (code | 1) == 0xED;
    case 2: return (word[2] & 1) && !jmp && !conditional;
    case 3: return address == 0 && !jmp && code != 0xFF;
    default: return code / 8 == 0x0F || (code | 1) == 0xAD || code / 4 == 0xD4 / 4 || code / 4 == 0xE8 / 4;
    }
}

static void check_broken(const uint8_t *words, size_t length, profile_report is)
{
    expect(is.address < length / WORD_BYTES && is.rule >= 1 && is.rule <= RULES, "a 25 is at a word, by a rule");
    const uint8_t *word = words + is.address * (size_t)WORD_BYTES;
    for (unsigned rule = 1; rule <= is.rule; rule++)
        expect(breaks(rule, word, is.address) == (rule == is.rule), "the rule is the first that is broken there");
    expect(twice(words, is.address * (size_t)WORD_BYTES).answer == 0, "the words before it are accepted");
}

/* A run of the words from a state of zeros, REPLY high and low in turn, so that reads and inputs complete. */
static void check_run(const uint8_t *words, size_t length, uint32_t marking)
{
    static uint8_t deck[DECK_MOST];
    uint8_t requests[SAMPLES * REQUEST_BYTES], state[STATE_BYTES], *at = deck;
    memset(deck, 0, 2 + length + 2 + 2 + STATE_BYTES + 2 + SAMPLES * SAMPLE_BYTES);
    at[0] = (uint8_t)(length / WORD_BYTES);
    at[1] = (uint8_t)(length / WORD_BYTES >> 8);
    memcpy(at + 2, words, length);
    at += 2 + length + 2;
    at[0] = 1;
    at += 2 + STATE_BYTES;
    at[0] = SAMPLES;
    at += 2;
    for (unsigned i = 0; i < SAMPLES; i++, at += SAMPLE_BYTES)
        at[2] = (uint8_t)(COMPUTE_REPLY - i % 2);
    report is = run(deck, (size_t)(at - deck), requests, sizeof requests, state, sizeof state, marking);
    expect(is.answer == ANSWER_DONE || is.answer == ANSWER_NO_WORD || is.answer == ANSWER_OPTION, "accepted words are never a 6");
}

void check_profile(const uint8_t *words, size_t length, listing_report listed)
{
    profile_report is = twice(words, length);
    bool two = is.answer == LISTING_WORDS, broken = is.answer == PROFILE_BROKEN;
    expect(two || broken || is.answer == 0, "the profile has this answer");
    expect(two == (listed.answer == LISTING_WORDS) && (!two || is.address == listed.at), "2 is as the lister gives it");
    expect(broken || is.rule == 0, "a rule comes with 25 alone");
    expect(two || broken || is.address == 0, "0 is nowhere");
    if (broken)
        check_broken(words, length, is);
    if (is.answer != 0)
        return;
    expect(listed.answer == 0, "accepted words are listed");
    check_run(words, length, MARKING_CP1661B);
    check_run(words, length, MARKING_CP1621B);
}
