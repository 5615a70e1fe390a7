#include "words.h"

#include <stdio.h>
#include <string.h>

/* The listing; where the line of each word begins in it, and after them the end; the lister's answer to a word that it
   cannot list, else 0. */
static uint8_t text[LISTING_MOST];
static const uint8_t *lines[WORDS_MOST + 1];
static uint8_t refused[WORDS_MOST];

static const uint8_t *word_at(const sections *deck, unsigned i)
{
    return deck->word + (size_t)i * WORD_BYTES;
}

/* The lister refuses all words for one that it cannot list, so that one is a NOP to it from then on. The result is the
   length of the listing, 0 where there is none. */
static size_t list(const sections *deck)
{
    static const uint8_t nop[WORD_BYTES] = {0x00, 0xFF};
    static uint8_t words[WORDS_MOST * WORD_BYTES];
    size_t bytes = deck->words * (size_t)WORD_BYTES;
    memcpy(words, deck->word, bytes);
    memset(refused, 0, sizeof refused);
    listing_report made = list_words(words, bytes, text, sizeof text);
    while (made.answer && made.at < deck->words && !refused[made.at]) {
        refused[made.at] = (uint8_t)made.answer;
        memcpy(words + made.at * (size_t)WORD_BYTES, nop, WORD_BYTES);
        made = list_words(words, bytes, text, sizeof text);
    }
    return made.answer ? 0 : made.length;
}

/* False where there are fewer lines than words, which is no listing of them. */
static bool find_lines(const sections *deck, size_t length)
{
    lines[0] = text;
    for (unsigned i = 0; i < deck->words; i++) {
        const uint8_t *end = memchr(lines[i], '\n', length - (size_t)(lines[i] - text));
        if (!end)
            return false;
        lines[i + 1] = end + 1;
    }
    return true;
}

/* Why a word has no line in the listing. */
static const char *why_not(uint8_t answer)
{
    return answer == LISTING_CODE ? "unlisted" : answer == LISTING_WORDS ? "out of range" : "not listed";
}

void write_word(char line[LINE_ROOM], const sections *deck, unsigned address)
{
    if (address >= deck->words) {
        snprintf(line, LINE_ROOM, "%03X no word", address);
        return;
    }
    const uint8_t *bytes = word_at(deck, address);
    unsigned word = number_at(bytes) | number_at(bytes + 2) << 16;
    if (refused[address])
        snprintf(line, LINE_ROOM, "%03X %04X %s", address, word, why_not(refused[address]));
    else
        snprintf(line, LINE_ROOM, "%.*s", (int)(lines[address + 1] - lines[address]) - 1, (const char *)lines[address]);
}

void show_words(const sections *deck)
{
    char line[LINE_ROOM];
    if (deck->words > WORDS_MOST || !find_lines(deck, list(deck))) {
        memset(refused, LISTING_ROOM, sizeof refused); /* no word has a line */
        puts("  words        not listed");
        return;
    }
    for (unsigned i = 0, next; i < deck->words; i = next) {
        for (next = i + 1; next < deck->words && !memcmp(word_at(deck, i), word_at(deck, next), WORD_BYTES); next++)
            ;
        write_word(line, deck, i);
        printf("  %-11s  %s\n", i ? "" : "words", line);
        if (next > i + 2)
            printf("  %-11s  %03X-%03X the same\n", "", i + 1, next - 1);
        else
            next = i + 1;
    }
}
