/* What the paper promises of the assembler and the lister. An input is a byte whose top bits choose the function, two that
   choose the room of one more call, and with STRETCH the number of words, then the text or the words. */
#include "call.h"

#include <stdlib.h>
#include <string.h>

enum { HEAD = 3, STRETCH = 0x3F, LINE_MOST = 32 };

typedef listing_report function(const uint8_t *input, size_t input_len, uint8_t *output, size_t output_len);

typedef struct {
    const uint8_t *bytes;
    size_t length;
} part;

/* A fault for the fuzzer to find, at an answer that no seed gets. */
static void plant(listing_report is, uint8_t *output, size_t room)
{
#ifdef PLANTED
    const char *fault = getenv("FAULT");
    if (fault && !strcmp(fault, "output") && is.answer == LISTING_ADDRESS && room)
        output[room - 1] ^= 1;
#else
    (void)is, (void)output, (void)room;
#endif
}

static void check_report(function *called, part input, size_t room, listing_report is)
{
    bool text = called == assemble, refused = is.answer != 0 && is.answer != LISTING_ROOM;
    size_t lines = 1, words = input.length / WORD_BYTES;
    for (size_t i = 0; text && i < input.length; i++)
        lines += input.bytes[i] == '\n';
    if (text)
        expect(!refused || (is.answer >= LISTING_MNEMONIC && is.answer <= LISTING_ADDRESS), "the assembler has this answer");
    else
        expect(!refused || is.answer == LISTING_WORDS || is.answer == LISTING_CODE, "the lister has this answer");
    expect(is.answer != LISTING_CODE || is.at < words, "a 6 is at a word");
    expect(is.answer != LISTING_WORDS || is.at < words || is.at == WORDS_MOST, "a 2 is at a word, or at 2,048");
    expect(!text || !refused || (is.at >= 1 && is.at <= lines), "10, 11 and 12 are at a line");
    expect(refused || is.at == 0, "0 and 27 are nowhere");
    expect(!refused || is.length == 0, "a refusal has no length");
    expect(refused || (is.length > room) == (is.answer == LISTING_ROOM), "27 is given when the room is short");
    expect(!text || (is.length % WORD_BYTES == 0 && is.length <= WORDS_MOST * WORD_BYTES), "words are written whole");
}

/* Calls the function with the buffers' ends and with their starts against what cannot be touched. What it writes is kept. */
static listing_report twice(function *called, part input, size_t room, uint8_t *kept)
{
    listing_report first = {0};
    for (unsigned at_end = 0; at_end < 2; at_end++) {
        uint8_t *from = lend(INPUT_LENT, at_end, input.length), *to = lend(OUTPUT_LENT, at_end, room);
        memcpy(from, input.bytes, input.length);
        memset(to, fills[at_end], room);
        listing_report is = called(from, input.length, to, room);
        plant(is, to, room);
        check_report(called, input, room, is);
        size_t written = is.answer == 0 ? is.length : 0;
        expect(filled(to + written, to + room, fills[at_end]), "what is not written stays as found");
        expect(!memcmp(from, input.bytes, input.length), "the input is unchanged");
        if (at_end) {
            expect(!memcmp(&first, &is, sizeof is), "the same call is answered the same");
            expect(!memcmp(kept, to, written), "the same call writes the same");
        }
        first = is;
        memcpy(kept, to, written);
    }
    return first;
}

static size_t ample(function *called, part input)
{
    return called == assemble ? WORDS_MOST * WORD_BYTES + 1 : input.length / WORD_BYTES * LINE_MOST + 1;
}

/* Words that were assembled or listed are listed, and assembled again they are the same. */
static void there_and_back(part words)
{
    static uint8_t text[DECK_ROOM], again[DECK_ROOM];
    listing_report listed = twice(list_words, words, ample(list_words, words), text);
    expect(listed.answer == 0, "the words are listed");
    part lines = {text, listed.length};
    listing_report assembled = twice(assemble, lines, ample(assemble, lines), again);
    expect(assembled.answer == 0 && assembled.length == words.length, "the listing is assembled to as many words");
    expect(!memcmp(again, words.bytes, words.length), "the listing is assembled to the words");
}

/* With no room, with exact and short room, and with some that the number chooses. */
static void check_rooms(function *called, part input, listing_report is, size_t number)
{
    static uint8_t kept[DECK_ROOM];
    size_t room = number % (2 * (size_t)is.length + LINE_MOST);
    listing_report chosen = twice(called, input, room, kept), none = twice(called, input, 0, kept);
    expect(chosen.answer == is.answer || chosen.answer == LISTING_ROOM, "the room changes the answer to 27 alone");
    expect(is.answer == 0 || (none.answer == is.answer && none.at == is.at), "27 comes after all others");
    if (is.answer != 0)
        return;
    expect(twice(called, input, is.length, kept).answer == 0, "the room that is needed is enough");
    if (is.length)
        expect(twice(called, input, is.length - 1, kept).length == is.length, "27 says what is needed");
}

/* The words of an input, again and again up to this many. */
static part stretched(part input, size_t words)
{
    static uint8_t list[DECK_ROOM];
    size_t length = words % (WORDS_MOST + 4) * WORD_BYTES, whole = input.length / WORD_BYTES * WORD_BYTES;
    if (!whole)
        return input;
    for (size_t i = 0; i < length; i++)
        list[i] = input.bytes[i % whole];
    return (part){list, length};
}

void check_listing(const uint8_t *bytes, size_t length)
{
    static uint8_t kept[DECK_ROOM];
    function *called = bytes[0] >> 6 == CALLS_ASSEMBLER ? assemble : list_words;
    if (length < HEAD)
        return;
    part input = {bytes + HEAD, length - HEAD};
    size_t number = number_at(bytes + 1);
    if (called == list_words && (bytes[0] & STRETCH) == STRETCH)
        input = stretched(input, number);
    listing_report is = twice(called, input, ample(called, input), kept);
    expect(is.answer != LISTING_ROOM, "there was room");
    if (called == list_words)
        check_profile(input.bytes, input.length, is);
    check_rooms(called, input, is, number);
    if (is.answer == 0)
        there_and_back(called == assemble ? (part){kept, is.length} : input);
}
