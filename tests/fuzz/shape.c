/* Calls from a fuzzer's bytes: nine that say how the call is made, then the deck.

     0    see the enum         1    bytes that the request buffer has more than the samples need, signed
     2    bytes of the state buffer
     3    the section to stretch, 0 words, 1 rows, 2 samples      4-5    to this many items
     6    the marking: even CP1661B, odd CP1621B; from UNKNOWN on with a bit turned
     7    the memory's delay; from UNKNOWN on one over            8    its length, mostly short

   A bit flipped anywhere in a deck is mostly a refusal. So the deck is mended unless RAW is set: a section has
   what the bytes are enough for, and no unused bit. A whole deck in range stays as it is. */
#include "call.h"

#include <string.h>

/* What takes long has more bits, all of which are to be set. */
enum { RAW = 1, OTHER_REQUESTS = 2, OTHER_STATE = 4, STRETCH = 0x38, SHOWN = 0xC0, UNKNOWN = 0xE0, HEAD = 9 };
enum { WORDS, ROWS, STATE, SAMPLES, SECTIONS };
enum { STRETCH_MOST = DECK_MOST + 4 };

typedef struct {
    const uint8_t *at;
    size_t left;
} material;

static const size_t sizes[SECTIONS] = {WORD_BYTES, ROW_BYTES, STATE_BYTES, SAMPLE_BYTES};

/* The bits in use. */
static const uint8_t used[SECTIONS][STATE_BYTES] = {
    {255, 255, 63, 0},
    {255, 7, 255, 7, 1, 1, 255, 255, 3, 3, 127, 127, 255, 7, 7, 7},
    {255, 255, 255, 255, 255, 255, 255, 255, 255, 255, 255, 255, 255, 255, 255, 255, 255, 255, 255, 255, 255,
     255, 255, 255, 255, 255, 7, 255, 255, 7, 255, 7, 255, 255, 255, 255, 7, 15, 7, 255, 255, 15},
    {255, 255, 31, 15},
};

static bool set(const uint8_t *head, unsigned bits)
{
    return (head[0] & bits) == bits;
}

/* The next bytes, 0 where there are no more. */
static void take(material *from, uint8_t *to, size_t bytes)
{
    size_t there = bytes < from->left ? bytes : from->left;
    memcpy(to, from->at, there);
    memset(to + there, 0, bytes - there);
    from->at += there;
    from->left -= there;
}

static void mend_item(unsigned section, uint8_t *item)
{
    static const uint8_t pairs[][2] = {{0, 2}, {1, 3}, {4, 5}, {6, 7}, {8, 9}, {10, 11}}; /* mask, value */
    for (size_t i = 0; i < sizes[section]; i++)
        item[i] &= used[section][i];
    for (size_t i = 0; section == ROWS && i < sizeof pairs / sizeof *pairs; i++)
        item[pairs[i][1]] &= item[pairs[i][0]];
    if (section == STATE && !(item[37] & 8))
        item[39] = item[40] = 0;
}

/* Puts a section with its count and gives its length. The last item is repeated up to at least so many. */
static size_t mend_section(unsigned section, material *from, uint8_t *to, size_t at_least)
{
    uint8_t *item = to + 2;
    size_t size = sizes[section], items, most;
    take(from, to, 2);
    items = number_at(to);
    most = from->left / size;
    if (section == STATE)
        items = 1;
    else if (section == SAMPLES || items > most)
        items = most;
    for (size_t i = 0; i < items; i++, item += size) {
        take(from, item, size);
        mend_item(section, item);
    }
    if (items == 0)
        memset(item, 0, size);
    for (; items < at_least && items * size < STRETCH_MOST; items++, item += size)
        memmove(item, items ? item - size : item, size);
    to[0] = (uint8_t)items;
    to[1] = (uint8_t)(items >> 8);
    return 2 + items * size;
}

static size_t mend(material from, uint8_t *to, const uint8_t *head)
{
    static const unsigned stretched[] = {WORDS, ROWS, SAMPLES};
    size_t length = 0;
    for (unsigned section = WORDS; section < SECTIONS; section++) {
        bool stretch = set(head, STRETCH) && section == stretched[head[3] % 3];
        length += mend_section(section, &from, to + length, stretch ? number_at(head + 4) : 0);
    }
    return length;
}

/* The two markings are two bits apart. */
static uint32_t marking(uint8_t by)
{
    uint32_t known = by % 2 ? MARKING_CP1621B : MARKING_CP1661B;
    return by < UNKNOWN ? known : known ^ (uint32_t)1 << by % 32;
}

static uint32_t delay(uint8_t by)
{
    return by < UNKNOWN ? by % (DELAY_MOST + 1) : (uint32_t)(DELAY_MOST + 1) << by % 28;
}

/* Even ones, seldom odd ones, those about the most. */
static size_t memory_length(uint8_t by)
{
    if (by < UNKNOWN)
        return 2 * (size_t)by;
    return by % 2 ? by : (size_t)MEMORY_MOST + by % 8 / 2 - 1;
}

call shape(const uint8_t *bytes, size_t length)
{
    static uint8_t deck[DECK_ROOM];
    material from = {bytes, length < DECK_MOST ? length : DECK_MOST};
    uint8_t head[HEAD];
    take(&from, head, HEAD);
    call made = {.deck = deck, .deck_len = from.left, .state_len = STATE_BYTES, .memory_len = memory_length(head[8]),
                 .marking = marking(head[6]), .delay = delay(head[7]), .shown = set(head, SHOWN)};
    if (set(head, RAW))
        memcpy(deck, from.at, from.left);
    else
        made.deck_len = mend(from, deck, head);
    find_sections(deck, made.deck_len, &made.has);
    made.requests_len = made.has.samples * (size_t)REQUEST_BYTES;
    if (set(head, OTHER_REQUESTS))
        made.requests_len += head[1];
    if (set(head, OTHER_REQUESTS) && head[1] > 127)
        made.requests_len = made.requests_len < 256 ? 0 : made.requests_len - 256;
    if (set(head, OTHER_STATE))
        made.state_len = head[2];
    return made;
}

unsigned refusal(const call *made)
{
    static uint8_t mended[DECK_ROOM];
    static const uint8_t plain[HEAD];
    static const unsigned order[] = {STATE, WORDS, ROWS, SAMPLES};
    const sections *deck = &made->has;
    size_t counts[SECTIONS] = {deck->words, deck->rows, 1, deck->samples}, starts[SECTIONS], at = 0;
    if (!deck->state || made->deck_len > DECK_MOST || made->state_len != STATE_BYTES)
        return ANSWER_DECK;
    if (made->marking != MARKING_CP1661B && made->marking != MARKING_CP1621B)
        return ANSWER_MARKING;
    mend((material){made->deck, made->deck_len}, mended, plain);
    bool over[SECTIONS] = {deck->words > 2048, deck->rows > 128, false,
                           made->requests_len / REQUEST_BYTES < deck->samples};
    for (unsigned section = WORDS; section < SECTIONS; section++) {
        starts[section] = at + 2;
        at += 2 + counts[section] * sizes[section];
    }
    for (unsigned i = 0; i < SECTIONS; i++) {
        size_t start = starts[order[i]], bytes = counts[order[i]] * sizes[order[i]];
        if (over[order[i]] || memcmp(made->deck + start, mended + start, bytes))
            return ANSWER_STATE + i;
    }
    return 0;
}
