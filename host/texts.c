#include "texts.h"
#include "chuenphrao.h"
#include "deck.h"

#include <stdio.h>

/* The causes that this host can meet: its buffers always fit, a deck's count cannot say 65,536, and a memory that is
   too long is not handed in. */
static const char *const answers[] = {
    [ANSWER_DONE] = "all samples used",
    [ANSWER_STATE] = "state out of range",
    [ANSWER_WORDS] = "over 2,048 words, or a word of 2^22 or more",
    [ANSWER_ROWS] = "over 128 rows, or a row out of range",
    [ANSWER_SAMPLES] = "a sample out of range",
    [ANSWER_NO_WORD] = "LC has no word",
    [ANSWER_CODE] = "code unlisted, or AC",
    [ANSWER_PAIR] = "no longer given",
    [ANSWER_OPTION] = "option not listed",
    [ANSWER_DECK] = "deck over 65,536 bytes, state count not 1, or length other than its counts say",
    [ANSWER_MEMORY] = "memory length odd, or delay over 15",
    [ANSWER_NO_REPLY] = "32 waits, address beyond memory",
    [ANSWER_MARKING] = "unknown marking",
};

static const char *const kinds[KINDS] = {
    [KIND_NONE] = "none",
    [KIND_READ] = "read",
    [KIND_WRITE] = "write",
    [KIND_READ_ACKNOWLEDGE] = "read acknowledge",
    [KIND_WRITE_ACKNOWLEDGE] = "write acknowledge",
    [KIND_DATA_IN] = "data in",
    [KIND_WORD_OUT] = "word out",
    [KIND_BYTE_OUT] = "byte out",
    [KIND_STATUS_OUT] = "status out",
    [KIND_STATUS_IN] = "status in",
    [KIND_WAIT] = "wait",
    [KIND_RESET] = "RESET",
    [KIND_COMPUTE_LOW] = "COMPUTE low",
};

const char *answer_text(uint32_t answer)
{
    const char *text = answer < sizeof answers / sizeof *answers ? answers[answer] : NULL;
    return text ? text : "no answer of the engine's interface";
}

unsigned kind_of(const uint8_t *request)
{
    return number_at(request + 2);
}

void write_kind(char text[KIND_ROOM], const uint8_t *request)
{
    unsigned kind = kind_of(request);
    if (kind < KINDS)
        snprintf(text, KIND_ROOM, "%s", kinds[kind]);
    else
        snprintf(text, KIND_ROOM, "unknown kind %u", kind);
}

bool has_value(const uint8_t *request)
{
    unsigned kind = kind_of(request);
    return (kind != KIND_NONE && kind < KIND_WAIT) || number_at(request) != 0;
}

void write_numbers(char text[NUMBERS_ROOM], unsigned first, unsigned next)
{
    if (next - first == 1)
        snprintf(text, NUMBERS_ROOM, "%u", next);
    else
        snprintf(text, NUMBERS_ROOM, "%u-%u", first + 1, next);
}

enum { REPLY = 0, BUSY = 1, COMPUTE = 2, RESET = 3, ICS = 4, I0 = 8 }; /* bits of a sample's lines */

unsigned lines_of(const uint8_t *sample, bool external)
{
    unsigned lines = number_at(sample + 2);
    return external ? lines & ~(1u << REPLY) : lines;
}

void show_lines(unsigned lines)
{
    static const struct {
        const char *name;
        unsigned bit;
    } names[] = {{"COMPUTE", COMPUTE}, {"REPLY", REPLY}, {"BUSY", BUSY},  {"RESET", RESET}, {"ICS", ICS},
                 {"I0", I0},           {"I1", I0 + 1},   {"I2", I0 + 2}, {"I3", I0 + 3}};
    if (!lines)
        printf(" -");
    for (size_t i = 0; i < sizeof names / sizeof *names; i++)
        if (lines >> names[i].bit & 1)
            printf(" %s", names[i].name);
    putchar('\n');
}
