/* The bench host: hands decks to the engine and shows what a board must show.

   Exit status: 0 when every deck was run, refused ones among them, for a refusal is the engine's answer and
   no error here; 1 when a file could not be read, is too long for a deck or a memory, or too short for a memory, or
   the output could not be written; 2 for wrong arguments. */
#include "file.h"
#include "room.h"
#include "show.h"

#include <errno.h>
#include <stdio.h>
#include <stdlib.h>
#include <string.h>

enum { NOT_GIVEN = -1 };

typedef struct {
    bool quiet, trace;
    int64_t from, to, marking; /* NOT_GIVEN, or numbers of 32 bits */
} options;

/* Runs a deck's bytes, with its memory if it has one, and shows what came of it. */
static void run_bytes(const uint8_t *deck, size_t length, outcome *ran, const options *asked)
{
    window traced = {(uint32_t)asked->from, (uint32_t)asked->to};
    bus_memory *memory = &ran->memory;
    find_sections(deck, length, &ran->deck);
    size_t places = ran->deck.samples * (size_t)REQUEST_BYTES;
    uint8_t *requests = room_for(places), *state = room_for(STATE_BYTES);
    ran->report = memory->before
        ? run_with_memory(deck, length, memory->after, memory->length, memory->delay, requests, places, state,
                          STATE_BYTES, ran->marking)
        : run(deck, length, requests, places, state, STATE_BYTES, ran->marking);
    ran->requests = requests;
    ran->state = state;
    if (asked->quiet)
        show_line(ran);
    else
        show(ran, asked->trace ? &traced : NULL);
    free(state);
    free(requests);
}

/* Runs and shows one deck; false when its file or its memory's cannot be read, the deck is over 65,536 bytes, or the
   memory's file is shorter than the 4 bytes of its delay or over 65,540 bytes. */
static bool run_deck(const char *name, const options *asked)
{
    outcome ran = {.name = name, .marking = (uint32_t)asked->marking};
    size_t length;
    uint8_t *deck = read_file(name, DECK_MOST, &length);
    if (!deck)
        complain(name, strerror(errno));
    bool fine = deck && read_memory(name, &ran.memory);
    if (fine) {
        run_bytes(deck, length, &ran, asked);
        if (length > DECK_MOST)
            complain(name, "over 65,536 bytes, too long for a deck");
    }
    free_memory(&ran.memory);
    free(deck);
    return fine && length <= DECK_MOST;
}

static int usage(void)
{
    fputs("usage: bench [--quiet] [--marking NUMBER] DECK...\n"
          "       bench --trace [--from N] [--to M] [--marking NUMBER] DECK...\n"
          "Runs each deck and shows the answer, every attempt's request, and the state before and after.\n"
          "NAME.deck is run with the memory in NAME.memory on its bus, if that file is there.\n"
          "Values are hexadecimal; answers, counts and the numbers of attempts are decimal.\n"
          "  --quiet            one line for each deck: answer, attempts, microcycles, LC and flag byte\n"
          "  --trace            of every attempt its word, how it ended, its request and what it changed\n"
          "  --from N, --to M   only of these attempts, counted from 1\n"
          "  --marking NUMBER   of the control chip: 1661 for CP1661B, which is the default, or 1621 for\n"
          "                     CP1621B, which has Q1. The engine answers any other with 24.\n"
          "Status 0: all decks were run, refused or not. 1: a file cannot be read, is too long, or too short\n"
          "for a memory. 2: usage.\n",
          stderr);
    return 2;
}

/* The number that a word is, in decimal. False where it is none, or over what the engine takes: it could only be handed
   on as another. */
static bool read_number(const char *word, int64_t *number)
{
    size_t digits = strspn(word, "0123456789");
    if (!digits || word[digits])
        return false;
    errno = 0;
    unsigned long long value = strtoull(word, NULL, 10);
    *number = (uint32_t)value;
    return !errno && value <= UINT32_MAX;
}

/* What the option of that name sets; null where it is no such option. */
static bool *switch_of(const char *word, options *asked)
{
    return !strcmp(word, "--quiet") ? &asked->quiet : !strcmp(word, "--trace") ? &asked->trace : NULL;
}

static int64_t *number_of(const char *word, options *asked)
{
    if (!strcmp(word, "--marking"))
        return &asked->marking;
    return !strcmp(word, "--from") ? &asked->from : !strcmp(word, "--to") ? &asked->to : NULL;
}

/* Takes the option at a place, and goes on to its number if it has one. False where it is wrong, or given before. */
static bool read_option(int count, char **words, int *at, options *asked)
{
    bool *chosen = switch_of(words[*at], asked);
    int64_t *number = number_of(words[*at], asked);
    if (chosen && !*chosen)
        return *chosen = true;
    return number && *number == NOT_GIVEN && ++*at < count && read_number(words[*at], number);
}

/* Puts in what is not given. False where options do not go together. */
static bool complete(options *asked)
{
    bool windowed = asked->from != NOT_GIVEN || asked->to != NOT_GIVEN;
    if (asked->trace ? asked->quiet : windowed)
        return false;
    if (asked->from == NOT_GIVEN)
        asked->from = 1;
    if (asked->to == NOT_GIVEN)
        asked->to = UINT32_MAX;
    if (asked->marking == NOT_GIVEN)
        asked->marking = MARKING_CP1661B;
    return asked->from >= 1 && asked->from <= asked->to;
}

/* The options, each at most once. The result is the place of the first deck's name, or 0 for wrong arguments. */
static int read_options(int count, char **words, options *asked)
{
    int at = 1;
    for (; at < count && words[at][0] == '-'; at++)
        if (!read_option(count, words, &at, asked))
            return 0;
    for (int i = at; i < count; i++)
        if (words[i][0] == '-')
            return 0;
    return at < count && complete(asked) ? at : 0;
}

int main(int count, char **words)
{
    options asked = {.from = NOT_GIVEN, .to = NOT_GIVEN, .marking = NOT_GIVEN};
    int first = read_options(count, words, &asked);
    bool fine = true;
    if (!first)
        return usage();
    for (int i = first; i < count; i++)
        fine &= run_deck(words[i], &asked);
    if (fflush(stdout) || ferror(stdout)) {
        complain("output", "could not be written");
        return 1;
    }
    return fine ? 0 : 1;
}
