#include "trace.h"
#include "bus.h"
#include "cut.h"
#include "fields.h"
#include "progress.h"
#include "texts.h"
#include "words.h"

#include <stdio.h>

enum { WORD_WIDTH = 37, INDENT = 11, WIDTH = 100 }; /* the last two of what stands below an attempt's line */

static void show_head(void)
{
    printf("\n  %-7s  %-*s  %-11s  %s  %-17s  %s\n", "attempt", WORD_WIDTH, "word", "outcome", "microcycles", "request",
           "value");
}

/* The word at LC, and what is ORed into it where a modification waits. */
static void show_word(const sections *deck, const uint8_t *state)
{
    char line[LINE_ROOM];
    write_word(line, deck, number_at(state + LC));
    int at = printf("%s", line);
    if (state[MARKS] & MARKED)
        at += printf(" OR %04X", number_at(state + MODIFICATION));
    printf("%*s", at < WORD_WIDTH ? WORD_WIDTH - at : 0, "");
}

/* How an attempt that was not refused ended: by its request, whose kind has its name. */
static const char *outcome_of(const uint8_t *request, const char *kind)
{
    switch (kind_of(request)) {
    case KIND_WAIT:
        return "waited";
    case KIND_RESET:
    case KIND_COMPUTE_LOW:
        return kind;
    default:
        return "completed";
    }
}

static void show_made(const report *made, const uint8_t *request)
{
    char kind[KIND_ROOM];
    write_kind(kind, request);
    printf("  %-11s  %11u", outcome_of(request, kind), made->microcycles);
    if (has_value(request))
        printf("  %-17s  %04X\n", kind, number_at(request));
    else
        printf("  %s\n", kind);
}

/* Shows a field if it changed; at is how far the line is written, and the result how far it is then. */
static int show_change(int at, const field *of, const uint8_t *before, const uint8_t *after)
{
    char was[VALUE_ROOM], is[VALUE_ROOM], change[48];
    if (!of->name || value_of(of, before) == value_of(of, after))
        return at;
    write_value(was, of, value_of(of, before));
    write_value(is, of, value_of(of, after));
    int needed = snprintf(change, sizeof change, "%s %s %s", of->name, was, is);
    if (at && at + 2 + needed > WIDTH) {
        putchar('\n');
        at = 0;
    }
    return at + printf("%*s%s", at ? 2 : INDENT, "", change);
}

static void show_changes(const uint8_t *before, const uint8_t *after)
{
    int at = 0;
    for (unsigned column = 0; column < COLUMNS; column++)
        for (unsigned i = 0; i < LINES; i++)
            at = show_change(at, &fields[column][i], before, after);
    if (at)
        putchar('\n');
}

/* The attempt's sample, or with a memory the external lines. */
static void show_sample(const cut *of, unsigned place)
{
    const uint8_t *sample = of->deck->sample + place * (size_t)SAMPLE_BYTES;
    bool external = of->start->before;
    printf("%*s%s %04X", INDENT, "", external ? "external" : "sample", number_at(sample));
    show_lines(lines_of(sample, external));
}

/* Runs the next sample and shows its attempt. The result is the engine's answer. */
static uint32_t show_attempt(cut *of)
{
    unsigned place = of->used;
    report made = run_next(of, 1);
    printf("  %-7u  ", place + 1);
    show_word(of->deck, of->before);
    if (made.answer)
        printf("  %-11s  %u: %s\n", "refused", made.answer, answer_text(made.answer));
    else
        show_made(&made, of->requests + place * (size_t)REQUEST_BYTES);
    show_sample(of, place);
    if (of->start->before && !made.answer)
        show_access(&of->memory, of->requests, place, INDENT);
    show_changes(of->before, of->after);
    return made.answer;
}

/* The samples from first up to but not with next: those before are one run, for nothing of them is shown. */
static void show_window(cut *of, unsigned first, unsigned next)
{
    uint32_t answer = run_next(of, first).answer;
    while (!answer && of->used < next) {
        answer = show_attempt(of);
        show_progress(of->used, next);
    }
    clear_progress();
    unsigned unused = of->used + 1 > first ? of->used + 1 : first; /* after the refused one */
    if (answer && unused < next) {
        char numbers[NUMBERS_ROOM];
        write_numbers(numbers, unused, next);
        printf("  %-7s  not used\n", numbers);
    }
}

void show_trace(const sections *deck, const bus_memory *memory, uint32_t marking, const window *asked)
{
    if (asked->from > deck->samples) {
        printf("\n  none of the attempts from %u on: the deck has %u samples\n", asked->from, deck->samples);
        return;
    }
    show_head();
    cut of = begin_cut(deck, memory, marking);
    show_window(&of, asked->from - 1, asked->to < deck->samples ? asked->to : deck->samples);
    end_cut(&of);
}
