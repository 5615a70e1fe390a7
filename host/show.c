#include "show.h"
#include "bus.h"
#include "fields.h"
#include "texts.h"
#include "words.h"

#include <stdio.h>
#include <string.h>

static bool was_run(const outcome *ran)
{
    uint32_t answer = ran->report.answer;
    return answer == ANSWER_DONE || (answer >= ANSWER_NO_WORD && answer <= ANSWER_OPTION)
        || answer == ANSWER_NO_REPLY;
}

/* The fields that can be out of range, whole, since the state's own form would hide the unused bits. */
static void show_given(const uint8_t *state)
{
    printf("  given        G %02X  LC %04X  RR %04X  outputs %02X  TSR %02X  marks %02X  I4-I6 %02X"
           "  modification %04X\n",
           state[26], number_at(state + LC), number_at(state + 30), state[OUTPUTS], state[36], state[MARKS], state[38],
           number_at(state + MODIFICATION));
}

static void show_marking(uint32_t marking)
{
    bool known = marking == MARKING_CP1661B || marking == MARKING_CP1621B;
    printf(known ? "  marking      CP%uB\n" : "  marking      %u\n", marking);
}

static void show_answer(const outcome *ran)
{
    uint32_t answer = ran->report.answer;
    if (ran->deck.state) {
        printf("  deck         words %u, rows %u, samples %u\n", ran->deck.words, ran->deck.rows, ran->deck.samples);
        show_words(&ran->deck);
    }
    if (ran->memory.before)
        printf("  memory       length %zX, delay %X\n", ran->memory.length, ran->memory.delay);
    show_marking(ran->marking);
    printf("  answer       %u: %s", answer, answer_text(answer));
    if (was_run(ran) && answer != ANSWER_DONE)
        printf(", at attempt %u", ran->report.attempts + 1);
    printf("\n  attempts     %u\n  microcycles  %u\n", ran->report.attempts, ran->report.microcycles);
    if (was_run(ran))
        puts("  state        below, * marks what changed");
    else
        printf("  state        %s, nothing was run\n", answer == ANSWER_DECK ? "none" : "as given");
    if (answer == ANSWER_STATE && ran->deck.state)
        show_given(ran->deck.state);
}

static const uint8_t *sample_at(const outcome *ran, size_t place)
{
    return ran->deck.sample + place * SAMPLE_BYTES;
}

/* With a memory the samples are the external lines. */
static unsigned lines_at(const outcome *ran, size_t place)
{
    return lines_of(sample_at(ran, place), ran->memory.before);
}

/* The sample's data and the lines that are high. */
static void show_sample(const outcome *ran, size_t place)
{
    printf("  %04X ", number_at(sample_at(ran, place)));
    show_lines(lines_at(ran, place));
}

static void show_numbers(unsigned first, unsigned next)
{
    char numbers[NUMBERS_ROOM];
    write_numbers(numbers, first, next);
    printf("  %-11s", numbers);
}

static void show_request(const uint8_t *request)
{
    char kind[KIND_ROOM];
    write_kind(kind, request);
    printf("  %-17s", kind);
    if (has_value(request))
        printf("   %04X", number_at(request));
    else
        printf("       ");
}

static bool same(const outcome *ran, size_t a, size_t b)
{
    return !memcmp(ran->requests + a * REQUEST_BYTES, ran->requests + b * REQUEST_BYTES, REQUEST_BYTES)
        && number_at(sample_at(ran, a)) == number_at(sample_at(ran, b)) && lines_at(ran, a) == lines_at(ran, b);
}

/* One line for each attempt; equal ones in a row share it, as a soak deck has thousands. */
static void show_attempts(const outcome *ran)
{
    unsigned made = ran->report.attempts, samples = ran->deck.samples;
    if (samples == 0)
        return;
    printf("\n  attempt      request            value  %s\n",
           ran->memory.before ? "external DAL, lines high" : "DAL   lines high");
    for (unsigned first = 0, next; first < made; first = next) {
        for (next = first + 1; next < made && same(ran, first, next); next++)
            ;
        show_numbers(first, next);
        show_request(ran->requests + (size_t)first * REQUEST_BYTES);
        show_sample(ran, first);
    }
    if (made < samples) {
        show_numbers(made, made + 1);
        printf("  %-17s       ", "refused");
        show_sample(ran, made);
    }
    if (made + 1 < samples) {
        show_numbers(made + 1, samples);
        puts("  not used");
    }
}

static int show_value(const field *of, int value)
{
    char text[VALUE_ROOM];
    write_value(text, of, value);
    return printf("%7s", text);
}

/* Shows a field's name, its value before and after and a mark if they differ, from where its column starts;
   at is how far the line is written, and the result how far it is then. */
static int show_field(int at, unsigned column, const field *of, const outcome *ran)
{
    static const int start[COLUMNS] = {2, 23, 44, 65};
    if (!of->name)
        return at;
    int before = value_of(of, ran->deck.state), after = value_of(of, ran->state);
    at += printf("%*s%-*s", start[column] - at, "", column == COLUMNS - 1 ? 12 : 2, of->name);
    at += show_value(of, before);
    at += show_value(of, after);
    return at + (before != after ? printf(" *") : 0);
}

static void show_state(const outcome *ran)
{
    puts("\n     before  after        before  after        before  after                  before  after");
    for (unsigned i = 0; i < LINES; i++) {
        int at = 0;
        for (unsigned column = 0; column < COLUMNS; column++)
            at = show_field(at, column, &fields[column][i], ran);
        putchar('\n');
    }
}

void show(const outcome *ran, const window *traced)
{
    printf("%s\n", ran->name);
    show_answer(ran);
    if (was_run(ran)) {
        if (traced)
            show_trace(&ran->deck, &ran->memory, ran->marking, traced);
        else
            show_attempts(ran);
        if (ran->memory.before)
            show_memory(&ran->memory, ran->requests, ran->report.attempts);
        show_state(ran);
    }
    putchar('\n');
}

void show_line(const outcome *ran)
{
    const uint8_t *state = was_run(ran) ? ran->state : ran->deck.state;
    printf("answer %-2u attempts %5u  microcycles %6u  ", ran->report.answer, ran->report.attempts,
           ran->report.microcycles);
    if (ran->report.answer != ANSWER_DECK && state)
        printf("LC %03X  flags %02X", number_at(state + LC), state[FLAGS]);
    else
        printf("LC   -  flags  -");
    printf("  %s\n", ran->name);
}
