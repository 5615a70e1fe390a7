/* How much stack `run`, `run_with_memory`, `assemble`, `list_words` and `profile` take. Each is called on a stack of its own,
   painted before, and the deepest byte that it changed tells: stack BOUND. Each kind of deck without a memory and with one, a
   listing there and back, and its words' profile have to get their answer and take less than BOUND bytes. */
#define _DEFAULT_SOURCE
#include "../../host/chuenphrao.h"

#include <stdbool.h>
#include <stdio.h>
#include <stdlib.h>
#include <string.h>
#include <sys/mman.h>
#include <ucontext.h>

enum { ROOM = 1 << 20, PAGE = 4096, CODES = 256 };
enum { REPLY = 1, COMPUTE = 4, RESET = 8, LTSR = 4, JUMP_TO_0 = 0, NOP = 0xFF00, READ = 0xF842 };

/* Words, but for the first where it is given, rows and samples are all alike: rows match always, and raise these lines; of a
   sample's lines these are not as in one with COMPUTE alone. TR has Q1 true, and the marking is CP1621B where no other is
   given. */
typedef struct {
    const char *name;
    uint32_t answer;
    unsigned words, first, word, rows, raised, more_states, g, outputs, samples, lines, places_missing, marking, memory_len;
} kind;

static uint8_t deck[2 * DECK_MOST], requests[DECK_MOST], state[STATE_BYTES], memory[MEMORY_MOST];
static size_t deck_len, requests_len, memory_len;
static uint32_t marking;
static uint8_t *room, paint;
static size_t taken;
static report is;
static ucontext_t outside, inside;

static void put(unsigned number, unsigned bytes)
{
    for (; bytes > 0; bytes--, number >>= 8)
        deck[deck_len++] = (uint8_t)number;
}

static void make(const kind *of)
{
    deck_len = 0;
    put(of->words, 2);
    for (unsigned i = 0; i < of->words; i++)
        put(i == 0 && of->first ? of->first : of->word, WORD_BYTES);
    put(of->rows, 2);
    for (unsigned i = 0; i < of->rows; i++, deck_len += ROW_BYTES) {
        memset(deck + deck_len, 0, ROW_BYTES);
        deck[deck_len + 14] = (uint8_t)of->raised;
    }
    put(1 + of->more_states, 2);
    for (unsigned i = 0; i < 1 + of->more_states; i++, deck_len += STATE_BYTES) {
        memset(deck + deck_len, 0, STATE_BYTES);
        deck[deck_len + 26] = (uint8_t)of->g;
        deck[deck_len + 33] = 0x20; /* TR13 */
        deck[deck_len + 41] = (uint8_t)of->outputs;
    }
    put(of->samples, 2);
    for (unsigned i = 0; i < of->samples; i++)
        put((of->lines ^ COMPUTE) << 16, SAMPLE_BYTES);
    requests_len = (of->samples - of->places_missing) * (size_t)REQUEST_BYTES;
    marking = of->marking ? of->marking : MARKING_CP1621B;
    memory_len = of->memory_len;
}

static void run_deck(void)
{
    is = run(deck, deck_len, requests, requests_len, state, sizeof state, marking);
}

static void run_with_a_memory(void)
{
    is = run_with_memory(deck, deck_len, memory, memory_len, 1, requests, requests_len, state, sizeof state, marking);
}

static void (*work)(void) = run_deck;

/* From where this function calls, down to the deepest byte that was changed. */
static void call(void)
{
    const uint8_t *here = __builtin_frame_address(0), *at = room;
    work();
    while (*at == paint)
        at++;
    taken = (size_t)(here - at);
}

/* The paint can be a byte that is written, so there are two. */
static size_t measured(void)
{
    size_t most = 0;
    for (paint = 0xC3; paint; paint = paint == 0xC3 ? 0x3C : 0) {
        memset(room, paint, ROOM);
        getcontext(&inside);
        inside.uc_stack.ss_sp = room;
        inside.uc_stack.ss_size = ROOM;
        inside.uc_link = &outside;
        makecontext(&inside, call, 0);
        swapcontext(&outside, &inside);
        most = taken > most ? taken : most;
    }
    return most;
}

static bool fits(const kind *of, size_t bound)
{
    make(of);
    size_t most = measured();
    printf("%-26s answer %u, %zu bytes\n", of->name, is.answer, most);
    return is.answer == of->answer && most > 0 && most < bound;
}

/* Whatever the answer; the largest over all top bytes, with registers and with those that G selects. */
static bool codes_fit(size_t bound)
{
    size_t most = 0;
    for (unsigned i = 0; i < 4 * CODES; i++) {
        unsigned word = i / 4 << 8 | (i & 1 ? 0x10 : 0x42);
        make(&(kind){.words = 1, .word = word, .samples = 1, .lines = i & 2 ? REPLY : 0});
        size_t one = measured();
        most = one > most ? one : most;
    }
    printf("%-26s %zu bytes at most\n", "each top byte", most);
    return most > 0 && most < bound;
}

static uint8_t microcode[WORDS_MOST * WORD_BYTES], text[LISTING_MOST];
static size_t text_len;
static listing_report told;

/* 2,048 words of the codes 80 to AB, with all operands and marks. */
static void list(void)
{
    for (unsigned i = 0; i < WORDS_MOST; i++)
        memcpy(microcode + i * WORD_BYTES, (uint8_t[WORD_BYTES]){(uint8_t)i, (uint8_t)(0x80 + i % 0x2C), i % 64}, WORD_BYTES);
    told = list_words(microcode, sizeof microcode, text, sizeof text);
    text_len = told.length;
}

static void assemble_again(void)
{
    told = assemble(text, text_len, microcode, sizeof microcode);
}

/* 2,048 words, all JMP but the last, which is CAD. */
static void look_through(void)
{
    memset(microcode, 0, sizeof microcode);
    microcode[sizeof microcode - WORD_BYTES + 1] = 0xAC;
    profile_report found = profile(microcode, sizeof microcode);
    told.answer = found.answer != PROFILE_BROKEN || found.address != WORDS_MOST - 1 || found.rule != 4;
}

static bool part_fits(const char *name, void (*part)(void), size_t bound)
{
    work = part;
    size_t most = measured();
    printf("%-26s answer %u, %zu bytes\n", name, told.answer, most);
    return told.answer == 0 && most > 0 && most < bound;
}

static const kind kinds[] = {
    {.name = "no words, rows or samples"},
    {.name = "no rows", .words = 2048, .word = NOP, .samples = 2048},
    {.name = "RMW, Q1", .words = 2048, .word = 0xE242, .samples = 2048, .lines = REPLY},
    {.name = "RMW, CP1661B", .words = 2048, .word = 0xE242, .samples = 2048, .lines = REPLY, .marking = MARKING_CP1661B},
    {.name = "unknown marking", .answer = 24, .words = 1, .rows = 128, .g = 8, .samples = 1, .marking = 1},
    {.name = "128 rows", .words = 2048, .word = NOP, .rows = 128, .raised = LTSR, .samples = 2048},
    {.name = "long, no rows", .words = 1, .word = JUMP_TO_0, .samples = 16370},
    {.name = "long, 128 rows", .words = 2048, .word = JUMP_TO_0, .rows = 128, .samples = 13811},
    {.name = "crosswise pairs", .words = 2048, .word = 0xA232, .rows = 128, .raised = LTSR, .samples = 2048},
    {.name = "RESET", .samples = 16371, .lines = RESET},
    {.name = "COMPUTE low", .samples = 16371, .lines = COMPUTE},
    {.name = "state out of range", .answer = 1, .words = 1, .rows = 128, .g = 8, .samples = 1},
    {.name = "outputs out of range", .answer = 1, .words = 1, .rows = 128, .outputs = 16, .samples = 1},
    {.name = "a word of 2^22", .answer = 2, .words = 2048, .word = 1 << 22, .rows = 128, .samples = 1},
    {.name = "2,049 words", .answer = 2, .words = 2049, .rows = 128, .samples = 1},
    {.name = "rows out of range", .answer = 3, .words = 1, .rows = 128, .raised = 8, .samples = 1},
    {.name = "129 rows", .answer = 3, .words = 1, .rows = 129, .samples = 1},
    {.name = "samples out of range", .answer = 4, .words = 1, .rows = 128, .samples = 1, .lines = 32},
    {.name = "request buffer too short", .answer = 4, .words = 1, .rows = 128, .samples = 2, .places_missing = 1},
    {.name = "LC has no word", .answer = 5, .words = 1, .word = NOP, .rows = 128, .samples = 2},
    {.name = "code unlisted", .answer = 6, .words = 1, .word = 0x7800, .rows = 128, .samples = 1},
    {.name = "option not listed", .answer = 8, .words = 1, .word = 0xE442, .rows = 128, .samples = 1},
    {.name = "two states", .answer = 9, .words = 1, .rows = 128, .more_states = 1, .samples = 1},
    {.name = "deck too long", .answer = 9, .rows = 1, .samples = 16371},
};

/* With a memory only. */
static const kind of_memory[] = {
    {.name = "inputs", .words = 2048, .first = READ, .word = 0xE242, .samples = 2048, .marking = MARKING_CP1661B,
     .memory_len = MEMORY_MOST},
    {.name = "an output", .words = 2048, .first = READ, .word = 0xFD42, .rows = 128, .samples = 2048, .memory_len = 2},
    {.name = "memory length odd", .answer = 16, .words = 1, .samples = 1, .memory_len = 1},
    {.name = "no reply", .answer = 17, .words = 2, .first = READ, .word = 0xFC42, .samples = 40},
};

static unsigned passed, failed;

static void hold(bool fine)
{
    if (fine)
        passed++;
    else
        failed++;
}

int main(int count, char **words)
{
    size_t bound = count == 2 ? strtoul(words[1], NULL, 10) : 0;
    uint8_t *whole = mmap(NULL, PAGE + ROOM, PROT_NONE, MAP_PRIVATE | MAP_ANONYMOUS, -1, 0);
    room = whole + PAGE;
    if (bound == 0 || whole == MAP_FAILED || mprotect(room, ROOM, PROT_READ | PROT_WRITE))
        return 2;
    for (size_t i = 0; i < sizeof kinds / sizeof *kinds; i++)
        hold(fits(&kinds[i], bound));
    hold(codes_fit(bound));
    puts("with a memory:");
    work = run_with_a_memory;
    for (size_t i = 0; i < sizeof kinds / sizeof *kinds; i++)
        hold(fits(&kinds[i], bound));
    for (size_t i = 0; i < sizeof of_memory / sizeof *of_memory; i++)
        hold(fits(&of_memory[i], bound));
    hold(codes_fit(bound));
    hold(part_fits("2,048 lines listed", list, bound));
    hold(part_fits("2,048 lines assembled", assemble_again, bound));
    hold(part_fits("the profile of 2,048 words", look_through, bound));
    printf("%u passed, %u failed\n", passed, failed);
    return failed != 0;
}
