/* Demand 3 on the compiled engine: sums and differences of k bytes, 1 to 7, in random registers, cut at random into byte and pair
   steps, against 128-bit arithmetic. sums SEED COUNT makes COUNT sums and, from the state after each, the difference that brings the
   target back, cut anew; COUNT differences; and COUNT runs of a sum and such a difference. */
#include "../../host/chuenphrao.h"
#include <stdbool.h>
#include <stdio.h>
#include <stdlib.h>
#include <string.h>

typedef __int128 wide;

enum { G = 26, FLAGS = 27, LC = 28, OUTPUTS = 41, WORDS = 2048 };

/* The steps of a cut: designators of target and source, and whether they are of pairs. */
typedef struct {
    int steps, bytes;
    int target[7], source[7];
    bool pair[7];
} cut;

static uint64_t seed;

static uint32_t random_below(uint32_t n)
{
    seed ^= seed << 13;
    seed ^= seed >> 7;
    seed ^= seed << 17;
    return (uint32_t)(seed >> 32) % n;
}

static void shuffle(int *items, int n)
{
    for (int i = n - 1; i > 0; i--) {
        int j = random_below(i + 1), kept = items[i];
        items[i] = items[j];
        items[j] = kept;
    }
}

/* Pair steps take whole pairs of the seven R3:R2 to RF:RE, byte steps any registers that are left. */
static cut random_cut(int k)
{
    cut c = {.bytes = k};
    int pairs[7] = {2, 4, 6, 8, 10, 12, 14}, used = 0, singles[14], free = 0;
    shuffle(pairs, 7);
    for (int left = k; left > 0; c.steps++) {
        c.pair[c.steps] = left > 1 && random_below(2);
        left -= 1 + c.pair[c.steps];
    }
    for (int i = 0; i < c.steps; i++)
        if (c.pair[i]) {
            c.target[i] = pairs[used++];
            c.source[i] = pairs[used++];
        }
    for (; used < 7; used++) {
        singles[free++] = pairs[used];
        singles[free++] = pairs[used] + 1;
    }
    shuffle(singles, free);
    for (int i = 0; i < c.steps; i++)
        if (!c.pair[i]) {
            c.target[i] = singles[--free];
            c.source[i] = singles[--free];
        }
    return c;
}

/* The same registers, byte by byte, cut anew: two bytes can be a pair where both numbers have an even one and the next. */
static cut cut_anew(const cut *c)
{
    cut d = {.bytes = c->bytes};
    int target[7], source[7], n = 0;
    for (int i = 0; i < c->steps; i++)
        for (int high = 0; high <= c->pair[i]; high++, n++) {
            target[n] = c->target[i] + high;
            source[n] = c->source[i] + high;
        }
    for (int i = 0; i < n; i += 1 + d.pair[d.steps++]) {
        d.target[d.steps] = target[i];
        d.source[d.steps] = source[i];
        d.pair[d.steps] = i + 1 < n && target[i] % 2 == 0 && target[i + 1] == target[i] + 1 && source[i] % 2 == 0 &&
                          source[i + 1] == source[i] + 1 && random_below(2);
    }
    return d;
}

/* R2 stands at byte 12 of the state, designator d at 10 + d. */
static wide number(const uint8_t *state, const cut *c, const int *low)
{
    wide n = 0;
    int shift = 0;
    for (int i = 0; i < c->steps; i++)
        for (int high = 0; high <= c->pair[i]; high++, shift += 8)
            n |= (wide)state[10 + low[i] + high] << shift;
    return n;
}

static void put_number(uint8_t *state, const cut *c, const int *low, wide n)
{
    for (int i = 0; i < c->steps; i++)
        for (int high = 0; high <= c->pair[i]; high++, n >>= 8)
            state[10 + low[i] + high] = (uint8_t)n;
}

static size_t put16(uint8_t *at, unsigned n)
{
    at[0] = n % 256;
    at[1] = n / 256;
    return 2;
}

/* The words of a cut; bits 16 to 21 are random. */
static int put_words(uint32_t *words, const cut *c, bool minus)
{
    for (int i = 0; i < c->steps; i++)
        words[i] = random_below(64) << 16 | ((minus ? 0xB1 : 0xA1) + (i > 0) * 8 + c->pair[i] * 2) << 8 | c->source[i] << 4 | c->target[i];
    return c->steps;
}

/* The words stand from LC on, among NOPs, and go on from 2047 to 0; the lines that don't matter are random. */
static size_t make_deck(uint8_t *deck, const uint32_t *words, unsigned steps, const uint8_t *state)
{
    unsigned lc = state[LC] + 256 * state[LC + 1], count = lc + steps < WORDS ? lc + steps : WORDS;
    size_t n = put16(deck, count);
    for (unsigned i = 0; i < count; i++) {
        unsigned step = (i + WORDS - lc) % WORDS;
        uint32_t word = step < steps ? words[step] : 0xFF00;
        n += put16(deck + n, word % 65536);
        n += put16(deck + n, word / 65536);
    }
    n += put16(deck + n, 0);
    n += put16(deck + n, 1);
    memcpy(deck + n, state, STATE_BYTES);
    n += STATE_BYTES;
    n += put16(deck + n, steps);
    for (unsigned i = 0; i < steps; i++) {
        n += put16(deck + n, random_below(65536));
        n += put16(deck + n, (4 | (random_below(32) & 0x13)) + 256 * random_below(16));
    }
    return n;
}

static bool differs(const char *what, bool wrong)
{
    if (wrong)
        printf("%s is wrong\n", what);
    return wrong;
}

/* A run of these words from a state, under either marking: the registers, C and V are as expected, the rest as demand 3 says. */
static bool ran(const uint32_t *words, unsigned steps, unsigned cycles, uint8_t *state, const uint8_t *expected, bool c, bool v)
{
    static uint8_t deck[65536];
    uint8_t after[STATE_BYTES], places[56];
    memset(places, 0xEE, sizeof places);
    uint32_t marking = random_below(2) ? MARKING_CP1661B : MARKING_CP1621B;
    report r = run(deck, make_deck(deck, words, steps, state), places, 4 * steps, after, sizeof after, marking);
    unsigned lc = state[LC] + 256 * state[LC + 1] + steps;

    bool wrong = differs("the answer", r.answer != 0 || r.attempts != steps || r.microcycles != cycles);
    wrong |= differs("a register", memcmp(after, expected, 26));
    wrong |= differs("C", (after[FLAGS] >> 4 & 1) != c);
    wrong |= differs("V", (after[FLAGS] >> 5 & 1) != v);
    wrong |= differs("LC", after[LC] + 256u * after[LC + 1] != lc % WORDS);
    wrong |= differs("an output", after[OUTPUTS] != words[steps - 1] >> 18);
    for (unsigned i = 0; i < 4 * steps; i++)
        wrong |= differs("a request", places[i] != 0);
    memcpy(state, after, STATE_BYTES);
    return !wrong;
}

/* The signed sum or difference of two numbers of k bytes is outside the range of such numbers. */
static bool outside(wide x, wide y, bool minus, int k)
{
    wide range = (wide)1 << 8 * k, half = range / 2;
    wide p = x < half ? x : x - range, q = y < half ? y : y - range, with_sign = minus ? p - q : p + q;
    return with_sign < -half || with_sign >= half;
}

/* One sum or difference of what stands in the state; the state after it takes its place. */
static bool right(const cut *c, bool minus, uint8_t *state)
{
    uint8_t expected[STATE_BYTES];
    uint32_t words[7];
    wide range = (wide)1 << 8 * c->bytes;
    wide x = number(state, c, c->target), y = number(state, c, c->source);
    memcpy(expected, state, STATE_BYTES);
    put_number(expected, c, c->target, ((minus ? x - y : x + y) + range) % range);
    bool carry = minus ? x < y : x + y >= range;
    return ran(words, put_words(words, c, minus), c->bytes, state, expected, carry, outside(x, y, minus, c->bytes));
}

/* A sum, and the difference that brings its target back, in one run. */
static bool right_in_one(const cut *there, const cut *back, uint8_t *state)
{
    uint8_t expected[STATE_BYTES];
    uint32_t words[14];
    wide range = (wide)1 << 8 * there->bytes, y = number(state, there, there->source);
    wide x = (number(state, there, there->target) + y) % range;
    int steps = put_words(words, there, false);
    memcpy(expected, state, STATE_BYTES);
    steps += put_words(words + steps, back, true);
    return ran(words, steps, 2 * there->bytes, state, expected, x < y, outside(x, y, true, there->bytes));
}

static void random_state(uint8_t *state)
{
    for (int i = 0; i <= FLAGS; i++)
        state[i] = random_below(256);
    state[G] %= 8;
    memset(state + LC, 0, STATE_BYTES - LC);
    state[OUTPUTS] = random_below(16);
    /* Words that go on from 2047 to 0 need a deck of 2,048: a few. */
    unsigned lc = random_below(256) ? random_below(5) : WORDS - 1 - random_below(7);
    put16(state + LC, lc);
}

int main(int argc, char **argv)
{
    unsigned passed = 0, failed = 0, count = argc > 2 ? atoi(argv[2]) : 0;
    seed = argc > 1 ? strtoull(argv[1], NULL, 10) : 1;
    printf("seed %llu\n", (unsigned long long)seed);
    for (unsigned i = 0; i < count; i++) {
        uint8_t state[STATE_BYTES], before[STATE_BYTES];
        cut c = random_cut(1 + i % 7), d = cut_anew(&c);
        random_state(state);
        memcpy(before, state, STATE_BYTES);
        bool sum = right(&c, false, state);
        bool back = right(&d, true, state) && !memcmp(state, before, 26);
        bool difference = right(&c, true, state);
        bool both = right_in_one(&c, &d, state);
        passed += sum + back + difference + both;
        failed += 4 - sum - back - difference - both;
    }
    printf("%u passed, %u failed\n", passed, failed);
    return failed != 0;
}
