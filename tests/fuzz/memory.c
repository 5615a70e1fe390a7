/* What the papers promise of a run with a memory on the bus. The requests tell what was stored and seen: replayed, they give the
   memory that is left and each word that was taken in. With BUSY they also tell where 17 has to come; see check_rows for what they
   do not tell. */
#include "call.h"

#include <stdlib.h>
#include <string.h>

enum { ROW = 32, ROOM = MEMORY_MOST + 8, BUSY = 2, COMPUTE = 4, RESET = 8 };

/* What a run left. */
typedef struct {
    report is;
    uint8_t *requests, *state, *memory;
} left;

/* A fault for the fuzzer to find, at an answer that no seed gets. */
static void plant(left *ran, size_t memory_len)
{
#ifdef PLANTED
    const char *fault = getenv("FAULT");
    if (fault && !strcmp(fault, "memory") && ran->is.answer == ANSWER_MEMORY && memory_len)
        ran->memory[memory_len - 1] ^= 1;
#else
    (void)ran, (void)memory_len;
#endif
}

/* The memory before a run. */
static const uint8_t *starting(void)
{
    static uint8_t bytes[ROOM];
    static bool made;
    for (size_t i = 0; i < ROOM && !made; i++)
        bytes[i] = (uint8_t)(i * 151 + i / 256);
    made = true;
    return bytes;
}

static left run_once(const call *made, bool at_end)
{
    uint8_t *deck = lend(DECK_LENT, at_end, made->deck_len);
    left ran = {.requests = lend(REQUESTS_LENT, at_end, made->requests_len),
                .state = lend(STATE_LENT, at_end, made->state_len),
                .memory = lend(MEMORY_LENT, at_end, made->memory_len)};
    memcpy(deck, made->deck, made->deck_len);
    memcpy(ran.memory, starting(), made->memory_len);
    memset(ran.requests, fills[at_end], made->requests_len);
    memset(ran.state, fills[at_end], made->state_len);
    ran.is = run_with_memory(deck, made->deck_len, ran.memory, made->memory_len, made->delay, ran.requests, made->requests_len,
                             ran.state, made->state_len, made->marking);
    plant(&ran, made->memory_len);
    expect(!memcmp(deck, made->deck, made->deck_len), "the deck is unchanged, with a memory too");
    return ran;
}

/* due is the refusal that the call has to get, or 0. */
static void check_answer(const call *made, unsigned due, const left *ran, uint8_t fill)
{
    report is = ran->is;
    bool refused = is.answer == ANSWER_NO_WORD || is.answer == ANSWER_CODE || is.answer == ANSWER_OPTION
        || is.answer == ANSWER_NO_REPLY;
    expect(due ? is.answer == due : is.answer == ANSWER_DONE || refused, "the answer is the one of the papers, with a memory too");
    const uint8_t *places = ran->requests + is.attempts * (size_t)REQUEST_BYTES;
    expect(filled(places, ran->requests + made->requests_len, fill), "places without an attempt are untouched, with a memory too");
    if (!due) {
        check_counts(made, refused, is);
        return;
    }
    expect(is.attempts == 0 && is.microcycles == 0, "nothing was attempted, with a memory too");
    expect(filled(ran->state, ran->state + made->state_len, fill), "the state buffer is untouched, with a memory too");
    expect(!memcmp(ran->memory, starting(), made->memory_len), "a refused deck leaves the memory");
}

/* An output of this kind and value, by the bytes. */
static void store(uint8_t *memory, unsigned address, unsigned kind, unsigned value)
{
    bool whole = kind == KIND_WORD_OUT, odd = address % 2;
    if (whole || !odd)
        memory[address & ~1u] = (uint8_t)value;
    if (whole || odd)
        memory[address | 1] = (uint8_t)(value >> 8);
}

typedef struct {
    unsigned kind, value;
} request;

static request request_at(const left *ran, uint32_t attempt)
{
    const uint8_t *at = ran->requests + (size_t)attempt * REQUEST_BYTES;
    return (request){.kind = number_at(at + 2), .value = number_at(at)};
}

/* The address that is kept after a request; MEMORY_MOST is none. */
static size_t kept(size_t address, request it)
{
    return it.kind >= KIND_READ && it.kind <= KIND_WRITE_ACKNOWLEDGE ? it.value : address;
}

/* Each input takes the last bytes that were stored, or the starting ones, and no other byte changes. */
static void check_history(const left *ran, size_t length)
{
    static uint8_t memory[ROOM];
    size_t address = MEMORY_MOST;
    memcpy(memory, starting(), length);
    for (uint32_t i = 0; i < ran->is.attempts; i++) {
        request it = request_at(ran, i);
        bool in = it.kind == KIND_DATA_IN, out = it.kind == KIND_WORD_OUT || it.kind == KIND_BYTE_OUT;
        expect(!(in || out) || address < length, "inputs and outputs are of an address in the memory");
        if (in)
            expect(it.value == number_at(memory + (address & ~(size_t)1)), "an input takes what was last stored");
        if (out)
            store(memory, (unsigned)address, it.kind, it.value);
        address = kept(address, it);
    }
    expect(!memcmp(memory, ran->memory, length), "outputs alone change the memory");
}

/* 17. A row of waits is of one word, as a wait changes nothing, so it is of a transfer or of an access as a whole, and the attempt
   after it is refused by 17 alone. Beyond the memory REPLY is low, so that an access waits for BUSY alone: one wait with BUSY low
   shows the row to be a transfer's, and the 33rd wait may not come.
   Not checked: where BUSY was high in all of a row beyond the memory, that a 17 that is due comes, as the row may be an access's,
   and that the row before a 17 is no access's. */
static void check_rows(const call *made, const left *ran)
{
    const uint8_t *sample = made->has.sample;
    size_t address = MEMORY_MOST;
    unsigned row = 0;
    bool beyond = false, transfers = false;
    for (uint32_t i = 0; i < ran->is.attempts; i++, sample += SAMPLE_BYTES) {
        request it = request_at(ran, i);
        address = kept(address, it);
        beyond = address >= made->memory_len && address < MEMORY_MOST;
        row = it.kind == KIND_WAIT ? row + 1 : 0;
        transfers = row && beyond && (transfers || !(sample[2] & BUSY));
        expect(!transfers || row <= ROW, "17 comes in the place of a 33rd wait for REPLY beyond the memory");
    }
    if (ran->is.answer == ANSWER_NO_REPLY)
        expect(row == ROW && beyond && (sample[2] & (COMPUTE | RESET)) == COMPUTE,
               "17 comes after 32 waits, the address beyond the memory, with COMPUTE and without RESET");
    else
        expect(ran->is.answer == ANSWER_DONE || row == 0, "a word that waited is refused by 17 alone");
}

void check_memory(const call *made)
{
    left ran[2];
    unsigned due = refusal(made);
    bool accepted = made->memory_len % 2 == 0 && made->memory_len <= MEMORY_MOST && made->delay <= DELAY_MOST;
    if (!due && !accepted)
        due = ANSWER_MEMORY;
    for (unsigned at_end = 0; at_end < 2; at_end++) {
        ran[at_end] = run_once(made, at_end);
        check_answer(made, due, &ran[at_end], fills[at_end]);
    }
    expect(!memcmp(&ran[0].is, &ran[1].is, sizeof(report)), "the same call is answered the same, with a memory too");
    if (due)
        return;
    expect(!memcmp(ran[0].requests, ran[1].requests, ran[0].is.attempts * (size_t)REQUEST_BYTES),
           "the same call makes the same requests, with a memory too");
    expect(!memcmp(ran[0].state, ran[1].state, STATE_BYTES), "the same call leaves the same state, with a memory too");
    expect(!memcmp(ran[0].memory, ran[1].memory, made->memory_len), "the same call leaves the same memory");
    check_requests(ran[0].requests, ran[0].is.attempts);
    check_state(ran[0].state);
    check_history(&ran[0], made->memory_len);
    check_rows(made, &ran[0]);
}
