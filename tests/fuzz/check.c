/* What the papers promise of every call. Each is made twice: with the end of each buffer against a page that cannot be
   touched, and with its start, so that no access beyond a lent buffer passes, the engine's or this program's. */
#define _DEFAULT_SOURCE
#include "call.h"

#include <limits.h>
#include <stdlib.h>
#include <string.h>
#include <sys/mman.h>

enum { PAGE = 4096, ROOM = DECK_ROOM, MARKS = 37, SYNC = 2, IACK = 4 };
const uint8_t fills[2] = {0xC3, 0x3C}; /* no request and no state in range has such bytes only */

/* What a run left. */
typedef struct {
    report is;
    uint8_t *requests, *state;
} left;

uint8_t *lend(unsigned number, bool at_end, size_t length)
{
    static uint8_t *rooms[BUFFERS][2];
    uint8_t **room = &rooms[number][at_end];
    if (!*room) {
        uint8_t *whole = mmap(NULL, ROOM + 2 * PAGE, PROT_NONE, MAP_PRIVATE | MAP_ANONYMOUS, -1, 0);
        expect(whole != MAP_FAILED && !mprotect(whole + PAGE, ROOM, PROT_READ | PROT_WRITE), "there is memory");
        *room = whole + PAGE;
    }
    return at_end ? *room + ROOM - length : *room;
}

/* Faults for the fuzzer to find, one by the environment's FAULT, at an answer that no seed gets. */
static void plant(left *ran)
{
#ifdef PLANTED
    const char *fault = getenv("FAULT");
    uint8_t *volatile block = malloc(1);
    if (!fault || ran->is.answer != ANSWER_SAMPLES)
        fault = "";
    if (!strcmp(fault, "lent"))
        ran->state[STATE_BYTES] = 0;
    if (!strcmp(fault, "heap"))
        block[1] = 0;
    if (!strcmp(fault, "undefined"))
        ran->is.attempts = (uint32_t)(INT_MAX + (int)ran->is.answer);
    if (!strcmp(fault, "promise"))
        ran->is.attempts = 1;
    free(block);
#else
    (void)ran;
#endif
}

bool filled(const uint8_t *from, const uint8_t *to, uint8_t fill)
{
    while (from < to && *from == fill)
        from++;
    return from == to;
}

static left run_once(const call *made, bool at_end)
{
    uint8_t *deck = lend(DECK_LENT, at_end, made->deck_len);
    left ran = {.requests = lend(REQUESTS_LENT, at_end, made->requests_len),
                .state = lend(STATE_LENT, at_end, made->state_len)};
    memcpy(deck, made->deck, made->deck_len);
    memset(ran.requests, fills[at_end], made->requests_len);
    memset(ran.state, fills[at_end], made->state_len);
    ran.is = run(deck, made->deck_len, ran.requests, made->requests_len, ran.state, made->state_len, made->marking);
    plant(&ran);
    expect(!memcmp(deck, made->deck, made->deck_len), "the deck is unchanged");
    return ran;
}

void check_requests(const uint8_t *requests, uint32_t attempts)
{
    for (uint32_t i = 0; i < attempts; i++) {
        const uint8_t *request = requests + (size_t)i * REQUEST_BYTES;
        unsigned kind = number_at(request + 2), value = number_at(request);
        expect(kind < KINDS, "a request is of a kind that exists");
        expect(value == 0 || (kind != KIND_NONE && kind < KIND_WAIT), "kinds 0 and 10-12 have value 0");
    }
}

/* A deck of it alone, without samples, is run and hands it back. */
void check_state(const uint8_t *state)
{
    uint8_t deck[2 + 2 + 2 + STATE_BYTES + 2] = {0, 0, 0, 0, 1}, requests[1], again[STATE_BYTES];
    memcpy(deck + 6, state, STATE_BYTES);
    report is = run(deck, sizeof deck, requests, 0, again, sizeof again, MARKING_CP1661B);
    expect(is.answer == ANSWER_DONE && is.attempts == 0 && is.microcycles == 0, "the state is in range");
    expect(!memcmp(again, state, STATE_BYTES), "without samples the state stays");
}

void check_counts(const call *made, bool refused, report is)
{
    expect(refused ? is.attempts < made->has.samples : is.attempts == made->has.samples,
           "attempts are the samples, or fewer when one is refused");
    expect(is.microcycles >= is.attempts && is.microcycles <= 2 * is.attempts, "an attempt costs 1 or 2");
}

/* due is the refusal that the call has to get, or 0. */
static void check_answer(const call *made, unsigned due, report is)
{
    bool refused = is.answer == ANSWER_NO_WORD || is.answer == ANSWER_CODE || is.answer == ANSWER_OPTION;
    expect(due ? is.answer == due : is.answer == ANSWER_DONE || refused, "the answer is the one of the papers");
    if (due)
        expect(is.attempts == 0 && is.microcycles == 0, "nothing was attempted");
    else
        check_counts(made, refused, is);
}

/* With the other marking the same comes of it, but that CP1621B may let SYNC and IACK fall. */
static void check_marking(const call *made, const left *ran)
{
    bool q1 = made->marking == MARKING_CP1621B;
    call other = *made;
    other.marking = q1 ? MARKING_CP1661B : MARKING_CP1621B;
    left then = run_once(&other, true);
    uint8_t *without = q1 ? then.state : ran->state, *with = q1 ? ran->state : then.state;
    with[MARKS] |= without[MARKS] & (SYNC | IACK);
    expect(!memcmp(&ran->is, &then.is, sizeof(report)), "the marking changes no count");
    expect(!memcmp(ran->requests, then.requests, then.is.attempts * (size_t)REQUEST_BYTES), "the marking changes no request");
    expect(!memcmp(with, without, STATE_BYTES), "CP1621B lets SYNC and IACK fall, and no more");
}

void check(const call *made)
{
    left ran[2];
    unsigned due = refusal(made);
    for (unsigned at_end = 0; at_end < 2; at_end++) {
        left *it = &ran[at_end];
        *it = run_once(made, at_end);
        check_answer(made, due, it->is);
        size_t written = it->is.attempts * (size_t)REQUEST_BYTES;
        expect(filled(it->requests + written, it->requests + made->requests_len, fills[at_end]),
               "places without an attempt are untouched");
        expect(!due || filled(it->state, it->state + made->state_len, fills[at_end]),
               "the state buffer is untouched");
    }
    expect(!memcmp(&ran[0].is, &ran[1].is, sizeof(report)), "the same call is answered the same");
    expect(!memcmp(ran[0].requests, ran[1].requests, ran[0].is.attempts * (size_t)REQUEST_BYTES),
           "the same call makes the same requests");
    if (due)
        return;
    expect(!memcmp(ran[0].state, ran[1].state, STATE_BYTES), "the same call leaves the same state");
    check_requests(ran[0].requests, ran[0].is.attempts);
    check_state(ran[0].state);
    check_marking(made, &ran[0]);
}
