/* The engine's bench host for tests: driver [TIMES]. A call is three lengths (deck, request buffer, state buffer), the
   marking, then the three as they are before. Its answer is the report, the damage (4 bytes), the nanoseconds (8 bytes), then both
   buffers as they are after. With TIMES each call is run so often, and the nanoseconds are those of all. */
#include "../../host/chuenphrao.h"
#include "server.h"

#include <stdlib.h>
#include <string.h>

/* What run may not touch. */
enum { AROUND_DECK = 1, AROUND_REQUESTS = 2, AROUND_STATE = 4, DECK = 8 };

static long times = 1;

static void answer(const uint32_t *numbers)
{
    buffer deck = guarded(numbers[0]), requests = guarded(numbers[1]), state = guarded(numbers[2]);
    buffer copy = guarded(deck.len);
    uint32_t marking = numbers[3];
    get(deck.bytes, deck.len);
    get(requests.bytes, requests.len);
    get(state.bytes, state.len);
    memcpy(copy.bytes, deck.bytes, deck.len);

    report is = {0};
    uint64_t begun = nanoseconds();
    for (long i = 0; i < times; i++)
        is = run(deck.bytes, deck.len, requests.bytes, requests.len, state.bytes, state.len, marking);
    uint64_t taken = nanoseconds() - begun;

    uint32_t damage = (intact(deck) ? 0 : AROUND_DECK) | (intact(requests) ? 0 : AROUND_REQUESTS)
        | (intact(state) ? 0 : AROUND_STATE) | (memcmp(copy.bytes, deck.bytes, deck.len) ? DECK : 0);
    put(&is, sizeof is);
    put(&damage, sizeof damage);
    put(&taken, sizeof taken);
    put(requests.bytes, requests.len);
    put(state.bytes, state.len);
    free(deck.block);
    free(requests.block);
    free(state.block);
    free(copy.block);
}

int main(int count, char **words)
{
    if (count > 1)
        times = atol(words[1]);
    return serve(4, answer);
}
