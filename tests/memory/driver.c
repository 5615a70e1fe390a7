/* The bench host with a memory, for tests. A call is four lengths (deck, memory, request buffer, state buffer), the delay and the
   marking, then the four as they are before. Its answer is the report, the damage (4 bytes), the nanoseconds (8 bytes), then
   memory, requests and state as they are after. */
#include "../../host/chuenphrao.h"
#include "../compare/server.h"

#include <stdlib.h>
#include <string.h>

/* What run_with_memory may not touch. */
enum { AROUND_DECK = 1, AROUND_REQUESTS = 2, AROUND_STATE = 4, DECK = 8, AROUND_MEMORY = 16 };

static void answer(const uint32_t *numbers)
{
    buffer deck = guarded(numbers[0]), memory = guarded(numbers[1]), requests = guarded(numbers[2]), state = guarded(numbers[3]);
    buffer copy = guarded(deck.len);
    uint32_t delay = numbers[4], marking = numbers[5];
    get(deck.bytes, deck.len);
    get(memory.bytes, memory.len);
    get(requests.bytes, requests.len);
    get(state.bytes, state.len);
    memcpy(copy.bytes, deck.bytes, deck.len);

    uint64_t begun = nanoseconds();
    report is = run_with_memory(deck.bytes, deck.len, memory.bytes, memory.len, delay, requests.bytes, requests.len, state.bytes,
                                state.len, marking);
    uint64_t taken = nanoseconds() - begun;

    uint32_t damage = (intact(deck) ? 0 : AROUND_DECK) | (intact(requests) ? 0 : AROUND_REQUESTS)
        | (intact(state) ? 0 : AROUND_STATE) | (intact(memory) ? 0 : AROUND_MEMORY)
        | (memcmp(copy.bytes, deck.bytes, deck.len) ? DECK : 0);
    put(&is, sizeof is);
    put(&damage, sizeof damage);
    put(&taken, sizeof taken);
    buffer all[] = {memory, requests, state, deck, copy};
    for (unsigned i = 0; i < 3; i++)
        put(all[i].bytes, all[i].len);
    for (unsigned i = 0; i < 5; i++)
        free(all[i].block);
}

int main(void)
{
    return serve(6, answer);
}
