/* In the engine's place, faults that valgrind has to find: a byte past the deck decides the answer, or one past the memory. */
#include "../../host/chuenphrao.h"

report run(const uint8_t *deck, size_t deck_len, uint8_t *requests, size_t requests_len, uint8_t *state,
           size_t state_len, uint32_t marking)
{
    (void)requests, (void)requests_len, (void)state, (void)state_len, (void)marking;
    return (report){.answer = deck[deck_len] ? ANSWER_DECK : ANSWER_STATE};
}

report run_with_memory(const uint8_t *deck, size_t deck_len, uint8_t *memory, size_t memory_len, uint32_t delay,
                       uint8_t *requests, size_t requests_len, uint8_t *state, size_t state_len, uint32_t marking)
{
    (void)deck, (void)deck_len, (void)delay, (void)requests, (void)requests_len, (void)state, (void)state_len, (void)marking;
    return (report){.answer = memory[memory_len] ? ANSWER_DECK : ANSWER_MEMORY};
}
