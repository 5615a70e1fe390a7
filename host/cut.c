#include "cut.h"
#include "room.h"

#include <stdlib.h>
#include <string.h>

enum { COUNT_BYTES = 2 };

cut begin_cut(const sections *deck, const bus_memory *start, uint32_t marking)
{
    cut begun = {.deck = deck, .start = start, .marking = marking, .memory = copy_memory(start)};
    begun.requests = room_for(deck->samples * (size_t)REQUEST_BYTES);
    begun.before = room_for(STATE_BYTES);
    begun.after = room_for(STATE_BYTES);
    memcpy(begun.after, deck->state, STATE_BYTES);
    return begun;
}

/* Makes room for the deck of a run: all up to the state is the whole deck's. It serves every run of as many samples,
   so that the words are not copied for each. */
static void make_room(cut *of, size_t same, unsigned samples)
{
    free(of->part);
    of->length = same + STATE_BYTES + COUNT_BYTES + samples * (size_t)SAMPLE_BYTES;
    of->part = room_for(of->length);
    of->samples = samples;
    memcpy(of->part, of->deck->first, same);
    of->part[same + STATE_BYTES] = (uint8_t)samples;
    of->part[same + STATE_BYTES + 1] = (uint8_t)(samples >> 8);
}

/* Makes the deck of a run that starts with a state and has samples from the first one on. */
static void make_part(cut *of, const uint8_t *state, unsigned first, unsigned samples)
{
    size_t same = (size_t)(of->deck->state - of->deck->first);
    if (!of->part || of->samples != samples)
        make_room(of, same, samples);
    memcpy(of->part + same, state, STATE_BYTES);
    memcpy(of->part + same + STATE_BYTES + COUNT_BYTES, of->deck->sample + first * (size_t)SAMPLE_BYTES,
           samples * (size_t)SAMPLE_BYTES);
}

static report run_on(cut *of, unsigned samples)
{
    make_part(of, of->before, of->used, samples);
    return run(of->part, of->length, of->requests + of->used * (size_t)REQUEST_BYTES,
               (of->deck->samples - of->used) * (size_t)REQUEST_BYTES, of->after, STATE_BYTES, of->marking);
}

static report run_again(cut *of, unsigned samples)
{
    bus_memory *memory = &of->memory;
    memcpy(memory->before, memory->after, memory->length);
    memcpy(memory->after, of->start->before, memory->length);
    make_part(of, of->deck->state, 0, of->used + samples);
    report all = run_with_memory(of->part, of->length, memory->after, memory->length, memory->delay, of->requests,
                                 of->deck->samples * (size_t)REQUEST_BYTES, of->after, STATE_BYTES, of->marking);
    return (report){all.answer, all.attempts - of->used, all.microcycles - of->microcycles};
}

report run_next(cut *of, unsigned samples)
{
    memcpy(of->before, of->after, STATE_BYTES);
    report made = of->start->before ? run_again(of, samples) : run_on(of, samples);
    of->used += made.attempts;
    of->microcycles += made.microcycles;
    return made;
}

void end_cut(cut *of)
{
    free(of->part);
    free(of->after);
    free(of->before);
    free(of->requests);
    free_memory(&of->memory);
}
