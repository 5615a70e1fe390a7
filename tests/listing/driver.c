/* The compiled assembler and lister for tests. A call is the function's number and two lengths (input, output), then both
   as they are before. Its answer is the report, the damage (4 bytes), the nanoseconds (8 bytes), then the output as it is
   after. */
#include "../compare/server.h"
#include "../../host/chuenphrao.h"

#include <stdlib.h>
#include <string.h>

enum { ASSEMBLE, LIST };

/* What no function may touch. */
enum { AROUND_OUTPUT = 1, AROUND_INPUT = 2, INPUT = 4 };

static void answer(const uint32_t *numbers)
{
    buffer input = guarded(numbers[1]), output = guarded(numbers[2]), copy = guarded(input.len);
    get(input.bytes, input.len);
    get(output.bytes, output.len);
    memcpy(copy.bytes, input.bytes, input.len);

    uint64_t begun = nanoseconds();
    listing_report is = numbers[0] == ASSEMBLE ? assemble(input.bytes, input.len, output.bytes, output.len)
                                               : list_words(input.bytes, input.len, output.bytes, output.len);
    uint64_t taken = nanoseconds() - begun;

    uint32_t damage = (intact(output) ? 0 : AROUND_OUTPUT) | (intact(input) ? 0 : AROUND_INPUT)
        | (memcmp(copy.bytes, input.bytes, input.len) ? INPUT : 0);
    put(&is, sizeof is);
    put(&damage, sizeof damage);
    put(&taken, sizeof taken);
    put(output.bytes, output.len);
    free(input.block);
    free(output.block);
    free(copy.block);
}

int main(void)
{
    return serve(3, answer);
}
