/* The compiled check of the service profile for tests. A call is a length, then the words' bytes. Its answer is the report and
   the damage (4 bytes). */
#include "../compare/server.h"
#include "../../host/chuenphrao.h"

#include <stdlib.h>
#include <string.h>

/* What may not be touched. */
enum { AROUND_WORDS = 1, WORDS = 2 };

static void answer(const uint32_t *numbers)
{
    buffer words = guarded(numbers[0]), copy = guarded(words.len);
    get(words.bytes, words.len);
    memcpy(copy.bytes, words.bytes, words.len);
    profile_report is = profile(words.bytes, words.len);
    uint32_t damage = (intact(words) ? 0 : AROUND_WORDS) | (memcmp(copy.bytes, words.bytes, words.len) ? WORDS : 0);
    put(&is, sizeof is);
    put(&damage, sizeof damage);
    free(words.block);
    free(copy.block);
}

int main(void)
{
    return serve(1, answer);
}
