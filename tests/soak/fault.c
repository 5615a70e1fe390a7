/* Around the engine, a fault that a soak has to find. The environment says which, FAULT, and at which call, AT, counted over all
   processes by the bytes of the file CALLS. */
#include "../../host/chuenphrao.h"

#include <stdio.h>
#include <stdlib.h>
#include <string.h>

report __real_run(const uint8_t *, size_t, uint8_t *, size_t, uint8_t *, size_t, uint32_t);

static long this_call(void)
{
    FILE *calls = fopen(getenv("CALLS"), "a");
    if (!calls || fputc('.', calls) == EOF)
        abort();
    long number = ftell(calls);
    fclose(calls);
    return number;
}

report __wrap_run(const uint8_t *deck, size_t deck_len, uint8_t *requests, size_t requests_len, uint8_t *state,
                  size_t state_len, uint32_t marking)
{
    const char *fault = getenv("FAULT");
    report is = __real_run(deck, deck_len, requests, requests_len, state, state_len, marking);
    if (!strcmp(fault, "always"))
        is.microcycles++;
    if (this_call() != atol(getenv("AT")))
        return is;
    if (!strcmp(fault, "report"))
        is.attempts++;
    if (!strcmp(fault, "request"))
        requests[0] ^= 1;
    if (!strcmp(fault, "state"))
        state[0] ^= 0x80;
    if (!strcmp(fault, "beyond"))
        requests[requests_len] ^= 1;
    if (!strcmp(fault, "death"))
        abort();
    return is;
}
