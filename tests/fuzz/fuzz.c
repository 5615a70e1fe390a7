/* The fuzzer's entry: each input is a call of the engine, without and with a memory, held to the papers, and a deck for the bench
   host; or a call of the assembler, or of the lister and the check of the service profile. */
#define _GNU_SOURCE
#include "call.h"

#include <stdio.h>
#include <stdlib.h>
#include <sys/mman.h>
#include <unistd.h>

int bench_main(int count, char **words); /* the bench host's main, compiled under this name */

int said = STDERR_FILENO;

__attribute__((constructor)) static void keep_said(void)
{
    said = dup(STDERR_FILENO);
}

void expect(bool holds, const char *what)
{
    if (holds)
        return;
    dprintf(said, "does not hold: %s\n", what);
    abort();
}

/* The bench host on the deck as a file. */
static void bench(const call *made)
{
    static char name[32], program[] = "bench", quiet[] = "--quiet";
    /* Of a trace only some attempts: a whole one takes the time of many inputs. */
    static char trace[] = "--trace", from[] = "--from", second[] = "2", to[] = "--to", fifth[] = "5";
    static int file = -1;
    if (file < 0) {
        file = memfd_create("deck", 0);
        snprintf(name, sizeof name, "/proc/self/fd/%d", file);
    }
    expect(!ftruncate(file, 0) && pwrite(file, made->deck, made->deck_len, 0) == (ssize_t)made->deck_len,
           "the deck can be written to a file");
    char *in_full[] = {program, name, NULL}, *in_a_line[] = {program, quiet, name, NULL};
    char *by_attempts[] = {program, trace, from, second, to, fifth, name, NULL};
    int too_long = made->deck_len > DECK_MOST;
    int status = made->shown ? bench_main(2, in_full) : bench_main(3, in_a_line);
    expect(status == too_long, "the bench host's status is by the deck's length");
    if (made->shown)
        expect(bench_main(7, by_attempts) == too_long, "so is the status of a trace");
}

int LLVMFuzzerTestOneInput(const uint8_t *bytes, size_t length)
{
    unsigned calls = length ? bytes[0] >> 6 : CALLS_ENGINE;
    if (calls == CALLS_ASSEMBLER || calls == CALLS_LISTER) {
        check_listing(bytes, length);
        return 0;
    }
    call made = shape(bytes, length);
    check(&made);
    check_memory(&made);
    bench(&made);
    return 0;
}
