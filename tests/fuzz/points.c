/* Which instructions of the libraries were reached, the engine's, the listings', the profile's and the memory's. They are fuzzed
   as they were compiled, without a compiler's counters: each of their instructions gets a trap in memory, which is taken away
   when it is first met. */
#define _GNU_SOURCE
#include "call.h"

#include <signal.h>
#include <stdio.h>
#include <stdlib.h>
#include <sys/mman.h>
#include <ucontext.h>

enum { MOST = 16384, SPAN = 131072, PAGE = 4096, TRAP = 0xCC };
enum { ENGINE, LISTINGS, PROFILE, MEMORY, LIBRARIES };

/* The fuzzer looks here after each input. */
__attribute__((section("__libfuzzer_extra_counters"))) static uint8_t counters[MOST];

static uint8_t *low;               /* the first point */
static uint16_t numbers[SPAN];     /* by the distance from there: the point's number, from 1 */
static uint8_t instructions[MOST]; /* the first byte of each, by number */
static uint8_t libraries[MOST];    /* and whose it is */
static unsigned all, reached[LIBRARIES];

static void met(int signal, siginfo_t *information, void *context)
{
    greg_t *at = &((ucontext_t *)context)->uc_mcontext.gregs[REG_RIP];
    uint8_t *point = (uint8_t *)*at - 1;
    size_t distance = (size_t)(point - low), number = distance < SPAN ? numbers[distance] : 0;
    (void)signal, (void)information;
    expect(number && *point == TRAP, "traps are this file's");
    *point = instructions[number];
    *at = (greg_t)point;
    counters[number] = 1;
    reached[libraries[number]]++;
}

static void set(uintptr_t address, unsigned library)
{
    uint8_t *point = (uint8_t *)address;
    low = low ? low : point;
    expect(library < LIBRARIES, "a point is a library's");
    expect(++all < MOST && point >= low && point - low < SPAN, "points rise, and there is room for them");
    expect(!mprotect((void *)(address & ~(uintptr_t)(PAGE - 1)), PAGE, PROT_READ | PROT_WRITE | PROT_EXEC),
           "code can be written");
    numbers[point - low] = (uint16_t)all;
    instructions[all] = *point;
    libraries[all] = (uint8_t)library;
    *point = TRAP;
}

static void tell(void)
{
    dprintf(said, "reached %u of the engine\nreached %u of the listings\nreached %u of the profile\nreached %u of the memory\n",
            reached[ENGINE], reached[LISTINGS], reached[PROFILE], reached[MEMORY]);
}

/* The environment's POINTS lists the instructions' addresses, each with its library. */
int LLVMFuzzerInitialize(int *count, char ***words)
{
    const char *list = getenv("POINTS");
    FILE *file = list ? fopen(list, "r") : NULL;
    unsigned long address;
    unsigned library;
    (void)count, (void)words;
    if (!file)
        return 0;
    while (fscanf(file, "%lx %u", &address, &library) == 2)
        set(address, library);
    fclose(file);
    atexit(tell);
    return sigaction(SIGTRAP, &(struct sigaction){.sa_sigaction = met, .sa_flags = SA_SIGINFO}, NULL);
}
