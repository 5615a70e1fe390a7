#include "bus.h"
#include "chuenphrao.h"
#include "deck.h"
#include "texts.h"

#include <stdio.h>

/* What an attempt is to the memory. */
typedef enum { ACCESS, INPUT, OUTPUT, WAIT, OTHER, SORTS } sort;

static sort sort_of(const uint8_t *request)
{
    switch (kind_of(request)) {
    case KIND_READ:
    case KIND_WRITE:
    case KIND_READ_ACKNOWLEDGE:
    case KIND_WRITE_ACKNOWLEDGE:
        return ACCESS;
    case KIND_DATA_IN:
        return INPUT;
    case KIND_WORD_OUT:
    case KIND_BYTE_OUT:
        return OUTPUT;
    case KIND_WAIT:
        return WAIT;
    default:
        return OTHER;
    }
}

static const uint8_t *request_at(const uint8_t *requests, unsigned place)
{
    return requests + place * (size_t)REQUEST_BYTES;
}

static void show_changed(const bus_memory *of)
{
    bool none = true;
    for (size_t at = 0; at < of->length; at++) {
        if (of->before[at] == of->after[at])
            continue;
        if (none)
            puts("  address      before  after");
        none = false;
        printf("  %04zX%13s%02X     %02X\n", at, "", of->before[at], of->after[at]);
    }
    if (none)
        puts("               no byte changed");
}

void show_memory(const bus_memory *of, const uint8_t *requests, unsigned attempts)
{
    unsigned counts[SORTS] = {0};
    for (unsigned i = 0; i < attempts; i++)
        counts[sort_of(request_at(requests, i))]++;
    printf("\n  memory       accesses %u, inputs %u, outputs %u, waits %u, for BUSY or REPLY\n", counts[ACCESS],
           counts[INPUT], counts[OUTPUT], counts[WAIT]);
    show_changed(of);
}

/* The last access up to and with an attempt, whose address the memory keeps; null where there was none. */
static const uint8_t *last_access(const uint8_t *requests, unsigned place)
{
    for (unsigned next = place + 1; next; next--)
        if (sort_of(request_at(requests, next - 1)) == ACCESS)
            return request_at(requests, next - 1);
    return NULL;
}

static void show_stored(const bus_memory *of, unsigned address)
{
    if (address < of->length)
        printf(", byte %04X %02X %02X", address, of->before[address], of->after[address]);
}

void show_access(const bus_memory *of, const uint8_t *requests, unsigned place, int indent)
{
    const uint8_t *request = request_at(requests, place), *access = last_access(requests, place);
    if (sort_of(request) > OUTPUT || !access)
        return;
    unsigned address = number_at(access);
    printf("%*smemory at %04X%s", indent, "", address, address < of->length ? "" : ", beyond it");
    switch (kind_of(request)) {
    case KIND_DATA_IN:
        printf(", word %04X", number_at(request));
        break;
    case KIND_WORD_OUT:
        show_stored(of, address & ~1u);
        show_stored(of, address | 1);
        break;
    case KIND_BYTE_OUT:
        show_stored(of, address);
        break;
    }
    putchar('\n');
}
