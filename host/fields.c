#include "fields.h"
#include "deck.h"

#include <stdio.h>

#define BYTE(name, at) {name, at, 0, 8}
#define BIT(name, at, shift) {name, at, shift, 1}

const field fields[COLUMNS][LINES] = {
    {BYTE("G0", 0), BYTE("G1", 1), BYTE("G2", 2), BYTE("G3", 3), BYTE("G4", 4), BYTE("G5", 5), BYTE("G6", 6),
     BYTE("G7", 7), BYTE("G8", 8), BYTE("G9", 9), BYTE("GA", 10), BYTE("GB", 11), {"G", 26, 0, 3}},
    {BYTE("R2", 12), BYTE("R3", 13), BYTE("R4", 14), BYTE("R5", 15), BYTE("R6", 16), BYTE("R7", 17),
     BYTE("R8", 18), BYTE("R9", 19), BYTE("RA", 20), BYTE("RB", 21), BYTE("RC", 22), BYTE("RD", 23),
     BYTE("RE", 24), BYTE("RF", 25)},
    {BIT("N", FLAGS, 7), BIT("Z", FLAGS, 6), BIT("V", FLAGS, 5), BIT("C", FLAGS, 4), BIT("NB", FLAGS, 3),
     BIT("ZB", FLAGS, 2), BIT("C4", FLAGS, 1), BIT("C8", FLAGS, 0), BIT("I4", 38, 0), BIT("I5", 38, 1),
     BIT("I6", 38, 2)},
    {{"LC", LC, 0, 11}, {"RR", 30, 0, 11}, {"outputs", OUTPUTS, 0, 4}, {"TR", 32, 0, 16}, {"M", 34, 0, 16},
     {"TSR", 36, 0, 3}, BIT("ICS", MARKS, 0), BIT("SYNC", MARKS, 1), BIT("IACK", MARKS, 2),
     {"modification", MODIFICATION, 0, 16}},
};

int value_of(const field *of, const uint8_t *state)
{
    unsigned whole = of->bits > 8 ? number_at(state + of->at) : state[of->at];
    if (of->at == MODIFICATION && !(state[MARKS] & MARKED))
        return -1;
    return (int)(whole >> of->shift & ((1u << of->bits) - 1));
}

void write_value(char text[VALUE_ROOM], const field *of, int value)
{
    char all[VALUE_ROOM];
    unsigned digits = (of->bits + 3) / 4;
    snprintf(all, sizeof all, "%04X", (unsigned)value);
    snprintf(text, VALUE_ROOM, "%s", value < 0 ? "-" : all + 4 - digits);
}
