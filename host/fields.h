/* The state's fields as a person reads them. */
#ifndef FIELDS_H
#define FIELDS_H

#include <stdint.h>

/* Bytes of the state that are looked at by themselves. */
enum { FLAGS = 27, LC = 28, MARKS = 37, MODIFICATION = 39, OUTPUTS = 41 };

/* The bit of the marks that says that a modification waits. */
enum { MARKED = 8 };

/* A field of the state: its first byte, its lowest bit there and its number of bits. */
typedef struct {
    const char *name; /* null below the last of a column */
    unsigned at, shift, bits;
} field;

enum { COLUMNS = 4, LINES = 14 };
extern const field fields[COLUMNS][LINES];

/* A field's value, or -1 for a modification that is not waiting. */
int value_of(const field *of, const uint8_t *state);

/* Such a value in the field's digits, or a hyphen. */
enum { VALUE_ROOM = 12 };
void write_value(char text[VALUE_ROOM], const field *of, int value);

#endif
