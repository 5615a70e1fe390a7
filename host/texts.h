/* What answers, requests, samples and numbers of attempts are called wherever they are shown. */
#ifndef TEXTS_H
#define TEXTS_H

#include <stdbool.h>
#include <stdint.h>

const char *answer_text(uint32_t answer);

unsigned kind_of(const uint8_t *request);

/* The kind by its name. */
enum { KIND_ROOM = 24 };
void write_kind(char text[KIND_ROOM], const uint8_t *request);

/* Kinds 0 and 10-12 have none; a value there, which no engine gives, is shown all the same. */
bool has_value(const uint8_t *request);

/* The numbers of the attempts from first up to but not with next, both counted from 0. */
enum { NUMBERS_ROOM = 24 };
void write_numbers(char text[NUMBERS_ROOM], unsigned first, unsigned next);

/* The sample's lines, its last two bytes. External ones, as with a memory, are without REPLY, which is not used. */
unsigned lines_of(const uint8_t *sample, bool external);

/* Ends a line with the lines that are high, a space before each. */
void show_lines(unsigned lines);

#endif
