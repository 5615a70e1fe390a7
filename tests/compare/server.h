/* What the drivers share: a server on standard input and output, all numbers low byte first. */
#ifndef SERVER_H
#define SERVER_H

#include <stdbool.h>
#include <stddef.h>
#include <stdint.h>

/* A buffer to lend, with bytes around it that nobody may touch. */
typedef struct {
    uint8_t *block, *bytes;
    size_t len;
} buffer;

buffer guarded(size_t len);
bool intact(buffer it);

/* The bytes of a call and of its answer; a call that is cut short ends the program. */
void get(void *to, size_t len);
void put(const void *from, size_t len);

uint64_t nanoseconds(void);

/* Answers each call, which begins with so many numbers of 4 bytes, until the input ends. It is main's status. */
enum { NUMBERS_MOST = 6 };
int serve(size_t count, void (*answer)(const uint32_t *numbers));

#endif
