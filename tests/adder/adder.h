/* The byte adder of the compiled library. */
#include <stdbool.h>
#include <stdint.h>

typedef struct {
    uint8_t result;
    bool c4, c8, v, c;
} cycle;

cycle alu_add(uint8_t p, uint8_t q, bool carry);
cycle alu_subtract(uint8_t p, uint8_t q, bool carry);
