/* Every byte add and subtract, 65,536 operands with each carry in, against a computation of its own:
   signed and unsigned sums in int, where the library has nets. */
#include "adder.h"
#include <stdio.h>

static bool same(cycle a, cycle b)
{
    return a.result == b.result && a.c4 == b.c4 && a.c8 == b.c8 && a.v == b.v && a.c == b.c;
}

static cycle sum(int p, int q, int carry)
{
    int whole = (int8_t)p + (int8_t)q + carry;
    cycle y = {
        .result = (uint8_t)whole,
        .c4 = (p & 15) + (q & 15) + carry > 15,
        .c8 = p + q + carry > 255,
        .v = whole < -128 || whole > 127,
    };
    y.c = y.c8;
    return y;
}

/* Ra - Rb less a borrow in. The carry in is 1 where nothing was borrowed; C8 is the carry, C the borrow. */
static cycle difference(int p, int q, int carry)
{
    int borrow = 1 - carry;
    int whole = (int8_t)p - (int8_t)q - borrow;
    cycle y = {
        .result = (uint8_t)whole,
        .c4 = (p & 15) >= (q & 15) + borrow,
        .c8 = p >= q + borrow,
        .v = whole < -128 || whole > 127,
        .c = p < q + borrow,
    };
    return y;
}

int main(void)
{
    unsigned passed = 0, failed = 0;
    for (int p = 0; p < 256; p++)
        for (int q = 0; q < 256; q++)
            for (int carry = 0; carry < 2; carry++) {
                bool add = same(alu_add(p, q, carry), sum(p, q, carry));
                bool subtract = same(alu_subtract(p, q, carry), difference(p, q, carry));
                if (!add || !subtract)
                    printf("%02X %02X carry %d: %s\n", p, q, carry, add ? "subtract" : "add");
                passed += add + subtract;
                failed += !add + !subtract;
            }
    printf("%u passed, %u failed\n", passed, failed);
    return failed != 0;
}
