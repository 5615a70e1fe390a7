/* A worked row of docs/ADDER.md for each line 'add P X CARRY' or 'subtract P X CARRY' of standard input, from the compiled adder.
   The library shows no nets: they are worked out from the operands and the nine-bit sum. */
#include "adder.h"
#include <stdio.h>
#include <string.h>

int main(void)
{
    char name[9];
    unsigned p, x, carry;
    while (scanf("%8s %x %x %u", name, &p, &x, &carry) == 4) {
        bool subtracts = strcmp(name, "subtract") == 0;
        unsigned q = subtracts ? ~x & 255 : x;
        cycle y = subtracts ? alu_subtract(p, x, carry) : alu_add(p, x, carry);
        unsigned sum = y.result + 256 * y.c8;
        printf("| %s | %02X | %02X | %u | %02X | %03X | ", name, p, x, carry, q, sum);
        for (int i = 8; i >= 0; i--)
            putchar('0' + ((p ^ q ^ sum) >> i & 1));
        printf(" | %02X | %d | %d | %d | %d |\n", y.result, y.c4, y.c8, y.v, y.c);
    }
    return 0;
}
