/* Calls one of the two functions with what is on standard input and prints its report: call assemble|list_words ROOM.
   An output that was touched although the answer is not 0 is told too. */
#include "../../host/chuenphrao.h"

#include <stdio.h>
#include <stdlib.h>
#include <string.h>

enum { MOST = 4096, FILL = 0xC3 };

int main(int count, char **words)
{
    static uint8_t input[MOST], output[MOST];
    size_t room = count == 3 ? strtoul(words[2], NULL, 10) : MOST, given = fread(input, 1, MOST, stdin);
    if (count != 3 || room >= MOST)
        return 2;
    memset(output, FILL, MOST);
    listing_report made = strcmp(words[1], "assemble") ? list_words(input, given, output, room)
                                                       : assemble(input, given, output, room);
    for (size_t i = made.answer ? 0 : made.length; i < MOST; i++)
        if (output[i] != FILL)
            return printf("byte %zu of the output is touched\n", i), 1;
    printf("%u %u %u\n", made.answer, made.at, made.length);
    return 0;
}
