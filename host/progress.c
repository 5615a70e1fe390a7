#include "progress.h"

#include <stdio.h>
#include <unistd.h>

enum { EACH = 512 };

static int width; /* of the line that stands there; 0 for none */

void show_progress(unsigned attempt, unsigned last)
{
    if (attempt % EACH == 0 && isatty(STDERR_FILENO) && !isatty(STDOUT_FILENO))
        width = fprintf(stderr, "\rattempt %u of %u", attempt, last);
}

void clear_progress(void)
{
    if (width)
        fprintf(stderr, "\r%*s\r", width - 1, "");
    width = 0;
}
