/* Files that are read whole. */
#ifndef FILE_H
#define FILE_H

#include <stddef.h>
#include <stdint.h>

/* A file's bytes, up to one more than it may have, which is enough to tell that it is too long. Null where it cannot
   be read; errno says why. */
uint8_t *read_file(const char *name, size_t most, size_t *length);

#endif
