/* Memory, and complaints when this or anything else cannot be had. */
#ifndef ROOM_H
#define ROOM_H

#include <stddef.h>
#include <stdint.h>

/* Exactly as many bytes, so that a memory checker sees a step past them; all 0. The program ends where there are none to be
   had. Never null: the engine takes no null pointer, even with length 0. */
uint8_t *room_for(size_t bytes);

void complain(const char *name, const char *problem);

#endif
