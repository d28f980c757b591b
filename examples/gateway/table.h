/* An allocator's state in a file, so that whoever was told a node ID gets the same one after the program was killed or power was cut. */
#ifndef TABLE_H
#define TABLE_H

#include <stdbool.h>

#include "tecelume.h"

/* The state that the file holds, or one with an empty table if there is no such file. False, with a line on standard error, if the file
 * cannot be read or holds something else; it stays as it is. */
bool table_load(const char *name, uint8_t state[TECELUME_ALLOCATOR_SIZE]);

/* Puts the state in place of what the file holds; true if it is on the disk. At every moment the file holds the one or the other, whole:
 * the state is written beside it, to NAME.new, and then gets its name. False, with a line on standard error, if any of this failed. */
bool table_store(const char *name, const uint8_t state[TECELUME_ALLOCATOR_SIZE]);

#endif
