/* A frame as a line of text: seconds (1 to 9 digits, no needless leading zero), a dot, three digits; the ID as 8 capital hex digits and
 * 0 to 8 bytes as two, each after one space. */
#ifndef LINE_H
#define LINE_H

#include <stdbool.h>

#include "node.h"

enum { LINE_MAX_LENGTH = 46 }; /* without its line feed */

/* The frame of a line without its line feed; false if the line is not well formed. */
bool line_read(const char *line, size_t length, struct frame *f);

/* Writes the line, a line feed and a zero. Times from 1,000,000,000 seconds on lose their higher digits. */
void line_write(const struct frame *f, char line[LINE_MAX_LENGTH + 2]);

#endif
