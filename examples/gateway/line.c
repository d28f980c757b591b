#include "line.h"

#include <stdio.h>

/* What is left to read of a line. */
struct rest {
    const char *at;
    size_t length;
};

static bool skip(struct rest *r, char c)
{
    if (r->length == 0 || *r->at != c)
        return false;
    r->at++;
    r->length--;
    return true;
}

/* Reads `least` to `most` digits of that base, capital ones, as many as there are. */
static bool read_number(struct rest *r, unsigned base, size_t least, size_t most, uint64_t *number)
{
    size_t n = 0;
    *number = 0;
    for (; n < most && r->length > 0; n++) {
        char c = *r->at;
        unsigned digit = c >= '0' && c <= '9' ? (unsigned)(c - '0') : c >= 'A' && c <= 'F' ? (unsigned)(c - 'A') + 10 : 16;
        if (digit >= base)
            break;
        *number = *number * base + digit;
        r->at++;
        r->length--;
    }
    return n >= least;
}

static bool read_time(struct rest *r, uint64_t *time)
{
    uint64_t seconds, milliseconds;
    bool zero = r->length > 0 && *r->at == '0';
    if (!read_number(r, 10, 1, zero ? 1 : 9, &seconds) || !skip(r, '.') || !read_number(r, 10, 3, 3, &milliseconds))
        return false;
    *time = (seconds * 1000 + milliseconds) * 1000;
    return true;
}

bool line_read(const char *line, size_t length, struct frame *f)
{
    struct rest r;
    uint64_t number;
    r.at = line;
    r.length = length;
    if (!read_time(&r, &f->time) || !skip(&r, ' ') || !read_number(&r, 16, 8, 8, &number))
        return false;
    f->id = (uint32_t)number;
    for (f->length = 0; r.length > 0; f->length++) {
        if (f->length == sizeof f->data || !skip(&r, ' ') || !read_number(&r, 16, 2, 2, &number))
            return false;
        f->data[f->length] = (uint8_t)number;
    }
    return true;
}

void line_write(const struct frame *f, char line[LINE_MAX_LENGTH + 2])
{
    unsigned seconds = (unsigned)(f->time / 1000000 % 1000000000);
    unsigned milliseconds = (unsigned)(f->time / 1000 % 1000);
    int n = sprintf(line, "%u.%03u %08X", seconds, milliseconds, (unsigned)f->id);
    for (size_t i = 0; i < f->length; i++)
        n += sprintf(line + n, " %02X", (unsigned)f->data[i]);
    sprintf(line + n, "\n");
}
