/* Put in front of the gateway's calls on files, and of its sends, by the linker (--wrap). Each call has a number, from 1. The environment
 * says what becomes of one of them:
 *
 *     KILL_AT   the number of the call in place of which the program kills itself
 *     KILL_IN   the same, but a write has written half of its bytes, and any other call is done
 *     FAIL_AT   the number of the call that fails
 *     TRACE     any text: every call is told on standard error */
#include <errno.h>
#include <fcntl.h>
#include <signal.h>
#include <stdarg.h>
#include <stdbool.h>
#include <stdio.h>
#include <stdlib.h>
#include <sys/types.h>
#include <unistd.h>

static unsigned calls;

static bool is_now(const char *variable)
{
    const char *number = getenv(variable);
    return number != NULL && (unsigned)atoi(number) == calls;
}

/* Counts a call; true if it is to fail. */
static bool begin(const char *name, const char *on)
{
    calls++;
    if (getenv("TRACE") != NULL)
        fprintf(stderr, "@ %s %s\n", name, on);
    if (is_now("KILL_AT"))
        raise(SIGKILL);
    errno = ENOSPC;
    return is_now("FAIL_AT");
}

static void end(void)
{
    if (is_now("KILL_IN"))
        raise(SIGKILL);
}

int __real_open(const char *name, int flags, ...);
int __wrap_open(const char *name, int flags, ...)
{
    va_list rest;
    va_start(rest, flags);
    int mode = (flags & O_CREAT) != 0 ? va_arg(rest, int) : 0;
    va_end(rest);
    int file = begin("open", name) ? -1 : __real_open(name, flags, mode);
    end();
    return file;
}

ssize_t __real_write(int file, const void *bytes, size_t length);
ssize_t __wrap_write(int file, const void *bytes, size_t length)
{
    bool fails = begin("write", "");
    ssize_t n = fails ? -1 : __real_write(file, bytes, is_now("KILL_IN") ? length / 2 : length);
    end();
    return n;
}

int __real_fsync(int file);
int __wrap_fsync(int file)
{
    int result = begin("fsync", "") ? -1 : __real_fsync(file);
    end();
    return result;
}

int __real_close(int file);
int __wrap_close(int file)
{
    bool fails = begin("close", "");
    int result = __real_close(file);
    end();
    return fails ? -1 : result;
}

int __real_rename(const char *from, const char *to);
int __wrap_rename(const char *from, const char *to)
{
    int result = begin("rename", to) ? -1 : __real_rename(from, to);
    end();
    return result;
}

/* A frame that is sent. It comes out at once, so that it is told even if the program is killed next. */
int __real_fputs(const char *line, FILE *file);
int __wrap_fputs(const char *line, FILE *file)
{
    bool fails = begin("send", "");
    int result = fails ? EOF : __real_fputs(line, file);
    fflush(file);
    end();
    return result;
}
