/* for the parts of POSIX that files need */
#ifndef _DEFAULT_SOURCE
#define _DEFAULT_SOURCE
#endif

#include "table.h"

#include <errno.h>
#include <fcntl.h>
#include <stdio.h>
#include <string.h>
#include <unistd.h>

enum { NAME_MAX_LENGTH = 4000 };

/* A message from another node is ignored, so this call changes nothing. */
static bool is_state(uint8_t *state)
{
    const uint8_t payload[1] = {0};
    tecelume_result result = tecelume_allocate(state, TECELUME_ALLOCATOR_SIZE, 1, 0, 0, 1, payload, sizeof payload, 0, NULL, 0);
    return tecelume_number(result) == TECELUME_SUCCESS;
}

/* Up to `room` bytes of the file, -1 if reading fails. */
static long read_whole(int file, uint8_t *bytes, size_t room)
{
    size_t length = 0;
    for (;;) {
        ssize_t n = read(file, bytes + length, room - length);
        if (n < 0)
            return -1;
        if (n == 0)
            return (long)length;
        length += (size_t)n;
    }
}

bool table_load(const char *name, uint8_t state[TECELUME_ALLOCATOR_SIZE])
{
    uint8_t bytes[TECELUME_ALLOCATOR_SIZE + 1]; /* one more, to see that a file is too long */
    int file = open(name, O_RDONLY);
    if (file < 0 && errno == ENOENT)
        return tecelume_allocator_setup(state, TECELUME_ALLOCATOR_SIZE) == TECELUME_SUCCESS;
    long length = file < 0 ? -1 : read_whole(file, bytes, sizeof bytes);
    if (length < 0)
        perror(name);
    if (file >= 0)
        close(file);
    if (length < 0)
        return false;
    if (length != TECELUME_ALLOCATOR_SIZE || !is_state(bytes)) {
        fprintf(stderr, "%s: not the state of an allocator; the file stays as it is\n", name);
        return false;
    }
    memcpy(state, bytes, TECELUME_ALLOCATOR_SIZE);
    return true;
}

static bool write_whole(int file, const uint8_t *bytes, size_t length)
{
    while (length > 0) {
        ssize_t n = write(file, bytes, length);
        if (n <= 0)
            return false;
        bytes += n;
        length -= (size_t)n;
    }
    return true;
}

static bool write_beside(const char *beside, const uint8_t *state)
{
    int file = open(beside, O_WRONLY | O_CREAT | O_TRUNC, 0644);
    if (file < 0)
        return false;
    bool written = write_whole(file, state, TECELUME_ALLOCATOR_SIZE) && fsync(file) == 0;
    return close(file) == 0 && written;
}

/* A name is in its folder for good only when the folder is on the disk, too. */
static bool keep_folder(const char *name)
{
    char folder[NAME_MAX_LENGTH + 1];
    const char *slash = strrchr(name, '/');
    size_t length = slash == NULL ? 0 : slash == name ? 1 : (size_t)(slash - name);
    memcpy(folder, name, length);
    folder[length] = 0;
    int file = open(length == 0 ? "." : folder, O_RDONLY);
    if (file < 0)
        return false;
    bool kept = fsync(file) == 0;
    return close(file) == 0 && kept;
}

bool table_store(const char *name, const uint8_t state[TECELUME_ALLOCATOR_SIZE])
{
    char beside[NAME_MAX_LENGTH + sizeof ".new"];
    if (strlen(name) > NAME_MAX_LENGTH) {
        fprintf(stderr, "%s: the name is too long\n", name);
        return false;
    }
    sprintf(beside, "%s.new", name);
    if (write_beside(beside, state) && rename(beside, name) == 0 && keep_folder(name))
        return true;
    perror(name);
    return false;
}
