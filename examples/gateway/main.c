/* A gateway: node 1 of a network with up to three buses that carry the same transfers. It tells of every NodeStatus on standard error and
 * answers every GetNodeInfo request.
 *
 *     gateway                                frames come as lines on standard input (line.h), all by interface 0
 *     gateway --lines FILE [FILE [FILE]]     frames come as lines of files or pipes, a file for each interface
 *     gateway NAME [NAME [NAME]]             frames come from CAN interfaces of Linux
 *     gateway --allocate FILE ...            the same, and it hands out node IDs; FILE keeps whose they are
 *
 * Interfaces are numbered in this order, from 0. A frame to send goes out as a line on standard output, and by every CAN interface.
 *
 * FILE is made with the first ID that is given, and read at every start. No node is told an ID that is not in it (table.h). IDs of nodes
 * whose NodeStatus was heard are not given to others; which these are is not kept, so give it some seconds to hear them before nodes that
 * want an ID are started.
 *
 * It is built from the C files of this folder and libtecelume.a, as examples/run does. node.c has all that concerns the library. A run over
 * lines is in traffic.input, traffic.sent and traffic.told. Another is in cables.0, cables.1, cables.sent and cables.told: two pipes that
 * carry the same frames, the first with a gap of two seconds. With --allocate it is the allocator of examples/logs/allocation.log; a run
 * after that one is in nodes.input, nodes.sent and nodes.told. */
#include <stdio.h>
#include <string.h>

#include "can.h"
#include "line.h"
#include "node.h"
#include "table.h"

enum { OWN_ID = 1, NO_BUS = -1 };

static struct node node; /* static, since it is too large for a small stack */
static int buses[TECELUME_INTERFACES];
static unsigned bus_count;
static const char *table_name;
static size_t kept; /* entries of the table that are in its file; as it only grows, their number says whether all are */

static void tell(void *self, uint32_t source, const tecelume_node_status *s)
{
    (void)self;
    fprintf(stderr, "node %u: up %u s, health %u, mode %u, vendor code %u\n", (unsigned)source, (unsigned)s->uptime_sec, (unsigned)s->health,
            (unsigned)s->mode, (unsigned)s->vendor_specific_status_code);
}

static void send_frame(void *self, const struct frame *f)
{
    char line[LINE_MAX_LENGTH + 2];
    (void)self;
    line_write(f, line);
    fputs(line, stdout);
    for (unsigned i = 0; i < bus_count; i++)
        if (buses[i] != NO_BUS && !can_write(buses[i], f))
            perror("frame not sent");
}

static bool keep(void *self, uint32_t node_id, const uint8_t *unique_id)
{
    size_t entries = tecelume_allocations(node.allocator);
    (void)self;
    if (entries != kept && !table_store(table_name, node.allocator))
        return false;
    kept = entries;
    fprintf(stderr, "node ID %u is for ", (unsigned)node_id);
    for (int i = 0; i < TECELUME_UNIQUE_ID_SIZE; i++)
        fprintf(stderr, "%02X", (unsigned)unique_id[i]);
    fprintf(stderr, "\n");
    return true;
}

static void receive(unsigned interface_number, const struct frame *f)
{
    node_receive(&node, interface_number, f);
    fflush(stdout);
}

/* ---- lines ---- */

/* One line without its line feed, of which only the first `room` bytes are kept; gives its whole length, -1 at the end of the file. An
 * unfinished line at the end is longer than any that is well formed. */
static long read_line(FILE *file, char *line, long room)
{
    long length = 0;
    for (;;) {
        int c = getc(file);
        if (c == '\n')
            return length;
        if (c == EOF)
            return length == 0 ? -1 : LINE_MAX_LENGTH + 1;
        if (length < room)
            line[length] = (char)c;
        if (length <= LINE_MAX_LENGTH)
            length++;
    }
}

/* The frame of the next line that is well formed; false at the end. */
static bool read_frame(FILE *file, struct frame *f)
{
    char line[LINE_MAX_LENGTH];
    long length;
    while ((length = read_line(file, line, LINE_MAX_LENGTH)) >= 0) {
        if (length <= LINE_MAX_LENGTH && line_read(line, (size_t)length, f))
            return true;
        fprintf(stderr, "a line that is not well formed\n");
    }
    return false;
}

/* Of the next lines of all files the one with the earliest time comes first, as it would from buses. */
static void run_on_lines(FILE *const *files, unsigned count)
{
    struct frame next[TECELUME_INTERFACES];
    bool there[TECELUME_INTERFACES];
    for (unsigned i = 0; i < count; i++)
        there[i] = read_frame(files[i], &next[i]);
    for (;;) {
        unsigned first = count;
        for (unsigned i = 0; i < count; i++)
            if (there[i] && (first == count || next[i].time < next[first].time))
                first = i;
        if (first == count)
            return;
        receive(first, &next[first]);
        there[first] = read_frame(files[first], &next[first]);
    }
}

static bool open_files(char **names, unsigned count)
{
    FILE *files[TECELUME_INTERFACES];
    for (unsigned i = 0; i < count; i++) {
        files[i] = fopen(names[i], "r");
        if (files[i] == NULL) {
            perror(names[i]);
            return false; /* the end of the program closes those that are open */
        }
    }
    run_on_lines(files, count);
    for (unsigned i = 0; i < count; i++)
        fclose(files[i]);
    return true;
}

/* ---- buses ---- */

/* Until all have failed. One that fails is left out, and its streams go on by another. */
static void run_on_buses(char **names)
{
    unsigned left = bus_count;
    int i = 0;
    while (left > 0 && (i = can_wait(buses, bus_count, (unsigned)i)) >= 0) {
        struct frame f;
        switch (can_read(buses[i], &f)) {
        case CAN_DATA:
            receive((unsigned)i, &f);
            break;
        case CAN_FAILED:
            perror(names[i]);
            buses[i] = NO_BUS;
            left--;
            break;
        default:
            break;
        }
    }
}

static bool open_buses(char **names, unsigned count)
{
    for (; bus_count < count; bus_count++) {
        buses[bus_count] = can_open(names[bus_count]);
        if (buses[bus_count] == NO_BUS) {
            perror(names[bus_count]);
            return false;
        }
    }
    run_on_buses(names);
    return true;
}

/* ---- all of it ---- */

static void sum_up(void)
{
    fprintf(stderr, "answers");
    for (unsigned i = 0; i < NODE_ANSWERS; i++)
        if (node.answers[i] > 0)
            fprintf(stderr, " %u: %lu", i, (unsigned long)node.answers[i]);
    fprintf(stderr, ", transfers not understood: %lu", (unsigned long)node.refused);
    if (table_name != NULL)
        fprintf(stderr, ", nodes in the table: %u, turned away: %lu", (unsigned)kept, (unsigned long)node.turned_away);
    fprintf(stderr, "\n");
}

static bool run(char **words, unsigned count)
{
    FILE *input = stdin;
    bool lines = count > 0 && strcmp(words[0], "--lines") == 0;
    if (lines && count > 1 && count - 1 <= TECELUME_INTERFACES)
        return open_files(words + 1, count - 1);
    if (!lines && count > 0 && count <= TECELUME_INTERFACES && words[0][0] != '-')
        return open_buses(words, count);
    if (count == 0) {
        run_on_lines(&input, 1);
        return true;
    }
    fprintf(stderr, "usage: gateway [--allocate FILE] [--lines FILE [FILE [FILE]] | NAME [NAME [NAME]]]\n");
    return false;
}

static bool load(void)
{
    if (table_name == NULL)
        return true;
    if (!table_load(table_name, node.allocator))
        return false;
    kept = tecelume_allocations(node.allocator);
    return true;
}

int main(int count, char **words)
{
    struct owner owner;
    int first = 1;
    if (count > 2 && strcmp(words[1], "--allocate") == 0) {
        table_name = words[2];
        first = 3;
    }
    owner.told = tell;
    owner.sent = send_frame;
    owner.given = table_name == NULL ? NULL : keep;
    owner.self = NULL;
    if (tecelume_version() != TECELUME_VERSION) {
        fprintf(stderr, "header and library do not go together\n");
        return 1;
    }
    uint32_t number = node_setup(&node, OWN_ID, &owner);
    if (number != TECELUME_SUCCESS) {
        fprintf(stderr, "setup: %u, %s\n", (unsigned)number, tecelume_text(number));
        return 1;
    }
    if (!load() || !run(words + first, (unsigned)(count - first)))
        return 1;
    sum_up();
    return 0;
}
