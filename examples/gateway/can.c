/* for the parts of POSIX that sockets need */
#ifndef _DEFAULT_SOURCE
#define _DEFAULT_SOURCE
#endif

#include "can.h"

#include <errno.h>

#if defined __linux__ && defined __has_include
#if __has_include(<linux/can/raw.h>)
#define HAS_SOCKETCAN
#endif
#endif

#ifdef HAS_SOCKETCAN

#include <linux/can.h>
#include <linux/can/raw.h>
#include <net/if.h>
#include <poll.h>
#include <string.h>
#include <sys/socket.h>
#include <time.h>
#include <unistd.h>

int can_open(const char *interface_name)
{
    struct sockaddr_can address;
    unsigned index = if_nametoindex(interface_name);
    if (index == 0)
        return -1;
    int s = socket(PF_CAN, SOCK_RAW, CAN_RAW);
    if (s < 0)
        return -1;
    memset(&address, 0, sizeof address);
    address.can_family = AF_CAN;
    address.can_ifindex = (int)index;
    if (bind(s, (const struct sockaddr *)&address, sizeof address) == 0)
        return s;
    close(s);
    return -1;
}

static uint64_t microseconds(void)
{
    struct timespec t;
    clock_gettime(CLOCK_MONOTONIC, &t);
    return (uint64_t)t.tv_sec * 1000000 + (uint64_t)t.tv_nsec / 1000;
}

int can_wait(const int *sockets, unsigned count, unsigned last)
{
    struct pollfd waiting[TECELUME_INTERFACES];
    for (unsigned i = 0; i < count; i++) {
        waiting[i].fd = sockets[i];
        waiting[i].events = POLLIN;
        waiting[i].revents = 0;
    }
    if (poll(waiting, count, -1) <= 0)
        return -1;
    unsigned i = last;
    do
        i = (i + 1) % count;
    while (waiting[i].revents == 0);
    return (int)i;
}

enum can_result can_read(int socket_number, struct frame *f)
{
    struct can_frame c;
    if (read(socket_number, &c, sizeof c) != (ssize_t)sizeof c)
        return CAN_FAILED;
    if ((c.can_id & (CAN_EFF_FLAG | CAN_RTR_FLAG | CAN_ERR_FLAG)) != CAN_EFF_FLAG || c.can_dlc > sizeof f->data)
        return CAN_OTHER;
    f->time = microseconds();
    f->id = c.can_id & CAN_EFF_MASK;
    f->length = c.can_dlc;
    memcpy(f->data, c.data, f->length);
    return CAN_DATA;
}

bool can_write(int socket_number, const struct frame *f)
{
    struct can_frame c;
    memset(&c, 0, sizeof c);
    c.can_id = f->id | CAN_EFF_FLAG;
    c.can_dlc = (uint8_t)f->length;
    memcpy(c.data, f->data, f->length);
    return write(socket_number, &c, sizeof c) == (ssize_t)sizeof c;
}

#else

int can_open(const char *interface_name)
{
    (void)interface_name;
    errno = ENOSYS;
    return -1;
}

int can_wait(const int *sockets, unsigned count, unsigned last)
{
    (void)sockets;
    (void)count;
    (void)last;
    return -1;
}

enum can_result can_read(int socket_number, struct frame *f)
{
    (void)socket_number;
    (void)f;
    return CAN_FAILED;
}

bool can_write(int socket_number, const struct frame *f)
{
    (void)socket_number;
    (void)f;
    return false;
}

#endif
