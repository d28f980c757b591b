/* CAN interfaces of Linux (SocketCAN). Elsewhere every call fails. This part was compiled, but never run on a bus: neither the machines
 * that build this repository nor its tests have one. */
#ifndef CAN_H
#define CAN_H

#include <stdbool.h>

#include "node.h"

/* A socket on the interface of that name; -1 if there is none, with errno set. */
int can_open(const char *interface_name);

/* Waits until one of the sockets can be read or has failed, and gives its place, -1 if waiting fails. A socket of -1 is left out. The one
 * after `last` is looked at first, so that a busy one holds up no other. */
int can_wait(const int *sockets, unsigned count, unsigned last);

enum can_result { CAN_FAILED, CAN_OTHER, CAN_DATA };

/* The next frame. It is CAN_DATA if it is a data frame with a 29-bit ID; then it gets the time of its arrival. */
enum can_result can_read(int socket_number, struct frame *f);

bool can_write(int socket_number, const struct frame *f);

#endif
