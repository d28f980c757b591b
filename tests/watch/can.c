/* In place of the system's CAN sockets, where a kernel has none: linked in front of the C library (LD_PRELOAD). The interface canN is number N + 1,
 * and what is read from it are the structs can_frame in the file or pipe $CAN_FRAMES/canN. What the system would refuse ends the program. */
#define _GNU_SOURCE
#include <dlfcn.h>
#include <fcntl.h>
#include <linux/can.h>
#include <linux/can/raw.h>
#include <stdio.h>
#include <stdlib.h>
#include <string.h>
#include <sys/socket.h>
#include <unistd.h>

static void check(int right, const char *what)
{
    if (!right) {
        fprintf(stderr, "can.c: %s\n", what);
        _exit(99);
    }
}

unsigned if_nametoindex(const char *name)
{
    return strncmp(name, "can", 3) == 0 && name[3] >= '0' && name[3] <= '9' && name[4] == 0 ? (unsigned)(name[3] - '0') + 1 : 0;
}

int socket(int domain, int type, int protocol)
{
    int (*next)(int, int, int) = (int (*)(int, int, int))dlsym(RTLD_NEXT, "socket");
    if (domain != AF_CAN)
        return next(domain, type, protocol);
    check((type & ~SOCK_CLOEXEC) == SOCK_RAW && protocol == CAN_RAW, "another kind of socket");
    return open("/dev/null", O_RDONLY);
}

int bind(int descriptor, const struct sockaddr *address, socklen_t length)
{
    int (*next)(int, const struct sockaddr *, socklen_t) = (int (*)(int, const struct sockaddr *, socklen_t))dlsym(RTLD_NEXT, "bind");
    struct sockaddr_can can;
    char path[4096];
    int file;
    if (address->sa_family != AF_CAN)
        return next(descriptor, address, length);
    check(length == sizeof can, "another address");
    memcpy(&can, address, sizeof can);
    snprintf(path, sizeof path, "%s/can%d", getenv("CAN_FRAMES"), can.can_ifindex - 1);
    file = open(path, O_RDONLY);
    check(file >= 0, path);
    check(dup2(file, descriptor) == descriptor, "no descriptor");
    close(file);
    return 0;
}
