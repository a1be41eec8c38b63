/* A network that fails: while the file NET_FAULTS names a call and an error, as "recvfrom 105", that call fails with it.
   LD_PRELOAD it into a server. */
#define _GNU_SOURCE
#include <dlfcn.h>
#include <errno.h>
#include <stdio.h>
#include <stdlib.h>
#include <string.h>
#include <sys/epoll.h>
#include <sys/socket.h>

static int fails(const char *call) {
    const char *path = getenv("NET_FAULTS");
    FILE *file = path ? fopen(path, "re") : NULL;
    char name[32];
    int number = 0;
    if (!file)
        return 0;
    int found = fscanf(file, "%31s %d", name, &number) == 2 && !strcmp(name, call);
    fclose(file);
    if (found)
        errno = number;
    return found;
}

ssize_t recvfrom(int fd, void *octets, size_t count, int flags, struct sockaddr *from, socklen_t *length) {
    static ssize_t (*real)(int, void *, size_t, int, struct sockaddr *, socklen_t *);
    if (!real)
        real = dlsym(RTLD_NEXT, "recvfrom");
    return fails("recvfrom") ? -1 : real(fd, octets, count, flags, from, length);
}

int accept4(int fd, struct sockaddr *from, socklen_t *length, int flags) {
    static int (*real)(int, struct sockaddr *, socklen_t *, int);
    if (!real)
        real = dlsym(RTLD_NEXT, "accept4");
    return fails("accept4") ? -1 : real(fd, from, length, flags);
}

int epoll_wait(int fd, struct epoll_event *events, int count, int timeout) {
    static int (*real)(int, struct epoll_event *, int, int);
    if (!real)
        real = dlsym(RTLD_NEXT, "epoll_wait");
    return fails("epoll_wait") ? -1 : real(fd, events, count, timeout);
}
