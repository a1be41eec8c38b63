/* A slow or faulty disk: loaded before catzd (LD_PRELOAD), it makes each fdatasync sleep DISK_SLEEP microseconds first, or
   do nothing where that is -1, and has each call from the DISK_FAULT-th write or sync on fail with EIO. */
#define _GNU_SOURCE
#include <dlfcn.h>
#include <errno.h>
#include <stdatomic.h>
#include <stdlib.h>
#include <unistd.h>

static atomic_long calls;

static long number(const char *variable, long otherwise)
{
    const char *text = getenv(variable);
    return text ? atol(text) : otherwise;
}

static int is_faulty(void)
{
    long first = number("DISK_FAULT", 0);
    return first && atomic_fetch_add(&calls, 1) + 1 >= first;
}

int fdatasync(int file)
{
    static int (*real)(int);
    long microseconds = number("DISK_SLEEP", 0);
    if (is_faulty()) {
        errno = EIO;
        return -1;
    }
    if (microseconds < 0)
        return 0;
    usleep(microseconds);
    if (!real)
        real = (int (*)(int))dlsym(RTLD_NEXT, "fdatasync");
    return real(file);
}

ssize_t pwrite(int file, const void *octets, size_t count, off_t at)
{
    static ssize_t (*real)(int, const void *, size_t, off_t);
    if (is_faulty()) {
        errno = EIO;
        return -1;
    }
    if (!real)
        real = (ssize_t (*)(int, const void *, size_t, off_t))dlsym(RTLD_NEXT, "pwrite");
    return real(file, octets, count, at);
}
