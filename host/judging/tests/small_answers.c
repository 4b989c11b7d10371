/* Loaded in front of the C library, it gives the program `bench` the smallest answers that an operating system may give: a read delivers one byte, a
   write takes at most BENCH_TAKES, and every third call is broken off by a signal. Other programs are left alone. */
#define _GNU_SOURCE
#include <errno.h>
#include <stdlib.h>
#include <string.h>
#include <sys/syscall.h>
#include <unistd.h>

/* Says whether the call is the bench's. */
static int is_bench(void) {
    return strcmp(program_invocation_short_name, "bench") == 0;
}

/* Says whether this call is one that a signal breaks off. */
static int broken_off(void) {
    static unsigned calls;
    return ++calls % 3 == 0;
}

/* Gives what an interrupted call gives. */
static ssize_t interrupted(void) {
    errno = EINTR;
    return -1;
}

ssize_t read(int from, void *room, size_t size) {
    if (!is_bench())
        return syscall(SYS_read, from, room, size);
    if (broken_off())
        return interrupted();
    return syscall(SYS_read, from, room, size < 1 ? size : 1);
}

ssize_t write(int to, const void *bytes, size_t size) {
    const char *most = getenv("BENCH_TAKES");
    size_t takes = most ? strtoul(most, NULL, 10) : size;
    if (!is_bench())
        return syscall(SYS_write, to, bytes, size);
    if (broken_off())
        return interrupted();
    return syscall(SYS_write, to, bytes, size < takes ? size : takes);
}
