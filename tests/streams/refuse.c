/*
 * Loaded before a program: refuses its read of standard input that has the number in REFUSED_READ, counted from 1, or its write to
 * standard output that has the number in REFUSED_WRITE, and makes the file that REFUSED_FILE names, to which each such call that
 * comes after it adds a byte. A call is refused as an error of the device, or where REFUSED_AS says "interrupted" as an interrupted
 * one, or where that says "nothing" by 0 bytes. The others pass, but move at most as many bytes as READ_MOST or WRITE_MOST says,
 * where that says a number. Where READ_FROM or WRITE_TO says a number, the file of that number stands in the place of the stream.
 */
#define _GNU_SOURCE
#include <errno.h>
#include <fcntl.h>
#include <stdlib.h>
#include <string.h>
#include <sys/syscall.h>
#include <unistd.h>

static long reads, writes;
static int file = -1;

/* The number that a variable has, or 0. */
static long number(const char *name) {
    const char *text = getenv(name);
    return text ? atol(text) : 0;
}

/* The file whose calls are counted: the one that a variable says, or else the stream. */
static int counted(const char *name, int stream) {
    const char *text = getenv(name);
    return text ? atoi(text) : stream;
}

/* Refuses a call. */
static ssize_t refuse(void) {
    const char *name = getenv("REFUSED_FILE"), *as = getenv("REFUSED_AS");
    file = name ? open(name, O_CREAT | O_WRONLY | O_APPEND, 0600) : -1;
    if (as && !strcmp(as, "nothing")) return 0;
    errno = as && !strcmp(as, "interrupted") ? EINTR : EIO;
    return -1;
}

/* Passes a call on, for at most so many bytes, where there is a number. */
static ssize_t pass(long call, int fd, const void *bytes, size_t count, long most) {
    if (file >= 0) syscall(SYS_write, file, "x", 1);
    return syscall(call, fd, bytes, most > 0 && count > (size_t)most ? (size_t)most : count);
}

ssize_t read(int fd, void *bytes, size_t count) {
    if (fd != counted("READ_FROM", STDIN_FILENO)) return syscall(SYS_read, fd, bytes, count);
    return ++reads == number("REFUSED_READ") ? refuse() : pass(SYS_read, fd, bytes, count, number("READ_MOST"));
}

ssize_t write(int fd, const void *bytes, size_t count) {
    if (fd != counted("WRITE_TO", STDOUT_FILENO)) return syscall(SYS_write, fd, bytes, count);
    return ++writes == number("REFUSED_WRITE") ? refuse() : pass(SYS_write, fd, bytes, count, number("WRITE_MOST"));
}
