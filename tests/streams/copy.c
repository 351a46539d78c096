/*
 * Copies standard input to standard output, a buffer at a time, and ends as flcolumn does where there is no memory, or a read or a
 * write fails. WRONG makes it go wrong in one way, by its number.
 */
#include <errno.h>
#include <stdio.h>
#include <stdlib.h>
#include <string.h>
#include <unistd.h>

static int fail(int status, const char *text) {
    fprintf(stderr, "flcolumn: %s\n", text);
    return status;
}

/* Tells what the system says too, where it says something. */
static int fail_by(int error, int status, const char *text) {
    char told[200];
    snprintf(told, sizeof told, error ? "%s: %s (os error %d)" : "%s", text, strerror(error), error);
    return fail(status, told);
}

int main(void) {
    size_t room = 20000;
    char *bytes = malloc(room);
    /* 1: goes on without memory. */
    if (!bytes && WRONG != 1) return fail(6, "out of memory");
    for (;;) {
        ssize_t count = read(0, bytes, room), done = 0, put;
        /* 2: reads once more where a read was interrupted. 3: takes a read that failed for the end. 4: tells it by another text. */
        if (count < 0 && WRONG == 2 && errno == EINTR) count = read(0, bytes, room);
        if (count < 0 && WRONG == 3) return 0;
        if (count < 0) return fail_by(errno, 4, WRONG == 4 ? "reading" : "cannot read standard input");
        if (count == 0) return 0;
        for (; done < count; done += put) {
            errno = 0;
            put = write(1, bytes + done, count - done);
            /* 5: goes on where a write failed. 6: tells it by another status. 7: does not tell it. */
            if (put < 0 && WRONG == 5) put = count - done;
            if (put < 0 && WRONG == 7) return 0;
            /* 8: writes once more where a write took nothing. */
            if (put == 0 && WRONG == 8) continue;
            /* 9: calls once more behind a write that failed, and then tells it. */
            if (put <= 0 && WRONG == 9 && read(0, bytes, room) < 0) return 1;
            if (put <= 0) return fail_by(errno, WRONG == 6 ? 4 : 5, "cannot write standard output");
            /* 10: takes a part that was written for all. */
            if (WRONG == 10) put = count - done;
        }
        /* 11: takes a part that was read for all. */
        if (WRONG == 11 && (size_t)count < room) return 0;
    }
}
