/* Appends records to a file as a store does, in groups of so many, each by two writes with a sync behind each, and says how many a second.

     appends FILE COUNT GROUP fsync|fdatasync      a file of its own, which is made anew
     appends FILE COUNT 0 fsync|fdatasync          writes and syncs one byte so many times, and says how many microseconds each takes

   It has no market and proves nothing: it is what the same syncs cost without one. */
#include <fcntl.h>
#include <stdio.h>
#include <stdlib.h>
#include <string.h>
#include <time.h>
#include <unistd.h>

static const char record[] = "deposit alice 1\ndeposit alice 1 at 30000";
enum { SIZE = sizeof record - 1, FRAMED = SIZE + 5, MOST = 4096 };

static int (*sync_of)(int);

static void fail(const char *what) {
    perror(what);
    exit(1);
}

static double now(void) {
    struct timespec at;
    clock_gettime(CLOCK_MONOTONIC, &at);
    return at.tv_sec + at.tv_nsec / 1e9;
}

static void put(int file, const void *bytes, size_t size, off_t at) {
    if (pwrite(file, bytes, size, at) != (ssize_t)size) fail("pwrite");
    if (sync_of(file)) fail("sync");
}

int main(int count, char **words) {
    if (count != 5) return 2;
    int file = open(words[1], O_RDWR | O_CREAT | O_TRUNC, 0666);
    if (file < 0) fail(words[1]);
    long many = atol(words[2]), group = atol(words[3]);
    sync_of = strcmp(words[4], "fsync") ? fdatasync : fsync;
    if (group > MOST) return 2;
    static char bytes[MOST * FRAMED + 1];
    for (long at = 0; at < group; at++) {
        char *here = bytes + at * FRAMED;
        here[0] = 1;
        here[4] = SIZE;
        memcpy(here + 5, record, SIZE);
    }
    put(file, "", 1, 0);
    double begun = now();
    off_t gate = 0;
    if (group == 0) {
        for (long done = 0; done < many; done++) put(file, "\1", 1, done);
        printf("%.0f\n", (now() - begun) / many * 1e6);
        return 0;
    }
    for (long done = 0; done < many; done += group) {
        /* behind the closed gate the records and the next gate, then the gate */
        put(file, bytes + 1, group * FRAMED, gate + 1);
        put(file, "\1", 1, gate);
        gate += group * FRAMED;
    }
    printf("%.0f\n", many / (now() - begun));
    return 0;
}
