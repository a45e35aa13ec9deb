/* Times calls of a store beside what its disk takes, for tools/serve_speed: microseconds of each, a line a repetition: a call, a page of bytes of all
   kinds, which goes as digits, a page of plain text, and the floor.

   usage: speed IMAGE FLOOR CALLS PAGES REPETITIONS     FLOOR is a file to be made on the same disk */
#define _POSIX_C_SOURCE 200809L
#include "opfs.h"

#include <fcntl.h>
#include <stdio.h>
#include <stdlib.h>
#include <string.h>
#include <time.h>
#include <unistd.h>

enum { PAGE = 4096, PAGES_OF_FILE = 256, BODY = 140, GATE = 5, AREA = 1 << 20 };

static double now(void) {
    struct timespec at;
    clock_gettime(CLOCK_MONOTONIC, &at);
    return (double)at.tv_sec * 1e6 + (double)at.tv_nsec / 1e3;
}

static void need(const char *what, int is_right) {
    if (is_right) return;
    fprintf(stderr, "speed: %s\n", what);
    exit(1);
}

static void filled(char *bytes, size_t length, unsigned from) {
    for (size_t i = 0; i < length; i++) bytes[i] = (char)(from * 31 + i * 7);
}

static void filled_plainly(char *bytes, size_t length, unsigned from) {
    for (size_t i = 0; i < length; i++) bytes[i] = (char)('a' + ((from + i) & 15));
}

/* Short writes, each asked for when the one before is answered. */
static double time_calls(opfs_agent *agent, opfs_ref handle, int calls) {
    char bytes[100];
    double begun = now();
    for (int i = 0; i < calls; i++) {
        filled(bytes, sizeof bytes, (unsigned)i);
        need("a write was refused", opfs_sync_write(agent, handle, bytes, sizeof bytes, 0) == OPFS_OK);
    }
    return (now() - begun) / calls;
}

/* Pages that are written and flushed, in one round trip. */
static double time_pages(opfs_agent *agent, opfs_ref handle, int pages, void (*fill)(char *, size_t, unsigned)) {
    char bytes[PAGE];
    double begun = now();
    for (int i = 0; i < pages; i++) {
        fill(bytes, PAGE, (unsigned)i);
        need("a page was refused", opfs_sync_write_flush(agent, handle, bytes, PAGE, (uint64_t)(i % PAGES_OF_FILE) * PAGE) == OPFS_OK);
    }
    return (now() - begun) / pages;
}

/* The same by hand: the page, the body of a record, a sync, its gate, a sync. */
static double time_floor(int file, int pages) {
    char bytes[PAGE];
    double begun = now();
    for (int i = 0; i < pages; i++) {
        off_t at = 64 + (off_t)(BODY + GATE) * (i % 5000);
        filled(bytes, PAGE, (unsigned)i);
        need("the floor failed", pwrite(file, bytes, PAGE, AREA + (off_t)PAGE * (i % (2 * PAGES_OF_FILE))) == PAGE);
        need("the floor failed", pwrite(file, bytes, BODY, at + GATE) == BODY && fdatasync(file) == 0);
        need("the floor failed", pwrite(file, bytes, GATE, at) == GATE && fdatasync(file) == 0);
    }
    return (now() - begun) / pages;
}

static int make_floor(const char *path) {
    static char zeros[AREA];
    int file = open(path, O_RDWR | O_CREAT | O_TRUNC, 0600);
    need("there is no floor", file >= 0);
    for (int i = 0; i < 4; i++) need("the floor failed", write(file, zeros, AREA) == AREA);
    need("the floor failed", fsync(file) == 0);
    return file;
}

int main(int count, char **words) {
    opfs_origin origin = {"https://a.example", false};
    opfs *store;
    opfs_ref dir, file, handle;
    need("usage: speed IMAGE FLOOR CALLS PAGES REPETITIONS", count == 6);
    int floor = make_floor(words[2]);
    need("no store", opfs_open(&(opfs_start){.image = words[1], .agents = &origin, .count = 1}, &store) == OPFS_OK);
    opfs_agent *agent = opfs_agent_of(store, 1);
    need("no root", opfs_get_directory(agent, NULL, &dir) == OPFS_OK);
    need("no file", opfs_get_file_handle(agent, dir, "file", true, &file) == OPFS_OK);
    need("no handle", opfs_create_sync(agent, file, false, &handle) == OPFS_OK);
    for (int i = 0; i < atoi(words[5]); i++) {
        double calls = time_calls(agent, handle, atoi(words[3])), by_hand = time_floor(floor, atoi(words[4]));
        double bytes = time_pages(agent, handle, atoi(words[4]), filled);
        printf("%.2f %.2f %.2f %.2f\n", calls, bytes, time_pages(agent, handle, atoi(words[4]), filled_plainly), by_hand);
    }
    need("the end failed", opfs_close(store) == OPFS_OK);
    return 0;
}
