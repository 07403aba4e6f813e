/* What commit.c, session.c and mill.c make of a commit: the writes and fdatasyncs of page_journal. The copies and the
 * descriptor, the gate opened, the pages in place, the gate closed, each followed by fdatasync. */
#include <fcntl.h>
#include <stdio.h>
#include <stdlib.h>
#include <string.h>
#include <unistd.h>

enum { SIZE = 256, GATE = 45, DESCRIPTOR = 46, COPIES = 47 };

static int file;

/* How many calls were made. */
static unsigned long writes, syncs;

static void stop(const char *what) {
    perror(what);
    exit(1);
}

static void open_device(const char *path) {
    file = open(path, O_RDWR | O_CREAT, 0666);
    if (file < 0) stop("open");
}

static void put(int page, const unsigned char *bytes) {
    writes++;
    if (pwrite(file, bytes, SIZE, (off_t)page * SIZE) != SIZE) stop("pwrite");
}

static void sync_file(void) {
    syncs++;
    if (fdatasync(file) < 0) stop("fdatasync");
}

/* Commits so many pages from this one on, all with the same bytes. */
static void commit(int first, int pages, const unsigned char *page) {
    unsigned char gate[SIZE], descriptor[SIZE] = {0};
    for (int i = 0; i < pages; i++) put(COPIES + i, page);
    descriptor[0] = (unsigned char)pages;
    for (int i = 0; i < pages; i++) descriptor[i + 1] = (unsigned char)(first + i);
    put(DESCRIPTOR, descriptor);
    sync_file();
    memset(gate, 0xA5, SIZE);
    put(GATE, gate);
    sync_file();
    for (int i = 0; i < pages; i++) put(first + i, page);
    sync_file();
    memset(gate, 0, SIZE);
    put(GATE, gate);
    sync_file();
}
