/* Commits pages to a file many times: the words are the file's path, how many commits, and how many pages each. */
#include "journal.h"

int main(int argc, char **argv) {
    if (argc != 4) return 1;
    long count = atol(argv[2]);
    int pages = atoi(argv[3]);
    open_device(argv[1]);
    for (long turn = 0; turn < count; turn++) {
        unsigned char page[SIZE];
        memset(page, turn % 251, SIZE);
        commit(0, pages, page);
    }
    return 0;
}
