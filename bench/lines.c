/* The yardstick of lines.sh: reads blocks of 64 KiB, splits them into lines, and answers
   each line by a fixed reply and one call of write. Of a line it looks at the first digits
   of INS and P1, to choose among four replies. A line that fills a block ends the run. */
#include <string.h>
#include <unistd.h>

#define FIXED(text) { text, sizeof text - 1 }

struct reply {
    const char *text;
    size_t length;
};

static const struct reply selected = FIXED("6f108408a000000151000000a5049f6501ff9000\n");
static const struct reply opened = FIXED("019000\n");
static const struct reply closed = FIXED("9000\n");
static const struct reply keys = FIXED("e012c00401308810c00402308810c004033088109000\n");

static char block[65536];

static const struct reply *reply_to(const char *line, size_t length)
{
    if (length < 5 || line[2] == 'A')
        return &selected;
    if (line[2] == 'C')
        return &keys;
    return line[4] == '8' ? &closed : &opened;
}

static int answer(const char *line, size_t length)
{
    const struct reply *reply = reply_to(line, length);

    return write(STDOUT_FILENO, reply->text, reply->length) == (ssize_t)reply->length;
}

int main(void)
{
    size_t held = 0;
    ssize_t got;

    while ((got = read(STDIN_FILENO, block + held, sizeof block - held)) > 0) {
        const char *at = block;
        const char *end = block + held + got;
        const char *newline;

        while ((newline = memchr(at, '\n', (size_t)(end - at))) != NULL) {
            if (!answer(at, (size_t)(newline - at)))
                return 6;
            at = newline + 1;
        }
        /* The front of a line waits for the rest of it. */
        held = (size_t)(end - at);
        memmove(block, at, held);
    }
    if (got < 0)
        return 5;
    /* A last line counts without its newline too. */
    if (held > 0 && !answer(block, held))
        return 6;
    return 0;
}
