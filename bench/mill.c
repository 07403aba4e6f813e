/* The yardstick of mill.sh: the workload of `gp mill`, over the AES of OpenSSL, with the host and the card of each session in one
   program, and the calls on a file that the card makes.

     mill SEED COUNT          makes c.img a card, plays COUNT rounds, and writes the five lines that `gp mill` writes
     mill SEED COUNT talk     writes each command behind `> ` and each reply behind `< ` before them, and a reset as `> reset`
     mill SEED COUNT calls    writes how often each call on the file was made behind them

   Each end derives its own session keys and makes, or checks, each cryptogram and MAC, and enciphers and deciphers as the level of
   the session says. The card judges no rule, keeps no registry, and writes its pages at fixed places, but by as many calls as a
   card does: a commit of one page for each command that changes the registry, of two for DELETE, and a load page for LOAD. */
#include "scp03.h"

enum { ENTRIES = 1, OBJECTS = 37, USED_PAGES = 46, LOAD = 96 };

enum { INSTALL = 0xe6, STORE_DATA = 0xe2, LOADING = 0xe8, GET_STATUS = 0xf2, SET_STATUS = 0xf0, DELETE = 0xe4 };

enum { AID_SIZE = 6 };

/* What a round chooses. The AID of the file ends with 01, and that of the application with 02. */
struct round {
    uint8_t level, challenge[8], file[AID_SIZE], application[AID_SIZE], count, byte;
};

static struct session host, card;

/* Whether commands and replies are written. */
static int talks;

/* How many lines ended with 9000, and how many with something else. */
static unsigned long accepted, others;

static void write_bytes(char mark, const uint8_t *bytes, size_t size)
{
    printf("%c ", mark);
    for (size_t i = 0; i < size; i++)
        printf("%02x", bytes[i]);
    putchar('\n');
}

static void put_number(uint8_t *to, uint32_t number)
{
    for (int i = 0; i < 4; i++)
        to[i] = (uint8_t)(number >> (24 - 8 * i));
}

/* ---- the words of ChaCha20 */

static uint32_t chacha[16] = { 0x61707865, 0x3320646e, 0x79622d32, 0x6b206574 };

static void quarter(uint32_t *a, uint32_t *b, uint32_t *c, uint32_t *d)
{
    *a += *b, *d ^= *a, *d = *d << 16 | *d >> 16;
    *c += *d, *b ^= *c, *b = *b << 12 | *b >> 20;
    *a += *b, *d ^= *a, *d = *d << 8 | *d >> 24;
    *c += *d, *b ^= *c, *b = *b << 7 | *b >> 25;
}

/* The key is the seed in 8 bytes, the highest first, and 24 zeros; words are read with the lowest byte first. */
static void sow(uint64_t seed)
{
    uint8_t bytes[8];

    put_number(bytes, (uint32_t)(seed >> 32));
    put_number(bytes + 4, (uint32_t)seed);
    for (int i = 0; i < 8; i++)
        chacha[4 + i / 4] |= (uint32_t)bytes[i] << 8 * (i % 4);
}

static uint32_t draw(void)
{
    static uint32_t words[16];
    static int next;

    if (next == 0) {
        uint32_t *w = words;

        memcpy(words, chacha, sizeof words);
        for (int i = 0; i < 10; i++) {
            for (int j = 0; j < 4; j++)
                quarter(w + j, w + 4 + j, w + 8 + j, w + 12 + j);
            for (int j = 0; j < 4; j++)
                quarter(w + j, w + 4 + (j + 1) % 4, w + 8 + (j + 2) % 4, w + 12 + (j + 3) % 4);
        }
        for (int i = 0; i < 16; i++)
            words[i] += chacha[i];
        if (++chacha[12] == 0)
            chacha[13]++;
    }
    next = (next + 1) % 16;
    return words[(next + 15) % 16];
}

static void draw_round(struct round *of)
{
    static const uint8_t levels[] = { 0x01, 0x03, 0x11, 0x13, 0x33 };
    uint32_t last;

    of->level = levels[draw() % 5];
    put_number(of->challenge, draw());
    put_number(of->challenge + 4, draw());
    of->file[0] = of->application[0] = 0xf0;
    put_number(of->file + 1, draw());
    memcpy(of->application + 1, of->file + 1, 4);
    of->file[5] = 1;
    of->application[5] = 2;
    last = draw();
    of->count = (uint8_t)(1 + last % 200);
    of->byte = (uint8_t)(last >> 24);
}

/* ---- the card */

static void make_card(void)
{
    unsigned char page[SIZE] = { 0 };

    remove("c.img");
    open_device("c.img");
    put(0, page);
    put(GATE, page);
    for (int i = 1; i < GATE; i++)
        put(i, page);
    put(0, page);
    sync_file();
}

/* Powers the card on, and says how many pages it has read. */
static unsigned long power_on(void)
{
    unsigned char page[SIZE];

    for (int i = 0; i < USED_PAGES; i++)
        if (pread(file, page, SIZE, (off_t)i * SIZE) != SIZE)
            stop("pread");
    sync_file();
    return USED_PAGES;
}

/* Commits so many pages from this one on, with what a command says. Its reply has no data. */
static size_t commit_field(int page, int pages, const uint8_t *field, size_t size)
{
    unsigned char bytes[SIZE] = { 0 };

    memcpy(bytes, field, size);
    commit(page, pages, bytes);
    return 0;
}

/* The reply of a command that may have a receipt, and has none. */
static size_t no_receipt(uint8_t *reply)
{
    reply[0] = 0;
    return 1;
}

/* An element of a template, with this value. */
static uint8_t *put_element(uint8_t *to, const char *tag, const uint8_t *value, size_t size)
{
    size_t spelled = strlen(tag);

    memcpy(to, tag, spelled);
    to[spelled] = (uint8_t)size;
    memcpy(to + spelled + 1, value, size);
    return to + spelled + 1 + size;
}

/* GET STATUS: the template of the application that was installed last, whose file and AID these are. */
static size_t list(const uint8_t *loaded, const uint8_t *application, uint8_t *reply)
{
    static const uint8_t selectable = 7, privileges[3] = { 0 };
    uint8_t *end = reply + 2;

    end = put_element(end, "\x4f", application, AID_SIZE);
    end = put_element(end, "\x9f\x70", &selectable, 1);
    end = put_element(end, "\xc5", privileges, 3);
    end = put_element(end, "\xc4", loaded, AID_SIZE);
    end = put_element(end, "\xcc", aid, sizeof aid);
    reply[0] = 0xe3;
    reply[1] = (uint8_t)(end - reply - 2);
    return (size_t)(end - reply);
}

/* LOAD of one block, the whole file: the tag C4 and the length before the bytes are left out. */
static void load(const uint8_t *block, size_t size)
{
    unsigned char page[SIZE] = { 0 };
    size_t header = block[1] == 0x81 ? 3 : 2;

    memcpy(page, block + header, size - header);
    put(LOAD, page);
}

/* What a command does, and the data field of its reply. */
static size_t act(const uint8_t *command, size_t size, uint8_t *reply)
{
    static uint8_t loaded[AID_SIZE], application[AID_SIZE];
    const uint8_t *field = command + 5;

    switch (command[1]) {
    case STORE_DATA:
        return commit_field(OBJECTS, 1, field, size);
    case SET_STATUS:
        return commit_field(ENTRIES, 1, field, size);
    case GET_STATUS:
        return list(loaded, application, reply);
    case INSTALL:
        if (command[2] == 0x04) {
            memcpy(loaded, field + 1, AID_SIZE);
            memcpy(application, field + 2 + AID_SIZE, AID_SIZE);
        }
        if (command[2] != 0x02)
            commit_field(ENTRIES, 1, field, size);
        break;
    case LOADING:
        load(field, size);
        commit_field(ENTRIES, 1, field, size);
        break;
    case DELETE:
        commit_field(ENTRIES, 2, field, size);
        break;
    }
    return no_receipt(reply);
}

static size_t answer(uint8_t *command, size_t size, uint8_t *reply)
{
    size_t plain;

    if (command[1] == 0x50)
        return initialize_update(&card, command + 5, reply);
    if (command[1] == 0x82)
        return external_authenticate(&card, command, reply);
    if (!open_field(&card, command, size, &plain))
        return put_status(reply, 0, REFUSED);
    return protect(&card, reply, act(command, plain, reply));
}

/* ---- the host */

/* Gives the card a command, and answers the status word of its reply, or 0 where there is none. */
static int exchange(uint8_t *command, size_t size, uint8_t *reply, size_t *got)
{
    if (talks)
        write_bytes('>', command, size);
    *got = answer(command, size, reply);
    if (talks)
        write_bytes('<', reply, *got);
    return *got < 2 ? 0 : reply[*got - 2] << 8 | reply[*got - 1];
}

/* Opens a session, and answers the last status word, or 0 where a cryptogram is wrong. */
static int open_session(const struct round *of)
{
    uint8_t command[MOST] = { 0x80, 0x50, 0, 0, 8 }, reply[MOST];
    size_t got;
    int status;

    memcpy(command + 5, of->challenge, 8);
    status = exchange(command, 13, reply, &got);
    if (status != ACCEPTED)
        return status;
    if (!answered(&host, of->level, of->challenge, reply))
        return 0;
    return exchange(command, authenticate(&host, command), reply, &got);
}

/* Sends a command in the session, and answers the status word, or 0 where the reply can't be opened. */
static int send(uint8_t ins, uint8_t p1, uint8_t p2, const uint8_t *field, size_t size)
{
    uint8_t command[MOST] = { 0x84, ins, p1, p2 }, reply[MOST];
    size_t got, plain;
    int status;

    memcpy(command + 5, field, size);
    status = exchange(command, wrap(&host, command, size), reply, &got);
    return status != ACCEPTED || unwrap(&host, reply, got, &plain) ? status : 0;
}

/* A field of this value behind its length. */
static uint8_t *put_field(uint8_t *to, const uint8_t *value, size_t size)
{
    to[0] = (uint8_t)size;
    memcpy(to + 1, value, size);
    return to + 1 + size;
}

static uint8_t *put_nothing(uint8_t *to)
{
    return put_field(to, to, 0);
}

static int store(const struct round *of)
{
    uint8_t field[10] = { 0x45, 8 };

    memcpy(field + 2, of->challenge, 8);
    return send(STORE_DATA, 0x90, 0, field, sizeof field);
}

/* INSTALL for load, and LOAD of the one block that the file has. */
static int load_file(const struct round *of)
{
    uint8_t field[MOST], *end = put_field(field, of->file, AID_SIZE);
    size_t header = of->count < 0x80 ? 2 : 3;
    int status;

    end = put_nothing(put_nothing(put_nothing(put_nothing(end))));
    status = send(INSTALL, 0x02, 0, field, (size_t)(end - field));
    if (status != ACCEPTED)
        return status;
    field[0] = 0xc4;
    field[1] = 0x81;
    field[header - 1] = of->count;
    memset(field + header, of->byte, of->count);
    return send(LOADING, 0x80, 0, field, header + of->count);
}

/* INSTALL for install of the application, whose Module has its AID, or for make selectable. */
static int install(const struct round *of, int selectable)
{
    static const uint8_t privileges = 0, parameters[] = { 0xc9, 0 };
    uint8_t field[MOST], *end = field;

    if (selectable) {
        end = put_field(put_nothing(put_nothing(end)), of->application, AID_SIZE);
        end = put_nothing(put_nothing(put_nothing(end)));
        return send(INSTALL, 0x08, 0, field, (size_t)(end - field));
    }
    end = put_field(end, of->file, AID_SIZE);
    end = put_field(end, of->application, AID_SIZE);
    end = put_field(end, of->application, AID_SIZE);
    end = put_field(end, &privileges, 1);
    end = put_nothing(put_field(end, parameters, sizeof parameters));
    return send(INSTALL, 0x04, 0, field, (size_t)(end - field));
}

static int list_entries(void)
{
    static const uint8_t all[] = { 0x4f, 0 };

    return send(GET_STATUS, 0x40, 0x02, all, sizeof all);
}

static int set_state(const struct round *of, uint8_t state)
{
    return send(SET_STATUS, 0x40, state, of->application, AID_SIZE);
}

static int delete(const struct round *of)
{
    uint8_t field[2 + AID_SIZE] = { 0x4f, AID_SIZE };

    memcpy(field + 2, of->file, AID_SIZE);
    return send(DELETE, 0, 0x80, field, sizeof field);
}

static void count(int status)
{
    if (status == ACCEPTED)
        accepted++;
    else
        others++;
}

static void play(const struct round *of)
{
    if (talks)
        puts("> reset");
    count(open_session(of));
    count(store(of));
    count(load_file(of));
    count(install(of, 0));
    count(install(of, 1));
    count(list_entries());
    count(set_state(of, 0x80));
    count(set_state(of, 0x00));
    count(delete(of));
}

int main(int argc, char **argv)
{
    const char *also = argc == 4 ? argv[3] : "";
    unsigned long long seed;
    unsigned long rounds, reads;

    if (argc < 3 || argc > 4)
        return 2;
    seed = strtoull(argv[1], NULL, 10);
    rounds = strtoul(argv[2], NULL, 10);
    talks = strcmp(also, "talk") == 0;
    sow(seed);
    make_card();
    reads = power_on();
    for (unsigned long i = 0; i < rounds; i++) {
        struct round now;

        draw_round(&now);
        play(&now);
    }
    printf("mill %llu %lu\nrounds %lu\n", seed, rounds, rounds);
    printf("9000 %lu\nother %lu\ncounter %06x\n", accepted, others, (unsigned)counter);
    if (strcmp(also, "calls") == 0)
        printf("pread64 %lu\npwrite64 %lu\nfdatasync %lu\n", reads, writes, syncs);
    return fflush(stdout) == 0 ? 0 : 6;
}
