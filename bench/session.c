/* The yardstick of session.sh, install.sh and load.sh, and the host of list.sh: the card side of SCP03 sessions at level 33 over
   the AES of OpenSSL, and the lines of their host.

     session keys SIZE                writes the lines of a session with the factory card that puts
                                      a key set of keys of SIZE bytes, 24 or 32, in the place of its
                                      own
     session lines SIZE COUNT GETS    writes the lines of COUNT sessions with a card whose keys have
                                      SIZE bytes, each of INITIALIZE UPDATE, EXTERNAL AUTHENTICATE
                                      and GETS times GET DATA, of the sequence counter and of the
                                      keys in turns
     session installs SIZE COUNT      writes the lines of a session with COUNT times INSTALL, 31 at
                                      most, of security domains; where COUNT is 0 it only begins
     session lists SIZE WHAT COUNT    writes the lines of a session that installs 31 security domains, puts
                                      two data objects, and sends COUNT times GET STATUS (`parts`), GET
                                      DATA of 12 bytes (`short`) or GET DATA of 121 bytes (`long`)
     session loads SIZE BYTES COUNT   writes the lines of a session that loads COUNT files, 4 at most, of BYTES bytes
                                      each, 256 to 32,768, in blocks of 239, by INSTALL with their SHA-256; where
                                      COUNT is 0 it only begins
     session answers SIZE             reads the lines of sessions, installs and loads and answers each by one call of
                                      write; at INITIALIZE UPDATE, at INSTALL of a security domain and at the last
                                      LOAD it commits a page to the file c.img first, and at LOAD it writes each
                                      load page there that is full, as gp does

   Its card is the factory card, but for the length of its keys, and its sessions are at level 33. */
#include "scp03.h"
#include <openssl/sha.h>

enum { LEVEL = 0x33 };

/* The session, of the card or of the host: a run is one of the two. */
static struct session session;

static size_t put_data(uint8_t tag, uint8_t *reply)
{
    if (tag == 0xe0) {
        reply[0] = 0xe0;
        reply[1] = 18;
        for (uint8_t i = 0; i < 3; i++) {
            const uint8_t key[] = { 0xc0, 4, i + 1, VERSION, AES, (uint8_t)key_size };

            memcpy(reply + 2 + sizeof key * i, key, sizeof key);
        }
        return 20;
    }
    reply[0] = 0xc1;
    reply[1] = 3;
    put_counter(reply + 2);
    return 5;
}

/* Commits the entry that the fields of an INSTALL ask for, into the next slot. */
static void commit_entry(const uint8_t *file)
{
    static unsigned char pages[8][SIZE];
    static unsigned slot = 1;
    const uint8_t *module = file + 1 + file[0], *name = module + 1 + module[0], *privileges = name + 1 + name[0];
    unsigned char *page = pages[slot / 4 % 8], *entry = page + 64 * (slot % 4);

    entry[0] = 1;
    memcpy(entry + 1, name, 1 + name[0]);
    memcpy(entry + 20, module, 1 + module[0]);
    entry[37] = 7;
    memcpy(entry + 38, privileges + 1, privileges[0]);
    commit(1 + (int)(slot / 4), 1, page);
    slot++;
}

/* The file that comes: its AID behind its length, the hash that was given, and what has come. */
static struct {
    uint8_t name[17], hash[32];
    size_t size, came;
    unsigned char page[SIZE];
    SHA256_CTX sum;
} coming;

enum { DIRECTORY = 10, LOAD = 96, LOAD_PAGES = 512, LAST = 0x80 };

/* The first load page of the next file. The others are behind it. */
static int free_page = LOAD;

static void begin_load(const uint8_t *file)
{
    const uint8_t *domain = file + 1 + file[0], *hash = domain + 1 + domain[0];

    memset(&coming, 0, sizeof coming);
    memcpy(coming.name, file, 1 + file[0]);
    memcpy(coming.hash, hash + 1, sizeof coming.hash);
    SHA256_Init(&coming.sum);
}

/* Takes bytes of the file, and writes each load page that is full. */
static void take_bytes(const uint8_t *bytes, size_t size)
{
    SHA256_Update(&coming.sum, bytes, size);
    while (size > 0) {
        size_t at = coming.came % SIZE, some = SIZE - at < size ? SIZE - at : size;

        memcpy(coming.page + at, bytes, some);
        coming.came += some;
        bytes += some;
        size -= some;
        if (coming.came % SIZE == 0)
            put(free_page + (int)(coming.came / SIZE) - 1, coming.page);
    }
}

/* Commits the directory of the file: its AID, its size, and the numbers of its load pages. */
static void commit_file(void)
{
    static int slot;
    unsigned char page[SIZE] = { 1 };
    int pages = (int)((coming.came + SIZE - 1) / SIZE);

    memcpy(page + 1, coming.name, 1 + coming.name[0]);
    page[19] = (unsigned char)(coming.came >> 8);
    page[20] = (unsigned char)coming.came;
    for (int i = 0; i < pages; i++) {
        int number = free_page - LOAD + i;

        page[64 + i] = (unsigned char)number;
        page[192 + i / 8] |= (unsigned char)(number >> 8 << (7 - i % 8));
    }
    commit(DIRECTORY + slot, 1, page);
    slot++;
    free_page += pages;
}

/* Whether all bytes have come that were announced, and have the hash that was given. */
static int is_whole(void)
{
    uint8_t sum[32];

    SHA256_Final(sum, &coming.sum);
    return coming.came == coming.size && memcmp(sum, coming.hash, sizeof sum) == 0;
}

/* The first block has the tag C4 and the length in two bytes before its bytes. */
static int take_block(int is_last, const uint8_t *block, size_t size)
{
    if (coming.size == 0) {
        if (size < 4 || block[0] != 0xc4 || block[1] != 0x82)
            return 0;
        coming.size = (size_t)block[2] << 8 | block[3];
        block += 4;
        size -= 4;
    }
    if (coming.came + size > coming.size || coming.size > SIZE * (size_t)(LOAD + LOAD_PAGES - free_page))
        return 0;
    take_bytes(block, size);
    if (!is_last)
        return 1;
    if (!is_whole())
        return 0;
    if (coming.came % SIZE != 0)
        put(free_page + (int)(coming.came / SIZE), coming.page);
    commit_file();
    return 1;
}

/* INSTALL or LOAD, with this data field. */
static int manage(const uint8_t *command, size_t size)
{
    if (command[1] == 0xe8)
        return take_block(command[2] == LAST, command + 5, size);
    if (command[2] == 2)
        begin_load(command + 5);
    else
        commit_entry(command + 5);
    return 1;
}

static size_t answer_in_session(uint8_t *command, size_t size, uint8_t *reply)
{
    size_t plain;

    if (!open_field(&session, command, size, &plain))
        return put_status(reply, 0, REFUSED);
    if (command[1] == 0xca)
        return protect(&session, reply, put_data(command[3], reply));
    if (!manage(command, plain))
        return put_status(reply, 0, REFUSED);
    reply[0] = 0;
    return protect(&session, reply, 1);
}

static size_t answer(uint8_t *command, size_t size, uint8_t *reply)
{
    if (size == 13 && command[0] == 0x80 && command[1] == 0x50)
        return initialize_update(&session, command + 5, reply);
    if (size == 21 && command[0] == 0x84 && command[1] == 0x82)
        return external_authenticate(&session, command, reply);
    if (size >= 13 && command[0] == 0x84 && (command[1] == 0xca || command[1] == 0xe6 || command[1] == 0xe8))
        return answer_in_session(command, size, reply);
    return put_status(reply, 0, REFUSED);
}

static int digit(char c)
{
    return c <= '9' ? c - '0' : (c | 0x20) - 'a' + 10;
}

static size_t spell(const uint8_t *bytes, size_t size, char *text)
{
    static const char digits[] = "0123456789abcdef";

    for (size_t i = 0; i < size; i++) {
        text[2 * i] = digits[bytes[i] >> 4];
        text[2 * i + 1] = digits[bytes[i] & 15];
    }
    text[2 * size] = '\n';
    return 2 * size + 1;
}

static int answer_line(const char *line, size_t length)
{
    uint8_t command[MOST], reply[MOST];
    char text[2 * MOST + 1];
    size_t size = length / 2;

    if (size > MOST)
        return 0;
    for (size_t i = 0; i < size; i++)
        command[i] = (uint8_t)(digit(line[2 * i]) << 4 | digit(line[2 * i + 1]));
    length = spell(reply, answer(command, size, reply), text);
    return write(STDOUT_FILENO, text, length) == (ssize_t)length;
}

static int answers(void)
{
    static char buffer[65536];
    size_t held = 0;
    ssize_t got;

    while ((got = read(STDIN_FILENO, buffer + held, sizeof buffer - held)) > 0) {
        const char *at = buffer;
        const char *end = buffer + held + got;
        const char *newline;

        while ((newline = memchr(at, '\n', (size_t)(end - at))) != NULL) {
            if (!answer_line(at, (size_t)(newline - at)))
                return 6;
            at = newline + 1;
        }
        /* The front of a line waits for the rest of it. */
        held = (size_t)(end - at);
        memmove(buffer, at, held);
    }
    return got < 0 ? 5 : 0;
}

static void put_line(const uint8_t *command, size_t size)
{
    char text[2 * MOST + 1];

    fwrite(text, 1, spell(command, size, text), stdout);
}

/* The host challenge of the first session is 00 to 07, and each one after it is higher by one. */
static void put_initialize_update(void)
{
    uint8_t line[13] = { 0x80, 0x50, 0, 0, 8 };
    uint64_t challenge = 0x0001020304050607 + counter;

    for (int i = 0; i < 8; i++)
        line[12 - i] = (uint8_t)(challenge >> 8 * i);
    begin(&session, line + 5, NULL);
    counter++;
    put_line(line, sizeof line);
}

static void put_external_authenticate(void)
{
    uint8_t line[MOST];

    session.level = LEVEL;
    put_line(line, authenticate(&session, line));
}

/* A command of this header and a data field of this size behind it, as it is sent. */
static void put_wrapped(uint8_t *line, size_t size)
{
    put_line(line, wrap(&session, line, size));
}

static void put_get_data(uint8_t tag)
{
    uint8_t line[MOST] = { 0x84, 0xca, 0, tag };

    put_wrapped(line, 0);
}

/* A key field of PUT KEY. The key goes under the Key-DEK of the session, and zeros fill its last block. */
static size_t put_key_field(size_t size, uint8_t *to)
{
    block vector = { 0 }, check;
    size_t sealed = (size + 15) / 16 * 16;
    AES_KEY dek, new;

    memset(to, 0, 3 + sealed);
    to[0] = AES;
    to[1] = (uint8_t)(sealed + 1);
    to[2] = (uint8_t)size;
    memcpy(to + 3, static_key, size);
    set_cipher(&dek, static_key);
    AES_cbc_encrypt(to + 3, to + 3, sealed, &dek, vector, AES_ENCRYPT);
    memset(check, 1, sizeof check);
    AES_set_encrypt_key(static_key, (int)(8 * size), &new);
    AES_encrypt(check, check, &new);
    to[3 + sealed] = 3;
    memcpy(to + 4 + sealed, check, 3);
    return 7 + sealed;
}

static void put_put_key(size_t size)
{
    uint8_t line[MOST] = { 0x84, 0xd8, VERSION, 0x81, 0, VERSION };
    size_t field = 1;

    for (int i = 0; i < 3; i++)
        field += put_key_field(size, line + 5 + field);
    put_wrapped(line, field);
}

static int keys(size_t size)
{
    put_initialize_update();
    put_external_authenticate();
    put_put_key(size);
    return fflush(stdout) == 0 ? 0 : 6;
}

static int lines(unsigned long count, unsigned long gets)
{
    for (unsigned long i = 0; i < count; i++) {
        put_initialize_update();
        put_external_authenticate();
        for (unsigned long j = 0; j < gets; j++)
            put_get_data(j % 2 == 0 ? 0xc1 : 0xe0);
    }
    return fflush(stdout) == 0 ? 0 : 6;
}

/* INSTALL [for install and make selectable] of a security domain, whose AID ends with this byte. */
static void put_install(uint8_t last)
{
    static const uint8_t fields[] = {
        7, 0xa0, 0, 0, 1, 0x51, 0x53, 0x50, 8, 0xa0, 0, 0, 1, 0x51, 0x53, 0x50, 0x41,
        5, 0xd2, 0, 0, 0, 0, 1, 0x80, 2, 0xc9, 0, 0,
    };
    uint8_t line[MOST] = { 0x84, 0xe6, 0x0c };

    memcpy(line + 5, fields, sizeof fields);
    line[5 + 22] = last;
    put_wrapped(line, sizeof fields);
}

/* The bytes of each file, and how many a block has: behind C4 and the length, which the first one has. */
static uint8_t load_file[4 + 32768] = { 0xc4, 0x82 };

enum { BLOCK = 239 };

static void make_file(size_t size)
{
    uint32_t state = 1;

    load_file[2] = (uint8_t)(size >> 8);
    load_file[3] = (uint8_t)size;
    for (size_t i = 0; i < size; i++) {
        state = state * 1664525 + 1013904223;
        load_file[4 + i] = (uint8_t)(state >> 24);
    }
}

/* INSTALL [for load] of a file whose AID ends with this byte, into the Issuer Security Domain, with the SHA-256 of its bytes. */
static void put_install_load(uint8_t last, size_t size)
{
    uint8_t line[MOST] = { 0x84, 0xe6, 2, 0, 0, 5, 0xd3, 0, 0, 0, last, 0, 32 };

    SHA256(load_file + 4, size, line + 13);
    put_wrapped(line, 8 + 32 + 2);
}

static void put_file(uint8_t last, size_t size)
{
    uint8_t number = 0;

    put_install_load(last, size);
    for (size_t sent = 0; sent < 4 + size; sent += BLOCK, number++) {
        size_t some = 4 + size - sent < BLOCK ? 4 + size - sent : BLOCK;
        uint8_t line[MOST] = { 0x84, 0xe8, sent + some == 4 + size ? LAST : 0, number };

        memcpy(line + 5, load_file + sent, some);
        put_wrapped(line, some);
    }
}

/* STORE DATA of a data object with this tag, whose value has so many bytes. */
static void put_store_data(uint8_t tag, uint8_t size)
{
    uint8_t line[MOST] = { 0x84, 0xe2, 0x90, 0, 0, tag, size };

    memset(line + 7, 0xaa, size);
    put_wrapped(line, 2 + (size_t)size);
}

/* The first part of a listing of all entries but the Issuer Security Domain. */
static void put_get_status(void)
{
    uint8_t line[MOST] = { 0x84, 0xf2, 0x40, 2, 0, 0x4f, 0 };

    put_wrapped(line, 2);
}

static int installs(unsigned long count)
{
    put_initialize_update();
    put_external_authenticate();
    for (unsigned long i = 1; i <= count; i++)
        put_install((uint8_t)i);
    return fflush(stdout) == 0 ? 0 : 6;
}

static int loads(size_t size, unsigned long count)
{
    make_file(size);
    put_initialize_update();
    put_external_authenticate();
    for (unsigned long i = 1; i <= count; i++)
        put_file((uint8_t)i, size);
    return fflush(stdout) == 0 ? 0 : 6;
}

static int lists(const char *what, unsigned long count)
{
    put_initialize_update();
    put_external_authenticate();
    for (unsigned long i = 1; i <= 31; i++)
        put_install((uint8_t)i);
    put_store_data(0x42, 10);
    put_store_data(0x66, 119);
    for (unsigned long i = 0; i < count; i++) {
        if (strcmp(what, "parts") == 0)
            put_get_status();
        else
            put_get_data(strcmp(what, "long") == 0 ? 0x66 : 0x42);
    }
    return fflush(stdout) == 0 ? 0 : 6;
}

static size_t read_size(const char *word)
{
    size_t size = strtoul(word, NULL, 10);

    return size == 16 || size == 24 || size == 32 ? size : 0;
}

int main(int argc, char **argv)
{
    size_t size = argc < 3 ? 0 : read_size(argv[2]);

    if (size == 0)
        return 2;
    if (argc == 3 && strcmp(argv[1], "keys") == 0)
        return keys(size);
    key_size = size;
    if (argc == 5 && strcmp(argv[1], "lines") == 0)
        return lines(strtoul(argv[3], NULL, 10), strtoul(argv[4], NULL, 10));
    if (argc == 4 && strcmp(argv[1], "installs") == 0)
        return installs(strtoul(argv[3], NULL, 10));
    if (argc == 5 && strcmp(argv[1], "lists") == 0)
        return lists(argv[3], strtoul(argv[4], NULL, 10));
    if (argc == 5 && strcmp(argv[1], "loads") == 0) {
        size_t bytes = strtoul(argv[3], NULL, 10);

        return bytes < 256 || bytes > 32768 ? 2 : loads(bytes, strtoul(argv[4], NULL, 10));
    }
    if (argc == 3 && strcmp(argv[1], "answers") == 0) {
        open_device("c.img");
        return answers();
    }
    return 2;
}
