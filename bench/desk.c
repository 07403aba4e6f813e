/* A desk for receipts over the CMAC of OpenSSL: what bench/verbs.sh compares `gp desk` with.
 *
 *   desk lines COUNT    writes a key line and so many receipts that fit, with `from 0000` where the numbers begin anew
 *   desk judge          reads such lines, and writes `ok NNNN` or `mac` for each receipt, by one write each
 *
 * It sets the key of its CMAC once for a key line. It looks for no line of another form, and for no digit that is none. */
#define OPENSSL_SUPPRESS_DEPRECATED
#include <openssl/cmac.h>
#include <openssl/evp.h>
#include <stdint.h>
#include <stdio.h>
#include <stdlib.h>
#include <string.h>
#include <unistd.h>

enum { FIRST = 5, SECOND = 5, SIGNED = 3 + 1 + 1 + FIRST + 1 + SECOND };

static const uint8_t key_bytes[16] = {
    0x40, 0x41, 0x42, 0x43, 0x44, 0x45, 0x46, 0x47, 0x48, 0x49, 0x4a, 0x4b, 0x4c, 0x4d, 0x4e, 0x4f,
};

/* The CMAC of what a key was set for. */
static CMAC_CTX *code_key;

static void set_code(const uint8_t *bytes, size_t size)
{
    const EVP_CIPHER *cipher = size == 16 ? EVP_aes_128_cbc() : size == 24 ? EVP_aes_192_cbc() : EVP_aes_256_cbc();

    if (!CMAC_Init(code_key, bytes, size, cipher, NULL))
        exit(3);
}

static void code(const uint8_t *message, size_t size, uint8_t *out)
{
    size_t made;

    if (!CMAC_Init(code_key, NULL, 0, NULL, NULL) || !CMAC_Update(code_key, message, size) || !CMAC_Final(code_key, out, &made))
        exit(3);
}

static const uint8_t first[FIRST] = { 0xd2, 0, 0, 0, 0xaa };
static const uint8_t second[SECOND] = { 0xd1, 0, 0, 0, 0x01 };

/* What a receipt of a card without unique data signs: its number, nothing, and two AIDs. */
static void put_signed(uint8_t *to, unsigned number, const uint8_t *aids, size_t one, size_t other)
{
    *to++ = 2;
    *to++ = (uint8_t)(number >> 8);
    *to++ = (uint8_t)number;
    *to++ = 0;
    *to++ = (uint8_t)one;
    memcpy(to, aids, one);
    to += one;
    *to++ = (uint8_t)other;
    memcpy(to, aids + one, other);
}

static void write_lines(long count)
{
    uint8_t aids[FIRST + SECOND], message[SIGNED], mac[16];

    set_code(key_bytes, sizeof key_bytes);
    memcpy(aids, first, FIRST);
    memcpy(aids + FIRST, second, SECOND);
    printf("key 404142434445464748494a4b4c4d4e4f\n");
    for (long i = 0; i < count; i++) {
        unsigned number = (unsigned)(i % 65535) + 1;

        if (number == 1)
            printf("from 0000\n");
        put_signed(message, number, aids, FIRST, SECOND);
        code(message, SIGNED, mac);
        printf("receipt 1510");
        for (int b = 0; b < 16; b++)
            printf("%02x", mac[b]);
        printf("02%04x00 d2000000aa d100000001\n", number);
    }
}

static int digit(int c) { return c <= '9' ? c - '0' : (c | 0x20) - 'a' + 10; }

/* Decodes the digits up to a space or the end of the line, and answers how many bytes they are. */
static size_t decode(const char **at, uint8_t *to)
{
    size_t size = 0;

    for (; (*at)[0] > ' '; *at += 2)
        to[size++] = (uint8_t)(digit((*at)[0]) << 4 | digit((*at)[1]));
    if (**at == ' ')
        ++*at;
    return size;
}

static void judge(const char *line, unsigned *last)
{
    uint8_t reply[64], aids[64], message[128], mac[16];
    size_t one, other;
    char text[16];
    int fits;

    decode(&line, reply);
    one = decode(&line, aids);
    other = decode(&line, aids + one);
    put_signed(message, *last + 1, aids, one, other);
    code(message, 6 + one + other, mac);
    fits = memcmp(mac, reply + 2, 16) == 0 && (unsigned)(reply[19] << 8 | reply[20]) == *last + 1;
    if (fits)
        ++*last;
    if (write(1, text, (size_t)sprintf(text, fits ? "ok %04x\n" : "mac\n", *last)) < 0)
        exit(6);
}

static void judge_lines(void)
{
    static char line[1024];
    uint8_t bytes[32];
    unsigned last = 0;

    while (fgets(line, sizeof line, stdin)) {
        const char *at = line;

        if (line[0] == 'k') {
            at += 4;
            set_code(bytes, decode(&at, bytes));
        } else if (line[0] == 'f') {
            last = (unsigned)strtoul(line + 5, NULL, 16);
        } else if (line[0] == 'r') {
            judge(line + 8, &last);
        }
    }
}

int main(int count, char **words)
{
    code_key = CMAC_CTX_new();
    if (code_key == NULL)
        return 3;
    if (count == 3 && strcmp(words[1], "lines") == 0)
        write_lines(atol(words[2]));
    else if (count == 2 && strcmp(words[1], "judge") == 0)
        judge_lines();
    else
        return 1;
    return 0;
}
