/* Both ends of SCP03 over the AES of OpenSSL, for session.c and mill.c. Each session makes the key schedules and the CMAC
   subkeys of its static keys and of its session keys once, as gp does, but no schedules for deciphering, but for the one of
   S-ENC where an end has something to decipher, and none of Key-DEK. CMAC is written out over AES_encrypt. This and
   AES_cbc_encrypt of a few blocks work by a table of 256 bytes in OpenSSL 3.0 for x86-64, and use no AES instructions whatever
   the processor has. */
#define OPENSSL_SUPPRESS_DEPRECATED
#include <openssl/aes.h>
#include <stdint.h>
#include "journal.h"

enum { VERSION = 0x30, AES = 0x88, MOST = 261, ACCEPTED = 0x9000, REFUSED = 0x6982 };

/* The parts of a security level, but for the C-MAC, which each has. */
enum { C_DECRYPTION = 0x02, R_MAC = 0x10, R_ENCRYPTION = 0x20 };

/* The derivation constants. */
enum { CARD_CRYPTOGRAM, HOST_CRYPTOGRAM, CARD_CHALLENGE, S_ENC = 4, S_MAC = 6, S_RMAC = 7 };

typedef uint8_t block[16];

struct code_key {
    AES_KEY key;
    block whole, padded;
};

/* What an end knows of its session. The challenges are the host's and then the card's. */
struct session {
    uint8_t level;
    block challenges;
    uint8_t enc_bytes[32];
    AES_KEY enc, opening;
    int has_opening;
    struct code_key mac, rmac;
    block chain;
    uint64_t number;
};

static const uint8_t aid[] = { 0xa0, 0, 0, 1, 0x51, 0, 0, 0 };

/* How many bytes a key has: 16, 24 or 32. Key-ENC, Key-MAC and Key-DEK are alike, the front of this. */
static size_t key_size = 16;
static const uint8_t static_key[32] = {
    0x40, 0x41, 0x42, 0x43, 0x44, 0x45, 0x46, 0x47, 0x48, 0x49, 0x4a, 0x4b, 0x4c, 0x4d, 0x4e, 0x4f,
    0x50, 0x51, 0x52, 0x53, 0x54, 0x55, 0x56, 0x57, 0x58, 0x59, 0x5a, 0x5b, 0x5c, 0x5d, 0x5e, 0x5f,
};

/* The sequence counter of the next session, which stands in this page of the card's. */
static uint32_t counter;

enum { COUNTER_PAGE = 25 };

static void exclusive_or(block to, const block other)
{
    uint64_t some[2], others[2];

    memcpy(some, to, 16);
    memcpy(others, other, 16);
    some[0] ^= others[0];
    some[1] ^= others[1];
    memcpy(to, some, 16);
}

static void doubled(const block from, block to)
{
    uint8_t top = from[0] >> 7;

    for (int i = 0; i < 15; i++)
        to[i] = (uint8_t)(from[i] << 1 | from[i + 1] >> 7);
    to[15] = (uint8_t)(from[15] << 1 ^ (top ? 0x87 : 0));
}

static void set_cipher(AES_KEY *of, const uint8_t *bytes)
{
    AES_set_encrypt_key(bytes, (int)(8 * key_size), of);
}

static void set_code(struct code_key *of, const uint8_t *bytes)
{
    block zero = { 0 };

    set_cipher(&of->key, bytes);
    AES_encrypt(zero, zero, &of->key);
    doubled(zero, of->whole);
    doubled(of->whole, of->padded);
}

/* CMAC. The message has one byte at least. */
static void code(const struct code_key *of, const uint8_t *message, size_t size, block out)
{
    block last = { 0 };

    memset(out, 0, 16);
    for (; size > 16; message += 16, size -= 16) {
        exclusive_or(out, message);
        AES_encrypt(out, out, &of->key);
    }
    memcpy(last, message, size);
    if (size < 16)
        last[size] = 0x80;
    exclusive_or(last, size < 16 ? of->padded : of->whole);
    exclusive_or(out, last);
    AES_encrypt(out, out, &of->key);
}

/* The context has 16 bytes at most. Whole blocks are derived, of which the caller takes the front. */
static void derive(const struct code_key *of, uint8_t constant, size_t bits, const uint8_t *context, size_t size, uint8_t *out)
{
    uint8_t input[32] = { 0 };

    input[11] = constant;
    input[13] = (uint8_t)(bits >> 8);
    input[14] = (uint8_t)bits;
    memcpy(input + 16, context, size);
    for (input[15] = 1; 128 * (input[15] - 1u) < bits; input[15]++, out += 16)
        code(of, input, 16 + size, out);
}

static void put_counter(uint8_t *to)
{
    to[0] = (uint8_t)(counter >> 16);
    to[1] = (uint8_t)(counter >> 8);
    to[2] = (uint8_t)counter;
}

static void make_card_challenge(const struct code_key *key, uint8_t *challenge)
{
    uint8_t context[3 + sizeof aid];
    block out;

    put_counter(context);
    memcpy(context + 3, aid, sizeof aid);
    derive(key, CARD_CHALLENGE, 64, context, sizeof context, out);
    memcpy(challenge, out, 8);
}

static void make_session_keys(struct session *of, const struct code_key *of_enc, const struct code_key *of_mac)
{
    uint8_t key[32];

    derive(of_enc, S_ENC, 8 * key_size, of->challenges, 16, of->enc_bytes);
    set_cipher(&of->enc, of->enc_bytes);
    of->has_opening = 0;
    derive(of_mac, S_MAC, 8 * key_size, of->challenges, 16, key);
    set_code(&of->mac, key);
    derive(of_mac, S_RMAC, 8 * key_size, of->challenges, 16, key);
    set_code(&of->rmac, key);
}

/* Where the challenge of the card is not given it is made. */
static void begin(struct session *of, const uint8_t *host_challenge, const uint8_t *card_challenge)
{
    struct code_key of_enc, of_mac;

    set_code(&of_enc, static_key);
    set_code(&of_mac, static_key);
    memcpy(of->challenges, host_challenge, 8);
    if (card_challenge == NULL)
        make_card_challenge(&of_enc, of->challenges + 8);
    else
        memcpy(of->challenges + 8, card_challenge, 8);
    make_session_keys(of, &of_enc, &of_mac);
    memset(of->chain, 0, 16);
    of->number = 0;
}

static void put_cryptogram(const struct session *of, uint8_t constant, uint8_t *to)
{
    block out;

    derive(&of->mac, constant, 64, of->challenges, 16, out);
    memcpy(to, out, 8);
}

/* The chaining value after a command with this header and data field. */
static void chain_on(struct session *of, const uint8_t *header, const uint8_t *field, size_t size)
{
    uint8_t message[16 + MOST];

    memcpy(message, of->chain, 16);
    memcpy(message + 16, header, 4);
    message[20] = (uint8_t)(size + 8);
    memcpy(message + 21, field, size);
    code(&of->mac, message, 21 + size, of->chain);
}

/* The first vector of the data of a command, with the mark 00, or of a reply, with 80. */
static void make_vector(const struct session *of, uint8_t mark, block vector)
{
    memset(vector, 0, 16);
    vector[0] = mark;
    for (int i = 0; i < 8; i++)
        vector[15 - i] = (uint8_t)(of->number >> 8 * i);
    AES_encrypt(vector, vector, &of->enc);
}

/* Pads and enciphers data, which are not empty. */
static size_t seal(const struct session *of, uint8_t mark, uint8_t *data, size_t size)
{
    block vector;
    size_t padded = (size / 16 + 1) * 16;

    memset(data + size, 0, padded - size);
    data[size] = 0x80;
    make_vector(of, mark, vector);
    AES_cbc_encrypt(data, data, padded, &of->enc, vector, AES_ENCRYPT);
    return padded;
}

/* Deciphers data, and takes off what pads them. */
static size_t unseal(struct session *of, uint8_t mark, uint8_t *data, size_t size)
{
    block vector;

    if (!of->has_opening)
        AES_set_decrypt_key(of->enc_bytes, (int)(8 * key_size), &of->opening);
    of->has_opening = 1;
    make_vector(of, mark, vector);
    AES_cbc_encrypt(data, data, size, &of->opening, vector, AES_DECRYPT);
    while (size > 1 && data[size - 1] == 0)
        size--;
    return size - 1;
}

static size_t put_status(uint8_t *reply, size_t size, uint16_t status)
{
    reply[size] = (uint8_t)(status >> 8);
    reply[size + 1] = (uint8_t)status;
    return size + 2;
}

/* The R-MAC of a reply that is accepted, of this data field. */
static void put_reply_code(const struct session *of, const uint8_t *field, size_t size, block sum)
{
    uint8_t message[16 + MOST];

    memcpy(message, of->chain, 16);
    memcpy(message + 16, field, size);
    code(&of->rmac, message, put_status(message, 16 + size, ACCEPTED), sum);
}

/* The host: the EXTERNAL AUTHENTICATE of the session. */
static size_t authenticate(struct session *of, uint8_t *command)
{
    const uint8_t header[] = { 0x84, 0x82, of->level, 0, 16 };

    memcpy(command, header, sizeof header);
    put_cryptogram(of, HOST_CRYPTOGRAM, command + 5);
    chain_on(of, command, command + 5, 8);
    memcpy(command + 13, of->chain, 8);
    return 21;
}

/* The host: a command of this header and of a data field of this size behind it becomes the one that is sent. */
static size_t wrap(struct session *of, uint8_t *command, size_t size)
{
    of->number++;
    if (size > 0 && of->level & C_DECRYPTION)
        size = seal(of, 0, command + 5, size);
    command[4] = (uint8_t)(size + 8);
    chain_on(of, command, command + 5, size);
    memcpy(command + 5 + size, of->chain, 8);
    return 13 + size;
}

/* The card: answers INITIALIZE UPDATE, and commits the counter. */
static size_t initialize_update(struct session *of, const uint8_t *host_challenge, uint8_t *reply)
{
    unsigned char page[SIZE] = { 0 };

    begin(of, host_challenge, NULL);
    memset(reply, 0, 10);
    memcpy(reply + 10, "\x30\x03\x70", 3);
    memcpy(reply + 13, of->challenges + 8, 8);
    put_cryptogram(of, CARD_CRYPTOGRAM, reply + 21);
    put_counter(reply + 29);
    counter++;
    put_counter(page + 37);
    commit(COUNTER_PAGE, 1, page);
    return put_status(reply, 32, ACCEPTED);
}

/* The card: answers EXTERNAL AUTHENTICATE. */
static size_t external_authenticate(struct session *of, const uint8_t *command, uint8_t *reply)
{
    uint8_t cryptogram[8];

    of->level = command[2];
    put_cryptogram(of, HOST_CRYPTOGRAM, cryptogram);
    chain_on(of, command, cryptogram, 8);
    if (memcmp(command + 5, cryptogram, 8) != 0 || memcmp(command + 13, of->chain, 8) != 0)
        return put_status(reply, 0, REFUSED);
    return put_status(reply, 0, ACCEPTED);
}

/* The card: opens the data field of a command, where its C-MAC is right. */
static int open_field(struct session *of, uint8_t *command, size_t size, size_t *plain)
{
    uint8_t *field = command + 5;
    size_t sent = size - 13;

    chain_on(of, command, field, sent);
    if (memcmp(field + sent, of->chain, 8) != 0)
        return 0;
    of->number++;
    *plain = sent > 0 && of->level & C_DECRYPTION ? unseal(of, 0, field, sent) : sent;
    return 1;
}

/* The card: makes the whole reply of a data field, for a command that is accepted. */
static size_t protect(const struct session *of, uint8_t *reply, size_t size)
{
    block sum;

    if (!(of->level & R_MAC))
        return put_status(reply, size, ACCEPTED);
    if (size > 0 && of->level & R_ENCRYPTION)
        size = seal(of, 0x80, reply, size);
    put_reply_code(of, reply, size, sum);
    memcpy(reply + size, sum, 8);
    return put_status(reply, size + 8, ACCEPTED);
}

/* The host: begins a session with the reply to INITIALIZE UPDATE, and says whether its cryptogram is right. */
static int answered(struct session *of, uint8_t level, const uint8_t *host_challenge, const uint8_t *reply)
{
    uint8_t cryptogram[8];

    begin(of, host_challenge, reply + 13);
    of->level = level;
    put_cryptogram(of, CARD_CRYPTOGRAM, cryptogram);
    return memcmp(reply + 21, cryptogram, 8) == 0;
}

/* The host: opens the data field of a reply of 9000, where its R-MAC is right. */
static int unwrap(struct session *of, uint8_t *reply, size_t size, size_t *plain)
{
    block sum;

    size -= 2;
    if (of->level & R_MAC) {
        if (size < 8)
            return 0;
        size -= 8;
        put_reply_code(of, reply, size, sum);
        if (memcmp(reply + size, sum, 8) != 0)
            return 0;
    }
    *plain = size > 0 && of->level & R_ENCRYPTION ? unseal(of, 0x80, reply, size) : size;
    return 1;
}
