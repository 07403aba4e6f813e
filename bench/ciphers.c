/* The yardsticks of ciphers.sh: the calls of crates/cipher_bench, made of nettle or of OpenSSL.
   The words are nettle or openssl, a call, the bytes of a message, and a count. The checksum is
   that of cipher_bench. Of OpenSSL the block, the key and CBC are those of aes.h, which take
   neither the AES instructions nor vector permutation; CMAC takes what OPENSSL_ia32cap leaves. */
#define OPENSSL_SUPPRESS_DEPRECATED
#include <nettle/aes.h>
#include <nettle/cbc.h>
#include <nettle/cmac.h>
#include <openssl/aes.h>
#include <openssl/cmac.h>
#include <openssl/evp.h>
#include <stdint.h>
#include <stdio.h>
#include <stdlib.h>
#include <string.h>

enum { MOST = 16384 };

typedef uint8_t block[16];

static const block fixed_key = {
    0x2b, 0x7e, 0x15, 0x16, 0x28, 0xae, 0xd2, 0xa6, 0xab, 0xf7, 0x15, 0x88, 0x09, 0xcf, 0x4f, 0x3c,
};

/* What the two libraries give, under the same names. */
struct library {
    void (*set_seal)(void *key, const uint8_t *bytes);
    void (*set_unseal)(void *key, const uint8_t *bytes);
    void (*seal)(const void *key, uint8_t *block);
    void (*unseal)(const void *key, uint8_t *block);
    void (*set_code)(void *key, const uint8_t *bytes);
    void (*code)(void *key, const uint8_t *message, size_t size, uint8_t *out, size_t len);
    void (*cbc_seal)(const void *key, uint8_t *chain, uint8_t *buf, size_t size);
    void (*cbc_unseal)(const void *key, uint8_t *chain, uint8_t *buf, size_t size);
};

union block_key {
    struct aes128_ctx nettle;
    AES_KEY openssl;
};

union code_key {
    struct cmac_aes128_ctx nettle;
    CMAC_CTX *openssl;
};

static void n_set_seal(void *key, const uint8_t *bytes) { aes128_set_encrypt_key(key, bytes); }
static void n_set_unseal(void *key, const uint8_t *bytes) { aes128_set_decrypt_key(key, bytes); }
static void n_seal(const void *key, uint8_t *b) { aes128_encrypt(key, 16, b, b); }
static void n_unseal(const void *key, uint8_t *b) { aes128_decrypt(key, 16, b, b); }
static void n_set_code(void *key, const uint8_t *bytes) { cmac_aes128_set_key(key, bytes); }

static void n_code(void *key, const uint8_t *message, size_t size, uint8_t *out, size_t len)
{
    cmac_aes128_update(key, size, message);
    cmac_aes128_digest(key, len, out);
}

static void n_cbc_seal(const void *key, uint8_t *chain, uint8_t *buf, size_t size)
{
    cbc_encrypt(key, (nettle_cipher_func *)aes128_encrypt, 16, chain, size, buf, buf);
}

static void n_cbc_unseal(const void *key, uint8_t *chain, uint8_t *buf, size_t size)
{
    cbc_decrypt(key, (nettle_cipher_func *)aes128_decrypt, 16, chain, size, buf, buf);
}

static const struct library nettle = {
    n_set_seal, n_set_unseal, n_seal, n_unseal, n_set_code, n_code, n_cbc_seal, n_cbc_unseal,
};

static void o_set_seal(void *key, const uint8_t *bytes) { AES_set_encrypt_key(bytes, 128, key); }
static void o_set_unseal(void *key, const uint8_t *bytes) { AES_set_decrypt_key(bytes, 128, key); }
static void o_seal(const void *key, uint8_t *b) { AES_encrypt(b, b, key); }
static void o_unseal(const void *key, uint8_t *b) { AES_decrypt(b, b, key); }

static void o_set_code(void *key, const uint8_t *bytes)
{
    CMAC_CTX **context = key;

    if (*context == NULL)
        *context = CMAC_CTX_new();
    CMAC_Init(*context, bytes, 16, EVP_aes_128_cbc(), NULL);
}

static void o_code(void *key, const uint8_t *message, size_t size, uint8_t *out, size_t len)
{
    CMAC_CTX **context = key;
    block whole;
    size_t got;

    CMAC_Init(*context, NULL, 0, NULL, NULL);
    CMAC_Update(*context, message, size);
    CMAC_Final(*context, whole, &got);
    memcpy(out, whole, len);
}

static void o_cbc_seal(const void *key, uint8_t *chain, uint8_t *buf, size_t size)
{
    AES_cbc_encrypt(buf, buf, size, key, chain, AES_ENCRYPT);
}

static void o_cbc_unseal(const void *key, uint8_t *chain, uint8_t *buf, size_t size)
{
    AES_cbc_encrypt(buf, buf, size, key, chain, AES_DECRYPT);
}

static const struct library openssl = {
    o_set_seal, o_set_unseal, o_seal, o_unseal, o_set_code, o_code, o_cbc_seal, o_cbc_unseal,
};

static void derive(const struct library *of, void *key, uint8_t constant, const uint8_t *context, uint8_t *out, size_t len)
{
    uint8_t input[32] = { 0 };

    input[11] = constant;
    input[13] = (uint8_t)(8 * len >> 8);
    input[14] = (uint8_t)(8 * len);
    input[15] = 1;
    memcpy(input + 16, context, 16);
    of->code(key, input, sizeof input, out, len);
}

/* As crates/cipher_bench/src/session.rt. Where `opens` is set, the key ENC of the session has
   its inverse key schedule too: of the five it alone is to open blocks. */
static void session(const struct library *of, int opens, uint8_t *challenges)
{
    static union code_key enc, mac, session_mac, session_rmac;
    static union block_key session_enc, session_enc_inverse;
    block bytes, sum;

    of->set_code(&enc, fixed_key);
    of->set_code(&mac, fixed_key);
    derive(of, &enc, 4, challenges, bytes, 16);
    of->set_seal(&session_enc, bytes);
    if (opens)
        of->set_unseal(&session_enc_inverse, bytes);
    derive(of, &mac, 6, challenges, bytes, 16);
    of->set_code(&session_mac, bytes);
    derive(of, &mac, 7, challenges, bytes, 16);
    of->set_code(&session_rmac, bytes);
    derive(of, &session_mac, 0, challenges, sum, 8);
    derive(of, &session_mac, 1, challenges, sum + 8, 8);
    of->seal(&session_enc, sum);
    of->code(&session_rmac, sum, 16, challenges, 16);
}

static int run(const struct library *of, const char *call, size_t size, unsigned long count, uint8_t *sum)
{
    static uint8_t message[MOST];
    static union block_key key, inverse;
    static union code_key code;
    block chain;

    memset(message, 0x5a, sizeof message);
    memset(sum, 0, 16);
#define IS(name) (strcmp(call, name) == 0)
    if (IS("seal")) {
        for (of->set_seal(&key, fixed_key); count > 0; count--)
            of->seal(&key, sum);
    } else if (IS("unseal")) {
        for (of->set_unseal(&key, fixed_key); count > 0; count--)
            of->unseal(&key, sum);
    } else if (IS("key")) {
        for (; count > 0; count--) {
            of->set_seal(&key, sum);
            of->seal(&key, sum);
        }
    } else if (IS("both")) {
        for (; count > 0; count--) {
            of->set_unseal(&inverse, sum);
            of->set_seal(&key, sum);
            of->seal(&key, sum);
        }
    } else if (IS("cmac")) {
        for (of->set_code(&code, fixed_key); count > 0; count--) {
            of->code(&code, message, size, sum, 16);
            memcpy(message, sum, 16);
        }
    } else if (IS("new-cmac")) {
        for (; count > 0; count--) {
            of->set_code(&code, sum);
            of->code(&code, message, size, sum, 16);
        }
    } else if (IS("derive")) {
        for (of->set_code(&code, fixed_key); count > 0; count--)
            derive(of, &code, 4, sum, sum, 16);
    } else if (IS("cbc-seal")) {
        for (of->set_seal(&key, fixed_key); count > 0; count--) {
            memcpy(chain, sum, 16);
            of->cbc_seal(&key, chain, message, size);
            memcpy(sum, message + size - 16, 16);
        }
    } else if (IS("cbc-unseal")) {
        for (of->set_unseal(&key, fixed_key); count > 0; count--) {
            memcpy(chain, sum, 16);
            of->cbc_unseal(&key, chain, message, size);
            memcpy(sum, message, 16);
        }
    } else if (IS("session") || IS("both-session")) {
        for (; count > 0; count--)
            session(of, IS("both-session"), sum);
    } else {
        return 0;
    }
    return 1;
}

int main(int argc, char **argv)
{
    block sum;
    size_t size;

    if (argc != 5 || (size = strtoul(argv[3], NULL, 10)) < 16 || size > MOST)
        return 2;
    if (!run(strcmp(argv[1], "nettle") == 0 ? &nettle : &openssl, argv[2], size, strtoul(argv[4], NULL, 10), sum))
        return 2;
    for (int i = 0; i < 16; i++)
        printf("%02x", sum[i]);
    putchar('\n');
    return 0;
}
