/* nettle's AES, a block at a time with no mode, a key for each call. With NETTLE_FAT_OVERRIDE=none in the
   environment it is the code with tables. */
#include <nettle/aes.h>
#include <nettle/nettle-meta.h>
#include <nettle/version.h>

union context {
    struct aes128_ctx of_128;
    struct aes192_ctx of_192;
    struct aes256_ctx of_256;
};

static const struct nettle_cipher *cipher(size_t key_len)
{
    return key_len == 16 ? &nettle_aes128 : key_len == 24 ? &nettle_aes192 : &nettle_aes256;
}

void nettle_ecb_encrypt(const uint8_t *key, size_t key_len, const uint8_t *text, size_t len, uint8_t *out)
{
    const struct nettle_cipher *c = cipher(key_len);
    union context context;

    c->set_encrypt_key(&context, key);
    c->encrypt(&context, len, out, text);
}

void nettle_ecb_decrypt(const uint8_t *key, size_t key_len, const uint8_t *text, size_t len, uint8_t *out)
{
    const struct nettle_cipher *c = cipher(key_len);
    union context context;

    c->set_decrypt_key(&context, key);
    c->decrypt(&context, len, out, text);
}

int nettle_major(void) { return nettle_version_major(); }
int nettle_minor(void) { return nettle_version_minor(); }
