/* AES-CMAC of libgcrypt and of nettle, a key for each call: 16 bytes over out. The functions answer 0 where all is
   well. */
#include <gcrypt.h>
#include <nettle/cmac.h>
#include <stdint.h>

enum { CODE = 16 };

/* With a handle for each call, as in ocb.c, which also starts the library. */
int cmac_by_gcrypt(const uint8_t *key, size_t key_len, const uint8_t *log, size_t log_len, uint8_t *out)
{
    gcry_mac_hd_t handle;
    size_t out_len = CODE;
    gcry_error_t e = gcry_mac_open(&handle, GCRY_MAC_CMAC_AES, 0, NULL);

    if (e)
        return 1;
    e = gcry_mac_setkey(handle, key, key_len);
    if (!e) e = gcry_mac_write(handle, log, log_len);
    if (!e) e = gcry_mac_read(handle, out, &out_len);
    gcry_mac_close(handle);
    return e || out_len != CODE;
}

static void nettle_128(const uint8_t *key, const uint8_t *log, size_t log_len, uint8_t *out)
{
    struct cmac_aes128_ctx context;

    cmac_aes128_set_key(&context, key);
    cmac_aes128_update(&context, log_len, log);
    cmac_aes128_digest(&context, CODE, out);
}

static void nettle_256(const uint8_t *key, const uint8_t *log, size_t log_len, uint8_t *out)
{
    struct cmac_aes256_ctx context;

    cmac_aes256_set_key(&context, key);
    cmac_aes256_update(&context, log_len, log);
    cmac_aes256_digest(&context, CODE, out);
}

/* nettle has no such functions for AES-192. */
int cmac_by_nettle(const uint8_t *key, size_t key_len, const uint8_t *log, size_t log_len, uint8_t *out)
{
    if (key_len != 16 && key_len != 32)
        return 1;
    (key_len == 16 ? nettle_128 : nettle_256)(key, log, log_len, out);
    return 0;
}
