/* libgcrypt's AES-OCB, a handle and a key for each call. The functions answer 0 where all is well. */
#include <gcrypt.h>
#include <stdint.h>

/* Once, before any other call. Features can be taken away only before the library looks for them, so a process
   has hardware or has none. */
int ocb_start(int hardware)
{
    if (!hardware && gcry_control(GCRYCTL_DISABLE_HWF, "all", NULL))
        return 1;
    if (!gcry_check_version(GCRYPT_VERSION))
        return 2;
    gcry_control(GCRYCTL_DISABLE_SECMEM, 0);
    gcry_control(GCRYCTL_INITIALIZATION_FINISHED, 0);
    return 0;
}

/* The features that the library uses, as it lists them. The string is never freed. */
const char *ocb_features(void)
{
    return gcry_get_config(0, "hwflist");
}

const char *ocb_version(void)
{
    return gcry_check_version(NULL);
}

struct call {
    const uint8_t *key, *nonce, *data;
    size_t key_len, nonce_len, data_len, tag_len;
};

static int algorithm(size_t key_len)
{
    return key_len == 16 ? GCRY_CIPHER_AES128 : key_len == 24 ? GCRY_CIPHER_AES192 : GCRY_CIPHER_AES256;
}

/* A handle that has taken the key, the nonce and the data, and waits for the whole text. */
static gcry_error_t begin(gcry_cipher_hd_t *handle, const struct call *c)
{
    int tag_len = (int)c->tag_len;
    gcry_error_t e = gcry_cipher_open(handle, algorithm(c->key_len), GCRY_CIPHER_MODE_OCB, 0);

    if (e)
        return e;
    if (!e) e = gcry_cipher_setkey(*handle, c->key, c->key_len);
    if (!e) e = gcry_cipher_ctl(*handle, GCRYCTL_SET_TAGLEN, &tag_len, sizeof tag_len);
    if (!e) e = gcry_cipher_setiv(*handle, c->nonce, c->nonce_len);
    if (!e) e = gcry_cipher_authenticate(*handle, c->data, c->data_len);
    if (!e) e = gcry_cipher_final(*handle);
    if (e)
        gcry_cipher_close(*handle);
    return e;
}

/* The ciphertext and then the tag, over out. */
int ocb_seal(const struct call *c, const uint8_t *text, size_t text_len, uint8_t *out)
{
    gcry_cipher_hd_t handle;
    gcry_error_t e = begin(&handle, c);

    if (e)
        return 1;
    e = gcry_cipher_encrypt(handle, out, text_len, text, text_len);
    if (!e) e = gcry_cipher_gettag(handle, out + text_len, c->tag_len);
    gcry_cipher_close(handle);
    return e != 0;
}

/* The message of text_len bytes over out, from the ciphertext and the tag after it. */
int ocb_open(const struct call *c, const uint8_t *text, size_t text_len, uint8_t *out)
{
    gcry_cipher_hd_t handle;
    gcry_error_t e = begin(&handle, c);

    if (e)
        return 1;
    e = gcry_cipher_decrypt(handle, out, text_len, text, text_len);
    if (!e) e = gcry_cipher_checktag(handle, text + text_len, c->tag_len);
    gcry_cipher_close(handle);
    return e != 0;
}

/* The block cipher alone, in place, for the check of the other ciphers. */
int gcrypt_ecb(const uint8_t *key, size_t key_len, int decrypt, uint8_t *text, size_t text_len)
{
    gcry_cipher_hd_t handle;
    gcry_error_t e = gcry_cipher_open(&handle, algorithm(key_len), GCRY_CIPHER_MODE_ECB, 0);

    if (e)
        return 1;
    e = gcry_cipher_setkey(handle, key, key_len);
    if (!e) e = (decrypt ? gcry_cipher_decrypt : gcry_cipher_encrypt)(handle, text, text_len, NULL, 0);
    gcry_cipher_close(handle);
    return e != 0;
}
