/* Seals one record of a rowing machine with set 3, opens it again, and shows that a changed one does not open. */
#include <stdio.h>

#include "cba.h"

enum { SET = 3, KEY = 16, NONCE = 12, TAG = 8 };

int main(void)
{
    /* A real key is secret and random, and no nonce is used twice under it. */
    const uint8_t key[KEY] = {0x00, 0x01, 0x02, 0x03, 0x04, 0x05, 0x06, 0x07,
                              0x08, 0x09, 0x0a, 0x0b, 0x0c, 0x0d, 0x0e, 0x0f};
    const uint8_t nonce[NONCE] = {0, 0, 0, 0, 0, 0, 0, 0, 0, 0, 0, 1};
    const uint8_t data[] = {'r', 'o', 'w', 'e', 'r', ' ', '7'};
    const uint8_t text[] = "2000 m in 7:42.5, 28 strokes a minute";
    const size_t text_len = sizeof text - 1; /* without the final 0 */
    uint8_t sealed[sizeof text - 1 + TAG];
    uint8_t opened[sizeof text - 1];

    uint32_t answer = cba_seal(SET, key, sizeof key, nonce, sizeof nonce,
                               data, sizeof data, text, text_len, sealed, sizeof sealed);
    if (answer != CBA_OK) {
        fprintf(stderr, "not sealed: answer %u\n", (unsigned)answer);
        return 1;
    }
    printf("sealed: ");
    for (size_t i = 0; i < sizeof sealed; i++)
        printf("%02x", sealed[i]);
    putchar('\n');

    /* The other side has the same key and data, and is sent the nonce with the sealed record. */
    answer = cba_open(SET, key, sizeof key, nonce, sizeof nonce,
                      data, sizeof data, sealed, sizeof sealed, opened, sizeof opened);
    if (answer != CBA_OK) {
        fprintf(stderr, "not opened: answer %u\n", (unsigned)answer);
        return 1;
    }
    printf("opened: %.*s\n", (int)sizeof opened, (const char *)opened);

    sealed[5] ^= 1; /* on the way somebody changed a bit */
    answer = cba_open(SET, key, sizeof key, nonce, sizeof nonce,
                      data, sizeof data, sealed, sizeof sealed, opened, sizeof opened);
    if (answer != CBA_FALSE) {
        fprintf(stderr, "not refused as false: answer %u\n", (unsigned)answer);
        return 1;
    }
    printf("one bit changed: answer %u\n", (unsigned)answer);
    return 0;
}
