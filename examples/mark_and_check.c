/* Marks one service log, which stays readable, checks it, and shows that a changed one is refused. */
#include <stdio.h>

#include "cba.h"

enum { KEY = 16, MARK = 8 };

int main(void)
{
    /* A real key is secret and random, and nothing is sealed under it. */
    const uint8_t key[KEY] = {0x10, 0x11, 0x12, 0x13, 0x14, 0x15, 0x16, 0x17,
                              0x18, 0x19, 0x1a, 0x1b, 0x1c, 0x1d, 0x1e, 0x1f};
    uint8_t log[] = "rower 7: chain oiled at 214 h, belt tightened";
    const size_t log_len = sizeof log - 1; /* without the final 0 */
    uint8_t mark[MARK];

    uint32_t answer = cmac_make(key, sizeof key, log, log_len, MARK, mark, sizeof mark);
    if (answer != CBA_OK) {
        fprintf(stderr, "not marked: answer %u\n", (unsigned)answer);
        return 1;
    }
    printf("log: %s\nmark: ", (const char *)log);
    for (size_t i = 0; i < sizeof mark; i++)
        printf("%02x", mark[i]);
    putchar('\n');

    /* The other side has the same key, knows that a mark has 8 bytes, and is sent the log with its mark. */
    answer = cmac_check(key, sizeof key, log, log_len, mark, sizeof mark);
    if (answer != CBA_OK) {
        fprintf(stderr, "not the log's mark: answer %u\n", (unsigned)answer);
        return 1;
    }
    printf("as it was: answer %u\n", (unsigned)answer);

    log[24] = '9'; /* on the way somebody changed 214 h to 914 h */
    answer = cmac_check(key, sizeof key, log, log_len, mark, sizeof mark);
    if (answer != CBA_FALSE) {
        fprintf(stderr, "not refused as false: answer %u\n", (unsigned)answer);
        return 1;
    }
    printf("one digit changed: answer %u\n", (unsigned)answer);
    return 0;
}
