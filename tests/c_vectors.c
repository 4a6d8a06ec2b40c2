/* Through the C interface, what the reference writes:

       c_vectors seal    for lines SET DATA_LENGTH TEXT_LENGTH on standard input, as `reference seal FILE`
       c_vectors open    for lines SET DATA_LENGTH TEXT_LENGTH CHANGE, as `reference open FILE`

   CHANGE is made to the sealing before it is opened: = is none, - drops its last byte, + puts a byte 0
   after it, and a number flips that bit. */
#include <inttypes.h>
#include <stdio.h>
#include <stdlib.h>
#include <string.h>

#include "cba.h"

static const size_t key_bytes[] = {16, 16, 16, 16, 16, 16, 16, 16, 24, 32};
static const size_t tag_bytes[] = {4, 4, 8, 8, 8, 12, 12, 12, 8, 12};

enum { BEFORE = 0xa5 }; /* every byte of an output, before the call */

static void stop(const char *why) {
    fprintf(stderr, "%s\n", why);
    exit(1);
}

/* No longer than asked for, so that a memory checker sees a step past the end. */
static uint8_t *room(size_t length) {
    uint8_t *bytes = malloc(length);
    if (bytes == NULL && length > 0)
        stop("no memory");
    if (length > 0)
        memset(bytes, BEFORE, length);
    return bytes;
}

/* The inputs by the rule of the reference. */
static uint8_t *rule(size_t s, size_t length) {
    uint8_t *bytes = room(length);
    for (size_t i = 0; i < length; i++)
        bytes[i] = (uint8_t)(131 * i + 17 * s + 29 * (i / 256) + 7);
    return bytes;
}

/* Long results by their hash, FNV-1a: the file stays small. */
static void show(const uint8_t *bytes, size_t length) {
    uint64_t hash = UINT64_C(0xcbf29ce484222325);
    for (size_t i = 0; i < length; i++) {
        hash = (hash ^ bytes[i]) * UINT64_C(0x100000001b3);
        if (length <= 200)
            printf("%02x", (unsigned)bytes[i]);
    }
    if (length > 200)
        printf("%016" PRIx64, hash);
    else if (length == 0)
        putchar('-');
    putchar('\n');
}

static int all(const uint8_t *bytes, size_t length, uint8_t value) {
    for (size_t i = 0; i < length; i++)
        if (bytes[i] != value)
            return 0;
    return 1;
}

struct inputs {
    unsigned set;
    uint8_t *key, *nonce, *data;
    size_t key_len, data_len;
};

/* The answer, and the sealing of the message of text_len bytes. */
static uint32_t seal(const struct inputs *in, size_t text_len, uint8_t *out, size_t out_len) {
    uint8_t *text = rule(4, text_len);
    uint32_t answer = cba_seal(in->set, in->key, in->key_len, in->nonce, 12, in->data, in->data_len,
                               text, text_len, out, out_len);
    free(text);
    return answer;
}

static void show_sealed(const struct inputs *in, size_t text_len) {
    size_t out_len = text_len + tag_bytes[in->set - 1];
    uint8_t *out = room(out_len);
    uint32_t answer = seal(in, text_len, out, out_len);
    if (answer == CBA_OK)
        show(out, out_len);
    else
        printf("answer %" PRIu32 "\n", answer);
    free(out);
}

static void flip(uint8_t *bytes, size_t length, const char *number) {
    char *end;
    unsigned long bit = strtoul(number, &end, 10);
    if (end == number || *end != '\0' || bit >= 8 * length)
        stop("no such change");
    bytes[bit / 8] ^= (uint8_t)(0x80 >> bit % 8);
}

/* A copy with the change made, and its length. */
static uint8_t *changed(const uint8_t *sealed, size_t *length, const char *change) {
    int less = strcmp(change, "-") == 0, more = strcmp(change, "+") == 0;
    size_t kept = *length - (less ? 1 : 0);
    *length = kept + (more ? 1 : 0);
    uint8_t *text = room(*length);
    memcpy(text, sealed, kept);
    if (more)
        text[kept] = 0;
    else if (!less && strcmp(change, "=") != 0)
        flip(text, kept, change);
    return text;
}

/* The output has room for more than the message, and the rest of it must stay. */
static void show_opened(const struct inputs *in, size_t text_len, const char *change) {
    size_t tag = tag_bytes[in->set - 1], length = text_len + tag;
    uint8_t *sealed = room(length);
    if (seal(in, text_len, sealed, length) != CBA_OK)
        stop("not sealed");
    uint8_t *text = changed(sealed, &length, change);
    uint8_t *out = room(length);
    uint32_t answer = cba_open(in->set, in->key, in->key_len, in->nonce, 12, in->data, in->data_len,
                               text, length, out, length);
    size_t written = (answer == CBA_OK || answer == CBA_FALSE) && length >= tag ? length - tag : 0;
    printf("%" PRIu32 " ", answer);
    if (!all(out + written, length - written, BEFORE))
        puts("changed");
    else if (answer == CBA_OK)
        show(out, written);
    else if (answer == CBA_FALSE)
        puts(all(out, written, 0) ? "zeros" : "not zeros");
    else
        puts("unchanged");
    free(sealed);
    free(text);
    free(out);
}

int main(int argc, char **argv) {
    int opens = argc == 2 && strcmp(argv[1], "open") == 0;
    if (!opens && !(argc == 2 && strcmp(argv[1], "seal") == 0))
        stop("usage: c_vectors seal|open");
    struct inputs in;
    size_t text_len;
    char change[16] = "";
    int read;
    while ((read = scanf("%u %zu %zu", &in.set, &in.data_len, &text_len)) == 3) {
        if (in.set < 1 || in.set > 10)
            stop("no such set");
        if (opens && scanf("%15s", change) != 1)
            stop("no change");
        in.key_len = key_bytes[in.set - 1];
        in.key = rule(1, in.key_len);
        in.nonce = rule(2, 12);
        in.data = rule(3, in.data_len);
        printf("%u %zu %zu ", in.set, in.data_len, text_len);
        if (opens) {
            printf("%s ", change);
            show_opened(&in, text_len, change);
        } else {
            show_sealed(&in, text_len);
        }
        free(in.key);
        free(in.nonce);
        free(in.data);
    }
    /* Else a line that cannot be read would end the comparison early. */
    return read == EOF && fflush(stdout) == 0 ? 0 : 1;
}
