/* CBA v1-1 over AES: authenticated encryption of one record. AES-CMAC: marks for service logs.

   cba_seal makes a ciphertext of a message. cba_open gives the message back, or refuses. cmac_make
   makes the mark of a log, which stays readable. cmac_check says whether a mark is the log's. All
   four are in libcba.a, for Linux on x86-64, which needs memcpy and memset of the C library and
   nothing else. */
#ifndef CBA_H
#define CBA_H

#include <stddef.h>
#include <stdint.h>

#define CBA_VERSION "1.0.0"

#ifdef __cplusplus
extern "C" {
#endif

/* The parameter sets; key and tag in bytes, the capacity as a power of 2.

       set        1   2   3   4   5   6   7   8   9  10
       key       16  16  16  16  16  16  16  16  24  32
       tag        4   4   8   8   8  12  12  12   8  12
       capacity  16  32  16  32  48  16  32  48  32  48

   The limits of all sets: a nonce has 12 bytes, data have at most 4,096, a message has at most
   65,536. A ciphertext is as long as its message and the set's tag together. Of all strings of its
   length one in 256 to the tag opens: a guess at random opens with that chance.

   Marks have no set and no nonce. A key has 16, 24 or 32 bytes, a log has at most 65,536 and may be
   empty, and a mark is the first 4 to 16 bytes of the log's code by AES-CMAC (RFC 4493, NIST SP
   800-38B). Of all strings of mark_len bytes one is the mark: a guess at random passes with a
   chance of one in 256 to the mark_len. */

/* What the caller sees to, and no call can check:

   The key is random and secret. Set and key are known to the one who opens, and not taken from the
   record. Key and mark_len are known to the one who checks: were the length taken from the mark
   that is sent, a guesser would send one of 4 bytes.

   A key is for sealing or for marks, and never for both: each mode's claim is about a key that
   nothing else uses.

   A nonce is never used twice to seal under one key. It need be neither random nor secret: a count
   will do. Whoever sees two ciphertexts under one key and nonce learns where blocks of 16 bytes of
   their messages are the same and the exclusive or of some others of their bytes, and may be able
   to make a ciphertext that opens.

   All sealings under one key use at most 2 to the capacity of blocks. One uses ceil(data_len / 16)
   + ceil(text_len / 16), and counts as one where that is 0. These calls do not count; a ledger does
   (crates/ledger, for callers in Rattle), one for each console that seals under the key. The
   console's number is in the first two bytes of its nonces, so that no two consoles share one. That
   the ledgers of a key have different numbers, and that their totals together stay at 2 to the
   capacity, is the hub's to see to.

   A ciphertext that is opened again opens again. These calls do not notice that; a receiver does
   (crates/receiver, for callers in Rattle).

   A mark tells that somebody with the key marked this log, and nothing more. It hides nothing of
   the log, and does not tell who marked it: whoever can check a mark can make one. A log that is
   sent again passes again: a mark shows no repeat. SP 800-38B advises marks of 8 bytes or more
   (appendix A), and at most 2 to the 48 logs under one key (appendix B); no call counts them.

   Each pointer is to as many bytes as its length says. Where that is 0 the pointer is not used, and
   may be NULL or any other. out must not overlap an input, so that nothing is sealed or opened in
   place; inputs may overlap each other. */

/* The answers. Sealing and opening look for them from 1 up. Marks have an order of their own, in
   which 14 comes before 7 and 8; it is said at each of their calls. The first that applies is
   given; 0 where none does.

   CBA_OK: the result is in the first bytes of out, and the bytes after it are as before. CBA_FALSE
   of cba_open: as many bytes as the message would have are 0 in out, and the bytes after them are
   as before. Any other answer: all of out is as before. cmac_check has no out, and writes nothing.
   No input is ever changed. */
enum cba_answer {
    CBA_OK = 0,     /* sealed, or opened; marked, or the mark is the log's */
    CBA_SET = 1,    /* set is not 1 to 10 */
    CBA_KEY = 2,    /* key_len is not the set's; for a mark, not 16, 24 or 32 */
    CBA_NONCE = 3,  /* nonce_len is not 12 */
    CBA_DATA = 4,   /* data_len is over 4,096 */
    CBA_TEXT = 5,   /* text_len is over 65,536 in sealing, over 65,536 + the set's tag in opening;
                       log_len is over 65,536 */
    CBA_STUB = 6,   /* opening: text_len is less than the set's tag */
    CBA_BUFFER = 7, /* out_len is less than the result's length */
    CBA_FALSE = 8,  /* opening: no message seals to this ciphertext under these other inputs;
                       checking: the mark is not the log's under this key */
    CBA_MARK = 14   /* mark_len is not 4 to 16 */
};

/* Numbers that no call here answers: 9, stale, 10, spent, 12, console, and 13, name, are a
   ledger's; 12 and 15, repeat, are a receiver's; 11, line, is the hub program's. */

/* The bytes of stack that are enough for a call with so many bytes of data, and for any call: 96
   KiB. The data are walked by a recursion, a call for each 16 bytes. Marks have no data:
   CBA_STACK_FOR(0) is enough for them, however long the log. The figures are measured and rounded
   up, not proved. The caller's own frames, and what a thread keeps on its stack, are not in them. A
   call does not notice that its stack is too small. */
#define CBA_STACK_FOR(data_len) (16384 + 20 * (data_len))
#define CBA_STACK CBA_STACK_FOR(4096)

/* The calls have no state and use no heap: any number of threads may call at once.

   Proved, for every input: the answer, the result and every byte of out; that sealing is CBA v1-1's
   ENC over AES, and opening its DEC; that a mark is the first bytes of the log's AES-CMAC, and that
   exactly this mark passes the check; that no call reads or writes outside its arguments, or runs
   for ever.

   Not proved: that CBA or CMAC is hard to break; how long a call takes (AES's tables are read at
   places that depend on the key, so that the time may tell of it); that nothing of a key is left on
   the stack; the compiler's back end; that a caller's pointers are right. */

/* Seals a message.

   set    the number of a parameter set
   key    as long as the set's
   nonce  12 bytes; never the same twice under a key
   data   associated data, at most 4,096 bytes: authenticated, not encrypted and not in the result
   text   the message, at most 65,536 bytes
   out    for the ciphertext: text_len bytes and the tag's; it may be longer

   Answers CBA_OK, CBA_SET to CBA_TEXT, or CBA_BUFFER. */
uint32_t cba_seal(uint32_t set,
                  const uint8_t *key, size_t key_len,
                  const uint8_t *nonce, size_t nonce_len,
                  const uint8_t *data, size_t data_len,
                  const uint8_t *text, size_t text_len,
                  uint8_t *out, size_t out_len);

/* Opens a ciphertext.

   set, key, nonce, data
          those of the sealing
   text   the ciphertext: at least the tag's bytes, at most 65,536 more
   out    for the message: text_len bytes less the tag's; it may be longer

   Answers CBA_OK, or CBA_SET to CBA_FALSE. After CBA_OK the message is the one that seals to this
   ciphertext. CBA_FALSE says that the ciphertext, or another input, is not what it was at the
   sealing. */
uint32_t cba_open(uint32_t set,
                  const uint8_t *key, size_t key_len,
                  const uint8_t *nonce, size_t nonce_len,
                  const uint8_t *data, size_t data_len,
                  const uint8_t *text, size_t text_len,
                  uint8_t *out, size_t out_len);

/* Makes the mark of a log.

   key       16, 24 or 32 bytes; not a key that seals
   log       at most 65,536 bytes, or none
   mark_len  the mark's bytes, 4 to 16
   out       for the mark: mark_len bytes; it may be longer

   Answers the first that applies of CBA_KEY, CBA_TEXT, CBA_MARK and CBA_BUFFER, else CBA_OK. The
   same key and log have the same mark every time, and a shorter mark is the start of a longer
   one. */
uint32_t cmac_make(const uint8_t *key, size_t key_len,
                   const uint8_t *log, size_t log_len,
                   size_t mark_len,
                   uint8_t *out, size_t out_len);

/* Checks the mark of a log.

   key, log  those of the making
   mark      mark_len bytes, 4 to 16: as many as the one who checks expects

   Answers the first that applies of CBA_KEY, CBA_TEXT, CBA_MARK and CBA_FALSE, else CBA_OK. CBA_OK
   says that cmac_make makes just this mark of this log under this key; CBA_FALSE, that the log, the
   mark or the key is another. */
uint32_t cmac_check(const uint8_t *key, size_t key_len,
                    const uint8_t *log, size_t log_len,
                    const uint8_t *mark, size_t mark_len);

#ifdef __cplusplus
}
#endif

#endif
