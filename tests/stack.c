/* The calls on a stack of as many bytes as cba.h says, above memory that cannot be touched.
   cba_seal and cba_open: every set, each form and the longest text, with data of several lengths.
   cmac_make and cmac_check: every length of key and of mark, with logs of several lengths and the
   longest. Each case runs in a process of its own, so that its first call is also the one at which
   the dynamic linker looks for memcpy and memset. On a much smaller stack the same calls must
   crash. */
#define _GNU_SOURCE
#include <signal.h>
#include <stdio.h>
#include <stdlib.h>
#include <string.h>
#include <sys/mman.h>
#include <sys/resource.h>
#include <sys/wait.h>
#include <ucontext.h>
#include <unistd.h>

#include "cba.h"

enum { SETS = 10, NONCE = 12, DATA = 4096, TEXT = 65536, MOST_TAG = 12, MOST_KEY = 32 };
enum { LEAST_MARK = 4, MOST_MARK = 16 };
enum { PATTERN = 0xa5, GUARD = 1 << 16, TOO_LITTLE = 2048 };

/* By the set's number: bytes of the key, of the tag, and of the longest message of the short form. */
static const struct { size_t key, tag, first; } sets[SETS + 1] = {
    {0, 0, 0},  {16, 4, 4}, {16, 4, 4},  {16, 8, 8},  {16, 8, 4}, {16, 8, 0},
    {16, 12, 8}, {16, 12, 4}, {16, 12, 0}, {24, 8, 4}, {32, 12, 0},
};

enum kind { SEAL, OPEN, MAKE, CHECK, KINDS };

static const char *const names[KINDS] = {"cba_seal", "cba_open", "cmac_make", "cmac_check"};

struct call {
    enum kind kind;
    uint32_t set;              /* of sealing and opening */
    size_t data_len, text_len; /* of the message, or of the log */
    size_t key_len, mark_len;  /* of marks */
};

/* What is measured, by the kind of a call; the processes share it. */
static struct { size_t most, most_without_data; } *measured;

static uint8_t key[MOST_KEY], nonce[NONCE], data[DATA], text[TEXT], mark[MOST_MARK];
static uint8_t sealed[TEXT + MOST_TAG], opened[TEXT], expected[TEXT + MOST_TAG];
static struct call now;
static uint32_t answer;
static ucontext_t main_stack, small_stack;

static void fail(const char *what)
{
    fprintf(stderr, "stack: %s, set %u, data %zu, text %zu, a mark's key %zu, mark %zu: %s\n",
            names[now.kind], (unsigned)now.set, now.data_len, now.text_len, now.key_len,
            now.mark_len, what);
    exit(1);
}

static void call_now(void)
{
    size_t key_len = sets[now.set].key, sealed_len = now.text_len + sets[now.set].tag;
    if (now.kind == OPEN)
        answer = cba_open(now.set, key, key_len, nonce, NONCE, data, now.data_len,
                          sealed, sealed_len, opened, now.text_len);
    else if (now.kind == SEAL)
        answer = cba_seal(now.set, key, key_len, nonce, NONCE, data, now.data_len,
                          text, now.text_len, sealed, sealed_len);
    else if (now.kind == MAKE)
        answer = cmac_make(key, now.key_len, text, now.text_len, now.mark_len, mark, MOST_MARK);
    else
        answer = cmac_check(key, now.key_len, text, now.text_len, mark, now.mark_len);
}

/* Makes the call on a stack of so many bytes, and gives how many of them it used. */
static size_t used_by_call(size_t size)
{
    size_t untouched = 0;
    uint8_t *guard = mmap(NULL, GUARD + size, PROT_READ | PROT_WRITE, MAP_PRIVATE | MAP_ANONYMOUS,
                          -1, 0);
    uint8_t *stack = guard + GUARD;
    if (guard == MAP_FAILED || mprotect(guard, GUARD, PROT_NONE) != 0)
        fail("no memory");
    if (getcontext(&small_stack) != 0)
        fail("no context");
    memset(stack, PATTERN, size);
    small_stack.uc_stack.ss_sp = stack;
    small_stack.uc_stack.ss_size = size;
    small_stack.uc_link = &main_stack;
    makecontext(&small_stack, call_now, 0);
    answer = UINT32_MAX;
    if (swapcontext(&main_stack, &small_stack) != 0)
        fail("no call");
    while (untouched < size && stack[untouched] == PATTERN)
        untouched++;
    munmap(guard, GUARD + size);
    return size - untouched;
}

static void make_call(enum kind kind, size_t size, uint32_t right)
{
    size_t used;
    now.kind = kind;
    used = used_by_call(size);
    if (answer != right)
        fail("another answer");
    if (measured[kind].most < used)
        measured[kind].most = used;
    if (now.data_len == 0 && measured[kind].most_without_data < used)
        measured[kind].most_without_data = used;
}

/* Makes the call on the process's own stack, which must give the same result. */
static void same_again(enum kind kind, uint8_t *result, size_t len)
{
    memcpy(expected, result, len);
    memset(result, 0, len);
    now.kind = kind;
    call_now();
    if (answer != CBA_OK || memcmp(result, expected, len) != 0)
        fail("another result");
}

/* Seals and opens, and then opens what is false. */
static void right(size_t size)
{
    make_call(SEAL, size, CBA_OK);
    make_call(OPEN, size, CBA_OK);
    if (memcmp(opened, text, now.text_len) != 0)
        fail("another message");
    same_again(SEAL, sealed, now.text_len + sets[now.set].tag);
    sealed[0] ^= 1;
    make_call(OPEN, size, CBA_FALSE);
}

/* Makes and checks a mark, and then checks what is false. */
static void right_mark(size_t size)
{
    make_call(MAKE, size, CBA_OK);
    make_call(CHECK, size, CBA_OK);
    same_again(MAKE, mark, now.mark_len);
    mark[now.mark_len - 1] ^= 1;
    make_call(CHECK, size, CBA_FALSE);
}

/* One call with too little stack, which does not return. */
static void call_only(size_t size) { make_call(now.kind, size, CBA_OK); }

/* How a process ends that does this on a stack of this size. */
static int status_of(void (*act)(size_t), size_t size)
{
    int status;
    pid_t child;
    fflush(NULL);
    child = fork();
    if (child == 0) {
        act(size);
        exit(0);
    }
    if (child < 0 || waitpid(child, &status, 0) != child)
        fail("no process");
    return status;
}

static void must_crash(enum kind kind, size_t data_len, size_t size)
{
    int status;
    now = (struct call){kind, 3, data_len, 40, 16, MOST_MARK};
    status = status_of(call_only, size);
    if (!WIFSIGNALED(status) || WTERMSIG(status) != SIGSEGV)
        fail("no crash on a stack that is too small");
}

static void must_not_crash(void (*act)(size_t), size_t size)
{
    if (status_of(act, size) != 0)
        fail("it failed on the stack that cba.h says is enough");
}

static int sealings(void)
{
    static const size_t data_lens[] = {0, 1, 16, 31, 256, 1000, DATA - 1, DATA};
    int cases = 0;
    for (uint32_t set = 1; set <= SETS; set++) {
        /* Short, joined, separate with a whole and with a partial last block; the longest. */
        const size_t first = sets[set].first;
        const size_t text_lens[] = {first, first + 17, first + 32, first + 31, TEXT};
        for (size_t i = 0; i < sizeof text_lens / sizeof *text_lens; i++)
            for (size_t j = 0; j < sizeof data_lens / sizeof *data_lens; j++, cases++) {
                now = (struct call){SEAL, set, data_lens[j], text_lens[i], 0, 0};
                must_not_crash(right, CBA_STACK_FOR(data_lens[j]));
            }
    }
    return cases;
}

static int marks(void)
{
    static const size_t log_lens[] = {0, 1, 16, 17, 32, 4096, TEXT - 1, TEXT};
    int cases = 0;
    for (size_t key_len = 16; key_len <= MOST_KEY; key_len += 8)
        for (size_t mark_len = LEAST_MARK; mark_len <= MOST_MARK; mark_len++)
            for (size_t i = 0; i < sizeof log_lens / sizeof *log_lens; i++, cases++) {
                now = (struct call){MAKE, 0, 0, log_lens[i], key_len, mark_len};
                must_not_crash(right_mark, CBA_STACK_FOR(0));
            }
    return cases;
}

int main(void)
{
    const struct rlimit no_core = {0, 0};
    int cases;
    setrlimit(RLIMIT_CORE, &no_core);
    measured = mmap(NULL, KINDS * sizeof *measured, PROT_READ | PROT_WRITE,
                    MAP_SHARED | MAP_ANONYMOUS, -1, 0);
    if (measured == MAP_FAILED)
        fail("no memory");
    for (size_t i = 0; i < TEXT; i++) {
        key[i % MOST_KEY] = nonce[i % NONCE] = data[i % DATA] = (uint8_t)(i * 7 + i / 251);
        text[i] = (uint8_t)(i * 13 + i / 256);
    }
    cases = sealings() + marks();
    if (CBA_STACK < CBA_STACK_FOR(DATA))
        fail("CBA_STACK is not enough for the longest data");
    must_crash(SEAL, DATA, CBA_STACK_FOR(0));
    must_crash(OPEN, DATA, CBA_STACK_FOR(0));
    for (enum kind kind = SEAL; kind < KINDS; kind++)
        must_crash(kind, 0, TOO_LITTLE);
    printf("stack: %d cases, each on as much as cba.h says, %zu bytes for the longest data; sealing "
           "and opening used at most %zu and %zu, without data %zu and %zu; making and checking a "
           "mark %zu and %zu; with too little 6 of 6 crash\n",
           cases, (size_t)CBA_STACK, measured[SEAL].most, measured[OPEN].most,
           measured[SEAL].most_without_data, measured[OPEN].most_without_data,
           measured[MAKE].most, measured[CHECK].most);
    return 0;
}
