/* SPDX-License-Identifier: Apache-2.0 OR MIT

   chacha20.c over builds of stubs, which note what reaches them and touch nothing. So buffers can have any address and length:
   which calls are refused, and what the others hand on. And, on x86-64, the choice between the builds: on described processors,
   whole ones and one that lacks each of what a level has, and before it. */

#define _DEFAULT_SOURCE

#include <signal.h>
#include <stdint.h>
#include <stdio.h>
#include <string.h>

#if defined(__x86_64__)
#include <cpuid.h>

/* What the instructions say of a described processor: of another subleaf come other bits, of a leaf that it lacks all. */
static int cpuid_here(unsigned leaf, unsigned subleaf, unsigned *a, unsigned *b, unsigned *c, unsigned *d);
static int has_leaf(unsigned leaf);
static uint32_t xcr0_here(void);
#undef __cpuid
#undef __cpuid_count
#define __cpuid(LEAF, A, B, C, D) cpuid_here(LEAF, 99, &(A), &(B), &(C), &(D))
#define __cpuid_count(LEAF, SUBLEAF, A, B, C, D) cpuid_here(LEAF, SUBLEAF, &(A), &(B), &(C), &(D))
#define __get_cpuid(LEAF, A, B, C, D) (has_leaf(LEAF) && cpuid_here(LEAF, 99, A, B, C, D))
#define __get_cpuid_count(LEAF, SUBLEAF, A, B, C, D) (has_leaf(LEAF) && cpuid_here(LEAF, SUBLEAF, A, B, C, D))
#define READ_XCR0 xcr0_here
#else
enum { level = 1 };
#endif

#include "../chacha20.c"

static int wrong, calls, ran; /* the last: the level of the stub that ran last */
static struct { const void *pointers[6]; uint64_t numbers[4]; int pointer_count, number_count; } got;

static void is(int fact, const char *what) {
    if (!fact && wrong++ < 20) printf("wrong: %s, level %d\n", what, level);
}

/* What each stub does with its arguments, in their order: the Makefile writes the stubs by the declarations of proved.h. */
uint32_t proved(int build, int pointer_count, const void *const *pointers, int number_count, const uint64_t *numbers) {
    ran = build, calls++, got.pointer_count = pointer_count, got.number_count = number_count;
    for (int i = 0; i < pointer_count; i++) is((got.pointers[i] = pointers[i]) != NULL, "null reaches a proved function");
    for (int i = 0; i < number_count; i++) got.numbers[i] = numbers[i];
    return 0;
}

#define OVER_4_GIB (((size_t)4 << 30) + 600)
static uint8_t *at_address(uintptr_t address) { return (uint8_t *)address; }

/* What a call is given; a stream's state is at the key, a file's salt at the nonce. The calls by number: first those that write a
   tag, then the others with one, with an input, without, and those whose output is longer or shorter than the input. */
enum part { KEY, NONCE, AAD, INPUT, OUTPUT, TAG, PARTS };
enum { WRITE_TAG = 2, HAVE_TAG = 4, LEGACY_XOR = 6, HAVE_INPUT = 7, LEGACY_KEYSTREAM = 9, PUSH, PULL, SEAL, OPEN, CALLS };
static const size_t nonce_len[CALLS] = {12, 24, 12, 24, 12, 24, 8, 12, 24, 8, 0, 0, 19, 19}, more[CALLS] = {[PUSH] = 17, [SEAL] = 16},
                    less[CALLS] = {[PULL] = 17, [OPEN] = 16};
static int is_stream(int call) { return call == PUSH || call == PULL; }
static int has_aad(int call) { return call < HAVE_TAG || is_stream(call); }
static int has_tag(int call) { return call < HAVE_TAG || call == PULL; }
static const uint64_t block = 0x123456789abcdef0, offset = 0xfedcba9876543210;

/* Whether a chunk is the last: no other number than 0 says no. */
static int last_of(const size_t *len) { return len[INPUT] % 2 ? 256 : 0; }

static int run_call(int call, uint8_t *const *at, const size_t *len) {
#define MESSAGE_AT at[KEY], at[NONCE], at[AAD], len[AAD], at[OUTPUT], at[INPUT], len[OUTPUT], at[TAG]
    switch (call) {
        case 0: return chacha20_aead_encrypt(MESSAGE_AT);
        case 1: return xchacha20_aead_encrypt(MESSAGE_AT);
        case 2: return chacha20_aead_decrypt(MESSAGE_AT);
        case 3: return xchacha20_aead_decrypt(MESSAGE_AT);
        case 4: return chacha20_xor(at[KEY], at[NONCE], block, at[OUTPUT], at[INPUT], len[OUTPUT]);
        case 5: return xchacha20_xor(at[KEY], at[NONCE], block, at[OUTPUT], at[INPUT], len[OUTPUT]);
        case 6: return chacha20_legacy_xor(at[KEY], at[NONCE], block, offset, at[OUTPUT], at[INPUT], len[OUTPUT]);
        case 7: return chacha20_keystream(at[KEY], at[NONCE], block, at[OUTPUT], len[OUTPUT]);
        case 8: return xchacha20_keystream(at[KEY], at[NONCE], block, at[OUTPUT], len[OUTPUT]);
        case 9: return chacha20_legacy_keystream(at[KEY], at[NONCE], block, offset, at[OUTPUT], len[OUTPUT]);
        case PUSH: return chacha20_secretstream_push(at[KEY], at[AAD], len[AAD], at[OUTPUT], at[INPUT], len[INPUT], 250);
        case PULL: return chacha20_secretstream_pull(at[KEY], at[AAD], len[AAD], at[OUTPUT], at[INPUT], len[INPUT], at[TAG]);
        case SEAL: return chacha20_file_seal_chunk(at[KEY], at[NONCE], block & UINT32_MAX, last_of(len), at[OUTPUT], at[INPUT], len[INPUT]);
        default: return chacha20_file_open_chunk(at[KEY], at[NONCE], block & UINT32_MAX, last_of(len), at[OUTPUT], at[INPUT], len[INPUT]);
    }
}

/* Every function, with data of so many bytes, null if there are none: the build for the level runs, if one does, and gets the
   whole length. What has a fixed size lies on the arguments, and so is made elsewhere. */
static void all_calls(size_t len) {
    static uint8_t both[64], state[49], tag[16];
    uint8_t *to = len ? at_address((uintptr_t)1 << 40) : NULL, *from = len ? at_address((uintptr_t)1 << 41) : NULL;
    uint8_t *at[PARTS] = {both, both, NULL, from, to, tag};
    const size_t lengths[PARTS] = {[OUTPUT] = len};
    uint64_t low = 0, high = 0;
    int answers = 0;
#define RUN(CALL) (ran = level, got.numbers[0] = len, (CALL), is(ran == level, #CALL))
#define WHOLE(CALL) (RUN(CALL), is(got.numbers[0] == len, "a length of " #CALL))
#define APART(CALL, MADE) (RUN(CALL), is((uintptr_t)got.pointers[MADE] - (uintptr_t)both >= sizeof both, "an overlap of " #CALL))
    for (int i = 0; i < 2 * PUSH; i++) at[INPUT] = i % 2 ? to : from, RUN(answers |= run_call(i / 2, at, lengths));
    WHOLE(answers |= chacha20_check(len, len));
    WHOLE(answers |= chacha20_legacy_check(len, len, len));
    WHOLE(answers |= chacha20_verify(to, from, len));
    WHOLE(chacha20_rng_fill(state, to, len));
    WHOLE(chacha20_onetime_poly1305(both, from, len, tag));
    APART(chacha20_onetime_poly1305(both, both, len, both + 5), 2);
    APART(hchacha20(both, both + 16, both + 1), 2);
    APART(chacha20_rng_from_seed(both, both + 8), 1);
    RUN(chacha20_rng_get_word_pos(state, &low, &high));
    RUN(chacha20_rng_set_word_pos(state, 0, 0));
    RUN((void)chacha20_rng_get_block_pos(state));
    RUN(chacha20_rng_set_block_pos(state, 0));
    RUN((void)chacha20_rng_get_stream(state));
    RUN(chacha20_rng_set_stream(state, 0));
    WHOLE(chacha12_rng_fill(state, to, len));
    WHOLE(chacha8_rng_fill(state, to, len));
    for (int i = PUSH; i < CALLS; i++) {
        size_t text = i >= SEAL && len ? 65536 : len;
        const size_t all[PARTS] = {[INPUT] = text + less[i], [OUTPUT] = text + more[i]};
        uint8_t *places[PARTS] = {state, both, NULL, all[INPUT] ? at_address((uintptr_t)1 << 41) : NULL,
                                  all[OUTPUT] ? at_address((uintptr_t)1 << 40) : NULL, tag};
        RUN(answers |= run_call(i, places, all));
    }
    APART(chacha20_secretstream_start(both, both + 32, both + 10), 2);
    RUN(chacha20_secretstream_rekey(state));
    APART(chacha20_file_header(both, both + 10), 1);
    APART(answers |= chacha20_file_salt(len ? both : NULL, len, both + 10), 1);
    is(got.numbers[0] == (len < 32 ? len : 32), "the length of a header");
    WHOLE((void)chacha20_file_text_len(len));
    is(answers == 0, "an answer");
}

/* The rule of the header, by sums that don't wrap: what is written overlaps nothing, but for an output that is the input. */
static int must_run(int call, uint8_t *const *at, const size_t *len) {
    __extension__ typedef unsigned __int128 wide;
    if (len[INPUT] > PTRDIFF_MAX || len[OUTPUT] > PTRDIFF_MAX || len[AAD] > PTRDIFF_MAX || len[INPUT] < less[call]) return 0;
    if (call >= SEAL && len[INPUT] - less[call] > 65536) return 0;
    const int written[PARTS] = {[KEY] = is_stream(call), [OUTPUT] = 1, [TAG] = call < WRITE_TAG || call == PULL};
    for (int i = 0; i < PARTS; i++) {
        for (int j = 0; j < PARTS && written[i]; j++) {
            wide one = (uintptr_t)at[i], other = (uintptr_t)at[j];
            if (j == i || len[i] == 0 || len[j] == 0) continue;
            if (!is_stream(call) && i == OUTPUT && j == INPUT && one == other) continue;
            if (one < other + len[j] && other < one + len[i]) return 0;
        }
    }
    return 1;
}

/* Whether a call runs where it must, and hands on what it was given. */
static void try_call(int call, uint8_t *const *at, const size_t *len) {
    static const enum part order[] = {KEY, NONCE, AAD, OUTPUT, INPUT, TAG};
    int must = must_run(call, at, len), is_empty = len[OUTPUT] == 0, p = 0, n = 0;
    int is_between = call < HAVE_INPUT || call == SEAL ? at[OUTPUT] != at[INPUT] && len[INPUT] : call >= PUSH;
    if (call == OPEN && at[OUTPUT] == at[INPUT] && !is_empty) is_between = 0;
    ran = 0;
    int answer = run_call(call, at, len);
    is(answer == (must ? CHACHA20_OK : CHACHA20_REFUSED) && ran == (must ? level : 0), must ? "a right call" : "a wrong call");
    if (!must || ran == 0) return;
    /* Of an empty part of a keystream, the position alone is checked. */
    for (int i = 0; i < PARTS && !(call >= HAVE_TAG && call < PUSH && is_empty); i++) {
        enum part part = order[i];
        if (part == INPUT ? !is_between : part == AAD ? !has_aad(call) : part == TAG ? !has_tag(call) : part == NONCE && is_stream(call)) continue;
        is(got.pointers[p++] == at[part] || len[part] == 0, "another pointer is handed on");
    }
    is(got.numbers[n++] == (has_aad(call) ? len[AAD] : call >= SEAL ? (uint32_t)block : block), "another number is handed on");
    if (call == LEGACY_XOR || call == LEGACY_KEYSTREAM) is(got.numbers[n++] == offset, "another offset is handed on");
    if (call >= SEAL) is(got.numbers[n++] == (last_of(len) != 0), "whether a chunk is the last");
    is(got.numbers[n++] == (is_between || call != OPEN ? len[OUTPUT] : len[INPUT]), "another length is handed on");
    if (is_between) is(got.numbers[n++] == len[INPUT], "another length is handed on");
    if (call == PUSH) is(got.numbers[n++] == 250, "another tag byte is handed on");
    int is_check = call >= HAVE_TAG && call < PUSH && is_empty;
    is(is_check || (p == got.pointer_count && n == got.number_count), "another function is called");
}

/* Each part far from the others. */
static void lay_apart(uint8_t **at) { for (int i = 0; i < PARTS; i++) at[i] = at_address((uintptr_t)(i + 1) << 40); }

/* What is written at each distance of another part, also where it ends with the greatest address, and sums wrap. */
static void overlaps(int call, const size_t *len) {
    const uintptr_t far = (uintptr_t)4 << 30;
    for (int i = 0; i < 6 * PARTS; i++) {
        int one = (int[]){TAG, OUTPUT, KEY}[i % 3], other = i / 6;
        const uintptr_t first = len[one], second = len[other];
        const uintptr_t all[] = {0 - second, 1 - second, 0 - (uintptr_t)1, 0, 1, first - 1, first, 100, 4096, 1 << 16, 1 << 20,
                                 far / 4, far / 2, far - 1, far, far + 1, 0 - far, 1 - far, 0 - far - 1, far * 8};
        for (size_t j = 0; j < sizeof all / sizeof all[0] && one != other; j++) {
            uint8_t *at[PARTS];
            lay_apart(at);
            if (i % 6 > 2) at[one] = at_address(0 - first);
            at[other] = at_address((uintptr_t)at[one] + all[j]);
            /* No object passes the greatest address. */
            if (at[other] && (second == 0 || (uintptr_t)at[other] <= 0 - second)) try_call(call, at, len);
        }
    }
}

static void all_overlaps_and_lengths(void) {
    static const size_t lengths[] = {0, 1, 100, OVER_4_GIB}, aad_lengths[] = {0, 13, 5000, OVER_4_GIB + 1};
    static const size_t longest[] = {PTRDIFF_MAX, (size_t)PTRDIFF_MAX + 1, SIZE_MAX - 15, SIZE_MAX};
    for (int i = 0; i < 16 * CALLS; i++) {
        int call = i / 16;
        size_t aad_len = has_aad(call) ? aad_lengths[i / 4 % 4] : 0, text = call >= SEAL && i % 4 == 3 ? 65536 : lengths[i % 4];
        size_t len[PARTS] = {is_stream(call) ? 44 : 32, nonce_len[call], aad_len, text + less[call], text + more[call],
                             call == PULL ? 1 : has_tag(call) ? 16 : 0};
        uint8_t *at[PARTS], *upper_half = at_address(UINTPTR_MAX / 2 + 1);
        int has_input = call < HAVE_INPUT || call >= PUSH;
        if (!has_input) len[INPUT] = 0;
        overlaps(call, len);
        /* The longest object, and longer data, apart from all else; first the associated ones. */
        lay_apart(at), at[AAD] = upper_half;
        if (has_aad(call)) len[AAD] = longest[i % 4], try_call(call, at, len), len[AAD] = aad_len;
        lay_apart(at), at[INPUT] = upper_half, len[OUTPUT] = longest[i % 4] + more[call] - less[call];
        if (!is_stream(call)) at[OUTPUT] = upper_half;
        if (has_input) len[INPUT] = longest[i % 4];
        try_call(call, at, len);
        /* And what is too short. */
        lay_apart(at), at[OUTPUT] = upper_half;
        if (less[call]) len[INPUT] = less[call] - 1, try_call(call, at, len);
    }
}

#if defined(__x86_64__)
static struct processor described;
static const char *vendor;
static int is_xgetbv_run, wanted, steps;
static unsigned highest = 7; /* leaf, but for those from 80000000 on */

static int has_leaf(unsigned leaf) { return leaf <= highest || leaf >= 0x80000000; }

static int cpuid_here(unsigned leaf, unsigned subleaf, unsigned *a, unsigned *b, unsigned *c, unsigned *d) {
    *a = leaf == 0 ? highest : 0, *d = 0;
    *b = leaf != 7 ? 0 : !has_leaf(leaf) ? ~0u : subleaf == 0 ? described.leaf_7_ebx : ~described.leaf_7_ebx;
    *c = leaf == 1 ? described.leaf_1_ecx : leaf == 0x80000001 ? described.leaf_80000001_ecx : 0;
    if (leaf == 0) memcpy(b, vendor, 4), memcpy(d, vendor + 4, 4), memcpy(c, vendor + 8, 4);
    return 1;
}

static uint32_t xcr0_here(void) {
    is_xgetbv_run = 1;
    return described.xcr0;
}

/* The loader calls it before the constructor. */
static void before_choice(void) { is(level == 1, "a level before the choice"), all_calls(600); }
__attribute__((section(".preinit_array"), used)) static void (*const first)(void) = before_choice;

/* After each instruction of the choice, since another thread may call. */
static void at_step(int number) { (void)number, steps++, is(level == 1 || level == wanted, "another level for a moment"); }

/* The whole choice on a processor of each vendor, and every call. */
static void try(struct processor it, int level_wanted) {
    static const char *const vendors[] = {"GenuineIntel", "AuthenticAMD"};
    enum { TRAP = 0x100 };
    for (int i = 0; i < 2; i++) {
        described = it, vendor = vendors[i], level = 1, is_xgetbv_run = 0, wanted = level_wanted;
        signal(SIGTRAP, at_step);
        __builtin_ia32_writeeflags_u64(__builtin_ia32_readeflags_u64() | TRAP);
        choose_level();
        __builtin_ia32_writeeflags_u64(__builtin_ia32_readeflags_u64() & ~(unsigned long long)TRAP);
        if (level != wanted) printf("not %d for %s, %x %x %x\n", wanted, vendor, it.leaf_1_ecx, it.leaf_7_ebx, it.leaf_80000001_ecx);
        is(level == wanted, "a level");
        is(!is_xgetbv_run || (it.leaf_1_ecx & OSXSAVE), "xgetbv runs where there is none");
        all_calls(0), all_calls(600), all_calls(OVER_4_GIB);
    }
}

enum { SAVES_256 = 7, LAHF_ALONE = 1 };

static void all_processors(void) {
    static const struct processor haswell = {0x7ffafbff, 0x000027ab, 0x00000021, SAVES_256};
    /* Of the leaves 1, 7 and 80000001, each with the level of a processor that lacks the bit; and what the system may save. */
    static const uint32_t bits[][3] = {{SSE3, 0, 0}, {SSSE3, 0, 0}, {CMPXCHG16B, 0, 0}, {SSE41, 0, 0}, {SSE42, 0, 0}, {POPCNT, 0, 0},
                                       {0, 0, LAHF}, {FMA, 0, 0}, {MOVBE, 0, 0}, {AVX, 0, 0}, {F16C, 0, 0}, {OSXSAVE, 0, 0},
                                       {0, BMI1, 0}, {0, AVX2, 0}, {0, BMI2, 0}, {0, 0, LZCNT}};
    enum { COUNT = sizeof bits / sizeof bits[0], OF_LEVEL_2 = 7 };
    try(haswell, 3);
    for (int i = 0; i < COUNT; i++) {
        struct processor it = {haswell.leaf_1_ecx & ~bits[i][0], haswell.leaf_7_ebx & ~bits[i][1],
                               haswell.leaf_80000001_ecx & ~bits[i][2], SAVES_256};
        try(it, i < OF_LEVEL_2 ? 1 : 2);
    }
    for (uint32_t saved = 0; saved < SAVES_256; saved++) {
        struct processor it = {haswell.leaf_1_ecx, haswell.leaf_7_ebx, haswell.leaf_80000001_ecx, saved};
        try(it, saved == 6 ? 3 : 2);
    }
    highest = 6, try(haswell, 2), highest = 7;
    try((struct processor){0, 0, 0, 0}, 1);                           /* nothing but x86-64 */
    try((struct processor){0x80002001, 0, LAHF_ALONE, 0}, 1);         /* qemu64 */
    try((struct processor){0x0098e3bd, 0, LAHF_ALONE, 0}, 2);         /* Nehalem */
    try((struct processor){0x1fbae3bf, 0, LAHF_ALONE, SAVES_256}, 2); /* Sandy Bridge */
    try((struct processor){0x7ed8320b, 0x209c01a9, 0x35c233ff, SAVES_256}, 3); /* Zen */
    is(steps > 1000, "no steps");
}
#else
static void all_processors(void) { all_calls(0), all_calls(600), all_calls(OVER_4_GIB); }
#endif

int main(void) {
    all_processors(), all_overlaps_and_lengths();
    printf("levels: %d calls of stubs, %d wrong\n", calls, wrong);
    return wrong != 0 || calls < 20000;
}
