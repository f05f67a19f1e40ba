/* SPDX-License-Identifier: Apache-2.0 OR MIT

   What is compared: libsodium, where the machine has it; plain C, written after RFC 8439 and the draft; and below them the
   library's builds, which are declared nowhere else, so that no reference can call them. */

#include "compare.h"

#include <dlfcn.h>
#include <stdio.h>
#include <stdlib.h>
#include <string.h>

/* ISO C has no cast from an object's pointer to a function's. */
int look_up(void *handle, const char *name, void *function) {
    void *found = dlsym(handle, name);
    memcpy(function, &found, sizeof found);
    return found != NULL;
}

#define XOR_PARAMETERS \
    const uint8_t *key, const uint8_t *nonce, uint64_t block, uint8_t *output, const uint8_t *input, size_t len

static void store_le(uint8_t *bytes, uint64_t number, int count) {
    for (int i = 0; i < count; i++) bytes[i] = (uint8_t)(number >> (8 * i));
}

/* libsodium */

#define SODIUM "libsodium.so.23"
static int (*sodium_ietf_ic)(uint8_t *, const uint8_t *, unsigned long long, const uint8_t *, uint32_t, const uint8_t *);
static int (*sodium_legacy_ic)(uint8_t *, const uint8_t *, unsigned long long, const uint8_t *, uint64_t, const uint8_t *);
static int (*sodium_xchacha_ic)(uint8_t *, const uint8_t *, unsigned long long, const uint8_t *, uint64_t, const uint8_t *);
static int (*sodium_hchacha)(uint8_t *, const uint8_t *, const uint8_t *, const uint8_t *);

static void sodium_ietf(XOR_PARAMETERS) { sodium_ietf_ic(output, input, len, nonce, (uint32_t)block, key); }
static void sodium_xchacha(XOR_PARAMETERS) { sodium_xchacha_ic(output, input, len, nonce, block, key); }
static void sodium_legacy(XOR_PARAMETERS) { sodium_legacy_ic(output, input, len, nonce, block, key); }

static void sodium_hchacha20(const uint8_t *key, const uint8_t *input, uint8_t *subkey) {
    sodium_hchacha(subkey, input, key, NULL);
}

typedef int sodium_aead(uint8_t *, uint8_t *, unsigned long long *, const uint8_t *, unsigned long long, const uint8_t *,
                        unsigned long long, const uint8_t *, const uint8_t *, const uint8_t *);
static sodium_aead *sodium_aeads[AEADS];
static int (*sodium_mac)(uint8_t *, const uint8_t *, unsigned long long, const uint8_t *);

#define SODIUM_ENCRYPT(NAME, LAYOUT) \
    static void NAME(AEAD_PARAMETERS, uint8_t *tag) {                                                 \
        sodium_aeads[LAYOUT](output, tag, NULL, input, len, aad, aad_len, NULL, nonce, key);         \
    }
SODIUM_ENCRYPT(sodium_ietf_encrypt, IETF)
SODIUM_ENCRYPT(sodium_xchacha_encrypt, XCHACHA)
static void sodium_poly1305(const uint8_t *key, const uint8_t *input, size_t len, uint8_t *tag) {
    sodium_mac(tag, input, len, key);
}

/* What its state has behind the 44 bytes stays zero. */
struct sodium_state { uint8_t bytes[52]; };
static int (*sodium_init_pull)(struct sodium_state *, const uint8_t *, const uint8_t *);
static int (*sodium_stream_push)(struct sodium_state *, uint8_t *, unsigned long long *, const uint8_t *, unsigned long long,
                                 const uint8_t *, unsigned long long, uint8_t);
static int (*sodium_stream_pull)(struct sodium_state *, uint8_t *, unsigned long long *, uint8_t *, const uint8_t *,
                                 unsigned long long, const uint8_t *, unsigned long long);
static void (*sodium_stream_rekey)(struct sodium_state *);

static struct sodium_state begun(const uint8_t *state) {
    struct sodium_state it = {{0}};
    memcpy(it.bytes, state, CHACHA20_SECRETSTREAM_STATE_BYTES);
    return it;
}
static void ended(const struct sodium_state *it, uint8_t *state) { memcpy(state, it->bytes, CHACHA20_SECRETSTREAM_STATE_BYTES); }

static void sodium_start(const uint8_t *key, const uint8_t *header, uint8_t *state) {
    struct sodium_state it;
    sodium_init_pull(&it, header, key), ended(&it, state);
}
static void sodium_push(STREAM_PARAMETERS, uint8_t tag) {
    struct sodium_state it = begun(state);
    sodium_stream_push(&it, output, NULL, input, len, aad, aad_len, tag), ended(&it, state);
}
static int sodium_pull(STREAM_PARAMETERS, uint8_t *tag) {
    struct sodium_state it = begun(state);
    int answer = sodium_stream_pull(&it, output, NULL, tag, input, len, aad, aad_len);
    ended(&it, state);
    return answer == 0 ? CHACHA20_OK : CHACHA20_WRONG_TAG;
}
static void sodium_rekey(uint8_t *state) {
    struct sodium_state it = begun(state);
    sodium_stream_rekey(&it), ended(&it, state);
}

int find_sodium(struct other *found) {
    int (*init)(void) = NULL;
    const char *(*version)(void) = NULL;
    const char *skip = getenv("CHACHA20_SKIP");
    void *handle = skip && strstr(skip, SODIUM) ? NULL : dlopen(SODIUM, RTLD_NOW | RTLD_LOCAL);
    if (!handle || !look_up(handle, "sodium_init", &init) || !look_up(handle, "sodium_version_string", &version) ||
        !look_up(handle, "crypto_stream_chacha20_ietf_xor_ic", &sodium_ietf_ic) ||
        !look_up(handle, "crypto_stream_chacha20_xor_ic", &sodium_legacy_ic) ||
        !look_up(handle, "crypto_stream_xchacha20_xor_ic", &sodium_xchacha_ic) ||
        !look_up(handle, "crypto_core_hchacha20", &sodium_hchacha) ||
        !look_up(handle, "crypto_aead_chacha20poly1305_ietf_encrypt_detached", &sodium_aeads[IETF]) ||
        !look_up(handle, "crypto_aead_xchacha20poly1305_ietf_encrypt_detached", &sodium_aeads[XCHACHA]) ||
        !look_up(handle, "crypto_secretstream_xchacha20poly1305_init_pull", &sodium_init_pull) ||
        !look_up(handle, "crypto_secretstream_xchacha20poly1305_push", &sodium_stream_push) ||
        !look_up(handle, "crypto_secretstream_xchacha20poly1305_pull", &sodium_stream_pull) ||
        !look_up(handle, "crypto_secretstream_xchacha20poly1305_rekey", &sodium_stream_rekey) ||
        !look_up(handle, "crypto_onetimeauth_poly1305", &sodium_mac) || init() < 0) {
        puts("skipped, no " SODIUM);
        return 0;
    }
    printf("found: libsodium %s\n", version());
    *found = (struct other){
        .name = "libsodium", .hchacha = sodium_hchacha20, .poly1305 = sodium_poly1305,
        .xor_from_block = {[IETF] = sodium_ietf, [XCHACHA] = sodium_xchacha, [LEGACY] = sodium_legacy},
        .encrypt = {sodium_ietf_encrypt, sodium_xchacha_encrypt},
        .start = sodium_start, .push = sodium_push, .pull = sodium_pull, .rekey = sodium_rekey};
    return 1;
}

/* Plain C */

static uint32_t load_32(const uint8_t *b) {
    return (uint32_t)b[0] | (uint32_t)b[1] << 8 | (uint32_t)b[2] << 16 | (uint32_t)b[3] << 24;
}

static uint32_t rotated(uint32_t x, int by) { return x << by | x >> (32 - by); }

static void quarter_round(uint32_t *x, int a, int b, int c, int d) {
    x[a] += x[b], x[d] = rotated(x[d] ^ x[a], 16);
    x[c] += x[d], x[b] = rotated(x[b] ^ x[c], 12);
    x[a] += x[b], x[d] = rotated(x[d] ^ x[a], 8);
    x[c] += x[d], x[b] = rotated(x[b] ^ x[c], 7);
}

static void all_rounds(uint32_t *x, int rounds) {
    for (int i = 0; i < rounds; i += 2) {
        for (int j = 0; j < 4; j++) quarter_round(x, j, 4 + j, 8 + j, 12 + j);
        for (int j = 0; j < 4; j++) quarter_round(x, j, 4 + (j + 1) % 4, 8 + (j + 2) % 4, 12 + (j + 3) % 4);
    }
}

/* Constants, a key, and 16 bytes more. */
static void start(uint32_t *x, const uint8_t *key, const uint8_t *last) {
    static const char constants[] = "expand 32-byte k";
    for (int i = 0; i < 4; i++) x[i] = load_32((const uint8_t *)constants + 4 * i);
    for (int i = 0; i < 8; i++) x[4 + i] = load_32(key + 4 * i);
    for (int i = 0; i < 4; i++) x[12 + i] = load_32(last + 4 * i);
}

static void plain_hchacha(const uint8_t *key, const uint8_t *input, uint8_t *subkey) {
    uint32_t x[16];
    start(x, key, input);
    all_rounds(x, 20);
    for (int i = 0; i < 4; i++) store_le(subkey + 4 * i, x[i], 4), store_le(subkey + 16 + 4 * i, x[12 + i], 4);
}

static void plain_xor(int rounds, int counter_bytes, XOR_PARAMETERS) {
    uint8_t last[16], made[64];
    uint32_t first[16], x[16];
    memcpy(last + counter_bytes, nonce, (size_t)(16 - counter_bytes));
    for (size_t at = 0; at < len; at += 64, block++) {
        store_le(last, block, counter_bytes);
        start(first, key, last);
        memcpy(x, first, sizeof x);
        all_rounds(x, rounds);
        for (int i = 0; i < 16; i++) store_le(made + 4 * i, x[i] + first[i], 4);
        for (size_t i = 0; i < 64 && at + i < len; i++) output[at + i] = input[at + i] ^ made[i];
    }
}

static void plain_ietf(XOR_PARAMETERS) { plain_xor(20, 4, key, nonce, block, output, input, len); }
static void plain_legacy(XOR_PARAMETERS) { plain_xor(20, 8, key, nonce, block, output, input, len); }
static void plain_legacy_12(XOR_PARAMETERS) { plain_xor(12, 8, key, nonce, block, output, input, len); }
static void plain_legacy_8(XOR_PARAMETERS) { plain_xor(8, 8, key, nonce, block, output, input, len); }

static void plain_xchacha(XOR_PARAMETERS) {
    uint8_t subkey[32], subnonce[12] = {0};
    plain_hchacha(key, nonce, subkey);
    memcpy(subnonce + 4, nonce + 16, 8);
    plain_xor(20, 4, subkey, subnonce, block, output, input, len);
}

/* The bytes of a sum modulo 2^136, as digits below 256; 2^136 is 64 * 5 modulo 2^130 - 5. */
static void carry(uint32_t *h) {
    for (int i = 0; i < 16; i++) h[i + 1] += h[i] >> 8, h[i] &= 255;
    h[0] += 5 * (h[16] >> 2), h[16] &= 3;
    for (int i = 0; i < 16; i++) h[i + 1] += h[i] >> 8, h[i] &= 255;
}

static void times(uint32_t *h, const uint32_t *r) {
    uint32_t product[17];
    for (int i = 0; i < 17; i++) {
        product[i] = 0;
        for (int j = 0; j < 17; j++) product[i] += j <= i ? h[j] * r[i - j] : 320 * h[j] * r[i + 17 - j];
    }
    memcpy(h, product, sizeof product);
    carry(h);
}

static void plain_poly1305(const uint8_t *key, const uint8_t *input, size_t len, uint8_t *tag) {
    uint32_t r[17] = {0}, h[17] = {0}, less[17];
    for (int i = 0; i < 16; i++) r[i] = key[i] & (i % 4 == 3 ? 15 : i > 0 && i % 4 == 0 ? 252 : 255);
    for (size_t at = 0; at < len; at += 16) {
        size_t part = len - at < 16 ? len - at : 16;
        for (size_t i = 0; i < part; i++) h[i] += input[at + i];
        h[part]++;
        carry(h), times(h, r);
    }
    /* 2^130 - 5 is taken away where 5 more reach 2^130. */
    memcpy(less, h, sizeof less);
    less[0] += 5;
    for (int i = 0; i < 16; i++) less[i + 1] += less[i] >> 8, less[i] &= 255;
    if (less[16] >= 4) memcpy(h, less, sizeof less);
    for (int i = 0; i < 16; i++) h[i] += key[16 + i], h[i + 1] += h[i] >> 8, tag[i] = (uint8_t)h[i];
}

static void plain_encrypt(enum layout layout, AEAD_PARAMETERS, uint8_t *tag) {
    uint8_t one_time[32] = {0}, *room = calloc(1, aad_len + len + 48), *at = room;
    if (!room) puts("no memory"), exit(2);
    plain_c.xor_from_block[layout](key, nonce, 0, one_time, one_time, 32);
    plain_c.xor_from_block[layout](key, nonce, 1, output, input, len);
    if (aad_len > 0) memcpy(at, aad, aad_len);
    at += (aad_len + 15) / 16 * 16;
    if (len > 0) memcpy(at, output, len);
    at += (len + 15) / 16 * 16;
    store_le(at, aad_len, 8), store_le(at + 8, len, 8);
    plain_poly1305(one_time, room, (size_t)(at + 16 - room), tag);
    free(room);
}

static void plain_ietf_encrypt(AEAD_PARAMETERS, uint8_t *tag) {
    plain_encrypt(IETF, key, nonce, aad, aad_len, output, input, len, tag);
}
static void plain_xchacha_encrypt(AEAD_PARAMETERS, uint8_t *tag) {
    plain_encrypt(XCHACHA, key, nonce, aad, aad_len, output, input, len, tag);
}

/* Streams. Key, counter and inner nonce are the state; the last two are the nonce of a message. */

static void plain_start(const uint8_t *key, const uint8_t *header, uint8_t *state) {
    plain_hchacha(key, header, state);
    store_le(state + 32, 1, 4), memcpy(state + 36, header + 16, 8);
}

static void plain_rekey(uint8_t *state) {
    uint8_t made[40];
    memcpy(made, state, 32), memcpy(made + 32, state + 36, 8);
    plain_ietf(state, state + 32, 0, made, made, sizeof made);
    memcpy(state, made, 32), store_le(state + 32, 1, 4), memcpy(state + 36, made + 32, 8);
}

/* The tag of a message by its first byte, encrypted, and its encrypted text, and the block that decrypts the first byte. */
static void plain_tag(const uint8_t *state, const uint8_t *aad, size_t aad_len, uint8_t first, const uint8_t *text, size_t len,
                      uint8_t *block, uint8_t *tag) {
    uint8_t one_time[32] = {0}, *room = calloc(1, aad_len + len + 128), *at = room;
    if (!room) puts("no memory"), exit(2);
    plain_ietf(state, state + 32, 0, one_time, one_time, 32);
    memset(block, 0, 64), plain_ietf(state, state + 32, 1, block, block, 64);
    if (aad_len > 0) memcpy(at, aad, aad_len);
    at += (aad_len + 15) / 16 * 16;
    memcpy(at, block, 64), at[0] = first, at += 64;
    if (len > 0) memcpy(at, text, len);
    at += len + len % 16; /* libsodium's own padding */
    store_le(at, aad_len, 8), store_le(at + 8, 64 + len, 8);
    plain_poly1305(one_time, room, (size_t)(at + 16 - room), tag);
    free(room);
}

static void plain_move(uint8_t *state, const uint8_t *mac, uint8_t tag) {
    uint32_t counter = load_32(state + 32) + 1;
    for (int i = 0; i < 8; i++) state[36 + i] ^= mac[i];
    store_le(state + 32, counter, 4);
    if (tag & 2 || counter == 0) plain_rekey(state);
}

static void plain_push(STREAM_PARAMETERS, uint8_t tag) {
    uint8_t block[64] = {0};
    plain_ietf(state, state + 32, 1, block, block, 1);
    output[0] = block[0] ^ tag;
    plain_ietf(state, state + 32, 2, output + 1, input, len);
    plain_tag(state, aad, aad_len, output[0], output + 1, len, block, output + 1 + len);
    plain_move(state, output + 1 + len, tag);
}

static int plain_pull(STREAM_PARAMETERS, uint8_t *tag) {
    uint8_t block[64], mac[16];
    plain_tag(state, aad, aad_len, input[0], input + 1, len - 17, block, mac);
    if (memcmp(mac, input + len - 16, 16) != 0) return CHACHA20_WRONG_TAG;
    *tag = input[0] ^ block[0];
    plain_ietf(state, state + 32, 2, output, input + 1, len - 17);
    plain_move(state, mac, *tag);
    return CHACHA20_OK;
}

const struct other plain_c = {
    .name = "plain C", .hchacha = plain_hchacha, .poly1305 = plain_poly1305,
    .xor_from_block = {plain_ietf, plain_xchacha, plain_legacy, plain_legacy_12, plain_legacy_8},
    .encrypt = {plain_ietf_encrypt, plain_xchacha_encrypt},
    .start = plain_start, .push = plain_push, .pull = plain_pull, .rekey = plain_rekey};

/* The library */

#define CIPHER(NAME, CHECK, ...)                                                                                           \
    static int NAME##_1(const uint8_t *key, const uint8_t *nonce, uint64_t block, uint64_t offset, uint8_t *output,        \
                        const uint8_t *input, size_t len) {                                                                \
        return NAME##_xor(key, nonce, __VA_ARGS__, output, input, len);                                                    \
    }                                                                                                                      \
    static int NAME##_2(const uint8_t *key, const uint8_t *nonce, uint64_t block, uint64_t offset, uint8_t *output,        \
                        size_t len) {                                                                                      \
        return NAME##_keystream(key, nonce, __VA_ARGS__, output, len);                                                     \
    }                                                                                                                      \
    static int NAME##_3(uint64_t block, uint64_t offset, size_t len) { return CHECK(__VA_ARGS__, len); }
CIPHER(chacha20, chacha20_check, 64 * block + offset)
CIPHER(xchacha20, chacha20_check, 64 * block + offset)
CIPHER(chacha20_legacy, chacha20_legacy_check, block, offset)

const struct cipher ciphers[LAYOUTS] = {{chacha20_1, chacha20_2, chacha20_3}, {xchacha20_1, xchacha20_2, xchacha20_3},
                                        {chacha20_legacy_1, chacha20_legacy_2, chacha20_legacy_3}};
const struct aead aeads[AEADS] = {{chacha20_aead_encrypt, chacha20_aead_decrypt}, {xchacha20_aead_encrypt, xchacha20_aead_decrypt}};

/* Of chacha20.c; the Makefile shows it. A library of one level has no choice. */
extern int level __attribute__((weak));

int level_here(void) {
#if defined(__x86_64__)
    __builtin_cpu_init();
    if (!__builtin_cpu_supports("sse4.2") || !__builtin_cpu_supports("popcnt")) return 1;
    return __builtin_cpu_supports("avx2") && __builtin_cpu_supports("fma") && __builtin_cpu_supports("bmi2") ? 3 : 2;
#else
    return 0;
#endif
}

int find_levels(void) {
    int here = level_here();
    if (!&level) return 1;
    if (here < 3) printf("skipped, no x86-64-v%d\n", here + 1);
    if (level != here) printf("wrong: level %d is chosen where %d can run\n", level, here), exit(1);
    return here;
}

const char *set_level(int at) {
    static const char *const names[] = {"x86-64", "x86-64-v2", "x86-64-v3"};
    if (!&level) return "the one level";
    level = at + 1;
    return names[at];
}
