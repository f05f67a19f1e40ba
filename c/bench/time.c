/* SPDX-License-Identifier: Apache-2.0 OR MIT

   time [PASSES]: nanoseconds of a call, its key and nonce included, by each level of the library and by others, which all must
   make the same bytes. A call's time also depends on where its stack and its buffers lie modulo 4096. So each turn has another
   place, whose time is the least of its turns, in processor time: what else runs disturbs that least. A row has the medians of
   the places, and then, of the highest level, median and most divided by the median of the first of the others. */

#define _GNU_SOURCE

#include <dlfcn.h>
#include <stdio.h>
#include <stdlib.h>
#include <string.h>
#include <time.h>

#include "../tests/compare.h"

static int count, levels;
enum { OTHERS = 3, MOST = MOST_LEVELS + OTHERS, PAGE = 4096, PLACES = PAGE / 16, ROOM = (1 << 16) + 3 * PAGE, TAG = 16 };

static const size_t lengths[] = {0, 16, 64, 128, 256, 512, 1024, 1500, 4096, 1 << 16};
enum { LENGTHS = sizeof lengths / sizeof lengths[0], TASKS = 4 * LENGTHS };

static struct contestant { const char *name; int level; const struct other *other; } all[MOST]; /* a level, or another */
static double times[TASKS][MOST][PLACES];
static uint8_t output_room[ROOM] __attribute__((aligned(4096))), input_room[ROOM] __attribute__((aligned(4096)));
static const uint8_t key[32] = {1, 2, 3}, nonce[12] = {4, 5, 6}, aad[13] = {7};

/* Ciphers and then messages; of each, calls in place and then between two buffers. */
static int is_message(int task) { return task / LENGTHS / 2; }

static int has(int i, int task) {
    return !all[i].other || (is_message(task) ? all[i].other->encrypt[IETF] != NULL : all[i].other->xor_from_block[IETF] != NULL);
}

static void call(int i, int task, uint8_t *output, const uint8_t *input) {
    const struct other *other = all[i].other;
    size_t len = lengths[task % LENGTHS];
    if (task / LENGTHS % 2 == 0) input = output;
    if (!is_message(task) && other) other->xor_from_block[IETF](key, nonce, 0, output, input, len);
    else if (!is_message(task)) (void)!ciphers[IETF].xor(key, nonce, 0, 0, output, input, len);
    else if (other) other->encrypt[IETF](key, nonce, aad, sizeof aad, output, input, len, output + len);
    else (void)!aeads[IETF].encrypt(key, nonce, aad, sizeof aad, output, input, len, output + len);
}

/* The time of a call at a place, which moves the stack by a multiple of 16 bytes and each buffer by one of 64. The first call
   isn't counted: it brings code and data near, and its bytes are compared. */
static double at_place(int i, int task, int place, int calls) {
    static uint8_t right[ROOM];
    volatile uint8_t moved[80 * place + 1];
    uint8_t *output = output_room + 64 * (30 * place % (PAGE / 64)), *input = input_room + 64 * (44 * place % (PAGE / 64));
    size_t len = lengths[task % LENGTHS] + (is_message(task) ? TAG : 0);
    struct timespec begin, end;
    moved[0] = 0;
    if (!all[i].other) set_level(all[i].level);
    memset(output, 1, len), memset(input, 1, len);
    call(i, task, output, input);
    if (place == 0 && i == 0) memcpy(right, output, len);
    if (place == 0 && memcmp(output, right, len) != 0) printf("wrong: other bytes by contestant %d\n", i), exit(1);
    clock_gettime(CLOCK_PROCESS_CPUTIME_ID, &begin);
    for (int j = 0; j < calls; j++) call(i, task, output, input);
    clock_gettime(CLOCK_PROCESS_CPUTIME_ID, &end);
    return ((double)(end.tv_sec - begin.tv_sec) * 1e9 + (double)(end.tv_nsec - begin.tv_nsec)) / calls + moved[0];
}

/* A turn at each place, of which each begins with another contestant. */
static void take_turns(int task) {
    int calls[MOST];
    for (int i = 0; i < count; i++) calls[i] = has(i, task) ? (int)(4 + 1e5 / (1 + at_place(i, task, 0, 4))) : 0;
    for (int turn = 0; turn < PLACES * count; turn++) {
        int place = turn / count, i = (place + turn) % count;
        double *least = &times[task][i][place], time = has(i, task) ? at_place(i, task, place, calls[i]) : 0;
        if (*least == 0 || time < *least) *least = time;
    }
}

static int is_less(const void *one, const void *other) { return *(const double *)one > *(const double *)other ? 1 : -1; }

static void print_row(int task) {
    printf("| %s of %zu bytes%s |", is_message(task) ? "message" : "cipher", lengths[task % LENGTHS], task / LENGTHS % 2 ? ", two buffers" : "");
    for (int i = 0; i < count; i++) {
        qsort(times[task][i], PLACES, sizeof(double), is_less);
        printf(has(i, task) ? " %.0f |" : " |", times[task][i][PLACES / 2]);
    }
    const double *time = times[task][levels - 1], by = times[task][levels < count ? levels : 0][PLACES / 2];
    printf(" %.2f, %.2f |\n", time[PLACES / 2] / by, time[PLACES - 1] / by);
}

/* OpenSSL: the counter is in front of the nonce, in 16 bytes together. A context keeps its cipher, which is fetched once. */
static void *(*evp_new)(void), *(*evp_chacha20)(void), *(*evp_aead)(void), *xor_context, *aead_context;
static int (*evp_init)(void *, void *, void *, const uint8_t *, const uint8_t *), (*evp_ctrl)(void *, int, int, void *);
static int (*evp_update)(void *, uint8_t *, int *, const uint8_t *, int), (*evp_final)(void *, uint8_t *, int *);

static void openssl_xor(const uint8_t *key, const uint8_t *nonce, uint64_t block, uint8_t *output, const uint8_t *input, size_t len) {
    uint8_t iv[16] = {(uint8_t)block};
    int out = 0;
    memcpy(iv + 4, nonce, 12);
    if (!evp_init(xor_context, NULL, NULL, key, iv) || (len && !evp_update(xor_context, output, &out, input, (int)len))) abort();
}

static void openssl_encrypt(AEAD_PARAMETERS, uint8_t *tag) {
    enum { GET_TAG = 0x10 };
    int out = 0, done = evp_init(aead_context, NULL, NULL, key, nonce) && evp_update(aead_context, NULL, &out, aad, (int)aad_len) &&
                        (!len || evp_update(aead_context, output, &out, input, (int)len)) &&
                        evp_final(aead_context, output, &out) && evp_ctrl(aead_context, GET_TAG, TAG, tag);
    if (!done) abort();
}

static int find_openssl(struct other *found) {
    void *it = dlopen("libcrypto.so.3", RTLD_NOW | RTLD_LOCAL);
    if (!it || !look_up(it, "EVP_CIPHER_CTX_new", &evp_new) || !look_up(it, "EVP_chacha20", &evp_chacha20) ||
        !look_up(it, "EVP_EncryptInit_ex", &evp_init) || !look_up(it, "EVP_EncryptUpdate", &evp_update) ||
        !look_up(it, "EVP_chacha20_poly1305", &evp_aead) || !look_up(it, "EVP_EncryptFinal_ex", &evp_final) ||
        !look_up(it, "EVP_CIPHER_CTX_ctrl", &evp_ctrl) || !evp_init(xor_context = evp_new(), evp_chacha20(), NULL, NULL, NULL) ||
        !evp_init(aead_context = evp_new(), evp_aead(), NULL, NULL, NULL)) return 0;
    *found = (struct other){.name = "OpenSSL", .xor_from_block = {openssl_xor}, .encrypt = {openssl_encrypt}};
    return 1;
}

/* BoringSSL, by Debian's android-libboringssl: messages alone. OpenSSL's library has its names, so it has a space of its own. */
static void *(*boringssl_new)(const void *, const uint8_t *, size_t, size_t);
static void (*boringssl_free)(void *);
static const void *(*boringssl_aead)(void);
static int (*boringssl_seal)(const void *, uint8_t *, size_t *, size_t, const uint8_t *, size_t, const uint8_t *, size_t, const uint8_t *, size_t);

static void boringssl_encrypt(AEAD_PARAMETERS, uint8_t *tag) {
    void *context = boringssl_new(boringssl_aead(), key, 32, TAG);
    if (tag != output + len || !boringssl_seal(context, output, &len, len + TAG, nonce, 12, input, len, aad, aad_len)) abort();
    boringssl_free(context);
}

static int find_boringssl(struct other *found) {
    void *it = dlmopen(LM_ID_NEWLM, "/usr/lib/x86_64-linux-gnu/android/libcrypto.so.0", RTLD_NOW);
    if (!it || !look_up(it, "EVP_AEAD_CTX_new", &boringssl_new) || !look_up(it, "EVP_AEAD_CTX_free", &boringssl_free) ||
        !look_up(it, "EVP_aead_chacha20_poly1305", &boringssl_aead) || !look_up(it, "EVP_AEAD_CTX_seal", &boringssl_seal)) return 0;
    *found = (struct other){.name = "BoringSSL", .encrypt = {boringssl_encrypt}};
    return 1;
}

int main(int argc, char **argv) {
    static int (*const find[OTHERS])(struct other *) = {find_sodium, find_openssl, find_boringssl};
    static struct other others[OTHERS];
    const int passes = argc > 1 ? atoi(argv[1]) : 32;
    count = levels = find_levels();
    for (int i = 0; i < count; i++) all[i] = (struct contestant){set_level(i), i, NULL};
    for (int i = 0; i < OTHERS; i++) all[count] = (struct contestant){NULL, 0, &others[i]}, count += find[i](&others[i]);
    /* A task has its turns over the whole time, so that a minute in which the machine is busy isn't that of one task. */
    for (int i = 0; i < passes * TASKS; i++) take_turns(i % TASKS);
    printf("| nanoseconds |");
    for (int i = 0; i < count; i++) printf(" %s |", all[i].other ? all[i].other->name : all[i].name);
    printf(" |\n%.*s|\n", 4 * (count + 2), "|---|---|---|---|---|---|---|---");
    for (int task = 0; task < TASKS; task++) print_row(task);
    printf("time: %d rows, %d turns at each of %d places\n", TASKS, passes, PLACES);
    return passes < 1;
}
