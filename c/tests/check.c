/* SPDX-License-Identifier: Apache-2.0 OR MIT

   The library beside other implementations: random messages, cut at random places, whose parts are combined in random
   order, in place or between buffers, by different levels; words of generators; authenticated messages, forgeries of them, and
   MACs of sums around 2^130 - 5; streams, chunks of sealed files, and a file of `seal`. Buffers often lie at the ends of mapped
   pages. Then ends of streams, and lengths that need more than 32 bits. The random numbers of a turn are those of its seed, so
   that each turn can be repeated.

   compare check [BYTES [SEED]]   compares the library with libsodium and plain C; the last line says how many bytes, and how
                                  many of them differ. The first turn is that of SEED
   compare plain [BYTES [SEED]]   the same with the plain C of builds.c alone */

#define _GNU_SOURCE

#include <inttypes.h>
#include <stdio.h>
#include <stdlib.h>
#include <string.h>
#include <sys/mman.h>
#include <unistd.h>

#include "compare.h"

/* In the room there is a page beside the longest message. */
enum { PAGE = 4096, LONGEST = 1 << 22, ROOM = LONGEST + PAGE };
enum { OFTEN_LONGEST = 1 << 18, MOST_CUTS = 40, TAG = CHACHA20_TAG_BYTES, MOST_AAD = 20000 };

/* The cases of a kind that a run makes at least, and of calls by each level. */
enum { KINDS = 6, LEAST_CASES = 10, LEAST_CALLS = 100 };

struct run {
    int level_count;
    const char *level;             /* the one that runs */
    const struct other *others[2]; /* the found one, if it is wanted, or else plain C, and plain C */
    uint64_t random, seed;         /* the seed of the turn */
    uint64_t bytes, differences, cases[KINDS], calls[MOST_LEVELS];
};

static const size_t nonce_len[LAYOUTS] = {12, 24, 8};

/* A position in a stream: those of the legacy layout have more than 64 bits. */
__extension__ typedef unsigned __int128 wide;

enum way { IN_PLACE, BETWEEN, KEYSTREAM, FILL };

/* A call of a cipher, or a read of a generator, that makes so many bytes; the position is in bytes in both. */
struct call {
    enum layout layout;
    enum way way;
    uint64_t block, offset;
    size_t len;
    uint8_t *output;
    const uint8_t *input;
};

static uint8_t *input, *expected, *made;

static uint8_t *reserve(size_t size) {
    uint8_t *room = mmap(NULL, size, PROT_NONE, MAP_PRIVATE | MAP_ANONYMOUS | MAP_NORESERVE, -1, 0);
    if (room == MAP_FAILED) puts("no room for addresses"), exit(2);
    return room;
}

/* Between pages that can't be touched. */
static uint8_t *room(void) {
    uint8_t *pages = reserve(ROOM + 2 * PAGE) + PAGE;
    if (mprotect(pages, ROOM, PROT_READ | PROT_WRITE) != 0) puts("no pages"), exit(2);
    return pages;
}

/* splitmix64 */
static uint64_t next(struct run *run) {
    uint64_t x = run->random += 0x9e3779b97f4a7c15;
    x = (x ^ x >> 30) * 0xbf58476d1ce4e5b9;
    x = (x ^ x >> 27) * 0x94d049bb133111eb;
    return x ^ x >> 31;
}

static uint64_t below(struct run *run, uint64_t end) { return next(run) % end; }

static void random_bytes(struct run *run, uint8_t *bytes, size_t len) {
    for (size_t i = 0; i < len; i++) bytes[i] = (uint8_t)(next(run) >> 56);
}

static void wrong(struct run *run, uint64_t count, const char *what) {
    run->differences += count;
    if (run->differences - count < 10) printf("difference: %s; again: compare check 1 %" PRIu64 "\n", what, run->seed);
}

static void same_bytes(struct run *run, const uint8_t *found, const uint8_t *right, size_t len, const char *what) {
    uint64_t count = 0;
    if (memcmp(found, right, len) == 0) return;
    for (size_t i = 0; i < len; i++) count += found[i] != right[i];
    wrong(run, count, what);
}

static void holds(struct run *run, int fact, const char *what) { if (!fact) wrong(run, 1, what); }

/* What a call made. */
static void right_call(struct run *run, const struct call *it, const uint8_t *found, const uint8_t *right) {
    char text[300];
    if (memcmp(found, right, it->len) == 0) return;
    snprintf(text, sizeof text, "level %s, layout %d, way %d, block %" PRIu64 ", offset %" PRIu64 ", %zu bytes at %p from %p", run->level,
             it->layout, it->way, it->block, it->offset, it->len, (void *)it->output, (const void *)it->input);
    same_bytes(run, found, right, it->len, text);
}

static void any_level(struct run *run) {
    int at = (int)below(run, (uint64_t)run->level_count);
    run->calls[at]++;
    run->level = set_level(at);
}

static const struct other *any_other(struct run *run) { return run->others[below(run, 8) == 0]; }

/* What the bytes become by another implementation, which knows blocks alone. The room has 64 bytes more. */
static const uint8_t *by_other(const struct other *other, enum layout layout, const uint8_t *key, const uint8_t *nonce,
                               wide position, const uint8_t *bytes, size_t len, uint8_t *room) {
    size_t before = (size_t)(position % 64);
    memset(room, 0, before);
    memcpy(room + before, bytes, len);
    other->xor_from_block[layout](key, nonce, (uint64_t)(position / 64), room, room, before + len);
    return room + before;
}

static size_t random_length(struct run *run) {
    static const size_t ends[] = {70, 300, 2000, 20000, OFTEN_LONGEST};
    return below(run, (below(run, 200) == 0 ? LONGEST : ends[below(run, 5)]) + 1);
}

/* A position from which so many bytes can be taken. */
static wide random_position(struct run *run, enum layout layout, size_t len) {
    wide last = (layout == LEGACY ? (wide)1 << 70 : CHACHA20_STREAM_BYTES) - len;
    switch (below(run, 6)) {
        case 0: return below(run, 2) * below(run, 5000);
        case 1: return ((wide)1 << 32) - below(run, LONGEST);
        case 2: return (layout == LEGACY ? (wide)1 << 38 : last / 2) - below(run, LONGEST);
        case 3: return last - below(run, 2) * below(run, 5000);
        case 4: return (layout == LEGACY ? (wide)1 << 64 : last / 3) - below(run, LONGEST);
        default: return (((wide)next(run) << 64) + next(run)) % last;
    }
}

/* The position as the calls take it; blocks of a legacy position are moved into its offset, as far as it has room. */
static struct call at_position(struct run *run, enum layout layout, wide position) {
    struct call call = {.layout = layout, .block = (uint64_t)(position / 64), .offset = (uint64_t)(position % 64)};
    if (position / 64 > UINT64_MAX) call.block = UINT64_MAX, call.offset = (uint64_t)(position - (wide)64 * UINT64_MAX);
    if (layout == LEGACY && below(run, 2)) {
        uint64_t most = (UINT64_MAX - call.offset) / 64, moved;
        if (most > call.block) most = call.block;
        moved = below(run, 2) ? most : most ? below(run, most) : 0;
        call.block -= moved, call.offset += 64 * moved;
    }
    return call;
}

/* XORs an input to an output, which is null where there is nothing to XOR. */
static int by_cipher(const struct call *it, const uint8_t *key, const uint8_t *nonce) {
    const struct cipher *cipher = &ciphers[it->layout];
    uint8_t *output = it->len ? it->output : NULL;
    if (it->way == IN_PLACE) {
        memmove(it->output, it->input, it->len);
        return cipher->xor(key, nonce, it->block, it->offset, output, output, it->len);
    }
    memset(it->output, 0x55, it->len);
    if (it->way == BETWEEN) return cipher->xor(key, nonce, it->block, it->offset, output, it->len ? it->input : NULL, it->len);
    int answer = cipher->keystream(key, nonce, it->block, it->offset, output, it->len);
    for (size_t i = 0; i < it->len; i++) it->output[i] ^= it->input[i];
    return answer;
}

/* A message whole by another implementation, and in parts by the library. */
static void one_message(struct run *run) {
    uint8_t room[80], *key = room + below(run, 16), *nonce = key + 32;
    random_bytes(run, room, sizeof room);
    enum layout layout = (enum layout)below(run, LAYOUTS);
    size_t len = random_length(run), cuts[MOST_CUTS + 2], order[MOST_CUTS + 1];
    wide position = random_position(run, layout, len);
    int parts = 1 + (int)below(run, below(run, 4) == 0 ? MOST_CUTS + 1 : 4);
    const uint8_t *text = input + (below(run, 2) ? ROOM - len : 0);
    const uint8_t *right = by_other(any_other(run), layout, key, nonce, position, text, len, expected);
    run->bytes += len;
    /* At any place, or at either end of the room. */
    uint8_t *output = made + (size_t[]){0, below(run, 64), ROOM - len}[below(run, 3)];
    memset(output, 0x55, len);
    cuts[0] = 0, cuts[parts] = len;
    for (int i = 1; i < parts; i++) cuts[i] = cuts[i - 1] + below(run, len - cuts[i - 1] + 1);
    for (int i = 0; i < parts; i++) {
        int to = (int)below(run, (uint64_t)i + 1);
        order[i] = order[to], order[to] = (size_t)i;
    }
    for (int i = 0; i < parts; i++) {
        size_t from = cuts[order[i]];
        struct call call = at_position(run, layout, position + from);
        any_level(run), call.way = (enum way)below(run, FILL);
        call.len = cuts[order[i] + 1] - from, call.output = output + from, call.input = text + from;
        holds(run, by_cipher(&call, key, nonce) == CHACHA20_OK, "a part was refused");
        right_call(run, &call, call.output, right + from);
    }
    same_bytes(run, output, right, len, "bytes beside a part");
}

/* Words of the legacy layout from a block on, by another implementation; after the last block comes the first. */
static void wrapping_blocks(const struct other *other, enum layout layout, const uint8_t *key, const uint8_t *nonce, uint64_t block,
                            uint8_t *room, size_t len) {
    size_t to_end = block > UINT64_MAX - LONGEST ? 64 * (size_t)(UINT64_MAX - block) + 64 : len;
    if (to_end > len) to_end = len;
    memset(room, 0, len);
    other->xor_from_block[layout](key, nonce, block, room, room, to_end);
    if (to_end < len) other->xor_from_block[layout](key, nonce, 0, room + to_end, room + to_end, len - to_end);
}

/* Reads of a generator: its stream is that of the legacy cipher under the seed, from the word's place on, and begins
   again after 2^68 words. Only plain C has fewer rounds. */
static void one_generator(struct run *run) {
    static void (*const fills[])(uint8_t *state, uint8_t *output, size_t len) = {chacha20_rng_fill, chacha12_rng_fill, chacha8_rng_fill};
    enum layout layout = (enum layout)(LEGACY + below(run, 3));
    const struct other *other = layout == LEGACY ? any_other(run) : &plain_c;
    uint8_t seed[32], nonce[24], room[64], kept[CHACHA20_RNG_STATE_BYTES];
    uint8_t *state = room + below(run, 16), *own = room + below(run, 33);
    random_bytes(run, seed, sizeof seed), random_bytes(run, nonce, sizeof nonce);
    size_t words = random_length(run) / 4, done = 0;
    uint8_t *output = made + (below(run, 2) ? ROOM - 4 * words : 0);
    uint64_t block = next(run) >> below(run, 64), stream = 0, low, high;
    unsigned in_block = (unsigned)below(run, 16);
    for (int i = 7; i >= 0; i--) stream = stream << 8 | nonce[i];
    if (below(run, 4) == 0) block = UINT64_MAX - below(run, below(run, 2) ? 8 : LONGEST / 64);
    wrapping_blocks(other, layout, seed, nonce, block, expected, 4 * (words + in_block));
    const uint8_t *right = expected + 4 * in_block;
    /* At any address; the state may lie on the seed. */
    memcpy(own, seed, sizeof seed), any_level(run), chacha20_rng_from_seed(own, state);
    for (int i = 32; i < 49; i++) holds(run, state[i] == 0, "a seed's first word");
    any_level(run), chacha20_rng_set_stream(state, stream);
    if (in_block == 0) chacha20_rng_set_block_pos(state, block);
    else chacha20_rng_set_word_pos(state, block << 4 | in_block, block >> 60 | next(run) << 4);
    while (done < words) {
        size_t left = 4 * (words - done), len = below(run, (left < 70 || below(run, 2) ? left : 70) + 1);
        struct call call = {layout, FILL, block + (in_block + done) / 16, (in_block + done) % 16 * 4, len, output + 4 * done, NULL};
        any_level(run), state[48] |= (uint8_t)(below(run, 16) << 4);
        fills[layout - LEGACY](state, call.len ? call.output : NULL, call.len);
        if (call.len == 0) state[48] &= 15;
        right_call(run, &call, call.output, right + 4 * done);
        /* What is left of the last word is lost. */
        done += (call.len + 3) / 4;
        holds(run, state[48] < 16, "the upper half of a written state's last byte");
    }
    wide word_pos = (((wide)block << 4) + in_block + words) % ((wide)1 << 68);
    state[48] |= (uint8_t)(below(run, 16) << 4);
    memcpy(kept, state, sizeof kept);
    any_level(run), chacha20_rng_get_word_pos(state, &low, &high);
    holds(run, low == (uint64_t)word_pos && high == (uint64_t)(word_pos >> 64), "a word position");
    holds(run, chacha20_rng_get_block_pos(state) == (uint64_t)(word_pos / 16), "a block position");
    holds(run, chacha20_rng_get_stream(state) == stream && memcmp(state, seed, 32) == 0, "a stream or a seed");
    same_bytes(run, state, kept, sizeof kept, "a state that was read");
    any_level(run), chacha20_rng_set_block_pos(state, block), chacha20_rng_get_word_pos(state, &low, &high);
    holds(run, low == block << 4 && high == block >> 60 && chacha20_rng_get_stream(state) == stream, "a block's first word");
    any_level(run), chacha20_rng_set_stream(state, stream + 1), chacha20_rng_get_word_pos(state, &low, &high);
    holds(run, low == 0 && high == 0 && state[48] == 0 && chacha20_rng_get_stream(state) == stream + 1, "another stream begins");
    holds(run, memcmp(state, seed, 32) == 0, "a seed after another stream");
}

/* Key and stream of zeros with 12 and 8 rounds (draft-strombergson-chacha-test-vectors, TC1, 256 bits). */
static void published_words(struct run *run) {
    static const char *const known[] = {"\x9b\xf4\x9a\x6a\x07\x55\xf9\x53\x81\x1f\xce\x12\x5f\x26\x83\xd5",
                                        "\x3e\x00\xef\x2f\x89\x5f\x40\xd6\x7f\x5b\xb8\xe8\x1f\x09\xa5\xa1"};
    for (int i = 0; i < 2; i++) {
        uint8_t state[CHACHA20_RNG_STATE_BYTES] = {0}, words[16];
        (i ? chacha8_rng_fill : chacha12_rng_fill)(state, words, sizeof words);
        same_bytes(run, words, (const uint8_t *)known[i], sizeof words, "published words");
    }
}

/* At any address; the subkey may lie on what it is made of. */
static void one_subkey(struct run *run) {
    uint8_t room[128], right[32], *key = room + below(run, 16), *block = room + 64 + below(run, 16);
    uint8_t *found = room + below(run, sizeof room - 31);
    random_bytes(run, room, sizeof room);
    any_other(run)->hchacha(key, block, right);
    any_level(run), hchacha20(key, block, found);
    same_bytes(run, found, right, sizeof right, "a subkey");
}

/* Authenticated encryption */

/* A message by another implementation: the text is in |input|, the ciphertext in |expected|. */
struct sealed {
    enum layout layout;
    uint8_t odd, key[32], nonce[24], aad[MOST_AAD], tag[TAG]; /* the first makes the places of the others odd */
    size_t aad_len, len;
};

static void seal_by_other(struct run *run, struct sealed *it) {
    any_other(run)->encrypt[it->layout](it->key, it->nonce, it->aad, it->aad_len, expected, input, it->len, it->tag);
}

/* In place, or between buffers of which the output is first filled. Of length 0 buffers are null. */
static int apply(const struct sealed *it, int encrypts, int is_in_place, const uint8_t *from, uint8_t *tag) {
    const struct aead *aead = &aeads[it->layout];
    const uint8_t *aad = it->aad_len ? it->aad : NULL;
    uint8_t *output = it->len ? made : NULL;
    if (is_in_place) memcpy(made, from, it->len);
    else memset(made, 0x55, it->len);
    if (is_in_place || !it->len) from = output;
    return encrypts ? aead->encrypt(it->key, it->nonce, aad, it->aad_len, output, from, it->len, tag)
                    : aead->decrypt(it->key, it->nonce, aad, it->aad_len, output, from, it->len, tag);
}

static void is_right(struct run *run, struct sealed *it, int is_in_place) {
    uint8_t tag[TAG];
    holds(run, apply(it, 1, is_in_place, input, tag) == CHACHA20_OK, "a message wasn't encrypted");
    same_bytes(run, made, expected, it->len, "a ciphertext");
    same_bytes(run, tag, it->tag, TAG, "a tag");
    holds(run, apply(it, 0, is_in_place, expected, it->tag) == CHACHA20_OK, "a right tag was refused");
    same_bytes(run, made, input, it->len, "a decrypted text");
}

/* A refused message leaves what was there. */
static void is_refused(struct run *run, struct sealed *it, int is_in_place) {
    size_t changed = 0;
    holds(run, apply(it, 0, is_in_place, expected, it->tag) == CHACHA20_WRONG_TAG, "a forgery was taken");
    for (size_t i = 0; i < it->len; i++) changed += made[i] != (is_in_place ? expected[i] : 0x55);
    holds(run, changed == 0, "a forgery was written");
}

/* A bit of one of what the tag depends on is wrong. */
static void forge(struct run *run, struct sealed *it) {
    const struct {
        uint8_t *bytes;
        size_t len;
    } parts[] = {{it->tag, TAG}, {it->key, 32}, {it->nonce, nonce_len[it->layout]}, {it->aad, it->aad_len}, {expected, it->len}};
    size_t which = below(run, sizeof parts / sizeof parts[0]), at = parts[which].len > 0 ? which : 0;
    parts[at].bytes[below(run, parts[at].len)] ^= (uint8_t)(1 << below(run, 8));
    any_level(run), is_refused(run, it, (int)below(run, 2));
}

static void one_sealed(struct run *run) {
    struct sealed it = {.layout = (enum layout)below(run, AEADS), .len = random_length(run)};
    it.aad_len = below(run, below(run, 4) ? 70 : below(run, 2) ? 3000 : MOST_AAD + 1);
    random_bytes(run, it.key, sizeof it.key), random_bytes(run, it.nonce, sizeof it.nonce), random_bytes(run, it.aad, it.aad_len);
    seal_by_other(run, &it);
    any_level(run), is_right(run, &it, (int)below(run, 2));
    forge(run, &it);
}

/* A text whose blocks have the sum 2^130 - 2 + 5 * fours - less modulo 2^130 - 5, under a key of 1: two blocks, and before them
   blocks of zeros, of which four add 2^130. An accumulator that isn't reduced at the end, or too often, makes a wrong tag. */
static size_t close_to_prime(uint8_t *key, uint8_t *text, size_t fours, uint8_t less) {
    memset(key, 0, 16), key[0] = 1;
    memset(text, 0, 64 * fours), memset(text + 64 * fours, 255, 32);
    text[64 * fours] = (uint8_t)(255 - less);
    return 64 * fours + 32;
}

/* The MAC alone, under any key at any address, on which the tag may lie; and the verification of tags. */
static void one_tag(struct run *run) {
    uint8_t room[64], right[TAG], *key = room + below(run, 16), *tag = room + below(run, sizeof room - TAG + 1);
    int kind = (int)below(run, 4);
    size_t len = below(run, 3000);
    random_bytes(run, room, sizeof room), random_bytes(run, input, len);
    if (kind == 0) len = close_to_prime(key, input, below(run, 3), (uint8_t)below(run, 12));
    if (kind == 1) memset(key, 255, 16), memset(input, 255, len);
    any_other(run)->poly1305(key, input, len, right);
    any_level(run), chacha20_onetime_poly1305(key, len ? input : NULL, len, tag);
    same_bytes(run, tag, right, TAG, "a MAC");
    size_t compared = below(run, 100), at = below(run, compared + 1);
    memcpy(made, input, compared);
    holds(run, chacha20_verify(input, made, compared) == CHACHA20_OK, "equal bytes were refused");
    made[at] ^= (uint8_t)(1 << below(run, 8));
    holds(run, chacha20_verify(made, input, compared) == (at == compared ? CHACHA20_OK : CHACHA20_WRONG_TAG), "unequal bytes");
    holds(run, chacha20_verify(NULL, NULL, 0) == CHACHA20_OK, "no bytes were refused");
}

static void sealed_by_each_length(struct run *run) {
    static struct sealed it;
    random_bytes(run, it.key, sizeof it.key), random_bytes(run, it.nonce, sizeof it.nonce), random_bytes(run, it.aad, 41);
    for (it.len = 0; it.len <= 300; it.len++) {
        for (it.aad_len = 0; it.aad_len <= 40; it.aad_len++) {
            it.layout = (enum layout)((it.len + it.aad_len) % AEADS);
            it.nonce[0]++;
            seal_by_other(run, &it);
            is_right(run, &it, it.aad_len % 2), is_right(run, &it, !(it.aad_len % 2));
        }
    }
}

/* Streams, whose states are bytes, so that the library and another implementation can go on with each other's. */

enum { STATE = CHACHA20_SECRETSTREAM_STATE_BYTES, MORE = CHACHA20_SECRETSTREAM_OVERHEAD_BYTES, MESSAGES = 10 };

/* A message that is in |expected|: pulled by the library, after a forgery of it, and by the other. */
static void pull_message(struct run *run, const struct other *other, const uint8_t *state, uint8_t *aad, size_t aad_len, size_t len,
                         uint8_t tag, const uint8_t *after) {
    uint8_t own[STATE], kept[STATE], found = tag ^ 0x80, *output = len ? made : NULL, *part;
    memcpy(own, state, STATE);
    part = (uint8_t *[]){expected, expected + len + MORE - 1, expected + below(run, len + MORE), own + below(run, 32), own + 36}[below(run, 5)];
    if (aad_len && below(run, 8) == 0) part = aad + below(run, aad_len);
    *part ^= 0x10, memcpy(kept, own, STATE), memset(made, 0x55, len);
    any_level(run);
    holds(run, chacha20_secretstream_pull(own, aad_len ? aad : NULL, aad_len, output, expected, len + MORE, &found) == CHACHA20_WRONG_TAG,
          "a forged message of a stream");
    for (size_t i = 0; i < len; i++) holds(run, made[i] == 0x55, "a forged message was written");
    holds(run, found == (tag ^ 0x80), "a forged tag byte was written");
    same_bytes(run, own, kept, STATE, "a state moved by a forgery");
    *part ^= 0x10, memcpy(own, state, STATE), memcpy(kept, state, STATE);
    holds(run, chacha20_secretstream_pull(own, aad_len ? aad : NULL, aad_len, output, expected, len + MORE, &found) == CHACHA20_OK &&
                   found == tag, "a message of a stream was refused");
    same_bytes(run, made, input, len, "a pulled text");
    same_bytes(run, own, after, STATE, "a receiver's state");
    holds(run, other->pull(kept, aad, aad_len, made, expected, len + MORE, &found) == CHACHA20_OK && found == tag, "another's pull");
    same_bytes(run, kept, after, STATE, "another's state");
}

static void one_message_of_stream(struct run *run, const struct other *other, uint8_t *state) {
    static uint8_t aad[MOST_AAD];
    uint8_t own[STATE], after[STATE], tag = (uint8_t)below(run, below(run, 2) ? 4 : 256);
    size_t len = below(run, 20) ? below(run, 400) : below(run, 140000), aad_len = below(run, 2) * below(run, below(run, 9) ? 50 : MOST_AAD);
    random_bytes(run, aad, aad_len);
    memcpy(own, state, STATE), memcpy(after, state, STATE);
    other->push(after, aad, aad_len, expected, input, len, tag);
    memset(made, 0x55, len + MORE), any_level(run);
    holds(run, chacha20_secretstream_push(own, aad_len ? aad : NULL, aad_len, made, len ? input : NULL, len, tag) == CHACHA20_OK,
          "a message wasn't pushed");
    same_bytes(run, made, expected, len + MORE, "a message of a stream");
    same_bytes(run, own, after, STATE, "a sender's state");
    pull_message(run, other, state, aad, aad_len, len, tag, after);
    memcpy(state, after, STATE);
    if (below(run, 8)) return;
    any_level(run), chacha20_secretstream_rekey(state), other->rekey(after);
    same_bytes(run, state, after, STATE, "another key");
}

/* The counter of some is close to its end. */
static void one_stream(struct run *run) {
    uint8_t room[100], right[STATE], *key = room + below(run, 9), *header = room + 41, *state = room + below(run, sizeof room - STATE);
    const struct other *other = any_other(run);
    random_bytes(run, room, sizeof room);
    other->start(key, header, right);
    any_level(run), chacha20_secretstream_start(key, header, state);
    same_bytes(run, state, right, STATE, "a stream's first state");
    if (below(run, 4) == 0) memset(state + 32, 255, 4), state[32] -= (uint8_t)below(run, MESSAGES);
    for (int i = 0; i < MESSAGES; i++) one_message_of_stream(run, other, state);
}

/* More messages than a counter of 16 bits has. */
static void long_stream(struct run *run) {
    uint8_t state[STATE] = {5}, right[STATE] = {5};
    for (size_t i = 0; i < 70000; i++) {
        size_t len = i % 5;
        run->others[0]->push(right, NULL, 0, expected, input, len, 0);
        holds(run, chacha20_secretstream_push(state, NULL, 0, made, input, len, 0) == CHACHA20_OK, "a message of a long stream");
        same_bytes(run, made, expected, len + MORE, "a message of a long stream");
    }
    same_bytes(run, state, right, STATE, "a long stream's state");
}

/* Sealed files */

enum { TEXT = CHACHA20_FILE_TEXT_BYTES, SALT = CHACHA20_FILE_SALT_BYTES };

/* A chunk, whose nonce is the salt, the number and whether it is the last. */
struct chunk {
    uint8_t key[32], nonce[24];
    uint64_t number;
    int last;
    size_t len; /* of the text */
};

/* The answer to a chunk of this length, if all else is right. */
static int of_length(const struct chunk *it) {
    return it->len == TEXT || (it->last && it->len < TEXT && (it->len || !it->number)) ? CHACHA20_OK : CHACHA20_REFUSED;
}

/* In place, or between buffers of which the output is first filled. */
static int apply_chunk(const struct chunk *it, int seals, int is_in_place, const uint8_t *from) {
    size_t len = seals ? it->len : it->len + TAG, written = seals ? it->len + TAG : it->len;
    if (is_in_place) memcpy(made, from, len), from = made;
    else memset(made, 0x55, written);
    return (seals ? chacha20_file_seal_chunk : chacha20_file_open_chunk)(it->key, it->nonce, it->number, it->last, written ? made : NULL,
                                                                         len ? from : NULL, len);
}

static void forged_chunk(struct run *run, struct chunk it, int is_in_place) {
    uint8_t *parts[] = {it.key + below(run, 32), it.nonce + below(run, SALT), (uint8_t *)&it.number, expected + below(run, it.len + TAG)};
    uint8_t *part = parts[below(run, 4)];
    int turns = below(run, 5) == 0;
    if (turns) it.last = !it.last;
    else *part ^= 0x20;
    int wanted = of_length(&it) == CHACHA20_OK ? CHACHA20_WRONG_TAG : CHACHA20_REFUSED;
    holds(run, apply_chunk(&it, 0, is_in_place, expected) == wanted, "a forged chunk");
    for (size_t i = 0; i < it.len; i++) holds(run, made[i] == (is_in_place ? expected[i] : 0x55), "a forged chunk was written");
    if (!turns) *part ^= 0x20;
}

static void one_chunk(struct run *run) {
    struct chunk it = {.number = next(run) >> 32 >> below(run, 33), .last = (int)below(run, 2)};
    random_bytes(run, it.key, 32), random_bytes(run, it.nonce, SALT);
    it.len = it.last ? below(run, (below(run, 2) ? 300 : TEXT) + 1) : TEXT;
    if (it.number) it.len += !it.len;
    for (int i = 0; i < 4; i++) it.nonce[SALT + i] = (uint8_t)(it.number >> (24 - 8 * i));
    it.nonce[23] = (uint8_t)it.last, it.last *= 1 + (int)below(run, 300);
    any_other(run)->encrypt[XCHACHA](it.key, it.nonce, NULL, 0, expected, input, it.len, expected + it.len);
    int is_in_place = (int)below(run, 2);
    any_level(run);
    holds(run, apply_chunk(&it, 1, is_in_place, input) == CHACHA20_OK, "a chunk wasn't sealed");
    same_bytes(run, made, expected, it.len + TAG, "a chunk");
    forged_chunk(run, it, !is_in_place);
    holds(run, apply_chunk(&it, 0, is_in_place, expected) == CHACHA20_OK, "a chunk wasn't opened");
    same_bytes(run, made, input, it.len, "a chunk's text");
}

/* Lengths of chunks, of files and of headers. */
static void files_of_each_length(struct run *run) {
    static const size_t lengths[] = {0, 1, 63, TEXT - 1, TEXT, TEXT + 1};
    uint8_t header[32], salt[SALT] = "0123456789abcdefgh", found[SALT];
    for (uint32_t i = 0; i < 3 * 2 * sizeof lengths / sizeof lengths[0]; i++) {
        struct chunk it = {.number = i % 3, .last = (int)(i / 3 % 2), .len = lengths[i / 6]};
        int answer = of_length(&it), wanted = answer == CHACHA20_OK ? CHACHA20_WRONG_TAG : CHACHA20_REFUSED;
        holds(run, apply_chunk(&it, 1, 0, input) == answer && apply_chunk(&it, 1, 1, input) == answer, "a length to seal");
        holds(run, apply_chunk(&it, 0, 0, input) == wanted && apply_chunk(&it, 0, 1, input) == wanted, "a length to open");
    }
    struct chunk beyond = {.number = UINT64_C(1) << 32, .len = TEXT};
    for (int i = 0; i < 2; i++)
        holds(run, apply_chunk(&beyond, i, 0, input) == CHACHA20_REFUSED, "a number past the last chunk's");
    for (uint64_t i = 0; i < 2000; i++) {
        wide len = i < 1000 ? i * 131 : next(run) >> i % 60, body = len < 32 ? 0 : len - 32, tags = 16 * ((body + 65551) / 65552);
        holds(run, chacha20_file_text_len((uint64_t)len) == (uint64_t)(body < tags ? 0 : body - tags), "a text's length");
    }
    chacha20_file_header(salt, header);
    holds(run, memcmp(header, "chacha20seal10123456789abcdefgh", 32) == 0, "a header");
    for (size_t len = 0; len < 40; len++) {
        uint8_t file[40] = {0};
        memcpy(file, header, 32), memset(found, 0x55, SALT);
        int wanted = len < 12 ? CHACHA20_NOT_SEALED : len < 32 ? CHACHA20_CUT_HEADER : CHACHA20_OK;
        holds(run, chacha20_file_salt(len ? file : NULL, len, found) == wanted, "a header's length");
        for (int i = 0; i < SALT; i++) holds(run, found[i] == (wanted ? 0x55 : salt[i]), "a header's salt");
        file[len % 13] ^= 1, memset(found, 0x55, SALT);
        if (len >= 12) wanted = len % 13 < 12 ? CHACHA20_NOT_SEALED : wanted ? wanted : CHACHA20_OTHER_VERSION;
        holds(run, chacha20_file_salt(file, len, found) == wanted && found[0] == 0x55, "another header");
    }
}

/* The functions of C_LIBRARY.md. */
#include "page.h"

/* The file that `seal` is tested with, whose key is 0, 1, 2 .., read at any place; its header; and one that was cut. */
static void file_of_seal(struct run *run) {
    static uint8_t bytes[1 << 17], text[CHACHA20_FILE_CHUNK_BYTES];
    uint8_t key[32], salt[SALT], again[32];
    FILE *file = fopen("../../crates/seal/data/numbers.sealed", "rb");
    size_t len = file ? fread(bytes, 1, sizeof bytes, file) : 0, lines = 0;
    if (!file) puts("no file of seal"), exit(2);
    for (int i = 0; i < 32; i++) key[i] = (uint8_t)i;
    holds(run, chacha20_file_salt(bytes, len, salt) == CHACHA20_OK, "the header of seal's file");
    chacha20_file_header(salt, again);
    holds(run, memcmp(again, bytes, 32) == 0, "the header of seal's file");
    for (uint32_t i = 2; i-- > 0;) {
        int size = open_chunk(file, len, i, key, text);
        holds(run, size == (i ? 70000 - TEXT : TEXT), "a chunk of seal's file");
        for (size_t at = 10 * ((TEXT * (size_t)i + 9) / 10); at + 10 <= TEXT * (size_t)i + (size_t)size; at += 10, lines++) {
            char line[24];
            snprintf(line, sizeof line, "%09zu\n", at / 10);
            same_bytes(run, text + (at - TEXT * (size_t)i), (const uint8_t *)line, 10, "a line of seal's file");
        }
    }
    holds(run, lines == 6999 && chacha20_file_text_len(len) == 70000, "the length of seal's file");
    holds(run, open_chunk(file, len - 1, 2, key, text) == -1, "a chunk that seal's file hasn't");
    fclose(file);
}

/* A file as a stream, to libsodium or plain C, and back; and one that was cut. */
static void file_as_stream(struct run *run, size_t len) {
    uint8_t key[32], header[24], state[STATE], tag = 0;
    FILE *file = tmpfile(), *sent = tmpfile(), *received = tmpfile();
    if (!file || !sent || !received) puts("no temporary files"), exit(2);
    random_bytes(run, key, sizeof key), random_bytes(run, header, sizeof header);
    fwrite(input, 1, len, file), rewind(file);
    holds(run, send_stream(file, sent, key, header) == 0, "a file wasn't sent");
    rewind(sent);
    holds(run, receive_stream(sent, received, key) == 0 && getc(sent) == EOF, "a file wasn't received");
    rewind(sent), rewind(received);
    holds(run, fread(made, 1, ROOM, received) == len, "another length was received");
    same_bytes(run, made, input, len, "a received file");
    size_t sent_len = fread(expected, 1, ROOM, sent), at = 24;
    holds(run, memcmp(expected, header, 24) == 0, "a header wasn't sent");
    run->others[0]->start(key, header, state);
    for (size_t done = 0; at < sent_len && tag != 3; at += 4113, done += 4096) {
        size_t part = sent_len - at < 4113 ? sent_len - at : 4113;
        holds(run, run->others[0]->pull(state, NULL, 0, made, expected + at, part, &tag) == CHACHA20_OK, "a sent message");
        same_bytes(run, made, input + done, part - 17, "a sent text");
    }
    rewind(sent), holds(run, ftruncate(fileno(sent), (off_t)sent_len - 1) == 0 && receive_stream(sent, received, key) == -1, "a cut");
    fclose(file), fclose(sent), fclose(received);
}

/* Limits. A refused call touches no byte, so its buffers can lie on pages that can't be touched. */

#define GIB ((size_t)1 << 30)

static const uint8_t far_key[32] = {1, 2, 3}, far_nonce[24] = {4, 5, 6};

/* Lengths that pass the end of the stream by one byte, or by none. */
static void ends(struct run *run) {
    static const size_t lengths[] = {1, 2, 63, 64, 4096, (1 << 20) + 1, 2 * GIB, 4 * GIB - 1, 4 * GIB, 4 * GIB + 1, 5 * GIB};
    uint8_t *room = reserve(11 * GIB);
    for (size_t i = 0; i < LAYOUTS * sizeof lengths / sizeof lengths[0]; i++) {
        /* The last byte is the stream's byte 2^38 or 2^70. */
        const struct cipher *it = &ciphers[i % LAYOUTS];
        size_t len = lengths[i / LAYOUTS];
        uint64_t before = (len + 62) / 64, block = (i % LAYOUTS == LEGACY ? UINT64_MAX : UINT32_MAX) - before;
        uint64_t offset = 64 * (before + 1) - len + 1;
        holds(run, it->xor(far_key, far_nonce, block, offset, room, room, len) == CHACHA20_REFUSED &&
                       it->xor(far_key, far_nonce, block, offset, room, room + len, len) == CHACHA20_REFUSED &&
                       it->keystream(far_key, far_nonce, block, offset, room, len) == CHACHA20_REFUSED &&
                       it->check(block, offset, len) == CHACHA20_REFUSED && it->check(block, offset - 1, len) == CHACHA20_OK,
              "the end of the stream");
        holds(run, it->xor(far_key, far_nonce, block, offset + len, NULL, NULL, 0) == CHACHA20_REFUSED &&
                       it->keystream(far_key, far_nonce, block, offset + len, NULL, 0) == CHACHA20_REFUSED &&
                       it->xor(far_key, far_nonce, block, offset + len - 1, NULL, NULL, 0) == CHACHA20_OK,
              "nothing at the end of the stream");
    }
    munmap(room, 11 * GIB);
}

/* Messages and associated data that are too long, each beside what isn't; no two buffers overlap. */
static void too_long(struct run *run) {
    const size_t far = 1 << 9, lengths[] = {CHACHA20_AEAD_LONGEST + 1, CHACHA20_STREAM_BYTES, far * GIB - 1};
    uint8_t *room = reserve(3 * far * GIB), *other = room + far * GIB, *aad = other + far * GIB, tag[TAG];
    for (int i = 0; i < 3 * AEADS; i++) {
        const struct aead *it = &aeads[i % AEADS];
        const size_t len = lengths[i / AEADS], none = (size_t)PTRDIFF_MAX + 1;
        holds(run, it->encrypt(far_key, far_nonce, aad, 0, room, room, len, tag) == CHACHA20_REFUSED &&
                       it->encrypt(far_key, far_nonce, aad, 0, room, other, len, tag) == CHACHA20_REFUSED &&
                       it->decrypt(far_key, far_nonce, aad, 0, room, room, len, tag) == CHACHA20_REFUSED &&
                       it->decrypt(far_key, far_nonce, aad, 0, room, other, len, tag) == CHACHA20_REFUSED &&
                       it->encrypt(far_key, far_nonce, aad, none, tag, tag, 0, tag) == CHACHA20_REFUSED &&
                       it->decrypt(far_key, far_nonce, aad, none, tag, tag, 0, tag) == CHACHA20_REFUSED,
              "what is too long was taken");
    }
    /* Of a message of a stream, the first byte and the last 16 may be read before it is refused. */
    mprotect(other, PAGE, PROT_READ), mprotect(other + CHACHA20_STREAM_BYTES - PAGE, PAGE, PROT_READ);
    for (size_t over = 1; over < 100; over += 33) {
        uint8_t state[STATE] = {0}, found = 0;
        holds(run, chacha20_secretstream_push(state, NULL, 0, room, other, CHACHA20_AEAD_LONGEST - 64 + over, 0) == CHACHA20_REFUSED &&
                       chacha20_secretstream_pull(state, NULL, 0, room, other, CHACHA20_AEAD_LONGEST - 47 + over, &found) == CHACHA20_REFUSED,
              "a message of a stream that is too long was taken");
    }
    munmap(room, 3 * far * GIB);
}

enum { WINDOW = 64 << 20, WINDOWS = 4096 / 64 + 1, OVER = 63 * 16 };

/* 4 GiB and OVER bytes of windows on the same 64 MiB, so that a call goes over them in turn. */
static uint8_t *windows(void) {
    uint8_t *room = reserve((size_t)WINDOWS * WINDOW);
    int file = memfd_create("windows", 0), good = file >= 0 && ftruncate(file, WINDOW) == 0;
    for (size_t i = 0; good && i < WINDOWS; i++) {
        good = mmap(room + i * WINDOW, WINDOW, PROT_READ | PROT_WRITE, MAP_SHARED | MAP_FIXED, file, 0) != MAP_FAILED;
    }
    if (!good) puts("no memory for 64 MiB"), exit(2);
    return room;
}

/* Whether something is written behind OVER bytes, to which a length of 32 bits would shrink; they are zero again then. */
static int is_behind(uint8_t *room) {
    static const uint8_t zeros[100];
    int is = memcmp(room + 2 * OVER, zeros, sizeof zeros) != 0;
    memset(room, 0, WINDOW);
    return is;
}

/* The right tag of the input, of whole parts of 16 bytes: the MAC under the one-time key, with the lengths behind the input. */
static void seal_windows(const struct cipher *it, uint8_t *from, size_t len, uint8_t *tag) {
    uint8_t key[32];
    for (int i = 0; i < 8; i++) from[OVER + 8 + i] = (uint8_t)(len >> (8 * i));
    (void)!it->keystream(far_key, far_nonce, 0, 0, key, sizeof key);
    chacha20_onetime_poly1305(key, from, len + 16, tag);
}

#define DOES(CALL) holds(run, (CALL) == CHACHA20_OK, #CALL)
#define OVER_ALL(CALL) DOES(CALL), holds(run, is_behind(room), "4 GiB less by " #CALL)

/* By associated data of more than 4 GiB, and by a text: a length of 32 bits would make the tag of what it shrinks to. */
static void message_over_4_gib(struct run *run, enum layout layout, uint8_t *room, uint8_t *from, size_t len, int is_whole) {
    const struct aead *it = &aeads[layout];
    uint8_t tag[2][TAG];
    for (int i = 0; i < 2; i++) {
        DOES(it->encrypt(far_key, far_nonce, from, i ? len : OVER, room, room, 8, tag[i]));
        DOES(it->decrypt(far_key, far_nonce, from, i ? len : OVER, room, room, 8, tag[i]));
    }
    holds(run, memcmp(tag[0], tag[1], TAG) != 0, "the tag of 4 GiB less of associated data");
    DOES(it->encrypt(far_key, far_nonce, NULL, 0, room, room, OVER, tag[0]));
    is_behind(room);
    OVER_ALL(it->encrypt(far_key, far_nonce, NULL, 0, room, room, len, tag[1]));
    holds(run, memcmp(tag[0], tag[1], TAG) != 0, "the tag of 4 GiB less");
    seal_windows(&ciphers[layout], from, len, tag[0]);
    OVER_ALL(it->decrypt(far_key, far_nonce, NULL, 0, room, from, len, tag[0]));
    if (!is_whole) return;
    OVER_ALL(it->encrypt(far_key, far_nonce, NULL, 0, room, from, len, tag[1]));
    memcpy(room, from, WINDOW);
    OVER_ALL(it->decrypt(far_key, far_nonce, NULL, 0, room, room, len, tag[0]));
}

static void over_4_gib(struct run *run, int is_whole) {
    run->level = set_level(run->level_count - 1);
    const size_t len = 4 * GIB + OVER;
    uint8_t *room = windows(), *from = windows(), state[CHACHA20_RNG_STATE_BYTES] = {0}, tag[2][TAG];
    uint64_t low, high;
    DOES(chacha20_verify(room, from, len));
    chacha20_onetime_poly1305(far_key, room, len, tag[0]), chacha20_onetime_poly1305(far_key, room, OVER, tag[1]);
    holds(run, memcmp(tag[0], tag[1], TAG) != 0, "the MAC of 4 GiB less");
    chacha20_rng_fill(state, room, len);
    chacha20_rng_get_word_pos(state, &low, &high);
    holds(run, is_behind(room) && low == len / 4 && high == 0, "a fill over 4 GiB");
    message_over_4_gib(run, IETF, room, from, len, is_whole);
    if (is_whole) message_over_4_gib(run, XCHACHA, room, from, len, is_whole);
    memcpy(room, from, WINDOW), room[2 * OVER] ^= 1;
    holds(run, chacha20_verify(room, from, len) == CHACHA20_WRONG_TAG, "unequal bytes over 4 GiB");
    for (int i = 0; i < LAYOUTS && is_whole; i++) {
        const struct cipher *it = &ciphers[i];
        is_behind(room);
        OVER_ALL(it->xor(far_key, far_nonce, 0, 0, room, room, len));
        OVER_ALL(it->xor(far_key, far_nonce, 0, 0, room, from, len));
        OVER_ALL(it->keystream(far_key, far_nonce, 0, 0, room, len));
    }
    munmap(room, (size_t)WINDOWS * WINDOW), munmap(from, (size_t)WINDOWS * WINDOW);
}

static void one_turn(struct run *run) {
    static void (*const kinds[KINDS])(struct run *) = {one_message, one_sealed, one_generator, one_tag, one_chunk, one_subkey};
    run->seed = run->random;
    for (int i = 0; i < KINDS; i++) {
        if (i > 0 && below(run, UINT64_C(2) << (i + 1) / 2) > 0) continue;
        run->cases[i]++;
        kinds[i](run);
    }
}

static int check(struct run *run, uint64_t seed, uint64_t bytes) {
    uint64_t calls = 0, few = 0;
    input = room(), expected = room(), made = room();
    random_bytes(run, input, ROOM);
    for (int i = 0; i < run->level_count; i++) {
        run->level = set_level(i);
        sealed_by_each_length(run), ends(run), published_words(run), files_of_each_length(run), file_of_seal(run);
    }
    for (int i = 0; i < 400; i++) one_stream(run);
    long_stream(run), file_as_stream(run, 0), file_as_stream(run, 4095), file_as_stream(run, 4096), file_as_stream(run, 10000);
    printf("messages by each length, ends, 400 streams, files: %" PRIu64 " differences\n", run->differences);
    if (bytes >= 300000000) too_long(run), over_4_gib(run, bytes >= 1000000000);
    run->random = seed;
    for (int i = 0; run->bytes < bytes || i < 64 * LEAST_CASES; i++) one_turn(run);
    for (int i = 0; i < run->level_count; i++) calls += run->calls[i], few += run->calls[i] < LEAST_CALLS;
    for (int i = 0; i < KINDS; i++) few += run->cases[i] < LEAST_CASES;
    if (few > 0) puts("wrong: too few cases of a kind, or too few calls of a level");
    printf("check, seed %" PRIu64 ":", seed);
    for (int i = 0; i < run->level_count; i++) printf(" %s", set_level(i));
    printf(" in %" PRIu64 " calls; %" PRIu64 " bytes beside %s, %" PRIu64 " differences\n", calls, run->bytes, run->others[0]->name,
           run->differences);
    return few > 0 || run->differences > 0;
}

int main(int argc, char **argv) {
    struct other sodium;
    struct run run = {.random = 1, .others = {&plain_c, &plain_c}};
    const char *use = argc > 1 ? argv[1] : "";
    if (strcmp(use, "plain") != 0 && strcmp(use, "check") != 0) return fputs("compare check|plain: see check.c\n", stderr), 2;
    run.level_count = find_levels();
    if (strcmp(use, "check") == 0 && find_sodium(&sodium)) run.others[0] = &sodium;
    return check(&run, argc > 3 ? strtoull(argv[3], NULL, 10) : 20260101, argc > 2 ? strtoull(argv[2], NULL, 10) : 1000000000);
}
