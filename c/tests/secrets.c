/* SPDX-License-Identifier: Apache-2.0 OR MIT

   Run under valgrind's memcheck, with keys, nonces, seeds, stream numbers, data and tags marked as undefined: memcheck then
   reports each branch and each address that depends on one of them. A branch that is planted for each of them, and an address,
   show that it would. Lengths, positions, and so the places of words in a generator, aren't secret; nor is the verdict on a
   tag: each decryption has one report, wherever the tag is wrong. In a stream the tag byte isn't secret either: bit 1 of it asks
   for another key, so `pull` has one report more.

   Without memcheck, for ./trace, the secrets are read from stdin. A branch is planted where the argument is `planted`; where
   it is a letter, one message is decrypted, whose tag is wrong in byte 0 (A) to 15 (P), or right (Q). */

#include <stdio.h>
#include <string.h>
#include <unistd.h>
#include <valgrind/memcheck.h>

#include "../../include/chacha20.h"
#include "compare.h"

enum { LONGEST = (1 << 16) + 1000, TAG = CHACHA20_TAG_BYTES };

static uint8_t key[32], nonce[24], state[CHACHA20_RNG_STATE_BYTES], aad[300], tag[TAG], input[LONGEST + 17], output[LONGEST + 17];
static uint8_t tag_room[CHACHA20_FILE_HEADER_BYTES], stream[CHACHA20_SECRETSTREAM_STATE_BYTES];
static unsigned calls, wrong_answers, verdicts, wrong_verdicts;

/* A program that knows no secret may look at an answer. */
static void done(int answer) {
    calls++;
    if (answer != CHACHA20_OK) wrong_answers++;
}

static void all_secret(void) {
    (void)VALGRIND_MAKE_MEM_UNDEFINED(key, sizeof key), (void)VALGRIND_MAKE_MEM_UNDEFINED(nonce, sizeof nonce);
    (void)VALGRIND_MAKE_MEM_UNDEFINED(aad, sizeof aad), (void)VALGRIND_MAKE_MEM_UNDEFINED(tag, sizeof tag);
    (void)VALGRIND_MAKE_MEM_UNDEFINED(input, sizeof input), (void)VALGRIND_MAKE_MEM_UNDEFINED(output, sizeof output);
}

static void by_cipher(const struct cipher *cipher, uint64_t position, size_t len) {
    uint64_t block = position / 64, offset = position % 64;
    done(cipher->xor(key, nonce, block, offset, output, output, len));
    done(cipher->xor(key, nonce, block, offset, output, input, len));
    done(cipher->keystream(key, nonce, block, offset, output, len));
}

/* Of the output, in place or to the input; the tag is wrong in one byte, or right. */
static void by_decryption(const struct aead *aead, size_t aad_len, size_t len, int is_in_place, int wrong_byte) {
    unsigned before = VALGRIND_COUNT_ERRORS;
    if (wrong_byte < TAG) tag[wrong_byte] ^= 0x10;
    int answer = aead->decrypt(key, nonce, aad, aad_len, is_in_place ? output : input, output, len, tag);
    (void)VALGRIND_MAKE_MEM_DEFINED(&answer, sizeof answer);
    unsigned reports = VALGRIND_COUNT_ERRORS - before;
    if (wrong_byte < TAG) tag[wrong_byte] ^= 0x10;
    done(answer == (wrong_byte < TAG ? CHACHA20_WRONG_TAG : CHACHA20_OK) ? CHACHA20_OK : CHACHA20_REFUSED);
    verdicts++, wrong_verdicts += reports != 1;
}

static void by_aead(enum layout layout, size_t aad_len, size_t len) {
    const struct aead *aead = &aeads[layout];
    done(aead->encrypt(key, nonce, aad, aad_len, output, output, len, tag));
    for (int i = 0; i < 6; i++) {
        if (i % 2 == 0) done(aead->encrypt(key, nonce, aad, aad_len, output, input, len, tag));
        by_decryption(aead, aad_len, len, i % 2, (int[]){TAG, 0, TAG - 1}[i / 2]);
    }
    chacha20_onetime_poly1305(key, input, len, tag);
    int answer = chacha20_verify(input, output, len);
    (void)VALGRIND_MAKE_MEM_DEFINED(&answer, sizeof answer);
    calls += 2;
}

/* Pulled into the input, with a wrong byte or none; the counter isn't secret. */
static void by_stream(size_t aad_len, size_t len) {
    uint8_t begun[sizeof stream], byte;
    chacha20_secretstream_start(key, nonce, stream), chacha20_secretstream_rekey(stream);
    memcpy(begun, stream, sizeof begun);
    done(chacha20_secretstream_push(stream, aad, aad_len, output, input, len, CHACHA20_SECRETSTREAM_REKEY));
    for (int i = 0; i < 3; i++) {
        size_t wrong_byte = (size_t[]){len + 1, len + 16, 0}[i];
        unsigned before = VALGRIND_COUNT_ERRORS;
        if (i < 2) output[wrong_byte] ^= 0x10;
        int answer = chacha20_secretstream_pull(begun, aad, aad_len, input, output, len + 17, &byte);
        (void)VALGRIND_MAKE_MEM_DEFINED(&answer, sizeof answer);
        if (i < 2) output[wrong_byte] ^= 0x10;
        done(answer == (i < 2 ? CHACHA20_WRONG_TAG : CHACHA20_OK) ? CHACHA20_OK : CHACHA20_REFUSED);
        verdicts += 1 + (i == 2), wrong_verdicts += VALGRIND_COUNT_ERRORS - before != (unsigned)(i == 2) + 1;
    }
    calls += 2;
}

/* A last chunk, opened in place or into the input. */
static void by_chunk(uint32_t number, size_t len) {
    if (len > CHACHA20_FILE_TEXT_BYTES) len = CHACHA20_FILE_TEXT_BYTES;
    if (len == 0) number = 0;
    chacha20_file_header(nonce, tag_room);
    done(chacha20_file_seal_chunk(key, nonce, number, 1, input, input, len));
    done(chacha20_file_seal_chunk(key, nonce, number, 1, output, input, len));
    for (int i = 0; i < 4; i++) {
        unsigned before = VALGRIND_COUNT_ERRORS;
        if (i < 2) output[len + (size_t)(15 * i)] ^= 0x10;
        int answer = chacha20_file_open_chunk(key, nonce, number, 1, i % 2 ? output : input, output, len + 16);
        (void)VALGRIND_MAKE_MEM_DEFINED(&answer, sizeof answer);
        if (i < 2) output[len + (size_t)(15 * i)] ^= 0x10;
        done(answer == (i < 2 ? CHACHA20_WRONG_TAG : CHACHA20_OK) ? CHACHA20_OK : CHACHA20_REFUSED);
        verdicts++, wrong_verdicts += VALGRIND_COUNT_ERRORS - before != 1;
    }
    calls++;
}

static void by_generator(uint64_t position, size_t len) {
    uint64_t low, high, stream = 5;
    (void)VALGRIND_MAKE_MEM_UNDEFINED(&stream, sizeof stream);
    memset(state, 0, sizeof state);
    chacha20_rng_from_seed(key, state);
    chacha20_rng_set_stream(state, stream);
    chacha20_rng_set_word_pos(state, position, 1);
    (void (*[])(uint8_t *, uint8_t *, size_t)){chacha20_rng_fill, chacha12_rng_fill, chacha8_rng_fill}[len % 3](state, output, len);
    (void)chacha20_rng_get_stream(state);
    chacha20_rng_get_word_pos(state, &low, &high);
    /* The word position isn't secret, and no secret has come into it. */
    if (high == 1 && low == position + (len + 3) / 4) calls += 6;
    chacha20_rng_set_block_pos(state, chacha20_rng_get_block_pos(state) + 1);
    chacha20_rng_set_stream(state, stream);
    calls += 3;
}

static void by_library(size_t longest) {
    /* Each number of blocks that a build computes together, with tails and without. */
    static const size_t lengths[] = {0, 23, 64, 69, 128, 200, 256, 300, 511, 512, 576, 911, 1024, 2595, 8192, 8292, LONGEST};
    static const uint64_t positions[] = {0, 1, 63, 64, 1000, ((uint64_t)1 << 37) + 5};
    for (int i = 0; i < (int)(sizeof positions / sizeof positions[0]); i++) {
        for (int j = 0; j < (int)(sizeof lengths / sizeof lengths[0]); j++) {
            size_t len = lengths[j];
            if (len > longest) continue;
            for (int layout = 0; layout < LAYOUTS; layout++) {
                done(ciphers[layout].check(positions[i] / 64, positions[i] % 64, len));
                all_secret();
                by_cipher(&ciphers[layout], positions[i], len);
            }
            for (int layout = 0; layout < AEADS; layout++) {
                all_secret();
                by_aead((enum layout)layout, positions[i] % 300, len);
            }
            all_secret(), by_stream(positions[i] % 300, len);
            all_secret(), by_chunk((uint32_t)positions[i], len);
            all_secret();
            hchacha20(key, nonce, output);
            by_generator(positions[i], len);
        }
    }
}

/* For ./trace. */
static int without_memcheck(const char *argument) {
    static volatile uint8_t seen;
    int is_planted = strcmp(argument, "planted") == 0;
    if (read(0, key, 32) != 32 || read(0, nonce, 24) != 24 || read(0, aad, 300) != 300) return 2;
    if (read(0, input, LONGEST) != LONGEST) return 2;
    if (argument[0] && !is_planted) {
        done(aeads[IETF].encrypt(key, nonce, aad, 300, output, input, 1000, tag));
        by_decryption(&aeads[IETF], 300, 1000, 1, argument[0] - 'A');
        return wrong_answers != 0;
    }
    by_library(1024);
    if (is_planted && key[3] & 1) seen = 1;
    (void)seen;
    return wrong_answers != 0 || calls < 2500;
}

int main(int argc, char **argv) {
    static volatile uint8_t table[256], seen;
    int level_count = find_levels();
    if (!RUNNING_ON_VALGRIND) return without_memcheck(argc > 1 ? argv[1] : "");
    for (int i = 0; i < level_count; i++) {
        /* The Makefile counts the addresses that memcheck reports behind it. */
        VALGRIND_PRINTF("level %s\n", set_level(i));
        by_library(LONGEST);
    }
    unsigned reports = VALGRIND_COUNT_ERRORS - verdicts;
    VALGRIND_PRINTF("planted\n");
    /* The last generator's seed and stream are in its state. */
    const uint8_t *const marked[] = {key, nonce, aad, tag, input, output, state, state + 32};
    enum { MARKED = sizeof marked / sizeof marked[0] };
    all_secret();
    for (int i = 0; i < MARKED; i++) {
        if (marked[i][3] & 1) seen = 1;
    }
    unsigned of_branches = VALGRIND_COUNT_ERRORS - verdicts - reports;
    seen = table[key[5]];
    (void)seen;
    unsigned of_address = VALGRIND_COUNT_ERRORS - verdicts - reports - of_branches;
    printf("secrets,");
    for (int i = 0; i < level_count; i++) printf(" %s", set_level(i));
    printf(": %u calls, %u wrong answers, %u reports; %u verdicts on tags, %u without just one report; ", calls, wrong_answers,
           reports, verdicts, wrong_verdicts);
    printf("of planted branches %u, of a planted address %u\n", of_branches, of_address);
    return reports != 0 || wrong_verdicts != 0 || of_branches != MARKED || of_address != 1 || wrong_answers != 0 ||
           calls < 3000 * (unsigned)level_count;
}
