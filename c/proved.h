/* SPDX-License-Identifier: Apache-2.0 OR MIT

   The proved functions (crates/chacha20_c), and which build of them runs. PROVED(NAME, ...) calls NAME in the build for
   the processor; the Makefile appends the level of each build to its names. A table of pointers instead would keep
   every function of every level in each static program. */

#ifndef CHACHA20_PROVED_H
#define CHACHA20_PROVED_H

#include <stddef.h>
#include <stdint.h>

#if defined(__x86_64__)
#include "processor.h"

#if defined(CHACHA20_LEVEL)
#if CHACHA20_LEVEL < 1 || CHACHA20_LEVEL > 3
#error "CHACHA20_LEVEL must be 1, 2 or 3"
#endif
static inline int this_level(void) { return CHACHA20_LEVEL; }
#else
/* Chosen before main, or when the shared library is loaded. An earlier call uses the build for x86-64, which makes the
   same bytes. A thread that an earlier constructor started may call at the same time, so access is atomic. */
static int level = 1;

__attribute__((constructor)) static void choose_level(void) {
    struct processor it = this_processor();
    __atomic_store_n(&level, x86_64_level(&it), __ATOMIC_RELAXED);
}

static inline int this_level(void) { return __atomic_load_n(&level, __ATOMIC_RELAXED); }
#endif

#define DECLARE(RESULT, NAME, ...) \
    RESULT NAME##_x86_64(__VA_ARGS__), NAME##_x86_64_v2(__VA_ARGS__), NAME##_x86_64_v3(__VA_ARGS__);
#define PROVED(NAME, ...)                                \
    (this_level() == 3   ? NAME##_x86_64_v3(__VA_ARGS__) \
     : this_level() == 2 ? NAME##_x86_64_v2(__VA_ARGS__) \
                         : NAME##_x86_64(__VA_ARGS__))

#elif defined(__aarch64__) && __BYTE_ORDER__ == __ORDER_LITTLE_ENDIAN__
#define DECLARE(RESULT, NAME, ...) RESULT NAME##_generic(__VA_ARGS__);
#define PROVED(NAME, ...) NAME##_generic(__VA_ARGS__)
#else
#error "the library is proved for x86-64 and for little-endian aarch64"
#endif

/* A slice is a pointer and a length, an array a pointer. No pointer may be null. What is written overlaps no other
   argument, and may be uninitialised before. A result of 32 bits is a status of chacha20.h; a call with another than CHACHA20_OK
   has written nothing. */
#define KEY_NONCE const uint8_t *key, const uint8_t *nonce
#define MESSAGE KEY_NONCE, const uint8_t *aad, size_t aad_len
#define STREAM uint8_t *state, const uint8_t *aad, size_t aad_len
#define CHUNK const uint8_t *key, const uint8_t *salt, uint32_t number, _Bool last
#define OUTPUT uint8_t *output, size_t len
#define INPUT const uint8_t *input, size_t input_len

DECLARE(uint32_t, chacha20_aead_encrypt_in_place, MESSAGE, OUTPUT, uint8_t *tag)
DECLARE(uint32_t, chacha20_aead_encrypt_between, MESSAGE, OUTPUT, INPUT, uint8_t *tag)
DECLARE(uint32_t, chacha20_aead_decrypt_in_place, MESSAGE, OUTPUT, const uint8_t *tag)
DECLARE(uint32_t, chacha20_aead_decrypt_between, MESSAGE, OUTPUT, INPUT, const uint8_t *tag)
DECLARE(uint32_t, xchacha20_aead_encrypt_in_place, MESSAGE, OUTPUT, uint8_t *tag)
DECLARE(uint32_t, xchacha20_aead_encrypt_between, MESSAGE, OUTPUT, INPUT, uint8_t *tag)
DECLARE(uint32_t, xchacha20_aead_decrypt_in_place, MESSAGE, OUTPUT, const uint8_t *tag)
DECLARE(uint32_t, xchacha20_aead_decrypt_between, MESSAGE, OUTPUT, INPUT, const uint8_t *tag)
DECLARE(void, chacha20_onetime_poly1305, const uint8_t *key, INPUT, uint8_t *tag)
DECLARE(uint32_t, chacha20_verify, const uint8_t *one, size_t one_len, const uint8_t *other, size_t other_len)

DECLARE(uint32_t, chacha20_xor_in_place, KEY_NONCE, uint64_t position, OUTPUT)
DECLARE(uint32_t, chacha20_xor_between, KEY_NONCE, uint64_t position, OUTPUT, INPUT)
DECLARE(uint32_t, chacha20_keystream, KEY_NONCE, uint64_t position, OUTPUT)
DECLARE(uint32_t, xchacha20_xor_in_place, KEY_NONCE, uint64_t position, OUTPUT)
DECLARE(uint32_t, xchacha20_xor_between, KEY_NONCE, uint64_t position, OUTPUT, INPUT)
DECLARE(uint32_t, xchacha20_keystream, KEY_NONCE, uint64_t position, OUTPUT)
DECLARE(uint32_t, chacha20_check, uint64_t position, size_t len)
DECLARE(uint32_t, chacha20_legacy_xor_in_place, KEY_NONCE, uint64_t block, uint64_t offset, OUTPUT)
DECLARE(uint32_t, chacha20_legacy_xor_between, KEY_NONCE, uint64_t block, uint64_t offset, OUTPUT, INPUT)
DECLARE(uint32_t, chacha20_legacy_keystream, KEY_NONCE, uint64_t block, uint64_t offset, OUTPUT)
DECLARE(uint32_t, chacha20_legacy_check, uint64_t block, uint64_t offset, size_t len)
DECLARE(void, hchacha20, const uint8_t *key, const uint8_t *input, uint8_t *subkey)

DECLARE(void, chacha20_rng_from_seed, const uint8_t *seed, uint8_t *state)
DECLARE(void, chacha20_rng_fill, uint8_t *state, OUTPUT)
DECLARE(void, chacha20_rng_get_word_pos, const uint8_t *state, uint64_t *low, uint64_t *high)
DECLARE(void, chacha20_rng_set_word_pos, uint8_t *state, uint64_t low, uint64_t high)
DECLARE(uint64_t, chacha20_rng_get_block_pos, const uint8_t *state)
DECLARE(void, chacha20_rng_set_block_pos, uint8_t *state, uint64_t block_pos)
DECLARE(uint64_t, chacha20_rng_get_stream, const uint8_t *state)
DECLARE(void, chacha20_rng_set_stream, uint8_t *state, uint64_t stream)
DECLARE(void, chacha12_rng_fill, uint8_t *state, OUTPUT)
DECLARE(void, chacha8_rng_fill, uint8_t *state, OUTPUT)

DECLARE(void, chacha20_secretstream_start, const uint8_t *key, const uint8_t *header, uint8_t *state)
DECLARE(uint32_t, chacha20_secretstream_push, STREAM, OUTPUT, INPUT, uint8_t tag)
DECLARE(uint32_t, chacha20_secretstream_pull, STREAM, OUTPUT, INPUT, uint8_t *tag)
DECLARE(void, chacha20_secretstream_rekey, uint8_t *state)

DECLARE(void, chacha20_file_header, const uint8_t *salt, uint8_t *header)
DECLARE(uint32_t, chacha20_file_salt, INPUT, uint8_t *salt)
DECLARE(uint64_t, chacha20_file_text_len, uint64_t file_len)
DECLARE(uint32_t, chacha20_file_seal_chunk_in_place, CHUNK, OUTPUT)
DECLARE(uint32_t, chacha20_file_seal_chunk_between, CHUNK, OUTPUT, INPUT)
DECLARE(uint32_t, chacha20_file_open_chunk_in_place, CHUNK, OUTPUT)
DECLARE(uint32_t, chacha20_file_open_chunk_between, CHUNK, OUTPUT, INPUT)

#undef KEY_NONCE
#undef MESSAGE
#undef STREAM
#undef CHUNK
#undef OUTPUT
#undef INPUT

#endif
