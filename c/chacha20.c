/* SPDX-License-Identifier: Apache-2.0 OR MIT

   The functions of chacha20.h, each written out, so that a search finds it. Each does what no contract can express: it
   replaces the pointers of empty data, refuses overlaps, and calls a proved function by PROVED (proved.h). This file is
   trusted: tested, not proved. */

#include "../include/chacha20.h"

#include <string.h>

#include "proved.h"

/* Always inlined: a call would cost noticeable time on messages of a few bytes. */
#define CHECK __attribute__((always_inline)) static inline int

/* Whether two objects have no byte in common, and an empty one isn't inside the other. It never adds to an address,
   since the sum could wrap. */
CHECK apart(const uint8_t *one, size_t one_len, const uint8_t *other, size_t other_len) {
    uintptr_t at = (uintptr_t)one, other_at = (uintptr_t)other;
    return at < other_at ? other_at - at >= one_len : at - other_at >= other_len;
}

/* Whether an output lies where the header demands: on its input or apart from it, and apart from key and nonce. No
   object has more than PTRDIFF_MAX bytes. */
CHECK output_fits(const uint8_t *output, const uint8_t *input, size_t len, const uint8_t *key, const uint8_t *nonce,
                  size_t nonce_len) {
    return len <= PTRDIFF_MAX && (output == input || apart(output, len, input, len)) && apart(output, len, key, 32) &&
           apart(output, len, nonce, nonce_len);
}

/* Whether the output of a message lies apart from its associated data and its tag. */
CHECK message_fits(const uint8_t *output, size_t len, const uint8_t *aad, size_t aad_len, const uint8_t *tag) {
    return aad_len <= PTRDIFF_MAX && apart(output, len, aad, aad_len) && apart(output, len, tag, 16);
}

/* Whether a tag that is written lies apart from all that is read. */
CHECK tag_fits(const uint8_t *tag, const uint8_t *key, const uint8_t *nonce, size_t nonce_len, const uint8_t *aad,
               size_t aad_len, const uint8_t *input, size_t len) {
    return apart(tag, 16, key, 32) && apart(tag, 16, nonce, nonce_len) && apart(tag, 16, aad, aad_len) &&
           apart(tag, 16, input, len);
}

/* Authenticated encryption. Data of length 0 may be null, or overlap other arguments; |none|, a byte apart from all of
   them, takes their place, and is never read or written. A tag that is only read may overlap what is read. */

int chacha20_aead_encrypt(const uint8_t key[32], const uint8_t nonce[12], const uint8_t *aad, size_t aad_len,
                          uint8_t *output, const uint8_t *input, size_t len, uint8_t tag[16]) {
    uint8_t none = 0;
    if (aad_len == 0) aad = &none;
    if (len == 0) input = output = &none;
    if (!output_fits(output, input, len, key, nonce, 12) || !message_fits(output, len, aad, aad_len, tag) ||
        !tag_fits(tag, key, nonce, 12, aad, aad_len, input, len)) return CHACHA20_REFUSED;
    if (output == input) return PROVED(chacha20_aead_encrypt_in_place, key, nonce, aad, aad_len, output, len, tag);
    return PROVED(chacha20_aead_encrypt_between, key, nonce, aad, aad_len, output, len, input, len, tag);
}

int chacha20_aead_decrypt(const uint8_t key[32], const uint8_t nonce[12], const uint8_t *aad, size_t aad_len,
                          uint8_t *output, const uint8_t *input, size_t len, const uint8_t tag[16]) {
    uint8_t none = 0;
    if (aad_len == 0) aad = &none;
    if (len == 0) input = output = &none;
    if (!output_fits(output, input, len, key, nonce, 12) || !message_fits(output, len, aad, aad_len, tag))
        return CHACHA20_REFUSED;
    if (output == input) return PROVED(chacha20_aead_decrypt_in_place, key, nonce, aad, aad_len, output, len, tag);
    return PROVED(chacha20_aead_decrypt_between, key, nonce, aad, aad_len, output, len, input, len, tag);
}

int xchacha20_aead_encrypt(const uint8_t key[32], const uint8_t nonce[24], const uint8_t *aad, size_t aad_len,
                           uint8_t *output, const uint8_t *input, size_t len, uint8_t tag[16]) {
    uint8_t none = 0;
    if (aad_len == 0) aad = &none;
    if (len == 0) input = output = &none;
    if (!output_fits(output, input, len, key, nonce, 24) || !message_fits(output, len, aad, aad_len, tag) ||
        !tag_fits(tag, key, nonce, 24, aad, aad_len, input, len)) return CHACHA20_REFUSED;
    if (output == input) return PROVED(xchacha20_aead_encrypt_in_place, key, nonce, aad, aad_len, output, len, tag);
    return PROVED(xchacha20_aead_encrypt_between, key, nonce, aad, aad_len, output, len, input, len, tag);
}

int xchacha20_aead_decrypt(const uint8_t key[32], const uint8_t nonce[24], const uint8_t *aad, size_t aad_len,
                           uint8_t *output, const uint8_t *input, size_t len, const uint8_t tag[16]) {
    uint8_t none = 0;
    if (aad_len == 0) aad = &none;
    if (len == 0) input = output = &none;
    if (!output_fits(output, input, len, key, nonce, 24) || !message_fits(output, len, aad, aad_len, tag))
        return CHACHA20_REFUSED;
    if (output == input) return PROVED(xchacha20_aead_decrypt_in_place, key, nonce, aad, aad_len, output, len, tag);
    return PROVED(xchacha20_aead_decrypt_between, key, nonce, aad, aad_len, output, len, input, len, tag);
}

/* An output of a fixed size is made in a local object and then copied, so it may overlap the arguments. For
   empty input, whose pointer may be null, the key is passed instead. */

void chacha20_onetime_poly1305(const uint8_t key[32], const uint8_t *input, size_t len, uint8_t tag[16]) {
    uint8_t made[16];
    PROVED(chacha20_onetime_poly1305, key, len == 0 ? key : input, len, made);
    memcpy(tag, made, sizeof made);
}

int chacha20_verify(const uint8_t *one, const uint8_t *other, size_t len) {
    return len == 0 ? CHACHA20_OK : PROVED(chacha20_verify, one, len, other, len);
}

/* By vectors, for speed, and volatile: else it could be left out, or become a call of memset, which uses stack itself.
   The array is one vector shorter than CHACHA20_STACK_BYTES, to leave room for the rest of the frame. */
__attribute__((noinline)) void chacha20_wipe_stack(void) {
    typedef uint64_t vector __attribute__((vector_size(64), aligned(16)));
    volatile vector below[CHACHA20_STACK_BYTES / sizeof(vector) - 1];
    for (size_t i = 0; i < sizeof below / sizeof below[0]; i++) below[i] = (vector){0};
}

/* Ciphers. If |len| is 0, input and output may be null, and only the position is checked. */

int chacha20_check(uint64_t position, size_t len) { return PROVED(chacha20_check, position, len); }

int chacha20_legacy_check(uint64_t block, uint64_t offset, size_t len) {
    return PROVED(chacha20_legacy_check, block, offset, len);
}

uint64_t chacha20_block_position(uint64_t block) { return block > INT64_MAX / 64 ? UINT64_C(1) << 63 : 64 * block; }

int chacha20_xor(const uint8_t key[32], const uint8_t nonce[12], uint64_t position, uint8_t *output,
                 const uint8_t *input, size_t len) {
    if (len == 0) return PROVED(chacha20_check, position, 0);
    if (!output_fits(output, input, len, key, nonce, 12)) return CHACHA20_REFUSED;
    if (output == input) return PROVED(chacha20_xor_in_place, key, nonce, position, output, len);
    return PROVED(chacha20_xor_between, key, nonce, position, output, len, input, len);
}

int chacha20_keystream(const uint8_t key[32], const uint8_t nonce[12], uint64_t position, uint8_t *output, size_t len) {
    if (len == 0) return PROVED(chacha20_check, position, 0);
    if (!output_fits(output, output, len, key, nonce, 12)) return CHACHA20_REFUSED;
    return PROVED(chacha20_keystream, key, nonce, position, output, len);
}

int xchacha20_xor(const uint8_t key[32], const uint8_t nonce[24], uint64_t position, uint8_t *output,
                  const uint8_t *input, size_t len) {
    if (len == 0) return PROVED(chacha20_check, position, 0);
    if (!output_fits(output, input, len, key, nonce, 24)) return CHACHA20_REFUSED;
    if (output == input) return PROVED(xchacha20_xor_in_place, key, nonce, position, output, len);
    return PROVED(xchacha20_xor_between, key, nonce, position, output, len, input, len);
}

int xchacha20_keystream(const uint8_t key[32], const uint8_t nonce[24], uint64_t position, uint8_t *output,
                        size_t len) {
    if (len == 0) return PROVED(chacha20_check, position, 0);
    if (!output_fits(output, output, len, key, nonce, 24)) return CHACHA20_REFUSED;
    return PROVED(xchacha20_keystream, key, nonce, position, output, len);
}

int chacha20_legacy_xor(const uint8_t key[32], const uint8_t nonce[8], uint64_t block, uint64_t offset, uint8_t *output,
                        const uint8_t *input, size_t len) {
    if (len == 0) return PROVED(chacha20_legacy_check, block, offset, 0);
    if (!output_fits(output, input, len, key, nonce, 8)) return CHACHA20_REFUSED;
    if (output == input) return PROVED(chacha20_legacy_xor_in_place, key, nonce, block, offset, output, len);
    return PROVED(chacha20_legacy_xor_between, key, nonce, block, offset, output, len, input, len);
}

int chacha20_legacy_keystream(const uint8_t key[32], const uint8_t nonce[8], uint64_t block, uint64_t offset,
                              uint8_t *output, size_t len) {
    if (len == 0) return PROVED(chacha20_legacy_check, block, offset, 0);
    if (!output_fits(output, output, len, key, nonce, 8)) return CHACHA20_REFUSED;
    return PROVED(chacha20_legacy_keystream, key, nonce, block, offset, output, len);
}

void hchacha20(const uint8_t key[32], const uint8_t input[16], uint8_t subkey[32]) {
    uint8_t made[32];
    PROVED(hchacha20, key, input, made);
    memcpy(subkey, made, sizeof made);
}

/* Generators. Nothing is refused: the header says what may not overlap. */

void chacha20_rng_from_seed(const uint8_t seed[32], uint8_t state[49]) {
    uint8_t made[49];
    PROVED(chacha20_rng_from_seed, seed, made);
    memcpy(state, made, sizeof made);
}

void chacha20_rng_fill(uint8_t state[49], uint8_t *output, size_t len) {
    if (len > 0) PROVED(chacha20_rng_fill, state, output, len);
}

void chacha20_rng_get_word_pos(const uint8_t state[49], uint64_t *low, uint64_t *high) {
    PROVED(chacha20_rng_get_word_pos, state, low, high);
}

void chacha20_rng_set_word_pos(uint8_t state[49], uint64_t low, uint64_t high) {
    PROVED(chacha20_rng_set_word_pos, state, low, high);
}

uint64_t chacha20_rng_get_block_pos(const uint8_t state[49]) { return PROVED(chacha20_rng_get_block_pos, state); }

void chacha20_rng_set_block_pos(uint8_t state[49], uint64_t block) { PROVED(chacha20_rng_set_block_pos, state, block); }

uint64_t chacha20_rng_get_stream(const uint8_t state[49]) { return PROVED(chacha20_rng_get_stream, state); }

void chacha20_rng_set_stream(uint8_t state[49], uint64_t stream) { PROVED(chacha20_rng_set_stream, state, stream); }

void chacha12_rng_fill(uint8_t state[49], uint8_t *output, size_t len) {
    if (len > 0) PROVED(chacha12_rng_fill, state, output, len);
}

void chacha8_rng_fill(uint8_t state[49], uint8_t *output, size_t len) {
    if (len > 0) PROVED(chacha8_rng_fill, state, output, len);
}

/* Streams. Empty data are as above. */

/* Whether state and output lie apart from all else, and neither |aad| nor a message of 17 bytes more than the input
   passes PTRDIFF_MAX. */
CHECK stream_fits(const uint8_t *state, const uint8_t *aad, size_t aad_len, const uint8_t *output, size_t output_len,
                  const uint8_t *input, size_t input_len) {
    return aad_len <= PTRDIFF_MAX && input_len <= PTRDIFF_MAX - 17 && apart(state, 44, aad, aad_len) &&
           apart(state, 44, output, output_len) && apart(state, 44, input, input_len) &&
           apart(output, output_len, aad, aad_len) && apart(output, output_len, input, input_len);
}

void chacha20_secretstream_start(const uint8_t key[32], const uint8_t header[24], uint8_t state[44]) {
    uint8_t made[44];
    PROVED(chacha20_secretstream_start, key, header, made);
    memcpy(state, made, sizeof made);
}

int chacha20_secretstream_push(uint8_t state[44], const uint8_t *aad, size_t aad_len, uint8_t *output,
                               const uint8_t *input, size_t len, uint8_t tag) {
    uint8_t none = 0;
    if (aad_len == 0) aad = &none;
    if (len == 0) input = &none;
    if (!stream_fits(state, aad, aad_len, output, len + 17, input, len)) return CHACHA20_REFUSED;
    return PROVED(chacha20_secretstream_push, state, aad, aad_len, output, len + 17, input, len, tag);
}

int chacha20_secretstream_pull(uint8_t state[44], const uint8_t *aad, size_t aad_len, uint8_t *output,
                               const uint8_t *input, size_t len, uint8_t *tag) {
    uint8_t none = 0;
    if (aad_len == 0) aad = &none;
    if (len == 17) output = &none;
    if (len < 17 || !stream_fits(state, aad, aad_len, output, len - 17, input, len) || !apart(tag, 1, state, 44) ||
        !apart(tag, 1, aad, aad_len) || !apart(tag, 1, output, len - 17) || !apart(tag, 1, input, len))
        return CHACHA20_REFUSED;
    return PROVED(chacha20_secretstream_pull, state, aad, aad_len, output, len - 17, input, len, tag);
}

void chacha20_secretstream_rekey(uint8_t state[44]) { PROVED(chacha20_secretstream_rekey, state); }

/* Sealed files. Empty texts are as above. */

/* Whether the output of a chunk lies on its input or apart from it, and apart from key and salt. */
CHECK chunk_fits(const uint8_t *output, size_t output_len, const uint8_t *input, size_t input_len, const uint8_t *key,
                 const uint8_t *salt) {
    return (output == input || apart(output, output_len, input, input_len)) && apart(output, output_len, key, 32) &&
           apart(output, output_len, salt, 19);
}

void chacha20_file_header(const uint8_t salt[19], uint8_t header[32]) {
    uint8_t made[32];
    PROVED(chacha20_file_header, salt, made);
    memcpy(header, made, sizeof made);
}

int chacha20_file_salt(const uint8_t *input, size_t len, uint8_t salt[19]) {
    uint8_t none = 0, made[19];
    int status = PROVED(chacha20_file_salt, len == 0 ? &none : input, len < 32 ? len : 32, made);
    if (status == CHACHA20_OK) memcpy(salt, made, sizeof made);
    return status;
}

uint64_t chacha20_file_text_len(uint64_t file_len) { return PROVED(chacha20_file_text_len, file_len); }

int chacha20_file_seal_chunk(const uint8_t key[32], const uint8_t salt[19], uint64_t number, int last, uint8_t *output,
                             const uint8_t *input, size_t len) {
    uint32_t chunk = (uint32_t)number;
    if (len == 0) input = output;
    if (number > UINT32_MAX || len > CHACHA20_FILE_TEXT_BYTES || !chunk_fits(output, len + 16, input, len, key, salt))
        return CHACHA20_REFUSED;
    if (output == input)
        return PROVED(chacha20_file_seal_chunk_in_place, key, salt, chunk, last != 0, output, len + 16);
    return PROVED(chacha20_file_seal_chunk_between, key, salt, chunk, last != 0, output, len + 16, input, len);
}

int chacha20_file_open_chunk(const uint8_t key[32], const uint8_t salt[19], uint64_t number, int last, uint8_t *output,
                             const uint8_t *input, size_t len) {
    uint8_t none = 0;
    uint32_t chunk = (uint32_t)number;
    if (len == 16) output = &none;
    if (number > UINT32_MAX || len < 16 || len > CHACHA20_FILE_CHUNK_BYTES ||
        !chunk_fits(output, len - 16, input, len, key, salt)) return CHACHA20_REFUSED;
    if (output == input) return PROVED(chacha20_file_open_chunk_in_place, key, salt, chunk, last != 0, output, len);
    return PROVED(chacha20_file_open_chunk_between, key, salt, chunk, last != 0, output, len - 16, input, len);
}

const char *chacha20_version(void) { return CHACHA20_VERSION; }
