/* SPDX-License-Identifier: Apache-2.0 OR MIT

   Prints the bytes of formats, for ../interface-MAJOR: messages, keystreams, the state of a generator, a stream and its state, and a
   sealed file. */

#include <stdio.h>

#include "../../include/chacha20.h"

enum { TEXT = 14, AAD = 6 };

static void line(const char *name, const uint8_t *bytes, size_t len) {
    printf("%s ", name);
    for (size_t i = 0; i < len; i++) printf("%02x", bytes[i]);
    puts("");
}

int main(void) {
    const uint8_t *text = (const uint8_t *)"attack at dawn", *aad = (const uint8_t *)"header";
    uint8_t key[32], nonce[24], made[64], state[CHACHA20_RNG_STATE_BYTES];
    int refused = 0;
    for (int i = 0; i < 32; i++) key[i] = (uint8_t)(i + 1);
    for (int i = 0; i < 24; i++) nonce[i] = (uint8_t)(i + 101);
    refused |= chacha20_aead_encrypt(key, nonce, aad, AAD, made, text, TEXT, made + TEXT);
    line("chacha20_aead", made, TEXT + 16);
    refused |= xchacha20_aead_encrypt(key, nonce, aad, AAD, made, text, TEXT, made + TEXT);
    line("xchacha20_aead", made, TEXT + 16);
    refused |= chacha20_xor(key, nonce, 64, made, text, TEXT);
    line("chacha20 from byte 64 on", made, TEXT);
    refused |= xchacha20_xor(key, nonce, 64, made, text, TEXT);
    line("xchacha20 from byte 64 on", made, TEXT);
    refused |= chacha20_legacy_xor(key, nonce, 3, 64, made, text, TEXT);
    line("chacha20_legacy from block 4 on", made, TEXT);
    hchacha20(key, nonce, made);
    line("hchacha20", made, 32);
    chacha20_onetime_poly1305(key, text, TEXT, made);
    line("chacha20_onetime_poly1305", made, 16);
    chacha20_rng_from_seed(key, state), chacha20_rng_set_stream(state, 0x0807060504030201);
    chacha20_rng_set_word_pos(state, 0x1817161514131210, 9);
    line("state of a generator", state, sizeof state);
    chacha20_rng_fill(state, made, 8);
    line("its next words", made, 8);
    chacha12_rng_fill(state, made, 8);
    line("its next words of 12 rounds", made, 8);
    chacha8_rng_fill(state, made, 8);
    line("its next words of 8 rounds", made, 8);
    chacha20_secretstream_start(key, nonce, state);
    line("state of a stream", state, CHACHA20_SECRETSTREAM_STATE_BYTES);
    refused |= chacha20_secretstream_push(state, aad, AAD, made, text, TEXT, CHACHA20_SECRETSTREAM_FINAL);
    line("its final message", made, TEXT + CHACHA20_SECRETSTREAM_OVERHEAD_BYTES);
    line("its next state", state, CHACHA20_SECRETSTREAM_STATE_BYTES);
    chacha20_file_header(nonce, made);
    line("header of a file", made, CHACHA20_FILE_HEADER_BYTES);
    refused |= chacha20_file_seal_chunk(key, nonce, 0x01020304, 1, made, text, TEXT);
    line("its last chunk", made, TEXT + 16);
    return refused;
}
