/* SPDX-License-Identifier: Apache-2.0 OR MIT

   Every function of chacha20.h, by number, on data of the caller's own. */

#include <string.h>

#include "../../include/chacha20.h"

enum { MOST = (1 << 14) + 1000, CALL_KINDS = 36 };

struct own { uint8_t key[32], nonce[24], aad[30], tag[16], state[CHACHA20_RNG_STATE_BYTES], input[MOST + 17], output[MOST + 17]; };

#define KEY_NONCE it->key, it->nonce
#define MESSAGE KEY_NONCE, it->aad, sizeof it->aad
#define STREAM it->state, it->aad, sizeof it->aad

static int call(int kind, struct own *it, size_t len) {
    uint8_t *input = it->input, *output = it->output, *state = it->state;
    uint64_t low, high;
    switch (kind) {
        case 0: return chacha20_xor(KEY_NONCE, 5, output, input, len);
        case 1: return chacha20_xor(KEY_NONCE, 5, output, output, len);
        case 2: return chacha20_keystream(KEY_NONCE, 5, output, len);
        case 3: return xchacha20_xor(KEY_NONCE, 5, output, input, len);
        case 4: return xchacha20_xor(KEY_NONCE, 5, output, output, len);
        case 5: return xchacha20_keystream(KEY_NONCE, 5, output, len);
        case 6: return chacha20_legacy_xor(KEY_NONCE, 0, 5, output, input, len);
        case 7: return chacha20_legacy_xor(KEY_NONCE, 0, 5, output, output, len);
        case 8: return chacha20_legacy_keystream(KEY_NONCE, 0, 5, output, len);
        case 9: return chacha20_aead_encrypt(MESSAGE, output, output, len, it->tag);
        case 10: return chacha20_aead_encrypt(MESSAGE, output, input, len, it->tag);
        case 11: return chacha20_aead_decrypt(MESSAGE, input, output, len, it->tag);
        case 12: return chacha20_aead_decrypt(MESSAGE, output, output, len, it->tag);
        case 13: return xchacha20_aead_encrypt(MESSAGE, output, output, len, it->tag);
        case 14: return xchacha20_aead_encrypt(MESSAGE, output, input, len, it->tag);
        case 15: return xchacha20_aead_decrypt(MESSAGE, input, output, len, it->tag);
        case 16: return xchacha20_aead_decrypt(MESSAGE, output, output, len, it->tag);
        case 17: return chacha20_rng_fill(state, output, len), 0;
        case 18: return chacha12_rng_fill(state, output, len), 0;
        case 19: return chacha8_rng_fill(state, output, len), 0;
        case 20: return chacha20_onetime_poly1305(it->key, input, len, it->tag), 0;
        case 21: return chacha20_verify(input, input, len);
        case 22: return hchacha20(KEY_NONCE, output), 0;
        case 23: return chacha20_rng_from_seed(it->key, state), chacha20_rng_set_stream(state, 5), 0;
        case 24: return chacha20_rng_set_word_pos(state, 5, 6), chacha20_rng_get_word_pos(state, &low, &high), low + high != 11;
        case 25: return chacha20_rng_set_block_pos(state, chacha20_rng_get_block_pos(state)), 0;
        case 26: return chacha20_rng_get_stream(state) != 5 || !chacha20_version() || chacha20_block_position(0);
        case 27: return chacha20_check(5, len) | chacha20_legacy_check(5, 5, len);
        case 28: return chacha20_secretstream_start(KEY_NONCE, state), chacha20_secretstream_rekey(state), 0;
        case 29: return chacha20_secretstream_push(STREAM, output, input, len, CHACHA20_SECRETSTREAM_FINAL);
        case 30: return chacha20_secretstream_pull(STREAM, input, output, len + 17, it->tag);
        case 31: return chacha20_file_seal_chunk(KEY_NONCE, 5, 1, output, output, len);
        case 32: return chacha20_file_seal_chunk(KEY_NONCE, 5, 1, output, input, len);
        case 33: return chacha20_file_open_chunk(KEY_NONCE, 5, 1, input, output, len + 16);
        case 34: return chacha20_file_open_chunk(KEY_NONCE, 5, 1, output, output, len + 16);
        default: return chacha20_file_header(it->nonce, output), chacha20_file_salt(output, 32, input) + (int)chacha20_file_text_len(48);
    }
}

/* Makes what this call decrypts. */
static int prepare(int kind, struct own *it, size_t len) {
    uint8_t kept[sizeof it->state];
    int is_aead = kind == 11 || kind == 12 || kind == 15 || kind == 16, is_pull = kind == 30, is_chunk = kind == 33 || kind == 34;
    memcpy(kept, it->state, sizeof kept);
    int answer = is_aead ? call(kind < 13 ? 10 : 14, it, len) : is_pull ? call(29, it, len) : is_chunk ? call(32, it, len) : 0;
    memcpy(it->state, kept, sizeof kept);
    return answer;
}
