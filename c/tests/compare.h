/* SPDX-License-Identifier: Apache-2.0 OR MIT

   The library's levels and other implementations. */

#ifndef COMPARE_H
#define COMPARE_H

#include "../../include/chacha20.h"

enum { LAYOUTS = 3, AEADS = 2, MOST_LEVELS = 3 };

/* Nonces of 12, of 24 and of 8 bytes; and the last with 12 and with 8 rounds, which generators alone have. */
enum layout { IETF, XCHACHA, LEGACY, LEGACY_12, LEGACY_8, ALL_LAYOUTS };

/* The library's ciphers. The position is byte 64 * block + offset in all layouts. */
extern const struct cipher {
    int (*xor)(const uint8_t *key, const uint8_t *nonce, uint64_t block, uint64_t offset, uint8_t *output,
               const uint8_t *input, size_t len);
    int (*keystream)(const uint8_t *key, const uint8_t *nonce, uint64_t block, uint64_t offset, uint8_t *output, size_t len);
    int (*check)(uint64_t block, uint64_t offset, size_t len);
} ciphers[LAYOUTS];

/* Authenticated encryption with the nonces of IETF and of XCHACHA. */
#define AEAD_PARAMETERS                                                                                                  \
    const uint8_t *key, const uint8_t *nonce, const uint8_t *aad, size_t aad_len, uint8_t *output, const uint8_t *input, \
        size_t len
extern const struct aead {
    int (*encrypt)(AEAD_PARAMETERS, uint8_t *tag);
    int (*decrypt)(AEAD_PARAMETERS, const uint8_t *tag);
} aeads[AEADS];

#define STREAM_PARAMETERS uint8_t *state, const uint8_t *aad, size_t aad_len, uint8_t *output, const uint8_t *input, size_t len

/* The level of x86-64 that this processor has by the compiler's own means; 0 on another machine. */
int level_here(void);

/* Finds the levels of the library that this processor can run, the chosen one last, and returns their number. It prints a line
   for each other level, and ends the program if the library has chosen another than the highest. */
int find_levels(void);

/* Has the library run one of these, from 0 on, and returns its name. */
const char *set_level(int at);

/* Another implementation; NULL where it has no such function. */
struct other {
    const char *name;
    /* From a block on, in place or to an output that doesn't overlap the input. */
    void (*xor_from_block[ALL_LAYOUTS])(const uint8_t *key, const uint8_t *nonce, uint64_t block, uint8_t *output,
                                    const uint8_t *input, size_t len);
    void (*hchacha)(const uint8_t *key, const uint8_t *input, uint8_t *subkey);
    void (*encrypt[AEADS])(AEAD_PARAMETERS, uint8_t *tag);
    void (*poly1305)(const uint8_t *key, const uint8_t *input, size_t len, uint8_t *tag);
    /* Streams, as the library's own, over the 44 bytes of a state. */
    void (*start)(const uint8_t *key, const uint8_t *header, uint8_t *state);
    void (*push)(STREAM_PARAMETERS, uint8_t tag);
    int (*pull)(STREAM_PARAMETERS, uint8_t *tag);
    void (*rekey)(uint8_t *state);
};

/* Writes the address of a library's function to a pointer; 0 if there is none. */
int look_up(void *handle, const char *name, void *function);

/* libsodium, where the machine has it, which has all of them; it prints a line. */
int find_sodium(struct other *found);

/* Plain C of this folder, written after RFC 8439 and the draft. */
extern const struct other plain_c;

#endif
