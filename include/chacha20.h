/* SPDX-License-Identifier: Apache-2.0 OR MIT

   Authenticated encryption by ChaCha20-Poly1305 and XChaCha20-Poly1305, libsodium's streams, sealed
   files, the bare ciphers, HChaCha20, Poly1305 and seekable generators of random words, for Linux on
   x86-64 and aarch64.

       uint8_t key[CHACHA20_KEY_BYTES], nonce[XCHACHA20_NONCE_BYTES], tag[CHACHA20_TAG_BYTES];
       ...
       if (xchacha20_aead_encrypt(key, nonce, aad, aad_len, output, input, len, tag) != CHACHA20_OK)
           return -1;
       ...
       if (xchacha20_aead_decrypt(key, nonce, aad, aad_len, output, input, len, tag) != CHACHA20_OK)
           return -1;

   All output bytes, tags and words are computed by functions that are proved to meet their
   contracts (crates/chacha20_c). The plain C before them (c/chacha20.c) is tested, not proved: it
   takes null for empty data, and refuses overlap.

   For every function:

   - Arguments of ciphers come in one order: key, nonce, associated data, position, output, input,
     length, tag. An output of a fixed size comes last.
   - Positions and lengths count bytes, blocks of 64 bytes where a name has |block|, and words of 32
     bits where it has |word_pos|.
   - Data of length 0 may be null. With any other null pointer the behaviour is undefined.
   - |output| may be |input|, except in streams. Authenticated encryption, the ciphers, streams and chunks
     refuse any other overlap of what they write with an argument, and lengths above PTRDIFF_MAX, which no
     object has. Other functions say what may overlap. Inputs may overlap: a key and a nonce may be parts
     of one buffer. Data of length 0 overlap nothing.
   - Bytes need no alignment.
   - No function allocates, takes a lock, throws or keeps state between calls. Threads and signal
     handlers may call any function at any time if none writes memory that another uses.
   - A call takes at most CHACHA20_STACK_BYTES of the stack. A signal handler with a stack of its own
     needs that and sysconf(_SC_MINSIGSTKSZ) bytes; the constant SIGSTKSZ may be too small.
   - Copies of keys and keystream may remain in that part of the stack and in registers;
     chacha20_wipe_stack overwrites the stack alone.
   - The proved code has no unwind tables. A thread that is cancelled asynchronously during a call
     may skip its cleanup handlers, and a backtrace from within a call can show keystream. */

#ifndef CHACHA20_H
#define CHACHA20_H

#include <stddef.h>
#include <stdint.h>

#ifdef __cplusplus
extern "C" {
#endif

/* The version of this header. Within a major version functions are added, and none is changed, nor a
   constant, nor the bytes of a format. The shared library's soname, libchacha20.so.1, and the version
   node of its symbols, CHACHA20_1, have the major version alone. */
#define CHACHA20_VERSION "1.0.0"
#define CHACHA20_VERSION_MAJOR 1
#define CHACHA20_VERSION_MINOR 0
#define CHACHA20_VERSION_PATCH 0

/* Sizes. */
#define CHACHA20_KEY_BYTES 32
#define CHACHA20_NONCE_BYTES 12
#define XCHACHA20_NONCE_BYTES 24
#define CHACHA20_LEGACY_NONCE_BYTES 8
#define CHACHA20_BLOCK_BYTES 64
#define HCHACHA20_INPUT_BYTES 16
#define HCHACHA20_SUBKEY_BYTES 32
#define CHACHA20_RNG_SEED_BYTES 32
#define CHACHA20_RNG_STATE_BYTES 49
#define CHACHA20_TAG_BYTES 16
#define CHACHA20_SECRETSTREAM_HEADER_BYTES 24
#define CHACHA20_SECRETSTREAM_STATE_BYTES 44
#define CHACHA20_SECRETSTREAM_OVERHEAD_BYTES 17
#define CHACHA20_FILE_SALT_BYTES 19
#define CHACHA20_FILE_HEADER_BYTES 32
#define CHACHA20_FILE_CHUNK_BYTES 65552
#define CHACHA20_FILE_TEXT_BYTES 65536

/* The length of the keystream of a key and a nonce of 12 or 24 bytes: 2^32 blocks. A legacy
   keystream has 2^64 blocks. */
#define CHACHA20_STREAM_BYTES (UINT64_C(1) << 38)

/* The longest message that can be authenticated: block 0 makes the MAC's key. */
#define CHACHA20_AEAD_LONGEST (CHACHA20_STREAM_BYTES - 64)

/* An upper bound on the bytes of the stack that a call takes, measured by a test, with a margin. Half of
   them are for the dynamic linker, which may bind memcpy, memmove and memset in a program's first calls. */
#define CHACHA20_STACK_BYTES 8192

/* What a function that can refuse returns. After all but CHACHA20_OK nothing was written: the data are
   NOT encrypted, or NOT decrypted. Don't send or use |output|.

   CHACHA20_REFUSED    an argument breaks a rule of the function: a length, a position, a number or an
                       overlap. Data that are too short for their tag are refused too.
   CHACHA20_WRONG_TAG  the tag is wrong: something was changed, or the key, the nonce, the state or the
                       associated data aren't those of the sender.

   The last three are answers of chacha20_file_salt alone. */
#define CHACHA20_OK 0
#define CHACHA20_REFUSED 1
#define CHACHA20_WRONG_TAG 2
#define CHACHA20_OTHER_VERSION 3
#define CHACHA20_CUT_HEADER 4
#define CHACHA20_NOT_SEALED 5

/* The tag bytes of a stream's messages. Other bytes are allowed. */
#define CHACHA20_SECRETSTREAM_MESSAGE 0
#define CHACHA20_SECRETSTREAM_PUSH 1
#define CHACHA20_SECRETSTREAM_REKEY 2
#define CHACHA20_SECRETSTREAM_FINAL 3

/* A length has 64 bits in the library. */
typedef char chacha20_size_t_has_64_bits[sizeof(size_t) == 8 ? 1 : -1];

/* Compilers report an ignored result, a null pointer and, in C, a short array. gcc also reports an output or
   an input that is shorter than the length. */
#if defined(__GNUC__)
#define CHACHA20_ATTR_MUST_USE __attribute__((__warn_unused_result__))
#define CHACHA20_ATTR_NONNULL __attribute__((__nonnull__))
#define CHACHA20_ATTR_NONNULL_1 __attribute__((__nonnull__(1)))
#define CHACHA20_ATTR_CIPHER __attribute__((__warn_unused_result__, __nonnull__(1, 2)))
#define CHACHA20_ATTR_AEAD __attribute__((__warn_unused_result__, __nonnull__(1, 2, 8)))
#define CHACHA20_ATTR_MAC __attribute__((__nonnull__(1, 4)))
#define CHACHA20_ATTR_SEAL_CHUNK __attribute__((__warn_unused_result__, __nonnull__(1, 2, 5)))
#define CHACHA20_ATTR_PUSH __attribute__((__warn_unused_result__, __nonnull__(1, 4)))
#define CHACHA20_ATTR_PULL __attribute__((__warn_unused_result__, __nonnull__(1, 7)))
#define CHACHA20_ATTR_SALT __attribute__((__warn_unused_result__, __nonnull__(3)))
#else
#define CHACHA20_ATTR_MUST_USE
#define CHACHA20_ATTR_NONNULL
#define CHACHA20_ATTR_NONNULL_1
#define CHACHA20_ATTR_CIPHER
#define CHACHA20_ATTR_AEAD
#define CHACHA20_ATTR_MAC
#define CHACHA20_ATTR_SEAL_CHUNK
#define CHACHA20_ATTR_PUSH
#define CHACHA20_ATTR_PULL
#define CHACHA20_ATTR_SALT
#endif
/* The parameter at TO is an output and that at FROM an input, both of the length at LEN. */
#if defined(__GNUC__) && !defined(__clang__) && __GNUC__ >= 10
#define CHACHA20_ATTR_WRITES(TO, LEN) __attribute__((__access__(__write_only__, TO, LEN)))
#define CHACHA20_ATTR_READS(FROM, LEN) __attribute__((__access__(__read_only__, FROM, LEN)))
#else
#define CHACHA20_ATTR_WRITES(TO, LEN)
#define CHACHA20_ATTR_READS(FROM, LEN)
#endif
/* C++ has no such keyword; C has had it since C99. */
#if defined(__STDC_VERSION__) && __STDC_VERSION__ >= 199901L
#define CHACHA20_AT_LEAST static
#else
#define CHACHA20_AT_LEAST
#endif
#define CHACHA20_ATTR_XOR CHACHA20_ATTR_CIPHER CHACHA20_ATTR_WRITES(4, 6) CHACHA20_ATTR_READS(5, 6)
#define CHACHA20_ATTR_KEYSTREAM CHACHA20_ATTR_CIPHER CHACHA20_ATTR_WRITES(4, 5)
#define CHACHA20_ATTR_LEGACY_XOR \
    CHACHA20_ATTR_CIPHER CHACHA20_ATTR_WRITES(5, 7) CHACHA20_ATTR_READS(6, 7)
#define CHACHA20_ATTR_LEGACY_KEYSTREAM CHACHA20_ATTR_CIPHER CHACHA20_ATTR_WRITES(5, 6)
#define CHACHA20_ATTR_FILL CHACHA20_ATTR_NONNULL_1 CHACHA20_ATTR_WRITES(2, 3)
#define CHACHA20_ATTR_SEAL \
    CHACHA20_ATTR_AEAD CHACHA20_ATTR_READS(3, 4) CHACHA20_ATTR_WRITES(5, 7) CHACHA20_ATTR_READS(6, 7)
#define CHACHA20_ATTR_TAG CHACHA20_ATTR_MAC CHACHA20_ATTR_READS(2, 3)
#define CHACHA20_ATTR_VERIFY \
    CHACHA20_ATTR_MUST_USE CHACHA20_ATTR_READS(1, 3) CHACHA20_ATTR_READS(2, 3)

/* Authenticated encryption */

/* chacha20_aead_encrypt encrypts |len| bytes of |input| to |output| by ChaCha20-Poly1305 (RFC 8439,
   section 2.8), and writes the tag of the associated data |aad|, which isn't encrypted, and of the
   ciphertext. Send or store nonce, ciphertext and tag. With |output| + |len| as |tag|, ciphertext and
   tag are one buffer.

   It returns CHACHA20_OK, or CHACHA20_REFUSED if |len| is greater than CHACHA20_AEAD_LONGEST, if
   |aad_len| is greater than PTRDIFF_MAX, or if |output| or |tag| overlaps what it may not.

   Never use a nonce twice under one key: the XOR of the two messages would show, and tags could be
   forged. A tag doesn't commit to its key: one ciphertext and tag can be right under two keys. */
int chacha20_aead_encrypt(const uint8_t key[CHACHA20_AT_LEAST 32],
                          const uint8_t nonce[CHACHA20_AT_LEAST 12], const uint8_t *aad,
                          size_t aad_len, uint8_t *output, const uint8_t *input, size_t len,
                          uint8_t tag[CHACHA20_AT_LEAST 16]) CHACHA20_ATTR_SEAL;

/* chacha20_aead_decrypt checks that |tag| is that of |aad| and of the ciphertext |input|, and only
   then decrypts |len| bytes to |output|.

   It returns CHACHA20_OK, CHACHA20_WRONG_TAG, or CHACHA20_REFUSED where chacha20_aead_encrypt does,
   except that |tag| is an input, which may overlap all but |output|. Check that a total has at least
   16 bytes before you subtract those of the tag; a |len| that wrapped is refused. */
int chacha20_aead_decrypt(const uint8_t key[CHACHA20_AT_LEAST 32],
                          const uint8_t nonce[CHACHA20_AT_LEAST 12], const uint8_t *aad,
                          size_t aad_len, uint8_t *output, const uint8_t *input, size_t len,
                          const uint8_t tag[CHACHA20_AT_LEAST 16]) CHACHA20_ATTR_SEAL;

/* XChaCha20-Poly1305 (draft-irtf-cfrg-xchacha): the same calls with a nonce of 24 bytes, which may be
   random. One of 12 bytes is too short for that: count the messages. */
int xchacha20_aead_encrypt(const uint8_t key[CHACHA20_AT_LEAST 32],
                           const uint8_t nonce[CHACHA20_AT_LEAST 24], const uint8_t *aad,
                           size_t aad_len, uint8_t *output, const uint8_t *input, size_t len,
                           uint8_t tag[CHACHA20_AT_LEAST 16]) CHACHA20_ATTR_SEAL;
int xchacha20_aead_decrypt(const uint8_t key[CHACHA20_AT_LEAST 32],
                           const uint8_t nonce[CHACHA20_AT_LEAST 24], const uint8_t *aad,
                           size_t aad_len, uint8_t *output, const uint8_t *input, size_t len,
                           const uint8_t tag[CHACHA20_AT_LEAST 16]) CHACHA20_ATTR_SEAL;

/* chacha20_onetime_poly1305 writes the tag of |input| by the MAC Poly1305, under a key that serves one
   message alone (RFC 8439, section 2.5). It encrypts nothing. Whoever sees the tags of two messages
   under one key can forge others. |tag| may overlap |key| and |input|. */
void chacha20_onetime_poly1305(const uint8_t key[CHACHA20_AT_LEAST 32], const uint8_t *input,
                               size_t len, uint8_t tag[CHACHA20_AT_LEAST 16]) CHACHA20_ATTR_TAG;

/* chacha20_verify returns CHACHA20_OK if |len| bytes are equal, and else CHACHA20_WRONG_TAG. It reads
   every byte, even after a difference: compare tags with it, not with memcmp. */
int chacha20_verify(const uint8_t *one, const uint8_t *other, size_t len) CHACHA20_ATTR_VERIFY;

/* chacha20_wipe_stack overwrites what the caller's earlier calls of this library left on the stack. Call it
   from the function that made these calls, and not last: a compiler may turn a last call into a jump, after
   it has freed the function's own stack. */
void chacha20_wipe_stack(void);

/* Ciphers */

/* chacha20_xor XORs |len| bytes of |input| with the keystream of ChaCha20 (RFC 8439), from byte
   |position| of the keystream on, and writes them to |output|. Decryption is the same call.

   A message may be processed in parts, in any order, and the bytes are those of one call. A part
   that begins or ends within a block takes as long as the whole block.

   It returns CHACHA20_OK, or CHACHA20_REFUSED if |position| + |len|, computed without overflow, is
   greater than CHACHA20_STREAM_BYTES, or if |output| overlaps what it may not.

   A bare cipher doesn't authenticate: whoever can change the output can flip any bit of the message.
   For messages use chacha20_aead_encrypt. Never use a nonce twice under one key: the XOR of the two
   messages would show. */
int chacha20_xor(const uint8_t key[CHACHA20_AT_LEAST 32], const uint8_t nonce[CHACHA20_AT_LEAST 12],
                 uint64_t position, uint8_t *output, const uint8_t *input, size_t len)
                 CHACHA20_ATTR_XOR;

/* chacha20_keystream writes the keystream itself, and is refused as chacha20_xor is. */
int chacha20_keystream(const uint8_t key[CHACHA20_AT_LEAST 32],
                       const uint8_t nonce[CHACHA20_AT_LEAST 12], uint64_t position,
                       uint8_t *output, size_t len) CHACHA20_ATTR_KEYSTREAM;

/* chacha20_check returns CHACHA20_OK if |len| bytes at |position| end within the keystream, and
   CHACHA20_REFUSED otherwise. It serves every cipher with a nonce of 12 or 24 bytes. The limit of
   messages is CHACHA20_AEAD_LONGEST. */
int chacha20_check(uint64_t position, size_t len) CHACHA20_ATTR_MUST_USE;

/* chacha20_block_position returns the position of the first byte of |block|, 64 * |block|. If that is
   greater than 2^63, it returns 2^63: a cipher with a nonce of 12 or 24 bytes refuses it, and also its
   sum with an offset below 2^63. RFC 8439 encrypts messages from block 1 on. */
uint64_t chacha20_block_position(uint64_t block);

/* The other ciphers, called in the same way.

   xchacha20        XChaCha20 (draft-irtf-cfrg-xchacha): a nonce of 24 bytes, which may be random
   chacha20_legacy  ChaCha20 from before the RFC: a nonce of 8 bytes and a counter of 64 bits. Its
                    keystream has 2^70 bytes, so a position is two numbers: byte 64 * |block| +
                    |offset|, computed without overflow. |offset| may be 64 or more. The check looks
                    at the end of the keystream alone; the ciphers also refuse |len| above
                    PTRDIFF_MAX. */
int xchacha20_xor(const uint8_t key[CHACHA20_AT_LEAST 32],
                  const uint8_t nonce[CHACHA20_AT_LEAST 24], uint64_t position, uint8_t *output,
                  const uint8_t *input, size_t len) CHACHA20_ATTR_XOR;
int xchacha20_keystream(const uint8_t key[CHACHA20_AT_LEAST 32],
                        const uint8_t nonce[CHACHA20_AT_LEAST 24], uint64_t position,
                        uint8_t *output, size_t len) CHACHA20_ATTR_KEYSTREAM;
int chacha20_legacy_xor(const uint8_t key[CHACHA20_AT_LEAST 32],
                        const uint8_t nonce[CHACHA20_AT_LEAST 8], uint64_t block, uint64_t offset,
                        uint8_t *output, const uint8_t *input, size_t len) CHACHA20_ATTR_LEGACY_XOR;
int chacha20_legacy_keystream(const uint8_t key[CHACHA20_AT_LEAST 32],
                              const uint8_t nonce[CHACHA20_AT_LEAST 8], uint64_t block,
                              uint64_t offset, uint8_t *output, size_t len)
                              CHACHA20_ATTR_LEGACY_KEYSTREAM;
int chacha20_legacy_check(uint64_t block, uint64_t offset, size_t len) CHACHA20_ATTR_MUST_USE;

/* HChaCha */

/* hchacha20 derives a subkey from |key| and |input| (draft-irtf-cfrg-xchacha, section 2.2). |subkey|
   may overlap both.

   xchacha20_xor derives the subkey of the first 16 bytes of its nonce in each call. To derive it
   once, call chacha20_xor with the subkey, and as nonce four zero bytes and the last 8 bytes. */
void hchacha20(const uint8_t key[CHACHA20_AT_LEAST 32], const uint8_t input[CHACHA20_AT_LEAST 16],
               uint8_t subkey[CHACHA20_AT_LEAST 32]) CHACHA20_ATTR_NONNULL;

/* Generators

   A generator's state is 49 bytes, which the caller owns, copies and stores: 32 of seed, 8 of
   stream and 9 of word position, both little-endian. Any 49 bytes are a state. The upper four bits
   of the last byte are ignored, and a call that writes the state clears them.

   The words of a stream are those of ChaCha's blocks with a counter of 64 bits, the seed as key and
   the stream as nonce. After 2^68 words the first comes again. No call is refused.

   The state is secret: it determines all words, past and future. A copy of it repeats the stream,
   also in a child after fork; give each its own stream or seed. */

/* chacha20_rng_from_seed writes the state of |seed|: word 0 of stream 0. |state| may overlap |seed|. */
void chacha20_rng_from_seed(const uint8_t seed[CHACHA20_AT_LEAST 32],
                            uint8_t state[CHACHA20_AT_LEAST 49]) CHACHA20_ATTR_NONNULL;

/* chacha20_rng_fill writes the next |len| bytes, each word little-endian. Unused bytes of the last
   word are lost. Length 0 takes no word. |output| must not overlap |state|: this isn't checked, and
   if it does, the behaviour is undefined.

   Each fill computes at least four blocks, 64 words. To take words one by one, fill an array of 64. */
void chacha20_rng_fill(uint8_t state[CHACHA20_AT_LEAST 49], uint8_t *output, size_t len)
                       CHACHA20_ATTR_FILL;

/* The word position, |*low| + 2^64 * |*high| with |*high| below 16. The setter takes any two
   numbers, modulo 2^68. |low| and |high| are different objects, apart from |state|. */
void chacha20_rng_get_word_pos(const uint8_t state[CHACHA20_AT_LEAST 49], uint64_t *low,
                               uint64_t *high) CHACHA20_ATTR_NONNULL;
void chacha20_rng_set_word_pos(uint8_t state[CHACHA20_AT_LEAST 49], uint64_t low, uint64_t high)
                               CHACHA20_ATTR_NONNULL;

/* The block of the next word. Setting moves to the first word of the block. */
uint64_t chacha20_rng_get_block_pos(const uint8_t state[CHACHA20_AT_LEAST 49]) CHACHA20_ATTR_NONNULL;
void chacha20_rng_set_block_pos(uint8_t state[CHACHA20_AT_LEAST 49], uint64_t block)
                                CHACHA20_ATTR_NONNULL;

/* The stream. Setting moves to word 0 of the stream; Rust's rand_chacha keeps the word position. */
uint64_t chacha20_rng_get_stream(const uint8_t state[CHACHA20_AT_LEAST 49]) CHACHA20_ATTR_NONNULL;
void chacha20_rng_set_stream(uint8_t state[CHACHA20_AT_LEAST 49], uint64_t stream)
                             CHACHA20_ATTR_NONNULL;

/* chacha12_rng_fill and chacha8_rng_fill are chacha20_rng_fill of generators with fewer rounds, which take
   less time: simulations don't need 20. All other calls serve their states too. */
void chacha12_rng_fill(uint8_t state[CHACHA20_AT_LEAST 49], uint8_t *output, size_t len)
                       CHACHA20_ATTR_FILL;
void chacha8_rng_fill(uint8_t state[CHACHA20_AT_LEAST 49], uint8_t *output, size_t len)
                      CHACHA20_ATTR_FILL;

/* Streams

   Messages that are read in the order in which they were written, and an end that can't be cut off
   unnoticed: libsodium's crypto_secretstream_xchacha20poly1305. The state is 44 bytes, which the caller
   owns. It is what a crypto_secretstream_xchacha20poly1305_state begins with, so either library can go on
   with the other's stream. It is secret. A copy that is pushed to twice uses a nonce twice.

   The sender sends the header and then the messages, the receiver reads them:

       chacha20_secretstream_start(key, header, state);                  // 24 random bytes as header
       while (next text)                                                 // FINAL for the last one
           if (chacha20_secretstream_push(state, NULL, 0, message, text, len, tag)) fail;

       chacha20_secretstream_start(key, header, state);
       do if (chacha20_secretstream_pull(state, NULL, 0, text, message, len, &tag)) fail;
       while (tag != CHACHA20_SECRETSTREAM_FINAL);                       // not before: the stream was cut

   Neither call stops at FINAL by itself. */

/* chacha20_secretstream_start writes the first state of the stream with |header|, for either side. Never
   use a header twice under one key; draw it at random. |state| may overlap both. */
void chacha20_secretstream_start(const uint8_t key[CHACHA20_AT_LEAST 32],
                                 const uint8_t header[CHACHA20_AT_LEAST 24],
                                 uint8_t state[CHACHA20_AT_LEAST 44]) CHACHA20_ATTR_NONNULL;

/* chacha20_secretstream_push writes the message of |len| bytes of |input|, which has 17 bytes more, to
   |output|, and moves |state| past it. The associated data |aad| aren't sent; the receiver has to pass
   the same. After a |tag| with bit 1 set, as REKEY and FINAL, both sides have another key.

   It returns CHACHA20_OK, or CHACHA20_REFUSED if |len| is greater than CHACHA20_AEAD_LONGEST - 64, if
   |aad_len| is greater than PTRDIFF_MAX, or if |state| or |output| overlaps another argument. */
int chacha20_secretstream_push(uint8_t state[CHACHA20_AT_LEAST 44], const uint8_t *aad, size_t aad_len,
                               uint8_t *output, const uint8_t *input, size_t len, uint8_t tag)
                               CHACHA20_ATTR_PUSH CHACHA20_ATTR_READS(2, 3) CHACHA20_ATTR_READS(5, 6);

/* chacha20_secretstream_pull checks that the |len| bytes of |input| are the next message. Then it writes
   its text, of |len| - 17 bytes, to |output|, and its tag byte to |tag|, and moves |state| past it.

   It returns CHACHA20_OK, CHACHA20_WRONG_TAG for other bytes, or CHACHA20_REFUSED if |len| is less than
   17 or greater than CHACHA20_AEAD_LONGEST - 47, if |aad_len| is greater than PTRDIFF_MAX, or if |state|,
   |output| or |tag| overlaps another argument. */
int chacha20_secretstream_pull(uint8_t state[CHACHA20_AT_LEAST 44], const uint8_t *aad, size_t aad_len,
                               uint8_t *output, const uint8_t *input, size_t len, uint8_t *tag)
                               CHACHA20_ATTR_PULL CHACHA20_ATTR_READS(2, 3) CHACHA20_ATTR_READS(5, 6);

/* chacha20_secretstream_rekey takes another key. Both sides have to call it at the same place. */
void chacha20_secretstream_rekey(uint8_t state[CHACHA20_AT_LEAST 44]) CHACHA20_ATTR_NONNULL;

/* Sealed files

   The files of the program seal: a header of 32 bytes, and chunks. Each chunk but the last has 65536 bytes
   of text, and in the file 16 more; chunk i begins at byte 32 + 65552 * i. Here every chunk is a call, and
   the caller reads and writes. |buffer| has 65552 bytes. A read gives all bytes that it is asked for, unless
   the file ends:

       chacha20_file_header(salt, header);                               // 19 random bytes as salt
       write(header, 32);
       for (i = 0, last = 0; !last; i++) {
           len = read(buffer, 65536), last = no byte follows;
           if (chacha20_file_seal_chunk(key, salt, i, last, buffer, buffer, len)) fail;
           write(buffer, len + 16);
       }

       if (chacha20_file_salt(header, read(header, 32), salt)) fail;
       for (i = 0, last = 0; !last; i++) {
           len = read(buffer, 65552), last = no byte follows;
           if (chacha20_file_open_chunk(key, salt, i, last, buffer, buffer, len)) fail;
           write(buffer, len - 16);
       }

   Seal each number once under a salt: a second chunk of that number uses the nonce again. To read a part,
   open the last chunk first, number (file_len - 33) / 65552: until then the file's length is only a claim,
   and may have been cut. */

/* chacha20_file_header writes the header of a file with |salt|. Never use a salt twice under one key; draw
   it at random. |header| may overlap |salt|. */
void chacha20_file_header(const uint8_t salt[CHACHA20_AT_LEAST 19],
                          uint8_t header[CHACHA20_AT_LEAST 32]) CHACHA20_ATTR_NONNULL;

/* chacha20_file_salt writes the salt of a file that begins with |input|, of which it reads at most 32 bytes.
   It returns CHACHA20_OK, CHACHA20_NOT_SEALED if the file doesn't begin with the magic word,
   CHACHA20_CUT_HEADER if it has fewer than 32 bytes, or CHACHA20_OTHER_VERSION for another version of the
   format. |salt| may overlap |input|. */
int chacha20_file_salt(const uint8_t *input, size_t len, uint8_t salt[CHACHA20_AT_LEAST 19])
                       CHACHA20_ATTR_SALT CHACHA20_ATTR_READS(1, 2);

/* chacha20_file_text_len returns how many bytes of text a sealed file of |file_len| bytes has. */
uint64_t chacha20_file_text_len(uint64_t file_len);

/* chacha20_file_seal_chunk writes chunk |number| of the text |input| to |output|, with |len| + 16 bytes.
   |last| is 0 or not: whether the file ends with it. |output| may be |input|.

   |len| must be 65536; in the last chunk it may be less, but 0 only in chunk 0. It returns CHACHA20_OK, or
   CHACHA20_REFUSED for another |len|, if |number| is greater than 2^32 - 1, which no file has, or if
   |output| overlaps what it may not. */
int chacha20_file_seal_chunk(const uint8_t key[CHACHA20_AT_LEAST 32],
                             const uint8_t salt[CHACHA20_AT_LEAST 19], uint64_t number, int last,
                             uint8_t *output, const uint8_t *input, size_t len)
                             CHACHA20_ATTR_SEAL_CHUNK CHACHA20_ATTR_READS(6, 7);

/* chacha20_file_open_chunk checks the |len| bytes of chunk |input|, and then writes its text, of |len| - 16
   bytes, to |output|, which may be |input|.

   It returns CHACHA20_OK, CHACHA20_WRONG_TAG if the bytes aren't this chunk, or CHACHA20_REFUSED where
   chacha20_file_seal_chunk does for a text of |len| - 16 bytes. */
int chacha20_file_open_chunk(const uint8_t key[CHACHA20_AT_LEAST 32],
                             const uint8_t salt[CHACHA20_AT_LEAST 19], uint64_t number, int last,
                             uint8_t *output, const uint8_t *input, size_t len)
                             CHACHA20_ATTR_CIPHER CHACHA20_ATTR_READS(6, 7);

/* chacha20_version returns the version of the library that runs. */
const char *chacha20_version(void);

#undef CHACHA20_ATTR_MUST_USE
#undef CHACHA20_ATTR_NONNULL
#undef CHACHA20_ATTR_NONNULL_1
#undef CHACHA20_ATTR_CIPHER
#undef CHACHA20_ATTR_WRITES
#undef CHACHA20_ATTR_READS
#undef CHACHA20_ATTR_XOR
#undef CHACHA20_ATTR_KEYSTREAM
#undef CHACHA20_ATTR_LEGACY_XOR
#undef CHACHA20_ATTR_LEGACY_KEYSTREAM
#undef CHACHA20_ATTR_FILL
#undef CHACHA20_ATTR_AEAD
#undef CHACHA20_ATTR_MAC
#undef CHACHA20_ATTR_SEAL
#undef CHACHA20_ATTR_TAG
#undef CHACHA20_ATTR_VERIFY
#undef CHACHA20_ATTR_SEAL_CHUNK
#undef CHACHA20_ATTR_PUSH
#undef CHACHA20_ATTR_PULL
#undef CHACHA20_ATTR_SALT
#undef CHACHA20_AT_LEAST

#ifdef __cplusplus
}
#endif

#endif
