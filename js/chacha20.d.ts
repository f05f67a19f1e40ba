// SPDX-License-Identifier: Apache-2.0 OR MIT
//
// ChaCha20-Poly1305 and what belongs to it, by proved functions in WebAssembly, for Node and browsers with 64-bit
// memories. The import fails where the engine has none.
//
// A value of a wrong type is a TypeError, one of a wrong length or out of range a RangeError; both name the argument,
// and nothing is computed. What the module's memory can't hold is a RangeError of the engine. No argument may be detached
// or in a SharedArrayBuffer. Results are new arrays. Take keys, and nonces of 24 bytes, from crypto.getRandomValues.
// Never use a nonce twice under one key.

/** One message's cipher, under its key and nonce. */
export interface Cipher {
  /**
   * The ciphertext, and behind it the tag of 16 bytes. A second call on this object throws; two objects with one nonce
   * aren't noticed.
   */
  encrypt(text: Uint8Array): Uint8Array;
  /** The text. Throws the Error "wrong tag" if key, nonce, aad, ciphertext or tag differ from those of `encrypt`. */
  decrypt(sealed: Uint8Array): Uint8Array;
}

/**
 * ChaCha20-Poly1305 (RFC 8439): a key of 32 bytes, a nonce of 12 bytes, which must be a counter: too short to choose at
 * random; and associated data.
 */
export function chacha20poly1305(key: Uint8Array, nonce: Uint8Array, aad?: Uint8Array): Cipher;

/** XChaCha20-Poly1305 (draft-irtf-cfrg-xchacha): a nonce of 24 bytes, which may be random. */
export function xchacha20poly1305(key: Uint8Array, nonce: Uint8Array, aad?: Uint8Array): Cipher;

/**
 * ChaCha20 (RFC 8439), which doesn't authenticate: the XOR of `data` and the keystream from byte `position`, 0 if left
 * out, on. RFC 8439's AEAD encrypts from byte 64 on; bytes 0 to 31 are its Poly1305 key, so never use position 0 under
 * the same key and nonce. Throws a RangeError past 2^38 bytes, and a TypeError for a fifth argument, since noble's
 * fourth and fifth are an output and a counter of blocks. Decryption is the same call.
 */
export function chacha20(key: Uint8Array, nonce: Uint8Array, data: Uint8Array, position?: number): Uint8Array;

/** XChaCha20: `chacha20` with a nonce of 24 bytes. */
export function xchacha20(key: Uint8Array, nonce: Uint8Array, data: Uint8Array, position?: number): Uint8Array;

/**
 * A generator for repeatable simulations, not for keys: words of 32 bits, little-endian, of the keystream of a seed.
 * After word 2^68 - 1 comes word 0 again.
 */
declare class Rng {
  /** Begins at word 0 of stream 0 of a seed of 32 bytes. */
  constructor(seed: Uint8Array);
  /**
   * Goes on from a state: 32 bytes of seed, 8 of stream, 9 of word position, both little-endian. The high 4
   * bits of the last byte are ignored.
   */
  static fromState<T extends Rng>(this: new (seed: Uint8Array) => T, state: Uint8Array): T;
  /** A copy of the 49 bytes, which tell all words, past and future. */
  get state(): Uint8Array;
  /** The number of the next word, below 2^68. Can be set. */
  wordPosition: bigint;
  /** Fills `output` with the next bytes, and returns it. Unused bytes of the last word are lost. */
  fill<T extends Uint8Array>(output: T): T;
}
export class ChaCha20Rng extends Rng {}
/** `ChaCha20Rng` with 12 rounds: faster. */
export class ChaCha12Rng extends Rng {}
/** `ChaCha20Rng` with 8 rounds. */
export class ChaCha8Rng extends Rng {}

/** The sender of a stream: libsodium's crypto_secretstream_xchacha20poly1305. */
export interface PushStream {
  /** 24 random bytes, which the receiver needs first. */
  readonly header: Uint8Array;
  /** The next message, of 17 bytes more than `text`. `tag`, 0 if left out, is a byte that the receiver is given. */
  push(text: Uint8Array, tag?: number, aad?: Uint8Array): Uint8Array;
  /** Takes another key, as after a message whose tag is REKEY or FINAL. The receiver must at the same place. */
  rekey(): void;
}

/** The receiver of a stream. */
export interface PullStream {
  /** Throws the Error "wrong tag", and stays where it is, if this isn't the next message, or aad differs. */
  pull(message: Uint8Array, aad?: Uint8Array): { text: Uint8Array; tag: number };
  rekey(): void;
}

export const SecretStream: {
  readonly MESSAGE: 0;
  readonly PUSH: 1;
  readonly REKEY: 2;
  readonly FINAL: 3;
  /** Begins a stream under a key of 32 bytes and a random header. */
  initPush(key: Uint8Array): PushStream;
  initPull(header: Uint8Array, key: Uint8Array): PullStream;
  /**
   * From bytes to a stream: its header, and messages of `size` bytes of text each, 65536 if left out; the last, whose tag
   * is FINAL, has fewer or as many.
   */
  encryptor(key: Uint8Array, size?: number): TransformStream<Uint8Array, Uint8Array>;
  /**
   * From such a stream, by any library, to its bytes. Each part comes only after its tag was checked. After damage, or
   * where the stream doesn't end with its one message whose tag is FINAL, this fails: use what came only after its end.
   */
  decryptor(key: Uint8Array, size?: number): TransformStream<Uint8Array, Uint8Array>;
};

/** Seals a file in the format of the program `seal`, under a random salt: 32 bytes more, and 16 for each 64 KiB. */
export function sealBlob(key: Uint8Array, blob: Blob): ReadableStream<Uint8Array>;

/**
 * The text of a sealed file. Each part comes only after its tag was checked. After damage or a cut the stream fails,
 * with an Error that says where, so what came before is the start of the text: use it only after the stream's end.
 *
 * Read it by `for await`: Chromium's `new Response(openBlob(..)).text()` fails with an error of its own, which hides
 * this one. A file that changes under its Blob makes each of these streams fail with a DOMException NotReadableError.
 */
export function openBlob(key: Uint8Array, blob: Blob): ReadableStream<Uint8Array>;

/**
 * The text from byte `start` up to `end`. The last chunk is opened first, so a cut or a wrong key is an error, also where
 * the range is empty. Besides it, only the chunks that the range is in are read: damage elsewhere goes unnoticed. The
 * stream fails with a RangeError, which names the text's length, if `end` is past it.
 */
export function readRange(key: Uint8Array, blob: Blob, start: number, end: number): ReadableStream<Uint8Array>;

/** The key of a key file of `seal`: of the line `seal-key-v1:` and base64, as text or bytes, or 32 bytes themselves. */
export function readKey(file: string | Uint8Array): Uint8Array;

// Nothing else is exported.
export {};
