// SPDX-License-Identifier: Apache-2.0 OR MIT
//
// Each type of chacha20.d.ts, as it should be, and as the package that `run` has installed behaves. tsc checks this file,
// and Node runs it.

import * as chacha from "chacha20";
import type { Cipher, PullStream, PushStream } from "chacha20";

const { chacha20poly1305, xchacha20poly1305, chacha20, xchacha20, ChaCha20Rng, SecretStream } = chacha;
type Bytes = Uint8Array;
type Same<A, B> = (<T>() => T extends A ? 1 : 2) extends <T>() => T extends B ? 1 : 2 ? true : false;
type MakeCipher = (key: Bytes, nonce: Bytes, aad?: Bytes) => Cipher;
type Xor = (key: Bytes, nonce: Bytes, data: Bytes, position?: number) => Bytes;
type Parts = ReadableStream<Bytes>;
type Transform = (key: Bytes, size?: number) => TransformStream<Bytes, Bytes>;
type Streams = {
  readonly MESSAGE: 0; readonly PUSH: 1; readonly REKEY: 2; readonly FINAL: 3;
  initPush(key: Bytes): PushStream; initPull(header: Bytes, key: Bytes): PullStream;
  encryptor: Transform; decryptor: Transform;
};
type Rng = { get state(): Bytes; wordPosition: bigint; fill<T extends Bytes>(output: T): T };
type Names = "chacha20poly1305" | "xchacha20poly1305" | "chacha20" | "xchacha20" | "ChaCha20Rng" | "ChaCha12Rng"
  | "ChaCha8Rng" | "SecretStream" | "sealBlob" | "openBlob" | "readRange" | "readKey";
type All<T extends true[]> = T;
export type Pins = All<[
  Same<keyof typeof chacha, Names>,
  Same<Cipher, { encrypt(text: Bytes): Bytes; decrypt(sealed: Bytes): Bytes }>,
  Same<typeof chacha20poly1305, MakeCipher>, Same<typeof xchacha20poly1305, MakeCipher>,
  Same<typeof chacha20, Xor>, Same<typeof xchacha20, Xor>,
  Same<PushStream, { readonly header: Bytes; push(text: Bytes, tag?: number, aad?: Bytes): Bytes; rekey(): void }>,
  Same<PullStream, { pull(message: Bytes, aad?: Bytes): { text: Bytes; tag: number }; rekey(): void }>,
  Same<Omit<typeof SecretStream, "encryptor" | "decryptor">, Omit<Streams, "encryptor" | "decryptor">>,
  Same<typeof SecretStream.encryptor, Transform>, Same<typeof SecretStream.decryptor, Transform>,
  Same<typeof chacha.sealBlob, (key: Bytes, blob: Blob) => Parts>,
  Same<typeof chacha.openBlob, (key: Bytes, blob: Blob) => Parts>,
  Same<typeof chacha.readRange, (key: Bytes, blob: Blob, start: number, end: number) => Parts>,
  Same<typeof chacha.readKey, (file: string | Bytes) => Bytes>,
  Same<Pick<chacha.ChaCha20Rng, keyof chacha.ChaCha20Rng>, Pick<Rng, keyof Rng>>,
  Same<ConstructorParameters<typeof ChaCha20Rng>, [seed: Bytes]>,
  Same<ConstructorParameters<typeof chacha.ChaCha12Rng>, [seed: Bytes]>,
  Same<ConstructorParameters<typeof chacha.ChaCha8Rng>, [seed: Bytes]>,
]>;

let count = 0;
function is(right: boolean, words: string) {
  count++;
  if (!right) throw new Error(words);
}
const isBytes = (it: Bytes, length: number, words: string) => is(it instanceof Uint8Array && it.length === length, words);

const [key, text] = [new Uint8Array(32), new Uint8Array(10)];
for (const [make, xor, length] of [[chacha20poly1305, chacha20, 12], [xchacha20poly1305, xchacha20, 24]] as const) {
  const nonce = new Uint8Array(length);
  const sealed = make(key, nonce, text).encrypt(text);
  isBytes(sealed, 26, "encrypt");
  isBytes(make(key, nonce, text).decrypt(sealed), 10, "decrypt");
  isBytes(make(key, nonce).encrypt(text), 26, "no aad");
  isBytes(xor(key, nonce, text), 10, "xor");
  isBytes(xor(key, nonce, text, 64), 10, "xor from a position");
}
for (const Rng of [ChaCha20Rng, chacha.ChaCha12Rng, chacha.ChaCha8Rng]) {
  const rng: chacha.ChaCha20Rng = new Rng(key);
  isBytes(rng.fill(text), 10, "fill");
  isBytes(rng.state, 49, "state");
  is(rng.wordPosition === 3n, "wordPosition");
  rng.wordPosition = 5n;
  is(Rng.fromState(rng.state).wordPosition === 5n, "fromState");
  // @ts-expect-error
  is(Reflect.set(rng, "state", key) === false || (() => (rng.state = key)) === null, "state is set");
}
const sending = SecretStream.initPush(key);
isBytes(sending.header, 24, "header");
const receiving = SecretStream.initPull(sending.header, key);
for (const tag of [SecretStream.MESSAGE, SecretStream.PUSH, SecretStream.REKEY, SecretStream.FINAL]) {
  const pulled = receiving.pull(sending.push(text, tag, key), key);
  isBytes(pulled.text, 10, "pull");
  is(pulled.tag === tag, "tag");
  is(sending.rekey() === undefined && receiving.rekey() === undefined, "rekey");
}
isBytes(receiving.pull(sending.push(text)).text, 10, "no tag");
for (const make of [SecretStream.encryptor, SecretStream.decryptor]) {
  for (const it of [make(key), make(key, 100)]) is(it instanceof TransformStream, "a transform");
}
const blob = new Blob([text]);
for (const it of [chacha.sealBlob(key, blob), chacha.openBlob(key, blob), chacha.readRange(key, blob, 0, 1)]) {
  is(it instanceof ReadableStream, "a stream");
}
isBytes(chacha.readKey(key), 32, "readKey");
isBytes(chacha.readKey(`seal-key-v1:${"A".repeat(43)}=`), 32, "readKey of a line");
console.log(`types: ${count} comparisons, 0 wrong`);
