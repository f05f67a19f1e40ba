// SPDX-License-Identifier: Apache-2.0 OR MIT
//
// Authenticated encryption, ciphers, generators, streams and sealed files, by the proved functions of chacha20.wasm.
// This file is trusted: it is tested, not proved. chacha20.d.ts documents its exports.

import { call, demand, demandNumber, step } from "./module.mjs";

const NONE = new Uint8Array();

const aead = (encrypt, decrypt, nonceLength) => (key, nonce, aad = NONE) => {
  // Copied, since a caller may change them before the call.
  const own = [demand("key", key, 32), demand("nonce", nonce, nonceLength), demand("aad", aad)].map((it) => it.slice());
  const aadLength = BigInt(own[2].length);
  let isUsed = false;
  return {
    encrypt(text) {
      const input = demand("text", text);
      if (isUsed) throw new Error("the nonce was used: make a cipher with another one");
      const sealed = call([input, 16, ...own], input.length + 16, (wasm, text, tag, key, nonce, aad) =>
        wasm[encrypt](key, nonce, aad, aadLength, text, BigInt(input.length), tag));
      isUsed = true;
      return sealed;
    },
    decrypt(sealed) {
      const input = demand("sealed", sealed);
      if (input.length < 16) throw new RangeError("sealed must have at least 16 bytes, those of the tag");
      const length = input.length - 16;
      return call([input, ...own], length, (wasm, text, key, nonce, aad) =>
        wasm[decrypt](key, nonce, aad, aadLength, text, BigInt(length), text + BigInt(length)));
    },
  };
};

const cipher = (xor, nonceLength) => (key, nonce, data, position = 0, ...more) => {
  if (more.length > 0) throw new TypeError("noble's output and counter aren't taken: pass position, 64 * counter");
  const parts = [demand("data", data), demand("key", key, 32), demand("nonce", nonce, nonceLength)];
  demandNumber("position", position, 0, 2 ** 38);
  const { length } = parts[0];
  return call(parts, length, (wasm, text, key, nonce) => wasm[xor](key, nonce, BigInt(position), text, BigInt(length)));
};

export const chacha20poly1305 = aead("chacha20_aead_encrypt_in_place", "chacha20_aead_decrypt_in_place", 12);
export const xchacha20poly1305 = aead("xchacha20_aead_encrypt_in_place", "xchacha20_aead_decrypt_in_place", 24);
export const chacha20 = cipher("chacha20_xor_in_place", 12);
export const xchacha20 = cipher("xchacha20_xor_in_place", 24);

// The generator that is filled by an export.
const rng = (fill) => class Rng {
  #state;

  constructor(seed) {
    const run = (wasm, state, seed) => wasm.chacha20_rng_from_seed(seed, state);
    this.#state = call([49, demand("seed", seed, 32)], 49, run);
  }

  static fromState(state) {
    const made = new this(new Uint8Array(32));
    made.#state = demand("state", state, 49).slice();
    return made;
  }

  get state() { return this.#state.slice(); }

  fill(output) {
    const own = demand("output", output);
    const run = (wasm, state, words) => wasm[fill](state, words, BigInt(own.length));
    own.set(step(this.#state, [own.length], own.length, run));
    return output;
  }

  get wordPosition() {
    const run = (wasm, state, low) => wasm.chacha20_rng_get_word_pos(state, low, low + 8n);
    const words = new DataView(step(this.#state, [16], 16, run).buffer);
    return words.getBigUint64(0, true) + (words.getBigUint64(8, true) << 64n);
  }

  set wordPosition(position) {
    if (typeof position !== "bigint") throw new TypeError("wordPosition must be a BigInt");
    if (position < 0n || position >> 68n) throw new RangeError("wordPosition must be from 0 to 2^68 - 1");
    // Of a BigInt a call takes the low 64 bits.
    step(this.#state, [], 0, (wasm, state) => wasm.chacha20_rng_set_word_pos(state, position, position >> 64n));
  }
};

export class ChaCha20Rng extends rng("chacha20_rng_fill") {}
export class ChaCha12Rng extends rng("chacha12_rng_fill") {}
export class ChaCha8Rng extends rng("chacha8_rng_fill") {}

// Streams: a header of 24 bytes, and messages, each 17 bytes longer than its text.
const FINAL = 3;
export const SecretStream = { MESSAGE: 0, PUSH: 1, REKEY: 2, FINAL, initPush, initPull, encryptor, decryptor };

function startStream(header, key) {
  const parts = [44, demand("key", key, 32), demand("header", header, 24)];
  const state = call(parts, 44, (wasm, state, key, header) => wasm.chacha20_secretstream_start(key, header, state));
  const rekey = () => void step(state, [], 0, (wasm, state) => wasm.chacha20_secretstream_rekey(state));
  return { state, rekey };
}

function initPush(key) {
  const header = crypto.getRandomValues(new Uint8Array(24));
  const { state, rekey } = startStream(header, key);
  const push = (text, tag = 0, aad = NONE) => {
    const [input, more] = [demand("text", text), demand("aad", aad)];
    demandNumber("tag", tag, 0, 255);
    const size = input.length + 17;
    const lengths = [more.length, size, input.length].map(BigInt);
    return step(state, [size, input, more], size, (wasm, state, message, text, aad) =>
      wasm.chacha20_secretstream_push(state, aad, lengths[0], message, lengths[1], text, lengths[2], tag));
  };
  return { header, push, rekey };
}

function initPull(header, key) {
  const { state, rekey } = startStream(header, key);
  const pull = (message, aad = NONE) => {
    const [input, more] = [demand("message", message), demand("aad", aad)];
    if (input.length < 17) throw new RangeError("message must have at least 17 bytes");
    const size = input.length - 17;
    const lengths = [more.length, size, input.length].map(BigInt);
    const left = step(state, [size, 1, input, more], size + 1, (wasm, state, text, tag, message, aad) =>
      wasm.chacha20_secretstream_pull(state, aad, lengths[0], text, lengths[1], message, lengths[2], tag));
    return { text: left.slice(0, -1), tag: left[size] };
  };
  return { pull, rekey };
}

// Hands on what `take` makes of the first `first` bytes, then of each `size` bytes, and of the rest, which is the last.
function inPieces(first, size, take, start) {
  let [rest, next] = [NONE, first];
  const transform = (chunk, controller) => {
    const more = demand("chunk", chunk);
    let all = new Uint8Array(rest.length + more.length);
    all.set(rest);
    all.set(more, rest.length);
    for (; all.length > next; next = size) {
      controller.enqueue(take(all.subarray(0, next), false));
      all = all.subarray(next);
    }
    rest = all.slice();
  };
  return new TransformStream({ start, transform, flush: (controller) => controller.enqueue(take(rest, true)) });
}

function encryptor(key, size = CHUNK) {
  demandNumber("size", size, 1, 2 ** 32);
  const { header, push } = initPush(key);
  return inPieces(size, size, (text, isLast) => push(text, isLast ? FINAL : 0), (it) => it.enqueue(header));
}

function decryptor(key, size = CHUNK) {
  demandNumber("size", size, 1, 2 ** 32);
  const own = demand("key", key, 32).slice();
  let stream;
  return inPieces(24 + size + 17, size + 17, (piece, isLast) => {
    const message = stream ? piece : piece.subarray(24);
    if (message.length < 17) throw new Error("the stream is cut");
    stream ??= initPull(piece.subarray(0, 24), own);
    const { text, tag } = stream.pull(message);
    if (isLast !== (tag === FINAL)) throw new Error(isLast ? "the stream is cut" : "the stream goes on after its end");
    return text;
  });
}

// Sealed files: a header of 32 bytes, and chunks of CHUNK bytes of text, each with its tag.
const [CHUNK, SEALED] = [65536, 65552];

export const sealBlob = (key, blob) => streamOf(sealed, key, blob);
export const openBlob = (key, blob) => streamOf(opened, key, blob, 0, Infinity);
export const readRange = (key, blob, start, end) => {
  demandNumber("end", end, 0, 2 ** 48);
  demandNumber("start", start, 0, end);
  return streamOf(opened, key, blob, start, end);
};

// A stream of what a generator yields, each part once it is asked for.
function streamOf(generator, key, blob, ...range) {
  if (!(blob instanceof Blob)) throw new TypeError("blob must be a Blob");
  const parts = generator(demand("key", key, 32).slice(), blob, blob.size, ...range);
  const pull = async (controller) => {
    const { value, done } = await parts.next();
    return done ? controller.close() : controller.enqueue(value);
  };
  return new ReadableStream({ pull }, { highWaterMark: 0 });
}

// So many bytes, or all that are left. The error is that of engines that notice a changed file themselves.
async function read(blob, size, start, length) {
  const end = Math.min(start + length, size);
  const bytes = new Uint8Array(await blob.slice(start, end).arrayBuffer());
  if (bytes.length === end - start) return bytes;
  throw new DOMException("blob doesn't give as many bytes as its size says", "NotReadableError");
}

async function* sealed(key, blob, size) {
  if (size > 2 ** 48) throw new RangeError("blob has more than 2^48 bytes, which no sealed file may have");
  const salt = crypto.getRandomValues(new Uint8Array(19));
  yield call([32, salt], 32, (wasm, header, salt) => wasm.chacha20_file_header(salt, header));
  for (let i = 0, isLast = false; !isLast; i++) {
    isLast = CHUNK * (i + 1) >= size;
    const text = await read(blob, size, CHUNK * i, CHUNK);
    const length = text.length + 16;
    yield call([text, 16, key, salt], length, (wasm, chunk, _, key, salt) =>
      wasm.chacha20_file_seal_chunk_in_place(key, salt, i, isLast, chunk, BigInt(length)));
  }
}

// The text from `start` to `end`, where the last chunk is opened first, since it tells how long the text is; to
// `Infinity`, of all chunks in their order. A key is wrong where chunk 0 is wrong too.
async function* opened(key, blob, size, start, end) {
  const front = await read(blob, size, 0, 32);
  const salt = call([19, front], 19, (wasm, salt, file) => wasm.chacha20_file_salt(file, BigInt(front.length), salt));
  const last = Math.max(Math.ceil((size - 32) / SEALED) - 1, 0);
  if (last >= 2 ** 32) throw new Error("longer than a sealed file can be");
  const open = async (i) => openChunk(key, salt, i, i === last, await read(blob, size, 32 + SEALED * i, SEALED));
  const orFirst = (error) => open(0).then(() => { throw error; });
  const kept = end === Infinity ? undefined : await open(last).catch(orFirst);
  if (kept) demandNumber("end", end, 0, CHUNK * last + kept.length);
  for (let i = Math.floor(start / CHUNK); i <= last && Math.max(CHUNK * i, start) < end; i++) {
    const text = i === last && kept ? kept : await open(i);
    yield text.subarray(Math.max(start - CHUNK * i, 0), end - CHUNK * i);
  }
}

function openChunk(key, salt, number, isLast, chunk) {
  const [from, to] = [CHUNK * number, CHUNK * (number + 1) - 1];
  const rest = number === 0 ? "the text" : `the text from byte ${from} on`;
  const what = isLast ? `${rest} is damaged or cut` : `bytes ${from} to ${to} of the text are damaged`;
  const damage = number === 0 ? `the key is wrong, or ${what}` : what;
  const run = (wasm, place, key, salt) =>
    wasm.chacha20_file_open_chunk_in_place(key, salt, number, isLast, place, BigInt(chunk.length));
  return call([chunk, key, salt], chunk.length - 16, run, damage);
}

// The line of a key file of `seal`, whose base64 has one form of 32 bytes.
const LINE = /^seal-key-v1:([A-Za-z0-9+/]{42}[AEIMQUYcgkosw048]=)(?:\r?\n)?$/;
export function readKey(file) {
  const own = typeof file === "string" ? undefined : demand("file", file);
  if (own?.length === 32) return own.slice();
  const line = LINE.exec(own ? new TextDecoder("utf-8", { ignoreBOM: true }).decode(own) : file);
  if (!line) throw new Error("not a key: neither seal-key-v1: and 44 characters of base64, nor 32 bytes");
  return Uint8Array.from(atob(line[1]), (it) => it.charCodeAt(0));
}
