// SPDX-License-Identifier: Apache-2.0 OR MIT
//
// Tests chacha20.mjs in Node. `run` calls it with the folder of the package, and one of values by libsodium:
//
//     node calls.mjs PACKAGE ROOM
//
// A line for each part says how many comparisons it made; too few are a failure. The last line has the sum.

import assert from "node:assert/strict";
import { createCipheriv } from "node:crypto";
import { copyFileSync, mkdirSync, readdirSync, readFileSync, writeFileSync } from "node:fs";
import { join, resolve } from "node:path";
import { pathToFileURL } from "node:url";
import { runInNewContext } from "node:vm";

const [PACKAGE, ROOM] = process.argv.slice(2).map((it) => resolve(it));
const read = (name) => new Uint8Array(readFileSync(join(ROOM, name)));

// Instances are private, so what the engine makes is kept on its way.
const { Instance, validate } = WebAssembly;
let module, proved;
const memories = [];
WebAssembly.Instance = class extends Instance {
  constructor(from) {
    super(from);
    [module, proved] = [from, this.exports];
    memories.push(proved.memory);
  }
};
const load = (name) => import(`${pathToFileURL(PACKAGE)}/${name}`);
const chacha = await load("chacha20.mjs");
const { chacha20poly1305, xchacha20poly1305, chacha20, xchacha20, ChaCha20Rng } = chacha;
const { SecretStream, sealBlob, openBlob, readRange, readKey } = chacha;
const memory = (it = proved.memory) => new Uint8Array(it.buffer);
const fresh = memory().slice();

// Bytes for keys, nonces and texts, of the same file for libsodium and for us.
const POOL = read("pool");
const part = (start, length) => POOL.slice(start, start + length);
const [KEY, NONCE, XNONCE, AAD] = [part(0, 32), part(32, 12), part(32, 24), part(77, 13)];

let count;
const same = (found, wanted, words) => {
  count++;
  // Buffers are compared as bytes; equal, which prints the difference, is slow.
  if (Buffer.compare(found, wanted) !== 0) assert.fail(`${words}: other bytes`);
};
const is = (found, wanted, words) => {
  count++;
  assert.equal(found, wanted, words);
};
// The call throws an error of the class, whose sentence begins so.
const fails = (act, kind, words) => {
  count++;
  assert.throws(act, (e) => e.constructor === kind && e.message.startsWith(words), words);
};
const failsLater = async (stream, kind, words) => {
  count++;
  const parts = [];
  await assert.rejects(
    (async () => { for await (const it of stream) assert(parts.push(it) < 100, words); })(),
    (e) => e.constructor === kind && e.message === words,
    words,
  );
  return Buffer.concat(parts);
};
const all = async (stream) => new Uint8Array(await new Response(stream).arrayBuffer());
// A Blob whose slices `change` is given, with their ends, and replaces.
const blobOf = (bytes, change) => {
  const blob = new Blob([bytes]);
  blob.slice = (...ends) => change(Blob.prototype.slice.call(blob, ...ends), ...ends);
  return blob;
};
// The memory is as it was before the first call, and zero where it has grown.
const clean = (words) => {
  count++;
  const now = memory();
  if (Buffer.compare(now.subarray(0, fresh.length), fresh) !== 0) assert.fail(`${words}: the memory keeps bytes`);
  if (now.subarray(fresh.length).some((it) => it !== 0)) assert.fail(`${words}: the memory keeps bytes where it grew`);
};

// A number that seems to have nothing to do with i.
const mixed = (i) => (i + 1) * 2654435761;

// Each length below 2200, and some long ones.
const LENGTHS = [...Array(2200).keys(), 4096, 65535, 65536, 65537, 200000, 1 << 20];

const EXPORTS = `__heap_base memory
  chacha20_aead_decrypt_between chacha20_aead_decrypt_in_place
  chacha20_aead_encrypt_between chacha20_aead_encrypt_in_place
  xchacha20_aead_decrypt_between xchacha20_aead_decrypt_in_place
  xchacha20_aead_encrypt_between xchacha20_aead_encrypt_in_place
  chacha20_check chacha20_keystream chacha20_xor_between chacha20_xor_in_place
  xchacha20_keystream xchacha20_xor_between xchacha20_xor_in_place
  chacha20_legacy_check chacha20_legacy_keystream chacha20_legacy_xor_between chacha20_legacy_xor_in_place
  hchacha20 chacha20_onetime_poly1305 chacha20_verify
  chacha20_rng_fill chacha20_rng_from_seed chacha20_rng_get_block_pos chacha20_rng_get_stream chacha20_rng_get_word_pos
  chacha20_rng_set_block_pos chacha20_rng_set_stream chacha20_rng_set_word_pos chacha12_rng_fill chacha8_rng_fill
  chacha20_secretstream_start chacha20_secretstream_push chacha20_secretstream_pull chacha20_secretstream_rekey
  chacha20_file_header chacha20_file_salt chacha20_file_text_len
  chacha20_file_seal_chunk_between chacha20_file_seal_chunk_in_place
  chacha20_file_open_chunk_between chacha20_file_open_chunk_in_place`;

const parts = {
  // The module imports nothing, and exports what it should. So do the types.
  async module() {
    is(WebAssembly.Module.imports(module).length, 0, "imports");
    const names = WebAssembly.Module.exports(module).map((it) => it.name);
    is(names.sort().join(), EXPORTS.split(/\s+/).sort().join(), "exports");
    const types = readFileSync(join(PACKAGE, "chacha20.d.ts"), "utf8");
    const declared = types.matchAll(/^export (?:const|function|class) (\w+)/gm);
    is([...declared].map((it) => it[1]).sort().join(), Object.keys(chacha).sort().join(), "types");
    // What tsc can't compare: the names of arguments.
    const { fill } = ChaCha20Rng.prototype;
    const { initPush, initPull, encryptor, decryptor } = SecretStream;
    const named = { chacha20poly1305, xchacha20poly1305, chacha20, xchacha20, sealBlob, openBlob, readRange, readKey, fill };
    Object.assign(named, { initPush, initPull, encryptor, decryptor, ...initPush(KEY), ...initPull(XNONCE, KEY) });
    Object.assign(named, chacha20poly1305(KEY, NONCE));
    for (const [name, act] of Object.entries(named).filter(([name]) => name !== "header")) {
      const ours = act.toString().match(/\(([^)]*)\)/)[1].replace(", ...more", "").replace(/ = \w+/g, "");
      const theirs = types.match(new RegExp(`\\b${name}(?:<[^>]*>)?\\(([^)]*)\\)[:;]`))[1];
      is([...theirs.matchAll(/(\w+)\??:/g)].map((it) => it[1]).join(", "), ours, `the arguments of ${name}`);
    }
    // An engine without 64-bit memory, and files that aren't the module.
    WebAssembly.validate = () => false;
    await assert.rejects(load("module.mjs?old"), /^Error: chacha20.wasm needs 64-bit memory: .* Node 18 to 23 with --exp/);
    WebAssembly.validate = validate;
    count++;
    const wasm = readFileSync(join(PACKAGE, "chacha20.wasm"));
    const files = [...[0, 7, 5000, wasm.length - 1].map((it) => wasm.subarray(0, it)), "<!doctype html>"];
    for (const [i, file] of files.entries()) {
      const folder = join(ROOM, `damaged${i}`);
      mkdirSync(folder);
      writeFileSync(join(folder, "chacha20.wasm"), file);
      for (const it of ["chacha20.mjs", "module.mjs"]) copyFileSync(join(PACKAGE, it), join(folder, it));
      const words = /^Error: file:.*chacha20.wasm isn't the module, or not all of it$/;
      await assert.rejects(import(pathToFileURL(join(folder, "chacha20.mjs"))), words);
      count++;
    }
  },

  // ChaCha20-Poly1305 and ChaCha20, beside OpenSSL.
  openssl() {
    for (const [i, length] of LENGTHS.entries()) {
      const [key, nonce, aad, text] = [part(i, 32), part(i + 32, 12), part(i + 44, i % 67), part(i, length)];
      const theirs = createCipheriv("chacha20-poly1305", key, nonce, { authTagLength: 16 });
      theirs.setAAD(aad, { plaintextLength: length });
      const sealed = Buffer.concat([theirs.update(text), theirs.final(), theirs.getAuthTag()]);
      const cipher = chacha20poly1305(key, nonce, aad);
      same(cipher.encrypt(text), sealed, `encrypt ${length}`);
      same(cipher.decrypt(sealed), text, `decrypt ${length}`);
      const block = mixed(i) % (2 ** 32 - 2 ** 14);
      const counter = Buffer.alloc(4);
      counter.writeUInt32LE(block);
      const stream = createCipheriv("chacha20", key, Buffer.concat([counter, nonce])).update(text);
      same(chacha20(key, nonce, text, 64 * block), stream, `chacha20 ${length}`);
      const cut = mixed(i) % (length + 1);
      const rest = chacha20(key, nonce, stream.subarray(cut), 64 * block + cut);
      same(rest, text.slice(cut), `chacha20 ${length} from ${cut}`);
    }
    same(chacha20(KEY, NONCE, AAD), chacha20(KEY, NONCE, AAD, 0), "no position");
    const none = chacha20poly1305(KEY, NONCE, part(0, 0)).encrypt(AAD);
    same(chacha20poly1305(KEY, NONCE).encrypt(AAD), none, "no aad");
  },

  // XChaCha20-Poly1305 and XChaCha20, beside libsodium, whose messages lie one behind the other.
  libsodium() {
    const messages = read("messages");
    let at = 0;
    for (const [i, length] of LENGTHS.entries()) {
      const [key, nonce, aad, text] = [part(i, 32), part(i + 32, 24), part(i + 56, i % 67), part(i, length)];
      const sealed = messages.slice(at, (at += length + 16));
      const cipher = xchacha20poly1305(key, nonce, aad);
      same(cipher.encrypt(text), sealed, `encrypt ${length}`);
      same(cipher.decrypt(sealed), text, `decrypt ${length}`);
      // The ciphertext begins at block 1.
      const cut = mixed(i) % (length + 1);
      const rest = xchacha20(key, nonce, text.slice(cut), 64 + cut);
      same(rest, sealed.slice(cut, length), `xchacha20 ${length} from ${cut}`);
    }
    is(at, messages.length, "messages");
  },

  // One bit of anything changed is a wrong tag.
  forgeries() {
    for (const [make, nonce] of [[chacha20poly1305, NONCE], [xchacha20poly1305, XNONCE]]) {
      for (const length of [0, 1, 64, 65, 500, 70000]) {
        const sealed = make(KEY, nonce, AAD).encrypt(part(5, length));
        const refuse = (key, nonce, aad, sealed, words) =>
          fails(() => make(key, nonce, aad).decrypt(sealed), Error, "wrong tag", words);
        // Each bit of the last 100 bytes.
        const bits = (bytes) => [...Array(8 * Math.min(bytes.length, 100)).keys()].map((bit) => {
          const changed = bytes.slice();
          changed[bytes.length - 1 - (bit >> 3)] ^= 1 << (bit & 7);
          return changed;
        });
        for (const it of bits(sealed)) refuse(KEY, nonce, AAD, it);
        for (const it of bits(AAD)) refuse(KEY, nonce, it, sealed);
        for (const it of bits(nonce)) refuse(KEY, it, AAD, sealed);
        for (const it of bits(KEY)) refuse(it, nonce, AAD, sealed);
        refuse(KEY, nonce, part(0, 0), sealed);
        refuse(KEY, nonce, AAD, new Uint8Array([...sealed, 0]));
        if (length > 0) refuse(KEY, nonce, AAD, sealed.slice(0, -1));
        else fails(() => make(KEY, nonce, AAD).decrypt(sealed.slice(0, -1)), RangeError, "sealed ");
        clean("after forgeries");
      }
    }
  },

  // Each wrong argument of each call, by its name.
  arguments() {
    const shared = (length) => new Uint8Array(new SharedArrayBuffer(length));
    const disguised = (length) => {
      const buffer = new SharedArrayBuffer(length);
      return new Uint8Array(Object.defineProperty(buffer, Symbol.toStringTag, { value: "ArrayBuffer" }));
    };
    const detached = (length) => {
      const array = new Uint8Array(length);
      structuredClone(array.buffer, { transfer: [array.buffer] });
      return array;
    };
    const never = [undefined, null, 32, "k".repeat(32), [...KEY], KEY.buffer, new Uint16Array(32)];
    never.push(new DataView(KEY.buffer), new Uint8ClampedArray(32), { length: 32, buffer: KEY.buffer });
    never.push(Object.create(Uint8Array.prototype), { [Symbol.toStringTag]: "Uint8Array", buffer: KEY.buffer });
    const lengths = [0, 1, 8, 12, 16, 24, 31, 32, 33, 48, 49, 50, 64];
    // `right` is the length that is demanded, if one is; `isOptional`, whether `undefined` is a value.
    const bytes = (name, call, right, isOptional = false) => {
      for (const it of never) if (!(isOptional && it === undefined)) fails(() => call(it), TypeError, `${name} must`);
      // What an array says of its buffer, or of what it is, has no effect.
      const lying = (length) => Object.defineProperty(shared(length), "buffer", { value: KEY.buffer });
      for (const make of [shared, disguised, lying, detached]) {
        fails(() => call(make(right ?? 20)), TypeError, `${name} must not be detached or in a SharedArrayBuffer`);
      }
      for (const it of right === undefined ? [] : lengths.filter((it) => it !== right)) {
        fails(() => call(new Uint8Array(it)), RangeError, `${name} must have ${right} bytes`);
      }
    };
    const number = (name, call, most) => {
      const others = [null, "0", 0n, NaN, 0.5, Infinity, {}, KEY];
      for (const it of others) fails(() => call(it), TypeError, `${name} must be a whole number`);
      for (const it of [-1, most + 1]) fails(() => call(it), RangeError, `${name} must be from 0 to ${most}`);
    };
    for (const [make, stream, nonce] of [[chacha20poly1305, chacha20, NONCE], [xchacha20poly1305, xchacha20, XNONCE]]) {
      bytes("key", (it) => make(it, nonce), 32);
      bytes("nonce", (it) => make(KEY, it), nonce.length);
      bytes("aad", (it) => make(KEY, nonce, it), undefined, true);
      bytes("text", (it) => make(KEY, nonce).encrypt(it));
      bytes("sealed", (it) => make(KEY, nonce).decrypt(it));
      for (let i = 0; i < 16; i++) fails(() => make(KEY, nonce).decrypt(part(0, i)), RangeError, "sealed must have");
      bytes("key", (it) => stream(it, nonce, AAD), 32);
      bytes("nonce", (it) => stream(KEY, it, AAD), nonce.length);
      bytes("data", (it) => stream(KEY, nonce, it));
      number("position", (it) => stream(KEY, nonce, AAD, it), 2 ** 38);
      // The arguments of noble, an output and a counter.
      for (const it of [0, 1, undefined]) {
        fails(() => stream(KEY, nonce, AAD, undefined, it), TypeError, "noble's output and counter aren't taken");
      }
      fails(() => stream(KEY, nonce, AAD, new Uint8Array(13)), TypeError, "position must be a whole number");
      fails(() => stream(KEY, nonce, AAD, 2 ** 38 - 12), RangeError, "the data would pass the end of the keystream");
      is(stream(KEY, nonce, AAD, 2 ** 38 - 13).length, 13, "the end of the keystream");
      is(stream(KEY, nonce, part(0, 0), 2 ** 38).length, 0, "nothing, at the end of the keystream");
      // A nonce serves one message; a text that was refused wasn't one.
      const cipher = make(KEY, nonce);
      fails(() => cipher.encrypt("text"), TypeError, "text must");
      const sealed = cipher.encrypt(AAD);
      fails(() => cipher.encrypt(AAD), Error, "the nonce was used");
      for (let i = 0; i < 3; i++) same(cipher.decrypt(sealed), AAD, "decrypted again");
      // What a caller does later with the arguments changes nothing.
      const mine = [KEY, nonce, AAD].map((it) => it.slice());
      const kept = make(...mine);
      mine.forEach((it) => it.fill(0));
      same(kept.encrypt(AAD), make(KEY, nonce, AAD).encrypt(AAD), "own copies");
      // A Buffer is a Uint8Array, as is one of another context, which has a class of its own.
      same(make(Buffer.from(KEY), Buffer.from(nonce)).encrypt(Buffer.from(AAD)), sealed, "Buffers");
      const [k, n, a] = [KEY, nonce, AAD].map((it) => runInNewContext("new Uint8Array(bytes)", { bytes: [...it] }));
      same(make(k, n).encrypt(a), sealed, "of another context");
      // What an array of a class of its own says of its length has no effect.
      const Liar = class extends Uint8Array { get length() { return 500; } };
      same(make(new Liar(KEY), new Liar(nonce), new Liar(0)).encrypt(new Liar(AAD)), sealed, "another length");
      same(make(KEY, nonce).decrypt(new Liar(sealed)), AAD, "another length");
      same(stream(KEY, nonce, new Liar(AAD)), stream(KEY, nonce, AAD), "another length");
    }
    bytes("seed", (it) => new ChaCha20Rng(it), 32);
    bytes("state", (it) => ChaCha20Rng.fromState(it), 49);
    const rng = new ChaCha20Rng(KEY);
    bytes("output", (it) => rng.fill(it));
    for (const it of [undefined, null, 0, "0"]) fails(() => (rng.wordPosition = it), TypeError, "wordPosition must");
    for (const it of [-1n, 1n << 68n]) fails(() => (rng.wordPosition = it), RangeError, "wordPosition must");
    is(rng.wordPosition, 0n, "after what was refused");
    // A method of a caller's class isn't called, and a caller may change its state at once.
    const Own = class extends Uint8Array { set() {} };
    same(new ChaCha20Rng(KEY).fill(new Own(40)), new ChaCha20Rng(KEY).fill(new Uint8Array(40)), "a set of its own");
    const mine = rng.state;
    const other = ChaCha20Rng.fromState(mine);
    mine.fill(0);
    same(other.state, rng.state, "own state");
    const stream = SecretStream.initPush(KEY);
    bytes("key", SecretStream.initPush, 32);
    bytes("key", (it) => SecretStream.initPull(stream.header, it), 32);
    bytes("header", (it) => SecretStream.initPull(it, KEY), 24);
    bytes("text", (it) => stream.push(it));
    bytes("aad", (it) => stream.push(AAD, 0, it), undefined, true);
    number("tag", (it) => stream.push(AAD, it), 255);
    const pulling = SecretStream.initPull(stream.header, KEY);
    bytes("message", (it) => pulling.pull(it));
    bytes("aad", (it) => pulling.pull(part(0, 17), it), undefined, true);
    for (let i = 0; i < 17; i++) fails(() => pulling.pull(part(0, i)), RangeError, "message must have");
    for (const make of [SecretStream.encryptor, SecretStream.decryptor]) {
      bytes("key", (it) => make(it), 32);
      for (const it of [0, 2 ** 32 + 1]) fails(() => make(KEY, it), RangeError, "size must be from 1 to 4294967296");
      for (const it of ["1", 0.5, null]) fails(() => make(KEY, it), TypeError, "size must be a whole number");
    }
    const blob = new Blob([AAD]);
    for (const [call, ...range] of [[sealBlob], [openBlob], [readRange, 0, 1]]) {
      bytes("key", (it) => call(it, blob, ...range), 32);
      for (const it of [undefined, null, "blob", AAD, KEY.buffer, {}]) {
        fails(() => call(KEY, it, ...range), TypeError, "blob must");
      }
    }
    number("end", (it) => readRange(KEY, blob, 0, it), 2 ** 48);
    number("start", (it) => readRange(KEY, blob, it, 7), 7);
    bytes("file", (it) => readKey(typeof it === "string" ? undefined : it));
    clean("after wrong arguments");
  },

  // After each call the memory is as it was, and no call goes further down the stack than is zeroed.
  memory() {
    for (const length of [0, 1, 63, 64, 65, 500, 512, 1500, 66000]) {
      const [text, cipher] = [part(0, length), chacha20poly1305(KEY, NONCE, AAD)];
      const extended = xchacha20poly1305(KEY, XNONCE, AAD);
      let sealed, stream;
      const calls = {
        encrypt: () => (sealed = cipher.encrypt(text)),
        decrypt: () => cipher.decrypt(sealed),
        "encrypt, extended": () => (sealed = extended.encrypt(text)),
        "decrypt, extended": () => extended.decrypt(sealed),
        "wrong tag": () => assert.throws(() => cipher.decrypt(sealed), /^Error: wrong tag$/),
        chacha20: () => chacha20(KEY, NONCE, text, 77),
        xchacha20: () => xchacha20(KEY, XNONCE, text, 77),
        "past the end": () => assert.throws(() => chacha20(KEY, NONCE, part(0, length + 1), 2 ** 38), /^RangeError/),
        fill: () => new ChaCha20Rng(KEY).fill(new Uint8Array(length)),
        wordPosition: () => (new ChaCha20Rng(KEY).wordPosition += BigInt(length)),
        push: () => (sealed = (stream = SecretStream.initPush(KEY)).push(text, 2, AAD)),
        pull: () => SecretStream.initPull(stream.header, KEY).pull(sealed, AAD),
        rekey: () => stream.rekey(),
      };
      for (const [name, act] of Object.entries(calls)) {
        const unused = memory().subarray(0, 65536 - 4096).fill(0xa5);
        act();
        is(unused.every((it) => it === 0xa5), true, `${name} ${length}: the stack`);
        unused.fill(0);
        clean(`${name} ${length}`);
      }
    }
    // A throw in the middle of a call: results can't be allocated.
    const { slice } = Uint8Array.prototype;
    Uint8Array.prototype.slice = () => { throw new RangeError("no room"); };
    fails(() => chacha20(KEY, NONCE, POOL), RangeError, "no room");
    Uint8Array.prototype.slice = slice;
    clean("after a throw");
    chacha20(KEY, NONCE, AAD);
    clean("by another instance");
    // A memory that can't grow.
    const has = memory().length;
    proved.memory.grow = () => { throw new RangeError("no pages"); };
    const long = new Uint8Array(has);
    const cipher = xchacha20poly1305(KEY, XNONCE);
    fails(() => cipher.encrypt(long), RangeError, "no pages");
    delete proved.memory.grow;
    same(cipher.encrypt(AAD), xchacha20poly1305(KEY, XNONCE).encrypt(AAD), "a text that was refused used no nonce");
    clean("after what doesn't fit");
    is(memory().length, has, "the memory's length");
    same(chacha20(KEY, NONCE, chacha20(KEY, NONCE, long)), long, "what fits once the memory grows");
    clean("after it has grown");
    // A stack that ends inside the module. The next call is by another instance, and the memory before is wiped.
    const sealed = xchacha20poly1305(KEY, XNONCE).encrypt(AAD);
    const errors = Array(1000);
    for (let words = 0; words < 20; words++) {
      let caught = 0;
      const dive = (...words) => {
        try {
          dive(...words);
        } catch {}
        try {
          xchacha20poly1305(KEY, XNONCE).encrypt(AAD);
        } catch (error) {
          errors[caught++] = error;
        }
      };
      dive(...Array(words));
      same(xchacha20poly1305(KEY, XNONCE).encrypt(AAD), sealed, "after the stack's end");
    }
    is(errors.some((it) => /^RangeError: Max.*\n.*wasm:/.test(it?.stack)), true, "the stack ends inside the module");
    is(memories.length > 1, true, "another instance");
    for (const it of memories.slice(0, -1)) is(memory(it).every((byte) => byte === 0), true, "a memory before");
    clean("after the stack's end");
  },

  // The generator, beside OpenSSL: the seed is the key, and the block and the stream are the 16 bytes of its iv.
  generator() {
    const words = (seed, stream, place, length) => {
      const iv = Buffer.alloc(16);
      iv.writeBigUInt64LE(place / 16n);
      iv.writeBigUInt64LE(stream, 8);
      const skipped = 4 * Number(place % 16n);
      return createCipheriv("chacha20", seed, iv).update(new Uint8Array(skipped + length)).subarray(skipped);
    };
    const stateOf = (seed, stream, place) => {
      const state = Buffer.alloc(49);
      state.set(seed);
      state.writeBigUInt64LE(stream, 32);
      state.writeBigUInt64LE(BigInt.asUintN(64, place), 40);
      state[48] = Number(place >> 64n);
      return state;
    };
    const places = [0n, 1n, 15n, 16n, 1000n, 2n ** 32n, 2n ** 63n, 2n ** 64n - 1n, 2n ** 64n, 2n ** 67n + 5n];
    for (const [i, place] of places.entries()) {
      for (const length of [0, 1, 3, 4, 5, 64, 100, 255, 256, 257, 1000, 70000]) {
        const [seed, stream] = [part(i, 32), BigInt(i) * 0x123456789abcdefn];
        const rng = ChaCha20Rng.fromState(stateOf(seed, stream, place));
        is(rng.wordPosition, place, "position");
        const output = new Uint8Array(length);
        is(rng.fill(output), output, "fill returns its argument");
        same(output, words(seed, stream, place, length), `fill of ${length} at ${place}`);
        is(rng.wordPosition, place + BigInt(Math.ceil(length / 4)), "position after it");
        same(rng.state, stateOf(seed, stream, rng.wordPosition), "state");
        rng.wordPosition = place;
        same(rng.fill(new Uint8Array(length)), output, "again");
        const second = new ChaCha20Rng(seed);
        second.wordPosition = place;
        same(second.fill(new Uint8Array(length)), words(seed, 0n, place, length), "of a seed");
      }
    }
    const rng = new ChaCha20Rng(KEY);
    same(rng.state, stateOf(KEY, 0n, 0n), "state of a seed");
    rng.wordPosition = 2n ** 68n - 1n;
    rng.fill(new Uint8Array(8));
    is(rng.wordPosition, 1n, "after the last word");
    rng.state.fill(0);
    same(rng.state, stateOf(KEY, 0n, 1n), "a copy of the state");
    // Fewer rounds: the keystreams of TC1 of draft-strombergson-chacha-test-vectors.
    for (const [Rng, wanted] of [
      [chacha.ChaCha8Rng, "3e00ef2f895f40d67f5bb8e81f09a5a12c840ec3ce9a7f3b181be188ef711a1e"],
      [chacha.ChaCha12Rng, "9bf49a6a0755f953811fce125f2683d50429c3bb49e074147e0089a52eae155f"],
      [ChaCha20Rng, "76b8e0ada0f13d90405d6ae55386bd28bdd219b8a08ded1aa836efcc8b770dc7"],
    ]) {
      const rng = new Rng(new Uint8Array(32));
      same(rng.fill(new Uint8Array(32)), Buffer.from(wanted, "hex"), Rng.name);
      const other = Rng.fromState(rng.state);
      same(other.fill(new Uint8Array(100)), rng.fill(new Uint8Array(100)), "from a state");
      is(other.constructor, Rng, "its class");
    }
  },

  // Files by the Python of seal's page are opened, whole and in parts, and files for it are made.
  async files() {
    const texts = readdirSync(ROOM).filter((it) => it.endsWith(".text")).map((it) => it.slice(0, -5));
    is(texts.length >= 9, true, "files");
    for (const name of texts) {
      const [text, file] = [read(`${name}.text`), read(`${name}.sealed`)];
      let places = [];
      const blob = blobOf(file, (slice, ...ends) => places.push(ends) && slice);
      same(await all(openBlob(KEY, blob)), text, `open ${name}`);
      const edges = [0, 1, 65535, 65536, 65537, 131072, text.length].filter((it) => it <= text.length);
      for (const start of edges) {
        for (const end of edges.filter((it) => it >= start)) {
          places = [];
          same(await all(readRange(KEY, blob, start, end)), text.slice(start, end), `${name} from ${start} to ${end}`);
          // The last chunk, and then the others that the range is in.
          const last = Math.max(Math.ceil(text.length / 65536) - 1, 0);
          const chunks = [last];
          for (let i = Math.floor(start / 65536); i < last && i * 65536 < end && start < end; i++) chunks.push(i);
          const ends = chunks.map((i) => [32 + 65552 * i, Math.min(32 + 65552 * (i + 1), file.length)]);
          const wanted = [[0, 32], ...ends];
          is(JSON.stringify(places), JSON.stringify(wanted), `what ${name} from ${start} to ${end} reads`);
        }
      }
      const past = `end must be from 0 to ${text.length}`;
      await failsLater(readRange(KEY, blob, 0, text.length + 1), RangeError, past);
      writeFileSync(join(ROOM, `${name}.made`), await all(sealBlob(KEY, new Blob([text]))));
    }
    // No call goes further down the stack than is zeroed.
    const unused = memory().subarray(0, 65536 - 4096).fill(0xa5);
    same(await all(openBlob(KEY, new Blob([await all(sealBlob(KEY, new Blob([POOL])))]))), POOL, "there and back");
    is(unused.every((it) => it === 0xa5), true, "the stack");
    unused.fill(0);
    const one = await all(sealBlob(KEY, new Blob([AAD])));
    // 19 random bytes: among 64 files each place has many values, and each salt has many.
    const salts = [];
    for (let i = 0; i < 64; i++) salts.push((await all(sealBlob(KEY, new Blob([])))).slice(13, 32));
    for (let at = 0; at < 19; at++) is(new Set(salts.map((it) => it[at])).size > 30, true, `byte ${at} of salts`);
    for (const it of salts) is(new Set(it).size > 8, true, `the salt ${it}`);
    // A Blob that gives fewer bytes, or more, than it has.
    const changed = (bytes, by) =>
      blobOf(bytes, (slice) => (by < 0 ? slice.slice(0, by) : new Blob([slice, new Uint8Array(by)])));
    const words = "blob doesn't give as many bytes as its size says";
    const long = read("200000.text");
    for (const by of [-65535, -13, -1, 1, 16]) {
      for (const it of [sealBlob(KEY, changed(long, by)), openBlob(KEY, changed(one, by))]) {
        is((await failsLater(it, DOMException, words)).length <= 32, true, "what comes before it");
      }
    }
    const rest = new Blob([long.slice(0, 70000)]);
    const shrinking = blobOf(long, (_, ...ends) => {
      Object.defineProperty(shrinking, "size", { value: rest.size, configurable: true });
      return rest.slice(...ends);
    });
    is((await failsLater(sealBlob(KEY, shrinking), DOMException, words)).length, 32 + 65552, "a file that shrinks");
    // A caller may zero its key at once, and cancel.
    const mine = KEY.slice();
    const stream = openBlob(mine, new Blob([one]));
    mine.fill(0);
    same(await all(stream), AAD, "own key");
    const cancelled = openBlob(KEY, new Blob([read("200000.sealed")])).getReader();
    is((await cancelled.read()).value.length, 65536, "a first part");
    await cancelled.cancel();
    is((await cancelled.read()).done, true, "after cancel");
    // Nothing is read before it is asked for.
    for (const [start, name, reads] of [[sealBlob, "text", [0, 1, 2]], [openBlob, "sealed", [2, 3, 4]]]) {
      let asked = 0;
      const blob = blobOf(read(`200000.${name}`), (slice) => ++asked && slice);
      const reader = start(KEY, blob).getReader();
      for (const wanted of [undefined, ...reads]) {
        if (wanted !== undefined) await reader.read();
        await new Promise((done) => setTimeout(done, 5));
        is(asked, wanted ?? 0, `what ${start.name} reads`);
      }
    }
    clean("after files");
  },

  // Streams by libsodium are pulled, and streams for it are made.
  async streams() {
    const bytes = read("messages.stream");
    const pulling = SecretStream.initPull(bytes.slice(0, 24), KEY);
    let at = 24;
    for (let i = 0; i < 60; i++) {
      const [text, aad] = [part(i, (i * i) % 3000), part(i, i % 67)];
      const message = bytes.slice(at, (at += text.length + 17));
      const changed = message.slice();
      changed[mixed(i) % message.length] ^= 1;
      fails(() => pulling.pull(changed, aad), Error, "wrong tag");
      fails(() => pulling.pull(message, part(9, aad.length + 1)), Error, "wrong tag");
      const pulled = pulling.pull(message, aad);
      same(pulled.text, text, `message ${i}`);
      is(pulled.tag, i % 3, `tag ${i}`);
      if (i === 30) pulling.rekey();
    }
    is(at, bytes.length, "messages");
    // Headers are random, and hold nothing of the key.
    const headers = [...Array(64)].map(() => SecretStream.initPush(KEY).header);
    for (let at = 0; at < 24; at++) is(new Set(headers.map((it) => it[at])).size > 30, true, `byte ${at} of headers`);
    const sending = SecretStream.initPush(KEY);
    const receiving = SecretStream.initPull(sending.header, KEY);
    sending.header.fill(0);
    const { MESSAGE, PUSH, REKEY, FINAL } = SecretStream;
    is([MESSAGE, PUSH, REKEY, FINAL].join(), "0,1,2,3", "tags");
    for (const [tag, aad] of [[undefined, undefined], [PUSH, AAD], [REKEY], [255], [FINAL, AAD]]) {
      const { text, tag: found } = receiving.pull(sending.push(AAD, tag, aad), aad);
      same(text, AAD, "text");
      is(found, tag ?? MESSAGE, "tag");
    }
    // As transforms, of bytes in pieces of any lengths.
    const through = (transform, bytes, size) => {
      let at = 0;
      const pull = (it) => (at < bytes.length ? it.enqueue(bytes.slice(at, (at += size))) : it.close());
      return new ReadableStream({ pull }).pipeThrough(transform);
    };
    for (const length of [0, 1, 4095, 4096, 4097, 20000]) {
      const text = part(7, length);
      for (const size of [1, 100, 4096, 4113, 30000]) {
        const pushed = await all(through(SecretStream.encryptor(KEY, 4096), text, size));
        if (size === 100) writeFileSync(join(ROOM, `${length}.pushed`), pushed);
        is(pushed.length, 24 + length + 17 * Math.max(Math.ceil(length / 4096), 1), "its length");
        same(await all(through(SecretStream.decryptor(KEY, 4096), pushed, size)), text, `${length} by ${size}`);
      }
    }
    same(await all(through(SecretStream.decryptor(KEY), await all(through(SecretStream.encryptor(KEY), POOL, 5000)), 7000)),
      POOL, "of 65536 bytes");
    const [stream, text] = [read("4096.stream"), read("200000.text")];
    same(await all(through(SecretStream.decryptor(KEY, 4096), stream, 1000)), text, "of libsodium");
    for (const [bytes, words] of [
      [stream.slice(0, 23), "the stream is cut"], [stream.slice(0, 24), "the stream is cut"],
      [stream.slice(0, 24 + 16), "the stream is cut"], [stream.slice(0, 24 + 17), "wrong tag"],
      [stream.slice(0, 24 + 4113), "the stream is cut"], [stream.slice(0, 24 + 2 * 4113), "the stream is cut"],
      [stream.slice(0, 24 + 4113 + 5), "the stream is cut"], [stream.slice(0, -1), "wrong tag"],
      [new Uint8Array([...stream, 0]), "wrong tag"], [part(0, 0), "the stream is cut"],
    ]) await failsLater(through(SecretStream.decryptor(KEY, 4096), bytes, 1000), Error, words);
    const ended = SecretStream.initPush(KEY);
    const more = Buffer.concat([ended.header, ended.push(part(0, 5), FINAL), ended.push(part(0, 5), FINAL)]);
    const goesOn = "the stream goes on after its end";
    await failsLater(through(SecretStream.decryptor(KEY, 5), more, 100), Error, goesOn);
    clean("after streams");
  },

  // The keys of key files, which Node's base64 makes. What `seal` refuses is refused.
  keys() {
    for (let i = 0; i < 30; i++) {
      const key = part(i, 32);
      const line = `seal-key-v1:${Buffer.from(key).toString("base64")}`;
      same(readKey(key), key, "32 bytes");
      for (const it of [line, `${line}\n`, `${line}\r\n`]) {
        same(readKey(it), key, it);
        same(readKey(Buffer.from(it)), key, it);
      }
      for (const end of ["\r", "\n\n", " ", "=", "A", "\n\r"]) fails(() => readKey(line + end), Error, "not a key");
      for (const start of [" ", "\n", "\ufeff"]) {
        fails(() => readKey(start + line), Error, "not a key");
        fails(() => readKey(Buffer.from(start + line)), Error, "not a key");
      }
      for (let at = 0; at < 56; at++) {
        fails(() => readKey(line.slice(0, at)), Error, "not a key");
        fails(() => readKey(`${line.slice(0, at)}.${line.slice(at + 1)}`), Error, "not a key");
      }
      // Another form of the same bytes.
      const letters = "ABCDEFGHIJKLMNOPQRSTUVWXYZabcdefghijklmnopqrstuvwxyz0123456789+/";
      const last = letters.indexOf(line[54]);
      for (let by = 1; by < 4; by++) {
        const other = `${line.slice(0, 54)}${letters[last + by]}=`;
        same(Buffer.from(other.slice(12), "base64"), key, "what Node reads");
        fails(() => readKey(other), Error, "not a key");
      }
    }
    // The alphabet of URLs.
    for (const byte of [251, 255]) {
      const text = Buffer.alloc(32, byte).toString("base64");
      same(readKey(`seal-key-v1:${text}`), Buffer.alloc(32, byte), text);
      const other = text.replaceAll("+", "-").replaceAll("/", "_");
      is(other === text, false, "another alphabet");
      fails(() => readKey(`seal-key-v1:${other}`), Error, "not a key");
    }
    for (const length of [0, 1, 31, 33, 56]) fails(() => readKey(part(0, length)), Error, "not a key");
    fails(() => readKey("k".repeat(32)), Error, "not a key");
    const mine = KEY.slice();
    const read = readKey(mine);
    mine.fill(0);
    same(read, KEY, "a copy");
  },

  // Damage is told by the sentences of `seal`, behind the text of the chunks before it.
  async damage() {
    const [text, file] = [read("200000.text"), read("200000.sealed")];
    const refuse = async (bytes, front, words, key = KEY) => {
      const got = await failsLater(openBlob(key, new Blob([bytes])), Error, words);
      same(got, text.subarray(0, front), `what comes before: ${words}`);
    };
    const changed = (at, by = 1) => {
      const bytes = file.slice();
      bytes[at] ^= by;
      return bytes;
    };
    const first = "the key is wrong, or bytes 0 to 65535 of the text are damaged";
    for (let at = 0; at < 12; at++) await refuse(changed(at), 0, "not a sealed file");
    await refuse(changed(12), 0, "sealed in another version of the format");
    for (let at = 13; at < 32; at++) await refuse(changed(at), 0, first);
    for (const at of [32, 100, 32 + 65551]) await refuse(changed(at), 0, first);
    const second = "bytes 65536 to 131071 of the text are damaged";
    for (const at of [32 + 65552, 32 + 2 * 65552 - 1]) await refuse(changed(at), 65536, second);
    const end = "the text from byte 196608 on is damaged or cut";
    for (const at of [32 + 3 * 65552, file.length - 1]) await refuse(changed(at), 196608, end);
    const header = file.slice(0, 32);
    const chunks = [0, 1, 2, 3].map((i) => file.slice(32 + 65552 * i, 32 + 65552 * (i + 1)));
    const joined = (...order) => Buffer.concat([header, ...order.map((i) => chunks[i])]);
    await refuse(joined(0, 2, 1, 3), 65536, second);
    await refuse(joined(0, 1, 1, 2, 3), 131072, "bytes 131072 to 196607 of the text are damaged");
    await refuse(joined(0, 2, 3), 65536, second);
    // A last chunk without text, whose tag is right.
    const salt = header.slice(13);
    const whole = xchacha20poly1305(KEY, new Uint8Array([...salt, 0, 0, 0, 0, 0])).encrypt(text.slice(0, 65536));
    const none = xchacha20poly1305(KEY, new Uint8Array([...salt, 0, 0, 0, 1, 1])).encrypt(part(0, 0));
    await refuse(Buffer.concat([header, whole, none]), 65536, "the text from byte 65536 on is damaged or cut");
    await refuse(file, 0, first, part(1, 32));
    // What a range doesn't touch may be damaged.
    const damaged = new Blob([changed(40)]);
    same(await all(readRange(KEY, damaged, 65536, 131072)), text.slice(65536, 131072), "beside the damage");
    await failsLater(readRange(KEY, damaged, 65535, 65537), Error, first);
    // The last chunk is opened first, and a wrong key is told as such.
    for (const range of [[0, 0], [0, 5], [70000, 70001], [0, 2 ** 48]]) {
      await failsLater(readRange(KEY, new Blob([changed(file.length - 1)]), ...range), Error, end);
      await failsLater(readRange(part(1, 32), new Blob([file]), ...range), Error, first);
    }
    // Lengths that no file of the room has.
    const huge = (size) => Object.defineProperty(new Blob([header]), "size", { value: size });
    await failsLater(openBlob(KEY, huge(32 + 65552 * 2 ** 32 + 1)), Error, "longer than a sealed file can be");
    const tooLong = "blob has more than 2^48 bytes, which no sealed file may have";
    await failsLater(sealBlob(KEY, huge(2 ** 48 + 1)), RangeError, tooLong);
    // Chunks with large numbers, by libsodium, each behind its number and whether it is the last.
    const numbers = read("far");
    for (let at = 0; at < numbers.length; at += 34) {
      const number = Buffer.from(numbers).readUInt32BE(at);
      const chunk = numbers.slice(at + 5, at + 34);
      const far = huge(32 + 65552 * number + chunk.length);
      far.slice = (start) => new Blob([start === 0 ? header : chunk]);
      same(await all(readRange(KEY, far, 65536 * number, 65536 * number + 13)), part(7, 13), `chunk ${number}`);
    }
    clean("after damage");
  },

  // Of a file that was cut near an edge, or is longer than it was, no part is given, nor more text than its whole chunks.
  async cuts() {
    for (const length of [0, 1, 65535, 65536, 65537, 131072, 200000]) {
      const [text, file] = ["text", "sealed"].map((it) => read(`${length}.${it}`));
      const edges = [0, 32, 32 + 65552, 32 + 2 * 65552, 32 + 3 * 65552, file.length].filter((it) => it <= file.length);
      const near = edges.flatMap((edge) => [...Array(41).keys()].map((it) => edge - 20 + it));
      const lengths = new Set(near.filter((it) => it >= 0 && it < file.length));
      for (const more of [1, 16, 17, 65552]) lengths.add(file.length + more);
      for (const it of lengths) {
        const bytes = new Uint8Array(it);
        bytes.set(file.subarray(0, it));
        const blob = new Blob([bytes]);
        const lastOf = (size) => Math.max(Math.ceil((size - 32) / 65552) - 1, 0);
        const last = lastOf(it);
        // The first chunk that isn't right: the last one, or what was the last one.
        const wrong = Math.min(last, lastOf(file.length));
        const wordsOf = (chunk) => {
          if (it < 32) return it < 12 ? "not a sealed file" : "the file ends in its header";
          const part = `bytes ${65536 * chunk} to ${65536 * chunk + 65535} of the text are damaged`;
          const rest = `the text${chunk === 0 ? "" : ` from byte ${65536 * chunk} on`} is damaged or cut`;
          return `${chunk === 0 ? "the key is wrong, or " : ""}${chunk === last ? rest : part}`;
        };
        for (const range of [[0, 0], [0, 1], [length, length], [Math.max(length - 1, 0), length], [0, 2 ** 48]]) {
          // A wrong key is told where chunk 0 is wrong too.
          const words = wordsOf(wrong === 0 ? 0 : last);
          is((await failsLater(readRange(KEY, blob, ...range), Error, words)).length, 0, `${length} cut to ${it}`);
        }
        const front = await failsLater(openBlob(KEY, blob), Error, wordsOf(wrong));
        same(front, text.subarray(0, 65536 * wrong), `${length} cut to ${it}`);
      }
    }
    clean("after cuts");
  },
};

const wanted = { module: 27, openssl: 8826, libsodium: 6619, forgeries: 12400, arguments: 897, memory: 270 };
Object.assign(wanted, { generator: 852, files: 470, streams: 350, keys: 4123, damage: 112, cuts: 8053 });
assert.deepEqual(Object.keys(wanted), Object.keys(parts));
let sum = 0;
for (const [name, run] of Object.entries(parts)) {
  count = 0;
  await run();
  console.log(`${name}: ${count} comparisons`);
  assert(count >= wanted[name], `${name} made fewer than ${wanted[name]} comparisons`);
  sum += count;
}
console.log(`calls: ${sum} comparisons, 0 wrong`);
