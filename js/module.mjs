// SPDX-License-Identifier: Apache-2.0 OR MIT
//
// Calls of the proved functions of chacha20.wasm. This file is trusted: it is tested, not proved. It checks arguments,
// copies them into the module's memory, calls, copies the result out, and zeroes what the call left there.

const module = await load(new URL("chacha20.wasm", import.meta.url));
// The exports of its instance, and its memory. There are no exports during a call, nor after one in which the engine
// threw, as where its stack ends: such an instance refuses each later call.
let wasm, bytes;
makeInstance();

async function load(url) {
  const least = new Uint8Array([0, 97, 115, 109, 1, 0, 0, 0, 5, 3, 1, 4, 1]); // Nothing but a 64-bit memory.
  const engines = "Chrome 133, Firefox 134, Node 24, or Node 18 to 23 with --experimental-wasm-memory64";
  if (!WebAssembly.validate(least)) throw new Error(`chacha20.wasm needs 64-bit memory: ${engines}`);
  const readFile = async () => (await import("node:fs/promises")).readFile(url); // Node's fetch reads no files.
  const response = url.protocol === "file:" ? { ok: true, arrayBuffer: readFile } : await fetch(url);
  if (!response.ok) throw new Error(`${url}: ${response.status} ${response.statusText}`);
  const file = await response.arrayBuffer();
  if (!WebAssembly.validate(file)) throw new Error(`${url} isn't the module, or not all of it`);
  return WebAssembly.compile(file);
}

function makeInstance() {
  bytes?.fill(0);
  const { exports } = new WebAssembly.Instance(module);
  [wasm, bytes] = [exports, new Uint8Array(exports.memory.buffer)]; // At once, since the stack may end between them.
}

// The memory: a stack that grows down from STACK, of which no call takes more than DEPTH; constants; and from START on
// the arguments and the result of a call.
const [STACK, DEPTH, START] = [65536, 4096, Math.ceil(Number(wasm.__heap_base.value) / 64) * 64];

// The language's own getters, which an object can't replace.
const getter = (of, name) => Object.getOwnPropertyDescriptor(of.prototype, name).get;
const [kindOf, bufferOf, offsetOf, lengthOf] = [Symbol.toStringTag, "buffer", "byteOffset", "length"]
  .map((name) => getter(Object.getPrototypeOf(Uint8Array), name));
const bufferLengthOf = getter(ArrayBuffer, "byteLength");

// Demands a Uint8Array, also of another window, of `length` bytes if that is given, which no thread or call changes.
// Returns one of this window over the same bytes.
export function demand(name, value, length) {
  if (kindOf.call(value) !== "Uint8Array") throw new TypeError(`${name} must be a Uint8Array`);
  let own;
  try {
    bufferLengthOf.call(bufferOf.call(value)); // Which an ArrayBuffer alone has.
    own = new Uint8Array(bufferOf.call(value), offsetOf.call(value), lengthOf.call(value));
  } catch (cause) {
    throw new TypeError(`${name} must not be detached or in a SharedArrayBuffer`, { cause });
  }
  if (length >= 0 && own.length !== length) throw new RangeError(`${name} must have ${length} bytes`);
  return own;
}

export function demandNumber(name, value, least, most) {
  if (!Number.isInteger(value)) throw new TypeError(`${name} must be a whole number`);
  if (value < least || value > most) throw new RangeError(`${name} must be from ${least} to ${most}`);
}

// What the statuses of exports mean, from 1 on. The last three are of chacha20_file_salt.
const REFUSALS = [
  "the data would pass the end of the keystream, byte 2^38", "wrong tag", "sealed in another version of the format",
  "the file ends in its header", "not a sealed file",
];

// Writes the parts, one behind the other, into the memory, runs a call of the exports on their places, and returns the
// first `length` bytes as it left them. A number among the parts is room for so many bytes. Each status but 0 is an
// error, of the sentence `damage` if one is given.
export function call(parts, length, run, damage) {
  if (!wasm) makeInstance();
  const places = [];
  let end = START;
  for (const part of parts) {
    places.push(BigInt(end));
    end += typeof part === "number" ? part : part.length;
  }
  if (end > bytes.length) {
    // A string, which becomes the BigInt that engines want, or the Number that they wanted before WebAssembly 3.0.
    wasm.memory.grow(String(Math.ceil((end - bytes.length) / 65536)));
    bytes = new Uint8Array(wasm.memory.buffer);
  }
  const exports = wasm;
  wasm = undefined;
  let status, left;
  try {
    parts.forEach((part, i) => typeof part === "number" || bytes.set(part, Number(places[i])));
    status = run(exports, ...places);
    if (!status) left = bytes.slice(START, START + length);
  } finally {
    bytes.fill(0, START, end);
    bytes.fill(0, STACK - DEPTH, STACK);
  }
  wasm = exports;
  if (!status) return left;
  throw new (status === 1 && !damage ? RangeError : Error)(damage ?? REFUSALS[status - 1]);
}

// A call that also moves a state, which it keeps. It returns the `length` bytes behind the state.
export function step(state, parts, length, run) {
  const left = call([state, ...parts], state.length + length, run);
  state.set(left.subarray(0, state.length));
  return left.slice(state.length);
}
