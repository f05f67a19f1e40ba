// SPDX-License-Identifier: Apache-2.0 OR MIT
//
// Prints how many nanoseconds calls take, each the least of 60 turns: in Node by `node time.mjs`, beside Node's own
// ChaCha20-Poly1305; in a browser, on a server of the repository, by `import("/js/tests/time.mjs")` in the console.

const PACKAGE = new URL("../../c/out/wasm64-unknown-unknown/js/", import.meta.url);
const { xchacha20poly1305, xchacha20 } = await import(`${PACKAGE}chacha20.mjs`);
const own = globalThis.process && (await import("node:crypto"));

function time(act) {
  const turn = (count) => {
    const start = performance.now();
    for (let i = 0; i < count; i++) act();
    return performance.now() - start;
  };
  let count = 1;
  while (turn(count) < 5) count *= 2;
  return Math.round((Math.min(...Array.from({ length: 60 }, () => turn(count))) / count) * 1e6);
}

const [key, nonce] = [32, 24].map((length) => crypto.getRandomValues(new Uint8Array(length)));
const rows = {};
for (const length of [64, 1500, 65536]) {
  const text = crypto.getRandomValues(new Uint8Array(length));
  const sealed = xchacha20poly1305(key, nonce).encrypt(text);
  rows[length] = {
    encrypt: time(() => xchacha20poly1305(key, nonce).encrypt(text)),
    decrypt: time(() => xchacha20poly1305(key, nonce).decrypt(sealed)),
    xchacha20: time(() => xchacha20(key, nonce, text)),
  };
  if (own) {
    rows[length].own = time(() => {
      const cipher = own.createCipheriv("chacha20-poly1305", key, nonce.subarray(12), { authTagLength: 16 });
      return Buffer.concat([cipher.update(text), cipher.final(), cipher.getAuthTag()]);
    });
  }
}
console.table(rows);
export default rows;
