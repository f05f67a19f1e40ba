// SPDX-License-Identifier: Apache-2.0 OR MIT
//
// The page seal.html: keys as text, and files through chacha20.mjs. A result is offered only once all of it was made
// and can be read.

const at = (id) => document.getElementById(id);
const PREFIX = "seal-key-v1:";
let file, chacha20;
let isWorking = true;
let isCancelled = false;
// The key that was made here, unless its user says that it was saved, and the one that a file was last sealed under.
let unsaved, sealedUnder;
const isUnsaved = () => !!unsaved && at("key").value === unsaved;

function say(words, isWrong = false) {
  at("said").textContent = words;
  at("said").classList.toggle("wrong", isWrong);
}

// Frees what an earlier link held, and offers a blob, or nothing.
function offer(link, blob, name, words) {
  if (link.href) URL.revokeObjectURL(link.href);
  link.removeAttribute("href");
  link.hidden = !blob;
  if (blob) Object.assign(link, { href: URL.createObjectURL(blob), download: name, textContent: words });
}

// The line of a key, and the key of a line, or nothing.
const lineOf = (key) => PREFIX + btoa(String.fromCharCode(...key));
function keyOf(line) {
  try {
    return chacha20.readKey(line);
  } catch {
    return undefined;
  }
}

function show() {
  for (const id of ["key", "make", "keyfile", "file"]) at(id).disabled = isWorking;
  for (const id of ["seal", "open", "part"]) at(id).disabled = isWorking || !file || !at("key").value;
  at("running").hidden = !isWorking;
  at("keep").classList.toggle("main", isUnsaved());
  if (!isUnsaved()) at("kept").hidden = true;
  const isNeeded = isUnsaved() && sealedUnder === unsaved;
  at("unsaved").textContent = isNeeded ? "Save the key too: without it nobody can open what you sealed." : "";
}

// Takes back what was said and offered, which was of another key or file.
function forget() {
  offer(at("save"));
  say("");
  show();
}

function setKey(line) {
  at("key").value = line;
  at("kept").hidden = true;
  offer(at("keep"), keyOf(line) && new Blob([`${line}\n`]), "my.key", "Save the key");
  forget();
}

// Asks before a key goes that isn't saved.
const WARNING = "This key isn't saved. Without it nobody can open what was sealed under it. Replace it?";
const mayReplace = () => !isUnsaved() || confirm(WARNING);

// An error in the words of this page. `from` is the byte that a part begins at.
function wordsOf(error, from) {
  const words = (number) => number.toLocaleString("en");
  const length = Number(error.message.match(/^end must be from 0 to (\d+)$/)?.[1]);
  const rest = Math.max(length - from, 0);
  if (length >= 0) return `The text has ${words(length)} bytes; from ${words(from)} on there are ${words(rest)}`;
  // What engines say of a file that was changed or removed, and chacha20.mjs of one that they don't notice.
  if (/^Not(Readable|Found)Error$/.test(error.name)) {
    return "It can't be read: it changed since you chose it, or is a folder; choose it again";
  }
  return error.message;
}

// What takes the Blobs of a result, and joins them.
function memory() {
  const blobs = [];
  const write = (blob) => blobs.push(blob);
  const close = async () => {
    // Without a type a browser may add one to the name.
    const blob = new Blob(blobs, { type: "application/octet-stream" });
    // One that was too long shows it only where it is read.
    await blob.slice(-1).arrayBuffer().catch(() => {
      throw new Error("this browser has no room for the result");
    });
    return blob;
  };
  return { write, close, async abort() {} };
}

// Where a result of about so many bytes goes: a long one to a file that the user chooses, where the browser has that.
async function place(name, length) {
  if (length <= 2 ** 25 || !globalThis.showSaveFilePicker) return memory();
  return (await showSaveFilePicker({ suggestedName: name })).createWritable();
}

// Makes a new file of the parts that `start` gives for the key, and offers it. `length` is about how long it will be.
async function work(done, name, length, start, from = 0) {
  forget();
  const key = keyOf(at("key").value);
  if (!key) return say("The key is not seal-key-v1: and 44 characters of base64.", true);
  [isWorking, isCancelled] = [true, false];
  at("progress").value = 0;
  say(`Working on ${file.name}.`);
  show();
  let target;
  try {
    target = await place(name, length);
    let [parts, held, count] = [[], 0, 0];
    for await (const part of start(key)) {
      if (isCancelled) throw new DOMException("", "AbortError");
      parts.push(part);
      held += part.length;
      count += part.length;
      at("progress").value = count / Math.max(length, 1);
      if (held < 2 ** 24) continue;
      await target.write(new Blob(parts));
      [parts, held] = [[], 0];
    }
    await target.write(new Blob(parts));
    const blob = await target.close();
    if (blob) offer(at("save"), blob, name, `Save ${name}`);
    say(`${done} ${file.name}: ${count.toLocaleString("en")} bytes${blob ? "" : ", which are saved"}.`);
    if (done === "Sealed") sealedUnder = at("key").value;
  } catch (error) {
    await target?.abort().catch(() => {});
    if (error.name === "AbortError") say("Cancelled.");
    else say(`${file.name}: ${wordsOf(error, from)}.`, true);
  } finally {
    isWorking = false;
    show();
    at(at("save").hidden ? "said" : "save").scrollIntoView({ block: "nearest" });
  }
}

at("make").onclick = () => {
  if (!mayReplace()) return;
  unsaved = lineOf(crypto.getRandomValues(new Uint8Array(32)));
  setKey(unsaved);
};
at("key").addEventListener("beforeinput", (event) => mayReplace() || event.preventDefault());
at("key").oninput = () => setKey(at("key").value.trim());
at("keyfile").onchange = async ({ target }) => {
  const chosen = target.files[0];
  target.value = "";
  // One that is longer than a line is no key, nor is a folder.
  const key = keyOf(new Uint8Array(await chosen.slice(0, 59).arrayBuffer().catch(() => [])));
  if (!key) return say(`${chosen.name} holds no key.`, true);
  if (lineOf(key) === unsaved) unsaved = undefined;
  if (isWorking || !mayReplace()) return;
  setKey(lineOf(key));
  say(`The key is that of ${chosen.name}.`);
};
// No page is told whether a file was saved.
at("keep").onclick = () => void (at("kept").hidden = !isUnsaved());
at("kept").onclick = () => {
  unsaved = undefined;
  show();
};
addEventListener("beforeunload", (event) => isUnsaved() && event.preventDefault());
at("file").onchange = ({ target }) => {
  file = target.files[0] ?? file;
  target.value = "";
  at("chosen").value = file ? `${file.name}, ${file.size.toLocaleString("en")} bytes` : "No file is chosen.";
  forget();
};
at("seal").onclick = () => work("Sealed", `${file.name}.sealed`, file.size, (key) => chacha20.sealBlob(key, file));
at("open").onclick = () => {
  const name = file.name.replace(/\.sealed$/, "");
  work("Opened", name === file.name ? `${name}.opened` : name, file.size, (key) => chacha20.openBlob(key, file));
};
at("part").onclick = () => {
  const [start, length] = [at("start").valueAsNumber, at("length").valueAsNumber];
  const isRight = Number.isInteger(start) && start >= 0 && Number.isInteger(length) && length >= 1;
  forget();
  if (!isRight) return say("A part begins at byte 0 or later, and has 1 byte or more: type two whole numbers.", true);
  const name = `${file.name.replace(/\.sealed$/, "")}.part`;
  // No text is longer than 2^48 bytes.
  const [from, end] = [start, start + length].map((it) => Math.min(it, 2 ** 48));
  work("Read a part of", name, Math.min(length, file.size), (key) => chacha20.readRange(key, file, from, end), start);
};
at("cancel").onclick = () => (isCancelled = true);

try {
  chacha20 = await import("./chacha20.mjs");
  isWorking = false;
  show();
  say("Make or paste a key, and choose a file.");
} catch (error) {
  say(`This page can't work here: ${error.message}.`, true);
}
