#!/usr/bin/python3
"""Drives the page seal.html in headless Chromium. `run` calls it, with the folder of the package and one of files by
libsodium, and compares what the page saved: page.py PACKAGE ROOM [SCREENSHOT]. The last line has the comparisons."""

import atexit, base64, functools, http.server, os, pathlib, re, shutil, sys, threading, time

from selenium import webdriver
from selenium.webdriver.support.expected_conditions import alert_is_present
from selenium.webdriver.support.ui import WebDriverWait

PACKAGE, ROOM = map(pathlib.Path, sys.argv[1:3])
SAVED, SITE = ROOM / "saved", ROOM / "site"
count, asked = 0, []


class Server(http.server.SimpleHTTPRequestHandler):
    def log_message(self, *_):
        asked.append(self.path)


# The package; without its module; and the room, which the server shows as a page of its own.
SAVED.mkdir()
shutil.copytree(PACKAGE, SITE)
shutil.copytree(PACKAGE, SITE / "without", ignore=shutil.ignore_patterns("*.wasm"))
(SITE / "room").symlink_to(ROOM)
server = http.server.ThreadingHTTPServer(("127.0.0.1", 0), functools.partial(Server, directory=SITE))
threading.Thread(target=server.serve_forever, daemon=True).start()
URL = f"http://127.0.0.1:{server.server_address[1]}"
options = webdriver.ChromeOptions()
# As root Chromium runs only without its sandbox. In a container /dev/shm can be too small for it.
for it in ["headless=new", "window-size=900,900", "disable-dev-shm-usage", *["no-sandbox"] * (os.getuid() == 0)]:
    options.add_argument(f"--{it}")
options.set_capability("goog:loggingPrefs", {"browser": "ALL"})
driver = webdriver.Chrome(options=options)
atexit.register(driver.quit)
driver.execute_cdp_cmd("Browser.setDownloadBehavior", {"behavior": "allow", "downloadPath": str(SAVED)})
driver.set_script_timeout(60)
js, later, at = driver.execute_script, driver.execute_async_script, lambda name: driver.find_element("id", name)
shows = lambda *names: [at(it).is_displayed() for it in names]
key_now = lambda: at("key").get_attribute("value")
until = lambda act, words: WebDriverWait(driver, 60, 0.01).until(lambda _: act(), f"a minute without {words}")


def same(found, wanted, words):
    global count
    count += 1
    if found != wanted:
        sys.exit(f"page: {words}: {found!r}, and not {wanted!r}")


def says(wanted, act, *arguments):
    """Waits until the page says this, after a call."""
    js("document.getElementById('said').textContent = 'before'")
    act(*arguments)
    until(lambda: at("said").get_attribute("textContent") == wanted, wanted)


def fill(**texts):
    for name, text in texts.items():
        js("arguments[0].value = arguments[1]; arguments[0].dispatchEvent(new Event('input'))", at(name), text)


def choose(file, key=None):
    """Chooses a key file, if one is named, and a file."""
    if key:
        says(f"The key is that of {key}.", at("keyfile").send_keys, str(ROOM / key))
    says("", at("file").send_keys, str(ROOM / file))


def save(link, name):
    """Saves what a link offers, under another name. A download has its name once it is whole."""
    wanted = at(link).get_attribute("download")
    at(link).click()
    until((SAVED / wanted).exists, f"the file {wanted}")
    (SAVED / wanted).rename(ROOM / name)
    return wanted


def state():
    """Whether the link to the key is marked, the page may be left without a question, and what it urges."""
    may_leave = js("return dispatchEvent(new Event('beforeunload', { cancelable: true }))")
    return ["main" in at("keep").get_attribute("class"), may_leave, at("unsaved").text]


def does(button, wanted, offers=True):
    """A button makes the page say this; where nothing is offered, in red."""
    says(wanted, at(button).click)
    same([at("said").get_attribute("class"), shows("save")], ["" if offers else "wrong", [offers]], wanted)


def asks(act, is_accepted=False):
    """What the page asks, which it may do later. A question that nothing waits for is a failure of what comes next."""
    act()
    alert = until(lambda: alert_is_present()(driver), "a question")
    text = alert.text
    alert.accept() if is_accepted else alert.dismiss()
    return text


# What it loads, once, into an empty page.
driver.get(f"{URL}/seal.html")
until(lambda: at("said").text == "Make or paste a key, and choose a file.", "a page")
LOADED = sorted(f"/{it}" for it in os.listdir(PACKAGE) if it.endswith((".css", ".html", ".mjs", ".svg", ".wasm")))
until(lambda: len(asked) >= len(LOADED), "requests")
js("""window.live = new Set(), window.most = 0;
    const { createObjectURL: make, revokeObjectURL: revoke } = URL;
    URL.createObjectURL = (it) => (live.add(it = make.call(URL, it)), most = Math.max(most, live.size), it);
    URL.revokeObjectURL = (it) => (live.delete(it), revoke.call(URL, it));""")
BUTTONS = ["seal", "open", "part", "key", "make", "keyfile", "file"]
same([at(it).is_enabled() for it in BUTTONS], [False] * 3 + [True] * 4, "what is enabled")

# New keys are random, and one that isn't saved goes only after a question, and with it what was sealed under it.
ASKED = "This key isn't saved. Without it nobody can open what was sealed under it. Replace it?"
URGES = "Save the key too: without it nobody can open what you sealed."
make, letter = at("make").click, lambda: at("key").send_keys("x")
make()
same(state(), [True, False, ""], "a first key")
keys = [key_now()]
for _ in range(7):
    same(asks(make, True), ASKED, "asks for another key")
    keys.append(key_now())
made = [base64.b64decode(it.removeprefix("seal-key-v1:")) for it in keys]
same([(len(it), len(set(it)) > 20) for it in made], [(32, True)] * 8, "random keys")
same([it for it in zip(*made) if len(set(it)) < 4], [], "bytes that keys share")
for act in make, letter, lambda: at("keyfile").send_keys(str(ROOM / "key")):
    same([asks(act), key_now()], [ASKED, keys[-1]], "asks, and the key stays")
choose("65537.text")
does("seal", "Sealed 65537.text: 65,601 bytes.")
same([*state(), asks(make, True)], [True, False, URGES, ASKED], "a result, and another key")
same([*state(), at("said").text, shows("save")], [True, False, "", "", [False]], "nothing of the key before")
does("seal", "Sealed 65537.text: 65,601 bytes.")
key = key_now()
same([save("keep", "page.key"), shows("kept"), *state()], ["my.key", [True], True, False, URGES], "perhaps it is saved")
same((ROOM / "page.key").read_text(), f"{key}\n", "the key's file")
at("kept").click()
same([shows("kept", "save"), *state()], [[False, True], False, True, ""], "a key that is saved")
letter()
same([key_now(), shows("keep", "save")], [f"{key}x", [False, False]], "no key or result")
for it in "hunter2", key[:-1], f"{key}=", f"{key[:-2]}B=", key[12:], key.replace("v1", "v2"), "":
    fill(key=it)
    same([shows("keep"), at("open").is_enabled()], [[False], it != ""], f"the key {it}")
    if it:
        does("open", "The key is not seal-key-v1: and 44 characters of base64.", False)
make()
(ROOM / "copied.key").write_text(key_now())
choose("65537.text", "copied.key")
same(state(), [False, True, ""], "a key that was saved otherwise")
for it in f"{key}\n#", f"{key}\n{key}\n", f"{key}#", f"{key}\n\n":
    (ROOM / "junk.key").write_text(it)
    says("junk.key holds no key.", at("keyfile").send_keys, str(ROOM / "junk.key"))
    same(at("said").get_attribute("class"), "wrong", it)
fill(key=key)
same([*state(), shows("keep", "kept")], [False, True, "", [True, False]], "a key that was pasted")

# Seals 20 MiB, with progress, while nothing else can be started, and opens that and what libsodium made.
choose("20971520.text")
js("""const it = (name) => document.getElementById(name);
    window.seen = [], window.timer = setInterval(() => it("running").hidden ||
        seen.push([it("progress").value, arguments[0].every((name) => it(name).disabled)]), 1)""", BUTTONS)
does("seal", "Sealed 20971520.text: 20,976,672 bytes.")
seen = js("clearInterval(timer); return seen")
same([len({it[0] for it in seen}) > 2, {it[1] for it in seen}], [True, {True}], "progress")
same(save("save", "page.sealed"), "20971520.text.sealed", "the name of a sealed file")
shutil.copy(ROOM / "20971520.sealed", ROOM / "other")
fill(start="65530", length="200000")
for key_file, it, button, wanted, made, name in [
    ("page.key", "page.sealed", "open", "Opened page.sealed: 20,971,520", "page.opened", "page"),
    ("key", "20971520.sealed", "open", "Opened 20971520.sealed: 20,971,520", "libsodium.opened", "20971520"),
    ("key", "other", "open", "Opened other: 20,971,520", "other.opened", "other.opened"),
    ("key", "20971520.sealed", "part", "Read a part of 20971520.sealed: 200,000", "libsodium.part", "20971520.part"),
]:
    choose(it, key_file)
    same(shows("save"), [False], "a result of what was chosen before")
    does(button, f"{wanted} bytes.")
    same(save("save", made), name, "the name of a result")
if sys.argv[3:]:
    driver.save_screenshot(sys.argv[3])

# A long result goes to a file that the user chooses, where the browser has that; else one has to be readable.
(ROOM / "long.text").write_bytes(bytes(33 << 20))
choose("long.text")
js("""window.parts = [];
    window.showSaveFilePicker = async ({ suggestedName }) => ({ createWritable: async () => ({
        write: async (it) => void parts.push(it), abort: async () => {},
        close: async () => void (window.written = new File(parts, suggestedName)) }) })""")
says("Sealed long.text: 34,611,488 bytes, which are saved.", at("seal").click)
same(shows("save"), [False], "a long file")
js("""Object.assign(arguments[0], { href: URL.createObjectURL(written), download: written.name, hidden: false,
    textContent: "x" })""", at("save"))
same(save("save", "long.sealed"), "long.text.sealed", "the name of a long file")
js("parts.push = () => { throw new DOMException('the disk is full', 'QuotaExceededError') }")
does("seal", "long.text: the disk is full.", False)
js("window.showSaveFilePicker = async () => { throw new DOMException('no file', 'AbortError') }")
says("Cancelled.", at("seal").click)
js("""delete window.showSaveFilePicker, window.slice = Blob.prototype.slice;
    Blob.prototype.slice = function (start, end) {
      return start < 0 ? { arrayBuffer: () => Promise.reject(Error("too long")) } : slice.call(this, start, end);
    }""")
does("seal", "long.text: this browser has no room for the result.", False)
js("Blob.prototype.slice = slice")

# Refusals: of parts, of files, and of one that changes or goes after it was chosen.
(ROOM / "cut.sealed").write_bytes((ROOM / "200000.sealed").read_bytes()[: 32 + 65552 + 1])
BEYOND = "20971520.sealed: The text has 20,971,520 bytes; from {} on there are {}."
NUMBERS = "A part begins at byte 0 or later, and has 1 byte or more: type two whole numbers."
for key_file, file, wanted, parts in [
    ("key", "cut.sealed", "cut.sealed: the text from byte 65536 on is damaged or cut.",
     ["0 1", "65521 1", "0 65521", "70000 5"]),
    *(("key", "20971520.sealed", BEYOND.format(start, rest), [part]) for start, rest, part in [
        ("20,971,510", "10", "20971510 11"), ("20,971,520", "0", "20971520 1"), ("30,000,000", "0", "30000000 5"),
        ("0", "20,971,520", "0 1e300"), ("100,000,000,000,000,000,000", "0", "1e20 5")]),
    ("key", "20971520.sealed", NUMBERS, ["0.5 2", " 2", "0 ", "-1 2", "0 -2", "0 0", "0 1.5"]),
    ("key", "damaged.sealed", "damaged.sealed: bytes 131072 to 196607 of the text are damaged.", []),
    ("key", "20971520.text", "20971520.text: not a sealed file.", []),
    ("page.key", "damaged.sealed",
     "damaged.sealed: the key is wrong, or bytes 0 to 65535 of the text are damaged.", []),
    ("page.key", "1.sealed", "1.sealed: the key is wrong, or the text is damaged or cut.", []),
]:
    choose(file, key_file)
    for start, length in [it.split(" ") for it in parts]:
        fill(start=start, length=length)
        does("part", wanted, False)
    if not parts:
        does("open", wanted, False)
changing = ROOM / "changing"
for change in lambda: changing.write_text("longer than before"), changing.unlink:
    changing.write_text("before")
    choose("changing")
    time.sleep(0.01)
    change()
    does("seal", "changing: It can't be read: it changed since you chose it, or is a folder; choose it again.", False)
choose("20971520.text")
says("Cancelled.", js, "document.getElementById('seal').click(), document.getElementById('cancel').click()")
same(shows("save"), [False], "what was cancelled")

# On a narrow screen nothing is wider than it, and a result is in sight.
narrow = {"width": 320, "height": 480, "deviceScaleFactor": 1, "mobile": True}
driver.execute_cdp_cmd("Emulation.setDeviceMetricsOverride", narrow)
long = "alongnamewithoutaspace" * 10
(ROOM / long).write_text("short")
choose(long)
does("seal", f"Sealed {long}: 53 bytes.")
box = js("""const { right, top, bottom } = arguments[0].getBoundingClientRect();
    const { clientWidth, scrollWidth } = document.documentElement;
    return [clientWidth, scrollWidth, right <= 320, top >= 0 && bottom < innerHeight + 1]""", at("save"))
same(box, [320, 320, True, True], "on a narrow screen")
driver.execute_cdp_cmd("Emulation.clearDeviceMetricsOverride", {})

# Nothing failed, nothing was kept, its policy allows nothing else, and nothing was asked for after it had loaded.
same([it["message"] for it in driver.get_log("browser")], [], "faults")
kept = later("""Promise.all([indexedDB.databases(), caches.keys()]).then(([one, other]) => arguments[0]([location.href,
    document.cookie, history.state, localStorage.length + sessionStorage.length + one.length + other.length, most]))""")
same(kept, [f"{URL}/seal.html", "", None, 0, 2], "what is kept")
policy = later("""addEventListener("securitypolicyviolation", (event) => arguments[0](event.originalPolicy));
    document.head.append(Object.assign(document.createElement("script"), { text: "1" }))""")
same(re.sub(r"\s+", " ", policy), "default-src 'none'; script-src 'self' 'wasm-unsafe-eval'; style-src 'self'; "
     "connect-src 'self'; img-src 'self'; base-uri 'none'; form-action 'none'", "the policy that is in force")
same(later("fetch(arguments[0]).catch((error) => arguments[1](error.name))", URL.replace("127.0.0.1", "localhost")),
     "TypeError", "a request to another server")
same(sorted(asked), LOADED, "requests")

# Without its module the page says so.
driver.get(f"{URL}/without/seal.html")
wanted = f"This page can't work here: {URL}/without/chacha20.wasm: 404 File not found."
until(lambda: at("said").text == wanted, wanted)

# A stream by libsodium, through `fetch` of a page without a policy, and one that is cut.
driver.get(f"{URL}/room")
(ROOM / "cut.stream").write_bytes((ROOM / "4096.stream").read_bytes()[: 24 + 4 * 4113])
for name, wanted in ("4096", list((ROOM / "200000.text").read_bytes())), ("cut", "the stream is cut"):
    found = later("""const [name, done] = arguments;
        (async () => {
          const { SecretStream } = await import("/chacha20.mjs");
          const [key, stream] = await Promise.all(["key", `${name}.stream`].map((it) => fetch(`/room/${it}`)));
          const opened = SecretStream.decryptor(new Uint8Array(await key.arrayBuffer()), 4096);
          const parts = [];
          for await (const part of stream.body.pipeThrough(opened)) parts.push(...part);
          return parts;
        })().then(done, (error) => done(error.message))""", name)
    same(found, wanted, f"the stream {name}")
if count < 92:
    sys.exit(f"page: {count} comparisons, and not 92")
print(f"page: {count} comparisons, 0 wrong")
