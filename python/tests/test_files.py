"""Sealed files, beside `seal`, whose file of numbers is in the repository, libsodium by the Python of seal's page, and JavaScript."""

import base64, gc, io, os, pathlib, shutil, subprocess, tarfile, zipfile
from collections.abc import Callable
from typing import Any, cast

import numpy as np
import pandas  # type: ignore
import pytest
from conftest import BUFFERS, NO_BUFFERS, TOP, examples, in_threads, leaves_no_memory
from hypothesis import given, strategies as st

from chacha20 import files
from chacha20.files import SealedFileError

KEY, TEXT, CHUNK = bytes(range(32)), 65536, 65552
LONG = b"%07d\n" * 40000 % tuple(range(40000))
PAGE: dict[str, Any] = {}
exec(examples("crates/seal/README.md")[0], PAGE)


def sealed(text: bytes) -> bytes:
    return cast(bytes, PAGE["seal_file"](KEY, bytes(range(100, 119)), text))


def reader_of(file: bytes, key: bytes = KEY) -> Any:
    return files.open(io.BytesIO(file), key)


def refusal(call: Callable[..., object], *values: Any) -> SealedFileError:
    with pytest.raises(SealedFileError) as caught:
        call(*values)
    return caught.value


@pytest.mark.parametrize("length", [0, 1, TEXT - 1, TEXT, TEXT + 1, 2 * TEXT, 200000])
def test_both_ways(tmp_path: pathlib.Path, length: int) -> None:
    text, path, headers = LONG[:length], tmp_path / "file", set()
    for step in 1 << 20, 65536, 4099:
        made = io.BytesIO()
        with files.create(made, KEY) as file:
            assert sum(file.write(text[at : at + step]) for at in range(0, length, step)) == length
        assert PAGE["open_file"](KEY, made.getvalue()) == text and not made.closed
        headers.add(made.getvalue()[:32])
    path.write_bytes(sealed(text))
    places: list[Any] = [str(path), path, os.fsencode(path), io.BytesIO(sealed(text))]
    for place in places:
        with files.open(place, KEY) as reader:
            assert reader.read() == text and reader.read() == b"" and reader.tell() == length
    assert not places[3].closed and len(headers) == 3
    folder = TOP / "crates/seal/data"
    with files.open(folder / "numbers.sealed", files.read_key(folder / "key")) as reader:
        assert reader.read() == b"".join(b"%09d\n" % it for it in range(7000))


JAVASCRIPT = """
import fs from "node:fs";
const { sealBlob, openBlob, readKey } = await import(process.argv[1]);
const key = readKey(fs.readFileSync("key"));
for (const [way, from, to] of [[sealBlob, "text", "theirs"], [openBlob, "ours", "back"]])
  fs.writeFileSync(to, new Uint8Array(await new Response(way(key, new Blob([fs.readFileSync(from)]))).arrayBuffer()));
"""


def test_javascript(tmp_path: pathlib.Path) -> None:
    """JavaScript opens our file, and we open its file."""
    text, module = LONG[:200000], TOP / "c/out/wasm64-unknown-unknown/js/chacha20.mjs"
    (tmp_path / "key").write_bytes(KEY)
    (tmp_path / "text").write_bytes(text)
    with files.create(tmp_path / "ours", KEY) as file:
        file.write(text)
    # Before 24, Node has 64-bit memories only by a flag, and before 19 `crypto`.
    flags = ["--experimental-wasm-memory64", "--experimental-global-webcrypto"]
    has = [it for it in flags if subprocess.run(["node", it, "-e", ""], capture_output=True).returncode == 0]
    subprocess.run(["node", *has, "--input-type=module", "-e", JAVASCRIPT, module], cwd=tmp_path, check=True)
    assert (tmp_path / "back").read_bytes() == text
    with files.open(tmp_path / "theirs", KEY) as reader:
        assert reader.read() == text


@given(st.lists(st.tuples(st.sampled_from([0, 1, 2]), st.integers(-5000, 205000), st.integers(0, 140000)), max_size=8))
def test_seeks(calls: list[tuple[int, int, int]]) -> None:
    ours, theirs = reader_of(sealed(LONG[:200000])), io.BytesIO(LONG[:200000])
    for whence, offset, size in calls:
        place = (0, theirs.tell(), 200000)[whence] + offset
        if place < 0:
            with pytest.raises(ValueError):
                ours.seek(offset, whence)
        else:
            assert ours.seek(offset, whence) == place == ours.tell() == theirs.seek(place)
            assert ours.read(size) == theirs.read(size)


class Counted(io.BytesIO):
    """A file that counts the bytes that are read."""

    count = 0

    def read(self, size: int | None = -1) -> bytes:
        data = super().read(size)
        self.count += len(data)
        return data


def test_archives(tmp_path: pathlib.Path) -> None:
    """A zip archive of many megabytes is made and read in a sealed file, and one member takes few chunks; and others."""
    noise, made = np.random.default_rng(1).bytes(1 << 20), io.BytesIO()
    with files.create(made, KEY) as file, zipfile.ZipFile(cast(Any, file), "w") as archive:
        for at in range(24):
            archive.writestr(f"{at}.bin", noise[at:] + noise[:at])
    counted = Counted(made.getvalue())
    with zipfile.ZipFile(cast(Any, files.open(counted, KEY))) as archive:
        assert archive.read("17.bin") == noise[17:] + noise[:17]
    assert len(made.getvalue()) > 24 << 20 and counted.count < 32 + 24 * CHUNK
    with files.create(tmp_path / "tar", KEY) as file, tarfile.open(fileobj=cast(Any, file), mode="w|gz") as tar:
        tar.add(TOP / "README.md", "page")
    with files.open(tmp_path / "tar", KEY) as reader, tarfile.open(fileobj=cast(Any, reader)) as tar:
        assert cast(Any, tar.extractfile("page")).read() == (TOP / "README.md").read_bytes()
    with files.create(tmp_path / "array", KEY) as file:
        np.save(cast(Any, file), np.arange(100000.0))
    with files.open(tmp_path / "array", KEY) as reader, files.create(tmp_path / "copy", KEY) as file:
        shutil.copyfileobj(cast(Any, reader), file)
    with files.open(tmp_path / "copy", KEY) as reader:
        assert (np.load(cast(Any, reader)) == np.arange(100000.0)).all()
    table = pandas.DataFrame({"number": range(50000), "half": np.arange(50000) / 2})
    with files.create(tmp_path / "table", KEY) as file:
        table.to_csv(file, index=False)
    with files.open(tmp_path / "table", KEY) as reader:
        assert pandas.read_csv(reader).equals(table)


def test_damage() -> None:
    """No file that is cut, or has more bytes, opens. A damaged chunk is refused by reads of its bytes alone."""
    text, whole = LONG[:200000], sealed(LONG[:200000])
    for at in [12, 13, 31]:
        assert str(refusal(reader_of, whole[:at])) == "the file ends in its header"
    for at in [32, 48, 49, 31 + CHUNK]:
        assert str(refusal(reader_of, whole[:at])) == "the key is wrong, or the text is damaged or cut"
    for at in [33 + CHUNK, 48 + CHUNK, 49 + CHUNK, 32 + 2 * CHUNK, 32 + 3 * CHUNK, len(whole) - 1]:
        error, number = refusal(reader_of, whole[:at]), (at - 33) // CHUNK
        assert str(error) == f"the text from byte {TEXT * number} on is damaged or cut"
        assert (error.start, error.end) == (TEXT * number, None) and isinstance(error, OSError)
    assert str(refusal(reader_of, whole + b"\0")) == f"the text from byte {3 * TEXT} on is damaged or cut"
    for other in b"", b"chacha20sea", b"x" * 500:
        assert str(refusal(reader_of, other)) == "not a sealed file"
    assert str(refusal(reader_of, b"chacha20seal2" + whole[13:])) == "sealed in another version of the format"
    wrong = "the key is wrong, or bytes 0 to 65535 of the text are damaged"
    for file, key in (whole, KEY[::-1]), (whole[:40] + b"\0" + whole[41:-1] + b"\0", KEY):
        assert str(refusal(reader_of, file, key)) == wrong
    # An empty last chunk behind another one, by whoever has the key.
    ends = [PAGE["encrypt"](part, b"", whole[13:32] + end, KEY) for part, end in ((text[:TEXT], bytes(5)), (b"", b"\0\0\0\1\1"))]
    assert str(refusal(reader_of, whole[:32] + ends[0] + ends[1])).startswith("the text from byte 65536")
    reader = reader_of(whole[: 40 + CHUNK] + b"\0" + whole[41 + CHUNK :])
    assert reader.read(TEXT) == text[:TEXT]
    for start, size in (TEXT, 1), (0, -1), (0, TEXT + 1), (2 * TEXT - 1, 9):
        reader.seek(start)
        error = refusal(reader.read, size)
        assert str(error) == f"bytes {TEXT} to {2 * TEXT - 1} of the text are damaged"
        assert (error.start, error.end, reader.tell()) == (TEXT, 2 * TEXT, start)
    assert reader.seek(2 * TEXT) == 2 * TEXT and reader.read() == text[2 * TEXT :]


class Disk(io.BytesIO):
    """A file on a disk with room for so many bytes, which takes few at once."""

    def __init__(self, room: int) -> None:
        super().__init__()
        self.room = room

    def write(self, data: Any) -> int:
        part = data[: min(50000, self.room)]
        if not part:
            raise OSError(28, "No space left on device")
        self.room -= len(part)
        return super().write(part)


def test_whole_or_nothing(tmp_path: pathlib.Path) -> None:
    """After an error, or without an end, a path is as it was, and an object got no sealed file."""
    path = tmp_path / "file"
    for old in None, b"before":
        if old:
            path.write_bytes(old)
        for way in "with", "archive", "abandon", "collect":
            places: list[Any] = [path, io.BytesIO()]
            for place in places:
                file = files.create(place, KEY)
                file.write(bytes(70000))
                with pytest.raises(KeyError):
                    if way == "with":
                        with file:
                            raise KeyError
                    elif way == "archive":
                        with file, zipfile.ZipFile(cast(Any, file), "w") as archive:
                            archive.writestr("name", bytes(70000))
                            raise KeyError
                    raise KeyError
                if way == "abandon":
                    file.abandon()
                del file
                gc.collect()
                assert (path.read_bytes() if path.exists() else None) == old and os.listdir(tmp_path) == ["file"] * bool(old)
        refusal(reader_of, places[1].getvalue())
    for room in 31, 32, 1000, CHUNK + 32, CHUNK + 40, 150031:
        for goes_on in False, True:
            disk = Disk(room)
            with pytest.raises((OSError, ValueError), match="closed" if goes_on and room > 31 else "No space"):
                file = files.create(disk, KEY)
                try:
                    file.write(bytes(150000))
                    file.close()
                except OSError:
                    disk.room = goes_on << 30
                    if not goes_on:
                        raise
                    file.write(b"more")
            refusal(reader_of, disk.getvalue())
    disk = Disk(150000 + 32 + 3 * 16)
    with files.create(disk, KEY) as file:
        file.write(LONG[:150000])
    assert PAGE["open_file"](KEY, disk.getvalue()) == LONG[:150000]


def test_paths(tmp_path: pathlib.Path) -> None:
    path, key = tmp_path / "file", tmp_path / "key"
    path.write_bytes(b"before")
    path.chmod(0o640)
    with files.create(path, bytearray(KEY)) as file:
        assert [file.write(made(KEY)) for made in BUFFERS] == [32] * len(BUFFERS)
        assert path.read_bytes() == b"before" and [it.stat().st_mode & 0o777 for it in tmp_path.iterdir()] == [0o640] * 2
    assert files.open(path, memoryview(KEY)).read() == KEY * len(BUFFERS) and path.stat().st_mode & 0o777 == 0o640
    file.close()
    reader = files.open(path, KEY)
    reader.close()
    closed: list[Callable[[], object]] = [lambda: file.write(b""), reader.read, lambda: reader.read(1), lambda: reader.seek(0)]
    for call in closed:
        with pytest.raises(ValueError, match="closed"):
            call()
    with pytest.raises(OSError, match="isn't a file"):
        files.create(tmp_path, KEY)
    both: list[Callable[..., object]] = [files.open, files.create]
    for opens in both:
        for error, place, secret in (FileNotFoundError, tmp_path / "none/file", KEY), (ValueError, path, KEY[1:]), (TypeError, path, "k"):
            with pytest.raises(error):
                opens(place, secret)
    for value in NO_BUFFERS[:3]:
        with pytest.raises(TypeError):
            files.create(io.BytesIO(), KEY).write(value)
    line = b"seal-key-v1:" + base64.b64encode(KEY)
    for data in KEY, line, line + b"\n", line + b"\r\n":
        key.write_bytes(data)
        assert files.read_key(key) == files.read_key(str(key)) == KEY
    for data in b"", KEY[1:], KEY + b"\n", line + b"\n\n", line[:-1], b" " + line, line[:-2] + b"9=", line + b"\n" * 99:
        key.write_bytes(data)
        with pytest.raises(ValueError, match="not a key"):
            files.read_key(key)
    assert sorted(os.listdir(tmp_path)) == ["file", "key"]


def test_threads_and_memory() -> None:
    """Threads can share a reader or a writer: no read is torn. No chunk stays in memory."""
    reader, found, made = reader_of(sealed(LONG[:250000])), list[bytes](), io.BytesIO()
    with files.create(made, KEY) as file:
        in_threads(lambda: [(found.extend([reader.read(250)]), file.write(bytes(4096))) for _ in range(100)])  # type: ignore
    assert sorted(found) == sorted(LONG[at : at + 250] for at in range(0, 200000, 250))
    assert PAGE["open_file"](KEY, made.getvalue()) == bytes(800 * 4096)
    once = sealed(LONG[:100000])

    def act() -> None:
        reader_of(once).read()
        refusal(reader_of, once[:50] + b"\0" + once[51:-1] + b"\0")
        with files.create(io.BytesIO(), KEY) as file:
            file.write(once)

    leaves_no_memory(act)
