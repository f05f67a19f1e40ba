"""Sealed files, those of the program `seal`, as file objects."""

from __future__ import annotations

import base64, contextlib, io, os, re, secrets, stat, threading, typing

from chacha20 import InvalidTag, _chacha20, _copy
from chacha20._chacha20 import FILE_CHUNK_BYTES as CHUNK, FILE_HEADER_BYTES as HEADER, FILE_TEXT_BYTES as TEXT

if typing.TYPE_CHECKING:
    from _typeshed import ReadableBuffer, StrPath, WriteableBuffer
    File = StrPath | bytes | typing.IO[bytes]


class SealedFileError(OSError):
    """The text is damaged from byte `start` to before `end`, or as far as it goes if that is None. Both are None if the file
    isn't sealed, or its header is damaged."""

    def __init__(self, words: str, start: int | None = None, end: int | None = None) -> None:
        super().__init__(words)
        self.start, self.end = start, end


def read_key(path: StrPath) -> bytes:
    """The key in a file: 32 bytes, or the line that `seal key` writes."""
    with io.open(path, "rb") as file:
        data = file.read(100)
    line = re.fullmatch(rb"seal-key-v1:([A-Za-z0-9+/]{42}[AEIMQUYcgkosw048]=)(?:\r?\n)?", data)
    if len(data) != 32 and not line:
        raise ValueError("not a key: neither seal-key-v1: and 44 characters of base64, nor 32 bytes")
    return base64.b64decode(line[1]) if line else data


class _Sealed(io.RawIOBase):
    _file: typing.IO[bytes]

    def __init__(self, key: ReadableBuffer) -> None:
        self._key = _copy("key", key, 32)
        self._lock = threading.RLock()

    def _demand_open(self) -> None:
        if self.closed:
            raise ValueError("the file is closed")


class SealedReader(_Sealed):
    """The text of a sealed file at a path, or in an object with read and seek, which stays open. Each byte is one whose tag
    was right. `read(n)` returns n bytes, but at the end. Raises SealedFileError: at once if the key is wrong or the end is
    damaged or cut, and when damaged bytes are read."""

    _is_ours = False

    def __init__(self, file: File, key: ReadableBuffer) -> None:
        super().__init__(key)
        if isinstance(file, (str, bytes, os.PathLike)):
            file, self._is_ours = io.open(file, "rb"), True
        self._file = file
        try:
            self._begin()
        except BaseException:
            self.close()
            raise

    def _begin(self) -> None:
        self._at, self._number, self._chunk = 0, -1, memoryview(b"")
        self._size = self._file.seek(0, os.SEEK_END)
        salt = _chacha20.file_salt(self._bytes(0, min(self._size, HEADER)))
        if isinstance(salt, int):
            words = {3: "sealed in another version of the format", 4: "the file ends in its header", 5: "not a sealed file"}
            raise SealedFileError(words[salt])
        self._salt, self._length = salt, _chacha20.file_text_len(self._size)
        self._last = max(-(-(self._size - HEADER) // CHUNK) - 1, 0)
        if self._last >> 32:
            raise SealedFileError("longer than a sealed file can be")
        # The length is only a claim until the last chunk is opened. If that is wrong, chunk 0 shows whether the key is.
        try:
            self._open_chunk(self._last)
        except SealedFileError:
            self._open_chunk(0)
            raise

    def _bytes(self, start: int, end: int) -> bytes:
        self._file.seek(start)
        data = b""
        while len(data) < end - start:
            part = self._file.read(end - start - len(data))
            if not part:
                raise OSError("the file has become shorter")
            data += part
        return data

    def _open_chunk(self, number: int) -> memoryview:
        """The text of a chunk."""
        if number != self._number:
            start = HEADER + CHUNK * number
            chunk = self._bytes(start, min(start + CHUNK, self._size))
            try:
                text = _chacha20.file_open_chunk(number, number == self._last, self._key, self._salt, chunk)
            except (InvalidTag, ValueError):
                raise self._damage(number, TEXT * number, TEXT * (number + 1)) from None
            self._number, self._chunk = number, memoryview(text)
        return self._chunk

    def _damage(self, number: int, start: int, end: int) -> SealedFileError:
        words = "" if number else "the key is wrong, or "
        if number < self._last:
            return SealedFileError(f"{words}bytes {start} to {end - 1} of the text are damaged", start, end)
        words += f"the text from byte {start} on" if number else "the text"
        return SealedFileError(f"{words} is damaged or cut", start)

    def readinto(self, buffer: WriteableBuffer) -> int:
        """Fills the buffer as far as the text goes. After an error the position is as it was."""
        with memoryview(buffer).cast("B") as to, self._lock:
            self._demand_open()
            done = 0
            while done < len(to) and self._at + done < self._length:
                number, start = divmod(self._at + done, TEXT)
                part = self._open_chunk(number)[start : start + len(to) - done]
                to[done : done + len(part)] = part
                done += len(part)
            self._at += done
            return done

    def readall(self) -> bytes:
        with self._lock:
            return self.read(max(self._length - self._at, 0)) or b""

    def seek(self, offset: int, whence: int = os.SEEK_SET) -> int:
        with self._lock:
            self._demand_open()
            to = offset + {os.SEEK_SET: 0, os.SEEK_CUR: self._at, os.SEEK_END: self._length}[whence]
            if to < 0:
                raise ValueError(f"negative position {to}")
            self._at = to
            return to

    def readable(self) -> bool:
        return True

    def seekable(self) -> bool:
        return True

    def close(self) -> None:
        super().close()
        if self._is_ours:
            self._file.close()


class SealedWriter(_Sealed):
    """Takes the text of a sealed file, for a path, or for an object with write, which stays open. `close`, or the end of a
    `with` block, makes it whole. After an error in the block or of a write, and without `close`, a path is as it was, and
    what an object got is no sealed file."""

    # Of a path, where it leads and what is written beside it.
    _path = _part = ""

    def __init__(self, file: File, key: ReadableBuffer) -> None:
        super().__init__(key)
        self._salt, self._number, self._text = os.urandom(19), 0, bytearray()
        if isinstance(file, (str, bytes, os.PathLike)):
            self._begin(os.fsdecode(file))
        else:
            self._file = file
        with self._or_abandon():
            self._put(_chacha20.file_header(self._salt))

    def _begin(self, path: str) -> None:
        """Opens a file beside the path, with the permissions of what is there."""
        mode = None
        with contextlib.suppress(FileNotFoundError):
            mode = os.stat(path).st_mode
            if not stat.S_ISREG(mode):
                raise OSError(f"{path} isn't a file")
        part, own = f"{path}.{secrets.token_hex(8)}", 0o666 if mode is None else 0o600
        self._file = io.open(part, "xb", buffering=0, opener=lambda it, flags: os.open(it, flags, own))
        self._path, self._part = path, part
        if mode is not None:
            os.chmod(part, stat.S_IMODE(mode))

    @contextlib.contextmanager
    def _or_abandon(self) -> typing.Iterator[None]:
        try:
            yield
        except BaseException:
            self.abandon()
            raise

    def _put(self, data: bytes) -> None:
        rest = memoryview(data)
        while rest:
            rest = rest[self._file.write(rest) :]

    def _seal_chunk(self, is_last: bool) -> None:
        self._put(_chacha20.file_seal_chunk(self._number, is_last, self._key, self._salt, self._text[:TEXT]))
        del self._text[:TEXT]
        self._number += 1

    def write(self, data: ReadableBuffer) -> int:
        """Takes all bytes."""
        with memoryview(data).cast("B") as text, self._lock:
            self._demand_open()
            with self._or_abandon():
                for start in range(0, len(text), TEXT):
                    self._text += text[start : start + TEXT]
                    # The last chunk is marked, so a full one waits for more text.
                    if len(self._text) > TEXT:
                        self._seal_chunk(False)
            return len(text)

    def writable(self) -> bool:
        return True

    def close(self) -> None:
        with self._lock:
            if not self.closed:
                with self._or_abandon():
                    self._seal_chunk(True)
                    if self._part:
                        os.fsync(self._file.fileno())
                        self._file.close()
                        os.replace(self._part, self._path)
                        self._part = ""
                super().close()

    def abandon(self) -> None:
        """Closes without an end."""
        if not self.closed:
            super().close()
            if self._part:
                with contextlib.suppress(OSError):
                    self._file.close()
                os.unlink(self._part)

    def __exit__(self, kind: type[BaseException] | None, *more: object) -> None:
        self.close() if kind is None else self.abandon()

    def __del__(self) -> None:
        self.abandon()


open = SealedReader
create = SealedWriter
