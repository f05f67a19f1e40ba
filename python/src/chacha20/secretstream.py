"""Streams, those of libsodium's crypto_secretstream_xchacha20poly1305: no message can be changed, dropped or moved unnoticed,
nor the end cut off, if the reader waits for Tag.FINAL."""

from __future__ import annotations

import enum, os, threading, typing

from chacha20 import _chacha20, _copy

if typing.TYPE_CHECKING:
    from _typeshed import ReadableBuffer


class Tag(enum.IntFlag):
    """What a message says: PUSH ends a group, FINAL the stream; after REKEY both sides take another key. Any byte may be one."""

    MESSAGE = 0
    PUSH = 1
    REKEY = 2
    FINAL = 3


class _Stream:
    def __init__(self, key: ReadableBuffer, header: bytes) -> None:
        # Without the lock, two threads could use one nonce.
        self._state = bytearray(_chacha20.stream_start(_copy("key", key, 32), header))
        self._lock = threading.Lock()


class PushStream(_Stream):
    """Encrypts a stream. The reader needs `header`, 24 random bytes, which aren't secret."""

    def __init__(self, key: ReadableBuffer) -> None:
        self.header = os.urandom(24)
        super().__init__(key, self.header)

    def push(self, text: ReadableBuffer, aad: ReadableBuffer = b"", tag: Tag = Tag.MESSAGE) -> bytes:
        """The next message, which has 17 bytes more than its text."""
        if not 0 <= tag < 256:
            raise ValueError("tag must be from 0 to 255")
        with self._lock:
            return _chacha20.stream_push(tag, self._state, text, aad)


class PullStream(_Stream):
    """Decrypts what a PushStream with this header has encrypted."""

    def __init__(self, key: ReadableBuffer, header: ReadableBuffer) -> None:
        super().__init__(key, _copy("header", header, 24))

    def pull(self, message: ReadableBuffer, aad: ReadableBuffer = b"") -> tuple[bytes, Tag]:
        """The text and the tag of the next message. Any other one raises InvalidTag, and this one is still awaited."""
        with self._lock:
            text, tag = _chacha20.stream_pull(self._state, message, aad)
        return text, Tag(tag)
