"""Authenticated encryption of messages; of streams in chacha20.secretstream, and of files in chacha20.files. A generator for
NumPy is in chacha20.numpy; the bare ciphers, which don't authenticate, are in chacha20.unauthenticated."""

from __future__ import annotations

import os, typing

from chacha20 import _chacha20

if typing.TYPE_CHECKING:
    from _typeshed import ReadableBuffer

    _Self = typing.TypeVar("_Self", bound="_Cipher")

__version__ = _chacha20.version


class InvalidTag(Exception):
    """A tag is wrong. Nothing was written."""


def _copy(name: str, value: ReadableBuffer, length: int) -> bytes:
    """A copy of an argument, which must have so many bytes."""
    try:
        copy = memoryview(value).tobytes()
    except TypeError:
        raise TypeError(f"{name} must be a bytes-like object, not {type(value).__name__}") from None
    if len(copy) != length:
        raise ValueError(f"{name} must have {length} bytes, not {len(copy)}")
    return copy


class _Cipher(_chacha20.Cipher):
    __slots__ = ()
    _nonce_len: int

    def __new__(cls: type[_Self], key: ReadableBuffer) -> _Self:
        return super().__new__(cls, _copy("key", key, 32), cls._nonce_len)

    @staticmethod
    def generate_key() -> bytes:
        """A random key of 32 bytes."""
        return os.urandom(32)


class ChaCha20Poly1305(_Cipher):
    """ChaCha20-Poly1305 (RFC 8439). Never use a nonce twice under one key: 12 bytes are too short for random ones."""

    __slots__ = ()
    _nonce_len = 12


class XChaCha20Poly1305(_Cipher):
    """XChaCha20-Poly1305 (draft-irtf-cfrg-xchacha). Never use a nonce twice under one key: 24 bytes may be random."""

    __slots__ = ()
    _nonce_len = 24
