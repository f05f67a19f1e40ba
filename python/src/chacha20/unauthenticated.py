"""The bare ciphers, for protocols that authenticate by other means: who changes a byte of what is encrypted changes that byte
of the text, and nothing notices."""

from __future__ import annotations

import operator, typing

from chacha20 import _chacha20, _copy

if typing.TYPE_CHECKING:
    from _typeshed import ReadableBuffer, WriteableBuffer


class ChaCha20:
    """ChaCha20 (RFC 8439) with a key of 32 bytes and a nonce of 12. Never use a nonce twice under one key."""

    _nonce_len = 12

    def __init__(self, key: ReadableBuffer, nonce: ReadableBuffer) -> None:
        self._secret = _copy("key", key, 32), _copy("nonce", nonce, self._nonce_len)

    def xor(self, data: ReadableBuffer, position: int = 0) -> bytes:
        """data XOR the keystream from byte `position` on, to encrypt or decrypt. The keystream has 2^38 bytes."""
        result: bytes = self._xor(position, data)
        return result

    def xor_into(self, data: ReadableBuffer, buf: WriteableBuffer, position: int = 0) -> int:
        """The same into buf, which has as many bytes, and may be data. Returns their number."""
        length: int = self._xor(position, data, buf)
        return length

    def _xor(self, position: int, *data: ReadableBuffer) -> typing.Any:
        if not 0 <= position <= 1 << 38:
            raise ValueError("position must be from 0 to 2^38")
        return _chacha20.xor_at(operator.index(position), *self._secret, *data)


class XChaCha20(ChaCha20):
    """XChaCha20 (draft-irtf-cfrg-xchacha): the same with a nonce of 24 bytes, which may be random."""

    _nonce_len = 24
