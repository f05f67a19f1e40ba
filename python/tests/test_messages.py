"""Messages and the bare ciphers, beside OpenSSL by `cryptography`, libsodium by PyNaCl, and published vectors."""

import pathlib, pickle, re, sys, threading, time
from collections.abc import Callable
from typing import Any

import cryptography_vectors  # type: ignore
import numpy as np
import pytest
from conftest import BUFFERS, NO_BUFFERS, TOP, in_threads, leaves_no_memory
from cryptography.hazmat.primitives.ciphers import Cipher, algorithms
from cryptography.hazmat.primitives.ciphers.aead import ChaCha20Poly1305 as OpenSSL
from hypothesis import given, strategies as st
from nacl import bindings

import chacha20
from chacha20 import ChaCha20Poly1305, InvalidTag, XChaCha20Poly1305, unauthenticated

KEY, NONCE, XNONCE = bytes(range(32)), bytes(range(40, 52)), bytes(range(60, 84))
kinds = pytest.mark.parametrize("kind, nonce", [(ChaCha20Poly1305, NONCE), (XChaCha20Poly1305, XNONCE)])
bare = pytest.mark.parametrize("kind, nonce", [(unauthenticated.ChaCha20, NONCE), (unauthenticated.XChaCha20, XNONCE)])
keys, texts = st.binary(min_size=32, max_size=32), st.integers(0, 300) | st.integers(0, 70000)
nonces, aads = st.binary(min_size=24, max_size=24), st.binary(max_size=100)


@given(keys, nonces, texts.map(lambda n: (KEY * 2200)[n % 31 :][:n]), aads, st.integers(0, 2**32 - 2000), texts)
def test_others(key: bytes, nonce: bytes, text: bytes, aad: bytes, block: int, cut: int) -> None:
    sealed = OpenSSL(key).encrypt(nonce[:12], text, aad)
    assert ChaCha20Poly1305(key).encrypt(nonce[:12], text, aad) == sealed
    assert ChaCha20Poly1305(key).decrypt(nonce[:12], sealed, aad) == text
    sealed = bindings.crypto_aead_xchacha20poly1305_ietf_encrypt(text, aad, nonce, key)
    assert XChaCha20Poly1305(key).encrypt(nonce, text, aad) == sealed
    assert XChaCha20Poly1305(key).decrypt(nonce, sealed, aad) == text
    assert unauthenticated.XChaCha20(key, nonce).xor(sealed[:-16][cut:], 64 + cut) == text[cut:]
    iv = block.to_bytes(4, "little") + nonce[:12]
    stream, cipher = Cipher(algorithms.ChaCha20(key, iv), None).encryptor().update(text), unauthenticated.ChaCha20(key, nonce[:12])
    assert cipher.xor(text, 64 * block) == stream and cipher.xor(stream[cut:], 64 * block + cut) == text[cut:]


def test_vectors() -> None:
    """OpenSSL's and BoringSSL's, also those that must fail. A quoted text stands for its bytes."""
    counts, NAMES = {"right": 0, "wrong": 0}, [("NONCE", "IV"), ("IN", "PLAINTEXT"), ("AD", "AAD"), ("CT", "CIPHERTEXT")]
    for file in pathlib.Path(cryptography_vectors.__file__).parent.glob("ciphers/ChaCha20Poly1305/*.txt"):
        for paragraph in file.read_text().split("\n\n"):
            case = {}
            for name, quote, value in re.findall(r'(?m)^(\w+) *= *("?)([^"\n]*)', paragraph):
                case[name.upper()] = value.encode() if quote or name in ("COUNT", "Result") else bytes.fromhex(value)
            if "TAG" in case:
                nonce, text, aad, ciphertext = (case.get(one, case.get(other, b"")) for one, other in NAMES)
                cipher, sealed = ChaCha20Poly1305(case["KEY"]), ciphertext + case["TAG"]
                counts["wrong" if "RESULT" in case else "right"] += 1
                if "RESULT" in case:
                    with pytest.raises(InvalidTag):
                        cipher.decrypt(nonce, sealed, aad)
                else:
                    assert cipher.encrypt(nonce, text, aad) == sealed and cipher.decrypt(nonce, sealed, aad) == text
    assert counts["right"] >= 70 and counts["wrong"] >= 1, counts


@kinds
@pytest.mark.parametrize("length", [0, 1, 2047, 2048, 5000])
def test_buffers(kind: Any, nonce: bytes, length: int) -> None:
    """Each kind of buffer in each place, names, outputs of the caller's, and in place."""
    text, aad, cipher = (KEY * 200)[:length], bytes(13), kind(KEY)
    sealed = cipher.encrypt(nonce, text, aad)
    assert cipher.encrypt(nonce, text) == cipher.encrypt(nonce, text, None) == cipher.encrypt(nonce, text, b"") != sealed
    for made in BUFFERS:
        assert kind(made(KEY)).encrypt(made(nonce), made(text), made(aad)) == sealed
        assert cipher.decrypt(data=made(sealed), associated_data=made(aad), nonce=made(nonce)) == text
    for made in BUFFERS[2:]:
        buf, room = made(bytes(length + 16)), made(bytes(length))
        assert cipher.encrypt_into(nonce, text, aad, buf) == length + 16 and bytes(buf) == sealed
        assert cipher.decrypt_into(nonce, buf, aad, buf=room) == length and bytes(room) == text
    view = memoryview(bytearray(text + bytes(16)))
    assert cipher.encrypt_into(nonce, view[:length], aad, view) == length + 16 and view == sealed
    assert cipher.decrypt_into(nonce, view, aad, view[:length]) == length and view[:length] == text


def refused(kind: type[Exception], words: str, call: Callable[..., object], *values: Any, **more: Any) -> None:
    with pytest.raises(kind, match=words):
        call(*values, **more)


@kinds
def test_refused(kind: Any, nonce: bytes) -> None:
    """A wrong argument in each place. Nothing is written."""
    cipher, room = kind(KEY), bytearray(b"\5" * 64)
    for call, size in (cipher.encrypt_into, 48), (cipher.decrypt_into, 80):
        right: dict[str, Any] = {"nonce": nonce, "data": cipher.encrypt(nonce, bytes(64))[:size], "associated_data": b"", "buf": room}
        for name in right:
            for value in NO_BUFFERS + [None, bytes(64)] * (name == "buf"):
                refused(TypeError, f"^{name} must", call, **{**right, name: value})
            if name != "associated_data":
                refused(TypeError, f"^{name} is missing", call, **{it: value for it, value in right.items() if it != name})
        for length in {0, 11, 12, 13, 23, 24, 25} - {len(nonce)}:
            refused(ValueError, f"^nonce must have .* bytes, not {length}", call, **{**right, "nonce": bytes(length)})
        for length in 0, 63, 65:
            refused(ValueError, f"^buf must have 64 bytes, not {length}", call, **{**right, "buf": bytearray(length)})
        for name in "more", "nonce":
            refused(TypeError, "given twice, or isn't", call, *right.values(), **{name: nonce})
        refused(TypeError, "from 0 to 4 arguments", call, *right.values(), b"")
        for at in range(1, 16):  # The output overlaps the input in part.
            view = memoryview(bytearray(b"\5" * 120))
            refused(ValueError, "overlaps", call, nonce, view[at : at + size], b"", view[:64])
            assert view == b"\5" * 120
    assert room == b"\5" * 64
    for value in NO_BUFFERS[:3]:
        refused(TypeError, "key must", kind, value)
    for length in 0, 31, 33:
        refused(ValueError, "key must have 32 bytes", kind, bytes(length))
    refused(TypeError, "pickle", pickle.dumps, cipher)
    assert len(kind.generate_key()) == 32 and kind.generate_key() != kind.generate_key()


@kinds
@pytest.mark.parametrize("length", [0, 1, 3000])
def test_forgeries(kind: Any, nonce: bytes, length: int) -> None:
    cipher, aad, room = kind(KEY), b"header", bytearray(b"\7" * length)
    sealed = cipher.encrypt(nonce, bytes(length), aad)
    places = [*range(0, length, 1 + length // 50), *range(length, length + 16)]
    forged: list[Any] = [(nonce, sealed[:at] + bytes([sealed[at] ^ 1 << at % 8]) + sealed[at + 1 :], aad) for at in places]
    forged += [(nonce, sealed, None), (nonce, sealed, aad[1:]), (nonce[1:] + b"\1", sealed, aad)]
    forged += [(nonce, sealed[:at], aad) for at in range(min(16, len(sealed)))]
    for call in forged:
        refused(InvalidTag, "another key", cipher.decrypt, *call)
        refused(InvalidTag, "another key", cipher.decrypt_into, *call, room[: max(len(call[1]) - 16, 0)])
    refused(InvalidTag, "", kind(KEY[1:] + b"\1").decrypt, nonce, sealed, aad)
    refused(InvalidTag, "", cipher.decrypt_into, *forged[-17 if length else 0], room)
    assert room == b"\7" * length and cipher.decrypt(nonce, sealed, aad) == bytes(length)


@bare
def test_bare(kind: Any, nonce: bytes) -> None:
    cipher, room, view = kind(KEY, nonce), bytearray(8), memoryview(bytearray(80))
    wanted = cipher.xor(KEY * 100, 5)
    for made in BUFFERS:
        assert kind(made(KEY), made(nonce)).xor(made(KEY * 100), 5) == wanted
    for made in BUFFERS[2:]:
        buf = made(bytes(3200))
        assert cipher.xor_into(KEY * 100, buf, 5) == 3200 and bytes(buf) == wanted
        assert cipher.xor_into(buf, buf, position=5) == 3200 and bytes(buf) == KEY * 100
    for value in NO_BUFFERS:
        refused(TypeError, "data must", cipher.xor, value)
    for value in [*NO_BUFFERS, None, bytes(8)]:
        refused(TypeError, "buf must", cipher.xor_into, bytes(8), value)
    for length in 7, 9:
        refused(ValueError, "buf must have 8 bytes", cipher.xor_into, bytes(8), bytearray(length))
    for position in -1, 2**38 + 1, 2**64, 2**64 + 1:
        refused(ValueError, "position must", cipher.xor_into, bytes(8), room, position)
    refused(ValueError, "end of the keystream", cipher.xor_into, bytes(8), room, 2**38 - 7)
    refused(TypeError, "", cipher.xor_into, bytes(8), room, 1.5)
    refused(ValueError, "overlaps", cipher.xor_into, view[:64], view[8:72])
    assert room == bytes(8) and view == bytes(80)
    assert len(cipher.xor(bytes(8), np.int64(2**38 - 8))) == 8 and cipher.xor(b"", 2**38) == b""
    for length in {8, 11, 12, 13, 24, 25} - {len(nonce)}:
        refused(ValueError, "nonce must have", kind, KEY, bytes(length))


def test_threads() -> None:
    """Eight threads at once. Over many bytes, another thread runs during a call; while short calls follow each other, none."""
    cipher, text, stop, found = ChaCha20Poly1305(KEY), bytes(32 << 20), threading.Event(), list[bool]()
    sealed, buf = OpenSSL(KEY).encrypt(NONCE, text, b""), bytearray(len(text) + 16)
    part = OpenSSL(KEY).encrypt(NONCE, text[: 1 << 20], b"")
    in_threads(lambda: found.extend(cipher.encrypt(NONCE, text[: 1 << 20]) == part for _ in range(4)))
    assert found == [True] * 32
    count, interval = [0], sys.getswitchinterval()

    def counts() -> None:
        while not stop.is_set():
            count[0] += 1
            time.sleep(0)

    calls: list[Callable[[], object]] = [
        lambda: cipher.encrypt(NONCE, text),
        lambda: cipher.encrypt_into(NONCE, text, None, buf),
        lambda: cipher.decrypt(NONCE, sealed),
        lambda: cipher.encrypt(NONCE, b"", text),
        lambda: unauthenticated.ChaCha20(KEY, NONCE).xor(text),
    ]
    thread = threading.Thread(target=counts)
    try:
        sys.setswitchinterval(100)
        thread.start()
        for call in calls:
            before, turn = count[0], 0
            while count[0] == before and turn < 50:  # On a busy machine the other thread may come late.
                call()
                turn += 1
            assert count[0] > before
        before, short = count[0], text[:2000]
        for _ in range(20000):
            cipher.encrypt(NONCE, short)
        assert count[0] == before
    finally:
        sys.setswitchinterval(interval)
        stop.set()
        thread.join()


def test_memory() -> None:
    """No object and no buffer stays, neither after a call nor after an exception."""
    cipher, plain, text = ChaCha20Poly1305(KEY), unauthenticated.ChaCha20(KEY, NONCE), bytes(1 << 16)
    sealed, buf = cipher.encrypt(NONCE, text), bytearray((1 << 16) + 16)
    view = memoryview(buf)

    def act() -> None:
        ChaCha20Poly1305(KEY).decrypt(NONCE, cipher.encrypt(NONCE, text))
        cipher.encrypt_into(NONCE, text, None, buf)
        plain.xor_into(plain.xor(text), view[:-16])
        refused(InvalidTag, "", cipher.decrypt, NONCE, sealed, b"x")
        refused(TypeError, "", cipher.decrypt, NONCE, view, "x")
        refused(ValueError, "", cipher.encrypt, NONCE[1:], view)
        refused(ValueError, "", cipher.encrypt_into, NONCE, text, None, view[1:])
        refused(ValueError, "", cipher.encrypt_into, NONCE, view[8:-8], None, buf)
        refused(ValueError, "", plain.xor, text, 2**38)

    objects = cipher, text, sealed, buf, KEY, NONCE, ChaCha20Poly1305, InvalidTag, chacha20
    before = [sys.getrefcount(it) for it in objects]
    leaves_no_memory(act)
    assert all(sys.getrefcount(it) - count < 100 for it, count in zip(objects, before))
    view.release()
    buf.append(0)  # BufferError, if something held it.
    assert chacha20.__version__ in (TOP / "python/pyproject.toml").read_text()
