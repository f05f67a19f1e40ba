"""Streams, beside libsodium by PyNaCl, both ways."""

import threading
from typing import Any

import pytest
from conftest import BUFFERS, NO_BUFFERS, examples, in_threads, leaves_no_memory
from hypothesis import given, strategies as st
from nacl.bindings import crypto_secretstream as sodium

from chacha20 import InvalidTag
from chacha20.secretstream import PullStream, PushStream, Tag

KEY = bytes(range(32))
messages = st.lists(st.tuples(st.integers(0, 300) | st.integers(0, 70000), st.binary(max_size=40), st.integers(0, 255)), max_size=8)


@given(st.binary(min_size=32, max_size=32), messages)
def test_libsodium(key: bytes, them: list[tuple[int, bytes, int]]) -> None:
    pushes, theirs = PushStream(key), [sodium.crypto_secretstream_xchacha20poly1305_state() for _ in range(2)]
    sodium.crypto_secretstream_xchacha20poly1305_init_pull(theirs[0], pushes.header, key)
    pulls = PullStream(key, sodium.crypto_secretstream_xchacha20poly1305_init_push(theirs[1], key))
    for size, aad, tag in them:
        text = (key * 2200)[:size]
        assert sodium.crypto_secretstream_xchacha20poly1305_pull(theirs[0], pushes.push(text, aad, Tag(tag)), aad) == (text, tag)
        assert pulls.pull(sodium.crypto_secretstream_xchacha20poly1305_push(theirs[1], text, aad, tag), aad) == (text, tag)


def test_guide() -> None:
    pushes = PushStream(KEY)
    names: dict[str, Any] = {"header": pushes.header, "key": KEY, "message": pushes.push(b"hello", tag=Tag.FINAL)}
    exec(examples("docs/GUIDE.md")[0], names)
    assert (names["text"], names["tag"]) == (b"hello", 3)


def test_refused() -> None:
    """A wrong message is refused, and the stream still awaits the right one."""
    pushes = PushStream(KEY)
    pulls = PullStream(KEY, pushes.header)
    one, other = pushes.push(b"text", b"aad"), pushes.push(b"", tag=Tag.FINAL)
    forged = [(one[:at] + bytes([one[at] ^ 1]) + one[at + 1 :], b"aad") for at in range(len(one))]
    forged += [(one[:at], b"aad") for at in range(len(one))] + [(one, b""), (other, b""), (one + b"\0", b"aad")]
    for message, aad in forged:
        with pytest.raises(InvalidTag):
            pulls.pull(message, aad)
    wrong: list[Any] = [(pulls.pull, it) for it in NO_BUFFERS] + [(pushes.push, it) for it in NO_BUFFERS]
    for call, value in wrong:
        for arguments in (value,), (one, value):
            with pytest.raises(TypeError, match="^(data|aad) must"):
                call(*arguments)
    for tag in -1, 256:
        with pytest.raises(ValueError, match="tag must"):
            pushes.push(b"", tag=Tag(0) + tag)  # type: ignore
    assert pulls.pull(one, b"aad") == (b"text", Tag.MESSAGE) and pulls.pull(other)[1] is Tag.FINAL
    assert pulls.pull(pushes.push(b"last"))[0] == b"last" and pushes.header != PushStream(KEY).header
    for key, header, words in (KEY[1:], bytes(24), "key must have 32"), (KEY, bytes(23), "header must have 24"):
        with pytest.raises(ValueError, match=words):
            PullStream(key, header)
    for made in BUFFERS:
        pushes = PushStream(made(KEY))
        pulls = PullStream(made(KEY), made(pushes.header))
        assert pulls.pull(made(pushes.push(made(KEY), made(b"aad"))), made(b"aad")) == (KEY, Tag.MESSAGE)


def test_threads_and_memory() -> None:
    """Threads that push on one stream never use one nonce: each message is another one of the stream."""
    pushes, sent = PushStream(KEY), list[bytes]()
    in_threads(lambda: sent.extend([pushes.push(bytes(1 << 18)) for _ in range(6)]))
    pulls, rest = PullStream(KEY, pushes.header), set(sent)
    for _ in range(48):
        for message in rest:
            try:
                pulls.pull(message)
            except InvalidTag:
                continue
            rest.remove(message)
            break
    assert len(sent) == 48 and not rest
    message = pushes.push(b"")
    for lock, act in (pushes._lock, lambda: pushes.push(b"")), (pulls._lock, lambda: pulls.pull(message)):
        thread = threading.Thread(target=act)
        with lock:
            thread.start()
            thread.join(0.2)
            assert thread.is_alive()
        thread.join()

    pushes = PushStream(KEY)
    pulls = PullStream(KEY, pushes.header)

    def pair() -> None:
        message = pushes.push(bytes(1 << 16))
        with pytest.raises(InvalidTag):
            pulls.pull(message, b"x")
        pulls.pull(message)

    leaves_no_memory(pair)
