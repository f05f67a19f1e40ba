"""A generator for numpy.random.Generator. A seed of 32 bytes has 2^64 streams, each of 2^68 words of 32 bits: those of
rand_chacha's generators and of this library's. A number of 64 bits takes two words, the low one first."""

from __future__ import annotations

import operator, os, typing

import numpy as np

from chacha20 import _chacha20, _copy

_STREAMS, _WORDS, _CHILDREN = 1 << 64, 1 << 68, 1 << 16


class ChaCha(np.random.BitGenerator):
    """A stream of a seed, by ChaCha with 20, 12 or 8 rounds. The seed is 32 bytes, or a SeedSequence, or what that takes, which
    makes 32 bytes of it; None stands for random ones."""

    capsule: object

    def __init__(self, seed: typing.Any = None, stream: int = 0, rounds: int = 20) -> None:
        if seed is None:
            seed = os.urandom(32)
        elif not isinstance(seed, (bytes, bytearray, memoryview)):
            if not hasattr(seed, "generate_state"):
                seed = np.random.SeedSequence(seed)
            seed = seed.generate_state(8, np.uint32).astype("<u4").tobytes()
        seed = _copy("seed", seed, 32)
        if getattr(self, "capsule", None):
            raise TypeError("a generator begins once: set its state")
        super().__init__(int.from_bytes(seed, "little"))
        self._put(seed, stream, 0, rounds, 0)

    def _put(self, seed: bytes, stream: int, word: int, rounds: int, spawned: int) -> None:
        stream, word, rounds, spawned = map(operator.index, (stream, word, rounds, spawned))
        for name, value, end in ("stream", stream, _STREAMS), ("word", word, _WORDS), ("spawned", spawned, _CHILDREN):
            if not 0 <= value < end:
                raise ValueError(f"{name} must be from 0 to {end - 1}")
        if rounds not in (20, 12, 8):
            raise ValueError("rounds must be 20, 12 or 8")
        state = seed + stream.to_bytes(8, "little") + word.to_bytes(9, "little")
        _chacha20.generator_set(rounds, state, self.capsule)
        self._rounds, self._spawned = rounds, spawned

    def _get(self) -> tuple[bytes, int, int, int, int]:
        state, left = _chacha20.generator_get(self.capsule)
        word = (int.from_bytes(state[40:], "little") - left) % _WORDS
        return state[:32], int.from_bytes(state[32:40], "little"), word, self._rounds, self._spawned

    @property
    def state(self) -> typing.Mapping[str, typing.Any]:
        """The seed, the stream, the position of the next word, the rounds, and how many generators `spawn` has made."""
        with self.lock:
            names = "seed", "stream", "word", "rounds", "spawned"
            return {"bit_generator": type(self).__name__, "state": dict(zip(names, self._get()))}

    @state.setter
    def state(self, value: typing.Mapping[str, typing.Any]) -> None:
        if not isinstance(value, dict) or value.get("bit_generator") != type(self).__name__:
            raise ValueError(f"state must be that of a {type(self).__name__}")
        it = value["state"]
        seed = _copy("seed", it["seed"], 32)
        with self.lock:
            self._put(seed, it["stream"], it["word"], it["rounds"], it["spawned"])

    def __reduce__(self) -> typing.Any:
        state = self.state
        return type(self), (state["state"]["seed"],), state

    def advance(self, words: int) -> ChaCha:
        """Moves by a number of words, which may be negative, modulo 2^68. Returns this generator."""
        with self.lock:
            seed, stream, word, *more = self._get()
            self._put(seed, stream, (word + operator.index(words)) % _WORDS, *more)
        return self

    def jumped(self, jumps: int = 1) -> ChaCha:
        """A generator at the same position of the stream with a number that is greater by `jumps`, modulo 2^64."""
        made = type(self)(b"\0" * 32)
        with self.lock:
            seed, stream, word, rounds, _ = self._get()
        made._put(seed, (stream + operator.index(jumps)) % _STREAMS, word, rounds, 0)
        return made

    def spawn(self, n_children: int) -> list[ChaCha]:
        """Generators for streams that no other spawned one has, if those that you number yourself are below 2^16: child k of
        a stream, from 1 to 65535, has k as one more digit of its number in base 2^16. Three generations have room."""
        with self.lock:
            seed, stream, word, rounds, spawned = self._get()
            place = 16 * max(-(-stream.bit_length() // 16), 1)
            if n_children < 0 or spawned + n_children >= _CHILDREN or place == 64:
                raise ValueError("a stream has 65535 children, and three generations")
            self._spawned += n_children
        children = range(spawned + 1, spawned + n_children + 1)
        return [type(self)(seed, stream + (child << place), rounds) for child in children]
