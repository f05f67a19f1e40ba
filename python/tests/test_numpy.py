"""The generator, beside OpenSSL, the known answers of this repository, and the definitions of NumPy's draws."""

import copy, pickle, re, struct, threading
from typing import Any

import numpy as np
import pytest
from conftest import BUFFERS, TOP, in_threads, leaves_no_memory
from cryptography.hazmat.primitives.ciphers import Cipher, algorithms
from hypothesis import given, strategies as st

from chacha20.numpy import ChaCha

SEED = bytes(range(32))
seeds, streams, positions = st.binary(min_size=32, max_size=32), st.integers(0, 2**64 - 1), st.integers(0, 2**40)


def words_of(seed: bytes, stream: int, word: int, count: int) -> list[int]:
    """By OpenSSL, whose nonce begins with a counter."""
    cipher = Cipher(algorithms.ChaCha20(seed, struct.pack("<QQ", word // 16, stream)), None).encryptor()
    return list(struct.unpack(f"<{word % 16 + count}I", cipher.update(bytes(4 * (word % 16 + count)))))[word % 16 :]


def draws(bits: ChaCha) -> Any:
    """A function that draws 32 or 64 bits. It keeps the generator, which its interface doesn't."""
    it = bits.ctypes
    return lambda size, _=bits: (it.next_uint64 if size == 64 else it.next_uint32)(it.state)


def state_of(bits: ChaCha) -> dict[str, Any]:
    return dict(bits.state["state"])


@given(seeds, streams, positions, st.lists(st.sampled_from([32, 64]), max_size=40), st.integers(0, 600))
def test_words(seed: bytes, stream: int, word: int, sizes: list[int], at: int) -> None:
    """Mixed draws take the words one by one, also across the pieces in which they are made."""
    bits = ChaCha(seed, stream).advance(word)
    words, draw = words_of(seed, stream, word, at + 2 * len(sizes) + 6), draws(bits)
    pairs = [low | high << 32 for low, high in zip(words, words[1:])]
    assert [draw(32) for _ in range(at)] == words[:at]
    for size in sizes:
        assert draw(size) == (pairs if size == 64 else words)[at]
        at += size // 32
    assert state_of(bits)["word"] == word + at and bits.random_raw(3).tolist() == pairs[at : at + 6 : 2]


def test_known_answers() -> None:
    """Cases of this repository, with 20, 12 and 8 rounds. Bytes are words, and a keystream from the nonce 0 is stream 0."""

    def data(text: str) -> bytes:  # 00*12, 01..20
        text = re.sub(r"(\w\w)\*(\d+)", lambda it: it[1] * int(it[2]), text)
        return bytes.fromhex(re.sub(r"(\w\w)\.\.(\w\w)", lambda it: bytes(range(int(it[1], 16), int(it[2], 16) + 1)).hex(), text))

    cases, calls = set(), 0
    for file in "cases", "more_cases", "published":
        text = (TOP / f"crates/known_answers/src/{file}.rt").read_text().replace("\\\n", "")
        for rounds, seed, lines in re.findall(r"(?m)^ChaCha(20|12|8)(?:Rng seed| key) ([0-9a-f.* ]+)(?: nonce 00\*12)?\n((?:.+\n)*)", text):
            bits = ChaCha(data(seed), rounds=int(rounds))
            for call, argument, answer in re.findall(r"(?m)^(\w+)(?: (\d[\w^-]*))?(?: -> ([^|\n]+))?", lines):
                count, state = int(eval((argument or "0").replace("^", "**"))), state_of(bits)
                if call in ("next_u32", "next_u64"):
                    found: object = draws(bits)(int(call[-2:]))
                elif call in ("fill_bytes", "write"):
                    words = [draws(bits)(32) for _ in range(-(-count // 4))]
                    found = struct.pack(f"<{len(words)}I", *words)[:count]
                elif call == "get_word_pos":
                    found = state["word"]
                elif call in ("set_word_pos", "set_block_pos", "set_stream"):
                    state |= {"stream": count, "word": 0} if call == "set_stream" else {"word": count * (16 if "block" in call else 1)}
                    bits.state = {"bit_generator": "ChaCha", "state": state}
                else:
                    break
                if answer and ".." not in answer:
                    assert found == (data(answer) if isinstance(found, bytes) else eval(answer.replace("^", "**")))
                    calls += 1
                    cases.add((rounds, seed, lines))
    assert len(cases) >= 12 and calls >= 70 and {it[0] for it in cases} == {"20", "12", "8"}, (len(cases), calls)


def test_draws() -> None:
    """`random`, `integers` and `bytes` by their definition over the words."""
    bits = ChaCha(SEED, 3)
    generator, words = np.random.Generator(bits), words_of(SEED, 3, 0, 3000)
    pairs = [low | high << 32 for low, high in zip(words[:2000:2], words[1:2000:2])]
    assert generator.random(1000).tolist() == [(it >> 11) * 2.0**-53 for it in pairs]
    assert generator.integers(0, 2**32, 500, np.uint64).tolist() == words[2000:2500]
    assert generator.integers(0, 2**31, 400).tolist() == [it >> 1 for it in words[2500:2900]]  # Lemire's method.
    assert generator.bytes(16) == struct.pack("<4I", *words[2900:2904])
    raw = words[2904] | words[2905] << 32, words[2906] | words[2907] << 32
    assert (bits.ctypes.next_uint64(bits.ctypes.state), bits.cffi.next_uint64(bits.cffi.state)) == raw


def test_state() -> None:
    for count in 0, 1, 255, 256, 257, 1000:
        bits = ChaCha(SEED, 7, 12)
        [draws(bits)(32) for _ in range(count)]
        bits.spawn(2)
        state, copies = bits.state, [copy.copy(bits), copy.deepcopy(bits), pickle.loads(pickle.dumps(bits)), ChaCha(1)]
        assert state["bit_generator"] == "ChaCha" and state_of(bits) == dict(seed=SEED, stream=7, word=count, rounds=12, spawned=2)
        copies[3].state = state
        wanted = bits.random_raw(700).tolist()
        for it in copies:
            assert it.state == state and it.random_raw(700).tolist() == wanted and it.state == bits.state
        bits.state = state
        assert bits.random_raw(700).tolist() == wanted and copies[0].spawn(1)[0].state == bits.spawn(1)[0].state
    if np.lib.NumpyVersion(np.__version__) >= "1.25.0":
        generator = np.random.Generator(bits)
        assert pickle.loads(pickle.dumps(generator)).random() == generator.random()


def test_jumps() -> None:
    bits = ChaCha(SEED, 4)
    assert state_of(bits.advance(2**40))["word"] == 2**40 and draws(bits)(32) == words_of(SEED, 4, 2**40, 1)[0]
    assert state_of(bits.advance(-(2**40) - 2))["word"] == 2**68 - 1
    draws(bits)(32)
    assert draws(bits)(32) == words_of(SEED, 4, 0, 1)[0]
    assert state_of(bits.advance(8).jumped(3)) == dict(seed=SEED, stream=7, word=9, rounds=20, spawned=0) != state_of(bits)
    assert state_of(ChaCha(SEED, 2**64 - 1, 8).jumped()) == state_of(ChaCha(SEED, 0, 8))
    # No two streams of a family are one, whoever spawns.
    family = [ChaCha(SEED, it, 8) for it in (0, 1, 65535)]
    for _ in range(3):
        family += [child for it in family if not state_of(it)["stream"] >> 48 for child in it.spawn(2) + it.spawn(1)]
    assert len({state_of(it)["stream"] for it in family}) == len(family) > 190
    assert all(state_of(it) | {"stream": 0, "spawned": 0} == state_of(ChaCha(SEED, 0, 8)) for it in family)
    assert [state_of(it)["stream"] for it in ChaCha(SEED, 5).spawn(2)] == [65541, 131077]
    for stream, count in (2**48, 1), (0, 65536), (0, -1):
        with pytest.raises(ValueError, match="65535 children"):
            ChaCha(SEED, stream).spawn(count)


def test_seeds() -> None:
    assert all(state_of(ChaCha(made(SEED)))["seed"] == SEED for made in BUFFERS[:4])
    wanted = np.random.SeedSequence(5).generate_state(8).astype("<u4").tobytes()
    assert all(state_of(ChaCha(it))["seed"] == wanted for it in (5, [5], np.array([5]), np.random.SeedSequence(5)))
    assert state_of(ChaCha())["seed"] != state_of(ChaCha())["seed"]
    assert state_of(ChaCha(SEED, np.int64(3), np.int8(8))) == state_of(ChaCha(SEED, 3, 8))  # type: ignore
    bits = ChaCha(SEED)
    before, state = bits.state, state_of(bits)
    wrong: list[Any] = [("seed", bytes(31)), ("stream", -1), ("stream", 2**64), ("rounds", 10), ("word", 2**68), ("spawned", -1)]
    for name, value in wrong:
        with pytest.raises(ValueError, match=f"{name} must"):
            bits.state = {**before, "state": {**state, name: value}}
        if name in ("seed", "stream", "rounds"):
            with pytest.raises(ValueError, match=f"{name} must"):
                ChaCha(**{"seed": SEED, name: value})
    with pytest.raises(ValueError, match="state must"):
        bits.state = dict(np.random.PCG64(1).state)
    for call in (lambda: ChaCha(SEED, 1.5), bits.__init__):  # type: ignore
        with pytest.raises(TypeError):
            call()
    assert bits.state == before and draws(bits)(32) == words_of(SEED, 0, 0, 1)[0]


def test_threads_and_memory() -> None:
    """Threads that draw from one generator get each number once. It lives as long as what draws from it, and no longer."""
    bits, found = ChaCha(SEED), list[int]()
    draw = np.random.Generator(bits).integers
    in_threads(lambda: found.extend(draw(0, 2**64, 30000, np.uint64).tolist() + bits.random_raw(999).tolist()))
    assert sorted(found) == sorted(ChaCha(SEED).random_raw(8 * 30999).tolist()) and state_of(bits)["word"] == 16 * 30999
    for act in (lambda: bits.state, lambda: bits.advance(1), lambda: bits.jumped(), lambda: bits.spawn(1)):
        thread = threading.Thread(target=act)
        with bits.lock:
            thread.start()
            thread.join(0.2)
            assert thread.is_alive()
        thread.join()
    leaves_no_memory(lambda: [np.random.Generator(ChaCha(SEED)).random() for _ in range(20)])
    generators = [np.random.Generator(ChaCha(SEED, it)) for it in range(100)]
    assert [it.random() for it in generators] == [np.random.Generator(ChaCha(SEED, it)).random() for it in range(100)]
