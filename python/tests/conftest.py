"""What the tests share."""

import array, ctypes, gc, mmap, pathlib, re, threading
from collections.abc import Callable
from typing import Any

import numpy as np
from hypothesis import HealthCheck, settings

TOP = pathlib.Path(__file__).resolve().parents[2]
# A busy machine is slow.
settings.register_profile("few", deadline=None, max_examples=40, database=None, suppress_health_check=list(HealthCheck))
settings.load_profile("few")


def mapped(data: bytes) -> Any:
    it = mmap.mmap(-1, len(data) + 1)
    it[:-1] = data
    return memoryview(it)[:-1]


# Objects with these bytes, of which all but two are writable.
BUFFERS: list[Callable[[bytes], Any]] = [
    bytes,
    lambda data: memoryview(data + b"z")[:-1],
    bytearray,
    lambda data: memoryview(bytearray(b"x" + data))[1:],
    lambda data: array.array("b", data),
    lambda data: (ctypes.c_ubyte * len(data)).from_buffer_copy(data),
    lambda data: np.frombuffer(bytearray(data), np.uint8).reshape(1, -1),
    mapped,
]
NO_BUFFERS: list[Any] = ["text", 5, [1], memoryview(b"abcdef")[::2], np.zeros((4, 4), np.uint8).T[1:]]


def in_threads(act: Callable[[], object]) -> None:
    """Eight threads that begin together."""
    start = threading.Barrier(8)
    threads = [threading.Thread(target=lambda: (start.wait(), act())) for _ in range(8)]
    for it in threads:
        it.start()
    for it in threads:
        it.join()


def leaves_no_memory(act: Callable[[], object]) -> None:
    """Many calls of what handles some 64 KiB leave less than 2 MiB."""
    pages = []
    for _ in range(4):
        for _ in range(200):
            act()
        gc.collect()
        pages.append(int(pathlib.Path("/proc/self/statm").read_text().split()[1]))
    assert (pages[3] - pages[1]) * mmap.PAGESIZE < 2 << 20, pages


def examples(page: str) -> list[str]:
    """The Python programs of a page."""
    return re.findall(r"(?s)```python\n(.*?)```", (TOP / page).read_text(encoding="utf-8"))
