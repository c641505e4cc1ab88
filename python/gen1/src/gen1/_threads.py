"""Calls of the library over parts of an array, each part in its own thread."""

import os
from collections.abc import Callable
from concurrent.futures import ThreadPoolExecutor, wait
from functools import lru_cache

# The least number of battles for which a separate part is worth handing over to another thread.
LEAST = 256


def in_parts(call: Callable[[int, int], object], count: int, threads: int) -> None:
    """Calls `call(first, past)` for parts that cover 0 to `count`, at most `threads` at a time, and waits for all of them."""
    parts = max(1, min(threads, count // LEAST))
    if parts == 1:
        call(0, count)
        return
    edges = [count * at // parts for at in range(parts + 1)]
    begun = [_pool(threads, os.getpid()).submit(call, *it) for it in zip(edges[1:-1], edges[2:])]
    try:
        call(edges[0], edges[1])
    finally:
        wait(begun)  # also after an interrupt, since the other parts still change the array
    for it in begun:
        it.result()


@lru_cache(maxsize=8)
def _pool(threads: int, process: int) -> ThreadPoolExecutor:
    """The threads besides the caller's. A forked process has none of its parent's, so it makes its own."""
    return ThreadPoolExecutor(threads - 1, "gen1")
