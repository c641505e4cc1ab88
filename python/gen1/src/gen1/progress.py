"""Progress of long work, on standard error: a progress bar of rich on a terminal, else a line of text from time to time."""

import sys
import time
from collections.abc import Iterable, Iterator
from importlib.util import find_spec
from typing import TextIO, TypeVar

T = TypeVar("T")
SECONDS = 10.0


def progress(items: Iterable[T], total: int, what: str, to: TextIO | None = None) -> Iterator[T]:
    """Yields `total` items, and shows the progress.

    Without a bar, a line is written every ten seconds and, after the first such line, at the end. Shorter work writes nothing.
    """
    stream = sys.stderr if to is None else to
    if stream.isatty() and find_spec("rich"):
        yield from _bar(items, total, what, stream)
        return
    begun = told = time.monotonic()
    done = 0
    for item in items:
        yield item
        done, now = done + 1, time.monotonic()
        if now - told >= SECONDS or (done == total and told > begun):
            told = now
            print(f"{what}: {done} of {total}, {now - begun:.0f} s", file=stream, flush=True)


def _bar(items: Iterable[T], total: int, what: str, stream: TextIO) -> Iterator[T]:
    from rich.console import Console
    from rich.progress import track

    yield from track(items, what, total, console=Console(file=stream), transient=True)
