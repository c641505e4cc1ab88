"""The shared library of gen1.search and gen1.showdown, which are written in Rust and of which nothing is proved."""

from __future__ import annotations

import ctypes
import os
from ctypes import POINTER, c_char, c_char_p, c_size_t, c_uint8, c_uint64
from functools import cache
from pathlib import Path

from gen1._library import PATH
from gen1.errors import LibraryMissing


@cache
def extras() -> ctypes.CDLL:
    """The library, loaded at the first call. Raises `LibraryMissing`."""
    named = os.environ.get("GEN1_EXTRAS_LIBRARY")
    path = Path(named) if named else Path(PATH).with_name("libgen1_extras.so")
    if not path.is_file():
        raise LibraryMissing(
            f"{path} is not there, which gen1.search and gen1.showdown need: install cargo, and build the package by "
            "tools/python_wheel; or set GEN1_EXTRAS_LIBRARY to the library of `cargo build --release -p gen1-extras-ffi`"
        )
    try:
        found = ctypes.CDLL(str(path.resolve()))
        text = (POINTER(c_char), c_size_t)
        found.gen1_search_nodes.restype, found.gen1_search_nodes.argtypes = c_uint64, (c_uint8,)
        found.gen1_search_think.restype = found.gen1_search_solve.restype = c_size_t
        # The options are structs of gen1.search.
        found.gen1_search_think.argtypes = found.gen1_search_solve.argtypes = (ctypes.c_void_p, ctypes.c_void_p, *text)
        found.gen1_search_battle.restype = found.gen1_search_table.restype = c_size_t
        found.gen1_search_battle.argtypes = (c_char_p, c_size_t, c_uint64, *text)
        found.gen1_search_table.argtypes = (c_char_p, c_size_t, *text)
        found.gen1_showdown_call.restype = POINTER(c_char)
        found.gen1_showdown_call.argtypes = (c_char_p, c_size_t, POINTER(c_size_t))
        found.gen1_showdown_free.restype, found.gen1_showdown_free.argtypes = None, text
    except (OSError, AttributeError) as fault:
        raise LibraryMissing(f"{path} cannot be loaded: {fault}") from fault
    return found
