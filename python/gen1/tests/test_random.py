"""Random battles, bytes and logs: the package returns the same as direct calls of the C library, and keeps its memory."""

import ctypes
import importlib
import random

import pytest
from alone import raw_lines
from conftest import LIB
from gen1 import BadBytes, BadLog, Battle, events, lines


@pytest.fixture
def fuzz():
    """fuzz.py, which needs numpy."""
    pytest.importorskip("numpy")
    return importlib.import_module("fuzz")


def test_battles(fuzz):
    """Battles of any teams, by choices some of which are refused, alone and in arrays."""
    assert fuzz.played(battles=100, seed=2) > 1000


def test_memory(fuzz):
    assert fuzz.grown(steps=20_000, seed=3) < 16


def test_bytes(team):
    """Changed bytes of a battle: loaded, or refused by the same test, as by the library."""
    dice, battle = random.Random(3), Battle(team, team, range(10))
    battle.update(0, 0)
    loaded = 0
    for _ in range(4000):
        given = bytearray(battle.bytes)
        for _ in range(dice.randint(1, 3)):
            given[dice.randrange(384)] = dice.choice((0, 1, 2, 255, dice.randint(0, 255)))
        held = ctypes.create_string_buffer(384)
        code = LIB.gen1_load(held, bytes(given), ctypes.c_size_t(384)) & 0xFF
        try:
            assert Battle.load(given).bytes == held.raw and code == 0
            loaded += 1
        except BadBytes as fault:
            assert fault.code == code
    assert 100 < loaded < 3900


def test_logs(team):
    """Changed and cut bytes of a log: the same lines, or the same fault, from lines and events."""
    dice, battle, log = random.Random(4), Battle(team, team, range(10)), b""
    while not battle.result.is_over:
        log += battle.update(*(dice.choice(battle.choices(side)) for side in (1, 2))).log
    for _ in range(4000):
        given = bytearray(log[: dice.randint(0, 120)])
        if given and dice.random() < 0.7:
            given[dice.randrange(len(given))] = dice.randint(0, 255)
        code, text = raw_lines(bytes(given))
        try:
            assert (
                "".join(f"{it}\n" for it in lines(given)) == text
                and code == 35
                and len(events(given)) == text.count("\n")
            )
        except BadLog as fault:
            assert fault.code == code
