"""Names, states, choices in words and new numbers to draw (include/gen1.h, "naming", "looking", "searching"): names and rows with
docs/TABLES.md, states with the recorded bytes as docs/LAYOUT.md reads them."""

import ctypes
import re
from ctypes import byref, c_uint8

import pytest
from battles import loads, recorded
from repository import ROOT
from tables import effect_names, element_names, numbered, table
from structs import StateStruct, bytes_of_battles, filled, plain, state_read

ROOM, KEPT = 128, b"\x07" * 128
OFTEN_CRITICAL = ("Karate Chop", "Razor Leaf", "Crabhammer", "Slash")
# The fields of each test of loading, by GEN1_FIELD_... At turn 0 a current stat belongs to the active block.
FIELDS = {3: range(1, 7), 4: range(7, 17), 5: range(17, 33), 6: (32,), 7: (2, 4, 6, 10)}
DOCUMENT = (ROOT / "docs" / "TABLES.md").read_text()
ELEMENTS = element_names(DOCUMENT)
SPECIES_ROWS, MOVE_ROWS = (numbered(table(DOCUMENT, heading)) for heading in ("Species", "Moves"))
NAMES = [row[0] for row in SPECIES_ROWS], [row[0] for row in MOVE_ROWS]


def text_of(call, *arguments, room=ROOM):
    """The code and the text of a call that writes a text and a NUL; no text where it wrote further, or no NUL."""
    text, length = ctypes.create_string_buffer(KEPT, ROOM), ctypes.c_size_t(999)
    code = call(*arguments, text, ctypes.c_size_t(room), byref(length))
    written, end = (0, 0) if code else (length.value, length.value + 1)
    kept = set(text.raw[written:end]) <= {0} and text.raw[end:] == KEPT[end:] and (code == 0 or length.value == 999)
    return code, text.raw[:written].decode() if kept else None


def words_due(state, side, choice, names):
    """The code and the words of a choice, in a state as state_read returns it."""
    species, moves = names
    it = state["sides"][side - 1]
    kind, number = choice >> 4, choice & 15
    if choice == 0:
        return 0, "pass"
    if kind == 1 and number == 0:
        return 0, "move 0"
    if kind == 1 and 1 <= number <= 4:
        place = it["active"]["place"]
        id = it["members"][place - 1]["moves"][number - 1] if place else 0
        return (0, f"move {number} {moves[id - 1]}") if id else (44, "")
    if kind == 2 and 1 <= number <= 6:
        id = it["members"][number - 1]["species"]
        return (0, f"switch {number} {species[id - 1]}") if id else (44, "")
    return 43, ""


def read_due(state, side, offered, names):
    """Words of each choice, by its number, with its name and by its name alone, with the code and the choice that they are."""
    said = {choice: (words_due(state, side, choice, names)[1] + "  ").split(" ", 2) for choice in range(64)}
    for choice, (word, number, name) in said.items():
        name = name.strip()
        if word:
            yield f" {word.upper()}-{number}", (0, choice)
        if name:
            fitting = [
                it
                for it in offered
                if said[it][0] == word and said[it][2].strip() == name or (it, word) == (16, "move")
            ]
            yield f"{word} {number} {name}", (0, choice) if choice in offered else (54, 7)
            yield name if word == "move" else f"{word}{name}", (0, fitting[0]) if len(fitting) == 1 else (
                59 if fitting else 54,
                7,
            )
    for words in (
        "",
        "pass 1",
        "move",
        "move 5",
        "switch",
        "switch 7",
        "move Body Slap",
        "switch Mewthree",
        "1",
        "switch Body Slam",
    ):
        yield words, (58, 7)


def compare_words(calls, name, held, names, checks):
    """Compares the choices of a recorded battle as they are read from words."""
    for side in (1, 2):
        choices, kind = (c_uint8 * 9)(), calls.gen1_choices.argtypes[0]
        offered = choices[: calls.gen1_choices(ctypes.cast(held, kind), side, choices)]
        for words, due in read_due(state_read(bytes(held)), side, offered, names):
            choice = c_uint8(7)
            code = calls.gen1_choice_from_words(held, side, words.encode(), ctypes.c_size_t(len(words)), byref(choice))
            checks.same(f"{name}, side {side}, {words}", (code, choice.value), due)


def compare_battle(calls, name, given, names, checks):
    """Compares a recorded battle: its state there and back, each byte of a choice in words, and new numbers to draw."""
    held, state = (c_uint8 * 384)(*given), StateStruct()
    calls.gen1_get_state(held, byref(state))
    due = state_read(given)
    checks.same(f"{name}, state", plain(state), due)
    made, fault = (c_uint8 * 384)(), (c_uint8 * 16)(*KEPT[:16])
    code = calls.gen1_set_state(made, byref(state), fault)
    checks.same(f"{name}, made of its state", (code, bytes(made), bytes(fault)), (0, given, KEPT[:16]))
    got = [text_of(calls.gen1_choice_words, held, side, choice) for side in (1, 2) for choice in range(64)]
    checks.same(f"{name}, words", got, [words_due(due, side, choice, names) for side in (1, 2) for choice in range(64)])
    compare_words(calls, name, held, names, checks)
    seed = [given[30], *range(240, 249)]
    codes = [calls.gen1_reseed(held, (c_uint8 * 10)(*seed), index) for index in (9, 255)]
    checks.same(f"{name}, no index", (codes, bytes(held)), ([46, 46], given))
    code = calls.gen1_reseed(held, (c_uint8 * 10)(*seed), 8)
    checks.same(f"{name}, reseeded", (code, bytes(held)), (0, given[:5] + bytes([8, *seed]) + given[16:]))


def compare_state(calls, number, test, given, checks):
    """Makes a battle of the state of a byte string: it has these bytes, or a field of the recorded test is wrong."""
    if len(given) != 384 or given[0] != 3 or any(given[22:24] + given[200:204] + given[380:384]):
        return  # no plain state has these bytes
    made, fault = (c_uint8 * 384)(*KEPT * 3), (c_uint8 * 16)(*KEPT[:16])
    code = calls.gen1_set_state(made, byref(filled(StateStruct(), state_read(given))), fault)
    got = (code, bytes(made), test == 0 or fault[12] in FIELDS[test])
    checks.same(f"byte string {number}, made of its state", got, (23 if test else 0, KEPT * 3 if test else given, True))


def rows_of(call, last, length):
    """The rows that a call writes for each number, and whether it refuses exactly the numbers past the last row."""
    rows, refused = [], []
    for number in range(256):
        row = (c_uint8 * length)(*[7] * length)
        if call(number, row) == 0:
            rows.append(list(row))
        elif list(row) == [7] * length:
            refused.append(number)
    return rows, refused == [number for number in range(256) if not 1 <= number <= last]


def test_recorded_states(library, battles, checks):
    """Each recorded battle: its state, choices in words, and new numbers to draw."""
    for name, given in bytes_of_battles(battles):
        compare_battle(library.calls, name, given, NAMES, checks)


def test_states_of_byte_strings(library, battles, checks):
    """The state of each recorded byte string is accepted, or refused by the recorded test."""
    for number, (test, given) in enumerate(loads(recorded("loads.txt", battles)), 1):
        compare_state(library.calls, number, test, given, checks)


def test_build(library, checks):
    """The text of gen1_build says what the library was built from."""
    checks.same("build", library.calls.gen1_build().partition(b",")[0] in (b"proved", b"plain", b"unknown"), True)


@pytest.mark.parametrize("kind", ["species", "move", "type"])
def test_names(kind, library, checks):
    """Each name of docs/TABLES.md, and its number by its name."""
    lists = {"species": (NAMES[0], 1), "move": (NAMES[1], 1), "type": (ELEMENTS, 0)}
    names, first = lists[kind]
    call = getattr(library.calls, f"gen1_{kind}_name")
    got = [text_of(call, number) for number in range(256)]
    due = [(0, names[number - first]) if first <= number < first + len(names) else (42, "") for number in range(256)]
    checks.same("names", got, due)
    short = [text_of(call, number, room=len(name))[0] for number, name in enumerate(names, first)]
    checks.same("small rooms", set(short), {41})
    if first:
        find = getattr(library.calls, f"gen1_{kind}_from_name")
        forms = (str, str.lower, lambda it: re.sub("[^A-Za-z0-9]", "", it).upper())
        written = [[form(name).encode() for form in forms] for name in names]
        got = [[find(form, ctypes.c_size_t(len(form))) for form in each] for each in written]
        checks.same("found", got, [[number] * 3 for number in range(first, first + len(names))])
        checks.same("not found", find(b"Missingno", ctypes.c_size_t(9)), 0)


def test_rows_of_species(library, checks):
    """The base stats and types of each species."""
    base = [[*map(int, row[3:8]), ELEMENTS.index(row[1]), ELEMENTS.index(row[2])] for row in SPECIES_ROWS]
    checks.same("base stats", rows_of(library.calls.gen1_species_stats, 151, 7), (base, True))


def test_rows_of_moves(library, checks):
    """Type, power, accuracy, PP, effect, priority and rate of critical hits of each move."""
    effects = effect_names(DOCUMENT)
    data = [
        [
            ELEMENTS.index(row[1]),
            int(row[2]),
            int(row[3]) * 255 // 100,
            int(row[4]),
            effects.index(row[5].partition("(")[0]),
            {"Quick Attack": 1, "Counter": 255}.get(row[0], 0),
            int(row[0] in OFTEN_CRITICAL),
        ]
        for row in MOVE_ROWS
    ]
    checks.same("moves", rows_of(library.calls.gen1_move_data, 165, 7), (data, True))


def test_type_chart(library, checks):
    """The effectiveness of each type against each other, by the rows of docs/TABLES.md."""
    rows = {(attack, foe): int(tenths) for attack, foe, tenths in table(DOCUMENT, "Type rows")}
    due = {
        (one, two): (0, rows.get((attack, foe), 10))
        for one, attack in enumerate(ELEMENTS)
        for two, foe in enumerate(ELEMENTS)
    }
    for one in range(256):
        got, tenths = [], c_uint8(7)
        for two in range(256):
            tenths.value = 7
            got.append((library.calls.gen1_effectiveness(one, two, byref(tenths)), tenths.value))
        checks.same(f"type {one}", got, [due.get((one, two), (42, 7)) for two in range(256)])


def test_kinds_of_choices(library, checks):
    """The kind and the slot of each byte."""
    calls = library.calls
    kinds = [calls.gen1_choice_kind(byte) for byte in range(256)]
    slots = [calls.gen1_choice_slot(byte) for byte in range(256)]
    kind = {0: 1, **dict.fromkeys(range(16, 21), 2), **dict.fromkeys(range(33, 39), 3)}
    checks.same("kinds of choices", kinds, [kind.get(byte, 0) for byte in range(256)])
    checks.same("slots of choices", slots, [byte % 16 if byte in kind else 0 for byte in range(256)])


def test_sentences_of_codes(library, checks):
    """Each code of gen1.h has a sentence, and no other number has one."""
    calls = library.calls
    header = (ROOT / "include" / "gen1.h").read_text()
    codes = {int(code): said for code, said in re.findall(r"GEN1_ERROR_\w+ = (\d+),? +/\* (.*?) \*/", header)}
    got = [code for code in range(256) if text_of(calls.gen1_error_text, code)[0] == 0]
    checks.same("sentences", got, [0, *codes])
    tests = range(16, 23)
    checks.same(
        "tests of loading", [codes[code] for code in tests], [text_of(calls.gen1_error_text, code)[1] for code in tests]
    )
    version = re.search(r'GEN1_VERSION "(\d+)\.(\d+)\.(\d+)"', header).groups()
    checks.same("version", calls.gen1_version(), sum(int(n) << (16 - 8 * k) for k, n in enumerate(version)))
