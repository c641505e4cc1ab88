"""The calls of include/gen1.h through ctypes. Programs should use the package python/gen1, which checks and explains more.

    cc -shared -o libgen1.so -Wl,--whole-archive crates/gen1_c/out/libgen1_c.a -Wl,--no-whole-archive
"""

import ctypes
from ctypes import POINTER, Structure, byref, c_bool, c_char, c_size_t, c_uint8, c_uint16, c_uint32

LOG_ROOM = 512
LINE_ROOM = 96
# The first codes of refusals and of loading, and the code at the end of a log.
OVER, LOAD_LENGTH, LOG_END = 24, 16, 35


class BattleBytes(Structure):
    _fields_ = [("bytes", c_uint8 * 384)]


class Member(Structure):
    _fields_ = [
        ("species", c_uint8),
        ("level", c_uint8),
        ("dvs", c_uint8 * 4),
        ("moves", c_uint8 * 4),
        ("pp_ups", c_uint8 * 4),
        ("exp", c_uint16 * 5),
    ]


class Team(Structure):
    _fields_ = [("members", Member * 6), ("count", c_uint8), ("reserved", c_uint8)]


class Event(Structure):
    _fields_ = [
        (name, c_uint8)
        for name in (
            "tag",
            "side",
            "species",
            "move",
            "target_side",
            "target_species",
            "place",
            "level",
            "status",
            "detail",
            "amount",
            "reserved",
        )
    ] + [("hp", c_uint16), ("max_hp", c_uint16), ("turn", c_uint16)]


class Damages(Structure):
    _fields_ = [("numbers", c_uint16 * 39), ("count", c_uint8), ("code", c_uint8)]


class Odds(Structure):
    _fields_ = [
        ("usual", Damages),
        ("critical", Damages),
        ("critical_draws", c_uint16),
        ("hit_draws", c_uint16),
        ("least", c_uint16),
        ("most", c_uint16),
        ("hits", c_uint8 * 6),
        ("reason", c_uint8),
        ("charges_first", c_uint8),
    ]


class RoomBytes(Structure):
    _fields_ = [
        ("battle", BattleBytes),
        ("number", c_uint32),
        ("log_length", c_uint16),
        ("chosen", c_uint8 * 2),
        ("forfeit", c_uint8),
        ("unused", c_uint8 * 3),
        ("log", c_uint8 * LOG_ROOM),
    ]


class ShownMember(Structure):
    _fields_ = [("hp", c_uint16), ("status", c_uint8), ("reserved", c_uint8)]


class ShownSide(Structure):
    _fields_ = [("members", ShownMember * 6), ("count", c_uint8), ("place", c_uint8), ("stages", c_uint8 * 6)] + [
        (name, c_uint8) for name in ("substitute", "confused", "light_screen", "reflect")
    ]


class SpectatorBytes(Structure):
    _fields_ = [
        ("sides", ShownSide * 2),
        ("turn", c_uint16),
        ("outcome", c_uint8),
        ("held_count", c_uint8),
        ("held", c_uint8 * 10),
    ]


class Refused(Exception):
    """A pair of choices, or a submission to a room, was refused; with the code."""


class TeamFault(Exception):
    """Teams were refused; with the side, the place and the code."""


class LoadFault(Exception):
    """Bytes are not a battle; with the code of the first test that they fail."""


class LogFault(Exception):
    """Bytes are not a log; with the code."""


class DamageFault(Exception):
    """A move has no damage; with the code."""


def within(number, most):
    """A number from 0 to `most`. ctypes would silently truncate another one to its lowest bits."""
    if not 0 <= number <= most:
        raise ValueError(f"{number} is not 0 to {most}")
    return number


def a_side(number):
    """The number of a side. For any other the library says that it has no choices."""
    if number not in (1, 2):
        raise ValueError(f"{number} is neither 1 nor 2")
    return number


def member(species, level, dvs, exp, moves):
    """A member; `moves` are pairs of a move's number and its PP ups, at most four."""
    made = Member(species=within(species, 255), level=within(level, 255), dvs=tuple(within(dv, 255) for dv in dvs))
    made.exp[:] = [within(it, 65535) for it in exp]
    for place, (number, ups) in enumerate(moves):
        made.moves[place], made.pp_ups[place] = within(number, 255), within(ups, 255)
    return made


def team(members):
    """A team. The library refuses a count above six."""
    return Team(members=tuple(members[:6]), count=min(len(members), 255))


class Library:
    """The calls of a shared library, with their types."""

    def __init__(self, path):
        self.calls = ctypes.CDLL(path)
        battle, size, sizes = POINTER(BattleBytes), c_size_t, POINTER(c_size_t)
        for name, answer, takes in (
            ("gen1_new", c_uint32, [battle, POINTER(Team), POINTER(Team), c_uint8 * 10, c_uint8, c_uint16]),
            ("gen1_load", c_uint8, [battle, ctypes.c_char_p, size]),
            ("gen1_choices", c_uint8, [battle, c_uint8, c_uint8 * 9]),
            ("gen1_update", c_uint8, [battle, c_uint8, c_uint8, POINTER(c_uint8), size, sizes]),
            ("gen1_result", c_uint8, [battle]),
            ("gen1_next_event", c_uint8, [ctypes.c_char_p, size, sizes, POINTER(Event)]),
            ("gen1_event_bytes", c_uint8, [POINTER(Event), c_uint8 * 10, sizes]),
            ("gen1_next_line", c_uint8, [ctypes.c_char_p, size, sizes, POINTER(c_char), size, sizes]),
            ("gen1_damage", c_uint8, [battle, c_uint8, c_uint8, c_bool, c_uint16 * 39]),
            ("gen1_update_offered", c_uint8, [battle, c_uint8, c_uint8, POINTER(c_uint8), size, sizes]),
            ("gen1_update_offered_silent", c_uint8, [battle, c_uint8, c_uint8]),
            ("gen1_update_silent", c_uint8, [battle, c_uint8, c_uint8]),
            ("gen1_odds_now", c_uint8, [battle, c_uint8, c_uint8, POINTER(Odds)]),
            ("gen1_odds_between", c_uint32, [POINTER(Member), POINTER(Member), c_uint8, POINTER(Odds)]),
            ("gen1_member_stats", c_uint8, [POINTER(Member), c_uint16 * 5]),
            ("gen1_takes_hit_test", c_uint8, [c_uint8]),
            ("gen1_room_begin", None, [POINTER(RoomBytes)]),
            ("gen1_room_choices", c_uint8, [POINTER(RoomBytes), c_uint8, c_uint8 * 9]),
            ("gen1_room_submit", c_uint8, [POINTER(RoomBytes), c_uint8, c_uint32, c_uint8]),
            ("gen1_spectator_begin", c_uint32, [POINTER(SpectatorBytes), POINTER(Team), POINTER(Team)]),
            ("gen1_spectator_feed", c_uint8, [POINTER(SpectatorBytes), ctypes.c_char_p, size]),
        ):
            call = getattr(self.calls, name)
            call.restype, call.argtypes = answer, takes

    def battle(self, one, two, seed, rules=0, limit=1000):
        """A battle of two teams."""
        made, numbers = Battle(self), (c_uint8 * 10)(*[within(it, 255) for it in seed])
        terms = within(rules, 255), within(limit, 65535)
        fault = self.calls.gen1_new(byref(made.held), byref(one), byref(two), numbers, *terms)
        if fault:
            raise TeamFault(fault >> 16, fault >> 8 & 0xFF, fault & 0xFF)
        return made

    def load(self, given):
        """The battle of these bytes."""
        made = Battle(self)
        test = self.calls.gen1_load(byref(made.held), given, len(given))
        if test:
            raise LoadFault(test)
        return made

    def lines(self, log):
        """The lines of a log, as bytes."""
        at, length, text = c_size_t(0), c_size_t(0), ctypes.create_string_buffer(LINE_ROOM)
        lines = []
        while True:
            code = self.calls.gen1_next_line(log, len(log), byref(at), text, LINE_ROOM, byref(length))
            if code == 0:
                lines.append(text.raw[: length.value])
            elif code == LOG_END:
                return b"".join(lines)
            else:
                raise LogFault(code)

    def events(self, log):
        """The events of a log."""
        at, events = c_size_t(0), []
        while True:
            event = Event()
            code = self.calls.gen1_next_event(log, len(log), byref(at), byref(event))
            if code == 0:
                events.append(event)
            elif code == LOG_END:
                return events
            else:
                raise LogFault(code)

    def event_bytes(self, event):
        """The bytes that an event has in a log."""
        code, length = (c_uint8 * 10)(), c_size_t(0)
        fault = self.calls.gen1_event_bytes(byref(event), code, byref(length))
        if fault:
            raise LogFault(fault)
        return bytes(code[: length.value])


class Battle:
    """A battle, which consists of its bytes."""

    def __init__(self, library):
        self.library, self.calls, self.held = library, library.calls, BattleBytes()

    def __copy__(self):
        made = Battle(self.library)
        made.held.bytes[:] = self.held.bytes
        return made

    @property
    def bytes(self):
        return bytes(self.held.bytes)

    def choices(self, side):
        """The choices that a side, 1 or 2, is offered."""
        choices = (c_uint8 * 9)()
        count = self.calls.gen1_choices(byref(self.held), a_side(side), choices)
        return list(choices[:count])

    def update(self, one, two):
        """Updates the battle with a choice of each side, and returns the log."""
        log, length = (c_uint8 * LOG_ROOM)(), c_size_t(0)
        refused = self.calls.gen1_update(
            byref(self.held), within(one, 255), within(two, 255), log, LOG_ROOM, byref(length)
        )
        if refused:
            raise Refused(refused)
        return bytes(log[: length.value])

    def result(self):
        """The outcome, and what is asked of each side."""
        result = self.calls.gen1_result(byref(self.held))
        return result & 7, result >> 3 & 3, result >> 5 & 3

    def damage(self, side, number, critical=False):
        """The damage of a side's move at each factor."""
        damages = (c_uint16 * 39)()
        code = self.calls.gen1_damage(byref(self.held), within(side, 255), within(number, 255), critical, damages)
        if code:
            raise DamageFault(code)
        return list(damages)

    def odds(self, side, number):
        """The odds of a side's move."""
        odds = Odds()
        code = self.calls.gen1_odds_now(byref(self.held), within(side, 255), within(number, 255), byref(odds))
        if code:
            raise DamageFault(code)
        return odds


class Room:
    """A room of two players, made of a battle."""

    def __init__(self, battle):
        self.calls, self.held = battle.calls, RoomBytes(battle=battle.held)
        self.calls.gen1_room_begin(byref(self.held))

    @property
    def log(self):
        """The log of the last pair that ended; before the first, of the battle's start."""
        return bytes(self.held.log[: self.held.log_length])

    def choices(self, side):
        """The choices that a side, 1 or 2, may submit."""
        choices = (c_uint8 * 9)()
        count = self.calls.gen1_room_choices(byref(self.held), a_side(side), choices)
        return list(choices[:count])

    def submit(self, side, number, choice):
        """Submits a side's choice for the pair with this number."""
        refused = self.calls.gen1_room_submit(
            byref(self.held), within(side, 255), within(number, 2**32 - 1), within(choice, 255)
        )
        if refused:
            raise Refused(refused)


class Spectator:
    """What a spectator knows of a battle of two teams from its logs."""

    def __init__(self, library, one, two):
        self.calls, self.held = library.calls, SpectatorBytes()
        fault = self.calls.gen1_spectator_begin(byref(self.held), byref(one), byref(two))
        if fault:
            raise TeamFault(fault >> 16, fault >> 8 & 0xFF, fault & 0xFF)

    def feed(self, log):
        """Reads the next bytes of the log, in pieces of any size."""
        fault = self.calls.gen1_spectator_feed(byref(self.held), log, len(log))
        if fault:
            raise LogFault(fault)
