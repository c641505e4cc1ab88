"""The abstract machine in Python: begins and plays battles by the definitions, and compares them with the recordings."""

import re
import sys

from definitions.compiling import Compiler, Unmatched
from definitions.modules import Library

RECURSION = 100_000
NO_CHOICE = ("Choice.Move", 255)
# What is raised where a definition has no value.
FAULTS = (Unmatched, IndexError, TypeError, AttributeError, RecursionError, OverflowError)
REFUSED = re.compile(r"error: pair (\d+) refused (\d+)\n")


class Machine:
    """The definitions that play a battle and report it."""

    def __init__(self, library=None, branches=None):
        sys.setrecursionlimit(RECURSION)
        self.library = library or Library()
        self.compiler = Compiler(self.library, branches)
        if branches is not None:
            branches.attach(self.compiler)
        # The module that defines the report of a battle names all definitions that play one.
        self.reports = self.library.where("reports_of", "proofs")
        self.crates = self.library.below(self.reports.path.split(".")[1])
        self.step, self.report = self.function("step", 3), self.function("report", 3)
        self.first_view, self.sees_all = self.function("first_view", 2), self.function("sees_all", 2)
        self.first_state, self.team_of = self.function("first_state", 4), self.function("team_of", 1)
        self.rules_of, self.choice_at = self.function("rules_of", 1), self.function("choice_at", 1)
        self.lines = self.function("lines", 1)
        self.numbers = {what: self.numbered(f"{what}_names") for what in ("species", "move")}

    def definition(self, name):
        """A definition of the machine by its name: the one that the reports name, or else that of a crate below them."""
        found, _ = self.reports.look_up(name)
        return found or self.library.where(name, "specs", self.crates).own(name)

    def function(self, name, count):
        """A definition as a function of Python that takes all its arguments at once."""
        definition = self.definition(name)
        if self.compiler.arity(definition) != count:
            raise TypeError(f"{name} takes {self.compiler.arity(definition)} arguments, not {count}")
        place, space = self.compiler.reference(definition), self.compiler.space
        self.compiler.make_waiting()
        return lambda *given: space[place](*given)

    def numbered(self, name):
        """The number of each name in a list of names."""
        names = self.compiler.value(self.definition(name))
        return {bytes(each).decode(): number for number, each in enumerate(names, 1)}

    def record(self, **fields):
        maker, order = self.compiler.records.maker(fields)
        return self.compiler.space[maker](*(fields[name] for name in order))

    def sheet(self, member):
        moves = tuple((self.numbers["move"][name], ups) for name, ups in member["moves"])
        return self.record(
            species=self.numbers["species"][member["species"]],
            level=member["level"],
            dvs=tuple(member["dvs"]),
            exp=tuple(member["exp"]),
            moves=moves,
        )

    def begin(self, battle):
        """The state before a recorded battle's first update."""
        terms = self.record(rules=self.rules_of(battle.rules), limit=battle.limit)
        one, two = (self.team_of(tuple(map(self.sheet, battle.given[side]))) for side in ("one", "two"))
        return self.first_state(terms, one, two, tuple(battle.given["seed"]))

    def updates(self, battle):
        """The updates of a recorded battle: the state before each, and what the step makes of it."""
        state = self.begin(battle)
        for pair in battle.pairs:
            stepped = self.step(state, *map(self.choice, pair))
            yield state, stepped
            state = stepped.state

    def first_seen(self, state):
        """What a spectator knows before the first update."""
        return self.first_view(state.field.one.members, state.field.two.members)

    def choice(self, byte):
        """The choice of a byte; for a byte that is not a choice, a slot that no member has, which is never offered."""
        found = self.choice_at(byte)
        return found[1] if found[0] == "Some" else NO_CHOICE

    def reported(self, state, view, stepped):
        """The report of an update, and the view after it."""
        after = self.sees_all(events_of(stepped.answer), view)
        return self.report(state, stepped, after), after


def events_of(answer):
    """The events that an update wrote."""
    return answer[1] if answer[0] == "Answer.Accepted" else ()


def refusal_number(answer):
    """The number of the refusal of a pair, as the program prints it; 0 where it is accepted."""
    if answer[0] == "Answer.Accepted":
        return 0
    why = answer[1]
    return 1 if why[0] == "Refusal.Over" else {"Side.One": 2, "Side.Two": 3}[why[1][0]]


def recorded_parts(update):
    """The recorded parts of an update, in the order of `report`."""
    after = bytes.fromhex(update["bytes"])
    one, two = (bytes([len(codes), *codes]) for codes in update["offered"])
    return [
        ("refusal", bytes([update["refused"] or 0])),
        ("result", bytes(update["result"] or [after[at] for at in (16, 17, 18)])),
        ("choices offered to side 1", one),
        ("choices offered to side 2", two),
        ("draws", update["draws"].to_bytes(2, "little")),
        ("log", bytes.fromhex(update["log"])),
        ("bytes", after),
        ("view", b"\1"),
    ]


def recorded_report(update):
    """What `report` must return for a recorded update."""
    return tuple(b"".join(part for _, part in recorded_parts(update)))


def difference(update, made):
    """The first part of a report that differs from the recorded one, in words."""
    at = 0
    for name, part in recorded_parts(update):
        if made[at : at + len(part)] != tuple(part):
            return f"{name}: {part.hex() or 'nothing'} was recorded, not {bytes(made[at:at + len(part)]).hex() or 'nothing'}"
        at += len(part)
    return f"{len(made) - at} bytes too many"


def play_trace(machine, battle, updates):
    """The first difference of a battle with its updates; None where all are as recorded."""
    for number, (update, (state, stepped)) in enumerate(zip(battle.line["updates"], updates)):
        view = view if number else machine.first_seen(state)
        made, view = machine.reported(state, view, stepped)
        if made != recorded_report(update):
            return f"update {number}, {difference(update, made)}"
    return None


def play_run(machine, battle, updates):
    """The first difference between the recorded output and the lines of the definitions; None where there is none."""
    left, refused = battle.line["stdout"].encode(), REFUSED.fullmatch(battle.line["stderr"])
    for number, (_, stepped) in enumerate(updates):
        made = refusal_number(stepped.answer)
        expected = int(refused[2]) if refused and int(refused[1]) == number else 0
        if made != expected:
            return f"pair {number}, refusal: {expected} was recorded, not {made}"
        if made:
            return f"pair {number}: {left!r} was written behind the last line" if left else None
        lines = bytes(machine.lines(events_of(stepped.answer)))
        if not left.startswith(lines):
            return f"pair {number}, lines: {left[:len(lines)]!r} was recorded, not {lines!r}"
        left = left[len(lines) :]
    return f"behind the last pair: {left!r} was recorded" if left or refused else None


def play(machine, battle, updates):
    """The first difference between a recorded battle and its updates by the definitions; None where there is none."""
    try:
        return (play_trace if battle.traced else play_run)(machine, battle, updates)
    except FAULTS as fault:
        return f"the definitions give no value: {fault!r}"
