"""What the log makes public, next to the state of each recorded battle: the fold of crates/gen1_player/specs/Public.antt. And this fold
over the log that is reported to each side (Telling.antt), next to the fold over the whole log: it differs in the order of the foe's
members, and in their HP where it is reported as the bar or in hundredths.
"""

from collections import Counter
from itertools import chain

from definitions.machine import events_of
from definitions.words import unwrapped

SPECS = "Rattle.gen1_player.specs.Public"
TELLING = "Rattle.gen1_player.specs.Telling"
LAYOUT = "Rattle.gen1_machine.specs.Layout"
STAGES = ("attack", "defense", "speed", "special", "accuracy", "evasion")
# The conditions of a state in the order of its bits; those that no event announces are None.
CONDITIONS = (
    "bide",
    None,
    None,
    None,
    "charging",
    "invulnerable",
    "confused",
    "mist",
    "focus_energy",
    "substitute",
    "recharging",
    "rage",
    "seeded",
    "toxic",
    "light_screen",
    "reflect",
    "disabled",
)
STATUSES = ("Healthy", "Asleep", "Poisoned", "Burned", "Frozen", "Paralysed")
STRUGGLE = 165
# Trapping moves, Thrash and Petal Dance: of these fewer uses may be counted than were made.
MAY_GO_ON = {20, 35, 37, 80, 83, 128}


class Players:
    """The fold, and the parts of a state with which it is compared."""

    def __init__(self, machine):
        self.machine = machine
        compiler, library = machine.compiler, machine.library

        def function(module, name):
            place = compiler.reference(library.module(module).own(name))
            compiler.make_waiting()
            return compiler.space[place]

        self.hears, self.first = function(SPECS, "hears"), function(SPECS, "first_public")()
        self.bits, self.outcome_byte = function(LAYOUT, "condition_bits"), function(LAYOUT, "outcome_byte")
        self.number_of = function("Rattle.gen1_tables.specs.Types", "number_of")
        self.told, self.meets = function(TELLING, "told"), function(TELLING, "meets")

    def fault(self, battle, updates):
        """The first difference in a battle, after any of its updates; None where there is none."""
        public, lost, sleepers = self.first, Counter(), Sleepers()
        players = [Told(self, side, pixels) for side, pixels in ((1, 0), (2, 1), (1, 2))]
        for number, (before, stepped) in enumerate(updates):
            for event in events_of(stepped.answer):
                public = self.hears(event, public)
                sleepers.hear(event)
                for player in players:
                    player.hear(event)
            state = stepped.state
            lost.update(self.lost(before.field, state.field))
            uses, slept = self.uses(state.field, public, lost), self.sleeps(state.field, public, sleepers, battle.rules)
            for what, told, held in chain(self.parts(state.field, public), uses, slept):
                if told != held:
                    return f"update {number}, {what}: {told} is public, and the state has {held}"
            for player in players:
                if player.public != player.due(public):
                    return f"update {number}: side {player.teller.side} is told {player.public}, and is due {player.due(public)}"
        return None

    def lost(self, before, after):
        """The PP that each slot lost in an update, where 63 follow 0."""
        for (slot, old), (_, new) in zip(self.slots(before), self.slots(after)):
            yield from [slot] * ((old.pp - new.pp) % 64)

    def slots(self, field):
        for name in ("one", "two"):
            for place, member in enumerate(getattr(field, name).members):
                yield from (((name, place, slot), move) for slot, move in enumerate(member.moves))

    def uses(self, field, public, lost):
        """The uses that were counted of each move, with the PP that it lost."""
        for slot, move in self.slots(field):
            seen = getattr(public, slot[0]).members[slot[1]]
            counted = sum(it.uses for it in seen.moves if it.id == move.id)
            spent = min(255, lost[slot])
            if move.id in MAY_GO_ON:
                spent = max(min(spent, counted), min(spent, 1))
            yield f"side {slot[0]}, place {slot[1] + 1}, uses of {move.id}", counted, spent

    def sleeps(self, field, public, sleepers, rules):
        """How each member fell asleep: by whose move was used last before. Under the sleep clause its mark says the same."""
        for name in ("one", "two"):
            for place, member in enumerate(getattr(field, name).members, 1):
                by = getattr(public, name).members[place - 1].asleep_by
                if member.status[0] != "Status.Asleep":
                    yield f"side {name}, place {place}, awake", by in (0, 3), True
                    yield f"side {name}, place {place}, turns awake", getattr(public, name).members[place - 1].slept, 0
                    continue
                yield f"side {name}, place {place}, asleep by", by, sleepers.by[name, place]
                yield f"side {name}, place {place}, mark", by == 1 and rules % 2 == 1, member.status[2]
                # A sleep by Rest has a count of 2, and one by a move of the foe 1 to 7.
                whole = getattr(public, name).members[place - 1].slept + member.status[1]
                yield f"side {name}, place {place}, turns", whole == 2 if by == 2 else whole <= 7, True

    def parts(self, field, public):
        """Each part of what is public, with the state's."""
        yield "turn", public.turn, field.turn
        yield "outcome", public.outcome, self.outcome_byte(field.outcome)
        for name in ("one", "two"):
            party, side = getattr(field, name), getattr(public, name)
            for place, member in enumerate(party.members, 1):
                seen = side.members[place - 1]
                if seen.species:
                    yield from self.member_parts(f"side {name}, place {place}", member, seen)
            yield f"side {name}, place", side.place, party.active.place
            if party.active.place:
                yield from self.active_parts(f"side {name}", party, side)

    def member_parts(self, where, member, seen):
        for field in ("species", "level", "hp", "max"):
            yield f"{where}, {field}", getattr(seen, field), getattr(member, field)
        yield f"{where}, status", seen.status, STATUSES.index(member.status[0].removeprefix("Status."))
        known = {0, STRUGGLE, *(move.id for move in member.moves)}
        yield f"{where}, moves", {move.id for move in seen.moves} - known, set()

    def active_parts(self, where, party, side):
        active = party.active
        for stage in STAGES:
            yield f"{where}, stage of {stage}", getattr(side.stages, stage), getattr(active.stages, stage)
        types = tuple(map(self.number_of, (active.first_type, active.second_type)))
        yield f"{where}, types", (side.first_type, side.second_type), types
        for name, bit in zip(CONDITIONS, self.bits(active.conditions)):
            # No event says whether a member exploded, which ends Leech Seed.
            if name and (name != "seeded" or party.members[active.place - 1].hp):
                yield f"{where}, {name}", getattr(side if name == "invulnerable" else side.announced, name), int(bit)
        # Leech Seed raises the counter without an event once poison took the last HP.
        if party.members[active.place - 1].hp:
            yield f"{where}, counter of bad poison", side.announced.toxic_count, unwrapped(
                active.conditions.bad_poison, 0
            )


class Sleepers:
    """Why members fell asleep, by the last use of a move before: 1 by a move of the foe, 2 by their own."""

    def __init__(self):
        self.places, self.mover, self.by = {}, None, {}

    def hear(self, event):
        if event[0] not in ("Event.Switch", "Event.Move", "Event.Status"):
            return
        side = "one" if event[1].side[0] == "Side.One" else "two"
        if event[0] == "Event.Switch":
            self.places[side] = event[2]
        elif event[0] == "Event.Move":
            self.mover = side
        elif event[2][0] == "Kind.Sleep":
            self.by[side, self.places[side]] = 2 if self.mover == side else 1


class Told:
    """A side that a log is reported to, and what that makes public."""

    def __init__(self, players, side, pixels):
        self.players, self.public = players, players.first
        self.teller = players.machine.record(side=side, pixels=pixels, places=(0,) * 6)

    def hear(self, event):
        """Takes in the report of the next event."""
        self.public = self.players.hears(self.players.told(event, self.teller), self.public)
        self.teller = self.players.meets(event, self.teller)

    def due(self, public):
        """What it has to know where the log makes this public."""
        foe = "two" if self.teller.side == 1 else "one"
        side, order = getattr(public, foe), [place for place in self.teller.places if place]
        members = [self.seen(side.members[place - 1]) for place in order]
        members += self.players.first.one.members[len(order) :]
        number = order.index(side.place) + 1 if side.place else 0
        return public._replace(**{foe: side._replace(place=number, members=tuple(members))})

    def seen(self, member):
        """A member of the foe with its HP as it is reported."""
        hp, most = member.hp, member.max
        if self.teller.pixels == 1:
            part = 12 * hp // (most // 4) if most > 255 else 48 * hp // most
            return member._replace(hp=max(1, part) if hp else 0, max=48)
        if self.teller.pixels == 2:
            return member._replace(hp=min(-(-100 * hp // most), 100 if hp == most else 99), max=100)
        return member
