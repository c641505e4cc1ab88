"""Hosts: against a host on paper, what each side receives while the foe's choices differ, endings, and bytes."""

import copy
import dataclasses
import json
import pickle
import random
import threading
from pathlib import Path

import pytest
from conftest import BIG, NO_NUMBERS, random_team
from gen1 import (
    BadArgument,
    BadBytes,
    BadHost,
    BadType,
    Battle,
    Choice,
    Error,
    Host,
    HostFault,
    HostRefusal,
    HostRefused,
    Member,
    Message,
    Notice,
    Outcome,
    Player,
    Refused,
    Request,
    Row,
    RowKind,
    Side,
    SwitchEvent,
    Team,
    TieEvent,
    WinEvent,
    events,
)
from gen1._structs import OwnSideStruct

TAUROS = Team([Member("Tauros", ["Body Slam", "Hyper Beam"]), Member("Starmie", ["Surf", "Recover"])])
SCHEMA = Path(__file__).resolve().parents[3] / "docs" / "HOST.schema.json"
SEED = bytes([1, 36, 255, 7, 31, 100, 179, 254, 127, 10])


def a_host(**options):
    return Host(Battle(TAUROS, TAUROS, SEED), **options)


def code_of(call):
    """The code of the refusal of a call that is to change nothing; None if it is not refused."""
    try:
        call()
    except HostRefused as fault:
        return fault.code
    return None


class OnPaper:
    """A host by docs/MECHANICS.md, "Hosts", for rows of all kinds, without the library's hosts, rooms and tellers: it plays the battle only."""

    def __init__(self, battle, exact_hp, may_cancel, late_forfeits):
        self.battle, self.options, self.exact = battle, (may_cancel, late_forfeits), exact_hp
        self.number, self.draw, self.end = 0, None, None
        # The foe's places in the order in which its members appeared.
        self.appeared = {side: [] for side in Side}
        self.begin(events(battle.update(0, 0).log))

    def begin(self, told):
        """The pair that follows these events. A side that is asked nothing passes."""
        self.told = {side: [self.tell(side, it) for it in told] for side in Side}
        asked = zip(Side, self.battle.result.requests)
        self.chosen = {side: 0 if request is Request.NOTHING else None for side, request in asked}
        self.draw = None

    def tell(self, side, event):
        """An event as it is reported to a side."""
        if getattr(event, "who", None) is None or event.who.side is side or not hasattr(event, "health"):
            return event
        made, hp = event, event.health
        if isinstance(event, SwitchEvent):
            order = self.appeared[side]
            order += [] if event.place in order else [event.place]
            made = dataclasses.replace(made, place=1 + order.index(event.place))
        if not self.exact:
            part = 12 * hp.hp // (hp.max_hp // 4) if hp.max_hp > 255 else 48 * hp.hp // hp.max_hp
            pixels = max(part, hp.hp > 0)
            made = dataclasses.replace(made, health=dataclasses.replace(hp, hp=pixels, max_hp=48))
        return made

    def told_all(self):
        """The events as reported to the audience: each event of a side is as its foe receives it."""
        pairs = zip(self.told[Side.ONE], self.told[Side.TWO])
        return [
            two if getattr(two, "who", None) is not None and two.who.side is Side.ONE else one for one, two in pairs
        ]

    def closes(self, event, outcome):
        self.told, self.end, self.number = dict.fromkeys(Side, [event]), outcome, self.number + 1
        return True

    def outcome(self):
        return self.end or self.battle.result.outcome

    def reply(self, row):
        """Whether a pair has ended, or the refusal."""
        side, passes = row.side, self.battle.result.requests[row.side - 1] is Request.NOTHING
        if self.outcome() is not Outcome.ONGOING:
            return HostRefusal.OVER
        if row.kind is RowKind.FORFEIT:
            return self.closes(WinEvent(side.foe), Outcome(side.foe))
        if row.kind is RowKind.OFFER_DRAW:
            if self.draw is side.foe:
                return self.closes(TieEvent(), Outcome.TIE)
            self.draw = side
            return False
        if row.kind is RowKind.CANCEL and not self.options[0]:
            return HostRefusal.NO_CANCEL
        if row.number != self.number:
            return HostRefusal.STALE
        if row.kind is RowKind.CANCEL:
            if self.chosen[side] is None or passes:
                return HostRefusal.NOTHING_CHOSEN
            self.chosen[side] = None
            return False
        if self.chosen[side] is not None:
            return HostRefusal.CHOSEN
        offered = self.battle.choices(side)
        if row.kind is RowKind.SUBMIT:
            return self.chooses(row, row.choice) if row.choice in offered else HostRefusal.NOT_OFFERED
        return self.closes(WinEvent(side.foe), Outcome(side.foe)) if self.options[1] else self.chooses(row, offered[0])

    def chooses(self, row, choice):
        if row.numbers is not None:
            self.battle.reseed(row.numbers)
        self.chosen[row.side] = choice
        if None in self.chosen.values():
            return False
        told = events(self.battle.update(self.chosen[Side.ONE], self.chosen[Side.TWO]).log)
        self.number += 1
        self.begin(told)
        return True

    def is_shown_by(self, host):
        outcome, notice = self.outcome(), host.notice()
        assert (host.number, host.result.outcome, host.battle) == (self.number, outcome, self.battle)
        assert (notice.number, notice.outcome, notice.draw) == (self.number, outcome, self.draw)
        assert notice.events == tuple(self.told[Side.ONE] if self.end else self.told_all())
        for side, told in self.told.items():
            message, own = host.message(side), bytearray(bytes(self.battle.own_side(side)))
            if self.end:
                own[OwnSideStruct.request.offset], own[OwnSideStruct.outcome.offset] = 0, outcome
            assert (message.number, message.events, bytes(message.own)) == (self.number, tuple(told), own)
            assert (message.outcome, message.draw) == (outcome, self.draw)
            is_over = outcome is not Outcome.ONGOING
            assert message.choices == (() if is_over else self.battle.choices(side))
            assert host.awaits(side) == (self.chosen[side] is None and not is_over)


def some_row(dice, paper, late):
    """A row of any kind; few offers, and a forfeit only late."""
    side, number = Side(1 + dice.randrange(2)), paper.number + (dice.random() < 0.05)
    numbers = dice.choice([None, dice.randbytes(10)])
    byte = dice.choice([0, 0x12, 255, *paper.battle.choices(side) * 4])
    submit, expire = Row.submit(side, number, byte, numbers), Row.expire(side, number, numbers)
    rows = [submit, Row.cancel(side, number), expire, Row.offer_draw(side), Row.forfeit(side)]
    return dice.choices(rows, (60, 10, 1 if late else 3, 4, paper.number > 30))[0]


@pytest.mark.parametrize("seed", range(20))
def test_a_host_is_that_on_paper(seed):
    """5,000 rows of all kinds: replies, messages, notices and results. A refused row changes nothing, and the rows lead there again."""
    dice, count = random.Random(seed), 0
    while count < 5000:
        exact, may_cancel, late = (dice.random() < 0.5 for _ in range(3))
        teams = [random_team(dice), random_team(dice)]
        start = Battle(*teams, dice.randbytes(10), limit=40)
        host, again = (Host(start, exact_hp=exact, may_cancel=may_cancel, late_forfeits=late) for _ in range(2))
        paper, players = OnPaper(start, exact, may_cancel, late), [
            Player(side, team) for side, team in zip(Side, teams)
        ]
        reply: object = True
        while reply is not HostRefusal.OVER:
            paper.is_shown_by(host)
            for player in players if reply is True else ():
                player.receive(host.message(player.side))
            row, before, count = some_row(dice, paper, late), bytes(host), count + 1
            try:
                reply = host.apply(row)
                again.apply(Row.from_bytes(bytes(row)))
            except HostRefused as fault:
                reply = fault.code
                assert bytes(host) == before and (fault.current, fault.side) == (paper.number, row.side)
            assert reply == paper.reply(row)
        assert again == host
        assert all(it.own == host.message(it.side).own and it.outcome is paper.outcome() for it in players)


@pytest.mark.parametrize("seed", range(20))
def test_a_side_receives_the_same_whatever_the_foe_does(seed):
    """Two hosts whose side 2 differs in its team, choices and offers before the pair ends; side 1 receives the same bytes."""
    dice = random.Random(seed)
    foes = [
        Member("Tauros", ["Body Slam", move], pp_ups=[3, ups]) for move, ups in (("Blizzard", 0), ("Earthquake", 3))
    ]
    hosts = [Host(Battle(TAUROS, [foe, spare], SEED)) for foe, spare in zip(foes, random_team(dice).members * 2)]
    pair = 0
    while all(host.awaits(1) and Choice.MOVE_1 in host.message(2).choices for host in hosts):
        numbers, mine = dice.randbytes(10), dice.choice(hosts[0].message(1).choices)
        for at, host in enumerate(hosts):
            if at:
                assert code_of(lambda: host.submit(2, pair, 0x14)) is HostRefusal.NOT_OFFERED
                host.submit(2, pair, Choice.MOVE_1, numbers)
            assert host.submit(1, pair, mine, numbers) == bool(at)
            if not at:
                host.submit(2, pair, Choice.MOVE_1, numbers)
        pair += 1
        received = [[bytes(host.message(1)), bytes(host.notice())] for host in hosts]
        assert received[0] == received[1]
    assert pair > 0


def test_refusals_in_their_order():
    for host, cancel in (a_host(), HostRefusal.NO_CANCEL), (a_host(may_cancel=True), HostRefusal.NOTHING_CHOSEN):
        assert code_of(lambda: host.cancel(1, 0)) is cancel
        assert code_of(lambda: host.submit(1, 5, 0x11)) is HostRefusal.STALE
        assert code_of(lambda: host.submit(1, 0, 0x14)) is HostRefusal.NOT_OFFERED
        host.submit(1, 0, 0x11)
        assert code_of(lambda: host.submit(1, 0, 0x14)) is HostRefusal.CHOSEN
        assert code_of(lambda: host.expire(1, 0)) is HostRefusal.CHOSEN
        assert code_of(lambda: host.expire(1, 1)) is HostRefusal.STALE
        if cancel is HostRefusal.NOTHING_CHOSEN:
            assert host.cancel(1, 0) is False and host.awaits(1)
        host.forfeit(1)
        calls = (host.forfeit, host.offer_draw, *(lambda side, it=it: it(side, 0) for it in (host.cancel, host.expire)))
        assert {code_of(lambda: call(2)) for call in calls} == {HostRefusal.OVER}
    with pytest.raises(Refused, match="side 1's choice is not offered: move 4; it can choose move 1, move 2, switch 2"):
        a_host().submit(1, 0, Choice.MOVE_4)


@pytest.mark.parametrize("end", ["forfeit", "draw", "late"])
def test_endings(end):
    host = a_host(late_forfeits=end == "late")
    players = {side: Player(side, TAUROS) for side in Side}
    for side in Side:
        players[side].receive(host.message(side))
    host.submit(1, 0, 0x11)
    if end == "draw":
        assert host.offer_draw(1) is False and host.offer_draw(1) is False and host.message(2).draw is Side.ONE
        assert host.offer_draw(2) is True
    else:
        assert host.forfeit(2) if end == "forfeit" else host.expire(2, 0)
    outcome = Outcome.TIE if end == "draw" else Outcome.WIN_ONE
    event = TieEvent() if end == "draw" else WinEvent(Side.ONE)
    assert host.is_closed and host.number == 1 and host.result.outcome is outcome
    assert host.result.requests == (Request.NOTHING, Request.NOTHING)
    for side in Side:
        message = host.message(side)
        players[side].receive(message)
        assert message.events == host.notice().events == (event,) and message.choices == ()
        assert message.outcome is players[side].outcome is host.notice().outcome is outcome
        assert not host.awaits(side)


def test_time_that_has_run_out_makes_the_first_choice():
    host = a_host()
    host.submit(1, 0, 0x12, SEED)
    assert host.expire(2, 0, SEED)
    other = a_host()
    other.submit(1, 0, 0x12, SEED)
    other.submit(2, 0, other.message(2).choices[0], SEED)
    assert host == other


def test_numbers_are_fresh_unless_given():
    ended = []
    for numbers in ("fresh", "fresh", None, None):
        host = a_host()
        host.submit(1, 0, 0x11, numbers)
        host.submit(2, 0, 0x11, numbers)
        ended.append(host.battle.bytes)
    assert len(set(ended)) == 3
    assert (
        Row.submit(1, 0, 0x11).numbers != Row.submit(1, 0, 0x11).numbers and len(Row.expire(2, 0).numbers or b"") == 10
    )


def test_bytes_of_rows():
    row = Row.submit(2, 258, Choice.SWITCH_3, SEED)
    assert bytes(row) == bytes([1, 2, 0x23, 1, 2, 1, 0, 0]) + SEED
    rows = [row, Row.submit(1, 0, 0, None), Row.cancel(1, 7), Row.expire(2, 9), Row.offer_draw(1), Row.forfeit(2)]
    for it in rows:
        assert Row.from_bytes(bytes(it)) == it == pickle.loads(pickle.dumps(it)) and len(bytes(it)) == 18
    assert [it.kind for it in rows[1:]] == list(RowKind)
    dice = random.Random(3)
    for _ in range(20_000):
        data = bytearray(bytes(dice.choice(rows)))
        data[dice.randrange(18)] = dice.randrange(256)
        try:
            made = Row.from_bytes(data)
        except BadArgument as fault:
            assert "data is not a row" in str(fault) or "a row of kind" in str(fault)
        else:
            assert bytes(made) == data
    for wrong in (b"", bytes(17), bytes(19)):
        with pytest.raises(BadArgument, match="18 bytes of a row"):
            Row.from_bytes(wrong)
    for value in NO_NUMBERS:
        with pytest.raises((BadType, BadArgument)):
            Row.submit(1, value, 0x11)
        with pytest.raises(BadType):
            Row.cancel(value, 0)
    for value in (-1, 1 << 32):
        with pytest.raises(BadArgument):
            Row.cancel(1, value)
    for value in BIG:
        with pytest.raises(BadArgument):
            Row.submit(1, 0, value)
    with pytest.raises(BadArgument, match="seed must be 10 bytes"):
        Row.submit(1, 0, 0x11, bytes(9))


@pytest.mark.parametrize("seed", range(20))
def test_a_host_from_its_bytes_goes_on(seed):
    dice = random.Random(seed)
    battle = Battle(random_team(dice), random_team(dice), dice.randbytes(10))
    host = Host(battle, exact_hp=seed % 2 == 0, may_cancel=seed % 3 == 0, late_forfeits=seed % 5 == 0)
    for _ in range(120):
        loaded = Host.from_bytes(bytes(host))
        assert loaded == host == pickle.loads(pickle.dumps(host)) and len(bytes(host)) == 928
        side, number = Side(1 + dice.randrange(2)), host.number
        choices = host.message(side).choices or (Choice.PASS,)
        rows = [Row.offer_draw(side), Row.cancel(side, number), Row.expire(side, number), Row.forfeit(side)]
        row = Row.submit(side, number, dice.choice(choices)) if dice.randrange(12) else rows[dice.randrange(len(rows))]
        if row.kind in (RowKind.FORFEIT, RowKind.EXPIRE) and number < 15:
            continue
        assert code_of(lambda: loaded.apply(row)) is code_of(lambda: host.apply(row))
        assert [loaded.message(it) for it in Side] == [host.message(it) for it in Side]
        assert loaded.notice() == host.notice()


# The offsets of a gen1_host, what is put there, and the fault. At turn 1 of 1,000, with one member on each bench, 1,002 of 1,011 pairs may
# come.
DAMAGES = (
    ({384: 10}, HostFault.NUMBER),
    ({387: 255}, HostFault.NUMBER),
    ({389: 3}, HostFault.LOG),
    ({396: 29}, HostFault.LOG),
    ({390: 0x15}, HostFault.CHOICE_ONE),
    ({390: 0}, HostFault.CHOICE_ONE),
    ({391: 0x21}, HostFault.CHOICE_TWO),
    ({390: 0x11, 391: 0x11}, HostFault.CHOICES),
    ({908: 2}, HostFault.TELLER_ONE),
    ({910: 7}, HostFault.TELLER_ONE),
    ({911: 1}, HostFault.TELLER_ONE),
    ({918: 1, 919: 1}, HostFault.TELLER_TWO),
    ({917: 0}, HostFault.TELLER_TWO),
    ({924: 4}, HostFault.ENDING),
    ({925: 3}, HostFault.DRAW),
    ({926: 2}, HostFault.RULES),
    ({927: 2}, HostFault.RULES),
    ({392: 2}, HostFault.UNUSED),
    ({394: 1}, HostFault.UNUSED),
)


@pytest.mark.parametrize(("edits", "code"), DAMAGES)
def test_bytes_of_no_host(edits, code):
    data = bytearray(bytes(a_host()))
    for at, byte in edits.items():
        data[at] = byte
    with pytest.raises(BadHost) as fault:
        Host.from_bytes(data)
    assert fault.value.code is code and pickle.loads(pickle.dumps(fault.value)).code is code


def test_bytes_of_a_host_without_its_battle():
    data = bytearray(bytes(a_host()))
    for edits in {384: 9}, {390: 0x11}, {918: 2, 919: 1}, {924: 3}, {925: 1}:
        other = bytearray(data)
        for at, byte in edits.items():
            other[at] = byte
        assert bytes(Host.from_bytes(other)) == other
    data[0] = 9
    with pytest.raises(BadBytes):
        Host.from_bytes(data)
    for wrong in (b"", bytes(927), bytes(929)):
        with pytest.raises(BadArgument, match="928 bytes of a host"):
            Host.from_bytes(wrong)
    with pytest.raises(BadType):
        Host.from_bytes("host")


def test_bytes_of_messages():
    host, dice = a_host(), random.Random(5)
    host.submit(1, 0, 0x11)
    host.submit(2, 0, 0x21 + 1)
    for sent, length in ((host.message(1), 696), (host.message(2), 696), (host.notice(), 520)):
        kind = type(sent)
        assert len(bytes(sent)) == length
        assert kind.from_bytes(bytes(sent)) == sent == pickle.loads(pickle.dumps(sent)) == copy.deepcopy(sent)
        assert hash(kind.from_bytes(bytearray(bytes(sent)))) == hash(sent)
        for _ in range(3000):
            data = bytearray(bytes(sent))
            data[dice.randrange(length)] = dice.randrange(256)
            try:
                made = kind.from_bytes(data)
            except BadArgument as fault:
                assert "data is not a " in str(fault)
            else:
                assert made.number >= 0 and made.events is not None and made.outcome is not None and repr(made)
        for wrong in (b"", bytes(length - 1), bytes(length + 1)):
            with pytest.raises(BadArgument, match=f"data must be the {length} bytes of a "):
                kind.from_bytes(wrong)
    assert Message.from_bytes(bytes(host.message(1))) != Notice.from_bytes(bytes(host.notice()))


def test_json_of_rows_messages_and_notices():
    """The examples of docs/HOST.schema.json go in and come out; what random hosts send is as it says; what differs is refused."""
    schema, kinds = json.loads(SCHEMA.read_text()), {"row": Row, "message": Message, "notice": Notice}
    values = [(name, it) for name in kinds for it in schema["$defs"][name]["examples"]]
    for name, value in values:
        assert kinds[name].from_json(value).to_json() == value
    dice = random.Random(8)
    for seed in range(20):
        host = Host(Battle(random_team(dice), random_team(dice), seed), exact_hp=seed % 2 == 0)
        while not host.is_closed and host.number < 40:
            number, sides = host.number, [side for side in Side if host.awaits(side)]
            for side in sides:
                row = Row.submit(side, number, dice.choice(host.message(side).choices), dice.choice(("fresh", None)))
                host.apply(row)
                values.append(("row", json.loads(json.dumps(row.to_json()))))
                assert Row.from_json(values[-1][1]) == row
            for name, sent in (("message", host.message(1)), ("message", host.message(2)), ("notice", host.notice())):
                values.append((name, json.loads(json.dumps(sent.to_json()))))
                assert type(sent).from_json(values[-1][1]) == sent
    assert len(values) > 1000
    refused_json(kinds, values, dice)
    jsonschema = pytest.importorskip("jsonschema")
    validators = {it: jsonschema.Draft202012Validator({**schema, "$ref": f"#/$defs/{it}"}) for it in kinds}
    for name, value in values:
        validators[name].validate(value)


def refused_json(kinds, values, dice):
    """A value of another kind at any place, a field too few, or one too many is refused with the name of its place."""
    for _ in range(3000):
        name, value = dice.choice(values)
        changed, wrong = copy.deepcopy(value), dice.choice((-1, 1 << 32, "x", 1.5, [], {}, True, None, [[]]))
        at = changed
        key = dice.choice(list(at))
        while isinstance(at[key], (dict, list)) and at[key] and dice.random() < 0.7:
            at = at[key]
            key = dice.choice(list(at)) if isinstance(at, dict) else dice.randrange(len(at))
        if dice.random() < 0.2 and isinstance(at, dict):
            at["more"] = at.pop(key)
        elif (
            wrong == at[key]
            or (wrong is None and key in ("numbers", "draw"))
            or (wrong == [] and key in ("log", "choices"))
        ):
            continue
        else:
            at[key] = wrong
        with pytest.raises((BadArgument, BadType), match="value|choice|side|number|seed|data is not"):
            kinds[name].from_json(changed)


def test_a_lost_player_is_that_of_all_messages():
    """A side that comes back needs its stored messages, from the first on."""
    for seed in range(10):
        dice = random.Random(seed)
        team, foes = random_team(dice), random_team(dice)
        host, player, stored = Host(Battle(team, foes, seed)), Player(1, team), []
        while True:
            stored.append(bytes(host.message(1)))
            player.receive(Message.from_bytes(stored[-1]))
            if host.is_closed:
                break
            number, sides = host.number, [side for side in Side if host.awaits(side)]
            for side in sides:
                host.submit(side, number, dice.choice(host.message(side).choices))
        again = Player(1, team)
        for data in stored:
            again.receive(Message.from_bytes(data))
        assert again == player and again.outcome is host.result.outcome


def test_a_player_receives_each_message_once():
    host, player = a_host(), Player(1, TAUROS)
    player.receive(host.message(1))
    kept = player.copy()
    for wrong in (host.message(1), Message.from_bytes(bytes(host.message(1)))):
        with pytest.raises(BadArgument, match="message must be the next one"):
            player.receive(wrong)
    other = Host(Battle([Member("Mew", ["Psychic"])], TAUROS, SEED))
    with pytest.raises(BadArgument, match="own must be the side of the player's team"):
        player.receive(other.message(1))
    with pytest.raises(BadType):
        player.receive(host)
    assert player == kept


def test_wrong_arguments():
    host = a_host()
    for options in ({"exact_hp": 1}, {"may_cancel": None}, {"late_forfeits": "yes"}):
        with pytest.raises(BadType):
            a_host(**options)
    for call in (
        lambda: Host(host),
        lambda: host.apply(bytes(18)),
        lambda: host.message(None),
        lambda: host.awaits("1"),
    ):
        with pytest.raises(BadType):
            call()
    for call in (lambda: host.message(3), lambda: host.forfeit(0), lambda: host.submit(1, -1, 0x11)):
        with pytest.raises(BadArgument):
            call()
    assert host == a_host() != a_host(may_cancel=True) and isinstance(HostRefused, type(Error))


def test_many_threads():
    """Both sides submit each choice from several threads: each pair ends once."""
    host, ended = a_host(), []

    def play(side):
        for _ in range(3000):
            try:
                if host.submit(side, host.number, Choice.MOVE_1):
                    ended.append(side)
            except HostRefused:
                pass

    threads = [threading.Thread(target=play, args=(side,)) for side in (1, 1, 2, 2)]
    for it in threads:
        it.start()
    for it in threads:
        it.join()
    assert len(ended) == host.number
