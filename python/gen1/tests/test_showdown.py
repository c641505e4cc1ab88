"""gen1.showdown: recorded protocol texts, what a viewer may not know, and bad arguments."""

import json
import pickle
import random
import re
from hashlib import sha256

import pytest
from gen1 import (
    BadArgument,
    BadTeam,
    BadType,
    Battle,
    Choice,
    Host,
    LibraryMissing,
    Member,
    Move,
    Player,
    Row,
    Rules,
    Side,
    Team,
    lines,
    sample_teams,
    showdown,
)
from gen1.showdown import (
    BrokenCommitment,
    ChoiceRefused,
    EndingClauses,
    Follower,
    Formats,
    Hp,
    Lines,
    Members,
    ProtocolFault,
    Seat,
    Simulator,
    Viewer,
    agree,
    commit,
)


def is_there():
    try:
        Formats()
    except LibraryMissing:
        return False
    return True


pytestmark = pytest.mark.skipif(not is_there(), reason="libgen1_extras.so is missing: no cargo")
SAMPLES = [list(it.members) for it in sample_teams().values()]
# Moves that continue, that fail, and that hide what is left of them.
GOING_ON = [
    Move.WRAP,
    Move.CLAMP,
    Move.THRASH,
    Move.PETAL_DANCE,
    Move.RAGE,
    Move.FLY,
    Move.BIDE,
    Move.DISABLE,
    Move.TOXIC,
]
LEFT_OUT = [Move.MIMIC, Move.METRONOME, Move.MIRROR_MOVE, Move.TRANSFORM, Move.STRUGGLE]
OTHERS = [it for it in Move if it not in [*LEFT_OUT, *GOING_ON, Move.SPLASH]]
SEED = [1, 36, 255, 7, 31, 100, 179, 254, 127, 10]
# As in the tests of the program gen1, which were written from docs/PROGRAM.md.
TAUROS = "Bob|Tauros|||bodyslam,hyperbeam|||||||]Chansey||||softboiled|||||||"
MEW = "Mew||||substitute|||||||]Tauros||||bodyslam||||||50|"
BEGUN = """update
|gametype|singles
|player|p1|Alice||
|player|p2|Eve||
|teamsize|p1|2
|teamsize|p2|2
|gen|1
|tier|[Gen 1] Link battle
|
|start
|switch|p1a: Bob|Tauros|353/353
|switch|p2a: Mew|Mew|403/403
|turn|1
"""
# The example of docs/PROGRAM.md, "follow".
FOLLOWED = """|player|p1|Alice|
|player|p2|Bob|
|teamsize|p1|6
|teamsize|p2|6
|switch|p1a: Bo|Tauros|100/100
|switch|p2a: Chansey|Chansey|703/703
|turn|1
|move|p1a: Bo|Body Slam|p2a: Chansey
|-damage|p2a: Chansey|530/703
|move|p2a: Chansey|Thunder Wave|p1a: Bo
|-status|p1a: Bo|par
|turn|2
"""


def begun(teams, formatid="gen1customgame", hp=None):
    """A simulator that plays these teams, and its messages."""
    made = Simulator(hp=hp)
    made.take(">start " + json.dumps({"formatid": formatid, "seed": SEED}))
    made.take(">player p1 " + json.dumps({"name": "Alice", "team": teams[0]}))
    return made, made.take(">player p2 " + json.dumps({"name": "Eve", "team": teams[1]})).text


def hosted(teams, *, exact_hp=True, rules=Rules.NONE, hp=Hp.EXACT, **heading):
    """A host, its lines, and its seats, after the start."""
    host = Host(Battle(teams[0].team, teams[1].team, SEED, rules=rules), exact_hp=exact_hp)
    lines = Lines(("Alice", "Eve"), teams, hp=hp, **heading)
    names = zip(Side, ("Alice", "Eve"), teams, reversed(teams))
    seats = {side: Seat(side, name, own, foes=len(foe), hp=hp) for side, name, own, foe in names}
    sent(host, lines, seats)
    return host, lines, seats


def sent(host, lines, seats):
    lines.report(host)
    for side, seat in seats.items():
        seat.receive(host.message(side))


def test_members_of_a_text():
    members = Members(TAUROS)
    assert members.names == ("Bob", "Chansey") and members.nicknames == ("Bob", None) and len(members) == 2
    assert members.team[0].moves == (Move.BODY_SLAM, Move.HYPER_BEAM)
    assert members.export() == "Bob (Tauros)\n- Body Slam\n- Hyper Beam\n\nChansey\n- Soft-Boiled\n"
    assert members.packed() == TAUROS
    listed = json.dumps(members.team.to_dicts())
    for same in (Members(members.export()), Members(members.team, ["Bob", None]), Members(listed, ["Bob", None])):
        assert same == members and hash(same) == hash(members)
    assert pickle.loads(pickle.dumps(members)) == members != Members(members.team)
    assert repr(members) == "<Members: Bob, Chansey>"


def test_a_bad_team_is_named():
    for text, why in (
        (
            "Taurus||||bodyslam|||||||",
            'member 1, field 1: expected the name of a species.*"Taurus"; did you mean "Tauros"',
        ),
        ("Tauros\n- Body Slum", 'line 2: .*did you mean "Body Slam"'),
        ("[]", "no member"),
        ("[1", "EOF"),
    ):
        with pytest.raises(BadTeam, match=why):
            Members(text)
    with pytest.raises(BadTeam, match="expected 2 nicknames, one for each member, found 1"):
        Members(TAUROS, ["Bob"])
    with pytest.raises(BadTeam, match="three PP ups"):
        Members([Member("Tauros", ["Body Slam"], pp_ups=[0])]).packed()
    for wrong in (1, None, b"Tauros"):
        with pytest.raises(BadType):
            Members(wrong)
    with pytest.raises(BadType, match=r"nicknames\[0\]"):
        Members(TAUROS, [1, None])


def test_formats_check_teams():
    formats = Formats()
    assert {"gen1ou", "gen1customgame"} <= set(formats.ids)
    assert (
        formats.tier("gen1ou") == "[Gen 1] OU" and formats.rules("gen1ou") == Rules.SLEEP_CLAUSE | Rules.FREEZE_CLAUSE
    )
    assert formats.clauses("gen1ou")[0] == "Sleep Clause Mod: Limit one foe put to sleep"
    found = formats.complaints(Members("Mewtwo||||psychic|||||||]Tauros||||fissure|||||||"), "gen1ou")
    assert [(it.member, it.species.label, it.value) for it in found] == [
        (1, "Mewtwo", "Mewtwo"),
        (2, "Tauros", "Fissure"),
    ]
    assert str(found[1]) == "member 2 (Tauros): OHKO Clause: OHKO moves are banned; found Fissure"
    assert formats.complaints(Members(TAUROS), "gen1ou") == ()
    with pytest.raises(BadArgument, match="a format must be one of .*gen1ou.*, not 'gen9ou'"):
        formats.complaints(Members(TAUROS), "gen9ou")
    with pytest.raises(BadArgument):
        Formats("{}")
    own = '{"source":"here","date":"today","clauses":[],"formats":[{"id":"one","name":"One","members":[1,1],"clauses":[]}]}'
    found = Formats(own).complaints(Members(TAUROS), "one")
    assert [str(it) for it in found] == ["team: 1 to 1 members; found 2"] and found[0].species is None


def slept(pairs, **clauses):
    """The loser after each pair of a Parasect's battle, by the log of the audience, and how many sleeps that log has."""
    foes = [Member(it, ["Splash", "Rest"]) for it in ("Chansey", "Snorlax")]
    host = Host(Battle([Member("Parasect", ["Spore", "Seismic Toss"])], foes, seed=7))
    watch, found, sleeps = EndingClauses(**clauses), [], 0
    watch.hear(host.notice().log)
    for pair in pairs:
        for side, choice in zip(Side, pair):
            host.apply(Row.submit(side, host.number, choice, None))
        found.append(watch.hear(host.notice().log))
        sleeps += sum(line.endswith("|slp") and line.startswith("|-status|") for line in lines(host.notice().log))
    return found, sleeps


def test_a_second_sleep_loses():
    spore, toss, switch = Choice.MOVE_1, Choice.MOVE_2, Choice.SWITCH_2
    splash, rest = Choice.MOVE_1, Choice.MOVE_2
    assert slept([(spore, splash), (spore, switch)]) == ([None, Side.ONE], 2)
    assert slept([(spore, splash), (spore, switch)], sleep=False) == ([None, None], 2)
    assert slept([(spore, splash), (toss, switch), (toss, rest)]) == ([None] * 3, 2)
    with pytest.raises(BadArgument):
        EndingClauses().hear(b"\xff")
    with pytest.raises(BadType):
        EndingClauses(sleep=1)


def test_two_secrets_decide_a_seed_and_the_sides():
    """The hashes are those of hashlib."""
    dice, sides = random.Random(5), set()
    for at in range(20):
        name, secrets = f"room {at} ü", [dice.randbytes(32), dice.randbytes(32)]
        commitments = [commit(name, player, it) for player, it in enumerate(secrets, 1)]
        for player, secret in enumerate(secrets, 1):
            due = sha256(b"gen1 commitment\0" + bytes([player]) + secret + name.encode()).digest()
            assert commitments[player - 1] == due
        due = sha256(b"gen1 agreement\0" + secrets[0] + secrets[1] + name.encode()).digest()
        agreed = agree(name, commitments, secrets)
        assert agreed.seed == due[:10]
        assert agreed.sides == ((Side.TWO, Side.ONE) if due[10] % 2 else (Side.ONE, Side.TWO))
        sides.add(agreed.sides)
        for others in ([secrets[0], secrets[0]], secrets[::-1]):
            with pytest.raises(BrokenCommitment) as broken:
                agree(name, commitments, others)
            assert broken.value.player == (2 if others[0] == secrets[0] else 1)
    assert len(sides) == 2
    with pytest.raises(BrokenCommitment, match="the secret of player 1"):
        agree("another room", commitments, secrets)
    for wrong in (lambda: commit("a", 3, bytes(32)), lambda: commit("a", 1, bytes(31)), lambda: agree("a", [], [])):
        with pytest.raises(BadArgument):
            wrong()
    for wrong in (
        lambda: commit(1, 1, bytes(32)),
        lambda: commit("a", 1, "x" * 32),
        lambda: commit("a", True, bytes(32)),
    ):
        with pytest.raises(BadType):
            wrong()


def test_a_simulator_begins_as_the_program_does():
    simulator, said = begun([TAUROS, MEW], hp=Hp.EXACT)
    assert said.startswith(BEGUN + "\nsideupdate\np1\n|request|")
    assert simulator.take(">p1 move 1").text == ""
    reply = simulator.take(">p1 move 5")
    assert reply.text == "sideupdate\np1\n|error|[Invalid choice] Can't move: Your Bob doesn't have a move 5\n\n"
    assert "|turn|2\n" in simulator.take(">p2 move 1").text
    assert "dance" in simulator.take(">dance").note
    with pytest.raises(ProtocolFault) as fault:
        simulator.take(">player p1 {}")
    assert fault.value.line == 8
    with pytest.raises(BadArgument):
        simulator.take(">p1 move 1\n>p2 move 1")


def views(stream):
    """The lines of a stream that each viewer sees: that of the owner, or that of all others."""
    seen, lines = {viewer: [] for viewer in (Viewer.ONE, Viewer.TWO, Viewer.SPECTATOR)}, iter(stream.split("\n"))
    for line in lines:
        owner = line.removeprefix("|split|") if line.startswith("|split|") else None
        own, public = (next(lines), next(lines)) if owner else (line, line)
        for viewer, text in seen.items():
            text.append(own if viewer.value == owner else public)
    return {viewer: "\n".join(text) for viewer, text in seen.items()}


def messages(said):
    """The lines of an update, and the requests of both sides."""
    blocks = [it.split("\n", 1) for it in said.split("\n\n") if it]
    update = "".join(rest + "\n" for kind, rest in blocks if kind == "update")
    asked = dict(rest.split("\n|request|") for kind, rest in blocks if kind == "sideupdate")
    return update, asked


def mixed(dice):
    """A team with moves that continue, whose members have different names."""
    species = dice.sample(range(1, 152), 3)
    return Members([Member(it, [dice.choice(GOING_ON), *dice.sample(OTHERS, 2)]) for it in species])


@pytest.mark.parametrize("hp", [Hp.EXACT, Hp.PIXELS, Hp.PERCENT])
def test_a_host_writes_the_lines_and_requests_of_the_simulator(hp):
    """The simulator writes from the battle itself, the lines of a host from what it sends."""
    dice = random.Random(hp.value)
    for _ in range(12):
        teams = [mixed(dice), mixed(dice)]
        simulator, said = begun([it.team.to_dicts() for it in teams], hp=hp)
        host, lines, seats = hosted(teams, hp=hp)
        rqid, written = 1, messages(said)[0]
        while not host.is_closed and rqid < 150:
            asked = messages(said)[1]
            for side, seat in seats.items():
                assert seat.request(rqid) == asked[f"p{side:d}"]
            for viewer, due in views(written).items():
                assert lines.text(viewer) == due
            lines.clear()
            said, rqid = "", rqid + 1
            chosen = {side: dice.choice(host.message(side).choices) for side in Side if host.awaits(side)}
            for side, choice in chosen.items():
                assert not seats[side].waits
                said += simulator.take(f">p{side:d} " + as_command(choice, seats[side], teams[side - 1])).text
            for side, choice in chosen.items():
                host.submit(side, host.number, choice, numbers=None)
            written = messages(said)[0]
            sent(host, lines, seats)
        for viewer, due in views(written).items():
            assert lines.text(viewer) == due


def as_command(choice, seat, members):
    """A choice as a command of the request."""
    if choice == Choice.MOVE_0:
        return "default"
    if choice < 0x20:
        return f"move {int(choice) & 15}"
    listed = [it["ident"][4:] for it in json.loads(seat.request(1))["side"]["pokemon"]]
    return f"switch {listed.index(members.names[int(choice) - 0x21]) + 1}"


def without_trap(text):
    return re.sub(r"\|\[from\] move: (Bind|Wrap|Fire Spin|Clamp)", "", text)


def test_what_one_viewer_is_sent_gives_its_lines():
    """Without the host: from messages or notices, and for a viewer that comes back from the logs that were sent to it."""
    dice, went_on = random.Random(6), set()
    for _ in range(40):
        teams = [mixed(dice), mixed(dice)]
        host, lines, seats = hosted(teams, exact_hp=dice.random() < 0.5)
        own = {side: [3, 3] for side in (1, 2, None)}
        for side in Side:
            own[side][side - 1] = teams[side - 1]
        alone = {side: Lines(("Alice", "Eve"), own[side]) for side in own}
        logs = {side: [] for side in own}
        while True:
            sent_to = {1: host.message(1), 2: host.message(2), None: host.notice()}
            for side, of_one in alone.items():
                of_one.receive(sent_to[side])
                viewer = Viewer(f"p{side}") if side else Viewer.SPECTATOR
                due = lines.text(viewer)
                assert of_one.text(viewer) == (due if side else without_trap(due))
                went_on |= set(re.findall(r"\[from\] move: ([\w ]+)", due))
                logs[side].append(sent_to[side].log)
            if host.is_closed or host.number == 60:
                break
            for side in list(filter(host.awaits, Side)):
                host.submit(side, host.number, dice.choice(host.message(side).choices))
            sent(host, lines, seats)
        for side, seat in seats.items():
            back, again = Seat(side, "Alice" if side == 1 else "Eve", teams[side - 1], foes=3), Lines(
                ("Alice", "Eve"), own[side]
            )
            for log in logs[side][:-1]:
                back.hear(log)
                again.hear(log)
            back.receive(host.message(side))
            again.receive(host.message(side))
            assert back.request(3) == seat.request(3)
            plain = re.compile(r"(Disable)\|[\w -]+$", re.M)
            ends = [plain.sub(r"\1", without_trap(it.text(Viewer(f"p{side:d}")))) for it in (again, lines)]
            assert ends[0] == ends[1]
    assert went_on >= {"Wrap", "Clamp", "Thrash", "Petal Dance", "Rage", "Fly"}


def test_nothing_hidden_changes_the_lines_of_the_others():
    """Two battles whose side 2 differs only in what it has not shown write the same lines for side 1 and for spectators."""
    dice, positions, differed, went_on = random.Random(3), 0, 0, set()
    while positions < 600:
        own, foe = [list(mixed(dice).team) for _ in range(2)]
        hidden = [Member(foe[0].species, [*foe[0].moves[:2], Move.SPLASH], pp_ups=[3, 3, 0]), *dice.choice(SAMPLES)[:2]]
        pairs = [hosted([Members(own), Members(it)], exact_hp=False) for it in (foe, hidden)]
        for _ in range(15):
            first, second = pairs
            for viewer in (Viewer.ONE, Viewer.SPECTATOR):
                assert first[1].text(viewer) == second[1].text(viewer)
            went_on |= set(re.findall(r"(?m)^\|move\|p2a: .*\[from\] move: ([\w ]+)", first[1].text(Viewer.SPECTATOR)))
            assert first[2][Side.ONE].request(1) == second[2][Side.ONE].request(1)
            differed += first[1].text(Viewer.TWO) != second[1].text(Viewer.TWO) or (
                first[2][Side.TWO].request(1) != second[2][Side.TWO].request(1)
            )
            # Choices that show nothing of the hidden: the first two moves, and a move that continues.
            theirs = [it for it in first[0].message(2).choices if it <= Choice.MOVE_2]
            if not theirs or not all(map(first[0].awaits, Side)):
                break
            positions += 1
            chosen = (dice.choice(first[0].message(1).choices), dice.choice(theirs))
            for host, lines, seats in pairs:
                for side, choice in zip(Side, chosen):
                    host.submit(side, host.number, choice, numbers=None)
                sent(host, lines, seats)
    assert differed > 100 and went_on >= {"Wrap", "Clamp", "Thrash", "Petal Dance", "Rage", "Fly"}


def said_of(choice, host, side, members):
    """A choice in the words of `Follower.choices`. One that continues with a move does not say which."""
    if choice in (Choice.PASS, Choice.MOVE_0):
        return None if choice == Choice.PASS else "move "
    if choice >= 0x20:
        return f"switch {members.names[int(choice) - 0x21]}"
    return f"move {host.message(side).own.active.moves[int(choice) - 0x11].label}"


def test_a_log_that_is_read_back_is_what_the_player_was_sent():
    dice, told, counts = random.Random(8), 0, 0
    for _ in range(15):
        teams, chosen = [mixed(dice), mixed(dice)], []
        host, lines, _ = hosted(teams, exact_hp=False)
        players = {side: Player(side, own.team, foes=3) for side, own in zip(Side, teams)}
        for side, player in players.items():
            player.feed(host.message(side).log)
        for _ in range(40):
            pair = {side: dice.choice(host.message(side).choices) for side in Side if host.awaits(side)}
            if host.is_closed:
                break
            both = [pair.get(side, Choice.PASS) for side in Side]
            chosen.append([said_of(it, host, side, own) for it, side, own in zip(both, Side, teams)])
            for side, choice in pair.items():
                host.submit(side, host.number, choice)
            lines.report(host)
            for side, player in players.items():
                player.feed(host.message(side).log)
        for side, own in zip(Side, teams):
            follower = Follower(side, own)
            follower.read(lines.text(Viewer(f"p{side:d}")))
            assert follower.player == players[side] and follower.notes == ()
            assert [follower.name(it) for it in Side] == ["Alice", "Eve"] and follower.count(1) == 3
            assert len(follower.choices) == len(chosen)
            for found, due in zip(sum(follower.choices, ()), sum(chosen, [])):
                assert found is None or found == due or due == "move " and found.startswith(due)
                told, counts = told + (found is not None), counts + (due is not None)
    assert counts * 0.7 < told < counts


def test_a_log_of_the_document():
    follower = Follower(2)
    for line in FOLLOWED.splitlines():
        follower.read(line)
    player = follower.player
    assert player.turn == 2 and player.foe.active.hp == 100 and player.foe.active.moves[0].move is Move.BODY_SLAM
    assert follower.names(1) == ("Bo",) and follower.count(1) == 6 and follower.name(2) == "Bob"
    assert lines(follower.log)[-1] == "|turn|2" and follower.choices == (("move Body Slam", "move Thunder Wave"),)
    follower.read("|dance|p1a: Bo\n")
    assert [(it.line, it.why) for it in follower.notes] == [(13, 'the word "dance" is unknown; did you mean "cant"?')]
    follower.read("|turn|9\n")
    with pytest.raises(ProtocolFault, match="line 14: .*expected turn 3"):
        follower.player
    with pytest.raises(ProtocolFault, match="both sides"):
        Follower(1).player


def test_the_rules_of_a_log():
    follower = Follower(2)
    follower.read("|rule|Sleep Clause Mod: Limit one foe put to sleep\n" + FOLLOWED)
    assert (follower.player.rules, follower.player.limit) == (Rules.SLEEP_CLAUSE, 1000)


def test_a_battle_to_search():
    teams = "Tauros||||bodyslam,earthquake|||||||", "Alakazam||||psychic,recover|||||||"
    simulator, said = begun(teams)
    follower = Follower(1, Members(teams[0]))
    follower.read(said + simulator.take(">p1 move 1").text + simulator.take(">p2 move 1").text)
    battle = follower.battle(Members("Alakazam\n- Thunder Wave\n- Psychic\n"), seed=range(10))
    assert battle.choices(1) == (Choice.MOVE_1, Choice.MOVE_2) and not battle.result.is_over
    with pytest.raises(BadArgument, match="guess"):
        follower.battle(Members("Chansey||||sing|||||||"), seed=range(10))
    follower = Follower(1)
    follower.read(said)
    with pytest.raises(BadArgument, match="expected the own team"):
        follower.battle(Members(teams[1]), seed=range(10))


def test_choices_are_refused_in_showdowns_words():
    host, lines, seats = hosted([Members(TAUROS), Members(MEW)])
    seat = seats[Side.ONE]
    assert seat.choice_in("move Body Slam") is seat.choice_in("default") is Choice.MOVE_1
    assert seat.choice_in("switch Chansey") is seat.choice_in("switch 2") is Choice.SWITCH_2 and not seat.waits
    for text, why in (
        ("move 3", "Can't move: Your Bob doesn't have a move 3"),
        ("move surf", "Can't move: Your Bob doesn't have a move matching surf"),
        ("switch 1", "Can't switch: You can't switch to an active Pokémon"),
        ("switch 7", "Can't switch: You do not have a Pokémon in slot 7 to switch to"),
        ("dance", "Unrecognized choice: dance"),
        ("", "Unrecognized choice: "),
    ):
        with pytest.raises(ChoiceRefused, match=f"^{why}$"):
            seat.choice_in(text)
    request = json.loads(seat.request(7))
    assert request["rqid"] == 7 and [it["id"] for it in request["active"][0]["moves"]] == ["bodyslam", "hyperbeam"]
    assert request["side"]["pokemon"][0]["ident"] == "p1: Bob"


def test_a_forfeit_and_an_agreed_draw_end_the_lines():
    ends = {}
    for name in ("forfeit", "draw", "late"):
        host, lines, seats = hosted([Members(TAUROS), Members(MEW)])
        lines.clear()
        if name == "forfeit":
            host.forfeit(1)
        elif name == "draw":
            host.offer_draw(1)
            host.offer_draw(2)
        else:
            host = Host(host.battle, late_forfeits=True)
            host.expire(2, 0)
        sent(host, lines, seats)
        ends[name] = lines.text(Viewer.SPECTATOR)
        with pytest.raises(ChoiceRefused, match="The game is over"):
            seats[Side.ONE].choice_in("move 1")
    assert ends == {
        "forfeit": "|\n|-message|Alice forfeited.\n|\n|win|Eve\n",
        "draw": "|\n|\n|tie\n",
        "late": "|\n|-message|Eve forfeited.\n|\n|win|Alice\n",
    }


def test_a_pair_is_neither_doubled_nor_left_out():
    host, lines, seats = hosted([Members(TAUROS), Members(MEW)])
    with pytest.raises(BadArgument, match="pair 0 came last, so the next one must be 1, not 0"):
        lines.report(host)
    for _ in range(2):
        for side in Side:
            host.submit(side, host.number, Choice.MOVE_1)
    text, request = lines.text(Viewer.ONE), seats[Side.ONE].request(1)
    with pytest.raises(BadArgument, match="must be 1, not 2"):
        lines.report(host)
    with pytest.raises(BadArgument, match="must be 1, not 2"):
        seats[Side.ONE].receive(host.message(1))
    assert (lines.text(Viewer.ONE), seats[Side.ONE].request(1)) == (text, request)


def test_the_lines_of_a_battle_that_one_runs():
    teams = [Members(TAUROS), Members(MEW)]
    battle, lines = Battle(teams[0].team, teams[1].team, SEED), Lines(("Alice", "Eve"), teams, hp=Hp.PERCENT)
    seat = Seat(1, "Alice", teams[0], foes=2)
    before = battle.copy()
    lines.update(before, battle.update(0, 0).log, battle, time=5)
    seat.tell(battle, before.update(0, 0).log)
    text = lines.text(Viewer.TWO)
    assert "|\n|t:|5\n|start\n|switch|p1a: Bob|Tauros|100/100\n|switch|p2a: Mew|Mew|403/403\n|turn|1\n" in text
    lines.line("chat|hello")
    lines.end(None)
    assert lines.text(Viewer.SPECTATOR).endswith("|chat|hello\n|\n|tie\n")
    assert seat.choice_in("auto") is Choice.MOVE_1


def test_bad_arguments(battle):
    teams = [Members(TAUROS), Members(MEW)]
    lines, seat = Lines(("Alice", "Eve"), teams), Seat(1, "Alice", teams[0])
    for call in (
        lambda: Lines(("Alice",), teams),
        lambda: Lines(("Alice", "E\n|win|Alice"), teams),
        lambda: lines.line("one\n|win|Alice"),
        lambda: lines.end(3),
        lambda: Lines(("Alice", "Eve"), [7, 3]),
        lambda: lines.receive(Host(battle).notice()) or lines.receive(Host(battle).message(1)),
        lambda: Lines(("Alice", "Eve"), [teams[0], 2]).receive(Host(battle).notice()),
        lambda: lines.hear(b"\xff"),
        lambda: seat.hear(b"\xff"),
        lambda: lines.update(battle, b"\xff", battle),
        lambda: seat.tell(battle, b"\xff"),
        lambda: seat.request(-1),
        lambda: Seat(3, "Alice", teams[0]),
        lambda: Seat(1, "Alice", teams[0], foes=7),
        lambda: showdown._call("dance"),
    ):
        with pytest.raises(BadArgument):
            call()
    for call in (
        lambda: Lines(("Alice", 1), teams),
        lambda: Lines(("Alice", "Eve"), [TAUROS, MEW]),
        lambda: Lines(("Alice", "Eve"), teams, hp="exact"),
        lambda: lines.report(battle),
        lambda: lines.text("p1"),
        lambda: seat.receive(battle),
        lambda: seat.choice_in(1),
        lambda: Simulator(formats="gen1ou"),
        lambda: Simulator().take(1),
        lambda: Follower(1, Team([Member("Tauros", ["Surf"])])),
        lambda: Follower(1).read(b"|turn|1"),
    ):
        with pytest.raises(BadType):
            call()
