"""The draws of an update and what each decided, events in sentences, and progress of long work."""

import io

import pytest
from conftest import RECORDED, random_team, recorded_only
from gen1 import BadArgument, BadLog, BadType, Battle, Choice, Narrator
from gen1.draws import drawn, explained, ranges
from gen1.progress import progress

if RECORDED.is_dir():
    from battles import cases, recorded, traces


@recorded_only
@pytest.mark.parametrize("name", ["traces", "corners"])
def test_the_number_of_draws(name):
    """An update makes as many draws as were recorded, and the generator continues from there."""
    for trace in traces(recorded(f"{name}.jsonl")):
        asked = trace["object"]
        battle = Battle(asked["one"], asked["two"], asked["seed"], asked.get("rules", 0), asked.get("limit", 1000))
        for update in trace["updates"]:
            if update["refused"] is None:
                before = battle.copy()
                battle.update_silent(*update["pair"])
                assert len(drawn(before, battle)) == update["draws"] % 2304


def test_draws_one_by_one(team):
    """An update with another byte in a draw's place has the difference that is reported for it."""
    battle = Battle(team, team, [1, 36, 255, 7, 31, 100, 179, 254, 127, 10])
    battle.update(0, 0)
    after, told, draws = explained(battle, Choice.MOVE_1, Choice.MOVE_1)
    whole = battle.copy()
    assert list(whole.update(Choice.MOVE_1, Choice.MOVE_1).events) == told and whole == after
    assert [it.byte for it in draws] == list(drawn(battle, after)) and draws[0].byte == 1
    # Both Speeds are the same: below 128 side 1 is first (docs/MECHANICS.md, "Order of a turn").
    assert [bytes_ for bytes_, _ in draws[0].others] == ["128-255"]
    assert "Side 2's Tauros uses Body Slam" in draws[0].others[0][1]


def test_ranges():
    assert ranges([0, 1, 2, 5, 7, 8]) == "0-2, 5, 7-8" and ranges([9]) == "9" and ranges(list(range(256))) == "0-255"
    assert ranges(list(range(0, 40, 2))) == "0, 2, 4, 6, .. (20 of 256)"


def test_random_battles_explained():
    """Each update of random battles can be explained, and is the same as by `update`."""
    import random

    dice = random.Random(7)
    for _ in range(3):
        battle, narrator = Battle(random_team(dice), random_team(dice), dice.randbytes(10), limit=4), Narrator()
        while not battle.result.is_over:
            pair = [dice.choice(battle.choices(side)) for side in (1, 2)]
            after, told, draws = explained(battle, *pair, narrator)
            battle.update_silent(*pair)
            assert (
                battle == after and all(map(narrator.say, told)) and all(said for it in draws for _, said in it.others)
            )


# Side 1's Tauros comes out with 353 of 353 HP, uses Body Slam, has 233 HP left, and is not affected. Side 2 wins.
OUT = bytes.fromhex("02 01 80 01 64 6101 6101 00")
LOG = OUT + bytes.fromhex("03 01 80 22 02 78  05 01 80 e900 6101 00 00  0a 01 80  1a 02")
# A log as it is reported to side 2: HP of its foe are 48ths.
TOLD = bytes.fromhex("05 01 80 1800 3000 00 00  05 01 80 0000 3000 00 04  1a 02")


def test_sentences_by_hand():
    """Sentences that were worked out from docs/MECHANICS.md and the specification."""
    assert Narrator().sentences(LOG) == [
        "Side 1 sends out Tauros.",
        "Side 1's Tauros uses Body Slam.",
        "Side 1's Tauros loses 120 HP, down to 233 of 353 HP.",
        "Side 1's Tauros is not affected.",
        "Side 2 wins.",
    ]
    assert Narrator(1).sentences(LOG)[2:] == [
        "Your Tauros loses 120 HP, down to 233 of 353 HP.",
        "Your Tauros is not affected.",
        "The foe wins.",
    ]
    assert Narrator(you=2, in_percent=(True, False)).sentences(TOLD) == [
        "The foe's Tauros is down to 50%.",
        "The foe's Tauros loses its last 50% by recoil.",
        "You win.",
    ]


def test_a_narrator_that_is_copied_or_refuses():
    """A copy is independent, and a log that is refused changes nothing."""
    narrator = Narrator()
    assert narrator.sentences(OUT) == ["Side 1 sends out Tauros."]
    copied = narrator.copy()
    with pytest.raises(BadLog) as found:
        narrator.sentences(bytes.fromhex("05 01 80 0000 6101 00 00  ff"))
    assert found.value.at == 9
    for of in (narrator, copied):
        assert of.sentences(LOG[16:25]) == ["Side 1's Tauros loses 120 HP, down to 233 of 353 HP."]
    for wrong in ((3,), (0,), (None, (True,)), (None, (True, False, False))):
        with pytest.raises(BadArgument):
            Narrator(*wrong)
    for wrong in (("1",), (None, 1), (None, (1, 0))):
        with pytest.raises(BadType):
            Narrator(*wrong)
    with pytest.raises(BadType):
        narrator.say("Tauros")


def test_a_sentence_alone():
    from gen1 import events
    from gen1.sentences import sentence

    assert sentence(events(LOG)[2]) == "Side 1's Tauros is down to 233 of 353 HP."


@recorded_only
def test_sentences_of_every_event():
    """Each kind of event of the recorded battles in a sentence, event by event as by the whole log."""
    from gen1 import events

    logs = [bytes.fromhex(it["hex"]) for it in cases(recorded("print.jsonl")) if "hex" in it and not it.get("stderr")]
    logs += [bytes.fromhex(it["log"] or "") for battle in traces(recorded("corners.jsonl")) for it in battle["updates"]]
    kinds, whole, one_by_one = set(), Narrator(), Narrator()
    for log in logs:
        told = events(log)
        assert whole.sentences(log) == [one_by_one.say(event) for event in told]
        kinds |= {event.kind for event in told}
    assert len(kinds) == 28


def test_progress_without_a_terminal():
    to = io.StringIO()
    assert list(progress(range(5), 5, "numbers", to)) == [0, 1, 2, 3, 4] and to.getvalue() == ""


def test_progress_of_long_work(monkeypatch):
    """A line every ten seconds, and one at the end."""
    import gen1.progress as module

    clock = iter([0, 4, 11, 15, 18, 19])
    monkeypatch.setattr(module.time, "monotonic", lambda: next(clock))
    to = io.StringIO()
    assert list(progress(range(5), 5, "numbers", to)) == [0, 1, 2, 3, 4]
    assert to.getvalue() == "numbers: 2 of 5, 11 s\nnumbers: 5 of 5, 19 s\n"


def test_progress_on_a_terminal():
    pytest.importorskip("rich")
    to = io.StringIO()
    to.isatty = lambda: True
    assert list(progress(range(5), 5, "numbers", to)) == [0, 1, 2, 3, 4]
