"""Sentences of each kind of event, compared with written ones."""
from checks.cases import names
from checks.replay import shown


def who(side):
    """Tauros of side 1 or Starmie of side 2, as an event names it (docs/MECHANICS.md, "Events")."""
    return bytes([side, names("Species").index("Tauros" if side == 1 else "Starmie") + 1])


def health(hp, most, kind=0):
    return hp.to_bytes(2, "little") + most.to_bytes(2, "little") + bytes([kind])


def move(name):
    return bytes([names("Moves").index(name) + 1])


def each(tag, side, sentences):
    """Events of one tag whose last byte is 1, 2 and so on."""
    return [(bytes([tag]) + who(side) + bytes([number]), sentence) for number, sentence in enumerate(sentences, 1)]


def shifts(tag, word):
    stats = ("Attack", "Defense", "Speed", "Special", "accuracy", "evasion")
    by = ((2, "2 stages"), (1, "1 stage"))
    return [
        (
            bytes([tag]) + who(1) + bytes([number, by[number % 2][0]]),
            f"Side 1's Tauros's {stat} {word} by {by[number % 2][1]}.",
        )
        for number, stat in enumerate(stats, 1)
    ]


def plain(tag, side, sentence):
    return [(bytes([tag]) + who(side), sentence)]


ENTER = [
    (b"\x02" + who(1) + bytes([1, 100]) + health(353, 353), "Side 1 sends out Tauros."),
    (
        b"\x02" + who(2) + bytes([1, 50]) + health(100, 200, 5),
        "Side 2 sends out Starmie, level 50, with 100 of 200 HP, paralysed.",
    ),
    (b"\x01\x01\x00", "Turn 1 begins."),
]
ACTIONS = [
    (b"\x03" + who(1) + move("Strength") + who(2), "Side 1's Tauros uses Strength."),
    *each(
        4,
        1,
        (
            "Side 1's Tauros is asleep and cannot act.",
            "Side 1's Tauros is frozen and cannot act.",
            "Side 1's Tauros is trapped and cannot act.",
            "Side 1's Tauros flinches.",
            "Side 1's Tauros has to recharge.",
            "Side 1's Tauros cannot use its move, which is disabled.",
            "Side 1's Tauros is fully paralysed.",
        ),
    ),
    (b"\x15" + who(1) + move("Fly"), "Side 1's Tauros prepares Fly."),
    *plain(0x16, 1, "Side 1's Tauros will have to recharge."),
    *plain(0x0B, 1, "Side 1's Tauros misses."),
    *plain(0x0C, 1, "Side 1's Tauros fails."),
    *plain(0x0A, 2, "Side 2's Starmie is not affected."),
]
HITS = [
    *[
        (
            b"\x05" + who(2) + health(90 - source, 200) + bytes([source]),
            f"Side 2's Starmie loses {1 if source else 10} HP{why}, down to {90 - source} of 200 HP.",
        )
        for source, why in enumerate(
            ("", " by poison", " by its burn", " by Leech Seed", " by recoil", " by hitting itself")
        )
    ],
    (b"\x06" + who(2) + health(150, 200), "Side 2's Starmie gains 65 HP, up to 150 of 200 HP."),
    *plain(0x07, 2, "Side 2's Starmie takes a critical hit."),
    *plain(0x08, 2, "It is super effective."),
    *plain(0x09, 2, "It is not very effective."),
    (b"\x18", "It is a one-hit knock-out."),
    (b"\x17" + who(2) + b"\x01", "Side 2's Starmie was hit once."),
    (b"\x17" + who(2) + b"\x03", "Side 2's Starmie was hit 3 times."),
]
EFFECTS = [
    *each(
        0x0D,
        2,
        (
            "Side 2's Starmie falls asleep.",
            "Side 2's Starmie is poisoned.",
            "Side 2's Starmie is burned.",
            "Side 2's Starmie freezes.",
            "Side 2's Starmie is paralysed.",
        ),
    ),
    *each(
        0x0E,
        2,
        (
            "Side 2's Starmie wakes up.",
            "Side 2's Starmie is no longer poisoned.",
            "Side 2's Starmie is no longer burned.",
            "Side 2's Starmie thaws.",
            "Side 2's Starmie is no longer paralysed.",
        ),
    ),
    *shifts(0x0F, "rises"),
    *shifts(0x10, "falls"),
    (b"\x11", "All stages go back to 0."),
    *each(
        0x12,
        1,
        (
            "Side 1's Tauros becomes confused.",
            "Side 1's Tauros begins to bide.",
            "Side 1's Tauros puts up a Substitute.",
            "Side 1's Tauros is seeded.",
            "Side 1's Tauros is shrouded in Mist.",
            "Side 1's Tauros focuses its energy.",
            "Side 1's Tauros is behind Light Screen.",
            "Side 1's Tauros is behind Reflect.",
            "Side 1's Tauros has a move disabled.",
            "Side 1's Tauros takes its foe's types.",
        ),
    ),
    (b"\x12" + who(1) + b"\x0c", "Side 1's Tauros begins to rage."),
    *each(
        0x13,
        1,
        (
            "Side 1's Tauros is no longer confused.",
            "Side 1's Tauros releases its energy.",
            "Side 1's Tauros loses its Substitute.",
        ),
    ),
    (b"\x13" + who(1) + b"\x09", "Side 1's Tauros may use its move again."),
    *each(
        0x14,
        1,
        ("Side 1's Tauros is confused.", "Side 1's Tauros bides its time.", "Side 1's Tauros has its Substitute hit."),
    ),
    (b"\x14" + who(1) + b"\x0d", "Side 1's Tauros splashes: nothing happens."),
]
FALL = [
    (b"\x05" + who(2) + health(0, 200) + b"\x00", "Side 2's Starmie loses its last 150 HP."),
    *plain(0x19, 2, "Side 2's Starmie faints."),
    (
        b"\x02" + who(1) + bytes([2, 100]) + health(300, 353),
        "Side 1 withdraws Tauros and sends out Tauros, with 300 of 353 HP.",
    ),
    (b"\x02" + who(2) + bytes([2, 50]) + health(200, 200), "Side 2 sends out Starmie, level 50."),
]
ENDS = [
    (b"\x1a\x01", "Side 1 wins."),
    (b"\x1a\x02", "Side 2 wins."),
    (b"\x1b", "The battle is a tie."),
    (b"\x1c\x01", "The battle stopped by a division by 0."),
    (b"\x1c\x02", "The battle stopped at a Psywave of level 1."),
]


def each_kind_of_event_has_its_sentence(browser):
    assert {code[0] for code, _ in ENTER + ACTIONS + HITS + EFFECTS + FALL + ENDS} == set(range(1, 0x1D))
    for end in ENDS:
        told = [*ENTER, *ACTIONS, *HITS, *EFFECTS, *FALL, end]
        shown(browser, b"".join(code for code, _ in told), "battle.log")
        browser.click("#replay-last")
        browser.click("#replay-whole summary")
        browser.wait("return document.querySelector('#replay-whole-lines li')")
        found, due = browser.words("#replay-whole-lines li"), [sentence for _, sentence in told]
        assert found == due, [pair for pair in zip(found, due) if pair[0] != pair[1]][:5]


CHECKS = [each_kind_of_event_has_its_sentence]
