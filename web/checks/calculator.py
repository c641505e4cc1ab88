"""The calculator: recorded calculations, those of `gen1 calc`, its states, its layout and its search."""
import base64
import json
import random
import re
import subprocess

from selenium.webdriver.common.action_chains import ActionChains
from selenium.webdriver.common.keys import Keys

from checks.cases import cases, member_bytes, names

STATS = ("Attack", "Defense", "Speed", "Special")
STAGES = (*STATS, "Accuracy", "Evasion")
SHORT = ("atk", "def", "spe", "spc", "acc", "eva")
STATUSES = {0: "", 1: "slp", 8: "psn", 16: "brn", 32: "frz", 64: "par"}
FULL = {"level": 100, "dvs": [15] * 4, "exp": [65535] * 5}
FRESH = {"stages": [0] * 6, "status": 0, "conditions": 0, "hp": 0}
REFLECT, LIGHT_SCREEN, FOCUS_ENERGY, SUBSTITUTE = 1, 2, 4, 32
# Moves of every kind: fixed, many hits, one hit, recoil, drain, charging, explosion.
KINDS = (
    "Seismic Toss",
    "Night Shade",
    "Sonic Boom",
    "Dragon Rage",
    "Psywave",
    "Super Fang",
    "Fury Attack",
    "Pin Missile",
    "Double Kick",
    "Twineedle",
    "Fissure",
    "Horn Drill",
    "Take Down",
    "Submission",
    "Mega Drain",
    "Dream Eater",
    "Solar Beam",
    "Dig",
    "Explosion",
    "Hyper Beam",
    "Swift",
    "Wrap",
    "Counter",
    "Bide",
    "Jump Kick",
    "Slash",
    "Thunder Wave",
    "Recover",
    "Rage",
    "Thrash",
)
# All that the results show of the moves of a side.
ROWS = """
return [...document.querySelectorAll(`#calc-results-${arguments[0]} tbody tr`)].map((row) => ({
  move: row.dataset.move, cells: [...row.children].map((it) => it.textContent), titles: [...row.children].map((it) => it.title),
  damage: [...row.querySelectorAll('.damage strong, .damage .note')].map((it) => it.textContent),
}));
"""

# Opens an address, and returns what is wrong with it. A route with the same values as before does nothing, so that a check cannot read older results.
SHOWN = """
const results = document.getElementById('calc-results'), end = performance.now() + 15000;
results.replaceChildren();
location.hash = arguments[0];
while (!results.querySelector('table')) {
  if (performance.now() > end) return 'no results';
  await new Promise((done) => setTimeout(done));
}
return document.getElementById('calc-fault').textContent;
"""
# Chooses the moves of side 1 one after the other, and returns the line of each.
LINES = """
return Object.fromEntries([...document.querySelectorAll('#calc-results-1 tbody tr')].map((row) => row.dataset.move).map((move) => {
  document.querySelector(`#calc-results-1 tr[data-move="${move}"] button`).click();
  return [move, document.getElementById('calc-line').textContent];
}));
"""


def type_member(browser, side, member):
    form = f"#calc-member-{side}"
    values = {f"{form} [name=species]": member["species"], f"{form} [name=level]": str(member["level"])}
    values |= {f"{form} [name='dv-{name}']": str(value) for name, value in zip(STATS, member["dvs"])}
    values |= {f"{form} [name='exp-{name}']": str(value) for name, value in zip(("HP", *STATS), member["exp"])}
    moves = [name for name, _ in member["moves"]] + [""] * 4
    browser.fill_all(values | {f"{form} [name=move-{slot}]": moves[slot - 1] for slot in range(1, 5)})


def member_of(species, *moves, **more):
    return {"species": species, **FULL, "moves": [[move, 3] for move in moves], **more}


def standing_bytes(member, state):
    """A member with its state in the form for an address (web/README.md)."""
    stages = bytes(stage + 6 for stage in state["stages"])
    return (
        member_bytes(member)
        + stages
        + bytes([state["status"], state["conditions"]])
        + state["hp"].to_bytes(2, "little")
    )


def show(browser, one, two, extra=0):
    """Opens the address of two members, each with its state."""
    code = base64.urlsafe_b64encode(standing_bytes(*one) + standing_bytes(*two) + bytes([extra])).decode().rstrip("=")
    fault = browser.run(SHOWN, f"#calculator?c={code}")
    assert fault == "", fault


def at_calculator(browser):
    """Loads the calculator, unless an earlier check has left it: `show` replaces all of its input."""
    there = "return location.hash.startsWith('#calculator') && document.documentElement.dataset.ready === 'true'"
    if not browser.run(there):
        browser.open("#calculator")


def press(browser, side, name):
    browser.run(
        "document.querySelector(`#calc-member-${arguments[0]} [aria-label='${arguments[1]}']`).click()", side, name
    )


# Chooses a move of a side.
CHOSEN = "document.querySelector(`#calc-results-${arguments[0]} tr[data-move='${arguments[1]}'] button`).click();"


def choose(browser, move, side=1):
    browser.run(CHOSEN, side, move)


def damage_of(browser, move, side=1):
    """The per cent and the HP of a move's damage."""
    row = next(it for it in browser.run(ROWS, side) if it["move"] == move)
    return row["damage"][:2]


def percent(part):
    """A chance as the page writes it."""
    if part in (0, 1):
        return f"{round(100 * part)}%"
    return "<0.1%" if part < 0.0005 else ">99.9%" if part > 0.9995 else f"{100 * part:.1f}%"


def span(least, most):
    return f"{least}–{most}" if least != most else str(least)


def lists_of(browser, move):
    """The numbers of a move at each factor, usual and critical."""
    texts = browser.run(
        CHOSEN + "return [...document.querySelectorAll('#calc-numbers p')].map((it) => it.textContent)", 1, move
    )
    return [text.partition(": ")[2].split() for text in texts][:2]


def recorded_calculations_come_out(browser):
    """The recorded cases, of which the first are typed and the others opened by an address."""
    browser.open("#calculator")
    lawful = [case for case in cases("calc") if case["status"] == 0]
    count = 0
    for number, case in enumerate(lawful):
        asked = json.loads(case["input"])
        one, two = asked["attacker"], asked["defender"]
        if asked["move"] not in [name for name, _ in one["moves"]]:
            one["moves"] = [*one["moves"][:3], [asked["move"], 3]]
        if asked["move"] == "Struggle":
            continue
        if number < 10:
            type_member(browser, 1, one)
            type_member(browser, 2, two)
        else:
            show(browser, (one, FRESH), (two, FRESH))
        assert lists_of(browser, asked["move"])[int(asked["critical"])] == case["stdout"].split(), case["name"]
        count += 1
    assert count > 100, count


def state_words(side, member, state):
    """The options of `gen1 calc` for a member and its state."""
    who = "attacker" if side == 1 else "defender"
    lines = [member["species"], f"Level: {member['level']}", *(f"- {move}" for move, _ in member["moves"])]
    words = [f"--{who}", "\n".join(lines)]
    stages = ",".join(f"{name}={stage}" for name, stage in zip(SHORT, state["stages"]) if stage)
    words += [f"--{who}-stages", stages] if stages else []
    words += [f"--{who}-status", STATUSES[state["status"]]] if state["status"] else []
    words += [f"--{who}-hp", str(state["hp"])] if state["hp"] else []
    flags = (
        (2, REFLECT, "--reflect"),
        (2, LIGHT_SCREEN, "--light-screen"),
        (1, FOCUS_ENERGY, "--focus-energy"),
        (2, SUBSTITUTE, "--substitute"),
    )
    return words + [flag for of, bit, flag in flags if side == of and state["conditions"] & bit]


def some_member(draw):
    species = draw.choice(names("Species"))
    known = [
        move for move in names("Moves") if move not in ("Metronome", "Mimic", "Mirror Move", "Transform", "Struggle")
    ]
    moves = list(dict.fromkeys([*draw.sample(KINDS, 2), *draw.sample(known, 4)]))[:4]
    return member_of(species, *moves, level=draw.choice([100, 100, 74, 50, 5]))


def some_state(draw, conditions):
    stages = [draw.choice([0, 0, 0, 1, -1, 2, 6, -6]) for _ in STAGES]
    return {
        "stages": stages,
        "status": draw.choice([0, 0, *STATUSES]),
        "conditions": draw.choice([0, *conditions]),
        "hp": draw.choice([0, draw.randint(1, 18)]),
    }


def same_numbers(row, move, hp):
    """Whether a row of the page has the numbers of an object of `gen1 calc --json`."""
    chances = move["knock_out"]
    ways = lambda part: f"{part['numerator']:,} of {part['denominator']:,} ways"
    if "reason" in move:
        assert move["reason"] in row["cells"][1] and row["cells"][2:6] == ["—", "—", "—", "0%"], (row, move)
        return
    if move["hit_draws"] < 256:
        assert row["titles"][5] == f"{move['hit_draws']} of 256 bytes", (row, move)
    if chances:
        # A user that faints has no second use.
        faints = move["move"] in ("Explosion", "Self-Destruct")
        twice = "the user faints in the first use" if faints else ways(chances["twice"])
        assert row["titles"][2:4] == [ways(chances["once"]), twice], (row, move)
        assert row["cells"][4] == ("—" if faints else percent((chances["uses"] + [1] * 2)[2])), (row, move)
        counts = [count for count, part in enumerate(move["hits"]) if part]
        each = (
            [move["usual"][0], move["usual"][-1]]
            if move["usual"]
            else [min(it, hp) if it == 65535 else it for it in move["fixed"]]
        )
        least, highest = each[0] * counts[0], each[1] * counts[-1]
        assert row["damage"][1].partition(" HP")[0] == span(least, highest), (row, move)
    if move["usual"]:
        assert row["titles"][6] == f"{move['critical_draws']} of 256 bytes", (row, move)


def calculations_are_those_of_the_library(browser):
    """At least 200 moves between drawn members in drawn states: the numbers and the line that `gen1 calc` has, in the same words."""
    if not browser.program:
        return
    browser.open("#calculator")
    draw, count = random.Random(53), 0
    ask = lambda *words: subprocess.run(
        [browser.program, "calc", *words], capture_output=True, text=True, check=True
    ).stdout
    for _ in range(60):
        one = some_member(draw), some_state(draw, [FOCUS_ENERGY])
        two = some_member(draw), some_state(draw, [REFLECT, LIGHT_SCREEN, REFLECT + LIGHT_SCREEN, SUBSTITUTE])
        words = [*state_words(1, *one), *state_words(2, *two)]
        found, lines = json.loads(ask("--json", *words)), ask(*words).splitlines()
        show(browser, one, two)
        rows, shown = {row["move"]: row for row in browser.run(ROWS, 1)}, browser.run(LINES)
        assert len(rows) == len(lines) == len(one[0]["moves"])
        for move, line in zip(found["moves"], lines):
            same_numbers(rows[move["move"]], move, found["defender"]["hp"])
            assert shown[move["move"]] == line, (shown[move["move"]], line)
            count += 1
    assert count >= 200, count


def the_best_move_is_first(browser):
    """Hyper Beam is the move of Tauros that knocks Alakazam out most often, and Blizzard does the least damage."""
    browser.open("#calculator")
    assert [row["move"] for row in browser.run(ROWS, 1)] == ["Hyper Beam", "Body Slam", "Earthquake", "Blizzard"]
    assert browser.text("#calc-line").startswith("Tauros Hyper Beam vs. Alakazam: ")
    choose(browser, "Psychic", 2)
    assert browser.text("#calc-line").startswith("Alakazam Psychic vs. Tauros: ")


def a_text_is_taken(browser):
    browser.open("#calculator")
    browser.fill("#calc-member-2 textarea", "Bob (Tauros) (M)\nLevel: 88\nIVs: 0 Atk\n- Body Slam\n- Fly")
    browser.run("document.querySelector('#calc-member-2 textarea').closest('details').querySelector('button').click()")
    value = lambda name: browser.run(
        "return document.querySelector('#calc-member-2 [name=\"' + arguments[0] + '\"]').value", name
    )
    assert [value(name) for name in ("species", "level", "dv-Attack", "move-1", "move-2", "move-3")] == [
        "Tauros",
        "88",
        "0",
        "Body Slam",
        "Fly",
        "",
    ]


def stages_status_and_screens_count(browser):
    """Values of docs/MECHANICS.md: two Tauros, whose Attack is 298, Defense 288, Speed 318 and Special 238."""
    browser.open("#calculator")
    for side in (1, 2):
        type_member(browser, side, member_of("Tauros", "Body Slam"))
    shown = lambda: browser.words("#calc-member-1 .stat-row")[0]
    directions = browser.run("return [...document.querySelectorAll('.directions button')].map((it) => it.textContent)")
    assert directions == ["Side 1 → Side 2", "Side 2 → Side 1"], directions
    assert damage_of(browser, "Body Slam") == ["26.9–31.7%", "95–112 HP"]
    press(browser, 1, "Burned")
    assert "298" in shown() and "→ 149" in shown()
    press(browser, 1, "Burned")
    assert "→" not in shown()
    for _ in range(2):
        press(browser, 1, "Attack up")
    assert (
        "→ 596" in shown()
        and browser.run("return document.querySelector(\"#calc-member-1 [name='stage-Attack']\").value") == "2"
    )
    browser.fill("#calc-member-1 [name=stage-Attack]", "0")
    press(browser, 2, "Reflect")
    # Defense 576: 74 and 144, so 42 * 85 * 74 / 144 / 50 + 2 is 38, and 57 with its own type.
    assert damage_of(browser, "Body Slam")[1] == "48–57 HP"
    assert "184–217" in browser.run(ROWS, 1)[0]["cells"][6]
    press(browser, 2, "Reflect")
    browser.fill("#calc-member-1 [name=stage-Accuracy]", "-6")
    browser.fill("#calc-member-1 [name=move-1]", "Guillotine")
    # At stage -6 its accuracy, 76 of 256, is a quarter of that.
    assert browser.run(ROWS, 1)[0]["titles"][5] == "19 of 256 bytes"
    press(browser, 1, "Paralysed")
    press(browser, 1, "Frozen")
    assert browser.run(
        "return [...document.querySelectorAll('#calc-member-1 [aria-pressed=true]')].map((it) => it.ariaLabel)"
    ) == ["Frozen"]
    browser.click("#calc-clear")
    assert not browser.run("return document.querySelectorAll('.member [aria-pressed=true]').length")


def chances_of_a_knock_out_and_fixed_damage_are_shown(browser):
    """Seismic Toss deals 100 to Tauros, and misses with one byte of 256; a slower user's Fissure cannot hit."""
    browser.open("#calculator")
    for side in (1, 2):
        type_member(browser, side, member_of("Tauros", "Seismic Toss", "Fissure", "Super Fang"))
    row = lambda move: next(it for it in browser.run(ROWS, 1) if it["move"] == move)
    # Of three uses at most one may miss: 3 * (255 / 256) ** 2 - 2 * (255 / 256) ** 3.
    for hp, once, twice in (("200", "0%", "99.2%"), ("100", "99.6%", ">99.9%")):
        browser.fill("#calc-member-2 [name=hp]", hp)
        found = row("Seismic Toss")
        assert found["damage"][:2] == ["28.3%", "100 HP"] and found["cells"][2:] == [
            once,
            twice,
            ">99.9%",
            "99.6%",
            "—",
        ], found
        assert found["titles"][3] == f"{'65,025' if hp == '200' else '65,535'} of 65,536 ways", found
        assert damage_of(browser, "Super Fang")[1] == f"{int(hp) // 2} HP"
    browser.fill("#calc-member-1 [name=stage-Speed]", "-1")
    assert row("Fissure")["cells"][1:6] == ["the user is slower than the foe", "—", "—", "—", "0%"], row("Fissure")


def what_the_user_pays_is_shown(browser):
    """docs/MECHANICS.md, "Recoil, drain and explosion": a quarter or a half of the damage, which the foe's HP cut."""
    at_calculator(browser)
    show(
        browser,
        (member_of("Tauros", "Take Down", "Mega Drain", "Explosion", "Hyper Beam"), FRESH),
        (member_of("Tauros", "Body Slam"), {**FRESH, "hp": 40}),
    )
    notes = lambda: {row["move"]: row["damage"][2:] for row in browser.run(ROWS, 1)}
    # The 40 HP are all that Take Down takes; of Tauros' 353, 10 are 2.8 per cent.
    assert notes()["Take Down"] == ["recoil 2.8% (10)"], notes()
    least, most = map(int, damage_of(browser, "Mega Drain")[1].split()[0].split("–"))
    assert notes()["Mega Drain"][0].endswith(f"({span(min(least, 40) // 2, min(most, 40) // 2)})"), notes()
    assert notes()["Explosion"] == ["the user faints"] and notes()["Hyper Beam"] == ["recharges"]


def many_hits_are_totals(browser):
    at_calculator(browser)
    show(browser, (member_of("Tauros", "Fury Attack", "Double Kick"), FRESH), (member_of("Tauros", "Body Slam"), FRESH))
    for move, fewest, highest in (("Fury Attack", 2, 5), ("Double Kick", 2, 2)):
        each = [int(number) for number in lists_of(browser, move)[0]]
        assert (
            damage_of(browser, move)[1] == f"{each[0] * fewest}–{each[-1] * highest} HP, {span(fewest, highest)} hits"
        ), move


def a_move_that_is_there_twice_is_a_note(browser):
    at_calculator(browser)
    show(browser, (member_of("Gengar", "Hypnosis", "Explosion"), FRESH), (member_of("Snorlax", "Body Slam"), FRESH))
    browser.fill("#calc-member-1 [name=move-3]", "Explosion")
    assert browser.text("#calc-note") == "Side 1 has Explosion twice." and not browser.text("#calc-fault")
    assert sorted(row["move"] for row in browser.run(ROWS, 1)) == ["Explosion", "Hypnosis"]
    browser.fill("#calc-member-1 [name=move-3]", "")
    assert not browser.text("#calc-note")
    row = next(it for it in browser.run(ROWS, 1) if it["move"] == "Explosion")
    assert row["cells"][3] == "—" and row["titles"][3] == "the user faints in the first use"


def critical_hits_are_totals(browser):
    """Double Kick of Jolteon on Snorlax: (82 * 30 / 50 + 2) * 2 is 102, and at the least factor 86; twice."""
    at_calculator(browser)
    show(browser, (member_of("Jolteon", "Double Kick"), FRESH), (member_of("Snorlax", "Body Slam"), FRESH))
    assert (
        damage_of(browser, "Double Kick")[1] == "90–108 HP, 2 hits"
        and browser.run(ROWS, 1)[0]["cells"][6] == "25.4%172–204"
    )


def a_species_comes_with_its_moves(browser):
    """The last of a line of evolution is found first; a species without a sample has its usual set, and Ditto none."""
    browser.open("#calculator")
    moves = lambda: [
        browser.run(f"return document.querySelector('#calc-member-1 [name=move-{slot}]').value")
        for slot in (1, 2, 3, 4)
    ]
    for letters, species in (("star", "Starmie"), ("exegg", "Exeggutor"), ("magi", "Magikarp"), ("ditto", "Ditto")):
        browser.type("#calc-member-1 [name=species]", letters)
        browser.press(Keys.ENTER)
        assert browser.run("return document.querySelector('#calc-member-1 [name=species]').value") == species
        assert (moves() == ["", "", "", ""]) == (species == "Ditto") and not browser.text("#calc-fault"), (
            species,
            moves(),
        )
        assert species != "Magikarp" or moves() == ["Splash", "Tackle", "", ""]


def an_address_is_a_calculation(browser):
    browser.open("#calculator")
    browser.fill("#calc-member-1 [name=level]", "50")
    browser.fill("#calc-member-2 [name=stage-Defense]", "-3")
    browser.fill("#calc-member-2 [name=hp]", "99")
    press(browser, 2, "Asleep")
    press(browser, 2, "Light Screen")
    press(browser, 1, "Focus Energy")
    browser.wait("return location.hash.includes('c=')")
    shown, pressed = (
        browser.text("#calc-results"),
        "return [...document.querySelectorAll('.member [aria-pressed=true]')].map((it) => it.ariaLabel)",
    )
    marks = browser.run(pressed)
    browser.run("return new Promise((done) => setTimeout(done, 250))")
    address = browser.run("return location.hash")
    browser.open(address)
    assert browser.text("#calc-results") == shown and browser.run(pressed) == marks and len(marks) == 3


def an_older_address_keeps_its_further_move(browser):
    at_calculator(browser)
    show(
        browser,
        (member_of("Tauros", "Body Slam"), FRESH),
        (member_of("Chansey", "Reflect"), FRESH),
        names("Moves").index("Fissure") + 1,
    )
    assert {row["move"] for row in browser.run(ROWS, 1)} == {"Body Slam", "Fissure"}


def a_member_needs_no_moves(browser):
    browser.open("#calculator")
    type_member(browser, 2, member_of("Chansey"))
    assert (
        not browser.text("#calc-fault")
        and len(browser.run(ROWS, 1)) == 4
        and "Choose a move." in browser.text("#calc-results-2")
    )


def a_wrong_field_is_said(browser):
    browser.open("#calculator")
    for field, value, word in (
        ("species", "Missingno.", "Missingno."),
        ("level", "101", "level"),
        ("move-1", "Body Slap", "Body Slap"),
        ("dv-Attack", "", "DV of Attack"),
    ):
        kept = browser.run(f"return document.querySelector('#calc-member-1 [name={field}]').value")
        browser.fill(f"#calc-member-1 [name={field}]", value)
        assert word in browser.text("#calc-fault"), (field, browser.text("#calc-fault"))
        browser.fill(f"#calc-member-1 [name={field}]", kept)
        assert not browser.text("#calc-fault")


def half_a_name_is_no_fault_yet(browser):
    browser.open("#calculator")
    shown = browser.text("#calc-results")
    stale = "return document.getElementById('calc-results').hasAttribute('data-stale')"
    field = "#calc-member-1 [name=move-1]"
    browser.type(field, "Body Sl")
    assert not browser.text("#calc-fault") and browser.run(stale)
    browser.wait("return document.getElementById('calc-fault').textContent")
    assert (
        browser.text("#calc-fault")
        == 'Side 1: there is no move "Body Sl"; did you mean "Body Slam"? The results are those of the previous input.'
    )
    assert browser.run("return document.getElementById('calc-fault').getAttribute('role')") == "status"
    assert (
        browser.run(
            f"const it = document.querySelector('{field}'); return it === document.activeElement && it.getAttribute('aria-invalid')"
        )
        == "true"
    )
    browser.find(field).send_keys("am")
    assert not browser.text("#calc-fault") and not browser.run(stale) and browser.text("#calc-results") == shown
    assert not browser.run("return document.querySelectorAll('[aria-invalid]').length")


def too_many_hp_are_those_of_a_side(browser):
    """Tauros has 353 HP, and Alakazam 313: base 55, DV 15 and maximum experience (docs/MECHANICS.md, "Stats")."""
    browser.open("#calculator")
    for side, name, most in ((1, "Tauros", 353), (2, "Alakazam", 313)):
        browser.fill(f"#calc-member-{side} [name=hp]", str(most + 1))
        assert f"Side {side}: {most + 1} HP are above the maximum of {name}, which is {most}." in browser.text(
            "#calc-fault"
        )
        browser.fill(f"#calc-member-{side} [name=hp]", str(most - 1))
        assert not browser.text("#calc-fault") and f"{most - 1} of {most} HP" in browser.text(
            f"#calc-results-{3 - side}"
        )
        browser.fill(f"#calc-member-{side} [type=range]", str(most))
        assert f"{most} of {most} HP" in browser.text(f"#calc-results-{3 - side}")


def a_text_at_fault_is_that_of_a_side(browser):
    browser.open("#calculator")
    browser.fill("#calc-member-2 textarea", "Tauros\n- Body Slap")
    browser.run("document.querySelector('#calc-member-2 textarea').closest('details').querySelector('button').click()")
    assert browser.notice().startswith("The text of side 2's member: line 2: "), browser.notice()
    assert browser.run("return document.activeElement === document.querySelector('#calc-member-2 textarea')")


def names_are_searched(browser):
    """By keys: letters of a name, or a type; Enter picks, and a species brings the moves of a sample team."""
    browser.open("#calculator")
    browser.type("#calc-member-2 [name=species]", "mew")
    assert browser.words("#calc-member-2 [role=option] .name") == ["Mew", "Mewtwo"]
    browser.type("#calc-member-2 [name=species]", "flying")
    assert {"Zapdos", "Gyarados"} <= set(browser.words("#calc-member-2 [role=option] .name"))
    browser.type("#calc-member-2 [name=species]", "chans")
    shown = lambda: browser.words("#calc-member-2 [role=option] .name")
    assert shown() == ["Chansey"]
    active = "const it = document.activeElement; return [it.role, it.ariaExpanded, document.getElementById(it.getAttribute('aria-activedescendant'))?.textContent]"
    assert browser.run(active) == ["combobox", "true", "ChanseyNormal"]
    browser.press(Keys.ENTER)
    assert (
        browser.run("return document.querySelector('#calc-member-2 [name=species]').value") == "Chansey" and not shown()
    )
    assert "on Chansey" in browser.text("#calc-results-1") and len(browser.run(ROWS, 2)) == 4
    browser.type("#calc-member-2 [name=move-1]", "ice")
    assert shown()[:2] == ["Ice Beam", "Ice Punch"] and "Blizzard" in shown() and "Aurora Beam" in shown()
    assert re.search("Ice Beam.*Ice.*95.*100%.*10 PP", browser.words("#calc-member-2 [role=option]")[0])
    browser.press(Keys.ARROW_DOWN)
    browser.press(Keys.ENTER)
    assert browser.run("return document.querySelector('#calc-member-2 [name=move-1]').value") == "Ice Punch"
    browser.type("#calc-member-2 [name=move-2]", "hyper b")
    browser.press(Keys.TAB)
    assert browser.run("return document.querySelector('#calc-member-2 [name=move-2]').value") == "Hyper Beam"
    assert browser.run("return document.activeElement.name") == "move-3" and not browser.text("#calc-fault")
    # A slow click with the mouse.
    browser.click("#calc-member-2 [name=move-4]")
    option = browser.find("#calc-member-2 [role=option]:nth-child(3)")
    name = browser.words("#calc-member-2 [role=option] .name")[2]
    ActionChains(browser.driver).click_and_hold(option).pause(0.4).release().perform()
    assert browser.run("return document.querySelector('#calc-member-2 [name=move-4]').value") == name and not shown()
    browser.type("#calc-member-2 [name=move-1]", "zzz")
    assert not shown()
    browser.press(Keys.ESCAPE)


def all_results_are_in_view(browser):
    """Both tables and the line at the size of a laptop; on a phone a table stays while the fields are scrolled."""
    inside = """return [...document.querySelectorAll(arguments[0])].filter((it) => it.checkVisibility()).map((it) => it.getBoundingClientRect())
      .every((it) => it.top >= 0 && it.left >= 0 && it.bottom <= innerHeight && it.right <= innerWidth)"""
    browser.look(1280, 800, "light")
    browser.open("#calculator")
    assert browser.run("return document.querySelectorAll('#calc-results tbody tr').length") == 8
    assert browser.run(
        inside, "#calc-results tr, #calc-line, #calc-chosen button, .member .toggle, .member select, .member .name-row"
    )
    browser.run(
        "document.querySelectorAll('.member details').forEach((it) => (it.open = true)); document.getElementById('calc-attacker').scrollIntoView({block: 'end'})"
    )
    assert browser.run("return scrollY > 100") and browser.run(inside, "#calc-results tr")
    browser.look(390, 844, "light")
    browser.open("#calculator")
    for place in (0, 600, 9999):
        browser.run("window.scrollTo(0, arguments[0])", place)
        assert (
            browser.run(
                "return [...document.querySelectorAll('#calc-results tbody tr')].filter((it) => it.checkVisibility()).length"
            )
            == 4
        )
        assert browser.run(inside, "#calc-results tr"), place
    assert browser.run("return document.getElementById('calc-results').offsetHeight") < 844 * 0.4
    press_direction = "document.getElementById('calc-from-2').click(); return document.getElementById('calc-results-2').checkVisibility()"
    assert browser.run(press_direction) and not browser.run(
        "return document.getElementById('calc-results-1').checkVisibility()"
    )
    browser.look(1280, 960, "light")


BARS = """
return [...document.querySelectorAll('#calc-plot rect:not(.enough)')].map((it) => [it.classList[0], ...it.textContent.split(/ HP: /)]);
"""


def bars_of(move):
    """The bars of a move by the numbers of `gen1 calc --json`: how it hits, the damage, and its chance."""
    lands, hard, found = move["hit_draws"] / 256, move["critical_draws"] / 256, {}
    for kind, numbers, part in (("usual", move["usual"], 1 - hard), ("critical", move["critical"], hard)):
        for hits, eighths in enumerate(move["hits"]):
            for number in numbers if eighths else []:
                key = (kind, number * hits)
                found[key] = found.get(key, 0) + lands * part * eighths / 8 / len(numbers)
    return found


def the_plot_has_exact_chances(browser):
    if not browser.program:
        return
    at_calculator(browser)
    one, two = member_of("Jolteon", "Pin Missile", "Double Kick", "Thunder"), member_of("Snorlax", "Body Slam")
    show(browser, (one, FRESH), (two, FRESH))
    words = [browser.program, "calc", "--json", *state_words(1, one, FRESH), *state_words(2, two, FRESH)]
    for move in json.loads(subprocess.run(words, capture_output=True, text=True, check=True).stdout)["moves"]:
        choose(browser, move["move"])
        wanted, shown = bars_of(move), browser.run(BARS)
        assert {(kind, int(number)) for kind, number, _ in shown} == set(wanted), move["move"]
        assert all(chance == percent(wanted[kind, int(number)]) for kind, number, chance in shown), move["move"]
        legend = browser.text("#calc-plot .legend")
        assert f"a miss: {percent(1 - move['hit_draws'] / 256)}" in legend and "knocks out: from 523 HP" in legend
        label = browser.run("return document.querySelector('#calc-plot svg').getAttribute('aria-label')")
        assert label.startswith(f"Damage of one use of {move['move']}: usual ") and "critical" in label
    show(browser, (member_of("Chansey", "Recover"), FRESH), (two, FRESH))
    assert not browser.run("return document.querySelectorAll('#calc-plot *').length")


CHECKS = [
    half_a_name_is_no_fault_yet,
    too_many_hp_are_those_of_a_side,
    a_text_at_fault_is_that_of_a_side,
    recorded_calculations_come_out,
    calculations_are_those_of_the_library,
    the_best_move_is_first,
    chances_of_a_knock_out_and_fixed_damage_are_shown,
    what_the_user_pays_is_shown,
    many_hits_are_totals,
    critical_hits_are_totals,
    a_move_that_is_there_twice_is_a_note,
    a_species_comes_with_its_moves,
    a_text_is_taken,
    stages_status_and_screens_count,
    an_address_is_a_calculation,
    an_older_address_keeps_its_further_move,
    a_member_needs_no_moves,
    a_wrong_field_is_said,
    names_are_searched,
    the_plot_has_exact_chances,
    all_results_are_in_view,
]
