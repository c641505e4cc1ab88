"""Members of a battle in the calculator, and one member against a team."""
import base64
import json
import random
import subprocess

from selenium.webdriver.common.keys import Keys

from checks.calculator import FRESH, ROWS, member_of, percent, show, span, state_words

FACED = """
return [...document.querySelectorAll('#calc-foes tbody tr')].map((row) => [row.dataset.foe, ...[...row.querySelectorAll('td')].map((it) => it.textContent)]);
"""


def uses(move):
    """The chances to knock out in one use, two and three; the list of the program ends where they are 1."""
    return (move["knock_out"]["uses"] + [1] * 2)[:3]


def faced(move, hp):
    """A cell of the table of a team, by an object of `gen1 calc --json`."""
    ends = [move["usual"][0], move["usual"][-1]] if move["usual"] else move["fixed"]
    shares = span(*(f"{100 * number / hp:.1f}" for number in ends))
    return f"{move['move']} {shares}%KO {' / '.join(map(percent, uses(move)))}"


def a_team_is_faced(browser):
    """A sample team: for each member the best move each way, by `gen1 calc`; the foe that falls soonest is first, and a press makes it the defender."""
    if not browser.program:
        return
    browser.open("#calculator")
    user = member_of("Tauros", "Body Slam", "Hyper Beam", "Blizzard", "Earthquake")
    show(browser, (user, FRESH), (member_of("Starmie", "Surf"), FRESH))
    assert not browser.run(FACED)
    browser.find("#calc-foes-open").send_keys(Keys.ENTER)
    browser.wait("return document.querySelectorAll('#calc-foes tbody tr').length === 6")
    assert browser.run("return document.activeElement.id") == "calc-team"
    rows, keys = browser.run(FACED), []
    for number, (species, best, reply) in enumerate(rows):
        browser.run("document.getElementById(arguments[0]).click()", f"calc-foe-{number}")
        assert browser.run("return document.querySelector('#calc-member-2 [name=species]').value") == species
        moves = browser.run(
            "return [...document.querySelectorAll('#calc-member-2 [name^=move-]')].map((it) => it.value)"
        )
        foe = member_of(species, *filter(None, moves))
        both = [
            state_words(1, user, FRESH) + state_words(2, foe, FRESH),
            state_words(1, foe, FRESH) + state_words(2, user, FRESH),
        ]
        asked = [
            json.loads(
                subprocess.run(
                    [browser.program, "calc", "--json", *words], capture_output=True, text=True, check=True
                ).stdout
            )
            for words in both
        ]
        for found, shown in zip(asked, (best, reply)):
            harmful = [move for move in found["moves"] if move.get("knock_out") and "reason" not in move]
            chosen = next(move for move in harmful if shown.startswith(move["move"] + " "))
            top = max(uses(move)[:2] for move in harmful)
            assert uses(chosen)[:2] == top, (shown, harmful)
            if chosen["move"] not in ("Explosion", "Self-Destruct"):
                assert shown == faced(chosen, found["defender"]["max_hp"]), (shown, chosen)
        keys.append(max(uses(move)[:2] for move in asked[0]["moves"]))
    assert keys == sorted(keys, reverse=True) and len({row[0] for row in rows}) == 6, keys


BATTLE = """
return {moves: [...document.querySelectorAll('#play-choices-1 .to-move')].map((it) => [it.querySelector('strong').textContent, it.querySelector('.odds').title]),
  hp: [...document.querySelectorAll('#play-field [role=meter]')].map((it) => Number(it.ariaValueNow)),
  states: [...document.querySelectorAll('#play-field .stand')].map((it) => it.querySelector('.status .long, .health > span:empty')?.textContent ?? '')};
"""
CALCULATOR = """
const form = (side) => document.getElementById(`calc-member-${side}`);
return {hp: [1, 2].map((side) => Number(form(side).querySelector('[type=range]').value)),
  stages: [1, 2].map((side) => [...form(side).querySelectorAll('[name^=stage-]')].map((it) => Number(it.value))),
  on: [1, 2].map((side) => [...form(side).querySelectorAll('[aria-pressed=true]')].map((it) => it.ariaLabel)),
  moves: [1, 2].map((side) => [...form(side).querySelectorAll('[name^=move-]')].map((it) => it.value)),
  now: [...form(1).querySelectorAll('.now')].map((it) => it.textContent)};
"""
FIGHT = "Chansey\n- Swords Dance\n- Double Kick\n- Ice Beam\n- Reflect"
BURNS = "Chansey\n- Fire Blast\n- Splash\n- Substitute\n- Growl"


def begin_fight(browser, seed, hands, address="#play"):
    """Begins a battle in a page that is loaded at an address, or without one in the page as it is."""
    if address:
        browser.open(address)
    else:
        browser.run("document.getElementById('play-again').click()")
    for side, text in ((1, FIGHT), (2, BURNS)):
        browser.fill(f"#play-team-{side}", text)
        browser.fill(f"#play-who-{side}", "person")
    browser.fill("#play-seed", seed)
    browser.run("document.getElementById('play-open').checked = arguments[0]", hands == "open")
    browser.click("#play-start")


def use(browser, *moves):
    """Both sides use a move, in open hands."""
    before = browser.run("return document.getElementById('play-game').dataset.updates")
    for side, move in zip((1, 2), moves):
        browser.run(
            "[...document.querySelectorAll(`#play-choices-${arguments[0]} .to-move`)].find((it) => it.querySelector('strong').textContent === arguments[1]).click()",
            side,
            move,
        )
    browser.wait(f"return document.getElementById('play-game').dataset.updates !== '{before}'")


def a_battle_comes_into_the_calculator_and_back(browser):
    """A burned Chansey's Swords Dance: its Attack is twice its own, without the half of a burn, which the calculator would count; so the damage is that of the battle."""
    draw = random.Random(77)
    for number in range(40):
        seed = " ".join(str(draw.randrange(256)) for _ in range(10))
        begin_fight(browser, seed, "open", "" if number else "#play")
        use(browser, "Reflect", "Fire Blast")
        if "is burned" in browser.text("#play-lines"):
            break
    use(browser, "Swords Dance", "Substitute")
    battle = browser.run(BATTLE)
    browser.click("#play-calculate")
    found = browser.run(CALCULATOR)
    assert browser.run("return document.activeElement.id") == "calc-back"
    assert browser.text("#calc-from-text") == "Turn 3 of the battle."
    assert found["hp"] == battle["hp"] and found["stages"] == [[2, 0, 0, 0, 0, 0], [0] * 6], (found, battle)
    assert found["on"] == [["Burned", "Reflect"], ["Substitute"]] and found["now"][0] == "→ 216", found
    for row in browser.run(ROWS, 1):
        title = dict(battle["moves"])[row["move"]]
        if row["damage"]:
            assert row["damage"][1].split(",")[0] == title.split(",")[0], (row, title)
    # The address keeps the stats of the battle; a stage that is chosen has them recomputed.
    browser.wait("return location.hash.startsWith('#calculator?c=')")
    address = browser.run("return location.hash")
    browser.press(Keys.ENTER)
    assert browser.run("return document.activeElement.id") == "play-calculate"
    assert not browser.run("return document.getElementById('panel-play').hidden")
    browser.open(address)
    assert browser.run(CALCULATOR) == found and not browser.run(
        "return document.getElementById('calc-from').checkVisibility()"
    )
    browser.fill("#calc-member-1 [name=stage-Attack]", "2")
    # Twice 108, and half of that: its own Attack, so no other number is shown.
    assert browser.run(CALCULATOR)["now"][0] == ""


def damaged_values_of_a_battle_are_refused(browser):
    """After two members of 34 bytes and one byte, each has four stats, two types and the HP of its Substitute."""
    begin_fight(browser, "3 1 4 1 5 9 2 6 5 3", "open")
    browser.click("#play-calculate")
    code = browser.wait("return location.hash.startsWith('#calculator?c=') && location.hash.slice(14)")
    whole = base64.urlsafe_b64decode(code + "=" * (-len(code) % 4))
    assert len(whole) == 2 * 34 + 1 + 2 * 11
    stats = lambda value: whole[:69] + value.to_bytes(2, "little") + whole[71:]
    for damaged, message in (
        (stats(1000), "the members cannot be in this state"),
        (whole[:77] + b"\x63" + whole[78:], "there is no such type"),
        (whole[:-1], "it does not have two members"),
    ):
        browser.open(f"#calculator?c={base64.urlsafe_b64encode(damaged).decode().rstrip('=')}")
        assert message in browser.notice() + browser.text("#calc-fault"), (message, browser.text("#calc-fault"))
    browser.open(f"#calculator?c={code}")
    assert not browser.notice() + browser.text("#calc-fault")


def what_is_hidden_does_not_come_into_the_calculator(browser):
    """In covered hands the foe has a usual set, and of its team only what came out; none of its moves before they are used."""
    begin_fight(browser, "3 1 4 1 5 9 2 6 5 3", "covered")
    browser.fill("#play-team-2", f"{BURNS}\n\nPorygon\n- Splash")
    browser.fill("#play-who-2", "random")
    browser.run("document.getElementById('play-again').click()")
    browser.click("#play-start")
    browser.click("#play-calculate")
    found = browser.run(CALCULATOR)
    assert not {"Fire Blast", "Splash", "Substitute", "Growl"} & set(found["moves"][1]) and all(
        found["moves"][1]
    ), found
    assert found["moves"][0] == ["Swords Dance", "Double Kick", "Ice Beam", "Reflect"]
    assert "highest possible stats" in browser.text("#calc-from-text")
    browser.click("#calc-foes-open")
    browser.wait("return document.querySelectorAll('#calc-foes tbody tr').length")
    assert (
        browser.run("return document.getElementById('calc-team').selectedOptions[0].text") == "In the battle: The foe"
    )
    assert [row[0] for row in browser.run(FACED)] == ["Chansey"] and "Porygon" not in browser.text("#panel-calculator")


def a_replay_comes_into_the_calculator(browser):
    """The HP are those of the field. So they are in the spectator's view, which has no stats or moves."""
    browser.open("#replay")
    browser.click("#replay-example")
    assert browser.run("return document.getElementById('replay-calculate').ariaDisabled") == "false"
    for see, word in (("all", "Turn 9 of the replay."), ("spectator", "highest possible stats")):
        browser.fill("#replay-turn", "9")
        browser.fill("#replay-see", see)
        hp = browser.run(
            "return [...document.querySelectorAll('#replay-field [role=meter]')].map((it) => Number(it.ariaValueNow))"
        )
        browser.click("#replay-calculate")
        assert browser.run(CALCULATOR)["hp"] == hp and word in browser.text("#calc-from-text"), (see, hp)
        browser.click("#calc-back")
        assert browser.run("return document.activeElement.id") == "replay-calculate"
    browser.click("#replay-first")
    assert browser.run("return document.getElementById('replay-calculate').ariaDisabled") == "true"
    browser.click("#replay-calculate")
    assert browser.run("return document.getElementById('panel-calculator').hidden")


CHECKS = [
    a_team_is_faced,
    a_battle_comes_into_the_calculator_and_back,
    damaged_values_of_a_battle_are_refused,
    what_is_hidden_does_not_come_into_the_calculator,
    a_replay_comes_into_the_calculator,
]
