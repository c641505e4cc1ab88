"""The team builder: members and their stats, the team as text, teams that are kept, and the sample teams."""
import json
import random
import re
import subprocess

from selenium.webdriver.common.keys import Keys

from checks.calculator import some_member
from checks.cases import ROOT

FILES = sorted((ROOT / "examples" / "teams").glob("*.txt"))
FULL = {"species": "Tauros", "level": 100, "dvs": [15] * 4, "exp": [65535] * 5, "moves": [["Surf", 3]]}
# Kept teams with something that isn't a name or is out of range.
WRONG = [
    [{"name": "x", "members": [{**FULL, **more}]}]
    for more in ({"species": "Missingno."}, {"level": "a"}, {"dvs": [15] * 5}, {"moves": [["Body Slap", 3]]})
]
TAUROS = "Tauros\n- Body Slam\n- Hyper Beam\n- Blizzard\n- Earthquake\n"


def fresh(browser, address="#teams"):
    """Opens the builder in a browser that has kept no team."""
    browser.open(address, first="localStorage.removeItem('teams')")


def read(browser, text):
    browser.fill("#teams-text", text)
    browser.click("#teams-read")


def field(browser, name):
    return browser.run("return document.querySelector(`#teams-member [name='${arguments[0]}']`).value", name)


def put(browser, name, value):
    browser.fill(f"#teams-member [name='{name}']", value)


def text_of(browser):
    return browser.run("return document.getElementById('teams-text').value")


def members(browser):
    return browser.words("#teams-slots strong")


def stats(browser):
    return [int(number) for number in browser.words(".stat-bars strong")]


def wanted_words(effect):
    """The text for an effect with numbers, by docs/TABLES.md, "Effects"; None for others."""
    if found := re.fullmatch(r"(\w+)Chance\((\d+)\)", effect):
        verb = {"Burn": "burns", "Paralysis": "paralyses", "Poison": "poisons", "Flinch": "flinches"}
        return f"{verb.get(found[1], 'confuses')} at {100 * int(found[2]) / 256:.1f}%"
    if found := re.fullmatch(r"Stat(Up|Down)\((\w+), (\d)\)", effect):
        return f"{found[2]} +{found[3]}" if found[1] == "Up" else f"foe's {found[2]} −{found[3]}"
    if found := re.fullmatch(r"StatDownChance\((\w+)\)", effect):
        return f"foe's {found[1]} −1 at {100 * 85 / 256:.1f}%"
    return f"freezes at {100 * 26 / 256:.1f}%" if effect == "FreezeChance" else None


def moves_say_what_they_do(browser):
    """Each move that deals no damage, and each effect with numbers."""
    fresh(browser)
    read(browser, TAUROS)
    section = (ROOT / "docs" / "TABLES.md").read_text().partition("\n## Moves\n")[2]
    rows = re.findall(r"^\| \d+ \| ([^|]+) \| (\w+) \| (\d+) \| (\d+) \| (\d+) \| (.+?) \|$", section, re.M)
    said = 0
    for name, _, power, accuracy, pp, effect in rows:
        put(browser, "move-1", name)
        text = browser.run("return document.querySelector('#teams-member .move-facts').textContent")
        head, _, words = text.partition(f"{accuracy}% · {pp} PP")
        assert head and (words or power != "0" or effect in ("FixedDamage", "LeftOut")), (name, text)
        if wanted := wanted_words(effect):
            assert words == f" · {wanted}", (name, text)
            said += 1
    assert len(rows) == 165 and said > 50, (len(rows), said)


def stats_follow_the_fields(browser):
    """Values of docs/MECHANICS.md, "Stats": Tauros has HP 353, Attack 298, Defense 288, Speed 318 and Special 238; Chansey 703 HP."""
    fresh(browser)
    read(browser, TAUROS)
    assert stats(browser) == [353, 298, 288, 318, 238]
    put(browser, "level", "50")
    # points = ((75 + 15) * 2 + 63) * 50 / 100 = 121 for HP, and 121 + 50 + 10 = 181.
    assert stats(browser)[0] == 181
    put(browser, "level", "100")
    put(browser, "dv-Attack", "14")
    # (100 + 14) * 2 + 63 + 5; the DV of HP loses 8, and so HP 16.
    assert stats(browser)[:2] == [337, 296]
    put(browser, "exp-Speed", "0")
    # 63 less for a root of 0 than for one of 255.
    assert stats(browser)[3] == 255
    put(browser, "species", "Chansey")
    put(browser, "dv-Attack", "15")
    assert stats(browser)[0] == 703


def members_are_found_by_keys(browser):
    """Letters of a name, or a type; a species without moves gets those of a sample team."""
    fresh(browser)
    browser.click("#teams-new")
    assert members(browser) == ["Add a member"] and browser.run("return document.activeElement.name") == "species"
    browser.press("snor")
    browser.press(Keys.ENTER)
    assert members(browser) == ["Snorlax", "Add a member"] and all(
        field(browser, f"move-{slot}") for slot in (1, 2, 3, 4)
    )
    browser.type("#teams-member [name=move-1]", "surf")
    assert "Surf" in browser.text("#teams-member [role=option]") and "95 · 100% · 15 PP" in browser.text(
        "#teams-member [role=option]"
    )
    browser.press(Keys.ENTER)
    assert text_of(browser).startswith("Snorlax\n- Surf\n") and "95 · 100% · 15 PP" in browser.text(
        "#teams-member .move-facts"
    )
    browser.run("document.querySelectorAll('.slot')[1].click()")
    put(browser, "species", "Gengar")
    put(browser, "move-1", "Hypnosis")
    assert members(browser) == ["Snorlax", "Gengar", "Add a member"] and text_of(browser).endswith(
        "\n\nGengar\n- Hypnosis\n"
    )


def texts_are_those_of_the_program(browser):
    """What the builder writes is what `gen1 team` writes, and the builder reads it as the same members."""
    if not browser.program:
        return
    fresh(browser)
    draw = random.Random(4)
    for _ in range(20):
        team = [some_member(draw) for _ in range(draw.randint(1, 6))]
        for member in team:
            member["dvs"] = [draw.choice([15, 15, draw.randint(0, 15)]) for _ in range(4)]
            member["exp"] = [draw.choice([65535, 65535, draw.randint(0, 65535)]) for _ in range(5)]
        made = subprocess.run(
            [browser.program, "team"], input=json.dumps(team), capture_output=True, text=True, check=True
        ).stdout
        read(browser, "=== [gen1ou] Drawn ===\n\n" + made)
        assert not browser.notice() and text_of(browser) == made, (text_of(browser), made)
        assert browser.run("return document.getElementById('teams-name').value") == "Drawn"
        packed = subprocess.run(
            [browser.program, "team", "--packed"], input=json.dumps(team), capture_output=True, text=True, check=True
        ).stdout
        read(browser, packed)
        assert text_of(browser) == made


def teams_are_kept(browser):
    fresh(browser)
    read(browser, "=== First ===\n\n" + TAUROS)
    browser.click("#teams-copy")
    browser.fill("#teams-name", "Second")
    put(browser, "species", "Chansey")
    browser.open("#teams")
    assert browser.words("#teams-which optgroup")[0].startswith("FirstSecond")
    assert members(browser) == ["Tauros", "Add a member"]
    browser.fill("#teams-which", "1")
    assert members(browser)[0] == "Chansey"
    browser.click("#teams-delete")
    assert (
        members(browser)[0] == "Tauros" and browser.run("return JSON.parse(localStorage.getItem('teams')).length") == 1
    )
    for broken in ("{", "[1]", '{"a": 1}', '[{"name": "x", "members": [{}]}]', *map(json.dumps, WRONG)):
        browser.run("localStorage.setItem('teams', arguments[0])", broken)
        browser.open("#teams")
        assert not browser.notice() and len(members(browser)) == 6, broken
    browser.run("localStorage.removeItem('teams')")


def a_kept_member_is_offered_in_the_calculator(browser):
    fresh(browser)
    read(browser, "Tauros\nLevel: 68\n- Fly\n")
    browser.open("#calculator")
    browser.type("#calc-member-1 [name=species]", "tauros")
    browser.press(Keys.ENTER)
    found = [
        browser.run("return document.querySelector(`#calc-member-1 [name='${arguments[0]}']`).value", name)
        for name in ("level", "move-1", "move-2")
    ]
    assert found == ["68", "Fly", ""], found
    browser.run("localStorage.removeItem('teams')")


def a_browser_that_keeps_nothing_says_so(browser):
    fresh(browser)
    browser.run("Storage.prototype.setItem = () => { throw new DOMException('no', 'QuotaExceededError'); }")
    read(browser, TAUROS)
    assert "does not keep teams" in browser.text("#teams-kept") and not browser.notice()
    assert text_of(browser) == TAUROS


def sample_teams_are_whole(browser):
    """Each file of examples/teams is a team of six that can battle. A change makes a copy, and the sample stays."""
    fresh(browser)
    titles = [path.read_text().splitlines()[0].strip("= ") for path in FILES]
    options = browser.words("#teams-which option")
    assert len(FILES) >= 12 and options == titles
    for at, path in enumerate(FILES):
        browser.fill("#teams-which", str(at))
        assert text_of(browser) == path.read_text().partition("\n")[2].lstrip() and not browser.text("#teams-state")
    put(browser, "level", "50")
    assert browser.words("#teams-which optgroup")[0] == titles[-1] and "Level: 50" in text_of(browser)
    browser.fill("#teams-which", str(len(FILES)))
    assert "Level: 50" not in text_of(browser) and browser.run(
        "return document.getElementById('teams-delete').disabled"
    )
    browser.run("localStorage.removeItem('teams')")


def members_are_moved_and_removed(browser):
    fresh(browser)
    read(browser, "Tauros\n- Body Slam\n\nChansey\n- Reflect\n\nJynx\n- Blizzard\n")
    browser.click("#teams-right")
    assert members(browser) == ["Chansey", "Tauros", "Jynx", "Add a member"] and field(browser, "species") == "Tauros"
    browser.click("#teams-drop")
    assert members(browser) == ["Chansey", "Jynx", "Add a member"] and field(browser, "species") == "Jynx"
    browser.click("#teams-left")
    assert members(browser)[:2] == ["Jynx", "Chansey"] and text_of(browser).startswith("Jynx\n- Blizzard\n")


def wrong_members_are_named(browser):
    fresh(browser)
    read(browser, TAUROS)
    put(browser, "move-2", "Body Slam")
    assert browser.text("#teams-state") == "Member 1: a move is there twice."
    browser.click("#teams-play-1")
    assert browser.notice() == "Member 1: a move is there twice."
    put(browser, "move-2", "Body Slap")
    assert (
        browser.text("#teams-fault")
        == 'This member: there is no move "Body Slap"; did you mean "Body Slam"? The team keeps the member as it was.'
        and text_of(browser).count("- Body Slam") == 2
    )
    put(browser, "move-2", "Surf")
    put(browser, "level", "0")
    assert "the level must be a whole number from 1 to 100" in browser.text("#teams-fault")
    read(browser, "Tauros\n- Body Slap")
    assert (
        browser.notice().startswith("The text: line 2: ")
        and browser.run("return document.activeElement.id") == "teams-text"
    )


def a_wrong_value_changes_nothing(browser):
    """Level 101 is typed by way of 1 and 10."""
    fresh(browser)
    read(browser, TAUROS)
    put(browser, "level", "50")
    kept = text_of(browser), stats(browser)
    browser.type("#teams-member [name=level]", "101")
    browser.wait("return document.getElementById('teams-fault').textContent")
    assert browser.text("#teams-fault").endswith("from 1 to 100. The team keeps the member as it was.")
    assert (text_of(browser), stats(browser)) == kept and "Level: 50" in kept[0] and field(browser, "level") == "101"
    browser.type("#teams-member [name=level]", "55")
    assert "Level: 55" in text_of(browser) and not browser.text("#teams-fault")


def new_teams_have_different_names(browser):
    fresh(browser)
    for name in ("My team", "My team 2", "My team 3"):
        browser.click("#teams-new")
        assert browser.run("return document.getElementById('teams-name').value") == name
    browser.run("localStorage.removeItem('teams')")


def a_link_holds_a_team(browser):
    fresh(browser)
    read(browser, "Tauros\nLevel: 74\nIVs: 20 Def\n- Body Slam\n- Fly\n\nMew\n- Amnesia\n")
    text = text_of(browser)
    browser.run("return new Promise((done) => setTimeout(done, 250))")
    address = browser.run("return location.hash")
    browser.run("localStorage.removeItem('teams')")
    browser.open(address)
    assert text_of(browser) == text and browser.words("#teams-which option")[0] == "Team from a link"
    for code in ("AAAA", "A" * 32, "_" * 32):
        browser.open(f"#teams?t={code}")
        assert "damaged" in browser.notice(), (code, browser.notice())


def rules_are_checked(browser):
    """A legal team, and one violation each, in the words of gen1-showdown (rust/gen1-cli/tests/texts.rs)."""
    fresh(browser)
    for text, format, due in (
        ("Tauros||||bodyslam|||||||", "gen1ou", []),
        ("Mewtwo||||rest|||||||", "gen1ou", ["member 1 (Mewtwo): species that are not banned; found Mewtwo"]),
        ("Mewtwo||||rest|||||||", "gen1ubers", []),
        ("Tauros||||rest|||||||", "gen1uu", ["member 1 (Tauros): species that are not banned; found Tauros"]),
        (
            "Ditto||||bind|||||||]Onix||||rest,fissure|||||||",
            "gen1ubers",
            ["member 2 (Onix): OHKO Clause: OHKO moves are banned; found Fissure"],
        ),
        (
            "Onix||||dig|||||||]Onix||||doubleteam|||||||",
            "gen1ou",
            [
                "member 1 (Onix): Invulnerability Clause: Dig and Fly are banned; found Dig",
                "member 2 (Onix): Species Clause: Limit one of each Pokémon; found another Onix",
                "member 2 (Onix): Evasion Moves Clause: Evasion moves are banned; found Double Team",
            ],
        ),
        ("Onix||||dig|||||||]Onix||||doubleteam|||||||", "gen1customgame", []),
    ):
        read(browser, text)
        browser.fill("#teams-format", format)
        assert browser.words("#teams-complaints li") == due, (text, browser.words("#teams-complaints li"))


def a_team_is_picked_for_a_battle(browser):
    """A team is from the person's and the sample teams. A team of the computer may be drawn. A text isn't in the list."""
    fresh(browser)
    read(browser, TAUROS)
    browser.fill("#teams-name", "Mine")
    browser.click("#tab-play")
    listed = lambda side: browser.words(f"#play-pick-{side} option")
    titles = [path.read_text().partition("\n")[0].strip("= ") for path in FILES]
    assert listed(1) == ["Mine", *titles, "as text, below"]
    assert listed(2) == ["a sample team that is not shown", *listed(1)]
    for title, text in (("Mine", TAUROS), (titles[3], FILES[3].read_text().partition("\n")[2])):
        value = (
            "return [...document.getElementById('play-pick-2').options].find(({text}) => text === arguments[0]).value"
        )
        browser.fill("#play-pick-2", browser.run(value, title))
        assert browser.run("return document.getElementById('play-team-2').value").strip() == text.strip()
        assert browser.words("#play-picked-2 li > span:last-child") == re.findall(r"^([A-Z][^\n]*)\n(?=- )", text, re.M)
    # The side of a person has no drawn team, and an unknown text belongs to no team.
    browser.fill("#play-who-2", "person")
    assert listed(2) == listed(1)
    browser.fill("#play-team-2", "Tauros\n- Surf")
    assert browser.run("return document.getElementById('play-pick-2').selectedOptions[0].text") == "as text, below"
    assert browser.words("#play-picked-2 li > span:last-child") == ["Tauros"]
    browser.fill("#play-team-2", "Tauros\n- Surrf")
    assert not browser.words("#play-picked-2 li > span:last-child") and not browser.notice()
    browser.run("localStorage.removeItem('teams')")


def a_team_goes_to_play(browser):
    fresh(browser)
    read(browser, TAUROS)
    browser.click("#teams-play-1")
    assert browser.run("return document.getElementById('play-team-1').value") == TAUROS and not browser.run(
        "return document.getElementById('panel-play').hidden"
    )
    browser.click("#play-start")
    assert not browser.notice() and "Turn 1" in browser.text("#play-now")


CHECKS = [
    stats_follow_the_fields,
    members_are_found_by_keys,
    moves_say_what_they_do,
    texts_are_those_of_the_program,
    teams_are_kept,
    a_kept_member_is_offered_in_the_calculator,
    a_browser_that_keeps_nothing_says_so,
    sample_teams_are_whole,
    members_are_moved_and_removed,
    wrong_members_are_named,
    a_wrong_value_changes_nothing,
    new_teams_have_different_names,
    a_link_holds_a_team,
    rules_are_checked,
    a_team_is_picked_for_a_battle,
    a_team_goes_to_play,
]
