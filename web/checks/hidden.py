"""What a player may not know is nowhere in the page, nor in what it saves: facts are planted in 50 battles, and searched at each turn."""
import json
import random
import re

from checks.cases import address_of, lines_in, names
from checks.play import SETTLED, choose_first
from checks.replay import PARTIES
from checks.tabs import COPIES

BATTLES, TURNS, EXPORTS = 50, 5, 10
OWN = ("Tauros", "Chansey", "Zapdos")
FOES = (
    "Rhydon",
    "Lapras",
    "Gengar",
    "Jynx",
    "Cloyster",
    "Machamp",
    "Alakazam",
    "Golem",
    "Arcanine",
    "Pinsir",
    "Electabuzz",
    "Persian",
)
OWN_MOVES = ("Body Slam", "Drill Peck", "Ice Beam")
# Moves whose names are not also other words of the page, such as types.
FOE_MOVES = (
    "Rock Slide",
    "Surf",
    "Blizzard",
    "Clamp",
    "Submission",
    "Horn Attack",
    "Earthquake",
    "Fire Blast",
    "Vice Grip",
    "Thunder Punch",
    "Slash",
    "Crabhammer",
    "Lick",
    "Aurora Beam",
    "Stomp",
)
# At one moment: the events in the log, all that the page holds, the foe's side of the field, and how many choices are offered.
SEEN = """
const far = document.querySelector('#play-field .far').textContent;
const form = [...document.querySelectorAll('#panel-play input, #panel-play textarea')].map((it) => it.value).join(' ');
const shown = document.getElementById('panel-play').cloneNode(true);
for (const it of shown.querySelectorAll('select')) it.remove();
document.querySelector('#play-field .far .party button')?.click();
const card = document.getElementById('play-card').cloneNode(true);
// What a species may know is from the sample teams, whatever this foe knows.
for (const it of card.querySelectorAll('[data-part^="May know"]')) it.remove();
document.dispatchEvent(new KeyboardEvent('keydown', {key: 'Escape'}));
const codes = [...document.querySelectorAll('#play-lines [data-code]')].map((it) => it.dataset.code);
const offered = document.querySelectorAll('#play-choices-1 [data-choice]').length;
return [codes, [shown.outerHTML, card.outerHTML, form, document.title, location.href, document.getElementById('messages').textContent, JSON.stringify(history.state), JSON.stringify(localStorage)].join(' '), far, offered];
"""


def member(species, moves, level):
    return {
        "species": species,
        "level": level,
        "dvs": [15] * 4,
        "exp": [65535] * 5,
        "moves": [[move, 3] for move in moves],
    }


def planted(number):
    """An input with a foe whose members, moves, levels and HP no other check has."""
    draw = random.Random(number)
    foes, moves, levels = draw.sample(FOES, 3), draw.sample(FOE_MOVES, 6), draw.sample(range(61, 91), 3)
    two = [member(species, moves[2 * at : 2 * at + 2], levels[at]) for at, species in enumerate(foes)]
    return {
        "seed": [201 + draw.randrange(50) for _ in range(10)],
        "one": [member(it, OWN_MOVES, 100) for it in OWN],
        "two": two,
        "choices": [[0, 0]],
    }


def unknown(asked, lines):
    """The facts that the lines have not shown: members, moves, the seed, and the foe's maximum HP."""
    told = "\n".join(lines)
    facts = [it["species"] for it in asked["two"] if f"|{it['species']}" not in told]
    facts += [move for it in asked["two"] for move, _ in it["moves"] if f"|{move}|" not in told]
    facts += [" ".join(map(str, asked["seed"])), ",".join(map(str, asked["seed"]))]
    levels = [it["level"] for it in asked["two"] if f"|{it['species']}" not in told]
    return facts + [text for level in levels for text in (f">L{level}<", f"level {level}", f", L{level}")]


def exports(browser):
    """Each file that is saved, and the link, as text."""
    found = []
    for name, file in (
        ("page", "battle.html"),
        ("input", "battle.json"),
        ("log", "battle.log"),
    ):
        browser.run("document.getElementById('play-menu').open = true")
        found.append(browser.saved(f"#play-share [data-share={name}]", file))
    browser.run("window.copied = ''; document.getElementById('play-menu').open = true")
    browser.click("#play-share [data-share=link]")
    return found, browser.wait("return window.copied")


def test_exports(browser, asked, lines):
    """The files and the link hold the log as it is reported to side 1, and nothing else."""
    (page, held, log), link = exports(browser)
    # Only the battle that the page holds differs from the page that everybody has.
    battle = re.search(r'<script id="battle" type="application/json">(.*?)</script>', page.decode())[1]
    sizes = [len(asked[side]) for side in ("one", "two")]
    assert json.loads(battle) == json.loads(held) == {"log": log.hex(), "sizes": sizes}
    species = names("Species")
    for it in asked["two"]:
        if f"|{it['species']}" not in "\n".join(lines):
            assert bytes([2, 2, species.index(it["species"]) + 1]) not in log
    assert re.fullmatch(r"[^#]*#replay\?b=s[\w-]+", link), link
    browser.open(f"#{link.partition('#')[2]}&u=9999")
    browser.click("#replay-whole summary")
    browser.wait("return document.querySelector('#replay-whole-lines li')")
    assert browser.lines("#replay-whole-lines") == lines
    assert [count for count, _ in browser.run(PARTIES)] == sizes


def begin(browser, asked, is_loaded):
    """Opens a battle by its address: in a page that is loaded anew, or in the page that has shown other battles."""
    address = f"#play?b={address_of(asked, 1)}&p1=person&p2=random"
    if is_loaded:
        browser.open(address)
        browser.run(COPIES)
    else:
        browser.run("location.hash = arguments[0]", address)
    browser.wait(f"return location.hash === '#play?u=1' && {SETTLED}")


def what_a_player_may_not_know_is_nowhere(browser):
    searched = 0
    for number in range(BATTLES):
        asked = planted(number)
        # After the exports a page shows one battle after the other, and must not show what it knew before.
        begin(browser, asked, number <= EXPORTS)
        # The form's own sample team is not this battle's.
        browser.fill("#play-team-1", "")
        for turn in range(TURNS):
            codes, text, far, offered = browser.run(SEEN)
            lines = lines_in(codes)
            if lines[-1].startswith(("|win|", "|tie")):
                # After the battle, everything is shown.
                break
            assert address_of(asked, 1)[20:60] not in text
            for fact in unknown(asked, lines):
                assert fact not in text, (number, turn, fact)
                searched += 1
            foe_hp = re.findall(r"^\|(?:switch|-damage|-heal)\|p2a: .*?\|\d+/(\d+)", "\n".join(lines), re.M)
            assert set(foe_hp) == {"48"} and not re.search(r"\d+/\d+", far), foe_hp
            if not offered:
                break
            choose_first(browser)
        if number < EXPORTS and not browser.lines("#play-lines")[-1].startswith(("|win|", "|tie")):
            test_exports(browser, asked, browser.lines("#play-lines"))
    print(f"    {searched} searches for facts in {BATTLES} battles")
    assert searched > 10 * BATTLES


CHECKS = [what_a_player_may_not_know_is_nowhere]
