"""The address is that of the part that is shown, and a link is that of the part whose button is pressed. The first page leads to each part."""
import json

from checks.cases import address_of
from checks.replay import battle, shown

# A worker that returns a choice on demand.
LATE = """
window.held = [];
window.Worker = class { postMessage(asked) { if (asked.id) window.held.push(() => this.onmessage({data: {id: asked.id, choice: 17}})); } terminate() {} };
"""
COPIES = (
    "Object.defineProperty(navigator, 'clipboard', {value: {writeText: async (text) => { window.copied = text; }}})"
)
HASH = "return location.hash"


def rest(browser):
    """Waits longer than an address takes to change."""
    browser.run("return new Promise((done) => setTimeout(done, 400))")


def copied(browser, part):
    """The part after the # of the link that a part's button copies."""
    browser.run("window.copied = ''; document.getElementById('play-menu').open = true")
    browser.click(f"#{part}-share [data-share=link]")
    return browser.wait("return window.copied").partition("#")[2]


def late_choice(browser):
    """Starts a battle against the computer, and presses a choice while the computer's choice is delayed."""
    browser.run(LATE)
    browser.fill("#play-who-2", "random")
    browser.run("document.getElementById('play-open').checked = true")
    for side in (1, 2):
        browser.fill(f"#play-team-{side}", "Tauros\n- Body Slam\n- Strength")
    browser.click("#play-start")
    browser.click("#play-choices-1 [data-choice='17']")
    browser.wait("return window.held.length")
    assert browser.text("#play-wait") == "The foe is thinking."


def a_replay_stops_when_its_tab_is_left(browser):
    shown(browser, battle(25, 40)["input"])
    browser.fill("#replay-speed", "20")
    browser.click("#replay-play")
    browser.wait("return Number(document.getElementById('replay-slider').value) > 3")
    browser.click("#tab-play")
    at = browser.run("return document.getElementById('replay-slider').value")
    rest(browser)
    assert browser.run("return document.getElementById('replay-slider').value") == at
    assert browser.run(HASH) == "#play" and browser.text("#replay-play") == "Play"
    browser.click("#tab-replay")
    browser.wait(f"return location.hash.includes('u={at}')")


def a_late_choice_leaves_the_address_of_another_part(browser):
    shown(browser, battle(25, 40)["input"])
    browser.click("#tab-play")
    late_choice(browser)
    browser.click("#tab-replay")
    rest(browser)
    address = browser.run(HASH)
    assert address.startswith("#replay?b=")
    browser.run("window.held.shift()()")
    browser.wait("return document.getElementById('play-now').textContent.startsWith('Turn 2')")
    rest(browser)
    assert browser.run(HASH) == address
    browser.click("#tab-play")
    browser.wait("return location.hash.startsWith('#play?b=')")


def a_link_is_that_of_its_part(browser):
    asked = json.loads(battle(25, 40)["input"])
    here = f"replay?b={address_of(asked, 1000)}&u=4"
    browser.open(f"#{here}")
    browser.run(COPIES)
    assert copied(browser, "replay") == here
    browser.click("#tab-play")
    late_choice(browser)
    link = copied(browser, "play")
    assert link.startswith("play?b=i") and link.endswith("&p1=person&p2=random&hands=open"), link
    browser.click("#tab-replay")
    browser.run("window.held.shift()()")
    browser.wait("return document.getElementById('play-now').textContent.startsWith('Turn 2')")
    assert copied(browser, "replay") == here
    browser.click("#tab-play")
    browser.run("document.getElementById('replay-forward').click()")
    assert copied(browser, "play") not in (link, "") and copied(browser, "play").startswith("play?b=i")


def back_goes_through_tabs(browser):
    browser.open("#home")
    for tab in ("teams", "calculator", "replay"):
        browser.click(f"#tab-{tab}")
    rest(browser)
    for step, tab in (("back", "calculator"), ("back", "teams"), ("back", "home"), ("forward", "teams")):
        getattr(browser.driver, step)()
        browser.wait(f"return !document.getElementById('panel-{tab}').hidden")
    shown(browser, battle(25, 40)["input"])
    now = "return document.getElementById('replay-turn').value"
    for _ in range(2):
        browser.click("#replay-turn-forward")
        rest(browser)
    last = browser.run(now)
    browser.driver.back()
    browser.wait(f"return document.getElementById('replay-turn').value !== '{last}'")
    assert int(browser.run(now)) == int(last) - 1


def a_battle_is_watched(browser):
    browser.open("")
    assert not browser.run("return document.getElementById('panel-home').hidden")
    browser.click("#home-watch")
    assert "update 1 of 48" in browser.text("#replay-now") and browser.run(
        "return document.querySelectorAll('#replay-lines li').length"
    )


def a_battle_is_played(browser):
    browser.open("")
    # The card has the team of the battle, under both clauses.
    team = browser.run("return [...document.querySelectorAll('#home-team [title]')].map((it) => it.title)")
    browser.find("#home-level").send_keys("1")
    browser.click("#home-play")
    party = browser.run(
        "return [...document.querySelectorAll('#play-field .stand:not(.far) .ball')].map((it) => it.title)"
    )
    assert team == party and len(team) == 6, (team, party)
    rules = browser.text("#play-rules")
    assert "against the computer, level 1 (easiest), with the sleep and the freeze clause" in rules, rules
    assert (
        browser.text("#play-now") == "Turn 1"
        and browser.run("return document.querySelectorAll('#play-choices-1 [data-choice]').length") > 4
    )
    browser.click("#play-choices-1 [data-choice]")
    browser.wait("return Number(document.getElementById('play-game').dataset.updates) === 2")
    assert not browser.notice()


def a_hit_is_calculated(browser):
    """Body Slam of Tauros against Starmie, by the formula of docs/MECHANICS.md, "Damage formula"."""
    browser.open("")
    level, power, hp = 100, 85, 323
    # A stat above 255 has both divided by 4.
    attack, defense = 298 // 4, 268 // 4
    base = min((2 * level // 5 + 2) * power * attack // defense // 50, 997) + 2
    base += base // 2
    least, most = (base * factor // 255 for factor in (217, 255))
    assert f"Body Slam: {least}–{most} of {hp} HP" in browser.text("#home-sum"), browser.text("#home-sum")
    assert f"{100 * least // hp}–{100 * most // hp}%" in browser.text("#home-sum")
    browser.click("#home-calculate")
    assert not browser.run("return document.getElementById('panel-calculator').hidden")


def a_menu_closes(browser):
    browser.open("#replay")
    opened = "return document.getElementById('settings').open"
    for close in (
        "document.querySelector('h1').click()",
        "document.dispatchEvent(new KeyboardEvent('keydown', {key: 'Escape'}))",
    ):
        browser.click("#settings summary")
        assert browser.run(opened)
        browser.run(close)
        assert not browser.run(opened)


CHECKS = [
    back_goes_through_tabs,
    a_replay_stops_when_its_tab_is_left,
    a_late_choice_leaves_the_address_of_another_part,
    a_link_is_that_of_its_part,
    a_battle_is_watched,
    a_battle_is_played,
    a_hit_is_calculated,
    a_menu_closes,
]
