"""Replay: recorded battles, opened in every way, replayed to their ends, and shared."""
import base64
import json
import re
import subprocess
import time
from pathlib import Path

from selenium.webdriver.common.action_chains import ActionChains
from selenium.webdriver.common.keys import Keys

from checks.browser import SIZES
from checks.cases import ROOT, cases, lines_in, lines_of


def battle(least, most):
    """A recorded battle without a refusal, with this many pairs."""
    return next(
        case
        for case in cases("battles")
        if not case["stderr"] and least <= len(json.loads(case["input"])["choices"]) <= most
    )


def steps(browser):
    """Goes forward to the end, and collects the lines of each update."""
    codes = """
        const found = [];
        const forward = document.getElementById('replay-forward');
        for (;;) {
          for (const it of document.querySelectorAll('#replay-lines [data-code]')) found.push(it.dataset.code);
          if (forward.getAttribute('aria-disabled') === 'true') return found;
          forward.click();
        }"""
    return lines_in(browser.run(codes))


def shown(browser, content, name="battle.json", is_loaded=True):
    """Opens a file: in a page that is loaded anew, or in the page as it is."""
    if is_loaded:
        browser.open()
    now = "document.getElementById('replay-now').textContent"
    browser.run(f"{now} = ''")
    browser.file(name, content)
    browser.wait(f"return !document.getElementById('replay-stage').hidden && {now} !== ''", 60)


def whole_is_written(browser):
    """Waits until all lines so far are written, which takes slices of time in which the page is busy."""
    first = "document.querySelector('#replay-whole-lines [data-code]')"
    browser.wait(f"return !('busy' in document.documentElement.dataset) && {first}", 60)


def a_recorded_battle_is_replayed_by_clicks(browser):
    case = battle(25, 40)
    shown(browser, case["input"])
    found = browser.lines("#replay-lines")
    while browser.run("return document.getElementById('replay-forward').getAttribute('aria-disabled')") == "false":
        browser.click("#replay-forward")
        found += browser.lines("#replay-lines")
    assert found == lines_of(case)
    outcome = {"|win|p1": "Side 1 has won", "|win|p2": "Side 2 has won", "|tie": "A tie"}.get(
        lines_of(case)[-1], "update"
    )
    assert outcome in browser.text("#replay-now"), browser.text("#replay-now")


def the_longest_recorded_battle_is_whole_at_its_end(browser):
    case = max((it for it in cases("battles") if not it["stderr"]), key=lambda it: len(it["stdout"]))
    shown(browser, case["input"])
    browser.click("#replay-last")
    browser.click("#replay-whole summary")
    whole_is_written(browser)
    assert browser.lines("#replay-whole-lines") == lines_of(case)


def a_refused_pair_is_said_and_the_rest_is_shown(browser):
    case = next(it for it in cases("battles") if "refused" in it["stderr"])
    shown(browser, case["input"])
    number = case["stderr"].split()[2]
    assert f"Pair {number} " in browser.text("#replay-fault")
    assert steps(browser) == lines_of(case)


def a_recorded_log_is_replayed(browser):
    logs = [it for it in cases("print") if it["status"] == 0 and it["stdout"].startswith("|switch")][:6]
    for number, case in enumerate(logs):
        shown(browser, bytes.fromhex(case["hex"]), "battle.log", number == 0)
        assert steps(browser) == lines_of(case), case["name"]


def a_dropped_file_is_shown(browser):
    case = battle(5, 10)
    browser.open("#play")
    browser.run(
        "const moved = new DataTransfer(); moved.items.add(new File([arguments[0]], 'battle.json'));"
        "document.body.dispatchEvent(new DragEvent('drop', {dataTransfer: moved, bubbles: true, cancelable: true}));",
        case["input"],
    )
    browser.wait(
        "return !document.getElementById('replay-stage').hidden && !document.getElementById('panel-replay').hidden"
    )
    assert steps(browser) == lines_of(case)


# The battle of README.md, with teams and choices in words (docs/PROGRAM.md, "Text in place of JSON").
WORDS = {
    "seed": [1, 36, 255, 7, 31, 100, 179, 254, 127, 10],
    "one": "Tauros\n- Strength",
    "two": "Tauros||||strength|||||||",
    "choices": [["pass", "pass"], ["Strength", 17], ["move 1", "move strength"]],
}
SHOWDOWN = """
|j|Red
|player|p1|Red|1|
|player|p2|Blue|2|
|teamsize|p1|3
|teamsize|p2|6
|gen|1
|start
|switch|p1a: Bull|Tauros|353/353
|switch|p2a: Star|Starmie|100/100
|turn|1
|move|p1a: Bull|Body Slam|p2a: Star
|-damage|p2a: Star|70/100 par
|-status|p2a: Star|par
|cant|p2a: Star|par
|
|upkeep
|turn|2
|c|Blue|oh no
|move|p2a: Star|Recover|p2a: Star
|-heal|p2a: Star|100/100 par
|switch|p1a: Egg|Exeggutor, L90, M|350/350
|-boost|p1a: Egg|spa|2
|win|Red
"""


def what_the_program_takes_is_replayed(browser):
    found = re.search(r"<!-- prints in the end -->\n```\n(.*?)```", (ROOT / "README.md").read_text(), re.S)[1]
    shown(browser, json.dumps(WORDS))
    assert steps(browser) == found.splitlines()
    for wrong in ("fligh", "move Body Slap", "switch 7"):
        browser.file("wrong.json", json.dumps({**WORDS, "choices": [["pass", "pass"], [wrong, 17]]}))
        message = browser.wait("const it = document.getElementById('notice'); return !it.hidden && it.textContent")
        assert f'choices[1][0]: "{wrong}" is not a choice' in message, message
        browser.run("document.getElementById('notice-close').click()")
    browser.file("refused.json", json.dumps({**WORDS, "choices": [["pass", "pass"], ["move Surf", 17]]}))
    browser.wait("return document.getElementById('replay-fault').textContent.startsWith('Pair 1 ')")


# The members of each side in the arena, and how many of them have not been seen.
PARTIES = "return [1, 2].map((side) => ['', '.unknown'].map((kind) => document.querySelectorAll(`#replay-field .side-${side} .ball${kind}`).length))"


def lines_are_replayed(browser):
    """Printed lines, a log of Showdown with names and HP in per cent, and one as Showdown saves it."""
    case = battle(25, 40)
    shown(browser, case["stdout"], "battle.txt")
    assert steps(browser) == lines_of(case)
    for name, content in (
        ("log.txt", SHOWDOWN.lstrip()),
        ("replay.json", json.dumps({"id": "gen1ou-1", "log": SHOWDOWN})),
    ):
        shown(browser, content, name)
        browser.click("#replay-last")
        browser.click("#replay-whole summary")
        whole_is_written(browser)
        assert browser.words("#replay-whole-lines li")[2:] == [
            "Turn 1 begins.",
            "Side 1's Tauros uses Body Slam.",
            "Side 2's Starmie loses 30%, down to 70%.",
            "Side 2's Starmie is paralysed.",
            "Side 2's Starmie is fully paralysed.",
            "Turn 2 begins.",
            "Side 2's Starmie uses Recover.",
            "Side 2's Starmie gains 30%, up to 100%.",
            "Side 1 withdraws Tauros and sends out Exeggutor, level 90.",
            "Side 1's Exeggutor's Special rises by 2 stages.",
            "Side 1 wins.",
        ]
        # All members are there, also those that have not come out.
        assert browser.run(PARTIES) == [[3, 1], [6, 5]]
    for text, word in (
        ("|j|Red", "hold no battle"),
        ("|switch|p1a: X|Pichu|1/1", "Pichu"),
        ("|switch|p1a: X|Mew|9/9", "out of range"),
    ):
        browser.file("wrong.txt", text)
        message = browser.wait("const it = document.getElementById('notice'); return !it.hidden && it.textContent")
        assert word in message, message
        browser.run("document.getElementById('notice-close').click()")


def keys_go_through_a_battle(browser):
    case = battle(20, 40)
    shown(browser, case["input"])
    at = lambda: int(browser.run("return document.getElementById('replay-slider').value"))
    last = len(json.loads(case["input"])["choices"])
    for key, place in ((Keys.END, last), (Keys.HOME, 0), (Keys.RIGHT, 1), (Keys.RIGHT, 2), (Keys.LEFT, 1)):
        browser.press(key)
        assert at() == place, (key, at(), place)
    browser.fill("#replay-turn", "3")
    assert browser.text("#replay-now").startswith("Turn 3,"), browser.text("#replay-now")
    browser.find("#replay-speed").send_keys("20 a")
    browser.run("document.activeElement.blur()")
    browser.press(" ")
    browser.wait(f"return document.getElementById('replay-slider').value === '{last}'")
    assert browser.text("#replay-play") == "Play"


def a_replay_plays_in_the_arena(browser):
    browser.look(*SIZES["wide"], "light", "no-preference")
    shown(browser, battle(25, 40)["input"])
    browser.fill("#replay-speed", "fast")
    browser.run(
        "window.seen = 0; new MutationObserver(() => window.seen++).observe(document.getElementById('replay-lines'), {childList: true})"
    )
    browser.click("#replay-play")
    browser.wait("return Number(document.getElementById('replay-slider').value) > 2", 40)
    browser.click("#replay-play")
    at = browser.run("return document.getElementById('replay-slider').value")
    # Lines came one by one, and a pause shows a whole update.
    assert browser.run("return window.seen") > 5 and browser.text("#replay-play") == "Play"
    browser.run("return new Promise((done) => setTimeout(done, 800))")
    assert browser.run("return document.getElementById('replay-slider').value") == at
    out = browser.words("#replay-stage .side .head strong")
    assert browser.words("#replay-field .plate .head strong") == out and len(out) == 2
    browser.run("document.querySelector('#replay-field .side-1 .party button').click()")
    assert "Of side 1" in browser.text("#replay-card") and " PP" in browser.text("#replay-card")
    browser.press(Keys.ESCAPE)
    shown_card = "document.getElementById('replay-card').checkVisibility()"
    assert not browser.run(f"return {shown_card}")
    # While the pointer is on a token, its card is over the lines.
    ActionChains(browser.driver).move_to_element(browser.find("#replay-field .side-2 .party button")).perform()
    browser.wait(f"return {shown_card}")
    ActionChains(browser.driver).move_to_element(browser.find("h1")).perform()
    browser.wait(f"return !{shown_card}")
    browser.look(*SIZES["wide"], "light")


def an_address_is_a_position(browser):
    case = battle(20, 40)
    shown(browser, case["input"])
    browser.fill("#replay-slider", "7")
    browser.fill("#replay-see", "spectator")
    browser.wait("return location.hash.includes('u=7') && location.hash.includes('see=spectator')")
    address, text = browser.run("return location.hash"), browser.text("#replay-stage")
    browser.open(address)
    assert browser.text("#replay-stage") == text and "update 7 of" in text
    browser.open(re.sub(r"u=\d+", "t=3", address))
    assert browser.text("#replay-now").startswith("Turn 3, update ")
    browser.wait("return /u=\\d+/.test(location.hash) && !location.hash.includes('t=')")


def a_spectator_sees_less(browser):
    case = battle(20, 40)
    shown(browser, case["input"])
    hidden = "return ['.moves', '.stats'].map((it) => document.querySelectorAll('#replay-stage ' + it).length)"
    assert all(browser.run(hidden)) and " PP" in browser.text("#replay-side-1")
    browser.fill("#replay-see", "spectator")
    assert not any(browser.run(hidden)) and " PP" not in browser.text("#replay-stage")


def chances_are_beside_lines(browser):
    """Through the whole example, with everything in view; checks/engine.js compares them with samples."""
    browser.open()
    browser.click("#replay-example")
    browser.click("#replay-last")
    browser.run("document.getElementById('replay-whole').open = true")
    whole = "return [...document.querySelectorAll('#replay-whole-lines .chance')].map((it) => [it.closest('li').dataset.code, it.textContent])"
    whole_is_written(browser)
    said = browser.run(whole)
    words = {"move": "hit", "-miss": "miss", "-crit": "crit", "faint": "KO"}
    kinds = [line.split("|")[1] for line in lines_in(code for code, _ in said)]
    for kind, (_, text) in zip(kinds, said):
        assert re.fullmatch(rf"{words[kind]} at [<>]?[0-9.]+%", text) and text != "hit at 99.6%", (kind, text)
    assert set(kinds) == set(words), said
    for field, value, other in (("#replay-see", "spectator", "all"), ("#replay-raw", "raw", "words")):
        browser.fill(field, value)
        assert not browser.run("return document.querySelectorAll('#panel-replay .chance').length"), value
        browser.fill(field, other)


def a_battle_after_a_log_shows_all(browser):
    case = battle(20, 40)
    shown(browser, case["input"])
    log = browser.saved("#replay-share [data-share=log]", "battle.log")
    see = "return document.getElementById('replay-see').value"
    for wanted in ("all", "spectator"):
        shown(browser, case["input"])
        browser.fill("#replay-see", wanted)
        browser.file("log.log", log)
        browser.wait("return document.getElementById('replay-see').options[0].disabled")
        assert browser.run(see) == "spectator"
        browser.run("document.getElementById('replay-open').open = true")
        browser.click("#replay-example")
        assert browser.run(see) == wanted


def a_saved_page_holds_its_battle(browser):
    case = battle(20, 40)
    shown(browser, case["input"])
    page = browser.saved("#replay-share [data-share=page]", "battle.html")
    browser.open(page=(browser.folder / "battle.html").as_uri())
    assert steps(browser) == lines_of(case)
    # A saved page can be saved again, and opened as a file.
    shown(browser, page, "saved.html")
    assert steps(browser) == lines_of(case)


def fill_page(browser, text):
    """Writes a copy of the page with a battle's JSON, and returns its address."""
    source = Path(browser.page.removeprefix("file://")).read_text()
    place = '<script id="battle" type="application/json">null</script>'
    assert source.count(place) == 1
    path = browser.folder / "filled.html"
    path.write_text(source.replace(place, place.replace("null", text.replace("<", "\\u003c"))))
    return path.as_uri()


def a_page_is_filled_by_others(browser):
    case = battle(5, 10)
    page = fill_page(browser, case["input"])
    browser.open(page=page)
    assert steps(browser) == lines_of(case)
    if browser.program:
        words = [browser.program, "replay", "--page", browser.page.removeprefix("file://")]
        assert (
            subprocess.run(words, input=case["input"].encode(), capture_output=True).stdout.decode()
            == Path(page.removeprefix("file://")).read_text()
        )


def what_is_saved_is_what_was_opened(browser):
    case = battle(5, 10)
    shown(browser, case["input"])
    asked = json.loads(case["input"])
    saved = json.loads(browser.saved("#replay-input", "battle.json"))
    assert all(saved[key] == asked[key] for key in ("seed", "one", "two", "choices")), saved
    log = browser.saved("#replay-share [data-share=log]", "battle.log")
    browser.open(f"#replay?b=l{base64.urlsafe_b64encode(log).decode().rstrip('=')}&u=1")
    assert steps(browser) == lines_of(case)


def a_log_as_long_as_may_be_is_shown(browser):
    log = next(
        bytes.fromhex(case["hex"])
        for case in cases("print")
        if case["status"] == 0 and case["stdout"].startswith("|switch")
    )
    shown(browser, log * (1_048_576 // len(log)), "battle.log")
    browser.click("#replay-last")
    assert (
        "b=" not in browser.run("return location.hash")
        and int(browser.run("return document.getElementById('replay-slider').max")) > 10_000
    )
    browser.click("#replay-share [data-share=link]")
    assert "too long for an address" in browser.notice()


def a_page_with_a_long_log_opens_again(browser):
    log = next(
        bytes.fromhex(case["hex"])
        for case in cases("print")
        if case["status"] == 0 and case["stdout"].startswith("|switch")
    )
    page = Path(
        fill_page(browser, json.dumps({"log": (log * (450_000 // len(log))).hex()})).removeprefix("file://")
    ).read_bytes()
    assert len(page) > 1_048_576
    shown(browser, page, "saved.html")
    assert int(browser.run("return document.getElementById('replay-slider').max")) > 4_000


# The longest time, in milliseconds, that the page did not react to a timer while a file was read.
REACTS = """
window.longest = 0; window.bars = 0; let last = performance.now();
const tick = () => { const now = performance.now(); window.longest = Math.max(window.longest, now - last); last = now;
  window.bars += !document.getElementById('progress').hidden; setTimeout(tick); };
setTimeout(tick);
"""


def a_long_log_leaves_the_page_responsive(browser):
    log = next(
        bytes.fromhex(case["hex"])
        for case in cases("print")
        if case["status"] == 0 and case["stdout"].startswith("|switch")
    )
    browser.open()
    browser.run(REACTS)
    begun = time.monotonic()
    browser.file("battle.log", log * (1_048_576 // len(log)))
    browser.wait("return !document.getElementById('replay-stage').hidden", 90)
    whole = 1000 * (time.monotonic() - begun)
    longest, bars = browser.run("return [window.longest, window.bars]")
    print(f"    the page reacted after at most {longest:.0f} ms while a log of 1,048,576 bytes was read")
    assert longest < whole / 4 and bars > 5, (longest, whole, bars)


def what_a_spectator_shares_is_the_log(browser):
    case = battle(20, 40)
    shown(browser, case["input"])
    browser.run(
        "Object.defineProperty(navigator, 'clipboard', {value: {writeText: async (text) => { window.copied = text; }}})"
    )
    browser.fill("#replay-see", "spectator")
    log = browser.saved("#replay-share [data-share=log]", "battle.log")
    sizes = [len(json.loads(case["input"])[side]) for side in ("one", "two")]
    held = {"log": log.hex(), "sizes": sizes}
    assert json.loads(browser.saved("#replay-input", "battle.json")) == held
    assert (
        json.dumps(held, separators=(",", ":"))
        in browser.saved("#replay-share [data-share=page]", "battle.html").decode()
    )
    browser.click("#replay-share [data-share=link]")
    link = browser.wait("return window.copied").partition("#")[2]
    assert re.fullmatch(r"replay\?b=s[\w-]+&u=\d+", link), link
    browser.open(f"#{link}")
    assert steps(browser) and browser.run("return document.getElementById('replay-see').value") == "spectator"
    assert [count for count, _ in browser.run(PARTIES)] == sizes
    # A link without the sizes ends with the last member that came out.
    browser.open("#replay?b=l" + base64.urlsafe_b64encode(log).decode().rstrip("="))
    browser.click("#replay-last")
    assert not browser.run("return document.querySelectorAll('#replay-field .party li:last-child .unknown').length")
    for sizes in ([1], [0, 3], [3, "3"], 6):
        browser.file("wrong.json", json.dumps({**held, "sizes": sizes}))
        message = browser.wait("const it = document.getElementById('notice'); return !it.hidden && it.textContent")
        assert "sizes" in message, message
        browser.run("document.getElementById('notice-close').click()")


def a_text_is_dropped_on_a_field(browser):
    browser.open("#play")
    cancelled = """
        const moved = new DataTransfer();
        if (arguments[0]) moved.items.add(new File(['{'], 'battle.json')); else moved.items.add('Tauros', 'text/plain');
        return ['dragover', 'drop'].map((name) => !document.getElementById('play-team-1').dispatchEvent(
          new DragEvent(name, {dataTransfer: moved, bubbles: true, cancelable: true})));"""
    assert browser.run(cancelled, False) == [False, False] and not browser.notice()
    assert browser.run(cancelled, True) == [True, True]
    browser.wait("return !document.getElementById('notice').hidden")
    assert "not JSON" in browser.notice()


def open_details_stay_with_their_member(browser):
    member = {"level": 100, "dvs": [15] * 4, "exp": [65535] * 5}
    team = [
        {**member, "species": species, "moves": [[move, 0]]}
        for species, move in (("Tauros", "Strength"), ("Starmie", "Surf"), ("Chansey", "Ice Beam"))
    ]
    shown(browser, json.dumps({"seed": [1] * 10, "one": team, "two": team, "choices": [[0, 0], [35, 17]]}))
    names = "return [...document.querySelectorAll('#replay-side-1 .members details[open]')].map((it) => it.parentElement.querySelector('.name').textContent)"
    browser.run("document.querySelector('#replay-side-1 .members > li:nth-child(2) details summary').focus()")
    browser.press(" ")
    browser.wait("return document.querySelector('#replay-side-1 .members > li:nth-child(2) details').open")
    assert browser.run(names) == ["Starmie"]
    # Chansey comes out, and Tauros takes the place of Starmie's details.
    browser.run("document.getElementById('replay-forward').click()")
    assert "Chansey" in browser.text("#replay-side-1 .head") and browser.run(names) == ["Starmie"]
    assert browser.run("return document.activeElement.textContent") == "Moves of Starmie"


CHECKS = [
    open_details_stay_with_their_member,
    a_recorded_battle_is_replayed_by_clicks,
    the_longest_recorded_battle_is_whole_at_its_end,
    a_refused_pair_is_said_and_the_rest_is_shown,
    a_recorded_log_is_replayed,
    what_the_program_takes_is_replayed,
    lines_are_replayed,
    a_dropped_file_is_shown,
    keys_go_through_a_battle,
    a_replay_plays_in_the_arena,
    an_address_is_a_position,
    a_spectator_sees_less,
    a_long_log_leaves_the_page_responsive,
    what_a_spectator_shares_is_the_log,
    chances_are_beside_lines,
    a_battle_after_a_log_shows_all,
    a_text_is_dropped_on_a_field,
    a_saved_page_holds_its_battle,
    a_page_is_filled_by_others,
    what_is_saved_is_what_was_opened,
    a_log_as_long_as_may_be_is_shown,
    a_page_with_a_long_log_opens_again,
]
