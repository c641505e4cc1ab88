"""Bad input: each gets a message, which is visible and names the side and the field, and the page keeps working. Good input causes no alert."""
import json

from checks.browser import SIZES
from checks.cases import cases
from checks.replay import battle, fill_page, shown
from checks.tabs import COPIES


def goes_on(browser):
    """Whether the page still shows a battle."""
    browser.click("#tab-replay")
    browser.run("document.getElementById('replay-open').open = true")
    browser.click("#replay-example")
    assert not browser.notice() and "update 1 of 48" in browser.text("#replay-now")


def said(browser, name, content, word):
    browser.run("document.getElementById('notice-close').click()")
    browser.file(name, content)
    message = browser.wait("const it = document.getElementById('notice'); return !it.hidden && it.textContent")
    assert word in message, (name, message)


def damaged_logs_are_refused(browser):
    browser.open()
    for case in [it for it in cases("print") if it["stderr"]][:8]:
        said(browser, "battle.log", bytes.fromhex(case["hex"]), "not the log of a battle")
    said(browser, "battle.log", bytes.fromhex("1a0163"), "at byte 2")
    goes_on(browser)


def files_that_are_no_battles_are_refused(browser):
    browser.open()
    asked = json.loads(battle(5, 10)["input"])
    said(browser, "long.json", b" " * 10_000_000, "10,000,000 bytes")
    said(browser, "empty.json", b"", "empty")
    said(browser, "list.json", b"[]", "The file is a list in JSON.")
    said(browser, "text.json", b'"Tauros"', "The file is a string in JSON.")
    said(browser, "cut.json", json.dumps(asked)[:200], "not JSON")
    said(browser, "team.json", json.dumps({**asked, "one": []}), "side 1: the team has no member")
    said(
        browser,
        "name.json",
        json.dumps({**asked, "two": [{**asked["two"][0], "species": "Missingno."}]}),
        "two[0].species",
    )
    said(browser, "seed.json", json.dumps({**asked, "seed": [1, 2]}), "seed has 2 items, not 10")
    said(
        browser,
        "limit.json",
        json.dumps({**asked, "limit": 0}),
        "limit is 0, which is not a whole number from 1 to 9999",
    )
    said(browser, "page.html", "<!doctype html><p>nothing", "does not hold a battle")
    goes_on(browser)


def what_was_shown_stays(browser):
    browser.open()
    browser.click("#replay-example")
    shown = browser.text("#replay-stage")
    said(browser, "damaged.log", b"\xff", "not the log of a battle")
    assert browser.text("#replay-stage") == shown


def damaged_addresses_are_refused(browser):
    for address in ("#replay?b=iAAAA", "#replay?b=l!!", "#replay?b=zzzz", "#play?b=lAAAA", "#calculator?c=AAAA"):
        browser.open(address)
        assert "damaged" in browser.notice() or "log" in browser.notice(), (address, browser.notice())
        goes_on(browser)


def teams_and_seeds_are_tested(browser):
    browser.open("#play")
    for field, value, word in (
        ("play-team-1", "", "no member"),
        ("play-team-2", "Tauros\n- Body Slap", "Side 2's team: line 2"),
        ("play-seed", "1 2 3", "ten whole numbers"),
        ("play-team-1", "Tauros", "move"),
        ("play-limit", "0", "limit"),
        ("play-team-2", "Mew\n- Metronome", "side 2, member 1"),
    ):
        kept = browser.run("return document.getElementById(arguments[0]).value", field)
        browser.fill(f"#{field}", value)
        browser.click("#play-start")
        assert word in browser.notice(), (field, value, browser.notice())
        browser.fill(f"#{field}", kept)
    browser.click("#play-start")
    assert not browser.notice() and "Turn 1" in browser.text("#play-now")


def a_wrong_turn_limit_is_named(browser):
    browser.open("#play")
    for value in ("70000", "-60000", "2.5", "0", "10000", ""):
        browser.fill("#play-limit", value)
        browser.click("#play-start")
        assert (
            browser.notice() == f"The turn limit is {value or 'missing'}: it must be a whole number from 1 to 9999."
        ), (value, browser.notice())
        assert browser.run("return document.activeElement.id") == "play-limit" and not browser.run(
            "return document.getElementById('play-setup').hidden"
        )
    for value in ("1", "9999"):
        browser.open("#play")
        browser.fill("#play-limit", value)
        browser.click("#play-start")
        assert not browser.notice() and f"after turn {value}." in browser.text("#play-rules")


def a_log_that_is_too_long_is_refused(browser):
    message = "The log has 1,048,577 bytes; at most 1,048,576 are read."
    text = json.dumps({"log": "1b" * 1_048_577})
    browser.open()
    browser.run("document.getElementById('replay-text').closest('details').open = true")
    browser.fill("#replay-text", text)
    browser.click("#replay-read")
    assert browser.notice() == message
    browser.open(page=fill_page(browser, text))
    assert browser.notice() == message
    goes_on(browser)


def a_mark_at_the_beginning_of_a_text_is_skipped(browser):
    text = battle(5, 10)["input"]
    shown(browser, b"\xef\xbb\xbf" + text.encode())
    lines = browser.text("#replay-stage")
    browser.open()
    browser.run("document.getElementById('replay-text').closest('details').open = true")
    browser.fill("#replay-text", "\ufeff" + text)
    browser.click("#replay-read")
    assert not browser.notice() and browser.text("#replay-stage") == lines


SEEN = """
const box = document.getElementById(arguments[0]).getBoundingClientRect();
const there = document.elementFromPoint(box.left + 20, box.top + box.height / 2);
return box.height > 0 && box.top >= 0 && box.bottom <= innerHeight && document.getElementById('messages').contains(there);
"""
FIELD = "const it = document.activeElement; return [it.id, it.getAttribute('aria-invalid'), document.getElementById(it.getAttribute('aria-describedby'))?.textContent]"


def a_message_is_seen_where_the_button_is(browser):
    for width in SIZES:
        browser.look(*SIZES[width], "light")
        browser.open("#play")
        browser.fill("#play-seed", "1 2 3")
        browser.run("document.getElementById('play-start').scrollIntoView({block: 'end'})")
        browser.click("#play-start")
        assert "ten whole numbers" in browser.notice() and browser.run(SEEN, "notice"), width
    browser.look(*SIZES["wide"], "light")


def what_was_done_is_said_quietly(browser):
    browser.open()
    browser.run(COPIES)
    browser.click("#replay-example")
    browser.click("#replay-share [data-share=link]")
    browser.wait(
        "return document.getElementById('done').textContent === 'The link is copied. It opens only where this file is.'"
    )
    assert browser.run("return document.getElementById('done').getAttribute('role')") == "status"
    assert not browser.notice() and browser.run(SEEN, "done")
    browser.run("navigator.clipboard.writeText = async () => { throw new Error('no'); }")
    browser.click("#replay-share [data-share=link]")
    browser.wait("return !document.getElementById('notice').hidden")
    assert "#replay?b=i" in browser.notice() and not browser.text("#done")


def the_field_at_fault_has_the_focus(browser):
    browser.open("#play")
    for field, value, message in (
        (
            "play-team-2",
            "Tauros\n- Body Slap",
            'Side 2\'s team: line 2: expected the name of a move of the first generation, not "Body Slap"; did you mean "Body Slam"?',
        ),
        ("play-team-1", "Tauros\n- Body Slam\n- Body Slam", "The team is refused: side 1, member 1: "),
        ("play-team-1", "", "Side 1's team has no member."),
        ("play-seed", "1 2 256 4 5 6 7 8 9 10", "The seed must be ten whole numbers from 0 to 255"),
    ):
        kept = browser.run("return document.getElementById(arguments[0]).value", field)
        browser.fill(f"#{field}", value)
        browser.click("#play-start")
        found = browser.run(FIELD)
        assert found[:2] == [field, "true"] and found[2] == browser.notice() and message in found[2], (field, found)
        browser.fill(f"#{field}", kept)
    browser.click("#play-start")
    assert not browser.run("return document.querySelectorAll('[aria-invalid]').length")


def a_pasted_battle_at_fault_has_the_focus(browser):
    browser.open()
    browser.run("document.getElementById('replay-text').closest('details').open = true")
    browser.fill("#replay-text", "{")
    browser.click("#replay-read")
    assert browser.run(FIELD)[:2] == ["replay-text", "true"] and "not JSON" in browser.notice()


CHECKS = [
    damaged_logs_are_refused,
    files_that_are_no_battles_are_refused,
    what_was_shown_stays,
    damaged_addresses_are_refused,
    teams_and_seeds_are_tested,
    a_wrong_turn_limit_is_named,
    a_log_that_is_too_long_is_refused,
    a_mark_at_the_beginning_of_a_text_is_skipped,
    a_message_is_seen_where_the_button_is,
    what_was_done_is_said_quietly,
    the_field_at_fault_has_the_focus,
    a_pasted_battle_at_fault_has_the_focus,
]
