"""The part Online: persons at a server (server/gen1_server), each in a separate browser. A check may stop and start the server."""
import random
import re
import sys
import time
from pathlib import Path

from selenium.webdriver.common.keys import Keys

from checks import layout
from checks.access import CONTRAST, EDGES, NAMED, broken_rules, nodes_of
from checks.browser import SIZES, Browser

ROOT = Path(__file__).resolve().parents[2]
sys.path.insert(0, str(ROOT / "server" / "tests"))

SHOWN = "return document.querySelector('#panel-online > #play-game:not([hidden])') !== null"
ASKED = SHOWN + " && document.querySelector('.choices:not([hidden]):not([data-busy]) [data-choice]') !== null"
ADDRESS = "return location.hash.includes('r=') && location.hash"
OVER = "return /has won|have won|tie|draw/.test(document.getElementById('play-now').textContent)"
CHOICES = ".choices:not([hidden]):not([data-busy]) [data-choice]"
# Presses one of the choices, by a number from 0 to 1; returns whether there was one.
CHOOSE = (
    f"const found = [...document.querySelectorAll('{CHOICES}')];"
    "found[Math.floor(arguments[0] * found.length)]?.click(); return found.length > 0"
)
UPDATED = "return Number(document.getElementById('play-game').dataset.updates)"
STRIP = "return document.getElementById('online-strip').textContent"


class Person(Browser):
    """A person with a browser and a name at the server."""

    def come(self, address="#online"):
        """Opens the page as a stranger."""
        self.open(address, first="localStorage.removeItem('token')")

    def enter(self, name, address="#online", password="", button="#online-enter"):
        self.come(address)
        self.fill("#online-name", name)
        self.fill("#online-password", password)
        self.click(button)
        self.wait(f"return document.getElementById('online-who').textContent === '{name}'")

    def press_text(self, place, text):
        """Presses the button in a place whose text begins so."""
        self.wait(
            f"const found = [...document.querySelectorAll('{place} button')].find((it) => it.textContent.startsWith('{text}'));"
            "found?.click(); return found !== undefined"
        )

    def choose(self, draw):
        """Presses one of the offered choices; returns whether there was one."""
        return self.run(CHOOSE, draw.random())

    @property
    def updates(self):
        return self.run(UPDATED)


class Club:
    """A server, and three persons."""

    def __init__(self, page, file, folder):
        from client import Process

        self.file = file
        self.server = Process(folder, page=str(page), bot="bot", bot_level=1)
        self.server.start()
        self.persons = [Person(f"{self.server.web}/", folder) for _ in range(3)]

    def close(self):
        for person in self.persons:
            person.close()
        self.server.kill()

    def battle(self, one, two):
        """Two persons challenge each other, by name; returns them in their battle."""
        for person, name in ((self.persons[0], one), (self.persons[1], two)):
            person.enter(name)
        self.persons[0].fill("#online-to", two)
        self.persons[0].click("#online-challenge")
        self.persons[1].press_text("#online-calls", "Accept")
        for person in self.persons[:2]:
            person.wait(ASKED)
        return self.persons[:2]


def play(persons, draw, is_done, most=120):
    """Both persons press random choices until something holds."""
    end = time.monotonic() + most
    while not is_done():
        assert time.monotonic() < end, [person.text("#play-now") + person.notice() for person in persons]
        if not any([person.choose(draw) for person in persons]):
            time.sleep(0.05)


def two_persons_play_to_the_end_and_a_third_watches(club):
    """Found by a search, reloaded in the middle, watched by its address; all see the same end, and the season's table has both."""
    ann, ben, cid = club.persons
    draw = random.Random(5)
    ann.enter("Ann", password="quite secret", button="#online-register")
    ben.enter("Ben")
    for person in (ann, ben):
        person.click("#online-search")
    for person in (ann, ben):
        person.wait(ASKED)
    address = ann.wait(ADDRESS)
    cid.come(address)
    cid.wait(SHOWN)
    assert cid.wait(STRIP).startswith("You watch"), cid.run(STRIP)
    play((ann, ben), draw, lambda: ann.updates > 12 or ann.run(OVER))
    before = ann.lines("#play-lines")
    ann.open(address)
    ann.wait(SHOWN)
    assert ann.lines("#play-lines")[: len(before)] == before
    play((ann, ben), draw, lambda: ann.run(OVER))
    for person in (ben, cid):
        person.wait(OVER)
    assert len({person.updates for person in club.persons}) == 1
    assert len({len(person.lines("#play-lines")) for person in club.persons}) == 1
    assert {re.search("Ann|Ben|You|tie", it.text("#play-now"))[0] for it in (ann, ben)} in (
        {"You", "Ann"},
        {"You", "Ben"},
        {"tie"},
    )
    assert re.search(r"Ratings: .*1500 → \d+", ann.run(STRIP)), ann.run(STRIP)
    # A battle that is over is shown again at its address.
    for person in (ann, cid):
        person.open(address)
        person.wait(SHOWN + " && " + OVER.removeprefix("return "))
        assert person.updates == ben.updates
    # The foe's members have their cards after the end too.
    ben.click("#play-field .far .party button")
    assert "Moves seen" in ben.text("#play-card") and ben.run(
        "return document.getElementById('play-card').checkVisibility()"
    )
    ben.press(Keys.ESCAPE)
    ben.click("#play-end-watch")
    assert "turn" in ben.text("#replay-now").lower(), ben.text("#replay-now")
    ann.press_text("#online-strip", "Back to the lobby")
    ann.wait("return /Ann.*Ben|Ben.*Ann/s.test(document.getElementById('online-ladder').textContent)")


def a_battle_goes_on_after_a_lost_connection(club):
    """The server is killed and started again; a choice that it had taken is kept, and the page says what happens."""
    ann, ben = club.battle("Ann2", "Ben2")
    draw = random.Random(6)
    play((ann, ben), draw, lambda: ann.updates > 4)
    # Both are asked for the same pair, and neither has chosen.
    while not (ann.run(ASKED) and ben.run(ASKED) and ann.updates == ben.updates):
        for person in (ann, ben):
            if person.run(ASKED) and not (ben if person is ann else ann).run(ASKED):
                person.choose(draw)
        time.sleep(0.1)
    ann.choose(draw)
    ann.wait("return document.getElementById('play-wait').textContent === 'Waiting for Ben2.'")
    number = ann.updates
    club.server.kill()
    for person in (ann, ben):
        person.wait(
            "return /connection to the server is lost/.test(document.getElementById('online-strip').textContent)"
        )
    if ben.choose(draw):
        assert "lost" in ben.notice()
    club.server.start()
    for person in (ann, ben):
        person.wait("return document.getElementById('online-strip').textContent === ''", 40)
        assert person.updates == number
    assert not ann.run(ASKED) and ann.text("#play-wait") == "Waiting for Ben2."
    play((ben,), draw, lambda: ann.updates > number)


def a_stranger_watches(club):
    """Without a name: from the list or by an address, after a lost connection too, and to the end."""
    ann, _, cid = club.persons
    ann.enter("Ann10")
    ann.click("#online-computer")
    ann.wait(ASKED)
    address = ann.wait(ADDRESS)
    cid.come()
    cid.press_text("#online-battles", "Watch")
    cid.wait(SHOWN)
    cid.press_text("#online-strip", "Back to the lobby")
    assert cid.wait("return document.getElementById('online-login').checkVisibility()")
    assert not cid.run("return document.getElementById('online-play-card').checkVisibility()")
    cid.open(address)
    cid.wait(SHOWN)
    play((ann,), random.Random(8), lambda: ann.updates > 3)
    cid.wait(f"{UPDATED} > 3")
    club.server.kill()
    cid.wait("return /connection to the server is lost/.test(document.getElementById('online-strip').textContent)")
    club.server.start()
    ann.wait("return document.getElementById('online-strip').textContent === ''", 40)
    play((ann,), random.Random(9), lambda: ann.updates > 6 or ann.run(OVER))
    if not ann.run(OVER):
        ann.run("document.getElementById('play-menu').open = true")
        ann.press_text("#play-menu", "Forfeit")
        ann.press_text("#online-strip", "Forfeit")
    cid.wait(OVER, 40)
    assert cid.updates == ann.updates


def a_client_is_led_to_another_process(club):
    """A client continues at the address that the server names, with the same battle."""
    ann = club.persons[0]
    kept = "window.sockets = []; const Own = WebSocket; WebSocket = class extends Own { constructor(...a) { super(...a); sockets.push(this) } };"
    given = {"source": kept}
    script = ann.driver.execute_cdp_cmd("Page.addScriptToEvaluateOnNewDocument", given)["identifier"]
    ann.enter("Ann11")
    ann.click("#online-computer")
    ann.wait(ASKED)
    room = re.search(r"r=(\d+)", ann.wait(ADDRESS))[1]
    led = f"JSON.stringify({{type: 'moved', room: {room}, address: '{club.server.url}?two'}})"
    ann.run(f"sockets[0].dispatchEvent(new MessageEvent('message', {{data: {led}}}))")
    assert ann.wait("return sockets[1]?.readyState === 1 && sockets[1].url").endswith("?two")
    begun = ann.updates
    play((ann,), random.Random(10), lambda: ann.updates > begun or ann.run(OVER))
    ann.driver.execute_cdp_cmd("Page.removeScriptToEvaluateOnNewDocument", {"identifier": script})


def a_link_challenges_and_a_battle_ends_early(club):
    """A link that another browser opens; a draw that is offered and accepted; a rematch, and a forfeit."""
    ann, ben, cid = club.persons
    ann.enter("Ann3")
    ann.click("#online-link")
    link = ann.wait("return document.querySelector('#online-calls input')?.value")
    ben.enter("Ben3", "#" + link.partition("#")[2])
    assert "Ann3 challenges you" in ben.text("#online-calls")
    ben.press_text("#online-calls", "Accept")
    for person in (ann, ben):
        person.wait(ASKED)
        assert person.run("return !document.getElementById('online-clock').hidden")
    assert re.fullmatch(r"Your time: 1:[23]\d", ann.text("#online-clock")), ann.text("#online-clock")
    ann.run("document.getElementById('play-menu').open = true")
    ann.press_text("#play-menu", "Offer a draw")
    ben.press_text("#online-strip", "Accept the draw")
    for person in (ann, ben):
        person.wait("return document.getElementById('play-now').textContent.endsWith('A draw.')")
    ann.click("#play-rematch")
    ben.wait("return /Ann3 wants a rematch/.test(document.getElementById('online-strip').textContent)")
    ben.click("#play-rematch")
    for person in (ann, ben):
        person.wait(ASKED)
    ben.run("document.getElementById('play-menu').open = true")
    ben.press_text("#play-menu", "Forfeit")
    ben.press_text("#online-strip", "Forfeit")
    ann.wait("return document.getElementById('play-now').textContent.endsWith('You have won.')")
    ben.wait("return document.getElementById('play-now').textContent.endsWith('Ann3 has won.')")
    assert "Ben3 has forfeited." in ann.run(STRIP) and "You have forfeited." in ben.run(STRIP)


def the_computer_plays_online(club):
    ann = club.persons[0]
    ann.enter("Ann4")
    ann.click("#online-computer")
    ann.wait(ASKED)
    begun = ann.updates
    ann.press("1")
    ann.wait(f"{UPDATED} > {begun}")
    # The calculator takes positions in which both members have HP.
    at_rest = "return document.getElementById('play-calculate').checkVisibility()"
    play((ann,), random.Random(7), lambda: ann.run(OVER) or ann.updates > 6 and ann.run(at_rest))
    assert "bot" in ann.text("#play-field")
    if ann.run(OVER):
        return
    ann.click("#play-calculate")
    ann.wait("return document.getElementById('calc-back').checkVisibility()")
    ann.click("#calc-back")
    ann.wait(ASKED)


def only_what_a_side_may_know_is_in_the_page(club):
    """Before its members come out, the foe's are nowhere in the page of the other side, nor in that of the audience."""
    ann, ben, cid = club.persons
    for person, name, species in ((ann, "Ann5", "Mr. Mime"), (ben, "Ben5", "Lickitung")):
        person.enter(name)
        person.fill("#online-team", "text")
        person.fill("#online-text", f"Tauros\n- Body Slam\n\n{species}\n- Substitute")
    ann.fill("#online-to", "Ben5")
    ann.click("#online-challenge")
    ben.press_text("#online-calls", "Accept")
    for person in (ann, ben):
        person.wait(ASKED)
    cid.come(ann.wait(ADDRESS))
    cid.wait(SHOWN)
    for person, hidden in ((ann, ["Lickitung"]), (ben, ["Mr. Mime"]), (cid, ["Lickitung", "Mr. Mime"])):
        text = person.run("return document.getElementById('play-game').outerHTML")
        assert "Tauros" in text and not [it for it in hidden if it in text], hidden
        assert not person.run(
            "return [...document.querySelectorAll('#play-menu details')].some((it) => it.checkVisibility())"
        )


def refusals_are_said_where_they_belong(club):
    """In words, with the field that is wrong."""
    ann = club.persons[0]
    wrong = "return document.querySelector('[aria-invalid=true]')?.id ?? ''"

    def said(text, field):
        ann.wait(f"return /{text}/.test(document.getElementById('notice-text').textContent)")
        assert ann.run(wrong) == field, (ann.run(wrong), field)

    ann.come()
    ann.click("#online-enter")
    said("Enter a name", "online-name")
    ann.fill("#online-name", "Ann6")
    ann.fill("#online-password", "wrong password")
    ann.click("#online-enter")
    said("No account has this name and password", "online-password")
    ann.fill("#online-password", "short")
    ann.click("#online-register")
    said("A password has 8 to", "online-password")
    ann.enter("Ann6")
    ann.fill("#online-to", "Nobody at all")
    ann.click("#online-challenge")
    said("There is no such player", "online-to")
    ann.fill("#online-team", "text")
    ann.fill("#online-text", "Tauroos\n- Body Slam")
    ann.click("#online-search")
    said("Tauros", "online-text")
    ann.run("location.hash = '#online?r=999999'")
    ann.wait("return /There is no such room/.test(document.getElementById('notice-text').textContent)")


def the_name_is_kept_until_it_is_left(club):
    ann = club.persons[0]
    ann.enter("Ann7")
    ann.open("#online")
    ann.wait("return document.getElementById('online-who').textContent === 'Ann7'")
    ann.click("#online-logout")
    ann.wait("return document.getElementById('online-login').checkVisibility()")
    ann.open("#online")
    time.sleep(0.3)
    assert ann.run("return document.getElementById('online-login').checkVisibility()")


def a_battle_of_the_page_is_kept_beside(club):
    """A battle against the page's own computer waits in Play while one at the server is shown, and the other way round."""
    ann = club.persons[0]
    ann.enter("Ann8")
    ann.click("#tab-play")
    ann.click("#play-start")
    ann.wait("return document.querySelector('#panel-play > #play-game:not([hidden]) [data-choice]') !== null")
    ann.click("#tab-online")
    ann.click("#online-computer")
    ann.wait(ASKED)
    ann.click("#tab-play")
    ann.click("#play-return")
    ann.wait("return document.querySelector('#panel-play > #play-game:not([hidden]) [data-choice]') !== null")
    assert not ann.run("return document.getElementById('online-clock').checkVisibility()")
    ann.click("#tab-online")
    ann.press_text("#online-battles", "Go on")
    ann.wait(ASKED)


def go(club, screen):
    """Shows a screen to the first person."""
    ann = club.persons[0]
    if screen == "login":
        return ann.come()
    ann.enter("Ann9")
    if screen == "lobby":
        for count, button in enumerate(("#online-link", "#online-search"), 1):
            ann.click(button)
            ann.wait(f"return document.querySelectorAll('#online-calls li').length === {count}")
    if screen == "battle":
        ann.click("#online-computer")
        ann.wait(ASKED)
        ann.run("document.getElementById('play-menu').open = true")
        ann.press_text("#play-menu", "Forfeit")


def all_can_use_it(club):
    """Names, rules and contrast of each screen, in both themes, and on a phone."""
    ann = club.persons[0]
    for screen in ("login", "lobby", "battle"):
        go(club, screen)
        for size, scheme in (("wide", "light"), ("wide", "dark"), ("narrow", "light")):
            ann.look(*SIZES[size], scheme)
            nodes = nodes_of(ann.nodes())
            lacking = [it["role"] for it in nodes if it["role"] in NAMED - {"group"} and not it["name"]]
            broken = broken_rules(ann, nodes)
            contrast = ann.run(CONTRAST)["low"] + ann.run(EDGES)
            width = ann.run("return document.documentElement.scrollWidth")
            assert not lacking and not broken and not contrast, (screen, size, scheme, lacking, broken, contrast)
            assert width <= SIZES[size][0], (screen, size, width)
        for name in layout.at_sizes(ann):
            layout.test_boxes(ann, "#panel-online", f"{screen}, {name}")


def the_file_stays_without_a_network(club):
    """Only the page that a server serves may connect, and has the part for it."""
    parts = ("connect-src 'self'", 'id="panel-online"', "new WebSocket")
    served, file = club.server.get("/"), club.file.read_text()
    assert [it in served for it in parts] == [True] * 3 and [it in file for it in parts] == [False] * 3


def only_the_server_is_asked_and_nothing_is_wrong(club):
    own = (club.server.web, club.server.url, "blob:", "data:", "about:")
    for person in club.persons:
        person.gather()
        assert not [it for it in person.requested if not it.startswith(own)], person.requested
        # The browsers say that the server could not be reached while it was killed.
        said = [it for it in person.said if "ERR_CONNECTION_REFUSED" not in it["message"]]
        assert not said, said
    assert any(person.requested for person in club.persons)


CHECKS = [
    two_persons_play_to_the_end_and_a_third_watches,
    a_battle_goes_on_after_a_lost_connection,
    a_stranger_watches,
    a_client_is_led_to_another_process,
    a_link_challenges_and_a_battle_ends_early,
    the_computer_plays_online,
    only_what_a_side_may_know_is_in_the_page,
    refusals_are_said_where_they_belong,
    the_name_is_kept_until_it_is_left,
    a_battle_of_the_page_is_kept_beside,
    all_can_use_it,
    the_file_stays_without_a_network,
    only_the_server_is_asked_and_nothing_is_wrong,
]
