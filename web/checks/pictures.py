"""The pictures of the page that the documents show (docs/pictures): a part, a width, and light or dark."""
import base64

from checks.browser import SIZES, go

PICTURES = (
    ("home", "wide", "light"),
    ("replay", "wide", "light"),
    ("replay", "narrow", "dark"),
    ("play", "wide", "dark"),
    ("play", "narrow", "light"),
    ("calculator", "wide", "light"),
)
TEAMS = (
    "Tauros\n- Body Slam\n- Hyper Beam\n- Blizzard\n- Earthquake\n\nStarmie\n- Surf\n- Recover\n- Thunder Wave\n- Psychic\n\nChansey\n- Ice Beam\n- Sing\n\n"
    "Exeggutor\n- Psychic\n- Sleep Powder\n- Mega Drain\n- Explosion\n\nZapdos\n- Thunderbolt\n- Drill Peck\n\nGengar\n- Hypnosis\n- Night Shade",
    "Jolteon\n- Thunderbolt\n- Pin Missile\n\nCloyster\n- Clamp\n- Blizzard\n\nSnorlax\n- Body Slam\n- Rest\n\nAlakazam\n- Psychic\n- Recover",
)


def play(browser, turns):
    """Plays some turns of a battle."""
    browser.open("#play")
    for side, team in enumerate(TEAMS, 1):
        browser.fill(f"#play-team-{side}", team)
    browser.fill("#play-seed", "3 1 4 1 5 9 2 6 5 3")
    browser.fill("#play-who-2", "greedy")
    browser.click("#play-start")
    for turn in range(turns):
        browser.click("#play-choices-1 [data-choice='%d']" % (36 if turn == 1 else 17))
        browser.wait(f"return Number(document.getElementById('play-game').dataset.updates) > {turn + 1}")


def take(browser, folder):
    """Writes PART_WIDTH_SCHEME.webp for each, and returns the status 0."""
    folder.mkdir(parents=True, exist_ok=True)
    for part, width, scheme in PICTURES:
        browser.look(*SIZES[width], scheme)
        if part == "play":
            play(browser, 3)
        else:
            go(browser, part)
        browser.run("document.activeElement.blur(); window.scrollTo(0, 0)")
        browser.run("return new Promise((done) => setTimeout(done, 300))")
        shot = browser.driver.execute_cdp_cmd("Page.captureScreenshot", {"format": "webp", "quality": 40})
        (folder / f"{part}_{width}_{scheme}.webp").write_bytes(base64.b64decode(shot["data"]))
        print(f"{part}_{width}_{scheme}.webp", flush=True)
    return 0
