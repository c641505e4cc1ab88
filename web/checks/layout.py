"""Layout at twelve sizes: no text overlaps another or leaves its box, and nothing moves while a turn is shown. Boxes are compared, not pixels."""
from selenium.webdriver.common.keys import Keys

from checks.browser import SIZES as USUAL
from checks.browser import go
from checks.play import SETTLED, UPDATES

SIZES = {
    "a small phone": (320, 568),
    "a phone": (360, 640),
    "a large phone": (390, 844),
    "a small phone on its side": (667, 375),
    "a large phone on its side": (844, 390),
    "a tablet": (768, 1024),
    "a tablet on its side": (1024, 768),
    "a low window": (960, 540),
    "1440x900 at 200 %": (720, 450),
    "1280x1024 at 400 %": (320, 256),
    "a laptop": (1280, 720),
    "4K": (3840, 2160),
}
# A replay opens the details of a side by the width at which it is first drawn, so the page is loaded for each of these.
NARROW, WIDE = ({name: size for name, size in SIZES.items() if (size[0] > 704) is wide} for wide in (False, True))
# Waits until the page has its new size and has drawn it.
DRAWN = "return new Promise((done) => requestAnimationFrame(() => requestAnimationFrame(() => setTimeout(done))))"
# The texts of a part as boxes, one for each line. Those of a list that scrolls, and of what stays while others scroll, are left out.
TEXTS = """
const found = [];
let count = 0;
const root = document.querySelector(arguments[0]);
const walker = document.createTreeWalker(root, NodeFilter.SHOW_TEXT);
while (walker.nextNode()) {
  const element = walker.currentNode.parentElement;
  if (!walker.currentNode.data.trim() || !element.checkVisibility({checkOpacity: true, checkVisibilityCSS: true})) continue;
  if (element.closest('.unseen, .lines, .floating, svg, option, textarea, .found')) continue;
  let stays = false, clip = null;
  for (let it = element; it !== root; it = it.parentElement) {
    const style = getComputedStyle(it);
    if (style.position === 'fixed' || style.position === 'sticky') stays = true;
    if (style.clipPath !== 'none') stays = true;
    if (!clip && style.overflowX === 'hidden') clip = it.getBoundingClientRect();
  }
  if (stays) continue;
  count++;
  const range = document.createRange();
  range.selectNodeContents(walker.currentNode);
  for (const box of range.getClientRects()) {
    const inside = clip ? {left: Math.max(box.left, clip.left), right: Math.min(box.right, clip.right), top: Math.max(box.top, clip.top), bottom: Math.min(box.bottom, clip.bottom)} : box;
    if (inside.right - inside.left > 2 && inside.bottom - inside.top > 2)
      found.push({count, text: walker.currentNode.data.trim().slice(0, 24), left: inside.left, right: inside.right, top: inside.top, bottom: inside.bottom});
  }
}
"""
# Pairs of texts that overlap by more than a fourth of a line.
OVERLAPS = (
    TEXTS
    + """
const pairs = [];
for (const [at, one] of found.entries())
  for (const two of found.slice(at + 1)) {
    const width = Math.min(one.right, two.right) - Math.max(one.left, two.left);
    const height = Math.min(one.bottom, two.bottom) - Math.max(one.top, two.top);
    if (one.count !== two.count && width > 2 && height > 4) pairs.push([one.text, two.text, Math.round(width), Math.round(height)].join(' | '));
  }
return [found.length, pairs];
"""
)
# Plates that overlap the other one of their field.
PLATES = """
return [...document.querySelector(arguments[0]).querySelectorAll('.arena')].filter((it) => it.checkVisibility()).flatMap((arena) => {
  const [one, two] = [...arena.querySelectorAll('.plate')].map((it) => it.getBoundingClientRect());
  return one.bottom > two.top && two.bottom > one.top ? [[one.top, one.bottom, two.top, two.bottom].map(Math.round)] : [];
});
"""
# Elements that leave the box around them: what it is, and the element that has to contain it.
CUT = """
const out = [];
for (const [inner, outer] of arguments[0])
  for (const it of document.querySelectorAll(inner)) {
    if (!it.checkVisibility()) continue;
    const [box, around] = [it.getBoundingClientRect(), it.closest(outer).getBoundingClientRect()];
    if (box.left < around.left - 1 || box.right > around.right + 1 || box.top < around.top - 1 || box.bottom > around.bottom + 1)
      out.push(`${inner} "${it.textContent.slice(0, 24)}": ${[box.left, box.top, box.right, box.bottom].map(Math.round)} in ${[around.left, around.top, around.right, around.bottom].map(Math.round)}`);
  }
return out;
"""
INSIDE = [
    ("#play-field .plate", ".arena"),
    ("#play-field .figure .token", ".arena"),
    (".plate .head > *", ".plate"),
    (".plate .health > *", ".plate"),
    (".plate .party .ball", ".plate"),
    (".to-move > *", ".to-move"),
    (".to-switch > *", ".to-switch"),
    (".topbar > *", "#play-game"),
    (".member-card:not([hidden])", "html"),
]
# The boxes of elements, and those that differ from earlier ones.
BOXED = """
const boxes = (parts) => parts.map((it) => [...document.querySelectorAll(it)].filter((one) => one.checkVisibility()).map((one) => one.getBoundingClientRect())
  .map((box) => [box.left, box.top, box.width, box.height].map(Math.round).join(' ')));
const changed = (parts, before) => boxes(parts).map((now, at) => [before[at], now]).filter(([one, two]) => String(one) !== String(two));
"""
BOXES = BOXED + "return boxes(arguments[0]);"
BUSY = "return document.querySelectorAll('[data-busy]').length > 0"
# Looks at the boxes until the turn has been shown; returns how often, and what moved.
MOVED = (
    BOXED
    + """
const [parts, before] = arguments;
return new Promise((done) => {
  let during = 0;
  const look = () => {
    if (!document.querySelectorAll('[data-busy]').length) return done([during, []]);
    const moved = changed(parts, before);
    if (moved.length) return done([during, moved]);
    during++;
    setTimeout(look, 15);
  };
  look();
});
"""
)
# What has moved at each of twelve moments.
MOVED_LATER = (
    BOXED
    + """
const [parts, before] = arguments, found = [];
for (let time = 0; time < 12; time++) {
  found.push(changed(parts, before));
  await new Promise((done) => setTimeout(done, 150));
}
return found;
"""
)
# What must not move while a turn is shown: the field, its plates, the log, the choices; and in a replay the controls.
FIXED = ["#play-field", "#play-field .plate", ".scroller", ".acts"]
CHOICES = "#play-choices-1 [data-choice]"
FIXED_REPLAY = ["#replay-field", "#replay-field .plate", ".watch-lines .lines", ".steps button", "#replay-slider"]
# What a person may set for reading (WCAG 2.2, 1.4.12); returns how wide the page then is.
SPACED = """
const style = new CSSStyleSheet();
style.replaceSync('* { line-height: 1.5 !important; letter-spacing: .12em !important; word-spacing: .16em !important } p { margin-bottom: 2em !important }');
document.adoptedStyleSheets = [style];
return document.documentElement.scrollWidth;
"""
# Members with long names and many states.
LONG = (
    "Kangaskhan\n- Flamethrower\n- Hyper Beam\n- Thunderbolt\n- Thunder Punch\n\nVictreebel\n- Razor Leaf\n- Sleep Powder\n- Stun Spore\n- Swords Dance\n\n"
    "Weepinbell\n- Double-Edge\n- Sleep Powder\n- Stun Spore\n- Razor Leaf\n\nExeggutor\n- Sleep Powder\n- Psychic\n- Stun Spore\n- Explosion\n\n"
    "Tentacruel\n- Hydro Pump\n- Blizzard\n\nDragonite\n- Thunder Wave\n- Wrap\n"
)


def start(browser, team=LONG):
    """Starts a battle, at first of members with long names."""
    browser.open("#play")
    for side in (1, 2):
        browser.fill(f"#play-team-{side}", team)
    browser.fill("#play-seed", "3 1 4 1 5 9 2 6 5 3")
    browser.fill("#play-who-2", "greedy")
    browser.click("#play-start")


def at_sizes(browser, sizes=SIZES, motion="reduce"):
    """Gives the page each size in turn, and the name of the size. The pointer is on nothing that opens."""
    browser.point(0, 0)
    for name, size in sizes.items():
        browser.look(*size, "light", motion)
        browser.run(DRAWN)
        yield name
    browser.look(*USUAL["wide"], "light")


def test_boxes(browser, part, size):
    count, pairs = browser.run(OVERLAPS, part)
    assert count > 5 and not pairs, (size, part, pairs)
    cut = browser.run(CUT, INSIDE)
    assert not cut, (size, part, cut)
    plates = browser.run(PLATES, part)
    assert not plates, (size, part, plates)
    width = browser.run("return [document.documentElement.scrollWidth, innerWidth]")
    assert width[0] <= width[1], (size, part, width)


def choose_first(browser):
    """Presses the first choice, and returns whether there was one."""
    before = browser.run(UPDATES)
    pressed = "const it = document.querySelector('#play-choices-1 [data-choice]'); it?.click(); return Boolean(it)"
    return browser.run(pressed) and browser.wait(f"{UPDATES} > {before} && {SETTLED}")


def nothing_overlaps_in_a_battle(browser):
    start(browser)
    for turn in range(4):
        if turn and not choose_first(browser):
            break
        for name in at_sizes(browser):
            test_boxes(browser, "#panel-play", name)
    for name in at_sizes(browser):
        browser.run("document.querySelector('#play-field .far .party button').click()")
        assert browser.run("return document.getElementById('play-card').checkVisibility()"), name
        test_boxes(browser, "#play-card", name)
        browser.press(Keys.ESCAPE)
        assert not browser.run("return document.getElementById('play-card').checkVisibility()"), name


# Whether the hint leaves the screen, and for each button whether the hint covers it.
COVERED = """
const hint = document.getElementById('play-hinted').getBoundingClientRect();
return [hint.top < 0 || hint.right > innerWidth, ...[...document.querySelectorAll('[data-choice]')].map((it) => it.getBoundingClientRect())
  .map((it) => it.left < hint.right && hint.left < it.right && it.top < hint.bottom && hint.top < it.bottom)];
"""


def a_hint_moves_no_choice(browser):
    """It is on the screen, and covers no button."""
    start(browser)
    before = {name: browser.run(BOXES, [CHOICES]) for name in at_sizes(browser)}
    browser.run("document.getElementById('play-hint').click()")
    browser.wait("return document.querySelectorAll('#play-hinted li').length", 60)
    for name in at_sizes(browser):
        test_boxes(browser, "#play-hinted", name)
        assert browser.run(BOXES, [CHOICES]) == before[name], name
        covered = browser.run(COVERED)
        assert len(covered) > 2 and not any(covered), (name, covered)
    browser.run("document.getElementById('play-hint').click()")
    for name in at_sizes(browser):
        assert not browser.run("return document.getElementById('play-hinted').checkVisibility()"), name


def nothing_overlaps_at_the_end(browser):
    """The buttons after a battle, whose last members faint."""
    start(browser, team="Electrode\n- Explosion")
    browser.run("document.querySelector('#play-choices-1 [data-choice]').click()")
    browser.wait("return document.getElementById('play-end-watch') !== null")
    for name in at_sizes(browser):
        test_boxes(browser, "#panel-play", name)


def nothing_overlaps_in_the_other_parts(browser):
    for part, panel, sizes in (
        ("home", "home", SIZES),
        ("replay", "replay", NARROW),
        ("replay", "replay", WIDE),
        ("teams", "play", SIZES),
        ("calculator", "calculator", SIZES),
        ("carried", "calculator", SIZES),
        ("builder", "teams", SIZES),
    ):
        browser.look(*next(iter(sizes.values())), "light")
        go(browser, part)
        for name in at_sizes(browser, sizes):
            test_boxes(browser, f"#panel-{panel}", name)
            if part == "builder":
                test_boxes(browser, "header", name)
    # A species with two types, and HP with three digits.
    browser.open("#calculator")
    browser.fill("#calc-member-1 [name=species]", "Exeggutor")
    browser.fill("#calc-member-1 [name=hp]", "323")
    for name in at_sizes(browser):
        test_boxes(browser, "#panel-calculator", name)


def nothing_moves_while_a_turn_is_shown(browser):
    start(browser)
    browser.fill("#speed", "fast")
    for name in at_sizes(browser, motion="no-preference"):
        browser.run("document.getElementById('play-again').click()")
        browser.click("#play-start")
        before = browser.run(BOXES, [*FIXED, CHOICES])
        browser.run("document.querySelector('#play-choices-1 [data-choice]').click()")
        browser.wait(BUSY)
        during, moved = browser.run(MOVED, [*FIXED, CHOICES], before)
        assert not moved, (name, moved)
        assert during > 2, (name, during)
        # Nor after it, when the other choices are there, which may have more lines.
        above = FIXED[:-1]
        now = browser.run(BOXES, above)
        assert now == before[: len(above)], (name, [pair for pair in zip(before, now) if pair[0] != pair[1]])
    browser.fill("#speed", "normal")


def nothing_moves_in_a_replay(browser):
    for sizes in (NARROW, WIDE):
        browser.look(*next(iter(sizes.values())), "light", "no-preference")
        browser.open("#replay")
        browser.fill("#replay-speed", "fast")
        for name in at_sizes(browser, sizes, "no-preference"):
            browser.run("document.getElementById('replay-example').click()")
            browser.wait("return document.getElementById('replay-slider').value === '1'")
            before = browser.run(BOXES, FIXED_REPLAY)
            browser.run("document.getElementById('replay-play').click()")
            for moved in browser.run(MOVED_LATER, FIXED_REPLAY, before):
                assert not moved, (name, moved)
            assert browser.run("return Number(document.getElementById('replay-slider').value)") > 1, name
            browser.run("document.getElementById('replay-play').click()")
    browser.fill("#replay-speed", "normal")


CHECKS = [
    nothing_overlaps_in_a_battle,
    a_hint_moves_no_choice,
    nothing_overlaps_at_the_end,
    nothing_overlaps_in_the_other_parts,
    nothing_moves_while_a_turn_is_shown,
    nothing_moves_in_a_replay,
]
