"""Accessibility: names for a screen reader, contrast, use by keys alone, a phone's width, a quick start, and no network."""
import json
import re
from functools import cache

from selenium.webdriver.common.keys import Keys

from checks.browser import PLACES, SIZES, go
from checks.layout import OVERLAPS, SPACED

# Roles of elements that a person uses or that have a value; each needs a name.
NAMED = {
    "button",
    "checkbox",
    "combobox",
    "group",
    "image",
    "link",
    "log",
    "meter",
    "region",
    "slider",
    "spinbutton",
    "tab",
    "tablist",
    "tabpanel",
    "textbox",
}
# Colours, and their contrast.
COLOURS = """
const parsed = (color) => (color.match(/[\\d.]+/g) ?? []).map(Number);
const light = (rgb) => rgb.slice(0, 3).map((it) => it / 255).map((it) => (it <= .03928 ? it / 12.92 : ((it + .055) / 1.055) ** 2.4))
  .reduce((sum, it, at) => sum + it * [.2126, .7152, .0722][at], 0);
const behind = (element) => {
  for (let it = element; it; it = it.parentElement) {
    const color = parsed(getComputedStyle(it).backgroundColor);
    if (color.length === 3 || color[3] === 1) return color;
  }
  return [255, 255, 255];
};
const ratio = (one, two) => { const [high, low] = [light(one), light(two)].sort((a, b) => b - a); return (high + .05) / (low + .05); };
"""
# The visible texts with too little contrast to their background (WCAG 2.2, AA).
CONTRAST = (
    COLOURS
    + """
const low = [];
const walker = document.createTreeWalker(document.body, NodeFilter.SHOW_TEXT);
let count = 0;
while (walker.nextNode()) {
  const element = walker.currentNode.parentElement;
  if (!walker.currentNode.data.trim() || !element.checkVisibility() || element.closest('.unseen, script, option, datalist, :disabled')) continue;
  const style = getComputedStyle(element);
  const found = ratio(parsed(style.color), behind(element));
  const size = parseFloat(style.fontSize);
  const wanted = size >= 24 || (size >= 18.66 && Number(style.fontWeight) >= 700) ? 3 : 4.5;
  count++;
  if (found < wanted) low.push(`${walker.currentNode.data.trim().slice(0, 30)}: ${found.toFixed(2)}`);
}
return { count, low };
"""
)
# The fields whose edges have less than three times the contrast of what is around them.
EDGES = (
    COLOURS
    + """
return [...document.querySelectorAll('input:not([type=checkbox], [type=range], [type=file]), select, textarea')].filter((it) => it.checkVisibility())
  .filter((it) => ratio(parsed(getComputedStyle(it).borderLeftColor), behind(it.parentElement)) < 3 && getComputedStyle(it).borderLeftWidth !== '0px')
  .map((it) => it.outerHTML.slice(0, 120));
"""
)
# The element with the focus, with what is wrong with it: it is not marked, or something covers it.
FOCUS = (
    COLOURS
    + """
const it = document.activeElement;
if (it === document.body) return ['', ''];
it.dataset.reached ??= String(Math.random());
const [style, box] = [getComputedStyle(it), it.getBoundingClientRect()];
const isMarked = style.outlineStyle !== 'none' && parseFloat(style.outlineWidth) >= 2 && ratio(parsed(style.outlineColor), behind(it.parentElement)) >= 3;
const isShown = [[.5, .5], [.1, .5], [.9, .5], [.5, .1], [.5, .9]].some(([x, y]) => it.contains(document.elementFromPoint(box.left + x * box.width, box.top + y * box.height)));
const fault = [isMarked ? '' : 'not marked', isShown ? '' : 'covered'].filter(Boolean).join(', ');
return [it.dataset.reached, fault && `${fault}: ${it.outerHTML.slice(0, 120)}`];
"""
)

# Rules of WCAG 2.2 AA over the elements that are shown: each returns those that break it.
RULES = {
    "the page has a language and a title": "document.documentElement.lang && document.title ? [] : [document.documentElement]",
    "the page can be zoomed": "[...document.querySelectorAll('meta[name=viewport]')].filter((it) => /user-scalable|maximum-scale/.test(it.content))",
    "there is one main part, one header and one first heading": "['main', 'header', 'h1'].filter((it) => document.querySelectorAll(it).length !== 1).map((it) => document.querySelector(it) ?? document.body)",
    "headings are not empty": "all('h1, h2, h3, h4').filter((it) => !it.textContent.trim())",
    "headings skip no level": "all('h2, h3, h4').filter((it, at, them) => Number(it.tagName[1]) > (at ? Number(them[at - 1].tagName[1]) : 1) + 1)",
    "nothing is before its place in the order of focus": "all('[tabindex]').filter((it) => it.tabIndex > 0)",
    "nothing hidden can have the focus": "all('[aria-hidden=true]').filter((it) => it.matches(FOCUSED) || it.querySelector(FOCUSED))",
    "no control is in another": "all('button, a, summary, [role=button]').filter((it) => it.querySelector('button, a, input, select, textarea, [tabindex]'))",
    "targets have 24 pixels": "all('button, select, input, summary').filter((it) => !it.closest('.unseen, label') && it.tabIndex >= 0).filter((it) => { const box = it.getBoundingClientRect(); return box.width < 23.5 || box.height < 23.5; })",
    "roles are known": "all('[role]').filter((it) => !ROLES.includes(it.getAttribute('role')))",
    "states are true or false": "all('[aria-pressed], [aria-selected], [aria-expanded], [aria-disabled], [aria-invalid], [aria-hidden]').filter((it) => ['pressed', 'selected', 'expanded', 'disabled', 'invalid', 'hidden'].some((key) => !['true', 'false', null].includes(it.getAttribute(`aria-${key}`))))",
    "references lead to elements": "all('[aria-controls], [aria-labelledby], [aria-describedby]').filter((it) => ['controls', 'labelledby', 'describedby'].some((key) => it.hasAttribute(`aria-${key}`) && !it.getAttribute(`aria-${key}`).split(' ').every((id) => document.getElementById(id))))",
    "tabs are in a list and lead to panels": "all('[role=tab]').filter((it) => !it.closest('[role=tablist]') || document.getElementById(it.getAttribute('aria-controls'))?.getAttribute('role') !== 'tabpanel')",
    "one tab is selected": "all('[role=tab][aria-selected=true]').length === 1 ? [] : all('[role=tablist]')",
    "options are in lists": "all('[role=option]').filter((it) => !it.closest('[role=listbox]'))",
    "drawings are hidden or have a name": "all('svg, img').filter((it) => !it.closest('[aria-hidden=true]') && !it.getAttribute('aria-label') && !it.getAttribute('alt'))",
    "meters have a value in their range, and a text": "all('[role=meter]').filter((it) => { const [least, now, most] = ['min', 'now', 'max'].map((key) => Number(it.getAttribute(`aria-value${key}`))); return !(least <= now && now <= most && it.getAttribute('aria-valuetext')); })",
    "tables have heads with a scope": "all('table').filter((it) => !it.querySelector('th[scope]') || it.querySelector('th:not([scope])'))",
    "fields have a name besides a placeholder": "all('input, select, textarea').filter((it) => !it.labels?.length && !it.getAttribute('aria-label'))",
    "a name has the text that is seen": "all('button[aria-label]').filter((it) => /[a-z]{3}/i.test(it.textContent) && !it.getAttribute('aria-label').toLowerCase().includes(it.textContent.trim().toLowerCase()) && !(it.title || it.closest('.toggles')))",
    "groups and dialogs have a name": "all('[role=group], [role=dialog], [role=log], [role=tablist]').filter((it) => !it.getAttribute('aria-label') && !it.getAttribute('aria-labelledby'))",
    "no sound or motion starts by itself": "all('video, audio, marquee, blink, [autoplay]')",
}
BROKEN = """
const FOCUSED = 'button:not(:disabled), input, select, textarea, summary, a[href], [tabindex="0"]';
const ROLES = ['alert', 'button', 'combobox', 'dialog', 'group', 'img', 'listbox', 'log', 'meter', 'option', 'status', 'tab', 'tablist', 'tabpanel', 'timer'];
const all = (selector) => [...document.querySelectorAll(selector)].filter((it) => it.checkVisibility());
const shown = (them) => them.map((it) => it.outerHTML.slice(0, 160));
"""
BROKEN += "return {%s};" % ", ".join(f"{json.dumps(rule)}: shown({broken})" for rule, broken in RULES.items())


def nodes_of(found):
    """The nodes of an accessibility tree that are not ignored, with their properties, and the name of the group that they are in."""
    by_id = {node["nodeId"]: node for node in found}
    word = lambda node, key: str(node.get(key, {}).get("value", ""))

    def group(node):
        names = []
        while node := by_id.get(node.get("parentId")):
            if word(node, "role") in GROUPS:
                names.append(word(node, "name"))
        return tuple(names)

    return [
        {
            "role": word(node, "role"),
            "name": word(node, "name").strip(),
            "value": word(node, "value"),
            "group": group(node),
        }
        | {it["name"]: it["value"].get("value") for it in node.get("properties", [])}
        for node in found
        if not node.get("ignored")
    ]


GROUPS = {"group", "list", "region", "table", "row", "tabpanel", "dialog", "radiogroup"}
WIDGETS = {"button", "checkbox", "combobox", "searchbox", "slider", "spinbutton", "tab", "textbox"}
# Rules of WCAG 2.2 AA over the accessibility tree: each returns the nodes that break it.
TREE_RULES = {
    "there is one banner and one main part": lambda them: [
        it for it in ("banner", "main") if [node["role"] for node in them].count(it) != 1
    ],
    "what can have the focus has a role and a name": lambda them: [
        it
        for it in them
        if it.get("focusable")
        and it["role"] != "RootWebArea"
        and (it["role"] in ("", "generic", "none") or not it["name"])
    ],
    "controls can have the focus": lambda them: [
        it for it in them if it["role"] in WIDGETS - {"tab"} and not it.get("focusable") and not it.get("disabled")
    ],
    "controls of one group have different names": lambda them: [
        it
        for at, it in enumerate(them)
        if it["role"] in WIDGETS
        and (it["role"], it["name"], it["group"]) in [(one["role"], one["name"], one["group"]) for one in them[:at]]
    ],
    "headings have a level and a name": lambda them: [
        it for it in them if it["role"] == "heading" and not (it["name"] and it.get("level"))
    ],
    "meters and sliders have a value": lambda them: [
        it for it in them if it["role"] in ("meter", "slider") and not it["value"]
    ],
    "tabs say whether they are selected": lambda them: [
        it for it in them if it["role"] == "tab" and "selected" not in it
    ],
    "lists that open say whether they are open": lambda them: [
        it for it in them if it["role"] == "combobox" and "expanded" not in it
    ],
    "messages are spoken": lambda them: [
        it for it in them if it["role"] in ("log", "status", "alert") and it.get("live") not in ("polite", "assertive")
    ],
    "images have a name": lambda them: [it for it in them if it["role"] in ("img", "image") and not it["name"]],
}

REACHED = """
return [...document.querySelectorAll('button, input, select, textarea, summary, [tabindex="0"]')]
  .filter((it) => it.checkVisibility() && !it.disabled && it.tabIndex >= 0).length;
"""


# What has to be true of the elements of a part. Items are in lists, and rows in tables; an explicit role would override that of a list.
WHOLE = """
const all = (selector) => [...document.querySelectorAll(selector)];
return {
  'no id is there twice': all('[id]').length === new Set(all('[id]').map((it) => it.id)).size,
  'items are in lists': all('li').every((it) => it.parentElement.matches('ol:not([role]), ul:not([role])')),
  'references lead to elements': all('[aria-controls], [aria-labelledby]').every((it) =>
    document.getElementById(it.getAttribute('aria-controls') ?? it.getAttribute('aria-labelledby'))),
  'labels are those of fields': all('label').every((it) => it.control),
};
"""


def broken_rules(browser, nodes):
    """The rules that do not hold, with what breaks them."""
    found = browser.run(BROKEN) | {rule: broken(nodes) for rule, broken in TREE_RULES.items()}
    return {rule: them for rule, them in found.items() if them}


@cache
def found_in_parts(browser):
    """What is in each part, by its size and name: several checks look at what one visit finds."""
    found = {}
    for size in SIZES:
        for name in PLACES:
            browser.look(*SIZES[size], "light")
            go(browser, name)
            nodes = nodes_of(browser.nodes())
            found[size, name] = {
                "nodes": nodes,
                "whole": browser.run(WHOLE),
                "broken": broken_rules(browser, nodes),
                "width": browser.run("return document.documentElement.scrollWidth"),
            }
            if size == "wide":
                found[size, name]["contrast"] = contrast_of(browser)
                found[size, name]["spaced"] = browser.run(SPACED), *browser.run(OVERLAPS, "main")
                browser.run("document.adoptedStyleSheets = []")
            # A card closes when the focus leaves it.
            if name in {"wide": set(PLACES) - {"card"}, "narrow": {"replay", "play", "calculator", "builder"}}[size]:
                found[size, name]["keys"] = reached_by_keys(browser)
    browser.look(*SIZES["wide"], "light")
    return found


def contrast_of(browser):
    """The texts and fields with too little contrast, in each theme."""
    found = {}
    for scheme in ("light", "dark"):
        browser.look(*SIZES["wide"], scheme)
        found[scheme] = browser.run(CONTRAST), browser.run(EDGES)
    browser.look(*SIZES["wide"], "light")
    return found


def reached_by_keys(browser):
    """How many elements the keys have to reach, how many they reach, and what is wrong with the focus."""
    browser.run("document.activeElement.blur(); window.scrollTo(0, 0)")
    wanted, reached, faults = browser.run(REACHED), set(), set()
    for _ in range(wanted + 12):
        browser.press(Keys.TAB)
        mark, fault = browser.run(FOCUS)
        if mark in reached and len(reached) >= wanted:
            break
        reached.add(mark)
        faults.add(fault)
    return wanted, len(reached - {""}), faults - {""}


def all_has_a_name(browser):
    for name in PLACES:
        found = found_in_parts(browser)["wide", name]
        nodes = [(it["role"], it["name"]) for it in found["nodes"]]
        assert len(nodes) > 20, nodes
        lacking = [role for role, text in nodes if role in NAMED and not text and role != "group"]
        assert not lacking, (name, lacking)
        assert len(found["whole"]) == 4 and all(found["whole"].values()), (name, found["whole"])


def lines_are_read_out(browser):
    go(browser, "replay")
    roles = [role for role, _ in browser.tree()]
    assert "log" in roles and "meter" in roles and "tabpanel" in roles
    assert (
        browser.run("return document.getElementById('replay-lines').closest('[role=log]').getAttribute('aria-live')")
        == "polite"
    )
    assert "alert" in [it["role"] for it in found_in_parts(browser)["wide", "message"]["nodes"]]


def the_rules_hold(browser):
    """Each rule in each part, in a wide and in a narrow page."""
    assert len(RULES) + len(TREE_RULES) >= 30
    found = found_in_parts(browser)
    assert set(found) == {(size, name) for size in SIZES for name in PLACES}
    failed = {place: it["broken"] for place, it in found.items() if it["broken"]}
    assert not failed, failed


def a_battle_is_played_by_keys_alone(browser):
    """From the first page to another battle, without a pointer; the focus is never lost."""
    browser.open("#home")
    at = "const it = document.activeElement; return [it.tagName, it.id, it.textContent.slice(0, 30)]"

    def reach(wanted, most=60):
        for _ in range(most):
            browser.press(Keys.TAB)
            if browser.run("return document.activeElement.id") == wanted:
                return
        raise AssertionError((wanted, browser.run(at)))

    reach("home-teams")
    browser.press(Keys.ENTER)
    assert browser.run("return document.activeElement.id") == "play-teams"
    for side in (1, 2):
        reach(f"play-pick-{side}")
        # The last choice of the list opens the team as text.
        browser.press(Keys.END)
        assert browser.run("return document.activeElement.id") == f"play-team-{side}"
        browser.run("document.activeElement.select()")
        browser.press("Electrode\n- Explosion\n- Thunderbolt\n\nTauros\n- Body Slam\n- Hyper Beam")
    reach("play-start")
    browser.press(Keys.ENTER)
    assert browser.run("return document.activeElement.id") == "play-now"
    updates = "return document.getElementById('play-game').dataset.updates"
    for turn in range(60):
        if browser.run("return !document.querySelector('#play-rematch').hidden"):
            break
        for _ in range(40):
            if browser.run("return document.activeElement.matches('[data-choice]')"):
                break
            browser.press(Keys.TAB)
        before = browser.run(updates)
        browser.press(Keys.ENTER)
        browser.wait(f"return document.getElementById('play-game').dataset.updates !== '{before}'")
        browser.wait(
            "return document.querySelector('[data-choice]:not([aria-disabled])') || !document.querySelector('#play-rematch').hidden"
        )
        assert browser.run("return document.activeElement !== document.body"), turn
    assert re.search("You have won|The foe has won|tie", browser.text("#play-now")), browser.text("#play-now")
    reach("play-rematch")
    browser.press(Keys.ENTER)
    browser.wait("return document.getElementById('play-now').textContent === 'Turn 1'")


def contrast_is_enough(browser):
    for name in PLACES:
        contrast = found_in_parts(browser)["wide", name]["contrast"]
        assert set(contrast) == {"light", "dark"}
        for scheme, (found, edges) in contrast.items():
            assert found["count"] > 10 and not found["low"], (scheme, name, found)
            assert not edges, (scheme, name, edges)


def a_theme_can_be_chosen(browser):
    browser.look(*SIZES["wide"], "light")
    browser.open()
    ground = "return getComputedStyle(document.body).backgroundColor"
    light = browser.run(ground)
    browser.fill("#theme", "dark")
    dark = browser.run(ground)
    browser.open()
    assert light != dark and browser.run(ground) == dark
    browser.fill("#theme", "system")
    assert browser.run(ground) == light


def keys_alone_reach_all(browser):
    """The focus is marked wherever it is, and nothing covers it."""
    walks = {place: it["keys"] for place, it in found_in_parts(browser).items() if "keys" in it}
    assert len(walks) == len(PLACES) - 1 + 4
    for place, (wanted, reached, faults) in walks.items():
        assert reached >= wanted, (place, reached, wanted)
        assert not faults, (place, faults)


def texts_may_be_spaced(browser):
    """With the spaces that a person may set, no text overlaps another or is wider than the page."""
    for name in PLACES:
        width, count, pairs = found_in_parts(browser)["wide", name]["spaced"]
        assert count > 5 and not pairs and width <= SIZES["wide"][0], (name, pairs, width)


def a_phone_is_wide_enough(browser):
    for name in PLACES:
        width = found_in_parts(browser)["narrow", name]["width"]
        assert width <= SIZES["narrow"][0], (name, width)


def it_is_painted_within_a_second(browser):
    browser.open()
    paint = browser.wait("return performance.getEntriesByName('first-contentful-paint')[0]?.startTime")
    ready = browser.run("return performance.now()")
    print(f"    first paint after {paint:.0f} ms, ready after {ready:.0f} ms at most")
    assert paint < 1000


def nothing_is_fetched_and_nothing_is_wrong(browser):
    browser.gather()
    foreign = [url for url in browser.requested if not url.startswith(("file:", "blob:", "data:", "about:"))]
    assert browser.requested and not foreign, foreign
    assert not browser.said, browser.said


def the_focus_goes_to_a_heading(browser):
    at = "return document.activeElement.id"
    browser.open()
    browser.click("#replay-example")
    assert browser.run(at) == "replay-now"
    browser.run(
        "document.getElementById('replay-open').open = true; document.getElementById('replay-text').closest('details').open = true"
    )
    browser.fill("#replay-text", browser.run("return document.getElementById('example').text"))
    browser.click("#replay-read")
    assert browser.run(at) == "replay-now"
    browser.open("#play")
    for side in (1, 2):
        browser.fill(f"#play-who-{side}", "person")
        browser.fill(f"#play-team-{side}", "Tauros\n- Explosion")
    browser.run("document.getElementById('play-open').checked = true")
    browser.click("#play-start")
    assert browser.run(at) == "play-now"
    for side in (1, 2):
        browser.find(f"#play-choices-{side} button").send_keys(Keys.ENTER)
    assert browser.text("#play-now").endswith("A tie.") or "has won" in browser.text("#play-now")
    assert browser.run(at) == "play-now"
    browser.click("#play-menu summary")
    browser.click("#play-watch")
    assert browser.run(at) == "replay-now"
    browser.click("#tab-play")
    browser.click("#play-menu summary")
    browser.click("#play-again")
    assert browser.run(at) == "play-teams"


CHECKS = [
    the_focus_goes_to_a_heading,
    all_has_a_name,
    lines_are_read_out,
    the_rules_hold,
    a_battle_is_played_by_keys_alone,
    contrast_is_enough,
    a_theme_can_be_chosen,
    keys_alone_reach_all,
    texts_may_be_spaced,
    a_phone_is_wide_enough,
    it_is_painted_within_a_second,
]
