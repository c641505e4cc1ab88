// The calculator's results: a table for each direction, the best move first, and the numbers of the move that is chosen.
import {costs, damages, hitChance, hitCounts, isOneHit, ofHit, ofUse, onAverage, percent, target, tenth, without} from "./calculation.js";
import {find, make} from "./dom.js";
import {badge} from "./sides.js";
import {span} from "./words.js";

/**
 * @typedef {import("./engine.js").CalculatedMove} CalculatedMove
 * @typedef {import("./engine.js").Calculated} Calculated
 * @typedef {{ at: number, odds: CalculatedMove }} Chosen a move, and the side from 0 that uses it
 */

/** The heads of columns, each with its meaning. */
const HEADS = [
  ["Move", ""], ["Damage", "of the maximum HP"], ["OHKO", "chance to knock out in one use"],
  ["2HKO", "chance to knock out in two uses"], ["3HKO", "chance to knock out in three uses"], ["Hit", "chance to hit"],
  ["Crit", "chance of a critical hit, and its damage"]
];
const BYTES = (/** @type {number} */ bytes) => `${bytes} of 256 bytes`;

/**
 * How good a move is: its chance to knock out in one use, then in two, then its damage on average.
 * @param {CalculatedMove} odds
 * @param {Calculated} foe
 */
export function keysOf(odds, foe) {
  return [odds.knockOut.chanceOnce, odds.knockOut.chanceTwice, onAverage(odds, foe)];
}

/**
 * Moves with the best first.
 * @param {CalculatedMove[]} moves
 * @param {Calculated} foe
 */
export function byBest(moves, foe) {
  const keyed = moves.map((odds) => ({odds, keys: keysOf(odds, foe)}));
  const difference = (/** @type {number[]} */ one, /** @type {number[]} */ two) =>
      two.map((key, at) => key - one[at]).find((it) => it !== 0) ?? 0;
  return keyed.sort((one, two) => difference(one.keys, two.keys)).map(({odds}) => odds);
}

/**
 * The best move of a side.
 * @param {Calculated[]} sides
 * @param {number} at the side, from 0
 */
export function best(sides, at) {
  return byBest(sides[at].moves, sides[1 - at])[0];
}

/** @param {number} number @param {number} max */
const share = (number, max) => tenth((100 * number) / max);

/** @param {number} ways @param {number} of */
function waysText(ways, of) {
  return `${ways.toLocaleString("en")} of ${of.toLocaleString("en")} ways`;
}

/**
 * The foe's HP as a bar: the HP left, and the parts that the least and the most damage take.
 * @param {number[]} range
 * @param {Calculated} foe
 */
function harm(range, {hp, max}) {
  const part = (/** @type {string} */ name, /** @type {number} */ from, /** @type {number} */ to) => {
    const made = make("span", {class: name});
    made.style.insetInlineStart = `${(100 * from) / max}%`;
    made.style.width = `${(100 * Math.max(0, to - from)) / max}%`;
    return made;
  };
  const [least, most] = range.map((number) => Math.max(0, hp - number));
  return make("span", {class: "harm", "aria-hidden": "true"}, part("left", 0, most), part("maybe", most, least),
      part("lost", least, hp));
}

/** The width and the height of the plot in its own units; it is stretched to its place. */
const [WIDTH, HEIGHT] = [1000, 100];

/** @param {string} name @param {Record<string, string | number>} attributes @param {string} [title] */
function drawn(name, attributes, title) {
  const made = document.createElementNS("http://www.w3.org/2000/svg", name);
  for (const [key, value] of Object.entries(attributes)) made.setAttribute(key, String(value));
  if (title) made.append(drawn("title", {}));
  if (title) made.lastElementChild?.append(title);
  return made;
}

/**
 * The damage of one use with its chances, as bars; nothing for a move without damage. A chance includes misses, hits and critical hits.
 * @param {CalculatedMove} odds
 * @param {Calculated} foe
 */
function plot(odds, foe) {
  if (odds.reason || isOneHit(odds) || !ofHit(odds, foe)) return [];
  const [usual, critical] = [false, true].map((isCritical) => damages(odds, isCritical).filter(([number]) => number));
  const needed = target(foe);
  const numbers = [...usual, ...critical].map(([number]) => number);
  const right = Math.max(needed, ...numbers) * 1.04;
  const highest = Math.max(...[...usual, ...critical].map(([, chance]) => chance));
  const bars = (/** @type {number[][]} */ list, /** @type {string} */ name) => list.map(([number, chance]) => {
    const height = Math.max(2, (HEIGHT * chance) / highest);
    const [x, width] = [(WIDTH * (number - 0.5)) / right, Math.max(WIDTH / right, 4)];
    return drawn("rect", {class: name, x, y: HEIGHT - height, width, height}, `${number} HP: ${percent(chance)}`);
  });
  const image = drawn("svg", {viewBox: `0 0 ${WIDTH} ${HEIGHT}`, preserveAspectRatio: "none", role: "img"});
  const words = [["usual", usual], ["critical", critical]].flatMap(
      ([name, list]) => (list.length ? [`${name} ${wordsOf(/** @type {number[][]} */ (list))}`] : []));
  image.setAttribute("aria-label", `Damage of one use of ${odds.move}: ${words.join(", ")}`);
  const knocks =
      drawn("rect", {class: "enough", x: (WIDTH * (needed - 0.5)) / right, y: 0, width: WIDTH, height: HEIGHT});
  image.append(knocks, ...bars(usual, "usual"), ...bars(critical, "critical"));
  return [image, legend(odds, usual, critical, needed)];
}

/** @param {number[][]} list damage with its chances */
function wordsOf(list) {
  const numbers = list.map(([number]) => number);
  return `${span(Math.min(...numbers), Math.max(...numbers))} HP, ${percent(sumOf(list))}`;
}

/** @param {number[][]} list */
const sumOf = (list) => list.reduce((sum, [, chance]) => sum + chance, 0);

/** @param {CalculatedMove} odds @param {number[][]} usual @param {number[][]} critical @param {number} needed */
function legend(odds, usual, critical, needed) {
  const misses = 1 - hitChance(odds);
  const items = [
    ...(usual.length ? [make("span", {class: "usual"}, `a hit: ${wordsOf(usual)}`)] : []),
    ...(critical.length ? [make("span", {class: "critical"}, `a critical hit: ${wordsOf(critical)}`)] : []),
    ...(misses ? [make("span", {class: "miss"}, `a miss: ${percent(misses)}`)] : []),
    make(
        "span", {class: "enough"}, `${odds.knockOut.breaksSubstitute ? "breaks it" : "knocks out"}: from ${needed} HP`),
  ];
  return make("p", {class: "legend"}, ...items.flatMap((it) => [it, " "]));
}

/** The tables and the chosen move. */
export class Results {
  /**
   * @param {import("./engine.js").Tables} tables
   * @param {() => void} changed called when another move or direction is chosen
   */
  constructor(tables, changed) {
    this.tables = tables;
    this.changed = changed;
    this.element = find("calc-results", HTMLElement);
    /** The side whose move is chosen, from 0, and the slot; 0 for the best. */
    this.at = 0;
    this.slot = 0;
  }

  /**
   * Shows the moves of both sides, and returns the chosen one.
   * @param {string[]} names of the species
   * @param {Calculated[]} sides
   * @param {CalculatedMove[][]} sorted the moves of each side
   * @returns {Chosen | null}
   */
  draw(names, sides, sorted) {
    if (!sorted[this.at].length && sorted[1 - this.at].length) this.at = 1 - this.at;
    const odds = sorted[this.at].find(({slot}) => slot === this.slot) ?? sorted[this.at][0];
    const focused = document.activeElement instanceof HTMLElement && this.element.contains(document.activeElement) ?
        document.activeElement.id :
        "";
    this.element.dataset.at = String(this.at + 1);
    this.element.replaceChildren(
        this.directions(names), ...[0, 1].map((at) => this.table(names, sides, sorted[at], at, odds)));
    if (focused) document.getElementById(focused)?.focus();
    const chosen = odds ? {at: this.at, odds} : null;
    for (const id of ["calc-chosen", "calc-more"]) find(id, HTMLElement).hidden = !chosen;
    if (chosen) {
      this.tell(sides, chosen);
      find("calc-plot", HTMLElement).replaceChildren(...plot(chosen.odds, sides[1 - chosen.at]));
    }
    return chosen;
  }

  /** @param {number} at @param {number} slot */
  choose(at, slot) {
    [this.at, this.slot] = [at, slot];
    this.changed();
  }

  /**
   * Buttons for the direction, which narrow screens show one at a time.
   * @param {string[]} species
   */
  directions(species) {
    // The sides distinguish two members of one species.
    const names = species[0] === species[1] ? ["Side 1", "Side 2"] : species;
    return make("div", {class: "directions", role: "group", "aria-label": "Who attacks"},
        ...[0, 1].map((at) => make("button", {
          type: "button",
          class: "small",
          id: `calc-from-${at + 1}`,
          "aria-pressed": String(this.at === at),
          click: () => this.choose(at, 0),
        },
                          `${names[at]} → ${names[1 - at]}`)));
  }

  /** @param {string[]} names @param {Calculated[]} sides @param {CalculatedMove[]} moves @param {number} at @param {CalculatedMove | undefined} chosen */
  table(names, sides, moves, at, chosen) {
    const {hp, max, substitute} = sides[1 - at];
    const heads = HEADS.map(([text, title]) => make("th", {scope: "col", title: title || undefined}, text));
    const rows = moves.map((odds) => this.row(odds, sides, at, odds === chosen && this.at === at));
    return make("section",
        {class: `side side-${at + 1}`, id: `calc-results-${at + 1}`, "aria-labelledby": `calc-head-${at + 1}`},
        make("h3", {id: `calc-head-${at + 1}`}, make("span", {class: "unseen"}, `Side ${at + 1}: `),
            `${names[at]} on ${names[1 - at]}`,
            make("span", {class: "quiet"},
                substitute ? ` chance to break its Substitute, ${substitute} HP` : ` ${hp} of ${max} HP`)),
        rows.length ? make("table", {}, make("thead", {}, make("tr", {}, ...heads)), make("tbody", {}, ...rows)) :
                      make("p", {class: "quiet"}, "Choose a move."));
  }

  /** @param {CalculatedMove} odds @param {Calculated[]} sides @param {number} at @param {boolean} isChosen */
  row(odds, sides, at, isChosen) {
    const [user, foe] = [sides[at], sides[1 - at]];
    const move = this.tables.moves[odds.move];
    const button = make("button", {
      type: "button",
      class: "move",
      id: `calc-move-${at + 1}-${odds.slot}`,
      "aria-pressed": String(isChosen),
      click: () => this.choose(at, odds.slot),
    },
        move.name);
    const chance = (/** @type {number} */ part, /** @type {string} */ title) => make("td", {title}, percent(part));
    return make("tr", {"data-move": move.name, class: isChosen ? "chosen" : ""},
        make("th", {scope: "row"}, button, make("span", {class: "note"}, badge(move.type))),
        this.damage(odds, foe, costs(odds, move.effect, user, foe)),
        ...this.knockOuts(odds, foe, move.effect === "Explode"),
        odds.hit === null && !odds.reason ? make("td", {title: "without a draw"}, "100%") :
                                            chance(hitChance(odds), odds.reason ?? BYTES(odds.hit ?? 0)),
        this.critical(odds, foe));
  }

  /**
   * The chances to knock out in one use, two and three.
   * @param {CalculatedMove} odds @param {Calculated} foe @param {boolean} faints whether the user faints in the first use
   */
  knockOuts(odds, foe, faints) {
    const isHarmful = ofHit(odds, foe) !== null && !odds.reason;
    const {once, onceOf, chanceOnce, twice, twiceOf, chanceTwice, chanceThrice} = odds.knockOut;
    const cells = [
      {part: chanceOnce, title: waysText(once, onceOf)},
      {part: chanceTwice, title: waysText(twice, twiceOf)},
      // The ways of three uses are too many for a number.
      {part: chanceThrice, title: undefined},
    ];
    return cells.map(({part, title}, more) => {
      if (isHarmful && !(faints && more)) return make("td", {title}, percent(part));
      return make("td", {title: isHarmful ? "the user faints in the first use" : undefined}, "—");
    });
  }

  /** @param {CalculatedMove} odds @param {Calculated} foe */
  critical(odds, foe) {
    const {bound, reason, critical} = odds;
    if (bound === null || reason) return make("td", {}, "—");
    // The total of all hits, as in the column of the damage.
    const range = critical && bound ? ofUse({...odds, damage: critical}, foe) : null;
    const numbers = range ? make("span", {class: "note"}, span(range[0], range[1])) : null;
    return make("td", {title: BYTES(bound)}, percent(bound / 256), numbers);
  }

  /** @param {CalculatedMove} odds @param {Calculated} foe @param {string} cost for the user */
  damage(odds, foe, cost) {
    const range = ofUse(odds, foe);
    if (odds.reason) return make("td", {class: "damage quiet"}, odds.reason);
    if (!range) return make("td", {class: "damage quiet"}, without(odds));
    const [fewest, most] = hitCounts(odds);
    const each = most > 1 && odds.damage ? `, ${span(fewest, most)} hits` : "";
    const shares = isOneHit(odds) ? "all HP" : `${span(share(range[0], foe.max), share(range[1], foe.max))}%`;
    return make("td", {class: "damage"},
        make("span", {class: "amount"}, make("strong", {}, shares),
            make("span", {class: "note"}, `${span(range[0], range[1])} HP${each}`)),
        foe.substitute ? null : harm(range, foe), cost ? make("span", {class: "note"}, cost) : null);
  }

  /**
   * Shows the numbers of the chosen move.
   * @param {Calculated[]} sides
   * @param {Chosen} chosen
   */
  tell(sides, {odds}) {
    const list = (/** @type {string} */ name, /** @type {number[] | null} */ numbers) =>
        (numbers ? [make("p", {}, make("strong", {}, `${name}: `), numbers.join(" "))] : []);
    const bytes = [
      odds.hit === null ? "" : `hits with ${BYTES(odds.hit)}`,
      odds.bound === null ? "" : `critical with ${BYTES(odds.bound)}`,
    ].filter(Boolean).join(", ");
    find("calc-numbers", HTMLElement)
        .replaceChildren(...list("One hit, at the factors 217 to 255", odds.damage), ...list("Critical", odds.critical),
            ...(bytes ? [make("p", {}, `The move ${bytes}.`)] : []));
  }
}
