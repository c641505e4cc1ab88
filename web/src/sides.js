// Shows a side: the active member, with an HP bar, status, stages and conditions, and all members of the team.
import {make} from "./dom.js";
import {STATUS_TAGS, STATUS_WORDS} from "./words.js";

/**
 * @typedef {import("./engine.js").Tables} Tables
 * @typedef {{ species: string, types: readonly string[], level: number, hp: number, max: number, status: string, sleep?: number,
 *   moves: [string, number][], stats?: number[], isKnown: boolean, hasPixels?: boolean, used?: string[], uses?: [string, number][] }} ShownMember the
 *   name and PP of each move; the own stats; whether HP are in 48ths; the moves that were seen; and how often each was used
 * @typedef {{ active: number, members: ShownMember[], types: readonly string[], stages: number[], stats: number[] | null,
 *   own: number[] | null, conditions: string[] }} Shown
 */

export const STAGES = ["Attack", "Defense", "Speed", "Special", "Accuracy", "Evasion"];
/** @type {Record<import("gen1").Condition, (active: import("gen1").ActiveState) => string>} */
const CONDITIONS = {
  bide: ({turns}) => `Bide, ${turns} more`,
  thrash: ({turns}) => `Thrashing, ${turns} more`,
  trapping: ({turns}) => `Trapping, ${turns} more`,
  flinch: () => "Flinches",
  charging: () => "Charging",
  invulnerable: () => "Out of reach",
  confused: ({confusion}) => `Confused, ${confusion} more`,
  mist: () => "Mist",
  "focus energy": () => "Focus Energy",
  substitute: ({substitute}) => (substitute ? `Substitute, ${substitute} HP` : "Substitute"),
  recharge: () => "Has to recharge",
  rage: () => "Rage",
  seeded: () => "Seeded",
  "bad poison": ({badPoison}) => `Bad poison, ${badPoison}`,
  "light screen": () => "Light Screen",
  reflect: () => "Reflect",
  disabled: ({disabledSlot}) => `Move ${disabledSlot} disabled`,
};
/** @param {import("gen1").ActiveState} active */
export function conditionWords(active) {
  return active.conditions.map((condition) => CONDITIONS[condition](active));
}

/**
 * The shown values of a side if everything is known.
 * @param {Tables} tables
 * @param {import("./engine.js").SideState} side
 * @returns {Shown}
 */
export function whole(tables, {members, active}) {
  const shown = members.map(({species, level, hp, maxHp, status, sleep, moves, pp, stats}) => ({
    species,
    types: tables.species[species],
    level,
    hp,
    max: maxHp,
    status: STATUS_TAGS[status],
    sleep,
    stats,
    isKnown: true,
    moves: moves.map((move, slot) => /** @type {[string, number]} */ ([move, pp[slot]])),
  }));
  if (!active) return {active: 0, members: shown, types: [], stages: [], stats: null, own: null, conditions: []};
  const {place, types, stages, stats} = active;
  return {
    active: place,
    members: shown,
    types,
    stages,
    stats,
    own: members[place - 1].stats,
    conditions: conditionWords(active)
  };
}

/** @type {Record<string, string>} */
const NAMES = {
  bide: "Bide",
  thrash: "Thrashing",
  trapping: "Trapping",
  charging: "Charging",
  invulnerable: "Out of reach",
  confused: "Confused",
  mist: "Mist",
  "focus energy": "Focus Energy",
  substitute: "Substitute",
  recharge: "Has to recharge",
  recharging: "Has to recharge",
  rage: "Rage",
  seeded: "Seeded",
  "bad poison": "Bad poison",
  toxic: "Bad poison",
  "light screen": "Light Screen",
  reflect: "Reflect",
  disabled: "A move is disabled",
};

/**
 * The shown values of a side to its own player.
 * @param {Tables} tables
 * @param {import("gen1").OwnSide} side
 * @returns {Shown}
 */
export function own(tables, {members, active}) {
  const shown = members.map(({species, level, hp, maxHp, status, moves, pp, stats}) => ({
    species,
    types: tables.species[species],
    level,
    hp,
    max: maxHp,
    status: STATUS_TAGS[status],
    stats,
    isKnown: true,
    moves: moves.map((move, slot) => /** @type {[string, number]} */ ([move, pp[slot]])),
  }));
  if (!active) return {active: 0, members: shown, types: [], stages: [], stats: null, own: null, conditions: []};
  const {place, types, stages, stats, conditions, held} = active;
  const words = [...conditions.map((it) => NAMES[it]), ...(held ? ["Trapped"] : [])];
  return {active: place, members: shown, types, stages, stats, own: members[place - 1].stats, conditions: words};
}

/**
 * The shown values of a side to its foe. HP are in 48ths.
 * @param {Tables} tables
 * @param {import("gen1").PublicSide} side
 * @param {number} count of its members
 * @returns {Shown}
 */
export function seen(tables, {members, active}, count) {
  const shown = members.map(({species, level, hp, maxHp, status, moves}) => ({
    species,
    types: tables.species[species],
    level,
    hp,
    max: maxHp,
    status: STATUS_TAGS[status],
    isKnown: true,
    hasPixels: true,
    used: moves.map(({name}) => name),
    uses: moves.map(({name, uses}) => /** @type {[string, number]} */ ([name, uses])),
    moves: /** @type {[string, number][]} */ ([]),
  }));
  const rest = Array.from({length: count - shown.length}, () => ({
    species: "Not seen yet",
    types: [],
    level: 0,
    hp: 0,
    max: 0,
    status: "",
    moves: [],
    isKnown: false,
  }));
  const all = [...shown, ...rest];
  if (!active) return {active: 0, members: all, types: [], stages: [], stats: null, own: null, conditions: []};
  const {place, types, stages, announced} = active;
  return {
    active: place,
    members: all,
    types,
    stages,
    stats: null,
    own: null,
    conditions: announced.map((it) => NAMES[it])
  };
}

/**
 * The shown values of a side to a spectator.
 * @param {Tables} tables
 * @param {import("gen1").ShownSide} view
 * @param {({ species: string, level: number, max: number, hasPixels?: boolean } | null)[]} known the members that the spectator knows of, by place
 * @returns {Shown}
 */
export function watched(tables, view, known) {
  const members = known.map((it, place) => {
    const types = it ? tables.species[it.species] : [];
    const {hp, status} = view.members[place];
    return {
      species: it?.species ?? "Not seen yet",
      types,
      level: it?.level ?? 0,
      hp,
      max: it?.max ?? 0,
      status: STATUS_TAGS[status],
      moves: [],
      isKnown: it !== null,
      hasPixels: it?.hasPixels,
    };
  });
  const {place, stages, substitute, confused, lightScreen, reflect} = view;
  const conditions =
      Object.entries({"Substitute": substitute, "Confused": confused, "Light Screen": lightScreen, "Reflect": reflect});
  return {
    active: place,
    members,
    types: members[place - 1]?.types ?? [],
    stages,
    stats: null,
    own: null,
    conditions: conditions.flatMap(([name, isOn]) => (isOn ? [name] : [])),
  };
}

/**
 * A type as a badge.
 * @param {string} type
 */
export function badge(type) {
  return make("span", {class: `type type-${type.toLowerCase()}`}, type);
}

/** @param {ShownMember} member */
function bar(member) {
  const share = member.max ? Math.ceil((100 * member.hp) / member.max) : 0;
  const filled = make("span", {class: share > 50 ? "high" : share > 20 ? "middle" : "low"});
  filled.style.width = `${share}%`;
  return make("span", {
    class: "bar",
    role: "meter",
    "aria-label": `HP of ${member.species}`,
    "aria-valuemin": 0,
    "aria-valuemax": member.max,
    "aria-valuenow": member.hp,
    "aria-valuetext": member.hasPixels ? `${share} per cent` : `${member.hp} of ${member.max}`,
  },
      filled);
}

/** @param {ShownMember} member */
function status(member) {
  if (member.isKnown && member.max && member.hp === 0) return make("span", {class: "status fallen"}, "fainted");
  if (!member.status) return null;
  const word = STATUS_WORDS[member.status] ?? member.status;
  return make("span", {class: `status ${member.status}`}, member.sleep ? `${word}, ${member.sleep} more` : word);
}

/** @param {ShownMember} member */
function hp(member) {
  const share = member.max ? Math.ceil((100 * member.hp) / member.max) : 0;
  return make("span", {class: "hp"}, member.hasPixels ? `${share}%` : `${member.hp}/${member.max} (${share}%)`);
}

/** @param {Tables} tables @param {ShownMember} member */
function moves(tables, member) {
  const items = member.moves.map(([move, pp]) => make("li", {}, badge(tables.moves[move].type), ` ${move} `,
                                     make("span", {class: "quiet"}, `${pp} PP`)));
  return items.length ? make("ul", {class: "moves", "aria-label": `Moves of ${member.species}`}, ...items) : null;
}

/** @param {Shown} shown */
function chips(shown) {
  const stages = shown.stages.flatMap(
      (stage, place) => (stage ? [`${STAGES[place]} ${stage > 0 ? "+" : "−"}${Math.abs(stage)}`] : []));
  const items = [...stages, ...shown.conditions].map((text) => make("li", {}, text));
  return make("ul", {class: "chips", "aria-label": "Stages and conditions"},
      ...(items.length ? items : [make("li", {class: "quiet"}, "no stage, no condition")]));
}

/** @param {Shown} shown */
function stats(shown) {
  if (!shown.stats || !shown.own) return null;
  const own = shown.own;
  const texts = shown.stats.map(
      (value, place) => `${STAGES[place]} ${value}${value === own[place] ? "" : ` (own ${own[place]})`}`);
  return make("p", {class: "quiet stats"}, texts.join(" · "));
}

/** @param {Shown} shown */
function out(shown) {
  const member = shown.members[shown.active - 1];
  return member ?
      [make("p", {class: "head"}, make("strong", {}, member.species), ` level ${member.level}`), chips(shown)] :
      [make("p", {}, "No member is out yet.")];
}

/**
 * The details, which are folded at first for small screens.
 * @param {number} number
 * @param {Tables} tables
 * @param {Shown} shown
 */
function more(number, tables, shown) {
  const member = shown.members[shown.active - 1];
  return make("details", {class: "more", "data-of": "side"},
      make("summary", {}, "Stats, moves, members", make("span", {class: "unseen"}, ` of side ${number}`)), stats(shown),
      member ? moves(tables, member) : null,
      make("ol", {class: "members", "aria-label": `Members of side ${number}`},
          ...shown.members.map((it, at) => behind(tables, it, at + 1, at + 1 === shown.active))));
}

/** @param {Tables} tables @param {ShownMember} member @param {number} place @param {boolean} isOut */
function behind(tables, member, place, isOut) {
  if (!member.isKnown) return make("li", {class: "quiet"}, member.species);
  const line = [
    make("span", {class: "name"}, member.species), bar(member), hp(member), status(member),
    isOut ? make("span", {class: "quiet"}, "out") : null
  ];
  const known = isOut ? null : moves(tables, member);
  if (!known) return make("li", {}, ...line);
  return make("li", {}, ...line,
      make("details", {"data-of": place},
          make("summary", {}, "Moves", make("span", {class: "unseen"}, ` of ${member.species}`)), known));
}

/**
 * Shows a side in an element.
 * @param {HTMLElement} place
 * @param {number} number
 * @param {import("./engine.js").Engine} engine
 * @param {Shown} shown
 */
export function showSide(place, number, engine, shown) {
  // Open details stay open, and a focused summary stays focused, by the place of its member, while other members come and go.
  const before = new Map([...place.querySelectorAll("details")].map((it) => [it.dataset.of, it.open]));
  const focused =
      place.contains(document.activeElement) ? document.activeElement?.closest("details")?.dataset.of : undefined;
  if (!before.size) before.set("side", window.matchMedia("(min-width: 44.01rem)").matches);
  place.replaceChildren(make("h3", {}, `Side ${number}`), ...out(shown), more(number, engine.tables, shown));
  for (const it of place.querySelectorAll("details")) it.open = before.get(it.dataset.of) ?? false;
  /** @type {HTMLElement | null} */
  const summary =
      focused ? place.querySelector(`[data-of="${focused}"] > summary`) ?? place.querySelector("summary") : null;
  summary?.focus();
}
