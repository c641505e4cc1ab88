// The chances beside the lines of an update: that a move hit, missed, was critical or knocked out. They are the library's odds at the moment of the
// use; those of a use whose moment is not known are left out.
import {REASONS, StateError, STATS} from "gen1";

import {percent} from "./calculation.js";
import {sideOf} from "./words.js";

/**
 * @typedef {import("./engine.js").GameEvent} GameEvent
 * @typedef {import("gen1").Battle} Battle
 * @typedef {{ side: 1 | 2, move: string, events: GameEvent[], from: number }} Act a move with its events, and the place of its first event
 */

/** The conditions in which a move continues, mostly without a new test. */
const GOING = ["bide", "thrash", "trapping", "rage"];
/** The conditions of a side that end, or begin to matter, as it acts before its foe. */
const PASSING = ["bide", "charging", "invulnerable", "recharge"];
/** Kinds of events after which the stats that a use has are not known from the position before the update. */
const CHANGING = ["status", "cure", "boost", "unboost", "clear all", "start", "end"];
/** Kinds of events after which a use may fail for another reason than from that position. */
const TURNING = ["status", "cure", "clear all", "start", "end"];
const BEGINNING = ["move", "switch", "cant"];
/** The events of a use that has not hit. */
const NO_HIT = ["miss", "fail", "immune", "prepare"];
/** The reasons for a failure that follow from what both sides see. */
export const SEEN_REASONS = REASONS.slice(REASONS.indexOf("the foe is awake"));
/** The chance to hit of a move with full accuracy, which is not shown. */
const FULL = 255 / 256;

/** @param {import("gen1").State} state @param {number} side */
const sideIn = (state, side) => (side === 1 ? state.one : state.two);

/**
 * The active block of a member that has just come out.
 * @param {number} place @param {readonly import("gen1").TypeName[]} types
 * @returns {import("gen1").ActiveState}
 */
function fresh(place, types) {
  const counts = {currentMove: 0, pickedMove: 0, keptAccuracy: 0, substitute: 0, confusion: 0, disabledSlot: 0};
  const more = {disabledTurns: 0, badPoison: 0, turns: 0, energy: 0};
  return {place, types: [...types], stats: [0, 0, 0, 0], stages: Array(6).fill(0), conditions: [], ...counts, ...more};
}

/**
 * Applies what an event says about members that are out, their HP and their stages.
 * @param {import("gen1").State} state @param {GameEvent} event @param {import("gen1").Gen1} gen1
 */
function apply(state, event, gen1) {
  if (event.kind === "clear all")
    for (const {active} of [state.one, state.two]) active?.stages.fill(0);
  if (!("side" in event)) return;
  const it = sideIn(state, event.side);
  if (event.kind === "switch") it.active = fresh(event.place, gen1.base(event.species).types);
  const {active} = it;
  if (!active) return;
  if (event.kind === "damage" || event.kind === "heal") it.members[active.place - 1].hp = event.hp;
  if (event.kind === "boost" || event.kind === "unboost") {
    const [at, more] = [STATS.indexOf(event.stat), event.kind === "boost" ? event.stages : -event.stages];
    active.stages[at] = Math.max(-6, Math.min(6, active.stages[at] + more));
  }
}

/** @param {GameEvent[]} events @returns {Act[]} */
function actsOf(events) {
  // A member that is confused may hit itself, without a move.
  const isBegin = (/** @type {GameEvent} */ event) =>
      BEGINNING.includes(event.kind) || (event.kind === "activate" && event.volatile === "confusion");
  const begins = events.flatMap((event, at) => (isBegin(event) ? [at] : []));
  return begins.flatMap((from, at) => {
    const event = events[from];
    if (event.kind !== "move") return [];
    return [{side: event.side, move: event.move, events: events.slice(from, begins[at + 1]), from}];
  });
}

/**
 * The battle at the moment of a use; null if it is not known.
 * @param {import("./engine.js").Engine} engine @param {Battle} before the update @param {GameEvent[]} past the events before the use @param {1 | 2} side
 */
function atMoment(engine, before, past, side) {
  const {state} = before;
  const [user, foe] = [sideIn(state, side).active, sideIn(state, 3 - side).active];
  if (!user || !foe || user.conditions.some((it) => GOING.includes(it))) return null;
  if (!past.length) return before;
  if (past.some(({kind}) => kind === "prepare") || foe.conditions.some((it) => PASSING.includes(it))) return null;
  try {
    return before.withState((it) => past.forEach((event) => apply(it, event, engine.gen1)));
  } catch (error) {
    if (error instanceof StateError) return null;
    throw error;
  }
}

/**
 * The chance of each event of a use.
 * @param {Battle} battle at the moment of the use @param {Act} act @param {boolean} isExact whether the stats are known
 * @returns {string[]}
 */
function spoken(battle, {side, move, events}, isExact) {
  const {hitChance, takesHitTest, criticalChance, reason} = battle.odds(side, move);
  if (reason) return [];
  const kinds = events.map(({kind}) => kind);
  const isTested = takesHitTest && hitChance < 1;
  // A knock-out by the use itself: the last damage to the foe has no source.
  const isByUse = (/** @type {number} */ at) => {
    let source = "";
    for (const event of events.slice(0, at))
      if (event.kind === "damage" && event.side !== side) source = event.source;
    return sideOf(events[at]) !== side && source === "direct";
  };
  return kinds.map((kind, at) => {
    if (kind === "move")
      return isTested && hitChance < FULL && !kinds.some((it) => NO_HIT.includes(it)) ? `hit at ${percent(hitChance)}` :
                                                                                        "";
    if (kind === "miss") return isTested ? `miss at ${percent(1 - hitChance)}` : "";
    if (kind === "crit") return `crit at ${percent(criticalChance)}`;
    if (kind === "faint" && isExact && isByUse(at)) return `KO at ${percent(battle.knockOut(side, move).chanceOnce)}`;
    return "";
  });
}

/**
 * The chances of the events of an update in words, by their places; an event without one has none.
 * @param {import("./engine.js").Engine} engine
 * @param {Uint8Array} battle before the update
 * @param {GameEvent[]} events
 * @returns {string[]}
 */
export function chancesOf(engine, battle, events) {
  const before = engine.gen1.load(battle);
  /** @type {string[]} */
  const found = [];
  for (const act of actsOf(events)) {
    const past = events.slice(0, act.from);
    const now = atMoment(engine, before, past, act.side);
    const isExact = !past.some(({kind}) => CHANGING.includes(kind));
    for (const [at, text] of now ? spoken(now, act, isExact).entries() : []) found[act.from + at] = text;
  }
  return found;
}

/**
 * Notes in the events of an update why moves fail: the library's reason at the moment of the use, where both sides see it.
 * @param {import("./engine.js").Engine} engine
 * @param {Uint8Array} battle before the update
 * @param {GameEvent[]} events
 */
export function explain(engine, battle, events) {
  if (!events.some(({kind}) => kind === "fail")) return;
  const before = engine.gen1.load(battle);
  for (const {side, move, events: own, from} of actsOf(events)) {
    const past = events.slice(0, from);
    const failure = own.find((event) => event.kind === "fail" && event.side === side);
    if (!failure || past.some(({kind}) => TURNING.includes(kind))) continue;
    const reason = atMoment(engine, before, past, side)?.odds(side, move).reason;
    if (reason && SEEN_REASONS.includes(reason)) failure.why = reason;
  }
}
