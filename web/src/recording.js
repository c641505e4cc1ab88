// A recorded battle: its state after each update, from an input or from log bytes.
import {chancesOf, explain} from "./chances.js";
import {Problem} from "./dom.js";
import {told} from "./words.js";

/**
 * @typedef {import("./engine.js").Engine} Engine
 * @typedef {import("./engine.js").GameEvent} GameEvent
 * @typedef {import("./engine.js").Member} Member
 * @typedef {import("./inputs.js").Recorded} Recorded
 * @typedef {{ log: Uint8Array, events: GameEvent[], battle: Uint8Array | null, view: import("./engine.js").View }} Frame after an
 *   update; the first is before all of them
 * @typedef {{ species: string, level: number, max: number, since: number }} Known a member as a switch shows it,
 *   and the frame that first did
 */

/** The maximum HP of each member of the foe in a log that is reported to a side (docs/MECHANICS.md, "What a side is told"), and in Showdown's logs. */
const PIXELS = [48, 100];
const ENDS = ["turn", "win", "tie", "fault"];
/**
 * A log doesn't have the teams, so these members are placeholders until a member comes out.
 * @type {Member[]}
 */
const PLACEHOLDERS = Array(6).fill({species: 1, level: 100, dvs: [0, 0, 0, 0], exp: [0, 0, 0, 0, 0], moves: [[1, 0]]});

/**
 * The events of each update of a log: an update ends with a turn, an outcome, or faints.
 * @param {GameEvent[]} events
 */
function updatesOf(events) {
  /** @type {GameEvent[][]} */
  const updates = [];
  let begun = 0;
  events.forEach((event, place) => {
    const next = events[place + 1]?.kind;
    const falls = event.kind === "faint" && next !== "faint" && !ENDS.includes(next);
    if (ENDS.includes(event.kind) || falls || next === undefined) {
      updates.push(events.slice(begun, place + 1));
      begun = place + 1;
    }
  });
  return updates;
}

/** A battle with all its frames. `begun` and then `steps` make it, in pieces of work that take about a millisecond each. */
export class Recording {
  /** @param {Engine} engine @param {Recorded} recorded */
  constructor(engine, recorded) {
    this.engine = engine;
    this.recorded = recorded;
    /** @type {Frame[]} */
    this.frames = [];
    /** The error that ended the recording early. */
    this.fault = "";
    /** @type {number[]} the sides whose HP are shares, in a log as it was reported to the other side */
    this.inPixels = [];
    this.narrator = engine.gen1.narrator();
    /** @type {string[][]} the sentences of the first frames */
    this.said = [];
    /** @type {string[][]} the chances of updates that were shown */
    this.odds = [];
    /** @type {Map<string, Known>} the members that a switch has shown, by "side place" */
    this.told = new Map();
    const {one, two} = "log" in recorded ? {one: PLACEHOLDERS, two: PLACEHOLDERS} : recorded.input;
    this.spectator = engine.spectator(one, two);
  }

  /** Adds the frames, and yields the share that is done after each piece of work. */
  * steps() {
    if ("log" in this.recorded)
      yield* this.follow(this.recorded.log);
    else
      yield* this.play(this.recorded.input);
  }

  get last() {
    return this.frames.length - 1;
  }

  /** How many members each side has; undefined if a log does not say it. */
  get sizes() {
    const {recorded} = this;
    return "input" in recorded ? [recorded.input.one.length, recorded.input.two.length] : recorded.sizes;
  }

  /** @param {import("./inputs.js").Input} input @returns {Generator<number>} */
  * play(input) {
    const battle = this.engine.begin(input);
    this.add(new Uint8Array(), [], battle.bytes);
    for (const [number, [one, two]] of input.choices.entries()) {
      const {refused, log} = this.engine.update(battle, one, two);
      if (refused) {
        this.fault = `Pair ${number} of the choices (${one}, ${two}) is refused: ${
            refused}. The battle is shown up to that pair.`;
        return;
      }
      this.add(log, this.engine.events(log), battle.bytes);
      yield number / input.choices.length;
    }
  }

  /** @param {Uint8Array} log @returns {Generator<number>} */
  * follow(log) {
    /** @type {GameEvent[]} */
    const all = [];
    for (const events of this.engine.pieces(log)) {
      all.push(...events);
      yield all.length / log.length;
    }
    this.add(new Uint8Array(), [], null);
    let at = 0;
    for (const events of updatesOf(all)) {
      const length = events.reduce((sum, event) => sum + event.size, 0);
      this.add(log.slice(at, at + length), events, null);
      at += length;
      yield at / log.length;
    }
    if (!this.told.size) throw new Problem("The log begins in the middle of a battle: no member is sent out in it.");
    this.inPixels = [1, 2].filter((side) => this.isInPixels(side));
    this.narrator = this.engine.gen1.narrator({inPercent: [this.inPixels.includes(1), this.inPixels.includes(2)]});
  }

  /**
   * Whether the HP of a side are shares: all maximum HP are 48 or 100, and those of a member cannot be.
   * @param {number} side
   */
  isInPixels(side) {
    const members = [...this.told].flatMap(([key, member]) => (key[0] === String(side) ? [member] : []));
    const least = (/** @type {Known} */ {species, level}) => this.engine.stats({...PLACEHOLDERS[0], species, level})[0];
    return PIXELS.some(
        (most) => members.every(({max}) => max === most) && members.some((member) => least(member) > most));
  }

  /** @param {Uint8Array} log @param {GameEvent[]} events @param {Uint8Array | null} battle */
  add(log, events, battle) {
    for (const event of events) {
      if (event.kind !== "switch") continue;
      const {side, place, species, level, maxHp} = event;
      const key = `${side} ${place}`;
      if (!this.told.has(key)) this.told.set(key, {species, level, max: maxHp, since: this.frames.length});
    }
    this.frames.push({log, events, battle, view: this.engine.watch(this.spectator, log)});
  }

  /**
   * The events of an update as sentences. They depend on all events before.
   * @param {number} update
   */
  sentences(update) {
    for (let at = this.said.length; at <= update; at++) {
      const [before, {events}] = [this.frames[at - 1]?.battle, this.frames[at]];
      if (before) explain(this.engine, before, events);
      this.said.push(events.map((event) => told(this.narrator, event)));
    }
    return this.said[update];
  }

  /**
   * The events of an update as lines.
   * @param {number} update
   */
  lines(update) {
    return this.engine.gen1.lines(this.frames[update].log);
  }

  /**
   * The chances of the events of an update in words; none without the battle.
   * @param {number} update
   */
  chances(update) {
    const before = this.frames[update - 1]?.battle;
    return (this.odds[update] ??= before ? chancesOf(this.engine, before, this.frames[update].events) : []);
  }

  /**
   * The turn after an update.
   * @param {number} update
   */
  turn(update) {
    return this.frames[update].view.turn;
  }

  /**
   * The first update after which a turn has begun, or the last update.
   * @param {number} turn
   */
  updateOf(turn) {
    const found = this.frames.findIndex((frame) => frame.view.turn >= turn);
    return found < 0 ? this.last : found;
  }

  /** The log of all updates. */
  wholeLog() {
    const whole = new Uint8Array(this.frames.reduce((sum, frame) => sum + frame.log.length, 0));
    let at = 0;
    for (const {log} of this.frames) {
      whole.set(log, at);
      at += log.length;
    }
    return whole;
  }
}
