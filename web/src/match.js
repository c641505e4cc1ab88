// A battle that is shown while it is played: its updates, and what each side knows of them. The page plays it itself, or a server does (remote.js).
import {byteOf, HostError} from "gen1";

import {joined} from "./bytes.js";
import {SEEN_REASONS} from "./chances.js";
import {Problem} from "./dom.js";
import {guessed} from "./guesses.js";
import {sideOf} from "./words.js";

/**
 * @typedef {import("./engine.js").GameEvent} GameEvent
 * @typedef {1 | 2} Side
 * @typedef {Side | 0 | "all"} Viewer a side, what both sides know, or everything
 * @typedef {{ told: Uint8Array[], players: import("gen1").Player[], views: import("gen1").PlayerView[], usual: import("gen1").Battle[] }} Known the
 *   knowledge after a pair of choices; each list has an item for each side, and the last two are filled on demand
 * @typedef {Known & { pair: number[], host: import("gen1").Host, messages: import("gen1").Message[], log?: Uint8Array }} Step the table after a
 *   pair, what it sent the sides, and on demand the whole log
 */

/** @type {Side[]} */
export const SIDES = [1, 2];

/** The ten numbers of a random seed. */
export function randomSeed() {
  return [...crypto.getRandomValues(new Uint8Array(10))];
}

/**
 * What each side knows of a battle, update by update. This is all that the page shows of a battle in covered hands.
 * @template {Known} S
 */
export class Match {
  /**
   * @param {import("./engine.js").Engine} engine
   * @param {import("./engine.js").Terms} terms of a battle at a server without the foe's team and the seed
   * @param {string[]} who plays the sides
   */
  constructor(engine, terms, who) {
    this.engine = engine;
    this.terms = terms;
    this.who = who;
    /** How many members each side has. */
    this.sizes = [terms.one.length, terms.two.length];
    /** @type {S[]} */
    this.steps = [];
    /** The part of the page that shows it. */
    this.tab = "play";
    /** @type {string[] | null} the names of the sides, if they have any */
    this.names = null;
    /** @type {import("./address.js").Values} at a server, its values in an address */
    this.address = {};
    /** @type {(number | null)[]} what the sides have chosen for the current pair, as far as the page knows */
    this.chosen = [null, null];
    /** At a server, how it ended. */
    this.ended = "";
    /** @type {(what: "choose" | "rematch", choice?: number) => void} at a server, asks it for something */
    this.act = () => {};
  }

  get last() {
    return this.steps[this.steps.length - 1];
  }

  /** The sides that persons play. */
  get persons() {
    return SIDES.filter((side) => this.who[side - 1] === "person");
  }

  /**
   * A side's knowledge after a step.
   * @param {Side} side
   */
  view(side, step = this.last) {
    const {players, views} = step;
    return (views[side - 1] ??= players[side - 1].view);
  }

  /**
   * What the other side sees of a side.
   * @param {Side} side
   */
  seen(side, step = this.last) {
    const view = this.view(side === 1 ? 2 : 1, step);
    return view.side === side ? view.ownPublic : view.foe;
  }

  /**
   * The bytes of the choices that a side is offered.
   * @param {Side} side
   */
  offered(side) {
    return this.last.players[side - 1].choices.map(byteOf);
  }

  /**
   * Makes or changes a side's choice for the current pair, and returns whether that has ended it.
   * @param {Side} side @param {number} choice
   */
  choose(side, choice) {
    this.chosen[side - 1] = choice;
    return false;
  }

  /** Forgets the choices for the current pair. */
  clear() {
    this.chosen = [null, null];
  }

  get outcome() {
    return this.view(1).outcome;
  }

  get isOver() {
    return this.outcome !== "ongoing";
  }

  /**
   * Whether a person has to choose for a side.
   * @param {Side} side
   */
  isAsked(side) {
    const [first] = this.offered(side);
    return this.who[side - 1] === "person" && first !== undefined && first !== 0;
  }

  /**
   * A battle that fits a side's knowledge: the foe's members have the highest stats, and those that have not appeared are arbitrary.
   * @param {Side} side
   */
  usual(side, step = this.last) {
    let drawn = 0;
    const draw = (/** @type {number} */ bound) => drawn++ % bound;
    return (step.usual[side - 1] ??= guessed(this.engine, step.players[side - 1], draw, Array(10).fill(0)));
  }

  /**
   * The events of an update with the reasons why moves failed, as a viewer can know them: those of the library for the position before the update,
   * or after it for the side that acted second.
   * @param {S} step @param {Viewer} viewer @param {GameEvent[]} events
   */
  explained(step, viewer, events) {
    let acts = 0;
    let move = "";
    for (const event of events) {
      if (event.kind === "move" || event.kind === "switch") acts++;
      if (event.kind === "move") move = event.move;
      if (event.kind !== "fail" || !viewer) continue;
      const at = acts > 1 ? step : this.steps[this.steps.indexOf(step) - 1];
      event.why = this.reason(at, viewer, event.side, move);
    }
    return events;
  }

  /** @param {S | undefined} step @param {Viewer} viewer @param {Side} side that fails @param {string} move */
  reason(step, viewer, side, move) {
    if (!step || this.view(1, step).outcome !== "ongoing") return undefined;
    const reason = this.basis(viewer, step)?.odds(side, move).reason;
    return reason && SEEN_REASONS.includes(reason) ? reason : undefined;
  }

  /**
   * The position after a step by which a viewer explains why a move fails; null if there is none.
   * @param {Viewer} viewer @param {S} step @returns {import("gen1").Battle | null}
   */
  basis(viewer, step) {
    return viewer === 1 || viewer === 2 ? this.usual(viewer, step) : null;
  }

  /**
   * The log of an update, as it is reported to a viewer.
   * @param {S} step @param {Viewer} viewer
   */
  told(step, viewer) {
    return step.told[viewer === 2 ? 1 : 0];
  }

  /**
   * The events of an update, as they are reported to a viewer.
   * @param {S} step @param {Viewer} viewer
   */
  events(step, viewer) {
    return this.explained(step, viewer, this.engine.events(this.told(step, viewer)));
  }

  /**
   * The log of all updates, as it is reported to a viewer.
   * @param {Viewer} viewer
   */
  log(viewer) {
    return joined(...this.steps.map((step) => this.told(step, viewer)));
  }
}

/**
 * A battle that the page plays itself. Its table is the library's Host, and each side's player receives the host's messages.
 * @extends {Match<Step>}
 */
export class LocalMatch extends Match {
  /** @param {import("./engine.js").Engine} engine @param {import("./engine.js").Terms} terms @param {string[]} who plays the sides */
  constructor(engine, terms, who) {
    super(engine, terms, who);
    const {one, two, rules, limit} = terms;
    /** The table with the choices for the current pair. */
    this.host = engine.gen1.host(engine.begin(terms), {mayCancel: true});
    this.add([0, 0], SIDES.map((side) => {
      const [team, {length: foes}] = side === 1 ? [one, two] : [two, one];
      return engine.gen1.player({side, team, foes, rules, limit});
    }));
  }

  /**
   * Adds the step after a pair.
   * @param {number[]} pair @param {import("gen1").Player[]} players as they were before it
   */
  add(pair, players) {
    const messages = SIDES.map((side) => this.host.message(side));
    messages.forEach((message, at) => players[at].receive(message));
    const told = messages.map(({log}) => log);
    this.steps.push({pair, host: this.host.clone(), messages, told, players, views: [], usual: []});
    this.clear();
  }

  clear() {
    super.clear();
    this.host = this.last.host.clone();
  }

  /** Takes the last pair back, but not the beginning. */
  undo() {
    if (this.steps.length > 1) this.steps.pop();
    this.clear();
  }

  /** @param {Side} side @param {number} choice @param {number} [number] of the pair */
  choose(side, choice, number = this.host.number) {
    const {host, last: {players}} = this;
    if (this.chosen[side - 1] !== null) host.cancel(side, number);
    // No new numbers: the seed and the pairs are the whole battle.
    const isEnded = host.submit(side, number, choice, null);
    super.choose(side, choice);
    if (isEnded) this.add(this.chosen.map(Number), players.map((it) => it.clone()));
    return isEnded;
  }

  /** The sides whose choices for the current pair are missing. The host fills in the pass of a side that is not asked. */
  get awaited() {
    return SIDES.filter((side) => this.host.awaits(side));
  }

  /**
   * Plays a pair of choices from elsewhere.
   * @param {number[]} pair
   */
  update(pair) {
    const {awaited, host: {number}} = this;
    try {
      for (const side of SIDES)
        if (awaited.includes(side) || pair[side - 1]) this.choose(side, pair[side - 1], number);
    } catch (error) {
      if (!(error instanceof HostError)) throw error;
      throw new Problem(`The choices ${pair.join(" and ")} are refused: the battle cannot continue.`);
    }
  }

  /** The battle after a step, with all that is hidden. */
  battle(step = this.last) {
    return step.host.battle;
  }

  /** Everything about the battle after a step. */
  state(step = this.last) {
    return this.engine.state(this.battle(step).bytes);
  }

  /**
   * The complete log of a step's update, which isn't reported to a side.
   * @param {Step} step
   */
  whole(step) {
    const before = this.steps[this.steps.indexOf(step) - 1];
    const battle = before ? this.battle(before) : this.engine.begin(this.terms);
    return (step.log ??= this.engine.update(battle, step.pair[0], step.pair[1]).log);
  }

  /**
   * The question to the computer that plays a side.
   * @param {Side} side
   * @param {number} seed
   * @returns {import("./computer.js").Asked}
   */
  question(side, seed) {
    const player = this.who[side - 1];
    const isCheating = player === "cheating";
    return {
      side,
      player,
      seed,
      offered: this.offered(side),
      sight: isCheating ? null : this.sight(side),
      battle: isCheating ? this.battle().bytes : null,
    };
  }

  /**
   * A side's knowledge, in a form that can be sent to a worker.
   * @param {Side} side
   * @returns {import("./guesses.js").Sight}
   */
  sight(side) {
    const {one, two, rules, limit} = this.terms;
    const [team, {length: foes}] = side === 1 ? [one, two] : [two, one];
    const messages = this.steps.map((step) => step.messages[side - 1].bytes);
    return {side, team, foes, rules, limit, messages};
  }

  /** @param {Viewer} viewer @param {Step} step */
  basis(viewer, step) {
    return viewer === "all" ? this.battle(step) : super.basis(viewer, step);
  }

  /** @param {Step} step @param {Viewer} viewer */
  told(step, viewer) {
    if (viewer === "all") return this.whole(step);
    if (viewer) return super.told(step, viewer);
    // Both sides know what is reported about a side to the other side.
    const [one, two] = step.told.map((told) => this.engine.events(told));
    return joined(...one.map((event, at) => (sideOf(event) === 1 ? two[at].code : event.code)));
  }

  /** @returns {import("./inputs.js").Input} */
  input() {
    return {...this.terms, choices: this.steps.map((step) => step.pair)};
  }
}
