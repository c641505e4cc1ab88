// The engine: the JavaScript package (js), with states, odds and errors in the form that the page shows. A battle is 384 bytes.
import {ArgumentError, ArgumentTypeError, byteOf, load, LogError, MOVES, RefusedError, SPECIES, StateError, TeamError, TextError} from "gen1";

import {Problem} from "./dom.js";

/**
 * @typedef {import("gen1").Gen1} Gen1
 * @typedef {import("gen1").MoveData & { name: string, isKnown: boolean }} Move a row of docs/TABLES.md, and whether a member may know it
 * @typedef {{ species: Record<string, readonly [string, string]>, moves: Record<string, Move> }} Tables the types of each species, and the moves
 * @typedef {{ species: string | number, level: number, dvs: number[], exp: number[], moves: [string | number, number][] }} Member
 * @typedef {{ seed: number[], one: Member[], two: Member[], rules: number, limit: number }} Terms
 * @typedef {import("gen1").GameEvent & { code: Uint8Array, why?: string }} GameEvent an event with its log bytes, and why a move fails, if that is
 *   known
 * @typedef {import("gen1").SideState & { choices: number[] }} SideState
 * @typedef {import("gen1").State & { sides: SideState[] }} State
 * @typedef {import("gen1").ShownState & { sides: import("gen1").ShownSide[] }} View
 * @typedef {{ slot: number, move: string, damage: number[] | null, critical: number[] | null, fixed: [number, number] | null, bound: number | null,
 *   hit: number | null, reason: string | null, hits: number[], charges: boolean }} Odds how many of 256 bytes give a critical hit or a hit,
 *   null if without a draw; why a use cannot hit; the chances of 0 to 5 hits; and whether the user charges first
 * @typedef {Odds & { knockOut: import("gen1").KnockOutInThree }} CalculatedMove
 * @typedef {{ hp: number, max: number, substitute: number, own: number[], stats: number[], moves: CalculatedMove[] }} Calculated
 * @typedef {{ stats: number[], types: import("gen1").TypeName[], substitute: number }} Carried what a battle has changed: the current stats, the
 *   types, and the HP of the Substitute
 * @typedef {{ member: Member, stages: number[], status: number, conditions: number, hp: number, carried?: Carried | null }} Standing a member and its
 *   state: six stages from 0 to 12, the byte of the status (docs/LAYOUT.md, "Member"), a bit for each of CONDITIONS, the HP, where 0 is the maximum,
 *   and what it carries from a battle
 */

/** The most bytes of a log or of a team's text, as the program reads them (docs/PROGRAM.md). */
export const MOST = 1_048_576;
/** The bytes of a log that are read at once, and the most bytes of an event (docs/MECHANICS.md, "Events"). */
const [PIECE, MOST_EVENT] = [2048, 10];
/** Codes of include/gen1.h. */
const [EMPTY, UNUSUAL] = [1, 48];
const SEED = Array(10).fill(0);
/**
 * The conditions that the calculator offers, with their names in the package.
 * @type {[string, import("gen1").Condition][]}
 */
export const CONDITIONS = [
  ["Reflect", "reflect"],
  ["Light Screen", "light screen"],
  ["Focus Energy", "focus energy"],
  ["Mist", "mist"],
  ["Out of reach", "invulnerable"],
  ["Substitute", "substitute"],
];
/** @type {Record<number, import("gen1").Status>} */
const STATUSES = {
  0: "none",
  8: "poison",
  16: "burn",
  32: "freeze",
  64: "paralysis"
};
const MIDDLE = 6;
/**
 * The move of a member without moves, since a battle needs one.
 * @type {[string, number][]}
 */
const NO_MOVES = [["Splash", 3]];

/**
 * Refuses bytes that are too many to be read at once.
 * @param {ArrayLike<number>} bytes
 * @param {string} what they are, as a message names them
 */
export function testLength(bytes, what) {
  if (bytes.length > MOST)
    throw new Problem(
        `${what} has ${bytes.length.toLocaleString("en")} bytes; at most ${MOST.toLocaleString("en")} are read.`);
}

/**
 * Calls the engine, and turns its refusal of teams into a message.
 * @template T
 * @param {() => T} call
 */
function testingTeams(call) {
  try {
    return call();
  } catch (error) {
    if (!(error instanceof TeamError)) throw error;
    throw refused(error.side, error.place, error.reason);
  }
}

/** @param {number} side @param {number} place @param {string} reason */
function refused(side, place, reason) {
  const where = [side ? `side ${side}` : "", place ? `member ${place}` : ""].filter(Boolean).join(", ");
  return new Problem(`The ${side ? "team" : "battle"} is refused: ${where ? `${where}: ` : ""}${reason}.`, {side});
}

/**
 * Sets the state of a side's only member. The stats follow from stages and status, unless they are carried from a battle.
 * @param {import("gen1").SideState} side
 * @param {Standing} it
 */
function stand({members: [member], active}, {stages, status, conditions, hp, carried}) {
  member.status = status > 0 && status < 8 ? "sleep" : STATUSES[status];
  member.sleep = status < 8 ? status : 0;
  if (hp) member.hp = hp;
  if (!active) return;
  active.stages = stages.map((stage) => stage - MIDDLE);
  active.stats = carried?.stats ?? [0, 0, 0, 0];
  active.types = carried?.types ?? active.types;
  active.conditions = CONDITIONS.filter((_, bit) => (conditions >> bit) & 1).map(([, name]) => name);
  // A new Substitute has a quarter of the maximum HP.
  const substitute = carried?.substitute || Math.floor(member.maxHp / 4);
  active.substitute = active.conditions.includes("substitute") ? substitute : 0;
}

/**
 * Moves without those that are there twice, which a team may not have.
 * @param {[string | number, number][]} moves
 */
function distinct(moves) {
  return moves.filter(([move], at) => moves.findIndex(([other]) => other === move) === at);
}

/** @param {Gen1} gen1 @returns {Tables} */
function tablesOf(gen1) {
  const isKnown = (/** @type {string} */ move) => {
    const team = [{species: SPECIES[0], moves: /** @type {[string, number][]} */ ([[move, 0]])}];
    try {
      return Boolean(gen1.spectator(team, team));
    } catch (error) {
      if (error instanceof TeamError) return false;
      throw error;
    }
  };
  return {
    species: Object.fromEntries(SPECIES.map((name) => [name, gen1.base(name).types])),
    moves: Object.fromEntries(MOVES.map((name) => [name, {name, ...gen1.moveData(name), isKnown: isKnown(name)}])),
  };
}

/** The calls of the engine. */
export class Engine {
  /** @param {Gen1} gen1 */
  constructor(gen1) {
    this.gen1 = gen1;
    this.tables = tablesOf(gen1);
  }

  /** @param {BufferSource} bytes of the module */
  static async of(bytes) {
    return new Engine(await load(bytes));
  }

  /**
   * Creates a battle of two teams, before its first update.
   * @param {Terms} terms
   */
  begin(terms) {
    const {one, two, seed, rules, limit} = terms;
    return testingTeams(() => this.gen1.battle({one, two, seed, rules, limit}));
  }

  /**
   * Updates a battle by a pair of choices, and returns the log; or why the pair is refused.
   * @param {import("gen1").Battle} battle
   * @param {number} one
   * @param {number} two
   */
  update(battle, one, two) {
    try {
      return {refused: "", log: battle.update(one, two).log};
    } catch (error) {
      if (error instanceof RefusedError) return {refused: error.reason, log: new Uint8Array()};
      throw error;
    }
  }

  /**
   * The events of log bytes.
   * @param {Uint8Array} log
   * @param {number} [before] how many bytes stand before them
   * @returns {GameEvent[]}
   */
  events(log, before = 0) {
    testLength(log, "The log");
    let at = 0;
    try {
      return this.gen1.events(log).map((event) => ({...event, code: log.subarray(at, (at += event.size))}));
    } catch (error) {
      if (error instanceof LogError)
        throw new Problem(`This is not the log of a battle: ${error.reason} (at byte ${before + error.at}).`);
      throw error;
    }
  }

  /**
   * The events of log bytes, in pieces that are read quickly.
   * @param {Uint8Array} log
   * @returns {Generator<GameEvent[]>}
   */
  * pieces(log) {
    testLength(log, "The log");
    for (let at = 0; at < log.length;) {
      const end = Math.min(log.length, at + PIECE);
      // The last event of a piece may continue in the next one.
      const whole = end === log.length ? end : at + this.wholeEvents(log.subarray(at, end));
      yield this.events(log.subarray(at, whole), at);
      at = whole;
    }
  }

  /**
   * The total size in bytes of the complete events in a log that may have been cut.
   * @param {Uint8Array} log
   */
  wholeEvents(log) {
    try {
      this.gen1.events(log);
      return log.length;
    } catch (error) {
      // An invalid event far from the end is reported by the reader.
      return error instanceof LogError && error.at > 0 && log.length - error.at < MOST_EVENT ? error.at : log.length;
    }
  }

  /**
   * The state of a battle, with the choices that each side is offered.
   * @param {Uint8Array} battle
   * @returns {State}
   */
  state(battle) {
    const it = this.gen1.load(battle);
    const {state} = it;
    return {
      ...state,
      sides: [{...state.one, choices: it.choices(1).map(byteOf)}, {...state.two, choices: it.choices(2).map(byteOf)}],
    };
  }

  /**
   * The odds of the moves of a side's active member; none before the first update.
   * @param {import("gen1").Battle} battle @param {1 | 2} side @returns {Odds[]}
   */
  oddsOf(battle, side) {
    const {members, active} = battle.state[side === 1 ? "one" : "two"];
    return active ? members[active.place - 1].moves.map((move, at) => this.oddsWith(battle, side, at + 1, move)) : [];
  }

  /** @param {import("gen1").Battle} battle @param {1 | 2} side @param {number} slot 0 if it is not known @param {string} move @returns {Odds} */
  oddsWith(battle, side, slot, move) {
    const {usual, critical, criticalChance, hitChance, takesHitTest, fixed, reason, hits, chargesFirst} =
        battle.odds(side, move);
    return {
      slot,
      move,
      damage: usual.numbers.length ? usual.numbers : null,
      critical: critical.numbers.length ? critical.numbers : null,
      fixed,
      reason,
      hits,
      charges: chargesFirst,
      bound: usual.code === UNUSUAL ? null : 256 * criticalChance,
      hit: takesHitTest && hitChance < 1 ? 256 * hitChance : null,
    };
  }

  /**
   * The members in a team builder's text: a packed line if it has a bar, else an export text.
   * @param {string} text
   * @param {string} whose text it is, as a message names it
   * @param {number} side
   * @returns {Member[]}
   */
  team(text, whose, side) {
    testLength(new TextEncoder().encode(text), whose);
    try {
      return text.includes("|") ? this.gen1.teamFromPacked(text) : this.gen1.teamFromText(text);
    } catch (error) {
      if (!(error instanceof TextError)) throw error;
      if (error.rule === EMPTY) return [];
      if (error.rule) throw refused(side, error.member, error.reason);
      const said = error.message.replace(/expected: (packed: )?/, "expected ");
      throw new Problem(`${whose}: ${said}${said.endsWith("?") ? "" : "."}`);
    }
  }

  /**
   * The name that the library takes a misspelt one for; empty if there is none.
   * @param {"species" | "move"} kind
   * @param {string} text
   */
  near(kind, text) {
    try {
      if (kind === "species")
        this.gen1.base(text);
      else
        this.gen1.moveData(text);
    } catch (error) {
      if (error instanceof ArgumentError) return /; did you mean "(.+)"\?$/.exec(error.message)?.[1] ?? "";
      throw error;
    }
    return "";
  }

  /**
   * Why a team cannot battle: the member and the reason; empty if it can.
   * @param {Member[]} team
   */
  fault(team) {
    try {
      this.gen1.spectator(team, team);
      return "";
    } catch (error) {
      if (!(error instanceof TeamError)) throw error;
      return `${error.place ? `Member ${error.place}: ` : ""}${error.reason}`;
    }
  }

  /**
   * A spectator of a battle.
   * @param {Member[]} one
   * @param {Member[]} two
   */
  spectator(one, two) {
    return testingTeams(() => this.gen1.spectator(one, two));
  }

  /**
   * A spectator's knowledge after more log bytes.
   * @param {import("gen1").Spectator} spectator
   * @param {Uint8Array} log
   * @returns {View}
   */
  watch(spectator, log) {
    spectator.feed(log);
    const {state} = spectator;
    return {...state, sides: [state.one, state.two]};
  }

  /**
   * The maximum HP and the stats of a member with any moves.
   * @param {Member} member
   */
  stats(member) {
    const team = [{...member, moves: NO_MOVES}];
    const {state} = testingTeams(() => this.gen1.battle({one: team, two: team, seed: SEED}));
    const {maxHp, stats} = state.one.members[0];
    return [maxHp, ...stats];
  }

  /**
   * The odds of the moves of two members in a given state. A member may have no moves.
   * @param {Standing[]} both
   * @returns {Calculated[]}
   */
  calculate(both) {
    const battle = this.standing(both);
    const {state} = battle;
    return [state.one, state.two].map(({members: [member], active}, at) => {
      const side = at === 0 ? 1 : 2;
      const odds = both[at].member.moves.length ? this.oddsOf(battle, side) : [];
      return {
        hp: member.hp,
        max: member.maxHp,
        substitute: active?.substitute ?? 0,
        own: member.stats,
        stats: active?.stats ?? [],
        moves: odds.map((it) => ({...it, knockOut: battle.knockOutInThree(side, it.move)})),
      };
    });
  }

  /**
   * A battle of two members in their states.
   * @param {Standing[]} both
   */
  standing(both) {
    const [one, two] =
        both.map(({member}) => [{...member, moves: member.moves.length ? distinct(member.moves) : NO_MOVES}]);
    const begun = testingTeams(() => this.gen1.battle({one, two, seed: SEED}));
    begun.updateSilent("pass", "pass");
    try {
      return begun.withState((state) => [state.one, state.two].forEach((side, at) => stand(side, both[at])));
    } catch (error) {
      if (!(error instanceof StateError || error instanceof ArgumentTypeError)) throw error;
      throw new Problem("The calculation is refused: the members cannot be in this state.");
    }
  }
}
