// A battle at a server: all that the server has sent to a side, or to the audience.
import {decoded} from "./bytes.js";
import {Match, SIDES} from "./match.js";

/**
 * @typedef {import("./match.js").Side} Side
 * @typedef {import("./match.js").Viewer} Viewer
 * @typedef {{ outcome: number, reason: string, ratings: number[] }} Ending the ratings are those of side 1 before and after, then those of side 2
 * @typedef {{ room: number, number: number, sent: string, awaited?: boolean, due?: number, ending?: Ending }} Standing what the server
 *   sends after each pair: a gen1_message, or a gen1_notice for the audience, and when the own time runs out
 * @typedef {Standing & { format: string, rated: boolean, names: string[], sizes: number[], side: Side | 0, history: string[],
 *   hp_form: import("gen1").HpForm, team?: import("./engine.js").Member[] }} Room a whole battle; `history` has the logs of all pairs but the last
 * @typedef {{ rules: number, limit: number, ahead: number }} Rules those of the battle, and by how many milliseconds this computer's clock is ahead
 *   of the server's
 */

/**
 * The audience does not know the teams.
 * @type {import("./engine.js").Member[]}
 */
const UNKNOWN = Array(6).fill({species: 1, level: 100, dvs: [0, 0, 0, 0], exp: [0, 0, 0, 0, 0], moves: [[1, 0]]});
/** @type {Record<string, (name: string) => string>} why a battle ended before its end, by the reason of the server and the side that has lost */
const REASONS = {
  forfeit: (name) => (name ? `${name} has forfeited.` : "You have forfeited."),
  time: (name) => `${name ? `${name}'s` : "Your"} time has run out.`,
  draw: () => "Both sides have agreed on it.",
};

/**
 * A battle at a server. A side's knowledge is the library's Player, which receives the server's messages. That of the audience is two players without
 * teams, of which each sees the other side.
 * @extends {Match<import("./match.js").Known>}
 */
export class RemoteMatch extends Match {
  /** @param {import("./engine.js").Engine} engine @param {Room} room @param {Rules} rules */
  constructor(engine, room, rules) {
    const team = room.team ?? UNKNOWN;
    super(engine, {...rules, one: team, two: team, seed: []},
        SIDES.map((side) => (side === room.side ? "person" : "remote")));
    this.tab = "online";
    this.names = room.names;
    this.sizes = room.sizes;
    this.address = {r: room.room};
    this.room = room.room;
    this.side = room.side;
    this.format = room.format;
    this.rated = room.rated;
    this.ahead = rules.ahead;
    const known = {team: /** @type {any} */ (team), hpForm: room.hp_form, rules: rules.rules, limit: rules.limit};
    this.players = (room.side ?
            [room.side] :
            SIDES).map((side) => engine.gen1.player({...known, side, foes: room.sizes[2 - side]}));
    /** The number of the current pair. */
    this.number = 0;
    /** Whether the side's choice is missing. */
    this.isAwaited = false;
    /** When the side's time runs out, by this computer's clock; 0 if it does not. */
    this.due = 0;
    /** Why the battle ended early, and how the ratings have changed. */
    this.why = "";
    /** @type {number | null} the side that offers a draw */
    this.draw = null;
    for (const log of room.history) this.add(decoded(log), (player) => player.feed(decoded(log)));
    this.take(room);
  }

  /**
   * Adds a step.
   * @param {Uint8Array} log @param {(player: import("gen1").Player) => void} tell
   */
  add(log, tell) {
    this.players = this.players.map((it) => it.clone());
    this.players.forEach(tell);
    const [one, two = one] = this.players;
    this.steps.push({told: [log, log], players: [one, two], views: [], usual: []});
  }

  /**
   * Takes in what the server has sent after a pair.
   * @param {Standing} standing
   */
  take({number, sent, awaited = false, due = 0, ending}) {
    const {gen1} = this.engine;
    const message = this.side ? gen1.messageOfBytes(decoded(sent)) : gen1.noticeOfBytes(decoded(sent));
    this.add(message.log, (player) => ("own" in message ? player.receive(message) : player.feed(message.log)));
    [this.number, this.isAwaited, this.draw] = [number, awaited, message.draw];
    this.due = due && due + this.ahead;
    if (ending) this.end(ending);
  }

  /** @param {Ending} ending */
  end({reason, ratings}) {
    const names = /** @type {string[]} */ (this.names);
    const won = this.outcome === "win one" ? 1 : this.outcome === "win two" ? 2 : 0;
    const draw = reason === "draw" ? "A draw." : "A tie.";
    this.ended = won === 0 ? draw : won === this.side ? "You have won." : `${names[won - 1]} has won.`;
    const why = REASONS[reason]?.(3 - won === this.side ? "" : names[2 - won]) ?? "";
    const changes = SIDES.map((side) => ratings.slice(2 * side - 2, 2 * side).map(Math.round));
    const rating = changes.flatMap(([before, after], at) => (after ? [`${names[at]} ${before} → ${after}`] : []));
    this.why = [why, rating.length ? `Ratings: ${rating.join(", ")}.` : ""].filter(Boolean).join(" ");
    [this.isAwaited, this.due] = [false, 0];
  }

  /** @param {Side} side @param {number} choice */
  choose(side, choice) {
    this.act("choose", choice);
    return super.choose(side, choice);
  }

  /** @param {Side} side */
  offered(side) {
    return side === this.side && this.isAwaited ? super.offered(side) : [];
  }

  /**
   * Only the last of the pairs that came at once shows the own side.
   * @param {Viewer} viewer @param {import("./match.js").Known} step
   */
  basis(viewer, step) {
    return this.side && this.view(this.side, step).own ? super.basis(viewer, step) : null;
  }
}
