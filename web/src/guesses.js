// Guesses of what is hidden from a player: the foe's team, and battles with such a team. A search in them does not cheat.
import {ArgumentError, Battle} from "gen1";

import {usualMoves} from "./sets.js";

/**
 * @typedef {import("./engine.js").Engine} Engine
 * @typedef {import("./engine.js").Member} Member
 * @typedef {import("gen1").Player} Player
 * @typedef {(bound: number) => number} Draw a random whole number from 0, below a bound
 * @typedef {{ side: 1 | 2, team: Member[], foes: number, rules: number, limit: number, messages: Uint8Array[] }} Sight a side's knowledge: its team,
 *   how many members the foe has, the terms of the battle, and the messages that the host sent it
 */

const MAX = {
  dvs: [15, 15, 15, 15],
  exp: Array(5).fill(65535)
};

/**
 * A guess of the foe's team: the members that appeared with the moves that they used and those of their usual sets, and others at random.
 * @param {Engine} engine
 * @param {import("gen1").PlayerView} view
 * @param {Draw} draw
 * @returns {Member[]}
 */
function guessedTeam({gen1, tables}, view, draw) {
  const random = gen1.randomTeam({seed: draw(2 ** 24), legal: false});
  const others = random[0].moves.map(([name]) => String(name));
  const completed = (/** @type {string} */ species,
      /** @type {string[]} */ used) => [...new Set([...used, ...usualMoves(species), ...others])].slice(0, 4);
  const member = (/** @type {string} */ species, /** @type {number} */ level, /** @type {string[]} */ used) => ({
    ...MAX,
    species,
    level,
    moves: completed(species, used).map((name) => /** @type {[string, number]} */ ([name, 3])),
  });
  const seen = view.foe.members.map(
      ({species, level, moves}) =>
          member(species, level, moves.map(({name}) => String(name)).filter((name) => tables.moves[name].isKnown)));
  const rest = Math.max(0, (view.foes ?? 6) - seen.length);
  return [...seen, ...random.slice(0, rest).map(({species}) => member(String(species), seen[0]?.level ?? 100, []))];
}

/**
 * The battle with a team. A member whose maximum HP is refused, since it does not allow the HP that the player was told, gets less experience for
 * HP until it is not, and then the same with a DV of 0 for HP.
 * @param {Player} player
 * @param {Member[]} team
 * @param {number[]} seed
 * @returns {Battle}
 */
function fitting(player, team, seed) {
  for (let left = 128 * team.length;; left--) {
    try {
      return Battle.fromPlayer(player, {team: /** @type {any} */ (team), seed});
    } catch (error) {
      const refused = error instanceof ArgumentError && /^guess\.team\[(\d)\]$/.exec(error.argument);
      if (!refused || !left) throw error;
      const member = team[Number(refused[1])];
      // A quarter of the root of the experience counts.
      const quarter = Math.floor(Math.sqrt(member.exp[0]) / 4);
      if (quarter)
        member.exp = [16 * (quarter - 1) ** 2, ...member.exp.slice(1)];
      else
        Object.assign(member, {dvs: [14, 14, 14, 14], exp: MAX.exp});
    }
  }
}

/**
 * A battle that fits a player's knowledge, after its beginning and before its end.
 * @param {Engine} engine
 * @param {Player} player
 * @param {Draw} draw draws the unknown values
 * @param {number[]} seed the numbers that the battle draws
 */
export function guessed(engine, player, draw, seed) {
  return fitting(player, guessedTeam(engine, player.view, draw), seed);
}

/**
 * The player with a side's knowledge.
 * @param {Engine} engine
 * @param {Sight} sight
 */
export function playerOf({gen1}, {side, team, foes, rules, limit, messages}) {
  const player = gen1.player({side, team: /** @type {any} */ (team), foes, rules, limit});
  for (const message of messages) player.receive(gen1.messageOfBytes(message));
  return player;
}
