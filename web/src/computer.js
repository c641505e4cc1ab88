// The computer's choices: at random, by expected damage, by random battles played to their end, or by a search.
import {choiceOf} from "gen1";

import {guessed, playerOf} from "./guesses.js";

/**
 * @typedef {import("gen1").Battle} Battle
 * @typedef {import("gen1").ChoiceName} ChoiceName
 * @typedef {import("./engine.js").Engine} Engine
 * @typedef {import("gen1/search").Search} Search
 * @typedef {import("gen1/search").Thought} Thought
 * @typedef {{ side: 1 | 2, player: string, seed: number, offered: number[], sight: import("./guesses.js").Sight | null,
 *   battle: Uint8Array | null }} Asked a question: the player ("random", "greedy", "playouts", "level1" to "level5", or "cheating"), the bytes of the offered choices, and
 *   the computer's knowledge: that of its side, or for cheating the battle itself
 */

/** How many random battles begin with each offered choice: in a known battle, and in each guess of an unknown one. */
const ROUNDS = 200;
const GUESSES = 25;
const ROUNDS_OF_GUESS = 8;

/** A generator of random whole numbers (xorshift), whose output depends only on its seed; a battle has its own. */
class Random {
  /** @param {number} seed */
  constructor(seed) {
    this.state = Math.imul(seed, 0x9e3779b9) | 1;
  }

  /** A random number of 24 bits. */
  draw() {
    this.state ^= this.state << 13;
    this.state ^= this.state >>> 17;
    this.state ^= this.state << 5;
    return this.state >>> 8;
  }

  /** @param {number} bound */
  below(bound) {
    return this.draw() % bound;
  }

  /** Ten numbers for a copy of a battle to draw. */
  seed() {
    return Array.from({length: 10}, () => this.draw() & 255);
  }
}

/**
 * The score of a side in one random battle that begins with a choice: 2 for a win, 1 for a tie or a fault.
 * @param {Battle} battle
 * @param {1 | 2} side
 * @param {ChoiceName} choice
 * @param {ChoiceName} other the foe's choice
 * @param {Random} random
 */
function scoreOf(battle, side, choice, other, random) {
  const copy = battle.clone();
  // With the battle's own numbers the player would know the draws to come.
  copy.reseed(random.seed());
  if (side === 1)
    copy.updateSilent(choice, other);
  else
    copy.updateSilent(other, choice);
  const {winsOne, winsTwo, ties, faults} = copy.playout(random.draw(), 1);
  copy.free();
  return 2 * (side === 1 ? winsOne : winsTwo) + ties + faults;
}

/**
 * The score of each offered choice in random battles that begin with it. Each draws its own link numbers, so the score reveals nothing
 * about the numbers of the battle. A choice that a guess does not offer counts as a tie.
 * @param {Battle} battle
 * @param {1 | 2} side
 * @param {number} rounds
 * @param {Random} random
 * @param {readonly ChoiceName[]} [choices]
 */
function scoresOf(battle, side, rounds, random, choices = battle.choices(side)) {
  const [offered, others] = [battle.choices(side), battle.choices(side === 1 ? 2 : 1)];
  return choices.map((choice) => {
    if (!offered.includes(choice)) return rounds;
    let score = 0;
    for (let round = 0; round < rounds; round++)
      score += scoreOf(battle, side, choice, others[random.below(others.length)], random);
    return score;
  });
}

/** @param {Battle} battle @param {1 | 2} side @param {number} rounds @param {number} seed */
export function scores(battle, side, rounds, seed) {
  return scoresOf(battle, side, rounds, new Random(seed));
}

/**
 * Battles that fit the knowledge of the computer's side, and draw their own numbers.
 * @param {Engine} engine
 * @param {Asked} asked
 * @param {Random} random
 * @param {number} count
 */
function guesses(engine, {sight}, random, count) {
  if (!sight) throw new Error("nothing is known of the battle");
  const player = playerOf(engine, sight);
  return Array.from({length: count}, () => guessed(engine, player, (bound) => random.below(bound), random.seed()));
}

/** @param {Engine} engine @param {Asked} asked @param {Random} random @param {ChoiceName[]} choices */
function fairScores(engine, asked, random, choices) {
  const sums = choices.map(() => 0);
  for (const battle of guesses(engine, asked, random, GUESSES))
    scoresOf(battle, asked.side, ROUNDS_OF_GUESS, random, choices).forEach((score, place) => (sums[place] += score));
  return sums;
}

/**
 * The expected damage of each offered choice: the sum of the 39 numbers, times how many of 256 bytes hit.
 * @param {Engine} engine
 * @param {Battle} battle
 * @param {1 | 2} side
 * @param {ChoiceName[]} choices
 */
function damages(engine, battle, side, choices) {
  const odds = engine.oddsOf(battle, side);
  return choices.map((choice) => {
    const found = odds.find(({slot}) => choice === `move ${slot}`);
    return found?.damage ? found.damage.reduce((sum, number) => sum + number, 0) * (found.hit ?? 256) : 0;
  });
}

/** @param {number[]} values */
function placeOfBest(values) {
  return values.reduce((best, value, place) => (value > values[best] ? place : best), 0);
}

/**
 * The level of a player that searches; 0 for others.
 * @param {string} player
 */
export function levelOf(player) {
  return /^level[1-5]$/.test(player) ? Number(player.slice(5)) : 0;
}

/**
 * A search from the knowledge of a side.
 * @param {Engine} engine @param {Search} search @param {Asked} asked
 */
export function think(engine, search, {sight, player, seed}) {
  if (!sight) throw new Error("nothing is known of the battle");
  const level = /** @type {1 | 2 | 3 | 4 | 5} */ (levelOf(player));
  return search.think(playerOf(engine, sight), {level, seed});
}

/**
 * One of the choices of a search, by their chances. Those with less than nine tenths of the highest are mostly its noise.
 * @param {Thought} thought @param {Random} random
 */
function drawn({choices}, random) {
  const likely = choices.filter(({probability}) => probability >= 0.9 * choices[0].probability);
  let left = random.draw() / (1 << 24) * likely.reduce((sum, {probability}) => sum + probability, 0);
  return likely.find(({probability}) => (left -= probability) < 0) ?? likely[0];
}

/**
 * A choice of the computer, as its byte.
 * @param {Engine} engine
 * @param {Asked} asked
 * @param {Search | null} [search] is there for a level
 */
export function choose(engine, asked, search) {
  const {side, player, seed, offered, battle} = asked;
  if (player === "random" || offered.length < 2) return offered[seed % offered.length];
  if (search && levelOf(player)) {
    const {choice} = drawn(think(engine, search, asked), new Random(seed));
    return offered[offered.map(choiceOf).indexOf(choice)];
  }
  const [random, choices] = [new Random(seed), offered.map(choiceOf)];
  if (battle) return offered[placeOfBest(scoresOf(engine.gen1.load(battle), side, ROUNDS, random, choices))];
  if (player === "greedy")
    return offered[placeOfBest(damages(engine, guesses(engine, asked, random, 1)[0], side, choices))];
  return offered[placeOfBest(fairScores(engine, asked, random, choices))];
}
