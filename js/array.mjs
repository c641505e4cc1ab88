// Many battles side by side in the module's memory, updated in one call, with numbers in typed arrays.
import {BATTLE_SIZE} from "./arena.mjs";
import {inspected, list, playoutSeed, record, sideOf, within, wrongType} from "./arguments.mjs";
import {Battle, loadError, playoutOptions} from "./battle.mjs";
import {ArgumentError, FreedError} from "./errors.mjs";
import {CODES} from "./header.mjs";
import {COLUMNS, fillRow, PLAYER_SIZE, TELLER_SIZE} from "./observing.mjs";
import {giveTerms, Player, Teller} from "./players.mjs";
import {made} from "./update.mjs";

const MOST_BATTLES = 2 ** 20;
const SEED_SIZE = 10;
const PLAYOUTS_SIZE = 16;
const KEYS = ["battle", "count", "seeds", "sides"];
// The size of a generator of gen1_step_random_many, to which its array is aligned.
const STATE_SIZE = 8;
// Both sides of one battle: their players, and their tellers.
const SIDES_SIZE = 2 * (PLAYER_SIZE + TELLER_SIZE);

const placesOf = (count, isWatched) => {
  const sides = count * BATTLE_SIZE;
  const scratch = STATE_SIZE * Math.ceil((sides + (isWatched ? count * SIDES_SIZE : 0)) / STATE_SIZE);
  return {sides, scratch, updates: scratch + count * STATE_SIZE, size: scratch + count * PLAYOUTS_SIZE};
};

// A typed array or an array of `count` bytes, as a Uint8Array.
function bytesOf(value, what, count) {
  const {length} = list(value, what, `a list of ${count} numbers`);
  if (length !== count) throw new ArgumentError(`${what} has ${length} numbers, not ${count}`, what);
  if (value instanceof Uint8Array) return value;
  return Uint8Array.from(value, (it, place) => within(it, `${what}[${place}]`, 0, 255));
}

function pairOf(value) {
  const pair = list(value, "sides", "two objects, each with the teller and the player of a side");
  if (pair.length !== 2) throw new ArgumentError(`sides has ${pair.length} elements, not 2`, "sides");
  for (const side of [1, 2]) {
    const what = `sides[${side - 1}]`;
    const {teller, player} = record(pair[side - 1], what, "an object with teller and player", ["teller", "player"]);
    if (!(teller instanceof Teller)) throw wrongType(teller, `${what}.teller`, "a Teller");
    if (!(player instanceof Player)) throw wrongType(player, `${what}.player`, "a Player");
    if (teller.side !== side || player.side !== side) throw new ArgumentError(`${what} is not of side ${side}`, what);
  }
  return pair;
}

/** Many battles, which are updated together. Numbers are in typed arrays, with the battle at place 0 first. */
export class BattleArray {
  #library;
  #region;
  #places;
  #isWatched;
  #first;

  /** How many battles there are. */
  length;
  /** The value of gen1_result for each battle after the last step, in one array whose values change. */
  results;
  /** 0 for each battle that the last step updated, else why it did not: CODES.ERROR_OVER and so on, in one array whose values change. */
  codes;

  constructor(library, count, fill, isWatched) {
    this.#library = made(library, "BattleArray", "gen1.battleArray");
    this.length = count;
    this.#isWatched = isWatched;
    this.#places = placesOf(count, isWatched);
    this.#region = library.arena.region(this.#places.size, this);
    [this.results, this.codes] = [new Uint8Array(count), new Uint8Array(count)];
    fill(this.#at);
    this.#begin();
  }

  // Keeps the battles for `reset`.
  #begin() {
    this.#first = this.#library.bytes.slice(this.#at, this.#at + this.#places.scratch);
    this.#see();
  }

  // The offset of the first battle.
  get #at() {
    if (this.#region === null) throw new FreedError("the array was freed");
    return this.#region.place;
  }

  #pointer(offset) {
    return this.#library.size(this.#at + offset);
  }

  // Computes the results of the battles as they are.
  #see() {
    for (let at = 0; at < this.length; at++)
      this.results[at] = this.#library.calls.gen1_result(this.#pointer(at * BATTLE_SIZE));
    this.codes.fill(0);
  }

  #place(at) {
    return within(at, "place", 0, this.length - 1);
  }

  /** A copy of the battle at a place. */
  at(place) {
    return new Battle(this.#library, this.#library.blockOf(this.#pointer(this.#place(place) * BATTLE_SIZE)));
  }

  /** A copy of all battles, 384 bytes each. */
  get bytes() {
    return this.#library.bytes.slice(this.#at, this.#at + this.length * BATTLE_SIZE);
  }

  /** The masks of the choices that a side is offered: bit N is for CHOICES[N]. Those of a battle that is over are 0. */
  masks(side) {
    const [{calls, bytes}, at] = [this.#library, this.#at + this.#places.scratch];
    const count = this.#library.size(this.length);
    calls.gen1_offered_many(this.#pointer(0), count, sideOf(side), this.#pointer(this.#places.scratch), count);
    return new Uint16Array(bytes.buffer.slice(at, at + 2 * this.length));
  }

  /** Updates each battle with a choice of each side, as bytes. A battle that refuses its pair is unchanged, and `codes` says why. */
  step(ones, twos) {
    const [first, second] = [bytesOf(ones, "ones", this.length), bytesOf(twos, "twos", this.length)];
    if (this.#isWatched)
      this.#stepAll(first, second);
    else
      this.#stepMany(first, second);
    return this.results;
  }

  #stepMany(ones, twos) {
    const [updates, count] = [this.#updates, this.#library.size(this.length)];
    for (let at = 0; at < this.length; at++) updates[at] = ones[at] | (twos[at] << 8);
    this.#library.calls.gen1_update_many(this.#pointer(0), count, this.#pointer(this.#places.updates), count);
    this.#note(updates);
  }

  // An update of each battle, in the form of the C interface.
  get #updates() {
    return new Uint32Array(this.#library.bytes.buffer, this.#at + this.#places.updates, this.length);
  }

  #note(updates) {
    for (let at = 0; at < this.length; at++) {
      this.results[at] = updates[at] >> 16;
      this.codes[at] = updates[at] >>> 24;
    }
  }

  // Updates one battle after the other, and reports each log to both sides.
  #stepAll(ones, twos) {
    const {calls, log, length: told} = this.#library;
    const room = this.#library.size(CODES.LOG_ROOM);
    for (let at = 0; at < this.length; at++) {
      const battle = this.#pointer(at * BATTLE_SIZE);
      this.codes[at] = calls.gen1_update(battle, ones[at], twos[at], log, room, told);
      if (this.codes[at] === 0) this.#tell(at, battle, this.#library.size(this.#library.sizeAt(told)));
      this.results[at] = calls.gen1_result(battle);
    }
  }

  #tell(at, battle, count) {
    const library = this.#library;
    const {calls, log, told, own, length} = library;
    for (let side = 1; side <= 2; side++) {
      const player = this.#pointer(this.#sideAt(at, side));
      calls.gen1_tell(
          this.#pointer(this.#sideAt(at, side) + PLAYER_SIZE), log, count, told, library.size(CODES.LOG_ROOM), length);
      calls.gen1_player_feed(player, told, library.size(library.sizeAt(length)));
      calls.gen1_get_own_side(battle, side, own);
      calls.gen1_player_show(player, own, calls.gen1_offered(battle, side));
    }
  }

  // The offset of a side's player from the first battle; its teller comes after it.
  #sideAt(at, side) {
    return this.#places.sides + at * SIDES_SIZE + (side - 1) * (PLAYER_SIZE + TELLER_SIZE);
  }

  /** Makes a step with choices at random, which are equally likely, and returns them. `random` returns numbers from 0 to below 1. */
  randomStep(random = Math.random) {
    if (typeof random !== "function")
      throw wrongType(random, "random", "a function that returns numbers from 0 to below 1");
    const states = new Uint32Array(2 * this.length);
    for (let at = 0; at < states.length; at++) states[at] = random() * 2 ** 32;
    const before = this.#isWatched ? this.bytes : null;
    const updates = this.#stepRandomMany(states);
    const [ones, twos] = [new Uint8Array(this.length), new Uint8Array(this.length)];
    for (let at = 0; at < this.length; at++) [ones[at], twos[at]] = [updates[at], updates[at] >> 8];
    if (before === null)
      this.#note(updates);
    else {
      // Players need the logs, which the call doesn't write.
      this.#library.bytes.set(before, this.#at);
      this.#stepAll(ones, twos);
    }
    return [ones, twos];
  }

  // A random step of each battle, by its own generator, whose state is two 32-bit words.
  #stepRandomMany(states) {
    const {calls, bytes, length} = this.#library;
    new Uint32Array(bytes.buffer, this.#at + this.#places.scratch, states.length).set(states);
    const [none, count] = [this.#library.size(0), this.#library.size(this.length)];
    const [first, generators, updates] =
        [0, this.#places.scratch, this.#places.updates].map((offset) => this.#pointer(offset));
    calls.gen1_step_random_many(first, count, none, none, generators, count, updates, count, length);
    return this.#updates;
  }

  /** The knowledge of a side in each battle: a row of COLUMNS.length numbers each, from its player alone. The array needs `sides`. */
  observe(side) {
    if (!this.#isWatched) throw new ArgumentError("the array has no players: it was created without sides", "sides");
    const [own, width] = [sideOf(side), COLUMNS.length];
    const [rows, {bytes}] = [new Uint16Array(this.length * width), this.#library];
    for (let at = 0; at < this.length; at++) fillRow(rows, at * width, bytes, this.#at + this.#sideAt(at, own), own);
    return rows;
  }

  /** A copy of the player of a side of the battle at a place. The array needs `sides`. */
  player(place, side) {
    if (!this.#isWatched) throw new ArgumentError("the array has no players: it was created without sides", "sides");
    const at = this.#sideAt(this.#place(place), sideOf(side));
    return new Player(this.#library, this.#library.read(this.#pointer(at), PLAYER_SIZE));
  }

  /**
   * Plays `rounds` copies of each battle with random choices, to their end or to a depth. Returns four counts for each battle: wins of side 1, wins
   * of side 2, ties, faults. The battle at place N is played out with the seed plus N.
   */
  playouts(seed, rounds, options = {}) {
    const [first, found] = [playoutSeed(seed), new Uint32Array(4 * this.length)];
    this.#library.begin();
    const given = this.#library.put(playoutOptions(this.#library, first, rounds, options));
    const counts = this.#pointer(this.#places.scratch);
    const {buffer} = this.#library.bytes;
    const [own, view] = [new BigUint64Array(buffer, Number(given), 1), new Uint32Array(buffer, Number(counts), 4)];
    for (let at = 0; at < this.length; at++) {
      own[0] = BigInt.asUintN(64, first + BigInt(at));
      const code = this.#library.calls.gen1_playout(this.#pointer(at * BATTLE_SIZE), given, counts);
      if (code) throw loadError(this.#library, code, BATTLE_SIZE);
      found.set(view, 4 * at);
    }
    return found;
  }

  /** Replaces the numbers that each battle draws: ten bytes for each, of which the first is drawn next. */
  reseed(seeds) {
    const given = bytesOf(seeds, "seeds", SEED_SIZE * this.length);
    for (let at = 0; at < this.length; at++) reseedAt(this.#library, this.#at, at, given);
  }

  /**
   * Restores battles, with their players, to their state when the array was created: all, or those where `which`, an array with a value for
   * each, is not 0 or false. With `seeds`, ten bytes for each battle, the restored battles draw these numbers.
   */
  reset(which = null, seeds = null) {
    const {length} = which === null ? this : list(which, "which", `a list of ${this.length} values`);
    if (length !== this.length) throw new ArgumentError(`which has ${length} values, not ${this.length}`, "which");
    const given = seeds === null ? null : bytesOf(seeds, "seeds", SEED_SIZE * this.length);
    if (which === null)
      this.#restore(0, this.#first.length);
    else
      for (let at = 0; at < this.length; at++)
        if (which[at]) this.#restoreOne(at);
    if (given)
      for (let at = 0; at < this.length; at++)
        if (which === null || which[at]) reseedAt(this.#library, this.#at, at, given);
    this.#see();
  }

  // Restores one battle, with its players.
  #restoreOne(at) {
    this.#restore(at * BATTLE_SIZE, BATTLE_SIZE);
    if (this.#isWatched) this.#restore(this.#sideAt(at, 1), SIDES_SIZE);
  }

  #restore(offset, count) {
    this.#library.bytes.set(this.#first.subarray(offset, offset + count), this.#at + offset);
  }

  /** A new array with copies of the battles at these places, with their players. A place may be repeated. */
  take(places) {
    const from = Array.from(list(places, "places"), (place, at) => within(place, `places[${at}]`, 0, this.length - 1));
    if (!from.length) throw new ArgumentError("places is empty, and must have at least one place", "places");
    const [{sides}, library] = [placesOf(from.length, this.#isWatched), this.#library];
    return new BattleArray(library, from.length, (to) => {
      for (const [at, place] of from.entries()) {
        const battle = this.#at + place * BATTLE_SIZE;
        library.bytes.copyWithin(to + at * BATTLE_SIZE, battle, battle + BATTLE_SIZE);
        const pair = this.#at + this.#sideAt(place, 1);
        if (this.#isWatched) library.bytes.copyWithin(to + sides + at * SIDES_SIZE, pair, pair + SIDES_SIZE);
      }
    }, this.#isWatched);
  }

  /** Frees the memory at once. Every later call except `free` throws FreedError. */
  free() {
    if (this.#region !== null) this.#library.arena.freeRegion(this.#region);
    this.#region = null;
  }

  [Symbol.for("nodejs.util.inspect.custom")](depth, options, inspect) {
    if (this.#region === null) return "BattleArray (freed)";
    return inspected("BattleArray", {length: this.length, over: this.results.filter((result) => result & 7).length},
        options, inspect);
  }
}

if (Symbol.dispose) Object.defineProperty(BattleArray.prototype, Symbol.dispose, {value: BattleArray.prototype.free});

/** Creates `count` copies of a battle. */
export function arrayOf(library, terms) {
  const {battle, count, seeds = null, sides = null} = record(terms, "terms", "an object with battle and count", KEYS);
  if (!(battle instanceof Battle)) throw wrongType(battle, "battle", "a Battle");
  const number = within(count, "count", 1, MOST_BATTLES);
  const given = seeds === null ? null : bytesOf(seeds, "seeds", SEED_SIZE * number);
  const pair = sides === null ? null : pairOf(sides);
  const [{bytes}, {sides: first}] = [battle, placesOf(number, pair !== null)];
  return new BattleArray(library, number, (at) => {
    for (let place = 0; place < number; place++) {
      library.bytes.set(bytes, at + place * BATTLE_SIZE);
      if (given) reseedAt(library, at, place, given);
    }
    if (pair) putSides(library, pair, battle.state, at + first, number);
  }, pair !== null);
}

// Replaces the numbers of the battle at a place by the seed at the same place.
function reseedAt(library, first, place, seeds) {
  const {calls, bytes, seed, seedAt} = library;
  for (let at = 0; at < SEED_SIZE; at++) bytes[seedAt + at] = seeds[SEED_SIZE * place + at];
  calls.gen1_reseed(library.size(first + place * BATTLE_SIZE), seed, 0);
}

// Writes the players and tellers of a pair for each battle, of which the state has the terms.
function putSides(library, pair, state, at, count) {
  for (let place = 0; place < count; place++)
    for (const [side, {teller, player}] of pair.entries()) {
      const to = at + place * SIDES_SIZE + side * (PLAYER_SIZE + TELLER_SIZE);
      library.bytes.set(player.bytes, to);
      giveTerms(library.bytes, to, state);
      library.bytes.set(teller.bytes, to + PLAYER_SIZE);
    }
}
