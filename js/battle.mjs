// A battle: 384 bytes in the module's memory.
import {BATTLE_SIZE} from "./arena.mjs";
import {byteOfName, byteOr255, choiceByte, choiceOf, choicesIn, choiceText, inspected, nearest, object, playoutSeed, record, seedFor, shown, sideOf, text, truth, whole, within, wrongType} from "./arguments.mjs";
import {ArgumentError, DamageError, FreedError, LoadError, RefusedError} from "./errors.mjs";
import {blockOfGuess} from "./guesses.mjs";
import {CODES} from "./header.mjs";
import {outcomeOptions, outcomesOf} from "./outcomes.mjs";
import {libraryOf} from "./players.mjs";
import {blockOfState, indexOf, isState, memberAt} from "./states.mjs";
import {MOVES, SPECIES} from "./tables.mjs";
import {bytesOf, moveOf, Team, teamAt, teamError, teamGiven} from "./teams.mjs";
import {made, Update} from "./update.mjs";
import {actionOddsOf, chancesOf, oddsOf, ownSideOf, resultOf, stateOf, STATS, STATUSES, threeChancesOf} from "./views.mjs";

const FACTORS = 39;
const TERMS_KEYS = ["one", "two", "seed", "rules", "limit"];
const PLAYOUT_KEYS = ["depth", "weights"];

/** The error text for a choice that is not offered, a byte or words. */
export function notOffered(sentence, choice, offered) {
  const text = typeof choice === "string" ? shown(choice) : choiceText(choice);
  return `${sentence}: ${text}; offered: ${offered.join(", ")}`;
}

// The error for words that name no choice: what is lawful, and the nearest name.
function wordsError(words, what) {
  const [, verb, name] = /^\s*(move\b|switch\b)?\s*(.*)$/is.exec(words);
  const near = nearest(name, verb?.toLowerCase() === "switch" ? SPECIES : MOVES, Math.floor(name.length / 3));
  const lawful = "pass, move 0 to 4, switch 1 to 6, or names as in \"Body Slam\" and \"switch Gengar\"";
  const meant = near ? `; did you mean ${shown(near)}?` : "";
  return new ArgumentError(`${what}: ${shown(words)} is not a choice: ${lawful}${meant}`, what);
}

/** Writes the bytes of a seed into the module's memory. */
export function putSeed(library, seed) {
  const {bytes, seedAt} = library;
  for (let at = 0; at < seed.length; at++) bytes[seedAt + at] = seed[at];
  return library.seed;
}

/** A block with a new battle of two teams. */
export function blockOfTerms(library, terms) {
  const {one, two, seed, rules = 0, limit = 1000} =
      record(terms, "terms", "an object with one, two and seed", TERMS_KEYS);
  const [first, second] = [teamGiven(library, one, "one"), teamGiven(library, two, "two")];
  const [given, clauses, last] =
      [seedFor(library, seed), byteOr255(rules, "rules"), Math.min(Math.max(whole(limit, "limit"), 0), 65535)];
  library.begin();
  const [teamOne, teamTwo, block] = [teamAt(library, first), teamAt(library, second), library.arena.block()];
  const answer = library.calls.gen1_new(block.pointer, teamOne, teamTwo, putSeed(library, given), clauses, last);
  if (!answer) return block;
  library.arena.free(block);
  throw teamError(library, answer, [one, two], {rules, limit});
}

/**
 * A battle. `update` changes it in place; `clone` copies it. Its bytes are in the module's memory until `free` is called, or until the garbage
 * collector finds that it is unused.
 */
export class Battle {
  #library;
  #block;

  constructor(library, block) {
    this.#library = made(library, "Battle", "gen1.battle or gen1.load");
    this.#block = block;
  }

  /**
   * A battle that fits a player's knowledge, with a guess of the rest: the base of a search that doesn't cheat.
   *
   * `guess` has the foe's team, first the members that have appeared, in the order in which they did, then the others; and the seed of the
   * numbers to draw. The player's own side is as it was shown, the foe's as the log made it public, with the moves and stats of the guess.
   * Hidden counts have middle values (docs/MECHANICS.md, "A battle that fits").
   */
  static fromPlayer(player, guess) {
    const library = libraryOf(player);
    return new Battle(library, blockOfGuess(library, player, guess));
  }

  // The battle's pointer in the module's memory.
  get #at() {
    const block = this.#block;
    if (block === null) throw new FreedError("the battle was freed");
    return block.pointer;
  }

  // The battle's pointer, as the first argument of a call that also needs other space.
  #begin() {
    this.#library.begin();
    return this.#at;
  }

  /** A copy of the battle's 384 bytes, which are its whole state (docs/LAYOUT.md). */
  get bytes() {
    return this.#library.read(this.#at, BATTLE_SIZE);
  }

  /** An independent copy. It draws the same numbers unless it is reseeded. */
  clone() {
    return new Battle(this.#library, this.#library.blockOf(this.#at));
  }

  /** Becomes a copy of another battle. */
  copyFrom(battle) {
    if (!(battle instanceof Battle)) throw wrongType(battle, "battle", "a Battle");
    const to = Number(this.#at);
    const from = Number(battle.#at);
    if (battle.#library === this.#library)
      this.#library.bytes.copyWithin(to, from, from + BATTLE_SIZE);
    else
      this.#library.bytes.set(battle.bytes, to);
  }

  /** Frees the battle's memory at once. Every later call of this battle, except `free`, throws FreedError. */
  free() {
    if (this.#block !== null) this.#library.arena.free(this.#block);
    this.#block = null;
  }

  /** The outcome so far, and the request to each side. */
  get result() {
    return resultOf(this.#library.calls.gen1_result(this.#at));
  }

  get isOver() {
    return this.result.outcome !== "ongoing";
  }

  /** The whole state as an object with named fields. */
  get state() {
    const [battle, state] = [this.#begin(), this.#library.roomOf("gen1_state")];
    this.#library.calls.gen1_get_state(battle, state);
    return stateOf(this.#library.bytes, Number(state));
  }

  /** A side as it is shown to its own player. */
  ownSide(side) {
    const [battle, own] = [this.#begin(), this.#library.roomOf("gen1_own_side")];
    this.#library.calls.gen1_get_own_side(battle, sideOf(side), own);
    return ownSideOf(this.#library.bytes, Number(own));
  }

  /** A copy of this battle with the state as `change` changed it, or with the state that it returned. `change` is passed a copy of the state. */
  withState(change) {
    if (typeof change !== "function") throw wrongType(change, "change", "a function that changes a state");
    const {state} = this;
    const returned = change(state);
    if (typeof returned?.then === "function") throw wrongType(change, "change", "a function that returns no promise");
    return new Battle(this.#library, blockOfState(this.#library, isState(returned) ? returned : state));
  }

  /** A copy of this battle with other HP of a member. */
  withHp(side, place, hp) {
    const given = whole(hp, "hp");
    return this.withState((state) => {
      memberAt(state, sideOf(side), place).hp = given;
    });
  }

  /** A copy with another status of a member; a sleep lasts `turns`. If the member is active, its current stats are recomputed. */
  withStatus(side, place, status, turns = 0) {
    indexOf(STATUSES, status, "status");
    const sleep = status === "sleep" ? whole(turns, "turns") : 0;
    return this.withState((state) => {
      Object.assign(memberAt(state, sideOf(side), place), {status, sleep, marked: false});
      const {active} = side === 1 ? state.one : state.two;
      if (active?.place === place) active.stats = [0, 0, 0, 0];
    });
  }

  /** A copy of this battle with another stage of the active member, whose current stats are recomputed. */
  withStage(side, stat, stage) {
    const [at, given] = [indexOf(STATS, stat, "stat"), whole(stage, "stage")];
    return this.withState((state) => {
      const {active} = sideOf(side) === 1 ? state.one : state.two;
      if (!active)
        throw new ArgumentError(
            `side is ${side}, which has no active member: the battle is before its first update`, "side");
      active.stages[at] = given;
      active.stats = [0, 0, 0, 0];
    });
  }

  /** The choices that a side, 1 or 2, is offered; none if the battle is over. */
  choices(side) {
    return choicesIn(this.#library.calls.gen1_offered(this.#at, sideOf(side)));
  }

  /** The offered choices as a mask, whose bit N is for CHOICES[N]. */
  offeredMask(side) {
    return this.#library.calls.gen1_offered(this.#at, sideOf(side));
  }

  /** The choice of a side that words say: "Body Slam", "move 2", "switch Gengar". A name is looked for among the offered choices. */
  choiceFromWords(side, words) {
    return choiceOf(this.#byteOfWords(text(words, "words"), sideOf(side)));
  }

  // The byte of a side's choice, which may be words.
  #byteOf(choice, side) {
    const byte = byteOfName(choice);
    if (byte !== undefined) return byte;
    return typeof choice === "string" ? this.#byteOfWords(choice, side) : choiceByte(choice, side);
  }

  #byteOfWords(words, side) {
    const [library, battle, what] = [this.#library, this.#begin(), `side ${side}'s choice`];
    const [given, found] = [new TextEncoder().encode(words), library.room(1)];
    const size = library.size(given.length);
    const code = library.calls.gen1_choice_from_words(battle, side, library.put(given), size, found);
    if (!code) return library.bytes[Number(found)];
    if (code === CODES.ERROR_WORDS) throw wordsError(words, what);
    const offered = this.choices(side).map((choice) => this.words(side, choice));
    if (code === CODES.ERROR_AMBIGUOUS)
      throw new ArgumentError(`${what}: ${notOffered(library.sentence(code), words, offered)}`, what);
    if (this.isOver) throw this.#refused(CODES.ERROR_OVER, [words, words]);
    throw this.#refused(CODES[side === 1 ? "ERROR_NOT_OFFERED_ONE" : "ERROR_NOT_OFFERED_TWO"], [words, words]);
  }

  /** A choice of a side in words, such as "move 2 Body Slam". It need not be offered. */
  words(side, choice) {
    const byte = this.#byteOf(choice, sideOf(side));
    const [code, text] = this.#library.written("gen1_choice_words", CODES.WORDS_ROOM, this.#begin(), side, byte);
    if (!code) return text;
    const what = `side ${side}'s choice`;
    throw new ArgumentError(`${what}: ${this.#library.sentence(code)}: ${choiceText(byte)}`, what);
  }

  /** Updates the battle with a choice of each side, and returns the result and the log. */
  update(one, two) {
    const first = this.#byteOf(one, 1);
    const second = this.#byteOf(two, 2);
    const library = this.#library;
    const battle = this.#at;
    const code =
        library.calls.gen1_update(battle, first, second, library.log, library.size(CODES.LOG_ROOM), library.length);
    if (code) throw this.#refused(code, [first, second]);
    return new Update(
        library, library.calls.gen1_result(battle), library.bytes, library.logAt, library.sizeAt(library.length));
  }

  /** Like `update`, but without a log, which is faster. Returns the result. */
  updateSilent(one, two) {
    const first = this.#byteOf(one, 1);
    const second = this.#byteOf(two, 2);
    const {calls} = this.#library;
    const battle = this.#at;
    const code = calls.gen1_update_silent(battle, first, second);
    if (code) throw this.#refused(code, [first, second]);
    return resultOf(calls.gen1_result(battle));
  }

  #refused(code, pair) {
    const sentence = this.#library.sentence(code);
    if (code === CODES.ERROR_OVER)
      return new RefusedError(`${sentence}: ${this.result.outcome}`, code, {reason: sentence});
    const side = code === CODES.ERROR_NOT_OFFERED_ONE ? 1 : 2;
    const [given, offered] = [pair[side - 1], this.choices(side)];
    const choice = typeof given === "string" ? null : given;
    return new RefusedError(notOffered(sentence, given, offered), code, {side, choice, offered, reason: sentence});
  }

  /** Replaces the numbers to draw: ten bytes, and the index, 0 to 8, of the byte that is drawn next. */
  reseed(seed, index = 0) {
    const numbers = seedFor(this.#library, seed);
    const place = whole(index, "index");
    const code = this.#library.calls.gen1_reseed(
        this.#at, putSeed(this.#library, numbers), place >= 0 && place <= 255 ? place : 255);
    if (code) throw new ArgumentError(`${this.#library.sentence(code)}: index is ${place}`, "index");
  }

  /** Plays `rounds` copies with random choices, to their end or to a depth, and counts how they end. The battle is unchanged. */
  playout(seed, rounds, options = {}) {
    const bytes = playoutOptions(this.#library, playoutSeed(seed), rounds, options);
    const [battle, given, counts] = [this.#begin(), this.#library.put(bytes), this.#library.roomOf("gen1_playouts")];
    const code = this.#library.calls.gen1_playout(battle, given, counts);
    if (code) throw loadError(this.#library, code, BATTLE_SIZE);
    return this.#library.readStruct("gen1_playouts", counts);
  }

  /** All battles that an update by a choice of each side can lead to, with their exact probabilities. The battle is unchanged. */
  outcomes(one, two, options = {}) {
    const pair = [this.#byteOf(one, 1), this.#byteOf(two, 2)];
    const given = outcomeOptions(this.#library, options);
    const battle = this.#begin();
    const asked = [...pair, this.#library.put(given)];
    const [code, found] = outcomesOf(this.#library, battle, asked, (block) => new Battle(this.#library, block));
    if (code) throw this.#refused(code, pair);
    return found;
  }

  /** The odds of a side's move in the current state: its damage, and its chances of a hit and of a critical hit. */
  odds(side, move) {
    const number = moveOf(this.#library, move);
    const [battle, odds] = [this.#begin(), this.#library.roomOf("gen1_odds")];
    const code = this.#library.calls.gen1_odds_now(battle, sideOf(side), number, odds);
    if (code) throw damageError(this.#library, code, move);
    return oddsOf(this.#library, number, odds);
  }

  /** The odds of the action by which a side uses a move in the turn that begins: that its member acts, and that the move then hits. */
  actionOdds(side, move) {
    const number = moveOf(this.#library, move);
    const [battle, odds] = [this.#begin(), this.#library.roomOf("gen1_action_odds")];
    const code = this.#library.calls.gen1_action_odds_now(battle, sideOf(side), number, odds);
    if (code) throw damageError(this.#library, code, move);
    return actionOddsOf(this.#library.readStruct("gen1_action_odds", odds));
  }

  /** The chances that a side's move knocks out the foe's active member, in one use and in two. */
  knockOut(side, move) {
    const number = moveOf(this.#library, move);
    const [battle, chances] = [this.#begin(), this.#library.roomOf("gen1_chances")];
    const code = this.#library.calls.gen1_knock_out(battle, sideOf(side), number, chances);
    if (code) throw damageError(this.#library, code, move);
    return chancesOf(this.#library.readStruct("gen1_chances", chances));
  }

  /** The chances that a side's move knocks out the foe in one use, two and three, with the changes of the foe's HP between them. */
  knockOutInThree(side, move, between = {}) {
    const number = moveOf(this.#library, move);
    const given = betweenUses(this.#library, between);
    const [battle, changes, chances] =
        [this.#begin(), this.#library.put(given), this.#library.roomOf("gen1_three_chances")];
    const code = this.#library.calls.gen1_knock_out_in_three(battle, sideOf(side), number, changes, chances);
    if (code) throw damageError(this.#library, code, move);
    return threeChancesOf(this.#library.readStruct("gen1_three_chances", chances));
  }

  /** The damage of a side's move in the current state, at each factor from 217 to 255. */
  damage(side, move, critical = false) {
    const number = moveOf(this.#library, move);
    const [battle, numbers] = [this.#begin(), this.#library.room(2 * FACTORS)];
    const code =
        this.#library.calls.gen1_damage(battle, sideOf(side), number, truth(critical, "critical") ? 1 : 0, numbers);
    if (code) throw damageError(this.#library, code, move);
    return Array.from(new Uint16Array(this.#library.read(numbers, 2 * FACTORS).buffer));
  }

  /** The state, from which `gen1.battleOfState` creates the battle. */
  toJSON() {
    return this.state;
  }

  [Symbol.for("nodejs.util.inspect.custom")](depth, options, inspect) {
    if (this.#block === null) return "Battle (freed)";
    const {turn, outcome, one, two} = this.state;
    const out = ({members, active}) => (active ? shownMember(members[active.place - 1]) : "nobody");
    return inspected("Battle", {turn, outcome, one: out(one), two: out(two)}, options, inspect);
  }
}

// Node before 20 and some browsers have no Symbol.dispose.
if (Symbol.dispose) Object.defineProperty(Battle.prototype, Symbol.dispose, {value: Battle.prototype.free});

const shownMember = ({species, hp, maxHp, status}) =>
    `${species} ${hp}/${maxHp}${status === "none" ? "" : ` ${status}`}`;

/** The bytes of gen1_playout_options. */
export function playoutOptions(library, seed, rounds, given) {
  const {depth, weights} = record(given, "options", "an object with options", PLAYOUT_KEYS);
  const options = {seed, rounds: within(rounds, "rounds", 0, 2 ** 32 - 1)};
  if (depth !== undefined) options.depth = within(depth, "depth", 1, 2 ** 32 - 1);
  if (weights !== undefined) options.weights = weightsOf(library, weights);
  return bytesOf("gen1_playout_options", library.isLong, options);
}

// The weight of a switch, then that of each move by its number.
function weightsOf(library, given) {
  const {
    switch: ofSwitch = 1, move = 1, ...moves
  }
  = object(given, "weights", "an object of moves and their weights");
  const table =
      [within(ofSwitch, "weights.switch", 0, 255), ...Array(MOVES.length).fill(within(move, "weights.move", 0, 255))];
  for (const [name, weight] of Object.entries(moves))
    table[moveOf(library, name, "weights")] = within(weight, `weights[${shown(name)}]`, 0, 255);
  return table;
}

/** The bytes of a gen1_between. Changes that are left out are 0. */
function betweenUses(library, between) {
  const {afterFirst, afterSecond} =
      record(between, "between", "an object with afterFirst and afterSecond", ["afterFirst", "afterSecond"]);
  const change = (it, what) => {
    const {gained = 0, lost = 0} = record(it, what, "an object with gained and lost", ["gained", "lost"]);
    return {gained: within(gained, `${what}.gained`, 0, 65535), lost: within(lost, `${what}.lost`, 0, 65535)};
  };
  const changes = {
    afterFirst: change(afterFirst ?? {}, "between.afterFirst"),
    afterSecond: change(afterSecond ?? {}, "between.afterSecond")
  };
  return bytesOf("gen1_between", library.isLong, changes);
}

/** The error for a move without damage numbers. */
export function damageError(library, code, move) {
  const sentence = library.sentence(code);
  return new DamageError(`no damage of ${shown(move)}: ${sentence}`, code, sentence);
}

/** The error for `count` bytes that are not a battle. */
export function loadError(library, code, count) {
  const was = code === CODES.ERROR_LOAD_LENGTH ? `: there are ${count}` : "";
  const sentence = library.sentence(code);
  return new LoadError(`the bytes are not a battle: test ${code - CODES.ERROR_LOAD_LENGTH + 1} of 7 fails: ${sentence}${
                           was} (docs/LAYOUT.md, "Loading")`,
      code, sentence);
}
