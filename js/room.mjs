// A battle of two players who choose independently (docs/MECHANICS.md, "Rooms").
import {BATTLE_SIZE} from "./arena.mjs";
import {choiceByte, choiceOf, inspected, seedFor, sideOf, within, wrongType} from "./arguments.mjs";
import {Battle, notOffered, putSeed} from "./battle.mjs";
import {RoomError} from "./errors.mjs";
import {CODES} from "./header.mjs";
import {fieldOf, layoutOf} from "./structs.mjs";
import {made, Update} from "./update.mjs";
import {resultOf} from "./views.mjs";

const MOST_CHOICES = 9;
const MOST_NUMBER = 2 ** 32 - 1;

/** The bytes of a room of a battle, which is started at once if it has not begun. */
export function roomOf(library, battle) {
  if (!(battle instanceof Battle)) throw wrongType(battle, "battle", "a Battle");
  library.begin();
  const room = library.roomOf("gen1_room");
  library.write(room, battle.bytes);
  library.calls.gen1_room_begin(room);
  return library.read(room, layoutOf("gen1_room", library.isLong).size);
}

/** A room keeps the first choice of a pair until the other one is submitted, and then updates the battle. Pairs are numbered from 0. */
export class Room {
  #library;
  #bytes;

  constructor(library, bytes) {
    this.#library = made(library, "Room", "gen1.room");
    this.#bytes = bytes;
  }

  /** A copy of the bytes of its gen1_room (include/gen1.h), which must not be sent. */
  get bytes() {
    return this.#bytes.slice();
  }

  #field(name) {
    return fieldOf("gen1_room", name, this.#bytes, this.#library.isLong);
  }

  /** A copy of the battle. It includes information that the players must not see. */
  get battle() {
    return new Battle(this.#library, this.#library.blockOf(this.#put()));
  }

  /** The outcome so far, and the request to each side. */
  get result() {
    return resultOf(this.#result);
  }

  get #result() {
    return this.#library.calls.gen1_room_result(this.#put());
  }

  /** The side that has forfeited, or null. */
  get forfeited() {
    return this.#field("forfeit") || null;
  }

  /** The number of the current pair of choices: how many pairs have ended. */
  get number() {
    return this.#field("number");
  }

  /** The log bytes of the last pair that ended; before the first, those of the start, if the room started the battle. */
  get log() {
    return this.#field("log").slice(0, this.#field("log_length"));
  }

  /** An independent copy with the same battle, number, log and choices. */
  clone() {
    return new Room(this.#library, this.#bytes.slice());
  }

  #put() {
    this.#library.begin();
    return this.#library.put(this.#bytes);
  }

  /** The choices that a side may submit for the current pair; none if it has chosen, or the battle is over. */
  choices(side) {
    const [room, choices] = [this.#put(), this.#library.room(MOST_CHOICES)];
    const count = this.#library.calls.gen1_room_choices(room, sideOf(side), choices);
    return Array.from(this.#library.read(choices, count), choiceOf);
  }

  /** Submits a side's choice for the pair with this number. Returns the update, or null if the room waits for the foe's choice. */
  submit(side, number, choice) {
    const asked = [sideOf(side), within(number, "number", 0, MOST_NUMBER), choiceByte(choice, side)];
    const [before, room] = [this.number, this.#put()];
    const code = this.#library.calls.gen1_room_submit(room, ...asked);
    if (code) throw this.#refused(code, ...asked);
    this.#bytes = this.#library.read(room, this.#bytes.length);
    const {log} = this;
    return this.number === before ? null : new Update(this.#library, this.#result, log, 0, log.length);
  }

  /** Replaces the ten numbers that the battle draws, and changes nothing else: a choice that was submitted stays. */
  reseed(seed) {
    const [numbers, room] = [seedFor(this.#library, seed), this.#put()];
    this.#library.calls.gen1_reseed(room, putSeed(this.#library, numbers), 0);
    this.#bytes = this.#library.read(room, this.#bytes.length);
  }

  /** Ends the battle: the other side wins. The update has the single event "win". The bytes of `battle` do not change. */
  forfeit(side) {
    const [given, number, room] = [sideOf(side), this.number, this.#put()];
    const code = this.#library.calls.gen1_room_forfeit(room, given);
    if (code) throw this.#refused(code, given, number, null);
    this.#bytes = this.#library.read(room, this.#bytes.length);
    const {log} = this;
    return new Update(this.#library, this.#result, log, 0, log.length);
  }

  #refused(code, side, number, choice) {
    const [offered, current, sentence] = [this.choices(side), this.number, this.#library.sentence(code)];
    const said = {
      [CODES.ERROR_OVER]: () => `${sentence}: ${this.result.outcome}`,
      [CODES.ERROR_STALE]: () => `${sentence}: ${number}; the current pair is ${current}`,
      [CODES.ERROR_CHOSEN]: () => `${sentence}: side ${side} can submit nothing more for pair ${number}`,
      [CODES.ERROR_NOT_OFFERED]: () => `side ${side}: ${notOffered(sentence, choice, offered)}`,
    }[code]();
    return new RoomError(said, code, {side, choice, offered, number, current, reason: sentence});
  }

  /** The number, the result, and the log of the last pair as an array of bytes. The battle, which the players must not see, is not in it. */
  toJSON() {
    return {number: this.number, result: this.result, log: Array.from(this.log)};
  }

  [Symbol.for("nodejs.util.inspect.custom")](depth, options, inspect) {
    return inspected("Room", {number: this.number, ...this.result}, options, inspect);
  }
}
