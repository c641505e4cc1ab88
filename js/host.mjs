// A battle of two players and an audience, each of whom is sent what it may know (docs/MECHANICS.md, "Hosts").
import {BATTLE_SIZE} from "./arena.mjs";
import {choiceBytesIn, choicesIn, choiceText, formOf, FORMS, inspected, list, maskOf, octets, record, sideOf, truth, wrongType} from "./arguments.mjs";
import {Battle} from "./battle.mjs";
import {ArgumentError, HostError, LoadError} from "./errors.mjs";
import {CODES} from "./header.mjs";
import {Row} from "./row.mjs";
import {bytesOfJson, fieldOf, jsonOf, layoutOf, offsetsOf} from "./structs.mjs";
import {made} from "./update.mjs";
import {OUTCOMES, ownSideOf, REQUESTS, resultOf} from "./views.mjs";

const OPTIONS = ["exactHp", "mayCancel", "lateForfeits"];
const [HOST, TELLER] = ["gen1_host", "gen1_teller"].map(offsetsOf);

/** The bytes of a host of a battle, which is started at once if it has not begun. */
export function hostOf(library, battle, options) {
  if (!(battle instanceof Battle)) throw wrongType(battle, "battle", "a Battle");
  const given = record(options, "options", "an object with options", [...OPTIONS, "hpForm"]);
  const [exactHp, mayCancel, lateForfeits] = OPTIONS.map((name) => truth(given[name] ?? false, `options.${name}`));
  const form = formOf(given.hpForm, exactHp ? "exact" : "bar", "options.hpForm");
  library.begin();
  const host = library.roomOf("gen1_host");
  library.write(host, battle.bytes);
  library.calls.gen1_host_begin(host, form, mayCancel ? 1 : 0, lateForfeits ? 1 : 0);
  return library.read(host, layoutOf("gen1_host", library.isLong).size);
}

/** The bytes of a host that was stored, after the library's tests. */
export function storedHost(library, bytes) {
  const given = structBytes(library, "gen1_host", bytes);
  library.begin();
  return library.read(loaded(library, given, "host"), given.length);
}

// A pointer to the host with these bytes, which the library has tested.
function loaded(library, bytes, what) {
  const host = library.put(bytes);
  const code = library.calls.gen1_host_load(host);
  if (!code) return host;
  const sentence = library.sentence(code);
  throw new LoadError(`the bytes are not a ${what}: ${sentence}`, code, sentence);
}

const ROOM = offsetsOf("gen1_room");
// The byte of a choice that is missing.
const DUE = 255;

/** The bytes of a room that was stored: that of a host whose tellers have reported nothing, or such a room after a forfeit. */
export function storedRoom(library, bytes) {
  const given = structBytes(library, "gen1_room", bytes);
  const [side, view] = [given[ROOM.forfeit], new DataView(given.buffer)];
  const host = new Uint8Array(layoutOf("gen1_host", library.isLong).size);
  host.set(given);
  [host[ROOM.size], host[ROOM.size + 8]] = [1, 2];
  library.begin();
  if (side === 1 || side === 2) {
    // A forfeit discards choices, so any room before it will do.
    const {requests} = resultOf(library.calls.gen1_result(library.put(given.subarray(0, BATTLE_SIZE))));
    host.set(requests.map((request) => (request === REQUESTS[0] ? 0 : DUE)), ROOM.chosen);
    new DataView(host.buffer).setUint32(ROOM.number, view.getUint32(ROOM.number, true) - 1, true);
    host[ROOM.forfeit] = 0;
  }
  const room = loaded(library, host, "room");
  if (!host[ROOM.forfeit] && side) {
    const code = library.calls.gen1_room_forfeit(room, side);
    const made = library.read(room, given.length);
    const length = ROOM.log + made[ROOM.logLength];
    if (code || made.subarray(BATTLE_SIZE, length).some((byte, at) => byte !== given[BATTLE_SIZE + at]))
      throw new ArgumentError(`bytes is not a room: no forfeit of side ${side} leads there`, "bytes");
  }
  return library.read(room, given.length);
}

/** A copy of bytes that have the length of a struct. */
export function structBytes(library, struct, bytes) {
  const [given, {size}] = [octets(bytes, "bytes"), layoutOf(struct, library.isLong)];
  if (given.length !== size) throw new ArgumentError(`bytes has ${given.length} bytes, not ${size}`, "bytes");
  return given.slice();
}

// The fields that a message and a notice have, from their JSON.
function sentFields({number, log, draw}) {
  return {number, log, log_length: list(log, "json.log").length, draw: draw === null ? 0 : sideOf(draw, "json.draw")};
}

/** The bytes of the message with this JSON. */
export function messageBytes(json) {
  const {own, choices} = record(json, "json", "an object", ["number", "log", "own", "choices", "draw"]);
  const keys = layoutOf("gen1_own_side", false).fields.map(({name}) => name).filter((name) => name !== "count");
  const count = list(record(own, "json.own", "an object", keys).members, "json.own.members").length;
  const offered = maskOf(choices, "json.choices");
  return bytesOfJson("gen1_message", {...sentFields(json), own: {...own, count}, offered}, "json");
}

/** The bytes of the notice with this JSON. */
export function noticeBytes(json) {
  const {outcome} = record(json, "json", "an object", ["number", "log", "outcome", "draw"]);
  return bytesOfJson("gen1_notice", {...sentFields(json), outcome}, "json");
}

// The log of a struct that is sent.
function logIn(struct, bytes) {
  return fieldOf(struct, "log", bytes, false).slice(0, fieldOf(struct, "log_length", bytes, false));
}

// The bytes of a struct that is sent, after a test of the length of its log.
function sentBytes(struct, bytes) {
  const length = fieldOf(struct, "log_length", bytes, false);
  if (length > CODES.LOG_ROOM)
    throw new ArgumentError(`bytes has a log of ${length} bytes, not of at most ${CODES.LOG_ROOM}`, "bytes");
  return bytes;
}

/** The struct gen1_own_side and the mask of the choices in a message. */
export let shownIn;

/** All that a side is sent at the beginning and after each pair. */
export class Message {
  #bytes;

  static {
    shownIn = (message) => {
      if (!(message instanceof Message)) throw wrongType(message, "message", "a Message");
      const bytes = message.#bytes;
      return {own: bytes.slice(0, layoutOf("gen1_own_side", false).size), offered: message.#field("offered")};
    };
  }

  constructor(library, bytes) {
    made(library, "Message", "host.message or gen1.messageOfBytes");
    this.#bytes = sentBytes("gen1_message", bytes);
  }

  #field(name) {
    return fieldOf("gen1_message", name, this.#bytes, false);
  }

  /** A copy of its bytes, which may be sent. */
  get bytes() {
    return this.#bytes.slice();
  }

  /** The number of the current pair, for which the side now chooses. */
  get number() {
    return this.#field("number");
  }

  /** The log bytes of the last pair as they are reported to the side; at the beginning those of the start. */
  get log() {
    return logIn("gen1_message", this.#bytes);
  }

  /** What the side is shown of itself, with the outcome and what it is asked. */
  get own() {
    return ownSideOf(this.#bytes, 0);
  }

  /** The choices that the side is offered; none once the battle is over. */
  get choices() {
    return choicesIn(this.#field("offered"));
  }

  /** The side that offers a draw, or null. */
  get draw() {
    return this.#field("draw") || null;
  }

  /** All of it, as docs/HOST.schema.json says. */
  toJSON() {
    const {number, log, draw} = this;
    const {count, ...own} = jsonOf("gen1_own_side", this.#bytes);
    own.members = own.members.slice(0, count);
    return {number, log: Array.from(log), own, choices: choiceBytesIn(this.#field("offered")), draw};
  }

  [Symbol.for("nodejs.util.inspect.custom")](depth, options, inspect) {
    const {number, choices, draw} = this;
    return inspected("Message", {number, choices, draw}, options, inspect);
  }
}

/** All that the audience is sent at the beginning and after each pair. */
export class Notice {
  #bytes;

  constructor(library, bytes) {
    made(library, "Notice", "host.notice or gen1.noticeOfBytes");
    this.#bytes = sentBytes("gen1_notice", bytes);
  }

  #field(name) {
    return fieldOf("gen1_notice", name, this.#bytes, false);
  }

  /** A copy of its bytes, which may be sent. */
  get bytes() {
    return this.#bytes.slice();
  }

  /** The number of the current pair. */
  get number() {
    return this.#field("number");
  }

  /** The log bytes of the last pair as they are reported to the audience; at the beginning those of the start. */
  get log() {
    return logIn("gen1_notice", this.#bytes);
  }

  get outcome() {
    return OUTCOMES[this.#field("outcome")];
  }

  /** The side that offers a draw, or null. */
  get draw() {
    return this.#field("draw") || null;
  }

  /** All of it, as docs/HOST.schema.json says. */
  toJSON() {
    const {number, log, draw} = this;
    return {number, log: Array.from(log), outcome: this.#field("outcome"), draw};
  }

  [Symbol.for("nodejs.util.inspect.custom")](depth, options, inspect) {
    const {number, outcome, draw} = this;
    return inspected("Notice", {number, outcome, draw}, options, inspect);
  }
}

/** A host: a battle, the choices for the current pair, and what was reported to each side. Pairs are numbered from 0. */
export class Host {
  #library;
  #bytes;

  constructor(library, bytes) {
    this.#library = made(library, "Host", "gen1.host");
    this.#bytes = bytes;
  }

  // The host's pointer in the module's memory.
  #put() {
    this.#library.begin();
    return this.#library.put(this.#bytes);
  }

  /** A copy of its bytes, which hold both teams and what was chosen, so they must not be sent. */
  get bytes() {
    return this.#bytes.slice();
  }

  /** A copy of the battle. It has both teams and the numbers to be drawn, so it must not be sent. */
  get battle() {
    return new Battle(this.#library, this.#library.blockOf(this.#put()));
  }

  /** The number of the current pair: how many have ended. */
  get number() {
    return this.#library.calls.gen1_host_number(this.#put()) >>> 0;
  }

  /** The form in which HP of a foe is reported. */
  get hpForm() {
    return FORMS[this.#bytes[HOST.one + TELLER.pixels]];
  }

  /** The outcome so far, and the request to each side. */
  get result() {
    return resultOf(this.#library.calls.gen1_host_result(this.#put()));
  }

  /** Whether nothing more can happen: the battle is over, a side has forfeited, or both have agreed on a draw. */
  get isClosed() {
    return this.result.outcome !== "ongoing";
  }

  /** Whether a side's choice is missing. It is for the host: only the side itself may learn it. */
  awaits(side) {
    return (this.#library.calls.gen1_host_awaited(this.#put()) & sideOf(side)) !== 0;
  }

  /** An independent copy. */
  clone() {
    return new Host(this.#library, this.#bytes.slice());
  }

  /** All that a side is to be sent now. */
  message(side) {
    const [library, given, host] = [this.#library, sideOf(side), this.#put()];
    const message = library.roomOf("gen1_message");
    library.calls.gen1_host_message(host, given, message);
    return new Message(library, library.read(message, layoutOf("gen1_message", library.isLong).size));
  }

  /** All that the audience is to be sent now. */
  notice() {
    const [library, host] = [this.#library, this.#put()];
    const notice = library.roomOf("gen1_notice");
    library.calls.gen1_host_notice(host, notice);
    return new Notice(library, library.read(notice, layoutOf("gen1_notice", library.isLong).size));
  }

  /** Does what a row says. Returns true if that has ended a pair or the battle, false if the host keeps it. */
  apply(row) {
    if (!(row instanceof Row)) throw wrongType(row, "row", "a Row");
    const [library, before, host] = [this.#library, this.number, this.#put()];
    const given = library.roomOf("gen1_row");
    library.write(given, row.bytes);
    const code = library.calls.gen1_host_apply(host, given);
    if (code) throw this.#refused(code, row);
    this.#bytes = library.read(host, this.#bytes.length);
    return this.number !== before;
  }

  /** Submits a side's choice for the pair with this number. The numbers are as those of `Row.submit`. */
  submit(side, number, choice, numbers) {
    return this.apply(Row.submit(side, number, choice, numbers));
  }

  /** Takes a side's choice for the pair with this number back. */
  cancel(side, number) {
    return this.apply(Row.cancel(side, number));
  }

  /** Ends a side's time for the pair with this number: it forfeits, or its first choice is made, as the options say. */
  expire(side, number, numbers) {
    return this.apply(Row.expire(side, number, numbers));
  }

  /** Offers a draw, or accepts the other side's offer. An offer ends with the pair. */
  offerDraw(side) {
    return this.apply(Row.offerDraw(side));
  }

  /** Ends the battle: the other side wins. */
  forfeit(side) {
    return this.apply(Row.forfeit(side));
  }

  #refused(code, row) {
    const [sentence, current, {side, number, choice}] = [this.#library.sentence(code), this.number, row];
    const {outcome} = this.result;
    const more = {
      [CODES.ERROR_OVER]: () => `: ${outcome}`,
      [CODES.ERROR_STALE]: () => `: ${number}; the current pair is ${current}`,
      [CODES.ERROR_NOT_OFFERED]: () => `: ${choiceText(choice)}`,
    }[code];
    return new HostError(
        `side ${side}: ${sentence}${more ? more() : ""}`, code, {side, number, current, reason: sentence});
  }

  /** The number of the current pair and the result. */
  toJSON() {
    return {number: this.number, result: this.result};
  }

  [Symbol.for("nodejs.util.inspect.custom")](depth, options, inspect) {
    return inspected("Host", {number: this.number, ...this.result}, options, inspect);
  }
}
