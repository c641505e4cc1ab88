// What happens at a host, as values of 18 bytes that can be stored (docs/MECHANICS.md, "Hosts").
import {choiceByte, freshNumbers, inspected, octets, record, seedOf, shown, sideOf, whole, within, wrongType} from "./arguments.mjs";
import {ArgumentError, ArgumentTypeError} from "./errors.mjs";

/** The kinds of rows. The number of each, in the first byte, is one more than its index. */
export const ROW_KINDS = Object.freeze(["submit", "cancel", "expire", "draw", "forfeit"]);
export const ROW_SIZE = 18;
const [CHOICE_AT, HAS_NUMBERS_AT, NUMBER_AT, NUMBERS_AT] = [2, 3, 4, 8];
const MOST_NUMBER = 2 ** 32 - 1;
const FIELDS = ["kind", "side", "number", "choice", "numbers"];
// The key that lets this file alone call the constructor.
const OWN = Symbol("row");

/** A row: a choice, one that is taken back, time that has run out, an offer of a draw, or a forfeit. */
export class Row {
  #bytes;

  constructor(key, bytes) {
    if (key !== OWN) throw new ArgumentTypeError("a Row is created by Row.submit and the like, not by new", "key");
    this.#bytes = bytes;
  }

  static #of(kind, side, number = 0, choice = 0, numbers = null) {
    const bytes = new Uint8Array(ROW_SIZE);
    bytes.set([ROW_KINDS.indexOf(kind) + 1, sideOf(side), choice, numbers === null ? 0 : 1]);
    new DataView(bytes.buffer).setUint32(NUMBER_AT, within(number, "number", 0, MOST_NUMBER), true);
    if (numbers !== null) bytes.set(seedOf(numbers), NUMBERS_AT);
    return new Row(OWN, bytes);
  }

  /**
   * A side's choice for the pair with this number. The battle draws the ten numbers from then on: fresh ones of `crypto.getRandomValues` if they
   * are left out, and none, so that it draws on, if they are null.
   */
  static submit(side, number, choice, numbers = freshNumbers("numbers")) {
    return Row.#of("submit", side, number, choiceByte(choice, side), numbers);
  }

  /** A side takes its choice for the pair with this number back. */
  static cancel(side, number) {
    return Row.#of("cancel", side, number);
  }

  /** A side's time for the pair with this number has run out. The numbers are as those of `submit`. */
  static expire(side, number, numbers = freshNumbers("numbers")) {
    return Row.#of("expire", side, number, 0, numbers);
  }

  /** A side offers a draw, or accepts the other side's offer. */
  static offerDraw(side) {
    return Row.#of("draw", side);
  }

  /** A side forfeits. */
  static forfeit(side) {
    return Row.#of("forfeit", side);
  }

  /** The row of 18 bytes that `bytes` returned. */
  static ofBytes(bytes) {
    const given = octets(bytes, "bytes");
    if (given.length !== ROW_SIZE) throw new ArgumentError(`bytes has ${given.length} bytes, not ${ROW_SIZE}`, "bytes");
    const row = new Row(OWN, given.slice());
    const [kind, side] = [row.kind, row.side];
    const isRow = kind !== undefined && (side === 1 || side === 2) &&
        Row.#of(kind, side, row.number, row.choice, row.numbers).#bytes.every((byte, at) => byte === given[at]) &&
        row.#hasOnlyItsOwn();
    if (!isRow)
      throw new ArgumentError("bytes is not a row: its kind is 1 to 5, its side 1 or 2, what it lacks 0", "bytes");
    return row;
  }

  // Whether the fields that its kind does not have are 0.
  #hasOnlyItsOwn() {
    const {kind, choice, number, numbers} = this;
    const hasNumbers = kind === "submit" || kind === "expire";
    return (kind === "submit" || choice === 0) && (hasNumbers || numbers === null) &&
        (hasNumbers || kind === "cancel" || number === 0);
  }

  /** The row with this JSON. */
  static ofJSON(json) {
    const {kind, side, number, choice, numbers} = record(json, "json", "an object", FIELDS);
    if (!ROW_KINDS.includes(kind))
      throw new ArgumentError(`json.kind is ${shown(kind)}, not ${ROW_KINDS.join(", ")}`, "json.kind");
    if (numbers === undefined) throw wrongType(numbers, "json.numbers", "ten numbers or null");
    const byte = within(choice, "json.choice", 0, 255);
    return Row.ofBytes(Row.#of(kind, side, whole(number, "json.number"), byte, numbers).#bytes);
  }

  /** A copy of its 18 bytes: kind, side, choice, 1 if it has numbers, the number of the pair in four, lowest first, and the ten numbers. */
  get bytes() {
    return this.#bytes.slice();
  }

  /** One of ROW_KINDS. */
  get kind() {
    return ROW_KINDS[this.#bytes[0] - 1];
  }

  get side() {
    return this.#bytes[1];
  }

  /** The byte of the choice; 0 unless it submits one. */
  get choice() {
    return this.#bytes[CHOICE_AT];
  }

  /** The number of the pair; 0 for an offer of a draw and a forfeit. */
  get number() {
    return new DataView(this.#bytes.buffer).getUint32(NUMBER_AT, true);
  }

  /** The ten numbers that the battle draws from then on, or null. */
  get numbers() {
    return this.#bytes[HAS_NUMBERS_AT] ? this.#bytes.slice(NUMBERS_AT) : null;
  }

  /** Its fields, as docs/HOST.schema.json says. */
  toJSON() {
    const {kind, side, number, choice, numbers} = this;
    return {kind, side, number, choice, numbers: numbers && Array.from(numbers)};
  }

  [Symbol.for("nodejs.util.inspect.custom")](depth, options, inspect) {
    return inspected("Row", this.toJSON(), options, inspect);
  }
}
