// Checks and converts the caller's arguments before the library is called, whose numbers are bytes. Each error names the valid values.
import {ArgumentError, ArgumentTypeError} from "./errors.mjs";

/** The choices in the order of their bits in a mask (include/gen1.h, GEN1_CHOICE_BIT), which is also the order of their bytes. */
export const CHOICES = Object.freeze([
  "pass", "move 0", "move 1", "move 2", "move 3", "move 4", "switch 1", "switch 2", "switch 3", "switch 4", "switch 5",
  "switch 6"
]);
const BYTES = CHOICES.map((_, bit) => (bit === 0 ? 0 : bit < 6 ? bit + 0x0f : bit + 0x1b));
const BYTE_OF_NAME = new Map(BYTES.map((byte, bit) => [CHOICES[bit], byte]));
const NAME_OF_BYTE = new Map(BYTES.map((byte, bit) => [byte, CHOICES[bit]]));
const MOST_SHOWN = 60;

/** A value as text for an error message. */
export function shown(value) {
  if (typeof value === "function" || typeof value === "symbol") return `a ${typeof value}`;
  let text;
  try {
    const isJson = typeof value === "object" || typeof value === "string";
    text = typeof value === "bigint" ? `${value}n` : isJson ? JSON.stringify(value) : String(value);
  } catch {
    text = Object.prototype.toString.call(value);
  }
  return text.length > MOST_SHOWN ? `${text.slice(0, MOST_SHOWN)}..` : text;
}

/** A name and fields, as console.log and util.inspect show an object of a class in Node. */
export function inspected(name, fields, options, inspect) {
  return `${name} ${inspect ? inspect(fields, options) : JSON.stringify(fields)}`;
}

/** The error for an argument of the wrong type. */
export function wrongType(value, what, lawful) {
  return new ArgumentTypeError(`${what} is ${shown(value)}, not ${lawful}`, what);
}

/** A whole number of any size. */
export function whole(value, what) {
  if (!Number.isInteger(value)) throw wrongType(value, what, "a whole number");
  return value;
}

/** A whole number from `least` to `most`. */
export function within(value, what, least, most) {
  if (whole(value, what) < least || value > most)
    throw new ArgumentError(`${what} is ${value}, not ${least} to ${most}`, what);
  return value;
}

/** A number from 0 to 1. */
export function probability(value, what) {
  if (typeof value !== "number") throw wrongType(value, what, "a number from 0 to 1");
  if (!(value >= 0 && value <= 1)) throw new ArgumentError(`${what} is ${value}, not 0 to 1`, what);
  return value;
}

/** A number as a byte; 255 if it is out of range, which the library then refuses. */
export function byteOr255(value, what) {
  return whole(value, what) >= 0 && value <= 255 ? value : 255;
}

/** true or false. */
export function truth(value, what) {
  if (typeof value !== "boolean") throw wrongType(value, what, "true or false");
  return value;
}

/** A string. */
export function text(value, what) {
  if (typeof value !== "string") throw wrongType(value, what, "a string");
  return value;
}

/** An object with fields. */
export function object(value, what, lawful) {
  if (typeof value !== "object" || value === null || Array.isArray(value)) throw wrongType(value, what, lawful);
  return value;
}

/** An object with fields, and with only these keys. */
export function record(value, what, lawful, keys) {
  for (const key of Object.keys(object(value, what, lawful))) {
    if (keys.includes(key)) continue;
    const near = nearest(key, keys, 2);
    const meant = near ? `did you mean ${shown(near)}?` : `its keys are ${keys.join(", ")}`;
    throw new ArgumentError(`${what} has the unknown key ${shown(key)}; ${meant}`, `${what}.${key}`);
  }
  return value;
}

// The edit distance of two texts: how many letters must be inserted, removed or replaced.
function distance(one, two) {
  let row = Array.from({length: two.length + 1}, (_, at) => at);
  for (let at = 1; at <= one.length; at++) {
    const next = [at];
    for (let to = 1; to <= two.length; to++)
      next.push(Math.min(row[to] + 1, next[to - 1] + 1, row[to - 1] + (one[at - 1] === two[to - 1] ? 0 : 1)));
    row = next;
  }
  return row[two.length];
}

/** The name nearest to a text, if it differs by at most `most` letters. */
export function nearest(given, names, most) {
  const small = given.slice(0, MOST_SHOWN).toLowerCase();
  const found = names.map((name) => [distance(small, name.toLowerCase()), name])
                    .reduce((one, two) => (two[0] < one[0] ? two : one));
  return found[0] <= most ? found[1] : null;
}

/** A list: an array, a typed array, or any other object with a length. */
export function list(value, what, lawful = "a list") {
  const isList = typeof value === "object" && value !== null && Number.isInteger(value.length) && value.length >= 0;
  if (!isList) throw wrongType(value, what, lawful);
  return value;
}

/** A list of exactly `count` numbers, each checked and converted by `of`. */
export function numbers(value, what, count, of) {
  const {length} = list(value, what, `a list of ${count} numbers`);
  if (length !== count) throw new ArgumentError(`${what} has ${length} numbers, not ${count}`, what);
  return Array.from(value, (it, place) => of(it, `${what}[${place}]`));
}

const SEED_SIZE = 10;
const isByte = (value) => Number.isInteger(value) && value >= 0 && value <= 255;

/** Ten numbers of the operating system's source. */
export function freshNumbers(what) {
  const source = globalThis.crypto;
  if (typeof source?.getRandomValues !== "function")
    throw new ArgumentError(`${what} is left out, but this host of JavaScript has no crypto.getRandomValues`, what);
  return source.getRandomValues(new Uint8Array(SEED_SIZE));
}

/** A number that is a seed, as a BigInt. */
export function playoutSeed(value) {
  if (typeof value !== "bigint" && !Number.isInteger(value))
    throw wrongType(value, "seed", "a whole number or a BigInt");
  if (value < 0 || value >= 2n ** 64n || (typeof value === "number" && !Number.isSafeInteger(value)))
    throw new ArgumentError(`seed is ${shown(value)}, not 0 to 2 ** 53 - 1, or as a BigInt to 2n ** 64n - 1n`, "seed");
  return BigInt(value);
}

/** The ten numbers of a seed: those of a list, those that one number determines, or fresh ones if it is left out. */
export function seedFor(library, value) {
  if (value === undefined) return freshNumbers("seed");
  if (typeof value !== "number" && typeof value !== "bigint") return seedOf(value);
  library.calls.gen1_seed_from_number(playoutSeed(value), library.seed);
  return library.bytes.slice(library.seedAt, library.seedAt + SEED_SIZE);
}

/** The seed, after a test of its ten numbers. */
export function seedOf(value) {
  const {length} = list(value, "seed", `a list of ${SEED_SIZE} numbers`);
  if (length !== SEED_SIZE) throw new ArgumentError(`seed has ${length} numbers, not ${SEED_SIZE}`, "seed");
  if (value instanceof Uint8Array) return value;
  for (let at = 0; at < SEED_SIZE; at++)
    if (!isByte(value[at])) within(value[at], `seed[${at}]`, 0, 255);
  return value;
}

/** The bytes of a Uint8Array, an ArrayBuffer, or a DataView. */
export function octets(value, what) {
  if (value instanceof ArrayBuffer) return new Uint8Array(value);
  if (!ArrayBuffer.isView(value) || (value.BYTES_PER_ELEMENT ?? 1) !== 1)
    throw wrongType(value, what, "bytes, as a Uint8Array");
  return new Uint8Array(value.buffer, value.byteOffset, value.byteLength);
}

/** A side, 1 or 2. */
export function sideOf(value, what = "side") {
  if (value === 1 || value === 2) return value;
  whole(value, what);
  throw new ArgumentError(`${what} is ${value}, not 1 or 2`, what);
}

/** The forms of HP by their numbers. */
export const FORMS = ["exact", "bar", "hundredths"];

/** The number of a form of HP; `otherwise` where none is given. */
export function formOf(value, otherwise, what) {
  const form = value ?? otherwise;
  if (typeof form !== "string") throw wrongType(form, what, `one of ${FORMS.join(", ")}`);
  if (!FORMS.includes(form)) throw new ArgumentError(`${what} is ${shown(form)}, not one of ${FORMS.join(", ")}`, what);
  return FORMS.indexOf(form);
}

/** The byte of a choice, whether offered or not: a byte, or a name such as "pass", "move 1", "switch 2". */
export function byteOf(choice, what = "choice") {
  const byte = BYTE_OF_NAME.get(choice);
  if (byte !== undefined) return byte;
  if (typeof choice === "number") return within(choice, what, 0, 255);
  const lawful = "pass, move 0 to 4, or switch 1 to 6";
  if (typeof choice === "string") throw new ArgumentError(`${what}: ${shown(choice)} is not a choice: ${lawful}`, what);
  throw wrongType(choice, what, `a choice: ${lawful}, or its byte`);
}

/** The byte of a choice by its name; undefined for any other value. */
export function byteOfName(choice) {
  return BYTE_OF_NAME.get(choice);
}

/** The byte of a side's choice. */
export function choiceByte(choice, side) {
  return BYTE_OF_NAME.get(choice) ?? byteOf(choice, `side ${side}'s choice`);
}

const MASKS = 4096;
const OFFERED = new Array(MASKS).fill(null);

/** The names of the choices in a mask. Each mask has one list, which is frozen. */
export function choicesIn(mask) {
  return (OFFERED[mask] ??= Object.freeze(CHOICES.filter((_, bit) => (mask >> bit) & 1)));
}

/** The bytes of the choices in a mask. */
export function choiceBytesIn(mask) {
  return BYTES.filter((_, bit) => (mask >> bit) & 1);
}

/** The mask of choices that are given as bytes. */
export function maskOf(bytes, what) {
  return Array.from(list(bytes, what)).reduce((mask, byte) => mask | (1 << CHOICES.indexOf(choiceOf(byte))), 0);
}

/** The name of a choice's byte. */
export function choiceOf(byte) {
  const name = NAME_OF_BYTE.get(within(byte, "byte", 0, 255));
  if (!name) throw new ArgumentError(`byte is ${byte}, which is not a choice: 0, 16 to 20, or 33 to 38`, "byte");
  return name;
}

/** The name of a choice's byte, or a text that says that the byte is not a choice. */
export function choiceText(byte) {
  return NAME_OF_BYTE.get(byte) ?? `${byte}, which is not a choice`;
}
