// Assertions for the checks, and wrong values of arguments.
import * as library from "../gen1.mjs";

/**
 * Throws if a fact does not hold.
 * @param {unknown} fact
 * @param {string} what
 */
export function holds(fact, what) {
  if (!fact) throw new Error(what);
}

/**
 * Throws if two values differ as JSON.
 * @param {unknown} found
 * @param {unknown} wanted
 */
export function equal(found, wanted) {
  const [one, two] = [found, wanted].map((value) => JSON.stringify(value));
  holds(one === two, `found ${one?.slice(0, 200)}, not ${two?.slice(0, 200)}`);
}

/**
 * The error that a call throws, which must have this type and its name, and a message that matches this text.
 * @template {Error} T
 * @param {() => unknown} call
 * @param {Function & { prototype: T }} type
 * @param {RegExp} text
 * @returns {T}
 */
export function thrown(call, type, text) {
  try {
    call();
  } catch (given) {
    const fault = /** @type {T} */ (given);
    holds(fault instanceof type && text.test(fault.message) &&
            (/** @type {unknown} */ (type) === Error || fault.name === type.name),
        `it threw ${fault}`);
    return fault;
  }
  throw new Error("it threw nothing");
}

export const SEED = [1, 36, 255, 7, 31, 100, 179, 254, 127, 10];
export const TAUROS = {
  species: "Tauros",
  moves: [["Strength", 3]]
};
export const TERMS = {
  one: [TAUROS],
  two: [TAUROS],
  seed: SEED
};
export const NO_NUMBERS = [null, 1.5, NaN, Infinity, "1", true, [1], {}, 1n, Symbol("1"), () => 1];
export const BIG = [-1, 256, 257, 300, 65536, 2 ** 32, 2 ** 53, -(2 ** 70)];
export const NO_OBJECTS = [undefined, null, 5, "Tauros", true];

/**
 * The error of a call with an argument of a wrong type.
 * @param {() => unknown} call
 * @param {RegExp} text
 */
export const wrong = (call, text) => thrown(call, library.ArgumentTypeError, text);

/**
 * The error of a call with an argument that is out of range.
 * @param {() => unknown} call
 * @param {RegExp} text
 */
export const outside = (call, text) => thrown(call, library.ArgumentError, text);

const PAIRS = Array.from({length: 256}, (_, byte) => byte.toString(16).padStart(2, "0"));
const BYTES = new Map(PAIRS.map((pair, byte) => [pair, byte]));

/**
 * Bytes as hexadecimal digits.
 * @param {Iterable<number>} bytes
 */
export function hexOf(bytes) {
  let text = "";
  for (const byte of bytes) text += PAIRS[byte];
  return text;
}

/**
 * The bytes of hexadecimal digits.
 * @param {string} text
 */
export function bytesOfHex(text) {
  const bytes = new Uint8Array(text.length >> 1);
  for (let at = 0; at < bytes.length; at++) bytes[at] = BYTES.get(text.slice(2 * at, 2 * at + 2)) ?? 0;
  return bytes;
}
