// Bytes: joined, as text, and members as bytes in an address.
import {MOVES, SPECIES, TYPES} from "gen1";

import {Problem} from "./dom.js";

/**
 * @typedef {import("./engine.js").Member} Member
 * @typedef {import("./engine.js").Standing} Standing
 */

/** The size of a member in an address, in bytes, that of a member with its state, and that of what it carries from a battle. */
export const MEMBER = 24;
export const STANDING = MEMBER + 10;
export const CARRIED = 11;

/**
 * Concatenated bytes.
 * @param {...ArrayLike<number>} parts
 */
export function joined(...parts) {
  const bytes = new Uint8Array(parts.reduce((sum, part) => sum + part.length, 0));
  let at = 0;
  for (const part of parts) {
    bytes.set(part, at);
    at += part.length;
  }
  return bytes;
}

/** @param {ArrayLike<number>} bytes */
export function digits(bytes) {
  return Array.from(bytes, (byte) => byte.toString(16).padStart(2, "0")).join("");
}

/** @param {string} text hexadecimal digits */
export function ofDigits(text) {
  if (text.length % 2 || /[^0-9a-f]/i.test(text)) throw new Problem("The log does not consist of hexadecimal digits.");
  const bytes = new Uint8Array(text.length / 2);
  // The low four bits of a digit's code are its value; those of a letter's are 9 less.
  const value = (/** @type {number} */ at) => (text.charCodeAt(at) & 15) + (text.charCodeAt(at) > 57 ? 9 : 0);
  for (let place = 0; place < bytes.length; place++) bytes[place] = 16 * value(2 * place) + value(2 * place + 1);
  return bytes;
}

/**
 * Bytes as text for an address (base64 with - and _).
 * @param {Uint8Array} bytes
 */
export function encoded(bytes) {
  let text = "";
  for (const byte of bytes) text += String.fromCharCode(byte);
  return btoa(text).replaceAll("+", "-").replaceAll("/", "_").replaceAll("=", "");
}

/** @param {string} text */
export function decoded(text) {
  try {
    return Uint8Array.from(atob(text.replaceAll("-", "+").replaceAll("_", "/")), (letter) => letter.charCodeAt(0));
  } catch {
    throw new Problem("The address is damaged: it cannot be read.");
  }
}

/** @param {string | number} value @param {readonly string[]} names */
function numberOf(value, names) {
  return typeof value === "number" ? value : names.indexOf(value) + 1;
}

/**
 * The 24 bytes of a member: species, level, DVs, moves, PP ups, experience.
 * @param {Member} member
 */
export function memberBytes(member) {
  const bytes = new Uint8Array(MEMBER);
  bytes.set([numberOf(member.species, SPECIES), member.level, ...member.dvs]);
  member.moves.slice(0, 4).forEach(([move, ups], slot) => {
    bytes[6 + slot] = numberOf(move, MOVES);
    bytes[10 + slot] = ups;
  });
  const view = new DataView(bytes.buffer);
  member.exp.forEach((value, stat) => view.setUint16(14 + 2 * stat, value, true));
  return bytes;
}

/**
 * The member of 24 bytes. A species or move that has no name stays a number, which the engine refuses.
 * @param {Uint8Array} bytes
 * @returns {Member}
 */
export function memberOf(bytes) {
  if (bytes.length !== MEMBER) throw new Problem("The address is damaged: a member is cut off.");
  const view = new DataView(bytes.buffer, bytes.byteOffset, MEMBER);
  return {
    species: SPECIES[bytes[0] - 1] ?? bytes[0],
    level: bytes[1],
    dvs: [...bytes.subarray(2, 6)],
    exp: [0, 1, 2, 3, 4].map((stat) => view.getUint16(14 + 2 * stat, true)),
    moves: [0, 1, 2, 3]
               .filter((slot) => bytes[6 + slot])
               .map((slot) => [MOVES[bytes[6 + slot] - 1] ?? bytes[6 + slot], bytes[10 + slot]]),
  };
}

/** @param {Standing} it */
export function standingBytes({member, stages, status, conditions, hp}) {
  return joined(memberBytes(member), stages, [status, conditions, hp & 255, hp >> 8]);
}

/**
 * What a member carries from a battle: four stats, two types, the HP of its Substitute; all 0 for nothing.
 * @param {Standing} it
 */
export function carriedBytes({carried}) {
  const bytes = new Uint8Array(CARRIED);
  const view = new DataView(bytes.buffer);
  carried?.stats.forEach((stat, at) => view.setUint16(2 * at, stat, true));
  bytes.set(carried ? [...carried.types.map((type) => TYPES.indexOf(type)), carried.substitute] : [], 8);
  return bytes;
}

/** @param {Uint8Array} bytes @returns {import("./engine.js").Carried | null} */
export function carriedOf(bytes) {
  const view = new DataView(bytes.buffer, bytes.byteOffset, CARRIED);
  const types = [...bytes.subarray(8, 10)].map((type) => TYPES[type]);
  if (types.includes(/** @type {any} */ (undefined)))
    throw new Problem("The address is damaged: there is no such type.");
  if (!bytes.some(Boolean)) return null;
  return {stats: [0, 2, 4, 6].map((at) => view.getUint16(at, true)), types, substitute: bytes[10]};
}

/** @param {Uint8Array} bytes @returns {Standing} */
export function standingOf(bytes) {
  if (bytes.length !== STANDING) throw new Problem("The address is damaged: a member is cut off.");
  const [status, conditions, low, high] = bytes.subarray(MEMBER + 6);
  return {
    member: memberOf(bytes.subarray(0, MEMBER)),
    stages: [...bytes.subarray(MEMBER, MEMBER + 6)],
    status,
    conditions,
    hp: low + 256 * high
  };
}
