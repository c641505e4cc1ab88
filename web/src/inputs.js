// Battles from files, and as files: the input of the programs (docs/PROGRAM.md), log bytes, lines, Showdown's logs, and pages that hold one of these.
import {ArgumentError, byteOf, MOVES, RefusedError, SPECIES} from "gen1";

import {decoded, digits, encoded, joined, MEMBER, memberBytes, memberOf, ofDigits} from "./bytes.js";
import {Problem} from "./dom.js";
import {MOST, testLength} from "./engine.js";
import {eventsOfLines} from "./showdown.js";

/**
 * @typedef {import("./engine.js").Member} Member
 * @typedef {import("./engine.js").Terms} Terms
 * @typedef {Terms & { choices: number[][] }} Input
 * @typedef {{ log: Uint8Array, sizes?: number[] }} Logged a log, and how many members each side has, where that is known
 * @typedef {{ input: Input } | Logged} Recorded the source of a battle
 */

/** @param {unknown} value @param {string} what @param {number} most @param {number} [least] @returns {number} */
function whole(value, what, most, least = 0) {
  if (typeof value !== "number" || !Number.isInteger(value) || value < least || value > most)
    throw new Problem(
        `${what} is ${JSON.stringify(value) ?? "missing"}, which is not a whole number from ${least} to ${most}.`);
  return value;
}

/** @param {unknown} value @param {string} what @param {number} [length] @returns {unknown[]} */
function list(value, what, length) {
  if (!Array.isArray(value)) throw new Problem(`${what} is ${value === undefined ? "missing" : "not a list"}.`);
  if (length !== undefined && value.length !== length)
    throw new Problem(`${what} has ${value.length} items, not ${length}.`);
  return value;
}

/** @param {unknown} value @param {string} what @param {number} length @param {number} most */
function numbers(value, what, length, most) {
  return list(value, what, length).map((item, place) => whole(item, `${what}[${place}]`, most));
}

/** @param {unknown} value @param {readonly string[]} names @param {string} what a name is to be of */
function named(value, names, what) {
  if (typeof value !== "string" || !names.includes(value))
    throw new Problem(`${what} is ${JSON.stringify(value) ?? "missing"}, which is not a name in docs/TABLES.md.`);
  return value;
}

/**
 * How many members each side has; undefined if that is not said.
 * @param {unknown} value
 */
function sizesOf(value) {
  if (value === undefined) return undefined;
  return list(value, "sizes", 2).map((it, at) => whole(it, `sizes[${at}]`, 6, 1));
}

/** A byte that isn't a choice. */
const UNOFFERED = 255;
/** White space, and the byte order mark with which some editors begin a text. */
const BLANKS = [9, 10, 13, 32, 0xef, 0xbb, 0xbf];

/** The first characters of a JSON text that is an object, a list or a string; and that of a line of a battle. */
const [STARTS, BAR] = [[0x7b, 0x5b, 0x22], 0x7c];

/** The most bytes of a file: a page with the longest log takes twice the length of the log, as hexadecimal digits, and that of the page. */
const MOST_FILE = 4 * MOST;

/**
 * Updates a battle, and returns whether it refused the pair.
 * @param {import("gen1").Battle} battle @param {number[]} pair
 */
function refusal(battle, [one, two]) {
  try {
    battle.updateSilent(one, two);
    return false;
  } catch (error) {
    if (error instanceof RefusedError) return true;
    throw error;
  }
}

/**
 * The byte of a choice in words (docs/PROGRAM.md, "Text in place of JSON"); one that is never offered if the side does not have the choice.
 * @param {import("gen1").Battle} battle @param {1 | 2} side @param {string} text @param {string} what
 */
function byteOfWords(battle, side, text, what) {
  try {
    return byteOf(battle.choiceFromWords(side, text));
  } catch (error) {
    if (error instanceof RefusedError) return UNOFFERED;
    if (!(error instanceof ArgumentError)) throw error;
    const said = error.message.replace(error.argument, what);
    throw new Problem(said.endsWith("?") ? said : `${said}.`);
  }
}

/** Reads and writes inputs. */
export class Inputs {
  /** @param {import("./engine.js").Engine} engine */
  constructor(engine) {
    this.engine = engine;
  }

  /**
   * Reads a person's file.
   * @param {File} file
   */
  async readFile(file) {
    if (file.size > MOST_FILE)
      throw new Problem(
          `The file has ${file.size.toLocaleString("en")} bytes; at most ${MOST_FILE.toLocaleString("en")} are read.`);
    return this.read(new Uint8Array(await file.arrayBuffer()));
  }

  /**
   * The battle in a file.
   * @param {Uint8Array} bytes
   * @returns {Recorded}
   */
  read(bytes) {
    if (!bytes.length) throw new Problem("The file is empty: there is no battle in it.");
    const begin = bytes.findIndex((byte) => !BLANKS.includes(byte));
    if (bytes[begin] === 0x3c) return this.held(new TextDecoder().decode(bytes));
    if (bytes[begin] === BAR) return this.lines(new TextDecoder().decode(bytes));
    return STARTS.includes(bytes[begin]) ? this.parse(new TextDecoder().decode(bytes)) : this.log(bytes);
  }

  /**
   * The battle in a saved page.
   * @param {string} text
   * @returns {Recorded}
   */
  held(text) {
    const page = new DOMParser().parseFromString(text, "text/html");
    const lines = page.querySelector(".battle-log-data")?.textContent;
    if (lines) return this.lines(lines.replaceAll("\\/", "/"));
    const found = page.getElementById("battle");
    if (!found?.textContent || found.textContent === "null") throw new Problem("This page does not hold a battle.");
    return this.parse(found.textContent);
  }

  /**
   * The battle in lines, as the programs print them or as Showdown logs them.
   * @param {string} text
   * @returns {Recorded}
   */
  lines(text) {
    testLength(new TextEncoder().encode(text), "The log");
    const {events, sizes} = eventsOfLines(text, this.engine.tables);
    try {
      return this.log(this.engine.gen1.logBytes(events), sizes);
    } catch (error) {
      if (!(error instanceof ArgumentError)) throw error;
      throw new Problem(`The lines hold no battle: ${error.message}.`);
    }
  }

  /**
   * A battle in JSON: an input, {"log": hexadecimal digits, "sizes": members of each side}, or {"log": lines} as Showdown saves a replay; or lines alone.
   * @param {string} text
   * @returns {Recorded}
   */
  parse(text) {
    let value;
    if (text.trimStart().startsWith("|")) return this.lines(text);
    try {
      value = JSON.parse(text.replace(/^\ufeff/, ""));
    } catch (error) {
      throw new Problem(`The battle is not JSON: ${error instanceof Error ? error.message : error}.`);
    }
    if (typeof value !== "object" || value === null || Array.isArray(value)) {
      const found = Array.isArray(value) ? "a list" : value === null ? "null" : `a ${typeof value}`;
      throw new Problem(`The file is ${
          found} in JSON. A battle is an object: {"seed": .., "one": .., "two": .., "choices": ..}, or {"log": ..}.`);
    }
    if (typeof value.log === "string" && value.choices === undefined)
      return value.log.includes("|") ? this.lines(value.log) : this.log(ofDigits(value.log), sizesOf(value.sizes));
    return {input: this.input(value)};
  }

  /** @param {Uint8Array} log @param {number[]} [sizes] @returns {Logged} */
  log(log, sizes) {
    testLength(log, "The log");
    if (!log.length) throw new Problem("The log has no events.");
    return sizes ? {log, sizes} : {log};
  }

  /** @param {any} value @returns {Input} */
  input(value) {
    const terms = {
      seed: numbers(value.seed, "seed", 10, 255),
      one: this.team(value.one, "one", 1),
      two: this.team(value.two, "two", 2),
      rules: value.rules === undefined ? 0 : whole(value.rules, "rules", 3),
      limit: value.limit === undefined ? 1000 : whole(value.limit, "limit", 9999, 1),
    };
    return {...terms, choices: this.pairs(terms, list(value.choices, "choices"))};
  }

  /**
   * A team: a list of members, or a text.
   * @param {unknown} value @param {string} what @param {number} side
   */
  team(value, what, side) {
    if (typeof value === "string") return this.engine.team(value, what, side);
    return list(value, what).map((it, place) => this.member(it, `${what}[${place}]`));
  }

  /**
   * The pairs of choices as bytes. Words depend on the position, so the battle is played as far as there are any.
   * @param {Terms} terms @param {unknown[]} values
   */
  pairs(terms, values) {
    const lists = values.map((pair, place) => list(pair, `choices[${place}]`, 2));
    const last = Math.max(-1, ...lists.flatMap((pair, at) => (pair.some((it) => typeof it === "string") ? [at] : [])));
    const battle = last < 0 ? null : this.engine.begin(terms);
    let isRefused = false;
    return lists.map((pair, place) => {
      const bytes = pair.map((it, at) => {
        const what = `choices[${place}][${at}]`;
        return battle && typeof it === "string" ? byteOfWords(battle, at === 0 ? 1 : 2, it, what) :
                                                  whole(it, what, 255);
      });
      isRefused ||= place > last;
      if (battle && !isRefused) isRefused = Boolean(refusal(battle, bytes));
      return bytes;
    });
  }

  /** @param {any} value @param {string} what @returns {Member} */
  member(value, what) {
    const moves = list(value?.moves, `${what}.moves`);
    if (moves.length > 4) throw new Problem(`${what}.moves has ${moves.length} moves, not at most 4.`);
    return {
      species: named(value.species, SPECIES, `${what}.species`),
      level: whole(value.level, `${what}.level`, 255),
      dvs: numbers(value.dvs, `${what}.dvs`, 4, 255),
      exp: numbers(value.exp, `${what}.exp`, 5, 65535),
      moves: moves.map((item, slot) => {
        const [name, ups] = list(item, `${what}.moves[${slot}]`, 2);
        return [named(name, MOVES, `${what}.moves[${slot}]`), whole(ups, `${what}.moves[${slot}][1]`, 255)];
      }),
    };
  }

  /**
   * A recorded battle as JSON, in a form that can be read again.
   * @param {Recorded} recorded
   */
  text(recorded) {
    if ("log" in recorded) return JSON.stringify({log: digits(recorded.log), sizes: recorded.sizes});
    const {seed, one, two, rules, limit, choices} = recorded.input;
    return JSON.stringify({seed, one, two, rules, limit, choices});
  }
}

/** The maximum length of a battle in an address; a longer one would make each step slow. */
const ADDRESS = 60_000;

/**
 * Whether a battle's text may be short enough for an address.
 * @param {Recorded} recorded
 */
export function mayBeShort(recorded) {
  return ("log" in recorded ? recorded.log.length : 2 * recorded.input.choices.length) <= ADDRESS;
}

/**
 * Whether a battle's text is short enough for an address.
 * @param {string} code
 */
export function isShort(code) {
  return code.length <= ADDRESS;
}

/**
 * A battle in the form for an address: i and an input (seed, rules, limit, both teams, pairs), l and a log, or s, both sizes of teams and a log.
 * @param {Recorded} recorded
 */
export function toAddress(recorded) {
  if ("log" in recorded) {
    const {log, sizes} = recorded;
    return sizes ? `s${encoded(joined(sizes, log))}` : `l${encoded(log)}`;
  }
  const {seed, one, two, rules, limit, choices} = recorded.input;
  const teams = [one, two].map((team) => joined([team.length], ...team.map(memberBytes)));
  return `i${encoded(joined(seed, [rules, limit & 255, limit >> 8], ...teams, choices.flat()))}`;
}

/** @param {string} text @param {Inputs} inputs @returns {Recorded} */
export function ofAddress(text, inputs) {
  const bytes = decoded(text.slice(1));
  if (text[0] === "l") return inputs.log(bytes);
  if (text[0] === "s") return inputs.log(bytes.subarray(2), sizesOf([...bytes.subarray(0, 2)]));
  const damaged = () => new Problem("The address is damaged: it does not hold a battle.");
  let at = 13;
  const teams = [0, 1].map(() => {
    const count = bytes[at];
    if (count === undefined) throw damaged();
    const members = Array.from({length: count},
        (_, place) => memberOf(bytes.subarray(at + 1 + MEMBER * place, at + 1 + MEMBER * (place + 1))));
    at += 1 + MEMBER * count;
    return members;
  });
  const pairs = bytes.subarray(at);
  if (text[0] !== "i" || pairs.length % 2) throw damaged();
  const choices = Array.from({length: pairs.length / 2}, (_, place) => [pairs[2 * place], pairs[2 * place + 1]]);
  const [rules, low, high] = bytes.subarray(10, 13);
  return {
    input: {seed: [...bytes.subarray(0, 10)], rules, limit: low + 256 * high, one: teams[0], two: teams[1], choices}
  };
}
