// A battle from lines: those of the programs, or of a log of Showdown.
import {Problem} from "./dom.js";
import {plain} from "./search.js";

/** @type {Record<string, import("gen1").Status>} */
const STATUSES = {
  slp: "sleep",
  psn: "poison",
  tox: "poison",
  brn: "burn",
  frz: "freeze",
  par: "paralysis"
};
/** @type {Record<string, import("gen1").Stat>} */
const STAT_NAMES = {
  atk: "attack",
  def: "defense",
  spe: "speed",
  spc: "special",
  spa: "special",
  acc: "accuracy",
  accuracy: "accuracy",
  eva: "evasion",
  evasion: "evasion"
};
/** @type {Record<string, import("gen1").CantReason>} */
const REASONS = {
  slp: "asleep",
  frz: "frozen",
  partiallytrapped: "partially trapped",
  flinch: "flinched",
  recharge: "recharging",
  disable: "disabled",
  par: "paralysed"
};
/** @type {Record<string, import("gen1").DamageSource>} */
const SOURCES = {
  psn: "poison",
  brn: "burn",
  leechseed: "leech seed",
  recoil: "recoil",
  confusion: "confusion"
};
/** @type {Record<string, import("gen1").Volatile>} */
const VOLATILES = {
  confusion: "confusion",
  bide: "bide",
  substitute: "substitute",
  leechseed: "leech seed",
  mist: "mist",
  focusenergy: "focus energy",
  lightscreen: "light screen",
  reflect: "reflect",
  disable: "disable",
  typechange: "type change",
  trapped: "trapped",
  rage: "rage",
  splash: "splash"
};
/** @type {Record<string, import("gen1").EventKind>} lines about a member and nothing else */
const PLAIN_KINDS = {
  "-crit": "crit",
  "-supereffective": "super effective",
  "-resisted": "resisted",
  "-immune": "immune",
  "-miss": "miss",
  "-fail": "fail",
  "-mustrecharge": "must recharge",
  faint: "faint"
};
/** @type {Record<string, "start" | "end" | "activate">} */
const VOLATILE_KINDS = {
  "-start": "start",
  "-end": "end",
  "-activate": "activate"
};

/** Reads the lines of a battle: those of the programs, or of a log of Showdown, in which members have nicknames and sides have names. */
class LineReader {
  /** @param {import("./engine.js").Tables} tables */
  constructor(tables) {
    this.species = new Map(Object.keys(tables.species).map((name) => [plain(name), name]));
    this.moves = new Map(Object.keys(tables.moves).map((name) => [plain(name), name]));
    /** @type {Record<string, string[]>} the names of the members of each side, in the order in which they came out */
    this.names = {p1: [], p2: []};
    /** @type {Record<string, { species: string, max: number }>} the members that are out */
    this.out = {};
    /** @type {Record<string, string>} the sides by the names of their players */
    this.players = {p1: "p1", p2: "p2"};
    /** How many members each side has; 0 where no line has said it. */
    this.sizes = [0, 0];
  }

  /**
   * The event of a line; null for a line without one.
   * @param {string} line
   * @returns {any}
   */
  event(line) {
    const [, tag = "", who = "", what = "", ...rest] = line.trim().split("|");
    const key = who.slice(0, 2);
    if (tag === "player" && what) this.players[what] = who;
    if (tag === "teamsize" && /^p[12]$/.test(who)) this.sizes[Number(who[1]) - 1] = Number(what);
    if (tag === "turn") return {kind: "turn", turn: Number(who)};
    if (tag === "win") return {kind: "win", side: this.players[who] === "p2" ? 2 : 1};
    if (tag === "tie") return {kind: "tie"};
    if (tag === "-clearallboost") return {kind: "clear all"};
    if (tag === "-ohko") return {kind: "one hit knock out"};
    if (key !== "p1" && key !== "p2") return null;
    if (tag === "switch" || tag === "drag") return this.entry(who, what, rest[0]);
    const member = this.out[key];
    if (!member) return null;
    return this.about({side: Number(key[1]), species: member.species}, tag, what, rest);
  }

  /** @param {string} who @param {string} details as "Tauros, L50, M" @param {string} health */
  entry(who, details, health) {
    const [name, ...more] = details.split(", ");
    const species = this.species.get(plain(name));
    if (!species) throw new Problem(`The log has the member "${name}", which is not of the first generation.`);
    const [key, called] = [who.slice(0, 2), who.slice(who.indexOf(": ") + 2)];
    const names = this.names[key];
    if (!names.includes(called)) names.push(called);
    if (names.length > 6) throw new Problem(`The log has more than six members of side ${key[1]}.`);
    const level = Number(more.find((it) => /^L\d+$/.test(it))?.slice(1) ?? 100);
    this.out[key] = {species, max: 0};
    const side = Number(key[1]);
    return {kind: "switch", side, species, place: names.indexOf(called) + 1, level, ...this.health(key, health)};
  }

  /** @param {string} key @param {string} text as "120/353 par" or "0 fnt" */
  health(key, text = "") {
    const [numbers, status = ""] = text.split(" ");
    const [hp, max] = numbers.split("/").map(Number);
    if (max) this.out[key].max = max;
    return {hp, maxHp: this.out[key].max, status: STATUSES[status] ?? "none"};
  }

  /** @param {{ side: number, species: string }} who @param {string} tag @param {string} what @param {string[]} rest @returns {any} */
  about(who, tag, what, rest) {
    const key = `p${who.side}`;
    const named = plain(what.replace(/^move: /, ""));
    if (PLAIN_KINDS[tag]) return {kind: PLAIN_KINDS[tag], ...who};
    if (tag === "move" || tag === "-prepare") return this.use(who, tag, what, rest);
    if (tag === "cant") return REASONS[named] ? {kind: "cant", ...who, reason: REASONS[named]} : null;
    if (tag === "-damage") {
      const source = plain(rest.find((it) => it.startsWith("[from]"))?.slice(6).replace("move: ", "") ?? "");
      return {kind: "damage", ...who, ...this.health(key, what), source: SOURCES[source] ?? "direct"};
    }
    if (tag === "-heal") return {kind: "heal", ...who, ...this.health(key, what)};
    if (tag === "-status" || tag === "-curestatus")
      return {kind: tag === "-status" ? "status" : "cure", ...who, status: STATUSES[what] ?? "none"};
    if (tag === "-boost" || tag === "-unboost") return this.stages(who, tag.slice(1), what, Number(rest[0]));
    if (tag === "-hitcount") return {kind: "hit count", ...who, hits: Number(rest[0] ?? what)};
    const volatile = VOLATILE_KINDS[tag] && VOLATILES[named];
    return volatile ? {kind: VOLATILE_KINDS[tag], ...who, volatile} : null;
  }

  /** @param {{ side: number, species: string }} who @param {string} tag @param {string} what @param {string[]} rest */
  use(who, tag, what, rest) {
    const move = this.moves.get(plain(what));
    if (!move) throw new Problem(`The log has the move "${what}", which is not of the first generation.`);
    if (tag === "-prepare") return {kind: "prepare", ...who, move};
    const key = /^p[12]/.exec(rest[0] ?? "")?.[0] ?? `p${3 - who.side}`;
    const target = this.out[key] ?? who;
    return {kind: "move", ...who, move, targetSide: Number(key[1]), targetSpecies: target.species};
  }

  /**
   * A change of a stage. Showdown names the Special by the two stats that it became, of which one counts.
   * @param {{ side: number, species: string }} who @param {string} kind @param {string} stat @param {number} stages
   */
  stages(who, kind, stat, stages) {
    if (!STAT_NAMES[stat] || !stages) return null;
    return {kind, ...who, stat: STAT_NAMES[stat], stages: Math.min(2, stages)};
  }
}

/**
 * The events of lines, and how many members each side has, if the lines say so. Other lines, such as chat, are left out.
 * @param {string} text
 * @param {import("./engine.js").Tables} tables
 */
export function eventsOfLines(text, tables) {
  const reader = new LineReader(tables);
  const events = text.split("\n").flatMap((line) => reader.event(line) ?? []);
  if (!events.some(({kind}) => kind === "switch"))
    throw new Problem("The lines hold no battle: no member is sent out in them.");
  return {events, sizes: reader.sizes.every((it) => it >= 1 && it <= 6) ? reader.sizes : undefined};
}
