// Teams to choose from: the sample teams of the library (examples/teams), and those that a person has built, which the browser
// keeps. Rule sets that check a team (rust/gen1-showdown/formats.json). Teams as export text, as `gen1 team` writes it (docs/TEAM_TEXT.md).
import {find} from "./dom.js";
import {usualMoves} from "./sets.js";

/**
 * @typedef {import("./engine.js").Member} Member
 * @typedef {{ name: string, members: import("./engine.js").Member[] }} Team
 * @typedef {Team & { text: string }} NamedTeam
 * @typedef {{ id: string, line: string, moves?: string[], one_of_each?: boolean }} Clause
 * @typedef {{ id: string, name: string, members?: number[], levels?: number[], banned?: string[], clauses: string[] }} Format
 */

/** @type {NamedTeam[] | undefined} */
let read;

/**
 * The sample teams in their order.
 * @param {import("./engine.js").Engine} engine
 */
export function sampleTeams({gen1}) {
  read ??= /** @type {string[]} */ (JSON.parse(find("teams", HTMLScriptElement).text)).map((name, at) => {
    const members = gen1.sampleTeam(at + 1);
    return {name, members, text: textOf(members).trim()};
  });
  return read;
}

/**
 * The moves that a species has in the sample teams and in its usual set.
 * @param {import("./engine.js").Engine} engine
 * @param {string} species
 */
export function knownMoves(engine, species) {
  const members = sampleTeams(engine).flatMap((team) => team.members);
  const found = members.filter((member) => member.species === species).flatMap(({moves}) => moves);
  return [...new Set([...found.map(([move]) => String(move)), ...usualMoves(species)])];
}

/**
 * A member of a species with its moves: the first in one of the person's teams or in a sample team, else one with the usual set. Ditto has no moves.
 * @param {import("./engine.js").Engine} engine
 * @param {string} species
 * @returns {import("./engine.js").Member}
 */
export function setOf(engine, species) {
  const members = [...savedTeams(engine), ...sampleTeams(engine)].flatMap((team) => team.members);
  const usual = usualMoves(species).map((move) => /** @type {[string, number]} */ ([move, 3]));
  return members.find((member) => member.species === species && member.moves.length) ??
      {species, level: 100, dvs: [15, 15, 15, 15], exp: Array(5).fill(65535), moves: usual};
}

const KEY = "teams";

/** @param {any} value */
function isTeam(value) {
  const isMember = (/** @type {any} */ it) =>
      typeof it?.species === "string" && [it.dvs, it.exp, it.moves].every(Array.isArray);
  return typeof value?.name === "string" && Array.isArray(value.members) && value.members.every(isMember);
}

/**
 * Whether each member has a species, a level and DVs, and moves with names.
 * @param {import("./engine.js").Engine} engine
 * @param {import("./engine.js").Member[]} members
 */
export function areKnown(engine, members) {
  try {
    members.forEach((member) => engine.stats(member));
    return members.every(({moves}) => moves.every(([move]) => Object.hasOwn(engine.tables.moves, move)));
  } catch {
    return false;
  }
}

/**
 * The teams that were kept; none if the browser refuses storage, or if the stored value is not a list of teams.
 * @param {import("./engine.js").Engine} engine
 * @returns {Team[]}
 */
export function savedTeams(engine) {
  try {
    const found = JSON.parse(localStorage.getItem(KEY) ?? "[]");
    return Array.isArray(found) ? found.filter((it) => isTeam(it) && areKnown(engine, it.members)) : [];
  } catch {
    return [];
  }
}

/**
 * Keeps teams, and returns whether the browser has kept them.
 * @param {Team[]} teams
 */
export function saveTeams(teams) {
  try {
    localStorage.setItem(KEY, JSON.stringify(teams));
    return true;
  } catch {
    return false;
  }
}

/** @type {{ clauses: Clause[], formats: Format[] } | undefined} */
let rules;

/** The formats and their clauses. */
export function formats() {
  rules ??=
      /** @type {{ clauses: Clause[], formats: Format[] }} */ (JSON.parse(find("formats", HTMLScriptElement).text));
  return rules;
}

/**
 * The rules of a format that a team breaks, in the words of gen1-showdown: by members, then of the whole team.
 * @param {Format} format
 * @param {import("./engine.js").Member[]} members
 */
export function complaints(format, members) {
  const {members: [fewest, most] = [1, 6], levels: [lowest, highest] = [1, 100], banned = []} = format;
  const clauses = formats().clauses.filter(({id}) => format.clauses.includes(id));
  const found = members.flatMap(({species, level, moves}, at) => {
    const before = members.slice(0, at).some((it) => it.species === species);
    const broken = [
      ...(banned.includes(String(species)) ? [`species that are not banned; found ${species}`] : []),
      ...(level < lowest || level > highest ? [`level ${lowest} to ${highest}; found ${level}`] : []),
      ...clauses.flatMap(
          ({line,
            moves: not = [],
            one_of_each: one}) => [...(one && before ? [`${line}; found another ${species}`] : []),
              ...moves.filter(([move]) => not.includes(String(move))).map(([move]) => `${line}; found ${move}`),
    ]),
    ];
    return broken.map((why) => `member ${at + 1} (${species}): ${why}`);
  });
  const {length} = members;
  return length < fewest || length > most ? [...found, `team: ${fewest} to ${most} members; found ${length}`] : found;
}

/**
 * The stats of a text, with the place of the experience in a member: the Special is both SpA and SpD.
 * @type {[string, number][]}
 */
const STATS = [["HP", 0], ["Atk", 1], ["Def", 2], ["SpA", 4], ["SpD", 4], ["Spe", 3]];
/** The highest EV that is written. Higher EVs give the same stats. */
const HIGHEST = 252;
/** The IV of a DV of 15. */
const FULL = 31;

/**
 * The EVs that give the stats of the experience.
 * @param {Member} member
 */
function evsOf({exp}) {
  return STATS.map(([, at]) => Math.min(HIGHEST, Math.ceil(Math.sqrt(exp[at]))));
}

/**
 * The IVs that give the DVs. That of HP follows from the others.
 * @param {Member} member
 */
function ivsOf({dvs: [attack, defense, speed, special]}) {
  const hp = 8 * (attack & 1) + 4 * (defense & 1) + 2 * (speed & 1) + (special & 1);
  return [hp, attack, defense, special, special, speed].map((dv) => (dv === 15 ? FULL : 2 * dv));
}

/**
 * Numbers with the names of their stats.
 * @param {number[]} numbers
 * @param {(number: number) => boolean} isListed
 */
function listed(numbers, isListed) {
  return numbers.flatMap((number, at) => (isListed(number) ? [`${number} ${STATS[at][0]}`] : [])).join(" / ");
}

/** @param {Member} member */
function block(member) {
  const [evs, ivs] = [evsOf(member), ivsOf(member)];
  return [
    String(member.species),
    ...(member.level === 100 ? [] : [`Level: ${member.level}`]),
    ...(evs.every((ev) => ev === HIGHEST) ? [] : [`EVs: ${listed(evs, () => true)}`]),
    ...(ivs.every((iv) => iv === FULL) ? [] : [`IVs: ${listed(ivs, (iv) => iv !== FULL)}`]),
    ...member.moves.map(([move]) => `- ${move}`),
  ].join("\n");
}

/**
 * The export text of a team; also of members that aren't a team yet, or have other PP ups, which `teamToText` of the package refuses.
 * @param {Member[]} team
 */
export function textOf(team) {
  return team.map((member) => `${block(member)}\n`).join("\n");
}

/**
 * The title in the first line of a text; empty if it has none.
 * @param {string} text
 */
export function titleOf(text) {
  return /^\s*===\s*(?:\[[^\]]*\]\s*)?(.*?)\s*===/.exec(text)?.[1] ?? "";
}
