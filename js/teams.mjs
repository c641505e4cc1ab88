// Teams in the library's form, from objects and from a team builder's text, and the errors for them.
import {byteOr255, freshNumbers, inspected, list, nearest, numbers, playoutSeed, record, shown, text, truth, within, wrongType} from "./arguments.mjs";
import {ArgumentError, TeamError, TextError} from "./errors.mjs";
import {CODES, TEXT_FAULTS} from "./header.mjs";
import {layoutOf, writeStruct} from "./structs.mjs";
import {MOVE_ROWS, MOVES, SPECIES, SPECIES_ROWS, TYPES} from "./tables.mjs";
import {made} from "./update.mjs";

const MOST_MEMBERS = 6;
const MOST_MOVES = 4;
const MOST_DAMAGE = 65535;
const RANDOM_KEYS = ["seed", "legal", "count"];
const MEMBER_KEYS = ["species", "level", "dvs", "exp", "moves"];
const FULL_DVS = Object.freeze([15, 15, 15, 15]);
const FULL_EXP = Object.freeze([65535, 65535, 65535, 65535, 65535]);
const SPECIES_KIND = {
  names: SPECIES,
  rows: SPECIES_ROWS,
  find: "gen1_species_from_name"
};
const MOVE_KIND = {
  names: MOVES,
  rows: MOVE_ROWS,
  find: "gen1_move_from_name"
};
// The field that a code of gen1_new is about; other codes are about the moves.
const FIELDS = {
  [CODES.ERROR_TEAM_EMPTY]: "members",
  [CODES.ERROR_TEAM_TOO_LONG]: "members",
  [CODES.ERROR_LEVEL]: "level",
  [CODES.ERROR_DV]: "dvs",
  [CODES.ERROR_SPECIES]: "species",
  [CODES.ERROR_RULES]: "rules",
  [CODES.ERROR_TURN_LIMIT]: "limit",
};

// The number of a name, of which letters and digits count, or a number as a byte; 255, which the library refuses, for a number out of range.
function numberOf(library, value, kind, what) {
  if (typeof value === "number") return byteOr255(value, what) || 255;
  if (typeof value !== "string") throw wrongType(value, what, "a name or a number");
  const exact = kind.names.indexOf(value) + 1;
  if (exact) return exact;
  library.begin();
  const name = new TextEncoder().encode(value);
  const found = library.calls[kind.find](library.put(name), library.size(name.length));
  if (found) return found;
  const near = nearest(value, kind.names, Math.floor(value.length / 3));
  const meant = near ? `; did you mean ${shown(near)}?` : "";
  throw new ArgumentError(`${what} is ${shown(value)}, which is not in docs/TABLES.md${meant}`, what);
}

/** The number of a move. `what` names the argument. */
export function moveOf(library, value, what = "move") {
  return numberOf(library, value, MOVE_KIND, what);
}

/** The number of a species. `what` names the argument. */
export function speciesOf(library, value, what) {
  return numberOf(library, value, SPECIES_KIND, what);
}

// The row of a name or number.
function rowOf(library, value, kind, what) {
  const row = kind.rows[numberOf(library, value, kind, what) - 1];
  if (!row) throw new ArgumentError(`${what} is ${shown(value)}, not 1 to ${kind.rows.length}`, what);
  return row;
}

/** The row of a species in docs/TABLES.md. */
export function baseOf(library, value) {
  const [one, two, hp, attack, defense, speed, special] = rowOf(library, value, SPECIES_KIND, "species");
  return {hp, attack, defense, speed, special, types: [TYPES[one], TYPES[two]]};
}

/** The row of a move in docs/TABLES.md, its priority, and whether it is often critical. */
export function moveDataOf(library, value) {
  const [type, power, accuracy, pp, effect] = rowOf(library, value, MOVE_KIND, "move");
  library.begin();
  const row = library.roomOf("gen1_move");
  library.calls.gen1_move_data(moveOf(library, value), row);
  const {priority, highCritical} = library.readStruct("gen1_move", row);
  return {type: TYPES[type], power, accuracy, pp, effect, priority, isHighCritical: highCritical === 1};
}

/** The HP that the user of a move gains or loses by its damage. `call` is gen1_drained or gen1_recoil. */
export function sharedOf(library, call, move, damage) {
  rowOf(library, move, MOVE_KIND, "move");
  return library.calls[call](moveOf(library, move), within(damage, "damage", 0, MOST_DAMAGE));
}

// The number of a type, from its name or its number.
function typeOf(value, what) {
  if (typeof value !== "string" && typeof value !== "number") throw wrongType(value, what, "a name or a number");
  const number = typeof value === "number" ? value : TYPES.indexOf(value);
  if (TYPES[number] === undefined) throw new ArgumentError(`${what} is ${shown(value)}, not one of TYPES`, what);
  return number;
}

/** The factor of the damage of a move of one type to a foe of one type. */
export function effectivenessOf(library, attack, foe) {
  const pair = [typeOf(attack, "attack"), typeOf(foe, "foe")];
  library.begin();
  const tenths = library.room(1);
  library.calls.gen1_effectiveness(...pair, tenths);
  return library.bytes[Number(tenths)] / 10;
}

/** The stats of a member without a battle. */
export function statsOf(library, member) {
  const given = memberBytes(library, member, "member");
  library.begin();
  const [pointer, stats] = [library.put(given), library.room(10)];
  const code = library.calls.gen1_member_stats(pointer, stats);
  if (code) throw teamError(library, code | (1 << 8), [[member]], {}, () => "member: ");
  const [hp, attack, defense, speed, special] = new Uint16Array(library.read(stats, 10).buffer);
  return {hp, attack, defense, speed, special};
}

// A move and its PP ups, of which a name or a number alone has three.
function pairOf(library, value, what) {
  if (typeof value === "string" || typeof value === "number") return [numberOf(library, value, MOVE_KIND, what), 3];
  const lawful = "a move, or a pair: a move, and its PP ups from 0 to 3";
  if (list(value, what, lawful).length !== 2)
    throw new ArgumentError(`${what} is ${shown(value)}, not ${lawful}`, what);
  return [numberOf(library, value[0], MOVE_KIND, `${what}[0]`), byteOr255(value[1], `${what}[1]`)];
}

function memberOf(library, given, what) {
  const it = record(given, what, "a member: an object with species and moves", MEMBER_KEYS);
  const moves =
      list(it.moves, `${what}.moves`, "a list of moves, each a name or a pair: a move, and its PP ups from 0 to 3");
  const most = `not at most ${MOST_MOVES}`;
  if (moves.length > MOST_MOVES)
    throw new ArgumentError(`${what}.moves has ${moves.length} moves, ${most}`, `${what}.moves`);
  const pairs = Array.from(moves, (pair, slot) => pairOf(library, pair, `${what}.moves[${slot}]`));
  return {
    species: numberOf(library, it.species, SPECIES_KIND, `${what}.species`),
    level: byteOr255(it.level ?? 100, `${what}.level`),
    dvs: numbers(it.dvs ?? FULL_DVS, `${what}.dvs`, 4, byteOr255),
    moves: pairs.map(([move]) => move),
    ppUps: pairs.map(([, ups]) => ups),
    exp: numbers(it.exp ?? FULL_EXP, `${what}.exp`, 5, (value, name) => within(value, name, 0, 65535)),
  };
}

/** The bytes of a struct with these fields. Missing ones are 0. */
export function bytesOf(struct, isLong, fields) {
  const view = new DataView(new ArrayBuffer(layoutOf(struct, isLong).size));
  writeStruct(struct, view, 0, isLong, fields);
  return new Uint8Array(view.buffer);
}

/** A member's bytes. `what` names the argument. */
export function memberBytes(library, given, what) {
  return bytesOf("gen1_member", library.isLong, memberOf(library, given, what));
}

// A team's bytes. With too many members only the count is passed, which the library refuses.
function teamBytes(library, given, what) {
  const {length} = list(given, what, "a list of 1 to 6 members");
  const members =
      length > MOST_MEMBERS ? [] : Array.from(given, (it, place) => memberOf(library, it, `${what}[${place}]`));
  return bytesOf("gen1_team", library.isLong, {members, count: Math.min(length, 255)});
}

/** A team that was tested once, for any number of battles. It doesn't change. */
export class Team {
  #library;
  #block;

  constructor(library, members, what = "members") {
    this.#library = made(library, "Team", "gen1.team");
    const bytes = teamBytes(library, members, what);
    library.begin();
    const [spectator, team] = [library.roomOf("gen1_spectator"), library.put(bytes)];
    const answer = library.calls.gen1_spectator_begin(spectator, team, team);
    if (answer)
      throw teamError(library, answer & 0xffff, [members], {}, (_, place) => (place ? `member ${place}: ` : ""));
    this.#block = library.blockOf(team);
  }

  get #team() {
    return this.#library.readStruct("gen1_team", this.#block.pointer);
  }

  /** The number of members. */
  get length() {
    return this.#team.count;
  }

  /** The members, with all their fields. */
  get members() {
    const {members, count} = this.#team;
    return members.slice(0, count).map(memberFrom);
  }

  [Symbol.iterator]() {
    return this.members[Symbol.iterator]();
  }

  /** The members. */
  toJSON() {
    return this.members;
  }

  [Symbol.for("nodejs.util.inspect.custom")](depth, options, inspect) {
    return inspected("Team", this.members, options, inspect);
  }

  /** Its pointer in the memory of a library; null if it is another library's. */
  static pointer(team, library) {
    return team.#library === library ? team.#block.pointer : null;
  }
}

/** A team as an argument: a Team of this library, or the bytes of one. `what` names the argument. */
export function teamGiven(library, given, what) {
  if (!(given instanceof Team)) return teamBytes(library, given, what);
  return Team.pointer(given, library) === null ? teamBytes(library, given.members, what) : given;
}

/** A pointer to a team that `teamGiven` returned. */
export function teamAt(library, team) {
  return team instanceof Team ? Team.pointer(team, library) : library.put(team);
}

const ofTeams = (side, place) => (side ? `team ${side}: ` : "") + (place ? `member ${place}: ` : "");

/** The error for teams or terms that gen1_new refuses, by the number that it returns; `where` names the member. */
export function teamError(library, answer, teams, terms = {}, where = ofTeams) {
  const [code, place, side] = [answer & 255, (answer >> 8) & 255, answer >> 16];
  const [field, team] = [FIELDS[code] ?? "moves", teams[Math.max(side, 1) - 1]];
  const was = field === "members" ? `there are ${team.length}` :
                                    `${field} is ${shown(place ? Array.from(team)[place - 1][field] : terms[field])}`;
  const reason = library.sentence(code);
  return new TeamError(`${where(side, place)}${reason}: ${was}`, code, {side, place, field, reason});
}

// A member in the form of an argument of `battle`, from the library's form.
function memberFrom(of) {
  const moves = of.moves.flatMap((move, slot) => (move ? [[MOVES[move - 1], of.ppUps[slot]]] : []));
  return {species: SPECIES[of.species - 1], level: of.level, dvs: of.dvs, exp: of.exp, moves};
}

// The text of the line or field that a fault is about, or of a name only that, without a nickname and a gender; empty if it is about several.
function wordOf({code, line, member, field}, given) {
  if (!FORMS.has(code)) return "";
  const fields = field ? given.split("]")[member - 1].split("|").map((it) => it.trim()) : [];
  // Without a nickname the species may be in the first field.
  const found = line ? given.split("\n")[line - 1].trim() : fields[field - 1] || (fields[0] ?? "");
  if (code === MOVE_FAULT) {
    const names = found.replace(/^-/, "").split(",").map((it) => it.trim());
    return names.find((name) => !MOVES.some((it) => letters(it) === letters(name))) ?? found;
  }
  return code === SPECIES_FAULT ? found.replace(/ *\([MF]\)$/, "").replace(/^.*\((.*)\)$/, "$1") : found;
}

const letters = (name) => name.toLowerCase().replace(/[^a-z0-9]/g, "");

// The faults about one word or line, by their codes, with the names that may be near it.
const [SPECIES_FAULT, MOVE_FAULT] = [CODES.ERROR_TEXT_SPECIES, CODES.ERROR_TEXT_MOVE];
const FORMS = new Map([
  [SPECIES_FAULT, SPECIES], [MOVE_FAULT, MOVES], [CODES.ERROR_TEXT_LEVEL, []], [CODES.ERROR_TEXT_EVS, []],
  [CODES.ERROR_TEXT_IVS, []], [CODES.ERROR_TEXT_LINE, []]
]);

function textError(library, of, given) {
  const places = Object.entries({line: of.line, member: of.member, field: of.field}).filter(([, number]) => number);
  const where = places.map(([name, number]) => `${name} ${number}`).join(", ");
  const reason = of.rule ? library.sentence(of.rule) : TEXT_FAULTS[of.code];
  const found = wordOf(of, given);
  const names = found ? FORMS.get(of.code) : [];
  const near = names.length ? nearest(found, names, Math.floor(found.length / 3)) : null;
  const but = (found && `, not ${shown(found)}`) + (near ? `; did you mean ${shown(near)}?` : "");
  const said = of.rule ? reason : `expected: ${reason}${but}`;
  return new TextError(where ? `${where}: ${said}` : said, {...of, found, near}, reason);
}

/** The members in a text. `call` reads the text: gen1_team_from_text or gen1_team_from_packed. */
export function membersFrom(library, call, given) {
  const bytes = new TextEncoder().encode(text(given, "text"));
  library.begin();
  const [words, team, fault] = [library.put(bytes), library.roomOf("gen1_team"), library.roomOf("gen1_text_fault")];
  const code = library.calls[call](words, library.size(bytes.length), team, fault);
  if (code) throw textError(library, library.readStruct("gen1_text_fault", fault), given);
  return membersAt(library, team);
}

// The members of a team that the library has written.
function membersAt(library, team) {
  const {members, count} = library.readStruct("gen1_team", team);
  return members.slice(0, count).map(memberFrom);
}

/** The members of a random team. */
export function randomMembers(library, options) {
  const {seed, legal = true, count = MOST_MEMBERS} = record(options, "options", "an object with options", RANDOM_KEYS);
  const number = seed === undefined ? new DataView(freshNumbers("seed").buffer).getBigUint64(0) : playoutSeed(seed);
  const [size, fromAll] = [within(count, "count", 1, MOST_MEMBERS), truth(legal, "legal") ? 0 : 1];
  library.begin();
  const team = library.roomOf("gen1_team");
  library.calls.gen1_random_team(number, size, fromAll, team);
  return membersAt(library, team);
}

/** The members of a sample team. */
export function sampleMembers(library, number) {
  const known = within(number, "number", 1, CODES.SAMPLE_TEAMS);
  library.begin();
  const team = library.roomOf("gen1_team");
  library.calls.gen1_sample_team(known, team);
  return membersAt(library, team);
}

/** A team as text. `call` writes at most `room` bytes: gen1_team_to_text or gen1_team_to_packed. */
export function textOf(library, call, room, team) {
  const given = teamGiven(library, team, "team");
  library.begin();
  const [answer, said] = library.written(call, room, teamAt(library, given));
  if (answer) throw teamError(library, answer, [team], {}, (_, place) => (place ? `member ${place}: ` : ""));
  return said;
}
