// Battles from states that were written or changed: an object like `battle.state` becomes a gen1_state, which the library tests.
import {byteOr255, list, numbers, record, shown, text, truth, whole, within} from "./arguments.mjs";
import {ArgumentError, StateError} from "./errors.mjs";
import {CODES} from "./header.mjs";
import {MOVES, SPECIES, TYPES} from "./tables.mjs";
import {bytesOf, moveOf, speciesOf} from "./teams.mjs";
import {CONDITIONS, OUTCOMES, REQUESTS, STATUSES} from "./views.mjs";

const MOST_MEMBERS = 6;
const MOST_MOVES = 4;
const MOST_WORD = 65535;
const MIDDLE = 6;
const MEMBER_KEYS = ["species", "level", "status", "sleep", "marked", "moves", "pp", "hp", "maxHp", "stats"];
const STATE_KEYS = ["one", "two", "turn", "limit", "lastDamage", "rules", "outcome", "requests", "index", "numbers"];

/** A number as two bytes; if it is out of range the greatest number, which the library refuses. */
export const wordOrMost = (value, what) => (whole(value, what) >= 0 && value <= MOST_WORD ? value : MOST_WORD);
// A stage from -6 as one from 0.
const stageOf = (value, what) => byteOr255(whole(value, what) + MIDDLE, what);

/** The index of a name in a list. */
export function indexOf(names, value, what) {
  const found = names.indexOf(text(value, what));
  if (found < 0) throw new ArgumentError(`${what} is ${shown(value)}, not one of ${names.map(shown).join(", ")}`, what);
  return found;
}

function conditionBits(value, what) {
  const bits = Array.from(
      list(value, what, "a list of conditions"), (it, place) => 1 << indexOf(CONDITIONS, it, `${what}[${place}]`));
  return bits.reduce((sum, bit) => sum | bit, 0);
}

// The moves and PP of a member: two lists of the same length, at most 4.
function slotsOf(library, it, what) {
  const [moves, pp] = [list(it.moves, `${what}.moves`), list(it.pp, `${what}.pp`)];
  if (moves.length > MOST_MOVES)
    throw new ArgumentError(`${what}.moves has ${moves.length} moves, not at most ${MOST_MOVES}`, `${what}.moves`);
  return {
    moves: Array.from(moves, (move, slot) => moveOf(library, move, `${what}.moves[${slot}]`)),
    pp: numbers(pp, `${what}.pp`, moves.length, byteOr255),
  };
}

function memberForm(library, given, what) {
  const it = record(given, what, "the state of a member", MEMBER_KEYS);
  return {
    species: speciesOf(library, it.species, `${what}.species`),
    level: byteOr255(it.level, `${what}.level`),
    status: indexOf(STATUSES, it.status, `${what}.status`),
    sleep: byteOr255(it.sleep, `${what}.sleep`),
    marked: Number(truth(it.marked, `${what}.marked`)),
    ...slotsOf(library, it, what),
    hp: wordOrMost(it.hp, `${what}.hp`),
    maxHp: wordOrMost(it.maxHp, `${what}.maxHp`),
    stats: numbers(it.stats, `${what}.stats`, 4, wordOrMost),
  };
}

const COUNTS = [
  "place", "currentMove", "pickedMove", "substitute", "confusion", "disabledSlot", "disabledTurns", "badPoison", "turns"
];
const ACTIVE_KEYS = [...COUNTS, "types", "stats", "stages", "conditions", "keptAccuracy", "energy"];

// The active member; without one every field is 0, as in new memory.
function activeForm(given, what) {
  if (given === null) return {};
  const it = record(given, what, "the state of the active member, or null", ACTIVE_KEYS);
  return {
    ...Object.fromEntries(COUNTS.map((key) => [key, byteOr255(it[key], `${what}.${key}`)])),
    keptAccuracy: within(it.keptAccuracy, `${what}.keptAccuracy`, 0, 255),
    energy: within(it.energy, `${what}.energy`, 0, MOST_WORD),
    types: numbers(it.types, `${what}.types`, 2, (type, place) => indexOf(TYPES, type, place)),
    stages: numbers(it.stages, `${what}.stages`, 6, stageOf),
    stats: numbers(it.stats, `${what}.stats`, 4, wordOrMost),
    conditions: conditionBits(it.conditions, `${what}.conditions`),
  };
}

function sideForm(library, given, what) {
  const it = record(given, what, "the state of a side", ["members", "active"]);
  const {length} = list(it.members, `${what}.members`);
  if (length < 1 || length > MOST_MEMBERS)
    throw new ArgumentError(`${what}.members has ${length} members, not 1 to ${MOST_MEMBERS}`, `${what}.members`);
  const members = Array.from(it.members, (member, place) => memberForm(library, member, `${what}.members[${place}]`));
  return {members, active: activeForm(it.active, `${what}.active`)};
}

function stateForm(library, given) {
  const it = record(given, "state", "a state: an object like battle.state", STATE_KEYS);
  return {
    sides: [sideForm(library, it.one, "state.one"), sideForm(library, it.two, "state.two")],
    turn: wordOrMost(it.turn, "state.turn"),
    limit: wordOrMost(it.limit, "state.limit"),
    lastDamage: within(it.lastDamage, "state.lastDamage", 0, MOST_WORD),
    rules: byteOr255(it.rules, "state.rules"),
    outcome: indexOf(OUTCOMES, it.outcome, "state.outcome"),
    requests: numbers(it.requests, "state.requests", 2, (request, place) => indexOf(REQUESTS, request, place)),
    index: byteOr255(it.index, "state.index"),
    numbers: numbers(it.numbers, "state.numbers", 10, (number, place) => within(number, place, 0, 255)),
  };
}

// The fields of the header by number: BAD_POISON is badPoison. Fields that a member has several of have the name of the list.
const FIELDS = Object.fromEntries(Object.entries(CODES).filter(([name]) => name.startsWith("FIELD_")).map(([
  name, code
]) => [code, name.slice("FIELD_".length).toLowerCase().replace(/_(.)/g, (_, letter) => letter.toUpperCase())]));
const LISTS = {
  [CODES.FIELD_REQUEST]: "requests",
  [CODES.FIELD_OWN_STAT]: "stats",
  [CODES.FIELD_MOVE]: "moves",
  [CODES.FIELD_PP]: "pp",
  [CODES.FIELD_TYPE]: "types",
  [CODES.FIELD_STAGE]: "stages",
  [CODES.FIELD_CURRENT_STAT]: "stats",
  [CODES.FIELD_TIED_CONDITION]: "conditions",
};
// The values of fields that are not numbers in a state.
const NAMES = {
  [CODES.FIELD_OUTCOME]: OUTCOMES,
  [CODES.FIELD_REQUEST]: REQUESTS,
  [CODES.FIELD_STATUS]: STATUSES,
  [CODES.FIELD_TYPE]: TYPES,
  [CODES.FIELD_SPECIES]: [null, ...SPECIES],
  [CODES.FIELD_MOVE]: [null, ...MOVES],
  [CODES.FIELD_MARKED]: [false, true],
};

// A number of the library as the corresponding value in a state.
function valueOf(field, number) {
  if (field === CODES.FIELD_STAGE) return number - MIDDLE;
  return NAMES[field]?.[number] ?? number;
}

// The path of the wrong field in the state, such as `state.two.members[0].hp`. `index` is from 1 in a list.
function pathOf({field, side, place, index}) {
  const path = ["state", ...(side && field !== CODES.FIELD_REQUEST ? [side === 1 ? "one" : "two"] : [])];
  if (place)
    path.push(`members[${place - 1}]`);
  else if (path.length > 1)
    path.push("active");
  const at = field === CODES.FIELD_REQUEST ? side : index;
  return [...path, LISTS[field] ? `${LISTS[field]}[${at - 1}]` : FIELDS[field]].join(".");
}

// The value at a path of a state; undefined if there is none.
function valueAt(state, path) {
  return path.match(/\w+/g).slice(1).reduce((it, key) => it?.[key], state);
}

// The error text: the wrong value and the valid ones.
function faultWords(of, path, {value, low, high}) {
  const {field} = of;
  if (field === CODES.FIELD_TIED_CONDITION) return `${path} is ${shown(value)}, which the current move does not cause`;
  if (of.value >= of.low && of.value <= of.high)
    return `${path} is ${shown(value)}, which does not fit the other fields`;
  return `${path} is ${shown(value)}, not ${low === high ? shown(valueOf(field, of.low)) : `${low} to ${high}`}`;
}

/** The error for the field that is wrong. For a condition the library has the bit, and the state a place in its list. */
export function stateError(found, state) {
  const of = {...found};
  if (of.field === CODES.FIELD_UNNAMED)
    return new StateError("the fields of the state do not fit together", CODES.ERROR_STATE, {...of, field: ""});
  if (of.field === CODES.FIELD_TIED_CONDITION) {
    const {active} = of.side === 1 ? state.one : state.two;
    of.index = Array.from(active.conditions).indexOf(CONDITIONS[of.index]) + 1;
  }
  const path = pathOf(of);
  const value = valueAt(state, path) ?? valueOf(of.field, of.value);
  const least = of.field === CODES.FIELD_STAGE ? MIDDLE : 0;
  const lawful = {value, low: of.low - least, high: of.high - least};
  return new StateError(faultWords(of, path, lawful), CODES.ERROR_STATE, {...of, field: path, ...lawful});
}

/** A block with the battle in a state. */
export function blockOfState(library, state) {
  const bytes = bytesOf("gen1_state", library.isLong, stateForm(library, state));
  library.begin();
  const [block, from, fault] = [library.arena.block(), library.put(bytes), library.roomOf("gen1_state_fault")];
  if (!library.calls.gen1_set_state(block.pointer, from, fault)) return block;
  library.arena.free(block);
  throw stateError(library.readStruct("gen1_state_fault", fault), state);
}

/** Whether a value is meant as a state: an object with a key of one, which no part of a state has. */
export function isState(value) {
  return typeof value === "object" && value !== null && STATE_KEYS.some((key) => Object.hasOwn(value, key));
}

/** The place of a member of a state's side; refuses a place without a member. */
export function memberAt(state, side, place) {
  const {members} = side === 1 ? state.one : state.two;
  if (within(place, "place", 1, MOST_MEMBERS) > members.length)
    throw new ArgumentError(
        `place is ${place}: side ${side} has only ${members.length} member${members.length === 1 ? "" : "s"}`, "place");
  return members[place - 1];
}
