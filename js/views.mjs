// States, results, odds and players as objects, with names in place of the library's numbers.
import {CODES} from "./header.mjs";
import {offsetsOf} from "./structs.mjs";
import {MOVE_ROWS, MOVES, SPECIES, TYPES} from "./tables.mjs";

// The column of a move's effect in its row.
const EFFECT = 4;

// The names of the header's codes with this prefix, in the order of their numbers: BAD_POISON is "bad poison".
export function namesOf(start) {
  const found = Object.entries(CODES).filter(([name]) => name.startsWith(start)).sort(([, one], [, two]) => one - two);
  return Object.freeze(found.map(([name]) => name.slice(start.length).replaceAll("_", " ").toLowerCase()));
}

/** The statuses of a member, by number. */
export const STATUSES = namesOf("STATUS_");
/** The conditions of an active member, by bit (docs/LAYOUT.md, "Condition bits"). */
export const CONDITIONS = namesOf("CONDITION_");
/** The outcomes, by number. */
export const OUTCOMES = Object.freeze(["ongoing", "win one", "win two", "tie", "fault 1", "fault 2"]);
/** The requests to a side, by number. */
export const REQUESTS = Object.freeze(["pass", "move", "switch"]);
/** The stats with stages, in the order of a list of stages. */
export const STATS = namesOf("STAT_");
/** Why a use of a move can't hit or can't work, by the number less 1 (include/gen1.h, GEN1_ODDS_FALLEN and so on). */
export const REASONS = Object.freeze([
  "the user or the foe has no HP",
  "the engine leaves the move out",
  "the move always fails",
  "the foe is immune to the move's type",
  "the damage is 0",
  "the battle would end with a fault",
  "the user is slower than the foe",
  "there is no damage to counter",
  "Bide has stored no damage",
  "the foe is awake",
  "the foe is out of reach",
  "Mist guards the foe",
  "the foe's substitute keeps the move away",
  "the foe has a status",
  "the foe's type guards it",
  "the foe is confused",
  "the foe is seeded",
  "one of the foe's moves is disabled",
  "none of the foe's moves has PP",
  "the stage or the stat is at its end",
  "the sleep clause holds",
  "the user has it already",
  "the user's HP don't allow it",
]);
// What put a member to sleep, by number.
const ASLEEP_BY = [null, "move", "rest"];
const MIDDLE = 6;

// The objects for the numbers that gen1_result returns.
const RESULTS = new Array(128).fill(null);

/** The object for a number that gen1_result returns. Each number has one object, which is frozen. */
export function resultOf(answer) {
  return (RESULTS[answer] ??= Object.freeze({
    outcome: OUTCOMES[answer & 7],
    requests: Object.freeze([REQUESTS[(answer >> 3) & 3], REQUESTS[(answer >> 5) & 3]]),
  }));
}

// Offsets in the structs that are read often. None has a field whose size depends on the module.
const STATE = offsetsOf("gen1_state");
const SIDE_STATE = offsetsOf("gen1_side_state");
const MEMBER_STATE = offsetsOf("gen1_member_state");
const ACTIVE_STATE = offsetsOf("gen1_active_state");
const OWN_SIDE = offsetsOf("gen1_own_side");
const OWN_MEMBER = offsetsOf("gen1_own_member");
const OWN_AT = offsetsOf("gen1_player").own;
const MOST_MEMBERS = 6;
const MOST_MOVES = 4;

const word = (bytes, at) => bytes[at] | (bytes[at + 1] << 8);
const fourWords = (bytes, at) => [word(bytes, at), word(bytes, at + 2), word(bytes, at + 4), word(bytes, at + 6)];
const typesAt = (bytes, at) => [TYPES[bytes[at]], TYPES[bytes[at + 1]]];
const stagesOf = (stages) => Array.from(stages, (stage) => stage - MIDDLE);

function stagesAt(bytes, at) {
  const found = [];
  for (let stat = 0; stat < STATS.length; stat++) found.push(bytes[at + stat] - MIDDLE);
  return found;
}

function conditionsAt(bytes, at) {
  const found = [];
  const bits = word(bytes, at) | (word(bytes, at + 2) << 16);
  for (let bit = 0; bits >> bit; bit++)
    if ((bits >> bit) & 1) found.push(CONDITIONS[bit]);
  return found;
}

// Adds the moves and PP, HP and stats of a member, whose fields have these offsets.
function withMoves(member, bytes, at, of) {
  for (let slot = 0; slot < MOST_MOVES; slot++) {
    const move = bytes[at + of.moves + slot];
    if (!move) continue;
    member.moves.push(MOVES[move - 1]);
    member.pp.push(bytes[at + of.pp + slot]);
  }
  member.hp = word(bytes, at + of.hp);
  member.maxHp = word(bytes, at + of.maxHp);
  member.stats = fourWords(bytes, at + of.stats);
  return member;
}

function memberState(bytes, at) {
  const of = MEMBER_STATE;
  const member = {
    species: SPECIES[bytes[at + of.species] - 1],
    level: bytes[at + of.level],
    status: STATUSES[bytes[at + of.status]],
    sleep: bytes[at + of.sleep],
    marked: bytes[at + of.marked] === 1,
    moves: [],
    pp: [],
    hp: 0,
    maxHp: 0,
    stats: null,
  };
  return withMoves(member, bytes, at, of);
}

function activeState(bytes, at) {
  const of = ACTIVE_STATE;
  if (!bytes[at + of.place]) return null;
  return {
    place: bytes[at + of.place],
    types: typesAt(bytes, at + of.types),
    stats: fourWords(bytes, at + of.stats),
    stages: stagesAt(bytes, at + of.stages),
    conditions: conditionsAt(bytes, at + of.conditions),
    currentMove: bytes[at + of.currentMove],
    pickedMove: bytes[at + of.pickedMove],
    keptAccuracy: bytes[at + of.keptAccuracy],
    substitute: bytes[at + of.substitute],
    confusion: bytes[at + of.confusion],
    disabledSlot: bytes[at + of.disabledSlot],
    disabledTurns: bytes[at + of.disabledTurns],
    badPoison: bytes[at + of.badPoison],
    turns: bytes[at + of.turns],
    energy: word(bytes, at + of.energy),
  };
}

function sideState(bytes, at) {
  const members = [];
  for (let place = 0; place < MOST_MEMBERS; place++) {
    const member = at + SIDE_STATE.members + place * MEMBER_STATE.size;
    if (bytes[member + MEMBER_STATE.species]) members.push(memberState(bytes, member));
  }
  return {members, active: activeState(bytes, at + SIDE_STATE.active)};
}

/** The object of a gen1_state. */
export function stateOf(bytes, at) {
  const of = STATE;
  return {
    one: sideState(bytes, at + of.sides),
    two: sideState(bytes, at + of.sides + SIDE_STATE.size),
    turn: word(bytes, at + of.turn),
    limit: word(bytes, at + of.limit),
    lastDamage: word(bytes, at + of.lastDamage),
    rules: bytes[at + of.rules],
    outcome: OUTCOMES[bytes[at + of.outcome]],
    requests: [REQUESTS[bytes[at + of.requests]], REQUESTS[bytes[at + of.requests + 1]]],
    index: bytes[at + of.index],
    numbers: Array.from(bytes.subarray(at + of.numbers, at + of.numbers + 10)),
  };
}

function ownMember(bytes, at) {
  const of = OWN_MEMBER;
  const member = {
    species: SPECIES[bytes[at + of.species] - 1],
    level: bytes[at + of.level],
    status: STATUSES[bytes[at + of.status]],
    moves: [],
    pp: [],
    hp: 0,
    maxHp: 0,
    stats: null,
  };
  return withMoves(member, bytes, at, of);
}

function ownActive(bytes, at) {
  const of = OWN_SIDE;
  return {
    place: bytes[at + of.place],
    types: typesAt(bytes, at + of.types),
    stats: fourWords(bytes, at + of.stats),
    stages: stagesAt(bytes, at + of.stages),
    conditions: conditionsAt(bytes, at + of.conditions),
    disabledSlot: bytes[at + of.disabledSlot],
    held: bytes[at + of.held] === 1,
  };
}

/** The object of a gen1_own_side. */
export function ownSideOf(bytes, at) {
  const of = OWN_SIDE;
  const members = [];
  for (let place = 0; place < bytes[at + of.count]; place++)
    members.push(ownMember(bytes, at + of.members + place * OWN_MEMBER.size));
  return {
    members,
    active: bytes[at + of.place] ? ownActive(bytes, at) : null,
    turn: word(bytes, at + of.turn),
    request: REQUESTS[bytes[at + of.request]],
    outcome: OUTCOMES[bytes[at + of.outcome]],
  };
}

function shownSide({members, count, stages, place, ...up}) {
  const truths = Object.entries(up).map(([name, bit]) => [name, bit === 1]);
  return {
    members: members.slice(0, count).map(({hp, status}) => ({hp, status: STATUSES[status]})),
    place,
    stages: stagesOf(stages),
    ...Object.fromEntries(truths),
  };
}

/** The object of a gen1_spectator. */
export function shownOf({sides, turn, outcome}) {
  const [one, two] = sides.map(shownSide);
  return {one, two, turn, outcome: OUTCOMES[outcome]};
}

const damagesOf = ({numbers, count, code}) => ({numbers: numbers.slice(0, count), code});

/** The object of a gen1_odds for the move with this number. Chances are multiples of 1/256, so each is exact. */
export function oddsOf(library, move, odds) {
  const {usual, critical, criticalDraws, hitDraws, least, most, hits, reason, chargesFirst} =
      library.readStruct("gen1_odds", odds);
  return {
    usual: damagesOf(usual),
    critical: damagesOf(critical),
    criticalChance: criticalDraws / 256,
    hitChance: hitDraws / 256,
    reason: REASONS[reason - 1] ?? null,
    fixed: most ? [least, most] : null,
    oneHit: MOVE_ROWS[move - 1][EFFECT] === "OneHitKnockOut",
    hits: hits.map((eighths) => eighths / 8),
    chargesFirst: chargesFirst === 1,
    takesHitTest: library.calls.gen1_takes_hit_test(move) === 1,
  };
}

/** The object of a gen1_action_odds. The ways are at most 2^32, which a number holds exactly. */
export function actionOddsOf({acts, actsOf, hits, hitsOf, sideEffect, holds}) {
  return {
    acts,
    actsOf,
    hits,
    hitsOf,
    chanceToAct: acts / actsOf,
    chanceToHit: hits / hitsOf,
    sideEffectChance: sideEffect / 256,
    holdChance: holds / 256,
  };
}

/** The object of a gen1_chances. The ways are at most the square of 20,447,232, which a number holds exactly. */
export function chancesOf({breaksSubstitute, ...ways}) {
  return {
    ...ways,
    breaksSubstitute: breaksSubstitute === 1,
    chanceOnce: ways.once / ways.onceOf,
    chanceTwice: ways.twice / ways.twiceOf,
  };
}

/** The object of a gen1_three_chances. The ways of three uses have up to 73 bits, so only their quotient is there, rounded. */
export function threeChancesOf({thrice, thriceOf, ...two}) {
  const whole = ({low, high}) => high * 2 ** 64 + low;
  return {...chancesOf(two), chanceThrice: whole(thrice) / whole(thriceOf)};
}

function seenMember({species, level, status, hp, max, moves, asleepBy, slept}) {
  const used = moves.filter(({id}) => id).map(({id, uses}) => ({name: MOVES[id - 1], uses}));
  return {
    species: SPECIES[species - 1],
    level,
    status: STATUSES[status],
    asleepBy: ASLEEP_BY[asleepBy] ?? null,
    slept,
    hp,
    maxHp: max,
    moves: used
  };
}

// "focusEnergy" as "focus energy".
const wordsOf = (key) => key.replace(/[A-Z]/g, (letter) => ` ${letter.toLowerCase()}`);

function publicSide({members, stages, place, firstType, secondType, lastMove, announced, invulnerable}) {
  const {toxicCount, ...flags} = announced;
  const active = {
    place,
    types: [TYPES[firstType], TYPES[secondType]],
    stages: stagesOf(stages),
    lastMove: MOVES[lastMove - 1] ?? null,
    announced: Object.entries({...flags, invulnerable}).filter(([, flag]) => flag).map(([key]) => wordsOf(key)),
    toxicCount
  };
  return {members: members.filter((it) => it.species).map(seenMember), active: place ? active : null};
}

/** The object of a gen1_player, from its bytes and its struct. */
export function viewOf(bytes, {known, own, side, foes}) {
  const [ownPublic, foe] = [known.sides[side - 1], known.sides[2 - side]].map(publicSide);
  const shown = own.count ? ownSideOf(bytes, OWN_AT) : null;
  return {side, turn: known.turn, outcome: OUTCOMES[known.outcome], own: shown, ownPublic, foe, foes: foes || null};
}
