// Compares the module with recorded battles (tests/battles), in any JavaScript host.
import * as library from "../gen1.mjs";
import {CODES} from "../header.mjs";

import {badInput, badSources} from "./faults.mjs";
import {bytesOfHex, equal, hexOf, holds} from "./holding.mjs";
import {uses} from "./uses.mjs";
import {worked} from "./worked.mjs";

const {SPECIES, MOVES, TYPES} = library;
const KINDS_OF_STATUS = {
  0: "none",
  8: "poison",
  16: "burn",
  32: "freeze",
  64: "paralysis"
};
// The state is read after one of this many updates, since that takes ten times the time of an update.
const VIEWED = 3;
const wordOf = (bytes, at) => bytes[at] + 256 * bytes[at + 1];
const wordsOf = (bytes, ...places) => places.map((at) => wordOf(bytes, at));
// The refusals of a room, in the order of their numbers in recordings, from 1 on (docs/PROGRAM.md, "room").
const ROOM_REFUSALS = [CODES.ERROR_OVER, CODES.ERROR_STALE, CODES.ERROR_CHOSEN, CODES.ERROR_NOT_OFFERED];
const linesOf = (texts) => texts.map((line) => `${line}\n`).join("");

// What a battle is made of, from an input, which also has choices.
const termsOf = ({one, two, seed, rules, limit}) => ({one, two, seed, rules, limit});

// What `run` prints of an input, and how it ends.
function run(gen1, asked) {
  let text = "";
  let battle;
  try {
    battle = gen1.battle(termsOf(asked));
  } catch (fault) {
    if (!(fault instanceof library.TeamError)) throw fault;
    return [text, `error: team ${fault.side} place ${fault.place} refusal ${fault.code}\n`];
  }
  for (const [number, [one, two]] of asked.choices.entries()) {
    try {
      text += linesOf(battle.update(one, two).lines);
    } catch (fault) {
      return [text, `error: pair ${number} refused ${fault.code - CODES.ERROR_OVER + 1}\n`];
    }
  }
  return [text, ""];
}

function battleCase(gen1, one) {
  const [text, fault] = run(gen1, JSON.parse(one.input));
  equal(text, one.stdout);
  if ("stderr" in one) equal(fault, one.stderr);
}

// A member, by its 24 bytes (docs/LAYOUT.md, "Member").
function memberOf(bytes) {
  const slots = [0, 1, 2, 3].filter((slot) => bytes[15 + slot]);
  const [maxHp, hp, ...stats] = wordsOf(bytes, 2, 4, 6, 8, 10, 12);
  const [status, sleep] = [KINDS_OF_STATUS[bytes[14]] ?? "sleep", bytes[14] < 8 ? bytes[14] : 0];
  const moves = slots.map((slot) => MOVES[bytes[15 + slot] - 1]);
  return {
    species: SPECIES[bytes[0] - 1],
    level: bytes[1],
    status,
    sleep,
    marked: bytes[23] === 1,
    moves,
    pp: slots.map((slot) => bytes[19 + slot]),
    hp,
    maxHp,
    stats,
  };
}

// The member that is out, by the 36 bytes of the active block (docs/LAYOUT.md, "Active block").
function activeOf(bytes) {
  if (!bytes[0]) return null;
  const [substitute, confusion, disabledSlot, disabledTurns, badPoison, turns] = bytes.slice(21, 27);
  const [currentMove, pickedMove, keptAccuracy] = bytes.slice(29, 32);
  const bits = wordOf(bytes, 17) + 65536 * wordOf(bytes, 19);
  return {
    stats: wordsOf(bytes, 9, 11, 13, 15),
    energy: wordOf(bytes, 27),
    place: bytes[0],
    currentMove,
    pickedMove,
    keptAccuracy,
    substitute,
    confusion,
    disabledSlot,
    disabledTurns,
    badPoison,
    turns,
    types: [TYPES[bytes[1]], TYPES[bytes[2]]],
    stages: Array.from(bytes.slice(3, 9), (it) => it - 6),
    conditions: library.CONDITIONS.filter((_, bit) => (bits >> bit) & 1),
  };
}

// The state in 384 bytes (docs/LAYOUT.md).
function stateOf(bytes) {
  const [one, two] = [24, 204].map((at) => {
    const places = [0, 1, 2, 3, 4, 5].map((place) => bytes.slice(at + 24 * place, at + 24 * place + 24));
    return {members: places.filter((it) => it[0]).map(memberOf), active: activeOf(bytes.slice(at + 144, at + 180))};
  });
  const [turn, lastDamage, limit] = wordsOf(bytes, 1, 3, 20);
  const [outcome, requests] = [library.OUTCOMES[bytes[16]], [bytes[17], bytes[18]].map((it) => library.REQUESTS[it])];
  return {
    one,
    two,
    turn,
    limit,
    lastDamage,
    rules: bytes[19],
    index: bytes[5],
    numbers: Array.from(bytes.slice(6, 16)),
    outcome,
    requests
  };
}

// What of a state a spectator knows after the log of each update (docs/MECHANICS.md, "Spectator's view").
function shownOf({one, two, turn, outcome}) {
  const sides = [one, two].map(({members, active}) => {
    const is = (condition) => active?.conditions.includes(condition) ?? false;
    const [place, stages] = active ? [active.place, active.stages] : [0, [0, 0, 0, 0, 0, 0]];
    return {
      members: members.map(({hp, status}) => ({hp, status})),
      place,
      stages,
      substitute: is("substitute"),
      confused: is("confused"),
      lightScreen: is("light screen"),
      reflect: is("reflect"),
    };
  });
  return {one: sides[0], two: sides[1], turn, outcome};
}

// A recorded battle, update by update: log, bytes, choices, state, and what a spectator knows.
function traceCase(gen1, one) {
  const battle = gen1.battle(termsOf(one.object));
  const spectator = gen1.spectator(one.object.one, one.object.two);
  const players = [1, 2].map((side) => [gen1.teller({side, pixels: false}),
                                 gen1.player({side, team: side === 1 ? one.object.one : one.object.two})]);
  for (const [number, update] of one.updates.entries()) {
    let log = "";
    let refused = null;
    try {
      log = hexOf(battle.update(...update.pair).log);
    } catch (fault) {
      refused = fault.code - CODES.ERROR_OVER + 1;
    }
    equal([refused, log], [update.refused, update.log]);
    equal(hexOf(battle.bytes), update.bytes);
    stands(battle, update);
    const [given, middle] = [bytesOfHex(log), log.length >> 2];
    for (const piece of [given.subarray(0, middle), given.subarray(middle)]) spectator.feed(piece);
    // A refused pair has no log to report.
    for (const [teller, player] of players)
      if (refused === null)
        teller.report(battle, given, player);
      else
        player.show(battle);
    if (number % VIEWED) continue;
    const state = stateOf(bytesOfHex(update.bytes));
    viewed(battle, spectator, state);
    equal(hexOf(gen1.battleOfState(battle.state).bytes), update.bytes);
    for (const [, player] of players) isKnown(battle, player, state);
  }
  roomCase(gen1, one.object, one.updates.filter((it) => it.refused === null));
}

// Calls on the battle after a recorded update.
function stands(battle, update) {
  const offered = [1, 2].map((side) => battle.choices(side).map(library.byteOf));
  equal(offered, update.offered);
  const masks = [1, 2].map(
      (side) =>
          library.CHOICES.filter((_, bit) => (battle.offeredMask(side) >> bit) & 1).map((it) => library.byteOf(it)));
  equal(masks, update.offered);
}

// A battle's state, and what a spectator knows of it.
function viewed(battle, spectator, state) {
  equal(sorted(battle.state), sorted(state));
  equal(spectator.state, shownOf(state));
}

// What a side is shown of itself in a state (docs/MECHANICS.md, "What a side is shown of itself").
function ownOf({one, two, turn, requests, outcome}, side) {
  const [{members, active}, foe] = side === 1 ? [one, two] : [two, one];
  const shown = members.map(({sleep, marked, ...rest}) => rest);
  if (!active) return {members: shown, active, turn, request: requests[side - 1], outcome};
  const {place, types, stats, stages, disabledSlot} = active;
  const [conditions, held] =
      [active.conditions.filter((it) => it !== "flinch"), foe.active.conditions.includes("trapping")];
  return {
    members: shown,
    active: {place, types, stats, stages, conditions, disabledSlot, held},
    turn,
    request: requests[side - 1],
    outcome
  };
}

// What a player knows of a battle's state.
function isKnown(battle, player, state) {
  const {side, own, foe, ownPublic, turn, outcome} = player.view;
  const [mine, other] = side === 1 ? [state.one, state.two] : [state.two, state.one];
  equal([sorted(own), turn, outcome], [sorted(ownOf(state, side)), state.turn, state.outcome]);
  equal(player.choices, battle.choices(side));
  const healthOf = (it) => [it.species, it.level, it.status, it.hp, it.maxHp];
  equal(ownPublic.members.map(healthOf), mine.members.map(healthOf));
  if (!other.active) return;
  equal([healthOf(foe.members[foe.active.place - 1]), foe.active.stages],
      [healthOf(other.members[other.active.place - 1]), other.active.stages]);
}

// An object with its keys sorted, also in the objects in it.
function sorted(value) {
  if (typeof value !== "object" || value === null || Array.isArray(value))
    return Array.isArray(value) ? value.map(sorted) : value;
  return Object.fromEntries(
      Object.entries(value).sort(([one], [two]) => (one < two ? -1 : 1)).map(([key, it]) => [key, sorted(it)]));
}

// A room case: the updates of the battle as two players' submissions, side 2 first in every other pair.
function roomCase(gen1, terms, [first, ...updates]) {
  const room = gen1.room(gen1.battle(termsOf(terms)));
  equal([hexOf(room.log), hexOf(room.battle.bytes)], [first.log, first.bytes]);
  for (const [number, update] of updates.entries()) {
    const due = [1, 2].filter((side) => room.choices(side).length);
    for (const side of number % 2 ? due.reverse() : due) room.submit(side, number, update.pair[side - 1]);
    equal([room.number, hexOf(room.log), hexOf(room.battle.bytes)], [number + 1, update.log, update.bytes]);
  }
}

// What `battle_tool room` prints (docs/PROGRAM.md, "room").
function submissionsCase(gen1, one) {
  const {submissions, ...terms} = JSON.parse(one.input);
  const room = gen1.room(gen1.battle(terms));
  const told = gen1.lines(room.log);
  for (const submission of submissions) {
    try {
      const update = room.submit(...submission);
      told.push(...(update ? ["|room|advanced", ...update.lines] : ["|room|waiting"]));
    } catch (fault) {
      if (!(fault instanceof library.RoomError)) throw fault;
      told.push(`|room|refused|${ROOM_REFUSALS.indexOf(fault.code) + 1}${
          fault.code === CODES.ERROR_STALE ? `|${fault.current}` : ""}`);
    }
  }
  equal(linesOf(told), one.stdout);
}

// Whether all names are those of the tables. The package reads other spellings too; the program that was recorded refuses them.
function isExact({attacker, defender, move}) {
  const known = [move, ...[attacker, defender].flatMap(({moves}) => moves.map(([name]) => name))];
  return known.every((name) => library.MOVES.includes(name)) &&
      [attacker, defender].every(({species}) => library.SPECIES.includes(species));
}

function damageCase(gen1, one) {
  const asked = JSON.parse(one.input);
  let text = "";
  try {
    const battle = gen1.battle({one: [asked.attacker], two: [asked.defender], seed: Array(10).fill(0)});
    battle.update("pass", "pass");
    text = `${battle.damage(1, asked.move, asked.critical).join(" ")}\n`;
    equal(gen1.damage(asked.attacker, asked.defender, asked.move, asked.critical),
        battle.damage(1, asked.move, asked.critical));
    equal(gen1.odds(asked.attacker, asked.defender, asked.move), battle.odds(1, asked.move));
    if (!isExact(asked)) text = "";
  } catch (fault) {
    holds(fault instanceof library.Gen1Error || fault instanceof RangeError, fault.message);
  }
  equal(text, one.stdout);
}

function logCase(gen1, one) {
  let text = "";
  let fault = "";
  try {
    text = linesOf(gen1.lines(bytesOfHex(one.hex)));
    equal(gen1.events(bytesOfHex(one.hex)).length, gen1.lines(bytesOfHex(one.hex)).length);
    equal(hexOf(gen1.logBytes(gen1.events(bytesOfHex(one.hex)))), one.hex);
  } catch (error) {
    fault = `error: log ${error.code - CODES.ERROR_LOG_TAG + 1}\n`;
  }
  equal([text, fault], [one.stdout, one.stderr]);
}

// A byte string, by the number of the load fault and its hexadecimal digits.
function loadCase(gen1, [fault, hex = ""]) {
  const wanted = Number(fault) ? Number(fault) + CODES.ERROR_LOAD_LENGTH - 1 : 0;
  let code = 0;
  try {
    holds(gen1.load(bytesOfHex(hex)).bytes.length === 384, "no 384 bytes");
  } catch (error) {
    code = error.code;
  }
  equal([code, gen1.testBytes(bytesOfHex(hex))], [wanted, wanted]);
}

const KINDS = {
  battles: battleCase,
  first_path: battleCase,
  limit: battleCase,
  rules: battleCase,
  traces: traceCase,
  corners: traceCase,
  calc: damageCase,
  print: logCase,
  room: submissionsCase,
};

/**
 * Runs all checks, and returns how many passed and what failed. `linesIn(name)` iterates over the lines of a recorded file; there are
 * none if the file doesn't exist.
 */
export async function checks(gen1, linesIn) {
  let passed = 0;
  const faults = [];
  const check = (name, test) => {
    try {
      test();
      passed++;
    } catch (fault) {
      faults.push(`${name}: ${fault.message}`);
    }
  };
  for (const [kind, held] of Object.entries(KINDS))
    for await (const line of linesIn(`${kind}.jsonl`)) {
      const one = JSON.parse(line);
      check(one.name ?? one.corner ?? kind, () => held(gen1, one));
    }
  let loads = 0;
  for await (const line of linesIn("loads.txt")) check(`byte string ${++loads}`, () => loadCase(gen1, line.split(" ")));
  worked(gen1, check);
  badInput(gen1, check);
  await badSources(check);
  check("uses, by their types", () => uses(gen1));
  return {passed, faults};
}
