// Uses of the library that are checked twice: `tsc -p tsconfig.json` holds them against gen1.d.mts, and `uses` runs them. So the types
// say what the module does: each key of a type is there and no other, and what a type refuses is refused by the module too.
import * as library from "../gen1.mjs";

import {equal, holds, thrown} from "./holding.mjs";
import {usesOfHosts, usesOfViewers} from "./host_uses.mjs";

/** @typedef {import("../gen1.mjs").Gen1} Gen1 */
/** @template T @typedef {Exclude<keyof T, symbol>} Named the keys that are texts */
const {
  Battle,
  BattleArray,
  CANT_REASONS,
  CHOICES,
  CONDITIONS,
  Host,
  Message,
  Notice,
  Outcomes,
  OUTCOMES,
  Player,
  REQUESTS,
  Room,
  Row,
  STATS,
  STATUSES,
  Team,
  Teller,
  Update
} = library;

/** @type {Record<Exclude<keyof typeof library, "default">, true>} */
const EXPORTS = {
  ArgumentError: true,
  ArgumentTypeError: true,
  Battle: true,
  BattleArray: true,
  byteOf: true,
  CANT_REASONS: true,
  CHOICES: true,
  choiceOf: true,
  COLUMNS: true,
  CONDITIONS: true,
  DAMAGE_SOURCES: true,
  DamageError: true,
  EVENT_KINDS: true,
  FAULTS: true,
  FreedError: true,
  Gen1: true,
  Gen1Error: true,
  HAS_LONG_MEMORIES: true,
  Host: true,
  HostError: true,
  load: true,
  LOG_ROOM: true,
  LoadError: true,
  LogError: true,
  MemoryError: true,
  Message: true,
  ModuleError: true,
  MOVES: true,
  Narrator: true,
  Notice: true,
  Outcomes: true,
  OUTCOMES: true,
  Player: true,
  REASONS: true,
  RefusedError: true,
  REQUESTS: true,
  Room: true,
  RoomError: true,
  Row: true,
  ROW_KINDS: true,
  SPECIES: true,
  Spectator: true,
  StateError: true,
  STATS: true,
  STATUSES: true,
  Team: true,
  TeamError: true,
  Teller: true,
  TextError: true,
  TYPES: true,
  Update: true,
  VOLATILES: true,
};
/** @type {Record<keyof Gen1, true>} */
const OF_GEN1 = {
  is64: true,
  memorySize: true,
  build: true,
  version: true,
  libraryBuild: true,
  battle: true,
  team: true,
  battleArray: true,
  load: true,
  testBytes: true,
  battleOfState: true,
  room: true,
  host: true,
  hostOfBytes: true,
  messageOfBytes: true,
  noticeOfBytes: true,
  messageOfJSON: true,
  noticeOfJSON: true,
  playerOfBytes: true,
  tellerOfBytes: true,
  spectatorOfBytes: true,
  roomOfBytes: true,
  spectator: true,
  player: true,
  teller: true,
  randomTeam: true,
  sampleTeam: true,
  teamFromText: true,
  teamFromPacked: true,
  teamToText: true,
  teamToPacked: true,
  odds: true,
  damage: true,
  base: true,
  moveData: true,
  effectiveness: true,
  stats: true,
  drained: true,
  recoil: true,
  events: true,
  lines: true,
  narrator: true,
  logBytes: true,
};
/** @type {Record<Named<import("../gen1.mjs").Battle>, true>} */
const OF_BATTLE = {
  bytes: true,
  result: true,
  isOver: true,
  state: true,
  clone: true,
  copyFrom: true,
  free: true,
  toJSON: true,
  choices: true,
  offeredMask: true,
  words: true,
  choiceFromWords: true,
  update: true,
  updateSilent: true,
  reseed: true,
  playout: true,
  outcomes: true,
  odds: true,
  actionOdds: true,
  damage: true,
  knockOut: true,
  knockOutInThree: true,
  ownSide: true,
  withState: true,
  withHp: true,
  withStatus: true,
  withStage: true,
};
/** @type {Record<Named<import("../gen1.mjs").Outcomes>, true>} */
const OF_OUTCOMES = {
  length: true,
  whole: true,
  leftOut: true,
  leftOutProbability: true,
  at: true
};
/** @type {Record<Named<import("../gen1.mjs").OutcomeAt>, true>} */
const OF_OUTCOME = {
  battle: true,
  probability: true,
  weight: true
};
/** @type {Record<Named<import("../gen1.mjs").Player>, true>} */
const OF_PLAYER = {
  side: true,
  hpForm: true,
  rules: true,
  limit: true,
  bytes: true,
  view: true,
  choices: true,
  clone: true,
  feed: true,
  show: true,
  receive: true,
  toJSON: true
};
/** @type {Record<Named<import("../gen1.mjs").Team>, true>} */
const OF_TEAM = {
  length: true,
  members: true,
  toJSON: true
};
/** @type {Record<Named<import("../gen1.mjs").Teller>, true>} */
const OF_TELLER = {
  side: true,
  hpForm: true,
  bytes: true,
  clone: true,
  tell: true,
  report: true
};
/** @type {Record<Named<import("../gen1.mjs").BattleArray>, true>} */
const OF_ARRAY = {
  length: true,
  results: true,
  codes: true,
  bytes: true,
  at: true,
  masks: true,
  step: true,
  randomStep: true,
  observe: true,
  player: true,
  playouts: true,
  reseed: true,
  reset: true,
  take: true,
  free: true,
};
/** @type {Record<Named<import("../gen1.mjs").PlayerView>, true>} */
const OF_VIEW = {
  side: true,
  turn: true,
  outcome: true,
  own: true,
  ownPublic: true,
  foe: true,
  foes: true
};
/** @type {Record<Named<import("../gen1.mjs").OwnSide>, true>} */
const OF_OWN_SIDE = {
  members: true,
  active: true,
  turn: true,
  request: true,
  outcome: true
};
/** @type {Record<Named<import("../gen1.mjs").OwnMember>, true>} */
const OF_OWN_MEMBER = {
  species: true,
  level: true,
  status: true,
  moves: true,
  pp: true,
  hp: true,
  maxHp: true,
  stats: true
};
/** @type {Record<Named<import("../gen1.mjs").OwnActive>, true>} */
const OF_OWN_ACTIVE = {
  place: true,
  types: true,
  stats: true,
  stages: true,
  conditions: true,
  disabledSlot: true,
  held: true
};
/** @type {Record<Named<import("../gen1.mjs").SeenMember>, true>} */
const OF_SEEN = {
  species: true,
  level: true,
  status: true,
  asleepBy: true,
  slept: true,
  hp: true,
  maxHp: true,
  moves: true
};
/** @type {Record<Named<import("../gen1.mjs").SeenActive>, true>} */
const OF_SEEN_ACTIVE = {
  place: true,
  types: true,
  stages: true,
  lastMove: true,
  announced: true,
  toxicCount: true
};
/** @type {Record<Named<import("../gen1.mjs").ActionOdds>, true>} */
const OF_ACTION_ODDS = {
  acts: true,
  actsOf: true,
  hits: true,
  hitsOf: true,
  chanceToAct: true,
  chanceToHit: true,
  sideEffectChance: true,
  holdChance: true
};
/** @type {Record<Named<import("../gen1.mjs").KnockOut>, true>} */
const OF_KNOCK_OUT = {
  once: true,
  onceOf: true,
  twice: true,
  twiceOf: true,
  breaksSubstitute: true,
  chanceOnce: true,
  chanceTwice: true
};
/** @type {Record<Named<import("../gen1.mjs").KnockOutInThree>, true>} */
const OF_KNOCK_OUT_IN_THREE = {
  ...OF_KNOCK_OUT,
  chanceThrice: true
};
/** @type {Record<Named<import("../gen1.mjs").Update>, true>} */
const OF_UPDATE = {
  result: true,
  log: true,
  events: true,
  lines: true,
  toJSON: true
};
/** @type {Record<Named<import("../gen1.mjs").State>, true>} */
const OF_STATE = {
  one: true,
  two: true,
  turn: true,
  limit: true,
  lastDamage: true,
  rules: true,
  outcome: true,
  requests: true,
  index: true,
  numbers: true
};
/** @type {Record<Named<import("../gen1.mjs").MemberState>, true>} */
const OF_MEMBER = {
  species: true,
  level: true,
  status: true,
  sleep: true,
  marked: true,
  moves: true,
  pp: true,
  hp: true,
  maxHp: true,
  stats: true
};
/** @type {Record<Named<import("../gen1.mjs").ActiveState>, true>} */
const OF_ACTIVE = {
  place: true,
  types: true,
  stats: true,
  stages: true,
  conditions: true,
  currentMove: true,
  pickedMove: true,
  keptAccuracy: true,
  substitute: true,
  confusion: true,
  disabledSlot: true,
  disabledTurns: true,
  badPoison: true,
  turns: true,
  energy: true,
};
/** @type {Record<Named<import("../gen1.mjs").Odds>, true>} */
const OF_ODDS = {
  usual: true,
  critical: true,
  criticalChance: true,
  hitChance: true,
  reason: true,
  fixed: true,
  oneHit: true,
  hits: true,
  chargesFirst: true,
  takesHitTest: true,
};
/** @type {Record<Named<import("../gen1.mjs").Base>, true>} */
const OF_BASE = {
  hp: true,
  attack: true,
  defense: true,
  speed: true,
  special: true,
  types: true
};
/** @type {Record<Named<import("../gen1.mjs").MoveData>, true>} */
const OF_MOVE_DATA = {
  type: true,
  power: true,
  accuracy: true,
  pp: true,
  effect: true,
  priority: true,
  isHighCritical: true
};
/** @type {Record<Named<import("../gen1.mjs").Stats>, true>} */
const OF_STATS = {
  hp: true,
  attack: true,
  defense: true,
  speed: true,
  special: true
};
/** @type {Record<Named<import("../gen1.mjs").Playouts>, true>} */
const OF_PLAYOUTS = {
  winsOne: true,
  winsTwo: true,
  ties: true,
  faults: true
};
/** @type {Record<Named<import("../gen1.mjs").WholeMember>, true>} */
const OF_WHOLE_MEMBER = {
  species: true,
  level: true,
  dvs: true,
  exp: true,
  moves: true
};
// The names in docs/MECHANICS.md and docs/LAYOUT.md, in the order of their numbers and bits.
/** @type {Record<import("../gen1.mjs").Condition, true>} */
const ALL_CONDITIONS = {
  bide: true,
  thrash: true,
  trapping: true,
  flinch: true,
  charging: true,
  invulnerable: true,
  confused: true,
  mist: true,
  "focus energy": true,
  substitute: true,
  recharge: true,
  rage: true,
  seeded: true,
  "bad poison": true,
  "light screen": true,
  reflect: true,
  disabled: true,
};
/** @type {Record<import("../gen1.mjs").Status, true>} */
const ALL_STATUSES = {
  none: true,
  sleep: true,
  poison: true,
  burn: true,
  freeze: true,
  paralysis: true
};
/** @type {Record<import("../gen1.mjs").Stat, true>} */
const ALL_STATS = {
  attack: true,
  defense: true,
  speed: true,
  special: true,
  accuracy: true,
  evasion: true
};
/** @type {Record<import("../gen1.mjs").Outcome, true>} */
const ALL_OUTCOMES = {
  ongoing: true,
  "win one": true,
  "win two": true,
  tie: true,
  "fault 1": true,
  "fault 2": true
};
/** @type {Record<import("../gen1.mjs").Request, true>} */
const ALL_REQUESTS = {
  pass: true,
  move: true,
  switch: true
};
/** @type {Record<import("../gen1.mjs").EventKind, true>} */
const ALL_KINDS = {
  turn: true,
  switch: true,
  move: true,
  cant: true,
  damage: true,
  heal: true,
  crit: true,
  "super effective": true,
  resisted: true,
  immune: true,
  miss: true,
  fail: true,
  status: true,
  cure: true,
  boost: true,
  unboost: true,
  "clear all": true,
  start: true,
  end: true,
  activate: true,
  prepare: true,
  "must recharge": true,
  "hit count": true,
  "one hit knock out": true,
  faint: true,
  win: true,
  tie: true,
  fault: true,
};
/** @type {Record<import("../gen1.mjs").CantReason, true>} */
const ALL_REASONS = {
  asleep: true,
  frozen: true,
  "partially trapped": true,
  flinched: true,
  recharging: true,
  disabled: true,
  paralysed: true,
};
/** @type {Record<import("../gen1.mjs").DamageSource, true>} */
const ALL_SOURCES = {
  direct: true,
  poison: true,
  burn: true,
  "leech seed": true,
  recoil: true,
  confusion: true
};
/** @type {Record<import("../gen1.mjs").Volatile, true>} */
const ALL_VOLATILES = {
  confusion: true,
  bide: true,
  substitute: true,
  "leech seed": true,
  mist: true,
  "focus energy": true,
  "light screen": true,
  reflect: true,
  disable: true,
  "type change": true,
  trapped: true,
  rage: true,
  splash: true,
};
/** @type {Record<import("../gen1.mjs").Fault, true>} */
const ALL_FAULTS = {
  division: true,
  psywave: true
};
/** @type {Record<import("../gen1.mjs").ChoiceName, true>} */
const ALL_CHOICES = {
  pass: true,
  "move 0": true,
  "move 1": true,
  "move 2": true,
  "move 3": true,
  "move 4": true,
  "switch 1": true,
  "switch 2": true,
  "switch 3": true,
  "switch 4": true,
  "switch 5": true,
  "switch 6": true,
};

/** @type {import("../gen1.mjs").Member} */
const TAUROS = {
  species: "Tauros",
  level: 100,
  dvs: Uint8Array.of(15, 15, 15, 15),
  moves: [["Strength", 3], [34, 0]]
};
/** @type {import("../gen1.mjs").Terms} */
const TERMS = {
  one: [TAUROS],
  two: [TAUROS, {species: 94, moves: [["Splash", 3]]}],
  seed: new Uint8Array(10),
  rules: 3,
  limit: 9999
};

/** @param {object} found @param {Record<string, true>} wanted */
function hasKeys(found, wanted) {
  equal(Object.keys(found).sort(), Object.keys(wanted).sort());
}

// The members of a class of the module: its methods and getters, and the fields of an instance.
/** @param {object} one @param {Record<string, true>} wanted */
function offers(one, wanted) {
  const names = [...Object.getOwnPropertyNames(Object.getPrototypeOf(one)), ...Object.keys(one)].filter(
      (name) => name !== "constructor");
  equal(names.sort(), Object.keys(wanted).sort());
}

function lists() {
  hasKeys(library, EXPORTS);
  equal([CONDITIONS, STATUSES, STATS], [ALL_CONDITIONS, ALL_STATUSES, ALL_STATS].map(Object.keys));
  equal(
      [OUTCOMES, REQUESTS, CHOICES], [Object.keys(ALL_OUTCOMES), Object.keys(ALL_REQUESTS), Object.keys(ALL_CHOICES)]);
  equal([library.SPECIES.length, library.MOVES.length, library.TYPES.length, library.REASONS.length, library.LOG_ROOM],
      [151, 165, 15, 23, 512]);
  equal([library.EVENT_KINDS, CANT_REASONS, library.DAMAGE_SOURCES],
      [ALL_KINDS, ALL_REASONS, ALL_SOURCES].map(Object.keys));
  equal([library.VOLATILES, library.FAULTS], [ALL_VOLATILES, ALL_FAULTS].map(Object.keys));
  equal(CHOICES.map((choice) => library.choiceOf(library.byteOf(choice))), CHOICES);
}

/** @param {Gen1} gen1 */
function battles(gen1) {
  const battle = gen1.battle(TERMS);
  const update = battle.update("pass", 0);
  /** @type {readonly import("../gen1.mjs").ChoiceName[]} */
  const choices = battle.choices(1);
  /** @type {import("../gen1.mjs").ChoiceName} */
  const named = battle.choiceFromWords(1, "Strength");
  holds(choices.includes(named) && battle.words(1, "Strength") === "move 1 Strength", "another choice of words");
  holds(choices.every((choice) => typeof choice === "string") && typeof gen1.is64 === "boolean" &&
          /^\d+\.\d+\.\d+$/.test(gen1.version),
      "other types");
  holds(/^(plain, rustc .+, sources sha256 .+|unknown)$/.test(gen1.libraryBuild), "another build");
  for (const [one, wanted] of /** @type {[object, Record<string, true>][]} */ (
           [[gen1, OF_GEN1], [battle, OF_BATTLE], [update, OF_UPDATE]]))
    offers(one, wanted);
  const {one, two, outcome} = battle.state;
  holds(one.active !== null && two.members.length === 2 && outcome === "ongoing", "another state");
  hasKeys(battle.state, OF_STATE);
  hasKeys(one.members[0], OF_MEMBER);
  hasKeys(one.active ?? {}, OF_ACTIVE);
  const [event] = update.events;
  holds(event.kind === "switch" && event.species === "Tauros" && event.place === 1, "another event");
  holds(gen1.logBytes([...update.events, {kind: "win", side: 1}]).length === update.log.length + 2, "other log bytes");
  const team = gen1.team([TAUROS]);
  offers(team, OF_TEAM);
  holds(team instanceof Team && gen1.battle({...TERMS, one: team, two: team}).state.two.members.length === team.length,
      "another team");
  const copy = battle.clone();
  copy.copyFrom(battle);
  holds(JSON.stringify(copy) === JSON.stringify(battle.state), "another copy");
  copy.free();
  hasKeys(battle.odds(1, "Strength"), OF_ODDS);
  hasKeys(battle.actionOdds(1, "Strength"), OF_ACTION_ODDS);
  hasKeys(battle.knockOut(1, "Strength"), OF_KNOCK_OUT);
  hasKeys(battle.knockOutInThree(1, "Strength", {afterFirst: {lost: 1}}), OF_KNOCK_OUT_IN_THREE);
  hasKeys(gen1.base("Tauros"), OF_BASE);
  hasKeys(gen1.moveData("Strength"), OF_MOVE_DATA);
  hasKeys(gen1.stats({species: "Tauros", moves: [["Strength", 3]]}), OF_STATS);
  hasKeys(battle.playout(1n, 1), OF_PLAYOUTS);
  hasKeys(battle.playout(1, 1, {depth: 2, weights: {"Body Slam": 9, move: 4, switch: 0}}), OF_PLAYOUTS);
  const outcomes = battle.outcomes(17, "move 1");
  offers(outcomes, OF_OUTCOMES);
  hasKeys(outcomes.at(0), OF_OUTCOME);
  holds(
      outcomes instanceof Outcomes && outcomes.whole > 0n && outcomes.at(0).battle instanceof Battle, "other outcomes");
  hasKeys(gen1.teamFromText("Tauros\n- Strength\n")[0], OF_WHOLE_MEMBER);
  hasKeys(gen1.randomTeam({seed: 7, legal: false, count: 1})[0], OF_WHOLE_MEMBER);
  hasKeys(gen1.sampleTeam(1)[5], OF_WHOLE_MEMBER);
  holds(gen1.teamToText(gen1.teamFromText("Tauros\n- Strength\n")) === "Tauros\n- Strength\n", "a team as text");
  hasKeys(battle.updateSilent(battle.choices(1)[0], battle.choices(2)[0]), {outcome: true, requests: true});
  /** @type {Uint8Array} */
  const bytes = gen1.load(battle.bytes.buffer).bytes;
  holds(bytes.length === 384 && battle.clone() instanceof Battle && update instanceof Update, "another battle");
}

/** @param {Gen1} gen1 */
function statesAndPlayers(gen1) {
  const battle = gen1.battle(TERMS);
  const [player, teller] =
      [gen1.player({side: 1, team: TERMS.one, foes: 2, rules: 3, limit: 20}), gen1.teller({side: 1, pixels: true})];
  offers(player, OF_PLAYER);
  offers(teller, OF_TELLER);
  teller.report(battle, battle.update("pass", "pass").log, player);
  const {own, ownPublic, foe} = player.view;
  hasKeys(player.view, OF_VIEW);
  hasKeys(own ?? {}, OF_OWN_SIDE);
  hasKeys(own?.members[0] ?? {}, OF_OWN_MEMBER);
  hasKeys(own?.active ?? {}, OF_OWN_ACTIVE);
  hasKeys(ownPublic, {members: true, active: true});
  hasKeys(foe.members[0], OF_SEEN);
  hasKeys(foe.active ?? {}, OF_SEEN_ACTIVE);
  equal([own, player.choices], [battle.ownSide(1), battle.choices(1)]);
  /** @type {import("../gen1.mjs").Battle[]} */
  const changed = [
    gen1.battleOfState(battle.state),
    battle.withState((state) => void (state.turn = 2)),
    battle.withHp(1, 1, 5),
    battle.withStatus(2, 2, "sleep", 7),
    battle.withStage(1, "evasion", -6),
  ];
  const guess = {team: TERMS.two, seed: TERMS.seed};
  holds(Battle.fromPlayer(player, guess).choices(1).length === player.choices.length, "another guess");
  holds(changed.every((it) => it instanceof Battle) && player.clone() instanceof Player &&
          teller.clone() instanceof Teller,
      "another class");
}

/** @param {Gen1} gen1 */
function arrays(gen1) {
  const battle = gen1.battle(TERMS);
  const [one, two] = /** @type {const} */ ([1, 2]).map(
      (side) => ({teller: gen1.teller({side}), player: gen1.player({side, team: TERMS.one})}));
  const array = gen1.battleArray({battle, count: 3, seeds: new Uint8Array(30), sides: [one, two]});
  offers(array, OF_ARRAY);
  const [ones, twos] = array.randomStep(() => 0.5);
  holds(ones.length === 3 && twos.length === 3 && array.at(2) instanceof Battle && array.player(0, 1) instanceof Player,
      "another array");
  holds(array.take([2, 2, 0]) instanceof BattleArray &&
          array.step([16, 17, 18], Uint8Array.of(17, 17, 17)) === array.results,
      "other results");
  equal([array.observe(1).length, array.masks(2).length, array.playouts(1n, 1).length],
      [3 * library.COLUMNS.length, 3, 12]);
  array.reset([true, false, 1], new Uint8Array(30));
  array.free();
}

// Each of these is refused by its types, else tsc calls the directive above it unused; and by the module.
const NO_CONSTRUCTORS = [
  // @ts-expect-error
  () => new library.Gen1(),
  // @ts-expect-error
  () => new Battle(),
  // @ts-expect-error
  () => new Room(),
  // @ts-expect-error
  () => new library.Narrator(),
  // @ts-expect-error
  () => new library.Spectator(),
  // @ts-expect-error
  () => new Update(),
  // @ts-expect-error
  () => new Player(),
  // @ts-expect-error
  () => new Teller(),
  // @ts-expect-error
  () => new Team(),
  // @ts-expect-error
  () => new BattleArray(),
  // @ts-expect-error
  () => new Outcomes(),
  // @ts-expect-error
  () => new Host(),
  // @ts-expect-error
  () => new Row(),
  // @ts-expect-error
  () => new Message(),
  // @ts-expect-error
  () => new Notice(),
];

/** @param {Gen1} gen1 */
function refused(gen1) {
  const battle = gen1.battle(TERMS);
  const calls = [
    ...NO_CONSTRUCTORS,
    // @ts-expect-error
    () => gen1.player({side: 1}),
    // @ts-expect-error
    () => gen1.teller({side: 3}),
    // @ts-expect-error
    () => gen1.narrator({inPercent: true}),
    // @ts-expect-error
    () => gen1.battleOfState({...battle.state, outcome: "won"}),
    // @ts-expect-error
    () => battle.withStatus(1, 1, "confused"),
    // @ts-expect-error
    () => battle.withState({turn: 2}),
    // @ts-expect-error
    () => gen1.battle({one: [{species: "Tauros"}], two: [TAUROS], seed: TERMS.seed}),
    // @ts-expect-error
    () => gen1.battle({...TERMS, seed: "0123456789"}),
    // @ts-expect-error
    () => gen1.battleArray({battle, n: 3}),
    // @ts-expect-error
    () => gen1.team([{species: "Tauros", lvl: 50, moves: [["Strength", 3]]}]),
    // @ts-expect-error
    () => gen1.room(battle).submit(1, 0, "jump"),
    // @ts-expect-error
    () => battle.choiceFromWords(1, 17),
    // @ts-expect-error
    () => battle.choices(3),
    // @ts-expect-error
    () => battle.choices("1"),
    // @ts-expect-error
    () => gen1.lines("a log"),
    // @ts-expect-error
    () => gen1.logBytes([{kind: "win", sides: 1}]),
    // @ts-expect-error
    () => gen1.room(battle.bytes),
    // @ts-expect-error
    () => gen1.host(battle, {pixels: true}),
    // @ts-expect-error
    () => gen1.host(battle).apply({kind: "forfeit", side: 1}),
    // @ts-expect-error
    () => battle.damage(1, "Strength", "yes"),
  ];
  for (const call of calls)
    holds(/ArgumentE|ArgumentTypeE/.test(thrown(call, Error, /./).name), `${call} threw another error`);
}

/**
 * Runs all checks of the types.
 * @param {Gen1} gen1
 */
export function uses(gen1) {
  lists();
  battles(gen1);
  usesOfHosts(gen1, offers);
  usesOfViewers(gen1, TERMS, offers);
  statesAndPlayers(gen1);
  arrays(gen1);
  refused(gen1);
}
