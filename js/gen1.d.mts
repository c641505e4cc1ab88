// Types of gen1.mjs. TypeScript finds them by name: the resolutions node, node16, nodenext and bundler look for a .d.mts next to an
// .mjs. uses.mjs compares them with the module.

import type { MoveName, SpeciesName, TypeName } from "./names.mjs";
export type { MoveName, SpeciesName, TypeName };
export {
  ArgumentError, ArgumentTypeError, DamageError, FreedError, Gen1Error, HostError, LoadError, LogError, MemoryError, ModuleError, RefusedError, RoomError,
  StateError, TeamError, TextError,
} from "./errors.mjs";

declare global {
  // Before TypeScript 5.2, and without its library esnext.disposable, Symbol.dispose has no type.
  interface SymbolConstructor {
    readonly dispose: unique symbol;
  }
}

/** A species as an argument: its name, or its number from 1 to 151. Only the letters and digits of a name count, in either case. */
export type SpeciesLike = SpeciesName | number | (string & {});
/** A move as an argument: its name, or its number from 1 to 165. Only the letters and digits of a name count, in either case. */
export type MoveLike = MoveName | number | (string & {});
/** A choice as `choices` returns it. */
export type ChoiceName = "pass" | `move ${0 | 1 | 2 | 3 | 4}` | `switch ${1 | 2 | 3 | 4 | 5 | 6}`;
/** A choice as an argument: its name, or its byte from 0 to 255. */
export type Choice = ChoiceName | number;
/**
 * A choice in a battle, also in words: "Body Slam", "move Body Slam" and "switch Gengar" are the only offered choice of that name, and "move 2 Body
 * Slam" is this one. Only letters and digits count, in either case.
 */
export type ChoiceLike = Choice | (string & {});
export type Side = 1 | 2;
export type Outcome = "ongoing" | "win one" | "win two" | "tie" | "fault 1" | "fault 2";
export type Request = "pass" | "move" | "switch";
export type Status = "none" | "sleep" | "poison" | "burn" | "freeze" | "paralysis";
/** A stat with stages. */
export type Stat = "attack" | "defense" | "speed" | "special" | "accuracy" | "evasion";
/** A condition of the active member (docs/MECHANICS.md, "Conditions"). */
export type Condition = "bide" | "thrash" | "trapping" | "flinch" | "charging" | "invulnerable" | "confused" | "mist" | "focus energy"
  | "substitute" | "recharge" | "rage" | "seeded" | "bad poison" | "light screen" | "reflect" | "disabled";
/** Numbers in an array, a typed array, or another object with a length. */
export type Numbers = ArrayLike<number> & object;

/** A member as an argument. By default the level is 100, and DVs and experience are at their maximum. */
export interface Member {
  species: SpeciesLike;
  level?: number;
  /** Attack, Defense, Speed, Special: 0 to 15. */
  dvs?: Numbers;
  /** HP, Attack, Defense, Speed, Special: 0 to 65535. */
  exp?: Numbers;
  /** At most four: the name or number, with three PP ups, or a pair of it and its PP ups from 0 to 3. */
  moves: readonly (MoveLike | readonly [MoveLike, number])[];
}

/** One to six members as an argument. Keys that a Member doesn't have are refused. */
export type Members = readonly Member[];

/**
 * The numbers that a battle draws: ten numbers from 0 to 255, of which the first is drawn first; or a whole number from 0 to 2 ** 53 - 1 (as a
 * BigInt to 2n ** 64n - 1n), which determines ten. If it is left out, they are ten of `crypto.getRandomValues`.
 */
export type Seed = Numbers | number | bigint;

export interface Terms {
  one: Team | Members;
  two: Team | Members;
  seed?: Seed;
  /** 0 for no clause (the default), 1 for the sleep clause, 2 for the freeze clause, 3 for both. */
  rules?: number;
  /** The last turn, 1 to 9999; 1000 by default. */
  limit?: number;
}

/** The guess that a caller passes to Battle.fromPlayer: the parts of a battle that the player can't know. */
export interface Guess {
  /** The foe's team: first the members that have appeared, in the order in which they did, then the others. */
  team: Team | Members;
  seed?: Seed;
}

/** A member from a text, with all fields that `battle` takes. */
export interface WholeMember {
  species: SpeciesName;
  level: number;
  dvs: number[];
  exp: number[];
  moves: [MoveName, number][];
}

/** The outcome and the requests of a battle. Objects with the same values may be the same object. */
export interface Result {
  readonly outcome: Outcome;
  readonly requests: readonly [Request, Request];
}

/** Why a member cannot act. */
export type CantReason = "asleep" | "frozen" | "partially trapped" | "flinched" | "recharging" | "disabled" | "paralysed";
/** The source of damage. */
export type DamageSource = "direct" | "poison" | "burn" | "leech seed" | "recoil" | "confusion";
/** The condition that starts, ends or takes effect. */
export type Volatile = "confusion" | "bide" | "substitute" | "leech seed" | "mist" | "focus energy" | "light screen" | "reflect" | "disable"
  | "type change" | "trapped" | "rage" | "splash";
/** Why a battle had to stop: a division by 0, or a Psywave of level 1. */
export type Fault = "division" | "psywave";

/** The member of a side that an event is about. */
interface Who {
  side: Side;
  species: SpeciesName;
}
/** The health of a member after an event. */
interface Health {
  hp: number;
  maxHp: number;
  status: Status;
}

/** The fields of an event by its kind (docs/MECHANICS.md, "Events"). */
export type EventFields =
  | { kind: "turn"; turn: number }
  | { kind: "switch"; place: number; level: number } & Who & Health
  | { kind: "move"; move: MoveName; targetSide: Side; targetSpecies: SpeciesName } & Who
  | { kind: "cant"; reason: CantReason } & Who
  | { kind: "damage"; source: DamageSource } & Who & Health
  | { kind: "heal" } & Who & Health
  | { kind: "crit" | "super effective" | "resisted" | "immune" | "miss" | "fail" | "must recharge" | "faint" } & Who
  | { kind: "status" | "cure"; status: Exclude<Status, "none"> } & Who
  | { kind: "boost" | "unboost"; stat: Stat; stages: number } & Who
  | { kind: "start" | "end" | "activate"; volatile: Volatile } & Who
  | { kind: "prepare"; move: MoveName } & Who
  | { kind: "hit count"; hits: number } & Who
  | { kind: "clear all" | "one hit knock out" | "tie" }
  | { kind: "win"; side: Side }
  | { kind: "fault"; fault: Fault };
/** An event of a log. `size` is how many bytes of the log it takes. */
export type GameEvent = { size: number } & EventFields;
export type EventKind = GameEvent["kind"];

/** The state of a member. */
export interface MemberState {
  species: SpeciesName;
  level: number;
  status: Status;
  /** Turns of sleep left, 1 to 7; 0 if it is awake. */
  sleep: number;
  /** Whether the sleep clause counts its sleep. */
  marked: boolean;
  moves: MoveName[];
  /** The PP of each move, 0 to 63. */
  pp: number[];
  hp: number;
  maxHp: number;
  /** Attack, Defense, Speed and Special before stages and penalties, 5 to 999. */
  stats: number[];
}

/** The active member, with the state that lasts only while it is active. A counter that doesn't apply is 0; docs/LAYOUT.md has the ranges. */
export interface ActiveState {
  /** 1 to 6. */
  place: number;
  types: TypeName[];
  /** Attack, Defense, Speed and Special after stages and penalties, 1 to 999. */
  stats: number[];
  /** -6 to 6: Attack, Defense, Speed, Special, accuracy, evasion. */
  stages: number[];
  conditions: Condition[];
  /** The slot of the move that was used last, 1 to 4; 5 is Struggle, 0 none. */
  currentMove: number;
  /** The slot of the move that was picked last, likewise. */
  pickedMove: number;
  keptAccuracy: number;
  /** HP of the Substitute. */
  substitute: number;
  confusion: number;
  disabledSlot: number;
  disabledTurns: number;
  badPoison: number;
  /** Turns left of Bide, Thrash or trapping. */
  turns: number;
  /** The damage that Bide has stored. */
  energy: number;
}

export interface SideState {
  /** In the order of their places. */
  members: MemberState[];
  /** Null before the first update. */
  active: ActiveState | null;
}

/** The whole state of a battle: everything in its 384 bytes. */
export interface State {
  one: SideState;
  two: SideState;
  /** 0 before the first update. */
  turn: number;
  limit: number;
  lastDamage: number;
  rules: number;
  outcome: Outcome;
  requests: Request[];
  /** The index, 0 to 8, of the number that is drawn next. */
  index: number;
  /** Nine link numbers, and the tenth byte of the seed, which is never drawn. */
  numbers: number[];
}

export interface ShownMember {
  /** The maximum until the member first comes out. */
  hp: number;
  status: Status;
}

/** A spectator's knowledge of a side. All fields except `members` belong to the active member. */
export interface ShownSide {
  members: ShownMember[];
  /** 1 to 6; 0 before the first member comes out. */
  place: number;
  /** -6 to 6: Attack, Defense, Speed, Special, accuracy, evasion. */
  stages: number[];
  substitute: boolean;
  confused: boolean;
  lightScreen: boolean;
  reflect: boolean;
}

export interface ShownState {
  one: ShownSide;
  two: ShownSide;
  turn: number;
  outcome: Outcome;
}

/** The damage of a hit: 39 numbers, at the factors from 217 to 255, and code 0; or no numbers, and the code of a DamageError. */
export interface Damages {
  numbers: number[];
  code: number;
}

/**
 * The odds of one use of a move by a member that acts now: its damage, and its chances of a hit and of a critical hit. Chances of draws are
 * exact multiples of 1/256. Conditions that keep a member from acting at all, such as sleep, are not counted.
 */
export interface Odds {
  usual: Damages;
  critical: Damages;
  criticalChance: number;
  /** 0 if the use cannot hit or cannot work; `reason` says why. */
  hitChance: number;
  /** Why the use cannot hit, one of REASONS; null if it can. */
  reason: string | null;
  /**
   * Without the usual damage: the least and the most damage; all from the least to the most are equally likely. Null if there is none. For a
   * move that is `oneHit` both are 65535, which is not an amount of HP to print.
   */
  fixed: [number, number] | null;
  /** Whether it is Fissure, Guillotine or Horn Drill. A use that hits breaks any substitute and knocks out any foe. */
  oneHit: boolean;
  /** The chances that a use that hits makes 0 to 5 hits, each with the same damage: multiples of 1/8. */
  hits: number[];
  /** Whether the user would only charge now. The odds are then those of its strike. */
  chargesFirst: boolean;
  /** Whether the move takes the hit test. Moves that fail, or that affect only their user, take none. */
  takesHitTest: boolean;
}

/**
 * The odds of the action by which a side uses a move in the turn that begins, with draws that are equally likely: the member acts in `acts`
 * of `actsOf` ways, and acts and hits in `hits` of `hitsOf`, which are exact.
 */
export interface ActionOdds {
  acts: number;
  actsOf: number;
  hits: number;
  hitsOf: number;
  /** `acts` divided by `actsOf`. */
  chanceToAct: number;
  /** `hits` divided by `hitsOf`. */
  chanceToHit: number;
  /** The chance that a hit has its side effect: 0 if the foe is guarded, 1 if the effect is sure. */
  sideEffectChance: number;
  /** The chance that a trapping move holds the foe, if the member acts; 0 for any other move. */
  holdChance: number;
}

/**
 * The chance that one use of a move knocks out the foe, or two uses in a row, with draws that are equally likely: in `once` of `onceOf` ways,
 * and in `twice` of `twiceOf`, which are exact. A trapping move that hits continues: the second use deals the same damage again. Nothing else
 * that happens between the uses is counted.
 */
export interface KnockOut {
  once: number;
  /** At most 20447232. */
  onceOf: number;
  twice: number;
  /** The square of `onceOf`. */
  twiceOf: number;
  /** Whether the foe has a substitute, so that the chances are those of breaking it. */
  breaksSubstitute: boolean;
  /** `once` divided by `onceOf`. */
  chanceOnce: number;
  /** `twice` divided by `twiceOf`. */
  chanceTwice: number;
}

/** The change of the foe's HP between two uses of a move, if it has any left. */
export interface HpChange {
  /** The HP that it gains first, up to its maximum: 0 to 65535, and 0 if it is left out. */
  gained?: number;
  /** The HP that it then loses: 0 to 65535, and 0 if it is left out. */
  lost?: number;
}

/** The changes of the foe's HP after the first use of a move and after the second. Without them the HP do not change. */
export interface Between {
  afterFirst?: HpChange;
  afterSecond?: HpChange;
}

/** The chances of a KnockOut, and that of three uses in a row, with the changes of the foe's HP between the uses. */
export interface KnockOutInThree extends KnockOut {
  /** Rounded. */
  chanceThrice: number;
}

/** A member of a side as it is shown to the side itself. */
export type OwnMember = Omit<MemberState, "sleep" | "marked">;

/** The active member as it is shown to its side, without counters. */
export interface OwnActive {
  /** 1 to 6. */
  place: number;
  types: TypeName[];
  /** Attack, Defense, Speed and Special after stages and penalties, 1 to 999. */
  stats: number[];
  /** -6 to 6: Attack, Defense, Speed, Special, accuracy, evasion. */
  stages: number[];
  conditions: Exclude<Condition, "flinch">[];
  /** 1 to 4; 0 if no slot is disabled. */
  disabledSlot: number;
  /** Whether the foe's trapping move holds it. */
  held: boolean;
}

/** A side as it is shown to its own player. */
export interface OwnSide {
  members: OwnMember[];
  /** Null before the first update. */
  active: OwnActive | null;
  turn: number;
  request: Request;
  outcome: Outcome;
}

/** A member as the log last showed it. */
export interface SeenMember {
  species: SpeciesName;
  level: number;
  status: Status;
  /** What put it to sleep: a move of the foe, or its own Rest. Null while it is awake. */
  asleepBy: "move" | "rest" | null;
  /** How many turns it has slept so far: 0 to 6, by its own Rest 0 or 1. */
  slept: number;
  /** In 48ths or hundredths if the teller hides exact HP. */
  hp: number;
  maxHp: number;
  /** The moves that it was seen to prepare or to use, in the order of their appearance, and how often it used them, 0 to 255.
   * A use that may continue an earlier one, without PP, is not counted. */
  moves: { name: MoveName; uses: number }[];
}

/** A condition that the log announces. */
export type Announced = "substitute" | "confused" | "mist" | "focus energy" | "light screen" | "reflect" | "seeded" | "toxic" | "disabled" | "rage"
  | "bide" | "charging" | "recharging" | "invulnerable";

/** The active member as the log has shown it. */
export interface SeenActive {
  /** The place in `members` from 1. */
  place: number;
  types: TypeName[];
  /** -6 to 6: Attack, Defense, Speed, Special, accuracy, evasion. */
  stages: number[];
  /** The move that it used or prepared last; while it is charging, the move that it charges. Null if none since it came out. */
  lastMove: MoveName | null;
  /** Those that were announced and have not ended. */
  announced: Announced[];
  /** The counter of its bad poison, 0 to 64; 0 without it. The next damage by poison, a burn or Leech Seed is multiplied by one more. */
  toxicCount: number;
}

/** The information about a side that the log has made public. */
export interface PublicSide {
  /** For the player's own side in the order of their places; for the foe those that have appeared, in the order in which they did. */
  members: SeenMember[];
  /** Null before the first member comes out. */
  active: SeenActive | null;
}

/** The knowledge of a player (docs/MECHANICS.md, "Player's view"). */
export interface PlayerView {
  side: Side;
  turn: number;
  outcome: Outcome;
  /** Its own side as last shown; null before the first time. */
  own: OwnSide | null;
  /** The information about its own side that the log has made public. */
  ownPublic: PublicSide;
  foe: PublicSide;
  /** How many members the foe has; null if unknown. */
  foes: number | null;
}

/** A species (docs/TABLES.md): base stats from 5 to 250, and two types. A single type is listed twice. */
export interface Base {
  hp: number;
  attack: number;
  defense: number;
  speed: number;
  special: number;
  types: [TypeName, TypeName];
}

/** A move (docs/TABLES.md). */
export interface MoveData {
  type: TypeName;
  /** 0 to 170. One-hit moves, Counter, Super Fang and moves with a fixed damage have 1; Night Shade, Bide and moves without damage, 0. */
  power: number;
  /** In percent, 30 to 100. */
  accuracy: number;
  /** Without PP ups. */
  pp: number;
  /** As the table writes it: "Recoil", "StatUp(Attack, 2)". */
  effect: string;
  /** 1 for Quick Attack, which comes before any other move; -1 for Counter, which comes after any; else 0. */
  priority: number;
  /** Whether it is one of the four moves that are often critical. */
  isHighCritical: boolean;
}

/** The stats of a member without a battle: its maximum HP, 11 to 999, and its stats before stages and penalties, 5 to 999. */
export interface Stats {
  hp: number;
  attack: number;
  defense: number;
  speed: number;
  special: number;
}

/**
 * How likely choices are compared to others, 0 to 255: a choice of weight 6 is twice as likely as one of weight 3, and one of weight 0 is made only
 * if the others have 0 too. The keys are names of moves, `switch` for each switch and `move` for all other moves; one that is left out has the
 * weight 1. Move 0, by which a member continues a move or uses Struggle, has the weight of Struggle.
 */
export type Weights = { [key in MoveName | "switch" | "move"]?: number };

/** How playouts are played: for at most `depth` updates, and with choices by `weights`. */
export interface PlayoutOptions {
  depth?: number;
  weights?: Weights;
}

/** The counts of how playouts ended. */
export interface Playouts {
  winsOne: number;
  winsTwo: number;
  ties: number;
  faults: number;
}

/** How outcomes are listed. */
export interface OutcomeOptions {
  /**
   * The most classes of a damage roll, 1 to 39; by default 0, which lists each damage. For a search that wants fewer outcomes: the 39 factors
   * from 217 to 255 are divided into that many ranges, and the damages of one range are a class. One damage near the middle of each class is
   * listed, with the weight of the whole class. All damages that reach the HP of the target are one more class. No class holds both damages
   * that break a substitute and damages that don't. So the chance that the first hit of a move knocks out or breaks a substitute stays exact,
   * and so does everything other than damage rolls. Only what depends on the amount of damage is that of the listed one: later hits of a
   * move, recoil, residual damage.
   */
  damageClasses?: number;
  /**
   * A course of the update is left out as soon as its draws so far are less probable than this together: 0 to 1, by default 0, which leaves
   * nothing out. For a search that saves the time to play them. A weight is then that of the ways to its battle that are not left out, and
   * `leftOut` of the list is the exact weight of the rest. The probability is rounded down to a multiple of 2 ** -32.
   */
  leastProbability?: number;
}

/**
 * All battles that an update can lead to, each once. `Battle.outcomes` makes it.
 *
 * The probabilities are exact for draws that are independent uniform bytes. A link battle draws other numbers (docs/MECHANICS.md, "Link
 * numbers"): if its seed is unknown, they are an approximation, off by about 0.01 in total variation; if its seed is known, there is one
 * outcome, that of `update`. The battles keep the numbers to draw of the battle before the update, so reseed one before you play it further.
 */
export class Outcomes implements Iterable<OutcomeAt> {
  private constructor();
  /** How many there are: at least 1, if nothing is left out. */
  readonly length: number;
  /** The sum of all weights and of `leftOut`. */
  readonly whole: bigint;
  /** The exact weight left out: 0n without a `leastProbability`. */
  readonly leftOut: bigint;
  /** `leftOut` divided by `whole`, as a number. */
  readonly leftOutProbability: number;
  /** The outcome at a place from 0. Each call makes a new battle. */
  at(place: number): OutcomeAt;
  [Symbol.iterator](): Iterator<OutcomeAt>;
}

/** One of the battles that an update can lead to. */
export interface OutcomeAt {
  battle: Battle;
  /** `weight` divided by the `whole` of its list, as a number. */
  probability: number;
  /** The exact weight. */
  weight: bigint;
}

/** The result of an update, and its log. */
export class Update {
  private constructor();
  readonly result: Result;
  readonly log: Uint8Array;
  /** Decoded on first use. */
  readonly events: readonly GameEvent[];
  readonly lines: readonly string[];
  toJSON(): { result: Result; events: readonly GameEvent[] };
}

/** A team that was tested, for any number of battles. `gen1.team` creates it. */
export class Team {
  private constructor();
  readonly length: number;
  /** The members, with all their fields. */
  readonly members: WholeMember[];
  [Symbol.iterator](): Iterator<WholeMember>;
  toJSON(): WholeMember[];
}

/**
 * A battle. `gen1.battle` and `gen1.load` create it; `update` changes it in place.
 *
 * Its 384 bytes are in the module's memory. The garbage collector frees them some time after the last use of the battle, but not while a program
 * does not return to its event loop. Such a program must free its battles, or reuse one by `copyFrom`.
 */
export class Battle {
  private constructor();
  /**
   * A battle that fits a player's knowledge, with a guess of the rest: the base of a search that doesn't cheat.
   *
   * The player's own side is as it was shown, the foe's as the log made it public, with the moves and stats of the guess. Hidden counts have
   * middle values (docs/MECHANICS.md, "A battle that fits").
   *
   * Throws ArgumentError for a guess that does not fit, and for a battle that has not begun or is over; TeamError; StateError.
   */
  static fromPlayer(player: Player, guess: Guess): Battle;
  /** A copy of the battle's 384 bytes, which are its whole state (docs/LAYOUT.md). */
  readonly bytes: Uint8Array;
  readonly result: Result;
  readonly isOver: boolean;
  readonly state: State;
  /**
   * An independent copy. It draws the same numbers unless it is reseeded. In a loop, `free` each copy, or make one and let it become the next
   * by `copyFrom`: both take about as long, and a copy that is not freed takes several times as long, since it needs new memory.
   */
  clone(): Battle;
  /** Becomes a copy of another battle, in the memory that this one has. */
  copyFrom(battle: Battle): void;
  /** Frees the memory at once, for the next copy. Every later call of this battle, except `free`, throws FreedError. */
  free(): void;
  /** Calls `free`, for `using` declarations, if the host has Symbol.dispose. */
  [Symbol.dispose](): void;
  /** The state, from which `gen1.battleOfState` creates the battle. */
  toJSON(): State;
  /** A side as it is shown to its own player. Only whether the foe's trapping move holds the active member depends on the foe. */
  ownSide(side: Side): OwnSide;
  /**
   * A copy of this battle with the state as `change` changed it, or with another state that it returned. `change` is passed a copy of the
   * state. Throws StateError.
   */
  withState(change: (state: State) => void): Battle;
  /** A copy of this battle with other HP of a member. Throws StateError. */
  withHp(side: Side, place: number, hp: number): Battle;
  /** A copy with another status of a member; a sleep lasts `turns`, 1 to 7. Current stats follow the status. Throws StateError. */
  withStatus(side: Side, place: number, status: Status, turns?: number): Battle;
  /** A copy with another stage, -6 to 6, of the active member. Current stats follow the stages. Throws StateError. */
  withStage(side: Side, stat: Stat, stage: number): Battle;
  /** The choices that a side is offered; none if the battle is over. */
  choices(side: Side): readonly ChoiceName[];
  /** The offered choices as a mask, whose bit N is for CHOICES[N]. */
  offeredMask(side: Side): number;
  /** A choice in words, "move 2 Body Slam". It need not be offered. Throws ArgumentError if the side doesn't have the move or member. */
  words(side: Side, choice: ChoiceLike): string;
  /**
   * The choice that words say for a side. Throws RefusedError if no offered choice has the name, ArgumentError for other words and for a name that two or
   * more of the offered choices have.
   */
  choiceFromWords(side: Side, words: string): ChoiceName;
  /** Updates the battle with a choice of each side. Throws RefusedError, and then the battle is unchanged; and as `choiceFromWords`. */
  update(one: ChoiceLike, two: ChoiceLike): Update;
  /** Like `update`, but without a log, which is faster. Throws RefusedError. */
  updateSilent(one: ChoiceLike, two: ChoiceLike): Result;
  /** Replaces the numbers to draw, and sets the index, 0 to 8, of the next one. A search reseeds each copy that it plays out. */
  reseed(seed?: Seed, index?: number): void;
  /**
   * Plays copies to their end with random choices, and counts how they end. The same seed gives the same counts. Each copy gets ten
   * random numbers to draw, and does not use those of the battle. With a `depth` a copy is played for at most that many updates. If it is
   * not over then, the side with the larger share of its HP left wins, and equal shares are a tie. Without `weights` all offered choices
   * are equally likely.
   */
  playout(seed: number | bigint, rounds: number, options?: PlayoutOptions): Playouts;
  /**
   * All battles that an update by a choice of each side can lead to, with their exact probabilities. The battle is unchanged. Throws
   * RefusedError as `update` does, and ArgumentError for an option that is unknown or out of range.
   */
  outcomes(one: ChoiceLike, two: ChoiceLike, options?: OutcomeOptions): Outcomes;
  /** The odds of a side's move in the current state. Throws DamageError if no member is out. */
  odds(side: Side, move: MoveLike): Odds;
  /**
   * The odds of the action by which a side uses a move in the turn that begins. Sleep, a freeze, the foe's trapping, recharging, a disabled
   * move, confusion and paralysis count as they are now. What the foe does first does not count, such as a flinch. Throws DamageError if no
   * member is out.
   */
  actionOdds(side: Side, move: MoveLike): ActionOdds;
  /** The chances that a side's move knocks out the foe's active member, in one use and in two. Throws DamageError if no member is out. */
  knockOut(side: Side, move: MoveLike): KnockOut;
  /**
   * The chances that a side's move knocks out the foe's active member, in one use, two and three, with the changes of the foe's HP between
   * the uses. The changes don't count against a substitute. Throws DamageError if no member is out.
   */
  knockOutInThree(side: Side, move: MoveLike, between?: Between): KnockOutInThree;
  /** The damage of a side's move: 39 numbers, at the factors from 217 to 255. Throws DamageError. */
  damage(side: Side, move: MoveLike, critical?: boolean): number[];
}

/** The arguments from which a BattleArray is made. */
export interface ArrayTerms {
  battle: Battle;
  /** How many copies of the battle, 1 to 1,048,576. */
  count: number;
  /** Ten bytes for each copy, so that each draws its own numbers. Without them all draw the battle's. */
  seeds?: Numbers;
  /** For side 1 and side 2, the teller and the player in the current battle. With them the array keeps players for each battle. */
  sides?: readonly [{ teller: Teller; player: Player }, { teller: Teller; player: Player }];
}

/**
 * Many battles, which are updated together. `gen1.battleArray` creates it. Numbers are in typed arrays, with the battle at place 0 first. Its
 * memory is freed like that of a Battle.
 */
export class BattleArray {
  private constructor();
  readonly length: number;
  /**
   * The result of each battle: the outcome (an index of OUTCOMES) in bits 0 to 2, the requests to side 1 and side 2 (indexes of REQUESTS) in
   * bits 3 and 4, and 5 and 6. One array, whose values change.
   */
  readonly results: Uint8Array;
  /** 0 for each battle that the last step updated, else the code of a RefusedError. One array, whose values change. */
  readonly codes: Uint8Array;
  /** A copy of all battles, 384 bytes each. */
  readonly bytes: Uint8Array;
  /** A copy of the battle at a place. */
  at(place: number): Battle;
  /** The masks of the choices that a side is offered: bit N is for CHOICES[N]. Those of a battle that is over are 0. */
  masks(side: Side): Uint16Array;
  /**
   * Updates each battle with a choice of each side, as bytes (`byteOf`), and returns `results`. A battle that refuses its pair is unchanged,
   * and `codes` says why; a battle that is over is unchanged for any choices.
   */
  step(ones: Numbers, twos: Numbers): Uint8Array;
  /**
   * Makes a step with choices at random, which are equally likely, and returns the choices of both sides. `random` is Math.random by default,
   * and is called twice for each battle.
   */
  randomStep(random?: () => number): [Uint8Array, Uint8Array];
  /**
   * The knowledge of a side in each battle: a row of COLUMNS.length numbers for each, one row after the other. A row is computed from the
   * side's Player alone, so it contains only what the side may know. Throws ArgumentError if the array was created without `sides`.
   */
  observe(side: Side): Uint16Array;
  /** A copy of the player of a side. Throws ArgumentError if the array was created without `sides`. */
  player(place: number, side: Side): Player;
  /**
   * Plays `rounds` copies of each battle to their end with random choices. Returns four counts for each battle: wins of side 1, wins of side 2,
   * ties, faults. The battle at place N is played out with the seed plus N.
   */
  playouts(seed: number | bigint, rounds: number, options?: PlayoutOptions): Uint32Array;
  /** Replaces the numbers that each battle draws: ten bytes for each, of which the first is drawn next. */
  reseed(seeds: Numbers): void;
  /**
   * Restores battles, with their players, to their state when the array was created: all, or those whose value in `which` is not 0 or
   * false. With `seeds`, ten bytes for each battle, the restored battles draw these numbers.
   */
  reset(which?: ArrayLike<unknown> | null, seeds?: Numbers | null): void;
  /** A new array with copies of the battles at these places, with their players. A place may be repeated. */
  take(places: Numbers): BattleArray;
  /** Frees the memory at once. Every later call except `free` throws FreedError. */
  free(): void;
  [Symbol.dispose](): void;
}

/** A battle of two players who choose independently. `gen1.room` creates it. */
export class Room {
  private constructor();
  /** A copy of the battle. */
  readonly battle: Battle;
  /** A copy of its gen1_room (include/gen1.h), which must not be sent. */
  readonly bytes: Uint8Array;
  readonly result: Result;
  /** The number of the current pair of choices, from 0. */
  readonly number: number;
  /**
   * The log of the last pair that ended; before the first, that of the start, if the room started the battle. It is for the host: it
   * holds the foe's places and exact HP. Send a side what `Teller.tell` returns for it.
   */
  readonly log: Uint8Array;
  clone(): Room;
  /** The choices that a side may submit for the current pair; none if it has chosen. */
  choices(side: Side): ChoiceName[];
  /** Returns the update, or null if the room waits for the foe's choice. Throws RoomError, and then the room is unchanged. */
  submit(side: Side, number: number, choice: Choice): Update | null;
  /**
   * Replaces the ten numbers that the battle draws, and changes nothing else: a choice that was submitted stays. A host does so before each pair,
   * with bytes of `crypto.getRandomValues`. Otherwise a player that has seen nine draws can predict all that follow.
   */
  reseed(seed: Numbers): void;
  /**
   * Ends the battle by a forfeit: the other side wins, and choices for the current pair are discarded. The update has the single event "win".
   * The bytes of `battle` do not change. Throws RoomError if the battle is over.
   */
  forfeit(side: Side): Update;
  /** The side that has forfeited; null for none. */
  readonly forfeited: Side | null;
  /** The number, the result, and the log of the last pair, for the host. The battle is not in it. Neither the battle nor the log may be sent to a player. */
  toJSON(): { number: number; result: Result; log: number[] };
}

export type RowKind = "submit" | "cancel" | "expire" | "draw" | "forfeit";

/** The JSON of rows, messages and notices, the same in Rust and Python (docs/HOST.schema.json). Numbers mean what they mean in include/gen1.h. */
export interface RowJSON {
  kind: RowKind;
  side: Side;
  number: number;
  choice: number;
  numbers: number[] | null;
}
export interface OwnSideJSON {
  members: {
    species: number; level: number; status: number; moves: number[]; pp: number[]; hp: number; max_hp: number; stats: number[]
  }[];
  conditions: number;
  stats: number[];
  turn: number;
  place: number;
  types: number[];
  stages: number[];
  disabled_slot: number;
  held: number;
  request: number;
  outcome: number;
}
export interface MessageJSON {
  number: number;
  log: number[];
  own: OwnSideJSON;
  choices: number[];
  draw: Side | null;
}
export interface NoticeJSON {
  number: number;
  log: number[];
  outcome: number;
  draw: Side | null;
}

/**
 * What happens at a host, as a value that can be stored. For `numbers` see `submit` of Host. Its calls throw ArgumentTypeError and ArgumentError.
 */
export class Row {
  private constructor();
  static submit(side: Side, number: number, choice: Choice, numbers?: Numbers | null): Row;
  static cancel(side: Side, number: number): Row;
  static expire(side: Side, number: number, numbers?: Numbers | null): Row;
  static offerDraw(side: Side): Row;
  static forfeit(side: Side): Row;
  /** The row with these 18 bytes. Throws ArgumentError if `bytes` returns them for no row. */
  static ofBytes(bytes: Uint8Array | ArrayBuffer): Row;
  /** The row with this JSON. Throws ArgumentError if `toJSON` returns it for no row. */
  static ofJSON(json: RowJSON): Row;
  /**
   * A copy of its 18 bytes: its kind (the index in ROW_KINDS, plus 1), its side, the byte of its choice, 1 if it has numbers, the number of the pair in
   * four bytes, the lowest first, and the ten numbers. Those that its kind does not use are 0.
   */
  readonly bytes: Uint8Array;
  readonly kind: RowKind;
  readonly side: Side;
  /** The number of the pair; 0 for an offer of a draw and a forfeit. */
  readonly number: number;
  /** The byte of the choice; 0 unless it submits one. */
  readonly choice: number;
  /** The ten numbers that the battle draws from then on; null to draw on. */
  readonly numbers: Uint8Array | null;
  toJSON(): RowJSON;
}

/** How HP of a foe is reported: as it is, as the game's bar of 48 pixels shows it, or in hundredths of the maximum. */
export type HpForm = "exact" | "bar" | "hundredths";

export interface HostOptions {
  /** Whether the exact HP of a foe is reported to a side and the audience. Otherwise it is as the game's bar of 48 pixels shows it. */
  exactHp?: boolean;
  /** The form in which HP of a foe is reported, in place of `exactHp`. */
  hpForm?: HpForm;
  /** Whether a side may take its choice back while the other's is missing. */
  mayCancel?: boolean;
  /** Whether a side whose time has run out forfeits. Otherwise its first choice is made. */
  lateForfeits?: boolean;
}

/**
 * A battle of two players with all that each of them and an audience are to be sent (docs/MECHANICS.md, "Hosts"). `gen1.host` creates it.
 *
 * Tell the sender of a row only what the call returned. After each pair send `message` to both sides and `notice` to the audience. Send nothing
 * else of a host. To store it, store the battle that it began with, its options and each row that it took, or `bytes`.
 */
export class Host {
  private constructor();
  /** The number of the current pair: how many have ended. */
  readonly number: number;
  /** The form in which HP of a foe is reported. */
  readonly hpForm: HpForm;
  /** Whether nothing more can happen: the battle is over, a side has forfeited, or both have agreed on a draw. */
  readonly isClosed: boolean;
  /** The outcome, and the request to each side. It is for the host; a side has its own in its message. */
  readonly result: Result;
  /** A copy of the battle. It includes both teams and the numbers to be drawn, so it must not be sent. */
  readonly battle: Battle;
  /** A copy of its gen1_host (include/gen1.h), which must not be sent. */
  readonly bytes: Uint8Array;
  clone(): Host;
  /** Whether a side's choice for the current pair is missing. It is for the host: only the side itself may learn it. */
  awaits(side: Side): boolean;
  /** All that a side is to be sent at the beginning and after each pair. */
  message(side: Side): Message;
  /** All that the audience is to be sent at the beginning and after each pair. */
  notice(): Notice;
  /**
   * Submits a side's choice for the pair with this number. The battle draws the ten numbers from then on: fresh ones of `crypto.getRandomValues` if
   * they are left out, since nine draws in a row give all that follow; with null it draws on.
   *
   * Like each call that follows, it returns true if that has ended a pair or the battle, so that messages are due, and false if not. It throws
   * HostError, and then nothing has changed.
   */
  submit(side: Side, number: number, choice: Choice, numbers?: Numbers | null): boolean;
  /** Takes a side's choice for the pair with this number back, while the other side's is missing. */
  cancel(side: Side, number: number): boolean;
  /** Ends a side's time for the pair with this number: it forfeits, or its first choice is made, as the options say. */
  expire(side: Side, number: number, numbers?: Numbers | null): boolean;
  /** Offers a draw, or accepts the other side's offer. An offer lapses with the pair and doesn't end it, so report it to the other side separately. */
  offerDraw(side: Side): boolean;
  /** Ends the battle by a forfeit of a side: the other side wins. */
  forfeit(side: Side): boolean;
  /** Does what a row says, by the call of its name. */
  apply(row: Row): boolean;
  toJSON(): { number: number; result: Result };
}

/** What a host sends a side. `Player.receive` takes it in. `host.message` and `gen1.messageOfBytes` create it. */
export class Message {
  private constructor();
  /** The number of the current pair, for which the side now chooses. */
  readonly number: number;
  /** The log of the last pair as it is reported to the side; at the beginning that of the start. */
  readonly log: Uint8Array;
  /** What the side is shown of itself, with the outcome and what it is asked. */
  readonly own: OwnSide;
  /** The choices that it is offered; none once the battle is over. */
  readonly choices: readonly ChoiceName[];
  /** The side that offers a draw; null for none. */
  readonly draw: Side | null;
  /** A copy of its gen1_message (include/gen1.h), which may be sent to the side. */
  readonly bytes: Uint8Array;
  toJSON(): MessageJSON;
}

/** What a host sends the audience. `host.notice` and `gen1.noticeOfBytes` create it. */
export class Notice {
  private constructor();
  /** The number of the current pair. */
  readonly number: number;
  /** The log of the last pair as it is reported to the audience; at the beginning that of the start. */
  readonly log: Uint8Array;
  readonly outcome: Outcome;
  /** The side that offers a draw; null for none. */
  readonly draw: Side | null;
  /** A copy of its gen1_notice (include/gen1.h), which may be sent to anyone. */
  readonly bytes: Uint8Array;
  toJSON(): NoticeJSON;
}

/** A spectator, which knows only both teams and the log. `gen1.spectator` creates it. */
export class Spectator {
  private constructor();
  /** A copy of its gen1_spectator (include/gen1.h). */
  readonly bytes: Uint8Array;
  readonly state: ShownState;
  /** The bytes, at most 9, of an incomplete event. */
  readonly held: Uint8Array;
  clone(): Spectator;
  /** Reads the next bytes of the log, in pieces of any size. Throws LogError, and then the spectator is unchanged. */
  feed(log: Uint8Array | ArrayBuffer): void;
  toJSON(): ShownState;
}

/**
 * The knowledge that one side of a battle may have: its own team, the battle's rules and turn limit, the log as it is reported to it, its own side as it
 * is shown, and its choices.
 * `gen1.player` creates it.
 */
export class Player {
  private constructor();
  readonly side: Side;
  /** The form in which the HP of the foe's members is reported to it. */
  readonly hpForm: HpForm;
  /** The rules and the last turn of the battle, as in Terms. */
  readonly rules: number;
  readonly limit: number;
  /** A copy of its gen1_player (include/gen1.h). */
  readonly bytes: Uint8Array;
  /** Its knowledge, decoded each time it is read. */
  readonly view: PlayerView;
  /** Its choices when it was last shown its side; none before that, and none once the battle is over. */
  readonly choices: readonly ChoiceName[];
  clone(): Player;
  /** Reads the next bytes of the log of its side's teller, in pieces of any size. Throws LogError, and then the player is unchanged. */
  feed(told: Uint8Array | ArrayBuffer): void;
  /**
   * Shows it its own side and its choices as they are now in the battle, and nothing else about it. Throws ArgumentError if the side's team is
   * not the player's.
   */
  show(battle: Battle): void;
  /**
   * Takes in what its host sent it: the log, its own side and its choices. Each message is taken in once, in order. Throws LogError, and
   * ArgumentError for a message to another team; then the player is unchanged.
   */
  receive(message: Message): void;
  toJSON(): { view: PlayerView; choices: readonly ChoiceName[] };
}

/** Reports the events of a battle to one side. The host of the battle keeps one for each side. `gen1.teller` creates it. */
export class Teller {
  private constructor();
  readonly side: Side;
  /** The form in which it reports the HP of the foe's members. */
  readonly hpForm: HpForm;
  /** A copy of its gen1_teller (include/gen1.h). */
  readonly bytes: Uint8Array;
  clone(): Teller;
  /**
   * The log of an update as it is reported to its side, in bytes, which number the foe's members in the order in which they appeared. It must be
   * passed the log of every update, in order. Throws LogError, and then the teller is unchanged.
   */
  tell(log: Uint8Array | ArrayBuffer): Uint8Array;
  /**
   * Reports the log of an update to a player of its side, and shows it its own side and its choices. The player's `hpForm` becomes the teller's, its
   * `rules` and `limit` the battle's.
   * Throws LogError, and ArgumentError for a
   * player with another team and for a log that does not lead to the battle's turn, as one that was skipped or repeated.
   */
  report(battle: Battle, log: Uint8Array | ArrayBuffer, player: Player): void;
}

/**
 * Says the events of a battle in sentences, each with a full stop, such as "Your Tauros loses 120 HP, down to 233 of 353 HP." It keeps which members are
 * active, and their HP, so that a sentence can say how much HP is lost and who is withdrawn. `gen1.narrator` creates it.
 */
export class Narrator {
  private constructor();
  clone(): Narrator;
  /** The sentence of the next event. A `size` is ignored. Throws ArgumentError for a field out of range. */
  say(event: EventFields & { size?: number }): string;
  /**
   * The sentences of the next bytes of a battle's log, one for each event. The bytes hold whole events, such as the log of an update. Throws LogError, and
   * then the narrator is unchanged.
   */
  sentences(log: Uint8Array | ArrayBuffer): string[];
}

/** The library. `load` creates it. Its calls throw ArgumentTypeError and ArgumentError for invalid arguments. */
export class Gen1 {
  private constructor();
  /** Whether the module has a 64-bit memory. */
  readonly is64: boolean;
  /** How many bytes the module's memory has. It grows with the battles that are held at the same time, and never shrinks. */
  readonly memorySize: number;
  /** The module that runs, by the key that `load` was passed; null if it was passed one source without a key. */
  readonly build: "proved" | "plain" | null;
  /** The version of the library, such as "1.0.0". */
  readonly version: string;
  /** The origin of the library, as gen1_build of include/gen1.h returns it. The proved module has no such function: "unknown". */
  readonly libraryBuild: string;
  /** Creates a battle before its first update, in which both sides pass. Throws TeamError. */
  battle(terms: Terms): Battle;
  /** Tests a team once, for any number of battles. Throws TeamError. */
  team(members: Members): Team;
  /** Creates an array of copies of a battle. Throws MemoryError. */
  battleArray(terms: ArrayTerms): BattleArray;
  /** Loads a battle from its 384 bytes. Throws LoadError. */
  load(bytes: Uint8Array | ArrayBuffer): Battle;
  /** The code of the LoadError for bytes, or 0 if they are a battle. Faster than a `load` that throws. */
  testBytes(bytes: Uint8Array | ArrayBuffer): number;
  /**
   * Creates a battle from a state, such as `battle.state` with other values. If the four `stats` of an active member are 0, they are computed from
   * its stages and its status. Throws StateError.
   */
  battleOfState(state: State): Battle;
  /** Creates a room with a copy of the battle, which is started at once if it has not begun. */
  room(battle: Battle): Room;
  /** Creates a host with a copy of the battle, which is started at once if it has not begun. */
  host(battle: Battle, options?: HostOptions): Host;
  /** The room whose `bytes` these are. Exactly those of rooms are accepted. Throws LoadError and ArgumentError. */
  roomOfBytes(bytes: Uint8Array | ArrayBuffer): Room;
  /** The host whose `bytes` these are. Exactly those of hosts are accepted. Throws LoadError, and ArgumentError for another number of bytes. */
  hostOfBytes(bytes: Uint8Array | ArrayBuffer): Host;
  /** The message whose `bytes` these are. Throws ArgumentError for another number of bytes and a log above 512 bytes; no more is tested. */
  messageOfBytes(bytes: Uint8Array | ArrayBuffer): Message;
  /** The notice whose `bytes` these are. Throws as `messageOfBytes`. */
  noticeOfBytes(bytes: Uint8Array | ArrayBuffer): Notice;
  /** The message with this JSON. Throws ArgumentError and ArgumentTypeError. */
  messageOfJSON(json: MessageJSON): Message;
  /** The notice with this JSON. Throws as `messageOfJSON`. */
  noticeOfJSON(json: NoticeJSON): Notice;
  /** Creates a spectator of a battle of two teams, before its start. Throws TeamError. */
  spectator(one: Team | Members, two: Team | Members): Spectator;
  /**
   * Creates a player of a side, before the first update. `foes` is the number of the foe's members, if the player may know it. `hpForm` is that of its
   * teller or host, by default the bar. `rules` and `limit` are those of the battle, as in Terms. Throws TeamError.
   */
  player(terms: { side: Side; team: Team | Members; foes?: number; hpForm?: HpForm; rules?: number; limit?: number }): Player;
  /** The player whose `bytes` these are. Throws ArgumentError for another number of bytes; no more is tested. */
  playerOfBytes(bytes: Uint8Array | ArrayBuffer): Player;
  /** The teller whose `bytes` these are. Throws as `playerOfBytes`. */
  tellerOfBytes(bytes: Uint8Array | ArrayBuffer): Teller;
  /** The spectator whose `bytes` these are. Throws as `playerOfBytes`. */
  spectatorOfBytes(bytes: Uint8Array | ArrayBuffer): Spectator;
  /** Creates a teller of a side, before the first event. It reports the HP of the foe's members in `hpForm`; without it as the bar of 48 pixels, or as it is if `pixels` is false. */
  teller(terms: { side: Side; pixels?: boolean; hpForm?: HpForm }): Teller;
  /**
   * The members of a random team (docs/MECHANICS.md, "Random teams"): `count` of them, 1 to 6, by default 6, at level 100. They are from the sample
   * teams, or if `legal` is false any species with any moves. The same `seed`, a number as of Seed, gives the same team in every language; without one
   * it is drawn by `crypto.getRandomValues`. Throws ArgumentError.
   */
  randomTeam(options?: { seed?: number | bigint; legal?: boolean; count?: number }): WholeMember[];
  /** The members of a sample team by its number, 1 to 12: those of examples/teams, in the order of their names. Throws ArgumentError. */
  sampleTeam(number: number): WholeMember[];
  /** The members in a team builder's text (docs/TEAM_TEXT.md). Throws TextError. */
  teamFromText(text: string): WholeMember[];
  /** The members in a packed line (docs/TEAM_TEXT.md). Throws TextError. */
  teamFromPacked(line: string): WholeMember[];
  /**
   * The text of a team, which `teamFromText` reads as a team with the same stats and moves. Throws TeamError, also (with code 78) for a move with other
   * than three PP ups, for which a text has no place.
   */
  teamToText(team: Team | Members): string;
  /** The packed line of a team, with a line feed. Throws as `teamToText`. */
  teamToPacked(team: Team | Members): string;
  /** The odds of a move between two members that have just been sent out. Throws TeamError, DamageError. */
  odds(attacker: Member, defender: Member, move: MoveLike): Odds;
  /** The damage of a move between two members that have just been sent out: 39 numbers. Throws TeamError, DamageError. */
  damage(attacker: Member, defender: Member, move: MoveLike, critical?: boolean): number[];
  /** The row of a species. Throws ArgumentError for an unknown species. */
  base(species: SpeciesLike): Base;
  /** The row of a move. Throws ArgumentError for an unknown move. */
  moveData(move: MoveLike): MoveData;
  /**
   * The factor of the damage of a move of one type to a foe of one type: 0, 0.5, 1 or 2. For a foe of two types both factors apply, one after
   * the other. A type is a name of TYPES, or its number.
   */
  effectiveness(attack: TypeName | number, foe: TypeName | number): number;
  /** The stats of a member without a battle. Throws TeamError. */
  stats(member: Member): Stats;
  /** The HP that the user of a move gains by its damage: 0 for a move that drains none. The user's HP do not rise above its maximum. */
  drained(move: MoveLike, damage: number): number;
  /** The HP that the user of a move loses by its damage: 0 for a move without recoil. */
  recoil(move: MoveLike, damage: number): number;
  /** The events of log bytes. Throws LogError. */
  events(log: Uint8Array | ArrayBuffer): GameEvent[];
  /** The lines of log bytes, without line feeds. Throws LogError. */
  lines(log: Uint8Array | ArrayBuffer): string[];
  /**
   * Creates a narrator of a battle, before its first event. `you` is the side that reads the sentences; without it, a spectator does. `inPercent` says
   * whether sentences have the HP of side 1 and of side 2 in per cent: those of the foe where the log is from a teller with `pixels`.
   */
  narrator(terms?: { you?: Side | null; inPercent?: readonly [boolean, boolean] }): Narrator;
  /** The log bytes of events, from which `events` reads the same events. A `size` is ignored. Throws ArgumentError for a field out of range. */
  logBytes(events: readonly (EventFields & { size?: number })[]): Uint8Array;
}

/** A module: its URL or the text of it, its path in Node, or its bytes. */
export type Source = URL | string | BufferSource;

/**
 * Loads the library: the module of this package, or one from its URL, its path in Node, or its bytes. With two modules, it loads the proved one if
 * this host has 64-bit memories, else the plain one. Rejects with ArgumentTypeError, ArgumentError, ModuleError.
 */
export function load(source?: Source | { proved?: Source; plain: Source }): Promise<Gen1>;
/** Whether this host has 64-bit memories. */
export const HAS_LONG_MEMORIES: boolean;
/** The byte of a choice. Throws ArgumentError for an unknown name, or a number that is not a byte. */
export function byteOf(choice: Choice): number;
/** The name of a choice's byte. Throws ArgumentError for a byte that is not a choice. */
export function choiceOf(byte: number): ChoiceName;
/** The choices in the order of their bits in a mask. */
export const CHOICES: readonly ChoiceName[];
export const LOG_ROOM: 512;
/** The names of the species. The index of each is its number less 1. */
export const SPECIES: readonly SpeciesName[];
/** The names of the moves. The index of each is its number less 1. */
export const MOVES: readonly MoveName[];
/** The index of each is its number. */
export const TYPES: readonly TypeName[];
/** The index of each is its number. */
export const STATUSES: readonly Status[];
/** The index of each is its bit. */
export const CONDITIONS: readonly Condition[];
/** The stats with stages, in the order of a list of stages. */
export const STATS: readonly Stat[];
/** Why a use of a move cannot hit. The index of each is its number less 1. */
export const REASONS: readonly string[];
/** The index of each is its number. */
export const OUTCOMES: readonly Outcome[];
/** The kinds of rows, in the order of their numbers, from 1. */
export const ROW_KINDS: readonly RowKind[];
/** The index of each is its number. */
export const REQUESTS: readonly Request[];
/**
 * The columns of a row that `BattleArray.observe` returns. Numbers are those of gen1_player (include/gen1.h): a species, move or type has its
 * number, a stage is from 0 to 12, and a condition or an offered choice is 1 or 0.
 */
export const COLUMNS: readonly string[];
/** The index of each is its number less 1. */
export const EVENT_KINDS: readonly EventKind[];
/** The index of each is its number less 1. */
export const CANT_REASONS: readonly CantReason[];
/** The index of each is its number. */
export const DAMAGE_SOURCES: readonly DamageSource[];
/** The index of each is its number less 1. */
export const VOLATILES: readonly Volatile[];
/** The index of each is its number less 1. */
export const FAULTS: readonly Fault[];
