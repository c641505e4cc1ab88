// First-generation link battles in JavaScript, over the WebAssembly module of the C library (include/gen1.h).
//
//     import { load } from "gen1";
//     const gen1 = await load();
//     const battle = gen1.battle({ one: [member], two: [member], seed });
//     const { lines } = battle.update("pass", "pass");
//
// The 384 bytes of a battle are in the module's memory. The garbage collector frees them, or `battle.free()` frees them at once.
// JavaScript contains no rules of battle.
import {byteOf, choiceOf, CHOICES, octets, record, truth, wrongType} from "./arguments.mjs";
import {arrayOf, BattleArray} from "./array.mjs";
import {Battle, blockOfTerms, damageError, loadError} from "./battle.mjs";
import {ModuleError} from "./errors.mjs";
import {CANT_REASONS, DAMAGE_SOURCES, EVENT_KINDS, eventsOf, FAULTS, linesOf, VOLATILES} from "./events.mjs";
import {CODES} from "./header.mjs";
import {Host, hostOf, Message, messageBytes, Notice, noticeBytes, storedHost, storedRoom, structBytes} from "./host.mjs";
import {instanceOf, Library} from "./memory.mjs";
import {COLUMNS} from "./observing.mjs";
import {Outcomes} from "./outcomes.mjs";
import {Player, playerOf, Teller, tellerOf} from "./players.mjs";
import {Room, roomOf} from "./room.mjs";
import {Row, ROW_KINDS} from "./row.mjs";
import {Narrator, narratorOf, Spectator, spectatorOf} from "./spectator.mjs";
import {blockOfState} from "./states.mjs";
import {MOVES, SPECIES, TYPES} from "./tables.mjs";
import {baseOf, effectivenessOf, memberBytes, membersFrom, moveDataOf, moveOf, randomMembers, sampleMembers, sharedOf, statsOf, Team, teamError, textOf} from "./teams.mjs";
import {Update} from "./update.mjs";
import {CONDITIONS, oddsOf, OUTCOMES, REASONS, REQUESTS, STATS, STATUSES} from "./views.mjs";
import {logBytesOf} from "./writing.mjs";

export const LOG_ROOM = CODES.LOG_ROOM;
const HIT_SIDES = ["", "attacker: ", "defender: "];

/** The library. `load` makes it. */
export class Gen1 {
  #library;

  /** The module that runs, "proved" or "plain", by the key that `load` was passed; null if it was passed one source without a key. */
  build;

  constructor(library, build = null) {
    if (!(library instanceof Library))
      throw wrongType(library, "library", "the module's own; a Gen1 is created by load, not by new");
    this.build = build;
    this.#library = library;
  }

  /** Whether the module has a 64-bit memory. */
  get is64() {
    return this.#library.isLong;
  }

  /** How many bytes the module's memory has. It grows with the battles that are held at the same time, and never shrinks. */
  get memorySize() {
    return this.#library.bytes.length;
  }

  /** The version of the library, such as "1.0.0". */
  get version() {
    const number = this.#library.calls.gen1_version();
    return [number >> 16, (number >> 8) & 255, number & 255].join(".");
  }

  /** The origin of the library, such as "plain, rustc 1.95.0, sources sha256 HEX"; "unknown" if the module doesn't contain it. */
  get libraryBuild() {
    return this.#library.build;
  }

  /** Creates a battle of two teams before its first update, in which both sides pass. */
  battle(terms) {
    return new Battle(this.#library, blockOfTerms(this.#library, terms));
  }

  /** Creates an array of `count` copies of a battle. */
  battleArray(terms) {
    return arrayOf(this.#library, terms);
  }

  /** Loads a battle from its 384 bytes, of any of the three versions. */
  load(bytes) {
    const library = this.#library;
    const block = library.arena.block();
    const code = this.#loadInto(block, bytes);
    if (!code) return new Battle(library, block);
    library.arena.free(block);
    throw loadError(library, code, bytes.byteLength);
  }

  /** The code of the LoadError for bytes, or 0 if they are a battle. Faster than a `load` that throws. */
  testBytes(bytes) {
    const block = this.#library.arena.block();
    const code = this.#loadInto(block, bytes);
    this.#library.arena.free(block);
    return code;
  }

  /** Creates a battle from a state: an object like `battle.state`. If an active member's four stats are 0, they are computed from stages and status. */
  battleOfState(state) {
    return new Battle(this.#library, blockOfState(this.#library, state));
  }

  #loadInto(block, bytes) {
    const given = octets(bytes, "bytes");
    const library = this.#library;
    library.begin();
    return library.calls.gen1_load(block.pointer, library.put(given), library.size(given.length));
  }

  /** Tests a team once, for any number of battles. */
  team(members) {
    return new Team(this.#library, members);
  }

  /** Creates a room with a copy of a battle, which is started at once if it has not begun. */
  room(battle) {
    return new Room(this.#library, roomOf(this.#library, battle));
  }

  /** Creates a host with a copy of a battle, which is started at once if it has not begun. */
  host(battle, options = {}) {
    return new Host(this.#library, hostOf(this.#library, battle, options));
  }

  /** The room whose `bytes` these are. Exactly those of rooms are accepted. */
  roomOfBytes(bytes) {
    return new Room(this.#library, storedRoom(this.#library, bytes));
  }

  /** The host whose `bytes` these are. Exactly those of hosts are accepted. */
  hostOfBytes(bytes) {
    return new Host(this.#library, storedHost(this.#library, bytes));
  }

  /** The message whose `bytes` these are. Only their number and that of its log are tested. */
  messageOfBytes(bytes) {
    return new Message(this.#library, structBytes(this.#library, "gen1_message", bytes));
  }

  /** The notice whose `bytes` these are. Only their number and that of its log are tested. */
  noticeOfBytes(bytes) {
    return new Notice(this.#library, structBytes(this.#library, "gen1_notice", bytes));
  }

  /** The message with this JSON. Its numbers are tested as far as its fields can hold them. */
  messageOfJSON(json) {
    return this.messageOfBytes(messageBytes(json));
  }

  /** The notice with this JSON. Its numbers are tested as far as its fields can hold them. */
  noticeOfJSON(json) {
    return this.noticeOfBytes(noticeBytes(json));
  }

  /** Creates a spectator of a battle of two teams, before its start. */
  spectator(one, two) {
    return new Spectator(this.#library, spectatorOf(this.#library, one, two));
  }

  /** Creates a player of a side with its team, before the first update; `foes` is the number of the foe's members, `hpForm` that of its teller, `rules` and `limit` those of the battle. */
  player(terms) {
    return new Player(this.#library, playerOf(this.#library, terms));
  }

  /** The player whose `bytes` these are. Only their number is tested. */
  playerOfBytes(bytes) {
    return new Player(this.#library, structBytes(this.#library, "gen1_player", bytes));
  }

  /** The teller whose `bytes` these are. Only their number is tested. */
  tellerOfBytes(bytes) {
    return new Teller(this.#library, structBytes(this.#library, "gen1_teller", bytes));
  }

  /** The spectator whose `bytes` these are. Only their number is tested. */
  spectatorOfBytes(bytes) {
    return new Spectator(this.#library, structBytes(this.#library, "gen1_spectator", bytes));
  }

  /** Creates a teller of a side, before the first event. It reports the foe's HP in `hpForm`. */
  teller(terms) {
    return new Teller(this.#library, tellerOf(this.#library, terms));
  }

  /** The members of a random team, as `battle` takes them. */
  randomTeam(options = {}) {
    return randomMembers(this.#library, options);
  }

  /** The members of the sample team with this number, from 1. */
  sampleTeam(number) {
    return sampleMembers(this.#library, number);
  }

  /** The members in a team builder's text (docs/TEAM_TEXT.md), as `battle` takes them. */
  teamFromText(text) {
    return membersFrom(this.#library, "gen1_team_from_text", text);
  }

  /** The members in a packed line, as `battle` takes them. */
  teamFromPacked(line) {
    return membersFrom(this.#library, "gen1_team_from_packed", line);
  }

  /** The text of a team, which `teamFromText` reads as a team with the same stats and moves. */
  teamToText(team) {
    return textOf(this.#library, "gen1_team_to_text", CODES.TEAM_TEXT_ROOM, team);
  }

  /** The packed line of a team, with a line feed. */
  teamToPacked(team) {
    return textOf(this.#library, "gen1_team_to_packed", CODES.TEAM_PACKED_ROOM, team);
  }

  /** The odds of a move between two members that have just been sent out: its damage, and its chances of a hit and of a critical hit. */
  odds(attacker, defender, move) {
    const library = this.#library;
    const members = [memberBytes(library, attacker, "attacker"), memberBytes(library, defender, "defender")];
    const number = moveOf(library, move);
    library.begin();
    const [odds, ...pair] = [library.roomOf("gen1_odds"), ...members.map((member) => library.put(member))];
    const answer = library.calls.gen1_odds_between(...pair, number, odds);
    if (answer === CODES.ERROR_MOVE) throw damageError(library, answer, move);
    if (answer) throw teamError(library, answer, [[attacker], [defender]], {}, (side) => HIT_SIDES[side]);
    return oddsOf(library, number, odds);
  }

  /** The damage of a move between two members that have just been sent out: 39 numbers, as from `Battle.damage`. */
  damage(attacker, defender, move, critical = false) {
    const isCritical = truth(critical, "critical");
    const odds = this.odds(attacker, defender, move);
    const {numbers, code} = isCritical ? odds.critical : odds.usual;
    if (code) throw damageError(this.#library, code, move);
    return numbers;
  }

  /** The base stats and types of a species. */
  base(species) {
    return baseOf(this.#library, species);
  }

  /** The type, power, accuracy, PP, effect and priority of a move, and whether it is often critical. */
  moveData(move) {
    return moveDataOf(this.#library, move);
  }

  /** The factor of the damage of a move of one type to a foe of one type: 0, 0.5, 1 or 2. */
  effectiveness(attack, foe) {
    return effectivenessOf(this.#library, attack, foe);
  }

  /** The stats of a member without a battle. */
  stats(member) {
    return statsOf(this.#library, member);
  }

  /** The HP that the user of a move gains by its damage. */
  drained(move, damage) {
    return sharedOf(this.#library, "gen1_drained", move, damage);
  }

  /** The HP that the user of a move loses by its damage. */
  recoil(move, damage) {
    return sharedOf(this.#library, "gen1_recoil", move, damage);
  }

  /** The events of log bytes, as objects with their numbers and sizes. */
  events(log) {
    return eventsOf(this.#library, octets(log, "log"));
  }

  /** The lines of log bytes, without line feeds. */
  lines(log) {
    return linesOf(this.#library, octets(log, "log"));
  }

  /** Creates a narrator of a battle before its first event: for a side, or for a spectator. */
  narrator(terms = {}) {
    return new Narrator(this.#library, narratorOf(this.#library, terms));
  }

  /** The log bytes of events, from which `events` reads the same events. */
  logBytes(events) {
    return logBytesOf(this.#library, events);
  }
}

/** Whether this host runs modules with a 64-bit memory, such as the proved one. The test is the smallest such module. */
export const HAS_LONG_MEMORIES = WebAssembly.validate(Uint8Array.of(0, 0x61, 0x73, 0x6d, 1, 0, 0, 0, 5, 3, 1, 4, 1));

/**
 * Loads the library: the module of this package, or one from its URL, its path in Node, or its bytes. With two modules, `{ proved, plain }`, it
 * loads the proved one if the host can run it, else the plain one; `build` says which.
 */
export async function load(source = new URL("./gen1.wasm", import.meta.url)) {
  const isNamed = source?.proved !== undefined || source?.plain !== undefined;
  if (isNamed) record(source, "source", "an object with proved and plain", ["proved", "plain"]);
  const build = !isNamed ? null : source.proved !== undefined && HAS_LONG_MEMORIES ? "proved" : "plain";
  const what = build ? `source.${build}` : "source";
  return new Gen1(new Library(await instanceOf(build ? source[build] : source, what)), build);
}

export {ArgumentError, ArgumentTypeError, DamageError, FreedError, Gen1Error, HostError, LoadError, LogError, MemoryError, ModuleError, RefusedError, RoomError, StateError, TeamError, TextError,} from "./errors.mjs";
export {
  Battle,
  BattleArray,
  byteOf,
  CANT_REASONS,
  CHOICES,
  choiceOf,
  COLUMNS,
  CONDITIONS,
  DAMAGE_SOURCES,
  EVENT_KINDS,
  FAULTS,
  Host,
  Message,
  MOVES,
  Narrator,
  Notice,
  Outcomes,
  OUTCOMES,
  Player,
  REASONS,
  REQUESTS,
  Room,
  Row,
  ROW_KINDS,
  SPECIES,
  Spectator,
  STATS,
  STATUSES,
  Team,
  Teller,
  TYPES,
  Update,
  VOLATILES,
};
