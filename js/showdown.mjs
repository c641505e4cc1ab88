// Showdown's protocol (gen1-showdown), over a separate module: teams with nicknames, formats, lines, requests and choices, a simulator, and
// battle logs read back.
//
//     import { loadShowdown } from "gen1/showdown";
//     const showdown = await loadShowdown();
//     const members = showdown.members("Bob|Tauros|||bodyslam,rest|||||||");
import {choiceOf, FORMS, freshNumbers, list, octets, record, seedOf, shown, sideOf, text, truth, within, wrongType} from "./arguments.mjs";
import {Battle} from "./battle.mjs";
import {ArgumentError, FreedError, Gen1Error, ModuleError, TeamError} from "./errors.mjs";
import {Host, Message, Notice} from "./host.mjs";
import {instanceOf} from "./memory.mjs";
import {Team} from "./teams.mjs";

const NEEDED = ["memory", "gen1_showdown_room", "gen1_showdown_call", "gen1_showdown_free"];
const HP = ["exact", "pixels", "percent"];
const VIEWERS = ["p1", "p2", "spectator", "omniscient", "stream"];
const MOST = 2 ** 32 - 1;
const hexOf = (bytes) => Array.from(bytes, (byte) => byte.toString(16).padStart(2, "0")).join("");
const bytesOf = (hex) => Uint8Array.from(hex.match(/../g) ?? [], (pair) => parseInt(pair, 16));

/** A command or a line of a log is not one, or can't be part of the battle. `line` is its number, from 1; 0 if the error is about no line. */
export class ProtocolError extends Gen1Error {
  constructor(message, line) {
    super(line ? `line ${line}: ${message}` : message, 0, message);
    this.line = line;
  }
}

/** A text isn't a choice that can be made now. The message is what Showdown sends after `|error|[Invalid choice]` and a space. */
export class ChoiceError extends Gen1Error {}

/** A secret is not the one that `player`, 1 or 2, committed to. */
export class CommitmentError extends ArgumentError {
  constructor(message, player) {
    super(message, "secrets");
    this.player = player;
  }
}

// The error that the module reports.
function errorOf({kind, why, line, side, player}) {
  if (kind === "commitment") return new CommitmentError(why, player);
  if (kind === "line") return new ProtocolError(why, line);
  if (kind === "choice") return new ChoiceError(why);
  if (kind === "team" || kind === "text") return new TeamError(why, 0, {side, reason: why});
  return new ArgumentError(why);
}

// A text of one line.
function lineOf(value, what) {
  if (/[\n\r\u2028\u2029]/.test(text(value, what)))
    throw new ArgumentError(`${what} is ${shown(value)}, not a text of one line`, what);
  return value;
}

function oneOf(value, names, what) {
  if (!names.includes(value)) throw new ArgumentError(`${what} is ${shown(value)}, not ${names.join(", ")}`, what);
  return value;
}

function instance(value, kind, what) {
  if (!(value instanceof kind)) throw wrongType(value, what, `of class ${kind.name}`);
  return value;
}

const both = (value, what) => {
  if (list(value, what, "two, of side 1 and side 2").length !== 2)
    throw new ArgumentError(`${what} has ${value.length} items, not two, of side 1 and side 2`, what);
  return Array.from(value);
};

// The 32 bytes of a secret or a commitment.
function hashOf(value, what) {
  const bytes = octets(value, what);
  if (bytes.length !== 32) throw new ArgumentError(`${what} has ${bytes.length} bytes, not 32`, what);
  return hexOf(bytes);
}

const timeOf = (value) => (value === undefined ? null : within(value, "time", 0, MOST));

// The number of a pair, which follows that of the last one.
function followingPair(last, number) {
  if (last === null || number === last + 1) return number;
  throw new ArgumentError(`pair ${last} came last, so the next one must be ${last + 1}, not ${number}`, "number");
}

const MEMBER = ["species", "level", "dvs", "exp", "moves"];

// A member in the module's form. A move alone has three PP ups, and what is left out is at its maximum.
function memberOf(given, place) {
  const it = record(given, `team[${place}]`, "a member: an object with species and moves", MEMBER);
  const {species, level = 100, dvs = [15, 15, 15, 15], exp = Array(5).fill(65535), moves} = it;
  const pairs = Array.from(list(moves, "moves"), (move) => (typeof move === "string" ? [move, 3] : move));
  return {species, level, dvs: Array.from(dvs), exp: Array.from(exp), moves: pairs};
}

/** The members of a team, with their nicknames. */
export class Members {
  #module;
  #listed;

  constructor(module, team, nicknames = null) {
    this.#module = module;
    const given = typeof team === "string" ? team : Array.from(list(team, "team", "a text or members"), memberOf);
    const named =
        nicknames && Array.from(list(nicknames, "nicknames"), (it) => (it === null ? null : lineOf(it, "nicknames")));
    const {members, names} = module.call("read_members", {team: given, nicknames: named});
    this.#listed = members;
    this.names = Object.freeze(names);
    Object.freeze(this);
  }

  static listed(value, what = "members") {
    return instance(value, Members, what).#listed;
  }

  /** The members as `gen1.battle` takes them. */
  get team() {
    return this.#listed.map(({species, level, dvs, exp, moves}) => structuredClone({species, level, dvs, exp, moves}));
  }

  /** The nickname of each member, or null. */
  get nicknames() {
    return this.#listed.map(({nickname}) => nickname);
  }

  get length() {
    return this.#listed.length;
  }

  /** The team as a packed line. */
  packed() {
    return this.#module.call("write_members", {members: this.#listed, form: "packed"}).text.trimEnd();
  }

  /** The team as an export text. */
  export() {
    return this.#module.call("write_members", {members: this.#listed, form: "export"}).text;
  }
}

/** Named rule sets, which check teams. */
export class Formats {
  #module;
  #text;
  #listed;

  constructor(module, file) {
    this.#module = module;
    this.#text = file === undefined ? null : text(file, "text");
    const {formats, source, date} = module.call("formats", {text: this.#text});
    this.#listed = new Map(formats.map((format) => [format.id, format]));
    Object.assign(this, {ids: Object.freeze([...this.#listed.keys()]), source, date});
    Object.freeze(this);
  }

  static text(formats) {
    return formats === undefined ? null : instance(formats, Formats, "formats").#text;
  }

  #of(id) {
    return this.#listed.get(oneOf(id, this.ids, "id"));
  }

  /** The name of a format in lines. */
  tier(id) {
    return this.#of(id).tier;
  }

  /** The rules of a battle of a format, 0 to 3. */
  rules(id) {
    return this.#of(id).rules;
  }

  /** The clauses of a format, for `lines`. */
  clauses(id) {
    return this.#of(id).lines;
  }

  /** The rules of a format that a team breaks: by members, then of the whole team. */
  complaints(members, id) {
    this.#of(id);
    const asked = {text: this.#text, format: id, members: Members.listed(members)};
    return this.#module.call("complaints", asked).complaints;
  }
}

// The numbers of objects that were not freed, given back when their owners are collected.
const dropped = new FinalizationRegistry(({module, number}) => module.call("free", {of: number}));

// An object that the module keeps until it is freed.
class Kept {
  #module;
  #number;

  constructor(module, call, asked) {
    this.#module = module;
    this.#number = module.call(call, asked).number;
    dropped.register(this, {module, number: this.#number}, this);
  }

  _ask(call, asked = {}) {
    if (this.#number === null) throw new FreedError(`the ${this.constructor.name} was freed`);
    return this.#module.call(call, {of: this.#number, ...asked});
  }

  /** Gives its memory back at once. Otherwise that happens when it is collected. */
  free() {
    if (this.#number === null) return;
    dropped.unregister(this);
    this._ask("free");
    this.#number = null;
  }

  [Symbol.dispose ?? Symbol.for("Symbol.dispose")]() {
    this.free();
  }
}

const LINES = ["players", "members", "tier", "rules", "hp"];
const namesOf = (value) => (value instanceof Members ? value.names : Array(within(value, "members", 1, 6)).fill(""));

/** Writes the lines of a battle, for each viewer. */
export class Lines extends Kept {
  #pair = null;
  #side;

  constructor(module, options) {
    const given = record(options, "options", "an object with players and members", LINES);
    const {tier = "[Gen 1] Link battle", rules = [], hp = "exact"} = given;
    const names = both(given.members, "members").map(namesOf);
    super(module, "new_lines", {
      players: both(given.players, "players").map((name) => lineOf(name, "players")),
      names,
      tier: lineOf(tier, "tier"),
      rules: Array.from(list(rules, "rules"), (rule) => lineOf(rule, "rules")),
      hp: oneOf(hp, HP, "hp"),
    });
    const known = [1, 2].filter((side) => names[side - 1].some(Boolean));
    this.#side = known.length === 1 ? known[0] : null;
  }

  /** Adds the lines of an update of a battle: a copy of the battle before it, its log, and the battle after it. */
  update(before, log, after, time) {
    const [was, now] =
        [instance(before, Battle, "before"), instance(after, Battle, "after")].map((it) => hexOf(it.bytes));
    this._ask("update", {before: was, log: hexOf(octets(log, "log")), after: now, time: timeOf(time)});
  }

  /** Adds the lines of the last pair of a host, at the beginning those of its start: once after each pair. */
  report(host, time) {
    const number = followingPair(this.#pair, instance(host, Host, "host").number);
    const messages = [1, 2].map((side) => hexOf(host.message(side).bytes));
    this._ask("report", {messages, notice: hexOf(host.notice().bytes), time: timeOf(time)});
    this.#pair = number;
  }

  /** Adds the lines of a pair for one viewer, who was sent a message or a notice. */
  receive(sent, time) {
    const isMessage = sent instanceof Message;
    if (!isMessage) instance(sent, Notice, "sent");
    if (isMessage !== (this.#side !== null))
      throw new ArgumentError(
          "a message is for the player of the one side whose members are known, a notice for others", "sent");
    const number = followingPair(this.#pair, sent.number);
    const message = isMessage ? hexOf(sent.bytes) : null;
    this._ask("hear", {log: hexOf(sent.log), side: this.#side, message, time: timeOf(time)});
    this.#pair = number;
  }

  /** Adds the lines of an earlier pair for one viewer, of which only the log that was sent to it was kept. */
  hear(log) {
    this._ask("hear", {log: hexOf(octets(log, "log")), side: null, message: null, time: null});
  }

  /** Ends the battle by a win of a side, or with null by a tie. */
  end(winner) {
    this._ask("end", {winner: winner === null ? null : sideOf(winner), by_forfeit: false});
  }

  /** Ends the battle by a forfeit of a side. */
  forfeit(side) {
    this._ask("end", {winner: 3 - sideOf(side), by_forfeit: true});
  }

  /** Adds a line that everyone sees, without its first bar. */
  line(said) {
    this._ask("line", {text: lineOf(said, "text")});
  }

  /** The lines so far as a viewer sees them, each with a line feed. */
  text(viewer) {
    return this._ask("text", {viewer: oneOf(viewer, VIEWERS, "viewer")}).text;
  }

  /** Forgets the lines so far. */
  clear() {
    this._ask("clear");
  }
}

const SEAT = ["side", "name", "members", "foes", "hp"];

/** A player of a battle, as Showdown sees one: its requests, and its choices read. */
export class Seat extends Kept {
  #pair = null;

  constructor(module, options) {
    const {side, name, members, foes, hp = "exact"} =
        record(options, "options", "an object with side, name and members", SEAT);
    super(module, "new_seat", {
      side: sideOf(side),
      name: lineOf(name, "name"),
      members: Members.listed(members),
      foes: foes === undefined ? 0 : within(foes, "foes", 1, 6),
      hp: oneOf(hp, HP, "hp"),
    });
  }

  /** Takes in a message of the player's host: each once, in order. */
  receive(message) {
    const number = followingPair(this.#pair, instance(message, Message, "message").number);
    this._ask("receive", {message: hexOf(message.bytes)});
    this.#pair = number;
  }

  /** Takes in the log of an earlier pair that was sent to the player, for a player that comes back. */
  hear(log) {
    this._ask("hear", {log: hexOf(octets(log, "log")), side: null, message: null, time: null});
  }

  /** Takes in an update of a battle: the battle after it, and its log. */
  tell(battle, log) {
    this._ask("tell", {battle: hexOf(instance(battle, Battle, "battle").bytes), log: hexOf(octets(log, "log"))});
  }

  /** The request to the player, as JSON, with its number from 1. */
  request(rqid) {
    return this._ask("request", {rqid: within(rqid, "rqid", 0, MOST)}).text;
  }

  /** Whether the player has nothing to choose. Then its choice is a pass. */
  get waits() {
    return this._ask("request", {rqid: 0}).waits;
  }

  /** The choice in a text: `move` or `switch` with a name or a number of the request, `default` or `auto`. */
  choiceIn(said) {
    return choiceOf(this._ask("choice_in", {text: text(said, "text")}).choice);
  }
}

const SIMULATOR = ["hp", "clock", "formats"];

/** Plays battles by the commands of Showdown's simulator, one battle after the other. */
export class Simulator extends Kept {
  constructor(module, options = {}) {
    const {hp, clock = false, formats} = record(options, "options", "an object", SIMULATOR);
    super(module, "new_simulator", {
      hp: hp === undefined ? null : oneOf(hp, HP, "hp"),
      clock: truth(clock, "clock"),
      formats: Formats.text(formats),
    });
  }

  /** Handles a line: the messages, and why the command was ignored, or null. */
  take(line) {
    const given = lineOf(typeof line === "string" ? line.replace(/[\r\n]+$/, "") : line, "line");
    const isStart = /^>(start|reseed)\b/.test(given);
    const chance = isStart ? Array.from(new Uint32Array(freshNumbers("seed").buffer.slice(0, 8))) : null;
    return this._ask("take", {line: given, time: Math.floor(Date.now() / 1000), chance});
  }
}

const CLAUSES = ["sleep", "freeze"];

/** A second sleep by a move or a second freeze of the foe's members loses the battle. */
export class EndingClauses extends Kept {
  constructor(module, options = {}) {
    const {sleep = true, freeze = true} = record(options, "options", "an object", CLAUSES);
    super(module, "new_clauses", {sleep: truth(sleep, "sleep"), freeze: truth(freeze, "freeze")});
  }

  /** Takes in the log of a pair: each once, in order. Returns the first side that broke a clause so far, or null. */
  hear(log) {
    return this._ask("hear", {log: hexOf(octets(log, "log")), side: null, message: null, time: null}).loser;
  }
}

const FOLLOWER = ["side", "members"];

/** A battle log of one battle from its beginning, as the player of a side reads it. */
export class Follower {
  #module;
  #side;
  #members;
  #log = "";
  #found = null;

  constructor(module, options) {
    const {side, members} = record(options, "options", "an object with a side", FOLLOWER);
    this.#module = module;
    this.#side = sideOf(side);
    this.#members = members === undefined ? null : Members.listed(members);
  }

  #follow(more = {}) {
    return this.#module.call("follow", {side: this.#side, members: this.#members, log: this.#log, ...more});
  }

  get #read() {
    return (this.#found ??= this.#follow());
  }

  /** Adds whole lines of a log, or a whole replay page. */
  read(said) {
    this.#log += text(said, "text").endsWith("\n") ? said : `${said}\n`;
    this.#found = null;
  }

  /** What is unknown in the log, each once; the first twenty. */
  get notes() {
    return this.#read.notes;
  }

  /** The events of the log as log bytes. */
  get log() {
    return bytesOf(this.#read.log);
  }

  /** What both sides chose for each update after the first, in words; null where the log doesn't say. */
  get choices() {
    return this.#read.choices;
  }

  /** The name, the number of members, and the members' names of a side, as the log has them. */
  side(side) {
    const {player, count, names} = this.#read.sides[sideOf(side) - 1];
    return {name: player, count, names};
  }

  /** What the player knows after the log: a Player of this `gen1`. */
  player(gen1) {
    const seen = this.#read.seen.map(([species, level]) => ({species, level, moves: ["Tackle"]}));
    const team = this.#members?.map(({nickname, ...member}) => member) ?? seen;
    const {count} = this.side(this.#side === 1 ? 2 : 1);
    const {hp_form: form, rules, limit} = this.#read;
    const player = gen1.player({side: this.#side, team, foes: count ?? 0, hpForm: FORMS[form], rules, limit});
    player.feed(this.log);
    return player;
  }

  /** A battle of this `gen1` that fits what the player knows, its last request, and a guess of the foe's team in any order. */
  battle(gen1, guess, seed = freshNumbers("seed")) {
    const asked = {guess: Members.listed(guess, "guess"), seed: Array.from(seedOf(seed))};
    return gen1.load(bytesOf(this.#follow(asked).battle));
  }
}

/** The protocol. `loadShowdown` makes it. */
export class Showdown {
  #module;

  constructor(calls) {
    const lacking = NEEDED.filter((name) => calls[name] === undefined);
    if (lacking.length)
      throw new ModuleError(`the module is not that of the protocol: it exports no ${lacking.join(", ")}`);
    this.#module = new Module(calls);
  }

  /** The members of a text, in any form, or of a team; with nicknames in place of those of the text. */
  members(team, nicknames) {
    return new Members(this.#module, team instanceof Team ? team.members : team, nicknames);
  }

  /** The formats of a file's text, or those of the library. */
  formats(file) {
    return new Formats(this.#module, file);
  }

  lines(options) {
    return new Lines(this.#module, options);
  }

  seat(options) {
    return new Seat(this.#module, options);
  }

  simulator(options) {
    return new Simulator(this.#module, options);
  }

  endingClauses(options) {
    return new EndingClauses(this.#module, options);
  }

  /** The commitment of player 1 or 2 to its secret, both of 32 bytes. */
  commit(battle, player, secret) {
    const at = within(player, "player", 1, 2) - 1;
    const asked = {battle: lineOf(battle, "battle"), commitments: [], secrets: Array(2).fill(hashOf(secret, "secret"))};
    return bytesOf(this.#module.call("agree", asked).commitments[at]);
  }

  /** What the secrets of both players decide: the seed of the battle, and the side of each player, by lot. */
  agree(battle, commitments, secrets) {
    const [committed, revealed] = [[commitments, "commitments"], [secrets, "secrets"]].map(
        ([given, what]) => both(given, what).map((it) => hashOf(it, what)));
    const asked = {battle: lineOf(battle, "battle"), commitments: committed, secrets: revealed};
    const {seed, first} = this.#module.call("agree", asked);
    return {seed: bytesOf(seed), sides: [first, 3 - first]};
  }

  follower(options) {
    return new Follower(this.#module, options);
  }
}

// The calls of the module, each an object in JSON and its result.
class Module {
  #calls;

  constructor(calls) {
    this.#calls = calls;
  }

  call(call, asked) {
    const calls = this.#calls;
    const words = new TextEncoder().encode(JSON.stringify({call, ...asked}));
    const [ask, written] = [calls.gen1_showdown_room(words.length), calls.gen1_showdown_room(4)];
    new Uint8Array(calls.memory.buffer).set(words, ask);
    const answer = calls.gen1_showdown_call(ask, words.length, written);
    const length = new DataView(calls.memory.buffer).getUint32(written, true);
    const found = new TextDecoder().decode(new Uint8Array(calls.memory.buffer, answer, length));
    [[ask, words.length], [written, 4], [answer, length]].forEach(([at, size]) => calls.gen1_showdown_free(at, size));
    const {error, ...result} = JSON.parse(found);
    if (error) throw errorOf(error);
    return result;
  }
}

/** Loads the module of the protocol: that of this package, or one from its URL, its path in Node, or its bytes. */
export async function loadShowdown(source = new URL("./showdown.wasm", import.meta.url)) {
  return new Showdown((await instanceOf(source, "source")).exports);
}
