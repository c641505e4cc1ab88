// The knowledge that one side of a battle may have, and the teller that reports to it (docs/MECHANICS.md, "Player's view").
import {choicesIn, formOf, FORMS, inspected, octets, record, sideOf, truth, within, wrongType} from "./arguments.mjs";
import {Battle} from "./battle.mjs";
import {ArgumentError} from "./errors.mjs";
import {logErrorAfter} from "./events.mjs";
import {CODES} from "./header.mjs";
import {shownIn} from "./host.mjs";
import {fieldOf, layoutOf, offsetsOf, readStruct} from "./structs.mjs";
import {SPECIES} from "./tables.mjs";
import {bytesOf, teamAt, teamError, teamGiven} from "./teams.mjs";
import {made} from "./update.mjs";
import {viewOf} from "./views.mjs";

const [MOST_FOES, MOST_TURNS] = [6, 9999];
const PLAYER_KEYS = ["side", "team", "foes", "hpForm", "rules", "limit"];

/** The bytes of a player before a battle. */
export function playerOf(library, terms) {
  const {side, team, foes = 0, hpForm, rules = 0, limit = 1000} =
      record(terms, "terms", "an object with side and team", PLAYER_KEYS);
  const [own, given] = [sideOf(side), teamGiven(library, team, "team")];
  const told = {
    foes: within(foes, "foes", 0, MOST_FOES),
    hpForm: formOf(hpForm, "bar", "hpForm"),
    rules: within(rules, "rules", 0, 3),
    limit: within(limit, "limit", 1, MOST_TURNS),
  };
  library.begin();
  const player = library.roomOf("gen1_player");
  const answer = library.calls.gen1_player_begin(
      player, own, teamAt(library, given), library.put(bytesOf("gen1_player_terms", library.isLong, told)));
  // The code names a member, but no side.
  if (answer)
    throw teamError(
        library, answer + own * 65536, [team, team], {}, (_, place) => (place ? `team: member ${place}: ` : "team: "));
  return library.read(player, layoutOf("gen1_player", library.isLong).size);
}

/** The bytes of a teller before a battle. */
export function tellerOf(library, terms) {
  const {side, pixels = true, hpForm} = record(terms, "terms", "an object with side", ["side", "pixels", "hpForm"]);
  const [own, form] = [sideOf(side), formOf(hpForm, truth(pixels, "pixels") ? "bar" : "exact", "hpForm")];
  library.begin();
  const teller = library.roomOf("gen1_teller");
  library.calls.gen1_teller_begin(teller, own, form);
  return library.read(teller, layoutOf("gen1_teller", library.isLong).size);
}

/** The library of a player. */
export let libraryOf;
// The turn by the log; the turn of the player's own side as it was last shown, whether it begins a turn, and whether it is the log's; and a
// player that becomes another, with a form of HP and the terms of a battle.
let turnsOf;
let become;
// The team of a player by the log, as text.
let knownTo;

const [PLAYER, PUBLIC, PUBLIC_SIDE, SEEN, OWN_SIDE, OWN_MEMBER] =
    ["player", "public", "public_side", "seen", "own_side", "own_member"].map((it) => offsetsOf(`gen1_${it}`));

// The six members at an offset of some bytes, as text.
function membersAt(bytes, at, {size, species, level}) {
  let found = "";
  for (let place = at; place < at + 6 * size && bytes[place + species]; place += size)
    found += `${found && ", "}${SPECIES[bytes[place + species] - 1]} at level ${bytes[place + level]}`;
  return found || "nobody";
}

/** Gives the player at an offset of the bytes the rules and the turn limit of a battle's state. */
export function giveTerms(bytes, at, {rules, limit}) {
  bytes[at + PLAYER.rules] = rules;
  new DataView(bytes.buffer, bytes.byteOffset).setUint16(at + PLAYER.limit, limit, true);
}

/** A player: one side with what it may know, and nothing else about the battle. */
export class Player {
  #library;
  #bytes;

  static {
    libraryOf = (player) => {
      if (!(player instanceof Player)) throw wrongType(player, "player", "a Player");
      return player.#library;
    };
    turnsOf = (player) => {
      const bytes = player.#bytes;
      const view = new DataView(bytes.buffer, bytes.byteOffset);
      return {
        told: view.getUint16(PLAYER.known + PUBLIC.turn, true),
        shown: view.getUint16(PLAYER.own + OWN_SIDE.turn, true),
        begins: bytes[PLAYER.own + OWN_SIDE.request] === CODES.REQUEST_MOVE,
        hasOwn: knownTo(player) === membersAt(bytes, PLAYER.own + OWN_SIDE.members, OWN_MEMBER),
      };
    };
    knownTo = (player) =>
        membersAt(player.#bytes, PLAYER.known + PUBLIC.sides + (player.side - 1) * PUBLIC_SIDE.size, SEEN);
    become = (player, other, hpForm, battle) => {
      player.#bytes = other.#bytes;
      player.#bytes[PLAYER.hpForm] = FORMS.indexOf(hpForm);
      giveTerms(player.#bytes, 0, battle.state);
    };
  }

  constructor(library, bytes) {
    this.#library = made(library, "Player", "gen1.player");
    this.#bytes = bytes;
  }

  /** A copy of the bytes of its gen1_player (include/gen1.h). */
  get bytes() {
    return this.#bytes.slice();
  }

  #field(name) {
    return fieldOf("gen1_player", name, this.#bytes, this.#library.isLong);
  }

  /** The side that it plays. */
  get side() {
    return this.#field("side");
  }

  /** The form in which the HP of the foe's members is reported to it. */
  get hpForm() {
    return FORMS[this.#field("hp_form")];
  }

  /** The rules of the battle, 0 to 3. */
  get rules() {
    return this.#field("rules");
  }

  /** The last turn of the battle, 1 to 9,999. */
  get limit() {
    return this.#field("limit");
  }

  /** Its knowledge, decoded when it is read. */
  get view() {
    return viewOf(this.#bytes, readStruct("gen1_player", new DataView(this.#bytes.buffer), 0, this.#library.isLong));
  }

  /** Its choices when it was last shown its side; none before that, and none once the battle is over. */
  get choices() {
    const offered = this.#field("offered");
    return choicesIn(offered);
  }

  /** An independent copy that knows the same. */
  clone() {
    return new Player(this.#library, this.#bytes.slice());
  }

  /** Reads the next bytes of the log of its side's teller, in pieces of any size. An event counts as soon as its last byte is read. */
  feed(told) {
    const given = octets(told, "told");
    const library = this.#library;
    library.begin();
    const player = library.put(this.#bytes);
    const code = library.calls.gen1_player_feed(player, library.put(given), library.size(given.length));
    if (code) throw logErrorAfter(library, code, this.#field("held").slice(0, this.#field("held_count")), given);
    this.#bytes = library.read(player, this.#bytes.length);
  }

  /** Shows it its own side and its choices as they are now in a battle, and nothing else about the battle. */
  show(battle) {
    if (!(battle instanceof Battle)) throw wrongType(battle, "battle", "a Battle");
    const [library, side] = [this.#library, this.side];
    library.begin();
    const [player, from, own] = [library.put(this.#bytes), library.put(battle.bytes), library.roomOf("gen1_own_side")];
    library.calls.gen1_get_own_side(from, side, own);
    this.#showAt(player, own, library.calls.gen1_offered(from, side), "battle");
  }

  // Shows the player at a pointer its own side at another, and keeps it, if the team is its own.
  #showAt(player, own, offered, what) {
    const library = this.#library;
    const known = knownTo(this);
    const others = membersAt(library.bytes, Number(own) + OWN_SIDE.members, OWN_MEMBER);
    if (known !== others)
      throw new ArgumentError(`${what} has on side ${this.side} ${others}, and not the player's team, ${known}`, what);
    library.calls.gen1_player_show(player, own, offered);
    this.#bytes = library.read(player, this.#bytes.length);
  }

  /** Takes in what its host sent it: the log, and what it is shown of itself. Each message is taken in once, in order. */
  receive(message) {
    const {own, offered} = shownIn(message);
    const [next, library] = [this.clone(), this.#library];
    library.begin();
    next.#showAt(library.put(next.#bytes), library.put(own), offered, "message");
    next.feed(message.log);
    this.#bytes = next.#bytes;
  }

  /** Its knowledge, and its choices. */
  toJSON() {
    return {view: this.view, choices: this.choices};
  }

  [Symbol.for("nodejs.util.inspect.custom")](depth, options, inspect) {
    return inspected("Player", this.toJSON(), options, inspect);
  }
}

/** A teller: reports the events of a battle to one side. The host of the battle keeps one for each side. */
export class Teller {
  #library;
  #bytes;

  constructor(library, bytes) {
    this.#library = made(library, "Teller", "gen1.teller");
    this.#bytes = bytes;
  }

  /** A copy of the bytes of its gen1_teller (include/gen1.h). */
  get bytes() {
    return this.#bytes.slice();
  }

  /** The side to which it reports. */
  get side() {
    return fieldOf("gen1_teller", "side", this.#bytes, this.#library.isLong);
  }

  /** The form in which it reports the HP of the foe's members. */
  get hpForm() {
    return FORMS[fieldOf("gen1_teller", "pixels", this.#bytes, this.#library.isLong)];
  }

  /** An independent copy that has reported the same. */
  clone() {
    return new Teller(this.#library, this.#bytes.slice());
  }

  /** The log of an update as it is reported to its side, in bytes. It must be passed the log of every update, in order. */
  tell(log) {
    const given = octets(log, "log");
    const [library, {length: count}] = [this.#library, given];
    if (count > CODES.LOG_ROOM)
      throw new ArgumentError(`log has ${count} bytes, but the log of an update has at most ${CODES.LOG_ROOM}`, "log");
    library.begin();
    const [teller, from, told, length] =
        [library.put(this.#bytes), library.put(given), library.room(CODES.LOG_ROOM), library.room(8)];
    const code = library.calls.gen1_tell(teller, from, library.size(count), told, library.size(CODES.LOG_ROOM), length);
    if (code) throw logErrorAfter(library, code, [], given);
    this.#bytes = library.read(teller, this.#bytes.length);
    return library.read(told, library.sizeAt(length));
  }

  /** Reports the log of an update to a player of its side, and shows it its own side and its choices as they are now. Its form of HP becomes the teller's, its rules and limit the battle's. */
  report(battle, log, player) {
    if (!(battle instanceof Battle)) throw wrongType(battle, "battle", "a Battle");
    if (!(player instanceof Player)) throw wrongType(player, "player", "a Player");
    if (player.side !== this.side)
      throw new ArgumentError(
          `player plays side ${player.side}, but the teller reports to side ${this.side}`, "player");
    const [next, informed] = [this.clone(), player.clone()];
    informed.show(battle);
    informed.feed(next.tell(log));
    const [{told: before}, {told, shown, begins, hasOwn}] = [turnsOf(player), turnsOf(informed)];
    if (!hasOwn || (begins && !(before < told && told === shown)))
      throw new ArgumentError(
          `log is not that of the battle's last update, or was reported before: the player was at turn ${
              before}, is at ${told} after the log, and the battle at ${shown}`,
          "log");
    this.#bytes = next.#bytes;
    become(player, informed, this.hpForm, battle);
  }
}
