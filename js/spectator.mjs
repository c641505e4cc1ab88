// A spectator's knowledge of a battle, from both teams and the log alone (docs/MECHANICS.md, "Spectator's view"), and a battle in sentences.
import {inspected, list, octets, record, sideOf, truth} from "./arguments.mjs";
import {ArgumentError} from "./errors.mjs";
import {logErrorAfter, sentencesOf} from "./events.mjs";
import {fieldOf, layoutOf, readStruct} from "./structs.mjs";
import {bytesOf, teamAt, teamError, teamGiven} from "./teams.mjs";
import {made} from "./update.mjs";
import {shownOf} from "./views.mjs";
import {eventBytes} from "./writing.mjs";

/** The bytes of a spectator before a battle of two teams. */
export function spectatorOf(library, one, two) {
  const teams = [teamGiven(library, one, "one"), teamGiven(library, two, "two")];
  library.begin();
  const spectator = library.roomOf("gen1_spectator");
  const answer = library.calls.gen1_spectator_begin(spectator, ...teams.map((team) => teamAt(library, team)));
  if (answer) throw teamError(library, answer, [one, two]);
  return library.read(spectator, layoutOf("gen1_spectator", library.isLong).size);
}

/** A spectator, which is fed the log of each update. */
export class Spectator {
  #library;
  #bytes;

  constructor(library, bytes) {
    this.#library = made(library, "Spectator", "gen1.spectator");
    this.#bytes = bytes;
  }

  /** A copy of the bytes of its gen1_spectator (include/gen1.h). */
  get bytes() {
    return this.#bytes.slice();
  }

  #field(name) {
    return fieldOf("gen1_spectator", name, this.#bytes, this.#library.isLong);
  }

  /** What is known. */
  get state() {
    return shownOf(readStruct("gen1_spectator", new DataView(this.#bytes.buffer), 0, this.#library.isLong));
  }

  /** The bytes, at most 9, of an incomplete event. */
  get held() {
    return this.#field("held").slice(0, this.#field("held_count"));
  }

  /** An independent copy that knows the same. */
  clone() {
    return new Spectator(this.#library, this.#bytes.slice());
  }

  /** Reads the next bytes of the battle's log, in pieces of any size. An event counts as soon as its last byte is read. */
  feed(log) {
    const given = octets(log, "log");
    const library = this.#library;
    library.begin();
    const spectator = library.put(this.#bytes);
    const code = library.calls.gen1_spectator_feed(spectator, library.put(given), library.size(given.length));
    if (code) throw logErrorAfter(library, code, this.held, given);
    this.#bytes = library.read(spectator, this.#bytes.length);
  }

  /** What is known. */
  toJSON() {
    return this.state;
  }

  [Symbol.for("nodejs.util.inspect.custom")](depth, options, inspect) {
    return inspected("Spectator", this.state, options, inspect);
  }
}

/** The bytes of a narrator before a battle. */
export function narratorOf(library, terms) {
  const {you = null, inPercent = [false, false]} = record(terms, "terms", "an object", ["you", "inPercent"]);
  const {length} = list(inPercent, "inPercent", "a list of two, for side 1 and side 2");
  if (length !== 2) throw new ArgumentError(`inPercent has ${length} values, not 2`, "inPercent");
  const [one, two] = Array.from(inPercent, (value, at) => ({inPercent: truth(value, `inPercent[${at}]`) ? 1 : 0}));
  return bytesOf("gen1_narrator", library.isLong, {one, two, you: you === null ? 0 : sideOf(you, "you")});
}

/** Makes sentences of the events of a battle, for a spectator or a side. */
export class Narrator {
  #library;
  #bytes;

  constructor(library, bytes) {
    this.#library = made(library, "Narrator", "gen1.narrator");
    this.#bytes = bytes;
  }

  /** An independent copy. */
  clone() {
    return new Narrator(this.#library, this.#bytes.slice());
  }

  /** The sentence of the next event. */
  say(event) {
    return this.sentences(eventBytes(this.#library, event, "event"))[0];
  }

  /** The sentences of the next log bytes, which hold whole events. */
  sentences(log) {
    const {sentences, narrator} = sentencesOf(this.#library, octets(log, "log"), this.#bytes);
    this.#bytes = narrator;
    return sentences;
  }
}
