// All battles that an update can lead to, with their exact probabilities.
import {BATTLE_SIZE} from "./arena.mjs";
import {inspected, probability, record, within} from "./arguments.mjs";
import {Gen1Error} from "./errors.mjs";
import {CODES} from "./header.mjs";
import {bytesOf} from "./teams.mjs";
import {made} from "./update.mjs";

const {SUCCESSOR_SIZE} = CODES;
const FEW_PLACES = [CODES.ERROR_OUTCOMES, CODES.ERROR_TABLE];
// How many outcomes there is space for at first; where there are more, the call is repeated with more space.
const PLACES = 256;
const MORE = 8;
const OPTIONS = ["damageClasses", "leastProbability"];
// A least probability is a multiple of 1 / UNITS, below 1.
const UNITS = 2 ** 32;

// The number of 128 bits at an offset: its low 64 bits, then its high ones.
const numberAt = (view, at) => view.getBigUint64(at, true) + (view.getBigUint64(at + 8, true) << 64n);

/** All battles that an update can lead to, each once, with its exact probability. `Battle.outcomes` makes it. */
export class Outcomes {
  #library;
  #rows;
  #battleOf;

  /** How many outcomes there are. */
  length;
  /** The sum of all weights and of `leftOut`. */
  whole;
  /** The weight left out. */
  leftOut;

  /** From the rows of gen1_successor, `whole` and `leftOut`, and a function that makes a battle from a block. */
  constructor(library, rows, sums, battleOf) {
    this.#library = made(library, "Outcomes", "Battle.outcomes");
    [this.#rows, this.#battleOf] = [rows, battleOf];
    [this.whole, this.leftOut] = sums;
    this.length = rows.length / SUCCESSOR_SIZE;
  }

  /** The probability left out. */
  get leftOutProbability() {
    return Number(this.leftOut) / Number(this.whole);
  }

  /** The outcome at a place from 0: its battle, its probability, and its exact weight. The probability is the weight divided by `whole`. */
  at(place) {
    const at = within(place, "place", 0, this.length - 1) * SUCCESSOR_SIZE;
    const weight = numberAt(new DataView(this.#rows.buffer), at + BATTLE_SIZE);
    const block = this.#library.arena.block();
    this.#library.bytes.set(this.#rows.subarray(at, at + BATTLE_SIZE), block.place);
    return {battle: this.#battleOf(block), probability: Number(weight) / Number(this.whole), weight};
  }

  * [Symbol.iterator]() {
    for (let place = 0; place < this.length; place++) yield this.at(place);
  }

  [Symbol.for("nodejs.util.inspect.custom")](depth, options, inspect) {
    return inspected("Outcomes", {length: this.length}, options, inspect);
  }
}

/** The bytes of gen1_outcome_options. */
export function outcomeOptions(library, options) {
  const {damageClasses = 0, leastProbability = 0} = record(options, "options", "an object with options", OPTIONS);
  const classes = within(damageClasses, "damageClasses", 0, 39);
  const least = Math.min(Math.floor(UNITS * probability(leastProbability, "leastProbability")), UNITS - 1);
  return bytesOf("gen1_outcome_options", library.isLong, {least, damageClasses: classes});
}

/** The code of a refusal, or 0 and the outcomes of an update of the battle at a pointer, by the bytes of two choices and a pointer to options. */
export function outcomesOf(library, battle, asked, battleOf) {
  const list = library.roomOf("gen1_outcome_list");
  let code = CODES.ERROR_OUTCOMES;
  let rows = null;
  for (let places = PLACES; FEW_PLACES.includes(code); places *= MORE)
    [code, rows] = listed(library, battle, asked, list, places);
  if (code === CODES.ERROR_DRAWS) throw new Gen1Error(library.sentence(code), code);
  if (code) return [code, null];
  const view = new DataView(library.bytes.buffer);
  return [code, new Outcomes(library, rows, [0, 16].map((at) => numberAt(view, Number(list) + at)), battleOf)];
}

// The code of the call with space for that many outcomes, and a copy of their rows.
function listed(library, battle, asked, list, places) {
  const table = places * SUCCESSOR_SIZE;
  const region = library.arena.region(table + 8 * places, {});
  const arrays = [region.pointer, library.size(places), library.size(region.place + table), library.size(2 * places)];
  const code = library.calls.gen1_outcomes(battle, ...asked, ...arrays, list);
  const {count} = library.readStruct("gen1_outcome_list", list);
  const rows = code ? null : library.read(region.pointer, count * SUCCESSOR_SIZE);
  library.arena.freeRegion(region);
  return [code, rows];
}
