// The result of an update, and its log, which is decoded when it is read.
import {inspected} from "./arguments.mjs";
import {ArgumentTypeError} from "./errors.mjs";
import {eventsOf, linesOf} from "./events.mjs";
import {Library} from "./memory.mjs";
import {resultOf} from "./views.mjs";

// Logs are kept in pieces of longer arrays, since an array for each log would double the time of an update.
const SLAB = 32768;
let slab = new Uint8Array(SLAB);
let used = 0;

/** Refuses a call of a constructor by users of the library. */
export function made(library, what, by) {
  if (!(library instanceof Library))
    throw new ArgumentTypeError(`a ${what} is created by ${by}, not by new`, "library");
  return library;
}

/** The result of an update, and its log. */
export class Update {
  #library;
  #result;
  #slab;
  #from;
  #count;
  #log = null;
  #events = null;
  #lines = null;

  /** With a copy of `count` bytes of `bytes` as its log. */
  constructor(library, result, bytes, at, count) {
    this.#library = made(library, "Update", "battle.update or room.submit");
    this.#result = result;
    if (used + count > SLAB) [slab, used] = [new Uint8Array(SLAB), 0];
    this.#slab = slab;
    this.#from = used;
    this.#count = count;
    slab.set(bytes.subarray(at, at + count), used);
    used += count;
  }

  /** The outcome after the update, and the request to each side. */
  get result() {
    return resultOf(this.#result);
  }

  /** The bytes of the log. */
  get log() {
    return (this.#log ??= this.#slab.slice(this.#from, this.#from + this.#count));
  }

  get #bytes() {
    return this.#slab.subarray(this.#from, this.#from + this.#count);
  }

  /** The events of the log. */
  get events() {
    return (this.#events ??= Object.freeze(eventsOf(this.#library, this.#bytes)));
  }

  /** The lines of the log, without line feeds. */
  get lines() {
    return (this.#lines ??= Object.freeze(linesOf(this.#library, this.#bytes)));
  }

  /** The result and the events. */
  toJSON() {
    return {result: this.result, events: this.events};
  }

  [Symbol.for("nodejs.util.inspect.custom")](depth, options, inspect) {
    return inspected("Update", {result: this.result, lines: this.lines}, options, inspect);
  }
}
