// A search from what one side knows (gen1-search), over a separate module. It blocks its thread, so call it in a worker.
//
//     import { loadSearch } from "gen1/search";
//     const search = await loadSearch();
//     const { choices } = search.think(player.bytes, { level: 3, seed: 7 });
import {choiceOf, octets, record, within} from "./arguments.mjs";
import {ArgumentError, Gen1Error, ModuleError} from "./errors.mjs";
import {instanceOf} from "./memory.mjs";
import {layoutOf} from "./structs.mjs";

const NEEDED = ["memory", "gen1_search_nodes", "gen1_search_think", "gen1_search_room", "gen1_search_free"];
const OPTIONS = ["level", "nodes", "seed", "trees", "guesses"];
// The longest result has nine choices with a line each.
const ROOM = 1 << 14;
// The size of ThinkForm of rust/gen1-extras-ffi, whose pointers to teams are 0: the sample teams.
const THINK_SIZE = 56;
const MOST_NODES = 1e9;

/** There is nothing to think about: no choice is offered, or no guess fits what the player knows. */
export class SearchError extends Gen1Error {}

/** The searches. `loadSearch` makes them. */
export class Search {
  #calls;

  constructor(calls) {
    const lacking = NEEDED.filter((name) => calls[name] === undefined);
    if (lacking.length)
      throw new ModuleError(`the module is not that of the searches: it exports no ${lacking.join(", ")}`);
    this.#calls = calls;
  }

  /** How many bytes the module's memory has: those of the longest search so far. */
  get memorySize() {
    return this.#calls.memory.buffer.byteLength;
  }

  /** How many nodes a search of a level has, 1 to 5. */
  levelNodes(level) {
    return Number(this.#calls.gen1_search_nodes(within(level, "level", 1, 5)));
  }

  /** Searches for the choice of a player, of which it takes `player.bytes`. The same arguments give the same result. */
  think(bytes, options = {}) {
    const player = playerIn(bytes);
    const asked = this.#asked(record(options, "options", "an object", OPTIONS));
    const calls = this.#calls;
    try {
      const [from, form, text] = [player.length, THINK_SIZE, ROOM].map((size) => calls.gen1_search_room(size));
      new Uint8Array(calls.memory.buffer).set(player, from);
      new Uint8Array(calls.memory.buffer).set(asked, form);
      const length = calls.gen1_search_think(from, form, text, ROOM);
      return thoughtIn(new TextDecoder().decode(new Uint8Array(calls.memory.buffer, text, length)));
    } finally {
      calls.gen1_search_free();
    }
  }

  // The bytes of a ThinkForm.
  #asked({level = 3, nodes, seed = 0, trees = 4, guesses = 16}) {
    const count = nodes === undefined ? this.levelNodes(level) : within(nodes, "nodes", 1, MOST_NODES);
    const view = new DataView(new ArrayBuffer(THINK_SIZE));
    view.setBigUint64(0, BigInt(count), true);
    view.setBigUint64(16, BigInt(within(seed, "seed", 0, Number.MAX_SAFE_INTEGER)), true);
    view.setUint32(24, within(trees, "trees", 1, 1024), true);
    view.setUint32(28, within(guesses, "guesses", 1, 4096), true);
    view.setUint32(32, 1, true);
    return new Uint8Array(view.buffer);
  }
}

// The bytes of a player; a Player has them as `bytes`.
function playerIn(value) {
  const bytes = octets(value?.bytes ?? value, "player");
  const due = layoutOf("gen1_player", false).size;
  if (bytes.length !== due)
    throw new ArgumentError(`player has ${bytes.length} bytes, not the ${due} of a Player`, "player");
  return bytes;
}

// The result of a search, with choices as the package names them.
function thoughtIn(text) {
  const {error, choices, ...rest} = JSON.parse(text);
  if (error !== undefined) throw new SearchError(error);
  return {...rest, choices: choices.map((it) => ({...it, choice: choiceOf(it.choice)}))};
}

/** Loads the module of the searches: that of this package, or one from its URL, its path in Node, or its bytes. */
export async function loadSearch(source = new URL("./search.wasm", import.meta.url)) {
  return new Search((await instanceOf(source, "source")).exports);
}
