// The worker: a second engine, which returns the computer's choices and hints, or an error.
import {loadSearch} from "gen1/search";

import {choose, think} from "./computer.js";
import {Engine} from "./engine.js";

/** @type {Promise<Engine> | null} */
let engine = null;
/** @type {Promise<import("gen1/search").Search> | null} comes with the first question that needs it */
let search = null;

/** @param {{ id: number, asked: import("./computer.js").Asked, isHint: boolean }} question */
async function answer({id, asked, isHint}) {
  try {
    const [ready, searching] = [await engine, await search];
    if (!ready) throw new Error("there is no module");
    const choice = isHint && searching ? think(ready, searching, asked) : choose(ready, asked, searching);
    self.postMessage({id, choice});
  } catch (error) {
    // The package's error about a module has the browser's own as its cause.
    self.postMessage({id, fault: String((error instanceof Error && error.cause) || error)});
  }
}

self.onmessage = ({data}) => {
  if (data.module) engine = Engine.of(data.module);
  if (data.search) search = loadSearch(data.search);
  // An error is sent to the page when it asks for a choice.
  for (const loading of [engine, search]) loading?.catch(() => {});
  if (data.id) void answer(data);
};
