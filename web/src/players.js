// The computer's choices and hints, in a worker, so that the page stays responsive.
import {loadSearch} from "gen1/search";

import {choose, levelOf, think} from "./computer.js";
import {find} from "./dom.js";

/**
 * @typedef {import("./computer.js").Asked} Asked
 * @typedef {import("./computer.js").Thought} Thought
 * @typedef {{ asked: Asked, isHint: boolean, settle: (found: any) => void, fail: (why: unknown) => void }} Waiting a question that is open
 */

/**
 * The bytes of a module, which an element of the page has compressed by gzip and in base64.
 * @param {string} id
 */
export async function moduleOf(id) {
  const text = find(id, HTMLScriptElement).text.trim();
  const packed = Uint8Array.from(atob(text), (letter) => letter.charCodeAt(0));
  // TypeScript 4.8 has no type for it.
  /** @type {{ new (format: string): ReadableWritablePair<Uint8Array, Uint8Array> }} */
  const DecompressionStream = Reflect.get(globalThis, "DecompressionStream");
  const stream = new Blob([packed]).stream().pipeThrough(new DecompressionStream("gzip"));
  return new Uint8Array(await new Response(stream).arrayBuffer());
}

/** Asks a worker; without a worker, or if it fails, the page's own engine chooses. */
export class Players {
  /** @param {import("./engine.js").Engine} engine @param {Uint8Array} module the bytes of the module */
  constructor(engine, module) {
    this.engine = engine;
    this.module = module;
    /** @type {Promise<Uint8Array> | null} the bytes of the search, from the first question that needs them */
    this.search = null;
    /** @type {Worker | null} */
    this.worker = null;
    /** Whether the worker has the search. */
    this.hasSearch = false;
    this.hasFailed = false;
    /** @type {Map<number, Waiting>} */
    this.waiting = new Map();
    this.count = 0;
  }

  /** @returns {Worker | null} */
  begun() {
    if (this.worker || this.hasFailed) return this.worker;
    try {
      // The worker runs the page's own script (page.js).
      const url = URL.createObjectURL(new Blob([find("script", HTMLScriptElement).text], {type: "text/javascript"}));
      this.worker = new Worker(url);
      this.worker.onerror = (event) => {
        event.preventDefault();
        this.giveUp(event.message);
      };
      this.worker.onmessageerror = () => this.giveUp("a message could not be read");
      this.worker.onmessage = ({data}) => {
        if (data.fault) return this.giveUp(data.fault);
        this.waiting.get(data.id)?.settle(data.choice);
        this.waiting.delete(data.id);
      };
      this.worker.postMessage({module: this.module});
      this.hasSearch = false;
    } catch (error) {
      this.giveUp(String(error));
    }
    return this.worker;
  }

  /**
   * Stops using the worker, and computes what it was asked for.
   * @param {string} why
   */
  giveUp(why) {
    console.info(`The worker failed (${why}): the page's own engine chooses.`);
    this.hasFailed = true;
    this.worker?.terminate();
    this.worker = null;
    for (const it of this.waiting.values()) this.own(it).then(it.settle, it.fail);
    this.waiting.clear();
  }

  /** The bytes of the search. */
  searchBytes() {
    return (this.search ??= moduleOf("search"));
  }

  /**
   * What the page's own engine finds.
   * @param {Pick<Waiting, "asked" | "isHint">} question
   */
  async own({asked, isHint}) {
    const search = levelOf(asked.player) ? await loadSearch(await this.searchBytes()) : null;
    return isHint && search ? think(this.engine, search, asked) : choose(this.engine, asked, search);
  }

  /**
   * The byte of a player's choice.
   * @param {Asked} asked
   * @returns {Promise<number>}
   */
  choice(asked) {
    return this.found(asked, false);
  }

  /**
   * What a search finds about the choices of a side.
   * @param {Asked} asked its player is a level
   * @returns {Promise<Thought>}
   */
  thought(asked) {
    return this.found(asked, true);
  }

  /** @param {Asked} asked @param {boolean} isHint @returns {Promise<any>} */
  found(asked, isHint) {
    const worker = this.begun();
    if (!worker) return this.own({asked, isHint});
    const id = ++this.count;
    return new Promise((settle, fail) => {
      this.waiting.set(id, {asked, isHint, settle, fail});
      if (levelOf(asked.player) && !this.hasSearch)
        this.searchBytes().then((bytes) => this.post(worker, {id, asked, isHint}, bytes), fail);
      else
        this.post(worker, {id, asked, isHint});
    });
  }

  /**
   * Sends a question to the worker, unless it was dropped meanwhile.
   * @param {Worker} worker @param {{ id: number, asked: Asked, isHint: boolean }} question @param {Uint8Array} [search]
   */
  post(worker, question, search) {
    if (!this.waiting.has(question.id) || worker !== this.worker) return;
    worker.postMessage(search && !this.hasSearch ? {...question, search} : question);
    this.hasSearch ||= Boolean(search);
  }

  /** Drops the questions that are open, because their battle has moved on. Their promises stay unsettled. */
  cancel() {
    if (!this.waiting.size) return;
    this.waiting.clear();
    this.worker?.terminate();
    this.worker = null;
  }
}
