// Long work in slices, between which the page stays responsive.
import {find} from "./dom.js";

/** The length of a slice in milliseconds; and of the first slice, after which the bar is shown. */
const [SLICE, FIRST] = [12, 40];

/**
 * Does a slice of work, and returns the share that is done; null at the end.
 * @param {Generator<number>} steps @param {number} time
 */
function slice(steps, time) {
  const end = performance.now() + time;
  for (;;) {
    const {done, value} = steps.next();
    if (done) return null;
    if (performance.now() >= end) return value;
  }
}

/** @param {number | null} share null hides the bar */
function showBar(share) {
  document.documentElement.toggleAttribute("data-busy", share !== null);
  find("progress", HTMLElement).hidden = share === null;
  if (share !== null) find("progress-bar", HTMLProgressElement).value = share;
}

/** Work of one kind, of which only the latest counts. */
export class Slices {
  constructor() {
    this.count = 0;
  }

  /**
   * Does work in slices, with a bar if it takes long, and then calls a function. Both stop if other work of the kind begins.
   * @param {Generator<number>} steps yields the share that is done
   * @param {() => void} then
   * @returns {void | Promise<void>} nothing if all was done at once
   */
  run(steps, then) {
    const mine = ++this.count;
    const share = slice(steps, FIRST);
    if (share === null) return then();
    return this.go(steps, mine, share).then((isDone) => (isDone ? then() : undefined));
  }

  /** @param {Generator<number>} steps @param {number} mine @param {number | null} share */
  async go(steps, mine, share) {
    try {
      for (; share !== null; share = slice(steps, SLICE)) {
        showBar(share);
        await new Promise((done) => setTimeout(done));
        if (mine !== this.count) return false;
      }
      return true;
    } finally {
      showBar(null);
    }
  }
}
