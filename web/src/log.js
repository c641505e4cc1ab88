// The running log: all lines of a battle, turn by turn, which can be searched.
import {digits} from "./bytes.js";
import {make} from "./dom.js";
import {sideOf, told} from "./words.js";

/** @typedef {import("./engine.js").GameEvent} GameEvent */

/**
 * Events as items of a list.
 * @param {GameEvent[]} events @param {string[]} texts of the events @param {string[]} [chances] of the events, where there are any
 */
export function lineItems(events, texts, chances = []) {
  return events.map((event, at) => {
    const chance = chances[at] ? [" ", make("span", {class: "chance"}, chances[at])] : [];
    const turn = event.kind === "turn" ? {"data-turn": event.turn} : {};
    const kind = `line side-${sideOf(event)}${event.kind === "turn" ? " turn" : ""}`;
    return make("li", {class: kind, "data-code": digits(event.code), ...turn}, texts[at], ...chance);
  });
}

/** The log of a battle in a list that scrolls. */
export class Log {
  /** @param {HTMLElement} list @param {HTMLInputElement} search @param {HTMLElement} count says how many lines were found */
  constructor(list, search, count) {
    this.list = list;
    this.search = search;
    this.count = count;
    /** @type {import("gen1").Narrator | null} */
    this.narrator = null;
    this.isScrolling = false;
    search.addEventListener("input", () => this.find());
    // A phone's keyboard or a turned screen changes the height.
    new ResizeObserver(() => this.toEnd()).observe(list);
  }

  /** @param {import("gen1").Narrator} narrator makes the sentences of the events that are added */
  clear(narrator) {
    this.narrator = narrator;
    this.search.value = "";
    this.list.replaceChildren();
    this.find();
  }

  /** @param {GameEvent[]} events */
  add(events) {
    const {narrator} = this;
    if (!narrator) return;
    this.list.append(...lineItems(events, events.map((event) => told(narrator, event))));
    if (this.search.value) this.find();
    this.toEnd();
  }

  /** Scrolls to the end in the next frame, once for all lines that come until then. */
  toEnd() {
    if (this.search.value || this.isScrolling) return;
    this.isScrolling = true;
    requestAnimationFrame(() => {
      this.isScrolling = false;
      this.list.scrollTop = this.list.scrollHeight;
    });
  }

  /**
   * Scrolls to the beginning of a turn; to the end for 0.
   * @param {number} turn
   */
  toTurn(turn) {
    const line = this.list.querySelector(`[data-turn="${turn}"]`);
    if (line instanceof HTMLElement)
      this.list.scrollTop = line.offsetTop - this.list.offsetTop;
    else
      this.toEnd();
  }

  /** Shows only the lines with the text that is searched for, and their turns. */
  find() {
    const wanted = this.search.value.trim().toLowerCase();
    let found = 0;
    /** @type {HTMLElement | null} */
    let turn = null;
    for (const item of /** @type {HTMLElement[]} */ ([...this.list.children])) {
      const isTurn = item.classList.contains("turn");
      const isFound = !wanted || Boolean(item.textContent?.toLowerCase().includes(wanted));
      item.hidden = !isFound;
      if (isTurn)
        turn = item;
      else if (isFound && turn)
        turn.hidden = false;
      if (isFound) found++;
    }
    this.count.textContent = wanted ? `${found} ${found === 1 ? "line" : "lines"}` : "";
    if (!wanted) this.toEnd();
  }
}
