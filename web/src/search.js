// A field that searches names: a list opens below it, filtered by what is typed, and a name is picked by click or by keys.
import {make} from "./dom.js";

/**
 * @typedef {{ name: string, words: readonly string[], shown: () => Node[], weight?: number }} Option a name, further words by which it is found, the
 *   nodes that the list shows next to its name, and how early it comes among names that match equally well
 */

/** The most options that a list shows. */
const MOST = 60;
/** How many milliseconds after a field is left its list closes, so that a click on the list counts. */
const LEAVE = 150;

/** @param {string} text */
export function plain(text) {
  return text.toLowerCase().replace(/[^a-z0-9]/g, "");
}

/**
 * The options that match a text: the name itself, names that begin with it, words that begin with it, and names that contain it. An empty
 * text matches all.
 * @param {Option[]} options
 * @param {string} text
 */
export function matches(options, text) {
  const wanted = plain(text);
  const ranked = options.map((option) => {
    const name = plain(option.name);
    const isOf = [
      name === wanted, name.startsWith(wanted), option.words.some((word) => plain(word).startsWith(wanted)),
      name.includes(wanted)
    ];
    return {option, rank: isOf.indexOf(true)};
  });
  const weight = (/** @type {Option} */ option) => (wanted ? option.weight ?? 0 : 0);
  return ranked.filter(({rank}) => rank >= 0)
      .sort((one, two) => one.rank - two.rank || weight(two.option) - weight(one.option))
      .map(({option}) => option);
}

let count = 0;

/** A field with its list. */
export class Search {
  /**
   * @param {HTMLInputElement} field
   * @param {Option[]} options
   * @param {(text: string) => string} near the name that a misspelt one is near to, or an empty text
   * @param {(name: string) => void} [picked] called before the field's event
   */
  constructor(field, options, near, picked = () => undefined) {
    this.field = field;
    this.options = options;
    this.near = near;
    this.picked = picked;
    this.at = -1;
    /** @type {Option[]} */
    this.shown = [];
    this.list =
        make("div", {role: "listbox", id: `found-${++count}`, class: "found", hidden: true, "aria-label": "Matches"});
    this.element = make("span", {class: "search"}, field, this.list);
    for (const [key, value] of Object.entries({
           role: "combobox",
           "aria-expanded": "false",
           "aria-controls": this.list.id,
           "aria-autocomplete": "list",
           autocomplete: "off"
         }))
      field.setAttribute(key, value);
    this.listen();
  }

  listen() {
    this.field.addEventListener("input", (event) => event.isTrusted && this.open(this.field.value));
    this.field.addEventListener("click", () => this.list.hidden && this.open(""));
    this.field.addEventListener("focus", () => this.field.select());
    this.field.addEventListener(
        "blur", () => window.setTimeout(() => document.activeElement !== this.field && this.close(), LEAVE));
    this.field.addEventListener("keydown", (event) => this.press(event));
    // The field keeps the focus while its list is clicked.
    this.list.addEventListener("mousedown", (event) => event.preventDefault());
    this.list.addEventListener("click", (event) => {
      const option = event.target instanceof Element ? event.target.closest("[role=option]") : null;
      if (option) this.pick([...this.list.children].indexOf(option));
    });
  }

  /** @param {KeyboardEvent} event */
  press(event) {
    const by = {ArrowDown: 1, ArrowUp: -1}[event.key];
    if (by) {
      event.preventDefault();
      if (this.list.hidden)
        this.open("");
      else
        this.mark((this.at + by + this.shown.length) % this.shown.length);
    } else if ((event.key === "Enter" || event.key === "Tab") && !this.list.hidden && this.at >= 0) {
      // Tab picks too, and moves to the next field.
      if (event.key === "Enter") event.preventDefault();
      this.pick(this.at);
    } else if (event.key === "Escape" && !this.list.hidden) {
      event.stopPropagation();
      this.close();
    }
  }

  /** @param {string} text */
  open(text) {
    this.shown = matches(this.options, text).slice(0, text ? MOST : undefined);
    const near = this.shown.length ? "" : this.near(text);
    if (near) this.shown = this.options.filter(({name}) => name === near);
    this.list.replaceChildren(...this.shown.map(
        ({name, shown}, at) => (make("div", {role: "option", id: `${this.list.id}-${at}`, "aria-selected": "false"},
            make("span", {class: "name"}, name), ...shown()))));
    this.list.hidden = !this.shown.length;
    this.field.setAttribute("aria-expanded", String(!this.list.hidden));
    const current = this.shown.findIndex(({name}) => plain(name) === plain(this.field.value));
    this.mark(text ? 0 : current);
  }

  close() {
    this.list.hidden = true;
    this.list.replaceChildren();
    this.field.setAttribute("aria-expanded", "false");
    this.field.removeAttribute("aria-activedescendant");
  }

  /** @param {number} at the option that Enter picks */
  mark(at) {
    this.list.children[this.at]?.setAttribute("aria-selected", "false");
    this.at = at;
    const option = this.list.children[at];
    if (!option) return this.field.removeAttribute("aria-activedescendant");
    option.setAttribute("aria-selected", "true");
    this.field.setAttribute("aria-activedescendant", option.id);
    option.scrollIntoView({block: "nearest"});
  }

  /** @param {number} at */
  pick(at) {
    const {name} = this.shown[at];
    this.field.value = name;
    this.close();
    this.picked(name);
    this.field.dispatchEvent(new Event("change", {bubbles: true}));
  }
}
