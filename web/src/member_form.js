// The form for a member: species, level, moves, DVs and stat experience, with its stats as they change.
import {effectWords} from "./calculation.js";
import {make, Problem} from "./dom.js";
import {plain, Search} from "./search.js";
import {badge} from "./sides.js";

const DVS = ["Attack", "Defense", "Speed", "Special"];
export const STATS = ["HP", ...DVS];
const SLOTS = [0, 1, 2, 3];

/** @param {string} label @param {HTMLElement} field @param {HTMLElement} [shown] what is shown, if not only the field */
export function labelled(label, field, shown = field) {
  const id = field.id || `field-${++fields}`;
  field.id = id;
  return make("div", {class: "labelled"}, make("label", { for: id
  }, label), shown);
}

let fields = 0;

/** @param {string} name @param {number} most @param {number} value @param {number} [least] */
function number(name, most, value, least = 0) {
  return make("input", {type: "number", name, min: least, max: most, value, inputmode: "numeric", required: true});
}

/** @param {string} name */
const searched = (name) => make("input", {name, spellcheck: false});

/** @param {import("gen1").Base} base */
function baseSum({hp, attack, defense, speed, special}) {
  return hp + attack + defense + speed + special;
}

/**
 * The species to choose from.
 * @param {import("./engine.js").Engine} engine
 * @returns {import("./search.js").Option[]}
 */
function speciesOptions({tables, gen1}) {
  return Object.entries(tables.species).map(([name, types]) => ({
    name,
    words: types,
    // The last species of a line of evolution has the highest base stats.
    weight: baseSum(gen1.base(name)),
    shown: () => [make("span", {class: "facts"}, ...[...new Set(types)].map(badge))],
  }));
}

/**
 * A move's type, power, accuracy and PP.
 * @param {import("./engine.js").Move} move @param {string} [effect] what else it does
 */
export function moveFacts({type, power, accuracy, pp}, effect = "") {
  const text = [power > 1 ? power : "—", `${accuracy}%`, `${pp} PP`, effect].filter(Boolean).join(" · ");
  return make("span", {class: "facts", title: effect || undefined}, badge(type), ` ${text}`);
}

/**
 * The moves to choose from.
 * @param {import("./engine.js").Engine} engine
 * @returns {import("./search.js").Option[]}
 */
function moveOptions({tables}) {
  const known = Object.values(tables.moves).filter(({isKnown}) => isKnown);
  return known.sort((one, two) => one.name.localeCompare(two.name))
      .map((move) => ({name: move.name, words: [move.type], shown: () => [moveFacts(move)]}));
}

/** A member. */
export class MemberForm {
  /**
   * @param {import("./engine.js").Engine} engine
   * @param {string} whose the member is, as messages name it: "Side 1" or "Member 2"
   * @param {(species: string) => void} [picked] called when a species is picked from the list
   */
  constructor(engine, whose, picked) {
    this.engine = engine;
    this.whose = whose;
    this.species = searched("species");
    this.level = number("level", 100, 100, 1);
    this.dvs = DVS.map((name) => number(`dv-${name}`, 15, 15));
    this.exp = STATS.map((name) => number(`exp-${name}`, 65535, 65535));
    this.moves = SLOTS.map((slot) => searched(`move-${slot + 1}`));
    this.facts = SLOTS.map(() => make("span", {class: "move-facts"}));
    this.types = make("span", {class: "types"});
    this.ups = SLOTS.map(() => 3);
    this.name = make("div", {class: "name-row"},
        labelled("Species", this.species,
            new Search(this.species, speciesOptions(engine), (text) => engine.near("species", text), picked).element),
        labelled("Level", this.level));
    const options = moveOptions(engine);
    const near = (/** @type {string} */ text) => engine.near("move", text);
    this.moveList = make("div", {class: "move-fields"},
        ...this.moves.map(
            (field, slot) => (make("div", {},
                labelled(`Move ${slot + 1}`, field, new Search(field, options, near).element), this.facts[slot]))));
    this.advanced = this.drawAdvanced();
  }

  drawAdvanced() {
    const grid = (/** @type {string} */ name, /** @type {HTMLElement[]} */ items) =>
        make("fieldset", {class: "numbers"}, make("legend", {}, name), ...items);
    const set = (/** @type {number} */ value) => make("button", {
      type: "button",
      class: "small",
      click: () => {
        this.exp.forEach((field) => (field.value = String(value)));
        this.exp[0].dispatchEvent(new Event("change", {bubbles: true}));
      },
    },
        value ? "All at the most" : "All 0");
    return make("details", {}, make("summary", {}, "Advanced: DVs and stat experience"),
        grid("DVs, 0 to 15", this.dvs.map((field, at) => labelled(DVS[at], field))),
        grid("Stat experience, 0 to 65535", [
          ...this.exp.map((field, at) => labelled(STATS[at], field)), make("div", {class: "row"}, set(65535), set(0))
        ]));
  }

  /** Shows the types and the facts of the moves. */
  tell() {
    const {tables} = this.engine;
    const species = this.found(tables.species, this.species);
    this.types.replaceChildren(...[...new Set(species ? tables.species[species] : [])].map(badge));
    this.moves.forEach((field, slot) => {
      const move = tables.moves[this.found(tables.moves, field) ?? ""];
      this.facts[slot].replaceChildren(...(move ? [moveFacts(move, effectWords(move))] : []));
    });
  }

  /** @param {Record<string, unknown>} table @param {HTMLInputElement} field */
  found(table, field) {
    return Object.keys(table).find((name) => plain(name) === plain(field.value));
  }

  /** @param {import("./engine.js").Member} member one of an address may have a species or a move without a name */
  set(member) {
    const named = (/** @type {string | number | undefined} */ value) => (typeof value === "string" ? value : "");
    this.species.value = named(member.species);
    this.level.value = String(member.level);
    member.dvs.forEach((value, at) => (this.dvs[at].value = String(value)));
    member.exp.forEach((value, at) => (this.exp[at].value = String(value)));
    this.moves.forEach((field, at) => (field.value = named(member.moves[at]?.[0])));
    this.ups = SLOTS.map((at) => member.moves[at]?.[1] ?? 3);
    this.tell();
  }

  /** @param {string} message @param {HTMLElement} field */
  problem(message, field) {
    return new Problem(`${this.whose}: ${message}${message.endsWith("?") ? "" : "."}`, {field});
  }

  /** @param {"species" | "move"} kind @param {HTMLInputElement} field */
  unknown(kind, field) {
    const near = this.engine.near(kind, field.value);
    return this.problem(`there is no ${kind} "${field.value}"${near && `; did you mean "${near}"?`}`, field);
  }

  /**
   * The whole number in a field.
   * @param {HTMLInputElement} field
   * @param {string} what
   */
  whole(field, what) {
    const value = field.value.trim() === "" ? NaN : Number(field.value);
    if (!Number.isInteger(value) || value < Number(field.min) || value > Number(field.max))
      throw this.problem(`${what} must be a whole number from ${field.min} to ${field.max}`, field);
    return value;
  }

  /**
   * The move that a field names.
   * @param {HTMLInputElement} field
   */
  moveIn(field) {
    const found = this.found(this.engine.tables.moves, field);
    if (!found) throw this.unknown("move", field);
    return found;
  }

  /**
   * The member, which may have no moves.
   * @returns {import("./engine.js").Member}
   */
  member() {
    const species = this.found(this.engine.tables.species, this.species);
    if (!species)
      throw this.species.value ? this.unknown("species", this.species) : this.problem("choose a species", this.species);
    const slots = SLOTS.filter((slot) => this.moves[slot].value.trim());
    return {
      species,
      level: this.whole(this.level, "the level"),
      moves: slots.map((slot) => [this.moveIn(this.moves[slot]), this.ups[slot]]),
      dvs: this.dvs.map((field, at) => this.whole(field, `the DV of ${DVS[at]}`)),
      exp: this.exp.map((field, at) => this.whole(field, `the experience of ${STATS[at]}`)),
    };
  }
}
