// The calculator: the moves of two members against each other, with the engine's damage numbers and chances.
import {MOVES} from "gen1";

import {link, setAddress} from "./address.js";
import {Against} from "./against.js";
import {CARRIED, carriedBytes, carriedOf, decoded, encoded, joined, STANDING, standingBytes, standingOf} from "./bytes.js";
import {line} from "./calculation.js";
import {blame, copy, find, guarded, make, Problem} from "./dom.js";
import {byBest, Results} from "./results.js";
import {StandingForm} from "./standing_form.js";
import {setOf} from "./team_lists.js";

/**
 * @typedef {import("./engine.js").Calculated} Calculated
 * @typedef {import("./engine.js").Standing} Standing
 */

/** The size of two members in an address: without and with what they carry from a battle. */
const [PLAIN, WITH_CARRIED] = [2 * STANDING + 1, 2 * (STANDING + CARRIED) + 1];
/** How many milliseconds after the last keystroke an error is shown. */
const PAUSE = 700;

/** @param {Standing[]} both */
const namesOf = (both) => both.map(({member: {species}}) => species).join();

/** The part of the page that calculates. */
export class Calculator {
  /** @param {import("./engine.js").Engine} engine @param {(tab: string) => void} goBack shows the battle from which members came */
  constructor(engine, goBack) {
    this.engine = engine;
    this.forms = [1, 2].map((side) => this.formOf(side));
    this.results = new Results(engine.tables, () => this.drawn && this.draw(this.drawn));
    this.against = new Against(engine, (foe) => this.face(foe));
    /** @type {{ both: Standing[], sides: Calculated[] } | null} */
    this.drawn = null;
    /** The part of the page from which members came, and their species. */
    this.from = "";
    this.came = "";
    this.code = "";
    this.isShown = false;
    this.timer = 0;
    find("calc-attacker", HTMLElement).replaceChildren(this.forms[0].element);
    find("calc-defender", HTMLElement).replaceChildren(this.forms[1].element);
    const example = (/** @type {number} */ side, /** @type {string} */ text) =>
        this.forms[side - 1].form.set(engine.team(text, "The example", side)[0]);
    example(1, "Tauros\n- Body Slam\n- Hyper Beam\n- Blizzard\n- Earthquake");
    example(2, "Alakazam\n- Psychic\n- Seismic Toss\n- Thunder Wave\n- Recover");
    const click = (/** @type {string} */ id, /** @type {() => void | Promise<void>} */ work) =>
        (find(id, HTMLButtonElement).addEventListener("click", () => void guarded(work)));
    click("calc-swap", () => this.swap());
    click("calc-clear", () => this.clear());
    click("calc-back", () => goBack(this.from));
    click("calc-foes-open", () => {
      find("calc-against", HTMLDetailsElement).open = true;
      find("calc-team", HTMLSelectElement).focus();
    });
    click("calc-copy", () => copy(find("calc-line", HTMLElement).textContent ?? "", "The line is copied."));
    click("calc-link",
        () => copy(link("calculator", {c: this.code}), "The link is copied. It holds both members and their states."));
  }

  /** @param {number} side */
  formOf(side) {
    const changed = (/** @type {Event} */ event) => this.calculate(event.type === "input" ? PAUSE : 0);
    /** @type {StandingForm} */
    const form = new StandingForm(side, this.engine, changed, (species) => form.form.set(setOf(this.engine, species)));
    return form;
  }

  /**
   * Shows the members in an address.
   * @param {URLSearchParams} values
   */
  route(values) {
    this.isShown = true;
    const code = values.get("c") ?? "";
    if (code && code !== this.code) {
      find("calc-from", HTMLElement).hidden = true;
      const both = this.standingsOf(decoded(code));
      this.forms.forEach((form, at) => form.set(both[at]));
    }
    this.calculate();
  }

  /** @param {Uint8Array} bytes of an address */
  standingsOf(bytes) {
    if (![PLAIN, WITH_CARRIED].includes(bytes.length))
      throw new Problem("The address is damaged: it does not have two members.");
    const both = [0, 1].map((at) => standingOf(bytes.subarray(STANDING * at, STANDING * (at + 1))));
    // The next byte is a further move of the attacker, or 0.
    const extra = MOVES[bytes[2 * STANDING] - 1];
    const {moves} = both[0].member;
    if (extra && !moves.some(([move]) => move === extra)) moves.splice(Math.min(moves.length, 3), 1, [extra, 3]);
    if (bytes.length === PLAIN) return both;
    return both.map(
        (it, at) => ({...it, carried: carriedOf(bytes.subarray(PLAIN + CARRIED * at, PLAIN + CARRIED * (at + 1)))}));
  }

  /**
   * Shows the members of a battle.
   * @param {import("./carried.js").Scene} scene
   */
  carry({both, teams, text, tab}) {
    this.from = tab;
    this.came = namesOf(both);
    this.forms.forEach((form, at) => form.set(both[at]));
    find("calc-from", HTMLElement).hidden = false;
    find("calc-from-text", HTMLElement).textContent = text;
    this.calculate();
    this.against.carry(teams);
    find("calc-back", HTMLElement).focus();
  }

  /** @param {Standing} foe the new defender */
  face(foe) {
    this.forms[1].set(foe);
    this.results.choose(0, 0);
    this.calculate();
  }

  swap() {
    const [one, two] = this.forms.map((form) => form.standing());
    this.forms[0].set(two);
    this.forms[1].set(one);
    this.calculate();
  }

  /** Resets both members to full HP, without status, stages and conditions. */
  clear() {
    for (const form of this.forms)
      form.set({member: form.form.member(), stages: Array(6).fill(6), status: 0, conditions: 0, hp: 0});
    this.calculate();
  }

  /**
   * Shows the numbers, or what is missing. An error is delayed, since a name may be only partly typed.
   * @param {number} [pause] the milliseconds before an error is shown
   */
  calculate(pause = 0) {
    if (!this.isShown) return;
    window.clearTimeout(this.timer);
    try {
      const both = this.forms.map((form) => form.standing());
      both.forEach(({hp, member}, at) => hp && this.forms[at].testHp(this.engine.stats(member)[0]));
      const sides = this.engine.calculate(both);
      this.forms.forEach((form, at) => form.show(sides[at]));
      this.drawn = {both, sides};
      this.draw(this.drawn);
      this.say("");
      this.note(both);
      const more = both.some(({carried}) => carried) ? both.map(carriedBytes) : [];
      this.code = encoded(joined(...both.map(standingBytes), [0], ...more));
      this.against.show(both[0]);
      // The text about the members holds until one of them changes.
      find("calc-from-text", HTMLElement).hidden = namesOf(both) !== this.came;
      setAddress("calculator", {c: this.code});
    } catch (error) {
      if (!(error instanceof Problem)) throw error;
      const {message, field} = error;
      this.results.element.setAttribute("data-stale", "");
      const say = () => this.say(`${message} The results are those of the previous input.`, field);
      if (pause)
        this.timer = window.setTimeout(say, pause);
      else
        say();
    }
  }

  /**
   * Says which moves are there twice. They are calculated once.
   * @param {Standing[]} both
   */
  note(both) {
    const texts = both.map(({member: {moves}}, at) => {
      const names = moves.map(([move]) => String(move));
      const doubled = [...new Set(names.filter((name, place) => names.indexOf(name) !== place))];
      return doubled.length ? `Side ${at + 1} has ${doubled.join(" and ")} twice. ` : "";
    });
    find("calc-note", HTMLElement).textContent = texts.join("").trim();
  }

  /** @param {{ both: Standing[], sides: Calculated[] }} drawn */
  draw({both, sides}) {
    const sorted = sides.map((side, at) => byBest(side.moves, sides[1 - at]));
    const chosen = this.results.draw(both.map(({member}) => String(member.species)), sides, sorted);
    this.results.element.removeAttribute("data-stale");
    if (!chosen) return;
    const {at, odds} = chosen;
    find("calc-line", HTMLElement).textContent = line(odds, both[at], both[1 - at], sides[1 - at]);
  }

  /**
   * Shows an error, without an alert.
   * @param {string} text empty if nothing is wrong
   * @param {HTMLElement} [field] the wrong field
   */
  say(text, field) {
    find("calc-fault", HTMLElement).textContent = text;
    blame(field, "calc-fault");
    for (let it = text && field?.closest("details"); it; it = it.parentElement?.closest("details")) it.open = true;
  }
}
