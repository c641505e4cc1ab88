// One member against each member of a team: the best move each way, the best foe to face first.
import {hitCounts, isOneHit, ofUse, percent, tenth} from "./calculation.js";
import {find, make} from "./dom.js";
import {best, keysOf} from "./results.js";
import {Slices} from "./slices.js";
import {sampleTeams, savedTeams} from "./team_lists.js";
import {token} from "./tokens.js";
import {span} from "./words.js";

/**
 * @typedef {import("./engine.js").Standing} Standing
 * @typedef {import("./engine.js").Calculated} Calculated
 * @typedef {import("./engine.js").CalculatedMove} CalculatedMove
 * @typedef {{ name: string, members: Standing[] }} Foes
 * @typedef {{ foe: Standing, sides: Calculated[], keys: number[] }} Row
 */

const FRESH = {
  stages: Array(6).fill(6),
  status: 0,
  conditions: 0,
  hp: 0
};

/** The table of a team. */
export class Against {
  /**
   * @param {import("./engine.js").Engine} engine
   * @param {(foe: Standing) => void} pick makes a foe the defender
   */
  constructor(engine, pick) {
    this.engine = engine;
    this.pick = pick;
    this.work = new Slices();
    this.details = find("calc-against", HTMLDetailsElement);
    this.place = find("calc-foes", HTMLElement);
    this.which = find("calc-team", HTMLSelectElement);
    /** @type {Foes[]} the sides of a battle */
    this.battle = [];
    /** The place of the chosen team. */
    this.chosen = 0;
    /** @type {Foes[]} */
    this.teams = [];
    /** @type {Standing | null} */
    this.user = null;
    this.details.addEventListener("toggle", () => this.open());
    this.which.addEventListener("change", () => {
      this.chosen = Number(this.which.value);
      this.draw();
    });
  }

  /** @param {Foes[]} battle the sides of a battle, of which the second is chosen */
  carry(battle) {
    this.battle = battle;
    this.chosen = battle.length - 1;
    this.open();
  }

  /** Lists the teams, and shows the chosen one. */
  open() {
    if (!this.details.open) return;
    const fresh = (/** @type {import("./engine.js").Member[]} */ members) =>
        members.map((member) => ({...FRESH, member}));
    this.teams = [
      ...this.battle.map(({name, members}) => ({name: `In the battle: ${name}`, members})),
      ...savedTeams(this.engine).map(({name, members}) => ({name, members: fresh(members)})),
      ...sampleTeams(this.engine).map(({name, members}) => ({name, members: fresh(members)}))
    ];
    this.which.replaceChildren(...this.teams.map(({name}, at) => make("option", {value: at}, name)));
    if (!this.teams[this.chosen]) this.chosen = 0;
    this.which.value = String(this.chosen);
    this.draw();
  }

  /** @param {Standing} user the member that faces the team */
  show(user) {
    this.user = user;
    this.draw();
  }

  draw() {
    const {user, details} = this;
    const team = this.teams[this.chosen];
    if (!user || !team || !details.open) return;
    /** @type {Row[]} */
    const rows = [];
    void this.work.run(this.calculate(user, team, rows), () => this.put(user, rows));
  }

  /** @param {Standing} user @param {Foes} team @param {Row[]} rows @returns {Generator<number>} */
  * calculate(user, team, rows) {
    for (const foe of team.members) {
      const sides = this.engine.calculate([user, foe]);
      const move = best(sides, 0);
      rows.push({foe, sides, keys: move ? keysOf(move, sides[1]) : [0, 0, 0]});
      yield rows.length / team.members.length;
    }
  }

  /** @param {Standing} user @param {Row[]} rows */
  put(user, rows) {
    const name = String(user.member.species);
    const by = (/** @type {Row} */ one, /** @type {Row} */ two) =>
        two.keys.map((key, at) => key - one.keys[at]).find((it) => it) ?? 0;
    const note = () => make("span", {class: "note"}, "with KO in 1 / 2 / 3 uses");
    const head = (/** @type {string} */ text, /** @type {Node | null} */ more) =>
        make("th", {scope: "col"}, text, more);
    const heads = [head("Foe", null), head(`Best move of ${name}`, note()), head("Its best move", note())];
    const focused = document.activeElement?.id ?? "";
    this.place.replaceChildren(make("table", {}, make("thead", {}, make("tr", {}, ...heads)),
        make("tbody", {}, ...rows.sort(by).map((row, at) => this.row(row, at)))));
    if (focused.startsWith("calc-foe-")) document.getElementById(focused)?.focus();
  }

  /** @param {Row} row @param {number} at */
  row({foe, sides}, at) {
    const species = String(foe.member.species);
    const {hp, max} = sides[1];
    const button =
        make("button", {type: "button", class: "move", id: `calc-foe-${at}`, click: () => this.pick(foe)}, species);
    const facts = [foe.member.level === 100 ? "" : `L${foe.member.level}`, hp < max ? `${hp} of ${max} HP` : ""];
    return make("tr", {"data-foe": species},
        make("th", {scope: "row"}, make("span", {class: "figure"}, token(this.engine, species)), button,
            make("span", {class: "note"}, facts.filter(Boolean).join(", "))),
        this.cell(best(sides, 0), sides[1]), this.cell(best(sides, 1), sides[0]));
  }

  /**
   * A move with its damage in per cent of the maximum HP, and its chances to knock out in one, two and three uses.
   * @param {CalculatedMove | undefined} odds @param {Calculated} target
   */
  cell(odds, target) {
    const range = odds && !odds.reason ? ofUse(odds, target) : null;
    if (!odds || !range) return make("td", {class: "quiet"}, odds?.reason ?? "no damage");
    const [least, most] = range.map((number) => tenth((100 * number) / target.max));
    const {chanceOnce, chanceTwice, chanceThrice} = odds.knockOut;
    const faints = this.engine.tables.moves[odds.move].effect === "Explode";
    const chances = (faints ? [chanceOnce] : [chanceOnce, chanceTwice, chanceThrice]).map(percent);
    const [fewest, highest] = hitCounts(odds);
    const hits = highest > 1 && odds.damage ? ` in ${span(fewest, highest)} hits` : "";
    return make("td", {}, make("strong", {}, odds.move),
        ` ${isOneHit(odds) ? "all HP" : `${span(least, most)}%${hits}`}`,
        make("span", {class: "note"}, `KO ${chances.join(" / ")}`));
  }
}
