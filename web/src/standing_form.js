// The form for a member of the calculator and its state: HP, status, stages and conditions.
import {guarded, inField, make, Problem} from "./dom.js";
import {CONDITIONS} from "./engine.js";
import {labelled, MemberForm} from "./member_form.js";

const STAGES = ["Attack", "Defense", "Speed", "Special", "Accuracy", "Evasion"];
const MIDDLE = 6;
/**
 * The statuses, by their bytes (docs/LAYOUT.md, "Member").
 * @type {[number, string, string][]}
 */
const STATUSES = [
  [64, "PAR", "Paralysed"], [16, "BRN", "Burned"], [8, "PSN", "Poisoned"], [1, "SLP", "Asleep"], [32, "FRZ", "Frozen"]
];
const ROLES = ["Attacker", "Defender"];
/** The names of fields from which the stats or the types follow. */
const CHANGING = /^(species|level|dv-|exp-|stage-)/;

/** @param {number} stage */
export const signed = (stage) => (stage > 0 ? `+${stage}` : String(stage));

/**
 * A stage: a list of all, and buttons that lower and raise it. The buttons are for pointers; keys use the list.
 * @param {string} name
 */
function stageField(name) {
  const options = Array.from({length: 13}, (_, at) => MIDDLE - at);
  const field = make("select", {name: `stage-${name}`},
      ...options.map((stage) => make("option", {value: stage, selected: stage === 0}, signed(stage))));
  const step = (/** @type {number} */ by) => make("button", {
    type: "button",
    class: "small",
    tabindex: -1,
    "aria-label": `${name} ${by > 0 ? "up" : "down"}`,
    click: () => {
      field.value = String(Math.max(-MIDDLE, Math.min(MIDDLE, Number(field.value) + by)));
      field.dispatchEvent(new Event("change", {bubbles: true}));
    },
  },
      by > 0 ? "+" : "−");
  return {field, element: make("span", {class: "stage"}, step(-1), field, step(1))};
}

/** A member and its state. */
export class StandingForm {
  /**
   * @param {number} side
   * @param {import("./engine.js").Engine} engine
   * @param {(event: Event) => void} changed
   * @param {(species: string) => void} picked called when a species is picked from the list
   */
  constructor(side, engine, changed, picked) {
    this.side = side;
    this.engine = engine;
    this.form = new MemberForm(engine, `Side ${side}`, picked);
    this.text = make("textarea", {rows: 6, spellcheck: false});
    this.stages = STAGES.map(stageField);
    this.own = STAGES.map(() => make("span", {class: "own"}));
    this.now = STAGES.map(() => make("span", {class: "now"}));
    this.status = STATUSES.map(([, tag, name]) => this.toggle(tag, name));
    this.conditions = CONDITIONS.map(([name]) => this.toggle(name, name));
    this.hp = make("input", {type: "number", name: "hp", min: 1, max: 999, placeholder: "all", inputmode: "numeric"});
    this.slider = make("input", {type: "range", min: 1, max: 999, value: 999, "aria-label": `HP of side ${side}`});
    this.most = make("span", {class: "quiet"});
    /** @type {import("./engine.js").Carried | null} what a battle has changed, until the member or its stages change */
    this.carried = null;
    this.element = this.drawn();
    this.listen(changed);
  }

  /** @param {string} text @param {string} name */
  toggle(text, name) {
    return make("button",
        {type: "button", class: "small toggle", "aria-pressed": "false", "aria-label": name, title: name}, text);
  }

  /** @param {(event: Event) => void} changed */
  listen(changed) {
    this.slider.addEventListener(
        "input", () => (this.hp.value = this.slider.value === this.slider.max ? "" : this.slider.value));
    for (const type of ["input", "change"])
      this.element.addEventListener(type, (event) => {
        if (event.target === this.text) return;
        const {name} = /** @type {HTMLInputElement} */ (event.target);
        if (CHANGING.test(name)) this.carried = null;
        changed(event);
      });
    this.element.addEventListener("click", (event) => {
      const button = event.target instanceof Element ? event.target.closest(".toggle") : null;
      if (!button) return;
      const isOn = button.getAttribute("aria-pressed") === "true";
      // A member has at most one status.
      if (this.status.some((it) => it === button)) {
        this.status.forEach((it) => it.setAttribute("aria-pressed", "false"));
        this.carried = null;
      }
      button.setAttribute("aria-pressed", String(!isOn));
      changed(event);
    });
  }

  drawn() {
    const read = make("button",
        {type: "button", click: () => void guarded(() => inField(this.text, () => this.read()))}, "Read the text");
    const rows = STAGES.map((name, at) => make("div", {class: "stat-row"}, make("span", {}, name), this.own[at],
                                this.stages[at].element, this.now[at]));
    this.stages.forEach(({field}, at) => field.setAttribute("aria-label", `Stage of ${STAGES[at]}, side ${this.side}`));
    const group = (/** @type {string} */ name, /** @type {Node[]} */ items) =>
        make("div", {class: "toggles", role: "group", "aria-label": `${name} of side ${this.side}`}, ...items);
    return make("fieldset", {class: `member side-${this.side}`, id: `calc-member-${this.side}`},
        make("legend", {}, ROLES[this.side - 1]), this.form.name,
        make("div", {class: "hp-row"}, this.form.types,
            make("span", {class: "hp-field"}, labelled("HP", this.hp), this.most), this.slider),
        this.form.moveList, group("Status", this.status), make("div", {class: "stat-rows"}, ...rows),
        group("Conditions", this.conditions), this.form.advanced,
        make("details", {}, make("summary", {}, "From Showdown's text"),
            labelled(`Text of the member of side ${this.side}`, this.text), read));
  }

  /** Reads the first member of the text. */
  read() {
    const members = this.engine.team(this.text.value, `The text of side ${this.side}'s member`, this.side);
    if (!members.length) throw new Problem(`The text of side ${this.side}'s member has no member.`);
    this.form.set(members[0]);
    this.form.species.dispatchEvent(new Event("change", {bubbles: true}));
  }

  /**
   * Checks the HP against the member's maximum.
   * @param {number} most
   */
  testHp(most) {
    if (Number(this.hp.value) > most)
      throw this.form.problem(
          `${this.hp.value} HP are above the maximum of ${this.form.species.value}, which is ${most}`, this.hp);
  }

  /**
   * Shows the stats and the maximum HP.
   * @param {import("./engine.js").Calculated} it
   */
  show({hp, max, own, stats}) {
    this.most.textContent = `/ ${max} (${Math.ceil((100 * hp) / max)}%)`;
    this.slider.max = String(max);
    this.slider.value = String(hp);
    own.forEach((value, at) => {
      this.own[at].textContent = String(value);
      this.now[at].textContent = stats[at] === value ? "" : `→ ${stats[at]}`;
    });
    this.form.tell();
  }

  /**
   * The member and its state.
   * @returns {import("./engine.js").Standing}
   */
  standing() {
    const isOn = (/** @type {Element} */ button) => button.getAttribute("aria-pressed") === "true";
    const status = STATUSES[this.status.findIndex(isOn)]?.[0] ?? 0;
    return {
      member: this.form.member(),
      stages: this.stages.map(({field}) => Number(field.value) + MIDDLE),
      status,
      conditions: this.conditions.reduce((sum, button, bit) => sum + (isOn(button) ? 1 << bit : 0), 0),
      hp: this.hp.value ? this.form.whole(this.hp, "HP") : 0,
      carried: this.carried,
    };
  }

  /** @param {import("./engine.js").Standing} it */
  set({member, stages, status, conditions, hp, carried}) {
    this.form.set(member);
    this.carried = carried ?? null;
    this.stages.forEach(({field}, at) => (field.value = String(stages[at] - MIDDLE)));
    const known = status > 0 && status < 8 ? 1 : status;
    this.status.forEach((button, at) => button.setAttribute("aria-pressed", String(STATUSES[at][0] === known)));
    this.conditions.forEach(
        (button, bit) => button.setAttribute("aria-pressed", String(Boolean((conditions >> bit) & 1))));
    this.hp.value = hp ? String(hp) : "";
  }
}
