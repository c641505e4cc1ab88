// The team builder: a person's teams and the sample teams, a member at a time, and the team as text.
import {link, setAddress} from "./address.js";
import {decoded, encoded, joined, MEMBER, memberBytes, memberOf} from "./bytes.js";
import {blame, copy, done, find, guarded, inField, make, Problem} from "./dom.js";
import {MemberForm, STATS} from "./member_form.js";
import {badge} from "./sides.js";
import {areKnown, complaints, formats, sampleTeams, savedTeams, saveTeams, setOf, textOf, titleOf} from "./team_lists.js";

/**
 * @typedef {import("./engine.js").Member} Member
 * @typedef {import("./team_lists.js").Team} Team
 */

const MOST = 6;
/** The stat that fills its bar: the highest of most members. */
const WIDEST = 550;
/** How many milliseconds after the last keystroke an error is shown. */
const PAUSE = 700;
const FULL = {
  level: 100,
  dvs: [15, 15, 15, 15],
  exp: [65535, 65535, 65535, 65535, 65535]
};

/** The part of the page that builds teams. */
export class Teams {
  /**
   * @param {import("./engine.js").Engine} engine
   * @param {(side: number, text: string) => void} play takes a team to a side of Play
   */
  constructor(engine, play) {
    this.engine = engine;
    this.saved = savedTeams(engine);
    /** @type {Team[]} */
    this.samples = sampleTeams(engine).map(({name, members}) => ({name, members}));
    /** @type {Team} */
    this.team = this.saved[0] ?? this.samples[0] ?? {name: "My team", members: []};
    this.at = 0;
    this.timer = 0;
    this.isShown = false;
    /** @type {Member | undefined} the member as it was when the field in which it is changed got the focus */
    this.before = undefined;
    this.which = find("teams-which", HTMLSelectElement);
    this.name = find("teams-name", HTMLInputElement);
    this.text = find("teams-text", HTMLTextAreaElement);
    this.format = find("teams-format", HTMLSelectElement);
    this.format.append(...formats().formats.map(({id, name}) => make("option", {value: id}, name)));
    this.form = new MemberForm(engine, "This member", (species) => this.offer(species));
    this.stats = make("div", {class: "stat-bars", role: "group", "aria-label": "Stats"});
    find("teams-member", HTMLElement).append(this.form.name, this.form.moveList, this.stats, this.form.advanced);
    this.listen(play);
  }

  /** @param {(side: number, text: string) => void} play */
  listen(play) {
    const member = find("teams-member", HTMLElement);
    for (const type of ["input", "change"])
      member.addEventListener(type, () => this.changed(type === "input" ? PAUSE : 0));
    this.which.addEventListener("change", () => this.open([...this.saved, ...this.samples][Number(this.which.value)]));
    this.format.addEventListener("change", () => this.drawComplaints());
    this.name.addEventListener("change", () => this.edit(() => (this.team.name = this.name.value.trim() || "My team")));
    const click = (/** @type {string} */ id, /** @type {() => void | Promise<void>} */ work) =>
        (find(id, HTMLButtonElement).addEventListener("click", () => void guarded(work)));
    member.addEventListener("focusin", () => (this.before = this.team.members[this.at]));
    click("teams-new", () => this.add({name: this.freshName(), members: []}));
    click(
        "teams-copy", () => this.add({name: `${this.team.name} (copy)`, members: structuredClone(this.team.members)}));
    click("teams-delete", () => this.remove());
    click("teams-left", () => this.move(-1));
    click("teams-right", () => this.move(1));
    click("teams-drop", () => this.drop());
    click("teams-read", () => inField(this.text, () => this.read()));
    click("teams-export", () => copy(this.text.value, "The team is copied as text."));
    click("teams-link", () => copy(link("teams", {t: this.code()}), "The link is copied. It holds the team."));
    for (const side of [1, 2]) click(`teams-play-${side}`, () => play(side, this.whole()));
  }

  /**
   * Shows the part, and the team in an address.
   * @param {URLSearchParams} values
   */
  route(values) {
    this.isShown = true;
    const code = values.get("t") ?? "";
    if (code && code !== this.code())
      this.open({name: "Team from a link", members: this.ofCode(code)});
    else
      this.open(this.team);
  }

  code() {
    return encoded(joined(...this.team.members.map(memberBytes)));
  }

  /** @param {string} code */
  ofCode(code) {
    const bytes = decoded(code);
    const count = bytes.length / MEMBER;
    if (!Number.isInteger(count) || count < 1 || count > MOST)
      throw new Problem("The address is damaged: it does not hold a team.");
    const members = Array.from({length: count}, (_, at) => memberOf(bytes.subarray(MEMBER * at, MEMBER * (at + 1))));
    if (!areKnown(this.engine, members)) throw new Problem("The address is damaged: it does not hold a team.");
    return members;
  }

  /** @param {Team} team */
  open(team) {
    this.team = team;
    this.at = Math.min(this.at, team.members.length, MOST - 1);
    this.fill();
    this.draw();
  }

  /** @param {Team} team */
  add(team) {
    this.saved.push(team);
    this.at = 0;
    this.open(team);
    this.save();
    this.form.species.focus();
  }

  /** A name that no team has. */
  freshName() {
    const names = this.saved.map(({name}) => name);
    let number = 1;
    const name = () => (number === 1 ? "My team" : `My team ${number}`);
    while (names.includes(name())) number++;
    return name();
  }

  /** Deletes one of the person's teams. */
  remove() {
    const at = this.saved.indexOf(this.team);
    if (at < 0) throw new Problem("A sample team stays; only your own teams can be deleted.");
    this.saved.splice(at, 1);
    this.save();
    this.open(this.saved[Math.max(0, at - 1)] ?? this.samples[0]);
    done("The team is deleted.");
  }

  /**
   * Changes the team. A sample team and one from a link stay as they are: their copy becomes the person's own.
   * @param {() => void} change
   */
  edit(change) {
    if (!this.saved.includes(this.team)) {
      this.team = structuredClone(this.team);
      this.saved.push(this.team);
    }
    change();
    this.save();
    this.draw();
  }

  save() {
    const isKept = saveTeams(this.saved);
    find("teams-kept", HTMLElement).textContent =
        isKept ? "" : "This browser does not keep teams for the page: copy the text or a link before you close it.";
  }

  /** The text of a team that can battle. */
  whole() {
    const fault = this.engine.fault(this.team.members);
    if (fault) throw new Problem(`${fault}.`);
    return textOf(this.team.members);
  }

  /** Puts the member into the form. */
  fill() {
    this.before = undefined;
    this.form.set(this.team.members[this.at] ?? {...FULL, species: "", moves: []});
  }

  /**
   * Gives a member without moves those of a saved or sample team.
   * @param {string} species
   */
  offer(species) {
    const set = this.form.moves.every((field) => !field.value) && setOf(this.engine, species);
    if (set) this.form.set(set);
  }

  /** @param {number} pause the milliseconds before an error is shown */
  changed(pause) {
    window.clearTimeout(this.timer);
    try {
      const member = this.form.member();
      this.say("");
      if (JSON.stringify(member) !== JSON.stringify(this.team.members[this.at]))
        this.edit(() => (this.team.members[this.at] = member));
    } catch (error) {
      if (!(error instanceof Problem)) throw error;
      const {message, field} = error;
      this.restore();
      const say = () => this.say(`${message} The team keeps the member as it was.`, field);
      if (pause)
        this.timer = window.setTimeout(say, pause);
      else
        say();
    }
  }

  /** Undoes the changes of a field before it got a wrong value, such as 10 before 101. */
  restore() {
    const {before} = this;
    if (before && JSON.stringify(before) !== JSON.stringify(this.team.members[this.at]))
      this.edit(() => (this.team.members[this.at] = before));
  }

  /** @param {number} at the place from 0 */
  choose(at) {
    this.say("");
    this.at = at;
    this.fill();
    this.draw();
  }

  /** @param {number} by */
  move(by) {
    const to = this.at + by;
    const {members} = this.team;
    if (!members[this.at] || !members[to]) return;
    this.edit(() => {
      const own = this.team.members;
      [own[this.at], own[to]] = [own[to], own[this.at]];
      this.at = to;
    });
  }

  /** Takes the member out of the team. */
  drop() {
    if (!this.team.members[this.at]) return;
    this.edit(() => this.team.members.splice(this.at, 1));
    this.choose(Math.max(0, Math.min(this.at, this.team.members.length - 1)));
  }

  /** Takes the team in the text. */
  read() {
    const {value} = this.text;
    const members = this.engine.team(value, "The text", 0);
    if (!members.length) throw new Problem("The text has no member.");
    this.edit(() => {
      this.team.members = members;
      this.team.name = titleOf(value) || this.team.name;
    });
    this.choose(0);
    done("The team is read.");
  }

  /**
   * Shows what is wrong with the member, without an alert.
   * @param {string} text
   * @param {HTMLElement} [field]
   */
  say(text, field) {
    find("teams-fault", HTMLElement).textContent = text;
    blame(field, "teams-fault");
  }

  /** Shows the team; the form has the member already. */
  draw() {
    const {team} = this;
    this.drawList();
    this.name.value = team.name;
    this.text.value = textOf(team.members);
    const slots = Array.from({length: Math.min(MOST, team.members.length + 1)}, (_, at) => this.slot(at));
    const place = find("teams-slots", HTMLElement);
    const hadFocus = place.contains(document.activeElement);
    place.replaceChildren(...slots);
    if (hadFocus) slots[this.at]?.focus();
    const isThere = Boolean(team.members[this.at]);
    for (const [id, isOn] of Object.entries({
           "teams-left": isThere && this.at > 0,
           "teams-right": this.at < team.members.length - 1,
           "teams-drop": isThere,
           "teams-delete": this.saved.includes(team),
         }))
      find(id, HTMLButtonElement).disabled = !isOn;
    this.form.tell();
    this.drawStats();
    const fault = team.members.length ? this.engine.fault(team.members) : "";
    find("teams-state", HTMLElement).textContent = fault ? `${fault}.` : "";
    this.drawComplaints();
    if (this.isShown) setAddress("teams", {t: team.members.length ? this.code() : ""});
  }

  /** The rules of the chosen format that the team breaks. */
  drawComplaints() {
    const format = formats().formats.find(({id}) => id === this.format.value);
    const found = format && this.team.members.length ? complaints(format, this.team.members) : [];
    find("teams-complaints", HTMLElement).replaceChildren(...found.map((text) => make("li", {}, text)));
  }

  /** The list of all teams. A team from a link is in it until another is chosen. */
  drawList() {
    const all = [...this.saved, ...this.samples];
    const options = (/** @type {Team[]} */ teams) =>
        teams.map((team) => make("option", {value: all.indexOf(team), selected: team === this.team}, team.name));
    const group = (/** @type {string} */ label, /** @type {Node[]} */ items) =>
        (items.length ? [make("optgroup", {label}, ...items)] : []);
    const isOther = !all.includes(this.team);
    this.which.replaceChildren(
        ...(isOther ? [make("option", {value: -1, selected: true, disabled: true}, this.team.name)] : []),
        ...group("Your teams", options(this.saved)), ...group("Sample teams", options(this.samples)));
  }

  /** @param {number} at */
  slot(at) {
    const member = this.team.members[at];
    const types = member ? [...new Set(this.engine.tables.species[String(member.species)])].map(badge) : [];
    return make("button",
        {type: "button", class: "slot", "aria-pressed": String(at === this.at), click: () => this.choose(at)},
        make("strong", {}, member ? String(member.species) : "Add a member"), make("span", {}, ...types));
  }

  /** The stats of the member in the form; none before it has a species. */
  drawStats() {
    const member = this.team.members[this.at];
    const values = member ? this.engine.stats(member) : [];
    this.stats.replaceChildren(...values.map((value, at) => {
      const bar = make("span", {});
      bar.style.width = `${Math.min(100, (100 * value) / WIDEST)}%`;
      return make("div", {}, make("span", {}, STATS[at]), make("strong", {}, value),
          make("span", {class: "stat-bar", "aria-hidden": "true"}, bar));
    }));
  }
}
