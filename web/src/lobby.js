// The lobby of a server: formats and teams, searches, challenges, open battles and ratings.
import {copy, done, find, guarded, inField, make, Problem} from "./dom.js";
import {sampleTeams, savedTeams, textOf} from "./team_lists.js";

/**
 * @typedef {{ title: string, team: boolean, rules?: number, limit?: number }} Format its title, and whether players bring their teams
 * @typedef {{ code: string, from: string, format: string }} Call a challenge to the account
 * @typedef {{ formats: Record<string, Format>, limit?: number, computer?: string, now?: number }} Greeting
 * @typedef {{ room: number, format: string, rated: boolean, names: string[] | null }} Open a battle that isn't over
 */

/** @param {string} text @param {() => void} click @param {Record<string, string>} [more] */
function button(text, click, more = {}) {
  return make("button", {type: "button", class: "small", click: () => void guarded(click), ...more}, text);
}

/** The lobby. */
export class Lobby {
  /**
   * @param {import("./engine.js").Engine} engine @param {import("./table.js").Ask} ask @param {import("./server.js").Server} server
   * @param {(room: number) => void} show a battle
   */
  constructor(engine, ask, server, show) {
    this.engine = engine;
    this.ask = ask;
    this.server = server;
    this.show = show;
    this.name = "";
    /** The account of the computer; empty if there is none. */
    this.computer = "";
    this.ahead = 0;
    /** @type {Record<string, Format>} */
    this.formats = {};
    /** @type {Map<string, HTMLElement>} the lines about searches and challenges, by the format of a search or the code of a challenge */
    this.calls = new Map();
    /** @type {Map<string, { who: string, format: string, isOwn: boolean }>} the foes of open challenges, by their codes; empty for anybody */
    this.foes = new Map();
    /** @type {Open[]} */
    this.open = [];
    /** @type {Open[]} the battles of the account */
    this.mine = [];
    this.listen();
  }

  listen() {
    const click = (/** @type {string} */ id, /** @type {() => unknown} */ work) =>
        find(id, HTMLElement).addEventListener("click", () => void guarded(async () => void (await work())));
    click("online-search", () => this.ask("search", this.terms(this.format)));
    click("online-computer", () => this.ask("challenge", {...this.terms(this.format), to: this.computer}));
    click("online-challenge", () => this.challenge());
    click("online-link", () => this.ask("challenge", this.terms(this.format)));
    click("online-again", () => this.look());
    find("online-format", HTMLSelectElement).addEventListener("change", () => {
      this.drawTeams();
      void this.look();
    });
    find("online-team", HTMLSelectElement).addEventListener("change", () => this.drawTeams());
  }

  get format() {
    return find("online-format", HTMLSelectElement).value;
  }

  /** @param {string} format */
  title(format) {
    return this.formats[format]?.title.replace("[Gen 1] ", "") ?? format;
  }

  /**
   * The rules of a format. If the server does not say them, both clauses hold.
   * @param {string} format
   */
  rules(format) {
    const {rules = 3, limit = 1000} = this.formats[format] ?? {};
    return {rules, limit, ahead: this.ahead};
  }

  /**
   * The server's greeting.
   * @param {Greeting} message
   */
  greet({formats, limit, computer = "bot", now = Date.now()}) {
    const {format} = this;
    this.ahead = Date.now() - now;
    this.formats = Object.fromEntries(Object.entries(formats).map(([id, it]) => [id, {limit, ...it}]));
    this.computer = computer;
    find("online-computer", HTMLElement).hidden = !computer;
    const select = find("online-format", HTMLSelectElement);
    select.replaceChildren(...Object.keys(formats).map((id) => make("option", {value: id}, this.title(id))));
    if (this.formats[format]) select.value = format;
    this.drawTeams();
  }

  /** @param {string} name of the account */
  enter(name) {
    this.name = name;
    const ended = [...this.calls.keys()].filter((key) => this.foes.get(key)?.isOwn ?? true);
    for (const key of ended) this.note(key);
    if (ended.length) done("Your searches and challenges have ended with the connection.");
    void this.look();
  }

  // ---- teams ----

  /** The person's teams that have members. */
  get saved() {
    return savedTeams(this.engine).filter(({members}) => members.length);
  }

  /** The list of teams: the person's, and the sample teams. */
  drawTeams() {
    const [select, text] = [find("online-team", HTMLSelectElement), find("online-paste", HTMLElement)];
    const isBrought = this.formats[this.format]?.team ?? true;
    find("online-which", HTMLElement).hidden = !isBrought;
    const {value} = select;
    const group = (/** @type {string} */ label, /** @type {string} */ kind, /** @type {{ name: string }[]} */ teams) =>
        make("optgroup", {label}, ...teams.map(({name}, at) => make("option", {value: `${kind} ${at}`}, name)));
    const {saved} = this;
    select.replaceChildren(...(saved.length ? [group("Your teams", "saved", saved)] : []),
        group("Sample teams", "sample", sampleTeams(this.engine)), make("option", {value: "text"}, "A team as text"));
    if ([...select.options].some((option) => option.value === value)) select.value = value;
    text.hidden = !isBrought || select.value !== "text";
  }

  /** The chosen team as text. */
  team() {
    const [kind, at] = find("online-team", HTMLSelectElement).value.split(" ");
    if (kind === "saved") return textOf(this.saved[Number(at)].members);
    if (kind === "sample") return sampleTeams(this.engine)[Number(at)].text;
    const field = find("online-text", HTMLTextAreaElement);
    const members = inField(field, () => this.engine.team(field.value, "The team", 0));
    if (!members.length) throw new Problem("The team has no member.", {field});
    return field.value;
  }

  /**
   * A format, with the team where it needs one.
   * @param {string} format
   */
  terms(format) {
    return this.formats[format]?.team === false ? {format} : {format, team: this.team()};
  }

  // ---- searches and challenges ----

  challenge() {
    const field = find("online-to", HTMLInputElement);
    const to = field.value.trim();
    if (!to) throw new Problem("Enter the name of a player.", {field});
    this.ask("challenge", {...this.terms(this.format), to});
  }

  /** @param {string} key @param {(Node | string)[]} parts none: it is over */
  note(key, ...parts) {
    this.calls.get(key)?.remove();
    this.calls.delete(key);
    this.foes.delete(key);
    if (!parts.length) return;
    const item = make("li", {class: "row"}, ...parts);
    this.calls.set(key, item);
    find("online-calls", HTMLElement).append(item);
  }

  /** @param {string[]} formats in which the account waits for an opponent */
  searches(formats) {
    for (const format of Object.keys(this.formats)) {
      const stop = button("Stop", () => this.ask("cancel_search"));
      this.note(format, ...(formats.includes(format) ? [`Looking for an opponent: ${this.title(format)}.`, stop] : []));
    }
  }

  /**
   * A challenge to the account.
   * @param {Call} call
   */
  called({code, from, format}) {
    const title = format && ` to a battle: ${this.title(format)}`;
    const accept = button("Accept", () => {
      const {format: _, ...team} = this.terms(format);
      this.ask("accept", {code, ...team});
    }, {class: "small main"});
    const decline = button("Decline", () => {
      this.ask("withdraw", {code});
      this.note(code);
    });
    const team = this.formats[format]?.team === false ? "" : " with the chosen team";
    this.note(code, `${from || "Somebody"} challenges you${title}${team}.`, accept, decline);
    this.foes.set(code, {who: from, format, isOwn: false});
  }

  /**
   * A challenge of the account.
   * @param {import("./server.js").Message} message @param {(values: import("./address.js").Values) => string} link
   */
  challenging({code, to, format}, link) {
    if (!code) return;
    const withdraw = button("Withdraw", () => {
      this.ask("withdraw", {code});
      this.note(code);
    });
    const address = link({c: code, by: this.name, f: format});
    const field = make("input", {readonly: true, value: address, "aria-label": "Link of the challenge"});
    const copied = button("Copy the link", () => copy(address, "The link is copied."), {class: "small main"});
    const title = this.title(format);
    if (to)
      this.note(code, `You challenge ${to}: ${title}.`, withdraw);
    else
      this.note(code, `Whoever opens this link may play you: ${title}.`, field, copied, withdraw);
    this.foes.set(code, {who: to, format, isOwn: true});
  }

  /**
   * Shows the battles of the account after one has begun, whose challenge isn't open any more.
   * @param {import("./remote.js").Room} room @param {Map<number, import("./remote.js").RemoteMatch>} matches
   */
  begun({names, format}, matches) {
    const found = [...this.foes].find(([, it]) => it.format === format && (!it.who || names.includes(it.who)));
    if (found) this.note(found[0]);
    this.drawMine(matches);
  }

  // ---- open battles and ratings ----

  /** Asks the server for the open battles and the ratings. */
  async look() {
    this.drawTeams();
    const {format} = this;
    const ratings = format && this.server.table(`ladder/${encodeURIComponent(format)}`);
    const [found, ladder] = await Promise.all([this.server.table("rooms"), ratings]);
    this.open = found?.rooms ?? [];
    this.drawBattles();
    if (format === this.format) this.drawLadder(ladder);
  }

  /** @param {Map<number, import("./remote.js").RemoteMatch>} matches */
  drawMine(matches) {
    this.mine = [...matches.values()].filter((it) => it.side && !it.isOver);
    this.drawBattles();
  }

  drawBattles() {
    const own = this.mine.map(({room}) => room);
    const item = (/** @type {Open} */ {room, format, rated, names}, /** @type {string} */ verb) => {
      const [title, who] = [`${this.title(format)}${rated ? ", rated" : ""}`, names?.join(" against ") ?? ""];
      const press = button(verb, () => this.show(room), {class: verb === "Watch" ? "small" : "small main"});
      press.append(make("span", {class: "unseen"}, ` ${who}`));
      return make("li", {}, make("span", {}, who, make("span", {class: "quiet"}, title)), press);
    };
    const rest = this.open.filter(({room}) => !own.includes(room)).map((it) => item(it, "Watch"));
    const items = [...this.mine.map((it) => item(it, "Go on")), ...rest];
    const none = make("li", {class: "quiet"}, "No battle is going on.");
    find("online-battles", HTMLElement).replaceChildren(...(items.length ? items : [none]));
  }

  /** @param {{ season: string, players: Record<string, any>[] } | null} ladder */
  drawLadder(ladder) {
    const heads = ["Name", "Rating", "Won", "Lost", "Tied"].map((text) => make("th", {scope: "col"}, text));
    const rows = (ladder?.players ?? []).map(({name, rating, deviation, wins, losses, ties}) => {
      const cells = [`${Math.round(rating)} ± ${Math.round(deviation)}`, wins, losses, ties];
      return make("tr", {class: name === this.name && "own"}, make("th", {scope: "row"}, name),
          ...cells.map((it) => make("td", {}, it)));
    });
    const title = this.title(this.format);
    const table =
        make("table", {}, make("caption", {}, `${title}, season ${ladder?.season}`), make("tr", {}, ...heads), ...rows);
    const none = make("p", {class: "quiet"}, `Nobody has a rating in ${title} yet.`);
    find("online-ladder", HTMLElement).replaceChildren(rows.length ? table : none);
  }
}
