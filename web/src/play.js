// Play: two persons at one screen, against the computer, or at a server. The page shows only what the person who plays may know.
import {link, setAddress} from "./address.js";
import {Card} from "./card.js";
import {areOut, sceneOf, standingIn} from "./carried.js";
import {choiceButtons, damageOf, detail, forecast, keyOf} from "./choices.js";
import {find, guarded, keepForTab, keepingFocus, kept, make, Problem} from "./dom.js";
import {Field, HIDDEN, preparedBy} from "./field.js";
import {Hint} from "./hint.js";
import {ofAddress, toAddress} from "./inputs.js";
import {Log} from "./log.js";
import {LocalMatch, randomSeed, SIDES} from "./match.js";
import {Motion} from "./motion.js";
import {PLAYERS, Setup} from "./setup.js";
import {shareButtons} from "./share.js";
import {own, seen, whole} from "./sides.js";
import {OUTCOMES} from "./words.js";

/**
 * @typedef {import("./match.js").Side} Side
 * @typedef {{ terms: import("./engine.js").Terms, pairs: number[][], who: string[], isOpen: boolean }} Saved
 */

/** The conditions during which a member is in the middle of its current move (docs/LAYOUT.md, "Condition bits"). */
const GOING = ["bide", "thrash", "trapping", "charging", "rage"];
const KEYS = ["123456789", "qwertyuio"];
const SAVED = "battle";
const GUESSED = "The foe has its highest possible stats, and moves of a usual set where it has not shown them.";

/** The part of the page that plays. */
export class Play {
  /**
   * @param {import("./engine.js").Engine} engine
   * @param {import("./inputs.js").Inputs} inputs
   * @param {import("./players.js").Players} players
   * @param {(recorded: import("./inputs.js").Recorded, at: number) => void | Promise<void>} watch shows a battle as a replay
   * @param {(scene: import("./carried.js").Scene) => void} calculate shows the members that are out in the calculator
   */
  constructor(engine, inputs, players, watch, calculate) {
    this.engine = engine;
    this.inputs = inputs;
    this.players = players;
    this.watch = watch;
    this.calculate = calculate;
    this.setup = new Setup(engine);
    this.card = new Card(engine, find("play-card", HTMLElement), (side, at) => this.factsOf(side, at),
        document.querySelector(".journal"));
    this.field = new Field(engine, find("play-field", HTMLElement), this.card);
    this.log = new Log(
        find("play-lines", HTMLElement), find("play-search", HTMLInputElement), find("play-found", HTMLElement));
    this.motion = new Motion(this.field, find("speed", HTMLSelectElement), find("sounds", HTMLInputElement));
    /** @type {import("./match.js").Match<any> | null} */
    this.match = null;
    this.hint = new Hint(players, () => this.asking);
    this.isOpen = false;
    /** How many updates of a battle at a server were shown. */
    this.shown = 0;
    /** Called when the battle is drawn. */
    this.drawn = () => {};
    /** The side whose choices are shown, if two persons play and hands are covered; 0 while they are. */
    this.revealed = 0;
    this.isMoving = false;
    /** @type {number | null} how many updates the position has to which Back returned; null for the present one */
    this.looked = null;
    /** Whether the heading has the focus of the choices. */
    this.isLent = false;
    /** @type {(Promise<number> | null)[]} the computer's choices for this turn */
    this.thinking = [null, null];
    this.asked = 0;
    this.code = "";
    /** @type {{ match: LocalMatch, isOpen: boolean } | null} the battle that was left last */
    this.left = null;
    this.listen();
  }

  listen() {
    const click = (/** @type {string} */ id, /** @type {() => unknown} */ work) =>
        find(id, HTMLElement).addEventListener("click", () => void guarded(async () => void (await work())));
    find("play-setup", HTMLFormElement).addEventListener("submit", (event) => {
      event.preventDefault();
      void guarded(() => this.start());
    });
    click("play-undo", () => this.undo());
    click("play-on", () => this.goOn());
    click("play-skip", () => this.motion.skip());
    click("play-again", () => this.leave());
    click("play-rematch", () => this.rematch());
    click("play-return", () => this.goBack());
    click("play-calculate", () => this.isAtRest && this.calculate(this.scene));
    click("play-watch", () => this.watch(this.recorded(), this.game.steps.length));
    shareButtons(find("play-share", HTMLElement), () => ({
      recorded: this.recorded(),
      log: this.game.log(this.knower),
      inputs: this.inputs,
      link: this.link(),
    }));
    find("play-return", HTMLElement).hidden = !kept(SAVED, true);
  }

  /** The battle that is played. */
  get game() {
    if (!this.match) throw new Problem("There is no battle yet.");
    return this.match;
  }

  /** The battle, where the page plays it itself. */
  get local() {
    if (!(this.match instanceof LocalMatch)) throw new Problem("There is no battle yet.");
    return this.match;
  }

  get isLocal() {
    return this.match instanceof LocalMatch;
  }

  /** The part of the page that shows the battle. */
  get tab() {
    return this.match?.tab ?? "play";
  }

  /** Whether everything may be shown: in open hands, if only the computer plays, and after the battle. */
  get isBare() {
    return this.isLocal && (this.isOpen || !this.game.persons.length || this.game.isOver);
  }

  /** The viewer of the lines, which stays the same for a whole battle. @returns {import("./match.js").Viewer} */
  get teller() {
    const {persons} = this.game;
    if (this.isOpen || (this.isLocal && !persons.length)) return "all";
    return persons.length === 1 ? persons[0] : 0;
  }

  /** What a link and a file hold. @returns {import("./match.js").Viewer} */
  get knower() {
    return this.isBare ? "all" : this.teller;
  }

  /** @returns {import("./inputs.js").Recorded} */
  recorded() {
    const {game, teller} = this;
    return this.isBare ? {input: this.local.input()} : {log: game.log(teller), sizes: game.sizes};
  }

  link() {
    if (!this.isLocal && !this.game.isOver) return link(this.tab, this.game.address);
    return this.isBare ? link("play", this.values()) : link("replay", {b: toAddress(this.recorded())});
  }

  /** Begins the battle that the form asks for. */
  start() {
    const {terms, who, isOpen} = this.setup.read();
    this.setup.blamingTeams(() => this.begin(terms, [[0, 0]], who, isOpen));
    find("play-now", HTMLElement).focus();
  }

  /** Begins a battle of the same teams, with another seed. */
  rematch() {
    if (!this.isLocal) return this.game.act("rematch");
    const {terms, who} = this.local;
    this.begin({...terms, seed: randomSeed()}, [[0, 0]], who, this.isOpen);
    find("play-now", HTMLElement).focus();
  }

  /** @param {import("./engine.js").Terms} terms @param {number[][]} pairs @param {string[]} who plays the sides @param {boolean} isOpen */
  begin(terms, pairs, who, isOpen) {
    const match = new LocalMatch(this.engine, terms, who);
    // The host itself plays the first pair, of two passes.
    for (const pair of pairs.slice(pairs[0].some(Boolean) ? 0 : 1)) match.update(pair);
    this.open(match, isOpen);
  }

  /** @param {import("./match.js").Match<any>} match @param {boolean} isOpen */
  open(match, isOpen) {
    if (this.tab !== match.tab) this.leave();
    this.drop();
    [this.match, this.isOpen, this.shown] = [match, isOpen, match.steps.length];
    const game = find("play-game", HTMLElement);
    find(`panel-${match.tab}`, HTMLElement).append(game);
    find(`${match.tab}-setup`, HTMLElement).hidden = true;
    game.hidden = false;
    this.retell();
    this.next(true);
  }

  /** Shows the updates of a battle at a server that were not shown yet. */
  async follow() {
    const asked = this.asked;
    if (this.isMoving) return;
    this.isMoving = true;
    this.wait("");
    this.drawChoices();
    while (this.shown < this.game.steps.length) {
      const step = this.game.steps[this.shown++];
      const isWhole = await this.motion.play(this.game.events(step, this.teller), (event) => this.log.add([event]));
      if (!isWhole || asked !== this.asked) return;
    }
    this.isMoving = false;
    this.next(true);
  }

  /** Ends what is under way for the position that is shown. */
  drop() {
    this.card.hide();
    this.asked++;
    this.revealed = 0;
    this.isMoving = false;
    this.motion.stop();
    this.players.cancel();
    this.wait("");
  }

  /** Writes the log again. */
  retell() {
    const {game, teller} = this;
    const isInPixels = (/** @type {Side} */ side) => teller !== "all" && side !== teller;
    const you = teller === 1 || teller === 2 ? teller : null;
    this.log.clear(this.engine.gen1.narrator({you, inPercent: [isInPixels(1), isInPixels(2)]}));
    this.log.add(game.steps.flatMap((step) => game.events(step, teller)));
  }

  /**
   * Shows the battle in an address.
   * @param {URLSearchParams} values
   */
  route(values) {
    if (!values.get("b") && this.match && !this.isLocal) return;
    const [code, at] = [values.get("b") ?? "", Number(values.get("u") ?? 0)];
    if (!code) return this.returnTo(at);
    if (code === this.code) return;
    const recorded = ofAddress(code, this.inputs);
    if (!("input" in recorded)) throw new Problem("The address is damaged: a log cannot be played on.");
    const who = ["p1", "p2"].map(
        (key, at) => (Object.hasOwn(PLAYERS, values.get(key) ?? "") ? String(values.get(key)) : this.setup.who[at]));
    const {choices, ...terms} = recorded.input;
    this.begin(terms, choices.length ? choices : [[0, 0]], who, values.get("hands") === "open");
  }

  /**
   * Shows an earlier position of a battle in covered hands, or the form if there is none. A page that was reloaded continues its battle.
   * @param {number} at how many updates it has
   */
  returnTo(at) {
    if (!at) return this.leave();
    if (!this.match && kept(SAVED, true)) this.goBack();
    if (!this.match) return setAddress("play", {});
    if (!this.isMoving) this.look(at);
  }

  /** @param {number} at */
  look(at) {
    this.looked = at < this.game.steps.length ? at : null;
    this.draw();
    this.toAddress();
    this.log.toTurn(this.looked ? this.game.view(1, this.step).turn : 0);
  }

  /** The step that is shown. */
  get step() {
    return this.looked ? this.game.steps[this.looked - 1] : this.game.last;
  }

  /**
   * Asks for the next pair.
   * @param {boolean} isNew whether Back returns to the position before it
   */
  next(isNew) {
    this.asked++;
    this.revealed = 0;
    this.looked = null;
    const {game} = this;
    game.clear();
    const isWatched = this.isLocal && !game.persons.length;
    keepingFocus(find("play-now", HTMLElement), () => {
      this.draw();
      find("play-on", HTMLElement).hidden = game.isOver || !isWatched;
    });
    if (this.isLocal) {
      this.think();
      if (!game.isOver && !isWatched && !game.persons.some((side) => game.isAsked(side)))
        void guarded(() => this.goOn());
    }
    this.toAddress(isNew);
  }

  /** Has the computer begin to think, while the person does. */
  think() {
    const game = this.local;
    this.thinking = SIDES.map((side) => {
      if (game.who[side - 1] === "person" || game.offered(side).length < 2) return null;
      const choice = this.players.choice(
          game.question(side, randomSeed().reduce((sum, byte) => (sum * 256 + byte) % 0x7fffffff, 1)));
      // An error is shown when the choice is waited for.
      choice.catch(() => {});
      return choice;
    });
  }

  /** @param {Side} side @param {number} choice */
  choose(side, choice) {
    const {game} = this;
    if (this.isMoving || !game.offered(side).includes(choice)) return;
    if (!this.isLocal && game.chosen[side - 1] !== null) return;
    for (const button of document.querySelectorAll(`#play-choices-${side} [data-choice]`))
      button.setAttribute("aria-pressed", String(button.getAttribute("data-choice") === String(choice)));
    if (game.choose(side, choice)) return void guarded(() => this.showLast());
    if (!this.isOpen && game.persons.length === 2) {
      this.revealed = 0;
      this.draw();
    }
    if (!this.isLocal)
      this.drawChoices();
    else if (SIDES.every((it) => !game.isAsked(it) || game.chosen[it - 1] !== null))
      void guarded(() => this.goOn());
    else if (!this.isOpen)
      find("play-reveal", HTMLElement).focus();
  }

  /** Has the computer choose where a person does not, which ends the pair, and shows what happens. */
  async goOn() {
    const asked = ++this.asked;
    const game = this.local;
    const {awaited} = game;
    const choices = await Promise.all(awaited.map((side) => this.choiceOf(side)));
    // A choice is dropped if the battle was left, an update undone, or the choice changed meanwhile.
    if (asked !== this.asked) return;
    awaited.forEach((side, at) => game.choose(side, choices[at]));
    await this.showLast();
  }

  /** Shows the update that a choice has just caused. */
  async showLast() {
    const asked = ++this.asked;
    const {game} = this;
    this.wait("");
    this.isMoving = true;
    this.drawChoices();
    find("play-game", HTMLElement).dataset.updates = String(game.steps.length);
    const isWhole = await this.motion.play(game.events(game.last, this.teller), (event) => this.log.add([event]));
    if (!isWhole || asked !== this.asked) return;
    this.isMoving = false;
    this.next(true);
  }

  /** @param {Side} side that the computer plays @returns {number | Promise<number>} */
  choiceOf(side) {
    const thinking = this.thinking[side - 1];
    if (!thinking) return this.game.offered(side)[0];
    this.wait(this.game.persons.length === 1 ? "The foe is thinking." : `Side ${side} is thinking.`);
    return thinking;
  }

  /** @param {string} text what is waited for */
  wait(text) {
    find("play-wait", HTMLElement).textContent = text;
  }

  /** Undoes the updates since a person last had a choice. */
  undo() {
    if (!this.isOpen) return;
    const game = this.local;
    this.drop();
    do {
      game.undo();
    } while (game.steps.length > 1 && game.persons.length && !game.persons.some((side) => game.isAsked(side)));
    this.retell();
    this.next(false);
  }

  /** Returns to the teams. The battle is kept until another one is left. */
  leave() {
    const {match, tab, isOpen} = this;
    if (!match) return;
    this.drop();
    [this.match, this.code] = [null, ""];
    keepingFocus(find(tab === "play" ? "play-teams" : "online-head", HTMLElement), () => {
      find(`${tab}-setup`, HTMLElement).hidden = false;
      find("play-game", HTMLElement).hidden = true;
      if (!(match instanceof LocalMatch)) return;
      this.left = {match, isOpen};
      find("play-return", HTMLElement).hidden = false;
    });
    setAddress(tab, {});
    this.setup.list();
    this.drawn();
  }

  /** Returns to the battle that was left, or that the tab showed before it was reloaded. */
  goBack() {
    if (this.left)
      this.open(this.left.match, this.left.isOpen);
    else {
      /** @type {Saved} */
      const {terms, pairs, who, isOpen} = JSON.parse(kept(SAVED, true) ?? "null");
      this.begin(terms, pairs, who, isOpen);
    }
    find("play-now", HTMLElement).focus();
  }

  /** The side that is shown below. */
  get near() {
    return this.revealed || this.game.persons[0] || 1;
  }

  /**
   * The shown values of a side.
   * @param {Side} side
   */
  shownOf(side) {
    const {game, step, engine: {tables}} = this;
    if (this.isBare) return whole(tables, this.local.state(step).sides[side - 1]);
    const isOwn = side === (this.revealed || this.teller);
    const self = game.view(side, step).own;
    if (isOwn && self) return own(tables, self);
    const other = game.view(side === 1 ? 2 : 1, step);
    return seen(tables, other.foe, other.foes ?? other.foe.members.length);
  }

  /**
   * The location of a side's active member, if it is out of reach, by the events of the last update.
   * @param {Side} side
   * @returns {import("./field.js").Hidden}
   */
  hiddenOf(side) {
    const {game, step} = this;
    // The view says that it is out of reach, and not where.
    if (!game.seen(side, step).active?.announced.includes("invulnerable")) return "";
    return HIDDEN[preparedBy(side, game.events(step, this.teller))] ?? "";
  }

  /** The names of the sides. */
  get titles() {
    const {names, persons} = this.game;
    const isAlone = persons.length === 1 && !this.isOpen;
    const other = (/** @type {Side} */ side) => names?.[side - 1] ?? (isAlone ? "The foe" : `Side ${side}`);
    return SIDES.map((side) => (isAlone && side === this.near ? "You" : other(side)));
  }

  /**
   * The facts that a card shows about a member.
   * @param {number} side @param {number} at its place
   * @returns {import("./card.js").Facts | null}
   */
  factsOf(side, at) {
    const [own, other] = side === 1 ? SIDES : [SIDES[1], SIDES[0]];
    const shown = this.field.shown[own - 1];
    const member = shown?.members[at - 1];
    if (!member?.isKnown) return null;
    const title = {"You": "Your member", "The foe": "The foe's member"}[this.titles[own - 1]] ??
        `Of ${this.game.names?.[own - 1] ?? `side ${own}`}`;
    const hasGuess = member.hasPixels && this.game.view(other).own && !this.game.isOver;
    const guess = hasGuess ? this.game.usual(other).state[own === 1 ? "one" : "two"].members[at - 1] : null;
    const isAsked = this.showing.includes(own) && shown.active === at && member.hp > 0;
    const offer = isAsked ? this.offer(own) : null;
    const forecasts = Object.fromEntries((offer?.odds ?? [
    ]).map((odds) => [odds.move, offer ? [...forecast(odds, offer), detail(odds)].filter(Boolean).join(" · ") : ""]));
    return {shown, member, title, guess, forecasts};
  }

  draw() {
    const {game} = this;
    this.field.show(
        SIDES.map((side) => this.shownOf(side)), this.titles, this.near, SIDES.map((side) => this.hiddenOf(side)));
    const {turn, outcome} = game.view(1, this.step);
    find("play-now", HTMLElement).textContent = `Turn ${turn}${OUTCOMES[outcome] ? `. ${this.ending()}` : ""}`;
    find("play-undo", HTMLButtonElement).hidden = !this.isOpen;
    find("play-undo", HTMLButtonElement).disabled = game.steps.length < 2;
    find("play-rematch", HTMLElement).hidden = !game.isOver || !(this.isLocal || game.persons.length);
    find("play-game", HTMLElement).dataset.updates = String(game.steps.length);
    this.drawCurious();
    this.drawChoices();
    this.drawn();
  }

  /** The seed and the draws, for the curious. */
  drawCurious() {
    const place = find("play-curious", HTMLDetailsElement);
    place.hidden = !this.isBare;
    const {terms, who, persons} = this.game;
    const clauses =
        ["", " with the sleep clause", " with the freeze clause", " with the sleep and the freeze clause"][terms.rules];
    const foe = this.isLocal && persons.length === 1 ? ` against ${PLAYERS[who[2 - persons[0]]]}` : "";
    find("play-rules", HTMLElement).textContent =
        `A battle${foe}${clauses && foe ? "," : ""}${clauses}, which ends at the latest after turn ${terms.limit}.`;
    if (!this.isBare) return find("play-terms", HTMLElement).replaceChildren();
    const {numbers, index} = this.local.state();
    const texts = [
      `Seed ${terms.seed.join(" ")}.`,
      `The next link number is ${numbers[index]}, number ${index + 1} of ${numbers.slice(0, 9).join(" ")}.`
    ];
    find("play-terms", HTMLElement).replaceChildren(...texts.map((text) => make("p", {class: "quiet"}, text)));
  }

  /** Whether a side chooses, and both have a member out that has HP. */
  get isAtRest() {
    return this.showing.length > 0 && areOut(this.field.shown);
  }

  /** What the calculator takes from the position, as the side that chooses knows it. */
  get scene() {
    const {game, isOpen, near, titles, field} = this;
    const {state} = isOpen ? this.local.battle() : game.usual(near === 1 ? 1 : 2);
    const order = near === 1 ? [0, 1] : [1, 0];
    const standing = (/** @type {number} */ at, /** @type {number} */ place) => {
      const [side, team] = order[at] ? [state.two, game.terms.two] : [state.one, game.terms.one];
      return standingIn(side, place, at && !isOpen ? undefined : team[place - 1]);
    };
    const guess = isOpen ? "" : ` ${GUESSED}`;
    return sceneOf(order.map((at) => field.shown[at]), order.map((at) => titles[at]), standing,
        {tab: this.tab, text: `Turn ${game.view(1).turn} of the battle.${guess}`});
  }

  /** Shows the buttons again, with or without their keys. */
  drawAgain() {
    if (this.match) this.drawChoices();
  }

  /** The sides whose choices are shown. */
  get showing() {
    const {game} = this;
    if (this.isMoving || this.looked || game.isOver) return [];
    if (this.isOpen || game.persons.length < 2) return game.persons.filter((side) => game.isAsked(side));
    return SIDES.filter((side) => side === this.revealed);
  }

  /** The battle and the side that chooses, where the page plays and one side's choices are shown. */
  get asking() {
    const {match, showing} = this;
    return match instanceof LocalMatch && showing.length === 1 ? {match, side: showing[0]} : null;
  }

  drawChoices() {
    const {game} = this;
    this.hint.draw();
    find("play-skip", HTMLElement).hidden = !this.isMoving || !this.motion.share;
    for (const side of SIDES) {
      const place = find(`play-choices-${side}`, HTMLElement);
      const hadFocus = place.contains(document.activeElement);
      // While an update is shown, the buttons stay in their places, without effect.
      const isBusy = (this.isMoving || (!this.isLocal && game.chosen[side - 1] !== null)) &&
          place.childElementCount > 0 && game.persons.length === 1;
      place.toggleAttribute("data-busy", isBusy);
      for (const it of isBusy ? place.querySelectorAll("button") : []) it.setAttribute("aria-disabled", "true");
      if (isBusy) continue;
      const isShown = this.showing.includes(side);
      place.hidden = !isShown;
      place.replaceChildren(...(isShown ? [...this.heading(side), ...this.buttons(side)] : []));
      if (isShown || hadFocus) this.focus(place, hadFocus);
    }
    const calculate = find("play-calculate", HTMLElement);
    if (!this.isMoving) calculate.hidden = !this.isAtRest;
    calculate.setAttribute("aria-disabled", String(this.isMoving));
    this.drawCover();
    // The height of the log changes as choices appear and disappear.
    this.log.toEnd();
  }

  /**
   * Keeps the focus among the choices. While there are none, the heading has it, and returns it.
   * @param {HTMLElement} place @param {boolean} hadFocus
   */
  focus(place, hadFocus) {
    const heading = find("play-now", HTMLElement);
    const button = /** @type {HTMLElement | null} */ (place.querySelector("button[aria-pressed='true'], button"));
    if (hadFocus)
      (button ?? heading).focus();
    else if (button && this.isLent && document.activeElement === heading)
      button.focus();
    this.isLent = hadFocus && !button;
  }

  /** @param {Side} side */
  heading(side) {
    const isSwitch = this.game.view(side).own?.request === "switch";
    if (this.game.persons.length > 1) return [make("h3", {}, `Side ${side} ${isSwitch ? "sends out" : "chooses"}`)];
    return isSwitch ? [make("h3", {}, "Who comes out?")] : [];
  }

  /** The screen between two persons, which says who chooses. */
  drawCover() {
    const {game} = this;
    const place = find("play-cover", HTMLElement);
    const side = SIDES.find((it) => game.isAsked(it) && game.chosen[it - 1] === null);
    const isCovered = !this.isOpen && game.persons.length === 2 && !this.isMoving && !this.revealed && !game.isOver &&
        side !== undefined;
    place.hidden = !isCovered && !game.isOver && !this.looked;
    if (this.looked) return this.drawLook(place);
    if (game.isOver) return this.drawEnd(place);
    if (!isCovered || side === undefined) return place.replaceChildren();
    place.replaceChildren(
        make("p", {}, make("strong", {}, `Side ${side} chooses.`),
            ` Hand the screen to side ${side}; side ${3 - side} looks away.`),
        make("button", {type: "button", id: "play-reveal", class: "main", click: () => this.reveal(side)},
            `Show the choices of side ${side}`),
    );
  }

  /**
   * How the battle ended, and what to do next.
   * @param {HTMLElement} place
   */
  drawEnd(place) {
    const button = (/** @type {string} */ id, /** @type {string} */ text, /** @type {() => void} */ work) =>
        make("button", {type: "button", id, click: () => void guarded(work)}, text);
    const watch = () => void this.watch(this.recorded(), this.game.steps.length);
    const isAlone = this.isLocal && this.game.persons.length === 1 && !this.setup.field(2).value.trim();
    const buttons = [
      button("play-end-watch", "Watch as a replay", watch),
      ...(isAlone ? [button("play-end-other", "Another foe", () => this.start())] : []),
      ...(this.isLocal ? [button("play-end-change", "Change the teams or the level", () => this.leave())] : []),
    ];
    place.replaceChildren(make("p", {class: "end"}, this.ending()), make("div", {class: "row"}, ...buttons));
  }

  /**
   * The way back from an earlier position.
   * @param {HTMLElement} place
   */
  drawLook(place) {
    const {turn} = this.game.view(1);
    const button = make("button", {type: "button", id: "play-present", class: "main", click: () => this.look(Infinity)},
        `Back to turn ${turn}`);
    place.replaceChildren(make("p", {}, `The position before turn ${turn}, as it was.`), button);
  }

  ending() {
    const {persons, outcome, ended} = this.game;
    if (ended) return ended;
    const won = {"win one": 1, "win two": 2}[/** @type {string} */ (outcome)];
    if (persons.length !== 1 || !won) return `${OUTCOMES[outcome]}.`;
    return won === persons[0] ? "You have won." : "The foe has won.";
  }

  /** @param {Side} side */
  reveal(side) {
    this.revealed = side;
    this.draw();
    /** @type {HTMLElement | null} */ (find(`play-choices-${side}`, HTMLElement).querySelector("button"))?.focus();
  }

  /** @param {Side} side */
  buttons(side) {
    const offer = this.offer(side);
    const use = {
      chosen: this.game.chosen[side - 1],
      keys: this.keysOf(side),
      choose: (/** @type {number} */ choice) => this.choose(side, choice),
      preview: (/** @type {number | null} */ choice) => this.preview(side, offer, choice),
    };
    const buttons = choiceButtons(this.engine, offer, use);
    for (const it of buttons.flatMap((group) => [...group.querySelectorAll(".to-switch")]))
      if (it instanceof HTMLElement) this.card.attach(it, side, Number(it.dataset.choice) - 32, false);
    return buttons;
  }

  /**
   * A side's choices with the odds of its moves: in covered hands against a usual foe of the species that is out.
   * @param {Side} side
   * @returns {import("./choices.js").Offer}
   */
  offer(side) {
    const {game, engine} = this;
    const view = game.view(side);
    const battle = this.isOpen ? this.local.battle() : game.usual(side);
    const foe = battle.state[side === 1 ? "two" : "one"];
    const odds = engine.oddsOf(battle, side).map((it) => ({...it, knockOut: battle.knockOut(side, it.move)}));
    const {members, active} = view.own ?? {members: [], active: null};
    return {
      offered: game.offered(side),
      members,
      place: active?.place ?? 1,
      going: this.going(side),
      odds,
      foe: foe.active ? foe.members[foe.active.place - 1] : null,
      isGuess: !this.isOpen,
    };
  }

  /**
   * Shows the damage of a move on the bar of the foe's HP.
   * @param {Side} side @param {import("./choices.js").Offer} offer @param {number | null} choice null for none
   */
  preview(side, {odds, foe}, choice) {
    const found = odds.find(({slot}) => choice === slot + 16);
    const range = found ? damageOf(found) : null;
    this.field.preview(side === 1 ? 2 : 1, range && foe ? range.map((damage) => damage / foe.maxHp) : null);
  }

  /**
   * What a side's active member does if it has no choice, in words; empty if no move continues.
   * @param {Side} side
   */
  going(side) {
    const {game} = this;
    const conditions = game.view(side).own?.active?.conditions ?? [];
    if (conditions.includes("recharge")) return "Recharge";
    if (!conditions.some((it) => GOING.includes(it))) return "";
    // A move that is charged is not the last one that was used.
    const move = conditions.includes("charging") ?
        preparedBy(side, game.steps.flatMap((step) => game.events(step, side))) :
        game.view(side).ownPublic.active?.lastMove;
    return move ? `Continue ${move}` : "";
  }

  /**
   * The keys for a side's choices: digits, but for the second of two persons in open hands.
   * @param {Side} side
   */
  keysOf(side) {
    return KEYS[side === 2 && this.isOpen && this.game.persons.length === 2 ? 1 : 0];
  }

  /** The battle in the form of an address. */
  values() {
    const {who} = this.game;
    return {b: toAddress({input: this.local.input()}), p1: who[0], p2: who[1], hands: this.isOpen ? "open" : ""};
  }

  /**
   * In covered hands the address has only the number of updates, and the tab keeps the battle.
   * @param {boolean} [isNew] whether Back returns to the position before it
   */
  toAddress(isNew) {
    const {match} = this;
    if (!match) return this.setup.list();
    if (!(match instanceof LocalMatch)) return setAddress(match.tab, match.address, isNew);
    const {terms, who} = match;
    keepForTab(SAVED, JSON.stringify({terms, who, pairs: match.steps.map((step) => step.pair), isOpen: this.isOpen}));
    const values = this.isBare ? this.values() : null;
    this.code = values?.b ?? "";
    setAddress("play", values ?? {u: this.looked ?? match.steps.length}, isNew);
  }

  /**
   * Handles a key that no element has handled.
   * @param {KeyboardEvent} event
   */
  key(event) {
    // Repeats of a key that is held down are ignored.
    if (!this.match || event.repeat || event.ctrlKey || event.metaKey || event.altKey) return;
    if (this.isMoving) return this.motion.skip();
    if (event.key === "Backspace") return this.undo();
    for (const side of this.showing) {
      const place = this.game.view(side).own?.active?.place ?? 1;
      const found = this.game.offered(side).find((choice) => keyOf(this.keysOf(side), choice, place) === event.key);
      if (found !== undefined) return this.choose(side, found);
    }
  }
}
