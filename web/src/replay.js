// Replay: a recorded battle, forward and back by update and by turn.
import {link, setAddress} from "./address.js";
import {Card} from "./card.js";
import {areOut, sceneOf, standingIn, standingSeen} from "./carried.js";
import {find, guarded, inField, keepingFocus, make, Problem} from "./dom.js";
import {Field, HIDDEN, preparedBy} from "./field.js";
import {isShort, mayBeShort, ofAddress, toAddress} from "./inputs.js";
import {lineItems} from "./log.js";
import {Motion} from "./motion.js";
import {Recording} from "./recording.js";
import {shareButtons} from "./share.js";
import {showSide, watched, whole} from "./sides.js";
import {Slices} from "./slices.js";
import {OUTCOMES} from "./words.js";

/** @type {Record<string, number>} how many updates a second are shown without motion, by the speed */
const RATES = {
  slow: 0.5,
  normal: 1,
  fast: 2,
  5: 5,
  20: 20
};
/** The milliseconds between updates that are shown with motion. */
const REST = 350;

/** The part of the page that replays. */
export class Replay {
  /**
   * @param {import("./engine.js").Engine} engine
   * @param {import("./inputs.js").Inputs} inputs
   * @param {(scene: import("./carried.js").Scene) => void} calculate shows the members that are out in the calculator
   */
  constructor(engine, inputs, calculate) {
    this.engine = engine;
    this.calculate = calculate;
    this.inputs = inputs;
    /** @type {Recording | null} */
    this.recording = null;
    this.reading = new Slices();
    this.writing = new Slices();
    this.at = 0;
    this.timer = 0;
    this.code = "";
    this.isHeld = false;
    /** The view that a person wants; a log has only that of a spectator. */
    this.wanted = "all";
    this.see = find("replay-see", HTMLSelectElement);
    this.raw = find("replay-raw", HTMLSelectElement);
    this.speed = find("replay-speed", HTMLSelectElement);
    this.card = new Card(engine, find("replay-card", HTMLElement), (side, at) => this.factsOf(side, at),
        document.querySelector(".watch-lines"));
    this.field = new Field(engine, find("replay-field", HTMLElement), this.card);
    this.motion = new Motion(this.field, this.speed, find("sounds", HTMLInputElement));
    this.slider = find("replay-slider", HTMLInputElement);
    this.turn = find("replay-turn", HTMLInputElement);
    this.listen();
  }

  listen() {
    const click = (/** @type {string} */ id, /** @type {() => void} */ work) =>
        find(id, HTMLButtonElement).addEventListener("click", work);
    click("replay-first", () => this.go(0, true));
    click("replay-turn-back", () => this.goTurns(-1));
    click("replay-back", () => this.go(this.at - 1, true));
    click("replay-play", () => this.playOrPause());
    click("replay-forward", () => this.go(this.at + 1, true));
    click("replay-turn-forward", () => this.goTurns(1));
    click("replay-last", () => this.go(Infinity, true));
    click("replay-example", () => void this.example());
    click("replay-calculate", () => areOut(this.field.shown) && this.calculate(this.scene));
    click("replay-read", () => void guarded(() => {
      const text = find("replay-text", HTMLTextAreaElement);
      return inField(text, () => this.show(this.inputs.parse(text.value), {at: 1}));
    }));
    this.slider.addEventListener("input", () => this.go(Number(this.slider.value), true));
    this.turn.addEventListener("change", () => this.go(this.recording?.updateOf(Number(this.turn.value)) ?? 0, true));
    this.see.addEventListener("change", () => (this.wanted = this.see.value));
    for (const select of [this.see, this.raw]) select.addEventListener("change", () => this.go(this.at));
    find("replay-whole", HTMLDetailsElement).addEventListener("toggle", () => this.drawWhole());
    const file = find("replay-file", HTMLInputElement);
    file.addEventListener("change", () => void guarded(async () => {
      const chosen = file.files?.[0];
      file.value = "";
      if (chosen) await this.open(chosen);
    }));
    shareButtons(find("replay-share", HTMLElement), () => {
      if (!this.recording) throw new Problem("There is no battle yet.");
      const log = this.recording.wholeLog();
      // A battle shared in the spectator's view contains no seed, and no more of the teams than the log.
      const recorded = this.see.value === "all" ? this.recording.recorded : {log, sizes: this.recording.sizes};
      const values = this.see.value === "all" ? this.values() : {...this.values(), b: toAddress(recorded), see: ""};
      return {recorded, log, inputs: this.inputs, link: link("replay", values)};
    });
  }

  /** Shows the page's own example. */
  example() {
    return guarded(() => this.show(this.inputs.parse(find("example", HTMLScriptElement).text), {at: 1}));
  }

  /**
   * Opens a person's file.
   * @param {File} file
   */
  async open(file) {
    await this.show(await this.inputs.readFile(file), {at: 1});
  }

  /**
   * Shows a battle. If it cannot be shown, the previous one is kept.
   * @param {import("./inputs.js").Recorded} recorded
   * @param {{ at: number, turn?: number, code?: string, isHeld?: boolean }} how the update that is shown first, or the turn, the battle's
   *   text in an address, and whether the page's file holds the battle
   * @returns {void | Promise<void>}
   */
  show(recorded, how) {
    const recording = new Recording(this.engine, recorded);
    return this.reading.run(recording.steps(), () => this.put(recording, how));
  }

  /** @param {Recording} recording @param {{ at: number, turn?: number, code?: string, isHeld?: boolean }} how as show takes it */
  put(recording, how) {
    const {recorded} = recording;
    this.recording = recording;
    this.at = 0;
    this.code = how.code ?? (mayBeShort(recorded) ? toAddress(recorded) : "");
    this.isHeld = Boolean(how.isHeld);
    this.pause();
    const isLog = "log" in recorded;
    this.see.options[0].disabled = isLog;
    this.see.value = isLog ? "spectator" : this.wanted;
    keepingFocus(find("replay-now", HTMLElement), () => {
      find("replay-stage", HTMLElement).hidden = false;
      find("replay-open", HTMLDetailsElement).open = false;
    });
    find("replay-fault", HTMLElement).textContent = this.recording.fault;
    find("replay-input", HTMLButtonElement).textContent = isLog ? "Save as JSON" : "Save the input";
    this.slider.max = String(this.recording.last);
    this.turn.max = String(this.recording.turn(this.recording.last));
    this.go(how.turn ? recording.updateOf(how.turn) : how.at);
  }

  /**
   * Shows the battle in an address.
   * @param {URLSearchParams} values
   * @param {string} held the JSON that the page holds
   * @returns {void | Promise<void>}
   */
  route(values, held) {
    const code = values.get("b") ?? "";
    this.wanted = values.get("see") === "spectator" ? "spectator" : "all";
    if (!this.see.options[0].disabled) this.see.value = this.wanted;
    this.raw.value = values.get("lines") === "raw" ? "raw" : "words";
    const [at, turn] = [Number(values.get("u") ?? 1), Number(values.get("t") ?? 0)];
    if (code && code !== this.code) return this.show(ofAddress(code, this.inputs), {at, turn, code});
    if (!code && held && !this.recording) return this.show(this.inputs.parse(held), {at, turn, code: "", isHeld: true});
    if (this.recording) this.go(turn ? this.recording.updateOf(turn) : at);
  }

  /** @param {number} at @param {boolean} [isStep] whether Back returns to the turn before it */
  go(at, isStep = false) {
    if (!this.recording) return;
    const turn = this.recording.turn(this.at);
    this.motion.stop();
    this.at = Math.max(0, Math.min(this.recording.last, Math.trunc(at) || (at > 0 ? this.recording.last : 0)));
    if (this.at === this.recording.last) this.pause();
    this.draw();
    this.toAddress(isStep && turn !== this.recording.turn(this.at));
  }

  /** @param {number} turns */
  goTurns(turns) {
    if (!this.recording) return;
    const turn = this.recording.turn(this.at) + turns;
    const [found, back, on] = [this.recording.updateOf(turn), this.at - 1, this.at + 1];
    this.go(turn < 0 ? 0 : turns < 0 ? Math.min(found, back) : Math.max(found, on), true);
  }

  /** Begins to play, unless the person wants no motion. */
  start() {
    if (!this.timer && !window.matchMedia("(prefers-reduced-motion: reduce)").matches) this.playOrPause();
  }

  playOrPause() {
    if (this.timer || !this.recording) return this.pause();
    if (this.at === this.recording.last) this.go(0);
    find("replay-play", HTMLButtonElement).textContent = "Pause";
    this.timer = window.setTimeout(() => void this.step(), 1);
  }

  /** Shows the next update, event by event if there is time, and plans the one after it. */
  async step() {
    const {motion: {share}, recording} = this;
    if (share && recording) {
      const [{events}, list] = [recording.frames[this.at + 1], find("replay-lines", HTMLElement)];
      const items = this.items(this.at + 1);
      list.replaceChildren();
      const isWhole = await this.motion.play(events, (event) => list.append(items[events.indexOf(event)]));
      // Another position was chosen, or the replay was paused.
      if (!isWhole && !this.timer) return;
      if (isWhole) this.go(this.at + 1);
    } else
      this.go(this.at + 1);
    if (this.timer)
      this.timer = window.setTimeout(() => void this.step(), share ? REST : 1000 / (RATES[this.speed.value] ?? 1));
  }

  pause() {
    window.clearTimeout(this.timer);
    this.timer = 0;
    if (this.motion.isPlaying) {
      this.motion.stop();
      this.draw();
    }
    find("replay-play", HTMLButtonElement).textContent = "Play";
  }

  /**
   * The shown values of a side.
   * @param {number} side
   */
  shown(side) {
    const {frames, recorded, told, inPixels} = /** @type {Recording} */ (this.recording);
    const {battle, view} = frames[this.at];
    const {tables} = this.engine;
    if (battle && this.see.value === "all") return whole(tables, this.engine.state(battle).sides[side - 1]);
    if ("input" in recorded && frames[0].battle) {
      // A spectator knows both teams from the beginning.
      const {members} = this.engine.state(frames[0].battle).sides[side - 1];
      return watched(
          tables, view.sides[side - 1], members.map(({species, level, maxHp}) => ({species, level, max: maxHp})));
    }
    const size = "log" in recorded && recorded.sizes ? recorded.sizes[side - 1] : 0;
    const places =
        Math.max(size, ...[...told.keys()].filter((key) => key[0] === String(side)).map((key) => Number(key[2])));
    return watched(tables, view.sides[side - 1], Array.from({length: places}, (_, place) => {
      const known = told.get(`${side} ${place + 1}`);
      return known && known.since <= this.at ? {...known, hasPixels: inPixels.includes(side)} : null;
    }));
  }

  /**
   * The location of a side's active member, if it is out of reach after the update.
   * @param {number} side
   * @returns {import("./field.js").Hidden}
   */
  hiddenOf(side) {
    return HIDDEN[preparedBy(side, this.recording?.frames[this.at].events ?? [])] ?? "";
  }

  /**
   * The facts that a card shows about a member.
   * @param {number} side @param {number} at its place
   * @returns {import("./card.js").Facts | null}
   */
  factsOf(side, at) {
    const shown = this.field.shown[side - 1];
    const member = shown?.members[at - 1];
    return member?.isKnown ? {shown, member, title: `Of side ${side}`, guess: null, forecasts: {}} : null;
  }

  /**
   * What the calculator takes from the position.
   * @returns {import("./carried.js").Scene}
   */
  get scene() {
    const {recorded, frames} = /** @type {Recording} */ (this.recording);
    const {battle, view} = frames[this.at];
    const sides = battle && this.see.value === "all" ? this.engine.state(battle).sides : null;
    const {shown} = this.field;
    const teams = "input" in recorded ? [recorded.input.one, recorded.input.two] : [];
    const standing = (/** @type {number} */ side, /** @type {number} */ place) => (
        sides ? standingIn(sides[side], place, teams[side][place - 1]) : standingSeen(this.engine, shown[side], place));
    const guess = sides ? "" : " Both have their highest possible stats and the moves of a usual set.";
    return sceneOf(
        shown, ["side 1", "side 2"], standing, {tab: "replay", text: `Turn ${view.turn} of the replay.${guess}`});
  }

  draw() {
    if (!this.recording) return;
    const {frames, last} = this.recording;
    const frame = frames[this.at];
    const sides = [1, 2].map((side) => this.shown(side));
    this.field.show(sides, ["Side 1", "Side 2"], 1, [1, 2].map((side) => this.hiddenOf(side)));
    sides.forEach((shown, at) => showSide(find(`replay-side-${at + 1}`, HTMLElement), at + 1, this.engine, shown));
    const outcome = OUTCOMES[frame.view.outcome];
    find("replay-now", HTMLElement).textContent =
        `${this.at ? `Turn ${frame.view.turn}` : "Before the battle"}, update ${this.at} of ${last}${
            outcome ? `. ${outcome}.` : ""}`;
    this.slider.value = String(this.at);
    this.slider.setAttribute("aria-valuetext", `update ${this.at} of ${last}`);
    this.turn.value = String(frame.view.turn);
    for (const id of ["first", "turn-back", "back"])
      find(`replay-${id}`, HTMLButtonElement).setAttribute("aria-disabled", String(this.at === 0));
    for (const id of ["last", "turn-forward", "forward"])
      find(`replay-${id}`, HTMLButtonElement).setAttribute("aria-disabled", String(this.at === last));
    find("replay-calculate", HTMLElement).setAttribute("aria-disabled", String(!areOut(sides)));
    const items = this.items(this.at);
    find("replay-lines", HTMLElement).replaceChildren(...(items.length ? items : [make("li", {class: "quiet"},
                                                                                     "No member has been sent out.")]));
    this.drawWhole();
  }

  /**
   * The lines of an update.
   * @param {number} at
   */
  items(at) {
    const recording = /** @type {Recording} */ (this.recording);
    const {events} = recording.frames[at];
    if (this.raw.value === "raw") return lineItems(events, recording.lines(at));
    return lineItems(events, recording.sentences(at), this.see.value === "all" ? recording.chances(at) : []);
  }

  /** All lines so far, while they are shown. */
  drawWhole() {
    const details = find("replay-whole", HTMLDetailsElement);
    if (!details.open || !this.recording) return;
    const place = find("replay-whole-lines", HTMLElement);
    place.replaceChildren();
    void this.writing.run(this.writeWhole(place), () => {});
  }

  /** @param {HTMLElement} place @returns {Generator<number>} */
  * writeWhole(place) {
    const frames = this.recording?.frames.slice(0, this.at + 1) ?? [];
    for (const at of frames.keys()) {
      place.append(...this.items(at));
      yield at / frames.length;
    }
  }

  /** The battle and the position in the form of an address. */
  values() {
    return {
      b: this.isHeld || !isShort(this.code) ? "" : this.code,
      u: this.at,
      see: this.wanted === "spectator" ? "spectator" : "",
      lines: this.raw.value === "raw" ? "raw" : "",
    };
  }

  /** @param {boolean} [isNew] whether Back returns to the position before it */
  toAddress(isNew) {
    if (this.recording) setAddress("replay", this.values(), isNew);
  }

  /**
   * Handles a key that no element has handled.
   * @param {KeyboardEvent} event
   */
  key(event) {
    /** @type {Record<string, () => void>} */
    const keys = {
      ArrowLeft: () => (event.shiftKey ? this.goTurns(-1) : this.go(this.at - 1, true)),
      ArrowRight: () => (event.shiftKey ? this.goTurns(1) : this.go(this.at + 1, true)),
      Home: () => this.go(0, true),
      End: () => this.go(Infinity, true),
      " ": () => this.playOrPause(),
    };
    // With these modifiers a key belongs to the browser, for example to go back in the history.
    if (event.altKey || event.ctrlKey || event.metaKey) return;
    if (!this.recording || !keys[event.key]) return;
    event.preventDefault();
    if (event.repeat && event.key === " ") return;
    keys[event.key]();
  }
}
