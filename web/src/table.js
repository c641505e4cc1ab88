// What the field of a battle has at a server: the clock, draws, forfeits, rematches and the state of the connection.
import {find, make} from "./dom.js";

/**
 * @typedef {import("./remote.js").RemoteMatch} RemoteMatch
 * @typedef {(type: string, fields?: Record<string, unknown>) => void} Ask
 */

/** @param {string} text @param {() => void} click @param {string} [kind] */
function button(text, click, kind = "small") {
  return make("button", {type: "button", class: kind, click}, text);
}

/** The elements around the field. */
export class Table {
  /** @param {Ask} ask @param {() => void} leave returns to the lobby */
  constructor(ask, leave) {
    this.ask = ask;
    this.leave = leave;
    /** @type {RemoteMatch | null} */
    this.match = null;
    /** The question whether to forfeit. */
    this.isAsking = false;
    /** @type {Set<number>} the rooms in which the foe, and the person, want a rematch */
    this.wanting = new Set();
    this.wanted = new Set();
    /** The text about the connection. */
    this.text = "";
    this.title = document.title;
    this.left = make("span");
    this.clock = make("span", {id: "online-clock", role: "timer", hidden: true},
        make("span", {class: "unseen"}, "Your time: "), this.left);
    this.strip = make("div", {id: "online-strip", role: "status"});
    this.draws = button("Offer a draw", () => this.tell("offer_draw"), "");
    this.forfeits = button("Forfeit", () => this.question(true), "");
    find("play-wait", HTMLElement).after(this.clock);
    find("play-cover", HTMLElement).before(this.strip);
    find("play-again", HTMLElement).after(this.draws, this.forfeits);
    window.setInterval(() => this.tick(), 250);
  }

  /**
   * Shows what belongs to the battle that is shown; null for one that is not at the server.
   * @param {RemoteMatch | null} match
   */
  draw(match) {
    if (match?.room !== this.match?.room) this.isAsking = false;
    this.match = match;
    const isGoing = Boolean(match?.side && !match.isOver);
    this.draws.hidden = this.forfeits.hidden = !isGoing;
    this.draws.textContent = match && this.isOffered(match) ? "Accept the draw" : "Offer a draw";
    find("play-rematch", HTMLElement).textContent = match ? "Ask for a rematch" : "Play again";
    if (match && this.wanted.has(match.room)) find("play-rematch", HTMLElement).hidden = true;
    document.title = `${match?.isAwaited ? "Your turn: " : ""}${this.title}`;
    this.drawStrip();
    this.tick();
  }

  /** @param {RemoteMatch} match @returns {boolean} whether the foe offers a draw */
  isOffered({side, draw}) {
    return Boolean(side && draw === 3 - side);
  }

  /** @param {"offer_draw" | "forfeit"} type */
  tell(type) {
    if (this.match) this.ask(type, {room: this.match.room});
    if (this.isAsking) this.question(false);
  }

  /** @param {boolean} isAsking */
  question(isAsking) {
    this.isAsking = isAsking;
    this.drawStrip();
    (isAsking ? this.strip.querySelector("button") : find("play-now", HTMLElement))?.focus();
  }

  /** @param {number} room in which the foe wants a rematch */
  rematch(room) {
    this.wanting.add(room);
    this.drawStrip();
  }

  /** @param {string} text about the connection */
  say(text) {
    this.text = text;
    this.drawStrip();
  }

  /** Lines with buttons; they are redrawn only if they change, so that the focus stays. */
  drawStrip() {
    const lines = this.match ? this.lines(this.match) : [];
    const key = lines.map(([text]) => text).join("\n");
    if (this.strip.dataset.key === key) return;
    this.strip.dataset.key = key;
    this.strip.replaceChildren(...lines.map(
        ([text, ...buttons]) => make("p", {class: "row"}, text ? make("span", {}, text) : null, ...buttons)));
  }

  /** @param {RemoteMatch} match @returns {[string, ...HTMLElement[]][]} */
  lines(match) {
    const {side, draw, room, isOver, why} = match;
    const [one, two] = match.names ?? [];
    const foe = side === 2 ? one : two;
    /** @type {[string, ...HTMLElement[]][]} */
    const found = [];
    if (this.text) found.push([this.text]);
    const back = button("Back to the lobby", () => this.leave());
    if (!side && !isOver) found.push([`You watch ${one}, who is side 1, against ${two}.`, back]);
    if (!isOver && this.isOffered(match))
      found.push([`${foe} offers a draw.`, button("Accept the draw", () => this.tell("offer_draw"))]);
    else if (!isOver && draw && side)
      found.push(["You offer a draw. The offer ends with the turn."]);
    if (this.isAsking && !isOver)
      found.push([
        "Do you forfeit the battle?", button("Forfeit", () => this.tell("forfeit"), "small main"),
        button("Go on", () => this.question(false))
      ]);
    if (isOver && side && this.wanted.has(room))
      found.push([`You have asked ${foe} for a rematch.`]);
    else if (isOver && side && this.wanting.has(room))
      found.push([`${foe} wants a rematch.`]);
    if (isOver) found.push([why, back]);
    return found;
  }

  /** Shows the time that is left for the person's choice. */
  tick() {
    const {match, clock, left} = this;
    clock.hidden = !match?.due || !match.isAwaited || match.isOver;
    if (!match || clock.hidden) return;
    const seconds = Math.max(0, Math.ceil((match.due - Date.now()) / 1000));
    const text = `${Math.floor(seconds / 60)}:${String(seconds % 60).padStart(2, "0")}`;
    if (left.textContent !== text) left.textContent = text;
    clock.classList.toggle("late", seconds < 15);
  }
}
