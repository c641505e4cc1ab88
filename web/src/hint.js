// A hint for a person: what a search finds in the knowledge of the person's side.
import {find, guarded, make} from "./dom.js";
import {randomSeed} from "./match.js";

/**
 * @typedef {import("./match.js").LocalMatch} LocalMatch
 * @typedef {import("./match.js").Side} Side
 */

/** The level of the search, and how many choices have their lines. */
const [LEVEL, LINES] = ["level3", 2];

/** @param {number} share */
function percent(share) {
  return `${Math.round(100 * share)}%`;
}

/**
 * A choice with its reasons.
 * @param {import("gen1/search").Considered} it
 */
function considered({words, probability, value, line}) {
  const facts = [`chosen ${percent(probability)} of the time`];
  if (value !== null) facts.push(`wins ${percent(value)}`);
  const steps = line.map(([own, foe]) => `${own} (foe: ${foe})`).join(", then ");
  return make("li", {}, make("strong", {}, words), `: ${facts.join(", ")}. `, make("span", {class: "quiet"}, steps));
}

/** The button and the text of a hint. */
export class Hint {
  /**
   * @param {import("./players.js").Players} players
   * @param {() => { match: LocalMatch, side: Side } | null} asking the battle and the side that chooses; null if there is none
   */
  constructor(players, asking) {
    this.players = players;
    this.asking = asking;
    this.button = find("play-hint", HTMLButtonElement);
    this.place = find("play-hinted", HTMLElement);
    /** How many hints were asked for or dropped. */
    this.count = 0;
    this.button.addEventListener("click", () => void guarded(() => this.ask()));
  }

  /** Hides the hint of an earlier position, and the button where no side chooses. */
  draw() {
    this.button.hidden = !this.asking();
    this.hide();
  }

  hide() {
    this.count++;
    this.place.hidden = true;
    this.place.replaceChildren();
    this.button.setAttribute("aria-expanded", "false");
  }

  /** Shows a hint, or hides the one that is shown. */
  async ask() {
    const asking = this.asking();
    if (!asking || !this.place.hidden) return this.hide();
    const mine = ++this.count;
    this.place.hidden = false;
    this.button.setAttribute("aria-expanded", "true");
    this.place.replaceChildren("Thinking.");
    const {match, side} = asking;
    const question = {...match.question(side, randomSeed()[0]), player: LEVEL, sight: match.sight(side), battle: null};
    const {value, deviation, choices} = await this.players.thought(question);
    if (mine !== this.count) return;
    const [wins, error] = [value, 2 * deviation].map(percent);
    this.place.replaceChildren(make("p", {}, `You are expected to win ${wins} of such battles, give or take ${error}.`),
        make("ul", {}, ...choices.slice(0, LINES).map(considered)));
  }
}
