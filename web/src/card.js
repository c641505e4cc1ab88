// The card of a member. For a member of the own side it has moves, PP and stats, for the foe's what was seen of it.
import {TYPES} from "gen1";

import {effectWords} from "./calculation.js";
import {make} from "./dom.js";
import {badge, STAGES} from "./sides.js";
import {knownMoves} from "./team_lists.js";
import {percentage, STATUS_WORDS} from "./words.js";

/**
 * @typedef {import("./engine.js").Engine} Engine
 * @typedef {import("./sides.js").Shown} Shown
 * @typedef {import("./sides.js").ShownMember} ShownMember
 * @typedef {{ shown: Shown, member: ShownMember, title: string, forecasts: Record<string, string>,
 *   guess: import("gen1").MemberState | null }} Facts a member with its side, whose it is, the odds of its moves in words, by name, and for the foe's
 *   member one with the highest stats and PP that fit what was seen
 */

const MAY_KNOW = "May know, as in usual sets";
/** How many milliseconds a card stays after the pointer has left its button, so that it can reach the card. */
const LEAVE = 500;
/** The factors of the type chart that a card lists, the highest first. */
const FACTORS = [4, 2, 0.5, 0.25, 0];

/** @param {string} title @param {...(Node | string | null)} children */
function part(title, ...children) {
  return make("section", {"data-part": title}, make("h4", {}, title), ...children);
}

/** @param {Engine} engine @param {string} name @param {...string} notes */
function moveItem({tables}, name, ...notes) {
  const {type, power, accuracy} = tables.moves[name];
  const words = [power > 1 ? `power ${power}` : "", `accuracy ${accuracy}%`, effectWords(tables.moves[name]), ...notes];
  const row = words.filter(Boolean);
  return make("li", {}, badge(type), make("strong", {}, ` ${name} `), make("span", {class: "quiet"}, row.join(" · ")));
}

/**
 * The types whose moves do more or less than usual damage to types of a member, by their factor.
 * @param {Engine} engine @param {readonly string[]} types
 */
function chart({gen1}, types) {
  const distinct = /** @type {import("gen1").TypeName[]} */ ([...new Set(types)]);
  const rows = FACTORS.map((factor) => {
    const found = TYPES.filter(
        (type) => distinct.reduce((product, own) => product * gen1.effectiveness(type, own), 1) === factor);
    return found.length ?
        [
          make("dt", {}, `× ${{0.5: "½", 0.25: "¼"}[factor] ?? factor}`),
          make("dd", {}, ...found.flatMap((type) => [badge(type), " "]))
        ] :
        [];
  });
  return make("dl", {class: "chart"}, ...rows.flat());
}

/** @param {ShownMember} member @param {Shown} shown */
function statList(member, shown) {
  if (!member.stats) return null;
  const now = shown.members[shown.active - 1] === member ? shown.stats : null;
  const items = member.stats.map((own, at) => {
    const text = now && now[at] !== own ? `${own}, now ${now[at]}` : String(own);
    return make("li", {}, make("span", {class: "quiet"}, `${STAGES[at]} `), text);
  });
  return part("Stats", make("ul", {class: "stats-of"}, ...items));
}

/** @param {Engine} engine @param {Facts} facts */
function ownParts(engine, {member, shown, forecasts}) {
  const items = member.moves.map(([name, pp]) => {
    const item = moveItem(engine, name, `${pp} PP`);
    if (forecasts[name]) item.append(make("span", {class: "forecast"}, forecasts[name]));
    return item;
  });
  return [items.length ? part("Moves", make("ul", {class: "moves-of"}, ...items)) : null, statList(member, shown)];
}

/** @param {Engine} engine @param {Facts} facts */
function foeParts(engine, {member, guess}) {
  const {species, uses = []} = member;
  const seen = uses.map(([name, count]) => {
    const left = guess?.pp[guess.moves.findIndex((move) => move === name)];
    return moveItem(engine, name, `used ${count === 1 ? "once" : `${count} times`}`,
        left === undefined ? "" : `at most ${left} PP left`);
  });
  const rest =
      uses.length < 4 ? knownMoves(engine, species).filter((name) => !uses.some(([used]) => used === name)) : [];
  const most = guess ? [`HP ${guess.maxHp}`, ...guess.stats.map((stat, at) => `${STAGES[at]} ${stat}`)] : [];
  return [
    part("Moves seen",
        seen.length ? make("ul", {class: "moves-of"}, ...seen) : make("p", {class: "quiet"}, "None yet.")),
    rest.length ? part(MAY_KNOW, make("p", {}, rest.join(", "))) : null,
    most.length ? part("Stats at most", make("p", {}, most.join(" · "))) : null
  ];
}

/** A card that is opened by a press, and shown while the pointer or the focus is on its button. */
export class Card {
  /**
   * @param {Engine} engine @param {HTMLElement} place @param {(side: number, at: number) => Facts | null} factsOf the member at a place
   * @param {HTMLElement | null} log over which the card is shown if it is beside the field; without it, only a press opens the card
   */
  constructor(engine, place, factsOf, log) {
    this.engine = engine;
    this.place = place;
    this.factsOf = factsOf;
    this.log = log;
    /** @type {HTMLElement | null} the button that opened it */
    this.opener = null;
    /** Whether the focus goes back to the opener, which shows no card then. */
    this.isReturning = false;
    this.leaving = 0;
    this.close = make("button", {type: "button", class: "small", click: () => this.hide()}, "Close");
    // The pointer may go from the button to the card.
    place.addEventListener("pointerenter", () => window.clearTimeout(this.leaving));
    place.addEventListener("pointerleave", () => this.opener || this.hide());
    place.addEventListener("focusout", ({relatedTarget}) => {
      if (this.opener && !(relatedTarget instanceof Node && place.contains(relatedTarget))) this.hide();
    });
    document.addEventListener("keydown", (event) => event.key === "Escape" && this.hide());
    document.addEventListener("pointerdown", ({target}) => {
      if (!(target instanceof Element) || place.contains(target) || target.closest("[data-card]")) return;
      this.hide();
    });
  }

  /**
   * Has an element show a member: while the pointer or the focus is on it, and after a press too if it has no other use.
   * @param {HTMLElement} element @param {number} side @param {number} at the place of the member @param {boolean} isPressed
   */
  attach(element, side, at, isPressed) {
    element.dataset.card = `${side} ${at}`;
    for (const type of ["pointerenter", "focus"])
      element.addEventListener(type, (event) => {
        const isTouch = event instanceof PointerEvent && event.pointerType !== "mouse";
        if (!isTouch && !this.isReturning && this.room) this.show(side, at);
      });
    element.addEventListener("blur", () => this.opener || this.hide());
    element.addEventListener("pointerleave", () => {
      window.clearTimeout(this.leaving);
      this.leaving = window.setTimeout(() => this.opener || this.hide(), LEAVE);
    });
    if (isPressed) element.addEventListener("click", () => this.open(element, side, at));
  }

  /** The box of the log, if that is beside the field: there the card covers no button. */
  get room() {
    const box = this.log?.getBoundingClientRect();
    const field = this.log?.parentElement?.querySelector(".arena")?.getBoundingClientRect();
    return box && field && box.left >= field.right ? box : null;
  }

  /** @param {HTMLElement} opener @param {number} side @param {number} at */
  open(opener, side, at) {
    this.show(side, at);
    this.opener = opener;
    this.close.hidden = false;
    this.close.focus();
  }

  /** @param {number} side @param {number} at */
  show(side, at) {
    window.clearTimeout(this.leaving);
    const facts = this.factsOf(side, at);
    if (!facts) return;
    this.opener = null;
    this.close.hidden = true;
    this.place.hidden = false;
    this.place.setAttribute("aria-labelledby", `${this.place.id}-name`);
    const {room} = this;
    const {style} = this.place;
    [style.left, style.top, style.bottom] = room ? [`${room.left}px`, `${room.top}px`, "auto"] : ["", "", ""];
    [style.width, style.maxHeight] = room ? [`${room.width}px`, `${room.height}px`] : ["", ""];
    this.place.replaceChildren(...this.parts(facts).flatMap((it) => it ?? []));
    this.place.scrollTop = 0;
  }

  /** @param {Facts} facts @returns {(Node | null)[]} */
  parts(facts) {
    const {member, title, shown} = facts;
    const isOut = shown.members[shown.active - 1] === member;
    const types = isOut ? shown.types : member.types;
    const health = member.hasPixels ? `${percentage(member.hp, member.max)}% HP` : `${member.hp} of ${member.max} HP`;
    const state = member.hp === 0 ? "fainted" : STATUS_WORDS[member.status] ?? "";
    const head = make("div", {class: "card-head"},
        make("h3", {id: `${this.place.id}-name`}, `${member.species} `,
            make("span", {class: "quiet"}, `L${member.level}`)),
        ...[...new Set(types)].map(badge), this.close);
    const line = [title, health, state, isOut ? "out" : "", ...(isOut ? shown.conditions : [])].filter(Boolean);
    return [
      head, make("p", {}, line.join(" · ")),
      ...(member.hasPixels ? foeParts(this.engine, facts) : ownParts(this.engine, facts)),
      part("Damage that it takes", chart(this.engine, types))
    ];
  }

  hide() {
    if (this.place.hidden) return;
    const {opener} = this;
    this.opener = null;
    const hadFocus = this.place.contains(document.activeElement);
    this.place.hidden = true;
    this.isReturning = true;
    if (hadFocus) opener?.focus();
    this.isReturning = false;
  }
}
