// The field: both active members with their tokens, and the changes that an event makes.
import {STATS} from "gen1";

import {make} from "./dom.js";
import {badge, STAGES} from "./sides.js";
import {token} from "./tokens.js";
import {percentage, STATUS_TAGS, STATUS_WORDS} from "./words.js";

/**
 * @typedef {import("./sides.js").Shown} Shown
 * @typedef {import("./sides.js").ShownMember} ShownMember
 * @typedef {import("./engine.js").GameEvent} GameEvent
 * @typedef {"" | "under" | "above"} Hidden where a member is that cannot be reached
 */

/** @type {Partial<Record<import("gen1").Volatile, string>>} */
const STARTED = {
  confusion: "Confused",
  bide: "Bide",
  substitute: "Substitute",
  "leech seed": "Seeded",
  mist: "Mist",
  "focus energy": "Focus Energy",
  "light screen": "Light Screen",
  reflect: "Reflect",
  disable: "A move is disabled",
  rage: "Rage",
};
/**
 * Where a move that was prepared hides its user.
 * @type {Record<string, Hidden>}
 */
export const HIDDEN = {
  Dig: "under",
  Fly: "above"
};

/**
 * The last move that a side prepares in some events; empty if it prepares none.
 * @param {number} side @param {GameEvent[]} events
 */
export function preparedBy(side, events) {
  let move = "";
  for (const event of events)
    if (event.kind === "prepare" && event.side === side) move = event.move;
  return move;
}

/** One side of the field. */
class Stand {
  /** @param {import("./engine.js").Engine} engine @param {number} side @param {import("./card.js").Card | null} card shows its members */
  constructor(engine, side, card) {
    this.engine = engine;
    this.side = side;
    this.card = card;
    this.species = "";
    this.hp = -1;
    this.counting = 0;
    this.name = make("strong");
    this.level = make("span", {class: "quiet"});
    this.types = make("span", {class: "types"});
    this.status = make("span");
    this.filled = make("span");
    this.lost = [make("span", {class: "loses"}), make("span", {class: "may-lose"})];
    this.bar = make("span", {class: "bar", role: "meter", "aria-valuemin": 0}, this.filled, ...this.lost);
    this.number = make("span", {class: "hp"});
    this.chips = make("ul", {class: "chips", "aria-label": "Stages and conditions"});
    this.party = make("ol", {class: "party"});
    this.used = make("p", {class: "used"});
    this.figure = make("div", {class: "figure"});
    this.title = make("span", {class: "whose"});
    const plate = make("div", {class: "plate"}, make("p", {class: "head"}, this.name, " ", this.level, " ", this.types),
        make("p", {class: "health"}, this.status, this.bar, this.number), this.chips, this.used,
        make("p", {class: "crew"}, this.title, this.party));
    this.place = make("section", {class: `stand side-${side}`}, plate, this.figure);
  }

  /** @param {string} title @param {Shown} shown @param {Hidden} hidden @param {boolean} isFar */
  draw(title, shown, hidden, isFar) {
    const member = shown.members[shown.active - 1];
    this.place.setAttribute("aria-label", title);
    this.place.classList.toggle("far", isFar);
    this.title.textContent = title;
    this.drawParty(title, shown);
    this.place.classList.toggle("empty", !member);
    if (!member) return;
    this.name.textContent = member.species;
    this.level.textContent = member.level === 100 ? "" : `L${member.level}`;
    const types = [...new Set(shown.types)];
    if (this.types.textContent !== types.join("")) this.types.replaceChildren(...types.map(badge));
    this.drawStatus(member);
    this.drawHp(member);
    this.drawChips(shown);
    this.used.textContent = member.used?.length ? `Seen: ${member.used.join(", ")}` : "";
    this.used.title = this.used.textContent;
    this.drawFigure(member, shown, hidden);
  }

  /** @param {ShownMember} member */
  drawStatus(member) {
    const isFallen = member.hp === 0;
    this.status.className = isFallen || member.status ? `status ${isFallen ? "fallen" : member.status}` : "";
    const tag = isFallen ? "fnt" : member.status;
    this.status.replaceChildren(...(tag ?
            [
              make("span", {class: "long"}, isFallen ? "fainted" : STATUS_WORDS[tag]),
              make("span", {class: "short", "aria-hidden": "true"}, tag.toUpperCase())
            ] :
            []));
  }

  /** @param {ShownMember} member */
  drawHp(member) {
    this.preview(null);
    const share = percentage(member.hp, member.max);
    this.filled.className = share > 50 ? "high" : share > 20 ? "middle" : "low";
    this.filled.style.width = `${share}%`;
    const text = (/** @type {number} */ hp) =>
        (member.hasPixels ? `${percentage(hp, member.max)}%` : `${hp}/${member.max}`);
    this.bar.setAttribute("aria-label", `HP of ${member.species}`);
    this.bar.setAttribute("aria-valuemax", String(member.hasPixels ? 100 : member.max));
    this.bar.setAttribute("aria-valuenow", String(member.hasPixels ? share : member.hp));
    this.bar.setAttribute("aria-valuetext", member.hasPixels ? `${share} per cent` : `${member.hp} of ${member.max}`);
    this.number.textContent = text(member.hp);
    this.hp = member.hp;
    this.text = text;
  }

  /**
   * Counts the number of HP from its old value.
   * @param {number} from @param {number} to @param {number} time in milliseconds
   */
  count(from, to, time) {
    const begun = performance.now();
    const step = () => {
      const share = Math.min(1, (performance.now() - begun) / time);
      if (this.hp !== to) return;
      this.number.textContent = this.text?.(Math.round(from + (to - from) * share)) ?? "";
      if (share < 1) this.counting = requestAnimationFrame(step);
    };
    cancelAnimationFrame(this.counting);
    if (time) step();
  }

  /**
   * Shows on the bar the HP that a hit takes: those of the least damage, and those that only more takes.
   * @param {number[] | null} range the least and the most damage as shares of the maximum HP; null for none
   */
  preview(range) {
    const now = parseFloat(this.filled.style.width) / 100;
    const [least, most] = (range ?? [0, 0]).map((share) => Math.min(now, share));
    [[now - least, now], [now - most, now - least]].forEach(([from, to], at) => {
      this.lost[at].hidden = !range;
      this.lost[at].style.left = `${100 * from}%`;
      this.lost[at].style.width = `${100 * (to - from)}%`;
    });
  }

  /** @param {Shown} shown */
  drawChips(shown) {
    const stages = shown.stages.flatMap(
        (stage, at) => (stage ? [`${STAGES[at]} ${stage > 0 ? "+" : "−"}${Math.abs(stage)}`] : []));
    const texts = [...stages, ...shown.conditions];
    if (texts.join() !== [...this.chips.children].map((it) => it.textContent).join())
      this.chips.replaceChildren(...texts.map((text) => make("li", {}, text)));
  }

  /** @param {string} title @param {Shown} shown */
  drawParty(title, shown) {
    this.party.setAttribute("aria-label", `Members of ${title}`);
    const key =
        shown.members.map(({species, hp, status, isKnown}) => `${species} ${isKnown && hp === 0} ${status}`).join();
    if (this.party.dataset.key === key) return;
    this.party.dataset.key = key;
    const focused = [...this.party.children].findIndex((it) => it.contains(document.activeElement));
    this.party.replaceChildren(...shown.members.map((member, at) => make("li", {}, this.ball(member, at + 1))));
    /** @type {HTMLElement | null | undefined} */ (this.party.children[focused]?.querySelector("button"))?.focus();
  }

  /**
   * A member of the party: its token, with its status as a word; a button if there is a card.
   * @param {ShownMember} member @param {number} place
   */
  ball(member, place) {
    const {species, hp, status, isKnown} = member;
    const isFallen = isKnown && hp === 0;
    const state = isFallen ? "fainted" : STATUS_WORDS[status] ?? "";
    const text = isKnown ? `${species}${state && `, ${state}`}` : "not seen yet";
    const mark = isFallen ? "fnt" : status;
    const inner = isKnown ? [make("span", {class: `figure ${status}`}, token(this.engine, species))] : ["?"];
    const name = `ball ${mark}${isKnown ? "" : " unknown"}`;
    const tag = mark ? make("span", {class: `tag ${mark}`, "aria-hidden": "true"}, mark.toUpperCase()) : null;
    const words = make("span", {class: "unseen"}, text);
    if (!isKnown || !this.card) return make("span", {class: name, title: text}, ...inner, tag, words);
    const made = make("button", {type: "button", class: name, title: text}, ...inner, tag, words);
    this.card.attach(made, this.side, place, true);
    return made;
  }

  /** @param {ShownMember} member @param {Shown} shown @param {Hidden} hidden */
  drawFigure(member, shown, hidden) {
    if (this.species !== member.species || !this.figure.firstChild)
      this.figure.replaceChildren(token(this.engine, member.species));
    this.species = member.species;
    const states = [
      member.hp ? member.status : "fallen", hidden,
      shown.conditions.some((it) => it.startsWith("Substitute")) ? "substitute" : ""
    ];
    this.figure.className = ["figure", ...states].filter(Boolean).join(" ");
  }

  /**
   * Moves the token for an event; a text rises from it.
   * @param {string} how "lunge", "hit", "enter", "rise", "sink", "fall"
   * @param {number} time in milliseconds
   * @param {string} [text]
   */
  move(how, time, text) {
    const [way, up] = [this.place.classList.contains("far") ? -1 : 1, -1];
    /** @type {Record<string, Keyframe[]>} */
    const frames = {
      lunge: [{}, {transform: `translate(${way * 14}%, ${way * up * 10}%)`}, {}],
      hit: [{}, {transform: "translateX(-5%)", opacity: 0.5}, {transform: "translateX(5%)"}, {opacity: 0.5}, {}],
      enter: [{transform: `translateX(${- way * 60}%) scale(.3)`, opacity: 0}, {}],
      rise: [{}, {transform: "translateY(-8%) scale(1.06)"}, {}],
      sink: [{}, {transform: "translateY(5%) scale(.96)"}, {}],
      fall: [{}, {transform: "translateY(40%) scale(.8)", opacity: 0}],
    };
    if (how) this.figure.animate(frames[how], {duration: time, easing: "ease-in-out"});
    if (!text) return;
    const label = make("span", {class: "floating", "aria-hidden": "true"}, text);
    this.place.append(label);
    label
        .animate(
            [
              {opacity: 0, transform: "translateY(40%)"}, {opacity: 1, transform: "none", offset: 0.25},
              {opacity: 1, transform: "none", offset: 0.8}, {opacity: 0, transform: "translateY(-60%)"}
            ],
            {duration: Math.max(time * 1.4, 500)})
        .finished.then(() => label.remove(), () => label.remove());
  }
}

/** @type {Record<string, string>} */
const FLOATING = {
  crit: "Critical!",
  "super effective": "Super effective!",
  resisted: "Not very effective",
  immune: "No effect",
  miss: "Missed",
  fail: "Failed",
  "one hit knock out": "One-hit knock-out!",
};

/** The field of a battle. */
export class Field {
  /** @param {import("./engine.js").Engine} engine @param {HTMLElement} place @param {import("./card.js").Card | null} [card] shows members */
  constructor(engine, place, card = null) {
    this.engine = engine;
    this.stands = [new Stand(engine, 1, card), new Stand(engine, 2, card)];
    /** @type {Shown[]} */
    this.shown = [];
    /** @type {string[]} */
    this.titles = [];
    /** @type {Hidden[]} */
    this.hidden = ["", ""];
    this.near = 1;
    this.place = place;
    place.replaceChildren(...this.stands.map((stand) => stand.place));
  }

  /**
   * Shows both sides.
   * @param {Shown[]} shown @param {string[]} titles @param {number} near the side that is shown below @param {Hidden[]} hidden
   */
  show(shown, titles, near, hidden) {
    [this.shown, this.titles, this.near, this.hidden] = [shown, titles, near, hidden];
    for (const side of [1, 2]) this.draw(side);
  }

  /** @param {number} side */
  draw(side) {
    this.stands[side - 1].draw(this.titles[side - 1], this.shown[side - 1], this.hidden[side - 1], side !== this.near);
  }

  /** @param {number} side @param {number[] | null} range as Stand.preview takes it */
  preview(side, range) {
    this.stands[side - 1].preview(range);
  }

  /**
   * Shows the changes of an event, and moves the token that it is about.
   * @param {GameEvent} event @param {number} time in milliseconds
   */
  apply(event, time) {
    if (event.kind === "clear all")
      for (const shown of this.shown) shown.stages = shown.stages.map(() => 0);
    if (!("side" in event)) return;
    const stand = this.stands[event.side - 1];
    const before = stand.hp;
    const [how, text] = this.change(event, this.shown[event.side - 1]);
    this.draw(event.side);
    if (!time) return;
    stand.move(how, time, text);
    if (event.kind === "damage" || event.kind === "heal") stand.count(before, stand.hp, time * 0.8);
  }

  /**
   * Applies an event of a side to its shown values, and returns how the token moves, and a text.
   * @param {GameEvent & { side: number }} event @param {Shown} shown
   * @returns {[string, string?]}
   */
  change(event, shown) {
    const member = shown.members[shown.active - 1];
    switch (event.kind) {
      case "switch":
        this.send(event, shown);
        return ["enter"];
      case "move":
        this.hidden[event.side - 1] = "";
        if (member?.used && !member.used.includes(event.move)) member.used.push(event.move);
        return ["lunge", event.move];
      case "prepare":
        this.hidden[event.side - 1] = HIDDEN[event.move] ?? "";
        return ["rise", event.move];
      case "damage":
      case "heal":
        heal(member, event);
        return [event.kind === "heal" ? "rise" : "hit"];
      case "faint":
        if (member) [member.hp, member.status] = [0, ""];
        return ["fall"];
      default:
        return member ? this.affect(event, shown, member) : [""];
    }
  }

  /** @param {GameEvent} event @param {Shown} shown @param {ShownMember} member @returns {[string, string?]} */
  affect(event, shown, member) {
    switch (event.kind) {
      case "status":
        member.status = STATUS_TAGS[event.status];
        return ["sink", STATUS_WORDS[member.status]];
      case "cure":
        member.status = "";
        return ["rise", "cured"];
      case "boost":
      case "unboost": {
        const [at, by] = [STATS.indexOf(event.stat), event.kind === "boost" ? event.stages : -event.stages];
        shown.stages =
            shown.stages.map((stage, place) => (place === at ? Math.max(-6, Math.min(6, stage + by)) : stage));
        return [by > 0 ? "rise" : "sink", `${by > 0 ? "▲" : "▼"} ${STAGES[at]}`];
      }
      case "start":
      case "end":
      case "activate": {
        const name = STARTED[event.volatile];
        if (event.kind === "start" && name) shown.conditions = [...new Set([...shown.conditions, name])];
        if (event.kind === "end" && name) shown.conditions = shown.conditions.filter((it) => !it.startsWith(name));
        return [event.kind === "end" ? "sink" : "rise", name];
      }
      default:
        return ["", FLOATING[event.kind]];
    }
  }

  /** @param {Extract<GameEvent, { kind: "switch" }>} event @param {Shown} shown */
  send(event, shown) {
    const {side, place, species, level} = event;
    const types = this.engine.tables.species[species];
    const known = shown.members[place - 1];
    if (!known?.isKnown) {
      shown.members = shown.members.map((it, at) => at === place - 1 ?
              {species, types, level, hp: 0, max: 0, status: "", moves: [], used: [], isKnown: true, hasPixels: true} :
              it);
    }
    Object.assign(shown, {active: place, types, stages: Array(6).fill(0), conditions: []});
    heal(shown.members[place - 1], event);
    this.hidden[side - 1] = "";
  }
}

/**
 * Sets a member's HP and status from an event.
 * @param {ShownMember | undefined} member
 * @param {{ hp: number, maxHp: number, status: import("gen1").Status }} health
 */
function heal(member, {hp, maxHp, status}) {
  if (!member) return;
  [member.hp, member.max] = [hp, maxHp];
  member.status = hp ? STATUS_TAGS[status] : "";
}
