// Events as sentences of the library, and words and numbers that several parts of the page show.

/** @typedef {import("./engine.js").GameEvent} GameEvent */

/**
 * The statuses as tags.
 * @type {Record<import("gen1").Status, string>}
 */
export const STATUS_TAGS = {
  none: "",
  sleep: "slp",
  poison: "psn",
  burn: "brn",
  freeze: "frz",
  paralysis: "par"
};
/** @type {Record<string, string>} */
export const STATUS_WORDS = {
  slp: "asleep",
  psn: "poisoned",
  brn: "burned",
  frz: "frozen",
  par: "paralysed"
};
/** @type {Record<string, string>} */
export const OUTCOMES = {
  ongoing: "",
  "win one": "Side 1 has won",
  "win two": "Side 2 has won",
  tie: "A tie",
  "fault 1": "The battle stopped by a division by 0",
  "fault 2": "The battle stopped at a Psywave of level 1",
};

/**
 * The sentence of the next event by a narrator, with the reason why a move fails, if that is known.
 * @param {import("gen1").Narrator} narrator @param {GameEvent} event
 */
export function told(narrator, {code, why}) {
  const [sentence] = narrator.sentences(code);
  return why ? `${sentence.slice(0, -1)}: ${why}.` : sentence;
}

/**
 * Which side an event is about: 1, 2 or 0.
 * @param {GameEvent} event
 */
export function sideOf(event) {
  return "side" in event ? event.side : 0;
}

/**
 * HP in per cent, at least 1 while there are any.
 * @param {number} hp @param {number} most
 */
export function percentage(hp, most) {
  return most ? Math.max(Math.floor((100 * hp) / most), hp ? 1 : 0) : 0;
}

/**
 * A range, or one number if both ends are equal.
 * @param {string | number} least
 * @param {string | number} most
 */
export function span(least, most) {
  return least === most ? String(least) : `${least}–${most}`;
}

/**
 * The least and the most damage as percentages of HP, rounded down.
 * @param {number[]} damage numbers in rising order
 * @param {number} hp
 */
export function shares(damage, hp) {
  const [least, most] = [damage[0], damage[damage.length - 1]].map((number) => Math.floor((100 * number) / hp));
  return `${span(least, most)}%`;
}
