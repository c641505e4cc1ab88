// The choices of a side as buttons: moves in a grid, and members to switch to in a row.
import {effectWords, percent} from "./calculation.js";
import {find, make} from "./dom.js";
import {badge} from "./sides.js";
import {token} from "./tokens.js";
import {percentage, span, STATUS_TAGS, STATUS_WORDS} from "./words.js";

/**
 * @typedef {{ species: string, hp: number, maxHp: number, status: import("gen1").Status, moves: string[], pp: number[] }} Member
 * @typedef {import("./engine.js").Odds & { knockOut: import("gen1").KnockOut }} Forecast
 * @typedef {{ hp: number, maxHp: number, status: import("gen1").Status }} Foe
 * @typedef {{ offered: number[], members: Member[], place: number, going: string, odds: Forecast[], foe: Foe | null, isGuess: boolean }} Offer
 *   the choices of a side, with its members, the place of the active member, the move that it continues, the odds of its moves, the foe's active
 *   member, and whether the foe's stats are guessed
 * @typedef {{ chosen: number | null, keys: string, choose: (choice: number) => void, preview: (choice: number | null) => void }} Use what a press
 *   of a button calls, and what the pointer or the focus calls with its choice, or with null when it leaves
 */

const [ONLY, MOVE, SWITCH] = [0x10, 0x11, 0x21];

/**
 * The key of a choice: that of the slot of a move, and after them those of the other members by their places, also those that have fainted.
 * @param {string} keys @param {number} choice @param {number} place of the active member
 */
export function keyOf(keys, choice, place) {
  if (choice < SWITCH) return keys[Math.max(0, choice - MOVE)];
  const to = choice - SWITCH + 1;
  return keys[to < place ? to + 3 : to + 2];
}
/** The library's reason in place of which the page names the foe's status. */
const AILING = "the foe has a status";

/**
 * The fewest and the most hits of a use that hits.
 * @param {Forecast} odds
 */
function hitsOf({hits}) {
  const counts = hits.flatMap((part, count) => (part ? [count] : []));
  return counts.length ? [counts[0], counts[counts.length - 1]] : [1, 1];
}

/**
 * The least and the most damage of a use, with all of its hits; null for none.
 * @param {Forecast} odds
 * @param {number[] | null} [numbers] of one hit
 * @returns {[number, number] | null}
 */
export function damageOf(odds, numbers = odds.damage) {
  const {fixed, reason} = odds;
  const ends = numbers ? [numbers[0], numbers[numbers.length - 1]] : fixed;
  if (reason || !ends || !ends[1]) return null;
  const [fewest, most] = hitsOf(odds);
  return [ends[0] * fewest, ends[1] * most];
}

/** @param {number[]} range @param {Offer} offer @param {boolean} isGuess */
function shareText(range, {foe}, isGuess) {
  const [least, most] = range.map((damage) => Math.min(100, Math.floor((100 * damage) / (foe?.maxHp ?? 1))));
  return `${isGuess ? "≈ " : ""}${span(least, most)}%`;
}

/**
 * A use of a move in short texts: its damage over all hits in per cent of the foe's HP, critical hits, the chance to hit and to knock out; or the
 * reason why it fails. All are the library's.
 * @param {Forecast} odds
 * @param {Offer} offer
 */
export function forecast(odds, offer) {
  const {reason, hit, bound, critical, knockOut, fixed, charges} = odds;
  if (reason) return [`fails: ${reason === AILING ? ailing(offer) : reason}`];
  const [usual, isGuess] = [damageOf(odds), offer.isGuess && !fixed];
  const [fewest, most] = hitsOf(odds);
  const texts = [hit === null ? "always hits" : `${percent(hit / 256)} to hit`];
  if (!usual) return texts;
  texts.unshift(shareText(usual, offer, isGuess) + (most > 1 ? ` in ${span(fewest, most)} hits` : ""));
  const hard = bound && critical ? damageOf(odds, critical) : null;
  if (hard) texts.splice(1, 0, `crit ${percent((bound ?? 0) / 256)}: ${shareText(hard, offer, false)}`);
  const {chanceOnce, breaksSubstitute} = knockOut;
  if (chanceOnce)
    texts.push(`${offer.isGuess ? "≈ " : ""}${percent(chanceOnce)} ${breaksSubstitute ? "to break it" : "KO"}`);
  return charges ? [...texts, "charges first"] : texts;
}

/** @param {Offer} offer */
function ailing({foe}) {
  return `the foe is already ${STATUS_WORDS[STATUS_TAGS[foe?.status ?? "none"]] ?? "ailing"}`;
}

/**
 * The damage in HP, and the chances of each number of hits.
 * @param {Forecast} odds
 */
export function detail(odds) {
  const range = damageOf(odds);
  if (!range) return "";
  const counts = odds.hits.flatMap((part, count) => (part && part < 1 ? [`${count} hits ${percent(part)}`] : []));
  return [`${span(...range)} HP`, ...counts].join(", ");
}

/** @param {Offer} offer @param {number} choice @param {import("./engine.js").Tables} tables */
function moveWords(offer, choice, tables) {
  const {moves, pp} = offer.members[offer.place - 1];
  if (choice === ONLY) return [make("strong", {}, offer.going || "The only possible action")];
  const [name, found] = [moves[choice - MOVE], offer.odds.find(({slot}) => slot === choice - MOVE + 1)];
  const texts = found ? forecast(found, offer).map((text) => [text.startsWith("fails") ? "" : "fact", text]) : [];
  const effect = found?.reason ? "" : effectWords(tables.moves[name]);
  const isHarmful = found && damageOf(found);
  // A move without damage is its effect, and one without a hit test is nothing else.
  if (effect && !isHarmful) texts.splice(0, found?.hit === null ? 1 : 0, ["", effect]);
  return [
    make("strong", {}, name),
    make("span", {class: "pp"}, `${pp[choice - MOVE]} PP`),
    make("span", {class: "odds", title: (found && detail(found)) || undefined}, badge(tables.moves[name].type), " ",
        ...texts.flatMap(([kind, text], at) => [at ? " · " : "", make("span", {class: kind}, text)]),
        effect && isHarmful ? make("span", {class: "effect"}, ` · ${effect}`) : null),
  ];
}

/** @param {import("./engine.js").Engine} engine @param {Member} member */
function switchWords(engine, {species, hp, maxHp, status}) {
  const filled =
      make("span", {class: percentage(hp, maxHp) > 50 ? "high" :
            percentage(hp, maxHp) > 20                ? "middle" :
                                                        "low"});
  filled.style.width = `${percentage(hp, maxHp)}%`;
  return [
    make("span", {class: `figure ${STATUS_TAGS[status]}`}, token(engine, species)),
    make("span", {class: "unseen"}, "Switch to "),
    make("strong", {}, species),
    make("span", {class: "bar", "aria-hidden": "true"}, filled),
    status === "none" ?
        null :
        make("span", {class: `tag ${STATUS_TAGS[status]}`, "aria-hidden": "true"}, STATUS_TAGS[status].toUpperCase()),
    make("span", {class: "unseen"},
        `${hp} of ${maxHp} HP${status === "none" ? "" : `, ${STATUS_WORDS[STATUS_TAGS[status]]}`}`),
  ];
}

/**
 * The buttons of a side's choices.
 * @param {import("./engine.js").Engine} engine
 * @param {Offer} offer
 * @param {Use} use
 */
export function choiceButtons(engine, offer, use) {
  const hasKeys = find("keys", HTMLInputElement).checked;
  const buttons = offer.offered.map((choice) => {
    const key = keyOf(use.keys, choice, offer.place);
    const isSwitch = choice >= SWITCH;
    const words =
        isSwitch ? switchWords(engine, offer.members[choice - SWITCH]) : moveWords(offer, choice, engine.tables);
    const type = choice >= MOVE && !isSwitch ?
        ` edge-${engine.tables.moves[offer.members[offer.place - 1].moves[choice - MOVE]].type.toLowerCase()}` :
        "";
    return make("button", {
      type: "button",
      class: `choice ${isSwitch ? "to-switch" : "to-move"}${type}`,
      "data-choice": choice,
      "aria-pressed": String(use.chosen === choice),
      "aria-keyshortcuts": hasKeys && key,
      click: () => use.choose(choice),
      pointerenter: () => use.preview(choice),
      pointerleave: () => use.preview(null),
      focus: ({target}) => target.matches(":focus-visible") && use.preview(choice),
      blur: () => use.preview(null),
    },
        hasKeys ? make("kbd", {"aria-hidden": "true"}, key) : null, ...words);
  });
  const [moves, switches] = [
    buttons.filter((it) => it.classList.contains("to-move")), buttons.filter((it) => it.classList.contains("to-switch"))
  ];
  return [
    ...(moves.length ? [make("div", {class: "move-grid"}, ...moves)] : []),
    ...(switches.length ? [make("div", {class: "switch-row"}, ...switches)] : []),
  ];
}
