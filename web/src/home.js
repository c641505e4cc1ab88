// The first page: a battle to watch, one to play, and a calculation, each with a working example.
import {find, make, Problem} from "./dom.js";
import {Field} from "./field.js";
import {listPlayers, PLAYERS} from "./setup.js";
import {watched} from "./sides.js";
import {token} from "./tokens.js";
import {shares} from "./words.js";

/** @typedef {import("./engine.js").Engine} Engine */

const STAND = {
  place: 1,
  stages: Array(6).fill(0),
  substitute: false,
  confused: false,
  lightScreen: false,
  reflect: false
};
const MAX = {
  dvs: [15, 15, 15, 15],
  exp: Array(5).fill(65535)
};

/**
 * A still field of two members.
 * @param {Engine} engine
 * @param {HTMLElement} place
 */
function drawScene(engine, place) {
  const field = new Field(engine, place);
  const sides = [["Tauros", 353, 246, "none"], ["Starmie", 323, 97, "paralysis"]].map(
      ([species, max, hp, status]) => watched(engine.tables, /** @type {any} */ ({...STAND, members: [{hp, status}]}),
          [{species: String(species), level: 100, max: Number(max)}]));
  field.show(sides, ["Side 1", "Side 2"], 1, ["", ""]);
}

/**
 * The tokens of the team with which "Play now" begins.
 * @param {Engine} engine
 * @param {HTMLElement} place
 */
function drawTeam(engine, place) {
  const field = find("play-team-1", HTMLTextAreaElement);
  const draw = () => {
    try {
      const species = engine.team(field.value, "Side 1's team", 1).map((it) => String(it.species));
      place.replaceChildren(...species.map((it) => make("span", {class: "figure", title: it}, token(engine, it))));
    } catch (error) {
      // A team that is only partly typed.
      if (!(error instanceof Problem)) throw error;
    }
  };
  field.addEventListener("input", draw);
  draw();
}

/** The list of the computer's levels, which is also in the form of Play. */
function listLevels() {
  const [level, form] = [find("home-level", HTMLSelectElement), find("play-who-2", HTMLSelectElement)];
  const levels = Object.keys(PLAYERS).filter((it) => it.startsWith("level"));
  listPlayers(level, levels, form.value);
  for (const option of level.options) option.textContent = PLAYERS[option.value].replace("the computer, level ", "");
  const follow = (/** @type {HTMLSelectElement} */ one, /** @type {HTMLSelectElement} */ other) =>
      one.addEventListener("change", () => levels.includes(one.value) && (other.value = one.value));
  follow(level, form);
  follow(form, level);
}

/**
 * The damage of one hit, as the engine computes it.
 * @param {Engine} engine
 * @param {HTMLElement} place
 */
function drawCalculation(engine, place) {
  const [one, two] = ["Tauros", "Starmie"].map(
      (species) => ({...MAX, species, level: 100, moves: /** @type {[string, number][]} */ ([["Body Slam", 3]])}));
  const hp = engine.gen1.battle({one: [one], two: [{...two, moves: [["Surf", 3]]}], seed: Array(10).fill(0)})
                 .state.two.members[0]
                 .maxHp;
  const {usual, hitChance} = engine.gen1.odds(one, {...two, moves: [["Surf", 3]]}, "Body Slam");
  place.replaceChildren(
      make("span", {class: "figure"}, token(engine, "Tauros")),
      make("p", {}, make("strong", {}, shares(usual.numbers, hp)), make("br"),
          `Body Slam: ${usual.numbers[0]}–${usual.numbers[38]} of ${hp} HP, ${(100 * hitChance).toFixed(1)}% to hit`),
      make("span", {class: "figure"}, token(engine, "Starmie")),
  );
}

/**
 * Draws the first page, and has its buttons open the parts.
 * @param {Engine} engine
 * @param {Record<string, () => void>} actions by the id of the button
 */
export function drawHome(engine, actions) {
  drawScene(engine, find("home-scene", HTMLElement));
  drawTeam(engine, find("home-team", HTMLElement));
  listLevels();
  drawCalculation(engine, find("home-sum", HTMLElement));
  for (const [id, action] of Object.entries(actions)) find(id, HTMLButtonElement).addEventListener("click", action);
}
