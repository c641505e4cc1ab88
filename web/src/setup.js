// The form that starts a battle: who plays, the teams, and the rules.
import {find, inField, make, Problem} from "./dom.js";
import {randomSeed, SIDES} from "./match.js";
import {sampleTeams, savedTeams, textOf} from "./team_lists.js";
import {token} from "./tokens.js";

/**
 * Who may play a side. The numbers of the levels are those of gen1-search.
 * @type {Record<string, string>}
 */
export const PLAYERS = {
  person: "a person",
  level1: "the computer, level 1 (easiest)",
  level2: "the computer, level 2",
  level3: "the computer, level 3",
  level4: "the computer, level 4",
  level5: "the computer, level 5 (strongest)",
  random: "the computer, at random",
  greedy: "the computer, for the most damage",
  playouts: "the computer, by playouts",
  cheating: "the computer, by playouts that know both teams (cheating)",
};
/** Two entries of a list of teams: a team that is drawn when the battle starts, and one that a person writes. */
const [DRAWN, WRITTEN] = ["drawn", "written"];

/**
 * The options of a list of players.
 * @param {HTMLSelectElement} select @param {string[]} players @param {string} chosen
 */
export function listPlayers(select, players, chosen) {
  select.replaceChildren(...players.map((it) => make("option", {value: it}, PLAYERS[it])));
  select.value = chosen;
}

/**
 * The ten numbers of a seed, which are random if the field is empty.
 * @param {HTMLInputElement} field
 */
function seedOf(field) {
  if (!field.value.trim()) return randomSeed();
  const numbers = field.value.trim().split(/[\s,]+/).map(Number);
  if (numbers.length !== 10 || numbers.some((it) => !Number.isInteger(it) || it < 0 || it > 255))
    throw new Problem("The seed must be ten whole numbers from 0 to 255, separated by spaces.", {field});
  return numbers;
}

/** @param {HTMLInputElement} field */
function limitOf(field) {
  const limit = field.value.trim() === "" ? NaN : Number(field.value);
  if (!Number.isInteger(limit) || limit < 1 || limit > 9999)
    throw new Problem(
        `The turn limit is ${field.value || "missing"}: it must be a whole number from 1 to 9999.`, {field});
  return limit;
}

/**
 * Members of a random sample team.
 * @param {import("./engine.js").Engine} engine
 * @param {number} count
 */
function surprise(engine, count) {
  const teams = sampleTeams(engine);
  return textOf(teams[randomSeed()[0] % teams.length].members.slice(0, count)).trim();
}

/** Reads the form. */
export class Setup {
  /** @param {import("./engine.js").Engine} engine */
  constructor(engine) {
    this.engine = engine;
    /** @type {Record<string, string>} the texts of the teams in the lists, by their values there */
    this.texts = {};
    for (const side of SIDES) {
      listPlayers(this.player(side), Object.keys(PLAYERS), side === 1 ? "person" : "level3");
      this.player(side).addEventListener("change", () => this.list());
      find(`play-random-${side}`, HTMLButtonElement).addEventListener("click", () => this.put(side, this.randomTeam()));
      this.picked(side).addEventListener("change", () => this.pick(side, this.picked(side).value));
      this.field(side).addEventListener("input", () => this.draw(side));
    }
    find("play-new-seed", HTMLButtonElement)
        .addEventListener("click", () => (find("play-seed", HTMLInputElement).value = randomSeed().join(" ")));
    // The team of the computer, on side 2, is drawn when the battle starts, so that the person does not know it.
    this.field(1).value = surprise(engine, 6);
    this.list();
  }

  randomTeam() {
    const count = Number(find("play-members", HTMLSelectElement).value);
    return textOf(this.engine.gen1.randomTeam({count})).trim();
  }

  /** @param {number} side */
  field(side) {
    return find(`play-team-${side}`, HTMLTextAreaElement);
  }

  /** @param {number} side */
  player(side) {
    return find(`play-who-${side}`, HTMLSelectElement);
  }

  /** @param {number} side */
  picked(side) {
    return find(`play-pick-${side}`, HTMLSelectElement);
  }

  /** Lists the teams that a side may have: the person's, and the sample teams. */
  list() {
    const saved = savedTeams(this.engine).filter(({members}) => members.length).map(({name,
      members}) => ({name, text: textOf(members).trim()}));
    const groups = Object.entries({"Your teams": saved, "Sample teams": sampleTeams(this.engine)});
    const listed =
        groups.map(([label, teams]) => teams.map(({name, text}, at) => ({key: `${label} ${at}`, name, text})));
    this.texts = Object.fromEntries(listed.flat().map(({key, text}) => [key, text]));
    for (const side of SIDES) {
      const made = listed.map((teams, at) => make("optgroup", {label: groups[at][0]},
                                  ...teams.map(({key, name}) => make("option", {value: key}, name))));
      const drawn = make("option", {value: DRAWN}, "a sample team that is not shown");
      const hasDrawn = this.player(side).value !== "person";
      this.picked(side).replaceChildren(...(hasDrawn ? [drawn] : []), ...made.filter((it) => it.childElementCount),
          make("option", {value: WRITTEN}, "as text, below"));
      this.draw(side);
    }
  }

  /**
   * Shows which team a side has, and its members.
   * @param {number} side
   */
  draw(side) {
    const text = this.field(side).value.trim();
    const found = Object.keys(this.texts).find((key) => this.texts[key] === text);
    this.picked(side).value = found ?? (text || this.player(side).value === "person" ? WRITTEN : DRAWN);
    const items = this.membersOf(text, side).map((name) => {
      const figure = make("span", {class: "figure"}, token(this.engine, name));
      return make("li", {}, figure, make("span", {}, name));
    });
    const place = find(`play-picked-${side}`, HTMLElement);
    place.hidden = !items.length;
    place.replaceChildren(...items);
  }

  /**
   * The species of a text's members; none while the text isn't a team.
   * @param {string} text @param {number} side
   */
  membersOf(text, side) {
    try {
      return this.engine.team(text, `Side ${side}'s team`, side).map(({species}) => String(species));
    } catch (error) {
      if (error instanceof Problem) return [];
      throw error;
    }
  }

  /** @param {number} side @param {string} key of a list of teams */
  pick(side, key) {
    if (key !== WRITTEN) return this.put(side, this.texts[key] ?? "");
    find(`play-text-${side}`, HTMLDetailsElement).open = true;
    this.field(side).focus();
  }

  /**
   * Gives a side a team.
   * @param {number} side @param {string} text
   */
  put(side, text) {
    this.field(side).value = text;
    this.field(side).dispatchEvent(new Event("input"));
  }

  /**
   * How many members a side's text has; six if it has none.
   * @param {number} side
   */
  count(side) {
    return this.field(side).value.trim().split(/\n\s*\n/).filter(Boolean).length || 6;
  }

  get who() {
    return SIDES.map((side) => this.player(side).value);
  }

  /** @param {number} side */
  team(side) {
    const field = this.field(side);
    const isDrawn = !field.value.trim() && this.who[side - 1] !== "person";
    const text = isDrawn ? surprise(this.engine, this.count(3 - side)) : field.value;
    const members = inField(field, () => this.engine.team(text, `Side ${side}'s team`, side));
    if (!members.length) throw new Problem(`Side ${side}'s team has no member.`, {field});
    return members;
  }

  /** The values of the form. */
  read() {
    const checked = (/** @type {string} */ id) => (find(id, HTMLInputElement).checked ? 1 : 0);
    const terms = {
      one: this.team(1),
      two: this.team(2),
      seed: seedOf(find("play-seed", HTMLInputElement)),
      rules: checked("play-sleep") + 2 * checked("play-freeze"),
      limit: limitOf(find("play-limit", HTMLInputElement)),
    };
    return {terms, who: this.who, isOpen: Boolean(checked("play-open"))};
  }

  /**
   * Calls a function, and attributes a refusal of a team to its field.
   * @param {() => void} work
   */
  blamingTeams(work) {
    try {
      work();
    } catch (error) {
      if (error instanceof Problem && error.side) error.field = this.field(error.side);
      throw error;
    }
  }
}
