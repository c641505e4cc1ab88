// Members in a battle, as the calculator takes them.
import {CONDITIONS} from "./engine.js";
import {setOf} from "./team_lists.js";
import {STATUS_TAGS} from "./words.js";

/**
 * @typedef {import("./engine.js").Engine} Engine
 * @typedef {import("./engine.js").Member} Member
 * @typedef {import("./engine.js").Standing} Standing
 * @typedef {{ both: Standing[], teams: { name: string, members: Standing[] }[], text: string, tab: string }} Scene the members that are out, the members
 *   of each side that have HP, where they are from in words, and the part of the page that shows the battle
 */

/** @type {Record<import("gen1").Status, number>} the byte of a status (docs/LAYOUT.md, "Member"), that of sleep without its turns */
const STATUSES = {
  none: 0,
  sleep: 1,
  poison: 8,
  burn: 16,
  freeze: 32,
  paralysis: 64
};
const MIDDLE = 6;
const FULL = {
  dvs: [15, 15, 15, 15],
  exp: Array(5).fill(65535)
};

/** @param {(name: string, condition: import("gen1").Condition) => boolean} isOn */
function bits(isOn) {
  return CONDITIONS.reduce((sum, [name, condition], bit) => sum + (isOn(name, condition) ? 1 << bit : 0), 0);
}

/**
 * A member whose state is known.
 * @param {import("gen1").SideState} side
 * @param {number} place
 * @param {Member} [member] with its DVs and experience, or the highest
 * @returns {Standing}
 */
export function standingIn({members, active}, place, member) {
  const {species, level, moves, status, hp, maxHp} = members[place - 1];
  const out = active?.place === place ? active : null;
  return {
    member: member ?? {...FULL, species, level, moves: moves.map((move) => [move, 3])},
    stages: out ? out.stages.map((stage) => stage + MIDDLE) : Array(6).fill(MIDDLE),
    status: STATUSES[status],
    conditions: bits((_, condition) => Boolean(out?.conditions.includes(condition))),
    hp: hp === maxHp ? 0 : hp,
    carried: out && {stats: out.stats, types: out.types, substitute: out.substitute},
  };
}

/**
 * A member as a spectator sees it: it has its usual set and the highest stats.
 * @param {Engine} engine
 * @param {import("./sides.js").Shown} shown
 * @param {number} place
 * @returns {Standing}
 */
export function standingSeen(engine, shown, place) {
  const {species, level, hp, max, status} = shown.members[place - 1];
  const isOut = shown.active === place;
  const member = {...setOf(engine, species), ...FULL, level};
  const byTag = Object.entries(STATUS_TAGS).find(([, tag]) => tag === status)?.[0] ?? "none";
  return {
    member,
    stages: isOut ? shown.stages.map((stage) => stage + MIDDLE) : Array(6).fill(MIDDLE),
    status: STATUSES[/** @type {import("gen1").Status} */ (byTag)],
    conditions: bits((name) => isOut && shown.conditions.some((it) => it.startsWith(name))),
    hp: hp === max ? 0 : Math.ceil((hp * engine.stats(member)[0]) / max),
  };
}

/**
 * Whether each side has a member out that has HP.
 * @param {import("./sides.js").Shown[]} shown
 */
export function areOut(shown) {
  return shown.length > 1 && shown.every(({active, members}) => members[active - 1]?.hp > 0);
}

/**
 * The scene of two sides, of which each has a member out that has HP.
 * @param {import("./sides.js").Shown[]} shown
 * @param {string[]} titles
 * @param {(side: number, place: number) => Standing} standing of a member, by the index of its side
 * @param {{ text: string, tab: string }} from
 * @returns {Scene}
 */
export function sceneOf(shown, titles, standing, from) {
  const teams = shown.map(({members}, side) => ({
    name: titles[side],
    members: members.flatMap(({hp, isKnown}, at) => (isKnown && hp ? [standing(side, at + 1)] : [])),
  }));
  return {both: shown.map(({active}, side) => standing(side, active)), teams, ...from};
}
