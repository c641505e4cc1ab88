// A bot with playouts against a player that chooses at random, both with the same team. Prints each battle's end, and how many it won.
import {load} from "gen1";

const BATTLES = 20;
const FORKS = 32;
const TEAM = `Starmie
- Surf
- Thunderbolt
- Blizzard
- Recover

Tauros
- Body Slam
- Hyper Beam
- Earthquake
- Blizzard

Snorlax
- Body Slam
- Earthquake
- Rest
- Self-Destruct
`;

const gen1 = await load();
const team = gen1.team(gen1.teamFromText(TEAM));
let drawn = 1;

// A random number from 0 to `count` - 1; the same sequence in each run.
/** @param {number} count */
function random(count) {
  drawn = (Math.imul(drawn, 1664525) + 1013904223) >>> 0;
  return Math.floor((drawn / 2 ** 32) * count);
}

const seed = () => Array.from({length: 10}, () => random(256));

/** @template T @param {readonly T[]} list */
const any = (list) => list[random(list.length)];

// How often side 1 wins after a choice. A copy would draw the same numbers as the battle, so each fork gets others.
/** @param {import("gen1").Battle} battle @param {import("gen1").ChoiceName} choice */
function wins(battle, choice) {
  let won = 0;
  const copy = battle.clone();
  for (let fork = 0; fork < FORKS; fork++) {
    copy.copyFrom(battle);
    copy.reseed(seed());
    copy.updateSilent(choice, any(copy.choices(2)));
    won += copy.playout(random(2 ** 32), 1).winsOne;
  }
  copy.free();
  return won;
}

/** @param {import("gen1").Battle} battle */
function best(battle) {
  const tried = battle.choices(1).map((choice) => ({choice, won: wins(battle, choice)}));
  return tried.reduce((one, two) => (two.won > one.won ? two : one)).choice;
}

let won = 0;
for (let number = 1; number <= BATTLES; number++) {
  const battle = gen1.battle({one: team, two: team, seed: seed(), rules: 3});
  while (!battle.isOver) battle.updateSilent(best(battle), any(battle.choices(2)));
  console.log(`battle ${number}: ${battle.result.outcome} in turn ${battle.state.turn}`);
  won += battle.result.outcome === "win one" ? 1 : 0;
}
console.log(`${won} of ${BATTLES} won`);
