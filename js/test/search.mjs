// Tests of search.mjs under Node: node test/search.mjs. Facts that a player doesn't know make no difference, and a level 3 search is quick.
import {ArgumentError, ArgumentTypeError, load} from "../gen1.mjs";
import {loadSearch, SearchError} from "../search.mjs";

import {equal, thrown} from "./holding.mjs";

const gen1 = await load();
const search = await loadSearch();
const seed = [1, 36, 255, 7, 31, 100, 179, 254, 127, 10];
/** @type {(species: string, ...moves: string[]) => import("../gen1.mjs").Member} */
const member = (species, ...moves) => ({species, moves: moves.map((move) => [move, 3])});
const OWN = [
  member("Starmie", "Surf", "Thunderbolt", "Recover", "Thunder Wave"), member("Tauros", "Body Slam", "Earthquake"),
  member("Chansey", "Ice Beam", "Soft-Boiled")
];

/**
 * @typedef {{battle: import("../gen1.mjs").Battle, teller: import("../gen1.mjs").Teller, player: import("../gen1.mjs").Player}} Host
 */

// Two battles that differ only in side 2's second member and second move, with side 1's players.
/** @type {(first: number) => Host[]} */
function hosts(first) {
  const foes = [
    [member("Snorlax", "Body Slam", "Rest"), member("Zapdos", "Agility")],
    [member("Snorlax", "Body Slam", "Splash"), member("Gengar", "Explosion")]
  ];
  return foes.map((foe) => {
    const battle = gen1.battle({one: OWN, two: foe, seed});
    battle.reseed(Uint8Array.from({length: 10}, (_, at) => (first * 37 + at * 91) & 255));
    const [teller, player] = [gen1.teller({side: 1}), gen1.player({side: 1, team: OWN, foes: 2})];
    return {battle, teller, player};
  });
}

/** @type {(host: Host, one: import("../gen1.mjs").Choice, two: import("../gen1.mjs").Choice) => void} */
const told = ({battle, teller, player}, one, two) => teller.report(battle, battle.update(one, two).log, player);

let positions = 0;
for (let game = 0; positions < 200; game++) {
  const both = hosts(game);
  both.forEach((host) => told(host, "pass", "pass"));
  for (let turn = 0; turn < 12; turn++) {
    const {battle} = both[0];
    if (battle.isOver || !battle.choices(2).includes("move 1")) break;
    const options = {nodes: 60, trees: 2, guesses: 4, seed: positions};
    const thoughts = both.map(({player}) => search.think(player, options));
    equal(JSON.stringify(thoughts[0]), JSON.stringify(thoughts[1]));
    positions++;
    const mine = battle.choices(1);
    const one = mine[(game * 7 + turn * 5) % mine.length];
    both.forEach((host) => told(host, one, "move 1"));
  }
}

const [{player}] = hosts(0);
thrown(() => search.think(player), SearchError, /no choice/);
const [host] = hosts(1);
told(host, "pass", "pass");
/** @type {(options: any) => () => unknown} */
const asked = (options) => () => search.think(host.player, options);
for (const level of [0, 6]) thrown(asked({level}), ArgumentError, /level/);
for (const level of [2.5, "3"]) thrown(asked({level}), ArgumentTypeError, /level/);
thrown(asked({nodez: 5}), ArgumentError, /nodes/);
thrown(() => search.think(new Uint8Array(7)), ArgumentError, /7 bytes/);
equal([search.levelNodes(1), search.levelNodes(2), search.levelNodes(3), search.levelNodes(4),
  search.levelNodes(
      5)].join(),
    "200,600,1500,6000,30000");
equal(search.think(host.player.bytes, {level: 1, seed: 3}).nodes, 200);

const times = [1, 2, 3].map((turn) => {
  const begun = performance.now();
  search.think(host.player, {level: 3, seed: turn});
  return performance.now() - begun;
});
console.log(
    `level 3: ${Math.min(...times).toFixed(0)} ms; ${search.memorySize} bytes of memory; ${positions} positions`);
