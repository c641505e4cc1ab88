// Plays the battle of README.md, two Tauros with Strength, with the first offered choice of each side, and prints its lines.
import {load} from "gen1";

const gen1 = await load();
/** @type {import("gen1").Member} */
const tauros = {
  species: "Tauros",
  moves: [["Strength", 3]]
};
const battle = gen1.battle({one: [tauros], two: [tauros], seed: [1, 36, 255, 7, 31, 100, 179, 254, 127, 10]});
while (!battle.isOver)
  for (const line of battle.update(battle.choices(1)[0], battle.choices(2)[0]).lines) console.log(line);
