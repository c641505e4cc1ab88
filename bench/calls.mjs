// The cost of each call in JavaScript. bench/calls runs it, and names the rows.
//
//     node bench/calls.mjs MODULE TEAM_ONE TEAM_TWO
//
// MODULE is the folder that tools/plain_wasm writes.
import {readFile} from "node:fs/promises";
import {pathToFileURL} from "node:url";

const [folder, ...paths] = process.argv.slice(2);
const {byteOf, CHOICES, load} = await import(pathToFileURL(`${folder}/gen1.mjs`));
const gen1 = await load();
const BYTES = CHOICES.map((choice) => byteOf(choice));

const SEED = [1, 36, 255, 7, 31, 100, 179, 254, 127, 10];
const BATCH = 1024, STEPS = 60, BEFORE = 20;

/** The choice of a side in an update: that at (7 * update + side) modulo the number offered. */
function chosen(battle, side, update) {
  const choices = battle.choices(side);
  return choices[(7 * update + side) % choices.length];
}

/** Prints the nanoseconds of a call: the least of five runs of 50 ms or more. */
function timeOf(row, call) {
  let least = Infinity;
  for (let run = 0; run < 5; run += 1) {
    const begun = performance.now();
    let calls = 0, spent = 0;
    while (spent < 50) {
      for (let i = 0; i < 1000; i += 1) call();
      calls += 1000;
      spent = performance.now() - begun;
    }
    least = Math.min(least, spent / calls);
  }
  console.log(`${row}\t${(least * 1e6).toFixed(1)}`);
}

/** A choice of each battle from the masks of a side. */
function drawn(masks) {
  return Uint8Array.from(masks, (mask) => {
    const offered = BYTES.filter((_, bit) => mask >> bit & 1);
    return offered[Math.floor(Math.random() * offered.length)] ?? 0;
  });
}

/** Prints the nanoseconds of a step of each battle: the least of five runs of sixty steps. */
function timeOfSteps(row, battle, step) {
  const battles = gen1.battleArray({battle, count: BATCH});
  let least = Infinity;
  for (let run = 0; run < 5; run += 1) {
    battles.reset();
    const begun = performance.now();
    for (let count = 0; count < STEPS; count += 1) step(battles);
    least = Math.min(least, performance.now() - begun);
  }
  console.log(`${row}\t${(least * 1e6 / (BATCH * STEPS)).toFixed(1)}`);
}

const [one, two] =
    await Promise.all(paths.map(async (path) => gen1.team(gen1.teamFromText(await readFile(path, "utf8")))));
const start = gen1.battle({one, two, seed: SEED});
const middle = start.clone();
for (let update = 0; update < BEFORE; update += 1) middle.update(chosen(middle, 1, update), chosen(middle, 2, update));
const pair = [1, 2].map((side) => chosen(middle, side, BEFORE));
const scratch = middle.clone();
timeOf("new", () => gen1.battle({one, two, seed: SEED}).free());
timeOf("choices", () => middle.choices(1));
timeOf("copy", () => scratch.copyFrom(middle));
timeOf("update", () => {
  scratch.copyFrom(middle);
  scratch.update(...pair);
});
timeOf("events", () => {
  scratch.copyFrom(middle);
  scratch.update(...pair).events.length;
});
timeOf("state", () => middle.state.turn);
timeOfSteps("batch", start, (battles) => battles.step(drawn(battles.masks(1)), drawn(battles.masks(2))));
timeOfSteps("random", start, (battles) => battles.randomStep());
