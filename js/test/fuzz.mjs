// Plays random battles through the package and through the module alone, and compares each update. Then plays on for many steps, and tests that
// the memory stays as it is: node test/fuzz.mjs [BATTLES] [STEPS] [SEED].
import {readFile} from "node:fs/promises";
import {setFlagsFromString} from "node:v8";
import {runInNewContext} from "node:vm";

import {byteOf, load, MOVES} from "../gen1.mjs";
import {CODES} from "../header.mjs";
import {layoutOf, writeStruct} from "../structs.mjs";

import {hexOf, holds} from "./holding.mjs";

const [battles, steps, begun] = [2000, 1_000_000, 1].map((number, at) => Number(process.argv[2 + at] ?? number));
const KNOWN =
    MOVES.map((_, at) => at + 1)
        .filter((move) => !["Mimic", "Metronome", "Mirror Move", "Transform", "Struggle"].includes(MOVES[move - 1]));
const MEGABYTE = 2 ** 20;

let drawn = begun;
const random = (count) => {
  drawn = (Math.imul(drawn, 1664525) + 1013904223) >>> 0;
  return Math.floor((drawn / 2 ** 32) * count);
};
const some = (count, of) => Array.from({length: count}, of);
const seed = () => Uint8Array.from(some(10, () => random(256)));

function memberOf() {
  const moves = new Set(some(1 + random(4), () => KNOWN[random(KNOWN.length)]));
  return {
    species: 1 + random(151),
    level: random(3) ? 100 : 1 + random(100),
    dvs: some(4, () => random(16)),
    exp: some(5, () => random(65536)),
    moves: Array.from(moves, (move) => [move, random(4)]),
  };
}
const teamOf = () => some(1 + random(6), memberOf);

const gen1 = await load();
const {instance} = await WebAssembly.instantiate(await readFile(new URL("../gen1.wasm", import.meta.url)), {});
const {memory, __heap_base: base, ...calls} = instance.exports;
let end = base.value;
const room = (count) => {
  const place = (end + 7) & ~7;
  end = place + count;
  if (end > memory.buffer.byteLength) memory.grow(1);
  return place;
};
const [battleAt, logAt, lengthAt, seedAt, choicesAt] = [384, CODES.LOG_ROOM, 8, 10, 9].map(room);
const teamsAt = [0, 1].map(() => room(layoutOf("gen1_team", false).size));
const bytesAt = (at, count) => new Uint8Array(memory.buffer, at, count);

// Creates the battle in the module alone.
function begin({one, two, seed: numbers, rules, limit}) {
  [one, two].forEach((team, side) => {
    bytesAt(teamsAt[side], layoutOf("gen1_team", false).size).fill(0);
    const members = team.map(
        ({moves, ...rest}) => ({...rest, moves: moves.map(([move]) => move), ppUps: moves.map(([, ups]) => ups)}));
    writeStruct("gen1_team", new DataView(memory.buffer), teamsAt[side], false, {members, count: team.length});
  });
  bytesAt(seedAt, 10).set(numbers);
  holds(calls.gen1_new(battleAt, ...teamsAt, seedAt, rules, limit) === 0, "the module refuses a team");
}

const choicesAlone = (side) => Array.from(bytesAt(choicesAt, calls.gen1_choices(battleAt, side, choicesAt)));

// One battle, in the package by one of three ways to update, and in the module alone.
function played(number) {
  const terms = {one: teamOf(), two: teamOf(), seed: seed(), rules: random(4), limit: 1 + random(200)};
  begin(terms);
  let battle = gen1.battle(number % 2 ? terms : {...terms, one: gen1.team(terms.one), two: gen1.team(terms.two)});
  const array = gen1.battleArray({battle, count: 2});
  let updates = 0;
  while (!battle.isOver) {
    const offered = [1, 2].map((side) => battle.choices(side));
    holds(JSON.stringify(offered.map((names) => names.map((name) => byteOf(name)))) ===
            JSON.stringify([1, 2].map(choicesAlone)),
        "other choices");
    const [one, two] = offered.map((names) => names[random(names.length)]);
    if (random(4) === 0) battle = changed(battle);
    const {log} = battle.update(one, two);
    calls.gen1_update(battleAt, byteOf(one), byteOf(two), logAt, CODES.LOG_ROOM, lengthAt);
    array.step([byteOf(one), byteOf(one)], [byteOf(two), byteOf(two)]);
    const alone = hexOf(bytesAt(battleAt, 384));
    holds(hexOf(battle.bytes) === alone && hexOf(array.at(1).bytes) === alone, "other bytes");
    holds(hexOf(log) === hexOf(bytesAt(logAt, bytesAt(lengthAt, 2)[0] + 256 * bytesAt(lengthAt, 2)[1])), "another log");
    holds(gen1.lines(log).length === gen1.events(log).length, "other events");
    holds(random(10) || hexOf(gen1.logBytes(gen1.events(log))) === hexOf(log), "other log bytes");
    updates++;
  }
  array.free();
  battle.free();
  return updates;
}

// A battle equal to this one, by a copy, from its bytes, or from its state.
function changed(battle) {
  const ways = [() => battle.clone(), () => gen1.load(battle.bytes), () => gen1.battleOfState(battle.state)];
  const other = ways[random(ways.length)]();
  battle.free();
  return other;
}

// Updates, copies that are freed, states and events for `count` steps.
function stepped(count) {
  const team = gen1.team(teamOf());
  const battle = gen1.battle({one: team, two: team, seed: seed()});
  const [fresh, copy] = [battle.clone(), battle.clone()];
  for (let step = 0; step < count; step++) {
    if (battle.isOver) battle.copyFrom(fresh);
    const [one, two] = [battle.choices(1), battle.choices(2)];
    copy.copyFrom(battle);
    copy.updateSilent(one[0], two[0]);
    battle.clone().free();
    const update = battle.update(one[random(one.length)], two[random(two.length)]);
    if (step % 64 === 0) holds(update.events.length === update.lines.length && battle.state.turn >= 0, "another state");
  }
  for (const it of [battle, fresh, copy]) it.free();
}

// Copies that are left to the garbage collector, which runs between the rounds.
async function forgotten(rounds) {
  setFlagsFromString("--expose-gc");
  const collect = runInNewContext("gc");
  const battle = gen1.battle({one: teamOf(), two: teamOf(), seed: seed()});
  for (let round = 0; round < rounds; round++) {
    for (let count = 0; count < 10_000; count++) battle.clone();
    gen1.battleArray({battle, count: 1000});
    collect();
    await new Promise((settle) => setTimeout(settle, 0));
  }
}

let updates = 0;
for (let number = 0; number < battles; number++) updates += played(number);
console.log(`${battles} battles with ${updates} updates: no difference`);

await forgotten(3);
stepped(10_000);
const sizes = () => [gen1.memorySize, process.memoryUsage().rss].map((size) => size / MEGABYTE);
const before = sizes();
stepped(steps);
await forgotten(20);
const grown = sizes().map((size, at) => size - before[at]);
console.log(`${steps} steps and 200000 copies that were not freed: the module's memory grew by ${
    grown[0]} MB, the program's by ${grown[1].toFixed(1)} MB`);
process.exit(grown[0] > 4 || grown[1] > 64 ? 1 : 0);
