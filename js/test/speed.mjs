// Measures each call of the package beside the same call of the module alone, in one run: node test/speed.mjs [ROUNDS].
import {readFile} from "node:fs/promises";

import {load} from "../gen1.mjs";
import {CODES} from "../header.mjs";
import {layoutOf} from "../structs.mjs";

const ROUNDS = Number(process.argv[2] ?? 200_000);
const BATTLES = 1000;
const SEED = [1, 36, 255, 7, 31, 100, 179, 254, 127, 10];
const TEXT = `Starmie
- Surf
- Thunderbolt
- Blizzard
- Recover

Tauros
- Body Slam
- Hyper Beam
- Earthquake
- Blizzard

Snorlax
- Body Slam
- Earthquake
- Rest
- Self-Destruct
`;

const gen1 = await load();
const {instance} = await WebAssembly.instantiate(await readFile(new URL("../gen1.wasm", import.meta.url)), {});
const {memory, __heap_base: base, ...calls} = instance.exports;
memory.grow(20);
let end = base.value;
const room = (count) => {
  const place = (end + 63) & ~63;
  end = place + count;
  return place;
};
const [battle, copy, log, length] = [room(384), room(384), room(CODES.LOG_ROOM), room(8)];
const [state, teamAt, seedAt, event] =
    ["gen1_state", "gen1_team", "gen1_battle", "gen1_event"].map((name) => room(layoutOf(name, false).size));
const [many, updates, masks] = [room(384 * BATTLES), room(4 * BATTLES), room(2 * BATTLES)];
const bytes = new Uint8Array(memory.buffer);
bytes.set(new TextEncoder().encode(TEXT), many);
calls.gen1_team_from_text(many, TEXT.length, teamAt, updates);
bytes.set(SEED, seedAt);
const begin = () => calls.gen1_new(battle, teamAt, teamAt, seedAt, 0, 1000);
begin();
calls.gen1_update_silent(battle, 0, 0);
const copied = () => bytes.copyWithin(copy, battle, battle + 384);

const team = gen1.team(gen1.teamFromText(TEXT));
const terms = {
  one: team,
  two: team,
  seed: SEED
};
const own = gen1.battle(terms);
own.update("pass", "pass");
const other = own.clone();
const {log: told} = other.update("move 1", "move 1");

const RUNS = 40;

// Microseconds of one call in the fastest of many short runs, since what runs beside this program can only slow it.
function micros(call, rounds) {
  let least = Infinity;
  const each = Math.ceil(rounds / RUNS);
  for (let run = 0; run < RUNS; run++) {
    const begun = performance.now();
    for (let round = 0; round < each; round++) call();
    least = Math.min(least, ((performance.now() - begun) * 1000) / each);
  }
  return least;
}

// What keeps the compiler from leaving calls out.
let kept;
const line = (name, ours, module, part = 1) => {
  const rounds = Math.max(10, ROUNDS / part);
  const [two, one] = [module ? micros(module, rounds) / part : null, micros(ours, rounds) / part];
  console.log(`${name.padEnd(28)} ${one.toFixed(2).padStart(8)} ${two === null ? "" : two.toFixed(2).padStart(8)}`);
};

function eventsAlone() {
  bytes[length] = bytes[length + 1] = 0;
  while (calls.gen1_next_event(log, told.length, length, event) === 0)
    ;
}

console.log(`${"microseconds".padEnd(28)} ${"package".padStart(8)} ${"module".padStart(8)}`);
line("choices",
    () => {
      kept = own.choices(1);
    },
    () => {
      kept = calls.gen1_offered(battle, 1);
    });
line("result",
    () => {
      kept = own.result;
    },
    () => {
      kept = calls.gen1_result(battle);
    });
line("clone and free", () => {
  kept = own.clone();
  kept.free();
}, copied);
line("copyFrom", () => other.copyFrom(own), copied);
line("copyFrom, updateSilent",
    () => {
      other.copyFrom(own);
      other.updateSilent("move 1", "move 1");
    },
    () => {
      copied();
      calls.gen1_update_silent(copy, 17, 17);
    });
line("copyFrom, update",
    () => {
      other.copyFrom(own);
      other.update("move 1", "move 1");
    },
    () => {
      copied();
      calls.gen1_update(copy, 17, 17, log, CODES.LOG_ROOM, length);
    });
line("clone, update, free",
    () => {
      kept = own.clone();
      kept.update("move 1", "move 1");
      kept.free();
    },
    () => {
      copied();
      calls.gen1_update(copy, 17, 17, log, CODES.LOG_ROOM, length);
    });
line("a new battle", () => {
  kept = gen1.battle(terms);
  kept.free();
}, begin);
begin();
calls.gen1_update_silent(battle, 0, 0);
line("state", () => {
  kept = own.state;
}, () => calls.gen1_get_state(battle, state));
bytes.set(told, log);
line("events of an update", () => {
  kept = gen1.events(told);
}, eventsAlone);
line("odds", () => {
  kept = own.odds(1, "Surf");
}, () => calls.gen1_odds_now(battle, 1, 57, many), 10);

// Arrays, by battle. Each step is the same first turn again.
const start = gen1.battle(terms);
const array = gen1.battleArray({battle: own, count: BATTLES});
const sides = [1, 2].map((side) => ({teller: gen1.teller({side}), player: gen1.player({side, team})}));
const watched = gen1.battleArray({battle: start, count: BATTLES, sides});
watched.step(new Uint8Array(BATTLES), new Uint8Array(BATTLES));
const first = new Uint8Array(BATTLES).fill(17);
for (let at = 0; at < BATTLES; at++) bytes.copyWithin(many + 384 * at, battle, battle + 384);
const words = new Uint32Array(memory.buffer, updates, BATTLES);
const fresh = bytes.slice(many, many + 384 * BATTLES);
line("array: reset and step",
    () => {
      array.reset();
      array.step(first, first);
    },
    () => {
      bytes.set(fresh, many);
      words.fill(17 + 256 * 17);
      calls.gen1_update_many(many, BATTLES, updates, BATTLES);
    },
    BATTLES);
bytes.set(fresh, many);
array.reset();
line("array: masks", () => {
  kept = array.masks(1);
}, () => calls.gen1_offered_many(many, BATTLES, 1, masks, BATTLES), BATTLES);
const options = room(184), seeds = new BigUint64Array(memory.buffer, options, 1);
new Uint32Array(memory.buffer, options + 8, 2).set([1, 0]);  // one round, to its end
line("array: a playout",
    () => {
      kept = array.playouts(1n, 1);
    },
    () => {
      for (let at = 0; at < BATTLES; at++) {
        seeds[0] = BigInt(1 + at);
        calls.gen1_playout(many + 384 * at, options, updates);
      }
    },
    10 * BATTLES);
line("array: observe", () => {
  kept = watched.observe(1);
}, null, BATTLES);

// A step with players: the update with its log, which is reported to both sides, and what each is shown.
const sizes = ["gen1_player", "gen1_teller", "gen1_own_side"].map((name) => layoutOf(name, false).size);
const [players, tellers] = [0, 1].map((kind) => [1, 2].map(() => room(sizes[kind])));
const [shown, heard, given] = [room(sizes[2]), room(CODES.LOG_ROOM), room(6)];
bytes.set([232, 3], given);  // a turn limit of 1,000
for (const side of [1, 2]) {
  calls.gen1_player_begin(players[side - 1], side, teamAt, given);
  calls.gen1_teller_begin(tellers[side - 1], side, 0);
}
const known = bytes.slice(players[0], shown);
function stepAlone() {
  copied();
  bytes.set(known, players[0]);
  calls.gen1_update(copy, 17, 17, log, CODES.LOG_ROOM, length);
  const count = bytes[length] + 256 * bytes[length + 1];
  for (const side of [1, 2]) {
    calls.gen1_tell(tellers[side - 1], log, count, heard, CODES.LOG_ROOM, length);
    calls.gen1_player_feed(players[side - 1], heard, bytes[length] + 256 * bytes[length + 1]);
    calls.gen1_get_own_side(copy, side, shown);
    calls.gen1_player_show(players[side - 1], shown, calls.gen1_offered(copy, side));
  }
}
const going = watched.take(Array.from({length: BATTLES}, (_, at) => at));
line("array: reset, step, players",
    () => {
      going.reset();
      going.step(first, first);
    },
    () => {
      for (let at = 0; at < BATTLES; at++) stepAlone();
    },
    BATTLES);
