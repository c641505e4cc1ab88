// What the page takes from the engine, without a browser: states, odds, messages, the calculator's battles and the computer's choices. Run
// by web/test, which bundles it: node FILE MODULE. The values are those of docs/MECHANICS.md and docs/PROGRAM.md.
import {readFileSync} from "node:fs";

import {standingIn} from "../src/carried.js";
import {chancesOf} from "../src/chances.js";
import {choose, scores} from "../src/computer.js";
import {Engine} from "../src/engine.js";
import {guessed, playerOf} from "../src/guesses.js";
import {LocalMatch} from "../src/match.js";
import {Recording} from "../src/recording.js";
import {usualMoves} from "../src/sets.js";
import {conditionWords, whole} from "../src/sides.js";

const engine = await Engine.of(readFileSync(process.argv[2]));
const SEED = [1, 36, 255, 7, 31, 100, 179, 254, 127, 10];
const MOVE = 17;
let [passed, failed] = [0, 0];

function check(name, test) {
  try {
    test();
    passed++;
  } catch (fault) {
    failed++;
    console.log(`${name}: ${fault.stack}`);
  }
}

function equal(found, wanted) {
  const [one, two] = [found, wanted].map((value) => JSON.stringify(value));
  if (one !== two) throw new Error(`found ${one}, not ${two}`);
}

// The line of an event.
const lineOf = ({code}) => engine.gen1.lines(code)[0];

function message(call) {
  try {
    call();
  } catch (problem) {
    return problem.message;
  }
  throw new Error("there was no error");
}

const tauros = (...moves) => ({
  species: "Tauros",
  level: 100,
  dvs: [15, 15, 15, 15],
  exp: Array(5).fill(65535),
  moves: moves.map((move) => [move, 3])
});
const terms = (one, two) => ({one, two, seed: SEED, rules: 0, limit: 1000});
const asked = (moves, player) => {
  const match = new LocalMatch(engine, terms([tauros(...moves)], [tauros(...moves)]), [player, "random"]);
  return match.question(1, 1);
};
// A battle of two Tauros after its start, and the log.
const begun = (...moves) => {
  const battle = engine.begin(terms([tauros(...moves)], [tauros(...moves)]));
  return {battle, log: engine.update(battle, 0, 0).log};
};

check("each species but Ditto has a usual set, which the engine takes", () => {
  for (const species of Object.keys(engine.tables.species)) {
    const moves = usualMoves(species).map((move) => [move, 3]);
    equal(moves.length > 0, species !== "Ditto");
    equal(Boolean(engine.fault([{...tauros(), species, moves}])), species === "Ditto");
  }
});

check("a battle has the lines of the documents", () => {
  const first = begun("Strength");
  const events = engine.events(first.log);
  equal(events.map((event) => [event.size, lineOf(event)]),
      [[10, "|switch|p1a: Tauros|Tauros|353/353"], [10, "|switch|p2a: Tauros|Tauros|353/353"], [3, "|turn|1"]]);
  equal([events[1].side, events[1].place], [2, 1]);
  equal(engine.events(engine.update(first.battle, MOVE, MOVE).log)
            .some((event) => lineOf(event) === "|-damage|p2a: Tauros|149/353"),
      true);
});

check("a replay says why a move fails", () => {
  // Leech Seed fails against a seeded foe (docs/MECHANICS.md, "Side effects"); with 90 % accuracy one of a few uses hits.
  const input = {
    ...terms([tauros("Leech Seed")], [tauros("Splash")]),
    choices: [[0, 0], ...Array(6).fill([MOVE, MOVE])]
  };
  const recording = new Recording(engine, {input});
  for (const share of recording.steps()) equal(share < 1, true);
  const said = recording.frames.flatMap((frame, at) => recording.sentences(at));
  const failures = said.filter((sentence) => sentence.startsWith("Side 1's Tauros fails"));
  equal([said.includes("Side 2's Tauros is seeded."), failures.length > 1, new Set(failures).size], [true, true, 1]);
  equal(failures[0], "Side 1's Tauros fails: the foe is seeded.");
});

check("errors are explained", () => {
  const one = tauros("Strength");
  equal(message(() => engine.begin(terms([], [one]))),
      "The team is refused: side 1: the team has no member: it has 1 to 6.");
  equal(message(() => engine.begin(terms([one], [one, {...one, level: 101}]))),
      "The team is refused: side 2, member 2: the level is not 1 to 100.");
  equal(message(() => engine.begin({...terms([one], [one]), rules: 4})),
      "The battle is refused: the rules are not 0 to 3.");
  equal(message(() => engine.team("Tauros\n- Body Slap", "The text", 1)),
      `The text: line 2: expected the name of a move of the first generation, not "Body Slap"; did you mean "Body Slam"?`);
  equal(message(() => engine.team("Tauros||||pond|||||||", "The text", 1)),
      `The text: member 1, field 5: expected the name of a move of the first generation, not "pond"; did you mean "Pound"?`);
  equal(message(() => engine.team("Mew\n- Mimic", "The text", 2))
            .startsWith("The team is refused: side 2, member 1: a move is left out"),
      true);
  equal(engine.team("", "The text", 1), []);
  equal(/^This is not the log of a battle: .* \(at byte 2\)\.$/.test(
            message(() => engine.events(Uint8Array.of(26, 1, 99)))),
      true);
  equal([[MOVE, 18], [18, MOVE]].map((pair) => engine.update(begun("Strength").battle, ...pair).refused),
      ["the choice of side 2 was not offered", "the choice of side 1 was not offered"]);
});

check("a spectator knows what the log shows", () => {
  const team = [tauros("Strength")];
  const spectator = engine.spectator(team, team);
  const first = begun("Strength");
  engine.watch(spectator, first.log);
  const {turn, outcome, sides} = engine.watch(spectator, engine.update(first.battle, MOVE, MOVE).log);
  equal([turn, outcome, sides.map(({place, members}) => [place, members])],
      [2, "ongoing", [[1, [{hp: 263, status: "none"}]], [1, [{hp: 149, status: "none"}]]]]);
});

check("a status is shown as the lines write it", () => {
  // The status of side 1's first member (docs/LAYOUT.md, "Member").
  for (const [byte, word] of [[0, ""], [1, "slp"], [8, "psn"], [16, "brn"], [32, "frz"], [64, "par"]]) {
    const {bytes} = begun("Strength").battle;
    bytes[24 + 14] = byte;
    equal(whole(engine.tables, engine.state(bytes).sides[0]).members[0].status, word);
  }
});

check("conditions are shown with their numbers", () => {
  const {bytes} = begun("Strength").battle;
  // Side 1's condition bits that don't depend on a move, and their numbers (docs/LAYOUT.md, "Active block").
  bytes.set([0xe8, 0xf3, 1], 168 + 17);
  bytes.set([30, 3, 1, 2, 5], 168 + 21);
  equal(conditionWords(engine.state(bytes).sides[0].active), [
    "Flinches", "Out of reach", "Confused, 3 more", "Mist", "Focus Energy", "Substitute, 30 HP", "Seeded",
    "Bad poison, 5", "Light Screen", "Reflect", "Move 1 disabled"
  ]);
});

const STANDS = {
  stages: Array(6).fill(6),
  status: 0,
  conditions: 0,
  hp: 0
};

// Two Tauros that know Strength and Body Slam, in these states.
function calculated(one, two = {}) {
  const both = [one, two].map((it) => ({...STANDS, member: tauros("Strength", "Body Slam"), ...it}));
  return engine.calculate(both);
}

check("members have the state that is asked for", () => {
  const [user] = calculated({});
  const slam = user.moves.find(({move}) => move === "Body Slam");
  equal([slam.slot, slam.damage.slice(0, 3), slam.damage.slice(36), slam.hit, slam.bound],
      [2, [95, 95, 96], [111, 111, 112], 255, 55]);
  const OWN = [298, 288, 318, 238];
  const stats = (...asked) => calculated(...asked).map(({own, stats: now}) => [own, now]);
  equal(stats({status: 16})[0], [OWN, [149, 288, 318, 238]]);
  equal(stats({stages: [8, 6, 6, 6, 6, 6]}, {status: 64, conditions: 1}),
      [[OWN, [596, 288, 318, 238]], [OWN, [298, 288, 79, 238]]]);
  // 318 at stage 2 is 636, and a quarter of that 159; 298 at stage -1 is 196, and half of that 98.
  equal(stats({stages: [6, 6, 8, 6, 6, 6], status: 64}, {stages: [5, 6, 6, 6, 6, 6], status: 16}).map(([, now]) => now),
      [[298, 288, 159, 238], [98, 288, 318, 238]]);
  equal(calculated({hp: 100}).map(({hp, max}) => [hp, max]), [[100, 353], [353, 353]]);
  equal(message(() => calculated({stages: [13, 6, 6, 6, 6, 6]})),
      "The calculation is refused: the members cannot be in this state.");
  equal(message(() => calculated({hp: 354})), "The calculation is refused: the members cannot be in this state.");
});

check("what a use does to the HP", () => {
  const found = (one, two, move) => calculated(one, two)[0].moves.find((it) => it.move === move);
  // Body Slam deals 95 to 112, and each critical hit more. It hits with 255 of 256 bytes.
  const {chanceOnce, chanceTwice, chanceThrice} = found({}, {hp: 95}, "Body Slam").knockOut;
  equal([chanceOnce, chanceTwice, chanceThrice], [255 / 256, 65535 / 65536, 16777215 / 16777216]);
  const users = (move) =>
      engine.calculate([{...STANDS, member: tauros(move)}, {...STANDS, member: tauros("Strength")}])[0].moves[0];
  equal(["Seismic Toss", "Super Fang", "Fissure"].map((move) => users(move).fixed),
      [[100, 100], [176, 176], [65535, 65535]]);
  equal([users("Fissure").hit, users("Fissure").reason, users("Recover").reason],
      [76, null, "the user's HP don't allow it"]);
  equal([users("Swift").hit, users("Swift").reason], [null, null]);
});

check("the computer chooses the offered choice with the most damage", () => {
  equal([["Strength"], ["Strength", "Body Slam"], ["Body Slam", "Strength"]].map(
            (moves) => choose(engine, asked(moves, "greedy"))),
      [17, 18, 17]);
});

check("playouts do not know what the battle will draw", () => {
  const {battle} = begun("Strength", "Body Slam");
  const found = [Array(10).fill(0), Array(10).fill(255), [9, 200, 31, 4, 77, 128, 3, 250, 66, 5]].map((numbers) => {
    const copy = battle.clone();
    copy.reseed(numbers, numbers[9] % 9);
    return scores(copy, 1, 50, 7);
  });
  equal([found[0].length, found[1], found[2]], [2, found[0], found[0]]);
});

check("playouts differ from each other", () => {
  // With one move a side, two battles differ only in their draws.
  const [score] = scores(begun("Strength").battle, 1, 50, 7);
  equal(score >= 20 && score <= 80, true);
});

// Six members whose moves cover the conditions that a guess has to explain.
const MOVES = [
  "Fly", "Dig", "Hyper Beam", "Thrash", "Wrap", "Bide", "Substitute", "Confuse Ray", "Rage", "Disable", "Toxic",
  "Leech Seed", "Body Slam", "Sing", "Reflect", "Mist", "Focus Energy", "Light Screen", "Solar Beam", "Swords Dance",
  "Surf", "Explosion", "Growl", "Blizzard"
];
const six = (from, others = {}) => [0, 1, 2, 3, 4, 5].map((at) => ({
  ...tauros(...[0, 6, 12, 18].map((step) => MOVES[(from + at + step) % 24])),
  species: ["Tauros", "Starmie", "Gengar", "Zapdos", "Snorlax", "Golem"][at],
  ...others
}));

check("guesses fit what a player knows", () => {
  let [state, count] = [12345, 0];
  const draw = (bound) => ((state = (Math.imul(state, 1103515245) + 12345) >>> 0) >>> 8) % bound;
  for (let round = 0; round < 12; round++) {
    // Of a low maximum a guess of the strongest members need not have the HP that are told.
    const others = round % 4 === 3 ? {level: 5, dvs: [0, 0, 0, 0], exp: [0, 0, 0, 0, 0]} : {};
    const match = new LocalMatch(engine,
        {...terms(six(round, others), six(round + 5, others)), seed: Array.from({length: 10}, () => draw(256))},
        ["random", "random"]);
    for (; !match.isOver; match.update([1, 2].map((side) => {
           const offered = match.offered(side);
           return offered[draw(offered.length)];
         }))) {
      for (const side of [1, 2]) {
        const view = match.view(side);
        // The worker's player is made from what it is sent.
        const player = playerOf(engine, match.sight(side));
        equal([player.view, player.choices], [view, match.last.players[side - 1].choices]);
        const battle = guessed(engine, player, draw, SEED);
        const own = battle.ownSide(side);
        equal([own.members, own.active.place, own.active.stages, own.active.types, own.turn, own.request], [
          view.own.members, view.own.active.place, view.own.active.stages, view.own.active.types, view.own.turn,
          view.own.request
        ]);
        const foe = battle.ownSide(side === 1 ? 2 : 1);
        equal(foe.members.slice(0, view.foe.members.length).map(({species, level, status}) => [species, level, status]),
            view.foe.members.map(({species, level, status}) => [species, level, status]));
        equal(battle.choices(side), match.last.players[side - 1].choices);
        count++;
      }
    }
  }
  equal(count > 500, true);
});

check("the computer is asked with what its side knows", () => {
  const question = asked(["Strength", "Body Slam"], "playouts");
  equal(
      [question.battle, playerOf(engine, question.sight).view.foe.members.map(({species, moves}) => [species, moves])],
      [null, [["Tauros", []]]]);
  equal(asked(["Strength"], "cheating").sight, null);
  equal([17, 18].includes(choose(engine, question)), true);
});

// A team of moves that miss, are often critical, change stages, continue, charge and put up a Substitute.
const VARIED = [
  ["Tauros", "Body Slam", "Blizzard", "Sand Attack", "Fissure"],
  ["Starmie", "Thunder", "Minimize", "Substitute", "Hydro Pump"],
  ["Persian", "Slash", "Double Team", "Fly", "Hypnosis"], ["Dragonite", "Wrap", "Thrash", "Sky Attack", "Thunder Wave"]
].map(([species, ...moves]) => ({...tauros(...moves), species}));

// Small random whole numbers, the same in each run.
let drawn = 7;
const below = (bound) => Math.floor((drawn = (drawn * 48271) % 0x7fffffff) / 0x7fffffff * bound);

// What became of the use at a place in updates that came to it in the same way; of a knock-out with the same HP.
function sampled(battle, pair, events, at, word) {
  const isBegin = ({kind, volatile}) => ["move", "switch", "cant"].includes(kind) ||
      (kind === "activate" && volatile === "confusion");
  const from = events.map(isBegin).lastIndexOf(true, at);
  const past = (list) =>
      list.slice(0, from).map(lineOf).map((line) => (word === "KO" ? line : line.replace(/\d+\/\d+.*/, ""))).join();
  const counts = {hit: 0, miss: 0, crit: 0, KO: 0};
  let [all, hits] = [0, 0];
  for (let run = 0; run < 400; run++) {
    const copy = engine.gen1.load(battle);
    copy.reseed(Array.from({length: 10}, () => below(256)));
    const found = engine.events(copy.update(...pair).log);
    copy.free();
    if (past(found) !== past(events) || !found[from] || lineOf(found[from]) !== lineOf(events[from])) continue;
    const next = found.findIndex((event, place) => place > from && (isBegin(event) || event.kind === "turn"));
    const act = found.slice(from, next < 0 ? undefined : next);
    const kinds = act.map(({kind}) => kind);
    all++;
    const isHit = !["miss", "fail", "immune", "prepare"].some((kind) => kinds.includes(kind));
    if (isHit) hits++;
    if (isHit) counts.hit++;
    if (kinds.includes("miss")) counts.miss++;
    if (kinds.includes("crit")) counts.crit++;
    if (act.some(({kind, side}) => kind === "faint" && side !== events[from].side)) counts.KO++;
  }
  const of = word === "crit" ? hits : all;
  return [counts[word] / of, of];
}

// Moves that change stats, types and conditions.
const CHANGING = [
  ["Tauros", "Body Slam", "Swords Dance", "Fire Blast", "Agility"],
  ["Starmie", "Screech", "Conversion", "Substitute", "Reflect"],
  ["Persian", "Slash", "Amnesia", "Light Screen", "Thunder Wave"],
  ["Dragonite", "Growl", "Focus Energy", "Bubble Beam", "Haze"]
].map(([species, ...moves]) => ({...tauros(...moves), species}));

check("members in the calculator have the odds of their battle", () => {
  let [count, other] = [0, 0];
  for (let game = 0; game < 6; game++) {
    const battle = engine.gen1.battle({...terms(CHANGING, CHANGING), seed: SEED.map(() => below(256))});
    battle.updateSilent("pass", "pass");
    while (!battle.isOver) {
      battle.updateSilent(...[1, 2].map((side) => {
        const offered = battle.choices(side);
        return offered[below(offered.length)];
      }));
      const {one, two} = battle.state;
      const sides = [one, two];
      if (battle.isOver || sides.some(({members, active}) => !members[active.place - 1].hp)) continue;
      const both = sides.map((side) => standingIn(side, side.active.place, CHANGING[side.active.place - 1]));
      for (const [at, {hp, max, stats, moves}] of engine.calculate(both).entries()) {
        const {active, members} = sides[at];
        equal([hp, max, stats], [members[active.place - 1].hp, members[active.place - 1].maxHp, active.stats]);
        for (const [place, odds] of engine.oddsOf(battle, at === 0 ? 1 : 2).entries()) {
          const found = moves[place];
          // The calculator ignores conditions that it doesn't have.
          if (odds.reason !== found.reason) continue;
          equal([found.damage, found.critical, found.bound, found.hit],
              [odds.damage, odds.critical, odds.bound, odds.hit]);
          count++;
        }
      }
      const plain = engine.calculate(both.map((it) => ({...it, carried: null})));
      if (plain.some(({stats}, at) => stats.join() !== sides[at].active.stats.join())) other++;
    }
  }
  // Some of the stats are not those that stages and status give.
  equal([count > 500, other > 3], [true, true]);
});

check("the chances of a replay are those of a sample", () => {
  const found = {hit: 0, miss: 0, crit: 0, KO: 0};
  for (let game = 0; game < 12; game++) {
    const battle = engine.gen1.battle({...terms(VARIED, VARIED), seed: SEED.map(() => below(256))});
    battle.updateSilent("pass", "pass");
    while (!battle.isOver) {
      const pair = [1, 2].map((side) => {
        const offered = battle.choices(side);
        return offered[below(offered.length)];
      });
      const before = battle.bytes;
      const events = engine.events(battle.update(...pair).log);
      for (const [at, text] of chancesOf(engine, before, events).entries()) {
        const [, word, number] = /^(\w+) at [<>]?([\d.]+)%$/.exec(text ?? "") ?? [];
        // A sample of a few of each kind.
        if (!word || found[word] >= 20) continue;
        // After another action the same HP are too rare for a sample of a knock-out.
        if (word === "KO" &&
            events.slice(0, at).filter(({kind}) => ["move", "switch", "cant"].includes(kind)).length > 1)
          continue;
        const [share, of] = sampled(before, pair, events, at, word);
        if (of < 60) continue;
        const chance = Number(number) / 100;
        // The bytes of a link battle are not quite independent.
        const most = 4.5 * Math.sqrt(Math.max(chance * (1 - chance), 0.004) / of) + 0.015;
        if (Math.abs(share - chance) > most)
          throw new Error(`${lineOf(events[at])}: ${text}, ${share} of ${of}; ${events.map(lineOf).join(" ")}`);
        found[word]++;
      }
    }
  }
  equal(Object.values(found).every((count) => count >= 15), true);
});

console.log(`${passed} passed, ${failed} failed`);
process.exit(failed ? 1 : 0);
