// Worked examples from docs/MECHANICS.md, docs/TEAM_TEXT.md, README.md and include/gen1.h, whose results were calculated without the
// library.
import * as library from "../gen1.mjs";
import {CODES} from "../header.mjs";
import {layoutOf} from "../structs.mjs";

import {begun, chances} from "./chances.mjs";
import {bytesOfHex, equal, hexOf, holds, thrown} from "./holding.mjs";
import {hosts} from "./hosts.mjs";

const SEED = [1, 36, 255, 7, 31, 100, 179, 254, 127, 10];
const STRONG = {
  species: "Tauros",
  moves: [["Strength", 3]]
};
const BATTLE = {
  one: [STRONG],
  two: [STRONG],
  seed: SEED
};
const PAIR = [{...STRONG}, {species: "Chansey", moves: [["Strength", 3]]}];
const OUT = [2, 1, 128, 1, 100, 97, 1, 97, 1, 0, 2, 2, 128, 1, 100, 97, 1, 97, 1, 0];
// The lines in README.md, and the log bytes for them (docs/MECHANICS.md, "Log bytes").
const LINES = `|switch|p1a: Tauros|Tauros|353/353
|switch|p2a: Tauros|Tauros|353/353
|turn|1
|move|p1a: Tauros|Strength|p2a: Tauros
|-crit|p2a: Tauros
|-damage|p2a: Tauros|149/353
|move|p2a: Tauros|Strength|p1a: Tauros
|-damage|p1a: Tauros|263/353
|turn|2
|move|p1a: Tauros|Strength|p2a: Tauros
|-crit|p2a: Tauros
|-damage|p2a: Tauros|0 fnt
|faint|p2a: Tauros
|win|p1`.split("\n");
const LOG = bytesOfHex(
    "020180016461016101000202800164610161010001010003018046028007028005028095006101000003028046018005018007016101000001020003018046" +
    "02800702800502800000610100001902801a01");

// The lines and log bytes of whole battles, and of many battles in a row.
function logs(gen1, check) {
  check("the battle of README.md", () => {
    const battle = gen1.battle(BATTLE);
    const updates = [["pass", "pass"], ["move 1", "move 1"], [17, 17]].map((pair) => battle.update(...pair));
    equal(updates.flatMap((it) => it.lines), LINES);
    equal(updates.map((it) => hexOf(it.log)).join(""), hexOf(LOG));
    equal([battle.result, battle.isOver, battle.choices(1)],
        [{outcome: "win one", requests: ["pass", "pass"]}, true, []]);
    equal(updates[2].result, battle.result);
  });
  check("a log of many updates", () => {
    const [many, times] = [new Uint8Array(3000 * LOG.length), 3000];
    for (let at = 0; at < many.length; at += LOG.length) many.set(LOG, at);
    const [lines, events] = [gen1.lines(many), gen1.events(many)];
    equal([lines.length, events.length, events[13]],
        [times * LINES.length, times * LINES.length, {kind: "win", side: 1, size: 2}]);
    holds(lines.every((line, at) => line === LINES[at % LINES.length]), "a line is another one");
    equal(thrown(() => gen1.lines(Uint8Array.of(...LOG, 26)), library.LogError, /the bytes end within an event/).at,
        LOG.length);
  });
  check("events", () => {
    const [one, two] = [1, 2].map((side) => ({side, species: "Tauros"}));
    const used = {move: "Strength", targetSide: 2, targetSpecies: "Tauros", size: 6};
    equal(gen1.events(LOG).slice(1, 6), [
      {kind: "switch", ...two, place: 1, level: 100, hp: 353, maxHp: 353, status: "none", size: 10},
      {kind: "turn", turn: 1, size: 3},
      {kind: "move", ...one, ...used},
      {kind: "crit", ...two, size: 3},
      {kind: "damage", ...two, hp: 149, maxHp: 353, status: "none", source: "direct", size: 9},
    ]);
    equal(gen1.events(LOG).map(({size}) => size), [10, 10, 3, 6, 3, 9, 6, 9, 3, 6, 3, 9, 3, 2]);
  });
  check("each kind of event", () => {
    // An event of each kind as bytes (docs/MECHANICS.md, "Log bytes"), with its fields after side and species.
    const tauros = [1, 128];
    const cases = [
      [[4, ...tauros, 7], "cant", {reason: "paralysed"}],
      [[6, ...tauros, 97, 1, 97, 1, 2], "heal", {hp: 353, maxHp: 353, status: "poison"}],
      [[13, ...tauros, 3], "status", {status: "burn"}],
      [[14, ...tauros, 1], "cure", {status: "sleep"}],
      [[15, ...tauros, 6, 2], "boost", {stat: "evasion", stages: 2}],
      [[16, ...tauros, 1, 1], "unboost", {stat: "attack", stages: 1}],
      [[18, ...tauros, 4], "start", {volatile: "leech seed"}],
      [[19, ...tauros, 1], "end", {volatile: "confusion"}],
      [[20, ...tauros, 13], "activate", {volatile: "splash"}],
      [[21, ...tauros, 19], "prepare", {move: "Fly"}],
      [[23, ...tauros, 5], "hit count", {hits: 5}],
      [[5, ...tauros, 97, 1, 97, 1, 0, 3], "damage", {hp: 353, maxHp: 353, status: "none", source: "leech seed"}],
    ];
    const read = (bytes, ...wanted) => {
      equal(gen1.events(Uint8Array.from(bytes)), wanted);
      equal(Array.from(gen1.logBytes(wanted.map(({size, ...fields}) => fields))), bytes);
    };
    for (const [bytes, kind, more] of cases)
      read(bytes, {kind, side: 1, species: "Tauros", ...more, size: bytes.length});
    for (const [tag, kind] of [[7, "crit"], [8, "super effective"], [9, "resisted"], [10, "immune"], [11, "miss"],
             [12, "fail"], [22, "must recharge"], [25, "faint"]])
      read([tag, ...tauros], {kind, side: 1, species: "Tauros", size: 3});
    for (const [tag, kind] of [[17, "clear all"], [24, "one hit knock out"], [27, "tie"]]) read([tag], {kind, size: 1});
    read([26, 2, 28, 2], {kind: "win", side: 2, size: 2}, {kind: "fault", fault: "psywave", size: 2});
    equal([hexOf(gen1.logBytes(gen1.events(LOG))), gen1.logBytes([]).length], [hexOf(LOG), 0]);
    equal(Array.from(gen1.logBytes([{kind: "prepare", side: 1, species: 128, move: 19}])), [21, ...tauros, 19]);
  });
}

// Bytes of events (docs/MECHANICS.md, "Log bytes"), each with its sentence for a spectator.
const TOLD = [
  [[2, 1, 128, 1, 100, 97, 1, 97, 1, 0], "Side 1 sends out Tauros."],
  [[2, 2, 121, 1, 50, 100, 0, 200, 0, 5], "Side 2 sends out Starmie, level 50, with 100 of 200 HP, paralysed."],
  [[1, 15, 39], "Turn 9999 begins."],
  [[3, 1, 128, 70, 2, 121], "Side 1's Tauros uses Strength."],
  [[4, 1, 128, 7], "Side 1's Tauros is fully paralysed."],
  [[5, 2, 121, 30, 0, 200, 0, 5, 3], "Side 2's Starmie loses 70 HP by Leech Seed, down to 30 of 200 HP."],
  [[6, 2, 121, 130, 0, 200, 0, 5], "Side 2's Starmie gains 100 HP, up to 130 of 200 HP."],
  [[7, 2, 121], "Side 2's Starmie takes a critical hit."],
  [[8, 2, 121], "It is super effective."],
  [[9, 2, 121], "It is not very effective."],
  [[10, 2, 121], "Side 2's Starmie is not affected."],
  [[11, 1, 128], "Side 1's Tauros misses."],
  [[12, 1, 128], "Side 1's Tauros fails."],
  [[13, 1, 128, 3], "Side 1's Tauros is burned."],
  [[14, 1, 128, 3], "Side 1's Tauros is no longer burned."],
  [[15, 2, 121, 6, 2], "Side 2's Starmie's evasion rises by 2 stages."],
  [[16, 2, 121, 1, 1], "Side 2's Starmie's Attack falls by 1 stage."],
  [[17], "All stages go back to 0."],
  [[18, 1, 128, 1], "Side 1's Tauros becomes confused."],
  [[19, 1, 128, 3], "Side 1's Tauros loses its Substitute."],
  [[20, 1, 128, 13], "Side 1's Tauros splashes: nothing happens."],
  [[21, 1, 128, 19], "Side 1's Tauros prepares Fly."],
  [[22, 1, 128], "Side 1's Tauros will have to recharge."],
  [[23, 2, 121, 1], "Side 2's Starmie was hit once."],
  [[24], "It is a one-hit knock-out."],
  [[2, 1, 151, 2, 100, 44, 1, 97, 1, 0], "Side 1 withdraws Tauros and sends out Mew, with 300 of 353 HP."],
  [[5, 2, 121, 0, 0, 200, 0, 5, 1], "Side 2's Starmie loses its last 130 HP by poison."],
  [[25, 2, 121], "Side 2's Starmie faints."],
  [[2, 2, 113, 2, 100, 191, 2, 191, 2, 0], "Side 2 sends out Chansey."],
  [[28, 1], "The battle stopped by a division by 0."],
  [[26, 2], "Side 2 wins."],
  [[27], "The battle is a tie."],
];
// The report of the battle to side 2, in which HP of side 1 is in 48ths.
const TOLD_TO_TWO = [
  [[5, 1, 128, 24, 0, 48, 0, 0, 2], "The foe's Tauros is down to 50% by its burn."],
  [[6, 2, 121, 130, 0, 200, 0, 5], "Your Starmie is healed to 130 of 200 HP."],
  [[2, 2, 128, 1, 100, 97, 1, 97, 1, 0], "You withdraw Starmie and send out Tauros."],
  [[5, 1, 128, 1, 0, 48, 0, 0, 0], "The foe's Tauros loses 48%, down to 2%."],
  [[2, 1, 151, 2, 99, 47, 0, 48, 0, 1], "The foe withdraws Tauros and sends out Mew, level 99, with 97%, asleep."],
  [[5, 1, 151, 0, 0, 48, 0, 1, 0], "The foe's Mew loses its last 97%."],
  [[26, 2], "You win."],
];
// Of the battle of README.md, what is said first, and at the end.
const SAID =
    ["Side 1 sends out Tauros.", "Side 2 sends out Tauros.", "Turn 1 begins.", "Side 1's Tauros uses Strength."];
const ENDS = ["Side 2's Tauros loses its last 149 HP.", "Side 2's Tauros faints.", "Side 1 wins."];

// Sentences (docs/MECHANICS.md, "Events").
function sentences(gen1, check) {
  check("sentences for a spectator and for a side", () => {
    const voices = [[gen1.narrator(), TOLD], [gen1.narrator({you: 2, inPercent: [true, false]}), TOLD_TO_TWO]];
    for (const [narrator, told] of voices)
      for (const [bytes, sentence] of told) {
        const [copy, log] = [narrator.clone(), Uint8Array.from(bytes)];
        equal([narrator.sentences(log), copy.say(gen1.events(log)[0])], [[sentence], sentence]);
      }
    equal(new Set(TOLD.map(([[tag]]) => tag)).size, library.EVENT_KINDS.length);
  });
  check("the battle of README.md in sentences", () => {
    const [narrator, parts] = [gen1.narrator(), gen1.narrator({you: null})];
    const whole = narrator.sentences(LOG);
    equal([whole.slice(0, 4), whole[7], whole.slice(-3)],
        [SAID, "Side 1's Tauros loses 90 HP, down to 263 of 353 HP.", ENDS]);
    equal([parts.sentences(LOG.buffer.slice(0, 41)), parts.sentences(new Uint8Array())], [whole.slice(0, 6), []]);
    const [copy, rest] = [parts.clone(), LOG.subarray(41)];
    equal([parts.sentences(rest), copy.sentences(rest)], [whole.slice(6), whole.slice(6)]);
  });
}

// States that are changed. A Tauros has Attack 298, Defense 288, Speed 318, Special 238 (docs/MECHANICS.md, "Stats" to "Penalties").
function states(gen1, check) {
  const battle = begun(gen1, "Tauros", "Tauros", ["Splash", "Strength"]);
  const current = (it, side = "one") => it.state[side].active.stats;
  check("changed states", () => {
    const before = hexOf(battle.bytes);
    equal(hexOf(gen1.battleOfState(battle.state).bytes), before);
    equal(battle.withHp(2, 1, 30).state.two.members[0].hp, 30);
    equal(current(battle.withStatus(1, 1, "burn")), [149, 288, 318, 238]);
    equal(current(battle.withStatus(2, 1, "paralysis"), "two"), [298, 288, 79, 238]);
    equal(current(battle.withStage(1, "speed", 2)), [298, 288, 636, 238]);
    // Stages and a penalty: 636 is quartered to 159; Attack at stage -1 is 196, and halved 98.
    equal(current(battle.withStatus(1, 1, "paralysis").withStage(1, "speed", 2)), [298, 288, 159, 238]);
    equal(current(battle.withStage(1, "attack", -1).withStatus(1, 1, "burn")), [98, 288, 318, 238]);
    const {status, sleep} = battle.withStatus(2, 1, "sleep", 3).state.two.members[0];
    equal(
        [status, sleep, battle.withStage(2, "evasion", -6).state.two.active.stages], ["sleep", 3, [0, 0, 0, 0, 0, -6]]);
    const puzzle = battle.withState((state) => {
      state.one.members[0].pp = [0, 1];
      state.limit = 7;
    });
    equal([puzzle.choices(1), puzzle.state.limit, hexOf(battle.bytes)], [["move 2"], 7, before]);
    // A state that the change returns counts, and any other value does not.
    equal([battle.withState((state) => ({...state, turn: 5})), battle.withState((state) => (state.turn = 6))].map(
              ({state}) => state.turn),
        [5, 6]);
  });
}

// Of side 1 a Tauros, of side 2 a Starmie, Chansey and Gengar. Tauros uses Swords Dance while Gengar comes in from place 3, and then Seismic
// Toss while Gengar uses Focus Energy. Their HP are 353, and 323, 703 and 323.
function played(gen1, terms, ...more) {
  const one = [{species: "Tauros", moves: [["Swords Dance", 3], ["Seismic Toss", 3]]}];
  const two = ["Starmie", "Chansey", "Gengar"].map(
      (species, place) => ({species, moves: [["Focus Energy", 3], ...(place ? more : [])]}));
  const battle = gen1.battle({one, two, seed: SEED});
  const [teller, player] = [gen1.teller({side: 1, ...terms}), gen1.player({side: 1, team: one, foes: 3})];
  for (const pair of [["pass", "pass"], ["move 1", "switch 3"], ["move 2", "move 1"]])
    teller.report(battle, battle.update(...pair).log, player);
  return player;
}

// docs/MECHANICS.md, "Player's view".
function players(gen1, check) {
  check("what a player knows of the foe", () => {
    const {turn, outcome, foes, foe} = played(gen1, {pixels: false}).view;
    const starmie =
        {species: "Starmie", level: 100, status: "none", asleepBy: null, slept: 0, hp: 323, maxHp: 323, moves: []};
    const gengar = {...starmie, species: "Gengar", hp: 223, moves: [{name: "Focus Energy", uses: 1}]};
    equal([turn, outcome, foes, foe.members], [3, "ongoing", 3, [starmie, gengar]]);
    const active = {
      place: 2,
      types: ["Ghost", "Poison"],
      stages: [0, 0, 0, 0, 0, 0],
      lastMove: "Focus Energy",
      announced: ["focus energy"],
      toxicCount: 0
    };
    equal(foe.active, active);
    // As the bar 323 is 48, and 223 is 12 * 223 / 80 = 33. In hundredths 223 is 100 * 223 / 323 = 69.04, rounded up.
    const told = (terms) => played(gen1, terms).view.foe.members;
    equal(told({}), [{...starmie, hp: 48, maxHp: 48}, {...gengar, hp: 33, maxHp: 48}]);
    equal(told({hpForm: "bar"}), told({}));
    equal(told({pixels: true}), told({}));
    equal(told({pixels: false}), [starmie, gengar]);
    equal(told({hpForm: "exact", pixels: true}), [starmie, gengar]);
    equal(told({hpForm: "hundredths"}), [{...starmie, hp: 100, maxHp: 100}, {...gengar, hp: 70, maxHp: 100}]);
  });
  check("what a player knows of itself", () => {
    const player = played(gen1, {pixels: true});
    const {own, ownPublic} = player.view;
    const tauros = {
      species: "Tauros",
      level: 100,
      status: "none",
      moves: ["Swords Dance", "Seismic Toss"],
      pp: [47, 31],
      hp: 353,
      maxHp: 353
    };
    equal([own.members, own.turn, own.request], [[{...tauros, stats: [298, 288, 318, 238]}], 3, "move"]);
    const active = {
      place: 1,
      types: ["Normal", "Normal"],
      stats: [596, 288, 318, 238],
      stages: [2, 0, 0, 0, 0, 0],
      conditions: []
    };
    equal(own.active, {...active, disabledSlot: 0, held: false});
    equal([player.choices, ownPublic.members[0].moves.map(({uses}) => uses)], [["move 1", "move 2"], [1, 1]]);
  });
  check("before the start, and what stays hidden", () => {
    const player = gen1.player({side: 2, team: PAIR});
    const {own, ownPublic, foe, foes} = player.view;
    equal([own, foe, foes, player.choices, player.side], [null, {members: [], active: null}, null, [], 2]);
    equal([ownPublic.members.map(({hp, moves}) => [hp, moves]), ownPublic.active], [[[353, []], [703, []]], null]);
    equal(played(gen1, {pixels: false}).view, played(gen1, {pixels: false}, ["Psychic", 0]).view);
  });
  check("what is told in pieces", () => {
    const battle = gen1.battle({one: PAIR, two: PAIR, seed: SEED});
    const [teller, whole] = [gen1.teller({side: 2, pixels: false}), gen1.player({side: 2, team: PAIR})];
    const told = teller.tell(battle.update("pass", "pass").log);
    const pieces = whole.clone();
    whole.feed(told);
    for (const byte of told) pieces.feed(Uint8Array.of(byte));
    equal([hexOf(told), pieces.view], [hexOf(LOG.subarray(0, 23)), whole.view]);
  });
}

const ALAKAZAM = {
  species: "Alakazam",
  moves: [["Psychic", 3]]
};

// Choices in words (docs/PROGRAM.md, "Text in place of JSON").
function inWords(gen1, check) {
  check("choices in words", () => {
    const team = [
      {species: "Tauros", moves: ["Body Slam", "Blizzard"]}, {species: "Mr. Mime", moves: ["Psychic"]},
      {species: "Gengar", moves: ["Night Shade"]}
    ];
    const battle = gen1.battle({one: team, two: team, seed: 7});
    equal([battle.choiceFromWords(1, "pass"), battle.choiceFromWords(2, "Switch 3")], ["pass", "switch 3"]);
    battle.update("pass", "pass");
    const cases = [
      ["Body Slam", "move 1"], ["move BODY-SLAM", "move 1"], ["move 2 Blizzard", "move 2"], ["blizzard", "move 2"],
      ["move 4", "move 4"], ["switch Mr. Mime", "switch 2"], ["switch mrmime", "switch 2"],
      ["switch 3 Gengar", "switch 3"], ["Switch 6", "switch 6"]
    ];
    for (const [words, choice] of cases) equal(battle.choiceFromWords(2, words), choice);
    for (const choice of battle.choices(1)) equal(battle.choiceFromWords(1, battle.words(1, choice)), choice);
    const [other, silent] = [battle.clone(), battle.clone()];
    const {log} = battle.update("Body Slam", "switch gengar");
    equal(hexOf(log), hexOf(other.update("move 1", "switch 3").log));
    silent.updateSilent("body slam", "switch 3 Gengar");
    equal([hexOf(silent.bytes), silent.words(1, "Blizzard")], [hexOf(battle.bytes), "move 2 Blizzard"]);
    equal(battle.outcomes("Blizzard", "Night Shade").length, battle.outcomes(18, 17).length);
    // Without PP no slot can be chosen.
    const empty = battle.withState(({one: {members}}) => void (members[0].pp = [0, 0]));
    equal(["Struggle", "Blizzard", "move 0"].map((words) => empty.choiceFromWords(1, words)), Array(3).fill("move 0"));
  });
}

// Side 1 after the first turn of a battle with Alakazam, whose Psychic it has seen. The log leaves its Tauros 5 of 353 HP, and Alakazam 32 of 313.
function guessing(gen1, hpForm) {
  const one = [{species: "Tauros", moves: [["Body Slam", 3]]}];
  const two = [ALAKAZAM, {species: "Chansey", moves: [["Ice Beam", 3]]}];
  const battle = gen1.battle({one, two, seed: SEED, rules: 3, limit: 50});
  const [teller, player] = [gen1.teller({side: 1, hpForm}), gen1.player({side: 1, team: one})];
  equal([player.rules, player.limit], [0, 1000]);
  for (const choice of ["pass", "move 1"]) teller.report(battle, battle.update(choice, choice).log, player);
  return player;
}

// Battles that fit what a player knows.
function guesses(gen1, check) {
  const player = guessing(gen1, "exact");
  const {ArgumentError, Battle} = library;
  check("what is known and what is guessed", () => {
    const team = [
      {species: "Alakazam", moves: [["Recover", 3], ["Psychic", 3]], exp: [65535, 0, 65535, 65535, 65535]},
      {species: "Gengar", moves: [["Hypnosis", 3]]}
    ];
    const numbers = Array.from({length: 10}, (_, at) => 20 + at);
    const copy = Battle.fromPlayer(player, {team, seed: numbers});
    const {state} = copy;
    equal([copy.ownSide(1), copy.choices(1)], [player.view.own, player.choices]);
    equal([state.turn, state.limit, state.rules, state.numbers, copy.choices(2)],
        [2, 50, 3, numbers, ["move 1", "move 2", "switch 2"]]);
    // Of 16 PP of Psychic one was used.
    const [alakazam, gengar] = state.two.members;
    equal([alakazam.maxHp, alakazam.hp, alakazam.pp, alakazam.status], [313, 32, [32, 15], "none"]);
    equal([gengar.hp, gengar.maxHp, state.two.active.currentMove], [323, 323, 2]);
    holds(copy.update("move 1", "move 2").log.length > 0, "no log");
  });
  check("a guess has HP that are told so", () => {
    // Without HP experience Alakazam has (55 + 15) * 2 + 110 = 250 HP. The bar of 32 of 313 HP has 12 * 32 / 78 = 4 pixels, and so has that of 21
    // of 250 (48 * 21 / 250), but not of 20. 32 of 313 are 11 hundredths, and so are 27 of 250, but not 28.
    const team = [{...ALAKAZAM, exp: [0, 65535, 65535, 65535, 65535]}];
    for (const [form, told, hp] of [["bar", 4, 21], ["hundredths", 11, 27]]) {
      const other = guessing(gen1, form);
      const [found] = Battle.fromPlayer(other, {team, seed: SEED}).state.two.members;
      equal([other.hpForm, other.view.foe.members[0].hp, found.hp, found.maxHp], [form, told, hp, 250]);
    }
    thrown(() => Battle.fromPlayer(player, {team, seed: SEED}), ArgumentError,
        /^guess\.team\[0\] must have a maximum HP that allows 32 of 313 HP, as the player was told$/);
    const {hpForm, rules, limit} = gen1.player({side: 1, team, hpForm: "hundredths", rules: 2, limit: 9999});
    equal([player.hpForm, player.rules, player.limit, hpForm, rules, limit], ["exact", 3, 50, "hundredths", 2, 9999]);
  });
  check("conditions that were announced", () => {
    const told = player.clone();
    told.feed(Uint8Array.of(18, 2, 65, 3, 18, 2, 65, 1, 18, 2, 65, 12));
    const out = Battle.fromPlayer(told, {team: [ALAKAZAM], seed: SEED}).state.two.active;
    equal([out.conditions, out.substitute, out.confusion], [["confused", "substitute"], 78, 3]);
    // The use of Rage explains it.
    told.feed(Uint8Array.of(3, 2, 65, 99, 1, 128, 18, 2, 65, 12));
    const raging = {...ALAKAZAM, moves: [["Psychic", 3], ["Rage", 3]]};
    const {conditions, currentMove, keptAccuracy} =
        Battle.fromPlayer(told, {team: gen1.team([raging]), seed: SEED}).state.two.active;
    equal([conditions.includes("rage"), currentMove, keptAccuracy], [true, 2, 255]);
    // Toxic, then damage by its poison and by Leech Seed.
    told.feed(Uint8Array.of(
        3, 1, 128, 92, 2, 65, 13, 2, 65, 2, 5, 2, 65, 13, 0, 57, 1, 2, 1, 18, 2, 65, 4, 5, 2, 65, 1, 0, 57, 1, 2, 3));
    const {badPoison} = Battle.fromPlayer(told, {team: gen1.team([raging]), seed: SEED}).state.two.active;
    equal([told.view.foe.active.toxicCount, badPoison], [2, 2]);
  });
}

// docs/MECHANICS.md, "Rooms".
function rooms(gen1, check) {
  const replied = (room, ...submission) => {
    try {
      return room.submit(...submission) ? "advanced" : "waiting";
    } catch (fault) {
      return fault.code;
    }
  };
  check("the example of rooms", () => {
    const room = gen1.room(gen1.battle(BATTLE));
    equal([room.number, hexOf(room.log), room.result.requests], [0, hexOf(LOG.subarray(0, 23)), ["move", "move"]]);
    const submissions = [[1, 0, 17], [1, 0, "move 1"], [2, 1, 17], [2, 0, "move 1"], [2, 0, 17], [1, 1, 20]];
    equal(submissions.map((it) => replied(room, ...it)), ["waiting", 53, 52, "advanced", 52, 54]);
    equal([room.number, hexOf(room.log)], [1, hexOf(LOG.subarray(23, 59))]);
    const kept = room.clone();
    equal([[1, 1, 17], [2, 1, 17]].map((it) => replied(room, ...it)), ["waiting", "advanced"]);
    equal([room.result.outcome, room.choices(1), room.choices(2), replied(room, 1, 2, 17)], ["win one", [], [], 24]);
    equal([kept.number, kept.choices(1), kept.battle.isOver], [1, ["move 1"], false]);
  });
  check("a room that is reseeded while it keeps a choice", () => {
    const [room, battle] = [gen1.room(gen1.battle(BATTLE)), gen1.battle(BATTLE)];
    battle.update("pass", "pass");
    room.submit(1, 0, 17);
    const other = SEED.map((byte) => 255 - byte);
    room.reseed(other);
    battle.reseed(other);
    equal(hexOf(room.submit(2, 0, 17).log), hexOf(battle.update(17, 17).log));
    equal(hexOf(room.battle.bytes), hexOf(battle.bytes));
  });
  check("a forfeit", () => {
    const room = gen1.room(gen1.battle(BATTLE));
    const kept = room.clone();
    room.submit(1, 0, 17);
    equal([room.forfeited, room.forfeit(1).lines, room.forfeited], [null, ["|win|p2"], 1]);
    equal([room.number, hexOf(room.log), room.result], [1, "1a02", {outcome: "win two", requests: ["pass", "pass"]}]);
    equal([hexOf(room.battle.bytes), room.choices(1), room.choices(2)], [hexOf(kept.battle.bytes), [], []]);
    equal([replied(room, 2, 1, 17), kept.forfeited, kept.number], [24, null, 0]);
    for (const side of [1, 2])
      equal(thrown(() => room.forfeit(side), library.RoomError, /the battle is over: win two$/).code, 24);
  });
  check("a side of which nothing is asked passes by itself", () => {
    const one = [{species: "Tauros", moves: [["Explosion", 3]]}, {species: "Chansey", moves: [["Strength", 3]]}];
    const room = gen1.room(gen1.battle({one, two: [{species: "Gengar", moves: [["Splash", 3]]}], seed: SEED}));
    equal([[1, 0, 17], [2, 0, 17]].map((it) => replied(room, ...it)), ["waiting", "advanced"]);
    equal([room.result.requests, room.choices(2)], [["switch", "pass"], []]);
    equal([[2, 1, 0], [1, 1, 17], [1, 1, "switch 2"]].map((it) => replied(room, ...it)), [53, 54, "advanced"]);
  });
}

// docs/MECHANICS.md, "Spectator's view".
function spectators(gen1, check) {
  const begun = (...events) => {
    const spectator = gen1.spectator(PAIR, PAIR);
    spectator.feed(Uint8Array.from([...OUT, ...events.flat()]));
    return spectator.state;
  };
  check("before the start", () => {
    const side = {
      members: [{hp: 353, status: "none"}, {hp: 703, status: "none"}],
      place: 0,
      stages: [0, 0, 0, 0, 0, 0]
    };
    const all = {...side, substitute: false, confused: false, lightScreen: false, reflect: false};
    equal(gen1.spectator(PAIR, PAIR).state, {one: all, two: all, turn: 0, outcome: "ongoing"});
  });
  check("a log is followed however it is cut", () => {
    for (let cut = 0; cut <= LOG.length; cut++) {
      const spectator = gen1.spectator(PAIR, PAIR);
      spectator.feed(LOG.subarray(0, cut));
      const held = spectator.held.length;
      equal(hexOf(spectator.held), hexOf(LOG.subarray(cut - held, cut)));
      spectator.clone().feed(LOG.subarray(cut));
      spectator.feed(LOG.subarray(cut));
      const {one, two, turn, outcome} = spectator.state;
      equal([one.members[0].hp, two.members[0].hp, turn, outcome, spectator.held.length], [263, 0, 2, "win one", 0]);
    }
  });
  check("what events change", () => {
    const out = begun([2, 1, 128, 2, 100, 244, 1, 191, 2, 5]).one;
    equal([out.place, out.members], [2, [{hp: 353, status: "none"}, {hp: 500, status: "paralysis"}]]);
    equal(begun([13, 1, 128, 3], [5, 1, 128, 12, 0, 97, 1, 0, 0]).one.members[0], {hp: 12, status: "burn"});
    const stages = begun(...Array(4).fill([15, 1, 128, 6, 2]), ...Array(4).fill([16, 2, 128, 4, 2]));
    equal([stages.one.stages, stages.two.stages, begun([1, 15, 39]).turn],
        [[0, 0, 0, 0, 0, 6], [0, 0, 0, -6, 0, 0], 9999]);
  });
  check("no log", () => {
    const spectator = gen1.spectator(PAIR, PAIR);
    spectator.feed(LOG.subarray(0, 26));
    const before = [spectator.state, hexOf(spectator.held)];
    equal(before[1], "030180");
    const fault = thrown(() => spectator.feed(Uint8Array.of(255, 255, 255)), library.LogError,
        /^3 bytes before these: a field of an event is out of its range$/);
    equal([fault.code, fault.at, spectator.state, hexOf(spectator.held)], [33, -3, ...before]);
  });
}

// docs/TEAM_TEXT.md.
function texts(gen1, check) {
  check("a team from text", () => {
    const text =
        "Tauros (M)\nLevel: 88\nEVs: 252 HP / 4 Atk / 100 SpA / 100 SpD\nIVs: 6 HP / 0 Atk / 20 Def\n- Body Slam\n";
    const wanted = {
      species: "Tauros",
      level: 88,
      dvs: [0, 10, 15, 15],
      exp: [252 * 252, 16, 0, 0, 10000],
      moves: [["Body Slam", 3]]
    };
    equal(gen1.teamFromText(text), [wanted]);
    const battle = gen1.battle({one: gen1.teamFromText(text), two: [wanted], seed: SEED});
    equal(battle.state.one, battle.state.two);
    equal(gen1.teamFromText("Starmie\n- Surf\n")[0].exp, Array(5).fill(63504));
  });
  check("a team from a packed line", () => {
    const line = "Bob|Tauros||NoAbility|bodyslam,hyperbeam||,4,,,,|M|,0,,,,||88|]Starmie||||psychic,recover|||||||";
    const [one, two] = gen1.teamFromPacked(line);
    equal([one.species, one.moves, one.exp, two.species],
        ["Tauros", [["Body Slam", 3], ["Hyper Beam", 3]], [0, 16, 0, 0, 0], "Starmie"]);
  });
  check("a team as text", () => {
    const team = gen1.teamFromText(
        "Bob (Tauros)\nLevel: 88\nIVs: 0 Atk\n- Body Slam\n\nMr. Mime\nEVs: 255 HP / 4 Spe\n- Psychic\n- Double-Edge\n");
    const one = "Tauros\nLevel: 88\nIVs: 14 HP / 0 Atk\n- Body Slam\n";
    const two = "Mr. Mime\nEVs: 252 HP / 0 Atk / 0 Def / 0 SpA / 0 SpD / 4 Spe\n- Psychic\n- Double-Edge\n";
    equal(gen1.teamToText(team), `${one}\n${two}`);
    equal(gen1.teamToPacked(gen1.team(team)),
        "Tauros||||bodyslam||||14,0,,,,||88|]Mr. Mime||||psychic,doubleedge||252,0,0,0,0,4|||||\n");
  });
  check("random teams, and the sample teams", () => {
    // docs/MECHANICS.md, "Random teams", by a program that is not the library's.
    equal(gen1.teamToText(gen1.randomTeam({seed: 7, count: 2})),
        "Zapdos\n- Thunderbolt\n- Drill Peck\n- Thunder Wave\n- Agility\n\n" +
            "Kabutops\n- Swords Dance\n- Surf\n- Slash\n- Hyper Beam\n");
    equal(gen1.teamToText(gen1.randomTeam({seed: 7n, legal: false, count: 2})),
        "Sandslash\n- Peck\n- Fury Attack\n- Seismic Toss\n- Drill Peck\n\n" +
            "Cloyster\n- Sonic Boom\n- Blizzard\n- Double Team\n- Thunder Shock\n");
    equal([gen1.randomTeam().length, new Set(gen1.randomTeam().map(({species}) => species)).size], [6, 6]);
    equal([gen1.sampleTeam(1)[0].species, gen1.sampleTeam(12).length], ["Alakazam", 6]);
  });
  check("every name is the library's", () => {
    for (const name of library.SPECIES) equal(gen1.teamFromText(`${name}\n- Pound\n`)[0].species, name);
    for (const name of library.MOVES) {
      const read = () => gen1.teamFromText(`Mew\n- ${name}\n`)[0].moves;
      if (["Mimic", "Metronome", "Mirror Move", "Transform", "Struggle"].includes(name))
        thrown(read, library.TextError, /^member 1: /);
      else
        equal(read(), [[name, 3]]);
    }
  });
}

// Who is ahead by the share of HP left.
function leader(battle) {
  const of = (members, key) => members.reduce((sum, member) => sum + member[key], 0);
  const [one, two] = [battle.state.one, battle.state.two].map(({members}) => of(members, "hp") / of(members, "maxHp"));
  return one > two ? "winsOne" : two > one ? "winsTwo" : "ties";
}

// The offered choices of a side, each as often as its weight says.
function copies(battle, side, weights) {
  const offered = battle.choices(side);
  const {members, active} = side === 1 ? battle.state.one : battle.state.two;
  const weightOf = (choice) => {
    const [kind, slot] = choice.split(" ");
    if (kind !== "move") return weights.switch ?? 1;
    return weights[slot === "0" ? "Struggle" : members[active.place - 1].moves[slot - 1]] ?? weights.move ?? 1;
  };
  const found = offered.flatMap((choice) => Array(weightOf(choice)).fill(choice));
  return found.length ? found : offered;
}

// Plays rounds of a playout update by update, with the generator that include/gen1.h describes.
function playedOut(battle, seed, rounds, {depth = Infinity, weights = {}} = {}) {
  const counts = {winsOne: 0, winsTwo: 0, ties: 0, faults: 0};
  const names = {"win one": "winsOne", "win two": "winsTwo", tie: "ties", "fault 1": "faults", "fault 2": "faults"};
  let state = seed;
  const below = (count) => {
    state = (state * 6364136223846793005n + 1442695040888963407n) % 2n ** 64n;
    return Number((state >> 32n) % BigInt(count));
  };
  const pick = (offered) => offered[below(offered.length)];
  for (let round = 0; round < rounds; round++) {
    const copy = battle.clone();
    copy.reseed(Array.from({length: 10}, () => below(256)));
    for (let updates = 0; !copy.isOver && updates < depth; updates++)
      copy.updateSilent(pick(copies(copy, 1, weights)), pick(copies(copy, 2, weights)));
    counts[copy.isOver ? names[copy.result.outcome] : leader(copy)]++;
  }
  return counts;
}

// docs/TABLES.md, "Species" and "Moves".
function rows(gen1, check) {
  check("rows of the tables", () => {
    equal(
        gen1.base("Starmie"), {hp: 60, attack: 75, defense: 85, speed: 115, special: 100, types: ["Water", "Psychic"]});
    equal(gen1.base(128).types, ["Normal", "Normal"]);
    equal(gen1.moveData("Blizzard"),
        {type: "Ice", power: 120, accuracy: 90, pp: 5, effect: "FreezeChance", priority: 0, isHighCritical: false});
    equal([gen1.moveData(165), gen1.moveData("Sharpen").effect], [gen1.moveData("Struggle"), "StatUp(Attack, 1)"]);
    equal(library.MOVES.filter((move) => gen1.moveData(move).effect === "OneHitKnockOut"),
        ["Guillotine", "Horn Drill", "Fissure"]);
    equal(library.MOVES.filter((move) => gen1.moveData(move).isHighCritical),
        ["Karate Chop", "Razor Leaf", "Crabhammer", "Slash"]);
    equal([-1, 1].map((priority) => library.MOVES.filter((move) => gen1.moveData(move).priority === priority)),
        [["Counter"], ["Quick Attack"]]);
  });
  check("type rows", () => {
    const [normal, water] = [library.TYPES.indexOf("Normal"), library.TYPES.indexOf("Water")];
    equal([gen1.effectiveness("Water", "Fire"), gen1.effectiveness(water, water), gen1.effectiveness(normal, "Ghost")],
        [2, 0.5, 0]);
    equal([gen1.effectiveness("Ghost", "Psychic"), gen1.effectiveness("Normal", "Water")], [0, 1]);
  });
  check("stats without a battle", () => {
    equal(gen1.stats({species: "Tauros", moves: [["Strength", 3]]}),
        {hp: 353, attack: 298, defense: 288, speed: 318, special: 238});
  });
  check("a member in short", () => {
    const [mime] = gen1.team([{species: "mr mime", moves: ["psychic", ["BODYSLAM", 1], 86]}]).members;
    equal(mime, {
      species: "Mr. Mime",
      level: 100,
      dvs: [15, 15, 15, 15],
      exp: [65535, 65535, 65535, 65535, 65535],
      moves: [["Psychic", 3], ["Body Slam", 1], ["Thunder Wave", 3]]
    });
  });
  check("drain and recoil", () => {
    for (const move of ["Absorb", "Mega Drain", "Leech Life", "Dream Eater"])
      equal([1, 2, 101].map((it) => gen1.drained(move, it)), [1, 1, 50]);
    for (const move of ["Take Down", "Double-Edge", "Submission"])
      equal([1, 4, 103].map((it) => gen1.recoil(move, it)), [1, 1, 25]);
    equal([gen1.recoil("Struggle", 103), gen1.recoil("Absorb", 103), gen1.drained("Struggle", 103)], [51, 0, 0]);
  });
}

// An array, whose battles are those that are played one by one.
function arrays(gen1, check) {
  const team = gen1.team(
      ["Starmie", "Tauros"].map((species) => ({species, moves: [["Blizzard", 3], ["Toxic", 3], ["Explosion", 3]]})));
  const battle = gen1.battle({one: team, two: team, seed: SEED, limit: 30});
  const sides =
      [1, 2].map((side) => ({teller: gen1.teller({side, pixels: true}), player: gen1.player({side, team, foes: 2})}));
  const seeds = Uint8Array.from({length: 50}, (_, at) => (at * 37) % 256);
  const arraysOf =
      () => [gen1.battleArray({battle, count: 5, seeds}), gen1.battleArray({battle, count: 5, seeds, sides})];
  check("an array of battles", () => {
    const [plain, watched] = arraysOf();
    const alone = Array.from({length: 5}, (_, at) => {
      const copy = battle.clone();
      copy.reseed(seeds.subarray(10 * at, 10 * at + 10));
      return {copy, sides: sides.map(({teller, player}) => ({teller: teller.clone(), player: player.clone()}))};
    });
    for (let turn = 0; turn < 40; turn++) {
      const pick = (side) =>
          alone.map(({copy}, at) => library.byteOf(
                        copy.choices(side)[(turn * 7 + at + side) % (copy.choices(side).length || 1)] ?? 0));
      const [ones, twos] = [pick(1), pick(2)];
      equal(Array.from(plain.masks(1)), alone.map(({copy}) => copy.offeredMask(1)));
      equal(Array.from(watched.step(ones, twos)), Array.from(plain.step(ones, twos)));
      alone.forEach(({copy, sides: both}, at) => {
        if (copy.isOver) return;
        const {log, result} = copy.update(ones[at], twos[at]);
        for (const {teller, player} of both) teller.report(copy, log, player);
        equal(library.OUTCOMES[plain.results[at] & 7], result.outcome);
      });
      const all = alone.map(({copy}) => hexOf(copy.bytes)).join("");
      equal([hexOf(plain.bytes), hexOf(watched.bytes), watched.codes, plain.at(3).state],
          [all, all, plain.codes, alone[3].copy.state]);
      for (const side of [1, 2]) equal(watched.player(2, side).view, alone[2].sides[side - 1].player.view);
    }
    holds(alone.every(({copy}) => copy.isOver), "a battle goes on after its limit");
    const first = watched.take([4, 0, 4]);
    equal([hexOf(first.at(0).bytes), hexOf(first.at(2).bytes), first.player(1, 2).view],
        [hexOf(plain.at(4).bytes), hexOf(plain.at(4).bytes), watched.player(0, 2).view]);
    watched.reset([0, 1, 0, 0, 0]);
    equal([watched.results[1] & 7, watched.player(1, 1).view.turn, watched.player(0, 1).view.turn > 0], [0, 0, true]);
    watched.reset();
    equal(hexOf(watched.bytes), hexOf(arraysOf()[0].bytes));
  });
  check("random steps are those of the generator of gen1.h, with players and without", () => {
    const [both, counts] = [arraysOf(), [0, 0, 0]];
    const alone = Array.from({length: 5}, (_, at) => both[0].at(at));
    // Numbers of an LCG, the same for each counter.
    const numbers = (of) => () => ((counts[of]++ * 2654435761 + 97) % 2 ** 32) / 2 ** 32;
    const word = () => BigInt(Math.floor(numbers(2)() * 2 ** 32));
    for (let step = 0; step < 40; step++) {
      const pairs = both.map((it, at) => it.randomStep(numbers(at)).map((side) => Array.from(side)));
      const want = [[], []];
      for (const it of alone) {
        let state = word() + (word() << 32n);
        for (const side of [1, 2]) {
          const choices = it.choices(side);
          if (choices.length) state = BigInt.asUintN(64, state * 6364136223846793005n + 1442695040888963407n);
          want[side - 1].push(
              choices.length ? library.byteOf(choices[Number((state >> 32n) % BigInt(choices.length))]) : 0);
        }
        if (!it.isOver) it.update(want[0].at(-1), want[1].at(-1));
      }
      const all = alone.map((it) => hexOf(it.bytes)).join("");
      equal([pairs, both.map((it) => hexOf(it.bytes)), both[0].codes, both[0].results],
          [[want, want], [all, all], both[1].codes, both[1].results]);
    }
    equal(both[0].codes, Uint8Array.of(24, 24, 24, 24, 24));
  });
  check("observations", () => {
    const [, watched] = arraysOf();
    const row = (it, side, place) => {
      const rows = it.observe(side).subarray(library.COLUMNS.length * place, library.COLUMNS.length * (place + 1));
      return Object.fromEntries(library.COLUMNS.map((name, column) => [name, rows[column]]));
    };
    watched.randomStep();
    // Starmie is 121 in docs/TABLES.md, of types 9 and 12; its 323 HP are reported in 48ths. Blizzard and Explosion are 59 and 153.
    const found = row(watched, 2, 3);
    equal(
        [
          "own member 2 species", "own member 1 max hp", "own member 1 move 1", "own type 1", "own stage 3", "turn",
          "foes"
        ].map((name) => found[name]),
        [128, 323, 59, 9, 6, 1, 2]);
    equal(
        [
          "foe member 1 species", "foe member 1 hp", "foe member 1 max", "foe member 2 species", "foe place",
          "foe first type"
        ].map((name) => found[name]),
        [121, 48, 48, 0, 1, 9]);
    equal(library.CHOICES.filter((name) => found[`offered ${name}`]), ["move 1", "move 2", "move 3", "switch 2"]);
    watched.step(new Uint8Array(5).fill(18), new Uint8Array(5).fill(0x22));
    const after = row(watched, 2, 0);
    equal(
        [
          after["foe last move"], after["foe member 1 move 1 id"], after["foe member 1 move 1 uses"],
          after["own place"], after.turn
        ],
        [92, 92, 1, 2, 2]);
    equal(library.COLUMNS.length, new Set(library.COLUMNS).size);
  });
  check("a row is the same whatever the foe keeps hidden", () => {
    const rowsWith = (hidden) => {
      const foe = gen1.team([
        {species: "Starmie", moves: [["Blizzard", 3], [hidden, 3]]},
        {species: hidden === "Surf" ? "Mew" : "Onix", moves: [["Bind", 3]]}
      ]);
      const own = [1, 2].map((side) => ({
        teller: gen1.teller({side, pixels: true}),
        player: gen1.player({side, team: side === 1 ? team : foe, foes: 2})
      }));
      const array = gen1.battleArray({battle: gen1.battle({one: team, two: foe, seed: SEED}), count: 1, sides: own});
      array.step([0], [0]);
      array.step([18], [17]);
      return Array.from(array.observe(1));
    };
    equal(rowsWith("Surf"), rowsWith("Psychic"));
  });
  check("playouts of an array", () => {
    const [plain] = arraysOf();
    const counts = plain.playouts(2n ** 64n - 2n, 3);
    const wanted = [0, 1, 2, 3, 4].flatMap(
        (at) => Object.values(plain.at(at).playout((2n ** 64n - 2n + BigInt(at)) % 2n ** 64n, 3)));
    equal(Array.from(counts), wanted);
  });
}

function searching(gen1, check) {
  const team = [
    {species: "Tauros", moves: [["Body Slam", 3], ["Hyper Beam", 3], ["Earthquake", 3], ["Blizzard", 3]]},
    {species: "Gengar", level: 73, moves: [["Hypnosis", 3], ["Night Shade", 3]]}
  ];
  const battle = gen1.battle({one: team, two: team, seed: [0, 1, 2, 3, 4, 5, 6, 7, 8, 9], limit: 60});
  check("choices in words", () => {
    battle.updateSilent("pass", "pass");
    const words = battle.choices(1).map((choice) => battle.words(1, choice));
    equal(words, ["move 1 Body Slam", "move 2 Hyper Beam", "move 3 Earthquake", "move 4 Blizzard", "switch 2 Gengar"]);
    equal([battle.words(2, "pass"), battle.words(2, "move 0"), battle.words(2, 0x21)],
        ["pass", "move 0", "switch 1 Tauros"]);
    // Bits 2 to 5 are the moves in slots 1 to 4, bit 7 the switch to place 2.
    equal([battle.offeredMask(1), gen1.battle({one: team, two: team, seed: SEED}).offeredMask(2)], [0b10111100, 1]);
  });
  check("a battle that is reseeded", () => {
    const copy = battle.clone();
    copy.reseed([9, 8, 7, 6, 5, 4, 3, 2, 1, 0], 8);
    equal(copy.state, {...battle.state, index: 8, numbers: [9, 8, 7, 6, 5, 4, 3, 2, 1, 0]});
    equal(hexOf(gen1.load(battle.bytes).bytes), hexOf(battle.bytes));
  });
  check("the tests of loading", () => {
    // docs/LAYOUT.md, "Loading": index, a member's HP, current Speed (318 quartered is 79) and request of side 1.
    const changed = (at, byte) => {
      const {bytes} = battle;
      bytes[at] = byte;
      return gen1.testBytes(bytes);
    };
    const places = [[5, 8], [0, 4], [5, 9], [24 + 5, 255], [168 + 22, 1], [168 + 9, 1], [17, 2]];
    equal(places.map((it) => changed(...it)), [0, 17, 18, 19, 20, 21, 22]);
  });
  check("playouts", () => {
    const {moves} = battle.state.one.members[0];
    for (const seed of [0n, 7n, 2n ** 64n - 1n]) {
      equal(battle.playout(seed, 5), playedOut(battle, seed, 5));
      for (const depth of [1, 6, 30]) equal(battle.playout(seed, 5, {depth}), playedOut(battle, seed, 5, {depth}));
      for (const weights of [{}, {move: 4},
               {
                 switch: 0
               },
               {
                 move: 0, switch: 0
               },
               {[moves[0]]: 255, [moves[1]]: 0, move: 3, Struggle: 0}])
        equal(battle.playout(seed, 5, {weights, depth: 40}), playedOut(battle, seed, 5, {weights, depth: 40}));
    }
    equal([battle.playout(7, 5), battle.playout(1, 0)],
        [battle.playout(7n, 5), {winsOne: 0, winsTwo: 0, ties: 0, faults: 0}]);
  });
}

// The sizes that include/gen1.h states, and the offsets of a struct with a size_t in C.
function layouts(check) {
  check("structs", () => {
    const sizes = (isLong) => ["gen1_battle", "gen1_team", "gen1_event", "gen1_room", "gen1_spectator", "gen1_host",
        "gen1_row", "gen1_message", "gen1_notice", "gen1_odds"]
                                  .map((it) => layoutOf(it, isLong).size);
    for (const isLong of [false, true])
      equal(sizes(isLong), [
        384, 146, 18, CODES.ROOM_SIZE, CODES.SPECTATOR_SIZE, CODES.HOST_SIZE, CODES.ROW_SIZE, CODES.MESSAGE_SIZE,
        CODES.NOTICE_SIZE, 176
      ]);
    const places = (isLong) => layoutOf("gen1_text_fault", isLong).fields.map((field) => field.at);
    equal([places(false), places(true)], [[0, 4, 8, 12, 13, 14], [0, 8, 16, 24, 25, 26]]);
  });
}

// The ten numbers that a number determines, by the generator of playouts (include/gen1.h, "many battles").
function numbersOf(seed) {
  let state = BigInt(seed);
  return Array.from({length: 10}, () => {
    state = BigInt.asUintN(64, state * 6364136223846793005n + 1442695040888963407n);
    return Number(state >> 32n & 255n);
  });
}

/** Battles whose seed is a number, or left out. */
function seeds(gen1, check) {
  check("a number as a seed, and none", () => {
    const {seed, ...teams} = BATTLE;
    for (const number of [0, 7, 2 ** 53 - 1, 7n, 2n ** 64n - 1n]) {
      const [one, other] = [number, numbersOf(number)].map((it) => gen1.battle({...teams, seed: it}));
      equal(hexOf(one.bytes), hexOf(other.bytes));
      other.reseed(SEED);
      other.reseed(number);
      equal(hexOf(one.bytes), hexOf(other.bytes));
    }
    holds(hexOf(gen1.battle(teams).bytes) !== hexOf(gen1.battle(teams).bytes));
  });
}

/** Runs all worked examples. */
export function worked(gen1, check) {
  for (const part of [logs, sentences, chances, states, players, guesses, inWords, rooms, hosts, spectators, texts,
           rows, arrays, searching, seeds])
    part(gen1, check);
  layouts(check);
}
