// Bad input: each error is named and says which argument is wrong, what it was and what is lawful, and nothing changes.
import * as library from "../gen1.mjs";

import {BIG, equal, hexOf, holds, NO_NUMBERS, NO_OBJECTS, outside, SEED, TAUROS, TERMS, thrown, wrong} from "./holding.mjs";
import {badHosts} from "./hosts.mjs";
import {wrongStates, wrongWords} from "./state_faults.mjs";

const {ArgumentError, ArgumentTypeError, DamageError, FreedError, LoadError, LogError, ModuleError} = library;
const {RefusedError, RoomError, StateError, TeamError, TextError} = library;

// Fields of a member: the given value, the error, its argument and text, and the code of a TeamError.
const MEMBERS = [
  [{species: "Missingno."}, ArgumentError, "species", /is "Missingno.", which is not in docs\/TABLES.md$/],
  [
    {species: "taurus"}, ArgumentError, "species",
    /is "taurus", which is not in docs\/TABLES.md; did you mean "Tauros"\?/
  ],
  ...[undefined, null, {}, true, 1.5].map(
      (species) => [{species}, ArgumentTypeError, "species", /, not (a name or a number|a whole number)$/]),
  ...[0, 152, 255, ...BIG].map((species) => [{species}, TeamError, 10, /the species is not 1 to 151: species is /]),
  ...[0, 101, 255, ...BIG].map((level) => [{level}, TeamError, 3, /the level is not 1 to 100: level is /]),
  ...NO_NUMBERS.slice(1).map((level) => [{level}, ArgumentTypeError, "level", /, not a whole number$/]),
  ...[16, 255, ...BIG].map((dv) => [{dvs: [15, dv, 15, 15]}, TeamError, 4, /a DV is above 15: dvs is \[15,/]),
  ...NO_NUMBERS.map((dv) => [{dvs: [15, dv, 15, 15]}, ArgumentTypeError, "dvs[1]", /, not a whole number$/]),
  [{dvs: [15, 15, 15]}, ArgumentError, "dvs", /has 3 numbers, not 4$/],
  ...["1234", 5, {}, true].map((dvs) => [{dvs}, ArgumentTypeError, "dvs", /, not a list of 4 numbers$/]),
  ...[-1, 65536, 2 ** 32].map((exp) => [{exp: [0, 0, exp, 0, 0]}, ArgumentError, "exp[2]", /, not 0 to 65535$/]),
  [{exp: [0, 0, 0, 0, 0, 0]}, ArgumentError, "exp", /has 6 numbers, not 5$/],
  ...[undefined, null, 5, "Pound", {}].map(
      (moves) => [{moves}, ArgumentTypeError, "moves", /, not a list of moves, each a name or a pair/]),
  [{moves: []}, TeamError, 5, /the member has no move: it has 1 to 4: moves is \[\]$/],
  [{moves: Array(5).fill(["Pound", 3])}, ArgumentError, "moves", /has 5 moves, not at most 4$/],
  [
    {moves: [["Pound", 3], true]}, ArgumentTypeError, "moves[1]",
    /is true, not a move, or a pair: a move, and its PP ups from 0 to 3$/
  ],
  [{moves: [["Pound"]]}, ArgumentError, "moves[0]", /is \["Pound"\], not a move, or a pair/],
  [
    {moves: [["Pond", 3]]}, ArgumentError, "moves[0][0]",
    /is "Pond", which is not in docs\/TABLES.md; did you mean "Pound"\?$/
  ],
  [{moves: ["body slan"]}, ArgumentError, "moves[0]", /did you mean "Body Slam"\?$/],
  ...[0, 166, 255, ...BIG].map((move) => [{moves: [["Pound", 3], [move, 3]]}, TeamError, 11,
                                   /a move is not 1 to 165: moves is \[\["Pound",3\],/]),
  ...NO_NUMBERS.filter((it) => typeof it !== "string")
      .map((move) => [{moves: [[move, 3]]}, ArgumentTypeError, "moves[0][0]", /, not a/]),
  ...[4, 255, ...BIG].map(
      (ups) => [{moves: [["Pound", ups]]}, TeamError, 9, /a move has more than 3 PP ups: moves is /]),
  ...NO_NUMBERS.map((ups) => [{moves: [["Pound", ups]]}, ArgumentTypeError, "moves[0][1]", /, not a whole number$/]),
  [{moves: [["Pound", 3], ["Pound", 3]]}, TeamError, 8, /a move is there twice: /],
  [{moves: [["Struggle", 3]]}, TeamError, 7, /Struggle cannot be chosen/],
  ...["Mimic", "Metronome", "Mirror Move", "Transform"].map(
      (name) => [{moves: [[name, 3]]}, TeamError, 6, /a move is left out of the engine/]),
];

// All calls that take a member: as the second of side 2, and alone for odds.
function members(gen1, check) {
  check(`${MEMBERS.length} members`, () => {
    for (const [changed, type, which, text] of MEMBERS) {
      const given = {...TAUROS, ...changed};
      const fault = thrown(() => gen1.battle({...TERMS, two: [TAUROS, given]}), type, text);
      if (type === TeamError)
        equal(
            [fault.code, fault.side, fault.place, fault.message.startsWith("team 2: member 2: ")], [which, 2, 2, true]);
      else
        equal([fault.argument, fault.message.startsWith(`two[1].${which} `)], [`two[1].${which}`, true]);
      const alone = thrown(() => gen1.odds(TAUROS, given, "Pound"), type, text);
      holds(alone.message.startsWith("defender"), alone.message);
    }
  });
  check("teams", () => {
    for (const it of [...NO_OBJECTS, {}])
      wrong(() => gen1.battle({...TERMS, one: it}), /^one is .*, not a list of 1 to 6 members$/);
    for (const it of [...NO_OBJECTS, ["Tauros"]])
      wrong(() => gen1.battle({...TERMS, two: [TAUROS, it]}), /^two\[1\] is .*, not a member: an object/);
    thrown(() => gen1.battle({...TERMS, one: []}), TeamError,
        /^team 1: the team has no member: it has 1 to 6: there are 0$/);
    for (const count of [7, 255, 256, 257, 262, 1000])
      thrown(() => gen1.battle({...TERMS, two: Array(count).fill(TAUROS)}), TeamError,
          new RegExp(`^team 2: .* more than 6 members: there are ${count}$`));
    for (const it of NO_OBJECTS) wrong(() => gen1.battle(it), /^terms is .*, not an object with one, two and seed$/);
    thrown(() => gen1.spectator([TAUROS], []), TeamError, /^team 2: the team has no member/);
    wrong(() => gen1.spectator(5, [TAUROS]), /^one is 5, not a list of 1 to 6 members$/);
  });
}

// Keys that are none, of each object that the calls take.
function keys(gen1, battle, check) {
  const asked = [
    [
      () => gen1.battle({...TERMS, one: [{...TAUROS, lvl: 50}]}), "one[0].lvl",
      /^one\[0\] has the unknown key "lvl"; did you mean "level"\?$/
    ],
    [
      () => gen1.team([TAUROS, {...TAUROS, ivs: []}]), "members[1].ivs",
      /^members\[1\] has the unknown key "ivs"; did you mean "dvs"\?$/
    ],
    [
      () => gen1.battle({...TERMS, choices: []}), "terms.choices",
      /^terms has the unknown key "choices"; its keys are one, two, seed, rules, limit$/
    ],
    [() => gen1.player({side: 1, tem: [TAUROS]}), "terms.tem", /"tem"; did you mean "team"\?$/],
    [() => gen1.teller({side: 1, pixel: true}), "terms.pixel", /"pixel"; did you mean "pixels"\?$/],
    [() => battle.withState((state) => void (state.turns = 3)), "state.turns", /"turns"; did you mean "turn"\?$/],
    [
      () => battle.outcomes(17, 17, {damageClass: 3}), "options.damageClass",
      /^options has the unknown key "damageClass"; did you mean "damageClasses"\?$/
    ],
    [
      () => battle.outcomes(17, 17, {classes: 3}), "options.classes",
      /"classes"; its keys are damageClasses, leastProbability$/
    ],
    [() => battle.playout(1, 1, {dpth: 1}), "options.dpth", /"dpth"; did you mean "depth"\?$/],
    [() => battle.playout(1, 1, {weight: {}}), "options.weight", /"weight"; did you mean "weights"\?$/],
    [
      () => gen1.battleArray({battle, count: 1}).playouts(1, 1, {dept: 1}), "options.dept",
      /"dept"; did you mean "depth"\?$/
    ],
    [
      () => battle.withState(({two}) => void (two.member = [])), "state.two.member",
      /"member"; did you mean "members"\?$/
    ],
    [
      () => battle.withState(({one: {members}}) => void (members[0].HP = 5)), "state.one.members[0].HP",
      /"HP"; did you mean "hp"\?$/
    ],
    [
      () => battle.withState(({one: {active}}) => void (active.stage = [])), "state.one.active.stage",
      /"stage"; did you mean "stages"\?$/
    ],
  ];
  check("unknown keys", () => {
    for (const [call, argument, text] of asked) equal(outside(call, text).argument, argument);
  });
}

// Teams that are tested on their own, and battles that were freed.
function teams(gen1, check) {
  check("teams that are none", () => {
    for (const it of NO_OBJECTS) wrong(() => gen1.team(it), /^members is .*, not a list of 1 to 6 members$/);
    for (const it of [[], Array(7).fill(TAUROS)])
      equal(thrown(() => gen1.team(it), TeamError, /^the team has (no member|more than 6 members)/).side, 0);
    const {side, place, field} = thrown(() => gen1.team([TAUROS, {...TAUROS, level: 0}]), TeamError,
        /^member 2: the level is not 1 to 100: level is 0$/);
    equal([side, place, field], [0, 2, "level"]);
    const team = gen1.team([TAUROS]);
    thrown(() => gen1.battle({...TERMS, one: team, two: []}), TeamError, /^team 2: the team has no member/);
    thrown(() => gen1.battle({...TERMS, one: team, rules: 4}), TeamError, /^the rules are not 0 to 3: rules is 4$/);
  });
  check("freed battles", () => {
    const [battle, other] = [gen1.battle(TERMS), gen1.battle(TERMS)];
    for (const it of [...NO_OBJECTS, {}]) wrong(() => battle.copyFrom(it), /^battle is .*, not a Battle$/);
    battle.free();
    battle.free();
    const calls = [
      () => battle.bytes,
      () => battle.state,
      () => battle.result,
      () => battle.isOver,
      () => battle.clone(),
      () => battle.copyFrom(other),
      () => other.copyFrom(battle),
      () => battle.choices(1),
      () => battle.offeredMask(1),
      () => battle.words(1, "pass"),
      () => battle.update("pass", "pass"),
      () => battle.updateSilent("pass", "pass"),
      () => battle.reseed(SEED),
      () => battle.playout(1, 1),
      () => battle.outcomes(0, 0),
      () => battle.odds(1, "Pound"),
      () => battle.actionOdds(1, "Pound"),
      () => battle.knockOut(1, "Pound"),
      () => battle.knockOutInThree(1, "Pound"),
      () => battle.damage(1, "Pound"),
      () => battle.ownSide(1),
      () => battle.withHp(1, 1, 5),
      () => gen1.room(battle),
      () => gen1.player({side: 1, team: [TAUROS]}).show(battle),
    ];
    for (const call of calls) thrown(call, FreedError, /^the battle was freed$/);
    equal(hexOf(other.bytes), hexOf(gen1.battle(TERMS).bytes));
  });
}

function terms(gen1, check) {
  check("seeds", () => {
    for (const seed of [[1, 2, 3], Array(11).fill(0), new Uint8Array(9)])
      outside(() => gen1.battle({...TERMS, seed}), new RegExp(`^seed has ${seed.length} numbers, not 10$`));
    for (const it of BIG)
      outside(() => gen1.battle({...TERMS, seed: [it, ...SEED.slice(1)]}), /^seed\[0\] is -?\d.*, not 0 to 255$/);
    for (const seed of [null, "0123456789", {}])
      wrong(() => gen1.battle({...TERMS, seed}), /^seed is .*, not a list of 10 numbers$/);
    for (const seed of [-1, -1n, 2n ** 64n, 2 ** 53])
      outside(() => gen1.battle({...TERMS, seed}), /^seed is -?\d.*, not 0 to 2/);
    for (const seed of [1.5, NaN])
      wrong(() => gen1.battle({...TERMS, seed}), /^seed is .*, not a whole number or a BigInt$/);
    for (const it of NO_NUMBERS)
      wrong(() => gen1.battle({...TERMS, seed: [it, ...SEED.slice(1)]}), /^seed\[0\] is .*, not a whole number$/);
  });
  check("rules and limits", () => {
    for (const rules of [4, ...BIG])
      equal(
          thrown(() => gen1.battle({...TERMS, rules}), TeamError, /^the rules are not 0 to 3: rules is -?\d/).side, 0);
    for (const limit of [0, -1, 10000, 65536, 65537, 2 ** 53])
      thrown(() => gen1.battle({...TERMS, limit}), TeamError, /^the turn limit is not 1 to 9,999: limit is -?\d/);
    for (const it of NO_NUMBERS) {
      wrong(() => gen1.battle({...TERMS, rules: it}), /^rules is .*, not a whole number$/);
      wrong(() => gen1.battle({...TERMS, limit: it}), /^limit is .*, not a whole number$/);
    }
  });
}

function bytes(gen1, check) {
  check("bytes", () => {
    for (const count of [0, 383, 385])
      equal(thrown(() => gen1.load(new Uint8Array(count)), LoadError,
                new RegExp(`test 1 of 7 fails: there are not 384 bytes: there are ${count} `))
                .code,
          16);
    equal(thrown(() => gen1.load(new Uint8Array(384)), LoadError,
              /test 2 of 7 fails: the version, byte 0, is not 1, 2 or 3/)
              .code,
        17);
    equal([0, 383, 384].map((count) => gen1.testBytes(new Uint8Array(count))), [16, 16, 17]);
    for (const it of [undefined, null, "a battle", 384, Array(384).fill(0), new Uint16Array(192)])
      for (const call of [gen1.load, gen1.testBytes, gen1.lines, gen1.events])
        wrong(() => call.call(gen1, it), /^(bytes|log) is .*, not bytes, as a Uint8Array$/);
  });
  check("logs", () => {
    for (const [more, code, text] of [
             [[0], 32, /no tag/], [[29], 32, /no tag/], [[26, 3], 33, /out of its range/], [[26], 34, /end within/]])
      for (const call of [gen1.lines, gen1.events]) {
        const fault = thrown(() => call.call(gen1, Uint8Array.of(26, 1, ...more)), LogError, text);
        equal([fault.code, fault.at, fault.message.startsWith("byte 2: ")], [code, 2, true]);
      }
  });
  check("events", () => {
    const who = {side: 1, species: "Tauros"};
    for (const it of NO_OBJECTS) wrong(() => gen1.logBytes(it), /^events is .*, not a list of events$/);
    for (const it of [...NO_OBJECTS, [1]])
      wrong(() => gen1.logBytes([{kind: "tie"}, it]), /^events\[1\] is .*, not an event/);
    for (const it of [undefined, 26, null])
      equal(wrong(() => gen1.logBytes([{kind: it}]), /, not a string$/).argument, "events[0].kind");
    outside(
        () => gen1.logBytes([{kind: "won", side: 1}]), /^events\[0\]\.kind is "won", not one of "turn", "switch", /);
    outside(() => gen1.logBytes([{kind: "win", sides: 1}]),
        /^events\[0\] has the unknown key "sides"; did you mean "side"\?$/);
    outside(() => gen1.logBytes([{kind: "crit", ...who, species: "taurus"}]), /did you mean "Tauros"\?$/);
    outside(() => gen1.logBytes([{kind: "cant", ...who, reason: "lazy"}]),
        /^events\[0\]\.reason is "lazy", not one of "asleep", /);
    for (const it of [undefined, ...NO_NUMBERS])
      wrong(() => gen1.logBytes([{kind: "turn", turn: it}]), /^events\[0\]\.turn is .*, not a whole number$/);
    const fields = [
      ...[0, 10000, ...BIG.slice(5)].map((turn) => ({kind: "turn", turn})),
      ...[0, 3, ...BIG].map((side) => ({kind: "win", side})),
      ...[0, 152, ...BIG].map((species) => ({kind: "faint", side: 1, species})),
      ...[0, 166, ...BIG].map((move) => ({kind: "prepare", ...who, move})),
      ...[0, 3, ...BIG].map((stages) => ({kind: "boost", ...who, stat: "speed", stages})),
      ...[0, 6, ...BIG].map((hits) => ({kind: "hit count", ...who, hits})),
      ...[-1, 354, ...BIG.slice(4)].map((hp) => ({kind: "heal", ...who, hp, maxHp: 353, status: "none"})),
      {kind: "status", ...who, status: "none"},
    ];
    for (const event of fields)
      equal(outside(() => gen1.logBytes([event]), /^events\[0\] is \{.*, which has a field that is out of range/)
                .argument,
          "events[0]");
  });
  check("random teams", () => {
    for (const count of [0, 7]) outside(() => gen1.randomTeam({count}), /^count is ., not 1 to 6$/);
    for (const number of [0, 13]) outside(() => gen1.sampleTeam(number), /^number is .*, not 1 to 12$/);
    outside(() => gen1.randomTeam({seed: -1}), /^seed is -1, not 0 to /);
    outside(() => gen1.randomTeam({size: 6}), /^options has the unknown key "size"/);
    for (const options of [{legal: 1}, {count: "6"}, {seed: "7"}, 5])
      wrong(() => gen1.randomTeam(options), / is .*, not /);
  });
  check("texts", () => {
    for (const it of [undefined, null, 5, ["Tauros"], Uint8Array.of(1)])
      for (const call of [gen1.teamFromText, gen1.teamFromPacked])
        wrong(() => call.call(gen1, it), /^text is .*, not a string$/);
    const lines = [
      ["Tauros\n- Body Slm\n", 2, 73], ["\n\nTaurus\n- Body Slam\n", 3, 64],
      ["Tauros @ Leftovers\n- Body Slam\n", 1, 65], ["Tauros\nLevel: 101\n- Body Slam\n", 2, 67],
      ["Tauros\nEVs: 256 Atk\n", 2, 68], ["Tauros\nIVs: 32 Atk\n", 2, 70], ["Tauros\nEVs: 4 SpA / 8 SpD\n", 2, 69],
      ["Tauros\n- Pound\n- Cut\n- Surf\n- Fly\n- Dig\n", 6, 74], ["Tauros\nsomething\n", 2, 75],
      ["Tauros\n- Pound\n\n".repeat(7), 19, 66]
    ];
    for (const [text, line, code] of lines) {
      const fault = thrown(() => gen1.teamFromText(text), TextError, new RegExp(`^line ${line}: expected: `));
      equal([fault.line, fault.code, fault.rule], [line, code, 0]);
    }
    const words = [
      ["Tauros\n- Body Slm\n", "Body Slm", "Body Slam"], ["Starmie\n\nBob (Taurus) (M)\n", "Taurus", "Tauros"],
      ["Missingno.\n", "Missingno.", null], ["Tauros\nLevel: 101\n", "Level: 101", null],
      ["Bob|Tuaros|||pound|||||||", "Tuaros", "Tauros"], ["Tuaros||||pound|||||||", "Tuaros", "Tauros"],
      ["Tauros||||pound|||||||]Starmie||||surf,thnderbolt,pond|||||||", "thnderbolt", "Thunderbolt"],
      ["Tauros\n- Pound\n- Cut\n- Surf\n- Fly\n- Dig\n", "", null]
    ];
    for (const [text, found, near] of words) {
      const call = text.includes("|") ? "teamFromPacked" : "teamFromText";
      const fault = thrown(() => gen1[call](text), TextError, found ? new RegExp(`, not "${found}"`) : /four moves$/);
      equal(
          [fault.found, fault.near, fault.message.endsWith(`; did you mean "${near}"?`)], [found, near, near !== null]);
    }
    for (const [text, member, rule] of [["", 0, 1], ["Tauros\n- Mimic\n", 1, 6], ["Tauros\n", 1, 5]]) {
      const fault = thrown(() => gen1.teamFromText(text), TextError, /^(member 1: )?(the team|a move|the member)/);
      equal([fault.code, fault.member, fault.rule], [77, member, rule]);
    }
    const fault = thrown(() => gen1.teamFromPacked("Tauros||||pond|||||||"), TextError,
        /^member 1, field 5: expected: the name of a move/);
    equal([fault.member, fault.field, fault.code], [1, 5, 73]);
    equal(thrown(() => gen1.teamFromPacked("Tauros||||"), TextError, /twelve fields/).member, 1);
    for (const call of [gen1.teamToText, gen1.teamToPacked]) {
      wrong(() => call.call(gen1, 5), /^team is 5, not /);
      equal(thrown(() => call.call(gen1, []), TeamError, /^the team has no member/).code, 1);
      const team = gen1.team([{species: "Mew", moves: ["Surf"]}, {species: "Mew", moves: ["Surf", ["Cut", 2]]}]);
      const refused = thrown(() => call.call(gen1, team), TeamError, /^member 2: a move has other than 3 PP ups/);
      equal([refused.code, refused.place, refused.field], [78, 2, "moves"]);
    }
  });
}

// Sides and choices that are invalid, or not offered.
function choices(gen1, battle, check) {
  check("sides", () => {
    const asked = [
      (side) => battle.choices(side), (side) => battle.offeredMask(side), (side) => battle.damage(side, "Pound"),
      (side) => battle.odds(side, "Pound"), (side) => battle.words(side, "pass"),
      (side) => battle.actionOdds(side, "Pound"), (side) => battle.knockOut(side, "Pound"),
      (side) => battle.knockOutInThree(side, "Pound"), (side) => battle.ownSide(side),
      (side) => battle.withHp(side, 1, 5), (side) => battle.withStatus(side, 1, "burn"),
      (side) => battle.withStage(side, "speed", 1)
    ];
    for (const call of asked) {
      for (const side of [0, 3, ...BIG]) outside(() => call(side), /^side is -?\d.*, not 1 or 2$/);
      for (const side of [undefined, ...NO_NUMBERS]) wrong(() => call(side), /^side is .*, not a whole number$/);
    }
  });
  check("choices that are none", () => {
    for (const call of [(one) => battle.update(one, 17), (one) => battle.updateSilent(one, 17),
                       (one) => battle.outcomes(one, 17)]) {
      for (const it of BIG) outside(() => call(it), /^side 1's choice is -?\d.*, not 0 to 255$/);
      for (const it of [1.5, NaN, Infinity]) wrong(() => call(it), /^side 1's choice is .*, not a whole number$/);
      for (const it of [undefined, null, true, [17], {}, 17n])
        wrong(
            () => call(it), /^side 1's choice is .*, not a choice: pass, move 0 to 4, or switch 1 to 6, or its byte$/);
      for (const it of ["jump", "move 5", "switch 0", "", "switch Body Slam", "Gengar"])
        outside(() => call(it),
            /^side 1's choice: ".*" is not a choice: pass, move 0 to 4, switch 1 to 6, or names as in /);
    }
  });
  wrongWords(gen1, battle, check);
  check("choices that are not offered", () => {
    for (let choice = 0; choice < 256; choice++)
      for (const side of choice === 17 ? [] : [1, 2]) {
        const pair = side === 1 ? [choice, 17] : [17, choice];
        const text = new RegExp(`^the choice of side ${side} was not offered: .*; offered: move 1$`);
        for (const call of [() => battle.update(...pair), () => battle.outcomes(...pair)]) {
          const fault = thrown(call, RefusedError, text);
          equal([fault.code, fault.side, fault.choice, fault.offered], [side + 24, side, choice, ["move 1"]]);
        }
      }
    thrown(() => battle.update("move 1", "switch 2"), RefusedError,
        /^the choice of side 2 was not offered: switch 2; offered: move 1$/);
    for (const byte of [1, 15, 21, 32, 39, 255]) outside(() => library.choiceOf(byte), /is not a choice/);
  });
  check("choices in words that are none", () => {
    outside(() => battle.words(1, 0x22), /^side 1's choice: there is no move in that slot, .*: switch 2$/);
    outside(() => battle.words(1, 5), /^side 1's choice: the byte is no choice: .*: 5, which is not a choice$/);
  });
}

function moves(gen1, battle, check) {
  check("moves", () => {
    for (const move of [0, 166, ...BIG])
      for (const call of [() => battle.damage(1, move), () => battle.odds(1, move), () => battle.knockOut(1, move),
                         () => battle.knockOutInThree(1, move), () => gen1.odds(TAUROS, TAUROS, move)])
        thrown(call, DamageError, /^no damage of -?\d.*: a move is not 1 to 165$/);
    const calls = [
      (move) => battle.damage(1, move), (move) => battle.odds(1, move), (move) => battle.actionOdds(1, move),
      (move) => battle.knockOut(1, move), (move) => battle.knockOutInThree(1, move)
    ];
    for (const call of [...calls, (move) => gen1.damage(TAUROS, TAUROS, move)]) {
      outside(() => call("Pond"), /^move is "Pond", which is not in docs\/TABLES.md; did you mean "Pound"\?$/);
      outside(() => call("body slan"), /did you mean "Body Slam"\?$/);
      for (const it of [undefined, null, true, [1], {}, 1n])
        wrong(() => call(it), /^move is .*, not a name or a number$/);
    }
    for (const it of [null, 1, 0, "yes"])
      wrong(() => battle.damage(1, "Pound", it), /^critical is .*, not true or false$/);
    thrown(() => battle.damage(1, "Splash"), DamageError,
        /^no damage of "Splash": the move does not have the usual damage/);
    thrown(() => gen1.battle(TERMS).damage(1, "Pound"), DamageError, /nobody is out/);
    thrown(() => gen1.battle(TERMS).odds(1, "Pound"), DamageError, /nobody is out/);
    thrown(() => gen1.battle(TERMS).actionOdds(1, "Pound"), DamageError, /nobody is out/);
    thrown(() => gen1.battle(TERMS).knockOut(1, "Pound"), DamageError, /nobody is out/);
    thrown(() => gen1.battle(TERMS).knockOutInThree(1, "Pound"), DamageError, /nobody is out/);
    const three = (between) => () => battle.knockOutInThree(1, "Pound", between);
    thrown(three({afterFirst: {lost: 65536}}), ArgumentError, /^between\.afterFirst\.lost is 65536, not 0 to 65535$/);
    thrown(three({afterSecond: {gained: -1}}), ArgumentError, /^between\.afterSecond\.gained is -1, not 0 to 65535$/);
    thrown(three({afterThird: {}}), ArgumentError,
        /^between has the unknown key "afterThird"; its keys are afterFirst, afterSecond$/);
    for (const it of [null, 5, "22", [], {afterFirst: 22}, {afterFirst: {lost: "22"}}, {afterSecond: {gained: 0.5}}])
      wrong(three(it), /^between.* is .*, not /);
  });
}

function rows(gen1, check) {
  check("species and moves of the tables", () => {
    for (const it of [0, 152, 255, ...BIG]) outside(() => gen1.base(it), /^species is -?\d.*, not 1 to 151$/);
    for (const it of [0, 166, 255, ...BIG]) outside(() => gen1.moveData(it), /^move is -?\d.*, not 1 to 165$/);
    outside(
        () => gen1.base("taurus"), /^species is "taurus", which is not in docs\/TABLES.md; did you mean "Tauros"\?$/);
    for (const call of [gen1.base, gen1.moveData])
      for (const it of [undefined, null, [1]]) wrong(() => call.call(gen1, it), /not a name or a number$/);
  });
  check("types, stats, drain and recoil", () => {
    for (const it of [-1, 15, 0.5, ...BIG, "Steel", "water"]) {
      outside(() => gen1.effectiveness(it, "Water"), /^attack is .*, not one of TYPES$/);
      outside(() => gen1.effectiveness("Water", it), /^foe is .*, not one of TYPES$/);
    }
    for (const it of [undefined, null, [1]])
      wrong(() => gen1.effectiveness(it, "Water"), /^attack is .*, not a name or a number$/);
    equal(thrown(() => gen1.stats({...TAUROS, level: 101}), TeamError, /^member: .*: level is 101$/).field, "level");
    outside(() => gen1.stats({...TAUROS, lvl: 50}), /^member has the unknown key "lvl"; did you mean "level"\?$/);
    for (const call of [gen1.drained, gen1.recoil]) {
      for (const it of [0, 166, ...BIG]) outside(() => call.call(gen1, it, 1), /^move is -?\d.*, not 1 to 165$/);
      for (const it of [-1, 65536, 2 ** 32, -(2 ** 70)])
        outside(() => call.call(gen1, 1, it), /^damage is -?\d.*, not 0 to 65535$/);
      for (const it of NO_NUMBERS) wrong(() => call.call(gen1, 1, it), /^damage is .*, not a whole number$/);
    }
  });
}

function seeds(battle, check) {
  check("seeds and indexes to reseed", () => {
    for (const index of [9, 255, ...BIG])
      outside(() => battle.reseed(SEED, index), /^the index is not 0 to 8: index is -?\d/);
    for (const index of NO_NUMBERS) wrong(() => battle.reseed(SEED, index), /^index is .*, not a whole number$/);
    outside(() => battle.reseed([1]), /^seed has 1 numbers, not 10$/);
  });
  check("places of outcomes", () => {
    const outcomes = battle.outcomes(17, 17);
    for (const place of [-1, outcomes.length, 2 ** 32, 2 ** 53])
      outside(() => outcomes.at(place), /^place is -?\d.*, not 0 to \d+$/);
    for (const place of NO_NUMBERS) wrong(() => outcomes.at(place), /^place is .*, not a whole number$/);
  });
  check("classes of damage", () => {
    const listed = (damageClasses) => battle.outcomes(17, 17, {damageClasses});
    for (const number of [-1, 40, 255, ...BIG]) outside(() => listed(number), /^damageClasses is -?\d.*, not 0 to 39$/);
    for (const number of NO_NUMBERS) wrong(() => listed(number), /^damageClasses is .*, not a whole number$/);
    for (const it of [...NO_OBJECTS.filter((it) => it !== undefined), []]) {
      wrong(() => battle.outcomes(17, 17, it), /^options is .*, not an object with options$/);
      wrong(() => battle.playout(1, 1, it), /^options is .*, not an object with options$/);
    }
  });
  check("least probabilities", () => {
    const listed = (leastProbability) => battle.outcomes(17, 17, {leastProbability});
    for (const number of [-1e-9, 1.0000001, -1, 2, NaN, Infinity])
      outside(() => listed(number), /^leastProbability is -?[\dNI].*, not 0 to 1$/);
    for (const thing of [null, "0.5", 1n, true, [0.5]])
      wrong(() => listed(thing), /^leastProbability is .*, not a number from 0 to 1$/);
    for (const options of [null, 3, "leastProbability"])
      wrong(() => battle.outcomes(17, 17, options), /^options is .*, not an object with options$/);
  });
  check("playouts of nothing", () => {
    for (const seed of [-1, -1n, 2n ** 64n, 2 ** 53, 2 ** 64])
      outside(() => battle.playout(seed, 1), /^seed is -?\d.*, not 0 to 2/);
    for (const seed of [undefined, null, 1.5, "1", true])
      wrong(() => battle.playout(seed, 1), /^seed is .*, not a whole number or a BigInt$/);
    for (const rounds of [-1, 2 ** 32, 2 ** 53])
      outside(() => battle.playout(1, rounds), /^rounds is -?\d.*, not 0 to 4294967295$/);
    for (const rounds of NO_NUMBERS) wrong(() => battle.playout(1, rounds), /^rounds is .*, not a whole number$/);
    for (const depth of [-1, 0, 2 ** 32])
      outside(() => battle.playout(1, 1, {depth}), /^depth is -?\d.*, not 1 to 4294967295$/);
    for (const weights of [null, 5, "move", [1]])
      wrong(() => battle.playout(1, 1, {weights}), /^weights is .*, not an object of moves and their weights$/);
    for (const key of ["move", "switch", "Pound"]) {
      for (const weight of [-1, 256])
        outside(() => battle.playout(1, 1, {weights: {[key]: weight}}), /^weights.* is -?\d+, not 0 to 255$/);
      for (const weight of NO_NUMBERS)
        wrong(() => battle.playout(1, 1, {weights: {[key]: weight}}), /^weights.* is .*, not a whole number$/);
    }
    outside(() => battle.playout(1, 1, {weights: {Explosoin: 1}}),
        /^weights is "Explosoin", which is not in .*; did you mean "Explosion"\?$/);
  });
}

// Guesses that don't fit what a player knows, whose foe has shown an Alakazam with Psychic.
function guesses(gen1, check) {
  const alakazam = {species: "Alakazam", moves: [["Psychic", 3]]};
  const battle = gen1.battle({one: [TAUROS], two: [alakazam, {species: "Chansey", moves: [["Pound", 3]]}], seed: SEED});
  const [teller, player] = [gen1.teller({side: 1}), gen1.player({side: 1, team: [TAUROS]})];
  for (const choice of ["pass", "move 1"]) teller.report(battle, battle.update(choice, choice).log, player);
  const guessed = (guess, it = player) => library.Battle.fromPlayer(it, {team: [alakazam], seed: SEED, ...guess});
  check("guesses that do not fit", () => {
    const before = player.view;
    const asked = [
      [
        [{...alakazam, species: "Chansey"}],
        /^guess\.team\[0\] must be Alakazam of level 100, which appeared, not Chansey of level 100$/
      ],
      [
        [{...alakazam, level: 99}],
        /^guess\.team\[0\] must be Alakazam of level 100, which appeared, not Alakazam of level 99$/
      ],
      [[{...alakazam, moves: [["Recover", 3]]}], /^guess\.team\[0\] must know Psychic, which it was seen to use$/],
    ];
    for (const [team, text] of asked) outside(() => guessed({team}), text);
    const more = player.clone();
    more.feed(Uint8Array.of(2, 2, 113, 2, 100, 191, 2, 191, 2, 0));
    outside(() => guessed({}, more), /^guess\.team must have the 2 members that have appeared, not 1$/);
    const counting = gen1.player({side: 1, team: [TAUROS], foes: 3});
    const first = gen1.battle({one: [TAUROS], two: [alakazam], seed: SEED});
    gen1.teller({side: 1}).report(first, first.update("pass", "pass").log, counting);
    outside(() => guessed({}, counting), /^guess\.team must have 3 members, as many as the foe has, not 1$/);
    const over = player.clone();
    over.feed(Uint8Array.of(26, 1));
    for (const it of [over, gen1.player({side: 1, team: [TAUROS]})])
      outside(() => guessed({}, it), /^player must be in a battle that has begun and is not over$/);
    equal(player.view, before);
  });
  check("guesses that are none", () => {
    for (const it of [...NO_OBJECTS, teller, [TAUROS]])
      wrong(() => library.Battle.fromPlayer(it, {team: [alakazam], seed: SEED}), /^player is .*, not a Player$/);
    for (const it of NO_OBJECTS)
      wrong(() => library.Battle.fromPlayer(player, it), /^guess is .*, not an object with team and seed$/);
    for (const it of NO_OBJECTS) wrong(() => guessed({team: it}), /^guess\.team is .*, not a list of 1 to 6 members$/);
    outside(() => guessed({foes: []}), /^guess has the unknown key "foes"; its keys are team, seed$/);
    outside(() => guessed({team: [{...alakazam, species: "Alakazan"}]}),
        /^guess\.team\[0\]\.species is "Alakazan", .* did you mean "Alakazam"\?$/);
    thrown(() => guessed({team: []}), TeamError, /^the team has no member/);
    for (const seed of [[], new Uint8Array(9)]) outside(() => guessed({seed}), /^seed has \d numbers, not 10$/);
    // A player with a turn limit of 1 at turn 2, or with unknown rules.
    const broken = (...edit) => {
      const {bytes} = player;
      bytes.set(...edit);
      return gen1.playerOfBytes(bytes);
    };
    thrown(() => guessed({}, broken([1, 0], 470)), StateError, /^state\.(limit|turn) is \d+, /);
    thrown(() => guessed({}, broken([4], 474)), StateError, /^state\.rules is 4, not 0 to 3$/);
  });
}

// Arrays: bad lengths, places and players, and use after `free`.
function arrays(gen1, check) {
  const battle = gen1.battle(TERMS);
  const sides = [1, 2].map((side) => ({teller: gen1.teller({side}), player: gen1.player({side, team: [TAUROS]})}));
  const array = gen1.battleArray({battle, count: 2});
  check("arrays that are none", () => {
    for (const it of NO_OBJECTS)
      wrong(() => gen1.battleArray(it), /^terms is .*, not an object with battle and count$/);
    for (const it of [...NO_OBJECTS, TERMS])
      wrong(() => gen1.battleArray({battle: it, count: 1}), /^battle is .*, not a Battle$/);
    for (const count of [0, 2 ** 20 + 1, ...BIG.filter((it) => it < 0)])
      outside(() => gen1.battleArray({battle, count}), /^count is -?\d.*, not 1 to 1048576$/);
    for (const count of NO_NUMBERS) wrong(() => gen1.battleArray({battle, count}), /^count is .*, not a whole number$/);
    outside(() => gen1.battleArray({battle, count: 2, seeds: SEED}), /^seeds has 10 numbers, not 20$/);
    outside(() => gen1.battleArray({battle, count: 2, seed: SEED}),
        /^terms has the unknown key "seed"; did you mean "seeds"\?$/);
    for (const it of [5, {}, "sides"])
      wrong(() => gen1.battleArray({battle, count: 1, sides: it}), /^sides is .*, not two objects/);
    outside(() => gen1.battleArray({battle, count: 1, sides: [sides[0]]}), /^sides has 1 elements, not 2$/);
    outside(() => gen1.battleArray({battle, count: 1, sides: [sides[1], sides[0]]}), /^sides\[0\] is not of side 1$/);
    wrong(() => gen1.battleArray({battle, count: 1, sides: [sides[0], {teller: sides[1].teller, player: 5}]}),
        /^sides\[1\]\.player is 5, not a Player$/);
    wrong(() => gen1.battleArray({battle, count: 1, sides: [{teller: battle, player: 5}, sides[1]]}),
        /^sides\[0\]\.teller is .*, not a Teller$/);
  });
  check("what an array refuses", () => {
    const before = hexOf(array.bytes);
    for (const call of [(it) => array.step(it, [0, 0]), (it) => array.step([0, 0], it), (it) => array.reseed(it)]) {
      for (const it of [undefined, null, 5, "00", {}])
        wrong(() => call(it), /^(ones|twos|seeds) is .*, not a list of \d+ numbers$/);
      for (const it of [[], [0], new Uint8Array(3)])
        outside(() => call(it), /^(ones|twos|seeds) has \d numbers, not \d+$/);
    }
    for (const it of BIG) outside(() => array.step([0, it], [0, 0]), /^ones\[1\] is -?\d.*, not 0 to 255$/);
    for (const it of NO_NUMBERS) wrong(() => array.step([0, 0], [it, 0]), /^twos\[0\] is .*, not a whole number$/);
    for (const call
             of [(side) => array.masks(side), (side) => gen1.battleArray({battle, count: 1, sides}).observe(side)]) {
      for (const side of [0, 3, ...BIG]) outside(() => call(side), /^side is -?\d.*, not 1 or 2$/);
      for (const side of NO_NUMBERS) wrong(() => call(side), /^side is .*, not a whole number$/);
    }
    for (const place of [2, ...BIG]) outside(() => array.at(place), /^place is -?\d.*, not 0 to 1$/);
    for (const call of [() => array.observe(1), () => array.player(0, 1)])
      outside(call, /^the array has no players: it was created without sides$/);
    outside(() => array.take([0, 2]), /^places\[1\] is 2, not 0 to 1$/);
    outside(() => array.take([]), /^places is empty, and must have at least one place$/);
    outside(() => array.reset([true]), /^which has 1 values, not 2$/);
    wrong(() => array.randomStep(5), /^random is 5, not a function that returns numbers/);
    outside(() => array.playouts(-1, 1), /^seed is -1, not 0 to 2/);
    outside(() => array.playouts(1, -1), /^rounds is -1, not 0 to 4294967295$/);
    // Both sides are asked for a move after the start; the other battle is before it, and refused.
    equal(Array.from(array.step([17, 0], [17, 0])), [0, 8 + 32]);
    equal([Array.from(array.codes), hexOf(array.at(0).bytes)], [[25, 0], before.slice(0, 768)]);
  });
  check("freed arrays", () => {
    array.free();
    array.free();
    const asked = [
      () => array.bytes, () => array.at(0), () => array.masks(1), () => array.step([0, 0], [0, 0]),
      () => array.randomStep(), () => array.playouts(1, 1), () => array.reseed(new Uint8Array(20)), () => array.reset(),
      () => array.take([0])
    ];
    for (const call of asked) thrown(call, FreedError, /^the array was freed$/);
  });
}

// What each code means, without the place and the values.
function reasons(gen1, check) {
  const battle = gen1.battle(TERMS);
  const room = gen1.room(battle);
  const reasonOf = (call) => thrown(call, Error, /./).reason;
  check("reasons", () => {
    equal(reasonOf(() => gen1.battle({...TERMS, one: []})), "the team has no member: it has 1 to 6");
    equal(reasonOf(() => gen1.load(new Uint8Array(1))), "there are not 384 bytes");
    equal(reasonOf(() => gen1.odds(TAUROS, TAUROS, 166)), "a move is not 1 to 165");
    equal(reasonOf(() => battle.update("move 1", "pass")), "the choice of side 1 was not offered");
    equal(reasonOf(() => room.submit(1, 7, 17)), "the number is not that of the current pair of choices");
    equal(reasonOf(() => gen1.teamFromText("Tauros\n- Body Slm\n")), "the name of a move of the first generation");
    equal(reasonOf(() => gen1.teamFromText("Tauros\n- Pound\n- Pound\n")), "a move is there twice");
    equal(/^the bytes end within an event/.test(reasonOf(() => gen1.events(Uint8Array.of(26)))), true);
  });
}

function players(gen1, check) {
  const [player, teller] = [gen1.player({side: 1, team: [TAUROS]}), gen1.teller({side: 1})];
  const battle = gen1.battle(TERMS);
  const {log} = battle.update("pass", "pass");
  check("players and tellers that are none", () => {
    for (const it of NO_OBJECTS)
      for (const call of [gen1.player, gen1.teller])
        wrong(() => call.call(gen1, it), /^terms is .*, not an object with side/);
    for (const call of [(side) => gen1.player({side, team: [TAUROS]}), (side) => gen1.teller({side})]) {
      for (const side of [0, 3, ...BIG]) outside(() => call(side), /^side is -?\d.*, not 1 or 2$/);
      for (const side of [undefined, ...NO_NUMBERS]) wrong(() => call(side), /^side is .*, not a whole number$/);
    }
    for (const foes of [7, ...BIG])
      outside(() => gen1.player({side: 1, team: [TAUROS], foes}), /^foes is -?\d.*, not 0 to 6$/);
    for (const rules of [4, ...BIG])
      outside(() => gen1.player({side: 1, team: [TAUROS], rules}), /^rules is -?\d.*, not 0 to 3$/);
    for (const limit of [-1, 0, 10000, 65537])
      outside(() => gen1.player({side: 1, team: [TAUROS], limit}), /^limit is -?\d.*, not 1 to 9,?999$/);
    thrown(() => gen1.player({side: 1, team: []}), TeamError, /^team: the team has no member/);
    const weak = () => gen1.player({side: 2, team: [{...TAUROS, level: 0}]});
    const {side, place} = thrown(weak, TeamError, /^team: member 1: the level is not 1 to 100: level is 0$/);
    equal([side, place], [2, 1]);
    for (const pixels of [null, 1, "yes"])
      wrong(() => gen1.teller({side: 1, pixels}), /^pixels is .*, not true or false$/);
  });
  check("what players and tellers refuse", () => {
    const before = [player.view, hexOf(teller.clone().tell(log))];
    for (const it of [undefined, null, 5, "a log", [1]])
      wrong(() => player.feed(it), /^told is .*, not bytes, as a Uint8Array$/);
    for (const it of [undefined, null, 5, "a log", [1]])
      wrong(() => teller.tell(it), /^log is .*, not bytes, as a Uint8Array$/);
    for (const call of [(bytes) => player.feed(bytes), (bytes) => teller.tell(bytes)])
      equal(thrown(() => call(Uint8Array.of(26, 1, 0)), LogError, /^byte 2: a byte in a tag's place is no tag/).at, 2);
    thrown(() => teller.tell(log.subarray(0, 3)), LogError, /^byte 0: the bytes end within an event/);
    outside(() => teller.tell(new Uint8Array(513)), /^log has 513 bytes, but the log of an update has at most 512$/);
    for (const it of [...NO_OBJECTS, player]) {
      wrong(() => teller.report(it, log, player), /^battle is .*, not a Battle$/);
      wrong(() => player.show(it), /^battle is .*, not a Battle$/);
    }
    for (const it of [...NO_OBJECTS, battle])
      wrong(() => teller.report(battle, log, it), /^player is .*, not a Player$/);
    outside(() => teller.report(battle, log, gen1.player({side: 2, team: [TAUROS]})),
        /^player plays side 2, but the teller reports to side 1$/);
    const [other, informed] =
        [gen1.battle({...TERMS, one: [{...TAUROS, level: 50}]}), gen1.player({side: 1, team: [TAUROS]})];
    const [hosted, host] = [gen1.battle(TERMS), gen1.teller({side: 1})];
    const first = hosted.update("pass", "pass").log;
    host.report(hosted, first, informed);
    const second = hosted.update("move 1", "move 1").log;
    const kept = [host, informed].map((it) => hexOf(it.bytes));
    outside(() => informed.show(other),
        /^battle has on side 1 Tauros at level 50, and not the player's team, Tauros at level 100$/);
    outside(() => host.report(other, other.update("pass", "pass").log, informed),
        /^battle has on side 1 Tauros at level 50/);
    outside(() => host.report(hosted, first, informed),
        /^log is not that of the battle's last update, .*: the player was at turn 1, is at 1 after the log, and the battle at 2$/);
    equal([host, informed].map((it) => hexOf(it.bytes)), kept);
    host.report(hosted, second, informed);
    outside(() => host.report(hosted, second, informed), /^log is not that .*was reported before/);
    equal([player.view, hexOf(teller.clone().tell(log))], before);
  });
}

function narrators(gen1, check) {
  check("narrators that are none", () => {
    for (const it of NO_OBJECTS.filter((it) => it !== undefined))
      wrong(() => gen1.narrator(it), /^terms is .*, not an object$/);
    outside(() => gen1.narrator({inPercents: [true, true]}), /"inPercents"; did you mean "inPercent"\?$/);
    for (const you of [0, 3, ...BIG]) outside(() => gen1.narrator({you}), /^you is -?\d.*, not 1 or 2$/);
    for (const you of ["1", true, {}]) wrong(() => gen1.narrator({you}), /^you is .*, not a whole number$/);
    for (const it of [null, true, 5, {}])
      wrong(() => gen1.narrator({inPercent: it}), /^inPercent is .*, not a list of two, for side 1 and side 2$/);
    for (const count of [0, 1, 3])
      outside(() => gen1.narrator({inPercent: Array(count).fill(true)}),
          new RegExp(`^inPercent has ${count} values, not 2$`));
    wrong(() => gen1.narrator({inPercent: [true, 1]}), /^inPercent\[1\] is 1, not true or false$/);
  });
  check("what a narrator refuses", () => {
    const narrator = gen1.narrator();
    const {log} = gen1.battle(TERMS).update("pass", "pass");
    for (const it of [undefined, null, 5, "a log", [1]])
      wrong(() => narrator.sentences(it), /^log is .*, not bytes, as a Uint8Array$/);
    // The first event of the log is whole, and isn't reported.
    const {at} =
        thrown(() => narrator.sentences(log.subarray(0, 13)), LogError, /^byte 10: the bytes end within an event/);
    equal([at, narrator.sentences(log)], [10, gen1.narrator().sentences(log)]);
    for (const it of NO_OBJECTS) wrong(() => narrator.say(it), /^event is .*, not an event, as `events` returns it$/);
    outside(() => narrator.say({kind: "win", side: 1, sides: 2}),
        /^event has the unknown key "sides"; did you mean "side"\?$/);
    outside(() => narrator.say({kind: "win", side: 3}), /^event is .*, which has a field that is out of range/);
  });
}

// Calls on a battle that has begun.
function calls(gen1, check) {
  const battle = gen1.battle(TERMS);
  battle.update("pass", "pass");
  const before = hexOf(battle.bytes);
  choices(gen1, battle, check);
  moves(gen1, battle, check);
  seeds(battle, check);
  wrongStates(gen1, battle, check);
  keys(gen1, battle, check);
  check("nothing has changed", () => equal(hexOf(battle.bytes), before));
  check("a loaded battle goes on alike", () => {
    const copy = gen1.load(battle.bytes);
    equal(copy.update("move 1", "move 1").lines, battle.clone().update(17, 17).lines);
    battle.bytes.fill(0);
    equal([copy.isOver, hexOf(battle.bytes)], [false, before]);
  });
}

function rooms(gen1, check) {
  const room = gen1.room(gen1.battle(TERMS));
  const seen = () => [hexOf(room.battle.bytes), room.number, hexOf(room.log), room.choices(1), room.choices(2)];
  const before = seen();
  check("what a room refuses", () => {
    const fault = thrown(() => room.submit(1, 0, 20), RoomError,
        /^side 1: the choice is not offered to the side: move 4; offered: move 1$/);
    equal([fault.code, fault.side, fault.choice, fault.number, fault.current, fault.offered],
        [54, 1, 20, 0, 0, ["move 1"]]);
    thrown(() => room.submit(1, 7, 17), RoomError,
        /^the number is not that of the current pair of choices: 7; the current pair is 0$/);
    const chosen = room.clone();
    chosen.submit(1, 0, 17);
    thrown(
        () => chosen.submit(1, 0, 17), RoomError, /^the side has chosen: side 1 can submit nothing more for pair 0$/);
    for (const call
             of [(side) => room.submit(side, 0, 17), (side) => room.choices(side), (side) => room.forfeit(side)]) {
      for (const side of [0, 3, ...BIG]) outside(() => call(side), /^side is -?\d.*, not 1 or 2$/);
      for (const side of NO_NUMBERS) wrong(() => call(side), /^side is .*, not a whole number$/);
    }
    for (const number of [-1, 2 ** 32, 2 ** 53])
      outside(() => room.submit(1, number, 17), /^number is -?\d.*, not 0 to 4294967295$/);
    for (const number of NO_NUMBERS) wrong(() => room.submit(1, number, 17), /^number is .*, not a whole number$/);
    for (const choice of BIG) outside(() => room.submit(2, 0, choice), /^side 2's choice is -?\d.*, not 0 to 255$/);
    for (const it of [...NO_OBJECTS, room, SEED]) wrong(() => gen1.room(it), /^battle is .*, not a Battle$/);
    equal(seen(), before);
  });
  check("what a spectator refuses", () => {
    const spectator = gen1.spectator([TAUROS], [TAUROS]);
    for (const it of [undefined, null, 5, "a log", [1]])
      wrong(() => spectator.feed(it), /^log is .*, not bytes, as a Uint8Array$/);
    equal(thrown(() => spectator.feed(Uint8Array.of(26, 1, 0)), LogError, /^byte 2: a byte in a tag's place is no tag/)
              .at,
        2);
    equal([spectator.state, spectator.held], [gen1.spectator([TAUROS], [TAUROS]).state, new Uint8Array(0)]);
  });
  check("constructors", () => {
    for (const kind of [library.Gen1, library.Narrator, library.Battle, library.Update, library.Room, library.Spectator,
             library.Player, library.Teller, library.Team, library.BattleArray])
      wrong(() => new kind(), /is created by .*, not by new/);
  });
}

// Sources that aren't the library's module, each with the error and its text. The last is the smallest possible module.
const SOURCES = [
  ...[null, 5, true, {}, [1], {plain: 5}].map(
      (it) => [it, ArgumentTypeError, /^source(\.plain)? is .*, not a module: a URL, a path or their text/]),
  [
    {plain: "gen1.wasm", prove: "gen1_c.wasm"}, ArgumentError,
    /^source has the unknown key "prove"; did you mean "proved"\?$/
  ],
  [new URL("data:text/plain,none"), ModuleError, /^source, data:.* is not a module that can run here: /],
  [{plain: Uint8Array.of(1, 2, 3)}, ModuleError, /^source\.plain is not a module that can run here: /],
  [
    Uint8Array.of(0, 0x61, 0x73, 0x6d, 1, 0, 0, 0), ModuleError,
    /^the module is not the C library's: it exports no memory, /
  ],
];

/** Loads sources that aren't the library's module. */
export async function badSources(check) {
  for (const [source, type, text] of SOURCES) {
    const fault = await library.load(source).then(() => null, (it) => it);
    check("a source", () => thrown(() => {
      throw fault;
    }, type, text));
  }
}

/** Runs all checks of bad input. */
export function badInput(gen1, check) {
  for (const part of [members, teams, terms, arrays, guesses, bytes, reasons, calls, rows, rooms, badHosts, players,
           narrators])
    part(gen1, check);
}
