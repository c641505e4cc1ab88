// States that no battle can have, and words that don't name a choice: each error names the field, its value and the lawful ones.
import * as library from "../gen1.mjs";

import {BIG, equal, NO_NUMBERS, NO_OBJECTS, outside, TAUROS, TERMS, thrown, wrong} from "./holding.mjs";

const {ArgumentError, ArgumentTypeError, RefusedError, StateError} = library;

// Changes of a state of two Tauros with Strength, each with the error's text. TAUROS has 353 HP and Attack 298.
const ONE = (changed) => (state) => void Object.assign(state.one, changed);
const MEMBER = (changed) => ({two: {members: [member]}}) => void Object.assign(member, changed);
const ACTIVE = (changed) => ({one: {active}}) => void Object.assign(active, changed);
const WHOLE = (changed) => (state) => void Object.assign(state, changed);
const NO_STATES = [
  [MEMBER({hp: 400}), /^state\.two\.members\[0\]\.hp is 400, not 0 to 353$/],
  [MEMBER({hp: 65536}), /\.hp is 65536, not 0 to 353$/],
  [MEMBER({hp: -1}), /\.hp is -1, not 0 to 353$/],
  [MEMBER({level: 300}), /\.level is 300, not 1 to 100$/],
  [MEMBER({maxHp: 1000}), /\.maxHp is 1000, not \d+ to 999$/],
  [MEMBER({species: 152}), /\.species is 152, not 1 to 151$/],
  [MEMBER({stats: [298, 288, 1000, 238]}), /\.stats\[2\] is 1000, not \d to 999$/],
  [MEMBER({pp: [64]}), /\.pp\[0\] is 64, not 0 to 63$/],
  [MEMBER({status: "sleep"}), /\.sleep is 0, not 1 to 7$/],
  [MEMBER({sleep: 3}), /\.sleep is 3, not 0$/],
  [MEMBER({moves: [166]}), /\.moves\[0\] is 166, not /],
  [MEMBER({marked: true}), /\.marked is true, not false$/],
  [MEMBER({moves: ["Mimic"]}), /\.moves\[0\] is "Mimic", which does not fit/],
  [ACTIVE({stages: [0, 0, 7, 0, 0, 0]}), /^state\.one\.active\.stages\[2\] is 7, not -6 to 6$/],
  [ACTIVE({place: 2}), /\.place is 2, not 1$/],
  [ACTIVE({stages: [-7, 0, 0, 0, 0, 0]}), /\.stages\[0\] is -7, not -6 to 6$/],
  [ACTIVE({substitute: 1}), /\.substitute is 1, not 0$/],
  [ACTIVE({conditions: ["confused"]}), /\.confusion is 0, not 1 to 5$/],
  [ACTIVE({currentMove: 2}), /\.currentMove is 2, which does not fit/],
  [
    ACTIVE({conditions: ["rage"], keptAccuracy: 255}),
    /\.conditions\[0\] is "rage", which the current move does not cause$/
  ],
  [ACTIVE({stats: [299, 288, 318, 238]}), /\.active\.stats\[0\] is 299, (not|which does not fit)/],
  [ONE({active: null}), /^state\.one\.active\.place is 0, not 1$/],
  [WHOLE({limit: 10000}), /^state\.limit is 10000, not 1 to 9999$/],
  [WHOLE({index: 9}), /^state\.index is 9, not 0 to 8$/],
  [WHOLE({rules: 4}), /^state\.rules is 4, not 0 to 3$/],
  [WHOLE({turn: 1001}), /^state\.turn is 1001, not \d to 1000$/],
  [WHOLE({requests: ["switch", "move"]}), /^state\.requests\[0\] is "switch", not "move"$/],
  [WHOLE({outcome: "tie"}), /^state\.(outcome|requests\[0\]) is /],
  [MEMBER({hp: 0}), /^state\.outcome is "ongoing", /],
];
// Changes that no state of the library can have: each with the class of the error and its text.
const UNREADABLE = [
  [
    MEMBER({status: "confused"}), ArgumentError,
    /^state\.two\.members\[0\]\.status is "confused", not one of "none", "sleep", /
  ],
  [
    MEMBER({species: "Taurus"}), ArgumentError,
    /\.species is "Taurus", which is not in docs\/TABLES.md; did you mean "Tauros"\?$/
  ],
  [MEMBER({pp: [1, 2]}), ArgumentError, /\.pp has 2 numbers, not 1$/],
  [MEMBER({moves: Array(5).fill("Pound")}), ArgumentError, /\.moves has 5 moves, not at most 4$/],
  [MEMBER({marked: 1}), ArgumentTypeError, /\.marked is 1, not true or false$/],
  [MEMBER({hp: 1.5}), ArgumentTypeError, /\.hp is 1.5, not a whole number$/],
  [MEMBER({stats: 5}), ArgumentTypeError, /\.stats is 5, not a list of 4 numbers$/],
  [ACTIVE({energy: 65536}), ArgumentError, /\.energy is 65536, not 0 to 65535$/],
  [ACTIVE({conditions: ["sleepy"]}), ArgumentError, /\.conditions\[0\] is "sleepy", not one of/],
  [ACTIVE({types: ["Normal", "Steel"]}), ArgumentError, /\.types\[1\] is "Steel", not one of/],
  [ONE({members: []}), ArgumentError, /\.members has 0 members, not 1 to 6$/],
  [ONE({members: 5}), ArgumentTypeError, /\.members is 5, not a list$/],
  [ONE({active: 5}), ArgumentTypeError, /\.active is 5, not the state of the active member, or null$/],
  [WHOLE({one: null}), ArgumentTypeError, /^state\.one is null, not the state of a side$/],
  [WHOLE({numbers: [1]}), ArgumentError, /^state\.numbers has 1 numbers, not 10$/],
  [WHOLE({lastDamage: -1}), ArgumentError, /^state\.lastDamage is -1, not 0 to 65535$/],
  [WHOLE({outcome: "won"}), ArgumentError, /^state\.outcome is "won", not one of/],
];

/** Runs all checks of wrong states. */
export function wrongStates(gen1, battle, check) {
  check(`${NO_STATES.length} states that no battle can have`, () => {
    for (const [change, text] of NO_STATES) {
      const fault = thrown(() => battle.withState(change), StateError, text);
      equal([fault.code, fault.reason, fault.message.startsWith(fault.field)], [23, fault.message, true]);
    }
    const {field, side, place, index, value, low, high} = thrown(() => battle.withHp(2, 1, 400), StateError, /./);
    equal([field, side, place, index, value, low, high], ["state.two.members[0].hp", 2, 1, 0, 400, 0, 353]);
  });
  check(`${UNREADABLE.length} changes of a state that are none`, () => {
    for (const [change, type, text] of UNREADABLE) thrown(() => battle.withState(change), type, text);
    for (const it of [...NO_OBJECTS, []])
      wrong(() => gen1.battleOfState(it), /^state is .*, not a state: an object like battle.state$/);
    for (const it of [...NO_OBJECTS, {}])
      wrong(() => battle.withState(it), /^change is .*, not a function that changes a state$/);
    wrong(() => battle.withState(async (state) => state),
        /^change is a function, not a function that returns no promise$/);
    outside(() => battle.withState((state) => ({...state, turns: 5})),
        /^state has the unknown key "turns"; did you mean "turn"\?$/);
    wrong(() => battle.withState(() => ({turn: 5})), /^state.one is undefined, not the state of a side$/);
  });
  check("changes of one field", () => {
    for (const place of [0, 7, ...BIG]) outside(() => battle.withHp(1, place, 5), /^place is -?\d.*, not 1 to 6$/);
    for (const call of [() => battle.withHp(1, 2, 5), () => battle.withStatus(1, 2, "burn")])
      outside(call, /^place is 2: side 1 has only 1 member$/);
    outside(() => battle.withStatus(1, 1, "asleep"), /^status is "asleep", not one of "none"/);
    for (const turns of [0, 8, 256])
      thrown(() => battle.withStatus(1, 1, "sleep", turns), StateError, new RegExp(`sleep is ${turns}, not 1 to 7$`));
    outside(() => battle.withStage(1, "luck", 1), /^stat is "luck", not one of "attack", "defense"/);
    for (const stage of [-7, 7, 300]) {
      const {value, index} =
          thrown(() => battle.withStage(2, "accuracy", stage), StateError, /stages\[4\] is -?\d+, not -6 to 6$/);
      equal([value, index], [stage, 5]);
    }
    for (const it of NO_NUMBERS) {
      wrong(() => battle.withHp(1, 1, it), /^hp is .*, not a whole number$/);
      wrong(() => battle.withStage(1, "speed", it), /^stage is .*, not a whole number$/);
    }
    outside(() => gen1.battle(TERMS).withStage(1, "speed", 1), /^side is 1, which has no active member/);
  });
}

/** Words that don't name a choice of a battle in which each side has the move Strength alone. */
export function wrongWords(gen1, battle, check) {
  check("words that are no choice", () => {
    for (const it of [undefined, null, 17, {}])
      wrong(() => battle.choiceFromWords(1, it), /^words is .*, not a string$/);
    for (const [words, near] of [
             ["body slum", "Body Slam"], ["move Strenght", "Strength"], ["SWITCH Taurus", "Tauros"]])
      outside(() => battle.choiceFromWords(2, words),
          new RegExp(`^side 2's choice: "${words}" is not a choice: .*; did you mean "${near}"\\?$`));
    for (const words of ["Surf", "switch Gengar", "move 2 Strength", "switch 1 Tauros"]) {
      const {side, choice, code, offered} = thrown(() => battle.choiceFromWords(2, words), RefusedError,
          new RegExp(`^the choice of side 2 was not offered: "${words}"; offered: move 1$`));
      equal([side, choice, code, offered], [2, null, 26, ["move 1"]]);
    }
    const twins = gen1.battle({...TERMS, one: [TAUROS, TAUROS, TAUROS]});
    twins.updateSilent("pass", "pass");
    outside(() => twins.choiceFromWords(1, "switch Tauros"),
        /^side 1's choice: .*: "switch Tauros"; offered: move 1 Strength, switch 2 Tauros, switch 3 Tauros$/);
    while (!twins.isOver) twins.updateSilent(twins.choices(1)[0], twins.choices(2)[0]);
    thrown(() => twins.update("Strength", "Strength"), RefusedError, /: (win one|win two|tie)$/);
  });
}
