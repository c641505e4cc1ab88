// Worked examples of chances from docs/MECHANICS.md: odds of moves, outcomes of an update, why a use cannot hit, and knock-outs. The
// results were calculated without the library.
import * as library from "../gen1.mjs";
import {CODES} from "../header.mjs";

import {equal, hexOf, holds, thrown} from "./holding.mjs";

const SEED = [1, 36, 255, 7, 31, 100, 179, 254, 127, 10];

// Whether a move misses in the first two updates, with the lowest accuracy against the highest evasion. Vaporeon is not immune to any type.
function misses(gen1, move, seed) {
  const team = (species, known) => [{species, moves: [[known, 3]]}];
  const battle = gen1.battle({one: team("Tauros", move), two: team("Vaporeon", "Splash"), seed});
  battle.updateSilent("pass", "pass");
  const {bytes} = battle;
  // The stages of accuracy and evasion (docs/LAYOUT.md, "Active block").
  [bytes[168 + 7], bytes[348 + 8]] = [0, 12];
  const changed = gen1.load(bytes);
  let isMissing = false;
  for (let update = 0; update < 2 && !changed.isOver; update++) {
    const {events} = changed.update(changed.choices(1)[0], changed.choices(2)[0]);
    isMissing ||= events.some((event) => event.kind === "miss" && event.side === 1);
  }
  return isMissing;
}

// Thunder with each byte as the deciding draw: as many are critical, and as many hit, as `odds` returns.
function everyDraw(gen1) {
  const [user, foe] = [{species: "Tauros", moves: [["Thunder", 3]]}, {species: "Snorlax", moves: [["Splash", 3]]}];
  let [critical, missed] = [0, 0];
  const begun = gen1.battle({one: [user], two: [foe], seed: SEED});
  begun.updateSilent("pass", "pass");
  for (let byte = 0; byte < 256; byte++)
    for (const draws of [[byte, 255, 0], [255, 255, byte]]) {
      const battle = begun.clone();
      battle.reseed([...draws, 0, 0, 0, 0, 0, 0, 0]);
      const kinds = battle.update("move 1", "move 1").events.map(({kind}) => kind);
      critical += kinds.includes("crit") ? 1 : 0;
      missed += kinds.includes("miss") ? 1 : 0;
    }
  // Tauros has base Speed 110, and the draw is compared with half of it.
  const {criticalChance, hitChance} = gen1.odds(user, foe, "Thunder");
  equal([critical, 256 - missed], [55, 256 * hitChance]);
  equal(criticalChance, 55 / 256);
}

// docs/MECHANICS.md, "Critical hits" and "Hit test".
function odds(gen1, check) {
  const [persian, gengar] =
      [{species: "Persian", moves: [["Focus Energy", 3]]}, {species: "Gengar", moves: [["Splash", 3]]}];
  const chances = (move) => gen1.odds(persian, gengar, move);
  check("chances of a critical hit", () => {
    equal(["Slash", "Strength"].map((move) => chances(move).criticalChance), [255 / 256, 57 / 256]);
    const focused = gen1.battle({one: [persian], two: [gengar], seed: SEED});
    focused.updateSilent("pass", "pass");
    focused.updateSilent("move 1", "move 1");
    equal(["Slash", "Strength"].map((move) => focused.odds(1, move).criticalChance), [112 / 256, 14 / 256]);
  });
  check("chances of a hit", () => {
    // The accuracies of docs/TABLES.md in 255ths: 100 % is 255, 80 % 204, 70 % 178, 55 % 140; each draw below that hits.
    const drawn = (foe) => ["Swift", "Dream Eater", "Strength", "Hydro Pump", "Thunder", "Sing"].map(
        (move) => 256 * gen1.odds(persian, foe, move).hitChance);
    equal(drawn({...gengar, species: "Snorlax"}), [256, 0, 255, 204, 178, 140]);
    // Gengar is immune to the type Normal of Swift and Strength; Sing, which deals no damage, ignores that.
    equal(drawn(gengar), [0, 0, 0, 204, 178, 140]);
  });
  check("moves that take no hit test", () => {
    const tested = ["Swift", "Toxic", "Growl", "Counter", "Roar", "Rest", "Bide", "Amnesia"].map(
        (move) => chances(move).takesHitTest);
    equal(tested, [true, true, true, true, false, false, false, false]);
  });
  check("moves with a hit test miss, and no others", () => {
    for (const move of library.MOVES.slice(0, -1)) {
      const {effect} = gen1.moveData(move);
      if (effect === "LeftOut" || effect === "Explode") continue;
      const isMissing = [1, 20, 77, 130, 163, 201, 240, 254].some((byte) => misses(gen1, move, Array(10).fill(byte)));
      holds(isMissing === (chances(move).takesHitTest && effect !== "NeverMisses"), `${move}: ${isMissing}`);
    }
  });
  check("moves without the usual damage", () => {
    for (const move of ["Splash", "Seismic Toss", "Super Fang"]) {
      const none = {numbers: [], code: CODES.ERROR_UNUSUAL};
      equal([chances(move).usual, chances(move).critical, chances(move).criticalChance], [none, none, 0]);
      thrown(() => gen1.damage(persian, gengar, move), library.DamageError,
          new RegExp(`no damage of "${move}": .*usual damage`));
    }
    equal(chances("Strength").usual, {numbers: Array(39).fill(0), code: 0});
  });
  check("each draw of a move", () => everyDraw(gen1));
}

/** A battle after its first update. All members are at level 100 with DVs 15 and maximum experience. */
export function begun(gen1, one, two, moves = ["Splash"]) {
  const [ones, twos] = [one, two].map((species) => [{species, moves: moves.map((move) => [move, 3])}]);
  const battle = gen1.battle({one: ones, two: twos, seed: SEED});
  battle.updateSilent("pass", "pass");
  return battle;
}

// The exact chances of what `look` sees after the first move of both sides, as pairs of value and fraction.
function chancesOf(battle, look) {
  const [sums, outcomes] = [new Map(), battle.outcomes("move 1", "move 1")];
  let sum = 0;
  for (const {battle: next, probability, weight} of outcomes) {
    const seen = look(next.state);
    sums.set(seen, (sums.get(seen) ?? 0n) + weight);
    sum += probability;
    next.free();
  }
  holds(Math.abs(sum - 1) < 1e-9 && [...sums.values()].reduce((one, two) => one + two) === outcomes.whole,
      "the weights do not sum to whole");
  return (value, num, whole) => equal(`${(sums.get(value) ?? 0n) * BigInt(whole)}`, `${BigInt(num) * outcomes.whole}`);
}

// docs/MECHANICS.md: "Actions", "Hit test", "Many hits", "Sleep moves".
function outcomes(gen1, check) {
  const facing = (one, two, move) => begun(gen1, one, two, [move]);
  check("full paralysis and accuracy", () => {
    const splash = facing("Snorlax", "Tauros", "Splash").withStatus(1, 1, "paralysis");
    const left = chancesOf(splash, ({one}) => one.members[0].pp[0]);
    left(61, 63, 256);
    left(60, 193, 256);
    const drill = chancesOf(facing("Tauros", "Snorlax", "Horn Drill"), ({outcome}) => outcome);
    drill("win one", 76, 256);
    drill("ongoing", 180, 256);
  });
  check("many hits and a toss", () => {
    const bide =
        chancesOf(facing("Tauros", "Tauros", "Bide"), ({one, two}) => 10 * one.active.turns + two.active.turns);
    for (const turns of [22, 23, 32, 33]) bide(turns, 1, 4);
    const toss = facing("Tauros", "Tauros", "Seismic Toss").withHp(1, 1, 50).withHp(2, 1, 50);
    const wins = chancesOf(toss, ({outcome}) => outcome);
    wins("win one", 255 * 257, 131072);
    wins("win two", 255 * 257, 131072);
    wins("ongoing", 1, 65536);
  });
  check("classes of damage", () => {
    // Without a critical hit 201 of 256 bytes, and of 39 factors 13 in each class.
    const battle = facing("Tauros", "Snorlax", "Splash");
    const body = begun(gen1, "Tauros", "Snorlax", ["Splash", "Body Slam"]);
    const damages = body.damage(1, "Body Slam");
    const most = body.state.two.members[0].hp;
    const sums = [0n, 0n, 0n];
    const found = body.outcomes("move 2", "move 1", {damageClasses: 3});
    for (const {battle: next, weight} of found) {
      const place = damages.indexOf(most - next.state.two.members[0].hp);
      if (place >= 0) sums[Math.floor(place / 13)] += weight;
      next.free();
    }
    for (const sum of sums) equal(`${sum * 65536n * 3n}`, `${found.whole * 255n * 201n}`);
    holds(battle.outcomes("move 1", "move 1", {damageClasses: 1}).length === 1, "other outcomes of Splash");
  });
  check("a least probability", () => {
    // Thunder Wave hits with 255 of 256 bytes. The slower Slowbro, once it is paralysed, can't act with 63 of 256.
    const battle = begun(gen1, "Tauros", "Slowbro", ["Thunder Wave", "Amnesia"]);
    const [misses, isStopped] = [1 / 256, (255 * 63) / 65536];
    const cases = [
      [0, 3, 0], [misses, 3, 0], [0.01, 2, misses], [isStopped, 2, misses],
      [isStopped + 2 ** -32, 1, misses + isStopped], [1, 0, 1]
    ];
    for (const [leastProbability, length, left] of cases) {
      const found = battle.outcomes("move 1", "move 2", {leastProbability});
      equal([found.length, found.leftOutProbability], [length, left]);
      equal(`${found.leftOut * 65536n}`, `${found.whole * BigInt(left * 65536)}`);
      let sum = found.leftOut;
      for (const {battle: next, weight} of found) {
        sum += weight;
        next.free();
      }
      holds(sum === found.whole, "the weights and leftOut do not sum to whole");
    }
    const splash = facing("Tauros", "Snorlax", "Splash").outcomes("move 1", "move 1", {leastProbability: 1});
    holds(splash.length === 1 && splash.leftOut === 0n, "an update without draws is left out");
  });
  check("more outcomes than the first space holds", () => {
    const found = facing("Tauros", "Starmie", "Thunder").outcomes("move 1", "move 1");
    const bytes = new Set(Array.from(found, ({battle}) => hexOf(battle.bytes)));
    holds(found.length > 256 && bytes.size === found.length, `${found.length} outcomes, ${bytes.size} battles`);
  });
}

// docs/MECHANICS.md, "Hit test" to "Charging": why a use cannot hit, fixed damage, many hits, charging.
function uses(gen1, check) {
  const battle = begun(gen1, "Snorlax", "Tauros", ["Splash", "Fly"]);
  const reasonOf = (it, move, side = 1) => [it.odds(side, move).hitChance, it.odds(side, move).reason];
  check("reasons why a use cannot hit", () => {
    equal(reasonOf(battle, "Body Slam"), [255 / 256, null]);
    const foe = (change) => battle.withState(({two: {members: [member], active}}) => change(active, member));
    const conditions = (...names) => foe((active) => active.conditions.push(...names));
    const cases = [
      [battle, "Metronome", "the engine leaves the move out"],
      [battle, "Roar", "the move always fails"],
      [begun(gen1, "Snorlax", "Gengar"), "Body Slam", "the foe is immune to the move's type"],
      [battle, "Fissure", "the user is slower than the foe"],
      [battle, "Counter", "there is no damage to counter"],
      [battle, "Dream Eater", "the foe is awake"],
      [conditions("invulnerable"), "Body Slam", "the foe is out of reach"],
      [conditions("mist"), "Growl", "Mist guards the foe"],
      [battle.withStatus(2, 1, "burn"), "Thunder Wave", "the foe has a status"],
      [begun(gen1, "Snorlax", "Grimer"), "Toxic", "the foe's type guards it"],
      [battle.withStage(2, "attack", -6), "Growl", "the stage or the stat is at its end"],
      [battle, "Recover", "the user's HP don't allow it"],
      [
        battle.withHp(1, 1, 100).withState(({one}) => one.active.conditions.push("reflect")), "Reflect",
        "the user has it already"
      ],
    ];
    for (const [it, move, reason] of cases) equal([move, ...reasonOf(it, move)], [move, 0, reason]);
    equal(cases.every(([, , reason]) => library.REASONS.includes(reason)), true);
    // Fissure by the faster side: 30 % of 255 is 76.
    equal(reasonOf(battle, "Fissure", 2), [76 / 256, null]);
  });
  check("fixed damage", () => {
    const fixed = (move) => battle.odds(1, move).fixed;
    // Half of 353 HP is 176; Psywave deals 1 up to less than 150 at level 100.
    equal(["Seismic Toss", "Super Fang", "Sonic Boom", "Dragon Rage", "Psywave"].map(fixed),
        [[100, 100], [176, 176], [20, 20], [40, 40], [1, 149]]);
    equal([fixed("Body Slam"), fixed("Splash")], [null, null]);
    // "65535 breaks any Substitute and fells any foe"; docs/TABLES.md has three such moves.
    const oneHit = library.MOVES.filter((move) => move !== "Struggle" && battle.odds(1, move).oneHit);
    equal([oneHit, fixed("Fissure")], [["Guillotine", "Horn Drill", "Fissure"], [65535, 65535]]);
  });
  check("many hits, and charging", () => {
    const hits = (move) => battle.odds(1, move).hits.map((chance) => 8 * chance);
    equal(["Body Slam", "Double Kick", "Fury Attack"].map(hits),
        [[0, 8, 0, 0, 0, 0], [0, 0, 8, 0, 0, 0], [0, 0, 3, 3, 1, 1]]);
    equal(["Fly", "Body Slam"].map((move) => battle.odds(1, move).chargesFirst), [true, false]);
  });
}

// The odds of an action, of a Tauros against a foe that it may paralyse, hold or leave unhurt.
function actions(gen1, check) {
  check("odds of an action", () => {
    const battle = begun(gen1, "Tauros", "Starmie");
    const slam = battle.actionOdds(1, "Body Slam");
    equal([slam.chanceToAct, slam.chanceToHit, slam.sideEffectChance, slam.holdChance], [1, 255 / 256, 77 / 256, 0]);
    equal([slam.actsOf, slam.hitsOf], [65536, 4294967296]);
    const slow = battle.withStatus(1, 1, "paralysis").actionOdds(1, "Body Slam");
    equal([slow.chanceToAct, slow.chanceToHit], [193 / 256, 193 * 255 / 65536]);
    equal(battle.withStatus(2, 1, "burn").actionOdds(1, "Body Slam").sideEffectChance, 0);
    equal(battle.actionOdds(1, "Hyper Beam").sideEffectChance, 1);
    const wrap = begun(gen1, "Tauros", "Gengar").actionOdds(1, "Wrap");
    equal([wrap.chanceToHit, wrap.holdChance], [0, 216 / 256]);
  });
}

// The chances of a knock-out, for a Tauros with 353 HP, and 55 of 256 critical hits.
function knockOuts(gen1, check) {
  const battle = begun(gen1, "Tauros", "Tauros");
  const isWays = ({once, onceOf, chanceOnce}, ways, of) => equal([once * of, chanceOnce], [onceOf * ways, ways / of]);
  check("chances of a knock-out", () => {
    // Seismic Toss deals 100, and misses with one draw of 256.
    const toss = (hp) => battle.withHp(2, 1, hp).knockOut(1, "Seismic Toss");
    equal([100, 101, 200, 201].map((hp) => toss(hp).chanceOnce), [255 / 256, 0, 0, 0]);
    equal([100, 101, 200, 201].map((hp) => toss(hp).chanceTwice), [65535 / 65536, 65025 / 65536, 65025 / 65536, 0]);
    equal(toss(100).twiceOf, toss(100).onceOf ** 2);
    // Body Slam deals 95 to 112, and 112 at the factor 255 alone; each critical hit deals more. So 201 draws with 1 of 39 factors, and 55 with all.
    isWays(battle.withHp(2, 1, 112).knockOut(1, "Body Slam"), 255 * (201 + 55 * 39), 256 * 256 * 39);
    isWays(battle.withHp(2, 1, 95).knockOut(1, "Body Slam"), 255, 256);
  });
  check("chances of a knock-out in three uses", () => {
    // Seismic Toss deals 100, and misses with one draw of 256. With 22 HP lost after the first use, two hits of three take 222 HP.
    const toss = (hp, between) => battle.withHp(2, 1, hp).knockOutInThree(1, "Seismic Toss", between);
    const two = 3 * (255 / 256) ** 2 * (1 / 256) + (255 / 256) ** 3;
    equal([toss(222).chanceThrice, toss(222, {afterFirst: {lost: 22}}).chanceThrice], [(255 / 256) ** 3, two]);
    equal(toss(222, {afterFirst: {lost: 22}}).chanceTwice, (255 / 256) ** 2);
    equal(toss(300, {afterSecond: {gained: 1}}).chanceThrice, 0);
    // A foe that has fallen gains nothing, and one with all of its HP gains nothing either.
    equal(toss(100, {afterFirst: {gained: 353}}).chanceTwice, 255 / 256);
    equal(toss(353, {afterFirst: {gained: 65535, lost: 353}}).chanceTwice, 1);
    const before = battle.withHp(2, 1, 222);
    equal(before.knockOutInThree(1, "Body Slam").chanceTwice, before.knockOut(1, "Body Slam").chanceTwice);
  });
  check("chances of breaking a substitute", () => {
    const guarded = battle.withState(({two: {active}}) => {
      active.conditions.push("substitute");
      active.substitute = 89;
    });
    const {breaksSubstitute, chanceOnce} = guarded.knockOut(1, "Seismic Toss");
    equal(
        [breaksSubstitute, chanceOnce, battle.knockOut(1, "Seismic Toss").breaksSubstitute], [true, 255 / 256, false]);
    // Its 89 HP are 90 to take, and nothing is lost or gained between uses.
    const {chanceThrice} =
        guarded.knockOutInThree(1, "Seismic Toss", {afterFirst: {lost: 90}, afterSecond: {gained: 90}});
    equal(chanceThrice, 1 - (1 / 256) ** 3);
  });
}

/** Runs all examples of chances. */
export function chances(gen1, check) {
  for (const part of [odds, uses, outcomes, actions, knockOuts]) part(gen1, check);
}
