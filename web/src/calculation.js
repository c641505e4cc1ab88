// The numbers of a move in words: per cent of HP, the uses to knock out, the user's gains and losses, and a line to copy.
import {span} from "./words.js";

/**
 * @typedef {import("./engine.js").CalculatedMove} CalculatedMove
 * @typedef {import("./engine.js").Calculated} Calculated
 * @typedef {import("./engine.js").Standing} Standing
 */

/** A chance that a line shows as neither 0 nor 100 per cent. */
const VISIBLE = 0.0005;
/** How many uses a line considers, and for how many numbers of uses it has chances. */
const [USES, NAMED] = [9, 3];
/** The moves that continue for 1 to 4 uses more after one that hits, with its damage; and the chance of each number. */
const [TRAPPING, GOES_ON] = [["Bind", "Clamp", "Fire Spin", "Wrap"], [0.375, 0.375, 0.125, 0.125]];
const HELD = 8192;
const SHORT = ["atk", "def", "spe", "spc", "acc", "eva"];
/** @type {Record<number, string>} */
const AILING = {
  0: "",
  1: "sleeping ",
  8: "poisoned ",
  16: "burned ",
  32: "frozen ",
  64: "paralysed "
};
const SCREENS = ["Reflect", "Light Screen"];

/**
 * A number with one decimal, rounded as the program gen1 does: half to even.
 * @param {number} value
 */
export function tenth(value) {
  return value % 1 === 0.25 ? (value - 0.05).toFixed(1) : value.toFixed(1);
}

/**
 * A chance in per cent, which is 0% or 100% only if it is exactly that.
 * @param {number} part
 */
export function percent(part) {
  if (part === 0 || part === 1) return `${100 * part}%`;
  return part < VISIBLE ? "<0.1%" : part > 1 - VISIBLE ? ">99.9%" : `${tenth(100 * part)}%`;
}

/** @param {number} part */
function linePercent(part) {
  return part === 1 ? "100%" : part > 1 - VISIBLE ? "over 99.9%" : `${tenth(100 * part)}%`;
}

/**
 * The chance that a use hits.
 * @param {CalculatedMove} odds
 */
export function hitChance({hit, reason}) {
  return reason ? 0 : hit === null ? 1 : hit / 256;
}

/**
 * Whether a move takes all HP of the foe.
 * @param {CalculatedMove} odds
 */
export function isOneHit({fixed}) {
  return fixed?.[0] === 65535;
}

/**
 * The HP that uses must take: those of the foe, or one more than its Substitute has.
 * @param {Calculated} foe
 */
export function target({hp, substitute}) {
  return substitute ? substitute + 1 : hp;
}

/**
 * The least and the most damage of a hit; null for a move without damage.
 * @param {CalculatedMove} odds
 * @param {Calculated} foe
 * @returns {[number, number] | null}
 */
export function ofHit(odds, foe) {
  if (isOneHit(odds)) return [foe.hp, foe.hp];
  return odds.damage ? [odds.damage[0], odds.damage[odds.damage.length - 1]] : odds.fixed;
}

/**
 * Why a move has no damage.
 * @param {CalculatedMove} odds
 */
export function without({bound}) {
  // The engine has a bound for each move with the usual damage.
  return bound === null ? "no damage" : "the damage would be divided by 0";
}

/**
 * The fewest and the most hits of a use that hits.
 * @param {CalculatedMove} odds
 */
export function hitCounts({hits}) {
  const counts = hits.flatMap((part, count) => (part ? [count] : []));
  return counts.length ? [counts[0], counts[counts.length - 1]] : [1, 1];
}

/**
 * The damage of a use, with all of its hits.
 * @param {CalculatedMove} odds
 * @param {Calculated} foe
 */
export function ofUse(odds, foe) {
  const range = ofHit(odds, foe);
  const counts = hitCounts(odds);
  return range && range.map((number, at) => number * counts[at]);
}

/**
 * The damage of one use with its chances. All hits of a use deal the same.
 * @param {CalculatedMove} odds
 * @param {boolean} [isCritical] only the uses that are, or are not, a critical hit; by default all, with a miss as 0
 */
export function damages(odds, isCritical) {
  const lands = hitChance(odds);
  const critical = (odds.bound ?? 0) / 256;
  const [least, most] = odds.fixed ?? [0, 0];
  const each = (/** @type {number[]} */ numbers, /** @type {number} */ chance) =>
      numbers.map((number) => [number, chance / numbers.length]);
  const usual = odds.damage ? each(odds.damage, 1 - critical) :
                              each(Array.from({length: most - least + 1}, (_, at) => least + at), 1);
  const hard = odds.damage ? each(odds.critical ?? [], critical) : [];
  const ofHit = isCritical === undefined ? [...usual, ...hard] : isCritical ? hard : usual;
  /** @type {Map<number, number>} */
  const found = new Map(isCritical === undefined ? [[0, 1 - lands]] : []);
  odds.hits.forEach((part, count) => {
    for (const [number, chance] of part ? ofHit : [])
      found.set(number * count, (found.get(number * count) ?? 0) + chance * part * lands);
  });
  return [...found].filter(([, chance]) => chance > 0);
}

/**
 * The damage of a use on average, up to the HP that it has to take.
 * @param {CalculatedMove} odds
 * @param {Calculated} foe
 */
export function onAverage(odds, foe) {
  if (!odds.damage && !odds.fixed) return 0;
  return damages(odds).reduce((sum, [number, chance]) => sum + Math.min(number, target(foe)) * chance, 0);
}

/**
 * The chances that 1, 2, .. uses take all HP, one after the other. Those of one, two and three are the engine's. The last chance is 1, or that of
 * the ninth use.
 * @param {CalculatedMove} odds
 * @param {number} hp
 */
export function* usesToKnockOut(odds, hp) {
  const each = damages(odds);
  const {chanceOnce, chanceTwice, chanceThrice} = odds.knockOut;
  const exact = [chanceOnce, chanceTwice, chanceThrice];
  const rule = ruleOf(odds);
  /** @type {Taken} */
  let taken = {free: Float64Array.of(1, ...Array(hp - 1).fill(0)), held: new Map(), all: 0};
  for (let use = 0, isCertain = false; use < USES && !isCertain; use++) {
    taken = afterUse(taken, each, rule);
    isCertain = !taken.held.size && taken.free.every((chance) => chance === 0);
    yield exact[use] ?? (isCertain ? 1 : Math.min(1, taken.all));
  }
}

/**
 * How a use of a move changes those after it.
 * @param {CalculatedMove} odds
 */
function ruleOf({move, knockOut}) {
  if (TRAPPING.includes(move)) return "traps";
  return move === "Super Fang" && !knockOut.breaksSubstitute ? "halves" : "";
}

/**
 * The chances of what uses have taken: of each number of HP before a new use; of a number of HP with a damage that some uses deal again, by
 * `HELD * number + 4 * damage + uses - 1`; and of all HP.
 * @typedef {{free: Float64Array, held: Map<number, number>, all: number}} Taken
 */

/**
 * @param {Taken} before
 * @param {number[][]} each the damages of a use, with their chances
 * @param {string} rule
 * @returns {Taken}
 */
function afterUse(before, each, rule) {
  const hp = before.free.length;
  const after = {free: new Float64Array(hp), held: new Map(), all: before.all};
  const add = (/** @type {number} */ sum, /** @type {number} */ chance, number = 0, uses = 0) => {
    const at = HELD * sum + 4 * number + uses - 1;
    if (sum >= hp)
      after.all += chance;
    else if (uses)
      after.held.set(at, (after.held.get(at) ?? 0) + chance);
    else
      after.free[sum] += chance;
  };
  before.free.forEach((chance, sum) => {
    for (const [drawn, part] of chance ? each : []) {
      const number = Math.min(drawn, hp);
      if (rule === "traps" && number)
        GOES_ON.forEach((cases, at) => add(sum + number, chance * part * cases, number, at + 1));
      else
        add(sum + (rule === "halves" && number ? Math.max(1, Math.floor((hp - sum) / 2)) : number), chance * part);
    }
  });
  for (const [at, chance] of before.held) {
    const [number, uses] = [(at % HELD) >> 2, at & 3];
    add(Math.floor(at / HELD) + number, chance, number, uses);
  }
  return after;
}

/**
 * The user's gains and losses by a move, per cent of its maximum HP first; empty for none.
 * @param {CalculatedMove} odds
 * @param {string} effect as docs/TABLES.md writes it
 * @param {Calculated} user
 * @param {Calculated} foe
 */
export function costs(odds, effect, user, foe) {
  const range = ofHit(odds, foe);
  // A hit that breaks a Substitute has no effect on its user.
  if (odds.reason || !range || (foe.substitute && range[0] > foe.substitute)) return "";
  const dealt = range.map((number) => Math.min(number, foe.substitute || foe.hp));
  const part = (/** @type {number} */ divisor) => {
    const [least, most] = dealt.map((number) => Math.max(1, Math.floor(number / divisor)));
    return `${span(tenth((100 * least) / user.max), tenth((100 * most) / user.max))}% (${span(least, most)})`;
  };
  switch (effect) {
    case "Recoil":
      return `recoil ${part(odds.move === "Struggle" ? 2 : 4)}`;
    case "Drain":
    case "DreamEater":
      return `drains ${part(2)}`;
    case "Explode":
      return "the user faints";
    case "CrashOnMiss":
      return "a miss costs 1 HP";
    case "Recharge":
      return "recharges";
    case "Charge":
    case "ChargeInvulnerable":
      return "charges first";
    case "Trapping":
      return "2–5 turns";
    case "Thrash":
      return "3–4 turns";
    default:
      return "";
  }
}

/** @type {Record<string, string>} what moves do besides their damage (docs/TABLES.md, "Effects"), where nothing else says it */
const EFFECTS = {
  FreezeChance: "freezes at 10.2%",
  Twineedle: "poisons at 20.3%",
  AlwaysFails: "always fails",
  ChargeInvulnerable: "out of reach meanwhile",
  Trapping: "traps for 2–5 turns",
  OneHitKnockOut: "not against a faster foe",
  CrashOnMiss: "a miss costs 1 HP",
  Recoil: "recoil of a quarter",
  Thrash: "3–4 turns, then confused",
  InflictSleep: "puts to sleep",
  InflictConfusion: "confuses",
  Disable: "disables a move",
  Mist: "keeps stats from being lowered",
  Recharge: "then recharges",
  Counter: "twice the last damage, after the foe",
  Drain: "heals half of the damage",
  LeechSeed: "drains HP each turn",
  InflictPoison: "poisons",
  InflictParalysis: "paralyses",
  Rage: "goes on to the end",
  Heal: "heals half of the HP",
  Haze: "resets stages, cures the foe",
  FocusEnergy: "fewer critical hits",
  Bide: "deals damage back after 2–3 turns",
  Explode: "the user faints",
  DreamEater: "heals half of the damage",
  Splash: "does nothing",
  Conversion: "takes the foe's types",
  SuperFang: "half of the HP",
  Substitute: "costs a quarter of the HP",
};
/** @type {Record<string, string>} those of moves that differ from others with their effect */
const OWN_EFFECTS = {
  Toxic: "poisons more each turn",
  Rest: "heals all, sleeps",
  Reflect: "doubles Defense",
  "Light Screen": "doubles Special",
  Struggle: "recoil of a half",
};
/** @type {Record<string, string>} effects with a chance, of 256 */
const CHANCES = {
  BurnChance: "burns",
  ParalysisChance: "paralyses",
  PoisonChance: "poisons",
  FlinchChance: "flinches",
  ConfusionChance: "confuses"
};

/**
 * What a move does besides its damage, in a few words; empty for nothing, or if it is said elsewhere.
 * @param {import("./engine.js").Move} move
 */
export function effectWords({name, effect}) {
  const [, kind, one, two = "1"] = /^(\w+)(?:\((\w+)(?:, (\d))?\))?$/.exec(effect) ?? [];
  if (CHANCES[kind]) return `${CHANCES[kind]} at ${percent(Number(one) / 256)}`;
  if (kind === "StatUp") return `${one} +${two}`;
  if (kind === "StatDown") return `foe's ${one} −${two}`;
  if (kind === "StatDownChance") return `foe's ${one} −1 at 33.2%`;
  return OWN_EFFECTS[name] ?? EFFECTS[kind] ?? "";
}

/**
 * A member's name with its level, if that is not 100.
 * @param {Standing} it
 */
function named({member: {species, level}}) {
  return level === 100 ? String(species) : `L${level} ${species}`;
}

/**
 * Stages and status, before a name.
 * @param {Standing} it
 */
function before({stages, status}) {
  const shifted =
      stages.flatMap((stage, at) => (stage === 6 ? [] : [`${stage > 6 ? "+" : ""}${stage - 6} ${SHORT[at]} `]));
  return shifted.join("") + AILING[status > 0 && status < 8 ? 1 : status];
}

/** @param {CalculatedMove} odds @param {Calculated} foe */
function damageWords(odds, foe) {
  const range = ofHit(odds, foe);
  if (!range) return without(odds);
  if (isOneHit(odds)) return "all HP";
  const [least, most] = range;
  const share = (/** @type {number} */ number) => tenth((100 * number) / foe.max);
  const text = least === most ? `${least} (${share(least)}%)` : `${least}-${most} (${share(least)} - ${share(most)}%)`;
  const [fewest, highest] = hitCounts(odds);
  return text +
      (highest < 2 || !odds.damage ? "" :
              fewest === highest   ? ` each of ${fewest} hits` :
                                     ` each of ${fewest} to ${highest} hits`);
}

/** @param {CalculatedMove} odds @param {number} hp */
function knockOutWords(odds, hp) {
  if (!odds.damage && !odds.fixed) return "";
  const what = odds.knockOut.breaksSubstitute ? "to break it" : "to KO";
  const texts = [];
  let uses = 0;
  for (const chance of usesToKnockOut(odds, hp)) {
    uses++;
    if (chance < VISIBLE) continue;
    texts.push(`${linePercent(chance)} ${texts.length ? "" : `${what} `}in ${uses} ${uses === 1 ? "use" : "uses"}`);
    if (texts.length === NAMED || chance >= 1 - VISIBLE) break;
  }
  return texts.length ? `; ${texts.join(", ")}` : `; no chance ${what} in ${uses} uses`;
}

/**
 * A line about a move, in the form of the program's `gen1 calc` and of Smogon's calculator.
 * @param {CalculatedMove} odds
 * @param {Standing} one the user
 * @param {Standing} two the foe
 * @param {Calculated} foe
 */
export function line(odds, one, two, foe) {
  const screens = SCREENS.filter((_, bit) => (two.conditions >> bit) & 1);
  const head = `${before(one)}${named(one)} ${odds.move} vs. ${before(two)}${named(two)}${
                   screens.length ? ` with ${screens.join(" and ")}` : ""}` +
      (foe.substitute ? ` behind a Substitute with ${foe.substitute} HP` :
              foe.hp < foe.max ? ` at ${foe.hp} HP` :
                                 "");
  if (odds.reason) return `${head}: can't hit: ${odds.reason}`;
  const critical = odds.critical && odds.bound ?
      `, ${linePercent(odds.bound / 256)} critical ${odds.critical[0]}-${odds.critical[odds.critical.length - 1]}` :
      "";
  const miss = odds.hit === null ? "" : `, ${linePercent(1 - odds.hit / 256)} miss`;
  return `${head}: ${damageWords(odds, foe)}${critical}${miss}${odds.charges ? ", after a turn of charging" : ""}${
      knockOutWords(odds, target(foe))}`;
}
