// The observation of a side: the fields of its gen1_player as a row of numbers, which contain only what the side may know.
import {CHOICES} from "./arguments.mjs";
import {CODES} from "./header.mjs";
import {layoutOf, offsetsOf} from "./structs.mjs";
import {CONDITIONS} from "./views.mjs";

export const PLAYER_SIZE = CODES.PLAYER_SIZE;
export const TELLER_SIZE = layoutOf("gen1_teller", false).size;

// Fields without a column: those without information, newer ones, and those of the player's own side that are also public.
const LEFT_OUT = {
  gen1_own_side: ["turn", "outcome"],
  gen1_own_member: ["unused"],
  gen1_seen: ["asleepBy", "slept", "unused"],
  gen1_announced: ["toxicCount"],
  gen1_public_side: ["unused"]
};
const PLAYER = offsetsOf("gen1_player");
const PUBLIC = offsetsOf("gen1_public");
const [SIDE_SIZE, OWN] = [offsetsOf("gen1_public_side").size, offsetsOf("gen1_own_side")];

// The numbers in a struct: the name and offset of each, and whether it has two bytes.
function numbersOf(struct, start, name, found = []) {
  for (const field of layoutOf(struct, false).fields) {
    if (LEFT_OUT[struct]?.includes(field.key)) continue;
    for (let turn = 0; turn < (field.count ?? 1); turn++) {
      const [at, whole] = [start + field.at + turn * field.size, `${name} ${wordsOf(field, turn + 1)}`];
      if (field.struct)
        numbersOf(field.struct, at, whole, found);
      else if (field.size <= 2)
        found.push({name: whole, at, isWord: field.size === 2});
    }
  }
  return found;
}

// "maxHp" as "max hp", and the first of "members" as "member 1".
function wordsOf({key, count}, number) {
  const words = key.replace(/[A-Z]/g, (letter) => ` ${letter.toLowerCase()}`);
  return count === undefined ? words : `${words.replace(/s$/, "")} ${number}`;
}

const bitsOf = (name, at, names) =>
    names.map((bit, place) => ({name: `${name} ${bit}`, at: at + (place >> 3), bit: place & 7}));

// The columns of a player of a side. The public information about its own side comes before that about the foe.
function columnsOf(side) {
  const sidesAt = PLAYER.known + PUBLIC.sides;
  return [
    ...numbersOf("gen1_own_side", PLAYER.own, "own"),
    ...bitsOf("own condition", PLAYER.own + OWN.conditions, CONDITIONS),
    ...numbersOf("gen1_public_side", sidesAt + (side - 1) * SIDE_SIZE, "public"),
    ...numbersOf("gen1_public_side", sidesAt + (2 - side) * SIDE_SIZE, "foe"),
    {name: "turn", at: PLAYER.known + PUBLIC.turn, isWord: true},
    {name: "outcome", at: PLAYER.known + PUBLIC.outcome},
    {name: "foes", at: PLAYER.foes},
    ...bitsOf("offered", PLAYER.offered, CHOICES),
  ];
}

const OF_SIDES = [1, 2].map(columnsOf);
/** The names of the columns of a row. */
export const COLUMNS = Object.freeze(OF_SIDES[0].map(({name}) => name));
// For each column its offset, times 16, plus 0 to 7 for a bit, 8 for a byte, and 9 for two bytes.
const PLANS =
    OF_SIDES.map((columns) => Int32Array.from(columns, ({at, bit, isWord}) => 16 * at + (bit ?? (isWord ? 9 : 8))));

/** Writes the row of the player at an offset of the bytes. */
export function fillRow(rows, to, bytes, from, side) {
  const plan = PLANS[side - 1];
  for (let column = 0; column < plan.length; column++) {
    const at = from + (plan[column] >> 4);
    const kind = plan[column] & 15;
    rows[to + column] = kind === 8 ? bytes[at] :
        kind === 9                 ? bytes[at] | (bytes[at + 1] << 8) :
                                     (bytes[at] >> kind) & 1;
  }
}
