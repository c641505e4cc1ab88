// A battle that fits a player's knowledge, with a guess of the rest, for searches that don't cheat.
import {record, seedFor} from "./arguments.mjs";
import {ArgumentError} from "./errors.mjs";
import {CODES} from "./header.mjs";
import {stateError} from "./states.mjs";
import {offsetsOf} from "./structs.mjs";
import {MOVES} from "./tables.mjs";
import {Team} from "./teams.mjs";

const KEYS = ["team", "seed"];
const [GUESS, TEAM] = ["gen1_guess", "gen1_team"].map(offsetsOf);
// Of a state that only the library has seen.
const UNSEEN = {
  one: {active: {conditions: []}},
  two: {active: {conditions: []}}
};

const named = ({species, level}) => `${species} of level ${level}`;

// The error for what does not fit.
function misfit(code, {state, count, member, moveNumber}, team, {members}) {
  const at = `guess.team[${member - 1}]`;
  if (code === CODES.ERROR_NOT_GOING_ON)
    return new ArgumentError("player must be in a battle that has begun and is not over", "player");
  if (code === CODES.ERROR_GUESS_COUNT)
    return new ArgumentError(
        `guess.team must have ${count} members, as many as the foe has, not ${team.length}`, "guess.team");
  if (code === CODES.ERROR_GUESS_MOVE)
    return new ArgumentError(`${at} must know ${MOVES[moveNumber - 1]}, which it was seen to use`, at);
  if (code === CODES.ERROR_GUESS_HP) {
    const {hp, maxHp} = members[member - 1];
    return new ArgumentError(
        `${at} must have a maximum HP that allows ${hp} of ${maxHp} HP, as the player was told`, at);
  }
  if (code !== CODES.ERROR_GUESS_MEMBER) return stateError(state, UNSEEN);
  if (member > team.length)
    return new ArgumentError(
        `guess.team must have the ${members.length} members that have appeared, not ${team.length}`, "guess.team");
  const [seen, found] = [members[member - 1], team.members[member - 1]].map(named);
  return new ArgumentError(`${at} must be ${seen}, which appeared, not ${found}`, at);
}

/** A block with the battle that fits a player's knowledge and a guess. */
export function blockOfGuess(library, player, guess) {
  const {team, seed} = record(guess, "guess", "an object with team and seed", KEYS);
  const foes = new Team(library, team, "guess.team");
  const bytes = new Uint8Array(GUESS.size);
  bytes.set(seedFor(library, seed), GUESS.numbers);
  library.begin();
  bytes.set(library.read(Team.pointer(foes, library), TEAM.size), GUESS.team);
  const [block, fault] = [library.arena.block(), library.roomOf("gen1_guess_fault")];
  const code =
      library.calls.gen1_battle_from_player(block.pointer, library.put(player.bytes), library.put(bytes), fault);
  if (!code) return block;
  library.arena.free(block);
  throw misfit(code, library.readStruct("gen1_guess_fault", fault), foes, player.view.foe);
}
