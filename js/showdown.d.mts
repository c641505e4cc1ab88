// The types of showdown.mjs. docs/PROGRAM.md has the lines, the requests and the commands, which are from memory of Showdown's public
// documents. Nothing of it is proved.
import type {
  ArgumentError, Battle, ChoiceName, Gen1, Gen1Error, Host, Message, MoveName, Notice, Numbers, Player, Side, Source, SpeciesName, Team, WholeMember,
} from "./gen1.mjs";

/** The form in which a member's HP is shown to all but its owner: as it is reported, in 48ths, or in hundredths. */
export type Hp = "exact" | "pixels" | "percent";
/** Who reads lines. Those of "omniscient" and "stream" have what a side must not see. */
export type Viewer = "p1" | "p2" | "spectator" | "omniscient" | "stream";

/** A command or a line of a log is not one, or can't be part of the battle. */
export class ProtocolError extends Gen1Error {
  /** The number of the line, from 1; 0 if the error is about no line. */
  readonly line: number;
}
/** A text isn't a choice that can be made now. The message is what Showdown sends after `|error|[Invalid choice]` and a space. */
export class ChoiceError extends Gen1Error {}

/** A secret is not the one that a player committed to. */
export class CommitmentError extends ArgumentError {
  /** The player, 1 or 2. */
  readonly player: number;
}

/** A member with its exact names. A field that is left out has its maximum. */
export interface NamedMember {
  species: SpeciesName;
  level?: number;
  dvs?: Numbers;
  exp?: Numbers;
  moves: readonly (MoveName | readonly [MoveName, number])[];
}

/** The members of a team, with their nicknames. */
export class Members {
  private constructor();
  readonly length: number;
  /** The members as `gen1.battle` takes them. */
  readonly team: WholeMember[];
  /** The nickname of each member, or null. */
  readonly nicknames: (string | null)[];
  /** The name of each member in lines: its nickname, or its species. */
  readonly names: readonly string[];
  /** The team as a packed line. Throws TeamError for a move that has other than three PP ups, which a text can't say. */
  packed(): string;
  /** The team as an export text. Throws TeamError as `packed` does. */
  export(): string;
}

/** A rule of a format that a team breaks. */
export interface Complaint {
  /** The place of the member, from 1; 0 if it is about the whole team. */
  member: number;
  /** The number of its species; null for the whole team. */
  species: number | null;
  rule: string;
  /** What breaks the rule. */
  value: string;
  /** All of it as a sentence. */
  text: string;
}

/** Named rule sets, which check teams. */
export class Formats {
  private constructor();
  readonly ids: readonly string[];
  /** Where the rules are from, and of which day. */
  readonly source: string;
  readonly date: string;
  /** The name of a format in lines. Throws ArgumentError, as the next three do, for an unknown format. */
  tier(id: string): string;
  /** The rules of a battle of a format, 0 to 3. */
  rules(id: string): number;
  /** The clauses of a format, for `lines`. */
  clauses(id: string): string[];
  /** The rules of a format that a team breaks: by members, then of the whole team. */
  complaints(members: Members, id: string): Complaint[];
}

/** An object of the module. */
interface Kept {
  /** Gives its memory back at once. Otherwise that happens when it is collected. Any later call throws FreedError. */
  free(): void;
  [Symbol.dispose](): void;
}

/** Writes the lines of a battle, for each viewer. */
export class Lines implements Kept {
  private constructor();
  /** Adds the lines of an update of a battle: a copy of the battle before it, its log, and the battle after it. */
  update(before: Battle, log: Uint8Array, after: Battle, time?: number): void;
  /** Adds the lines of the last pair of a host, at the beginning those of its start: once after each pair. */
  report(host: Host, time?: number): void;
  /** Adds the lines of a pair for one viewer: the player of the side whose members are known, or a spectator. Each is taken in once, in order. */
  receive(sent: Message | Notice, time?: number): void;
  /** Adds the lines of an earlier pair for one viewer, of which only the log that was sent to it was kept. */
  hear(log: Uint8Array): void;
  /** Ends the battle by a win of a side, or with null by a tie. */
  end(winner: Side | null): void;
  /** Ends the battle by a forfeit of a side. */
  forfeit(side: Side): void;
  /** Adds a line that everyone sees, without its first bar. */
  line(text: string): void;
  /** The lines so far as a viewer sees them, each with a line feed. */
  text(viewer: Viewer): string;
  /** Forgets the lines so far. */
  clear(): void;
  free(): void;
  [Symbol.dispose](): void;
}

/** A player of a battle, as Showdown sees one: its requests, and its choices read. It is given nothing that the player may not know. */
export class Seat implements Kept {
  private constructor();
  /** Takes in a message of the player's host: each once, in order. */
  receive(message: Message): void;
  /** Takes in the log of an earlier pair that was sent to the player, for a player that comes back; `receive` then takes in the last message. */
  hear(log: Uint8Array): void;
  /** Takes in an update of a battle: the battle after it, and its log. */
  tell(battle: Battle, log: Uint8Array): void;
  /** The request to the player, as JSON, with its number from 1. */
  request(rqid: number): string;
  /** Whether the player has nothing to choose. Then its choice is a pass. */
  readonly waits: boolean;
  /** The choice in a text: `move` or `switch` with a name or a number of the request, `default` or `auto`. Throws ChoiceError. */
  choiceIn(text: string): ChoiceName;
  free(): void;
  [Symbol.dispose](): void;
}

/** Plays battles by the commands of Showdown's simulator, one battle after the other (docs/PROGRAM.md, "showdown"). */
export class Simulator implements Kept {
  private constructor();
  /**
   * Handles a line: the messages, each with an empty line at its end, and why the command was ignored, or null. Throws ProtocolError, TeamError; the
   * simulator is then unchanged.
   */
  take(line: string): { text: string; note: string | null };
  free(): void;
  [Symbol.dispose](): void;
}

/**
 * The sleep and the freeze clause as a cartridge's organiser has them: a side loses that puts a second living member of the foe to sleep by a move, or
 * freezes a second one. Rest does not count. The rules of a battle make such a move fail, so that battle has none.
 */
export class EndingClauses implements Kept {
  private constructor();
  /** Takes in the log of a pair, such as that of a host's notice: each once, in order. Returns the first side that broke a clause so far, or null. */
  hear(log: Uint8Array): Side | null;
  free(): void;
  [Symbol.dispose](): void;
}

/**
 * A battle log of one battle from its beginning, as the player of a side reads it (docs/PROGRAM.md, "follow"). Its lines may come in pieces. All
 * properties and calls throw ProtocolError for the first line that can't be part of the battle, and until both sides have sent out a member.
 */
export class Follower {
  private constructor();
  /** Adds whole lines of a log, or a whole replay page. */
  read(text: string): void;
  /** What is unknown in the log, each once with its first line, from 1; the first twenty. */
  readonly notes: { line: number; why: string }[];
  /** The events of the log as log bytes. */
  readonly log: Uint8Array;
  /**
   * What both sides chose for each update after the first, such as "move Body Slam" and "switch Bob". Null where the log doesn't say: for a side that had
   * nothing to choose, or whose member did not act. An update whose end isn't in the log is left out.
   */
  readonly choices: [string | null, string | null][];
  /** The name, the number of members (null if the log does not have it), and the members' names of a side. */
  side(side: Side): { name: string; count: number | null; names: string[] };
  /** What the player knows after the log. Without its team it has a team of the members that came out. */
  player(gen1: Gen1): Player;
  /** A battle that fits what the player knows, its last request, and a guess of the foe's team in any order. Without a seed its draws are by chance. */
  battle(gen1: Gen1, guess: Members, seed?: Numbers): Battle;
}

/** The protocol. `loadShowdown` makes it. Its calls throw ArgumentError, ArgumentTypeError, and TeamError for a text or a team that is none. */
export class Showdown {
  private constructor();
  /** The members of a text, in any form (docs/TEAM_TEXT.md), or of a team; with nicknames in place of those of the text. */
  members(team: string | Team | readonly NamedMember[], nicknames?: readonly (string | null)[]): Members;
  /** The formats of a file's text, in the form of rust/gen1-showdown/formats.json, or those of the library. */
  formats(file?: string): Formats;
  /**
   * The lines of a battle, which begin with those of the heading. `members` are those of both sides; or of a side that is not known their number, for
   * the lines of one viewer. `tier` and `rules` are a format's name and clauses, and `hp` is "exact" without it.
   */
  lines(options: {
    players: readonly [string, string]; members: readonly [Members | number, Members | number]; tier?: string; rules?: readonly string[]; hp?: Hp;
  }): Lines;
  /** The player of a side before the first update. `foes` is how many members the foe has, if that is known. */
  seat(options: { side: Side; name: string; members: Members; foes?: number; hp?: Hp }): Seat;
  /** A simulator that waits for `>start`. With `clock` each update begins with the time. */
  simulator(options?: { hp?: Hp; clock?: boolean; formats?: Formats }): Simulator;
  /** The clauses of a battle before its first update: both, unless an option says otherwise. */
  endingClauses(options?: { sleep?: boolean; freeze?: boolean }): EndingClauses;
  /**
   * The commitment of player 1 or 2 to its secret: 32 bytes of crypto.getRandomValues. It is a SHA-256 of the secret, the player and the battle's
   * name. A host shows both commitments to both players, and only then asks for the secrets. What can be tried:
   *
   * - To choose a secret late, or to guess the other's: no second secret has the commitment, and it says nothing of 32 bytes by chance.
   * - To repeat a commitment, of the other player or of an earlier battle: it has the player and the name, so each battle needs a different name.
   * - To refuse the secret: a player that has both first knows the result. So a refusal must be a loss, never a new draw; and where secrets go to
   *   the host alone, a player has nothing to refuse by.
   * - To know draws in advance: both secrets give all draws of a battle that continues with its seed. Players without a host agree again for
   *   each pair, and submit the seed as its numbers. A host that shows a player the secrets can't be detected.
   */
  commit(battle: string, player: 1 | 2, secret: Uint8Array): Uint8Array;
  /**
   * What the secrets of player 1 and 2 decide: the seed of the battle, and the side of each player, by lot. After the battle its host shows both
   * secrets, with which anybody can do the same. Throws CommitmentError for a secret without its commitment.
   */
  agree(
      battle: string, commitments: readonly [Uint8Array, Uint8Array], secrets: readonly [Uint8Array, Uint8Array],
  ): { seed: Uint8Array; sides: [Side, Side] };
  /** With the player's team its members have their places; without it they are numbered as they came out. */
  follower(options: { side: Side; members?: Members }): Follower;
}

/** Loads the module of the protocol: that of this package, or one from its URL, its path in Node, or its bytes. Throws ModuleError. */
export function loadShowdown(source?: Source): Promise<Showdown>;
