// The types of search.mjs, which says what each call does.
import type {ChoiceName, Gen1Error, Player, Source} from "./gen1.mjs";

/** The options of a search. The budget is that of a level, 1 to 5 (without one 3), or a number of nodes. */
export interface ThinkOptions {
  level?: 1 | 2 | 3 | 4 | 5;
  nodes?: number;
  /** The seed of the search, to 2 ** 53 - 1; 0 without it. */
  seed?: number;
  /** The number of trees; 4 without it. */
  trees?: number;
  /** How many guesses of the foe's team each tree makes; 16 without it. */
  guesses?: number;
}

/** A choice, and what the search found about it. */
export interface Considered {
  choice: ChoiceName;
  /** The choice in words, such as `Body Slam` or `switch to Starmie`. */
  words: string;
  /** How often to make it. */
  probability: number;
  /** How often the side wins after it, against the foe's play in the search; null if it was not tried in the second half. */
  value: number | null;
  /** How play may continue: for each update the choices of the side and of the foe in words, this one first. */
  line: [string, string][];
}

/** The result of a search. */
export interface Thought {
  /** The offered choices, the most probable first. */
  choices: Considered[];
  /** How often the side is estimated to win, a tie counting as half. */
  value: number;
  /** The standard error of the value by the sampling alone: not that of the guesses, nor that of the values at the leaves. */
  deviation: number;
  /** The nodes of the search; 0 if only one choice was offered. */
  nodes: number;
}

/** There is nothing to think about: no choice is offered, or no guess fits what the player knows. */
export class SearchError extends Gen1Error {}

/** The searches. `loadSearch` makes them. */
export class Search {
  private constructor();
  /** How many bytes the module's memory has: those of the longest search so far. */
  readonly memorySize: number;
  /** How many nodes a search of a level has, 1 to 5. */
  levelNodes(level: 1 | 2 | 3 | 4 | 5): number;
  /**
   * Searches for the choice of a player, which may be sent to a worker as `player.bytes`. The foe's team is guessed from the sample teams. The
   * same arguments give the same result. Throws SearchError, ArgumentError, ArgumentTypeError.
   */
  think(player: Player | Uint8Array | ArrayBuffer, options?: ThinkOptions): Thought;
}

/** Loads the module of the searches: that of this package, or one from its URL, its path in Node, or its bytes. Throws ModuleError. */
export function loadSearch(source?: Source): Promise<Search>;
