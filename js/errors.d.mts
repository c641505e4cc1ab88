// Types of errors.mjs: the errors that the calls of gen1.mjs throw.

import type { ChoiceName } from "./gen1.mjs";

/** An argument has the wrong type. */
export class ArgumentTypeError extends TypeError {
  /** Its name, such as `two[0].level`. */
  readonly argument: string;
}
/** An argument is out of range, or is an unknown name. */
export class ArgumentError extends RangeError {
  /** Its name, such as `two[0].species`. */
  readonly argument: string;
}
/** The library refused a call. */
export class Gen1Error extends Error {
  /** The number in include/gen1.h. */
  readonly code: number;
  /** The meaning of the code, without the place and the values: "a move is there twice". For a text, the expected form. */
  readonly reason: string;
}
/** The module was not found, cannot run here, or is not the C library's. `cause` is the host's error, if there was one. */
export class ModuleError extends Gen1Error {}
/** The module's memory cannot grow. */
export class MemoryError extends Gen1Error {}
/** A battle or an array of battles was used after `free`. */
export class FreedError extends Gen1Error {}
/** Teams, rules or limit are refused. */
export class TeamError extends Gen1Error {
  /** 1 or 2; 0 if neither team is wrong. */
  readonly side: number;
  /** The place of the member from 1; 0 if it is not about one member. */
  readonly place: number;
  /** "level", "moves", "members", "rules", .. */
  readonly field: string;
}
/** A text is not a team. Places are from 1, or 0 for none. */
export class TextError extends Gen1Error {
  readonly line: number;
  readonly member: number;
  /** The field of a packed line. */
  readonly field: number;
  /** With code 77 the code of a TeamError; else 0. */
  readonly rule: number;
  /** The name, line or field that is wrong; empty if the error is about several. */
  readonly found: string;
  /** The name nearest to it, or null. */
  readonly near: string | null;
}
/** The bytes are not a battle. `code`, 16 to 22, belongs to the first of the seven tests that they fail (docs/LAYOUT.md, "Loading"). */
export class LoadError extends Gen1Error {}
/** A state cannot be that of a battle. */
export class StateError extends Gen1Error {
  /** The path of the first wrong field in the state: `state.two.members[0].hp`. Empty if the fields do not fit together. */
  readonly field: string;
  /** 1 or 2; 0 for a field of the whole battle. */
  readonly side: number;
  /** The place of the member; 0 for a field of the active member or of the whole battle. */
  readonly place: number;
  /** The index in a list, from 1; else 0. */
  readonly index: number;
  /** The value of the field. From `low` to `high` it does not fit other fields. */
  readonly value: unknown;
  readonly low: number;
  readonly high: number;
}
/** A choice was refused. */
export class RefusedError extends Gen1Error {
  /** The side that chose; 0 if the battle is over. */
  readonly side: number;
  /** The byte of the choice; null if the battle is over, and for words that name no offered choice. */
  readonly choice: number | null;
  readonly offered: readonly ChoiceName[];
}
/** A room refused a choice or a forfeit. */
export class RoomError extends RefusedError {
  /** The pair for which the choice was submitted. */
  readonly number: number;
  /** The current pair. */
  readonly current: number;
}
/** A host refused a row. It says nothing about the foe's choice. */
export class HostError extends Gen1Error {
  /** The side that the row is of. */
  readonly side: number;
  /** The pair that the row names; 0 if it names none. */
  readonly number: number;
  /** The current pair. */
  readonly current: number;
}
/** The bytes are not a log. */
export class LogError extends Gen1Error {
  /** The offset of the event that could not be read; below 0 if the event began in bytes that a spectator was fed before. */
  readonly at: number;
}
/** A move has no damage: it doesn't have the usual damage, or no member is out. */
export class DamageError extends Gen1Error {}
