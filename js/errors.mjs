// The library's errors. A call that throws one of them has changed nothing.

/** The library refused a call. `code` is the number in include/gen1.h, and `reason` its meaning, without the place and the values. */
export class Gen1Error extends Error {
  constructor(message, code = 0, reason = message) {
    super(message);
    this.name = new.target.name;
    this.code = code;
    this.reason = reason;
  }
}

/** An argument has the wrong type. `argument` is its name, such as `two[0].level`. */
export class ArgumentTypeError extends TypeError {
  constructor(message, argument) {
    super(message);
    this.name = new.target.name;
    this.argument = argument;
  }
}

/** An argument is out of range, or is an unknown name. `argument` is its name, such as `two[0].species`. */
export class ArgumentError extends RangeError {
  constructor(message, argument) {
    super(message);
    this.name = new.target.name;
    this.argument = argument;
  }
}

/** The module was not found, cannot run here, or is not the C library's. */
export class ModuleError extends Gen1Error {}

/** The module's memory cannot grow. */
export class MemoryError extends Gen1Error {}

/** A battle or an array of battles was used after `free`. */
export class FreedError extends Gen1Error {}

/** Teams, rules or limit are refused. Has the side (0 if neither team is wrong), the place of the member, and the field. */
export class TeamError extends Gen1Error {
  constructor(message, code, {side = 0, place = 0, field = "", reason} = {}) {
    super(message, code, reason);
    this.side = side;
    this.place = place;
    this.field = field;
  }
}

/**
 * A text is not a team. Places are from 1, or 0 for none. With code 77 `rule` is the code of a TeamError. `found` is the name, line or field that
 * is wrong, or empty if the error is about several, and `near` the name nearest to it, or null.
 */
export class TextError extends Gen1Error {
  constructor(message, {code, line, member, field, rule, found, near}, reason) {
    super(message, code, reason);
    Object.assign(this, {line, member, field, rule, found, near});
  }
}

/** The bytes are not a battle or not a host. `code` belongs to the first test that they fail: 16 to 22 of the battle, 80 to 90 of the host. */
export class LoadError extends Gen1Error {}

/**
 * A state cannot be that of a battle. `field` is the path of the first wrong field in the state, such as `state.two.members[0].hp`, or empty if the
 * fields do not fit together. `side` and `place` are 0 if the error is not about one, and `index` is from 1 in a list, else 0. A `value` from
 * `low` to `high` does not fit other fields.
 */
export class StateError extends Gen1Error {
  constructor(message, code, {field, side, place, index, value, low, high}) {
    super(message, code);
    Object.assign(this, {field, side, place, index, value, low, high});
  }
}

/** A choice was refused. Has the side (0 if the battle is over), the byte of the choice (null for words), and the offered choices. */
export class RefusedError extends Gen1Error {
  constructor(message, code, {side = 0, choice = null, offered = [], reason} = {}) {
    super(message, code, reason);
    this.side = side;
    this.choice = choice;
    this.offered = offered;
  }
}

/** A room refused a choice for the pair `number`; `current` is the number of the current pair. Neither reveals the foe's choice. */
export class RoomError extends RefusedError {
  constructor(message, code, {number, current, ...more}) {
    super(message, code, more);
    this.number = number;
    this.current = current;
  }
}

/** A host refused a row of a side, for the pair `number`; `current` is the number of the current pair. It does not reveal the foe's choice. */
export class HostError extends Gen1Error {
  constructor(message, code, {side, number, current, reason}) {
    super(message, code, reason);
    Object.assign(this, {side, number, current});
  }
}

/** The bytes are not a log. `at` is the offset of the wrong event; below 0 if the event began in bytes that a spectator was fed before. */
export class LogError extends Gen1Error {
  constructor(message, code, at, reason) {
    super(message, code, reason);
    this.at = at;
  }
}

/** A move has no damage. */
export class DamageError extends Gen1Error {}
