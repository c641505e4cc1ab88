// The log bytes of events (docs/MECHANICS.md, "Log bytes"). The fields of events are described in events.mjs.
import {byteOr255, list, object, record, shown} from "./arguments.mjs";
import {ArgumentError} from "./errors.mjs";
import {CANT_REASONS, DAMAGE_SOURCES, EVENT_KINDS, FAULTS, FIELDS_OF, VOLATILES} from "./events.mjs";
import {indexOf, wordOrMost} from "./states.mjs";
import {bytesOf, moveOf, speciesOf} from "./teams.mjs";
import {STATS, STATUSES} from "./views.mjs";

const EVENT_ROOM = 10;
const LAWFUL = "an event, as `events` returns it";
// For each field with names: the names, and the number of the first.
const NAMES = {
  status: [STATUSES, 0],
  reason: [CANT_REASONS, 1],
  source: [DAMAGE_SOURCES, 0],
  volatile: [VOLATILES, 1],
  stat: [STATS, 1],
  fault: [FAULTS, 1]
};
const NUMBERS = {
  species: speciesOf,
  targetSpecies: speciesOf,
  move: moveOf
};
const WORDS = ["hp", "maxHp", "turn"];
// The fields of a gen1_event that have another name there.
const KEYS = {
  reason: "detail",
  source: "detail",
  volatile: "detail",
  stat: "detail",
  fault: "detail",
  stages: "amount",
  hits: "amount"
};

// The number of a field. One that is out of range becomes one that the library refuses.
function numberOf(library, field, value, what) {
  if (NAMES[field]) return indexOf(NAMES[field][0], value, what) + NAMES[field][1];
  if (NUMBERS[field]) return NUMBERS[field](library, value, what);
  return WORDS.includes(field) ? wordOrMost(value, what) : byteOr255(value, what);
}

/** The log bytes of an event. `what` names the argument. */
export function eventBytes(library, event, what) {
  const kind = indexOf(EVENT_KINDS, object(event, what, LAWFUL).kind, `${what}.kind`);
  record(event, what, LAWFUL, ["kind", "size", ...FIELDS_OF[kind]]);
  const fields = FIELDS_OF[kind].map(
      (field) => [KEYS[field] ?? field, numberOf(library, field, event[field], `${what}.${field}`)]);
  library.begin();
  const struct = library.put(bytesOf("gen1_event", library.isLong, {tag: kind + 1, ...Object.fromEntries(fields)}));
  const [bytes, length] = [library.room(EVENT_ROOM), library.room(8)];
  if (library.calls.gen1_event_bytes(struct, bytes, length))
    throw new ArgumentError(
        `${what} is ${shown(event)}, which has a field that is out of range (docs/MECHANICS.md, "Log bytes")`, what);
  return library.read(bytes, library.sizeAt(length));
}

/** The log bytes of events in the form that `events` returns. */
export function logBytesOf(library, events) {
  const pieces = Array.from(
      list(events, "events", "a list of events"), (event, place) => eventBytes(library, event, `events[${place}]`));
  const log = new Uint8Array(pieces.reduce((sum, {length}) => sum + length, 0));
  let end = 0;
  for (const piece of pieces) {
    log.set(piece, end);
    end += piece.length;
  }
  return log;
}
