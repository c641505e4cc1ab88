// The events and the lines of log bytes (docs/MECHANICS.md, "Events" and "Lines").
import {LogError} from "./errors.mjs";
import {CODES} from "./header.mjs";
import {layoutOf} from "./structs.mjs";
import {MOVES, SPECIES} from "./tables.mjs";
import {namesOf, STATS, STATUSES} from "./views.mjs";

/** The kinds of events, by number less 1. */
export const EVENT_KINDS = namesOf("EVENT_");
/** Why a member can't act, by number less 1. */
export const CANT_REASONS = namesOf("REASON_");
/** The source of damage, by number. */
export const DAMAGE_SOURCES = namesOf("SOURCE_");
/** The condition that starts, ends or takes effect, by number less 1. */
export const VOLATILES = namesOf("VOLATILE_");
/** Why a battle had to stop, by number less 1. */
export const FAULTS = namesOf("FAULT_");

const WHO = ["side", "species"];
const HEALTH = ["hp", "maxHp", "status"];
// The fields of each kind; all other kinds have WHO.
const FIELDS = {
  turn: ["turn"],
  switch: [...WHO, "place", "level", ...HEALTH],
  move: [...WHO, "move", "targetSide", "targetSpecies"],
  cant: [...WHO, "reason"],
  damage: [...WHO, ...HEALTH, "source"],
  heal: [...WHO, ...HEALTH],
  status: [...WHO, "status"],
  cure: [...WHO, "status"],
  boost: [...WHO, "stat", "stages"],
  unboost: [...WHO, "stat", "stages"],
  "clear all": [],
  start: [...WHO, "volatile"],
  end: [...WHO, "volatile"],
  activate: [...WHO, "volatile"],
  prepare: [...WHO, "move"],
  "hit count": [...WHO, "hits"],
  "one hit knock out": [],
  win: ["side"],
  tie: [],
  fault: ["fault"],
};
/** The fields of each kind after `kind`, by number less 1. */
export const FIELDS_OF = EVENT_KINDS.map((kind) => FIELDS[kind] ?? WHO);

// Offsets in a gen1_event, which has no field whose size depends on the module.
const AT = Object.fromEntries(layoutOf("gen1_event", false).fields.map(({key, at}) => [key, at]));
const word = (bytes, at) => bytes[at] | (bytes[at + 1] << 8);
const READ = {
  side: (bytes, at) => bytes[at + AT.side],
  species: (bytes, at) => SPECIES[bytes[at + AT.species] - 1],
  move: (bytes, at) => MOVES[bytes[at + AT.move] - 1],
  targetSide: (bytes, at) => bytes[at + AT.targetSide],
  targetSpecies: (bytes, at) => SPECIES[bytes[at + AT.targetSpecies] - 1],
  place: (bytes, at) => bytes[at + AT.place],
  level: (bytes, at) => bytes[at + AT.level],
  status: (bytes, at) => STATUSES[bytes[at + AT.status]],
  hp: (bytes, at) => word(bytes, at + AT.hp),
  maxHp: (bytes, at) => word(bytes, at + AT.maxHp),
  turn: (bytes, at) => word(bytes, at + AT.turn),
  reason: (bytes, at) => CANT_REASONS[bytes[at + AT.detail] - 1],
  source: (bytes, at) => DAMAGE_SOURCES[bytes[at + AT.detail]],
  volatile: (bytes, at) => VOLATILES[bytes[at + AT.detail] - 1],
  stat: (bytes, at) => STATS[bytes[at + AT.detail] - 1],
  fault: (bytes, at) => FAULTS[bytes[at + AT.detail] - 1],
  stages: (bytes, at) => bytes[at + AT.amount],
  hits: (bytes, at) => bytes[at + AT.amount],
};

// The event in a gen1_event. `size` is how many bytes of the log it takes.
function eventAt(bytes, at, size) {
  const number = bytes[at + AT.tag] - 1;
  const event = {kind: EVENT_KINDS[number]};
  for (const field of FIELDS_OF[number]) event[field] = READ[field](bytes, at);
  event.size = size;
  return event;
}

// The error for bytes that are not a log. The wrong event begins at byte `at`, or, below 0, in the bytes before these.
function logError(library, code, at) {
  const where = at < 0 ? `${- at} bytes before these` : `byte ${at}`;
  const sentence = library.sentence(code);
  return new LogError(`${where}: ${sentence}`, code, at, sentence);
}

// Reads each event of a log, which is copied to memory once. `reader` is passed the first arguments of the call, and returns a function
// that reads the next event, which returns the code and a function for the event.
function told(library, log, reader) {
  library.begin();
  const [bytes, at, found] = [library.put(log), library.room(8), []];
  const read = reader(bytes, library.size(log.length), at);
  for (;;) {
    const [code, next] = read();
    if (code === CODES.ERROR_LOG_END) return found;
    if (code) throw logError(library, code, library.sizeAt(at));
    found.push(next());
  }
}

/** The events of log bytes. */
export function eventsOf(library, log) {
  return told(library, log, (bytes, count, at) => {
    const event = library.roomOf("gen1_event");
    const place = Number(event);
    let begun = 0;
    const next = () => {
      const end = library.sizeAt(at);
      const read = eventAt(library.bytes, place, end - begun);
      begun = end;
      return read;
    };
    return () => [library.calls.gen1_next_event(bytes, count, at, event), next];
  });
}

/** The lines of log bytes, without line feeds. */
export function linesOf(library, log) {
  return told(library, log, (...given) => {
    const [line, length] = [library.room(CODES.LINE_ROOM), library.room(8)];
    const next = () => library.textAt(line, library.sizeAt(length) - 1);
    return () => [library.calls.gen1_next_line(...given, line, library.size(CODES.LINE_ROOM), length), next];
  });
}

/** The sentences of log bytes, and the narrator after them, both from the bytes of a gen1_narrator. */
export function sentencesOf(library, log, narrator) {
  let pointer;
  const sentences = told(library, log, (...given) => {
    const [text, length] = [library.room(CODES.SENTENCE_ROOM), library.room(8)];
    pointer = library.put(narrator);
    const next = () => library.textAt(text, library.sizeAt(length));
    const room = library.size(CODES.SENTENCE_ROOM);
    return () => [library.calls.gen1_next_sentence(...given, pointer, text, room, length), next];
  });
  return {sentences, narrator: library.read(pointer, narrator.length)};
}

/** The error for bytes that do not continue a log after `held`, the bytes of an incomplete event. */
export function logErrorAfter(library, code, held, given) {
  const all = new Uint8Array(held.length + given.length);
  all.set(held);
  all.set(given, held.length);
  return logError(library, code, faultPlace(library, all) - held.length);
}

// The offset of the first event in log bytes that cannot be read.
function faultPlace(library, log) {
  library.begin();
  const [bytes, at, event] = [library.put(log), library.room(8), library.roomOf("gen1_event")];
  while (library.calls.gen1_next_event(bytes, library.size(log.length), at, event) === 0)
    ;
  return library.sizeAt(at);
}
