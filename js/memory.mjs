// The module, its memory, and the arguments of a call in it. Pointers and sizes are BigInts in a module with a 64-bit memory.
import {Arena, BATTLE_SIZE} from "./arena.mjs";
import {wrongType} from "./arguments.mjs";
import {MemoryError, ModuleError} from "./errors.mjs";
import {CODES} from "./header.mjs";
import {layoutOf, readStruct} from "./structs.mjs";

const DECODER = new TextDecoder();
const PAGE = 65536;
// All exports that are used. A module of an older version may lack some.
const NEEDED = [
  "memory",
  "__heap_base",
  ...["version", "new", "load", "offered", "update", "update_silent", "result", "next_event", "event_bytes",
      "next_line", "next_sentence", "damage", "odds_now", "action_odds_now", "odds_between", "takes_hit_test",
      "playout", "outcomes", "team_from_text", "team_from_packed", "team_to_text", "team_to_packed",
      "species_from_name", "move_from_name", "error_text", "get_state", "set_state", "knock_out", "knock_out_in_three",
      "choice_words", "choice_from_words", "random_team", "sample_team", "seed_from_number", "reseed", "room_begin",
      "room_choices", "room_forfeit", "room_result", "room_submit", "spectator_begin", "spectator_feed", "player_begin",
      "player_feed", "player_show", "battle_from_player", "get_own_side", "teller_begin", "tell", "offered_many",
      "update_many", "move_data", "effectiveness", "member_stats", "drained", "recoil", "host_begin", "host_load",
      "host_apply", "host_message", "host_notice", "host_number", "host_awaited", "host_result"]
      .map((call) => `gen1_${call}`),
];

const aligned = (place) => Math.ceil(place / 8) * 8;

/** The exports of a module, with space for the arguments of one call at a time after the module's own data. */
export class Library {
  #memory;
  #begin;
  #limit;
  #end;

  /** The functions of include/gen1.h. */
  calls;
  /** Whether the module has a 64-bit memory. */
  isLong;
  /** The module's memory, as bytes. Another view replaces it when the memory grows. */
  bytes;
  /** The places of battles. */
  arena;
  /** Space for a log, its length, the log as it is reported to a side, a side as it is shown, and a seed: pointers, and some as offsets. */
  log;
  logAt;
  length;
  told;
  own;
  seed;
  seedAt;

  constructor(instance) {
    const {memory, __heap_base: base} = instance.exports;
    const lacking = NEEDED.filter((name) => instance.exports[name] === undefined);
    if (lacking.length) throw new ModuleError(`the module is not the C library's: it exports no ${lacking.join(", ")}`);
    this.calls = instance.exports;
    this.isLong = typeof base.value === "bigint";
    this.#memory = memory;
    this.bytes = new Uint8Array(memory.buffer);
    this.arena = new Arena(this);
    this.#end = this.#begin = Number(base.value);
    this.#limit = this.bytes.length;
    [this.log, this.length, this.told, this.seed] =
        [CODES.LOG_ROOM, 8, CODES.LOG_ROOM, 10].map((count) => this.room(count));
    this.own = this.roomOf("gen1_own_side");
    [this.logAt, this.seedAt] = [Number(this.log), Number(this.seed)];
    this.#begin = this.#end;
  }

  /** Begins a call: frees the space of the previous one. */
  begin() {
    this.#end = this.#begin;
  }

  /** A pointer to `count` zero bytes, aligned for any struct, until the next call begins. */
  room(count) {
    if (aligned(this.#end) + count > this.#limit) this.#widen(count);
    const place = aligned(this.#end);
    this.#end = place + count;
    this.bytes.fill(0, place, this.#end);
    return this.size(place);
  }

  // Allocates a new space, of at least twice the length.
  #widen(count) {
    const pages = Math.ceil(Math.max(2 * (this.#limit - this.#begin), count + PAGE) / PAGE);
    this.#end = this.#begin = this.grow(pages);
    this.#limit = this.#begin + pages * PAGE;
  }

  /** Adds pages of 65,536 bytes to the memory, and returns the offset of the first. */
  grow(pages) {
    const place = this.bytes.length;
    try {
      this.#grow(pages);
    } catch (cause) {
      const message = `the module's memory of ${place} bytes cannot grow by ${
          pages * PAGE}: free the battles that you have done with`;
      throw Object.assign(new MemoryError(message), {cause});
    }
    this.bytes = new Uint8Array(this.#memory.buffer);
    return place;
  }

  // For a 64-bit memory some hosts expect the number of pages as a BigInt; others, such as Node 20, as a number.
  #grow(pages) {
    try {
      this.#memory.grow(this.size(pages));
    } catch (fault) {
      if (!this.isLong || !(fault instanceof TypeError)) throw fault;
      this.#memory.grow(pages);
    }
  }

  /** A pointer to a copy of these bytes. */
  put(bytes) {
    const pointer = this.room(bytes.length);
    this.write(pointer, bytes);
    return pointer;
  }

  /** Writes bytes to a pointer. */
  write(pointer, bytes) {
    this.bytes.set(bytes, Number(pointer));
  }

  /** A pointer to space for a struct of gen1.h. */
  roomOf(struct) {
    return this.room(layoutOf(struct, this.isLong).size);
  }

  /** A number in the type of the module's pointers and sizes. */
  size(number) {
    return this.isLong ? BigInt(number) : number;
  }

  /** The size_t at a pointer. */
  sizeAt(pointer) {
    const place = Number(pointer);
    const {bytes} = this;
    return (bytes[place] | (bytes[place + 1] << 8) | (bytes[place + 2] << 16) | (bytes[place + 3] << 24)) >>> 0;
  }

  /** A copy of the bytes at a pointer. */
  read(pointer, count) {
    return this.bytes.slice(Number(pointer), Number(pointer) + count);
  }

  /** A copy of the battle at a pointer, in a separate block. */
  blockOf(pointer) {
    const block = this.arena.block();
    const from = Number(pointer);
    this.bytes.copyWithin(block.place, from, from + BATTLE_SIZE);
    return block;
  }

  /** The ASCII text at a pointer. */
  textAt(pointer, count) {
    return DECODER.decode(this.bytes.subarray(Number(pointer), Number(pointer) + count));
  }

  /** The origin of the module, as gen1_build of gen1.h returns it; "unknown" if the module has no such function. */
  get build() {
    if (!this.calls.gen1_build) return "unknown";
    const pointer = this.calls.gen1_build();
    return this.textAt(pointer, this.bytes.indexOf(0, Number(pointer)) - Number(pointer));
  }

  /** The struct of gen1.h at a pointer, as an object with its fields. */
  readStruct(struct, pointer) {
    return readStruct(struct, new DataView(this.#memory.buffer), Number(pointer), this.isLong);
  }

  /** The code of a call whose last arguments are a text, its size and its length; and the text, of at most `room` bytes. */
  written(call, room, ...words) {
    const [text, length] = [this.room(room), this.room(8)];
    const code = this.calls[call](...words, text, this.size(room), length);
    return [code, code ? "" : this.textAt(text, this.sizeAt(length))];
  }

  /** The sentence for a code, which is one of CODES.ERROR_.. */
  sentence(code) {
    this.begin();
    return this.written("gen1_error_text", CODES.SENTENCE_ROOM, code)[1];
  }
}

const SOURCE = "a module: a URL, a path or their text, its bytes, or { proved, plain } with one of these each";
const HAS_FILES = typeof process === "object" && Boolean(process?.versions?.node);
// The scheme of a URL. One letter before a colon is a drive of Windows.
const SCHEME = /^[a-z][a-z0-9+.-]+:/i;

// The module of Node that reads files. Bundlers for browsers ignore it if its name is not in the import.
const FILES = "node:fs/promises";

// The bytes of a file.
async function fileAt(place) {
  const {readFile} = await import(/* webpackIgnore: true */ /* @vite-ignore */ FILES);
  return readFile(place);
}

async function fetched(source) {
  if (HAS_FILES && typeof source === "string" && !SCHEME.test(source)) return fileAt(source);
  if (/^file:/i.test(source)) return fileAt(new URL(source));
  const answer = await fetch(source);
  if (!answer.ok) throw new Error(`${answer.status} ${answer.statusText}`);
  return answer.arrayBuffer();
}

/** The instance of a module. If there is none, the host's error becomes the cause of a ModuleError. */
export async function instanceOf(source, what) {
  // Some hosts, such as GNOME's gjs, have no URL.
  const isBytes = source instanceof ArrayBuffer || ArrayBuffer.isView(source);
  if (!isBytes && typeof source !== "string" && !(source instanceof URL)) throw wrongType(source, what, SOURCE);
  try {
    return (await WebAssembly.instantiate(isBytes ? source : await fetched(source), {})).instance;
  } catch (cause) {
    const where = isBytes ? what : `${what}, ${source},`;
    throw Object.assign(new ModuleError(`${where} is not a module that can run here: ${cause.message}`), {cause});
  }
}
