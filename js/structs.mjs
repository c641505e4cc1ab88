// The structs of include/gen1.h in the module's memory, by C's layout rules, from the fields in header.mjs.
import {record, within, wrongType} from "./arguments.mjs";
import {ArgumentError} from "./errors.mjs";
import {STRUCTS} from "./header.mjs";

// The size of each type of number in bytes, and its name in a DataView. A size_t is 4 or 8 bytes.
const NUMBERS = {
  uint8_t: [1, "Uint8"],
  int8_t: [1, "Int8"],
  uint16_t: [2, "Uint16"],
  uint32_t: [4, "Uint32"],
  uint64_t: [8, "BigUint64"]
};
// Fields without information.
const FILLS = ["reserved", "unused", "zeros"];
const layouts = [new Map(), new Map()];

const up = (place, alignment) => Math.ceil(place / alignment) * alignment;

// The size of a type: the bytes of a number, or the layout of a struct.
function typeOf(type, isLong) {
  const number = NUMBERS[type === "size_t" ? (isLong ? "uint64_t" : "uint32_t") : type];
  return number ? {size: number[0], alignment: number[0], kind: number[1]} : layoutOf(type, isLong);
}

function made(name, isLong) {
  let [place, alignment] = [0, 1];
  const fields = Object.entries(STRUCTS[name]).map(([field, [type, count]]) => {
    const of = typeOf(type, isLong);
    const at = up(place, of.alignment);
    place = at + of.size * (count ?? 1);
    alignment = Math.max(alignment, of.alignment);
    const key = field.replace(/_(.)/g, (_, letter) => letter.toUpperCase());
    return {name: field, key, at, count, size: of.size, kind: of.kind, struct: of.fields ? type : null};
  });
  return {size: up(place, alignment), alignment, fields};
}

/** The size and alignment of a struct in bytes, and each field with its offset (`at`), for a 32-bit or a 64-bit memory. */
export function layoutOf(name, isLong) {
  const known = layouts[isLong ? 1 : 0];
  if (!known.has(name)) known.set(name, made(name, isLong));
  return known.get(name);
}

/** The offsets of the fields of a struct without a size_t, by their keys, and its size. */
export function offsetsOf(name) {
  const {size, fields} = layoutOf(name, false);
  return {size, ...Object.fromEntries(fields.map(({key, at}) => [key, at]))};
}

// A value of a field. A number of 8 bytes above 2 ** 53 is rounded: the ways of three uses. outcomes.mjs reads its weights itself.
function read(field, view, at, isLong) {
  return field.struct ? readStruct(field.struct, view, at, isLong) : Number(view[`get${field.kind}`](at, true));
}

function valueOf(field, view, place, isLong) {
  if (field.count === undefined) return read(field, view, place, isLong);
  const values = [];
  for (let turn = 0; turn < field.count; turn++) values.push(read(field, view, place + turn * field.size, isLong));
  return values;
}

/** The struct at an offset of a DataView, as an object with its fields; a field of several values is an array. */
export function readStruct(name, view, at, isLong) {
  const found = {};
  for (const field of layoutOf(name, isLong).fields) {
    if (FILLS.includes(field.key)) continue;
    found[field.key] = valueOf(field, view, at + field.at, isLong);
  }
  return found;
}

/** A struct of numbers in bytes as an object for JSON, by the names of the header. */
export function jsonOf(name, bytes, at = 0) {
  const view = new DataView(bytes.buffer, bytes.byteOffset);
  const value = (field, place) =>
      (field.struct ? jsonOf(field.struct, bytes, place) : view[`get${field.kind}`](place, true));
  const fields = layoutOf(name, false).fields.filter(({key}) => !FILLS.includes(key));
  return Object.fromEntries(fields.map((field) => {
    const first = at + field.at;
    if (field.count === undefined) return [field.name, value(field, first)];
    return [field.name, Array.from({length: field.count}, (_, turn) => value(field, first + turn * field.size))];
  }));
}

/** The bytes of a struct of numbers from such an object, whose lists of structs and log may have fewer items. Throws ArgumentError. */
export function bytesOfJson(name, object, what, bytes = new Uint8Array(layoutOf(name, false).size), at = 0) {
  const fields = layoutOf(name, false).fields.filter(({key}) => !FILLS.includes(key));
  record(object, what, "an object", fields.map((field) => field.name));
  const view = new DataView(bytes.buffer);
  for (const field of fields) {
    const [given, path, count] = [object[field.name], `${what}.${field.name}`, field.count ?? 1];
    const values = field.count === undefined ? [given] : given;
    if (!Array.isArray(values)) throw wrongType(given, path, "an array");
    const isShort = (field.struct || field.name === "log") && values.length < count;
    if (values.length !== count && !isShort)
      throw new ArgumentError(`${path} has ${values.length} items, not ${count}`, path);
    values.forEach((value, turn) => {
      const [place, label] = [at + field.at + turn * field.size, field.count === undefined ? path : `${path}[${turn}]`];
      if (field.struct)
        bytesOfJson(field.struct, value, label, bytes, place);
      else
        view[`set${field.kind}`](place, within(value, label, 0, 256 ** field.size - 1), true);
    });
  }
  return bytes;
}

/** The value of one field of a struct's bytes; an array of bytes is a Uint8Array. `name` is the name in the header. */
export function fieldOf(struct, name, bytes, isLong) {
  const field = layoutOf(struct, isLong).fields.find((it) => it.name === name);
  if (field.count !== undefined && field.size === 1) return bytes.slice(field.at, field.at + field.count);
  return valueOf(field, new DataView(bytes.buffer, bytes.byteOffset), field.at, isLong);
}

/** Writes an object's fields at an offset of a DataView. Missing fields, and values after the last one of a list, are unchanged. */
export function writeStruct(name, view, at, isLong, object) {
  for (const field of layoutOf(name, isLong).fields) {
    if (object[field.key] === undefined) continue;
    const values = field.count === undefined ? [object[field.key]] : object[field.key];
    values.forEach((value, turn) => {
      const place = at + field.at + turn * field.size;
      if (field.struct)
        writeStruct(field.struct, view, place, isLong, value);
      else
        view[`set${field.kind}`](place, value, true);
    });
  }
}
