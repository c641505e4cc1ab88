// Uses of hosts, rooms, spectators and narrators that are checked twice, as those of uses.mjs.
import * as library from "../gen1.mjs";

import {equal, holds} from "./holding.mjs";

/** @template T @typedef {Exclude<keyof T, symbol>} Named the keys that are texts */
const {Battle, Host, Message, Narrator, Notice, Room, Row, Spectator} = library;

/** @type {Record<Named<import("../gen1.mjs").Host>, true>} */
const OF_HOST = {
  number: true,
  hpForm: true,
  isClosed: true,
  result: true,
  battle: true,
  bytes: true,
  clone: true,
  awaits: true,
  message: true,
  notice: true,
  submit: true,
  cancel: true,
  expire: true,
  offerDraw: true,
  forfeit: true,
  apply: true,
  toJSON: true
};
/** @type {Record<Named<import("../gen1.mjs").Row>, true>} */
const OF_ROW = {
  bytes: true,
  kind: true,
  side: true,
  number: true,
  choice: true,
  numbers: true,
  toJSON: true
};
/** @type {Record<Named<import("../gen1.mjs").Message>, true>} */
const OF_MESSAGE = {
  number: true,
  log: true,
  own: true,
  choices: true,
  draw: true,
  bytes: true,
  toJSON: true
};
/** @type {Record<Named<import("../gen1.mjs").Notice>, true>} */
const OF_NOTICE = {
  number: true,
  log: true,
  outcome: true,
  draw: true,
  bytes: true,
  toJSON: true
};
/** @type {Record<import("../gen1.mjs").RowKind, true>} */
const ALL_ROW_KINDS = {
  submit: true,
  cancel: true,
  expire: true,
  draw: true,
  forfeit: true
};
/** @type {Record<Named<import("../gen1.mjs").Room>, true>} */
const OF_ROOM = {
  bytes: true,
  battle: true,
  result: true,
  number: true,
  log: true,
  clone: true,
  choices: true,
  submit: true,
  reseed: true,
  forfeit: true,
  forfeited: true,
  toJSON: true
};
/** @type {Record<Named<import("../gen1.mjs").Spectator>, true>} */
const OF_SPECTATOR = {
  bytes: true,
  state: true,
  held: true,
  clone: true,
  feed: true,
  toJSON: true
};
/** @type {Record<Named<import("../gen1.mjs").ShownState>, true>} */
const OF_SHOWN = {
  one: true,
  two: true,
  turn: true,
  outcome: true
};
/** @type {Record<Named<import("../gen1.mjs").ShownSide>, true>} */
const OF_SHOWN_SIDE = {
  members: true,
  place: true,
  stages: true,
  substitute: true,
  confused: true,
  lightScreen: true,
  reflect: true
};
/** @type {Record<Named<import("../gen1.mjs").Narrator>, true>} */
const OF_NARRATOR = {
  clone: true,
  say: true,
  sentences: true
};
/**
 * Uses of hosts, rows and messages. `offers` compares the members of an object with those of its type.
 * @param {import("../gen1.mjs").Gen1} gen1
 * @param {(one: object, wanted: Record<string, true>) => void} offers
 */
export function usesOfHosts(gen1, offers) {
  /** @type {import("../gen1.mjs").Member[]} */
  const team = [{species: "Tauros", moves: [["Strength", 3]]}];
  const host = gen1.host(gen1.battle({one: team, two: team, seed: new Uint8Array(10)}),
      {exactHp: true, mayCancel: true, lateForfeits: false});
  const [message, notice, row] = [host.message(1), host.notice(), Row.submit(1, host.number, "move 1")];
  for (const [one, wanted] of /** @type {[object, Record<string, true>][]} */ (
           [[host, OF_HOST], [message, OF_MESSAGE], [notice, OF_NOTICE], [row, OF_ROW]]))
    offers(one, wanted);
  equal(library.ROW_KINDS, Object.keys(ALL_ROW_KINDS));
  const player = gen1.player({side: 1, team});
  player.receive(gen1.messageOfBytes(message.bytes));
  /** @type {boolean[]} */
  const ended = [
    host.apply(Row.ofBytes(row.bytes)), host.cancel(1, 0), host.expire(2, 0, null), host.offerDraw(1),
    host.submit(1, 0, player.choices[0], new Uint8Array(10)), host.forfeit(2)
  ];
  equal([ended, host.isClosed], [[false, false, false, false, true, true], true]);
  holds(host.clone() instanceof Host && gen1.hostOfBytes(host.bytes).battle instanceof Battle &&
          message instanceof Message && gen1.noticeOfBytes(notice.bytes) instanceof Notice &&
          gen1.playerOfBytes(player.bytes).side === 1 && message.draw === null && notice.outcome === "ongoing",
      "another host");
  holds(Row.ofJSON(row.toJSON()) instanceof Row && gen1.messageOfJSON(message.toJSON()) instanceof Message &&
          gen1.noticeOfJSON(notice.toJSON()) instanceof Notice,
      "a host's values from JSON");
}

/**
 * Uses of a room, in which side 1 then has made its choice.
 * @param {import("../gen1.mjs").Room} room
 * @param {(one: object, wanted: Record<string, true>) => void} offers
 */
function usesOfRooms(room, offers) {
  offers(room, OF_ROOM);
  /** @type {import("../gen1.mjs").Update | null} */
  const waiting = room.submit(1, room.number, room.choices(1)[0]);
  holds(waiting === null && room.clone() instanceof Room, "another room");
}

/**
 * Uses of a room, a spectator and a narrator.
 * @param {import("../gen1.mjs").Gen1} gen1
 * @param {import("../gen1.mjs").Terms} terms
 * @param {(one: object, wanted: Record<string, true>) => void} offers
 */
export function usesOfViewers(gen1, terms, offers) {
  const room = gen1.room(gen1.battle(terms));
  const spectator = gen1.spectator(terms.one, terms.two);
  offers(spectator, OF_SPECTATOR);
  usesOfRooms(room, offers);
  const log = room.submit(2, 0, "move 1")?.log ?? new Uint8Array(0);
  spectator.feed(log);
  holds(spectator.state.one.place === 0 && spectator.clone() instanceof Spectator, "another spectator");
  for (const [one, wanted] of /** @type {[object, Record<string, true>][]} */ ([
         [spectator.state, OF_SHOWN], [spectator.state.two, OF_SHOWN_SIDE],
         [spectator.state.two.members[0], {hp: true, status: true}]
       ]))
    equal(Object.keys(one).sort(), Object.keys(wanted).sort());
  const narrator = gen1.narrator({you: 2, inPercent: [true, false]});
  offers(narrator, OF_NARRATOR);
  /** @type {string[][]} */
  const told = [gen1.narrator(), gen1.narrator({you: null}), narrator.clone()].map((it) => it.sentences(log));
  holds(narrator instanceof Narrator && told.every((sentences) => sentences.length === gen1.events(log).length) &&
          narrator.say({kind: "win", side: 2}) === "You win.",
      "another narrator");
}
