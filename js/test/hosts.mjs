// Hosts of two players and an audience: worked examples, and bad input.
import * as library from "../gen1.mjs";

import {BIG, bytesOfHex, equal, hexOf, holds, NO_NUMBERS, NO_OBJECTS, outside, thrown, wrong} from "./holding.mjs";

const {HostError, LoadError, LogError, Row} = library;
const SEED = [1, 36, 255, 7, 31, 100, 179, 254, 127, 10];
const STRONG = {
  species: "Tauros",
  moves: [["Strength", 3]]
};
const BATTLE = {
  one: [STRONG],
  two: [STRONG],
  seed: SEED
};
// The log of the battle in README.md, up to the bytes 23 and 59 of the first two updates (docs/MECHANICS.md, "Log bytes").
const LOG = bytesOfHex(
    "020180016461016101000202800164610161010001010003018046028007028005028095006101000003028046018005018007016101000001020003018046" +
    "02800702800502800000610100001902801a01");

/** The examples of docs/MECHANICS.md, "Hosts", whose logs are those of README.md. */
export function hosts(gen1, check) {
  const replied = (call) => {
    try {
      return call();
    } catch (fault) {
      return fault.code;
    }
  };
  const begun = (options = {exactHp: true}) => gen1.host(gen1.battle(BATTLE), options);
  check("the example of README.md at a host", () => {
    const host = begun();
    const seen =
        () => [host.message(1), host.message(2), host.notice()].map((it) => [it.number, hexOf(it.log), it.draw]);
    const told = (number, from, to) => Array(3).fill([number, hexOf(LOG.subarray(from, to)), null]);
    equal(seen(), told(0, 0, 23));
    equal([host.submit(1, 0, 17, null), host.awaits(1), host.awaits(2), seen()], [false, false, true, told(0, 0, 23)]);
    equal([host.submit(2, 0, "move 1", null), host.number, seen()], [true, 1, told(1, 23, 59)]);
    equal([host.message(1).choices, host.message(1).own], [["move 1"], host.battle.ownSide(1)]);
    equal([[2, 1, 17, null], [1, 1, 17, null]].map((it) => host.submit(...it)), [false, true]);
    equal([seen(), host.isClosed, host.awaits(1), host.message(2).choices], [told(2, 59, LOG.length), true, false, []]);
    equal([host.result, host.notice().outcome, host.message(2).own.outcome],
        [{outcome: "win one", requests: ["pass", "pass"]}, "win one", "win one"]);
  });
  check("what a host refuses", () => {
    const [host, lenient] = [begun(), begun({mayCancel: true})];
    const asked = (it) => [() => it.cancel(1, 0), () => it.submit(1, 1, 17), () => it.submit(1, 0, 20),
        () => it.submit(1, 0, 17), () => it.submit(1, 0, 17), () => it.expire(1, 0), () => it.cancel(1, 0),
        () => it.cancel(1, 0), () => it.forfeit(2), () => it.offerDraw(1)];
    equal(asked(host).map(replied), [55, 52, 54, false, 53, 53, 55, 55, true, 24]);
    equal(asked(lenient).map(replied), [56, 52, 54, false, 53, 53, false, 56, true, 24]);
  });
  check("the numbers of a row", () => {
    const [host, battle] = [begun(), gen1.battle(BATTLE)];
    const other = SEED.map((byte) => 255 - byte);
    battle.update("pass", "pass");
    battle.reseed(other);
    host.submit(1, 0, 17, SEED);
    host.submit(2, 0, 17, other);
    equal([hexOf(host.message(1).log), hexOf(host.battle.bytes)],
        [hexOf(battle.update(17, 17).log), hexOf(battle.bytes)]);
    const rows = [Row.submit(1, 0, 17), Row.expire(1, 0)];
    holds(hexOf(rows[0].numbers) !== hexOf(rows[1].numbers), "the numbers are not fresh");
  });
  check("what the foe has chosen is not sent", () => {
    const team =
        [{species: "Tauros", moves: [["Body Slam", 3], ["Blizzard", 3]]}, {species: "Starmie", moves: [["Surf", 3]]}];
    const host = gen1.host(gen1.battle({one: team, two: team, seed: SEED}), {mayCancel: true});
    const sent = (it) => [it.message(1), it.notice()].map(({bytes}) => hexOf(bytes));
    for (let pair = 0; !host.isClosed && pair < 30; pair++) {
      const replies = host.message(2).choices.map((choice) => {
        const other = host.clone();
        const isEnded = host.awaits(2) && other.submit(2, pair, choice);
        return isEnded ? null :
                         [sent(other), replied(() => other.cancel(1, pair)), replied(() => other.expire(1, pair + 1))];
      });
      const alone =
          [sent(host), replied(() => host.clone().cancel(1, pair)), replied(() => host.clone().expire(1, pair + 1))];
      for (const it of replies)
        if (it) equal(it, alone);
      for (const side of [1, 2])
        if (host.number === pair && host.awaits(side)) host.expire(side, pair);
    }
  });
  endedHosts(check, begun);
  storedHosts(gen1, check, begun);
}

// Draws, forfeits, and time that has run out.
function endedHosts(check, begun) {
  const ended = (host) => [host.number, host.result.outcome, hexOf(host.message(1).log), hexOf(host.notice().log)];
  check("a draw", () => {
    const host = begun();
    equal([host.offerDraw(2), host.offerDraw(2), host.message(1).draw, host.notice().draw], [false, false, 2, 2]);
    host.submit(1, 0, 17);
    equal(
        [host.submit(2, 0, 17), host.message(1).draw, host.offerDraw(1), host.offerDraw(2)], [true, null, false, true]);
    equal([ended(host), host.message(2).own.request], [[2, "tie", "1b", "1b"], "pass"]);
  });
  check("a forfeit at a host", () => {
    const host = begun();
    host.submit(1, 0, 17);
    equal([host.forfeit(1), ended(host)], [true, [1, "win two", "1a02", "1a02"]]);
  });
  check("time that has run out", () => {
    const [first, late] = [begun(), begun({exactHp: true, lateForfeits: true})];
    equal([first.expire(1, 0, null), first.expire(2, 0, null), hexOf(first.message(1).log)],
        [false, true, hexOf(LOG.subarray(23, 59))]);
    equal([late.expire(2, 0), ended(late)], [true, [1, "win one", "1a01", "1a01"]]);
  });
}

// Rows, hosts and messages as bytes, and players that receive messages.
function storedHosts(gen1, check, begun) {
  check("rows as bytes", () => {
    const rows = [
      Row.submit(2, 259, "move 1", SEED), Row.submit(1, 0, 33, null), Row.cancel(1, 7), Row.expire(2, 1, SEED),
      Row.offerDraw(1), Row.forfeit(2)
    ];
    const [numbers, none] = [hexOf(SEED), "00".repeat(10)];
    const wanted = [
      `0102110103010000${numbers}`, `0101210000000000${none}`, `0201000007000000${none}`, `0302000101000000${numbers}`,
      `0401000000000000${none}`, `0502000000000000${none}`
    ];
    equal(rows.map((row) => hexOf(row.bytes)), wanted);
    equal(wanted.map((hex) => Row.ofBytes(bytesOfHex(hex))), rows);
    equal(rows[0], {kind: "submit", side: 2, number: 259, choice: 17, numbers: SEED});
  });
  check("rows, messages and notices as JSON", () => {
    const host = begun();
    for (const side of [1, 2]) host.submit(side, 0, 17, null);
    host.offerDraw(2);
    const [message, notice] = [host.message(2), host.notice()].map((it) => JSON.parse(JSON.stringify(it)));
    const log = [...LOG.subarray(23, 59)];
    equal(notice, {number: 1, log, outcome: 0, draw: 2});
    // The HP are those of README.md, the stats those of docs/MECHANICS.md.
    const member = {
      species: 128,
      level: 100,
      status: 0,
      moves: [70, 0, 0, 0],
      pp: [23, 0, 0, 0],
      hp: 149,
      max_hp: 353,
      stats: [298, 288, 318, 238]
    };
    const own = {
      members: [member],
      conditions: 0,
      stats: member.stats,
      turn: 2,
      place: 1,
      types: [0, 0],
      stages: Array(6).fill(6),
      disabled_slot: 0,
      held: 0,
      request: 1,
      outcome: 0
    };
    equal(message, {number: 1, log, own, choices: [17], draw: 2});
    equal(hexOf(gen1.messageOfJSON(message).bytes), hexOf(host.message(2).bytes));
    equal(hexOf(gen1.noticeOfJSON(notice).bytes), hexOf(host.notice().bytes));
    const row = {kind: "draw", side: 1, number: 0, choice: 0, numbers: null};
    equal([Row.ofJSON(row), Row.offerDraw(1)], [row, row]);
    const changed = (it, ...parts) => parts.map((part) => [it, {...it, ...part}]);
    const wrong = [
      ...changed(message, {draw: 3}, {choices: [21]}, {choices: 17}, {log: Array(513).fill(0)}, {log: [256]}, {more: 1},
          {own: {...own, count: 1}}, {own: {...own, turn: 1.5}}, {own: {...own, types: [0]}},
          {own: {...own, members: Array(7).fill(member)}}),
      ...changed(notice, {number: -1}, {outcome: 256}, {log: null}, {draw: 0}),
      ...changed(row, {kind: "win"}, {side: 3}, {choice: 17}, {number: 1}, {numbers: SEED}, {numbers: [1]}, {more: 1})
    ];
    const of = {own: gen1.messageOfJSON, outcome: gen1.noticeOfJSON, kind: Row.ofJSON};
    for (const [whole, it] of wrong) {
      const call = Object.entries(of).find(([key]) => key in whole)[1];
      thrown(() => call.call(gen1, it),
          it.choices === 17 || it.log === null || it.own?.turn === 1.5 ? library.ArgumentTypeError :
                                                                         library.ArgumentError,
          /./);
    }
    for (const key of Object.keys(row)) thrown(() => Row.ofJSON({...row, [key]: undefined}), Error, /./);
  });
  check("a player that was lost", () => {
    const [host, player] = [begun(), gen1.player({side: 2, team: [STRONG]})];
    const stored = [];
    for (;;) {
      stored.push(host.message(2));
      player.receive(stored.at(-1));
      if (host.isClosed) break;
      for (const side of [1, 2]) host.submit(side, host.number, 17, null);
    }
    const again = gen1.player({side: 2, team: [STRONG]});
    for (const message of stored) again.receive(gen1.messageOfBytes(message.bytes));
    equal(hexOf(again.bytes), hexOf(player.bytes));
    const log = Uint8Array.from(stored.flatMap((it) => [...it.log]));
    equal(hexOf(log), hexOf(LOG));
  });
  check("a host from its rows, and from its bytes", () => {
    const [host, again] = [begun({mayCancel: true}), begun({mayCancel: true})];
    const rows = [Row.submit(1, 0, 17), Row.cancel(1, 0), Row.expire(2, 0), Row.submit(1, 0, 17), Row.offerDraw(1)];
    equal(rows.map((row) => host.apply(row)), [false, false, false, true, false]);
    for (const row of rows) again.apply(Row.ofBytes(row.bytes));
    equal([hexOf(again.bytes), hexOf(host.clone().bytes)], Array(2).fill(hexOf(host.bytes)));
    equal(gen1.hostOfBytes(host.bytes).message(2), host.message(2));
    let stored = begun({});
    const kept = begun({});
    while (!kept.isClosed) {
      for (const side of [1, 2]) {
        stored = gen1.hostOfBytes(stored.bytes);
        const row = Row.submit(side, kept.number, 17);
        equal(stored.apply(row), kept.apply(row));
        equal([hexOf(stored.bytes), stored.message(side)], [hexOf(kept.bytes), kept.message(side)]);
        if (kept.isClosed) break;
      }
    }
  });
  check("what players receive is what their tellers report", () => {
    const [host, battle] = [begun({}), gen1.battle(BATTLE)];
    const players = [1, 2].map((side) => [gen1.player({side, team: [STRONG]}), gen1.player({side, team: [STRONG]})]);
    const tellers = [1, 2].map((side) => gen1.teller({side, pixels: true}));
    for (const pair of [["pass", "pass"], [17, 17], [17, 17]]) {
      const {log} = battle.update(...pair);
      for (const [at, [received, reported]] of players.entries()) {
        tellers[at].report(battle, log, reported);
        received.receive(gen1.messageOfBytes(host.message(at + 1).bytes));
        equal(hexOf(gen1.playerOfBytes(received.bytes).bytes), hexOf(reported.bytes));
      }
      if (!host.isClosed)
        for (const side of [1, 2]) host.submit(side, host.number, 17, null);
    }
    equal(gen1.noticeOfBytes(host.notice().bytes), host.notice());
  });
  // Rust and Python play the same battle (rust/gen1/tests/wire.rs), and have the same number.
  check("the bytes of all who follow a room", () => {
    let table = tableOf(gen1);
    const kinds = ["room", "teller", "teller", "player", "player", "spectator"].map((it) => gen1[`${it}OfBytes`]);
    let found = table.reduce((hash, it) => fnv(hash, it.bytes), 0xcbf29ce484222325n);
    for (let pairs = 0; table[0].result.outcome === "ongoing"; pairs++) {
      for (const side of [1, 2]) {
        const choices = table[0].choices(side);
        if (!choices.length) continue;
        table = table.map((it, at) => kinds[at].call(gen1, it.bytes));
        const [{number}, room] = [table[0], table[0]];
        room.submit(side, number, choices[(pairs + side) % choices.length]);
        if (room.number > number) told(table);
        found = table.reduce((hash, it) => fnv(hash, it.bytes), found);
      }
    }
    const [room] = tableOf(gen1);
    room.forfeit(2);
    equal(fnv(found, gen1.roomOfBytes(room.bytes).bytes).toString(16), "3895a0453eaa0160");
  });
}

/** A room with all that follow it. HP is reported to side 2 in 48ths. */
function tableOf(gen1) {
  const [one, two] = [
    "Tauros||||BodySlam,HyperBeam,Blizzard,Earthquake|||||||]Chansey||||IceBeam,Thunderbolt,SoftBoiled|||||||",
    "Gengar||||Hypnosis,Dig,NightShade|||||||]Snorlax||||BodySlam,Substitute,Amnesia|||||||"
  ].map((it) => gen1.teamFromPacked(it));
  const tellers = [gen1.teller({side: 1, pixels: false}), gen1.teller({side: 2})];
  const players = [gen1.player({side: 1, team: one, foes: 2, hpForm: "exact"}), gen1.player({side: 2, team: two})];
  return told([gen1.room(gen1.battle({one, two, seed: SEED})), ...tellers, ...players, gen1.spectator(one, two)]);
}

/** All of a table, after the log of the room's last pair. */
function told(table) {
  const [room, one, two, first, second, spectator] = table;
  for (const [teller, player] of [[one, first], [two, second]]) {
    player.feed(teller.tell(room.log));
    player.show(room.battle);
  }
  spectator.feed(room.log);
  return table;
}

/** FNV-1a. */
function fnv(before, bytes) {
  return bytes.reduce((hash, byte) => BigInt.asUintN(64, (hash ^ BigInt(byte)) * 0x100000001b3n), before);
}

/** Bad input to hosts. */
export function badHosts(gen1, check) {
  const host = gen1.host(gen1.battle(BATTLE));
  const before = hexOf(host.bytes);
  check("hosts that are none", () => {
    for (const it of [...NO_OBJECTS, host, SEED]) wrong(() => gen1.host(it), /^battle is .*, not a Battle$/);
    for (const name of ["exactHp", "mayCancel", "lateForfeits"])
      for (const it of [1, "yes", {}])
        wrong(() => gen1.host(host.battle, {[name]: it}), /^options\..* is .*, not true or false$/);
    outside(() => gen1.host(host.battle, {exactHP: true}),
        /^options has the unknown key "exactHP"; did you mean "exactHp"\?$/);
    const loads = [
      gen1.hostOfBytes, gen1.messageOfBytes, gen1.noticeOfBytes, gen1.playerOfBytes, Row.ofBytes, gen1.roomOfBytes,
      gen1.tellerOfBytes, gen1.spectatorOfBytes
    ];
    const sizes = [928, 696, 520, 488, 18, 908, 8, 86];
    for (const [at, load] of loads.entries()) {
      for (const it of [undefined, null, 5, "bytes", [1]])
        wrong(() => load.call(gen1, it), /^bytes is .*, not bytes, as a Uint8Array$/);
      for (const count of [0, sizes[at] - 1, sizes[at] + 1])
        outside(
            () => load.call(gen1, new Uint8Array(count)), new RegExp(`^bytes has ${count} bytes, not ${sizes[at]}$`));
    }
    for (const [load, at, bytes] of [
             [gen1.messageOfBytes, 178, host.message(1).bytes], [gen1.noticeOfBytes, 4, host.notice().bytes]]) {
      bytes.set([1, 2], at);
      outside(() => load.call(gen1, bytes), /^bytes has a log of 513 bytes, not of at most 512$/);
    }
  });
  check("bytes of no host", () => {
    // The offset in a gen1_host, the byte, and the code. At turn 1 of 1,000, with nobody on a bench, 1,000 of 1,011 pairs may come.
    for (const [at, byte, code] of [[0, 9, 17], [384, 12, 80], [387, 255, 80], [389, 3, 81], [396, 29, 81],
             [390, 18, 82], [391, 0, 83], [908, 2, 85], [909, 3, 85], [909, 2, 86], [911, 1, 85], [916, 1, 86],
             [917, 0, 86], [924, 4, 87], [925, 3, 88], [926, 2, 89], [927, 2, 89], [392, 1, 90], [395, 1, 90]]) {
      const bytes = host.bytes;
      bytes[at] = byte;
      const fault = thrown(() => gen1.hostOfBytes(bytes), LoadError, /^the bytes are not a host: /);
      equal([at, fault.code], [at, code]);
    }
    for (const [at, byte] of [[384, 11], [390, 17], [924, 3], [925, 2], [926, 1]]) {
      const bytes = host.bytes;
      bytes[at] = byte;
      equal(hexOf(gen1.hostOfBytes(bytes).bytes), hexOf(bytes));
    }
    const bytes = host.bytes;
    bytes.set([17, 17], 390);
    equal(thrown(() => gen1.hostOfBytes(bytes), LoadError, /both choices are there/).code, 84);
  });
  check("bytes of no room", () => {
    const room = gen1.room(gen1.battle(BATTLE));
    const lost = room.clone();
    lost.submit(1, 0, 17);
    lost.forfeit(1);
    equal(hexOf(gen1.roomOfBytes(lost.bytes).bytes), hexOf(lost.bytes));
    // A room, offsets and bytes, and the code; at a forfeit that nobody made there is none.
    for (const [it, edits, code] of [[room, [[0, 9]], 17], [room, [[384, 12]], 80], [room, [[390, 18]], 82],
             [room, [[392, 1]], 80], [room, [[392, 3]], 90], [room, [[395, 1]], 90], [lost, [[384, 0]], 80],
             [lost, [[384, 13]], 80], [lost, [[392, 0]], 82]]) {
      const {bytes} = it;
      for (const [at, byte] of edits) bytes[at] = byte;
      const fault = thrown(() => gen1.roomOfBytes(bytes), LoadError, /^the bytes are not a room: /);
      equal([edits, fault.code], [edits, code]);
    }
    for (const [at, byte] of [[397, 1], [392, 2], [390, 255], [388, 0]]) {
      const {bytes} = lost;
      bytes[at] = byte;
      outside(() => gen1.roomOfBytes(bytes), /^bytes is not a room: no forfeit of side [12] leads there$/);
    }
  });
  check("rows that are none", () => {
    const bytes = Row.submit(1, 0, 17, SEED).bytes;
    for (const [at, byte] of [[0, 0], [0, 2], [0, 4], [0, 6], [1, 0], [1, 3], [3, 0], [3, 2]]) {
      const other = bytes.slice();
      other[at] = byte;
      outside(() => Row.ofBytes(other), /^bytes is not a row: /);
    }
    for (const it of [...NO_OBJECTS, bytes]) wrong(() => host.apply(it), /^row is .*, not a Row$/);
    for (const call of [(side) => Row.cancel(side, 0), (side) => host.expire(side, 0), Row.offerDraw,
                       (side) => host.message(side)]) {
      for (const side of [0, 3, ...BIG]) outside(() => call(side), /^side is -?\d.*, not 1 or 2$/);
      for (const side of NO_NUMBERS) wrong(() => call(side), /^side is .*, not a whole number$/);
    }
    for (const number of [-1, 2 ** 32])
      outside(() => host.submit(1, number, 17), /^number is -?\d.*, not 0 to 4294967295$/);
    outside(() => host.submit(1, 0, 17, [1, 2]), /^seed has 2 numbers, not 10$/);
    outside(() => host.submit(1, 0, "jump"), /^side 1's choice: "jump" is not a choice/);
  });
  check("what the error of a host says", () => {
    const said = [
      [() => host.submit(1, 0, 20), 54, /^side 1: the choice is not offered to the side: move 4$/],
      [
        () => host.submit(2, 7, 17), 52,
        /^side 2: the number is not that of the current pair of choices: 7; the current pair is 0$/
      ],
      [() => host.cancel(1, 0), 55, /^side 1: the host does not let a side take its choice back$/],
    ];
    for (const [call, code, text] of said) equal(thrown(call, HostError, text).code, code);
    const {side, number, current, reason} = thrown(said[1][0], HostError, /./);
    equal([side, number, current, reason], [2, 7, 0, "the number is not that of the current pair of choices"]);
  });
  check("what a player does not receive", () => {
    const [player, other] = [STRONG, {...STRONG, level: 50}].map((it) => gen1.player({side: 1, team: [it]}));
    const kept = [player, other].map((it) => hexOf(it.bytes));
    for (const it of [...NO_OBJECTS, host]) wrong(() => player.receive(it), /^message is .*, not a Message$/);
    outside(() => other.receive(host.message(1)),
        /^message has on side 1 Tauros at level 100, and not the player's team, Tauros at level 50$/);
    const bytes = host.message(1).bytes;
    bytes[184] = 255;
    thrown(() => player.receive(gen1.messageOfBytes(bytes)), LogError, /^byte 0: a byte in a tag's place is no tag/);
    equal([player, other, host].map((it) => hexOf(it.bytes)), [...kept, before]);
  });
  check("constructors of hosts", () => {
    for (const kind of [library.Host, library.Message, library.Notice, Row])
      wrong(() => new kind(), /is created by .*, not by new/);
  });
}
