// Tests of showdown.mjs under Node: node test/showdown.mjs. Expected texts are those of docs/PROGRAM.md and of Showdown's documents.
import {ArgumentError, ArgumentTypeError, FreedError, load, Row, TeamError} from "../gen1.mjs";
import {ChoiceError, CommitmentError, loadShowdown, ProtocolError} from "../showdown.mjs";

import {equal, holds, thrown} from "./holding.mjs";

const [gen1, showdown] = await Promise.all([load(), loadShowdown()]);
const SEED = [1, 36, 255, 7, 31, 100, 179, 254, 127, 10];
const TAUROS = "Bob|Tauros|||bodyslam,hyperbeam|||||||]Chansey||||softboiled|||||||";
const MEW = "Mew||||substitute|||||||]Tauros||||bodyslam||||||50|";
/** The example of docs/PROGRAM.md, "follow". */
const FOLLOWED = `|player|p1|Alice|
|player|p2|Bob|
|teamsize|p1|6
|teamsize|p2|6
|switch|p1a: Bo|Tauros|100/100
|switch|p2a: Chansey|Chansey|703/703
|turn|1
|move|p1a: Bo|Body Slam|p2a: Chansey
|-damage|p2a: Chansey|530/703
|move|p2a: Chansey|Thunder Wave|p1a: Bo
|-status|p1a: Bo|par
|turn|2
`;

function teams() {
  const members = showdown.members(TAUROS);
  equal([members.names, members.nicknames, members.length], [["Bob", "Chansey"], ["Bob", null], 2]);
  equal([members.packed(), members.export()],
      [TAUROS, "Bob (Tauros)\n- Body Slam\n- Hyper Beam\n\nChansey\n- Soft-Boiled\n"]);
  const again = showdown.members(gen1.team(members.team), ["Bob", null]);
  equal([again.packed(), showdown.members(members.export()).team], [TAUROS, members.team]);
  const short = showdown.members([{species: "Tauros", moves: ["Body Slam"]}]);
  equal(short.team, gen1.team([{species: "Tauros", moves: ["Body Slam"]}]).members);
  thrown(() => showdown.members("Taurus||||bodyslam|||||||"), TeamError, /"Taurus"; did you mean "Tauros"/);
  thrown(() => showdown.members("Tauros\n- Body Slum"), TeamError, /^line 2: .*did you mean "Body Slam"/);
  thrown(() => showdown.members([]), TeamError, /no member/);
  const wrong = /** @type {any} */ ([{species: "Tauros", lvl: 50, moves: ["Body Slam"]}]);
  thrown(() => showdown.members(wrong), ArgumentError, /^team\[0\] has the unknown key "lvl"; did you mean "level"\?$/);
  thrown(() => showdown.members(TAUROS, ["Bob"]), TeamError, /expected 2 nicknames.*found 1/);
  thrown(() => showdown.members(/** @type {any} */ (5)), ArgumentTypeError, /^team is 5/);
}

function rules() {
  const formats = showdown.formats();
  holds(["gen1ou", "gen1customgame"].every((id) => formats.ids.includes(id)), "formats");
  equal([formats.tier("gen1ou"), formats.rules("gen1ou"), formats.clauses("gen1ou")[0]],
      ["[Gen 1] OU", 3, "Sleep Clause Mod: Limit one foe put to sleep"]);
  const found = formats.complaints(showdown.members("Mewtwo||||psychic|||||||]Tauros||||fissure|||||||"), "gen1ou");
  equal(found.map(({member, species, value}) => [member, species, value]), [[1, 150, "Mewtwo"], [2, 128, "Fissure"]]);
  equal(found[1].text, "member 2 (Tauros): OHKO Clause: OHKO moves are banned; found Fissure");
  equal(formats.complaints(showdown.members(TAUROS), "gen1ou"), []);
  thrown(() => formats.tier("gen9ou"), ArgumentError, /^id is "gen9ou", not .*gen1ou/);
  thrown(() => showdown.formats("{}"), ArgumentError, /./);
}

// A host's pairs as both players and the audience see them; a simulator of the same battle prints the same lines and requests.
function hosted() {
  const members = [showdown.members(TAUROS), showdown.members(MEW)];
  const host = gen1.host(gen1.battle({one: members[0].team, two: members[1].team, seed: SEED}), {exactHp: true});
  const lines = showdown.lines({players: ["Alice", "Eve"], members: [members[0], members[1]]});
  const seats = [1, 2].map(
      (side) => showdown.seat(
          {side: side === 1 ? 1 : 2, name: side === 1 ? "Alice" : "Eve", members: members[side - 1], foes: 2}));
  const sent = () => {
    lines.report(host);
    seats.forEach((seat, at) => seat.receive(host.message(at === 0 ? 1 : 2)));
  };
  sent();
  equal(lines.text("p1").split("\n").slice(-4),
      ["|switch|p1a: Bob|Tauros|353/353", "|switch|p2a: Mew|Mew|403/403", "|turn|1", ""]);
  equal([seats[0].choiceIn("move bodyslam"), seats[0].choiceIn("switch chansey"), seats[0].waits],
      ["move 1", "switch 2", false]);
  thrown(() => seats[0].choiceIn("move 5"), ChoiceError, /^Can't move: Your Bob doesn't have a move 5$/);
  thrown(() => lines.report(host), ArgumentError, /^pair 0 came last, so the next one must be 1, not 0$/);

  const simulator = showdown.simulator({hp: "exact"});
  simulator.take(`>start ${JSON.stringify({formatid: "gen1customgame", seed: SEED})}`);
  simulator.take(`>player p1 ${JSON.stringify({name: "Alice", team: TAUROS})}`);
  const begun = simulator.take(`>player p2 ${JSON.stringify({name: "Eve", team: MEW})}`).text;
  holds(begun.includes(`|request|${seats[0].request(1)}\n`), "another request");
  holds(begun.startsWith(`update\n${lines.text("stream")}`), "other lines");
  lines.clear();
  const said = [1, 2].map((at) => {
    const side = at === 1 ? 1 : 2;
    host.apply(Row.submit(side, host.number, "move 1", null));
    return simulator.take(`>p${side} move 1`).text;
  })[1];
  sent();
  holds(said.startsWith(`update\n${lines.text("stream")}`), `other lines: ${said}`);
  holds(said.includes(`|request|${seats[1].request(2)}\n`), "another request");
  lines.forfeit(2);
  holds(lines.text("spectator").endsWith("|win|Alice\n"), "no win");
  lines.free();
  thrown(() => lines.text("p1"), FreedError, /^the Lines was freed$/);
  seats.forEach((seat) => seat.free());
}

function simulated() {
  const simulator = showdown.simulator({hp: "percent", clock: true});
  simulator.take(">start {\"formatid\":\"gen1customgame\"}");
  simulator.take(`>player p1 ${JSON.stringify({name: "Alice", team: TAUROS})}`);
  const {text} = simulator.take(`>player p2 ${JSON.stringify({name: "Eve", team: MEW})}`);
  const [, time] = /^\|t:\|(\d+)$/m.exec(text) ?? [];
  holds(Math.abs(Number(time) - Date.now() / 1000) < 60, "another time");
  holds(text.includes("|split|p1\n|switch|p1a: Bob|Tauros|353/353\n|switch|p1a: Bob|Tauros|100/100\n"), text);
  holds(/dance/.test(simulator.take(">dance").note ?? ""), "no note");
  equal(thrown(() => simulator.take(">player p1 {}"), ProtocolError, /^line 5: /).line, 5);
  thrown(() => simulator.take(">p1 move 1\n>p2 move 1"), ArgumentError, /one line/);
  thrown(() => showdown.simulator(/** @type {any} */ ({hp: "bar"})), ArgumentError, /^hp is "bar", not exact/);
  // Seeds by chance differ.
  const seeds = [1, 2].map(() => {
    const other = showdown.simulator();
    other.take(">start {\"formatid\":\"gen1customgame\"}");
    ["p1", "p2"].forEach((who) => other.take(`>player ${who} ${JSON.stringify({name: who, team: MEW})}`));
    return /"seed":[^\]]*/.exec(other.take(">forcetie").text.replaceAll("\\", ""))?.[0];
  });
  holds(seeds[0] && seeds[0] !== seeds[1], `seeds ${seeds}`);
}

function followed() {
  const follower = showdown.follower({side: 2});
  thrown(() => follower.log, ProtocolError, /./);
  follower.read(FOLLOWED);
  equal([follower.side(1), follower.side(2).names, follower.notes],
      [{name: "Alice", count: 6, names: ["Bo"]}, ["Chansey"], []]);
  const {foe, ownPublic} = follower.player(gen1).view;
  equal(foe.members.map(({species, status, moves}) => [species, status, moves]),
      [["Tauros", "paralysis", [{name: "Body Slam", uses: 1}]]]);
  equal(ownPublic.members.map(({species, hp, moves}) => [species, hp, moves]),
      [["Chansey", 530, [{name: "Thunder Wave", uses: 1}]]]);
  equal(follower.choices, [["move Body Slam", "move Thunder Wave"]]);
  follower.read("|-frobnicate|p1a: Bo");
  equal(follower.notes[0].line, 13);

  // The example of docs/PROGRAM.md, "A battle to search".
  const simulator = showdown.simulator();
  const stream =
      [
        ">start {\"formatid\":\"gen1customgame\",\"seed\":[1,2,3,4]}",
        ">player p1 {\"name\":\"Alice\",\"team\":\"Tauros||||bodyslam,earthquake|||||||\"}",
        ">player p2 {\"name\":\"Bob\",\"team\":\"Alakazam||||psychic,recover|||||||\"}", ">p1 move 1", ">p2 move 1"
      ].map((line) => simulator.take(line).text)
          .join("");
  const mine = showdown.members("Tauros\n- Body Slam\n- Earthquake\n");
  const knowing = showdown.follower({side: 1, members: mine});
  knowing.read(stream);
  const battle = knowing.battle(gen1, showdown.members("Alakazam\n- Thunder Wave\n- Psychic\n"));
  equal([battle.choices(1).map((it) => battle.words(1, it)), battle.choices(2).map((it) => battle.words(2, it))],
      [["move 1 Body Slam", "move 2 Earthquake"], ["move 1 Thunder Wave", "move 2 Psychic"]]);
  thrown(() => knowing.battle(gen1, showdown.members("Mew\n- Psychic")), ArgumentError, /./);
}

function judged() {
  const one = [{species: "Parasect", moves: ["Spore"]}];
  const two = ["Chansey", "Snorlax"].map((species) => ({species, moves: ["Splash"]}));
  const [battle, clauses] = [gen1.battle({one, two, seed: 7}), showdown.endingClauses()];
  equal(clauses.hear(battle.update("pass", "pass").log), null);
  equal(clauses.hear(battle.update("move 1", "move 1").log), null);
  equal(clauses.hear(battle.update("move 1", "switch 2").log), 1);
  thrown(() => clauses.hear(Uint8Array.of(255)), ArgumentError, /./);
  thrown(() => showdown.endingClauses(/** @type {any} */ ({slep: true})), ArgumentError, /did you mean "sleep"/);
}

// The hashes were made by sha256sum of coreutils.
function agreed() {
  const hex = (/** @type {Uint8Array} */ bytes) =>
      Array.from(bytes, (byte) => byte.toString(16).padStart(2, "0")).join("");
  /** @type {[Uint8Array, Uint8Array]} */
  const secrets = [new Uint8Array(32).fill(7), Uint8Array.from({length: 32}, (_, at) => at)];
  /** @type {[Uint8Array, Uint8Array]} */
  const commitments = [showdown.commit("K\u00f6ln 3", 1, secrets[0]), showdown.commit("K\u00f6ln 3", 2, secrets[1])];
  equal(commitments.map(hex), [
    "ab01c0f56c322c723362ae2507b44f9cd312e5262163a5721fcaae38854111ea",
    "5b5d84ce672fcfcd169c13df96a947083fed47bc519d70eb77f7568b57d60e95",
  ]);
  const {seed, sides} = showdown.agree("K\u00f6ln 3", commitments, secrets);
  equal([hex(seed), sides], ["6d0a1f3027908fea9444", [1, 2]]);
  thrown(() => showdown.agree("K\u00f6ln 3", commitments, [secrets[0], secrets[0]]), CommitmentError, /player 2/);
  thrown(() => showdown.agree("Bonn", commitments, secrets), CommitmentError, /player 1/);
  thrown(() => showdown.commit("a", /** @type {any} */ (3), new Uint8Array(32)), ArgumentError, /player/);
  thrown(() => showdown.commit("a", 1, new Uint8Array(31)), ArgumentError, /31 bytes, not 32/);
}

for (const test of [teams, rules, hosted, simulated, followed, judged, agreed]) test();
console.log("7 passed, 0 failed");
