"""The plain module of WebAssembly and its JavaScript package, under Node: recorded and random battles, and bad input."""

import ctypes
import json
import re
import shutil
import subprocess
from itertools import zip_longest

import pytest
from battles import cases, recorded, traces
from cargo import want_cargo
from processes import add_counts, has, ran
from repository import ROOT

# The modules are downloaded, so they may not grow beyond this.
MOST_BYTES = {"gen1.wasm": 254_000, "search.wasm": 233_000, "showdown.wasm": 680_000}


@pytest.fixture(scope="module")
def package(room):
    """The package that tools/plain_wasm builds and tries."""
    want_cargo()
    if not has("wasm") or not shutil.which("node"):
        pytest.skip("there is no rustc for wasm32, or no Node; `make setup` installs them")
    ran("tools/plain_wasm", room / "js")
    return room / "js"


def test_package(package):
    """tools/plain_wasm builds the package, whose types, offsets and installation it tries."""
    assert list(package.glob("*.tgz")) or not shutil.which("npm")


@pytest.mark.parametrize("module", MOST_BYTES)
def test_size_of_the_module(package, module):
    assert (package / module).stat().st_size < MOST_BYTES[module]


def test_recorded_battles(package, unpacked, checks):
    """The package's own tests (js/test), with the recorded battles."""
    add_counts(ran("node", "test/test.mjs", unpacked, cwd=package, allowed=(0, 1)), checks)


HOSTED = """
import {readFileSync} from "node:fs";
import {load, Row} from "./gen1.mjs";
const [gen1, examples] = [await load(readFileSync("gen1.wasm")), JSON.parse(readFileSync(0, "utf8"))];
const of = {row: Row.ofJSON, message: (it) => gen1.messageOfJSON(it), notice: (it) => gen1.noticeOfJSON(it)};
const said = (name, value) => console.log(JSON.stringify([name, value]));
for (const [name, values] of Object.entries(examples)) for (const value of values) said(name, of[name](value));
const team = ["Starmie", "Tauros", "Jynx"].map((species) => ({species, moves: [["Rest", 3], ["Surf", 3]]}));
for (let seed = 1; seed < 20; seed++) {
  const host = gen1.host(gen1.battle({one: team, two: team, seed}));
  for (let place = seed; !host.isClosed && host.number < 40;) {
    const {number} = host;
    for (const [side, message] of [1, 2].map((side) => [side, host.message(side)])) {
      said("message", message);
      const row = Row.submit(side, number, message.choices[place++ % message.choices.length], place % 3 ? undefined : null);
      said("row", row);
      try {
        host.apply(row);
      } catch {}
    }
    said("notice", host.notice());
  }
}
"""


def test_json_of_hosts(package):
    """The JSON of rows, messages and notices is as docs/HOST.schema.json says, and its examples come out as they go in."""
    jsonschema = pytest.importorskip("jsonschema")
    schema = json.loads((ROOT / "docs" / "HOST.schema.json").read_text())
    kinds = ("row", "message", "notice")
    validators = {it: jsonschema.Draft202012Validator({**schema, "$ref": f"#/$defs/{it}"}) for it in kinds}
    examples = {it: schema["$defs"][it]["examples"] for it in kinds}
    words = ["node", "--input-type=module", "--eval", HOSTED]
    said = subprocess.run(words, cwd=package, input=json.dumps(examples), capture_output=True, text=True, check=True)
    values = [json.loads(line) for line in said.stdout.splitlines()]
    wanted = [[name, value] for name in kinds for value in examples[name]]
    assert values[: len(wanted)] == wanted and len(values) > 1000
    for name, value in values:
        validators[name].validate(value)


SAID = """
import {readFileSync} from "node:fs";
import {load} from "./gen1.mjs";
const [gen1, logs] = [await load(readFileSync("gen1.wasm")), JSON.parse(readFileSync(0, "utf8"))];
const voices = [{}, {you: 1, inPercent: [false, true]}, {you: 2, inPercent: [true, false]}];
const said = logs.map((log) => voices.map((voice) => gen1.narrator(voice).sentences(Uint8Array.from(Buffer.from(log, "hex")))));
process.stdout.write(JSON.stringify(said));
"""


def test_sentences(package, archive, room, compared, needs):
    """Each event of the recorded battles has the sentence of the C library, for a spectator and for each side."""
    needs("cc")
    shared = room / "libgen1_sentences.so"
    ran("cc", "-shared", "-o", shared, "-Wl,--whole-archive", archive, "-Wl,--no-whole-archive")
    library, size = ctypes.CDLL(str(shared)), ctypes.c_size_t
    played = [battle for name in ("traces", "corners") for battle in traces(recorded(f"{name}.jsonl"))]
    logs = ["".join(update["log"] for update in battle["updates"]) for battle in played]
    logs += [case["hex"] for case in cases(recorded("print.jsonl")) if not case["stderr"]]
    words = ["node", "--input-type=module", "--eval", SAID]
    done = subprocess.run(words, cwd=package, input=json.dumps(logs), capture_output=True, text=True, check=True)
    said, faults = [], []
    for log, told in zip(map(bytes.fromhex, logs), json.loads(done.stdout), strict=True):
        for voice, sentences in enumerate(told):
            # A gen1_narrator: for each side its HP, its species, and whether HP are in per cent; the side that reads the sentences.
            narrator = bytearray(10)
            narrator[3], narrator[7], narrator[8] = voice == 2, voice == 1, voice
            held, at, length = (ctypes.c_char * 10).from_buffer(narrator), size(), size()
            text = ctypes.create_string_buffer(128)
            due = []
            while not library.gen1_next_sentence(
                log, size(len(log)), ctypes.byref(at), held, text, size(128), ctypes.byref(length)
            ):
                due.append(text.value.decode())
            said += due
            faults += [f"{one!r}, not {two!r}" for one, two in zip_longest(sentences, due) if one != two]
    assert len(said) > 90_000
    compared(len(said), faults)


def test_random_bytes(package):
    """The package's own fuzzer ends without a fault."""
    ran("node", "test/fuzz.mjs", cwd=package)


def test_search(package):
    """The search knows no more than its player, refuses bad input, and takes at most 300 ms at level 3."""
    said = ran("node", "test/search.mjs", cwd=package)
    assert int(re.match(r"level 3: (\d+) ms", said)[1]) <= 300, said


def test_showdown(package, checks):
    """The protocol in JavaScript says what docs/PROGRAM.md says, and refuses bad input."""
    add_counts(ran("node", "test/showdown.mjs", cwd=package), checks)
