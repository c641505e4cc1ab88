"""Faults of battle_tool (--program): in a system that refuses its requests, one at a time, and on rows of inputs.

Each subcommand runs on a small recorded case (tests/battles) whose output is known; that of `log` by its lines, which `print` must
write as `run` does. Then it runs again for each of its requests in turn, with that one refused:

- each request for memory;
- each read, by an error; each write, by an error and by taking no byte; each write to standard error;
- with one byte moved in each read and write: none of them refused, and then each.

A case that is refused also runs with --explain, with each write of both lines refused. The status and the line on standard error must
be those of docs/PROGRAM.md ("Faults and statuses"), and standard output a prefix of the undisturbed output. Some memory is requested
ahead of need: a list of arguments asks for room once for all, and then argument by argument. Refusing such a request may change
nothing. Then come FILEs: one that exists, with another battle on standard input; a folder; one that may not be read; one that does not
exist; an empty name; and a name that is not UTF-8. Each run counts.

A row is a command line and an input, with the status and the bytes of both outputs. Families of rows are the prefixes of an input, and an
input in which each byte in turn is replaced by ff.
"""

import os
import shutil
import subprocess
import tempfile
from concurrent.futures import ThreadPoolExecutor
from dataclasses import dataclass
from pathlib import Path

import pytest
from battles import cases, recorded
from repository import ROOT, processors

SECONDS = 60
# Each subcommand with the file of its cases, and the least output of the case in bytes.
COMMANDS = {"run": ("first_path", 600), "room": ("room", 500), "print": ("print", 300), "calc": ("calc", 100)}
# What is refused: the kind of request, the settings of the preloaded library, and the expected error with its status.
REFUSALS = {
    "memory": ("memory", {}, "memory", 4),
    "a read": ("read", {}, "read", 3),
    "a write": ("out", {}, "write", 3),
    "a write, by taking nothing": ("out", {"HOSTILE_ZERO": "1"}, "write", 3),
    "a read of one byte": ("read", {"HOSTILE_BYTE": "1"}, "read", 3),
    "a write of one byte": ("out", {"HOSTILE_BYTE": "1"}, "write", 3),
}
# A run has fewer requests of a kind than this; so many runs are started at a time.
MOST, BATCH = 20_000, 32
NOBODY = 65534
# The source of the preloaded library.
SYSTEM = ROOT / "tests" / "c" / "refusing_system.c"

# The error of an input that is not the expected JSON.
NO_JSON = "error: json\n"
# An input has at most so many bytes.
LONGEST = 1_048_576
# The lines of a battle of two Tauros: the start, the first turn, and what follows the line |turn|2.
START = """\
|switch|p1a: Tauros|Tauros|353/353
|switch|p2a: Tauros|Tauros|353/353
|turn|1
"""
FIRST_TURN = """\
|move|p1a: Tauros|Strength|p2a: Tauros
|-crit|p2a: Tauros
|-damage|p2a: Tauros|149/353
|move|p2a: Tauros|Strength|p1a: Tauros
|-damage|p1a: Tauros|263/353
"""
LAST_TURN = """\
|move|p1a: Tauros|Strength|p2a: Tauros
|-crit|p2a: Tauros
|-damage|p2a: Tauros|0 fnt
|faint|p2a: Tauros
|win|p1
"""
TWO_TURNS = f"{START}{FIRST_TURN}|turn|2\n{LAST_TURN}"
# The log bytes of its pairs (docs/MECHANICS.md, "Log bytes").
LOGS = (
    bytes.fromhex("0201800164610161010002028001646101610100010100"),
    bytes.fromhex("030180460280070280050280950061010000030280460180050180070161010000010200"),
    bytes.fromhex("0301804602800702800502800000610100001902801a01"),
)
# Submissions to a room of two Tauros, and the replies to them.
SUBMISSIONS = "[1,0,17],[1,0,17],[2,1,17],[2,0,17],[2,0,17],[1,1,20]"
REPLIES = f"""\
|room|waiting
|room|refused|3
|room|refused|2|0
|room|advanced
{FIRST_TURN}|turn|2
|room|refused|2|1
|room|refused|4
"""
# The damage numbers of Body Slam between two Tauros, and of a critical one.
BODY_SLAM = (
    "95 95 96 96 97 97 97 98 98 99 99 100 100 101 101 101 102 102 103 103 104 104 104 105 105 106 106 107 107 108 108 "
    "108 109 109 110 110 111 111 112\n"
)
CRITICAL = (
    "184 185 186 187 188 188 189 190 191 192 193 194 194 195 196 197 198 199 199 200 201 202 203 204 205 205 206 207 "
    "208 209 210 211 211 212 213 214 215 216 217\n"
)
# What the help of each subcommand says: what it does, and what it reads and prints.
HELPS = {
    "run": (
        "Runs a battle and prints its lines",
        'Reads {"seed":[10 bytes],"one":[member],"two":[member],"choices":[[byte,byte],..]}, and optionally the keys '
        '"rules" and "limit". A member is {"species":name,"level":n,"dvs":[4],"exp":[5],"moves":[[name,ups],..]}. '
        "Prints a line for each event, pair by pair.",
    ),
    "log": (
        "Runs a battle and writes its log",
        "Reads the same object as run. Writes the log bytes of each pair, for print to read.",
    ),
    "print": (
        "Prints the lines of a log",
        "Reads the log bytes of updates, one after the other. Prints a line for each event, and nothing if the bytes "
        "are not a log.",
    ),
    "calc": (
        "Prints the damage numbers of a move",
        'Reads {"attacker":member,"defender":member,"move":name,"critical":true or false}, with members as in run. '
        "Prints in one line the damage at each factor from 217 to 255, of the attacker's move against the defender, "
        "both just sent out. Prints nothing for a move without the usual damage.",
    ),
    "room": (
        "Runs a room of two players and prints the reply to each submission",
        'Reads the object of run with "submissions":[[side,number,byte],..] in place of choices: the side, 1 or 2, the '
        "number of its pair, from 0, and the choice. Prints the lines of the start, and for each submission "
        "|room|waiting, |room|advanced with the lines of the pair, or |room|refused|N.",
    ),
}
# Bytes that are not JSON, with the line and the column of the first byte that JSON does not have there.
NO_JSON_AT = {
    b"": "1 column 1",
    b"{": "1 column 2",
    b"[1,]": "1 column 4",
    b'{"a":1,}': "1 column 8",
    b'{"a" 1}': "1 column 6",
    b"[1 2]": "1 column 4",
    b"[1}": "1 column 3",
    b'{"a":1]': "1 column 7",
    b"[\n  nul]": "2 column 6",
    b"[01]": "1 column 3",
    b"[-]": "1 column 3",
    b"[1.]": "1 column 4",
    b'"\\x"': "1 column 3",
    b'"\xff"': "1 column 2",
    b"{} {}": "1 column 4",
    b"\xef\xbb\xbf{}": "1 column 1",
}


@dataclass
class Case:
    """Arguments and standard input, with the status and the two outputs of an undisturbed run."""

    words: list
    given: bytes
    status: int
    out: bytes
    err: bytes


@dataclass
class Ran:
    """How a run ended, and whether a request was refused."""

    status: int
    out: bytes
    err: bytes
    refused: bool


def from_record(case):
    given = bytes.fromhex(case["hex"]) if "hex" in case else case["input"].encode()
    return Case(case["args"], given, case.get("status", 0), case["stdout"].encode(), case.get("stderr", "").encode())


def smallest(battles, names, least, fits):
    """The smallest recorded case of these files that has this much output, and that fits."""
    found = [from_record(it) for name in names for it in cases(recorded(f"{name}.jsonl", battles))]
    found = [case for case in found if len(case.out) >= least and len(case.words) == 1 and fits(case)]
    return min(found, key=lambda case: len(case.given) + len(case.out))


class Tool:
    """The program, with the preloaded library."""

    def __init__(self, path, library):
        self.path, self.library = path, library

    def ran(self, case, settings, kind="", at=0):
        """Runs the case, with request number `at` of a kind refused."""
        told, tell = os.pipe()
        words = {
            "HOSTILE_KIND": kind,
            "HOSTILE_AT": str(at),
            "HOSTILE_TELL": str(tell),
            "LD_PRELOAD": str(self.library),
        }
        try:
            ended = subprocess.run(
                [self.path, *case.words],
                input=case.given,
                capture_output=True,
                timeout=SECONDS,
                pass_fds=[tell],
                env={**words, **settings},
            )
            os.close(tell)
            return Ran(ended.returncode, ended.stdout, ended.stderr, os.read(told, 1) != b"")
        finally:
            os.close(told)


def fault_of(ran, status, line, out, whole):
    """Why a run is wrong; empty if it is right. Standard output must be `out`, or a prefix of it if it need not be whole."""
    if ran.status != status:
        return f"status {ran.status}, not {status}; standard error: {ran.err[-200:]!r}"
    if ran.err != line:
        return f"standard error {ran.err[-200:]!r}, not {line!r}"
    if ran.out != out if whole else not out.startswith(ran.out):
        return f"standard output of {len(ran.out)} bytes is {'not' if whole else 'not a prefix of'} the expected {len(out)}"
    return ""


def each_refused(tool, case, settings, kind):
    """Yields each run with one request of a kind refused, by its number, and last a run in which none was refused."""
    with ThreadPoolExecutor(processors()) as pool:
        for first in range(1, MOST, BATCH):
            numbers = range(first, first + BATCH)
            for at, ran in zip(numbers, pool.map(lambda at: tool.ran(case, settings, kind, at), numbers)):
                yield at, ran
                if not ran.refused:
                    return


def swept(tool, case, name):
    """Refuses each request of a kind; returns the number of runs, and why some are wrong."""
    kind, settings, word, status = REFUSALS[name]
    faults, line = [], f"error: {word}\n".encode()
    for at, ran in each_refused(tool, case, settings, kind):
        if not ran.refused:
            fault = fault_of(ran, case.status, case.err, case.out, True) or (
                "" if at > 1 else "there was no such request"
            )
            return at, faults + [f"nothing refused: {fault}"] * bool(fault)
        fault = fault_of(ran, status, line, case.out, False)
        if fault and kind == "memory" and not fault_of(ran, case.status, case.err, case.out, True):
            fault = ""
        if not fault and "HOSTILE_BYTE" in settings and kind == "out" and len(ran.out) != at - 1:
            fault = f"{len(ran.out)} bytes were written in {at - 1} writes"
        faults += [f"number {at}: {fault}"] * bool(fault)
    return MOST, [*faults, f"{MOST} requests have no end"]


def logged(tool, case):
    """The case of `run` as one of `log`, and why its log is wrong; empty where `print` writes the lines of `run`."""
    asked = Case(["log"], case.given, case.status, b"", b"")
    ran = tool.ran(asked, {})
    shown = tool.ran(Case(["print"], ran.out, 0, b"", b""), {})
    fault = fault_of(ran, case.status, case.err, ran.out, True) or fault_of(shown, 0, b"", case.out, True)
    return Case(["log"], case.given, case.status, ran.out, case.err), fault


def swept_log(tool, case, kind):
    """`swept` for `log`, after a check of its log."""
    asked, fault = logged(tool, case)
    runs, faults = swept(tool, asked, kind)
    return runs + 2, faults + [f"the log: {fault}"] * bool(fault)


def explained(tool, case):
    """`unwritten` for a case with --explain, whose second line is that of the undisturbed run."""
    asked = Case([*case.words, "--explain"], case.given, case.status, case.out, b"")
    ran = tool.ran(asked, {})
    lines = ran.err.splitlines(keepends=True)
    runs, faults = unwritten(tool, Case(asked.words, case.given, case.status, case.out, ran.err))
    bad = len(lines) != 2 or lines[0] != case.err or not lines[1].endswith(b"\n")
    return runs + 1, faults + [f"standard error {ran.err!r} is not {case.err!r} and one line more"] * bad


def unwritten(tool, case):
    """`swept` for standard error: the status and standard output stay the same."""
    faults, line = [], case.err
    for at, ran in each_refused(tool, case, {"HOSTILE_BYTE": "1"}, "err"):
        fault = fault_of(ran, case.status, line[: at - 1] if ran.refused else line, case.out, True)
        faults += [f"number {at}: {fault}"] * bool(fault)
        if not ran.refused:
            return at, faults
    return MOST, [*faults, f"{MOST} requests have no end"]


def opened(tool, case, other, folder):
    """`swept` for FILEs, with the input of another case on standard input."""
    faults = []
    name = case.words[0]
    read = Case([], b"", 3, b"", b"error: read\n")
    there, locked = folder / "there", folder / "locked"
    there.write_bytes(case.given)
    locked.write_bytes(case.given)
    locked.chmod(0)
    no_text = os.fsencode(folder / "name") + b"\xff"
    Path(os.fsdecode(no_text)).write_bytes(case.given)
    files = {
        "a file": (there, case),
        "a folder": (folder, read),
        "no file": (folder / "none", read),
        "an empty name": ("", read),
    }
    files |= {"a file that may not be read": (locked, read), "a file below a file": (there / "none", read)}
    for what, (file, due) in files.items():
        ran = as_nobody(tool, [name, file], other.given)
        fault = fault_of(ran, due.status, due.err, due.out, True)
        faults += [f"{what}: {fault}"] * bool(fault)
    fault = fault_of(as_nobody(tool, [name, no_text], other.given), 2, b"error: a word is no UTF-8\n", b"", True)
    faults += [f"a name that is not UTF-8: {fault}"] * bool(fault)
    return len(files) + 1, faults


def as_nobody(tool, words, given):
    """A run without the rights of root, which reads any file."""
    user = {"user": NOBODY, "group": NOBODY, "extra_groups": []} if os.geteuid() == 0 else {}
    ended = subprocess.run([tool.path, *words], input=given, capture_output=True, timeout=SECONDS, **user)
    return Ran(ended.returncode, ended.stdout, ended.stderr, False)


@pytest.fixture(scope="module")
def folder():
    """A folder that any user may read."""
    with tempfile.TemporaryDirectory(prefix="faults-") as made:
        Path(made).chmod(0o755)
        yield Path(made)


@pytest.fixture(scope="module")
def program(pytestconfig):
    """The program that is asked for."""
    asked = pytestconfig.getoption("program")
    if not asked:
        pytest.skip("no --program names battle_tool")
    return asked.resolve()


@pytest.fixture(scope="module")
def tool(program, folder):
    """A copy of the program, with the preloaded library."""
    if not shutil.which("cc"):
        pytest.skip("there is no cc; `make setup` installs it")
    library = folder / "refusing.so"
    subprocess.run(["cc", "-shared", "-fPIC", "-O1", "-o", library, SYSTEM], check=True)
    shutil.copy(program, folder / "program")
    return Tool(folder / "program", library)


@pytest.mark.parametrize("kind", REFUSALS)
@pytest.mark.parametrize("name", [*COMMANDS, "log"])
def test_request_is_refused(name, kind, tool, battles, compared):
    """Each request of a kind is refused in turn (docs/PROGRAM.md, "Faults and statuses")."""
    file, least = COMMANDS["run" if name == "log" else name]
    case = smallest(battles, [file], least, lambda it: it.status == 0)
    compared(*(swept_log if name == "log" else swept)(tool, case, kind))


def refused_case(battles, name):
    """The smallest recorded case of a subcommand that ends with a line on standard error."""
    files = ["errors", COMMANDS[name][0]]
    return smallest(battles, files, 0, lambda it: it.words == [name] and it.status == 1 and it.err)


@pytest.mark.parametrize("name", COMMANDS)
def test_standard_error_is_refused(name, tool, battles, compared):
    """Each byte of an error's line is refused in turn (docs/PROGRAM.md, "Faults and statuses")."""
    compared(*unwritten(tool, refused_case(battles, name)))


@pytest.mark.parametrize("name", COMMANDS)
def test_standard_error_with_explain_is_refused(name, tool, battles, compared):
    """Each byte of an error's two lines is refused in turn (docs/PROGRAM.md, "Explanations")."""
    compared(*explained(tool, refused_case(battles, name)))


@pytest.mark.parametrize("name", COMMANDS)
def test_file(name, tool, folder, battles, compared):
    """A FILE, with another battle on standard input (docs/PROGRAM.md, "The program battle_tool")."""
    file, least = COMMANDS[name]
    case = smallest(battles, [file], least, lambda it: it.status == 0)
    other = smallest(battles, [file], least + 1, lambda it: it.status == 0 and it.out != case.out)
    place = folder / name
    place.mkdir()
    compared(*opened(tool, case, other, place))


def member(level=100):
    """A Tauros as JSON."""
    return (
        f'{{"species":"Tauros","level":{level},"dvs":[15,15,15,15],"exp":[65535,65535,65535,65535,65535],'
        '"moves":[["Strength",3]]}'
    )


def battle(end):
    """The object of a battle of two Tauros, with this end after its teams."""
    return f'{{"seed":[1,36,255,7,31,100,179,254,127,10],"one":[{member()}],"two":[{member()}],{end}'


def two_turns(end):
    """The battle of TWO_TURNS, with this end at the place of a further pair."""
    return battle(f'"choices":[[0,0],[17,17],[17,17]{end}')


def room_of(submissions):
    """The object of a room of two Tauros."""
    return battle(f'"submissions":[{submissions}]}}')


def with_second(second, end):
    """The object of a battle in which side 2 has a second member, with these keys after its teams."""
    return f'{{"seed":[1,2,3,4,5,6,7,8,9,0],"one":[{member()}],"two":[{member()},{second}],{end}}}'


# The whole inputs from which families of rows are made.
WHOLE = {"run": two_turns("]}").encode(), "room": room_of(SUBMISSIONS).encode()}


def row(words, given, status=0, out="", err=""):
    """The case of some arguments, with spaces between them, and an input. A text is encoded as UTF-8."""
    given, out, err = (it if isinstance(it, bytes) else it.encode() for it in (given, out, err))
    return Case(words.split(" "), given, status, out, err)


def no_json(words, given):
    """The row of an input that is not the expected JSON."""
    return row(words, given, 1, "", NO_JSON)


def explained_row(words, given, lines):
    """The row of an input that is refused with these lines, where an explanation is asked for."""
    return row(f"{words} --explain", given, 1, "", lines)


def play(program, rows, checks, folder=None):
    """Plays rows side by side, in a folder. A fault has the number of its row: in a family that of the byte, from 0."""

    def fault(case):
        words = {"executable": program, "cwd": folder, "capture_output": True, "timeout": SECONDS}
        ended = subprocess.run(["battle_tool", *case.words], input=case.given, **words)
        ran = Ran(ended.returncode, ended.stdout, ended.stderr, False)
        return fault_of(ran, case.status, case.err, case.out, True)

    with ThreadPoolExecutor(processors()) as pool:
        for number, (case, found) in enumerate(zip(rows, pool.map(fault, rows))):
            checks.right(f"{' '.join(case.words)}, row {number}, whose input ends in {case.given[-40:]!r}", found)


@pytest.mark.parametrize("name", WHOLE)
def test_input_that_is_cut(name, program, checks):
    """No prefix of an input is JSON (docs/PROGRAM.md, "JSON, to the letter")."""
    whole = WHOLE[name]
    play(program, [no_json(name, whole[:end]) for end in range(len(whole))], checks)


def test_byte_that_is_no_text(program, checks):
    """The byte ff is not part of any text (docs/PROGRAM.md, "JSON, to the letter")."""
    whole = WHOLE["room"]
    rows = [no_json("room", whole[:at] + b"\xff" + whole[at + 1 :]) for at in range(len(whole))]
    play(program, rows, checks)


@pytest.mark.parametrize("name", WHOLE)
def test_long_input(name, program, checks):
    """One byte past the limit is too long (docs/PROGRAM.md, "What is tested, in this order")."""
    too_long = row(name, b" " * (LONGEST + 1), 1, "", "error: too long\n")
    play(program, [no_json(name, b" " * LONGEST), too_long], checks)


def test_whole_runs(program, checks):
    """The status and both outputs (docs/PROGRAM.md, "run", "Input", "Output", "Faults and statuses")."""
    tie = f"{START}{FIRST_TURN}|tie\n"
    ends = [
        ("]}", 0, TWO_TURNS, ""),
        (",[17,17]]}", 1, TWO_TURNS, "error: pair 3 refused 1\n"),
        ('],"limit":9999,"rules":3}', 0, TWO_TURNS, ""),
        ('],"limit":1}', 1, tie, "error: pair 2 refused 1\n"),
        ('],"limit":0}', 1, "", NO_JSON),
        ('],"limit":10000}', 1, "", NO_JSON),
        ('],"limit":null}', 1, "", NO_JSON),
        ('],"rules":4}', 1, "", NO_JSON),
        ('],"rules":null}', 1, "", NO_JSON),
    ]
    play(program, [row("run", two_turns(end), *ended) for end, *ended in ends], checks)


def test_damage_numbers(program, checks):
    """The example of `calc`, and what is refused (docs/PROGRAM.md, "calc")."""
    none = f"{' '.join(['0'] * 39)}\n"
    asked = [
        (100, 100, '"Body Slam"', "false", 0, BODY_SLAM, ""),
        (100, 100, '"Body Slam"', "true", 0, CRITICAL, ""),
        (100, 100, '"Lick"', "false", 0, none, ""),
        (100, 100, '"Night Shade"', "true", 1, "", "error: calc\n"),
        (100, 100, '"Counter"', "true", 1, "", "error: calc\n"),
        (100, 0, '"Bide"', "false", 1, "", "error: team 2 place 1 refusal 3\n"),
        (101, 0, '"Bide"', "false", 1, "", "error: team 1 place 1 refusal 3\n"),
        (101, 0, '"Bide"', "0", 1, "", NO_JSON),
        (100, 100, '"bide"', "true", 1, "", NO_JSON),
    ]
    rows = []
    for one, other, move, critical, *ended in asked:
        given = f'{{"attacker":{member(one)},"defender":{member(other)},"move":{move},"critical":{critical}}}'
        rows.append(row("calc", given, *ended))
    play(program, rows, checks)


def test_printed_logs(program, checks):
    """Logs, and bytes that are not a log (docs/PROGRAM.md, "print")."""
    rows = [
        row("print", LOGS[2], 0, LAST_TURN),
        row("print", b""),
        row("print", b"\x1b\xff", 1, "", "error: log 1\n"),
        row("print", b"\x0d\x01\x80\x00", 1, "", "error: log 2\n"),
        row("print", LOGS[2][:22], 1, "", "error: log 3\n"),
    ]
    play(program, rows, checks)


def test_log(program, checks):
    """The log of the example is 23, 36 and 23 bytes, and its lines are those of `run` (docs/PROGRAM.md, "log")."""
    rows = [
        row("log", two_turns("]}"), 0, b"".join(LOGS)),
        row("log", two_turns(",[17,17]]}"), 1, b"".join(LOGS), "error: pair 3 refused 1\n"),
        row("print", b"".join(LOGS), 0, TWO_TURNS),
        no_json("log", "["),
    ]
    play(program, rows, checks)


def test_room(program, checks):
    """The example of `room` (docs/PROGRAM.md, "room")."""
    play(program, [row("room", room_of(SUBMISSIONS), 0, f"{START}{REPLIES}")], checks)


def test_submissions_have_ranges(program, checks):
    """A side, 1 or 2, a number of 32 bits and a byte, and nothing more (docs/PROGRAM.md, "room", "Input")."""
    wrong = ["[0,0,17]", "[3,0,17]", "[1,-1,17]", "[1,4294967296,17]", "[1,0,256]", "[1,0]", "[1,0,17,0]", "null"]
    rows = [no_json("room", room_of(submission)) for submission in wrong]
    rows.append(row("room", room_of("[2,4294967295,255]"), 0, f"{START}|room|refused|2|0\n"))
    play(program, rows, checks)


def test_words_that_run_nothing(program, checks):
    """Wrong words are reported as Rust's clap reports them (docs/PROGRAM.md, "The program battle_tool")."""
    help_line, options = "\n\nFor more information, try '--help'.\n", "[OPTIONS] [FILE]"
    tip = "tip: to pass '--fly' as a value, use '-- --fly'"
    texts = {
        "fly": "unrecognized subcommand 'fly'\n\nUsage: battle_tool <COMMAND>",
        "run one two": f"unexpected argument 'two' found\n\nUsage: battle_tool run {options}",
        "calc --fly": f"unexpected argument '--fly' found\n\n  {tip}\n\nUsage: battle_tool calc {options}",
    }
    play(program, [row(words, "", 2, "", f"error: {text}{help_line}") for words, text in texts.items()], checks)


def test_help_is_asked_for(program):
    """The help goes to standard output (docs/PROGRAM.md, "The program battle_tool")."""
    ended = subprocess.run([program, "--help"], input=b"", capture_output=True, timeout=SECONDS)
    assert (ended.returncode, ended.stdout != b"", ended.stderr) == (0, True, b"")


def test_help_of_each_subcommand(program, checks):
    """Its text is laid out as by Rust's clap (docs/PROGRAM.md, "The program battle_tool")."""
    options = """\
Arguments:
  [FILE]  The input (default: standard input)

Options:
      --explain  Says where the error is and what was expected, after its line
  -h, --help     Print help
"""
    rows = []
    for name, (purpose, given) in HELPS.items():
        text = f"{purpose}\n\nUsage: battle_tool {name} [OPTIONS] [FILE]\n\n{options}\n{given}\n"
        rows.append(row(f"{name} --help", "", 0, text))
    play(program, rows, checks)


def test_file_that_does_not_open(program, tmp_path, checks):
    """A read fault, in each subcommand (docs/PROGRAM.md, "What is tested, in this order")."""
    rows = [row(f"{name} no_such_file", "", 3, "", "error: read\n") for name in HELPS]
    rows.append(row("run --explain no_such_file", "", 3, "", "error: read\nthe input could not be opened or read\n"))
    play(program, rows, checks, tmp_path)


def test_file_in_place_of_standard_input(program, tmp_path, checks):
    """A file that exists, with another input on standard input (docs/PROGRAM.md, "The program battle_tool")."""
    (tmp_path / "battle.json").write_text(two_turns("]}"))
    other = two_turns('],"limit":1}')
    rows = [row("run battle.json", other, 0, TWO_TURNS), row("run battle", other, 3, "", "error: read\n")]
    play(program, rows, checks, tmp_path)


def test_misfit_is_told_with_its_way(program, checks):
    """Wrong values, each with its path and what is expected there (docs/PROGRAM.md, "Explanations")."""
    ends = {
        '"choices":[],"limit":0': ".limit: expected a whole number from 1 to 9999",
        '"choices":[],"rules":4': ".rules: expected a whole number from 0 to 3",
        '"choices":[[0,0],[17]]': ".choices[1]: expected a list of 2 items",
        '"choices":[[0,0],[17,256]]': ".choices[1][1]: expected a whole number from 0 to 255",
        '"choices":{}': ".choices: expected a list",
        '"choice":[]': '.: expected an object with the key "choices"',
    }
    rows = []
    for end, misfit in ends.items():
        first = '.two[1]: expected an object with the key "species"'
        rows.append(explained_row("run", with_second("{}", end), f"{NO_JSON}at {first}\n"))
        rows.append(explained_row("run", with_second(member(), end), f"{NO_JSON}at {misfit}\n"))
    play(program, rows, checks)


def test_misfit_in_a_member_is_told_with_its_way(program, checks):
    """A misfit inside a member is reported with its path (docs/PROGRAM.md, "Explanations")."""
    members = [
        ("7", "", "1", "[]", ".species: expected the name of a species"),
        ('"tauros"', "", "1", "[]", ".species: expected the name of a species"),
        ('"Tauros"', "", "1.0", "[]", ".level: expected a whole number from 0 to 255"),
        ('"Tauros"', ",0", "1", "[]", ".dvs: expected a list of 4 items"),
        ('"Tauros"', "", "1", "{}", ".moves: expected a list of at most 4 moves"),
        ('"Tauros"', "", "1", "[[],[],[],[],[]]", ".moves: expected a list of at most 4 moves"),
        ('"Tauros"', "", "1", '[["Tackle",0],["tackle",0]]', ".moves[1][0]: expected the name of a move"),
        ('"Tauros"', "", "1", '[["Tackle",-1]]', ".moves[0][1]: expected a whole number from 0 to 255"),
    ]
    rows = []
    for species, value, level, moves, misfit in members:
        second = f'{{"species":{species},"level":{level},"dvs":[0,0,0,0{value}],"exp":[0,0,0,0,0],"moves":{moves}}}'
        rows.append(explained_row("run", with_second(second, '"choices":[]'), f"{NO_JSON}at .two[1]{misfit}\n"))
    play(program, rows, checks)


def test_what_is_no_json_is_told_with_its_place(program, checks):
    """Bytes that are not JSON, with the line and the column (docs/PROGRAM.md, "Explanations")."""
    rows = [
        explained_row(name, given, f"{NO_JSON}at line {place}: expected JSON\n")
        for given, place in NO_JSON_AT.items()
        for name in ("run", "room", "calc", "log")
    ]
    play(program, rows, checks)


def test_lists_are_nested_at_most_127_deep(program, checks):
    """The 128th list is one too many, and the end comes after the 127th (docs/PROGRAM.md, "JSON, to the letter")."""
    lines = f"{NO_JSON}at line 1 column 128: expected JSON\n"
    play(program, [explained_row("run", b"[" * 128, lines), explained_row("run", b"[" * 127, lines)], checks)


def test_refusals_are_told_in_words(program, checks):
    """A refusal of a team, of a pair and of a log (docs/PROGRAM.md, "Explanations")."""
    team = "error: team 2 place 2 refusal 3\nteam 2, member 2: the level is not 1 to 100\n"
    pair = "error: pair 0 refused 3\nat .choices[0]: side 2's choice is not offered\n"
    rows = [
        explained_row("run", with_second(member(101), '"choices":[]'), team),
        explained_row("run", battle('"choices":[[0,17]]}'), pair),
        explained_row("print", b"\x1b\xff", "error: log 1\na byte in a tag's place is no tag\n"),
    ]
    play(program, rows, checks)
