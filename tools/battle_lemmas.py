"""Lemmas of recorded battles for the prover to compute, and the list of all definitions that they unfold.

The lemmas are in modules of the crate whose proofs have `reports_of`, a few battles in each. Its proofs/Lib.antt lists them last.
Run `rt check` in that crate after they are written.
"""

import re

from battles import recorded, traces
from definitions.machine import recorded_parts
from definitions.modules import Library
from definitions.recorded import Battle
from repository import ROOT

# The battles, by their lines in traces.jsonl, from 0.
BATTLES = """
    1 3 4 5 6 8 9 11 13 14 16 17 19 22 23 26 28 32 33 36 37 39 40 41 43 45 46 47 48 49 50 51 55 56 57 58 61 63 66
    67 69 71 73 75 76 78 80 82 83 85 86 87
"""
PER_MODULE = 9
COMPUTING = """-- A lemma that unfolds `computing` computes all definitions of a battle. Made by tools/gen.
use Rattle.std.proofs.Common.{Bool, true}
use Rattle.std.specs.Fmt.{digits}
%s

unfoldable pub computing : Bool
unfolding digits %s
computing = true
"""
HEAD = """-- Recorded battles: the definitions give each update as it was recorded. Made by tools/gen.
use Rattle.std.proofs.Common.{List, [], refl, ◌∷◌, ◌≡◌}
%s

"""


class Written:
    """Recorded battles as terms of antt, over the modules of the repository."""

    def __init__(self):
        self.library = Library()
        self.reports = self.library.where("reports_of", "proofs")
        self.crates = self.library.below(self.reports.path.split(".")[1])
        self.species, self.moves = (self.numbered(f"{what}_names") for what in ("species", "move"))

    def numbered(self, name):
        """The number of each name in a list of names."""
        declared = self.library.where(name, "specs", self.crates).definitions[name].declared
        texts = re.findall(r'codes "([^"]*)"', declared.clauses[0][1])
        return {text: number for number, text in enumerate(texts, 1)}

    def head(self):
        """The imports of a module of such lemmas."""
        choice, state = (self.reports.names[kind][0] for kind in ("Choice", "State"))
        rules, team = (self.library.where(name, "specs", self.crates).path for name in ("rules_of", "team_of"))
        computing = self.library.where("computing", "proofs").path
        uses = [
            f"{choice}.{{Choice}}",
            f"{choice}.TheVariants as choices",
            f"{rules}.{{rules_of}}",
            f"{team}.{{team_of}}",
            f"{state}.{{first_state, State}}",
            f"{computing}.{{computing}}",
            f"{self.reports.path}.{{reports_of}}",
        ]
        return HEAD % "\n".join(f"use Rattle.{use.removeprefix('Rattle.')}" for use in uses)

    def sheet(self, member):
        moves = a_list(f"({self.moves[name]}, {ups})" for name, ups in member["moves"])
        return "(record { species = %d; level = %d; dvs = %s; exp = %s; moves = %s })" % (
            self.species[member["species"]],
            member["level"],
            a_list(map(str, member["dvs"])),
            a_list(map(str, member["exp"])),
            moves,
        )

    def start(self, battle):
        terms = "(record { rules = rules_of %d; limit = %d })" % (battle.rules, battle.limit)
        teams = ["(team_of %s)" % a_list(map(self.sheet, battle.given[side])) for side in ("one", "two")]
        return "first_state %s\n    %s\n    %s\n    %s" % (terms, *teams, a_list(map(str, battle.given["seed"])))

    def lemma(self, number, battle):
        pairs = " ∷ ".join([*("(%s, %s)" % tuple(map(choice, each)) for each in battle.pairs), "[]"])
        reports = "\n    ∷ ".join([*map(report, battle.line["updates"]), "[]"])
        return (
            "abbrev start_{n} : State\nstart_{n} = {start}\n\n"
            "abbrev pairs_{n} : List (Choice × Choice)\npairs_{n} = {pairs}\n\n"
            "battle_{n} : reports_of start_{n} pairs_{n} ≡\n    {reports}\nunfolding computing\nbattle_{n} = refl\n"
        ).format(n=number, start=self.start(battle), pairs=pairs, reports=reports)


def a_list(items):
    return "(%s)" % " ∷ ".join([*items, "[]"])


def choice(byte):
    if byte == 0:
        return "choices.Pass"
    return f"choices.Move {byte - 16}" if 16 <= byte < 32 else f"choices.Switch {byte - 32}"


def report(update):
    """The result of an update, as one number to base 256 after a leading 1."""
    return "0x" + (b"\1" + b"".join(part for _, part in recorded_parts(update))).hex()


def battle_modules():
    """Lib.antt and each module of battles with its text; modules of an earlier run have none."""
    lines, written = traces(recorded("traces.jsonl")), Written()
    folder = ROOT.joinpath("crates", *written.reports.path.split(".")[1:-1])
    lib, head = folder / "Lib.antt", written.head()
    files = {file: None for file in folder.glob("Battles*.antt")}
    numbers = [int(number) for number in BATTLES.split()]
    groups = [numbers[at : at + PER_MODULE] for at in range(0, len(numbers), PER_MODULE)]
    for number, group in enumerate(groups, 1):
        lemmas = [written.lemma(line, Battle("traces", line, lines[line])) for line in group]
        files[folder / f"Battles{number}.antt"] = head + "\n".join(lemmas)
    kept = [line for line in lib.read_text(encoding="utf-8").splitlines() if not re.match(r"mod Battles\d+$", line)]
    named = [f"mod Battles{number}" for number in range(1, len(groups) + 1)]
    return {**files, lib: "\n".join([*kept, *named]) + "\n"}


def public_modules(library, crate):
    """The specification modules of a crate, in the order in which its `Lib.antt` and the modules themselves name them."""
    folder = library.root / "crates" / crate / "specs"
    left = [(folder, name) for name in named_in(folder / "Lib.antt")]
    while left:
        inside, name = left.pop(0)
        file = inside / f"{name}.antt"
        yield ".".join(["Rattle", crate, *file.relative_to(folder.parent).with_suffix("").parts])
        left[:0] = [(inside / name, each) for each in named_in(file)]


def named_in(file):
    return re.findall(r"^pub mod (\w+)", file.read_text(encoding="utf-8"), re.M)


def computing():
    """The module that unfolds all definitions, with its text."""
    library = Library()
    reports = library.where("reports_of", "proofs").path.split(".")[1]
    below = library.below(reports)
    uses, names = [], []
    for crate in library.listed():
        for path in public_modules(library, crate) if crate in below and crate != reports else ():
            here = re.findall(r"^unfoldable pub (\S+) :", library.file_text(path), re.M)
            uses += [f"use {path}.{{{', '.join(here)}}}"] if here else []
            names += here
    return {library.where("computing", "proofs").file: COMPUTING % ("\n".join(uses), " ".join(names))}


def generated():
    """The text of each module."""
    return {**computing(), **battle_modules()}
