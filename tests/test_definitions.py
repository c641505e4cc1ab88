"""Computes the definitions of the abstract machine apart from the prover: recorded battles, worked examples, and mutants.

    pytest tests/test_definitions.py -k battles                    every recorded battle, every update
    pytest tests/test_definitions.py -k worked                     both sides of every worked example
    pytest tests/test_definitions.py -k mutants                    a tenth of the mutants, which the commit checked out chooses
    pytest tests/test_definitions.py -k mutants --mutants all      all mutants; NAME: those of one definition; K/N: each N-th from the K-th

The definitions are read from crates/*/specs, beginning with `step`, and turned into Python (tests/definitions); no code of the repository
is run. Where a recorded battle has its updates, all of them are compared: refusal, result, offered choices, draws, log, all 384 bytes, and
the view of a spectator. For a run of the program, the printed lines are compared, and which pair was refused and how. In both kinds the
facts that the log makes public are compared with the state after each update. Lines that are not a battle are ignored.

A branch of a definition is a clause, a case of an `elim`, a side of an `if`, or a result of the test of a choice between two courses. Each
has to be entered by a worked example or a recorded update. A mutant changes one branch, constant, comparison or order of a definition. It
is refused by a worked example of which a side gets another value, or by a recorded update that comes out differently. One that nothing
refuses fails, unless tests/definitions/same_meaning.txt says why it means the same. An entry of that table whose mutant is refused or
doesn't exist fails too. `pytest -rP` shows a table of the mutants by module.
"""

import subprocess
from collections import Counter
from itertools import tee

import pytest
from definitions.coverage import Coverage, forked
from definitions.lemmas import fault_of, worked_lemmas
from definitions.machine import Machine, play
from definitions.mutants import Trial
from definitions.players import Players
from definitions.recorded import battles_in
from repository import ROOT, indented, processors

SAME = ROOT / "tests" / "definitions" / "same_meaning.txt"
FAMILIES = ("branch", "constant", "comparison", "order")
COLUMNS = (*FAMILIES, "by example", "by update", "same")
# What all processes of a pool share.
machine, players, played_battles, trial = None, None, [], None


def played(number):
    """The number of a battle, and its first difference. Each update is computed once."""
    battle = played_battles[number]
    first, second = tee(machine.updates(battle))
    return number, play(machine, battle, first) or players.fault(battle, second)


def test_battles(battles, compared):
    global machine, players, played_battles
    played_battles, machine = list(battles_in([battles])), Machine()
    players = Players(machine)
    longest_first = sorted(range(len(played_battles)), key=lambda number: -len(played_battles[number].pairs))
    with forked(processors()) as pool:
        faults = {number: fault for number, fault in pool.imap_unordered(played, longest_first) if fault}
    compared(len(played_battles), (f"{played_battles[number].name}: {faults[number]}" for number in sorted(faults)))


def test_worked_examples(compared):
    here = Machine()
    lemmas = worked_lemmas(here.library)
    assert lemmas
    sides = ((lemma, fault_of(lemma.sides(here.compiler))) for lemma in lemmas)
    compared(len(lemmas), [f"{lemma.name}: {it[0]}\n    is not {it[1]}" for lemma, it in sides if it])


def test_mutants(pytestconfig, battles, compared):
    part, meanings = pytestconfig.getoption("mutants"), indented(SAME)
    results, coverage = try_all(battles, part)
    assert results, f"no definition that the step uses is named {part}"
    print("\n".join(mutation_table(results, meanings)))
    faults, missed = list(faults_of(results, meanings, part == "all")), list(coverage.unentered())
    compared(len(results) + len(coverage.own_branches()), faults + missed)


def tried(number):
    """The number of a mutant, and what refuses it."""
    return number, trial.refusal(trial.mutants[number])


def chosen(mutants, part):
    """The numbers of the mutants of a part: all, a tenth, K/N, or those of one definition."""
    if part == "tenth":
        words = ["git", "rev-parse", "HEAD"]
        commit = subprocess.run(words, cwd=ROOT, capture_output=True, text=True).stdout.strip()
        part = f"{int(commit or '0', 16) % 10 + 1}/10"
    first, slash, every = ("1", "/", "1") if part == "all" else part.partition("/")
    if not slash:
        return [number for number, mutant in enumerate(mutants) if mutant.definition.name == part]
    if not (first.isdigit() and every.isdigit() and 1 <= int(first) <= int(every)):
        raise pytest.UsageError(f"--mutants {part}: a share is K/N, with K from 1 to N")
    return range(int(first) - 1, len(mutants), int(every))


def try_all(battles, part):
    """Each mutant of a part, with what refuses it; and the coverage."""
    global trial
    coverage = Coverage([battle for battle in battles_in([battles]) if battle.traced])
    coverage.count_battles(processors())
    trial = Trial(coverage)
    trial.play_battles()
    with forked(processors()) as pool:
        refused = dict(pool.imap_unordered(tried, chosen(trial.mutants, part), chunksize=4))
    return [(trial.mutants[number], refused[number]) for number in sorted(refused)], coverage


def faults_of(results, meanings, whole):
    """What is wrong with the results, a line each."""
    for mutant, refused in results:
        if not refused and not meanings.get(mutant.name):
            yield f"nothing refuses {mutant.family} {mutant.name}\n    {place_of(mutant)}: {mutant.line()[1]}"
        if refused and mutant.name in meanings:
            yield f"{refused} refuses what same_meaning.txt calls no change: {mutant.name}"
    if whole:
        for name in sorted(meanings.keys() - {mutant.name for mutant, _ in results}):
            yield f"same_meaning.txt names no mutant: {name}"


def place_of(mutant):
    return f"{mutant.definition.module.file.relative_to(ROOT)}:{mutant.line()[0]}"


def mutation_table(results, meanings):
    """Lines of a table by module, from (mutant, what refused it) of a run; and the mutants that mean the same, with the reason."""
    by_module = {}
    for mutant, refused in results:
        counts = by_module.setdefault(mutant.definition.module.path.removeprefix("Rattle."), Counter())
        counts[mutant.family] += 1
        counts["same" if not refused else "by update" if ", update " in refused else "by example"] += 1
    by_module = dict(sorted(by_module.items())) | {"all": sum(by_module.values(), Counter())}
    yield f"{'module':<36}" + "".join(f"{column:>12}" for column in COLUMNS)
    for module, counts in by_module.items():
        yield f"{module:<36}" + "".join(f"{counts[column]:>12}" for column in COLUMNS)
    yield "\nMutants that mean the same:"
    for mutant, refused in results:
        if not refused:
            yield f"{mutant.name}\n    {meanings.get(mutant.name, 'nothing refuses it')}"
