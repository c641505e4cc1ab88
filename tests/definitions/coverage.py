"""The branches of definitions, which of them a computation enters, and which worked examples and recorded updates enter each.

A branch is a clause of a definition, a case of an `elim`, a side of an `if`, or a result of the test of a choice between two courses. Such
choices are `choose` and what is defined by it (`when`, `unless`, `only` and others); they are found by their definitions.
"""

import gc
import multiprocessing
from collections import defaultdict

from definitions.compiling import Compiler, spine
from definitions.lemmas import worked_lemmas
from definitions.machine import Machine, recorded_report
from definitions.reading import Apply, Elim, Lambda, Name


class Branch:
    """A branch: its definition, its place in the module's text, and its kind."""

    def __init__(self, definition, start, end, what):
        self.definition, self.start, self.end, self.what = definition, start, end, what

    def text(self):
        return " ".join(self.definition.module.text[self.start : self.end].split())

    def is_place_of(self, definition, start, end):
        """Whether it is a branch of a definition around a part of the text, other than a result of a test."""
        own = (self.definition.module.path, self.definition.name) == (definition.module.path, definition.name)
        return own and ":" not in self.what and self.start <= start and end <= self.end

    def key(self):
        return self.definition.module.path, self.definition.name, self.start, self.what


class Branches:
    """All branches that a compiler has met, each with a number, and the numbers that were entered."""

    def __init__(self):
        self.all, self.numbers, self.entered, self.tests = [], {}, set(), {}

    def attach(self, compiler):
        """Counts in the functions of a compiler, which must not have made a function yet."""
        compiler.space.update(enter=self.entered.add, noted=self.noted, noting=self.noting)

    def number(self, branch):
        """The number of a branch, a new one at its first use."""
        key = branch.key()
        if key not in self.numbers:
            self.numbers[key] = len(self.all)
            self.all.append(branch)
        return self.numbers[key]

    def clause(self, definition, number):
        """The number of a clause."""
        declared = definition.declared.clauses
        at, text = declared[number]
        what = "clause" if len(declared) > 1 else "definition"
        return self.number(Branch(definition, at, at + len(text.rstrip()), what))

    def case(self, definition, whole, number, body):
        """The number of a case of an `elim`, or of a side of an `if`."""
        what = f"case {number + 1}" if isinstance(whole, Elim) else ("then", "else")[number]
        return self.number(Branch(definition, body.start, body.end, what))

    def choice(self, inside, chooser, test):
        """The number of the side where a test holds, the other side having the next; None where the test is only passed on."""
        if self.test_of(inside) and not any(isinstance(part, Apply) for part in (test, body_of(test))):
            return None
        first = self.number(Branch(inside, test.start, test.end, f"{chooser.name}: holds"))
        self.number(Branch(inside, test.start, test.end, f"{chooser.name}: does not hold"))
        return first

    def again(self, computed):
        """A constant that enters at each use the branches of its computation."""
        own = set()

        def named():
            if not own:
                before = set(self.entered)
                self.entered.clear()
                computed()
                own.update(self.entered)
                self.entered.update(before)
            self.entered.update(own)
            return computed()

        return named

    def noted(self, number, holds):
        """Notes the result of a test."""
        self.entered.add(number if holds else number + 1)
        return holds

    def noting(self, number, test):
        """A test that notes its result."""
        return lambda value: self.noted(number, test(value))

    def test_of(self, definition):
        """The place of a definition's test, and whether it is a function; None where the definition makes no choice."""
        key = (definition.module.path, definition.name)
        if key not in self.tests:
            self.tests[key] = None
            self.tests[key] = self.found_test(definition)
        return self.tests[key]

    def found_test(self, definition):
        """The test of `choose`, which applies it to its argument, or of a definition that passes its own on to such a one."""
        clauses = definition.clauses()
        if len(clauses) != 1 or not all(isinstance(pattern, Name) for pattern in clauses[0][0]):
            return None
        patterns, body = clauses[0]
        places = {pattern.word: at for at, pattern in enumerate(patterns)}
        if isinstance(body, Elim):
            head, arguments = spine(body.value)
            chooses = {spine(pattern)[0].word for pattern, _ in body.cases} == {"true", "false"}
            return (
                (places[head.word], True) if chooses and arguments and head.word in places and not head.fields else None
            )
        head, arguments = spine(body)
        if not isinstance(head, Name) or head.word in places:
            return None
        found, _ = definition.module.look_up(head.word, head.fields)
        test = self.test_of(found) if hasattr(found, "declared") else None
        return self.passed_on(places, arguments[test[0]], test[1]) if test and test[0] < len(arguments) else None

    def passed_on(self, places, test, is_function):
        """Where a definition passes its own argument on as a test."""
        if isinstance(test, Name) and test.word in places and not test.fields:
            return places[test.word], is_function
        inner = body_of(test)
        if is_function and inner is not test and isinstance(inner, Name) and inner.word in places and not inner.fields:
            return places[inner.word], False
        return None


def body_of(term):
    """The body of a function that ignores its argument."""
    return term.body if isinstance(term, Lambda) and term.parameters == ["_"] else term


shared = None


def forked(jobs):
    """A pool of processes, which share all objects that exist. They make no cycles that a search for garbage would find."""
    gc.collect()
    gc.freeze()
    return multiprocessing.get_context("fork").Pool(jobs, gc.disable)


def entered_by(number):
    """The number of a battle, and the branches that each of its updates enters."""
    return number, shared.entered_by_battle(number)


class Update:
    """A recorded update: the state and the view before it, its choices, the computed step, and the recorded report."""

    def __init__(self, state, view, choices, stepped, wanted):
        self.state, self.view, self.choices, self.stepped, self.wanted = state, view, choices, stepped, wanted


def updates_of(machine, battle):
    """Plays a recorded battle, and yields each update."""
    for number, (update, (state, stepped)) in enumerate(zip(battle.line["updates"], machine.updates(battle))):
        view = view if number else machine.first_seen(state)
        yield Update(state, view, tuple(map(machine.choice, update["pair"])), stepped, recorded_report(update))
        _, view = machine.reported(state, view, stepped)


class Coverage:
    """What enters each branch of the step's definitions: worked examples by number, updates by battle and number."""

    def __init__(self, battles):
        self.branches = Branches()
        self.machine = Machine(branches=self.branches)
        self.battles, self.lemmas = battles, worked_lemmas(self.machine.library)
        self.by_lemma, self.by_update = defaultdict(list), defaultdict(list)
        self.definitions = self.used_by("step")
        reported = {(each.module.path, each.name) for each in self.used_by("report")}
        self.unreported = {(each.module.path, each.name) for each in self.definitions} - reported
        for number, lemma in enumerate(self.lemmas):
            for branch in self.entered_by_lemma(lemma):
                self.by_lemma[branch].append(number)

    def used_by(self, name):
        """A definition and those that it uses, from the top down."""
        compiler = Compiler(self.machine.library)
        compiler.value(self.machine.definition(name))
        return compiler.reached

    def entered(self):
        """The branches that were entered since this was last asked."""
        entered = sorted(self.branches.entered)
        self.branches.entered.clear()
        return entered

    def entered_by_lemma(self, lemma):
        sides = lemma.sides(self.machine.compiler)
        self.machine.compiler.forget()
        self.entered()
        if any(left() != right() for left, right in sides):
            raise ValueError(f"{lemma.name} does not hold")
        return self.entered()

    def entered_by_battle(self, number):
        """The branches that each update of a battle enters."""
        found = []
        self.entered()
        for at, update in enumerate(updates_of(self.machine, self.battles[number])):
            if self.machine.reported(update.state, update.view, update.stepped)[0] != update.wanted:
                raise ValueError(f"{self.battles[number].name}, update {at}: not as recorded")
            found.append(self.entered())
        return found

    def count_battles(self, jobs):
        """Plays all battles in several processes, and notes which branches their updates enter."""
        global shared
        shared = self
        with forked(jobs) as pool:
            found = dict(pool.imap_unordered(entered_by, range(len(self.battles))))
        for number in sorted(found):
            for at, branches in enumerate(found[number]):
                for branch in branches:
                    self.by_update[branch].append((number, at))

    def own_branches(self):
        """The numbers of the branches of the step's definitions, by module and place."""
        own = {(each.module.path, each.name) for each in self.definitions}
        numbers = [number for number, branch in enumerate(self.branches.all) if branch.key()[:2] in own]
        return sorted(
            numbers, key=lambda number: (self.branches.all[number].key()[0], self.branches.all[number].start, number)
        )

    def unentered(self):
        """A line for each branch of the step's definitions that nothing enters."""
        for number in self.own_branches():
            if not self.enters(number):
                branch = self.branches.all[number]
                yield f"nothing enters {branch.definition.name}, {branch.what}: {branch.text()}"

    def enters(self, branch):
        """The first worked example and the first recorded update that enter a branch, by their names."""
        lemmas = [self.lemmas[at].name for at in self.by_lemma[branch][:1]]
        updates = [f"{self.battles[number].name}, update {at}" for number, at in self.by_update[branch][:1]]
        return lemmas + updates

    def around(self, mutant):
        """The innermost branches around the edits of a mutant."""
        found = set()
        for start, end, _ in mutant.edits:
            found.add(
                min(
                    (branch.end - branch.start, number)
                    for number, branch in enumerate(self.branches.all)
                    if branch.is_place_of(mutant.definition, start, end)
                )[1]
            )
        return found
