"""Mutants of definitions: one branch, constant, comparison or order changed at a time, found by the syntax of the clauses; and which
worked example or recorded update refuses each."""

from collections import Counter
from functools import cache

from definitions import reading
from definitions.compiling import spine
from definitions.coverage import Branches, updates_of
from definitions.machine import FAULTS, Machine
from definitions.modules import Constructor, Definition, Word
from definitions.reading import Apply, Elim, Name, Number, Record, all_parts

PRELUDE = "Rattle.std.specs.Prelude"
# The replacement of a word or an operator; `==` becomes `≤`.
OTHER_WORDS = {"nat_lt": "nat_le", "nat_le": "nat_lt", "min": "max", "max": "min"}
OTHER_OPERATORS = {"◌+◌": "-", "◌-◌": "+", "◌*◌": "+", "◌&&◌": "||", "◌||◌": "&&"}
# A list of more items than this is a table of docs/TABLES.md, and not a rule.
TABLE = 20


class Mutant:
    """A change of a clause: its family, the edits as (start, end, new text) in the module's text, and what they do in words."""

    def __init__(self, definition, family, edits, said):
        self.definition, self.family, self.edits, self.said = definition, family, edits, said
        self.name = f"{definition.name}: {said}"

    def line(self):
        """The number of the line in which it begins, from 1, and the line's text."""
        whole, start = self.definition.module.text, self.edits[0][0]
        return whole.count("\n", 0, start) + 1, whole[whole.rfind("\n", 0, start) + 1 :].partition("\n")[0].strip()

    def clauses(self):
        """The clauses of its definition, changed."""
        made = []
        for at, text in self.definition.declared.clauses:
            for start, end, new in sorted(self.edits, reverse=True):
                if at <= start and end <= at + len(text):
                    text = text[: start - at] + new + text[end - at :]
            if text.strip():
                made.append(reading.clause_of(text, at, self.definition.name))
        return made


class Finder:
    """The mutants of a definition, in the order of their places."""

    def __init__(self, definition, branches):
        self.definition, self.module, self.branches = definition, definition.module, branches
        self.found = []

    def add(self, family, term, text, said=None):
        said = said or f"`{self.plain(term)}` becomes `{text}`"
        self.found.append(Mutant(self.definition, family, [(term.start, term.end, text)], said))

    def of(self, term):
        return self.module.text[term.start : term.end]

    def plain(self, term):
        """A term's text on one line."""
        return " ".join(self.of(term).split())

    def all(self):
        clauses = self.definition.clauses()
        for patterns, body in clauses:
            if not is_table(body):
                for part in all_parts(body):
                    self.at(part)
        self.clauses(clauses)
        return sorted(self.found, key=lambda mutant: mutant.edits[0][0])

    def at(self, part):
        match part:
            case Number():
                self.add("constant", part, str(part.value + 1))
            case Name():
                self.name(part)
            case Elim():
                self.elim(part)
            case Record() if part.base is not None and len(part.fields) > 1:
                self.fields(part)
            case Apply():
                self.application(part)

    def name(self, part):
        found, fields = self.module.look_up(part.word, part.fields)
        if isinstance(found, Word) and found.name in OTHER_WORDS:
            self.add("comparison", part, self.standard(OTHER_WORDS[found.name]))
        if isinstance(found, Constructor) and not fields:
            if other := found.next():
                front = part.word + "." if part.fields else ""
                self.add("constant", part, front + other)
                if not front:
                    self.bring_in(part.word, other)

    def standard(self, word):
        """A word of the kit's library, which is imported."""
        self.module.names.setdefault(word, (PRELUDE, word))
        return word

    def bring_in(self, word, other):
        """A constructor of the same type, which the module may not import."""
        if word in self.module.names and self.module.own(other) is None:
            self.module.names.setdefault(other, (self.module.names[word][0], other))

    def elim(self, part):
        """The bodies of two cases that bind no name."""
        if len(part.cases) == 2 and all(isinstance(pattern, Name) for pattern, _ in part.cases):
            self.swap("branch", part.cases[0][1], part.cases[1][1])

    def swap(self, family, first, second):
        one, two = self.of(first), self.of(second)
        if one != two:
            edits = [(first.start, first.end, f"({two})"), (second.start, second.end, f"({one})")]
            said = f"`{self.plain(first)}` and `{self.plain(second)}` change places"
            self.found.append(Mutant(self.definition, family, edits, said))

    def fields(self, part):
        """A changed field is left unchanged."""
        for name, value in part.fields:
            self.add("branch", value, f"({self.of(part.base)}).{name}", f"`{name}` is left as it was")

    def application(self, part):
        head, arguments = spine(part)
        if not isinstance(head, Name) or part.function is not head:
            return
        if part.infix:
            self.operation(part, head.word, arguments)
            return
        found, _ = self.module.look_up(head.word, head.fields)
        if isinstance(found, Definition):
            self.call(part, found, arguments)
        elif isinstance(found, Word) and found.name == "not":
            self.add("branch", part, f"({self.of(arguments[0])})", f"`not` is left out of `{self.plain(part)}`")

    def operation(self, part, operator, arguments):
        first, second = arguments[:2]
        if operator == reading.CONDITIONAL:
            self.swap("branch", second, arguments[2])
        elif operator == "◌▸◌":
            self.sequence(part, first, second)
        elif operator == "◌==◌" and not is_zero(second):
            text = f"({self.standard('nat_le')} ({self.of(first)}) ({self.of(second)}))"
            self.add("comparison", part, text, f"in `{self.plain(part)}`, `==` becomes `≤`")
        elif operator in OTHER_OPERATORS:
            other = OTHER_OPERATORS[operator]
            self.standard(f"◌{other}◌")
            family = "branch" if operator in ("◌&&◌", "◌||◌") else "comparison"
            text = f"(({self.of(first)}) {other} ({self.of(second)}))"
            self.add(family, part, text, f"in `{self.plain(part)}`, `{operator.strip('◌')}` becomes `{other}`")

    def sequence(self, part, first, second):
        """Two phases in the other order, and each of them left out."""
        follows = isinstance(second, Apply) and second.infix and second.function.word == "◌▸◌"
        self.swap("order", first, second.arguments[0] if follows else second)
        self.add("branch", part, f"({self.of(second)})", f"`{self.plain(first)}` is left out")
        if not follows:
            self.add("branch", part, f"({self.of(first)})", f"`{self.plain(second)}` is left out")

    def call(self, part, found, arguments):
        """A choice with its test negated, and `other s` replaced by `s`."""
        test = self.branches.test_of(found)
        if test and test[0] < len(arguments) and not self.branches.test_of(self.definition):
            self.standard("not")
            condition = arguments[test[0]]
            text = f"(λ q. not (({self.of(condition)}) q))" if test[1] else f"(not ({self.of(condition)}))"
            self.add("branch", condition, text, f"`{self.plain(condition)}` is turned round")
        if found.name == "other" and len(arguments) == 1:
            self.add("constant", part, f"({self.of(arguments[0])})")

    def clauses(self, clauses):
        """A clause left out where a later one matches everything, or the bodies of two neighbors exchanged."""
        if len(clauses) < 2:
            return
        bound = [bound_by(self.module, patterns) for patterns, _ in clauses]
        takes_all = takes_anything(self.module, clauses[-1][0])
        for number, (at, text) in enumerate(self.definition.declared.clauses[:-1]):
            body, following = clauses[number][1], clauses[number + 1][1]
            if takes_all and self.of(body) != self.of(clauses[-1][1]):
                said = f"the clause `{' '.join(text.split())}` is left out"
                self.found.append(Mutant(self.definition, "branch", [(at, at + len(text.rstrip()), "")], said))
            elif not takes_all and bound[number] == bound[number + 1]:
                self.swap("branch", body, following)


def is_zero(term):
    """Whether a term is the number 0, for which `==` and `≤` are the same."""
    return isinstance(term, Number) and term.value == 0


def is_table(body):
    """Whether a term is a long list."""
    items = 0
    while isinstance(body, Apply) and isinstance(body.function, Name) and body.function.word == "◌∷◌":
        items, body = items + 1, body.arguments[1]
    return items > TABLE


def bound_by(module, patterns):
    """The names that patterns bind."""
    names = [part.word for pattern in patterns for part in all_parts(pattern) if isinstance(part, Name)]
    return {name for name in names if name != "_" and module.look_up(name)[0] is None}


def takes_anything(module, patterns):
    """Whether patterns are only names."""
    return all(
        isinstance(pattern, Name)
        and not isinstance(module.look_up(pattern.word, pattern.fields)[0], (Constructor, Word))
        for pattern in patterns
    )


def mutants_of(definitions):
    """All mutants of definitions, in their order; those of one definition with the same words get a number."""
    branches = Branches()
    found = [mutant for definition in definitions for mutant in Finder(definition, branches).all()]
    alike = Counter((mutant.definition.module.path, mutant.name) for mutant in found)
    seen = Counter()
    for mutant in found:
        key = (mutant.definition.module.path, mutant.name)
        seen[key] += 1
        if alike[key] > 1:
            mutant.name += f" ({seen[key]} of {alike[key]})"
    return found


class Trial:
    """A machine whose definitions are changed, one at a time, and an unchanged one.

    A mutant is tried only on what enters the branch that it changes: a worked example by both sides of its equations, a recorded update
    from the state before it. It is refused where a side of an equation has another value, or where the report of the update is not the
    recorded one. A change that leaves a side without a value refuses nothing.
    """

    def __init__(self, coverage):
        self.coverage, self.machine, self.as_is = coverage, Machine(), Machine()
        self.mutants = mutants_of(coverage.definitions)
        self.sides = [lemma.sides(self.machine.compiler) for lemma in coverage.lemmas]
        self.updates = cache(self.updates_played)

    def updates_played(self, number):
        """The updates of a battle by the unchanged machine."""
        return list(updates_of(self.as_is, self.coverage.battles[number]))

    def play_battles(self):
        """Plays all battles, which processes that are forked later share. Each of them would play nearly all."""
        for number in range(len(self.coverage.battles)):
            self.updates(number)

    def refusal(self, mutant):
        """What refuses a mutant; None where nothing does."""
        compiler = self.machine.compiler
        name, remembered = compiler.reference(mutant.definition), len(compiler.memories)
        before = compiler.space[name]
        compiler.make(mutant.definition, mutant.clauses())
        compiler.forget()
        try:
            return self.refused_by(mutant)
        finally:
            compiler.space[name] = before
            del compiler.memories[remembered:]
            compiler.forget()

    def refused_by(self, mutant):
        """The first worked example, or else the first recorded update, that refuses the mutant whose clauses are in place."""
        branches = self.coverage.around(mutant)
        for at in sorted({at for branch in branches for at in self.coverage.by_lemma[branch]}):
            if self.lemma_fails(at):
                return self.coverage.lemmas[at].name
        unreported = (mutant.definition.module.path, mutant.definition.name) in self.coverage.unreported
        for number, at in sorted({each for branch in branches for each in self.coverage.by_update[branch]}):
            if self.differs(self.updates(number)[at], unreported):
                return f"{self.coverage.battles[number].name}, update {at}"
        return None

    def lemma_fails(self, at):
        """Whether an equation of a worked example does not hold."""
        try:
            return any(left() != right() for left, right in self.sides[at])
        except FAULTS:
            return False

    def differs(self, update, unreported):
        """Whether the report of an update differs from the recorded one."""
        try:
            stepped = self.machine.step(update.state, *update.choices)
            if unreported and stepped == update.stepped:
                return False
            return self.machine.reported(update.state, update.view, stepped)[0] != update.wanted
        except FAULTS:
            return False
