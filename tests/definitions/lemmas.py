"""Worked examples: lemmas `left ≡ right` that the checker proves by computing, several joined by `×`."""

from definitions import reading
from definitions.compiling import Scope
from definitions.machine import FAULTS
from definitions.reading import Apply, Name, Tuple

COMPUTED = "computing"


class Lemma:
    """A lemma that both sides of each of its equations compute to the same."""

    def __init__(self, definition, equations):
        self.definition, self.equations = definition, equations
        self.name = f"{definition.module.path.split('.')[-1]}.{definition.name}"

    def sides(self, compiler):
        """For each equation, two functions that compute its sides."""
        scope = Scope(self.definition, {})
        texts = [(compiler.python(left, scope), compiler.python(right, scope)) for left, right in self.equations]
        compiler.make_waiting()
        return [
            (eval(f"lambda: {left}", compiler.space), eval(f"lambda: {right}", compiler.space)) for left, right in texts
        ]


def equations_of(kind):
    """The equations that a type joins; none where it is another statement."""
    if isinstance(kind, Apply) and kind.infix and kind.function.word == "◌×◌":
        left, right = map(equations_of, kind.arguments)
        return left + right if left and right else []
    if isinstance(kind, Apply) and kind.infix and kind.function.word == "◌≡◌":
        return [tuple(kind.arguments)]
    return []


def is_by_computing(definition):
    """Whether a proof is only `refl`."""
    if len(definition.declared.clauses) != 1:
        return False
    at, text = definition.declared.clauses[0]
    body = reading.clause_of(text, at, definition.name)[1]
    items = body.items if isinstance(body, Tuple) else [body]
    return all(isinstance(item, Name) and item.word == "refl" for item in items)


def lemmas_of(module):
    """The worked examples of a module."""
    for definition in module.definitions.values():
        if "≡" in definition.declared.type_text and is_by_computing(definition):
            if equations := equations_of(definition.type()):
                yield Lemma(definition, equations)


def worked_modules(library):
    """The modules of proofs that compute with the definitions and that no tool generated."""
    for path in library.paths("proofs"):
        text = library.file_text(path)
        if f"\nunfolding {COMPUTED}\n" in text and "Made by tools/" not in text.partition("\n")[0]:
            yield library.module(path)


def worked_lemmas(library):
    """All worked examples of the repository."""
    return [lemma for module in worked_modules(library) for lemma in lemmas_of(module)]


def fault_of(sides):
    """Both sides of the first equation that does not hold; None where all hold."""
    for left, right in sides:
        try:
            made, wanted = left(), right()
        except FAULTS as fault:
            return repr(fault), "a value"
        if made != wanted:
            return made, wanted
    return None
