"""Makes a Python function of each definition, clause by clause, so that whole battles can be computed.

A definition is a function of as many arguments as its type has; type names such as `Phase` are replaced by their definitions. Functions
that are passed as values take one argument at a time. Arguments are computed before a call; cases and the second side of `&&`, `||` and `if`
only where they are reached. All definitions end, so this order changes no value.
"""

from collections import namedtuple
from functools import cache, lru_cache

from definitions import reading
from definitions.modules import Constructor, Definition, Kind, Word
from definitions.reading import Apply, Arrow, Elim, Lambda, Let, Name, Number, Project, Record, Term, Text, Tuple
from definitions.words import SPACE, WORDS

MEMORY = 1 << 16


class Unknown(Exception):
    """A name or a term that has no meaning here."""


class Unmatched(Exception):
    """No clause of a definition takes its arguments."""


class Made(Term):
    """A term that is Python already."""

    def __init__(self, text):
        super().__init__()
        self.text = text


class Scope:
    """The surroundings of a term: its definition, and the Python of each name that is bound there."""

    def __init__(self, definition, names):
        self.definition, self.module, self.names = definition, definition.module, names

    def with_names(self, more):
        return Scope(self.definition, {**self.names, **more})


def fields_of(text, fields):
    """The Python of fields of a value, by name or by place."""
    for field in fields:
        text += f"[{field}]" if field.isdigit() else f".{field}"
    return text


def spine(term):
    """A function and all its arguments, in order."""
    arguments = []
    while isinstance(term, Apply):
        arguments = [*term.arguments, *arguments]
        term = term.function
    return term, arguments


class Records:
    """The classes of records, one for each set of fields, and the methods that change fields."""

    def __init__(self, space):
        self.space, self.classes, self.changes = space, {}, set()

    def maker(self, fields):
        """The Python name that makes a record of these fields, and their order."""
        order = tuple(sorted(fields))
        if order not in self.classes:
            name = f"Record{len(self.classes)}"
            made = namedtuple(name, order)
            self.classes[order] = self.space[name] = made
            for change in self.changes:
                self.give(made, change)
        return self.classes[order].__name__, order

    def change(self, fields):
        """The method that changes these fields."""
        order = tuple(sorted(fields))
        if order not in self.changes:
            self.changes.add(order)
            for made in self.classes.values():
                self.give(made, order)
        return "with_" + "_and_".join(order), order

    def give(self, made, change):
        if set(change) <= set(made._fields):
            items = ", ".join(field if field in change else f"self[{at}]" for at, field in enumerate(made._fields))
            space = {"made": made, "new": tuple.__new__}
            exec(f"def changed(self, {', '.join(change)}): return new(made, ({items},))", space)
            setattr(made, "with_" + "_and_".join(change), space["changed"])


class Compiler:
    """The definitions of a library, each translated to Python at its first use."""

    def __init__(self, library, branches=None):
        self.library, self.branches = library, branches
        self.space = {**SPACE, "Unmatched": Unmatched}
        self.records = Records(self.space)
        self.names, self.arities, self.waiting, self.memories, self.fresh = {}, {}, [], [], 0
        self.reached = []  # the definitions that were named, from the top down

    # ---- names

    def reference(self, definition):
        """The Python name of a definition, which is translated if it isn't yet."""
        key = (definition.module.path, definition.name)
        if key not in self.names:
            plain = "".join(letter if letter.isalnum() and letter.isascii() else "_" for letter in definition.name)
            self.names[key] = f"{plain}_{len(self.names)}"
            self.waiting.append(definition)
            self.reached.append(definition)
        return self.names[key]

    def variable(self):
        self.fresh += 1
        return f"v{self.fresh}"

    def arity(self, definition):
        """How many arguments a definition takes."""
        key = (definition.module.path, definition.name)
        if key not in self.arities:
            self.arities[key] = len(self.arguments(definition.module, definition.type()))
        return self.arities[key]

    def arguments(self, module, kind):
        """The types of the arguments of a type, each with its module; a name of a function type is replaced by its definition."""
        if isinstance(kind, Arrow):
            return [(module, kind.left), *self.arguments(module, kind.right)]
        if isinstance(kind, Name):
            found, _ = module.look_up(kind.word, kind.fields)
            if isinstance(found, Definition) and found.declared.type_text.startswith("Type "):
                return self.arguments(found.module, found.clauses()[0][1])
        return []

    def is_plain(self, module, kind):
        """Whether a type's values are small: numbers, tests, enumerations, and lists of numbers."""
        head, arguments = spine(kind)
        if not isinstance(head, Name):
            return False
        found, _ = module.look_up(head.word, head.fields)
        if isinstance(found, Word):
            return found.name in ("ℕ", "Bool") or found.name == "List" and self.is_plain(module, arguments[0])
        return isinstance(found, Kind) and found.name != "Event"

    def remembers(self, definition):
        """Whether the values of a definition are cached."""
        kinds = self.arguments(definition.module, definition.type())
        return bool(kinds) and self.branches is None and all(self.is_plain(*kind) for kind in kinds)

    # ---- definitions

    def value(self, definition):
        """A definition as a value of Python: a function of one argument at a time."""
        text = self.whole(definition, [], Scope(definition, {}))
        self.make_waiting()
        return eval(text, self.space)

    def make_waiting(self):
        while self.waiting:
            self.make(self.waiting.pop())

    def make(self, definition, clauses=None):
        """The Python function of a definition; other clauses may replace its own."""
        name, source = self.names[definition.module.path, definition.name], self.source(definition, clauses)
        exec(compile(source, f"{definition.module.path}.{definition.name}", "exec"), self.space)
        if self.arity(definition) == 0:
            self.space[name] = self.constant(cache(self.space[name]))
        elif self.remembers(definition):
            self.space[name] = lru_cache(MEMORY)(self.space[name])
            self.memories.append(self.space[name])

    def constant(self, computed):
        """A definition without arguments, computed once; where branches are counted it enters its own each time."""
        self.memories.append(computed)
        return computed if self.branches is None else self.branches.again(computed)

    def forget(self):
        """Empties the caches."""
        for memory in self.memories:
            memory.cache_clear()

    def source(self, definition, clauses=None):
        clauses = definition.clauses() if clauses is None else clauses
        given = [f"a{at}" for at in range(self.arity(definition))]
        lines = [f"def {self.reference(definition)}({', '.join(given)}):"]
        for number, (patterns, body) in enumerate(clauses):
            lines += self.clause(Scope(definition, {}), number, patterns, body, given)
        if lines[-1].lstrip() != "raise Unmatched":
            lines.append("    raise Unmatched")
        return "\n".join(lines)

    def clause(self, scope, number, patterns, body, given):
        conditions, names = [], {}
        for pattern, text in zip(patterns, given):
            self.match(scope, pattern, text, conditions, names)
        indent = "        " if conditions else "    "
        lines = [f"    if {' and '.join(conditions)}:"] if conditions else []
        if self.branches is not None:
            lines.append(f"{indent}enter({self.branches.clause(scope.definition, number)})")
        for name, text in names.items():
            if not text.isidentifier():
                names[name] = self.variable()
                lines.append(f"{indent}{names[name]} = {text}")
        extra = [Made(text) for text in given[len(patterns) :]]
        return lines + self.statements(body, extra, scope.with_names(names), indent)

    def match(self, scope, pattern, text, conditions, names):
        """The conditions on a value for a pattern, and the Python of the pattern's names."""
        head, inner = spine(pattern)
        if isinstance(head, Tuple):
            for at, item in enumerate(head.items):
                self.match(scope, item, f"{text}[{at}]", conditions, names)
            return
        if isinstance(head, Number):
            conditions.append(f"{text} == {head.value}")
            return
        found, _ = scope.module.look_up(head.word, head.fields)
        if isinstance(found, Constructor):
            self.match_constructor(scope, found, inner, text, conditions, names)
        elif isinstance(found, Word):
            self.match_word(scope, found.name, inner, text, conditions, names)
        elif head.word != "_":
            names[head.word] = text

    def match_constructor(self, scope, found, inner, text, conditions, names):
        if found.name in ("true", "false"):
            conditions.append(text if found.name == "true" else f"not {text}")
            return
        conditions.append(f'{text}[0] == "{found.name}"')
        for at, part in enumerate(inner, 1):
            self.match(scope, part, f"{text}[{at}]", conditions, names)

    def match_word(self, scope, word, inner, text, conditions, names):
        match word:
            case "zero":
                conditions.append(f"{text} == 0")
            case "suc":
                conditions.append(f"{text} > 0")
                self.match(scope, inner[0], f"({text} - 1)", conditions, names)
            case "[]":
                conditions.append(f"not {text}")
            case "◌∷◌":
                conditions.append(text)
                self.match(scope, inner[0], f"{text}[0]", conditions, names)
                self.match(scope, inner[1], f"{text}[1:]", conditions, names)
            case _:
                raise Unknown(f"{word} in a pattern")

    # ---- terms

    def statements(self, term, extra, scope, indent):
        """The statements that return a term's value, applied to more arguments."""
        head, arguments = spine(term)
        arguments = [*arguments, *extra]
        if isinstance(head, Elim):
            return self.elim_statements(head, arguments, scope, indent)
        if isinstance(head, Let):
            name = self.variable()
            first = f"{indent}{name} = {self.python(head.value, scope)}"
            return [first, *self.statements(head.body, arguments, scope.with_names({head.name: name}), indent)]
        if isinstance(head, Lambda) and arguments:
            return self.statements(*self.bound(head, arguments, scope), indent)
        if isinstance(head, Name) and head.word == reading.CONDITIONAL:
            test, first, second, *more = arguments
            lines = [f"{indent}if {self.python(test, scope)}:"]
            lines += self.branch_statements(term, 0, first, more, scope, indent + "    ")
            return lines + self.branch_statements(term, 1, second, more, scope, indent)
        return [f"{indent}return {self.applied(head, arguments, scope)}"]

    def branch_statements(self, whole, number, term, extra, scope, indent):
        lines = []
        if self.branches is not None:
            lines.append(f"{indent}enter({self.branches.case(scope.definition, whole, number, term)})")
        return lines + self.statements(term, extra, scope, indent)

    def elim_statements(self, elim, extra, scope, indent):
        value = self.variable()
        lines = [f"{indent}{value} = {self.python(elim.value, scope)}"]
        for number, (pattern, body) in enumerate(elim.cases):
            conditions, names = [], {}
            self.match(scope, pattern, value, conditions, names)
            lines.append(f"{indent}if {' and '.join(conditions) or True}:")
            lines += self.branch_statements(elim, number, body, extra, scope.with_names(names), indent + "    ")
        return [*lines, f"{indent}raise Unmatched"]

    def python(self, term, scope):
        """A term as an expression of Python."""
        match term:
            case Made():
                return term.text
            case Number():
                return str(term.value)
            case Text():
                return repr(term.value)
            case Lambda():
                return self.function(term.parameters, term.body, scope)
            case Let():
                name = self.variable()
                inside = self.python(term.body, scope.with_names({term.name: name}))
                return f"({name} := {self.python(term.value, scope)}, {inside})[1]"
            case Elim():
                return self.elim(term, [], scope)
            case Record():
                return self.record(term, scope)
            case Tuple():
                return f"({', '.join(self.python(item, scope) for item in term.items)},)"
            case Project():
                return fields_of(self.python(term.value, scope), term.fields)
        head, arguments = spine(term)
        return self.applied(head, arguments, scope)

    def function(self, parameters, body, scope):
        if not parameters:
            return self.python(body, scope)
        name = self.variable()
        inside = self.function(parameters[1:], body, scope.with_names({parameters[0]: name}))
        return f"(lambda {name}: {inside})"

    def bound(self, function, arguments, scope):
        """The body of a function, the remaining arguments, and the scope in which its parameters are the arguments."""
        name, *others = function.parameters
        inside = scope.with_names({name: self.python(arguments[0], scope)})
        body = Lambda(others, function.body) if others else function.body
        return body, [Made(self.python(each, scope)) for each in arguments[1:]], inside

    def record(self, term, scope):
        given = {name: self.python(value, scope) for name, value in term.fields}
        if term.base is None:
            maker, order = self.records.maker(given)
            return f"{maker}({', '.join(given[name] for name in order)})"
        change, order = self.records.change(given)
        return f"{self.python(term.base, scope)}.{change}({', '.join(given[name] for name in order)})"

    def elim(self, elim, extra, scope):
        value = self.variable()
        cases = []
        for number, (pattern, body) in enumerate(elim.cases):
            conditions, names = [], {}
            self.match(scope, pattern, value, conditions, names)
            inside = self.branch(elim, number, body, extra, scope.with_names(names))
            cases.append((" and ".join(conditions), inside))
        text = cases[-1][1]
        for condition, inside in reversed(cases[:-1]):
            text = f"({inside} if {condition} else {text})"
        return f"({value} := {self.python(elim.value, scope)}, {text})[1]"

    def branch(self, whole, number, term, extra, scope):
        head, arguments = spine(term)
        text = self.applied(head, [*arguments, *extra], scope) if extra else self.python(term, scope)
        if self.branches is None:
            return text
        return f"(enter({self.branches.case(scope.definition, whole, number, term)}) or {text})"

    def applied(self, head, arguments, scope):
        """A function applied to zero or more arguments."""
        if not isinstance(head, Name):
            return self.applied_term(head, arguments, scope)
        if head.word in scope.names:
            return self.called(fields_of(scope.names[head.word], head.fields), arguments, scope)
        if head.word == reading.CONDITIONAL:
            test, first, second, *more = arguments
            chosen = [
                self.branch(Apply(head, arguments[:3]), at, each, more, scope)
                for at, each in enumerate((first, second))
            ]
            return f"({chosen[0]} if {self.python(test, scope)} else {chosen[1]})"
        found, fields = scope.module.look_up(head.word, head.fields)
        if isinstance(found, Definition):
            if fields:
                return self.called(fields_of(self.whole(found, [], scope), fields), arguments, scope)
            return self.whole(found, arguments, scope)
        if isinstance(found, Constructor):
            return self.constructed(found, arguments, scope)
        if isinstance(found, Word) and found.name in WORDS:
            return self.word(found.name, arguments, scope)
        raise Unknown(f"{scope.module.path}.{scope.definition.name}: {head.word}")

    def applied_term(self, head, arguments, scope):
        if arguments and isinstance(head, Elim):
            return self.elim(head, [Made(self.python(each, scope)) for each in arguments], scope)
        if arguments and isinstance(head, Lambda):
            body, more, inside = self.bound(head, arguments, scope)
            inner, others = spine(body)
            return self.applied(inner, [*others, *more], inside)
        return self.called(self.python(head, scope), arguments, scope)

    def called(self, text, arguments, scope):
        """A function value, applied to one argument after the other."""
        return text + "".join(f"({self.python(each, scope)})" for each in arguments)

    def missing(self, count, given, complete):
        """A function of the missing arguments; `complete` makes the call from the Python of all."""
        names = [self.variable() for _ in range(count - len(given))]
        text = complete([*given, *names])
        for name in reversed(names):
            text = f"(lambda {name}: {text})"
        return text

    def whole(self, definition, arguments, scope):
        """A definition applied to arguments; with too few it is a function of the others."""
        name, count = self.reference(definition), self.arity(definition)
        given = [self.python(each, scope) for each in arguments[:count]]
        if self.branches is not None and (test := self.branches.test_of(definition)) and test[0] < len(given):
            given[test[0]] = self.tested(definition, test, arguments, given, scope)
        if not given and count == 1:
            return name
        if len(given) < count:
            return self.missing(count, given, lambda texts: f"{name}({', '.join(texts)})")
        return self.called(f"{name}({', '.join(given)})", arguments[count:], scope)

    def tested(self, definition, test, arguments, given, scope):
        """The test of a choice, which notes its result."""
        at, is_function = test
        number = self.branches.choice(scope.definition, definition, arguments[at])
        if number is None:
            return given[at]
        return f"{'noting' if is_function else 'noted'}({number}, {given[at]})"

    def constructed(self, found, arguments, scope):
        if found.name in ("true", "false"):
            return found.name.capitalize()
        given = [self.python(each, scope) for each in arguments]
        return self.missing(found.holds, given, lambda texts: f"({', '.join([repr(found.name), *texts])},)")

    def word(self, name, arguments, scope):
        count, text = WORDS[name]
        if name == "◌∷◌" and len(arguments) == 2:
            return self.list(arguments, scope)
        if name in ("◌/◌", "◌%◌") and len(arguments) == 2 and isinstance(arguments[1], Number) and arguments[1].value:
            text = "({0} // {1})" if name == "◌/◌" else "({0} % {1})"
        given = [self.python(each, scope) for each in arguments[:count]]
        made = self.missing(count, given, lambda texts: text.format(*texts))
        return self.called(made, arguments[count:], scope)

    def list(self, arguments, scope):
        """A list, its items one after the other."""
        items, rest = [], Apply(Name("◌∷◌", []), arguments, True)
        while isinstance(rest, Apply) and isinstance(rest.function, Name) and rest.function.word == "◌∷◌":
            items.append(self.python(rest.arguments[0], scope))
            rest = rest.arguments[1]
        end = "" if isinstance(rest, Name) and rest.word == "[]" else f"*{self.python(rest, scope)}"
        return f"({', '.join(items)}, {end})"
