"""Reads antt: the declarations of a module, and the terms of one declaration when it is asked for, each with its place."""

import re
from dataclasses import dataclass, field


@dataclass
class Term:
    """A term between two offsets of its module's text."""

    start: int = field(default=0, kw_only=True)
    end: int = field(default=0, kw_only=True)


@dataclass
class Name(Term):
    """A name with its fields: `p.field.one` is `p` with `field` and `one`. The name of an operator contains its places."""

    word: str
    fields: list


@dataclass
class Number(Term):
    value: int


@dataclass
class Text(Term):
    value: str


@dataclass
class Apply(Term):
    """A function and its arguments; for an operator or `if` the function is a Name, with a mark that it was infix."""

    function: Term
    arguments: list
    infix: bool = False


@dataclass
class Lambda(Term):
    parameters: list
    body: Term


@dataclass
class Let(Term):
    name: str
    value: Term
    body: Term


@dataclass
class Elim(Term):
    """The cases of a value, each a pattern and a term."""

    value: Term
    cases: list


@dataclass
class Record(Term):
    """A record of these fields, or a base with these fields changed."""

    base: Term | None
    fields: list


@dataclass
class Tuple(Term):
    items: list


@dataclass
class Project(Term):
    """Fields of a term in parentheses."""

    value: Term
    fields: list


@dataclass
class Arrow(Term):
    """A function type, without the names that it binds."""

    left: Term | None
    right: Term


def parts(term):
    """The immediate subterms of a term."""
    match term:
        case Apply():
            return [term.function, *term.arguments]
        case Lambda():
            return [term.body]
        case Let():
            return [term.value, term.body]
        case Elim():
            return [term.value, *(body for _, body in term.cases)]
        case Record():
            return ([term.base] if term.base else []) + [value for _, value in term.fields]
        case Tuple():
            return term.items
        case Project():
            return [term.value]
        case Arrow():
            return [part for part in (term.left, term.right) if part]
    return []


def all_parts(term):
    """A term and all terms inside it, from the outside in."""
    yield term
    for part in parts(term):
        yield from all_parts(part)


# How an operator groups: its strength, and to which side (antt's library; "How a term groups" in its guide to contracts).
FIXITIES = {
    "^": (75, "right"),
    "*": (70, "left"),
    "/": (70, "left"),
    "%": (70, "left"),
    "∷": (67, "right"),
    "++": (65, "left"),
    "+": (65, "left"),
    "-": (65, "left"),
    "<": (50, "none"),
    "≤": (50, "none"),
    "==": (40, "none"),
    "&&": (35, "left"),
    "||": (30, "left"),
    "▸": (20, "right"),
    "≡": (4, "none"),
    "≢": (4, "none"),
    "×": (2, "right"),
    "⊎": (1, "right"),
    "→": (-1, "right"),
}
CONDITIONAL = "if◌then◌else◌"
IF_STRENGTH = 5

WORDS = re.compile(
    r'--[^\n]*|"(?:[^"\\]|\\.)*"|[(){};,@]|\.(?=\s)|\.[^\s(){}.;,@"«»]+(?:\.[^\s(){}.;,@"«»]+)*'
    r'|[^\s(){}.;,@"«»]+(?:\.[^\s(){}.;,@"«»]+)*|\S'
)
ENDS = {")", "}", "]", "|", "then", "else", "in", ";", ",", "↦", "=", ":", None}
DECLARATION = re.compile(
    r"(?:(?:pattern|unfoldable|abbrev|axiom|pub) )*(?P<name>[^\s(){}]+)(?: \{[^}]*\})? :\s(?P<type>.*)", re.S
)
USE = re.compile(r"(?:pub )?use ([^\s{]+?)(?:\.\{(.*)\}| as (\S+))?$", re.S)


class Unreadable(Exception):
    """A text is not antt as this module reads it."""


class Declaration:
    """A name, the text of its type, and the texts of its clauses, each with its offset in the module."""

    def __init__(self, name, type_text, at):
        self.name, self.type_text, self.at, self.clauses = name, type_text, at, []


def blocks(text):
    """The parts of a module that begin at the left edge, with their offsets; comments at the edge are left out."""
    found, offset = [], 0
    for line in text.splitlines(keepends=True):
        if line.strip() and not line.startswith("--"):
            if line[0] in " \t)}]" and found:
                at, block = found[-1]
                found[-1] = (at, text[at : offset + len(line)])
            else:
                found.append((offset, line))
        offset += len(line)
    return found


def outline(text):
    """The `use` lines of a module as (path, names, alias), and its declarations by name."""
    uses, declared, last = [], {}, None
    for at, block in blocks(text):
        if used := USE.match(block.strip()):
            names = [name.strip() for name in used[2].split(",")] if used[2] else []
            uses.append((used[1], names, used[3]))
        elif re.match(r"(pub )?(record|data|mod|infix[lr]?|unfolding)\b", block):
            continue
        elif signed := DECLARATION.match(block):
            last = declared[signed["name"]] = Declaration(signed["name"], signed["type"], at + signed.start("type"))
        elif last:
            last.clauses.append((at, block))
    return uses, declared


def words_of(text, offset):
    """The words of a text, each with its beginning and end."""
    return [
        (found[0], offset + found.start(), offset + found.end())
        for found in WORDS.finditer(text)
        if not found[0].startswith("--")
    ]


class Reader:
    """Reads terms from the words of a text."""

    def __init__(self, text, offset=0):
        self.words, self.at, self.last_end = words_of(text, offset), 0, offset

    def peek(self, ahead=0):
        place = self.at + ahead
        return self.words[place][0] if place < len(self.words) else None

    def take(self, wanted=None):
        if self.peek() is None or wanted is not None and self.peek() != wanted:
            raise Unreadable(f"{wanted or 'a word'} was expected, not {self.peek()}")
        word, _, self.last_end = self.words[self.at]
        self.at += 1
        return word

    def here(self):
        return self.words[self.at][1] if self.at < len(self.words) else self.last_end

    def placed(self, term, start):
        term.start, term.end = start, self.last_end
        return term

    def term(self, strength=-2):
        """A term whose operators bind at least this strongly."""
        start = self.here()
        left = self.operand()
        while (operator := self.peek()) in FIXITIES:
            binds, side = FIXITIES[operator]
            if binds < strength:
                break
            self.take()
            right = self.term(binds if side == "right" else binds + 1)
            made = Arrow(left, right) if operator == "→" else Apply(Name(f"◌{operator}◌", []), [left, right], True)
            left = self.placed(made, start)
        return left

    def operand(self):
        start, word = self.here(), self.peek()
        if word == "if":
            return self.placed(self.conditional(), start)
        if word == "λ":
            return self.placed(self.function(), start)
        if word == "let":
            return self.placed(self.local(), start)
        if word == "elim":
            return self.placed(self.cases(), start)
        return self.application()

    def application(self):
        start, function = self.here(), self.atom()
        arguments = []
        while self.peek() not in ENDS and self.peek() not in FIXITIES and self.peek() != "[":
            if self.peek() == "{":
                self.skip_braces()
                continue
            last = self.peek() in ("λ", "let")
            arguments.append(self.operand() if last else self.atom())
            if last:
                break
        return self.placed(Apply(function, arguments), start) if arguments else function

    def skip_braces(self):
        """An explicit value of an implicit argument."""
        depth = 0
        while True:
            depth += {"{": 1, "}": -1}.get(self.take(), 0)
            if depth == 0:
                return

    def conditional(self):
        self.take("if")
        test = self.term(IF_STRENGTH + 1)
        self.take("then")
        first = self.term(IF_STRENGTH + 1)
        self.take("else")
        return Apply(Name(CONDITIONAL, []), [test, first, self.term(IF_STRENGTH + 1)], True)

    def function(self):
        self.take("λ")
        parameters = []
        while self.peek() != ".":
            parameters += self.binder()
        self.take(".")
        return Lambda(parameters, self.term())

    def binder(self):
        """The names that one binder binds, its type left out."""
        if self.peek() != "(":
            return [self.take()]
        self.take("(")
        names = []
        while self.peek() != ":":
            names.append(self.take())
        self.take(":")
        self.term()
        self.take(")")
        return names

    def local(self):
        self.take("let")
        name = self.take()
        if self.peek() == ":":
            self.take(":")
            self.term()
        self.take("=")
        value = self.term()
        self.take("in")
        return Let(name, value, self.term())

    def cases(self):
        self.take("elim")
        value = self.application()
        self.take("[")
        cases = []
        while self.peek() != "]":
            if self.peek() == "|":
                self.take("|")
            pattern = self.application()
            self.take("↦")
            cases.append((pattern, self.term()))
        self.take("]")
        return Elim(value, cases)

    def atom(self):
        start, word = self.here(), self.peek()
        if word == "(":
            return self.placed(self.parenthesised(), start)
        if word == "record":
            return self.placed(self.record(), start)
        if word == "elim":
            return self.placed(self.cases(), start)
        if word in ENDS or word.startswith("."):
            raise Unreadable(f"a term was expected, not {word}")
        self.take()
        return self.placed(plain(word), start)

    def parenthesised(self):
        self.take("(")
        if self.binds():
            return self.binding()
        items = [self.term()]
        while self.peek() == ",":
            self.take(",")
            if self.peek() != ")":  # `rt fmt` ends a tuple of several lines by a comma
                items.append(self.term())
        self.take(")")
        inside = items[0] if len(items) == 1 else Tuple(items)
        if self.peek() and self.peek().startswith(".") and len(self.peek()) > 1:
            return Project(inside, self.take()[1:].split("."))
        return inside

    def binds(self):
        """Whether names and a colon follow: what a function type binds."""
        ahead = 0
        while (word := self.peek(ahead)) and word not in ENDS and word not in "({":
            ahead += 1
        return ahead > 0 and self.peek(ahead) == ":"

    def binding(self):
        """`(x y : A) → B` or `(x : A) × B`: A on the left once for each name."""
        names = []
        while self.peek() != ":":
            names.append(self.take())
        self.take(":")
        kind = self.term()
        self.take(")")
        if self.peek() != "→" and self.peek() != "(":
            raise Unreadable("a type that binds")
        if self.peek() == "→":
            self.take("→")
        made = self.term()
        for _ in names:
            made = Arrow(kind, made)
        return made

    def record(self):
        self.take("record")
        base = None if self.peek() == "{" else self.atom()
        self.take("{")
        fields = []
        while self.peek() != "}":
            name = self.take()
            self.take("=")
            fields.append((name, self.term()))
            if self.peek() == ";":
                self.take(";")
        self.take("}")
        return Record(base, fields)


def plain(word):
    """A number, a text, or a name with its fields."""
    if word[0] == '"':
        return Text(word[1:-1].encode().decode("unicode_escape"))
    if re.fullmatch(r"0x[0-9a-fA-F_]+|[0-9][0-9_]*", word):
        return Number(int(word.replace("_", ""), 0))
    first, *fields = word.split(".")
    return Name(first, fields)


def whole(text, offset=0):
    """The one term of a text."""
    reader = Reader(text, offset)
    term = reader.term()
    if reader.peek() is not None:
        raise Unreadable(f"{reader.peek()} stands behind the term")
    return term


def type_of(text, offset=0):
    """A type without its leading implicit arguments."""
    reader = Reader(text, offset)
    while reader.peek() == "{":
        reader.skip_braces()
        reader.take("→")
    return reader.term()


def clause_of(text, offset, name):
    """The patterns and the body of a clause of the definition of this name."""
    reader = Reader(text, offset)
    patterns = []
    while reader.peek() != "=":
        patterns.append(reader.atom())
    reader.take("=")
    body = reader.term()
    if reader.peek() is not None:
        raise Unreadable(f"{name}: {reader.peek()} stands behind the clause")
    return infix_patterns(patterns, name), body


def infix_patterns(patterns, name):
    """The patterns after the name; those of an operator between them, and the further ones in `(f ▸ g) p`."""
    first, *others = patterns
    if isinstance(first, Name) and first.word == name:
        return others
    if isinstance(first, Apply) and first.infix and first.function.word == name:
        return [*first.arguments, *others]
    if len(patterns) == 3 and isinstance(patterns[1], Name) and f"◌{patterns[1].word}◌" == name:
        return [patterns[0], patterns[2]]
    raise Unreadable(f"no clause of {name}")
