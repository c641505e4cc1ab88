"""Reads which sections of the documents the comments of a file cite, as in (docs/MECHANICS.md, "Hit test").

A function, a type, a lemma or a test belongs to the sections that its comment cites. One that cites none belongs to those of
the type that it is a method of, or of the functions of its file that call it, or else to those that the head of its file
cites, or the head of the module around it. `"Damage numbers" to "Factors"` cites each section between.
"""

import re
import sys
from functools import cache
from typing import NamedTuple

from repository import ROOT

# The documents whose sections files implement, in the order of tools/rules.
DOCUMENTS = (
    "docs/MECHANICS.md",
    "docs/TABLES.md",
    "docs/LAYOUT.md",
    "docs/TEAM_TEXT.md",
    "docs/PROGRAM.md",
    "include/gen1.h",
)
# Sections about the program gen1 alone, which has no crate.
OF_GEN1 = (
    "The program gen1",
    "Text in place of JSON",
    "Objects",
    "JSON Lines",
    "Damage in words",
    "state and explain",
    "team and names",
    "play, replay and bench",
    "Showdown's battle log",
    "showdown",
    "Requests",
    "follow",
    "A battle to search",
    "gen1 team",
)
# Titles, sections that explain words or summarize others, and those about gen1 alone.
CARRIED_BY_NONE = (
    "The rules of battle",
    "What is modelled",
    "Words",
    "A battle in ten sentences",
    "Tables",
    "Teams as text",
    "The command line",
    "Subcommands",
    *OF_GEN1,
)
HEADINGS = {".md": r"(?m)^(#+) (.*)$", ".h": r"(?m)^/\* (--)-- (.*) ---- \*/$"}
CITED = re.compile(rf'({"|".join(map(re.escape, DOCUMENTS))})((?:(?:,| and| to|, and)? ?"[^"]+")+)')
COMMENT = re.compile(r"\s*(?://[/!]?|--)\s?(.*)")
FUNCTION = re.compile(r"\s*(?:pub(?:\([a-z]+\))? )?(?:const |extern \"C\" )?fn (\w+)")
CONSTANT = re.compile(r"(?:static|const) (\w+)")
ITEM = re.compile(r"(?:pub(?:\([a-z]+\))? )?(?:static|const|enum|struct|impl)\b")


class Section(NamedTuple):
    """A section of a document."""

    document: str
    name: str


@cache
def sections(document):
    """The sections of a document that files may implement, in their order, each with its depth, 2 or 3."""
    path = ROOT / document
    found = re.findall(HEADINGS[path.suffix], path.read_text())
    return {Section(document, name): max(len(marks), 2) for marks, name in found if name not in CARRIED_BY_NONE}


def cited(comment):
    """The sections that a comment cites."""
    found = []
    for document, names in CITED.findall(comment):
        order, last = [*sections(document)], None
        for link, name in re.findall(r'( to)? ?"([^"]+)"', names):
            section = Section(document, name)
            if section not in order and name not in CARRIED_BY_NONE:
                sys.exit(f'a comment cites {document}, "{name}", which is not a section of it')
            if link and last:
                found += order[order.index(last) + 1 : order.index(section)]
            found.append(section)
            last = section
    return [section for section in found if section.name not in CARRIED_BY_NONE]


class Source:
    """A file, with the sections that its lines belong to by their comments."""

    def __init__(self, file):
        self.file = file
        self.lines = file.read_text().splitlines()
        self.head = self.sections_of(self.comment_at(0)) or self.head_around()

    def head_around(self):
        """The sections that the head of the module cites whose folder contains the file."""
        around = self.file.parent.with_suffix(self.file.suffix)
        return Source(around).head if around.is_file() else []

    def sections_of(self, comment):
        return cited(" ".join(comment))

    def comment_at(self, at):
        """The comment whose first line this is."""
        lines = []
        while at < len(self.lines) and (found := COMMENT.fullmatch(self.lines[at])):
            lines.append(found[1])
            at += 1
        return lines

    def comment_above(self, at):
        """The comment above a line and its attributes."""
        while at and re.match(r"\s*#\[", self.lines[at - 1]):
            at -= 1
        end = at
        while at and COMMENT.fullmatch(self.lines[at - 1]):
            at -= 1
        return [COMMENT.fullmatch(line)[1] for line in self.lines[at:end]] if at else []

    def documented(self, at):
        """The comment of an item, with the item's own line."""
        return "\n".join([*self.comment_above(at), *self.lines[at : at + 2]])

    def paragraph(self, at):
        """The lines of antt from a line up to the next empty one, with the comment right above."""
        end = next((below for below in range(at, len(self.lines)) if not self.lines[below].strip()), len(self.lines))
        return "\n".join([*self.comment_above(at), *self.lines[at:end]])

    def own(self, at):
        """The sections of an item."""
        return self.cited_at(at) or self.callers_of(at) or self.head

    def cited_at(self, at):
        """The sections that the comment of an item cites, or that of the type whose method it is."""
        return self.sections_of(self.comment_above(at)) or self.type_around(at)

    def callers_of(self, at):
        """The sections of the functions in the file that call this one, directly or through helpers."""
        places, bodies = self.bodies()
        named = FUNCTION.match(self.lines[at]) or CONSTANT.match(self.lines[at])
        left, seen, found = [named[1]] if named else [], set(), []
        while left:
            name = left.pop()
            seen.add(name)
            for caller in [caller for caller, words in bodies.items() if name in words and caller not in seen]:
                around = self.cited_at(places[caller])
                found += around
                left += [] if around else [caller]
        return found

    def bodies(self):
        """The line of each function, and the words of its body."""
        places, bodies = {}, {}
        for place, line in enumerate(self.lines):
            if name := FUNCTION.match(line):
                current = name[1]
                places[current], bodies[current] = place, set()
            elif bodies and not COMMENT.fullmatch(line) and not line.lstrip().startswith(("ensures", "requires")):
                bodies[current].update(re.findall(r"\w+", line))
        return places, bodies

    def type_around(self, at):
        """The sections of the type whose `impl` is around an item of the code."""
        if not self.lines[at].startswith(" "):
            return []
        above = next((line for line in reversed(self.lines[:at]) if line.startswith("impl")), "")
        name = re.search(r"(\w+)(?:<[^{]*>)?(?: \{)?$", above)
        places = [
            at for at, line in enumerate(self.lines) if name and re.match(rf"pub (?:struct|enum) {name[1]}\b", line)
        ]
        return self.sections_of(self.comment_above(places[0])) if places else []

    def block(self, at):
        """The sections of a line of antt: those of the last comment above it that cites any, or of the head."""
        while at > 0:
            at -= 1
            if COMMENT.fullmatch(self.lines[at]) and not (at and COMMENT.fullmatch(self.lines[at - 1])):
                if found := self.sections_of(self.comment_at(at)):
                    return found
        return self.head

    def place_of(self, text):
        """The line on which a text begins that is once in the file."""
        return "\n".join(self.lines).split(text)[0].count("\n")

    def item_around(self, at):
        """The line of the function, table or type around a line of code."""
        for above in range(at, -1, -1):
            if FUNCTION.match(self.lines[above]) or ITEM.match(self.lines[above]):
                return above
        return 0
