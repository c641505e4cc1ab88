"""Tries edits of a crate: many in one check where they change the bodies of different functions, and the others alone.

A function is proved from the contracts of those that it calls, whatever their bodies are. So an edit in a body opens goals of that
function alone. For a function that calls it, the prover prints that the called function is not proved. Where such a caller has an edit
too, and none of the caller's goals is open, that edit waits for the next round. A round is a check of the edited functions and of those
that they call.

An edit of something other than bodies, such as a constant, names by a line `only: FUNCTION` the function that must be refused. Without one
it is tried alone, by a check of the whole crate. So is an edit that a round does not refuse.
"""

import re
import shutil
import tempfile
import time
from contextlib import contextmanager
from pathlib import Path
from typing import NamedTuple

from plain_tokens import Unknown, partners, tokens_of
from repository import Edit, clock, edited
from rt_crates import checked

PARTS = ("src", "specs", "proofs")
VERDICT = re.compile(r"fn \w+?::(\S+): (.*)")
# A function that is not proved, by itself or because of another one that isn't.
NOT_PROVED = re.compile(r"not proved|no proof: ")
FOR_ANOTHER = re.compile(r"it (?:calls|passes) .*not proved")
# The goals of a function, which the prover names right before its verdict, and the errors of proofs, which it prints before all verdicts.
NOTE = re.compile(r"note: (src/\S+:\d+:\d+: it is not proved that .*)")
ERROR = re.compile(r"(?:\./)?((?:src|specs|proofs)/\S+:\d+:\d+: error: .*)")
# An error that says that a text cannot be read, and not that it is false.
UNREAD = re.compile(
    r"(?:src|specs)/\S+?:\d+:\d+: error: "
    r"(?!`[^`]*`: (?!.*(?:is not in scope|has no field|is no name|operand is missing|expected the end|cannot continue)))"
)
# An error that says only that a name is gone, or that a proof rests on another one that is refused.
NAMES = re.compile(r"has no field|is not in scope|has no `|was not admitted")
LIMIT = re.compile(r"rattle: no verdict.*")
NAMED = re.compile(r"(?m)^only: (\S+)$")


class Tried(NamedTuple):
    """The result of an edit: 'refused', 'PROVED' or 'NOT APPLIED', and what the prover said of it."""

    edit: Edit
    word: str
    why: str


@contextmanager
def copy_of(crate):
    """A copy of a crate's texts, which is removed at the end."""
    with tempfile.TemporaryDirectory(prefix="edit-") as room:
        for part in PARTS:
            if (Path(crate.folder) / part).is_dir():
                shutil.copytree(Path(crate.folder) / part, Path(room) / part)
        yield Path(room)


def apply(folder, edit):
    """Whether an edit could be applied to the texts in a folder."""
    texts = edited(folder, edit)
    for file, text in texts[1].items() if texts else ():
        file.write_text(text)
    return bool(texts)


def bodies(text, file):
    """The lines of the body of each function of a file, by the function's path. Those of no body have the key ''."""
    lines, found = text.split("\n"), {}
    for function in functions_of(text, file):
        own = range(function.first - 1, function.last)
        found.setdefault(function.path, []).extend(lines[at] for at in own)
        lines[own.start : own.stop] = [""] * len(own)
    return {**found, "": [line for line in lines if line]}


def functions_in(folder, edit):
    """The functions whose bodies an edit changes, or that it names; none where it changes something else, or cannot be applied."""
    if named := NAMED.findall(edit.text):
        return set(named)
    found = set()
    before, after = edited(folder, edit) or ({}, {})
    for file in before:
        try:
            one, other = (bodies(texts[file], str(file.relative_to(folder))) for texts in (before, after))
        except Unknown:
            return set()
        if file.suffix != ".rt" or one.keys() != other.keys() or one[""] != other[""]:
            return set()
        found.update(path for path in one if one[path] != other[path])
    return found


def together(waiting):
    """The edits for one round, out of edits with their functions: no two edit the same function."""
    taken, chosen = set(), {}
    for edit, functions in waiting.items():
        if not taken & functions:
            taken |= functions
            chosen[edit] = functions
    return chosen


class Said(NamedTuple):
    """What the prover says of a function: its verdict, and the first of its goals that is open."""

    verdict: str = ""
    goal: str = ""

    def is_refused(self):
        return NOT_PROVED.match(self.verdict) and self.goal

    def waits(self):
        return FOR_ANOTHER.search(self.verdict) and not self.goal


def said_of(lines):
    """What the lines that a check prints say of each function."""
    found, errors, goal = {}, [], ""
    for line in lines:
        if verdict := VERDICT.fullmatch(line):
            own = f"proofs/{verdict[1].replace('::', '/')}/"
            found[verdict[1]] = Said(verdict[2], goal or next((it for it in errors if it.startswith(own)), ""))
            goal = ""
        elif shown := NOTE.fullmatch(line):
            goal = goal or shown[1]
        elif (shown := ERROR.fullmatch(line)) and not NAMES.search(line):
            errors.append(shown[1])
    return found


def check_together(crate, edits, kept):
    """Checks the functions of these edits with all edits applied; returns for each edit what the prover says of its functions.

    An edit that the compiler rejects leaves the prover nothing to say of the others, so these are checked again by halves.
    """
    with copy_of(crate) as room:
        applied = {edit: functions for edit, functions in edits.items() if apply(room, edit)}
        only = [word for path in sorted(set().union(*applied.values())) for word in ("--only", path)]
        said = said_of(checked(crate, room, "--incremental", kept, *only)[1].splitlines())
    if said or len(applied) < 2:
        return {edit: [said.get(path, Said()) for path in functions] for edit, functions in applied.items()}
    them, half = [*applied.items()], len(applied) // 2
    return check_together(crate, dict(them[:half]), kept) | check_together(crate, dict(them[half:]), kept)


def try_in_rounds(crate, edits):
    """Tries edits of a crate in rounds; returns those that were refused, as Tried, and the edits that are left."""
    places = {edit: functions_in(Path(crate.folder), edit) for edit in edits}
    waiting = {edit: functions for edit, functions in places.items() if functions}
    refused, left = [], [edit for edit in edits if edit not in waiting]
    with tempfile.TemporaryDirectory(prefix="kept-") as kept:
        while waiting:
            batch = together(waiting)
            said = check_together(crate, batch, kept)
            goals = {
                edit: goal
                for edit, them in said.items()
                if (goal := next((it.goal for it in them if it.is_refused()), ""))
            }
            refused += [Tried(edit, "refused", goal) for edit, goal in goals.items()]
            # An edit that cannot be applied beside the others waits too. After a round that refuses none, the next would say the same.
            again = [
                it for it in batch if goals and it not in goals and (it not in said or any(map(Said.waits, said[it])))
            ]
            left += [edit for edit in batch if edit not in goals and edit not in again]
            waiting = {edit: functions for edit, functions in waiting.items() if edit not in batch or edit in again}
    return refused, left


def try_alone(crate, edits):
    """Tries edits of a crate one by one, each by a check of the whole crate; returns each as Tried."""
    tried = []
    with tempfile.TemporaryDirectory(prefix="kept-") as kept:
        for edit in edits:
            with copy_of(crate) as room:
                if apply(room, edit):
                    found = judged(*checked(crate, room, "--incremental", kept))
                else:
                    found = "NOT APPLIED", "an old text is not in its file once, or nothing changes"
                tried.append(Tried(edit, *found))
    return tried


def judged(status, said):
    """The word for a check of a crate with an edit, and the reason."""
    lines = said.splitlines()
    reasons = [shown[1] for line in lines if (shown := ERROR.fullmatch(line) or NOTE.fullmatch(line))]
    unread = next(filter(UNREAD.match, reasons), "")
    if status == 0:
        return "PROVED", "the crate is proved with this edit"
    if status == 1 and "logic=not-proved" in said and not unread:
        meant = next((it for it in reasons if not NAMES.search(it)), "")
        return "refused", meant or f"only because a proof names what the edit takes away: {''.join(reasons[:1])}"
    if status == 3 and (limit := next(filter(LIMIT.match, lines), "")):
        return "refused", f"only by a limit of the prover: {limit}"
    return "NOT APPLIED", unread or said[-300:]


class Tally:
    """Counts the edits that were refused and those that were not, and prints each."""

    def __init__(self, total):
        self.begun, self.total, self.refused, self.failed = time.monotonic(), total, 0, []

    def add(self, crate, them):
        """Adds edits of a crate, each a Tried, and prints them."""
        for edit, word, why in them:
            line = f"{word}: {crate}/{edit.name}"
            print(f"{line}: {why}"[:300])
            if word == "refused":
                self.refused += 1
            else:
                self.failed.append(line)
        print(
            f"-- edits: {self.refused + len(self.failed)} of {self.total} after {clock(time.monotonic() - self.begun)}",
            flush=True,
        )

    def end(self):
        """Prints again what was not refused; returns how many edits were refused, and how many not."""
        print("\n".join(sorted(self.failed)), end="\n" if self.failed else "")
        return self.refused, self.total - self.refused


class Function(NamedTuple):
    """A function with a body: its path below the crate, and the first and the last line of the body."""

    path: str
    first: int
    last: int


def functions_of(text, file):
    """The functions of a file such as src/turn.rt, in order. A closure or a function inside another one is part of it."""
    tokens = [it for it in tokens_of(text, file) if it.kind not in ("space", "comment", "off")]
    module = [part for part in Path(file).with_suffix("").parts[1:] if part not in ("lib", "main")]
    yield from of_items(tokens, partners(tokens, file), range(len(tokens)), module)


def of_items(tokens, ends, places, path):
    """The functions among these tokens of a module or a block with this path."""
    at = places.start
    while at < places.stop:
        token, at = tokens[at], at + 1
        if token.kind != "word" or token.text not in ("fn", "impl", "trait", "mod"):
            continue
        begin = at
        while tokens[at].text not in ("{", ";"):
            at = ends.get(at, at) + 1
        end = ends.get(at, at)
        words = [it.text for it in tokens[begin:at]]
        if token.text != "fn":
            yield from of_items(tokens, ends, range(at + 1, end), [*path, name_of_block(words)])
        elif end > at:
            yield Function("::".join([*path, words[0]]), tokens[at].line, tokens[end].line)
        at = end + 1


def name_of_block(words):
    """The name of a module, a trait or an impl, from the words before its brace. `impl TRAIT for TYPE` is TYPETRAIT."""
    text, shorter = "", " ".join(words)
    while text != shorter:
        text, shorter = shorter, re.sub(r"<[^<>]*>", "", shorter)
    parts = re.split(r"\bwhere\b|(?<!:):(?!:)", text)[0].split(" for ")
    return "".join(re.findall(r"\w+", part)[-1] for part in reversed(parts))
