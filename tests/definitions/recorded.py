"""Recorded battles: the files that hold them, and the battle of each line.

A line is a JSON object of one of two kinds. A trace has `object`, what a battle begins with, and `updates`: after each pair of choices the
refusal, the result, the offered choices, the draws, the log and all 384 bytes. A run of the program has `input`, the same object as a text,
and its `stdout`, `stderr` and `status`.
"""

import json
import re
from pathlib import Path

from battles import Unreadable as UnreadableFile
from battles import objects
from definitions.compiling import Unknown
from definitions.reading import Unreadable

# What is raised where a file or a definition can't be read, or a battle is not as recorded.
FAULTS = (OSError, UnreadableFile, Unreadable, Unknown, LookupError, ValueError)
ENDINGS = (".jsonl", ".jsonl.xz")


class Battle:
    """A recorded battle: its place, what it begins with, its pairs of choice bytes, and what was recorded."""

    def __init__(self, file, number, line):
        self.name = f"{file} {number}"
        self.traced = "updates" in line
        self.given = line["object"] if self.traced else json.loads(line["input"])
        self.line = line
        self.pairs = [update["pair"] for update in line["updates"]] if self.traced else self.given["choices"]
        self.limit, self.rules = self.given.get("limit", 1000), self.given.get("rules", 0)


def files_in(places):
    """The files among some files and folders, those of a folder in the order of their names."""
    for place in map(Path, places):
        if place.is_dir():
            yield from (file for file in sorted(place.iterdir()) if file.name.endswith(ENDINGS))
        else:
            yield place


def is_battle(line):
    """Whether a line is a battle: a trace, or a run of the program that read a whole battle."""
    return (
        "updates" in line
        or line.get("args") == ["run"]
        and (line["status"] == 0 or re.fullmatch(r"error: pair \d+ refused \d+\n", line["stderr"]) is not None)
    )


def battles_in(places):
    """All recorded battles of some files and folders; other lines are ignored. Raises LookupError if there is none."""
    found = False
    for file in files_in(places):
        short = file.name.removesuffix(".xz").removesuffix(".jsonl")
        for number, line in enumerate(objects(file)):
            if is_battle(line):
                found = True
                yield Battle(short, number, line)
    if not found:
        raise LookupError(f"no recorded battle in {', '.join(map(str, places))}")
