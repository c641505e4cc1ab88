"""The table of wins, and the data set of logs with its index."""

import csv
import io
import json
import math
from dataclasses import asdict, dataclass

import numpy as np


@dataclass(frozen=True)
class Row:
    """The battles of a pair: how many each player won, how many were ties, and the share that `one` won with its 95 % interval.

    A tie counts as half a win. The interval is Wilson's.
    """

    one: str
    two: str
    battles: int
    wins_one: int
    wins_two: int
    ties: int
    share: float
    low: float
    high: float


def interval(won, count):
    """Wilson's 95 % interval of a share."""
    z, p = 1.959963984540054, won / count
    middle, half = p + z * z / (2 * count), z * math.sqrt(p * (1 - p) / count + z * z / (4 * count * count))
    return (middle - half) / (1 + z * z / count), (middle + half) / (1 + z * z / count)


def table(pairs, records):
    """A row for each pair of names; the records are in any order."""
    rows = []
    for at, (one, two) in enumerate(pairs):
        of_pair = [it for it in records if it.pair == at]
        sides = [None if it.outcome not in (1, 2) else (it.outcome - 1) ^ it.first_player for it in of_pair]
        wins, ties = (sides.count(0), sides.count(1)), sides.count(None)
        won = wins[0] + ties / 2
        low, high = interval(won, len(of_pair))
        rows.append(Row(one, two, len(of_pair), *wins, ties, *(round(it, 6) for it in (won / len(of_pair), low, high))))
    return rows


def as_text(rows):
    """The rows as text."""
    lines = [f"{'one':10} {'two':10} {'battles':>7} {'won':>6} {'lost':>6} {'ties':>5}  {'share':>6}  95 % interval"]
    for it in rows:
        counts = f"{it.battles:7} {it.wins_one:6} {it.wins_two:6} {it.ties:5}"
        lines.append(f"{it.one:10} {it.two:10} {counts}  {it.share:6.1%}  {it.low:.1%} to {it.high:.1%}")
    return "\n".join(lines)


def as_csv(rows):
    """The rows as CSV, with a header line."""
    text = io.StringIO()
    writer = csv.DictWriter(text, [*asdict(rows[0])], lineterminator="\n")
    writer.writeheader()
    writer.writerows(map(asdict, rows))
    return text.getvalue()


def as_json(rows, **about):
    """The rows as JSON, with the arguments and versions with which they were made."""
    return json.dumps({**about, "rows": [asdict(it) for it in rows]}, indent=1) + "\n"


def data_set(records):
    """The data of the battles as arrays, in the order of pairs and numbers, and `log`, all log bytes one after the other.

    The log of battle i is `log[begin[i]:begin[i + 1]]`.
    """
    ordered = sorted(records, key=lambda it: (it.pair, it.number))
    lengths = [len(it.log) for it in ordered]
    return {
        "pair": np.array([it.pair for it in ordered], np.uint16),
        "number": np.array([it.number for it in ordered], np.uint32),
        "first_player": np.array([it.first_player for it in ordered], np.uint8),
        "teams": np.array([it.teams for it in ordered], np.uint8),
        "seed": np.array([list(it.seed) for it in ordered], np.uint8),
        "outcome": np.array([it.outcome for it in ordered], np.uint8),
        "turns": np.array([it.turns for it in ordered], np.uint16),
        "updates": np.array([it.updates for it in ordered], np.uint16),
        "begin": np.concatenate([[0], np.cumsum(lengths)]).astype(np.int64),
        "log": np.frombuffer(b"".join(it.log for it in ordered), np.uint8),
    }


def write_npz(path, arrays):
    """The data set as one file of numpy, whose bytes depend only on the arrays."""
    np.savez_compressed(path, **arrays)


def write_parquet(path, arrays):
    """The data set as Parquet, with a row for each battle; needs pyarrow."""
    import pyarrow
    import pyarrow.parquet

    begin, log = arrays["begin"], arrays["log"].tobytes()
    columns = {name: it for name, it in arrays.items() if name not in ("begin", "log", "teams", "seed")}
    columns["team_one"], columns["team_two"] = arrays["teams"].T
    columns["seed"] = [it.tobytes() for it in arrays["seed"]]
    columns["log"] = [log[one:two] for one, two in zip(begin, begin[1:])]
    pyarrow.parquet.write_table(pyarrow.table(columns), path)
