#!/usr/bin/env python3
"""Large numbers of battles between players: a table of wins, and a data set of logs.

    python3 examples/python/selfplay --battles 200 --out results
    python3 examples/python/selfplay --players greedy playouts --battles 10000 --workers 4 --out results
    python3 examples/python/selfplay --battles 10000 --dask tcp://HOST:8786 --out results
    python3 examples/python/selfplay --league samples --players greedy level:1 think:100 --battles 1000 --dask tcp://HOST:8786 --out results

OUT becomes a folder with table.csv, table.json and logs.npz (results.py describes it). The battles are divided into jobs. A job whose
worker is lost is played again with the same result, so the files are the same, byte for byte, for any number of workers. Progress is
printed to standard error.

--league plays the bots of `gen1 league`, and prints its tables. OUT gets league.tsv, which `gen1 league --file` reads too; jobs that are
in it are not played again.
"""

import argparse
import sys
import time
from importlib.util import find_spec
from itertools import combinations
from pathlib import Path

import arena
import results
import workers
from gen1.progress import progress
from gen1.search import SearchFailed, league_table


def at_least(least):
    """A whole number from `least` on, for argparse."""

    def number(text):
        value = int(text)
        if value < least:
            raise argparse.ArgumentTypeError(f"must be {least} or more, not {value}")
        return value

    return number


def parser():
    made = argparse.ArgumentParser(
        prog="selfplay", description=__doc__, formatter_class=argparse.RawDescriptionHelpFormatter
    )
    names = sorted(arena.PLAYERS)
    said = f"two or more of {', '.join(names)}, or of the bots of a league"
    made.add_argument("--players", nargs="+", default=list(arena.PLAYERS), metavar="NAME", help=said)
    made.add_argument("--league", choices=("samples", "drawn"), default="", help="the teams of a league")
    made.add_argument(
        "--battles", type=at_least(1), default=200, metavar="N", help="battles of each pair (%(default)s)"
    )
    made.add_argument("--job", type=at_least(1), default=100, metavar="N", help="battles of a job (%(default)s)")
    made.add_argument("--seed", type=int, default=1, metavar="N", help="another seed gives other battles (%(default)s)")
    made.add_argument(
        "--workers", type=at_least(1), default=1, metavar="N", help="processes of this machine (%(default)s)"
    )
    made.add_argument("--dask", metavar="ADDRESS", help="the scheduler of Dask workers, in place of processes")
    made.add_argument("--out", type=Path, metavar="OUT", help="the folder for the files; none is written without it")
    made.add_argument(
        "--format",
        choices=("npz", "parquet"),
        default="npz",
        help="the format of the data set (%(default)s); parquet needs pyarrow",
    )
    return made


def jobs_of(pairs, asked):
    """All jobs, pair by pair."""
    for at, names in enumerate(pairs):
        for first in range(0, asked.battles, asked.job):
            yield arena.Job(at, names, first, min(asked.job, asked.battles - first), asked.seed, asked.league)


def done_jobs(jobs, asked):
    """All jobs with their records, in the order in which they end."""
    if asked.dask:
        done = workers.by_dask(jobs, asked.dask)
    else:
        done = workers.here(jobs) if asked.workers == 1 else workers.by_processes(jobs, asked.workers)
    return progress(done, len(jobs), "jobs")


def league(pairs, asked):
    """Plays the jobs that league.tsv does not have, and returns the tables of the league."""
    path = asked.out / "league.tsv" if asked.out else None
    text = path.read_text() if path and path.exists() else ""
    # A last line that was not written to its end is dropped.
    lines = text[: text.rfind("\n") + 1].splitlines()
    battle = lambda line: line.rpartition("\t")[0]
    known = {battle(line) for line in lines}
    name = f"{asked.league}:{asked.seed}"
    is_known = lambda job: known.issuperset("\t".join((name, *job.names, str(number))) for number in job.numbers)
    for _, found in done_jobs([job for job in jobs_of(pairs, asked) if not is_known(job)], asked):
        lines += [line for line in found if battle(line) not in known]
        if path:
            asked.out.mkdir(parents=True, exist_ok=True)
            path.write_text("".join(f"{line}\n" for line in lines))
    return league_table(asked.players, lines, teams=asked.league, seed=asked.seed)


def write(rows, records, asked):
    """Writes the files, each completely or not at all."""
    asked.out.mkdir(parents=True, exist_ok=True)
    about = {
        "players": asked.players,
        "battles": asked.battles,
        "seed": asked.seed,
        "limit": arena.LIMIT,
        "rounds": arena.ROUNDS,
    }
    (asked.out / "table.csv").write_text(results.as_csv(rows))
    (asked.out / "table.json").write_text(results.as_json(rows, **about))
    put = results.write_parquet if asked.format == "parquet" else results.write_npz
    room = asked.out / f"part.{asked.format}"
    put(room, results.data_set(records))
    room.replace(asked.out / f"logs.{asked.format}")


def main():
    words = parser()
    asked = words.parse_args()
    if len(set(asked.players)) < 2 or len(set(asked.players)) < len(asked.players):
        words.error("--players: name two or more, none of them twice")
    if not asked.league and (other := set(asked.players) - set(arena.PLAYERS)):
        words.error(f"--players: there is no {', '.join(sorted(other))} without --league")
    for module, named in (("distributed", asked.dask), ("pyarrow", asked.format == "parquet")):
        if named and not find_spec(module):
            words.error(f"this Python has no {module}")
    pairs = list(combinations(asked.players, 2))
    begun = time.monotonic()
    try:
        if asked.league:
            print(league(pairs, asked), end="")
            return 0
        records = [it for _, found in done_jobs(list(jobs_of(pairs, asked)), asked) for it in found]
        rows = results.table(pairs, records)
        if asked.out:
            write(rows, records, asked)
    except (workers.Lost, SearchFailed, OSError) as fault:
        print(f"selfplay: {fault}", file=sys.stderr)
        return 1
    except KeyboardInterrupt:
        return 130
    print(results.as_text(rows))
    print(f"{len(records)} battles in {time.monotonic() - begun:.1f} s", file=sys.stderr)
    return 0


if __name__ == "__main__":
    sys.exit(main())
