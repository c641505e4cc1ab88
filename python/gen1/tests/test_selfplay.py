"""examples/python/selfplay: the same table and data set, byte for byte, on any number of workers, and with some of them killed."""

import json
import os
import signal
import subprocess
import sys
import time
from importlib import import_module
from pathlib import Path

import gen1
import pytest
from conftest import ROOT

np = pytest.importorskip("numpy")
SELFPLAY = ROOT / "examples" / "python" / "selfplay"
pytestmark = pytest.mark.skipif(not SELFPLAY.is_dir(), reason="examples/python/selfplay is not here")
# A tenth of what tests/test_python.py --whole plays.
BATTLES = int(os.environ.get("GEN1_SELFPLAY_BATTLES", "20"))
JOB = max(1, BATTLES // 20)
FILES = ("table.csv", "table.json", "logs.npz")


def command(out, *words):
    return [sys.executable, str(SELFPLAY), "--battles", str(BATTLES), "--job", str(JOB), "--out", str(out), *words]


def example(name):
    """A module of the example."""
    sys.path.insert(0, str(SELFPLAY))
    try:
        return import_module(name)
    finally:
        sys.path.remove(str(SELFPLAY))


def contents(out):
    return {name: (Path(out) / name).read_bytes() for name in FILES}


@pytest.fixture(scope="module")
def alone(tmp_path_factory):
    """The files of one worker, and what was printed."""
    out = tmp_path_factory.mktemp("alone")
    done = subprocess.run(command(out), capture_output=True, text=True)
    assert done.returncode == 0, done.stderr
    return contents(out), done.stdout


def children(pid):
    """The processes that a process started."""
    found = []
    for task in Path(f"/proc/{pid}/task").iterdir():
        try:
            found += [int(it) for it in (task / "children").read_text().split()]
        except OSError:
            pass
    return found


def test_four_workers(alone, tmp_path):
    done = subprocess.run(command(tmp_path, "--workers", "4"), capture_output=True, text=True)
    assert done.returncode == 0, done.stderr
    assert (contents(tmp_path), done.stdout) == alone


def test_a_worker_is_killed(alone, tmp_path):
    """Two workers are killed, one after the other, while jobs are running."""
    running = subprocess.Popen(
        command(tmp_path, "--workers", "4"), stdout=subprocess.PIPE, stderr=subprocess.PIPE, text=True
    )
    killed = set()
    while len(killed) < 2 and running.poll() is None:
        time.sleep(BATTLES / 100)
        for pid in [it for it in children(running.pid) if it not in killed][:1]:
            os.kill(pid, signal.SIGKILL)
            killed.add(pid)
    out, err = running.communicate()
    assert running.returncode == 0 and killed and "a worker was lost" in err
    assert (contents(tmp_path), out) == alone


def test_dask(alone, tmp_path):
    """Two of Dask's workers, one of which is killed."""
    distributed = pytest.importorskip("distributed")
    with distributed.LocalCluster(
        n_workers=2, threads_per_worker=1, dashboard_address=None, silence_logs=50
    ) as cluster:
        running = subprocess.Popen(
            command(tmp_path, "--dask", cluster.scheduler_address),
            stdout=subprocess.PIPE,
            stderr=subprocess.PIPE,
            text=True,
        )
        pid = next(iter(cluster.workers.values())).pid
        # The jobs begin when Python has started.
        while running.poll() is None and not cluster.scheduler.tasks:
            time.sleep(0.01)
        killed = running.poll() is None
        if killed:
            os.kill(pid, signal.SIGKILL)
        out, err = running.communicate()
    assert running.returncode == 0, err
    assert killed and (contents(tmp_path), out) == alone


def test_a_league(tmp_path):
    """Its tables are the same for any number of workers, and after half of its results and a part of a line were lost."""
    pytest.importorskip("gen1.search")
    words = ["--league", "samples", "--players", "greedy", "random", "nodes:40", "--battles", "6", "--job", "2"]
    ran = lambda *more: subprocess.run(
        [sys.executable, str(SELFPLAY), *words, *more], capture_output=True, text=True, check=True
    ).stdout
    table, out = ran(), tmp_path / "out"
    assert "| `greedy` | `random` | 6 | " in table and "| `greedy` | 0 | 0 to 0 |" in table
    assert ran("--workers", "3", "--out", str(out)) == table
    lines = (out / "league.tsv").read_text().splitlines(keepends=True)
    assert len(lines) == 18
    (out / "league.tsv").write_text("".join(lines[:9]) + lines[9][:12])
    assert ran("--out", str(out)) == table
    assert sorted((out / "league.tsv").read_text().splitlines(keepends=True)) == sorted(lines)


def test_the_data_set(alone, tmp_path):
    """Each log is of the battle in its row, a spectator of it knows that battle's end, and the table counts the rows."""
    arena = example("arena")
    path = tmp_path / "logs.npz"
    path.write_bytes(alone[0]["logs.npz"])
    it = np.load(path)
    rows = json.loads(alone[0]["table.json"])["rows"]
    assert len(it["pair"]) == 3 * BATTLES and it["begin"][-1] == len(it["log"])
    for at in range(0, len(it["pair"]), 7):
        log = it["log"][it["begin"][at] : it["begin"][at + 1]].tobytes()
        told = gen1.events(log)
        last = told[-1]
        won = {gen1.EventKind.WIN: lambda: int(last.side), gen1.EventKind.TIED: lambda: 3}[last.kind]()
        assert won == it["outcome"][at] and it["turns"][at] == sum(event.kind is gen1.EventKind.TURN for event in told)
        spectator = gen1.Spectator(*(arena.TEAMS[number] for number in it["teams"][at]))
        spectator.feed(log)
        assert (spectator.state.turn, spectator.state.outcome) == (it["turns"][at], won)
    for at, row in enumerate(rows):
        of = it["pair"] == at
        one = (it["outcome"][of] - 1) ^ it["first_player"][of] if len(it["outcome"][of]) else []
        decided = it["outcome"][of] < 3
        assert row["wins_one"] == int((one[decided] == 0).sum()) and row["ties"] == int((~decided).sum())
        assert row["wins_one"] + row["wins_two"] + row["ties"] == row["battles"] == BATTLES
        assert 0 <= row["low"] <= row["share"] <= row["high"] <= 1


def test_intervals():
    """Wilson's 95 % interval of 8 of 10 is 0.490 to 0.943, and of 0 of 10 0 to 0.278."""
    interval = example("results").interval
    assert [round(it, 3) for it in interval(8, 10)] == [0.490, 0.943]
    assert [round(it, 3) for it in interval(0, 10)] == [0.0, 0.278]


def test_better_players_win(alone):
    """Greedy and playouts beat random beyond the interval; with 200 battles or more playouts beat greedy too."""
    for row in json.loads(alone[0]["table.json"])["rows"]:
        assert row["high"] < 0.5 or (BATTLES < 200 and row["one"] == "greedy"), row


@pytest.mark.parametrize(
    "words",
    [
        ["--players", "random"],
        ["--players", "random", "random"],
        ["--players", "random", "level:1"],
        ["--battles", "0"],
        ["--workers", "x"],
    ],
)
def test_wrong_words(words):
    done = subprocess.run([sys.executable, str(SELFPLAY), *words], capture_output=True, text=True)
    assert done.returncode == 2 and "error: " in done.stderr and "Traceback" not in done.stderr
