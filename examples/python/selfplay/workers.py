"""Plays jobs in this process, in processes of this machine, or by Dask's workers. The results are the same."""

import sys
import time
from concurrent.futures import ProcessPoolExecutor, as_completed
from concurrent.futures.process import BrokenProcessPool
from pathlib import Path

import arena

TRIES = 10


class Lost(Exception):
    """Workers were lost repeatedly, and no job was done in between."""


def here(jobs):
    """Plays jobs one after the other."""
    for job in jobs:
        yield job, arena.play_job(job)


def by_processes(jobs, count):
    """Plays jobs with this many processes. If one is lost, new processes play its jobs again."""
    left, tries = list(jobs), 0
    while left:
        before = len(left)
        with ProcessPoolExecutor(count) as pool:
            running = {pool.submit(arena.play_job, job): job for job in left}
            try:
                for done in as_completed(running):
                    records = done.result()
                    left.remove(running[done])
                    yield running[done], records
            except BrokenProcessPool:
                print(f"a worker was lost; {len(left)} jobs are played again", file=sys.stderr, flush=True)
        tries = 0 if len(left) < before else tries + 1
        if tries == TRIES:
            raise Lost(f"a worker was lost {TRIES} times in a row before any job was done")


def by_dask(jobs, address):
    """Plays jobs with the workers of a Dask scheduler, which runs the jobs of a lost worker again."""
    from distributed import Client
    from distributed import as_completed as as_done

    with Client(address) as client:
        send(client)
        running = {
            it.key: (it, job) for job in jobs for it in [client.submit(arena.play_job, job, pure=False, retries=TRIES)]
        }
        for done in as_done([it for it, _ in running.values()]):
            yield running[done.key][1], done.result()


def send(client):
    """Sends the module to Dask's workers; again if one is lost meanwhile."""
    for left in reversed(range(TRIES)):
        try:
            client.upload_file(str(Path(arena.__file__)))
            return
        except OSError as fault:
            if not left:
                raise Lost(f"the workers cannot be sent {arena.__file__}: {fault}") from fault
            time.sleep(1)
