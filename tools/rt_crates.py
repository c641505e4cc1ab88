"""Crates as the kit's rt sees them, by rt's own code: for tools that prove libraries or check a crate over them."""

import os
import signal
import subprocess
import sys
import tempfile
import time
from concurrent.futures import FIRST_COMPLETED, ThreadPoolExecutor, wait
from graphlib import TopologicalSorter
from importlib.machinery import SourceFileLoader
from importlib.util import module_from_spec, spec_from_loader
from pathlib import Path
from shutil import which

AT_ONCE = 2
# Otherwise the allocator of rattle returns freed memory to the system and soon takes it again: 2 % of the processor time of a check.
os.environ.setdefault("MIMALLOC_PURGE_DELAY", "-1")


def rt_module():
    """The Python module of rt."""
    if "rtlib" not in sys.modules:
        file = Path(os.path.realpath(which("rt"))).with_name("rtlib.py")
        loader = SourceFileLoader("rtlib", str(file))
        module = module_from_spec(spec_from_loader("rtlib", loader))
        sys.modules["rtlib"] = module
        loader.exec_module(module)
        module.guarded()
    return sys.modules["rtlib"]


def crates_in(folder, names):
    """These crates of a repository, lowest first."""
    return [it for it in rt_module().crates_below(str(folder)) if it.name in names]


def prove_libraries(libraries):
    """Proves and builds libraries, those that they depend on among them, two at a time; returns a status.

    Libraries without a stamp, which only `rt ci` leaves, are used where all are there; rt would prove each once more. Of those whose own
    dependencies are built it takes the one that most others wait for.
    """
    left = [Path(it.rlib) for it in libraries]
    if all(it.is_dir() and not it.with_name("stamp").exists() for it in left):
        return 0
    order = TopologicalSorter({it: it.deps for it in libraries})
    order.prepare()
    status, ready, running = 0, [], {}
    with ThreadPoolExecutor(AT_ONCE) as pool:
        while order.is_active() and not status:
            ready = sorted([*ready, *order.get_ready()], key=lambda it: sum(it in other.below() for other in libraries))
            while ready and len(running) < AT_ONCE:
                it = ready.pop()
                running[pool.submit(prove, it)] = it
            for done in wait(running, return_when=FIRST_COMPLETED).done:
                status = status or done.result()
                order.done(running.pop(done))
    return status


def prove(crate):
    """Proves and builds one library, and prints the output of rt at the end; returns a status."""
    begun = time.monotonic()
    os.makedirs(f"{crate.folder}/out", exist_ok=True)
    with tempfile.TemporaryFile("w+", errors="replace") as crate.out:
        status = crate.build_rlib(["--jobs", str(AT_ONCE)], anew=False)
        crate.out.seek(0)
        said = crate.out.read()
    print(f"== {crate.name}: status {status} after {time.monotonic() - begun:.0f} s\n{said}", end="", flush=True)
    return status


def checked(crate, folder, *words, gives_way=True):
    """Checks a crate whose texts are in a folder, over the libraries that are built; returns the status and what was printed.

    A check that gives way takes the processor time that other work leaves. One that is killed, most likely for memory, is made once more.
    """
    rt = rt_module()
    nice = ["nice", "-n", "19"] if gives_way else []
    command = [*rt.guarded(), *nice, rt.RATTLE, "check", *crate.words(["--jobs", "1", *words], keeps=False)]
    how = {
        "cwd": folder,
        "stdin": subprocess.DEVNULL,
        "stdout": subprocess.PIPE,
        "stderr": subprocess.STDOUT,
        "errors": "replace",
    }
    ran = subprocess.run(command, **how)
    if ran.returncode == -signal.SIGKILL:
        ran = subprocess.run(command, **how)
    return ran.returncode, ran.stdout
