"""Builds the C library with a profile: the compiler puts the branches that battles take most often where they cost least.

The profile counts the branches of battles of bench/bench.c, so it is the same on each machine. An instrumented build plays them, and
llvm-profdata of the same LLVM as rustc's merges the counts.

cargo builds the plain library twice. For the proved one, `Module` keeps what rattle hands to the kit's clang once the crate is proved, and
compiles that module twice more.
"""

import fcntl
import os
import re
import shutil
from pathlib import Path

from c_library import PLAIN_FEATURES, PROFILED, Missing, plain_origin, ran
from repository import ROOT

# The battles of the profile, and the seed from which they are drawn. bench/run counts those of seed 1.
BATTLES, SEED = 300, 7
# The modes of bench/bench.c that are played, with the percentages of moves where a side may move or switch (0: each choice equally).
MODES = {"quiet": (0, 85), "log": (0, 85), "trusted": (0, 85), "playout": (0,), "masked": (0,)}
# The clang of the toolchain that rattle is given: it keeps the folder of the call with its words. A second call fails.
KEEPING = """#!/bin/sh
mkdir '{kept}' && cp -R . '{kept}' && printf '%s\\n' "$@" >'{kept}/words' && exec '{clang}' "$@"
"""
# Passes that this LLVM adds for a profile, and that cost more than they save (docs/SPEED.md, "A profile of battles").
LEFT_OUT = ("-mllvm", "-disable-preinline", "-mllvm", "-inline-enable-cost-benefit-analysis=false")


def rustc(*words):
    return ran(os.environ.get("RUSTC", "rustc"), *words)


def llvm():
    """The major version of rustc's LLVM, such as "22"."""
    return re.search(r"(?m)^LLVM version: (\d+)", rustc("-vV"))[1]


def host():
    """The target that rustc builds for where none is named."""
    return re.search(r"(?m)^host: (\S+)", rustc("-vV"))[1]


def of_rustc():
    """The folder of rustc's own libraries and tools for this machine."""
    return Path(rustc("--print", "sysroot").strip()) / "lib" / "rustlib" / host()


def profiler():
    """The llvm-profdata that reads what rustc writes, from rustup's llvm-tools or Debian's package. None where there is neither."""
    own = of_rustc() / "bin" / "llvm-profdata"
    return own if own.is_file() else shutil.which(f"llvm-profdata-{llvm()}")


def want_profiler():
    """Raises Missing if rustc or the right llvm-profdata isn't installed."""
    if not shutil.which(os.environ.get("RUSTC", "rustc")):
        raise Missing("there is no rustc, which `tools/setup profile` installs")
    if not profiler():
        raise Missing(f"there is no llvm-profdata of LLVM {llvm()}, which `tools/setup profile` installs")


def build(target, flag, how=""):
    """Returns the archive that cargo builds with a flag for rustc. Build scripts don't get the flag."""
    env = {**os.environ, "GEN1_BUILD": plain_origin(how), "RUSTFLAGS": flag}
    ran(
        "cargo",
        "build",
        "-q",
        "--release",
        "-p",
        "gen1-ffi",
        *PLAIN_FEATURES,
        "--target",
        host(),
        "--target-dir",
        target,
        env=env,
    )
    return target / host() / "release" / "libgen1_c.a"


def profile_of(folder, *library):
    """Plays the battles with the files of a library that counts branches, and returns the file of their profile."""
    counts, program, profile = folder / "counts", folder / "counted", folder / "battles.profdata"
    ran(
        *os.environ.get("CC", "cc").split(),
        "-std=c11",
        "-O2",
        "-pthread",
        "-DUNTESTED=gen1_update_offered_silent",
        f"-I{ROOT / 'include'}",
        ROOT / "bench" / "bench.c",
        *library,
        "-Wl,-u,__llvm_profile_runtime",
        "-o",
        program,
    )
    for mode, percents in MODES.items():
        for percent in percents:
            ran(
                program,
                BATTLES,
                SEED,
                mode,
                percent,
                env={**os.environ, "LLVM_PROFILE_FILE": f"{counts}/{mode}_{percent}.profraw"},
            )
    ran(profiler(), "merge", "-o", profile, *sorted(counts.glob("*.profraw")))
    return profile


def profiled_archive():
    """Returns the archive of the plain sources that is built with the profile. Only one process at a time builds it."""
    want_profiler()
    folder = ROOT / "target" / "c_profiled"
    folder.mkdir(parents=True, exist_ok=True)
    with open(folder / "lock", "w") as held:
        fcntl.flock(held, fcntl.LOCK_EX)
        shutil.rmtree(folder / "counts", ignore_errors=True)
        counting = build(folder / "counting", f"-Cprofile-generate={folder / 'counts'}")
        return build(folder / "by_profile", f"-Cprofile-use={profile_of(folder, counting)}", " with a profile")


class Module:
    """The module that rattle hands to clang, which it does only for a proved crate.

    `toolchain` is the kit's, and `keeping`, in a separate folder, does the same and keeps the module.
    """

    def __init__(self, toolchain, folder):
        self.toolchain, self.keeping, self.kept = Path(toolchain), folder / "toolchain", folder / "kept"
        clang = self.keeping / "bin" / "clang"
        clang.parent.mkdir(parents=True)
        (self.keeping / "lib").symlink_to(self.toolchain / "lib")
        for tool in (self.toolchain / "bin").iterdir():
            if tool.name != clang.name:
                (clang.parent / tool.name).symlink_to(tool)
        clang.write_text(KEEPING.format(kept=self.kept, clang=self.toolchain / "bin" / "clang"))
        clang.chmod(0o755)

    def compiled(self, flag):
        """Compiles the module by rattle's words and a flag, and returns the object."""
        words = (self.kept / "words").read_text().splitlines()
        ran(self.toolchain / "bin" / "clang", *words, *LEFT_OUT, flag, cwd=self.kept)
        return self.kept / words[words.index("-o") + 1]

    def write_profiled(self):
        """Compiles the module with the profile to the archive PROFILED."""
        runtime = next((of_rustc() / "lib").glob("libprofiler_builtins-*.rlib"))
        profile = profile_of(self.kept, self.compiled("-fprofile-generate"), runtime)
        PROFILED.unlink(missing_ok=True)
        ran("ar", "rcsD", PROFILED, self.compiled(f"-fprofile-use={profile}").rename(self.kept / "gen1_c.o"))
