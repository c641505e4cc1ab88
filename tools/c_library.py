"""The C library: the calls and the version of its header, how to build and link it, and what it was built from.

gen1_build of the library (gen1.h) says what it was built from. The plain library has that function in Rust (rust/gen1-ffi). The sources
that are proved have none, so the tools that make artifacts of an archive add it. tools/library leaves a record beside its archive, from
which the text is taken.
"""

import hashlib
import os
import re
import shutil
import subprocess
import sys

sys.dont_write_bytecode = True
from release_proved import said, sum_of_sources
from repository import ROOT

HEADER = ROOT / "include" / "gen1.h"
# The library that tools/library leaves.
PROVED = ROOT / "crates" / "gen1_c" / "out" / "libgen1_c.a"
# The one that `tools/library --profile` leaves too: the same module, compiled with a profile of battles.
PROFILED = PROVED.with_name("libgen1_c_profiled.a")
# Beside each; three words: the sums of the archive and of the sources, and the kit's logic.
RECORD = ".record"
SOURCE = """const char *gen1_build(void);
const char *gen1_build(void) {{ return "{text}"; }}
"""
CALL = re.compile(r"(?m)^[a-z]\w*[\w *]*?\b(gen1_\w+)\(")
VERSION = re.compile(r'(?m)^#define GEN1_VERSION "(\d+)\.(\d+)\.(\d+)"$')
PLAIN_FEATURES = ("--no-default-features", "--features", "panic_handler")
# The library's one object needs none of core's. That holds where all is optimized as a whole.
PLAIN_PROFILE = {
    "CARGO_PROFILE_RELEASE_CODEGEN_UNITS": "1",
    "CARGO_PROFILE_RELEASE_LTO": "fat",
    "CARGO_PROFILE_RELEASE_OPT_LEVEL": "3",
}


class Unbuilt(Exception):
    """A library could not be built, for this reason."""


class Missing(Unbuilt):
    """A library could not be built since this program is missing."""


def calls(header=HEADER):
    """The functions that the header declares, in its order."""
    return CALL.findall(header.read_text())


def version(header=HEADER):
    """The header's version, as three strings of digits."""
    return VERSION.search(header.read_text()).groups()


def ran(*words, cwd=ROOT, env=None):
    """What a command printed to standard output; Unbuilt where it could not be run or its status is not 0."""
    try:
        done = subprocess.run(
            [str(word) for word in words],
            cwd=cwd,
            env=env,
            stdin=subprocess.DEVNULL,
            stdout=subprocess.PIPE,
            stderr=subprocess.PIPE,
            text=True,
            errors="replace",
        )
    except FileNotFoundError as fault:
        raise Missing(f"there is no {words[0]}") from fault
    if done.returncode:
        tail = "\n".join(f"{done.stdout}\n{done.stderr}".strip().splitlines()[-20:])
        raise Unbuilt(f"{' '.join(map(str, words))}: status {done.returncode}\n{tail}")
    return done.stdout


def plain_build(profile):
    """Builds the C library of the plain sources with nothing of std, and returns the folder that it is in."""
    target, env = ROOT / "target" / "c", {**os.environ, **PLAIN_PROFILE, "GEN1_BUILD": plain_origin()}
    ran(
        "cargo", "build", "-q", "--profile", profile, "-p", "gen1-ffi", *PLAIN_FEATURES, "--target-dir", target, env=env
    )
    return target / profile


def plain_archive():
    """The archive of cargo's release build."""
    return plain_build("release") / "libgen1_c.a"


def plain_library(folder, archive_of=plain_archive):
    """Builds the library of the sources as plain Rust in a folder (docs/PLAIN.md), and returns its path.

    Only the library's own object is taken; those of rustc's core are not needed. `archive_of` builds the archive with both.
    """
    folder = folder.resolve()
    folder.mkdir(parents=True, exist_ok=True)
    subprocess.run([ROOT / "tools" / "setup", "plain"], stdout=sys.stderr)
    if not shutil.which("cargo"):
        raise Missing("there is no cargo, which `tools/setup plain` installs")
    built, objects = archive_of(), folder / "objects"
    shutil.rmtree(objects, ignore_errors=True)
    objects.mkdir()
    own = [name for name in ran("ar", "t", built).split() if name.startswith("gen1_c.")]
    ran("ar", "x", built, *own, cwd=objects)
    archive = folder / "libgen1_c.a"
    archive.unlink(missing_ok=True)
    ran("ar", "rcsD", archive, *(objects / name for name in own))
    return archive


def link_shared(archive, to, soname):
    """Links the archive into a shared library that exports only the documented calls."""
    to = to.resolve()
    archive = with_build(archive, to.with_name(to.name + ".build"))
    script = to.with_name(to.name + ".map")
    names = calls()
    script.write_text("{ global: %s; local: *; };\n" % "; ".join(names))
    compiler = os.environ.get("CC", "cc").split()
    try:
        ran(
            *compiler,
            "-shared",
            "-nostartfiles",
            "-o",
            to,
            f"-Wl,-soname,{soname}",
            f"-Wl,--version-script={script}",
            *(f"-Wl,--undefined={name}" for name in names),
            archive,
            "-Wl,-z,defs",
            "-Wl,-z,now",
            "-Wl,-z,relro",
            "-Wl,-z,noexecstack",
            "-Wl,--gc-sections",
        )
    finally:
        script.unlink()
        shutil.rmtree(to.with_name(to.name + ".build"), ignore_errors=True)
    missing = sorted(set(names) - shown(to))
    if missing:
        raise Unbuilt(f"{archive} has no {', '.join(missing)}: it was built before the header")


def shown(shared):
    """The names that a shared library exports."""
    return {line.split()[-1] for line in ran("nm", "-D", "--defined-only", shared).splitlines() if line}


def needed(shared):
    """The names that a shared library needs from others."""
    return {
        line.split()[-1].partition("@")[0] for line in ran("nm", "-D", "--undefined-only", shared).splitlines() if line
    }


def sum_of(path):
    return hashlib.sha256(path.read_bytes()).hexdigest()


def kit_logic():
    """The kit's logic, as `rt version` prints it."""
    found = re.search(r"\blogic (\w+)", said("rt", "version") or "")
    return found[1] if found else "unknown"


def write_record(sources, proved=PROVED):
    """Records what an archive of tools/library was built from; `sources` is their sum before the build."""
    proved.with_suffix(RECORD).write_text(f"{sum_of(proved)} {sources} {kit_logic()}\n")


def origin(archive, folder=PROVED.parent):
    """The text of gen1_build for an archive that has no such function. It is proved only if it is one of tools/library, in the folder."""
    for name, how in ((PROVED.name, "proved"), (PROFILED.name, "proved, with a profile")):
        proved = folder / name
        if proved.is_file() and archive.read_bytes() == proved.read_bytes():
            record = proved.with_suffix(RECORD)
            recorded = record.read_text().split() if record.is_file() else []
            known = len(recorded) == 3 and recorded[0] == sum_of(archive)
            sources, logic = recorded[1:] if known else ("unknown", "unknown")
            return f"{how}, logic {logic}, sources sha256 {sources}"
    return "unknown"


def plain_origin(how=""):
    """The text of gen1_build for a library that cargo builds here."""
    found = re.match(r"rustc (\S+)", said(os.environ.get("RUSTC", "rustc"), "--version") or "")
    return f"plain, rustc {found[1] if found else 'unknown'}{how}, sources sha256 {sum_of_sources()}"


def has_build(archive):
    return bool(re.search(r"(?m) T gen1_build$", ran("nm", "-g", "--defined-only", archive)))


def with_build(archive, folder):
    """The archive itself where it has gen1_build, else its copy in a folder with an object that has it."""
    archive, folder = archive.resolve(), folder.resolve()
    if has_build(archive):
        return archive
    folder.mkdir(parents=True, exist_ok=True)
    source, copy = folder / "gen1_build.c", folder / "libgen1_c.a"
    source.write_text(SOURCE.format(text=origin(archive)))
    shutil.copyfile(archive, copy)
    words = (
        "-std=c99",
        "-O2",
        "-fPIC",
        "-ffunction-sections",
        "-fdata-sections",
        "-c",
        source.name,
        "-o",
        "gen1_build.o",
    )
    ran(*os.environ.get("CC", "cc").split(), *words, cwd=folder)
    ran("ar", "rcsD", copy, "gen1_build.o", cwd=folder)
    return copy


def build_of(archive, folder):
    """What gen1_build of an archive returns."""
    folder = folder.resolve()
    folder.mkdir(parents=True, exist_ok=True)
    program, source = folder / "says", folder / "says.c"
    source.write_text(
        "#include <stdio.h>\nconst char *gen1_build(void);\nint main(void) { puts(gen1_build()); return 0; }\n"
    )
    ran(*os.environ.get("CC", "cc").split(), source, archive.resolve(), "-o", program)
    return ran(program).strip()
