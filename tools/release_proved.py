"""PROVED.txt of a release: what was proved, by which toolchain, and which verdicts the machine of the release has seen."""

import hashlib
import re
import subprocess

from repository import ROOT, crates, version

VERDICT = re.compile(
    r"(?m)^crate (\w+): modules loaded=\d+ checked=(\d+)\n(?:(?!^crate ).*\n)*?logic=(\w+)((?: \S+)*)$"
)
PROVED_FUNCTIONS = re.compile(r" functions=(\d+)")
FUNCTION = re.compile(r"(?m)^\s*(?:pub(?:\([a-z]+\))? )?(?:const |extern \"C\" )*fn \w+")
CLAUSE = re.compile(r"(?m)^\s*(?:ensures|requires)\b")

HEAD = """What was proved of gen1 {version}, and by what

version    {version}
commit     {commit}
sources    SHA-256 {sources} of the sorted list of sums of crates/*/{{src,specs,proofs}}
toolchain  {kit}
C library  {library}

docs/PROVED.md of that commit says what is proved of each crate, and what is trusted; the kit is part of that. What cargo, a C compiler or
a browser makes of the sources without their contracts (the Rust sources, the page, and the C library where it says so above) is compared
with the proved library, and is not proved.

"""
SEEN = """The verdicts below are those of {logs}, as rt printed them: how many functions were proved, how many modules of statements
and proofs the logic checked, and what rt took on trust. `incremental=trusted` means results of earlier checks, which the gate's own
verdicts (`rt ci`) do not use. A log is not checked; run `.ci/run` to repeat the proof.

"""
UNSEEN = """No proof was run for this list, and no log of one was named, so it has no verdicts. The numbers below are counted in the
sources of that commit. Run `.ci/run` there, with the kit, to repeat the proof.

"""
BEHIND = """
functions: those of src, with tests and laws; clauses: `requires` and `ensures`, by their lines. rt also counts what derives write.
"""


def said(*words):
    """The one line that a command prints; None where it cannot be run."""
    try:
        return (
            subprocess.run(words, cwd=ROOT, capture_output=True, text=True, check=True)
            .stdout.strip()
            .partition("\n")[0]
        )
    except (OSError, subprocess.CalledProcessError):
        return None


def sum_of_sources():
    """One sum of all files that a proof reads."""
    whole = hashlib.sha256()
    for path in sorted(
        path for folder in ("src", "specs", "proofs") for path in ROOT.glob(f"crates/*/{folder}/**/*") if path.is_file()
    ):
        whole.update(f"{hashlib.sha256(path.read_bytes()).hexdigest()}  {path.relative_to(ROOT)}\n".encode())
    return whole.hexdigest()


def commit():
    name = said("git", "rev-parse", "HEAD") or "not known: this is no repository of git"
    parts = [f":(glob)crates/*/{folder}/**" for folder in ("src", "specs", "proofs")]
    return f"{name}, and changed since" if said("git", "status", "--porcelain", "--", *parts) else name


def counts(name):
    """The numbers of functions and of clauses of contracts in the sources of a crate."""
    texts = [path.read_text() for path in sorted((ROOT / "crates" / name / "src").rglob("*.rt"))]
    return sum(len(FUNCTION.findall(text)) for text in texts), sum(len(CLAUSE.findall(text)) for text in texts)


def verdicts(logs):
    """The last verdict on each crate in these logs, good or not: its word, functions, modules, and the rest of the line."""
    found = {}
    for log in logs:
        for name, modules, logic, words in VERDICT.findall(log.read_text(errors="replace")):
            functions = PROVED_FUNCTIONS.search(words)
            found[name] = (logic, functions[1] if functions else "?", modules, PROVED_FUNCTIONS.sub("", words).strip())
    return found


def rows(logs):
    """A line for each crate."""
    found, notes = verdicts(logs), []
    yield f"{'crate':18}{'functions':>10}{'clauses':>9}   verdict"
    for name in crates():
        functions, clauses = counts(name)
        row = f"{name:18}{functions:>10}{clauses:>9}   "
        if name in found:
            logic, proved, modules, rest = found[name]
            notes += [] if rest in notes else [rest]
            yield f"{row}{logic}: {proved} functions, {modules} modules checked [{notes.index(rest) + 1}]"
        else:
            yield f"{row}{'none in the logs' if logs else 'none'}"
    for number, note in enumerate(notes, 1):
        yield f"[{number}] {note}"


# The origins of the C library of a release, by the first word of gen1_build.
LIBRARIES = {
    "proved": "what tools/library leaves, to which only gen1_build was added",
    "plain": "built by cargo, not proved",
}


def proved(library, logs):
    """The text. `library` is the C library's archive and its gen1_build, or None where the release has no library."""
    about = "none in this release"
    if library:
        archive, build = library
        origin = LIBRARIES.get(build.partition(",")[0], "given to tools/release; its origin is not known")
        about = f"{build}\n           {origin}\n           SHA-256 {hashlib.sha256(archive.read_bytes()).hexdigest()} of libgen1_c.a"
    kit = said("rt", "version") or "no rt was at hand when this was made; docs/PROVED.md names the kit"
    head = HEAD.format(version=version(), commit=commit(), sources=sum_of_sources(), kit=kit, library=about)
    middle = SEEN.format(logs=", ".join(log.name for log in logs)) if logs else UNSEEN
    return head + middle + "\n".join(rows(logs)) + "\n" + BEHIND
