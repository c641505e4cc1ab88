"""The files of the program gen1 that tools/install installs: the program, its manual page, completions and licenses."""

import subprocess
import sys

sys.dont_write_bytecode = True
from c_library import Unbuilt, ran
from licenses import licenses
from repository import ROOT

# Each file below PREFIX, and the words that make the program print it; none for the files that are not printed.
PROGRAM = "bin/gen1"
PRINTED = {
    "share/man/man1/gen1.1": ("manual",),
    "share/bash-completion/completions/gen1": ("completions", "bash"),
    "share/zsh/site-functions/_gen1": ("completions", "zsh"),
    "share/fish/vendor_completions.d/gen1.fish": ("completions", "fish"),
}
LICENSES = "share/doc/gen1/LICENSES-program.txt"
NAMES = (PROGRAM, *PRINTED, LICENSES)


def program_files():
    """Builds the program, and returns the bytes of each file by its name below PREFIX. Raises Unbuilt where that fails."""
    subprocess.run([ROOT / "tools" / "setup", "plain"], stdout=sys.stderr)
    ran("cargo", "build", "-q", "--release", "-p", "gen1-cli")
    program = ROOT / "target" / "release" / "gen1"
    files = {PROGRAM: program.read_bytes(), LICENSES: licenses("program").encode()}
    for name, words in PRINTED.items():
        done = subprocess.run([program, *words], capture_output=True)
        if done.returncode:
            raise Unbuilt(f"gen1 {' '.join(words)} ends with status {done.returncode}")
        files[name] = done.stdout
    return files
