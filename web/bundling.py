"""Bundling the page's scripts, with the JavaScript package that they import as `gen1` and `gen1/search` (js)."""
import shutil
import subprocess
import sys
import tempfile
from contextlib import contextmanager
from pathlib import Path

ROOT = Path(__file__).resolve().parent.parent
PACKAGE = ROOT / "js"


@contextmanager
def javascript_package():
    """A folder with the package's modules, and with those that are generated."""
    with tempfile.TemporaryDirectory() as made:
        for path in (*PACKAGE.glob("*.mjs"), PACKAGE / "package.json"):
            shutil.copy(path, made)
        if subprocess.run([ROOT / "tools" / "plain_wasm", "--tables", made]).returncode:
            sys.exit("web: tools/plain_wasm failed")
        yield Path(made)


def bundle(script, package, *options):
    """A script with all its imports, bundled by esbuild; `package` is the folder of the package's modules."""
    words = [
        "esbuild",
        script,
        "--bundle",
        # The module `gen1/search` is search.mjs of the folder.
        f"--alias:gen1={package}",
        "--resolve-extensions=.mjs,.js",
        "--external:node:*",
        "--log-override:empty-import-meta=silent",
        "--target=es2022",
        "--charset=utf8",
    ]
    made = subprocess.run([*words, *options], capture_output=True, text=True)
    if made.returncode:
        sys.exit(f"web: {made.stderr}")
    return made.stdout.strip()
