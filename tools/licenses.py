"""The licenses of what each artifact links: the text of LICENSES.txt, and the linked crates whose license is not permitted.

The artifacts are c (the C library of the plain sources), proved (that of the Rattle kit), wasm (the module of WebAssembly, which the page
has too), extras (gen1-search and gen1-showdown for Python), search_wasm and showdown_wasm (the same two for JavaScript) and program (the program gen1).
Crates, versions and licenses are those that cargo takes, without a network. Where cargo can't list them, the C library's are listed
without versions.
"""

import json
import re
from pathlib import Path

from c_library import PLAIN_FEATURES, Unbuilt, ran
from release_proved import said
from repository import ROOT, below, crates, version

PERMITTED = {
    "MIT",
    "Apache-2.0",
    "Unlicense",
    "BSL-1.0",
    "Zlib",
    "Unicode-DFS-2016",
    "Unicode-3.0",
    "0BSD",
    "BSD-2-Clause",
    "BSD-3-Clause",
}
# What is built for each artifact: its title, the package with its features, and what of rustc's library is linked.
LIBRARY = ("gen1-ffi", *PLAIN_FEATURES)
CARGO = {
    "c": ("libgen1, the C library of the plain sources", LIBRARY, "core"),
    "wasm": ("the module of WebAssembly", LIBRARY, "core"),
    "extras": ("libgen1_extras, the searches and Showdown's protocol", ("gen1-extras-ffi",), "std"),
    "search_wasm": (
        "the module of the searches",
        ("gen1-extras-ffi", "--no-default-features", "--features", "search"),
        "core",
    ),
    "showdown_wasm": (
        "the module of Showdown's protocol",
        ("gen1-extras-ffi", "--no-default-features", "--features", "showdown"),
        "std",
    ),
    "program": ("gen1, the program", ("gen1-cli",), "std"),
}
OTHER = {
    "proved": "libgen1, the C library that the Rattle kit proved and built. What the kit itself adds is under the kit's terms",
    "unknown": "libgen1, a C library of which it isn't known what it was built from, or what it links",
}
# The crates of the C library; the Rattle kit has ports of them. These are the licenses of the crates themselves.
KNOWN = {
    "arrayvec": "MIT OR Apache-2.0",
    "bitflags": "MIT OR Apache-2.0",
    "byteorder": "Unlicense OR MIT",
    "itoa": "MIT OR Apache-2.0",
}
OF_RUSTC = "MIT OR Apache-2.0"
TEXTS = ("LICENSE-MIT", "LICENSE-MIT.txt", "LICENSE", "LICENSE.txt", "LICENSE.md", "UNLICENSE", "COPYING")
HEAD = """Licenses of what gen1 {version} links

gen1 itself is under the MIT license (LICENSE). "of the kit" is the Rattle kit's port of a crate; the license is the crate's.
"""


def packages():
    """The license and the folder of each package that cargo knows, by its name and version."""
    listed = json.loads(ran("cargo", "metadata", "--offline", "--format-version", "1"))["packages"]
    return {(it["name"], it["version"]): (it["license"] or "none", Path(it["manifest_path"]).parent) for it in listed}


def linked(package, *features):
    """The names and versions of the packages that a package links, and itself; procedural macros only run while it is built."""
    words = ("--offline", "-p", package, *features, "-e", "normal,no-proc-macro", "--prefix", "none", "--format", "{p}")
    lines = ran("cargo", "tree", *words).splitlines()
    return sorted({(line.split()[0], line.split()[1].removeprefix("v")) for line in lines if line.strip()})


def of_the_kit():
    """The libraries of the kit that the proved C library names, itself or by its crates."""
    lines = [line.partition("#")[0].partition(":") for line in (ROOT / "crates.txt").read_text().splitlines()]
    named = {name.split()[0]: used.split() for name, _, used in lines if name.strip()}
    own = below(["gen1_c"], crates())
    return sorted({used for name in own for used in named[name]} - set(named))


def rows(artifact):
    """Name, version, license and folder of all that an artifact links; the folder is None where it is not known."""
    if artifact == "unknown":
        return []
    if artifact == "proved":
        return [
            ("gen1", version(), "MIT", None),
            *((name, "of the kit", KNOWN.get(name, "none"), None) for name in of_the_kit()),
        ]
    _, words, library = CARGO[artifact]
    rustc = re.match(r"rustc (\S+)", said("rustc", "--version") or "")
    own = (library, f"rustc {rustc[1]}" if rustc else "unknown", OF_RUSTC, None)
    try:
        known = packages()
        return [*((*it, *known[it]) for it in linked(*words)), own]
    except Unbuilt:
        if words != LIBRARY:
            raise
        names = ("arrayvec", "byteorder", "itoa")
        return [("gen1", version(), "MIT", None), *((name, "unknown", KNOWN[name], None) for name in names), own]


def text_of(folder):
    """The license text in the folder of a third-party crate; None if it has none."""
    if not folder or folder.is_relative_to(ROOT):
        return None
    return next(((folder / name).read_text().strip() for name in TEXTS if (folder / name).is_file()), None)


def licenses(*artifacts):
    """The text of LICENSES.txt for these artifacts."""
    parts, texts = [HEAD.format(version=version())], {}
    for artifact in artifacts:
        parts.append(f"\n{OTHER[artifact] if artifact in OTHER else CARGO[artifact][0]}\n\n")
        for name, number, license_of, folder in rows(artifact):
            parts.append(f"    {name:16}{number:14}{license_of}\n")
            texts[name, number] = text_of(folder)
    parts += [f"\n{'-' * 80}\n{name} {number}\n\n{text}\n" for (name, number), text in sorted(texts.items()) if text]
    return "".join(parts)


def of_library(build):
    """The artifact whose list belongs to a C library, by the text of its gen1_build."""
    return {"proved": "proved", "plain": "c"}.get(build.partition(",")[0], "unknown")


def permitted(expression):
    """Whether a license expression leaves a choice of permitted licenses. AND is taken to bind last, which permits nothing more."""
    every = re.split(r"\s+AND\s+", expression.replace("/", " OR "))
    return all(
        any(name.split(" WITH ")[0].strip("() ") in PERMITTED for name in re.split(r"\s+OR\s+", part)) for part in every
    )


def not_permitted():
    """Each linked crate whose license is not permitted, as a line of text."""
    for artifact in (*CARGO, "proved"):
        for name, number, license_of, _ in rows(artifact):
            if not permitted(license_of):
                yield f"{artifact}: {name} {number} has the license {license_of!r}"
