"""The version of the file VERSION in the files that spell it out.

Everything else takes the version when it is built: the plain workspace, the Python package, the shared library's name, the files for
pkg-config and CMake (tools/gen plain, tools/python_wheel, tools/install). The first version of CHANGELOG.md must be this one, with its day,
which CITATION.cff gets too. It is an error where VERSION is not three numbers, where a place is missing, or where CHANGELOG.md begins with
another version. After a new version gen1_c must be proved again, since the contract of gen1_version names the number.
"""

import re
import sys

from repository import ROOT, version

# Files, each with the text before and after the version, and its form there, made from its text and its three numbers.
PLACES = (
    ("include/gen1.h", r'#define GEN1_VERSION "', r'"\n', lambda text, a, b, c: text),
    ("include/gen1.h", r"#define GEN1_VERSION_NUMBER ", r"\n", lambda text, a, b, c: f"0x{a:02x}{b:02x}{c:02x}"),
    (
        "crates/gen1_c/src/names.rt",
        r"const VERSION: u32 = ",
        r";\n",
        lambda text, a, b, c: str(65536 * a + 256 * b + c),
    ),
    (
        "crates/gen1_c/src/names.rt",
        r"gen1_version\(\) -> u32\n    ensures \{ result ≡ ",
        r" \}\n",
        lambda text, a, b, c: f"65536 * {a} + 256 * {b} + {c}",
    ),
    ("packaging/README.md", r"`libgen1\.so\.1`, `libgen1\.so\.", r"` \|", lambda text, a, b, c: text),
    ("js/package.json", r'"version": "', r'",\n', lambda text, a, b, c: text),
    ("server/pyproject.toml", r'\nversion = "', r'"\n', lambda text, a, b, c: text),
    ("CITATION.cff", r"\nversion: ", r"\n", lambda text, a, b, c: text),
)
DAY = ("CITATION.cff", r'\ndate-released: "', r'"\n')
FIRST = re.compile(r"(?m)^## (\S+), (\d{4}-\d\d-\d\d)$")


def generated():
    """The text of each file with the version in it."""
    text = version()
    if not re.fullmatch(r"(0|[1-9]\d{0,2})(\.(0|[1-9]\d{0,2})){2}", text):
        sys.exit(f"VERSION has {text!r}, which is not three numbers")
    numbers, texts, wrong = [int(part) for part in text.split(".")], {}, []
    if max(numbers) > 255:
        sys.exit("VERSION: a number above 255 has no byte in GEN1_VERSION_NUMBER")
    first = FIRST.search((ROOT / "CHANGELOG.md").read_text())
    if not first or first[1] != text:
        sys.exit(f"CHANGELOG.md begins with {first[1] if first else 'no version and its day'}, and VERSION has {text}")
    for path, before, behind, form in (*PLACES, (*DAY, lambda *_: first[2])):
        old = texts.get(ROOT / path) or (ROOT / path).read_text()
        texts[ROOT / path], count = re.subn(
            f"({before})[^\n]*?(?={behind})", lambda found: found[1] + form(text, *numbers), old
        )
        if count != 1:
            wrong.append(f"{path} has the place of its version {count} times")
    if wrong:
        sys.exit("\n".join(wrong))
    return texts
