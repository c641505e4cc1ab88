"""Writes the manual page gen1(3) from include/gen1.h: its first comment, its sections, and each call with its comment."""

import re
import sys

sys.dont_write_bytecode = True
from c_library import HEADER, calls, version

SECTION = re.compile(r"(?m)^/\* ---- (.*) ---- \*/$")
COMMENT = re.compile(r"/\*(.*?)\*/", re.S)
# Longer code is a table; the page refers to the header for it.
LONG = 45


def escaped(text):
    """A text for roff: code in bold, and no line that roff takes for a request."""
    text = text.replace("\\", "\\e").replace("-", "\\-")
    text = re.sub(r"`([^`]*)`", r"\\fB\1\\fP", text)
    return re.sub(r"(?m)^([.'])", r"\\&\1", text)


def paragraphs(comment):
    """The paragraphs of a comment, without its stars."""
    lines = [re.sub(r"^ ?\* ?", "", line).rstrip() for line in COMMENT.match(comment)[1].strip().split("\n")]
    for paragraph in "\n".join(lines).strip().split("\n\n"):
        items = re.split(r"(?m)^  - ", paragraph)
        if items[0].strip():
            yield ".PP\n" + escaped(" ".join(items[0].split()))
        for item in items[1:]:
            yield ".IP \\(bu 2\n" + escaped(" ".join(item.split()))


def code(text):
    """Declarations, as in the header."""
    lines = text.rstrip().split("\n")
    if len(lines) > LONG:
        return f".PP\n.nf\n{escaped(lines[0])}\n{escaped(lines[1])}\n    ...\n{escaped(lines[-1])}\n.fi\n.PP\nThe rest is in the header."
    return ".PP\n.nf\n" + escaped("\n".join(lines)) + "\n.fi"


def sections(text):
    """The header's sections by their titles, and what comes before the first."""
    body = text[
        text.index('extern "C" {\n#endif\n') + len('extern "C" {\n#endif\n') : text.rindex("#ifdef __cplusplus")
    ]
    parts = SECTION.split(body)
    return [("types and numbers", parts[0]), *zip(parts[1::2], parts[2::2])]


def pieces(body):
    """Each comment of a section, and the code below it up to an empty line or the next comment; either may be empty."""
    for block in re.split(r"\n\n+(?=\S)", body.strip("\n")):
        comment = re.match(r"/\*.*?\*/[^\S\n]*(?:\n|$)", block, re.S)
        yield (comment[0], block[comment.end() :]) if comment else ("", block)


def page(header=HEADER):
    """The manual page, as roff."""
    text = header.read_text()
    names = calls(header)
    lines = [
        f'.TH GEN1 3 "" "gen1 {".".join(version(header))}" "Library Functions"',
        ".SH NAME",
        ", ".join(["gen1", *names]) + " \\- first\\-generation link battles",
        ".SH SYNOPSIS",
        ".nf",
        "#include <gen1.h>",
        ".PP",
        "cc ... $(pkg\\-config \\-\\-cflags \\-\\-libs gen1)",
        ".fi",
        ".SH DESCRIPTION",
        *list(paragraphs(text))[1:],
    ]
    for title, body in sections(text):
        lines.append(f".SH {escaped(title.upper())}")
        for comment, below in pieces(body):
            lines += [code(below)] if below.strip() else []
            lines += paragraphs(comment) if comment else []
    lines += [".SH SEE ALSO", "The comments of gen1.h, from which this page is generated."]
    return "\n".join(lines) + "\n"
