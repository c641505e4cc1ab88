"""Reads the documents with markdown-it: their headings, links, code and blocks.

A block is fenced (```sh), or indented by four spaces. Blocks of commands are those in `sh`, and all indented ones. Any other text is in
a fence with its language (```text, ```json). The comment on the line right above a block says what is done with it; readers do not
see it.
"""

import re
from functools import cache
from typing import NamedTuple
from urllib.parse import unquote

from markdown_it import MarkdownIt
from repository import ROOT

DOCUMENTS = ("*.md", "docs/*.md", "crates/*/CALLING.md", "*/README.md", "*/*/README.md", "*/*/*/README.md")
MARKDOWN = MarkdownIt("commonmark").enable("table")
COMMENT = re.compile(r"<!-- (.*?) *-->")
WEB = re.compile(r"[a-z]+:")


class Block(NamedTuple):
    """A block of a document."""

    line: int  # of its first line, from 1
    language: str  # of its fence; `sh` where it is indented
    text: str
    said: str  # the comment above it; empty where there is none
    heading: str  # the heading above it

    @property
    def is_commands(self):
        return self.language == "sh"


def documents():
    """The documents of the repository."""
    return [file for where in DOCUMENTS for file in sorted(ROOT.glob(where))]


@cache
def tokens(document):
    """The tokens of a document."""
    return MARKDOWN.parse(document.read_text())


def headings(document):
    """The headings of a document, without marks."""
    parsed = tokens(document)
    return [shown(it) for above, it in zip(parsed, parsed[1:]) if above.type == "heading_open"]


def shown(inline):
    """The text of a line without its marks."""
    return "".join(it.content for it in inline.children)


def blocks(document):
    """The blocks of a document, in their order."""
    parsed, lines, heading, found = tokens(document), document.read_text().splitlines(), "", []
    for above, token in zip(parsed, parsed[1:]):
        if above.type == "heading_open":
            heading = shown(token)
        if token.type in ("fence", "code_block"):
            begins, fenced = token.map[0], token.type == "fence"
            said = COMMENT.fullmatch(lines[begins - 1].strip()) if begins else None
            language = token.info.strip() if fenced else "sh"
            found.append(Block(begins + 1 + fenced, language, token.content, said[1] if said else "", heading))
    return found


def in_lines(document):
    """The parts of each line outside of blocks: the number of the line, and a part."""
    for token in tokens(document):
        line = token.map[0] + 1 if token.type == "inline" else 0
        for part in token.children or ():
            line += part.type in ("softbreak", "hardbreak")
            yield line, part


def code(document):
    """Each text in backquotes, with its line."""
    return ((line, part.content) for line, part in in_lines(document) if part.type == "code_inline")


def text(document):
    """Each text outside of blocks as it is written, but without its code, with its line."""
    for token in tokens(document):
        if token.type == "inline":
            yield token.map[0] + 1, re.sub(r"`[^`\n]*`", "", token.content)


@cache
def anchors(document):
    """The anchors of a document's headings, as the usual renderers make them; repeated ones get a number."""
    seen, found = {}, set()
    for heading in headings(document):
        anchor = re.sub(r"[^\w\- ]", "", heading.lower()).replace(" ", "-")
        count = seen.get(anchor, 0)
        seen[anchor] = count + 1
        found.add(f"{anchor}-{count}" if count else anchor)
    return found


def fault_of_link(document, target, root):
    """What is wrong with a link of a document below a root, or None."""
    path, _, anchor = unquote(target).partition("#")
    file = (document.parent / path).resolve() if path else document
    if not file.exists():
        return f"{target} does not exist"
    if not file.is_relative_to(root):
        return f"{target} is outside of {root.name}"
    if anchor and (file.suffix != ".md" or anchor not in anchors(file)):
        return f"{target} is not a heading"
    return None


def links(document, root=ROOT):
    """The line and the fault of each link that does not lead to the web."""
    for line, part in in_lines(document):
        target = {"link_open": part.attrs.get("href"), "image": part.attrs.get("src")}.get(part.type)
        if target and not WEB.match(target):
            yield line, fault_of_link(document, target, root)


def lost_links(root):
    """What is wrong with the links of all documents below a folder."""
    for document in sorted(root.rglob("*.md")):
        for _, fault in links(document, root):
            if fault:
                yield f"{document.relative_to(root)}: {fault}"
