"""Settings of Sphinx, for tools/site. They also write the pages of the Python reference, from the package's own lists of names."""

import re
from importlib import import_module
from importlib.util import find_spec
from inspect import getdoc
from operator import attrgetter
from os import environ
from pathlib import Path

import gen1
from docutils import nodes

project = "gen1"
version = release = environ["GEN1_VERSION"]
extensions = ["myst_parser", "sphinx.ext.autodoc"]
html_theme = "furo" if find_spec("furo") else "alabaster"
html_title = f"gen1 {version}"
html_copy_source = html_show_sourcelink = html_show_copyright = html_show_sphinx = False
smartquotes = False
highlight_language = "text"
# Links to headings, as the repository's pages show them.
myst_heading_anchors = 6

# A name between backquotes in a docstring is a link where it is one of the package.
default_role = "py:obj"
nitpick_ignore_regex = [("py:obj", "(?s).*"), ("py:class", r"(?!gen1\.).*")]
# Blocks in Rattle have contracts, which a lexer of Rust doesn't know.
suppress_warnings = ["misc.highlighting_failure"]
autodoc_member_order = "bysource"
autodoc_typehints_format = "short"
autodoc_preserve_defaults = True
autodoc_default_options = {"members": True, "undoc-members": True}

# The pages of the Python reference: the modules whose names each of them has.
TOPICS = {
    "battles": ("Battles", "battle choices recorder"),
    "teams": ("Teams and tables", "teams samples tables"),
    "states": ("States, odds and outcomes", "states _odds _outcomes"),
    "events": ("Events and logs", "_events sentences"),
    "players": ("Players, hosts and spectators", "players own_sides guesses rooms hosts messages spectators"),
    "arrays": ("Arrays", "arrays player_arrays outcome_arrays encodings observations layout"),
    "environments": ("Environments", "environments vectors opponents"),
    "draws": ("Draws", "draws"),
    "search": ("Searches, and Showdown's protocol", "search showdown"),
    "names": ("Names and codes", "names"),
    "errors": ("Errors", "errors"),
}
# Modules with public names that gen1 itself does not have, and such names of another module.
WHOLE = ("draws", "layout", "observations", "opponents", "search", "showdown")
MORE = {"encodings": ["encodings.Column", "encodings.described"], "sentences": ["sentences.sentence"]}
INDEX = """Python reference
================

The package ``gen1``, from its docstrings. Its page_ says how to use it. All names are those of ``gen1``, but for the modules whose
names are written in full.

.. _page: ../python.html

.. toctree::
   :maxdepth: 1

   {}
"""


def names_by_module():
    """The names of gen1, by the module that defines them. The classes then get the name that a program imports."""
    found = {}
    for name in gen1.__all__:
        thing = getattr(gen1, name)
        module = getattr(thing, "__module__", "")
        if module.startswith("gen1."):
            found.setdefault(module.removeprefix("gen1."), []).append(name)
            thing.__module__ = "gen1"
    return found


def directives(module, names):
    """The reference of a module: its docstring, then each name."""
    if module in WHOLE:
        yield f".. automodule:: gen1.{module}\n"
    else:
        yield getdoc(import_module(f"gen1.{module}")) + "\n"
    for name in [*names, *MORE.get(module, [])]:
        kind = "class" if isinstance(attrgetter(name)(gen1), type) else "function"
        yield f".. auto{kind}:: gen1.{name}\n"


def write_reference(app, config):
    """Writes a page for each topic, and their index."""
    folder, left = Path(app.srcdir) / "python", names_by_module()
    folder.mkdir(exist_ok=True)
    for name, (heading, modules) in TOPICS.items():
        parts = [part for module in modules.split() for part in directives(module, left.pop(module, []))]
        (folder / f"{name}.rst").write_text("\n".join([heading, "=" * len(heading), "", *parts]))
    if left:
        raise ValueError(f"docs/conf.py: TOPICS has no page for the modules {', '.join(left)}")
    (folder / "index.rst").write_text(INDEX.format("\n   ".join(TOPICS)))


def short(app, what, name, thing, options, signature, returned):
    """A signature without the modules of its types, and with the class that a type variable represents."""
    parts = [
        re.sub(r"\b(collections\.abc|typing|gen1)\.(?=[A-Z])", "", it) if it else it for it in (signature, returned)
    ]
    return parts[0], parts[1] and re.sub(r"~?(gen1\.battle\.)?\bB\b", "Battle", parts[1])


def with_anchors(app, document):
    """Gives each heading of a page also the anchor that it has in the repository."""
    for section in document.findall(nodes.section):
        anchor = section.get("myst-anchor", "").partition("#")[2]
        if anchor and anchor not in section["ids"]:
            section["ids"].append(anchor)


def setup(app):
    app.connect("config-inited", write_reference)
    app.connect("doctree-read", with_anchors)
    app.connect("autodoc-process-signature", short)
