"""tools/site: the site is built without a warning, its pages are there, and a link that leads nowhere is found."""

import re
import subprocess
from importlib.machinery import SourceFileLoader
from importlib.util import module_from_spec, spec_from_loader

import pytest
from conftest import ROOT

# The status of tools/site where a program is missing.
NO_TOOL = 77


@pytest.fixture(scope="module")
def tool():
    """tools/site as a module."""
    loader = SourceFileLoader("site_tool", str(ROOT / "tools" / "site"))
    module = module_from_spec(spec_from_loader("site_tool", loader))
    loader.exec_module(module)
    return module


@pytest.fixture(scope="module")
def site(tmp_path_factory):
    """The site, built by its command."""
    out = tmp_path_factory.mktemp("site") / "built"
    done = subprocess.run([ROOT / "tools" / "site", out], capture_output=True, text=True)
    if done.returncode == NO_TOOL:
        pytest.skip(done.stderr.strip().splitlines()[-1])
    assert done.returncode == 0, done.stderr
    return out


def test_each_document_is_a_page(site, tool, compared):
    names = [name.replace(".md", ".html") for name in tool.pages().values()]
    assert [name for name in names if not (site / name).is_file()] == []
    listed = set(re.findall(r'href="([\w/]+\.html)"', (site / "index.html").read_text()))
    assert [name for name in names if name not in listed and name != "index.html"] == []
    compared(len(names))


def test_the_references_have_their_names(site, compared):
    due = {
        "python/battles.html": 'id="gen1.Battle.update"',
        "c/gen1_8h.html": "gen1_update",
        "rust/gen1/struct.Battle.html": 'id="method.update"',
        "types.html": "fromPlayer",
    }
    assert [name for name, text in due.items() if text not in (site / name).read_text()] == []
    compared(len(due))


def test_documents_that_comments_name_are_links(site):
    assert '<a href="../MECHANICS.html#events">' in (site / "c" / "gen1_8h.html").read_text()
    assert '<a href="../MECHANICS.html#players-view">' in (site / "python" / "players.html").read_text()


def test_a_link_that_leads_nowhere_is_found(tool, tmp_path):
    (tmp_path / "one.html").write_text(
        '<a href="two.html#here">a</a><a href="two.html#gone">a</a><a href="three.html">'
    )
    (tmp_path / "two.html").write_text('<h1 id="here">a</h1><a href="https://example.org/gone">')
    assert list(tool.lost_links(tmp_path)) == ["one.html: three.html", "one.html: two.html#gone"]


def test_links_of_a_document(tool):
    known = tool.pages()

    def rewritten(text):
        return tool.LINK.sub(lambda found: tool.linked(ROOT / "python" / "gen1" / "README.md", known, found), text)

    assert rewritten("[a](../../docs/START.md#c)") == "[a](START.md#c)"
    assert rewritten("[a](batch.c)") == f"[a]({tool.REPOSITORY}/blob/main/python/gen1/batch.c)"
    assert rewritten("[a](../../examples/python/duel)") == f"[a]({tool.REPOSITORY}/tree/main/examples/python/duel)"
    assert rewritten("[a](https://example.org/b) `[a](b)`") == "[a](https://example.org/b) `[a](b)`"
