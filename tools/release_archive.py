"""Archives whose bytes do not depend on who makes them, and when; and the crate for cargo."""

import datetime
import gzip
import io
import os
import re
import tarfile
from functools import partial

from c_library import ran
from repository import ROOT, version

# A block or span of code, in which nothing is a link, or a link: its words and its target.
LINK = re.compile(r"^(```|~~~).*?^\1 *$|`[^`\n]*`|\[([^\]\n]*)\]\(([^)\s]+)\)", re.M | re.S)


def within(document, found):
    """A link of a document as it is, or its words alone if its target is missing."""
    path = (found[3] or "").partition("#")[0]
    is_lost = path and not re.match("[a-z]+:", path) and not (document.parent / path).exists()
    return found[2] if is_lost else found[0]


def keep_links_within(documents):
    """Turns each link whose target is missing next to the documents into its words."""
    for document in documents:
        document.write_text(LINK.sub(partial(within, document), document.read_text()))


def epoch():
    """The time in archives: SOURCE_DATE_EPOCH, or the day of the version in CHANGELOG.md."""
    if given := os.environ.get("SOURCE_DATE_EPOCH"):
        return int(given)
    day = re.search(r"(?m)^## [\d.]+, (\d{4}-\d\d-\d\d)$", (ROOT / "CHANGELOG.md").read_text())
    return int(datetime.datetime.fromisoformat(f"{day[1]}T00:00:00+00:00").timestamp())


def told_nothing_of_its_maker(entry):
    """An entry of an archive without owner, and with the fixed time."""
    entry.uid = entry.gid = 0
    entry.uname = entry.gname = ""
    entry.mtime = epoch()
    entry.mode = 0o755 if entry.isdir() or entry.issym() or entry.mode & 0o100 else 0o644
    entry.pax_headers = {}
    return entry


def write_packed(entries, to):
    """Writes entries, each with its bytes, in the order of their names."""
    plain = io.BytesIO()
    with tarfile.open(fileobj=plain, mode="w", format=tarfile.GNU_FORMAT) as archive:
        for entry, data in sorted(entries, key=lambda it: it[0].name):
            archive.addfile(told_nothing_of_its_maker(entry), io.BytesIO(data) if data is not None else None)
    with open(to, "wb") as file, gzip.GzipFile(
        filename="", mode="wb", compresslevel=9, fileobj=file, mtime=0
    ) as packed:
        packed.write(plain.getvalue())


def pack(folder, to):
    """Writes a folder as a .tar.gz, with its name."""
    entries = []
    with tarfile.open(fileobj=io.BytesIO(), mode="w", format=tarfile.GNU_FORMAT) as maker:
        for path in [folder, *folder.rglob("*")]:
            entry = maker.gettarinfo(path, str(path.relative_to(folder.parent)))
            entry = tarfile.TarInfo(entry.name) if entry.islnk() else entry
            if path.is_file() and not path.is_symlink():
                entry.type, entry.size, entry.mode = tarfile.REGTYPE, path.stat().st_size, path.stat().st_mode
                entries.append((entry, path.read_bytes()))
            else:
                entries.append((entry, None))
    write_packed(entries, to)


def repack(path):
    """Writes a .tar.gz of another tool again, with these entries."""
    with tarfile.open(path) as archive:
        entries = [(entry, archive.extractfile(entry).read() if entry.isreg() else None) for entry in archive]
    write_packed(entries, path)


def packed_crate(target, verify=True):
    """Packs the crate gen1 by cargo, which builds it from what was packed unless `verify` is false, and returns the file."""
    words = [] if verify else ["--no-verify"]
    ran("cargo", "package", "-q", "-p", "gen1", "--allow-dirty", "--offline", "--target-dir", target, *words)
    return target / "package" / f"gen1-{version()}.crate"
