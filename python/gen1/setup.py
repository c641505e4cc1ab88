"""The wheel of `gen1`: with the shared library, so for one platform, and for any Python 3. tools/python_wheel calls this."""

import ctypes
import platform
import re
from pathlib import Path

from setuptools import Distribution, setup

try:
    from setuptools.command.bdist_wheel import bdist_wheel
except ImportError:  # a setuptools before 70.1, which has it from the package wheel
    from wheel.bdist_wheel import bdist_wheel

HERE = Path(__file__).resolve().parent
LIBRARY = HERE / "src" / "gen1" / "libgen1.so"
# The searches and Showdown's protocol, which a package without cargo lacks.
EXTRAS = LIBRARY.with_name("libgen1_extras.so")
# The program, which it lacks too, and the page; where they are, and where they are installed.
PROGRAM, PAGE = HERE / "gen1", HERE / "gen1.html"
INSTALLED = ((PROGRAM, "bin"), (PAGE, "share/gen1"))
# What a manylinux wheel may link without carrying it, of what the libraries could need: glibc, and what unwinds.
GLIBC = re.compile(rb"(libgen1|libgen1_extras_c|libc|libm|libgcc_s|ld-linux[\w-]*)\.so[.\d]*")


class Binary(Distribution):
    """A package for one platform."""

    def has_ext_modules(self):
        return True


def manylinux(platform, library):
    """The platform's tag, as manylinux_2_N where the libraries link only glibc and libgcc_s, and need no version of glibc above 2.N.

    The names of what a library links, and of the versions that its symbols need, are texts in its file. A text elsewhere in it can only
    make the tag stricter.
    """
    links = re.findall(rb"\0(lib[\w.+-]*\.so[.\d]*|ld-[\w.+-]*\.so[.\d]*)(?=\0)", library)
    needs = [int(it) for it in re.findall(rb"\0GLIBC_2\.(\d+)", library)]
    if not platform.startswith("linux_") or not needs or not all(GLIBC.fullmatch(it) for it in links):
        return platform
    return platform.replace("linux_", f"manylinux_2_{max(5, *needs)}_", 1)


class Wheel(bdist_wheel):
    """A wheel of no Python's own binary interface: the library is loaded by ctypes."""

    def get_tag(self):
        libraries = b"".join(it.read_bytes() for it in (LIBRARY, EXTRAS, PROGRAM) if it.is_file())
        return "py3", "none", manylinux(super().get_tag()[2], libraries)


for name in ("VERSION", "src/gen1/libgen1.so"):
    if not (HERE / name).is_file():
        raise SystemExit(f"{name} is missing: build by tools/python_wheel, which puts it there")
try:
    ctypes.CDLL(str(LIBRARY))
except OSError as fault:
    raise SystemExit(
        f"src/gen1/libgen1.so is of another machine and cannot be loaded on this {platform.system()} of {platform.machine()} ({fault}): "
        "build the C library here, and the package by tools/python_wheel of the repository"
    ) from None

setup(
    version=(HERE / "VERSION").read_text().strip(),
    cmdclass={"bdist_wheel": Wheel},
    distclass=Binary,
    data_files=[(folder, [it.name]) for it, folder in INSTALLED if it.is_file()],
)
