"""Placeholders for the classes that need numpy, if it is not installed. They can be imported, and raise an error when used."""

from typing import NoReturn

from gen1.errors import NumpyMissing


class _Missing(type):
    """The type of a missing class: calling the class or accessing an attribute raises `NumpyMissing`."""

    def __call__(cls, *_: object, **__: object) -> NoReturn:
        raise NumpyMissing(cls.__name__)

    def __getattr__(cls, name: str) -> NoReturn:
        if name.startswith("_"):  # attributes that Python itself and `help` look up on any class
            raise AttributeError(f"{cls.__name__} has no {name!r}")
        raise NumpyMissing(cls.__name__)


def missing(name: str) -> type:
    """A placeholder for a missing class with this name."""
    return _Missing(name, (), {"__doc__": f"{name}, which needs numpy; it is not installed.", "__module__": "gen1"})
