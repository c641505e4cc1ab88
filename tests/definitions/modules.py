"""The modules of the repository's crates: the names that each has in scope, and their meaning."""

import re
from pathlib import Path

from definitions import reading
from definitions.reading import Arrow

ROOT = Path(__file__).resolve().parent.parent.parent
ENUMERATION = re.compile(r"^(?:pub )?enum (\w+)[^{]*\{(.*?)^\}", re.M | re.S)
VARIANT = re.compile(r"^    (\w+)(?:\((.*?)\)| \{(.*?)\})?(?: = \w+)?,", re.M)
DATA = re.compile(r"^(?:pub )?data (\w+)[^\n]* where\n((?:  .*\n?)*)", re.M)
CONSTRUCTOR = re.compile(r"^  (\S+) : (.*)$", re.M)

# The constructors of the kit's own types, each with the number of its arguments.
STANDARD = {
    "true": ("Bool", []),
    "false": ("Bool", []),
    "None": ("Option", []),
    "Some": ("Option", ["A"]),
    "Ok": ("Result", ["A"]),
    "Err": ("Result", ["E"]),
    "pos": ("ℤ", ["ℕ"]),
    "negsuc": ("ℤ", ["ℕ"]),
}


class Constructor:
    """A constructor: its name, the types of its arguments, and all constructors of its type in their order."""

    def __init__(self, name, holding, siblings):
        self.name, self.holds, self.holding, self.siblings = name, len(holding), holding, siblings

    def next(self):
        """The next constructor with the same argument types, the first following the last; None where no other has them."""
        alike = [name for name, holding in self.siblings if holding == self.holding]
        own = self.name.rpartition(".")[2]
        following = alike[(alike.index(own) + 1) % len(alike)]
        return following if following != own else None


class Definition:
    """A definition: its module, its name, and its declaration."""

    def __init__(self, module, declared):
        self.module, self.declared, self.name = module, declared, declared.name

    def type(self):
        return reading.type_of(self.declared.type_text, self.declared.at)

    def clauses(self):
        return [reading.clause_of(text, at, self.name) for at, text in self.declared.clauses]

    def lines(self):
        """The first and the last line in its file, from 1."""
        last_at, last_text = self.declared.clauses[-1]
        text = self.module.text
        return text.count("\n", 0, self.declared.at) + 1, text.count("\n", 0, last_at + len(last_text.rstrip())) + 1


class Kind:
    """A type that is declared by its constructors."""

    def __init__(self, name, constructors):
        self.name, self.constructors = name, constructors


class Word:
    """A word of the kit's library."""

    def __init__(self, name):
        self.name = name


def constructors_of(type_name, holding):
    """The constructors of a type, by name, from (name, argument types)."""
    return {name: Constructor(f"{type_name}.{name}", held, holding) for name, held in holding}


def standard_constructor(name):
    """A constructor of the kit's own types; only its name counts."""
    kind, holding = STANDARD[name]
    return Constructor(name, holding, [(other, held) for other, (its, held) in STANDARD.items() if its == kind])


def declared_in_code(crate):
    """The enumerations of a crate's code: the constructors of each, by its name."""
    found = {}
    for file in sorted((ROOT / "crates" / crate / "src").rglob("*.rt")):
        for name, body in ENUMERATION.findall(file.read_text(encoding="utf-8")):
            holding = [
                (variant, [part.strip() for part in (fields or named).split(",") if part.strip()])
                for variant, fields, named in VARIANT.findall(body)
            ]
            found[name] = constructors_of(name, holding)
    return found


def declared_as_data(text):
    """The constructors of each `data` type of a module, by its name."""
    found = {}
    for name, body in DATA.findall(text):
        holding = [(constructor, held_by(kind)) for constructor, kind in CONSTRUCTOR.findall(body)]
        found[name] = constructors_of(name, holding)
    return found


def held_by(kind):
    """The argument types of a constructor of this type, as texts."""
    held, term = [], reading.type_of(kind)
    while isinstance(term, Arrow):
        held.append(kind[term.left.start : term.left.end])
        term = term.right
    return held


class Module:
    """A file of antt."""

    def __init__(self, library, path, file):
        self.library, self.path, self.file = library, path, file
        self.text = file.read_text(encoding="utf-8")
        self.uses, declared = reading.outline(self.text)
        self.definitions = {name: Definition(self, each) for name, each in declared.items()}
        kinds = declared_as_data(self.text)
        self.constructors = {name: each for held in kinds.values() for name, each in held.items()}
        self.kinds = {name: Kind(name, held) for name, held in kinds.items()}
        self.names, self.aliases = {}, {}

    def own(self, name):
        return self.definitions.get(name) or self.constructors.get(name) or self.kinds.get(name)

    def bring_in(self):
        """The names in its `use` lines."""
        for path, names, alias in self.uses:
            if alias:
                self.aliases[alias] = path
            for name in names:
                original, _, other = name.partition(" as ")
                self.names[other or original] = (path, original)

    def look_up(self, name, fields=()):
        """The meaning of a name, and the remaining fields after it; None where the name is unknown."""
        if name in self.aliases and fields:
            return self.library.inside(self.aliases[name], fields[0]), fields[1:]
        if found := self.own(name):
            return found, fields
        if name in self.names:
            return self.library.inside(*self.names[name]), fields
        return None, fields


class Library:
    """All modules below `root`, each read at its first use."""

    def __init__(self, root=ROOT):
        self.root, self.modules, self.code = Path(root), {}, {}

    def module(self, path):
        """The module of a path, as `Rattle.gen1_machine.specs.Step`."""
        if path not in self.modules:
            _, crate, *inner = path.split(".")
            made = Module(self, path, self.root.joinpath("crates", crate, *inner).with_suffix(".antt"))
            self.modules[path] = made
            made.bring_in()
        return self.modules[path]

    def inside(self, path, name):
        """The meaning of a name in a module."""
        parts = path.split(".")
        if parts[1] in ("std", "core"):
            return standard_constructor(name) if name in STANDARD else Word(name)
        if "declared" in parts:
            if parts[1] not in self.code:
                self.code[parts[1]] = declared_in_code(parts[1])
            if parts[-1] == "TheVariants":
                return self.code[parts[1]].get(parts[-2], {}).get(name)
            return Kind(name, self.code[parts[1]][name]) if name in self.code[parts[1]] else None
        module = self.module(path)
        return module.own(name) or module.look_up(name)[0]

    def paths(self, folder):
        """The paths of all modules in the folders of this name, `specs` or `proofs`, without those about the body of one function."""
        for crate in sorted(self.root.glob("crates/*")):
            deep = folder == "specs"
            for file in sorted((crate / folder).rglob("*.antt") if deep else (crate / folder).glob("*.antt")):
                if file.stem != "Lib":
                    yield ".".join(["Rattle", crate.name, *file.relative_to(crate).with_suffix("").parts])

    def where(self, name, folder="specs", crates=None):
        """The one module of these crates that declares a name."""
        declared = re.compile(rf"^(?:unfoldable |abbrev )?pub {re.escape(name)} : ", re.M)
        found = [
            path
            for path in self.paths(folder)
            if (crates is None or path.split(".")[1] in crates) and declared.search(self.file_text(path))
        ]
        if len(found) != 1:
            raise LookupError(f"{name} is declared in {len(found)} modules: {', '.join(found) or 'none'}")
        return self.module(found[0])

    def file_text(self, path):
        _, crate, *inner = path.split(".")
        return self.root.joinpath("crates", crate, *inner).with_suffix(".antt").read_text(encoding="utf-8")

    def listed(self):
        """The crates of crates.txt in their order, each with the crates that it names."""
        listed = {}
        for line in (self.root / "crates.txt").read_text(encoding="utf-8").splitlines():
            if ":" in line and not line.startswith("#"):
                name, _, others = line.partition(":")
                listed[name.split()[0]] = others.split()
        return listed

    def below(self, crate):
        """A crate and the crates of the repository that it depends on."""
        listed, found, left = self.listed(), [], [crate]
        while left:
            name = left.pop()
            if name in listed and name not in found:
                found.append(name)
                left += listed[name]
        return found
