"""Compares the structs and prototypes of include/gen1.h with those of the sources: names, types and places in memory.

A proof sees the sources alone, so it can't see two fields or parameters of one type that the header has in another order. Each
number of a struct is compared: its path through the fields, its type and its offset, in the header as a C compiler lays it out and
in the sources by the rules of `repr(C)`. Each exported function is compared parameter by parameter. A slice of the sources is a
pointer and a length in C. The few names that differ are in NAMES; arrays of the header that have a field for each place in the
sources are in PARTS.
"""

import re
import subprocess
from itertools import combinations
from typing import NamedTuple

import pytest
from repository import ROOT

NUMBERS = {
    "u8": "uint8_t",
    "i8": "int8_t",
    "u16": "uint16_t",
    "u32": "uint32_t",
    "u64": "uint64_t",
    "usize": "size_t",
    "bool": "bool",
}
C_TYPES = {**NUMBERS, "Packed": "gen1_battle"}
# Names of the sources, each with the names that the header has for it.
NAMES = {
    "number": ("move", "species", "type"),
    "id": ("move",),
    "kind": ("type",),
    "byte": ("choice",),
    "front": ("choices",),
    "watch": ("spectator",),
    "written": ("length",),
    "public": ("known",),
}
PARTS = {
    "chosen": ("one", "two"),
    "sides": ("one", "two"),
    "stages": tuple(f"stages.{stage}" for stage in ("attack", "defense", "speed", "special", "accuracy", "evasion")),
}
# The bytes of each number, which are its alignment too, and of a battle.
WIDTHS = {"uint8_t": 1, "int8_t": 1, "uint16_t": 2, "uint32_t": 4, "uint64_t": 8, "size_t": 8}
BATTLE = {"gen1_battle": 384}
RUST_STRUCT = re.compile(r"#\[repr\(C\)\]\n(?:#\[[^\n]*\]\n)*pub struct (\w+) \{\n(.*?)^\}", re.M | re.S)
RUST_FIELD = re.compile(r"(?m)^    (?:pub )?(\w+): (.+?) *,$")
RUST_CALL = re.compile(r'pub extern "C" fn (gen1_\w+)\(([^)]*)\)(?:\s*->\s*(\w+))?')
C_STRUCT = re.compile(r"typedef struct (gen1_\w+) \{(.*?)\} \1;", re.S)
C_FIELD = re.compile(r"(\w+) (\w+)(\[\w+\])?;")
C_CALL = re.compile(r"(?m)^(\w+) (gen1_\w+)\(([^)]*)\);")
# The program that prints what a C compiler makes of the header.
PROGRAM = """#include <stdio.h>
#include "gen1.h"
#define TYPE(type) printf("%s 0 %zu\\n", #type, sizeof(type));
#define FIELD(type, field) printf("%s %zu %zu\\n", #type "." #field, offsetof(type, field), sizeof(((type *)0)->field));
int main(void) { LINES return 0; }
"""


class Layouts(NamedTuple):
    """The bytes of each type, and the fields of each struct: name, type, length (0 if it isn't an array) and offset."""

    sizes: dict
    fields: dict


def sources():
    """The text of every library's code."""
    return "\n".join(path.read_text() for path in sorted(ROOT.glob("crates/gen1_*/src/**/*.rt")))


def header():
    """The header without its comments."""
    return re.sub(r"/\*.*?\*/", "", (ROOT / "include" / "gen1.h").read_text(), flags=re.S)


def declared_structs(text):
    """The structs of the sources: name, type and length of each field, with numbers as C names them."""
    structs = {}
    for struct, body in RUST_STRUCT.findall(text):
        found = [(name, re.fullmatch(r"\[(\w+); (\d+)\]|(\w+)", kind)) for name, kind in RUST_FIELD.findall(body)]
        structs[struct] = [(name, C_TYPES.get(it[1] or it[3], it[1] or it[3]), int(it[2] or 0)) for name, it in found]
    return structs


def laid_out(declared):
    """Structs of the sources by the rules of `repr(C)`."""
    sizes, alignments, fields = {**WIDTHS, **BATTLE}, dict.fromkeys(BATTLE, 1) | WIDTHS, {}

    def lay_out(struct):
        end, fields[struct] = 0, []
        for name, kind, length in declared[struct]:
            if kind not in sizes:
                lay_out(kind)
            start = end + -end % alignments[kind]
            fields[struct].append((name, kind, length, start))
            end = start + sizes[kind] * max(length, 1)
        alignments[struct] = max(alignments[kind] for _, kind, _ in declared[struct])
        sizes[struct] = end + -end % alignments[struct]

    for struct in declared:
        if struct not in sizes:
            lay_out(struct)
    return Layouts(sizes, fields)


def compiled(text, work):
    """The structs of the header, as a C compiler lays them out."""
    structs = {name: C_FIELD.findall(body) for name, body in C_STRUCT.findall(text)}
    kinds = sorted({*structs, *(kind for them in structs.values() for kind, _, _ in them)})
    lines = [f"TYPE({kind})" for kind in kinds]
    lines += [f"FIELD({struct}, {name})" for struct, them in structs.items() for _, name, _ in them]
    (work / "layout.c").write_text(PROGRAM.replace("LINES", "\n".join(lines)))
    subprocess.run(["cc", f"-I{ROOT / 'include'}", "layout.c", "-o", "layout"], cwd=work, check=True)
    printed = subprocess.run([work / "layout"], stdout=subprocess.PIPE, text=True, check=True).stdout
    found = {name: (int(at), int(size)) for name, at, size in map(str.split, printed.splitlines())}
    sizes = {kind: found[kind][1] for kind in kinds}
    fields = {}
    for struct, them in structs.items():
        them = [(kind, name, array, *found[f"{struct}.{name}"]) for kind, name, array in them]
        fields[struct] = [(name, kind, size // sizes[kind] if array else 0, at) for kind, name, array, at, size in them]
    return Layouts(sizes, {struct: them for struct, them in fields.items() if struct not in BATTLE})


def leaves(layouts, struct, path="", offset=0):
    """The numbers of a struct, in order, each with path, type and offset. `sides` of two and the fields `one`, `two` are the same."""
    for name, kind, length, at in layouts.fields[struct]:
        parts = PARTS.get(name, ())
        parts = parts if length == len(parts) else ()
        if kind not in layouts.fields and not parts:
            yield path + name, f"{kind}[{length}]" if length else kind, offset + at
            continue
        alone = [f"{name}[{place}]" for place in range(length)] or [name]
        for place, part in enumerate(parts or alone):
            start = offset + at + place * layouts.sizes[kind]
            if kind in layouts.fields:
                yield from leaves(layouts, kind, f"{path}{part}.", start)
            else:
                yield path + part, kind, start


def is_same(rust, c):
    return rust == c or c in NAMES.get(rust, ())


def fault_of_struct(rust, struct, c, c_struct):
    """The first place where a struct of the sources and its struct of the header differ, or None."""
    places, c_places = list(leaves(rust, struct)), list(leaves(c, c_struct))
    for (path, kind, at), (c_path, c_kind, c_at) in zip(places, c_places):
        names, c_names = path.split("."), c_path.split(".")
        if len(names) != len(c_names) or not all(map(is_same, names, c_names)) or (kind, at) != (c_kind, c_at):
            return f"'{kind} {path}' is at {at} in the sources, '{c_kind} {c_path}' at {c_at} in the header"
    size, c_size = rust.sizes[struct], c.sizes[c_struct]
    if len(places) != len(c_places) or size != c_size:
        return f"{len(places)} numbers in {size} bytes in the sources, {len(c_places)} in {c_size} in the header"
    return None


def due_parameters(text, named):
    """The parameters of a function of the sources as the header has to have them: name and type."""
    for parameter in filter(None, (it.strip() for it in text.split(","))):
        name, kind = parameter.split(": ")
        found = re.fullmatch(r"(&mut |&)?(?:\[(\w+)(?:; (\d+))?\]|(\w+))", kind)
        of = NUMBERS.get(found[2] or found[4]) or named.get(found[2] or found[4])
        yield name, (of if found[1] == "&mut " else f"const {of}" if found[1] else of) + (" *" if found[1] else "")
        if found[2] and not found[3]:
            yield "written" if name in ("log", "text") and found[1] == "&mut " else "count", "size_t"


def parameters_of(text):
    for parameter in filter(None, (it.strip() for it in text.replace("void", "").split(","))):
        found = re.fullmatch(r"(const )?(\w+) (\*?)(\w+)(\[\w+\])?", " ".join(parameter.split()))
        yield found[4], (found[1] or "") + found[2] + (" *" if found[3] or found[5] else "")


def fault_of_call(rust, c, result, c_result):
    """What differs between the parameters of a function, or None. Lengths are compared by their type; `char` is a byte."""
    if (NUMBERS[result] if result else "void") != c_result:
        return f"it returns {c_result} in the header"
    if len(rust) != len(c):
        return f"{len(rust)} parameters in the sources, {len(c)} in the header"
    for (name, kind), (c_name, c_kind) in zip(rust, c):
        if kind.replace("uint8_t", "char") != c_kind.replace("uint8_t", "char"):
            return f"'{kind} {name}' in the sources, '{c_kind} {c_name}' in the header"
        if kind != "size_t" and not is_same(name, c_name):
            return f"parameter '{name}' in the sources, '{c_name}' in the header"
    return None


def names_of_structs(calls, c_calls, structs, c_structs):
    """The header's name of each struct of the sources, by where parameters and fields of these types are."""
    named = {"Packed": "gen1_battle"}
    for name in sorted(set(calls) & set(c_calls)):
        kinds = re.findall(r"&(?:mut )?\[?([A-Z]\w*)", calls[name][0])
        named.update(zip(kinds, re.findall(r"\b(gen1_\w+) \*", c_calls[name][0])))
    reached = list(named)
    for kind in reached:
        fields = {name: of for name, of, _, _ in c_structs.get(named[kind], ()) if of in c_structs}
        for name, of, _ in structs.get(kind, ()):
            found = [c_of for c_name, c_of in fields.items() if is_same(name, c_name) or name in PARTS.get(c_name, ())]
            if of in structs and of not in named and found:
                named[of] = found[0]
                reached.append(of)
    return named


class Both:
    """What the sources and the header declare."""

    def __init__(self, work):
        text, c_text = sources(), header()
        self.calls = {name: (parameters, result) for name, parameters, result in RUST_CALL.findall(text)}
        self.c_calls = {name: (parameters, result) for result, name, parameters in C_CALL.findall(c_text)}
        self.structs, self.c = declared_structs(text), compiled(c_text, work)
        self.named = names_of_structs(self.calls, self.c_calls, self.structs, self.c.fields)

    def faults_of_structs(self, structs):
        """What differs between structs of the sources and those of the header, each as a line."""
        rust = laid_out(structs)
        for struct in sorted(set(self.named) & set(structs)):
            if fault := fault_of_struct(rust, struct, self.c, self.named[struct]):
                yield f"{self.named[struct]}: {fault}"
        for c_struct in sorted(set(self.c.fields) - set(self.named.values())):
            yield f"{c_struct}: no struct of the sources was found for it"

    def faults_of_calls(self):
        """What differs between the functions, each as a line."""
        for name in sorted(set(self.calls) ^ set(self.c_calls)):
            yield f"{name}: only in {'the sources' if name in self.calls else 'the header'}"
        for name in sorted(set(self.calls) & set(self.c_calls)):
            (parameters, result), (c_parameters, c_result) = self.calls[name], self.c_calls[name]
            due, found = list(due_parameters(parameters, self.named)), list(parameters_of(c_parameters))
            if fault := fault_of_call(due, found, result, c_result):
                yield f"{name}: {fault}"


@pytest.fixture
def both(needs, tmp_path):
    needs("cc")
    return Both(tmp_path)


def test_the_header_is_that_of_the_sources(both, compared):
    assert both.calls and both.structs
    faults = [*both.faults_of_structs(both.structs), *both.faults_of_calls()]
    compared(len(both.calls) + len(both.structs), (f"include/gen1.h: {fault}" for fault in faults))


def test_exchanged_fields_are_found(both, compared):
    """In each struct of the header two fields of one type are exchanged, such as both sides: each exchange is a fault."""
    exchanges = [
        (struct, one, two)
        for struct, fields in both.structs.items()
        for one, two in combinations(range(len(fields)), 2)
        if struct in both.named and fields[one][1:] == fields[two][1:]
    ]
    faults = []
    for struct, one, two in exchanges:
        fields = list(both.structs[struct])
        fields[one], fields[two] = fields[two], fields[one]
        if not any(both.faults_of_structs({**both.structs, struct: fields})):
            faults.append(f"{struct}: {fields[one][0]} and {fields[two][0]} can be exchanged")
    compared(len(exchanges), faults)
