"""A source of crates/ as plain Rust: contracts, ghost code, laws and marks off, line for line.

Each pass takes a Source and changes its tokens in place. A form that no pass knows is an error with its file and line.
"""
import re

from plain_tokens import Unknown, partners, tokens_of

DERIVES = {"Clone", "Copy", "Debug", "Default", "PartialEq", "Eq", "PartialOrd", "Ord", "Hash"}
ATTRIBUTES = {"inline", "repr", "unsafe", "default", "error", "must_use", "cold"}
MACROS = {
    "assert",
    "assert_eq",
    "assert_ne",
    "debug_assert",
    "macro_rules",
    "matches",
    "unreachable",
    "write",
}
PRELUDE = ("Vec", "String")

# The public types of which any value is valid, so that serde's data may be derived. All others have it in additions/.
WITH_SERDE = {
    "gen1_engine": {"BattleResult"},
    "gen1_machine": {
        "CantReason",
        "DamageSource",
        "DisabledSlot",
        "Event",
        "Kind",
        "Outcome",
        "Request",
        "UsedMove",
        "Volatile",
        "Who",
    },
    "gen1_playouts": {"Playouts"},
    "gen1_stats": {"KnownMove"},
    "gen1_tables": {"Element", "Stat"},
}
SERDE = '#[cfg_attr(feature = "serde", derive(serde::Serialize, serde::Deserialize))]'
# Public functions of these names may be called where a constant is made.
CONSTANT = {"gen1_machine": ("new", "number", "bits", "byte"), "gen1_tables": ("new", "number")}

# What replaces a path of the kit's std: the same in core, an item of the adapter, or nothing (a trait only for proofs).
SAME_IN_CORE = ("array", "cell", "cmp", "convert", "error", "fmt", "hash", "iter", "mem", "num", "ops", "slice", "str")
IN_ADAPTER = {
    "std::alloc::AllocError": "gen1_adapter::alloc::AllocError",
    "std::alloc::Allocator": "gen1_adapter::alloc::Allocator",
    "std::alloc::Global": "gen1_adapter::alloc::Global",
    "std::convert::AsStr": "gen1_adapter::text::AsStr",
    "std::io::Read": "gen1_adapter::io::Read",
    "std::io::Write": "gen1_adapter::io::Write",
    "std::marker::Brand": "gen1_adapter::marker::Brand",
    "std::marker::PhantomData": "core::marker::PhantomData",
}
PROOFS_ALONE = {"std::marker::Model"}


class Source:
    """A source during translation: its tokens and its crate."""

    def __init__(self, path, text, crate):
        self.path, self.crate = path, crate
        self.tokens = tokens_of(text, path)
        self.exports, self.after = [], []
        self.refresh()

    def refresh(self):
        """Lists the tokens that are code again, after some were dropped."""
        for place, token in enumerate(self.tokens):
            token.place = place
        self.code = [token for token in self.tokens if token.kind not in ("space", "comment", "off")]
        self.ends = partners(self.code, self.path)

    def fail(self, token, what):
        raise Unknown(f"{self.path}:{token.line}: {what}")

    def drop(self, first, last):
        """Drops the tokens from one place to another."""
        for token in self.tokens[self.code[first].place : self.code[last].place + 1]:
            token.drop()

    def drop_word(self, first, last):
        """Drops some code and the blank after it."""
        self.drop(first, last)
        after = self.tokens[self.code[last].place + 1]
        if after.kind == "space":
            after.drop()

    def put(self, first, last, text):
        """Replaces some code by a text of one line."""
        self.drop(first, last)
        self.code[first].text = text + self.code[first].text
        self.code[first].kind = "made"

    def is_at(self, place, words):
        """Whether the code at a place begins with these words, separated by blanks."""
        words = words.split()
        return [token.text for token in self.code[place : place + len(words)]] == words

    def find(self, words):
        """The places where the code has these words."""
        first = words.split()[0]
        return [place for place, token in enumerate(self.code) if token.text == first and self.is_at(place, words)]

    def next_at(self, place, text):
        while self.code[place].text != text:
            place += 1
        return place

    def drop_with_docs(self, first, last):
        """Drops an item with the comments and attributes before it."""
        begin = self.code[first].place
        while begin > 0 and self.tokens[begin - 1].kind in ("space", "comment", "off"):
            begin -= 1
            if self.tokens[begin].kind == "space" and self.tokens[begin].text.count("\n") > 1:
                break
        for token in self.tokens[begin : self.code[last].place + 1]:
            token.drop()

    def text(self):
        whole = "".join(token.text for token in self.tokens)
        return "\n".join(line.rstrip() for line in whole.split("\n")) + "".join(self.after)


def begin_of_item(source, place):
    """Where the item with this keyword begins, with its visibility and attributes."""
    code = source.code
    while place > 0:
        if code[place - 1].text in ("pub", "const", "unsafe"):
            place -= 1
        elif (
            code[place - 1].text == ")"
            and source.is_at(place - 4, "pub (")
            and code[place - 2].text in ("crate", "super")
        ):
            place -= 4
        elif code[place - 1].text == "]":
            opening = next(begin for begin, end in source.ends.items() if end == place - 1)
            if code[opening - 1].text != "#":
                return place
            place = opening - 1
        else:
            return place
    return place


def is_law(source, name):
    """Whether the function with its name at this place has only a contract."""
    opening = source.next_at(name, "(")
    body = source.ends[opening] + 1
    has_clause = body < len(source.code) and any(
        token.kind == "off" and token.was_clause
        for token in source.tokens[source.code[body - 1].place : source.code[body].place]
    )
    return has_clause and source.is_at(body, "{ }")


def laws_of(source):
    """The names of the laws of a source: functions of no type, with a contract and no body."""
    depth, found = 0, []
    for place, token in enumerate(source.code):
        if token.text == "fn" and depth == 0 and is_law(source, place + 1):
            found.append(source.code[place + 1].text)
        depth += {"{": 1, "}": -1}.get(token.text, 0) if token.kind == "mark" else 0
    return found


def take_laws(source):
    """Drops laws."""
    for name in laws_of(source):
        place = source.find(f"fn {name}")[0]
        opening = source.next_at(place, "{")
        source.drop_with_docs(begin_of_item(source, place), source.ends[opening])
        source.refresh()


def take_citations(source):
    """Drops calls of laws, which do nothing."""
    laws = {name for crate in source.crate.depends | {"crate"} for name in source.crate.laws_by(crate)}
    for place in source.find("( ) ;"):
        if source.code[place - 1].text in laws and source.code[place - 2].text in (";", "{", "}", ""):
            source.drop(place - 1, place + 2)
    source.refresh()


def take_empty_modules(source):
    """Drops the declaration of a module that had only laws."""
    for place in reversed(source.find("mod")):
        if source.is_at(place + 2, ";") and source.code[place + 1].text in source.crate.law_names:
            source.drop_with_docs(begin_of_item(source, place), place + 2)
    source.refresh()


def take_attributes(source):
    """Drops marks for the prover, among them `Drop`."""
    for place in source.find("#"):
        if source.code[place].kind == "off":
            continue
        opening = place + (2 if source.is_at(place + 1, "!") else 1)
        closing, name = source.ends[opening], source.code[opening + 1].text
        if name == "tactic":
            source.drop(place, closing)
        elif name == "derive":
            take_derives(source, place, opening, closing)
        elif name not in ATTRIBUTES:
            source.fail(source.code[place], f"an unknown attribute, {name}")
    source.refresh()


def take_derives(source, place, opening, closing):
    names = [token.text for token in source.code[opening + 3 : closing - 1] if token.text != ","]
    item = next(at for at in range(closing, len(source.code)) if source.code[at].text in ("struct", "enum"))
    owner = source.code[item + 1].text
    own = {"Debug"} if re.search(rf"\bDebug for {owner}\b", source.crate.added) else set()
    kept = [name for name in names if name not in {"Drop"} | own]
    for name in set(kept) - DERIVES:
        source.fail(source.code[place], f"an unknown derive, {name}")
    if not kept:
        source.drop(place, closing)
    elif owner in WITH_SERDE.get(source.crate.name, ()):
        source.put(place, closing, f"#[derive({', '.join(kept)})] {SERDE}")
    elif kept != names:
        source.put(place, closing, f"#[derive({', '.join(kept)})]")


def take_models(source):
    """Drops how a contract sees a type."""
    for place in source.find("Model for"):
        opening = source.next_at(place, "{")
        if source.ends[opening] != opening + 1:
            source.fail(source.code[place], "an impl of Model with code in it")
        begin = place
        while source.code[begin].text != "impl":
            begin -= 1
        source.drop_with_docs(begin, opening + 1)
    source.refresh()


def take_clones(source):
    """A clone of the kit may return an error, out of memory; Rust's always succeeds."""
    for place in source.find("impl Clone for"):
        opening = source.next_at(place, "{")
        method = source.next_at(opening, "fn")
        arrow = method + 6
        body = source.next_at(arrow, "{")
        answer = body + 1
        if (
            not source.is_at(method, "fn clone ( & self ) -> Result <")
            or not source.is_at(body - 3, ", AllocError >")
            or not source.is_at(answer, "Ok (")
            or source.ends[answer + 1] + 1 != source.ends[body]
        ):
            source.fail(source.code[place], "a clone of an unknown form")
        source.drop(source.ends[answer + 1], source.ends[answer + 1])
        source.drop(answer, answer + 1)
        source.drop(body - 3, body - 1)
        source.drop(arrow + 1, arrow + 2)
        source.code[arrow].text = "-> "
    for place in source.find(". clone ( ) ?"):
        source.drop(place + 4, place + 4)
    source.refresh()


def take_formatters(source):
    """`Display` is generic in its writer in the kit."""
    for place in source.find("fn fmt < W : fmt :: Write > ( & self , f : & mut fmt :: Formatter < W > )"):
        source.put(place + 21, place + 21, "'_")
        source.drop(place + 2, place + 8)
    source.refresh()


def take_constants(source):
    """Numbers are made and read in constants, where a range has no method: it becomes two comparisons."""
    for name in CONSTANT.get(source.crate.name, ()):
        for place in source.find(f"pub fn {name} ("):
            source.code[place].text = "pub const"
            opening = source.next_at(source.ends[place + 3], "{")
            for at in source.find(") . contains ( &"):
                if opening < at < source.ends[opening]:
                    low, high, number = (source.code[other].text for other in (at - 3, at - 1, at + 5))
                    source.put(at - 4, at + 6, f"{low} <= {number} && {number} <= {high}")
    source.refresh()


def take_proved(source):
    """What is proved is asserted in a debug build."""
    for place in source.find("prove !"):
        is_constant = source.is_at(place - 6, "const _ : ( ) =")
        source.code[place].text = "assert" if is_constant else "debug_assert"


def take_labels(source):
    """Drops a label that only a proof names."""
    used = {source.code[place + 1].text for word in ("break", "continue") for place in source.find(word)}
    for place, token in enumerate(source.code):
        if token.kind == "label" and source.is_at(place + 1, ":") and token.text not in used:
            if source.code[place + 2].text in ("for", "while", "loop"):
                source.drop_word(place, place + 1)
    source.refresh()


def take_drop_bounds(source):
    """Drops the bound that a value may be dropped; in Rust every value may."""
    for place in source.find("Drop"):
        before, after = source.code[place - 1].text, source.code[place + 1].text
        if before == "+":
            source.drop(place - 1, place)
        elif before == ":" and after == "+":
            source.drop(place, place + 1)
        elif before == ":":
            source.drop(place - 1, place)
        elif before == "impl":
            source.fail(source.code[place], "an impl of Drop")
    source.refresh()


def parts_of(source, first, last):
    """The leaves of a tree of `use`, each as its path and its other name, or ''."""
    leaves, begin, depth = [], first, 0
    for place in range(first, last + 1):
        token = source.code[place].text
        depth += {"{": 1, "}": -1}.get(token, 0)
        if place == last or token == "," and depth == 0:
            end = place if token == "," else place + 1
            if end > begin:
                leaves += leaves_of(source, begin, end)
            begin = place + 1
    return leaves


def leaves_of(source, begin, end):
    words = [token.text for token in source.code[begin:end]]
    if "{" in words:
        opening = begin + words.index("{")
        head = "".join(token.text for token in source.code[begin:opening])
        return [(head + path, name) for path, name in parts_of(source, opening + 1, source.ends[opening] - 1)]
    if "as" in words:
        return [("".join(words[: words.index("as")]), words[-1])]
    return [("".join(words), "")]


def in_plain(source, token, path):
    """What replaces a path that may be the kit's; None for nothing."""
    if path in PROOFS_ALONE or path.split("::")[-1] in source.crate.laws_by(path.split("::")[0]):
        return None
    if path.startswith("bitflags::"):
        return "gen1_adapter::" + path
    if not path.startswith("std::"):
        return path
    if path in IN_ADAPTER:
        return IN_ADAPTER[path]
    if path.split("::")[1] in SAME_IN_CORE:
        return "core" + path[3:]
    source.fail(token, f"{path}: nothing is known that replaces it in plain Rust")


def take_uses(source):
    """Replaces paths of the kit by those of core or of the adapter; drops names that no code has."""
    for place in reversed(source.find("use")):
        end = source.next_at(place, ";")
        leaves = parts_of(source, place + 1, end - 1)
        check_root(source, source.code[place + 1])
        wanted = [(in_plain(source, source.code[place], path), path, name) for path, name in leaves]
        is_kits = any(new != path for new, path, _ in wanted)
        kept = [f"{new} as {name}" if name else new for new, path, name in wanted if new]
        if not kept:
            source.drop(begin_of_item(source, place), end)
        elif is_kits:
            shown = "".join(
                token.text + " " * (token.text == "pub") for token in source.code[begin_of_item(source, place) : place]
            )
            place = begin_of_item(source, place)
            source.put(place, end, " ".join(f"{shown}use {path};" for path in sorted(kept)))
    source.refresh()


def check_root(source, token):
    known = {"crate", "self", "super", "std", "core", "bitflags"} | source.crate.depends
    if token.text not in known | source.crate.modules and not token.text[0].isupper():
        source.fail(token, f"a use of {token.text}, which is not a module and not a crate of crates.txt")


def take_paths(source):
    """Replaces paths of the kit's std in code."""
    for place in source.find("std ::"):
        end = place
        while source.is_at(end + 1, "::") and source.code[end + 2].kind == "word":
            end += 2
        path = "".join(token.text for token in source.code[place : end + 1])
        found = in_plain(source, source.code[place], path)
        if not found:
            source.fail(source.code[place], f"{path} in code")
        source.put(place, end, found)
    source.refresh()


def take_prelude(source):
    """Imports names that the kit has in each source and no_std has not."""
    used = {token.text for token in source.code}
    names = [name for name in PRELUDE if name in used]
    if names:
        places = [token for token in source.tokens if token.was_use or token.text.startswith("use")]
        if not places:
            source.fail(source.code[0], f"{names[0]} in a source with no line to bring it in")
        gap = " " if places[0].text.startswith("use") else ""
        places[0].text = f"use gen1_adapter::prelude::{{{', '.join(names)}}};{gap}{places[0].text}"
        places[0].kind = "made"


def check_macros(source):
    """Refuses unknown macros, which may mean something else in the kit."""
    own = source.crate.macros
    for place in source.find("!"):
        word = source.code[place - 1]
        is_call = word.kind in ("word", "made") and word.place + 1 == source.code[place].place
        if not is_call or source.code[place + 1].text not in ("(", "{", "["):
            continue
        name = word.text.split("::")[-1]
        if name not in MACROS | own | {"bitflag_items"}:
            source.fail(word, f"an unknown macro, {name}!")
        opening, depth = place + 1, 0
        for token in source.code[opening : source.ends[opening]]:
            depth += {"(": 1, "[": 1, "{": 1, ")": -1, "]": -1, "}": -1}.get(token.text, 0)
            if depth == 1 and token.text == ";" and name not in ("macro_rules", "bitflag_items"):
                source.fail(token, f"a call of {name}! of the kit's form")


def c_parameter(source, name, kind):
    """A parameter as C passes it, and the argument for the function."""
    slice_of = re.fullmatch(r"&(mut )?\[([A-Za-z_0-9]+)\]", kind)
    if slice_of:
        pointer = "*mut" if slice_of[1] else "*const"
        borrowed = "slice_mut" if slice_of[1] else "slice"
        return f"{name}: {pointer} {slice_of[2]}, {name}_len: usize", f"unsafe {{ {borrowed}({name}, {name}_len) }}"
    if not re.fullmatch(
        r"&(mut )?(\[[A-Za-z_0-9]+; ?[0-9]+\]|[A-Z]\w*|usize|u8|u16)|[ui](8|16|32|64)|usize|bool", kind
    ):
        raise Unknown(f"{source.path}: an argument for C of an unknown kind, {name}: {kind}")
    return f"{name}: {kind}", name


# JavaScript has no walks, and these would make its module a sixth larger.
NOT_IN_WASM = {"gen1_walk_begin", "gen1_walk_next"}


def take_exports(source):
    """A function for C takes a slice as a pointer and a length: a second function does so and calls the unchanged one."""
    shims = []
    for place in source.find('extern "C" fn'):
        name, opening = source.code[place + 3].text, place + 4
        closing = source.ends[opening]
        body = source.next_at(closing, "{")
        passed = [c_parameter(source, *pair) for pair in parameters(source, opening + 1, closing)]
        answer = " ".join(token.text for token in source.code[closing + 1 : body])
        export = f'unsafe(export_name = "{name}")'
        if name in NOT_IN_WASM:
            export = f'cfg_attr(not(target_family = "wasm"), {export})'
        shims.append(
            f"    #[{export}]\n"
            f"    unsafe extern \"C\" fn {name}({', '.join(taken for taken, _ in passed)}) {answer} {{\n"
            f"        super::{name}({', '.join(given for _, given in passed)})\n    }}\n"
        )
        source.drop_word(place, place + 1)
        before = place - 1 if source.is_at(place - 1, "pub") else place
        if not source.is_at(before - 7, "# [ unsafe ( no_mangle ) ]"):
            source.fail(source.code[place], "a function for C that no_mangle does not name")
        source.drop(before - 7, before - 1)
    if shims:
        source.after.append(
            "\n// What C calls.\nmod for_c {\n    #![allow(unused_imports)]\n    use super::*;\n"
            "    use gen1_adapter::c::{slice, slice_mut};\n\n" + "\n".join(shims) + "}\n"
        )
    source.refresh()


def parameters(source, first, end):
    """The parameters of a function, each as its name and its type."""
    found, begin, depth = [], first, 0
    for place in range(first, end + 1):
        text = source.code[place].text
        if place == end or text == "," and depth == 0:
            if place > begin:
                kind = "".join(token.text for token in source.code[begin + 2 : place])
                found.append((source.code[begin].text, kind.replace("&mut", "&mut ").replace(";", "; ")))
            begin = place + 1
        depth += {"[": 1, "(": 1, "]": -1, ")": -1}.get(text, 0)
    return found


PASSES = (
    take_laws,
    take_citations,
    take_empty_modules,
    take_models,
    take_attributes,
    take_exports,
    take_clones,
    take_formatters,
    take_constants,
    take_proved,
    take_labels,
    take_drop_bounds,
    take_uses,
    take_paths,
    take_prelude,
    check_macros,
)


def in_plain_rust(source):
    """The text of a source in plain Rust."""
    for one_pass in PASSES:
        one_pass(source)
    return source.text()
