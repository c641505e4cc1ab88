"""The tokens of a source of crates/: Rust, in which each clause of a contract and each piece of ghost code is one token."""
import re

TOKEN = re.compile(
    r"""(?P<space>\s+)
    |(?P<comment>//[^\n]*|/\*.*?\*/)
    |(?P<string>[bc]?r(?P<hashes>\#*)".*?"(?P=hashes)|[bc]?"(?:\\.|[^"\\])*")
    |(?P<char>b?'(?:\\(?:x[0-9a-fA-F]{2}|u\{[^}]*\}|.)|[^\\'])')
    |(?P<label>'[A-Za-z_][A-Za-z_0-9]*)
    |(?P<word>[A-Za-z_][A-Za-z_0-9]*)
    |(?P<number>[0-9][A-Za-z_0-9]*(?:\.[0-9][A-Za-z_0-9]*)?)
    |(?P<mark>::|->|=>|\.\.=|\.\.|[-!\#$%&()*+,./:;<=>?@\[\]^{|}~])""",
    re.X | re.S,
)
CLAUSE = re.compile(r"(?:requires|ensures)\*?\s*(?:[A-Za-z_][A-Za-z_0-9-]*\s*)?(?=\{)")
GHOST_USE = re.compile(r"ghost\s+use\s[^;]*;")
GHOST_MEMBER = re.compile(r"ghost\s+[A-Za-z_]\w*\s*(?:(?P<is>=)|:)\s*(?=\{)")
TEXT_OR_BRACE = re.compile(r"\"(?:\\.|[^\"\\])*\"|'[{}]'|(?<=\s)//[^\n]*|[{}]")
CLOSING = {"(": ")", "[": "]", "{": "}"}


class Unknown(Exception):
    """An unknown form, with its place in a source."""


class Token:
    """A piece of a source. `kind` is a group of TOKEN, or 'off' for what is proved and never run."""

    def __init__(self, kind, text, line):
        self.kind, self.text, self.line = kind, text, line
        self.was_use = kind == "off" and text.split()[:2] == ["ghost", "use"]
        self.was_clause = kind == "off" and not text.startswith("ghost")

    def drop(self):
        """Keeps only the line feeds, so that what follows stays on its line."""
        self.kind, self.text = "off", "\n" * self.text.count("\n")


def end_of_braces(text, at, fail):
    """The place after the braces that open at a place of a clause."""
    depth = 0
    for found in TEXT_OR_BRACE.finditer(text, at):
        depth += {"{": 1, "}": -1}.get(found[0], 0)
        if depth == 0:
            return found.end()
    fail(at, "braces that do not close")


def end_of_ghost(text, at, fail):
    """The place after a ghost item."""
    use = GHOST_USE.match(text, at)
    if use:
        return use.end()
    member = GHOST_MEMBER.match(text, at)
    if not member:
        fail(at, "a ghost item of an unknown form")
    end = end_of_braces(text, member.end(), fail)
    default = re.compile(r"\s*=\s*(?=\{)").match(text, end)
    if default and not member["is"]:
        end = end_of_braces(text, default.end(), fail)
    closing = re.compile(r"\s*[;,]").match(text, end)
    if not closing:
        fail(end, "a ghost item that ends in neither ; nor ,")
    return closing.end()


def is_off(text, at, word, before, fail):
    """The place after a clause or a ghost item that begins with a word; None where it is an ordinary word."""
    if word in ("requires", "ensures") and before not in (".", "::", "fn", "let"):
        clause = CLAUSE.match(text, at)
        if not clause:
            fail(at, f"'{word}' in no clause")
        return end_of_braces(text, clause.end(), fail)
    if word == "ghost":
        return end_of_ghost(text, at, fail)
    return None


def tokens_of(text, path):
    """The tokens of a text, all of it."""

    def fail(at, what):
        line = text.count("\n", 0, at) + 1
        raise Unknown(f"{path}:{line}: {what}: {text[at : at + 60].splitlines()[0]!r}")

    found, at, before, line = [], 0, "", 1
    while at < len(text):
        token = TOKEN.match(text, at)
        if not token:
            fail(at, "no token of Rust")
        kind, end = token.lastgroup, token.end()
        if kind == "hashes":
            kind = "string"
        off = is_off(text, at, token[0], before, fail) if kind == "word" else None
        if off:
            kind, end = "off", off
        piece = Token(kind, text[at:end], line)
        line += piece.text.count("\n")
        if kind == "off":
            piece.drop()
        elif kind not in ("space", "comment"):
            before = piece.text
        found.append(piece)
        at = end
    return found


def partners(tokens, path):
    """The place of the closing bracket for each opening one."""
    found, open_ones = {}, []
    for place, token in enumerate(tokens):
        if token.kind != "mark":
            continue
        if token.text in CLOSING:
            open_ones.append(place)
        elif token.text in CLOSING.values():
            begin = open_ones.pop() if open_ones else place
            if CLOSING.get(tokens[begin].text) != token.text:
                raise Unknown(f"{path}:{token.line}: brackets that do not match")
            found[begin] = place
    if open_ones:
        raise Unknown(f"{path}:{tokens[open_ones[-1]].line}: a bracket that does not close")
    return found
