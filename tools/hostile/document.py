"""Documents of TOML 1.1, read for the oracle: by the grammar of toml.io alone, from left to right over the characters, and by no reader that
stands elsewhere in the repository. Where Python has a reader of TOML 1.0, `voices_differ` compares the two."""
from __future__ import annotations

import calendar
import re
from typing import Dict, List, NamedTuple, Optional, Tuple

try:
    import tomllib
except ImportError:
    tomllib = None

NEST = 80
BLANKS = " \t"
SHORT = {"b": "\b", "t": "\t", "n": "\n", "f": "\f", "r": "\r", "e": "\x1b", '"': '"', "\\": "\\"}
CODES = {"x": 2, "u": 4, "U": 8}
DIGITS = {10: "[0-9]", 16: "[0-9A-Fa-f]", 8: "[0-7]", 2: "[01]"}
GROUPS = {radix: f"{digit}(?:_?{digit})*" for radix, digit in DIGITS.items()}
WHOLE = re.compile(f"[+-]?(?:0|[1-9](?:_?[0-9])*)")
PREFIXED = re.compile(f"0x{GROUPS[16]}|0o{GROUPS[8]}|0b{GROUPS[2]}")
BROKEN = re.compile(f"[+-]?(?:0|[1-9](?:_?[0-9])*)(?:\\.{GROUPS[10]})?(?:[eE][+-]?{GROUPS[10]})?|[+-]?(?:inf|nan)")
DAY = r"(\d\d\d\d)-(\d\d)-(\d\d)"
HOUR = r"(\d\d):(\d\d)(?::(\d\d)(?:\.\d+)?)?"
WHEN = re.compile(f"{DAY}(?:[Tt ]{HOUR}(?:[Zz]|[+-](\\d\\d):(\\d\\d))?)?|{HOUR}", re.ASCII)
# The characters that a value without quotation marks may have. A blank stands only between a date and a time.
PLAIN = re.compile(r"[A-Za-z0-9_+.:-]+")


class NoDocument(Exception):
    """The bytes are no document."""


class Unsure(Exception):
    """Whether the bytes are a document depends on limits of a reader that the grammar doesn't have."""


class Broken(NamedTuple):
    """A number with a point or an exponent."""
    text: str


class When(NamedTuple):
    """A date, a time or both."""
    text: str


class Tables(list):
    """An array that headers make, of a table each."""


class Tree:
    """A table: its members, and what made it, since that says what may still add to it: a header, a dotted key, a longer header (implicit),
    or a value."""

    def __init__(self, origin: str):
        self.origin = origin
        self.members: Dict[str, object] = {}


def read_document(content: bytes) -> Dict[str, object]:
    """The fields of a document. A table is a dict, and an array a list."""
    try:
        text = content.decode("utf-8")
    except UnicodeDecodeError:
        raise NoDocument("no text in UTF-8") from None
    return plain(Reading(text[1:] if text.startswith("\ufeff") else text).document())


def plain(value: object) -> object:
    if isinstance(value, Tree):
        return {name: plain(member) for name, member in value.members.items()}
    if isinstance(value, list):
        return [plain(member) for member in value]
    return value


class Reading:
    """A text, and the place of the next character."""

    def __init__(self, text: str):
        self.text, self.at = text, 0

    def peek(self, count: int = 1) -> str:
        return self.text[self.at:self.at + count]

    def has(self, word: str) -> bool:
        """Takes a word where it is next."""
        found = self.text.startswith(word, self.at)
        self.at += len(word) if found else 0
        return found

    def must(self, word: str) -> None:
        if not self.has(word):
            raise NoDocument(f"{word!r} is wanted at {self.at}")

    def blanks(self) -> None:
        while self.peek() and self.peek() in BLANKS:
            self.at += 1

    def line_end(self) -> bool:
        return self.has("\n") or self.has("\r\n")

    def comment(self) -> None:
        if self.has("#"):
            while self.peek() and (self.peek() == "\t" or is_shown(self.peek())):
                self.at += 1

    def gap(self) -> None:
        """Blanks, ends of lines and comments."""
        start = -1
        while start != self.at:
            start = self.at
            self.blanks()
            self.comment()
            self.line_end()

    # Lines.

    def document(self) -> Tree:
        root = here = Tree("header")
        while True:
            self.gap()
            if self.at == len(self.text):
                return root
            if self.has("[["):
                here = add_element(root, self.header("]]"))
            elif self.has("["):
                here = open_table(root, self.header("]"))
            else:
                self.pair(here, 0)
            self.blanks()
            self.comment()
            if self.at < len(self.text) and not self.line_end():
                raise NoDocument("something behind a line's value")

    def header(self, end: str) -> List[str]:
        self.blanks()
        path = self.path()
        self.must(end)
        return path

    def path(self) -> List[str]:
        parts = [self.name()]
        self.blanks()
        while self.has("."):
            self.blanks()
            parts.append(self.name())
            self.blanks()
        if len(parts) >= NEST:
            raise Unsure("a long key")
        return parts

    def name(self) -> str:
        if self.has('"'):
            return self.text_of('"', False)
        if self.has("'"):
            return self.text_of("'", False)
        found = re.compile("[A-Za-z0-9_-]+").match(self.text, self.at)
        if not found:
            raise NoDocument("no key")
        self.at = found.end()
        return found.group()

    def pair(self, table: Tree, depth: int) -> None:
        path = self.path()
        self.must("=")
        self.blanks()
        value = self.value(depth)
        for part in path[:-1]:
            inner = table.members.setdefault(part, Tree("dotted"))
            if isinstance(inner, Tree) and inner.origin == "implicit":
                raise Unsure("a dotted key into a table that a longer header made")
            if not isinstance(inner, Tree) or inner.origin != "dotted":
                raise NoDocument("a dotted key into what is closed")
            table = inner
        if path[-1] in table.members:
            raise NoDocument("a key twice")
        table.members[path[-1]] = value

    # Values.

    def value(self, depth: int) -> object:
        if depth >= NEST - 1:
            raise Unsure("deep values")
        for mark in ('"', "'"):
            if self.has(mark * 3):
                return self.text_of(mark, True)
            if self.has(mark):
                return self.text_of(mark, False)
        if self.has("["):
            return self.elements("]", lambda into: into.append(self.value(depth + 1)), [])
        if self.has("{"):
            table = self.elements("}", lambda into: self.pair(into, depth + 1), Tree("header"))
            close(table)
            return table
        return self.word()

    def elements(self, end, one, into):
        """What stands between brackets: one after another, with a comma between two and perhaps one behind the last."""
        self.gap()
        while not self.has(end):
            one(into)
            self.gap()
            if not self.has(","):
                self.must(end)
                break
            self.gap()
        return into

    def word(self) -> object:
        found = PLAIN.match(self.text, self.at)
        if not found:
            raise NoDocument("no value")
        end = found.end()
        if re.fullmatch(DAY, found.group(), re.ASCII) and re.compile(r" \d", re.ASCII).match(self.text, end):
            end = PLAIN.match(self.text, end + 1).end()
        word, self.at = self.text[self.at:end], end
        return scalar(word)

    # Texts.

    def text_of(self, mark: str, several: bool) -> str:
        """The text behind its opening mark or marks."""
        parts: List[str] = []
        if several:
            self.line_end()
        while True:
            if several and self.has(mark * 3):
                parts += mark if self.has(mark) else ""
                parts += mark if self.has(mark) else ""
                return "".join(parts)
            if not several and self.has(mark):
                return "".join(parts)
            parts.append(self.character(mark, several))

    def character(self, mark: str, several: bool) -> str:
        if mark == '"' and self.has("\\"):
            return self.escape(several)
        if several and self.peek() == "\n":
            self.at += 1
            return "\n"
        if several and self.has("\r\n"):
            return "\r\n"
        one = self.peek()
        if not one or (one != "\t" and not is_shown(one)):
            raise NoDocument("a text without its end")
        self.at += 1
        return one

    def escape(self, several: bool) -> str:
        folded = re.compile("[ \t]*\r?\n(?:[ \t]|\r?\n)*").match(self.text, self.at) if several else None
        if folded:
            self.at = folded.end()
            return ""
        letter = self.peek()
        self.at += 1
        if letter in CODES:
            digits = self.peek(CODES[letter])
            self.at += CODES[letter]
            if not re.fullmatch("[0-9A-Fa-f]{%d}" % CODES[letter], digits):
                raise NoDocument("a code that is cut")
            code = int(digits, 16)
            if code > 0x10FFFF or 0xD800 <= code <= 0xDFFF:
                raise NoDocument("a code of no character")
            return chr(code)
        if not letter or letter not in SHORT:
            raise NoDocument("no escape")
        return SHORT[letter]


def is_shown(one: str) -> bool:
    return one >= " " and one != "\x7f"


def close(table: Tree) -> None:
    """An inline table takes no more members, nor do the tables in it."""
    table.origin = "value"
    for member in table.members.values():
        if isinstance(member, Tree):
            close(member)


def step_into(table: Tree, part: str) -> Tree:
    """The table to which a part of a header leads."""
    node = table.members.setdefault(part, Tree("implicit"))
    if isinstance(node, Tables):
        node = node[-1]
    if not isinstance(node, Tree) or node.origin == "value":
        raise NoDocument("a header through a value")
    return node


def open_table(root: Tree, path: List[str]) -> Tree:
    table = root
    for part in path[:-1]:
        table = step_into(table, part)
    if path[-1] not in table.members:
        table.members[path[-1]] = Tree("header")
        return table.members[path[-1]]
    node = table.members[path[-1]]
    if not isinstance(node, Tree) or node.origin != "implicit":
        raise NoDocument("a table twice")
    node.origin = "header"
    return node


def add_element(root: Tree, path: List[str]) -> Tree:
    table = root
    for part in path[:-1]:
        table = step_into(table, part)
    node = table.members.setdefault(path[-1], Tables())
    if not isinstance(node, Tables):
        raise NoDocument("an array of tables of another name's value")
    node.append(Tree("header"))
    return node[-1]


def scalar(word: str) -> object:
    if word in ("true", "false"):
        return word == "true"
    if WHOLE.fullmatch(word):
        return bounded(int(word.replace("_", "")))
    if PREFIXED.fullmatch(word):
        return bounded(int(word.replace("_", ""), 0))
    if BROKEN.fullmatch(word):
        if abs(float(word.replace("_", ""))) == float("inf") and "inf" not in word:
            raise Unsure("a number above all floats")
        return Broken(word)
    found = WHEN.fullmatch(word)
    if found:
        return moment(word, found.groups())
    raise NoDocument("no value")


def bounded(value: int) -> int:
    """The grammar asks for all integers of 64 bits with a sign, and for an error where one is lost."""
    if not -2 ** 63 <= value < 2 ** 63:
        raise NoDocument("an integer above 64 bits")
    return value


def moment(word: str, parts: Tuple[Optional[str], ...]) -> When:
    year, month, day, *times = (None if part is None else int(part) for part in parts)
    if year is not None:
        if year == 0:
            raise Unsure("the year 0")
        if not 1 <= month <= 12 or not 1 <= day <= calendar.monthrange(year, month)[1]:
            raise NoDocument("no day")
    if 60 in (times[2], times[7]):
        raise Unsure("a leap second")
    for part, most in zip(times, (23, 59, 59, 23, 59, 23, 59, 59)):
        if part is not None and part > most:
            raise NoDocument("no time")
    return When(word)


NEWER = re.compile(r"\\e|\\x|\{[^}]*[\n#]|,\s*\}|\d\d:\d\d(?!:?\d)")


def voices_differ(content: bytes) -> str:
    """How Python's own reader of TOML 1.0 differs from this one, where the document has nothing that came with 1.1; else an empty text."""
    if tomllib is None:
        return ""
    try:
        mine = read_document(content)
    except NoDocument:
        mine = None
    except Unsure:
        return ""
    try:
        text = content.decode("utf-8")
        theirs = tomllib.loads(text[1:] if text.startswith("\ufeff") else text)
    except (ValueError, RecursionError):
        theirs = None
    if (mine is None) == (theirs is None):
        return "" if mine is None or alike(mine, theirs) else f"{mine} and {theirs}"
    newer = content.decode("utf-8", "replace")
    if mine is not None and NEWER.search(newer):
        return ""
    if theirs is not None and has_large(theirs):
        return ""
    return f"{mine} and {theirs}"


def has_large(value: object) -> bool:
    if isinstance(value, dict):
        return any(has_large(member) for member in value.values())
    if isinstance(value, list):
        return any(has_large(member) for member in value)
    return isinstance(value, int) and not -2 ** 63 <= value < 2 ** 63


def alike(mine: object, theirs: object) -> bool:
    if isinstance(mine, dict):
        return isinstance(theirs, dict) and list(mine) == list(theirs) and all(alike(mine[name], theirs[name]) for name in mine)
    if isinstance(mine, list):
        return isinstance(theirs, list) and len(mine) == len(theirs) and all(map(alike, mine, theirs))
    if isinstance(mine, (Broken, When)):
        return not isinstance(theirs, (str, bool, int, list, dict))
    # Python's reader takes CR LF in a text of several lines for LF.
    return type(mine) is type(theirs) and (mine == theirs or str(mine).replace("\r\n", "\n") == theirs)
