"""A reader of TOML 1.1 that knows on which line each field of the document stands.

It takes the documents that the program takes, with its limits: integers of 64 bits, finite floats, at most 80 parts in a key and 80
arrays and inline tables in one another."""
from __future__ import annotations

import datetime
import math
import re
from typing import Callable, Dict, List, NamedTuple, Optional, Tuple

LIMIT = 80
MARK = b"\xef\xbb\xbf"
BARE = re.compile(rb"[A-Za-z0-9_-]+")
WORD = re.compile(rb"[A-Za-z0-9_+.:-]+(?: (?=[0-9])[A-Za-z0-9_+.:-]+)?")
BLANK = re.compile(rb"[ \t]*")
BREAKS = re.compile(rb"(?:[ \t]|\r?\n)*")
# What may stand between two lines or two elements: blanks, ends of lines, and comments, which have no control characters.
BETWEEN = re.compile(rb"(?:[ \t]|\r?\n|#[\t\x20-\x7e\x80-\xff]*)*")
NUMBER = re.compile(rb"([+-]?)(0|[1-9][0-9]*)(\.[0-9]+)?([eE][+-]?[0-9]+)?")
RADIX = {b"0x": (16, rb"[0-9A-Fa-f]+"), b"0o": (8, rb"[0-7]+"), b"0b": (2, rb"[01]+")}
TIME = rb"([0-9]{2}):([0-9]{2})(?::([0-9]{2})(?:\.[0-9]+)?)?"
DATE = rb"([0-9]{4})-([0-9]{2})-([0-9]{2})"
OFFSET = rb"(?:[Zz]|[+-]([0-9]{2}):([0-9]{2}))?"
DATE_TIME = re.compile(DATE + rb"(?:[Tt ]" + TIME + OFFSET + rb")?")
TIME_ALONE = re.compile(TIME)
ESCAPES = {b"b": "\b", b"e": "\x1b", b"f": "\f", b"n": "\n", b"r": "\r", b"t": "\t", b'"': '"', b"\\": "\\"}
HEX_ESCAPES = {b"x": 2, b"u": 4, b"U": 8}


class TomlError(Exception):
    """Why the bytes are no document, and on which line."""

    def __init__(self, line: int, why: str):
        super().__init__(why)
        self.line = line
        self.why = why


class Moment(NamedTuple):
    """A date, a time or both, as they are written."""
    text: str


class Field(NamedTuple):
    """A field of the document: its value (bool, int, float, str, Moment, list or dict), and the line of its key."""
    value: object
    line: int


class Table:
    """A table that may still grow: what made it, and its members, which are tables, arrays of tables or values."""

    def __init__(self, origin: str):
        self.origin = origin
        self.members: Dict[str, object] = {}


class TableArray:
    """An array of tables that headers make."""

    def __init__(self) -> None:
        self.tables = [Table("header")]


class Leaf(NamedTuple):
    """A value, which is complete."""
    value: object


def read_document(content: bytes) -> Dict[str, Field]:
    """The fields of a document, by name."""
    try:
        content.decode("utf-8")
    except UnicodeDecodeError as error:
        raise TomlError(content[:error.start].count(b"\n") + 1, "a byte that is no text in UTF-8") from None
    return Reader(content).document()


class Reader:
    """The bytes of a document, and how far they are read."""

    def __init__(self, content: bytes):
        self.content = content
        self.at = len(MARK) if content.startswith(MARK) else 0

    def error(self, why: str) -> TomlError:
        return TomlError(self.content.count(b"\n", 0, self.at) + 1, why)

    def next(self, count: int = 1) -> bytes:
        return self.content[self.at:self.at + count]

    def skip(self, pattern: "re.Pattern[bytes]") -> None:
        found = pattern.match(self.content, self.at)
        self.at = found.end() if found else self.at

    def take(self, byte: bytes, where: str) -> None:
        if self.next() != byte:
            raise self.error(f"'{byte.decode()}' is expected {where}")
        self.at += 1

    # Lines.

    def document(self) -> Dict[str, Field]:
        root, header, lines = Table("header"), [], {}
        while True:
            self.skip(BETWEEN)
            if self.at == len(self.content):
                break
            line = self.content.count(b"\n", 0, self.at) + 1
            header, first = self.line(root, header)
            lines.setdefault(first, line)
        return {name: Field(closed(node), lines[name]) for name, node in root.members.items()}

    def line(self, root: Table, header: List[str]) -> Tuple[List[str], str]:
        """Reads one line into the tables: the header that holds from then on, and the name of the root's field that it is in."""
        if self.next(2) == b"[[":
            key = self.header(2)
            self.define(along_header(root, key[:-1], self.error), key[-1], "array")
            header = key
        elif self.next() == b"[":
            key = self.header(1)
            self.define(along_header(root, key[:-1], self.error), key[-1], "table")
            header = key
        else:
            key, value = self.pair(LIMIT)
            self.put(along_header(root, header, self.error), key, value)
        self.skip(BLANK)
        if self.at < len(self.content) and self.next() not in b"#\n\r":
            raise self.error("something stands behind the value; a field has a line of its own")
        return header, (header + key)[0]

    def header(self, brackets: int) -> List[str]:
        self.at += brackets
        self.skip(BLANK)
        key = self.key()
        for _ in range(brackets):
            self.take(b"]", "at the end of the header")
        return key

    def define(self, table: Table, name: str, what: str) -> None:
        node = table.members.get(name)
        if node is None:
            table.members[name] = Table("header") if what == "table" else TableArray()
        elif what == "table" and isinstance(node, Table) and node.origin == "implicit":
            node.origin = "header"
        elif what == "array" and isinstance(node, TableArray):
            node.tables.append(Table("header"))
        else:
            raise self.error(f"'{name}' is there already")

    def put(self, table: Table, key: List[str], value: object) -> None:
        inner = along_dots(table, key[:-1], self.error)
        if key[-1] in inner.members:
            raise self.error(f"the field '{key[-1]}' is there already")
        inner.members[key[-1]] = Leaf(value)

    # Keys and values.

    def pair(self, depth: int) -> Tuple[List[str], object]:
        key = self.key()
        self.take(b"=", f"behind the name '{key[-1]}'")
        self.skip(BLANK)
        return key, self.value(depth)

    def key(self) -> List[str]:
        parts: List[str] = []
        while len(parts) < LIMIT:
            parts.append(self.simple_key())
            self.skip(BLANK)
            if self.next() != b".":
                return parts
            self.at += 1
            self.skip(BLANK)
        raise self.error(f"a name of more than {LIMIT} parts")

    def simple_key(self) -> str:
        if self.next() in (b'"', b"'"):
            return self.text(self.next(), False)
        found = BARE.match(self.content, self.at)
        if not found:
            raise self.error("the name of a field is expected")
        self.at = found.end()
        return found.group().decode()

    def value(self, depth: int) -> object:
        start = self.next()
        if start == b"[" and depth > 0:
            return self.array(depth - 1)
        if start == b"{" and depth > 0:
            return self.inline_table(depth - 1)
        if start in (b'"', b"'"):
            several = self.next(3) == start * 3
            return self.text(start, several)
        return self.word()

    def array(self, depth: int) -> List[object]:
        values: List[object] = []
        self.at += 1
        while not self.ends(b"]"):
            values.append(self.value(depth))
            self.separated(b"]", "the array")
        return values

    def inline_table(self, depth: int) -> Dict[str, object]:
        table = Table("header")
        self.at += 1
        while not self.ends(b"}"):
            self.put(table, *self.pair(depth))
            self.separated(b"}", "the table")
        return closed(table)

    def ends(self, bracket: bytes) -> bool:
        self.skip(BETWEEN)
        if self.next() != bracket:
            return False
        self.at += 1
        return True

    def separated(self, bracket: bytes, what: str) -> None:
        self.skip(BETWEEN)
        if self.next() == b",":
            self.at += 1
        elif self.next() != bracket:
            raise self.error(f"',' or '{bracket.decode()}' is expected in {what}")

    def word(self) -> object:
        found = WORD.match(self.content, self.at)
        if not found:
            raise self.error("a value is expected behind '='; a text stands in quotation marks")
        value = word_value(found.group())
        if value is None:
            raise self.error(f"'{found.group().decode()}' is no value; a text stands in quotation marks")
        self.at = found.end()
        return value

    # Texts.

    def text(self, mark: bytes, several: bool) -> str:
        """The text whose opening mark is next: of one line, or of several, between three marks each."""
        parts: List[bytes] = []
        self.at += 3 if several else 1
        if several:
            self.skip(re.compile(rb"\r?\n"))
        while not self.text_ends(mark, several, parts):
            parts.append(self.piece(mark, several))
        return b"".join(parts).decode("utf-8")

    def text_ends(self, mark: bytes, several: bool, parts: List[bytes]) -> bool:
        """Three marks end a text of several lines. One or two are part of it, also right before the last three."""
        marks = len(self.content) - self.at - len(self.content[self.at:].lstrip(mark)) if self.next() == mark else 0
        if marks == 0 or (several and marks < 3):
            return False
        if several and marks > 5:
            raise self.error("more than two quotation marks before the end of a text")
        if several:
            parts.append(mark * (marks - 3))
        self.at += marks if several else 1
        return True

    def piece(self, mark: bytes, several: bool) -> bytes:
        byte = self.next()
        if byte == b"\\" and mark == b'"':
            self.at += 1
            return self.escape(several)
        if several and (byte == b"\n" or self.next(2) == b"\r\n"):
            self.at += 1
            return byte
        if byte == b"":
            raise self.error("a text without its end")
        if byte != b"\t" and (byte < b"\x20" or byte == b"\x7f"):
            raise self.error("a text ends on its own line" if byte in b"\r\n" else f"a control character, {byte[0]:02x}h")
        self.at += 1
        return byte

    def escape(self, several: bool) -> bytes:
        blank = BLANK.match(self.content, self.at)
        if several and blank and self.content[blank.end():].startswith((b"\n", b"\r\n")):
            self.skip(BREAKS)
            return b""
        letter = self.next()
        self.at += 1
        if letter in HEX_ESCAPES:
            return self.hex_escape(HEX_ESCAPES[letter])
        if letter not in ESCAPES:
            raise self.error(f"'\\{letter.decode('latin-1')}' is no escape; write '\\\\' for a backslash")
        return ESCAPES[letter].encode()

    def hex_escape(self, count: int) -> bytes:
        digits = self.next(count)
        if not re.fullmatch(rb"[0-9A-Fa-f]{%d}" % count, digits):
            raise self.error(f"an escape of {count} hexadecimal digits is cut")
        code = int(digits, 16)
        if 0xd800 <= code < 0xe000 or code > 0x10ffff:
            raise self.error(f"{code:x}h is no character")
        self.at += count
        return chr(code).encode()


def along_header(table: Table, path: List[str], error: Callable[[str], TomlError]) -> Table:
    """The table at the end of a header's path, with what is missing on the way."""
    for name in path:
        node = table.members.setdefault(name, Table("implicit"))
        if isinstance(node, Leaf):
            raise error(f"'{name}' is a value, and no table")
        table = node.tables[-1] if isinstance(node, TableArray) else node
    return table


def along_dots(table: Table, path: List[str], error: Callable[[str], TomlError]) -> Table:
    """The table at the end of a dotted name, with what is missing on the way."""
    for name in path:
        node = table.members.setdefault(name, Table("dotted"))
        if not isinstance(node, Table) or node.origin == "header":
            raise error(f"'{name}' is a value or has a header of its own, so no dotted name goes into it")
        node.origin = "dotted"
        table = node
    return table


def closed(node: object) -> object:
    """The value that a node stands for."""
    if isinstance(node, Leaf):
        return node.value
    if isinstance(node, TableArray):
        return [closed(table) for table in node.tables]
    return {name: closed(member) for name, member in node.members.items()}


def word_value(word: bytes) -> Optional[object]:
    """The value that a word without quotation marks writes."""
    if word in (b"true", b"false"):
        return word == b"true"
    if re.match(rb"[0-9]+[-:]", word):
        return moment(word)
    return number(word)


def number(word: bytes) -> Optional[object]:
    digit = rb"[0-9A-Fa-f]" if word.startswith(b"0x") else rb"[0-9]"
    if re.search(rb"(?<!" + digit + rb")_|_(?!" + digit + rb")", word):
        return None
    word = word.replace(b"_", b"")
    if word[:2] in RADIX:
        radix, digits = RADIX[word[:2]]
        whole = int(word[2:], radix) if re.fullmatch(digits, word[2:]) else 2 ** 63
        return whole if whole < 2 ** 63 else None
    if re.fullmatch(rb"[+-]?(inf|nan)", word):
        return float(word)
    found = NUMBER.fullmatch(word)
    if not found:
        return None
    if found.group(3) or found.group(4):
        return float(word) if math.isfinite(float(word)) else None
    return int(word) if len(word) <= 20 and -2 ** 63 <= int(word) < 2 ** 63 else None


def moment(word: bytes) -> Optional[Moment]:
    """A date, a time, or both with or without an offset."""
    alone = TIME_ALONE.fullmatch(word)
    if alone:
        return Moment(word.decode()) if is_time(alone.groups()) else None
    found = DATE_TIME.fullmatch(word)
    if not found:
        return None
    year, month, day, *rest = found.groups()
    good = is_date(int(year), int(month), int(day)) and (rest[0] is None or is_time(rest[:3])) and is_time(rest[3:])
    return Moment(word.decode()) if good else None


def is_time(parts) -> bool:
    """Whether the parts that are there are an hour, a minute and a second, which may be a leap second."""
    return all(part is None or int(part) < most for part, most in zip(parts, (24, 60, 61)))


def is_date(year: int, month: int, day: int) -> bool:
    try:
        # The calendar of `datetime` begins with year 1; year 0 is a leap year, as 400 is.
        datetime.date(year or 400, month, day)
    except ValueError:
        return False
    return True
