#!/usr/bin/env python3
"""Makes the table of clauses in docs/PROOFS.md from the sources: each public function, law and type of each library with the names of its
clauses and the definitions that these cite."""
from __future__ import annotations

import argparse
import difflib
import pathlib
import re
import sys
from typing import Dict, Iterator, List, NamedTuple, Optional, Set, Tuple

from common import command

FIRST = "<!-- made by tools/clauses.py -->"
LAST = "<!-- the end of what tools/clauses.py makes -->"

EPILOG = """Without `--check` it writes the table between its two marker lines. With it, it writes nothing, and ends with status 1 and the first lines
that differ where the table isn't that of the sources.

A clause stands by its name, with the repository's definitions that it cites; one without a name stands by these alone, or as `=` where it
cites none. A law is a function without a body. A trait's clauses stand at the trait, and at a type only where it has some of its own."""


class Clause(NamedTuple):
    name: str
    cites: List[str]


class Function(NamedTuple):
    owner: str
    name: str
    is_public: bool
    is_law: bool
    clauses: List[Clause]


class Source(NamedTuple):
    """What a file has: its functions, its public types, and of the types with a Model what contracts see."""
    functions: List[Function]
    types: List[str]
    traits: Set[str]
    models: Dict[str, str]


def blanked(text: str) -> str:
    """The text with comments, strings and characters as blanks, in the same places."""
    pattern = r'//[^\n]*|b?"(?:\\.|[^"\\])*"|b?\'(?:\\.[^\']*|[^\'\\\n])\''
    return re.sub(pattern, lambda found: re.sub(r"[^\n]", " ", found[0]), text, flags=re.S)


def closing(text: str, at: int) -> int:
    """The place behind the bracket that closes the one at this place."""
    depth = 0
    for place in range(at, len(text)):
        depth += (text[place] in "{([") - (text[place] in "})]")
        if depth == 0:
            return place + 1
    raise ValueError(f"a bracket is not closed: {text[at:at + 60]!r}")


def imported(text: str) -> Set[str]:
    """The names that the file's contracts take from the repository's definitions, as they are spelled there."""
    found = set()
    for crate, names in re.findall(r"ghost use Rattle\.(\w+)\.specs\.[\w.]*?\.?\{([^}]*)\};", text):
        if crate not in ("std", "core"):
            found.update(name.split(" as ")[-1].strip() for name in names.split(","))
    return {name for name in found if name}


# a function's body, or its end without one: not the length of an array, as in `[u8; 256]`
BODY = r"\{|;(?!\s*\w+\])"


def cited(text: str, names: Set[str]) -> List[str]:
    words = re.findall(r"[A-Za-z_][\w'-]*", re.sub(r"\.[a-z]\w*", " ", text))
    return list(dict.fromkeys(word for word in words if word in names))


def clauses_behind(text: str, at: int, names: Set[str]) -> Tuple[List[Clause], int]:
    """The clauses of a function whose parameters end at this place, and the place of its body, or of its end."""
    found: List[Clause] = []
    word = re.compile(r"\s*(requires|ensures)\*?\s*(\w*)\s*\{")
    start = re.compile(r"\s(?:requires|ensures)\*?\s*\w*\s*\{|" + BODY).search(text, at)
    place = start.start() if start else len(text)
    while True:
        clause = word.match(text, place)
        if not clause:
            return found, place
        end = closing(text, clause.end() - 1)
        if clause[1] == "ensures":
            found.append(Clause(clause[2], cited(text[clause.end():end - 1], names)))
        place = end


def functions_in(text: str, owner: str, public: bool, names: Set[str]) -> Iterator[Function]:
    """The functions that stand right in this text, and not inside another body."""
    place = 0
    head = re.compile(r"(pub(?:\([^)]*\))?\s+)?(?:const\s+)?fn\s+(\w+)|\{")
    while True:
        found = head.search(text, place)
        if not found:
            return
        if not found[2]:
            place = closing(text, found.start())
            continue
        clauses, body = clauses_behind(text, closing(text, text.index("(", found.end())), names)
        body = re.compile(BODY).search(text, body).start()
        place = closing(text, body) if text[body] == "{" else body + 1
        is_law = text[body] == "{" and not text[body + 1:place - 1].strip()
        yield Function(owner, found[2], public or (found[1] or "").strip() == "pub", is_law and bool(clauses), clauses)


def named_type(text: str) -> str:
    """The name of a type, without its path, its parameters and its lifetimes."""
    return re.split(r"[<\s]", text.strip().split("::")[-1])[0] if "<" not in text.split("::")[0] else text.strip().split("<")[0]


def source_of(text: str) -> Source:
    plain, names = blanked(text), imported(text)
    functions: List[Function] = []
    types, traits, models = [], set(), {}
    place = 0
    head = re.compile(r"(pub\s+)?(struct|enum|trait)\s+(\w+)|impl\b|#\[cfg\(test\)\]\s*mod\s+\w+|macro_rules!|\bfn\b|\{")
    while True:
        found = head.search(plain, place)
        if not found:
            return Source(functions, types, traits, models)
        start = found.start()
        if found[0] == "fn":
            begin = max(plain.rfind(";", 0, start), plain.rfind("}", 0, start), plain.rfind("]", 0, start)) + 1
            taken = list(functions_in(plain[begin:], "", False, names))[:1]
            functions += taken
            _, body = clauses_behind(plain, closing(plain, plain.index("(", found.end())), names)
            body = re.compile(r"[{;]").search(plain, body).start()
            place = closing(plain, body) if plain[body] == "{" else body + 1
            continue
        body = re.compile(r"[{;(]").search(plain, found.end() - (found[0] == "{")).start()
        place = closing(plain, body) if plain[body] != ";" else body + 1
        inside = plain[body + 1:place - 1]
        if found[2] == "trait":
            types += [found[3]] if found[1] else []
            traits.add(found[3])
            functions += functions_in(inside, found[3], True, names)
        elif found[2]:
            types += [found[3]] if found[1] else []
        elif found[0] == "impl":
            of = re.sub(r"^<[^{]*?>\s+(?=\w)", "", plain[found.end():body].strip())
            trait, _, type_name = of.rpartition(" for ")
            type_name = named_type(type_name)
            if trait.strip() == "Model":
                seen = re.search(r"ghost Value = \{", text[body:place])
                at = body + seen.end() - 1
                models[type_name] = " ".join(text[at + 1:closing(plain, at) - 1].split())
            else:
                own = names | imported(text[body:place])
                functions += [it for it in functions_in(inside, type_name, bool(trait), own) if it.clauses or not trait]


def public_names(text: str) -> Set[str]:
    """The names that a library shows at its top."""
    found = set(re.findall(r"^pub (?:struct|enum|trait|fn|const fn|mod) (\w+)", text, re.M))
    for names in re.findall(r"^pub use [\w:]*?(\{[^}]*\}|\w+(?: as \w+)?);", text, re.M):
        found.update(name.split(" as ")[0].strip() for name in names.strip("{}").split(","))
    return found


def crates_in(top: pathlib.Path) -> List[str]:
    """The crates of the repository, each behind those that it uses."""
    uses: Dict[str, List[str]] = {}
    for line in (top / "crates.txt").read_text().splitlines():
        name, colon, rest = line.partition("#")[0].partition(":")
        if colon:
            uses[name.split()[0]] = rest.split()
    ordered: List[str] = []

    def add(name: str) -> None:
        if name in uses and name not in ordered:
            for used in uses[name]:
                add(used)
            ordered.append(name)

    for name in uses:
        add(name)
    return ordered


def shown(clauses: List[Clause]) -> str:
    """The clauses in a cell: the names, each with the definitions that it cites."""
    cells = []
    for clause in clauses:
        cites = ", ".join(f"`{name}`" for name in clause.cites)
        label = f"`{clause.name}`" if clause.name else ""
        cells.append(f"{label}: {cites}" if label and cites else label or cites or "=")
    return "; ".join(cells)


def rows_of(folder: pathlib.Path) -> Iterator[Tuple[str, str]]:
    """The rows of a library: a function, law or type, and its clauses."""
    names = public_names((folder / "src/lib.rt").read_text())
    sources = [source_of(file.read_text()) for file in sorted((folder / "src").rglob("*.rt"))]
    models = {name: value for source in sources for name, value in source.models.items()}
    for source in sources:
        for name in source.types:
            if name in models and name in names:
                yield f"`{name}`, seen as `{models[name]}`", "the type's own value"
        for it in source.functions:
            if not it.is_public or not it.clauses or (it.owner or it.name) not in names:
                continue
            call = f"`{it.owner}::{it.name}`" if it.owner else f"`{it.name}`"
            yield ("law " if it.is_law else "") + call, shown(it.clauses)
    plain = [name for source in sources for name in source.types
             if name in names and name not in models and name not in source.traits]
    if plain:
        yield ", ".join(f"`{name}`" for name in plain), "types alone"


def table_of(top: pathlib.Path) -> str:
    lines = ["| crate | function, law or type | its clauses, with the definitions that they cite |", "|---|---|---|"]
    for name in crates_in(top):
        if not (top / "crates" / name / "src/lib.rt").is_file():
            continue
        crate = f"`{name}`"
        for what, clauses in rows_of(top / "crates" / name):
            lines.append(f"| {crate} | {what} | {clauses} |".replace("|  |", "| |"))
            crate = ""
    return "\n".join(lines)


def written_in(page: str) -> Optional[Tuple[int, int]]:
    """Where the table stands in the page, if both marker lines are there."""
    first, last = page.find(FIRST + "\n"), page.find(LAST)
    return (first + len(FIRST) + 1, last) if 0 <= first < last else None


def main() -> int:
    parser = command.parser(__doc__, EPILOG)
    parser.add_argument("--check", action="store_true", help="compares, and writes nothing")
    parser.add_argument("--top", metavar="FOLDER", type=pathlib.Path, default=pathlib.Path(__file__).resolve().parents[1],
                        help="the top of the repository (the one of this script)")
    said: argparse.Namespace = parser.parse_args()
    file = said.top / "docs/PROOFS.md"
    page = file.read_text()
    place = written_in(page)
    if not place:
        print(f"clauses: {file} has no two lines {FIRST} and {LAST}", file=sys.stderr)
        return 1
    made = "\n" + table_of(said.top) + "\n\n"
    there = page[place[0]:place[1]]
    if not said.check:
        file.write_text(page[:place[0]] + made + page[place[1]:])
    elif there != made:
        differ = [line for line in difflib.unified_diff(there.split("\n"), made.split("\n"), lineterm="", n=0) if re.match(r"[-+]\|", line)]
        print(f"clauses: the table in {file} isn't that of the sources: run tools/clauses.py. The first lines that differ:", file=sys.stderr)
        print("\n".join(differ[:6]), file=sys.stderr)
        return 1
    return 0


if __name__ == "__main__":
    command.run(main)
