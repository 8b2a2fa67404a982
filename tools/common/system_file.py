"""The system file: its fields, and what is wrong with them."""
from __future__ import annotations

import difflib
from typing import Dict, List, NamedTuple, Optional, Tuple

from .causes import Mistake, Refused, content_of
from .toml_document import Field, Moment, TomlError, read_document

LEAST, PAGE = 65_536, 4_096
MOST = {"guest_memory": 16_777_216, "real_time_memory": 4_194_304}
VERSIONS = (1, 2)
REQUIRED = ["version", "image", "guest_memory", "real_time_memory"]
KNOWN = REQUIRED + ["modules", "script"]
MODULES_LIMIT = 16
NAME_LIMIT = 255


class System(NamedTuple):
    """The fields of a system file that the program takes."""
    version: int
    image: str
    guest_memory: int
    real_time_memory: int
    modules: List[str]
    script: Optional[str]


def read_system(name: str) -> Tuple[Optional[System], List[Mistake]]:
    """The system of a file, or its mistakes in the order of the file."""
    content = content_of(name)
    try:
        fields = read_document(content)
    except TomlError as error:
        raise Refused(Mistake("10", name, f"it is no TOML document: {error.why}", error.line)) from None
    mistakes = [Mistake("11", name, why, line) for line, why in sorted(field_mistakes(fields))]
    if mistakes:
        return None, mistakes
    script = fields["script"].value if "script" in fields else None
    modules = fields["modules"].value if "modules" in fields else []
    return System(fields["version"].value, fields["image"].value, fields["guest_memory"].value, fields["real_time_memory"].value, modules, script), []


def field_mistakes(fields: Dict[str, Field]) -> List[Tuple[int, str]]:
    """The line of each wrong field, 0 for one that is missing, and what is wrong with it."""
    found = [(0, f"the field `{name}` is missing") for name in REQUIRED if name not in fields]
    for name, field in fields.items():
        why = f"there is no field `{name}`{nearest(name)}" if name not in KNOWN else value_mistake(name, field.value)
        if why:
            found.append((field.line, why))
    return found


def nearest(name: str) -> str:
    close = difflib.get_close_matches(name.lower(), KNOWN, 1)
    return f"; `{close[0]}` is one" if close else f"; the fields are {', '.join(KNOWN)}"


def value_mistake(name: str, value: object) -> Optional[str]:
    if name == "version":
        return None if is_whole(value) and value in VERSIONS else f"`version` is {shown(value)}, and has to be the number 1 or 2"
    if name in MOST:
        return size_mistake(name, value)
    if name == "modules":
        return modules_mistake(value)
    return name_mistake(name, value)


def is_whole(value: object) -> bool:
    return isinstance(value, int) and not isinstance(value, bool)


def size_mistake(name: str, value: object) -> Optional[str]:
    most = MOST[name]
    if not is_whole(value):
        return f"`{name}` is {shown(value)}, and has to be a whole number, without quotation marks and without a point"
    if not LEAST <= value <= most:
        return f"`{name}` is {value:,}, and has to be {LEAST:,} to {most:,}"
    if value % PAGE:
        below = value // PAGE * PAGE
        return f"`{name}` is {value:,}, which isn't a multiple of {PAGE:,}; {below:,} and {below + PAGE:,} are"
    return None


def name_mistake(name: str, value: object) -> Optional[str]:
    if not isinstance(value, str) or isinstance(value, Moment):
        return f"`{name}` is {shown(value)}, and has to be a text in quotation marks"
    size = len(value.encode())
    return None if 1 <= size <= NAME_LIMIT else f"`{name}` has {size} bytes, and a name has 1 to {NAME_LIMIT}"


def modules_mistake(value: object) -> Optional[str]:
    if not isinstance(value, list):
        return f"`modules` is {shown(value)}, and has to be an array"
    if len(value) > MODULES_LIMIT:
        return f"`modules` has {len(value)} names, and a system has at most {MODULES_LIMIT} modules"
    return next((mistake for mistake in map(module_mistake, value) if mistake), None)


def module_mistake(value: object) -> Optional[str]:
    return name_mistake("modules", value)


def shown(value: object) -> str:
    """A value in few words."""
    if isinstance(value, bool):
        return "true" if value else "false"
    if isinstance(value, (int, float)):
        return f"the number {value}"
    if isinstance(value, Moment):
        return f"the date or time {value.text}"
    if isinstance(value, str):
        return f"the text '{value[:40]}'"
    return "an array" if isinstance(value, list) else "a table"
