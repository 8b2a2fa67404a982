#!/usr/bin/env python3
"""Tries schedule_picture on the examples' traces, at two widths: each line has its mark where its tick is, bars are the ticks in which
something is on or ready, no label is cut off, and no two of them, nor a label and a stroke, lie over each other."""
from __future__ import annotations

import os
import re
import subprocess
import sys
import tempfile
import xml.etree.ElementTree
from typing import Dict, List, Set, Tuple

from common_test import REAL_TIME, TOP, equal, fail, has, held, lines_of, passed, ready_in_each_tick, tool, traces

SVG = "{http://www.w3.org/2000/svg}"
WIDTHS = (600, 1200)
# Kinds that have no stroke of their own: `on` is a bar, and a halt is seen by the guest's mode.
WITHOUT_A_STROKE = ("on", "halt", "end", "memory", "reply", "ret")
LETTER, HEIGHT = 7.25, 12       # of the font, DejaVu Sans Mono, in 12 pixels
DOCUMENT = "docs/PICTURES.md"
Range = Tuple[float, float]


def shapes(root: xml.etree.ElementTree.Element, kind: str) -> List[Tuple[xml.etree.ElementTree.Element, str]]:
    """The shapes that have a title, with it."""
    return [(shape, shape.find(f"{SVG}title").text) for shape in root.iter(f"{SVG}{kind}") if shape.find(f"{SVG}title") is not None]


def check_strokes(trace: str, root: xml.etree.ElementTree.Element) -> None:
    """Each line has a stroke whose title begins with it, and the strokes stand in the distances of their ticks."""
    strokes = shapes(root, "line")
    wanted = sorted(" ".join(words) for words in lines_of(trace) if words[2] not in WITHOUT_A_STROKE)
    titles = [title for _, title in strokes if re.match("[RGH] ", title)]
    equal(f"the strokes of {trace}", sorted(title.split(", due in")[0] for title in titles), wanted)
    # A fault ends a bar, and so stands at the end of its tick.
    places = sorted({(int(title.split()[1]) + (title.split()[2] == "fault"), float(shape.get("x1")))
                     for shape, title in strokes if re.match("[RGH] ", title)})
    (first, left), (last, right) = (places[0], places[-1]) if places else ((0, 0.0), (0, 0.0))
    for tick, place in places:
        expected = left + (right - left) * (tick - first) / max(1, last - first)
        if abs(place - expected) > 0.2:
            fail(f"in the picture of {trace} tick {tick} stands at {place}, not at {expected:.1f}")


def bars(root: xml.etree.ElementTree.Element) -> Dict[Tuple[str, str], Set[int]]:
    """The ticks of all bars of a row and a kind."""
    found: Dict[Tuple[str, str], Set[int]] = {}
    for _, title in shapes(root, "rect"):
        row, kind, first, last = re.fullmatch(r"([a-z]+(?: \d+)?)(?: \(\d+\))?: (\w+), ticks (\d+) to (\d+)", title).groups()
        found.setdefault((row, kind), set()).update(range(int(first), int(last) + 1))
    return found


def check_bars(trace: str, root: xml.etree.ElementTree.Element) -> None:
    """Who is on, in which ticks; the guest's modes together are the ticks in which it is on; who is ready."""
    lines, found = lines_of(trace), bars(root)
    for who, ticks in held(lines).items():
        drawn = found.get((who, "on"), set()) if who != "guest" else set().union(*(found.get((who, mode), set())
                                                                                   for mode in ("runs", "halted", "stopped")))
        equal(f"when {who} is on in the picture of {trace}", drawn, ticks)
    ready: Dict[str, Set[int]] = {}
    for tick, numbers in ready_in_each_tick(lines):
        for number in numbers:
            ready.setdefault(f"thread {number}", set()).add(tick)
    equal(f"who is ready in the picture of {trace}", {row: ticks for (row, kind), ticks in found.items() if kind == "ready"}, ready)


def check_labels(what: str, root: xml.etree.ElementTree.Element) -> None:
    width, height = float(root.get("width")), float(root.get("height"))
    labels = []
    for text in root.iter(f"{SVG}text"):
        left, bottom, size = float(text.get("x")), float(text.get("y")), LETTER * len(text.text)
        left -= size / 2 if text.get("text-anchor") == "middle" else 0
        labels.append((left, left + size, bottom - HEIGHT * 0.75, bottom, text.text))
        if left < 0 or left + size > width or bottom - HEIGHT < 0 or bottom + 3 > height:
            fail(f"{what} cuts off '{text.text}'")
    labels.sort(key=lambda label: (label[3], label[0]))
    for one, other in zip(labels, labels[1:]):
        if one[3] == other[3] and one[1] > other[0] + 0.5:
            fail(f"in {what} '{one[4]}' and '{other[4]}' lie over each other")
    for shape, title in shapes(root, "line"):
        place, top, bottom = float(shape.get("x1")), float(shape.get("y1")), float(shape.get("y2"))
        for left, right, upper, lower, text in labels:
            if left + 0.5 < place < right - 0.5 and upper < bottom and top < lower:
                fail(f"in {what} '{title}' goes through '{text}'")


def check_examples() -> None:
    for trace in traces():
        for width in WIDTHS:
            root = xml.etree.ElementTree.fromstring(tool("schedule_picture", trace, "--width", str(width)))
            equal(f"the width of {trace}", root.get("width"), str(width))
            check_labels(f"the picture of {trace}, {width} wide", root)
            check_strokes(trace, root)
            check_bars(trace, root)
    passed(f"the pictures of {len(traces())} traces have all their lines and bars, at {len(WIDTHS)} widths, and nothing is cut off")


def check_real_time_rows() -> None:
    """By the rules of the schedule: thread 0 of the trace is due in 20 and 50, and a handler holds the second release up to 52."""
    root = xml.etree.ElementTree.fromstring(tool("schedule_picture", REAL_TIME))
    titles = [title for kind in ("polygon", "line") for _, title in shapes(root, kind)]
    for wanted in ("20: due of thread 0", "50: due of thread 0", "R 20 release 0", "R 52 release 0, due in 50: 2 ticks late",
                   "24: gate 7, wait", "55: gate 7, wait"):
        equal(f"how often the picture has '{wanted}'", titles.count(wanted), 1)
    texts = [text.text for text in root.iter(f"{SVG}text")]
    for wanted in ("thread 0 (10)", "thread 1 (5)", "init 0", "irq 7", "+2", "wait", "divide", "hi", "late release"):
        if wanted not in texts:
            fail(f"the picture of {REAL_TIME} has no label '{wanted}'")
    unreleased = [title for _, title in shapes(xml.etree.ElementTree.fromstring(tool("schedule_picture", "-", stdin=STUCK)), "polygon")]
    equal("the dues of a thread that is stuck", unreleased,
          ["20: due of thread 0", "30: due of thread 0, without a release", "40: due of thread 0, without a release"])
    window = tool("schedule_picture", REAL_TIME, "--from", "20", "--to", "30", "--rows", "thread,guest")
    has(window, "thread 0 (10): on, ticks 20 to 24", "the window's picture")
    if "gate 24" in window or ">init 0<" in window:
        fail("--rows shows other rows")
    passed("the rows of the real-time side have dues, releases, late releases and gates that wait")


STUCK = b"""R 1 on init 0
R 3 gate 2 00011000 0000000a 00012000 00000000 0
R 6 gate 6 00000000 00000014 0000000a 00000000 0
R 9 ret
R 10 on guest
R 20 release 0
R 20 on thread 0
R 45 end 1 1
"""


def python_with_matplotlib() -> str:
    """This python3, or the system's where that has it."""
    for python in (sys.executable, "/usr/bin/python3"):
        if os.path.exists(python) and not subprocess.run([python, "-c", "import matplotlib"], stderr=subprocess.DEVNULL, check=False).returncode:
            return python
    return ""


def check_png(folder: str) -> None:
    if subprocess.run([sys.executable, "-c", "import matplotlib"], stderr=subprocess.DEVNULL, check=False).returncode:
        has(tool("schedule_picture", REAL_TIME, "-o", f"{folder}/picture.png", status=2), "python3-matplotlib", "schedule_picture")
    python = python_with_matplotlib()
    if not python:
        passed("skipped, no python3-matplotlib: a picture as PNG")
        return
    for width in WIDTHS:
        tool("schedule_picture", REAL_TIME, "-o", f"{folder}/picture.png", "--width", str(width), python=python)
        root = xml.etree.ElementTree.fromstring(tool("schedule_picture", REAL_TIME, "--width", str(width)))
        with open(f"{folder}/picture.png", "rb") as file:
            header = file.read(24)
        equal("the first bytes of the PNG", header[:8], b"\x89PNG\r\n\x1a\n")
        equal("the width and the height of the PNG", [int.from_bytes(header[at:at + 4], "big") for at in (16, 20)],
              [width, int(root.get("height"))])
    passed("a picture is drawn as PNG, as large as the SVG")


def check_documents() -> None:
    """The pictures of the documents are those that the commands beside them draw."""
    if not os.path.exists(DOCUMENT):
        return
    with open(DOCUMENT, encoding="utf-8") as file:
        commands = re.findall(r"^    \$ tools/schedule_picture\.py (.* -o (docs/\S+\.svg))$", file.read(), re.M)
    if not commands:
        fail(f"{DOCUMENT} draws no picture in docs/")
    for words, picture in commands:
        drawn = tool("schedule_picture", *words.split(" -o ")[0].split())
        with open(picture, encoding="utf-8") as file:
            if file.read() != drawn:
                fail(f"{picture} isn't what is drawn now; draw it again: tools/schedule_picture.py {words}")
    passed(f"the {len(commands)} pictures of the documents are what their commands draw")


def main() -> None:
    os.chdir(TOP)
    with tempfile.TemporaryDirectory() as folder:
        check_examples()
        check_real_time_rows()
        check_png(folder)
        check_documents()


if __name__ == "__main__":
    main()
