#!/usr/bin/env python3
"""Draws a trace over time: which threads are ready and on the processor, with their dues and releases, handlers, inits and the guest, and
marks for gates, bytes, entries, breaches and more."""
from __future__ import annotations

import argparse
import bisect
import sys
from typing import Dict, List, Sequence, Tuple

from common import command
from common.scene import INK, Box, Scene, Shape, Stroke, Text, Triangle, png, svg, width_of
from common.timeline import Mark, Span, Timeline, timeline
from common.trace_source import add_trace_arguments, read_trace

WIDTH, LEAST_WIDTH, MOST_WIDTH = 1200, 600, 8000
EDGE, KEY_ROW, ROW, THREAD_ROW, BOTTOM = 10, 20, 22, 32, 30
DUE = 8
BARS = {"on": "#4a7fb8", "ready": "#c4d8ec", "runs": "#7fb77e", "halted": "#d4d4d4", "stopped": "#d9776b"}
STROKES = {"due": "#303030", "release": "#303030", "late": "#e06000", "waits": "#8040a0", "fault": "#d02020", "mark": "#806040"}
ENDS = ("waits", "fault")
LEVEL, GRID, PALE = "#e8e8e8", "#f2f2f2", "#606060"
# The key: a bar or a stroke, and what it says.
KEY = [("on", "on the processor"), ("ready", "ready"), ("runs", "guest runs"), ("halted", "halted"), ("stopped", "stopped"),
       ("due", "due"), ("release", "release"), ("late", "late release"), ("waits", "gate that waits"), ("fault", "fault"), ("mark", "printed line")]
LETTERS_BETWEEN_TICKS = 8
EPILOG = """A row has one thing. `init M`, `irq L` and `fifo F` have the ticks in which a module's init or a handler is on the processor, `thread I (P)`
those in which thread I, of priority P, is on (dark) or ready while another is on (pale). On a thread's row a triangle is a due and an
upright stroke below it a release, orange with the number of ticks where it is late; a purple stroke is a gate with which the thread waits,
sleeps or suspends itself. A fault stands where it was. `guest` has the guest's mode while it is on: it runs, is halted or is stopped. The other rows have a stroke for each line of
their kind. A gate has its number, a byte its character or its two digits. What has no room has no label.

SVG needs nothing else and shows a line's text under the pointer; PNG needs python3-matplotlib.

examples:
  tools/schedule_picture.py examples/threads/expected -o threads.svg
  tools/schedule_picture.py examples/threads/expected --from 900 --to 2300 --rows init,thread,guest --width 800 -o window.png
  PROGRAM run examples/serial_echo/system.toml --ticks 2500 | tools/schedule_picture.py -o echo.svg"""


def arguments() -> argparse.Namespace:
    parser = command.parser(__doc__, EPILOG)
    add_trace_arguments(parser)
    parser.add_argument("-o", "--output", metavar="FILE", help="the picture, FILE.svg or FILE.png; without it SVG on standard output")
    parser.add_argument("--from", dest="first", metavar="T", type=command.positive, help="the first tick that is drawn (1)")
    parser.add_argument("--to", dest="last", metavar="T", type=command.positive, help="the last tick that is drawn (the trace's last)")
    parser.add_argument("--rows", metavar="KIND,..", help="only rows of these kinds, by the first word of their names")
    parser.add_argument("--width", metavar="PIXELS", type=width, default=WIDTH, help=f"how wide it is, {LEAST_WIDTH} to {MOST_WIDTH} ({WIDTH})")
    return parser.parse_args()


def width(text: str) -> int:
    if not text.isdecimal() or not LEAST_WIDTH <= int(text) <= MOST_WIDTH:
        raise argparse.ArgumentTypeError(f"{text} isn't {LEAST_WIDTH} to {MOST_WIDTH}")
    return int(text)


class Layout:
    """Where ticks and rows stand. A tick has a width, so the last one ends at the right edge."""

    def __init__(self, line: Timeline, pixels: int):
        self.line, self.pixels = line, pixels
        self.left_edge = EDGE + max(width_of(row) for row in line.rows) + EDGE
        self.right_edge = pixels - EDGE - width_of(str(line.last)) / 2
        self.tick = (self.right_edge - self.left_edge) / (line.last - line.first + 1)
        self.key, key_rows = key(pixels, {item.kind for item in [*line.spans, *line.marks]})
        self.title_bottom = EDGE + 12
        self.top = self.title_bottom + 8 + KEY_ROW * key_rows
        self.tops: Dict[str, int] = {}
        place = self.top
        for row in line.rows:
            self.tops[row] = place
            place += self.row_height(row)
        self.bottom = place
        self.height = place + BOTTOM

    def row_height(self, row: str) -> int:
        return THREAD_ROW if row.startswith("thread ") else ROW

    def left(self, tick: float) -> float:
        return self.left_edge + (tick - self.line.first) * self.tick

    def base(self, row: str) -> int:
        """The base line of a row's text."""
        return self.tops[row] + self.row_height(row) - 7


def key(pixels: int, kinds: set) -> Tuple[List[Tuple[str, str, float, int]], int]:
    """The parts of the key that the picture needs, with their places, and how many rows they take."""
    places, left, row = [], float(EDGE), 0
    for kind, text in KEY:
        if kind in kinds:
            needed = 20 + width_of(text) + 16
            if left + needed > pixels and left > EDGE:
                left, row = float(EDGE), row + 1
            places.append((kind, text, left, row))
            left += needed
    return places, row + 1


def scene_of(line: Timeline, pixels: int) -> Scene:
    layout = Layout(line, pixels)
    shapes: List[Shape] = [Text(EDGE, layout.title_bottom, f"ticks {line.first} to {line.last}")]
    shapes += key_shapes(layout)
    shapes += axis(layout)
    for row in line.rows:
        bottom = layout.tops[row] + layout.row_height(row)
        shapes += [Text(EDGE, layout.base(row), row), Stroke(layout.left_edge, bottom, layout.right_edge, bottom, LEVEL)]
    shapes += [bar(span, layout) for span in line.spans]
    for row in line.rows:
        starts = sorted(span.first for span in line.spans if span.row == row)
        shapes += row_marks([mark for mark in line.marks if mark.row == row], starts, layout)
    return Scene(pixels, layout.height, shapes)


def key_shapes(layout: Layout) -> List[Shape]:
    shapes: List[Shape] = []
    for kind, text, left, row in layout.key:
        bottom = layout.title_bottom + 8 + KEY_ROW * row + 12
        if kind in BARS:
            shapes.append(Box(left, bottom - 10, 12, 12, BARS[kind]))
        elif kind == "due":
            shapes.append(Triangle(left + 6, bottom, DUE, STROKES[kind]))
        else:
            shapes.append(Stroke(left + 6, bottom - 10, left + 6, bottom + 2, STROKES[kind], 1.5))
        shapes.append(Text(left + 18, bottom, text))
    return shapes


def axis(layout: Layout) -> List[Shape]:
    shapes: List[Shape] = []
    for tick in axis_ticks(layout):
        left = layout.left(tick)
        shapes += [Stroke(left, layout.top, left, layout.bottom, GRID), Text(left, layout.bottom + 18, str(tick), PALE, True)]
    return shapes


def axis_ticks(layout: Layout) -> List[int]:
    """Round numbers that leave room between each other."""
    line = layout.line
    room = (width_of(str(line.last)) + width_of(" ") * LETTERS_BETWEEN_TICKS) / layout.tick
    step = next(times * 10 ** digits for digits in range(10) for times in (1, 2, 5) if times * 10 ** digits >= min(room, 5e9))
    return list(range(-(-line.first // step) * step, line.last + 1, step))


def bar(span: Span, layout: Layout) -> Box:
    left, right = layout.left(span.first), layout.left(span.last + 1)
    top, height = layout.tops[span.row], layout.row_height(span.row)
    # On a thread's row dues stand above the bars.
    above = DUE + 4 if span.row.startswith("thread ") else 4
    title = f"{span.row}: {span.kind}, ticks {span.first} to {span.last}"
    return Box(left, top + above, max(right - left, 0.8), height - above - 4, BARS[span.kind], title)


def row_marks(marks: List[Mark], starts: List[int], layout: Layout) -> List[Shape]:
    """A stroke for each mark, late releases over all others, and the first of its labels that ends before the next stroke, and before the next bar
    where it stands behind one. How late a release is stands above the bars, among the dues."""
    shapes: List[Shape] = []
    marks = sorted(marks, key=lambda mark: (mark.kind in ("late", "fault"), mark.tick))
    dues = sorted(place(mark, layout) - DUE for mark in marks if mark.kind in ("due", "late"))
    strokes = sorted(place(mark, layout) for mark in marks if mark.kind != "due")
    free = {True: 0.0, False: 0.0}
    for mark in marks:
        left, is_late = place(mark, layout), mark.kind == "late"
        shapes.append(mark_shape(mark, left, layout))
        limit = min(next_behind(dues if is_late else strokes, left), layout.pixels - EDGE / 2)
        if mark.kind in ENDS:
            limit = min(limit, layout.left(next_behind(starts, mark.tick)))
        label = next((label for label in mark.labels if left + 3 + width_of(label) <= limit - 2 and left >= free[is_late]), "")
        if label:
            bottom = layout.tops[mark.row] + DUE + 2 if is_late else layout.base(mark.row)
            shapes.append(Text(left + 3, bottom, label, STROKES["late"] if is_late else INK))
            free[is_late] = left + 3 + width_of(label)
    return shapes


def next_behind(places: Sequence[float], left: float) -> float:
    """The first place behind another; far away where there is none."""
    at = bisect.bisect_right(places, left)
    return places[at] if at < len(places) else float("inf")


def place(mark: Mark, layout: Layout) -> float:
    """What ends a bar stands at the end of its tick; all else stands at the beginning."""
    return layout.left(mark.tick + (mark.kind in ENDS))


def mark_shape(mark: Mark, left: float, layout: Layout) -> Shape:
    top, color = layout.tops[mark.row], STROKES[mark.kind]
    if mark.kind == "due":
        return Triangle(left, top + DUE + 2, DUE, color, mark.text)
    above = DUE + 2 if mark.row.startswith("thread ") and mark.kind != "late" else 3
    return Stroke(left, top + above, left, top + layout.row_height(mark.row) - 2, color, 1.5, mark.text)


def only(line: Timeline, kinds: str) -> Timeline:
    """The rows of these kinds alone."""
    wanted = kinds.split(",")
    rows = [row for row in line.rows if row.split()[0] in wanted]
    if not rows:
        command.fail(f"the trace has no rows of the kinds {kinds}, but {', '.join(dict.fromkeys(row.split()[0] for row in line.rows))}")
    return line._replace(rows=rows, spans=[span for span in line.spans if span.row in rows], marks=[mark for mark in line.marks if mark.row in rows])


def main() -> int:
    words = arguments()
    if words.output and not words.output.endswith((".svg", ".png")):
        command.fail(f"{words.output}: a picture is FILE.svg or FILE.png")
    line = timeline(read_trace(words), words.first, words.last)
    if line.first > line.last or not line.rows:
        command.fail(f"the trace has nothing in the ticks {line.first} to {line.last}")
    if words.rows:
        line = only(line, words.rows)
    scene = scene_of(line, words.width)
    if words.output and words.output.endswith(".png"):
        png(scene, words.output)
    elif words.output:
        command.write(words.output, svg(scene))
    else:
        sys.stdout.write(svg(scene))
    return 0


if __name__ == "__main__":
    command.run(main)
