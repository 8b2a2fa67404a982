"""A picture as shapes in pixels, from the upper left corner, and how it is written as SVG and as PNG. Both have the same shapes, so what
fits in one fits in the other."""
from __future__ import annotations

import html
from typing import List, NamedTuple, Tuple, Union

from . import command

FONT_SIZE = 12
# The width of a letter: of DejaVu Sans Mono, one of the widest among the usual fonts of one width.
LETTER = 0.61 * FONT_SIZE
INK = "#202020"


class Box(NamedTuple):
    left: float
    top: float
    width: float
    height: float
    color: str
    title: str = ""


class Stroke(NamedTuple):
    """A straight line, upright or level."""
    left: float
    top: float
    right: float
    bottom: float
    color: str
    width: float = 1.0
    title: str = ""


class Triangle(NamedTuple):
    """One that stands on its tip, which is at `left` and `bottom`."""
    left: float
    bottom: float
    size: float
    color: str
    title: str = ""


class Text(NamedTuple):
    """A text whose base line is at `bottom`; it begins at `left`, or has its middle there."""
    left: float
    bottom: float
    text: str
    color: str = INK
    is_centered: bool = False


Shape = Union[Box, Stroke, Triangle, Text]


class Scene(NamedTuple):
    width: int
    height: int
    shapes: List[Shape]


def width_of(text: str) -> float:
    return LETTER * len(text)


def number(value: float) -> str:
    """A number of pixels with at most one digit behind the point."""
    return f"{value:.1f}".rstrip("0").rstrip(".")


# SVG.

def svg(scene: Scene) -> str:
    lines = [f'<svg xmlns="http://www.w3.org/2000/svg" width="{scene.width}" height="{scene.height}" '
             f'viewBox="0 0 {scene.width} {scene.height}" font-family="DejaVu Sans Mono, monospace" font-size="{FONT_SIZE}">',
             '<rect width="100%" height="100%" fill="white"/>']
    lines += [element(shape) for shape in scene.shapes]
    return "\n".join([*lines, "</svg>", ""])


def element(shape: Shape) -> str:
    if isinstance(shape, Text):
        anchor = ' text-anchor="middle"' * shape.is_centered
        return f'<text x="{number(shape.left)}" y="{number(shape.bottom)}" fill="{shape.color}"{anchor}>{html.escape(shape.text)}</text>'
    if isinstance(shape, Box):
        name, places = "rect", (f'x="{number(shape.left)}" y="{number(shape.top)}" width="{number(shape.width)}" '
                                f'height="{number(shape.height)}" fill="{shape.color}"')
    elif isinstance(shape, Stroke):
        name, places = "line", (f'x1="{number(shape.left)}" y1="{number(shape.top)}" x2="{number(shape.right)}" y2="{number(shape.bottom)}" '
                                f'stroke="{shape.color}" stroke-width="{number(shape.width)}"')
    else:
        name = "polygon"
        places = f'points="{" ".join(f"{number(x)},{number(y)}" for x, y in corners(shape))}" fill="{shape.color}"'
    return f"<{name} {places}><title>{html.escape(shape.title)}</title></{name}>" if shape.title else f"<{name} {places}/>"


def corners(triangle: Triangle) -> List[Tuple[float, float]]:
    half, top = triangle.size / 2, triangle.bottom - triangle.size
    return [(triangle.left - half, top), (triangle.left + half, top), (triangle.left, triangle.bottom)]


# PNG.

DOTS = 100      # for matplotlib, whose sizes are in inches and points, of which an inch has 72
POINT = 72 / DOTS


def png(scene: Scene, file: str) -> None:
    try:
        import matplotlib
        matplotlib.use("Agg")
        from matplotlib import pyplot
    except ImportError:
        command.fail("PNG needs python3-matplotlib for this python3; SVG needs nothing else")
    figure = pyplot.figure(figsize=(scene.width / DOTS, scene.height / DOTS), dpi=DOTS)
    axes = figure.add_axes([0, 0, 1, 1])
    axes.set_xlim(0, scene.width)
    axes.set_ylim(scene.height, 0)
    axes.axis("off")
    for order, shape in enumerate(scene.shapes):
        draw(axes, pyplot, shape, order)
    try:
        figure.savefig(file, dpi=DOTS)
    except OSError as error:
        command.fail(f"{file}: {error.strerror}")


def draw(axes, pyplot, shape: Shape, order: int) -> None:
    if isinstance(shape, Text):
        axes.text(shape.left, shape.bottom, shape.text, color=shape.color, family="DejaVu Sans Mono", fontsize=FONT_SIZE * POINT,
                  ha="center" if shape.is_centered else "left", va="baseline", zorder=order, parse_math=False)
    elif isinstance(shape, Box):
        axes.add_patch(pyplot.Rectangle((shape.left, shape.top), shape.width, shape.height, facecolor=shape.color, linewidth=0, zorder=order))
    elif isinstance(shape, Stroke):
        axes.plot([shape.left, shape.right], [shape.top, shape.bottom], color=shape.color, linewidth=shape.width * POINT,
                  solid_capstyle="butt", zorder=order)
    else:
        axes.add_patch(pyplot.Polygon(corners(shape), facecolor=shape.color, linewidth=0, zorder=order))
