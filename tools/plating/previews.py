"""Reads the core's G-code layer by layer, and draws layers."""
import dataclasses
import re

from .beds import CELL, COLUMNS, ROWS
from .pictures import document, element, legend, number, words_at
from .refusal import Refusal

COLOURS = {
    "skirt": "#8c8c8c", "brim": "#b8860b", "tower": "#8e5bb5", "perimeter": "#1f6fb4", "infill": "#e8862e", "ironing": "#d6337c",
    "support": "#2f9e5b",
}
NAMES = {"tower": "wipe tower", "perimeter": "perimeters"}  # in the legend, where it is another word
FIRST_LINE = b"; headless plater\n"
HEIGHT = re.compile(rb"^;Z (\d+\.\d{3})\n", re.MULTILINE)
AT = rb"G1 X(-?\d+\.\d{3}) Y(-?\d+\.\d{3})"
TRAVEL = re.compile(AT + rb" F\d+")
DRAW = re.compile(AT + rb" E(\d+\.\d{5})")
OBJECT = re.compile(rb";OBJECT (\d+) (\d+)")
TOOL = re.compile(rb"T\d")


@dataclasses.dataclass
class Path:
    """A line that is printed without a stop: points in micrometres, filament in 0.00001 mm, and what it is part of."""

    points: list
    filament: int
    part: tuple  # place and instance; None before the first object and after a change of tools
    kind: str = ""

    def is_loop(self):
        return len(self.points) > 2 and self.points[0] == self.points[-1]

    def flow(self):
        """Filament for each length."""
        length = sum(abs(x - u) + abs(y - v) for (x, y), (u, v) in zip(self.points, self.points[1:]))
        return self.filament / length if length else 0.0


@dataclasses.dataclass
class Layer:
    number: int
    height: str
    paths: list


def is_gcode(data):
    """Whether a text begins as a G-code of the core, or at least not as a transcript."""
    return data.startswith(FIRST_LINE) or not re.match(rb"\d+ |end ", data)


def heights_of(path, gcode):
    """The heights of a print: for each its text, where its lines begin and where they end."""
    found = list(HEIGHT.finditer(gcode))
    if not gcode.startswith(FIRST_LINE):
        raise Refusal(f"{path}:1: this is no G-code of plater and no transcript")
    if not found:
        raise Refusal(f"{path}: this print has no layer")
    ends = [it.start() for it in found[1:]] + [len(gcode)]
    return [(it[1].decode(), it.end(), end) for it, end in zip(found, ends)]


def read_layer(gcode, heights, layer):
    """The paths of a layer, each with its kind."""
    height, first, end = heights[layer]
    paths, part, here = [], None, None
    for line in gcode[first:end].split(b"\n"):
        if found := OBJECT.fullmatch(line):
            part = int(found[1]), int(found[2])
        elif TOOL.fullmatch(line):
            part = None
        elif found := TRAVEL.fullmatch(line):
            here = [micrometres(found[1]), micrometres(found[2])]
            paths.append(Path([tuple(here)], 0, part))
        elif (found := DRAW.fullmatch(line)) and paths:
            paths[-1].points.append((micrometres(found[1]), micrometres(found[2])))
            paths[-1].filament += int(found[3].replace(b".", b""))
    paths = [path for path in paths if len(path.points) > 1]
    tell_kinds(paths)
    return Layer(layer, height, paths)


def micrometres(text):
    return int(text.replace(b".", b""))


def tell_kinds(paths):
    """Gives each path its kind: see KINDS_HELP for what can be told."""
    rest = [path for path in paths if path.part is None]
    is_skirt = True
    for path in rest:
        if path.is_loop():
            is_skirt = is_skirt and len(path.points) == 5
            path.kind = "skirt" if is_skirt else "brim"
        else:
            path.kind = "tower"
    for part in dict.fromkeys(path.part for path in paths if path.part is not None):
        tell_kinds_of_object([path for path in paths if path.part == part])


def tell_kinds_of_object(paths):
    """Loops are perimeters; thin strokes ironing; other strokes infill, or support where they lie outside the loops or behind ironing."""
    loops = [path.points for path in paths if path.is_loop()]
    full = max(path.flow() for path in paths)
    ironed = False
    for path in paths:
        if path.is_loop():
            path.kind = "perimeter"
        elif path.flow() < full / 2:
            path.kind, ironed = "ironing", True
        else:
            path.kind = "support" if ironed or loops and not is_inside(middle(path), loops) else "infill"


def middle(path):
    (x, y), (u, v) = path.points[0], path.points[-1]
    return (x + u) / 2, (y + v) / 2


def is_inside(point, loops):
    """Whether loops go round a point, those of holes counted against the others."""
    x, y = point
    turns = 0
    for loop in loops:
        for (u, v), (_, w) in zip(loop, loop[1:]):
            if u > x and (v > y) != (w > y):
                turns += 1 if w > v else -1
    return turns != 0


KINDS_HELP = """What the G-code tells apart: loops before the first object are the skirt (rectangles, which come first) and the brim;
strokes between a change of tools and an object are the wipe tower. Of an object, loops (they go at perimeter_speed) are
perimeters; strokes (at infill_speed) with less than half the filament are ironing; a stroke that lies outside the object's
loops, or comes after its ironing, is support; all others are infill. Solid and sparse infill look alike. Where an object has no
perimeters, its support is drawn as infill unless ironing comes before it."""


# ---- drawing

CAPTION, EDGE = 20, 10
STYLE = "path{fill:none;stroke-linejoin:round;stroke-linecap:butt}.bed{fill:#fafafa;stroke:#555}.lines{stroke:#e4e4e4}"


def view_of(layers, whole_bed):
    """The part of the plane that is drawn, in micrometres: the paths with 4 mm round them, or the whole bed with them."""
    points = [point for layer in layers for path in layer.paths for point in path.points]
    points += [(0, 0), (COLUMNS * CELL // 1000, ROWS * CELL // 1000)] if whole_bed or not points else []
    low = [min(point[axis] for point in points) - 4_000 for axis in (0, 1)]
    high = [max(point[axis] for point in points) + 4_000 for axis in (0, 1)]
    return low, high


def path_data(points):
    """The points as data of a path in millimetres: each further one from the one before."""
    (x, y), words = points[0], []
    words.append(f"M{number(x / 1000)} {number(y / 1000)}")
    for u, v in points[1:]:
        dx, dy = number((u - x) / 1000), number((v - y) / 1000)
        words.append(f"h{dx}" if v == y else f"v{dy}" if u == x else f"l{dx} {dy}")
        x, y = u, v
    return "".join(words)


def drawing(layer, view):
    """The bed and the paths of a layer, in millimetres, with y upwards."""
    (left, low), (right, high) = ([value / 1000 for value in corner] for corner in view)
    wide, deep = COLUMNS * CELL / 1e6, ROWS * CELL / 1e6
    thin = max(right - left, high - low) / 700
    parts = [element("rect", x=0, y=0, width=wide, height=deep, class_="bed", stroke_width=2 * thin)]
    lines = [f"M{at} 0V{number(deep)}" for at in range(10, int(wide), 10) if left < at < right]
    lines += [f"M0 {at}H{number(wide)}" for at in range(10, int(deep), 10) if low < at < high]
    parts.append(element("path", d="".join(lines) or "M0 0", class_="lines", stroke_width=thin))
    for kind, colour in COLOURS.items():
        data = "".join(path_data(path.points) for path in layer.paths if path.kind == kind)
        if data:
            wide_line = 0.3 if kind != "ironing" else 0.12
            parts.append(element("path", d=data, class_=kind, stroke=colour, stroke_width=wide_line))
    return element("g", "\n".join(parts), transform="scale(1 -1)")


def scale_bar(x, y, points_each):
    """A bar of a round length in millimetres, and the length under it."""
    length = next(size for power in range(-1, 4) for size in (10.0 ** power, 2 * 10.0 ** power, 5 * 10.0 ** power) if size * points_each >= 45)
    end = x + length * points_each
    bar = element("path", d=f"M{number(x)} {number(y - 4)}v4H{number(end)}v-4", stroke="#333", stroke_width=1)
    return [bar, words_at(end + 5, y, f"{number(length)} mm", 10)]


def sheet(name, layers, whole_bed):
    """The SVG text: one picture for each layer, all of the same part of the bed, with a legend and a scale."""
    view = view_of(layers, whole_bed)
    (left, low), (right, high) = view
    columns = min(len(layers), 3 if len(layers) != 4 else 2)
    side = 720 if len(layers) == 1 else 300
    each = side / (max(right - left, high - low) / 1000)
    wide, deep = (right - left) / 1000 * each, (high - low) / 1000 * each
    parts = [words_at(EDGE, 18, name, 13)]
    for place, layer in enumerate(layers):
        x = EDGE + place % columns * (wide + EDGE)
        y = 28 + place // columns * (deep + CAPTION + EDGE)
        box = f"{number(left / 1000)} {number(-high / 1000)} {number((right - left) / 1000)} {number((high - low) / 1000)}"
        parts.append(element("svg", drawing(layer, view), x=float(x), y=float(y), width=float(wide), height=float(deep), viewBox=box))
        parts.append(words_at(x, y + deep + 13, f"layer {layer.number}, Z {layer.height} mm"))
    bottom = 28 + -(-len(layers) // columns) * (deep + CAPTION + EDGE) + 8
    kinds = [kind for kind in COLOURS if any(path.kind == kind for layer in layers for path in layer.paths)]
    marks, end = legend(EDGE, bottom, COLOURS, [(kind, NAMES.get(kind, kind)) for kind in kinds])
    parts += marks + scale_bar(EDGE, bottom + 22, each) + [words_at(EDGE + 150, bottom + 22, "bed of 250 by 210 mm, lines 10 mm apart", 10)]
    width = max(2 * EDGE + columns * (wide + EDGE) - EDGE, end + EDGE, 2 * EDGE + 8 * len(name), 380)
    return document(width, bottom + 34, STYLE, parts)
