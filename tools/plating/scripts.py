"""Writes what the core reads: the input of `slice`, and scripts of a whole plate."""
import dataclasses
import os
import re

from .beds import CELL, COLUMNS, MOST_CELLS, ROWS, cells_of, is_on_bed, layers_of, overlap, spread
from .meshes import millimetres, numeral, read_mesh
from .refusal import Refusal, fault_words, remark
from .settings import OPTIONS, remark_on_faults

MOST_BYTES = 2 ** 28
MOST_OBJECTS = 16  # and as many instances of each
NUMBER = r"[+-]?(?:\d+\.?\d*|\.\d+)"
PLACED = re.compile(rf"(?P<path>.+)@(?P<x>{NUMBER}),(?P<y>{NUMBER})(?:,(?P<turn>[^,@]*))?", re.DOTALL)


class Text:
    """A text for the core, and where each of its lines comes from."""

    def __init__(self):
        self.pieces, self.lines, self.blocks = [], 0, []
        self.add("plater 1")

    def add(self, line):
        self.pieces.append(line.encode() + b"\n")
        self.lines += 1

    def add_block(self, name, source):
        """A block with the text of a mesh or of settings, which ends with a line end."""
        self.add(f"data {name}")
        self.blocks.append((self.lines, source))
        self.pieces.append(source.text)
        self.lines += source.text.count(b"\n")
        self.add(".end")

    def bytes(self):
        return b"".join(self.pieces)

    def origin(self, line):
        """(mesh or settings, line in it) of a line of this text; line 0 is the data line. None where it is in no block."""
        for first, source in self.blocks:
            if first <= line <= first + source.text.count(b"\n"):
                return source, line - first
        return None


@dataclasses.dataclass
class Wish:
    """An object that is asked for: a model, perhaps its place in nanometres, and its quarter turns."""

    path: str
    place: tuple
    turn: int


def wish(word):
    """The object that a word MODEL.stl[@X,Y[,TURN]] asks for."""
    found = None if os.path.exists(word) else PLACED.fullmatch(word)
    if not found:
        return Wish(word, None, 0)
    turn = "0" if found["turn"] is None else found["turn"]
    if turn not in ("0", "1", "2", "3"):
        raise Refusal(f"{word}: the turn is a number of quarter turns, 0 to 3", 2)
    place = tuple(numeral(found[axis].encode()) for axis in ("x", "y"))
    for length in place:
        if isinstance(length, str):
            raise Refusal(f"{word}: {fault_words(length)}", 2)
    return Wish(found["path"], place, int(turn))


def slice_input(mesh, settings):
    """The input of the program's command `slice`."""
    text = Text()
    if settings.text:
        text.add_block("settings", settings)
    text.add_block("mesh", mesh)
    if mesh.corners:
        why = f"{mesh.path} stands in the corner of the bed; give it a place with `plate.py script`"
        remark_on_margin([(0, 0, *cells_of(mesh.size()))], settings, why)
    return text


def script(wishes, settings, workers, gap):
    """A script that loads all objects, puts them on the bed, applies and exports."""
    meshes = {path: read_mesh(path) for path in dict.fromkeys(it.path for it in wishes)}
    wishes = sorted(wishes, key=lambda it: meshes[it.path].fault is not None)  # a refused load takes no place from the others
    remark_on_faults(settings)
    for mesh in meshes.values():
        remark_on_mesh(mesh)
        remark_on_cells(mesh, settings)
    places = places_of(wishes, meshes, gap)
    names = names_of(meshes)
    text = Text()
    if workers is not None:
        text.add(f"workers {workers}")
    if settings.text:
        text.add_block("settings", settings)
    for path, mesh in meshes.items():
        text.add_block(names[path], mesh)
    if settings.text:
        text.add("1 ini settings")
    for command in loads(wishes, places, names):
        text.add(command)
    text.add("1 apply")
    text.add("1 export")
    remark_on_size(text)
    remark_on_bed(wishes, places, meshes, settings)
    return text


def loads(wishes, places, names):
    """The commands that load and place all objects: one of the same model and turn as an earlier one is its instance."""
    counts, commands = [], []  # of each object: model, turn, instances
    for it, (x, y) in zip(wishes, places):
        at = f"{millimetres(x)} {millimetres(y)}"
        same = [number for number, (*known, count) in enumerate(counts) if known == [it.path, it.turn] and count < MOST_OBJECTS]
        if same:
            counts[same[0]][2] += 1
            commands.append(f"1 copy {same[0]} {at}")
            continue
        if len(counts) == MOST_OBJECTS:
            raise Refusal(f"{it.path}: a plate has at most {MOST_OBJECTS} objects of {MOST_OBJECTS} instances", 2)
        commands.append(f"1 load {names[it.path]} {names[it.path]}")
        if it.turn:
            commands.append(f"1 turn {len(counts)} {it.turn}")
        commands.append(f"1 move {len(counts)} 0 {at}")
        counts.append([it.path, it.turn, 1])
    return commands


def names_of(paths):
    """A name for the block of each model: the file's name in the letters that a block may have."""
    names, taken = {}, {"settings"}
    for path in paths:
        stem = re.sub(r"[^A-Za-z0-9_.-]", "_", os.path.splitext(os.path.basename(path))[0])[:60] or "model"
        name, number = stem, 1
        while name in taken:
            number += 1
            name = f"{stem[:60]}-{number}"
        taken.add(name)
        names[path] = name
    return names


def box_at(place, size, turn):
    """The box (column, row, columns, rows) of an object at a place in nanometres."""
    return (place[0] // CELL, place[1] // CELL, *cells_of(size, turn))


def places_of(wishes, meshes, gap):
    """The place of each object in nanometres: that which was given, else one on the bed clear of the others."""
    taken = [box_at(it.place, meshes[it.path].size(), it.turn) for it in wishes if it.place and meshes[it.path].corners]
    free = [it for it in wishes if not it.place]
    boxes = [cells_of(meshes[it.path].size() or (0, 0), it.turn) for it in free]
    found = iter(spread(boxes, taken, -(-gap // CELL)))
    places = []
    for it in wishes:
        if it.place:
            places.append(it.place)
            continue
        place = next(found)
        size = meshes[it.path].size()
        if place is None and is_on_bed(0, 0, *cells_of(size, it.turn)):
            raise Refusal(f"{it.path}: no room is left on the bed for it; give it a place with {it.path}@X,Y, or take it off")
        places.append((place[0] * CELL, place[1] * CELL) if place else (0, 0))
    return places


def remark_on_size(text):
    if sum(map(len, text.pieces)) > MOST_BYTES:
        remark("warning", f"the input has more than {MOST_BYTES:,} bytes; the core will refuse it (TooLong)")


def remark_on_mesh(mesh):
    """Says what is wrong with a mesh that the core will refuse."""
    if mesh.fault:
        line, fault = mesh.fault
        shown = "" if mesh.is_binary else f": {mesh.line_text(line)}"
        remark("warning", f"{mesh.place_of(line)}: {fault_words(fault)}{shown}; the core will refuse this mesh")


def remark_on_cells(mesh, settings):
    if not mesh.corners:
        return
    width, depth, height = mesh.size()
    columns, rows = cells_of((width, depth))
    layers = layers_of(height, settings.number("first_layer_height"), settings.number("layer_height"))
    if columns * rows * layers > MOST_CELLS:
        cells = f"{columns} by {rows} cells in {layers} layers are more than 2^24"
        remark("warning", f"{mesh.path}: {cells}; the core will refuse to slice it (TooManyCells)")


def remark_on_bed(wishes, places, meshes, settings):
    """Says which objects leave the bed, which stand in each other, and whether skirt or brim leave the bed."""
    boxes = []
    for it, place in zip(wishes, places):
        mesh = meshes[it.path]
        if not mesh.corners:
            continue
        box = box_at(place, mesh.size(), it.turn)
        x, y = (millimetres(length)[:-3] for length in place)
        at = f"{it.path} at {x},{y} ({box[2] * 0.4:.1f} by {box[3] * 0.4:.1f} mm)"
        if not is_on_bed(*box):
            remark("warning", f"{at} leaves the bed of 250 by 210 mm; the core will refuse the export (OutOfBed)")
        for other, name in boxes:
            if overlap(box, other, 0):
                remark("warning", f"{at} stands in {name}; the core does not look for that")
        boxes.append((box, at))
    remark_on_margin([box for box, _ in boxes], settings, "the core does not look for that")


def remark_on_margin(boxes, settings, advice):
    """Says whether skirt or brim go past the edge of the bed, by the objects' boxes, which are at least as wide as their ground."""
    brim = settings.number("brim_width") // CELL
    skirts = settings.number("skirts") if settings.number("skirt_height") else 0
    away = max(settings.number("skirt_distance") // CELL, brim) + skirts if skirts else brim
    if not boxes or not away or not all(is_on_bed(*box) for box in boxes):
        return
    low = [min(box[axis] for box in boxes) - away for axis in (0, 1)]
    high = [max(box[axis] + box[axis + 2] for box in boxes) + away for axis in (0, 1)]
    if min(low) < 0 or high[0] > COLUMNS or high[1] > ROWS:
        remark("warning", f"the {'skirt' if skirts else 'brim'} goes past the edge of the bed ({advice})")


def refusal_of(text, line, fault):
    """A refusal of the core in words, with the file and the line that it belongs to."""
    found = text.origin(line)
    if not found:
        return f"line {line} of the input: {fault_words(fault)}"
    source, line = found
    if hasattr(source, "values"):
        key = source.line_text(line).split("=")[0].strip()
        option = OPTIONS.get(key)
        bounds = f"; {key} goes from {option.least} to {option.most}" if fault == "OutOfRange" and option and option.most else ""
        return f"{source.path}:{line}: {source.line_text(line)}: {fault_words(fault)}{bounds}"
    if line == 0:
        return f"{source.path}: {fault_words(fault)}"
    shown = "" if source.is_binary else source.line_text(line)
    return f"{source.place_of(line)}: {fault_words(fault)}" + (f": {shown}" if shown else "")
