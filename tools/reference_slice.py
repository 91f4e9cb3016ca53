#!/usr/bin/env python3
"""The G-code of the input of `plater slice`, computed from docs/DEFINITIONS.md and nothing else.

It shares no code with the product, looks at each cell on its own and is slow. The lengths and digests that the tests
assert of examples/ come from it:

    tools/reference_slice.py < examples/cube.slice           writes the G-code
    tools/reference_slice.py --digest FILE..                 writes length and digest of each one's G-code
"""
import sys
from fractions import Fraction

CELL = 400_000

# key: (kind, default); lengths in nanometres, percent and factor as whole numbers
DEFAULTS = {
    'layer_height': ('length', 200_000), 'first_layer_height': ('length', 200_000), 'perimeters': ('whole', 2),
    'top_solid_layers': ('whole', 4), 'bottom_solid_layers': ('whole', 3), 'fill_density': ('percent', 20),
    'ironing': ('flag', 0), 'support_material': ('flag', 0), 'support_material_buildplate_only': ('flag', 0),
    'extruder': ('whole', 1), 'skirts': ('whole', 1), 'skirt_distance': ('length', 6_000_000), 'skirt_height': ('whole', 1),
    'brim_width': ('length', 0), 'wipe_tower': ('flag', 0), 'wipe_tower_x': ('length', 180_000_000),
    'wipe_tower_y': ('length', 140_000_000), 'wipe_tower_width': ('length', 60_000_000), 'perimeter_speed': ('whole', 45),
    'infill_speed': ('whole', 80), 'travel_speed': ('whole', 130), 'temperature': ('whole', 210),
    'first_layer_temperature': ('whole', 215), 'bed_temperature': ('whole', 60), 'first_layer_bed_temperature': ('whole', 60),
    'filament_diameter': ('length', 1_750_000), 'extrusion_multiplier': ('factor', 100), 'start_gcode': ('text', b''),
    'end_gcode': ('text', b''), 'notes': ('text', b''),
}
UNITS = {'length': 1, 'whole': 1_000_000, 'percent': 1_000_000, 'factor': 10_000, 'flag': 1_000_000}


def away(q):
    """A fraction rounded to a whole number, halves away from zero."""
    n = (abs(q) * 2 + 1).__floor__() // 2
    return n if q >= 0 else -n


def nanometres(text):
    return away(Fraction(text) * 1_000_000)


def value_of(kind, text):
    if kind == 'text':
        out, i = bytearray(), 0
        while i < len(text):
            pair = text[i:i + 2]
            if pair in (b'\\n', b'\\r', b'\\\\'):
                out += {b'\\n': b'\n', b'\\r': b'', b'\\\\': b'\\'}[pair]
                i += 2
            else:
                out.append(text[i])
                i += 1
        return bytes(out)
    text = text.split(b',')[0].strip().decode() if kind != 'flag' else text.decode()
    if kind == 'percent' and text.endswith('%'):
        text = text[:-1]
    return away(Fraction(nanometres(text), UNITS[kind]))


def settings_of(text):
    options = {key: default for key, (_, default) in DEFAULTS.items()}
    for line in text.split(b'\n'):
        line = line.strip()
        if not line or line[:1] in b'#;[':
            continue
        key, value = line.split(b'=', 1)
        key = key.strip().decode()
        if key in DEFAULTS:
            options[key] = value_of(DEFAULTS[key][0], value.strip())
    return options


def mesh_of(text):
    """The facets of a mesh text that has no fault."""
    points, at = [], 0
    spaces = b'\t\n\v\f\r '
    while True:
        while at < len(text) and text[at] in spaces:
            at += 1
        if at == len(text):
            return [tuple(points[i:i + 3]) for i in range(0, len(points), 3)]
        end = at
        while end < len(text) and text[end] not in spaces:
            end += 1
        word, at = text[at:end].lower(), end
        if word in (b'solid', b'endsolid'):
            at = (text + b'\n').index(b'\n', at)
        elif word == b'vertex':
            words = text[at:].split(None, 3)[:3] if len(text) - at < 300 else text[at:at + 300].split(None, 3)[:3]
            points.append(tuple(nanometres(w.decode()) for w in words))


def blocks_of(text):
    blocks, lines, i = {}, text.split(b'\n'), 0
    while i < len(lines):
        words = lines[i].split()
        i += 1
        if words[:1] == [b'data']:
            start = i
            while lines[i].rstrip(b'\r') != b'.end':
                i += 1
            blocks[words[1].decode()] = b''.join(line + b'\n' for line in lines[start:i])
            i += 1
    return blocks


# ---- layers

def slices_of(mesh, first, height):
    lo = [min(p[i] for f in mesh for p in f) for i in range(3)]
    up = [max(p[i] for f in mesh for p in f) for i in range(3)]
    cols, rows = (-((lo[i] - up[i]) // CELL) for i in range(2))

    def z(k):
        return first + k * height

    def sample(k):
        return z(0) // 2 if k == 0 else (z(k - 1) + z(k)) // 2

    layers, k = [], 0
    while sample(k) < up[2] - lo[2]:
        layers.append(slice_of(mesh, lo, cols, rows, lo[2] + sample(k)))
        k += 1
    return cols, rows, layers, z


def slice_of(mesh, lo, cols, rows, pz):
    cells = set()
    near = [f for f in mesh if min(p[2] for p in f) <= pz < max(p[2] for p in f)]
    for y in range(rows):
        py = lo[1] + CELL * y + CELL // 2
        ahead = [f for f in near if crosses_oddly(f, py, pz)]
        for x in range(cols):
            px = lo[0] + CELL * x + CELL // 2
            if sum(is_ahead(f, px, py, pz) for f in ahead) % 2 == 1:
                cells.add((x, y))
    return cells


def crosses_oddly(facet, py, pz):
    crossed = 0
    for u, v in ((facet[0], facet[1]), (facet[1], facet[2]), (facet[2], facet[0])):
        if (u[2] <= pz) != (v[2] <= pz):
            side = (u[1] - py) * (v[2] - u[2]) + (v[1] - u[1]) * (pz - u[2])
            crossed += side > 0 if v[2] > u[2] else side < 0
    return crossed % 2 == 1


def is_ahead(facet, px, py, pz):
    a, b, d = ((p[0] - px, p[1] - py, p[2] - pz) for p in facet)
    det = (a[0] * (b[1] * d[2] - b[2] * d[1]) - a[1] * (b[0] * d[2] - b[2] * d[0]) + a[2] * (b[0] * d[1] - b[1] * d[0]))
    (ax, ay, az), (bx, by, bz), (dx, dy, dz) = facet
    normal = (by - ay) * (dz - az) - (bz - az) * (dy - ay)
    return det > 0 and normal > 0 or det < 0 and normal < 0


# ---- planes

def around(cell):
    x, y = cell
    return (x - 1, y), (x + 1, y), (x, y - 1), (x, y + 1)


def erode(cells):
    return {c for c in cells if all(n in cells for n in around(c))}


def dilate(cells, inside=lambda c: True):
    return cells | {n for c in cells for n in around(c) if inside(n)}


HEADINGS = ((1, 0), (0, 1), (-1, 0), (0, -1))


def loops_of(cells):
    edges = set()
    for x, y in cells:
        for heading, (start, other) in enumerate((((x, y), (x, y - 1)), ((x + 1, y), (x + 1, y)), ((x + 1, y + 1), (x, y + 1)), ((x, y + 1), (x - 1, y)))):
            if other not in cells:
                edges.add((start[1], start[0], heading))

    def following(edge):
        y, x, heading = edge
        dx, dy = HEADINGS[heading]
        for turn in (3, 0, 1):
            further = (y + dy, x + dx, (heading + turn) % 4)
            if further in edges:
                return further
        raise ValueError('an open boundary')

    loops, seen = [], set()
    for first in sorted(edges):
        if first in seen:
            continue
        cycle, edge = [], first
        while edge not in seen:
            seen.add(edge)
            cycle.append(edge)
            edge = following(edge)
        loops.append([(x, y) for i, (y, x, h) in enumerate(cycle) if h != cycle[i - 1][2]])
    return loops


def strokes_of(cells, rows, step):
    lines = {}
    for x, y in cells:
        line, at = (y, x) if rows else (x, y)
        if line % step == 0:
            lines.setdefault(line, []).append(at)
    strokes = []
    for number, line in enumerate(sorted(lines)):
        runs, at = [], sorted(lines[line])
        for a in at:
            if runs and runs[-1][1] == a:
                runs[-1][1] = a + 1
            else:
                runs.append([a, a + 1])
        if number % 2 == 1:
            runs = [(b, a) for a, b in reversed(runs)]
        for a, b in runs:
            one, other = (2 * a, 2 * line + 1), (2 * b, 2 * line + 1)
            strokes.append((one, other) if rows else ((one[1], one[0]), (other[1], other[0])))
    return strokes


# ---- an object

def supports_of(slices, plate_only, cols, rows):
    supports = []
    for k in range(len(slices)):
        cells = set()
        for m in range(k + 1, len(slices)):
            over = slices[m] - dilate(slices[m - 1])
            over -= set().union(*slices[k:m])
            if plate_only:
                over -= set().union(*slices[:m])
            cells |= over
        supports.append(cells - slices[k])
    return supports


def supports_by_carrying(slices, plate_only):
    """The same, with one plane carried down: layer m overhangs, and what no slice from k to m - 1 has goes on down."""
    supports, carried = [set()], set()
    for k in range(len(slices) - 2, -1, -1):
        carried = (carried | (slices[k + 1] - dilate(slices[k]))) - slices[k]
        supports.append(carried)
    supports.reverse()
    if plate_only:
        below = set()
        for k, cells in enumerate(slices):
            supports[k] = supports[k] - below
            below |= cells
    return supports[:len(slices)]


def surfaces_of(slices, inner, k, top, bottom):
    def has(m, cell):
        return 0 <= m < len(slices) and cell in slices[m]
    solid = {c for c in inner if any(not has(k - d, c) for d in range(1, bottom + 1)) or any(not has(k + d, c) for d in range(1, top + 1))}
    return solid, inner - solid, {c for c in inner if not has(k + 1, c)}


# ---- G-code

def fixed(n, places):
    sign, n = '-' if n < 0 else '', abs(n)
    return f'{sign}{n // 10 ** places}.{n % 10 ** places:0{places}d}'


class Writer:
    def __init__(self, options):
        self.options, self.out = options, []
        d = options['filament_diameter']
        self.area = 355 * d * d // 452

    def line(self, text):
        self.out.append(text.encode() + b'\n')

    def text(self, text):
        if text:
            self.out.append(text + (b'' if text.endswith(b'\n') else b'\n'))

    def path(self, points, speed, height, percent):
        """Points in half cells."""
        travel = self.options['travel_speed'] * 60
        x, y = points[0]
        self.line(f'G1 X{fixed(200 * x, 3)} Y{fixed(200 * y, 3)} F{travel}')
        self.line(f'G1 F{speed * 60}')
        for (x, y), (nx, ny) in zip(points, points[1:]):
            length = (abs(nx - x) + abs(ny - y)) * CELL // 2
            e = length * 400_000 * height * percent // (self.area * 1000)
            self.line(f'G1 X{fixed(200 * nx, 3)} Y{fixed(200 * ny, 3)} E{fixed(e, 5)}')

    def loop(self, corners, speed, height, percent):
        points = [(2 * x, 2 * y) for x, y in corners]
        self.path(points + points[:1], speed, height, percent)


def gcode_of(text):
    blocks = blocks_of(text)
    o = settings_of(blocks.get('settings', b''))
    mesh = mesh_of(blocks['mesh'])
    first, height = o['first_layer_height'], o['layer_height']
    cols, rows, slices, z = slices_of(mesh, first, height)
    supports = supports_by_carrying(slices, o['support_material_buildplate_only']) if o['support_material'] else [set() for _ in slices]
    if o['support_material'] and len(slices) <= 12:
        assert supports == supports_of(slices, o['support_material_buildplate_only'], cols, rows)
    w = Writer(o)
    for line in ('; headless plater', 'G21', 'G90', 'M83', f'M140 S{o["first_layer_bed_temperature"]}', f'M104 S{o["first_layer_temperature"]}',
                 f'M190 S{o["first_layer_bed_temperature"]}', f'M109 S{o["first_layer_temperature"]}'):
        w.line(line)
    w.text(o['start_gcode'])
    ground = slices[0] | supports[0] if slices else set()
    percent, tool, current = o['extrusion_multiplier'], max(o['extruder'] - 1, 0), 0
    for k, cells in enumerate(slices):
        micro = away(Fraction(z(k), 1000))
        w.line(f';Z {fixed(micro, 3)}')
        w.line(f'G1 Z{fixed(micro, 3)} F{o["travel_speed"] * 60}')
        if k == 1:
            w.line(f'M140 S{o["bed_temperature"]}')
            w.line(f'M104 S{o["temperature"]}')
        gap = z(0) if k == 0 else z(k) - z(k - 1)
        if tool != current:
            w.line(f'T{tool}')
            current = tool
            if o['wipe_tower']:
                x, y, width = (o['wipe_tower_' + n] // CELL for n in ('x', 'y', 'width'))
                for row in range(4):
                    ends = [(2 * x, 2 * (y + row) + 1), (2 * (x + width), 2 * (y + row) + 1)]
                    w.path(ends if row % 2 == 0 else ends[::-1], o['infill_speed'], gap, percent)
        if ground and k < o['skirt_height']:
            away_by = max(o['skirt_distance'], o['brim_width']) // CELL
            for j in range(o['skirts'] - 1, -1, -1):
                g = away_by + 1 + j
                x0, y0 = min(x for x, _ in ground) - g, min(y for _, y in ground) - g
                x1, y1 = max(x for x, _ in ground) + 1 + g, max(y for _, y in ground) + 1 + g
                w.loop([(x0, y0), (x1, y0), (x1, y1), (x0, y1)], o['perimeter_speed'], gap, percent)
        if ground and k == 0:
            rims = [ground]
            for _ in range(o['brim_width'] // CELL):
                rims.append(dilate(rims[-1]))
            for rim in rims[:0:-1]:
                for loop in loops_of(rim):
                    w.loop(loop, o['perimeter_speed'], gap, percent)
        own = first if k == 0 else height
        w.line(';OBJECT 0 0')
        plane = cells
        for _ in range(o['perimeters']):
            for loop in loops_of(plane):
                w.loop(loop, o['perimeter_speed'], own, percent)
            plane = erode(plane)
        solid, sparse, top = surfaces_of(slices, plane, k, o['top_solid_layers'], o['bottom_solid_layers'])
        strokes = strokes_of(solid, k % 2 == 0, 1)
        if o['fill_density'] > 0:
            strokes += strokes_of(sparse, k % 2 == 0, -(-100 // o['fill_density']))
        for stroke in strokes:
            w.path(stroke, o['infill_speed'], own, percent)
        if o['ironing']:
            for stroke in strokes_of(top, k % 2 == 0, 1):
                w.path(stroke, o['infill_speed'], own, percent * 15 // 100)
        for stroke in strokes_of(supports[k], k % 2 == 0, 2):
            w.path(stroke, o['infill_speed'], own, percent)
    w.text(o['end_gcode'])
    w.line('M104 S0')
    w.line('M140 S0')
    return b''.join(w.out)


def digest_of(text):
    """FNV-1a of 64 bits."""
    h = 0xcbf29ce484222325
    for b in text:
        h = (h ^ b) * 0x100000001b3 % 2 ** 64
    return h


def main(words):
    if words[:1] == ['--digest']:
        for name in words[1:]:
            with open(name, 'rb') as file:
                text = gcode_of(file.read())
            print(f'{name}: {len(text)} bytes, digest {digest_of(text):016x}')
    else:
        sys.stdout.buffer.write(gcode_of(sys.stdin.buffer.read()))


if __name__ == '__main__':
    main(sys.argv[1:])
