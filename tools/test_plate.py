#!/usr/bin/env python3
"""Tests of tools/plate.py, and of the file plater at the top.

    tools/test_plate.py [--program PATH]

What needs the program runs it from PATH or from the environment variable PLATER, and is skipped where neither is given.
"""
import contextlib
import io
import os
import pathlib
import re
import shutil
import struct
import subprocess
import sys
import tempfile
import unittest
import xml.etree.ElementTree
from fractions import Fraction
from unittest import mock

TOOLS = pathlib.Path(__file__).resolve().parent
ROOT = TOOLS.parent
sys.path.insert(0, str(TOOLS))

import plate  # noqa: E402
from plating import beds, meshes, previews, scripts, settings  # noqa: E402

PROGRAM = os.environ.get("PLATER")
FACETS = "021 123 456 576 014 154 263 367 042 246 135 375".split()
SVG = "{http://www.w3.org/2000/svg}"

# Two sessions and a worker: what the entries of several actors look like.
SHARED_TRANSCRIPT = b"""1 s1 load cube box = object 0
2 s1 apply = changed
3 w1 start 0.slice 0
4 s2 set notes a = b = ok
5 s1 override 0 layer_height 0.3 = ok
6 s1 apply = invalidated 0.slice
7 w1 late 0.slice 0 1
8 w1 start 0.slice 1
9 s2 after 1 4 = ok
10 w1 done 0.slice 1
11 s2 set perimeters many = refused BadValue
12 s1 bye
13 s2 bye
end 13 runs 2
"""


def box(wide, deep, high):
    """The corners of a box's facets."""
    corners = [(wide if m & 1 else 0, deep if m & 2 else 0, high if m & 4 else 0) for m in range(8)]
    return [tuple(corners[int(number)] for number in facet) for facet in FACETS]


def ascii_stl(facets):
    lines = ["solid box"]
    for facet in facets:
        lines += ["facet normal 0 0 0", "outer loop", *("vertex %s %s %s" % corner for corner in facet), "endloop", "endfacet"]
    return "\n".join([*lines, "endsolid box", ""]).encode()


def binary_stl(facets, head=b"solid in name alone"):
    body = b"".join(struct.pack("<12f2x", 0, 0, 1, *(value for corner in facet for value in corner)) for facet in facets)
    return head.ljust(80) + struct.pack("<I", len(facets)) + body


class InAFolder(unittest.TestCase):
    """Tests whose files lie in a folder of their own."""

    def setUp(self):
        self.folder = tempfile.mkdtemp()
        self.addCleanup(shutil.rmtree, self.folder)

    def file(self, name, data):
        path = os.path.join(self.folder, name)
        with open(path, "wb") as file:
            file.write(data)
        return path

    def run_plate(self, *words):
        """The exit status, standard output and standard error of a command."""
        output, errors = io.TextIOWrapper(io.BytesIO()), io.StringIO()
        with contextlib.redirect_stdout(output), contextlib.redirect_stderr(errors):
            status = plate.main([str(word) for word in words])
        return status, output.buffer.getvalue(), errors.getvalue()


class Meshes(InAFolder):
    def test_a_binary_mesh_is_written_to_the_nanometre(self):
        values = [0.1, -0.1, 1 / 3, 123.456789, 999.99994, -2.5e-7, 5e-7, 1e-30, 0.0]
        floats = [struct.unpack("<f", struct.pack("<f", value))[0] for value in values]
        facets = [tuple(tuple(floats[at:at + 3]) for at in (0, 3, 6))]
        mesh = meshes.read_mesh(self.file("b.stl", binary_stl(facets)))
        self.assertTrue(mesh.is_binary)
        words = [word for line in mesh.text.decode().splitlines() if line.startswith("vertex") for word in line.split()[1:]]
        for value, word in zip(floats, words):
            exact = Fraction(value) * 1_000_000
            nearest = int(abs(exact) + Fraction(1, 2)) * (1 if exact >= 0 else -1)
            self.assertEqual(Fraction(word) * 1_000_000, nearest, value)
            self.assertEqual(len(word.partition(".")[2]), 6)

    def test_ascii_and_binary_of_a_box_have_the_same_corners(self):
        facets = box(20, 30.5, 7.25)
        text = ascii_stl(facets)
        as_text = meshes.read_mesh(self.file("a.stl", text))
        as_bytes = meshes.read_mesh(self.file("b.stl", binary_stl(facets)))
        self.assertEqual(as_text.corners, as_bytes.corners)
        self.assertEqual(as_text.size(), (20_000_000, 30_500_000, 7_250_000))
        self.assertEqual((as_text.facets, as_bytes.facets), (12, 12))
        self.assertEqual(as_text.text, text)
        again = meshes.ascii_mesh("again", as_bytes.text)
        self.assertEqual((again.fault, again.corners), (None, as_bytes.corners))

    def test_the_first_breach_of_a_text_is_named_at_its_line(self):
        text = ascii_stl(box(1, 1, 1))
        lines = text.split(b"\n")
        cases = [
            (b"", (1, "NoFacet")),
            (b"solid\nendsolid\n", (2, "NoFacet")),
            (b"\n".join(lines[:40]), (40, "Cut")),
            (text.replace(b"outer loop", b"outer lop", 1), (3, "BadToken")),
            (text.replace(b"vertex 0 1 0", b"vertex 0 1,0 0", 1), (5, "BadNumber")),
            (text.replace(b"vertex 0 1 0", b"vertex 0 1e3 1000.0000005", 1), (5, "TooFar")),
            (text.replace(b"vertex 0 1 0", b"vertex 0 1e61 0", 1), (5, "BadNumber")),
            (text.upper().replace(b"SOLID BOX", b"Solid", 1), None),
        ]
        for data, fault in cases:
            self.assertEqual(meshes.ascii_mesh("m", data).fault, fault, data[:200])

    def test_numerals_are_read_as_the_core_reads_them(self):
        cases = [
            (b"1000", 10 ** 9), (b"1000.0000004", 10 ** 9), (b"-1000.0000005", "TooFar"),
            (b"0.0000005", 1), (b"-.0000005", -1), (b"0.00000049", 0),
            (b"1e-60", 0), (b"1e-61", "BadNumber"), (b"5.", 5_000_000), (b".", "BadNumber"), (b"1e00001", "BadNumber"),
            (b"1" * 30 + b"e-29", 1_111_111), (b"1" * 31 + b"e-30", "BadNumber"), (b"0" * 30, 0), (b"0" * 31, "BadNumber"),
            (b"0x1", "BadNumber"), (b"", "BadNumber"),
        ]
        for word, wanted in cases:
            self.assertEqual(meshes.numeral(word), wanted, word)

    def test_a_cut_binary_mesh_is_refused(self):
        path = self.file("b.stl", binary_stl(box(1, 1, 1), b"made by hand")[:-1])
        status, _, errors = self.run_plate("script", path)
        self.assertEqual(status, 3)
        self.assertIn("b.stl: a binary STL of 12 facets is 684 bytes long; this file has 683", errors)


class Settings(InAFolder):
    EXPORTED = (
        b"\xef\xbb\xbf# generated by PrusaSlicer\r\n[print:mine]\nlayer_height = 0.3\nfirst_layer_height = 50%\nsupport_material = 1,0\n"
        b"infill_speed = 0\ntemperature = 215,220\nfill_density = 15%\nextrusion_multiplier = 0.95\ncolour = red\n"
        b"start_gcode = G28\\nM104 S[first_layer_temperature]\n"
    )

    def test_what_the_core_refuses_is_turned_and_told(self):
        path = self.file("s.ini", self.EXPORTED)
        with contextlib.redirect_stderr(io.StringIO()) as errors:
            read = settings.read_settings(path)
        lines = read.text.split(b"\n")
        self.assertEqual(lines[3:6], [b"first_layer_height = 0.15", b"support_material = 1", b"# infill_speed = 80"])
        self.assertEqual(len(lines), self.EXPORTED.count(b"\n") + 1)
        told = [line.split("s.ini:")[1].split(":")[0] for line in errors.getvalue().splitlines()]
        self.assertEqual(told, ["1", "4", "5", "6", "11"])
        self.assertEqual(read.faults, [])
        keys = ("first_layer_height", "temperature", "fill_density", "extrusion_multiplier", "infill_speed")
        self.assertEqual([read.number(key) for key in keys], [150_000, 215, 15, 95, 80])

    def test_what_is_read_as_it_stands_stays_as_it_is(self):
        text = b"perimeters = 3\nnot a setting of the core = 50%\nperimeter_speed = 45.5\n"
        with contextlib.redirect_stderr(io.StringIO()) as errors:
            read = settings.read_settings(self.file("s.ini", text))
        self.assertEqual((read.text, errors.getvalue()), (text, ""))

    def test_values_are_read_as_the_core_reads_them(self):
        cases = [
            ("perimeters", b"4.5", 5), ("perimeters", b"4.4999995", 5), ("perimeters", b"32.5", "OutOfRange"), ("perimeters", b"2,9", 2),
            ("fill_density", b"100.4%", 100), ("fill_density", b"20 %", "BadValue"), ("extrusion_multiplier", b"0.955", 96),
            ("layer_height", b"0.02", 20_000), ("layer_height", b"0.0199994", "OutOfRange"), ("ironing", b"01", "BadValue"),
            ("notes", b"a\\nb\\\\n\\r", b"a\nb\\n"), ("notes", b"x" * 65_537, "OutOfRange"), ("temperature", b"", "BadValue"),
        ]
        for key, value, wanted in cases:
            self.assertEqual(settings.value_of(settings.OPTIONS[key], value), wanted, (key, value))

    def test_a_line_that_would_end_the_block_is_refused(self):
        path = self.file("s.ini", b"perimeters = 3\n.end\n")
        self.assertEqual(self.run_plate("script", path, "--settings", path)[0], 3)


class Scripts(InAFolder):
    def test_objects_stand_clear_of_each_other_on_the_bed(self):
        boxes = [(100, 50), (50, 50), (30, 90), (200, 100), (10, 10)]
        taken = [(300, 200, 60, 60)]
        for before in ([], taken):
            places = beds.spread(boxes, before, 15)
            stand = before + [(*place, *size) for place, size in zip(places, boxes)]
            for number, one in enumerate(stand):
                self.assertTrue(beds.is_on_bed(*one))
                self.assertFalse(any(beds.overlap(one, other, 15) for other in stand[:number]))
        self.assertEqual(beds.spread([(100, 100)], [], 15), [(262, 212)])
        self.assertEqual(beds.spread([(625, 525), (1, 1)], [], 0), [(0, 0), None])

    def test_a_script_loads_turns_and_copies(self):
        path, other = self.file("part.stl", ascii_stl(box(8, 4, 1))), self.file("part 2.stl", ascii_stl(box(4, 4, 1)))
        words = ["script", f"{path}@10,20", f"{path}@30,20", f"{path}@50,20,1", f"{other}@70.4,20", "--workers", "2"]
        status, script, errors = self.run_plate(*words)
        commands = [line for line in script.decode().splitlines() if line.startswith("1 ")]
        self.assertEqual((status, errors), (0, ""))
        self.assertEqual(script.splitlines()[:3], [b"plater 1", b"workers 2", b"data part"])
        self.assertEqual(commands, [
            "1 load part part", "1 move 0 0 10.000000 20.000000", "1 copy 0 30.000000 20.000000", "1 load part part", "1 turn 1 1",
            "1 move 1 0 50.000000 20.000000", "1 load part_2 part_2", "1 move 2 0 70.400000 20.000000", "1 apply", "1 export",
        ])

    def test_a_place_or_turn_that_no_script_can_say_is_refused(self):
        path = self.file("part.stl", ascii_stl(box(8, 4, 1)))
        for place in ("1000.5,0", "0,0,4", "0,0,90", "0,0,"):
            self.assertEqual(self.run_plate("script", f"{path}@{place}")[:2], (2, b""), place)

    def test_what_the_core_will_refuse_is_told_before(self):
        sound = self.file("sound.stl", ascii_stl(box(8, 4, 1)))
        wide = self.file("wide.stl", ascii_stl(box(260, 4, 1)))
        large = self.file("large.stl", ascii_stl(box(240, 200, 900)))
        far = self.file("far.stl", ascii_stl(box(1001, 4, 1)))
        far_too = self.file("far_too.stl", binary_stl(box(1001, 4, 1)))
        cases = [
            (f"{sound}@243,0", "(OutOfBed)"), (f"{sound}@246,0,2", "(OutOfBed)"), (f"{sound}@0,203,3", "(OutOfBed)"), (wide, "(OutOfBed)"),
            (large, "(TooManyCells)"), (far, "far.stl:6: coordinate is beyond 1,000 mm (TooFar)"),
            (far_too, "far_too.stl: facet 1: coordinate is beyond 1,000 mm (TooFar)"),
        ]
        for word, told in cases:
            status, _, errors = self.run_plate("script", word)
            self.assertEqual(status, 0)
            self.assertIn(told, errors)
        bare = self.file("bare.ini", b"skirts = 0\n")
        for place in ("242,206", "246,202,1", "242,206,2", "246,202,3"):
            self.assertEqual(self.run_plate("script", f"{sound}@{place}", "--settings", bare)[2], "")

    def test_too_many_facets_are_told_at_the_first_one_too_many(self):
        facets = box(1, 1, 1) * 2
        with mock.patch.object(meshes, "MOST_FACETS", 23):
            faults = [meshes.ascii_mesh("a", ascii_stl(facets)).fault, meshes.read_mesh(self.file("b.stl", binary_stl(facets))).fault]
        self.assertEqual(faults, [(2 + 23 * 7, "TooManyFacets")] * 2)
        self.assertEqual(meshes.MOST_FACETS, 300_000)

    def test_layers_are_counted_by_their_middles(self):
        cases = [(0, 0), (100_000, 0), (100_001, 1), (300_000, 1), (300_001, 2), (48_000_000, 240)]
        for height, count in cases:
            self.assertEqual(beds.layers_of(height, 200_000, 200_000), count, height)


class Transcripts(InAFolder):
    def test_entries_of_all_actors_are_told(self):
        path = self.file("t", SHARED_TRANSCRIPT)
        status, output, _ = self.run_plate("log", path)
        lines = output.decode().splitlines()
        self.assertEqual(status, 0)
        self.assertIn("3-7    computes 0.slice, epoch 0  late: epoch 1 by then", lines)
        self.assertIn("8-10   computes 0.slice, epoch 1  done", lines)
        self.assertIn("4      set notes a = b      ok", lines)
        self.assertEqual([" ".join(line.split()) for line in lines[-4:-1]], ["s1 4 0 0 0 0", "s2 3 1 0 0 0", "w1 0 0 2 1 1"])
        self.assertEqual(lines[-1], "entries 13, runs 2")

    def test_refused_commands_are_found(self):
        path = self.file("t", SHARED_TRANSCRIPT)
        status, output, _ = self.run_plate("log", "--refused", path)
        self.assertEqual((status, output.decode()), (1, f"{path}: entry 11: s2 set perimeters many: refused BadValue\n"))

    def test_a_chart_has_a_bar_for_each_job_and_a_tick_for_each_command(self):
        path, svg = self.file("t", SHARED_TRANSCRIPT), os.path.join(self.folder, "t.svg")
        self.assertEqual(self.run_plate("log", path, "--svg", svg)[0], 0)
        root = xml.etree.ElementTree.parse(svg).getroot()
        self.assertEqual([it.find(f"{SVG}rect").get("class") for it in root.iter(f"{SVG}g")], ["late", "done"])
        kinds = [it.get("class") for it in root.iter(f"{SVG}line")]
        self.assertEqual([kinds.count(kind) for kind in ("row", "falls", "command", "command refused")], [3, 1, 6, 1])

    def test_a_cut_transcript_is_refused_at_its_line(self):
        cases = [
            (SHARED_TRANSCRIPT[:-14], ":14: the last line"),
            (SHARED_TRANSCRIPT[:-20], ":13: this is no entry 13"),
            (b"1 s1 export = gcode 9\nG21\n", ":2: the G-code of entry 1 is cut"),
            (b"1 s1 export = gcode 8\nG21\nG90\n\n3 s1 bye\n", ":5: this is no entry 2"),
            (b"x\n", ":1: this is no entry 1"),
        ]
        for data, told in cases:
            status, _, errors = self.run_plate("log", self.file("t", data))
            self.assertEqual(status, 3)
            self.assertIn(told, errors)

    def test_the_gcode_of_an_export_is_taken_byte_for_byte(self):
        gcodes = [b"; headless plater\nend 1 runs 2\n", b"G1 \xff", b""]
        data = b"".join(b"%d s1 export = gcode %d\n%s\n" % (number, len(it), it) for number, it in enumerate(gcodes, 1))
        data += b"end 3 runs 0\n"
        path = self.file("t", data)
        for number, gcode in enumerate(gcodes, 1):
            self.assertEqual(self.run_plate("gcode", path, number)[:2], (0, gcode))
        self.assertEqual(self.run_plate("gcode", path), (0, b"", "plate.py: note: this is export 3 of 3\n"))
        self.assertEqual(self.run_plate("gcode", path, 4)[0], 2)


def gcode_of(*layers):
    """A G-code whose layers are lists of lines or of (filament for a millimetre, points)."""
    lines = ["; headless plater", "G21"]
    for number, layer in enumerate(layers, 1):
        lines += [f";Z {number}.000", f"G1 Z{number}.000 F7800"]
        for it in layer:
            if isinstance(it, str):
                lines.append(it)
                continue
            flow, (x, y), *points = it
            lines += ["G1 X%.3f Y%.3f F7800" % (x, y), "G1 F2700"]
            for u, v in points:
                lines.append("G1 X%.3f Y%.3f E%.5f" % (u, v, flow * (abs(u - x) + abs(v - y))))
                x, y = u, v
    return "\n".join([*lines, "G1 X0 Y200 F3000", "M104 S0", "M140 S0", ""]).encode()


def around(low, high):
    return [(low, low), (high, low), (high, high), (low, high), (low, low)]


class Previews(InAFolder):
    LAYERS = [
        ["T1", (1, (50, 50), (60, 50)), (1, *around(0, 30)),
         (1, (4, 4), (26, 4), (26, 5), (27, 5), (27, 26), (4, 26), (4, 4)), (1, *around(12, 18)),
         ";OBJECT 0 0", (1, *around(10, 20)), (1, *around(11, 19)), (1, (11.4, 12), (18.6, 12)),
         (0.15, (11.4, 13), (18.6, 13)), (1, (21, 15), (25, 15)),
         ";OBJECT 1 0", (1, *around(10, 20)), (1, (11, 15), (19, 15)), (1, (21, 15), (25, 15)), "T2", (1, (60, 51), (50, 51))],
        [";OBJECT 0 0", (1, *around(10, 20)), (1, (18.6, 12), (11.4, 12))],
    ]

    def test_kinds_are_told_apart(self):
        gcode = gcode_of(*self.LAYERS)
        layer = previews.read_layer(gcode, previews.heights_of("g", gcode), 0)
        kinds = "tower skirt brim brim perimeter perimeter infill ironing support perimeter infill support tower".split()
        self.assertEqual([path.kind for path in layer.paths], kinds)

    def test_a_hole_is_outside_of_its_loops(self):
        ring = [around(0, 10_000), [(3_000, 3_000), (3_000, 7_000), (7_000, 7_000), (7_000, 3_000), (3_000, 3_000)]]
        inside = [previews.is_inside(point, ring) for point in ((1_000, 5_000), (5_000, 5_000), (11_000, 5_000), (5_000, 8_000))]
        self.assertEqual(inside, [True, False, False, True])

    def test_a_sheet_has_all_strokes_of_its_layers(self):
        path, svg = self.file("g", gcode_of(*self.LAYERS)), os.path.join(self.folder, "g.svg")
        cases = [(["--layers", 9], 2, {"perimeter": 4, "infill": 3, "skirt": 1}), (["--layer", "1"], 1, {"perimeter": 1, "infill": 1})]
        for words, pictures, counts in cases:
            self.assertEqual(self.run_plate("preview", path, "-o", svg, *words)[0], 0)
            root = xml.etree.ElementTree.parse(svg).getroot()
            self.assertEqual(len(list(root.iter(f"{SVG}svg"))), pictures + 1)
            strokes = {}
            for it in root.iter(f"{SVG}path"):
                strokes[it.get("class")] = strokes.get(it.get("class"), 0) + it.get("d").count("M")
            self.assertEqual({kind: strokes.get(kind, 0) for kind in counts}, counts)

    def test_other_texts_and_layers_are_refused(self):
        path, other = self.file("g", gcode_of(*self.LAYERS)), self.file("o", b"G28\n")
        svg = os.path.join(self.folder, "g.svg")
        self.assertEqual(self.run_plate("preview", path, "-o", svg, "--layer", "2")[0], 2)
        self.assertEqual(self.run_plate("preview", other, "-o", svg)[0], 3)
        self.assertFalse(os.path.exists(svg))


class TheWrapper(InAFolder):
    """The file plater at the top, with a stand-in for rt whose run writes a program that prints its words."""

    STAND_IN = """#!/bin/sh
echo "$@" >> "$(dirname "$0")/calls"
if [ "$1" = run ]; then
    mkdir -p out
    printf '#!/bin/sh\\necho "$@"\\n' > out/plater
    chmod +x out/plater
fi
exit $(cat "$(dirname "$0")/status" 2> /dev/null || echo 0)
"""

    def setUp(self):
        super().setUp()
        for name in ("crates/plater/src", "crates/pl_units/specs", "bin"):
            os.makedirs(os.path.join(self.folder, name))
        shutil.copy(ROOT / "plater", self.folder)
        for name in ("crates/plater/stdin", "crates.txt"):
            self.file(name, b"")
        self.source = self.file("crates/pl_units/specs/Lib.antt", b"")
        os.chmod(self.file("bin/rt", self.STAND_IN.encode()), 0o755)

    def call(self, *words, path=None):
        environment = {**os.environ, "PATH": path or f"{self.folder}/bin:/usr/bin:/bin"}
        return subprocess.run([f"{self.folder}/plater", *words], env=environment, capture_output=True, text=True, timeout=60)

    def calls(self):
        calls = pathlib.Path(self.folder, "bin", "calls")
        return calls.read_text().splitlines() if calls.exists() else []

    def test_it_builds_once_and_again_where_a_source_is_newer(self):
        built = self.call("run")
        self.assertEqual((built.returncode, built.stdout), (0, "run\n"))
        self.assertRegex("\n".join(self.calls()), r"\Aall check --jobs [1-9][0-9]*\nrun -- run\Z")
        self.assertIn("the program is not built yet", built.stderr)
        again = self.call("slice")
        self.assertEqual((again.returncode, again.stdout, again.stderr, len(self.calls())), (0, "slice\n", "", 2))
        later = os.path.getmtime(f"{self.folder}/crates/plater/out/plater") + 1
        os.utime(self.source, (later, later))
        newer = self.call("run")
        self.assertEqual((newer.returncode, newer.stdout, len(self.calls())), (0, "run\n", 4))
        self.assertIn("plater: crates/pl_units/specs/Lib.antt is newer than the program", newer.stderr)

    def test_it_says_where_the_program_cannot_be_built(self):
        self.file("bin/status", b"1")
        failed = self.call("run")
        self.assertEqual((failed.returncode, failed.stdout), (1, ""))
        self.assertIn("plater: the program could not be built", failed.stderr)
        self.assertEqual(len(self.calls()), 1)
        os.remove(f"{self.folder}/bin/rt")
        if shutil.which("rt", path="/usr/bin:/bin"):
            self.skipTest("rt stands where sh stands, so it cannot be taken from the path")
        lacking = self.call("run", path="/usr/bin:/bin")
        self.assertEqual((lacking.returncode, lacking.stdout), (1, ""))
        self.assertIn("plater: rt of the Rattle kit is not on the path", lacking.stderr)


@unittest.skipUnless(PROGRAM, "there is no program: give --program PATH or the environment variable PLATER")
class WithTheProgram(InAFolder):
    def run_program(self, command, data):
        return subprocess.run([PROGRAM, command], input=data, capture_output=True, timeout=60)

    def slice(self, model, *words):
        return self.run_plate("slice", model, "--program", PROGRAM, *words)

    def test_the_gcode_of_a_script_is_that_of_slice(self):
        for name in ("slice_cube", "slice_two_tools", "slice_exported_settings"):
            data = (ROOT / "examples" / f"{name}.plater").read_bytes()
            blocks = {name.decode(): block for name, block in re.findall(rb"^data (\w+)\n(.*?)^\.end$", data, re.MULTILINE | re.DOTALL)}
            model, words = self.file("mesh.stl", blocks["mesh"]), []
            if "settings" in blocks:
                words = ["--settings", self.file("settings.ini", blocks["settings"])]
            sliced = self.run_program("slice", data).stdout
            output = os.path.join(self.folder, "out.gcode")
            status, _, errors = self.slice(model, "-o", output, *words)
            self.assertEqual(status, 0, errors)
            self.assertEqual(pathlib.Path(output).read_bytes(), sliced)
            script = self.run_plate("script", f"{model}@0,0", *words)[1]
            transcript = self.file("t", self.run_program("run", script).stdout)
            self.assertEqual(self.run_plate("gcode", transcript)[1], sliced)

    def test_the_exports_of_an_example_are_taken_apart(self):
        transcript = self.run_program("run", (ROOT / "examples" / "infill_change.plater").read_bytes()).stdout
        path = self.file("t", transcript)
        taken = [self.run_plate("gcode", path, number)[1] for number in range(1, 5)]
        self.assertEqual([transcript.count(gcode) for gcode in taken], [1, 1, 2, 2])
        self.assertEqual(taken[2], taken[3])

    def test_binary_and_ascii_give_the_same_gcode(self):
        facets = box(3.3, 4.7, 1.1)
        paths = self.file("a.stl", ascii_stl(facets)), self.file("b.stl", binary_stl(facets))
        for path in paths:
            self.assertEqual(self.slice(path, "-o", f"{path}.gcode")[0], 0)
        self.assertEqual(*(pathlib.Path(f"{path}.gcode").read_bytes() for path in paths))

    def test_a_refusal_names_file_and_line(self):
        text = ascii_stl(box(8, 4, 1))
        sound, number = self.file("sound.stl", text), self.file("number.stl", text.replace(b"vertex 8", b"vertex x8", 1))
        few = self.file("few.ini", b"perimeters = 3\n\n# more\n")
        exported = self.file("exported.ini", b"perimeters = 3\nfirst_layer_height = 50%\nlayer_height = 3\n")
        word, line = self.file("word.ini", b"\nperimeters = many\n"), self.file("line.ini", b"perimeters\n")
        out = "the value is out of its key's range (OutOfRange); layer_height goes from 0.02 to 1"
        cases = [
            ([number], "number.stl:6: coordinate is no number (BadNumber)"),
            ([number, "--settings", few], "number.stl:6: coordinate is no number (BadNumber)"),
            ([self.file("cut.stl", text[:text.index(b"endfacet")])], "cut.stl:7: the text ends too early (Cut)"),
            ([self.file("nan.stl", binary_stl(box(8, float("nan"), 1)))], "nan.stl: facet 1: coordinate is no number (BadNumber)"),
            ([sound, "--settings", exported], f"exported.ini:3: layer_height = 3: {out}"),
            ([sound, "--settings", word], "word.ini:2: perimeters = many: the value is not of its key's kind (BadValue)"),
            ([sound, "--settings", line], "line.ini:1: perimeters: a line without = (NoEquals)"),
            ([self.file("wide.stl", ascii_stl(box(260, 4, 1)))], "wide.stl: the object is wider than the bed of 250 by 210 mm (OutOfBed 0 0)"),
        ]
        for words, told in cases:
            output = os.path.join(self.folder, "out.gcode")
            status, _, errors = self.slice(*words, "-o", output)
            self.assertEqual(status, 3, errors)
            self.assertIn(f"plate.py: {self.folder}{os.sep}{told}", errors)
            self.assertEqual([name for name in os.listdir(self.folder) if "out" in name], [])

    def test_the_first_breach_is_that_of_the_core(self):
        text = ascii_stl(box(1, 1, 1))
        words = [b"x", b"endsolid", b"solid", b"vertex", b"1e5", b"", b"\n", b"facet"]
        tokens = text.split(b" ")
        for number in range(0, 60):
            place = number * 7 % len(tokens)
            data = b" ".join(tokens[:place] + [words[number % len(words)]] + tokens[place + 1:])
            fault = meshes.ascii_mesh("m", data).fault
            told = self.run_program("slice", b"plater 1\ndata mesh\n" + data + b".end\n").stderr.decode()
            self.assertEqual(told.strip(), f"plater: line {fault[0] + 2}: {fault[1]}" if fault else "", data)

    def test_a_layer_of_an_example_has_all_its_strokes(self):
        sliced = self.run_program("slice", (ROOT / "examples" / "slice_two_tools.plater").read_bytes()).stdout
        heights = previews.heights_of("g", sliced)
        count, kinds = 0, set()
        for number in range(len(heights)):
            layer = previews.read_layer(sliced, heights, number)
            count += len(layer.paths)
            kinds |= {path.kind for path in layer.paths}
        self.assertEqual(count, sum(line.startswith(b"G1 X") and b" F" in line for line in sliced.split(b"\n")))
        self.assertEqual(kinds, set(previews.COLOURS))


def main():
    """Takes --program from the command line, and runs the tests."""
    global PROGRAM
    words = sys.argv[1:]
    if "--program" in words:
        at = words.index("--program")
        PROGRAM = words[at + 1]
        del words[at:at + 2]
    if PROGRAM:
        WithTheProgram.__unittest_skip__ = False
    else:
        skipped = "test_plate.py: there is no program, so what needs one is skipped"
        print(f"{skipped}: give --program PATH or the environment variable PLATER", file=sys.stderr)
    unittest.main(argv=[sys.argv[0], *words])


if __name__ == "__main__":
    main()
