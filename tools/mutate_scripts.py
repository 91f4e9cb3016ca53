#!/usr/bin/env python3
"""Runs a built plater on mutated scripts and slice texts, and on inputs that are no texts at all.

    tools/mutate_scripts.py PROGRAM [COUNT [SEED]]

COUNT mutations (2,000 where none is given) of valid inputs: cuts, changed bytes, doubled, dropped and swapped lines, other words; and
each hostile input once: random bytes, a binary STL, a 3MF archive, UTF-16, lines of 200 MB, ten thousand sessions' lines.

Every run must end within 120 seconds, with status 0 and the whole output (for `run` a transcript whose last line is `end N runs R`), or
with status 3, nothing written, and one line `plater: line L: FAULT` on the error output, whose L is a line of the input, or 0 where it is
too long. It may use at most 8 times the input's size and 64 MB. It prints how often it saw each end, and ends with 1 where a run ended
otherwise.
"""
import collections
import io
import os
import pathlib
import random
import re
import struct
import subprocess
import sys
import tempfile
import zipfile

ROOT = pathlib.Path(__file__).resolve().parent.parent
REFUSAL = re.compile(rb"plater: line (\d+): [A-Za-z]+( [A-Za-z0-9 ]+)?\n")
ENDING = re.compile(rb"(^|\n)end \d+ runs \d+\n$")
LIMIT = 120
WORDS = [b"", b"0", b"1", b"2", b"16", b"17", b"256", b"1e61", b"-1", b".5", b"20%", b".end", b"\r", b"=", b"x" * 70, b"box", b"keys"]
WORDS += b"load reload delete copy move drop turn set override unset ini apply export status cancel after workers data plater".split()


def box(x, y, z):
    """The text of a box of these millimetres."""
    lines = ["solid box"]
    for facet in facets_of(x, y, z):
        lines += ["facet normal 0 0 0", "outer loop"]
        lines += ["vertex %g %g %g" % corner for corner in facet]
        lines += ["endloop", "endfacet"]
    return "\n".join(lines + ["endsolid box", ""]).encode()


def facets_of(x, y, z):
    """The corners of each facet of a box."""
    corners = [(x if m & 1 else 0, y if m & 2 else 0, z if m & 4 else 0) for m in range(8)]
    return [[corners[int(c)] for c in facet] for facet in "021 123 456 576 014 154 263 367 042 246 135 375".split()]


def binary_stl():
    """The same box as a binary STL."""
    facets = facets_of(20, 20, 10)
    made = struct.pack("<80sI", b"binary", len(facets))
    for facet in facets:
        made += struct.pack("<12fH", 0, 0, 0, *[c for corner in facet for c in corner], 0)
    return made


def archive():
    """An archive as 3MF files are."""
    made = io.BytesIO()
    with zipfile.ZipFile(made, "w", zipfile.ZIP_DEFLATED) as it:
        it.writestr("[Content_Types].xml", "<Types/>")
        it.writestr("3D/3dmodel.model", "<model>" + "<vertex x='1' y='2' z='3'/>" * 5000 + "</model>")
    return made.getvalue()


def scripts():
    """Valid scripts for `run`: the examples, and some that use each form of line."""
    found = [path.read_bytes() for path in sorted((ROOT / "examples").glob("*.plater")) if not path.name.startswith("slice_")]
    head = b"plater 1\n# a comment\n\n"
    data = b"data box\n" + box(0.8, 0.8, 0.4) + b".end\ndata keys\nperimeters = 3\n; passed\ncolour = red\n.end\n"
    commands = [
        b"1 load a box\n1 load b box\n1 apply\n1 export\n1 status\n1 cancel\n",
        b"1 load a box\r\n1\tapply \r\n 1 export\n# end",
        b"1 load a box\n1 copy 0 10 10.5\n1 move 0 1 -1e1 +.5\n1 drop 0 0\n1 turn 0 3\n1 delete 0\n",
        b"1 set perimeters 3\n1 override 0 fill_density 20%\n1 unset 0 perimeters\n1 ini keys\n1 reload 0 box\n",
        b"2 after 1 3\n1 apply\n16 status\n2 set notes a  b = c\n",
        b"1 load a box\n1 apply\n2 after 1 2\n2 export\n3 after 2 2\n3 cancel\n1 after 3 2\n1 export\n2 status\n",
        b"".join(b"%d set skirts %d\n%d apply\n%d export\n" % (s, s, s, s) for s in range(1, 17)),
    ]
    found += [head + data + lines for lines in commands]
    found += [b"plater 1\nworkers %d\n" % workers + data + commands[k] for workers, k in ((0, 0), (1, 5), (8, 6))]
    return found


def slice_texts():
    """Valid texts for `slice`."""
    found = [path.read_bytes() for path in sorted((ROOT / "examples").glob("slice_*.plater"))]
    settings = b"data settings\nperimeters = 3\nfill_density = 40%\nsupport_material = 1\nskirts = 2\n.end\n"
    found.append(b"plater 1\n" + settings + b"data mesh\n" + box(8, 4, 2) + b".end\n")
    found.append(b"plater 1\n\ndata mesh\n" + box(0.8, 0.8, 0.4) + b".end\n# end\n" + settings)
    return [text for text in found if text]


def mutated(text, rng):
    """The text with one to three changes."""
    for _ in range(rng.randint(1, 3)):
        kind = rng.randrange(6)
        lines = text.split(b"\n")
        at = rng.randrange(len(lines))
        if kind == 0:
            text = text[: rng.randrange(len(text) + 1)]
        elif kind == 1 and text:
            place = rng.randrange(len(text))
            text = text[:place] + bytes([rng.randrange(256)]) + text[place + 1 :]
        elif kind == 2:
            text = b"\n".join(lines[:at] + [lines[at]] + lines[at:])
        elif kind == 3:
            text = b"\n".join(lines[:at] + lines[at + 1 :])
        elif kind == 4:
            other = rng.randrange(len(lines))
            lines[at], lines[other] = lines[other], lines[at]
            text = b"\n".join(lines)
        else:
            words = lines[at].split(b" ")
            words[rng.randrange(len(words))] = rng.choice(WORDS)
            lines[at] = b" ".join(words)
            text = b"\n".join(lines)
    return text


HEAD = b"plater 1\n"
# Inputs that nobody should give, each with its name.
HOSTILE = [
    ("nothing", lambda: b""),
    ("random bytes", lambda: random.Random(7).randbytes(1 << 20)),
    ("zeros", lambda: bytes(1 << 20)),
    ("line ends", lambda: b"\n" * (1 << 24)),
    ("a binary STL", binary_stl),
    ("a binary STL as a mesh", lambda: HEAD + b"data mesh\n" + binary_stl() + b"\n.end\n1 load a mesh\n1 apply\n"),
    ("a 3MF archive", archive),
    ("a 3MF archive as a mesh", lambda: HEAD + b"data mesh\n" + archive() + b"\n.end\n1 load a mesh\n"),
    ("UTF-16", lambda: "plater 1\ndata mesh\n.end\n".encode("utf-16")),
    ("a byte order mark", lambda: b"\xef\xbb\xbf" + HEAD),
    ("one line of 200 MB", lambda: b"x" * 200_000_000),
    ("a line of 200 MB after the head", lambda: HEAD + b"1 " + b"y" * 200_000_000),
    ("a block of one line of 200 MB", lambda: HEAD + b"data mesh\n" + b"0" * 200_000_000 + b"\n.end\n1 load a mesh\n"),
    ("a block of 50 million line ends", lambda: HEAD + b"data mesh\n" + b"\n" * 50_000_000 + b".end\n1 load a mesh\n"),
    ("more than is read", lambda: HEAD + b"#" * (1 << 28)),
    ("ten thousand lines of sixteen sessions", lambda: HEAD + b"".join(b"%d status\n" % (k % 16 + 1) for k in range(10_000))),
    ("ten thousand and one lines", lambda: HEAD + b"1 apply\n" * 10_001),
    ("ten thousand sessions", lambda: HEAD + b"".join(b"%d apply\n" % k for k in range(1, 10_001))),
    ("ten thousand waits", lambda: HEAD + b"".join(b"%d after %d %d\n" % (k % 16 + 1, (k + 1) % 16 + 1, k // 16) for k in range(10_000))),
    ("a facet without an end", lambda: HEAD + b"data mesh\nsolid\n" + b"facet normal 0 0 0\n" * 300_000 + b".end\n1 load a mesh\n"),
    ("a numeral of a million digits", lambda: HEAD + b"data mesh\nsolid\nfacet normal 0 0 0 outer loop vertex " + b"1" * 1_000_000 + b"\n.end\n1 load a mesh\n"),
]


def run(program, command, path, folder):
    """Its status, what it wrote and said, and the most memory that it used, in bytes."""
    out, err = os.path.join(folder, "out"), os.path.join(folder, "err")
    with open(path, "rb") as source, open(out, "wb") as wrote, open(err, "wb") as said:
        words = ["timeout", "--signal=KILL", str(LIMIT), program, command]
        ran = subprocess.Popen(words, stdin=source, stdout=wrote, stderr=said)
        _, status, used = os.wait4(ran.pid, 0)
        ran.returncode = os.waitstatus_to_exitcode(status)
    return ran.returncode, out, pathlib.Path(err).read_bytes(), used.ru_maxrss * 1024


def line_ends(path):
    """How many line ends a file has, read in pieces: a process that was large once would pass for the memory of its children."""
    with open(path, "rb") as it:
        return sum(piece.count(b"\n") for piece in iter(lambda: it.read(1 << 16), b""))


def last_bytes(path):
    """The last bytes of a file."""
    with open(path, "rb") as it:
        it.seek(max(0, os.path.getsize(path) - 100))
        return it.read()


def ended_well(command, path, status, out, said, memory):
    """How it ended, or None where it may not end so."""
    if memory > 8 * os.path.getsize(path) + (64 << 20):
        return None
    if status == 0 and said == b"":
        return "status 0" if command == "slice" or ENDING.search(last_bytes(out)) else None
    refusal = REFUSAL.fullmatch(said)
    if status != 3 or os.path.getsize(out) or not refusal or int(refusal.group(1)) > line_ends(path) + 1:
        return None
    return "status 3 " + said.decode().split(": ")[2].split()[0]


def inputs(count, seed, folder):
    """The name, the command and the file of each run. The hostile ones are made by a process of their own."""
    rng = random.Random(seed)
    path = os.path.join(folder, "in")
    for number, (name, _) in enumerate(HOSTILE):
        with open(path, "wb") as it:
            subprocess.run([sys.executable, os.path.abspath(__file__), "--hostile", str(number)], stdout=it, check=True)
        for command in ("run", "slice"):
            yield name, command, path
    seeds = [("run", text) for text in scripts()] + [("slice", text) for text in slice_texts()]
    for number in range(count):
        command, text = rng.choice(seeds)
        pathlib.Path(path).write_bytes(mutated(text, rng))
        yield "mutation %d" % number, command, path


def main():
    if sys.argv[1] == "--hostile":
        sys.stdout.buffer.write(HOSTILE[int(sys.argv[2])][1]())
        return 0
    program = os.path.abspath(sys.argv[1])
    count = int(sys.argv[2]) if len(sys.argv) > 2 else 2000
    seed = int(sys.argv[3]) if len(sys.argv) > 3 else 1
    seen = collections.Counter()
    bad = 0
    with tempfile.TemporaryDirectory() as folder:
        for name, command, path in inputs(count, seed, folder):
            status, out, said, memory = run(program, command, path, folder)
            end = ended_well(command, path, status, out, said, memory)
            if end:
                seen[command + ": " + end] += 1
            else:
                bad += 1
                with open(path, "rb") as it:
                    print(name, "by", command, "ended with status", status, "and", memory >> 20, "MB:", said[:80], it.read(200))
    for what, times in sorted(seen.items()):
        print(times, what)
    print(sum(seen.values()) + bad, "inputs,", bad, "ended otherwise")
    return 1 if bad else 0


if __name__ == "__main__":
    sys.exit(main())
