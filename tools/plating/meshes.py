"""Reads STL, ASCII and binary, and gives it as the ASCII STL that the core reads."""
import dataclasses
import decimal
import math
import re
import struct

from .refusal import Refusal, read_file, refuse_end_of_block, remark

NANOMETRES = 1_000_000  # of a millimetre
FARTHEST = 1_000 * NANOMETRES
MOST_FACETS = 300_000
BINARY_HEAD = 84
BINARY_FACET = struct.Struct("<12x9f2x")

EXACT = decimal.Context(prec=400, rounding=decimal.ROUND_HALF_UP)
NUMERAL = re.compile(rb"[+-]?(?:\d+\.?\d*|\.\d+)(?:[eE]([+-]?\d{1,4}))?")
SOLID = re.compile(rb"\s*solid(?!\S)[^\n]*", re.IGNORECASE)
END_OF_SOLID = re.compile(rb"\s*endsolid(?!\S)[^\n]*", re.IGNORECASE)
FACET = re.compile(
    rb"\s*facet\s+normal\s+\S+\s+\S+\s+\S+\s+outer\s+loop"
    + 3 * rb"\s+vertex\s+(\S+)\s+(\S+)\s+(\S+)"
    + rb"\s+endloop\s+endfacet(?!\S)",
    re.IGNORECASE,
)
# The words of a facet after the first one: * is any word, # a numeral.
FACET_WORDS = b"normal * * * outer loop vertex # # # vertex # # # vertex # # # endloop endfacet".split()


@dataclasses.dataclass
class Mesh:
    """A mesh that was read: its ASCII text, and what is known of it."""

    path: str
    text: bytes  # as it goes into a block, with a line end behind
    is_binary: bool
    facets: int
    corners: tuple  # ((least x, y, z), (greatest x, y, z)) in nanometres; None where the text has a fault
    fault: tuple  # (line, name) of the first breach; None where there is none

    def size(self):
        """The extents along x, y and z in nanometres; None where the text has a fault."""
        return self.corners and tuple(most - least for least, most in zip(*self.corners))

    def place_of(self, line):
        """Where a line of the text stands in the file, in words."""
        if not self.is_binary:
            return f"{self.path}:{line}"
        return f"{self.path}: facet {(line - 2) // 7 + 1}" if line > 1 and self.facets else self.path

    def line_text(self, line):
        """The line itself, cut short, as it can be shown; empty where there is none."""
        lines = self.text.split(b"\n", line)
        shown = lines[line - 1].strip()[:60].decode("ascii", "replace") if 0 < line <= len(lines) else ""
        return shown if shown.isprintable() else ""


def exact_nanometres(number):
    """A numeral's text, or a float, in nanometres, halves away from zero."""
    return int(EXACT.to_integral_value(EXACT.scaleb(EXACT.create_decimal(number), 6)))


def numeral(word):
    """The nanometres of a word, or the name of its fault."""
    found = NUMERAL.fullmatch(word)
    digits = sum(byte in b"0123456789" for byte in re.split(rb"[eE]", word)[0])
    if not found or digits > 30 or abs(int(found[1] or 0)) > 60:
        return "BadNumber"
    length = exact_nanometres(word.decode())
    return length if abs(length) <= FARTHEST else "TooFar"


def read_mesh(path):
    """The mesh of an STL file, ASCII or binary."""
    data = read_file(path)
    count = struct.unpack_from("<I", data, 80)[0] if len(data) >= BINARY_HEAD else None
    whole = None if count is None else BINARY_HEAD + BINARY_FACET.size * count
    if whole == len(data):
        return binary_mesh(path, data, count)
    if data.lstrip()[:5].lower() == b"solid" and b"\0" not in data[:1000]:
        return ascii_mesh(path, data)
    if whole is not None and b"\0" in data:
        if whole > len(data):
            raise Refusal(f"{path}: a binary STL of {count:,} facets is {whole:,} bytes long; this file has {len(data):,}")
        remark("note", f"{path}: the {len(data) - whole:,} bytes behind its {count:,} facets are left out")
        return binary_mesh(path, data[:whole], count)
    return ascii_mesh(path, data)


def ascii_mesh(path, data):
    """The mesh of an ASCII text, which stays as it is."""
    refuse_end_of_block(path, data)
    text = data if data.endswith(b"\n") else data + b"\n"
    words = regular_numerals(text) or []
    known = {word: numeral(word) for word in set(words)}
    lengths = [known[word] for word in words]
    if not words or len(words) > 9 * MOST_FACETS or any(isinstance(length, str) for length in known.values()):
        return Mesh(path, text, False, count_of_facets(text), None, first_breach(data))
    return Mesh(path, text, False, len(words) // 9, extent(lengths), None)


def extent(lengths):
    """The least and the greatest x, y and z of a list of coordinates."""
    axes = [lengths[axis::3] for axis in range(3)]
    return tuple(map(min, axes)), tuple(map(max, axes))


def regular_numerals(text):
    """The coordinates of all facets as words; None where the text is not of the grammar."""
    words, at = [], 0
    while text[at:at + 1000].strip() or text[at:].strip():
        solid = SOLID.match(text, at)
        if not solid:
            return None
        at = solid.end()
        while facet := FACET.match(text, at):
            words.extend(facet.groups())
            at = facet.end()
        end = END_OF_SOLID.match(text, at)
        if not end:
            return None
        at = end.end()
    return words


def count_of_facets(text):
    return len(re.findall(rb"(?<!\S)facet(?!\S)", text, re.IGNORECASE))


class Words:
    """The words of a text one by one, and the line of the last one."""

    def __init__(self, text):
        self.lines = iter(text.split(b"\n"))
        self.left = []
        self.line = 0

    def next(self):
        """The next word in lower case, or None at the text's end."""
        while not self.left:
            line = next(self.lines, None)
            if line is None:
                return None
            self.left = line.lower().split()[::-1]
            self.line += 1
        return self.left.pop()

    def pass_over_line(self):
        self.left = []


def first_breach(text):
    """(line, name of the fault) of the first word that breaks the grammar; None where none does."""
    words, facets = Words(text), 0
    last = max(text.count(b"\n") + (not text.endswith(b"\n")), 1) if text else 1
    while (word := words.next()) is not None:
        if word != b"solid":
            return words.line, "BadToken"
        words.pass_over_line()
        while (word := words.next()) == b"facet":
            facets += 1
            fault = "TooManyFacets" if facets > MOST_FACETS else facet_breach(words)
            if fault:
                return (last if fault == "Cut" else words.line), fault
        if word != b"endsolid":
            return (last, "Cut") if word is None else (words.line, "BadToken")
        words.pass_over_line()
    return None if facets else (last, "NoFacet")


def facet_breach(words):
    """The name of the first fault of a facet whose first word is read; None where it has none."""
    for wanted in FACET_WORDS:
        word = words.next()
        if word is None:
            return "Cut"
        if wanted == b"#":
            length = numeral(word)
            if isinstance(length, str):
                return length
        elif wanted != b"*" and word != wanted:
            return "BadToken"
    return None


def binary_mesh(path, data, count):
    """The mesh of a binary STL, as ASCII to the nanometre."""
    lines, known, fault = ["solid mesh"], {}, None
    low, high = [math.inf] * 3, [-math.inf] * 3
    for number, floats in enumerate(BINARY_FACET.iter_unpack(data[BINARY_HEAD:])):
        lines += ("facet normal 0 0 0", "outer loop")
        for corner in (floats[:3], floats[3:6], floats[6:]):
            if corner not in known:
                known[corner] = [binary_coordinate(value) for value in corner]
            coordinates = known[corner]
            lines.append("vertex %s %s %s" % tuple(text for _, text in coordinates))
            for axis, (length, _) in enumerate(coordinates):
                if isinstance(length, str):
                    fault = fault or (len(lines), length)
                else:
                    low[axis], high[axis] = min(low[axis], length), max(high[axis], length)
        lines += ("endloop", "endfacet")
        if number == MOST_FACETS:
            fault = fault or (len(lines) - 6, "TooManyFacets")
    lines += ("endsolid mesh", "")
    if not count:
        fault = (2, "NoFacet")
    text = "\n".join(lines).encode()
    return Mesh(path, text, True, count, None if fault else (tuple(low), tuple(high)), fault)


def binary_coordinate(value):
    """A float of a binary STL: its nanometres or the name of its fault, and its text in millimetres."""
    if not math.isfinite(value):
        return "BadNumber", str(value)
    length = exact_nanometres(value)
    if abs(length) > FARTHEST:
        return "TooFar", repr(value)
    return length, millimetres(length)


def millimetres(length):
    """Nanometres as millimetres with six decimals, exactly."""
    whole, part = divmod(abs(length), NANOMETRES)
    return f"{'-' if length < 0 else ''}{whole}.{part:06d}"
