"""Reads a settings file as slicers export it, and turns what the core would refuse into what it reads, with a remark for each."""
import dataclasses
import re

from .meshes import NANOMETRES, exact_nanometres, millimetres, numeral
from .refusal import fault_words, read_file, refuse_end_of_block, remark


@dataclasses.dataclass(frozen=True)
class Option:
    """A row of the table of options: the kind of its value, its range and its default, all as written in a settings file."""

    kind: str  # length, whole, percent, factor, flag or text
    least: str = ""
    most: str = ""
    default: str = ""


OPTIONS = {
    "layer_height": Option("length", "0.02", "1", "0.2"),
    "first_layer_height": Option("length", "0.02", "1", "0.2"),
    "perimeters": Option("whole", "0", "32", "2"),
    "top_solid_layers": Option("whole", "0", "100", "4"),
    "bottom_solid_layers": Option("whole", "0", "100", "3"),
    "fill_density": Option("percent", "0", "100", "20"),
    "ironing": Option("flag", default="0"),
    "support_material": Option("flag", default="0"),
    "support_material_buildplate_only": Option("flag", default="0"),
    "extruder": Option("whole", "0", "4", "1"),
    "skirts": Option("whole", "0", "32", "1"),
    "skirt_distance": Option("length", "0", "100", "6"),
    "skirt_height": Option("whole", "0", "1000", "1"),
    "brim_width": Option("length", "0", "40", "0"),
    "wipe_tower": Option("flag", default="0"),
    "wipe_tower_x": Option("length", "0", "1000", "180"),
    "wipe_tower_y": Option("length", "0", "1000", "140"),
    "wipe_tower_width": Option("length", "0.4", "1000", "60"),
    "perimeter_speed": Option("whole", "1", "1000", "45"),
    "infill_speed": Option("whole", "1", "1000", "80"),
    "travel_speed": Option("whole", "1", "1000", "130"),
    "temperature": Option("whole", "0", "500", "210"),
    "first_layer_temperature": Option("whole", "0", "500", "215"),
    "bed_temperature": Option("whole", "0", "200", "60"),
    "first_layer_bed_temperature": Option("whole", "0", "200", "60"),
    "filament_diameter": Option("length", "0.5", "5", "1.75"),
    "extrusion_multiplier": Option("factor", "0.01", "2", "1"),
    "start_gcode": Option("text"),
    "end_gcode": Option("text"),
    "notes": Option("text"),
}
UNIT = {"length": 1, "factor": 10_000}  # nanometres of one unit of a value; 1,000,000 for the other kinds
MOST_TEXT = 65_536
AUTOMATIC_AT_ZERO = ("perimeter_speed", "infill_speed")  # where 0 tells PrusaSlicer to choose a speed
PLACEHOLDER = re.compile(rb"\[[a-z_]\w*\]|\{[^{}]+\}")
BYTE_ORDER_MARK = b"\xef\xbb\xbf"


@dataclasses.dataclass
class Settings:
    """A settings file as it goes into a block: line N of the text stands for line N of the file."""

    path: str
    text: bytes
    lines: list  # those of the file
    values: dict  # what the core reads of each key that is set, as a whole number of its units; texts are left out
    faults: list  # (line, name) of each line that the core refuses

    def number(self, key):
        """The value that holds, in nanometres or whole units, percents or hundredths."""
        option = OPTIONS[key]
        return self.values.get(key, value_of(option, option.default.encode()))

    def line_text(self, line):
        """A line of the file, cut short, as it can be shown."""
        shown = self.lines[line - 1].strip()[:60].decode("utf-8", "replace") if 0 < line <= len(self.lines) else ""
        return shown if shown.isprintable() else ""


def no_settings():
    return Settings("", b"", [], {}, [])


def split_line(line):
    """Key and value of a line; None where it is passed over, a key alone where it has no =."""
    line = line.strip()
    if not line or line[:1] in b"#;[":
        return None
    key, equals, value = line.partition(b"=")
    return key.strip().decode("utf-8", "replace"), value.strip() if equals else None


def value_of(option, value):
    """What the core reads of a value: a whole number, bytes, or the name of the fault."""
    if option.kind == "text":
        text = re.sub(rb"\\([nr\\])", lambda found: {b"n": b"\n", b"r": b"", b"\\": b"\\"}[found[1]], value)
        return text if len(text) <= MOST_TEXT else "OutOfRange"
    if option.kind == "flag":
        return int(value) if value in (b"0", b"1") else "BadValue"
    value = value.split(b",")[0].strip()
    if option.kind == "percent":
        value = value.removesuffix(b"%")
    length = numeral(value)
    if isinstance(length, str):
        return "BadValue" if length == "BadNumber" else "OutOfRange"
    number = rounded(length, UNIT.get(option.kind, NANOMETRES))
    least, most = (rounded(exact_nanometres(bound), UNIT.get(option.kind, NANOMETRES)) for bound in (option.least, option.most))
    return number if least <= number <= most else "OutOfRange"


def rounded(number, unit):
    """A number divided by a unit, halves away from zero."""
    size = (2 * abs(number) + unit) // (2 * unit)
    return size if number >= 0 else -size


def read_settings(path):
    """The settings of a file, with a remark for each line that was turned into another form."""
    data = read_file(path)
    if data.startswith(BYTE_ORDER_MARK):
        remark("note", f"{path}:1: the byte order mark is left out")
        data = data[len(BYTE_ORDER_MARK):]
    refuse_end_of_block(path, data)
    lines = data.removesuffix(b"\n").split(b"\n")
    height = layer_height(lines)
    written, settings = [], Settings(path, b"", lines, {}, [])
    for number, line in enumerate(lines, 1):
        split = split_line(line)
        if split and split[1] is not None and split[0] in OPTIONS:
            line = turned(f"{path}:{number}", line, *split, height)
            split = split_line(line)
        written.append(line)
        if split:
            take(settings, number, *split)
    settings.text = b"\n".join(written) + b"\n"
    remark_on_whole(settings)
    return settings


def take(settings, number, key, value):
    """Keeps what the core reads of a line, or its fault."""
    if value is None:
        settings.faults.append((number, "NoEquals"))
    elif key in OPTIONS:
        read = value_of(OPTIONS[key], value)
        if isinstance(read, str):
            settings.faults.append((number, read))
        elif not isinstance(read, bytes):
            settings.values[key] = read


def layer_height(lines):
    """The layer height that a file sets, in nanometres: the last one that the core reads, else the default."""
    option, height = OPTIONS["layer_height"], None
    for key, value in filter(None, map(split_line, lines)):
        if key == "layer_height" and value is not None:
            read = value_of(option, value)
            height = height if isinstance(read, str) else read
    return height or value_of(option, option.default.encode())


def turned(place, line, key, value, height):
    """The line as the core reads it, with a remark where that is another one."""
    option = OPTIONS[key]
    if option.kind == "text":
        remark_on_placeholders(place, key, value)
        return line
    first = value.split(b",")[0].strip()
    if key == "first_layer_height" and re.fullmatch(rb"[\d.]+%", first) and not isinstance(numeral(first[:-1]), str):
        share = rounded(height * numeral(first[:-1]), 100 * NANOMETRES)
        return rewritten(place, line, f"{key} = {plain(share)}", f"of layer_height {plain(height)}")
    if option.kind == "flag" and b"," in value:
        return rewritten(place, line, f"{key} = {first.decode('ascii', 'replace')}", "the first of the list")
    if key in AUTOMATIC_AT_ZERO and value_of(Option(option.kind, "0", option.most), value) == 0:
        why = f"0 leaves the speed to the slicer; here {option.default} mm per second hold where no other line sets it"
        return rewritten(place, line, f"# {key} = {option.default}", why)
    return line


def plain(length):
    """Nanometres as millimetres, without zeros at the end."""
    return millimetres(length).rstrip("0").rstrip(".")


def rewritten(place, line, text, why):
    remark("note", f"{place}: {line.strip().decode('utf-8', 'replace')} is written as {text} ({why})")
    return text.encode()


def remark_on_placeholders(place, key, value):
    found = PLACEHOLDER.findall(value)
    if found and key != "notes":
        remark("warning", f"{place}: {key} is copied as it stands, with {found[0].decode('utf-8', 'replace')} in it; placeholders are not filled in")


def remark_on_faults(settings):
    """Says which lines the core will refuse."""
    for number, fault in settings.faults:
        remark("warning", f"{settings.path}:{number}: {settings.line_text(number)}: {fault_words(fault)}; the core will refuse these settings")


def remark_on_whole(settings):
    """Says where a file has nothing of the core's, or has several profiles."""
    keys = {split[0] for split in filter(None, map(split_line, settings.lines))}
    if not keys & OPTIONS.keys():
        remark("warning", f"{settings.path}: no line sets an option of the core; all defaults hold")
    profiles = [line for line in settings.lines if re.fullmatch(rb"\s*\[\w+:.*\]\s*", line)]
    if len(profiles) > 1:
        remark("warning", f"{settings.path}: {len(profiles)} profiles in one file; of each key the last line holds")
