#!/usr/bin/env python3
"""Tools round the program plater: scripts and slicing from STL files, and what a transcript or a G-code holds.

    plate.py script    writes a script that puts models on the bed, applies and exports, for `plater run`
    plate.py slice     runs `plater slice` on one model, and tells a refusal by file and line
    plate.py gcode     takes the G-code of an export out of a transcript
    plate.py log       tells who did what in a transcript, as tables or as a chart
    plate.py preview   draws layers of a G-code

It needs Python 3 alone. `plate.py COMMAND --help` tells more of each. What it turns into another form, and what the core will
refuse, it says on standard error.
"""
import argparse
import contextlib
import os
import pathlib
import subprocess
import sys
import tempfile
import threading
import time

from plating import charts, previews, scripts
from plating.meshes import numeral, read_mesh
from plating.refusal import Refusal, read_file
from plating.settings import no_settings, read_settings
from plating.transcripts import export_of, log_lines, read_transcript, refused_lines

PROGRAM = os.environ.get("PLATER") or str(pathlib.Path(__file__).resolve().parent.parent / "plater")
STATUSES = """exit statuses: 0 done; 2 words of the command line that do not fit; 3 an input that is refused, by this tool or by the
core; 4 an input that cannot be read; 5 an output that cannot be written; of `slice`, any other status of the program."""
SETTINGS = """settings: lines KEY = VALUE as slicers export them. Keys that the core does not know are passed over. A percentage as
first_layer_height is written as its share of layer_height, a list of flags as its first one, a perimeter_speed or infill_speed of
0 is left to the default, and a byte order mark is left out; each time a line on standard error says so."""


def main(words=None):
    """Runs a command; gives the exit status."""
    arguments = parser().parse_args(words)
    try:
        return arguments.command(arguments) or 0
    except Refusal as refusal:
        print(f"plate.py: {refusal}", file=sys.stderr)
        return refusal.status
    except BrokenPipeError:
        os.dup2(os.open(os.devnull, os.O_WRONLY), sys.stdout.fileno())
        return 5
    except KeyboardInterrupt:
        return 130


def parser():
    """What the command line may say."""
    raw = argparse.RawDescriptionHelpFormatter
    whole = argparse.ArgumentParser(description=__doc__.split("\n\n")[0], epilog=STATUSES, formatter_class=raw)
    commands = whole.add_subparsers(required=True, metavar="COMMAND")

    def command(name, function, short, *more):
        its = commands.add_parser(name, help=short, description=short, epilog="\n\n".join([*more, STATUSES]), formatter_class=raw)
        its.set_defaults(command=function)
        return its
    add_script(command)
    add_slice(command)
    add_transcript_commands(command)
    add_preview(command)
    return whole


def add_script(command):
    short = "writes a script for `plater run` that puts models on the bed, applies and exports"
    its = command("script", command_script, short, WHERE, SETTINGS)
    its.add_argument("models", nargs="+", metavar="MODEL.stl[@X,Y[,TURN]]", help="an ASCII or binary STL file, and perhaps its place")
    its.add_argument("--settings", metavar="FILE.ini", help="a settings file, as PrusaSlicer exports it")
    workers = "0 to 8 workers beside the session; a program without workers takes 0 alone"
    its.add_argument("--workers", type=int, choices=range(9), metavar="N", help=workers)
    its.add_argument("--gap", type=length, default=6_000_000, metavar="MM", help="how far from each other models without a place are put (6)")
    its.add_argument("-o", dest="output", metavar="OUT.plater", help="where to write it; else on standard output")


WHERE = """places: X and Y are those of the corner of the model's box, in millimetres from the corner of the bed of 250 by 210 mm; TURN is
a number of quarter turns counterclockwise, 0 to 3. Models without a place are put near the middle, clear of each other. A model
that is named again, with the same turn, becomes another instance of the first one, which the core computes once."""


def add_slice(command):
    its = command("slice", command_slice, "runs `plater slice` on one model, in the corner of the bed, and keeps its exit status", SETTINGS)
    its.add_argument("model", metavar="MODEL.stl", help="an ASCII or binary STL file")
    its.add_argument("--settings", metavar="FILE.ini", help="a settings file, as PrusaSlicer exports it")
    whole = "where to write the G-code; only a whole one is kept. Else on standard output"
    its.add_argument("-o", dest="output", metavar="OUT.gcode", help=whole)
    program = "the program (the environment variable PLATER, else plater at the top of the repository)"
    its.add_argument("--program", default=PROGRAM, metavar="PATH", help=program)


def add_transcript_commands(command):
    its = command("gcode", command_gcode, "takes the G-code of an export out of a transcript, byte for byte")
    its.add_argument("transcript", metavar="TRANSCRIPT", help="what `plater run` wrote; - for standard input")
    which = "the number of the export among those with G-code, from 1; else the last one"
    its.add_argument("export", nargs="?", type=int, metavar="N", help=which)
    its.add_argument("-o", dest="output", metavar="OUT.gcode", help="where to write it; else on standard output")
    its = command("log", command_log, "tells who did what in a transcript: a table for each session and worker")
    its.add_argument("transcript", metavar="TRANSCRIPT", help="what `plater run` wrote; - for standard input")
    drawn = "draws instead who computed what between which entries; the entries' numbers are the axis"
    its.add_argument("--svg", metavar="OUT.svg", help=drawn)
    its.add_argument("--refused", action="store_true", help="prints refused commands alone; exit status 1 where there is one")


def add_preview(command):
    short = "draws layers of a G-code: a picture of one, or a sheet of small ones"
    its = command("preview", command_preview, short, previews.KINDS_HELP)
    its.add_argument("input", metavar="GCODE|TRANSCRIPT", help="a G-code of plater, or a transcript; - for standard input")
    its.add_argument("-o", dest="output", required=True, metavar="OUT.svg")
    which = its.add_mutually_exclusive_group()
    which.add_argument("--layer", type=layer_list, default=[0], metavar="K[,K..]", help="the layers by number, from 0 (0)")
    which.add_argument("--layers", type=int, metavar="N", help="so many layers, spread from the first to the last")
    its.add_argument("--export", type=int, metavar="N", help="of a transcript, the number of the export; else the last one")
    its.add_argument("--bed", action="store_true", help="shows the whole bed, not just the paths")


def length(word):
    """A length of the command line, in nanometres."""
    value = numeral(word.encode())
    if isinstance(value, str) or value < 0:
        raise argparse.ArgumentTypeError(f"{word} is no length in millimetres")
    return value


def layer_list(word):
    try:
        return [int(number) for number in word.split(",")]
    except ValueError:
        raise argparse.ArgumentTypeError(f"{word} is no list of layers as 0,5,10") from None


# ---- commands


def command_script(arguments):
    wishes = [scripts.wish(word) for word in arguments.models]
    settings = read_settings(arguments.settings) if arguments.settings else no_settings()
    write(arguments.output, scripts.script(wishes, settings, arguments.workers, arguments.gap).bytes())


def command_gcode(arguments):
    transcript = read_transcript(arguments.transcript, read_file(arguments.transcript))
    gcode, which = export_of(arguments.transcript, transcript, arguments.export)
    if arguments.export is None and len(transcript.exports()) > 1:
        print(f"plate.py: note: this is {which}", file=sys.stderr)
    write(arguments.output, gcode)


def command_log(arguments):
    transcript = read_transcript(arguments.transcript, read_file(arguments.transcript))
    if arguments.svg:
        write(arguments.svg, charts.chart(transcript).encode())
    if arguments.refused:
        lines = refused_lines(arguments.transcript, transcript)
        write(None, "".join(f"{line}\n" for line in lines).encode())
        return 1 if lines else 0
    if not arguments.svg:
        write(None, "\n".join([*log_lines(transcript), ""]).encode())
    return 0


def command_preview(arguments):
    data, name = read_file(arguments.input), os.path.basename(arguments.input)
    if not previews.is_gcode(data):
        data, which = export_of(arguments.input, read_transcript(arguments.input, data), arguments.export)
        name += f", {which}"
    heights = previews.heights_of(arguments.input, data)
    chosen = arguments.layer
    if arguments.layers is not None:
        count = max(min(arguments.layers, len(heights)), 1)
        chosen = [number * (len(heights) - 1) // max(count - 1, 1) for number in range(count)]
    if not all(0 <= layer < len(heights) for layer in chosen):
        raise Refusal(f"{arguments.input}: this print has the layers 0 to {len(heights) - 1}", 2)
    layers = [previews.read_layer(data, heights, layer) for layer in chosen]
    write(arguments.output, previews.sheet(name, layers, arguments.bed).encode())


def command_slice(arguments):
    """Runs the program, and tells a refusal by file and line."""
    settings = read_settings(arguments.settings) if arguments.settings else no_settings()
    text = scripts.slice_input(read_mesh(arguments.model), settings)
    with tempfile.TemporaryFile() as standard_input, output_file(arguments.output) as output:
        standard_input.write(text.bytes())
        standard_input.seek(0)
        refusals = []
        try:
            words = [arguments.program, "slice"]
            program = subprocess.Popen(words, stdin=standard_input, stdout=output.file, stderr=subprocess.PIPE)
        except OSError as error:
            raise Refusal(f"{arguments.program}: {error.strerror}", 127) from error
        with program:
            listener = threading.Thread(target=pass_on, args=(program.stderr, refusals))
            listener.start()
            show_progress(program, f"plater slice {arguments.model}")
            listener.join()
        output.keep(program.returncode == 0)
    for line, fault in refusals:
        print(f"plate.py: {scripts.refusal_of(text, line, fault)}", file=sys.stderr)
    if program.returncode < 0:
        print(f"plate.py: {arguments.program} was ended by signal {-program.returncode}", file=sys.stderr)
    return program.returncode if program.returncode >= 0 else 128 - program.returncode


# ---- running and writing


def pass_on(lines, refusals):
    """Passes on what the program says on standard error, but keeps its refusals, as (line, fault)."""
    for line in lines:
        words = line.decode("utf-8", "replace").rstrip("\n")
        found = words.split(": ", 2)
        if words.startswith("plater: line ") and len(found) == 3 and found[1][5:].isdigit():
            refusals.append((int(found[1][5:]), found[2]))
        else:
            print(f"\r{words:<60}" if sys.stderr.isatty() else words, file=sys.stderr, flush=True)


def show_progress(program, what):
    """Waits for the program; on a terminal a line tells for how long it has run."""
    begun, shows = time.monotonic(), sys.stderr.isatty()
    while True:
        try:
            program.wait(0.5)
            break
        except subprocess.TimeoutExpired:
            if shows:
                print(f"\r{what}: {time.monotonic() - begun:.0f} s ", end="", file=sys.stderr, flush=True)
        except KeyboardInterrupt:
            program.terminate()
            raise
    if shows:
        print(f"\r{what}: {time.monotonic() - begun:.1f} s", file=sys.stderr, flush=True)


class Output:
    """A file that stands under its name only once it is whole; or standard output, or what is no file, such as a pipe."""

    def __init__(self, path):
        self.path, self.part = path and os.path.realpath(path), None
        if not path:
            sys.stdout.flush()
            self.file = sys.stdout.buffer
        elif os.path.exists(self.path) and not os.path.isfile(self.path):
            self.file = open(self.path, "wb")
        else:
            self.part = f"{self.path}.{os.getpid()}.part"
            self.file = open(self.part, "wb")

    def keep(self, is_whole):
        if self.part and is_whole:
            self.file.close()
            os.replace(self.part, self.path)


@contextlib.contextmanager
def output_file(path):
    """An output; what is not kept is taken away at the end."""
    try:
        output = Output(path)
    except OSError as error:
        raise Refusal(f"{path}: {error.strerror}", 5) from error
    try:
        yield output
    finally:
        if output.part:
            output.file.close()
            with contextlib.suppress(FileNotFoundError):
                os.remove(output.part)


def write(path, data):
    """Writes bytes to a file, or to standard output where there is none."""
    with output_file(path) as output:
        try:
            output.file.write(data)
            output.file.flush()
        except BrokenPipeError:
            raise
        except OSError as error:
            raise Refusal(f"{path or 'standard output'}: {error.strerror}", 5) from error
        output.keep(True)


if __name__ == "__main__":
    sys.exit(main())
