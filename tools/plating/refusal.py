"""What the tools say: refusals, which end a command, and remarks, which do not."""
import re
import sys

END_OF_BLOCK = re.compile(rb"^\.end\r?$", re.MULTILINE)


class Refusal(Exception):
    """Why a command of plate.py cannot go on, with the file and, where there is one, the line."""

    def __init__(self, words, status=3):
        super().__init__(words)
        self.status = status


def remark(kind, words):
    """Writes a line on standard error: kind is `note` for what was turned into another form, `warning` for what will be refused."""
    print(f"plate.py: {kind}: {words}", file=sys.stderr, flush=True)


def read_file(path):
    """The bytes of a file, or of standard input for `-`."""
    try:
        if path == "-":
            return sys.stdin.buffer.read()
        with open(path, "rb") as file:
            return file.read()
    except OSError as error:
        raise Refusal(f"{path}: {error.strerror}", 4) from error


def refuse_end_of_block(path, data):
    """Refuses a text that cannot go into a block."""
    found = END_OF_BLOCK.search(data)
    if found:
        line = data.count(b"\n", 0, found.start()) + 1
        raise Refusal(f"{path}:{line}: a line .end would end the block that the file goes into")


# The faults of the core, in words.
FAULTS = {
    "BadToken": "a word that may not stand there",
    "BadNumber": "coordinate is no number",
    "TooFar": "coordinate is beyond 1,000 mm",
    "TooManyFacets": "facet 300,001 of one mesh; 300,000 are the most",
    "Cut": "the text ends too early",
    "NoFacet": "the mesh has no facet",
    "NoEquals": "a line without =",
    "BadValue": "the value is not of its key's kind",
    "OutOfRange": "the value is out of its key's range",
    "OutOfBed": "the object is wider than the bed of 250 by 210 mm",
    "TooManyCells": "the object has more than 2^24 cells of 0.4 by 0.4 mm and one layer",
    "TooLong": "the input has more than 2^28 bytes",
    "CutData": "a block without .end",
}


def fault_words(fault):
    """`BadNumber` or `OutOfBed 0 0` as words, with the name of the fault behind."""
    return f"{FAULTS.get(fault.split()[0], 'refused')} ({fault})"
