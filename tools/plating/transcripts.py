"""Reads transcripts: their entries, the G-code of their exports, and tables of who did what."""
import dataclasses
import re

from .refusal import Refusal

ENTRY = re.compile(rb"(\d+) ([sw]\d+) (.*)", re.DOTALL)
END = re.compile(rb"end (\d+) runs (\d+)")
START = re.compile(r"start (\S+) (\d+)")
DONE = re.compile(r"done (\S+) (\d+)")
LATE = re.compile(r"late (\S+) (\d+) (\d+)")
GCODE = re.compile(r"gcode (\d+)")


@dataclasses.dataclass
class Entry:
    """An entry of the history. The kind is command, start, done, late or bye."""

    number: int
    who: str
    kind: str
    words: str  # of a command: the command; of a bye: nothing; else the slot
    reply: str = ""
    epochs: tuple = ()
    gcode: bytes = None


@dataclasses.dataclass
class Job:
    """What an actor computed: a slot at an epoch, from one entry to another."""

    who: str
    slot: str
    epoch: int
    first: int
    last: int  # the entry that ends it
    outcome: str  # done, late or, where the transcript has no end of it, open


@dataclasses.dataclass
class Transcript:
    entries: list
    runs: int

    def exports(self):
        """The entries with G-code."""
        return [it for it in self.entries if it.gcode is not None]

    def refused(self):
        return [it for it in self.entries if it.kind == "command" and it.reply.startswith("refused")]

    def actors(self):
        """Sessions, then workers, each by number."""
        return sorted({it.who for it in self.entries}, key=lambda who: (who[0], int(who[1:])))


def read_transcript(path, data):
    """The transcript of a text; refused where it is cut or is none."""
    entries, at, line = [], 0, 1
    while at < len(data):
        end = data.find(b"\n", at)
        text = data[at:end if end >= 0 else len(data)]
        if found := END.fullmatch(text):
            if int(found[1]) != len(entries):
                raise Refusal(f"{path}:{line}: the last line tells of {int(found[1])} entries; {len(entries)} stand before it")
            return Transcript(entries, int(found[2]))
        entry = entry_of(text)
        if not entry or end < 0 or entry.number != len(entries) + 1:
            raise Refusal(f"{path}:{line}: this is no entry {len(entries) + 1} of a transcript")
        entries.append(entry)
        at, line = end + 1, line + 1
        if length := entry.kind == "command" and GCODE.fullmatch(entry.reply):
            entry.gcode = data[at:at + int(length[1])]
            at += int(length[1]) + 1
            if data[at - 1:at] != b"\n":
                raise Refusal(f"{path}:{line}: the G-code of entry {entry.number} is cut")
            line += entry.gcode.count(b"\n") + 1
    raise Refusal(f"{path}:{line}: the last line `end N runs R` of a transcript is not there")


def entry_of(text):
    """The entry of a line; None where it is none."""
    found = ENTRY.fullmatch(text)
    if not found:
        return None
    number, who, words = int(found[1]), found[2].decode(), found[3].decode("utf-8", "backslashreplace")
    if words == "bye":
        return Entry(number, who, "bye", "")
    for kind, form in (("start", START), ("done", DONE), ("late", LATE)):
        if told := form.fullmatch(words):
            return Entry(number, who, kind, told[1], epochs=tuple(map(int, told.groups()[1:])))
    command, equals, reply = words.rpartition(" = ")
    return Entry(number, who, "command", command, reply) if equals else None


def export_of(path, transcript, number):
    """The G-code of the export of a number, counted from 1, or of the last one; the other value says which one it is."""
    exports = transcript.exports()
    if not exports:
        refused = [it for it in transcript.refused() if it.words == "export"]
        why = f"; entry {refused[-1].number}: export = {refused[-1].reply}" if refused else ""
        raise Refusal(f"{path}: no export of this transcript has G-code{why}")
    if number is not None and not 1 <= number <= len(exports):
        raise Refusal(f"{path}: there is no export {number}; {len(exports)} have G-code", 2)
    number = number or len(exports)
    return exports[number - 1].gcode, f"export {number} of {len(exports)}"


def jobs_of(transcript):
    """All jobs, by their starts."""
    jobs, running = [], {}
    for it in transcript.entries:
        if it.kind == "start":
            running[it.who] = Job(it.who, it.words, it.epochs[0], it.number, len(transcript.entries) + 1, "open")
            jobs.append(running[it.who])
        elif it.kind in ("done", "late") and it.who in running:
            job = running.pop(it.who)
            job.last, job.outcome = it.number, it.kind
    return jobs


def rows_of(transcript, jobs, who):
    """The rows of an actor's table: its entries, what it did, and what came of it."""
    rows = []
    for it in transcript.entries:
        if it.who == who and it.kind in ("command", "bye"):
            rows.append((it.number, str(it.number), it.words or "bye", it.reply))
    for job in jobs:
        if job.who == who:
            late = f": epoch {transcript.entries[job.last - 1].epochs[1]} by then" if job.outcome == "late" else ""
            rows.append((job.first, f"{job.first}-{job.last}", f"computes {job.slot}, epoch {job.epoch}", job.outcome + late))
    return [row[1:] for row in sorted(rows)]


def table(rows):
    """Rows of words as lines, each column as wide as its widest word but at most 60 letters."""
    widths = [min(max(map(len, column)), 60) for column in zip(*rows)]
    return ["  ".join(word.ljust(width) for word, width in zip(row, widths)).rstrip() for row in rows]


def log_lines(transcript):
    """A table for each session and worker, and one that counts."""
    jobs = jobs_of(transcript)
    lines, counts = [], [("who", "commands", "refused", "started", "done", "late")]
    for who in transcript.actors():
        commands = [it for it in transcript.entries if it.who == who and it.kind == "command"]
        refused = [it for it in commands if it.reply.startswith("refused")]
        own = [job for job in jobs if job.who == who]
        ended = [[job.outcome for job in own].count(outcome) for outcome in ("done", "late")]
        counts.append((who, *map(str, (len(commands), len(refused), len(own), *ended))))
        kind = "session" if who[0] == "s" else "worker"
        lines += [f"{kind} {who[1:]} ({who})", *table([("entry", "what", "outcome"), *rows_of(transcript, jobs, who)]), ""]
    return lines + table(counts) + [f"entries {len(transcript.entries)}, runs {transcript.runs}"]


def refused_lines(path, transcript):
    """A line for each command that was refused."""
    return [f"{path}: entry {it.number}: {it.who} {it.words}: {it.reply}" for it in transcript.refused()]
