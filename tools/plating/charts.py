"""Draws who computed what between which entries of a transcript."""
from .pictures import document, element, legend, title, words_at
from .transcripts import jobs_of

COLOURS = {
    "slice": "#4e79a7", "perimeters": "#59a14f", "prepare": "#9c755f", "infill": "#f28e2b", "ironing": "#d37295",
    "support": "#76b7b2", "tower": "#b07aa1", "skirt": "#8c8c8c", "brim": "#bab0ac", "export": "#e15759",
}
LEFT, TOP, ROW, BAR = 48, 34, 40, 22
WIDEST = 1_400
STYLE = (
    ".late{stroke:#c00;stroke-width:1.5;stroke-dasharray:3 2;fill-opacity:.35}.open{stroke:#000;stroke-dasharray:1 2}"
    ".command{stroke:#222;stroke-width:1.5}.refused{stroke:#c00;stroke-width:2.5}.falls{stroke:#c00;stroke-width:.7;stroke-dasharray:4 3}"
    ".row{stroke:#ddd}.bar text{fill:#fff}.bar .late+text{fill:#900}"
)


def step_of(slot):
    return slot.rpartition(".")[2]


def chart(transcript):
    """The SVG text: a row for each session and worker, the entries' numbers along it."""
    actors, jobs, count = transcript.actors(), jobs_of(transcript), len(transcript.entries)
    unit = min(18.0, max(0.6, WIDEST / (count + 2)))
    rows = {who: TOP + ROW * place for place, who in enumerate(actors)}
    bottom = TOP + ROW * len(actors)
    width = LEFT + unit * (count + 2) + 16

    def across(entry):
        return LEFT + unit * entry
    parts = [words_at(LEFT, 16, "entries of the history; bars are slots being computed, ticks are commands", 12)]
    for who, top in rows.items():
        parts.append(words_at(8, top + 18, who, 13))
        parts.append(element("line", x1=LEFT, x2=float(width - 8), y1=top + BAR + 8, y2=top + BAR + 8, class_="row"))
    parts += falls(transcript, across, bottom)
    parts += [bar(job, across, rows[job.who]) for job in jobs]
    parts += [tick(it, across(it.number), rows[it.who]) for it in transcript.entries if it.kind == "command"]
    parts += axis(count, unit, across, bottom)
    steps = [step for step in COLOURS if any(step_of(job.slot) == step for job in jobs)]
    marks, right = legend(LEFT, bottom + 42, COLOURS, [(step, step) for step in steps])
    late = "dashed red: a late result; red ticks: refused; red lines: an apply or cancel by which slots fell"
    parts += [*marks, words_at(LEFT, bottom + 60, late)]
    return document(max(width, right + 10, LEFT + 6 * len(late)), bottom + 72, STYLE, parts)


def falls(transcript, across, bottom):
    """A line over all rows for each apply and cancel that made slots fall."""
    fell = [it for it in transcript.entries if it.reply.startswith(("invalidated", "cancelled")) and it.reply != "cancelled 0"]
    return [upright(it, across(it.number), TOP - 6, bottom, "falls") for it in fell]


def upright(entry, x, top, bottom, kind):
    """A line at an entry, which tells its command and reply."""
    return element("line", title(f"entry {entry.number}: {entry.who} {entry.words} = {entry.reply}"), x1=x, x2=x, y1=top, y2=bottom, class_=kind)


def bar(job, across, top):
    """A job, from the entry that starts it to the one that ends it."""
    step, wide = step_of(job.slot), across(job.last) - across(job.first)
    words = f"{job.who} computes {job.slot} at epoch {job.epoch}: entries {job.first} to {job.last}, {job.outcome}"
    colour = COLOURS.get(step, "#777")
    inside = title(words) + element("rect", x=across(job.first), y=top + 4, width=wide, height=BAR, fill=colour, class_=job.outcome)
    if wide > 6.4 * len(job.slot):
        inside += words_at(across(job.first) + 3, top + 19, job.slot, 10)
    return element("g", inside, class_="bar")


def tick(entry, x, top):
    return upright(entry, x, top, top + BAR + 8, "command refused" if entry.reply.startswith("refused") else "command")


def axis(count, unit, across, bottom):
    """Numbers of entries under the rows, at least 40 apart."""
    step = next(size for power in range(8) for size in (10 ** power, 2 * 10 ** power, 5 * 10 ** power) if size * unit >= 40)
    return [words_at(across(entry), bottom + 16, str(entry), 10, "middle") for entry in range(step, count + 1, step)]
