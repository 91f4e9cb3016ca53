"""Small helpers for SVG pictures."""
from xml.sax.saxutils import escape, quoteattr

FONT = "font-family:sans-serif;fill:#333"


def number(value):
    """A number with at most three decimals and no zeros at its end."""
    text = f"{value:.3f}".rstrip("0").rstrip(".")
    return "0" if text == "-0" else text


def element(name, inside=None, **attributes):
    """An element with its attributes; `class_` stands for class, and `_` in a name for `-`."""
    words = "".join(
        f" {key.rstrip('_').replace('_', '-')}={quoteattr(number(value) if isinstance(value, float) else str(value))}"
        for key, value in attributes.items()
        if value is not None
    )
    return f"<{name}{words}/>" if inside is None else f"<{name}{words}>{inside}</{name}>"


def words_at(x, y, words, size=11, anchor="start", **attributes):
    return element("text", escape(words), x=float(x), y=float(y), font_size=size, text_anchor=anchor, **attributes)


def title(words):
    return element("title", escape(words))


def document(width, height, style, parts):
    """A whole SVG file."""
    wide, high = number(width), number(height)
    head = f'<svg xmlns="http://www.w3.org/2000/svg" width="{wide}" height="{high}" viewBox="0 0 {wide} {high}">'
    ground = element("rect", width="100%", height="100%", fill="#fff")
    return "\n".join([head, element("style", f"text{{{FONT}}}{style}"), ground, *parts, "</svg>", ""])


def legend(x, y, colours, names):
    """Squares with names in a row, and where the row ends."""
    parts = []
    for key, words in names:
        parts.append(element("rect", x=float(x), y=float(y - 9), width=10, height=10, fill=colours[key]))
        parts.append(words_at(x + 14, y, words))
        x += 26 + 6.2 * len(words)
    return parts, x
