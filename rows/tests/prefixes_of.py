"""Rows for each beginning of a source."""

from steps import Row
from tables import ends, named


def end_of(text):
    """The line that says that the end of a text is unexpected."""
    line, column = text.count(b"\n") + 1, len(text) - (text.rfind(b"\n") + 1) + 1
    return b"a.pony:%d:%d: unexpected\n" % (line, column)


def parts(added, by_lines):
    """The parts of what a row adds: its bytes, or its lines."""
    return added.splitlines(keepends=True) if by_lines else [bytes([byte]) for byte in added]


def prefixes(title, source, rows, by_lines=False):
    """Rows of what is added to a text, and the status and the line with which `check` ends on the text after each byte or each
    line; no line is that of an unexpected end. All together are the source."""
    text, made = b"", []
    for added, status, line in rows:
        for part in parts(added, by_lines):
            text += part
            name = named(f"every prefix ends as its last token does, {title}", f"{len(text)} bytes, up to {text[-20:]!r}")
            made.append(Row(name, ends(text, status, end_of(text) if line is None else line)))
    if text != source:
        raise ValueError(f"the rows of {title} do not have its bytes")
    return made
