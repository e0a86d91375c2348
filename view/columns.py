"""How a page's data is kept small: tables of what occurs again, differences in place of numbers, and places in characters."""

import array
import re

# Bytes of ASCII in a row, a character of UTF-8, or a byte that begins none.
RUNS = re.compile(
    rb"[\x00-\x7f]+|[\xc2-\xdf][\x80-\xbf]|\xe0[\xa0-\xbf][\x80-\xbf]|[\xe1-\xec\xee\xef][\x80-\xbf]{2}"
    rb"|\xed[\x80-\x9f][\x80-\xbf]|\xf0[\x90-\xbf][\x80-\xbf]{2}|[\xf1-\xf3][\x80-\xbf]{3}|\xf4[\x80-\x8f][\x80-\xbf]{2}"
    rb"|[\x80-\xff]"
)


class Table:
    """Different values in the order of their first appearance, and the number of each."""

    def __init__(self):
        self.values = []
        self.numbers = {}

    def number(self, value):
        found = self.numbers.get(value)
        if found is None:
            found = self.numbers[value] = len(self.values)
            self.values.append(value)
        return found


def differences(numbers):
    """Each number less the one before it, the first less 0."""
    before, found = 0, []
    for number in numbers:
        found.append(number - before)
        before = number
    return found


class Source:
    """A source as a page shows it: bytes as UTF-8, with U+FFFD for what is none, and where each byte is in that text.

    Places of the program are bytes, and those of a script are units of UTF-16, so places are translated once, here."""

    def __init__(self, data):
        self.data = data
        self.plain = data.isascii()
        if self.plain:
            self.text = data.decode("ascii")
            return
        parts, self.places, start = [], array.array("I"), 0
        for run in RUNS.finditer(data):
            part = run[0].decode("utf-8", errors="replace")
            parts.append(part)
            if run[0].isascii():
                self.places.extend(range(start, start + len(part)))
                start += len(part)
            else:
                self.places.extend([start] * len(run[0]))
                start += len(part.encode("utf-16-le")) // 2
        self.places.append(start)
        self.text = "".join(parts)

    def place(self, byte):
        """Where the character of a byte begins in the text."""
        return byte if self.plain else self.places[byte]

    def byte(self, line, column):
        """The byte at a line and a column, both from 1 on, or the end of the source."""
        start = 0
        for _ in range(line - 1):
            end = self.data.find(b"\n", start)
            if end < 0:
                return len(self.data)
            start = end + 1
        return min(start + column - 1, len(self.data))

    def lines(self):
        """How many lines the source has."""
        return self.data.count(b"\n") + (not self.data.endswith(b"\n") and bool(self.data))
