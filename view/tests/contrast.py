"""The contrast of texts with what is under them, of the colours in assets/style.css, by the formula of WCAG 2.1."""

import re

LEAST = 4.5

# Colours of texts, and what may be under each of them.
INKS = ["ink", "faint", "link", "good", "refused", "iso", "trn", "ref", "val", "box", "tag", "none"]
GROUNDS = ["ground", "card", "marked", "refused-ground", "band"]

# Colours of signs and lines, which need 3 to 1.
SIGNS = ["edge", "held", *(f"object-{number}" for number in range(8))]
LEAST_OF_SIGNS = 3.0


def themes(style):
    """The colours of the two themes, by their names."""
    light, dark = (re.search(form + r"[^{]*\{(.*?)\}", style, re.DOTALL)[1] for form in (":root", r':root\[data-theme="dark"\]'))
    return {"light": colours(light), "dark": colours(dark)}


def colours(rules):
    return dict(re.findall(r"--([\w-]+):\s*(#[0-9a-f]{6})", rules))


def luminance(colour):
    parts = [int(colour[at : at + 2], 16) / 255 for at in (1, 3, 5)]
    red, green, blue = (it / 12.92 if it <= 0.03928 else ((it + 0.055) / 1.055) ** 2.4 for it in parts)
    return 0.2126 * red + 0.7152 * green + 0.0722 * blue


def contrast(one, other):
    low, high = sorted((luminance(one), luminance(other)))
    return (high + 0.05) / (low + 0.05)


def table(style):
    """Each theme, colour and ground with its contrast and the least that it needs."""
    for theme, found in themes(style).items():
        for names, grounds, least in ((INKS, GROUNDS, LEAST), (SIGNS, ["ground", "card", "band"], LEAST_OF_SIGNS)):
            for name in names:
                for ground in grounds:
                    yield theme, name, ground, contrast(found[name], found[ground]), least
