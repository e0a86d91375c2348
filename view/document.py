"""One HTML file of a page's data, with its style and its scripts inside."""

import json
import pathlib
import re

ASSETS = pathlib.Path(__file__).resolve().parent / "assets"

# Nothing comes from outside, and nothing goes there.
POLICY = "default-src 'none'; style-src 'unsafe-inline'; script-src 'unsafe-inline'; base-uri 'none'; form-action 'none'"

FRAME = """<!DOCTYPE html>
<html lang="en">
<head>
<meta charset="utf-8">
<meta http-equiv="Content-Security-Policy" content="{policy}">
<meta name="viewport" content="width=device-width, initial-scale=1">
<title>{title}</title>
<style>
{style}</style>
</head>
<body>
<noscript>This page is drawn by its own script, which this browser does not run.</noscript>
<script type="application/json" id="data">{data}</script>
<script>
{script}</script>
</body>
</html>
"""


def asset(name):
    return (ASSETS / name).read_text(encoding="utf-8")


def style():
    return asset("style.css")


# The scripts of each page, in the order in which they run. They share one scope.
SCRIPTS = {
    "derivation": ["shared.js", "core.js", "code.js", "derivation.js"],
    "run": ["shared.js", "events.js", "lanes.js", "run.js"],
    "sends": ["shared.js", "table.js", "boxes.js", "sends.js"],
}


def script(page):
    return '"use strict";\n{\n' + "".join(asset(name) for name in SCRIPTS[page]) + "}\n"


def encoded(data):
    """The data as JSON that no tag can end."""
    text = json.dumps(data, ensure_ascii=False, separators=(",", ":"))
    return text.replace("<", "\\u003c").replace(">", "\\u003e").replace("&", "\\u0026")


def escaped(text):
    """A text between tags."""
    return re.sub(r"[&<>\x00-\x1f\x7f]", lambda found: f"&#{ord(found[0])};" if found[0] in "&<>" else "\ufffd", text)


def write(title, data):
    """The file, as text."""
    return FRAME.format(
        policy=POLICY, title=escaped(title), style=style(), data=encoded(data), script=script(data["page"])
    )
