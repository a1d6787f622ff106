#!/usr/bin/env python3
"""Writes the page as one file: embed.py MODULE.wasm OUT.html. It puts into page.html the style sheet and the scripts that it names, and
the module in base64."""
import base64
import re
import sys
from pathlib import Path

HERE = Path(__file__).resolve().parent


def script(found):
    """A script's tag with the text of the files that it names."""
    text = "".join((HERE / name).read_text() for name in found[2].split())
    if "</script" in text:
        sys.exit(f"embed.py: a script of {found[2]} ends its own tag")
    return f"<script{found[1]}>\n{text}</script>"


def main(module, out):
    page = (HERE / "page.html").read_text()
    page = re.sub(r'<link rel="stylesheet" href="(.*?)">', lambda found: f"<style>\n{(HERE / found[1]).read_text()}</style>", page)
    page = re.sub(r'<script([^>]*?) src="(.*?)"></script>', script, page)
    place = '<script type="text/plain" id="module">'
    if page.count(place) != 1 or re.search(r'\b(src|href)="', page):
        sys.exit("embed.py: page.html names a file that is not embedded, or has no place for the module")
    page = page.replace(place, place + base64.b64encode(Path(module).read_bytes()).decode())
    Path(out).write_text(page)


main(*sys.argv[1:])
