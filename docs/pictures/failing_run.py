#!/usr/bin/env python3
"""Draws a terminal in which a run fails and is explained: docs/pictures/failing_run.py PROGRAM > docs/pictures/failing_run.svg

The text is what the program prints. tests/test_documents.py compares the picture with it.
"""

import html
import os
import subprocess
import sys

HOME = os.path.dirname(os.path.dirname(os.path.dirname(os.path.realpath(__file__))))
ARGUMENTS = ["--explain", "examples/paint.feature"]
# In pixels: a character, a line, and the space around the text.
COLUMN, ROW, MARGIN, BAR = 7.8, 19, 18, 30
HEAD = """<svg xmlns="http://www.w3.org/2000/svg" viewBox="0 0 {width} {height}" width="{width}" height="{height}" role="img">
<title>{title}</title>
<rect x="0.5" y="0.5" width="{inner_width}" height="{inner_height}" rx="8" fill="#161b22" stroke="#6e7681"/>
<g fill="#6e7681"><circle cx="20" cy="16" r="5"/><circle cx="38" cy="16" r="5"/><circle cx="56" cy="16" r="5"/></g>
<g font-family="ui-monospace, SFMono-Regular, Menlo, Consolas, 'DejaVu Sans Mono', monospace" font-size="13" fill="#e6edf3">
"""


def text_line(number, text):
    """Returns a line of the terminal, as wide as its characters whatever the font. The command is bold."""
    start = len(text) - len(text.lstrip(" "))
    weight = ' font-weight="bold"' if text.startswith("$ ") else ""
    x, y, length = MARGIN + start * COLUMN, BAR + MARGIN + number * ROW, (len(text) - start) * COLUMN
    shown = html.escape(text.strip(), quote=False).replace(" ", "&#160;")
    return f'<text x="{x:g}" y="{y}" textLength="{length:g}"{weight}>{shown}</text>\n'


def picture(lines):
    """Returns the picture of a terminal with these lines."""
    width = round(2 * MARGIN + COLUMN * max(map(len, lines)))
    height = BAR + MARGIN + ROW * len(lines)
    head = HEAD.format(width=width, height=height, inner_width=width - 1, inner_height=height - 1, title=html.escape(lines[0]))
    return head + "".join(text_line(number, line) for number, line in enumerate(lines) if line) + "</g>\n</svg>\n"


def main():
    done = subprocess.run([sys.argv[1], *ARGUMENTS], cwd=HOME, stdout=subprocess.PIPE, text=True, check=False)
    sys.stdout.write(picture(["$ ./run " + " ".join(ARGUMENTS), *done.stdout.splitlines()]))


if __name__ == "__main__":
    main()
