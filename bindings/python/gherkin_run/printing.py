"""Texts as a terminal and the log of a CI may print them."""

from __future__ import annotations

import re

# Control characters, the separators of lines and paragraphs, the controls of writing direction, and single surrogates.
_CONTROLS = re.compile("[\0-\x1f\x7f-\x9f\u061c\u200e\u200f\u2028-\u202e\u2066-\u2069\ud800-\udfff]")
_SHORT = {"\n": r"\n", "\r": r"\r", "\t": r"\t"}
# What is a command to GitHub or Azure: `::` at the front of a line, and `##[` or `##vso[` anywhere.
_COLONS = re.compile(r"^(\s*:):")
_BRACKET = re.compile(r"(##\w*)\[")


def printable(text: str) -> str:
    r"""Escapes control characters and commands of a CI: a line feed is `\n`, an escape `\u{1b}`, and `##[` is `##\x5b`."""
    escaped = _CONTROLS.sub(lambda found: _SHORT.get(found[0]) or f"\\u{{{ord(found[0]):x}}}", text)
    return _BRACKET.sub(r"\1\\x5b", _COLONS.sub(r"\1\\x3a", escaped))


def printable_lines(text: str) -> str:
    """Escapes the same in each line. The line feeds stay."""
    return "\n".join(map(printable, text.split("\n")))
