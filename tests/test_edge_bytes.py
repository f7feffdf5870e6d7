"""Names and arguments that end in a byte that is easily lost, or begin with one.

The bytes are 1 to 32 and 127. The program takes each name and each argument as it is given. What has to
come out is on the page edge_bytes.md, by these rules, and not taken from the program: a fault has a name as it is
given; progress has a line feed of it as `\\n`; an explanation and a finding have each control character of it
escaped; JSON has it with JSON's escapes.

In each folder is a file `a`, too. A name without its first or its last byte is usually that of this file.
"""

import re
import shlex

import blocks
import driver
from builder import run_of_block, troubles
from checks import Checks
from reports import one_line

BYTES = (*range(1, 33), 127)
# The escapes of control characters that have a letter in an explanation.
SHOWN = {"\t": "\\t", "\n": "\\n", "\r": "\\r"}


def edged(byte, text):
    """A text with this byte at its beginning, at its end, and at both."""
    end = chr(byte)
    return [end + text, text + end, end + text + end]


def shown(text):
    """A text as it is in a line of an explanation or of a finding."""
    return re.sub(r"[\x00-\x1f\x7f]", lambda it: SHOWN.get(it[0], f"\\u{{{ord(it[0]):x}}}"), text)


def runs():
    """A run of each block with each text of its heading. An option has its value in the next argument, and in its own."""
    page = list(blocks.runs(driver.text("tests/edge_bytes.md")))
    for byte in BYTES:
        texts = {"Tags": edged(byte, "@a"), "Formats": edged(byte, "plain"), "Lines": edged(byte, "2"),
                 "Ends of options": [chr(byte)], "Beginnings of options": [chr(byte)]}
        for heading, files, block in page:
            for text in texts.get(heading, [*edged(byte, "a"), chr(byte)]):
                for form in (" ", "=") if r"\{form}" in block.text else [""]:
                    names = {"text": text, "form": form, "quote": shlex.quote, "shown": shown, "in_a_line": one_line}
                    yield run_of_block(files, block, names)


class EdgeBytes(Checks):
    def test_each_byte(self):
        self.check_all(troubles(self.room, runs()))
