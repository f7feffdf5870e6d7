"""Fenced blocks of pages: the files and the commands in them, and the escapes of a block that says `escaped`.

An info string is a kind, the word `escaped` if the block has escapes, and the name of a file. Escapes are `\\\\`,
`\\t`, `\\r`, `\\n`, `\\s` for a space, `\\xHH` for a byte, `\\u{HEX}` for a character, a backslash at the end of a line,
which joins it with the next one, and repeated texts: `\\{9*TEXT}`, and `\\{2..9*TEXT}` from 2 on, have TEXT for each
number, with the number for `#`.
"""

import collections
import os
import re

import driver

# The line of its fence, the words before the name in its info string, that name if any, and the text as on the page.
Block = collections.namedtuple("Block", "line kind name text")
FENCE = re.compile(r"(`{3,})([^`]*)$")
INFO = re.compile(r"(\w*(?: escaped)?) ?(.*)")
ESCAPE = re.compile(r"\\(?:\{(?:(\d+)\.\.)?(\d+)\*([^}]*)\}|x([0-9a-f]{2})|u\{([0-9a-f]+)\}|([\\trns\n]))")
# A line after `$ `, with the lines that backslashes join to it.
COMMAND = re.compile(r"^\$ ((?:.*\\\n)*.*)\n", re.MULTILINE)
CHARACTERS = {"\\": "\\", "t": "\t", "r": "\r", "n": "\n", "s": " ", "\n": ""}
FILES = ("gherkin", "text", "python", "ini", "js", "sh", "c")  # the kinds of blocks that are files


def parts(page):
    """The headings of a page, as pairs of a level and a text, and its blocks, in order."""
    block, marks, text = None, "", []
    for number, line in enumerate(page.split("\n"), 1):
        fence = FENCE.match(line)
        if block is None and fence:
            kind, name = INFO.fullmatch(fence[2].rstrip()).groups()
            block, marks, text = Block(number, kind, name, ""), fence[1], []
        elif block is None and line.startswith("#"):
            level, _, heading = line.partition(" ")
            yield len(level), heading
        elif block is not None and line.strip() == marks:
            yield block._replace(text="".join(text))
            block = None
        elif block is not None:
            text.append(line + "\n")
    if block:
        raise ValueError(f"line {block.line}: a block without an end")


def blocks(page):
    """The blocks of a page."""
    return (it for it in parts(page) if isinstance(it, Block))


def texts(page, kind):
    """The blocks of this kind without a name, on a page of docs/guide/."""
    page = driver.read(os.path.join(driver.HOME, "docs", "guide", page)).decode()
    return [it.text for it in blocks(page) if (it.kind, it.name) == (kind, "")]


def shown(page):
    """The texts of the files that a page of tests/ shows, by their names."""
    return {it.name: it.text for it in blocks(driver.read(os.path.join(driver.HOME, "tests", page)).decode()) if it.name}


def runs(page):
    """The console blocks and sessions of Python of a page, each with its heading, and the files below that and those above it."""
    files, names = {}, {}
    for part in parts(page):
        if not isinstance(part, Block):
            level, name = part
            files = {it: own for it, own in files.items() if it < level}
            names = {it: own for it, own in names.items() if it < level} | {level: name}
        elif is_file(part):
            files.setdefault(max(names), {})[part.name] = bytes_of(part)
        elif part.kind.startswith(("console", "pycon")):
            merged = {name: text for level in sorted(files) for name, text in files[level].items()}
            yield names[max(names)], merged, part
        else:
            raise ValueError(f"line {part.line}: a block that is neither a file nor a run")


def without_blocks(page):
    """A page without its blocks. Their lines are left empty."""
    lines = page.split("\n")
    for block in blocks(page):
        last = block.line + block.text.count("\n") + 1
        lines[block.line - 1:last] = [""] * (last - block.line + 1)
    return "\n".join(lines)


def is_file(block):
    return block.kind.removesuffix(" escaped") in FILES and block.name != ""


def bytes_of(block):
    return unescaped(block.text) if block.kind.endswith(" escaped") else block.text.encode()


def unescaped(text):
    return ESCAPE.sub(meant, text).encode("utf-8", "surrogateescape")


def meant(escape):
    first, last, repeated, byte, character, letter = escape.groups()
    if last and "#" not in repeated:
        return ESCAPE.sub(meant, repeated) * (int(last) - int(first or 1) + 1)
    if last:
        return "".join(ESCAPE.sub(meant, repeated.replace("#", str(it))) for it in range(int(first or 1), int(last) + 1))
    if byte:
        return bytes.fromhex(byte).decode("utf-8", "surrogateescape")
    return chr(int(character, 16)) if character else CHARACTERS[letter]


def commands(block):
    """The commands of a console block, as bytes, each with what is below it."""
    is_escaped = block.kind.endswith(" escaped")
    found = [unescaped(it) if is_escaped else it.encode() for it in COMMAND.split(block.text)]
    return list(zip(found[1::2], found[2::2]))
