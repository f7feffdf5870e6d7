"""How the pages for users read: what test_documents.py finds of README.md, docs/guide/, docs/FAULTS.md and the READMEs of folders.

Such a page has sentences of at most 30 words, cells of at most 25, and at most one mark (a word or phrase that sounds
translated) for 1,000 words. Besides tables of tools/tables.py, all have at most 15,850 words, without READMEs of folders
13,700. Every page, those for engineers too, has lines of at most 100 columns outside of tables and fenced blocks, and at
most 200 lines, README.md 120.
"""

import re

COLUMNS, SENTENCE, CELL, MARKS, PAGE_LINES, README_LINES = 100, 30, 25, 1, 200, 120
FAULTS = "docs/FAULTS.md"  # is looked up, and may be longer
# The words of README.md, docs/guide/ and docs/FAULTS.md together, and those with the READMEs of folders.
MAIN_WORDS, ALL_WORDS = 13700, 15850
FOREIGN = re.compile("|".join([
    r"\b[Ww]here (?:it|there|they|one|none|no|nothing|an?|the|that|this|each|all|what|memory|something|you|its|their)\b",
    r"\b(?:stands?|stood|standing|mend(?:s|ed)?|answer(?:s|ed)?|blanks?|besides|mostly|likewise|whereof)\b",
    r"\bbut for\b", r"(?<![-\w])else\b(?! if)", r"\bso many\b", r"\bas many as\b", r"\bfor want of\b", r"\bwant of memory\b",
    r"\bwho(?:ever)? (?:wants|knows|comes|reads|writes|calls)\b", r"\bof (?:its|their|your) own\b", r"\bin turn\b",
    r"\bg(?:iven?|ives|ave) up\b", r"\bhand(?:s|ed)? (?:in|over|out|on)\b", r"\bof wh(?:ich|om)\b", r"\bwhat of\b",
    r"\b(?:that (?:is|are)|isn't|aren't) there\b", r"\bmay (?:stand|come)\b", r"\bearn(?:s|ed)?\b", r"\b(?:is|are) had\b"]))


def plain(text):
    """A text with an X for each piece in code style, and without the targets of its links."""
    return re.sub(r"\[([^\]]*)\]\([^)]*\)", r"\1", re.sub(r"`[^`]*`", "X", text))


def pieces(text):
    """The paragraphs, list items and cells of a page without fenced blocks: each with its line, and whether it is a cell."""
    paragraph, start = [], 0
    for number, line in enumerate([*text.split("\n"), ""], 1):
        line = "" if line.startswith("<!--") else line.strip()
        if paragraph and (not line or line.startswith("|") or re.match(r"#|>|[-*] |\d+\. ", line)):
            yield start, plain(" ".join(paragraph)), False
            paragraph = []
        if line.startswith("|"):
            yield from ((number, plain(cell), True) for cell in line.strip("|").split(" | "))
        elif line:
            start = start if paragraph else number
            paragraph.append(re.sub(r"^(?:#+|>|[-*]|\d+\.) +", "", line))


def long_pieces(text):
    """Sentences and cells with too many words."""
    for number, piece, is_cell in pieces(text):
        lengths = [len(it.split()) for it in re.split(r"(?<=[.:;?!])\s+", piece)]
        if max(lengths) > SENTENCE:
            yield number, f"a sentence of {max(lengths)} words"
        if is_cell and len(piece.split()) > CELL:
            yield number, f"a cell of {len(piece.split())} words"


def words(text):
    return sum(len(piece.split()) for _, piece, _ in pieces(text))


def too_many_words(main, folders):
    """Whether the main pages, and these and the READMEs of folders, have too many words."""
    count = sum(words(re.sub("(?s)<!-- tools/tables.py: .*?<!-- tools/tables.py: end -->", "", it)) for it in main)
    if count > MAIN_WORDS:
        yield f"README.md, docs/guide/ and docs/FAULTS.md have {count} words"
    count += sum(words(it) for it in folders)
    if count > ALL_WORDS:
        yield f"with the READMEs of folders, these pages have {count} words"


def marks(text):
    found = [(number, f"'{it.group()}'") for number, piece, _ in pieces(text) for it in FOREIGN.finditer(piece)]
    return found if 1000 * len(found) > MARKS * max(words(text), 1000) else []


def rows_without_header(text):
    """Rows of tables that follow an empty line and no header, so that they are shown as text."""
    lines = ["", *text.split("\n"), ""]
    for number, (above, line, below) in enumerate(zip(lines, lines[1:], lines[2:]), 1):
        if line.startswith("|") and not above.startswith("|") and not re.fullmatch(r"[|\- ]+", below):
            yield number, "a row without a header"


def too_large(page, text):
    """The lines that are too long, and whether there are too many."""
    lines = text.split("\n")
    for number, line in enumerate(lines, 1):
        if len(line) > COLUMNS and not line.startswith("|"):
            yield number, f"{len(line)} columns"
    most = README_LINES if page == "README.md" else len(lines) if page == FAULTS else PAGE_LINES
    if len(lines) > most + 1:
        yield len(lines), f"more than {most} lines"


def hard_to_read(text):
    """What is hard to read on a page without the texts of its blocks."""
    yield from (*long_pieces(text), *rows_without_header(text), *marks(text))
