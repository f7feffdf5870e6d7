#!/usr/bin/env python3
"""What the sources should have less of: tests/shape.py prints the places, and test_sources.py compares their counts.

CHECKS names what is counted, and the function of each check says which places it counts. The file
tests/shape.limits has the limit of each count, a name and a number a line. A count has to be the
limit: one that is above it has to come down again, and one that is below it lowers the limit.
"""

import collections
import itertools
import os
import re

import driver

WIDTH = 100  # columns of a contract line
ARGUMENTS = 7  # of a function that isn't public
SHARED = 10  # lines that two places may not share
# Modules that have no specification by their kind. What laws say is in the specifications of their subjects.
ROOTS = ("lib", "main", "laws")
BEGINS_LEFT_OUT = re.compile(r"(pub )?(ghost )?use\b|(pub )?(const|static) \w+: \[.*\] = \[$")
WORKED_EXAMPLES = re.compile(r"crates/gk_examples/.*")
# Words that a line's shape keeps.
KEYWORDS = frozenset("""
    fn pub let match if else for while return in ensures requires where abbrev record data
    rw simp cc omega auto Ok Err Some None self mut
""".split())

Place = collections.namedtuple("Place", "path line text")


# ---- sources

def files(pattern):
    """The files of the repository whose whole paths fit a pattern."""
    return [it for it in driver.repository_files() if re.fullmatch(pattern, it)]


CODE = files("crates/[^/]+/src/.*[.]rt")
SOURCES = files("crates/.*[.](rt|antt)")


def lines_of(path):
    return driver.text(path).split("\n")


def without_literals(line):
    """A line of code without what stands in its strings and characters, and without its comment."""
    line = re.sub(r'"(\\.|[^"\\])*"', '""', line)
    line = re.sub(r"'(\\.[^']*|[^'\\])'", "''", line)
    return re.sub(r"//.*", "", line)


# ---- contract lines

CLAUSE = re.compile(r"\s*(ensures|requires|(ghost )?invariant)\b")


def contract_lines(path):
    """The lines of the clauses of a file, with their numbers. A clause ends where its braces are closed."""
    clause = ""
    for number, line in enumerate(lines_of(path), 1):
        if clause or CLAUSE.match(line):
            yield number, line
            clause += without_literals(line)
            if "{" in clause and clause.count("{") <= clause.count("}"):
                clause = ""


def wide_contract_lines():
    """Lines of contracts of more than WIDTH columns."""
    for path in CODE:
        for number, line in contract_lines(path):
            if len(line) > WIDTH:
                yield Place(path, number, f"{len(line)} columns")


# ---- arguments

FUNCTION = re.compile(r"^[ \t]*(?P<before>(?:[a-z]+(?:\([a-z]+\))? )*)fn (?P<name>\w+)", re.MULTILINE)
MARK = re.compile(r"[(\[{<]|[)\]}]|(?<![-=])>|(?<!:):(?!:)")


def count_arguments(text, start):
    """The number of arguments of a function whose name ends there, except self. Each has a colon in the parentheses."""
    depth = count = 0
    for mark in (it[0] for it in MARK.finditer(text, start)):
        if mark == "(" and depth == 0:
            # What was counted before are bounds of types.
            count = 0
        depth += (mark in "([{<") - (mark in ")]}>")
        count += mark == ":" and depth == 1
        if mark == ")" and depth == 0:
            return count
    raise ValueError(f"a list without end: {text[start:start + 80]}")


def long_argument_lists():
    """Functions that aren't public, with more than ARGUMENTS arguments aside from self."""
    for path in CODE:
        text = "\n".join(without_literals(line) for line in lines_of(path))
        for found in FUNCTION.finditer(text):
            count = count_arguments(text, found.end())
            if "pub" not in found["before"].split() and count > ARGUMENTS:
                line = text.count("\n", 0, found.start("name")) + 1
                yield Place(path, line, f"{found['name']} has {count} arguments")


# ---- modules and their specifications

def modules_without_spec():
    """Modules of src/ for which specs/ has no file of the same name."""
    for path in files(r"crates/\w+/src/\w+[.]rt"):
        crate, name = path.removesuffix(".rt").split("/src/")
        is_specified = f"{crate}/specs/{name.title().replace('_', '')}.antt" in SOURCES or name in ROOTS
        if not is_specified and files(f"{crate}/specs/.*"):
            yield Place(path, 1, "no file of specs/")


# ---- lines of one shape

def shape(line):
    """A line with its names, strings and numbers put aside."""
    line = re.sub(r'"(\\.|[^"\\])*"', '"', line)
    line = re.sub(r"\b\d[\d_]*\b", "0", line)
    return re.sub(r"[A-Za-z_][A-Za-z0-9_']*", lambda it: it[0] if it[0] in KEYWORDS else "n", line)


def shapes_of(path):
    """The numbers and shapes of the lines of a file, without imports, comments, constants that are tables, and lines without letters."""
    is_left_out = False
    for number, line in enumerate(lines_of(path), 1):
        line = line.strip()
        is_left_out = is_left_out or BEGINS_LEFT_OUT.match(line) is not None
        if is_left_out:
            is_left_out = path.endswith(".rt") and not line.endswith(";")
        elif re.search(r"[A-Za-z]", line) and not line.startswith(("//", "--", "#!")):
            yield number, shape(line)


def sharing_pairs(files):
    """The pairs of places, each a path and an index, that share SHARED lines of one shape and don't overlap. Lines of a
    few shapes that come again and again, as those of a table, aren't counted."""
    found = collections.defaultdict(list)
    for path, lines in files.items():
        for at in range(len(lines) - SHARED + 1):
            window = tuple(it for _, it in lines[at:at + SHARED])
            if len(set(window)) >= SHARED // 2:
                found[window].append((path, at))
    return {(*one, *other) for places in found.values() for one, other in itertools.combinations(places, 2)
            if one[0] != other[0] or abs(one[1] - other[1]) >= SHARED}


def repeated_places():
    """Pairs of places that share SHARED or more lines of one shape, each counted once, whole."""
    shapes = {path: list(shapes_of(path)) for path in SOURCES if not WORKED_EXAMPLES.fullmatch(path)}
    pairs = sharing_pairs(shapes)
    for one, at, other, place in sorted(pairs):
        if (one, at - 1, other, place - 1) in pairs:
            continue
        length = SHARED
        while (one, at + length - SHARED + 1, other, place + length - SHARED + 1) in pairs:
            length += 1
        yield Place(one, shapes[one][at][0], f"{length} lines as at {other}:{shapes[other][place][0]}")


# ---- walks over scenarios

def walks_over_scenarios():
    """Places of the linter that take the scenarios of a feature or a rule. Its one walk, `scenarios_of`, has two."""
    for path in files("crates/gk_lint/src/.*[.]rt"):
        for number, line in enumerate(lines_of(path), 1):
            if re.search(r"\.scenarios\b", without_literals(line)):
                yield Place(path, number, line.strip())


# ---- all of it

CHECKS = (wide_contract_lines, long_argument_lists, modules_without_spec, repeated_places, walks_over_scenarios)


def main():
    for check in CHECKS:
        places = list(check())
        print(f"{check.__name__}: {len(places)}", *(f"  {it.path}:{it.line}: {it.text}" for it in places), sep="\n")


if __name__ == "__main__":
    main()
