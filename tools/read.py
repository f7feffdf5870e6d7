#!/usr/bin/env python3
"""Prints pages about the crates: tools/read.py COMMAND [CRATE..]

    edits         the must-fail edits: what each breaks, and the clause that refuses it
    definitions   the definitions of specs/ in reading order; with --code their code, too
    claims        the public functions in the order of lib.rt, with their clauses

The pages are Markdown. Without CRATE they have every crate that has contracts.
"""

import glob
import itertools
import os
import re
import signal
import sys
import textwrap
from types import SimpleNamespace

HOME = os.path.dirname(os.path.dirname(os.path.realpath(__file__)))
MACHINERY = "Proof machinery"
# At the beginning of a line, or indented below a common parameter, as in tests/test_documents.py; or several that need each other.
DEFINITION = re.compile(r"(?:\s*(?:(?:abbrev|unfoldable) )+pub |pub (?!mod\b|use\b)|\s+pub (?=record |data ))(?:record |data )?(\S+)|abbrev mutual")
OWNER = re.compile(r"(?:pub )?(?:(trait)|impl(?:<.*?>)?(?: ([\w:]+)(?:<.*?>)? for)?) (\w+)")
FUNCTION = re.compile(r'(\s*)(pub )?(?:extern "C" )?fn (\w+)')
CLAUSE = re.compile(r"((?:^ *//[^\n]*\n)*)^ *(ensures|requires) (\w+)? ?\{(.*?)\}(?=;?\s*?(?:^ *(?://|ensures|requires|\{)|\Z))", re.M | re.S)


def text_of(path):
    with open(os.path.join(HOME, path), encoding="utf-8") as file:
        return file.read()


def lines_of(path):
    return text_of(path).split("\n")


def files(*patterns):
    return [os.path.relpath(it, HOME) for pattern in patterns for it in sorted(glob.glob(os.path.join(HOME, pattern)))]


def item(text, indent=""):
    """An item of a list, in lines for a terminal."""
    return textwrap.fill(text, 100, initial_indent=f"{indent}- ", subsequent_indent=f"{indent}  ",
                         break_long_words=False, break_on_hyphens=False)


def joined(lines):
    """The text of the lines of a comment."""
    return " ".join(re.sub(r"^\s*(?:--|/+) ?", "", it) for it in lines)


def comment_above(lines, number, mark):
    """The text of the comment that ends right above a line, attributes aside."""
    end = number
    while number > 0 and lines[number - 1].lstrip().startswith((mark, "#[")):
        number -= 1
    return joined(it for it in lines[number:end] if it.lstrip().startswith(mark))


def first_sentence(text):
    return re.split(r"(?<=[.])\s+(?=[A-Z`(])", text, maxsplit=1)[0]


# ---- edits

def edits(crate, _):
    for folder, tried in ((f"crates/{crate}/must-fail", "Tried by `./test`:"),
                          (f"tests/edits/{crate}", "Tried by `tests/edits.py`:")):
        yield tried
        for path in files(f"{folder}/*.edit"):
            why, by = (line.split(": ", 1)[1] for line in lines_of(path)[:2])
            yield item(f"`{os.path.basename(path)[:-5]}`: {why}. Refused by {by}.")


# ---- definitions

def spec_files(crate):
    """The files of specs/ in reading order, each with whether it is machinery of the proofs."""
    below = False
    for line in lines_of(f"crates/{crate}/specs/Lib.antt"):
        below = line.startswith(f"-- {MACHINERY}") if line.startswith("--") else below
        if line.startswith("pub mod "):
            name = f"crates/{crate}/specs/{line.split()[2]}"
            for path in files(f"{name}.antt", f"{name}/*.antt"):
                yield path, below or lines_of(path)[0].startswith(f"-- {MACHINERY}")


def block_from(lines, number):
    """The code of a definition: up to an empty line, or, of several that need each other, all that is indented."""
    end = re.compile(r"\S" if lines[number] == "abbrev mutual" else r"\s*$")
    return "\n  ".join([lines[number], *itertools.takewhile(lambda it: not end.match(it), lines[number + 1:])]).rstrip()


def definitions_in(lines, code):
    """The definitions of a file: the text of each, and whether it is machinery of the proofs."""
    rest = False
    for number, line in enumerate(lines):
        rest = rest or bool(re.match(rf"\s*-- {MACHINERY},? from here on", line))
        found = DEFINITION.match(line)
        if found:
            comment, block = comment_above(lines, number, "--"), block_from(lines, number)
            names = [found.group(1)] if found.group(1) else re.findall(r"^ *pub (\S+)", block, re.M)
            text = item(f"{', '.join(f'`{it}`' for it in names)}: {comment}")
            yield text + (f"\n\n  ```\n  {block}\n  ```" if code else ""), rest or MACHINERY in comment


def definitions(crate, code):
    last = []
    for path, all_machinery in spec_files(crate):
        lines = lines_of(path)
        heading = joined(lines[:next(number for number, line in enumerate(lines) if not line.startswith("--"))])
        title = first_sentence(heading)
        page = [f"## {title.rstrip('.')} ({path.removeprefix('crates/')})", textwrap.fill(heading[len(title):].strip(), 100)]
        texts = list(definitions_in(lines, code))
        page += [text for text, is_machinery in texts if all_machinery or not is_machinery]
        rest = [text for text, is_machinery in texts if is_machinery and not all_machinery]
        last += page if all_machinery else [f"## More of {os.path.basename(path)}", *rest] if rest else []
        yield from [] if all_machinery else page
    yield from [f"# {crate}: {MACHINERY.lower()}", *last] if last else []


# ---- claims

def functions(path):
    """The functions of a file, with their types or traits, and the traits that these types have."""
    lines, owner, module = lines_of(path), None, path.split("/")[3].removesuffix(".rt")
    for number, line in enumerate(lines):
        owner = OWNER.match(line) or (None if line.startswith("}") else owner)
        found = FUNCTION.match(line)
        if found:
            margin, public, name = found.groups()
            trait, of, of_type = owner.groups() if owner else (None, None, None)
            end = next(it for it in range(number, len(lines)) if re.match(rf"{margin}(?:\{{|\S.*[{{}}]$)|(?! *//).*;$", lines[it]))
            clauses = CLAUSE.findall("\n".join(lines[number + 1:end + 1]))
            yield SimpleNamespace(module=module, owner=of_type, of=of, name=name, doc=comment_above(lines, number, "///"),
                                  clauses=clauses, is_public=bool(public or trait or of and clauses))


def exported(crate):
    """The modules and the names that a crate exports. `*` means all documented functions of a module."""
    for path in files(f"crates/{crate}/src/lib.rt", f"crates/{crate}/src/main.rt"):
        text = text_of(path)
        mods = re.findall(r"^pub mod (\w+);" if path.endswith("lib.rt") else r"^mod (\w+);", text, re.M)
        yield from ((it, "*") for it in [os.path.basename(path)[:-3], *mods])
        for module, names in re.findall(r"^pub use (\w+)::(\w+|\{[^}]*\});", text, re.M):
            yield from ((module, it) for it in re.findall(r"\w+", names))


def is_meant(function, module, name):
    """Whether a function is one of those that `name`, exported from a module, means."""
    if name == "*":
        return function.module == module and bool(function.doc or function.of and function.is_public)
    return function.is_public and (name == function.owner or not function.owner and (module, name) == (function.module, function.name))


def described(function):
    """A function as an item of a list, with its clauses below it."""
    name = f"{function.owner}::{function.name}" if function.owner else function.name
    found = [item(f"`{name}`: " + (first_sentence(function.doc) or f"The function of `{function.of}`."))]
    for comment, kind, own, code in function.clauses:
        said = joined(comment.strip().split("\n")) or ("" if own else f"`{' '.join(code.split())}`")
        found.append(item(kind + (f" `{own}`" if own else "") + (f": {said}" if said else ""), "  "))
    return "\n".join(found)


def claims(crate, _):
    left = [it for path in files(f"crates/{crate}/src/*.rt", f"crates/{crate}/src/*/*.rt") for it in functions(path)]
    for module, name in exported(crate):
        yield from (described(it) for it in left if is_meant(it, module, name))
        left = [it for it in left if not is_meant(it, module, name)]


# ---- all of it

COMMANDS = {"edits": edits, "definitions": definitions, "claims": claims}


def main(command="", *words):
    signal.signal(signal.SIGPIPE, signal.SIG_DFL)
    there = [it.split("/")[1] for it in files("crates/*/specs/Lib.antt")]
    there.sort(key=[re.match(r"\w*", line).group() for line in lines_of("crates.txt")].index)
    asked = [it for it in words if it != "--code"]
    unknown = [it for it in asked if it not in there]
    if command not in COMMANDS or unknown:
        print(f"read.py: no crate {unknown[0]} with contracts" if command in COMMANDS else __doc__, file=sys.stderr)
        return 2
    for crate in asked or there:
        print(f"# {crate}: {command}\n")
        for text in COMMANDS[command](crate, "--code" in words):
            print(text, end="\n\n" if text else "")
    return 0


if __name__ == "__main__":
    sys.exit(main(*sys.argv[1:]))
