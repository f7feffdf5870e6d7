"""Edits that the checker must refuse, and the functions that they change.

An edit changes the code of a crate in one place. It is a file NAME.edit, in crates/CRATE/must-fail/ or in tests/edits/CRATE/.
Its lines are `why: ` (what it breaks), `by: ` (the call and the clauses that refuse it), and then `file: `, `old: ` and `new: `.
There may be more pairs of `old: ` and `new: `; each is made after those above it.
"""

import collections
import functools
import glob
import os
import re
import sys

import driver
from driver import HOME

sys.path.append(os.path.join(HOME, "tools"))
import build
import read

FUNCTION = re.compile(r'( *)(?:pub(?:\(\w+\))? )?(?:const )?(?:extern "C" )?fn (\w+)')
OWNER = re.compile(r"(?:pub )?(?:impl|trait)(?:<.*?>)? (?:(\w+)(?:<.*?>)? for )?\W*(\w+)")
CONSTANT = re.compile(r"^(?:pub )?(?:const|static) (\w+)", re.M)
# A call: after its type or module, after what comes before a dot, or by its name alone.
CALL = re.compile(r"(?:(\w+)::|([\w)\]?]+)\s*\.\s*)?\b(\w+)(?:::<[^()]*>)?\(")
# What an implementation puts into the contracts of its trait, by a name.
TRAIT_ITEM = re.compile(r"^    ghost \w+ = \{ (\w+) \};", re.M)

# `last` is the number of its last line, and `text` all of it.
Function = collections.namedtuple("Function", "path owner name first last text")
# Its name, its line `by:`, and its pairs: a file, a text of it, and the text that it becomes.
Edit = collections.namedtuple("Edit", "name by pairs")


def files_of(crate):
    """The files of a crate's edits: those of its must-fail/, and the others."""
    return [sorted(glob.glob(f"{it}/*.edit", root_dir=HOME)) for it in (f"crates/{crate}/must-fail", f"tests/edits/{crate}")]


def crates():
    """The crates that have edits, lowest first. An edit of another folder is an error."""
    there = {re.match(r"(?:crates|tests/edits)/(\w+)/", it)[1] for it in driver.repository_files() if it.endswith(".edit")}
    return sorted(there, key=[*build.listed_crates()].index)


def read_edit(path):
    """An edit. A file of another form is an error."""
    words = [line.partition(": ")[::2] for line in driver.text(path).splitlines()]
    words = [(word.removesuffix(":"), it) for word, it in words]
    order = " ".join(word for word, it in words if it or word == "new")
    if not re.fullmatch("why by(?: file(?: old new)+)+", order) or len(order.split()) < len(words):
        raise ValueError("its lines aren't why:, by:, file:, old: and new:")
    pairs, file, old = [], "", ""
    for word, it in words[2:]:
        file, old = (it if word == "file" else file), (it if word == "old" else old)
        pairs += [(file, old, it)] * (word == "new")
    return Edit(os.path.basename(path)[:-5], words[1][1], pairs)


def names_in(by):
    """The names in a line `by:`."""
    return re.findall(r"`([\w:]+)`", by)


def with_edits(texts, edits):
    """The files that edits change, as they are then. Each text has to be there once."""
    changed = {}
    for edit, (file, old, new) in ((it, pair) for it in edits for pair in it.pairs):
        text = changed.get(file, texts.get(file, ""))
        if text.count(old) != 1:
            raise ValueError(f"{edit.name}: this text is in {file} {text.count(old)} times: {old}")
        changed[file] = text.replace(old, new)
    if changed == {it: texts[it] for it in changed}:
        raise ValueError(f"{edits[0].name}: it changes nothing")
    return changed


def functions(path, text):
    """The functions of a file: each ends at the brace in its own column, or at a semicolon if it has no body."""
    lines, owner = text.split("\n"), None
    for number, line in enumerate(lines):
        owner = OWNER.match(line) or (None if line.startswith("}") else owner)
        found = FUNCTION.match(line)
        if found:
            margin, last = found[1], number
            ends = re.compile(rf"{margin}(?:\S.*[}};]|\}})$|.*\}};$")
            while not ends.match(lines[last]):
                if re.match(rf"{margin}(?:\S.*)?\{{$", lines[last]):
                    ends = re.compile(rf"{margin}\}}$")
                last += 1
            yield Function(path, owner and owner.groups(), found[2], number, last, "\n".join(lines[number:last + 1]))


def called(function):
    return f"{function.owner[1]}::{function.name}" if function.owner else function.name


def meant(functions_of_name, caller, of_type, before):
    """Those functions of a name that a call may mean, by its type or module, or by what is before its dot."""
    of_type = caller.owner[1] if caller.owner and "self" in (of_type.lower(), before) else of_type or before
    methods = [it for it in functions_of_name if it.owner]
    of_this = [it for it in methods if of_type.replace("_", "").lower() in [part and part.lower() for part in it.owner]]
    is_method = before or of_type[:1].isupper()
    return (of_this or methods) if is_method else [it for it in functions_of_name if not it.owner]


def clauses(function):
    """The names of what a function ensures and requires. One without a name is empty."""
    return [name or "" for _, _, name, _ in read.CLAUSE.findall(contract(function))]


def contract(function):
    """The lines of a function between its first and its body."""
    lines = function.text.split("\n")
    margin = re.match(" *", lines[0])[0]
    end = next((at for at, it in enumerate(lines) if it == f"{margin}{{"), 0)
    return "\n".join(lines[1:end])


class Crate:
    """The code of a crate of the repository or of a copy, and which of its functions call which."""

    def __init__(self, name, home=HOME):
        self.name, self.folder = name, build.crate(name, home)
        paths = sorted(glob.glob("src/**/*.rt", root_dir=self.folder, recursive=True))
        self.texts = {it: driver.text(it, self.folder) for it in paths}
        self.functions = [it for path, text in self.texts.items() for it in functions(path, text)]
        self.callers, named = {it: [] for it in self.functions}, collections.defaultdict(list)
        for it in self.functions:
            named[it.name].append(it)
        for caller in self.functions:
            calls = (it for it in CALL.findall(caller.text) if it[2] in named)
            found = (it for of_type, before, name in calls for it in meant(named[name], caller, of_type, before))
            for it in dict.fromkeys(it for it in found if it != caller):
                self.callers[it].append(caller)

    def changed(self, edit):
        """The functions that an edit changes; if it changes a constant, those that name it."""
        found, texts = [], dict(self.texts)
        for file, old, new in edit.pairs:
            before, _, after = texts[file].partition(old)
            # A line stays a line, so it is where it was.
            at, texts[file] = before.count("\n"), before + new + after
            inside = [it for it in self.functions if it.path == file and it.first <= at <= it.last]
            constant = None if inside else CONSTANT.search(self.texts[file].split("\n\n")[before.count("\n\n")])
            found += inside or [it for it in self.functions if constant and re.search(rf"\b{constant[1]}\b", it.text)]
        return [*dict.fromkeys(found)]

    def called(self, names):
        """The functions that have one of these names, with or without their types."""
        return [it for it in self.functions if {it.name, called(it)} & {*names}]

    def named(self, by):
        """The functions that a line `by:` names, or whose contracts have a definition that it names."""
        words = {*names_in(by)}
        return self.called(words) or [
            it for it in self.functions
            if {*re.findall(r"\w+", it.text), *(TRAIT_ITEM.findall(self.texts[it.path]) if it.owner and it.owner[0] else [])} & words]

    def way(self, function, tops):
        """The shortest way from a function through callers up to one of some functions, without the first, or None."""
        ways, seen = [[function]], {function}
        for way in ways:
            if way[-1] in tops:
                return way[1:]
            ways += [[*way, it] for it in self.callers[way[-1]] if it not in seen]
            seen.update(self.callers[way[-1]])
        return None

    def groups(self, edits):
        """The edits in groups, by first fit: no two of a group change one function, and all their texts are there."""
        found = []
        for it in edits:
            for group in found:
                if all(not {*self.changed(it)} & {*self.changed(other)} for other in group) and self.fits(group, it):
                    group.append(it)
                    break
            else:
                found.append([it])
        return found

    def fits(self, group, edit):
        """Whether an edit can be made after those of a group."""
        try:
            return bool(with_edits(self.texts, [*group, edit]))
        except ValueError:
            return False

    def by_trouble(self, edit):
        """What is wrong with the line `by:` of an edit, or nothing."""
        rest = edit.by
        for call, listed in re.findall(r"`([\w:]+)`: ((?:`\w+`(?:, | and )?)+)", edit.by):
            known = {clause for it in self.called([call]) for clause in clauses(it)}
            missing = [it for it in re.findall(r"`(\w+)`", listed) if it not in known]
            if missing:
                return f"`{call}` has no clause `{missing[0]}`"
            rest = rest.replace(listed, "")
        missing = [it for it in re.findall(r"`([\w:]+)`", rest) if not {*it.split("::")} <= self.words]
        if missing:
            return f"nothing is called `{missing[0]}`"
        if not any(self.way(it, self.named(edit.by)) is not None for it in self.changed(edit)):
            return f"what it changes isn't called by what `by:` names: {edit.by}"
        return ""

    @functools.cached_property
    def words(self):
        """The words of its code and of its definitions."""
        specs = (driver.text(it, self.folder) for it in glob.glob("specs/**/*.antt", root_dir=self.folder, recursive=True))
        return {it for text in (*self.texts.values(), *specs) for it in re.findall(r"\w+", text)}


def troubles(crate):
    """What is wrong with each edit of a crate, or nothing."""
    code = Crate(crate)
    for path in sum(files_of(crate), []):
        try:
            edit = read_edit(path)
            with_edits(code.texts, [edit])
            found = code.by_trouble(edit)
        except ValueError as error:
            found = str(error)
        yield f"{path}: {found}" if found else ""
