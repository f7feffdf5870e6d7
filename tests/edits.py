#!/usr/bin/env python3
"""Tries edits that the checker must refuse: tests/edits.py [--jobs N] [--weakened | --check] [CRATE..]

tests/edited.py says what an edit is, and where those of a crate are. Without CRATE it tries those of all crates whose notes, below,
no longer hold. It needs the Rattle toolchain.

First the crate is checked as it is; it has to be proved. Then edits of different functions are made together in a copy, and one
check judges them, as it says of each function which goals aren't proved. If proofs of an edited function no longer fit, they are
taken out, and one more check tries their goals without them. An edit is refused if a goal of a contract is open then, in a
function that it changes or that names the constant that it changes. A goal isn't open if the prover met one of its limits at it,
or if its proof only names what the edit takes away; nor, if its proof no longer fits, while the prover meets a limit at another
proof of the function. It doesn't count if it is one of safety or of a call's `requires`, unless `by:` names that, or of another
clause of this function than those in `by:`. From the function, callers have to lead up to a call that `by:` names.

tests/edits/log has a line for each edit: the function, the clauses and their goals, and the callers up to that call. If all edits of
a crate were refused, tests/edits/refused has a sum of these lines and of all that they depend on: the edits, all files of the
crate's sources and of those below it, these scripts, and the logic of the toolchain, whose build is named, too.
tests/edits/numbers has a line for each crate that has edits: how many are in its must-fail/, and how many in tests/edits/.

--weakened tries the clauses of the headline instead: tests/weakened.py says how. Its lines are in tests/edits/weakened.
--check tries nothing. It fails for each crate that has another number of edits, or no such sums. If another build tried a crate,
it says so on standard error. N checks run side by side, by default one for two processors.
The last line is 'N passed, M failed', which counts edits, with --weakened clauses, with --check crates.
"""

import argparse
import concurrent.futures
import contextlib
import functools
import hashlib
import os
import re
import subprocess
import sys
import tempfile

import checked
import driver
import edited
import weakened
from checked import OPEN
from edited import HOME, build, called, clauses, names_in

NUMBERS, LOG, WEAKENED, REFUSED = (f"tests/edits/{it}" for it in ("numbers", "log", "weakened", "refused"))
SCRIPTS = [f"tests/{it}.py" for it in ("edits", "edited", "checked", "weakened")]
# The goals of safety and of an end, and those of what a call requires.
SAFETY = re.compile(r"(?:overflow|offset|slice|nonzero)_|bounds-|prove-|.*-smaller$")
REQUIRES = re.compile(r"(\w+)-(?:.*-)?requires")


# ---- verdicts

def clause_of(goal):
    """What a goal is of, in words: its clause, if that has a name."""
    requires = REQUIRES.match(goal)
    if requires:
        return f"what {requires[1]} requires"
    if "-clause-" in goal:
        return re.sub(r"-\d+$", "", goal.rpartition("-clause-")[2])
    return {"returns": "its contract", "loop": "a loop", "invariant_of": "an invariant"}.get(goal.split("-")[0], "safety")


def counts(goal, function, edit):
    """Whether an edit may be refused by a goal of a function."""
    requires = REQUIRES.match(goal)
    if SAFETY.match(goal) or requires:
        return edit.by.startswith("safety") or requires and requires[1] in (it.split("::")[-1] for it in names_in(edit.by))
    own = {*names_in(edit.by)} & {*clauses(function)}
    return "-clause-" not in goal or not own or clause_of(goal) in own


def listed(kinds):
    """Goals by their kinds."""
    goals = sorted(kinds)
    return "; ".join(f"{kind} ({', '.join(it for it in goals if kinds[it] == kind)})" for kind in dict.fromkeys(kinds[it] for it in goals))


def line_of(function, goals, way, edit):
    """What the log says of a refused edit."""
    line = f"{called(function)}: " + listed({it: clause_of(it) for it in goals})
    if way:
        named = [it for it in clauses(way[-1]) if it in names_in(edit.by)]
        line += f", for {' <- '.join(map(called, way))}" + f": {', '.join(named)}" * bool(named)
    return line


def verdict(code, edit, said):
    """Whether an edit is refused, and what its line of the log says."""
    tops = code.named(edit.by)
    why = "the crate is proved with it" if said.is_proved else "no goal is open" if said.lines else "the code doesn't compile"
    for function in sorted(code.changed(edit), key=lambda it: it not in tops):
        goals, way = said.goals_of(code, function), code.way(function, tops)
        told = [it for it, kind in goals.items() if kind == OPEN and counts(it, function, edit)]
        if told and way is not None:
            return True, line_of(function, told, way, edit)
        if goals:
            kinds = {it: "another than `by:` names" if kind == OPEN else kind for it, kind in goals.items()}
            why = f"{called(function)}: " + listed(kinds)
    return False, f"NOT REFUSED: {why}"


def judged(proved, edits):
    """Each of these edits with its verdict, by a check of a copy, or by two."""
    code, what = proved.code, f"{len(edits)} edit{'s' * (len(edits) > 1)}"
    with proved.changed(edited.with_edits(code.texts, edits)) as copy:
        said = copy.check(what)
        left = [it for it in edits if not verdict(code, it, said)[0]]
        unfit = said.unfit(code, {function for it in left for function in code.changed(it)})
        if unfit:
            copy.drop([name for name, _ in unfit], lambda *goal: goal in unfit)
            said.renew(unfit, copy.check(f"{what}, without {len(unfit)} proof{'s' * (len(unfit) > 1)}"))
    if not said.lines and len(edits) > 1:
        # One of them doesn't compile.
        half = len(edits) // 2
        return judged(proved, edits[:half]) + judged(proved, edits[half:])
    return [(it, *verdict(code, it, said)) for it in edits]


def tried(proved, pool):
    """The lines of the log for a crate, each with whether its edit is refused."""
    edits = [edited.read_edit(it) for it in sum(edited.files_of(proved.name), [])]
    groups = pool.map(lambda group: judged(proved, group), proved.code.groups(edits))
    return [(holds, f"{proved.name} {edit.name}: {why}") for group in groups for edit, holds, why in group]


# ---- the log and the notes

def lines_of(path):
    return driver.text(path).splitlines() if os.path.exists(os.path.join(HOME, path)) else []


def about(crate, path):
    """The lines of a file that are about a crate."""
    return [it for it in lines_of(path) if it.startswith(f"{crate} ")]


def renew(path, begin, lines):
    """Puts lines in place of those of a file that begin so."""
    kept = [it for it in lines_of(path) if not it.startswith(f"{begin} ")]
    driver.write(HOME, {path: "".join(f"{it}\n" for it in sorted(kept + lines))})


def count(crate):
    """The line of NUMBERS that a crate should have."""
    return " ".join([crate, *(str(len(it)) for it in edited.files_of(crate))])


@functools.cache
def toolchain():
    """The build of the toolchain that is here, and its logic."""
    version = subprocess.run(["rt", "version"], stdout=subprocess.PIPE, check=True, text=True).stdout
    return version.split()[0], version.partition(" logic ")[2]


def note(crate, log):
    """The line of REFUSED for a crate and a log, as all that it depends on is now."""
    lower = sorted(build.below(build.listed_crates(), crate))
    uses = [it for it in build.lines_of_crates() if build.name_in(it) in lower]
    total = hashlib.sha256(repr((toolchain()[1], count(crate), uses, about(crate, log))).encode())
    folders = (os.path.join(build.crate(it), part) for it in lower for part in ("src", "specs", "proofs"))
    walked = [(at, names) for folder in folders for at, _, names in os.walk(folder)]
    files = [os.path.relpath(os.path.join(at, it), HOME) for at, names in walked for it in names]
    for path in sorted(["HANDLES", *SCRIPTS, *sum(edited.files_of(crate), []), *files]):
        total.update(repr((path, driver.read(os.path.join(HOME, path)))).encode())
    return f"{crate} {os.path.basename(log)} {total.hexdigest()} {toolchain()[0]}"


def noted(crate, log):
    """The build that tried a crate as it is now, with what comes of it in a log, or nothing."""
    *now, _ = note(crate, log).split()
    return next((it.split()[3] for it in about(crate, REFUSED) if it.split()[:3] == now), "")


def trouble(crate):
    """What is wrong with the number of edits of a crate, or with its notes."""
    if count(crate) not in lines_of(NUMBERS):
        return f"edits: {crate} has another number of edits than {NUMBERS} says"
    for log in [LOG, *[WEAKENED] * (crate in weakened.CALLS)]:
        build_then = noted(crate, log)
        if not build_then:
            command = f"tests/edits.py {'--weakened ' * (log == WEAKENED)}{crate}"
            return f"edits: {crate}, or what it depends on, was changed since its edits were tried: {command} tries them"
        if build_then != toolchain()[0]:
            print(f"edits: those of {crate} were refused by {build_then}, and not tried with {toolchain()[0]}", file=sys.stderr)
    return ""


def checked_notes(crates):
    """How many crates are as their notes say, and how many aren't."""
    found = [trouble(it) for it in crates]
    print(*filter(None, found), sep="\n", end="\n" * any(found))
    return found.count(""), len(found) - found.count("")


def try_crates(crates, log, trial, checks):
    """Tries crates, and yields what comes of each: its name, and the lines of its log, each with whether it passed."""
    # Each crate and each check of it has a thread, of which most wait.
    with contextlib.ExitStack() as rooms, concurrent.futures.ThreadPoolExecutor(100) as pool:
        try:
            begun = {}
            for crate in crates:
                before = note(crate, log)
                proved = checked.Proved(crate, checks, rooms.enter_context(tempfile.TemporaryDirectory()))
                begun[pool.submit(trial, proved, pool)] = crate, before
                yield from ended(begun, log, 0)
            while begun:
                yield from ended(begun, log, None)
        finally:
            checks.end()


def ended(begun, log, seconds):
    """The trials that have ended, or end in some seconds: the crate of each, and its lines."""
    for it in concurrent.futures.wait(begun, seconds, concurrent.futures.FIRST_COMPLETED).done:
        crate, before = begun.pop(it)
        if note(crate, log) != before:
            raise SystemExit(f"edits: {crate} was changed while its edits were tried")
        yield crate, it.result()


def keep(crate, log, found):
    """Writes what came of a crate into its log and its note. Returns how many passed, and how many failed."""
    lines, missed = sorted(line for _, line in found), sum(not holds for holds, _ in found)
    print(*lines, sep="\n", flush=True)
    renew(log, crate, lines)
    renew(REFUSED, f"{crate} {os.path.basename(log)}", [] if missed else [note(crate, log)])
    return len(lines) - missed, missed


def main():
    parser = argparse.ArgumentParser(description="Tries edits that the checker must refuse.")
    parser.add_argument("crates", nargs="*", metavar="CRATE")
    parser.add_argument("--check", action="store_true")
    parser.add_argument("--weakened", action="store_true")
    parser.add_argument("--jobs", type=int, default=max(driver.processors() // 2, 1), metavar="N")
    given = parser.parse_args()
    there = dict.fromkeys([*edited.crates(), *(it.split()[0] for it in lines_of(NUMBERS))])
    known = [it for it in there if not given.weakened or it in weakened.CALLS]
    unknown = [it for it in given.crates if it not in known]
    if unknown:
        parser.error(f"{unknown[0]} has no {'clauses to weaken' if given.weakened else 'edits'}")
    if given.check:
        passed, failed = checked_notes(given.crates or known)
    else:
        log, trial = (WEAKENED, weakened.tried) if given.weakened else (LOG, tried)
        asked = given.crates or [it for it in known if not noted(it, log)]
        for found in filter(None, (it for crate in asked for it in edited.troubles(crate))):
            raise SystemExit(f"edits: {found}")
        ends = [keep(crate, log, found) for crate, found in try_crates(asked, log, trial, checked.Checks(given.jobs))]
        passed, failed = (sum(it[part] for it in ends) for part in (0, 1))
    print(f"{passed} passed, {failed} failed")
    return 1 if failed else 0


if __name__ == "__main__":
    sys.exit(main())
