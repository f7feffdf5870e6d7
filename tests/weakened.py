"""Shows that the clauses of the headline's calls are needed: without one, an edit that it refuses is no longer refused.

In a copy, a trivial clause takes the place of one of a call, under the same name. The proofs of its goals are taken out. An edit
whose line `by:` names exactly this call and this clause is made there, if it changes the call itself. A check then has to leave
no goal of the call open. Calls that don't call each other share a check. It doesn't matter what becomes of their callers. If other
clauses of the call refuse each of these edits, too, they are made trivial as well, and the log names them.
"""

import collections
import re

import driver
import edited
from edited import called, contract, read

# The calls of the headline in docs/PROOFS.md, and those by which it is reached.
CALLS = {
    "gk_world": ["Sandbox::end"],
    "gk_run": ["run_case", "run_feature", "Suite::start", "Suite::feature", "Suite::finish"],
    "gk_cli": ["run_suite", "write_suite"],
}
IMPORT = "ghost use Rattle.std.specs.Prelude.{"
TRIVIAL = "⊤"
LOG = "tests/edits/log"

# A clause of a function, and its tries: an edit, and the names of other clauses that are made trivial with it.
Clause = collections.namedtuple("Clause", "function name tries")


def ensured(function):
    """The names of the clauses that a function ensures."""
    return [name or "" for _, kind, name, _ in read.CLAUSE.findall(contract(function)) if kind == "ensures"]


def without(text, function, names):
    """The text of a file with trivial clauses of these names of a function."""
    old = new = contract(function)
    for name in names:
        found = next(it for it in read.CLAUSE.finditer(new) if it[2] == "ensures" and (it[3] or "") == name)
        new = f"{new[:found.start(4)]} {TRIVIAL} {new[found.end(4):]}"
    text = text.replace(function.text, function.text.replace(old, new, 1), 1)
    return text if TRIVIAL in text.partition(IMPORT)[2].partition("}")[0] else text.replace(IMPORT, f"{IMPORT}{TRIVIAL}, ", 1)


def clauses_of(code, log):
    """The clauses of the calls of a crate, each with the edits that only it refuses, by a log."""
    edits = [edited.read_edit(it) for it in sum(edited.files_of(code.name), [])]
    refused = [it.split()[1] for it in log if it.startswith(f"{code.name} ") and "NOT REFUSED" not in it]
    for function in code.called(CALLS[code.name]):
        for name in ensured(function):
            by = f"`{called(function)}`" + f": `{name}`" * bool(name)
            own = [it for it in edits if it.by == by and code.changed(it) == [function] and f"{it.name}:" in refused]
            yield Clause(function, name, [(it, []) for it in own])


def groups(code, left):
    """The clauses in groups, by first fit: those of calls that differ and don't call each other."""
    found = []
    for it in left:
        for group in found:
            if all(it.function != other.function and it.function not in code.callers[other.function]
                   and other.function not in code.callers[it.function] for other in group):
                group.append(it)
                break
        else:
            found.append([it])
    return found


def is_of(name, goal):
    """Whether a goal is of a clause of this name."""
    return bool(re.fullmatch(rf".*-clause-{name}(?:-\d+)?" if name else "returns.*", goal))


def judged(proved, group):
    """Each of these clauses, with the goals of its call that are open without it, or with another reason why they may be."""
    code, texts, trivial = proved.code, dict(proved.code.texts), {}
    for function, name, ((_, others), *_) in group:
        trivial.update(dict.fromkeys(proved.said.names(code, function), [name, *others]))
        texts[function.path] = without(texts[function.path], function, [name, *others])
    texts.update(edited.with_edits(texts, [it.tries[0][0] for it in group]))
    with proved.changed({it: text for it, text in texts.items() if text != code.texts[it]}) as copy:
        copy.drop(trivial, lambda name, goal: any(is_of(it, goal) for it in trivial[name]))
        said = copy.check(f"{len(group)} clause{'s' * (len(group) > 1)} weakened")
    for clause in group:
        names = [it for it in said.names(code, clause.function) if it in said.lines]
        goals, line = sorted(said.goals_of(code, clause.function)), said.lines[names[0]] if names else "the code doesn't compile"
        is_judged = re.match(r"proved|.*\b(?:calls|passes|waits)\b", line)
        yield clause, goals or ([] if is_judged else [line])


def next_tries(clause, goals):
    """How a clause is tried next, if its edit is still refused by these goals."""
    (edit, others), *rest = clause.tries
    also = [it for it in ensured(clause.function) if it != clause.name and any(is_of(it, goal) for goal in goals)]
    is_last = rest or others or not all(any(is_of(it, goal) for it in also) for goal in goals)
    return rest if is_last else [(edit, also)]


def tried(proved, pool):
    """The lines of the log for a crate, each with whether an edit is no longer refused without the clause."""
    found, left = [], [*clauses_of(proved.code, driver.text(LOG).splitlines())]
    while left:
        found += [(False, line_of(proved, it, "no edit that is refused names it alone")) for it in left if not it.tries]
        tries = pool.map(lambda group: [*judged(proved, group)], groups(proved.code, [it for it in left if it.tries]))
        left = []
        for clause, goals in (it for each in tries for it in each):
            (edit, others), again = clause.tries[0], next_tries(clause, goals) if goals else []
            if again:
                left.append(clause._replace(tries=again))
            elif goals:
                found.append((False, line_of(proved, clause, f"{edit.name} is still refused: {', '.join(goals)}")))
            else:
                found.append((True, line_of(proved, clause, f"without {' and '.join(['it', *others])} {edit.name} isn't refused")))
    return found


def line_of(proved, clause, text):
    return f"{proved.name} {called(clause.function)}: {clause.name or 'its contract'}: {text}"
