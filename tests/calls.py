"""Looks for a call of each public function of the libraries in the crates of tests.

No proof says that a call succeeds if memory is ample. So a test calls each public function with
ample memory, and compares what it returns: one that the root of a library crate exports, a public
method of a type that it exports, or a method of a trait of TRAITS for such a type. This only reads
the sources. A function is one check, which fails if no crate of tests calls it. `tests/calls.py`
prints the table: which files call which function. Other tests run the functions of gk_program.

Laws aren't looked for: functions that return nothing and change nothing. A method is called by its
name after a dot, or by its type. Only a call by the type, or after a variable with the type's name,
counts if several types have a method of that name, or the standard library has one.
"""
import collections
import re

import shape

TESTS = "gk_tests gk_cli_tests gk_refusals".split()
# The libraries, each with the crates that have to call its functions.
CALLERS = dict.fromkeys("gk_gherkin gk_select gk_steps gk_lint gk_world gk_run gk_report gk_explain gk_request gk_findings gk_cli".split(), TESTS)
CALLERS["gk_program"] = ["gherkin_run", "gk_c"]
# Traits whose methods take memory.
TRAITS = {"Reversible"}
# Methods of the standard library, too.
COMMON = {"get", "len", "new", "next"}
Function = collections.namedtuple("Function", "crate type name")

FUNCTION = re.compile(r"pub fn (\w+)(?:<[^(]*>)?\(([^)]*)\)(\s*->)?")
BLOCK = re.compile(r"^impl(?:<[^{]*?>)? (\w+)(?:<[^{]*>)? \{(.*?)^\}", re.DOTALL | re.MULTILINE)
TRAIT_BLOCK = re.compile(r"^impl(?:<[^{]*?>)? (\w+) for (\w+)(?:<[^{]*>)? \{(.*?)^\}", re.DOTALL | re.MULTILINE)
METHOD = re.compile(r"^    fn (\w+)", re.MULTILINE)
EXPORT = re.compile(r"^pub use [\w:]*?(?:(\w+)|\{([^}]*)\});", re.MULTILINE)
MODULE = re.compile(r"^pub mod (\w+);", re.MULTILINE)


def sources(crate):
    """The code of a crate, without its comments and what is in its strings, by the paths of its files below its folder src/."""
    top = f"crates/{crate}/src/"
    return {it.removeprefix(top): "\n".join(map(shape.without_literals, shape.lines_of(it)))
            for it in shape.CODE if it.startswith(top)}


def functions(crate, traits=TRAITS, has_laws=False):
    """The public functions of a crate, and the methods of some traits, without or with laws."""
    def public(text):
        found = FUNCTION.findall(text)
        return [name for name, arguments, returns in found if has_laws or returns or "&mut" in arguments]

    texts = sources(crate)
    root = texts["lib.rt"]
    exported = set(re.findall(r"\w+", " ".join(one + many for one, many in EXPORT.findall(root))))
    modules = [f"{name}.rt" for name in MODULE.findall(root)]
    for path, text in sorted(texts.items()):
        methods = [(it, public(body)) for it, body in BLOCK.findall(text)]
        methods += [(it, METHOD.findall(body)) for trait, it, body in TRAIT_BLOCK.findall(text) if trait in traits]
        yield from (Function(crate, it, name) for it, names in methods if it in exported for name in names)
        yield from (Function(crate, None, it) for it in public(BLOCK.sub("", text)) if it in exported or path in modules)


def is_called(function, text, shared):
    """Whether a file calls a function. One that is no method has to be imported from its crate."""
    name = rf"{function.name}(?:::<[^>]*>)?\("
    if function.type is None:
        imports = re.findall(r"\w+|[*]", " ".join(re.findall(rf"\buse {function.crate}::([^;]*);", text)))
        return bool({"*", function.name} & {*imports} and re.search(rf"(?<!fn )(?<!\.)\b{name}", text))
    if re.search(rf"\b(?:{function.type}::|{function.type.lower()}\.){name}", text):
        return True
    return function.name not in shared and bool(re.search(rf"\.{name}", text))


def calls():
    """Each public function that has to be called, with the files that call it."""
    found = [it for crate in CALLERS for it in functions(crate)]
    assert {it.crate for it in found} == set(CALLERS), "a library without public functions"
    counts = collections.Counter(it.name for it in found if it.type)
    shared = COMMON | {name for name, count in counts.items() if count > 1}
    texts = {name: sources(name) for names in CALLERS.values() for name in names}
    for function in found:
        yield function, [f"{name}/{path}" for name in CALLERS[function.crate] for path, text in texts[name].items()
                         if is_called(function, text, shared)]


def name_of(function):
    return f"{function.crate}: {'::'.join(filter(None, function[1:]))}"


def troubles():
    for function, files in calls():
        yield "" if files else f"{name_of(function)}: no test calls it"


if __name__ == "__main__":
    for _function, _files in calls():
        print(f"{name_of(_function)}: {' '.join(_files)}")
