"""Libraries whose steps are hard to find, with steps for them: what bench/measure and `bench/peers --libraries` run.

Each shape gives the patterns of so many entries, and the text of a step by its number, which finds the entry of the same
number, counted again from the first one after the last.
"""

import itertools

ENTRIES = 400
STEPS = 10_000
VERBS = ("takes", "brings", "sends", "opens", "closes", "lends", "sells", "buys", "counts", "moves", "cleans", "paints", "mends", "breaks",
         "keeps", "loses", "finds", "hides", "lifts", "drops")
NOUNS = ("apple", "book", "chair", "door", "engine", "flag", "glass", "hammer", "island", "jacket", "kettle", "ladder", "mirror", "needle",
         "orange", "pencil", "quilt", "ribbon", "saddle", "table")


def words(number):
    """A verb and a noun, another pair for each number below 400. Later nouns have a number behind them."""
    noun, verb = divmod(number, len(VERBS))
    later, noun = divmod(noun, len(NOUNS))
    return f"{VERBS[verb]} the {NOUNS[noun]}{later or ''}"


def colliding(count):
    """Texts of one length, which have the same sum if each byte counts 33 times as much as the next one."""
    length = max(1, (count - 1).bit_length())
    return ["".join(it) for it in itertools.islice(itertools.product(("ab", "bA"), repeat=length), count)]


def verbs_and_nouns(count):
    return [f"the {{name}} {words(it)} {{n:d}} times" for it in range(count)], lambda it: f"the cook {words(it % count)} {it} times"


def quoted_texts(count):
    return [f'the "{{name}}" {words(it)} with "{{text}}"' for it in range(count)], lambda it: f'the "cook" {words(it % count)} with "text {it}"'


def prefixes(count):
    """Each pattern is the beginning of the next one."""
    return ["a" * it for it in range(1, count + 1)], lambda it: "a" * (it % count + 1)


def between_fields(count):
    return [f"{{a}} word{it} {{b}}" for it in range(count)], lambda it: f"one word{it % count} two"


def colliding_keys(count):
    texts = colliding(count)
    return texts, lambda it: texts[it % count]


# The shapes, by a pattern of each.
SHAPES = {"`the {name} takes the apple {n:d} times`": verbs_and_nouns, '`the "{name}" takes the apple with "{text}"`': quoted_texts,
          "`a`, `aa`, `aaa` and so on": prefixes, "`{a} word1 {b}`": between_fields, "`abab`, `abbA`, `bAab` and so on": colliding_keys}


def library_of(patterns):
    return "".join(f"step {it} => pass\n" for it in patterns)


def feature_of(text, steps):
    """A feature of so many steps, four in a scenario."""
    return "Feature: f\n" + "".join(f"  Scenario: s{it}\n" * (it % 4 == 0) + f"    Given {text(it)}\n" for it in range(steps))


def behave_steps_of(patterns):
    """The same library for behave, in Python."""
    return "from behave import step\n" + "".join(f"\n\n@step({it!r})\ndef entry_{number}(context, **fields):\n    pass\n"
                                                 for number, it in enumerate(patterns))
