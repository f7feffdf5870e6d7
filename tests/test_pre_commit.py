"""The hook of .pre-commit-hooks.yaml, which Debian's pre-commit runs over a repository, as pre_commit.md shows it."""

import pages
from checks import Checks


@pages.tests("pre_commit.md")
class PreCommit(Checks):
    NEEDS = ("git", "pre-commit")
