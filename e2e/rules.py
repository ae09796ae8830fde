"""The rules for real origins and real clients, by name, and which of them the program does not follow yet: none."""

import functools
import os

from harness import Skipped

# The tests of these are skipped by name; with ALSO_NOT_YET=1 in the environment they run.
NOT_YET = set()


def rule(name):
    """Says which rule a test shows."""

    def mark(function):
        @functools.wraps(function)
        def unless_skipped(world):
            if name in NOT_YET and not os.environ.get("ALSO_NOT_YET"):
                raise Skipped(f"the rule {name}")
            return function(world)

        return unless_skipped

    return mark
