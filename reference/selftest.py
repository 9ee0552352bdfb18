"""Checks the reference against the worked examples and the cases worked by hand.

Run from the repository root as: python3 -m reference.selftest
"""

import sys
from time import process_time

from reference.cases import (any_orders, benches, blocks, by_orders, chains, clipped, commands, comparisons, delays,
                             examples, generators, joins, keeps, modifiers, old_files, old_orders,
                             old_passes, old_turns, parts, passes, questions, sortings)
from reference.faults import NAMES, switched_on

MODULES = (examples, generators, modifiers, passes, clipped, questions, commands, comparisons,
           any_orders, parts, delays, benches, sortings, by_orders, blocks, old_turns, old_passes, old_orders,
           old_files, chains, joins, keeps)
GROUPS = [group for module in MODULES for group in module.GROUPS]
# How long each group took.
SECONDS = {}


def failures(checks):
    """The count of a group's checks and those that fail, as (name, got, expected)."""
    count, failed = 0, []
    for name, got, expected in checks():
        count += 1
        if got != expected:
            failed.append((name, got, expected))
    return count, failed


def report(groups):
    """Prints a line for each group and the failures; gives both counts."""
    total, bad = 0, 0
    for title, checks in groups:
        started = process_time()
        count, failed = failures(checks)
        SECONDS[title] = process_time() - started
        print(f"{title}: {count} checks" + (f", {len(failed)} failed" if failed else ""))
        for name, got, expected in failed:
            print(f"  {name}: got {got}, expected {expected}")
        total, bad = total + count, bad + len(failed)
    return total, bad


def failing(checks):
    """The names of a group's cases that fail; what they are made by may fail too."""
    try:
        return [name for name, _, _ in failures(checks)[1]]
    except AssertionError:
        return ["an assertion"]


def caught(fault):
    """The first group that fails while a fault is on, quick ones first, and its cases that do."""
    with switched_on(fault):
        for title, checks in sorted(GROUPS, key=lambda group: SECONDS[group[0]]):
            if names := failing(checks):
                return title, names
    return None, []


def report_faults():
    """Prints a line for each fault; gives the count of faults and of those not caught."""
    missed = 0
    for fault in NAMES:
        title, names = caught(fault)
        missed += not names
        found = f"by {len(names)} cases of {title}, first {names[0]}" if names else "NOT"
        print(f"fault {fault}: caught {found}")
    return len(NAMES), missed


def main():
    """Runs everything; gives the exit status."""
    total, bad = report(GROUPS + list(comparisons.TRIALS + any_orders.TRIALS + parts.TRIALS
                                      + old_orders.TRIALS + chains.TRIALS + joins.TRIALS))
    faults, missed = report_faults()
    print(f"reference: {total + faults} checks, {bad + missed} failed")
    return 1 if bad or missed else 0


if __name__ == "__main__":
    sys.exit(main())
