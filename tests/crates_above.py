#!/usr/bin/env python3
"""Prints these crates and those that stand on them, the lowest first.

    tests/crates_above.py CRATE..
"""
import os
import sys

sys.dont_write_bytecode = True
from checks import judging
from checks.judging import TOP


def below():
    """For each crate of the repository, the crates of the repository that it uses."""
    uses = {}
    with open(os.path.join(TOP, "crates.txt")) as file:
        for line in file:
            name, _, rest = line.split("#")[0].partition(":")
            if name.strip():
                uses[name.split()[0]] = rest.split()
    return {name: [used for used in rest if used in uses] for name, rest in uses.items()}


def main(named):
    judging.tell(__doc__)
    uses = below()
    unknown = [name for name in named if name not in uses]
    if not named or unknown:
        sys.exit("no such crate: " + " ".join(unknown) if unknown else __doc__)
    above = set(named)
    while True:
        more = {name for name, used in uses.items() if above & set(used)} - above
        if not more:
            break
        above |= more
    while above:
        ready = sorted(name for name in above if not above & set(uses[name]))
        print("\n".join(ready))
        above -= set(ready)


if __name__ == "__main__":
    main(sys.argv[1:])
