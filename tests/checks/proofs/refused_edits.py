"""When each edit of tests/data/edits/ was refused last: tests/data/refused_edits.list.

A line has the edit as CRATE/FILE, the day, the processor seconds of the check that tried it (with the others that the same check tried), and
the functions that weren't proved. An edit without a line was never refused by a run that wrote the list.
"""
import collections
import os
import resource
import time

from checks.judging import TOP

LIST = os.path.join(TOP, "tests", "data", "refused_edits.list")
# What a check is expected to cost of which no line tells: most took less (docs/DECISIONS.md).
UNKNOWN_SECONDS = 60

Refusal = collections.namedtuple("Refusal", "day seconds by")


def processor_seconds():
    """What the commands that this script has started, and theirs, have cost until now."""
    used = resource.getrusage(resource.RUSAGE_CHILDREN)
    return used.ru_utime + used.ru_stime


def lines():
    """The comments of the list, and by the name of an edit its refusal."""
    head, found = [], {}
    if os.path.exists(LIST):
        with open(LIST, encoding="utf-8") as file:
            for line in file:
                if line.startswith("#"):
                    head.append(line)
                elif line.strip():
                    name, day, seconds, by = line.rstrip("\n").split(" ", 3)
                    found[name] = Refusal(day, int(seconds), by)
    return head, found


def write(head, found):
    with open(LIST, "w", encoding="utf-8") as file:
        file.write("".join(head) + "".join("%s %s %d %s\n" % (name, *found[name]) for name in sorted(found)))


def never(names):
    """Those of these edits of which no line tells."""
    found = lines()[1]
    return [name for name in names if name not in found]


def longest_ago(names, most, within):
    """So many of these edits at most: those that were refused longest ago, and before them those that never were. One whose check took more
    than a quarter of these processor seconds isn't among them, since it would keep others out."""
    found = lines()[1]
    cheap = [name for name in names if name not in found or found[name].seconds * 4 <= within]
    return sorted(sorted(cheap, key=lambda name: (found[name].day if name in found else "", name))[:most])


def expected_seconds(names):
    """What the check of a group is expected to cost: the most that one of its edits cost last."""
    found = lines()[1]
    return max(found[name].seconds if name in found else UNKNOWN_SECONDS for name in names)


def note(judged, seconds):
    """Writes of each edit that was just tried that it was refused today, and by what; of one that wasn't, no line stays."""
    head, found = lines()
    for name, by in judged:
        found.pop(name, None)
        if by:
            found[name] = Refusal(time.strftime("%Y-%m-%d", time.gmtime()), round(seconds), by)
    write(head, found)


def keep(names):
    """Drops the lines of edits that are gone."""
    head, found = lines()
    write(head, {name: found[name] for name in found if name in set(names)})
