#!/usr/bin/env python3
"""Tries the judge of refutations by lemmas (tests/reference/printed_refutations.py): it takes those that are right, and refuses each with one slip.

    tests/lemma_trees.py [PART-OF-NAME]

The texts are in tests/checks/reasons/lemma_refutation_slips.py; further ones that are right are the examples of docs/REASONS.md, 'What is printed of
reasons': a test, and what is printed of it. The last line is 'N passed, M failed'.
"""
import argparse
import os
import re
import sys

sys.dont_write_bytecode = True

from checks import judging
from checks.reasons import lemma_refutation_slips
from reference import reading, printed_refutations
from reference.candidates import TSO

PAGE = os.path.join(judging.TOP, "docs", "REASONS.md")
EXAMPLE = re.compile(r"^```\n(X86 .*?)```\n+```\n(Test .*?)```$", re.MULTILINE | re.DOTALL)


def judge_examples():
    """Names of the page's examples, each with how it isn't a refutation."""
    for test, text in EXAMPLE.findall(judging.content(PAGE)):
        yield "example %s" % text.split("\n")[0], printed_refutations.faults_of(reading.read_test(test.encode()), TSO, text)


def main():
    parser = argparse.ArgumentParser(description=__doc__, formatter_class=argparse.RawDescriptionHelpFormatter)
    parser.add_argument("part", nargs="?", default="", metavar="PART-OF-NAME")
    part, tally = parser.parse_args().part, judging.Tally()
    judged = [*lemma_refutation_slips.judge(), *judge_examples()]
    tally.add("the judge of refutations by lemmas", [(name, faults) for name, faults in judged if part in name])
    return tally.end()


if __name__ == "__main__":
    sys.exit(main())
