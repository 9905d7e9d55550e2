"""What a module of the page is asked, in Node, and what it must answer.

A module of the sources that stand is held against the rows and the program that is built of them, a module of older sources against a
program of its own. A group is a name and its works: pairs of a name and a function of a module's faults.
"""
import base64
import functools
import json
import os
import subprocess
import threading
import typing

from checks import judging, row_works, rows

import made_inputs

PAGE_PROGRAM = os.path.join(judging.TESTS, "page_program.js")
# What Node needs for addresses of 64 bits, as long as it asks for a word.
WIDE_FLAG = "--experimental-wasm-memory64"
# Node compiles a module once more, for calls that are made often: that takes longer than all its answers here.
QUICK_FLAG = "--liftoff-only"
SEED = 48


class Served:
    """The page's program with this module, by a process of Node that goes on. One is enough: each compiles the module for itself, which takes
    longer than all its answers."""

    def __init__(self, module, flags=()):
        words = ["node", "--no-warnings", *known_flag(QUICK_FLAG), *flags, PAGE_PROGRAM, "--serve"]
        self.server = subprocess.Popen(words, stdin=subprocess.PIPE, stdout=subprocess.PIPE, env=dict(os.environ, TSO_MODULE=module))
        self.turn = threading.Lock()

    def __enter__(self):
        return self

    def __exit__(self, *_):
        self.server.stdin.close()
        self.server.wait()

    def run(self, words, given):
        call = {"words": words, "input": base64.b64encode(given).decode()}
        with self.turn:
            self.server.stdin.write(json.dumps(call).encode() + b"\n")
            self.server.stdin.flush()
            answer = json.loads(self.server.stdout.readline())
        return subprocess.CompletedProcess(words, answer["status"], base64.b64decode(answer["output"]), base64.b64decode(answer["errors"]))


@functools.cache
def known_flag(flag):
    """This flag for Node, or none where it knows no such flag."""
    return (flag,) if subprocess.run(["node", flag, "-e", ""], stderr=subprocess.DEVNULL).returncode == 0 else ()


def wide_flags():
    """The flags of Node for a module with addresses of 64 bits."""
    return known_flag(WIDE_FLAG)


# What is asked.

class Asked(typing.NamedTuple):
    """An input under the words of a command line, with a name."""
    name: str
    words: list
    given: bytes


# Options that the page's module isn't asked with: its states show what the condition names, and its answers tell a verdict by their text.
LEFT_OUT = ("--show", "--assert")


def is_of_page(words):
    """Whether the module can be asked so."""
    return not any(word.partition("=")[0] in LEFT_OUT for word in words)


def asked_by_rows(folder=rows.FOLDER):
    """What the rows of a folder ask, each beginning of a text by itself."""
    return [Asked(name, row.words, given) for name, row in rows.all_rows(folder=folder).items() if is_of_page(row.words)
            for given in [given for given, _ in row.beginnings()] or [row.given]]


def asked_by_rows_then(folder):
    """The same of a folder of another commit; nothing, with a word, where its rows can't be read any more."""
    try:
        return asked_by_rows(folder)
    except (OSError, rows.Refused) as fault:
        print("left out, the rows of another commit: %s" % fault)
        return []


def asked_at_random(count):
    """So many inputs that are made at random, the same each time; those that the module can be asked."""
    made = [made_inputs.made(SEED, number) for number in range(count)]
    return [Asked("input %d of seed %d" % (number, SEED), each.words, each.given) for number, each in enumerate(made)
            if is_of_page(each.words)]


def each_once(*lists):
    """What is asked in these lists, the same words with the same input once."""
    return list({(*asked.words, asked.given): asked for each in lists for asked in each}.values())


# What must be answered.

def faults_of_answer(program, served, asked):
    """How the answer differs from that of a program."""
    wanted = judging.run(program, asked.words, asked.given)
    if wanted.returncode == judging.BAD_LINE:
        return []
    return judging.difference(served.run(asked.words, asked.given), wanted.returncode, wanted.stdout, wanted.stderr)


def last_step(answer):
    """The last step in an answer to `trace --json`; where no choice was used, the machine at the start; a refusal as it is."""
    if answer.returncode == judging.REFUSED:
        return answer.stdout
    trace = json.loads(answer.stdout)["trace"]
    last = trace["steps"][-1] if trace["steps"] else {"start": trace["start"]}
    return json.dumps(last, separators=(",", ":")).encode() + b"\n"


def faults_of_step(program, served, asked):
    """How the last step alone differs from that of a program's trace."""
    machine = [word for word in asked.words[1:] if word != "--json"]
    wanted = judging.run(program, ["trace", "--json", *machine], asked.given)
    if wanted.returncode == judging.BAD_LINE:
        return []
    return judging.difference(served.run(["step", *machine], asked.given), wanted.returncode, last_step(wanted), wanted.stderr)


def works_of(judge, program, asked):
    """The works of what is asked, by a function of a program, a module and one of these."""
    return [(each.name, lambda served, each=each: judge(program, served, each)) for each in asked]


def step_works(program, *lists):
    """The last step of each run that is asked in these lists."""
    return works_of(faults_of_step, program, [asked for asked in each_once(*lists) if asked.words[:1] in (["run"], ["trace"])])


def groups_that_stand(program, count):
    """The rows but those of the command line itself, made inputs and last steps, for a module of the sources that stand."""
    made = asked_at_random(count)
    return [("rows", row_works.works(judging.Program(program), lambda row: row.status != judging.BAD_LINE and is_of_page(row.words))),
            ("made inputs", works_of(faults_of_answer, program, made)),
            ("last steps", step_works(program, asked_by_rows(), made))]


def groups_of_release(tree, count):
    """The same inputs and those of the rows of this checkout, for a module of the sources of its release, which answers alike."""
    program = os.path.join(tree, "release", "tso")
    asked = each_once(asked_by_rows(), asked_by_rows_then(os.path.join(tree, "tests", "data", "rows")))
    made = asked_at_random(count)
    return [("inputs of rows", works_of(faults_of_answer, program, asked)),
            ("made inputs", works_of(faults_of_answer, program, made)),
            ("last steps", step_works(program, asked, made))]


def judged(works, served):
    """The works' names with what this module's faults are."""
    return judging.in_threads(lambda work: (work[0], judging.faults_told(lambda: work[1](served))), works)
