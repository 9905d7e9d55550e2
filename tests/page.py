#!/usr/bin/env python3
"""Holds the page's folder and its module against a built program.

    tests/page.py PROGRAM [--inputs N] [--twice]

- view/ is what it has to be: texts that are the examples', its own parts as texts, scripts of fewer than 400 lines that the page names, its policy and no
  other, no script or style in the page itself, at most 1.3 MB with the module.
- Each script of a saved page, which has no comments and little room, has the syntax tree of the page's own (tests/same_trees.js).
- What the page makes of the steps of a trace is what the order of the same run tells: tests/view/histories.js.
- The module that ships, in view/module.js, answers in Node. Where it was made of the sources that stand, it is asked each row of
  tests/run_rows.py but those of the command line itself, and N inputs made at random (300): output, hint and status are the program's,
  byte for byte. Its last step of a trace alone is that of the program's trace --json, for each row and made input that is a run.
- Where the sources are newer, it answers what release/tso of its own sources does (tests/checks/page/shipped_module.py): the inputs of the rows that
  stand, those of the rows of its commit, made inputs and last steps, but what that program refuses as a command line.
- The module that ships, with one of its words changed, doesn't pass.
- tools/page makes the module of this tree. Where the sources and the tools are those of the module that ships, both are the same, byte
  for byte; else this one is asked too. Where wasm-opt isn't there, it is asked as it is before it is lowered.
- With --twice it is made again in a copy of the tree, and is the same.

What can't be made or seen here (no Node, no proved crates, no wasm-opt, no history) is left out with a word. tests/view/check.py looks
at the page in a browser. The last line is 'N passed, M failed'.
"""
import argparse
import json
import os
import re
import shutil
import subprocess
import sys
import tempfile

sys.dont_write_bytecode = True
from checks import judging
from checks.judging import TESTS, TOP, content
from checks.page import module_answers, shipped_module
from checks.page.module_answers import Served

VIEW = os.path.join(TOP, "view")
HISTORIES = os.path.join(TESTS, "view", "histories.js")
SAME_TREES = os.path.join(TESTS, "same_trees.js")
MODULE = os.path.join("crates", "page_exports", "out", "page.wasm")
WIDE = os.path.join("crates", "page_exports", "out", "page.wide.wasm")

POLICY = ("default-src 'none'; script-src 'self' 'wasm-unsafe-eval'; style-src 'self'; worker-src blob:; img-src blob:; base-uri 'none'; "
          "form-action 'none'; require-trusted-types-for 'script'; trusted-types worker")
MOST_LINES, MOST_BYTES = 400, 1_340_000
GENERATED = ("module.js", "texts.js", "whole.js")
CANNOT = 69
INPUTS = 300
# A word that a module says, and one as long that none says.
SAID, NEVER_SAID = b"Sometimes", b"Neverever"


# The folder.

# A script that has texts packed, at its end.
PACKED = re.compile(r"(.*\n\nconst [A-Z]+ = )'([ !#-&(-;=-\[\]-~]+)';\n", re.DOTALL)


def held(script):
    """What such a script has: all before the texts that are packed, as it stands, and these; None where it has another form."""
    found = PACKED.fullmatch(script)
    return (found.group(1), json.loads(shipped_module.unpacked(found.group(2)))) if found else None


def faults_of_made(name, tool):
    """How a script differs from what its tool makes. Other libraries may pack the same texts to other bytes, so the texts are compared."""
    made = subprocess.run([os.path.join(TOP, "tools", tool), "--print"], capture_output=True, text=True)
    if made.returncode != 0:
        return [made.stderr.strip()]
    try:
        wanted = held(made.stdout)
        return [] if wanted is not None and held(content(VIEW, name)) == wanted else ["tools/%s makes another" % tool]
    except shipped_module.Fault as fault:
        return [str(fault)]


def faults_of_policy():
    page = content(VIEW, "index.html")
    policies = re.findall(r'http-equiv="Content-Security-Policy" content="([^"]*)"', page)
    faults = [] if policies == [POLICY] else ["it is %s" % policies]
    faults += ["an element has " + found for found in re.findall(r'<[^>]*\s(style=|on[a-z]+=)', page)]
    if re.search(r"<style|<script(?! src=\"[a-z]+\.js\"></script>)", page):
        faults.append("a script or a style stands in the page")
    return faults


def faults_of_scripts():
    named = re.findall(r'<script src="([a-z]+\.js)"></script>', content(VIEW, "index.html"))
    there = sorted(name for name in os.listdir(VIEW) if name.endswith(".js"))
    faults = [] if sorted(named) == there else ["the page names %s, and there are %s" % (sorted(named), there)]
    for name in there:
        text = content(VIEW, name)
        if name not in GENERATED and text.count("\n") >= MOST_LINES:
            faults.append("%s has %d lines" % (name, text.count("\n")))
        if "'use strict';" not in text.splitlines()[:2]:
            faults.append(name + " isn't strict")
        if name != "module.js" and re.search(r"innerHTML|outerHTML|insertAdjacentHTML|document\.write|\beval\(|new Function", text):
            faults.append(name + " makes elements or code of text")
    return faults


def faults_of_grammar():
    """Node's own answer, whether each of the page's scripts is one."""
    if shutil.which("node") is None:
        print("left out, whether the page's scripts are scripts: node isn't there: apt-get install -y nodejs")
        return []
    names = sorted(name for name in os.listdir(VIEW) if name.endswith(".js"))
    asked = [(name, subprocess.run(["node", "--check", os.path.join(VIEW, name)], capture_output=True, text=True)) for name in names]
    return [name + " is no script: " + done.stderr.strip()[-200:] for name, done in asked if done.returncode != 0]


def faults_of_trees():
    """Each script of a saved page has the syntax tree of the page's own."""
    _, whole = held(content(VIEW, "whole.js"))
    pairs = {name: [content(VIEW, name), text] for name, text in whole["scripts"].items()}
    done = shutil.which("node") and subprocess.run([SAME_TREES], input=json.dumps(pairs), capture_output=True, text=True)
    if done is None or done.returncode == CANNOT:
        print("left out, whether a saved page's scripts say what the page's own do: Node or its parser isn't there")
        return []
    return [name + " says another thing in a saved page" for name in done.stdout.split()] + ([done.stderr.strip()[-200:]] if done.returncode != 0 else [])


def faults_of_size(script=None):
    """The size of the folder, with this script of a module in place of the one that is there."""
    if script is not None and shutil.which("zopfli") is None:
        print("left out, the folder's size with the module that is made: zopfli, which packs it as it ships, isn't there: apt-get install -y zopfli")
        return []
    size = sum(os.path.getsize(os.path.join(VIEW, name)) for name in os.listdir(VIEW))
    if script is not None:
        size += len(script) - os.path.getsize(os.path.join(VIEW, "module.js"))
    print("view/ has %d bytes%s" % (size, "" if script is None else " with this module"))
    return [] if size <= MOST_BYTES else ["it has %d bytes" % size]


# The module that ships.

def groups_of(told, program, count, room):
    """The groups of works that judge the module that ships. The room is an empty folder, for what they need of another commit."""
    if told.sources == shipped_module.digest_of(TOP):
        return module_answers.groups_that_stand(program, count)
    tree = shipped_module.tree_of_release(told.sources, room)
    print("view/module.js: the sources are newer than those of version %s, of which it is; it is held against that release" % told.version)
    return module_answers.groups_of_release(tree, count)


def add_groups(tally, name, groups, served):
    """Counts what these groups of works find at a module, and says how many works there are."""
    for group, works in groups:
        print("%s: %d %s" % (name, len(works), group), flush=True)
        tally.add("%s, %s" % (name, group), module_answers.judged(works, served))


def faults_of_spoiled(module, groups, room):
    """Whether these works let the module pass with a word changed in it; the room is a folder for that module."""
    if SAID not in module:
        return ["it never says %s" % SAID.decode()]
    spoiled = os.path.join(room, "spoiled.wasm")
    with open(spoiled, "wb") as file:
        file.write(module.replace(SAID, NEVER_SAID))
    with Served(spoiled) as served:
        fails = any(judging.faults_told(lambda: work(served)) for _, works in groups for _, work in works)
    return [] if fails else ["with %s in place of %s it passes" % (NEVER_SAID.decode(), SAID.decode())]


def judge_shipped(tally, program, count):
    """Judges the module that ships. Answers what its script tells, None where that is at fault."""
    told = None
    try:
        told = shipped_module.told(shipped_module.bytes_in(TOP, shipped_module.SCRIPT))
        with tempfile.TemporaryDirectory() as room, tempfile.TemporaryDirectory() as other:
            groups = groups_of(told, program, count, room)
            with Served(os.path.join(TOP, shipped_module.SCRIPT)) as served:
                add_groups(tally, shipped_module.SCRIPT, groups, served)
            tally.add(shipped_module.SCRIPT, [("with a word changed", faults_of_spoiled(told.module, groups, other))])
    except shipped_module.Fault as fault:
        tally.add(shipped_module.SCRIPT, [("the module", [str(fault)])])
    except shipped_module.Unseen as unseen:
        print("left out, what view/module.js answers: %s" % unseen)
    return told


# The module that is made.

def make_module(tree, *words):
    """Why the module can't be made in this tree, or None where it was."""
    made = subprocess.run([os.path.join(tree, "tools", "page"), *words], capture_output=True, text=True)
    if made.returncode == CANNOT:
        return made.stderr.strip()
    if made.returncode != 0:
        raise RuntimeError(made.stderr[-2000:])
    return None


def script_of(tree):
    """The script view/module.js that tools/page makes of the module of this tree."""
    made = subprocess.run([os.path.join(tree, "tools", "page"), "--text"], capture_output=True)
    if made.returncode != 0:
        raise RuntimeError(made.stderr.decode()[-2000:])
    return made.stdout


def faults_of_script(script):
    """The script has the module that was made, packed, and the digest of what it was made of."""
    told = shipped_module.told(script)
    faults = [] if told.module == shipped_module.bytes_in(TOP, MODULE) else ["it has another module"]
    faults += [] if told.sources == shipped_module.digest_of(TOP) else ["it has the digest of other sources"]
    return faults + ([] if script_of(TOP) == script else ["it is another each time"])


def judge_wide(tally, program, count):
    """Judges the module that is made of this tree before it is lowered."""
    missing = make_module(TOP, "--wide")
    if missing:
        print("left out, what it answers before it is lowered: " + missing)
        return
    with Served(os.path.join(TOP, WIDE), flags=module_answers.wide_flags()) as served:
        add_groups(tally, "the module that is made, before it is lowered", module_answers.groups_that_stand(program, count), served)


def judge_made(tally, program, count, told):
    """Judges the module that is made of this tree, where the one that ships tells this. Answers whether it can be made."""
    stands = told is not None and told.sources == shipped_module.digest_of(TOP)
    missing = make_module(TOP)
    if missing:
        print("left out, the module that is made: " + missing)
        if not stands:
            judge_wide(tally, program, count)
        return False
    script = script_of(TOP)
    made = shipped_module.told(script)
    tally.add("view/", [("module.js of the module that is made", faults_of_script(script)), ("its size with that", faults_of_size(script))])
    if stands and made.tools == told.tools:
        faults = [] if made.module == told.module else ["it isn't the module that is made of its sources by its tools"]
        tally.add("view/", [("module.js", faults)])
        return True
    if stands:
        print("left out, whether view/module.js is the module that is made: it is of other tools, %s" % told.tools)
    with Served(os.path.join(TOP, MODULE)) as served:
        add_groups(tally, "the module that is made", module_answers.groups_that_stand(program, count), served)
    return True


def faults_of_second_module():
    """Makes the module in a copy of the tree in another folder, and compares the two."""
    with tempfile.TemporaryDirectory(prefix="another folder ") as room:
        copy = os.path.join(room, "tree")
        shutil.copytree(TOP, copy, symlinks=True, ignore=shutil.ignore_patterns(".git", "incremental"))
        os.remove(os.path.join(copy, MODULE))
        make_module(copy)
        modules = [open(os.path.join(tree, MODULE), "rb").read() for tree in (TOP, copy)]
        scripts = [script_of(tree) for tree in (TOP, copy)]
    return ([] if modules[0] == modules[1] else ["the modules differ"]) + ([] if scripts[0] == scripts[1] else ["their scripts differ"])


def faults_of_histories(program):
    """Node's own answer, for the page's histories of steps against the program."""
    if shutil.which("node") is None:
        print("left out, the histories of steps: node isn't there: apt-get install -y nodejs")
        return []
    calls = subprocess.run([HISTORIES, "--calls"], capture_output=True, text=True).stdout.splitlines()
    answers = "".join(answer_line(program, **json.loads(call)) for call in calls)
    done = subprocess.run([HISTORIES, "--answers"], input=answers, capture_output=True, text=True)
    return [] if done.returncode == 0 else (done.stdout + done.stderr).strip().splitlines()[-5:]


def answer_line(program, words, input):
    """The program's answer to this call, as histories.js takes it."""
    done = judging.run(program, words, input.encode())
    return json.dumps({"status": done.returncode, "output": done.stdout.decode()}) + "\n"


def main():
    parser = argparse.ArgumentParser()
    parser.add_argument("program", type=os.path.abspath)
    parser.add_argument("--inputs", type=int, default=INPUTS)
    parser.add_argument("--twice", action="store_true")
    given = parser.parse_args()
    tally = judging.Tally()
    tally.add("view/", [("texts.js", faults_of_made("texts.js", "page_texts")), ("whole.js", faults_of_made("whole.js", "page_whole")),
                        ("the policy", faults_of_policy()), ("the scripts", faults_of_scripts()),
                        ("their grammar", faults_of_grammar()), ("what a saved page's say", faults_of_trees()), ("its size", faults_of_size()), ("histories of steps", faults_of_histories(given.program))])
    if shutil.which("node") is None:
        print("left out, what the page's modules answer: node isn't there: apt-get install -y nodejs")
        return tally.end()
    told = judge_shipped(tally, given.program, given.inputs)
    if judge_made(tally, given.program, given.inputs, told) and given.twice:
        tally.add("the module", [("made in another folder", faults_of_second_module())])
    return tally.end()


if __name__ == "__main__":
    sys.exit(main())
