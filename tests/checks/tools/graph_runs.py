"""tools/graph, for tests/batteries.py: pictures of the gallery's runs and reasons, edge by edge, and how it ends."""
import json
import os
import re
import shutil
import subprocess
import tempfile

from checks.reasons import why_answers
from reference import candidates, orders, reading
from scripts import COULD_NOT, script

from .tool_runs import GALLERY, described, gallery, tool

EDGE = re.compile(r'^  (P\w+) -> (P\w+) \[label=" (\w+) ".*?(penwidth="3")?\];$', re.M)
NODE = re.compile(r'^    (P(\d)_\w+) \[label=(.*)\];$', re.M)

# Tests whose pictures are made, where dot is there.
DRAWN = ("SB", "MP", "n6", "IRIW", "R")

# What can't be drawn: a name, words, the input, and what is said.
FAULTS = (
    ("no JSON", [], "Test SB\n", "graph: no JSON: Test SB\n"),
    ("an empty input", [], "", "graph: no JSON: the input is empty\n"),
    ("JSON of another kind", [], "[1]", "graph: neither a reason nor a run\n"),
    ("what outcomes prints", [], '{"depth":32,"states":[]}', "graph: neither a reason nor a run\n"),
    ("a search without an end", [], '{"test":"SB","unfinished":{"cases":1}}', "graph: it has no end within its limit\n"),
    ("a reason without a cycle", [], '{"answer":"never","test":"t","steps":[{"step":"false","depth":0,"places":{}}]}',
     "graph: no cycle forbids it: each case is false by its values\n"),
    ("an event that is none", [], '{"test":"t","order":["P0:0 X x=1"]}', "graph: no event: P0:0 X x=1\n"),
)


def name_of(entry):
    return "P%d_%d_%s" % entry[:3]


def answer(program, words, text):
    return json.loads(subprocess.run([program, *words], input=text, capture_output=True, text=True).stdout)


def edges_in(picture):
    return {found[:3] for found in EDGE.findall(picture)}


def faults_of_nodes(picture, entries, test):
    """Each of these entries stands in the box of its core, in program order."""
    due = [(name_of(entry), str(entry.core), entry.action(test) if entry.kind != orders.FENCE else "MFENCE") for entry in entries]
    found = NODE.findall(picture)
    same = [pair[:2] for pair in due] == [pair[:2] for pair in found]
    same = same and all(what.split(" ", 1)[-1] in label for (_, _, what), (_, _, label) in zip(due, found))
    return None if same else "the events %s, and not %s" % (found, due)


def faults_of_candidate(picture, candidate):
    """The edges rf, co and fr are those of the candidate: co to the next write, fr to the first after the one that is read."""
    due = {(name_of(write), name_of(read), "rf") for read, write in candidate.sources.items() if write is not None}
    for order in candidate.coherence.values():
        due |= {(name_of(w), name_of(v), "co") for w, v in zip(order, order[1:])}
    for read, write in candidate.sources.items():
        order = candidate.coherence.get(read.location, [])
        later = order[0 if write is None else order.index(write) + 1:][:1]
        due |= {(name_of(read), name_of(v), "fr") for v in later if v[:2] != read[:2]}
    found = {edge for edge in edges_in(picture) if edge[2] in ("rf", "co", "fr")}
    return None if found == due else "edges too many %s, missing %s" % (sorted(found - due), sorted(due - found))


def fault_of_run(graph, program, text):
    """The picture of a run has its order's events, and the edges of its candidate."""
    test, value = reading.read_test(text.partition("====")[0].encode()), answer(program, ["run", "--json"], text)
    order = [orders.entry_of(line.encode(), test) for line in value["order"]]
    picture, candidate = graph.picture_of(value, 1).text(), candidates.candidate_of(test, order)
    return faults_of_nodes(picture, candidate.entries, test) or faults_of_candidate(picture, candidate)


def fault_of_reason(graph, program, text):
    """The picture of a reason has the events and edges of its cycle, bold and no others, or of its candidate."""
    test = reading.read_test(text.partition("====")[0].encode())
    value = answer(program, ["why", "--json"], text.partition("====")[0])
    if value["answer"] == "allowed":
        run = answer(program, ["run", "--json", "--depth", "32"], text.partition("====")[0] + "====\n" + value["choices"])
        order = [orders.entry_of(line.encode(), test) for line in run["order"]]
        return faults_of_candidate(graph.picture_of(value, 1).text(), candidates.candidate_of(test, order))
    return fault_of_leaves(graph, value)


def fault_of_leaves(graph, value):
    """Each picture of a reason has the events and edges of its cycle, bold and no others."""
    closings = [step.get("closing") or step for step in value["steps"]]
    leaves = [step for step in closings if step["step"] in ("cycle", "uniproc", "between")]
    for number, step in enumerate(leaves, 1):
        picture = graph.picture_of(value, number).text()
        bold = {found[:3] for found in EDGE.findall(picture) if found[3]}
        if "cycle" in step:
            due = {(graph.Event(edge["from"]).name(), graph.Event(edge["to"]).name(), edge["relation"]) for edge in step["cycle"]}
        else:
            read, between, write = (graph.Event(step[key]).name() for key in ("read", "between", "write"))
            due = {(read, between, "fr"), (between, write, "co"), (read, write, "rmw")}
        if bold != due:
            return "bold edges %s, and not %s" % (sorted(bold), sorted(due))
    return None


def fault_of_answers(graph):
    """Facts on the way to a leaf are edges of its picture, where they are of its events; an answer that stands beside others is none."""
    found = [sorted(edge[:3] for edge in EDGE.findall(graph.picture_of(why_answers.SHORT, leaf).text()) if not edge[3]) for leaf in (1, 2)]
    due = [[], [("P1_3_W", "P0_0_W", "co")]]
    return None if found == due else "edges of answers %s, and not %s" % (found, due)


def judge_ends(tally):
    for name, words, given, said in FAULTS:
        done = tool("graph", *words, input=given)
        same = (done.returncode, done.stdout, done.stderr) == (COULD_NOT, "", said)
        tally.add("graph of " + name, None if same else described(done))
    done = tool("graph", "--help")
    tally.add("graph's help", None if done.returncode == 0 and "tools/graph FILE" in done.stdout else described(done))
    done = tool("graph", "/nowhere")
    tally.add("graph of no file", None if done.returncode == COULD_NOT and done.stderr.startswith("graph: ") else described(done))


def judge_svg(program, tally):
    """Where `dot` is there it takes the text; where it isn't, one line says so."""
    with tempfile.TemporaryDirectory() as nothing:
        value = subprocess.run([program, "run", "--json"], input=dict(gallery())["SB"], capture_output=True, text=True).stdout
        done = tool("graph", "--svg", input=value, env=dict(os.environ, PATH=nothing))
        said = (done.returncode, done.stdout, done.stderr) == (COULD_NOT, "", "graph: dot isn't there: it is in Debian's package graphviz\n")
        tally.add("graph --svg without dot", None if said else described(done))
    if shutil.which("dot") is None:
        print("pictures aren't made: dot isn't here")
        return
    texts = dict(gallery())
    for name in DRAWN:
        for words in (["run", "--json"], ["why", "--json"]):
            value = subprocess.run([program, *words], input=texts[name], capture_output=True, text=True).stdout
            done = tool("graph", "--svg", input=value)
            drawn = done.returncode == 0 and "</svg>" in done.stdout and not done.stderr
            tally.add("the picture of %s, by %s" % (name, words[0]), None if drawn else described(done))


def judge(program, tally):
    graph = script("graph")
    for name, text in gallery():
        for what, fault in (("run", fault_of_run), ("reason", fault_of_reason)):
            tally.add("the picture of the %s of %s" % (what, name), fault(graph, program, text))
    for form in (why_answers.NEVER, why_answers.SHORT):
        tally.add("the pictures of a reason that is made", fault_of_leaves(graph, form))
    tally.add("the answers of a reason that is made", fault_of_answers(graph))
    judge_ends(tally)
    judge_svg(program, tally)
