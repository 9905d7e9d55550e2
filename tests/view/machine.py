"""Rows for the page with its machine: what it answers, against the program. What comes into it and goes out is carried.py's."""
import json
import os
import re
import shlex
import subprocess
import sys

from bench import BAD_LINE, DIVIDING_LINE, EXAMPLES, FIRST, TESTS, Bench, differs, read, safety, texts
from carried import addresses_row, drops_row, library_row, old_browsers_row, saves_row, trap_row
from looks import dark_row, names_row, speed_row, widths_row

sys.path.insert(0, TESTS)
import made_inputs

MADE, SEED = 200, 4
LATE = "0s 1s 0s 1s 0d 1d"
CALM = ("0s 0d 0s 1s 1d 1s", "1s 1d 1s 0s 0d 0s", "0s 0d 1s 1d 0s 1s")  # no load passes a store
# A search that takes more than a minute: four cores, each with four stores and three loads, of which the condition names all.
LONG_SEARCH = ("X86 slow\n{ }\n P0 | P1 | P2 | P3 ;\n"
               + "".join(" %s ;\n" % " | ".join("MOV [%s],$%d" % ("xyzw"[(core + at) % 4], 1 + at + 4 * core) for core in range(4)) for at in range(4))
               + "".join(" %s ;\n" % " | ".join("MOV %s,[%s]" % (name, "xyzw"[(core + at) % 4]) for core in range(4)) for at, name in enumerate(("EAX", "EBX", "ECX"), 1))
               + "exists (%s)\n" % " /\\ ".join("%d:%s=9" % (core, name) for core in range(4) for name in ("EAX", "EBX", "ECX")))

# A search of some thousand states, with and without store buffers.
CHAIN = "X86 chain\n{ }\n P0 | P1 | P2 | P3 ;\n" + 2 * (" %s ;\n" % " | ".join("MOV [%s],$%d" % (name, at) for at, name in enumerate("xyzw", 1))) + " MOV EAX,[y] | MOV EAX,[z] | MOV EAX,[w] | MOV EAX,[x] ;\nexists (0:EAX=0)\n"


def first_row(bench, folder):
    bench.open()
    bench.wait("shown.run")
    text = read(EXAMPLES, FIRST)
    _, report, _ = bench.program(text, "run")
    faults = differs("the report", bench.text("#report"), report)
    faults += differs("the line", bench.value("shown.line"), bench.program(text, "run", "--json")[1].strip())
    faults += differs("the name", bench.text("#name"), "Test SB")
    bench.window.screenshot(os.path.join(folder, "bench.png"))
    return faults + safety(bench)


def answers_row(bench):
    """Every example and every text of the gallery, under each command that reads it."""
    bench.open()
    faults = []
    for name, text in texts():
        commands = ["check", "witness"] if name.endswith(".order") else ["run", "run --json", "run --bus split --protocol mosi", "outcomes --json", "sweep --seeds 20"]
        for words in commands:
            faults += differs("%s of %s" % (words, name), bench.answer(text, words.split()), bench.program(text, *words.split()))
    return faults + safety(bench)


def trace_words():
    """Words of a trace on several machines."""
    for machine in ("", "--bus split --protocol mosi", "--protocol moesi --depth 1 --words 2 --ways 1", "--protocol mesi --depth 0 --sets 2"):
        yield machine.split()


def traces_row(bench):
    """Every example and every test of the gallery: its trace as text and as JSON, and the last step alone is the last of that trace."""
    bench.open()
    faults = []
    for name, text in texts():
        for words in trace_words() if name.endswith(".litmus") else ():
            plain, told = bench.program(text, "trace", *words), bench.program(text, "trace", "--json", *words)
            if plain[0] != BAD_LINE:
                faults += differs("the trace of %s %s" % (name, words), bench.answer(text, ["trace", *words]), plain)
            if told[0] != BAD_LINE:
                faults += differs("the trace as JSON of %s %s" % (name, words), bench.answer(text, ["trace", "--json", *words]), told)
                faults += differs("the step of %s %s" % (name, words), last_step(bench, text, words), wanted_step(told))
    return faults + safety(bench)


def last_step(bench, text, words):
    """The status, what is told and the hint of the last step alone; None of a module that doesn't tell it."""
    status, said, hint = bench.answer(text, ["step", "--json", *words])
    return None if status == BAD_LINE else (status, json.loads(said) if said.startswith("{") else said, hint)


def wanted_step(told):
    """The same, of the whole trace."""
    status, said, hint = told
    if not said.startswith("{"):
        return status, said, hint
    trace = json.loads(said)["trace"]
    return status, trace["steps"][-1] if trace["steps"] else {"start": trace["start"]}, hint


def made_row(bench):
    """Inputs made at random, valid and damaged, under every command and option."""
    bench.open()
    faults = []
    for number in range(MADE):
        made = made_inputs.made(SEED, number)
        done = subprocess.run([bench.page.program, *made.words], input=made.given, capture_output=True, timeout=300)
        if done.returncode == BAD_LINE:
            continue
        wanted = done.returncode, done.stdout.decode(), done.stderr.decode()
        faults += differs("input %d, %s" % (number, shlex.join(made.words)), bench.answer(made.given, list(made.words)), wanted)
    return faults + safety(bench)


def begun(hint):
    """A hint as a sentence begins."""
    return re.sub("^hint: .", lambda found: found[0][-1].upper(), hint)


def refused_row(bench, folder):
    """A refused line is marked while one types, with the hint beside; a word of the choices and a line of an order too."""
    bench.open()
    test = read(EXAMPLES, FIRST).partition(DIVIDING_LINE)[0]
    damaged = test.replace("MOV EAX,[y]", "MFENCE [y] ")
    bench.fill("test", damaged)
    _, line, hint = bench.program(damaged, "run")
    number = re.match(r"Refused test line (\d+) ", line).group(1)
    faults = differs("the refusal", bench.text("#said"), line.strip()) + differs("the hint", bench.text("#hint"), begun(hint.strip()))
    faults += differs("the mark", bench.text("#test-lines .refused").strip(), "▶" + number)
    faults += differs("the band", (bench.value("byId('test-band').hidden"), bench.value("byId('test-band').dataset.line")), (False, number))
    faults += differs("invalid", bench.value("byId('test').getAttribute('aria-invalid')"), "true")
    faults += differs("a run is shown", bench.page.is_drawn(), False)
    faults += differs("in plain words", bench.text("#plain"), "Line %s, P0: %s." % (number, re.sub(r"^hint: (line \d+: )?", "", hint.strip())))
    faults += differs("said once", bench.value("['said', 'hint'].map(id => byId(id).checkVisibility())"), [False, False])
    cells = bench.value("[...document.querySelectorAll('#test-band span')].map(({ style }) => [style.left, style.width])")
    faults += differs("the cell", cells, [["1ch", "10ch"]])
    bench.window.screenshot(os.path.join(folder, "refused.png"), whole=False)
    bench.fill("test", test)
    faults += differs("a mark where all is well", bench.value("document.querySelector('.refused') === null && byId('test-band').hidden"), True)
    bench.fill("choices", "0s 9s 1s")
    _, line, hint = bench.program(test + DIVIDING_LINE + "0s 9s 1s", "run")
    faults += differs("choices", [bench.text("#said"), bench.text("#plain"), bench.text("#hint")], [line.strip(), "Choice 2, 9s: there is no core 9.", begun(bench.said(hint))])
    bench.choose("check")
    order = "Order\nP0:1 R y=0\nP0:7 X\nEndorder 2\n"
    bench.fill("given", order)
    _, line, hint = bench.program(test + DIVIDING_LINE + order, "check")
    number = re.match(r"Refused order line (\d+) ", line).group(1)
    faults += differs("order", [bench.text("#said"), bench.text("#hint"), bench.text("#given-lines .refused").strip()], [line.strip(), begun(bench.said(hint)), "▶" + number])
    bench.choose("run")
    bench.fill("choices", "0s 0s")
    _, line, hint = bench.program(test + DIVIDING_LINE + "0s 0s", "run")
    faults += differs("unfinished", [bench.text("#report"), bench.text("#hint")], [line, begun(bench.said(hint))])
    return faults + safety(bench)


def outcomes_row(bench, folder):
    """The table of all states, and the choices of each."""
    bench.open()
    test = read(EXAMPLES, FIRST).partition(DIVIDING_LINE)[0]
    bench.choose("outcomes")
    bench.window.click("#begin")
    bench.wait("document.querySelector('#states table')")
    found = json.loads(bench.program(test, "outcomes", "--json")[1])
    rows = bench.value("[...document.querySelectorAll('#states tbody tr')].map(row => [...row.querySelectorAll('.number, .way')].map(cell => cell.textContent))")
    found["states"][0]["choices"] = LATE  # both loads pass, which the program's own choices don't show
    for state, choices in zip(found["states"][1:], CALM):
        state["choices"] = choices
    wanted = [[str(word) for word in state["values"].values()] + [state["choices"]] for state in found["states"]]
    faults = differs("the states", rows, wanted)
    faults += [] if "Sometimes" in bench.text("#states .terms") else ["it says " + bench.text("#states .terms")]
    sequential = [state["values"] for state in json.loads(bench.program(test, "outcomes", "--json", "--depth", "0")[1])["states"]]
    told = bench.value("[...document.querySelectorAll('#states tbody tr')].map(row => [...row.cells].slice(0, 2).map(cell => cell.textContent))")
    for state, (under, holds) in zip(found["states"], told):
        is_met = state["values"]["0:EAX"] == 0 == state["values"]["1:EAX"]
        faults += differs("of %s" % state["values"], [under, holds], ["TSO and SC" if state["values"] in sequential else "TSO alone", "✓ true" if is_met else "false"])
    faults += [] if "1 is new here" in bench.text("#states p") else ["it says " + bench.text("#states p")]
    faults += [] if "Verdict Ok" in bench.text("#states .terms") or "verdict" not in found else ["it says " + bench.text("#states .terms")]
    bench.window.screenshot(os.path.join(folder, "outcomes.png"))
    for at, state in enumerate(found["states"]):
        bench.choose("outcomes")
        bench.window.click("#begin")
        bench.wait("document.querySelector('#states table') && !bench.task")
        bench.window.click("#states tbody tr:nth-child(%d) button" % (at + 1))
        registers = bench.value("shown.run.registers.map(file => Object.fromEntries(file))")
        got = {name: registers[int(name[0])][name[2:]] for name in state["values"] if ":" in name}
        faults += differs("the run to state %d" % at, got, {name: word for name, word in state["values"].items() if ":" in name})
        faults += differs("rows of the table beside the run", bench.value("document.querySelectorAll('#states tbody tr').length"), len(found["states"]))
        faults += differs("its choices", bench.value("Object.fromEntries(shown.run.choices)"), {"used": len(state["choices"].split()), "stalled": 0, "unused": 0})
    bench.choose("outcomes")
    bench.fill("set-states", "3")
    bench.window.click("#begin")
    bench.wait("!bench.task && document.querySelector('.ways-on')")
    said = bench.value("[byId('hint').textContent, document.querySelector('#states > [role=status]').textContent, document.querySelector('.ways-on').previousElementSibling.textContent.includes('The search kept 3 states, its limit')]")
    faults += differs("too few states, where why has told", said, ["", "Yes: both loads read 0 in a run.", True])
    return faults + faults_of_met(bench, found) + safety(bench)


def faults_of_met(bench, found):
    """Whether some states, of a search that met its limit, are shown as some, with the verdict that one of them decides."""
    told = {"met": found["states"][:2], "test": found["test"], "unfinished": {"states": 3}, "verdict": "Ok"}
    bench.value("everMet.asks = null, showMet({ status: 3, text: %s, hint: '' }, 32)" % json.dumps(json.dumps(told)))
    said = bench.value("[...document.querySelectorAll('#states > p')].map(each => each.textContent).join(' ')")
    faults = differs("rows of the table of some states", bench.value("document.querySelectorAll('#states tbody tr').length"), 2)
    return faults + differs("some states", [said.startswith("Yes: both loads read 0 in a run."), " The search kept 3 states" in said, "It met 2 of the outcomes." in said, "Ok" in said], [True] * 4) + faults_of_missed(bench, found)


def faults_of_missed(bench, found):
    """Whether what a search met without the run that why has found is told apart from that, in the table and beside the text."""
    told = {"met": [state for state in found["states"] if not state["holds"]][:2], "test": found["test"], "unfinished": {"states": 3}, "verdict": None}
    way = next(state for state in found["states"] if state["holds"])
    bench.value("noteAnswer(inputOf('why'), %s)" % json.dumps({"answer": "allowed", "choices": way["choices"], "values": way["values"], "asked": {"truth": True}}))
    bench.value("everMet.asks = null, showMet({ status: 3, text: %s, hint: '' }, 32), showFormat()" % json.dumps(json.dumps(told)))
    said = bench.value("[document.querySelector('.filtered').textContent, byId('report-note').textContent.trim(), byId('report-note').querySelector('button').dataset.ask]")
    return differs("beside why's run", said, ["3 rows: 2 met, and the one of “Why”", "This is the search alone. That it can be is the answer of “Why”: its text has the run.", "why"])


def verdict_row(bench):
    """What an answer tells of a condition is shown as it is: of each state whether it makes it true, and the verdict."""
    bench.open()
    test = read(EXAMPLES, FIRST).partition(DIVIDING_LINE)[0]
    found = json.loads(bench.program(test, "outcomes", "--json")[1])
    truths = [at % 3 == 0 for at in range(len(found["states"]))]  # others than those of the test, so that nothing but the answer says so
    for verdict in ("Ok", "No"):
        told = {**found, "verdict": verdict, "states": [{**state, "holds": holds} for state, holds in zip(found["states"], truths)]}
        bench.value("showOutcomes({ status: 0, text: %s, hint: '' }, undefined, %s)" % (json.dumps(json.dumps(told)), json.dumps(test)))
        marked = bench.value("[...document.querySelectorAll('#states tbody tr')].map(row => [row.matches('.met'), row.textContent.includes('✓ true')])")
        faults = differs("marked", marked, [[holds, holds] for holds in sorted(truths, reverse=True)])
        faults += [] if "Verdict %s: " % verdict in bench.text("#states .terms") else ["it says " + bench.text("#states .terms")]
    for quantifier, wanted in (("~exists", [["✗ breaks it", True]] + 3 * [["keeps it", False]]), ("forall", 3 * [["✗ breaks it", True]] + [["keeps it", False]])):
        bench.fill("test", test.replace("exists", quantifier))
        bench.value("findOutcomes()")
        bench.wait("!bench.task && document.querySelector('.states-sheet')")
        rows = bench.value("[...document.querySelectorAll('#states tbody tr')].map(row => [row.cells[1].textContent, row.matches('.met')])")
        faults += differs(quantifier, rows, wanted)
    return faults + safety(bench)


def sweep_row(bench):
    bench.open()
    test = read(EXAMPLES, FIRST).partition(DIVIDING_LINE)[0]
    bench.choose("sweep")
    bench.fill("set-seeds", "100")
    bench.window.click("#begin")
    bench.wait("!bench.task && byId('report').textContent")
    faults = differs("the sweep", bench.text("#report"), bench.program(test, "sweep", "--seeds", "100")[1])
    bench.fill("set-seeds", "1001")
    faults += [] if "from 1 to 1000" in bench.text("#said") else ["1001 seeds: " + bench.text("#said")]
    faults += differs("the button", bench.value("byId('begin').disabled"), True)
    return faults + safety(bench)


def counts_row(bench):
    """Counts of many runs are a table of what the program counts; runs that didn't end are named, and where none ended there is no table."""
    bench.open()
    if not bench.value("document.querySelector('#commands input[value=counts]') !== null"):
        return ["the module answers no counts"] if bench.value("answersTo(bench.tso, 'counts')") else []
    test = read(EXAMPLES, FIRST).partition(DIVIDING_LINE)[0]
    bench.choose("counts")
    bench.fill("set-protocol", "moesi")
    bench.window.click("#begin")
    bench.wait("document.querySelector('#states table')")
    cores = json.loads(bench.program(test, "counts", "--protocol", "moesi", "--json")[1])["cores"]
    wanted = sorted("%d (%d–%d)" % (each["sum"], each["least"], each["greatest"]) for core in cores for each in core.values())
    shown = bench.value("[...document.querySelectorAll('#states tbody tr')].flatMap(row => [...row.cells].slice(1, -1).map(cell => cell.textContent))")
    faults = differs("the counts", sorted(shown), wanted)
    faults += [] if "10 runs by chance, under MOESI, ended." in bench.text("#states p") else ["it says " + bench.text("#states p")]
    bench.fill("set-length", "1")
    bench.window.click("#begin")
    bench.wait("document.querySelector('#states p')?.textContent.startsWith('No run ended')")
    faults += differs("a table where no run ended", bench.value("document.querySelectorAll('#states table').length"), 0)
    return faults + safety(bench)


def stop_row(bench):
    """A long search is stopped, and the page goes on."""
    bench.open()
    bench.choose("outcomes")
    bench.fill("test", LONG_SEARCH)
    bench.fill("set-states", "10000000")
    faults = differs("the test is refused", bench.text("#said"), "")
    bench.window.click("#begin")
    bench.wait("!byId('stop').hidden")
    bench.window.click("#stop")
    faults += differs("stopped", [bench.text("#said"), bench.value("byId('stop').hidden"), bench.value("bench.task")], ["", True, None])
    bench.choose("run")
    bench.fill("test", read(EXAMPLES, FIRST).partition(DIVIDING_LINE)[0])
    return faults + differs("a run after it", bench.page.is_drawn(), True) + safety(bench)


def compared_row(bench):
    """Of a search that is stopped while sequential consistency is searched, or why is asked, what was found of the test itself counts: the whole answer, where it has one."""
    bench.open()
    bench.fill("test", CHAIN)
    bench.value("window.told = [], tellProgress = (tell => progress => { told.push([progress.pass, progress.before.map(({ status }) => status)]); tell(progress); })(tellProgress), ask('outcomes'), true")
    bench.wait("!bench.task && document.querySelector('.states-sheet')")
    faults = differs("told of the second pass", bench.value("told.filter(([pass]) => pass > 0).map(([, before]) => before.join())").count("0") > 0, True)
    bench.fill("test", read(EXAMPLES, FIRST).partition(DIVIDING_LINE)[0])
    stopped = "beginWorking(), bench.task = { stop() {} }, tellProgress({ command: '%s', pass: 1, before: [bench.tso.answer({ command: '%s', json: true%s }, inputOf('why'))], count: 0, next: 2000, most: 9000 }), byId('stop').click(), true"
    bench.choose("outcomes")
    bench.value(stopped % ("outcomes", "outcomes", ", depth: 32"))
    faults += differs("outcomes", bench.text("#states > [role=status]"), "Yes: both loads read 0 in 1 of 4 outcomes under TSO. Without store buffers (SC) the search was stopped: “Why …?” compares them.")
    bench.choose("why")
    bench.value(stopped % ("why", "why", ""))
    faults += differs("why", [bench.text(".reason > [role=status] > strong"), bench.value("byId('stopped').hidden")], ["Yes: both loads read 0 in a run.", True])
    bench.choose("outcomes")
    bench.value(stopped % ("why", "outcomes", ", depth: 32, states: 5"))
    return faults + differs("what was met", bench.value("[/among the first 5 states/.test(byId('stopped').textContent), firstAnswer().status === UNENDED]"), [True, True]) + safety(bench)


def long_run_row(bench):
    """A run of very many choices is made in a worker, which can be stopped."""
    bench.open()
    test = read(EXAMPLES, FIRST).partition(DIVIDING_LINE)[0]
    stopped = bench.value("(field => { field.value = 'seed 1 100000'; field.dispatchEvent(new Event('input', { bubbles: true }));"
                          "const began = [bench.task !== null, byId('stop').hidden]; byId('stop').click(); return [...began, bench.task, byId('stop').hidden]; })(byId('choices'))")
    faults = differs("begun and stopped", stopped, [True, False, None, True]) + differs("drawn", bench.page.is_drawn(), False)
    for choices in ("seed 1 100000", "0d " * 20000):
        bench.fill("choices", choices)
        bench.wait("!bench.task && byId('report').textContent")
        status, said, hint = bench.program(test + DIVIDING_LINE + choices, "run")
        faults += differs("the report", bench.text("#report"), said) + differs("drawn", bench.page.is_drawn(), status == 0)
        faults += differs("the hint", bench.text("#hint"), begun(bench.said(hint)))
        is_few = status == 0  # of a run that ends, few choices are used
        faults += differs("steps are shown, or the page says why not", bench.value("bench.tracing === null || [drive.isOn, byId('no-steps').hidden]"), [is_few, is_few])
    return faults + safety(bench)


def comparison_row(bench):
    """The same choices on other machines, each as the program runs them there; and a machine that is taken."""
    bench.open()
    text = read(EXAMPLES, "own-store-first.litmus")
    bench.load("own-store-first.litmus")
    bench.value("byId('comparison').open = true")
    bench.wait("document.querySelector('#compared table')")
    rows = bench.value("[...document.querySelectorAll('#compared tbody tr')].map(row => [...row.cells].map(cell => cell.textContent))")
    own, faults = json.loads(bench.program(text, "run", "--json")[1]), []
    faults += differs("machines", [row[0] for row in rows], ["MSI, atomic bus, depth 4", "MESI, atomic bus, depth 4", "MOESI, atomic bus, depth 4",
                      "MOSI, atomic bus, depth 4", "MSI, split bus, depth 4", *["MSI, atomic bus, depth %d" % depth for depth in (0, 1, 2, 32)]])
    for row in rows:
        protocol, bus, depth = re.match(r"(\w+), (\w+) bus, depth (\d+)", row[0]).groups()
        status, said, _ = bench.program(text, "run", "--json", "--protocol", protocol.lower(), "--bus", bus, "--depth", depth)
        run = json.loads(said)
        if status == 3:
            wanted = ["no", "", str(run["unfinished"]["stalled"]), "", "", "", "", "", "", str(run["unfinished"]["used"])]
        else:
            counts = [str(sum(core[name] for core in run["cache"])) for name in ("hits", "misses", "upgrades", "write_backs", "flushes")]
            wanted = ["yes", "the same" if run["order"] == own["order"] else "another", str(run["choices"]["stalled"]),
                      str(run["condition"]["holds"]).lower(), *counts, str(run["choices"]["used"])]
        faults += differs(row[0], row[1:-1], wanted)
    bench.value("document.querySelector('#compared tbody tr:nth-child(3) button').click()")
    return faults + differs("taken", bench.value("changedSettings()"), [["protocol", "moesi"]]) + safety(bench)


# Rows of the module alone, whatever the page shows.
OF_THE_MODULE = ("answers of the module", "traces of the module", "made inputs", "browsers that can't open it")


def rows(page, folder):
    bench = Bench(page)
    return [
        ("the first test", lambda: first_row(bench, folder)),
        ("answers of the module", lambda: answers_row(bench)),
        ("traces of the module", lambda: traces_row(bench)),
        ("made inputs", lambda: made_row(bench)),
        ("what is refused", lambda: refused_row(bench, folder)),
        ("outcomes", lambda: outcomes_row(bench, folder)),
        ("the verdict", lambda: verdict_row(bench)),
        ("a sweep", lambda: sweep_row(bench)),
        ("counts", lambda: counts_row(bench)),
        ("a search that is stopped", lambda: stop_row(bench)),
        ("a search that is stopped in its second pass", lambda: compared_row(bench)),
        ("a run of very many choices", lambda: long_run_row(bench)),
        ("other machines", lambda: comparison_row(bench)),
        ("the list of texts", lambda: library_row(bench, folder)),
        ("addresses of tests", lambda: addresses_row(bench)),
        ("files that are dropped", lambda: drops_row(bench)),
        ("what is saved", lambda: saves_row(bench)),
        ("a trap", lambda: trap_row(bench)),
        ("browsers that can't open it", lambda: old_browsers_row(bench)),
        *[("the bench at %d pixels" % width, lambda width=width: widths_row(bench, folder, width)) for width in (360, 768, 1400)],
        ("the dark", lambda: dark_row(bench, folder)),
        ("names of controls", lambda: names_row(bench)),
        ("speed", lambda: speed_row(bench)),
    ]
