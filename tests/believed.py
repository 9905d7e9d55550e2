#!/usr/bin/env python3
"""Counts and lists what has to be believed: the definitions that a promise reaches, along the names that they use.

    tests/believed.py                      for each promise how many definitions, lines and files it reaches, by topic
    tests/believed.py --list PROMISE       its definitions in reading order, each with its file and its number of lines
    tests/believed.py --table              the same as the table that docs/PROVED.md shows
    tests/believed.py --misplaced          what stands in the wrong folder, a line for each two files: FROM TO NAME..
    tests/believed.py --arrange            moves these definitions by tests/move_definitions.py

PROMISE is run (on the atomic bus, plain), run-whole (the split bus and JSON too), trace and trace-whole (likewise), sweep, counts, outcomes,
why (all three plain), check, witness, headline, axioms, state (the axioms, final state and verdict), answers, reach, page, models, branches, refutations or laws
(what the contracts name of all functions that PAGES name and that are no methods; what a contract cites through
another name of a whole file, as `spec.reading_of`, is the code's own way said as a definition, and a word of the inside). A line counts
where it is neither blank, a comment nor an import. tests/declared_types.py lists the types of the code that the headline names.

--arrange gives each definition its folder: specs/ of its crate for what a promise reaches, specs/inner/ for the rest. The last line
is 'N passed, M failed', M being how many definitions don't stand so.
"""
import os
import re
import subprocess
import sys
from functools import lru_cache

sys.dont_write_bytecode = True
from checks import judging
from checks.judging import TOP
from checks.proofs import code_texts
from checks.proofs.definitions import CLAUSE_USE, files

NAME = r"[^\W\d][\w'-]*"
WORD = re.compile(r"(?<![\w.'])" + NAME + r"(?:\." + NAME + r")*")
BOUND = (
    re.compile(r"[({](" + NAME + r"(?: " + NAME + r")*) :(?!:)"),
    re.compile(r"λ ([^.]*)\."),
    re.compile(r"\blet (" + NAME + r") ="),
)

# What each command and each promise beside it rests on. Of a definition that goes by commands, only the command's own case counts.
CASES = {"run": "Run", "trace": "Trace", "sweep": "Sweep", "counts": "Counts", "outcomes": "Outcomes", "why": "Why", "check": "Check",
         "witness": "Witness", "tables": "Tables"}


def names_in(text):
    """The names that a definition's text uses, without those that it binds."""
    bound = set()
    for form in BOUND:
        for group in form.findall(text):
            bound.update(re.findall(NAME, group))
    return [word for word in WORD.findall(text) if word.split(".")[0] not in bound]


@lru_cache(None)
def of_another_case(case):
    """What stands behind a definition's name in a line of another case."""
    return re.compile(r" \(?settings\.(?:" + "|".join(word for word in CASES.values() if word != case) + r")\b")


@lru_cache(None)
def uses(module, name, case):
    """What one definition uses: pairs of a module and a name; a declared type's module stands for itself."""
    file = files()[module]
    definition = file.definitions[name]
    text = definition.text
    if case:
        other = of_another_case(case)
        text = [line for line in text if not (line.startswith(name) and other.match(line, len(name)))]
    fields = set(re.findall(r"^  (?:pub )?(" + NAME + r") :", "\n".join(text), re.M))
    found = []
    words = names_in("\n".join(text))
    for word in words + (["◌>>=◌"] if "do" in words else []):
        first = word.split(".")[0]
        if first == name or first in fields and first not in file.imports:
            continue
        if first in file.definitions:
            found.append((module, first))
        elif first in file.imports:
            source, original = file.imports[first]
            found.append((source, original or word.split(".")[1] if "." in word else original))
    return found


def reached(roots, case=None, without=()):
    """All that these definitions use, in the order in which they are met last: what is used stands before what uses it."""
    seen, order = set(), []

    def visit(module, name):
        if (module, name) in without:
            return
        if module not in files() or (module, name) in seen:
            return
        if name in files()[module].handed_on:
            visit(*files()[module].handed_on[name])
            return
        if name not in files()[module].definitions:
            for source in files()[module].definitions.values():
                if re.search(r"^  (?:pub )?" + re.escape(str(name)) + r" :", "\n".join(source.text), re.M):
                    visit(module, source.name)
            for passed in files()[module].passed_on:
                visit(passed, name)
            return
        seen.add((module, name))
        for used in uses(module, name, case):
            visit(*used)
        order.append((module, name))

    for root in roots:
        visit(*root)
    return order


TOP_LEVEL = ("tso_cli.specs.Headline", "Headline")
SPLIT = ("tso_cli.specs.SplitRun", "split_run")
JSON = (("tso_report.specs.Json", "json_report"), ("tso_report.specs.Json", "json_unfinished"))
TRACED_AS_JSON = (*JSON, ("trace_report.specs.TracedRun", "json_ended"), ("trace_report.specs.TracedRun", "json_unended"))
FOUND_AS_JSON = (("search_report.specs.OutcomesJson", "outcomes_json"), ("search_report.specs.OutcomesJson", "unfinished_outcomes_json"))
REASONS_AS_JSON = (("search_report.specs.LineJson", "never_json"), ("search_report.specs.ReasonJson", "allowed_json"),
                   ("search_report.specs.ReasonJson", "unfinished_reason_json"))
PROMISES = {
    "run": ([TOP_LEVEL], "Run", (SPLIT, *JSON)),
    "run-whole": ([TOP_LEVEL], "Run", ()),
    "trace": ([TOP_LEVEL], "Trace", (SPLIT, *TRACED_AS_JSON)),
    "trace-whole": ([TOP_LEVEL], "Trace", ()),
    "sweep": ([TOP_LEVEL], "Sweep", (SPLIT,)),
    "counts": ([TOP_LEVEL], "Counts", (("counts_report.specs.Json", "json_counts"),)),
    "outcomes": ([TOP_LEVEL], "Outcomes", FOUND_AS_JSON),
    "why": ([TOP_LEVEL], "Why", REASONS_AS_JSON),
    "check": ([TOP_LEVEL], "Check", ()),
    "witness": ([TOP_LEVEL], "Witness", ()),
    "headline": ([TOP_LEVEL], None, ()),
    "axioms": ([("tso_terms.specs.Axioms", "IsTsoExecution")], None, ()),
    "state": ([("tso_terms.specs.Axioms", "IsTsoExecution"), ("tso_terms.specs.FinalState", "final_words"),
               ("tso_terms.specs.FinalState", "final_registers"), ("machine_runs.specs.Simulation", "verdict")], None, ()),
}


def contract_of(crate, function):
    """What the contract of a public function names: pairs of a module and a name."""
    for _, text in code_texts.files_of(crate):
        found = re.search(r"^(?:    )?pub (?:extern \"C\" )?fn " + function + r"\b.*?^(?:    )?\{", text, re.M | re.S)
        if not found:
            continue
        imports = {}
        for line in text.split("\n"):
            use = CLAUSE_USE.match(line)
            if use:
                for item in use.group(2).split(","):
                    original, _, other = item.strip().partition(" as ")
                    imports[other or original] = (use.group(1), original)
        words = names_in(found.group())
        return [imports[word.split(".")[0]] for word in words if word.split(".")[0] in imports]
    raise SystemExit("no function %s in %s" % (function, crate))


LAWS = {
    "answers": (
        ("tso_cli", "answer_to inputs_have_one_answer printed_runs_are_valid witnesses_reach_their_orders"
         " reasons_reach_their_executions"
         " machines_on_the_atomic_bus_answer_alike"),
        ("litmus_reader", "texts_are_decided"),
    ),
    "reach": (("tso_laws", "runs_reach_exactly_the_executions every_execution_is_reached fair_rounds_end"),),
    "page": (("page_exports", "page_answer"),),
    "models": (
        ("relational_model", "executions_have_candidates candidates_of_executions_are_allowed allowed_candidates_are_executions"
         " runs_have_exactly_the_allowed_candidates worked_candidates sequential_candidates_are_sequential_executions"
         " unbuffered_runs_have_exactly_the_sequential_candidates worked_candidates_of_store_buffers"),
        ("locked_laws", "locked_instructions_take_turns no_two_read_one_source somebody_reads_the_initial_word each_but_the_last_is_read"
         " words_add_up reads_add_up worked_locks"),
        ("abstract_machine", "runs_of_the_abstract_machine_are_executions executions_are_runs_of_the_abstract_machine"
         " bounded_buffers_lose_nothing worked_runs_of_the_abstract_machine"),
    ),
    "branches": (
        ("branch_laws", "splitting_is_exact tree_runs_reach_exactly_the_executions tree_ends_are_the_outcomes read_values_are_of_rounds"
         " outcomes_are_the_union_of_paths additions_share_a_test final_states_show_the_path notes_add_nothing same_paths_leave_the_same"
         " bounded_outcomes_are_outcomes cut_off_paths_show worked_branches branch_premises_are_met"),
    ),
    "refutations": (
        ("refutation_laws", "refuted_claims_are_false no_run_makes_a_refuted_claim_true refuted_questions_are_answered"
         " claims_are_refuted_or_met known_values_are_right edges_have_relations worked_refutations"),
        ("possible_reads", "readings_are_possible written_values_are_possible known_order_is_right some_write_comes_last"
         " last_words_are_possible last_registers_are_possible truths_are_those_left claims_give_facts some_case_is_met worked_readings"),
        ("lemma_refutations", "refutations_by_lemmas_are_sound no_run_meets_what_is_refuted refuted_questions_have_answers"
         " refutations_by_lemmas_are_complete edges_have_names worked_refutations_by_lemmas"),
    ),
}


FREE_FUNCTION = re.compile(r"^pub (?:extern \"C\" )?fn (\w+)(?:[^{;]|; \d+\])*?\n    (?:ensures|requires)\b", re.M)


# The pages whose names are promises, and of a page that has definitions too the part that promises.
PAGES = {"README.md": "", "docs/REFERENCE.md": "", "docs/PROVED.md": "", "docs/READING.md": "",
         "docs/BRANCHES.md": "\n## What is proved\n", "docs/COUNTS.md": "\n## What caches did\n"}


def promising_text():
    """What these pages say."""
    texts = []
    for page, heading in PAGES.items():
        with open(os.path.join(TOP, page), encoding="utf-8") as file:
            whole = file.read()
        texts.append(whole.split(heading)[1].split("\n## ")[0] if heading else whole)
    return "".join(texts)


def named_functions():
    """The public functions, but for methods, that PAGES name: pairs of a crate and a name."""
    text = promising_text()
    words = {word for span in re.findall(r"`([^`\n]+)`", text) for word in re.findall(r"\w+", span)}
    return [(path.split("/")[0], function) for path, text in code_texts.files() for function in FREE_FUNCTION.findall(text) if function in words]


def promises():
    """Each promise: the definitions that it begins with, the command whose case counts, and what is left out."""
    found = dict(PROMISES)
    for name, laws in LAWS.items():
        roots = [root for crate, functions in laws for function in functions.split() for root in contract_of(crate, function)]
        found[name] = roots, None, ()
    roots = [root for crate, function in named_functions() for root in contract_of(crate, function)]
    found["laws"] = roots, None, ()
    return found


def topic(module):
    crate = module.split(".")[0]
    if crate in ("litmus_reader", "litmus_cells", "litmus_tokens"):
        return "grammar and refusals of tests"
    if crate in ("scheduler", "witnesses", "order_builder", "commit_order") or module == "tso_terms.specs.Decimals":
        return "choices and orders as texts"
    if crate in ("snoop_bus", "cache_set", "multiprocessor", "machine_core", "protocol_tables", "cache_counts", "counted_steps"):
        return "caches"
    if crate in ("tso_cli", "machine_runs", "simulator", "sweep_runs", "sweeper", "counted_io", "tso_io", "command_line", "page_exports"):
        return "commands"
    if crate in ("tso_report", "search_report", "counts_report", "formats", "told_reasons"):
        return "printed text"
    return "tests, machine, axioms"


def lines_of(definitions):
    return sum(len(files()[module].definitions[name].text) for module, name in definitions)


def show_list(promise):
    for module, name in reached(*promises()[promise]):
        found = files()[module].definitions[name]
        print("%-45s %s:%d (%d)" % (name, os.path.relpath(found.path, TOP), found.number, len(found.text)))


def every_definition():
    return {(module, name) for module, file in files().items() for name in file.definitions}


def all_believed():
    return {definition for asked in promises().values() for definition in reached(*asked)}


def misplaced():
    """What stands in the wrong folder: by the file that it stands in and the one that it belongs to, the names in their order."""
    believed, found = all_believed(), {}
    for module, file in sorted(files().items()):
        crate, _, path = module.partition(".specs.")
        is_inner = path.startswith("inner.")
        for name in file.definitions:
            if ((module, name) in believed) == is_inner:
                other = path[len("inner."):] if is_inner else "inner." + path
                found.setdefault((crate + "/" + path.replace(".", "/"), crate + "/" + other.replace(".", "/")), []).append(name)
    return found


def arrange():
    for (source, target), names in misplaced().items():
        subprocess.run([os.path.join(TOP, "tests", "move_definitions.py"), source, target, *names], check=True)


TOPICS = ("tests, machine, axioms", "caches", "choices and orders as texts", "commands", "printed text", "grammar and refusals of tests")
PROMISED = {
    "run": "`run` on the atomic bus, plain", "run-whole": "`run`, on the split bus and as JSON too", "trace": "`trace` on the atomic bus, plain",
    "trace-whole": "`trace`, on the split bus and as JSON too",
    "sweep": "`sweep` on the atomic bus", "counts": "`counts`, plain", "outcomes": "`outcomes`, plain", "why": "`why`, plain",
    "check": "`check`", "witness": "`witness`", "headline": "the headline, all commands", "axioms": "`IsTsoExecution`",
    "state": "axioms, final state and verdict", "answers": "the answers' laws, `exact` among them", "reach": "what runs reach",
    "page": "the page's answers", "models": "the published models", "branches": "threads that branch", "refutations": "refutations",
    "laws": "all that is named here and in the README",
}


def table():
    """The table of the page of what is proved, as lines."""
    lines = ["| Promise | Definitions | Lines | Files | " + " | ".join(TOPICS) + " |", "|" + "---|" * (4 + len(TOPICS))]
    for promise, asked in promises().items():
        definitions = reached(*asked)
        counts = [len(definitions), lines_of(definitions), len({module for module, _ in definitions})]
        counts += [lines_of([one for one in definitions if topic(one[0]) == name]) for name in TOPICS]
        lines.append("| %s | %s |" % (PROMISED[promise], " | ".join(str(count) for count in counts)))
    return lines


def show_table():
    everything = every_definition()
    believed = set()
    for promise, asked in promises().items():
        definitions = reached(*asked)
        believed.update(definitions)
        modules = {module for module, _ in definitions}
        print("%-10s %4d definitions %5d lines %4d files" % (promise, len(definitions), lines_of(definitions), len(modules)))
        for one in sorted({topic(module) for module, _ in definitions}):
            here = [(module, name) for module, name in definitions if topic(module) == one]
            print("    %-32s %4d %5d" % (one, len(here), lines_of(here)))
    print("all of these %d definitions of %d, %d lines of %d" % (len(believed), len(everything), lines_of(believed), lines_of(everything)))
    wrong = sum(len(names) for names in misplaced().values())
    if wrong:
        print("stand in the wrong folder, specs/ or specs/inner/ (tests/believed.py --misplaced lists them): %d" % wrong)
    print("%d passed, %d failed" % (len(everything) - wrong, wrong))
    return wrong == 0


def main(arguments):
    judging.tell(__doc__)
    if arguments[:1] == ["--list"] and arguments[1:2] and arguments[1] in promises():
        show_list(arguments[1])
    elif arguments == ["--table"]:
        print("\n".join(table()))
    elif arguments == ["--misplaced"]:
        for (source, target), names in misplaced().items():
            print(source, target, *names)
    elif arguments == ["--arrange"]:
        arrange()
    elif arguments:
        sys.exit(__doc__)
    elif not show_table():
        sys.exit(1)


if __name__ == "__main__":
    main(sys.argv[1:])
