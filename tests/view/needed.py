"""Rows for which fences a test needs that can't be, and which would forbid another: what is asked without each of them, what that comes to, and what breaks it off."""
from bench import differs, safety
from driver import Driver
from reasons import text_of

TOLD = "(part => [part.querySelector('[role=status]').textContent, [...part.querySelectorAll('li')].map(each => each.firstChild.textContent.trim())])(document.querySelector('.passing'))"
PRESSED = "document.querySelector('.passing button').click()"
SB = "X86 SB\n{ }\n P0          | P1          ;\n MOV [x],$1  | MOV [y],$1  ;\n%s MOV EAX,[y] | MOV EAX,[x] ;\n%sexists (0:EAX=0 /\\ 1:EAX=0)\n"
BOTH, FIRST = " MFENCE      | MFENCE      ;\n", " MFENCE      |             ;\n"
# Of each test what its fences come to, and of some what stands in the lines.
ASKED = [
    (SB % (BOTH, ""), "Both are needed.", ["Without P0's MFENCE: it can be.", "Without P1's MFENCE: it can be."]),
    (SB % (BOTH, FIRST), "P0's first MFENCE and P1's MFENCE are enough.",
     ["Without P0's first MFENCE: it can be.", "Without P0's second MFENCE: still it can't be.", "Without P1's MFENCE: it can be."]),
    ((SB % (BOTH + FIRST, "")).replace("exists", "~exists"), "P1's MFENCE is needed, and some of the others.",
     ["Without P0's first MFENCE: the claim holds.", "Without P0's second MFENCE: the claim holds.", "Without P1's MFENCE: the claim is false.", "With P1's MFENCE alone: the claim is false."]),
    (text_of("MP+mfences"), "None is needed.", ["Without P0's MFENCE: still it can't be.", "Without P1's MFENCE: still it can't be.", "Without any MFENCE: still it can't be."]),
    (text_of("SB+mfence+xchg"), "P0's MFENCE is needed.", ["Without P0's MFENCE: it can be."]),
]
# Of tests that can be: what is told of fences that forbid it.
RING = "X86 RING\n{ }\n P0 | P1 | P2 ;\n MOV [x],$1 | MOV [y],$1 | MOV [z],$1 ;\n MFENCE | | MFENCE ;\n MOV EAX,[y] | MOV EAX,[z] | MOV EAX,[x] ;\nexists (0:EAX=0 /\\ 1:EAX=0 /\\ 2:EAX=0)\n"
ONES = ["One on P0, after its store of x and before its load of y (P0:1).", "One on P1, after its store of y and before its load of x (P1:1)."]
FORBIDDEN = [
    (RING, "With an MFENCE on P1, after its store of y and before its load of z (P1:1): it can't be. Open this test", []),
    (RING.replace("exists", "~exists"), "With an MFENCE on P1, after its store of y and before its load of z (P1:1): the claim holds. Open this test", []),
    (SB % ("", ""), "With 2 MFENCEs: it can't be. Open this test", ONES),
]
FENCE = "[...document.querySelectorAll('.passing button')].at(-1)"


def ask_why(bench, test):
    bench.fill("test", test)
    bench.value("askWhy()")
    bench.wait("!bench.task && sheet.test === inputOf('why') && document.querySelector('.reason')")


def told_row(bench):
    """Nothing is asked before it is pressed. Then each fence has its line, as why answers without it, and a last word. A test without fences has no such button, nor has one with more than the module reads."""
    bench.open_fresh()
    faults = []
    for test, said, lines in ASKED:
        ask_why(bench, test)
        faults += differs("before it is pressed", bench.value(TOLD), ["", []])
        bench.value(PRESSED)
        bench.wait("!bench.task")
        faults += differs("told of " + test, bench.value(TOLD), [said, lines])
    for test in (text_of("MP"), (SB % (BOTH, "")).replace("exists", "(* P0 | MFENCE; *)\nexists")):
        ask_why(bench, test)
        faults += differs("a button of " + test, bench.value("document.querySelector('.passing') === null"), True)
    return faults + safety(bench)


def opened_row(bench):
    """A line's test opens as an edit, with its own answer; undo brings back the other one, with what was told."""
    bench.open_fresh()
    ask_why(bench, SB % (BOTH, ""))
    bench.value(PRESSED)
    bench.wait("!bench.task")
    bench.value("document.querySelector('.passing li button').click()")
    bench.wait("!bench.task && document.querySelector('.is-yes')")
    faults = differs("opened", bench.value("testNow()"), SB % ("             | MFENCE      ;\n", ""))
    bench.value("document.body.dispatchEvent(new KeyboardEvent('keydown', { key: 'z', ctrlKey: true, bubbles: true }))")
    bench.wait("!bench.task && document.querySelector('.is-no')")
    return faults + differs("undone", bench.value("[testNow(), %s[0]]" % TOLD), [SB % (BOTH, ""), "Both are needed."]) + safety(bench)


def broken_off_row(bench):
    """Escape breaks it off, with the sheet as it was; so does another question."""
    bench.open_fresh()
    ask_why(bench, SB % (BOTH, ""))
    bench.value("window.begun = beginTask; window.stops = 0; beginTask = (_, [{ cases, json }]) => ({ answers: new Promise(() => {}), stop() { stops += json && cases > POSSIBLE_CASES; } }); true")
    bench.value("document.querySelector('.passing button').focus(); " + PRESSED)
    faults = differs("while it works", bench.value("[byId('working').hidden, byId('states').className]"), [False, ""])
    bench.window.press("Escape")
    state = "[stops, bench.task, byId('working').hidden, byId('stopped').hidden, currentCommand(), document.activeElement.textContent]"
    faults += differs("after Escape", bench.value(state), [1, None, True, True, "why", "Which fences does it need?"]) + differs("said", bench.value(TOLD), ["Stopped.", []])
    bench.value(PRESSED + "; beginTask = begun; ask('outcomes')")
    bench.wait("!bench.task && document.querySelector('.states-sheet')")
    return faults + differs("another question", bench.value("stops"), 2) + safety(bench)


def forbidden_row(bench):
    """Which fences would forbid what can be: each told of is needed, and the test that opens has that answer. Where sequential consistency allows it nothing is offered."""
    bench.open_fresh()
    faults = []
    for test, said, lines in FORBIDDEN:
        ask_why(bench, test)
        bench.value(FENCE + ".click()")
        bench.wait("!bench.task")
        faults += differs("told of " + test, bench.value(TOLD.replace("'.passing')", "'.passing:has(> button)')")), [said, lines])
    bench.value(FENCE + ".click()")
    bench.wait("!bench.task && document.querySelector('.is-no')")
    faults += differs("opened", bench.value("testNow()"), SB % (" MFENCE      | MFENCE      ;\n", ""))
    ask_why(bench, (SB % ("", "")).replace("1:EAX=0", "1:EAX=1"))
    return faults + differs("what sequential consistency allows", bench.value("document.querySelector('.passing > button')"), None) + safety(bench)


def rows(page, _):
    bench = Driver(page)
    return [("why, which fences are needed", lambda: told_row(bench)), ("why, a test without a fence", lambda: opened_row(bench)), ("why, Escape breaks off which fences", lambda: broken_off_row(bench)), ("why, which fence would forbid it", lambda: forbidden_row(bench))]
