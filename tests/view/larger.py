"""Rows for the larger set of instructions: each form in words, at the pointer, in the list of texts, in reasons and on the command line."""
import json
import os
import re

from bench import DIVIDING_LINE, EXAMPLES, differs, read, safety
from driver import Driver
from teaching import press

ALGORITHMS = os.path.join(EXAMPLES, "algorithms")
# Each form with the words at the start, what the page says of its step, and what it says at the pointer.
FORMS = [
    ("LOCK CMPXCHG [x],EBX", "x=3; 0:EAX=3; 0:EBX=7;", "P0's compare and exchange read x=3 from memory. EAX was 3 too, so it wrote x=7, in one step.", "If its word is that of EAX"),
    ("LOCK CMPXCHG [x],EBX", "x=3; 0:EAX=4; 0:EBX=7;", "P0's compare and exchange read x=3 from memory. EAX was 4, so it wrote the old word back: memory is as before, and EAX is 3 now.", "If its word is that of EAX"),
    ("LOCK ADD [x],EBX", "x=3; 0:EBX=7;", "P0's LOCK ADD [x],EBX read x=3 from memory and wrote x=10 (3 + 7), in one step.", "reads the location, computes"),
    ("LOCK SUB [x],$1", "x=3;", "P0's LOCK SUB [x],$1 read x=3 from memory and wrote x=2 (3 − 1), in one step.", "reads the location, computes"),
    ("LOCK AND [x],$6", "x=3;", "P0's LOCK AND [x],$6 read x=3 from memory and wrote x=2 (3 AND 6), in one step.", "reads the location, computes"),
    ("LOCK OR [x],0x10", "x=3;", "P0's LOCK OR [x],$16 read x=3 from memory and wrote x=19 (3 OR 16), in one step.", "reads the location, computes"),
    ("LOCK XOR [x],EBX", "x=3; 0:EBX=1;", "P0's LOCK XOR [x],EBX read x=3 from memory and wrote x=2 (3 XOR 1), in one step.", "reads the location, computes"),
    ("LOCK INC [x]", "x=3;", "P0's LOCK INC [x] read x=3 from memory and wrote x=4 (3 + 1), in one step.", "reads the location, computes"),
    ("LOCK DEC [x]", "x=3;", "P0's LOCK DEC [x] read x=3 from memory and wrote x=2 (3 − 1), in one step.", "reads the location, computes"),
    ("LOCK NEG [x]", "x=-2;", "P0's LOCK NEG [x] read x=4294967294 from memory and wrote x=2 (0 − 4294967294), in one step.", "reads the location, computes"),
    ("LOCK NOT [x]", "x=-1;", "P0's LOCK XOR [x],$4294967295 read x=4294967295 from memory and wrote x=0 (4294967295 XOR 4294967295), in one step.", "reads the location, computes"),
    ("LOCK XADD [x],EBX", "x=3; 0:EBX=7;", "P0's LOCK XADD [x],EBX read x=3 from memory and wrote x=10 (3 + 7), in one step.", "the sum of its word and the register"),
    ("XCHG [x],EBX", "x=3; 0:EBX=7;", "P0's XCHG [x],EBX read x=3 from memory and wrote x=7, in one step.", "as with LOCK"),
    ("ADD EAX,EBX", "0:EAX=3; 0:EBX=7;", "P0's ADD EAX,EBX set EAX=10 (3 + 7).", "registers of this core alone"),
    ("SUB EAX,$1", "0:EAX=3;", "P0's SUB EAX,$1 set EAX=2 (3 − 1).", "registers of this core alone"),
    ("AND EAX,$6", "0:EAX=3;", "P0's AND EAX,$6 set EAX=2 (3 AND 6).", "registers of this core alone"),
    ("OR EAX,$4", "0:EAX=3;", "P0's OR EAX,$4 set EAX=7 (3 OR 4).", "registers of this core alone"),
    ("XOR EAX,$1", "0:EAX=3;", "P0's XOR EAX,$1 set EAX=2 (3 XOR 1).", "registers of this core alone"),
    ("INC EAX", "0:EAX=3;", "P0's INC EAX set EAX=4 (3 + 1).", "registers of this core alone"),
    ("DEC EAX", "0:EAX=3;", "P0's DEC EAX set EAX=2 (3 − 1).", "registers of this core alone"),
    ("NOT EAX", "0:EAX=-1;", "P0's XOR EAX,$4294967295 set EAX=0 (4294967295 XOR 4294967295).", "registers of this core alone"),
    ("NEG EAX", "0:EAX=3;", "P0's NEG EAX set EAX=4294967293 (0 − 3).", "registers of this core alone"),
    ("XCHG EAX,EBX", "0:EAX=3; 0:EBX=7;", "P0's XCHG EAX,EBX set EAX=7 and EBX=3.", "registers of this core alone"),
    ("MOV EAX,$5", "", "P0's MOV EAX,$5 set EAX=5.", "registers of this core alone"),
    ("XCHG EBX,[x]", "x=3; 0:EBX=7;", "P0's XCHG EBX,[x] read x=3 from memory and wrote x=7, in one step.", "as with LOCK"),
    ("NOP", "", "P0's NOP changed nothing.", "It does nothing"), ("PAUSE", "", "P0's PAUSE changed nothing.", "It does nothing"),
    ("LFENCE", "", "P0's LFENCE changed nothing.", "It does nothing"), ("sfence", "", "P0's SFENCE changed nothing.", "It does nothing"),
]
FORM = "X86 form\n{ %s }\n P0 ;\n %s ;\n"
SEEN = "[byId('sentence').textContent, byId('said').textContent, MEANINGS[document.querySelector('.program code').dataset.means]]"
WRITTEN = "X86 written\n{ 1:EAX=1; }\n P0 | P1 ;\n MOV [x],$1 | xchg EAX,[y] ;\n lfence | PAUSE ;\n MOV EAX,[y] | NOP ;\n"


def forms_row(bench, folder):
    """Each form is read, makes its step, and says what it did and what such an instruction does."""
    bench.open_fresh()
    faults = []
    for instruction, start, said, means in FORMS:
        bench.value("takeText(%s)" % json.dumps(FORM % (start, instruction)))
        press(bench, "[data-choice='0s']")
        sentence, refusal, meaning = bench.value(SEEN)
        faults += differs(instruction, [sentence, refusal], ["0s: " + said, ""])
        faults += [] if means in meaning else ["of %s it says at the pointer: %s" % (instruction, meaning)]
    bench.window.screenshot(os.path.join(folder, "larger-form.png"), whole=False)
    listed = "[...document.querySelectorAll('.program li')].map(each => each.textContent + (each.dataset.c ? ', ' + each.dataset.c : ''))"
    bench.value("takeText(%s)" % json.dumps(WRITTEN))
    faults += differs("as it is written", bench.value(listed), ["MOV [x],$1", "LFENCE, no effect here", "MOV EAX,[y]", "XCHG EAX,[y]", "PAUSE", "NOP"])
    bench.value("takeText(%s)" % json.dumps(WRITTEN.replace("lfence", "SFENCE (* or none *)")))
    faults += differs("with a remark", bench.value(listed)[1], "SFENCE, no effect here")
    return faults + safety(bench)


def split_row(bench):
    """On the split bus a compare and exchange says first what it will do, and then what it did; EAX is shown, though nothing names it."""
    bench.open_fresh("test=" + "X86%20a%0A%7B%20x%3D3%3B%20%7D%0A%20P0%20%3B%0A%20LOCK%20CMPXCHG%20%5Bx%5D%2CEBX%20%3B%0A&bus=split")
    bench.wait("drive.isOn")
    faults = differs("registers", bench.value("[...document.querySelectorAll('.registers li')].map(each => each.textContent)"), ["EAX=0", "EBX=0"])
    said = []
    for _ in range(3):
        press(bench, "[data-choice='0s']")
        said.append(bench.text("#sentence"))
    faults += [] if "EAX was 0: it will write the old word back, and keeps the bus until then." in said[1] else ["it says %s" % said[1]]
    faults += [] if "P0's LOCK CMPXCHG [x],EBX wrote x=3, and the bus is free again." in said[2] else ["it says %s" % said[2]]
    return faults + differs("written", bench.value("[...document.querySelectorAll('.registers .written')].map(each => each.textContent)"), ["EAX=3"]) + safety(bench)


def library_row(bench, folder):
    """The list has the algorithms: a search for an instruction finds those that have it, and one opens and is driven."""
    bench.open_fresh()
    bench.value("byId('test-part').open = true; byId('library').open = true")
    bench.fill("search", "CMPXCHG")
    names = sorted(name for name in os.listdir(ALGORITHMS) if name.endswith(".litmus") and "CMPXCHG" in read(ALGORITHMS, name))
    shown = "[...document.querySelectorAll('#texts [data-file]')].map(each => each.dataset.file).sort()"
    faults = differs("found", bench.value(shown), names)
    bench.window.screenshot(os.path.join(folder, "larger-library.png"))
    press(bench, "[data-file='CASLOCK.litmus']")
    bench.wait("drive.isOn && testName() === 'CASLOCK'")
    faults += differs("the command line", bench.text("#words-line").strip(), "./tso run --instructions all < CASLOCK.litmus")
    for choice in ("0s", "1s"):
        press(bench, "[data-choice='%s']" % choice)
    text = read(ALGORITHMS, "CASLOCK.litmus") + DIVIDING_LINE + "0s 1s\n"
    faults += differs("the report", bench.value("asked(firstHistory().options, driveInput()).text"), bench.program(text, "run", "--instructions", "all")[1])
    return faults + safety(bench)


def answers_row(bench):
    """Every algorithm under each command is answered as by the program with all instructions."""
    bench.open_fresh()
    faults = []
    for name in sorted(name for name in os.listdir(ALGORITHMS) if name.endswith(".litmus")):
        text = read(ALGORITHMS, name)
        for words in ("outcomes --json", "why --json", "why --json --model sc", "sweep --seeds 20", "counts --json --seeds 5", "trace --json"):
            given, asked = text + (DIVIDING_LINE + "seed 3 200\n" if words.startswith("trace") else ""), [*words.split(), "--instructions", "all"]
            faults += differs("%s of %s" % (words, name), bench.answer(given, asked), bench.program(given, *asked))
    return faults + safety(bench)


def reasons_row(bench, folder):
    """Why nobody gets a lock twice is told in words where no value is left, and by a cycle through locked instructions."""
    faults = []
    for name, said in (("CASLOCK", r"It can't be: (no word is left that P0's EAX could have at the end|nothing is left that P0's locked load of l can read)\."),
                       ("TRYLOCK+both", r"It can't be: P0's store x=1 would be before itself in memory order\.")):
        bench.open_fresh()
        bench.value("takeFromLibrary('%s.litmus')" % name)
        bench.value("askWhy()")
        bench.wait("!bench.task && document.querySelector('.reason')")
        told = bench.value("document.querySelector('.reason .tree').textContent")
        faults += [] if re.search(said, told) else ["of %s it says %s" % (name, told)]
        bench.window.screenshot(os.path.join(folder, "larger-why-%s.png" % name))
    return faults + safety(bench)


def rows(page, folder):
    bench = Driver(page)
    bench.open_fresh()
    if not bench.value("bench.hasLargerSet"):
        print("left out, the larger set of instructions: the module hasn't got it")
        return []
    return [
        ("instructions in words", lambda: forms_row(bench, folder)),
        ("a compare and exchange on the split bus", lambda: split_row(bench)),
        ("algorithms in the list", lambda: library_row(bench, folder)),
        ("answers to algorithms", lambda: answers_row(bench)),
        ("reasons of algorithms", lambda: reasons_row(bench, folder)),
    ]
