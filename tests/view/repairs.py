"""Rows for what once went wrong on the page, each as it was seen."""
import json
import os
import re
import subprocess
import tempfile
import xml.etree.ElementTree

from bench import DIVIDING_LINE, EXAMPLES, FIRST, READY, differs, read, safety
from browser import PRINTED_TEXT
from driver import LARGE, Driver
from teaching import press

TEST = read(EXAMPLES, FIRST).partition(DIVIDING_LINE)[0]
LINES = 1_000_000
PATIENCE = 3000  # milliseconds, on a machine that is busy


def printed(bench):
    """The text of the page as it prints, with its columns kept."""
    with tempfile.NamedTemporaryFile(suffix=".pdf") as file:
        file.write(bench.window.printed())
        file.flush()
        return subprocess.run([PRINTED_TEXT, "-layout", file.name, "-"], capture_output=True, text=True, timeout=60).stdout


def has(text, *words):
    return ["on paper there is no %s" % word for word in words if word not in text]


def paper_row(bench, folder):
    """Eight cores on paper: each piece of the picture has the names over their lanes, programs and choices are whole."""
    bench.load(LARGE, "seed 3 900", {})
    bench.value("goTo(400)")
    with open(os.path.join(folder, "eight-cores-run.pdf"), "wb") as file:
        file.write(bench.window.printed())
    text = printed(bench)
    pieces = bench.value("(drawForPaper(), document.querySelectorAll('#frame svg').length)")
    bench.value("redraw()")
    names = re.findall(r"^\s*P0\s+P1\s+P2\s+P3\s+P4\s+P5\s+P6\s+P7\s*$", text, re.MULTILINE)
    faults = [] if len(names) >= pieces > 10 else ["%d lines of names for %d pieces" % (len(names), pieces)]
    places = bench.value("[...document.querySelectorAll('.core')].map(core => core.querySelectorAll('.program li').length)")
    faults += differs("instructions", places, [32] * 8)
    faults += has(text, "MOV EAX,[a5]", "31.", "Choices: " + " ".join(bench.value("drive.words.slice(0, 3)")))
    return faults + safety(bench)


def answers_on_paper_row(bench):
    """Outcomes, a check, a sweep and tables have their answer on paper."""
    faults = []
    for command, wanted in (("outcomes", "Choices that lead there"), ("sweep", "Sweep"), ("check", "Valid"), ("tables", "Invalid")):
        bench.open()
        bench.value("byId('test-part').open = true")
        bench.value("putCommand('%s'); byId('given').value = asked({ command: 'run' }, inputOf('run')).text; answerNow()" % command)
        if command in ("outcomes", "sweep"):
            bench.value("begin()")
            bench.wait("!bench.task")
        text = printed(bench)
        report = bench.text("#report").split("\n")[0].strip()
        faults += ["%s: %s" % (command, fault) for fault in has(text, "./tso " + command, *([wanted] if command == "outcomes" else [report]))]
        faults += [] if command == "outcomes" or report else ["%s has no report" % command]
    return faults + safety(bench)


def few_choices_row(bench):
    """A run that spells many choices and uses few has its steps."""
    bench.open()
    for choices in ("seed 1 100000", "0s 1s seed 4 5000", "seed 2 1001"):
        bench.fill("choices", choices)
        bench.wait("!bench.task && byId('report').textContent")
        status, said, _ = bench.program(TEST + DIVIDING_LINE + choices, "run", "--json")
        faults = differs(choices, bench.value("[drive.isOn, byId('no-steps').hidden, drive.words.length]"), [True, True, json.loads(said)["choices"]["used"]])
        faults += differs("the report of " + choices, bench.value("reportNow().text"), bench.program(TEST + DIVIDING_LINE + choices, "run")[1])
        if faults:
            return faults
    return safety(bench)


def long_text_row(bench):
    """A text of very many lines is refused before a field has it: pasted, dropped, and by an address."""
    bench.open()
    bench.value("byId('test-part').open = true; byId('test').focus()")
    tried = ("(() => { const start = performance.now(), data = '\\n'.repeat(%d); const event = new InputEvent('beforeinput', { data, inputType: 'insertFromPaste', "
             "bubbles: true, cancelable: true }); const isTaken = byId('test').dispatchEvent(event); return [isTaken, performance.now() - start]; })()" % LINES)
    taken, time = bench.value(tried)
    faults = differs("a paste is taken", taken, False) + ([] if time < PATIENCE else ["it takes %d ms" % time])
    faults += [] if "too long" in bench.text("#said") else ["it says " + bench.text("#said")]
    bench.window.type("\n" * 20_000)  # as a keyboard or a clipboard puts it
    faults += differs("the test", bench.value("byId('test').value"), TEST)
    bench.value("takeText('\\n'.repeat(%d))" % LINES)
    faults += differs("the test after a drop", bench.value("byId('test').value"), TEST)
    bench.value("openTest('test=' + '%%0A'.repeat(%d))" % 20_000)
    faults += differs("the test after an address", bench.value("byId('test').value"), TEST)
    return faults + safety(bench)


def arrows_row(bench):
    """A picture that goes on to the side is scrolled by the arrows, when it has the focus; else they go back and forward."""
    bench.load(LARGE, "seed 3 100", {}, 700)
    bench.value("goTo(60)")
    bench.value("byId('frame').focus()")
    bench.window.press("ArrowLeft")
    faults = differs("choices made, with the focus on the picture", bench.value("drive.count"), 60)
    bench.value("document.activeElement.blur()")
    bench.window.press("ArrowLeft")
    return faults + differs("choices made, without it", bench.value("drive.count"), 59) + safety(bench)


def stops_row(bench):
    """Each stop of the tab key has a name, and programs of few lines don't overflow."""
    faults = []
    for test, width in ((TEST, 1400), (LARGE, 1400), (TEST, 360), (LARGE, 360)):
        bench.load(test, "", {}, width)
        faults += bench.value("""[...document.querySelectorAll('.program')].filter(each => !each.matches('.long') && getComputedStyle(each).overflow !== 'visible')
          .map(each => each.textContent + ' scrolls')""")
        faults += bench.value("""[...document.querySelectorAll('[tabindex="0"]')].filter(each => !each.getAttribute('aria-label')).map(each => each.className + ' has no name')""")
        faults += bench.value("""[...document.querySelectorAll('.program.long')].filter(each => parseFloat(getComputedStyle(each).paddingLeft) < 34).map(each => 'numbers are cut')""")
    return faults + safety(bench)


def seed_row(bench):
    """A seed that is none is said to be none."""
    bench.open()
    faults = []
    for seed in ("", "x", "-1", "1" * 19):
        bench.fill("drive-seed", seed)
        bench.value("drawSeed()")
        faults += [] if "whole number" in bench.text("#sentence") else ["of the seed %r it says %s" % (seed, bench.text("#sentence"))]
        faults += differs("marked", bench.value("byId('drive-seed').getAttribute('aria-invalid')"), "true")
    bench.fill("drive-seed", "7")
    bench.value("drawSeed()")
    return faults + differs("marked", bench.value("byId('drive-seed').getAttribute('aria-invalid')"), "false") + safety(bench)


def control_row(bench):
    """A control character in a name makes no picture ill-formed."""
    line = json.loads(bench.program(read(EXAMPLES, FIRST), "run", "--json")[1])
    line["test"] = "a\u0001b\ufffe\ud800c"
    bench.open()
    bench.value("showText(%s)" % json.dumps(json.dumps(line)))
    bench.value("window.saved = []; saveFile = (name, blob) => saved.push([name, blob.size]); true")
    picture = xml.etree.ElementTree.fromstring(bench.value("savedPicture(pictureNow())"))
    faults = [] if "a\ufffdb" in picture.get("aria-label") else ["the picture's name is " + picture.get("aria-label")]
    bench.value("SAVES.png()")
    bench.wait("saved.length === 1 || byId('message').textContent")
    faults += differs("saved", bench.value("saved.length"), 1)
    bench.value("pictureInPoints = async () => { throw new Error('no room') }; SAVES.png()")
    bench.wait("byId('message').textContent")
    return faults + differs("said", bench.text("#message"), "The picture isn't saved: no room.") + safety(bench)


def hints_row(bench):
    """Hints are in the page's own words: no command line, no dividing line, no option."""
    bench.open()
    faults = []
    for command, test, rest in (("run", "", ""), ("run", " \n\n \n", ""), ("run", TEST, ""), ("check", TEST, ""), ("outcomes", " ", ""), ("run", TEST + "0s 1s\n", ""), ("check", TEST, "Order\nP0:7 X\n")):
        bench.value("putCommand('%s')" % command)
        bench.fill("given", rest)
        bench.fill("choices", rest)
        bench.fill("test", test)
        said = bench.text("#said") + " " + bench.text("#hint")
        faults += ["%r of %r: it says %s" % (command, test[:20], said) for foul in ("tso ", "====", "--") if foul in said]
        faults += [] if test.strip() or not re.search(r"line \d", said) else ["a test of spaces names a line: " + said]
        needs_no_words = command == "run" and test == TEST and rest == ""  # the machine has its buttons
        faults += [] if bool(bench.text("#hint")) != needs_no_words else ["%s of %r: it says %r" % (command, test[:20], bench.text("#hint"))]
    bench.value("putCommand('sweep'); byId('set-length').value = 1; answerNow(); begin()")
    bench.fill("test", TEST)
    bench.value("begin()")
    bench.wait("!bench.task && byId('hint').textContent")
    faults += [] if "Choices of a seed" in bench.text("#hint") else ["a short sweep says " + bench.text("#hint")]
    return faults + safety(bench)


def search_row(bench):
    """A search finds words by their beginnings: MP finds no examples."""
    bench.open()
    bench.fill("search", "MP")
    found = bench.value("[...document.querySelectorAll('#texts button')].map(each => each.textContent)")
    faults = [] if "MP.litmus" in found else ["MP isn't found"]
    faults += differs("found for another reason", [name for name in found if not re.search(r"mp|message", name.lower())][:3] if len(found) > 40 else [], [])
    return faults + differs("store-buffering.litmus by MP", "store-buffering.litmus" in found, False) + safety(bench)


def reload_row(bench):
    """What is shown is there again after a reload: test, settings, choices, position, and the machine beside it."""
    shown = "[byId('test').value, choicesText().trim(), changedSettings(), drive.count, drive.words, drive.histories.length, byId('count').textContent]"
    bench.open_fresh()
    bench.value("new Promise(done => setTimeout(done, 400))")
    faults = differs("the address at first", bench.value("location.hash"), "")
    bench.open()
    for act in ("goTo(3)", "makeChoice('0d')", "makeChoice('1s'); goTo(2)", "settingOf('protocol').value = 'moesi'; answerNow(); goTo(4)",
                "putBeside(JSON.stringify(otherMachines(firstHistory().options)[1])); goTo(3)"):
        bench.value(act + "; true")
        before = bench.value("new Promise(done => setTimeout(() => done(%s), 500))" % shown)
        bench.window.reload()
        bench.value(READY)
        bench.wait("drive.isOn")
        faults += differs("after %s and a reload" % act, bench.value("new Promise(done => setTimeout(() => done(%s), 50))" % shown), before)
    bench.value("window.copied = []; navigator.clipboard.writeText = async text => { copied.push(text); }; copyLink()")
    bench.wait("copied.length === 1 && byId('copied').textContent")
    faults += differs("the link", bench.value("copied[0] === location.href"), True)
    bench.value("navigator.clipboard.writeText = async () => { throw new Error('no') }; copyLink()")
    bench.wait("byId('copied').textContent !== 'Copied.'")
    return faults + safety(bench)


def edited_row(bench):
    """After an edit the run is shown before the first choice that does nothing any more, and says what was left out."""
    plain = read(EXAMPLES, "store-buffering.litmus").partition("====\n")[0]
    bench.open_fresh()
    bench.fill("test", plain)
    bench.fill("choices", "0s 1s 0s 1s 0d 1d")
    bench.fill("test", read(EXAMPLES, "store-buffering-fenced.litmus").partition("====\n")[0].replace("X86 SBF", "X86 SB"))
    said = "The test is another now: 2 of your 6 choices still do the same, and 0s would do nothing. Left out: 0s 1s 0d 1d."
    found = bench.value("[drive.count, byId('sentence').textContent.slice(0, %d)]" % len(said))
    return differs("after the edit", found, [2, said]) + safety(bench)


def kept_command_row(bench):
    """An example opens at its run, whatever was asked before, and no answer comes first; its choices are said to be its own, also when they are left."""
    bench.open_fresh()
    bench.value("takeFromLibrary('store-buffering.litmus')")
    faults = [] if "This example comes with" in bench.text("#sentence") else ["it says " + bench.text("#sentence")]
    faults += differs("left", bench.value("goTo(2), makeChoice('0d'), byId('branches').textContent"), "Earlier runthe example's, after choice 2: 0s 1s 0d 1d")
    bench.value("byId('test-part').open = true; putCommand('why'); takeFromLibrary('store-buffering-fenced.litmus')")
    found = bench.value("[currentCommand(), testName(), drive.isOn, byId('states').textContent, byId('test-part').open]")
    return faults + differs("the command", found, ["run", "SBF", True, "", False]) + safety(bench)


def words_row(bench):
    """What was met says where it leaves the condition open; a case with all that one read can read lists it; an asked choice leads to Next."""
    bench.open_fresh()
    met = "possible.can = null, metSentence({ states: [{ holds: %s }], verdict: null, unfinished: { states: 5 } }, true)"
    faults = [] if bench.value(met % "true").endswith(" How many there are isn't known.") else [bench.value(met % "true")]
    faults += [] if bench.value(met % "false").endswith(" None of them meets the condition, which alone decides nothing.") else [bench.value(met % "false")]
    case = bench.value("caseWords([['P4:2 LR w from initial'], ['P4:2 LR w from P0:7 W w=5']])")
    faults += differs("a case", case, "Whichever of these P4:2 LR w reads, the initial value or what P0:7 W w=5 writes")
    bench.value("beginLesson('fences', 1); document.querySelector('[data-choice=\"0s\"]').click()")
    return faults + differs("the focus", bench.value("document.activeElement.dataset.choice"), "1s") + safety(bench)


THREE = "X86 three\n{ }\n P0 | P1 | P2 ;\n MOV [x],$1 | MOV EAX,[x] | MOV EAX,[x] ;\nexists (1:EAX=1)\n"


def other_test_row(bench):
    """A test that comes in the place of another doesn't take its choices; undo brings them back. An edit keeps them. A depth stays as it was set by hand."""
    bench.open_fresh()
    bench.value("loadText('Dekker.litmus'); putChoices('0s 1s'); answerNow(); remember()")
    state = "[choicesText().trim(), settingOf('depth').value, drive.words.length]"
    faults = differs("choices of an example", bench.value(state), ["0s 1s", "4", 2])
    bench.fill("test", bench.value("byId('test').value").replace("X86 Dekker", "X86 Dekker2"))
    faults += differs("an edit of the name", bench.value(state), ["0s 1s", "4", 2])
    bench.fill("test", THREE)
    faults += differs("another test", bench.value(state), ["", "4", 0])
    faults += [] if "Another test" in bench.text("#sentence") else ["it says " + bench.text("#sentence")]
    bench.value("undo()")
    faults += differs("undone", bench.value(state), ["0s 1s", "4", 2])
    bench.value("putSettings([['depth', '2']]); settingOf('depth').dispatchEvent(new Event('input', { bubbles: true })); remember()")
    bench.fill("test", THREE)
    return faults + differs("a depth by hand", bench.value(state), ["", "2", 0]) + safety(bench)


def refused_choices_row(bench):
    """Choices that are refused are said in a sentence, aren't in a link, and go by one press, which shows the machine."""
    bench.open_fresh()
    bench.fill("choices", "0s 1s 2s")
    faults = differs("said", bench.text("#plain"), "Choice 3, 2s: there is no core 2.")
    faults += differs("in the link", bench.value("currentAddress(choicesToTell()).includes('choices=')"), False)
    faults += differs("the button", bench.value("byId('remove-choices').checkVisibility()"), True)
    bench.value("byId('remove-choices').click()")
    found = bench.value("[drive.isOn, choicesText(), byId('remove-choices').hidden, document.activeElement.id]")
    faults += differs("removed", found, [True, "", True, "choices"])
    bench.fill("choices", "0s 1s")
    faults += differs("good ones in the link", bench.value("currentAddress(choicesToTell()).includes('choices=0s')"), True)
    bench.fill("choices", "seed 3 9 9s")
    return faults + differs("after a seed", bench.text("#plain"), "Word 4, 9s: there is no core 9.") + safety(bench)


# In the place of the module: two forms that a compiler lists are refused, each with what is certain to be meant, and one with a choice.
CERTAIN = """(() => {
  const answer = asked, forms = [[/mov dword ptr \\[(\\w)\\], (\\d)/, 'MOV [$1],$$$2'], [/movl \\$(\\d), (\\w)/, 'MOV [$2],$$$1']];
  asked = (options, input) => {
    const lines = String(input).split('\\n'), at = lines.findIndex(line => /mov|jnz/.test(line));
    const found = forms.map(([form, meant]) => [form.exec(lines[at])?.[0], form, meant]).find(([cell]) => cell !== undefined);
    const why = found === undefined ? 'jnz isn\\'t read: leave it out; write the one way that is taken' : `'${found[0]}': write ${found[0].replace(found[1], found[2])}`;
    return at < 0 ? answer(options, input) : { status: Tso.STATUS.refused, text: `Refused test line ${at + 1} BadInstruction\\n`, hint: `hint: line ${at + 1}: ${why}\\n` };
  };
})()"""
COPIED = "X86 copied\n{ }\n P0 | P1 ;\n mov dword ptr [x], 1 | mov dword ptr [x], 1 ;\n MOV EAX,[y] | movl $2, y ;\n %s | MOV EAX,[x] ;\nexists (0:EAX=0)\n"


CHANGED = "Written: columns lined up; line 4: mov dword ptr [x], 1 became MOV [x],$1; line 5: movl $2, y became MOV [y],$2. Ctrl+Z takes it back. "
LISTING = "f():\n  push rbp\n  mov rbp, rsp\n  mov DWORD PTR x[rip], 1  # x\n  lock or DWORD PTR [rsp], 0\n  mov r8d, DWORD PTR y[rip]\n  mov eax, DWORD PTR y[rip]\n  ret\ng():\n  .cfi_startproc\n  movl $1, y(%rip)\n"
LISTED = "X86 pasted\n{ }\n P0          | P1         ;\n MOV [x],$1  | MOV [y],$1 ;\n MFENCE      |            ;\n MOV EBX,[y] |            ;\n MOV EAX,[y] |            ;\nexists (0:EBX=0 /\\ 0:EAX=0)\n"
FOREIGN = "X86 foreign\n{ }\n P0 | P1 ;\n MOV EAX,[x] | MOV R8D,[x] ;\n MOV R8D,[y] | MOV EAX,[y] ;\n MOV [x],R8D | MOV EBX,[y] ;\nexists (0:R8D=1 /\\ 1:R8D=1)\n"
NAMED = "f:\n movl r0(%rip), %eax\n mov [rip+r8], 2\n .data\nr0:\n .long 5\n"
FROM_NAMED = "X86 pasted\n{ _r0=5; }\n P0            ;\n MOV EAX,[_r0] ;\n MOV [_r8],$2  ;\nexists (0:EAX=0)\n"
EXPLORED = "".join("t%d:\n        mov     eax, 1\n        xchg    eax, DWORD PTR flag%d[rip]\n        mov     eax, DWORD PTR flag%d[rip]\n        ret\n" % (core, core, 1 - core) for core in (0, 1))
FROM_EXPLORED = "X86 pasted\n{ }\n P0               | P1               ;\n MOV EAX,$1       | MOV EAX,$1       ;\n XCHG [flag0],EAX | XCHG [flag1],EAX ;\n MOV EAX,[flag1]  | MOV EAX,[flag0]  ;\nexists (0:EAX=0 /\\ 1:EAX=0)\n"
RENAMED = "X86 foreign\n{ }\n P0          | P1          ;\n MOV EAX,[x] | MOV ECX,[x] ;\n MOV EBX,[y] | MOV EAX,[y] ;\n MOV [x],EBX | MOV EBX,[y] ;\nexists (0:EBX=1 /\\ 1:ECX=1)\n"
GCC = '\t.file\t"a.c"\n\t.text\nf:\n.LFB0:\n\t.cfi_startproc\n\tmovl\t$1, x(%rip)\n\tmovl\ty(%rip), %eax\n\tret\n.LFE0:\n\t.size\tf, .-f\ng:\n\tmovl\t$1, y(%rip)\n\tlock orq\t$0, (%rsp)\n\tret\n\t.data\ny:\n\t.long\t5  # 0x5\n'
FROM_GCC = "X86 pasted\n{ y=5; }\n P0          | P1         ;\n MOV [x],$1  | MOV [y],$1 ;\n MOV EAX,[y] | MFENCE     ;\nexists (0:EAX=0)\n"
DIY = "X86_64 SB\n{\nuint64_t x; uint64_t 0:rax;\nuint64_t 1:rbx=1;\n}\n P0 | P1 ;\n movq $1,(x) | movq $1,(y) ;\n movq (y),%rax | movl (x),%r8d ;\nexists (0:rax=0 && 1:r8==0)\n"
FROM_DIY = "X86 SB\n{\n1:EBX=1;\n}\n P0          | P1          ;\n MOV [x],$1  | MOV [y],$1  ;\n MOV EAX,[y] | MOV EAX,[x] ;\nexists (0:EAX=0 /\\ 1:EAX=0)\n"


DISASSEMBLED = "0000000000001129 <f>:\n    1129:\tc7 05 ed 2e 00 00 01 \tmovl   $0x1,0x2eed(%rip)        # 4020 <x>\n    1130:\t00 00 00 \n    1133:\t8b 05 e3 2e 00 00    \tmov    eax,DWORD PTR [rip+0x2ee3]        # 401c <y>\n    1139:\tc3                   \tret\n"


def listing_row(bench):
    """A compiler's listing becomes a test by one press, and a raw file of an assembler, and a test of X86_64 one of X86; and a register that isn't read here one that its core
    doesn't use, in the condition too. It says what became of them, each kind of change once."""
    faults = []
    for text, name, written, said in ((LISTING, "Write it as a test", LISTED, "a test of 2 cores"), (EXPLORED, "Write it as a test", FROM_EXPLORED, "P0: xchg eax, DWORD PTR flag0[rip] became XCHG [flag0],EAX"), (DISASSEMBLED, "Write it as a test", "X86 pasted\n{ }\n P0          ;\n MOV [x],$1  ;\n MOV EAX,[y] ;\nexists (0:EAX=0)\n", "Written: a test of 1 core; P0: movl $1,x(%rip) became MOV [x],$1"), (NAMED, "Write it as a test", FROM_NAMED, "a test of 1 core, location r0 became _r0, location r8 became _r8"), (GCC, "Write it as a test", FROM_GCC, "a test of 2 cores; P0: movl $1, x(%rip) became MOV [x],$1; P1: movl $1, y(%rip) became MOV [y],$1; P1: lock orq $0, (%rsp) became MFENCE"),
                                      (FOREIGN, "Write it so: 2 changes", RENAMED, "P1: R8D became ECX; P0: R8D became EBX"), (DIY, "Write it so: 7 changes", FROM_DIY, "X86_64 became X86, with registers of 32 bits")):
        bench.open_fresh()
        bench.fill("test", text)
        faults += differs("offered", bench.value("[byId('write-so').hidden, byId('write-so').textContent]"), [False, name])
        press(bench, "#write-so")
        faults += differs("written", bench.value("byId('test').value"), written)
        faults += [] if said in bench.text(".writing .noticed") else ["it says " + bench.text(".writing .noticed")]
    said = "Line 8 (testl) and line 9 (je): there are no jumps, compares, calls or flags (set) here. Without such lines this can be a test, of the one way that takes no jump."
    bench.fill("test", DISASSEMBLED.replace("<y>", "<_init+0x4>"))
    said_of_names = "This listing has no names of locations: paste what gcc -S writes, or objdump -dr of an object file."
    faults += differs("without names", bench.value("[byId('write-so').hidden, byId('plain').textContent, byId('test-band').dataset.line]"), [True, said_of_names, "4"])
    bench.fill("test", GCC.replace("\tret\n", "\ttestl\t%eax, %eax\n\tje\t.L5\n", 1))
    faults += differs("with a jump", bench.value("[byId('write-so').textContent, byId('plain').textContent, byId('test-band').dataset.line]"), ["Leave these lines out", said, "8"])
    return faults + safety(bench)


def certain_row(bench):
    """What a hint names certainly is written in its line: a row's end, a register, LOCK, and the signs of a condition. Then columns are aligned."""
    faults = []
    for line, hint, meant in (
            ("MOV [x],$1 | MFENCE", "no ; ends this row at its line's end, so it has 3 cells", "MOV [x],$1 | MFENCE ;"),
            ("MOV EAZ,[y] | MFENCE ;", "EAZ is no register: write EAX", "MOV EAX,[y] | MFENCE ;"),
            ("XADD [x],EBX | MFENCE ;", "'XADD [x],EBX' isn't read without LOCK, which makes it one step: LOCK XADD [x],EBX", "LOCK XADD [x],EBX | MFENCE ;"),
            ("exists (0:RAX=0)", "RAX has 64 bits, and registers have 32 here: EAX stands for it, write EAX", "exists (0:EAX=0)"),
            ("x = 1; | MFENCE ;", "'x = 1': write MOV [x],$1; leave out the ; behind it, which ends a row", "MOV [x],$1 | MFENCE ;"),
            ("MFENCE | MFENCE; ;", "; stands twice: a row ends with one ;", "MFENCE | MFENCE;"),
            ("~exist (x=0)", "exist: write exists", "~exists (x=0)"), ("MOVE EAX,[x] | move [x],$1 ;", "MOVE is no instruction: write MOV", "MOV EAX,[x] | MOV [x],$1 ;"), ("MOV EAX [x] | LOCK INC [y] | mov [x] 1 ;", "no comma stands between the two operands", "MOV EAX,[x] | LOCK INC [y] | mov [x],1 ;"), ("exits (x=0)", "exits is no instruction: write exists", "exists (x=0)"),
            ("exists (0:EAX==0 && x=1 || y=1)", "'=': in a condition write /\\ for and, \\/ for or", "exists (0:EAX=0 /\\ x=1 \\/ y=1)"),
            ("exists (0:EAX==0 and x=1 or y=1)", "and: in a condition write /\\ for and, \\/ for or", "exists (0:EAX=0 /\\ x=1 \\/ y=1)"),
            ("fence; | MFENCE ;", "; stands behind fence: leave it out: it ends a row, and | splits cells", "MFENCE | MFENCE ;"),
            ("MFENCE | fence ;", "fence isn't read: the fence is MFENCE; leave out one that keeps only loads", "MFENCE | MFENCE ;"),
            ("xchg\teax, DWORD PTR f[rip] | MFENCE ;", "'xchg eax, DWORD PT..': write XCHG [f],EAX", "XCHG [f],EAX | MFENCE ;"),
            ("MFENCE | jnz a ;", "jnz isn't read: leave it out; write the one way that is taken", None)):
        faults += differs("of " + line, bench.value("repaired(%s, %s)?.text ?? null" % (json.dumps(line), json.dumps("hint: line 1: %s\n" % hint))), meant)
    aligned = bench.value("aligned('X86 a\\n{ x=0; }\\nP0|P1;\\nMFENCE|MOV EAX,[x];\\nexists (x=0)\\n')")
    faults += differs("changed", bench.value("changesSaid([{ line: 4, said: 'a' }, { line: 6, said: 'a' }, { said: 'b', isOther: true }])"), "b; lines 4 and 6: a. ")
    faults += differs("in their order", bench.value("changesSaid([{ line: 5, said: 'b' }, { line: 4, said: 'a' }, { line: 6, said: 'a' }, { line: 7, said: 'c', isOther: true }])"), "lines 4 and 6: a; line 5: b; line 7: c. ")
    stack = bench.value("pageHint('hint: line 4: MOV EAX,[s]: there is no stack: write a location for what is kept there, as [s]')")
    faults += [] if stack.endswith("as [s]. Or compile with -O1") else ["of the stack it says " + stack]
    faults += differs("short", bench.said("hint: line 5: fence isn't read: the fence is MFENCE; leave out one\n"), "hint: line 5: fence: write MFENCE")
    signs = bench.value("repaired('exists (x==0 && y==1)', \"hint: line 1: '=': in a condition\").said")
    faults += differs("signs", signs, "== became =, && became /\\")
    return faults + differs("aligned", aligned, "X86 a\n{ x=0; }\n P0     | P1          ;\n MFENCE | MOV EAX,[x] ;\nexists (x=0)\n")


def written_row(bench):
    """What is certain to be meant is written into all such cells by one press, up to a mistake that leaves a choice; one undo takes it back."""
    faults = []
    for cell, is_left in (("jnz a", True), ("MFENCE", False)):
        bench.open_fresh()
        bench.value(CERTAIN)
        bench.fill("test", COPIED % cell)
        faults += differs("offered", bench.value("[byId('write-so').hidden, byId('plain').textContent, byId('to-write').textContent]"), [False, "Line 4, P0: mov dword ptr [x], 1: write MOV [x],$1.", "Changes: P0 and P1: mov dword ptr [x], 1 becomes MOV [x],$1; P1: movl $2, y becomes MOV [y],$2. "])
        press(bench, "#write-so")
        rows = bench.value("byId('test').value.split('\\n').slice(3, 5).map(row => row.replace(/ +/g, ' '))")
        faults += differs("the test", rows, [" MOV [x],$1 | MOV [x],$1 ;", " MOV EAX,[y] | MOV [y],$2 ;"])
        faults += differs("said", bench.text(".writing .noticed"), CHANGED)
        faults += differs("then", bench.value("[byId('write-so').hidden, drive.isOn]"), [True, not is_left])
        bench.value("answerNow()")
        faults += differs("said after another answer", bench.text(".writing .noticed"), "" if is_left else CHANGED)
        bench.value("undo()")
        faults += differs("undone", bench.value("byId('test').value"), COPIED % cell)
    return faults + safety(bench)


def rows(page, folder):
    bench = Driver(page)
    return [
        ("eight cores on paper, driven", lambda: paper_row(bench, folder)),
        ("answers on paper", lambda: answers_on_paper_row(bench)),
        ("many choices of which few are used", lambda: few_choices_row(bench)),
        ("texts that are too long", lambda: long_text_row(bench)),
        ("arrows at a wide picture", lambda: arrows_row(bench)),
        ("what is certain, written", lambda: written_row(bench)), ("what is certain, in each hint", lambda: certain_row(bench)), ("what is certain of a listing", lambda: listing_row(bench)),
        ("stops of the tab key", lambda: stops_row(bench)),
        ("seeds that are none", lambda: seed_row(bench)),
        ("a control character in a name", lambda: control_row(bench)),
        ("hints in the page's words", lambda: hints_row(bench)),
        ("a search for MP", lambda: search_row(bench)),
        ("a reload", lambda: reload_row(bench)),
        ("a run after an edit", lambda: edited_row(bench)),
        ("an example under why", lambda: kept_command_row(bench)),
        ("words of answers", lambda: words_row(bench)),
        ("another test in its place", lambda: other_test_row(bench)),
        ("choices that are refused", lambda: refused_choices_row(bench)),
    ]
