"""Rows for tests of other programs: herd's line of locations, and what compilers print."""
import json

from bench import DIVIDING_LINE, differs, safety
from driver import Driver

LOCATED = "X86 located\n{ }\n P0          | P1          ;\n MOV [x],$1  | MOV [y],$1  ;\n MOV EAX,[y] | MOV [x],$2  ;\nlocations [x; y; 0:EAX;]\n%s\n"
NO_COLUMN = "The line “locations” adds no column: name a place in the condition to see it."
TABLE = """(() => {
  const cells = row => [...row.cells].map(cell => cell.textContent), table = document.querySelector('#states table');
  return { titles: cells(table.tHead.rows[0]), rows: [...table.tBodies[0].rows].map(cells), note: document.querySelector('.states-notes').lastChild.textContent };
})()"""


def outcomes_of(bench, test):
    """What the table of all outcomes has: its titles, its rows, and the last note."""
    bench.fill("test", test)
    bench.value("stopTask(); ask('outcomes', { isAgain: false })")
    bench.wait("!bench.task && document.querySelector('.states-sheet')")
    return bench.value(TABLE)


def locations_row(bench):
    """A line of locations adds columns, with the program's values for a test that names these places too; the sentence stays that of the test as written. Where it can't
    be read, or there is none, the table is as before."""
    bench.open_fresh()
    faults = []
    for condition, named in (("exists (0:EAX=0)", "exists ((0:EAX=0) \\/ false /\\ x=0 /\\ y=0)"), ("forall\nnot (0:EAX=1 \\/ x=1)", "forall (not (0:EAX=1 \\/ x=1) \\/ false /\\ y=0)")):
        told = json.loads(bench.program(LOCATED % named, "outcomes", "--json", "--instructions", "all")[1])
        found, names = outcomes_of(bench, LOCATED % condition), ["0:EAX", "x", "y"]
        faults += differs("titles", found["titles"][2:5], names)
        faults += differs("rows", sorted(row[2:5] for row in found["rows"]), sorted([str(state["values"][name]) for name in names] for state in told["states"]))
        faults += differs("true", sum("✓" in row[1] or "keeps" in row[1] for row in found["rows"]), told["observation"]["true"])
        line = " # with %s named in the condition" % ("x and y" if "exists" in condition else "y")
        faults += differs("said", [found["note"], line in bench.text("#words-line")], ["By the line “locations”: asked with %s named in the condition too." % line.split(" ", 3)[3].rpartition(" named")[0], True])
        sentence = "outcomes under TSO %s." % ("have 0 in P0's EAX" if "exists" in condition else "has what the condition says")
        faults += [] if sentence in bench.text("#states [role=status]") else ["it says " + bench.text("#states [role=status]")]
        faults += differs("as JSON", json.loads(bench.value("formats.texts.json"))["states"], told["states"])
    row = bench.value("(() => { const row = document.querySelector('#states tbody tr'), said = [...row.cells].slice(2, 5).map(cell => cell.textContent); row.querySelector('.goes').click(); return said; })()")
    bench.value("goTo(drive.words.length)")
    faults += differs("run", bench.value("(({ registers, memory }) => [registers[0].get('EAX'), memory.get('x'), memory.get('y')].map(String))(runOf(choicesText(), 'tso'))"), row)
    for text, note in ((LOCATED % "exists (0:EAX=0 (* a remark *))", NO_COLUMN), ((LOCATED % "exists (0:EAX=0)").replace("[x;", "[7:EAX;"), NO_COLUMN), ((LOCATED % "exists (0:EAX=0)").replace("locations [x; y; 0:EAX;]\n", ""), None)):
        found = outcomes_of(bench, text)
        faults += differs("as written", [found["titles"][:4], len(found["rows"]), "named" in bench.text("#words-line")], [["Under", "Condition", "0:EAX", "Choices that lead there"], 2, False])
        faults += [] if found["note"] == note or (note is None and "locations" not in found["note"]) else ["it says " + found["note"]]
    return faults + safety(bench)


SPREAD = "X86 spread\n{ }\n P0 | P1 ;\n INC [x] | add DWORD PTR x[rip], 1 ;\n MOV EAX,[y] | ;\nexists (x=1)\n"
FROM_SPREAD = "X86 spread\n{ }\n P0          | P1          ;\n MOV EBX,[x] | MOV EAX,[x] ;\n INC EBX     | ADD EAX,$1  ;\n MOV [x],EBX | MOV [x],EAX ;\n MOV EAX,[y] |             ;\nexists (x=1)\n"
COUNTED = "f:\n\taddl\t$1, n(%rip)\n\tret\ng:\n\taddl\t$1, n(%rip)\n\tret\n"
FROM_COUNTED = "X86 pasted\n{ }\n P0          | P1          ;\n MOV EAX,[n] | MOV EAX,[n] ;\n ADD EAX,$1  | ADD EAX,$1  ;\n MOV [n],EAX | MOV [n],EAX ;\nexists (n=1)\n"
# behind a return stands another way
JUMPING = "f:\n mov eax, DWORD PTR n[rip]\n.L2:\n mov edx, 1\n lock cmpxchg DWORD PTR n[rip], edx\n jne .L2\n ret\n.L3:\n mov DWORD PTR n[rip], 2\n ret\n nop\nmain:\n sub rsp, 8\n call f\n ret\n"
FROM_JUMPING = "X86 pasted\n{ }\n P0                   ;\n MOV EAX,[n]          ;\n MOV EDX,$1           ;\n LOCK CMPXCHG [n],EDX ;\nexists (0:EAX=0)\n"
DUMPED = "0000000000001129 <f>:\n 1129:\t83 05 e3 2e 00 00 01 \taddl   $0x1,0x2ee3(%rip)        # 401c <n>\n 1134:\t85 c0 \ttest   %eax,%eax\n 1136:\t75 02 \tjne    113a <f+0x11>\n 1139:\tc3  \tret\n 113a:\t8b 05 e3 2e 00 00 \tmov    0x2ee3(%rip),%eax        # 401c <n>\n 113f:\tc3  \tret\n 1140:\t66 90 \txchg   %ax,%ax\n"
FROM_DUMPED = "X86 pasted\n{ }\n P0          ;\n MOV EAX,[n] ;\n ADD EAX,$1  ;\n MOV [n],EAX ;\nexists (n=1)\n"
TYPED = "X86 typed\n{\nuint64_t x;\nint y = 3; z=1;\n}\n P0 ;\n MOV EAX,[x] ;\nexists (0:EAX=0)\n"
FLAGGED = "f:\n mov edx, 1\n lock cmpxchg DWORD PTR n[rip], edx\n sete al\n movzx eax, al\n ret\n"
FROM_FLAGGED = "X86 pasted\n{ }\n P0                   ;\n MOV EDX,$1           ;\n LOCK CMPXCHG [n],EDX ;\nexists (0:EAX=0)\n"
ADDRESSED = "X86_64 held\n{\nuint64_t x;\n0:rdi=x; 1:rsi=x; 1:rax=3;\n}\n P0 | P1 ;\n movq $1,(%rdi) | movl (%rsi),%ebx ;\nexists (1:rbx=0)\n"
FROM_ADDRESSED = "X86 held\n{\n1:EAX=3;\n}\n P0         | P1          ;\n MOV [x],$1 | MOV EBX,[x] ;\nexists (1:EBX=0)\n"
FRAMED = "f:\n push rbp\n mov rbp, rsp\n mov DWORD PTR n[rip], 1\n pop rbp\n ret\n"
# what stands above instructions is a label, whatever is in it; clang's places; 64 bits, and 8
EXPLORED = "Q::enq(std::atomic<int>*):\n mov QWORD PTR N::x[rip], 1\n lock or QWORD PTR [rsp], 0\n mov rax, QWORD PTR y[rip+8]\n ret\noperator<<(Q&, int): # @Q\n lock add qword ptr [rip + y+8], 1\n mov r8, qword ptr [rip + N::x]\n movzx ecx, byte ptr [rip + z]\n ret\ny:\n .zero 16\n"
FROM_EXPLORED = "X86 pasted\n{ }\n P0            | P1                ;\n MOV [N_x],$1  | LOCK ADD [y_8],$1 ;\n MFENCE        | MOV EAX,[N_x]     ;\n MOV EAX,[y_8] | MOV ECX,[z]       ;\nexists (0:EAX=0 /\\ 1:EAX=0 /\\ 1:ECX=0)\n"
WIDE = "p0:\n\tmovq\t$1, x(%rip)\n\tlock orq\t$0, (%rsp)\n\tmovq\ty(%rip), %rax\n\tret\np1:\n\tlock addq\t$1, y(%rip)\n\tmovq\tx(%rip), %rax\n\tret\n"
FROM_WIDE = "X86 pasted\n{ }\n P0          | P1              ;\n MOV [x],$1  | LOCK ADD [y],$1 ;\n MFENCE      | MOV EAX,[x]     ;\n MOV EAX,[y] |                 ;\nexists (0:EAX=0 /\\ 1:EAX=0)\n"
LOCKING = "f:\n movl $1, %eax\n xchgb %al, n(%rip)\n sete %al\n movzbl %al, %eax\n testl %eax, %eax\n je .L2\n movl $1, d(%rip)\n.L2:\n ret\n"
FROM_LOCKING = "X86 pasted\n{ }\n P0           ;\n MOV EAX,$1   ;\n XCHG [n],EAX ;\n MOV [d],$1   ;\nexists (0:EAX=0)\n"
FROM_TYPED = "X86 typed\n{\ny = 3; z=1;\n}\n P0          ;\n MOV EAX,[x] ;\nexists (0:EAX=0)\n"


def written_row(bench):
    """By one press a change of memory without LOCK becomes its three instructions, a listing is written by its straight way, and a typed item without its type. It says what was done."""
    faults = []
    for text, plain, button, written, said in (
            (SPREAD, "Line 4, P0: INC [x]: in one step it is LOCK INC [x]", "Write it so: 2 changes", FROM_SPREAD, "P0: INC [x] became MOV EBX,[x], INC EBX and MOV [x],EBX; P1: add DWORD PTR x[rip], 1 became"),
            (COUNTED, "Line 1: this is a listing. The button makes a test of it.", "Write it as a test", FROM_COUNTED, "P1: addl $1, n(%rip) became MOV EAX,[n], ADD EAX,$1 and MOV [n],EAX"),
            (JUMPING, "Line 6 (jne) and line 14 (call): there are no jumps", "Leave these lines out", FROM_JUMPING, "a test of 1 core; left out: main, line 6 and line 9: the way that takes no jump or call; P0: "),
            (DUMPED, "Line 3 (test) and line 4 (jne): there are no jumps", "Leave these lines out", FROM_DUMPED, "a test of 1 core; left out: line 3, line 4 and line 6: the way that takes no jump or call; P0: "),
            ("X86_64 one\n{ }\n P0 ;\n movl (x),%eax ;\nexists (0:rax=0)\n", "Line 1: this is a test of X86_64. The button", "Write it so: 2 changes", "X86 one\n{ }\n P0          ;\n MOV EAX,[x] ;\nexists (0:EAX=0)\n", "with registers of 32 bits"),
            (FLAGGED, "Line 4 (sete): there are no jumps, compares, calls or flags (set) here", "Leave these lines out", FROM_FLAGGED, "left out: line 4 and line 5: the way"),
            (FRAMED, "Line 1: this is a listing. The button", "Write it as a test", "X86 pasted\n{ }\n P0         ;\n MOV [n],$1 ;\n", "a test of 1 core"),
            (EXPLORED, "Line 1: this is a listing. The button", "Write it as a test", FROM_EXPLORED, "a test of 2 cores; 64 or 8 bits became 32: a word has 32 here; "),
            (WIDE, "Line 1: this is a listing. The button", "Write it as a test", FROM_WIDE, "a test of 2 cores; 64 or 8 bits became 32: a word has 32 here; "),
            (LOCKING, "Line 4 (sete), line 6 (testl) and line 7 (je): there are no jumps", "Leave these lines out", FROM_LOCKING, "64 or 8 bits became 32: a word has 32 here; left out: line 4, line 5, line 6 and line 7: the way"),
            (ADDRESSED, "Line 1: this is a test of X86_64. The button", "Write it so: 3 changes", FROM_ADDRESSED, "32 bits; addresses became locations; "),
            (TYPED, "Line 3: uint64_t is a type, and items of { } have none", "Write it so", FROM_TYPED, "items without types")):
        bench.open_fresh()
        bench.fill("test", text)
        if text == SPREAD:
            faults += differs("before", bench.text("#to-write"), "Changes: P0: INC [x] becomes MOV EBX,[x], INC EBX and MOV [x],EBX (in steps: another core can act between them); P1: add DWORD PTR x[rip], 1 becomes MOV EAX,[x], ADD EAX,$1 and MOV [x],EAX (in steps: another core can act between them). ")
        faults += differs("offered", bench.value("[byId('plain').textContent.startsWith(%s), byId('write-so').hidden, byId('write-so').textContent]" % json.dumps(plain)), [True, False, button])
        bench.value("byId('write-so').click()")
        faults += differs("written", bench.value("byId('test').value"), written)
        faults += [] if said in bench.text(".writing .noticed") else ["it says " + bench.text(".writing .noticed")]
    for text in (SPREAD.replace("MOV EAX,[y] |", "MOV EAX,EBX | ;\n MOV ECX,EDX | ;\n MOV ESI,EDI |"), JUMPING.replace("jne", "jmp"), JUMPING.replace("jne .L2", "jne .L2\n movzx eax, al"), FLAGGED.replace("ret", "mov DWORD PTR n[rip], eax"), FRAMED.replace("n[rip]", "[rbp-4]"), ADDRESSED.replace("movq $1,(%rdi)", "addq $8,%rdi")):
        bench.fill("test", text)
        faults += differs("not offered", bench.value("byId('write-so').hidden"), True)
    bench.fill("test", WIDE.replace("y(%rip), %rax", "(%rdi), %rax"))
    faults += differs("why none", bench.value("[byId('plain').textContent.startsWith('Line 4 of this listing isn\\'t read: movl (%rdi), %eax: no register can hold an address'), byId('write-so').hidden]"), [True, True])
    bench.fill("test", "X86 many\n{ %s }\n P0 | P1 ;\n LOCK INC [n] | LOCK INC [n] ;\n" % " ".join("x%d=0;" % at for at in range(16)))
    faults += differs("a location too many", bench.value("[byId('plain').textContent, byId('test-band').dataset.from, byId('test-band').childElementCount]"), ["Line 4, P0: n is the 17th location: at most 16.", "1", 1])
    return faults + safety(bench)


def sight_row(bench):
    """A refused line comes into sight where a text was put, and not where one types; the line of the message is a button that puts the caret there."""
    bench.open_fresh()
    seen = "(placeLines('test'), (() => { const top = parseFloat(byId('test-band').style.top); return [byId('test-band').dataset.line, top >= 0 && top < byId('test').clientHeight]; })())"
    put = "byId('test-part').open = true; byId('test').focus(); byId('test').select(); document.execCommand('insertText', false, %s)"
    bench.value(put % json.dumps("\n" * 40 + FLAGGED))
    faults = differs("put", bench.value(seen), ["44", True])
    bench.value("byId('test').setSelectionRange(0, 0); byId('test').scrollTop = 0; document.execCommand('insertText', false, '\\n')")
    faults += differs("typed", bench.value(seen), ["45", False])
    bench.value("byId('plain').querySelector('button').click()")
    at = "byId('test').value.slice(byId('test').selectionStart).split('\\n')[0]"
    faults += differs("pressed", bench.value("[...%s, %s, document.activeElement.id]" % (seen, at)), ["45", True, " sete al", "test"])
    bench.value(put % json.dumps(FRAMED.replace("n[rip]", "[rbp-4]")))
    return faults + differs("of a stack", bench.text("#plain"), "This listing uses a stack, and a test has none: compile with -O1.") + safety(bench)


C_FUNCTIONS = "#include <atomic>\nstd::atomic<int> x{0}, y{0};\nint r0, r1;\nvoid t0()\n{\n  x.store(1, std::memory_order_relaxed);\n  r0 = y.load();\n}\nvoid t1() { y = 1; r1 = x; }\n"


HERDS = "C cas\n{ [x]=2; }\nP0(atomic_int* x, int* y) {\n int r0;\n atomic_store_explicit(x, 1, memory_order_relaxed);\n r0 = *y;\n}\nP1(atomic_int* x, int* y) { *y = 1; int r1 = atomic_load(x); }\nexists (0:r0=0 /\\ 1:r1=0)\n"


def told_c_row(bench):
    """A C test of herd7 becomes a test by one press, with its name and initial words. Of C that can't be taken the line is named, and a missing ; by its line."""
    bench.open_fresh()
    bench.fill("test", HERDS)
    faults = differs("said", bench.value("[byId('plain').textContent, (writeRepairs(), byId('test').value)]"), ["Line 1: this is C.",
                     "X86 cas\nMade from=C or C++\n{ [x]=2; }\n P0          | P1          ;\n MOV [x],$1  | MOV [y],$1  ;\n MOV EAX,[y] | MOV EAX,[x] ;\nexists (0:EAX=0 /\\ 1:EAX=0)\n"])
    jumps = "Line %d: if can't be written: a test has no jumps."
    for text, said in (("P0: x=1; r0=y;\nP1: if (x==0) r1=0;\n", jumps % 2), ("void t0() {\n  x = 1;\n  if (y == 0) {\n    r0 = 1;\n  }\n}\n", jumps % 3), (HERDS.replace(" r0 = *y", " if (y) r0 = 1"), jumps % 6),
                       ("x=1; | y=1;\nr0=y; | f(x);\n", "Line 2: “f(x)” isn't understood. Write x = 1, r0 = y or fence, with ; between them and | between threads.")):
        bench.fill("test", text)
        faults += differs(text, bench.value("[byId('plain').textContent, byId('write-so').hidden]"), [said, True])
    bench.fill("test", "X86 SB\n{ }\n P0 | P1 ;\n MOV [x],$1 | MOV [y],$1 ;\n MOV EAX,[y] | MOV EAX,[x]\nexists (0:EAX=0)\n")
    return faults + differs("a row's end", bench.text("#write-so"), "Write ; at the end of line 5") + safety(bench)


def frameless_row(bench):
    """Rows of C alone become a test by one press, and threads of C in lines, in functions or below labels, with a condition where they have none; rows of different lengths are left alone. It says what was added above them."""
    bench.open_fresh()
    faults = []
    for text, added in (("X86 mine\nx=1; | y=1;\nr0=y; | r1=x;\nexists (0:r0=0 /\\ 1:r1=0)\n", "Written: { } and the row of cores added; "), ("P0 | P1 ;\nx=1 | y=1 ;\nr0=y | r1=x ;\nexists (0:r0=0 /\\ 1:r1=0)\n", "columns lined up; a name, { } added; "),
                        ("x=1; r0=y\nT2: y := 1; r1 = x;\nexists (0:r0=0 /\\ 1:r1=0)\n", "Written: a name, { } and the row of cores added; "), ("Thread 1 || Thread 2\nx := 1 || y := 1\nr0 := y || r1 := x\nexists (0:r0=0 /\\ 1:r1=0)\n", "a name, { } added; "), ("P0 || P1\nx=1 || y=1\nr0=y || r1=x\nexists (0:r0=0 /\\ 1:r1=0)\n", "Written: a name, { } added; "), ("x=1; r0=y || y=1; r1=x\nexists (0:r0=0 /\\ 1:r1=0)\n", "Written: a name, "), (C_FUNCTIONS, "Written: a name, { } and the row of cores added; "), ("P0:\n x=1;\n r0=y;\nP1:\n y=1\n r1=x\n", "Ctrl+Z takes it back. The last line asks: can both loads read 0? Change it"), ("int z = 5;\n" + C_FUNCTIONS, None), ("x=1 | y=1 ;\nr0=y ;\n", None), ("x=1;\nf(x);\n", None)):
        bench.fill("test", text)
        faults += differs("offered for %r" % text, bench.value("!byId('write-so').hidden"), added is not None)
        if added:
            bench.value("writeRepairs()")
            faults += differs("written of %r" % text, bench.value("byId('test').value.split('\\n').slice(1)"),
                              ["{ }", " P0          | P1          ;", " MOV [x],$1  | MOV [y],$1  ;", " MOV EAX,[y] | MOV EAX,[x] ;", "exists (0:EAX=0 /\\ 1:EAX=0)", ""])
            faults += [] if added in bench.text(".writing .noticed") else ["it says " + bench.text(".writing .noticed")]
    bench.fill("test", "void t0() { g(); }\n")
    faults += differs("else", bench.text("#plain"), "Line 1: this is C: write one line for each thread, as x=1; r0=y.")
    bench.fill("test", "X86 one\n{ }\n P0 ;\n MOV [x],$1   ;\n MVO EAX,[y] ;\nexists (0:EAX=0)\n")
    faults += differs("on the button", bench.value("[byId('write-so').textContent, byId('to-write').textContent]"), ["Write MOV EAX,[y]", ""])
    bench.value("writeRepairs()")
    faults += differs("one word", bench.value("byId('test').value.split('\\n').slice(3, 5)"), [" MOV [x],$1   ;", " MOV EAX,[y] ;"])
    bench.fill("test", "x=1 | y=1\nfence |\nr0=y | r1=x\nexists (r0==0 && r1==0)\n")
    bench.value("writeRepairs()")
    return faults + differs("bare registers", bench.value("byId('test').value.split('\\n').at(-2)"), "exists (0:EAX=0 /\\ 1:EAX=0)") + safety(bench)


CELLS = [
    ("MOV EBX[v]", "MOV EBX,[v]"), ("MOV EBX,[v", "MOV EBX,[v]"), ("MOV EBX,[v]]", "MOV EBX,[v]"), ("MOV EBX v", "MOV EBX,[v]"), ("MOV [v]", None), ("MOV EBX;[v]", "MOV EBX,[v]"), ("MOV EBX.[v]", "MOV EBX,[v]"),
    ("MOV [v]$1", "MOV [v],$1"), ("MOV EBX,[a],", "MOV EBX,[a]"), ("MOV EBX,,[a]", "MOV EBX,[a]"), ("MOV EBX,[a].", "MOV EBX,[a]"), ("MOV EBX,{a}", "MOV EBX,[a]"), ("MOV [a],$", None), ("MOVEBX,[a]", "MOV EBX,[a]")]
BARRED = [(" | ", " ", "A MOV EAX,[b]"), (" | ", " || ", "||"), (" | ", " | | ", "| |"), (" | ", " ; ", ";"), (" | ", " l ", "A l MOV EAX,[b]")]
ASKED = [
    ("exists (0:EAX=0", "exists (0:EAX=0)"), ("exists (0:EAX=0))", "exists (0:EAX=0)"), ("exists (P0:EAX=0)", "exists (0:EAX=0)"), ("exists (0:EAX!=0)", "exists (~(0:EAX=0))"), ("exists (0:EAX=$0)", "exists (0:EAX=0)"),
    ("exists (0.EAX=0)", "exists (0:EAX=0)"), ("exists (8:EAX=0)", None), ("exists (0:EAX=0) ;", "exists (0:EAX=0)")]
MARKED = """(() => {
  const { from, line } = byId('test-band').dataset, [mark] = byId('test-band').children;
  return { line, cell: mark ? byId('test').value.split('\\n')[line - 1].slice(Number(from), Number(from) + parseFloat(mark.style.width)) : null, said: byId('plain').textContent, offered: !byId('write-so').hidden };
})()"""


def mistakes_row(bench):
    """What is refused in a row of eight cells names its core and is underlined, wherever it stands, and one press writes what is certain; so are a bar too few or too many, the row of cores and a condition."""
    bench.open_fresh()
    loads = ["MOV EAX,[%s]" % "abcdefgh"[core] for core in range(8)]
    heads = ["P%d" % core for core in range(8)]

    def put(row=loads, head=" | ".join(heads), asked="exists (0:EAX=0)"):
        text = row if isinstance(row, str) else " | ".join(row)
        bench.fill("test", "X86 ring\n{ }\n %s ;\n %s ;\n %s ;\n%s\n" % (head, " | ".join(loads), text, asked))
        return bench.value(MARKED)

    def mended(line):
        bench.value("writeRepairs()")
        return " ".join(bench.value("byId('test').value.split('\\n')[%d]" % line).split())

    faults = []
    for wrong, right in CELLS:
        for core in (0, 4, 7):
            found = put([*loads[:core], wrong, *loads[core + 1:]])
            faults += differs("%s of P%d" % (wrong, core), [found["line"], found["cell"], found["said"].startswith("Line 5, P%d: " % core), found["offered"]], ["5", wrong, True, right is not None])
            faults += differs("written", mended(4).strip(" ;").split(" | ")[core], right) if right else []
    put([*loads[:4], "MOV EBX[v]", *loads[5:]])
    bench.value("byId('plain').querySelector('button').click()")
    faults += differs("the caret", bench.value("byId('test').value.slice(byId('test').selectionStart).startsWith('MOV EBX[v]')"), True)
    for bar, other, cell in BARRED:
        found = put(" | ".join(loads).replace(bar, other, 1))
        faults += differs("of %r" % other, [found["cell"], found["offered"]], [cell.replace("A", loads[0], 1) if cell[0] == "A" else cell, True])
        faults += differs("bars", mended(4).strip(" ;").split(" | "), loads)
    found = put([*loads, "MFENCE"])
    faults += differs("nine", [found["cell"], found["offered"]], ["MFENCE", False])
    for head in (" | ".join([*heads[:7], "P8"]), " ".join(heads), " | ".join(heads) + " |"):
        faults += differs("of " + head, [put(head=head)["offered"], mended(2).strip(" ;").split(" | ")], [True, heads])
    for wrong, right in ASKED:
        found = put(asked=wrong)
        faults += differs("of " + wrong, [found["offered"], found["line"]], [right is not None, "6"])
        faults += differs("written of " + wrong, mended(5), right) if right else []
    return faults + safety(bench)


FROM_THREADS = [" P0          | P1          ;", " MOV [x],$1  | MOV [y],$1  ;", " MOV EAX,[y] | MFENCE      ;", "             | MOV EAX,[x] ;", "exists (0:EAX=0 /\\ 1:EAX=0)", ""]
WORDY = "X86_64 SB\n{\nuint64_t x; uint64_t 0:rax;\n}\n P0 | P1 ;\n movq $1,(x) | movq $1,(y) ;\n movq (y),%rax | movq (x),%rax ;\nexists (0:rax=0)\n"


def threads_row(bench):
    """Threads of C or C++ in one line with bars become rows by one press; what isn't understood there is named. A translation tells what it left out, and quotes what was written."""
    bench.open_fresh()
    faults = []
    for line in ("x=1; r0=y | y=1; fence; r1=x", "x.store(1, memory_order_relaxed); int r0 = y.load(memory_order_acquire) | atomic_store(&y, 1); r1 = x", "x=1; r0=y; | y=1; std::atomic_thread_fence(std::memory_order_seq_cst); r1=x;"):
        bench.fill("test", line + "\nexists (r0==0 && r1==0)\n")
        bench.value("writeRepairs()")
        faults += differs("of " + line, bench.value("byId('test').value.split('\\n').slice(3)"), FROM_THREADS)
    for name, is_offered in (("r1", True), ("r2", False), ("r0", False)):
        bench.fill("test", "X86 mine\n{ }\n" + "\n".join(FROM_THREADS[:4]) + "\nexists (r0=0 /\\ %s=0)\n" % name)
        faults += differs("with " + name, bench.value("!byId('write-so').hidden"), is_offered)
    bench.fill("test", "x=1; r0=foo(y) | y=1; r1=x\n")
    faults += differs("strange", bench.value("[byId('plain').textContent.split('.')[0], byId('write-so').hidden]"), ["Line 1: “r0=foo(y)” isn't understood", True])
    bench.fill("test", WORDY)
    bench.value("writeRepairs()")
    said = bench.text(".writing .noticed")
    return faults + [part for part in ("declarations (uint64_t) were left out", "movq (y),%rax became MOV EAX,[y]") if part not in said] + safety(bench)


def caveat_row(bench):
    """A test that was made of C or C++ says with each answer what the compiler may do; one of instructions, or of a listing, doesn't."""
    bench.open_fresh()
    said = "(() => { const place = byId('of-c'); return [!place.hidden && place.getClientRects().length > 0, place.textContent]; })()"
    caveat = "This is what the processor does with these plain moves. The compiler may reorder relaxed accesses: ask tools/compiled."
    faults = []
    for text, is_c in (("x=1; r0=y | y=1; r1=x\nexists (r0==0 && r1==0)\n", True), (C_FUNCTIONS, True), (HERDS, True), ("P0 || P1\nx=1 || y=1\nr0=y || r1=x\nexists (0:r0=0 /\\ 1:r1=0)\n", True),
                       ("X86 own\n{ }\n P0 | P1 ;\n MOV [x],$1 | MOV [y],$1 ;\n MOV EAX,[y] | MOV EAX,[x] ;\nexists (0:EAX=0)\n", False)):
        bench.fill("test", text)
        bench.value("byId('write-so').hidden || writeRepairs()")
        bench.value("ask('run')")
        bench.wait("!bench.task && currentCommand() === 'run'")
        faults += differs("run of " + text, bench.value(said)[0], is_c)
        for command, shown in (("outcomes", ".states-sheet"), ("why", ".reason")):
            bench.value("ask('%s')" % command)
            bench.wait("!bench.task && document.querySelector('%s')" % shown)
            faults += differs(command + " of " + text, bench.value(said), [is_c, caveat])
            faults += differs("beside the text of " + command, caveat in bench.value("besideNote('printed')"), is_c)
        bench.fill("test", bench.value("byId('test').value").replace("$1", "$2"))
        faults += differs("once it's changed", bench.value(said)[0], is_c)
    return faults + safety(bench)


COMPARED = "X86 cas\n{ %s }\n P0 | P1 ;\n %s | %s ;\nexists (%s)\n"


def skipped_row(bench):
    """Why two compare-and-exchanges can't both read the initial word is said with its reason; where another write may have the word, that isn't said."""
    bench.open_fresh()
    faults, reason = [], "P0's locked load of x and P1's locked load of x may each read only the initial 0, and the later would skip the first one's write."
    both, compare = "0:EAX=0 /\\ 1:EAX=0", "LOCK CMPXCHG [x],ECX"
    for start, first, second, asks, is_said in (("0:ECX=1; 1:ECX=2;", compare, compare, both, True), ("0:EAX=0; 1:EAX=0;", "MOV ECX,$1 | MOV ECX,$2 ;\n " + compare, compare, both, True),
                                                ("0:EAX=1; 1:EAX=1;", "XCHG [x],EAX", "XCHG [x],EAX", both, True), ("0:EAX=1; 1:EAX=0; 1:ECX=3;", "XCHG [x],EAX", compare, both, True),
                                                ("x=7; 0:EAX=7; 1:EAX=7; 0:ECX=1; 1:ECX=2;", compare, compare, "0:EAX=7 /\\ 1:EAX=7", True),
                                                ("0:EAX=1; 1:EAX=1;", "LOCK XADD [x],EAX", "LOCK XADD [x],EAX", both, False), ("0:EAX=3; 1:EAX=3; 0:ECX=1; 1:ECX=2;", compare, compare, "0:EAX=1 /\\ 1:EAX=1", False)):
        bench.fill("test", COMPARED % (start, first, second, asks))
        bench.value("ask('why')")
        bench.wait("!bench.task && document.querySelector('.reason')")
        found, wanted = bench.text(".reason"), reason.replace("initial 0", "initial 7") if "x=7" in start else reason
        faults += differs("%s of %s" % (start, first), [wanted in found, is_said and "nothing is left" in found], [is_said, False])
    return faults + safety(bench)


def dimmed_row(bench):
    """While a search works, the answer that it takes the place of is dimmed; where there is none yet, its place says so. Outcomes have their link."""
    bench.open_fresh()
    bench.value("ask('why')")
    bench.wait("!bench.task && document.querySelector('.reason')")
    bench.value("byId('as-json').click(); byId('report-part').open = true; showFormat()")
    found = bench.value("(() => { const text = () => byId('report').textContent.slice(0, 9), seen = [text()]; ask('outcomes'); showReport(); seen.push(text()); stopWork(); return [...seen, text()]; })()")
    faults = differs("as text", found, ['{\n  "answ', "Searching", '{\n  "answ'])
    found = bench.value("(() => { const state = () => byId('states').className, seen = [state()]; ask('outcomes'); seen.push(state()); stopWork(); return [...seen, state()]; })()")
    faults += differs("dimmed", found, ["", "old", ""])
    found = bench.value("(() => { sayToBegin('outcomes'); const said = () => byId('states').textContent, seen = [said()]; begin(); seen.push(said()); stopTask(); return [...seen, said()]; })()")
    faults += differs("its place", found, ["Press “Find all outcomes”.", "Searching …", "Press “Find all outcomes”."])
    bench.value("window.copied = []; navigator.clipboard.writeText = async text => { copied.push(text); }; ask('outcomes')")
    bench.wait("!bench.task && document.querySelector('.states-sheet')")
    wide = "document.querySelector('#states table').offsetWidth"
    before = bench.value("(() => { const wide = %s; document.querySelector('.states-told [data-copy-link]').click(); return wide; })()" % wide)
    bench.wait("document.querySelector('.states-told .page-saved').textContent")
    return faults + differs("the link", bench.value("[copied.length, %s]" % wide), [1, before]) + safety(bench)


BROAD = ("X86 wide\n{ }\n P0 | P1 | P2 ;\n MOV [x],$1 | MOV [y],$1 | MOV EAX,[z] ;\n MOV EAX,[y] | MOV EAX,[x] | NOP ;\n MOV EBX,[y] | MOV EBX,[x] | NOP ;\n"
        "exists (0:EAX=0 /\\ 1:EAX=0 /\\ 0:EBX=0 /\\ 1:EBX=0 /\\ x=1 /\\ y=1 /\\ 2:EAX=0%s)\n")


def wide_row(bench):
    """A wide table tells once what is alike in all states, and the filter knows it; the verdict comes first, and the buttons stay in sight."""
    bench.open_fresh(width=560)
    found = []
    for more in ("", " /\\ 0:ECX=0 /\\ 1:ECX=0 /\\ z=2"):
        bench.fill("test", BROAD % more)
        bench.value("ask('outcomes')")
        bench.wait("!bench.task && document.querySelector('.states-sheet')")
        found += [bench.value("[...document.querySelectorAll('.states-sheet th')].filter(each => !each.hidden).map(each => each.textContent)")]
        found += [bench.value("document.querySelector('.states-told > p').textContent")]
    heads = ["Under", "Condition", "0:EAX", "0:EBX", "1:EAX", "1:EBX", "Choices that lead there", ""]
    faults = differs("heads", found, [heads, "In each: 2:EAX=0, x=1, y=1.", heads[:6] + ["z"] + heads[6:], "In each: 0:ECX=0, 1:ECX=0, 2:EAX=0, x=1, y=1."])
    filtered = "(() => { byId('states').querySelector('.filter').value = '%s'; filterStates(document.querySelector('.states-sheet')); return document.querySelector('.filtered').textContent; })()"
    for asked, said in (("x=1 1:ebx=0", "3 of 9 outcomes"), ("x = 1 1:ebx =0", "3 of 9 outcomes"), ("ebx=0", "“ebx=0” isn't read: write 0:EAX=1")):
        faults += differs("filtered", bench.value(filtered % asked), said)
    bench.window.resize(620, 800)
    inside = "(() => { const box = document.querySelector('.states-told .scrolls'); return [box.scrollWidth > box.clientWidth, document.querySelector('.goes').getBoundingClientRect().right < innerWidth]; })()"
    return faults + differs("in sight", bench.value(inside), [True, True]) + safety(bench)


def herd_row(bench):
    """All outcomes are told in the form of herd7 too, and an answer of another command isn't."""
    bench.open_fresh()
    bench.fill("test", "X86 SB\n{ }\n P0 | P1 ;\n MOV [x],$1 | MOV [y],$1 ;\n MOV EAX,[y] | MOV EAX,[x] ;\n~exists (0:EAX=0 /\\ (* so *)\n  1:EAX=0 /\\ x=1)\n")
    bench.value("ask('outcomes')")
    bench.wait("!bench.task && document.querySelector('.states-sheet')")
    bench.value("byId('as-herd').click(); byId('report-part').open = true; showFormat()")
    states = "".join("0:EAX=%d; 1:EAX=%d; [x]=1;\n" % pair for pair in ((0, 0), (0, 1), (1, 0), (1, 1)))
    wanted = "Test SB Forbidden\nStates 4\n%sNo\nWitnesses\nPositive: 1 Negative: 3\nCondition ~exists (0:EAX=0 /\\ 1:EAX=0 /\\ x=1)\nObservation SB Sometimes 1 3\n" % states
    faults = differs("the form", bench.value("textShown()"), wanted)
    bench.value("ask('why')")
    bench.wait("!bench.task && document.querySelector('.reason')")
    return faults + differs("of why", bench.value("[byId('as-printed').checked, byId('as-herd').parentElement.hidden]"), [True, True]) + safety(bench)


BARE = "X86 bare\n{ }\n P0 | P1 ;\n MOV [x],$1 | MOV [y],$1 ;\n MOV EAX,[y] | MOV EAX,[x] ;\n%s"
MET = {"met": [{"values": {"0:EAX": word, "1:EAX": 1}, "choices": "0s", "holds": False} for word in (0, 1)], "unfinished": {"states": 20}}
LIMITED = "hint: the machine can reach more than 20 states, the limit of --states: raise it; tso why needs no states; 2 of the final states were met, none of which makes the proposition true"
LEMMAS = "[1, 2, 3, 4, 5].map(lemma => ({ step: 'never', lemma, facts: ['0:EAX=1'] }))"


def told_row(bench):
    """A test without a condition tells registers too. Claims are told of as claims. What why has decided nothing beside a limit speaks against. Many lemmas are one fold."""
    bench.open_fresh()
    found = outcomes_of(bench, BARE % "")
    states = json.loads(bench.program(BARE % "", "outcomes", "--json", "--show", "registers")[1])["states"]
    faults = differs("without a condition", [found["titles"][1:5], sorted(row[1:5] for row in found["rows"])], [list(states[0]["values"]), sorted([*map(str, state["values"].values())] for state in states)])
    faults += [] if " --show registers " in bench.text("#words-line") else ["the line says " + bench.text("#words-line")]
    for condition, title, words in (("~exists (0:EAX=0 /\\ 1:EAX=0)", "Why the claim is false", "Without store buffers (sequential consistency): the claim holds."), ("forall (x=1)", "Why the claim holds", "isn't what a counterexample needs.")):
        bench.fill("test", BARE % condition + "\n")
        bench.value("ask('why')")
        bench.wait("!bench.task && document.querySelector('.reason')")
        faults += differs(condition, [bench.text(".reason .answer-title"), words in bench.text(".reason")], [title, True])
    bench.fill("test", BARE % "exists (0:EAX=0 /\\ 1:EAX=0)\n")
    bench.value("noteAnswer(inputOf('why'), { answer: 'allowed' }); putCommand('outcomes'); showMet(%s, 32)" % json.dumps({"status": 3, "hint": LIMITED, "text": json.dumps(MET)}))
    faults += differs("at a limit", [bench.text("#hint"), bench.text(".filtered")], ["", "2 met"])
    faults += differs("lemmas", bench.value("refutedParts({ leaves: 20, steps: %s })[0].querySelector('.lemmas > summary').textContent" % LEMMAS), "5 lemmas, in steps")
    return faults + differs("a case of values", bench.value("caseWords([['0:EAX=1'], ['1:EAX=2']])"), "If P0's EAX ends as 1 or P1's EAX ends as 2") + safety(bench)


def rows(page, folder):
    bench = Driver(page)
    return [("what a compiler may do, with each answer", lambda: caveat_row(bench)), ("why two compare-and-exchanges", lambda: skipped_row(bench)),
            ("columns of a line of locations", lambda: locations_row(bench)), ("what compilers print, written by one press", lambda: written_row(bench)),
            ("rows of C alone", lambda: frameless_row(bench)), ("C of herd7, and C that can't be taken", lambda: told_c_row(bench)), ("mistakes in eight by eight", lambda: mistakes_row(bench)), ("threads of C in one line", lambda: threads_row(bench)), ("a refused line comes into sight", lambda: sight_row(bench)), ("an old answer while a search works", lambda: dimmed_row(bench)), ("a wide table of outcomes", lambda: wide_row(bench)), ("outcomes in the form of herd7", lambda: herd_row(bench)), ("answers of a test without a condition, and of claims", lambda: told_row(bench))]
