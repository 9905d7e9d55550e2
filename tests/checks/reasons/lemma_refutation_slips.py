"""Refutations by lemmas that are wrong, each by one slip, for tests/lemma_trees.py: a judge that takes one of them is no judge."""
import re

from reference import printing, reading, printed_refutations
from reference.candidates import SC, TSO

# ---- tests

BUFFERING = b"""X86 SB
{ }
 P0          | P1          ;
 MOV [x],$1  | MOV [y],$1  ;
 MOV EAX,[y] | MOV EAX,[x] ;
exists (0:EAX=0 /\\ 1:EAX=0)
"""

LOCK = b"""X86 lock
{ 0:EAX=1; 1:EAX=1; 2:EAX=1 }
 P0           | P1           | P2           ;
 XCHG [x],EAX | XCHG [x],EAX | XCHG [x],EAX ;
exists ((0:EAX=0 /\\ 1:EAX=0) \\/ (0:EAX=0 /\\ 2:EAX=0) \\/ (1:EAX=0 /\\ 2:EAX=0))
"""

BETWEEN = b"""X86 between
{ }
 P0                | P1         ;
 LOCK XADD [x],EAX | MOV [x],$1 ;
exists (0:EAX=0 /\\ x=0)
"""

# Two readers see two writes in opposite orders; and a flag with two values, which a third core passes on.
SEEN = b"""X86 seen
{ }
 P0          | P1          | P2         | P3         ;
 MOV EAX,[x] | MOV EAX,[x] | MOV [x],$1 | MOV [x],$2 ;
 MOV EBX,[x] | MOV EBX,[x] |            |            ;
exists (0:EAX=1 /\\ 0:EBX=2 /\\ 1:EAX=2 /\\ 1:EBX=1)
"""

PASSING = b"""X86 passed
{ }
 P0          | P1          | P2          ;
 MOV [x],$1  | MOV EAX,[y] | MOV EAX,[z] ;
 MOV [y],$1  | MOV [z],$1  | MOV EBX,[x] ;
 MOV [y],$2  |             |             ;
exists (~1:EAX=0 /\\ 2:EAX=1 /\\ 2:EBX=0)
"""

COUNTER = b"""X86 counter
{ 0:EAX=1; 1:EAX=1; 2:EAX=1 }
 P0                | P1                | P2                ;
 LOCK XADD [x],EAX | LOCK XADD [x],EAX | LOCK XADD [x],EAX ;
exists (0:EAX=3 \\/ x=2)
"""

# A load, and later a store of what it is asked to return.
# Four cores count, and each is asked to get one of three numbers.
PIGEON_HOLES = b"""X86 pigeons
{ 0:EAX=1; 1:EAX=1; 2:EAX=1; 3:EAX=1 }
 P0                | P1                | P2                | P3                ;
 LOCK XADD [x],EAX | LOCK XADD [x],EAX | LOCK XADD [x],EAX | LOCK XADD [x],EAX ;
exists ((0:EAX=0 \\/ 0:EAX=1 \\/ 0:EAX=2) /\\ (1:EAX=0 \\/ 1:EAX=1 \\/ 1:EAX=2) /\\ (2:EAX=0 \\/ 2:EAX=1 \\/ 2:EAX=2) /\\
 (3:EAX=0 \\/ 3:EAX=1 \\/ 3:EAX=2))
"""

OWN_LATER = b"""X86 later
{ }
 P0          | P1         ;
 MOV EAX,[x] | MOV [x],$2 ;
 MOV [x],$1  |            ;
exists (0:EAX=1 \\/ (0:EAX=2 /\\ x=2))
"""

# ---- texts that are right

BUFFERED = """Test SB
Never sc leaves=1
Asked exists true
Given P0:1 R y=0, P1:1 R x=0
Cycle P0:0 W x=1 po P0:1 R y=0 fr P1:0 W y=1 po P1:1 R x=0 fr P0:0 W x=1
Verdict No
"""

LOCKED = """Test lock
Never tso leaves=4
Asked exists true
Lemma 1 P0:0 LR x=0, P1:0 LR x=0
 No source P0:0 LR x=0
Case part P0:0 LR x=0, P1:0 LR x=0: By lemma 1
Case part P0:0 LR x=0, P2:0 LR x=0: No source P0:0 LR x=0
So part P1:0 LR x=0, P2:0 LR x=0: No source P1:0 LR x=0
Verdict No
"""

# The second lemma goes by the first one.
LEMMAS = """Test lock
Never tso leaves=4
Asked exists true
Lemma 1 P0:0 LR x=0, P1:0 LR x=0
 No source P0:0 LR x=0
Lemma 2 P0:0 LR x=0, P1:0 LR x from initial
 By lemma 1
Case part P0:0 LR x=0, P1:0 LR x=0: By lemma 2
So part P0:0 LR x=0, P2:0 LR x=0 or P1:0 LR x=0, P2:0 LR x=0: No source P2:0 LR x=0
Verdict No
"""

VALUES = """Test lock
Never tso leaves=3
Asked exists true
Case P0:0 LR x=0: False 0:EAX=0 1:EAX=1 2:EAX=1
So P0:0 LR x=1
Case P1:0 LR x=0: False 0:EAX=1 1:EAX=0 2:EAX=1
So P1:0 LR x=1: False 0:EAX=1 1:EAX=1 2:EAX=0|1
Verdict No
"""

KEPT = """Test between
Never tso leaves=1
Asked exists true
Given P0:0 LR x=0, x=0
Between P0:0 LR x=0 P1:0 W x=1 P0:0 LW x=0
Verdict No
"""

LAST = """Test seen
Never tso leaves=2
Asked exists true
Given P0:0 R x=1, P0:1 R x=2, P1:0 R x=2, P1:1 R x=1
Case P2:0 W x=1 last: Cycle P0:0 R x=1 po P0:1 R x=2 fr P2:0 W x=1 rf P0:0 R x=1
So P3:0 W x=2 last: Cycle P1:0 R x=2 po P1:1 R x=1 fr P3:0 W x=2 rf P1:0 R x=2
Verdict No
"""

PASSED = """Test passed
Never tso leaves=2
Asked exists true
Given P1:0 R y not 0, P2:0 R z=1, P2:1 R x=0
Case P1:0 R y=1 from P0:1 W y=1: Cycle P0:0 W x=1 po P0:1 W y=1 rf P1:0 R y=1 po P1:1 W z=1 rf P2:0 R z=1 po P2:1 R x=0 fr P0:0 W x=1
So P1:0 R y=2 from P0:2 W y=2: Cycle P0:0 W x=1 po P0:2 W y=2 rf P1:0 R y=2 po P1:1 W z=1 rf P2:0 R z=1 po P2:1 R x=0 fr P0:0 W x=1
Verdict No
"""

COUNTED = """Test counter
Never tso leaves=1
Asked exists true
False 0:EAX=0|1|2 x=3
Verdict No
"""

LATER = """Test later
Never tso leaves=2
Asked exists true
Case part P0:0 R x=1: No source P0:0 R x=1
So part P0:0 R x=2, x=2: Uniproc P0:0 R x=2 po P0:1 W x=1 co P1:0 W x=2 rf P0:0 R x=2
Verdict No
"""

PIGEONS = """Test pigeons
Never tso leaves=6
Asked exists true
Given ((0:EAX=0 \\/ 0:EAX=1) \\/ 0:EAX=2), ((1:EAX=0 \\/ 1:EAX=1) \\/ 1:EAX=2), ((2:EAX=0 \\/ 2:EAX=1) \\/ 2:EAX=2), ((3:EAX=0 \\/ 3:EAX=1) \\/ 3:EAX=2)
Case P0:0 LW x before P1:0 LW x
 Case P1:0 LW x=4 last: False 1:EAX=3
 Case P2:0 LW x=4 last: False 2:EAX=3
 So P3:0 LW x=4 last: False 3:EAX=3
Case P1:0 LW x before P0:0 LW x
 Case P0:0 LW x=4 last: False 0:EAX=3
 Case P2:0 LW x=4 last: False 2:EAX=3
 So P3:0 LW x=4 last: False 3:EAX=3
Endcases
Verdict No
"""

# Of a test, the text that is right, and what a slip puts in place of some of its bytes.
OF_ONE_TEXT = (
    ("a lemma where one of its facts isn't met", LOCK, LEMMAS, "Case part", "Lemma 3 P0:0 LR x=1\n By lemma 1\nCase part", "=4", "=5"),
    ("a lemma that uses itself", LOCK, LOCKED, "\n No source P0:0 LR x=0", "\n By lemma 1"),
    ("a lemma that uses a later one", LOCK, LEMMAS, "\n No source P0:0 LR x=0", "\n By lemma 2"),
    ("a lemma that isn't there", LOCK, LOCKED, ": By lemma 1", ": By lemma 2"),
    ("lemma 0", LOCK, LOCKED, ": By lemma 1", ": By lemma 0"),
    ("a lemma with a fact fewer", LOCK, LOCKED, "Lemma 1 P0:0 LR x=0, P1:0 LR x=0", "Lemma 1 P1:0 LR x=0"),
    ("a lemma with another fact", LOCK, LOCKED, "Lemma 1 P0:0 LR x=0, P1:0 LR x=0", "Lemma 1 P0:0 LR x=0, P1:0 LR x=1"),
    ("a lemma without its part", LOCK, LOCKED, " No source P0:0 LR x=0\n", "", "=4", "=3"),
    ("a lemma of another number", LOCK, LEMMAS, "Lemma 2", "Lemma 3"),
    ("a lemma after the tree", LOCK, LOCKED, LOCKED[LOCKED.index("Lemma"):LOCKED.index("Case")], "", "Verdict",
     LOCKED[LOCKED.index("Lemma"):LOCKED.index("Case")] + "Verdict"),
    ("a case left out", LOCK, LOCKED, re.search(r"Case part P0:0 LR x=0, P2.*\n", LOCKED)[0], "", "=4", "=3"),
    ("the last case left out", PIGEON_HOLES, PIGEONS, " So P3:0 LW x=4 last: False 3:EAX=3\n", "", " Case P2", " So P2", "=6", "=5"),
    ("an answer left out of a line", LOCK, LEMMAS, "P2:0 LR x=0 or P1:0 LR x=0, P2:0 LR x=0", "P2:0 LR x=0"),
    ("a case twice", LOCK, VALUES, "Case P1:0 LR x=0", re.search(r"Case P1.*\n", VALUES)[0] + "Case P1:0 LR x=0", "=3", "=4"),
    ("an answer with a further fact", PIGEON_HOLES, PIGEONS, "Case P0:0 LW x before P1:0 LW x", "Case P0:0 LW x before P1:0 LW x, P0:0 LR x not 3"),
    ("an answer with a further fact, the second", PIGEON_HOLES, PIGEONS, "Case P1:0 LW x before P0:0 LW x",
     "Case P1:0 LW x before P0:0 LW x, P1:0 LR x not 3"),
    ("cases of two questions", LOCK, VALUES, "Case P1:0 LR x=0", "Case P2:0 LR x=0"),
    ("a question of another kind", LOCK, VALUES, "Case P0:0", "Case part P0:0", "So P0:0", "So part P0:0"),
    ("a question whose kind isn't told", LOCK, LOCKED, "So part", "So"),
    ("cases in another order", SEEN, LAST, re.search(r"(?s)Case.*\nSo.*\n", LAST)[0],
     "Case%s\nSo%s\n" % tuple(re.findall(r"(?:Case|So)( P.*)", LAST)[::-1])),
    ("answers in another order", LOCK, LEMMAS, "P0:0 LR x=0, P2:0 LR x=0 or P1:0 LR x=0, P2:0 LR x=0",
     "P1:0 LR x=0, P2:0 LR x=0 or P0:0 LR x=0, P2:0 LR x=0"),
    ("two lines that the same words end", LOCK, LEMMAS, "So part P0:0 LR x=0, P2:0 LR x=0 or P1:0",
     "Case part P0:0 LR x=0, P2:0 LR x=0: No source P2:0 LR x=0\nSo part P1:0", "=4", "=5"),
    ("an edge turned", PASSING, PASSED, "P0:1 W y=1 rf P1:0 R y=1 po", "P1:0 R y=1 rf P0:1 W y=1 po"),
    ("an edge turned, of two writes", OWN_LATER, LATER, "P0:1 W x=1 co P1:0 W x=2", "P1:0 W x=2 co P0:1 W x=1"),
    ("an edge renamed", PASSING, PASSED, "po P0:1 W y=1", "co P0:1 W y=1"),
    ("an edge of another kind", PASSING, PASSED, "po P0:1 W y=1", "mfence P0:1 W y=1"),
    ("an event left out", PASSING, PASSED, " po P0:1 W y=1 rf P1:0 R y=1", " rf P1:0 R y=1"),
    ("a cycle that isn't closed", PASSING, PASSED, " po P2:1 R x=0 fr P0:0 W x=1\n", " po P2:1 R x=0\n"),
    ("an edge by another case's answer", PASSING, PASSED, "po P0:1 W y=1 rf P1:0 R y=1", "po P0:2 W y=2 rf P1:0 R y=1"),
    ("a cycle of all locations as one of one", PASSING, PASSED, ": Cycle", ": Uniproc"),
    ("an own store before an earlier read", OWN_LATER, LATER, "Uniproc P0:0 R x=2 po P0:1 W x=1 co P1:0 W x=2", "Uniproc P0:0 R x=2 co P1:0 W x=2"),
    ("a further node", BETWEEN, KEPT, "Between", "Between P0:0 LR x=0 P1:0 W x=1 P0:0 LW x=0\nBetween", "=1", "=2"),
    ("a node after the last case", LOCK, VALUES, "Verdict", "False 0:EAX=1\nVerdict", "=3", "=4"),
    ("a node after a part", PIGEON_HOLES, PIGEONS, "Case P1:0 LW", " False 3:EAX=3\nCase P1:0 LW", "=6", "=7"),
    ("a line too deep", BETWEEN, KEPT, "Between", " Between"),
    ("a line too high", LOCK, LOCKED, "\n No source", "\nNo source"),
    ("a case too deep", LOCK, VALUES, "Case P1:0 LR x=0", " Case P1:0 LR x=0"),
    ("a part that isn't deeper", PIGEON_HOLES, PIGEONS, " Case P1:0 LW x=4", "Case P1:0 LW x=4"),
    ("the end of the cases left out", PIGEON_HOLES, PIGEONS, "Endcases\n", ""),
    ("an end of cases too many", LOCK, VALUES, "Verdict", "Endcases\nVerdict"),
    ("an end of cases in place of the answer that is left", LOCK, VALUES, "So P1:0", "Case P1:0", "Verdict", "Endcases\nVerdict"),
    ("an answer that isn't left alone", LOCK, VALUES, "So P0", "Case P0"),
    ("one of two parts as what is left", PIGEON_HOLES, PIGEONS, "Case P1:0 LW x before", "So P1:0 LW x before", "Endcases\n", ""),
    ("the answer that is left isn't told", LOCK, VALUES, "So P0:0 LR x=1\n", ""),
    ("nothing is given", PASSING, PASSED, re.search(r"Given.*\n", PASSED)[0], ""),
    ("less is given", BETWEEN, KEPT, "Given P0:0 LR x=0, x=0", "Given P0:0 LR x=0"),
    ("another thing is given", BETWEEN, KEPT, "Given P0:0 LR x=0, x=0", "Given P0:0 LR x=0, x=1"),
    ("what is asked is given again", COUNTER, COUNTED, "False", "Given (0:EAX=3 \\/ x=2)\nFalse"),
    ("a given part without its brackets", PIGEON_HOLES, PIGEONS, "((0:EAX=0 \\/ 0:EAX=1) \\/ 0:EAX=2)", "(0:EAX=0 \\/ 0:EAX=1 \\/ 0:EAX=2)"),
    ("a given part that is changed", PIGEON_HOLES, PIGEONS, "((0:EAX=0 \\/", "((0:EAX=3 \\/"),
    ("a value changed", PASSING, PASSED, "Case P1:0 R y=1", "Case P1:0 R y=2"),
    ("a value left out", PASSING, PASSED, "from P0:1 W y=1:", "from P0:1 W y:"),
    ("a place's value changed", COUNTER, COUNTED, "x=3", "x=2"),
    ("a place's value left out", COUNTER, COUNTED, "0|1|2", "0|1"),
    ("values in another order", COUNTER, COUNTED, "0|1|2", "1|0|2"),
    ("a place too many", COUNTER, COUNTED, "x=3", "1:EAX=0|1|2 x=3"),
    ("a place left out", LOCK, VALUES, "False 0:EAX=0 1:EAX=1 2:EAX=1", "False 1:EAX=1 2:EAX=1"),
    ("places in another order", LOCK, VALUES, "False 0:EAX=0 1:EAX=1 2:EAX=1", "False 0:EAX=0 2:EAX=1 1:EAX=1"),
    ("a closing that isn't so", LOCK, VALUES, "False 0:EAX=0 1:EAX=1 2:EAX=1", "No source P0:0 LR x=0"),
    ("no value, where one is left", LOCK, VALUES, "False 0:EAX=0 1:EAX=1 2:EAX=1", "No value P0:0 LR x=0"),
    ("no reader, where one is left", LOCK, VALUES, "False 0:EAX=0 1:EAX=1 2:EAX=1", "No reader x initial"),
    ("no last write, where one is left", LOCK, VALUES, "False 0:EAX=0 1:EAX=1 2:EAX=1", "No last x"),
    ("a write between, of its own core", BETWEEN, KEPT, "P1:0 W x=1 P0", "P0:0 LW x=0 P0"),
    ("the parts of two instructions", LOCK, VALUES, "False 0:EAX=0 1:EAX=1 2:EAX=1", "Between P0:0 LR x=0 P1:0 LW x=1 P2:0 LW x=1"),
    ("a source that is a later write of the core", OWN_LATER, LATER, "No source P0:0 R x=1\n", "Uniproc P0:0 R x=1 po P0:1 W x=1 rf P0:0 R x=1\n",
     "Case part P0:0 R x=1:", "Case part P0:0 R x=1 from P0:1 W x=1:"),
    ("fewer leaves", LOCK, LOCKED, "leaves=4", "leaves=3"),
    ("another verdict", LOCK, LOCKED, "Verdict No", "Verdict Ok"),
    ("no verdict", LOCK, LOCKED, "Verdict No\n", ""),
    ("another question of the condition", LOCK, LOCKED, "Asked exists true", "Asked ~exists true"),
    ("another test", LOCK, LOCKED, "Test lock", "Test SB"),
    ("another model", LOCK, LOCKED, "Never tso", "Never sc"),
)

# Of sequential consistency, and made one of x86-TSO.
OF_OTHER_MODEL = (("po from a store to a later load", BUFFERING, BUFFERED, "Never sc", "Never tso"),)


def one_line(name, cells, condition, line, initial=""):
    """A test of one row of cells, or of several, and a text of one closing that isn't so of it; what is given is in the first line."""
    columns = ["P%d" % core for core in range(len(cells))]
    rows = "".join(" %s ;\n" % " | ".join(row) for row in [columns] + list(zip(*cells)))
    given, closing = line
    text = "Test %s\nNever tso leaves=1\nAsked exists true\n%s%s\nVerdict No\n" % (name, "Given %s\n" % given if given else "", closing)
    return ("X86 %s\n{ %s }\n%sexists %s\n" % (name, initial, rows, condition)).encode(), text


# Tests in which one thing is missing that the closing needs, and its text: name, test and text.
NOT_SO = (
    ("two plain loads from one source", *one_line(
        "loads", (("MOV EAX,[x]",), ("MOV EAX,[x]",), ("MOV [x],$1",)), "(0:EAX=0 /\\ 1:EAX=0)",
        ("P0:0 R x=0, P1:0 R x=0", "No source P0:0 R x=0"))),
    ("a plain load and a locked instruction from one source", *one_line(
        "mixed", (("XCHG [x],EAX",), ("MOV EAX,[x]",)), "(0:EAX=0 /\\ 1:EAX=0)",
        ("P0:0 LR x=0, P1:0 R x=0", "No source P1:0 R x=0"), "0:EAX=1")),
    ("locked instructions of two locations from one source", *one_line(
        "apart", (("XCHG [x],EAX",), ("XCHG [y],EAX",)), "(0:EAX=0 /\\ 1:EAX=0)",
        ("P0:0 LR x=0, P1:0 LR y=0", "No source P0:0 LR x=0"), "0:EAX=1; 1:EAX=1")),
    ("two locked instructions from two sources of one value", *one_line(
        "alike", (("XCHG [x],EAX",), ("XCHG [x],EAX",)), "(0:EAX=1 /\\ 1:EAX=1)",
        ("P0:0 LR x=1, P1:0 LR x=1", "No source P0:0 LR x=1"), "x=1; 0:EAX=1; 1:EAX=1")),
    ("no reader, with a plain store to the location", *one_line(
        "stored", (("XCHG [x],EAX",), ("MOV [x],$1",)), "0:EAX=1",
        ("P0:0 LR x=1", "No reader x initial"), "0:EAX=1")),
    ("no reader of a location that nothing writes", *one_line(
        "unwritten", (("MOV EAX,[x]",), ("MOV [y],$1",)), "0:EAX=0",
        ("P0:0 R x=0", "No reader x initial"))),
    ("no reader of a write that can be the last one", *one_line(
        "turns", (("XCHG [x],EAX",), ("XCHG [x],EAX",)), "(0:EAX=0 /\\ 1:EAX=1)",
        ("P0:0 LR x=0, P1:0 LR x=1", "No reader P1:0 LW x=2"), "0:EAX=1; 1:EAX=2")),
    ("a counter to which a plain store writes", *one_line(
        "set", (("LOCK XADD [x],EAX",), ("MOV [x],$1",)), "x=1",
        ("", "False x=2"), "0:EAX=1")),
    ("a counter whose addend was read", *one_line(
        "added", (("MOV EAX,[y]", "LOCK XADD [x],EAX"), ("LOCK XADD [x],EAX", ""), ("MOV [y],$1", "")), "x=2",
        ("", "False x=1"), "1:EAX=1")),
    ("a counter whose addend was read, of the word that no core changes", *one_line(
        "unchanged", (("MOV EAX,[y]", "LOCK XADD [x],EAX"), ("LOCK XADD [x],EAX", "")), "x=2",
        ("", "False x=1"), "1:EAX=1")),
    ("a counter that one core exchanges", *one_line(
        "exchanged", (("LOCK XADD [x],EAX",), ("XCHG [x],EAX",)), "x=1",
        ("", "False x=2"), "0:EAX=1; 1:EAX=1")),
    ("a value that another core can have written before", *one_line(
        "own", (("MOV EAX,[x]", "MOV [x],$1"), ("MOV [x],$1", "")), "0:EAX=1",
        ("P0:0 R x=1", "No source P0:0 R x=1"))),
    ("a cycle by a later write of the core, where another one wrote the value", *one_line(
        "other", (("MOV EAX,[x]", "MOV [x],$1"), ("MOV [x],$1", "")), "0:EAX=1",
        ("P0:0 R x=1", "Uniproc P0:0 R x=1 po P0:1 W x=1 rf P0:0 R x=1"))),
    ("a register by a load that a later instruction overwrites", *one_line(
        "moved", (("MOV EAX,[x]", "MOV EAX,$2"), ("MOV [x],$1", "")), "0:EAX=2",
        ("", "False 0:EAX=0|1"))),
    ("an own store that is overwritten, of another core", *one_line(
        "behind", (("MOV [x],$1", "MOV EAX,[x]"), ("MOV [x],$2", "")), "0:EAX=2",
        ("P0:1 R x=2", "No source P0:1 R x=2"))),
    ("a write that another one of its value can follow", *one_line(
        "last", (("MOV [x],$1", "MOV [x],$2"), ("MOV [x],$1", "")), "x=1",
        ("", "No last x"))),
    ("co between writes of which each can be the last", *one_line(
        "writes", (("MOV [x],$1", "MOV [y],$1"), ("MOV [y],$2", "MOV [x],$2")), "(x=1 \\/ y=1)",
        ("", "Cycle P0:0 W x=1 po P0:1 W y=1 co P1:0 W y=2 po P1:1 W x=2 co P0:0 W x=1"))),
)


def changed(text, changes):
    for old, new in zip(changes[::2], changes[1::2]):
        text = text.replace(old, new, 1)
    return text


def judge():
    """Names of slips, each with what is wrong about the judge: it refuses the right text, or takes the other one."""
    for name, given, right, *changes in OF_ONE_TEXT + OF_OTHER_MODEL:
        test, model, wrong = reading.read_test(given), SC if "Never sc" in right else TSO, changed(right, changes)
        as_json = printing.as_json(printed_refutations.read_text(right))
        faults = [] if wrong != right else ["the slip changes nothing"]
        faults += printed_refutations.faults_of_both(test, model, right, as_json) + printed_refutations.faults_of(test, model, as_json, True)
        yield name, faults + faults_of_wrong(test, wrong, as_json)
    for name, given, wrong in NOT_SO:
        told = printed_refutations.faults_of(reading.read_test(given), TSO, wrong)
        yield name, [] if told and told[0].startswith("it isn't so") else ["it is taken, or refused for another reason: %s" % told]


def faults_of_wrong(test, wrong, right_json):
    """How the judge takes what is wrong, as text and as JSON, where it can be made one that isn't the right one."""
    taken = [] if printed_refutations.faults_of(test, TSO, wrong) else ["it is taken: " + wrong]
    try:
        as_json = printing.as_json(printed_refutations.read_text(wrong))
    except printed_refutations.Wrong:
        return taken
    is_refused = as_json == right_json or printed_refutations.faults_of(test, TSO, as_json, True)
    return taken + ([] if is_refused else ["it is taken as JSON: " + as_json])
