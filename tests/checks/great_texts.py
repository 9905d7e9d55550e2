"""The greatest inputs that there can be, for tests/damage_texts.py: each with the answer that it must get."""

from .judging import DIVIDER, ENDED, INVALID, LONGEST_INPUT, LONGEST_TEST, REFUSED, UNFINISHED

# As many cores as a test may have.
MOST_CORES = 8

NO_INSTRUCTION = b"X86 t\n{ }\nP0;\n"
ONE_STORE = b"X86 t\n{ }\nP0;\nMOV [x],1;\n"
ONE_STORE_ORDER = b"Order\nP0:0 W x=1\nEndorder 1\n"


def cell(kind, location):
    """An instruction of each kind in turn."""
    return (b"MOV [%b],$4294967295", b"MOV [%b],EAX", b"MOV EBX,[%b]", b"LOCK XADD [%b],EDI", b"XCHG [%b],ESI",
            b"MOV ECX,[%b]", b"MOV [%b],ECX", b"MFENCE")[kind % 8].replace(b"%b", location)


def greatest_test(kinds):
    """A test at all limits: cores, instructions, locations, names, atoms and nesting."""
    cores = range(MOST_CORES)
    locations = [b"location_%02d_" % at + b"x" * 20 for at in range(16)]
    table = [b" | ".join(cell(kinds(row, core), locations[(7 * row + 3 * core) % 16]) for core in cores) + b" ;\n"
             for row in range(32)]
    atoms = [b"%b=4294967295" % locations[at % 16] for at in range(255)] + [b"0:EAX=1"]
    return (b"X86 " + b"n" * 64 + b"\n{ " + b" ".join(b"%b=4294967295;" % location for location in locations)
            + b" ".join(b"%d:EDI=4294967295;" % core for core in cores) + b" }\n"
            + b" | ".join(b"P%d" % core for core in cores) + b" ;\n" + b"".join(table)
            + b"forall " + b"~(" * 32 + b" \\/ ".join(atoms) + b")" * 32 + b"\n")


# What is told: a report, whatever it says; that a text is refused at this place; that so many choices left a run without its end.
REPORT = (ENDED, None)


def refused(place):
    return REFUSED, b"Refused " + place + b"\n"


def unfinished(used, stalled):
    return UNFINISHED, b"Unfinished used=%d stalled=%d\n" % (used, stalled)


def initial(items):
    """A test with these items between its braces."""
    return b"X86 t\n{" + b"".join(items) + b"}\nP0;\n"


def great_texts():
    """The greatest tests, choices and orders: of each a name, the input, and the status and the output; None is any output, or any answer."""
    return great_tests(), great_choices(), great_orders()


def great_tests():
    return [
        ("an input over its limit", b"a" * (LONGEST_INPUT + 1), refused(b"input TooLarge")),
        ("an input at its limit", b"a" * LONGEST_INPUT, refused(b"test line 1 TooLarge")),
        ("a test over its limit", b"a" * (LONGEST_TEST + 1), refused(b"test line 1 TooLarge")),
        ("a test at its limit", b"a" * LONGEST_TEST, refused(b"test line 1 NoHeader")),
        ("a line of a million bytes in the test", b"X86 " + b"a" * 1_000_000 + b"\n" + DIVIDER,
         refused(b"test line 1 TooLarge")),
        ("65,000 empty lines", b"\n" * 65_000 + b"Y", refused(b"test line 65001 NoHeader")),
        ("a test name of 60,000 bytes", b"X86 " + b"a" * 60_000, refused(b"test line 1 TooLarge")),
        ("16,000 comments", b"(**)" * 16_000 + NO_INSTRUCTION, REPORT),
        ("a comment of comment openers", b"(*" * 32_000, refused(b"test line 1 Unclosed")),
        ("30,000 quotations", b"X86 t\n" + b'""' * 30_000 + b"{ }\nP0;\n", REPORT),
        ("20,000 keys", b"X86 t\n" + b"a=\n" * 20_000 + b"{ }\nP0;\n", REPORT),
        ("a key of 60,000 bytes", b"X86 t\n" + b"a" * 60_000 + b"\n", refused(b"test line 2 BadToken")),
        ("60,000 empty items", b"X86 t\n{" + b";" * 60_000 + b"}\nP0;\n", REPORT),
        ("registers of 5,000 cores", initial(b"%d:EAX=1;\n" % at for at in range(1, 5_001)),
         refused(b"test line 2 NoSuchCore")),
        ("the last of 5,000 registers given twice", initial(b"%d:EAX=1;\n" % min(at, 4_999) for at in range(5_001)),
         refused(b"test line 5002 TwiceInit")),
        ("cores of great numbers", initial(b"%d:EAX=1;\n" % (10 ** 400 + at) for at in range(150)),
         refused(b"test line 2 NoSuchCore")),
        ("5,000 locations", initial(b"x%d=1;\n" % at for at in range(5_000)), refused(b"test line 18 TooLarge")),
        ("a header row of 16,000 cores", b"X86 t\n{ }\n" + b"P0|\n" * 16_000, refused(b"test line 4 BadHeaderRow")),
        ("60,000 empty rows", NO_INSTRUCTION + b";" * 60_000, REPORT),
        ("60,000 cells", NO_INSTRUCTION + b"|" * 60_000 + b";", refused(b"test line 4 WrongCells")),
        ("a cell of 60,000 tokens", NO_INSTRUCTION + b"[" * 60_000 + b";", refused(b"test line 4 BadInstruction")),
        ("a row without its end", NO_INSTRUCTION + b"[" * 60_000, refused(b"test line 4 Unclosed")),
        ("a number of 60,000 digits", NO_INSTRUCTION + b"MOV [x]," + b"9" * 60_000 + b";",
         refused(b"test line 4 BadNumber")),
        ("60,000 leading zeros", NO_INSTRUCTION + b"MOV [x]," + b"0" * 60_000 + b"1;", (UNFINISHED, None)),
        ("a name of 60,000 bytes", NO_INSTRUCTION + b"MOV [" + b"x" * 60_000 + b"],1;", refused(b"test line 4 BadToken")),
        ("60,000 bytes after locations", NO_INSTRUCTION + b"locations [" + b"\xff" * 60_000 + b"]", REPORT),
        ("64 brackets", NO_INSTRUCTION + b"exists " + b"(" * 64 + b"true" + b")" * 64, REPORT),
        ("65 brackets", NO_INSTRUCTION + b"exists" + b"\n(" * 65 + b"true" + b")" * 65, refused(b"test line 69 TooLarge")),
        ("64 negations", NO_INSTRUCTION + b"exists " + b"not " * 64 + b"true", REPORT),
        ("65 negations", NO_INSTRUCTION + b"exists" + b"\n~" * 65 + b"true", refused(b"test line 69 TooLarge")),
        ("32,000 brackets", NO_INSTRUCTION + b"exists" + b"\n(" * 32_000, refused(b"test line 69 TooLarge")),
        ("32,000 negations", NO_INSTRUCTION + b"exists" + b"\n~" * 32_000, refused(b"test line 69 TooLarge")),
        ("256 atoms", NO_INSTRUCTION + b"exists true" + b"/\\true" * 255, REPORT),
        ("257 atoms", NO_INSTRUCTION + b"exists true" + b"/\\\ntrue" * 256, refused(b"test line 260 TooLarge")),
        ("9,000 atoms", NO_INSTRUCTION + b"exists true" + b"\\/\ntrue" * 9_000, refused(b"test line 260 TooLarge")),
    ]


def great_choices():
    return [
        ("a core of a million digits", b"9" * 1_000_000 + b"s", refused(b"choices word 1 NoSuchCore")),
        ("a core of a million zeros", b"0" * 1_000_000 + b"s", unfinished(1, 0)),
        ("a word of a million bytes", b"x" * 1_000_000, refused(b"choices word 1 BadWord")),
        ("a seed of a million digits", b"seed " + b"9" * 1_000_000 + b" 1", refused(b"choices word 2 BadWord")),
        ("a length of a million digits", b"seed 1 " + b"9" * 1_000_000, refused(b"choices word 1 TooMany")),
        ("a length of a million zeros", b"seed 1 " + b"0" * 1_000_000, unfinished(0, 0)),
        ("a million spaces", b" " * 1_000_000 + b"0s", unfinished(1, 0)),
        ("100,000 words", b"0s " * 100_000, None),
        ("100,001 words", b"0s " * 100_001, refused(b"choices word 100001 TooMany")),
        ("100,000 words and one that is none", b"0s " * 100_000 + b"x", refused(b"choices word 100001 BadWord")),
        ("100,000 seeds of no choices", b"seed 1 0 " * 100_000, unfinished(0, 0)),
        ("100,000 seeds of one choice", b"seed 1 1 " * 100_000, None),
        ("500,000 words", b"0 " * 500_000, refused(b"choices word 1 BadWord")),
        ("a million empty lines", b"\n" * 1_000_000 + b"2s", refused(b"choices word 1 NoSuchCore")),
    ]


def great_orders():
    return [
        ("a line of a million bytes before the order", b"a" * 1_000_000 + b"\n" + ONE_STORE_ORDER, None),
        ("a line of a million bytes in the order", b"Order\n" + b"a" * 1_000_000, refused(b"order line 2 BadLine")),
        ("a value of a million digits", b"Order\nP0:0 W x=" + b"1" * 1_000_000, refused(b"order line 2 BadLine")),
        ("a count of a million digits", b"Order\nEndorder " + b"1" * 1_000_000, refused(b"order BadCount")),
        ("a million empty lines before the order", b"\n" * 1_000_000 + ONE_STORE_ORDER, None),
        ("90,000 entries and a line that is none", b"Order\n" + b"P0:0 W x=1\n" * 90_000 + b"Order\n",
         refused(b"order line 90002 BadLine")),
        ("90,000 entries without their count", b"Order\n" + b"P0:0 W x=1\n" * 90_000, refused(b"order BadCount")),
        ("90,000 times an entry", b"Order\n" + b"P0:0 W x=1\n" * 90_000 + b"Endorder 90000\n",
         (INVALID, b"Check invalid C1 twice P0:0 W x=1\n")),
        ("90,000 entries that no program has", b"Order\n" + b"P9:0 R x=1\n" * 90_000 + b"Endorder 90000\n",
         (INVALID, b"Check invalid C1 extra P9:0 R x=1\n")),
    ]
