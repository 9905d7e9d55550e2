"""Tests with a fault of a known kind: one kind or more for each line of the table in docs/DEFINITIONS.md, 'What a text is told
that spells no test', and beside it what is just within a limit, or nearly the same and no fault."""
from . import faults
from .drafts import PLAIN_NAMES


def lines(text):
    """The lines of a text between quotation marks, without the spaces around them."""
    return [line.strip() for line in text.strip().splitlines()]


NO_HEADERS = ("X86_64 t", "x86 t", "X86", "X86  \t", "X86\rt", "X86\x0bt", "X86\x0ct", "X8 6 t", "", "t X86", "X86t",
              "X86 t\x7f", "X86 a\tb", "X86 a\rb", "X86 \xe9", "X86 a\x01", "X86 (* x", "\x0bX86 t", "X86-t", "PPC t", "X86\xa0t",
              "X86 " + "n" * 64 + "\t.")

NO_INFORMATION = ("_key=1", "9=1", "=1", "-", "[x]", ";", "@", "key", "a key", "k\rk=1", "k(* c *)=1", "k.=1", "P0 | P1 ;",
                  "\x0b")

NO_ITEMS = lines("""
    int x = 0
    x
    x =
    = 1
    0 : x = 1
    0 : EBP = 1
    x = y
    x = $ 1
    [ x = 1
    x ] = 1
    [ 1 ] = 1
    0 EAX = 1
    0 : EAX 1
    x = 1 , y = 1
    x = 1 y = 1
    {
    filter = 1
    x = 1 = 1
""")

NO_CELLS = lines("""
    MOV
    MOV EAX
    MOV EAX ,
    MOV [ x ] , [ y ]
    MOV [ x ] EAX
    MOV x , 1
    MOV EBP , 1
    MOV EAX , ESP
    MOV EAX , EBP
    MOV EAX , x
    MOV 1 , EAX
    MOV $ 1 , EAX
    MOV EAX , $ x
    MOV [ x ] , $ EAX
    MOV [ x ] , EBP
    MOV EAX , [ x ] ,
    MOV MOV EAX , 1
    MOV [ 1 ] , 1
    MOV [ x , 1 ]
    MFENCE EAX
    LOCK MFENCE
    LOCK
    LOCK LOCK XCHG [ x ] , EAX
    LOCK MOV [ x ] , 1
    XCHG EAX , EBX
    XCHG [ x ] , 1
    XCHG [ x ] , [ y ]
    XADD [ x ] , EAX
    LOCK XADD EAX , [ x ]
    LOCK XADD [ x ] , 1
    SFENCE
    LFENCE
    INC [ x ]
    exists
    filter
    1
    x
    ~
""")

NO_CONDITIONS = lines("""
    exists
    forall
    ~
    ~ forall
    ~ ~ exists true
    ~ ( x = 0 )
    exists ( )
    exists ( x = 0 ) /\\
    exists \\/ true
    exists x
    exists 0 : x = 0
    exists 0 : EBP = 0
    exists [ x = 0
    exists ( true
    exists ( true , true )
    exists not
    exists x = $ 1
    exists ( x = 0 y = 0 )
    exists exists true
    exists ( x = 0 ]
    exists ( ( true ) ; )
    exists x = y
    exists x == 0
""")

NO_QUANTIFIERS = ("filter ( true )", "filter x = 1 exists true", "Exists true", "FORALL true", "exist ( true )",
                  "not exists true")

AFTER_CONDITIONS = ("exists true )", "exists x = 0 y = 0", "forall ( true ) ;", "exists true ~ true", "exists true exists true",
                    "exists x = 0 1", "exists true locations [ x ]", "forall ( false ) ( true )", "exists x = 0 /")


def nothing_but_gaps(draw, drafter, draft):
    return drafter.pick((b"", b" ", b"\n\n", b"(* c *)", b"\t\r\n(**) \n", b"X86", b"X86 ", b"X86\t"))


def key_at_the_end(draw, drafter, draft):
    return b"X86 t\nkey" + drafter.pick((b"", b" ", b"\t-", b"=", b"=v"))


FAULTS = {
    "size": faults.of_size(65_537),
    "size at its limit": faults.of_size(65_536),

    "open comment before the header": faults.before("(* open\n", "\n(*) \n", "(* a *)\n(* b\n"),
    "nothing but gaps": nothing_but_gaps,
    "foreign text before the header": faults.before("\n@", "(* c *)\n\n#\n", "\x00", "\n\n\xef\xbb\xbf", "test\n"),
    "long test name": faults.header("X86 " + "n" * 65, "X86 a " + "b" * 70 + " ", "X86\t" + "~" * 65),
    "test name at its limit": faults.header("X86 " + "n" * 64 + " \t", "X86\t\t" + "#" * 64),
    "long test name with a foreign byte": faults.header("X86 " + "n" * 65 + "\x80", "X86 \t" + "n" * 65 + "\tn"),

    "open comment in the information": faults.information("(* open", "(*)"),
    "open quotation": faults.information('"open', '"', '"a'),
    "information line": faults.information('"a\nb{"', "k=(* {", "a-b_c 9\t=", 'q="', "(* { *)", '"" K=v', "K==", '"(*"'),
    "cut before the initial state": faults.cut_before_initial,
    "key at the end": key_at_the_end,

    "number in the initial state": faults.initial_item(
        "x = 4294967296", "[ y ] = 99999999999999999999999", "0 : EAX = 4294967296", "0 : EAX = " + "9" * 60),
    "register of a core that isn't there": faults.initial_item(
        "8 : EAX = 1", "77 : EBX = 0", "99999999999999999999999999 : ECX = 1", "008 : EDI = 1"),
    "register of the next core": faults.next_core(faults.initial_item, "? : EAX = 1", "0? : edi = 0"),
    "location twice": faults.initial_item("x = 1 ; [ x ] = 1", "y = 1 ; y = 2", "[ z ] = 1 ; ; z = 1", "x = 0 ; x = 1"),
    "register twice": faults.initial_item(
        "0 : EAX = 1 ; 00 : eax = 2", "0 : ESI = 1 ; 0 : ESI = 1", "8 : EDI = 0 ; 8 : Edi = 0",
        "99999999999999999999 : EAX = 1 ; 099999999999999999999 : EAX = 1"),
    "nearly twice": faults.initial_item(
        "99999999999999999999 : EAX = 1 ; 9 : EAX = 1", "x = 4294967296 ; x = 1", "x = 1 ; x = 4294967296", "X = 1 ; x = 1",
        "0 : EAX = 1 ; 1 : EAX = 1", "0 : EAX = 1 ; 0 : EBX = 1"),
    "reserved name in the initial state": faults.reserved_name(0, faults.initial_item, "? = 1", "[ ? ] = 1"),

    "eight cores": faults.many_cores(8),
    "nine cores": faults.many_cores(9),
    "ten cores": faults.many_cores(10),

    "row without its end": faults.unclosed_row,
    "too few cells": faults.wrong_cells(-1),
    "too many cells": faults.wrong_cells(1),
    "reserved name in a row": faults.reserved_name(1, faults.row, "MOV [ ? ] , 1", "MOV EAX , [ ? ]", "MOV [ ? ] , EBX"),
    "reserved name in a locked instruction": faults.reserved_name(
        2, faults.row, "XCHG [ ? ] , EAX", "XCHG EBX , [ ? ]", "LOCK XADD [ ? ] , EAX"),
    "number in a row": faults.row(
        "MOV [ x ] , $ 4294967296", "MOV EAX , 4294967296", "mov [ q ] , 99999999999999999999999", "MOV EAX , $ 0004294967296"),

    "no [ after locations": faults.brackets("locations x;]", "locations", "locations (x)", "locations @", "locations \x0b[x;]"),
    "open comment in locations": faults.brackets("locations [x; (* open ]", "locations [ (*) ]"),
    "open comment after locations": faults.brackets("locations (* open [x;]"),
    "open brackets": faults.brackets("locations [x;", "locations [", "locations [ (* ] *) x; [0:EAX;"),
    "locations twice": faults.brackets("locations [x;] locations [y;]"),
    "locations at the end": faults.locations_at_end,

    "core in the condition": faults.condition(
        "exists 8 : EAX = 0", "~ exists ( x = 0 /\\ 99999999999999999999 : EAX = 4294967296 )", "forall 11 : EBX = 0"),
    "next core in the condition": faults.next_core(faults.condition, "exists ? : EAX = 0", "forall ( true \\/ 00? : ESI = 1 )"),
    "number in the condition": faults.condition("exists x = 4294967296", "forall ( 0 : EAX = 99999999999999999999 )"),
    "not a quantifier": faults.condition(*NO_QUANTIFIERS),
    "reserved name in the condition": faults.reserved_name(
        3, faults.condition, "exists ? = 1", "forall [ ? ] = 1", "exists ( x = 0 /\\ ? = 0 )"),
    "location of the condition alone": faults.condition(
        "exists q = 0", "~ exists [ q ] = 1", "forall ( q = 0 /\\ r = 0 )", "forall true", "forall x = 0"),
    "stop after the test": faults.after("@", "n" * 33, "(* open", "-", "\x00", "/", "===="),
    "more after the test": faults.after(
        "0s 1s", ";", "}", "exists true", "locations [x]", "]", "(* comment *)", "\t\r\n", "\x0b"),

    "17 locations in the initial state": faults.many_locations(17, "initial"),
    "17 locations in the rows": faults.many_locations(17, "rows"),
    "17 locations in the condition": faults.many_locations(17, "condition"),
    "16 locations in the initial state": faults.many_locations(16, "initial"),
    "16 locations in the rows": faults.many_locations(16, "rows"),
    "16 locations in the condition": faults.many_locations(16, "condition"),
    "33 instructions": faults.many_instructions(33),
    "32 instructions": faults.many_instructions(32),
    "257 atoms": faults.many_atoms(257),
    "256 atoms": faults.many_atoms(256),
    "65 open": faults.nested(65),
    "64 open": faults.nested(64),
    "negations side by side": faults.side_by_side(70),

    "bytes": faults.damaged_bytes,
    "more bytes": faults.damaged_bytes,
    "yet more bytes": faults.damaged_bytes,
}

# So many forms of a fault are one kind, so that each comes up once in as many rounds.
FORMS_OF_ONE = 7

for _name, _make, _forms in (
        ("no header", faults.header, NO_HEADERS), ("no information line", faults.information, NO_INFORMATION),
        ("no item", faults.initial_item, NO_ITEMS), ("no instruction", faults.row, NO_CELLS),
        ("no condition", faults.condition, NO_CONDITIONS), ("after a condition", faults.condition, AFTER_CONDITIONS)):
    for _at in range(0, len(_forms), FORMS_OF_ONE):
        FAULTS["%s, from form %d on" % (_name, _at)] = _make(*_forms[_at:_at + FORMS_OF_ONE])

for _part in faults.PARTS:
    FAULTS["misfit, " + _part] = FAULTS["misfit again, " + _part] = faults.misfits(_part)
    FAULTS["cut, " + _part] = faults.cut_in(_part)
    for _kind in faults.STOPS:
        FAULTS["a %s stops, %s" % (_kind, _part)] = faults.stops(_part, _kind)


def faulty(draw, drafter, turn):
    """A test with the fault whose turn it is, and its name."""
    names = list(FAULTS)
    name = names[turn % len(names)]
    drafter.round = turn // len(names)
    draft = drafter.draft(size=(2, 2, 2), names=PLAIN_NAMES[:2]) if draw.random() < 0.7 else drafter.draft()
    return FAULTS[name](draw, drafter, draft), name
