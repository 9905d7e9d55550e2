"""What has to come up among inputs, by kind and name, so that an answer that is alike says something of it."""
from reference import commands, litmus, printing, tracing

FAULTS_OF_TESTS = {
    "TooLarge": ("the text", "the test's name", "a ninth core", "a 17th location in the initial state",
                 "a 17th location in the rows",
                 "a 17th location in the condition", "a 33rd instruction", "a 257th atom", "a 65th bracket or negation"),
    "NoHeader": ("no text", "no header line"),
    "Unclosed": ("a comment before the header line", "a comment before the initial state", "a comment in the initial state",
                 "a comment in the row of cores", "a comment in the rows", "a comment after locations",
                 "a comment in the brackets of locations", "a comment in the condition", "a quotation", "no initial state",
                 "the initial state", "a row", "the brackets of locations"),
    "BadToken": ("no information line", "a key without its =", "no [ after locations", "the end after locations",
                 "a byte that begins nothing in the initial state", "a byte that begins nothing in the row of cores",
                 "a byte that begins nothing in the rows", "a byte that begins nothing after locations",
                 "a byte that begins nothing in the condition", "a name of more than 32 bytes in the initial state",
                 "a name of more than 32 bytes in the row of cores", "a name of more than 32 bytes in the rows",
                 "a name of more than 32 bytes in the condition"),
    "BadInit": ("a token in the initial state",),
    "BadHeaderRow": ("a token", "the end"),
    "WrongCells": ("too few", "too many"),
    "BadInstruction": ("a cell",),
    "BadNumber": ("of the initial state", "of a row", "of the condition"),
    "TwiceInit": ("a location", "a register"),
    "NoSuchCore": ("of the initial state", "of the condition"),
    "BadCondition": ("a token in the condition", "the end in the condition"),
    "Trailing": ("after a condition", "without a condition"),
}

CELLS = ("MOV memory,$number", "MOV memory,number", "MOV memory,register", "MOV register,$number", "MOV register,number",
         "MOV register,register", "MOV register,memory", "MFENCE", "XCHG memory,register", "XCHG register,memory",
         "LOCK XCHG memory,register", "LOCK XCHG register,memory", "LOCK XADD memory,register")

LARGER_CELLS = tuple(["LOCK CMPXCHG memory,register", "XCHG register,register", "NOP", "PAUSE", "LFENCE", "SFENCE"]
                     + ["%s %s" % (word, operand) for word in ("INC", "DEC", "NEG", "NOT") for operand in ("register",)]
                     + ["LOCK %s memory" % word for word in ("INC", "DEC", "NEG", "NOT")]
                     + [form % word for word in ("ADD", "SUB", "AND", "OR", "XOR")
                        for form in ("%s register,register", "%s register,$number", "%s register,number", "LOCK %s memory,register",
                                     "LOCK %s memory,$number", "LOCK %s memory,number")])

# Of a line in a cache, its state before a choice and after it.
CHANGES = ("I>S", "I>E", "I>M", "S>M", "O>M", "E>M", "M>S", "M>O", "E>S", "M>I", "O>I", "E>I", "S>I", "I>IS_D", "I>IM_D", "S>SM_D",
           "O>SM_D", "IS_D>S", "IS_D>E", "IM_D>M", "SM_D>M")

LINES = ("no command", "--help", "--version", "help of a command", "unknown command", "option before the command", "stray word",
         "option of another command", "unknown option", "option twice", "option without its value", "flag with a value",
         "value that is no number", "choices that are given, and seeds", "lines of three words") + tuple(
             "value out of range: " + name for name in
             ("protocol", "depth", "sets", "ways", "words", "bus", "from", "seeds", "length", "states", "show", "model", "cases", "instructions"))

# A refusal is told by every command that reads an input, and each has its own further statuses.
STATUSES = {"run": (0, 1, 3), "trace": (0, 1, 3), "sweep": (0, 1, 3), "counts": (0, 1, 3), "outcomes": (0, 1, 3, 4), "why": (0, 1, 3, 4),
            "check": (0, 1, 4), "witness": (0, 1, 4)}

# Commands beside whose answer with status 0 a hint may stand.
HINTED = ("run", "trace", "sweep", "outcomes", "why")

# What may mislead in a test's names, and the commands of which it comes up; the last ones are rare beside a search.
KEPT = {"a location that nothing uses": HINTED, "a register that nothing writes": HINTED, "a location that nothing writes": ("run", "trace"),
        "two values of one place": ("run", "trace")}

AMOUNTS = ("none", "one", "several")

# What `trace --json` has that `trace` and `run --json` haven't: each member, where it says something and where it says nothing.
TRACES_AS_JSON = {
    "choices used as JSON": ("1000, ended", "1000, unfinished", "1001, the last of a seed", "1001, the last a word of its own"),
    "instruction as JSON": litmus.STORES + litmus.MOVES + litmus.LOCKED + (litmus.LOAD, litmus.FENCE),
    "proposition as JSON": ("null", "truth", "register", "location", "not", "and", "or", "brackets around and", "brackets around or"),
    "outcome of a step": ("committed", "buffered", "moved", "asked", "stalled"),
    "bus as JSON": ("nobody", "held, and nothing is awaited", "IS_D", "IM_D", "SM_D"),
    "words that the bus keeps": range(5),
    "word as JSON": ("none", "buffer", "cache", "another core", "bus", "memory"),
    "pending stores as JSON": AMOUNTS,
    "copies of a set": AMOUNTS,
    "state of a copy": ("M", "O", "E", "S", "SM_D"),
    "words of a copy": range(1, 5),
    "memory as JSON": ("what is meant", "older than what is meant"),
}
TRACES_AS_JSON.update(("part of a step: " + part, ("there", "not there")) for part in tracing.PARTS)

# The forms of an answer; herd's word of each quantifier; and what `--assert` may find.
FORMS = ("text", "JSON")
CLAIMED = ["%s %s" % (quantifier, word) for quantifier in ("exists", "~exists", "forall") for word in ("Ok", "No")]
ASSERTED = ("nothing", "Ok", "No", "no verdict")

OUTCOMES = {
    "answer of outcomes": ("all states, text", "all states, JSON", "too many states, text", "too many states, JSON"),
    "verdict of a search that gave up": ("none", "Ok", "No"),
    "states that can be reached": ("fewer than may be kept", "as many as may be kept", "more than may be kept"),
    "final states": AMOUNTS[1:],
    "cores that are alike": ("two or more", "none"),
    "what a state names": ("registers", "locations", "registers and locations", "nothing"),
    "choices beside a state": ("none", "some"),
    "observation of outcomes": ["%s, %s" % (word, form) for word in ("Never", "Sometimes", "Always", "none") for form in FORMS],
    "verdict of outcomes": ["%s, %s" % (word, form) for word in CLAIMED + ["none"] for form in FORMS],
    "asserted of outcomes": ASSERTED,
}

REASONS = {
    "answer of why": ["%s, %s, %s" % (word, model, form) for word in ("never", "allowed") for model in ("tso", "sc")
                      for form in FORMS] + ["too many cases, text", "too many cases, JSON"],
    "asked": ("exists", "~exists", "forall", "nothing"),
    "verdict of why": CLAIMED + ["none"],
    "asserted of why": ASSERTED,
    "step of a reason": ("given", "case", "so", "leaf", "endcases"),
    "closing of a reason": ("cycle", "uniproc", "between", "false", "none"),
    "question of a reason": ("plain", "reader", "part"),
    "relation in a reason": ("po", "mfence", "implied", "rf", "co", "fr"),
}


def names():
    """Each kind, and the names of it that have to come up."""
    wanted = {
        "refusal of a test": FAULTS_OF_TESTS,
        "fault of a test": ["%s: %s" % (name, case) for name, cases in FAULTS_OF_TESTS.items() for case in cases],
        "refusal of choices": ("BadWord", "NoSuchCore", "TooMany"),
        "refusal of an order": ("NoOrder", "BadLine", "BadCount"),
        "refusal of an input": ("TooLarge",),
        "breach": ("C1 extra", "C1 twice", "C1 missing", "C2", "C3", "C4", "C5"),
        "depth needed": ("more than there is", "as much as there is", "less than there is"),
        "depth that an order needs": range(litmus.MOST_INSTRUCTIONS),
        "outcome": ("Committed", "Buffered", "Moved", "Asked"),
        "hint beside status 0": ["never seen", "none"] + ["%s, of %s" % (kind, command) for kind in KEPT for command in KEPT[kind]],
        "stall": ("Done", "Full", "Fence", "Lock", "Empty", "Bus"),
        "access": ("hits", "misses", "upgrades", "forwards", "write_backs", "flushes"),
        "moved": printing.TRAFFIC,
        "runs of counts": ("of seeds", "given"),
        "runs that are counted": ("all end", "some end", "none ends"),
        "form of counts": FORMS,
        "found": ("M hits by a load", "O hits by a load", "E hits by a load", "S hits by a load", "M hits by a write",
                  "E hits by a write", "O upgrades by a write", "S upgrades by a write"),
        "snooped": ["%s by %s" % (state, request) for state in "MOES" for request in ("GetS", "GetM")],
        "victim": "MOES",
        "change of a line": CHANGES,
        "hit on the split bus": ("while it is held", "while it is free"),
        "order": ("entries between the parts of a locked instruction",),
        "condition": ["none"] + ["%s %s" % (quantifier, truth) for quantifier in ("exists", "~exists", "forall")
                                 for truth in ("true", "false")],
        "observation": ("Never", "Sometimes", "Always"),
        "cell": CELLS + LARGER_CELLS,
        "no location": litmus.NO_LOCATIONS + litmus.KEYWORDS,
        "case of letters": ("capitals", "small letters", "mixed case"),
        "spelling": ["tab after X86", "space after X86", "quotation", "key line", "locations", "empty cell", "negation ~",
                     "negation not"]
                    + ["%s in the %s" % (form, part) for form in ("location", "location in brackets", "register")
                       for part in ("initial state", "condition")],
        "choice": ("s", "d", "s with leading zeros", "d with leading zeros", "seed"),
        "between choices": ("space", "tab", "carriage return", "line feed"),
        "command line": LINES,
        "option's form": ("space", "equals sign"),
    }
    wanted.update(TRACES_AS_JSON)
    wanted.update(OUTCOMES)
    wanted.update(REASONS)
    wanted.update(("status of " + command, statuses) for command, statuses in STATUSES.items())
    for command in STATUSES:
        wanted["cores of " + command] = range(1, litmus.MOST_CORES + 1)
        wanted["register in a program of " + command] = wanted["register in a condition of " + command] = litmus.REGISTERS
    wanted.update(("%s of %s" % (name, command), values_of(name, values))
                  for command, options in commands.OPTIONS.items() for name, values in options.items())
    return {kind: [str(name) for name in listed] for kind, listed in wanted.items()}


def values_of(name, values):
    """The values of an option; of great ranges their ends."""
    if name in commands.GREAT_RANGES:
        return "least", "between", "greatest"
    if name == "words":
        return commands.WORDS
    return (False, True) if values is None else values
