"""The program a second time, in plain Python.

It is written from docs/INPUT.md, docs/MESSAGES.md, docs/SCRIPTS.md, docs/TRACE.md, docs/DEFINITIONS.md, docs/REFERENCE.md and README.md,
and from no code of the crates, so that what definition and code say alike is said once more by somebody else. Each module names the page
that it follows. tests/second_voice.py holds a built program against it.

    lexing       bytes, lines, white space, comments and tokens
    litmus       what a test is, and its limits
    reading      a test's text
    conditions   a test's condition: reading, truth, what it names
    choices      choice texts, and the choices of seeds
    orders       order texts, entries
    axioms       what the programs make, and the first breach of an order
    witness      choices along an order, and the depth that it needs
    search       every state that a test can be in
    outcomes     final states with choices that lead there
    candidates     candidate executions, and which of them a model allows
    refutations    trees of questions and leaves, and the steps in which they are printed
    reasons        what is printed of why something can't be, or of an execution in which it is
    caches       the protocols, and the caches of all cores with their words
    machine      cores, store buffers, both buses, runs
    tracing      what each choice of a run did, and the machine after it
    printing     reports, JSON, sweeps, tables
    commands     command lines, the parts of an input, and the whole answer
    seen         what came up, by name
"""
