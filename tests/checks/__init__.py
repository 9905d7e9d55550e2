"""The modules of the scripts in tests/: what they judge by, what they make, and what each of them shares with others.

    judging           command lines, the tests that the repository has, running a program, judging and counting; judging.bash does that for commands
    program_starts    a program that is loaded once and started many times (many_starts.c)
    failing_calls     a program under which calls of the C library fail (failing_calls.c)
    rows, row_works   the rows of tests/data/rows/, and what is judged by them
    row_forms         files of rows that are refused
    instruction_sets  which set of instructions a text needs
    great_texts       the greatest texts that there can be
    random_tests      tests made at random
    machines/         plain machines on which tests run, and a board for a trace
    hints/            what a user does on a hint; texts that have one
    reasons/          what `why` is asked; reasons with a slip
    documents/        their sentences, tables and pictures
    proofs/           definitions and proofs: as texts, as a check leaves them, as terms that are computed
    page/             the page's module
    tools/            calls of tools/, tool by tool
    campaigns/        tools/campaign, on this machine and on a cluster
    compiled/         tools/compiled
    hostile/          attacks on what stands around the program, and faults at its system calls
"""
