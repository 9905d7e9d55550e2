"""Tests whose every state a plain search can go through: drafts of which cells are taken away until few enough can be reached."""
import math

from reference import litmus

# About so many states a test may have.
MOST_STATES = 30_000


def cut(draw, draft, test_of):
    """Takes cells away until the draft spells a test of few states, or none at all."""
    cells = [(row, core) for row in draft.rows for core, cell in enumerate(row) if cell]
    draw.shuffle(cells)
    test = test_of(draft)
    while test is not None and cells and states_of(test) > MOST_STATES:
        row, core = cells.pop()
        row[core] = []
        test = test_of(draft)


def states_of(test):
    """About how many states the test can be in: of each core the places with what may be pending there and what its loads may have
    returned, and of each location the words that it may hold."""
    written = [done.location for program in test.programs for done in program if done.kind in litmus.STORES + litmus.LOCKED]
    writers = [written.count(location) for location in range(len(test.locations))]
    return math.prod(states_of_core(program, writers) for program in test.programs) * math.prod(1 + count for count in writers) ** 0.5


def states_of_core(program, writers):
    states, waiting, returned = 1, 0, 1
    for done in program:
        if done.kind in litmus.STORES:
            waiting += 1
        elif done.kind == litmus.FENCE or done.kind in litmus.LOCKED:
            waiting = 0
        if done.kind == litmus.LOAD or done.kind in litmus.LOCKED:
            returned *= min(3, 1 + writers[done.location])
        states += (1 + waiting) * returned
    return states
