"""Choices along an order, and the depth that it needs: docs/DEFINITIONS.md, 'choices along an order' and 'the depth that an order
needs'."""
from .choices import DRAIN, STEP
from .orders import READ, WRITE


def needed(order):
    """The greatest number of plain stores that stand before one load in its program and after it in the order; 1 where there is a
    plain store at all. The order is a TSO execution."""
    most = max((1 for entry in order if entry.kind == WRITE), default=0)
    for at, load in enumerate(order):
        if load.kind == READ:
            passed = [store for store in order[at + 1:] if store.kind == WRITE and store.is_before(load)]
            most = max(most, len(passed))
    return most


def choices_along(test, order):
    """Entry by entry the steps of its core up to and over its instruction, as far as they aren't done yet, and for a plain store
    the drain; at the end the steps that are left, core by core."""
    choices, done = [], [0] * test.cores()

    def step_over(core, places):
        choices.extend([(core, STEP)] * (places - done[core]))
        done[core] = max(done[core], places)

    for entry in order:
        step_over(entry.core, entry.place + 1)
        if entry.kind == WRITE:
            choices.append((entry.core, DRAIN))
    for core, program in enumerate(test.programs):
        step_over(core, len(program))
    return choices
