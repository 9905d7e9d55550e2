"""All executions of a source that the model allows, each found once.

Threads are taken further one event at a time. A write may stand at each place of mo. A read that waits either reads from a write that is
there, or is put off until another one is: so each execution comes up by one way alone.
"""
from .paths import is_write
from .events import CUT, FENCE, LOCKED, READ, WRITE
from .rc11 import PLAIN, Event, Execution
from .refusals import NotJudged
from .source import Action

MOST_EXECUTIONS = 60000
# What every atomic access is by the model in which all of them release and acquire.
RELEASE_ACQUIRE = {READ: "acq", WRITE: "rel", LOCKED: "ar", FENCE: "ar"}


class Executions:
    """The executions of a source's grown paths: `all` yields pairs of an execution and its paths. `is_cut` says whether one went to the
    bound of loops, and `race` has a pair of events, once one of them has a race."""

    def __init__(self, growth, source, model):
        self._growth, self._source, self._model = growth, source, model
        self.is_cut, self.race, self._later = False, None, {}

    def all(self):
        waiting, count = [self._start()], 0
        while waiting:
            count += 1
            if count > MOST_EXECUTIONS:
                raise NotJudged("the source has too many executions")
            execution, nodes, added, offered = waiting.pop()
            if execution.race is not None:
                self.race = execution.race
                return
            pending = next((thread for thread, node in enumerate(nodes) if added[thread] < len(node.events)), None)
            if pending is not None:
                step = tuple(number + (thread == pending) for thread, number in enumerate(added))
                action = nodes[pending].events[added[pending]]
                waiting += [(found, nodes, step, offered) for found in self._with(execution, self._event(pending, action))]
            elif all(node.place is None for node in nodes):
                self.is_cut |= any(node.kind == CUT for node in nodes)
                if all(node.path is not None for node in nodes):
                    yield execution, [node.path for node in nodes]
            else:
                waiting += self._reads(execution, nodes, added, offered)

    def _start(self):
        roots = tuple(self._growth.roots)
        execution = Execution(self._model, len(roots))
        for place in self._source.places():
            word = self._source.initial_word(place)
            execution.add_initial(Event(-1, Action(WRITE, place, None, word, None, None, PLAIN), PLAIN))
        return execution, roots, (0,) * len(roots), {}

    def _event(self, thread, action):
        mode = action.mode
        if self._model == "ra" and mode != PLAIN:
            mode = RELEASE_ACQUIRE[action.kind]
        return Event(thread, action, mode)

    def _with(self, execution, event):
        """The executions that one has with a further write or fence."""
        if event.kind == WRITE:
            return execution.added_writes(event)
        return filter(None, [execution.add_fence(event)])

    def _reads(self, execution, nodes, added, offered):
        """What becomes of one of the reads that wait: it reads from a write that is new to it, or waits for a further one."""
        for thread, node in enumerate(nodes):
            if node.place is None:
                continue
            known = offered.get(thread, ())
            new = [write for write in execution.mo[node.place] if write not in known]
            if not new:
                continue
            others = {one: seen for one, seen in offered.items() if one != thread}
            if any(node.place in self._later_writes(other) for number, other in enumerate(nodes) if number != thread):
                yield execution, nodes, added, {**others, thread: (*known, *new)}
            for write in new:
                yield from self._read(execution, nodes, added, others, thread, write)
            return

    def _read(self, execution, nodes, added, offered, thread, write):
        node = nodes[thread]
        child = self._growth.child(node, execution.events[write].written)
        event = self._event(thread, child.events[len(node.events)])
        add = execution.add_update if event.kind == LOCKED else execution.add_read
        found = add(event, write)
        if found is not None and (child.place is not None or child.path is not None or child.kind == CUT):
            yield (found, nodes[:thread] + (child,) + nodes[thread + 1:],
                   added[:thread] + (len(node.events) + 1,) + added[thread + 1:], offered)

    def _later_writes(self, node):
        """The places that a thread may write after its next read."""
        if id(node) not in self._later:
            found = set()
            for child in node.children.values():
                found |= {event.place for event in child.events[len(node.events):] if is_write(event)} | self._later_writes(child)
            self._later[id(node)] = found
        return self._later[id(node)]
