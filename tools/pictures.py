"""Pictures of executions, as Graphviz text: events in a box for each core, and the relations between them."""
import html
import itertools
import re

import scripts

COLOURS = {"po": "black", "mfence": "darkgreen", "implied": "darkgreen", "rmw": "black", "rf": "red", "co": "blue", "fr": "#c86400",
           "sb": "black", "sw": "darkgreen", "hb": "darkgreen", "mo": "blue", "rb": "#c86400", "psc": "purple"}

# Relations that say nothing of where events stand.
LOOSE = ("rf", "co", "fr")

EVENT = re.compile(r"P(\d+):(\d+) (F|LR|LW|R|W)(?: (\w+)(?:=(\d+))?)?")
READS, WRITES = ("R", "LR"), ("W", "LW")
INITIAL = "initial"


class NoPicture(Exception):
    """There is nothing to draw, or nothing to draw it with."""


class Event:
    """An event of a text such as `P0:1 R y=0`; its value is None where it isn't known."""

    def __init__(self, text):
        found = EVENT.fullmatch(text)
        if found is None:
            raise NoPicture("no event: " + text)
        core, place, self.kind, self.location, self.value = found.groups()
        self.core, self.place, self.number, self.notes = int(core), int(place), None, ()

    def key(self):
        """What makes it this event, and where it stands in program order."""
        return self.core, self.place, self.kind

    def name(self):
        return "P%d_%d_%s" % self.key()

    def label(self):
        what = "MFENCE" if self.kind == "F" else "%s %s" % (self.kind, self.location)
        value = "" if self.value is None else "=" + self.value
        return ("" if self.number is None else "%d: " % self.number) + what + value


class Cited(Event):
    """An event of C: its thread, -1 of the initial writes; its number in the execution; and what it is, in words."""

    def __init__(self, thread, number, words, notes):
        self.core, self.place, self.kind, self.value, self.number = thread, number, "C", None, None
        self._words, self.notes = words, notes

    def name(self):
        return "C_%d" % self.place

    def label(self):
        return self._words


class Picture:
    """Events, and edges between them: which relation, and whether it is one of a cycle."""

    # What the names of its boxes begin with.
    boxes = ""

    def __init__(self, title):
        self.title, self.events, self.edges, self.initial = title, {}, {}, set()

    def event(self, text):
        """The event of this text; a value that one text has is its value."""
        return self.add(Event(text))

    def add(self, event):
        """The same of an event itself."""
        known = self.events.setdefault(event.key(), event)
        known.value = known.value or event.value
        return known

    def edge(self, x, relation, y, bold=False):
        """Draws an edge; x is None for the initial write, which y says itself."""
        if x is None:
            self.initial.add(y.key())
            return
        key = x.key(), relation, y.key()
        self.edges[key] = self.edges.get(key, False) or bold

    def add_program_order(self):
        """Edges po between events that follow each other, where no edge of a cycle leads from the one to the other already."""
        joined = {(x, y) for x, relation, y in self.edges if relation not in LOOSE}
        for _, events in self.cores():
            for x, y in zip(events, events[1:]):
                if (x.key(), y.key()) not in joined:
                    self.edge(x, "rmw" if (x.kind, y.kind, x.place) == ("LR", "LW", y.place) else "po", y)

    def add_communication(self, sources, orders):
        """Edges rf, co from each write to the next one, and fr to the first write after the one that is read. `sources` are pairs of a read
        and a write or None, `orders` has of each location its writes in their order."""
        for order in orders.values():
            for w, v in zip(order, order[1:]):
                self.edge(w, "co", v)
        for read, write in sources:
            self.edge(write, "rf", read)
            order = orders.get(read.location, [])
            after = order[0 if write is None else order.index(write) + 1:]
            # a locked instruction's own write says nothing that program order doesn't
            later = next((v for v in after if (v.core, v.place) != (read.core, read.place)), None)
            if later is not None and (not after or after[0] is later):
                self.edge(read, "fr", later)

    def cores(self):
        """Each core, with its events in program order."""
        order = sorted(self.events.values(), key=lambda event: (event.core, event.place, event.kind == "LW"))
        return [(core, list(events)) for core, events in itertools.groupby(order, key=lambda event: event.core)]

    def text(self):
        """The picture as Graphviz text: a column for each core, as ranks from left to right."""
        return graph_of(self.title, self.body())

    def body(self):
        """The lines of its boxes, its events and its edges."""
        lines = []
        for core, events in self.cores():
            box = "initial" if core < 0 else "P%d" % core
            lines.append("  subgraph cluster_%s { label=\"%s\"; rank=same; style=rounded; color=gray;" % (
                self.boxes + box, box))
            lines += ["    %s [label=%s];" % (event.name(), self.label(event)) for event in events]
            # within a rank that goes from left to right, what comes first stands below
            lines += ["  " + line for line in chain(event.name() for event in reversed(events))]
            lines.append("  }")
        return lines + chain(self.columns()) + [self.edge_line(key, bold) for key, bold in self.edges.items()]

    def columns(self):
        """The name of the first event of each column."""
        return [events[0].name() for _, events in self.cores()]

    def label(self, event):
        small = [("red", "rf initial")] * (event.key() in self.initial) + [("gray30", note) for note in event.notes]
        if not small:
            return quoted(event.label())
        return "<%s%s>" % (html.escape(event.label()), "".join(
            "<BR/><FONT POINT-SIZE=\"10\" COLOR=\"%s\">%s</FONT>" % (colour, html.escape(scripts.printable(text, kept="")))
            for colour, text in small))

    def edge_line(self, key, bold):
        x, relation, y = key
        style = {"label": " %s " % relation, "color": COLOURS[relation], "fontcolor": COLOURS[relation], "constraint": "false"}
        if bold:
            style.update(penwidth="3")
        told = ", ".join("%s=%s" % (name, quoted(value)) for name, value in style.items())
        return "  %s -> %s [%s];" % (self.events[x].name(), self.events[y].name(), told)


class CitedPicture(Picture):
    """A picture of events of C, which can stand beside one of the machine."""

    boxes = "C_"


def side_by_side(title, pictures):
    """Pictures beside each other, each in a box with its own title, as Graphviz text."""
    lines = []
    for number, picture in enumerate(pictures):
        lines.append("  subgraph cluster_part%d { label=%s; style=dashed; color=gray; margin=16;" % (number, quoted(picture.title)))
        lines += ["  " + line for line in picture.body()]
        lines.append("  }")
    return graph_of(title, lines + chain(name for picture in pictures for name in picture.columns()))


def graph_of(title, lines):
    """The whole text of a graph."""
    return "\n".join([
        "digraph %s {" % quoted(title), "  rankdir=LR; ranksep=0.7; nodesep=0.5; newrank=true; fontname=helvetica;",
        "  label=%s; labelloc=t;" % quoted(title), "  node [shape=none, fontname=helvetica, height=0.35, margin=\"0.05,0.02\"];",
        "  edge [fontname=helvetica, fontsize=11, arrowsize=0.7];", *lines, "}"]) + "\n"


def chain(names):
    """An edge that isn't seen from each of these to the next one: so they stand in a row."""
    names = list(names)
    return ["  %s [style=invis, weight=100];" % " -> ".join(names)] if len(names) > 1 else []


def quoted(text):
    return '"%s"' % scripts.printable(text, kept="").replace("\\", "\\\\").replace('"', '\\"')
