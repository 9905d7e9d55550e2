"""Pictures of what the program answers, for tests/document_pictures.py: runs, final states, cycles and a reason."""

from . import drawing_sheet

CORES = 2


def event_core(text):
    return text.split(":")[0]


def buffers(trace, told):
    """A run choice by choice: of each core its pending stores and EAX, and memory."""
    steps, wide, high, across = trace["trace"]["steps"], 316, 176, 3
    sheet = drawing_sheet.Sheet(across * wide + 20, -(-len(steps) // across) * high + 20, told)
    for at, step in enumerate(steps):
        x, y = 10 + at % across * wide, 10 + at // across * high
        sheet.box(x + 4, y + 4, wide - 8, high - 8, "part")
        sheet.text(x + 14, y + 20, "%d  %s  %s" % (at + 1, step["choice"], step["outcome"]), at="start")
        sheet.text(x + wide - 14, y + 20, step["entries"][0], at="end", kind="small")
        for core in range(CORES):
            middle = x + wide * (0.27 + 0.46 * core)
            is_choice = step["choice"].startswith(str(core))
            sheet.box(middle - 66, y + 36, 132, 72, "lit" if is_choice else "box")
            now = step["after"]["cores"][core]
            read = now["place"] == len(trace["programs"][core])
            sheet.text(middle, y + 50, "P%d  EAX=%s" % (core, now["registers"]["EAX"] if read else "?"))
            sheet.text(middle, y + 68, "buffer", size=11, kind="small")
            sheet.boxed(middle, y + 89, " ".join(now["buffer"]) or "empty", "part", size=12, wide=96, high=22)
            if step["choice"] == "%dd" % core:
                sheet.arrow((middle, y + 108), (middle, y + 134), "rf")
        words = "   ".join("%s=%d" % pair for pair in step["after"]["seen"].items())
        sheet.boxed(x + wide / 2, y + 149, "memory  " + words, wide=wide - 40, high=28)
    return sheet.svg()


def outcomes(answer, unbuffered, told):
    """The final states that a test can end in, each with its choices; those that it can end in without store buffers are framed."""
    known = [state["values"] for state in unbuffered["states"]]
    states = sorted(answer["states"], key=lambda state: state["values"] in known)
    wide, high, alone = 190, 118, len(states) - len(known)
    sheet = drawing_sheet.Sheet(len(states) * wide + 40, high + 20, told)
    sheet.text(20, 22, "only with store buffers", at="start", kind="small")
    sheet.box(14 + alone * wide, 8, len(known) * wide + 18, high + 4, "part")
    sheet.text(28 + alone * wide, 22, "also without them", at="start", kind="small")
    for at, state in enumerate(states):
        is_known = state["values"] in known
        text = "\n".join("%s=%s" % value for value in state["values"].items())
        x = 14 + (at + 0.5) * wide + (8 if is_known else 0)
        sheet.boxed(x, 62, text, "box" if is_known else "lit", wide=wide - 24, high=48)
        sheet.text(x, 104, state["choices"], size=11, kind="small")
    return sheet.svg()


def cycle(reason, told):
    """The cycle of a reason: a column for each core, as the cycle comes to them, and its edges."""
    edges = next(closing["cycle"] for closing in closings_of(reason) if closing["step"] == "cycle")
    cores = list(dict.fromkeys(event_core(edge["from"]) for edge in edges))
    columns = {core: sorted({edge["from"] for edge in edges if event_core(edge["from"]) == core}, key=lambda text: text.split()[0])
               for core in cores}
    apart, rows = 210, max(map(len, columns.values()))
    sheet = drawing_sheet.Sheet(apart * len(cores) + 20, 120 * rows + (50 if len(cores) > 2 else 0), told)
    places = {}
    for at, core in enumerate(cores):
        x, events = 10 + apart * (at + 0.5), columns[core]
        sheet.text(x, 24, core, size=15)
        for row, event in enumerate(events):
            y = 80 + 120 * (row if len(events) == rows else (rows - 1) / 2)
            places[event] = (x, y), sheet.boxed(x, y, event.split(None, 1)[1], wide=88, high=34)
    for edge in edges:
        (start, half), (end, other) = places[edge["from"]], places[edge["to"]]
        far = abs(start[0] - end[0]) > 1.5 * apart
        if far:  # below the columns between
            start, end = (start[0], start[1] + half[1]), (end[0], end[1] + other[1])
            sheet.arrow(start, end, edge["relation"], 60 if start[0] > end[0] else -60, edge["relation"])
        else:
            sheet.arrow(drawing_sheet.edge_of(start, half, end), drawing_sheet.edge_of(end, other, start), edge["relation"], 0, edge["relation"],
                        0.5 if start[0] == end[0] else 0.25)
    return sheet.svg()


def closings_of(reason):
    """What closes the cases of a reason, line by line."""
    return [step["closing"] for step in reason["steps"] if step.get("closing")]


class Question:
    """A question, with its answers and what each leads to; a text closes one."""

    def __init__(self, text):
        self.text, self.branches = text, []

    def leaves(self):
        return sum(below.leaves() if isinstance(below, Question) else 1 for _, below in self.branches)

    def depth(self):
        return 1 + max(below.depth() if isinstance(below, Question) else 0 for _, below in self.branches)


# What a question asks, by its word or by a word of its answers.
ASKED = {"part": "which part is true?", "reader": "who reads it?", "from": "what is read from?", "last": "which is the last?", "before": "which is first?"}


def question_of(step):
    words = [step["question"]] + step["answers"][0][0].split(" ")
    return next((ASKED[word] for word in words if word in ASKED), "what is returned?")


def answer_of(step):
    """The answers of a case, a line for each fact."""
    return "\nor\n".join(",\n".join(facts) for facts in step["answers"])


def closing_of(closing):
    """What closes a case, as a text of a few lines."""
    kind = closing["step"]
    if "cycle" in closing:
        return "cycle:\n" + "\n".join("%s  %s" % (edge["from"], edge["relation"]) for edge in closing["cycle"])
    if kind == "false":
        return "not as asked:\n" + ",\n".join("%s is %s" % (place, " or ".join(map(str, words))) for place, words in closing["places"].items())
    if kind == "between":
        return "%s is between\n%s\nand %s" % (closing["between"], closing["read"], closing["write"])
    return "by lemma %d" % closing["lemma"] if kind == "lemma" else "no %s is left of\n%s" % (closing["question"], closing["of"])


def tree_of(steps, at):
    """The tree that begins at a step, and the first step after it."""
    if steps[at]["step"] == "leaf":
        return closing_of(steps[at]["closing"]), at + 1
    question = Question(question_of(steps[at]))
    while at < len(steps):
        step = steps[at]
        if step["step"] == "endcases":
            return question, at + 1
        below, at = (closing_of(step["closing"]), at + 1) if step["closing"] else tree_of(steps, at + 1)
        question.branches.append((answer_of(step), below))
        if step["step"] == "so":
            break
    return question, at


def reason(answer, told):
    """A reason without lemmas as a tree from left to right."""
    steps = [step for step in answer["steps"] if step["step"] != "given"]
    tree, _ = tree_of(steps, 0)
    row, apart = 108, 250
    sheet = drawing_sheet.Sheet(270 + 2 * apart * tree.depth(), tree.leaves() * row + 20, told)
    ways = []

    def place(node, depth, top):
        """Draws a node below this row; answers where its middle is, half its size, and how many rows it has."""
        x = 110 + 2 * depth * apart
        if not isinstance(node, Question):
            y = top * row + row / 2 + 10
            return (x, y), sheet.boxed(x, y, node, "lit", size=12), 1
        taken, ends = 0, []
        for text, below in node.branches:
            end, half, rows = place(below, depth + 1, top + taken)
            middle = sheet.boxed(x + apart, end[1], text, size=12)
            ways.append(((x + apart + middle[0], end[1]), (end[0] - half[0], end[1])))
            ends.append((end[1], middle[0]))
            taken += rows
        y = sum(end for end, _ in ends) / len(ends)
        own = sheet.boxed(x, y, node.text)
        ways.extend(((x + own[0], y), (x + apart - half, end)) for end, half in ends)
        return (x, y), own, taken

    place(tree, 0, 0)
    for start, end in ways:
        sheet.arrow(start, end)
    return sheet.svg()


def lifelines(trace, told):
    """How a line goes between two caches: a row for each access of the caches, with the state of the line in each after it."""
    steps = [step for step in trace["trace"]["steps"] if step["access"]]
    lines, row = {0: 250, 1: 590}, 40
    sheet = drawing_sheet.Sheet(760, 86 + row * len(steps), told)
    for core, x in lines.items():
        sheet.text(x, 20, "P%d's cache" % core, size=14)
        sheet.line(x, 34, x, 74 + row * len(steps), "thin")
        sheet.boxed(x, 50, "I", wide=30, high=26)
    for at, step in enumerate(steps):
        y, core = 50 + row * (at + 1), int(step["choice"][0])
        here, there = lines[core], lines[1 - core]
        inwards = 18 if there > here else -18
        changed = {int(text[1]): text.split()[1].split(">") for text in step["states"]}
        sheet.text(12, y, "%s  %s" % (step["choice"], step["entries"][0].split(" ", 1)[1]), at="start")
        if changed.get(1 - core, "I")[0] == "M":
            sheet.arrow((there - inwards, y), (here + inwards, y), "rf", 0, step["transaction"], size=12)
        elif step["transaction"]:
            sheet.arrow((there - 4 * inwards, y), (here + inwards, y), "co", 0, step["transaction"] + ", from memory", size=12)
        else:
            sheet.text((here + there) / 2, y, step["access"], size=12, kind="small")
        for name, x in lines.items():
            held = [line["state"] for lines_of_set in step["after"]["cores"][name]["lines"] for line in lines_of_set]
            sheet.boxed(x, y, held[0] if held else "I", "lit" if name in changed else "box", wide=30, high=26)
    return sheet.svg()


def bus_times(trace, told):
    """A run on the split bus: time goes to the right, a column for each choice. Who holds the bus is in the lowest lane."""
    steps, apart, left = trace["trace"]["steps"], 112, 70
    sheet = drawing_sheet.Sheet(left + apart * len(steps) + 16, 236, told)
    lanes = {0: 70, 1: 126, "bus": 190}
    for name, y in lanes.items():
        sheet.text(12, y, name if name == "bus" else "P%d" % name, size=14, at="start")
        sheet.line(left - 10, y, left + apart * len(steps), y, "thin")
    asked = None
    for at, step in enumerate(steps):
        x, core = left + apart * (at + 0.5), int(step["choice"][0])
        sheet.text(x, 22, "%d  %s" % (at + 1, step["choice"]), size=12, kind="small")
        if step["outcome"] == "asked":
            asked = at
        what = step["stall"] and "waits" or {"asked": "asks\n" + str(step["transaction"])}.get(step["outcome"]) or (
            "%s\n%s" % (step["outcome"], step["entries"][0].split(" ", 1)[1]))
        kind = "wait" if step["stall"] else "lit" if step["outcome"] == "asked" else "box"
        sheet.boxed(x, lanes[core], what, kind, size=11, wide=apart - 8, high=40)
        if asked is not None and step["outcome"] == "committed" and int(steps[asked]["choice"][0]) == core:
            begin, end = left + apart * (asked + 0.5), x
            sheet.box(begin, lanes["bus"] - 15, end - begin, 30, "in2")
            sheet.text((begin + end) / 2, lanes["bus"], "held by P%d" % core, size=12)
            asked = None
    return sheet.svg()
