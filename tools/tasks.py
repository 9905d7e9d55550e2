"""What a campaign consists of: tasks, each one call of the program or some, and rows of its table, each made of one task or of many."""
import hashlib
import itertools
import json

import answers

# Seeds of one call of `tso sweep` and of `tso counts`, at most.
MOST_SEEDS = 1000


# The models of `tso why`, each with the depth at which `tso outcomes` answers for it.
DEPTH_OF_MODEL = {"tso": 32, "sc": 0}


class Task:
    """What is asked of the program at once. Its key is a digest of all that its answer depends on. `words` name its row too; `show`, the
    words by which states show what the test asks for, doesn't."""

    def __init__(self, digest, command, text, words, limit, seeds=None, show=()):
        self.command, self.text, self.words, self.limit, self.seeds, self.show = command, text, words, limit, seeds, list(show)
        self.key = hashlib.sha256(json.dumps([digest, command, text, words, seeds, self.show]).encode()).hexdigest()[:32]

    def steps(self, program):
        """Makes the result of this task, a record for a line of the file of results: yields each question to the program, and is sent the
        record of its answer."""
        found = yield self.question(program)
        if self.command == "why" and "fault" not in found:
            beside = yield self.question_beside(program)
            found = dict(found, **{name: beside[name] for name in ("states", "true", "false") if "states" in beside})
        if self.seeds:
            found = dict(found, seeds="%d+%d" % self.seeds)
        return dict(found, task=self.key, test=answers.name_of(self.text), options=" ".join(self.words))

    def carry_out(self, program):
        """The result of this task, for which this waits."""
        steps, record = self.steps(program), None
        while True:
            try:
                record = steps.send(record).ask()
            except StopIteration as end:
                return end.value

    def question(self, program):
        words = self.words + (self.show if self.command == "outcomes" else [])
        if self.seeds:
            words = ["--from", str(self.seeds[0]), "--seeds", str(self.seeds[1])] + words
        return answers.Question(self.command, program, self.text, words, self.limit)

    def question_beside(self, program):
        """Beside the answer of `why`, all final states."""
        depth = DEPTH_OF_MODEL[self.words[self.words.index("--model") + 1]]
        return answers.Question("outcomes", program, self.text, ["--depth", str(depth)] + self.show, self.limit)

    def plain(self):
        """What a worker of a cluster is told of it."""
        return self.command, self.text, self.words, self.limit, self.seeds, self.show

    def fault(self, why):
        """Its result where it failed for good."""
        return {"fault": why, "task": self.key, "test": answers.name_of(self.text), "options": " ".join(self.words)}


class Machine:
    """A machine on which seeds are run: its words for the command line, and what was chosen for it, by what may be chosen: protocol, bus,
    shape and depth. `is_told` is whether that is all which decides what kind of bus it has."""

    def __init__(self, words, chosen, is_told=True):
        self.words, self.chosen, self.is_told = words, chosen, is_told

    def is_alike(self, other):
        """Whether it is proved that runs end on both alike: on the atomic bus protocol and shape change no order of memory
        (`machine_laws::machines_on_the_atomic_bus_answer_alike`)."""
        atomic = self.is_told and self.chosen.get("bus", "atomic") == other.chosen.get("bus", "atomic") == "atomic"
        return self.words == other.words or atomic and self.chosen.get("depth") == other.chosen.get("depth")


class Row:
    """A line of the table: a test with options, and the keys of the tasks that make it. `chosen` is what of its options may differ from
    row to row, by name; `made_by` the options of the row that is made in its place, since both are proved to be alike."""

    def __init__(self, text, words, depth, keys, chosen=None, made_by=None):
        self.text, self.words, self.depth, self.keys = text, words, depth, keys
        self.chosen, self.made_by = chosen or {}, made_by

    def of_program(self, name):
        """The same row, which names its program too."""
        chosen = dict(self.chosen, program=name)
        return Row(self.text, ["--program", name] + self.words, self.depth, self.keys, chosen, self.made_by)


def plan_outcomes(digest, texts, depths, states, limit, show):
    """Tasks by key, and rows: each test at each depth. `show` says of a text which words show what it asks for."""
    tasks, rows = {}, []
    for text in texts:
        for depth in depths:
            words = ["--depth", str(depth)] + (["--states", str(states)] if states else [])
            task = Task(digest, "outcomes", text, words, limit, show=show(text))
            tasks[task.key] = task
            rows.append(Row(text, words, depth, [task.key], {"depth": str(depth)}))
    return tasks, rows


def plan_why(digest, texts, models, cases, limit, show):
    """Tasks by key, and rows: each test by each model. `show` says of a text which words show what it asks for."""
    tasks, rows = {}, []
    for text, model in itertools.product(texts, models):
        words = ["--model", model] + (["--cases", str(cases)] if cases else [])
        task = Task(digest, "why", text, words, limit, show=show(text))
        tasks[task.key] = task
        rows.append(Row(text, words, DEPTH_OF_MODEL[model], [task.key], {"model": model}))
    return tasks, rows


def plan_seeds(digest, command, texts, machines, seeds, cut, limit):
    """Tasks by key, and rows: each test on each machine, its seeds, (first, how many), in ranges of `cut`. What a sweep tells of machines
    that are alike is found on the first of them; what caches did is found on each."""
    tasks, rows, (first, count) = {}, [], seeds
    for text, machine in itertools.product(texts, machines):
        maker = next(filter(machine.is_alike, machines)) if command == "sweep" else machine
        keys = []
        for begin in range(first, first + count, cut):
            task = Task(digest, command, text, maker.words, limit, (begin, min(cut, first + count - begin)))
            tasks[task.key] = task
            keys.append(task.key)
        rows.append(Row(text, machine.words, None, keys, machine.chosen, None if maker is machine else maker.words))
    return tasks, rows


def machines(protocols, buses, shapes, depths, options):
    """All machines of these lists for `tso sweep`, each with these further options; a shape is SETSxWAYSxWORDS."""
    lists = {"protocol": protocols, "bus": buses, "shape": shapes, "depth": depths}
    lists = {name: values for name, values in lists.items() if values}
    is_told = not any(word.startswith("--bus") for word in options)
    found = []
    for values in itertools.product(*lists.values()):
        chosen = dict(zip(lists, values))
        found.append(Machine(sum((words_of(*pair) for pair in chosen.items()), []) + options, chosen, is_told))
    return found


def words_of(name, value):
    """The words of a command line for what was chosen."""
    if name == "shape":
        return [word for pair in zip(("--sets", "--ways", "--words"), value.split("x")) for word in pair]
    return ["--" + name, value]


def merged(parts):
    """Results of ranges of seeds as one: their counts are added."""
    total = {"states": {}, "unfinished": 0, "true": 0, "false": 0}
    for part in parts:
        for state, count in part["states"].items():
            total["states"][state] = total["states"].get(state, 0) + count
        for name in ("unfinished", "true", "false"):
            total[name] += part[name]
    return total


def merged_counts(parts):
    """What caches did in ranges of seeds, as one."""
    cores = None
    for part in parts:
        cores = answers.counts_of_cores(cores, part["cores"])
    return {"cores": cores, "ended": sum(part["ended"] for part in parts), "unfinished": sum(part["unfinished"] for part in parts)}
