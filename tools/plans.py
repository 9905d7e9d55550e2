"""What a campaign asks of one program: rows and tasks, made as the tests come."""
import collections

import shows
import tasks
import verdicts


class Plan:
    """What is asked of a program about sources, as these come. `texts` are those of the tests, each once; `listed` has the rows of the table,
    and the sources that are no tests, in the order in which they came, and `untold` those that nobody has told of; `tasks` has the tasks
    by key. It is `whole` once all have come. `several` is whether a test has several rows."""

    def __init__(self, asked, program):
        self.asked, self.program, self.several = asked, program, len(asked.program) > 1
        self.texts, self.listed, self.untold, self.tasks, self.whole = {}, {}, collections.deque(), {}, False

    def show(self, text):
        return shows.words_of_show(self.program.path, text)

    def of_text(self, text):
        """The tasks by key of this text, and its rows."""
        asked, digest = self.asked, self.program.digest
        if asked.command == "outcomes":
            tasks_of_text, rows = tasks.plan_outcomes(digest, [text], asked.depths or [verdicts.DEEPEST], asked.states, asked.limit, self.show)
        elif asked.command == "why":
            tasks_of_text, rows = tasks.plan_why(digest, [text], asked.models, asked.cases, asked.limit, self.show)
        else:
            seeds = asked.first, asked.seeds
            tasks_of_text, rows = tasks.plan_seeds(digest, asked.command, [text], self.machines(), seeds, asked.range, asked.limit)
        return tasks_of_text, [row.of_program(self.program.name) for row in rows] if len(asked.program) > 1 else rows

    def machines(self):
        """The machines on which seeds are run."""
        asked = self.asked
        options = asked.options.split() + ([] if asked.length is None else ["--length", str(asked.length)])
        return tasks.machines(asked.protocols, asked.buses, asked.shapes, list(map(str, asked.depths)), options)

    def tasks_of(self, found):
        """The tasks of these sources, as they come."""
        for source in found:
            if source.why is not None:
                self.list([source])
            elif source.text not in self.texts:
                self.texts[source.text] = None
                # while the test that was read for its source is still known
                verdicts.said_of(source.text)
                planned, rows = self.of_text(source.text)
                self.list(rows)
                self.several = self.several or len(rows) > 1
                new = [task for key, task in planned.items() if key not in self.tasks]
                self.tasks.update(planned)
                yield from new
        self.whole = True

    def rows_of(self, found):
        """The rows of these sources, all of which are there."""
        for source in found:
            if source.why is None:
                yield from self.of_text(source.text)[1]

    def list(self, found):
        """Lists rows, or sources that are no tests, each once."""
        new = [one for one in found if one not in self.listed]
        self.listed.update(dict.fromkeys(new))
        self.untold.extend(new)
