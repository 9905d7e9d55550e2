"""What a campaign tells while it goes on: how far it is, and each row as soon as it is known."""
import json
import sys
import time

import answers
import briefs
import differing
import scripts
import sources
import verdicts


class Progress:
    """A line on standard error, where a person waits: how many tasks have ended, how long it took, and about how long the others will."""

    def __init__(self, plan, rows_are_seen):
        self.plan, self.known, self.ended, self.since, self.shown = plan, 0, 0, time.monotonic(), 0.0
        # the line is the tool's own, and goes back to its beginning
        self.stream = sys.__stderr__ or sys.stderr
        self.is_seen = not rows_are_seen and self.stream.isatty()

    def one_more(self):
        """Says that a task has ended, and how many are left of those that are known."""
        self.ended += 1
        now, left = time.monotonic(), self.known - self.ended
        if self.is_seen and (now - self.shown > 0.2 or not left):
            self.shown, took = now, now - self.since
            rest = "about %d s left" % (took / self.ended * left) if self.plan.whole else "reading on"
            self.stream.write("\r%d of %d tasks, %d s, %s " % (self.ended, self.known, took, rest))
            self.stream.flush()

    def say(self, words):
        """Says something, on a line of its own."""
        self.end_line()
        print("campaign: " + words, file=sys.stderr, flush=True)

    def end_line(self):
        """Ends the line, where something stands on it."""
        if self.shown:
            self.stream.write("\n")
            self.stream.flush()
        self.shown = 0.0


class Teller:
    """Makes the lines of a campaign's rows and prints them: each as soon as it and all before it are known (`at_once`), or all at the end.
    `results` are those of the tasks by key, `theories` what theory says by the tests' texts, `lines` all lines that are made."""

    def __init__(self, asked, results):
        self.asked, self.results, self.theories, self.lines = asked, results, {}, []
        self.expected = verdicts.read_expected(asked.expected) if asked.expected else None
        self.at_once = not (asked.results or asked.theory or asked.differ_by)

    def line_of(self, one):
        """The line of a row, or of a source that is no test."""
        if isinstance(one, sources.Source):
            return verdicts.refused_line(one)
        theory, verdict = self.theories.get(one.text), answers.fact_of(one.text, "TSO")
        if self.expected is not None:
            verdict = self.expected.get(answers.name_of(one.text))
        if theory and theory.why is None:
            verdict = theory.verdict
        return verdicts.line_of(one, [self.results[key] for key in one.keys], verdict, theory)

    def is_known(self, one):
        return isinstance(one, sources.Source) or all(key in self.results for key in one.keys)

    def tell_known(self, plan):
        """Where rows are told at once, prints those that come next and are known."""
        while self.at_once and plan.untold and self.is_known(plan.untold[0]):
            self.lines.append(self.line_of(plan.untold.popleft()))
            self.tell(self.lines[-1], plan.several)

    def tell_rest(self, plans):
        """Prints all that wasn't printed: a table, of which those come first that want to be looked at; the tests that end otherwise on
        one row than on another, which it answers; or a line a row."""
        rest = {one: plan.several for plan in plans for one in plan.untold}
        lines = {self.line_of(one): several for one, several in rest.items()}
        self.lines += lines
        if self.asked.results:
            self.lines.sort(key=verdicts.Line.order)
        if self.asked.differ_by:
            return self.tell_differences(lines)
        for line in filter(lines.__contains__, self.lines):
            self.tell(line, lines[line])
        sys.stdout.flush()
        return []

    def tell_differences(self, lines):
        """Prints the rows that want to be looked at, and the tests that end otherwise on one row than on another."""
        for line in filter(verdicts.Line.wants_a_look, lines):
            self.tell(line, lines[line])
        found = differing.differences(lines, self.asked.differ_by)
        for one in found:
            print(json.dumps(one.members(), sort_keys=True) if self.asked.json else scripts.printable(one.text()))
        sys.stdout.flush()
        return found

    def tell(self, line, several):
        """Prints a row, of a test that may have several."""
        if self.asked.json:
            print(json.dumps(line.members, sort_keys=True), flush=self.at_once)
        else:
            text = line.text() if self.asked.results else briefs.text_of(line, several)
            print(scripts.printable(text), flush=self.at_once)
