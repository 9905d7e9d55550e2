"""Lists of names that a script writes anew: what that changes is shown, for a person to read; and what the last release's list had and this one
lacks is told why, by a line of the list:

    # gone: NAME: why it is no longer needed
"""
import difflib
import os
import subprocess

from checks.judging import TOP

GONE = "# gone: "


def from_history(*words):
    """What git answers to these words, or nothing where it can't."""
    done = subprocess.run(["git", *words], cwd=TOP, stdout=subprocess.PIPE, stderr=subprocess.DEVNULL, text=True)
    return done.stdout if done.returncode == 0 else ""


class RenewedList:
    """A list of tests/data/, with what stands between a name and what is said of it."""

    def __init__(self, name, between):
        self.shown, self.between = "tests/data/" + name, between
        self.path = os.path.join(TOP, "tests", "data", name)

    def text(self):
        with open(self.path, encoding="utf-8") as file:
            return file.read()

    def said(self, text=None):
        """What it says, by name."""
        lines = (self.text() if text is None else text).splitlines()
        pairs = (line.partition(self.between) for line in lines if line.strip() and not line.startswith("#"))
        return {name: says for name, _, says in pairs}

    def comments(self):
        """Its head, and by name why something is gone."""
        lines = [line for line in self.text().splitlines() if line.startswith("#")]
        pairs = (line[len(GONE):].partition(": ") for line in lines if line.startswith(GONE))
        return [line for line in lines if not line.startswith(GONE)], {name: why for name, _, why in pairs if why.strip()}

    def released(self):
        """What it said in the last release, by name; None where no history tells."""
        last = from_history("log", "-1", "--format=%H", "--", "release")
        text = from_history("show", "%s:%s" % (last.strip(), self.shown)) if last else None
        return self.said(text) if text else None

    def lost(self, excused=()):
        """A fault for each name that the last release's list had, this one hasn't, and no line tells why."""
        before = self.released()
        if before is None:
            return ["%s: no history tells what the last release's list had" % self.shown]
        said, reasons = self.said(), self.comments()[1]
        return ["%s: %s is gone since the last release; say why in a line '%s%s: ..'" % (self.shown, name, GONE, name)
                for name in before if name not in said and name not in reasons and name not in excused]

    def renew(self, pairs):
        """Writes it anew, and prints what that changes. A reason stays as long as the last release had what is gone."""
        before, (head, reasons) = self.text(), self.comments()
        said, needed = dict(pairs), self.released()
        kept = [GONE + "%s: %s" % (name, why) for name, why in reasons.items() if name not in said and (needed is None or name in needed)]
        after = "".join(line + "\n" for line in [*head, *kept, *(name + self.between + says for name, says in said.items())])
        with open(self.path, "w", encoding="utf-8") as file:
            file.write(after)
        changed = list(difflib.unified_diff(before.splitlines(), after.splitlines(), self.shown, self.shown, n=0, lineterm=""))
        print("\n".join(changed) if changed else "%s: nothing changes" % self.shown)
        print("\n".join(self.lost()), end="\n" if self.lost() else "")
