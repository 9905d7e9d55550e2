"""A week's questions of what caches do, for tests/batteries.py: one call of tools/campaign for the gallery on all machines, beside a shell loop; the
table is read by pandas, and pictures are drawn of it."""
import csv
import os
import random
import subprocess
import tempfile
import time

from checks.tools import cache_tools
from checks.tools.tool_runs import GALLERY, described, gallery, tool, write
from scripts import SAME

from . import unkept_campaigns

# The machines of a week's questions: four protocols, three line sizes, two buses. So many of the rows are looked at, and a shell loop of `run`
# is timed on the machines of these words.
WEEK = ["--protocols", "msi,mesi,moesi,mosi", "--shapes", "1x2x1,1x2x2,1x2x4", "--buses", "atomic,split"]
MACHINES, DRAWN, LOOPED = 24, 60, ("--protocol mesi --words 1", "--protocol moesi --words 4 --bus split")

# Five pictures of the week's table.
PICTURES = (("misses", ["--bars", "misses", "--where", "bus=atomic"]),
            ("flushes", ["--line", "flushes", "--against", "words", "--where", "bus=atomic", "--dark"]),
            ("invalidations", ["--bars", "invalidations", "--against", "bus", "--where", "words=4"]),
            ("supplies", ["--line", "from_caches", "--against", "words", "--where", "bus=split", "--dark"]),
            ("tests", ["--heat", "misses", "--where", "bus=atomic"]))


def judge_week(program, tally, room):
    """The gallery on all these machines, by one call beside a shell loop; some rows, drawn by a seed, are those of `run`; and pictures."""
    table, begun = os.path.join(room, "week.csv"), time.monotonic()
    done = tool("campaign", "counts", "--program", program, *WEEK, "--seeds", "1", "--csv", table, GALLERY)
    took = time.monotonic() - begun
    with open(table, encoding="ascii", newline="") as file:
        lines = list(csv.DictReader(file))
    found = {}
    for row in filter(lambda row: row["core"], lines):
        machine = [word for name in ("protocol", "bus", "sets", "ways", "words") for word in ("--" + name, row[name])]
        counts = found.setdefault((row["test"], *machine), {})
        counts[int(row["core"]), row["count"]] = [int(row[name]) for name in ("value", "least", "greatest")]
    rows = len(list(gallery())) * MACHINES
    tally.add("a week's questions", None if done.returncode == SAME and len(found) == rows else described(done)[-300:])
    for name, *machine in random.Random(1).sample(sorted(found), DRAWN):
        wanted = unkept_campaigns.counted(program, name, machine, [0])
        tally.add("a row of a week", None if found[name, *machine] == wanted else "%s: %s" % (name, machine))
    unkept_campaigns.judge_table(table, lines, tally)
    judge_pictures(table, tally, room)
    print("campaign: what caches do in %d tests on %d machines: %.1f s; by a shell loop of `run`, as many at once: %.1f s, by %d of the machines" % (
        rows / MACHINES, MACHINES, took, looped(program, tally, room) * MACHINES / len(LOOPED), len(LOOPED)))


def looped(program, tally, room):
    """Seconds that a shell loop takes to run the gallery on some of these machines."""
    folder = os.path.join(room, "runs")
    os.mkdir(folder)
    for name, text in gallery():
        write(os.path.join(folder, name), text.split("\n====")[0] + "\n====\nseed 0 1000\n")
    begun = time.monotonic()
    for options in LOOPED:
        loop = "ls | xargs -P %d -I FILE sh -c '\"$0\" run --json %s < FILE' '%s'" % (len(os.sched_getaffinity(0)), options, program)
        done = subprocess.run(["sh", "-c", loop], cwd=folder, capture_output=True, text=True)
        ended = done.stdout.count('"cache":[')
        tally.add("a shell loop of run", None if done.returncode == 0 and ended == len(list(gallery())) else described(done)[-300:])
    return time.monotonic() - begun


def judge_pictures(table, tally, room):
    """Pictures of the week's table are drawn, where matplotlib is there."""
    python = next(iter(cache_tools.pythons_with("matplotlib")), None)
    if python is None:
        print("not tried: pictures of a week by matplotlib (Debian: python3-matplotlib)")
        return
    for name, words in PICTURES:
        path = os.path.join(room, name + ".png")
        done = cache_tools.plotted(python, table, "-o", path, *words)
        tally.add("a picture of a week: " + name, None if done.returncode == SAME and os.path.getsize(path) > 10_000 else described(done))


def judge(program, tally):
    with tempfile.TemporaryDirectory() as room:
        judge_week(os.path.abspath(program), tally, room)
