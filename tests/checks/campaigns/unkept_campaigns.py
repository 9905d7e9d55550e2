"""tools/campaign that keeps nothing, for tests/batteries.py: a line a test, which program is asked, claims that must hold, which tests end
otherwise on one row than on another, rows that are alike, what caches did, and tables of numbers."""
import csv
import json
import os
import re
import shutil
import subprocess
import sys
import tempfile

from checks.tools.tool_runs import GALLERY, TOOLS, described, gallery, interrupted, stand_in, test_file, tool, write
from scripts import COULD_NOT, DIFFERS, INTERRUPTED, SAME

# The depths of which a test's outcomes are held together.
DEPTHS = ("0", "1", "2", "3", "4", "32")

# Tests of the gallery whose outcomes change with these depths, and with these but 0.
CHANGING, CHANGING_WITH_BUFFERS = 34, 8

# Two whose own claims hold, and one whose claim doesn't.
HOLDING, FAILING = ("SB", "n6"), "MP"

WITHOUT_CONDITION = "X86 Nothing asked\n{ }\n P0 ;\n MOV [x],$1 ;\n"
NEVER = "X86 Never asked\n{ }\n P0 ;\n MOV [x],$1 ;\n~exists (x=2)\n"
BAD = "X86 Bad\n{ }\n P0 ;\n NOP & ;\n"


def once(program, *words, **how):
    """A campaign of all outcomes that keeps nothing."""
    return tool("campaign", "outcomes", "--program", program, *words, **how)


def told_by(program, path, *options):
    """What a program answers to a file, as the line of a campaign."""
    with open(path, "rb") as file:
        said = subprocess.run([program, "outcomes", *options], stdin=file, capture_output=True).stdout.decode("ascii")
    name, *observed = re.search(r"^Observation (.*) (Never|Sometimes|Always) (\d+) (\d+)$", said, re.M).groups()
    return " ".join([name, *observed, re.search(r"^Verdict (\w+)$", said, re.M).group(1)])


def judge_lines(program, tally, room):
    """A line a test, in the order of the tests, that says what the program does; one line at the end; and no file."""
    folder = os.path.join(room, "lines")
    os.mkdir(folder)
    done = once(program, GALLERY, cwd=folder)
    wanted = [told_by(program, test_file(name)) for name, _ in gallery()]
    end = r"campaign: %d tests, \d+ Ok, \d+ No, \d+ states, \d+\.\d s, by tso \d+\.\d+\.\d+, sha256 \w{64}\n" % len(wanted)
    same = done.stdout.splitlines() == wanted and re.fullmatch(end, done.stderr) and not os.listdir(folder)
    tally.add("a line a test", None if done.returncode == SAME and same else described(done))
    bad = write(os.path.join(room, "bad"), BAD)
    done = once(program, test_file("MP"), bad, test_file("CoRR"), "--states", "40")
    wanted = ["MP Never 0 3 No", "%s:4 REFUSED - " % bad, "CoRR OPEN - more than 40 states - "]
    told = done.stdout.splitlines()
    same = len(told) == 3 and all(map(str.startswith, told[:2], wanted)) and (told[2].startswith("CoRR"))
    tally.add("a line of what isn't answered", None if done.returncode == COULD_NOT and same else described(done))
    done = once(program, "--depths", "0,32", "--expected", write(os.path.join(room, "due"), "forbidden SB\n"), test_file("SB"))
    wanted = "SB --depth 0 Never 0 3 No\nSB --depth 32 Sometimes 1 3 Ok DIFFERS expected=forbidden - the verdict differs\n"
    tally.add("a line of what differs", None if (done.returncode, done.stdout) == (DIFFERS, wanted) else described(done))
    done = tool("campaign", "why", "--program", program, *map(test_file, ("SB", "MP")))
    same = re.fullmatch(r"SB Allowed Ok\nMP Never leaves=\d+ No\n", done.stdout)
    tally.add("a line of a reason", None if done.returncode == SAME and same else described(done))


def judge_program(program, tally, room):
    """The program is the one that --program names; else a first word that is one and stands for no test; else the one beside the tools."""
    here, beside, path = (os.path.join(room, name) for name in ("here", "beside", "path"))
    shutil.copytree(TOOLS, os.path.join(beside, "tools"), ignore=shutil.ignore_patterns("__pycache__"))
    for folder in (here, path):
        os.mkdir(folder)
    for link in (os.path.join(beside, "tso"), os.path.join(path, "tso"), os.path.join(path, "asked"), os.path.join(here, "program")):
        os.symlink(os.path.realpath(program), link)
    test = shutil.copy(test_file("SB"), os.path.join(here, "SB.litmus"))
    os.chmod(test, 0o755)
    os.mkdir(os.path.join(here, "tso"))
    os.mkdir(os.path.join(here, "asked"))
    shutil.copy(test, os.path.join(here, "asked"))
    write(os.path.join(here, "list"), "SB.litmus\n")
    answer, nothing = "SB Sometimes 1 3 Ok\n", "campaign: there is no file, folder or program nowhere\n"
    environment = dict(os.environ, PATH=path + ":" + os.environ["PATH"])
    for name, words, wanted in (
            ("the one beside the tools", ["SB.litmus"], answer), ("a list alone", ["@list"], answer), ("standard input alone", ["-"], answer),
            ("a command and a test", ["tso", "SB.litmus"], answer), ("a file and a test", [program, "SB.litmus"], answer),
            ("a file here", ["program", "SB.litmus"], answer), ("a folder with a command's name", ["asked"], answer),
            ("a named one", ["SB.litmus", "--program", "asked"], answer),
            ("words on both sides", ["tso", "--depths", "32", "SB.litmus"], answer), ("no test", ["tso"], None),
            ("nothing", ["nowhere"], nothing)):
        with open(test, "rb") as given:
            done = subprocess.run([sys.executable, os.path.join(beside, "tools", "campaign"), "outcomes", *words], cwd=here, env=environment,
                                  stdin=given, capture_output=True, text=True)
        if wanted is answer:
            same = (done.returncode, done.stdout) == (SAME, answer)
        else:
            same = done.returncode == COULD_NOT and done.stderr.endswith(wanted or "or - for standard input\n")
        tally.add("the program: " + name, None if same else described(done))


def judge_asserts(program, tally, room):
    """Claims that must hold: which tests fail is said, a test without a condition passes, and one without a verdict fails."""
    nothing, never = write(os.path.join(room, "nothing"), WITHOUT_CONDITION), write(os.path.join(room, "never"), NEVER)
    bad = write(os.path.join(room, "bad"), BAD)
    good = [nothing, never, *map(test_file, HOLDING)]
    done = once(program, "--assert", *good)
    same = "campaign: 1 tests have no condition: Nothing asked\n" in done.stderr and done.stderr.count("\n") == 2
    tally.add("claims that hold", None if done.returncode == SAME and same else described(done))
    done = once(program, "--assert", *good, test_file(FAILING), bad)
    told = "campaign: 2 of 6 claims don't hold or aren't known: %s, %s:4\n" % (FAILING, bad)
    tally.add("claims that don't hold", None if done.returncode == DIFFERS and told in done.stderr else described(done))
    done = once(program, "--assert", "--depths", "0,32", test_file("SB"))
    told = "campaign: 1 of 2 claims don't hold or aren't known: SB --depth 0\n"
    tally.add("a claim at two depths", None if done.returncode == DIFFERS and told in done.stderr else described(done))
    for name, answered, status in (("an open search that decides nothing", [], DIFFERS), ("one that decides a claim", [{"EAX": 0}], SAME)):
        met = [{"values": {"0:EAX": 0, "1:EAX": 0}, "choices": "", "holds": True} for _ in answered]
        said = json.dumps({"test": "SB", "depth": 32, "unfinished": {"states": 9}, "met": met})
        other = stand_in(os.path.join(room, "open"), program, "case \"$*\" in outcomes*) echo '%s'; exit 3;; esac" % said)
        done = once(other, "--assert", test_file("SB"))
        tally.add(name, None if done.returncode == status else described(done))
    done = tool("campaign", "sweep", "--program", program, "--assert", test_file("SB"))
    tally.add("claims of seeds", None if done.returncode == COULD_NOT and "some runs don't decide" in done.stderr else described(done))


def judge_depths(program, tally, room):
    """Which tests of the gallery end otherwise at one depth than at another: those that a comparison of logs finds."""
    results, logs = os.path.join(room, "depths"), []
    for depth in DEPTHS:
        logs.append(os.path.join(room, "depth%s.log" % depth))
        tool("campaign", "outcomes", program, "--depths", depth, "--results", results, "--log", logs[-1], GALLERY)
    for name, first, count in (("the tests that depth changes", 0, CHANGING), ("those that buffers change", 1, CHANGING_WITH_BUFFERS)):
        compared = tool("compare", *logs[first:]).stdout
        wanted = {re.match(r"(\S+): only in", line).group(1) for line in compared.splitlines() if ": only in" in line}
        done = tool("campaign", "outcomes", program, "--depths", ",".join(DEPTHS[first:]), "--differ-by", "depth", "--results", results, GALLERY)
        found = {line.split(" ")[0] for line in done.stdout.splitlines()}
        told = "campaign: %d of %d tests end otherwise by depth\n" % (count, len(list(gallery())))
        same = done.returncode == DIFFERS and found == wanted and len(found) == count and told in done.stderr
        tally.add(name, None if same else "compared %s; %s" % (sorted(wanted), described(done)))
    wanted = "SB depth 0: 3 states; depth 1,2,3,4,32: 4 states; all from depth 1\n"
    done = once(program, "--depths", "32,4,3,2,1,0", "--differ-by", "depth", *map(test_file, ("SB", "MP")))
    tally.add("depths as numbers", None if (done.returncode, done.stdout) == (DIFFERS, wanted) else described(done))


def judge_differences(program, tally, room):
    """Which tests end otherwise by bus, by model and by program."""
    tests = list(map(test_file, ("SB", "MP")))
    done = tool("campaign", "why", "--program", program, "--models", "tso,sc", "--differ-by", "model", *tests)
    wanted = "SB model tso: 4 states; model sc: 3 states\n"
    tally.add("tests by model", None if (done.returncode, done.stdout) == (DIFFERS, wanted) else described(done))
    words = ["--program", program, "--buses", "atomic,split", "--differ-by", "bus"]
    done = tool("campaign", "sweep", *words, "--seeds", "300", *tests)
    tally.add("tests by bus", None if (done.returncode, done.stdout) == (SAME, "") else described(done))
    done = tool("campaign", "sweep", *words, "--seeds", "1", *map(test_file, ("SB", "MP", "n6", "IRIW")), "--json")
    found = {line["test"]: line for line in map(json.loads, done.stdout.splitlines())}
    wanted = {name for name in ("SB", "MP", "n6", "IRIW") if met_by(program, name, "atomic") != met_by(program, name, "split")}
    tally.add("tests by bus, of one seed", None if found.keys() == wanted and wanted else described(done))
    other = stand_in(os.path.join(room, "unbuffered"), program, "case $text in *'X86 SB'*) set -- outcomes --json --depth 0;; esac")
    done = once(program, "--program", other, "--differ-by", "program", *tests)
    wanted = "\nSB program %s: 4 states; program %s: 3 states\n" % (program, other)
    same = done.stdout.startswith("SB --program %s --depth 32 Never 0 3 No DIFFERS" % other) and done.stdout.endswith(wanted)
    tally.add("tests by program", None if done.returncode == DIFFERS and same else described(done))
    for words, why in ((["outcomes", "--differ-by", "depth"], "--differ-by depth wants several of --depths"),
                       (["outcomes", "--differ-by", "bus", "--buses", "atomic,split"], "--differ-by for outcomes is depth or program"),
                       (["counts", "--differ-by", "bus"], "--differ-by for counts is not there")):
        done = tool("campaign", *words, "--program", program, *tests)
        tally.add("what can't be held apart", None if done.returncode == COULD_NOT and why in done.stderr else described(done))
    done = once(program, "--program", program, "--differ-by", "program", *tests)
    tally.add("two programs that agree", None if (done.returncode, done.stdout) == (SAME, "") else described(done))


def met_by(program, name, bus):
    """The states that the first seed meets on this bus."""
    with open(test_file(name), "rb") as file:
        said = subprocess.run([program, "sweep", "--seeds", "1", "--bus", bus], stdin=file, capture_output=True).stdout.decode("ascii")
    return re.findall(r"^State \d+ (.*)$", said, re.M)


def judge_alike(program, tally, room):
    """What seeds meet on machines that are proved to be alike is made once, and each row says what its own machine says."""
    calls = os.path.join(room, "calls")
    noting = stand_in(os.path.join(room, "noting"), program, "echo \"$*\" >> '%s'" % calls)
    lists = ["--protocols", "msi,mesi,moesi,mosi", "--buses", "atomic,split", "--shapes", "1x1x1,2x2x4", "--seeds", "50", "--json"]
    done = tool("campaign", "sweep", "--program", noting, *lists, test_file("n6"))
    rows = [json.loads(line) for line in done.stdout.splitlines()]
    made = [row for row in rows if "alike" not in row]
    with open(calls, encoding="ascii") as file:
        swept = [line for line in file if line.startswith("sweep") and "--help" not in line]
    tally.add("machines that are alike", None if len(rows) == 16 and len(made) == len(swept) == 9 and "7 made by others" in done.stderr
              else described(done) + str(len(swept)))
    for row in rows:
        with open(test_file("n6"), "rb") as file:
            said = subprocess.run([program, "sweep", "--seeds", "50", *row["options"].split()], stdin=file, capture_output=True).stdout
        wanted = {state: int(count) for count, state in re.findall(r"^State (\d+) (.*)$", said.decode("ascii"), re.M)}
        tally.add("a machine that is like another", None if row["states"] == wanted else "%s: %s" % (row, wanted))
    done = tool("campaign", "sweep", "--program", program, "--protocols", "msi,mesi", "--options", "--bus split", "--json", test_file("n6"))
    tally.add("machines of another bus", None if done.stdout and '"alike"' not in done.stdout else described(done))
    done = tool("campaign", "counts", "--program", program, *lists[:6], "--seeds", "2", "--json", test_file("n6"))
    rows = [json.loads(line) for line in done.stdout.splitlines()]
    tally.add("counts of each machine", None if len(rows) == 16 and not any("alike" in row for row in rows) else described(done))


COUNTED = ("SB", "n6", "IRIW")
SHAPES = {"1x1x1": ["--sets", "1", "--ways", "1", "--words", "1"], "2x2x4": ["--sets", "2", "--ways", "2", "--words", "4"]}


def counted(program, name, options, seeds):
    """What caches do in the runs of these seeds, each asked for by itself, the counts of a report by `run`: for each core, by count, the sum,
    the least and the greatest."""
    found = []
    for seed in seeds:
        with open(test_file(name), encoding="ascii") as file:
            given = file.read().split("\n====")[0] + "\n====\nseed %d 1000\n" % seed
        run, alone = (json.loads(subprocess.run([program, *words, "--json", *options], input=given, capture_output=True, text=True).stdout)
                      for words in (["run"], ["counts", "--given"]))
        found.append([{**{name: one["sum"] for name, one in core.items()}, **cache} for core, cache in zip(alone["cores"], run["cache"])])
    return {(core, count): [pick([run[core][count] for run in found]) for pick in (sum, min, max)]
            for core in range(len(found[0])) for count in found[0][core]}


def judge_counts(program, tally, room):
    """What the caches did, as `run` counts it, however the seeds are cut; in a table of numbers too, which other programs read."""
    table, results, seeds = os.path.join(room, "counts.csv"), os.path.join(room, "counts"), range(3, 15)
    words = ["--from", "3", "--seeds", "12", "--protocols", "msi,moesi", "--buses", "atomic,split", "--shapes", ",".join(SHAPES)]
    tests = list(map(test_file, COUNTED))
    done = tool("campaign", "counts", "--program", program, *words, "--results", results, "--csv", table, *tests)
    again = tool("campaign", "counts", "--program", program, *words, "--range", "5", *tests, "--csv", table + ".again")
    tally.add("counts are found", None if done.returncode == again.returncode == SAME else described(done) + described(again))
    with open(table, encoding="ascii", newline="") as file:
        rows = list(csv.DictReader(file))
    with open(table + ".again", encoding="ascii", newline="") as file:
        in_order = sorted(csv.DictReader(file), key=str) == sorted(rows, key=str)
    tally.add("counts however seeds are cut", None if in_order else "another table")
    wanted = {}
    for name in COUNTED:
        for protocol in ("msi", "moesi"):
            for bus in ("atomic", "split"):
                for shape, sizes in SHAPES.items():
                    options = ["--protocol", protocol, "--bus", bus, *sizes]
                    for (core, count), values in counted(program, name, options, seeds).items():
                        wanted[name, protocol, bus, shape, str(core), count] = values
    found = {(row["test"], row["protocol"], row["bus"], "x".join(row[size] for size in ("sets", "ways", "words")), row["core"], row["count"]):
             [int(row[column]) for column in ("value", "least", "greatest")] for row in rows if row["core"]}
    wrong = [key for key in wanted.keys() | found.keys() if wanted.get(key) != found.get(key)]
    tally.add("counts by run", "%s: %s, not %s" % (wrong[0], found.get(wrong[0]), wanted.get(wrong[0])) if wrong else None)
    runs = {(row["count"], row["value"]) for row in rows if not row["core"]}
    tally.add("how many runs ended", None if runs == {("ended", "12"), ("unfinished", "0")} else str(runs))
    tally.add("a table's other columns", None if {(row["depth"], row["runs"], row["command"]) for row in rows} == {("4", "12", "counts")}
              else str(rows[0]))
    done = tool("campaign", "sweep", program, *words, "--results", results, test_file("SB"))
    tally.add("a sweep with results of counts", None if done.returncode == SAME else described(done))
    done = tool("campaign", "counts", "--program", program, "--length", "2", "--seeds", "3", "--json", test_file("SB"))
    one = json.loads(done.stdout)
    ended = one["cores"], one["ended"], one["unfinished"], one["judged"], one["why"]
    tally.add("counts of runs without an end", None if done.returncode == COULD_NOT and ended == (None, 0, 3, "OPEN", ["ended 0 of 3"])
              else described(done))
    done = tool("campaign", "counts", "--program", program, "--length", "9", "--seeds", "30", test_file("SB"))
    some = re.search(r"^SB ended=(\d+) unfinished=(\d+) hits=.* - ended (\d+) of 30\n", done.stdout)
    tally.add("counts of runs some of which have no end", None if done.returncode == SAME and some and some.group(1) == some.group(3)
              else described(done))
    judge_table(table, rows, tally)


def judge_table(table, rows, tally):
    """The table is read by pandas, where that is there."""
    program = "import pandas, sys\nfound = pandas.read_csv(sys.argv[1])\nprint(len(found), found.groupby('count')['value'].sum()['misses'])\n"
    python = next((one for one in (sys.executable, "/usr/bin/python3")
                   if subprocess.run([one, "-c", "import pandas"], capture_output=True).returncode == 0), None)
    if python is None:
        print("not tried: tables read by pandas (Debian: python3-pandas)")
        return
    done = subprocess.run([python, "-c", program, table], capture_output=True, text=True)
    wanted = "%d %d\n" % (len(rows), sum(int(row["value"]) for row in rows if row["count"] == "misses"))
    tally.add("a table read by pandas", None if done.stdout == wanted else described(done))


def judge_tables(program, tally, room):
    """The numbers of all outcomes, of seeds and of reasons; another file is replaced by none."""
    table = os.path.join(room, "all.csv")
    bad = write(os.path.join(room, "bad"), BAD)
    for command, words, wanted in (
            ("outcomes", ["--depths", "0,32"], {("", "0", "states"): "3", ("", "0", "true"): "0", ("", "32", "true"): "1"}),
            ("sweep", ["--seeds", "1000"], {("", "4", "true"): "171", ("", "4", "false"): "829", ("", "4", "unfinished"): "0"}),
            ("why", ["--models", "tso,sc"], {("tso", "", "states"): "4", ("sc", "", "states"): "3"})):
        done = tool("campaign", command, "--program", program, *words, "--csv", table, test_file("SB"), bad)
        with open(table, encoding="ascii", newline="") as file:
            rows = list(csv.DictReader(file))
        found = {(row["model"], row["depth"], row["count"]): row["value"] for row in rows}
        same = wanted.items() <= found.items() and any(row["judged"] == "REFUSED" for row in rows)
        tally.add("a table of " + command, None if done.returncode == COULD_NOT and same else described(done) + str(found))
    other = write(os.path.join(room, "other.csv"), "test,what\n")
    done = once(program, "--csv", other, test_file("SB"))
    tally.add("a table in the place of another file", None if done.returncode == COULD_NOT and "--force" in done.stderr and not done.stdout
              else described(done))


# Chooses as a person does, one thing after the other; the rows that are seen then are told.
CLICKS = """<script>
for (const [id, value, event] of [['order', 'true', 'change'], ['rank', 'same', 'change'], ['words', 'depth 32', 'input']]) {
  document.getElementById(id).value = value;
  document.getElementById(id).dispatchEvent(new Event(event));
}
document.title = 'seen ' + [...document.querySelectorAll('details')].filter((row) => !row.hidden).map((row) => row.dataset.test).join(' ');
</script>"""


def judge_page(program, tally, room):
    """A page has pictures, and its rows are sorted and filtered in a browser."""
    page, tests = os.path.join(room, "page.html"), list(map(test_file, ("MP", "SB", "n6", "3.SB", "LB")))
    once(program, "--depths", "0,32", "--page", page, *tests)
    with open(page, encoding="utf-8") as file:
        text = file.read()
    same = text.count("<figure>") == 1 and ">depth 0</text>" in text and "states, mean of 5 tests" in text
    tally.add("a page's picture", None if same else text[:3000])
    counts = os.path.join(room, "counts.html")
    tool("campaign", "counts", "--program", program, "--seeds", "3", "--protocols", "msi,mesi", "--page", counts, *tests)
    with open(counts, encoding="utf-8") as file:
        counted = file.read()
    same = "misses a run, all cores, mean of 5 tests" in counted and "<td>2 (0 to 1)</td>" in counted or "<td>6 (2 to 2)</td>" in counted
    tally.add("a page of counts", None if same else counted[:3000])
    browser = shutil.which("chromium")
    if browser is None:
        print("not tried: a campaign's page in a browser (Debian: chromium)")
        return
    # the page's policy lets no script run but its own
    clicked = re.sub(r"<meta http-equiv[^>]*>", "", text) + CLICKS
    words = ["--headless", "--no-sandbox", "--disable-gpu", "--user-data-dir=" + os.path.join(room, "browser"), "--dump-dom"]
    done = subprocess.run([browser, *words, "file://" + write(page, clicked)], capture_output=True, text=True)
    seen = re.search(r"<title>seen ([^<]*)</title>", done.stdout)
    names = seen.group(1).split() if seen else []
    same = (sorted(names[:3]), sorted(names[3:])) == (["3.SB", "SB", "n6"], ["LB", "MP"]) and "5 of 10 rows" in done.stdout
    tally.add("a page that is sorted and filtered", None if same else str(names) + described(done))


def judge_stops(program, tally, room):
    """A campaign that keeps nothing and is stopped says so, after the lines that it has printed."""
    slow = stand_in(os.path.join(room, "slow"), program, "sleep 0.1")
    first = []

    def wait_for_line(running):
        first.append(running.stdout.readline())

    stopped = interrupted("campaign", "outcomes", "--program", slow, "--processes", "2", GALLERY, ready=wait_for_line)
    same = stopped.returncode == INTERRUPTED and stopped.stderr == "campaign: stopped; without --results nothing is kept\n"
    tally.add("a campaign that keeps nothing is stopped", None if same and first[0].endswith(("Ok\n", "No\n")) else described(stopped))


def judge(program, tally):
    program = os.path.abspath(program)
    with tempfile.TemporaryDirectory() as room:
        for part in (judge_lines, judge_program, judge_asserts, judge_depths, judge_differences, judge_alike, judge_counts, judge_tables,
                     judge_page, judge_stops):
            part(program, tally, room)
