"""tools/campaign on this machine, for tests/batteries.py."""
import hashlib
import html.parser
import os
import re
import subprocess
import tempfile
import time

from checks.reasons import why_answers
from checks.tools.tool_runs import GALLERY, described, gallery, interrupted, sorted_lines, stand_in, test_file, tool, write
from scripts import COULD_NOT, INTERRUPTED


def judge_sweeps(program, tally, room):
    """One table however the seeds are cut, after a torn line too; and a wrong verdict is told."""
    source, results = os.path.join(room, "tests"), os.path.join(room, "sweeps")
    write(source, "".join(text for name, text in gallery() if name in ("SB", "MP")))

    def table(cut, place):
        words = ["--results", place, "--seeds", "1000", "--range", str(cut), "--buses", "atomic,split", source]
        done = tool("campaign", "sweep", program, *words)
        return done.returncode, done.stdout

    whole = table(100, results)
    tally.add("a campaign of sweeps ends", None if whole[0] == 0 and whole[1].count("same ") == 4 else str(whole))
    tally.add("seeds cut in another way", None if table(77, results + ".77") == whole else "another table")
    with open(results, "rb+") as file:
        file.truncate(os.path.getsize(results) - 5)
    tally.add("a torn last line", None if table(100, results) == whole else "another table")
    count = len(sorted_lines(results))
    tally.add("each result once", None if count == 40 else "%d lines" % count)
    with open(source, encoding="ascii") as file:
        text = file.read().replace("TSO=allowed", "TSO=forbidden")
    write(source, text)
    status, said = table(100, results + ".wrong")
    tally.add("a wrong verdict of a sweep", None if status == 1 and said.startswith("DIFFERS SB") else said)


def judge_sources(program, tally, room):
    """A folder, a list and a stream of the same tests make the same table; theory says the same of each."""
    names = [name for name, _ in gallery() if name.startswith(("SB", "MP", "n6", "CoRR"))]
    folder, stream = os.path.join(room, "folder"), ""
    os.mkdir(folder)
    for name, text in gallery():
        if name in names:
            write(os.path.join(folder, name + ".litmus"), text)
            stream += text + "\n"
    listed = write(os.path.join(room, "all"), "".join(test_file(name) + "\n" for name in names))
    tables = []
    for number, (words, given) in enumerate((([folder], None), (["@" + listed], None), (["-"], stream))):
        place = os.path.join(room, "sources%d" % number)
        done = tool("campaign", "outcomes", program, "--theory", "--depths", "32,0", "--results", place, *words, input=given)
        tally.add("all outcomes, and theory", None if done.returncode == 0 else described(done))
        tables.append((done.stdout, sorted_lines(place)))
    tally.add("folder, list and stream", None if tables[0] == tables[1] == tables[2] and tables[0][0] else str(tables)[:900])


def judge_differences(program, tally, room):
    """A wrong verdict, too many states, and a program that refuses are told, each first of the table."""
    place, tests = os.path.join(room, "differences"), [test_file(name) for name in ("CoRR", "SB")]
    wrong = write(os.path.join(room, "wrong"), "SB: PodWR Fre PodWR Fre: forbidden\nforbidden CoRR\n")
    for name, program, words, status, begin in (
            ("a wrong verdict", program, ["--expected", wrong], 1, "DIFFERS SB --depth 32 expected=forbidden found=allowed"),
            ("too many states", program, ["--states", "3"], 2, "OPEN"),
            ("a program that refuses", stand_in(os.path.join(room, "refuses"), program, "echo no; exit 1"), [], 2, "FAULT"),
            ("as JSON", program, ["--json"], 0, '{"expected": "forbidden", "false": ')):
        done = tool("campaign", "outcomes", program, "--results", place, *words, *tests)
        tally.add(name, None if done.returncode == status and done.stdout.startswith(begin) else described(done))


def judge_totals(program, tally, room):
    """Rows of which nothing says what to expect are unjudged, and no difference; the end tells of what and by which program they are."""
    known, other = write(os.path.join(room, "known"), "allowed SB\n"), [test_file(name) for name in ("SB", "MP")]
    with open(program, "rb") as file:
        digest = hashlib.sha256(file.read()).hexdigest()
    for command, words, rows in (("outcomes", ["--theory", "--depths", "2,32"], "unjudged SB --depth 2|same    MP|same    MP|same    SB"),
                                 ("outcomes", [], "unjudged MP|same    SB"), ("sweep", ["--seeds", "9"], "unjudged MP|same    SB")):
        place = os.path.join(room, "totals")
        given = [without_facts(path, room) for path in other] if "--theory" in words else ["--expected", known, *other]
        done = tool("campaign", command, program, "--results", place, *words, *given)
        lines, begins = done.stdout.splitlines(), rows.split("|")
        same = len(lines) == len(begins) and all(map(str.startswith, lines, begins))
        states = sum(int(line.rsplit("states=", 1)[1]) for line in lines)
        end = r"campaign: %d rows, 0 of them want to be looked at, 1 unjudged\n" % len(lines)
        end += r"campaign: 2 tests, %d states, \d+\.\d s, by tso \d+\.\d+\.\d+, sha256 %s\n\Z" % (states, digest)
        tally.add("an unjudged row", None if done.returncode == 0 and same and re.search(end, done.stderr) else described(done))


def without_facts(path, room):
    """The path of this test without its lines KEY=VALUE."""
    with open(path, encoding="ascii") as file:
        text = re.sub(r"^[A-Z]\w*=.*\n", "", file.read(), flags=re.M)
    return write(os.path.join(room, os.path.basename(path)), text)


# Both cores store four times, so there are 40,320 orders of the stores. It names a value that nobody stores.
MANY_ORDERS = "X86 Orders\n{ }\n P0 | P1 ;\n%s MOV EAX,[x] | MOV EAX,[x] ;\nexists (x=9)\n" % "".join(
    " MOV [x],$%d | MOV [x],$%d ;\n" % (value, value + 4) for value in (1, 2, 3, 4))


def judge_limits(program, tally, room):
    """Theory that takes longer than a task may is said: the row is open, and the others are judged."""
    many = write(os.path.join(room, "orders"), MANY_ORDERS)
    words = ["--theory", "--limit", "1", "--results", os.path.join(room, "limits"), many, test_file("SB")]
    done = tool("campaign", "outcomes", program, *words)
    told = re.match(r"OPEN    Orders --depth 32 found=forbidden .* - theory took over 1 seconds\nsame    SB", done.stdout)
    tally.add("theory within a limit", None if done.returncode == COULD_NOT and told else described(done))


def judge_why(program, tally, room):
    """Answers of why are held against what is expected, and against all outcomes; a program without the command is refused."""
    known, place = why_answers.program(room, program), os.path.join(room, "reasons")
    done = tool("campaign", "why", known, "--results", place, *map(test_file, ("SB", "MP", "LB")))
    wanted = ("OPEN    LB --model tso expected=forbidden - more than 100000 cases\n"
              "same    MP --model tso expected=forbidden found=forbidden leaves=1 true=0 false=3 states=3\n"
              "same    SB --model tso expected=allowed found=allowed true=1 false=3 states=4\n")
    tally.add("answers of why", None if (done.returncode, done.stdout) == (COULD_NOT, wanted) else described(done))
    # by the name of MP, a test whose condition can be
    with open(test_file("SB"), encoding="ascii") as file:
        other = write(os.path.join(room, "other"), re.sub(r"^TSO=.*\n", "", file.read(), flags=re.M).replace("X86 SB", "X86 MP"))
    done = tool("campaign", "why", known, "--results", place, other)
    told = done.stdout.startswith("DIFFERS MP --model tso found=forbidden leaves=1 true=1") and done.stdout.endswith("- not by outcomes\n")
    tally.add("an answer of why that all outcomes contradict", None if done.returncode == 1 and told else described(done))
    bare = stand_in(os.path.join(room, "bare"), program, "case $1 in --help) printf 'Commands:\\n  outcomes  all\\n' >&2; exit 2;; esac")
    done = tool("campaign", "why", bare, "--results", place, other)
    tally.add("a program without why", None if done.returncode == 2 and done.stderr.endswith("has no command why\n") else described(done))


class Page(html.parser.HTMLParser):
    """The names of a page's elements that are open, and how many rows it has."""

    def __init__(self, text):
        super().__init__()
        self.open, self.rows, self.faults = [], 0, []
        self.feed(text)

    def handle_starttag(self, tag, attributes):
        self.rows += tag == "details"
        if tag not in ("meta", "input"):
            self.open.append(tag)

    def handle_endtag(self, tag):
        if not self.open or self.open.pop() != tag:
            self.faults.append(tag)


def judge_reports(program, tally, room):
    """The log has the states that the program prints, and a page has each row; neither tells of a text that is no test but its place."""
    log, page, own = (os.path.join(room, name) for name in ("all.log", "all.html", "own.log"))
    bad = write(os.path.join(room, "bad"), "X86 <b>\n{ }\n P0 ;\n NOP & ;\n")
    tests = [test_file(name) for name, _ in gallery()]
    words = ["--log", log, "--page", page, "--results", os.path.join(room, "reported")]
    done = tool("campaign", "outcomes", program, *words, *tests, bad)
    said = [answer("outcomes", program, path) for path in tests]
    write(own, "".join(said))
    compared = tool("compare", log, own)
    tally.add("the log of a campaign", None if compared.returncode == 0 and "campaign: 1 rows have no states" in done.stderr
              else described(compared) + described(done))
    with open(page, encoding="utf-8") as file:
        text = file.read()
    read = Page(text)
    same = read.rows == len(tests) + 1 and not read.open and not read.faults and text.index(">REFUSED<") < text.index("<b>same<")
    tally.add("the page of a campaign", None if same and "<td>" in text else "%s %s %d" % (read.open, read.faults, read.rows))
    swept = os.path.join(room, "swept.log")
    tool("campaign", "sweep", program, "--log", swept, "--results", os.path.join(room, "met"), *tests[:9])
    write(own, "".join(said[:9]))
    compared = tool("compare", "--within", swept, own)
    tally.add("the log of a sweep", None if compared.returncode == 0 else described(compared))
    done = tool("campaign", "outcomes", program, "--depths", "0,32", "--json", "--force", *words, *tests[:9])
    write(own, done.stdout)
    compared = tool("compare", log, own)
    told = done.returncode == compared.returncode == 0 and compared.stdout == "18 tests in both logs, 0 differences\n"
    tally.add("a log of two depths", None if told else described(compared) + described(done))
    with open(test_file("MP"), encoding="ascii") as file:
        other = write(os.path.join(room, "named"), file.read().replace("X86 MP", "X86 SB"))
    done = tool("campaign", "outcomes", program, *words, "--force", other, test_file("SB"))
    told = done.returncode == 2 and done.stderr == "campaign: --log can't tell two tests of one name apart: SB\n"
    tally.add("a log of two tests of one name", None if told else described(done))


def answer(command, program, path):
    """What the program prints of a file."""
    with open(path, "rb") as file:
        return subprocess.run([program, command], stdin=file, capture_output=True).stdout.decode("ascii")


def judge_tries(program, tally, room):
    """A task whose first call fails, or doesn't end, is given out again."""
    tests = [test_file(name) for name in ("SB", "MP", "CoRR")]
    place = os.path.join(room, "tries")
    tool("campaign", "outcomes", program, "--results", place, *tests)
    # results name the program by a digest in each task's key alone
    whole = [line.split('"task"')[0] for line in sorted_lines(place)]
    for name, fault in (("fails", "exit 139"), ("hangs", "sleep 30")):
        marked = os.path.join(room, name + ".once")
        first = "case $text in *'X86 MP'*) [ -e '%s' ] || { : > '%s'; %s; };; esac" % (marked, marked, fault)
        flaky = stand_in(os.path.join(room, name), program, first)
        done = tool("campaign", "outcomes", flaky, "--limit", "3", "--results", place + name, *tests)
        again = [line.split('"task"')[0] for line in sorted_lines(place + name)]
        tally.add("a call that " + name + " once", None if done.returncode == 0 and again == whole else described(done))


def judge_stops(program, tally, room):
    """A campaign that was stopped goes on where it was."""
    place, slow = os.path.join(room, "stopped"), stand_in(os.path.join(room, "slow"), program, "sleep 0.1")

    def wait_for_results(_):
        until = time.monotonic() + 30
        while time.monotonic() < until and (not os.path.exists(place) or len(sorted_lines(place)) < 5):
            time.sleep(0.05)

    stopped = interrupted("campaign", "outcomes", slow, "--processes", "2", "--results", place, GALLERY, ready=wait_for_results)
    before = sorted_lines(place)
    done = tool("campaign", "outcomes", slow, "--processes", "8", "--results", place, GALLERY)
    after = sorted_lines(place)
    count = len(list(gallery()))
    told = stopped.returncode == INTERRUPTED and stopped.stderr == "campaign: stopped; the same words go on\n"
    told = told and 5 <= len(before) < count
    tally.add("a campaign that was stopped", None if told else "%d results; %s" % (len(before), described(stopped)))
    kept = set(before) <= set(after) and len(after) == len(set(after)) == count
    tally.add("and went on", None if done.returncode == 0 and kept else "%d results; %s" % (len(after), described(done)))


def judge(program, tally):
    with tempfile.TemporaryDirectory() as room:
        for part in (judge_sweeps, judge_sources, judge_differences, judge_totals, judge_limits, judge_why, judge_reports, judge_tries,
                     judge_stops):
            part(program, tally, room)
