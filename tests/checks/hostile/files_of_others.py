"""Tools that would write over what isn't theirs, for tests/hostile_tools.py: refused, with nothing written; and what a full disk leaves."""
import json
import os
import resource

from checks import judging

from . import fault_points
from .attacked_tools import COULD_NOT, SB, described, refused, waited_for

MINE = "this is mine\n"

# What is no file of results, by what it is.
NO_RESULTS = {
    "a line of a text": MINE,
    "a text of one line without an end": "all that I have",
    "an empty list": "[]\n",
    "an empty object": "{}\n",
    "an object": '{"name": "x"}\n',
    "an object without an end of line": '{"name": "x"}',
    "a number": "7",
    "deep JSON": "[" * 100_000 + "\n",
    "a result that is deep": '{"false": ' + "[" * 100_000 + "\n",
    "zeros": "\0" * 100_000,
    "a result whose states have markup":
        '{"false": 0, "options": "", "states": [{"x": "<img src=x>"}], "task": "a", "test": "t", "true": 0}\n',
    "a result whose counts are words": '{"false": "0", "options": "", "states": [], "task": "a", "test": "t", "true": "1"}\n',
    "a result that is a list": '{"false": 0, "options": [], "states": [], "task": [], "test": [], "true": 0}\n',
    "a half result in the middle": '{"false": 0, "opt\n{"false": 0, "options": "", "states": [], "task": "a", "test": "t", "true": 0}\n',
}


def gallery_files(count):
    return [os.path.join(judging.GALLERY, name) for name in sorted(os.listdir(judging.GALLERY)) if name.endswith(".litmus")][:count]


def unchanged(calls, done, tool, before, *words):
    """What is wrong with a call that is to be refused with these words and to leave the folder as it was."""
    left = fault_points.differences(before, fault_points.tree(calls.path("work")))
    return refused(done, tool, *words) or (None if not left else "; ".join(left))


def work(calls, files):
    """A row's folder with these files, and its tree."""
    for name, content in files.items():
        calls.write("work/" + name, content)
    return fault_points.tree(calls.path("work"))


def campaign(calls, *words):
    return calls.call("campaign", "outcomes", calls.program, *words)


def one_file(first, second, other):
    """A campaign two of whose files are one is refused."""
    def judge(calls):
        before = work(calls, {"SB.litmus": SB})
        place, name = calls.path("work", "r"), calls.path("work", other)
        os.symlink("r", calls.path("work", "link"))
        before = fault_points.tree(calls.path("work"))
        words = ["--results", calls.path("results")] if "--results" not in (first, second) else []
        done = campaign(calls, *words, first, place, second, name, calls.path("work", "SB.litmus"))
        return unchanged(calls, done, "campaign", before)
    return judge


def no_results(content):
    """A file that has no results isn't touched."""
    def judge(calls):
        before = work(calls, {"SB.litmus": SB, "r": content})
        done = campaign(calls, "--results", calls.path("work", "r"), calls.path("work", "SB.litmus"))
        return unchanged(calls, done, "campaign", before)
    return judge


def no_page(word):
    """A log or a page takes no other file's place, but with --force; and its own place again."""
    def judge(calls):
        before = work(calls, {"SB.litmus": SB, "mine": MINE})
        words = ["--results", calls.path("results"), word, calls.path("work", "mine"), calls.path("work", "SB.litmus")]
        wrong = unchanged(calls, campaign(calls, *words), "campaign", before, "--force")
        done = campaign(calls, "--force", *words)
        if wrong or done.returncode != 0 or calls.read("work/mine") == MINE.encode():
            return wrong or "with --force: " + described(done)
        done = campaign(calls, *words)
        return None if done.returncode == 0 else "its own is there: " + described(done)
    return judge


def log_of_others(kind):
    """A log that a campaign wrote takes no other log's place, but where it goes on with the same results: then all that is there comes again."""
    def judge(calls):
        work(calls, {"SB.litmus": SB, "other.litmus": SB.replace("X86 SB", "X86 other")})
        results, log, tests = calls.path("work", "results"), calls.path("work", "log"), [calls.path("work", name) for name in ("SB.litmus", "other.litmus")]
        done = campaign(calls, "--results", results, "--log", log, tests[0])
        before = fault_points.tree(calls.path("work"))
        words = {"nothing that is kept": ["--log", log, tests[0]], "other results": ["--results", results + "2", "--log", log, tests[0]],
                 "other tests": ["--results", results, "--log", log, tests[1]],
                 "other options": ["--results", results, "--log", log, "--depths", "0,32", tests[0]]}
        if kind in words:
            again = campaign(calls, *words[kind])
            wrong = unchanged(calls, again, "campaign", before, "--force replaces it")
            forced = campaign(calls, "--force", *words[kind])
            return wrong or (None if done.returncode == forced.returncode == 0 else described(forced))
        again = campaign(calls, "--results", results, "--log", log, *tests)
        text = calls.read("work/log").decode()
        return None if again.returncode == 0 and text.count("Test ") == 2 else described(again)
    return judge


def import_over_input(calls):
    """A test isn't imported over itself, but with --force; what is there already and the same is no hindrance."""
    text = SB.replace("MOV [x],$1", "MOV dword ptr [x],1")
    before = work(calls, {"x.litmus": text, "y.litmus": SB})
    words = ["-o", calls.path("work"), calls.path("work", "y.litmus"), calls.path("work", "x.litmus")]
    wrong = unchanged(calls, calls.call("import", *words), "import", before, "--force")
    if wrong:
        return wrong
    for _ in range(2):
        done = calls.call("import", "--force", *words)
    done = calls.call("import", *words)
    return None if done.returncode == 0 and b"MOV [x],$1" in calls.read("work/x.litmus") else described(done)


def cycles_over_others(words, name, count):
    """Tests of cycles take no other file's place, and none is written beside it. With --force so many files are there."""
    def judge(calls):
        before = work(calls, {name: MINE})
        line = [*words, "-o", calls.path("work")]
        wrong = unchanged(calls, calls.call("cycles", *line), "cycles", before, "--force")
        done = calls.call("cycles", "--force", *line)
        again = calls.call("cycles", *line)
        same = done.returncode == again.returncode == 0 and len(os.listdir(calls.path("work"))) == count
        return wrong or (None if same else described(done) + described(again))
    return judge


def program_over_test(calls):
    """The C program of a test doesn't take the test's place; its own place it does."""
    before = work(calls, {"SB.litmus": SB})
    test = calls.path("work", "SB.litmus")
    wrong = unchanged(calls, calls.call("hardware", "-o", test, test), "hardware", before, "--force")
    made = calls.path("work", "made.c")
    done = [calls.call("hardware", "-o", made, *gallery_files(count)) for count in (1, 2)]
    made_twice = [one.returncode for one in done] == [0, 0] and b"core_1_0" in calls.read("work/made.c")
    return wrong or (None if made_twice else described(done[1]))


def results_on(device):
    """Results on a device are refused in one line, and in little memory."""
    def judge(calls):
        return refused(campaign(calls, "--results", device, calls.write("work/SB.litmus", SB)), "campaign")
    return judge


def full_disk(word):
    """Where a log or a page finds no room, one line says so."""
    def judge(calls):
        done = campaign(calls, "--results", calls.path("results"), word, "/dev/full", calls.write("work/SB.litmus", SB))
        lines = [line for line in done.stderr.replace("\r", "\n").split("\n") if line.strip() and " tasks, " not in line]
        told = [line for line in lines if "No space left" in line]
        return None if done.returncode == COULD_NOT and len(told) == 1 and "Traceback" not in done.stderr else described(done)
    return judge


def full_results(calls):
    """Where a result finds no room, one line says so, and the file has whole lines; with room again the same words end it."""
    place, tests = calls.path("results"), gallery_files(40)
    for most in (1, 700, 3000):
        done = calls.call("campaign", "outcomes", calls.program, "--results", place, *tests, limits=[(resource.RLIMIT_FSIZE, most)])
        text = calls.read("results")
        lines = done.stderr.replace("\r", "\n").split("\n")
        told = [line for line in lines if line.startswith("campaign: [Errno")]
        if done.returncode != COULD_NOT or len(told) != 1 or "Traceback" in done.stderr:
            return described(done)
        if text and not text.endswith(b"\n"):
            return "a line isn't whole"
        [json.loads(line) for line in text.splitlines()]
    done = campaign(calls, "--results", place, *tests)
    lines = calls.read("results").splitlines()
    whole = len(lines) == len({json.loads(line)["task"] for line in lines}) == len(tests)
    return None if done.returncode == 0 and whole else described(done)


def torn_results(calls):
    """The torn beginning of a result is dropped, be it ever so short."""
    place, test = calls.path("results"), calls.write("work/SB.litmus", SB)
    campaign(calls, "--results", place, test)
    line = calls.read("results")
    for length in (1, 2, 9, 11, len(line) // 2, len(line) - 1):
        calls.write("results", line[:length])
        done = campaign(calls, "--results", place, test)
        if done.returncode != 0 or calls.read("results") != line:
            return "%d bytes: %s" % (length, described(done))
    return None


def two_at_once(calls):
    """A second campaign with the same file of results is refused."""
    slow = calls.stand_in("slow", 'case "$*" in --program|--version) exit 2;; esac\ntouch begun; sleep infinity')
    test = calls.write("work/SB.litmus", SB)
    first = calls.begun("campaign", "outcomes", slow, "--results", calls.path("results"), test)
    waited_for(lambda: os.path.exists(calls.path("begun")))
    done = campaign(calls, "--results", calls.path("results"), test)
    first.kill()
    first.communicate()
    return refused(done, "campaign", "another campaign writes")


def goes_on(calls):
    """A campaign that has ended is called again: what it has of each command, open rows too, is taken for results, and kept."""
    tests = gallery_files(12)
    for words in (["why", "--cases", "2"], ["outcomes", "--states", "3"], ["sweep", "--seeds", "20"], ["why"], ["outcomes"]):
        line = [words[0], calls.program, *words[1:], "--results", calls.path("results"), *tests]
        first, kept = calls.call("campaign", *line), calls.read("results")
        again = calls.call("campaign", *line)
        if first.returncode not in (0, COULD_NOT) or (again.returncode, again.stdout) != (first.returncode, first.stdout):
            return "%s: %s" % (words, described(again))
        if calls.read("results") != kept:
            return "%s: the results have changed" % words
    return None


def nothing_before_refusal(calls):
    """Words that are refused leave no file."""
    before = work(calls, {})
    done = campaign(calls, "--results", calls.path("work", "r"), "--page", calls.path("work", "p"), calls.path("work", "nowhere"))
    return unchanged(calls, done, "campaign", before)


ROWS = [
    ("results and page are one file", one_file("--results", "--page", "r")),
    ("results and log are one file", one_file("--results", "--log", "r")),
    ("log and page are one file", one_file("--log", "--page", "r")),
    ("page and table are one file", one_file("--page", "--csv", "r")),
    ("results and page are one file by a link", one_file("--results", "--page", "link")),
    ("results and page are one file by another name", one_file("--results", "--page", "../work/r")),
    *[("a file of results that is " + name, no_results(content)) for name, content in NO_RESULTS.items()],
    ("a page over another file", no_page("--page")),
    ("a log over another file", no_page("--log")),
    ("a table over another file", no_page("--csv")),
    *[("a log over a campaign's by " + kind, log_of_others(kind)) for kind in (
        "nothing that is kept", "other results", "other tests", "other options", "the same results")],
    ("a test imported over itself", import_over_input),
    ("tests of cycles over another file", cycles_over_others(["--length", "4", "--no-verdict"], "SB.litmus", 22)),
    ("C11 tests of cycles over another file", cycles_over_others(["--length", "2", "--c11"], "LB+rlx+rlx.c", 79)),
    ("the program of a test over the test", program_over_test),
    ("results on a full device", results_on("/dev/full")),
    ("results on a device of zeros", results_on("/dev/zero")),
    ("results on a device that takes all", results_on("/dev/null")),
    ("a page on a full device", full_disk("--page")),
    ("a log on a full device", full_disk("--log")),
    ("a table on a full device", full_disk("--csv")),
    ("results where there is no more room", full_results),
    ("results that are torn", torn_results),
    ("two campaigns with one file of results", two_at_once),
    ("a campaign that is called again", goes_on),
    ("words that are refused", nothing_before_refusal),
]
