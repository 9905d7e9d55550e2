"""Files of results that others replace, remove or change while a campaign writes them, for tests/hostile_tools.py: that is noticed, the
status says so, and all lines are in a file that is named."""
import os
import re
import resource

from .attacked_tools import COULD_NOT, described, refused
from .files_of_others import gallery_files

# So many tests, and the call of the program at which the file is changed.
TESTS, AT = 9, 5

# What is done to the file, and how many of its lines stand there afterwards.
CHANGES = {
    "sed -i": "sed -i 1d results",
    "mv": "cp results other; mv other results",
    "rm": "rm results",
    "rm and an empty file": "rm results; : > results",
    "what empties it": ": > results",
    "what adds to it": "tail -n 1 results >> results",
    "what makes it a folder": "rm results; mkdir results",
    "what makes it a link": "mv results there; ln -s /dev/null results",
}

TOLD = re.compile(r"campaign: \S*results was replaced, removed or changed while this campaign wrote it: all its results, (\d+), are in (\S+); "
                  r"with that as --results the same words go on\n\Z")


def changing(calls, change, when="[ $(wc -l < count) -eq %d ]" % AT):
    """A program that does this to the file before it answers, when this is so."""
    return calls.stand_in("program", 'case "$*" in *--version*|*--help*|--program) exec "%s" "$@";; esac\n'
                          'cd "%s"; echo >> count; ! { %s; } || { %s; }\nexec "%s" "$@"' % (
                              calls.program, calls.room, when, change, calls.program))


def lines_of(path):
    with open(path, "rb") as file:
        return file.read().splitlines(True)


def wrong_of(calls, done, words, least):
    """What is wrong with a campaign whose file was changed: it has to name a file of at least so many results, each once, with which the same
    words go on to the end."""
    told = TOLD.search(done.stderr)
    if done.returncode != COULD_NOT or not told or "Traceback" in done.stderr:
        return described(done)
    kept, before = told.group(2), lines_of(told.group(2))
    if not len(before) == len(set(before)) == int(told.group(1)) >= least:
        return "%d lines: %s" % (len(before), described(done))
    again = calls.call("campaign", *[kept if word == calls.path("results") else word for word in words])
    after = lines_of(kept)
    whole = again.returncode == 0 and after[:len(before)] == before and len(set(after)) == TESTS
    return None if whole else described(again)


def campaign(calls, program, *words):
    return ["outcomes", program, "--processes", "1", "--results", calls.path("results"), *words, *gallery_files(TESTS)]


def changed(change):
    """A file that is changed once some lines have been written."""
    def judge(calls):
        words = campaign(calls, changing(calls, change))
        return wrong_of(calls, calls.call("campaign", *words), words, AT)
    return judge


def changed_at_the_end(calls):
    """A file that is replaced when its last line has been written: the table of numbers asks the program once more."""
    program = changing(calls, "sed -i 1d results", '[ "$1" = run ]')
    words = ["sweep", program, "--seeds", "3", "--results", calls.path("results"), "--csv", calls.path("table"), *gallery_files(TESTS)]
    done = calls.call("campaign", *words)
    return wrong_of(calls, done, [*words, "--force"], TESTS)


def changed_and_stopped(calls):
    """A file that is replaced just before the campaign is stopped."""
    words = campaign(calls, changing(calls, "sed -i 1d results; kill -INT $PPID; sleep 9"))
    running = calls.begun("campaign", *words)
    output, errors = running.communicate()
    done = type("Done", (), {"returncode": running.returncode, "stdout": output.decode(), "stderr": errors.decode()})
    return wrong_of(calls, done, words, AT - 1)


def without_folder(calls):
    """The file's folder goes: its lines are in the folder for what is of the moment."""
    words = campaign(calls, changing(calls, "rm -r inner"))
    words[words.index(calls.path("results"))] = inner = calls.path("inner", "results")
    os.mkdir(calls.path("inner"))
    done = calls.call("campaign", *words)
    if calls.path("tmp") not in done.stderr:
        return described(done)
    return wrong_of(calls, done, [calls.path("results") if word == inner else word for word in words], AT)


def twice(calls):
    """The file is replaced again when another one has its lines already: both keep theirs."""
    words = campaign(calls, changing(calls, "sed -i 1d results"))
    calls.write("results.kept", "mine\n")
    wrong = wrong_of(calls, calls.call("campaign", *words), words, AT)
    return wrong or (None if calls.read("results.kept") == b"mine\n" and calls.read("results.kept-2") else "another's file was changed")


def two_apart(calls):
    """Another campaign begins with the file that has taken the place: each has its own results, whole."""
    tests = gallery_files(TESTS + 3)[TESTS:]
    other = " ".join("'%s'" % word for word in calls.words("campaign", "outcomes", calls.program, "--results", calls.path("results"), *tests))
    words = campaign(calls, changing(calls, "sed -i 1d results; %s > other; echo $? > status" % other))
    done = calls.call("campaign", *words)
    of_other = lines_of(calls.path("results"))
    if calls.read("status") != b"0\n" or len(of_other) != len(set(of_other)) or len(of_other) != AT - 2 + len(tests):
        return "the other: %d lines, status %s" % (len(of_other), calls.read("status"))
    return wrong_of(calls, done, words, AT)


def no_room(calls):
    """Where the lines find no other place, that is told, and no half file stays."""
    calls.call("campaign", *campaign(calls, calls.program))
    most = len(b"".join(lines_of(calls.path("results"))[:AT])) - 1
    os.unlink(calls.path("results"))
    words = campaign(calls, changing(calls, "sed -i 1d results"))
    done = calls.call("campaign", *words, limits=[(resource.RLIMIT_FSIZE, most)])
    left = [name for folder in (calls.room, calls.path("tmp")) for name in os.listdir(folder) if ".kept" in name]
    return refused(done, "campaign", "its results couldn't be written elsewhere") or (str(left) if left else None)


ROWS = [
    *[("results and " + name, changed(change)) for name, change in CHANGES.items()],
    ("results that are replaced at the end", changed_at_the_end),
    ("results that are replaced before a stop", changed_and_stopped),
    ("results whose folder goes", without_folder),
    ("results that are replaced, and a file by the other name", twice),
    ("results that are replaced, and another campaign", two_apart),
    ("results that find no other place", no_room),
]
