"""Rows of tests/hostile.py: what the script ./tso makes of a hostile environment, of a path, of a broken device, and of lists, stamps and files
that somebody put there. Each row is given a folder of its own with a checkout `co` in it."""
import os
import shutil
import subprocess
import time

from checks import judging

from . import fault_points, small_checkout
from .small_checkout import saying, sums, write

NO_ANSWER = 70


class Place:
    """A folder with a checkout in it, and how that is called."""

    def __init__(self, path, source, program):
        self.path = path
        self.source = source
        self.program = program
        self.checkout = small_checkout.make(os.path.join(path, "co"), source)

    def call(self, command, environment={}):
        """The answer of a command, by its words or a line for sh, in the folder."""
        shell = isinstance(command, str)
        return subprocess.run(command, shell=shell, cwd=self.path, env=dict(os.environ, **environment), stdin=subprocess.DEVNULL,
                              stdout=subprocess.PIPE, stderr=subprocess.PIPE, timeout=fault_points.HANGS, check=False)

    def forget(self):
        shutil.rmtree(os.path.join(self.checkout, "out"), ignore_errors=True)


def faults(done, status, output, told=b""):
    """What differs from this status and output, and from these words on standard error, none where none are given."""
    found = [] if done.returncode == status else ["status %d, and not %d" % (done.returncode, status)]
    if done.stdout != output:
        found.append("standard output: %r" % done.stdout[-200:])
    if told not in done.stderr or (not told and done.stderr):
        found.append("standard error: %r" % done.stderr[-300:])
    return found


def twice(place, environment, command=("co/tso", "run"), output=b"release run\n"):
    """The faults of a call under this environment that sums the files, and of one that recalls them."""
    place.forget()
    found = faults(place.call(list(command), environment), 0, output)
    place.call(["co/tso", "run"])
    return found + faults(place.call(list(command), environment), 0, output)


def a_folder_for_cd(place):
    """CDPATH, and a call by a relative path without ./."""
    return twice(place, {"CDPATH": ".:.."})


def another_checkout_for_cd(place):
    """CDPATH that leads to another checkout: the one that is called is checked."""
    small_checkout.make(os.path.join(place.path, "other", "co"), place.source)
    write(place.checkout, "release/tso", saying("another"), 0o755)
    done = place.call(["co/tso", "run"], {"CDPATH": os.path.join(place.path, "other") + ":."})
    return faults(done, NO_ANSWER, b"", b"isn't what its SHA256SUMS says")


def cdpath_and_a_full_device(place):
    """CDPATH, and a device that is full: the release isn't blamed."""
    done = place.call("co/tso run > /dev/full", {"CDPATH": ".:.."})
    return [] if done.returncode != NO_ANSWER and b"SHA256SUMS" not in done.stderr else ["the release is blamed: %r" % done.stderr]


def a_path_on_a_full_device(place):
    """--program on a full device."""
    done = place.call("co/tso --program > /dev/full")
    return faults(done, NO_ANSWER, b"", b"tso: standard output can't be written")


FUNCTIONS = ("cd", "stat", "read", "sha256sum", "printf", "readlink", "sort", "exec", "unset", "mapfile")


def exported_functions(place):
    """Functions of the environment, by the names of commands that the script calls."""
    return twice(place, {"BASH_FUNC_%s%%%%" % name: "() { echo a function; }" for name in FUNCTIONS})


def called_by_bash(place):
    """`bash tso`, with functions of the environment."""
    place.forget()
    environment = {"BASH_FUNC_%s%%%%" % name: "() { echo a function; }" for name in FUNCTIONS}
    return faults(place.call(["bash", "co/tso", "run"], environment), 0, b"release run\n")


def a_file_before_the_script(place):
    """BASH_ENV and ENV: a file that bash reads first."""
    write(place.path, "first", "echo first; CDPATH=/; set -x\n")
    return twice(place, {name: os.path.join(place.path, "first") for name in ("BASH_ENV", "ENV")})


def options_of_bash(place):
    """SHELLOPTS and BASHOPTS: options of bash."""
    return twice(place, {"SHELLOPTS": "noglob:errexit:xtrace:noclobber:noexec", "BASHOPTS": "nullglob:failglob:nocasematch"})


def posix(place):
    """POSIXLY_CORRECT."""
    return twice(place, {"POSIXLY_CORRECT": "1"})


def other_settings_of_bash(place):
    """Settings of bash: FUNCNEST, BASH_COMPAT, EXECIGNORE, GLOBIGNORE, IFS, TMOUT."""
    return twice(place, {"FUNCNEST": "1", "BASH_COMPAT": "31", "EXECIGNORE": "*", "GLOBIGNORE": "*", "IFS": "se", "TMOUT": "1"})


def no_folder_for_the_moment(place):
    """TMPDIR that isn't a folder."""
    return twice(place, {"TMPDIR": os.path.join(place.path, "none")})


def the_settings_of_the_language(place):
    """LC_ALL, and LANG, in a language."""
    return twice(place, {"LC_ALL": "C.UTF-8", "LANG": "tr_TR.UTF-8", "LANGUAGE": "de"})


def no_sums(place):
    """No sha256sum on the path: the release isn't blamed."""
    os.mkdir(os.path.join(place.path, "bin"))
    for name in ("bash", "env", "uname", "getconf", "cat", "sed", "sort"):
        os.symlink(shutil.which(name), os.path.join(place.path, "bin", name))
    return faults(place.call(["co/tso", "run"], {"PATH": os.path.join(place.path, "bin")}), NO_ANSWER, b"", b"'sha256sum' isn't on the path")


def program_of(place):
    """The bytes of the program that was named."""
    with open(place.program, "rb") as file:
        return file.read()


def a_path_that_is_not_a_text(place):
    """A path that isn't UTF-8, with a real program."""
    folder = os.path.join(os.fsencode(place.path), b"caf\xe9")
    os.rename(os.fsencode(place.checkout), folder)
    small_checkout.write_release(os.fsdecode(folder), program_of(place))
    given = "tables"
    wanted = subprocess.run([place.program, given], stdout=subprocess.PIPE, check=True).stdout
    found = []
    for _ in range(2):
        found += faults(place.call([os.path.join(folder, b"tso"), given]), 0, wanted)
    done = place.call([os.path.join(folder, b"tso"), "--install", os.path.join(folder, b"\xff")])
    found += [] if done.returncode == 0 else ["--install: status %d" % done.returncode]
    return found + faults(place.call([os.path.join(folder, b"tso"), "--uninstall", os.path.join(folder, b"\xff")]), 0, b"")


def a_path_like_an_option(place):
    """A path that begins with a dash."""
    os.rename(place.checkout, os.path.join(place.path, "-x"))
    return faults(place.call(["-x/tso", "run"]), 0, b"release run\n")


def a_list_without_the_program(place):
    """SHA256SUMS without the line of the program, which is another one."""
    write(place.checkout, "release/tso", saying("another"), 0o755)
    write(place.checkout, "release/SHA256SUMS", sums(place.checkout, small_checkout.OF_A_RELEASE[:-1]))
    return faults(place.call(["co/tso", "run"]), NO_ANSWER, b"", b"isn't what its SHA256SUMS says")


def a_list_with_more(place):
    """SHA256SUMS with a line more."""
    write(place.checkout, "release/SHA256SUMS", sums(place.checkout, small_checkout.OF_A_RELEASE + ["crates.txt"]))
    return faults(place.call(["co/tso", "run"]), NO_ANSWER, b"", b"isn't what its SHA256SUMS says")


def a_planted_stamp(place):
    """A planted stamp of one file."""
    write(place.checkout, "crates/tso/out/tso", saying("planted"), 0o755)
    write(place.checkout, "crates/tso/out/stamp", sums(place.checkout, ["crates/tso/out/tso"]))
    return faults(place.call(["co/tso", "run"]), 0, b"release run\n")


def a_planted_stamp_of_too_few(place):
    """A planted stamp of all but one source."""
    write(place.checkout, "crates/tso/out/tso", saying("planted"), 0o755)
    write(place.checkout, "crates/tso/out/stamp", sums(place.checkout, ["crates.txt", "crates/tso/out/tso"]))
    return faults(place.call(["co/tso", "run"]), 0, b"release run\n")


def a_right_stamp(place):
    """The stamp of all sources and of the program is taken."""
    write(place.checkout, "crates/tso/out/tso", saying("proved"), 0o755)
    write(place.checkout, "crates/tso/out/stamp", sums(place.checkout, ["crates.txt", "crates/tso/src/main.rt", "crates/tso/out/tso"]))
    return faults(place.call(["co/tso", "run"]), 0, b"proved run\n")


def pipe_at(place, name, status, output, told=b""):
    """The faults of a call where a pipe without an end is in the place of this file."""
    path = os.path.join(place.checkout, name)
    os.makedirs(os.path.dirname(path), exist_ok=True)
    if os.path.exists(path):
        os.remove(path)
    os.mkfifo(path)
    try:
        return faults(place.call(["co/tso", "run"]), status, output, told)
    except subprocess.TimeoutExpired:
        return ["it hangs"]


def a_pipe_for_what_was_seen(place):
    """A pipe in the place of out/seen."""
    return pipe_at(place, "out/seen", 0, b"release run\n")


def a_pipe_for_the_stamp(place):
    """A pipe in the place of the stamp."""
    return pipe_at(place, "crates/tso/out/stamp", NO_ANSWER, b"", b"crates/tso/out/stamp isn't a file")


def a_pipe_for_a_source(place):
    """A pipe in the place of a source."""
    return pipe_at(place, "crates/tso/src/main.rt", NO_ANSWER, b"", b"crates/tso/src/main.rt isn't a file")


def a_folder_for_what_was_seen(place):
    """A folder in the place of out/seen."""
    os.makedirs(os.path.join(place.checkout, "out", "seen"))
    time.sleep(2.1)
    found = faults(place.call(["co/tso", "run"]), 0, b"release run\n")
    return found + ["left: " + name for name in os.listdir(os.path.join(place.checkout, "out", "seen"))]


def a_program_that_may_not_run(place):
    """A program that isn't executable: that is said."""
    os.chmod(os.path.join(place.checkout, "release", "tso"), 0o644)
    return faults(place.call(["co/tso", "run"]), NO_ANSWER, b"", b"release/tso can't be started")


def a_committed_folder(place):
    """Where a checkout has a committed out/ folder, the lines of PROVED by which one checks a release fail."""
    text = judging.content(place.source, "docs", "PROVED.md").split("## Check a release yourself")[1]
    lines = text.split("```sh\n")[1].split("```")[0].splitlines()
    checking = [line for line in lines if "rt " not in line and not line.startswith("cmp ")]
    write(place.checkout, "crates/tso/out/tso", saying("planted"), 0o755)
    git = ["git", "-C", place.checkout, "-c", "user.name=a", "-c", "user.email=a@b", "-c", "commit.gpgsign=false"]
    for words in (["init", "-q"], ["add", "-f", "."], ["commit", "-qm", "all"]):
        subprocess.run(git + words, check=True)
    statuses = [subprocess.run(["sh", "-c", line], cwd=place.checkout, stdout=subprocess.DEVNULL, stderr=subprocess.DEVNULL).returncode
                for line in checking]
    return [] if any(statuses) else ["each of these lines passes: %s" % checking]


ROWS = [
    a_folder_for_cd, another_checkout_for_cd, cdpath_and_a_full_device, a_path_on_a_full_device, exported_functions, called_by_bash,
    a_file_before_the_script, options_of_bash, posix, other_settings_of_bash, no_folder_for_the_moment, the_settings_of_the_language, no_sums,
    a_path_that_is_not_a_text, a_path_like_an_option, a_list_without_the_program, a_list_with_more, a_planted_stamp, a_planted_stamp_of_too_few,
    a_right_stamp, a_pipe_for_what_was_seen, a_pipe_for_the_stamp, a_pipe_for_a_source, a_folder_for_what_was_seen, a_program_that_may_not_run,
    a_committed_folder,
]


def rows(room, source, program):
    """Each row with its own place, all old enough to be remembered."""
    places = [Place(os.path.join(room, row.__name__), source, program) for row in ROWS]
    time.sleep(2.1)
    return list(zip(ROWS, places))
