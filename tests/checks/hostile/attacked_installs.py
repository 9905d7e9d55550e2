"""Rows of tests/hostile.py: what installing and removing make of files that aren't theirs, of folders in a file's place, of calls at the same
time, and of what can't be written or removed. Each row is given a folder of its own with a checkout `co` in it."""
import os
import shutil
import subprocess

from . import fault_points
from .attacked_script import NO_ANSWER, Place, faults
from .small_checkout import write

# So many calls at the same time.
AT_ONCE = 6

# Bytes of a file system that has no room for all.
SMALL = 60_000


class Folder(Place):
    """A folder with a checkout, and the folder `in` for what is installed."""

    def __init__(self, path, source):
        super().__init__(path, source, None)
        self.prefix = os.path.join(path, "in")

    def install(self, environment={}):
        return self.call(["co/tso", "--install", self.prefix], environment)

    def uninstall(self):
        return self.call(["co/tso", "--uninstall", self.prefix])

    def tree(self):
        return fault_points.tree(self.prefix)

    def at(self, name):
        return os.path.join(self.prefix, name)


def refused(folder, call, *named):
    """The faults of a call that must be refused, name these files, and change nothing."""
    before = folder.tree()
    done = call()
    found = ["changed: " + line for line in fault_points.differences(before, folder.tree())]
    if done.returncode != NO_ANSWER:
        found.append("status %d" % done.returncode)
    return found + ["%s isn't named" % name for name in named if folder.at(name).encode() not in done.stderr]


def a_file_of_somebody(folder):
    """--install over a file of somebody else's."""
    write(folder.prefix, "bin/tso", "mine\n")
    write(folder.prefix, "share/doc/tso/README.md", "mine\n")
    return refused(folder, folder.install, "bin/tso", "share/doc/tso/README.md")


def a_link_of_somebody(folder):
    """--install over a link of somebody else's."""
    os.makedirs(folder.at("bin"))
    os.symlink("/bin/true", folder.at("bin/tso"))
    os.symlink("nowhere", folder.at("bin/tso-graph"))
    return refused(folder, folder.install, "bin/tso", "bin/tso-graph")


def a_file_that_was_changed(folder):
    """--install over an installed file that was changed since."""
    folder.install()
    write(folder.prefix, "share/doc/tso/README.md", "mine\n")
    return refused(folder, folder.install, "share/doc/tso/README.md")


def removing_a_changed_file(folder):
    """--uninstall of an installed file that was changed since."""
    folder.install()
    write(folder.prefix, "share/doc/tso/README.md", "mine\n")
    return refused(folder, folder.uninstall, "share/doc/tso/README.md")


def removing_a_changed_link(folder):
    """--uninstall of an installed link that leads elsewhere now."""
    folder.install()
    os.remove(folder.at("bin/tso-graph"))
    os.symlink("/bin/true", folder.at("bin/tso-graph"))
    return refused(folder, folder.uninstall, "bin/tso-graph")


def a_changed_file_of_an_earlier_version(folder):
    """--install where an earlier version put a file that was changed since."""
    write(folder.checkout, "docs/OLD.md", "# Old\n")
    folder.install()
    os.remove(os.path.join(folder.checkout, "docs", "OLD.md"))
    write(folder.prefix, "share/doc/tso/docs/OLD.md", "mine\n")
    return refused(folder, folder.install, "share/doc/tso/docs/OLD.md")


def a_folder_for_the_program(folder):
    """--install where a folder is in the program's place."""
    os.makedirs(folder.at("bin/tso"))
    return refused(folder, folder.install, "bin/tso")


def a_folder_for_a_link(folder):
    """--install where a folder is in a link's place."""
    os.makedirs(folder.at("bin/tso-graph"))
    return refused(folder, folder.install, "bin/tso-graph")


def a_file_for_a_folder(folder):
    """--install where a file is in a folder's place."""
    write(folder.prefix, "share/man", "mine\n")
    return refused(folder, folder.install)


def a_list_that_leads_out(folder):
    """--install over a list that leads out of its folder."""
    write(folder.path, "mine", "mine\n")
    write(folder.prefix, "share/tso/installed", "../mine\n")
    return refused(folder, folder.install, "share/tso/installed") + ([] if os.path.exists(os.path.join(folder.path, "mine")) else ["it is lost"])


def an_earlier_list_without_sums(folder):
    """What an earlier version installed, by a list of names alone, is replaced, and removed whole."""
    folder.install()
    if os.path.exists(folder.at("share/tso/digests")):
        os.remove(folder.at("share/tso/digests"))
        write(folder.prefix, "share/tso/installed", open(folder.at("share/tso/installed")).read().replace("share/tso/digests\n", ""))
    write(folder.prefix, "bin/tso", "an earlier program\n")
    found = faults(folder.install(), 0, b"", b"installed in ")
    found += faults(folder.uninstall(), 0, b"")
    return found + ["left: " + os.fsdecode(name) for name in (folder.tree() if os.path.exists(folder.prefix) else [])]


def an_empty_folder_of_somebody(folder):
    """--uninstall leaves an empty folder that was there before, and takes away the one that was made."""
    os.makedirs(folder.at("bin"))
    folder.install()
    found = faults(folder.uninstall(), 0, b"")
    found += ["left or lost: %r" % os.listdir(folder.prefix)] if os.listdir(folder.prefix) != ["bin"] else []
    os.rmdir(folder.at("bin"))
    os.rmdir(folder.prefix)
    folder.install()
    found += faults(folder.uninstall(), 0, b"")
    return found + (["the folder is left"] if os.path.exists(folder.prefix) else [])


def removing_itself(folder):
    """tso-uninstall, where the checkout is gone."""
    folder.install()
    shutil.rmtree(folder.checkout)
    done = folder.call(["in/bin/tso-uninstall"])
    return faults(done, 0, b"") + (["it is left"] if os.path.exists(folder.prefix) else [])


def without_the_right(words):
    """A command that may not write everything, as the one who may everything does."""
    return (["setpriv", "--bounding-set=-dac_override"] if os.getuid() == 0 else []) + words


def removing_without_the_right(folder):
    """--uninstall where a folder may not be written: that is said, and nothing is changed."""
    folder.install()
    os.chmod(folder.at("share/doc/tso/docs"), 0o555)
    found = refused(folder, lambda: folder.call(without_the_right(["co/tso", "--uninstall", folder.prefix])))
    os.chmod(folder.at("share/doc/tso/docs"), 0o755)
    return found


def installing_without_the_right(folder):
    """--install over an earlier version, where a folder may not be written: nothing is changed."""
    folder.install()
    write(folder.checkout, "docs/PAGE.md", "# A newer page\n")
    write(folder.checkout, "README.md", "# Newer\n")
    os.chmod(folder.at("share/doc/tso/docs"), 0o555)
    found = refused(folder, lambda: folder.call(without_the_right(["co/tso", "--install", folder.prefix])))
    os.chmod(folder.at("share/doc/tso/docs"), 0o755)
    return found


def no_folder_for_the_moment(folder):
    """--install with a TMPDIR that isn't a folder."""
    return faults(folder.install({"TMPDIR": "/dev/null/none"}), 0, b"", b"installed in ")


def a_hostile_environment(folder):
    """--install and --uninstall with CDPATH, GLOBIGNORE, POSIXLY_CORRECT and functions of the environment."""
    hostile = {"CDPATH": ".:/", "GLOBIGNORE": "*", "POSIXLY_CORRECT": "1", "BASH_FUNC_mv%%": "() { :; }", "BASH_FUNC_cd%%": "() { :; }"}
    wanted = Folder(os.path.join(folder.path, "wanted"), folder.source)
    wanted.install()
    found = faults(folder.install(hostile), 0, b"", b"installed in ")
    found += fault_points.differences(wanted.tree(), folder.tree())
    return found + faults(folder.call(["co/tso", "--uninstall", "in"], hostile), 0, b"")


def a_strange_name(folder):
    """A checkout and a folder whose names have signs of the shell."""
    name = "a & 'b' \"c\" $(d) `e` * \\ ;"
    os.rename(folder.checkout, os.path.join(folder.path, "co" + name))
    script, prefix = os.path.join("co" + name, "tso"), os.path.join("in" + name, "inner " + name)
    found = faults(folder.call([script, "run"]), 0, b"release run\n")
    found += faults(folder.call([script, "--install", prefix]), 0, b"", b"installed in ")
    found += faults(folder.call([os.path.join(prefix, "bin", "tso"), "run"]), 0, b"release run\n")
    found += faults(folder.call([script, "--uninstall", prefix]), 0, b"")
    return found + ["left or lost: %r" % other for other in os.listdir(folder.path) if other != "co" + name]


def names_of_its_own(folder):
    """--install where somebody has files by the names that it gives on the way."""
    write(folder.prefix, "bin/.tso-new/mine", "mine\n")
    found = refused(folder, folder.install, "bin/.tso-new")
    write(folder.prefix, ".tso-installing/mine", "mine\n")
    return found + refused(folder, folder.install, ".tso-installing/mine")


def several_at_once(folder):
    """Several calls at once: what is installed is whole, and each that isn't the one says so."""
    alone = Folder(os.path.join(folder.path, "alone"), folder.source)
    alone.install()
    words = ["co/tso", "--install", folder.prefix]
    calls = [subprocess.Popen(words, cwd=folder.path, stdin=subprocess.DEVNULL, stdout=subprocess.PIPE, stderr=subprocess.PIPE)
             for _ in range(AT_ONCE)]
    answers = [(call.communicate(timeout=fault_points.HANGS)[1], call.returncode) for call in calls]
    found = ["status %d: %r" % (status, told) for told, status in answers
             if status != 0 and (status != NO_ANSWER or b"another --install or --uninstall" not in told)]
    found += [] if any(status == 0 for _, status in answers) else ["none is done"]
    return found + fault_points.differences(alone.tree(), folder.tree())


def a_lock_of_another(folder):
    """--uninstall while another call is at work is refused."""
    folder.install()
    with subprocess.Popen(["flock", folder.prefix, "sh", "-c", "echo; read word"], stdin=subprocess.PIPE, stdout=subprocess.PIPE) as other:
        other.stdout.readline()
        return refused(folder, folder.uninstall)


def a_small_file_system(folder):
    """--install into a file system that is too small: nothing is left there."""
    os.mkdir(folder.prefix)
    line = ("mount -t tmpfs -o size=%d none in && echo mounted; co/tso --install in; echo $?; find in -mindepth 1" % SMALL)
    done = folder.call(["unshare", "-Urm", "sh", "-c", line])
    lines = done.stdout.split()
    if lines[:1] != [b"mounted"]:
        return []
    return [] if lines[1:] == [b"%d" % NO_ANSWER] else ["%r" % lines[1:5]]


ROWS = [
    a_file_of_somebody, a_link_of_somebody, a_file_that_was_changed, removing_a_changed_file, removing_a_changed_link,
    a_changed_file_of_an_earlier_version, a_folder_for_the_program, a_folder_for_a_link, a_file_for_a_folder, a_list_that_leads_out,
    an_earlier_list_without_sums, an_empty_folder_of_somebody, removing_itself, removing_without_the_right, installing_without_the_right,
    no_folder_for_the_moment, a_hostile_environment, a_strange_name, names_of_its_own, several_at_once, a_lock_of_another, a_small_file_system,
]


def rows(room, source):
    """Each row with its own folder."""
    return [(row, Folder(os.path.join(room, "installs", row.__name__), source)) for row in ROWS]
