"""The module that ships, packed in view/module.js: what that script tells of it, and the program that it is held against.

Where the sources that it was made of are those that stand, that program is the built one. Where they are newer, it is release/tso of the
module's own sources: that of the commit that last touched view/module.js, which has to have these sources; or, where the history doesn't
reach so far, the one that stands, if it is of these sources.
"""
import hashlib
import os
import re
import subprocess
import typing
import zlib

import checks.tools  # puts the tools on the path
import packing
from checks.judging import TOP

SCRIPT = os.path.join("view", "module.js")

# The whole script, as tools/page writes it: it can do nothing but hold the module.
FORM = re.compile(
    rb"// The machine: the proved code of version (?P<version>[0-9.]+) as a module of WebAssembly\. Made by tools/page --renew: "
    rb"not to be changed by hand\.\n'use strict';\n\nconst MODULE = \{\n  version: '(?P=version)',\n"
    rb"  sources: '(?P<sources>[0-9a-f]{64})',\n  tools: '(?P<tools>[^'\\\n]+)',\n  packed:\n    '(?P<packed>[ !#-&(-;=-\[\]-~]+)',\n\};\n")

# What a digest is made of, by tools/digests, in this order; the first two are lists of a release too.
LISTS = ("sources", "proofs", "page")
# What of a commit is looked at.
OF_COMMIT = ("crates.txt", "crates", "tools", "release", "tests/data/rows")
GZIP = 31


class Fault(Exception):
    """The module can't be the one that its script says."""


class Unseen(Exception):
    """What can't be seen in this checkout."""


class Told(typing.NamedTuple):
    """What the script tells: the version, the digest of the sources, the tools, and the module."""
    version: str
    sources: str
    tools: str
    module: bytes


def bytes_in(*path):
    """The bytes of a file, its path given in parts."""
    with open(os.path.join(*path), "rb") as file:
        return file.read()


def unpacked(packed):
    """The bytes of a module, opened as strictly as a browser does."""
    try:
        opening = zlib.decompressobj(GZIP)
        module = opening.decompress(packing.bytes_of(packed if isinstance(packed, str) else packed.decode()))
    except (ValueError, zlib.error) as fault:
        raise Fault("its module can't be unpacked: %s" % fault) from None
    if not opening.eof or opening.unused_data:
        raise Fault("its module isn't packed as one whole")
    return module


def told(script):
    """What a script of a module tells."""
    found = FORM.fullmatch(script)
    if found is None:
        raise Fault("it isn't in the form that tools/page gives it")
    return Told(found["version"].decode(), found["sources"].decode(), found["tools"].decode(), unpacked(found["packed"]))


def lines(kind, tree):
    """The lines of tools/digests of this kind, of a checkout."""
    return subprocess.run([os.path.join(TOP, "tools", "digests"), kind, tree], stdout=subprocess.PIPE, check=True).stdout


def digest(*lists):
    return hashlib.sha256(b"".join(lists)).hexdigest()


def digest_of(tree):
    """The digest of all that a module is made of in this checkout."""
    return digest(*(lines(kind, tree) for kind in LISTS))


def has_release_of(tree, sources):
    """Whether the release of this checkout is of the sources that have this digest, by its lists and its sums."""
    release = os.path.join(tree, "release")
    if not os.path.isdir(release):
        return False
    whole = subprocess.run(["sha256sum", "--status", "--strict", "-c", "release/SHA256SUMS"], cwd=tree).returncode == 0
    return whole and digest(bytes_in(release, "SOURCES"), bytes_in(release, "PROOFS"), lines("page", tree)) == sources


def git(*words):
    """What git says of this checkout; None where it can't."""
    done = subprocess.run(["git", *words], cwd=TOP, stdout=subprocess.PIPE, stderr=subprocess.DEVNULL)
    return done.stdout.decode().strip() if done.returncode == 0 else None


def last_commit():
    """The commit that last touched the script."""
    if git("rev-parse", "--git-dir") is None:
        raise Unseen("there is no history here")
    commit = git("log", "-1", "--format=%H", "--", SCRIPT)
    if not commit:
        raise Fault("it isn't committed, and the sources that it names aren't those that stand")
    shallow = os.path.join(TOP, git("rev-parse", "--git-path", "shallow"))
    if os.path.exists(shallow) and commit in bytes_in(shallow).decode().split():
        raise Unseen("the history here is too short")
    return commit


def put(commit, room):
    """Puts what is looked at of a commit into a folder."""
    packed = subprocess.run(["git", "archive", commit, "--", *OF_COMMIT], cwd=TOP, stdout=subprocess.PIPE, check=True).stdout
    subprocess.run(["tar", "-x", "-C", room], input=packed, check=True)


def tree_of_release(sources, room):
    """The checkout that has the release of the sources with this digest: the commit's, in a folder that is empty; or this one."""
    try:
        commit = last_commit()
    except Unseen as unseen:
        if has_release_of(TOP, sources):
            return TOP
        raise Unseen("%s to find the release of its sources" % unseen) from None
    put(commit, room)
    if digest_of(room) != sources:
        raise Fault("the commit %s, which last touched it, had other sources than it names" % commit[:9])
    if not has_release_of(room, sources):
        raise Fault("the commit %s, which last touched it, had no release of its sources: tools/release makes that first" % commit[:9])
    return room
