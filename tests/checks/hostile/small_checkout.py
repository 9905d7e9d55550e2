"""Small checkouts for the scripts that attack what stands around the program: the real ./tso and tools/, with a few texts and a program that
only says a word."""
import glob
import hashlib
import os
import shutil
import stat

from checks import program_starts

TOP = os.path.dirname(program_starts.TESTS)
VERSION = "9.9.9"
OF_A_RELEASE = ["release/" + name for name in ("PROOFS", "SOURCES", "TOOLCHAIN", "VERSION", "tso")]

# What the tools need to be loaded isn't asked here: a module of each folder is enough.
MODULES = ("words.py", os.path.join("tso", "__init__.py"), os.path.join("c11", "__init__.py"))

TEXTS = {
    "README.md": "# A small checkout\n\nCall `./tso run`, or read [this](docs/PAGE.md) and [that](crates.txt).\n",
    "CHANGELOG.md": "# Changes\n\n## %s (2026-01-01)\n\n- A line.\n" % VERSION,
    "docs/PAGE.md": "# A page\n\nCall `tools/cycles`.\n",
    "docs/tso.1": ".TH TSO 1\n",
    "completions/tso.bash": "# bash\n",
    "completions/_tso": "# zsh\n",
    "completions/tso.fish": "# fish\n",
    "examples/one.litmus": "X86 one\n",
    "view/index.html": "<p>tools/cycles</p>\n",
    "view/settings.js": "// './tso run'\n",
    "crates.txt": "tso:\n",
    "crates/tso/src/main.rt": "fn main\n",
    "crates/tso/specs/Main.antt": "-- a definition\n",
}


def write(folder, name, text, mode=0o644):
    """Writes a file below the folder, and the folders that it needs."""
    path = os.path.join(folder, name)
    os.makedirs(os.path.dirname(path), exist_ok=True)
    with open(path, "wb") as file:
        file.write(text if isinstance(text, bytes) else text.encode())
    os.chmod(path, mode)


def sums(folder, names):
    """The lines of sha256sum of these files below the folder."""
    lines = []
    for name in names:
        with open(os.path.join(folder, name), "rb") as file:
            lines.append("%s  %s\n" % (hashlib.sha256(file.read()).hexdigest(), name))
    return "".join(lines)


def saying(word):
    """A program that says this word, and its own words."""
    return '#!/bin/sh\n[ "$1" = --version ] && echo "tso %s" || echo %s "$@"\n' % (VERSION, word)


def write_release(folder, program):
    """Writes release/ with this program, of the sources that stand."""
    write(folder, "release/tso", program, 0o755)
    write(folder, "release/SOURCES", sums(folder, ["crates.txt", "crates/tso/src/main.rt"]))
    write(folder, "release/PROOFS", sums(folder, ["crates/tso/specs/Main.antt"]))
    write(folder, "release/TOOLCHAIN", "a toolchain\n")
    write(folder, "release/VERSION", VERSION + "\n")
    write(folder, "release/SHA256SUMS", sums(folder, OF_A_RELEASE))


def make(folder, source=TOP, program=saying("release"), texts={}):
    """Makes a checkout in this folder, with ./tso and tools/ of another one, and with these texts beside its own."""
    for path in [os.path.join(source, "tso")] + glob.glob(os.path.join(source, "tools", "*")):
        name = os.path.relpath(path, source)
        if os.path.isfile(path) and not name.endswith(".py"):
            with open(path, "rb") as file:
                write(folder, name, file.read(), stat.S_IMODE(os.stat(path).st_mode))
    for name in MODULES:
        if os.path.exists(os.path.join(source, "tools", name)):
            os.makedirs(os.path.join(folder, "tools", os.path.dirname(name)), exist_ok=True)
            shutil.copy(os.path.join(source, "tools", name), os.path.join(folder, "tools", name))
    for name, text in {**TEXTS, **texts}.items():
        write(folder, name, text)
    write_release(folder, program)
    return folder
