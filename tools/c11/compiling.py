"""Calls of compilers: C to an object, C to what clang says of it, assembly to an object."""
import os
import shlex
import shutil
import tempfile

import inputs
import tso.processes

from .refusals import NotJudged

# The line table that pyelftools reads of both gcc and clang.
OBJECT = ("-std=c11", "-w", "-gdwarf-4", "-c", "-o")
SOURCE = ("-std=c11", "-w", "-O0", "-gline-tables-only", "-S", "-emit-llvm", "-o")
CLANGS = ("clang", *("clang-%d" % number for number in range(20, 10, -1)))


def object_of(compiler, text, name, limit=None):
    """The bytes of the object that a compiler, given as words, makes of this text; subprocess.TimeoutExpired where it doesn't in so many
    seconds."""
    return _made(shlex.split(compiler), OBJECT, name + ".c", text, limit)


def source_of(text, name, limit=None):
    """What clang says of a text in C, in so many seconds."""
    clang = next(filter(None, map(shutil.which, CLANGS)), None)
    if clang is None:
        raise NotJudged("clang isn't there, which reads the source (Debian's package clang)")
    return _made([clang], SOURCE, name + ".c", text, limit).decode("utf-8", "replace")


def object_in(path):
    """The bytes of an object file; of assembly those that the assembler makes of it."""
    content = inputs.content(path)
    if content.startswith(b"\x7fELF"):
        return content
    return _made(["gcc"], ("-c", "-x", "assembler", "-o"), os.path.basename(path), content.decode("utf-8", "replace"))


def _made(compiler, words, name, text, limit=None):
    with tempfile.TemporaryDirectory() as folder:
        source, made = os.path.join(folder, name.replace("/", "_")), os.path.join(folder, "made")
        with open(source, "w", encoding="utf-8") as file:
            file.write(text)
        try:
            done = tso.processes.answered([*compiler, *words, made, source], limit=limit)
        except OSError as fault:
            raise NotJudged("%s can't be run: %s" % (compiler[0], fault.strerror)) from None
        if done.returncode or not os.path.exists(made):
            errors = done.stderr.decode("utf-8", "replace")
            said = next((line for line in errors.split("\n") if "error" in line.lower()), errors.strip().split("\n")[0])
            raise NotJudged("%s refuses it: %s" % (compiler[0], said.replace(folder + "/", "")))
        with open(made, "rb") as file:
            return file.read()
