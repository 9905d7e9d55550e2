"""Tests as words of a command line name them, and what is said of a test and a compiler."""
import contextlib
import dataclasses
import os
import tempfile

import inputs
import keeper
import outputs
import sources

from . import compiling, reasons, tests, verdicts
from .objects import Image
from .refusals import NotJudged


@contextlib.contextmanager
def room():
    """A folder for the files of a moment, of this process and of compilers; it goes, and what was started ends, however the tool ends."""
    before = os.environ.get("TMPDIR")
    with keeper.Room(keeper.Keeper()) as folder:
        os.environ["TMPDIR"] = tempfile.tempdir = folder
        try:
            yield
        finally:
            tempfile.tempdir = None
            os.environ.pop("TMPDIR")
            if before is not None:
                os.environ["TMPDIR"] = before


def files_in(word):
    """The paths that a word stands for: a file; a folder, for all *.c and *.litmus below it; or @LIST, a file with such a word a line."""
    if word.startswith("@"):
        return [path for inner in sources.words_of_list(word[1:]) for path in files_in(inner)]
    if not os.path.isdir(word):
        return [word]
    found = sorted(os.path.join(inner, name) for inner, _, names in os.walk(word) for name in names if name.endswith((".c", ".litmus")))
    if not found:
        raise sources.NoTests("%s has no file *.c or *.litmus" % word)
    return found


def tests_in(words):
    """What these words name: each a path and its test; of a text that is no test the path and the refusal."""
    for path in [path for word in words for path in files_in(word)]:
        text = inputs.text(path, "utf-8", "replace")
        try:
            yield path, tests.read_test(path, text)
        except NotJudged as fault:
            yield path, fault


def judged(source, compiler, asked, asker):
    """The verdict on what one compiler makes of a test. `asked` has `unroll`, `why`, and perhaps `code` and a folder to `keep` tests in."""
    try:
        content = compiling.object_in(asked.code) if asked.code else compiling.object_of(compiler, source.test.text, source.test.name)
        source.read()
    except NotJudged as fault:
        return not_judged(source.test.name, compiler, fault)
    return of_object(source, compiler, content, asked, asker)


def of_object(source, compiler, content, asked, asker):
    """The verdict on these bytes of an object, which a compiler made of a test whose source has been read."""
    try:
        found, parts = verdicts.judge(source, compiler, Image(content), asked.unroll, asker)
        if parts is not None:
            compiled, cells, states, extra, shown = parts
            _keep(asked.keep, "%s-%s" % (source.test.name, compiler), compiled)
            if asked.why and extra:
                reason = reasons.reason_for(source, compiled, cells, states, extra[0], shown, asked.unroll, asker)
                found.why, found.reason = reason.lines(), dataclasses.asdict(reason)
        elif not asked.why:
            found.why = []
        return found
    except NotJudged as fault:
        return not_judged(source.test.name, compiler, fault)


def not_judged(name, compiler, fault):
    return verdicts.Verdict(name, compiler, verdicts.NOT_JUDGED, told=str(fault), is_exact=False)


# How a test begins that was kept.
KEPT = b"X86 path\n{ "


def _keep(folder, name, compiled):
    """Writes the tests of a program into files, in the place of those that were kept before alone."""
    if folder is None:
        return
    stem = os.path.join(folder, name.replace("/", "_").replace(" ", "_"))
    texts = {"%s-%d.litmus" % (stem, number): case.text.encode("ascii") for number, case in enumerate(compiled.splitting.cases)}
    outputs.write_all(texts, is_own=lambda found: found.startswith(KEPT))


def log_of(name, states):
    """What a log in herd's form says of a test and its states, given as texts."""
    lines = [state.replace(" ", "; ") + ";" for state in states]
    return "Test %s Allowed\nStates %d\n%s\nOk\n" % (name, len(lines), "\n".join(lines))
