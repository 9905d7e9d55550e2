#!/usr/bin/env python3
"""Holds a built program against the documents: README.md, the pages of docs/, and those of examples/.

    tests/documents.py PROGRAM [PART-OF-NAME]              runs every command block, and compares
    tests/documents.py --write PROGRAM [PART-OF-NAME]      writes the answers in the blocks of such documents anew
    tests/documents.py --sentences [FILE..]                the thirty longest sentences of these documents, or of all; needs no program

A command block is fenced as `console`. In it a line that begins with `$ ` is a command, with the lines up to the end of its
here-document, if it has one; what follows is all that a terminal shows then, standard output and standard error. `./tso` is
PROGRAM there. The blocks of a document run one after the other in one new folder, in which `examples`, `docs` and `tools` stand; so
`$ echo $?` shows the status of the command before it. A line `...` stands for lines that are left out.

Blocks fenced as `sh` aren't run: they prove, test, or need a fresh checkout, a browser or a pager (`./test`, `./tso --prove`).

Then come the sentences of README.md and the pages of docs/, none of more than 40 words (tests/checks/documents/sentence_lengths.py says how they are
counted), the words of README.md (1,200 at most), the links of all documents and the files that they name, the names of refusals among
the messages, the letters of breaches (each beside its axiom's name), the page of what is proved (short cells), the guided reading (each
definition with its file where it first has its name), the names of definitions, what each crate rests on and the functions that walks name
(docs/ARCHITECTURE.md, tests/checks/documents/code_walks.py), the list of all pages (docs/README.md), the lists of files that a further protocol
or command touches (docs/HACKING.md), and the tables of docs/REFERENCE.md (commands, options, statuses) and of docs/INPUT.md (limits), against
the program, its help, the manual page and the limits as plain numbers (tests/checks/documents/reference_tables.py). The table of what C++'s orders become, and the commands on code of one's own, are held
against the compilers that are there (tests/checks/documents/compiler_mapping.py), and each picture of docs/pictures/ is made anew
(tests/document_pictures.py). The last line is 'N passed, M failed'.
"""
import difflib
import functools
import glob
import os
import re
import subprocess
import sys
import tempfile

sys.dont_write_bytecode = True
from checks import judging
from checks.documents import code_walks, compiler_mapping, reference_tables, sentence_lengths
from checks.documents.reference_tables import README, SECONDS
from checks.judging import TOP, content

import document_pictures

MARK = "-- end of command --"


def documents():
    """The documents, README.md first."""
    pages = glob.glob(os.path.join(TOP, "docs", "*.md")) + glob.glob(os.path.join(TOP, "examples", "*.md"))
    return [README, os.path.join(TOP, "CHANGELOG.md")] + sorted(pages)


def short(path):
    return os.path.relpath(path, TOP)


# ---- command blocks

BLOCK = re.compile(r"^```console\n(.*?)^```$", re.MULTILINE | re.DOTALL)


def commands_in(block):
    """The commands of a block, each with the lines of its answer."""
    commands, lines = [], iter(block.splitlines())
    for line in lines:
        if not line.startswith("$ "):
            commands[-1][1].append(line)
            continue
        command = line[2:]
        end = re.search(r"<< '(\w+)'", command)
        while end and not command.endswith("\n" + end.group(1)):
            command += "\n" + next(lines)
        commands.append((command, []))
    return commands


def session(program, blocks):
    """The lines that each command of these blocks shows, one after the other in one new folder."""
    script = []
    for command, _ in (command for block in blocks for command in commands_in(block)):
        script.append("%s\n(status=$?; echo '%s'; exit $status)\n" % (command, MARK))
    with tempfile.TemporaryDirectory() as folder:
        os.symlink(program, os.path.join(folder, "tso"))
        for name in ("examples", "docs", "tools"):
            os.symlink(os.path.join(TOP, name), os.path.join(folder, name))
        done = subprocess.run(["bash", "-c", "".join(script)], cwd=folder, stdin=subprocess.DEVNULL, stdout=subprocess.PIPE,
                              stderr=subprocess.STDOUT, timeout=SECONDS)
    shown = done.stdout.decode("utf-8", "replace").split(MARK + "\n")[:-1]
    return [text.splitlines() for text in shown]


def fits(wanted, got):
    """Whether these lines are the wanted ones, where `...` stands for any."""
    form = "".join(r"(?:.*\n)*?" if line == "..." else re.escape(line + "\n") for line in wanted)
    return re.fullmatch(form, "".join(line + "\n" for line in got)) is not None


def rows_of_blocks(program, path):
    blocks = BLOCK.findall(content(path))
    if not blocks:
        return []
    shown = session(program, blocks)
    rows = []
    for at, (command, wanted) in enumerate(command for block in blocks for command in commands_in(block)):
        got = shown[at] if at < len(shown) else ["no answer"]
        faults = [] if fits(wanted, got) else list(difflib.unified_diff(wanted, got, "wanted", "got", lineterm="", n=1))[:40]
        rows.append(("%s: %s" % (short(path), command.splitlines()[0]), faults))
    return rows


def write_blocks(program, path):
    text = content(path)
    shown = iter(session(program, BLOCK.findall(text)))

    def written(found):
        lines = []
        for command, wanted in commands_in(found.group(1)):
            got = next(shown)
            lines += ["$ " + command] + (wanted if fits(wanted, got) else got)
        return "```console\n%s\n```" % "\n".join(lines)
    with open(path, "w", encoding="utf-8") as file:
        file.write(BLOCK.sub(written, text))


# ---- links, and files that are named

def heading_name(heading):
    return re.sub(r"[^\w\- ]", "", heading.replace("`", "").lower()).strip().replace(" ", "-")


def headings(path):
    return {heading_name(found) for found in re.findall(r"^#+ (.+)$", content(path), re.MULTILINE)}


def faults_of_links(path):
    faults = []
    for target in re.findall(r"\]\(([^)\s]+)\)", content(path)):
        if re.match(r"[a-z]+:", target):
            continue
        name, _, heading = target.partition("#")
        file = os.path.normpath(os.path.join(os.path.dirname(path), name)) if name else path
        if not os.path.exists(file):
            faults.append("no file for the link " + target)
        elif heading and file.endswith(".md") and heading not in headings(file):
            faults.append("no heading for the link " + target)
    return faults


ROOMS = ("completions", "crates", "docs", "examples", "packaging", "release", "tests", "tools", "view")


def faults_of_named_files(path):
    """Files in backquotes that begin with a folder of the project; `NAME`, `CRATE..` and the like stand for any, and what
    stands in a folder `out` is built."""
    faults = []
    for name in re.findall(r"`((?:%s)/[^`\s]*)`" % "|".join(ROOMS), content(path)):
        plain = re.sub(r"\b[A-Z]{3,}(\.\.)?(?=[/`.]|$)", "*", name)
        if "/out/" not in name and not glob.glob(os.path.join(TOP, plain)):
            faults.append("no file " + name)
    return faults


# ---- names, numbers and tables of single pages

def faults_of_names():
    """Each name that the program gives a refusal has a heading among the messages."""
    there = headings(os.path.join(TOP, "docs", "MESSAGES.md"))
    names = re.findall(r'Why::(\w+) =>', content(os.path.join(TOP, "crates", "litmus_tokens", "src", "fault.rt")))
    names += ["BadWord", "NoSuchCore", "TooMany", "NoOrder", "BadLine", "BadCount", "C1", "C2", "C3", "C4", "C5"]
    return ["no heading for " + name for name in sorted(set(names)) if name != "NoMemory" and name.lower() not in there]


AXIOMS = {"C1": "whole", "C2": "whole", "C3": "program ?order", "C4": "adjacent", "C5": "read ?values?"}


def faults_of_letters(path):
    """A passage that explains a letter has the name of its axiom; an answer of the program, in a block or a link, explains none."""
    text = re.sub(r"^```.*?^```$|\[C[1-5] P[^\]]*\]", "", content(path), flags=re.MULTILINE | re.DOTALL)
    passages = [passage for passage in text.split("\n\n") if not passage.startswith("#")]
    return ["%s without the axiom's name: %s.." % (letter, passage[:60].replace("\n", " ")) for passage in passages
            for letter in sorted(set(re.findall(r"\bC[1-5]\b", passage))) if not re.search(AXIOMS[letter], passage, re.IGNORECASE)]


def faults_of_gallery(path):
    """How many tests the gallery has, where a document says so."""
    tests = len(glob.glob(os.path.join(TOP, "examples", "gallery", "*.litmus")))
    return ["%s tests, and not %d" % (told, tests) for told in re.findall(r"(\d+) tests (?:of the literature|to try)", content(path))
            if int(told) != tests]


def faults_of_scripts():
    """docs/HACKING.md lists each script of tests/: each file there that can be started."""
    text = content(os.path.join(TOP, "docs", "HACKING.md"))
    listed = set(re.findall(r"^\| `(tests/[\w./]+)` \|", text[text.index("## The scripts of"):text.index("## A further command")], re.MULTILINE))
    paths = glob.glob(os.path.join(judging.TESTS, "*")) + glob.glob(os.path.join(judging.TESTS, "view", "*"))
    there = {short(path) for path in paths if os.path.isfile(path) and os.access(path, os.X_OK)}
    return ["%s is listed and isn't there, or is there and isn't listed" % name for name in sorted(listed ^ there)]


def below(crate, uses):
    """The crates of the project on which a crate rests, by what each uses."""
    found, open_ = set(), [crate]
    while open_:
        new = [name for name in uses[open_.pop()] if name in uses and name not in found]
        found.update(new)
        open_ += new
    return found


def faults_of_crates():
    """docs/ARCHITECTURE.md has a row for each crate. The crates that the row names, and what these rest on, are those of crates.txt."""
    uses = {name: used.split() for name, _, used in (line.partition(":") for line in content(os.path.join(TOP, "crates.txt")).splitlines())}
    text = content(os.path.join(TOP, "docs", "ARCHITECTURE.md"))
    rows = dict(re.findall(r"^\| `(\w+)` \| .* \|(.*)\|$", text[text.index("## Crates"):text.index("## Four walks")], re.MULTILINE))
    faults = ["%s has a row and is no crate, or is one and has none" % name for name in sorted(set(rows) ^ set(uses))]
    for crate in sorted(set(rows) & set(uses)):
        named = set(re.findall(r"`(\w+)`", rows[crate]))
        told = named.union(*(below(name, uses) for name in named & set(uses)))
        faults += ["%s rests on %s: in one of the page and crates.txt" % (crate, name) for name in sorted(told ^ below(crate, uses))]
    return faults


def faults_of_pages():
    """docs/README.md lists each other page of docs/."""
    index = os.path.join(TOP, "docs", "README.md")
    listed = set(re.findall(r"^\| \[`(\w+\.md)`\]\(\1\) \|", content(index), re.MULTILINE))
    there = {os.path.basename(path) for path in glob.glob(os.path.join(TOP, "docs", "*.md")) if path != index}
    return ["%s is listed and isn't there, or is there and isn't listed" % name for name in sorted(listed ^ there)]


def faults_of_crates_files():
    """Tables of docs/HACKING.md name files of a crate by a folder in backquotes, with the names that stand in it after a colon."""
    faults = []
    for crate, cell in re.findall(r"^\| `(\w+)` \| (.*) \|$", content(os.path.join(TOP, "docs", "HACKING.md")), re.MULTILINE):
        for folder, names in re.findall(r"`([\w/]+)/`: ([^;]*)", re.sub(r"\([^)]*\)", "", cell)):
            paths = [os.path.join("crates", crate, folder, name.strip()) for name in names.split(",")]
            faults += ["no file " + path for path in paths if not glob.glob(os.path.join(TOP, path) + ".*")]
    return faults


# A protocol and the commands by their names, as code, scripts and texts spell them. A change of these kinds touches each file that has them.
PROTOCOL = re.compile(r"\bmosi\b", re.IGNORECASE)
COMMANDS = {name[1:]: re.compile(r"\b[%s%s]%s\b" % (name[0], name[0].upper(), name[1:]))
            for name in ("trace", "sweep", "outcomes", "check", "witness")}
# Such files need no line in a list: what documents tell, data, what is built or written by a script, and laws that name single commands.
UNLISTED = ("CHANGELOG.md", "docs/", "examples/", "release/", "tests/data/", "view/module.js", "view/texts.js", "view/whole.js", "view/bench.js")


def tracked_files():
    """The files of the checkout that git knows, or, without it, those that stand in its folders."""
    done = subprocess.run(["git", "-C", TOP, "ls-files"], capture_output=True, text=True, timeout=SECONDS)
    if done.returncode == 0:
        return done.stdout.splitlines()
    return [short(path) for room in ROOMS for path in glob.glob(os.path.join(TOP, room, "**"), recursive=True) if os.path.isfile(path)]


def listed_files(heading):
    """The files that the tables of a section of docs/HACKING.md name, also those by their last names after a whole one."""
    text = content(os.path.join(TOP, "docs", "HACKING.md"))
    section = text[text.index("\n## %s\n" % heading) + 1:].split("\n## ")[0]
    listed = []
    for cell in re.findall(r"^\| ([^|]*) \|", section, re.MULTILINE):
        folder = ""
        for name in re.findall(r"`([^`]+)`", cell):
            folder = os.path.dirname(name) or folder
            listed += [name] if "/" in name else [name, os.path.join(folder, name)]
    return listed


def faults_of_list(heading, has_it):
    """A section of docs/HACKING.md names each file for which this holds of its text, or a folder that it stands in."""
    listed, faults = listed_files(heading), []
    for name in tracked_files():
        if name.startswith(UNLISTED) or any(name == told or name.startswith(told.rstrip("/") + "/") for told in listed):
            continue
        if has_it(text_of(name)):
            faults.append("%s isn't in the list of '%s'" % (name, heading))
    return faults


@functools.cache
def text_of(name):
    """The text of a file, its path from the top; an empty one where it is none."""
    try:
        return content(os.path.join(TOP, name))
    except (UnicodeDecodeError, OSError):
        return ""


def lists_the_protocols(text):
    return "mosi" in text.lower() and PROTOCOL.search(text) is not None


def lists_the_commands(text):
    """Whether a text names all but one of these commands or more, so that it goes by commands."""
    there = [name for rest, name in COMMANDS.items() if rest in text]
    return len(there) >= len(COMMANDS) - 1 and sum(bool(name.search(text)) for name in there) >= len(COMMANDS) - 1


def faults_of_defined_names():
    """The pages of definitions name them with their file in brackets: they are in a file of that name."""
    faults = []
    text = "\n".join(content(os.path.join(TOP, "docs", name)) for name in ("DEFINITIONS.md", "BRANCHES.md", "COUNTS.md", "REASONS.md"))
    for names, crate, file in re.findall(r"((?:`[A-Za-z_]\w*`(?:, )?)+) \((?:(\w+), )?([A-Z]\w+)\)", text):
        texts = [content(path) for path in glob.glob(os.path.join(TOP, "crates", crate or "*", "specs", "**", file + ".antt"), recursive=True)]
        if not texts and file.endswith("Fault"):  # a refusal of a relation, not of a file
            continue
        for name in re.findall(r"`(\w+)`", names):
            if os.path.isdir(os.path.join(TOP, "crates", name)):
                continue
            begins = re.compile(r"^(?:(?:pub )?(?:abbrev|unfoldable|record|data)(?: pub)? %s(?!\w)|use .*\b%s\b)" % (name, name), re.MULTILINE)
            if not any(begins.search(text) for text in texts):
                faults.append("no %s in a file %s" % (name, file))
    return faults


def faults_of_declared():
    """How many types and views of the code the definitions rest on, where a document says so."""
    done = subprocess.run([os.path.join(TOP, "tests", "declared_types.py")], capture_output=True, text=True, timeout=SECONDS)
    told = re.search(r"(\d+) types [^.;]*?\band (\d+) views", content(os.path.join(TOP, "docs", "PROVED.md")))
    last = done.stdout.splitlines()[-1:]
    return [] if told and last == ["%s types, %s views" % told.groups()] else ["tests/declared_types.py says %s" % last]


def faults_of_believed():
    """The table of what has to be believed is the one that is counted."""
    done = subprocess.run([os.path.join(TOP, "tests", "believed.py"), "--table"], capture_output=True, text=True, timeout=SECONDS)
    return [] if done.stdout and done.stdout in content(os.path.join(TOP, "docs", "PROVED.md")) else ["not the table of tests/believed.py"]


LONGEST_CELL = 300


def faults_of_cells():
    """A table of what is proved reads as a page where no cell is long."""
    text = content(os.path.join(TOP, "docs", "PROVED.md")) + content(os.path.join(TOP, "docs", "BRANCHES.md"))
    cells = (cell for row in text.splitlines() if row.startswith("|") for cell in row.split("|"))
    return ["a cell of %d bytes: %s.." % (len(cell), cell[:60]) for cell in cells if len(cell) > LONGEST_CELL]


def definitions():
    """The names of all definitions."""
    begins = re.compile(r"^(?:pub )?(?:abbrev|unfoldable|record|data)(?: pub)? (\S+)", re.MULTILINE)
    files = glob.glob(os.path.join(TOP, "crates", "*", "specs", "**", "*.antt"), recursive=True)
    return {name for path in files for name in begins.findall(content(path))}


MOST_WORDS_OF_README = 1200


def faults_of_readme():
    """README.md stays one page."""
    words = len(content(README).split())
    return ["%d words, and not %d at most" % (words, MOST_WORDS_OF_README)] if words > MOST_WORDS_OF_README else []


def faults_of_reading():
    """The guided reading names the file of a definition where it first has its name; a block goes with the words after it."""
    text = content(os.path.join(TOP, "docs", "READING.md"))
    faults, known, names = [], set(), definitions()
    for passage in re.split(r"\n\s*\n|\n(?=\|)|\n(?=- )", re.sub(r"(```\n)\n(?=[A-Z])", r"\1", text)):
        used = re.findall(r"`([A-Za-z_]\w*)(?: [^`]*)?`", passage)
        for block in re.findall(r"```\n(.*?)```", passage, re.DOTALL):
            used += re.findall(r"(?<![\w.])[A-Za-z_]\w*", block)
        new = [name for name in used if name in names - known]
        faults += ["no file for " + name for name in new if ".antt" not in passage]
        known.update(new)
    return faults


# ---- all

def rows_of(program):
    for path in documents():
        yield "links of " + short(path), lambda path=path: faults_of_links(path)
        yield "files that %s names" % short(path), lambda path=path: faults_of_named_files(path)
        yield "number of tests in " + short(path), lambda path=path: faults_of_gallery(path)
        yield "letters of breaches in " + short(path), lambda path=path: faults_of_letters(path)
    for path in sentence_lengths.pages():
        yield "length of sentences in " + short(path), lambda path=path: sentence_lengths.faults_of_length(path)
    yield from reference_tables.rows_of(program)
    yield from compiler_mapping.rows_of(program)
    yield from document_pictures.rows_of(program)
    yield "names of refusals", faults_of_names
    yield "scripts of tests/", faults_of_scripts
    yield "crates of docs/ARCHITECTURE.md", faults_of_crates
    yield "walks of docs/ARCHITECTURE.md", code_walks.faults_of_walks
    yield "pages of docs/README.md", faults_of_pages
    yield "files of crates in docs/HACKING.md", faults_of_crates_files
    yield "files that a further protocol touches", lambda: faults_of_list("A further protocol", lists_the_protocols)
    yield "files that a further command touches", lambda: faults_of_list("A further command or option", lists_the_commands)
    yield "names of definitions", faults_of_defined_names
    yield "types that the headline rests on", faults_of_declared
    yield "what has to be believed", faults_of_believed
    yield "cells of docs/PROVED.md", faults_of_cells
    yield "words of README.md", faults_of_readme
    yield "names in the guided reading", faults_of_reading


def check(words):
    tally = judging.Tally(shown=100)
    blocks = judging.in_threads(lambda path: rows_of_blocks(words.program, path), documents())
    tally.add("documents", [row for rows in blocks for row in rows if words.part in row[0]])
    rows = [row for row in rows_of(words.program) if words.part in row[0]]
    tally.add("documents", judging.in_threads(lambda row: (row[0], judging.faults_told(row[1])), rows))
    return tally.end()


def write(words):
    for path in documents():
        if words.part in short(path) and BLOCK.search(content(path)):
            write_blocks(words.program, path)
    return 0


if __name__ == "__main__":
    if sys.argv[1:2] == ["--sentences"]:
        sys.exit(0 if sentence_lengths.show(sys.argv[2:] or sentence_lengths.pages()) else 1)
    sys.exit(judging.check_or_write(judging.with_program(__doc__), check, write))
