#!/usr/bin/env python3
"""Holds the completions for bash, zsh and fish against what the program's --help says, command by command.

    tests/completions.py PROGRAM [FOLDER]

FOLDER has the completions, completions/ if none is named. Each command of --help, each option of a command, and each value of an
option that takes some values alone must be offered, and nothing else; and where the command is called by a path, as the script ./tso is,
the words that this has of its own. Bash is started and completes; the files of zsh and fish are read, and where these shells are there
they check the syntax. The last line is 'N passed, M failed'.
"""
import os
import re
import shutil
import subprocess
import sys

sys.dont_write_bytecode = True
from checks import judging

# Values that --help tells in words.
IN_WORDS = {"1, 2 or 4": ["1", "2", "4"]}


def help_of(program, *words):
    return subprocess.run([program, *words, "--help"], stdin=subprocess.DEVNULL, capture_output=True, text=True).stderr


def options_in(text):
    """The options of a help text, each with the values that it takes alone, or None where it takes no value."""
    found = {}
    for name, value, rest in re.findall(r"^ +(?:-\w, )?(--[\w-]+)( <\w+>)?  +(.*)$", text, re.M):
        listed = re.search(r"\[possible values: (.*?)\]", rest)
        in_words = [values for words, values in IN_WORDS.items() if words in rest]
        found[name] = None if not value else listed.group(1).split(", ") if listed else in_words[0] if in_words else []
    return found


def wanted(program):
    """For no command and each command what is offered after it, and for each option its values."""
    text = help_of(program)
    commands = re.findall(r"^  (\w+) ", text.split("Commands:\n")[1].split("\n\n")[0], re.M)
    after, values = {"": sorted(commands + list(options_in(text))), "help": sorted(commands)}, {}
    for command in commands:
        if command == "help":
            continue
        options = options_in(help_of(program, command))
        after[command] = sorted(options)
        values.update({name: sorted(given) for name, given in options.items() if given is not None})
    return after, values


def words_of_script():
    """What is offered beside the program's words where the script is called: after nothing, and after each of its words."""
    said = re.findall(r"^#   \./tso (--\w+)(?: \[(--\w+)\])?", judging.content(os.path.join(judging.TOP, "tso")), re.M)
    return {"": sorted(word for word, _ in said), **{word: [option] if option else [] for word, option in said}}


def offered_by_bash(file, words, called="tso"):
    script = ('. "$0"; COMP_WORDS=("$@"); COMP_CWORD=$(($# - 1)); _tso; printf "%s\\n" "${COMPREPLY[@]}"')
    out = subprocess.run(["bash", "-c", script, file, called, *words], capture_output=True, text=True).stdout
    return sorted(out.split())


def cases_of(text, function):
    """The words that the cases of a shell function echo, for each pattern of its cases."""
    body = re.search(r"^%s\(\) \{\n(.*?)^\}" % function, text, re.M | re.S).group(1)
    found = {}
    for patterns, words in re.findall(r"^    (.*?)\) echo ?(.*?) ?;;$", body, re.M):
        for pattern in patterns.split(" | "):
            found["" if pattern == "*" else pattern] = sorted(words.split())
    return found


# A line for the words of the script, and one for what comes after such a word.
FISH_SCRIPT = re.compile(r'complete -c tso -f -n "(?:__fish_use_subcommand; and string match -q \'\*/\*\' -- \(commandline -opc\)\[1\]|'
                         r'contains -- (--\w+) \(commandline -opc\))" (?:-l (\w+)|-a "\(__fish_complete_directories\)")$', re.M)


def script_in_fish(text):
    """What the file of fish offers where the script is called, as `words_of_script` has it."""
    found = {}
    for before, word in FISH_SCRIPT.findall(text):
        found.setdefault(before, []).extend(["--" + word] if word else [])
    return {before: sorted(words) for before, words in found.items()}


def read_fish(text):
    after, values = {"": []}, {}
    for line in text.splitlines():
        if FISH_SCRIPT.match(line):
            continue
        match = re.fullmatch(r'complete -c tso -f -n (__fish_use_subcommand|"__fish_seen_subcommand_from (\w+)")'
                             r'(?: -l ([\w-]+))?( -x)?(?: -a "?([^"]*)"?)?', line)
        if not match:
            if line and not line.startswith("#"):
                after["a line that isn't understood: " + line] = []
            continue
        command, option, takes, words = match.group(2) or "", match.group(3), match.group(4), match.group(5)
        offers = after.setdefault(command, [])
        if option is None:
            offers += words.split()
        else:
            offers.append("--" + option)
            if takes:
                values["--" + option] = sorted((words or "").split())
    return {command: sorted(offers) for command, offers in after.items()}, values


def differences(shell, kind, want, have):
    """A name and its faults for each key; none where both sides say the same."""
    for key in sorted(set(want) | set(have)):
        told = "--help has %s, the completion %s" % (want.get(key), have.get(key))
        yield "%s: %s %r" % (shell, kind, key), [] if want.get(key) == have.get(key) else [told]


def read_file(shell, file):
    """What a shell's file offers after each command, for each option, and where the script is called."""
    text = judging.content(file)
    if shell == "fish":
        # After these words nothing comes, so no line has them.
        return *read_fish(text), {"--prove": [], "--program": [], **script_in_fish(text)}
    after, values = cases_of(text, "_tso_options"), cases_of(text, "_tso_values")
    values.pop("", None)
    return after, values, cases_of(text, "_tso_script")


def rows_of_file(shell, file, after, values):
    """How a shell's file differs from --help, and what the shell says of its syntax."""
    have = read_file(shell, file)
    yield from differences(shell, "after", after, have[0])
    yield from differences(shell, "values of", values, have[1])
    yield from differences(shell, "the script's words after", words_of_script(), have[2])
    if shutil.which(shell):
        syntax = subprocess.run([shell, "-n", file], capture_output=True, text=True)
        yield "%s: its syntax" % shell, [] if syntax.returncode == 0 else [syntax.stderr.strip()]


def rows_of_bash(file, after, values):
    """How what bash offers, once it is started, differs from --help."""
    for command, words in after.items():
        have = offered_by_bash(file, [command, ""] if command else [""])
        yield from differences("bash, started", "after", {command: words}, {command: have})
    for option, words in values.items():
        have = offered_by_bash(file, ["run", option, ""])
        yield from differences("bash, started", "values of", {option: words}, {option: have})
    for word, words in words_of_script().items():
        have = offered_by_bash(file, [word, "-"] if word else [""], "./tso")
        wanted_here = words if word else sorted(after[""] + words)
        yield from differences("bash, started", "the script's words after", {word: wanted_here}, {word: have})


def main():
    parser = judging.with_program(__doc__, with_part=False)
    parser.add_argument("folder", metavar="FOLDER", nargs="?", default=os.path.join(judging.TOP, "completions"))
    asked = parser.parse_args()
    after, values = wanted(asked.program)
    tally = judging.Tally(shown=100)
    for shell, name in (("bash", "tso.bash"), ("zsh", "_tso"), ("fish", "tso.fish")):
        tally.add("completions", rows_of_file(shell, os.path.join(asked.folder, name), after, values))
    tally.add("completions", rows_of_bash(os.path.join(asked.folder, "tso.bash"), after, values))
    return tally.end()


if __name__ == "__main__":
    sys.exit(main())
