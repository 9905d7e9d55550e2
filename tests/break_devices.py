#!/usr/bin/env python3
"""Breaks a built program's standard input and output, and looks for the word 'fault device', for the hint which of the two
failed, and for the status 5.

    tests/break_devices.py PROGRAM [--also PROGRAM]

Standard output is closed, full, a pipe whose reader left at once or in the midst of a report, open for reading alone, a file
that may not grow; standard input is closed, a folder, open for writing alone, without an end. What was taken is a beginning
of the answer, and nothing where standard input failed. A signal must not end the program.

Then each call on standard input and on standard output fails in turn, and none comes after it on the same side; and both
move one byte a call, which is enough for the whole answer. Of a further program (--also) every fourth call fails. A small
library does that, tests/checks/failing_calls.c, which is built with the C compiler and preloaded; without a C compiler that counts as
a failure.

At a terminal a command says that it reads from there, once, and only where standard error is a terminal too. The last line is
'N passed, M failed'.
"""
import fcntl
import itertools
import os
import resource
import subprocess
import sys
import tempfile
import termios
import time

sys.dont_write_bytecode = True
from checks import failing_calls, judging
from checks.judging import BAD_LINE, DIVIDER, ENDED, FAULT, INPUT_FAULT, INVALID, OUTPUT_FAULT, REFUSED, UNFINISHED

BOTH_LOADS = judging.STORE_BUFFERING + DIVIDER + judging.BOTH_LOADS_PASS

# A test whose report has several pages.
LONG_ROW = b" | ".join([b"LOCK XADD [a_name_of_thirty_two_bytes_whole],EAX"] * 4) + b" ;\n"
LONG_REPORT = b"X86 long\n{ 0:EAX=4294967295; }\n P0 | P1 | P2 | P3 ;\n" + LONG_ROW * 32 + DIVIDER + b"seed 1 2000\n"

# A command line, an input, and the status of its answer where the devices work.
JOBS = [
    ("run", BOTH_LOADS, ENDED),
    ("run", judging.STORE_BUFFERING + DIVIDER + b"0s 0s 0d", UNFINISHED),
    ("run", judging.STORE_BUFFERING + b")", REFUSED),
    ("run --depth 0", BOTH_LOADS, ENDED),
    ("run --bus split", judging.STORE_BUFFERING + DIVIDER + b"seed 1 2000", ENDED),
    ("run --json", BOTH_LOADS, ENDED),
    ("trace", BOTH_LOADS, ENDED),
    ("trace", judging.STORE_BUFFERING + DIVIDER + b"0s 0s 0d", UNFINISHED),
    ("check", judging.OWN_STORE_FIRST + DIVIDER + judging.OWN_STORE_FIRST_ORDER, ENDED),
    ("check", judging.OWN_STORE_FIRST + DIVIDER + b"Order\nEndorder 0\n", INVALID),
    ("witness", judging.OWN_STORE_FIRST + DIVIDER + judging.OWN_STORE_FIRST_ORDER, ENDED),
    ("sweep --seeds 3 --length 2000", judging.STORE_BUFFERING, ENDED),
    ("counts --seeds 3 --length 2000", judging.STORE_BUFFERING, ENDED),
    ("counts --seeds 3 --length 6 --json", judging.STORE_BUFFERING, UNFINISHED),
    ("outcomes", judging.OWN_STORE_FIRST, ENDED),
    ("outcomes --json", judging.OWN_STORE_FIRST, ENDED),
    ("outcomes --show all", judging.OWN_STORE_FIRST, ENDED),
    ("outcomes --assert --depth 0", judging.STORE_BUFFERING, INVALID),
    ("outcomes --assert --json --depth 0", judging.STORE_BUFFERING, INVALID),
    ("outcomes --states 3", judging.STORE_BUFFERING, UNFINISHED),
    ("why", judging.OWN_STORE_FIRST, ENDED),
    ("why --json", judging.OWN_STORE_FIRST, ENDED),
    ("why --model sc", judging.STORE_BUFFERING, ENDED),
    ("why --model sc --assert", judging.STORE_BUFFERING, INVALID),
    ("why --cases 1", judging.THREE_TURNS, UNFINISHED),
    ("tables", b"", ENDED),
]

# How many bytes a file may have, at most, that may not grow.
SHORT_FILE = 10

PAGE = 4096

ONE_BYTE = {"FAIL_SHORT": ""}

# What a terminal takes for the end of what is typed.
END_OF_INPUT = b"\x04"

READING = b"reading a test from the terminal; Ctrl-D ends it\n"

# A command line, whether standard error is a terminal too, and what is told there.
TERMINALS = [
    ("run", True, READING),
    ("outcomes", True, READING),
    ("run", False, b""),
    ("tables", True, b""),
]


def redirected(redirection):
    """A command that starts the program named after it with this redirection."""
    return ["sh", "-c", 'exec "$0" "$@" ' + redirection]


def fault_of(done, output=b"", told=OUTPUT_FAULT):
    return judging.difference(done, FAULT, output, told)


def unseen_fault_of(done):
    """The faults of an answer whose standard output can't be seen."""
    done.stdout = b""
    return fault_of(done)


def closed_output(program, words, given):
    return unseen_fault_of(judging.started(redirected(">&-") + [program.path] + words, given))


def full_output(program, words, given):
    return unseen_fault_of(judging.started(redirected("> /dev/full") + [program.path] + words, given))


def output_for_reading_alone(program, words, given):
    return unseen_fault_of(judging.started(redirected("1< /dev/null") + [program.path] + words, given))


def pipe_without_reader(program, words, given):
    reader, writer = os.pipe()
    os.close(reader)
    try:
        return unseen_fault_of(judging.started([program.path] + words, given, stdout=writer))
    finally:
        os.close(writer)


def full_pipe_that_does_not_wait(program, words, given):
    reader, writer = os.pipe()
    os.set_blocking(writer, False)
    try:
        while True:
            os.write(writer, b" " * PAGE)
    except BlockingIOError:
        pass
    try:
        return unseen_fault_of(judging.started([program.path] + words, given, stdout=writer))
    finally:
        os.close(reader)
        os.close(writer)


def file_that_may_not_grow(program, words, given):
    """A beginning is taken. The signal that tells of the limit is ignored, as a caller may have it."""
    whole = program.run(words, given).stdout
    with tempfile.TemporaryFile() as file:
        done = judging.started([program.path] + words, given, stdout=file, restore_signals=False,
                       preexec_fn=lambda: resource.setrlimit(resource.RLIMIT_FSIZE, (SHORT_FILE, SHORT_FILE)))
        file.seek(0)
        done.stdout = file.read()
    return fault_of(done, whole[:SHORT_FILE])


OUTPUTS = [
    ("standard output closed", closed_output),
    ("standard output full", full_output),
    ("standard output open for reading alone", output_for_reading_alone),
    ("standard output a pipe without a reader", pipe_without_reader),
    ("standard output a full pipe that doesn't wait", full_pipe_that_does_not_wait),
    ("standard output a file that may not grow", file_that_may_not_grow),
]

INPUTS = [
    ("standard input closed", "<&-"),
    ("standard input a folder", "< /"),
    ("standard input open for writing alone", "0> /dev/null"),
    ("standard input and error closed", "<&- 2>&-"),
    ("standard input closed and standard error full", "<&- 2> /dev/full"),
]


def input_faults(program, words, redirection):
    """What differs where standard input can't be read: `tables` reads none, and so prints its table."""
    done = judging.started(redirected(redirection) + [program.path] + words, None, stdin=subprocess.DEVNULL)
    errors = b"" if "2>" in redirection else INPUT_FAULT
    if words[0] == "tables":
        return judging.difference(done, ENDED, program.run(words, b"").stdout)
    return judging.difference(done, FAULT, b"", errors)


def reader_that_leaves(program):
    """The reader of a pipe takes a few bytes of a long report, waits until the pipe is full, and leaves."""
    whole = program.run(["run"], LONG_REPORT).stdout
    if len(whole) < 2 * PAGE:
        return ["the report is too short: %d bytes" % len(whole)]
    reader, writer = os.pipe()
    fcntl.fcntl(writer, fcntl.F_SETPIPE_SZ, PAGE)
    child = subprocess.Popen([program.path, "run"], stdin=subprocess.PIPE, stdout=writer, stderr=subprocess.PIPE)
    os.close(writer)
    child.stdin.write(LONG_REPORT)
    child.stdin.close()
    taken = os.read(reader, 10)
    for _ in range(200):
        waiting = fcntl.ioctl(reader, termios.FIONREAD, b"\0\0\0\0")
        if int.from_bytes(waiting, sys.byteorder) >= PAGE - len(taken):
            break
        time.sleep(0.01)
    os.close(reader)
    errors = child.stderr.read()
    child.stderr.close()
    done = subprocess.CompletedProcess([], child.wait(timeout=judging.PATIENCE), taken, errors)
    return fault_of(done, whole[:len(taken)])


def endless_input(program, words, recurring):
    """An input without an end is refused for its size, and no more is read than tells that."""
    done = judging.started(redirected("< /dev/zero") + [program.path] + words, None, stdin=subprocess.DEVNULL)
    faults = judging.difference(done, REFUSED, b"Refused input TooLarge\n")
    with tempfile.TemporaryFile() as file:
        file.write(recurring * (2 * judging.LONGEST_INPUT // len(recurring)))
        file.seek(0)
        done = judging.started([program.path] + words, None, stdin=file)
        read = os.lseek(file.fileno(), 0, os.SEEK_CUR)
    faults += judging.difference(done, REFUSED, b"Refused input TooLarge\n")
    if read > judging.LONGEST_INPUT + 1:
        faults.append("%d bytes were read" % read)
    return faults


def refused_line(program, redirection):
    """A refused command line has its status also where nothing can be told."""
    done = judging.started(redirected(redirection) + [program.path, "run", "--depth", "33"], b"")
    return ["status %s, and not %d" % (done.returncode, BAD_LINE)] if done.returncode != BAD_LINE else []


def judge_devices(program, jobs, tally):
    """The devices that can be broken without a library."""
    for line, given, status in jobs:
        words = line.split()
        done = program.run(words, given)
        tally.add(line, [("working devices", judging.difference(done, status, done.stdout))])
        tally.add(line, [(name, break_it(program, words, given)) for name, break_it in OUTPUTS])
    for line in dict.fromkeys(line for line, _, _ in jobs):
        tally.add(line, [(name, input_faults(program, line.split(), redirection)) for name, redirection in INPUTS])
        if not line.startswith("tables"):
            tally.add(line, [("standard input without an end", endless_input(program, line.split(), b"X86 t\n"))])
    tally.add("run", [("a reader that leaves in the midst of a report", reader_that_leaves(program))])
    tally.add("a refused line", [(to, refused_line(program, to)) for to in ("2>&-", "2> /dev/full", ">&- 2>&-")])


def at_a_terminal(program, words, typed, error_too):
    """The answer where standard input, and with error_too standard error, is a terminal at which this is typed; and what stands there."""
    ours, theirs = os.openpty()
    modes = termios.tcgetattr(theirs)
    modes[3] &= ~termios.ECHO
    termios.tcsetattr(theirs, termios.TCSANOW, modes)
    os.write(ours, typed + END_OF_INPUT)
    try:
        done = subprocess.run([program.path] + words, stdin=theirs, stdout=subprocess.PIPE, stderr=theirs if error_too else subprocess.PIPE,
                              timeout=judging.PATIENCE, check=False)
        os.set_blocking(ours, False)
        try:
            shown = os.read(ours, PAGE)
        except BlockingIOError:
            shown = b""
    finally:
        os.close(ours)
        os.close(theirs)
    return done, shown.replace(b"\r\n", b"\n")


def terminal_faults(program, words, error_too, told):
    """What differs from the answer to the same input from a pipe; this is told at the terminal beside it."""
    typed = b"" if words[0] == "tables" else BOTH_LOADS
    whole = program.run(words, typed)
    done, shown = at_a_terminal(program, words, typed, error_too)
    faults = [] if shown == told else ["at the terminal stands %r" % shown]
    if done.stdout != whole.stdout or done.returncode != whole.returncode or done.stderr:
        faults.append("another answer, or words on standard error: %r" % done.stderr)
    return faults


def judge_terminals(program, tally):
    tally.add("at a terminal", [(line, terminal_faults(program, line.split(), error_too, told)) for line, error_too, told in TERMINALS])


def with_calls(program, words, given, told):
    """The answer under the library, which is told so, and its notes of calls that failed or came after such a one."""
    done, noted = failing_calls.answer(program, words, given, told)
    return done, [word for word, _ in noted if word != "reading"]


def failing_in_turn(program, every, words, given, call, told):
    """By the number of the call that fails, each so many on from 1, the answer and the notes, up to and without the first run in which
    none does."""
    found = {}
    for at in itertools.count(1, every):
        done, noted = with_calls(program, words, given, dict(told, FAIL_CALL=call, FAIL_FIRST=str(at), FAIL_LAST=str(at)))
        if not noted:
            return found
        found[at] = done, noted


def judged(call, found, output_before):
    """For each call that failed its faults; what was taken before is given by the number of the call."""
    results = []
    for at, (done, noted) in found.items():
        faults = fault_of(done, output_before(at), INPUT_FAULT if call == "input" else OUTPUT_FAULT)
        if noted != ["failed"]:
            faults.append("a call came after the one that failed")
        results.append(("%s, call %d" % (call, at), faults))
    return results or [(call, ["no call came"])]


def judge_calls(program, every, line, given, status):
    """The results of all calls of this command line and input, or of one in so many."""
    words = line.split()
    whole = program.run(words, given).stdout
    done, _ = with_calls(program, words, given, ONE_BYTE)
    results = [("one byte a call", judging.difference(done, status, whole))]
    if words[0] != "tables":
        for told in ({}, ONE_BYTE):
            found = failing_in_turn(program, every, words, given, "input", told)
            results += judged("input", found, lambda at: b"")
    for told in (ONE_BYTE, dict(ONE_BYTE, FAIL_EMPTY="")):
        found = failing_in_turn(program, every, words, given, "output", told)
        results += judged("output byte by byte", found, lambda at: whole[:at - 1])
        is_all = list(found) == list(range(1, len(whole) + 1, every))
        results.append(("output byte by byte", [] if is_all else ["calls that took it: %s" % list(found)]))
    found = failing_in_turn(program, every, words, given, "output", {})
    taken = {at: done.stdout for at, (done, _) in found.items()}
    return results + judged("output", found, lambda at: whole[:len(taken[at])] if at > 1 else b"")


def main():
    programs = judging.programs_in(judging.with_programs(__doc__, with_part=False).parse_args())
    tally, calls = judging.Tally(), 0
    for program in programs:
        judge_devices(program, JOBS, tally)
    print("devices broken: %d" % (tally.passed + tally.failed - len(programs) * len(JOBS)))
    for program in programs:
        judge_terminals(program, tally)
    turns = judging.with_turns(programs) if failing_calls.is_there(tally) else []
    jobs = [(program, every, *job) for program, every in turns for job in JOBS]
    for job, results in zip(jobs, judging.in_processes(lambda job: judge_calls(*job), jobs, at_once=1)):
        calls += tally.add(job[2], results)
    print("calls on standard input and output that failed: %d" % calls)
    return tally.end()


if __name__ == "__main__":
    sys.exit(main())
