"""The table of docs/FAQ.md that says what the orders of C++ become, held against the compilers that are there, for tests/documents.py.

Each row has an operation, its orders, and what gcc and clang may make of it. Each operation is compiled with each of its orders, with its
result used and not used. The instructions of the machine code that touch memory or order it are then one of the row's alternatives. The
page's command that judges such code by tools/compiled runs too, where its packages are there, and so do those of docs/OWN_CODE.md.
"""
import os
import re
import shutil
import subprocess
import tempfile

from checks.judging import EXAMPLES, TOP, content

PAGE = os.path.join(TOP, "docs", "FAQ.md")
HEADING = "## What do the orders of C++ become?"
OWN_CODE = os.path.join(TOP, "docs", "OWN_CODE.md")
SECONDS = 120

ORDERS = ("relaxed", "acquire", "release", "acq_rel", "seq_cst")
# What an operation is in C, by its name in the table; ORDER stands for its order.
RESULTS = {
    "load": "atomic_load_explicit(&x, ORDER)",
    "exchange": "atomic_exchange_explicit(&x, v, ORDER)",
    "fetch_add": "atomic_fetch_add_explicit(&x, v, ORDER)",
    "compare_exchange": "atomic_compare_exchange_strong_explicit(&x, &old, v, ORDER, memory_order_relaxed)",
}
EFFECTS = {"store": "atomic_store_explicit(&x, v, ORDER)", "fence": "atomic_thread_fence(ORDER)"}


def section():
    text = content(PAGE)
    return text[text.index("\n%s\n" % HEADING) + 1:].split("\n## ")[0]


def rows():
    """The rows of the table: an operation, its orders, and the instructions of each alternative."""
    for operation, orders, made in re.findall(r"^\| (\w+) \| ([^|]+) \| ([^|]+) \|$", section(), re.MULTILINE):
        if operation in RESULTS or operation in EFFECTS:
            named = ORDERS if orders == "all" else re.findall(r"`(\w+)`", orders)
            yield operation, tuple(named), [re.findall(r"`([A-Z ]+)`", alternative) for alternative in made.split(", or ")]


def functions(operation, order):
    """Functions in C that do only this: with the result used, and without."""
    word = "memory_order_" + order
    if operation in EFFECTS:
        return ["void NAME(int v, int old) { %s; }" % EFFECTS[operation].replace("ORDER", word)]
    call = RESULTS[operation].replace("ORDER", word)
    unused = [] if operation == "load" else ["void NAME(int v, int old) { %s; }" % call]
    return ["int NAME(int v, int old) { return %s; }" % call] + unused


def in_capitals(line):
    """The instruction of a line of assembly, if it touches memory or orders it."""
    words = line.split("#")[0].split()
    name = " ".join(words[:2] if words[0] == "lock" else words[:1]).upper()
    return name if "[" in line or name == "MFENCE" else None


def compiled(compiler, text, folder):
    """The instructions of each function of a text of C that touch memory or order it; None if the compiler refuses the text."""
    source = os.path.join(folder, "operations.c")
    with open(source, "w", encoding="utf-8") as file:
        file.write(text)
    words = [compiler, "-O2", "-fcf-protection=none", "-masm=intel", "-S", "-o", "-", source]
    done = subprocess.run(words, capture_output=True, text=True, timeout=SECONDS)
    if done.returncode != 0:
        return None
    found, name = {}, None
    for line in done.stdout.splitlines():
        label = re.match(r"(f\d+):", line)
        if label:
            name = label.group(1)
            found[name] = []
        elif name and re.match(r"\s+[a-z]", line):
            instruction = in_capitals(line)
            found[name] += [instruction] if instruction else []
            name = None if re.match(r"\s+ret", line) else name
    return found


def faults_of_compiler(compiler):
    wanted, lines = [], ["#include <stdatomic.h>", "atomic_int x;"]
    for operation, orders, alternatives in rows():
        for order in orders:
            for function in functions(operation, order):
                lines.append(function.replace("NAME", "f%d" % len(wanted)))
                wanted.append((operation, order, alternatives))
    with tempfile.TemporaryDirectory() as folder:
        found = compiled(compiler, "\n".join(lines) + "\n", folder)
    if found is None:
        return ["%s doesn't compile the operations" % compiler]
    return ["%s makes '%s' of %s %s" % (compiler, " ".join(found.get("f%d" % at, ["no function"])), operation, order)
            for at, (operation, order, alternatives) in enumerate(wanted) if found.get("f%d" % at) not in alternatives]


def has_packages():
    """Whether tools/compiled finds what it needs."""
    done = subprocess.run(["/usr/bin/python3", "-c", "import capstone, elftools"], capture_output=True, timeout=SECONDS)
    return done.returncode == 0 and shutil.which("gcc") is not None and shutil.which("clang") is not None


def faults_of_tests():
    """The tests of the page's command have each operation."""
    names = re.search(r"examples/c11/\{([^}]*)\}\.c", section()).group(1).split(",")
    texts = "".join(content(EXAMPLES, "c11", name + ".c") for name in names)
    called = {operation: re.search(r"atomic_\w+", call).group() for operation, call in (RESULTS | EFFECTS).items()}
    return ["no %s in the tests" % operation for operation, name in called.items() if name not in texts]


def faults_of_verdicts(program):
    """The page's command: each line that it prints ends with Ok."""
    command = re.search(r"^tools/compiled (.*)$", section(), re.MULTILINE).group(0)
    done = subprocess.run(["bash", "-c", "/usr/bin/python3 %s --program '%s'" % (command, program)], cwd=TOP, capture_output=True, text=True,
                          timeout=SECONDS)
    lines = done.stdout.splitlines()
    faults = ["not Ok: " + line for line in lines if not line.endswith(" Ok")]
    return faults if lines and done.returncode == 0 else faults + ["status %d: %s" % (done.returncode, done.stderr.strip()[:200])]


def faults_of_own_code(program):
    """The first commands of docs/OWN_CODE.md print what the page shows after them."""
    commands, shown = re.search(r"^```sh\n(.*?)^```$.*?^```text\n(.*?)^```$", content(OWN_CODE), re.MULTILINE | re.DOTALL).groups()
    tool = "/usr/bin/python3 '%s' --program '%s'" % (os.path.join(TOP, "tools", "compiled"), program)
    with tempfile.TemporaryDirectory() as folder:
        done = subprocess.run(["bash", "-c", re.sub(r"^tools/compiled", lambda found: tool, commands, flags=re.MULTILINE)], cwd=folder,
                              stdout=subprocess.PIPE, stderr=subprocess.STDOUT, text=True, timeout=SECONDS)
    return [] if done.stdout.strip() == shown.strip() else ["it prints " + done.stdout.strip()]


def rows_of(program):
    """The rows for tests/documents.py. What isn't there is said, and left out."""
    known = set(RESULTS) | set(EFFECTS)
    yield "operations of C++ in docs/FAQ.md", lambda: sorted(known - {operation for operation, _, _ in rows()})
    yield "tests of C++'s operations in docs/FAQ.md", faults_of_tests
    for compiler in ("gcc", "clang"):
        if shutil.which(compiler):
            yield "what %s makes of the orders of C++" % compiler, lambda compiler=compiler: faults_of_compiler(compiler)
        else:
            print("left out, what %s makes of the orders of C++: it isn't there" % compiler)
    if has_packages():
        yield "what tools/compiled says of the orders of C++", lambda: faults_of_verdicts(program)
        yield "what tools/compiled says of code of one's own", lambda: faults_of_own_code(program)
    else:
        print("left out, tools/compiled on the orders of C++: it needs python3-capstone, python3-pyelftools, gcc and clang")
